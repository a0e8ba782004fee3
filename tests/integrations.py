#!/usr/bin/env python3
"""Tries what leads sedck to scripts where they live: python3 tests/integrations.py build/sedck-explain

m4/sedck.m4 in a package with and without Automake; each step of action.yml that bash can run, on an archive, a tree and a log; the lines for
editors of docs/RECIPES.md against what --format gcc prints. What a machine lacks is named, and its part is left out. The status is 0 only where
all is as it is due.
"""
import base64
import gzip
import hashlib
import json
import os
import re
import shutil
import subprocess
import sys
import tarfile
import tempfile
from pathlib import Path

from skips import has

TOP = Path(__file__).resolve().parent.parent
GOOD, LOOP = ":a\ns/x//\nt a\n", ":a\nb a\n"
wrong = []


def expect(holds, what):
    if not holds:
        wrong.append(what)
        print("integrations: " + what)


def run(words, folder, **environment):
    """The status, and all that is printed."""
    done = subprocess.run(words, cwd=folder, stdin=subprocess.DEVNULL, stdout=subprocess.PIPE, stderr=subprocess.STDOUT, encoding="utf-8",
                          env={**os.environ, **environment}, timeout=300)
    return done.returncode, done.stdout


# ---- Autoconf and Automake

def package(folder, uses_automake):
    """A package with two scripts, as its author writes it, and a configure made of it."""
    (folder / "scripts").mkdir()
    (folder / "scripts" / "a.sed").write_text(GOOD)
    (folder / "scripts" / "b c.sed").write_text("p\n")
    automake = "AM_INIT_AUTOMAKE([foreign])\n" if uses_automake else ""
    (folder / "configure.ac").write_text("AC_INIT([tried], [1])\nAC_CONFIG_MACRO_DIRS([m4])\n" + automake +
                                         "SEDCK_CHECK([scripts/*.sed], [--level error])\nAC_CONFIG_FILES([Makefile])\nAC_OUTPUT\n")
    if uses_automake:
        (folder / "Makefile.am").write_text("ACLOCAL_AMFLAGS = -I m4\nEXTRA_DIST = scripts\n@SEDCK_CHECK_RULES@\n")
    else:
        (folder / "Makefile.in").write_text("top_srcdir = @top_srcdir@\nSEDCK_EXPLAIN = @SEDCK_EXPLAIN@\nSEDCK_SCRIPTS = @SEDCK_SCRIPTS@\n"
                                            "SEDCK_OPTIONS = @SEDCK_OPTIONS@\nall:\ncheck:\n@SEDCK_CHECK_RULES@\n")
    (folder / "m4").mkdir()
    shutil.copy(TOP / "m4" / "sedck.m4", folder / "m4")
    status, said = run(["autoreconf", "-i", "-Wall"], folder)
    expect(status == 0 and "sedck.m4" not in said, "autoreconf ends with %d: %s" % (status, said))


def check_told(explain, folder, build, what):
    """What configure is told counts more than the program on the path."""
    (folder / "path").mkdir()
    (folder / "path" / "sedck-explain").symlink_to(explain)
    path = "%s:%s" % (folder / "path", os.environ["PATH"])
    for told in ("no", ""):
        status, said = run(["../sources/configure", "SEDCK_EXPLAIN=" + told], build, PATH=path)
        expect(status == 0, "%s: configure SEDCK_EXPLAIN=%s ends with %d: %s" % (what, told, status, said))
        status, said = run(["make", "check"], build, PATH=path)
        expect(status == 0 and "sedck-check: skipped" in said, "%s: after configure SEDCK_EXPLAIN=%s make check gives %d: %s" % (what, told, status, said))


def check_macro(explain, folder, uses_automake):
    sources, what = folder / "sources", "with automake" if uses_automake else "without automake"
    sources.mkdir()
    package(sources, uses_automake)
    build = folder / "build"
    build.mkdir()
    status, said = run(["../sources/configure", "SEDCK_EXPLAIN=" + explain], build)
    expect(status == 0, "%s: configure ends with %d: %s" % (what, status, said))
    status, said = run(["make", "check"], build)
    expect(status == 0 and "skipped" not in said, "%s: make check ends with %d: %s" % (what, status, said))
    (sources / "scripts" / "b c.sed").write_text(LOOP)
    status, said = run(["make", "check"], build)
    expect(status != 0 and "scripts/b c.sed:1:1: error: " in said, "%s: a loop gives %d: %s" % (what, status, said))
    status, said = run(["make", "check", "SEDCK_EXPLAIN=no"], build)
    expect(status == 0 and "sedck-check: skipped" in said, "%s: without the program make check gives %d: %s" % (what, status, said))
    (sources / "scripts" / "b c.sed").write_text("w out\n")
    status, said = run(["make", "check", "SEDCK_OPTIONS=--deny writes"], build)
    expect(status != 0 and "[denied-writes]" in said, "%s: other options give %d: %s" % (what, status, said))
    check_told(explain, folder, build, what)
    # Found on the path, and missing there.
    for name, due in (("sedck-explain", "0"), ("nothing", "skipped")):
        shutil.rmtree(folder / "path", ignore_errors=True)
        (folder / "path").mkdir()
        (folder / "path" / name).symlink_to(explain)
        path = "%s:%s" % (folder / "path", os.environ["PATH"]) if name != "nothing" else os.environ["PATH"]
        if name == "nothing" and shutil.which("sedck-explain"):
            continue
        run(["../sources/configure"], build, PATH=path)
        status, said = run(["make", "check"], build, PATH=path)
        expect(status == 0 and ("skipped" in said) == (due == "skipped"), "%s: %s on the path gives %d: %s" % (what, name, status, said))
    if uses_automake:
        status, said = run(["make", "distcheck"], build, DISTCHECK_CONFIGURE_FLAGS="SEDCK_EXPLAIN=" + explain)
        expect(status == 0 and "sedck-check: skipped" not in said, "make distcheck gives %d: %s" % (status, said[-2000:]))


# ---- The action

def steps_of_action():
    """The steps of action.yml, by name; the file has one spelling, which is read here without a library."""
    text = (TOP / "action.yml").read_text()
    steps = {}
    for part in re.split(r"^    - name: ", text, flags=re.M)[1:]:
        script = re.search(r"^      run: \|\n((?:        .*\n|\n)+)", part, re.M)
        names = dict(re.findall(r"^        (\w+): \$\{\{ inputs\.(\w+) \}\}$", part, re.M))
        steps[part.split("\n")[0]] = (re.sub(r"^        ", "", script[1], flags=re.M) if script else None, names)
    inputs = set(re.findall(r"^  (\w+):$", text.split("\nruns:")[0].split("\ninputs:")[1], re.M))
    return steps, inputs


def step(steps, name, folder, path, **inputs):
    text, names = steps[name]
    given = {word: inputs[source] for word, source in names.items()}
    return run(["bash", "-c", text], folder, GITHUB_ACTION_PATH=str(TOP), PATH=path, **given)


def check_action(explain, folder):
    steps, inputs = steps_of_action()
    expect({source for _, names in steps.values() for source in names.values()} | {"upload", "sarif"} == inputs, "the inputs of action.yml are %s" % inputs)
    expect(len(steps) == 4 and all(text for text, _ in steps.values()), "the steps of action.yml are %s" % list(steps))
    programs, tree = folder / "programs", folder / "tree"
    (tree / "deep").mkdir(parents=True)
    (tree / ".git").mkdir()
    (programs / "bin").mkdir(parents=True)
    shutil.copy(explain, programs / "bin" / "sedck-explain")
    with tarfile.open(folder / "archive.tar.gz", "w:gz") as archive:
        archive.add(programs, "sedck-1-kit")
    total = hashlib.sha256((folder / "archive.tar.gz").read_bytes()).hexdigest()
    if has("integrations", "how the action unpacks an archive", "curl", "sha256sum"):
        for number, due in ((total, 0), ("0" * 64, 1)):
            room = folder / ("room%d" % due)
            room.mkdir()
            text, names = steps["Unpack the programs"]
            status, said = run(["bash", "-c", text], folder, RUNNER_TEMP=str(room), GITHUB_PATH=str(room / "path"), ARCHIVE=(folder / "archive.tar.gz").as_uri(), SHA256=number)
            expect((status == 0) == (due == 0), "unpacking with %s gives %d: %s" % (number, status, said))
            expect((room / "path").exists() == (due == 0), "unpacking with %s writes the path" % number)
        where = (folder / "room0" / "path").read_text().strip()
        expect(os.access(where + "/sedck-explain", os.X_OK), "the archive's programs aren't in %s" % where)
    check_judging(steps, folder, tree, "%s:%s" % (programs / "bin", os.environ["PATH"]))
    check_no_paths(steps, tree, "%s:%s" % (programs / "bin", os.environ["PATH"]))
    if has("integrations", "how the action sends its log", "gzip", "base64"):
        check_sending(steps, folder)


def check_sending(steps, folder):
    """The log arrives whole, by a program `gh` that notes its words and the file that it is to send."""
    room = folder / "sending"
    room.mkdir()
    (room / "gh").write_text('#!/bin/sh\nprintf "%s\\n" "$@" > words\ncp "${10#sarif=@}" sent\n')
    (room / "gh").chmod(0o755)
    (room / "a log").write_text("the log\n" * 100)
    given = {"RUNNER_TEMP": str(room), "GITHUB_REPOSITORY": "an/owner", "GITHUB_SHA": "1" * 40, "GITHUB_REF": "refs/heads/x", "PATH": "%s:%s" % (room, os.environ["PATH"])}
    status, said = run(["bash", "-c", steps["Send the log"][0]], room, SARIF="a log", **given)
    due = ["api", "--method", "POST", "/repos/an/owner/code-scanning/sarifs", "-f", "commit_sha=" + "1" * 40, "-f", "ref=refs/heads/x", "-F", "sarif=@%s/sedck-log" % room]
    expect(status == 0 and (room / "words").read_text().splitlines() == due, "sending ends with %d: %s" % (status, said))
    expect(gzip.decompress(base64.b64decode((room / "sent").read_text())).decode() == "the log\n" * 100, "another log is sent")
    (room / "words").unlink()
    status, said = run(["bash", "-c", steps["Send the log"][0]], room, SARIF="no log", **given)
    expect(status != 0 and not (room / "words").exists(), "sending a log that isn't there ends with %d: %s" % (status, said))


def check_no_paths(steps, tree, path):
    """Where `paths` names nothing, nothing is judged, and the action fails."""
    for paths in ("", "\n", "\n\n"):
        for name in ("Write the log", "Judge scripts and calls"):
            status, said = step(steps, name, tree, path, paths=paths, deny="", sarif="../none.sarif")
            expect(status == 3 and "::error::sedck: the input paths names no" in said and not (tree.parent / "none.sarif").exists(),
                   "%s of the paths %r gives %d: %s" % (name, paths, status, said))


def check_links(steps, folder, tree, path, words, due):
    """What a link leads to isn't in the tree."""
    (folder / "outside").mkdir()
    (folder / "outside" / "loop.sed").write_text(LOOP)
    (tree / "shadow.sed").symlink_to(folder / "outside" / "loop.sed")
    (tree / "deep" / "shadows").symlink_to(folder / "outside")
    status, said = step(steps, "Write the log", tree, path, **words)
    run_of = json.loads((folder / "sedck.sarif").read_text())["runs"]
    expect(status == 0 and places_of(run_of[0]) == due, "the log of a tree with links: %d: %s %s" % (status, said, run_of))


def check_judging(steps, folder, tree, path):
    """The log of a tree, and the status of its scripts and calls, with programs that are on the path."""
    (tree / "good.sed").write_text(GOOD)
    (tree / ".git" / "hidden.sed").write_text(LOOP)
    (tree / "run.sh").write_text("sed 's/a/b/' in\nsed \"$x\" in\n")
    of_calls = [("run.sh", "unknowable", "warning", 2, 1, 2)]
    words = {"paths": ".\n", "deny": "", "sarif": "../sedck.sarif"}
    status, said = step(steps, "Write the log", tree, path, **words)
    run_of = json.loads((folder / "sedck.sarif").read_text())["runs"]
    expect(run_of[0]["automationDetails"] == {"id": "sedck/"}, "the category of the log is %s" % run_of[0].get("automationDetails"))
    expect(status == 0 and len(run_of) == 1 and places_of(run_of[0]) == of_calls, "the log of a good script: %d: %s %s" % (status, said, run_of))
    status, said = step(steps, "Judge scripts and calls", tree, path, **words)
    expect(status == 0, "a tree of which something is unknown gives %d: %s" % (status, said))
    check_links(steps, folder, tree, path, words, of_calls)
    (tree / "deep" / "loop.sed").write_text(LOOP)
    (tree / "deep" / "fault one.sed").write_text("p\ns/a\\+/b/\n")
    (tree / "deep" / "fault two.sed").write_text("s/[/b/;p\n")
    status, said = step(steps, "Write the log", tree, path, **words)
    log = json.loads((folder / "sedck.sarif").read_text())
    rules = [rule["id"] for rule in log["runs"][0]["tool"]["driver"]["rules"]]
    seen = {(one["locations"][0]["physicalLocation"]["artifactLocation"]["uri"], one["ruleId"], rules[one["ruleIndex"]], one["locations"][0]["physicalLocation"]["region"]["startLine"])
            for one in log["runs"][0]["results"] if one["level"] == "error"}
    check_calls(steps, folder, path)
    due = {("deep/loop.sed", "loop-idle", 1), ("deep/fault%20one.sed", "bad-escape", 2), ("deep/fault%20two.sed", "unclosed-bracket", 1)}
    expect(seen == {(file, code, code, line) for file, code, line in due}, "the results are %s" % seen)
    expect(len(log["runs"]) == 1 and len(set(rules)) == len(rules), "the rules are %s" % rules)
    status, said = step(steps, "Judge scripts and calls", tree, path, **words)
    expect(status == 2 and "deep/loop.sed:1:1: error: " in said, "a tree with a loop and faults gives %d: %s" % (status, said))
    status, said = step(steps, "Judge scripts and calls", tree, path, **{**words, "paths": "good.sed\n\ndeep/loop.sed\n"})
    expect(status == 1, "two paths give %d: %s" % (status, said))
    (tree / "writes.sed").write_text("w out\n")
    status, said = step(steps, "Judge scripts and calls", tree, path, **{**words, "paths": "writes.sed\n", "deny": "writes"})
    expect(status == 1 and "denied-writes" in said, "what is denied gives %d: %s" % (status, said))
    status, said = step(steps, "Write the log", tree, path, **{**words, "paths": "deep/none\n"})
    run_of = json.loads((folder / "sedck.sarif").read_text())["runs"]
    expect(status == 0 and run_of[0]["results"] == [], "a folder without scripts gives %d: %s" % (status, said))


def places_of(run_of):
    """The path, the rule, the level, and the line and columns of each result."""
    rules = [rule["id"] for rule in run_of["tool"]["driver"]["rules"]]
    expect(all(rules[one["ruleIndex"]] == one["ruleId"] for one in run_of["results"]), "the rules are %s" % rules)
    found = [(one, one["locations"][0]["physicalLocation"]) for one in run_of["results"]]
    return [(place["artifactLocation"]["uri"], one["ruleId"], one["level"], place["region"]["startLine"], place["region"]["startColumn"], place["region"]["endColumn"])
            for one, place in found]


def check_calls(steps, folder, path):
    """The log has what is found of calls, with the steps of a loop and columns that count characters, and a file that can't be read."""
    whole = folder / "calls"
    whole.mkdir()
    (whole / "a b.sh").write_text("echo '\u00e9'; sed ':a;ba' in\n")
    words = {"paths": "a b.sh\nnone\n", "deny": "", "sarif": "../sedck.sarif"}
    status, said = step(steps, "Write the log", whole, path, **words)
    run_of = json.loads((folder / "sedck.sarif").read_text())["runs"][0]
    due = [("a%20b.sh", "loop-idle", "error", 1, 16, 18), ("a%20b.sh", "label-to-the-line-end", "note", 1, 18, 21)]
    expect(status == 0 and places_of(run_of) == due, "the log of a call: %d: %s %s" % (status, said, places_of(run_of)))
    flow = run_of["results"][0]["codeFlows"][0]["threadFlows"][0]["locations"]
    expect([one["location"]["physicalLocation"]["region"]["startColumn"] for one in flow] == [16, 19, 16], "the steps of a call are %s" % flow)
    notes = [note for one in run_of["invocations"] for note in one["toolExecutionNotifications"]]
    expect([note["locations"][0]["physicalLocation"]["artifactLocation"]["uri"] for note in notes] == ["none"], "what can't be read is %s" % notes)


# ---- Editors

def check_editors(explain, folder):
    """Each line of --format gcc is one that the patterns of the recipes take, at its place."""
    page = (TOP / "docs" / "RECIPES.md").read_text()
    (folder / "two.sed").write_text("p\ns/a\\+/b/\n")
    (folder / "loop.sed").write_text(LOOP)
    lines = run([explain, "--format", "gcc", "--level", "note", "--", "two.sed", "loop.sed"], folder)[1].splitlines()
    expect(len(lines) > 3, "--format gcc prints %s" % lines)
    task = json.loads(re.search(r"^```json\n(.*?)^```", page, re.M | re.S)[1])["tasks"][0]
    expect(task["problemMatcher"] == "$gcc" and task["args"][:2] == ["--format", "gcc"], "the task is %s" % task)
    # The pattern that VS Code has by the name $gcc.
    gcc = re.compile(r"^(.*?):(\d+):(\d*):?\s+(?:fatal\s+)?(warning|error):\s+(.*)$")
    found = [(match[1], match[2], match[3], match[4]) for match in map(gcc.match, lines) if match]
    expect(("two.sed", "2", "4", "error") in found and ("loop.sed", "1", "1", "error") in found, "VS Code finds %s" % found)
    formats = re.findall(r'from_errorformat\(\{ "([^"]*)"', page)
    expect(formats == ["%f:%l:%c: %t%*[^:]: %m"], "the format of null-ls is %s" % formats)
    if has("integrations", "what Vim makes of --format gcc", "vim"):
        (folder / "lines").write_text("\n".join(lines) + "\n")
        script = "set errorformat=%s\ncgetfile lines\ncall writefile(map(getqflist(), 'bufname(v:val.bufnr).\":\".v:val.lnum.\":\".v:val.col.\":\".v:val.type'), 'seen')\nqa!\n"
        (folder / "read.vim").write_text(script % re.sub(r"([ |\\])", r"\\\1", formats[0]))
        run(["vim", "-u", "NONE", "-N", "-es", "-S", "read.vim"], folder)
        seen = (folder / "seen").read_text().splitlines() if (folder / "seen").exists() else []
        expect("two.sed:2:4:e" in seen and "loop.sed:1:1:e" in seen and len(seen) == len(lines), "null-ls finds %s" % seen)
    for program in ("sedck-lsp", "sedck-explain"):
        expect(program in page, "docs/RECIPES.md doesn't name %s" % program)


def main():
    explain = os.path.abspath(sys.argv[1])
    with tempfile.TemporaryDirectory(prefix="sedck-integrations-") as folder:
        if has("integrations", "the macro of Autoconf", "autoconf"):
            for uses_automake in [False] + [True] * has("integrations", "the macro of Autoconf with Automake", "automake"):
                (Path(folder) / str(uses_automake)).mkdir()
                check_macro(explain, Path(folder) / str(uses_automake), uses_automake)
        (Path(folder) / "action").mkdir()
        if has("integrations", "the action", "bash"):
            check_action(explain, Path(folder) / "action")
        check_editors(explain, Path(folder))
    if not wrong:
        print("integrations: the macro, the action and the lines for editors do what they should")
    return 1 if wrong else 0


if __name__ == "__main__":
    sys.exit(main())
