#!/usr/bin/env python3
"""Tests wrapper/sedck-sed: python3 tests/command.py build/sedck-explain, in the folder of the repository.

It is installed in a scratch folder as `make install` does it. A command must run with the sed that asks first, and none where anything is
missing. So must what the pages and its help say of --dir, where the program is missing or fails. Each test runs with each shell of SHELLS
that the machine has. The status is 0 only where everything is as expected.
"""
import os
import re
import shutil
import subprocess
import sys
import tempfile
from pathlib import Path

from skips import present

TOP = Path(__file__).resolve().parent.parent
SHELLS = ("dash", "bash", "busybox sh")
# What pages and the help say of --dir.
SHOWN = re.compile(r"dir=\$\(sedck-sed --dir\) && PATH=\$dir:\$PATH")
# A part of the path is empty where the program fails.
OPEN = re.compile(r"PATH=\"?\$\(sedck-sed")
failures = []


def expect(is_so, what):
    if not is_so:
        failures.append(what)


class Place:
    """A folder with what is installed, and the folder `here` to work in."""
    def __init__(self, folder, shell, explain):
        self.top, self.here, self.shell = Path(folder).resolve(), Path(folder).resolve() / "here", shell
        for name in ("bin", "libexec/sedck", "here", "alone"):
            (self.top / name).mkdir(parents=True)
        self.install("libexec/sedck/sed", (TOP / "wrapper/sed").read_text())
        self.install("bin/sedck-sed", (TOP / "wrapper/sedck-sed").read_text())
        shutil.copy(explain, self.top / "bin/sedck-explain")
        self.own, self.first = str(self.top / "bin/sedck-sed"), str(self.top / "libexec/sedck")
        for name in {"env", "sh", "touch", shell.split()[0]}:
            (self.top / "alone" / name).symlink_to(shutil.which(name))

    def install(self, name, text):
        path = self.top / name
        path.write_text("#!/usr/bin/env -S %s\n" % self.shell + text.partition("\n")[2])
        path.chmod(0o755)

    def call(self, *words, given=b"", **variables):
        """The status, and what is printed on both streams; nothing of this machine's own settings of the wrapper counts."""
        environment = {name: value for name, value in os.environ.items() if not name.startswith("SEDCK_")}
        environment.update({"LC_ALL": "C", **{name: str(value) for name, value in variables.items()}})
        done = subprocess.run(words, cwd=self.here, env=environment, input=given, capture_output=True, timeout=60)
        return done.returncode, done.stdout, done.stderr

    def has_run(self):
        """Whether `touch ran` ran since this was asked."""
        there = (self.here / "ran").exists()
        (self.here / "ran").unlink(missing_ok=True)
        return there


def check_command(place):
    """A command's calls of sed are judged, its words and its status are its own, and the path has no empty part."""
    endless = (":a;ba",)
    for words, variables in ((["--mode", "refuse"], {}), (["--mode=refuse"], {}), (["--mode", "refuse", "--"], {}), ([], {"SEDCK_MODE": "refuse"}),
                             (["--mode", "refuse"], {"SEDCK_MODE": "log"})):
        status, out, said = place.call(place.own, *words, "sed", *endless, given=b"a\n", **variables)
        expect((status, out) == (120, b"") and b"[loop-idle]" in said, "a loop, %s, %s: %d, %s, %s" % (words, variables, status, out, said))
        found = place.call(place.own, *words, "sed", "s/a/b/", given=b"a\n", **variables)
        expect(found == (0, b"b\n", b""), "an accepted call, %s: %s" % (words, found))
        found = place.call(place.own, *words, "sh", "-c", "echo a | sed '$1' > out; echo $?; exit 7".replace("$1", endless[0]), **variables)
        expect(found[:2] == (7, b"120\n"), "a loop of a shell, %s: %s" % (words, found))
    status, out, said = place.call(place.own, "--mode", "warn", "sed", "-E", "s/(a)/<\\1>/", given=b"a\n")
    expect((status, out) == (0, b"<a>\n") and b"[other-language]" in said, "a call that is warned of: %d, %s, %s" % (status, out, said))
    found = place.call(place.own, "sed", "p", given=b"a\n", SEDCK_LOG=place.top / "log")
    expect(found == (0, b"a\na\n", b"") and '"accepted":true' in (place.top / "log").read_text(), "a call that is noted: %s" % (found,))
    for path in ("/usr/bin:/bin", os.environ["PATH"]):
        found = place.call(place.own, "--mode", "refuse", "sh", "-c", 'printf "<%s>" "$PATH" "$SEDCK_MODE" "$@"', "x", "a b", "", "--mode", PATH=path)
        expect(found == (0, b"<%s:%s><refuse><a b><><--mode>" % (place.first.encode(), path.encode()), b""), "words: %s" % (found,))
    expect(place.call(place.own, "--mode", "refuse", "no-such-command")[0] == 127, "a command that is missing")


def check_names(place):
    """The name of a script is printed on one line, with nothing that a terminal or a host of code would obey."""
    for name in (b"::error::x.sed", b" ::x.sed", b"a\x1b[1Ab.sed", b"a\rb.sed", b"a\n::error::b.sed", "a\u202eb.sed".encode()):
        path = Path(os.fsdecode(os.path.join(os.fsencode(place.here), name)))
        path.write_text(":a\nba\n")
        for mode, due in (("refuse", 120), ("warn", 0)):
            status, _, said = place.call(place.own, "--mode", mode, "sed", "-n", "-f", os.fsdecode(name), "/dev/null")
            expect(status == due and b"[loop-idle]" in said and not re.search(rb"(?m)[\0-\x09\x0b-\x1f\x7f-\xff]|^\s*::", said), "%s of %r: %d, %r" % (mode, name, status, said))
        path.unlink()


def check_words(place):
    """What --help and --dir print, and words that are invalid. Without a log nothing is judged in the mode `log`, so that nothing runs."""
    expect(place.call(place.own, "--dir")[:2] == (0, place.first.encode() + b"\n"), "--dir: %s" % (place.call(place.own, "--dir"),))
    expect(place.call(place.own, "--help")[0] == 0, "--help")
    for words in ([], ["--mode"], ["--mode", "refuse"], ["--mode", "refuse", "--"], ["--mode", "refse", "touch", "ran"], ["--mode=", "touch", "ran"], ["--dir", "touch", "ran"],
                  ["--other", "touch", "ran"], ["--mode", "refuse", "-x", "touch", "ran"], ["touch", "ran"], ["--mode", "log", "touch", "ran"]):
        status, out, said = place.call(place.own, *words)
        expect((status, out, place.has_run()) == (3, b"", False) and said.startswith(b"sedck-sed: "), "the words %s give %d, %s, %s" % (words, status, out, said))
    expect(place.call(place.own, "touch", "ran", SEDCK_MODE="none")[0] == 3 and not place.has_run(), "a mode of SEDCK_MODE that is none")


def check_missing(place):
    """Where something is missing the status is 127, and the command doesn't run."""
    explain, sed, alone = place.top / "bin/sedck-explain", place.top / "libexec/sedck/sed", str(place.top / "alone")

    def refuses(what, **variables):
        status, out, said = place.call(place.own, "--mode", "refuse", "touch", "ran", **variables)
        expect((status, out, place.has_run()) == (127, b"", False) and said.endswith(b"nothing is run\n"), "%s: %d, %s, %s" % (what, status, out, said))

    expect(place.call(place.own, "--mode", "refuse", "touch", "ran")[0] == 0 and place.has_run(), "with all that is needed nothing is run")
    refuses("no other sed", PATH=alone)
    refuses("no other sed than its own", PATH="%s:%s" % (place.first, alone))
    refuses("no other sed after its own", PATH="%s:%s:%s" % (os.environ["PATH"], place.first, alone))
    refuses("no sed that SEDCK_SED names", SEDCK_SED="/nowhere/sed")
    refuses("no program that SEDCK_EXPLAIN names", SEDCK_EXPLAIN="/nowhere/sedck-explain")
    refuses("a folder in place of it", SEDCK_EXPLAIN=place.top)
    explain.chmod(0o644)
    refuses("sedck-explain can't be run", PATH="/usr/bin:/bin")
    explain.rename(place.top / "kept")
    refuses("no sedck-explain", PATH="/usr/bin:/bin")
    (place.top / "kept").rename(explain)
    explain.chmod(0o755)
    sed.chmod(0o644)
    refuses("its sed can't be run")
    expect(place.call(place.own, "--dir")[0] == 4, "--dir where its sed can't be run")
    sed.unlink()
    refuses("its sed is missing")
    expect(place.call(place.own, "--dir")[:2] == (4, b""), "--dir without its sed")


def check_colon(folder, shell, explain):
    """A folder with a colon can't be in the path."""
    place = Place(folder, shell, explain)
    status, _, said = place.call(place.own, "--mode", "refuse", "touch", "ran")
    expect(status == 127 and b"colon" in said and not place.has_run(), "a colon: %d, %s" % (status, said))
    expect(place.call(place.own, "--dir")[:2] == (4, b""), "--dir with a colon")


def texts():
    """The files that people read or copy from, without the backslashes of manual pages."""
    for folder in ("docs", "man", "wrapper", "examples", "completions", "m4", "library", ".github", "tools"):
        yield from ((path, path.read_text(errors="replace").replace("\\-", "-")) for path in sorted((TOP / folder).rglob("*")) if path.is_file() and path.suffix != ".pyc")
    for name in ("README.md", "CHANGELOG.md", "CONTRIBUTING.md", "SECURITY.md", "action.yml", ".pre-commit-hooks.yaml", "Makefile"):
        yield TOP / name, (TOP / name).read_text()


def check_shown(place):
    """What is shown of --dir runs nothing where sedck-sed is missing or fails, and no text shows another way."""
    shown = {}
    for path, text in texts():
        expect(not OPEN.search(text), "%s shows a path that begins with an empty part where sedck-sed fails" % path.relative_to(TOP))
        if found := SHOWN.search(text):
            shown[path.name] = found[0]
    expect({"sedck-sed", "sedck-sed.1", "CALLS.md"} <= set(shown), "--dir is shown by %s" % sorted(shown))
    place.install("alone/sed", "#!/bin/sh\ntouch ran\n")
    for name, line in shown.items():
        for program, due in ((None, False), ("echo /nowhere; exit 4", False), ("exit 4", False), ("echo /nowhere", True)):
            (place.top / "alone/sedck-sed").unlink(missing_ok=True)
            if program:
                place.install("alone/sedck-sed", "#!/bin/sh\n%s\n" % program)
            for shell in ("sh", place.shell):
                status = place.call(*shell.split(), "-c", line + " SEDCK_MODE=refuse sed ':a;ba'", PATH=str(place.top / "alone"))[0]
                expect((status == 0, place.has_run()) == (due, due), "%s, %s, %s: the status is %d" % (name, program, shell, status))


def main():
    shells = present("command", "shells by which the program runs", SHELLS)
    explain = os.path.abspath(sys.argv[1])
    for shell in shells:
        before = len(failures)
        with tempfile.TemporaryDirectory(prefix="sedck-command-") as folder:
            for number, check in enumerate((check_command, check_names, check_words, check_missing, check_shown)):
                check(Place(os.path.join(folder, str(number)), shell, explain))
            check_colon(os.path.join(folder, "a:b"), shell, explain)
        failures[before:] = ["%s: %s" % (shell, failure) for failure in failures[before:]]
    for failure in failures:
        print("FAILED: " + failure)
    if not failures:
        print("command: it runs nothing where something is missing, with %s" % ", ".join(shells))
    return 1 if failures or not shells else 0


if __name__ == "__main__":
    sys.exit(main())
