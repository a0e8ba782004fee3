#!/usr/bin/env python3
"""Follows what `sedck-explain` says of all scripts that the tests have: python3 tests/followed.py build/sedck-explain

Each script of the rows, the hints, the fixes, the examples and the pages that is refused or has a loop is changed by a program as it is
said: by its fixes, one after another; by the words "for `OLD` write `NEW`" of a hint, where OLD has WORD, NEW or X and is a line of the
script; and by the hints that write a loop out. Where the changed script is accepted, GNU sed must print the same by both on a hundred drawn
inputs, wherever it ends by the first one within two seconds. Inputs that a row of the hints excludes are left out.

A loop of which it is said that it never ends once it is entered must run for ever on some input, and of the loops here exactly those
of `CERTAIN` are said to be such. The first script of each section of docs/MENDING.md and docs/FAULTS.md must be led to this section, or to
the one that `ELSEWHERE` names. The status is 0 only where everything is as it should be.
"""
import glob
import json
import os
import re
import subprocess
import sys
import tempfile
from concurrent.futures import ThreadPoolExecutor
from pathlib import Path

import drawn
from fixes import CHARACTERS, ROWS as FIXES, UNGROUPED, WITHOUT, fixed
from hint_rows import ROWS as HINTS
from pages import sections
from skips import WHOLE, has_gnu_sed

TOP = Path(__file__).resolve().parent.parent
ENDLESS = "it never ends once it is entered"
# How often a command is repeated where it is to be "as often as it may be needed": a drawn line has at most 40 bytes, and 400 pairs that change places.
OFTEN = 400
# Rows may have scripts at the limits of length, which are no hints' matter.
LONGEST = 400


def of_rows(value):
    """The scripts in a table of rows."""
    if isinstance(value, dict):
        if isinstance(value.get("script"), str):
            yield value["script"]
        for one in value.values():
            yield from of_rows(one)
    elif isinstance(value, list):
        for one in value:
            yield from of_rows(one)


def all_scripts() -> list[str]:
    """The scripts that the tests have, each once, in order."""
    found = []
    for path in sorted(glob.glob(str(TOP / "tests" / "rows" / "*.json"))):
        found += of_rows(json.loads(Path(path).read_text(encoding="utf-8")))
    for row in HINTS:
        found += [row.refused, row.mended, *row.wrong]
    found += [row[1].decode("latin-1") for row in FIXES] + [row[1].encode().decode("latin-1") for row in CHARACTERS]
    found += [one.decode("latin-1") for one in WITHOUT] + [one.encode().decode("latin-1") for one in UNGROUPED]
    found += [path.read_text(encoding="latin-1") for path in sorted((TOP / "examples").glob("*.sed"))]
    for page in ("MENDING", "FAULTS"):
        for _, blocks in sections((TOP / "docs" / (page + ".md")).read_text(encoding="utf-8")):
            found += [text for kind, text, _ in blocks if kind == "sed"]
    found += LOOPS
    return [script for script in dict.fromkeys(found) if len(script) <= LONGEST and "\0" not in script and all(ord(byte) < 256 for byte in script)]


# Loops, of which some always end, some on some inputs, and some never.
LOOPS = [
    ":a\nba\n", ":a;$!N;ba\n", ":a;p;ba\n", ":a;n;$!ba;:b;bb\n", ":a;s/x/y/;ba\n", ":a;s/x/yy/;ba\n", ":a;s/x/x/;ta\n", ":a;s/x/&/;ta\n", ":a;s/x*/y/;ta\n",
    ":a;s/^x*//;ta\n", ":a;s/^ *//;ta\n", ":a;s/a*/b/2;ta\n", ":a;s/$/x/;ta\n", ":a;G;ba\n", "G;D\n", ":a;$!{N;ba};:b;$bb\n", ":a;$bb;N;:b;ba\n",
    ":a;s/x/y/;ta\n", ":a;s/x/yy/;ta\n", ":a;s/aa/b/;s/b/aa/;ta\n", ":a;/x/ba\n", "/x/!b;:a;ba\n", ":a;$!b;s/x/x/g;ta\n", ":a;s/x/x/2;ta\n",
    ":a;s/ab/ba/;ta\n", ":a;s/,,/,N,/;ta\n", ":a;s/^a/b/;ta\n", ":a;s/a$/b/;ta\n", ":a;s/a./b/;ta\n", ":a;s/[ab]/c/;ta\n", ":a;s/aa/b/;ta\n", ":a;s/aba/cdc/;ta\n",
    ":a;s/\\(foo.*\\)foo/\\1bar/;ta\n", ":a;s/l/m/;ta\n", ":a;/b/s/a/c/;ta\n", ":a;s/a/b/2;ta\n", ":a;s/a/b/p;ta\n", ":a;s/xy/ab/;ta\n",
    "s/a/b/;ta;:c;s/x/y/;tc;b;:a;s/z/w/\n", "s/a/b/;tc\n:c\ns/x/yz/\ntc\n", "/q/bc\ns/^/-/\n:c\ns/xy/ab/\ntc\ns/b/!/\n", ":a;s/x/y/;tb;:b;ta\n", ":a;s/x/&/;s/y/z/;ta\n", ":a;s/x/x/;s/y/y/;ta\n",
    ":a;s/x/&/;y/x/z/;ta\n", ":a;x;s/x/&/;ta\n", ":a;1!ba\n", ":a;1,/x/ba\n", ":a;/x/,/y/ba\n", "$!d;:a;s/b/c/;ta;ba\n", ":a;s/\\(a\\)*b*//;ta\n", ":a;s/x\\{0,3\\}/z/;ta\n",
    ":a;$!{n;ba};s/a/bb/;ba\n", ":a;N;$!ba;:c;s/a/b/;tc\n", ":a;s/^\\.*a*$/&/;ta\n", ":a;s/\\./../;ta\n", ":a;s/a\\.b/cd/;ta\n",
    ":a;s/b/c/;ta;ba\n", "/x/{;:a;s/b/c/;tc;ba;:c;/y/!ba;p;ba;}\nd\n", ":a;s/b/c/;ta;/x/ba\n", ":a;s/b/c/;tc;ba;:c;p\n", ":a;s/b/c/;ta;$d;ba\n",
    "/a/!d\n:a\ns//&/\n/b/p\nta\n",
]


def run(folder, script, given):
    """What GNU sed prints, or None where it isn't at the end within a second."""
    with open(os.path.join(folder, "loop.sed"), "w", encoding="latin-1", newline="") as file:
        file.write(script)
    try:
        with open(os.path.join(folder, "out"), "wb") as out:
            subprocess.run(["sh", "-c", "ulimit -f 2000; exec timeout 1 sed -f loop.sed"], cwd=folder, input=given.encode("latin-1"), stdout=out,
                           stderr=subprocess.PIPE, timeout=20, check=True, env={"PATH": os.environ["PATH"], "LC_ALL": "C"})
    except subprocess.CalledProcessError as error:
        # 124 of `timeout`, and what the limit on its output ends with.
        return None if error.returncode in (124, 153, -25, 4) else b""
    return Path(folder, "out").read_bytes()


def explained(explain: str, script: str) -> dict:
    with tempfile.TemporaryDirectory(prefix="sedck-followed-") as folder:
        path = os.path.join(folder, "script.sed")
        with open(path, "w", encoding="latin-1", newline="") as file:
            file.write(script)
        return json.loads(subprocess.run([explain, "--format", "json", path], capture_output=True, timeout=60, check=False).stdout)


def by_fixes(explain, script):
    """The script after all its fixes, if it has one."""
    text = script.encode("latin-1")
    for _ in range(30):
        step = fixed(explained(explain, text.decode("latin-1")), text)
        if step is None:
            return
        text = step[0]
        yield text.decode("latin-1")


# A loop over commands `s` alone: what precedes it, its label, its commands, and what follows.
LOOP = re.compile(r"(?s)^(?P<before>(?:.*[\n;{])?):(?P<label>\w+)[\n;](?P<body>(?:s/(?:[^/\\\n\[]|\\[^\n]|\[[^\]/\n]*\])*/(?:[^/\\\n]|\\[^\n])*/[g0-9p]*[\n;])+)t *(?P=label)(?P<after>(?:[\n;].*)?)$")


def by_repetition(script, hint):
    """A loop as the hint writes it."""
    match = LOOP.match(script)
    if not match:
        return
    label = ":%s\n" % match["label"] if "keep the label" in hint else ""
    if "keep the label" not in hint and re.search(r"[bt] *%s\b" % match["label"], match["before"] + match["after"]):
        return
    flag = "t c--\n:c--\n"
    rest = match["after"].lstrip("\n;")
    if hint.startswith("repeat the command"):
        yield match["before"] + label + match["body"].replace(";", "\n") * OFTEN + flag + rest
    if "one `s` with the flag `g`" in hint:
        yield match["before"] + label + match["body"].rstrip("\n;") + "g\n" + flag + rest


def templates(hint):
    """Each command of which the hint says what to write for it, and that."""
    for found in re.finditer(r"for `([^`]*)` write (.*?)(?=; |: |, and so for |$)", hint):
        new = []
        for times, text in re.findall(r"(twice )?`([^`]*)`", found[2]):
            new += [text] * (2 if times else 1)
        yield found[1], new


PLACES = ("WORD", "NEW", "X")


def by_template(script, hint):
    """The script with its command written as the hint says, where WORD, NEW and X stand for what it has there."""
    for old, new in templates(hint):
        form = re.escape(old)
        for place in PLACES:
            form = form.replace(place, r"(?P<%s>[^/\n]*)" % place, 1)
        if not any(place in old for place in PLACES):
            continue
        for flags in ("g", ""):
            match = re.search(r"(?m)^%s$" % (form if old.endswith("g") == bool(flags) else form[:-1] if old.endswith("g") else form + "g"), script)
            if not match:
                continue
            lines = []
            for index, text in enumerate(new):
                if text in new[:index] and not flags:
                    continue
                text = text[:-1] if text.endswith("/g") and not flags else text
                for place in PLACES:
                    if place in match.groupdict():
                        text = text.replace(place, match[place])
                lines.append(text)
            yield script[:match.start()] + "\n".join(lines) + script[match.end():]


def changed(explain, script, report):
    """Each script to which what is said of this one leads."""
    yield from by_fixes(explain, script)
    for finding in report["findings"]:
        if finding["level"] == "error" and finding["hint"]:
            yield from by_repetition(script, finding["hint"])
            yield from by_template(script, finding["hint"])


def excluded_of(script):
    """The inputs for which no hint promises anything: none, but for those that the row of a hint excludes."""
    for row in HINTS:
        if row.refused == script:
            return row.excluded
    return None


def follow(explain, script):
    """What is wrong with what is said of a script; how many scripts it led to."""
    report = explained(explain, script)
    wrong, count = [], 0
    if report["status"] == 0:
        return wrong, count, False
    for mended in dict.fromkeys(changed(explain, script, report)):
        if explained(explain, mended)["status"] != 0:
            continue
        count += 1
        difference, _ = drawn.differing("followed", script, mended, excluded_of(script))
        if difference is not None:
            wrong.append("of %r %r makes %r, and %r %r" % (difference[0], script, difference[1], mended, difference[2]))
    said = any(ENDLESS in finding["message"] for finding in report["findings"])
    if report["answer"] == "loop":
        wrong += wrong_words(script, said)
    return wrong, count, said


def wrong_words(script, said):
    """What is wrong with how a loop is called."""
    with tempfile.TemporaryDirectory(prefix="sedck-endless-") as folder:
        given = drawn.inputs("endless", script)[:12] + ["x\n", "xy\n\nx\n", "aaa\nx\n", "ab\nba\n"]
        never = [one for one in given if run(folder, script, one) is None] if said else []
    if said and not never:
        yield "%r is said to be endless, and ends on all inputs" % script


# Sections whose first script is led to another one, since its hint says more than one thing or what holds in general.
ELSEWHERE = {
    "MENDING.md#reading-on-where-a-line-is-incomplete": "MENDING.md#waiting-for-a-line",
    "MENDING.md#deleting-blank-lines-at-the-end": "MENDING.md#joining-lines",
    "MENDING.md#commas-in-numbers": "MENDING.md#carrying-a-digit",
    "MENDING.md#replacing-tabs": "MENDING.md#carrying-a-digit",
    "MENDING.md#replacing-up-to-a-delimiter": "MENDING.md#carrying-a-digit",
    "MENDING.md#loops-without-a-repair": "MENDING.md#reversing-a-line",
    "FAULTS.md#bad-address-steps-of-lines": "FAULTS.md#unknown-command",
    "FAULTS.md#extra-text-a-label-of-two-words": "FAULTS.md#extra-text",
    "FAULTS.md#bad-reference-to-nothing": "FAULTS.md#bad-reference-beside-a-repeated-group",
}


def wrong_sections(explain):
    """What is wrong with where the first scripts of sections are led."""
    for page in ("MENDING", "FAULTS"):
        text = (TOP / "docs" / (page + ".md")).read_text(encoding="utf-8")
        for name, blocks in sections(text):
            scripts = [block for kind, block, _ in blocks if kind == "sed"]
            report = explained(explain, scripts[0]) if scripts else {"findings": []}
            due = "%s.md#%s" % (page, re.sub(r"[^\w\- ]", "", name.lower()).replace(" ", "-"))
            for finding in report["findings"][:1]:
                if finding["level"] == "error" and finding["page"] != ELSEWHERE.get(due, due):
                    yield "the first script of %s is led to %s" % (due, finding["page"])


def main():
    explain, failures, followed = os.path.abspath(sys.argv[1]), 0, 0
    if not has_gnu_sed("followed", "all"):
        return WHOLE
    scripts, endless = all_scripts(), []
    with ThreadPoolExecutor(2) as pool:
        for script, (wrong, count, said) in zip(scripts, pool.map(lambda script: follow(explain, script), scripts)):
            followed += count
            endless += [script] if said else []
            for words in wrong:
                failures += 1
                print("FAILED: %s" % words)
    for words in wrong_sections(explain):
        failures += 1
        print("FAILED: %s" % words)
    missing = [script for script in CERTAIN if script not in endless]
    extra = [script for script in endless if script in LOOPS and script not in CERTAIN]
    for script in missing + extra:
        failures += 1
        print("FAILED: %r is %ssaid to be endless" % (script, "not " if script in missing else ""))
    print("followed: %d scripts, %d changed ones, %d endless, %d failures" % (len(scripts), followed, len(endless), failures))
    return 1 if failures or not followed or not endless else 0


# Those of the loops that never end once they are entered, by hand.
CERTAIN = [
    ":a\nba\n", ":a;$!N;ba\n", ":a;p;ba\n", ":a;n;$!ba;:b;bb\n", ":a;s/x/y/;ba\n", ":a;s/x/yy/;ba\n", ":a;s/x/x/;ta\n", ":a;s/x/&/;ta\n", ":a;s/x*/y/;ta\n",
    ":a;s/^x*//;ta\n", ":a;s/^ *//;ta\n", ":a;G;ba\n", ":a;$!{N;ba};:b;$bb\n", "/x/!b;:a;ba\n", ":a;$!b;s/x/x/g;ta\n", ":a;s/x/x/2;ta\n",
    ":a;$bb;N;:b;ba\n", ":a;s/\\(a\\)*b*//;ta\n", ":a;s/x\\{0,3\\}/z/;ta\n", ":a;$!{n;ba};s/a/bb/;ba\n", ":a;s/^\\.*a*$/&/;ta\n",
    "$!d;:a;s/b/c/;ta;ba\n", ":a;s/b/c/;ta;ba\n", "/x/{;:a;s/b/c/;tc;ba;:c;/y/!ba;p;ba;}\nd\n",
]

if __name__ == "__main__":
    sys.exit(main())
