#!/usr/bin/env python3
"""Tests that no word for a sed is passed in silence: python3 tests/mentions.py build/sedck-explain

Rows by hand have a file, and the words of it that must be told, with the lines of the one finding that tells of them. Then come files that
are drawn of pieces: a reading of docs/CALLS.md by regular expressions says which words are to be told, and the program must tell of
these and of no others. The status is 0 only where all is as it should be.
"""
import json
import os
import random
import re
import subprocess
import sys
import tempfile
from pathlib import Path

PROGRAM = os.path.abspath(sys.argv[1])
SAID = "this word for a sed isn't read as a call, and what it may run isn't judged"
failures = []


def fail(words):
    failures.append(words)
    print("mentions: " + words)


def reports(name, text):
    """The status, and the objects of the report on a file with this text."""
    with tempfile.TemporaryDirectory() as folder:
        Path(folder, name).write_text(text)
        done = subprocess.run([PROGRAM, "--format", "json", "--calls", name], cwd=folder, stdin=subprocess.DEVNULL, capture_output=True, timeout=60)
        if done.stderr:
            fail("%r: %s" % (text, done.stderr.decode()))
        return done.returncode, [json.loads(line) for line in done.stdout.splitlines()]


def places(objects):
    """The offsets of the places that aren't understood but for words, and the findings that tell of words."""
    found = [finding for one in objects for finding in one.get("findings", []) if finding["code"] == "not-understood"]
    words = [finding for finding in found if finding["message"].startswith(SAID)]
    return [finding["position"]["offset"] for finding in found if finding not in words], words


def message(lines):
    """What is said of words on these lines, after that of the first one."""
    named = "; so it is on line " + ", ".join(map(str, lines[:10])) if lines else ""
    return SAID + named + (", and on %d more" % (len(lines) - 10) if len(lines) > 10 else "")


# A name, the file, its text, where the finding is, and the further lines; no place where no word may be told of.
ROWS = [
    ("a word in quotes", "a.sh", "X=\"ip link | sed s/a/b/\"\n", "1:14", []),
    ("a word right after a quote", "a.sh", "X=\"sed s/a/b/\"\n", "1:4", []),
    ("the last word of a file", "a.sh", "run -x sed", "1:8", []),
    ("the second word of a line, after a call", "a.sh", "sed p f; run x=sed\n", "1:16", []),
    ("two words of a line, and one of the next", "a.sh", "x='a;sed' y=sed\nz=gsed\n", "1:6", [2]),
    ("a word after a place that is told otherwise", "a.sh", ": \"; x=sed\n", "", []),
    ("a word before a place that is told otherwise", "a.sh", "x=sed; : \"\n", "1:3", []),
    ("a word on the line after a place that is told otherwise", "a.sh", ": \"\nx=sed\n", "2:3", []),
    ("ten further lines", "a.sh", "x=sed\n" * 11, "1:3", list(range(2, 12))),
    ("more than ten further lines", "a.sh", "x=sed\n" * 14, "1:3", list(range(2, 15))),
    ("all names", "a.sh", "x=sed\nx=gsed\nx=ssed\nx=/usr/bin/sed\n", "1:3", [2, 3, 4]),
    ("$SED", "a.sh", "x=\"$SED p\"\n", "1:4", []),
    ("${SED:-sed}", "a.sh", "x=\"${SED:-sed} p\"\n", "1:4", []),
    ("$(SED)", "Makefile", "X = a '$(SED) p'\n", "1:8", []),
    ("@SED@", "a.sh.in", "x=\"@SED@ p\"\n", "1:4", []),
    ("no words", "a.sh", "x=\"used sedation.sed x.sed sed.x sed-x sed_x sedx -sed sed/x $SEDX ${SEDX} @SED @SEDX@ $(SEDX\"\n", "", []),
    ("comment lines", "a.sh", "# sed p\n  \t#sed p\nx=y # sed p\n", "3:7", []),
    ("dnl", "configure.ac", "dnl sed p\n  dnl(sed p)\ndnlx sed\n", "3:6", []),
    ("dnl elsewhere", "a.sh", "dnl x=sed\n", "1:7", []),
    ("the value of SED", "a.sh", "SED=sed\nSED=\"/bin/sed\"; SED='sed'\nexport SED=gsed\n", "", []),
    ("the value of SED in a makefile", "Makefile", "SED = @SED@\nSED := /bin/sed\nX=$(SED)\n", "3:3", []),
    ("the value of another variable", "a.sh", "MYSED=sed\n$SED=sed\n", "1:7", [2]),
    ("what is looked for", "a.sh", "command -v sed\nx=`which /bin/sed`\ntype sed\n", "", []),
    ("what isn't looked for", "a.sh", "xtype sed\n", "1:7", []),
    ("what an assignment has run", "a.sh", "x='type=which sed p'\n", "1:15", []),
    ("calls", "a.sh", "sed p f\n/bin/sed p f; \"sed\" p f\nx=`sed 1d f`\n", "", []),
]

# Runs of sed that no reading of shell text finds: what is printed for a shell, written, or run by another program.
SILENT = [
    "echo 'sed wevil f' | sh\n", "bash <(echo sed wevil f)\n", "{ sh; } <<E\nsed wevil f\nE\n", "cat > x.sh <<E\nsed wevil f\nE\nsh x.sh\n",
    "awk 'BEGIN { system(\"sed wevil f\") }'\n", "set -- sed; \"$1\" wevil f\n", "read x <<E\nsed\nE\n$x wevil f\n", "printf -v x %s sed; $x wevil f\n",
    "run() { \"$@\" wevil f; }\nrun sed\n", "echo sed wevil f | xargs env\n", "echo 'sed wevil f' | xargs -I% sh -c %\n", "perl -e 'system(\"sed wevil f\")'\n",
    "PS4='$(sed wevil f)'; set -x; :\n", "x='$(sed wevil f)'; echo \"${x@P}\"\n", "mapfile -t a <<< sed; ${a[0]} wevil f\n", "getopts t: o -t sed; $OPTARG wevil f\n",
]


def row(name, file, text, place, lines):
    status, objects = reports(file, text)
    others, words = places(objects)
    if not place:
        if words:
            fail("%s: %s" % (name, [word["message"] for word in words]))
        return
    at = ["%d:%d" % (word["position"]["line"], word["position"]["column"]) for word in words]
    if at != [place] or words[0]["message"] != message(lines) or status != 5:
        fail("%s: status %d, words at %s, %s, others at %s" % (name, status, at, [word["message"] for word in words], others))


def silent():
    for text in SILENT:
        status, objects = reports("a.sh", text)
        others, words = places(objects)
        if status != 5 or not others and not words:
            fail("in silence: %r, status %d" % (text, status))


# ---- Files that are drawn

PIECES = ["sed", "gsed", "ssed", "/bin/sed", "sed.x", "used", "$SED", "${SED}", "${SED:-sed}", "$(SED)", "@SED@", "$SEDX", "SED=", "SED = ", "which ", "type ", "command -v ",
          " ", " ", "\n", "\n", ";", "\"", "'", "#", "\n#", "dnl ", "=", "x", "-", "p f", "|", "run ", "echo ", "`", "$(", ")", "\t", "/", "."]
NAME = re.compile(r"(?<![\w.-])(?:sed|gsed|ssed)(?![\w./-])|\$[({]?SED(?!\w)|@SED@", re.ASCII)
IDLE = re.compile(r"(?:^|[^\w.$=-])(?:SED=[\"']?|SED :?= |command -v |which |type )[\w./-]*\Z", re.ASCII)
# A word that plainly is the name of a call: reports don't have where a name ends.
CALLED = re.compile(r"([\"']?)(?:[\w.-]*/)*(?:[gs]?sed|\$SED|\$\{SED(?::-sed)?\}|\$\(SED\)|@SED@)\1(?=[\s;|&<>()`]|\Z)", re.ASCII)


def named(text, has_macros):
    """The offsets of the words for a sed, with those of their lines, by docs/CALLS.md."""
    comment = re.compile(r"[ \t]*(?:#|dnl(?!\w))" if has_macros else r"[ \t]*#", re.ASCII)
    for found in NAME.finditer(text):
        start = text.rfind("\n", 0, found.start()) + 1
        if not comment.match(text, start) and not IDLE.search(text[:found.start()]):
            yield start, found.start()


def drawn(seed):
    """Whether a file that is drawn has a word to tell of, and whether the program tells of just these. None where a call has another name
    than the plain ones, as a path with quotes or a comment of M4 inside, of which it can't be told here where it ends."""
    chosen = random.Random(seed)
    text = "".join(chosen.choice(PIECES) for _ in range(chosen.randrange(1, 30)))
    name = chosen.choice(["a.sh", "configure.ac", "Makefile"])
    _, objects = reports(name, text)
    others, words = places(objects)
    found = [CALLED.match(text, one["call"]["offset"]) for one in objects if one.get("call")]
    if not all(found):
        return None
    calls = [one.span() for one in found]
    due = [offset for start, offset in named(text, name == "configure.ac")
           if not any(begin <= offset < end for begin, end in calls) and not any(start <= place <= offset for place in others)]
    lines = [text.count("\n", 0, offset) + 1 for offset in due]
    further = sorted(set(lines) - set(lines[:1]))
    said = [(word["position"]["offset"], word["message"]) for word in words]
    if said != [(offset, message(further)) for offset in due[:1]]:
        fail("drawn %d, %s: %r: due at %s, said %s" % (seed, name, text, due, said))
    return bool(due)


def main():
    for one in ROWS:
        row(*one)
    silent()
    seen = [drawn(seed) for seed in range(1500)]
    told, left_out = seen.count(True), seen.count(None)
    if told < 300 or left_out > 100:
        fail("of the drawn files %d have a word to tell of, and %d are left out" % (told, left_out))
    if not failures:
        print("mentions: %d rows and %d silent runs are as they should be, and so are %d drawn files, %d of which have words to tell of" % (len(ROWS), len(SILENT), len(seen) - left_out, told))
    return 1 if failures else 0


if __name__ == "__main__":
    sys.exit(main())
