#!/usr/bin/env python3
"""Tries wrapper/sedck-known with a given program: python3 tests/known.py build/sedck-explain

Scripts and calls that are accepted, that have a loop and that are refused, with and without entries for them; entries that fit no more, and
those of files that aren't looked at; what is denied; what is printed, written and left as it is; statuses. The entries that are due are
worked out here. The status is 0 only where all is as it is due.
"""
import hashlib
import os
import re
import shutil
import stat
import subprocess
import sys
import tempfile
from pathlib import Path

from skips import present

TOP = Path(__file__).resolve().parent.parent
KNOWN = TOP / "wrapper" / "sedck-known"
HEAD = b"# checksum, code, line:column and path of what sedck-known lets pass\n"
# A script, and its errors: code and place.
SCRIPTS = {
    "plain.sed": (b"p\n", []),
    "loop.sed": (b"p\n :a\ns/x/y/\nba\n", [b"loop-idle 2:2"]),
    "a name: 1:1.sed": (b":a\ns/x/xx/\nta\n", [b"loop-growing 2:1"]),
    "-n.sed": (b"s/a\n", [b"unterminated 1:1"]),
    'q"{"level":"error","code":"q.sed': (b"# \"position\":{\"offset\":9,\"line\":9,\"column\":9\n:a\nba\n", [b"loop-idle 2:1"]),
}
SHELLS, AWKS = ("dash", "bash --posix", "busybox sh"), ("gawk", "mawk", "busybox awk")
wrong = []


def expect(holds, what):
    if not holds:
        wrong.append(what)
        print("known: " + what)


def entries(*names):
    """The entries for the errors of these scripts."""
    return b"".join(b"%s %s %s\n" % (hashlib.sha256(text).hexdigest().encode(), error, name.encode()) for name in names for text, errors in [SCRIPTS[name]] for error in errors)


def lines(kind, *names):
    """What is printed for each of these errors. Of a script that is refused it isn't said that it is known."""
    return b"".join(b"%s: %s:%s: %s\n" % (b"not judged" if kind == b"known" and error.startswith(b"unter") else kind, name.encode(), error.split()[1], error.split()[0])
                    for name in names for error in SCRIPTS[name][1])


def counts(accepted=0, known=0, unjudged=0, others=0, unknown=None):
    """The last line."""
    of_calls = b"" if unknown is None else b", %d unknown before a run" % unknown
    return b"%d accepted, %d known, %d not judged, %d with other errors%s\n" % (accepted, known, unjudged, others, of_calls)


class Place:
    """A folder with the scripts."""
    def __init__(self, folder, explain):
        self.folder, self.explain = Path(folder), explain
        for name, (text, _) in SCRIPTS.items():
            self.write(name, text)

    def write(self, name, text, mode=0o644):
        path = self.folder / name
        path.write_bytes(text)
        path.chmod(mode)
        return path

    def run(self, *words, program=KNOWN, **environment):
        """The status, and what is printed."""
        done = subprocess.run([program, *words], cwd=self.folder, env={**os.environ, "SEDCK_EXPLAIN": self.explain, **environment},
                              stdin=subprocess.DEVNULL, stdout=subprocess.PIPE, stderr=subprocess.PIPE, timeout=600)
        return done.returncode, done.stdout, done.stderr


def check_words(place):
    place.write("none", b"")
    for words in ([], ["none"], ["none", "--"], ["--write"], ["--write", "none"], ["-n.sed", "plain.sed"], ["none", "-n.sed"], ["--check", "none", "plain.sed"], ["", "plain.sed"],
                  ["--help", "none"], ["--deny", "none", "plain.sed"], ["--deny"], ["--deny", "", "none", "plain.sed"], ["--deny", "a b", "none", "plain.sed"], ["--allow", "$x", "none", "plain.sed"],
                  ["--calls", "none"], ["--changed"], ["--call", "none", "plain.sed"]):
        status, out, said = place.run(*words)
        expect((status, out, said.startswith(b"sedck-known: usage: ")) == (3, b"", True), "%s: %d, %r, %r" % (words, status, out, said))
    status, out, said = place.run("--help")
    expect((status, out.startswith(b"usage: "), said) == (0, True, b""), "--help: %d, %r, %r" % (status, out, said))
    for text in (b"loop-idle 2:2 loop.sed\n", entries("loop.sed").upper(), b"# head\n\n" + entries("loop.sed") + b"x" + entries("loop.sed")[1:], b"a" * 64 + b" loop-idle 2 f\n",
                 b"a" * 64 + b" loop-idle 2:2\n", b"calls " + entries("loop.sed"), b"call" + entries("loop.sed"), b"call call " + entries("loop.sed")):
        place.write("bad", text)
        status, out, said = place.run("bad", "plain.sed")
        line = b"bad:4: no entry" if text.startswith(b"#") else b"bad:1: no entry"
        expect((status, out, line in said) == (3, b"", True), "%r: %d, %r, %r" % (text, status, out, said))


def check_passes(place):
    """What passes is accepted or has an entry for each error; the path, the code, the place and each byte count."""
    place.write("none", b"# no entry\n\n")
    expect(place.run("none", "plain.sed") == (0, counts(1), b""), "an accepted script: %s" % (place.run("none", "plain.sed"),))
    names = list(SCRIPTS)
    place.write("all", b"# why\n\n" + entries(*names))
    for due in (names, names[::-1]):
        found = place.run("all", "--", *due)
        expect(found == (0, lines(b"known", *due) + counts(1, 3, 1), b""), "all are known: %s" % (found,))
    for name, status in (("loop.sed", 1), ("a name: 1:1.sed", 1), ("-n.sed", 2)):
        found = place.run("none", "--", name)
        expect(found[0] == status and b"%s:%s: error: " % (name.encode(), SCRIPTS[name][1][0].split()[1]) in found[1], "%s without an entry: %s" % (name, found))
        whole = entries(name)
        for old, new in ((whole[:1], b"0" if whole[:1] != b"0" else b"1"), (b" loop", b" leap"), (b" unter", b" inter"), (b":", b":1"), (name.encode(), b"./" + name.encode())):
            if old not in whole:
                continue
            place.write("other", whole.replace(old, new, 1))
            found = place.run("other", "--", name)
            expect(found[0] == status and b"\nstale: " in found[1] and b"known: " not in found[1] and b"not judged: " not in found[1], "%s with %r for %r: %s" % (name, new, old, found))
    place.write("loop.sed", SCRIPTS["loop.sed"][0] + b"#\n")
    found = place.run("all", "--", *names)
    expect((found[0], lines(b"stale", "loop.sed") in found[1]) == (1, True), "a script that has changed: %s" % (found,))
    place.write("loop.sed", SCRIPTS["loop.sed"][0])


def check_names(place):
    """A name is printed as sedck-explain prints it: on one line, and with nothing that a terminal or a host of code would obey."""
    loop = SCRIPTS["loop.sed"][0]
    for name, shown in ((b"a\x1b[1A\x1b[2Kb.sed", None), (b"a\rb.sed", None), ("a\u202eb.sed".encode(), None), (b"::error::x.sed", b"./::error::x.sed"), (b" ::x.sed", b"./ ::x.sed"),
                        (b"a\xffb.sed", None), (b"a\x7fb.sed", None), ("\u00e9.sed".encode(), "\u00e9.sed".encode())):
        path = Path(os.fsdecode(os.path.join(os.fsencode(place.folder), name)))
        path.write_bytes(loop)
        place.write("none", b"# no entry\n")
        report = place.run("none", "--", os.fsdecode(name))[1]
        printed = report.partition(b":2:2: ")[0]
        expect(b":2:2: " in report and shown in (None, printed) and (shown or name not in printed) and not re.search(rb"[\0-\x1f\x7f\xff]|\xe2\x80\xae|^\s*::", printed),
               "%r in a report is %r" % (name, printed))
        expect(place.run("--write", "own", "--", os.fsdecode(name))[1].startswith(b"known: " + printed + b":2:2: "), "--write of %r" % name)
        expect(place.run("own", "--", os.fsdecode(name))[:2] == (0, b"known: " + printed + b":2:2: loop-idle\n" + counts(0, 1)), "an entry of %r" % name)
        path.write_bytes(b"p\n")
        found = place.run("own", "--", os.fsdecode(name))
        expect(found[:2] == (1, b"stale: " + printed + b":2:2: loop-idle\n" + counts(1)), "a stale entry of %r: %s" % (name, found))
        path.unlink()
        expect(place.run("own", "--", os.fsdecode(name))[2] == b"sedck-known: " + printed + b": it can't be read\n", "%r isn't there" % name)


def check_stale(place):
    """Entries that fit nothing fail, whatever else is there; where a script can't be read, nothing is said of them."""
    place.write("loops", entries("loop.sed", "-n.sed"))
    found = place.run("loops", "plain.sed", "loop.sed")
    expect(found == (1, lines(b"known", "loop.sed") + lines(b"stale", "-n.sed") + counts(1, 1), b""), "a stale entry: %s" % (found,))
    for names in (["missing.sed"], ["."], ["a\nb"]):
        found = place.run("loops", *names, "loop.sed")
        expect((found[0], b"stale" in found[1], found[2].startswith(b"sedck-known: ")) == (4, False, True), "%s: %s" % (names, found))
    found = place.run("missing", "loop.sed")
    expect(found == (4, b"", b"sedck-known: missing: it can't be read\n"), "a file of entries that isn't there: %s" % (found,))
    found = place.run("loops", "loop.sed", SEDCK_EXPLAIN="/nowhere")
    expect((found[0], b"known: " in found[1]) == (4, False), "without the program: %s" % (found,))


def check_written(place):
    """--write writes the entries that are due, and nothing where a script can't be read."""
    names = list(SCRIPTS)
    found = place.run("--write", "new", "--", *names)
    expect(found == (0, lines(b"known", *names) + counts(1, 3, 1), b""), "--write: %s" % (found,))
    expect((place.folder / "new").read_bytes() == HEAD + entries(*names), "--write writes %r" % (place.folder / "new").read_bytes())
    expect(place.run("new", "--", *names)[0] == 0, "what --write has written doesn't pass")
    place.write("old", b"# mine\n" + entries("-n.sed"), 0o640)
    place.run("--write", "old", "loop.sed")
    expect((place.folder / "old").read_bytes() == HEAD + entries("loop.sed"), "--write leaves %r" % (place.folder / "old").read_bytes())
    expect(stat.S_IMODE((place.folder / "old").stat().st_mode) == 0o640, "--write changes the mode")
    place.run("--write", "old", "plain.sed")
    expect((place.folder / "old").read_bytes() == HEAD, "--write without errors: %r" % (place.folder / "old").read_bytes())
    found = place.run("--write", "new", "plain.sed", "missing.sed")
    expect((found[0], (place.folder / "new").read_bytes()) == (4, HEAD + entries(*names)), "--write where a script is missing: %s" % (found,))
    (place.folder / "link").symlink_to("old")
    expect(place.run("--write", "link", "loop.sed")[0] == 4 and (place.folder / "link").is_symlink(), "a link is replaced")
    expect(place.run("--write", "nowhere/new", "loop.sed")[0] == 4, "a file in no folder is written")
    expect(not list(place.folder.glob(".sedck-known*")), "files are left: %s" % os.listdir(place.folder))


# Files with calls. Each call: its status, the words as they are in a report (a backslash or a quote behind a backslash, a newline as \\x0a, and
# all that as a text of JSON), and its errors: the code, the place counted from the name of the sed, and that in the file.
FILES = {
    "a.sh": ("echo '\u00e9'; sed 's/a\\+/b/' f\nsed -n ':x;/q/bx;p' f\n\nsed p f; sed ':a\nba' \"q\\\"[{\"\n".encode(),
             [(2, b'["s/a\\\\\\\\+/b/","f"]', [b"bad-escape 1:9 1:20"]), (1, b'["-n",":x;/q/bx;p","f"]', [b"loop-idle 1:9 2:9"]), (0, b"", []),
              (1, b'[":a\\\\x0aba","q\\\\\\"[{"]', [b"loop-idle 1:6 4:15"])]),
    "Makefile": (b"all:\n\t@sed -e p \\\n\t\t-e ':a' -e 's/x/xx/;ta' in\n", [(1, b'["-e","p","-e",":a","-e","s/x/xx/;ta","in"]', [b"loop-growing 2:15 3:15"])]),
}


def call_entries(*names):
    """The entries for the errors of the calls in these files."""
    return b"".join(b"call %s %s %s\n" % (hashlib.sha256(words).hexdigest().encode(), error.rpartition(b" ")[0], name.encode())
                    for name in names for _, words, errors in FILES[name][1] for error in errors)


def call_lines(kind, *names):
    """What is printed for each of these errors."""
    return b"".join(b"%s: %s:%s: %s\n" % (kind if status == 1 else b"not judged", name.encode(), error.split()[2], error.split()[0])
                    for name in names for status, _, errors in FILES[name][1] for error in errors)


def check_calls(place):
    """Calls have entries by their words, and by the code and the place in the call; where in its file a call is doesn't count."""
    for name, (text, _) in FILES.items():
        place.write(name, text)
    names = list(FILES)
    found = place.run("--write", "--calls", "known", *names, "loop.sed")
    expect(found == (0, call_lines(b"known", *names) + lines(b"known", "loop.sed") + counts(1, 4, 1, 0, 0), b""), "--write --calls: %s" % (found,))
    expect((place.folder / "known").read_bytes() == HEAD + call_entries(*names) + entries("loop.sed"), "--write --calls writes %r" % (place.folder / "known").read_bytes())
    found = place.run("--calls", "known", *names, "loop.sed")
    expect(found == (0, call_lines(b"known", *names) + lines(b"known", "loop.sed") + counts(1, 4, 1, 0, 0), b""), "--calls: %s" % (found,))
    # Each part of an entry counts, and an entry of a script is none of a call.
    place.write("none", b"")
    found = place.run("--calls", "none", "Makefile")
    expect((found[0], found[1].startswith(b"Makefile:3:15: error: "), counts(0, 0, 0, 1, 0) in found[1]) == (1, True, True), "a call without an entry: %s" % (found,))
    whole = call_entries("Makefile")
    for old, new in ((b"call ", b""), (b" loop", b" leap"), (b"2:15", b"3:15"), (b"Makefile", b"./Makefile"), (whole[:6], b"call 0" if whole[5:6] != b"0" else b"call 1")):
        place.write("other", whole.replace(old, new, 1))
        found = place.run("--calls", "other", "Makefile")
        expect(found[0] == 1 and b"\nstale: " in found[1] and b"known: " not in found[1] and b"Makefile:3:15: error: " in found[1], "%r for %r: %s" % (new, old, found))
    # A line before the call, and another call, change nothing; a byte of its words does.
    place.write("Makefile", b"# more\nx:\n\tsed p f\n" + FILES["Makefile"][0])
    expect(place.run("--calls", "known", *names, "loop.sed")[0] == 0, "a call at another place: %s" % (place.run("--calls", "known", *names, "loop.sed"),))
    place.write("Makefile", FILES["Makefile"][0].replace(b"xx", b"xxx"))
    found = place.run("--calls", "known", *names, "loop.sed")
    expect((found[0], b"Makefile:3:15: error: " in found[1], b"stale: Makefile:2:15 from the call: loop-growing\n" in found[1], b"a.sh:2:9: error" in found[1]) == (1, True, True, False), "a call that has changed: %s" % (found,))


def check_unknown(place):
    """What is unknown before a run has the status 5, unless something is worse; what isn't understood is no call, and is unknown, too."""
    place.write("none", b"")
    for name, text, status, due in (("a.sh", b'sed "s/$x/y/" f\nsed p f\n', 5, counts(1, 0, 0, 0, 1)), ("b.sh", b"sed p f\n", 0, counts(1, 0, 0, 0, 0)), ("c.sh", b"echo 'a\n", 5, counts(0, 0, 0, 0, 1)),
                                    ("d.sh", b"echo\n", 0, counts(0, 0, 0, 0, 0)), ("e.sh", b"#!/bin/sh\nsed -E 's/a/b/' f\n", 2, None), ("shell.sed", b"#!/bin/sh\nsed p f\n", 0, counts(1, 0, 0, 0, 0)),
                                    ("-x.sh", b"sed p f\n", 0, counts(1, 0, 0, 0, 0))):
        place.write(name, text)
        found = place.run("--calls", "none", "--", name)
        expect((found[0], found[1] if due else b"[other-language]" in found[1]) == (status, due or True), "--calls %s: %s" % (name, found))
    for names, status in ((["a.sh", "e.sh"], 2), (["e.sh", "a.sh"], 2), (["a.sh", "loop.sed"], 1), (["loop.sed", "a.sh"], 1), (["loop.sed", "e.sh", "a.sh"], 2), (["a.sh", "missing"], 4), (["missing", "a.sh"], 4)):
        expect(place.run("--calls", "none", *names)[0] == status, "the status of %s is %d" % (names, place.run("--calls", "none", *names)[0]))
    place.write("cut", b"#!/bin/sh\n\"$REAL\" \"$@\" | head -n 1; exit 0\n", 0o755)
    place.write("f.sh", b"sed p f\nsed ':a;ba' f\n")
    found = place.run("--calls", "none", "f.sh", SEDCK_EXPLAIN=str(place.folder / "cut"), REAL=place.explain)
    expect(found[0] == 4 and b"its report is not whole" in found[2], "a report that is cut: %s" % (found,))


def check_changed(place):
    """With --changed entries of other files are left alone, unless these are gone; so the files of a commit can be looked at by themselves."""
    place.write("all", b"# why\n" + entries("loop.sed", "a name: 1:1.sed"))
    expect(place.run("all", "loop.sed")[0] == 1, "an entry of another script isn't stale")
    for names in (["loop.sed"], ["plain.sed"], ["a name: 1:1.sed", "plain.sed"]):
        found = place.run("--changed", "all", *names)
        expect((found[0], b"stale" in found[1]) == (0, False), "--changed %s: %s" % (names, found))
    place.write("loop.sed", b"p\n")
    found = place.run("--changed", "all", "loop.sed")
    expect(found == (1, lines(b"stale", "loop.sed") + counts(1), b""), "--changed of a script that is mended: %s" % (found,))
    expect(place.run("--changed", "all", "plain.sed")[0] == 0, "--changed looks at a script that isn't named")
    (place.folder / "loop.sed").unlink()
    found = place.run("--changed", "all", "plain.sed")
    expect(found == (1, lines(b"stale", "loop.sed") + counts(1), b""), "--changed of a script that is gone: %s" % (found,))
    place.write("loop.sed", SCRIPTS["loop.sed"][0])
    found = place.run("--changed", "--write", "all", "loop.sed")
    expect(found[0] == 0 and (place.folder / "all").read_bytes() == HEAD + entries("a name: 1:1.sed", "loop.sed"), "--changed --write: %r" % (place.folder / "all").read_bytes())
    place.write("loop.sed", b"p\n")
    place.run("--changed", "--write", "all", "loop.sed", "plain.sed")
    expect((place.folder / "all").read_bytes() == HEAD + entries("a name: 1:1.sed"), "--changed --write of a mended script: %r" % (place.folder / "all").read_bytes())
    place.write("loop.sed", SCRIPTS["loop.sed"][0])
    place.run("--changed", "--write", "fresh", "loop.sed")
    expect((place.folder / "fresh").read_bytes() == HEAD + entries("loop.sed"), "--changed --write of a new file")
    place.write("bad", b"no entry\n")
    found = place.run("--changed", "--write", "bad", "loop.sed")
    expect(found[0] == 3 and (place.folder / "bad").read_bytes() == b"no entry\n", "--changed --write of a file with another line: %s" % (found,))


def check_denied(place):
    """What is denied is an error, which an entry may have; what is allowed isn't."""
    place.write("writes.sed", b"w /out\nr in\n")
    place.write("none", b"")
    expect(place.run("none", "writes.sed")[0] == 0, "what isn't denied: %s" % (place.run("none", "writes.sed"),))
    for words, codes in ((["--deny", "writes"], [b"denied-writes 1:1"]), (["--deny", "writes,reads"], [b"denied-writes 1:1", b"denied-reads 2:1"]), (["--deny", "writes", "--deny", "reads"], [b"denied-writes 1:1", b"denied-reads 2:1"]),
                         (["--deny", "warnings", "--allow", "absolute-name"], [])):
        due = sorted(b"%s %s writes.sed" % (hashlib.sha256(b"w /out\nr in\n").hexdigest().encode(), code) for code in codes)
        found = place.run(*words, "none", "writes.sed")
        expect(found[0] == (1 if codes else 0), "%s: %s" % (words, found))
        expect(place.run(*words, "--write", "own", "writes.sed")[0] == 0 and sorted((place.folder / "own").read_bytes().splitlines()[1:]) == due, "%s writes %r" % (words, (place.folder / "own").read_bytes()))
        found = place.run(*words, "own", "writes.sed")
        expect((found[0], found[1].endswith(counts(0, 1) if codes else counts(1))) == (0, True), "%s with entries: %s" % (words, found))
    place.write("w.sh", b"sed 'w out' f\n")
    found = place.run("--calls", "--deny", "writes", "none", "w.sh")
    expect((found[0], b"w.sh:1:6: error: " in found[1]) == (1, True), "what is denied of a call: %s" % (found,))
    status, out, said = place.run("--deny", "nothing", "none", "writes.sed")
    expect((status, out, b"invalid value 'nothing'" in said) == (3, b"", True), "a word that can't be denied: %s" % ((status, out, said),))


def check_programs(place):
    """Beside it the program is found; each sh and awk that there is gives the same."""
    beside = place.folder / "beside"
    beside.mkdir()
    shutil.copy(KNOWN, beside / "sedck-known")
    shutil.copy(place.explain, beside / "sedck-explain")
    names = list(SCRIPTS)
    place.write("all", entries(*names))
    due = (0, lines(b"known", *names) + counts(1, 3, 1), b"")
    found = place.run("all", "--", *names, program=beside / "sedck-known", SEDCK_EXPLAIN="")
    expect(found == due, "the program beside it: %s" % (found,))
    awks = present("known", "awks by which the program runs", AWKS)
    for shell in map(str.split, present("known", "shells by which the program runs", SHELLS)):
        for awk in awks:
            place.write("beside/awk", ('#!/bin/sh\nexec %s "$@"\n' % awk.replace(awk.split()[0], shutil.which(awk.split()[0]), 1)).encode(), 0o755)
            found = place.run(*shell[1:], beside / "sedck-known", "all", "--", *names, program=shell[0], PATH="%s:%s" % (beside, os.environ["PATH"]))
            expect(found == due, "%s with %s: %s" % (shell, awk, found))


def main():
    explain = os.path.abspath(sys.argv[1])
    for check in (check_words, check_passes, check_names, check_stale, check_written, check_calls, check_unknown, check_changed, check_denied, check_programs):
        with tempfile.TemporaryDirectory(prefix="sedck-known-") as folder:
            check(Place(folder, explain))
    if not wrong:
        print("known: as it is due")
    return 1 if wrong else 0


if __name__ == "__main__":
    sys.exit(main())
