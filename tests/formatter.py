#!/usr/bin/env python3
"""Tries wrapper/sedck-fmt with a given program: python3 tests/formatter.py build/sedck-explain

Each option on scripts that differ from their plain spelling, that don't, and that aren't accepted; of what is printed, written and left as
it is, and of statuses; standard input, folders, comments behind commands, and bytes that a terminal would obey. What `--diff` prints is
applied by `patch`, and what is written run by seds, where there are some. The status is 0 only where all is as it is due.
"""
import os
import pty
import re
import shutil
import stat
import subprocess
import sys
import tempfile
from pathlib import Path

from skips import has, present

TOP = Path(__file__).resolve().parent.parent
FORMAT = TOP / "wrapper" / "sedck-fmt"
PLAIN = b"# joins\n\n:a\n$!{\n  N\n  b a\n}\n"
OTHER = b"# joins\n\n\n:a;$!{N;b a\n}"
LOOP = b":a;ba\n"
SHELLS, AWKS, SEDS = ("dash", "bash --posix", "busybox sh"), ("gawk", "mawk", "busybox awk"), ("sed", "busybox sed", "toybox sed")
wrong = []


def expect(holds, what):
    if not holds:
        wrong.append(what)
        print("formatter: " + what)


class Place:
    """A folder with scripts."""
    def __init__(self, folder, explain):
        self.folder, self.explain = Path(folder), explain

    def write(self, name, text, mode=0o644):
        path = self.folder / name
        path.write_bytes(text)
        path.chmod(mode)
        return path

    def run(self, *words, program=FORMAT, given=b"", **environment):
        """The status, and what is printed."""
        done = subprocess.run([program, *words], cwd=self.folder, env={**os.environ, "SEDCK_EXPLAIN": self.explain, "LC_ALL": "C", **environment},
                              input=given, stdout=subprocess.PIPE, stderr=subprocess.PIPE, timeout=600)
        return done.returncode, done.stdout, done.stderr


def check_words(place):
    place.write("a.sed", OTHER)
    for words in ([], ["--check"], ["--write"], ["-d", "-l"], ["--check", "--"], ["--format", "a.sed"], ["--help", "a.sed"], ["-x", "a.sed"], ["-dl", "a.sed"],
                  ["--stdin-filename"], ["--stdin-filename", ""], ["--stdin-filename=", "a.sed"], ["--stdin-filename", "a.sed"]):
        status, out, said = place.run(*words)
        expect((status, out, said.startswith(b"sedck-fmt: usage: ")) == (3, b"", True), "%s: %d, %r, %r" % (words, status, out, said))
    for words in (["-w", "-"], ["--write", "a.sed", "-"]):
        status, out, said = place.run(*words, given=OTHER)
        expect((status, out, b"standard input can't be written: usage: " in said) == (3, b"", True), "%s: %d, %r, %r" % (words, status, out, said))
    expect((place.folder / "a.sed").read_bytes() == OTHER, "invalid arguments change a file")
    status, out, said = place.run("--help")
    expect((status, out.startswith(b"usage: "), said) == (0, True, b""), "--help: %d, %r, %r" % (status, out, said))


def check_reports(place):
    """--check and --diff change nothing, and say which files differ."""
    place.write("plain.sed", PLAIN)
    place.write("other.sed", OTHER)
    place.write("-n.sed", b"p;p")
    place.write("a name.sed", b"p;p\n")
    place.write("loop.sed", LOOP)
    place.write("refused.sed", b"s/a\n")
    for words, status, out in ((["plain.sed"], 0, b""), (["other.sed"], 1, b"other.sed\n"), (["plain.sed", "a name.sed", "other.sed"], 1, b"a name.sed\nother.sed\n"),
                               (["--", "-n.sed"], 1, b"./-n.sed\n"), (["other.sed", "loop.sed"], 2, b"other.sed\n"), (["refused.sed", "plain.sed"], 2, b""),
                               (["none.sed", "other.sed"], 4, b"other.sed\n")):
        found = place.run("--check", *words)
        expect(found[:2] == (status, out), "--check %s: %s" % (words, found))
        expect((found[2] == b"") == (status < 2), "--check %s says %r" % (words, found[2]))
    for name in ("loop.sed", "refused.sed", "none.sed"):
        expect(name.encode() in place.run("--check", name)[2], "%s isn't named" % name)
    status, out, said = place.run("--diff", "other.sed", "plain.sed")
    expect((status, said, out.startswith(b"--- other.sed\n+++ other.sed\n@@ ")) == (1, b"", True), "--diff: %d, %r, %r" % (status, out, said))
    expect((place.folder / "other.sed").read_bytes() == OTHER, "--check or --diff has changed a file")
    if has("formatter", "what patch makes of --diff", "patch"):
        place.write("patched.sed", OTHER)
        subprocess.run(["patch", "-s", "patched.sed"], cwd=place.folder, input=out, check=True)
        expect((place.folder / "patched.sed").read_bytes() == PLAIN, "the patched script is %r" % (place.folder / "patched.sed").read_bytes())
    expect(place.run("--diff", "plain.sed") == (0, b"", b""), "--diff of a plain script prints something")


# Names of which a terminal or a host of code would make something else, with what must not be printed of each one.
NAMES = [(b"a\x1b[1A\x1b[2Kb.sed", b"\x1b"), (b"a\rb.sed", b"\r"), (b"a\nb.sed", b"\n"), ("a\u202eb.sed".encode(), "\u202e".encode()), (b"::error::x.sed", None),
         (b" ::error::x.sed", None), (b"a\n::error::x.sed", b"\n"), (b"\xff.sed", b"\xff"), (b"a\xc2\x9b1A.sed", b"\xc2\x9b"), (b"a\x7f.sed", b"\x7f"), (b"a\tb.sed", b"\t")]


def is_harmless(text, hidden):
    """Whether each line is ASCII that a terminal shows, or has characters of UTF-8 but not this one, and begins with no command of a host of code."""
    lines = text.removesuffix(b"\n").split(b"\n")
    return (hidden is None or hidden == b"\n" or hidden not in text) and not any(line.lstrip().startswith(b"::") for line in lines) and not re.search(rb"[\0-\x09\x0b-\x1f\x7f]", text)


def check_names(place):
    """A name is printed on one line, as sedck-explain prints it in its report of the same file."""
    for name, hidden in NAMES:
        path = os.path.join(os.fsencode(place.folder), name)
        for task, count in (("--check", 1), ("--diff", 7)):
            Path(os.fsdecode(path)).write_bytes(OTHER)
            status, out, said = place.run(task, "--", os.fsdecode(name))
            expect(status == 1 and said == b"" and is_harmless(out, hidden), "%s of %r: %d, %r, %r" % (task, name, status, out, said))
            expect(task == "--diff" or out.count(b"\n") == count, "%s of %r prints %r" % (task, name, out))
            shown = out.splitlines()[0].removeprefix(b"--- ")
            Path(os.fsdecode(path)).write_bytes(b"}")
            status, out, said = place.run(task, "--", os.fsdecode(name))
            expect(status == 2 and said.startswith(shown + b":1:1: error: ") and is_harmless(said, hidden), "the name %r is %r, and %r" % (name, shown, said))
        os.unlink(path)
        status, out, said = place.run("--check", "--", os.fsdecode(name))
        expect(status == 4 and said == b"sedck-fmt: " + shown + b": it can't be read: there is no such file\n", "a missing %r: %r" % (name, said))
        # Without the program nothing is known of a name, and each byte that isn't printable ASCII is hidden.
        status, out, said = place.run("--check", "--", os.fsdecode(name), SEDCK_EXPLAIN="/nowhere")
        expect(status == 4 and said.count(b"\n") == 1 and said.isascii() and is_harmless(said, hidden), "%r without the program: %r" % (name, said))
    for name, shown in (("\u00e9.sed", "\u00e9.sed"), ("::x.sed", "./::x.sed"), (":x.sed", "./:x.sed"), ("a::x.sed", "a::x.sed"), ("-n x.sed", "./-n x.sed")):
        place.write(name, OTHER)
        found = place.run("--check", "--", name)
        expect(found == (1, shown.encode() + b"\n", b""), "--check of %r: %s" % (name, found))


def check_written(place):
    """--write puts the plain spelling in the place of a file, and no other file appears or changes."""
    place.write("other.sed", OTHER, 0o750)
    place.write("plain.sed", PLAIN)
    before = (place.folder / "plain.sed").stat()
    names = sorted(os.listdir(place.folder))
    expect(place.run("--write", "other.sed", "plain.sed") == (0, b"", b""), "--write says something")
    expect((place.folder / "other.sed").read_bytes() == PLAIN, "--write: %r" % (place.folder / "other.sed").read_bytes())
    expect(stat.S_IMODE((place.folder / "other.sed").stat().st_mode) == 0o750, "--write changes the mode")
    after = (place.folder / "plain.sed").stat()
    expect((before.st_ino, before.st_mtime_ns) == (after.st_ino, after.st_mtime_ns), "--write writes a script that doesn't differ")
    written = (place.folder / "other.sed").stat()
    expect(place.run("--write", "other.sed") == (0, b"", b"") and (place.folder / "other.sed").stat().st_ino == written.st_ino, "--write again changes something")
    (place.folder / "link.sed").symlink_to("second.sed")
    place.write("second.sed", OTHER)
    for name, text, status in (("loop.sed", LOOP, 2), ("refused.sed", b"s/a\n", 2), ("link.sed", OTHER, 4)):
        if not (place.folder / name).is_symlink():
            place.write(name, text)
        found = place.run("--write", name)
        expect(found[0] == status and name.encode() in found[2] and (place.folder / name).read_bytes() == text, "--write %s: %s" % (name, found))
    expect((place.folder / "link.sed").is_symlink(), "a link is replaced")
    # The program changes the file while it is asked.
    place.write("meanwhile.sed", OTHER)
    slow = place.write("slow", b"#!/bin/sh\n\"$REAL\" \"$@\"; status=$?; echo p > meanwhile.sed; exit $status\n", 0o755)
    found = place.run("--write", "meanwhile.sed", SEDCK_EXPLAIN=str(slow), REAL=place.explain)
    expect((found[0], b"changed meanwhile" in found[2], (place.folder / "meanwhile.sed").read_bytes()) == (4, True, b"p\n"), "a change meanwhile: %s" % (found,))
    found = place.run("--write", "other.sed", SEDCK_EXPLAIN="/nowhere")
    expect(found[0] == 4 and (place.folder / "other.sed").read_bytes() == PLAIN, "without the program: %s" % (found,))
    expect(set(os.listdir(place.folder)) - set(names) == {"link.sed", "second.sed", "loop.sed", "refused.sed", "meanwhile.sed", "slow"} - set(names), "files are left: %s" % os.listdir(place.folder))


def check_streams(place):
    """Standard input is a script, too, and without an option what is formatted is printed, with each byte."""
    place.write("other.sed", OTHER)
    place.write("more.sed", b"p;p")
    for words, given, due in ((["-"], OTHER, (0, PLAIN, b"")), (["--", "-"], PLAIN, (0, PLAIN, b"")), (["-"], b"", (0, b"", b"")), (["other.sed"], b"", (0, PLAIN, b"")),
                              (["more.sed", "-", "other.sed"], b"d;d", (0, b"p\np\nd\nd\n" + PLAIN, b"")), (["-l", "-"], PLAIN, (0, b"", b"")),
                              (["-l", "-"], OTHER, (1, b"-\n", b"")), (["--check", "--stdin-filename", "a b.sed", "-"], OTHER, (1, b"a b.sed\n", b"")),
                              (["-d", "--stdin-filename=a.sed", "-"], b"p;p", (1, b"--- a.sed\n+++ a.sed\n@@ -1 +1,2 @@\n-p;p\n\\ No newline at end of file\n+p\n+p\n", b"")),
                              (["-"], b"p;s/\x1b/\xe9\x9b/", (0, b"p\ns/\x1b/\xe9\x9b/\n", b""))):
        found = place.run(*words, given=given)
        expect(found == due, "%s of %r: %s" % (words, given, found))
    for given, line in ((b"p\ns/a\n", b"x.sed:2:1: error: "), (b"p\n:a\nba\n", b"x.sed:2:1: error: ")):
        status, out, said = place.run("--stdin-filename", "x.sed", "-", given=given)
        expect((status, out, said.startswith(line), b"sedck-fmt: x.sed: not formatted: " in said) == (2, b"", True, True), "%r: %d, %r, %r" % (given, status, out, said))
    found = place.run("other.sed", "none.sed")
    expect(found[:2] == (4, PLAIN), "a missing file behind one that is printed: %s" % (found,))
    if os.path.exists("/dev/full"):
        with open("/dev/full", "wb") as full:
            for words in (["other.sed"], ["-l", "other.sed"], ["-d", "other.sed"]):
                done = subprocess.run([FORMAT, *words], cwd=place.folder, env={**os.environ, "SEDCK_EXPLAIN": place.explain}, stdout=full, stderr=subprocess.PIPE)
                expect((done.returncode, b"can't be written" in done.stderr) == (4, True), "%s to what is full: %s" % (words, done))


def check_together(place):
    """Options may be given together: names come first, then what differs; with --write names are those that were written, and nothing differs any more."""
    difference = b"--- a.sed\n+++ a.sed\n@@ -1 +1,2 @@\n-p;p\n+p\n+p\n"
    for words, status, out, is_written in ((["-l"], 1, b"a.sed\n", False), (["--check", "-l"], 1, b"a.sed\n", False), (["-d"], 1, difference, False),
                                           (["--check", "--diff"], 1, b"a.sed\n" + difference, False), (["-d", "-l"], 1, b"a.sed\n" + difference, False),
                                           (["-w"], 0, b"", True), (["-l", "-w"], 0, b"a.sed\n", True), (["--write", "--diff"], 0, difference, True),
                                           (["-w", "-l", "-d"], 0, difference + b"a.sed\n", True)):
        place.write("a.sed", b"p;p\n")
        place.write("plain.sed", PLAIN)
        found = place.run(*words, "a.sed", "plain.sed")
        text = (place.folder / "a.sed").read_bytes()
        expect(found == (status, out, b"") and text == (b"p\np\n" if is_written else b"p;p\n"), "%s: %s, and the script is %r" % (words, found, text))
    (place.folder / "link.sed").symlink_to("a.sed")
    place.write("a.sed", b"p;p\n")
    found = place.run("-l", "-w", "link.sed")
    expect((found[0], found[1], b"link.sed: it is a link" in found[2]) == (4, b"", True), "a link that isn't written is listed: %s" % (found,))


def check_folders(place):
    """Below a folder each *.sed is formatted, and each file whose first line runs sed; what is given by its name is one in any case."""
    deep = place.folder / "tree" / "deep er"
    for folder in (deep, place.folder / "tree" / ".git", place.folder / "tree" / ".hidden", place.folder / "outside"):
        folder.mkdir(parents=True)
    scripts = ["tree/a.sed", "tree/deep er/b\nc.sed", "tree/.hidden/d.sed", "tree/.e.sed"]
    for name in scripts + ["tree/.git/f.sed", "tree/none.txt", "outside/g.sed", "tree/h.sed.in"]:
        place.write(name, b"p;p\n")
    firsts = {b"/bin/sed -f": True, b" /usr/bin/env sed -nf": True, b"/usr/bin/env -S sed -f": True, b"/usr/bin/env A=1 gsed -f": True, b"/bin/busybox sed -f": True,
              b"/bin/sh": False, b"/usr/bin/sedan": False, b"/bin/sh sed": False, b"/bin/sed/sh": False}
    for number, (first, is_script) in enumerate(firsts.items()):
        place.write("tree/first%d" % number, b"#!" + first + b"\np;p\n")
        scripts += ["tree/first%d" % number] * is_script
    for name, text in (("later", b"\n#!/bin/sed -f\np;p\n"), ("shell.sed", b"#!/bin/sh\np;p\n"), ("make.sed", b"#!/usr/bin/make -f\np;p\n"), ("blank", b" #!/bin/sed -f\np;p\n")):
        place.write("tree/" + name, text)
    place.write("tree/perl.sed", b"#!/usr/bin/perl\np;p\n")
    (place.folder / "tree" / "link").symlink_to("../outside")
    (place.folder / "tree" / "link.sed").symlink_to("../outside/g.sed")
    due = sorted(name.replace("\n", "?") for name in scripts + ["tree/perl.sed"])
    for folder in ("tree", "tree/"):
        status, out, said = place.run("-l", folder)
        expect((status, sorted(out.decode().splitlines()), said) == (1, due, b""), "a folder: %d, %r, %r, and %s is due" % (status, out, said, due))
    expect(place.run("-l", "tree/none.txt", "tree/deep er") == (1, b"tree/none.txt\ntree/deep er/b?c.sed\n", b""), "a file that is given: %s" % (place.run("-l", "tree/none.txt", "tree/deep er"),))
    place.write("outside/loop.sed", LOOP)
    status, out, said = place.run("-w", "outside", "tree")
    expect((status, out, b"outside/loop.sed: not formatted" in said, (place.folder / "outside" / "g.sed").read_bytes()) == (2, b"", True, b"p\np\n"), "-w of folders: %s" % ((status, out, said),))
    expect(place.run("-l", "tree") == (0, b"", b""), "what was written differs: %s" % (place.run("-l", "tree"),))
    expect((place.folder / "tree" / "shell.sed").read_bytes() == b"#!/bin/sh\np;p\n", "a shell script is written")
    (place.folder / "empty").mkdir()
    expect(place.run("empty") == (0, b"", b""), "an empty folder: %s" % (place.run("empty"),))


def check_reasons(place):
    """What can't be read or written is named with the reason."""
    (place.folder / "lost.sed").symlink_to("nowhere")
    os.mkfifo(place.folder / "pipe.sed")
    for name, reason in (("none.sed", b"there is no such file"), ("lost.sed", b"it is a link that leads to no file"), ("pipe.sed", b"it is neither a file nor a folder")):
        found = place.run("--check", name)
        expect(found == (4, b"", b"sedck-fmt: %s: it can't be read: %s\n" % (name.encode(), reason)), "%s: %s" % (name, found))
    for text, reason in ((LOOP, b"a run may never end, and only a script whose runs all end has a plain spelling"), (b"s/a\n", b"it is refused, or has no plain spelling")):
        place.write("a.sed", text)
        status, out, said = place.run("a.sed")
        lines = said.splitlines()
        expect((status, out, lines[0].startswith(b"a.sed:1:1: error: "), lines[-1]) == (2, b"", True, b"sedck-fmt: a.sed: not formatted: " + reason), "%r: %r" % (text, said))
    place.write("killed", b"#!/bin/sh\nkill -9 $$\n", 0o755)
    found = place.run("a.sed", SEDCK_EXPLAIN=str(place.folder / "killed"))
    expect(found[:2] == (4, b"") and b"nothing is known of it" in found[2], "a program that is killed: %s" % (found,))
    if os.geteuid():
        place.write("dark.sed", OTHER, 0o200)
        expect(b"it can't be read: permission is denied" in place.run("dark.sed")[2], "a file without permission: %s" % (place.run("dark.sed"),))


# Scripts with comments behind commands, and what is written of each: a comment stays on the line of what can have one in each sed. Labels,
# names and texts can't, so that theirs are on lines of their own, before the command.
COMMENTS = [
    (b"p # a\n", b"p; # a\n"), (b"p;# a\n", b"p; # a\n"), (b"p#a;b", b"p; #a;b\n"), (b"p;;; # a\np", b"p; # a\np\n"), (b"p # a\n# b\nd # c\n", b"p; # a\n# b\nd; # c\n"),
    (b"p;d # a\n", b"p\nd; # a\n"), (b"# a\np\n", b"# a\np\n"), (b"p\n  # a\n", b"p\n# a\n"), (b"; # a\np", b"# a\np\n"), (b"$!{ # a\nN;d # b\n} # c\n", b"$!{ # a\n  N\n  d; # b\n}; # c\n"),
    (b"{p;} # a\n# b\n", b"{\n  p\n}; # a\n# b\n"), (b"{p}# a", b"{\n  p\n}; # a\n"), (b"{;p;{d # a\n}}#b", b"{\n  p\n  {\n    d; # a\n  }\n}; #b\n"),
    (b"s/#/a/ # b#c\n", b"s/#/a/; # b#c\n"), (b"s,a\\,#,b,g;#c", b"s/a,#/b/g; #c\n"), (b"s/[#]/b/2p # c\n", b"s/[#]/b/2p; # c\n"), (b"s/a/b\\\nx#/;p # c\n", b"s/a/b\\\nx#/\np; # c\n"),
    (b"s/a/\\\n#b/ # c\n", b"s/a/\\\n#b/; # c\n"), (b"s/a\\/#/b/;p #c", b"s,a/#,b,\np; #c\n"), (b"y/#a/a#/ # b\n", b"y/#a/a#/; # b\n"), (b"s/a/#/w f # g\np # h\n", b"s/a/#/w f # g\np; # h\n"),
    (b"w f # g\np #h", b"w f # g\np; #h\n"), (b"r f #\n", b"r f #\n"), (b"a\\\nb # c\np # d\n", b"a\\\nb # c\np; # d\n"), (b"a\\\nb\\\n# c\np # d\n", b"a\\\nb\\\n# c\np; # d\n"),
    (b"i b # c\np # d\n", b"i\\\nb # c\np; # d\n"), (b"c b\\\\\np # d\n", b"c\\\nb\\\\\np; # d\n"), (b":a # b\np # c\n", b"# b\n:a\np; # c\n"), (b"b a # c\n:a;p # d\n", b"# c\nb a\n:a\np; # d\n"),
    (b"t;p # a\n", b"t\np; # a\n"), (b"1 , $ ! p # a\n", b"1,$!p; # a\n"), (b"/#/,/\\/#/!p # a\n", b"/#/,\\,/#,!p; # a\n"), (b"\\;#;p # a\n", b"/#/p; # a\n"), (b"\\,a\\,#,d # b\n", b"/a,#/d; # b\n"),
    (b"#n\np # a\n", b"#n\np; # a\n"), (b"p #n\n", b"p; #n\n"), (b"p # #n\n", b"p; # #n\n"), (b"p\n\n\n# a\n\nd # b\n", b"p\n\n# a\n\nd; # b\n"), (b"p\n\nd # b\n\n\n# c", b"p\n\nd; # b\n\n# c\n"),
    (b"p # same\n# same\nd # same\n", b"p; # same\n# same\nd; # same\n"), (b"a\\\np # c\n# c\nd\n", b"a\\\np # c\n# c\nd\n"), (b"=;l;q # a\n", b"=\nl\nq; # a\n"), (b"p # caf\xe9 \xc3\xa9\n", b"p; # caf\xe9 \xc3\xa9\n"),
    (b"p # a\\\nd # b\n", b"p; # a\\\nd; # b\n"), (b"p # a\t \n", b"p; # a\t \n"), (b"012,3p # a", b"12,3p; # a\n"), (b"p # ''\"$x`\n", b"p; # ''\"$x`\n"),
]


def check_comments(place):
    """Each comment stays, on the line of its command where that can be; what is written stays as it is when it is formatted again."""
    names = {"%02d.sed" % number: row for number, row in enumerate(COMMENTS)}
    for name, (text, _) in names.items():
        place.write(name, text)
    for words, due in ((["-w"], (0, b"", b"")), (["-l"], (0, b"", b""))):
        found = place.run(*words, *names)
        expect(found == due, "%s of scripts with comments: %s" % (words, found))
        for name, (text, due) in names.items():
            seen = (place.folder / name).read_bytes()
            expect(seen == due, "%r is written as %r, and %r is due" % (text, seen, due))
    for sed in present("formatter", "seds that run what is written", SEDS):
        for name, (text, due) in names.items():
            ran = [outputs(place, sed, name, sheet) for sheet in (text, due)]
            # BusyBox has no blanks before a comma.
            expect(ran[1][0] == 0 and (ran[0][0] != 0 or ran[0] == ran[1]), "%s runs %r as %s, and %r as %s" % (sed, text, ran[0], due, ran[1]))


def outputs(place, sed, name, text):
    """What a sed makes of a few lines by this script."""
    place.write(name, text)
    place.write("f", b"")
    done = subprocess.run([*sed.split(), "-f", name], cwd=place.folder, env={**os.environ, "LC_ALL": "C"}, input=b"a\n#\na,#b\n/#\nx\n", stdout=subprocess.PIPE, stderr=subprocess.DEVNULL)
    return done.returncode, done.stdout, (place.folder / "f").read_bytes()


def on_terminal(place, *words):
    """What is printed to a terminal."""
    ours, theirs = pty.openpty()
    done = subprocess.Popen([FORMAT, *words], cwd=place.folder, env={**os.environ, "SEDCK_EXPLAIN": place.explain}, stdin=subprocess.DEVNULL, stdout=theirs)
    os.close(theirs)
    found = b""
    try:
        while (part := os.read(ours, 4096)):
            found += part
    except OSError:
        # All has been read.
        pass
    os.close(ours)
    done.wait(60)
    return found.replace(b"\r\n", b"\n")


def check_shown(place):
    """What differs, and what goes to a terminal, has no byte that a terminal obeys: it is shown as in excerpts; what is written has each byte."""
    text = b"p;s/\x1b(A/\x07/ # \xc3\xa9\x9b\n# \xc3\xa9 \xe2\x80\xae\tx\na\\\n::error::<&\"'> \xc3\xa9\n\ty\x7f\x01\n\n\n"
    plain = b"p\ns/\x1b(A/\x07/; # \xc3\xa9\x9b\n# \xc3\xa9 \xe2\x80\xae\tx\na\\\n::error::<&\"'> \xc3\xa9\n"
    text = text.replace(b"\ty\x7f\x01\n", b"")
    place.write("a.sed", text)
    shown = [b"s/\\x1b(A/\\x07/; # \xc3\xa9\\x9b", b"# \xc3\xa9 \\xe2\\x80\\xae    x", b"a\\", b"\\x3a:error::<&\"'> \xc3\xa9"]
    due = b"--- a.sed\n+++ a.sed\n@@ -1,6 +1,5 @@\n-p;%s\n+p\n+%s\n %s\n %s\n %s\n-\n-\n" % (shown[0].replace(b"; #", b" #"), *shown)
    found = place.run("-d", "a.sed")
    expect(found == (1, due, b""), "-d: %s, and %r is due" % (found, due))
    expect(on_terminal(place, "a.sed") == b"p\n" + b"\n".join(shown) + b"\n", "a terminal gets %r" % on_terminal(place, "a.sed"))
    expect(place.run("a.sed") == (0, plain, b""), "what is no terminal gets %r" % (place.run("a.sed"),))
    expect(place.run("-w", "a.sed") == (0, b"", b"") and (place.folder / "a.sed").read_bytes() == plain, "-w writes %r" % (place.folder / "a.sed").read_bytes())
    # Of other bytes nothing is asked: a tab stays, so that patch takes what differs.
    place.write("b.sed", b"s/\t/\x0b\x7f/;p\n")
    expect(place.run("-d", "b.sed")[1].endswith(b"-s/\t/\\x0b\\x7f/;p\n+s/\t/\\x0b\\x7f/\n+p\n"), "-d: %r" % place.run("-d", "b.sed")[1])
    # Without a page each byte above 127 is hidden.
    place.write("no-page", b"#!/bin/sh\ncase $2 in html) exit 4;; esac\nexec \"$REAL\" \"$@\"\n", 0o755)
    place.write("c.sed", b"p;p # \xc3\xa9\n")
    found = place.run("-d", "c.sed", SEDCK_EXPLAIN=str(place.folder / "no-page"), REAL=place.explain)
    expect(found[1].endswith(b"-p;p # \\xc3\\xa9\n+p\n+p; # \\xc3\\xa9\n"), "-d without a page: %s" % (found,))


def check_shells(place):
    """Each sh and each awk that there is gives the same."""
    folder = place.folder / "path"
    folder.mkdir()
    text = b"".join(text for text, due in COMMENTS if due and text.endswith(b"\n") and text[:1] not in b":b#" and b"w f" not in text)
    for name, given in (("all.sed", text), ("shown.sed", b"p;s/\x1b/\x07/ # \xc3\xa9\n")):
        place.write(name, given)
    shells, awks = present("formatter", "shells by which the program runs", SHELLS), present("formatter", "awks by which the program runs", AWKS)
    due = [place.run("all.sed"), place.run("-d", "all.sed", "shown.sed"), place.run("-l", ".")]
    expect([one[0] for one in due] == [0, 1, 1] and due[0][1].count(b"; #") > 20, "all comments: %s" % due)
    for shell in map(str.split, shells):
        for awk in awks:
            place.write("path/awk", ('#!/bin/sh\nexec %s "$@"\n' % awk.replace(awk.split()[0], shutil.which(awk.split()[0]), 1)).encode(), 0o755)
            found = [place.run(*shell[1:], FORMAT, *words, program=shell[0], PATH="%s:%s" % (folder, os.environ["PATH"])) for words in (["all.sed"], ["-d", "all.sed", "shown.sed"], ["-l", "."])]
            expect(found == due, "%s with %s: %s" % (shell, awk, found))


def check_doubt(place):
    """Where a comment is put behind a command only by mistake, or something else is made of the script, its own plain spelling is used."""
    folder = place.folder / "path"
    folder.mkdir()
    real = shutil.which("awk")
    for change in ("s/; # a/ #a/", "$d", "s/^d/p/", "s/; # b//", "2s/^/# /"):
        # What awk makes of two files is changed; all else is as ever.
        place.write("path/awk", ("#!/bin/sh\ncase $3 in */plain) '%s' \"$@\" | sed '%s';; *) exec '%s' \"$@\";; esac\n" % (real, change, real)).encode(), 0o755)
        found = place.run("-", given=b"p # a\nd # b\nd", PATH="%s:%s" % (folder, os.environ["PATH"]))
        expect(found == (0, b"# a\np\n# b\nd\nd\n", b""), "%s: %s" % (change, found))


def check_programs(place):
    """Beside it, and on the path, the program is found."""
    beside = place.folder / "beside"
    beside.mkdir()
    shutil.copy(FORMAT, beside / "sedck-fmt")
    place.write("plain.sed", PLAIN)
    expect(place.run("--check", "plain.sed", program=beside / "sedck-fmt", SEDCK_EXPLAIN="")[0] == 4, "a program is found where none is")
    shutil.copy(place.explain, beside / "sedck-explain")
    expect(place.run("--check", "plain.sed", program=beside / "sedck-fmt", SEDCK_EXPLAIN="")[0] == 0, "the program beside it isn't found")
    found = place.run("--check", "plain.sed", SEDCK_EXPLAIN="", PATH="%s:%s" % (beside, os.environ["PATH"]))
    expect(found[0] == 0, "the program on the path isn't found: %s" % (found,))


def main():
    explain = os.path.abspath(sys.argv[1])
    for check in (check_words, check_reports, check_names, check_written, check_streams, check_together, check_folders, check_reasons, check_comments, check_shown,
                  check_shells, check_doubt, check_programs):
        with tempfile.TemporaryDirectory(prefix="sedck-formatter-") as folder:
            check(Place(folder, explain))
    if not wrong:
        print("formatter: as it is due")
    return 1 if wrong else 0


if __name__ == "__main__":
    sys.exit(main())
