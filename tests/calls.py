#!/usr/bin/env python3
"""Calls of sed by their words: python3 tests/calls.py SEDCK_EXPLAIN [NUMBER]

Two other readers of words judge `sedck-explain --sed`: Python's `getopt`, which gives the script, and the sed of this machine, where
it is GNU's, which says whether it takes the words. What is said of the script of a call has to be what is said of the same text in a
file, at the same offsets. A table has what `getopt` can't read: `-i`, `-I` and options of other languages. Accepted calls with `-s`, `-i`
and `-z` run over three files in the seds of this machine.
"""
import getopt
import json
import random
import subprocess
import sys
import tempfile
from pathlib import Path

from skips import has_gnu_sed, present

SHORT = "nEre:f:szul:ba"
LONG = ["expression=", "file=", "regexp-extended", "quiet", "silent", "separate", "null-data", "zero-terminated", "unbuffered",
        "line-length=", "binary", "posix", "sandbox", "debug", "follow-symlinks", "help", "version"]
TEXTS = ["p", "s/a/b/", "s/a/b", ":a;N;ba", ":a;ba", "$!N", "w out", "/x/{p", "}", "a\\", "text", "", "#n", "y/ab/ba/", "b end", ":end"]
FILES = {"one.sed": "s/x/y/\n", "two.sed": "N\nP\nD\n", "three.sed": ":a\nba", "-dash": "p\n"}
FOREIGN = {"-E", "-r", "--regexp-extended"}
WRITES = ["writes-its-input"]
# Words that `getopt` doesn't know, the status that is due, and the codes of the findings.
ROWS = [
    (["-i", "p", "f"], 0, ["in-place"]), (["-i.bak", "p", "f"], 0, ["in-place"]), (["-i", "p"], 0, []),
    (["-I", ".bak", "p", "f"], 0, ["in-place"]), (["-I.bak", "p", "f"], 0, ["in-place"]), (["-I"], 2, ["bad-call"]),
    (["-ni", "p", "f"], 0, ["in-place"]), (["-in", "p", "f"], 0, ["in-place"]), (["--in-place=.bak", "p", "f"], 0, ["in-place"]),
    (["--in-place", "p", "f"], 0, ["in-place"]), (["--i", "p", "f"], 0, ["in-place"]), (["p", "f", "-i"], 0, ["in-place"]),
    (["p", "--", "-i"], 0, []), (["-i", "-E", "p", "f"], 2, ["other-language"]), (["-Ei", "p", "f"], 2, ["other-language"]),
    (["-Er", "p"], 2, ["other-language", "other-language"]), (["-k", "p"], 2, ["bad-call"]), (["--quiet=x", "p"], 2, ["bad-call"]),
    (["-e", ":a;ba", "-i", "f"], 1, ["loop-idle", "in-place"]), (["-i", "", ":x;bx", "f"], 0, ["in-place"]),
    # Several inputs, and lines that end with a byte 0, are judged; a script that is refused or has a loop stays that.
    (["-zs", "p"], 0, []), (["-s", "p", "f", "g"], 0, []), (["--separate", "$!N", "f", "g"], 0, []), (["--null-data", "N;P;D"], 0, []),
    (["--zero-terminated", "p", "f"], 0, []), (["-sni", "p", "f", "g"], 0, ["in-place"]), (["-zi.bak", "p", "f"], 0, ["in-place"]),
    (["-s", ":a;$!N;ba", "f"], 1, ["loop-idle"]), (["-z", ":a;ba"], 1, ["loop-idle"]), (["-z", "s/a/b"], 2, ["unterminated"]),
    # A file that is written is an operand as well, perhaps by another path; the operand `-` is standard input.
    (["-n", "w in2", "in1", "in2"], 0, WRITES), (["s/a/b/w f", "f"], 0, WRITES), (["w ./f", "f"], 0, WRITES), (["w a/b", "a//b", "c"], 0, WRITES),
    (["w a/./b", "a/b"], 0, WRITES), (["w a/../f", "f"], 0, ["upward-name", *WRITES]), (["w f", "--", "x/y/../.././f"], 0, WRITES),
    (["w /f", "/x/../f"], 0, ["absolute-name", *WRITES]), (["-i", "w f", "f"], 0, ["in-place", *WRITES]), (["-e", "w f", "-e", "w g", "g", "f"], 0, WRITES * 2),
    (["w f", "g"], 0, []), (["w f", "d/f"], 0, []), (["r f", "f"], 0, []), (["w ../f", "f"], 0, ["upward-name"]), (["w ../f", "x/f"], 0, ["upward-name"]),
    (["w /f", "f"], 0, ["absolute-name"]), (["-f", "one.sed", "f"], 0, []), (["-e", "w p", "p"], 0, WRITES), (["w f"], 0, []),
    (["-zE", "p"], 2, ["other-language"]), (["-sE", "-z", "p"], 2, ["other-language"]), (["--separate", "--regexp-extended", "p"], 2, ["other-language"]),
]
# The same with what is denied before.
DENIED = [
    ("writes", ["-i", "p", "f"], 1, ["denied-writes", "in-place"]), ("writes", ["p", "f"], 0, []), ("writes", ["-i", "p"], 0, []),
    ("writes", ["w out", "f"], 1, ["denied-writes"]), ("reads", ["-i", "p", "f"], 0, ["in-place"]),
    ("warnings", ["-i", "p", "f"], 1, ["denied-warnings", "in-place"]), ("warnings", ["p", "f"], 0, []),
    ("warnings", ["-i", "", ":x;bx", "f"], 1, ["denied-warnings", "in-place"]),
    ("writes", ["-iE", "p", "f"], 1, ["denied-writes", "in-place"]), ("writes", ["-E", "p", "f"], 2, ["other-language"]),
    ("warnings", ["w f", "f"], 1, ["denied-warnings", *WRITES]), ("writes", ["-sz", "p", "f"], 0, []), ("writes", ["-si", "p", "f"], 1, ["denied-writes", "in-place"]),
]
# The same where warnings are denied, in the locale of this name: of a byte above 127 that is repeated, or is in a list of `y`.
WARNED = ["denied-warnings", "locale"]
LOCALES = [
    ("C", ["s/é*//"], 0, []), ("POSIX", ["-n", "s/é*//"], 0, []), ("C", ["y/é/ee/", "f"], 0, []), ("C", ["-i", "y/é/ee/", "f"], 1, ["denied-warnings", "in-place"]),
    ("C", ["s/[\\t]//"], 1, ["denied-warnings", "backslash-in-list"]), ("C", ["s/é*//;:a;ba"], 1, ["loop-idle"]), ("C", ["s/é*/"], 2, ["unterminated"]),
    *((name, words, 1, WARNED) for name in ("c", "posix", "C.UTF-8", "de_DE.UTF-8", "", "C ", "CC") for words in (["s/é*//"], ["y/é/ee/"])),
]


def explained(program, words, folder, before=()):
    """The status and the object of a call, or of a script where `before` says so."""
    ran = subprocess.run([program, "--format", "json", *before, *words], cwd=folder, stdin=subprocess.DEVNULL, capture_output=True,
                         timeout=60)
    return ran.returncode, json.loads(ran.stdout) if ran.stdout else None


def offsets(report):
    """What is said of a script, by offsets alone."""
    found = [(f["code"], f["position"] and f["position"]["offset"], f["end"] and f["end"]["offset"]) for f in report["findings"]
             if f["code"] not in ("in-place", "other-language", "bad-call")]
    return (report["answer"], report["bound"], [c["offset"] for c in report["commands"]], found,
            [(f["name"], [p["offset"] for p in f["positions"]]) for f in report["reads"] + report["writes"]])


def script_of(words):
    """The script's parts as `getopt` reads the words, each with its name, or None, and whether an option changes the language."""
    try:
        options, operands = getopt.gnu_getopt(words, SHORT, LONG)
    except getopt.GetoptError:
        return None, False
    parts = [(name, value) for name, value in options if name in ("-e", "--expression", "-f", "--file")]
    idle = any(name in ("--help", "--version") for name, _ in options)
    if not parts and operands:
        parts = [("-e", operands[0])]
    elif not parts and not idle:
        return None, False
    named = []
    for name, value in parts:
        is_text = name in ("-e", "--expression")
        count = sum(1 for other, _ in named if other.startswith("-e ")) + 1
        named.append(("-e %d" % count, value) if is_text else (value, FILES[value]))
    return named, any(name in FOREIGN for name, _ in options)


def places(report):
    """Each position in a report of a call: its offset, its part, and its line and column there."""
    found = report["commands"] + [f[end] for f in report["findings"] for end in ("position", "end") if f[end]]
    found += [step["position"] for f in report["findings"] for step in f["steps"] if step["position"]]
    return [(p["offset"], p["part"], p["line"], p["column"]) for p in found]


def place_of(named, offset):
    """The part in which an offset of the script is, with the line and the column there; a newline between two parts ends the first."""
    for name, text in named:
        if offset <= len(text):
            before = text[:offset]
            return name, before.count("\n") + 1, offset - (before.rfind("\n") + 1) + 1
        offset -= len(text) + 1
    return None


def prefixes(program, words, folder):
    """Where each finding is, as compilers print it."""
    ran = subprocess.run([program, "--format", "gcc", "--level", "note", "--sed", "--", *words], cwd=folder, stdin=subprocess.DEVNULL,
                         capture_output=True, timeout=60, encoding="ascii")
    return [line.split(": ")[0] for line in ran.stdout.splitlines() if " [" in line and ": note: hint" not in line]


def drawn(draw: random.Random) -> list:
    """Words of a call."""
    words = []
    for _ in range(draw.randrange(1, 6)):
        text = draw.choice(TEXTS)
        name = draw.choice(sorted(FILES))
        words += draw.choice([
            ["-e", text], ["-e" + text] if text else ["-e", ""], ["--expression=" + text], ["--expr", text], ["-ne", text], ["-f", name],
            ["-f" + name], ["--file=" + name], ["--fi", name], ["-n"], ["-nu"], ["--posix"], ["--q"], ["--sand"], ["-l", "9"], ["-l9"],
            ["--line-length=9"], [text], ["in"], ["--"], ["-E"], ["-nz"], ["--s"], ["--nonsense"], ["--posix=x"], ["-e"], ["-"], ["-ub"],
            ["--debug"], ["--follow"], ["--version"]])
    return words


def differs(words, folder, refused):
    """Whether GNU's sed, with its usage, says the other thing of the words. It may also stop at a text before it comes to such a word."""
    ran = subprocess.run(["sed", "--sandbox", *words], cwd=folder, stdin=subprocess.DEVNULL, capture_output=True, timeout=60)
    if b"Usage:" in ran.stderr:
        return not refused
    return refused and ran.returncode == 0


def compared(program, words, folder, gnu):
    """What is wrong with the answer for the words, or None."""
    named, foreign = script_of(words)
    status, report = explained(program, words, folder, ["--sed", "--"])
    codes = [finding["code"] for finding in report["findings"]] if report else []
    if gnu and "--version" not in words and differs(words, folder, "bad-call" in codes):
        return "GNU sed differs"
    if named is None:
        return None if status == 2 and codes == ["bad-call"] else "no refusal"
    if foreign:
        return None if status == 2 and set(codes) == {"other-language"} else "no other language"
    for offset, *place in places(report):
        if tuple(place) != place_of(named, offset):
            return "place %s of offset %d" % (place, offset)
    due = ["%s:%d:%d" % place_of(named, f["position"]["offset"]) if f["position"] else "sed" for f in report["findings"]]
    if [prefix for prefix in prefixes(program, words, folder) if prefix in due] != due:
        return "other places for compilers"
    (folder / "script").write_text("\n".join(text for _, text in named))
    due, other = explained(program, ["script"], folder)
    if status != due:
        return "status %s, of the file %s" % (status, due)
    return None if offsets(report) == offsets(other) else "another report"


def ending(seds, options, text, folder):
    """Which of the seds end with the script in all three files, where they know the options, and make no other file."""
    ended = []
    for sed in seds:
        for name, given in (("one", b"a\nb\nab\n"), ("two", b""), ("three", b"x\0y\0\na\0b")):
            (folder / name).write_bytes(given)
        before = sorted(folder.iterdir())
        ran = subprocess.run([*sed, *options, "-e", text, "one", "two", "three"], cwd=folder, stdin=subprocess.DEVNULL, capture_output=True, timeout=60)
        ended.append(ran.returncode == 0)
        for path in set(folder.iterdir()) - set(before):
            if path.name != "out" or "w out" not in text:
                ended.append("the file %s" % path.name)
            path.unlink()
    return ended


def emptied(program, folder):
    """Calls with `-i` are asked whether the empty script is meant just where theirs is empty: so macOS users write `-i`. How many fail."""
    failures = 0
    for words, is_asked in ((["-i", "", ":x;bx", "f"], True), (["-i", "-e", "", "f"], True), (["-i", "p", "f"], False), (["-i", "#", "f"], False), (["", "f"], False)):
        report = explained(program, words, folder, ["--sed", "--"])[1]
        if any("empty script" in (finding["hint"] or "") for finding in report["findings"]) != is_asked:
            failures += 1
            print("calls: asked of the empty script:", words, report["findings"])
    return failures


def several(program, folder):
    """Accepted scripts with options of several inputs and of other lines end in real seds, also in those that read on behind a file."""
    seds = [sed.split() for sed in present("calls", "runs over several files", ("sed", "sed --posix", "busybox sed", "toybox sed", "ssed"))]
    ran = failures = 0
    for options in (["-s"], ["-i"], ["-z"], ["-sz"], ["-z", "-i"], ["-n", "-s"]):
        for text in TEXTS + ["$!N;P;D", "n;n;$!n", "H;$!d;x", ":a;$!{N;ba", ":a;s/ab/b/;ta", "/a/,/b/d;$=", "N;N;D", ":a;n;ba", ":a;N;ba"]:
            status, _ = explained(program, [*options, "-e", text, "one", "two", "three"], folder, ["--sed", "--"])
            if status == 0:
                found = ending(seds, options, text, folder)
                ran += found.count(True)
                if any(isinstance(one, str) for one in found) or not found[0]:
                    failures += 1
                    print("calls:", options, text, found)
    return ran, failures


def main():
    program = str(Path(sys.argv[1]).resolve())
    number = int(sys.argv[2]) if len(sys.argv) > 2 else 1500
    draw = random.Random(7)
    failures = checks = 0
    gnu = has_gnu_sed("calls", "the words of calls as GNU sed takes them")
    with tempfile.TemporaryDirectory() as name:
        folder = Path(name)
        for path, text in FILES.items():
            (folder / path).write_text(text)
        rows = [([], *row) for row in ROWS] + [(["--deny", what], *row) for what, *row in DENIED]
        rows += [(form, *row) for name, *row in LOCALES for form in (["--deny", "warnings", "--locale", name], ["--locale=" + name, "--deny=warnings"])]
        rows += [(["--deny", "warnings"], words, 1, WARNED) for words in (["s/é*//"], ["y/é/ee/"])]
        for before, words, due, codes in rows:
            status, report = explained(program, words, folder, [*before, "--sed", "--"])
            checks += 1
            if (status, [finding["code"] for finding in report["findings"] if finding["level"] != "note"]) != (due, codes):
                failures += 1
                print("calls:", before, words, status, report["findings"])
        for _ in range(number):
            words = drawn(draw)
            wrong = compared(program, words, folder, gnu)
            checks += 1
            if wrong:
                failures += 1
                print("calls:", words, wrong)
        ran, wrong = several(program, folder)
        failures += wrong + emptied(program, folder)
    print("%d calls, %d failures, %d runs over several files" % (checks, failures, ran))
    return 1 if failures else 0


if __name__ == "__main__":
    sys.exit(main())
