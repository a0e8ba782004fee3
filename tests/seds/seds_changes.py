#!/usr/bin/env python3
"""Shows that a wrong definition of the model would be found: python3 tests/seds/seds_changes.py SEDCK_RUNS [--rt RT] [--only WORD]

Each change below is an edit of the crate that decides the model, in its must-fail/ or planted/: the prover refuses it. Here it is
taken out of the proof: the changed crate is built unproved, and what real seds do with the telling scripts below (seds_states.py)
is decided by it. Prints a table with the seds of which some run isn't one of the changed model, and the scripts. The status is 0
where each run is one of the model as it is, and where just those changes are found that should be.

SEDCK_RUNS is the program as it is, which says where the commands are.
"""
import argparse
import os
import re
import shlex
import shutil
import subprocess
import sys
import tempfile

sys.path.insert(0, os.path.dirname(os.path.abspath(__file__)))
from seds_run import Scratch, become_nobody, make_top  # noqa: E402
from seds_states import APART, TOP, Hold, marked, seds_found  # noqa: E402

# Scripts, each with an input.
SCRIPTS = [
    (b"$!d\n", b"a\nb\n"),
    (b"$d\n", b"a\nb\n"),
    (b"N\nD\n", b"a\nb\nc\n"),
    (b"G\n", b"a\nb\n"),
    (b"/x/{\ns/a/b/\n}\n", b"a\nx\n"),
    (b"t e\ns/a/b/\n:e\n", b"a\n"),
    (b"/a/s//b/\n", b"a\nca\n"),
    (b"n\n", b"a\nb\nc\n"),
    (b"s/a/b/g\n", b"aca\n"),
    (b"q\np\n", b"a\nb\n"),
    (b"s/a/b/\nt e\ns/b/c/\n:e\n", b"a\nb\n"),
    (b"s/a/b/\nt a\n:a\nt b\ns/b/c/\n:b\n", b"a\n"),
    (b"h\ns/a/b/\nx\n", b"a\n"),
    (b"x\n", b"a\nb\n"),
    (b"y/ab/cd/\n", b"abe\n"),
    (b"N\ny/\\n/x/\n", b"a\nb\n"),
    (b"N\ns/a.b/x/\n", b"a\nb\n"),
    (b"/b/d\n", b"ab\nb\nc\n"),
    (b"s/\\(a\\)\\(b\\)/\\2\\1/\n", b"ab\n"),
    (b"s/\\(a\\)/\\1\\1/\n", b"ca\n"),
    (b"s/\\(a\\)\\1/x/\n", b"aa\n"),
    (b"s/a*/x/\n", b"aaa\n"),
    (b"s/a\\{1,2\\}/x/\n", b"aa\n"),
    (b"s/b*/x/g\n", b"abc\n"),
    (b"s/\\(\\(a\\)*b\\)*/[\\2]/\n", b"abb\n"),
    (b"s/\\(\\(a\\)*\\(b\\)*\\)*/[\\2\\3]/\n", b"abba\nab\n"),
    (b"1,2c\\\ntext\n", b"a\nb\nc\n"),
    (b"2,3c\\\ntext\np\n", b"a\nb\nc\nd\n"),
    (b"2!c\\\ntext\n", b"a\nb\n"),
    (b"s/a/b/w F\nw E\n", b"a\nc\n"),
    (b"r in1\n", b"a\n"),
]

# Changes, each with its crate, and whether some sed must refute it. What none refutes makes the model have more runs, or changes what
# can't be seen of a run.
CHANGES = [
    ("sedck_model", "bang-is-ignored", "`!` is ignored", True),
    ("sedck_model", "big-d-always-reads", "`D` always reads a line", True),
    ("sedck_model", "big-g-forgets-the-newline", "`G` adds no newline", True),
    ("sedck_model", "block-is-skipped-into", "a block that isn't applied is gone into", True),
    ("sedck_model", "cycle-begins-with-the-flag", "a cycle begins with the flag set", True),
    ("sedck_model", "dollar-selects-before-the-last-line", "`$` selects the line before the last", True),
    ("sedck_model", "empty-pattern-leaves-out-addresses", "an empty expression is never one of an address", True),
    ("sedck_model", "n-keeps-the-pattern-space", "`n` keeps the pattern space", True),
    ("sedck_model", "next-match-follows-at-once", "with `g` the next match follows at once", True),
    ("sedck_model", "q-goes-on", "`q` goes on", True),
    ("sedck_model", "s-leaves-the-flag", "`s` leaves the flag as it is", True),
    ("sedck_model", "t-keeps-the-flag", "`t` doesn't reset the flag", True),
    ("sedck_model", "x-copies", "`x` copies the pattern space", True),
    ("sedck_model", "y-leaves-newlines", "`y` leaves newlines as they are", True),
    ("sedck_model", "any-leaves-newlines-out", "`.` matches no newline", True),
    ("sedck_model", "match-at-the-beginning-is-missed", "an address selects no line that begins with a match", True),
    ("sedck_model", "ends-begin-at-zero", "an address is matched at the beginning of the line", True),
    ("sedck_model", "group-keeps-its-old-text", "a group's text is kept as another one's", True),
    ("sedck_model", "group-text-is-empty", "a group in a replacement is empty", True),
    ("sedck_model", "reference-takes-nothing", "a reference takes nothing of the text", True),
    ("sedck_model", "repetition-stops-after-a-round", "`*` stops after a round", True),
    ("sedck_model", "upper-bound-is-one-less", "the upper bound of an interval is one less", True),
    ("sedck_model", "c-in-a-range-always-deletes", "`c` at a range always begins the next cycle", False),
    ("sedck_model", "groups-in-a-repetition-keep-their-texts", "groups in a repetition keep their texts from the round before", False),
    ("sedck_model", "s-needs-the-leftmost-match", "`s` needs the leftmost match", False),
    ("sedck_model", "empty-match-directly-before-the-next-one", "an empty match may be directly followed by the next one", False),
    ("sedck_model", "without-g-anything-may-follow-the-match", "without `g` anything may follow the match", False),
    ("sedck_model", "w-is-silent", "`w` writes to no file", False),
]


def edit_pairs(path):
    """The file that an edit changes, with its old and new texts."""
    with open(path) as text:
        lines = text.read().splitlines()
    file, = [line[6:] for line in lines if line.startswith("file: ")]
    old = [line[5:] for line in lines if line.startswith("old: ")]
    new = [line[5:] for line in lines if line.startswith("new: ")]
    return file, list(zip(old, new))


def written(path, text):
    with open(path, "wb") as out:
        out.write(text)


def collect(folder, program, seds):
    """Runs the seds on the telling scripts, and writes what was seen as standard inputs of `sedck_probe`."""
    top = make_top([os.path.abspath(program)])
    become_nobody()
    try:
        hold = Hold(os.path.join(top, os.path.basename(program)), seds, Scratch(top))
        for number, (script, given) in enumerate(SCRIPTS):
            places = hold.places(script)
            kinds, text = [kind for _, _, kind in places], marked(script, places)
            runs = [hold.run(script, text, kinds, name, words, given, name.replace(" ", "")) for name, words in seds.items()]
            written(os.path.join(folder, "case%02d" % number), "".join(run for run in runs if run).encode())
    finally:
        os.chdir("/")
        shutil.rmtree(top, ignore_errors=True)


class Cases:
    """The telling scripts, and what the seds did with them."""
    def __init__(self, folder, program, seds):
        self.folder, self.scripts = os.path.join(folder, "cases"), folder
        os.chmod(folder, 0o755)
        os.mkdir(self.folder)
        os.chmod(self.folder, 0o777)
        # The limits of runs hold to the end of a process, so another one runs the seds.
        child = os.fork()
        if not child:
            status = 1
            try:
                collect(self.folder, program, seds)
                status = 0
            finally:
                os._exit(status)
        if os.waitpid(child, 0)[1]:
            raise SystemExit("the seds can't be run")
        for number, (script, _) in enumerate(SCRIPTS):
            written(os.path.join(folder, "%02d.sed" % number), script)
            written(os.path.join(self.folder, "case%02d.args" % number), b"%02d.sed\n" % number)

    def refused(self, rt, crates):
        """For each script the names of the runs that aren't runs of the model that these crates decide."""
        words = shlex.split(rt) + ["try", "--cases", self.folder]
        for number in range(len(SCRIPTS)):
            words += ["--data", "%02d.sed=%s" % (number, os.path.join(self.scripts, "%02d.sed" % number))]
        done = subprocess.run(words, cwd=os.path.join(crates, "sedck_probe"), stdin=subprocess.DEVNULL, stdout=subprocess.PIPE,
                              stderr=subprocess.PIPE, encoding="utf-8")
        parts = {int(part[4:6]): part for part in re.split(r"^== ", done.stdout, flags=re.M)[1:]}
        if sorted(parts) != list(range(len(SCRIPTS))) or not all(re.search(r"^\d+ runs, ", part, re.M) for part in parts.values()):
            raise SystemExit("rt try: not each script has an answer\n%s%s" % (done.stdout[-3000:], done.stderr[-3000:]))
        return {number: re.findall(r"^(\S+): refused at", part, re.M) for number, part in parts.items()}


def changed(crates, folder, crate, edit):
    """A copy of the crates with the edit."""
    to = os.path.join(folder, edit)
    shutil.copytree(crates, os.path.join(to, "crates"), ignore=shutil.ignore_patterns("out", "must-fail", "planted"))
    for name in ("crates.txt", "HANDLES"):
        shutil.copy(os.path.join(TOP, name), to)
    places = [os.path.join(crates, crate, part, edit + ".edit") for part in ("must-fail", "planted")]
    file, pairs = edit_pairs(next(filter(os.path.exists, places)))
    path = os.path.join(to, "crates", crate, file)
    with open(path) as text:
        code = text.read()
    for old, new in pairs:
        if code.count(old) != 1:
            raise SystemExit("%s: %r is in %s %d times" % (edit, old, file, code.count(old)))
        code = code.replace(old, new)
    written(path, code.encode())
    return to


def shown(script):
    return "`%s`" % script.decode().rstrip("\n").replace("\n", "`, `").replace("|", "\\|")


def main():
    words = argparse.ArgumentParser()
    words.add_argument("program")
    words.add_argument("--rt", default="rt")
    words.add_argument("--only", default="")
    asked = words.parse_args()
    seds = seds_found([])
    crates, failures = os.path.join(TOP, "crates"), []
    with tempfile.TemporaryDirectory(prefix="sedck-changes-") as folder:
        cases = Cases(folder, asked.program, seds)
        failures += ["no run of the model as it is: %r: %s" % (SCRIPTS[number][0], runs)
                     for number, runs in cases.refused(asked.rt, crates).items() if set(runs) - set(APART)]
        print("| change | edit | refuted by | script |\n|---|---|---|---|")
        for crate, edit, what, is_refuted in CHANGES:
            if not re.search(asked.only, edit):
                continue
            top = changed(crates, folder, crate, edit)
            found = cases.refused(asked.rt, os.path.join(top, "crates"))
            shutil.rmtree(top)
            seds_of = [name for name in seds if any(name.replace(" ", "") in runs for runs in found.values())]
            scripts = [SCRIPTS[number][0] for number, runs in sorted(found.items()) if len(runs) == max(map(len, found.values())) > 0]
            who = "all" if len(seds_of) == len(seds) else ", ".join(seds_of) or "none"
            print("| %s | `%s` `%s` | %s | %s |" % (what, crate, edit, who, shown(scripts[0]) if scripts else ""), flush=True)
            if bool(seds_of) != is_refuted:
                failures.append("%s: refuted by %s" % (edit, seds_of or "none"))
    for failure in failures:
        print("FAILED: " + failure)
    return 1 if failures else 0


if __name__ == "__main__":
    sys.exit(main())
