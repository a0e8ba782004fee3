#!/usr/bin/env python3
"""Holds what `sedck-explain --calls` says of drawn files against runs of these files.

    python3 tests/seds/seds_calls.py build/sedck-explain [--files N] [--seed S] [--jobs J] [--show]

N files are drawn, three of four for a shell and the others for `make`, and are run by each shell and `make` that is found. In place of a sed
they run a program that writes its words down. A finding is:

- a file that ran a sed, though the report has neither a call nor a place that isn't understood;
- a run whose words are those of no call in the report, where that has no condition, and nothing that is unknown.

Names of programs, and scripts, are put together of variables, loops, functions, aliases and values in values; words are quoted in all ways.
Nothing is drawn of which `docs/CALLS.md` says that it is never looked at, but each run must find some of that (KNOWN). With `--show` the files are printed and nothing is run. What is drawn depends
on N and S alone. The status is 0 only where there is no finding.
"""
import argparse
import json
import multiprocessing
import os
import random
import re
import shutil
import signal
import subprocess
import sys
import tempfile
from pathlib import Path

SHELLS = (["dash"], ["bash"], ["bash", "--posix"], ["ksh93"], ["mksh"], ["yash"], ["zsh"], ["busybox", "sh"])
MAKES = (["make"],)
LIMIT_SECONDS = 5
# The program in the place of a sed: it writes down how many words it has, and the words.
LOGGER = '#!/bin/sh\n{ printf "%s\\0" "$#" "$@"; } >> "$SEDCK_RUNS"\n'
NAMES = ("x", "y", "tool", "T")
# What each run must find: files of which docs/CALLS.md says that they aren't looked at, and a run whose words no call has.
KNOWN = (("a.sh", "printf ':\\nsed p f\\n' | sh\n", ()), ("a.sh", "sed p f\n", [(b"d", b"f")]),
         ("a.sh", "x=${y:-sed}\n$x p f\n", ()), ("Makefile", "E = ed\nall:\n\ts$(E) p f\n", ()))
# What a condition, or a part that isn't known, is called.
OPEN = {"unknown", "accepted-if", "not-judged", "not-understood"}


class Draw:
    """Draws one file."""

    def __init__(self, seed):
        self.random = random.Random(seed)
        # The functions that may be called where this is 0, 1 and 2: none calls itself.
        self.level = 0
        # Whether all calls have their words as they are.
        self.is_plain = self.random.random() < 0.5

    def one(self, *choices):
        return self.random.choice(choices)

    def some(self, most, draw):
        return [draw() for _ in range(self.random.randint(1, most))]

    # ---- Words

    def name(self):
        return self.one(*NAMES)

    def use(self):
        return self.one("$%s", "${%s}", '"$%s"', '"${%s}"', "${%s-}", "${%s:-sed}", "${%s+sed}") % self.name()

    def value(self):
        name = self.name()
        return self.one("sed", "sed", "cat", "p", "'sed -n'", "$d/sed", "$d/", '"$%s"' % name, '"$d/$%s"' % name,
                        "$(echo $%s)" % name, "`echo sed`", "${%s:=sed}" % name, "'s/a/b/'", '"s/$%s/b/"' % name)

    def called(self):
        """The name of a command, which may be a sed."""
        name, plain = self.name(), ("sed", "command sed", "env sed", "s''ed", "\\sed", '"s"ed', "LC_ALL=C sed", "nice sed", "nice -n 5 sed", "env x=y sed")
        if self.is_plain:
            return self.one(*plain)
        return self.one(*plain[:3], "$d/sed", '"$d"/sed', self.use(), self.use(), '"$%s"' % name,
                        "$d/$%s" % name, '"$d/$%s"' % name)

    def script(self):
        """A script in quotes, in one of the ways of a shell."""
        text = "".join(self.some(3, lambda: self.one("p", "s/a/b/", "/x y/d", "a\\\nb", "y/ab/cd/", "s/'/q/", 's/"/\\"/', "$d", "#", ";", "s/\\$/x/", "2,3d", "\n")))
        ways = [lambda: "'%s'" % text.replace("'", "'\\''"), lambda: "".join("\\" + byte if byte != "\n" else "'\n'" for byte in text),
                lambda: '"%s"' % "".join("\\" + byte if byte in '"$`\\' else byte for byte in text),
                lambda: "'%s'\"%s\"" % (text[:2].replace("'", "'\\''"), "".join("\\" + byte if byte in '"$`\\' else byte for byte in text[2:]))]
        return self.one(*ways)()

    def call(self):
        value = '"%s"' % self.use().strip('"')
        words = [self.called(), *self.one([], ["-n"], ["-e"], ["-n", "-e"], ["--"]), self.script() if self.is_plain else self.one(self.script(), self.script(), value)]
        words += self.one(["f"], ["./f", "f"], ["<", "f"], [])
        return self.one(" ", " ", "  ", " \\\n ").join(words)

    # ---- Commands of a shell

    def command(self, depth):
        """A command with others in it to this depth."""
        simple = [self.call, self.call, self.assignment, self.assignment, self.function_call, self.setting]
        if depth == 0 or self.random.random() < 0.6:
            return self.one(*simple)()
        inner = "\n".join(self.some(3, lambda: self.command(depth - 1)))
        name = self.name()
        words = " ".join(self.some(2, lambda: self.one("sed", "cat", "se", "$d/sed", "sed cat", "p d")))
        return self.one("for %s in %s; do\n%s\ndone" % (name, words, inner), "if %s; then\n%s\nfi" % (self.one(":", "test -n \"$%s\"" % name), inner),
                        "case $%s in\n*) %s;;\nesac" % (name, inner), "{ %s\n}" % inner, "( %s\n)" % inner, "%s=$( %s\n)" % (name, inner),
                        "cat <<E\n$( %s\n)\nE" % inner, "while :; do\n%s\nbreak\ndone" % inner, "! %s" % self.call(), "eval '%s'" % inner.replace("'", "'\\''"))

    def assignment(self):
        whole = ": ${%s=%s}" % (self.name(), self.one("sed", "cat", "$d/sed", "p"))
        return self.one(whole, *(form % (self.name(), self.value()) for form in ("%s=%s", "%s=%s", "export %s=%s", "%s=%s :", "%s=%s; readonly z")))

    def function_call(self):
        functions = (["f", "g", "f p"], ["g"], [":"])[self.level]
        return self.one(*functions)

    def setting(self):
        return self.one("unset %s" % self.name(), "IFS=:", "set -f", "alias %s=sed" % self.one("s", "g"), "# sed p f", "cd .", "shift 0",
                        "%s=%s\n%s=$%s" % (self.name(), self.value(), self.name(), self.name()))

    def shell_file(self):
        lines = ["d=${SEDCK_FOLDER}", self.one("e=", "# e")]
        for self.level, name in ((1, "f"), (2, "g")):
            body = "\n".join(self.some(2, lambda: self.command(1)))
            lines.append(self.one("%s() {\n%s\n}", "%s ()\n{\n%s\n}", "%s() { %s\n}", "%s() (\n%s\n)") % (name, body))
        self.level = 0
        return "\n".join(lines + self.some(5, lambda: self.command(2)) + [self.call()]) + "\n"

    # ---- Makefiles

    def make_value(self):
        name = self.name()
        return self.one("sed", "sed -n", "cat", "$(d)/sed", "$(%s)" % name, "${%s} -n" % name, "$(d)/$(%s)" % name, "s/a/b/",
                        "$(firstword $(%s) p)" % name, "$(if $(%s),sed,cat)" % name, "@sed")

    def make_script(self):
        """A script in quotes, for a line of a recipe."""
        text = self.script().replace("$", "$$").replace("\n", "")
        place = self.random.randint(0, len(text))
        return self.one(text, text, text[:place] + "\\\n" + self.one("", "\t", " ") + text[place:])

    def make_line(self):
        name = self.name()
        if self.is_plain:
            words = [self.one("sed", "@sed", "-sed", "command sed", "x=y; sed", "LC_ALL=C sed", 's""ed'), *self.one([], ["-n"], ["-e"]), self.make_script()]
            return self.one(" ", " ", " \\\n\t").join(words + self.one([], ["f"], ["<", "f"]))
        word = self.one("sed", "$(%s)" % name, "${%s}" % name, "$(d)/$(%s)" % name, "$(d)/sed", "$(call run,sed)",
                        "$(%s:x=sed)" % name, "$(or $(%s),sed)" % name)
        script = self.one("p", "'s/a/b/'", "'$$d'", '"s/$$x/b/"', "'s/$(%s)/b/'" % name, "-n p", "'/x y/d'", "s/a/b/\\;p")
        return self.one("", "@", "-", "+@", "x=p; ", "if :; then ", "for x in p d; do ").replace("\n", "") + word + " " + script + self.one(" f", " ./f f", " < f", "")

    def make_file(self):
        lines = ["d = $(SEDCK_FOLDER)"]
        lines += self.some(4, lambda: self.one("%s = %s", "%s := %s", "%s ?= %s", "%s += %s", "define %s\n%s\nendef") % (self.name(), self.make_value()))
        if self.one(True, False):
            lines.append("run = $(1)")
        lines.append("all:")
        for _ in range(self.random.randint(1, 4)):
            line = self.make_line()
            lines.append("\t" + line + ("; fi" if "then " in line else "; done" if " do " in line else ""))
        return "\n".join(lines) + "\n"


def drawn(seed, number):
    """The name of the file of this number, and its text."""
    draw = Draw("%s %d" % (seed, number))
    return ("Makefile", draw.make_file()) if number % 4 == 3 else ("a.sh", draw.shell_file())


def runs(folder, name, command):
    """The words with which sed is run where the command reads the file; none where the run has no end."""
    log = Path(folder, "runs")
    log.write_bytes(b"")
    environment = {"PATH": "%s/bin:/usr/bin:/bin" % folder, "HOME": folder, "LC_ALL": "C", "SEDCK_RUNS": str(log), "SEDCK_FOLDER": "%s/bin" % folder}
    words = [*command, "-k", "-f", name] if command in MAKES else [*command, name]
    run = subprocess.Popen(words, cwd=folder, env=environment, stdin=subprocess.DEVNULL, stdout=subprocess.DEVNULL, stderr=subprocess.DEVNULL, start_new_session=True)
    try:
        run.wait(LIMIT_SECONDS)
    except subprocess.TimeoutExpired:
        os.killpg(run.pid, signal.SIGKILL)
        run.wait()
    # A run without words does nothing.
    parts, found = log.read_bytes().split(b"\0")[:-1], set()
    while parts:
        count = int(parts[0])
        found.update([tuple(parts[1:count + 1])] if count else [])
        del parts[:count + 1]
    return found


def shown(word: str) -> bytes:
    """The bytes of a word of a report."""
    plain = re.sub(r'\\(x[0-9a-f]{2}|\\|")', lambda found: found[1] if len(found[1]) == 1 else chr(int(found[1][1:], 16)), word)
    return plain.encode("latin-1")


def judged(program, folder, name, ran):
    """Whether the words of the report on a file are all known, and what is wrong with it, where the file ran sed with these words."""
    done = subprocess.run([program, "--format", "json", "--calls", name], cwd=folder, stdin=subprocess.DEVNULL, capture_output=True, timeout=60)
    objects = [json.loads(line) for line in done.stdout.splitlines()]
    if done.returncode not in (0, 1, 2, 5):
        return False, "the status is %d" % done.returncode
    if ran and objects[-1]["calls"] + objects[-1]["unread"] == 0:
        return False, "it ran a sed, and nothing is said of it"
    if any(one.get("answer") in OPEN or any(finding["code"] in ("open-hole", "known-value") for finding in one.get("findings", [])) for one in objects[:-1]):
        return False, None
    calls = {tuple(map(shown, one["words"])) for one in objects[:-1]}
    others = ran - calls
    return True, "it ran %r, and the report has %r" % (sorted(others)[0], sorted(calls)) if others else None


def tried_file(program, name, text, others=()):
    """Whether the file runs a sed, also with these other words, whether the words of its report are all known, and what is wrong with that."""
    with tempfile.TemporaryDirectory(prefix="calls") as folder:
        for path, content in (("bin/sed", LOGGER), ("f", "a\n"), (name, text)):
            Path(folder, path).parent.mkdir(exist_ok=True)
            Path(folder, path).write_text(content)
        Path(folder, "bin", "sed").chmod(0o755)
        ran = set(others)
        for command in MAKES if name == "Makefile" else SHELLS:
            if shutil.which(command[0]):
                ran |= runs(folder, name, command)
        return bool(ran), *judged(program, folder, name, ran)


def tried(given):
    """The same of the file of this number."""
    program, seed, number = given
    return tried_file(program, *drawn(seed, number))


def overlooked(program):
    """The known findings that aren't found."""
    return [text for name, text, others in KNOWN if tried_file(program, name, text, others)[2] is None]


def main():
    parser = argparse.ArgumentParser(description=__doc__, formatter_class=argparse.RawDescriptionHelpFormatter)
    parser.add_argument("program")
    parser.add_argument("--files", type=int, default=2000)
    parser.add_argument("--seed", default="1")
    parser.add_argument("--jobs", type=int, default=len(os.sched_getaffinity(0)))
    parser.add_argument("--show", action="store_true")
    asked = parser.parse_args()
    if asked.show:
        for number in range(asked.files):
            print("# %d: %s\n%s" % (number, *drawn(asked.seed, number)))
        return 0
    program, count, known, findings = os.path.abspath(asked.program), 0, 0, 0
    for text in overlooked(program):
        findings += 1
        print("calls: it isn't found that this runs a sed, or other words:\n%s" % text)
    with multiprocessing.Pool(asked.jobs) as pool:
        given = [(program, asked.seed, number) for number in range(asked.files)]
        for number, (has_run, is_known, wrong) in enumerate(pool.imap(tried, given, 8)):
            count += has_run
            known += has_run and is_known
            if wrong:
                findings += 1
                name, text = drawn(asked.seed, number)
                print("calls: %d, %s: %s\n%s" % (number, name, wrong, text), flush=True)
    print("calls: %d files, %d of them ran a sed, of %d all words are known; %d findings" % (asked.files, count, known, findings))
    return 1 if findings else 0


if __name__ == "__main__":
    sys.exit(main())
