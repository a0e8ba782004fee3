#!/usr/bin/env python3
"""Compares the words of the completions with what the programs say: python3 tests/completions.py SEDCK SEDCK-EXPLAIN

The subcommands are those of the line that sedck prints for invalid arguments, the options and their values those of --help. Each shell that
the machine has is asked for its completions; bash answers also what comes after a word, and which values an option has. In each shell the
key Tab is pressed, too. A shell that is missing is named. The status is 0 only where no shell has a word too many or too few.
"""
import fcntl
import os
import pty
import re
import select
import signal
import struct
import subprocess
import sys
import tempfile
import termios
import time
from pathlib import Path

from skips import has

TOP = Path(__file__).resolve().parent.parent
FOLDER = TOP / "completions"
wrong = []


def expect(seen, due, what):
    if seen != due:
        wrong.append(what)
        print("completions: %s: %s are there, and %s are due" % (what, sorted(seen), sorted(due)))


def said(words):
    done = subprocess.run(words, stdin=subprocess.DEVNULL, stdout=subprocess.PIPE, stderr=subprocess.STDOUT, encoding="utf-8")
    return done.stdout


def words_of_programs(sedck, explain):
    """The words of each program, and the values of each option of sedck-explain that lists some."""
    usage, text = said([sedck]), said([explain, "--help"])
    # Each option has a line of its own, and what is said of it follows, further in. Values are in brackets, without a colon.
    rows = re.findall(r"^ {2,6}(?:-\w, )?(--[\w-]+)(?: <[^>]*>)?\n((?: {10}.*\n)+)", text, re.M)
    listed = {option: re.search(r"\[([^\]:]*)\]", " ".join(said_of.split())) for option, said_of in rows}
    values = {option: set(re.findall(r"\w+", found[1])) for option, found in listed.items() if found}
    # The help has no room for the codes of warnings: they are in the answer to a word that is none.
    codes = set(re.findall(r"[a-z-]+", re.search(r"\[possible values: ([^\]]*)\]", said([explain, "--allow", "none"]))[1]))
    values["--deny"] |= codes
    values["--allow"] = codes
    words = {"sedck": set(re.findall(r"\b([a-z]+)(?= (?:SCRIPT|CERT))", usage)), "sedck-explain": {option for option, _ in rows},
             "sedck-fmt": set(re.findall(r"--[a-z-]+", said([TOP / "wrapper" / "sedck-fmt", "--help"]).splitlines()[0])),
             "sedck-known": set(re.findall(r"--[a-z]+", said([TOP / "wrapper" / "sedck-known", "--help"]).splitlines()[0])),
             "sedck-run": set(re.findall(r"--[a-z]+", said([TOP / "wrapper" / "sedck-run", "--help"]).splitlines()[0])),
             "sedck-sed": set(re.findall(r"--[a-z]+", said([TOP / "wrapper" / "sedck-sed", "--help"]).splitlines()[0]))}
    return words, values


def from_bash(line):
    """What bash completes at the end of this line."""
    words = line.split(" ")
    text = 'source "$0"; COMP_WORDS=("$@"); COMP_CWORD=$(($# - 1)); function=$(complete -p "$1" | sed "s/.*-F \\([^ ]*\\) .*/\\1/"); "$function"; printf "%s\\n" "${COMPREPLY[@]}"'
    done = subprocess.run(["bash", "-c", text, str(FOLDER / "sedck.bash"), *words], cwd=FOLDER, stdin=subprocess.DEVNULL, stdout=subprocess.PIPE,
                          stderr=subprocess.DEVNULL, encoding="utf-8")
    return set(done.stdout.split())


def check_bash(words, values):
    expect(from_bash("sedck "), words["sedck"], "bash: sedck")
    expect(from_bash("sedck-explain -"), words["sedck-explain"] | {"--"}, "bash: sedck-explain")
    expect(from_bash("sedck-fmt -"), words["sedck-fmt"] | {"-l", "-d", "-w"}, "bash: sedck-fmt")
    expect(from_bash("sedck-fmt -l sedck.b"), {"sedck.bash"}, "bash: a file of sedck-fmt")
    expect(from_bash("sedck-fmt --stdin-filename "), set(), "bash: a name of standard input")
    for option in ("--deny", "--allow"):
        expect(from_bash("sedck-known %s " % option), values[option], "bash: the values of %s of sedck-known" % option)
    expect(from_bash("sedck-known -"), words["sedck-known"], "bash: sedck-known")
    expect(from_bash("sedck-known sedck.b"), {"sedck.bash"}, "bash: a file of sedck-known")
    expect(from_bash("sedck-run -"), words["sedck-run"], "bash: sedck-run")
    expect(from_bash("sedck-run sedck.b"), {"sedck.bash"}, "bash: a file of sedck-run")
    expect(from_bash("sedck-sed -"), words["sedck-sed"], "bash: sedck-sed")
    expect(from_bash("sedck-sed --mode "), {"log", "warn", "refuse"}, "bash: the modes of sedck-sed")
    for line in ("sedck-sed printf --mod", "sedck-sed --mode log --mod"):
        expect(from_bash(line) & words["sedck-sed"], set(), "bash: an option of the command of " + line)
    for line in ("sedck-sed print", "sedck-sed --mode warn print"):
        expect(from_bash(line) & {"printf"}, {"printf"}, "bash: the command of " + line)
    for option, due in values.items():
        expect(from_bash("sedck-explain %s " % option), due, "bash: the values of " + option)
    expect(from_bash("sedck-explain --deny reads,w"), {"reads,writes", "reads,warnings", "reads,writes-its-input"}, "bash: a second value of --deny")
    expect(from_bash("sedck-explain --allow locale,in"), {"locale,in-place"}, "bash: a second value of --allow")
    expect(from_bash("sedck check sedck.b"), {"sedck.bash"}, "bash: a file of sedck check")
    expect(from_bash("sedck-explain -- sedck.b"), {"sedck.bash"}, "bash: a file behind --")
    expect(from_bash("sedck-explain sedck.b"), {"sedck.bash"}, "bash: a script")
    expect(from_bash("sedck-sed --dir "), set(), "bash: nothing follows --dir")


def check_zsh(words, values):
    """The words of the file for zsh, which must be one that zsh can read."""
    text = (FOLDER / "_sedck").read_text()
    text = text.replace("$warnings", " ".join(re.search(r"^warnings=\(([^)]*)\)$", text, re.M)[1].split()))
    parts = dict(re.findall(r"^    (sedck[\w-]*)\)\n(.*?);;$", text, re.M | re.S))
    expect(set(parts), set(words), "zsh: the programs")
    expect(set(re.match(r"#compdef (.*)", text)[1].split()), set(words), "zsh: the programs of the first line")
    expect(set(re.findall(r"[( ]([a-z]+)\\:", parts["sedck"])), words["sedck"], "zsh: sedck")
    for name in ("sedck-explain", "sedck-fmt", "sedck-known", "sedck-run", "sedck-sed"):
        expect(set(re.findall(r"(--[\w-]+)[\[}]", parts[name])), words[name], "zsh: " + name)
    for option, due in values.items():
        listed = re.search("['\"][*]?" + re.escape(option + "[") + r"[^\]]*\]:\w+:(?:\(([^)]*)\)|_values -s , \w+ ([^'\"]*))", parts["sedck-explain"])
        expect(set((listed[1] or listed[2]).split()), due, "zsh: the values of " + option)
    if has("completions", "the file as zsh reads it", "zsh"):
        expect(said(["zsh", "-n", str(FOLDER / "_sedck")]), "", "zsh: the file")


def check_fish(words, values):
    if has("completions", "what fish completes", "fish"):
        def asked(line):
            text = "".join("source %s\n" % (FOLDER / (name + ".fish")) for name in words) + "complete -C '%s'\n" % line
            done = subprocess.run(["fish", "--no-config", "-c", text], stdin=subprocess.DEVNULL, stdout=subprocess.PIPE, encoding="utf-8",
                                  cwd=FOLDER, env={**os.environ, "HOME": str(FOLDER)})
            return {row.split("\t")[0] for row in done.stdout.splitlines()}

        expect(asked("sedck "), words["sedck"], "fish: sedck")
        for name in ("sedck-explain", "sedck-fmt", "sedck-known", "sedck-run", "sedck-sed"):
            expect({word for word in asked(name + " --") if word.startswith("--")}, words[name], "fish: " + name)
        for option, due in values.items():
            expect(asked("sedck-explain %s " % option), due, "fish: the values of " + option)


# How each shell is started, and what it is told so that it completes; then it lists what it has at the first key, without a question.
STARTS = {
    "bash": (["bash", "--norc", "--noprofile", "-i"], "source '{0}/sedck.bash'; bind 'set show-all-if-ambiguous on'; bind 'set page-completions off'; bind 'set completion-query-items -1'; PS1='> '"),
    "zsh": (["zsh", "-f", "-i"], "fpath=('{0}' $fpath); autoload -U compinit; compinit -D -u; LISTMAX=0; PS1='> '; unsetopt menu_complete auto_menu; setopt no_list_ambiguous no_beep"),
    "fish": (["fish", "--no-config", "-i"], "for file in '{0}'/*.fish; source $file; end; function fish_prompt; echo '> '; end"),
}


class Terminal:
    """A shell at a terminal, which is wide so that no word of a list is cut."""
    def __init__(self, shell, folder):
        start, told = STARTS[shell]
        self.pid, self.ours = pty.fork()
        if self.pid == 0:
            fcntl.ioctl(0, termios.TIOCSWINSZ, struct.pack("HHHH", 200, 400, 0, 0))
            os.chdir(folder)
            os.execvpe(start[0], start, {**os.environ, "TERM": "xterm" if shell == "fish" else "dumb", "HOME": folder, "HISTFILE": "", "LC_ALL": "C"})
        self.count, self.sum = 0, "(math 40 + %d)" if shell == "fish" else "$((40 + %d))"
        self.said(told.format(FOLDER) + "\n")

    def type(self, text):
        os.write(self.ours, text.encode())

    def read(self, seconds, mark=None):
        """What is printed until the mark, or without one until nothing comes for so long."""
        text, end = "", time.monotonic() + 300
        while time.monotonic() < end and (mark is None or mark not in text):
            if select.select([self.ours], [], [], seconds)[0]:
                try:
                    text += os.read(self.ours, 65536).decode(errors="replace")
                except OSError:
                    # The shell has ended.
                    break
            elif mark is None:
                break
        return text

    def said(self, typed):
        """What is printed of what is typed, whose line is then taken away; all of it has come when a command behind it has run."""
        self.type(typed)
        text = self.read(1)
        self.count += 1
        self.type("\x15echo done%s\n" % (self.sum % self.count))
        return text + self.read(1, "done%d" % (40 + self.count))

    def end(self):
        os.kill(self.pid, signal.SIGKILL)
        os.waitpid(self.pid, 0)
        os.close(self.ours)


def check_tab(values):
    """At the key Tab each shell lists all values of an option, those behind a comma, and those that begin as what is typed does."""
    for shell in STARTS:
        if not has("completions", "the key Tab in " + shell, shell):
            continue
        with tempfile.TemporaryDirectory(prefix="sedck-completions-") as folder:
            terminal = Terminal(shell, folder)
            for program, option in (("sedck-explain", "--allow"), ("sedck-explain", "--deny"), ("sedck-known", "--deny")):
                listed = set(re.findall(r"[a-z][a-z-]*", terminal.said("%s %s \t" % (program, option))))
                expect(values[option] - listed, set(), "%s: what Tab leaves out behind %s %s" % (shell, program, option))
            for typed, rest in (("sedck-explain --deny warnings,backs", "lash-in-list"), ("sedck-explain --deny locale,gro", "wing"), ("sedck-explain --allow opti", "ons-in-first-line")):
                expect({rest} if rest in terminal.said(typed + "\t") else set(), {rest}, "%s: what Tab adds to %s" % (shell, typed))
            terminal.end()


def main():
    words, values = words_of_programs(*map(os.path.abspath, sys.argv[1:3]))
    if not all(words.values()) or set(values) != {"--format", "--level", "--deny", "--allow", "--as", "--assume-set"}:
        print("completions: the programs say no words that can be read: %s %s" % (words, values))
        return 1
    if has("completions", "what bash completes", "bash"):
        check_bash(words, values)
    check_zsh(words, values)
    check_fish(words, values)
    check_tab(values)
    if not wrong:
        print("completions: the words of the shells are those of the programs, %d options and subcommands" % sum(map(len, words.values())))
    return 1 if wrong else 0


if __name__ == "__main__":
    sys.exit(main())
