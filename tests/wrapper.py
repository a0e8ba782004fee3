#!/usr/bin/env python3
"""Tests wrapper/sed: python3 tests/wrapper.py build/sedck-explain, in the folder of the repository.

They are installed in a scratch folder as `make install` does it, with the program, or with a stand-in for it where what it does is
to be known: that one prints the report, the text for sed and the status that the test gives, and where it gives no text that of the
program. What is due comes from the real sed and from the words of the call. Each test runs with each shell of SHELLS that the machine has. The status is 0 only where everything is as expected.
"""
import getopt
import json
import os
import random
import shutil
import subprocess
import sys
import tempfile
import threading
from pathlib import Path

from calls import FILES, LONG, SHORT, drawn
from skips import present

TOP = Path(__file__).resolve().parent.parent
SHELLS = ("dash", "bash", "busybox sh")
REPORT = '{"file":"sed","status":%d,"answer":"%s","reads":[%s],"writes":[%s],"findings":[%s]}'
# Reads all its input, notes its words, appends what it reads of a copy to the file `checked`, and changes the file that CHANGES names.
STAND_IN = """#!/bin/sh
cat > /dev/null
printf '%s\\n' "$*" >> "$NOTES/asked"
for word do case $word in */dev/fd/*) cat "/dev/fd/${word##*/}" >> "$NOTES/checked" ;; esac; done
[ -z "$CHANGES" ] || printf 's/^/changed/\\n' > "$CHANGES"
case $2 in
    json) printf '%s\\n' "$REPORT" ;;
    sed) [ -z "$PLAIN" ] || { printf '%s\\n' "$PLAIN"; exit "$SPELLED"; }; exec "$PROGRAM" "$@" ;;
    *) echo "/dev/fd/9:1:1: error: what it finds [code]" ;;
esac
case " $* " in *' --deny locale '*) exit "$DENIED" ;; esac
exit "$STATUS"
"""
# A sed that says what it is and how it was called.
SPEAKING_SED = """#!/bin/sh
[ "$*" != '--sandbox --version' ] || { echo '%s'; exit; }
printf '<%%s>' "$@"
"""
# The same, and it keeps the text that it gets as its script.
KEEPING_SED = SPEAKING_SED % "" + """for word do case $word in /dev/fd/[0-9]) cat "$word" > "$NOTES/text" ;; esac; done
"""
TEXT = "/dev/fd/9"
# Words of calls, those with which the mode `refuse` runs sed, and the script there.
SPELLED = [
    (["s/a/b/;p"], ["-f", TEXT], "s/a/b/\np\n"), (["p", "in"], ["-f", TEXT, "in"], "p\n"), (["-n", "p", "in"], ["-n", "-f", TEXT, "in"], "p\n"),
    (["-ne", "p", "in"], ["-n", "-f", TEXT, "in"], "p\n"), (["-nep", "in"], ["-n", "-f", TEXT, "in"], "p\n"), (["-ep", "in"], ["-f", TEXT, "in"], "p\n"),
    (["-e", "p", "-e", "d", "in"], ["-f", TEXT, "in"], "p\nd\n"), (["-e", "a\\", "-n", "-e", "b", "in"], ["-n", "-f", TEXT, "in"], "a\\\nb\n"),
    (["-e", "p", "in", "-n"], ["-f", TEXT, "in", "-n"], "p\n"), (["p", "in", "-n", "in"], ["in", "-n", "-f", TEXT, "in"], "p\n"),
    (["in", "-e", "p", "-s"], ["in", "-f", TEXT, "-s"], "p\n"), (["--expression", "p", "in"], ["-f", TEXT, "in"], "p\n"),
    (["--expression=p", "-z", "in"], ["-f", TEXT, "-z", "in"], "p\n"), (["--e=p", "--", "in"], ["-f", TEXT, "--", "in"], "p\n"),
    (["--posix", "p", "in"], ["--posix", "-f", TEXT, "in"], "p\n"), (["--sandbox", "p"], ["--sandbox", "-f", TEXT], "p\n"),
    (["--debug", "-u", "p", "in"], ["--debug", "-u", "-f", TEXT, "in"], "p\n"), (["-f", "x.sed", "in"], ["-f", TEXT, "in"], "N\nP\nD\n"),
    (["-nfx.sed", "--posix", "in"], ["-n", "-f", TEXT, "--posix", "in"], "N\nP\nD\n"), (["--file", "x.sed"], ["-f", TEXT], "N\nP\nD\n"),
    (["--file=x.sed", "in"], ["-f", TEXT, "in"], "N\nP\nD\n"), (["-snf", "x.sed", "-e", "p", "-fx.sed", "in"], ["-sn", "-f", TEXT, "in"], "N\nP\nD\np\nN\nP\nD\n"),
    (["--", "p", "-n", "-e"], ["-f", TEXT, "--", "-n", "-e"], "p\n"), (["-e", "p", "--", "-e", "in"], ["-f", TEXT, "--", "-e", "in"], "p\n"),
    (["p", "--", "-in"], ["-f", TEXT, "--", "-in"], "p\n"), (["-n", "p", "-s", "--", "in"], ["-n", "-s", "-f", TEXT, "--", "in"], "p\n"),
    (["-i", "p", "in"], ["-i", "-f", TEXT, "in"], "p\n"), (["-i.fe", "-e", "p", "in"], ["-i.fe", "-f", TEXT, "in"], "p\n"), (["-nife", "p", "in"], ["-nife", "-f", TEXT, "in"], "p\n"),
    (["--in-place=.e", "p", "in"], ["--in-place=.e", "-f", TEXT, "in"], "p\n"), (["-I", ".f", "p", "in"], ["-I", ".f", "-f", TEXT, "in"], "p\n"), (["-nIfe", "p"], ["-nIfe", "-f", TEXT], "p\n"),
    (["-sze", "p", "in", "in"], ["-sz", "-f", TEXT, "in", "in"], "p\n"), (["-l", "5", "l", "in"], ["-l", "5", "-f", TEXT, "in"], "l\n"), (["-nl", "5", "l"], ["-nl", "5", "-f", TEXT], "l\n"),
    (["-l5", "-ne", "l"], ["-l5", "-n", "-f", TEXT], "l\n"), (["-ul5", "l"], ["-ul5", "-f", TEXT], "l\n"), (["--line-length", "5", "l"], ["--line-length", "5", "-f", TEXT], "l\n"),
    (["--line=5", "l", "in"], ["--line=5", "-f", TEXT, "in"], "l\n"), (["p", "-"], ["-f", TEXT, "-"], "p\n"), (["p", "", "in"], ["-f", TEXT, "", "in"], "p\n"),
    (["", "in"], ["-f", TEXT, "in"], ""), (["-e", "", "in"], ["-f", TEXT, "in"], ""), (["--expr=", "in"], ["-f", TEXT, "in"], ""), (["-nf", "/dev/null", "in"], ["-n", "-f", TEXT, "in"], ""),
    (["#n\np", "in"], ["-f", TEXT, "in"], "#n\np\n"), (["-n", "p", "--version"], ["-n", "--version", "-f", TEXT], "p\n"), (["--version"], ["--version"], None), (["-n", "--help"], ["-n", "--help"], None),
    (["p", "in\n", "a b", "$x", "é"], ["-f", TEXT, "in\n", "a b", "$x", "é"], "p\n"),
]
# Those of these that have an option or `--` behind an operand.
BEHIND = [["-e", "p", "in", "-n"], ["p", "in", "-n", "in"], ["in", "-e", "p", "-s"], ["p", "--", "-in"], ["-n", "p", "-s", "--", "in"], ["-n", "p", "--version"]]
# Scripts of -f, and whether they end in a backslash that no other one escapes.
ENDS = [("a\\\ntext\\", True), ("a\\\ntext\\\n", True), ("a\\\ntext\\\\\\", True), ("a\\", True), ("i\\\nx\\", True), ("c\\\nx\\\n", True), ("#x\\", True),
        ("a\\\ntext\\\\", False), ("a\\\ntext\\\\\n", False), ("a\\\ntext", False), ("a\\\ntext\n", False), ("s/a/\\\\/\n", False), ("s/\\n/\\\n/\n", False)]
failures = []


def expect(is_so, what):
    if not is_so:
        failures.append(what)


def report(status=0, answer="accepted", reads="", writes="", findings=""):
    return REPORT % (status, answer, reads, writes, findings)


def named(name):
    return '{"name":%s,"positions":[]}' % json.dumps(name)


class Place:
    """A folder with the wrapper installed, the folder `here` to work in, and a log."""
    def __init__(self, folder, shell, explain=None):
        self.top, self.here, self.log = Path(folder), Path(folder) / "here", Path(folder) / "log"
        self.shell = shell
        for name in ("bin", "libexec/sedck", "here", "real", "once", "temporary"):
            (self.top / name).mkdir(parents=True)
        self.install(self.top / "libexec/sedck/sed", (TOP / "wrapper/sed").read_text())
        self.install(self.top / "bin/sedck-sed", (TOP / "wrapper/sedck-sed").read_text())
        if explain:
            shutil.copy(explain, self.top / "bin/sedck-explain")
        else:
            self.install(self.top / "bin/sedck-explain", STAND_IN)
        self.first = subprocess.run([str(self.top / "bin/sedck-sed"), "--dir"], stdout=subprocess.PIPE, encoding="utf-8").stdout[:-1]
        self.path = self.first + ":" + os.environ["PATH"]

    def install(self, path, text):
        if text.startswith("#!/bin/sh") and self.shell:
            text = "#!/usr/bin/env -S %s\n" % self.shell + text.partition("\n")[2]
        path.write_text(text)
        path.chmod(0o755)

    def call(self, *words, mode="log", given=b"", program="sed", shown=None, **variables):
        """The status, and the bytes on both streams. Variables whose name is `SHORT` are named SEDCK_SHORT, others as they are."""
        words = [word if isinstance(word, bytes) else word.encode() for word in words]
        environment = {**os.environ, "PATH": self.path, "NOTES": str(self.top), "CHANGES": "", "STATUS": "0", "DENIED": "0", "REPORT": report(), "PLAIN": "",
                       "SPELLED": "0", "PROGRAM": os.path.abspath(sys.argv[1]), "TMPDIR": str(self.top / "temporary"), "LC_ALL": "C", "SEDCK_MODE": mode, "SEDCK_LOG": str(self.log)}
        environment.update({name if name in environment else "SEDCK_" + name: str(value) for name, value in variables.items()})
        # What `env` finds on the path, as a shell does.
        done = subprocess.run([b"/usr/bin/env", program.encode(), *words], cwd=self.here, env=environment, input=given, stdout=shown or subprocess.PIPE,
                              stderr=subprocess.PIPE, timeout=60)
        return done.returncode, done.stdout, done.stderr

    def lines(self):
        """The objects of the log, which is emptied."""
        text = self.log.read_text(encoding="ascii") if self.log.exists() else ""
        self.log.unlink(missing_ok=True)
        return [json.loads(line) for line in text.splitlines()]

    def note(self, name):
        path = self.top / name
        text = path.read_bytes() if path.exists() else b""
        path.unlink(missing_ok=True)
        return text


def real(*words, given=b"", here=None, **variables):
    done = subprocess.run(["/usr/bin/env", "sed", *words], input=given, cwd=here, capture_output=True, env={**os.environ, **variables})
    return done.returncode, done.stdout, done.stderr


def check_answers(place):
    """With the program: what is accepted, refused and shown in each mode, and that sed is as it was."""
    noise = bytes(range(256)) * 400
    for words in (["s/a/b/"], ["-n", "$p"], ["-e", "s/x/y/", "-e", "2d"], ["p", "missing"], ["--version"]):
        due = real(*words, given=noise, here=place.here)
        for mode in ("log", "warn", "refuse"):
            found = place.call(*words, mode=mode, given=noise)
            expect(found[:2] == due[:2], "%s, %s: %s" % (mode, words, found[2]))
            expect(bool(found[2]) == bool(due[2]), "%s, %s: says %s" % (mode, words, found[2]))
    lines = place.lines()
    expect(len(lines) == 15 and all(line["answer"] == "accepted" and line["accepted"] for line in lines), "log: %s" % lines)


def check_refused_calls(place):
    """What isn't accepted is refused or shown, by its name."""
    for words, code in (([":a;ba"], "loop-idle"), (["s/[/x/"], "unclosed-bracket"), (["-E", "s/(a)/b/"], "other-language"), (["-n"], "bad-call")):
        status, out, said = place.call(*words, mode="refuse", given=b"a\n")
        expect(status == 120 and out == b"" and b"[%s]\n" % code.encode() in said, "refuse, %s: %d, %s" % (words, status, said))
        expect([line["accepted"] for line in place.lines()] == [False], "refuse, %s: the log says something else" % words)
    status, out, said = place.call("-E", "s/(a)/<\\1>/", mode="warn", given=b"a\n")
    expect((status, out) == (0, b"<a>\n") and b"[other-language]\n" in said, "warn: %d, %s, %s" % (status, out, said))
    status, out, said = place.call("-E", "s/(a)/<\\1>/", given=b"a\n")
    expect((status, out, said) == (0, b"<a>\n", b""), "log: %d, %s, %s" % (status, out, said))
    answers = [(line["mode"], line["report"]["status"]) for line in place.lines()]
    expect(answers == [("warn", 2), ("log", 2)], "log: %s" % answers)
    (place.here / "x.sed").write_text("s/a/b/\ns/c/\n")
    status, _, said = place.call("-f", "x.sed", mode="refuse")
    expect(status == 120 and said.startswith(b"x.sed:2:1: error: "), "refuse: the file isn't named: %s" % said)
    status, _, said = place.call("-f", "none.sed", mode="refuse")
    expect(status == 120 and b"none.sed" in said, "refuse: the file that can't be read isn't named: %s" % said)
    (place.here / "in").write_text("a\n")
    status, _, said = place.call("w g", "in", "g", mode="refuse", SED="/bin/true")
    expect(status == 120 and b"[same-file]\n" in said, "refuse: a file that the script makes is an operand: %d, %s" % (status, said))


def check_calls_above_ascii(place):
    """Bytes above 127 are accepted in bytes, and in UTF-8 unless they get the warning `locale`."""
    # In bytes each round takes one away, and in UTF-8 none.
    loop = ":a;s/xé*/x/;ta"
    due = real(loop, given="xéé\n".encode(), here=place.here, LC_ALL="C")
    for mode in ("log", "refuse"):
        found = place.call(loop, mode=mode, given="xéé\n".encode())
        expect(found == due, "%s, bytes above 127 in the locale C: %s" % (mode, found))
    place.lines()
    for script in (loop, "# sedck: ignore locale\n" + loop, "y/é/ee/"):
        status, _, said = place.call(script, mode="refuse", LC_ALL="C.UTF-8", SED="/bin/true")
        expect(status == 120 and said.count(b"sed: error: ") == 1 and said.count(b"[locale]\n") == 2, "refuse: %r in UTF-8: %d, %s" % (script, status, said))
    for locale, script, is_due in (("C.UTF-8", "s/é/e/", False), ("C.UTF-8", "s/[é]*/e/", False), ("C", loop, False), ("POSIX", loop, False), ("de_DE@euro", "s/é/e/", True)):
        found = place.call(script, mode="refuse", given="é\n".encode(), LC_ALL=locale)
        due = (120, b"") if is_due else real(script, given="é\n".encode(), here=place.here, LC_ALL=locale)[:2]
        expect(found[:2] == due and (b"[locale]\n" in found[2]) == is_due, "refuse: %r in %s: %s" % (script, locale, found))
    found = [[finding["code"] for finding in line["report"]["findings"]] for line in place.lines()]
    expect([codes.count("locale") for codes in found] == [1, 1, 1, 0, 0, 0, 0, 0], "locale: the log has %s" % found)


def check_lists(place):
    """The plain spelling has each list as it was written: in another locale it has other characters."""
    for script, given in (("s/[^a-zA-Z]//g;# keep only [^[:alpha:]]", "aÜb1\n"), ("s/[abcd]/_/g", "aéáe\n"), ("s/[A-Z]/x/;s/[[:upper:]]/y/", "ÉA\n"), ("s/[89:;]/_/g", "8:9\n"), ("s/[é£]/1/g;s/[©ã]/2/g", "é©ã£\n")):
        for locale in ("C.UTF-8", "C"):
            found = place.call(script, mode="refuse", given=given.encode(), LC_ALL=locale)
            expect(found[:2] == real(script, given=given.encode(), here=place.here, LC_ALL=locale)[:2], "refuse: %r in %s prints %r" % (script, locale, found[:2]))
        (place.here / "list.sed").write_text(script + "\n", encoding="utf-8")
        found = place.call("-f", "list.sed", mode="refuse", given=given.encode(), LC_ALL="C.UTF-8")
        expect(found[:2] == real(script, given=given.encode(), here=place.here, LC_ALL="C.UTF-8")[:2], "refuse: %r of a file prints %r" % (script, found[:2]))
    place.lines()


def check_own_scripts(place):
    """A script that may write its own file is refused, and stays as it is."""
    own = place.here / "own.sed"
    for text, words in (("p\nw own.sed\n", ["in"]), ("p\n", ["-i", "in", "own.sed"])):
        own.write_text(text)
        status, _, said = place.call("-f", "own.sed", *words, mode="refuse")
        expect(status == 120 and said.count(b"[names-itself]\n") == 1 and own.read_text() == text, "refuse: a script that names itself: %d, %s" % (status, said))
        place.call("-f", "own.sed", *words)
        expect(own.read_text() != text, "log: %s: what is refused does no harm" % words)
    # While sed reads its script, /dev/fd/3 is that file: of the first one the block that is read ends in the middle of a label, and what
    # is left then runs for ever.
    (place.here / "evil.sed").write_bytes(b"w /dev/fd/3\n:a\n#".ljust(4092, b"x") + b"\nb abc\n:abc\n")
    place.lines()
    for words in (["-f", "evil.sed"], ["w /dev/fd/3"]):
        for mode in ("log", "refuse"):
            status, out, said = place.call(*words, mode=mode, SED="/bin/true")
            line, = place.lines()
            expect((status, out) == (120 if mode == "refuse" else 0, b"") and not line["accepted"], "%s, %s: %d, %s" % (mode, words, status, said))


def check_several_files(place):
    """With -s, -z and -i sed does as without the program."""
    for words in (["-s", "$d"], ["-z", "N;P;D"], ["-i", "$d"]):
        for name in ("one", "two"):
            (place.here / name).write_text("a\nb\n")
        due = real(*words, "one", "two", here=place.here)
        texts = [(place.here / name).read_text() for name in ("one", "two")]
        for name in ("one", "two"):
            (place.here / name).write_text("a\nb\n")
        found = place.call(*words, "one", "two", mode="refuse")
        expect(found == due and [(place.here / name).read_text() for name in ("one", "two")] == texts, "refuse, %s: %s" % (words, found))


def shown(words):
    """What the sed that keeps its text prints of its words."""
    return b"".join(b"<%s>" % word.encode() for word in words)


def spelled(place, words):
    """What the program makes of the call in the format sed."""
    explain = str(place.top / "bin/sedck-explain")
    return subprocess.run([explain, "--format", "sed", "--sed", "--", *words], cwd=place.here, stdin=subprocess.DEVNULL, capture_output=True)


def check_spelled(place):
    """What sed gets in the mode `refuse`: the words of the call, with the plain spelling of the script in place of the script."""
    place.install(place.top / "real/sed", KEEPING_SED)
    keeping = place.top / "real/sed"
    for name, text in {**FILES, "x.sed": "N;P;D", "in": "a\nb\n"}.items():
        (place.here / name).write_text(text)
    for words, due, text in SPELLED:
        found = place.call(*words, mode="refuse", SED=keeping, GNU=0)
        expect(found == (0, shown(due), b"") and place.note("text") == (b"" if text is None else text.encode()), "spelled, %s: %s" % (words, found))
        found = place.call("POSIXLY_CORRECT=1", "sed", *words, program="env", mode="refuse", SED=keeping, GNU=0)
        is_refused = words in BEHIND and found[:2] == (120, b"") and b"[option-after-operand]\n" in found[2]
        expect(is_refused or words not in BEHIND and found == (0, shown(due), b""), "spelled, POSIXLY_CORRECT, %s: %s" % (words, found))
        place.note("text")
        found = place.call(*words, SED=keeping, GNU=0)
        expect(found == (0, shown(words), b"") and place.note("text") == b"", "spelled, log, %s: %s" % (words, found))
        if text is not None:
            (place.here / "text").write_text(text)
            again = spelled(place, [word.replace(TEXT, "text") for word in due])
            expect((again.returncode, again.stdout) == (0, text.encode()), "spelled, %s: other words: %s" % (words, again))


def check_drawn_words(place):
    """Python's `getopt` reads the words that sed gets, and so does the program."""
    keeping, draw, count = place.top / "real/sed", random.Random(7), 0
    for _ in range(400):
        words = drawn(draw)
        text = spelled(place, words)
        if text.returncode != 0:
            continue
        options, operands = getopt.gnu_getopt(words, SHORT, LONG)
        is_script = [name in ("-e", "-f", "--expression", "--file") for name, _ in options]
        if not any(is_script) and operands:
            due, operands = options + [("-f", TEXT)], operands[1:]
        elif any(is_script):
            last = max(at for at, so in enumerate(is_script) if so)
            due = [option for at, option in enumerate(options) if not is_script[at] or at == last]
            due[sum(not so for so in is_script[:last])] = ("-f", TEXT)
        else:
            due = options
        status, out, said = place.call(*words, mode="refuse", SED=keeping, GNU=0)
        if b"[same-file]" in said or b"[script-from-input]" in said:
            continue
        count += 1
        found = out.decode()[1:-1].split("><")
        expect((status, said) == (0, b"") and getopt.gnu_getopt(found, SHORT, LONG) == (due, operands), "spelled, drawn, %s: %d, %s, %s" % (words, status, found, said))
        expect(place.note("text") == text.stdout, "spelled, drawn, %s: the text is another one" % words)
        (place.here / "text").write_bytes(text.stdout)
        again = spelled(place, [word.replace(TEXT, "text") for word in found])
        expect((again.returncode, again.stdout) == (0, text.stdout), "spelled, drawn, %s: other words: %s" % (words, again))
    expect(count > 40, "spelled: %d calls are drawn" % count)


def check_texts(place):
    """Any text arrives as it is printed, and the words can't hold some of these."""
    keeping = place.top / "real/sed"
    long = "".join("s/%d/%s/\n" % (number, "x" * 90) for number in range(2000))
    for name, text in (("long.sed", long), ("lines.sed", "a\\\n" + "\\\n" * 3 + "\n\n"), ("high.sed", bytes(range(128, 256)).decode("latin-1")), ("marks.sed", "a\\\n\1\2\x7f%s$(x)`x`*\r")):
        if name == "high.sed":
            (place.here / name).write_bytes(b"a\\\n" + text.encode("latin-1") + b"\nN;s/\xff\\n\x81/\x88/")
        else:
            (place.here / name).write_text(text)
        due = spelled(place, ["-f", name]).stdout
        expect(len(due) > 4 and place.call("-f", name, mode="refuse", SED=keeping, GNU=0)[0] == 0 and place.note("text") == due, "spelled: %s doesn't arrive" % name)
        if len(due) < 2000:
            word = (place.here / name).read_bytes()
            expect(place.call("-n", b"-e" + word, mode="refuse", SED=keeping, GNU=0)[0] == 0 and place.note("text") == due, "spelled: the text of %s doesn't arrive" % name)
    expect(not os.listdir(place.top / "temporary"), "spelled: a copy is left")


def check_outputs(place):
    """What the real sed prints and writes is the same."""
    files = {"one": b"a1\nb\n\nab\n", "two": b"x\ny\na", "zero": b"a\nb\0c\na\0"}
    for words in (["s/a/b/;p", "one"], ["-n", "$p", "one", "two"], ["-ns", "$p", "one", "two"], ["-ne", "/b/{=;p}", "one"], ["-e", "a\\", "-e", "  x", "one"], ["a hello", "one"], ["1i\\\n  y\\\nz", "two"],
                  [":x;n;$!bx", "one"], ["$!{N;P;D}", "one"], ["-z", "s/a$/X/;s/^b/Y/", "zero"], ["-e", "s/\\n/,/", "-z", "zero"], ["s/[\\n]/x/;s/\\(a\\)*/<\\1>/2g", "--posix", "one"],
                  ["-e", "s/[\\n]/x/", "--posix", "one"], ["-i", "y/ab/ba/", "one", "two"], ["-i.old", "-e", "$d", "one"], ["-n", "-i", "/a/w out", "one"], ["w /dev/stdout", "two"],
                  ["-f", "x.sed", "-e", "s/x/y/;t;d", "two"], ["-l", "5", "-n", "l", "one"], ["-l5", "l;r two", "one"], ["#n\np", "one"], ["--expression=1~2p", "one"], ["1,/b/c\\\nc", "one"],
                  ["a\\\nx\\", "two"], ["q;s/a/b/w out", "one"], ["p", "one", "none", "two"], ["--", "s,a,/,", "one"], ["-s", "--posix", "-e", "$!N;s/^\\(.*\\)\\n/\\1 /", "two", "one"]):
        def run(call):
            for name, text in files.items():
                (place.here / name).write_bytes(text)
            for name in ("out", "one.old"):
                (place.here / name).unlink(missing_ok=True)
            return call(), {path.name: path.read_bytes() for path in place.here.iterdir() if path.is_file() and path.name != "text"}

        due = run(lambda: real(*words, here=place.here, LC_ALL="C"))
        found = run(lambda: place.call(*words, mode="refuse"))
        is_due = found[0][0] == 120 if "1~2p" in words[0] else found == due
        expect(is_due, "spelled: the real sed with %s: %s, and with the text %s" % (words, due[0], found[0]))


def check_numbers(place):
    """The numbers that sed gives to the text and to its other files lead nowhere before it runs, so a script or an operand that has one is refused."""
    place.install(place.top / "real/sed", SPEAKING_SED % "")
    (place.here / "in").write_text("a\n")
    (place.here / "w3.sed").write_text("w /dev/fd/3\n")
    for name, target in (("to-3", "/dev/fd/3"), ("to-9", "/proc/self/fd/9"), ("numbers", "/proc/self/fd"), ("thread", "/proc/thread-self/fd"), ("new-name", "nothing")):
        (place.here / name).symlink_to(target)
    keeping = {"mode": "refuse", "SED": place.top / "real/sed", "GNU": 0}
    numbered = ["/dev/fd/%d" % number for number in range(3, 10)] + ["/proc/self/fd/3", "/dev/../dev/fd/9", "to-3", "to-9", "numbers/3", "numbers/8", "thread/4"]
    for name in numbered:
        for words in (["p", "in"], ["-f", "w3.sed", "in"]):
            for lists in ({"writes": named(name)}, {"reads": named(name)}):
                status, out, said = place.call(*words, PLAIN="p", REPORT=report(**lists), **keeping)
                expect((status, out) == (120, b"") and b"[names-itself]\n" in said, "numbers, %s, %s: %d, %s" % (words, lists, status, said))
        status, out, said = place.call("p", "in", name, **keeping)
        expect((status, out) == (120, b"") and b"[same-file]\n" in said, "numbers, the operand %s: %d, %s" % (name, status, said))
    for name in ("new-name", "new", "fd/x"):
        found = place.call("p", "in", PLAIN="p", REPORT=report(writes=named(name)), **keeping)
        expect(found == (0, b"<-f><%s><in>" % TEXT.encode(), b""), "numbers, %s: %s" % (name, found))
    place.lines()
    for name, lists, is_due in (("/dev/fd/3", "writes", True), ("/dev/fd/3", "reads", False), ("x/fd/new", "writes", False)):
        place.call("p", "in", REPORT=report(**{lists: named(name)}), SED="/bin/true")
        line, = place.lines()
        expect(line["accepted"] != is_due and len(line["problems"]) == is_due, "numbers, log, %s, %s: %s" % (lists, name, line["problems"]))
    check_numbers_of_streams(place, keeping)
    check_missing_texts(place, keeping)


def check_numbers_of_streams(place, keeping):
    """The numbers of streams that are closed are free, too; and what is open before stays."""
    for before, name, is_due in (("<&-", "/dev/fd/0", True), ("2>&-", "/dev/fd/2", True), ("<&-", "other", False), ("3< in", "/dev/fd/4", True), ("3> out", "/dev/fd/3", False), ("9< in", "/dev/fd/8", True)):
        # Bash gives such a number to the file that it reads.
        if place.shell == "bash" and name == "/dev/fd/2":
            continue
        done = place.call("-c", "sed p in %s" % before, program="sh", PLAIN="p", REPORT=report(writes=named(name)), **keeping)
        due = (120, b"") if is_due else (0, b"<-f><%s><in>" % TEXT.encode())
        expect(done[:2] == due, "numbers, %s, %s: %s" % (before, name, done))
    for count, is_due in ((5, False), (6, True), (7, True)):
        taken = " ".join("%d< in" % number for number in range(3, 3 + count))
        place.lines()
        found = place.call("-c", "sed -n p in " + taken, program="sh", PLAIN="p", **keeping)
        expect(found[:2] == ((120, b"") if is_due else (0, b"<-n><-f></dev/fd/9><in>")) and (b"[not-copied]\n" in found[2]) == is_due, "numbers, %s: %s" % (taken, found))


def check_missing_texts(place, keeping):
    """Where the text can't be had, nothing runs."""
    for given, code in (({"SPELLED": 4}, b"not-printed"), ({"SPELLED": 1}, b"not-printed"), ({"SPELLED": 3}, b"not-printed"), ({"TMPDIR": "/nowhere"}, b"not-copied")):
        place.lines()
        status, out, said = place.call("p", "in", **{"PLAIN": "p", **keeping, **given})
        line, = place.lines()
        expect((status, out) == (120, b"") and b"[%s]\n" % code in said and not line["accepted"] and len(line["problems"]) == 1, "numbers, %s: %d, %s" % (given, status, said))
        for mode in ("log", "warn"):
            found = place.call("p", "in", **{"PLAIN": "p", **keeping, **given, "mode": mode})
            expect(found == (0, b"<p><in>", b""), "numbers, %s, %s: %s" % (mode, given, found))
    expect(not os.listdir(place.top / "temporary"), "numbers: a copy is left")


def check_words(place):
    """Words of any bytes are handed on, and are in the log, where a byte is the character with its number."""
    place.lines()
    hostile = ["", "a b", "$(touch touched)", "`touch touched`", "x\ny\n", "\n", "\t'\"\\\\", "--", "-n", "*", bytes(range(1, 256)), "é", "\\" * 50, "a\"b\\c\nd" * 900]
    place.install(place.top / "real/sed", SPEAKING_SED % "")
    status, out, said = place.call("-e", "p", *hostile, SED=place.top / "real/sed")
    encoded = [word if isinstance(word, bytes) else word.encode() for word in ("-e", "p", *hostile)]
    expect((status, said) == (0, b"") and out == b"".join(b"<%s>" % word for word in encoded), "words: %d, %s, %s" % (status, out, said))
    line, = place.lines()
    expect([word.encode("latin-1") for word in line["words"]] == encoded, "words: the log has %s" % line["words"])
    expect(line["folder"] == str(place.here), "words: the folder is %s" % line["folder"])
    expect(not list(place.here.glob("touched")), "words: a word is run")


def check_files(place):
    """What runs are the bytes that were checked, whatever the name and the option; and there is no copy left."""
    names = ["x.sed", "a b.sed", "$HOME.sed", "$(touch touched)", "x\ny", "-e", "'\"\\", "--file", "é"]
    for name in names:
        forms = [["-f", name], ["-nf" + name], ["--file=" + name], ["--fi", name], ["-n", "-f", name, "-e", "p"], ["-l", "5", "-f", name]]
        for words in forms if name == "x.sed" else forms[:3]:
            script = place.here / name
            script.write_text("s/^/checked/p\n")
            due = real(*words, given=b"a\n", here=place.here)
            found = place.call(*words, mode="refuse", given=b"a\n", CHANGES=name, GNU=0)
            expect(found == due and b"checkeda" in found[1], "files, %r: %s" % (words, found))
            expect(script.read_text() == "s/^/changed/\n", "files, %r: the file didn't change" % words)
            expect(place.note("checked") == 2 * b"s/^/checked/p\n", "files, %r: something else was checked" % words)
            copies = place.lines()[0]["copies"]
            expect([text.encode("latin-1").decode() for text in copies.values()] == [name], "files, %r: the log has the copies %s" % (words, copies))
            script.unlink()
    for number in range(9):
        (place.here / ("%d.sed" % number)).write_text("s/^/%d/\n" % number)
    words = [word for number in range(7) for word in ("-f", "%d.sed" % number)]
    found = place.call(*words, mode="refuse", given=b"\n", CHANGES="3.sed")
    expect(found[:2] == (0, b"6543210\n"), "files: of seven %s" % (found,))
    found = place.call(*words, "-f", "7.sed", "-f", "8.sed", mode="refuse", given=b"\n")
    expect(found[:2] == (120, b"") and b"[not-copied]" in found[2], "files: of nine %s" % (found,))
    expect(place.call("-f", "7.sed", "-f", "none.sed", given=b"\n")[0] == real("-f", "none.sed")[0], "files: a missing one")
    check_operands(place)


def check_operands(place):
    """Where POSIXLY_CORRECT may make an operand of an option nothing runs, and what isn't copied doesn't run."""
    for words, due in ((["-e", "p", "in", "-e", "d"], 120), (["p", "in", "--", "d"], 120), (["-e", "p", "--", "in", "-e"], 0), (["-e", "p", "in", "-"], 0)):
        found = place.call("POSIXLY_CORRECT=1", "sed", *words, mode="refuse", program="env", SED="/bin/true")
        expect(found[0] == due and (b"[option-after-operand]" in found[2]) == bool(due), "files, %s: %s" % (words, found))
    expect(place.call("-f", "0.sed", "posix-in", mode="refuse", SED="/bin/true")[0] == 0, "files: the name of an operand is taken for an option")
    for words in (["-f", "later.sed"], ["-nflater.sed"], ["--file=later.sed"], ["-f", "0.sed", "-f", "later.sed"], ["-e", "p", "--fi", "later.sed"]):
        found = place.call(*words, mode="refuse", given=b"a\n", CHANGES="later.sed", GNU=0)
        expect(found[:2] == (120, b"") and b"[not-copied]\n" in found[2], "files, %s: what isn't copied runs: %s" % (words, found))
        (place.here / "later.sed").unlink()
    for words in (["-f", "/dev/null"], ["-f", "0.sed", "-f", "/dev/null"]):
        found = place.call(*words, mode="refuse", given=b"a\n", GNU=0)
        expect(found == real(*words, given=b"a\n", here=place.here), "files, %s: %s" % (words, found))
    expect(not list(place.here.glob("touched")) and not os.listdir(place.top / "temporary"), "files: something is left")
    (place.here / "p").write_text("d\n")
    (place.here / "edited").write_text("a\n")
    found = place.call("-i.f", "p", "edited", mode="refuse", GNU=0)
    expect(found == (0, b"", b"") and (place.here / "edited").read_text() == "a\na\n", "files: the end of -i is taken for an option: %s" % (found,))
    expect(place.call("--", "p", "-f", "edited", mode="refuse")[0] == 2 and place.lines()[-1]["copies"] == {}, "files: an operand is taken for an option")


def check_ends(place):
    """Where a script of -f ends in a backslash, seds run it in their own ways: it is refused. Any other one runs as without the wrapper."""
    (place.here / "one").write_text("one\n")
    (place.here / "next.sed").write_text("p\n")
    seds = ["/usr/bin/env sed"] + present("wrapper", "what a backslash at the end of a script is to other seds", ("busybox sed", "toybox sed"))
    for end, is_due in ENDS:
        (place.here / "end.sed").write_text(end)
        for more in ([], ["-f", "next.sed"], ["-e", "p"], ["-f", "end.sed"]):
            words = ["-f", "end.sed", *more, "one"]
            for number, sed in enumerate(seds):
                path = place.top / ("sed-%d" % number)
                path.write_text('#!/bin/sh\nexec %s "$@"\n' % sed.replace("/usr/bin/env sed", shutil.which("sed")))
                path.chmod(0o755)
                due = subprocess.run([str(path), *words], cwd=place.here, capture_output=True)
                found = place.call(*words, mode="refuse", SED=path, GNU=0)
                if is_due:
                    expect(found[:2] == (120, b"") and b"[ends-in-backslash]\n" in found[2], "ends, %r, %s: %s" % (end, more, found))
                else:
                    expect(found == (due.returncode, due.stdout, due.stderr), "ends, %r, %s, %s: %s, not %s" % (end, more, sed, found, due))
        found = place.call("-f", "end.sed", "one", mode="warn")
        expect((b"[ends-in-backslash]\n" in found[2]) == is_due, "ends, warn, %r: %s" % (end, found))
    # A pipe is looked at as it was copied.
    status = subprocess.run(["/bin/sh", "-c", "printf 'a\\\\\\\nx\\\\' | sed -f /dev/fd/3 one 3<&0 < /dev/null"], cwd=place.here, capture_output=True,
                            env={**os.environ, "PATH": place.path, "SEDCK_MODE": "refuse", "LC_ALL": "C"})
    expect(status.returncode == 120 and b"[ends-in-backslash]\n" in status.stderr, "ends, a pipe: %s" % status)


def check_streams(place):
    """A script that can be read only once, and one that only sed can read."""
    place.lines()
    place.note("checked")
    pipe = place.here / "pipe"
    for mode in ("log", "warn", "refuse"):
        os.mkfifo(pipe)
        writer = threading.Thread(target=lambda: pipe.write_text("s/a/b/\n"))
        writer.start()
        found = place.call("-f", "pipe", mode=mode, given=b"a\n")
        writer.join()
        pipe.unlink()
        checked = b"s/a/b/\n" * (2 if mode == "refuse" else 1)
        expect(found == (0, b"b\n", b"") and place.note("checked") == checked, "streams, %s: %s" % (mode, found))
    place.note("asked")
    for name in ("-", "/dev/stdin"):
        found = place.call("-f", name, "0.sed", given=b"s/^/x/\n")
        expect(found == real("-f", name, "0.sed", given=b"s/^/x/\n", here=place.here), "streams, %s: %s" % (name, found))
        found = place.call("-f", name, "0.sed", mode="refuse", given=b"s/^/x/\n")
        expect(found[:2] == (120, b"") and b"[script-from-input]" in found[2], "streams, %s: %s" % (name, found))
    expect([line["answer"] for line in place.lines()[3:]] == ["unchecked"] * 4 and place.note("asked") == b"", "streams: something is checked")


def check_failing(place):
    """A wrapper that can't do its work refuses in one mode, and loses nothing in the others."""
    program = place.top / "bin/sedck-explain"
    for what in ("status 3", "status 4", "no report", "two lines", "missing"):
        given = {"STATUS": what[-1] if what.startswith("status") else 0, "REPORT": {"two lines": report() + "\n" + report()}.get(what, "")}
        if what == "missing":
            program.unlink()
            given["EXPLAIN"] = program
        expect(place.call("p", given=b"a\n", **given) == (0, b"a\na\n", b""), "failing, %s: the sed is lost" % what)
        line, = place.lines()
        expect(line["report"] is None and line["problems"] and not line["accepted"], "failing, %s: %s" % (what, line))
        found = place.call("p", mode="warn", given=b"a\n", **given)
        is_said = found[2].endswith(b"[no-report]\n") and (what != "missing" or found[2].count(b"\n") == 1)
        expect(found[:2] == (0, b"a\na\n") and is_said, "failing, %s: %s" % (what, found))
        found = place.call("p", mode="refuse", given=b"a\n", **given)
        expect(found[:2] == (120, b"") and b"[no-report]" in found[2], "failing, %s: %s" % (what, found))
        place.lines()
    expect(place.call("p", given=b"a\n", LOG=place.top / "none" / "log", EXPLAIN="/bin/true") == (0, b"a\na\n", b""), "failing: no log")
    place.install(program, STAND_IN)
    place.note("asked")
    expect(place.call("p", given=b"a\n", LOG="") == (0, b"a\na\n", b"") and place.note("asked") == b"", "failing: the program is asked for no log")
    expect(place.call("p", mode="refse")[0] == 120, "failing: an unknown mode")


def check_recursion(place):
    """The wrapper never finds itself, and another one only once."""
    for name in ("link", "other", "back", "loop"):
        (place.top / name).mkdir()
    (place.top / "link/sed").symlink_to(place.first + "/sed")
    shutil.copy(place.first + "/sed", place.top / "other/sed")
    place.install(place.top / "back/sed", "#!/bin/sh\nsed \"$@\"\n")
    place.install(place.top / "loop/sed", "#!/bin/sh\nexec '%s/sed' \"$@\"\n" % place.first)
    own, system = place.first, os.environ["PATH"]
    link, other, back, loop = (str(place.top / name) for name in ("link", "other", "back", "loop"))
    settings = {"EXPLAIN": place.top / "bin/sedck-explain"}
    for path in ([own, own, system], [own + "/", own, system], [link, own, system], [own, link, system], [own, other, own, link, other, system]):
        expect(place.call("p", given=b"a\n", PATH=":".join(path), **settings) == (0, b"a\na\n", b""), "recursion: %s" % path)
    for name in (own + "/sed", link + "/sed", back + "/sed"):
        expect(place.call("p", given=b"a\n", SED=name, **settings) == (0, b"a\na\n", b""), "recursion: %s" % name)
    expect(place.call("p", given=b"a\n", program=own + "/sed", PATH=system, **settings) == (0, b"a\na\n", b""), "recursion: by its whole name")
    os.symlink(shutil.which(place.shell.split()[0] if place.shell else "sh"), place.top / "loop" / (place.shell.split()[0] if place.shell else "sh"))
    expect(place.call("p", program=own + "/sed", PATH=loop, **settings)[0] == 127, "recursion: a sed that leads back")
    for path in (own, own + ":" + other):
        status, out, said = place.call("p", given=b"a\n", program=own + "/sed", PATH=path + ":" + str(shell_alone(place)), **settings)
        expect((status, out) == (127, b"") and b"no other sed" in said, "recursion: no sed: %d, %s" % (status, said))


def shell_alone(place):
    """A folder with the shell, and nothing else."""
    folder = place.top / "alone"
    folder.mkdir(exist_ok=True)
    for name in {"env", "sh", (place.shell or "sh").split()[0]}:
        if not (folder / name).exists():
            os.symlink(shutil.which(name), folder / name)
    return folder


def check_log(place):
    """Lines of calls at the same time don't mix, and a script is known again by its bytes."""
    place.lines()

    def at_once(count, **given):
        calls = [threading.Thread(target=place.call, args=("-n", ("s/x/%s%d/" % ("y\t" * 6000, k if "ONCE" not in given else 0)), "f%d" % k), kwargs=given) for k in range(count)]
        for call in calls:
            call.start()
        for call in calls:
            call.join()

    at_once(24)
    lines = place.lines()
    expect(sorted(line["words"][2] for line in lines) == sorted("f%d" % k for k in range(24)), "log: %d lines" % len(lines))
    at_once(16, ONCE=place.top / "once")
    expect(len(place.lines()) == 1, "once: a script comes more than once")
    for name in ("one.sed", "two.sed", "three.sed"):
        (place.here / name).write_text("s/a/%d/\n" % (name == "three.sed"))
    calls = (["s/a/b/"], ["s/a/b/", "0.sed"], ["s/a/b/", "1.sed"], ["s/a/b/;p"], ["-n", "s/a/b/"], ["-f", "one.sed"], ["-f", "two.sed", "0.sed"], ["-f", "three.sed"])
    for words in calls:
        expect(place.call(*words, given=b"a\n", ONCE=place.top / "once") == real(*words, given=b"a\n", here=place.here), "once: %s" % words)
    found = [line["words"] for line in place.lines()]
    expect(found == [calls[0], calls[3], calls[4], calls[5], calls[7]], "once: the log has %s" % found)


def check_places(place):
    """Files that the script names and that are also files of the call."""
    place.lines()
    for name in ("in", "out", "free"):
        (place.here / name).write_text("a\n")
    for name, target in (("to-out", "out"), ("to-in", "in"), ("to-null", "/dev/null"), ("to-zero", "/dev/zero")):
        (place.here / name).symlink_to(target)
    rows = [("out", "r", "same-file"), ("to-out", "w", "same-file"), ("in", "w", "same-file"), ("to-in", "r", "same-file"), ("free", "w", ""), ("new", "w", ""),
            ("to-zero", "r", "device"), ("/dev/zero", "r", "device"), ("/dev/null", "w", ""), ("/dev/stdout", "w", ""), ("a\"b", "w", "not-compared"), (str(place.here / "in"), "w", "same-file")]
    for name, verb, code in rows:
        lists = {"reads" if verb == "r" else "writes": named("other") + "," + named(name)}
        with open(place.here / "out", "ab") as out:
            status, _, said = place.call("p", "in", mode="refuse", shown=out, REPORT=report(**lists), SED="/bin/true")
        expect(status == (120 if code else 0) and b"[%s]" % code.encode() in said + b"[]", "places, %s %s: %d, %s" % (verb, name, status, said))
        found = place.lines()[0]
        expect(bool(found["problems"]) == bool(code), "places, %s %s: %s" % (verb, name, found["problems"]))
    expect(place.call("-c", "sed p < out >> out", mode="refuse", program="sh")[0] == 120, "places: standard input and output")
    for words, code in ((["p", "in"], 0), (["p", "out"], 120), (["p", "to-out"], 120)):
        with open(place.here / "out", "ab") as out:
            expect(place.call(*words, mode="refuse", shown=out, SED="/bin/true")[0] == code, "places: %s" % words)


def check_absent(place):
    """A file that the script makes, and an operand that isn't there yet."""
    for name in ("big", "there", "0.sed"):
        (place.here / name).write_text("p\n")
    (place.here / "folder").mkdir()
    (place.here / "same").symlink_to(".")
    (place.here / "to-none").symlink_to("none")
    whole = str(place.here / "g")
    rows = [(["p", "big", "g"], "g", True), (["p", "big", "g"], "./g", True), (["p", "big", ".//./g"], "g", True), (["p", "big", "g"], ".//g", True),
            (["p", "big", whole], "g", True), (["p", "big", "g"], whole, True), (["p", "big", "folder/../g"], "g", True), (["p", "big", "same/g"], "g", True),
            (["-n", "-e", "p", "g", "big"], "g", True), (["g", "big", "-e", "p"], "g", True), (["p", "big", "--", "g"], "g", True),
            (["-l", "5", "--exp", "p", "g"], "g", True), (["-f", "0.sed", "big", "g"], "g", True), (["-i", "p", "big", "g"], "g", True),
            (["p", "big", "none"], "to-none", True), (["p", "big", "to-none"], "none", True), (["p", "big", "/dev/fd/7"], "there", True),
            (["p", "big", "h"], "g", False), (["p", "big", "gg"], "g", False), (["p", "big"], "g", False), (["p", "big"], "to-none", False),
            (["s,a,b,w folder/g", "big"], "folder/g", False), (["g", "big"], "g", False), (["-e", "g", "big"], "g", False)]
    for words, name, is_due in rows:
        for given, code in (({"writes": named("there") + "," + named(name)}, is_due), ({"reads": named(name)}, "/dev/fd/7" in words)):
            status, _, said = place.call(*words, mode="refuse", REPORT=report(**given), SED="/bin/true")
            expect((status, b"[same-file]\n" in said) == (120 if code else 0, code), "absent, %s, %s: %d, %s" % (words, given, status, said))
    found = place.call("POSIXLY_CORRECT=1", "sed", "p", "big", "g", program="env", mode="refuse", REPORT=report(writes=named("g")), SED="/bin/true")
    expect(found[0] == 120 and b"[same-file]\n" in found[2], "absent, POSIXLY_CORRECT: %s" % (found,))
    found = place.call("-f", "g", "big", mode="warn", REPORT=report(writes=named("g")), SED="/bin/true")
    expect(found == (0, b"", b""), "absent: a file of -f is taken for an operand: %s" % (found,))


def check_pipes(place):
    """A pipe that is read and written, and standard error."""
    place.lines()
    for name in ("z", "other"):
        os.mkfifo(place.here / name)
    for script, writes, is_due in (("exec 3<> z; sed -u p z >&3", "", True), ("exec 3<> z; sed p big ./z >&3", "", True), ("exec 3<> z; sed p <&3 >&3", "", True),
                                   ("exec 3<> z 4<> other; sed p <&3 >&4", "", False), ("exec 3<> z; sed p other >&3", "", False),
                                   ("echo a | sed p | cat", "", False), ("echo a | sed p /dev/stdin | cat", "", False), ("sed p /dev/stdout | cat", "", True),
                                   ("sed p big 2>> big", "", False), ("sed p big 2>> big", "/dev/stderr", True), ("sed p < big 2>> big", "/dev/stderr", True),
                                   ("exec 3<> z; sed p z 2>&3", "/dev/stderr", True), ("sed p big 2>> there", "/dev/stderr", False)):
        place.call("-c", script, program="sh", mode="refuse", REPORT=report(writes=writes and named(writes)), SED="/bin/true")
        line, = place.lines()
        expect(line["accepted"] != is_due and len(line["problems"]) == is_due, "pipes, %s: %s" % (script, line["problems"]))


def check_locale(place):
    """A script with bytes of which sed may take several for a character; and sed runs in the locale of its caller."""
    (place.here / "é").write_text("p\n")
    (place.here / "high.sed").write_text("s/é*/x/\n", encoding="utf-8")
    (place.here / "low.sed").write_bytes(b"s/\x01\x7f\t/x/\n")
    (place.here / "comment.sed").write_bytes(b"p\n" * 9000 + b"# \xff")

    def call(*words, mode="refuse", sed="/bin/true", locale={}, **given):
        settings = ["%s=%s" % pair for pair in locale.items()]
        return place.call("-u", "LC_ALL", "-u", "LC_CTYPE", "-u", "LANG", *settings, "sed", *words, program="env", mode=mode, SED=sed, PLAIN="p", **given)

    other = {"LC_ALL": "ja_JP.SJIS"}
    bytewise = ({}, {"LANG": "C"}, {"LC_CTYPE": "POSIX", "LANG": "C.UTF-8"}, {"LC_ALL": "C", "LC_CTYPE": "C.UTF-8", "LANG": "C.UTF-8"}, {"LC_ALL": "", "LC_CTYPE": "C", "LANG": "C.UTF-8"},
                {"LC_ALL": "POSIX"}, {"LC_ALL": ""}, {"LC_MESSAGES": "C.UTF-8"})
    utf_8 = ({"LANG": "C.UTF-8"}, {"LC_CTYPE": "C.UTF-8", "LANG": "C"}, {"LC_ALL": "C.UTF-8", "LC_CTYPE": "C", "LANG": "C"}, {"LC_ALL": "", "LC_CTYPE": "", "LANG": "C.UTF-8"}, {"LANG": "en_US.utf8"},
             {"LANG": "de_DE.UTF8@euro"}, {"LANG": "de_DE.Utf-8@x.EUC"})
    others = (other, {"LANG": "zh_CN.GB18030"}, {"LANG": "de_DE@euro"}, {"LANG": "ja_JP.EUC@x.utf8"}, {"LANG": "/tmp/x.UTF-8"}, {"LANG": "UTF-8"}, {"LANG": "xUTF-8"}, {"LANG": "C.UTF-8.x"}, {"LANG": "C.UTF-16"})
    # In UTF-8 it counts with which status a call ends where `locale` is denied, and not what its report has.
    for locale, denied, is_due in ([(locale, denied, False) for locale in bytewise for denied in ("0", "1")] + [(locale, "0", False) for locale in utf_8]
                                   + [(locale, denied, True) for locale in utf_8 for denied in ("1", "4", "5")] + [(locale, denied, True) for locale in others for denied in ("0", "1")]):
        for words in (["s/é*/x/"], ["-f", "high.sed"], ["s/a*/x/"], ["-f", "low.sed"]):
            status, _, said = call(*words, locale=locale, DENIED=denied, REPORT=report(findings='{"code":"locale"}' if denied == "0" else ""))
            is_high = is_due and words[-1] in ("s/é*/x/", "high.sed")
            expect((status, b"[locale]\n" in said) == (120 if is_high else 0, is_high), "locale, %s, %s, %s: %d, %s" % (locale, denied, words, status, said))
    rows = [(words, True) for words in (["-e", "s/é//"], ["-es/é//"], ["-ne", "s/é//"], ["--expression=s/é//"], ["--exp", "s/é//"], ["-e", "p", "-e", "é"], ["-f", "high.sed"], ["-nfhigh.sed"],
                                        ["--file=high.sed"], ["--fi", "high.sed"], ["-f", "low.sed", "-f", "high.sed"], ["big", "-e", "é"], ["--", "é"], ["-f", "comment.sed"], ["-e", "p", "-f", "high.sed"])]
    rows += [(words, False) for words in (["p", "é"], ["-e", "p", "é"], ["é", "-e", "p"], ["-f", "low.sed"], ["-f", "é"], ["-nfé"], ["--file=é"], ["-f", "low.sed", "é"], [bytes(range(1, 128))],
                                          ["-e", bytes(range(1, 128)), "é"], ["-l", "5", "p", "é"], ["-f", "/dev/null", "é"])]
    place.lines()
    for words, is_due in rows:
        for mode in ("log", "warn", "refuse"):
            status, _, said = call(*words, mode=mode, locale=other)
            found = (status, b"[locale]\n" in said)
            expect(found == (120 if is_due and mode == "refuse" else 0, is_due and mode != "log"), "locale, %s, %s: %d, %s" % (mode, words, status, said))
            line, = place.lines()
            expect(line["accepted"] != is_due and ["the locale" in problem for problem in line["problems"]] == [True] * is_due, "locale, %s, %s: the log has %s" % (mode, words, line["problems"]))
    check_locale_of_caller(place, call, other)


def check_locale_of_caller(place, call, other):
    """Each byte above 127 is seen, a script is noted once, and sed runs in the locale of its caller."""
    for byte in range(128, 256):
        expect(call(b"s/%c//" % byte, locale=other)[0] == 120, "locale: the byte %d isn't seen" % byte)
    place.lines()
    for locale in ({}, other) * 2:
        call("s/é/e/", mode="log", locale=locale, ONCE=place.top / "once")
        call("-f", "high.sed", mode="log", locale=locale, ONCE=place.top / "once")
    found = [line["accepted"] for line in place.lines()]
    expect(found == [True, True, False, False], "locale, once: the log has %s" % found)
    for value in (None, "", "C", "C.UTF-8", "none.UTF-8"):
        locale = {} if value is None else {"LC_ALL": value}
        for given in ({"mode": "log", "LOG": ""}, {"mode": "log"}, {"mode": "refuse"}):
            for sed in ("", place.top / "real/sed"):
                place.install(place.top / "real/sed", "#!/bin/sh\nenv | grep ^LC_ALL= || echo none\n")
                found = call("p", locale=locale, sed=sed, PATH=place.first + ":" + str(place.top / "real") + ":" + os.environ["PATH"], GNU=0, **given)[1]
                expect(found == (b"none\n" if value is None else b"LC_ALL=%s\n" % value.encode()), "locale, %s, %s: sed runs in %s" % (value, given, found))


def check_itself(place):
    """A file of -f that the script writes, or that is overwritten."""
    place.lines()
    for name in ("x.sed", "it's a b.sed", "x\ny.sed", "''", "in"):
        (place.here / name).write_text("p\n")
        (place.here / ("hard" + name)).hardlink_to(place.here / name)
    (place.here / "link").symlink_to("x.sed")
    rows = [(["-f", "x.sed", "in"], "x.sed", True), (["-f", "x.sed", "in"], "./x.sed", True), (["-nfx.sed", "in"], "link", True), (["--file=x.sed", "in"], "hardx.sed", True),
            (["-e", "p", "--fi", "x.sed", "in"], str(place.here / "x.sed"), True), (["-f", "in", "-f", "x.sed"], "x.sed", True), (["-f", "link"], "x.sed", True),
            (["-f", "it's a b.sed"], "hardit's a b.sed", True), (["-f", "x\ny.sed"], "hardx\ny.sed", None), (["-f", "''"], "hard''", True),
            (["-f", "x.sed", "in"], "there", False), (["-f", "x.sed"], "hardin", False), (["p", "x.sed"], "new", False),
            (["-i", "-f", "x.sed", "x.sed"], "", True), (["-f", "x.sed", "in", "./x.sed", "-i"], "", True), (["-nif", "-f", "x.sed", "link"], "", True),
            (["--in-place=.b", "-fx.sed", "--", "hardx.sed"], "", True), (["--i", "-f", "it's a b.sed", "it's a b.sed"], "", True), (["-I", ".b", "-f", "x.sed", "x.sed"], "", True),
            (["-f", "x.sed", "x.sed"], "", False), (["-i", "-f", "x.sed", "in"], "", False), (["-i", "-e", "p", "x.sed"], "", False), (["-i", "-f", "x.sed", "-e", "p", "in"], "", False),
            (["-s", "-l", "5", "-f", "x.sed", "x.sed"], "", False), (["-f", "x.sed", "--", "-i", "x.sed"], "", False)]
    for words, name, is_due in rows:
        for mode in ("log", "warn", "refuse"):
            status, _, said = place.call(*words, mode=mode, REPORT=report(writes=name and named(name)), SED="/bin/true")
            line, = place.lines()
            if is_due is None:
                expect(not line["accepted"], "itself, %s: a name with a newline is compared" % words)
                continue
            found = (status, b"[names-itself]\n" in said, any("is also a file of -f" in problem for problem in line["problems"]))
            expect(found == (120 if is_due and mode == "refuse" else 0, is_due and mode != "log", is_due) and line["accepted"] != is_due, "itself, %s, %s, %s: %s" % (mode, words, name, found))


def check_sandbox(place):
    """--sandbox comes where GNU sed runs an accepted call without names, and only in the mode `refuse`."""
    name = named("x")
    rows = [("sed (GNU sed) 4.9", {}, True), ("This is not GNU sed version 4.0", {}, False), ("", {"GNU": 1}, True), ("sed (GNU sed) 4.9", {"GNU": 0}, False),
            ("", {"GNU": 1, "REPORT": report(reads=name)}, False), ("", {"GNU": 1, "REPORT": report(writes=name)}, False), ("", {"GNU": 1, "mode": "warn"}, False),
            ("", {"GNU": 1, "mode": "log"}, False)]
    for says, given, is_added in rows:
        place.install(place.top / "real/sed", SPEAKING_SED % says)
        found = place.call("-n", "p", **{"mode": "refuse", "SED": place.top / "real/sed", **given})
        due = b"<-n><-f></dev/fd/9>" if "mode" not in given else b"<-n><p>"
        expect(found == (0, b"<--sandbox>" * is_added + due, b""), "sandbox, %s, %s: %s" % (says, given, found))

    (place.here / "gnu").mkdir()
    if real("--sandbox", "p", here=place.here)[0] == 0:
        found = place.call("w gnu/x", mode="refuse", given=b"a\n")
        expect(found[0] == 1 and not list(place.here.glob("gnu/*")), "sandbox: the real sed writes a file: %s" % (found,))


# Calls with their delimiter in a list, an input, and the script that sed gets in the mode `refuse`.
MENDED = [
    (["s/[^/]*$//"], "/usr/bin/sed\nsed\n", "s,[^/]*$,,\n"), (["-n", "/[/]/p"], "a/b\nb\n", "\\,[/],p\n"), (["-e", "p", "-e", "s/[/]x/\\/&/g"], "a/x/x\n", "p\ns,[/]x,/&,g\n"),
    (["-nf", "mend.sed"], "Xa/b//\n", None), (["--posix", "s/[/]/x/2"], "a/b/c\n", "s,[/],x,2\n"), (["-s", "--", "s/[/]/x/;$!d"], "/\n/\n", "s,[/],x,\n$!d\n"),
]


def check_mends(place):
    """With SEDCK_MEND=1 such a call is accepted under a condition, and without it refused. In each mode it makes what sed makes of it."""
    keeping = place.top / "real/keeping"
    place.install(keeping, KEEPING_SED)
    (place.here / "mend.sed").write_text("/^X\\(.*[^/]\\)\\/\\/*$/{\n  s//\\1/p\n  q\n}\n")
    place.lines()
    for words, text, script in MENDED:
        due = real(*words, given=text.encode(), here=place.here)
        for mode in ("log", "warn", "refuse"):
            found = place.call(*words, mode=mode, given=text.encode(), MEND=1)
            expect(found[:2] == due[:2] and (b"[open-hole]\n" in found[2]) == (mode == "warn"), "mends, %s, %s: %s" % (mode, words, found))
            line = place.lines()[0]
            expect((line["answer"], line["accepted"], line["report"]["status"]) == ("accepted-if", True, 5), "mends, %s, %s: the log has %s" % (mode, words, line))
        for value in ("", "0"):
            found = place.call(*words, mode="refuse", given=text.encode(), MEND=value)
            expect(found[:2] == (120, b"") and [line["accepted"] for line in place.lines()] == [False], "mends, %r, %s: %s" % (value, words, found))
        place.call(*words, mode="refuse", SED=keeping, MEND=1)
        got = place.note("text").decode()
        expect(got == script or script is None and "[^/]" in got and "\\/" not in got, "mends, %s: sed gets %r" % (words, got))
    place.lines()
    for words, code in (([":a;s/[/]*/x/;ta"], "loop-growing"), (["s/[[:alpha:]/]//"], "unclosed-bracket"), (["s/[/]/x/;b x"], "unclosed-bracket")):
        found = place.call(*words, mode="refuse", given=b"a\n", MEND=1)
        expect(found[:2] == (120, b"") and b"[%s]\n" % code.encode() in found[2], "mends, %s: %s" % (words, found))
    # A script that sed reads otherwise in UTF-8 is refused there with other delimiters, too.
    for script, is_due in (("s/[/]é*/x/", True), ("# sedck: ignore locale\ns/[/]é*/x/", True), ("s/[/]é/x/", False)):
        status, _, said = place.call(script, mode="refuse", LC_ALL="C.UTF-8", SED="/bin/true", MEND=1)
        expect((status, b"[locale]\n" in said) == ((120, True) if is_due else (0, False)), "mends: %r in UTF-8: %d, %s" % (script, status, said))
    place.lines()


# Checks of one place, one after another.
ANSWERS = (check_answers, check_refused_calls, check_calls_above_ascii, check_lists, check_own_scripts, check_several_files, check_mends)
SPELLINGS = (check_spelled, check_drawn_words, check_texts, check_outputs)


def main():
    shells = present("wrapper", "shells by which the programs run", SHELLS)
    for shell in shells:
        before = len(failures)
        with tempfile.TemporaryDirectory(prefix="sedck-wrapper-") as folder:
            program = os.path.abspath(sys.argv[1])
            for name, checks in (("a", ANSWERS), ("c", SPELLINGS), ("e", (check_ends,))):
                place = Place(os.path.join(folder, name), shell, program)
                for check in checks:
                    check(place)
            check_numbers(Place(os.path.join(folder, "d"), shell))
            place = Place(os.path.join(folder, "b"), shell)
            for check in (check_words, check_files, check_streams, check_failing, check_recursion, check_log, check_places, check_absent, check_pipes,
                          check_locale, check_itself, check_sandbox):
                check(place)
        failures[before:] = ["%s: %s" % (shell, failure) for failure in failures[before:]]
    for failure in failures:
        print("FAILED: " + failure)
    if not failures:
        print("wrapper: it does what it should, with %s" % ", ".join(shells))
    return 1 if failures or not shells else 0


if __name__ == "__main__":
    sys.exit(main())
