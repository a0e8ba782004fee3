"""The command line of `sedck-explain`: its words, its files and standard input, statuses, standard error, and colours."""
import hashlib
import json
import os
import pty
import shutil
import subprocess
from pathlib import Path

from explain_texts import NEXT_LINE, NEXT_LINE_TEXT
from explain_tools import VERSION, Tools

ACCEPTED = "%s: accepted: every run ends\n  steps: at most 4 a line, plus 1; for 1,000 lines of 80 bytes at most 4,001\n  memory: each space at most as long as the input\n  reads: no file\n  writes: no file\n"
UNKNOWN = "%s:1:3: error: this label isn't defined, and the script has none [unknown-label]\n   1 | b z\n     |   ^\n     = see: docs/FAULTS.md#unknown-label\n"
ESCAPES = {"red": "\x1b[1;31m", "yellow": "\x1b[1;33m", "cyan": "\x1b[1;36m", "green": "\x1b[1;32m", "plain": "\x1b[0m"}
FORMATS = ("text", "gcc", "json", "sarif", "html", "dot")


def check_refused_words(tools):
    """Invalid arguments: status 3, nothing on standard output, and a line on standard error that begins with the name."""
    for words in (["--wrong"], ["-x"], ["--format", "xml", "s.sed"], ["--format"], ["--format=", "s.sed"], ["--cert"],
                  ["--format", "xml", "--format", "gcc", "s.sed"], ["--stdin-filename"], ["--cert", "s.cert", "s.sed", "s.sed"], ["--cert", "s.cert", "s.sed", "-"],
                  ["--format", "html", "s.sed", "s.sed"], ["--format", "dot", "s.sed", "t.sed"], ["--format", "sed", "s.sed", "t.sed"],
                  ["--format", "sarif", "s.sed", "t.sed"], ["--level"], ["--level", "all", "s.sed"], ["--level", "", "s.sed"], ["--level", "Note", "s.sed"],
                  ["--level", "note", "--level", "all", "s.sed"], ["--locale"], ["--deny", "writes", "--deny", "all", "s.sed"]):
        status, report, errors = tools.explain(*words, given=b"p\n")
        tools.same("status of %r" % words, (status, report), (3, b""))
        tools.holds("standard error of %r" % words, errors.startswith(b"sedck-explain: ") and errors.endswith(b"\n"))
        tools.holds("reason of %r" % words, len(errors.split(b"\n")[0]) > len("sedck-explain: "))


def check_help(tools):
    """The help, which names what can be given."""
    for words in (["--help", "s.sed"], ["-h", "s.sed"], ["-h.sed"], ["s.sed", "-V.sed"], ["--format", "gcc", "-h.sed", "s.sed"], ["--version", "--help"]):
        status, report, errors = tools.explain(*words)
        tools.same("help beside other words: %s" % words, (status, report, errors), (3, b"", b"sedck-explain: --help and --version stand alone\n"))
    for words in (["--help"], ["-h"]):
        status, report, errors = tools.explain(*words)
        tools.same("help", (status, errors), (0, b""))
        for part in (*FORMATS, "--format", "--level", "--cert", "--deny", "--locale", "--stdin-filename", "--help", "--version", "SCRIPT", "standard input", "0 accepted", "4 a file"):
            tools.holds("help has %s" % part, part.encode() in report)
        tools.same("lines of more than 80 columns", [line for line in report.splitlines() if len(line) > 80], [])


def check_version(tools):
    """The version, and the sum of the checker beside the program, where there is one; the first two sums are those of FIPS 180-4."""
    line = b"sedck-explain %s\n" % VERSION.encode()
    folder = Path(tools.folder) / "installed"
    folder.mkdir()
    program, checker = folder / "sedck-explain", folder / "sedck"
    shutil.copy(tools.explain_path, program)
    whole = Path(tools.explain_path).read_bytes()
    for text, due in ((None, b""), (b"abc", b"ba7816bf8f01cfea414140de5dae2223b00361a396177a9cb410ff61f20015ad  sedck\n"),
                      (b"", b"e3b0c44298fc1c149afbf4c8996fb92427ae41e4649b934ca495991b7852b855  sedck\n"),
                      (whole, hashlib.sha256(whole).hexdigest().encode() + b"  sedck\n")):
        if text is not None:
            checker.write_bytes(text)
        for words in (["--version"], ["-V"]):
            tools.same("version beside %r" % (text and text[:9]), tools.run(str(program), words), (0, line + due, b""))
    (folder / "link").symlink_to(program)
    tools.same("version by a link", tools.run(str(folder / "link"), ["-V"])[1], line + due)
    tools.same("version on a full device", full_device(program), (4, b"sedck-explain: cannot write\n"))
    checker.unlink()
    checker.mkdir()
    tools.same("version beside a folder", tools.run(str(program), ["-V"]), (0, line, b""))


def full_device(program):
    """The status and standard error where the version can't be written."""
    with open("/dev/full", "wb") as full:
        done = subprocess.run([program, "--version"], stdout=full, stderr=subprocess.PIPE, check=False)
    return done.returncode, done.stderr


def check_repeated(tools):
    """Of several uses of an option the last one counts, so that words after those of an alias do; of `--deny` each counts."""
    tools.write("rw.sed", b"r x\nw y\n")
    gcc = tools.explain("--format", "gcc", "rw.sed")
    for words in (["--format", "json", "--format", "gcc"], ["--format=html", "--format=gcc"], ["--level", "note", "--format", "gcc", "--level", "warning"],
                  ["--locale", "C.UTF-8", "--format", "gcc", "--locale", "C"]):
        tools.same("the last of %r" % words, tools.explain(*words, "rw.sed"), gcc)
    both = tools.explain("--format", "gcc", "--deny", "reads,writes", "rw.sed")
    tools.same("both denied", (both[0], both[1].count(b"[denied-reads]"), both[1].count(b"[denied-writes]")), (1, 1, 1))
    for words in (["--deny", "reads", "--deny", "writes"], ["--deny=writes", "--deny=reads"], ["--deny", "reads", "--deny=slow", "--deny", "writes,reads"]):
        tools.same("each of %r" % words, tools.explain("--format", "gcc", *words, "rw.sed"), both)
    tools.same("one of two is there", tools.explain("--deny", "reads", "--deny", "slow", "s.sed")[0], 0)
    tools.same("the last name of standard input", tools.explain("--stdin-filename", "a", "--stdin-filename", "b", given=NEXT_LINE), (0, (ACCEPTED % "b").encode(), b""))
    tools.same("calls said twice", tools.explain("--calls", "--calls", "gone")[0], tools.explain("--calls", "gone")[0])


def check_scripts(tools):
    """Files and standard input, one and several, and those that can't be read."""
    one, two = (ACCEPTED % "s.sed").encode(), (UNKNOWN % "t.sed").encode()
    given = (ACCEPTED % "-").encode()
    tools.same("none", tools.explain(given=NEXT_LINE), (0, given, b""))
    tools.same("-", tools.explain("-", given=NEXT_LINE), (0, given, b""))
    named = (ACCEPTED % "my.sed").encode()
    tools.same("a name for standard input", tools.explain("--stdin-filename", "my.sed", given=NEXT_LINE), (0, named, b""))
    three = b"3 scripts: 2 accepted, 1 refused\n"
    tools.same("the same for -, between files", tools.explain("s.sed", "-", "--stdin-filename=my.sed", "t.sed", given=NEXT_LINE), (2, one + named + two + three, b""))
    tools.same("a file keeps its name", tools.explain("--stdin-filename", "my.sed", "s.sed"), (0, one, b""))
    tools.same("a refused script by that name", tools.explain("--stdin-filename", "a\nb", given=b"b z"), (2, (UNKNOWN % "a?b").encode(), b""))
    tools.same("- with a certificate", tools.explain("--cert", "s.cert", "-", given=NEXT_LINE), (0, given, b""))
    tools.same("none with a certificate", tools.explain("--cert=s.cert", given=NEXT_LINE), (0, given, b""))
    tools.same("- between files", tools.explain("s.sed", "-", "t.sed", given=NEXT_LINE), (2, one + given + two + three, b""))
    tools.same("a refused script on standard input", tools.explain(given=b"b z"), (2, (UNKNOWN % "-").encode(), b""))
    tools.same("greatest status 2", tools.explain("t.sed", "s.sed"), (2, two + one + b"2 scripts: 1 accepted, 1 refused\n", b""))
    status, report, errors = tools.explain("--format", "gcc", "l.sed", "s.sed")
    tools.same("greatest status 1", (status, report.count(b"[loop-idle]"), errors), (1, 1, b""))
    tools.same("greatest status 0", tools.explain("s.sed", "s.sed"), (0, one + one + b"2 scripts: 2 accepted\n", b""))
    tools.same("a name with a hyphen", tools.explain("--", "-h.sed"), (0, (ACCEPTED % "-h.sed").encode(), b""))
    unread = b"sedck-explain: cannot read gone.sed: no such file\n"
    tools.same("no such file", tools.explain("gone.sed"), (4, b"", unread))
    tools.same("no such file among others", tools.explain("s.sed", "gone.sed", "t.sed"),
               (4, one + two + b"3 scripts: 1 accepted, 1 refused, 1 not readable\n", unread))
    tools.same("a folder", tools.explain("folder"), (4, b"", b"sedck-explain: cannot read folder: it is a directory\n"))
    tools.same("a folder among others", tools.explain("folder", "s.sed", "gone.sed"),
               (4, one + b"3 scripts: 1 accepted, 2 not readable\n", b"sedck-explain: cannot read folder: it is a directory\n" + unread))
    tools.same("no such certificate", tools.explain("--cert", "gone.cert", "s.sed"), (4, b"", b"sedck-explain: cannot read gone.cert: no such file\n"))
    tools.same("a folder as the certificate", tools.explain("--cert", "folder", "s.sed"), (4, b"", b"sedck-explain: cannot read folder: it is a directory\n"))
    tools.same("control characters", tools.explain("a\x1b[31m\nb"), (4, b"", b"sedck-explain: cannot read a?[31m?b: no such file\n"))
    tools.same("a control character of two bytes", tools.explain("a\u009bb"), (4, b"", b"sedck-explain: cannot read a?b: no such file\n"))
    tools.same("a name that isn't UTF-8", tools.explain(b"u\xe9\xff.sed", "s.sed"),
               (4, one + b"2 scripts: 1 accepted, 1 not readable\n", b"sedck-explain: cannot read u?E9?FF.sed: its name is not UTF-8; give the file as standard input\n"))
    tools.same("the same of a call", tools.explain("--sed", "--", "-f", b"u\xe9.sed"),
               (4, b"", b"sedck-explain: cannot read a file of -f: its name is not UTF-8; give the file as standard input\n"))
    tools.same("an empty name", tools.explain(""), (4, b"", b"sedck-explain: cannot read : no such file\n"))


def check_hidden(tools):
    """Paths with characters that aren't seen, and with others."""
    for hidden in "\u00ad\u034f\u115f\u180e\u2028\u202e\u3000\u3164\ufe0f\uffa0\ufff9\ue000\U000e0061":
        tools.same("the hidden character U+%04X" % ord(hidden), tools.explain("a%sb" % hidden), (4, b"", b"sedck-explain: cannot read a?b: no such file\n"))
    tools.same("letters, a blank and a sign", tools.explain("\u00e9 \u4e2d\U0001f600"),
               (4, b"", "sedck-explain: cannot read \u00e9 \u4e2d\U0001f600: no such file\n".encode()))


def check_sums(tools):
    """The last line of a report on several scripts, for people alone: how many there are of each answer, with a loop or what is denied as one."""
    tools.write("w.sed", b"w x\n")
    for words, due in ((["s.sed", "l.sed", "t.sed"], "3 scripts: 1 accepted, 1 with a loop, 1 refused"), (["l.sed", "l.sed"], "2 scripts: 2 with a loop"),
                       (["--deny", "writes", "s.sed", "w.sed", "l.sed"], "3 scripts: 1 accepted, 2 with a loop or denied"),
                       (["s.sed"] * 1203, "1,203 scripts: 1,203 accepted")):
        lines = tools.explain(*words)[1].decode().split("\n")
        tools.same("sum of %r" % words[:5], [line for line in lines if " scripts: " in line] + lines[-2:], [due, due, ""])
        for form in ("gcc", "json"):
            tools.holds("no sum of %r in %s" % (words[:5], form), b" scripts: " not in tools.explain("--format", form, *words)[1])
    for words in (["s.sed"], ["t.sed"], ["gone.sed"]):
        tools.holds("no sum of %r" % words, b" scripts: " not in tools.explain(*words)[1])


def check_formats(tools):
    """The default format; each format on standard input; an accepted script has no line for editors."""
    tools.same("default", tools.explain("s.sed"), tools.explain("--format", "text", "s.sed"))
    graph = b"digraph sedck {\n"
    starts = {"text": b"-: accepted", "gcc": b"", "json": b'{"file":"-",', "sarif": b'{"$schema":"https://', "html": b"<!DOCTYPE html>\n", "dot": graph}
    for name in FORMATS:
        status, report, errors = tools.explain("--format=" + name, given=NEXT_LINE)
        tools.same("format %s" % name, (status, report[:len(starts[name])], errors), (0, starts[name], b""))
    named = {"text": b"a b:1:3: error: ", "gcc": b"a b:1:3: error: ", "json": b'{"file":"a b",', "sarif": b'"artifactLocation":{"uri":"a%20b"}',
             "html": b"<title>a b: script-refused</title>", "dot": b'[label="a b: script-refused"'}
    for name in FORMATS:
        for words in ([], ["-"]):
            status, report, errors = tools.explain("--format", name, "--stdin-filename", "a b", *words, given=b"b z\n")
            tools.same("a name for standard input, %s" % name, (status, named[name] in report, b"-:1:3" in report, errors), (2, True, False, b""))
    tools.same("gcc of an accepted script", tools.explain("--format", "gcc", "s.sed"), (0, b"", b""))
    status, report, errors = tools.explain("--format", "json", "s.sed", "t.sed", "gone.sed", "l.sed")
    tools.same("json of several", (status, report.count(b"\n"), report.count(b'{"file":')), (4, 4, 4))
    tools.same("json of several", errors, b"sedck-explain: cannot read gone.sed: no such file\n")
    check_unreadable(tools)


def check_unreadable(tools):
    """Scripts that can't be read have an object in json and in sarif, and nothing in the other formats."""
    page = "FORMATS.md#the-formats-and-statuses-of-sedck-explain"
    for path, words, shown, reason in (
            ("gone.sed", ["gone.sed"], "gone.sed", ": no such file"), ("folder", ["folder"], "folder", ": it is a directory"),
            ("s.sed", ["--cert", "gone.cert", "s.sed"], "gone.cert", ": no such file"), ("a\nb", ["a\nb"], "a?b", ": no such file"),
            ("u\0E9.sed", [b"u\xe9.sed"], "u?E9.sed", ": its name is not UTF-8; give the file as standard input"), ("\u202ex", ["\u202ex"], "?x", ": no such file")):
        message = "cannot read " + shown + reason
        status, report, errors = tools.explain("--format", "json", *words)
        tools.same("unreadable %r" % path, (status, errors), (4, ("sedck-explain: %s\n" % message).encode()))
        finding = {"level": "error", "code": "unreadable", "message": message, "hint": None, "position": None, "steps": [], "page": page, "end": None, "fix": None}
        tools.same("unreadable %r" % path, json.loads(report),
                   {"file": path, "status": 4, "answer": "unreadable", "bound": None, "bound_by_lines": None, "space_bound": None, "reads": [], "writes": [], "findings": [finding], "commands": [],
                    "version": json.loads(tools.explain("--format", "json", "s.sed")[1])["version"]})
        log = tools.explain("--format", "sarif", *words)[1]
        tools.holds("unreadable %r, sarif" % path, ('"message":{"text":%s}' % json.dumps(message)).encode() in log)
        for name in ("text", "gcc", "html", "dot"):
            tools.same("unreadable %r, %s" % (path, name), tools.explain("--format", name, *words)[:2], (4, b""))


def check_waiting(tools):
    """Without a word, and with a terminal as its input, it says what it waits for."""
    line = b"sedck-explain: reading a script from the terminal, to the end of input (Ctrl-D); --help shows what else it does\n"
    for words, given, due in (([], b"p\n\x04", line), (["-"], b"p\n\x04", b"")):
        mine, its = pty.openpty()
        with subprocess.Popen([tools.explain_path, *words], cwd=tools.folder, stdin=its, stdout=subprocess.PIPE, stderr=subprocess.PIPE) as run:
            os.close(its)
            os.write(mine, given)
            report, errors = run.communicate(timeout=20)
        os.close(mine)
        tools.same("at a terminal, %r" % words, (run.returncode, report[:11], errors), (0, b"-: accepted", due))
    tools.same("no terminal, no line", tools.explain(given=b"p\n")[2], b"")


def at_terminal(tools, words, **changes):
    """What a terminal is given as standard output."""
    env = {name: value for name, value in os.environ.items() if name != "NO_COLOR"}
    mine, its = pty.openpty()
    with os.fdopen(mine, "rb", closefd=True) as terminal:
        with subprocess.Popen([tools.explain_path, *words], cwd=tools.folder, env={**env, **changes}, stdin=subprocess.DEVNULL, stdout=its) as run:
            os.close(its)
            parts = []
            try:
                while part := os.read(terminal.fileno(), 65536):
                    parts.append(part)
            except OSError:
                # The other end is closed.
                pass
        tools.same("status at a terminal", run.returncode, tools.explain(*words)[0])
    return b"".join(parts).replace(b"\r\n", b"\n")


def coloured(text):
    """The text with the colours that {NAME} stands for."""
    for name, escape in ESCAPES.items():
        text = text.replace("{%s}" % name, escape)
    return text.encode()


def check_colours(tools):
    """Levels, carets, hints and the word of acceptance are coloured at a terminal alone, unless NO_COLOR says no; no other format is."""
    tools.write("c.sed", b"s/a\\+/b/\n")
    tools.write("w.sed", b"w /x\n$!N\nG\n")
    error = "c.sed:1:4: {red}error{plain}: POSIX defines no such escape in a basic regular expression, and seds differ on it [bad-escape]\n"
    error += "   1 | s/a\\+/b/\n     |    {red}^^{plain}\n     = {cyan}hint{plain}: for `x\\+` write `x\\{1,\\}` or `xx*`\n"
    error += "     = {cyan}see{plain}: docs/FAULTS.md#bad-escape\n"
    other = 'w.sed:1:1: {yellow}warning{plain}: this writes "/x": it is an absolute path [absolute-name]\n   1 | w /x\n     | {yellow}^^^^{plain}\n'
    other += "     = {cyan}see{plain}: docs/TRUST.md#names\n"
    other += "w.sed:3:1: {cyan}note{plain}: every run ends, but no limit on its memory is known, since this may lengthen the pattern space [no-space-bound]\n"
    other += "   3 | G\n     | {cyan}^{plain}\n       3:1  G  may lengthen the pattern space with the contents of the hold space\n"
    other += 'w.sed: {green}accepted{plain}: every run ends\n  steps: at most 5 a line, plus 1; for 1,000 lines of 80 bytes at most 5,001\n  memory: no limit is known\n  reads: no file\n  writes: "/x" (1:1)\n'
    tools.holds("terminal, loop", at_terminal(tools, ["l.sed"]).find(coloured("l.sed: {red}loop{plain}: a run may never end\n")) > 0)
    tools.write("s.sed", b"r x\n")
    tools.holds("terminal, rejected", at_terminal(tools, ["--cert", "s.cert", "s.sed"]).find(coloured("s.sed: {red}rejected{plain}: ")) > 0)
    tools.write("s.sed", NEXT_LINE)
    for name, text in (("c.sed", error), ("w.sed", other)):
        asked = ["--level", "note", name]
        plain = tools.explain(*asked)[1]
        tools.same("terminal %s" % name, at_terminal(tools, asked), coloured(text))
        tools.same("terminal %s, NO_COLOR empty" % name, at_terminal(tools, asked, NO_COLOR=""), coloured(text))
        tools.same("terminal %s, NO_COLOR" % name, at_terminal(tools, asked, NO_COLOR="1"), plain)
        tools.same("terminal %s, NO_COLOR=0" % name, at_terminal(tools, asked, NO_COLOR="0"), plain)
        tools.same("terminal %s, NO_COLOR of other bytes" % name, at_terminal(tools, asked, NO_COLOR="\udcff"), plain)
        tools.same("pipe %s" % name, tools.explain(*asked, NO_COLOR="")[1], plain)
        tools.holds("pipe %s" % name, b"\x1b" not in plain)
        for form in FORMATS[1:]:
            words = ["--format", form, name]
            tools.same("terminal %s %s" % (form, name), at_terminal(tools, words), tools.explain(*words)[1])


def check(tools: Tools) -> None:
    """Runs the program with words of each kind."""
    tools.write("s.sed", NEXT_LINE)
    tools.write("-h.sed", NEXT_LINE)
    tools.write("t.sed", b"b z\n")
    tools.write("l.sed", b":a\nb a\n")
    tools.write("s.cert", NEXT_LINE_TEXT.encode())
    os.mkdir(tools.path("folder"))
    check_refused_words(tools)
    check_help(tools)
    check_version(tools)
    check_repeated(tools)
    check_waiting(tools)
    check_scripts(tools)
    check_hidden(tools)
    check_sums(tools)
    check_formats(tools)
    check_colours(tools)
