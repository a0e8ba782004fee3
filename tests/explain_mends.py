"""Commands that have their delimiter in a list: the option --mend, for scripts and for calls by their words."""
import json

from explain_tools import Tools
from skips import has_gnu_sed

# Scripts that are refused without the option, how many commands have their delimiter in a list, and an input.
MENDED = [
    ("s/[^/]*$//", 1, "/usr/bin/sed\nsed\n/\n"),
    ("s/[/]/x/", 1, "a/b/c\n[/]\n"),
    ("/[/]/d", 1, "a/b\nb\n"),
    ("/[^/]/,/[/]x/s/b/c/", 2, "/\nb\nb/x\nb\n"),
    ("s/[a/]b/c/;p;s/x[/]\\/y/\\/&/", 2, "ab\nx//y\nb/b\n"),
    ("/^X\\(.*[^/]\\)\\/\\/*$/{;s//\\1/;q;}", 1, "Xa/b//\nXc/\n"),
    ("s/[/,|]/\\//g", 1, "a,b|c/d\n"),
    ("s/\\([^/]*\\)\\/\\([^/]*\\)/\\2\\/\\1/", 1, "ab/cd/ef\n"),
    ("s,[,],\\,\\,,g", 1, "a,b\n"),
    ("\\,[,],s/[/]/,/", 2, "a,b/c\nd/e\n"),
    ("\\,[,]\\,,!d", 1, "a,,b\na,b\n"),
    ("# ä [/]\n\ns/[/]/x/\na\\\n/[/]\n", 1, "a/b\n"),
    ("y/a/b/;s/[/]a/x/2p", 1, "/a/a\n/b/b/a\n"),
]
# Scripts that get the same report with the option.
UNCHANGED = [b"p\n", b"s,[/],x,\n", b"s/[[:alpha:]/]//\n", b"s/[[:alpha:]][/]//\n", b"s/[]/]//\n", b"s/[/\n", b"b x\n", b":a;ba\n", b"s/[/]/x/;b x\n", b"w f\n"]
FORMATS = ("text", "gcc", "json", "sarif", "html", "dot", "sed")


def check(tools: Tools) -> None:
    is_gnu = has_gnu_sed("explain", "what scripts with other delimiters make")
    for script, count, given in MENDED:
        check_mended(tools, script, count, given.encode() if is_gnu else None)
    for text in UNCHANGED:
        check_unchanged(tools, text)
    check_others(tools)


def run_sed(tools, words, given):
    return tools.run("sed", words, given, LC_ALL="C")


def check_mended(tools, script, count, given):
    """A script is accepted under a condition for each command, and what is written does what GNU sed does with the script itself."""
    text = script.encode()
    tools.write("m.sed", text)
    tools.same("%r is refused" % script, tools.explain("m.sed")[0], 2)
    status, plain, said = tools.explain("--format", "sed", "--mend", "--no-comments", "m.sed")
    tools.same("the status of the text of %r" % script, status, 5)
    tools.same("the conditions of the text of %r" % script, said.count(b" [open-hole]\n"), count)
    tools.same("the text of a call with %r" % script, tools.explain("--format", "sed", "--mend", "--sed", "--", script)[:2], (5, plain))
    tools.write("plain.sed", plain)
    tools.same("the text of %r is accepted" % script, tools.explain("plain.sed")[0], 0)
    fixed = check_report(tools, text, count)
    tools.write("fixed.sed", fixed)
    tools.same("%r with its fixes" % script, tools.explain("--format", "sed", "--no-comments", "fixed.sed")[:2], (0, plain))
    if given is not None:
        due = run_sed(tools, ["-e", script], given)
        tools.same("what %r makes" % script, run_sed(tools, ["-f", "plain.sed"], given), due)
        tools.same("what %r makes with its fixes" % script, run_sed(tools, ["-f", "fixed.sed"], given), due)


def check_report(tools, text, count):
    """The conditions are those of a call in a file, each at its command. Answers the text with their fixes."""
    status, report, _ = tools.explain("--format", "json", "--mend", "m.sed")
    report = json.loads(report)
    found = [finding for finding in report["findings"] if finding["code"] == "open-hole"]
    tools.same("the report on %r" % text, (status, report["status"], report["answer"], len(found)), (5, 5, "accepted-if", count))
    fixed = text
    for finding in reversed(found):
        start, end = finding["fix"]["start"]["offset"], finding["fix"]["end"]["offset"]
        tools.same("the place of a condition of %r" % text, (finding["position"]["offset"], finding["end"]["offset"]), (start, end))
        tools.holds("a condition of %r is at the delimiters of its command" % text, text[start] == text[end - 1] in b"/,")
        fixed = fixed[:start] + finding["fix"]["text"].encode() + fixed[end:]
    if b"\n" not in text:
        tools.write("m.sh", b"sed '" + text + b"' f\n")
        lines = tools.explain("--format", "json", "--mend", "--calls", "m.sh")[1].splitlines()
        due = [finding["message"] for finding in json.loads(lines[0])["findings"] if finding["code"] == "open-hole"]
        tools.same("the words of the conditions of %r" % text, [finding["message"] for finding in found], due)
    return fixed


def check_unchanged(tools, text):
    """What isn't refused, and what can't be mended, gets the same report in each format, byte for byte."""
    tools.write("u.sed", text)
    for form in FORMATS:
        for words in (["u.sed"], ["--sed", "--", "-f", "u.sed", "in"]):
            tools.same("%r with --mend, %s" % (text, form), tools.explain("--format", form, "--mend", *words), tools.explain("--format", form, *words))


def check_others(tools):
    """A loop is a loop, what is denied is denied, and a certificate is of the text itself."""
    # GNU sed runs for ever by `:a;s/[/]*/x/;ta`, since an empty match is replaced each time.
    for words, due, code in ((["--sed", "--", ":a;s/[/]*/x/;ta"], 1, "loop-growing"), (["--deny", "writes", "--sed", "--", "s/[/]/x/w out"], 1, "denied-writes"),
                             (["--sed", "--", "-i", "s/[/]/x/", "in"], 5, "in-place"), (["--sed", "--", "-E", "s/[/]/x/"], 2, "other-language")):
        status, report, _ = tools.explain("--format", "json", "--mend", *words)
        report = json.loads(report)
        tools.same("--mend %s" % words, (status, report["status"], code in [finding["code"] for finding in report["findings"]]), (due, due, True))
        out = tools.explain("--format", "sed", "--mend", *words)[:2]
        tools.same("the text of %s" % words, out, (due, b"s,[/],x,\n" if due == 5 else b""))
    tools.write("l.sed", b"p\n:a;s/[/]\\/*/\\/x/;ta\n")
    report = json.loads(tools.explain("--format", "json", "--mend", "l.sed")[1])
    places = [step["position"]["offset"] for step in report["findings"][0]["steps"]]
    tools.same("the places of a loop", (report["status"], set(places)), (1, {2, 5, 19}))
    tools.write("m.sed", b"s/[/]/x/\n")
    tools.same("--mend with --cert", tools.explain("--mend", "--cert", "m.sed", "m.sed"), (3, b"", b"sedck-explain: --cert is for a script without --mend\n"))
    tools.write("p.sed", b"p\n")
    tools.same("the status of several scripts", tools.explain("--format", "gcc", "--mend", "p.sed", "m.sed")[0], 5)
    text = tools.explain("--format", "text", "--mend", "p.sed", "m.sed")[1].decode().splitlines()
    tools.holds("what is said of the script", "m.sed: accepted-if: every run ends if the conditions hold" in text)
    tools.same("what is said of several scripts", text[-1], "2 scripts: 1 accepted, 1 accepted under conditions")
    page = tools.explain("--format", "html", "--mend", "m.sed")[1].decode()
    tools.holds("what the page says", "Accepted under conditions: if they hold" in page and "enied" not in page)
