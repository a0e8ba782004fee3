"""Which findings and steps are listed: `--level`, and loops of many steps."""
import json
import re

from explain_texts import CERTAIN, ENDLESS, ROUND
from explain_tools import Tools, with_pages

LEVELS = ("error", "warning", "note")

# A script with findings of the levels, and its status.
SCRIPTS = [
    (b"w /x\n$!N\nG\n", ["warning", "note"], 0),
    (b"w /x\n:a\nb a\n", ["error", "warning"], 1),
    (b"b z\n", ["error"], 2),
    (b"p\n", [], 0),
]


def long_loop(count):
    """A loop of as many steps, the last of which is its first again."""
    return b":a\n" + b"p\n" * (count - 3) + b"b a\n"


# A loop of more than twenty steps, and what is listed of it: the line of each step that is, and in brackets how many aren't.
LOOPS = [
    # the flag is set and tested, and the loop jumps
    (b":a\ns/x/y/\n" + b"p\n" * 20 + b"t a\n", [1, 2, [20], 23, 1]),
    (b":a\n" + b"p\n" * 9 + b"s/x/y/\n" + b"p\n" * 11 + b"t a\n", [1, [9], 11, [11], 23, 1]),
    # a replacement that finds nothing, and a block that is skipped, are passed by
    (b":a\n" + b"s/x/y/\n" * 10 + b"/x/{\np\n}\n" * 10 + b"b a\n", [1, [20], 42, 1]),
    # a block that is entered is passed by as well; the jump out of it isn't
    (b":a\n" + b"p\n" * 18 + b"$!{\np\nb a\n}\nd\n", [1, [20], 22, 1]),
    # a jump forward, over commands that aren't steps
    (b":a\n" + b"p\n" * 10 + b"b e\n" + b"p\n" * 5 + b":e\n" + b"p\n" * 10 + b"b a\n", [1, [10], 12, [11], 29, 1]),
    # a `t` is a test, whether it branches or not; a step alone between two that are listed is listed
    (b":a\n" + b"p\nt e\n" * 10 + b"b a\n:e\n", list(range(1, 23)) + [1]),
    (b":a\n" + b"p\np\nt e\n" * 7 + b"b a\n:e\n", [1] + [part for line in range(4, 23, 3) for part in ([2], line)] + [23, 1]),
    # the pattern space grows and gets shorter
    (b"G\n" + b"p\n" * 21 + b"D\n", [1, [21], 23, 1]),
    (b"G\n" + b"p\n" * 10 + b"G\n" + b"p\n" * 10 + b"D\n", [1, [10], 12, [10], 23, 1]),
    (b":a\ns/x/xx/\n" + b"p\n" * 20 + b"t a\n", [2, [20], 23, 1, 2]),
    # of many that matter twelve from the front and twelve from the end
    (b":a\n" + b"p\np\nt e\n" * 30 + b"b a\n:e\n",
     [1] + [part for line in range(4, 38, 3) for part in ([2], line)] + [[3 * 30 - 3 * 12 - 3 * 11 + 2], 61]
     + [part for line in range(64, 92, 3) for part in ([2], line)] + [92, 1]),
]


def check_levels(tools):
    """The level that is asked for and those above are listed in each format; statuses, bounds and files stay the same."""
    for script, found, status in SCRIPTS:
        tools.write("v.sed", script)
        whole = json.loads(tools.explain("--format", "json", "v.sed")[1])
        tools.same("all levels of %r" % script, [finding["level"] for finding in whole["findings"]], found)
        for at, level in enumerate(LEVELS):
            due = [finding for finding in whole["findings"] if finding["level"] in LEVELS[:at + 1]]
            what = "%s of %r" % (level, script)
            seen = {form: tools.explain("--format", form, "--level", level, "v.sed") for form in ("text", "gcc", "json", "sarif", "html", "dot")}
            tools.same("statuses, " + what, {one[0] for one in seen.values()}, {status})
            tools.same("json, " + what, json.loads(seen["json"][1]), {**whole, "findings": due})
            for form in ("text", "gcc"):
                lines = [line for line in seen[form][1].decode().split("\n") if line.endswith("]") and ": note: `" not in line]
                tools.same("%s, %s" % (form, what), [line.rsplit("[")[-1] for line in lines], [finding["code"] + "]" for finding in due])
            results = json.loads(seen["sarif"][1])["runs"][0]["results"]
            tools.same("sarif, " + what, [result["ruleId"] for result in results], [finding["code"] for finding in due])
            beside = [finding for finding in due if finding["level"] != "error"]
            for part, count in ((b'<div class="finding ', len(due)), (b'<li><a href="#F', len(beside)), (b'<p class="finding error">', len(due) - len(beside))):
                tools.same("html, %s: %s" % (what, part), seen["html"][1].count(part), count)
            tools.same("dot, " + what, seen["dot"], tools.explain("--format", "dot", "v.sed"))
        for form, level in (("text", "warning"), ("gcc", "warning"), ("json", "note"), ("sarif", "note"), ("html", "note")):
            tools.same("default of %s" % form, tools.explain("--format", form, "v.sed"), tools.explain("--format", form, "--level", level, "v.sed"))


def check_long_loops(tools):
    """Of more than twenty steps the first one, the last one and the one that branches are listed, where people read them; JSON has all."""
    for count in (3, 19, 20, 21, 22, 30, 1203):
        tools.write("v.sed", long_loop(count))
        steps = [(1, ":a ", "goes on")] + [(line, "p  ", "goes on; reads no line") for line in range(2, count - 1)] + [(count - 1, "b a", "branches"), (1, ":a ", "and so on")]
        left_out = count - 3 if count > 20 else 0
        parts = [steps] if left_out == 0 else [steps[:1], steps[-2:]]
        gap = "%s steps left out\n" % format(left_out, ",")
        width = max(len("%d:1" % line) for part in parts for line, _, _ in part)
        # A long loop isn't run.
        head = "v.sed:1:1: error: %s [loop-idle]\n" % (ENDLESS if count <= 30 else CERTAIN)
        rows = ["".join("       %*s  %s  %s\n" % (width, "%d:1" % line, source, words) for line, source, words in part) for part in parts]
        text = head + "   1 | :a\n     | ^^\n" + ("       ... " + gap).join(rows) + "     = hint: %s\n" % ROUND
        text = with_pages(text) + "v.sed: loop: a run may never end\n  reads: no file\n  writes: no file\n"
        tools.same("text of %d steps" % count, tools.explain("v.sed"), (1, text.encode(), b""))
        notes = ["".join("v.sed:%d:1: note: `%s` %s\n" % (line, source.strip(), words) for line, source, words in part) for part in parts]
        gcc = head + ("v.sed:1:1: note: " + gap).join(notes) + "v.sed:1:1: note: hint: %s\n" % ROUND
        tools.same("gcc of %d steps" % count, tools.explain("--format", "gcc", "v.sed"), (1, gcc.encode(), b""))
        whole = json.loads(tools.explain("--format", "json", "v.sed")[1])
        tools.same("json of %d steps" % count, [(step["position"]["line"], step["message"]) for step in whole["findings"][0]["steps"]],
                   [(line, words) for line, _, words in steps])


# How a step and what is left out look in each format.
LISTED = {
    "text": r"^ +(\d+):\d+  |^ +\.\.\. ([\d,]+) steps? left out$",
    "gcc": r"^v\.sed:(\d+):\d+: note: `|^v\.sed:\d+:\d+: note: ([\d,]+) steps? left out$",
    "html": r'<li><a href="#L(\d+)">|<p class="soft">\.\.\. ([\d,]+) steps? left out</p>',
}


def check_what_matters(tools):
    """Of a long loop each step is listed that sets or tests the flag, reads, changes the length, or branches; the count of the others is right, and
    so are the numbers of the steps in a page."""
    for script, due in LOOPS:
        tools.write("v.sed", script)
        for form, pattern in LISTED.items():
            status, report, _ = tools.explain("--format", form, "v.sed")
            box = report.decode().partition('id="F0"')[2].partition("</div>")[0] if form == "html" else report.decode()
            seen = [int(line) if line else [int(count)] for line, count in re.findall(pattern, box, flags=re.M)]
            tools.same("%s of %r" % (form, script), (status, seen), (1, due))
        starts = [int(start) for start in re.findall(r'<ol start="(\d+)">', box)]
        steps = [part[0] if isinstance(part, list) else 1 for part in due]
        tools.same("numbers of %r" % script, starts, [1] + [sum(steps[:at + 1]) + 1 for at, part in enumerate(due) if isinstance(part, list)])
        (finding,) = json.loads(tools.explain("--format", "json", "v.sed")[1])["findings"][:1]
        tools.same("count of %r" % script, len(finding["steps"]), sum(steps))


def check_long_commands(tools):
    """A note for editors has at most forty characters of a command's line."""
    tools.write("v.sed", b":a\ns/x/" + b"y" * 100 + b"/\nta\n")
    status, report, _ = tools.explain("--format", "gcc", "v.sed")
    notes = [line for line in report.decode().split("\n") if ": note: `s/x/" in line]
    tools.same("a long command", (status, [line.split("`")[1] for line in notes]), (1, ["s/x/" + "y" * 36 + "..."] * 2))


def check_commands_of_steps(tools):
    """A step shows its command alone, with its addresses: of a script, of a call, and of a call in a file."""
    for script, due in ((":a;/x;y/!ba", [":a", "/x;y/!ba", ":a"]), ("p;:b;1,3{$!bb\n}\n", [":b", "1,3{", "$!bb", ":b"]), ("# a;b\n:a\n s/;/x/ ; ba", [":a", "s/;/x/", "ba", ":a"])):
        tools.write("v.sed", script.encode())
        tools.write("v.sh", ("echo ';' ; sed -n '%s' in # x;y\n" % script).encode())
        for words in (["v.sed"], ["--calls", "v.sh"], ["--sed", "--", "-n", script]):
            status, report, _ = tools.explain("--format", "gcc", *words)
            seen = re.findall(r": note: `(.*?)` ", report.decode())
            tools.same("commands of %r, %s" % (script, words[0]), (status, seen), (1, due))


def check(tools: Tools) -> None:
    """Compares what is listed."""
    check_levels(tools)
    check_long_loops(tools)
    check_what_matters(tools)
    check_long_commands(tools)
    check_commands_of_steps(tools)
