"""What `--deny` makes of scripts, the warnings that it counts, and texts that are no scripts of sed."""
import itertools
import json
import re

from explain_tools import Tools

DENIALS = ("reads", "writes", "warnings", "unbounded", "growing", "slow", "references")
EXTENDED, OPTIONS, BRACE = "looks-extended", "options-in-first-line", "brace-behind-label"
LOCALE = "locale"

# An accepted script, the place and the code of what each denial finds in it, worked out by hand.
ACCEPTED = [
    (b"p\n", {}),
    (b"p\n r in\n", {"reads": [(2, 2, "denied-reads")]}),
    (b"w a\ns/x/y/w b\nw a\n", {"writes": [(1, 1, "denied-writes"), (2, 1, "denied-writes")]}),
    (b"r f\nw g\n", {"reads": [(1, 1, "denied-reads")], "writes": [(2, 1, "denied-writes")]}),
    (b"p\nG\n", {"growing": [(2, 1, "denied-growing")]}),
    (b"s/a/bb/\n", {"growing": [(1, 1, "denied-growing")]}),
    (b"p;H\n", {"growing": [(1, 3, "denied-growing")]}),
    (b":a\ns/x//\nta\n", {}),
    (b"p;G\n:a\ns/x//\nta\n", {"unbounded": [(1, 3, "denied-unbounded")], "growing": [(1, 3, "denied-growing")]}),
    (b"s/a/b/\n", {}),
    (b"r /etc/motd\n", {"reads": [(1, 1, "denied-reads")], "warnings": [(1, 1, "denied-warnings")]}),
    (b"p;s/[0-9]+/x/\n", {"warnings": [(1, 10, "denied-warnings")]}),
    (b"p\ns/\\(a\\)\\1*//\n", {"slow": [(2, 1, "denied-slow")], "references": [(2, 3, "denied-references")]}),
    (b"/\\(a\\)\\1/w x\n", {"writes": [(1, 10, "denied-writes")], "references": [(1, 2, "denied-references")]}),
    (b"s/\\(\\(a\\{255\\}\\)\\{255\\}\\)\\{9\\}//\n", {"slow": [(1, 1, "denied-slow")]}),
    (b"s/x/y/;w ../o\nG\n", {"writes": [(1, 8, "denied-writes")], "warnings": [(1, 8, "denied-warnings")], "growing": [(2, 1, "denied-growing")]}),
]

# An accepted script, and the place of the error where the script is slow: by the rule that a reference is repeated by itself, that what may
# match nothing is repeated more than once, or that intervals write out more than 2,000 items.
SLOW = [
    (b"s/\\(.\\)\\1*/\\1/g\n", (1, 1)),
    (b"p;/\\(.\\)\\1\\{3\\}/d\n", (1, 17)),
    (b"p\n1,/\\(a\\)\\(b\\1*\\)/p\n", (2, 18)),
    # A reference that isn't repeated, and a group that is repeated without one.
    (b"s/^\\(.*\\)\\n\\1$/\\1/\n", None),
    (b"s/\\(.\\)\\(\\1x\\)/\\2/\n", None),
    (b"s/\\(a\\)*/\\1/\n", None),
    # What may match nothing: it is repeated, or is there once at most, or isn't all that is repeated.
    (b"s/^\\(.*\\(b\\{0,2\\}\\)\\{4,6\\}\\)\\{0,40\\}/X/\n", (1, 1)),
    (b"s/^\\(b*\\)\\{0,2\\}/X/\n", (1, 1)),
    (b"p;/\\(a\\{0,1\\}\\(b*\\)c*\\)*/p\n", (1, 26)),
    (b"s/\\(\\(a*\\)\\{2\\}b\\)*/X/\n", (1, 1)),
    (b"s/\\(\\)*/X/\n", (1, 1)),
    (b"s/\\(b*\\)\\{0,1\\}\\(c*\\)\\{1\\}/X/\n", None),
    (b"s/\\(ab*\\)*\\(b\\{0,3\\}c\\)\\{0,9\\}/X/\n", None),
    (b"s/\\(a*\\)\\(b*\\)/X/\n", None),
    # 2,000 items, and two more. An item that may be there once only is written once.
    (b"s/\\(a\\{200\\}\\)\\{10\\}//\n", None),
    (b"s/\\(a\\{200\\}\\)\\{10\\}b\\{0,1\\}c*d\\{1\\}//\n", None),
    (b"p;s/\\(a\\{200\\}\\)\\{10\\}b\\{2\\}//\n", (1, 3)),
    (b"s/\\(a\\{100\\}b\\)\\{2,20\\}//\n", (1, 1)),
    (b"s/\\(a\\{3,\\}\\)\\{255\\}//\n", None),
    (b"/\\(a\\{100\\}\\)\\{8\\}/{\n/\\(a\\{100\\}\\)\\{12\\}/d\n}\n", None),
    (b"/\\(a\\{100\\}\\)\\{8\\}/{\n/\\(a\\{100\\}\\)\\{12\\}/,/x\\{2\\}/d\n}\n", (2, 30)),
    (b"s/\\(\\(\\(a\\{255\\}\\)\\{255\\}\\)\\{120\\}\\)//\n", (1, 1)),
    (b"s/\\(\\(\\(\\(\\(a\\{255\\}\\)\\{255\\}\\)\\{255\\}\\)\\{255\\}\\)\\{255\\}\\)//\n", (1, 1)),
]

# An accepted script, and where its expressions with a reference begin, behind their delimiters.
REFERENCES = [
    (b"s/\\(a\\)\\1//\n", [(1, 3)]), (b"p\n/^\\(.*\\)\\n\\1$/!P\n", [(2, 2)]), (b"\\,\\(a\\)\\1,p\n", [(1, 3)]), (b"s/\\(.\\)\\1*//\n", [(1, 3)]),
    (b"1,/\\(a\\)\\1/p\n", [(1, 4)]), (b"/x/,/\\(a\\)\\1/s/\\(b\\)//\n", [(1, 6)]), (b"/\\(a\\)\\1/,/\\(b\\)\\(c\\)\\2/s/\\(d\\)\\1/x/\n", [(1, 2), (1, 12), (1, 27)]),
    (b"/\\(a\\)\\1/s//x/\n", [(1, 2)]), (b"//,/\\(a\\)\\1/s//x/\n", [(1, 5)]), (b"$,//s/\\(a\\)\\1/x/\n", [(1, 7)]), (b"/a/{\n  s/\\(\\(a\\)\\2\\)b/x/;s/\\(a\\)\\1/x/\n}\n", [(2, 5), (2, 23)]),
    # replacements, texts, comments, lists and pairs of backslashes have none
    (b"s/\\(a\\)/\\1\\1/\n", []), (b"s/\\(a\\)[\\1]\\\\1/x/\n", []), (b"# s/\\(a\\)\\1/x/\na\\\n\\(a\\)\\1\n", []), (b"w \\(a\\)\\1\n", []), (b"p\n", []),
]

# An accepted script, and for each command in which a byte above 127 is repeated by itself, or is in a list of `y`, the column of the first
# one, or of the character of which it is a part, and that character or byte.
E, EURO = b"\xc3\xa9", b"\xe2\x82\xac"
BYTES = [
    (b":a\ns/x\xc3\xa9*/x/\nt a\n", [(2, 4, E)]),
    (b":a\ny/\xc3\xa9a/a\xc3\xa9/\nN\nb a\n", [(2, 3, E)]),
    (b"p;/\xc3\xa9\\{2\\}/d\n", [(1, 4, E)]),
    (b"1,/x\xff*/p\n", [(1, 5, b"\xff")]),
    (b"s/\\(a\xc3\xa9*\\)*//;y/a\\/b/\xc3\xa9x/\n", [(1, 6, E), (1, 22, E)]),
    (b"s/\x80*//\n", [(1, 3, b"\x80")]),
    # addresses, other delimiters, lists, several in a command, and characters that are repeated elsewhere or not at all
    (b"\\,\xe2\x82\xac*,,/y/p\n", [(1, 3, EURO)]), (b"\\,x,, /\xc3\xa9*/p\n", [(1, 8, E)]), (b"/y/,\\:a\xc3\xa9*:p\n", [(1, 8, E)]),
    (b"2 , /\xc3\xa9*/!{p\n}\n", [(1, 6, E)]), (b"/\xc3\xa9*/,/\xe2\x82\xac*/s/\xc3\xa9*//\n", [(1, 2, E)]),
    (b"s/[\xc3\xa9*]\xc3\xa9\xc3\xa9*//\n", [(1, 10, E)]), (b"s/[]\xc3*][[:alpha:]*]*\xc3\xa9\\{1,3\\}//\n", [(1, 21, E)]),
    (b"s/\xc3\xa9x*\xe2\x82\xac*\xc3\xa9*//\n", [(1, 7, EURO)]), (b"s/\\*\xf0\x9f\x98\x80*//\n", [(1, 5, b"\xf0\x9f\x98\x80")]),
    (b"# \xc3\xa9*\ny/ab/\xc3\xa9/\nh;y/\xff/a/\n", [(2, 6, E), (3, 5, b"\xff")]), (b"y1a\xe2\x82\xac1bcde1\n", [(1, 4, EURO)]),
    # bytes that are no character: the first one of two, a surrogate, one that has a shorter form, and one behind a whole character
    (b"s/\xc3*\xa9//\n", [(1, 3, b"\xc3")]), (b"s/\xed\xa0\x80*//\n", [(1, 5, b"\x80")]), (b"s/\xc0\xaf*//\n", [(1, 4, b"\xaf")]),
    (b"s/\xc3\xa9\xa9*//\n", [(1, 5, b"\xa9")]), (b"y/\xa9\xc3/\xc3\xa9/\n", [(1, 3, b"\xa9")]), (b"y/ab/c\xe9/\n", [(1, 7, b"\xe9")]),
    (b"s/\x7f*//;y/\x7f/a/\n", []),
    (b"s/\xc3\xa9/e/\n", []), (b"s/[\xc3\xa9]*//\n", []), (b"s/\\(\xc3\xa9\\)*//\n", []), (b"s/\xc3\xa9a*//\n", []), (b"s/a*/\xc3\xa9*/\n", []),
    (b"a\\\n\xc3\xa9*\n", []), (b"# \xc3\xa9*\ny/ab/ba/\n", []),
    # parts of characters that aren't repeated, in expressions alone
    (b"s/\\(\\(\xff\\)\\{3\\}\\)//\n", [(1, 7, b"\xff")]), (b"s/\xc3//\n", [(1, 3, b"\xc3")]), (b"s/\\(x*\\).\xc3/\\1\xc3/\n", [(1, 10, b"\xc3")]),
    (b"/a\xa9/p\n", [(1, 3, b"\xa9")]), (b"s/\xe2\x82x//\n", [(1, 3, b"\xe2")]), (b"s/\xc3\xa9\xe2\x82//\n", [(1, 5, b"\xe2")]),
    (b"s/\xc3\\(\xa9\\)//\n", [(1, 3, b"\xc3")]), (b"s/[\xc3]//\n", []), (b"s/a/\xc3/\n", []), (b"s/\xf0\x9f\x98\x80\xe2\x82\xac\xc3\xa9//\n", []),
]

# A script that isn't accepted, and its status.
OTHERS = [(b":a\nb a\n", 1), (b"w /x\n:a\ns/x/y/\nta\n", 1), (b"b z\n", 2), (b"r a\np p\n", 2)]

# An accepted script, and the place and the code of each warning on how it looks.
LOOKS = [
    (b"s/[0-9]+/x/\n", [(1, 8, EXTENDED)]),
    (b"s/(a|b)c/x/\n", [(1, 5, EXTENDED)]),
    (b"/(ab)?c/d\n", [(1, 6, EXTENDED)]),
    (b"1,\\,.+,d\n", [(1, 6, EXTENDED)]),
    (b"s/[a-z]{2}/x/\n", [(1, 8, EXTENDED)]),
    (b"p\ns/[]|]?x/y/\ns/.+//\n", [(2, 7, EXTENDED)]),
    (b"#!/bin/sed -Ef\np\n", [(1, 1, OPTIONS)]),
    (b"#!/usr/bin/env -S sed -i -f\np\n", [(1, 1, OPTIONS)]),
    (b"#!/bin/sed --posix -f\np\n", [(1, 1, OPTIONS)]),
    (b":a\n$!{N;ba}\n", [(2, 8, BRACE)]),
    (b"/x/{s/a/b/;t}\n", [(1, 13, BRACE)]),
    (b"/x/{s/a/b/;t }\n", [(1, 14, BRACE)]),
    # ordinary scripts
    (b"#!/bin/sed -nf\np\n", []), (b"#!/usr/bin/sed -f\np\n", []), (b"#!/usr/bin/env -S sed -n -f\np\n", []), (b"#n\np\n", []),
    (b"s/+/ /g;s/c++/C/;s/1+1/2/\n", []), (b"s/?.*//;s/what?/x/\n", []), (b"s/ | /,/;s|(a)|b|\n", []), (b"s/(a)/b/\n", []), (b"s/\\(a\\)\\{1,\\}//\n", []),
    (b"s/[+?|]/x/\n", []), (b"s/\\.+/x/;s/\\.?//\n", []), (b"s/[]+]*//\n", []), (b"s/x/.+/\n", []), (b"a\\\n[a]+ (a|b)\n", []), (b"y/.+/xy/\n", []),
    (b"s/f(x)/g/;s/a|b/c/\n", []), (b"s/${a}/b/\n", []), (b"# [0-9]+\np\n", []), (b"$!{N;ba\n}\n:a\n", []), (b"{b a;}\n:a\n", []),
    (b"{b a }\n:a\n", []), (b"w (a|b)+\n", []),
]

# A refused text that is none of sed, and the beginning of its message.
NONE = [
    (b"#!/bin/sh\nset -e\n", "the first line names a program other than sed"),
    (b"#!/usr/bin/env python3\nprint(1)\n", "the first line names a program other than sed"),
    (b"# a comment\n\nprefix=/usr\nsed s/a/b/ x\n", "this looks like a shell script or a makefile"),
    (b"set -e\n", "this looks like a shell script or a makefile"),
    (b"CC := cc\n", "this looks like a shell script or a makefile"),
    (b"sed -n 's/a/b/p' x\n", "this looks like a shell script or a makefile"),
    (b"prog: prog.c\n\tcc prog.c\n", "this looks like a makefile"),
]


def errors(tools, words):
    """The status, the answer, and place and code of each error."""
    status, report, _ = tools.explain("--format", "json", *words)
    made = json.loads(report)
    tools.same("status of %r" % (words,), made["status"], status)
    found = [(finding["position"]["line"], finding["position"]["column"], finding["code"]) for finding in made["findings"] if finding["level"] == "error"]
    return status, made["answer"], found


def check_denials(tools):
    """Each set of denials of each script: nothing is found but what is denied, and no no becomes a yes."""
    subsets = [subset for size in range(1, 7) for subset in itertools.combinations(DENIALS, size)]
    for script, found in ACCEPTED:
        tools.write("d.sed", script)
        tools.same("%r without a denial" % script, errors(tools, ["d.sed"]), (0, "accepted", []))
        for subset in subsets:
            due = sorted(place for word in subset for place in found.get(word, []))
            status, answer, made = errors(tools, ["--deny", ",".join(subset), "d.sed"])
            tools.same("%r, %s" % (script, subset), (status, answer, sorted(made)), (1, "denied", due) if due else (0, "accepted", []))
    for script, status in OTHERS:
        tools.write("d.sed", script)
        plain = tools.explain("--format", "json", "d.sed")
        tools.same("status of %r" % script, plain[0], status)
        for subset in subsets:
            tools.same("%r, %s" % (script, subset), tools.explain("--format", "json", "--deny", ",".join(subset), "d.sed"), plain)


# A script, and its warnings: line, column and code, worked out by hand.
WARNED = [
    (b"s/\xc3\xa9*/x/\ni text\n", [(1, 3, "locale"), (2, 1, "one-line-text")]),
    (b"i text\nr /etc/motd\nw ../o\n", [(1, 1, "one-line-text"), (2, 1, "absolute-name"), (3, 1, "upward-name")]),
    (b"s/[0-9]+/x/\ns/[\\t]//\n", [(1, 8, "looks-extended"), (2, 4, "backslash-in-list")]),
    (b"y/a-z/A-Z/\n", [(1, 1, "range-in-y")]),
    (b"p\n", []),
]


def check_codes(tools):
    """Each warning that is denied by its code, alone and after it was allowed, with and without all others: in whatever order."""
    codes = sorted({code for _, warned in WARNED for _, _, code in warned})
    sets = ([], ["locale"], ["one-line-text", "absolute-name"], codes)
    for script, warned in WARNED:
        tools.write("d.sed", script)
        for number, denied in enumerate(([], ["warnings"], *([code] for code in codes), codes[:2], codes[2:])):
            for allowed in sets:
                words = [[word for code in denied for word in ("--deny", code)], ["--allow=" + ",".join(allowed)] if allowed else []]
                words = sum(words if number % 2 else words[::-1], [])
                status, report, _ = tools.explain("--format", "json", *words, "d.sed")
                findings = [(finding["level"], finding["position"]["line"], finding["position"]["column"], finding["code"]) for finding in json.loads(report)["findings"]]
                due = [("error", *place, "denied-warnings") for *place, code in warned if ("warnings" in denied or code in denied) and code not in allowed]
                due += [("warning", *row) for row in warned]
                tools.same("%r, %s" % (script, words), (status, sorted(row for row in findings if row[0] != "note")), (1 if "denied-warnings" in sum(due, ()) else 0, sorted(due)))


def check_comments(tools):
    """A comment silences what isn't denied, and nothing else: what the caller allows is the script's to ignore."""
    tools.write("d.sed", b"# sedck: ignore one-line-text absolute-name\ni text\nw /x\n")
    for words, status, shown in (([], 0, []), (["--deny", "one-line-text"], 1, ["one-line-text"]), (["--deny", "locale"], 0, []),
                                 (["--deny", "warnings"], 1, ["one-line-text", "absolute-name"]),
                                 (["--deny", "warnings", "--allow", "one-line-text"], 1, ["absolute-name"]),
                                 (["--deny", "warnings", "--allow", "one-line-text,absolute-name"], 0, []), (["--allow", "one-line-text"], 0, [])):
        made, report, _ = tools.explain("--format", "json", *words, "d.sed")
        found = [finding["code"] for finding in json.loads(report)["findings"] if finding["level"] == "warning"]
        tools.same("comments under %s" % words, (made, sorted(found)), (status, sorted(shown)))


def check_words(tools):
    """Codes that can be denied are those that can be allowed; each that is unknown is refused with a list of them."""
    tools.write("d.sed", b"p\n")
    said = [tools.explain(option, "none", "d.sed") for option in ("--deny", "--allow")]
    listed = [re.search(rb"\[possible values: ([^\]]*)\]", errors_said)[1].decode().split(", ") for _, _, errors_said in said]
    tools.same("statuses of unknown codes", [(status, report) for status, report, _ in said], [(3, b"")] * 2)
    tools.same("codes that are listed", listed[0], [*DENIALS, *listed[1]])
    for code in listed[1]:
        tools.same(code, tools.explain("--format", "gcc", "--deny", code, "--allow", code, "d.sed"), (0, b"", b""))
    for words in (["--allow", "warnings"], ["--allow", "reads"], ["--allow", "loop-idle"], ["--deny", "no-bound"], ["--deny", "known-value"], ["--allow", "locale,"],
                  ["--allow", ""], ["--allow"], ["--deny", "Locale"]):
        status, report, errors_said = tools.explain(*words, "d.sed")
        tools.same("refused %r" % words, (status, report, errors_said.startswith(b"sedck-explain: ")), (3, b"", True))
    # Of a call the warning of what is overwritten is one of them.
    for words, status in ((["--deny", "in-place"], 1), (["--deny", "warnings"], 1), (["--deny", "warnings", "--allow", "in-place"], 0), (["--deny", "locale"], 0)):
        tools.same("a call under %s" % words, tools.explain("--format", "gcc", *words, "--sed", "--", "-i", "p", "f")[0], status)


def check_slow(tools):
    """What `--deny slow` makes of slow scripts."""
    for script, slow in SLOW:
        tools.write("d.sed", script)
        due = (1, "denied", [(*slow, "denied-slow")]) if slow else (0, "accepted", [])
        tools.same("%r, slow" % script, errors(tools, ["--deny", "slow", "d.sed"]), due)


def check_references(tools):
    """What `--deny references` makes of references in expressions, which no other denial looks at."""
    for script, places in REFERENCES:
        tools.write("d.sed", script)
        due = (1, "denied", [(*place, "denied-references") for place in places]) if places else (0, "accepted", [])
        tools.same("%r, references" % script, errors(tools, ["--deny", "references", "d.sed"]), due)
        tools.same("%r, other denials" % script, b"denied-references" in tools.explain("--format", "gcc", "--deny", "reads,slow", "d.sed")[1], False)


def check_bytes(tools):
    """The warnings of bytes that are parts of characters in a locale of UTF-8."""
    for script, warned in BYTES:
        tools.write("d.sed", script)
        status, report, _ = tools.explain("--format", "json", "d.sed")
        found = [(finding["position"]["line"], finding["position"]["column"], script[finding["position"]["offset"]:finding["end"]["offset"]])
                 for finding in json.loads(report)["findings"] if finding["code"] == LOCALE]
        tools.same("bytes of %r" % script, (status, found), (0, warned))
        tools.same("%r, denied" % script, tools.explain("--format", "gcc", "--deny", "warnings", "d.sed")[0], 1 if warned else 0)
        # A comment that tries to hide it is warned of itself.
        tools.write("ignoring.sed", b"# sedck: ignore locale\n" + script)
        shown = [LOCALE] * len(warned) + ["unknown-code"]
        report = json.loads(tools.explain("--format", "json", "ignoring.sed")[1])
        tools.same("%r, ignored" % script, [finding["code"] for finding in report["findings"] if finding["code"] in shown], shown)
        tools.same("%r, ignored in C" % script, b"[locale]" in tools.explain("--format", "gcc", "--locale", "C", "ignoring.sed")[1], False)
        for name in ("C", "POSIX", "C.UTF-8"):
            tools.same("%r, denied, in %s" % (script, name), tools.explain("--format", "gcc", "--locale", name, "--deny", "warnings", "d.sed")[0], 1 if warned and name == "C.UTF-8" else 0)


def check_texts(tools):
    """The report for people, for editors and for browsers, and words that deny nothing known."""
    tools.write("d.sed", b"p\nw out\n")
    said = 'd.sed:2:1: error: this writes "out", which `--deny writes` forbids [denied-writes]\n'
    tools.same("text of a denial", tools.explain("--deny", "writes", "d.sed"), (1, (said + (
        "   2 | w out\n     | ^^^^^\n     = see: docs/TRUST.md#scripts-of-strangers\nd.sed: denied, though every run ends\n"
        "  steps: at most 4 a line, plus 1; for 1,000 lines of 80 bytes at most 4,001\n  memory: each space at most as long as the input\n"
        "  reads: no file\n  writes: \"out\" (2:1)\n")).encode(), b""))
    tools.same("gcc of a denial", tools.explain("--format", "gcc", "--deny=writes", "d.sed"), (1, said.encode(), b""))
    status, report, _ = tools.explain("--format", "html", "--deny", "reads,writes", "d.sed")
    tools.same("html of a denial", (status, b"Denied, though every run of the script ends." in report), (1, True))
    for words in (["--deny", "all", "d.sed"], ["--deny", "reads,", "d.sed"], ["--deny", "", "d.sed"], ["--deny", "Reads", "d.sed"], ["--deny"],
                  ["--deny", "reads", "--deny", "every", "d.sed"]):
        status, report, errors_said = tools.explain(*words)
        tools.same("refused %r" % words, (status, report, errors_said.startswith(b"sedck-explain: ")), (3, b"", True))


def check_looks(tools):
    """The warnings on how a script looks, which change no status."""
    for script, due in LOOKS:
        tools.write("d.sed", script)
        status, report, _ = tools.explain("--format", "json", "d.sed")
        found = [(finding["position"]["line"], finding["position"]["column"], finding["code"]) for finding in json.loads(report)["findings"]
                 if finding["code"] in (EXTENDED, OPTIONS, BRACE)]
        tools.same("looks of %r" % script, (status, found), (0, due))


def check_no_scripts(tools):
    """Texts that are no scripts of sed are said to be none, and keep the code and the place of their fault."""
    for text, message in NONE:
        tools.write("d.sed", text)
        status, report, _ = tools.explain("--format", "json", "d.sed")
        finding = json.loads(report)["findings"][0]
        tools.same("status of %r" % text, (status, finding["level"]), (2, "error"))
        tools.holds("message of %r: %s" % (text, finding["message"]), finding["message"].startswith(message))
        tools.holds("hint of %r" % text, "docs/RECIPES.md" in finding["hint"])


def check(tools: Tools) -> None:
    """Compares statuses, findings and texts."""
    check_denials(tools)
    check_codes(tools)
    check_comments(tools)
    check_words(tools)
    check_slow(tools)
    check_references(tools)
    check_bytes(tools)
    check_texts(tools)
    check_looks(tools)
    check_no_scripts(tools)
