"""Where findings end, in which order they are, and comments in a script that ignore warnings and notes."""
import json

from explain_tools import Tools

# A script, and what each of its findings is about: the code, and the bytes from the position to the end.
RANGES = [
    (b"k\n", [("unknown-command", b"k")]),
    (b"1~2p\n", [("unknown-command", b"~")]),
    (b"1", [("unknown-command", b"")]),
    (b"1\np\n", [("unknown-command", b"")]),
    (b"4294967296p\n", [("bad-address", b"4294967296")]),
    (b"1,+2p\n", [("bad-address", b"+")]),
    (b"1,2q\n", [("too-many-addresses", b"q")]),
    (b"p\n s/a/b  \np\n", [("unterminated", b"s/a/b")]),
    (b"s/a/\\1/\n", [("bad-replacement", b"\\1")]),
    (b"s/a/\\q/\n", [("bad-replacement", b"\\q")]),
    (b"s/a/b/I\n", [("bad-flag", b"I")]),
    (b"y/a\\t/bc/\n", [("bad-transliteration", b"\\t")]),
    (b"y/a/bc/\n", [("bad-transliteration", b"y")]),
    (b"1a\n", [("missing-text", b"a")]),
    (b"s/a/b/w\n", [("missing-name", b"w")]),
    (b":a;:a\n", [("duplicate-label", b"a")]),
    (b":two\nb\n:two\n", [("duplicate-label", b"two")]),
    (b"b end;p\n", [("unknown-label", b"end")]),
    (b"{b end}\n", [("unknown-label", b"end")]),
    (b"p\n}\n", [("unopened-block", b"}")]),
    (b"1{\np\n", [("unclosed-block", b"{")]),
    (b"{" * 65 + b"}" * 65, [("too-deep", b"{")]),
    (b"p p\n", [("extra-text", b"p")]),
    (b"s//x/\n", [("no-previous-expression", b"/")]),
    (b"s.a\\.b.c.\n", [("escaped-delimiter", b"\\.")]),
    (b"s/a\\+b/x/\n", [("bad-escape", b"\\+")]),
    (b"/\\sx/p\n", [("bad-escape", b"\\s")]),
    (b"s/[/]/x/\n", [("unclosed-bracket", b"[")]),
    (b"s/a[b[:alpha]c/x/\n", [("unclosed-bracket", b"[b[:alpha]c")]),
    (b"s/[z-a]/x/\n", [("bad-bracket", b"z-a")]),
    (b"s/[a[:letter:]]/x/\n", [("bad-bracket", b"[:letter:]")]),
    (b"s/a[^[:cntrl:]\x01-\xff]b/x/\n", [("empty-set", b"[^[:cntrl:]\x01-\xff]")]),
    (b"s/\\(a/x/\n", [("unclosed-group", b"\\(")]),
    (b"s/a\\)/x/\n", [("unopened-group", b"\\)")]),
    (b"s/a\\{256\\}b/x/\n", [("bad-interval", b"\\{256\\}")]),
    (b"s/a\\{2/x/\n", [("bad-interval", b"\\{")]),
    (b"s/\\{2\\}/x/\n", [("nothing-to-repeat", b"\\{2\\}")]),
    (b"s/a*\\{2\\}b/x/\n", [("double-repeat", b"\\{2\\}")]),
    (b"s/a**/x/\n", [("double-repeat", b"*")]),
    (b"s/\\1/x/\n", [("bad-reference", b"\\1")]),
    (b"s/\\(a\\)*\\(b\\)\\2/x/\n", [("bad-reference", b"\\2")]),
    (b"s/\\(^a\\)*b/x/\n", [("nothing-to-repeat", b"^")]),
    # the whole command, but no blanks behind it and no second line
    (b":a\n  1!b a ;p\n", [("loop-idle", b":a"), ("label-to-the-line-end", b";p")]),
    (b"p\n:a\ns/x/xx/g ;ta\n", [("loop-growing", b"s/x/xx/g")]),
    (b"G\nx\n", [("no-space-bound", b"G")]),
    (b"p\nG\n:a\ns/x//\nta\n", [("no-bound", b"G")]),
    (b"p;H\n", [("no-space-bound", b"H")]),
    (b"p;w /x\ny/a/b/\n", [("absolute-name", b"w /x")]),
    (b"s/a/b\\\nc/w ../x y\n", [("upward-name", b"s/a/b\\"), ("no-space-bound", b"s/a/b\\")]),
    (b"s/[0-9]+/x/\n", [("looks-extended", b"+")]),
    (b"#!/bin/sed -Ef\np\n", [("options-in-first-line", b"#!/bin/sed -Ef")]),
    (b"#!/bin/sed -fn\np\n", [("options-in-first-line", b"#!/bin/sed -fn")]),
    (b"#!/bin/sed -nf\np\n", []),
    (b"#!/opt/sed-4.9 -Ef\np\n", [("options-in-first-line", b"#!/opt/sed-4.9 -Ef")]),
    (b":a\n$!{N;ba}\n", [("brace-behind-label", b"}"), ("label-to-the-line-end", b"}")]),
    (b":a; $!{N;ba\n}\n", [("label-to-the-line-end", b"; $!{N;ba")]),
    (b":twelvemonth\nn\nb twelvemonths\n:  twelvemonths \n", [("long-labels", b":  twelvemonths")]),
    (b"s/x\xc3\xa9*/y/\n", [("locale", b"\xc3\xa9")]),
    (b"p;s/[ \\t]*$//\n", [("backslash-in-list", b"\\t")]),
    (b"s/x[^:alpha:]y/z/\n", [("class-without-list", b"[^:alpha:]")]),
    (b"s/[:[b:]/z/\n", [("class-without-list", b"[:[b:]")]),
    (b"$y/a-z/A-Z/ ;p\n", [("range-in-y", b"y/a-z/A-Z/")]),
    (b"# sedck: ignore no-such, bad-flag\np\n", [("unknown-code", b"no-such"), ("unknown-code", b"bad-flag")]),
    # A comment that ignores nothing: with another word, without a code, or after a command.
    (b"# sedck: allow one-line-text\np\n", [("unknown-code", b"allow")]),
    (b"# sedck: one-line-text\np\n", [("unknown-code", b"one-line-text")]),
    (b"#sedck:ignore\np\n", [("unknown-code", b"ignore")]),
    (b"p # sedck: ignore one-line-text\n", [("unknown-code", b"ignore")]),
    (b"# sedck:\np\n", [("unknown-code", b"# sedck:")]),
    (b"p #sedck: \t\n", [("unknown-code", b"#sedck: \t")]),
    (b"# sedckx: allow a\n# see sedck: allow b\np\n", []),
    (b"p\n $!a hello \np\n", [("one-line-text", b"a hello")]),
    (b"s/a/b/\n#now\n", [("silencing-comment", b"#n")]),
]

# An accepted script, and the line, the column and the code of each warning on how it looks.
TEXT, COMMENT, EXTENDED = "one-line-text", "silencing-comment", "looks-extended"
ESCAPE, CLASS, RANGE = "backslash-in-list", "class-without-list", "range-in-y"
LABEL, LONG = "label-to-the-line-end", "long-labels"
LOOKS = [
    # what follows a label of `:`, `b` or `t` on its line: the first one alone
    (b":a;n\n$!ba;n\n", [(1, 3, LABEL)]), (b":a\nn\n$!b a ; n\n", [(3, 7, LABEL)]), (b"s/a/b/;t;p\n", [(1, 9, LABEL)]), (b"1{p;b;}\n", [(1, 6, LABEL)]),
    (b"1{p;t }\n", [(1, 7, "brace-behind-label"), (1, 7, LABEL)]), (b"p;b e # end\n:e\n", [(1, 7, LABEL)]), (b":e;", [(1, 3, LABEL)]), (b"b;\n", [(1, 2, LABEL)]),
    (b":a\nn\n$!b a \n", []), (b"1{b\n}\ns/a/b/;t\n:b\t", []), (b"w b;p\n", [(1, 1, "command-in-name")]), (b"s/b;nn/:a;t/;y/b;/;b/;a\\\n:b;n\n", []), (b"# :a;n\np;d;n\n", []),
    # labels that are alike in their first 8 bytes: the first one alone
    (b":abcdefgh1\np\nb abcdefgh2\n:abcdefgh2\n", [(4, 1, LONG)]), (b":abcdefgh\n\t: abcdefghi\n:abcdefghj\n", [(2, 2, LONG)]),
    (b":x\n:before-2\n:after-12\n:after-13\n:before-21\n", [(5, 1, LONG)]),
    (b":abcdefg1\n:abcdefg2\n:Abcdefg1\n:abcdefg\n:a\n:b\n", []), (b"n\nb abcdefgh1\n:abcdefgh1\n# :abcdefgh2\nw :abcdefgh3\n", []),
    # a `+` that ends an expression, behind a byte that isn't meant with it
    (b"s/ +$//\n", [(1, 4, EXTENDED)]), (b"s/a+$//\n", [(1, 4, EXTENDED)]), (b"/0+$/d\n", [(1, 3, EXTENDED)]), (b"1,/-+$/d\n", [(1, 5, EXTENDED)]),
    (b"s/c++$//;s/^+$//;s/a+\\$//;s/$+$//\n", []), (b"s/c++/C/;s/1+1/2/;s/a+b//;s/a+$b//\n", []),
    # parentheses with an operator, next to an anchor
    (b"s/^(.*)$/x/\n", [(1, 4, EXTENDED)]), (b"s/^([a-z]*)=(.*)$/x/\n", [(1, 4, EXTENDED)]), (b"s/x([0-9]*)$/y/\n", [(1, 11, EXTENDED)]),
    (b"s/f(x)/g/;s/^(define x)/y/;s/(a)$/b/;s/(.*)/x/;s/f([a-z]*)/g/\n", []), (b"s/^(\\(.*\\))$/\\1/;s/^(a\\{2\\}b*)//\n", []),
    (b"s/\\^([a-z]*)//;s/([a-z]*)\\$//;s/^[(]a*)//;s/^\\(a*\\)$//\n", []),
    # bars next to an anchor
    (b"/^#|^$/d\n", [(1, 4, EXTENDED)]), (b"/^$|^#/d\n", [(1, 4, EXTENDED)]), (b"s/a$|b//\n", [(1, 5, EXTENDED)]),
    (b"s/^|//;s/|$//;s/ | /,/;s/a|b/c/;s/\\$|x//;s/[$|]x//\n", []),
    # a bare `$` before a bar or a `)`, which GNU sed takes for an anchor
    (b"s/|$|/x/\n", [(1, 4, EXTENDED)]), (b"s/^$|=1//\n", [(1, 4, EXTENDED)]), (b"s/a$)b/X/\n", [(1, 4, EXTENDED)]), (b"/x$)[0-9]*;/d\n", [(1, 3, EXTENDED)]),
    (b"s/(a$)*b/x/\n", [(1, 5, EXTENDED)]), (b"s/a\\$)b/X/;s/[$)]b//;s|a$|b|;s/$a)//\n", []),
    # intervals without backslashes
    (b"s/a{3}/x/\n", [(1, 4, EXTENDED)]), (b"s/ab{2,}/x/\n", [(1, 5, EXTENDED)]), (b"s/-{2,3}/x/\n", [(1, 4, EXTENDED)]), (b"s/ {4}/x/\n", [(1, 4, EXTENDED)]),
    (b"s/${x}//;s/${1}//;s/a{b}//;s/a{,2}//;s/{3}//;s/a{3//;s/a{3,x}//\n", []), (b"s/\\\\hspace{2}//;s/@sp{3}//;s/#{1}//;s/%{1}//;s/\\*{3}//\n", []),
    # a question mark in a word
    (b"s/colou?r/x/\n", [(1, 8, EXTENDED)]), (b"/https?:/d;/favou?rite/d\n", [(1, 18, EXTENDED)]),
    (b"/why?/d;s/what? no/x/;s/page?id=1//;s/?a/x/;s/a?1/x/;s/index.php?name=//;s/[a]b?/x/\n", []),
    # the first one alone
    (b"s/a+$//\ns/b+$//\ns/[a]+//\n", [(1, 4, EXTENDED)]),
    # texts on the line of their command: the first one alone
    (b"a hello\n", [(1, 1, TEXT)]), (b"p;$!ihello\nc x\n", [(1, 5, TEXT)]), (b"1{\nc\\hello\n}\n", [(2, 1, TEXT)]), (b"a \t\\  x\n", [(1, 1, TEXT)]),
    (b"a\\\n  x\np\ni\t\\\na x\n", []), (b"# a hello\n:a\n$!{N;b a\n}\ns/a x/i y/\n", []), (b"w a x\n", []),
    # comments that BusyBox takes for `#n`
    (b"s/a/b/\n#now replace\n", [(2, 1, COMMENT)]), (b"s/a/b/;#now\n", [(1, 8, COMMENT)]), (b"{\n  #n\np\n}\n", [(2, 3, COMMENT)]), (b"{p;}#now\n", [(1, 5, COMMENT)]),
    (b"{#now\np\n}\n", [(1, 2, COMMENT)]), (b"#nx\np\n", [(1, 1, COMMENT)]), (b" #n\np\n", [(1, 2, COMMENT)]), (b"\n#n\np\n", [(2, 1, COMMENT)]), (b"p #n\n", [(1, 3, COMMENT)]),
    (b"p#n", [(1, 2, COMMENT)]), (b"y/a/b/ #n\n", [(1, 8, COMMENT)]), (b"b e #n\n:e #n\n", [(1, 5, COMMENT), (2, 4, COMMENT), (1, 5, LABEL)]), (b"#n\n#n\np\n", [(2, 1, COMMENT)]),
    (b"#x\n#now\n# now\n#now\n", [(2, 1, COMMENT), (4, 1, COMMENT)]), (b"w f\n#n\n", [(2, 1, COMMENT)]), (b"s/a/b/w f\n#n\n", [(2, 1, COMMENT)]),
    (b"#n\np\n", []), (b"#n", []), (b"s/a/b/ #now\ns/a/b/#now\ns/a/b/p #n\n", []), (b"# now\n##n\n#N\n#\n", []), (b"a\\\n#now\np\n", []), (b"s/aa/#n/;s/#n/a/\n", []),
    (b"w a #n\n", [(1, 1, "command-in-name")]), (b"s/a/b/ #x\n;#n\n", [(2, 2, COMMENT)]), (b"s/a/\\\n#now/\n", [(1, 1, "no-space-bound")]),
    (b"#n\n" * 150, [(line, 1, COMMENT) for line in range(2, 102)]),
    # an escape in a list, which GNU sed reads as one byte: the first one alone. `[\\n]` is a newline to all, and `\\\\` a backslash.
    (b"s/[ \\t]*$//\n", [(1, 5, ESCAPE)]), (b"p\n1,/[^\\r\\t]/p\n", [(2, 6, ESCAPE)]), (b"s/[]\\v]x[\\f]//\n/[\\a]/p\n", [(1, 5, ESCAPE)]),
    (b"s/[[:alpha:]\\t]//\n", [(1, 13, ESCAPE)]), (b"\\,[\\t],p\n", [(1, 4, ESCAPE)]),
    (b"s/[\\n]//;s/[\\\\t]//;s/[t\\]//;s/[\\]t//;s/\\t//;s/xyz/[\\t]/\n", []), (b"# [\\t]\na\\\n[\\t]\n", []),
    # a class without the list around it, which GNU sed refuses: the first one alone
    (b"s/[:alpha:]/x/\n", [(1, 3, CLASS)]), (b"/x/,/a[^:digit:]/d\n/[:x:]/p\n", [(1, 7, CLASS)]), (b"s/[:A9:]*//\n", [(1, 3, CLASS)]),
    (b"s/[:a]//;s/[a:]//;s/[::]//;s/[:a-c:]//;s/[:]//;s/[[:alpha:]]//;s/:alpha://\n", []),
    # what would be ranges in both lists of `y`
    (b"y/a-z/A-Z/\n", [(1, 1, RANGE)]), (b"p;1y/0-9ab/xa-zy/;y/a-c/A-C/\n", [(1, 4, RANGE)]),
    (b"y/-a/a-/;y/a-z/abc/;y/xyz/A-C/;y/z-a/Z-A/;y/a-Z/A-z/;y/1-a/2-b/\n", []),
]

# A script with findings of several levels, in the order of the report.
ORDERED = [
    (b"G\nw /x\n", ["absolute-name", "no-space-bound"]),
    (b"s/[0-9]+/xx/\nr /a\nw ../b\n", ["looks-extended", "absolute-name", "upward-name"]),
    (b":a\nw /x\nba\n", ["loop-idle", "absolute-name"]),
    (b"# sedck: ignore x\n:a\nba\n", ["loop-idle", "unknown-code"]),
]

# A script that tries to ignore what a yes rests on, and the codes that are reported.
KEPT = [
    (b"# sedck: ignore label-to-the-line-end long-labels locale\n:abcdefgh1;s/\xc3\xa9*//\n:abcdefgh2\n",
     ["locale", "unknown-code", "unknown-code", "unknown-code", "label-to-the-line-end", "long-labels"]),
    (b"#!/bin/sed -Ef\n# sedck: ignore options-in-first-line\np\n", ["options-in-first-line", "unknown-code"]),
    (b"# sedck: ignore backslash-in-list,range-in-y\ns/[\\t]*$//\ny/a-c/A-C/\n", ["backslash-in-list", "range-in-y", "unknown-code", "unknown-code"]),
    (b"s/[:alpha:]/x/\n# sedck: ignore class-without-list\n", ["class-without-list", "unknown-code"]),
    (b"# sedck: ignore names-itself writes-its-input\nw other\n", ["unknown-code", "unknown-code"]),
]

# A script; the codes that are reported, and those where warnings are denied as well, without the errors of the denial.
IGNORED = [
    (b"# sedck: ignore absolute-name\nw /x\n", [], ["absolute-name"]),
    (b"w /x\n \t#sedck:ignore\tabsolute-name\n", [], ["absolute-name"]),
    (b"w /x\nG\n# sedck: ignore no-space-bound,absolute-name", [], ["absolute-name", "no-space-bound"]),
    (b"# sedck: ignore no-bound,absolute-name\nw /x\nG\n:a\ns/x//\nta\n", [], ["absolute-name", "no-bound"]),
    (b"# sedck: ignore no-space-bound , upward-name\nw /../x\nG\n", ["absolute-name"], ["absolute-name", "upward-name", "no-space-bound"]),
    (b"# sedck: ignore absolute-name absolute-name\nr /y\nw /x\n", [], ["absolute-name", "absolute-name"]),
    (b"{\n# sedck: ignore absolute-name\nw /x\n}\n", [], ["absolute-name"]),
    (b"1{;p;}\n# sedck: ignore absolute-name\nw /x\n", [], ["absolute-name"]),
    # what ignores nothing, of which comments are warned of
    (b"#sedck: absolute-name\nw /x\n", ["absolute-name", "unknown-code"], ["absolute-name", "unknown-code"]),
    (b"# sedck: ignored absolute-name\nw /x\n", ["absolute-name", "unknown-code"], ["absolute-name", "unknown-code"]),
    (b"# sedck: ignore\nw /x\n", ["absolute-name", "unknown-code"], ["absolute-name", "unknown-code"]),
    (b"p # sedck: ignore absolute-name\nw /x\n", ["absolute-name", "unknown-code"], ["absolute-name", "unknown-code"]),
    (b"p;# sedck: ignore absolute-name\nw /x\n", ["absolute-name", "unknown-code"], ["absolute-name", "unknown-code"]),
    (b"a\\\n# sedck: ignore absolute-name\nw /x\n", ["absolute-name"], ["absolute-name"]),
    (b"s/a/\\\n# sedck: ignore absolute-name/\nw /x\n", ["absolute-name", "no-space-bound"], ["absolute-name", "no-space-bound"]),
    (b"w /x # sedck: ignore absolute-name\n", ["absolute-name", "command-in-name"], ["absolute-name", "command-in-name"]),
    # codes that can't be ignored: those of errors, and those of what a yes rests on
    (b"# sedck: ignore loop-idle\n:a\nba\n", ["loop-idle", "unknown-code"], ["loop-idle", "unknown-code"]),
    (b"# sedck: ignore Absolute-Name\nw /x\n", ["absolute-name", "unknown-code"], ["absolute-name", "unknown-code"]),
    (b"# sedck: ignore typo unknown-code\np\n", [], ["unknown-code"]),
    *((script, due, due) for script, due in KEPT),
]


def report(tools, words):
    """The object of a report on one script."""
    return json.loads(tools.explain("--format", "json", *words)[1])


def check_ranges(tools):
    """The bytes that each finding is about."""
    for script, due in RANGES:
        tools.write("f.sed", script)
        found = []
        for finding in report(tools, ["f.sed"])["findings"]:
            start, end = finding["position"], finding["end"]
            found.append((finding["code"], script[start["offset"]:end["offset"]]))
            tools.same("line and column of an end in %r" % script, (end["line"], end["column"] - start["column"]),
                       (start["line"], end["offset"] - start["offset"]))
        tools.same("ranges in %r" % script, found, due)


def check_looks(tools):
    """The warnings of scripts that look as if something else was meant, and of ordinary ones none."""
    for script, due in LOOKS:
        tools.write("f.sed", script)
        found = [(finding["position"]["line"], finding["position"]["column"], finding["code"]) for finding in report(tools, ["f.sed"])["findings"]]
        tools.same("looks of %r" % script, found, due)


def check_order(tools):
    """Errors, then warnings, then notes."""
    for script, due in ORDERED:
        tools.write("f.sed", script)
        tools.same("order in %r" % script, [finding["code"] for finding in report(tools, ["f.sed"])["findings"]], due)


def check_ignored(tools):
    """What a comment ignores changes no status, and nothing where warnings are denied."""
    for script, due, denied in IGNORED:
        tools.write("f.sed", script)
        plain = report(tools, ["f.sed"])
        tools.same("ignored in %r" % script, [finding["code"] for finding in plain["findings"]], due)
        tools.same("status of %r" % script, plain["status"], 1 if "loop-idle" in due else 0)
        strict = report(tools, ["--deny", "warnings", "f.sed"])
        tools.same("denied in %r" % script, [finding["code"] for finding in strict["findings"] if finding["code"] != "denied-warnings"], denied)
        tools.same("status of %r with a denial" % script, strict["status"], 1)


def check_numbers(tools):
    """One byte is a byte."""
    for script, due in ((b"s/x*/y/\n", "it has 1 byte, and a match may have only 0"), (b"s/x*/yy/\n", "it has 2 bytes, and a match may have only 0")):
        tools.write("f.sed", script)
        (finding,) = report(tools, ["f.sed"])["findings"]
        tools.same("bytes of %r" % script, finding["steps"][0]["message"].split(": ")[-1], due)


def check(tools: Tools) -> None:
    """Compares ranges, orders, and what is left of findings."""
    check_numbers(tools)
    check_ranges(tools)
    check_looks(tools)
    check_order(tools)
    check_ignored(tools)
