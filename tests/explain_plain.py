"""Scripts in their plain spelling: the format `sed`. That seds read it alike is tried by `make seds`."""
import os
import sys

from explain_tools import Tools

sys.path.insert(0, os.path.join(os.path.dirname(os.path.abspath(__file__)), "seds"))
from seds_draw import Grammar  # noqa: E402

# A script and its plain spelling, by the rules of GRAMMAR.md.
SPELLED = [
    (b"", b""),
    (b"#no\n", b"#no\n"),
    (b"#n\np", b"#n\np\n"),
    (b"  2 , $ ! ! { p ; n }\n", b"2,$!{\n  p\n  n\n}\n"),
    (b":a;n;ba;:c # c\nt\n", b":a\nn\nb a\n# c\n:c\nt\n"),
    (b"a hello\\\nworld\n$!d", b"a\\\nhello\\\nworld\n$!d\n"),
    (b"s|/|,|gp", b"s:/:,:gp\n"),
    (b"s|[a-z][/]|&|3pgw f\n\\,x,r  g\n", b"s,[a-z][/],&,3gpw f\n/x/r g\n"),
    (b"/a\\{0,\\}b\\{1,1\\}/d;y/\\//\\n/", b"/a*b\\{1\\}/d\ny,/,\\n,\n"),
    (b"s/[[:digit:]x-z\\n-]//", b"s/[[:digit:]x-z\\n-]//\n"),
    ("s/[éè]é/x/;s/[^ü]*$//\n".encode(), "s/[éè]é/x/\ns/[^ü]*$//\n".encode()),
    # Lists with the same bytes and other characters, and lists that are in a comment and in a text.
    ("s/[é£]/1/g;s/[©ã]/2/g\n".encode(), "s/[é£]/1/g\ns/[©ã]/2/g\n".encode()),
    (b"# [[:alpha:]]\ns/[a-zA-Z]/y/\n", b"# [[:alpha:]]\ns/[a-zA-Z]/y/\n"),
    (b"i\\\n[[:alpha:]]\ns/[a-zA-Z]/y/\n", b"i\\\n[[:alpha:]]\ns/[a-zA-Z]/y/\n"),
    (b"s/[abcd]/_/g;s/[89:;]/_/g;s/[a-c]/_/g\n", b"s/[abcd]/_/g\ns/[89:;]/_/g\ns/[a-c]/_/g\n"),
    # Each list is at its own place: of two addresses, in a group, repeated, and with its delimiter escaped.
    (b"/[ab]/,\\%[b\\%a]%s,\\([a-b]\\)*[ \\t\\,]\\{2\\},[x],\n", b"/[ab]/,/[b%a]/s/\\([a-b]\\)*[ \\t,]\\{2\\}/[x]/\n"),
    (b"s/a/b/w o\\", b"s/a/b/w o\\"),
    # A bare `$` before a `)` or a bar stays bare, one with a backslash keeps it, and any other gets one.
    (b"s/a$)b/X/;s/a\\$)b/X/\n", b"s/a$)b/X/\ns/a\\$)b/X/\n"),
    (b"$!{/x$|y/,\\,$)*z$,s|[$)]$\\(a$)$\\)$x\\$)|$)|}\n", b"$!{\n  /x$|y/,/$)*z$/s/[$)]\\$\\(a$)$\\)\\$x\\$)/$)/\n}\n"),
]

# A script, its plain spelling, and that without comments.
COMMENTED = [
    (b"#!/bin/sed -f\n# top\n\n\n/x/{ # start\n  p # print\n\t# before\n\n  } # end\n\n:a # loop\n;s/ab/b/;ta ; # again\n\n",
     b"#!/bin/sed -f\n# top\n\n# start\n/x/{\n  # print\n  p\n  # before\n  # end\n}\n\n# loop\n:a\ns/ab/b/\n# again\nt a\n",
     b"/x/{\n  p\n}\n:a\ns/ab/b/\nt a\n"),
    (b"\n\n# only", b"# only\n", b""),
    # A first line `#n` makes a script quiet, and this one isn't.
    (b"p #n\n", b"# n\np\n", b"p\n"),
    (b"#n\n#n\np;#n", b"#n\n#n\n#n\np\n", b"#n\np\n"),
    # To GNU sed and ssed a text is quiet that begins with `#n`, whatever is after it: no other comment comes to stand there.
    (b"p;#no\n", b"# no\np\n", b"p\n"),
    (b" #nice\np\n", b"# nice\np\n", b"p\n"),
    (b"\n#n x\n#no\np\n", b"# n x\n#no\np\n", b"p\n"),
    (b"#no\n#no\np\n", b"#no\n#no\np\n", b"p\n"),
    # A file that begins with `#!` is run with the options that are there: no other comment comes to stand there.
    (b"p #!/bin/sed -Ef\n", b"# !/bin/sed -Ef\np\n", b"p\n"),
    (b"\n#!/bin/sed -nf\n#!\np\n", b"# !/bin/sed -nf\n#!\np\n", b"p\n"),
    (b"#!/bin/sed -f\n#!\n{ #!\np;}\n", b"#!/bin/sed -f\n#!\n#!\n{\n  p\n}\n", b"{\n  p\n}\n"),
    (b"#n\n#!/bin/sed -f\np\n", b"#n\n#!/bin/sed -f\np\n", b"#n\np\n"),
    (b"{{p;}\n\n}#a\n#b \r\n", b"{\n  {\n    p\n  }\n#a\n}\n#b \r\n".replace(b"\n#a", b"\n  #a"), b"{\n  {\n    p\n  }\n}\n"),
    (b"a\\\n# text\n# c\\\n$!d # x\\", b"a\\\n# text\n# c\\\n# x\\\n$!d\n", b"a\\\n# text\n$!d\n"),
    (b"/[#]/s/#/[#]/w #f\n/a/y,#,b, # y", b"/[#]/s/#/[#]/w #f\n# y\n/a/y/#/b/\n", b"/[#]/s/#/[#]/w #f\n/a/y/#/b/\n"),
]

# The words, after `--format sed`, of which nothing is written: the status, and the script.
REPORTED = [
    ([], b":a;ba\n", 1),
    ([], b"s/a\\{2/x/\n", 2),
    (["--deny", "writes"], b"w f\n", 1),
    (["--deny", "warnings,slow"], b"s/\\(a\\)\\1*//\n", 1),
    (["--deny", "reads,writes,warnings,unbounded,growing,slow,references"], b"G\n", 1),
    (["--deny", "reads,writes,warnings,unbounded,growing,slow,references"], b"$!N;/^\\(.*\\)\\n\\1$/!P;D\n", 1),
    (["--cert", "empty.cert"], b"p\n", 2),
    (["--cert", "other.cert"], b"p;p\n", 1),
]

# The words of a call, its status, and its script in its plain spelling.
CALLS = [
    (["-n", "p;p"], 0, b"p\np\n"),
    (["-ne", "$p", "-e", "i\\", "-e", "x", "f"], 0, b"$p\ni\\\nx\n"),
    (["-f", "two.sed", "-e", "p"], 0, b"s/a/b/\nx\np\n"),
    (["--version"], 0, b""),
    (["-E", "p"], 2, b""),
    (["-e", ":a;ba"], 1, b""),
    (["-Q"], 2, b""),
]

FILE = b"""x=1
sed -e 's|a|b|;p' f | sed -n '$p' g
sed ":a;ba" f
sed "s/a/$1/" f
\tsed -i 'w out' f
# words are [[:alpha:]]
sed 's/[a-zA-Z]/x/;s/["'\\'']/y/' f
"""

# Where a call is in that file, and the status and the script.
PLACES = [
    ("2:1", 0, b"s/a/b/\np\n"),
    ("2:23", 0, b"$p\n"),
    ("3", 1, b""),
    ("4", 5, b""),
    ("5", 0, b"w out\n"),
    ("5:2", 0, b"w out\n"),
    ("5:1", 3, b""),
    ("2", 3, b""),
    ("1", 3, b""),
    ("6", 3, b""),
    ("7", 0, b"s/[a-zA-Z]/x/\ns/[\"']/y/\n"),
    ("x", 3, b""),
]

# Words that aren't valid.
INVALID = [
    ["one.sed", "two.sed"],
    ["--calls", "calls.sh"],
    ["--calls", "--at", "2", "calls.sh", "calls.sh"],
    ["--calls", "--at", "2"],
    ["--at", "2", "one.sed"],
    ["--at", "2", "--sed", "--", "p"],
    ["--format", "text", "--calls", "--at", "2", "calls.sh"],
]


def unspelled():
    """A script whose list names every byte that could be a delimiter but its own, `*`, which is the plain sign of a repetition."""
    named = bytes(set(range(1, 127)) - set(b"\n*-[\\]^"))
    # The replacement has those that could be escaped in a list, side by side: escaped there, each would be a part of its own.
    return b"p\n s*[]%s[\\\\^-]a\\{0,\\}*/,;!@#%%~_*\n" % named


def check(tools: Tools, count: int) -> None:
    tools.write("one.sed", b"p\n")
    tools.write("two.sed", b"s/a/b/\nx\n")
    tools.write("empty.cert", b"")
    tools.write("calls.sh", FILE)
    status, certificate, _ = tools.sedck("rank", "one.sed")
    tools.same("the certificate of another script", status, 0)
    tools.write("other.cert", certificate)
    for script, plain in SPELLED:
        spelled(tools, script, plain)
    for script, plain, bare in COMMENTED:
        spelled(tools, script, plain)
        tools.write("script.sed", script)
        tools.same("without comments: %r" % script, tools.explain("--format", "sed", "--no-comments", "script.sed"), (0, bare, b""))
        tools.same("again without comments: %r" % plain, tools.explain("--no-comments", "--format", "sed", given=plain), (0, bare, b""))
        tools.same("in a call: %r" % script, tools.explain("--format", "sed", "--sed", "--", "-f", "script.sed"), (0, bare, b""))
    for words, script, status in REPORTED:
        reported(tools, words, script, status)
    for words, status, plain in CALLS:
        found = tools.explain("--format", "sed", "--sed", "--", *words)
        tools.same("the call %r" % words, found[:2], (status, plain))
        tools.same("what is reported of the call %r" % words, found[2], b"" if status == 0 else tools.explain("--sed", "--", *words)[1])
    for place, status, plain in PLACES:
        found = tools.explain("--format", "sed", "--calls", "--at", place, "calls.sh")
        tools.same("the call at %s" % place, found[:2], (status, plain))
        tools.same("whether something is reported of the call at %s" % place, found[2] != b"", status != 0)
    for words in INVALID:
        status, out, said = tools.explain("--format", "sed", *words)
        tools.same("invalid: %r" % words, (status, out, said.startswith(b"sedck-explain: ")), (3, b"", True))
    status, out, said = tools.explain("--no-comments", "one.sed")
    tools.same("in another format", (status, out, said), (3, b"", b"sedck-explain: --no-comments is for --format sed\n"))
    tools.same("a file that isn't there", tools.explain("--format", "sed", "none.sed")[:2], (4, b""))
    tools.same("a folder", tools.explain("--format", "sed", "--calls", "--at", "1", ".")[:2], (4, b""))
    none(tools)
    check_drawn(tools, count)


def spelled(tools, script, plain):
    tools.write("script.sed", script)
    tools.same("plain spelling of %r" % script, tools.explain("--format", "sed", "script.sed"), (0, plain, b""))
    tools.same("the same by standard input", tools.explain("--format", "sed", given=script), (0, plain, b""))
    tools.same("plain again: %r" % plain, tools.explain("--format=sed", given=plain), (0, plain, b""))
    certificate = tools.sedck("rank", "script.sed")[1]
    tools.write("script.cert", certificate)
    tools.write("plain.sed", plain)
    tools.same("the same certificate for %r" % plain, tools.sedck("check", "plain.sed", "script.cert"), tools.sedck("check", "script.sed", "script.cert"))
    tools.same("with the certificate", tools.explain("--format", "sed", "--cert", "script.cert", "script.sed"), (0, plain, b""))


def reported(tools, words, script, status):
    """Nothing is written, and the report for people goes to standard error."""
    tools.write("script.sed", script)
    due = tools.explain(*words, "script.sed")
    tools.same("the status of %r with %r" % (script, words), due[0], status)
    tools.same("plain spelling of %r with %r" % (script, words), tools.explain("--format", "sed", *words, "script.sed"), (status, b"", due[1]))


def none(tools):
    """An accepted script without a plain spelling."""
    script = unspelled()
    tools.write("script.sed", script)
    tools.same("it is accepted", tools.explain("--format", "gcc", "--level", "error", "script.sed")[:2], (0, b""))
    status, out, said = tools.explain("--format", "sed", "script.sed")
    tools.same("no plain spelling", (status, out, said.split(b"\n")[0].rpartition(b" ")[2]), (2, b"", b"[no-plain-spelling]"))
    tools.same("the place of the command", said.split(b" ")[0], b"script.sed:2:2:")
    # Each command is indented by two blanks for each block around it.
    script = b"{" * 60 + b"p;" * 4000 + b"}" * 60 + b"\ni\\\n" + b"x" * 600000 + b"\n"
    tools.write("script.sed", script)
    tools.same("a long one is accepted", tools.explain("--format", "gcc", "--level", "error", "script.sed")[:2], (0, b""))
    status, out, said = tools.explain("--format", "sed", "script.sed")
    tools.same("its plain spelling is too long", (status, out, b"longer than a script may be" in said), (2, b"", True))


def check_drawn(tools, count):
    """Of scripts that are drawn: what is accepted has a plain spelling, which is its own, with the same flow graph and the same files."""
    done = 0
    draw = Grammar(7)
    for _ in range(count):
        script = draw.script()
        tools.write("script.sed", script)
        if tools.sedck("rank", "script.sed")[0] != 0:
            continue
        status, plain, said = tools.explain("--format", "sed", "script.sed")
        tools.same("plain spelling of the drawn %r" % script, (status, said), (0, b""))
        tools.write("plain.sed", plain)
        for word in ("graph", "files", "rank"):
            tools.same("%s of %r" % (word, plain), tools.sedck(word, "plain.sed"), tools.sedck(word, "script.sed"))
        tools.same("plain again: %r" % plain, tools.explain("--format", "sed", "plain.sed"), (0, plain, b""))
        done += 1
    tools.holds("some drawn scripts are accepted", done > count // 10)
