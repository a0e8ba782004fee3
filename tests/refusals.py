"""Refuses each request for memory in turn: the first, the second, and so on, until a run meets no refusal.

usage: refusals.py PROBE SEDCK SHIM SEDCK_EXPLAIN

PROBE is crates/sedck_probe as built, which makes one call twice and prints both answers; SEDCK is the program itself; SHIM is
refuse.c as built. The first answer of a call must be out of memory alone, by the name that the call has for it, or the expected
one; the second, with ample memory, must be the expected one. SEDCK must end with status 4, its line for out of memory and no
report, or as expected. SEDCK_EXPLAIN must end with status 4, its line for out of memory and the reports of the first scripts, whole, or
as without a refusal, with what tests/explain.py compares. What is expected of the others was worked out by hand from the rules of docs/GRAMMAR.md, docs/FORMATS.md and docs/FAULTS.md.
"""

import concurrent.futures
import os
import subprocess
import sys
import tempfile

# ---- Scripts, certificates and reports

NEXT_LINE = ":a;N;b a"
SHORTENING = ":a;s/x//;ta"
JOINING = ":a;$!{N;ba};s/\\n/ /g"
HOLDING = ":a;H;s/x//;ta;x"
WRITING = "s/a/b/w out.txt\nq\nw log\n"
IDLE = ":a;b a"
MOVING = ":a;s/\\(.*\\)  \\(.*\\)/\\1 \\2/;ta"
GROWING = ":a;s/x/xx/;ta"
READING = "r x"


def both(ranks: dict[str, str]) -> dict[str, str]:
    """The ranks of the nodes of version 1, each given to both nodes of version 2."""
    return {f"{node} {last}": ranks[node] for node in ranks for last in (0, 1)}


def certificate(commands: int, ranks: dict, reads: tuple = (), writes: tuple = (), version: int = 2) -> str:
    """The text of the certificate with these ranks, by node; the other nodes have none."""
    ends = ["0", "1"] if version == 1 else ["0 0", "0 1", "1 0", "1 1"]
    nodes = [f"{at} {end}" for at in range(commands + 1) for end in ends]
    assert set(ranks) <= set(nodes)
    lines = [f"sedck {version}", f"commands {commands}"]
    lines += [f"{node} {ranks.get(node, '-')}" for node in nodes]
    lines += [f"read {len(reads)}", *reads, f"write {len(writes)}", *writes, "end"]
    return "".join(line + "\n" for line in lines)


def versions(commands, ranks, **lists):
    """The texts of a certificate of version 1, and of the one that it is upgraded to."""
    return certificate(commands, ranks, **lists, version=1), certificate(commands, both(ranks), **lists)


NEXT_LINE_OLD, NEXT_LINE_RANKS = versions(3, {"0 0": "2 2", "1 0": "1 1", "2 0": "3 3"})
SHORTENING_OLD, SHORTENING_RANKS = versions(3, {"0 0": "5 4", "1 0": "5 3", "2 0": "2 2", "2 1": "5 5", "3 0": "1 1"})
JOINING_RANKS = certificate(
    5,
    {
        "0 0 0": "3 3",
        "0 0 1": "5 5",
        "1 0 0": "2 2",
        "1 0 1": "4 4",
        "2 0 0": "1 1",
        "3 0 0": "4 4",
        "3 0 1": "6 6",
        "4 0 1": "3 3",
        "5 0 1": "1 1",
        "5 1 1": "1 1",
    },
)
HOLDING_OLD, HOLDING_RANKS = versions(
    5,
    {"0 0": "7 5", "1 0": "7 4", "2 0": "7 3", "3 0": "3 2", "3 1": "7 6", "4 0": "2 1", "5 0": "1 1"},
)
WRITING_OLD, WRITING_RANKS = versions(3, {"0 0": "3 3", "1 0": "1 1", "1 1": "1 1"}, writes=("log", "out.txt"))
READING_OLD, READING_RANKS = versions(1, {"0 0": "2 2", "1 0": "1 1"}, reads=("x",))
UNNAMED_OLD, UNNAMED_RANKS = versions(1, {"0 0": "2 2", "1 0": "1 1"})
assert len(NEXT_LINE_OLD) == 92 and len(WRITING_OLD) == 104 and len(NEXT_LINE_RANKS) == 178

# each certificate of version 1 and the one that it is upgraded to
OLD = [
    (NEXT_LINE_OLD, NEXT_LINE_RANKS),
    (SHORTENING_OLD, SHORTENING_RANKS),
    (HOLDING_OLD, HOLDING_RANKS),
    (WRITING_OLD, WRITING_RANKS),
    (READING_OLD, READING_RANKS),
    (UNNAMED_OLD, UNNAMED_RANKS),
]

NO_NAMES = "read 0\nwrite 0\n"
WRITTEN_NAMES = "read 0\nwrite 2\nlog\nout.txt\n"
READ_NAMES = "read 1\nx\nwrite 0\n"

# script, its certificate, the line of the bound, the commands, the parts of a replacement with the groups and the least length of
# its expression, and the names
RANKED = [
    (NEXT_LINE, NEXT_LINE_RANKS, "bound 4 20 4\n", "commands 3\n", NO_NAMES),
    (SHORTENING, SHORTENING_RANKS, "bound 6 42 6\n", "commands 3\nparts 0 groups 0 least 1\n", NO_NAMES),
    (JOINING, JOINING_RANKS, "bound 7 56 7\n", "commands 5\nparts 1 groups 0 least 1\n", NO_NAMES),
    (MOVING, SHORTENING_RANKS, "bound 6 42 6\n", "commands 3\nparts 3 groups 2 least 2\n", NO_NAMES),
    (HOLDING, HOLDING_RANKS, "", "commands 5\nparts 0 groups 0 least 1\n", NO_NAMES),
    (WRITING, WRITING_RANKS, "bound 4 20 4\n", "commands 3\nparts 1 groups 0 least 1\n", WRITTEN_NAMES),
    (READING, READING_RANKS, "bound 3 12 3\n", "commands 1\n", READ_NAMES),
]

# every part of a script that takes memory: escaped delimiters, sets, intervals, lists of bytes, blocks, and each name once
PARTS = """#n
/[ab]/,\\,c\\{2\\},y/a\\/b/cde/
s,x\\,y\\(z\\),&\\1\\n\\t-,2w f
r g
r f
1!{p
r g
}
b
"""
READ_PARTS = "commands 8\nparts 5 groups 1 least 4\nread 2\nf\ng\nwrite 1\nf\n"

# where its commands stand
READ_LOCATIONS = "3 19 30\n31 31 56\n57 57 60\n61 61 64\n65 67 68\n68 68 69\n70 70 73\n76 76 77\n"

REFUSED_SCRIPTS = [
    ("s/[/]/x/", "fault 6 bad-expression at 2: expression fault 3 unclosed-bracket at 0"),
    ("s/a\\+/b/", "fault 6 bad-expression at 2: expression fault 2 bad-escape at 1"),
    ("/a**/p", "fault 6 bad-expression at 1: expression fault 10 double-repeat at 2"),
    ("b z", "fault 15 unknown-label at 2"),
    ("{p", "fault 17 unclosed-block at 0"),
    ("s.a\\.b.c.", "fault 22 escaped-delimiter at 3"),
    ("s//z/", "fault 21 no-previous-expression at 2"),
    ("s/a/\\1/", "fault 8 bad-replacement at 4"),
    ("s/a/b/gg", "fault 9 bad-flag at 7"),
    ("y/ab/c/", "fault 10 bad-transliteration at 0"),
    (":a;:a", "fault 14 duplicate-label at 4"),
    ("1,2q", "fault 5 too-many-addresses at 3"),
    ("0p", "fault 4 bad-address at 0"),
    ("p q", "fault 20 extra-text at 2"),
    ("s/a/b", "fault 7 unterminated at 0"),
    ("w", "fault 12 missing-name at 0"),
    ("a", "fault 11 missing-text at 0"),
    ("}", "fault 16 unopened-block at 0"),
]

EXPRESSIONS = [
    ("x", "groups 0 least 1"),
    ("\\n", "groups 0 least 1"),
    ("a", "groups 0 least 1"),
    ("\\(.*\\)  \\(.*\\)", "groups 2 least 2"),
    ("\\(ab\\)\\{2,3\\}c*\\1", "groups 1 least 6"),
    ("\\(\\(.\\)\\2\\)\\{255\\}", "groups 2 least 510"),
    ("[]x]", "groups 0 least 1"),
    ("[", "fault 3 unclosed-bracket at 0"),
    ("a\\+", "fault 2 bad-escape at 1"),
    ("a**", "fault 10 double-repeat at 2"),
]

IDLE_LOOP = "loop idle\n0 0 0 keep\n1 0 0 keep\n0 0 0\n"
GROWING_LOOP = "loop growing\n1 0 0 grow\n2 1 0 keep\n0 0 0 keep\n1 0 0\n"

GRAPHS = [
    (
        NEXT_LINE,
        "commands 3\n0 0 0 1 0 0 keep\n0 0 1 1 0 1 keep\n0 1 0 1 1 0 keep\n0 1 1 1 1 1 keep\n1 0 0 2 0 0 consume\n"
        "1 0 0 2 0 1 consume\n1 1 0 2 0 0 consume\n1 1 0 2 0 1 consume\n1 1 0 2 1 0 consume\n1 1 0 2 1 1 consume\n"
        "2 0 0 0 0 0 keep\n2 0 1 0 0 1 keep\n2 1 0 0 1 0 keep\n2 1 1 0 1 1 keep\n3 0 0 0 0 0 consume\n"
        "3 0 0 0 0 1 consume\n3 1 0 0 0 0 consume\n3 1 0 0 0 1 consume\n",
    ),
    (
        SHORTENING,
        "commands 3\n0 0 0 1 0 0 keep\n0 0 1 1 0 1 keep\n0 1 0 1 1 0 keep\n0 1 1 1 1 1 keep\n1 0 0 2 0 0 keep\n"
        "1 0 0 2 1 0 shorten\n1 0 1 2 0 1 keep\n1 0 1 2 1 1 shorten\n1 1 0 2 1 0 shorten\n1 1 0 2 1 0 keep\n"
        "1 1 1 2 1 1 shorten\n1 1 1 2 1 1 keep\n2 0 0 3 0 0 keep\n2 0 1 3 0 1 keep\n2 1 0 0 0 0 keep\n2 1 1 0 0 1 keep\n"
        "3 0 0 0 0 0 consume\n3 0 0 0 0 1 consume\n3 1 0 0 0 0 consume\n3 1 0 0 0 1 consume\n",
    ),
    (
        JOINING,
        "commands 5\n0 0 0 1 0 0 keep\n0 0 1 1 0 1 keep\n0 1 0 1 1 0 keep\n0 1 1 1 1 1 keep\n1 0 0 2 0 0 keep\n"
        "1 0 1 4 0 1 keep\n1 1 0 2 1 0 keep\n1 1 1 4 1 1 keep\n2 0 0 3 0 0 consume\n2 0 0 3 0 1 consume\n"
        "2 1 0 3 0 0 consume\n2 1 0 3 0 1 consume\n2 1 0 3 1 0 consume\n2 1 0 3 1 1 consume\n3 0 0 0 0 0 keep\n"
        "3 0 1 0 0 1 keep\n3 1 0 0 1 0 keep\n3 1 1 0 1 1 keep\n4 0 0 5 0 0 keep\n4 0 0 5 1 0 keep\n4 0 1 5 0 1 keep\n"
        "4 0 1 5 1 1 keep\n4 1 0 5 1 0 keep\n4 1 1 5 1 1 keep\n5 0 0 0 0 0 consume\n5 0 0 0 0 1 consume\n"
        "5 1 0 0 0 0 consume\n5 1 0 0 0 1 consume\n",
    ),
    (
        HOLDING,
        "commands 5\n0 0 0 1 0 0 keep\n0 0 1 1 0 1 keep\n0 1 0 1 1 0 keep\n0 1 1 1 1 1 keep\n1 0 0 2 0 0 keep\n"
        "1 0 1 2 0 1 keep\n1 1 0 2 1 0 keep\n1 1 1 2 1 1 keep\n2 0 0 3 0 0 keep\n2 0 0 3 1 0 shorten\n2 0 1 3 0 1 keep\n"
        "2 0 1 3 1 1 shorten\n2 1 0 3 1 0 shorten\n2 1 0 3 1 0 keep\n2 1 1 3 1 1 shorten\n2 1 1 3 1 1 keep\n"
        "3 0 0 4 0 0 keep\n3 0 1 4 0 1 keep\n3 1 0 0 0 0 keep\n3 1 1 0 0 1 keep\n4 0 0 5 0 0 grow\n4 0 1 5 0 1 grow\n"
        "4 1 0 5 1 0 grow\n4 1 1 5 1 1 grow\n5 0 0 0 0 0 consume\n5 0 0 0 0 1 consume\n5 1 0 0 0 0 consume\n"
        "5 1 0 0 0 1 consume\n",
    ),
    (
        WRITING,
        "commands 3\n0 0 0 1 0 0 keep\n0 0 0 1 1 0 keep\n0 0 1 1 0 1 keep\n0 0 1 1 1 1 keep\n0 1 0 1 1 0 keep\n"
        "0 1 1 1 1 1 keep\n2 0 0 3 0 0 keep\n2 0 1 3 0 1 keep\n2 1 0 3 1 0 keep\n2 1 1 3 1 1 keep\n3 0 0 0 0 0 consume\n"
        "3 0 0 0 0 1 consume\n3 1 0 0 0 0 consume\n3 1 0 0 0 1 consume\n",
    ),
    (
        MOVING,
        "commands 3\n0 0 0 1 0 0 keep\n0 0 1 1 0 1 keep\n0 1 0 1 1 0 keep\n0 1 1 1 1 1 keep\n1 0 0 2 0 0 keep\n"
        "1 0 0 2 1 0 shorten\n1 0 1 2 0 1 keep\n1 0 1 2 1 1 shorten\n1 1 0 2 1 0 shorten\n1 1 0 2 1 0 keep\n"
        "1 1 1 2 1 1 shorten\n1 1 1 2 1 1 keep\n2 0 0 3 0 0 keep\n2 0 1 3 0 1 keep\n2 1 0 0 0 0 keep\n2 1 1 0 0 1 keep\n"
        "3 0 0 0 0 0 consume\n3 0 0 0 0 1 consume\n3 1 0 0 0 0 consume\n3 1 0 0 0 1 consume\n",
    ),
]

# ---- The calls, each with the answer expected, and its names for out of memory

OF_EXPRESSION = ["fault 14 out-of-memory\n"]
OF_SCRIPT = ["fault 23 out-of-memory\n"]
OF_CERTIFICATE = ["fault 6 out-of-memory\n"]
OF_OLD = ["fault 6 out-of-memory\n", "out of memory\n"]
OF_TEXTS = ["script fault 23 out-of-memory\n", "certificate fault 6 out-of-memory\n"]
OF_SEARCH = ["script fault 23 out-of-memory\n", "out of memory\n"]
OF_ENGINE = ["out of memory\n"]


def calls():
    """Each call as its arguments, the expected answer and the names for out of memory."""
    for text, answer in EXPRESSIONS:
        yield ["expression", text], answer + "\n", OF_EXPRESSION
    yield ["script", PARTS], READ_PARTS, OF_SCRIPT
    yield ["locate", PARTS], READ_LOCATIONS, OF_SCRIPT
    for text, fault in REFUSED_SCRIPTS:
        for call in ("script", "locate"):
            yield [call, text], fault + "\n", OF_SCRIPT
        for call in ("verify", "judge"):
            yield [call, text, NEXT_LINE_RANKS], f"script {fault}\n", OF_TEXTS
        yield ["check", text, NEXT_LINE_RANKS], f"script {fault}\n", OF_ENGINE
        for engine in ("files", "graph", "rank"):
            yield [engine, text], f"script {fault}\n", OF_ENGINE
    for old, text in OLD:
        yield ["certificate", text], text, OF_CERTIFICATE
        yield ["old", old], text, OF_OLD
        for either in (old, text):
            yield ["either", either], text, OF_CERTIFICATE
            yield ["upgrade", either], f"{text}yes\n", OF_ENGINE
    for text, line in ((NEXT_LINE_OLD + "\n", 14), (NEXT_LINE_OLD[:-1], 13)):
        fault = f"fault 5 bad-end at line {line}\n"
        yield ["old", text], fault, OF_OLD
        yield ["either", text], fault, OF_CERTIFICATE
        yield ["upgrade", text], "certificate " + fault, OF_ENGINE
        yield ["check", NEXT_LINE, text], "certificate " + fault, OF_ENGINE
    yield ["verify", NEXT_LINE, NEXT_LINE_OLD], "accepted\n", OF_TEXTS
    yield ["check", WRITING, WRITING_OLD], f"accepted\nbound 4 20 4\n{WRITTEN_NAMES}yes\n", OF_ENGINE
    yield from answered_calls()


def answered_calls():
    """The same of scripts that have ranks, a graph, a rejected certificate, or a loop."""
    for script, text, bound, commands, names in RANKED:
        yield ["script", script], f"{commands}{names}", OF_SCRIPT
        yield ["verify", script, text], "accepted\n", OF_TEXTS
        yield ["judge", script, text], f"accepted\n{bound}{commands}{names}{text}", OF_TEXTS
        yield ["search", script], text, OF_SEARCH
        yield ["check", script, text], f"accepted\n{bound}{names}yes\n", OF_ENGINE
        yield ["files", script], f"{names}yes\n", OF_ENGINE
        yield ["rank", script], f"{text}yes\n", OF_ENGINE
    for script, graph in GRAPHS:
        yield ["graph", script], f"{graph}yes\n", OF_ENGINE
    yield ["verify", READING, UNNAMED_RANKS], "reads-differ\n", OF_TEXTS
    yield ["judge", READING, UNNAMED_RANKS], f"reads-differ\ncommands 1\n{READ_NAMES}{UNNAMED_RANKS}", OF_TEXTS
    yield ["check", READING, UNNAMED_RANKS], "rejected 5 reads-differ\nno\n", OF_ENGINE
    yield ["search", IDLE], "idle\n0 0 0\n1 0 0\n0 0 0\nkeep\nkeep\n", OF_SEARCH
    yield ["rank", IDLE], f"{IDLE_LOOP}no\n", OF_ENGINE
    yield ["search", GROWING], "growing\n1 0 0\n2 1 0\n0 0 0\n1 0 0\ngrow\nkeep\nkeep\n", OF_SEARCH
    yield ["rank", GROWING], f"{GROWING_LOOP}no\n", OF_ENGINE


# ---- The program: its arguments, the texts of its files, and the status, the report and the line on standard error expected


def programs():
    """Each run of the program."""
    for script, text, bound, _, names in RANKED:
        files = {"script": script, "certificate": text}
        yield ["check", "script", "certificate"], files, (0, f"accepted\n{bound}{names}", "")
        yield ["files", "script"], files, (0, names, "")
        yield ["rank", "script"], files, (0, text, "")
    for old, text in OLD:
        for either in (old, text):
            yield ["upgrade", "certificate"], {"certificate": either}, (0, text, "")
    files = {"script": WRITING, "certificate": WRITING_OLD}
    yield ["check", "script", "certificate"], files, (0, f"accepted\nbound 4 20 4\n{WRITTEN_NAMES}", "")
    for script, graph in GRAPHS:
        yield ["graph", "script"], {"script": script}, (0, graph, "")
    yield ["rank", "script"], {"script": IDLE}, (1, IDLE_LOOP, "")
    yield ["rank", "script"], {"script": GROWING}, (1, GROWING_LOOP, "")
    files = {"script": READING, "certificate": UNNAMED_RANKS}
    yield ["check", "script", "certificate"], files, (1, "rejected 5 reads-differ\n", "")
    for script, fault in REFUSED_SCRIPTS:
        yield ["rank", "script"], {"script": script}, (2, "", f"sedck: script {fault}\n")
    files = {"script": NEXT_LINE, "certificate": NEXT_LINE_RANKS + "\n"}
    for words in (["check", "script", "certificate"], ["upgrade", "certificate"]):
        yield words, files, (2, "", "sedck: certificate fault 5 bad-end at line 22\n")
    usage = "sedck: usage: sedck rank SCRIPT, check SCRIPT CERT, files SCRIPT, graph SCRIPT, upgrade CERT\n"
    yield ["check", "script"], {"script": NEXT_LINE}, (3, "", usage)
    yield ["rank", "script"], {}, (4, "", "sedck: cannot read script\n")


# ---- The program sedck-explain: its arguments after the format, the texts of its files, and its status

EXPLAINED = [
    (["script"], {"script": NEXT_LINE}, 0),
    (["script"], {"script": PARTS}, 0),
    (["script"], {"script": "r ../a b \nw /dev/tty;\nr /x\nw /x\n$!N\nG\n"}, 0),
    (["script"], {"script": "w ./F\nr F\nw .x'\n#now\na x\ny/\xe9/a/\n"}, 0),
    (["--deny", "slow,warnings,references", "script"], {"script": "s/\\(a\\)\\1*//\ns/\\(a\\{255\\}\\)\\{9\\}\xe9*//\n"}, 1),
    (["script"], {"script": IDLE}, 1),
    (["script"], {"script": GROWING}, 1),
    (["script"], {"script": ":a\n$!N\ns/a/b/\nba\n"}, 1),
    (["script"], {"script": "p\n\ts/a\\/b\\+/x/\n"}, 2),
    (["script"], {"script": "p;" * 200 + "b z"}, 2),
    (["--cert", "certificate", "script"], {"script": WRITING, "certificate": WRITING_OLD}, 0),
    (["--cert", "certificate", "script"], {"script": IDLE, "certificate": UNNAMED_RANKS}, 1),
    (["--cert", "certificate", "script"], {"script": READING, "certificate": UNNAMED_RANKS}, 1),
    (["--cert", "certificate", "script"], {"script": "p", "certificate": certificate(1, {"0 0 0": "2 2", "0 0 1": "1 1", "1 0 0": "1 1"})}, 1),
    (["--cert", "certificate", "script"], {"script": "p", "certificate": "sedck 2\ncommands x\n"}, 2),
    (["--cert", "certificate", "script"], {"script": "p"}, 4),
    (["script"], {}, 4),
    ([], {}, 0),
    (["--wrong"], {}, 3),
    (["--help"], {}, 3),
    (["--sed", "--", "-ne", "$!N", "-f", "script", "-i", "x"], {"script": "p"}, 0),
    (["--sed", "--", "-Ez", "p"], {}, 2),
    (["--sed", "--", "--nonsense"], {}, 2),
    (["--sed", "--", "-f", "script"], {}, 4),
    (["--deny", "writes", "--sed", "--", "-i", "p", "x"], {}, 1),
    (["--sed"], {}, 3),
]
CALLS = "#!/bin/sh\nSED='sed -n'\n$SED 's/a/b/w out' f; sed \"s/$a/[$b]/\" | xargs sed ':x;bx'\nsed -f f `sed -E p`; sh -c 'sed s/a'\ncat <<E | sed -f -\n$(sed --x)\nE\n"
IN_FILES = [
    (["--calls", "run"], {"run": CALLS}, 2),
    (["--deny", "writes", "--calls", "Makefile"], {"Makefile": "S = s/a/b/\nall: a\n\t@sed '$(S)' $< | \\\n\t  sed 'w out'\nX := $(shell sed p f)\n"}, 1),
    (["--assume", "a=b", "--calls", "."], {"a.sh": "sed \"s/$a/c/\"\n", "b.yml": "- run: |\n    sed 's/a/b/' f\n", "c": "sed p\n"}, 0),
    (["--as", "docker", "--calls", "x"], {"x": "RUN sed p \\\n  f\n"}, 0),
    (["--as", "spec", "--calls", "x"], {"x": "%prep\nsed 's/%%/b/' %{name}\n"}, 5),
    (["--as", "m4", "--calls", "x"], {"x": "dnl a\nx=`sed p f`\n"}, 0),
    (["--calls", "none"], {}, 4),
    (["--calls"], {}, 3),
]
SEVERAL = {"one": NEXT_LINE, "two": IDLE, "three": "b z"}


def explained():
    """Each run of the program: its words, its files, its status, and the scripts whose reports may stand alone."""
    yield ["--help"], {}, 0, []
    for form in ("text", "gcc", "json", "sarif", "html", "dot", "sed"):
        for words, files, status in EXPLAINED:
            yield ["--format", form, *words], files, status, []
        if form in ("text", "gcc", "json"):
            for words, files, status in IN_FILES:
                yield ["--format", form, *words], files, status, []
            yield ["--format", form, *SEVERAL], SEVERAL, 2, list(SEVERAL)


# ---- The runs

REFUSED = "refused\n"
BEFORE, DURING, NEVER = range(3)


class Wrong(Exception):
    """A run that isn't as expected."""


def run(program, shim, words, request, folder=".", errors=subprocess.STDOUT):
    """The status of a run with this request refused, and what it prints: both streams in order, unless they are apart. Request 0 is none."""
    done = subprocess.run(
        [os.path.abspath(program), *words],
        cwd=folder,
        env={**os.environ, "LD_PRELOAD": os.path.abspath(shim), "REFUSE": str(request)},
        stdin=subprocess.DEVNULL,
        stdout=subprocess.PIPE,
        stderr=errors,
        timeout=60,
        check=False,
    )
    return done.returncode, done.stdout.decode("utf-8", "surrogateescape"), (done.stderr or b"").decode("utf-8", "surrogateescape")


def parts(output):
    """The two answers of a run."""
    first, mark, second = output.removeprefix("first\n").partition("again\n")
    if not output.startswith("first\n") or not mark:
        raise Wrong("no two answers")
    return first, second


def judged(output, status, expected, names):
    """Where the refusal fell, and whether the first answer is out of memory. It must be that, or as expected."""
    if output == REFUSED + "out of memory\n" and status == 4:
        return BEFORE, True
    first, second = parts(output.removeprefix(REFUSED))
    if status != 0:
        raise Wrong(f"status {status}")
    if REFUSED not in first:
        if first != expected or (REFUSED not in second and second != expected):
            raise Wrong("not the expected answer with ample memory")
        return (BEFORE if output.startswith(REFUSED) else NEVER), False
    first = first.replace(REFUSED, "", 1)
    if second != expected:
        raise Wrong("not the expected answer with ample memory after a refusal")
    if first != expected and first not in names:
        raise Wrong("neither out of memory alone nor the expected answer")
    return DURING, first in names


def call_in_turn(program, shim, words, expected, names):
    """How many requests were refused in the call, and how many of these were answered with out of memory."""
    refused = {BEFORE: 0, DURING: 0}
    answered = 0
    request = 0
    while True:
        status, output, _ = run(program, shim, words, request)
        try:
            where, out_of_memory = judged(output, status, expected, names)
            if request == 0 and (where != NEVER or REFUSED in output):
                raise Wrong("a refusal that wasn't asked for")
            if where == BEFORE and refused[DURING]:
                raise Wrong("a refusal before the call, after one in it")
            if where == NEVER and request > 0 and refused[BEFORE] == 0:
                raise Wrong("no request was refused before the call, and there must be some")
        except Wrong as wrong:
            raise Wrong(f"request {request}: {wrong}; status {status}, printed {output!r}") from None
        if where == NEVER and request > 0:
            return refused[DURING], answered
        if where != NEVER:
            refused[where] += 1
            answered += where == DURING and out_of_memory
        request += 1


def write_files(folder, files):
    """Writes the files of a run."""
    for name, text in files.items():
        with open(os.path.join(folder, name), "w", encoding="latin-1", newline="\n") as file:
            file.write(text)


def explain_in_turn(explain, shim, words, files, status, scripts):
    """How many requests were refused in all, and how many of these were answered with out of memory."""
    answered = 0
    request = 1
    with tempfile.TemporaryDirectory() as folder:
        write_files(folder, files)
        expected = run(explain, shim, words, 0, folder, subprocess.PIPE)
        if expected[0] != status:
            raise Wrong(f"status {expected[0]} with ample memory")
        wholes = {""}
        # A script that can't be read is reported at once, and then has an object in json.
        unread = expected[2] if expected[2].startswith("sedck-explain: cannot read ") else ""
        endings = {"sedck-explain: out of memory\n", unread + "sedck-explain: out of memory\n"}
        front = ""
        for script in scripts:
            front += run(explain, shim, [*words[:2], script], 0, folder, subprocess.PIPE)[1]
            wholes.add(front)
        while True:
            seen = run(explain, shim, words, request, folder, subprocess.PIPE)
            # On a line of its own: a report on standard error may end a line with that word.
            lines = seen[2].splitlines(keepends=True)
            is_refused = REFUSED in lines
            if is_refused:
                lines.remove(REFUSED)
            seen = (*seen[:2], "".join(lines))
            # Of calls in files those before are reported.
            whole = seen[1] in wholes or "--calls" in words and expected[1].startswith(seen[1]) and seen[1].endswith("\n")
            if is_refused and seen[0] == 4 and whole and seen[2] in endings:
                answered += 1
            elif seen != expected:
                raise Wrong(f"request {request}: status {seen[0]}, report {seen[1]!r}, standard error {seen[2]!r}")
            if not is_refused:
                return request - 1, answered
            request += 1


def program_in_turn(program, shim, words, files, expected):
    """How many requests were refused in all, and how many of these were answered with out of memory."""
    answered = 0
    request = 0
    with tempfile.TemporaryDirectory() as folder:
        write_files(folder, files)
        while True:
            status, report, errors = run(program, shim, words, request, folder, subprocess.PIPE)
            is_refused = errors.startswith(REFUSED)
            seen = (status, report, errors.removeprefix(REFUSED))
            if is_refused and seen == (4, "", "sedck: out of memory\n"):
                answered += 1
            elif seen != expected or is_refused and request == 0:
                raise Wrong(f"request {request}: status {status}, report {report!r}, standard error {errors!r}")
            if request > 0 and not is_refused:
                return request - 1, answered
            request += 1


def main():
    made, sedck, shim, explain = sys.argv[1:]
    jobs = []
    with concurrent.futures.ThreadPoolExecutor(os.cpu_count()) as pool:
        for words, expected, names in calls():
            jobs.append((words[0], words[1], pool.submit(call_in_turn, made, shim, ["--twice", *words], expected, names)))
        for words, files, expected in programs():
            job = pool.submit(program_in_turn, sedck, shim, words, files, expected)
            jobs.append((f"sedck {words[0]}", files.get("script", ""), job))
        for words, files, status, scripts in explained():
            job = pool.submit(explain_in_turn, explain, shim, words, files, status, scripts)
            jobs.append((f"sedck-explain {words[1] if len(words) > 1 else words[0]}", files.get("script", ""), job))
    total, failures, answered_by_kind = 0, 0, {}
    for kind, text, job in jobs:
        try:
            refused, answered = job.result()
        except Wrong as wrong:
            failures += 1
            print(f"FAILED: {kind} {text!r}: {wrong}")
            continue
        total += refused
        answered_by_kind[kind] = answered_by_kind.get(kind, 0) + answered
        print(f"{refused:4} requests refused, {answered:4} answered with out of memory: {kind} {text!r}")
    for kind, answered in answered_by_kind.items():
        if answered == 0:
            failures += 1
            print(f"FAILED: {kind}: never out of memory")
    print(f"{len(jobs)} calls, {total} requests refused in them, {failures} failures")
    sys.exit(1 if failures else 0)


if __name__ == "__main__":
    main()
