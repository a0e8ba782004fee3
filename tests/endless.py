#!/usr/bin/env python3
"""Runs scripts on the lines on which they are said never to end: python3 tests/endless.py build/sedck-explain [COUNT [SEED]]

Each script that the tests have, and COUNT drawn loops (300), are explained. Where a loop's message says that the script never ends on some
lines, GNU sed must run on these lines until it is stopped. Of each script in `ROWS` it must be said, or must not be said, and of each call
with `-z` in `ZERO_ROWS`, whose lines end with a byte 0. The status is 0 only where everything is as it should be.
"""
import json
import os
import random
import re
import subprocess
import sys
import tempfile
from concurrent.futures import ThreadPoolExecutor

from followed import all_scripts, explained

SAID = re.compile(r"in the POSIX locale the script never ends on the lines? (`[^`]*`(?: and `[^`]*`)?) with (a newline|newlines|a byte 0|bytes 0)$")
# A script, and whether there are short lines on which it never ends, by reading it.
ROWS = [
    (":a\nba\n", True), (":a\np\nba\n", True), (":a;s/x/x/;ta\n", True), (":a;s/b*/b/;ta\n", True), ("/x/!{:a\nba\n}\n", True), ("/^foo$/{:a\nba\n}\n", True),
    (":a;x;ba\n", True), ("G;:a;s/x/&/;ta\n", True), ("$!d;:a;ba\n", True), ("1d;:a;ba\n", True), (":a;y/ab/ba/;ba\n", True), ("2{:a\nba\n}\n", True),
    (":a;s/ab/ba/;s/ba/ab/;ta\n", True), (":a;s/\\(a\\)\\(b\\)*/\\1\\2/;ta\n", True), (":a\n/^$/ba\n", True), (":a\n/[0-9][0-9]*$/ba\n", True),
    ("h;:a;G;s/\\n.*//;ta\n", True), (":a;s/^x/x/;ta\n", True), (":a;s/x$/x/;ta\n", True), (":a;s/x/x/2;ta\n", False),
    # Autoconf's loop over the numbers of lines, shortened.
    (":loop\ns/^\\([^;]*\\)[$]LINENO\\([^a-z]\\)/\\1$LINENO\\2/\ntloop\n", True),
    # By bytes no `x` is matched, and in UTF-8 each is, so that the script ends there.
    ("/x\u00c3\u00a9*/!{:a\nba\n}\n", False),
    # Texts that grow exponentially, and intervals of intervals of nothing: both are looked at for a moment only.
    (":a\n" + "G\nH\n" * 30 + "ba\n", False), ("/\\(a\\)$/s/.\\(b*\\)^/b/g\n:m\n2!H\nG\nbm\n", False),
    (":a\ns/" + "\\(" * 8 + "x*" + "\\)\\{255\\}" * 8 + "/x/\nba\n", False),
    # GNU sed ends the first one on the line `x`, and what is known of ranges is nothing. The others end on every input, or always grow.
    (":a;1,/x/ba\n", False), ("/a/,/b/{:a\nba\n}\n", False),
    (":a;s/x/y/;ta\n", False), (":a;s/^.\\{1,9\\}$/ &/;ta\n", False), (":a;s/^ *x/x/2;ta\n", False), (":a;s/x/xx/;ta\n", False), (":a;G;ba\n", False),
    # GNU sed takes a `$` before a `)` or a bar for an anchor, and has the text of a group in a repeated one begin in an earlier round.
    (":a;/^$)*$/ba\n", False), (":a;/$)*{/ba\n", False), (":a;/a$|b/!ba\n", False), ("/^aa/!b\ns/^\\(a\\(b*\\)*\\)*$/\\1/\n/^a$/!b\n:x\nbx\n", False),
    # A call may have another locale, where `x` is in the list; the message says of which it speaks.
    (":a;/[@-Z]/!ba\n", True),
    (":a;s/ab/ba/;ta\n", False), ("/a/{/b/!{/a/!{:a\nba\n}\n}\n}\n", False), ("1!{$!{1{:a\nba\n}\n}\n}\n", False),
]
# With `-z` sed puts a byte 0 where these commands put or look for a newline in the model, so nothing is known of scripts that have one.
ZERO_ROWS = [(":a;ba", True), (":a;s/x/x/;ta", True), ("$!d;:a;ba", True), (":a;G;s/\\n.*//;ta", False), ("H;:a;ba", False), (":a;$!N;ba", False), ("P;:a;ba", False),
             (":a;s/^/x/;D;ba", False)]


def said_in(report):
    """The lines on which the script is said never to end, and with what they end, or None."""
    for finding in report.get("findings", []):
        match = SAID.search(finding["message"])
        if match:
            return re.findall(r"`([^`]*)`", match[1]), match[2]
    return None


def said_of(explain, script):
    """The lines on which the script is said never to end, or None. They end with newlines."""
    said = said_in(explained(explain, script))
    if said and (len(said[0]), said[1]) not in ((1, "a newline"), (2, "newlines")):
        return [repr(said)]
    return said and said[0]


def check_zeros(explain):
    """What is wrong in what is said of calls with `-z`."""
    for script, due in ZERO_ROWS:
        done = subprocess.run([explain, "--format", "json", "--sed", "--", "-z", script], stdin=subprocess.DEVNULL, stdout=subprocess.PIPE, check=False)
        said = said_in(json.loads(done.stdout))
        if (said is not None) != due:
            yield "-z %r: it is said that %s" % (script, said)
        elif said and (said[1] not in ("a byte 0", "bytes 0") or ends(script, said[0], "-z")):
            yield "-z %r: GNU sed ends on %s" % (script, said)


def ends(script, lines, option="-s"):
    """Whether GNU sed comes to an end on the lines, within a second and a limit on what it prints."""
    with tempfile.TemporaryDirectory(prefix="sedck-endless-") as folder:
        path = os.path.join(folder, "loop.sed")
        with open(path, "w", encoding="latin-1", newline="") as file:
            file.write(script)
        with open(os.path.join(folder, "out"), "wb") as out:
            words = ["sh", "-c", 'ulimit -f 2000; exec timeout 1 sed "$2" -f "$1"', "sh", path, option]
            given = "".join(line + ("\0" if option == "-z" else "\n") for line in lines).encode()
            status = subprocess.run(words, cwd=folder, input=given, stdout=out, stderr=subprocess.PIPE, timeout=30, check=False,
                                    env={"PATH": os.environ["PATH"], "LC_ALL": "C"}).returncode
    # 124 of `timeout`; the others are what the limit on its output ends with.
    return status not in (124, 153, -25, 4)


def drawn_loop(rng):
    """A loop of a few commands that read nothing."""
    def expression():
        return "".join(rng.choice(["a", "b", "x", ".", "a*", "x*", "[ab]", "\\(a\\)", "\\(b*\\)"]) for _ in range(rng.randint(1, 3)))

    def command():
        where = rng.choice(["", "", "", "$", "1", "$!", "/%s/" % expression(), "/%s/!" % expression()])
        what = rng.choice(["s/%s/%s/" % (expression(), rng.choice(["", "a", "b", "x", "&", "ab"])), "x", "G", "h", "H", "y/ab/ba/", "p", "g", "D", "ta", "N"])
        return where + what

    body = [command() for _ in range(rng.randint(1, 4))]
    before = [command() for _ in range(rng.randint(0, 2))]
    return "\n".join([*[one for one in before if not one.endswith("ta")], ":a", *body, rng.choice(["ba", "ta", "$!ba", "/x/ba"])]) + "\n"


def main():
    explain = sys.argv[1]
    count = int(sys.argv[2]) if len(sys.argv) > 2 else 300
    rng = random.Random(int(sys.argv[3]) if len(sys.argv) > 3 else 1)
    scripts = list(dict.fromkeys(all_scripts() + [row[0] for row in ROWS] + [drawn_loop(rng) for _ in range(count)]))
    with ThreadPoolExecutor(os.cpu_count()) as pool:
        said = dict(zip(scripts, pool.map(lambda script: said_of(explain, script), scripts)))
        found = [(script, lines) for script, lines in said.items() if lines is not None]
        ended = list(pool.map(lambda run: ends(*run), found))
    faults = ["%r: GNU sed ends on %r" % (*run, ) for run, is_over in zip(found, ended) if is_over]
    faults += ["%r: %s" % (script, "no lines are named" if due else "lines are named: %r" % said[script]) for script, due in ROWS if (said[script] is not None) != due]
    faults += check_zeros(explain)
    for fault in faults:
        print("endless: " + fault)
    print("endless: %d scripts, %d of them with lines on which they never end, %d failures" % (len(scripts), len(found), len(faults)))
    if not found:
        return 1
    return 1 if faults else 0


if __name__ == "__main__":
    sys.exit(main())
