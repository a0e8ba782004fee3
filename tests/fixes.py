#!/usr/bin/env python3
"""Applies the fixes of `sedck-explain`: python3 tests/fixes.py build/sedck-explain

Each row has a script, the script that its fixes make of it, applied one after another until there is none, and inputs for which GNU
sed must print the same by both. The scripts of `WITHOUT` must get no fix: there the bytes don't say what is meant. The hints' scripts
are fixed too, and what a fix leads to must not be refused at the same place. A row of `CHARACTERS` has a script with a character of UTF-8 that
is repeated: in that locale GNU sed must print the same by it and by the fixed one, for inputs that are drawn from its bytes and its
characters, and in the locale C something else for one of them, which shows that they tell. Where the machine has no GNU sed, outputs
aren't compared. The status is 0 only where everything is as it should be.
"""
import json
import os
import subprocess
import sys
import tempfile

import drawn
from hint_rows import ROWS as HINTS
from hints import run_sed
from skips import has_gnu_sed

WORDS = ("ab\n", "a  b_c\n", "aab abb\n\nb a\n", "?+\n", "a,b,aa\n")
PATHS = ("a/b/c\n", "/\n//x\n", "a,b|c/d\n", "no\n")
SLASHES = ("a\\((b\n", "\\$b\\$$b\n", "\\b\n\\}}b\n", "(b}b\n")
NUMBERS = ("1\n2\n3\n", "aaa\nb\n", "\n")

ROWS = [
    ("byte order mark", b"\xef\xbb\xbfs/a/b/\n", b"s/a/b/\n", None),
    ("carriage returns", b"s/a/b/\r\n/x/d\r\n", b"s/a/b/\n/x/d\n", None),
    ("carriage return at the end", b"p\r", b"p", None),
    ("backslash before the exclamation mark", b"/a/\\!d\n", b"/a/!d\n", None),
    ("blank before p", b"s/a/<&>/ p\n", b"s/a/<&>/p\n", WORDS),
    ("blanks before g and a number", b"s/a/b/2 \t g\n", b"s/a/b/2g\n", WORDS),
    ("blank before a file's name", b"s/a/b/ w out\n", b"s/a/b/w out\n", WORDS),
    ("plus", b"s/a\\+b/x/\n", b"s/a\\{1,\\}b/x/\n", WORDS),
    # Neither begins with a name of a shell or of make.
    ("plus behind a text in the first line", b"1iprefix=/usr\ns/a\\+/b/\n", b"1iprefix=/usr\ns/a\\{1,\\}/b/\n", WORDS),
    ("plus behind a text in the first line, and a tab", b"1aall: prog\n\ts/a\\+/b/\n", b"1aall: prog\n\ts/a\\{1,\\}/b/\n", WORDS),
    ("plus in an address", b"/^a\\+$/d\n", b"/^a\\{1,\\}$/d\n", WORDS),
    ("question mark behind a group", b"s/\\(aa\\)\\?b/x/g\n", b"s/\\(aa\\)\\{0,1\\}b/x/g\n", WORDS),
    ("plus behind a star that is a byte", b"s/b\\*\\+/x/\n", b"s/b\\*\\{1,\\}/x/\n", WORDS),
    ("plus behind an escaped backslash and a byte", b"s/\\\\(\\+b/x/\n", b"s/\\\\(\\{1,\\}b/x/\n", SLASHES),
    ("question mark behind a backslash and a dollar sign", b"s/\\\\$\\?b/x/\n", b"s/\\\\$\\{0,1\\}b/x/\n", SLASHES),
    ("plus behind a backslash and a brace", b"s/\\\\}\\+b/x/\n", b"s/\\\\}\\{1,\\}b/x/\n", SLASHES),
    ("plus and comma", b"s,a\\+,x,g\n", b"s,a\\{1\\,\\},x,g\n", WORDS),
    ("question mark and comma", b"\\,^a\\?b,s/$/!/\n", b"\\,^a\\{0\\,1\\}b,s/$/!/\n", WORDS),
    ("space and its opposite", b"s/\\s\\S/_/g\n", b"s/[[:space:]][^[:space:]]/_/g\n", WORDS),
    ("word byte and its opposite", b"s|\\w\\W|_|g\n", b"s|[[:alnum:]_][^[:alnum:]_]|_|g\n", WORDS),
    ("several in a script", b"s/\\s\\+/ /g\ns/a\\?b/<&>/ p\n", b"s/[[:space:]]\\{1,\\}/ /g\ns/a\\{0,1\\}b/<&>/p\n", WORDS),
    ("whole match", b"s/a*/[\\0]/\n", b"s/a*/[&]/\n", WORDS),
    ("at most so many", b"s/a\\{,2\\}b/x/\n", b"s/a\\{0,2\\}b/x/\n", WORDS),
    ("brace behind a label", b"/a/{s/a/b/;b end}\ns/^/-/\n:end\n", b"/a/{s/a/b/;b end;}\ns/^/-/\n:end\n", NUMBERS),
    ("brace behind a label in a block", b"/a/{/b/{b end}}\ns/^/-/\n:end\n", b"/a/{/b/{b end;}}\ns/^/-/\n:end\n", NUMBERS),
    ("delimiter in a list", b"s/[^/]*$//\n", b"s,[^/]*$,,\n", PATHS),
    ("delimiter in the list of an address", b"/[/x]/s/$/!/\n", b"\\,[/x],s/$/!/\n", PATHS),
    ("delimiter in the list of an address with another one", b"\\,[,],s/$/!/\n", b"\\|[,]|s/$/!/\n", PATHS),
    ("delimiter in lists of several commands", b"/[/]/,/[a/]$/s/[/x]*/<&,>/g;s/[^/]/|&/\n", b"\\,[/],,\\,[a/]$,s|[/x]*|<&,>|g;s,[^/],|&,\n", PATHS),
    ("delimiter in a list and an escaped one", b"s/\\/[/]\\(a\\/\\)*/\\/\\1/\n", b"s,/[/]\\(a/\\)*,/\\1,\n", PATHS),
    ("delimiter in the list of an address and an escaped one", b"/\\/[/x]*$/s/$/!/\n", b"\\,/[/x]*$,s/$/!/\n", PATHS),
    ("delimiter in a list behind a class", b"s/[[:alpha:]][/]\\(.\\)/\\1/\n", b"s,[[:alpha:]][/]\\(.\\),\\1,\n", PATHS),
    ("comments that begin with an n", b"p\n#now\ns/a/b/;#n", b"p\n# now\ns/a/b/;# n", WORDS),
    ("brace behind a branch", b"/a/{s/a/b/;t}\ns/^/-/\n", b"/a/{s/a/b/;t;}\ns/^/-/\n", NUMBERS),
]

# A script, the script that its fixes make of it, and the status of that: in UTF-8 the first one means what the second one says.
CHARACTERS = [
    ("star", "s/xé*/<&>/\n", "s/x\\(é\\)*/<&>/\n", 0),
    ("interval", "s/é\\{2,3\\}/<&>/g\n", "s/\\(é\\)\\{2,3\\}/<&>/g\n", 0),
    ("interval and comma", "s,é\\{1\\,2\\}$,<&>,\n", "s,\\(é\\)\\{1\\,2\\}$,<&>,\n", 0),
    ("address", "/^é*$/d\n", "/^\\(é\\)*$/d\n", 0),
    ("two addresses", "/^é\\{2\\}/,\\:€*x:s/é/e/\n", "/^\\(é\\)\\{2\\}/,\\:\\(€\\)*x:s/é/e/\n", 0),
    ("three and four bytes", "s/€*😀*x/<&>/\n", "s/\\(€\\)*\\(😀\\)*x/<&>/\n", 0),
    ("behind its own list", "s/[é]é*/<&>/g\n", "s/[é]\\(é\\)*/<&>/g\n", 0),
    ("in a group that is named", "s/\\(aé*\\)b/<\\1>/\n", "s/\\(a\\(é\\)*\\)b/<\\1>/\n", 0),
    ("before a group that isn't named", "s/é*\\(ab\\)*$/<&>/\n", "s/\\(é\\)*\\(ab\\)*$/<&>/\n", 0),
    ("several in several commands", "/a/s/é*à\\{2\\}/x/\ns/à*e/<&>/\n", "/a/s/\\(é\\)*\\(à\\)\\{2\\}/x/\ns/\\(à\\)*e/<&>/\n", 0),
    ("thirty-one groups", "s/" + "\\(a\\)" * 31 + "*é*/<&>/\n", "s/" + "\\(a\\)" * 31 + "*\\(é\\)*/<&>/\n", 0),
    # What runs for ever in UTF-8 has a loop after the fix.
    ("loop", ":a\ns/xé*/x/\nt a\n", ":a\ns/x\\(é\\)*/x/\nt a\n", 1),
]

# A group would change what `\1` means, or be repeated beside a reference, or can't be written there; or the bytes are no character.
UNGROUPED = [
    "s/\\(a\\)é*\\1/<\\1>/\n",
    "s/é*\\(a\\)/\\1/\n", "s/é*\\(a\\)\\1//\n", "s/\\(aé*\\(b\\)\\)/\\2/\n", "s/é*\\(a\\)/x/;s//\\1/\n", "/\\(b\\)/s//\\1é/;s/é*\\(a\\)/x/\n", "y/éa/bcd/\n",
    "s(é*(x(\n", "s)é*)x)\n", "s/" + "\\(a\\)" * 32 + "é*//\n",
]

# The bytes don't say what is meant, or the text of the fix can't be written there.
WITHOUT = [
    b"s,[,]\\{1,2\\},x,\n",
    b"s/\xe9*//\n", b"s/\xc3*\xa9//\n", b"s/\xed\xa0\x80*//\n", b"s/\xc0\xaf*//\n", b"s/a\xa9\\{2\\}//\n", b"s\xa9\xc3\xb6*\xa9\xa9\n",
    b"s/^\\+a/x/\n", b"s/\\(\\?a\\)/x/\n", b"s/a*\\+/x/\n", b"s/a\\\\*\\+/x/\n", b"s/a\\+*/x/\n", b"s/a\\?\\{2\\}/x/\n", b"s/a\\+\\?/x/\n", b"s/a\\{2\\}\\?/x/\n", b"s:a\\s::\n", b"s1a\\+1b1\n", b"s{a\\+{b{\n", b"s/[\\d]/x/\n", b"s/a**b/x/\n",
    b"s/a/b/ I\n", b"s/a/b/g g\n", b"s/a/b/2 3\n", b"y/a/b/ g\n", b"s&a&\\0&\n", b"s,a\\{,2\\},x,\n", b"s/a\\|b/x/\n", b"s/a\\Wb/x/M\n", b"/a\\Wb/IM!d\n", b"s/\\bx/y/\n", b"p p\n",
    b"s/[/[:alpha:]]/x/\n", b"s/[a\\/]/[/]/\n", b"s/[]/]/x/\n", b"s/[^]/]/x/\n", b"s|[|]\\||x|\n", b"s,[,]\\{1\\,2\\},x,\n", b"s/[/]\\//\n", b"s/[/]\n", b"s/[/\n]/x/\n", b"s_[_]_x_\n", b"s/[/],|:@%#;~!=/x/\n",
    b"s/[\xc3\xa9/]/x/\n", b"s/a/\\x41/\n", b"s/e=\\$\\?;/x/\n", b"s,e=\\$\\?;,x,\n", b"#now\np\n", b"a hello\n", b"Q\n", b"/a/{p\n",
]


def has_utf_8():
    """Whether the machine has the locale in which characters are tried."""
    return "c.utf8" in subprocess.run(["locale", "-a"], capture_output=True, text=True).stdout.lower().replace("-", "").split()


def explained(explain, folder, script):
    """What is reported of the script, from JSON."""
    with open(os.path.join(folder, "script.sed"), "wb") as file:
        file.write(script)
    done = subprocess.run([explain, "--format", "json", "script.sed"], cwd=folder, capture_output=True, timeout=60, check=False)
    return json.loads(done.stdout)


def fixed(report: dict, script: bytes) -> tuple[bytes, dict] | None:
    """The script after its first fix, the place of the finding, and the rest; nothing where there is none."""
    for finding in report["findings"]:
        if finding["fix"]:
            start, end = (finding["fix"][side]["offset"] for side in ("start", "end"))
            return script[:start] + finding["fix"]["text"].encode() + script[end:], finding
    return None


def mended(explain, folder, script):
    """The script after all its fixes, and what is reported of it."""
    for _ in range(50):
        report = explained(explain, folder, script)
        step = fixed(report, script)
        if step is None:
            return script, report
        script = step[0]
    return script, report


def wrong_row(explain, folder, row, compares):
    """What is wrong with a row."""
    name, script, due, inputs = row
    made, report = mended(explain, folder, script)
    if made != due:
        yield "%s: %r becomes %r, and not %r" % (name, script, made, due)
    if report["status"] != 0:
        yield "%s: %r isn't accepted: %s" % (name, made, report["findings"])
    if compares and inputs:
        before, after = ([run_sed(folder, text.decode("latin-1"), given) for given in inputs] for text in (script, made))
        if before != after or None in before or len(set(before)) == 1:
            yield "%s: sed prints %r, and of the fixed script %r" % (name, before, after)


def wrong_character(explain, folder, row):
    """What is wrong with a row of characters, but for what sed prints."""
    name, script, due, status = row
    made, report = mended(explain, folder, script.encode())
    if (made, report["status"]) != (due.encode(), status):
        yield "%s: %r becomes %r with the status %d, and not %r" % (name, script, made, report["status"], due)
    if not any(finding["code"] == "locale" for finding in explained(explain, folder, script.encode())["findings"]):
        yield "%s: %r has no warning" % (name, script)
    if any(finding["code"] == "locale" for finding in report["findings"]):
        yield "%s: %r still has the warning" % (name, made)


def differing_characters(folder):
    """What is wrong with what sed prints by the rows of characters."""
    rows = [[row[0]] + [text.encode().decode("latin-1") for text in row[1:3]] for row in CHARACTERS]
    yield from drawn.compare([(*row, None, "C.UTF-8") for row in rows])
    for name, first, second in rows:
        if not any(run_sed(folder, first, given) != run_sed(folder, second, given) for given in drawn.inputs(name, first, "C.UTF-8")):
            yield "%s: both scripts make the same in the locale C" % name


def wrong_place(explain, folder, script):
    """What is wrong with a fix of any script: the next report has an error at the same place."""
    report = explained(explain, folder, script)
    step = fixed(report, script)
    if step is None:
        return
    after = explained(explain, folder, step[0])
    same = [one for one in after["findings"] if one["code"] == step[1]["code"] and one["position"] == step[1]["position"] and one["level"] == "error"]
    if same and step[0].startswith(script[:step[1]["position"]["offset"]]):
        yield "%r is still refused at its place: %r" % (step[0], same)


def main():
    explain, compares, failures, followed = os.path.abspath(sys.argv[1]), has_gnu_sed("fixes", "what fixed scripts make"), [], 0
    with tempfile.TemporaryDirectory(prefix="sedck-fixes-") as folder:
        for row in ROWS:
            failures += wrong_row(explain, folder, row, compares)
        for row in CHARACTERS:
            failures += wrong_character(explain, folder, row)
        if compares and has_utf_8():
            failures += differing_characters(folder)
        for script in WITHOUT + [script.encode() for script in UNGROUPED]:
            if fixed(explained(explain, folder, script), script):
                failures.append("%r has a fix" % script)
        for hint in HINTS:
            followed += 1
            failures += wrong_place(explain, folder, hint.refused.encode("latin-1"))
    for words in failures:
        print("FAILED: %s" % words)
    print("fixes: %d scripts fixed, %d without, %d more tried, %d failures" % (len(ROWS) + len(CHARACTERS), len(WITHOUT) + len(UNGROUPED), followed, len(failures)))
    return 1 if failures else 0


if __name__ == "__main__":
    sys.exit(main())
