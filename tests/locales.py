#!/usr/bin/env python3
"""Runs scripts and their plain spelling by GNU sed in several locales: python3 tests/locales.py build/sedck-explain

A list or a class has other characters in other locales, and the plain spelling must have the same ones. A comment must not come to stand where
GNU sed takes it for the order to print nothing. So GNU sed prints the same by both texts, with the same status. The locales are those of this
machine, and some that `localedef` makes. In some locale one of the texts is to be another one than in the locale C, which shows that they
tell. Without GNU sed, or without a locale of UTF-8, the outputs aren't compared, which is said. The status is 0 only where all is as it is due.
"""
import os
import subprocess
import sys
import tempfile
from pathlib import Path

from skips import has_gnu_sed, skip

sys.path.insert(0, str(Path(__file__).resolve().parent / "seds"))
import seds_ways  # noqa: E402

# Scripts, and the lines on which they run.
ROWS = [
    ("s/[abcd]/_/g", "aáb Äd"), ("s/[a-c]/_/g", "á cČ"), ("s/[[:digit:]]/_/g", "9² ٣"), ("s/[[:xdigit:]]/_/g", "é F0"), ("s/[89:;]/_/g", "a8:B;9"), ("s/[@ABCD]/_/g", "a8:B²@"),
    ("s/[!-\\/:-@[-`{-~]/_/g", "«a!»~"), ("s/[ \\n\t\v\f\r]/_/g", "a\u2003b c\td"), ("s/[ÃŠ]/1/g;s/[àŃ]/2/g", "ÃŠàŃ"), ("s/[A-Z]/x/\n/[[:upper:]]/p", "É\nZ\nz"),
    ("s/[é£]/1/g;s/[©ã]/2/g", "é©ã£"), ("s/[é£][©ã]/x/g", "é©£ã©é"), ("# [[:alpha:]]\ns/[a-zA-Z]/y/", "é\nz"), ("s/[[:alpha:]]/x/\ns/[a-zA-Z]/y/", "éa\nßz"),
    ("i\\\n[[:alpha:]]\ns/[a-zA-Z]/y/", "é\nz"), ("s/[^a-zA-Z]//g;# keep only [^[:alpha:]]", "Ünal b"), ("s/[^abcdefghijklmnopqrstuvwxyz0123456789_]/-/g", "Caféß_1"),
    ("s/[[=e=]]/_/g;s/[e]/-/g", "éeê"), ("s/[0-9:]/_/g;s/[0-9a-f:.]/-/g", "²:é.9f"), ("s/[ \\t]/_/g", "a\tb\\t c"), ("s/[][:space:]-]/_/g", "]\u2003- a"), ("s/[^[:print:]]/?/g", "é\x7f\u200b€"),
    ("s,[a\\,b]\\{2\\},<&>,g", "aáb,a,"), ("/[a-k]/,\\%[[:punct:]\\%]%s/[^[:alnum:]]/_/g", "ž ²\n%é «\nk"), ("s/\\([a-z]*\\)[[:upper:]]\\1/<&>/", "éÉé zZz"), ("y/abc/xyz/;s/[x-z]/_/g", "ýáxaž"),
    ("s/[\u00e4-\u00fc]/_/g;s/[а-я]/-/g", "äöüß жЖё"),
]
# Scripts with comments that begin with an `n`, to which GNU sed pays attention at the very start of a text.
COMMENTED = [("p;#no\n", "a"), (" #now\ns/a/b/", "a"), ("#now\ns/a/b/", "a"), ("\n#n\np", "a"), ("#n\n#n\np", "a"), ("{p;}#n", "a")]


def run(words, given, locale):
    environment = {name: value for name, value in os.environ.items() if not name.startswith("LC_") and name not in ("LANG", "LANGUAGE")}
    done = subprocess.run(words, input=given, capture_output=True, env={**environment, **locale.environment}, timeout=60)
    return done.returncode, done.stdout


def main():
    explain, wrong, compared = os.path.abspath(sys.argv[1]), [], has_gnu_sed("locales", "what scripts make in each locale")
    with tempfile.TemporaryDirectory(prefix="sedck-locales-") as folder:
        locales = [one for one in seds_ways.locales_found(folder) if one.charmap == "UTF-8"]
        told = set()
        if not locales:
            skip("locales", "locales of UTF-8", "this machine has none, and can make none")
        for number, (script, lines) in enumerate(ROWS + COMMENTED):
            before, after, given = Path(folder, "before.sed"), Path(folder, "after.sed"), lines.encode() + b"\n"
            before.write_bytes(script.encode() + b"\n")
            made = subprocess.run([explain, "--format", "sed", before], capture_output=True)
            if made.returncode != 0:
                wrong.append("%r has no plain spelling: %s" % (script, made.stderr.decode(errors="replace")))
                continue
            after.write_bytes(made.stdout)
            for locale in [seds_ways.POSIX] + locales if compared else ():
                due, found = (run(["sed", "-f", path], given, locale) for path in (before, after))
                if found != due:
                    wrong.append("%r in %s: sed prints %r, and by %r %r" % (script, locale.name, due, made.stdout.decode(), found))
                if due != run(["sed", "-f", before], given, seds_ways.POSIX):
                    told.add(number)
    if compared and locales and len(told) < len(ROWS) // 2:
        wrong.append("only %d of %d scripts print something else in some locale than in C" % (len(told), len(ROWS)))
    for line in wrong:
        print("locales: " + line)
    if not wrong:
        print("locales: %d scripts have plain spellings%s" % (
            len(ROWS + COMMENTED), ", which do the same in " + ", ".join(["C", *(locale.name for locale in locales)]) if compared else ""))
    return 1 if wrong else 0


if __name__ == "__main__":
    sys.exit(main())
