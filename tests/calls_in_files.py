#!/usr/bin/env python3
"""Tests `sedck-explain --calls`: python3 tests/calls_in_files.py build/sedck-explain

A table of files with the calls that are in them, by hand; folders and what can't be read; the literal calls in the shell scripts of
this machine, whose words the shell itself is asked for; long and hostile texts, and many files, with a limit of time. Needs a shell
(`sh`). The status is 0 only where all is as it should be.
"""
import json
import os
import re
import subprocess
import sys
import tempfile
import time
from pathlib import Path

from skips import present

PROGRAM = os.path.abspath(sys.argv[1])
failures = []


def fail(words):
    failures.append(words)
    print("calls in files: " + words)


def run(folder, *words, limit=120):
    done = subprocess.run([PROGRAM, *words], cwd=folder, stdin=subprocess.DEVNULL, capture_output=True, timeout=limit)
    return done.returncode, done.stdout, done.stderr


def bytes_of(shown):
    """The bytes of a word as it is shown."""
    plain = re.sub(r'\\(x[0-9a-f]{2}|\\|")', lambda found: found[1] if len(found[1]) == 1 else chr(int(found[1][1:], 16)), shown)
    return plain.encode("latin-1")


def explained(text, name, *options, limit=120):
    """What is said of one file with this text: the status, the calls and the counts."""
    with tempfile.TemporaryDirectory() as folder:
        path = os.path.join(folder, name)
        os.makedirs(os.path.dirname(path), exist_ok=True)
        Path(path).write_bytes(text if isinstance(text, bytes) else text.encode())
        status, out, err = run(folder, "--format", "json", *options, "--calls", name, limit=limit)
        if err:
            fail("%s: %s" % (name, err.decode()))
        lines = [json.loads(line) for line in out.decode().splitlines()]
        return status, [line for line in lines[:-1] if "call" in line], lines[-1]


# The name of a file, options, its text, the status, and for each call its line and column, its answer and its words.
A, IF, LOOP, REFUSED, NOT, UNKNOWN = "accepted", "accepted-if", "loop", "script-refused", "not-judged", "unknown"
ROWS = [
    # Quoting.
    ("a.sh", [], "sed s/a/b/ f\n", 0, [("1:1", A, ["s/a/b/", "f"])]),
    ("a.sh", [], "sed 's/a b/$c/' \"f g\"\n", 0, [("1:1", A, ["s/a b/$c/", "f g"])]),
    ("a.sh", [], "sed s/a\\ b/c/ 'it'\\''s'\n", 0, [("1:1", A, ["s/a b/c/", "it's"])]),
    ("a.sh", [], "sed \"s/\\\\/\\$x/;s/\\a/b/\"\n", 2, [("1:1", REFUSED, ["s/\\/$x/;s/\\a/b/"])]),
    ("a.bash", [], "sed $'s/a\\tb/c\\'d/'\n", 0, [("1:1", A, ["s/a\tb/c'd/"])]),
    ("a.sh", [], "sed $'s/a\\tb/c/'\n", 5, [("1:1", UNKNOWN, None)]),
    # Of what is behind `\\c` bash takes two bytes where these are backslashes, and a byte 0 ends the text.
    ("a.bash", [], "sed $'s/a/\\c\\n/' f\nsed $'s/a/b\\0/' f\nsed $'s/a\\x{5c}/b/' f\nsed $'s/a/\\x41\\cA/' f\nsed $'p;#\\c@' f\n", 5,
     [("1:1", UNKNOWN, None), ("2:1", UNKNOWN, None), ("3:1", UNKNOWN, None), ("4:1", UNKNOWN, None), ("5:1", UNKNOWN, None)]),
    # Between backquotes a backslash that is escaped joins no lines, nor does one outside of single quotes differ.
    ("a.sh", [], "x=`sed 's/a/\\\\\nb/' f`\ny=`sed -n \\\n p f`\nz=`sed \"s/a/b/;\\\np\" f`\n", 0,
     [("1:4", A, ["s/a/\\\nb/", "f"]), ("3:4", A, ["-n", "p", "f"]), ("5:4", A, ["s/a/b/;p", "f"])]),
    ("a.sh", [], "sed -e 's/a/b/' \\\n  -e 's/c/d/'\n", 0, [("1:1", A, ["-e", "s/a/b/", "-e", "s/c/d/"])]),
    ("a.sh", [], "sed '\n  s/a/b/\n  p\n' f\n", 0, [("1:1", A, ["\n  s/a/b/\n  p\n", "f"])]),
    ("a.sh", [], "sed \"s/a/b/;\\\np\"\n", 0, [("1:1", A, ["s/a/b/;p"])]),
    # Where commands are.
    ("a.sh", [], "if sed -n p f; then x=`sed 1d g`; else y=$(sed 2d h); fi\n", 0, [("1:4", A, ["-n", "p", "f"]), ("1:24", A, ["1d", "g"]), ("1:44", A, ["2d", "h"])]),
    ("a.sh", [], "cat f | sed p > out 2>&1 && ! sed d\n", 0, [("1:9", A, ["p"]), ("1:31", A, ["d"])]),
    ("a.sh", [], "f() { sed p; }; (sed d); { sed = ; }\n", 0, [("1:7", A, ["p"]), ("1:18", A, ["d"]), ("1:28", A, ["="])]),
    ("a.sh", [], "case $x in a|b) sed p;; (c) sed d;; *) sed =;; esac\nsed x\n", 0, [("1:17", A, ["p"]), ("1:29", A, ["d"]), ("1:40", A, ["="]), ("2:1", A, ["x"])]),
    ("a.sh", [], "for f in sed $b; do sed p $f; done\nwhile read l; do sed d; done\n", 5, [("1:21", IF, ["p", "x"]), ("2:18", A, ["d"])]),
    ("a.sh", [], "# sed p\necho sed p # sed d\necho 'sed p' \"sed d\"\nsedation p\n", 5, []),
    ("a.sh", [], "cat <<EOF\nsed p\nEOF\nsed d <<'E'\nsed x\nE\nsh <<E\nsed =\nE\n", 5, [("4:1", A, ["d"]), ("8:1", A, ["="])]),
    ("a.sh", [], "cat <<EOF\n$(sed p)\nEOF\n", 0, [("2:3", A, ["p"])]),
    # A line that is joined to the one before isn't the delimiter, and keeps its tabs.
    ("a.sh", ["--deny", "writes"], "sed -f - f <<p\nn;\\\np\nw evil\np\n", 1, [("1:1", "denied", ["-f", "-", "f"])]),
    ("a.sh", [], "cat <<E\nx\\\nE\nit's\nE\nsed ':x;bx' f # '\n", 1, [("6:1", LOOP, [":x;bx", "f"])]),
    ("a.sh", [], "cat <<E\nx\\\\\nE\nsed p f\ncat <<'E'\nx\\\nE\nsed d f\n", 0, [("4:1", A, ["p", "f"]), ("8:1", A, ["d", "f"])]),
    ("a.sh", [], "sed -f - f <<-E\n\ty/a/\\\n\tb/\n\tE\n", 2, [("1:1", REFUSED, ["-f", "-", "f"])]),
    ("a.sh", [], "x=\"$(sed \"s/a/b/\" \"$f\")\"\n", 5, [("1:6", IF, ["s/a/b/", "x"])]),
    ("a.sh", [], "sh -c 'sed p; sed \"s/a b/c/\"'\neval 'sed d'\n", 0, [("1:8", A, ["p"]), ("1:15", A, ["s/a b/c/"]), ("2:7", A, ["d"])]),
    # Names.
    ("a.sh", [], "/usr/bin/sed p; gsed d; $SED x; ${SED-sed} =; \"$SED\" g; busybox sed h\n", 5, [("1:1", A, ["p"]), ("1:17", A, ["d"]), ("1:25", IF, ["x"]), ("1:33", IF, ["="]), ("1:47", A, ["g"]), ("1:65", A, ["h"])]),
    ("a.sh", [], "${SED-gsed} p; $(which gsed) d; \"${X:-ssed}\" x; ${ased} =\n", 5, [("1:1", IF, ["p"]), ("1:16", IF, ["d"]), ("1:33", A, ["x"])]),
    ("a.sh", [], "LC_ALL=C sed p; env A=b sed d; exec sed x; command sed =; sudo -u me sed g\n", 0, [("1:10", A, ["p"]), ("1:25", A, ["d"]), ("1:37", A, ["x"]), ("1:52", A, ["="]), ("1:70", A, ["g"])]),
    ("a.sh", [], "xargs -0 -n 1 sed -n p; find . -name '*.c' -exec sed -n '1p' {} + -o -exec sed d {} \\;\n", 5, [("1:15", IF, ["-n", "p"]), ("1:50", A, ["-n", "1p", "x"]), ("1:76", A, ["d", "x"])]),
    ("a.sh", [], "xargs sed -e p --\nxargs -P$N -n1 sed -n p\nxargs -I% sed 's/a/%/' %\n", 5, [("1:7", A, ["-e", "p", "--"]), ("2:16", IF, ["-n", "p"]), ("3:11", IF, None)]),
    ("a.sh", [], "xargs -0I{} sed p {}; xargs -rI{} sed -e p -- {}\nxargs -0P4 sed p\n", 5, [("1:13", IF, ["p", "x"]), ("1:35", A, ["-e", "p", "--", "x"]), ("2:12", IF, ["p"])]),
    ("a.sh", [], "find . -exec sh -c 'sed p \"$1\"' x {} \\;\nfind . -exec sh -c 'sed -e p -- \"$@\"' x {} +\nfind . -exec sh -c 'sed p d/{}; sed d f' \\;\n", 5,
     [("1:21", IF, ["p", "x"]), ("2:21", A, None), ("3:21", IF, ["p", "d/x"]), ("3:33", A, ["d", "f"])]),
    ("a.bash", [], "bash -c \"sed \\$'s/a\\\\tb/c/'\"\nsh -c \"sed \\$'s/a\\\\tb/c/'\"\nsed $\"s/a/b/\"; sed p$\"x\" f\nsed p \"x$\" $\"d\"/f\n", 5,
     [("1:10", A, ["s/a\tb/c/"]), ("2:8", UNKNOWN, None), ("3:1", UNKNOWN, None), ("3:16", UNKNOWN, None), ("4:1", IF, None)]),
    ("a.sh", [], "time -p sed p; timeout 5 sed d; nice -n 3 sed x; nohup sed =\n", 0, [("1:9", A, ["p"]), ("1:26", A, ["d"]), ("1:43", A, ["x"]), ("1:56", A, ["="])]),
    ("a.sh", [], "command -v sed p; which sed; type sed\n", 0, []),
    # What is unknown.
    ("a.sh", [], 'sed "s/$a/b/"\n', 5, [("1:1", IF, ["s/x/b/"])]),
    ("a.sh", [], 'sed "s/a/${b}c/"\n', 5, [("1:1", IF, None)]),
    ("a.sh", [], 'sed "s/[$a]/b/; a\\\\\n$t"\n', 5, [("1:1", IF, None)]),
    ("a.sh", [], 'sed "${n}d"\n', 5, [("1:1", UNKNOWN, None)]),
    ("a.sh", [], 'sed "$s" f\n', 5, [("1:1", UNKNOWN, None)]),
    ("a.sh", [], 'sed $o p f\n', 5, [("1:1", UNKNOWN, None)]),
    ("a.sh", [], 'sed "s/a/b/w $f"\n', 5, [("1:1", UNKNOWN, None)]),
    ("a.sh", [], 'sed "b $l"\n', 5, [("1:1", UNKNOWN, None)]),
    ("a.sh", [], 'sed "s/a/b/$f"\n', 5, [("1:1", UNKNOWN, None)]),
    ("a.sh", [], "sed -f x.sed f\n", 5, [("1:1", UNKNOWN, ["-f", "x.sed", "f"])]),
    ("a.sh", [], 'sed -n p "$f" $g\n', 5, [("1:1", IF, None)]),
    ("a.sh", [], 'sed -n p "d/$f" ./* f* <(cat)\n', 0, [("1:1", A, None)]),
    ("a.sh", [], 'sed -n -e p -- "$f" $g "$@" * ~\n', 0, [("1:1", A, None)]),
    ("a.sh", [], 'sed p "$@"\nsed p *\nsed p ~/f\nsed p {a,b}\nsed p d/$f\nsed -l5$x p f\nsed s/a*/b/\n', 5, [("%d:1" % line, IF, None) for line in range(1, 8)]),
    ("a.sh", [], 'sed -l$x p f\nsed "a $@"\nsed -n $x p\nsed p"$@"\n', 5, [("%d:1" % line, UNKNOWN, None) for line in range(1, 5)]),
    ("a.sh", [], "sed p -e d\nsed -e d p\n", 5, [("1:1", IF, ["p", "-e", "d"]), ("2:1", A, ["-e", "d", "p"])]),
    # A yes is about the program that is named; where the file defines the name, the word is told.
    ("a.sh", [], "sed() { command sed p; }\nsed d\n", 5, [("1:17", A, ["p"]), ("2:1", A, ["d"])]),
    ("a.sh", [], "$SUDO sed p f\n", 5, [("1:7", IF, ["p", "f"])]),
    ("a.sh", [], 'sed ":x;s/$a/b/;bx"\n', 1, [("1:1", LOOP, None)]),
    ("a.sh", [], 'sed "# $x\np"\n', 5, [("1:1", IF, None)]),
    # Values.
    ("a.sh", [], 'a=u\nsed "s/$a/b/"\n', 5, [("2:1", IF, ["s/u/b/"])]),
    # What is set for one command alone isn't seen by its own words. Who else sets it isn't asked.
    ("a.sh", [], 'a=u sed "s/$a/b/"\n', 5, [("1:5", IF, ["s/x/b/"])]),
    ("a.sh", [], 'a=u\na=v sed "s/$a/b/"\n', 5, [("2:5", IF, ["s/u/b/"])]),
    ("a.sh", [], "x=bac\nIFS=a :\nsed s/$x/y/ f\n", 5, [("3:1", IF, ["s/bac/y/", "f"])]),
    ("a.sh", [], 'a=u\nunset a; a+=v; printf -v a w; eval "$b"\nsed "s/$a/b/"\n', 5, [("3:1", IF, ["s/u/b/"])]),
    ("a.sh", [], 'a=u\na=$(c)\nb=u\nb=v$1\nsed "s/$a/$b/"\n', 5, [("5:1", IF, ["s/x/x/"])]),
    # After the word that ends the options what is put in before a shell reads the line may end the command.
    ("a.sh", [], "eval \"sed -e p -- $1 f\"\n", 5, [("1:7", IF, None)]),
    ("Makefile", [], "all:\n\tsed -e p -- $(X) f\n", 5, [("2:2", IF, None)]),
    ("Makefile", [], "A = u\nprivate A = v\nB = w\nall:\n\tsed 's/$(A)/$(B)/' f\n", 5, [("5:2", IF, ["s/u/w/", "f"]), ("5:2", IF, ["s/v/w/", "f"])]),
    ("Makefile", [], "export private A = u\nall: B = v\nall:\n\tsed 's/$(A)/$(B)/' f\n", 5, [("4:2", IF, ["s/u/v/", "f"])]),
    ("a.sh", [], 'a=\nsed "s/$a$a/b/"\nsed p f\n', 5, [("2:1", IF, ["s/xx/b/"]), ("3:1", A, ["p", "f"])]),
    ("a.sh", [], 'a=u\nsed ":x;s/$a/$a/;tx"\n', 1, [("2:1", LOOP, [":x;s/u/u/;tx"])]),
    ("a.sh", [], 'a=u\nif c; then sed "s/$a/b/"; fi\nf() { sed "s/$a/c/"; }\n', 5, [("2:12", IF, ["s/u/b/"]), ("3:7", IF, ["s/u/c/"])]),
    ("a.sh", [], 'f() { a=u; sed "s/$a/b/"; }\nsed "s/$a/b/"\n', 5, [("1:12", IF, ["s/u/b/"]), ("2:1", IF, ["s/u/b/"])]),
    ("a.sh", [], 'a=u\nsed "s/$a/b/"\n. ./c\nsed "s/$a/b/"\n', 5, [("2:1", IF, ["s/u/b/"]), ("4:1", IF, ["s/u/b/"])]),
    ("a.sh", [], 'a=u\nf() { sed "s/$a/b/"; }\n. ./c\n', 5, [("2:7", IF, ["s/u/b/"])]),
    ("a.sh", [], 'if c; then a=u; fi\nb && a2=u\n(a3=u)\na4=u | c\na5=u &\nwhile c; do a6=u; done\n{ a7=u; }\ncase c in c) a8=u;; esac\n' + "".join('sed "s/$a%s/b/"\n' % n for n in ("", 2, 3, 4, 5, 6, 7, 8)), 5, [("%d:1" % line, IF, ["s/u/b/"]) for line in range(9, 17)]),
    ("a.sh", [], 'a=u\nread a\nsed "s/$a/b/"\n', 5, [("3:1", IF, ["s/u/b/"])]),
    ("a.sh", [], "a=u; bash -c 'sed \"s/$a/b/\"'\n", 5, [("1:15", IF, ["s/u/b/"])]),
    # The same value twice is one; of several ones each is judged, but for more than four.
    ("a.sh", [], 'a=u\na="u"\nsed "s/$a/b/"\n', 5, [("3:1", IF, ["s/u/b/"])]),
    ("a.sh", [], 'sed "s/$a/b/"\na=u\na=v/\n', 2, [("1:1", IF, ["s/u/b/"]), ("1:1", REFUSED, ["s/v//b/"])]),
    ("a.sh", [], 'sed ":x;s/a/$a/"\na=b\na="b/;bx;s/c/d"\n', 1, [("1:1", IF, [":x;s/a/b/"]), ("1:1", LOOP, [":x;s/a/b/;bx;s/c/d/"])]),
    ("a.sh", [], "".join("a=%s\n" % value for value in "stuv") + 'sed "s/$a/b/"\n', 5, [("5:1", IF, ["s/%s/b/" % value]) for value in "stuv"]),
    ("a.sh", [], "".join("a=%s\n" % value for value in "stuvw") + 'sed "s/$a/b/"\n', 5, [("6:1", IF, ["s/x/b/"])]),
    ("a.sh", [], 'a=u\nexport a=v\nlocal b\nb=w\nsed "s/$a/$b/"\n', 5, [("5:1", IF, ["s/u/w/"]), ("5:1", IF, ["s/v/w/"])]),
    # The words of a loop are none that the file writes for the name.
    ("a.sh", [], 'for a in u v; do sed "s/$a/b/"; done\n', 5, [("1:18", IF, ["s/x/b/"])]),
    # Of two variables with several values one is a hole, as is one whose values a shell would split.
    ("a.sh", [], 'a=t\na=u\nb=v\nb=w\nsed "s/$a/$b/"\n', 5, [("5:1", IF, ["s/t/x/"]), ("5:1", IF, ["s/u/x/"])]),
    ("a.sh", [], "a=f\na='f g'\nsed p $a\nsed p \"$a\"\n", 5, [("3:1", IF, ["p", "x"]), ("4:1", IF, ["p", "f"]), ("4:1", IF, ["p", "f g"])]),
    # Values that are built of others, which are before them.
    ("a.sh", [], 'a=t\nb="${a}u"\nc=s/$a/$b/\nsed "$c"\n', 5, [("4:1", IF, ["s/t/tu/"])]),
    ("a.sh", [], 'c=s/$a/b/\na=t\nsed "$c"\n', 5, [("3:1", UNKNOWN, None)]),
    ("a.sh", [], 'a=$a:u\nb=$c\nc=$b\nd=$e\ne=v\ne=w\nsed "s/$a/$b/;s/x/$d/"\n', 5, [("7:1", IF, ["s/x/x/;s/x/x/"])]),
    ("a.sh", ["--assume", "a=u"], 'b=$a\nc=$b\nsed "s/$b/$c/"\n', 5, [("3:1", IF, ["s/x/x/"])]),
    ("a.sh", [], 'a=u\nexport b=$a\nexport c="$a"\nsed "s/$b/$c/"\n', 5, [("4:1", IF, ["s/u/u/"])]),
    ("Makefile", [], "A = u\nB = $(A)v\nall:\n\tsed 's/$(B)/x/' f\n\tA=t; sed \"s/$$A/x/\" f\n", 5, [("4:2", IF, ["s/uv/x/", "f"]), ("5:7", IF, ["s/x/x/", "f"])]),
    ("Makefile", [], "include x.mk\nA = u\nifdef B\nA ?= v\nendif\nall:\n\tsed 's/$(A)/x/' f\n", 5, [("7:2", IF, ["s/u/x/", "f"]), ("7:2", IF, ["s/v/x/", "f"])]),
    ("a.sh", ["--assume", "a=u"], 'sed "s/$a/b/"\n', 0, [("1:1", A, ["s/u/b/"])]),
    ("a.sh", ["--assume", "a=u/"], 'sed "s/$a/b/"\n', 2, [("1:1", REFUSED, ["s/u//b/"])]),
    ("a.sh", ["--assume", "a=u"], 'a=v\nb=w\nsed "s/$a/b/"\nsed "s/$a/$b/"\n', 5, [("3:1", A, ["s/u/b/"]), ("4:1", IF, ["s/u/w/"])]),
    ("a.sh", [], "SED='sed -n'\n$SED p\n\"$SED\" d\n", 5, [("2:1", IF, ["-n", "p"])]),
    ("a.sh", [], "SED=sed\n$SED p\n\"$SED\" d\n", 5, [("2:1", IF, ["p"]), ("3:1", A, ["d"])]),
    ("a.sh", ["--assume", "SED=sed -n"], "$SED p\n", 0, [("1:1", A, ["-n", "p"])]),
    ("a.sh", [], "SED=sed\nSED='sed -E'\n$SED p\n\"$SED\" p\n", 5, [("3:1", IF, ["p"]), ("4:1", A, ["p"])]),
    # What is before a sed, and its folder.
    ("Makefile", [], "all:\n\t$(Q)sed p f\n\t@cat f | $(V)$(SED) d\n", 5, [("2:6", IF, ["p", "f"]), ("3:15", IF, ["d"])]),
    ("Makefile", [], "Q = @\nall:\n\t$(Q)sed p f\n", 5, [("3:6", IF, ["p", "f"])]),
    ("Makefile", [], "all:\n\t$(Q) sed p f\n\t@cat f | $(AT) $(SED) d\n", 5, [("2:7", IF, ["p", "f"]), ("3:17", IF, ["d"])]),
    ("Makefile", ["--assume", "Q=@"], "all:\n\t$(Q) sed p f\n", 0, [("2:7", A, ["p", "f"])]),
    ("Makefile", ["--assume", "Q=@"], "all:\n\t$(Q)sed p f\n\t$(Q)if sed d f; then :; fi\n", 0, [("2:6", A, ["p", "f"]), ("3:9", A, ["d", "f"])]),
    ("a.sh", ["--assume", "SUDO="], "$SUDO sed p f\n", 0, [("1:7", A, ["p", "f"])]),
    ("a.sh", [], "$SUDO ${x}sed p f\n", 5, []),
    # Another variable that has a sed, and values of make's with a call.
    ("a.sh", [], "x='sed -n'\n$x p f\n\"$x\" d f\ny=sed\n\"$y\" d f\n", 5, [("2:1", IF, ["-n", "p", "f"]), ("5:1", IF, ["d", "f"])]),
    ("Makefile", [], "S = sed -e 1h -e '1s,.*,/* a */,' -e 1G\nT = $(SED) -n\nall:\n\t$(S) f > g\n\t$(Q)$(T) p f\n", 5,
     [("1:5", A, ["-e", "1h", "-e", "1s,.*,/* a */,", "-e", "1G"]), ("4:2", IF, ["-e", "1h", "-e", "1s,.*,/* a */,", "-e", "1G", "f"]), ("5:6", IF, ["-n", "p", "f"])]),
    ("Makefile", [], "all:\n\t@if \"$(SED)\" neq \"\" $(SED) p f\n", 5, []),
    ("a.sh", ["--assume", "SED=sed"], "$SED p f\n", 0, [("1:1", A, ["p", "f"])]),
    ("a.sh", ["--assume", "POSIXLY_CORRECT"], "sed p f -e d\nsed -e p f -e d $x\n", 5, [("1:1", A, ["p", "f", "-e", "d"]), ("2:1", IF, None)]),
    ("a.sh", ["--assume", "POSIXLY_CORRECT="], "sed p f -e d\n", 5, [("1:1", IF, ["p", "f", "-e", "d"])]),
    ("a.sh", ["--assume-set", "autoconf"], '$SED p conftest.$ac_ext\nsed p f -n\n$ECHO "$x" | $SED "$delay_single_quote_subst"\nsed "s/[^_$as_cr_alnum]/_/g" f\nsed p $x\n', 5,
     [("1:1", A, ["p", "conftest.c"]), ("2:1", A, ["p", "f", "-n"]), ("3:14", A, ["s/'/'\\\\\\''/g"]), ("4:1", A, None), ("5:1", IF, ["p", "x"])]),
    ("a.sh", ["--assume", "ac_ext=-x", "--assume-set", "autoconf"], "sed p $ac_ext\n", 2, [("1:1", NOT, ["p", "-x"])]),
    # A delimiter in a list.
    ("a.sh", ["--mend"], "sed 's/[^/]*$//' f\nsed '/[/]/d;s/[a/]b/c/' f\nsed -n '\\,[,],p' f\nsed \"s/[$x/]/$y/\" f\nsed 's/a/b/' f\n", 5,
     [("1:1", IF, ["s/[^/]*$//", "f"]), ("2:1", IF, None), ("3:1", IF, None), ("4:1", IF, None), ("5:1", A, ["s/a/b/", "f"])]),
    ("a.sh", ["--mend"], "sed 's/[[:alpha:]/]//' f\nsed 's/[a\\\\/]//' f\nsed 's|[|]\\|x||' f\nsed 's/[]/]//' f\nsed 's/[^]/]//' f\nsed 's,|:@%#;~!=/[,],,' f\nsed 's/[/]' f\nsed 's_[_]__' f\n", 2,
     [("%d:1" % line, REFUSED, None) for line in range(1, 9)]),
    # An escaped delimiter beside it, as `configure` scripts have it where they need the folder of a file.
    ("a.sh", ["--mend"], "sed '/^X\\(.*[^/]\\)\\/\\/*[^/][^/]*\\/*$/{\n\t    s//\\1/\n\t    q\n\t  }\n\t  /^X\\(\\/\\/\\)[^/].*/{\n\t    s//\\1/\n\t    q\n\t  }\n\t  /^X\\(\\/\\).*/{\n"
     "\t    s//\\1/\n\t    q\n\t  }\n\t  s/.*/./; q' f\nsed 's/[/]\\/x/\\//' f\nsed 's,\\,[,]x\\\\\\,,\\,,w g' f\n", 5, [("1:1", IF, None), ("14:1", IF, None), ("15:1", IF, None)]),
    ("a.sh", ["--mend"], "sed 's,[,]\\{1\\,2\\},x,' f\nsed 's/[a\\\\/]\\/x//' f\n", 2, [("1:1", REFUSED, None), ("2:1", REFUSED, None)]),
    ("a.sh", ["--mend"], "sed ':a;s/[/]\\/*/\\/x/;ta' f\n", 1, [("1:1", LOOP, None)]),
    ("a.sh", ["--mend"], "sed ':a;s/[/]*/x/;ta' f\n", 1, [("1:1", LOOP, None)]),
    ("a.sh", ["--mend"], "sed 's,[,]\\{1,2\\},x,' f\n", 2, [("1:1", REFUSED, None)]),
    ("a.sh", ["--mend", "--assume", "s=s/[/]/x/"], 's=s/[/]/x/\nsed "$s" f\n', 2, [("2:1", REFUSED, None)]),
    ("a.sh", ["--mend", "--deny", "writes"], "sed 's/[/]/x/w evil' f\n", 1, [("1:1", "denied", None)]),
    ("a.sh", [], "$dir/sed p f\n\"$dir\"/sed p f\n${x:-sed} p f\n", 5, [("1:1", IF, ["p", "f"]), ("2:1", A, ["p", "f"]), ("3:1", IF, ["p", "f"])]),
    ("a.sh", [], "find $d -exec sed p {} \\;\nfind \"$d\" -name '*.c' -exec sed p {} \\;\nfind \"$d\" f -exec sed p {} \\;\n", 5, [("1:15", IF, ["p", "x"]), ("2:29", A, ["p", "x"]), ("3:19", IF, ["p", "x"])]),
    ("a.sh", [], "sed -i '' p f\nsed -i.bak '' f\nsed -i -e '' f\n", 5, [("1:1", UNKNOWN, ["-i", "", "p", "f"]), ("2:1", A, ["-i.bak", "", "f"]), ("3:1", A, ["-i", "-e", "", "f"])]),
    ("a.bash", [], "sh <<< 'sed p f'\neval -- 'sed d f'\ntrap -- 'sed x f' EXIT\nsu root -c 'sed = f'\n", 0, [("1:9", A, ["p", "f"]), ("2:10", A, ["d", "f"]), ("3:10", A, ["x", "f"]), ("4:13", A, ["=", "f"])]),
    ("a.bash", [], ": || x=\"${y[1]#'}\"  #'}\"; sed ':x;bx' f\n", 1, [("1:27", LOOP, [":x;bx", "f"])]),
    # A backslash at the end of a text.
    ("a.sh", [], "eval 'sed \"w f\"\\'\n", 5, [("1:7", A, ["w f\\"])]),
    # What is bash's alone.
    ("a.bash", [], "sed s+=~/+y+ f\nsed s[x]=~/[y[ f\nsed s+=a:~/+y+ f\nsed 's+=~/+y+' f\n", 5,
     [("1:1", IF, ["s+=x/+y+", "f"]), ("2:1", IF, ["s[x]=x/[y[", "f"]), ("3:1", IF, ["s+=a:x/+y+", "f"]), ("4:1", A, ["s+=~/+y+", "f"])]),
    ("a.sh", [], "[[ a | sed p f ]]\n[[ x || sed d f || x ]]\n[[ $x = a && $x > sed ]]\n", 5, [("1:8", A, ["p", "f", "]]"]), ("2:9", A, ["d", "f"])]),
    ("a.bash", [], "[[ a || sed ]] && sed p f\n[[ a ||\n sed ]] || sed d f\n", 5, [("1:19", A, ["p", "f"]), ("3:12", A, ["d", "f"])]),
    # What is refused, rejected or not judged.
    ("a.sh", [], "sed 's/a' f\n", 2, [("1:1", REFUSED, ["s/a", "f"])]),
    ("a.sh", [], "sed ':x;bx' f\n", 1, [("1:1", LOOP, [":x;bx", "f"])]),
    ("a.sh", [], "sed -E 's/(a)/b/' f\n", 2, [("1:1", NOT, ["-E", "s/(a)/b/", "f"])]),
    ("a.sh", [], "sed --what p\n", 2, [("1:1", NOT, ["--what", "p"])]),
    ("a.sh", [], "sed -s -n '$p' f g\nsed -z N f\nsed -i.bak -z '$d' f\n", 0, [("1:1", A, ["-s", "-n", "$p", "f", "g"]), ("2:1", A, ["-z", "N", "f"]), ("3:1", A, ["-i.bak", "-z", "$d", "f"])]),
    ("a.sh", [], "sed -s ':x;bx' f\nsed -z \"s/$a//\" f\n", 1, [("1:1", LOOP, ["-s", ":x;bx", "f"]), ("2:1", IF, None)]),
    ("a.sh", [], "sed -z 's/a' f\nsed -zE p\n", 2, [("1:1", REFUSED, ["-z", "s/a", "f"]), ("2:1", NOT, ["-zE", "p"])]),
    ("a.sh", ["--deny", "writes"], "sed 'w out' f\n", 1, [("1:1", "denied", ["w out", "f"])]),
    # Makefiles.
    ("Makefile", [], "all:\n\t@sed 's/a$$/b/' $< > $@\n\t-sed -n \\\n\t  p f\nX = $(shell sed 1d f)\n", 5, [("2:3", IF, ["s/a$/b/", "x"]), ("3:3", A, ["-n", "p", "f"]), ("5:13", A, ["1d", "f"])]),
    ("Makefile", [], "SED = sed\nP = u\nall: ; $(SED) 's/$(P)/$(Q)/'\n", 5, [("3:8", IF, None)]),
    ("x.mk", [], "ifdef A\nall:\n\tif sed p; then \\\n\t  sed d; fi\nendif\n", 0, [("3:5", A, ["p"]), ("4:4", A, ["d"])]),
    ("Makefile.in", [], "all:\n\t@SED@ 's/@a@/b/'\n", 5, [("2:2", IF, None)]),
    # What is written for `$(eval ..)`, which expands it twice, has four signs for one.
    ("Makefile", [], "define T\nall:\n\tsed 's/a/$$$$x/' f\n\tsed \"s/$$$${x}/b/\" f\nendef\n$(eval $(T))\n", 5, [("3:2", IF, ["s/a/x/", "f"]), ("4:2", IF, ["s/x/b/", "f"])]),
    ("Makefile", [], "define T\nsed 's/a$$/b/' f\nendef\nall:\n\t$(T)\n", 0, [("2:1", A, ["s/a$/b/", "f"])]),
    ("Makefile", [], "$(eval X = 1)\nall:\n\tsed 's/a$$/b/' f\n", 0, [("3:2", A, ["s/a$/b/", "f"])]),
    # Between `define` and `endef` make joins lines by a space, and halves backslashes before the one that joins them.
    ("Makefile", [], "define T\nsed 's/x/b\\\n/' f\nsed -n\\\np f\nsed 's/a\\\\\\\n\tb/c/' f\nendef\nall:\n\t$(T)\n", 5, [("2:1", IF, ["s/x/bx/", "f"]), ("4:1", UNKNOWN, ["-nxp", "f"]), ("6:1", UNKNOWN, None)]),
    ("Makefile", [], "define T\nsed -n \\\n\t's/a/b/; \\\np' f # x \\\n p\nif x; then \\\n\tsed p f; \\\nfi\nendef\nall:\n\t$(T)\n", 0, [("2:1", A, ["-n", "s/a/b/; p", "f"]), ("7:2", A, ["p", "f"])]),
    # In brackets behind `$$` GNU make joins the lines of a recipe by a space, too.
    ("Makefile", [], "all:\n\tx=$$(sed 's/a/b/; \\\n\t\ts/c/d/' f; \\\n\tsed p f)\n\tx=$${y-`sed -n \\\n\t p f`}; sed 's/c/d\\\n/' f\n", 0,
     [("2:7", A, ["s/a/b/; s/c/d/", "f"]), ("4:2", A, ["p", "f"]), ("5:10", A, ["-n", "p", "f"]), ("6:10", A, ["s/c/d\\\n/", "f"])]),
    ("Makefile", [], "all:\n\tx=$$(echo $$(sed 's/a/b\\\n/' f))\n\t: '$$(' ; sed 's/a/b\\\n/' f\n\tx=\"$$(sed 's/a/b/ \\\n\t;p' f)\"\n", 5,
     [("2:15", IF, ["s/a/bx/", "f"]), ("4:12", IF, ["s/a/bx/", "f"]), ("6:8", A, ["s/a/b/ ;p", "f"])]),
    # Another program than a shell may run the recipes.
    ("Makefile", [], "SHELL := /bin/bash -e\nall: SHELL = $(CONFIG_SHELL)\nall:\n\tSHELL=perl sed p f\n", 0, [("4:13", A, ["p", "f"])]),
    # Dockerfiles, files of continuous integration, spec files, sources of Autoconf.
    ("Dockerfile", [], "FROM a\nRUN a && \\\n    # b\n    sed -i 's/a/b/' f\nRUN [\"sed\", \"p\"]\n", 5, [("4:5", A, ["-i", "s/a/b/", "f"])]),
    ("Dockerfile", [], "from a\nrun --mount=type=cache,target=/a --network=none [ -n \"$x\" ] && \\  \n\n  sed p f\nONBUILD RUN sed d f\n", 5, [("4:3", A, ["p", "f"])]),
    ("Dockerfile", [], "FROM a\nRUN b && \\\n# escape=`\n  sed p f\n", 0, [("4:3", A, ["p", "f"])]),
    ("Dockerfile", [], "# syntax=a\n# escape=`\nFROM a\nRUN sed p f\n", 0, [("4:5", A, ["p", "f"])]),
    # Lists of words aren't read.
    ("Dockerfile", [], 'FROM a\nRUN ["sed", "p", "f",]\nSHELL ["cmd"]\nRUN ["sed", "p", "f"]\nRUN sed p f\n', 5, [("5:5", A, ["p", "f"])]),
    # Nor are here-documents.
    ("Dockerfile", [], "FROM a\nRUN echo $((1<<2)) \"a <<b\" <<<c\nCOPY a<<b /x\nRUN sed ':x;bx' f\n", 1, [("4:5", LOOP, [":x;bx", "f"])]),
    ("Dockerfile", [], "FROM a\nRUN <<A.B\nsed ':x;bx' f\nA.B\nRUN sed p f\n", 5, [("5:5", A, ["p", "f"])]),
    ("Dockerfile", [], "FROM a\nCOPY <<a <<'b' /d/\nRUN <<c\na\nRUN <<d\nb\nRUN sh <<-E && cat <<F\n\tsed p f\n\tE\nx\nF\n", 5, []),
    ("Dockerfile", [], "FROM a\nRUN sed -f - f <<E\np\nE\n", 5, []),
    # Which shell runs them isn't asked.
    ("Dockerfile", [], "FROM w AS b\nSHELL [\"cmd\"]\nFROM B\nRUN sed p f\nFROM a\nRUN sed ':x;bx' f\n", 1, [("4:5", A, ["p", "f"]), ("6:5", LOOP, [":x;bx", "f"])]),
    ("ci.yml", [], "jobs:\n  a:\n    steps:\n      - run: sed p f\n      - name: x\n        run: |\n          sed 's/a/b/' f\n          sed d\n", 0, [("4:14", A, ["p", "f"]), ("7:11", A, ["s/a/b/", "f"]), ("8:11", A, ["d"])]),
    ("ci.yml", [], "a:\n  script:\n    - sed p f\n    - \"sed \\\"s/a/b/\\\"\"\n    - 'sed ''s/c/d/'''\n    - sed d f\n", 5, [("3:7", A, ["p", "f"]), ("6:7", A, ["d", "f"])]),
    # Keys that end in `_script`, blocks in lists, blocks and scalars that go on, comments, and expressions.
    ("ci.yml", [], "a:\n  build_script: sed p f # b\n  x_script:\n  - sed d f\n  - |-\n\n    sed 1d f\n\n    sed 's/a/b/\n      p' f\n  b: sed x f\n  - sed = f\n", 5,
     [("2:17", A, ["p", "f"]), ("4:5", A, ["d", "f"]), ("7:5", A, ["1d", "f"]), ("9:5", A, ["s/a/b/\n  p", "f"])]),
    ("ci.yml", [], "a:\n  description: |\n    run: sed p f\n  run: |+ # c\n      sed -n 's/${{ x }}/$[[ y ]]/' f\n  script: sed -n\n    p f\n  run: >\n    sed d f\n  run: |2\n     sed d f\n", 5, [("5:7", IF, ["-n", "s/x/x/", "f"])]),
    ("ci.yml", [], "a:\n- run: |\n    sed p f\n\n# b\n- run: |\n   sed d f\n  shell: bash\n", 0, [("3:5", A, ["p", "f"]), ("7:4", A, ["d", "f"])]),
    # Services of systemd: words are split by blanks, and no shell reads them.
    ("a.service", [], "[Service]\nExecStartPre=-/bin/sed -i s|a*|b;c| /etc/f\nExecStart=/bin/sh -c 'sed \"s/a b/c/\" f | sed d'\nExecReload=sed 's/%%i/$$x/' \\\n  \"f g\"\nExecStop=@/bin/sed x p f\nExecStopPost=a ; sed p ~\n", 5,
     [("2:15", A, ["-i", "s|a*|b;c|", "/etc/f"]), ("3:23", A, ["s/a b/c/", "f"]), ("3:42", A, ["d"]), ("7:18", A, ["p", "~"])]),
    ("a.service", [], "Description=sed p f\nExecStart=sed s/%i/b/ ${f}\nExecStart=sed p $F\nExecStart=sh -c \"sed 's/$x/b/' ${y}\"\nExecStart=sed 's/a/\\x41/' f\n", 5,
     [("2:11", IF, ["s/x/b/", "x"]), ("3:11", IF, ["p", "x"]), ("4:18", IF, ["s/$x/b/", "x"]), ("5:11", IF, ["s/a/x41/", "f"])]),
    ("a.spec", [], "Name: a\n%prep\nsed -i 's/%%a/b/' f\n%build\nsed p\n%files\nsed\n", 5, [("3:1", A, ["-i", "s/%a/b/", "f"]), ("5:1", A, ["p"])]),
    # Lines that a directive leaves out may be a part of a script or a call.
    ("a.spec", [], "%build\nsed '\n%if 0\nb\n%endif\n:a\nba\n' f\nsed \\\n%if 0\n -n \\\n%endif\n p f\n", 5, [("2:1", UNKNOWN, None), ("9:1", UNKNOWN, None)]),
    ("a.spec", [], "%build\n%if 0\nsed p f\n%else\nsed d f\n%endif\nsed x f\nsed '\np\n%dnl b\nd' f\n", 0, [("3:1", A, ["p", "f"]), ("5:1", A, ["d", "f"]), ("7:1", A, ["x", "f"]), ("8:1", A, ["\np\nd", "f"])]),
    ("Makefile.in", [], "SED = @SED@\nX = @X@\nall:\n\t$(SED) 1d f\n\tsed 's/$(X)/b/' f\n", 5, [("4:2", IF, ["1d", "f"]), ("5:2", IF, None)]),
    ("Makefile", [], "X = a ;\\\n\tsed -i 1d f\nY ?= b\nall:\n\tsed 's/$(Y)/c/' f\n", 5, [("2:2", A, ["-i", "1d", "f"]), ("5:2", IF, None)]),
    ("Makefile.SH", [], "#!/bin/sh\nsed 's/$/x/' f\n", 0, [("2:1", A, ["s/$/x/", "f"])]),
    ("configure.ac", [], "AC_INIT([a])\ndnl sed d\nx=`sed -n p f`\ny=`sed -n ['p'] f`\nAC_OUTPUT\n", 0, [("3:4", A, ["-n", "p", "f"]), ("4:4", A, ["-n", "p", "f"])]),
    # Brackets are quotes of M4: those around an argument, and those in a text.
    ("configure.ac", [], "x=`sed 's,[[^/]]*$,,' f`\ny=`sed ['s/[a]b/c/'] f`\nAC_DEFUN([X], [\n  if a; then AS_IF([b], [sed 's,[[^/]],,' f]) ; fi # don't\n  sed \"s/$][x/[[$]y]/\" f\n  AC_D([[sed 's,[^/],,' f]])\n])dnl sed\n", 5,
     [("1:4", A, ["s,[^/]*$,,", "f"]), ("2:4", A, ["s/[a]b/c/", "f"]), ("4:26", A, ["s,[^/],,", "f"]), ("5:3", IF, ["s/x/[$]y/", "f"]), ("6:10", A, ["s,[^/],,", "f"])]),
    # M4 reads none in a comment, and after `changequote` others.
    ("a.m4", [], "AC_DEFUN([X], [\nchangequote(,)dnl\n  sed 's,[^/],,' f\nchangequote([,])dnl\n  sed 's/[[a]]//' f\n  sed 's/#[a]//' f\n])\nsed 's/[[b]]//' f\nchangequote(,)\nsed 's/[[c]]//' f\n", 0,
     [("3:3", A, ["s,[^/],,", "f"]), ("5:3", A, ["s/[a]//", "f"]), ("6:3", A, ["s/#[a]//", "f"]), ("8:1", A, ["s/[b]//", "f"]), ("10:1", A, ["s/[[c]]//", "f"])]),
    # What macros make is unknown.
    ("configure.ac", [], "AC_DEFUN([X], [sed 's/$1/b/' f; sed \"s/@<:@a@:>@/b/\" f; sed 's/AC_Y/b/' f; sed 's/AC_Z([a])/b/' f])\nm4_define([ab], [c])\nsed s/ab/d/ $1\nAC_A([sed gsed], [b])\nAC_MSG_ERROR([no sed, or not found])\n", 5,
     [("1:16", UNKNOWN, None), ("1:33", UNKNOWN, None), ("1:57", UNKNOWN, None), ("1:76", UNKNOWN, None), ("3:1", UNKNOWN, None)]),
    # Names of files.
    ("debian/rules", [], "#!/usr/bin/make -f\nall:\n\tsed p\n", 0, [("3:2", A, ["p"])]),
    ("a.postinst", [], "sed p\n", 0, [("1:1", A, ["p"])]),
    ("run", [], "#! /bin/sh -e\nsed p\n", 0, [("2:1", A, ["p"])]),
    ("tests/00create", [], ". tests/env\nsed p f\n", 0, [("2:1", A, ["p", "f"])]),
    ("a.bats", [], "load helpers\n@test \"a\" {\n  run ls\n  sed $'s/a/\\t/' f\n}\n", 0, [("4:3", A, ["s/a/\t/", "f"])]),
    ("run", ["--as", "make"], "a:\n\tsed p\n", 0, [("2:2", A, ["p"])]),
]


def table():
    for name, options, text, status, due in ROWS:
        shown = "%s %s %r" % (name, " ".join(options), text)
        got_status, calls, counts = explained(text, name, *options)
        got = [("%d:%d" % (call["call"]["line"], call["call"]["column"]), call["answer"], [bytes_of(word).decode() for word in call["words"]]) for call in calls]
        same = len(got) == len(due) and all(g[:2] == d[:2] and d[2] in (None, g[2]) for g, d in zip(got, due))
        if not same or got_status != status:
            fail("%s: status %d, %s" % (shown, got_status, got))
        if counts["calls"] != len(calls) or counts["status"] != got_status or counts["files"] != 1:
            fail("%s: counts %s" % (shown, counts))
        answers = {A: "accepted", IF: "accepted_if", LOOP: "loops", REFUSED: "refused", NOT: "not_judged", UNKNOWN: "unknown", "denied": "denied"}
        for answer, field in answers.items():
            if counts[field] != sum(call["answer"] == answer for call in calls):
                fail("%s: %s of %s" % (shown, counts[field], answer))
        lines = text.split("\n")
        for call in calls:
            for finding in call["findings"]:
                at = finding["position"]
                if at["line"] > len(lines) or at["column"] > len(lines[at["line"] - 1].encode()) + 1 or at["offset"] != sum(len(line.encode()) + 1 for line in lines[:at["line"] - 1]) + at["column"] - 1:
                    fail("%s: a finding at %s" % (shown, at))


# Findings at their places in the file: the text, and `LINE:COLUMN code` of each finding.
PLACES = [
    ("sed 's/a/b/' f\nsed 's/\\(a/b/' f\n", ["2:8 unclosed-group"]),
    ("x\nsed -n '\n  :a\n  p\n  b a\n'\n", ["3:3 loop-idle"]),
    ("sed 'w /etc/x' f\n", ["1:6 absolute-name"]),
    ("sed \"s/a/$b/;s/$c/d/\"\n", ["1:10 open-hole", "1:16 open-hole", "1:6 no-space-bound"]),
    ("sed p \"$f\" -l5$x g\n", ["1:8 open-hole", "1:15 open-hole"]),
    ("sed p \"$1\"$2 f -l5$x$y\n", ["1:8 open-hole", "1:11 open-hole", "1:19 open-hole", "1:21 open-hole"]),
    ("sed -e p -e \"$x\"\n", ["1:1 unknowable"]),
    ("a='s/x'\nsed \"$a\"\n", ["1:4 unterminated", "2:6 known-value"]),
    ("a=u\nb=v\nsed \"s/$a/$b/\" f\nsed p\n", ["3:8 known-value", "3:11 known-value"]),
    ("sed -i p f\n", ["1:1 in-place"]),
    ("sed 's/é*//' f\nLC_ALL=C sed 's/é*//' f\n", ["1:8 locale"]),
    ("LC_ALL=C sed -i 's/a/bb/' f\n", ["1:10 in-place", "1:18 no-space-bound"]),
    ("sed -n 'w g' big ./g\n", ["1:9 writes-its-input"]),
    ("sed -n 'w g' big g\n", ["1:9 writes-its-input"]),
    # Where the output goes to a file that the call reads.
    ("sed p big >> big\n", ["1:14 writes-its-input"]),
    ("sed p < big >> big\n", ["1:16 writes-its-input"]),
    ("sed 's/a/b/' f > f\n", ["1:18 writes-its-input"]),
    ("sed p -- \"$f\" >> \"$f\"\n", ["1:19 writes-its-input"]),
    ("sed p -- \"$1\" > \"$1\"\n", ["1:18 writes-its-input"]),
    ("sed p f <<E >> f\nE\n", ["1:16 writes-its-input"]),
    ("sed p <<E < f > f\nE\n", ["1:17 writes-its-input"]),
    ("sed p - < f 1>> f 2>&1\n", ["1:17 writes-its-input"]),
    ("sed p f > g > f\n", ["1:15 writes-its-input"]),
    ("LC_ALL=C sed p f > f\n", ["1:20 writes-its-input"]),
    # Each redirection that empties a file does so, also where the output goes elsewhere.
    ("sed p f > f > g\n", ["1:11 writes-its-input"]),
    ("sed p f 3> f\n", ["1:12 writes-its-input"]),
    ("sed p f 0> f\n", ["1:12 writes-its-input"]),
    ("sed p f 2> f\n", ["1:12 writes-its-input"]),
    ("sed p < f >| f >&2\n", ["1:14 writes-its-input"]),
    ("sed -i p f 2> f\n", ["1:1 in-place", "1:15 writes-its-input"]),
    ("sed p f >| f; sed p f &> f; sed p f >& f\n", ["1:12 writes-its-input", "1:26 writes-its-input"]),
    ("sed -i p f > f\n", ["1:1 in-place", "1:14 writes-its-input"]),
] + [(text + "\n", []) for text in (
    "sed p f 2>> f", "sed p f > f.new", "sed p f >&2", "sed p f | cat > f", "sed p f >> f > g", "sed p f >> f >&2", "sed p < f < g >> f",
    "sed p f < g >> g", "xargs sed -e p -- < f >> f", "sed p \"d/$(a)\" > \"d/$(a)\"", "sed p F > f", "sed p f <<< f > g", "sed p f 3>> f", "sed p f 0<> f",
    "{ :; } > f; sed p f", "env -C x sed p f > f", "chroot /m sed p f > f", "find x -execdir sed p f \\; > f",
)]


# Files with calls that have a byte above 127 which is repeated, as `@`: in the first ones the locale is known to be C or POSIX.
CALL = "sed 's/é*//' f"
IN_C = [
    "LC_ALL=C @", "LC_ALL=POSIX @", "LC_ALL='C' @", 'LC_ALL="POSIX" @', "LC_ALL=\\C @", "X=1 LC_ALL=C Y=2 @", "LC_ALL=de_DE.UTF-8 LC_ALL=C @", "env LC_ALL=C @",
    "env -i X=1 LC_ALL=C PATH=\"$PATH\" Y=2 @", "env -u LC_ALL LC_ALL=C @", "LC_ALL=de_DE.UTF-8 env LC_ALL=C @", "nice env LC_ALL=C @", "find . -name f -exec env LC_ALL=C @ \\;",
    "sh -c \"LC_ALL=C @\"", "x=$(LC_ALL=C @)", "x=`LC_ALL=C @`", "if LC_ALL=C @; then :; fi", "cat f | LC_ALL=C @ > g", "export LC_ALL=de_DE.UTF-8\nLC_ALL=C @", "readonly LC_ALL\nenv LC_ALL=C @",
    ". ./none.sh || :\nenv LC_ALL=C @", "eval 'LC_ALL=C @'", "readonly X=1\nLC_ALL=C @", "f() { local LANG; LC_ALL=C @; }\nf", "! LC_ALL=C @", "time LC_ALL=C @", "env - LC_ALL=C PATH=\"$PATH\" @",
]
IN_ANY = [
    "@", "LC_ALL=c @", "LC_ALL= @", "LC_ALL=C.UTF-8 @", "LC_ALL=CC @", "LANG=C LC_CTYPE=C @", "LC_ALL=$X @", "LC_ALL=C$X @", "LC_ALL=${X-C} @", "LC_ALL+=C @", "export LC_ALL=C\n@", "LC_ALL=C\n@", "LC_ALL=C; @",
    "LC_ALL=C :; @", "LC_ALL=C LC_ALL=de_DE.UTF-8 @", "env LC_ALL=C LC_ALL=de_DE.UTF-8 @", "LC_ALL=C env -u LC_ALL @", "LC_ALL=C env -i PATH=\"$PATH\" @", "LC_ALL=C nice @", "env LC_ALL=C nice @",
    "LC_ALL=C find . -name f -exec @ \\;", "LC_ALL=C sh -c \"@\"", "xargs -a LC_ALL=C @", "flock LC_ALL=C @", "exec -a LC_ALL=C @", "timeout -k LC_ALL=C 5 @", "@ LC_ALL=C", "LC_ALL=C cat f | @", "XLC_ALL=C @",
]
# A sed that notes its locale.
NOTING = "#!/bin/sh\necho \"${LC_ALL-none}\" >> '%s'\n"


def locales():
    """Where the warning `locale` isn't given, each shell runs sed in the locale C or POSIX, if it runs it."""
    others = set()
    with tempfile.TemporaryDirectory() as folder:
        sed, notes, script = Path(folder, "sed"), Path(folder, "notes"), Path(folder, "a.sh")
        sed.write_text(NOTING % notes)
        sed.chmod(0o755)
        Path(folder, "f").write_text("a\n")
        environment = {**os.environ, "PATH": folder + ":" + os.environ["PATH"], "LC_ALL": "C.UTF-8", "X": ""}
        shells = present("calls_in_files", "shells by which locales of calls are held", ("dash", "bash", "bash --posix", "busybox sh"))
        for text, is_in_c in [(text, True) for text in IN_C] + [(text, False) for text in IN_ANY]:
            text = text.replace("@", CALL) + "\n"
            _, calls, _ = explained(text, "a.sh")
            found = [sum(finding["code"] == "locale" for finding in call["findings"]) for call in calls]
            if found != [0 if is_in_c else 1]:
                fail("locale of %r: %s" % (text, found))
            script.write_text(text)
            seen = set()
            for shell in shells:
                notes.unlink(missing_ok=True)
                subprocess.run([*shell.split(), "a.sh"], cwd=folder, env=environment, stdin=subprocess.DEVNULL, capture_output=True, timeout=60)
                seen |= set(notes.read_text().splitlines()) if notes.exists() else set()
            if is_in_c and (not seen or seen - {"C", "POSIX"}):
                fail("locale of %r: sed runs in %s" % (text, seen))
            if not is_in_c and seen - {"C", "POSIX"}:
                others.add(text)
    for name, text, due in (("Makefile", "all:\n\tLC_ALL=C @\n", 0), ("Makefile", "export LC_ALL = C\nall:\n\t@\n", 1),
                            ("Dockerfile", "FROM a\nENV LC_ALL=C\nRUN @\n", 1), ("Dockerfile", "FROM a\nRUN LC_ALL=C @\n", 0),
                            ("ci.yml", "env:\n  LC_ALL: C\na:\n  script:\n    - @\n", 1), ("ci.yml", "a:\n  script:\n    - LC_ALL=C @\n", 0), ("a.sh.in", "LC_ALL=@X@ %s\n" % CALL, 1)):
        text = text.replace("@", CALL) if "@X@" not in text else text
        _, calls, _ = explained(text, name)
        found = [sum(finding["code"] == "locale" for finding in call["findings"]) for call in calls]
        if found != [due]:
            fail("locale in %s, %r: %s" % (name, text, found))
    for text, options, due in (("LC_ALL=C @\n", [], 0), ("@\n", [], 1), ("@\n", ["--locale", "C"], 0), ("@\n", ["--locale", "de_DE.UTF-8"], 1), ("LC_ALL=C @\n", ["--locale=C.UTF-8"], 0)):
        status = explained(text.replace("@", CALL), "a.sh", "--deny", "warnings", *options)[0]
        if status != due:
            fail("locale of %r with %s: status %d" % (text, options, status))
    print("calls in files: %d calls whose locale is C run in it; of %d others %d don't" % (len(IN_C), len(IN_ANY), len(others)))


def places():
    for text, due in PLACES:
        _, calls, _ = explained(text, "a.sh")
        got = ["%d:%d %s" % (finding["position"]["line"], finding["position"]["column"], finding["code"]) for call in calls for finding in call["findings"]]
        if got != due:
            fail("%r: findings %s" % (text, got))
    with tempfile.TemporaryDirectory() as folder:
        Path(folder, "a.sh").write_text("x\nsed ':x;bx' f\nsed p\n")
        status, out, _ = run(folder, "--format", "gcc", "--calls", "a.sh")
        if status != 1 or not out.startswith(b"a.sh:2:6: error: ") or b"a.sh:3" in out:
            fail("gcc: %d %r" % (status, out))
        status, out, _ = run(folder, "--calls", "a.sh")
        lines = out.decode().splitlines()
        if not ("   2 | sed ':x;bx' f" in lines and "a.sh:2:1: loop, no file" in lines and "a.sh:3:1: accepted, no file" in lines
                and lines[-2:] == ["2 calls of sed in 1 file: 1 accepted, 1 with a loop", "1 file with calls: 1 with others"]):
            fail("text: %r" % out)


def values():
    """Each variable that is followed is listed, with where its value comes from."""
    status, calls, _ = explained("SUDO=\na=u\n$SUDO sed \"s/$a/$c/\" f\n", "a.sh", "--assume", "c=v")
    if status != 5 or any(finding["level"] != "warning" for finding in calls[0]["findings"] if finding["code"] == "known-value"):
        fail("values: %d %s" % (status, calls))
    got = [finding["message"] for finding in calls[0]["findings"] if finding["code"] == "known-value"]
    if got != ['the answer holds if "$SUDO" is empty, as the file sets it; or give --assume SUDO=VALUE',
               'the answer holds if "$a" is "u", as line 2 sets it; or give --assume a=VALUE', '"$c" has the value that is assumed']:
        fail("values: %s" % got)
    # A value that is built of others depends on these.
    for name, text, due in (
            ("a.sh", "a=u\nb='x'$a\neval \"$x\"\nsed \"s/$b/c/\" f\n. ./c\n", [(4, "$b", '"x\'$a", as line 2 sets it'), (2, "$a", '"u", as line 1 sets it')]),
            ("Makefile", "A = u\nall:\n\tsed 's/$(A)/c/' f\n", [(3, "$(A)", '"u", as line 1 sets it')])):
        _, calls, _ = explained(text, name)
        got = [(finding["position"]["line"], finding["message"]) for finding in calls[0]["findings"] if finding["code"] == "known-value"]
        if got != [(line, 'the answer holds if "%s" is %s; or give --assume %s=VALUE' % (written, said, written.strip("$()"))) for line, written, said in due]:
            fail("values of %r: %s" % (text, got))
    # What a value makes of a script is a part of the condition: no plain spelling is written.
    with tempfile.TemporaryDirectory() as folder:
        Path(folder, "a.sh").write_text("a=u\nsed \"s/$a/b/\" f\nsed \"s/$c/b/\" f\n")
        for line, given, due, text in ((2, [], 5, b""), (3, ["--assume", "c=u"], 0, b"s/u/b/\n"), (2, ["--assume", "a=u"], 0, b"s/u/b/\n")):
            got = run(folder, "--format", "sed", *given, "--at", str(line), "--calls", "a.sh")
            if got[:2] != (due, text) or bool(got[2]) == (due == 0):
                fail("values: the spelling of line %d with %s: %s" % (line, given, got))


# A file with conditions, each with how many calls depend on it, and of which kind it is.
DEPENDING = """$SED p f
$SED "s/$a/b/" $f
$SED "s/$a/$a/;s/$a/c/" $f
sed p f -e d
b=u
sed "s/$b/$a/" f
sed "$x"
"""
SAID = [(1, '"$SED" is unknown: the answer holds if it is the name of a sed, without options; or give --assume SED=sed (3 calls of this file depend on it)'),
        (2, '"$a" is unknown: the answer holds if it isn\'t empty, and has no `/`, no newline, and none of `\\[.*^$`; or give --assume a=VALUE (2 calls of this file depend on it)'),
        (2, '"$f" is unknown: the answer holds if no word of it begins with `-`; or give --assume f=VALUE (2 calls of this file depend on it)'),
        (3, '"$a" is unknown: the answer holds if it has no `/`, no newline, and none of `\\&`; or give --assume a=VALUE (2 calls of this file depend on it)'),
        (4, '"p" is unknown: the answer holds if POSIXLY_CORRECT isn\'t set, with which an option after an operand is none; or give --assume POSIXLY_CORRECT'),
        (6, 'the answer holds if "$b" is "u", as line 5 sets it; or give --assume b=VALUE')]
KINDS = [("sed", 1, 3), ("operand", 1, 2), ("order", 1, 1), ("script", 2, 3), ("value", 1, 1)]


def conditions():
    """People are told each condition of a file once, at the first call that depends on it; programs at each call."""
    with tempfile.TemporaryDirectory() as folder:
        for name, text in (("a.sh", DEPENDING), ("b.sh", "$SED p f\n"), ("c.sh", "sed p f\n"), ("d.sh", "sed ':a;ba' f\n"), ("e.sh", "echo\n"), ("f.sh", "sed 'p\n")):
            Path(folder, name).write_text(text)
        for form in ("text", "gcc"):
            out = run(folder, "--format", form, "--calls", "a.sh")[1].decode()
            got = [(int(found[1]), found[2]) for found in re.finditer(r"(?m)^a\.sh:(\d+):\d+: warning: (.*) \[(?:open-hole|known-value)\]$", out)]
            if got != SAID:
                fail("conditions in %s: %s" % (form, got))
            # Another file has its own.
            if len(re.findall(r"\$SED", run(folder, "--format", form, "--calls", "a.sh", "b.sh")[1].decode())) < 2:
                fail("conditions of two files in %s" % form)
        lines = [json.loads(line) for line in run(folder, "--format", "json", "--calls", "a.sh")[1].splitlines()]
        got = [[finding["message"] for finding in line["findings"] if "$SED" in finding["message"]] for line in lines[:-1]]
        if got != [[SAID[0][1][:-len(" (3 calls of this file depend on it)")]]] * 3 + [[]] * 3:
            fail("conditions in json: %s" % got)
        if [(kind["kind"], kind["conditions"], kind["calls"]) for kind in lines[-1]["conditions"]] != KINDS:
            fail("kinds of conditions: %s" % lines[-1]["conditions"])
        message = explained('sed "p;#$x" f\n', "a.sh")[1][0]["findings"][0]["message"]
        if "no newline, no carriage return" not in message:
            fail("the condition on a comment: %s" % message)
        status, out, _ = run(folder, "--calls", ".")
        last = out.decode().splitlines()[-1]
        if status != 5 and last != "5 files with calls: 1 all accepted, 1 all accepted under conditions, 3 with others":
            fail("files by their answers: %d %s" % (status, last))
        counts = json.loads(run(folder, "--format", "json", "--calls", ".")[1].splitlines()[-1])
        if [counts["files"]] + [counts["files_" + name] for name in ("accepted", "accepted_if", "other")] != [6, 1, 1, 3]:
            fail("files by their answers in json: %s" % counts)


def assumptions():
    """A set says the same as its words, which the page lists, and each report says what was assumed."""
    page = (Path(__file__).resolve().parent.parent / "docs/RECIPES.md").read_text()
    words = re.findall(r"(?m)^\| `` ?(.*?) ?`` \|", page.partition("## Calls in configure scripts")[2])
    singles = [part for word in words for part in ("--assume", word)]
    text = '$SED p f\nsed p f -e d\nsed "s/[^$as_cr_alnum]/x/" f\n$SED -e "$sed_quote_subst" f\nsed "s/$x/y/" f\n'
    with tempfile.TemporaryDirectory() as folder:
        Path(folder, "a.sh").write_text(text)
        for form in ("text", "gcc", "json"):
            given = run(folder, "--format", form, *singles, "--calls", "a.sh")
            by_set = run(folder, "--format", form, "--assume-set", "autoconf", "--calls", "a.sh")
            if given != by_set or given[0] != 5 or not words:
                fail("a set, in %s: %s and %s" % (form, by_set, given))
            if form == "json" and [bytes_of(word) for word in json.loads(by_set[1].splitlines()[-1])["assumed"]] != [word.encode() for word in words]:
                fail("a set, in %s: not all is said: %s" % (form, by_set[1]))
            if form != "json" and (by_set[1].count(b"assumed: ") != 1 or b'assumed: "SED=sed", ' not in by_set[1]):
                fail("a set, in %s: not all is said: %s" % (form, by_set[1]))
            if form != "json" and b"assumed:" in run(folder, "--format", form, "--calls", "a.sh")[1]:
                fail("nothing is assumed, in %s, and something is said" % form)
        Path(folder, "b.sh").write_text("$SED p f\nsed p f -e d\n")
        status, out, _ = run(folder, "--format", "json", "--assume-set", "autoconf", "--calls", "b.sh")
        found = [[finding["code"] for finding in json.loads(line)["findings"]] for line in out.splitlines()[:-1]]
        if status != 0 or any("known-value" not in codes for codes in found):
            fail("what is assumed isn't said of a call: %d %s" % (status, found))


def mends():
    """The command with another delimiter is said where the file has the command without quoting."""
    for text, due in (("sed 's/[^/]*$//' f\n", ",[^/]*$,,"), ("sed -n '/[/]/p' f\n", "\\\\,[/],"), ("sed 's/[/]/,|/' f\n", ":[/]:,|:"), ("sed \"s/[/]/$x/\" f\n", ",[/],$x,"), ("sed 's/\\/[/]/\\/,\\|/' f\n", ":/[/]:/,\\\\|:"),
                      ("sed \"s/[/]/\\$x/\" f\n", None), ("sed \"s/[/]/${x#/}/\" f\n", None), ("sed \"s/[/]\\/${x}/y/\" f\n", ",[/]/${x},y,")):
        status, calls, _ = explained(text, "a.sh", "--mend")
        said = [finding["message"] for finding in calls[0]["findings"] if "has its delimiter in a list" in finding["message"]]
        if status != 5 or len(said) != 1 or said[0].partition("; for all seds write ")[2] != ('"%s"' % due if due else ""):
            fail("a mend of %r: %d %s" % (text, status, said))
        if explained(text, "a.sh")[0] != 2:
            fail("%r isn't refused without --mend" % text)


def refused_words():
    with tempfile.TemporaryDirectory() as folder:
        Path(folder, "a.sh").write_text("sed p\n")
        for words in (["--calls"], ["--calls", "--format", "html", "a.sh"], ["--calls", "--cert", "a", "a.sh"], ["--as", "sh", "a.sh"], ["--assume", "a=b", "a.sh"],
                      ["--assume-set", "autoconf", "a.sh"], ["--mend", "--cert", "a", "a.sh"], ["--assume-set", "automake", "--calls", "a.sh"],
                      ["--calls", "--as", "perl", "a.sh"], ["--calls", "--sed", "a.sh"]):
            status, out, err = run(folder, *words)
            if status != 3 or out or not err.startswith(b"sedck-explain: "):
                fail("%s: %d %r %r" % (words, status, out, err))


def folders():
    with tempfile.TemporaryDirectory() as folder:
        for name, text in (("b/x.sh", b"sed p\n"), ("a.sh", b"sed d\n"), ("b/c/Makefile", b"a:\n\tsed x\n"), ("b/text", b"sed p\n"), (".git/a.sh", b"sed p\n"),
                           ("bin.sh", b"sed p\n\0"), ("run", b"#!/bin/sh\nsed =\n"), ("Makefile.gz", b"a:\n\tsed x\n"), ("Dockerfile.o", b"RUN sed p\n"),
                           ("tool", b"#!/bin/sh\n'''exec' python3 \"$0\" \"$@\"\n' '''\nsed = 1\n"), ("tool2", b"#!/bin/sh\n\"\"\"exec\" python3 \"$0\"\nsed p\n"),
                           ("c.bats", b"sed G\n"), ("d.service", b"ExecStart=sed N\n")):
            path = Path(folder, name)
            path.parent.mkdir(parents=True, exist_ok=True)
            path.write_bytes(text)
        os.symlink("/etc", Path(folder, "b/link"))
        os.symlink("x.sh", Path(folder, "b/y.sh"))
        status, out, err = run(folder, "--format", "json", "--calls", ".")
        lines = [json.loads(line) for line in out.decode().splitlines()]
        got = [line["file"] for line in lines[:-1]]
        if status != 5 or got != ["./a.sh", "./b/c/Makefile", "./b/x.sh", "./bin.sh", "./bin.sh", "./c.bats", "./d.service", "./run"] or lines[-1]["files"] != 7 or lines[-1]["unread"] != 1:
            fail("a folder: %d %s %s" % (status, got, lines[-1]))
        status, out, err = run(folder, "--format", "json", "--calls", "none.sh", "b", "a.sh")
        lines = [json.loads(line) for line in out.decode().splitlines()]
        got = [line["file"] for line in lines[:-1]]
        if status != 4 or got != ["none.sh", "b/c/Makefile", "b/x.sh", "a.sh"] or err != b"sedck-explain: cannot read none.sh: no such file\n" or lines[-1]["unreadable"] != 1 or lines[0]["answer"] != "unreadable":
            fail("a file that isn't there: %d %s %r" % (status, got, err))
        Path(os.fsdecode(os.fsencode(folder) + b"/b/\xff.sh")).write_text("sed p\n")
        status, out, err = run(folder, "--format", "gcc", "--calls", "b")
        if status != 4 or b"not all of its names can be read" not in err:
            fail("a name that isn't UTF-8: %d %r" % (status, err))
        status, out, err = run(folder, "--format", "gcc", "--calls", b"b/\xff.sh")
        if (status, err) != (4, b"sedck-explain: cannot read b/?FF.sh: its name is not UTF-8; give the file as standard input\n"):
            fail("a file whose name isn't UTF-8: %d %r" % (status, err))
        done = subprocess.run([PROGRAM, "--format", "json", "--calls", "-"], input=b"sed p\n", capture_output=True)
        if done.returncode != 0 or json.loads(done.stdout.splitlines()[0])["words"] != ["p"]:
            fail("standard input: %d %r" % (done.returncode, done.stdout))


# Texts that aren't understood, with the places.
UNREAD = [
    ("a.sh", "sed p\nsed ':x;bx\n", ["2:5"]), ("a.sh", "x=`sed p\n", ["1:3"]), ("a.sh", "sed p)\n", ["1:6"]), ("a.sh", "cat <<E\nsed p\n", ["1:7"]),
    ("a.sh", "c=(sed p)\n\"${c[@]}\"\n", []), ("a.sh", "sed p\0\n", ["1:6"]),
    ("a.sh", "((sed p f))\n: &> g sed p f\n: &> g $x p f\nx=${ sed p f; }\n", ["2:8", "3:8", "4:3"]),
    ("a.sh", "cat <<E\nsed p f\nE\nsudo tee f <<E\nsed p f\nE\n\"$x\" <<E\nuse sed to edit\nE\nssh h <<E\nuptime\nE\n", []),
    ("t.m4", "x:\n\t@sed -n p f > g\n", []),
    ("a.bash", "((sed + 1))\n: &> g sed p f\n[[ a || $x = sed ]]\n", []),
    ("a.sh", "cat <<EOF\nE\\\nOF\nsed p f\nEOF\ncat <<'EOF'\nE\\\nOF\nEOF\n", []),
    # Between backquotes shells join lines also in single quotes, in comments and in here-documents.
    ("a.sh", "x=`sed 's/a/b\\\n/' f`\n", []), ("a.sh", "x=`sed p f # \\\nsed d f`\n", []), ("a.sh", "x=`sh <<'E'\nsed p f\\\ng\nE\n`\n", []),
    ("a.sh", "x=`echo \\`sed 'w f\\\\\np' g\\``\n", []),
    # There dash leaves out a backslash before a double quote in a here-document and in an expression, and bash doesn't.
    ("a.sh", "cat <<E\n`sed 'w f\\\"' g`\nE\n", ["2:10"]), ("a.sh", "x=$((1+`sed 'w f\\\"' g`))\n", ["1:17"]), ("a.sh", "x=\"${y-`sed 'w f\\\"' g`}\"\n", ["1:17"]), ("a.sh", "x=\"`sed 'w f\\\"' g`\"\n", []),
    # Lines that bash joins before it reads the command.
    ("a.sh", "cat <<E\n$(sed 's/a/b\\\n/' f # \\\nsed p g\n)\nE\n", ["2:13", "3:8"]),
    ("a.sh", "eval 'sed p f \\'\n", ["1:15"]), ("a.sh", "sed p f\\", ["1:8"]),
    ("a.bash", "coproc sed p f\n", []),
    # A single quote that is one to bash alone, in braces between double quotes and in an expression.
    ("a.bash", "x=\"${y:-'}\"  #'}\"; sed ':x;bx' f\n", ["1:9"]), ("a.sh", "x=\"${y:='}\"  #'}\"; sed p f\n", ["1:9"]), ("a.sh", "x=\"${y+'}\"  #'}\"; sed p f\n", ["1:8"]),
    ("a.sh", ": || x=\"${y[1]#'}\"  #'}\"; sed p f\n", []), ("a.sh", ": || x=\"${y/'}\"  #'}\"; sed p f\n", []),
    ("a.bash", "x=\"${y:-'a'}${y:-'$z @' '*'}${y#'}'}${y:-\"it's\"}${y:-\\'}\"; (( x['k'] )); sed p f\n", []), ("a.bash", "x=\"${y:-'\\''}\"; sed p f #'}\"\n", ["1:9", "1:12"]),
    ("a.sh", "x=\"${y:-$'}'}\"; sed p f\n", ["1:9"]), ("a.sh", ": || x=\"$(( ${y:-'}))\"  #'} ))\"; sed p f\n", ["1:18"]), ("a.sh", ": || x=$((' ))  #' )); sed p f\n", ["1:11"]),
    ("a.bash", ": || x=\"$[ ' ]\"  #' ]\"; sed p f\n", ["1:9"]), ("configure.ac", "AC_INIT([a])\nx=\"$[1]\"\n", []),
    ("Makefile", ".SECONDEXPANSION:\nall: $$(x) $${shell sed p f}\n", []), ("Makefile", "all: $$(x) $$(wildcard sed) sed f\n", []),
    ("Makefile", ".RECIPEPREFIX = >\nall:\n>sed p f\n", []),
    ("a.yml", "a: {run: sed p f}\n? run\n: sed p f\nmy key: {run: sed p f}\n", []),
    ("a.spec", "%post -p /usr/bin/zsh\nsed p f\n%pre -p /bin/bash\nsed p f\n%preun -p /usr/bin/fish\nsed p f\n%postun -p <lua>\nos.execute('sed p f')\n%posttrans -p /sbin/ldconfig\n", []),
    ("Dockerfile", "FROM a\nRUN sh <<E\"O\"F\nsed ':x;bx' f\nEOF\nRUN sed p f\n", []),
    ("ci.yml", "a:\n  - run: \"sed\\x20p f\"\n  - run: \"s\\u0065d p f\"\n", []),
    ("a.sh", "echo sed -n p; which sed; apt-get install sed\ngrep sed -n f\n", []), ("a.sh", "sed $'a\\'\n'\n", ["1:8"]),
    ("Dockerfile", 'FROM a\nRUN ["sed", "s/a\\\\./b/"]\nRUN ["sed", "s/\'/b/"]\nENTRYPOINT ["/bin/sed", "p"]\nRUN ["sed", "y/a/\u00e9/"]\n', []), ("ci.yml", "a:\n  - run: >\n      sed p f\n      g\n", []),
    ("configure.ac", "AC_MSG_ERROR([sed not found])\nx=`sed -n p f`\n", []),
]


# How what is said of words for a sed begins of which nothing else is told: tests/mentions.py has rows for these.
OF_WORDS = "this word for a sed isn't read as a call"


def unread():
    """What isn't understood is a finding in each format, and makes the status 5."""
    for name, text, due in UNREAD:
        with tempfile.TemporaryDirectory() as folder:
            Path(folder, name).write_bytes(text.encode())
            status, out, err = run(folder, "--format", "json", "--calls", name)
            lines = [json.loads(line) for line in out.decode().splitlines()]
            findings = [line["findings"][0] for line in lines if line.get("answer") == "not-understood"]
            places = [finding for finding in findings if not finding["message"].startswith(OF_WORDS)]
            got = ["%d:%d" % (place["position"]["line"], place["position"]["column"]) for place in places]
            if got != due or (status == 0) == bool(findings) or (lines[-1]["unread"] > len(due)) != (findings != places) or any(place["code"] != "not-understood" for place in places):
                fail("%s %r: status %d, not understood at %s" % (name, text, status, got))
            _, out, _ = run(folder, "--format", "gcc", "--calls", name)
            shown = [line for line in out.decode().splitlines() if line.endswith("[not-understood]")]
            if [":".join(line.split(":")[1:3]) for line in shown if OF_WORDS not in line] != due or len(shown) != len(findings):
                fail("%s %r: gcc %r" % (name, text, out))
            _, out, _ = run(folder, "--calls", name)
            if out.count(b"[not-understood]") != len(findings):
                fail("%s %r: text %r" % (name, text, out))


def scripts_below():
    """Scripts of sed below a folder are explained by themselves."""
    with tempfile.TemporaryDirectory() as folder:
        Path(folder, "a.sh").write_text("sed p\n")
        Path(folder, "b.sed").write_text(":a\nba\n")
        for form in ("text", "gcc", "json"):
            status, out, err = run(folder, "--format", form, "--calls", ".")
            if status != 1 or err or b"b.sed" not in out or b"loop" not in out:
                fail("a script below a folder: %s %d %r" % (form, status, out))
        Path(folder, "b.sed").write_text("p\n")
        status, out, err = run(folder, "--calls", ".")
        if status != 0 or out.decode().splitlines()[-2:] != ["1 call of sed in 1 file: 1 accepted; 1 script", "1 file with calls: 1 all accepted"]:
            fail("a script below a folder: %d %r" % (status, out))
        Path(folder, "c.sh").write_bytes(b"sed p\n" * 700000)
        status, out, err = run(folder, "--format", "json", "--calls", "c.sh")
        if status != 4 or b"it has more than 4,194,304 bytes" not in err:
            fail("a file that is too long: %d %r" % (status, err))


# A literal call: words of single quotes, of double ones without expansions, and of bytes that mean nothing to the shell.
WORD = rb"(?:'[^']*'|\"(?:[^\"$`\\]|\\[^$`\"\\\n])*\"|[A-Za-z0-9_./=,:@%+^-])+"
LITERAL = re.compile(rb"(?:sed)(?:[ \t]+" + WORD + rb")+(?=[ \t]*(?:[|;)&\n`]|[0-9]*[<>]|$))")
BEFORE = re.compile(rb"(?:^|[|;(`&]|\bthen|\bdo|\belse|\bif|[^\w]!)[ \t]*$")


def asked(text, scratch):
    """The words that the shell gives to sed."""
    done = subprocess.run(["/bin/sh", "-c", text], cwd=scratch, env={"PATH": scratch}, capture_output=True)
    return done.stdout.split(b"\0")[:-1]


def is_command(text, start):
    """Whether the shell reads a command at this offset: it is where a parenthesis that closes nothing is a fault, which it isn't in a quoted
    text or a here-document. None where the shell doesn't read the text."""
    for shell in ("/bin/sh", "bash"):
        if subprocess.run([shell, "-n"], input=text, capture_output=True).returncode == 0:
            return subprocess.run([shell, "-n"], input=text[:start] + b")" + text[start:], capture_output=True).returncode != 0
    return None


def scripts_of_machine():
    folders = ["/usr/bin", "/usr/sbin", "/usr/lib", "/usr/share", "/etc", "/var/lib/dpkg/info", "/bin", "/sbin"]
    seen = set()
    for top in folders:
        for folder, inner, files in os.walk(top):
            inner[:] = sorted(name for name in inner if not os.path.islink(os.path.join(folder, name)))
            for name in sorted(files):
                path = os.path.join(folder, name)
                try:
                    if os.path.islink(path) or os.path.getsize(path) > 1000000:
                        continue
                    with open(path, "rb") as file:
                        head = file.read(64)
                        if not re.match(rb"#! ?(/usr)?/bin/(env )?(ba|da|k)?sh\b", head):
                            continue
                        text = head + file.read()
                except OSError:
                    continue
                if text not in seen and b"sed" in text and b"\0" not in text:
                    seen.add(text)
                    yield path, text
        if len(seen) >= 400:
            return


def judged_by_the_shell():
    """The words of each literal call, as the shell gives them; and no literal call is missing."""
    files = compared = others = 0
    names = []
    with tempfile.TemporaryDirectory() as scratch:
        fake = Path(scratch, "sed")
        fake.write_text("#!/bin/sh\nprintf '%s\\0' \"$@\"\n")
        fake.chmod(0o755)
        for path, text in scripts_of_machine():
            files += 1
            status, out, err = run(scratch, "--format", "json", "--as", "sh", "--calls", path)
            calls = {call["call"]["offset"]: call for call in map(json.loads, out.decode().splitlines()) if "call" in call}
            for literal in LITERAL.finditer(text):
                line = text[text.rfind(b"\n", 0, literal.start()) + 1:literal.start()]
                is_descriptor = re.search(rb"[ \t][0-9]+$", literal[0]) and text[literal.end():literal.end() + 1] in (b"<", b">")
                # Words go on behind `>!` of zsh, which is a file `!` to other shells, and from `<(..)` of bash, which is a word.
                goes_on = text[literal.end():].lstrip(b" \t").startswith((b">!", b"<(", b">("))
                if not BEFORE.search(line) or b"#" in line or b"'" in line or b'"' in line or is_descriptor or goes_on:
                    continue
                if literal.start() not in calls:
                    others += 1
                    if is_command(text, literal.start()) is not False:
                        names.append("%s at %d: %r" % (path, literal.start(), literal[0][:60]))
                    continue
                words = [bytes_of(word) for word in calls[literal.start()]["words"]]
                due = asked(literal[0], scratch)
                # Between backquotes the shell takes off some backslashes before it reads the command.
                if words != due and words != asked(b"exec 3>&1; x=`" + literal[0] + b" >&3`", scratch):
                    fail("%s at %d: %s, and for the shell %s" % (path, literal.start(), words, due))
                else:
                    compared += 1
    if names:
        fail("%d literal calls aren't found:\n%s" % (len(names), "\n".join(names)))
    print("calls in files: in %d scripts of this machine %d literal calls have the words that the shell gives; %d that look like one are none for the shell either" % (files, compared, others - len(names)))


M = 1000000
HOSTILE = [
    ("a.sh", "quotes", "'\n" * (M // 2) + "'"), ("a.sh", "double quotes", "sed \"" + "a" * M), ("a.sh", "nested substitutions", "$(" * (M // 2)),
    ("a.sh", "substitutions in quotes", "\"$(" * (M // 3)), ("a.sh", "backquotes", "`" * M + "x`\\`" * 1000), ("a.sh", "parameters", "${" * (M // 2)),
    ("a.sh", "here-documents", "cat <<A\n" * (M // 8)), ("a.sh", "here-documents on a line", "cat " + "<<A " * (M // 4) + "\n"), ("a.sh", "arithmetic", "$((" * (M // 3)),
    ("a.sh", "groups", "(" * M), ("a.sh", "cases", "case x in " * (M // 10)), ("a.sh", "calls", "sed p\n" * (M // 6)), ("a.sh", "calls with holes", "sed \"s/$a/$b/\"\n" * (M // 15)),
    ("a.sh", "values of values", "a0=x\n" + "".join("a%d=$a%d$a%d\n" % (number, number - 1, number - 1) for number in range(1, M // 30)) + "sed \"s/$a3/b/\"\n" * 1000),
    ("a.sh", "values of nothing", "a0=\n" + "".join("a%d=%s\n" % (number, "$a%d" % (number - 1) * 300) for number in range(1, 5)) + "sed \"s/$a4$a4/b/\"\n" * 10000),
    ("a.sh", "four values", "a=t\na=u\na=v\na=w\n" + "sed \"s/$a/b/\"\n" * (M // 20)), ("a.sh", "a value again and again", "a=u\n" * (M // 4) + "sed \"s/$a/b/\"\n" * 1000),
    ("a.sh", "assignments", "".join("a%d=u\n" % index for index in range(M // 10)) + "sed \"s/$a1/b/\"\n" * 1000), ("a.sh", "a long value", "SED='sed " + "-n " * 100000 + "'\n" + "$SED p\n" * 10000),
    ("a.sh", "a long script", "sed '" + "p;" * 2000 + "'\n"), ("a.sh", "texts of shells", "sh -c '" * (M // 7)), ("a.sh", "eval", "eval 'sed p'\n" * (M // 13)),
    ("Makefile", "references", "a:\n\t" + "$(" * (M // 2)), ("Makefile", "recipes", "a:\n" + "\tsed p\n" * (M // 7)), ("Makefile", "shell", "X=" + "$(shell " * (M // 8)),
    ("Makefile", "names of sed", "a:\n\t" + "$(SED) " * (M // 7)), ("Makefile", "continued lines", "a:\n\tsed \\\n" + "\tp \\\n" * (M // 5)),
    ("Dockerfile", "continued lines", "RUN a \\\n" * (M // 8)), ("Dockerfile", "here-documents", "RUN <<A\n" * (M // 8)), ("a.yml", "blocks", "- run: |\n" * (M // 9)), ("a.yml", "depth", "".join(" " * index + "run:\n" for index in range(1400))),
    ("a.spec", "macros", "%build\n" + "%{" * (M // 2)), ("a.spec", "sections", "%build\nsed p\n" * (M // 13)), ("configure.ac", "brackets", "[" * M), ("configure.ac", "quotes", "AC_X([']" * (M // 8)),
]


def hostile():
    slowest = (0, "")
    for name, words, text in HOSTILE:
        begun = time.monotonic()
        try:
            status, calls, counts = explained(text, name, limit=60)
        except subprocess.TimeoutExpired:
            fail("%s, %s: more than 60 seconds" % (name, words))
            continue
        took = time.monotonic() - begun
        slowest = max(slowest, (took, "%s, %s" % (name, words)))
        if status not in (0, 1, 2, 5):
            fail("%s, %s: status %d" % (name, words, status))
        # Of more commands than are kept the first one is reported, and so are the words for a sed on the lines after it.
        if words == "calls" and (counts["accepted"], counts["unread"], status) != (100000, M // 6 - 100000, 5):
            fail("%s, %s: counts %s" % (name, words, counts))
    print("calls in files: %d texts of up to a megabyte, the slowest (%s) in %.1f s" % (len(HOSTILE), slowest[1], slowest[0]))


def many():
    """Ten thousand files."""
    with tempfile.TemporaryDirectory() as folder:
        text = "#!/bin/sh\necho a | sed -n 's/a/b/p' && echo \"$x\"\n" + "for f in *; do test -f \"$f\" && cat \"$f\"; done\n" * 100 + "sed -e 's/a/b/' -e '/c/d' f\n"
        for index in range(10000):
            path = Path(folder, "d%d" % (index // 100), "f%d.sh" % index)
            path.parent.mkdir(exist_ok=True)
            path.write_text(text)
        begun = time.monotonic()
        status, out, err = run(folder, "--format", "gcc", "--calls", ".", limit=300)
        took = time.monotonic() - begun
        if status != 0 or out or err:
            fail("10,000 files: %d %r %r" % (status, out[:200], err[:200]))
        print("calls in files: 10,000 files of five kilobytes with two calls each in %.1f s" % took)


def main():
    for part in (table, places, locales, values, unread, scripts_below, conditions, assumptions, mends, refused_words, folders, judged_by_the_shell, hostile, many):
        part()
    if not failures:
        print("calls in files: %d rows are as they should be" % (len(ROWS) + len(PLACES)))
    return 1 if failures else 0


if __name__ == "__main__":
    sys.exit(main())
