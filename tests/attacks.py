#!/usr/bin/env python3
"""Holds `sedck-explain --calls` against calls that look harmless: python3 tests/attacks.py build/sedck-explain

A file of calls may have the status 0 only where every word that sed gets is known, whatever the environment, the arguments and the
files are, or what isn't known is told as a condition (status 5). Each row of ROWS has a file and a run of it that does harm: sed
never ends, writes the file `evil`, a command makes it, sed refuses its script, or its input grows or is emptied. First comes the run, with a real shell, `make` or
`find`, so that the table stays true; then the program is asked. What is due comes from the rule and from that run: an answer that
leaves the call open, with a condition that rules the run's values out; or one that tells of the harm, a loop or the file `evil`. A
call that isn't found must be told as a place that isn't understood. Other rows are calls that must be found, and innocent ones,
which must be accepted, so that the rule isn't met by leaving everything open. Long files have limits of time and memory.

The status is 0 only where all is as it should be.
"""
import collections
import concurrent.futures
import functools
import json
import os
import re
import shlex
import shutil
import signal
import subprocess
import sys
import tempfile
from pathlib import Path
from typing import NamedTuple

from skips import skip

PROGRAM = os.path.abspath(sys.argv[1])
LOOPS, WRITES, RUNS, REFUSED = "never ends", "writes `evil`", "runs a command that makes `evil`", "is refused by sed"
GROWS, EMPTIES = "has `big` grow to the limit of the run", "empties `f`"
OPEN = {"accepted-if", "unknown"}
FOUND = OPEN | {"accepted"}
ACCEPTED = {"accepted"}
# Files that are in the folder of each run.
MY = "#!/bin/sh\n> evil\n"
AROUND = {"f": "aab\n", "es": "w evil\n", "conf": "s='w evil'\n"}
# How long a run may take, in seconds.
LIMIT = 2
failures = []


class Row(NamedTuple):
    name: str
    text: str
    # Assignments and words, run without a shell of its own; nothing where no program here would run the text.
    run: str = ""
    harm: str = ""
    file: str = "a.sh"
    files: dict = {}
    options: tuple = ()
    # What is given to `--calls`, if it isn't the file.
    asked: str = ""
    # The values that do the harm, beside those in `run`.
    values: tuple = ()
    due: set = OPEN
    # Where the one call is, if it must be found, and its words. Without a place it may be told as one that isn't understood.
    place: str = ""
    words: tuple = ()
    # A warning that an accepted call must have.
    warning: str = ""
    may_have_no_call: bool = False
    # Whether a place that isn't understood must be told, whatever is said of calls.
    is_told: bool = False


# ---- Conditions that must rule out the values of the run

QUOTE = "a' -f es '"
CONDITIONS = [
    Row("an empty value before ^", 'sed ":a;s/$x^a/a/;ta" f\n', "x= sh a.sh", LOOPS),
    Row("an empty value behind $", 'sed ":a;s/b\\$$x/b/;ta" f\n', "x= sh a.sh", LOOPS),
    Row("an empty value behind $ alone", 'sed ":a;s/\\$$x//;ta" f\n', "x= sh a.sh", LOOPS),
    Row("an empty value before ^ in a group", 'sed ":a;s/\\($x^a\\)/a/;ta" f\n', "x= sh a.sh", LOOPS),
    Row("an empty value behind $ in a group", 'sed ":a;s/\\(b\\$$x\\)/b/;ta" f\n', "x= sh a.sh", LOOPS),
    Row("two empty values before ^", 'sed ":a;s/$x$y^a/a/;ta" f\n', "x= y= sh a.sh", LOOPS),
    Row("an empty value as an expression", 'sed "s/$x/y/" f\n', "x= sh a.sh", REFUSED),
    Row("an empty value as an address", 'sed "/$x/p" f\n', "x= sh a.sh", REFUSED),
    Row("an empty value as a text", 'sed "a $x" f\n', "x= sh a.sh", REFUSED),
    Row("a quote in a value of make", "all:\n\t@sed -n 's/a/$(X)/' f\n", 'X="%s" make' % QUOTE, WRITES, "Makefile"),
    Row("a backquote in a value of make", 'all:\n\t@sed -n "s/a/$(X)/" f\n', "X='`touch evil`b' make", RUNS, "Makefile"),
    Row("an operator in a value of make", "all:\n\t@sed -n s/a/$(X)/ f\n", "X='b;>evil;echo' make", RUNS, "Makefile"),
    Row("a quote in a value of a template", "sed -n 's/a/@X@/' f\n", "sh x.sh", WRITES, "x.sh.in",
        {"x.sh": "sed -n 's/a/%s/' f\n" % QUOTE}, values=(QUOTE,)),
    Row("a quote in a value of a spec file", "%build\nsed -n 's/a/%{x}/' f\n", file="a.spec", values=(QUOTE,)),
    Row("a quote in a value of an action", "jobs:\n  a:\n    steps:\n      - run: sed -n 's/a/${{ inputs.x }}/' f\n", file="ci.yml",
        values=(QUOTE,)),
    Row("a quote in a value of eval", "eval \"sed -n 's/a/$x/' f\"\n", 'x="%s" sh a.sh' % QUOTE, WRITES),
    Row("a command in a value of eval", "eval \"sed -n 's/a/$x/' f\"\n", "x=\"a'; >evil; echo '\" sh a.sh", RUNS),
    Row("a quote in a value of sh -c", "sh -c \"sed -n 's/a/$x/' f\"\n", 'x="%s" sh a.sh' % QUOTE, WRITES),
    Row("a quote in a value of su -c", "su root -c \"sed -n 's/a/$x/' f\"\n", 'x="%s" sh a.sh' % QUOTE, WRITES),
    Row("a quote in a value of trap", "trap \"sed -n 's/a/$x/' f\" EXIT\n", 'x="%s" sh a.sh' % QUOTE, WRITES),
    Row("a quote in a here-document of sh", "sh <<E\nsed -n 's/a/$x/' f\nE\n", 'x="%s" sh a.sh' % QUOTE, WRITES),
    Row("$@ between double quotes", 'sed -n "s/a/b/;a $@" f\n', "sh a.sh x -f es", WRITES),
    Row("an array between double quotes", 'a=("$@")\nsed -n "s/a/b/;a ${a[@]}" f\n', "bash a.sh x -f es", WRITES),
    Row("another IFS", "IFS=:\nsed -n s/a/$x/ f\n", "x=b:-fes: sh a.sh", WRITES),
]

# ---- Words that sed gets, and that aren't those of the file

HERE = "sed -n -f - f <<'E' %s\np\nE\n"
# Of a file: what comes before its second line is a whole `s` or address.
NAME = "z|p\nw evil\n#"
OTHER_WORDS = [
    Row("a file behind a here-document", HERE % "< es", "sh a.sh", WRITES),
    Row("a here-string behind a here-document", HERE % "<<< 'w evil'", "bash a.sh", WRITES),
    Row("a descriptor behind a here-document", "exec 3< es\n" + HERE % "<&3", "sh a.sh", WRITES),
    Row("a descriptor with a number behind a here-document", "exec 3< es\n" + HERE % "0<&3", "sh a.sh", WRITES),
    Row("a file that is opened for both behind a here-document", HERE % "<> es", "sh a.sh", WRITES),
    Row("a process behind a here-document", HERE % "< <(echo w evil)", "bash a.sh", WRITES),
    Row("a variable of make that a template gives", "X = @X@\nall:\n\tsed -n 's/$(X)/b/' f\n", "make", LOOPS, "Makefile.in",
        {"Makefile": "X = a/b/;:a;ba;s/\nall:\n\tsed -n 's/$(X)/b/' f\n"}, values=("a/b/;:a;ba;s/",)),
    Row("a script that a template gives", "transform = @program_transform_name@\nall:\n\techo a | sed '$(transform)'\n", "make", WRITES,
        "Makefile.in", {"Makefile": "transform = w evil\nall:\n\techo a | sed '$(transform)'\n"}),
    Row("a sed that is set twice", "SED=sed\ncase $(uname) in Darwin) SED='sed -E';; *) SED='sed -r';; esac\n$SED ':a;s/ab?/a/;ta' f\n",
        "sh a.sh", LOOPS),
    Row("a sed of the environment", "${SED-sed} p f\n", "SED='sed -f es' sh a.sh", WRITES),
    Row("a sed of the environment, set to itself", "SED=${SED:-sed}\n$SED p f\n", "SED='sed -f es' sh a.sh", WRITES),
    Row("options behind -l5", "sed -n -l5$x p f\n", "x=' -ewevil' sh a.sh", WRITES),
    Row("options behind -i", "sed -i$x 1d f\n", "x=' -ewevil' sh a.sh", WRITES),
    Row("POSIXLY_CORRECT before the call", "POSIXLY_CORRECT=1 sed 'w evil' -e p f\n", "sh a.sh", WRITES),
    Row("POSIXLY_CORRECT of export", "export POSIXLY_CORRECT=1\nsed 'w evil' -e p f\n", "sh a.sh", WRITES),
    Row("POSIXLY_CORRECT of env", "env POSIXLY_CORRECT=1 sed 'w evil' -e p f\n", "sh a.sh", WRITES),
    Row("braces", "sed p {f,-ewevil}\n", "bash a.sh", WRITES),
    Row("a name that find puts into a replacement", "find . -name 'z*' -exec sed -n 's|a|{}|' f \\;\n", "sh a.sh", WRITES,
        files={NAME: ""}, values=(NAME,)),
    Row("a name that find puts into an address", "find . -name 'z*' -exec sed '\\|{}|d' f \\;\n", "sh a.sh", WRITES, files={NAME: ""},
        values=(NAME,)),
    Row("a name that xargs puts into a replacement", "find . -name 'z*' -print0 | xargs -0 -I{} sed -n 's|a|{}|' f\n", "sh a.sh", WRITES,
        files={NAME: ""}, values=(NAME,)),
    # Names and lines that are put into the text of a shell. Of two options some programs obey the last one.
    Row("a name that find puts into a shell's text", "find . -name 'z*' -exec sh -c 'sed -n \"s|a|{}|\" f' \\;\n", "sh a.sh", WRITES, files={NAME: ""},
        values=(NAME,)),
    Row("a name that find puts into an operand of a shell's text", "find . -name 'x*' -exec sh -c 'sed p {}' \\;\n", "sh a.sh", WRITES,
        files={"x; >evil;": ""}, values=("x; >evil;",)),
    Row("options in a name that find puts into a shell's text", "find . -name 'x*' -exec sh -c 'sed p {}' \\;\n", "sh a.sh", WRITES,
        files={"x -e 'w evil'": ""}, values=("x -e 'w evil'",)),
    Row("a name that find puts into a shell's text in a shell's text", "find . -name 'z*' -exec sh -c \"sh -c 'sed -n \\\"s|a|{}|\\\" f'\" \\;\n", "sh a.sh", WRITES,
        files={NAME: ""}, values=(NAME,)),
    Row("a name that find puts into a shell's text in a makefile", "all:\n\t@find . -name 'z*' -exec sh -c 'sed -n \"s|a|{}|\" f' \\;\n", "make", WRITES, "Makefile",
        files={NAME: ""}, values=(NAME,)),
    Row("a name that find puts into a value", "s='s|a|{}|'\nfind . -name 'z*' -exec sed -n \"$s\" f \\;\n", "sh a.sh", WRITES, files={NAME: ""},
        values=(NAME,)),
    Row("a name that find puts into a value that is given", "find . -name 'z*' -exec sed -n \"$s\" f \\;\n", "s='s|a|{}|' sh a.sh", WRITES, files={NAME: ""},
        values=(NAME,), options=("--assume", "s=s|a|{}|")),
    Row("a line that xargs puts into the words of find", "printf 'p;w evil\\n' | xargs -I%% find f -exec sed -n '%%' {} \\;\n".replace("%%", "%"), "sh a.sh", WRITES,
        values=("p;w evil",)),
] + [Row("a line that xargs puts in by " + how, "printf 'z|p\\nw evil\\n#\\0' | xargs " + how + "\n", "sh a.sh", WRITES, values=(NAME,)) for how in [
    "-0 -I% sh -c 'sed -n \"s|a|%|\" f'",
    "-0 -I{} env sh -c 'sed -n \"s|a|{}|\" f'",
    "-0 -i sh -c 'sed -n \"s|a|{}|\" f'",
    "-0I% sed -n 's|a|%|' f",
    "-0rI % sed -n 's|a|%|' f",
    "-0ri sed -n 's|a|{}|' f",
    "-0 --repl=% sed -n 's|a|%|' f",
    "-0 --repl sed -n 's|a|{}|' f",
    "-0 -I{} -I% sed -n 's|a|%|' f",
    "-0 -I% -i sed -n 's|a|{}|' f",
]] + [
    Row("an operand that xargs adds behind a replacement", "echo -ewevil | xargs -I% -n2 sed p f\n", "sh a.sh", WRITES),
    Row("options of xargs that aren't known", "printf 'z|p\\nw evil\\n#\\0' | xargs -0I$x sed -n 's|a|%|' f\n", "x=% sh a.sh", WRITES),
    Row("$'..' in a shell without it", "#!/bin/sh\nsed $'s/a/\\\\/;:a;ba;#/' f\n", "dash a.sh", LOOPS),
    Row('$".." in a shell without it', "#!/bin/sh\nsed ':a;s/[$]x*/'$\"/;ta\" f\n", "dash a.sh", LOOPS, files={"f": "a$xxb\n"}),
    Row("$'..' in a here-document of another shell", "#!/bin/bash\ndash <<'E'\nsed $'s/a/\\\\/;:a;ba;#/' f\nE\n", "bash a.sh", LOOPS),
    Row("$'..' in the text of another shell", "#!/bin/bash\ndash -c \"sed \\$'s/a/\\\\\\\\/;:a;ba;#/' f\"\n", "bash a.sh", LOOPS),
    Row("$'..' in the text of another shell that find calls", "#!/bin/bash\nfind f -exec dash -c \"sed \\$'s/a/\\\\\\\\/;:a;ba;#/' f\" \\;\n", "bash a.sh", LOOPS),
    Row("$'..' in the text of another shell that xargs calls", "#!/bin/bash\necho f | xargs dash -c \"sed \\$'s/a/\\\\\\\\/;:a;ba;#/' f\"\n", "bash a.sh", LOOPS),
    Row('$".." in the text of another shell', "#!/bin/bash\ndash -c \"sed ':a;s/[\\$]x*/'\\$\\\"/;ta\\\" f\"\n", "bash a.sh", LOOPS, files={"f": "a$xxb\n"}),
    Row("$'..' between backquotes", "x=`sed 's/a/\\\\'$'\\\\\\\\''/;:a;ba;#/' f`\n", "bash a.sh", LOOPS),
    Row("a tilde behind a colon", 's=s:~:a:\nsed "$s" f\n', "HOME='q:b:;:a;ba;s:z' sh a.sh", LOOPS),
    Row("a NUL byte", '#!/bin/sh\n# \0\nsed -n "w evil" f\n', "dash n.sh", WRITES, "n.sh", options=("--as", "sh")),
    Row("$1 behind the script", 'sed p "$1"\n', "sh a.sh -ewevil", WRITES),
    Row("$@ behind the script", 'sed p "$@"\n', "sh a.sh -e 'w evil' f", WRITES),
    Row("$@ behind the script, with a loop", 'sed p "$@"\n', "sh a.sh -e ':x;bx' f", LOOPS),
    Row("a variable behind the script", "sed p $files\n", "files='-ewevil f' sh a.sh", WRITES),
    Row("a variable behind the script, with a loop", "sed p $FILES\n", "FILES='-e :x;bx f' sh a.sh", LOOPS),
    Row("a pattern behind the script", "sed p *\n", "sh a.sh", WRITES, files={"-ewevil": ""}),
    Row("a tilde behind the script", "sed p ~\n", "HOME=-ewevil sh a.sh", WRITES),
    Row("an array behind the script", 'sed p "${a[@]}"\n', "a=-ewevil bash a.sh", WRITES),
    Row("a function's words behind the script", "strip() { sed p \"$@\"; }\nstrip -e 'w evil' f\n", "sh a.sh", WRITES),
    Row("names that find has from a list", "printf -- '-ewevil\\0' | find -files0-from - -exec sed p {} \\;\n", "sh a.sh", WRITES, files={"-ewevil": ""},
        values=("-ewevil",)),
    Row("names that find has from a list by a variable", "find $dirs -exec sed p {} \\;\n", "dirs='-files0-from list' sh a.sh", WRITES, files={"-ewevil": "", "list": "-ewevil\0"},
        values=("-ewevil",)),
    Row("names that find has from a list by its words", 'find "$@" -exec sed p {} \\;\n', "sh a.sh -files0-from list", WRITES, files={"-ewevil": "", "list": "-ewevil\0"},
        values=("-ewevil",)),
    Row("names that find has from a list by one word", 'find "$x" list -exec sed p {} \\;\n', "x=-files0-from sh a.sh", WRITES, files={"-ewevil": "", "list": "-ewevil\0"},
        values=("-ewevil",)),
    Row("a folder of the sed", "$dir/sed p f\n", "dir='sed -n -f es /bin' sh a.sh", WRITES),
    Row("what make puts before a sed", "all:\n\t@$(Q)sed p f\n", "Q='sed -n -f es ' make -e", WRITES, "Makefile"),
    Row("what a variable puts before a sed", "$x sed p f\n", "x='sed -n -f es' sh a.sh", WRITES),
    Row("an empty suffix of -i", "sed -i '' 'w evil' f\n", due={"unknown"}),
    Row("a descriptor with two zeros", "sed -n -f - f <<B 00<<A\np\nB\nw evil\nA\n", "bash a.sh", WRITES),
    Row("a pattern that vanishes", "shopt -s nullglob\nsed s/a*/b/ 'w evil' f\n", "bash a.sh", WRITES),
    Row("a pattern that vanishes in a makefile", "SHELL = bash -O nullglob\nall:\n\t@sed s/a*/b/ 'w evil' f\n", "make", WRITES, "Makefile"),
    Row("a pattern that vanishes by the environment", "sed s/a*/b/ 'w evil' f\n", "BASHOPTS=nullglob bash a.sh", WRITES),
    Row("a number in braces before a redirection", "#!/bin/bash\nsed {9}>g p f\n", "bash a.sh", REFUSED),
    Row("a control character of ksh", "#!/bin/ksh\nsed -n $'s/a/\\C/#/;w evil\\n' f\n", "ksh a.sh", WRITES),
]

# ---- Words that some shells read in another way: each place must be told

LOOP_VALUE = "x='a/b/;:a;ba;s/' "
OTHER_READINGS = [Row("read otherwise: " + name, text, run, harm, files=files, due=FOUND, is_told=True) for name, run, harm, text, files in [
    ("a dollar sign before lines that are joined", LOOP_VALUE + "dash a.sh", LOOPS, 'sed "s/$\\\nx/b/" f\n', {}),
    ("a dollar sign before lines that are joined, in bash", LOOP_VALUE + "bash a.sh", LOOPS, "#!/bin/bash\nsed s/$\\\nx/b/ f\n", {}),
    ("a name in lines that are joined", "xy='a/b/;:a;ba;s/' dash a.sh", LOOPS, 'sed "s/$x\\\ny/b/" f\n', {}),
    ("an operator in lines that are joined", "dash a.sh", WRITES, "cat <\\\n<E\nit's\nE\nsed -n 'w evil' f; echo 's; sed -n p f'\n", {}),
    ("two digits before a redirection", "dash a.sh", WRITES, "#!/bin/sh\nsed -e p -l 12>g -e 'w evil' f\n", {}),
    ("a name before a redirection", "dash a.sh", REFUSED, "#!/bin/sh\nsed {foo}>g p f\n", {}),
    (">; of ksh", "ksh a.sh", WRITES, "#!/bin/ksh\nsed p >;g -e 'w evil' f\n", {}),
    ("<# of ksh", "ksh a.sh", WRITES, "#!/bin/ksh\nsed p < f <#((1)) -e 'w evil' f\n", {}),
    ("a pattern of zsh that vanishes", "zsh a.sh", WRITES, "#!/bin/zsh\nsed p(N) 'w evil' f\n", {}),
    ("a pattern of zsh that runs a text", "zsh a.sh", WRITES, "#!/bin/zsh\nsed p f(e:'sed wevil f':)\n", {}),
    ("a pattern of zsh that runs a text behind a sign", "zsh a.sh", WRITES, "#!/bin/zsh\nsed p *(e:'sed wevil f':)\n", {}),
]] + [Row("read otherwise: " + name, "#!/bin/zsh\n" + text, "zsh a.sh", harm, files=files, due=FOUND, is_told=True) for name, harm, text, files in [
    ("a brace that ends a command", WRITES, "{ sed -n 'w evil' f }\n", {}),
    ("two quotes that are one", LOOPS, "setopt Rc_Quotes\nsed ':a;s/''*//;ta' f\n", {}),
    ("a quote that ends with the line", REFUSED, "setopt cshjunkiequotes\nsed 's/a/\\\n/' f\n", {}),
    ("a sign of patterns", REFUSED, "setopt extendedglob\nsed -n s#a#b# f\n", {"sab": ""}),
    ("a here-document behind a pipe", WRITES, "cat es | sed -n -f - f <<'E'\np\nE\n", {}),
    ("a here-document behind a file", WRITES, "sed -n -f - f < es <<'E'\np\nE\n", {}),
    ("two here-documents", WRITES, "sed -n -f - f <<'A' <<'E'\nw evil\nA\np\nE\n", {}),
]]

# ---- Programs, functions and aliases in place of a sed, or of what runs it, and settings: a yes is about the program that is named

# Where the file's text has the name of the sed as a word elsewhere, that place is told.
OTHER_PROGRAMS = [Row("in place of the sed: " + name, text, run, harm, file, files, due=FOUND, is_told=True) for name, run, harm, text, file, files in [
    ("a function", "sh a.sh", WRITES, "sed() { command sed -e 'w evil' \"$@\"; }\nsed p f\n", "a.sh", {}),
    ("a function behind a newline", "bash a.sh", RUNS, "function sed\n{ > evil; }\nsed p f\n", "a.sh", {}),
    ("a function in parentheses", "bash a.sh", RUNS, "function sed (> evil)\nsed p f\n", "a.sh", {}),
    ("a function whose name isn't known", "sh a.sh", RUNS, 'n=sed\neval "$n() { > evil; }"\nsed p f\n', "a.sh", {}),
    ("a function from a text", "bash a.sh", RUNS, "source <(echo 'sed() { : > evil; }')\nsed p f\n", "a.sh", {}),
    ("an alias", "sh a.sh", WRITES, "alias sed='sed -n -f es'\nsed p f\n", "a.sh", {}),
    ("an alias with another language", "sh a.sh", LOOPS, "alias sed='sed -E'\nsed ':a;s/ab?/a/;ta' f\n", "a.sh", {}),
    ("an alias whose name isn't known", "dash a.sh", WRITES, 'n=sed\nalias "$n=sed -n -f es"\nsed p f\n', "a.sh", {}),
    ("a path that hash has", "bash a.sh", RUNS, "chmod +x my\nhash -p ./my sed\nsed p f\n", "a.sh", {"my": MY}),
    ("a path that a value of hash has", "bash a.sh", RUNS, "chmod +x my\nh=hash; $h -p ./my sed\nsed p f\n", "a.sh", {"my": MY}),
    ("a table of paths", "bash a.sh", RUNS, "chmod +x my\nBASH_CMDS[sed]=./my\nsed p f\n", "a.sh", {"my": MY}),
    ("a table of aliases", "bash a.sh", WRITES, "shopt -s expand_aliases\nBASH_ALIASES[sed]='sed -n -f es'\nsed p f\n", "a.sh", {}),
    ("a table of functions", "zsh a.sh", WRITES, "#!/bin/zsh\nfunctions[sed]='command sed -n -f es f'\nsed p f\n", "a.sh", {}),
    ("a macro of M4", "sh made.sh", WRITES, "m4_define([sed],[sed -n -f es; :])\nsed p f\n", "configure.ac", {"made.sh": "sed -n -f es; : p f\n"}),
]]

# Else nothing is said: docs/CALLS.md has it in one sentence.
LIST = {"list": "-ewevil\n"}
NOBODYS = [Row("nobody's: " + name, text, run, harm, file, files, due=FOUND) for name, run, harm, text, file, files in [
    ("a function named command", "bash a.sh", WRITES, "command() { sed -n -f es f; }\ncommand sed p f\n", "a.sh", {}),
    ("a function named find", "bash a.sh", WRITES, "find() { sed -n -f es f; }\nfind . -exec sed p {} \\;\n", "a.sh", {}),
    ("an alias named command", "sh a.sh", WRITES, "alias command='sed -n -f es f; command'\ncommand sed p f\n", "a.sh", {}),
    ("a function time", "dash a.sh", RUNS, "time() { > evil; }\ntime sed p f\n", "a.sh", {}),
    ("an alias for any word", "zsh a.sh", WRITES, "#!/bin/zsh\nalias -g p='-n -f es'\nsed p f\n", "a.sh", {}),
    ("an option of quotes", "zsh a.sh", LOOPS, "#!/bin/zsh\nsetopt Rc_Quotes\nsed ':a;s/''*//;ta' f\n", "a.sh", {}),
    ("set -k", "bash a.sh", WRITES, "set -k\nsed a=b 'w evil' f\n", "a.sh", {}),
    ("bash -k in the first line", "bash -k a.sh", WRITES, "#!/bin/bash -k\nsed a=b 'w evil' f\n", "a.sh", {}),
    ("-k of make", "make", WRITES, "SHELL = bash\n.SHELLFLAGS = -kc\nall:\n\t@sed a=b 'w evil' f\n", "Makefile", {}),
    ("a variable of the shell's start", "sh a.sh", RUNS, "export BASH_ENV=./es2\nbash -c 'sed p f'\n", "a.sh", {"es2": "sed() { > evil; }\n"}),
    ("another program by the path", "bash a.sh", RUNS, "chmod +x b/*\nPATH=b:$PATH\nhash -r\nsed p f\n", "a.sh", {"b/sed": MY}),
]]

# ---- Values before a call and in its redirections, which may be other words of it

BEFORE = [Row("a value " + name, text, run, WRITES, files=LIST) for name, run, text in [
    ("behind an option of nice", "n='5 xargs -a list' sh a.sh", "nice -n $n sed p f\n"),
    ("before the call of timeout", "t='5 xargs -a list' sh a.sh", "timeout $t sed p f\n"),
    ("that env assigns", "y='5 xargs -a list' sh a.sh", "env X=$y sed p f\n"),
    ("that eval assigns", "y='f xargs -a list' sh a.sh", 'eval "X=$y sed p f"\n'),
    ("of a redirection in eval", "y='f -ewevil' sh a.sh", 'eval "sed p f > $y"\n'),
    ("of a redirection in quotes", "y=\"f' -ewevil '\" sh a.sh", "eval \"sed p f > '$y'\"\n"),
    ("among the folders of find", "dir='f -exec sed -n -f es --' sh a.sh", "find ./$dir -type f -exec sed -n p {} \\;\n"),
]] + [Row("a value of make " + name, "all:\n\t@%s\n" % text, run, WRITES, "Makefile", files=LIST) for name, run, text in [
    ("that is assigned", "Y='5 xargs -a list' make", "X=$(Y) sed p f"),
    ("to which the output goes", "Y='g -ewevil' make", "sed p f > $(Y)"),
    ("to which the errors go", "Y='g -ewevil' make", "sed p f 2>> $(Y)"),
    ("from which the input comes", "Y='f -ewevil' make", "sed p < $(Y)"),
]] + [Row("a command that find asks of", "yes | find f -ok sed p {} + -e 'w evil' \\;\n", "sh a.sh", WRITES)]

# ---- Macros of M4, of which m4 makes other text

MACROS = [Row("a macro of M4 that is defined by " + how, before + call, "sh made.sh", WRITES, "configure.ac", files={"made.sh": made})
          for how, before, call, made in [
    ("AC_DEFUN", "AC_DEFUN([MY_RE],[b/;w evil\n#])\n", "sed -n 's/a/MY_RE/' f\n", "sed -n 's/a/b/;w evil\n#/' f\n"),
    ("m4_define", "m4_define([abc],[w evil])\n", "sed -n 'abc' f\n", "sed -n 'w evil' f\n"),
    ("m4_define with blanks", "m4_define( [abc], [w evil])\n", "sed -n 'abc' f\n", "sed -n 'w evil' f\n"),
    ("define", "define(abc, w evil)\n", "sed -n 'abc' f\n", "sed -n 'w evil' f\n"),
    ("M4 itself", "", "sed -n \"ifelse(a,a,w evil)\" f\n", "sed -n \"w evil\" f\n"),
    ("M4 itself, between the quotes of a shell", "AC_DEFUN([X],[sed -n '$1' f])\n", "X([w evil])\n", "sed -n 'w evil' f\n"),
    ("M4 itself, as lines that are joined", "", "sed -n p f dnl x\n-e 'w evil'\n", "sed -n p f -e 'w evil'\n"),
    ("AC_DEFUN, as an operand", "AC_DEFUN([MY_FILES],[-e 'w evil' f])\n", "sed p MY_FILES\n", "sed p -e 'w evil' f\n"),
]]

# Macros of spec files, of which rpm 4.18 makes other text.
SPECS = [Row("a spec file: " + name, text, "sh made.sh", harm, "a.spec", {"made.sh": made, **files}, **more) for name, harm, text, made, files, more in [
    ("an option", LOOPS, "%build\nsed ':a;s/%-x[a]*//;ta' f\n", "sed ':a;s/[a]*//;ta' f\n", {}, {"values": ("",)}),
    ("a sign before a short name", LOOPS, "%build\nsed ':a;s/%?x[a]*//;ta' f\n", "sed ':a;s/[a]*//;ta' f\n", {}, {"values": ("",)}),
    ("a short name", LOOPS, "%global ab a*\n%build\nsed ':a;s/%ab//;ta' f\n", "sed ':a;s/a*//;ta' f\n", {}, {"values": ("a*",)}),
    ("a comment behind words", WRITES, "%build\nsed -n p f %dnl x\n-e 'w evil'\n", "sed -n p f -e 'w evil'\n", {}, {}),
    ("a definition behind words", WRITES, "%build\nsed -n p f %global x y\n-e 'w evil'\n", "sed -n p f -e 'w evil'\n", {}, {}),
    ("a section in a branch that isn't taken", WRITES, "%build\n%if 0\n%files\n%endif\nsed -n 'w evil' f\n", "sed -n 'w evil' f\n", {}, {"due": FOUND, "is_told": True}),
    ("a section in large letters", WRITES, "%Build\nsed -n 'w evil' f\n", "sed -n 'w evil' f\n", {}, {"due": FOUND, "is_told": True}),
    ("a bracket behind a backslash", WRITES, "%build\nsed -n 's/a/b%{?x:\\}/#}/;w evil\n' f\n", "sed -n 's/a/b/;w evil\n' f\n", {}, {}),
]]

# ---- Values that the file seems to set: each run has another one than `p`

GIVEN = "s='w evil' sh a.sh"
VALUES = [Row("a value that is set " + how, before + 'sed "$s" f\n', run, WRITES) for how, before, run in [
    ("in a list that isn't run", '[ -n "$s" ] || s=p\n', GIVEN),
    ("in a branch that isn't taken", "if false; then s=p; fi\n", GIVEN),
    ("in a case that isn't taken", "case x in y) s=p;; esac\n", GIVEN),
    ("in a subshell", "(s=p)\n", GIVEN),
    ("in a pipe", "echo | s=p\n", GIVEN),
    ("in the background", "s=p &\n", GIVEN),
    ("in a substitution", "x=$(s=p)\n", GIVEN),
    ("in a function that isn't called", "g() { s=p; }\n", GIVEN),
    ("within a function alone", "g() { local s=p; }\ng\n", GIVEN),
    ("again in another file", "s=p\n. ./conf\n", "sh a.sh"),
    ("again by eval and its name", "s=p\neval \"$v='w evil'\"\n", "v=s sh a.sh"),
    ("again by eval and arguments", 's=p\neval "$1=\\$2"\n', "sh a.sh s 'w evil'"),
    ("again by eval and a variable", 's=p\neval "$x"\n', "x='s=\"w evil\"' sh a.sh"),
    ("again by declare -n", "s=p\ndeclare -n r=s\nr='w evil'\n", "bash a.sh"),
    ("again by printf -v", "s=p\nprintf -v $n 'w evil'\n", "n=s bash a.sh"),
    ("again by read and its name", "s=p\nread $n < es\n", "n=s sh a.sh"),
    ("again by builtin read", "s=p\nbuiltin read s < es\n", "bash a.sh"),
    ("again by command -p read", "s=p\ncommand -p read s < es\n", "sh a.sh"),
    ("again by an alias", "s=p\nalias change='s=\"w evil\"'\nchange\n", "sh a.sh"),
    ("before by readonly", "readonly s\ns=p\n", "s='w evil' bash a.sh"),
    ("again by command -- read", "s=p\ncommand -- read s < es\n", "sh a.sh"),
    ("again by builtin -- read", "s=p\nbuiltin -- read s < es\n", "bash a.sh"),
    ("again by read -as", "s=p\nIFS= read -as < es\n", "bash a.sh"),
    ("beside a redirection that fails", "s=p < missing\n", "s='w evil' dash a.sh"),
    ("again by nameref", "s=p\nnameref r=s\nr='w evil'\n", "ksh a.sh"),
    ("again by set -A", "s=p\nset -A s 'w evil'\n", "ksh a.sh"),
    ("again by a discipline", "s=p\nfunction s.get { .sh.value='w evil'; }\n", "ksh a.sh"),
    ("again by ${ }", "s=p\n: ${ s='w evil'; }\n", "ksh a.sh"),
    ("again by print -v", "s=p\nprint -v s 'w evil'\n", "zsh a.sh"),
    ("again by ${::=}", "s=p\n: ${s::='w evil'}\n", "zsh a.sh"),
]] + [Row("a value that is set behind the call", 'sed "$s" f\ns=p\n', GIVEN, WRITES)
] + [Row("a number that is set " + how, "s=1\n" + before + 'sed ":a;s/ab\\{$s\\}/a/;ta" f\n', run, LOOPS) for how, before, run in [
    ("in an expression of two lines", "((\ns=0\n))\n", "bash a.sh"),
    ("in an expression between brackets", ": $[s=0]\n", "bash a.sh"),
    ("in the length of a part", "x=a\n: ${x:s=0:1}\n", "bash a.sh"),
    ("in the index of an array", "a[s=0]=x\n", "bash a.sh"),
    ("in a comparison", "[[ s=0 -eq 0 ]]\n", "bash a.sh"),
    ("behind other parentheses", "x=$(( ((1)) + (s=0) ))\n", "bash a.sh"),
    ("by test -v", "test -v 'y[s=0]'\n", "bash a.sh"),
    ("by unset", "y=(a)\nunset 'y[s=0]'\n", "bash a.sh"),
    ("by a number of the environment", "n=$((n+1))\n", "n=s=0 bash a.sh"),
    ("by another variable's text", "x='s=0'\n: $((x))\n", "bash a.sh"),
]] + [Row("a variable of the shell, %s" % name, '%s=p\nsed "$%s" f\n' % (name, name), "bash a.sh", REFUSED)
      for name in ("BASH_VERSINFO", "BASHPID", "BASH_SUBSHELL")] + [
    Row("a value that is a number, by %s" % how, 's=p\n%s\nsed "$s" f\n' % text, run, REFUSED) for how, text, run in [
        ("a redirection of bash", ": {s}>g", "bash a.sh"), ("a redirection of zsh", "exec {s}>g", "zsh a.sh"), ("a redirection of ksh", "exec {s}<f", "ksh a.sh"),
        ("wait", "true &\nwait -n -p s", "bash a.sh"), ("letters of wait", "true &\nwait -np s", "bash a.sh")]]
VALUES_OF_MAKE = [Row("a value of make that is set " + how, before + "all:\n\t@sed '$(X)' f\n", run, WRITES, "Makefile", {"conf.mk": "X = w evil\n"})
                  for how, before, run in [
    ("by ?=", "X ?= p\n", "X='w evil' make"),
    ("again by include", "X = p\ninclude conf.mk\n", "make"),
    ("again by eval", "X = p\n$(eval X = w evil)\n", "make"),
    ("again by its name", "N = X\nX = p\n$(N) = w evil\n", "make"),
    ("behind ifdef", "ifdef Y\nX = p\nendif\n", "X='w evil' make"),
]] + [Row("a value of make that is set again on the command line", "X = p\nall:\n\t@sed '$(X)' f\n", "make 'X=w evil'", WRITES, "Makefile",
          due={"accepted-if"}),
     Row("a value of make that is set again by foreach", "X = p\nrun = sed '$(X)' f\nall:\n\t@$(foreach X,wevil,$(run))\n", "make", WRITES, "Makefile"),
     Row("a value of make that is set again by the environment", "X = p\nall:\n\t@sed '$(X)' f\n", "MAKEFILES=conf.mk make", WRITES, "Makefile",
         {"conf.mk": "override X = w evil\n"})]

# ---- Calls that are there

ACTION = "jobs:\n  a:\n    steps:\n      - run: %s\n"
SCRIPT = ("-n", "w evil", "f")
PLAIN = ("-n", "s/a/b/", "f")
RECALL = [
    Row("a sed that configure finds", "SED = @SED@\nall:\n\t$(SED) 1d f\n", file="Makefile.in", due=FOUND, place="3:2", words=("1d", "f")),
    Row("a value that a tab continues", "X = : ;\\\n\tsed -n 'w evil' f\nall:\n\t$(X)\n", "make", WRITES, "Makefile", due=FOUND,
        place="2:2", words=SCRIPT),
    Row("a value that a blank and a tab continue", "X = : ; \\\n\tsed -n 'w evil' f\nall:\n\t$(X)\n", "make", WRITES, "Makefile",
        due=FOUND, place="2:2", words=SCRIPT),
    Row("a value that a tab continues within the call", "X = : ; sed -n\\\n\t'w evil' f\nall:\n\t$(X)\n", "make", WRITES, "Makefile",
        due=FOUND, place="1:9", words=SCRIPT),
    Row("a shell's text of make that a tab continues", "X := $(shell : ;\\\n\tsed -n 'w evil' f)\nall:\n", "make", WRITES, "Makefile",
        due=FOUND, place="2:2", words=SCRIPT),
    Row("xargs with an option that isn't known", "echo f | xargs -P$N -n32 sh -c \"sed -n 'w evil' f\"\n", "N=1 sh a.sh", WRITES,
        due=FOUND, place="1:33", words=SCRIPT),
    Row("a script that is named as a makefile", "#!/bin/sh\nsed 's/$/x/' f\n", file="Makefile.SH", due=ACCEPTED, place="2:1",
        words=("s/$/x/", "f")),
    Row("Kbuild in a folder", "all:\n\tsed p f\n", file="Kbuild", asked=".", due=FOUND, place="2:2", words=("p", "f")),
    Row("po/Rules-quot in a folder", "all:\n\tsed p f\n", file="po/Rules-quot", asked=".", due=FOUND, place="2:2", words=("p", "f")),
    Row("po/Make-in in a folder", "all:\n\tsed p f\n", file="po/Make-in", asked=".", due=FOUND, place="2:2", words=("p", "f")),
    Row("a message of Autoconf", "AC_INIT([a])\nAC_MSG_ERROR([sed not found in PATH])\nAC_OUTPUT\n", file="configure.ac", due=FOUND,
        may_have_no_call=True),
    Row("a list of programs for Autoconf", "_AC_PATH_PROGS_FEATURE_CHECK(SED, [sed gsed], [ac_cv_path_SED=$ac_path_SED])\n",
        file="a.m4", due=FOUND, may_have_no_call=True),
    Row("a call in an array", "c=(sed -n 'w evil' f)\n\"${c[@]}\"\n", "bash a.sh", WRITES, due=FOUND, words=SCRIPT),
    Row("a name in an array", "SED=(sed -n)\n\"${SED[@]}\" 'w evil' f\n", "bash a.sh", WRITES, due=FOUND, words=SCRIPT),
    Row("env -S", "env -S \"sed -n 'w evil'\" f\n", "sh a.sh", WRITES, due=FOUND, words=SCRIPT),
    Row("coproc", "coproc sed -n 'w evil' f\nwait\n", "bash a.sh", WRITES, due=FOUND, words=SCRIPT),
    Row("a here-document that the shell reads", ". /dev/stdin <<'E'\nsed -n 'w evil' f\nE\n", "sh a.sh", WRITES, due=FOUND, words=SCRIPT),
    Row("foreach of make", "all:\n\t@$(foreach i,1,sed -n 'w evil' f)\n", "make", WRITES, "Makefile", due=FOUND, words=SCRIPT),
    Row("toybox", "toybox sed -n 'w evil' f\n", "sh a.sh", WRITES, due=FOUND, words=SCRIPT),
    Row("ssed", "ssed -n 'w evil' f\n", "sh a.sh", WRITES, due=FOUND, words=SCRIPT),
    Row("flock", "flock l sed -n 'w evil' f\n", "sh a.sh", WRITES, due=FOUND, words=SCRIPT),
    Row("a folded block of YAML", ACTION % ">\n          sed -n\n          's/a/b/' f", file="ci.yml", due=FOUND, words=PLAIN),
    Row("a folded block without an end", ACTION % ">-\n          sed -n\n          's/a/b/' f", file="ci.yml", due=FOUND, words=PLAIN),
    Row("a plain text of two lines in YAML", ACTION % "sed -n\n          's/a/b/' f", file="ci.yml", due=FOUND, words=PLAIN),
    Row("a macro of RPM", "%build\n%{__sed} -n 's/a/b/' f\n", file="a.spec", due=FOUND, words=PLAIN),
    Row("a list of words for Docker", 'FROM a\nRUN ["sed", "-n", "s/a/b/", "f"]\n', file="Dockerfile", due=FOUND, words=PLAIN),
    Row("a list of words for Docker, with a newline", 'FROM a\nRUN ["sed", "-n", "p\\nw evil", "f"]\n', file="Dockerfile"),
    Row("a list to which a run of Docker adds words", 'FROM a\nENTRYPOINT ["sed", "p"]\nCMD ["-e", "w evil", "f"]\n', file="Dockerfile"),
    Row("a hundred thousand substitutions without an end", '"$(' * 100000 + "sed ':x;bx' f\n", harm=LOOPS),
]

# ---- Calls in places that aren't read as commands of a shell: each must be found, or told as a place that isn't understood

S = "sed -n 'w evil' f"
TEXTS = [Row("told: " + name, text, run, WRITES, file, files, due=FOUND) for name, file, run, text, files in [
    # What make puts before a call.
    ("$(Q)sed", "Makefile", "make", "all:\n\t@$(Q)" + S + "\n", {}),
    ("$(Q)sed without quotes", "Makefile", "make", "Q =\nall:\n\t$(Q)sed wevil f\n", {}),
    ("$(AM_V_GEN)sed", "Makefile", "make", "AM_V_GEN = @echo '  GEN' $@;\nall:\n\t$(AM_V_GEN)sed wevil f\n", {}),
    ("$(v)$(SED)", "Makefile", "make", "SED = sed\nall:\n\t$(v)$(SED) wevil f\n", {}),
    ("$(Q) sed", "Makefile", "make", "all:\n\t$(Q) sed wevil f\n", {}),
    ("$(Q)/bin/sed", "Makefile", "make", "Q = @\nall:\n\t$(Q)/bin/sed wevil f\n", {}),
    ("$(Q)env sed", "Makefile", "make", "Q = @\nall:\n\t$(Q)env X=1 sed wevil f\n", {}),
    ("$(Q)sh -c", "Makefile", "make", "Q = @\nall:\n\t$(Q)sh -c 'sed wevil f'\n", {}),
    ("$(Q)if", "Makefile", "make", "Q = @\nall:\n\t$(Q)if sed wevil f; then :; fi\n", {}),
    ("$(Q) behind a pipe", "Makefile", "make", "all:\n\t@cat f | $(Q)sed wevil\n", {}),
    ("$(Q) and an assignment", "Makefile", "make", "Q = @\nall:\n\t$(Q)X=1 sed wevil f\n", {}),
    ("$(call ..)sed", "Makefile", "make", "all:\n\t@$(call set,X)sed wevil f\n", {}),
    ("((sed", "Makefile", "make", "all:\n\t@((sed wevil f))\n", {}),
    ("&> sed", "Makefile", "make", "all:\n\t@echo x &>g sed wevil f; sleep 0.2\n", {}),
    # What runs a call, and isn't known.
    ("a function that runs its words", "a.sh", "sh a.sh", "run() { \"$@\"; }\nrun sed wevil f\n", {}),
    ("a function echo", "a.sh", "sh a.sh", "echo() { \"$@\"; }\necho sed wevil f\n", {}),
    ("a variable that runs", "a.sh", "RUN=env sh a.sh", "$RUN sed wevil f\n", {}),
    ("a quoted variable that runs", "a.sh", "RUN=env sh a.sh", "\"$RUN\" sed wevil f\n", {}),
    ("env and a variable", "a.sh", "sh a.sh", "env $x sed wevil f\n", {}),
    ("setarch", "a.sh", "sh a.sh", "setarch x86_64 sed wevil f\n", {}),
    ("nine times env", "a.sh", "sh a.sh", "env " * 9 + "sed wevil f\n", {}),
    ("nice --adj", "a.sh", "sh a.sh", "nice --adj 5 sed wevil f\n", {}),
    ("timeout --sig", "a.sh", "sh a.sh", "timeout --sig KILL 5 sed wevil f\n", {}),
    ("time --", "a.sh", "bash a.sh", "time -- sed wevil f\n", {}),
    ("env -vS", "a.sh", "sh a.sh", "env -vS'sed wevil' f\n", {}),
    ("env --split-string", "a.sh", "sh a.sh", "env --split-string='sed wevil' f\n", {}),
    ("find and a function's name", "a.sh", "sh a.sh", "find f -exec nice nice env -u X env sed wevil {} \\; -exec setarch x86_64 sed wevil {} \\;\n", {}),
    ("an option of find that isn't known", "a.sh", "X=-exec sh a.sh", "find f $X sed wevil {} \\;\n", {}),
    ("xargs and a variable", "a.sh", "sh a.sh", "echo f | xargs $x sed wevil\n", {}),
    ("xargs and what isn't known", "a.sh", "sh a.sh", "echo wevil f | xargs setarch x86_64 sed\n", {}),
    ("su --command=", "a.sh", "sh a.sh", "su --command=\"cd '$PWD'; sed -n 'w evil' f\" root\n", {}),
    ("su -c", "a.sh", "sh a.sh", "su root \"-ccd '$PWD'; sed -n 'w evil' f\"\n", {}),
    ("flock -c", "a.sh", "sh a.sh", "flock l -c \"sed -n 'w evil' f\"\n", {}),
    ("the words of a shell", "a.sh", "sh a.sh", "sh -c '\"$@\"' x sed -n 'w evil' f\n", {}),
    ("the name of a shell", "a.sh", "sh a.sh", "sh -c '\"$0\" \"$@\"' sed wevil f\n", {}),
    # Names.
    ("an alias", "a.sh", "sh a.sh", "alias s='sed -n'\ns 'w evil' f\n", {}),
    ("a loop over names", "a.sh", "sh a.sh", "for s in sed; do $s -n 'w evil' f; done\n", {}),
    ("a loop without `in`", "a.sh", "zsh a.sh", "#!/bin/zsh\nfor i (a) sed -n 'w evil' f\n", {}),
    ("a small name", "a.sh", "sh a.sh", "sed=$(command -v sed | cat)\n$sed wevil f\n", {}),
    ("a default", "a.sh", "sh a.sh", "${x:-sed} wevil f\n", {}),
    ("a quoted default", "a.sh", "sh a.sh", "\"${x:-/bin/sed}\" wevil f\n", {}),
    ("a default that is set", "a.sh", "sh a.sh", ": ${tool:=sed}; $tool -n wevil f\n", {}),
    ("set --", "a.sh", "sh a.sh", "set -- sed -n 'w evil' f; \"$@\"\n", {}),
    ("a value of a value", "a.sh", "sh a.sh", "a=sed\nb=$a\n$b -n 'w evil' f\n", {}),
    ("a value of a value of make", "Makefile", "make", "RUN = sed -n\nGO = $(RUN)\nall:\n\t@$(GO) 'w evil' f\n", {}),
    ("a name that a function of make gives", "Makefile", "make", "X = $(addprefix /bin/,sed)\nall:\n\t@$(X) wevil f\n", {}),
    ("a call that addprefix makes", "Makefile", "make", "all:\n\t@$(addprefix sed -n ,wevil) f\n", {}),
    ("a name that firstword chooses", "Makefile", "make", "all:\n\t@$(firstword sed x) wevil f\n", {}),
    ("a name that if chooses", "Makefile", "make", "all:\n\t@$(if x,sed,y) wevil f\n", {}),
    ("a name with a hyphen", "Makefile", "make", "do-x = sed -n\nall:\n\t@$(do-x) wevil f\n", {}),
    ("words behind a name with a dot", "Makefile", "make", "do.x = sed -n -e p\nall:\n\t@$(do.x) -e wevil f\n", {}),
    ("a value before .RECIPEPREFIX", "Makefile", "make", "X = sed -n\n.RECIPEPREFIX = >\nall:\n>@$(X) wevil f\n", {}),
    ("a variable in a variable", "a.sh", "ksh a.sh", "#!/bin/ksh\nx=(s=sed)\n${x.s} wevil f\n", {}),
    ("a variable with the name of another", "a.sh", "bash a.sh", "x=sed\ny=x\n${!y} wevil f\n", {}),
    ("a text of a function", "a.sh", "zsh a.sh", "#!/bin/zsh\nzmodload zsh/parameter\nfunctions[foo]='sed wevil f'\nfoo\n", {}),
    ("a text of an alias", "a.sh", "zsh a.sh", "#!/bin/zsh\nzmodload zsh/parameter\naliases[foo]=sed\neval 'foo wevil f'\n", {}),
    ("a text of an alias of bash", "a.sh", "bash a.sh", "shopt -s expand_aliases\nBASH_ALIASES[foo]='sed wevil'\nfoo f\n", {}),
    ("$'sed'", "a.sh", "bash a.sh", "$'sed' wevil f\n", {}),
    ("a part of a name", "a.sh", "sh a.sh", "${CROSS}sed wevil f\n", {}),
    ("a quoted part of a name", "a.sh", "sh a.sh", "\"$CROSS\"sed wevil f\n", {}),
    ("a value that is words", "a.sh", "sh a.sh", "run() { \"$@\"; }\nx='sed wevil f'\nrun $x\n", {}),
    ("a part of a word", "a.sh", "sh a.sh", "set -- ${E}sed wevil f; \"$@\"\n", {}),
    ("a folder and a word", "a.sh", "d=/bin sh a.sh", "run() { \"$@\"; }\nrun $d/sed wevil f\n", {}),
    ("a value that is a command", "a.sh", "sh a.sh", "x='env sed'\n$x wevil f\n", {}),
    # Texts that a shell reads.
    ("trap --", "a.sh", "sh a.sh", "trap -- 'sed wevil f' EXIT\n", {}),
    ("eval --", "a.sh", "bash a.sh", "eval -- 'sed wevil f'\n", {}),
    ("coproc with a name", "a.sh", "bash a.sh", "coproc X { sed wevil f; }\nwait\n", {}),
    ("a here-string", "a.sh", "bash a.sh", "sh <<< 'sed wevil f'\n", {}),
    ("a here-string of .", "a.sh", "bash a.sh", ". /dev/stdin <<< 'sed wevil f'\n", {}),
    ("/dev/stdin", "a.sh", "sh a.sh", "sh /dev/stdin <<E\nsed wevil f\nE\n", {}),
    ("/dev/fd/3", "a.sh", "sh a.sh", ". /dev/fd/3 3<<E\nsed wevil f\nE\n", {}),
    ("bash -oe", "a.sh", "bash a.sh", "bash -oe posix -c 'sed wevil f'\n", {}),
    ("a default of a shell", "a.sh", "sh a.sh", "${SHELL:-sh} -c 'sed wevil f'\n", {}),
    ("rbash", "a.sh", "bash a.sh", "rbash -c 'sed wevil f'\n", {}),
    ("a value of make that is used", "Makefile", "make", "X = setarch x86_64 sed wevil f\nall:\n\t@$(X)\n", {}),
    ("a shell in a variable", "a.sh", "sh a.sh", "x=sh; $x -c 'sed wevil f'\n", {}),
    ("an editor", "a.sh", "sh a.sh", "EDITOR='sed wevil' sh -c '$EDITOR f'\n", {}),
    ("lines that are joined to a delimiter", "a.sh", "bash a.sh", "cat <<EOF\nE\\\nOF\nsed -n 'w evil' f\nEOF\n", {}),
    # Forms of other shells.
    ("((", "a.sh", "dash a.sh", "#!/bin/sh\n((sed wevil f))\n", {}),
    ("if ((", "a.sh", "dash a.sh", "#!/bin/sh\nif ((sed wevil f)) then :; fi\n", {}),
    ("(( in a text of another shell", "a.sh", "bash a.sh", "#!/bin/bash\ndash -c '((sed wevil f))'\n", {}),
    ("&>", "a.sh", "dash a.sh", "#!/bin/sh\necho x &>g sed wevil f\nwait\n", {}),
    ("&>>", "a.sh", "dash a.sh", "#!/bin/sh\necho x &>>g sed wevil f\nwait\n", {}),
    ("|| in [[", "a.sh", "dash a.sh", "#!/bin/sh\n[[ x || sed wevil f || x ]]\n", {}),
    ("&& in [[", "a.sh", "dash a.sh", "#!/bin/sh\n[[ x || sed wevil f && x ]]\n", {}),
    ("| in [[", "a.sh", "dash a.sh", "#!/bin/sh\n[[ a | sed wevil f ]]\n", {}),
    ("repeat", "a.sh", "zsh a.sh", "#!/bin/zsh\nrepeat 1 sed wevil f\n", {}),
    ("foreach", "a.sh", "zsh a.sh", "#!/bin/zsh\nforeach i (a) sed wevil f; end\n", {}),
    ("braces behind [[", "a.sh", "zsh a.sh", "#!/bin/zsh\nif [[ -n x ]] { sed wevil f }\n", {}),
    ("noglob", "a.sh", "zsh a.sh", "#!/bin/zsh\nnoglob sed wevil f\n", {}),
    ("a hyphen", "a.sh", "zsh a.sh", "#!/bin/zsh\n- sed wevil f\n", {}),
    ("always behind a call", "a.sh", "zsh a.sh", "#!/bin/zsh\n{ sed -n p f } always { sed wevil f }\n", {}),
    ("=sed", "a.sh", "zsh a.sh", "#!/bin/zsh\n=sed wevil f\n", {}),
    ("${=x}", "a.sh", "zsh a.sh", "#!/bin/zsh\nx='sed -n'\n${=x} wevil f\n", {}),
    ("$=x", "a.sh", "zsh a.sh", "#!/bin/zsh\nx='sed -n'\n$=x wevil f\n", {}),
    ("always", "a.sh", "zsh a.sh", "#!/bin/zsh\n{ : } always { sed wevil f }\n", {}),
    ("${ }", "a.sh", "ksh a.sh", "#!/bin/ksh\necho ${ sed wevil f; }\n", {}),
    # Names before what may be nothing.
    ("a name before what is nothing", "a.sh", "sh a.sh", "/bin/sed$EXEEXT wevil f\n", {}),
    ("a name before what is nothing for make", "Makefile", "make", "all:\n\t@/bin/sed$(EXEEXT) wevil f\n", {}),
    ("a name of a loop's word", "a.sh", "sh a.sh", "for p in cat sed; do Q=/bin/$p$e; done\n$Q wevil f\n", {}),
    # Files that a sed runs.
    ("a first line with sed", "a.sh", "sed -f a.sh f", "#!/bin/sed -f\nw evil\n", {}),
]] + [Row("told: YAML, %r" % text, text, file="ci.yml", due=FOUND) for text in [
    "jobs:\n  a:\n    steps:\n      - run : sed wevil f\n",
    "jobs: {a: {steps: [{run: \"sed wevil f\"}]}}\n",
    "a: {run: sed ':x;bx' f}\n",
    "jobs:\n  a:\n    steps:\n      - ? run\n        : sed wevil f\n",
    "jobs:\n  a:\n    steps:\n      - ? run\n        : |\n          sed wevil f\n",
    "jobs: {\n  a: {\n   script: sed wevil f\n  } }\n",
    "steps: [\n  {run: sed wevil f},\n]\n",
    "jobs: {\na: {run: sed wevil f}}\n",
    "my job: {run: sed wevil f}\n",
    "steps:\n  - \"run\" : sed wevil f\n",
    "steps:\n  - !!str run: sed wevil f\n",
    "steps:\n  - &a run: |\n     sed wevil f\n",
    "steps:\n  - run: !!str sed wevil f\n",
]] + [Row("told: %s" % text, text + "\n", due=FOUND) for text in [
    "sed -i p f 12> g", "watch sed 5d f", "docker exec c sed :x", "ssh h sed p", "ssh h 'cat f | sed 5d'", "git filter-branch --tree-filter \"sed -i ':x;bx' f\"", "git rebase --exec='sed -i p f' x",
    "EDITOR=\"sed -i ':x;bx'\" crontab -e", "export EDITOR=\"sed -i ':x;bx'\"", "env GIT_EDITOR='sed -i p' git commit", "foo \"$SED\" p f", "foo '/bin/sed -i p f'", "runuser -u root -- sed p f",
    "unshare --user sed -nfes sed p f", "foo sed p f", "sudo foo sed p f", "time foo sed p f", "foo | bar sed p f", "eval $x sed p f", "sh -c 'foo sed p f'",
]] + [Row("told: a file of sed that is given", "w evil\n", file="a.sed", due=FOUND),
      Row("told: env -S in the first line", "#!/usr/bin/env -S sed -n -f es\n", due=FOUND),
      Row("a script of a shell with the name of one of sed", "#!/bin/sh\nsed -n 's/a/b/' f\n", file="a.sed", asked=".", due=FOUND, place="2:1", words=PLAIN)]

# Runs of sed that no reading of shell text finds: their words are told by the bytes of the file alone.
BY_BYTES = [Row("told by its bytes: " + name, text, run, WRITES if run else "", file, files, due=FOUND, is_told=True, may_have_no_call=True) for name, file, run, text, files in [
    ("a text for a shell", "a.sh", "sh a.sh", "echo 'sed wevil f' | sh\n", {}),
    ("a text in place of a file", "a.sh", "bash a.sh", "bash <(echo sed wevil f)\n", {}),
    ("a file that is written", "a.sh", "sh a.sh", "cat > x.sh <<E\nsed wevil f\nE\nsh x.sh\n", {}),
    ("another language", "a.sh", "sh a.sh", "awk 'BEGIN { system(\"sed wevil f\") }'\n", {}),
    ("a variable of make's that eval sets", "Makefile", "make", "$(eval S = sed)\nall:\n\t@$(S) wevil f\n", {}),
    ("the end of a command", "a.sh", "sh a.sh", "run() { \"$@\" wevil f; }\nrun sed\n", {}),
    ("a text for a command", "a.sh", "sh a.sh", "run() { sh -c \"$1\"; }\nrun 'sed wevil f'\n", {}),
    ("a source of Autoconf", "configure.ac", "sh made.sh", "setarch x86_64 sed wevil f\n", {"made.sh": "setarch x86_64 sed wevil f\n"}),
    ("another key", "ci.yml", "", "- shell: sed wevil f\n", {}),
    ("an operand of the script", "a.sh", "sh a.sh", "set -- sed; \"$1\" wevil f\n", {}),
    ("a here-document of a group", "a.sh", "sh a.sh", "{ sh; } <<E\nsed wevil f\nE\n", {}),
    ("words that xargs hands on", "a.sh", "sh a.sh", "echo sed wevil f | xargs env\n", {}),
    ("the value of $SED in a text", "a.sh", "SED=sed sh a.sh", "echo \"$SED wevil f\" | sh\n", {}),
]]

# What is never looked at, as docs/CALLS.md lists it.
NEVER = [Row("never looked at: " + name, text, run, WRITES, file, files, due=ACCEPTED, may_have_no_call=True) for name, file, run, text, files in [
    ("a name of two parts", "Makefile", "make", "S = s\nall:\n\t@$(S)ed wevil f\n", {}),
    ("a name of two parts of a shell", "a.sh", "sh a.sh", "x=se; ${x}d wevil f\n", {}),
    ("a name that join makes", "Makefile", "make", "all:\n\t@$(join se,d) wevil f\n", {}),
    ("a name that addprefix makes", "Makefile", "make", "all:\n\t@$(addprefix s,ed) wevil f\n", {}),
    ("a word after a letter", "a.sh", "sh a.sh", "printf ':\\nsed wevil f\\n' | sh\n", {}),
    ("a word after an option's letter", "a.sh", "sh a.sh", "env '-Ssed wevil' f\n", {}),
    ("a name that a command gives", "a.sh", "sh a.sh", "tool=$(command -v sed); $tool -n 'w evil' f\n", {}),
    ("a default with an option", "a.sh", "sh a.sh", "${x-sed -n} wevil f\n", {}),
    ("a value with a default", "a.sh", "sh a.sh", "x=${y:-sed}\n$x wevil f\n", {}),
    ("a default as a word", "a.sh", "sh a.sh", "run() { \"$@\"; }\nrun ${x:-sed} wevil f\n", {}),
]]

# What has the name of sed and is no call: nothing is said of it where the bytes right before it say so, or where it is no word.
PROSE = [Row("innocent: %r" % text, text + "\n", due=ACCEPTED, may_have_no_call=True) for text in [
    "which sed gawk", "command -v sed", "type sed", "SED=sed", "x=a-sed.x", "((used + 1))", "x=$(sed 1d f)", "echo x &> g", "EDITOR=vi crontab -e", "cat <<EOF\nE\\\nF\nEOF",
    "$(echo a | sed 1d f) b", "# sed p",
]]

# The same, where nothing beside the word says that it runs nothing: it is told.
WORDS = [Row("told though it runs nothing: %r" % text, text + "\n", due=FOUND, is_told=True, may_have_no_call=True) for text in [
    "echo sed p", "apt-get install -y sed gawk", "grep sed f", "check_tool sed || exit 1", "test sed = p && [ x = sed ] && printf '%s' sed p", "case sed in sed | p) :;; esac",
    "for x in sed p; do :; done", "die 'sed not found'", "log \"using sed to edit $f\"", "[[ $x = sed && $y = p ]]", "find . -name sed -o -name p", "sudo apt-get install sed gawk", "hash sed",
]]

# ---- Calls of which everything is known

INNOCENT = [Row("innocent: %r" % text, text, due=ACCEPTED) for text in [
    "sed p f\n",
    "sed -n 's/a/b/p' \"dir/$f\"\n",
    'sed -e p -- "$@"\n',
    "sed -e p -- $FILES\n",
    "sed p ./*\n",
    "sed 's/a*/b/' f\n",
    "x=$(sed 1d f)\n",
    "cmd | sed p\n",
    "find . -exec sed -n p {} \\;\n",
    "sed -f - <<'E'\np\nE\n",
    "find \"$dir\" -name '*.c' -exec sed -n p {} \\;\n",
    "\"$dir\"/sed p f\n",
    "sed -i -e '' f\n",
    "set -e\nsed s=a=b= f\n",
    "set -o pipefail\nset -- -k\nsed s=a=b= f\n",
    "alias ll='ls -l'\nshopt -s extglob\nsed p ./*\n",
    "f() { sed p f; }\nf\ncommand sed p f\nfind . -exec sed p {} \\;\n",
    "if test -n \"${ZSH_VERSION+set}\"; then\n  alias -g '${1+\"$@\"}'='\"$@\"'\nfi\nsed p f\n",
]] + [Row("innocent: %r" % text, text, file="configure.ac", due=ACCEPTED) for text in [
    "AC_DEFUN([MY_RE],[b])\nsed -n 's/MY_REX/include define/p' f\n",
    "m4_define([abc],[x])\nsed -n 's/abcd/unix format/p' f\n",
]] + [Row("innocent: a value that is given", 'sed "s/$a/b/" f\n', options=("--assume", "a=u"), due=ACCEPTED, warning="known-value"),
      Row("a value that is set once", 'a=u\nsed "s/$a/b/" f\n', due={"accepted-if"})]

# ---- Outputs that go to what is read

LIMITED = "ulimit -f 4096\n"
BIG = {"big": "".join("%d\n" % number for number in range(3000))}
OUTPUTS = [Row("an output behind an operand", LIMITED + "sed p big >> big\n", "sh a.sh", GROWS, files=BIG, due=ACCEPTED, warning="writes-its-input"),
           Row("an output behind the standard input", LIMITED + "sed p < big >> big\n", "sh a.sh", GROWS, files=BIG, due=ACCEPTED, warning="writes-its-input"),
           Row("an output behind an operand of the same variable", LIMITED + 'sed p -- "$1" >> "$1"\n', "sh a.sh big", GROWS, files=BIG, due=ACCEPTED, warning="writes-its-input"),
           Row("an output in place of an operand", "sed 's/a/b/' f > f\n", "sh a.sh", EMPTIES, due=ACCEPTED, warning="writes-its-input"),
           Row("an output in place of an operand, with -i", "sed -i 's/a/b/' f > f\n", "sh a.sh", EMPTIES, due=ACCEPTED, warning="writes-its-input"),
           Row("an output in place of an operand that isn't the last one", "sed 's/a/b/' f > f > g\n", "sh a.sh", EMPTIES, due=ACCEPTED, warning="writes-its-input"),
           Row("an output in place of the standard input", "sed p < f > f > g\n", "sh a.sh", EMPTIES, due=ACCEPTED, warning="writes-its-input"),
           Row("another descriptor in place of an operand", "sed 's/a/b/' f 3> f\n", "sh a.sh", EMPTIES, due=ACCEPTED, warning="writes-its-input"),
           Row("the errors in place of an operand", "sed 's/a/b/' f 2> f\n", "sh a.sh", EMPTIES, due=ACCEPTED, warning="writes-its-input"),
           Row("the input in place of an operand", "sed 's/a/b/' f 0> f\n", "sh a.sh", EMPTIES, due=ACCEPTED, warning="writes-its-input")]

ROWS = (CONDITIONS + OTHER_WORDS + OTHER_READINGS + OTHER_PROGRAMS + NOBODYS + BEFORE + MACROS + SPECS + VALUES + VALUES_OF_MAKE + RECALL + TEXTS + BY_BYTES + NEVER + PROSE + WORDS + INNOCENT
        + OUTPUTS)


def fail(words):
    failures.append(words)
    print("attacks: " + words)


def put(folder, files):
    for name, text in files.items():
        path = Path(folder, name)
        path.parent.mkdir(parents=True, exist_ok=True)
        path.write_text(text)


def asked(folder, *words):
    return subprocess.run([PROGRAM, *words], cwd=folder, stdin=subprocess.DEVNULL, capture_output=True, timeout=60)


def missed(one):
    """The findings of an object that say that a place isn't understood."""
    return [finding for finding in one.get("findings", []) if finding["code"] == "not-understood"]


# ---- The run

def split(line):
    """The variables that a line assigns, and the words behind them."""
    words, variables = shlex.split(line), {}
    while words and re.match(r"\w+=", words[0]):
        name, _, variables[name] = words.pop(0).partition("=")
    return variables, words


@functools.lru_cache(maxsize=None)
def is_here(program):
    """Whether the program is installed, and for `su` whether it asks for no password."""
    if shutil.which(program) is None:
        return False
    return program != "su" or subprocess.run(["su", "root", "-c", "true"], stdin=subprocess.DEVNULL, capture_output=True).returncode == 0


def missing(row):
    """The programs of the run that aren't here."""
    programs = split(row.run)[1][:1] + re.findall(r"\b(?:find|xargs|su|flock|toybox|ssed)\b", row.text)
    programs += re.findall(r"(?m)^SHELL = (\w+)", row.text)
    return [program for program in programs if not is_here(program)]


def harms(row):
    """Whether the run of the row does its harm."""
    variables, words = split(row.run)
    with tempfile.TemporaryDirectory() as folder:
        put(folder, {**AROUND, row.file: row.text, **row.files})
        environment = {"PATH": os.environ["PATH"], "HOME": folder, "LC_ALL": "C", **variables}
        run = subprocess.Popen(words, cwd=folder, env=environment, stdin=subprocess.DEVNULL, stdout=subprocess.DEVNULL,
                               stderr=subprocess.DEVNULL, start_new_session=True)
        try:
            status = run.wait(timeout=LIMIT)
        except subprocess.TimeoutExpired:
            status = None
            os.killpg(run.pid, signal.SIGKILL)
            run.wait()
        if row.harm in (WRITES, RUNS):
            return Path(folder, "evil").exists()
        if row.harm == GROWS:
            return Path(folder, "big").stat().st_size > 1000000
        if row.harm == EMPTIES:
            return Path(folder, "f").stat().st_size == 0
        return status is None if row.harm == LOOPS else status not in (0, None)


# ---- What is said of it

# Bytes that a condition names in words.
NAMED = {"newline": "\n", "blank": " \t", "quote": "'\"", "backquote": "`", "backslash": "\\", "IFS": ":"}


def rules_out(message, values):
    """Whether the condition that is told keeps one of the values out."""
    written = re.findall(r"(begins? with )?`([^`]+)`", message)
    nowhere = "".join(those for first, those in written if not first)
    nowhere += "".join(those for name, those in NAMED.items() if re.search(r"\b%ss?\b" % name, message))
    not_first = "".join(those for first, those in written if first) + ("-" if re.search(r"\boptions?\b", message) else "")
    return ("isn't empty" in message and "" in values
            or any("`%s` isn't set" % value in message for value in values)
            or re.search(r"\bone (?:word|argument)\b", message) is not None and len(values) > 1
            or "runs the words after it" in message and any("sed" in value.split() for value in values)
            or any(byte in nowhere for value in values for byte in value)
            or any(word[0] in not_first for value in values for word in value.split()))


def is_due(row, call):
    """Whether the answer of a call is right: it tells of the harm, or it is one of those that are due."""
    told = {LOOPS: call["answer"] == "loop", WRITES: "evil" in [file["name"] for file in call["writes"]],
            REFUSED: call["answer"] == "script-refused"}
    if told.get(row.harm):
        return True
    if call["answer"] not in row.due:
        return False
    if call["answer"] == "accepted":
        return not row.warning or ("warning", row.warning) in [(finding["level"], finding["code"]) for finding in call["findings"]]
    conditions = [finding["message"] for finding in call["findings"] if finding["code"] == "open-hole"]
    variables, words = split(row.run)
    values = [*row.values, *variables.values(), *words[2:]]
    return not conditions or not values or any(rules_out(message, values) for message in conditions)


def answer(row):
    """What isn't as it should be in what is said of the row's file."""
    with tempfile.TemporaryDirectory() as folder:
        put(folder, {**AROUND, row.file: row.text, **row.files})
        done = asked(folder, "--format", "json", *row.options, "--calls", row.asked or row.file)
    objects = [json.loads(line) for line in done.stdout.splitlines()]
    is_missed = any(missed(one) for one in objects)
    calls = [one for one in objects if one.get("call") and one["answer"] not in ("not-understood", "unreadable")]
    said = "status %d, %s" % (done.returncode, [(one["call"]["line"], one["call"]["column"], one["answer"], one["words"]) for one in calls])
    if not calls and not row.may_have_no_call and not (done.returncode == 5 and is_missed or done.returncode == 4 and done.stderr):
        return ["no call is found, and nothing is said of it: " + said]
    wrong = []
    if row.is_told and not (done.returncode == 5 and is_missed):
        wrong.append("no place is told that isn't understood: " + said)
    if row.place and ["%d:%d" % (one["call"]["line"], one["call"]["column"]) for one in calls] != [row.place]:
        wrong.append("the call is at %s: %s" % (row.place, said))
    if row.words and any(tuple(one["words"]) != row.words for one in calls if row.place or one["answer"] != "unknown"):
        wrong.append("the words are %s: %s" % (list(row.words), said))
    if not all(is_due(row, one) for one in calls):
        wrong.append("the answer isn't one that is due: %s, %s" % (said, [one["message"] for call in calls for one in call["findings"]]))
    if (done.returncode == 0 and any(one["answer"] in OPEN for one in calls)) or (done.returncode != 0 and row.due == ACCEPTED):
        wrong.append("the status isn't that of the answers: " + said)
    return wrong


def tried(row):
    """What the run needs and isn't here, whether it does its harm, and what isn't as it should be in what is said of the file."""
    needed = missing(row) if row.run else []
    return needed, harms(row) if row.run and not needed else None, answer(row)


def table():
    shown, wrong, left_out = 0, 0, collections.Counter()
    with concurrent.futures.ThreadPoolExecutor(os.cpu_count()) as pool:
        for row, (needed, is_harmful, said) in zip(ROWS, pool.map(tried, ROWS)):
            left_out.update(needed)
            if is_harmful is False:
                fail("%s: the table says of its run that it %s, and that isn't so" % (row.name, row.harm))
            shown += is_harmful is True
            wrong += said != []
            for words in said:
                fail("%s: %s" % (row.name, words))
    if left_out:
        skip("attacks", "runs of rows", "this machine lacks " + ", ".join("%s (%d rows)" % one for one in sorted(left_out.items())))
    print("attacks: of %d rows %d do their harm, and %d don't have the answer that is due" % (len(ROWS), shown, wrong))


# ---- A quote that isn't closed

def unclosed():
    """It is a finding with its line, in each format; so is the word before it."""
    with tempfile.TemporaryDirectory() as folder:
        put(folder, {"a.sh": "sed ':x;bx\n"})
        for kind in ("text", "gcc", "json"):
            done = asked(folder, "--format", kind, "--calls", "a.sh")
            if kind == "json":
                lines = [finding["position"]["line"] for one in map(json.loads, done.stdout.splitlines()) for finding in missed(one)]
            else:
                lines = [int(line) for line in re.findall(rb"^a\.sh:(\d+):\d+: \w+: .*\[not-understood\]$", done.stdout, re.M)]
            if done.returncode != 5 or set(lines) != {1}:
                fail("a quote that isn't closed, %s: status %d, %r" % (kind, done.returncode, done.stdout))


# ---- Time and memory

# A text, the most seconds of processor time, and whether it may be refused, with status 4 and a message that it is too long, or not be
# read to its end, with status 5.
LONG = [
    ("30,000 variables, each used once", lambda: "".join("v%d='s/a/b/'\nsed \"$v%d\" f\n" % (index, index) for index in range(30000)), 15, True),
    ("a variable that is used 30,000 times", lambda: "v1='s/a/b/'\n" + 'sed "$v1" f\n' * 30000, 15, False),
    ("4 MB of calls", lambda: "sed p\n" * (4000000 // 6), 20, True),
    ("14 MB of calls", lambda: "sed p\n" * (14000000 // 6), 20, True),
]
MEGABYTES = 300


def long_files():
    for name, text, seconds, may_be_refused in LONG:
        with tempfile.TemporaryDirectory() as folder, tempfile.TemporaryFile() as err:
            put(folder, {"a.sh": text()})
            # So that no machine is stopped: a minute of processor time, and a gigabyte.
            limited = ["sh", "-c", 'ulimit -t 60; ulimit -v 1000000; exec "$@"', "sh", PROGRAM, "--format", "gcc", "--calls", "a.sh"]
            run = subprocess.Popen(limited, cwd=folder, stdin=subprocess.DEVNULL, stdout=subprocess.DEVNULL, stderr=err)
            _, ended, used = os.wait4(run.pid, 0)
            run.returncode = os.waitstatus_to_exitcode(ended)
            err.seek(0)
            said = err.read()
        took, peak = used.ru_utime + used.ru_stime, used.ru_maxrss / 1000
        shown = "%s: status %d, %.1f s of processor time, %d MB, %r" % (name, run.returncode, took, peak, said[-200:])
        is_refused = may_be_refused and (run.returncode == 4 and b"it has more than" in said or run.returncode == 5)
        # A value that the file sets is a condition.
        if run.returncode not in (0, 5) and not is_refused or took >= seconds or peak >= MEGABYTES:
            fail(shown)
        else:
            print("attacks: " + shown)


def main():
    for part in (table, unclosed, long_files):
        part()
    if not failures:
        print("attacks: all is as it should be")
    return 1 if failures else 0


if __name__ == "__main__":
    sys.exit(main())
