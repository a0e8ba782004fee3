"""Whole reports in text and for editors: loops, certificates, accepted scripts, names, and bytes that a terminal wouldn't show."""
import re

from explain_tools import Tools, line_of, place, shown_line, with_pages
from refusals import both, certificate

IDLE = "this loop reads no line and never shortens the pattern space: it may run forever"
CERTAIN = "this loop reads no line and never shortens the pattern space: it never ends once it is entered"
ENDLESS = CERTAIN + ", and in the POSIX locale the script never ends on the line `x` with a newline"
ON_TWO = "this loop reads no line and never shortens the pattern space: in the POSIX locale the script never ends on the lines `x` and `x` with newlines"
GROWING = "this loop reads no line and may lengthen the pattern space each time: it may run forever"
ON_ONE = "this loop reads no line and may lengthen the pattern space each time: in the POSIX locale the script never ends on the line `x` with a newline"
ROUND = ("make each round read a line, with `n`, `N` or `d`, or shorten the pattern space; or write the commands out a fixed number "
         "of times")
ONCE = ("write one `s` with the flag `g`, and then `t c` and `:c`, since the loop leaves the flag of `t` unset: it does the same, since "
        "what it writes can't be a part of a match")
OFTEN = ("repeat the command as often as it may be needed, and then write `t c` and `:c`, since the loop leaves the flag of `t` unset")
PADDED = ("if the loop makes a line as long as it should be, add all that may be needed with one `s` and cut the rest off with a second one, as "
          "docs/MENDING.md pads a line; else repeat the command as often as it may be needed; then write `t c` and `:c`, since the loop leaves the "
          "flag of `t` unset")
ADDED = ("`D` starts again without reading a line, and each round adds a text: add it only where a line was read, or write `d` for `D`, if "
         "nothing after the newline is needed")
TAKE = ("branch only where a line was read: put the branch into a block with the `N` or `n`, as in `/x/{`, `N`, `b a`, `}` on lines "
        "of their own")
NO_STEPS = "every run ends, but no limit on its steps is known, since this may lengthen the pattern space"
UNKNOWN = "every run ends, but no limit on its memory is known, since this may lengthen the pattern space"
APPENDS = "every run ends, but no limit on its memory is known, since this lengthens the hold space"
NO_FILES = "  reads: no file\n  writes: no file\n"
MEMORY = "  memory: each space at most as long as the input\n"
NO_MEMORY = "  memory: no limit is known\n"
NO_LIMIT = "  steps: no limit is known\n" + NO_MEMORY
# for a greatest first rank of 3: 4 * 1,000 + 1
FOUR = "  steps: at most 4 a line, plus 1; for 1,000 lines of 80 bytes at most 4,001\n" + NO_MEMORY
LOOP = "s.sed: loop: a run may never end\n" + NO_FILES
REJECTED = "s.sed: rejected: the certificate doesn't fit the script\n"

# the script; the status, the report in text, and the one for editors with notes
ALONE = [
    (b":a\np\nb a\n", 1, f"""\
s.sed:1:1: error: {ENDLESS} [loop-idle]
   1 | :a
     | ^^
       1:1  :a   goes on
       2:1  p    goes on; reads no line
       3:1  b a  branches
       1:1  :a   and so on
     = hint: {ROUND}
{LOOP}""", f"""\
s.sed:1:1: error: {ENDLESS} [loop-idle]
s.sed:1:1: note: `:a` goes on
s.sed:2:1: note: `p` goes on; reads no line
s.sed:3:1: note: `b a` branches
s.sed:1:1: note: `:a` and so on
s.sed:1:1: note: hint: {ROUND}
"""),
    (b":a\ns/x/y/\n\tt a\n", 1, f"""\
s.sed:1:1: error: {IDLE} [loop-idle]
   1 | :a
     | ^^
       1:1  :a      goes on
       2:1  s/x/y/  replaces a match with a text that isn't longer
       3:2  t a     branches, since something was replaced
       1:1  :a      and so on
     = hint: {ONCE}
{LOOP}""", f"""\
s.sed:1:1: error: {IDLE} [loop-idle]
s.sed:1:1: note: `:a` goes on
s.sed:2:1: note: `s/x/y/` replaces a match with a text that isn't longer
s.sed:3:2: note: `t a` branches, since something was replaced
s.sed:1:1: note: `:a` and so on
s.sed:1:1: note: hint: {ONCE}
"""),
    # an address may select a line or not, so that the loop may pass by the `n`: on the second line it does
    (b"p\n:a\n1{\nn\n}\nb a\n", 1, f"""\
s.sed:2:1: error: {ON_TWO} [loop-idle]
   2 | :a
     | ^^
       2:1  :a   goes on
       3:2  1{{   the block is skipped
       6:1  b a  branches
       2:1  :a   and so on
     = hint: {ROUND}
{LOOP}""", f"""\
s.sed:2:1: error: {ON_TWO} [loop-idle]
s.sed:2:1: note: `:a` goes on
s.sed:3:2: note: `1{{` the block is skipped
s.sed:6:1: note: `b a` branches
s.sed:2:1: note: `:a` and so on
s.sed:2:1: note: hint: {ROUND}
"""),
    # `$!N` is skipped on the last line alone, and nothing else of the loop reads
    (b":a\n$!N\ns/a/b/\nba\n", 1, f"""\
s.sed:1:1: error: {ENDLESS} [loop-idle]
   1 | :a
     | ^^
       1:1  :a      goes on (on the last line)
       2:3  $!N     is skipped, so no line is read (on the last line)
       3:1  s/a/b/  replaces nothing (on the last line)
       4:1  ba      branches (on the last line)
       1:1  :a      and so on
     = hint: {TAKE}
{LOOP}""", f"""\
s.sed:1:1: error: {ENDLESS} [loop-idle]
s.sed:1:1: note: `:a` goes on (on the last line)
s.sed:2:3: note: `$!N` is skipped, so no line is read (on the last line)
s.sed:3:1: note: `s/a/b/` replaces nothing (on the last line)
s.sed:4:1: note: `ba` branches (on the last line)
s.sed:1:1: note: `:a` and so on
s.sed:1:1: note: hint: {TAKE}
"""),
    # several commands on a line: each is shown alone
    (b":a\np;s/x/xx/;ta\n", 1, f"""\
s.sed:2:3: error: {GROWING} [loop-growing]
   2 | p;s/x/xx/;ta
     |   ^^^^^^^
        2:3  s/x/xx/  may replace a match with a longer text: it has 2 bytes, and a match may have only 1
       2:11  ta       branches, since something was replaced
        1:1  :a       goes on
        2:1  p        goes on; reads no line
        2:3  s/x/xx/  and so on
     = hint: {OFTEN}
{LOOP}""", f"""\
s.sed:2:3: error: {GROWING} [loop-growing]
s.sed:2:3: note: `s/x/xx/` may replace a match with a longer text: it has 2 bytes, and a match may have only 1
s.sed:2:11: note: `ta` branches, since something was replaced
s.sed:1:1: note: `:a` goes on
s.sed:2:1: note: `p` goes on; reads no line
s.sed:2:3: note: `s/x/xx/` and so on
s.sed:2:3: note: hint: {OFTEN}
"""),
    # a command of a block, and one with its address
    (b":a\n/x/{y/a/b/;};s/^.\\{1,8\\}$/ &/;ta\n", 1, f"""\
s.sed:2:14: error: {GROWING} [loop-growing]
   2 | /x/{{y/a/b/;}};s/^.\\{{1,8\\}}$/ &/;ta
     |              ^^^^^^^^^^^^^^^^
       2:14  s/^.\\{{1,8\\}}$/ &/  may replace a match with a longer text: it has the whole match, `&`, and more
       2:31  ta                branches, since something was replaced
        1:1  :a                goes on
        2:4  /x/{{              the block is skipped
       2:14  s/^.\\{{1,8\\}}$/ &/  and so on
     = hint: {PADDED}
{LOOP}""", f"""\
s.sed:2:14: error: {GROWING} [loop-growing]
s.sed:2:14: note: `s/^.\\{{1,8\\}}$/ &/` may replace a match with a longer text: it has the whole match, `&`, and more
s.sed:2:31: note: `ta` branches, since something was replaced
s.sed:1:1: note: `:a` goes on
s.sed:2:4: note: `/x/{{` the block is skipped
s.sed:2:14: note: `s/^.\\{{1,8\\}}$/ &/` and so on
s.sed:2:14: note: hint: {PADDED}
"""),
    # the groups of a replacement are kept, and `\\(a\\)b` has one byte outside of them
    (b":a\ns/\\(a\\)b/\\1cc/\nta\n", 1, f"""\
s.sed:2:1: error: {GROWING} [loop-growing]
   2 | s/\\(a\\)b/\\1cc/
     | ^^^^^^^^^^^^^^
       2:1  s/\\(a\\)b/\\1cc/  may replace a match with a longer text: it has 2 bytes plus its groups, and a match may have only 1 outside of them
       3:1  ta              branches, since something was replaced
       1:1  :a              goes on
       2:1  s/\\(a\\)b/\\1cc/  and so on
     = hint: {OFTEN}
{LOOP}""", f"""\
s.sed:2:1: error: {GROWING} [loop-growing]
s.sed:2:1: note: `s/\\(a\\)b/\\1cc/` may replace a match with a longer text: it has 2 bytes plus its groups, and a match may have only 1 outside of them
s.sed:3:1: note: `ta` branches, since something was replaced
s.sed:1:1: note: `:a` goes on
s.sed:2:1: note: `s/\\(a\\)b/\\1cc/` and so on
s.sed:2:1: note: hint: {OFTEN}
"""),
    (b"G\nD\n", 1, f"""\
s.sed:1:1: error: {ON_ONE} [loop-growing]
   1 | G
     | ^
       1:1  G  may lengthen the pattern space with the contents of the hold space
       2:1  D  deletes up to the first newline, and starts again without reading a line
       1:1  G  and so on
     = hint: {ADDED}
{LOOP}""", f"""\
s.sed:1:1: error: {ON_ONE} [loop-growing]
s.sed:1:1: note: `G` may lengthen the pattern space with the contents of the hold space
s.sed:2:1: note: `D` deletes up to the first newline, and starts again without reading a line
s.sed:1:1: note: `G` and so on
s.sed:1:1: note: hint: {ADDED}
"""),
    # greatest first rank 1, so that the limit by lines is 2 and 1: 2 * 1,000 + 1
    (b"", 0, f"""\
s.sed: accepted: every run ends
  steps: at most 2 a line, plus 1; for 1,000 lines of 80 bytes at most 2,001
{MEMORY}{NO_FILES}""", ""),
    # greatest first rank 3
    (b":a\nn\nb a\n", 0, f"""\
s.sed: accepted: every run ends
  steps: at most 4 a line, plus 1; for 1,000 lines of 80 bytes at most 4,001
{MEMORY}{NO_FILES}""", ""),
    # files by name, with the commands that name them, of which eight are listed; greatest first rank 13
    (b"r in\n" + b"p;w a b\n" + b"w x\n" * 9, 0, """\
s.sed: accepted: every run ends
  steps: at most 14 a line, plus 1; for 1,000 lines of 80 bytes at most 14,001
  memory: each space at most as long as the input
  reads: "in" (1:1)
  writes: "a b" (2:3)
  writes: "x" (3:1, 4:1, 5:1, 6:1, 7:1, 8:1, 9:1, 10:1 and 1 more)
""", ""),
    (b"$!N\nG\n", 0, f"""\
s.sed:2:1: note: {UNKNOWN} [no-space-bound]
   2 | G
     | ^
       2:1  G  may lengthen the pattern space with the contents of the hold space
s.sed: accepted: every run ends
{FOUR}{NO_FILES}""", f"""\
s.sed:2:1: note: {UNKNOWN} [no-space-bound]
s.sed:2:1: note: `G` may lengthen the pattern space with the contents of the hold space
"""),
    (b"$s/a/[&]/\n", 0, f"""\
s.sed:1:2: note: {UNKNOWN} [no-space-bound]
   1 | $s/a/[&]/
     |  ^^^^^^^^
       1:2  $s/a/[&]/  may replace a match with a longer text: it has the whole match, `&`, and more (on the last line)
s.sed: accepted: every run ends
{FOUR}{NO_FILES}""", f"""\
s.sed:1:2: note: {UNKNOWN} [no-space-bound]
s.sed:1:2: note: `$s/a/[&]/` may replace a match with a longer text: it has the whole match, `&`, and more (on the last line)
"""),
    (b"s/\\(a\\)b/\\1\\1/\n", 0, f"""\
s.sed:1:1: note: {UNKNOWN} [no-space-bound]
   1 | s/\\(a\\)b/\\1\\1/
     | ^^^^^^^^^^^^^^
       1:1  s/\\(a\\)b/\\1\\1/  may replace a match with a longer text: it has a group twice, or one that is repeated or inside another
s.sed: accepted: every run ends
{FOUR}{NO_FILES}""", f"""\
s.sed:1:1: note: {UNKNOWN} [no-space-bound]
s.sed:1:1: note: `s/\\(a\\)b/\\1\\1/` may replace a match with a longer text: it has a group twice, or one that is repeated or inside another
"""),
    (b"/a/s//xy/\n", 0, f"""\
s.sed:1:4: note: {UNKNOWN} [no-space-bound]
   1 | /a/s//xy/
     |    ^^^^^^
       1:4  /a/s//xy/  may replace a match with a longer text: it has 2 bytes, and the expression may be any of the script's
s.sed: accepted: every run ends
{FOUR}{NO_FILES}""", f"""\
s.sed:1:4: note: {UNKNOWN} [no-space-bound]
s.sed:1:4: note: `/a/s//xy/` may replace a match with a longer text: it has 2 bytes, and the expression may be any of the script's
"""),
    # a loop that shortens the pattern space: greatest ranks 5 and 5, so that the bound is 6, 6 * 7 and 6
    (b":a\ns/x//\nta\n", 0, f"""\
s.sed: accepted: every run ends
  steps: at most 6 a byte, plus 42 a line, plus 6; for 1,000 lines of 80 bytes at most 522,006
{MEMORY}{NO_FILES}""", ""),
    # the same after what may lengthen it
    (b"G\n:a\ns/x//\nta\n", 0, f"""\
s.sed:1:1: note: {NO_STEPS} [no-bound]
   1 | G
     | ^
       1:1  G  may lengthen the pattern space with the contents of the hold space
s.sed: accepted: every run ends
{NO_LIMIT}{NO_FILES}""", f"""\
s.sed:1:1: note: {NO_STEPS} [no-bound]
s.sed:1:1: note: `G` may lengthen the pattern space with the contents of the hold space
"""),
    (b"p;H\n", 0, f"""\
s.sed:1:3: note: {APPENDS} [no-space-bound]
   1 | p;H
     |   ^
s.sed: accepted: every run ends
{FOUR}{NO_FILES}""", f"""\
s.sed:1:3: note: {APPENDS} [no-space-bound]
"""),
]

MADE_AGAIN = "make the certificate again, with `sedck rank` or `sedck upgrade`"
LISTED = "look at what `sedck files` lists before you make the certificate again"
CHANGED = "if the script was changed, run `sedck rank` again and read what it prints"
LOWERED = ("a step that reads no line must lower the first rank (if it may lengthen the pattern space) or either rank (if not), and "
           "doesn't")

LOOP_SCRIPT = b":a\np\nb a\n"
PRINT = b"p\n"
NEXT_LINE = b":a\nn\nb a\n"
NEXT_LINE_TEXT = certificate(3, both({"0 0": "2 2", "1 0": "1 1", "2 0": "3 3"}))
PRINT_TEXT = certificate(1, both({"0 0": "2 2", "1 0": "1 1"}))


def replaced(text, number, line):
    """The text with another line in place of this one, counted from 1."""
    lines = text.split("\n")
    return "\n".join(lines[:number - 1] + [line] + lines[number:])


# the script and the certificate; the status, the report in text, and the one for editors
WITH_CERTIFICATE = [
    (NEXT_LINE, NEXT_LINE_TEXT, 0, f"""\
s.sed: accepted: every run ends
  steps: at most 4 a line, plus 1; for 1,000 lines of 80 bytes at most 4,001
{MEMORY}{NO_FILES}""", ""),
    # the greatest ranks there are
    (PRINT, certificate(1, both({"0 0": "65535 65535", "1 0": "1 1"})), 0, f"""\
s.sed: accepted: every run ends
  steps: at most 65,536 a line, plus 1; for 1,000 lines of 80 bytes at most 65,536,001
{MEMORY}{NO_FILES}""", ""),
    (LOOP_SCRIPT, certificate(3, both({"0 0": "3 3", "1 0": "2 2", "2 0": "1 1"})), 1, f"""\
s.sed:3:1: error: {LOWERED} [not-lowered]
   3 | b a
     | ^^^
       3:1  b a  branches; its ranks are 1 and 1
       1:1  :a   is reached; its ranks are 3 and 3
     = hint: if the script was changed, run `sedck rank` again; if that finds a loop, no ranks will do
{REJECTED}{NO_FILES}""", f"""\
s.sed:3:1: error: {LOWERED} [not-lowered]
s.sed:3:1: note: `b a` branches; its ranks are 1 and 1
s.sed:1:1: note: `:a` is reached; its ranks are 3 and 3
s.sed:3:1: note: hint: if the script was changed, run `sedck rank` again; if that finds a loop, no ranks will do
"""),
    (LOOP_SCRIPT, certificate(3, both({"0 0": "3 3", "1 0": "2 2"})), 1, f"""\
s.sed:2:1: error: a step leads from a node with ranks to one without [leaves-ranked]
   2 | p
     | ^
       2:1  p    goes on; reads no line; its ranks are 2 and 2
       3:1  b a  is reached; it has no ranks
     = hint: {CHANGED}
{REJECTED}{NO_FILES}""", f"""\
s.sed:2:1: error: a step leads from a node with ranks to one without [leaves-ranked]
s.sed:2:1: note: `p` goes on; reads no line; its ranks are 2 and 2
s.sed:3:1: note: `b a` is reached; it has no ranks
s.sed:2:1: note: hint: {CHANGED}
"""),
    # the script's end has no line; the edges of `0 0 0` come before those of `0 0 1`
    (PRINT, certificate(1, {"0 0 0": "2 2", "0 0 1": "7 3", "1 0 0": "1 1"}), 1, f"""\
s.sed:1:1: error: a step leads from a node with ranks to one without [leaves-ranked]
   1 | p
     | ^
       1:1  p  goes on; reads no line (on the last line); its ranks are 7 and 3
       end     is reached; it has no ranks
     = hint: {CHANGED}
{REJECTED}{NO_FILES}""", f"""\
s.sed:1:1: error: a step leads from a node with ranks to one without [leaves-ranked]
s.sed:1:1: note: `p` goes on; reads no line (on the last line); its ranks are 7 and 3
s.sed: note: the script's end is reached; it has no ranks
s.sed:1:1: note: hint: {CHANGED}
"""),
    (PRINT, NEXT_LINE_TEXT, 1, f"""\
s.sed: error: the certificate was made for another number of commands: 3, and not 1 [wrong-count]
     = hint: {CHANGED}
{REJECTED}{NO_FILES}""", f"""\
s.sed: error: the certificate was made for another number of commands: 3, and not 1 [wrong-count]
s.sed: note: hint: {CHANGED}
"""),
    (PRINT, certificate(1, {"0 0 0": "2 2", "1 0 0": "1 1", "1 0 1": "1 1"}), 1, f"""\
s.sed: error: the certificate has no ranks for one of the two nodes where a run may begin [start-unranked]
     = hint: give ranks to the nodes `0 0 0` and `0 0 1`
{REJECTED}{NO_FILES}""", """\
s.sed: error: the certificate has no ranks for one of the two nodes where a run may begin [start-unranked]
s.sed: note: hint: give ranks to the nodes `0 0 0` and `0 0 1`
"""),
    (b"r x\n", PRINT_TEXT, 1, f"""\
s.sed: error: the files that the script reads aren't those that the certificate lists [reads-differ]
     = hint: {LISTED}
{REJECTED}  reads: "x" (1:1)
  writes: no file
""", f"""\
s.sed: error: the files that the script reads aren't those that the certificate lists [reads-differ]
s.sed: note: hint: {LISTED}
"""),
    (b"w x\n", PRINT_TEXT, 1, f"""\
s.sed: error: the files that the script writes aren't those that the certificate lists [writes-differ]
     = hint: {LISTED}
{REJECTED}  reads: no file
  writes: "x" (1:1)
""", f"""\
s.sed: error: the files that the script writes aren't those that the certificate lists [writes-differ]
s.sed: note: hint: {LISTED}
"""),
    # a refused script comes before a refused certificate
    (b"p\n b\tz", "sedck 3\n", 2, """\
s.sed:2:4: error: this label isn't defined, and the script has none [unknown-label]
   2 |  b    z
     |       ^
""", """\
s.sed:2:4: error: this label isn't defined, and the script has none [unknown-label]
"""),
]

# what is done to the certificate; the line, the code, and what that line isn't
REFUSED_CERTIFICATES = [
    (replaced(PRINT_TEXT, 1, "sedck 3"), 1, "bad-header", "`sedck 2`, or `sedck 1` for version 1"),
    ("", 1, "bad-header", "`sedck 2`, or `sedck 1` for version 1"),
    (replaced(PRINT_TEXT, 2, "commands 01"), 2, "bad-count", "`commands` and the number of commands"),
    (replaced(PRINT_TEXT, 4, "0 0 1 65536 1"), 4, "bad-node", "the next node and its two ranks"),
    (replaced(PRINT_TEXT, 12, "write 1"), 14, "bad-end", "`end`, and nothing after it"),
    (replaced(PRINT_TEXT, 11, "read -"), 11, "bad-names", "the number of names in a list, or the next name in order"),
    (PRINT_TEXT + "\n", 14, "bad-end", "`end`, and nothing after it"),
]

# a command; what it does, the name as it is shown, and the code and the reason of each warning
STREAM = ("stream-name", "GNU sed takes it for a stream, and other seds and `--posix` for a file")
DEVICE = ("device-name", "it may not be a regular file, so reading or writing it may never end")
ABSOLUTE = ("absolute-name", "it is an absolute path")
UPWARD = ("upward-name", "a part of it is `..`, so it may lead out of the directory where the script runs")
UNPRINTABLE = ("unprintable-name", "it contains bytes that a terminal may not show")
BLANK = ("blank-at-end", "it ends in a space")
COMMAND = ("command-in-name", "a name goes on to the end of the line: was a command or a comment meant?")
HIDDEN = ("hidden-name", "a part of it begins with `.`: such files are hidden, and many of them are settings of programs")
MAKEFILE = ("makefile-name", "`make` runs the commands in a file of this name")
OPTION = ("option-name", "it begins with `-`, so that other programs take it for an option")
SHELL = ("shell-byte-in-name", "it has a byte to which a shell gives a meaning, and sed doesn't: quotes, `*`, `$` and the like are part of the name")
BOTH = ("read-and-written", "the script reads it too")
SAME = ("same-file", "another name in the script leads to the same file, as `F` and `./F` do")
WARNED = [
    (b"r /dev/stdin", "reads", "/dev/stdin", [DEVICE]),
    (b"r /dev/stdout", "reads", "/dev/stdout", [DEVICE]),
    (b"w /dev/stdout", "writes", "/dev/stdout", [STREAM]),
    (b"\t$w /dev/stderr", "writes", "/dev/stderr", [STREAM]),
    (b"w /dev/tty", "writes", "/dev/tty", [DEVICE]),
    (b"r /proc/1/stat", "reads", "/proc/1/stat", [DEVICE]),
    (b"r /sys/x", "reads", "/sys/x", [DEVICE]),
    (b"s/a/b/gw /etc/x", "writes", "/etc/x", [ABSOLUTE]),
    (b"p;r ../x", "reads", "../x", [UPWARD]),
    (b"r a/..", "reads", "a/..", [UPWARD]),
    (b"w a\tb", "writes", "a\\x09b", [UNPRINTABLE]),
    (b"r \xc3\xa9", "reads", "\\xc3\\xa9", [UNPRINTABLE]),
    (b"w \x9b[31mred\xff", "writes", "\\x9b[31mred\\xff", [UNPRINTABLE, SHELL]),
    (b"r x\xe9", "reads", "x\\xe9", [UNPRINTABLE]),
    (b"w x ", "writes", "x ", [BLANK]),
    (b"w x;p", "writes", "x;p", [COMMAND]),
    (b"r x}", "reads", "x}", [COMMAND]),
    (b"r x # two", "reads", "x # two", [COMMAND]),
    (b"w /../\xffa\\b; ", "writes", "/../\\xffa\\\\b; ", [ABSOLUTE, UPWARD, UNPRINTABLE, BLANK, COMMAND]),
    (b'r a"`b;', "reads", 'a\\"\\x60b;', [COMMAND, SHELL]),
    (b"r a..b", "reads", "a..b", []),
    (b"r .../x", "reads", ".../x", [HIDDEN]),
    (b"w dev/x", "writes", "dev/x", []),
    (b"r a:b,c*d", "reads", "a:b,c*d", [SHELL]),
    # hidden files and folders, and what is neither
    (b"w .bashrc", "writes", ".bashrc", [HIDDEN]),
    (b"w .ssh/authorized_keys", "writes", ".ssh/authorized_keys", [HIDDEN]),
    (b"r a/.git/config", "reads", "a/.git/config", [HIDDEN]),
    (b"r ./x", "reads", "./x", []),
    (b"r a/./b.c", "reads", "a/./b.c", []),
    # files that make reads
    (b"w Makefile", "writes", "Makefile", [MAKEFILE]),
    (b"w sub/makefile", "writes", "sub/makefile", [MAKEFILE]),
    (b"r ./GNUmakefile", "reads", "./GNUmakefile", [MAKEFILE]),
    (b"w Makefile.am", "writes", "Makefile.am", []),
    (b"w Makefile/x", "writes", "Makefile/x", []),
    (b"w MAKEFILE", "writes", "MAKEFILE", []),
    # what other programs would read otherwise
    (b"w -rf", "writes", "-rf", [OPTION]),
    (b"w -", "writes", "-", [OPTION]),
    (b"w ./-rf", "writes", "./-rf", []),
    (b"w a-b", "writes", "a-b", []),
    (b"w *", "writes", "*", [SHELL]),
    (b"w ~/x", "writes", "~/x", [SHELL]),
    (b"w x~", "writes", "x~", []),
    (b"w $HOME/x", "writes", "$HOME/x", [SHELL]),
    (b'w "F"', "writes", '\\"F\\"', [SHELL]),
    (b"r 'F'", "reads", "'F'", [SHELL]),
    (b"w F|cat", "writes", "F|cat", [SHELL]),
    (b"w a>b", "writes", "a>b", [SHELL]),
    (b"w a<b", "writes", "a<b", [SHELL]),
    (b"w a?", "writes", "a?", [SHELL]),
    (b"w a&b", "writes", "a&b", [SHELL]),
    (b"w a[1]", "writes", "a[1]", [SHELL]),
    (b"w a(1),{2}=%@^!+]", "writes", "a(1),{2}=%@^!+]", [COMMAND]),
    (b"w -/.x/../*;", "writes", "-/.x/../*;", [UPWARD, COMMAND, HIDDEN, OPTION, SHELL]),
]


def warned_due(script, offset, does, name, warnings):
    """The findings in text and for editors, for warnings at this offset."""
    line, column = place(script, offset)
    data = line_of(script, line)
    text = gcc = ""
    for code, reason in warnings:
        head = 's.sed:%d:%d: warning: this %s "%s": %s [%s]\n' % (line, column, does, name, reason, code)
        # A command goes on to the end of its line, but for blanks there.
        carets = "^" * len(shown_line(data[column - 1:].rstrip(b" ")))
        text += head + "%4d | %s\n     | %*s%s\n" % (line, shown_line(data), len(shown_line(data[:column - 1])), "", carets)
        gcc += head
    return text, gcc


def check_names(tools):
    """A command that names a file, after a line that names none."""
    for command, does, name, warnings in WARNED:
        script = b"# a line\n" + command + b"\n"
        verb = 9 + {b"\t": 2, b"p": 2}.get(command[:1], 0)
        text, gcc = warned_due(script, verb, does, name, warnings)
        tools.write("s.sed", script)
        status, report, errors = tools.explain("s.sed")
        tools.same("text %r" % script, (status, report.decode().partition("s.sed: accepted")[0], errors), (0, with_pages(text), b""))
        tools.same("gcc %r" % script, tools.explain("--format", "gcc", "s.sed"), (0, gcc.encode(), b""))
        tools.holds("summary %r" % script, '\n  %s: "%s" (2:%d)\n' % (does, name, verb - 8) in report.decode())


def check_both(tools):
    """A file that is read and written, and the order of warnings: files that are read come first, both by name. The script's end is
    reached with the flag and without it, so that the greatest first rank is 7."""
    script = b"w f\nw /b\nr f\nr /a\ns/x/y/w f\n"
    tools.write("s.sed", script)
    parts = [
        warned_due(script, script.index(b"r /a"), "reads", "/a", [ABSOLUTE]),
        warned_due(script, script.index(b"w /b"), "writes", "/b", [ABSOLUTE]),
        warned_due(script, 0, "writes", "f", [("read-and-written", "the script reads it too")]),
    ]
    summary = """\
s.sed: accepted: every run ends
  steps: at most 8 a line, plus 1; for 1,000 lines of 80 bytes at most 8,001
  memory: each space at most as long as the input
  reads: "/a" (4:1)
  reads: "f" (3:1)
  writes: "/b" (2:1)
  writes: "f" (1:1, 5:1)
"""
    tools.same("text %r" % script, tools.explain("s.sed"), (0, with_pages("".join(part[0] for part in parts) + summary).encode(), b""))
    tools.same("gcc %r" % script, tools.explain("--format", "gcc", "s.sed"), (0, "".join(part[1] for part in parts).encode(), b""))


# A script, and the warnings of each of its names: what it does, its command, and the code with its reason.
SHARED = [
    (b"r ./F\nw F\n", [("reads", b"r ./F", SAME), ("writes", b"w F", SAME)]),
    (b"w F\nw ./F\n", [("writes", b"w ./F", SAME), ("writes", b"w F", SAME)]),
    (b"w a//b\nw a/./b\nw ./a/b\n", [("writes", b"w ./a/b", SAME), ("writes", b"w a/./b", SAME), ("writes", b"w a//b", SAME)]),
    (b"r F\nw F\nw .//F\n", [("reads", b"r F", SAME), ("writes", b"w .//F", SAME), ("writes", b"w F", BOTH), ("writes", b"w F", SAME)]),
    (b"r F\nw F\n", [("writes", b"w F", BOTH)]),
    (b"w ./F\n", []),
    (b"w F\nw F.\nw .F/..F\nw /F\n", [("writes", b"w .F/..F", HIDDEN), ("writes", b"w /F", ABSOLUTE)]),
    (b"w //F\nw /./F\n", [("writes", b"w /./F", ABSOLUTE), ("writes", b"w /./F", SAME), ("writes", b"w //F", ABSOLUTE), ("writes", b"w //F", SAME)]),
]


def check_shared(tools):
    """Names that lead to one file: both are warned of, and no other name."""
    for script, warnings in SHARED:
        tools.write("s.sed", script)
        due = "".join('s.sed:%d:1: warning: this %s "%s": %s [%s]\n' % (script[:script.index(command + b"\n")].count(b"\n") + 1, does, command[2:].decode(), reason, code)
                      for does, command, (code, reason) in warnings)
        tools.same("gcc %r" % script, tools.explain("--format", "gcc", "s.sed"), (0, due.encode(), b""))


def check_certificates(tools):
    """Certificates that are refused."""
    tools.write("s.sed", PRINT)
    for text, line, code, wanted in REFUSED_CERTIFICATES:
        tools.write("s.cert", text.encode())
        head = "s.sed: error: line %d of the certificate: expected %s [%s]\n" % (line, wanted, code)
        for form, hint in (("text", "     = hint: "), ("gcc", "s.sed: note: hint: ")):
            due = head + hint + MADE_AGAIN + "\n"
            due = with_pages(due) if form == "text" else due
            tools.same("%s %r" % (form, text), tools.explain("--format", form, "--cert", "s.cert", "s.sed"), (2, due.encode(), b""))


def check_long_lines(tools):
    """Of a line that is wider than 160 characters, so many are shown: up to 80 before the byte, and more where fewer follow."""
    for script, column, shown, before, *width in [
        (b"k" + b"x" * 159, 1, "k" + "x" * 159, 0),
        (b"k" + b"x" * 160, 1, "k" + "x" * 159 + "...", 0),
        (b"p;" * 79 + b"pk", 160, "p;" * 79 + "pk", 159),
        (b"p;" * 80 + b"k", 161, "...;" + "p;" * 79 + "k", 162),
        (b"p;" * 100 + b"k" + b";p" * 100, 201, "..." + "p;" * 40 + "k" + ";p" * 39 + ";...", 83),
        (b"p;" * 100 + b"\xe9" + b"\t" * 100, 201, "..." + "p;" * 40 + "\\xe9" + "    " * 19 + "...", 83, 4),
    ]:
        tools.write("s.sed", script + b"\np\n")
        status, report, errors = tools.explain("s.sed")
        lines = report.decode().split("\n")
        tools.same("place %r" % script, (status, lines[0].split(" ")[0], errors), (2, "s.sed:1:%d:" % column, b""))
        tools.same("line %r" % script, lines[1:3], ["   1 | " + shown, "     | " + " " * before + "^" * (width or [1])[0]])


def check(tools: Tools) -> None:
    """Compares whole reports."""
    cases = [(script, None, *due) for script, *due in ALONE] + WITH_CERTIFICATE
    for script, text, status, *reports in cases:
        words = []
        if text is not None:
            words = ["--cert", tools.write("s.cert", text.encode())]
        tools.write("s.sed", script)
        text_due, gcc_due = with_pages(reports[0]).encode(), reports[1].encode()
        what = "%r %r" % (script, text)
        tools.same("text with notes " + what, tools.explain("--level", "note", *words, "s.sed"), (status, text_due, b""))
        # Without notes the report begins behind the one of these scripts, which is before the answer.
        shown = re.sub(rb"(?s)^[^\n]*: note: .*?(?=^s\.sed: accepted)", b"", text_due, flags=re.M)
        tools.same("text " + what, tools.explain(*words, "s.sed"), (status, shown, b""))
        tools.same("gcc with notes " + what, tools.explain("--format", "gcc", "--level", "note", *words, "s.sed"), (status, gcc_due, b""))
        tools.same("gcc " + what, tools.explain("--format", "gcc", *words, "s.sed"), (status, gcc_due if status else b"", b""))
    check_names(tools)
    check_both(tools)
    check_shared(tools)
    check_certificates(tools)
    check_long_lines(tools)
