"""Scripts that are refused: the place, the code, the message and the hint of each, and the reports in text and for editors.

The places are those that docs/FAULTS.md has for each fault, counted by hand, as lines and columns.
"""
import json

from explain_tools import Tools, line_of, page_due, shown_line

NO_VERB = "expected a sed command"
NO_ADDRESS = "expected an address"
NO_FLAG = "unknown flag, or the same flag twice"
NO_PART = "the replacement has an unknown escape, or a group that the expression doesn't have"
NO_ESCAPE = "POSIX defines no such escape in a basic regular expression, and seds differ on it"
MISSING = "a delimiter is missing or invalid"
LISTS = "the lists of `y` differ in length, have an escape other than `\\\\`, `\\n` and that of the delimiter, or leave a `[` open in the first"
INTERVAL = "an interval is \\{m\\}, \\{m,\\} or \\{m,n\\} with numbers up to 255"

SPLIT = "split the script into several that run one after another"
CONTROL = "remove this control character: a terminal may obey it, and BusyBox skips some before a name"
RETURN = "the line ends in a carriage return: save the file with Unix line endings"
MARK = "the file begins with a byte order mark: save it without one"
ANY_ADDRESS = "an address is a line number, `$`, or an expression between delimiters"
ANY_FLAG = ("does the text have the delimiter? Then use another one, as in `s,a/b,c,`; the flags are `g`, `p`, a number, and `w` with a file "
            "name, each once")
SKIPPED = ("for `0~3d` alone in a script write `n`, `n` and `d`; for `1~2d` write `$d`, `N` and `s/.*\\n//`; for `2~3d` put an `n` before these, "
           "and for `1~3d` after them; "
           "in UTF-8 the `s` stops at a byte that is no character")
STEPS = "for `0~3p` alone in a script write `n`, `n` and `p`; for `2~5p` write `n`, `p`, `n`, `n` and `n`; the " \
    "command may neither delete, as `c` does, nor read a line"
GNU = "this extension of GNU sed has no equivalent in POSIX: do it outside the script"
BYTE = "write the byte itself, but a newline as `\\n`, and the delimiter after a backslash"
WORD = ("match what is next to the word, in UTF-8 only where each byte is of a character: for `/\\<WORD/p` write `/^WORD/b do`, "
        "`/[^[:alnum:]_]WORD/b do`, `b on`, `:do`, `p` and `:on` on lines of their own; for `/WORD\\>/p` write `/WORD$/b do`, `/WORD[^[:alnum:]_]/b do`, `b on`, `:do`, `p` and `:on`; for both ends the four pairs of "
        "these; each match of WORD must begin and end with a letter, a digit or `_`")
GROUPS = ("no escape of POSIX means an end of a word: match the byte next to it as a group of its own, after which the groups of WORD have "
          "other numbers, and `&` has that byte too")
ENDS = "for the ends of the pattern space write `^` first in an expression and `$` last"
OTHER_BYTE = "write the character without the backslash, or in a bracket list, as in `[%]`"
NO_BRACKET = "a list ends with a `]`; for the bracket itself write `\\[`"
BRACKET = ("a delimiter in a bracket list ends the expression: use another one, as in `s,[/],x,` or `\\,[/],p`; in `[\\/]` some seds keep the "
           "backslash")
REVERSED = "the ends of the range are the wrong way round: the one with the lower byte comes first, as in `[a-z]`"
LONGER = "write a longer repetition as two, as in `a\\{255\\}a\\{45\\}`"
GROUP = "a group is written `\\(` and `\\)`; literal parentheses are `(` and `)`"
CLOSED = "a group is written `\\(` and `\\)`, and it is closed before a reference to it"
QUOTED = "`'\\''` is how the shell writes one `'` in its quotes: write `'`"
EACH = "for `/a\\|b/p` write `/a/b do`, `/b/b do`, `b on`, `:do`, `p` and `:on` on lines of their own"
AGAIN = "a group may be repeated again, as in `\\(a\\{2\\}\\)*`"
DELIMITED = ("end each part with the delimiter, on the same line: `s/a/b/`, and write a newline as `\\n`; a newline, a backslash or a byte above 127 can't "
             "be the delimiter")
LETTERS = "to change whole lines write `y/abc../ABC../` with the whole alphabet"
NAME = "write the name after a blank; it goes on to the end of the line"
LABEL = "a label consists of letters, digits, `_`, `.` and `-`"
SEPARATED = "end each command with a newline or a `;`"

# the script; the line and the column; the code, the message, and the hint where there is one
REFERENCE = "seds get this reference wrong, by a group that is repeated, has a reference in it, or may match nothing"
NO_GROUP = ("repeat bytes and lists in place of groups, as `a*` for `\\(a\\)*`, or split the command in two; "
            "give a group a byte where it may match nothing")
ANCHOR = "seds get this anchor wrong: its group is repeated, or the expression has a reference"
OUTSIDE = ("an anchor holds in one place: move it out of the group, as in `^\\(a\\)`, if that is meant; "
           "a literal one is written `\\^` or `\\$`")

SEVERAL = ("`^` and `$` match only at the ends of the pattern space: match `\\n` instead, and write `[^\\n]` for `.` and `[^x\\n]` for `[^x]`, "
           "which match no newline with `M`; where that is one line leave `M` out")

REFUSED = [
    (b"p\n" * 524288 + b"p", 524289, 1, "too-long", "the script is longer than 1,048,576 bytes", SPLIT),
    (b"p\n\tp\0p\n", 2, 3, "nul-byte", "a script can't contain a NUL byte", None),
    (b"1~2p\n", 1, 2, "unknown-command", NO_VERB, STEPS),
    (b"p\nT end\n", 2, 1, "unknown-command", NO_VERB,
     "for `T end` write `t go`, `b end` and `:go` on lines of their own; for `/x/T end` put the first two into a block, `/x/{` and `}`"),
    (b"$!z\n", 1, 3, "unknown-command", NO_VERB,
     "for `z` write `g` if no command uses the hold space; else write `s/.*//`, which sets the flag that `t` tests, is what `//` means after "
     "it, and in UTF-8 stops at a byte that is no character"),
    (b"/x/Q", 1, 4, "unknown-command", NO_VERB, "for `/x/Q` alone in a script write `/x/,$d`"),
    (b"1e", 1, 2, "unknown-command", NO_VERB, "POSIX sed can't run other programs: do it outside the script"),
    (b"F\n", 1, 1, "unknown-command", NO_VERB, GNU),
    (b"p;R x\n", 1, 3, "unknown-command", NO_VERB, GNU),
    (b"p;v\n", 1, 3, "unknown-command", NO_VERB, "`v` requires a version of GNU sed: leave it out"),
    (b"W x\n", 1, 1, "unknown-command", NO_VERB,
     "for `W out` write `h`, `s/\\n.*//`, `w out` and `g`, if nothing needs the hold space; the `s` sets the flag that `t` tests, "
     "is what `//` means after it, and in UTF-8 stops at a byte that is no character"),
    (b":b\nT\nb b\n", 2, 1, "unknown-command", NO_VERB, "for `T end`, `b again` and `:end` write `t again`"),
    (b"p\n Q", 2, 2, "unknown-command", NO_VERB,
     "for `/x/Q` alone in a script write `/x/,$d`; for `Q` without an address, as in a block, write `:end`, `$d`, `N`, `s/.*\\n//` and `b end` on lines of their own, "
     "which print what `a` or `r` adds before"),
    (b"p;Q1\n", 1, 3, "unknown-command", NO_VERB,
     "for `/x/Q` alone in a script write `/x/,$d`; for `Q` without an address, as in a block, write `:end`, `$d`, `N`, `s/.*\\n//` and `b end` on lines of their own, "
     "which print what `a` or `r` adds before; the status is then 0, since no command of POSIX gives another one"),
    (b"/x/M!p\n", 1, 4, "unknown-command", NO_VERB,
     SEVERAL),
    (b"k\n", 1, 1, "unknown-command", NO_VERB, None),
    (b"-n p\n", 1, 1, "unknown-command", NO_VERB, "an option of sed is no part of a script: give it to sed itself"),
    (b"p;1", 1, 4, "unknown-command", NO_VERB, "a command is missing after the address"),
    (b"\xef\xbb\xbfp\n", 1, 1, "unknown-command", NO_VERB, MARK),
    (b"1p\n/x/\r\n", 2, 4, "unknown-command", NO_VERB, RETURN),
    (b"1,+2p\n", 1, 3, "bad-address", NO_ADDRESS, "for `6,+2` write `6,8`"),
    (b"/a/,~4p\n", 1, 5, "bad-address", NO_ADDRESS, GNU),
    (b"1p;5,~4p\n", 1, 6, "bad-address", NO_ADDRESS, "for `5,~4` write `5,8`"),
    (b"/a/,2~4p\n", 1, 6, "unknown-command", NO_VERB, None),
    (b"0~4,5p\n", 1, 1, "bad-address", NO_ADDRESS, None),
    (b"2,0~4p\n", 1, 3, "bad-address", NO_ADDRESS, None),
    (b"2, 1~4p\n", 1, 5, "unknown-command", NO_VERB, None),
    (b"p;10~11!d\n", 1, 5, "unknown-command", NO_VERB,
     "for `0~3!d` alone in a script write `$d`, `N`, `$d`, `N` and `s/.*\\n//`; for `1~3!d` write `n`, `$!N` and `d`; "
     "in UTF-8 the `s` stops at a byte that is no character"),
    (b"12~11!d\n", 1, 3, "unknown-command", NO_VERB, None),
    (b"p\n0~3d\n", 2, 1, "bad-address", NO_ADDRESS, SKIPPED),
    (b"0,/x/s/x/y/\n", 1, 1, "bad-address", NO_ADDRESS,
     "for `0,/x/s/a/b/` alone in a script write `/x/{`, `s/a/b/`, `:rest`, `n`, `b rest`, `}` and once more `s/a/b/` on lines of their own, "
     "and so for `p`"),
    (b"0 , \\|/|!p\n", 1, 1, "bad-address", NO_ADDRESS, "`1,/x/` is the same if the first line doesn't match"),
    (b"0p\n", 1, 1, "bad-address", NO_ADDRESS, "lines are counted from 1"),
    (b"p\n4294967296p\n", 2, 1, "bad-address", NO_ADDRESS, "a line number is at most 4,294,967,295"),
    (b"1,p\n", 1, 3, "bad-address", NO_ADDRESS, ANY_ADDRESS),
    (b"1,2q\n", 1, 4, "too-many-addresses", "this command takes fewer addresses, or no `!`", None),
    (b"s/a/b", 1, 1, "unterminated", MISSING, DELIMITED),
    (b"p\n /a\n", 2, 2, "unterminated", MISSING, DELIMITED),
    (b"s/a/\\1/\n", 1, 5, "bad-replacement", NO_PART, "the expression has fewer groups: a group is written `\\(` and `\\)`; is the script meant for `sed -E`?"),
    (b"s/a/\\0/\n", 1, 5, "bad-replacement", NO_PART, "for `\\0` write `&`"),
    (b"s/a/x\\U&/\n", 1, 6, "bad-replacement", NO_PART, LETTERS),
    (b"s/a/\\l&/\n", 1, 5, "bad-replacement", NO_PART, LETTERS),
    (b"s/a/\\x41/\n", 1, 5, "bad-replacement", NO_PART, "write the byte itself, but a newline as `\\n`, `&` as `\\&`, a backslash as `\\\\`, "
     "and the delimiter after a backslash"),
    (b"s/a/\\q/\n", 1, 5, "bad-replacement", NO_PART, "write the character without the backslash"),
    (b"s/a/b/I\n", 1, 7, "bad-flag", NO_FLAG,
     "for `s/hello/x/I` write `s/[hH][eE][lL][lL][oO]/x/`, if the expression has no reference; in UTF-8 `I` also takes U+0131 for an `i` and U+017F for an `s`"),
    (b"s/a/b/e\n", 1, 7, "bad-flag", NO_FLAG, "POSIX sed can't run other programs: do it outside the script"),
    (b"s/a/b/gM\n", 1, 8, "bad-flag", NO_FLAG,
     SEVERAL),
    (b"s/a/b/'\n", 1, 7, "bad-flag", NO_FLAG, "quotes belong to the shell: leave them out of the script"),
    (b"s/a/b/0\n", 1, 7, "bad-flag", NO_FLAG, "matches are counted from 1"),
    (b"s/a/b/4294967296\n", 1, 7, "bad-flag", NO_FLAG, "give only one number among the flags, of at most 4,294,967,295"),
    (b"s/a/b/gg\n", 1, 8, "bad-flag", NO_FLAG, ANY_FLAG),
    (b"s/http://x/\n", 1, 10, "bad-flag", NO_FLAG, ANY_FLAG),
    (b"s/a/b/\r\n", 1, 7, "bad-flag", NO_FLAG, RETURN),
    (b"y/a/bc/\n", 1, 1, "bad-transliteration", LISTS, "make both lists the same length"),
    (b"y/a\\t/bc/\n", 1, 4, "bad-transliteration", LISTS,
     "write the character itself; a backslash may only precede a backslash, an `n` or the delimiter"),
    (b"1a\\\\t\n", 1, 2, "missing-text", "a text on the line of its command can't begin with a backslash",
     "seds differ on a text that begins with a backslash: write `a\\`, a newline and the text"),
    (b"s/[][.*^$]/x/\n", 1, 3, "unclosed-bracket", "a class or symbol that begins in the bracket list, with `[:`, `[.` or `[=`, isn't closed",
     "in a bracket list `[.`, `[=` and `[:` begin a symbol or a class: put the `[` last, as in `[].*[]`"),
    (b"1a", 1, 2, "missing-text", "the command has no text", "write `a\\` and the text on the next line"),
    (b"1i", 1, 2, "missing-text", "the command has no text", "write `i\\` and the text on the next line"),
    (b"1c\\\\t\n", 1, 2, "missing-text", "a text on the line of its command can't begin with a backslash",
     "seds differ on a text that begins with a backslash: write `c\\`, a newline and the text"),
    (b"$a\\", 1, 2, "missing-text", "the command has no text",
     "`$a\\` adds a missing last newline, but only in GNU sed: add it before sed; for a text write `a\\` and the text on the next line"),
    (b"0rx\n", 1, 1, "bad-address", NO_ADDRESS, "`0r` is an extension of GNU sed: put the file before the output, as in `sed .. | cat FILE -`"),
    (b"1,2,3p\n", 1, 4, "unknown-command", NO_VERB, "a command has at most two addresses"),
    (b"p;,3p\n", 1, 3, "unknown-command", NO_VERB, "write an address before the comma, as in `1,5p`"),
    (b"2,/x/~3p\n", 1, 6, "unknown-command", NO_VERB, "GNU sed refuses this, too: only a line number comes before `~`, as in `0~3`"),
    (b"s/a/b/w\n", 1, 7, "missing-name", "the file name is missing", NAME),
    (b"p;r\n", 1, 3, "missing-name", "the file name is missing", NAME),
    (b":\n", 1, 2, "bad-label", "a label is missing, or has a byte that a label can't have", LABEL),
    (b":a\nb a,c\n", 2, 4, "bad-label", "a label is missing, or has a byte that a label can't have", LABEL),
    (b":a;:a\n", 1, 5, "duplicate-label", "this label is already defined", None),
    (b"p\nb z\n", 2, 3, "unknown-label", "this label isn't defined, and the script has none", None),
    (b":a\n: a.b_c-9;b z\n", 2, 13, "unknown-label", "this label isn't defined: there are `a`, `a.b_c-9`", None),
    (b"b z\ns;:x;y;\ny;:a;:b;\n/:q/i\\\n:no\ns/a/b/;:end", 1, 3, "unknown-label", "this label isn't defined: there are `end`", None),
    (b"".join(b":%d\n" % at for at in range(1, 11)) + b"t z", 11, 3, "unknown-label",
     "this label isn't defined: there are `1`, `2`, `3`, `4`, `5`, `6`, `7`, `8`, ...", None),
    (b"p;}\n", 1, 3, "unopened-block", "this `}` closes no block", None),
    (b"{p\n1{p\np}\n", 1, 1, "unclosed-block", "this block isn't closed",
     "write its `}` on a line of its own; after a file name or a text it would be part of that"),
    (b"{" * 65, 1, 65, "too-deep", "this block is inside 64 others, which is the limit", None),
    (b"p\n" * 4096, 4096, 1, "too-many-commands", "this is the 4,096th command, one more than a script may have", SPLIT),
    (b"p\np p\n", 2, 3, "extra-text", "unexpected text after a command", SEPARATED),
    (b"p\r\n", 1, 2, "extra-text", "unexpected carriage return", RETURN),
    (b"#!/bin/sed\r\np\r\n", 2, 2, "extra-text", "unexpected carriage return", RETURN),
    (b"w out\\\np\n", 1, 6, "extra-text", "unexpected backslash at the end of the line",
     "BusyBox joins this line with the next one: end the name or the comment with another character"),
    *[(b"w " + name + b"\n", 1, 3 + at, "extra-text", "unexpected control character", CONTROL) for name, at in [
        (b"\fout", 0), (b"a\x1b[1Ab", 1), (b"\x7f", 0), (b"a\t\x01", 2), (b"\xc3\xa9\xc2\x9b", 2), (b"\xc2\x80", 0)]],
    (b"s//x/\n", 1, 3, "no-previous-expression", "an empty expression repeats the one used last, and the script has none", "write the expression"),
    (b"s|a\\|b|c|\n", 1, 4, "escaped-delimiter", "this delimiter can't be escaped: seds differ on what it then means",
     "use a delimiter that isn't in the expression"),
    # expressions; the places after escaped delimiters count these as the two bytes that they are in the script
    (b"p\n\ts/a\\+/b/\n", 2, 5, "bad-escape", NO_ESCAPE, "for `x\\+` write `x\\{1,\\}` or `xx*`"),
    (b"s/a\\/b\\/c\\+d/x/\n", 1, 10, "bad-escape", NO_ESCAPE, "for `x\\+` write `x\\{1,\\}` or `xx*`"),
    (b"s/a\\\\\\/b\\?/x/\n", 1, 9, "bad-escape", NO_ESCAPE, "for `x\\?` write `x\\{0,1\\}`; if the character `?` is meant write `?`"),
    (b"\\,[\\,]\\,\\?,p\n", 1, 9, "bad-escape", NO_ESCAPE, "for `x\\?` write `x\\{0\\,1\\}`, since `,` is the delimiter; if the character `?` is meant write `?`"),
    (b"/\\//,/\\/\\|/p\n", 1, 9, "bad-escape", NO_ESCAPE, "a range needs one expression, as `[ab]` for `a\\|b` or `xa\\{0,1\\}` for `x\\|xa`"),
    (b"/\\//!{/\\/\\|/p\n}", 1, 10, "bad-escape", NO_ESCAPE, EACH),
    (b"/\\s/p\n", 1, 2, "bad-escape", NO_ESCAPE, "for `\\s` write `[[:space:]]`"),
    (b"/\\S/p\n", 1, 2, "bad-escape", NO_ESCAPE, "for `\\S` write `[^[:space:]]`"),
    (b"/\\w/p\n", 1, 2, "bad-escape", NO_ESCAPE, "for `\\w` write `[[:alnum:]_]`"),
    (b"/\\W/p\n", 1, 2, "bad-escape", NO_ESCAPE, "for `\\W` write `[^[:alnum:]_]`"),
    (b"/\\d/p\n", 1, 2, "bad-escape", NO_ESCAPE, "if a digit is meant write `[[:digit:]]`"),
    (b"/a\\b/p\n", 1, 3, "bad-escape", NO_ESCAPE, WORD),
    (b"/\\<a/p\n", 1, 2, "bad-escape", NO_ESCAPE, WORD),
    (b"s/\\<\\(a\\)b/\\1/g\n", 1, 3, "bad-escape", NO_ESCAPE, GROUPS),
    (b"s/\\Ba/x/g\n", 1, 3, "bad-escape", NO_ESCAPE, GROUPS),
    (b"/\\`a/p\n", 1, 2, "bad-escape", NO_ESCAPE, ENDS),
    (b"/a\\'/p\n", 1, 3, "bad-escape", NO_ESCAPE, ENDS),
    (b"/a'\\''/p\n", 1, 4, "bad-escape", NO_ESCAPE, QUOTED),
    (b"/\\x41/p\n", 1, 2, "bad-escape", NO_ESCAPE, BYTE),
    (b"/\\q/p\n", 1, 2, "bad-escape", NO_ESCAPE, OTHER_BYTE),
    (b"s/[/]/x/\n", 1, 3, "unclosed-bracket", "the bracket list isn't closed before the delimiter", BRACKET),
    (b"s/a[b/x/\ns/]//\n", 1, 4, "unclosed-bracket", "the bracket list isn't closed before the delimiter", NO_BRACKET),
    (b"/a[[:<:]]/p\n", 1, 4, "bad-bracket", "invalid range, class or hyphen in a bracket list, or an element that seds read differently", WORD),
    (b"s/[z-a]/x/\n", 1, 4, "bad-bracket", "invalid range, class or hyphen in a bracket list, or an element that seds read differently", REVERSED),
    (b"s/[^[:cntrl:]\x01-\xff]/x/\n", 1, 3, "empty-set", "the bracket list matches nothing", None),
    (b"s/\\(a/x/\n", 1, 3, "unclosed-group", "this group isn't closed", GROUP),
    (b"s/a\\)/x/\n", 1, 4, "unopened-group", "this `\\)` closes no group", GROUP),
    (b"s/a\\{2/x/\n", 1, 4, "bad-interval", INTERVAL, "an interval ends in `\\}`; write a literal `{` without a backslash"),
    (b"s/a\\{256\\}/x/\n", 1, 4, "bad-interval", INTERVAL, LONGER),
    (b"s/\\{2\\}/x/\n", 1, 3, "nothing-to-repeat", "there is nothing before this interval to repeat",
     "for a literal brace write `{`; else put what is to be repeated before it"),
    (b"s/a*\\{2\\}/x/\n", 1, 5, "double-repeat", "this is already repeated, and can't be repeated again", AGAIN),
    (b"s/\\1/x/\n", 1, 3, "bad-reference", "no group with this number is closed before this reference", CLOSED),
    (b"s/\\(a\\1\\)/x/\n", 1, 6, "bad-reference", "no group with this number is closed before this reference", CLOSED),
    (b"s/\\(a\\)\\2\\(b\\)/x/\n", 1, 8, "bad-reference", "no group with this number is closed before this reference", CLOSED),
    (b"s/\\(a\\)*\\(b\\)\\2/x/\n", 1, 14, "bad-reference", REFERENCE, NO_GROUP),
    (b"s,\\(\\(\\,\\)\\2\\)\\1,x,\n", 1, 11, "bad-reference", REFERENCE, NO_GROUP),
    (b"/x/,/[\\(]\\(a*\\)\\1*/p\n", 1, 16, "bad-reference", REFERENCE, NO_GROUP),
    (b"s/\\(^a\\)*b/x/\n", 1, 5, "nothing-to-repeat", ANCHOR, OUTSIDE),
    (b"s/\\(a$\\)\\1/x/\n", 1, 6, "nothing-to-repeat", ANCHOR, OUTSIDE),
    (b"s/" + b"\\(" * 33 + b"\\)" * 33 + b"/x/\n", 1, 67, "too-deep", "this group is inside 32 others, which is the limit", None),
    (b"s/" + b"\\(\\)" * 100 + b"/x/\n", 1, 399, "too-many-groups", "this is the hundredth group, one more than an expression may have", None),
]

LINE_WIDTH = 160


def excerpt(line, column):
    """A line as it is shown, and how many characters precede the byte: the 160 characters that reach its end, for a longer line
    whose end is near."""
    before, after = shown_line(line[:column - 1]), shown_line(line[column - 1:])
    if len(before) + len(after) <= LINE_WIDTH:
        return before + after, len(before)
    left = before[len(before) + len(after) - LINE_WIDTH:]
    return "..." + left + after, len(left) + 3


def text_due(name, script, row, carets):
    """The whole report in text, with so many carets."""
    line, column, code, message, hint = row
    shown, before = excerpt(line_of(script, line), column)
    gutter = max(4, len(str(line)) + 2)
    return "".join([
        "%s:%d:%d: error: %s [%s]\n" % (name, line, column, message, code),
        "%*d | %s\n" % (gutter, line, shown),
        "%*s | %*s%s\n" % (gutter, "", before, "", "^" * carets),
        "%*s = hint: %s\n" % (gutter, "", hint) if hint else "",
        "%*s = see: docs/%s\n" % (gutter, "", page_due(code, hint or "")),
    ])


def gcc_due(name, row):
    """The whole report for editors."""
    line, column, code, message, hint = row
    at = "%s:%d:%d: " % (name, line, column)
    return "%serror: %s [%s]\n" % (at, message, code) + ("%snote: hint: %s\n" % (at, hint) if hint else "")


def check(tools: Tools) -> None:
    """Compares both reports on each script."""
    for script, *row in REFUSED:
        what = repr(script[:40])
        tools.write("s.sed", script)
        # The ends themselves are compared in tests/explain_findings.py.
        finding = json.loads(tools.explain("--format", "json", "s.sed")[1])["findings"][0]
        meant = script[finding["position"]["offset"]:finding["end"]["offset"]]
        carets = max(1, min(len(shown_line(meant)), LINE_WIDTH))
        tools.same("text %s" % what, tools.explain("s.sed"), (2, text_due("s.sed", script, row, carets).encode(), b""))
        tools.same("gcc %s" % what, tools.explain("--format", "gcc", "s.sed"), (2, gcc_due("s.sed", row).encode(), b""))
