"""What the tests of `sedck-explain` share: runs of both programs, comparisons, and the rules by which bytes are shown."""
import functools
import os
import re
import subprocess
import unicodedata
from pathlib import Path

TOP = os.path.dirname(os.path.dirname(os.path.abspath(__file__)))
with open(os.path.join(TOP, "CHANGELOG.md")) as changes:
    # An unproved program says so after its version; tests/run.py says that it is one.
    VERSION = re.search(r"^## (\d+\.\d+\.\d+) \(", changes.read(), flags=re.M)[1] + os.environ.get("SEDCK_VERSION_MARK", "")


class Tools:
    """Both programs, a folder for their files, and what was compared."""

    def __init__(self, explain, sedck, folder):
        self.explain_path, self.sedck_path = os.path.abspath(explain), os.path.abspath(sedck)
        self.folder, self.compared, self.failures = folder, 0, []

    def path(self, name):
        """The path of a file in the folder."""
        return os.path.join(self.folder, name)

    def write(self, name, data):
        """Writes a file in the folder, and answers its name."""
        with open(self.path(name), "wb") as file:
            file.write(data)
        return name

    def run(self, program, words, given=b"", **changes):
        """The status of a run in the folder, and what it writes to standard output and to standard error."""
        env = {name: value for name, value in os.environ.items() if name != "NO_COLOR"}
        done = subprocess.run([program, *words], cwd=self.folder, env={**env, **changes}, input=given, capture_output=True, timeout=60, check=False)
        return done.returncode, done.stdout, done.stderr

    def explain(self, *words, given=b"", **changes):
        return self.run(self.explain_path, words, given, **changes)

    def sedck(self, *words):
        return self.run(self.sedck_path, words)

    def same(self, what, seen, due):
        """Compares what is seen with what is due."""
        self.compared += 1
        if seen != due:
            self.failures.append("%s:\n  is  %r\n  not %r" % (what, seen, due))

    def holds(self, what, truth):
        self.same(what, bool(truth), True)


def shown_line(data: bytes) -> str:
    """A line in printable ASCII: a tab as four spaces, and other bytes as `\\x` and two digits."""
    return "".join("    " if byte == 9 else chr(byte) if 32 <= byte < 127 else "\\x%02x" % byte for byte in data)


def letters(data: bytes) -> list[bytes]:
    """The bytes of each character of UTF-8, and of each byte that is part of none, in order."""
    parts = []
    while data:
        part = next((data[:size] for size in range(1, 5) if is_letter(data[:size])), data[:1])
        parts.append(part)
        data = data[len(part):]
    return parts


def is_letter(data):
    """Whether the bytes are those of one character."""
    try:
        return len(data.decode()) == 1
    except UnicodeDecodeError:
        return False


# Characters that aren't shown, though some of them are letters or marks to Unicode.
UNSEEN = re.compile("[\u034f\u115f\u1160\u17b4\u17b5\u180b-\u180f\u2060-\u206f\u3164\ufdd0-\ufdef\ufe00-\ufe0f\uffa0\ufff0-\uffff\U000e0000-\U000e0fff]")


def is_seen(letter: str) -> bool:
    """Whether a page shows the character: a blank, or none that has no shape of its own, or turns or separates what is around it."""
    hidden = unicodedata.category(letter) in ("Cc", "Cf", "Cs", "Co", "Cn", "Zs", "Zl", "Zp")
    return letter == " " or not (hidden or UNSEEN.fullmatch(letter))


def shown_unicode(data: bytes) -> str:
    """A line as pages have it: characters of UTF-8 that can be seen, a tab as four spaces, and other bytes as `\\x` and two digits."""
    return "".join(part.decode() if is_letter(part) and is_seen(part.decode()) else shown_line(part) for part in letters(data))


def shown_name(data: bytes) -> str:
    """A name in printable ASCII: a backslash before a backslash and a double quote; a backquote and other bytes as `\\x` and two
    digits."""
    special = {34: '\\"', 92: "\\\\", 96: "\\x60"}
    return "".join(special.get(byte) or (chr(byte) if 32 <= byte < 127 else "\\x%02x" % byte) for byte in data)


def place(data: bytes, offset: int) -> tuple[int, int]:
    """The line and the column of a byte, both from 1."""
    return data.count(b"\n", 0, offset) + 1, offset - (data.rfind(b"\n", 0, offset) + 1) + 1


def line_of(data: bytes, line: int) -> bytes:
    """The bytes of a line, without its newline."""
    return data.split(b"\n")[line - 1]


# The page of a code, but of the faults of scripts and expressions, each of which has a heading of its own in FAULTS.md.
PAGES = {
    "MENDING.md#repairing-loops": ["loop-idle", "loop-growing"],
    "FAULTS.md#faults-of-certificates": ["bad-header", "bad-count", "bad-node", "bad-names", "bad-end"],
    "FAULTS.md#rejections": ["wrong-count", "start-unranked", "leaves-ranked", "not-lowered", "reads-differ", "writes-differ"],
    "TRUST.md#scripts-of-strangers": ["denied-reads", "denied-writes", "denied-unbounded", "denied-growing", "denied-warnings"],
    "TRUST.md#devices-pipes-and-links": ["device-name"],
    "TRUST.md#the-scripts-own-file": ["names-itself"],
    "TRUST.md#input-and-output": ["writes-its-input"],
    "SEDS.md#seds-of-the-bsds-and-macos": ["label-to-the-line-end", "long-labels"],
    "TRUST.md#names": ["stream-name", "absolute-name", "upward-name", "unprintable-name", "blank-at-end", "command-in-name", "hidden-name",
                       "makefile-name", "option-name", "shell-byte-in-name", "read-and-written", "same-file"],
    "TRUST.md#options-and-the-scripts-first-line": ["options-in-first-line", "looks-extended"],
    "GRAMMAR.md#the-plain-spelling": ["no-plain-spelling"],
    "GRAMMAR.md#what-seds-read-differently": ["brace-behind-label", "one-line-text", "silencing-comment", "backslash-in-list", "class-without-list", "range-in-y"],
    "TRUST.md#what-a-limit-on-steps-doesnt-limit": ["denied-slow", "denied-references"],
}


# The sections of some hints, by their first words; the sections themselves are followed in tests/followed.py.
OF_HINTS = {
    "MENDING.md#joining-lines": ["make each round read"],
    "MENDING.md#waiting-for-a-line": ["branch only where"],
    "MENDING.md#padding-a-line": ["if the loop makes a line as long"],
    "MENDING.md#substituting-until-nothing-changes": ["write one `s` with the flag `g`"],
    "MENDING.md#carrying-a-digit": ["repeat the command as often as it may be needed, and then"],
    "FAULTS.md#bad-address-steps-of-lines": ["for `0~3p`"],
    "FAULTS.md#unknown-command": ["for `0~3d`"],
    "FAULTS.md#unknown-command-the-command-t": ["for `T end`"],
    "FAULTS.md#unknown-command-the-command-z": ["for `z`"],
    "FAULTS.md#unknown-command-the-command-q": ["for `/x/Q`"],
    "FAULTS.md#bad-address-lines-after-an-address": ["for `6,+2`"],
    "FAULTS.md#bad-replacement-letters-in-upper-and-lower-case": ["to change whole lines"],
    "FAULTS.md#bad-flag-the-flags-e-and-m": ["`^` and `$` match only"],
    "FAULTS.md#missing-text-one-that-begins-with-a-backslash": ["seds differ on a text"],
    "FAULTS.md#extra-text-a-byte-at-the-end-of-a-line": ["the line ends in a carriage return", "BusyBox joins"],
    "FAULTS.md#extra-text-a-control-character-in-a-name": ["remove this control character"],
    "FAULTS.md#bad-escape-a-bar": ["a range needs"],
    "FAULTS.md#bad-escape-a-bar-and-another-command": ["for `/a\\|b/p`"],
    "FAULTS.md#bad-escape-classes-of-letters-and-blanks": ["for `\\%s` write" % letter for letter in "sSwW"],
    "FAULTS.md#bad-escape-edges-of-words": ["match what is next to the word", "no escape of POSIX"],
    "FAULTS.md#bad-escape-plus-and-question-mark-elsewhere": ["for `x\\?` write `x\\{0\\,1"],
    "FAULTS.md#nothing-to-repeat-an-anchor": ["an anchor holds in one place"],
    "FAULTS.md#bad-reference-beside-a-repeated-group": ["repeat bytes and lists"],
    "FAULTS.md#escaped-delimiter-with-a-bracket-list": ["GNU sed reads `\\x`"],
}


@functools.cache
def page_due(code: str, hint: str = "") -> str:
    """The page that explains a code, with its heading, or what its hint says."""
    for page, starts in OF_HINTS.items():
        if hint and any(hint.startswith(start) for start in starts):
            return page
    for page, codes in PAGES.items():
        if code in codes:
            return page
    heads = re.findall(r"^### (.*)$", (Path(TOP) / "docs" / "FAULTS.md").read_text(), flags=re.M)
    return "FAULTS.md#" + next(head for head in heads if head == code)


def with_pages(report: str) -> str:
    """A report in text with the page of each error or warning, after the first finding that has it."""
    blocks, seen = re.split(r"(?m)^(?=\S)", report), set()
    for at, block in enumerate(blocks):
        head = re.match(r".*?: (error|warning): .* \[([a-z-]+)\]\n", block)
        hint = re.search(r"(?m)^ *= hint: (.*)$", block)
        page = page_due(head[2], hint[1] if hint else "") if head else None
        if head and page not in seen:
            seen.add(page)
            gutter = re.search(r"(?m)^( *)(\d+) \| ", block)
            width = len(gutter[1] + gutter[2]) if gutter else 4
            blocks[at] += "%*s = see: docs/%s\n" % (width, "", page)
    return "".join(blocks)
