#!/usr/bin/env python3
"""Holds what `sedck-explain --calls` says of shell files against the syntax trees that `shfmt` makes of them.

    python3 tests/seds/seds_trees.py build/sedck-explain [FOLDER ..] [--jobs J]

Each shell file below the folders, by its first line or its name, is read by both. A call that `shfmt` sees is a command with a literal `sed`,
`gsed` or `ssed`, also with a path, as its name. A finding is:

- such a call that the report neither has nor tells as a place that isn't understood;
- a call that both have, of which a word that is literal in the tree is another one in the report.

Calls that the report alone has are counted, as in the text of `sh -c`; one of its words after another command's name is looked up in the tree, too.
Files that `shfmt` refuses, and long ones, whose trees are large, are counted and left out. Without a folder, or without `shfmt`, nothing is
done, which is said. The status is 0 only where there is no finding.
"""
import argparse
import json
import multiprocessing
import os
import re
import subprocess
import sys
from pathlib import Path

sys.path.insert(0, str(Path(__file__).resolve().parent.parent))
from seds_calls import shown
from skips import has

LONGEST = 200000
FIRST_LINE = re.compile(rb"#! ?(/usr)?/bin/(env )?(ba|da|k)?sh\b")
NAMES = (".sh", ".bash", ".ksh", ".dash")
SED = re.compile(rb"(.*/)?[gs]?sed")


def files_below(folders):
    for folder in folders:
        for path in sorted(Path(folder).rglob("*")):
            if path.is_symlink() or not path.is_file():
                continue
            with path.open("rb") as file:
                if path.suffix in NAMES or FIRST_LINE.match(file.read(64)):
                    yield str(path)


def unquoted(text, quotable):
    """The bytes of a literal, in which a backslash quotes these bytes, or each where they are None."""
    allowed = "." if quotable is None else "[%s]" % re.escape(quotable)
    return re.sub(r"\\(\n|%s)" % allowed, lambda found: found[1].replace("\n", ""), text, flags=re.S).encode()


def part_bytes(part, quotable, depth):
    """The bytes of a part of a word within so many backquotes; None where they are unknown before a run."""
    if part["Type"] == "Lit":
        is_open = quotable is None and re.match(r"(.*[=:])?~|.*(?<!\\)\{.*(,|\.\.).*\}", part["Value"], re.S)
        return None if is_open else unquoted(part["Value"], quotable)
    if part["Type"] == "SglQuoted" and not part.get("Dollar"):
        text = part.get("Value", "")
        for _ in range(depth):
            # `shfmt` leaves backslashes there that belong to the backquotes.
            text = re.sub(r"\\([$`\\\n])", lambda found: found[1].replace("\n", ""), text)
        return text.encode()
    if part["Type"] == "DblQuoted" and not part.get("Dollar"):
        parts = [part_bytes(one, "$`\"\\\n", depth) for one in part.get("Parts", [])]
        return None if None in parts else b"".join(parts)
    return None


def word_bytes(word, depth):
    parts = [part_bytes(part, None, depth) for part in word["Parts"]]
    return None if None in parts else b"".join(parts)


def commands_of(tree):
    """The offsets and the bytes of the words of each command."""
    left = [(tree, 0)]
    while left:
        node, depth = left.pop()
        if isinstance(node, list):
            left += [(one, depth) for one in node]
        elif isinstance(node, dict):
            depth += bool(node.get("Backquotes"))
            if node.get("Type") == "CallExpr" and node.get("Args"):
                yield [(word["Pos"]["Offset"], word_bytes(word, depth)) for word in node["Args"]]
            left += [(one, depth) for one in node.values() if isinstance(one, (dict, list))]


def tree_of(path):
    text = Path(path).read_bytes()
    for language in ("bash", "posix", "mksh"):
        done = subprocess.run(["shfmt", "--to-json", "-ln", language], input=text, capture_output=True)
        if done.returncode == 0:
            return json.loads(done.stdout)
    return None


class File:
    """What is counted of a file, and its findings."""

    def __init__(self, path):
        self.path, self.text, self.counts, self.findings = path, Path(path).read_bytes(), {}, []

    def count(self, name, what=None, offset=0):
        self.counts[name] = self.counts.get(name, 0) + 1
        if what:
            self.findings.append("%s:%d: %s" % (self.path, self.line_of(offset), what))

    def line_of(self, offset):
        return self.text.count(b"\n", 0, offset) + 1

    def compare(self, ours, told, commands):
        """Holds the words of the calls of a report, by their offsets, against commands; the lines on which it tells a place are told."""
        places = set()
        for words in commands:
            for number, (offset, word) in enumerate(words):
                theirs = [one for _, one in words[number + 1:]]
                if offset in ours:
                    places.add(offset)
                    # The words of `eval` are read again.
                    name = None if words[0][1] == b"eval" else word
                    self.compare_words(ours[offset], name, theirs if number == 0 else theirs[:len(ours[offset])], offset)
                elif number == 0 and word is not None and SED.fullmatch(word):
                    is_told = bool(told & {0, self.line_of(offset)})
                    self.count("told" if is_told else "missed", None if is_told else "this call is only in the tree: %r" % theirs, offset)
        self.counts["ours"] = len(set(ours) - places)

    def compare_words(self, ours, name, theirs, offset):
        if name is None:
            self.count("other names")
        elif len(ours) == len(theirs) and all(word in (None, b"{}", mine) for mine, word in zip(ours, theirs)):
            self.count("same")
        else:
            self.count("different", "words are %r here, and %r in the tree" % (ours, theirs), offset)


def told_lines(objects):
    """The lines of places that aren't understood; 0 where there are more than the report names."""
    lines = set()
    for one in objects:
        for finding in one.get("findings", []):
            if finding["code"] == "not-understood":
                lines |= {finding["position"]["line"], *map(int, re.findall(r"\d+", finding["message"]))}
                lines |= {0} if "more" in finding["message"] else set()
    return lines


def compared(given):
    """What is counted of a file, and the findings."""
    program, path = given
    if os.path.getsize(path) > LONGEST:
        return {"long": 1}, []
    tree = tree_of(path)
    if tree is None:
        return {"refused": 1}, []
    done = subprocess.run([program, "--format", "json", "--calls", path], stdin=subprocess.DEVNULL, capture_output=True, timeout=300)
    objects = [json.loads(line) for line in done.stdout.splitlines()][:-1]
    file = File(path)
    file.count("files")
    ours = {one["call"]["offset"]: list(map(shown, one["words"])) for one in objects if one.get("words") is not None and one.get("call")}
    file.compare(ours, told_lines(objects), commands_of(tree))
    return file.counts, file.findings


def main():
    parser = argparse.ArgumentParser(description=__doc__, formatter_class=argparse.RawDescriptionHelpFormatter)
    parser.add_argument("program")
    parser.add_argument("folders", nargs="*")
    parser.add_argument("--jobs", type=int, default=len(os.sched_getaffinity(0)))
    asked = parser.parse_intermixed_args()
    if not asked.folders:
        print("trees: no folder is given (make shells TREES=\"FOLDER ..\"), so no file is held against shfmt")
        return 0
    if not has("trees", "calls by the syntax trees of shfmt", "shfmt"):
        return 0
    program, total, wrong = os.path.abspath(asked.program), {}, 0
    with multiprocessing.Pool(asked.jobs) as pool:
        for counts, findings in pool.imap(compared, [(program, path) for path in files_below(asked.folders)]):
            for name, number in counts.items():
                total[name] = total.get(name, 0) + number
            wrong += len(findings)
            for finding in findings:
                print("trees: " + finding, flush=True)
    names = (("files", "files"), ("same", "calls with the same words"), ("other names", "by another name or in the words of `eval`"), ("different", "with different words"), ("told", "only in the tree, and told"),
             ("missed", "only in the tree"), ("ours", "only in the report"), ("refused", "files that shfmt refuses"), ("long", "too long"))
    print("trees: " + ", ".join("%d %s" % (total.get(name, 0), said) for name, said in names))
    return 1 if wrong else 0


if __name__ == "__main__":
    sys.exit(main())
