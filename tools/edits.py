#!/usr/bin/env python3
"""Wrong bodies as files: python3 tools/edits.py [--table | --proved]

An edit is a file `crates/NAME/must-fail/*.edit` or `crates/NAME/planted/*.edit`: lines `file: PATH`, a file of the crate, and behind each
the pairs of lines `old: TEXT` and `new: TEXT`. Each `old:` text is there exactly once, in what the pairs before it made of the file.

Its head, the lines before the first `file:`, is for readers: `wrong: WHAT`; `promised by: FUNCTION`, a public one, which promises otherwise,
with the clause after a comma where a certain one does; and `refused in: FUNCTION`, also with its clause, where the prover stops in a function
inside. Without a line `promised by:` no contract that other crates see rules the body out: that inside does.

Says which edit can't be applied, or has another head. The status is 0 only where there is none. With --table it prints all edits by
their heads, and with --proved it puts those that the gate tries into docs/PROVED.md.
"""
import re
import sys
from collections.abc import Iterator
from pathlib import Path

TOP = Path(__file__).resolve().parent.parent
FOLDERS = ("must-fail", "planted")
PARTS = ("src/", "specs/", "proofs/")


class Unfit(Exception):
    """Why an edit can't be applied."""


def edited(crate: Path, edit: Path, before: dict[str, str] | None = None) -> dict[str, str]:
    """The texts of the files that an edit changes, by their paths in the crate, and those that earlier edits made."""
    texts, path, old = dict(before or {}), "", None
    for line in edit.read_text().splitlines():
        if line.startswith("file: "):
            path = line[len("file: "):].strip()
            if not path.startswith(PARTS) or not (crate / path).is_file():
                raise Unfit("there is no file %s" % path)
        elif line.startswith("old: "):
            old = line[len("old: "):]
        elif line.startswith("new:"):
            if not path or not old:
                raise Unfit("a line 'new:' comes before a line 'file:' or 'old:'")
            text = texts.setdefault(path, (crate / path).read_text())
            if text.count(old) != 1:
                raise Unfit("%r is in %s %d times, not once" % (old, path, text.count(old)))
            texts[path], old = text.replace(old, line[len("new:"):].removeprefix(" ")), None
    if not texts or old is not None:
        raise Unfit("it has no pair of lines 'old:' and 'new:', or half of one")
    return texts


def faults(top: Path = TOP) -> Iterator[str]:
    """What is wrong with the edits of all crates."""
    for folder in FOLDERS:
        for edit in sorted(top.glob("crates/*/%s/*" % folder)):
            name = edit.relative_to(top)
            try:
                texts = edited(edit.parent.parent, edit) if edit.suffix == ".edit" else {}
            except (Unfit, OSError, UnicodeDecodeError) as why:
                yield "%s can't be applied: %s" % (name, why)
                continue
            if edit.suffix not in (".edit", ".md"):
                yield "%s: the name of an edit ends in .edit" % name
            if any((edit.parent.parent / path).read_text() == text for path, text in texts.items()):
                yield "%s changes nothing" % name


class Head:
    """What an edit's head says."""

    def __init__(self, edit):
        self.path, self.crate, self.is_tried, self.name = edit, edit.parent.parent.name, edit.parent.name == "must-fail", edit.stem
        self.lines = [line.split(": ", 1) for line in re.split("^file: ", edit.read_text(), maxsplit=1, flags=re.M)[0].splitlines()]
        said = dict(self.lines) if all(len(line) == 2 for line in self.lines) else {}
        self.wrong, self.promised, self.refused = (said.get(key, "") for key in ("wrong", "promised by", "refused in"))

    def fault(self, words, public):
        """What is wrong with the head, where these are the words of the crate's code, and those that others may use."""
        keys = [line[0] for line in self.lines]
        if keys not in (["wrong", "promised by"], ["wrong", "promised by", "refused in"], ["wrong", "refused in"]) or not self.wrong:
            return "its head isn't a line `wrong:`, a line `promised by:` and perhaps a line `refused in:`, or the first and the last one"
        if self.promised and self.promised.split(",")[0].split("::")[-1] not in public:
            return "its head says that %s promises something to other crates, and it isn't public" % self.promised
        for said in (self.promised, self.refused):
            if said and not re.fullmatch(r"[\w:]+(?:, \w+)?", said):
                return "its head names %r, which isn't a function, or one and a clause" % said
            for word in re.findall(r"\w+", said):
                if word not in words:
                    return "its head names %s, which isn't in the crate's code" % word
        return None


def heads(top: Path = TOP) -> list[Head]:
    """The heads of all edits, by crate in the order of crates.txt, and by the function that promises otherwise."""
    names = re.findall(r"^(\w+)[^:#\n]*:", (top / "crates.txt").read_text(), re.M)
    found = [Head(edit) for folder in FOLDERS for edit in top.glob("crates/*/%s/*.edit" % folder)]
    return sorted(found, key=lambda head: (names.index(head.crate), head.promised.split(",")[0], not head.is_tried, head.name))


def head_faults(top: Path = TOP) -> Iterator[str]:
    """Which edits have no head, or one that names what isn't there."""
    words, public = {}, {}
    for head in heads(top):
        if head.crate not in words:
            code = "\n".join(path.read_text() for path in sorted((top / "crates" / head.crate / "src").rglob("*.rt")))
            words[head.crate] = set(re.findall(r"\b(?:fn|struct|enum|trait|ensures|ghost) (\w+)", code))
            public[head.crate] = set(re.findall(r"\bpub (?:const )?(?:unsafe )?(?:extern \"C\" )?fn (\w+)|\b(?:struct|enum|trait) (\w+)", code))
            public[head.crate] = {name for names in public[head.crate] for name in names}
        fault = head.fault(words[head.crate], public[head.crate])
        if fault:
            yield "%s: %s" % (head.path.relative_to(top), fault)


def table() -> str:
    """All edits: the crate, the file, what is wrong, which function promises otherwise, and where the prover stops."""
    rows = ["| crate | edit | what is wrong | promised by | refused in |", "|---|---|---|---|---|"]
    for head in heads():
        functions = ["`%s`" % said if said else "" for said in (head.promised, head.refused)]
        rows.append("| `%s` | `%s/%s` | %s | %s | %s |" % (head.crate, "must-fail" if head.is_tried else "planted", head.name, head.wrong, *functions))
    return "\n".join(rows) + "\n"


def tried() -> str:
    """The table in docs/PROVED.md of the edits that the gate tries: a row for each function."""
    rows = {}
    for head in heads():
        if head.is_tried:
            rows.setdefault((head.crate, head.promised.split(",")[0]), []).append("`%s`" % head.name)
    return "| crate | function | wrong bodies |\n|---|---|---|\n" + "".join(
        "| `%s` | `%s` | %s |\n" % (crate, function, ", ".join(names)) for (crate, function), names in rows.items())


def put_into_proved() -> int:
    """Puts that table into docs/PROVED.md, in place of what is there."""
    page = TOP / "docs" / "PROVED.md"
    text, found = re.subn(r"(?m)^(## Wrong bodies that the gate sees refused\n\n.*\n\n)(?:[|].*\n)*", lambda match: match[1] + tried(), page.read_text())
    page.write_text(text)
    return 0 if found == 1 else 1


def main() -> int:
    if sys.argv[1:] == ["--proved"]:
        return put_into_proved()
    if sys.argv[1:] == ["--table"]:
        print(table(), end="")
        return 0
    found = list(faults()) + list(head_faults())
    for fault in found:
        print(fault)
    if not found:
        print("edits: %d can be applied" % sum(len(list(TOP.glob("crates/*/%s/*.edit" % folder))) for folder in FOLDERS))
    return 1 if found else 0


if __name__ == "__main__":
    sys.exit(main())
