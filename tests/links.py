#!/usr/bin/env python3
"""Checks links, versions, edits and crates in the documents: python3 tests/links.py, in any folder.

Each link to a file of the repository must lead to one, and to a heading of it where it names one, also those to pages of docs/ that
the code has as texts; a link from a name in code to a file of Rattle leads to one that declares this name; each page is linked from docs/README.md; the manual pages and the programs have the version of the first entry of CHANGELOG.md, and no other file has one; each
edit says what is wrong and which function of its crate promises otherwise, and docs/PROVED.md lists those that the gate tries, as
tools/edits.py does; CONTRIBUTING.md has a line for each crate of crates.txt, with the crates right below it, and each file of a crate's
src begins with what it is for. The status is 0 only where all of this holds.
"""
import re
import sys
from collections.abc import Iterator
from pathlib import Path

TOP = Path(__file__).resolve().parent.parent
sys.path.insert(0, str(TOP / "tools"))
import edits

PAGES = [TOP / "README.md", TOP / "CONTRIBUTING.md", TOP / "CHANGELOG.md", TOP / "SECURITY.md", TOP / "examples" / "README.md",
         TOP / "tests" / "seds" / "README.md", *sorted((TOP / "docs").glob("*.md"))]
INDEX = TOP / "docs" / "README.md"
MANUAL = sorted((TOP / "man").glob("sedck*.[1-8]"))
WORDS = TOP / "crates" / "sedck_formats" / "src" / "words.rt"
# What has its version from CHANGELOG.md, by tools/dist.py.
FILLED = ("library/sedck.pc", "packaging/debian/changelog", "packaging/sedck.spec")


def without_code(text):
    return re.sub(r"^```.*?^```$", "", text, flags=re.M | re.S)


def anchors(page: Path) -> set[str]:
    """The names of a page's headings, as hosts of repositories make them."""
    heads = re.findall(r"^#+ (.*)$", without_code(page.read_text()), flags=re.M)
    return {re.sub(r"[^\w\- ]", "", head.lower()).replace(" ", "-") for head in heads}


def links(page: Path) -> Iterator[tuple[str, Path, str]]:
    """The links and pictures of a page that name no other host: the file, and the heading or an empty text."""
    text = re.sub(r"``?[^`\n]*``?(?![^\[\]]*\]\()", "", without_code(page.read_text()))
    for target in re.findall(r"\]\(([^)\s]+)\)", text) + re.findall(r'\bsrc(?:set)?="([^"\s]+)"', text):
        if "://" not in target:
            name, _, head = target.partition("#")
            yield target, (page.parent / name).resolve() if name else page, head


def undeclared(page: Path):
    """The names in code that lead to a file of Rattle in which no function and no type has that name."""
    for words, target in re.findall(r"\[(`[\w:]+`(?:, `[\w:]+`)*)\]\(([^)\s]+\.rt)\)", page.read_text()):
        file = page.parent / target
        code = file.read_text() if file.exists() else ""
        for name in re.findall(r"`(?:\w+::)*(\w+)`", words):
            if not re.search(r"\b(?:fn|struct|enum|trait)\s+%s\b" % name, code):
                yield "%s: %s declares no %s" % (page.relative_to(TOP), target, name)


def right_below(below):
    """The crates right below each crate: those that it stands on, but for what another one of them stands on."""
    whole = {name: set(names) for name, names in below.items()}
    for _ in below:
        for names in whole.values():
            names.update(*[whole[name] for name in names])
    return {name: {one for one in names if not any(one in whole[other] for other in names)} for name, names in below.items()}


def crates():
    """Where the lines of CONTRIBUTING.md for the crates aren't those of crates.txt, and files of src that don't say what they are for."""
    ours = {path.parent.name for path in TOP.glob("crates/*/src")}
    rows = re.findall(r"^(\w+)(?: [^:\n]*)?:(.*)$", (TOP / "crates.txt").read_text(), flags=re.M)
    due = right_below({name: ours & set(below.split()) for name, below in rows if name in ours})
    lines = re.findall(r"^- `(sedck\w*)`(?: \(([^)]*)\))?: \S", (TOP / "CONTRIBUTING.md").read_text(), flags=re.M)
    names = [name for name, _ in lines]
    for name in sorted(ours ^ {name for name, _ in rows}):
        yield "crates.txt and the folders of crates differ in %s" % name
    for name in sorted(ours | set(names)):
        if names.count(name) != (name in ours):
            yield "CONTRIBUTING.md has %d lines for the crate %s, not %d" % (names.count(name), name, name in ours)
    for name, below in lines:
        if name in due and set(re.findall(r"`(\w+)`", below)) != due[name]:
            yield "CONTRIBUTING.md: right below %s stand %s, by crates.txt" % (name, ", ".join(sorted(due[name])) or "no crates")
    for file in sorted(TOP.glob("crates/*/src/**/*.rt")):
        if not re.match(r"//! \S*\w", file.read_text()):
            yield "%s doesn't begin with a line //! that says what it is for" % file.relative_to(TOP)


def versions():
    """Files with another version than the first entry of CHANGELOG.md, and files that have one though they get it when they are packed."""
    version = re.search(r"^## (\d+\.\d+\.\d+) \(", (TOP / "CHANGELOG.md").read_text(), flags=re.M)[1]
    for page in MANUAL:
        if '"sedck %s"' % version not in page.read_text().split("\n")[0]:
            yield "%s isn't of version %s" % (page.relative_to(TOP), version)
    if 'pub const VERSION: &str = "%s";\n' % version not in WORDS.read_text():
        yield "%s isn't of version %s" % (WORDS.relative_to(TOP), version)
    for name in FILLED:
        text = (TOP / name).read_text()
        if "@VERSION@" not in text or re.search(r"\b%s\b" % re.escape(version), text):
            yield "%s doesn't get its version when it is packed" % name
    for page in PAGES:
        for name in re.findall(r"sedck-\d[\w.-]*\.tar\.gz", page.read_text()):
            yield "%s names the archive %s, which has another name in the next version" % (page.relative_to(TOP), name)


def faults():
    yield from edits.head_faults()
    if edits.tried() not in (TOP / "docs" / "PROVED.md").read_text():
        yield "docs/PROVED.md doesn't list the edits that the gate tries as `python3 tools/edits.py --proved` does"
    for page in PAGES:
        for target, file, head in links(page):
            if not file.exists():
                yield "%s: no file %s" % (page.relative_to(TOP), target)
            elif head and head not in anchors(file):
                yield "%s: no heading %s" % (page.relative_to(TOP), target)
        yield from undeclared(page)
    for source in sorted(TOP.glob("crates/*/src/**/*.rt")):
        for name, head in re.findall(r"\b([A-Z]+\.md)#([\w-]+)", source.read_text()):
            page = TOP / "docs" / name
            if not page.exists() or head not in anchors(page):
                yield "%s: no heading %s#%s" % (source.relative_to(TOP), name, head)
    yield from crates()
    linked = {file for _, file, _ in links(INDEX)}
    for page in [page for page in PAGES if page != INDEX] + MANUAL:
        if page not in linked:
            yield "docs/README.md has no link to %s" % page.relative_to(TOP)
    yield from versions()


def main():
    found = list(faults())
    for fault in found:
        print(fault)
    if not found:
        print("links: %d in %d pages lead somewhere" % (sum(len(list(links(page))) for page in PAGES), len(PAGES)))
    return 1 if found else 0


if __name__ == "__main__":
    sys.exit(main())
