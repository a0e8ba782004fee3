#!/usr/bin/env python3
"""Tests tools/definitions.py: that it keeps every line of every definition, and every word of its text.

    python3 tests/definitions.py              tests tools/definitions.py
    python3 tests/definitions.py SCRIPT       tests another version of it

Small files that are made here are read, and must give the names, the lines and the words that are
written beside them. And the lines of each file of specs/ are counted here in another way, without
looking at definitions at all. docs/PROVED.md must name the functions that require something.
"""
import importlib.util
import re
import sys
import tempfile
from pathlib import Path

TOP = Path(__file__).resolve().parent.parent

HEAD = """-- What the file says.
-- More of it.
use Rattle.std.specs.Prelude.{ℕ, ◌+◌,
  List, [], ◌∷◌}
pub use Rattle.other.specs.Words.{behind, before, inside}

"""

# What is read: a file, and for each definition its names, how many lines it has, and words that it cites.
READ = {
    "a definition that a comment at the margin cuts in two": (HEAD + """-- ---- Words

-- what it does
abbrev pub Does : ℕ → ℕ
Does zero = before
-- and so on
Does (suc n) =
    -- the rest
    behind n

-- another one
abbrev pub next : ℕ → ℕ
next n = n + 1
""", [(["Does"], 7, {"before", "behind"}), (["next"], 3, set())]),
    "a comment on a paragraph of its own belongs to what follows": (HEAD + """-- Two words.

-- the first
abbrev pub one : ℕ
one = behind
""", [(["one"], 4, {"behind"})]),
    "an operator": (HEAD + """-- one after another
infixl 10 ◌>>=◌
abbrev pub ◌>>=◌ : ℕ → ℕ → ℕ
n >>= m = behind n m

abbrev pub use_it : ℕ
use_it = 1 >>= 2
""", [(["◌>>=◌"], 4, {"behind"}), (["use_it"], 2, {">>="})]),
    "a record": (HEAD + """-- two parts
pub record Pair (n : ℕ) : Type 0 where
  -- the first
  pub first : before n
  pub second :
      behind n

-- a value over several lines
abbrev pub pair : ℕ → Pair
pair n = record {
  first = inside;
}
""", [(["Pair"], 6, {"before", "behind"}), (["pair"], 5, {"inside"})]),
    "a type with its constructors": (HEAD + """pub data Class : Type 0 where
  -- small letters
  lower : Class
  Upper : behind → Class
""", [(["Class", "lower", "Upper"], 4, {"behind"})]),
    "a mutual block": (HEAD + """-- both ways
mutual
  pub data Tree : Type 0 where
    -- one thing
    Leaf : before → Tree
    Node : Trees → Tree

  -- many
  pub data Trees : Type 0 where
    Nil : Trees

abbrev mutual
  pub depth : Tree → ℕ
  depth (Leaf n) = inside n
-- at the margin
  depth (Node ts) = depths ts

  pub depths : Trees → ℕ
  depths Nil = behind
""", [(["Tree", "Leaf", "Node", "Trees", "Nil"], 9, {"before"}), (["depth", "depths"], 7, {"inside", "behind"})]),
}

# What is refused: a file with a line that belongs to nothing, and the number of that line.
REFUSED = {
    "an equation of another definition": (HEAD + "abbrev pub one : ℕ\none = 1\n\nabbrev pub two : ℕ\ntwo = 2\none = 2\n", 12),
    "an equation of nothing": (HEAD + "one = 1\n", 7),
    "an indented line below nothing": (HEAD + "  one = 1\n", 7),
    "a line in a mutual block that defines nothing of it": (HEAD + "abbrev mutual\n  pub one : ℕ\n  two = 1\n", 9),
    "a line of a record that is no field": (HEAD + "pub record One : Type 0 where\n  what\n", 8),
    "a word that isn't known at the margin": (HEAD + "abbrev pub one : ℕ\none = 1\n\npostulate something\n", 10),
    "a comment below everything, with no definition": (HEAD + "-- alone\n", 8),
}


def script(path):
    """The script as a module."""
    spec = importlib.util.spec_from_file_location("script", path)
    module = importlib.util.module_from_spec(spec)
    spec.loader.exec_module(module)
    module.TOP = TOP
    return module


def read(tool, text):
    """The blocks that the script finds in a file with this text."""
    with tempfile.TemporaryDirectory() as room:
        path = Path(room) / "Made.antt"
        path.write_text(text, encoding="utf-8")
        return tool.definitions(path, "Rattle.made.specs.Made")[0]


def faults_of_read(tool, title, text, wanted):
    found = read(tool, text)
    if [block.names for block in found] != [names for names, _, _ in wanted]:
        yield f"{title}: it has the definitions {[block.names for block in found]}, and not {[names for names, _, _ in wanted]}"
        return
    for block, (names, lines, words) in zip(found, wanted):
        if tool.size([block]) != lines:
            yield f"{title}: {names[0]} has {tool.size([block])} lines, and not {lines}"
        cited = set(tool.tokens("\n".join(block.rest)))
        if not words <= cited:
            yield f"{title}: {names[0]} cites {', '.join(sorted(words - cited))}, which is lost"


def faults_of_refused(tool, title, text, line):
    try:
        read(tool, text)
    except Exception as refusal:
        if f":{line}:" not in str(refusal):
            yield f"{title}: it is refused, but not at line {line}: {refusal}"
        return
    yield f"{title}: it is read"


def lines_of(path):
    """How many lines of the file are neither blank, nor of its head, nor imports, nor headings."""
    text = path.read_text(encoding="utf-8")
    text = re.sub(r"\A(?:--(?! ----).*\n)*", "", text)
    text = re.sub(r"^(?:pub )?use [^{}\n]*(?:\{[^{}]*\})?[^{}\n]*\n", "", text, flags=re.M)
    return len(re.findall(r"^(?!-- ----|pub mod ).*\S", text, flags=re.M))


def faults_of_specs(tool):
    book = tool.Book()
    for path in sorted(TOP.glob("crates/*/specs/**/*.antt")):
        if path.name in ("Lib.antt",) or path.name == "Private.antt" and path.parent.name == "specs":
            continue
        modules = [module for module, there in book.paths.items() if there == path]
        kept = sum(tool.size(book.all_blocks[module]) for module in modules)
        if kept != lines_of(path):
            yield f"{path.relative_to(TOP)}: {lines_of(path)} lines are of definitions, and {kept} are kept"


def faults_of_text(tool):
    """The text must show each entry once, and be refused where a word or a list is missing."""
    book = tool.Book()
    kept = (TOP / "tools" / "definitions.txt").read_text(encoding="utf-8")
    text = tool.Text(kept)
    page = tool.page(book, text)
    for entries in text.entries.values():
        for words, meaning in entries:
            if page.count(f"{', '.join(f'`{word}`' for word in words)}: {meaning}") < 1:
                yield f"the page doesn't say what {words[0]} is"
    for wrong in ("cert.Headline\nNoWord, RunsEnd: what", "cert.Headline\nRunsEnd, NoWord: what", "cert.NoFile\nRunsEnd: what", "cert.Headline\nRunsEnd what"):
        made = tool.Text(kept + wrong + "\n")
        tool.page(book, made)
        if not list(made.faults(book)):
            yield f"{wrong!r} names what isn't there, and isn't missed"
    try:
        tool.page(book, tool.Text(kept.replace("{list The search}", "")))
        yield "a list that the text leaves out isn't missed"
    except tool.Unplaced:
        pass


def requiring(tool):
    """The exported functions whose contract requires something."""
    for crate in sorted(path.parent.parent.name for path in TOP.glob("crates/*/src/lib.rt")):
        words, modules = tool.exported(crate)
        root = TOP / "crates" / crate / "src"
        for path in sorted(root.rglob("*.rt")):
            code = re.sub(r"^\s*//.*$", "", path.read_text(encoding="utf-8"), flags=re.M)
            is_module = ".".join(path.relative_to(root).with_suffix("").parts) in modules
            of, end = None, 0
            for found in re.finditer(r"^\s*(?:impl\b([^{]*)\{|pub (?:const )?fn (\w+))", code, re.M):
                if found[2] is None:
                    of, end = re.sub(r"<.*?>", "", found[1].rpartition(" for ")[2]).strip(), tool.balanced(code, found.end() - 1)
                    continue
                of = of if found.start() < end else None
                head = re.split(r"^\s*\{$|\)[^\n{;]*\{$", code[found.start():], maxsplit=1, flags=re.M)[0]
                if re.search(r"^\s*requires\b", head, re.M) and (is_module or (of or found[2]) in words):
                    yield f"{of}::{found[2]}" if of else found[2]


def faults_of_requires(tool):
    """docs/PROVED.md names just the exported functions that require something."""
    page = (TOP / "docs" / "PROVED.md").read_text(encoding="utf-8")
    said = re.search(r"^\| function \| requires \|\n.*\n((?:\| .*\n)+)", page, re.M)
    cells = re.findall(r"^\| (.*?) \|", said[1], re.M) if said else []
    named, there = {name for cell in cells for name in re.findall(r"`([^`]+)`", cell)}, set(requiring(tool))
    if not there or named != there:
        yield f"docs/PROVED.md, what functions require: {', '.join(sorted(named ^ there))}"


def main(words):
    tool = script(Path(words[0]) if words else TOP / "tools" / "definitions.py")
    wrong = []
    for title, (text, wanted) in READ.items():
        wrong += faults_of_read(tool, title, text, wanted)
    for title, (text, line) in REFUSED.items():
        wrong += faults_of_refused(tool, title, text, line)
    wrong += faults_of_specs(tool)
    wrong += faults_of_text(tool)
    wrong += faults_of_requires(tool)
    for line in wrong:
        print(line)
    sys.exit(1 if wrong else 0)


if __name__ == "__main__":
    main(sys.argv[1:])
