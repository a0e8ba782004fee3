#!/usr/bin/env python3
"""Checks how the Python is written: python3 tests/style.py, in any folder.

A function has at most 40 lines, a file begins with what it is for, no line ends in a blank, and an import names one module. A function that another file imports, or
uses by the name of its module, has annotations. Each program of tests/ is in the table of tests/run.py. What `ruff check .` looks at is in ruff.toml. The status
is 0 only where no file of tests, tools, bench, library and wrapper has a fault.
"""
import ast
import re
import sys
from collections.abc import Iterator
from pathlib import Path

from run import TESTS

TOP = Path(__file__).resolve().parent.parent
MOST_LINES = 40
FOLDERS = ("tests", "tools", "bench", "library", "wrapper")


def files() -> Iterator[Path]:
    """The programs in Python, by their names or their first lines."""
    for folder in FOLDERS:
        for path in sorted((TOP / folder).rglob("*")):
            if path.suffix == ".py" or path.is_file() and not path.suffix and path.read_bytes().startswith(b"#!/usr/bin/env python3"):
                yield path


def imported(paths: list[Path]) -> set[tuple[str, str]]:
    """The module and the name of each function that a file imports from another one, or names after its module."""
    found = set()
    for path in paths:
        nodes = list(ast.walk(ast.parse(path.read_text())))
        modules = {name.asname or name.name: name.name for node in nodes if isinstance(node, ast.Import) for name in node.names}
        for node in nodes:
            if isinstance(node, ast.ImportFrom):
                found |= {(node.module or "", name.name) for name in node.names}
            elif isinstance(node, ast.Attribute) and isinstance(node.value, ast.Name) and node.value.id in modules:
                found.add((modules[node.value.id], node.attr))
    return found


def faults(path: Path, public: set[tuple[str, str]]) -> Iterator[str]:
    """What is wrong in a file, of which others import these functions."""
    tree = ast.parse(path.read_text())
    if not ast.get_docstring(tree) and not re.match(r"(#!.*\n)?# ", path.read_text()):
        yield "it doesn't say what it is for"
    for number, line in enumerate(path.read_text().split("\n"), 1):
        if line != line.rstrip():
            yield "line %d: it ends in a blank" % number
    for node in tree.body:
        if isinstance(node, ast.FunctionDef) and (path.stem, node.name) in public:
            if node.returns is None or any(argument.annotation is None for argument in node.args.args):
                yield "line %d: another file uses the function %s, which has no annotations" % (node.lineno, node.name)
    for node in ast.walk(tree):
        if isinstance(node, ast.Import) and len(node.names) > 1:
            yield "line %d: it imports several modules" % node.lineno
        if isinstance(node, ast.FunctionDef) and (node.end_lineno or 0) - node.lineno >= MOST_LINES:
            yield "line %d: the function %s has %d lines" % (node.lineno, node.name, (node.end_lineno or 0) - node.lineno + 1)


def unlisted() -> Iterator[str]:
    """The programs of tests/ that tests/run.py doesn't have."""
    listed = {row.split()[1] for row in TESTS.splitlines()} | {"run.py"}
    for path in sorted((TOP / "tests").iterdir()):
        is_program = path.suffix == ".sh" or path.suffix == ".py" and '__name__ == "__main__"' in path.read_text()
        if is_program and path.name not in listed:
            yield "tests/run.py doesn't have %s" % path.name


def main() -> int:
    """Reports what is wrong in each file."""
    paths = list(files())
    public = imported(paths)
    found = ["%s: %s" % (path.relative_to(TOP), fault) for path in paths for fault in faults(path, public)] + list(unlisted())
    print("\n".join(found) or "style: %d programs have no function above %d lines" % (len(paths), MOST_LINES))
    return 1 if found or not paths else 0


if __name__ == "__main__":
    sys.exit(main())
