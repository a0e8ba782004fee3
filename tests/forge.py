#!/usr/bin/env python3
"""Tests the hook for subjects of commits, and what a forge is told of owners and reports: python3 tests/forge.py

The hook is tried by commits in a repository of its own; without git that is skipped. Each pattern of CODEOWNERS leads to a file, has owners
that a forge can know, and what must be believed has one. The status is 0 only where all is as it is due.
"""
import fnmatch
import re
import subprocess
import sys
import tempfile
from pathlib import Path

import copies
from skips import has

TOP = Path(__file__).resolve().parent.parent
HOOKS = TOP / "tools" / "hooks"
# Messages, and whether their commit is refused.
MESSAGES = (
    ("x" * 72, False), ("x" * 73, True), ("x" * 72 + "\n\n" + "y" * 200, False), ("# " + "y" * 100 + "\n" + "x" * 72, False), ("\n\n" + "x" * 73, True),
    ("\u00e9" * 72, False), ("\u00e9" * 73, True), ("e\u0301" * 72, False), ("\u4e00" * 36, False), ("\u4e00" * 37, True), ("x" * 40 + "\n" + "y" * 31, False),
    ("x" * 40 + "\n" + "y" * 32, True), ("fixup! " + "x" * 72, False), ("squash! " + "x" * 72, False), ("fixups " + "x" * 72, True),
)
# What must be believed, or decides what runs.
OWNED = ("crates/sedck_cert/specs/Headline.antt", "tools/definitions.txt", "tools/gate.py", ".github/workflows/gate.yml", ".github/CODEOWNERS", ".ci/run",
         "library/heap.c", "Makefile", "HANDLES", "planted.sums", "action.yml", "wrapper/sed", "SECURITY.md", "packaging/debian/rules")
failures = []


def expect(is_so, what):
    if not is_so:
        failures.append(what)


def check_hook(folder):
    """Each message is refused or not, by the hook where CONTRIBUTING says that git finds it."""
    place = re.search(r"git config core\.hooksPath (\S+)", (TOP / "CONTRIBUTING.md").read_text())
    expect(place and TOP / place[1] == HOOKS, "CONTRIBUTING.md doesn't name the hook")
    copies.git(folder, "init", "--quiet")
    copies.git(folder, "config", "core.hooksPath", str(HOOKS))
    for message, is_refused in MESSAGES:
        (folder / "message").write_text(message)
        words = ["git", "-c", "user.name=A", "-c", "user.email=a@example.org", "commit", "--quiet", "--allow-empty", "--cleanup=strip", "--file=message"]
        done = subprocess.run(words, cwd=folder, stdin=subprocess.DEVNULL, capture_output=True, encoding="utf-8", check=False)
        expect((done.returncode != 0) == is_refused, "the message %r ends with %d: %s" % (message, done.returncode, done.stderr))
        expect(not is_refused or "columns, and at most 72 are allowed" in done.stderr, "a subject is refused with %s" % done.stderr)
    kept = len(copies.git(folder, "rev-list", "HEAD").splitlines())
    expect(kept == len([row for row in MESSAGES if not row[1]]), "the hook lets %d commits pass" % kept)


def rows():
    """The patterns of CODEOWNERS, which all begin at the top of the repository, with their owners."""
    for line in (TOP / ".github" / "CODEOWNERS").read_text().splitlines():
        if line.strip() and not line.startswith("#"):
            pattern, *owners = line.split()
            yield pattern, owners


def matches(pattern, path):
    """Whether a pattern with a slash in front matches a path: a star stays within a name, and a folder stands for all in it."""
    parts, names = pattern.strip("/").split("/"), path.split("/")
    is_within = len(names) > len(parts) if pattern.endswith("/") else len(names) >= len(parts)
    return pattern.startswith("/") and is_within and all(fnmatch.fnmatchcase(name, part) for part, name in zip(parts, names))


def check_owners():
    """What must be believed has owners, and no pattern is left over."""
    for path in OWNED:
        expect((TOP / path).exists(), "%s isn't there" % path)
        expect(any(matches(pattern, path) and owners for pattern, owners in rows()), "%s has no owner" % path)
    for pattern, owners in rows():
        expect(owners and all(re.fullmatch(r"@[\w-]+(/[\w.-]+)?|[\w.+-]+@[\w.-]+", owner) for owner in owners), "%s has the owners %s" % (pattern, owners))
        expect(any(TOP.glob(pattern.strip("/") + ("/*" if pattern.endswith("/") else ""))), "CODEOWNERS has %s, and no file" % pattern)
    expect(not any(matches("/" + one, path) for one, path in (("tools", "tests/tools.py"), ("a/*/", "a/b"), ("*.py", "a/b.py"))), "patterns match what they shouldn't")


def check_reports():
    """SECURITY.md names the private way of a forge, and the template for a wrong yes leads there."""
    page = (TOP / "SECURITY.md").read_text()
    expect('"Report a vulnerability"' in page and "confidential" in page, "SECURITY.md names no private way")
    expect("SECURITY.md" in (TOP / ".github/ISSUE_TEMPLATE/wrong-yes.md").read_text(), "the template for a wrong yes doesn't lead to SECURITY.md")


def main():
    check_owners()
    check_reports()
    if has("forge", "the hook for subjects", "git"):
        with tempfile.TemporaryDirectory(prefix="sedck-forge-") as folder:
            check_hook(Path(folder))
    for failure in failures:
        print("forge: " + failure)
    if not failures:
        print("forge: the hook refuses what it should, and owners and reports lead somewhere")
    return 1 if failures else 0


if __name__ == "__main__":
    sys.exit(main())
