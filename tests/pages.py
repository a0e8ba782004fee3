#!/usr/bin/env python3
"""Checks the scripts that pages show: python3 tests/pages.py build/sedck PAGE ..

In each section of a page a block that begins with ```sed is a script, and the page says what sedck answers: `accepted`, the first line
of a loop, or the line of a refusal without `sedck: `. The answer stands in the line before the block, after "Refused", or is `accepted`
after "Instead:"; or else the paragraph after the block begins with it, between backquotes. A block that begins with ```text is an input:
where the machine has a sed, all scripts of the section that this sed and sedck read make the same of it, and with GNU sed the others
too, whose extensions other seds may read as something else. The status is 0 only where each page shows a script, each answer is as the
page says, and the outputs are the same.
"""
import os
import re
import subprocess
import sys
import tempfile
from collections.abc import Iterator
from pathlib import Path

from skips import has, has_gnu_sed

ENDLESS = "a run without an end"


def answer(sedck: str, folder: str, script: str) -> str:
    """The first line of what `rank` says of the script, or `accepted` where `check` takes the certificate."""
    Path(folder, "script").write_text(script)
    ranked = subprocess.run([sedck, "rank", "script"], cwd=folder, capture_output=True, text=True, check=False)
    if ranked.returncode != 0:
        return (ranked.stdout or ranked.stderr).split("\n")[0].removeprefix("sedck: ")
    Path(folder, "cert").write_text(ranked.stdout)
    checked = subprocess.run([sedck, "check", "script", "cert"], cwd=folder, capture_output=True, text=True, check=False)
    return checked.stdout.split("\n")[0]


def output(folder: str, script: str, given: str) -> str | None:
    """What the machine's sed makes of the input; None where it doesn't read the script, and a word where it doesn't end."""
    Path(folder, "script").write_text(script)
    try:
        done = subprocess.run(["sed", "-f", "script"], cwd=folder, input=given, capture_output=True, text=True, timeout=20, check=False,
                              env={"PATH": os.environ["PATH"], "LC_ALL": "C"})
    except subprocess.TimeoutExpired:
        return ENDLESS
    return done.stdout if done.returncode == 0 else None


def due(before: str, after: str) -> str | None:
    """The answer that the page has for a block, from the line before it or the paragraph after it."""
    label = before.rstrip("\n").split("\n")[-1]
    if label == "Instead:":
        return "accepted"
    found = re.fullmatch(r"Refused, `([^`]*)`:", label) or re.match(r"`([^`]*)`", after.lstrip("\n"))
    return found[1] if found else None


def sections(text: str) -> Iterator[tuple[str, list[tuple[str, str, str | None]]]]:
    """The name of each section, with its blocks: kind, text, and the answer that is due."""
    for section in re.split(r"^#+ ", text, flags=re.M)[1:]:
        name = section.split("\n")[0]
        yield name, [(block[1], block[2], due(section[:block.start()], section[block.end():]))
                     for block in re.finditer(r"^```(sed|text)\n(.*?)^```\n", section, flags=re.M | re.S)]


class Checker:
    """Checks the sections of pages, and counts what it has seen."""

    def __init__(self, sedck: str) -> None:
        self.sedck, self.has_sed = os.path.abspath(sedck), has("pages", "what the scripts of pages make", "sed")
        self.compares_all = has_gnu_sed("pages", "what scripts with extensions of GNU sed make")
        self.failures = self.scripts = self.compared = 0

    def fail(self, page: str, name: str, text: str) -> None:
        """Reports what is wrong in a section."""
        self.failures += 1
        print("%s, %s: %s" % (page, name, text))

    def section(self, page: str, name: str, blocks: list[tuple[str, str, str | None]], folder: str) -> None:
        """Checks the answers of a section, and compares what sed makes of its input."""
        given = [block for kind, block, _ in blocks if kind == "text"]
        made = []
        for script, says in [(block, says) for kind, block, says in blocks if kind == "sed"]:
            self.scripts += 1
            answered = answer(self.sedck, folder, script)
            if says != answered:
                self.fail(page, name, "sedck answers %r, and the page %r" % (answered, says))
            if given and self.has_sed and (self.compares_all or not answered.startswith("script fault ")):
                text = output(folder, script, given[0])
                if text is not None and not (text == ENDLESS and answered.startswith("loop ")):
                    made.append(text)
        self.compared += len(made) > 1
        if any(text != made[0] for text in made):
            self.fail(page, name, "the scripts differ: %r" % made)

    def page(self, page: str) -> None:
        """Checks a page, which must show a script."""
        before = self.scripts
        with tempfile.TemporaryDirectory(prefix="sedck-pages-") as folder:
            for name, blocks in sections(Path(page).read_text()):
                self.section(page, name, blocks, folder)
        if self.scripts == before:
            self.fail(page, "page", "it shows no script")


def main() -> int:
    """Checks the pages that are named."""
    checker = Checker(sys.argv[1])
    for page in sys.argv[2:]:
        checker.page(page)
    if checker.failures == 0:
        compared = "and %d sections give one output in sed" % checker.compared if checker.has_sed else "and there is no sed to compare them in"
        print("pages: %d scripts are answered as the pages say, %s" % (checker.scripts, compared))
    return 1 if checker.failures else 0


if __name__ == "__main__":
    sys.exit(main())
