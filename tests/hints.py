#!/usr/bin/env python3
"""Follows the hints of `sedck-explain`: python3 tests/hints.py build/sedck-explain

A row has a script that is refused or has a loop, words of the hint that it gets, the script that the hint leads to, and inputs. The
second script must be accepted. What it must print is what GNU sed makes of the first one, or stands in the row where GNU sed refuses
that one, too, or runs it for ever. A row may have scripts to which a careless reader would come: they are accepted, and must print
something else for one of the inputs, which shows that these inputs tell. And both scripts of a row, and the scripts of each section of
docs/MENDING.md and docs/FAULTS.md, are run on a hundred inputs more, which are drawn from the bytes of the first one: what they print must
be the same wherever GNU sed runs both, but for inputs that the row or the page excludes. Where the machine has no GNU sed, outputs
aren't compared. The status is 0 only where everything is as it should be.
"""
import os
import subprocess
import sys
import tempfile

import drawn
from hint_rows import EXCLUDED, ROWS
from pages import sections
from skips import has_gnu_sed

PAGES = ("docs/MENDING.md", "docs/FAULTS.md")


def run_sed(folder: str, script: str, given: str) -> str | None:
    """What sed prints; None where it refuses the script or doesn't end."""
    with open(os.path.join(folder, "sed.sed"), "w", encoding="latin-1") as file:
        file.write(script)
    try:
        done = subprocess.run(["sed", "-f", "sed.sed"], cwd=folder, input=given.encode("latin-1"), capture_output=True, timeout=10,
                              check=False, env={"PATH": os.environ["PATH"], "LC_ALL": "C"})
    except subprocess.TimeoutExpired:
        return None
    # A script may end with a status of its own, as `q5` does.
    return None if done.stderr else done.stdout.decode("latin-1")


def explained(explain, folder, script):
    """The status of a script, and all that is said of it."""
    with open(os.path.join(folder, "script.sed"), "w", encoding="latin-1") as file:
        file.write(script)
    done = subprocess.run([explain, "--format", "gcc", "script.sed"], cwd=folder, capture_output=True, text=True, timeout=60, check=False)
    return done.returncode, done.stdout


def answers(row, explain, folder):
    """What is wrong with the answers of a row."""
    status, report = explained(explain, folder, row.refused)
    if status not in (1, 2):
        yield "%r is accepted" % row.refused
    if "hint: " not in report or row.hint not in report:
        yield "%r has no hint with %r: %s" % (row.refused, row.hint, report)
    for script in (row.mended, *row.wrong):
        status, report = explained(explain, folder, script)
        if status != 0:
            yield "%r isn't accepted: %s" % (script, report)


def outputs(row, folder):
    """What is wrong with the outputs of a row."""
    due = row.due or [run_sed(folder, row.refused, given) for given in row.inputs]
    if None in due:
        yield "GNU sed doesn't run %r" % row.refused
    if len(row.inputs) < 3 or len(due) != len(row.inputs):
        yield "there aren't three inputs with what is due"
    if len(set(due)) == 1 and due[0] == "":
        yield "nothing is printed for any input"
    for given, text in zip(row.inputs, due):
        made = run_sed(folder, row.mended, given)
        if made != text:
            yield "of %r %r makes %r, and not %r" % (given, row.mended, made, text)
    for script in row.wrong:
        if [run_sed(folder, script, given) for given in row.inputs] == due:
            yield "the inputs don't tell that %r is wrong" % script


def pairs():
    """All pairs of scripts that are said to do the same, with what is excluded."""
    for row in ROWS:
        if not row.due:
            yield row.name, row.refused, row.mended, row.excluded
    for page in PAGES:
        with open(os.path.join(os.path.dirname(os.path.abspath(__file__)), "..", page), encoding="utf-8") as file:
            text = file.read()
        for name, blocks in sections(text):
            scripts = [block for kind, block, _ in blocks if kind == "sed"]
            for mended in scripts[1:]:
                if (page, name) not in EXCLUDED or EXCLUDED[page, name] is not None:
                    yield "%s, %s" % (page, name), scripts[0], mended, EXCLUDED.get((page, name))


def main():
    explain, compares, failures = os.path.abspath(sys.argv[1]), has_gnu_sed("hints", "what scripts that follow hints make"), 0
    with tempfile.TemporaryDirectory(prefix="sedck-hints-") as folder:
        for row in ROWS:
            for wrong in (*answers(row, explain, folder), *(outputs(row, folder) if compares else ())):
                failures += 1
                print("FAILED: %s: %s" % (row.name, wrong))
    same = list(pairs()) if compares else []
    for wrong in drawn.compare(same):
        failures += 1
        print("FAILED: %s" % wrong)
    print("hints: %d, and %d pairs of scripts on %d drawn inputs each, %d failures" % (len(ROWS), len(same), drawn.INPUTS, failures))
    return 1 if failures or not ROWS else 0


if __name__ == "__main__":
    sys.exit(main())
