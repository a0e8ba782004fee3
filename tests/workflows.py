#!/usr/bin/env python3
"""Checks what a forge runs: python3 tests/workflows.py, in any folder.

A workflow with a job on a machine that isn't the forge's own runs only for what those do who may write here: never for a pull request. Each
action of workflows and of action.yml is named by a commit of 40 digits or by a path of this repository, and what pip installs by a version.
The files are read line by line, in the spelling that they have: what can't be read so is a fault. The status is 0 only where there is none.
"""
import re
import sys
from collections.abc import Iterator
from pathlib import Path

TOP = Path(__file__).resolve().parent.parent
# What only those begin who may write to the repository.
OWN_EVENTS = {"push", "schedule", "workflow_dispatch"}
# The machines of the forge, which are gone after a job.
HOSTED = re.compile(r"(ubuntu|macos|windows)-(latest|\d[\w.]*)")
BY_COMMIT = re.compile(r"\./\S*|[\w.-]+/[\w./-]+@[0-9a-f]{40}")
# The least that a workflow has, and changes of it with whether these are faults.
SAMPLE = "name: x\non:\n  push:\njobs:\n  one:\n    runs-on: [self-hosted, rattle]\n    steps:\n      - uses: a/b@%s\n      - run: pip install ruff==1.2.3\n" % ("0" * 40)
CHANGES = (
    ("", "", False), ("  push:\n", "  push:\n  pull_request:\n", True), ("  push:\n", "  push:\n  pull_request_target:\n    types: [opened]\n", True),
    ("on:\n  push:\n", "on: [push, pull_request]\n", True), ("on:\n  push:\n", "on: pull_request\n", True), ("on:\n  push:\n", "on: push\n", False),
    ("on:\n  push:\n", "on:\n  - push\n  - issue_comment\n", True), ("on:\n  push:\n", "'on':\n  push:\n", True), ("on:\n  push:\n", "on: {push: , pull_request: }\n", True),
    ("  push:\n", "  schedule:\n    - cron: \"1 1 * * *\"\n  workflow_dispatch:\n", False), ("  push:\n", "  workflow_run:\n", True),
    ("[self-hosted, rattle]", "rattle", False), ("  push:\n", "  push:\n\n  # a note\n  pull_request:\n", True), ("    runs-on: [self-hosted, rattle]\n", "", True),
    ("push:\njobs:\n  one:\n    runs-on: [self-hosted, rattle]", "pull_request:\njobs:\n  one:\n    runs-on: ubuntu-24.04", False),
    ("push:\njobs:\n  one:\n    runs-on: [self-hosted, rattle]", "pull_request:\njobs:\n  one:\n    runs-on: ${{ vars.X }}", True),
    ("push:\njobs:\n  one:\n    runs-on: [self-hosted, rattle]", "pull_request:\njobs:\n  one:\n    runs-on:\n      - self-hosted", True),
    ("push:\njobs:\n  one:\n", "pull_request:\njobs:\n  two:\n    runs-on: ubuntu-24.04\n  one:\n", True),
    ("@" + "0" * 40, "@v4", True), ("@" + "0" * 40, "@" + "0" * 39, True), ("@" + "0" * 40, "", True), ("a/b@" + "0" * 40, "./.github/actions/x", False),
    ("a/b@" + "0" * 40, "a/b/c@" + "f" * 40 + " # v1", False), ("a/b@" + "0" * 40, "docker://a", True), ("uses: a/b@", "uses: 'a/b@", True),
    ("- uses: a/b@" + "0" * 40, "- {uses: a/b@v1}", True), ("==1.2.3", "", True), ("==1.2.3", ">=1.2.3", True), ("ruff==", "ruff other==", True),
)


def events_of(text: str) -> set[str]:
    """What a workflow runs for; keys within an event count too where they are in brackets on one line."""
    found = re.search(r"^on:(.*)\n((?:[ \t]+.*\n|[ \t]*#.*\n|\n)*)", text, re.M)
    if not found:
        return {"nothing that can be read"}
    rows = [line for line in found[2].splitlines() if line.strip() and not line.strip().startswith("#")]
    depth = min((len(line) - len(line.lstrip()) for line in rows), default=0)
    return set(re.findall(r"\w+", found[1].partition("#")[0])) | {line.strip().lstrip("- ").partition(":")[0] for line in rows if len(line) - len(line.lstrip()) == depth}


def jobs_of(text: str) -> Iterator[tuple[str, str]]:
    """The name and the lines of each job."""
    for part in re.split(r"^  (?=[\w-]+:)", text.partition("\njobs:\n")[2], flags=re.M)[1:]:
        yield part.partition(":")[0], part


def faults_of_actions(text: str) -> Iterator[str]:
    """Actions, and packages for Python, that others may put something else in the place of."""
    for line in text.splitlines():
        code = line.partition(" #")[0].rstrip()
        if re.search(r"\buses\b *:", code) and not code.lstrip().startswith("#"):
            found = re.fullmatch(r"\s*(?:- )?uses: (\S+)", code)
            if not found or not BY_COMMIT.fullmatch(found[1]):
                yield "%s isn't named by a commit of 40 digits" % code.strip()
        for words in re.findall(r"pip3?\"? install ([^&|;]*)", code):
            yield from ("pip installs %s, which has no version" % word for word in words.split() if not re.fullmatch(r"-\S+|[\w-]+==[\w.]+", word))


def faults(text: str) -> Iterator[str]:
    """What is wrong with a workflow."""
    yield from faults_of_actions(text)
    jobs, others = list(jobs_of(text)), sorted(events_of(text) - OWN_EVENTS)
    if not jobs:
        yield "it has no jobs that can be read"
    for name, part in jobs:
        machine = re.search(r"^    runs-on: *(.*)$", part, re.M)
        if not machine:
            yield "the job %s doesn't say where it runs" % name
        elif others and not HOSTED.fullmatch(machine[1].partition(" #")[0].strip()):
            yield "the job %s runs on a machine of ours for %s" % (name, ", ".join(others))


def main() -> int:
    """Reports what is wrong in each file."""
    paths = [*sorted((TOP / ".github" / "workflows").iterdir()), TOP / "action.yml"]
    found = ["%s: %s" % (path.relative_to(TOP), fault) for path in paths
             for fault in (faults_of_actions if path.name == "action.yml" else faults)(path.read_text())]
    for old, new, is_fault in CHANGES:
        if SAMPLE.count(old) == 0 or bool(list(faults(SAMPLE.replace(old, new, 1)))) != is_fault:
            found.append("%r in place of %r is%s seen as a fault" % (new, old, "n't" if is_fault else ""))
    print("\n".join(found) or "workflows: %d files run nothing of a stranger's on a machine of ours" % len(paths))
    return 1 if found or len(paths) < 3 else 0


if __name__ == "__main__":
    sys.exit(main())
