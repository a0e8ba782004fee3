"""Where an archive comes from: its commit, the toolchain, what the gate said, and the statement PROVENANCE that has these (tools/dist.py)."""
import hashlib
import json
import os
import re
import subprocess
from pathlib import Path

TOP = Path(__file__).resolve().parent.parent
# What the gate said when it last came to its end (tools/gate.py).
SAID = TOP / "build" / "gate-said"
# The files that have the statement, and which it can't name: at the top of the archive, and where it is installed.
STATEMENTS = ("PROVENANCE", "share/doc/sedck/PROVENANCE")
LEDGER = ("planted.sums", "planted.refusals")


class Fault(Exception):
    """Why nothing is packed."""


def shown(path: str) -> str:
    """A path for a terminal."""
    return "".join(letter if letter.isprintable() else "?" for letter in path)


def git(*words: str, top: Path = TOP) -> str:
    """What git prints of the repository in this folder; what may name another one is left out of its environment."""
    own = {name: value for name, value in os.environ.items() if not name.startswith("GIT_DIR") and name not in ("GIT_WORK_TREE", "GIT_INDEX_FILE")}
    try:
        done = subprocess.run(["git", *words], cwd=top, env=own, stdin=subprocess.DEVNULL, capture_output=True, check=False)
    except OSError as error:
        raise Fault("git can't be started: %s" % error.strerror) from error
    if done.returncode:
        raise Fault("`git %s` failed: %s" % (words[0], done.stderr.decode(errors="replace").strip()))
    return done.stdout.decode(errors="surrogateescape")


class Commit:
    """A commit: its number, that of its tree, its time in seconds, and the name with the address of who made it."""

    def __init__(self, number: str, tree: str, time: int, maintainer: str) -> None:
        self.number, self.tree, self.time, self.maintainer = number, tree, time, maintainer


def commit_of(top: Path = TOP) -> Commit:
    """The commit that this folder has, without a change."""
    if Path(git("rev-parse", "--show-toplevel", top=top).strip()).resolve() != top.resolve():
        raise Fault("%s is no repository of its own" % shown(str(top)))
    changed = git("status", "--porcelain", "-z", "--untracked-files=all", top=top)
    if changed:
        raise Fault("%s isn't as it was committed" % shown(changed.split("\0")[0][3:]))
    number, tree, time, maintainer = git("show", "-s", "--format=%H%n%T%n%ct%n%cn <%ce>", "HEAD", top=top).splitlines()
    if not re.fullmatch(r"[0-9a-f]{40}", number):
        raise Fault("the commit %s isn't one of 40 digits" % number)
    return Commit(number, tree, int(time), maintainer)


def tracked(top: Path = TOP) -> set[str]:
    """The files of the commit: what git ignores is no change of it, and isn't part of it."""
    return set(git("ls-tree", "-r", "-z", "--name-only", "HEAD", top=top).split("\0"))


def kit_of(rt: list[str]) -> str:
    """The line of `rt version`."""
    try:
        return subprocess.run([*rt, "version"], stdout=subprocess.PIPE, encoding="utf-8", check=True).stdout.strip()
    except (OSError, subprocess.CalledProcessError) as error:
        raise Fault("`rt version` failed: %s" % error) from error


def keep_said(rt: list[str], before: Commit | None, status: int, said: str) -> None:
    """Keeps what the gate said, with the commit if it was the same, and without a change, before and after."""
    try:
        after = commit_of()
        same = after if before and after.number == before.number else None
        kit = kit_of(rt)
    except Fault:
        same, kit = None, ""
    row = {"command": "rt ci", "kit": kit, "commit": same.number if same else "", "status": status, "said": said}
    SAID.write_text(json.dumps(row, indent=1) + "\n")


def known_commit() -> Commit | None:
    """The commit that this folder has, if it has one without a change."""
    try:
        return commit_of()
    except Fault:
        return None


def said_by_gate(commit: Commit, kit: str) -> dict:
    """What the gate said of this commit with this toolchain, or why that isn't known."""
    if not SAID.exists():
        return {"unknown": "the gate didn't come to its end in this folder"}
    row = json.loads(SAID.read_text())
    if row["commit"] != commit.number:
        return {"unknown": "the gate last ran here on %s" % ("the commit " + row["commit"] if row["commit"] else "files that no commit has")}
    if row["kit"] != kit:
        return {"unknown": "the gate last ran here with the toolchain %s" % (row["kit"] or "of no known version")}
    return row


def statement(commit: Commit, kit: str, command: dict, files: dict[str, bytes], ledger_says: list[str]) -> bytes:
    """The statement in the form of in-toto, with the predicate of SLSA. A commit has an address of its own (swh), which names no host; a
    builder has none, so that who believes the statement believes who signs it. What is ours has names that begin with sedck_."""
    subject = [{"name": path, "digest": {"sha256": hashlib.sha256(files[path]).hexdigest()}} for path in sorted(files)]
    sums = {name: hashlib.sha256((TOP / name).read_bytes()).hexdigest() for name in LEDGER}
    source = {"name": "sedck", "uri": "swh:1:rev:" + commit.number, "digest": {"gitCommit": commit.number, "gitTree": commit.tree}}
    whole = {
        "_type": "https://in-toto.io/Statement/v1", "subject": subject, "predicateType": "https://slsa.dev/provenance/v1",
        "predicate": {
            "buildDefinition": {"buildType": "swh:1:cnt:" + git("rev-parse", "HEAD:Makefile").strip(), "externalParameters": command,
                                "internalParameters": {"kit": kit}, "resolvedDependencies": [source]},
            "runDetails": {"builder": {"id": "about:unnamed"}, "sedck_gate": said_by_gate(commit, kit), "sedck_ledger": {"sums": sums, "said": ledger_says}}}}
    return (json.dumps(whole, indent=1) + "\n").encode()


def architecture(program: bytes, name: str) -> str:
    """The processor that a program in ELF is for."""
    machines = {62: "x86_64", 183: "aarch64"}
    machine = int.from_bytes(program[18:20], "little")
    if program[:6] != b"\x7fELF\x02\x01" or machine not in machines:
        raise Fault("%s is no program for a processor that has a name here" % name)
    return machines[machine]
