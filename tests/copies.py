"""A copy of the repository for tests of what is packed: without proofs and wrong bodies, with a commit of its own and a toolchain that proves nothing."""
import os
import shutil
import subprocess
from pathlib import Path

TOP = Path(__file__).resolve().parent.parent
COMMITTED = "2026-11-30T12:34:56+00:00"
# Libraries below those that our crates name; the tests know no others.
BELOW = {"std": "core io", "clap": "std strsim", "json": "ryu std", "bstr": "memchr unicode_words", "unicode_words": "core"}
# A program for x86-64, as far as its first bytes say.
PROGRAM = b"\x7fELF\x02\x01\x01" + bytes(9) + b"\x02\x00\x3e\x00" + bytes(44)


def git(folder: Path, *words: str) -> str:
    """What git prints in a folder, by no settings of this machine."""
    clean = {name: value for name, value in os.environ.items() if not name.startswith("GIT_")}
    clean.update({"GIT_CONFIG_GLOBAL": os.devnull, "GIT_CONFIG_SYSTEM": os.devnull})
    for role in ("AUTHOR", "COMMITTER"):
        clean.update({"GIT_%s_NAME" % role: "A maintainer", "GIT_%s_EMAIL" % role: "maintainer@example.org", "GIT_%s_DATE" % role: COMMITTED})
    return subprocess.run(["git", *words], cwd=folder, env=clean, stdin=subprocess.DEVNULL, stdout=subprocess.PIPE, encoding="utf-8", check=True).stdout


def toolchain(folder: Path, libraries: set[str]) -> Path:
    """The command `rt` of a toolchain in this folder, which has these libraries and those below them."""
    (folder / "bin").mkdir(parents=True)
    (folder / "toolchain" / "bin").mkdir(parents=True)
    (folder / "c").mkdir()
    (folder / "c" / "libos_c.a").write_text("")
    for path, text in ((folder / "bin" / "rt", "echo 'rattle-kit-0 logic 0'"), (folder / "toolchain" / "bin" / "clang", "echo 'clang version 99.0'; echo more")):
        path.write_text("#!/bin/sh\n%s\n" % text)
        path.chmod(0o755)
    for name in libraries | set(BELOW) | {word for words in BELOW.values() for word in words.split()}:
        (folder / "rlibs" / (name + ".rlib")).mkdir(parents=True)
        (folder / "rlibs" / (name + ".rlib") / "format").write_text("".join("dep %s\n" % word for word in BELOW.get(name, "").split()))
    return folder / "bin" / "rt"


def repository(folder: Path, made: dict[str, bytes]) -> None:
    """A copy of the repository whose only commit has all files, with these programs in build."""
    shutil.copytree(TOP, folder, ignore=shutil.ignore_patterns("out", "__pycache__", "build", ".git", "proofs", "must-fail", "planted"))
    (folder / "build").mkdir()
    for name, data in made.items():
        (folder / "build" / name).write_bytes(data)
        (folder / "build" / name).chmod(0o755)
    git(folder, "init", "--quiet")
    git(folder, "add", "--all")
    git(folder, "commit", "--quiet", "--message", "all: as it is")
