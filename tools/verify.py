#!/usr/bin/env python3
"""Builds the commit of an archive anew, and says of each file whether it is the same: python3 tools/verify.py ARCHIVE [RT]

The archive's own sums are compared first, and its statement PROVENANCE. This names the commit, which is cloned from the repository that this
file is in, and the toolchain, which must be that of RT. In the clone the command of the environment variable BUILD runs, by default the
`make dist` of the statement, which proves everything; it leaves an archive in build. Then a line for each file of both archives says whether
it is the same, byte for byte and by its mode. In PROVENANCE and SHA256SUMS what the packer says of the gate is left out, since no build says
it again. At the end stands the sum of the checker. The status is 0 only where each file is the same, 1 where one isn't, 3 where the arguments
are invalid, and 4 where nothing could be compared.
"""
import hashlib
import json
import os
import re
import shlex
import subprocess
import sys
import tarfile
import tempfile
from pathlib import Path

from provenance import STATEMENTS, TOP, Fault, git, kit_of, shown

SUMS = "SHA256SUMS"


class Archive:
    """The files of an archive, with their modes, and what its statement says."""

    def __init__(self, path: Path) -> None:
        self.path, self.files, self.modes = path, {}, {}
        try:
            with tarfile.open(path, "r:gz") as whole:
                for entry in whole.getmembers():
                    self.add(entry, whole)
        except (OSError, EOFError, tarfile.TarError) as error:
            raise Fault("%s can't be read: %s" % (shown(str(path)), error)) from error

    def add(self, entry: tarfile.TarInfo, whole: tarfile.TarFile) -> None:
        """Adds a file by its path below the archive's only folder."""
        name = entry.name.partition("/")[2]
        if not entry.isfile() or not name or name in self.files or ".." in name.split("/"):
            raise Fault("%s has %s, which is no file, twice there, or elsewhere" % (shown(str(self.path)), shown(entry.name)))
        self.files[name], self.modes[name] = whole.extractfile(entry).read(), entry.mode

    def sum_of(self, name: str) -> str:
        return hashlib.sha256(self.files[name]).hexdigest()

    def check_sums(self) -> None:
        """Compares each file with its sum, and with the one of the statement."""
        due = "".join("%s  %s\n" % (self.sum_of(name), name) for name in sorted(self.files) if name != SUMS)
        if self.files.get(SUMS, b"").decode(errors="replace") != due:
            raise Fault("%s: SHA256SUMS doesn't have the sums of its files" % shown(str(self.path)))
        subject = {row["name"]: row["digest"]["sha256"] for row in self.statement()["subject"]}
        for name in sorted(set(self.files) - {SUMS, *STATEMENTS} | set(subject)):
            if name not in self.files or subject.get(name) != self.sum_of(name):
                raise Fault("%s: PROVENANCE has another sum of %s" % (shown(str(self.path)), shown(name)))

    def statement(self) -> dict:
        """What PROVENANCE says."""
        try:
            found = json.loads(self.files["PROVENANCE"])
            built = found["predicate"]["buildDefinition"]
            return {"subject": found["subject"], "kit": built["internalParameters"]["kit"], "given": built["externalParameters"],
                    "commit": built["resolvedDependencies"][0]["digest"]["gitCommit"], "gate": found["predicate"]["runDetails"]["sedck_gate"]}
        except (KeyError, IndexError, TypeError, ValueError) as error:
            raise Fault("%s has no PROVENANCE that can be read (%s: %s)" % (shown(str(self.path)), type(error).__name__, error)) from error

    def compared(self, name: str) -> bytes:
        """A file without what no build says again: what the packer says of the gate, and the sums of the files that have it."""
        text = self.files[name]
        if name in STATEMENTS:
            found = json.loads(text)
            found["predicate"]["runDetails"].pop("sedck_gate", None)
            return json.dumps(found).encode()
        if name == SUMS:
            return b"".join(line for line in text.splitlines(keepends=True) if line[66:].decode().rstrip("\n") not in STATEMENTS)
        return text


def differences(first: Archive, second: Archive) -> tuple[list[str], bool]:
    """A line for each file of an archive and of the one that was built, and whether all are the same."""
    lines, is_same = [], True
    for name in sorted({*first.files, *second.files}):
        if name not in second.files:
            said = "is missing as built"
        elif name not in first.files:
            said = "is only there as built"
        elif first.compared(name) != second.compared(name):
            said = "differs: %s in the archive, %s as built" % (first.sum_of(name), second.sum_of(name))
        elif first.modes[name] != second.modes[name]:
            said = "has the mode %o in the archive, and %o as built" % (first.modes[name], second.modes[name])
        else:
            said = "same" if first.files[name] == second.files[name] else "same but for what the packer says of the gate"
        is_same = is_same and said.startswith("same")
        lines.append("%s: %s" % (shown(name), said))
    return lines, is_same


def built(archive: Archive, rt: str, folder: Path) -> Archive:
    """The archive that the commit of this one gives."""
    said = archive.statement()
    if not re.fullmatch(r"[0-9a-f]{40}", str(said["commit"])):
        raise Fault("PROVENANCE names no commit")
    kit = kit_of(shlex.split(rt))
    if kit != said["kit"]:
        raise Fault("the archive was made with the toolchain %s, and this one is %s" % (said["kit"], kit))
    git("clone", "--quiet", "--no-hardlinks", "--no-checkout", str(TOP), str(folder))
    git("checkout", "--quiet", "--detach", said["commit"], top=folder)
    has_page = any(name.startswith("share/sedck/page/") for name in archive.files)
    words = os.environ.get("BUILD") or "make %s RT=%s" % ("page dist" if has_page else "dist", shlex.quote(rt))
    print("verify: building the commit %s by `%s` ..." % (said["commit"], words), flush=True)
    status = subprocess.run(["sh", "-c", words], cwd=folder, env={**os.environ, "ADDRESS": said["given"].get("address", "")}, check=False).returncode
    if status:
        raise Fault("the build ended with status %d" % status)
    found = sorted((folder / "build").glob("sedck-*.tar.gz"))
    if len(found) != 1:
        raise Fault("the build left %d archives in build" % len(found))
    return Archive(found[0])


def main() -> int:
    """Compares, and says what it found."""
    if not 2 <= len(sys.argv) <= 3 or not sys.argv[1]:
        print("verify: usage: make verify ARCHIVE=build/sedck-VERSION-KIT-PROCESSOR-COMMIT.tar.gz")
        return 3
    try:
        archive = Archive(Path(sys.argv[1]))
        archive.check_sums()
        with tempfile.TemporaryDirectory(prefix="sedck-verify-") as name:
            other = built(archive, (sys.argv[2:] or ["rt"])[0], Path(name) / "sedck")
            other.check_sums()
            lines, is_same = differences(archive, other)
    except Fault as fault:
        print("verify: %s" % fault)
        return 4
    print("\n".join("verify: " + line for line in lines))
    print("verify: the gate: %s" % json.dumps(archive.statement()["gate"]))
    for what, one in (("in the archive", archive), ("as built", other)):
        print("verify: the checker %s is bin/sedck, with the SHA-256 sum %s" % (what, one.sum_of("bin/sedck") if "bin/sedck" in one.files else "of none"))
    print("verify: %s" % ("each file is the same" if is_same else "NOT each file is the same"))
    return 0 if is_same else 1


if __name__ == "__main__":
    sys.exit(main())
