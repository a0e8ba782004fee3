#!/usr/bin/env python3
"""Packs build/sedck-VERSION-KIT-PROCESSOR-COMMIT.tar.gz, or installs: python3 tools/dist.py [RT] [--by COMMAND] | --look | --install PREFIX [DESTDIR]

The archive has what is installed, at the paths that it gets below PREFIX: the programs and the library of build/, the programs of wrapper/,
completions, manual pages, the pages that reports name with README.md and the examples, the macro of Autoconf, and what build/page holds
where it is there. Links of pages lead to what is packed, to the sources of the commit below ADDRESS where the environment has one, or are
plain words (tools/packed_links.py). Beside that it has install.sh, README.md, SECURITY.md, what builds packages for systems (packaging/), a list
of what it was made of (sbom.spdx.json), the statement where it comes from (PROVENANCE), and SHA256SUMS, for `sha256sum -c` in its folder.

VERSION is that of CHANGELOG.md, KIT the first word of `rt version`, COMMIT the beginning of the commit's number. The same files of the same
commit give the same archive: names are sorted, owners and times are fixed, and the list has the commit's time. Nothing is packed, and the
status is 1, where a file isn't as it was committed, while something of build/ is missing, or there are crates whose planted wrong bodies
weren't tried since their code, definitions or edits changed (tools/planted.py). It is printed below which crates something has changed since.
`--look` looks only at what is so before anything is built. `--by` names the command that has built and packs; without it the statement says
that it isn't known when build/ was made.

`--install` puts the same files below DESTDIR and PREFIX by the same install.sh, as far as build/ has them. It proves and builds nothing: what
is missing is named, with the target that makes it, and the status is 1 where build/ has no program.
"""
import datetime
import email.utils
import gzip
import hashlib
import io
import os
import re
import subprocess
import sys
import tarfile
import tempfile
from pathlib import Path

import page
import planted
from materials import materials
from packed_links import rewritten
from provenance import STATEMENTS, Commit, Fault, architecture, commit_of, shown, statement, tracked

TOP = Path(__file__).resolve().parent.parent
PAGES = "share/doc/sedck/"
# What is made, with the target of the Makefile that makes it.
MADE = {"build/sedck": "make sedck", "build/sedck-explain": "make build", "build/libsedck.a": "make lib"}
# What is of no use without something that is made: by the beginning of its path in the archive.
NEEDS = {"bin/sedck-": "build/sedck-explain", "libexec/": "build/sedck-explain", "lib/": "build/libsedck.a", "include/": "build/libsedck.a"}
PROGRAMS = {"bin/sedck": "build/sedck", "bin/sedck-explain": "build/sedck-explain", "bin/sedck-fmt": "wrapper/sedck-fmt",
            "bin/sedck-known": "wrapper/sedck-known", "bin/sedck-run": "wrapper/sedck-run", "bin/sedck-sed": "wrapper/sedck-sed", "bin/sedck-lsp": "wrapper/sedck-lsp", "libexec/sedck/sed": "wrapper/sed"}
COMPLETED = ("sedck", "sedck-explain", "sedck-fmt", "sedck-known", "sedck-run", "sedck-sed")


def installed():
    """What is installed: the path below PREFIX of each file, with the file of this repository that it is."""
    files = dict(PROGRAMS)
    files.update({"lib/libsedck.a": "build/libsedck.a", "include/sedck.h": "library/sedck.h", "lib/pkgconfig/sedck.pc": "library/sedck.pc",
                  "share/aclocal/sedck.m4": "m4/sedck.m4", "share/zsh/site-functions/_sedck": "completions/_sedck"})
    for name in COMPLETED:
        files["share/bash-completion/completions/" + name] = "completions/sedck.bash"
        files["share/fish/vendor_completions.d/%s.fish" % name] = "completions/%s.fish" % name
    for manual in sorted((TOP / "man").glob("sedck*.[1-8]")):
        files["share/man/man%s/%s" % (manual.suffix[1:], manual.name)] = "man/" + manual.name
    for name in ("README.md", "SECURITY.md", "CHANGELOG.md"):
        files[PAGES + name] = name
    for folder in ("docs", "examples", "library"):
        files.update({PAGES + str(path.relative_to(TOP)): str(path.relative_to(TOP)) for path in sorted((TOP / folder).rglob("*"))
                      if path.is_file() and path.suffix in (".md", ".svg", ".sed", ".cert", ".c", ".py") and path.name != "heap.c"})
    # The action runs the program that is beside it.
    files.update({PAGES + name.lstrip("."): name for name in (".pre-commit-hooks.yaml", "action.yml", "wrapper/judge-tree", "wrapper/sarif-of-tree")})
    browser = TOP / "build" / "page"
    files.update({"share/sedck/page/" + str(path.relative_to(browser)): str(path.relative_to(TOP)) for path in sorted(browser.rglob("*")) if path.is_file()})
    return files


def missing():
    """What is made and isn't there, with what makes it."""
    return {path: target for path, target in MADE.items() if not (TOP / path).exists()}


def version():
    return re.search(r"^## (\d+\.\d+\.\d+) \(", (TOP / "CHANGELOG.md").read_text(), re.M)[1]


def name_of(kit: str, processor: str, commit: Commit) -> str:
    """The name of the archive without its end, and of the folder in it. A commit has one tree."""
    return "sedck-%s-%s-%s-%s" % (version(), re.sub(r"[^A-Za-z0-9._-]+", "-", kit.split()[0]), processor, commit.number[:12])


def beside():
    """What is in the archive and isn't installed: as `installed`."""
    files = {"README.md": "README.md", "SECURITY.md": "SECURITY.md", "install.sh": "tools/install.sh"}
    files.update({str(path.relative_to(TOP / "packaging")): str(path.relative_to(TOP)) for path in sorted((TOP / "packaging").rglob("*")) if path.is_file()})
    return files


def filled(path, source, places, address, values):
    """The file of the repository as it is packed: with values in place of @VERSION@ and the like, and links that lead to what is packed."""
    text = (TOP / source).read_bytes()
    if path.endswith(".md"):
        return rewritten(text.decode(), source, path, places, address).encode()
    if path.endswith(".pc") or source.startswith("packaging/"):
        return re.sub(rb"@([A-Z]+)@", lambda place: values[place[1].decode()].encode(), text)
    return text


def contents(leaves_out=(), address="", values=None):
    """The files that are installed, as bytes, without those that need what isn't there; with values also what is beside them in an archive."""
    files = {path: source for path, source in installed().items()
             if source not in leaves_out and not any(path.startswith(start) and need in leaves_out for start, need in NEEDS.items())}
    far = {}
    for path, source in files.items():
        far.setdefault(source, path)
    whole = {path: filled(path, source, far, address, values or {"VERSION": version()}) for path, source in files.items()}
    # A page at the top of the archive leads to the one beside it where there is one.
    near = {**far, **{source: path for path, source in beside().items() if path.endswith(".md")}}
    return whole if values is None else {**whole, **{path: filled(path, source, near, address, values) for path, source in beside().items()}}


def with_sums(files):
    sums = ["%s  %s\n" % (hashlib.sha256(files[path]).hexdigest(), path) for path in sorted(files)]
    return {**files, "SHA256SUMS": "".join(sums).encode()}


def mode_of(path):
    return 0o755 if path in PROGRAMS or path in ("install.sh", "debian/rules") else 0o644


def packed(name, files):
    """The bytes of the archive."""
    whole = io.BytesIO()
    with gzip.GzipFile(fileobj=whole, mode="wb", filename="", mtime=0) as zipped, \
            tarfile.open(fileobj=zipped, mode="w", format=tarfile.USTAR_FORMAT) as archive:
        for path in sorted(files):
            entry = tarfile.TarInfo("%s/%s" % (name, path))
            entry.size, entry.mode = len(files[path]), mode_of(path)
            archive.addfile(entry, io.BytesIO(files[path]))
    return whole.getvalue()


def install(prefix, root):
    """Installs what build/ has; the exit status."""
    lacking = missing()
    if "build/sedck" in lacking and "build/sedck-explain" in lacking:
        print("install: there is no program in build: run `make build` first, or `make sedck` for the checker alone")
        return 1
    with tempfile.TemporaryDirectory(prefix="sedck-install-") as folder:
        for path, text in with_sums({**contents(lacking), "install.sh": (TOP / "tools" / "install.sh").read_bytes()}).items():
            to = Path(folder) / path
            to.parent.mkdir(parents=True, exist_ok=True)
            to.write_bytes(text)
            to.chmod(mode_of(path))
        # What isn't there now may have been installed before.
        words = ["sh", folder + "/install.sh", *(["--keep"] if lacking else [])]
        status = subprocess.run(words, env={**os.environ, "PREFIX": prefix, "DESTDIR": os.path.abspath(root) if root else ""}).returncode
    for path, target in lacking.items():
        print("install: %s isn't there, so it was left out: `%s` makes it" % (path, target))
    return status


def looked_at():
    """What must be so before anything is built: the commit, and what is said of the wrong bodies."""
    late, *others = planted.compared()
    if late:
        raise Fault("`make planted` comes first: the wrong bodies of %s weren't tried since something changed there" % ", ".join(late))
    commit, known = commit_of(), tracked()
    for source in sorted({*installed().values(), *beside().values()}):
        if not source.startswith("build/") and source not in known:
            raise Fault("%s isn't in the commit" % shown(source))
    return commit, planted.said_of(late, *others)


def pack(rt, command):
    """Packs the archive."""
    commit, of_ledger = looked_at()
    print("\n".join("dist: wrong bodies: " + line for line in of_ledger))
    if missing():
        raise Fault("; ".join("%s is missing: `%s` makes it" % row for row in missing().items()))
    processors = {architecture((TOP / path).read_bytes(), path) for path in MADE if not path.endswith(".a")}
    if len(processors) != 1:
        raise Fault("the programs of build are for several processors: %s" % ", ".join(sorted(processors)))
    try:
        kit = page.Kit(rt)
    except page.Fault as fault:
        raise Fault(str(fault)) from fault
    address = os.environ.get("ADDRESS", "").rstrip("/")
    name = name_of(kit.version, processors.pop(), commit)
    date = email.utils.format_datetime(datetime.datetime.fromtimestamp(commit.time, datetime.timezone.utc))
    values = {"VERSION": version(), "NAME": name, "COMMIT": commit.number, "MAINTAINER": commit.maintainer, "DATE": date}
    files = contents(address="%s/%s" % (address, commit.number) if address else "", values=values)
    files["sbom.spdx.json"] = materials(version(), commit, kit, os.environ.get("CC") or "cc", files).encode()
    given = {"command": command or "not known: the programs were packed as they lay in build", **({"address": address} if address else {})}
    said = statement(commit, kit.version, given, files, of_ledger)
    (TOP / "build" / (name + ".tar.gz")).write_bytes(packed(name, with_sums({**files, **dict.fromkeys(STATEMENTS, said)})))
    print("The archive is build/%s.tar.gz." % name)
    print("The checker in it is bin/sedck, with the SHA-256 sum %s." % hashlib.sha256(files["bin/sedck"]).hexdigest())


def main():
    words = sys.argv[1:]
    if words[:1] == ["--install"] and 2 <= len(words) <= 3:
        return install(words[1], (words[2:] or [""])[0])
    command = words[words.index("--by") + 1] if "--by" in words[:-1] else ""
    try:
        if words == ["--look"]:
            looked_at()
        else:
            pack((words or ["rt"])[0], command)
    except Fault as fault:
        print("dist: %s" % fault)
        return 1
    return 0


if __name__ == "__main__":
    sys.exit(main())
