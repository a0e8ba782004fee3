#!/usr/bin/env python3
"""Tests what tools/dist.py, install.sh and tools/verify.py say of where an archive comes from, and its links: python3 tests/packing.py

A copy of the repository is packed, with a toolchain and programs that stand in for real ones. The name of the archive, its statement and its list of
materials are compared with the commit; nothing is packed of files that aren't as they were committed. Each link of the pages that are unpacked
and installed is followed. `make verify` compares archives that were changed. Without git nothing of this can be tried. The status is 0
only where all is as it is due.
"""
import hashlib
import json
import os
import re
import shutil
import subprocess
import sys
import tarfile
import tempfile
from pathlib import Path

import copies
import links
from skips import WHOLE, has

TOP = Path(__file__).resolve().parent.parent
MADE = {"sedck": copies.PROGRAM + b"checker", "sedck-explain": copies.PROGRAM + b"explain", "libsedck.a": b"!<arch>\n"}
STATEMENTS = ("PROVENANCE", "share/doc/sedck/PROVENANCE")
# The features of x86-64-v2 as Linux names them, by the psABI of x86-64.
FLAGS = "fpu cx16 lahf_lm popcnt pni sse4_1 sse4_2 ssse3 avx"
wrong = []


def expect(holds, what):
    if not holds:
        wrong.append(what)
        print("packing: " + what)


def run(words, folder, **environment):
    done = subprocess.run([str(word) for word in words], cwd=folder, stdin=subprocess.DEVNULL, stdout=subprocess.PIPE, stderr=subprocess.STDOUT, encoding="utf-8",
                          env={**os.environ, **environment}, check=False)
    return done.returncode, done.stdout


class Copy:
    """The copy that is packed, and the command `rt` of its toolchain."""

    def __init__(self, folder):
        self.folder, self.top = folder, folder / "copy"
        copies.repository(self.top, MADE)
        self.libraries = {name for name in crates_of_kit() if name != "std"}
        self.rt = copies.toolchain(folder / "kit", self.libraries | {"std"})
        self.commit, self.tree = copies.git(self.top, "show", "-s", "--format=%H %T", "HEAD").split()

    def packs(self, *words, **given):
        """The status of packing, what is said, and the archives that there are then."""
        for path in self.archives():
            path.unlink()
        status, said = run([sys.executable, "tools/dist.py", *(words or (self.rt, "--by", "make dist"))], self.top, **given)
        return status, said, self.archives()

    def archives(self):
        return sorted((self.top / "build").glob("*.tar.gz"))

    def unpacked(self, name, **given):
        """The folder of a new archive, unpacked, with the path of the archive."""
        status, said, found = self.packs(**given)
        expect(status == 0 and len(found) == 1, "packing ends with %d: %s" % (status, said))
        with tarfile.open(found[0]) as archive:
            archive.extractall(self.folder / name)
        return next((self.folder / name).iterdir()), found[0]


def crates_of_kit():
    """The libraries of the toolchain that our crates name, but those of the crates that aren't packed."""
    rows = dict(re.findall(r"^(\w+)[^:#\n]*:(.*)$", (TOP / "crates.txt").read_text(), re.M))
    return {name for crate, names in rows.items() if crate not in ("sedck_tests", "sedck_probe", "sedck_locales") for name in names.split() if name not in rows}


def files_of(folder):
    return {str(path.relative_to(folder)): path.read_bytes() for path in folder.rglob("*") if path.is_file()}


def sums_of(files):
    return {name: hashlib.sha256(text).hexdigest() for name, text in files.items()}


def check_name(copy, whole, archive):
    """The name has the version, the toolchain, the processor and the commit, and is that of the only folder."""
    version = re.search(r"^## (\d+\.\d+\.\d+) \(", (TOP / "CHANGELOG.md").read_text(), re.M)[1]
    due = "sedck-%s-rattle-kit-0-x86_64-%s" % (version, copy.commit[:12])
    expect((whole.name, archive.name) == (due, due + ".tar.gz"), "the archive %s has the folder %s" % (archive.name, whole.name))
    expect(archive.read_bytes() == repacked(copy), "packing again gives another archive")


def repacked(copy):
    """The archive once more, of files with other times and in another zone."""
    for path in copy.top.rglob("*.md"):
        os.utime(path, (1, 1))
    return copy.packs(TZ="Asia/Tokyo", SOURCE_DATE_EPOCH="1")[2][0].read_bytes()


def due_files():
    """The programs, and the other files that an archive without a page for browsers has."""
    own, shared = "share/doc/sedck/", {"examples": ".sed .cert .md", "docs": ".md .svg", "man": ".1 .5"}
    pages = {str(path.relative_to(TOP)) for folder, ends in shared.items() for path in (TOP / folder).rglob("*") if path.suffix in ends.split()}
    due = {"share/man/man%s/%s" % (page[-1], page.partition("/")[2]) if page.startswith("man/") else own + page for page in pages}
    due |= {own + name for name in ("README.md", "SECURITY.md", "CHANGELOG.md", "PROVENANCE", "action.yml", "pre-commit-hooks.yaml", "wrapper/judge-tree",
                                    "wrapper/sarif-of-tree", "library/example.c", "library/example.py")}
    due |= {"lib/libsedck.a", "lib/pkgconfig/sedck.pc", "include/sedck.h", "share/aclocal/sedck.m4", "share/zsh/site-functions/_sedck", "README.md",
            "SECURITY.md", "PROVENANCE", "SHA256SUMS", "sbom.spdx.json", "Containerfile", "sedck.spec"}
    due |= {"debian/" + name for name in ("changelog", "clean", "control", "copyright", "libsedck-dev.install", "sedck.install", "source/format")}
    for name in ("sedck", "sedck-explain", "sedck-fmt", "sedck-known", "sedck-run", "sedck-sed"):
        due |= {"share/bash-completion/completions/" + name, "share/fish/vendor_completions.d/%s.fish" % name}
    run_as = {"bin/" + name for name in ("sedck", "sedck-explain", "sedck-fmt", "sedck-known", "sedck-run", "sedck-sed", "sedck-lsp")}
    return run_as | {"libexec/sedck/sed", "install.sh", "debian/rules"}, due


def check_files(copy, archive):
    """The archive has the files that are due, in their order, with their sums, and the page of the browser where it was made."""
    programs, others = due_files()
    with tarfile.open(archive) as whole:
        entries = whole.getmembers()
        texts = {entry.name.partition("/")[2]: whole.extractfile(entry).read() for entry in entries}
    names = [entry.name for entry in entries]
    expect(names == sorted(names), "the names aren't sorted: %s" % names)
    expect(set(texts) == programs | others, "the files differ in %s" % sorted(set(texts) ^ (programs | others)))
    seen = {entry.name.partition("/")[2] for entry in entries if entry.mode == 0o755}
    expect(seen == programs and {entry.mode for entry in entries} == {0o755, 0o644}, "the programs are %s" % sorted(seen))
    sums = dict(line.split("  ")[::-1] for line in texts.pop("SHA256SUMS").decode().splitlines())
    expect(sums == sums_of(texts), "the sums differ in %s" % sorted(set(sums.items()) ^ set(sums_of(texts).items()))[:4])
    (copy.top / "build" / "page").mkdir()
    (copy.top / "build" / "page" / "index.html").write_text("a page")
    wasm = copy.folder / "kit" / "bin" / "wasm-opt"
    wasm.write_text("#!/bin/sh\necho 'wasm-opt version 999'\n")
    wasm.chmod(0o755)
    whole, _ = copy.unpacked("with-page", PATH="%s:%s" % (wasm.parent, os.environ["PATH"]))
    more = set(files_of(whole)) - programs - others
    named = {one["name"]: one["versionInfo"] for one in json.loads((whole / "sbom.spdx.json").read_text())["packages"]}
    expect(more == {"share/sedck/page/index.html"} and named.get("binaryen") == "wasm-opt version 999", "with a page there are also %s, and %s" % (more, named.get("binaryen")))
    shutil.rmtree(copy.top / "build" / "page")


def check_missing(copy):
    """Nothing is packed while something of build is missing, or a wrong body wasn't tried; each is named."""
    for name in MADE:
        (copy.top / "build" / name).rename(copy.folder / name)
        status, said, found = copy.packs()
        expect(status == 1 and not found and "build/%s is missing: `make " % name in said, "without %s packing ends with %d: %s" % (name, status, said))
        (copy.folder / name).rename(copy.top / "build" / name)
    edit = copy.top / "crates/sedck_text/planted/wrong.edit"
    edit.parent.mkdir()
    edit.write_text("wrong: what\n")
    for words in ((), ("--look",)):
        status, said, found = copy.packs(*words)
        expect(status == 1 and not found and "`make planted` comes first: the wrong bodies of sedck_text" in said, "what wasn't tried gives %d: %s" % (status, said))
    shutil.rmtree(edit.parent)


def check_statement(copy, whole):
    """PROVENANCE has the commit, the toolchain, the command, the sums of the ledger and of each file, and says what isn't known."""
    files = files_of(whole)
    found = json.loads(files["PROVENANCE"])
    expect(files[STATEMENTS[0]] == files[STATEMENTS[1]], "the statement that is installed is another one")
    expect((found["_type"], found["predicateType"]) == ("https://in-toto.io/Statement/v1", "https://slsa.dev/provenance/v1"), "the statement is %s" % found["_type"])
    due = {name: digest for name, digest in sums_of(files).items() if name not in (*STATEMENTS, "SHA256SUMS")}
    expect({row["name"]: row["digest"]["sha256"] for row in found["subject"]} == due, "the statement is of other files")
    built, ran = found["predicate"]["buildDefinition"], found["predicate"]["runDetails"]
    expect(built["externalParameters"] == {"command": "make dist"} and built["internalParameters"] == {"kit": "rattle-kit-0 logic 0"}, "the statement says %s" % built)
    expect(built["resolvedDependencies"] == [{"name": "sedck", "uri": "swh:1:rev:" + copy.commit, "digest": {"gitCommit": copy.commit, "gitTree": copy.tree}}],
           "the statement has the source %s" % built["resolvedDependencies"])
    ledger = {name: hashlib.sha256((copy.top / name).read_bytes()).hexdigest() for name in ("planted.sums", "planted.refusals")}
    expect(ran["sedck_ledger"]["sums"] == ledger and ran["sedck_gate"] == {"unknown": "the gate didn't come to its end in this folder"}, "the statement says %s" % ran)


def check_gate_words(copy):
    """What the gate said is in the statement where it was said of this commit and toolchain; where it wasn't, that is said."""
    said = {"command": "rt ci", "kit": "rattle-kit-0 logic 0", "commit": copy.commit, "status": 0, "said": "34 passed, 0 failed"}
    for change, due in (({}, said), ({"commit": "f" * 40}, "on the commit " + "f" * 40), ({"commit": ""}, "on files that no commit has"),
                        ({"kit": "rattle-kit-1 logic 0"}, "with the toolchain rattle-kit-1 logic 0"), ({"status": 1, "said": "33 passed, 1 failed"}, {**said, "status": 1, "said": "33 passed, 1 failed"})):
        (copy.top / "build" / "gate-said").write_text(json.dumps({**said, **change}))
        status, printed, found = copy.packs()
        with tarfile.open(found[0]) as archive:
            seen = json.load(archive.extractfile(archive.getnames()[0].partition("/")[0] + "/PROVENANCE"))["predicate"]["runDetails"]["sedck_gate"]
        expect(status == 0 and (seen == due if isinstance(due, dict) else seen == {"unknown": "the gate last ran here " + due}), "of the gate's words %s is said %s" % (change, seen))
    (copy.top / "build" / "gate-said").unlink()
    status, printed, found = copy.packs(copy.rt)
    with tarfile.open(found[0]) as archive:
        seen = json.load(archive.extractfile(archive.getnames()[0].partition("/")[0] + "/PROVENANCE"))["predicate"]["buildDefinition"]["externalParameters"]
    expect(seen["command"].startswith("not known"), "a command that isn't known is said to be %s" % seen)


def check_materials(copy, whole):
    """The list has the commit with its time, each library that is linked, also below others, the compilers, and the functions for memory."""
    found = json.loads((whole / "sbom.spdx.json").read_text())
    packages = {one["name"]: one for one in found["packages"]}
    below = {"core", "io", "strsim", "ryu", "unicode_words", "std"}
    due = {"rattle-" + name for name in copy.libraries | below | {"libos_c.a"}} | {"rattle", "clang", "cc", "glibc", "heap.c", "sedck"}
    expect(set(packages) == due, "the list of materials differs in %s" % sorted(set(packages) ^ due))
    expect(found["creationInfo"]["created"] == copies.COMMITTED.replace("+00:00", "Z"), "the list was made at %s" % found["creationInfo"]["created"])
    own = packages["sedck"]
    expect(copy.commit in own["sourceInfo"] and copy.tree in own["sourceInfo"] and [one["referenceLocator"] for one in own["externalRefs"]]
           == ["swh:1:rev:" + copy.commit, "swh:1:dir:" + copy.tree], "the list has the source %s" % own)
    expect(packages["rattle"]["versionInfo"] == "rattle-kit-0 logic 0" and packages["clang"]["versionInfo"] == "clang version 99.0", "the list has the toolchain %s" % packages["rattle"])
    heap = hashlib.sha256((TOP / "library/heap.c").read_bytes()).hexdigest()
    expect(packages["heap.c"]["checksums"] == [{"algorithm": "SHA256", "checksumValue": heap}], "the list has heap.c as %s" % packages["heap.c"])
    library = next(one["SPDXID"] for one in found["files"] if one["fileName"] == "./lib/libsedck.a")
    related = {(one["spdxElementId"], one["relationshipType"], one["relatedSpdxElement"]) for one in found["relationships"]}
    expect((library, "GENERATED_FROM", packages["heap.c"]["SPDXID"]) in related and (packages["cc"]["SPDXID"], "BUILD_TOOL_OF", own["SPDXID"]) in related, "heap.c leads nowhere")
    # A tool that can't be asked is no silent gap.
    for what, given in (("a compiler", {"CC": "/nowhere/cc"}), ("a library", {})):
        hidden = copy.folder / "kit/rlibs/ryu.rlib/format"
        if not given:
            hidden.rename(hidden.with_name("gone"))
        status, said, archives = copy.packs(**given)
        expect(status == 1 and not archives and "dist: " in said and "Traceback" not in said, "%s that can't be asked gives %d: %s" % (what, status, said))
        if not given:
            hidden.with_name("gone").rename(hidden)


def check_changes(copy):
    """Nothing is packed of files that aren't as they were committed, of a folder without a commit, or of programs for no known processor."""
    def refuses(what, word):
        for words in ((), ("--look",)):
            status, said, found = copy.packs(*words)
            expect(status == 1 and not found and word in said and "Traceback" not in said, "with %s %s gives %d: %s" % (what, words, status, said))

    page, extra = copy.top / "docs/TRUST.md", copy.top / "docs/extra.md"
    text = page.read_bytes()
    page.write_bytes(text + b"\n")
    refuses("a page that is changed", "docs/TRUST.md isn't as it was committed")
    copies.git(copy.top, "add", "docs/TRUST.md")
    refuses("a page that is changed in the index", "docs/TRUST.md isn't as it was committed")
    copies.git(copy.top, "reset", "--quiet", "--hard")
    extra.write_text("# Extra\n")
    refuses("a page that no commit has", "docs/extra.md isn't as it was committed")
    (copy.top / ".git/info").mkdir(exist_ok=True)
    (copy.top / ".git/info/exclude").write_text("extra.md\n")
    refuses("a page that git ignores", "docs/extra.md isn't in the commit")
    extra.unlink()
    (copy.top / ".git/info/exclude").write_text("")
    (copy.top / ".git").rename(copy.folder / "no-git")
    refuses("no repository", "dist: `git rev-parse` failed")
    copies.git(copy.folder, "init", "--quiet")
    refuses("a repository around it", "is no repository of its own")
    shutil.rmtree(copy.folder / ".git")
    (copy.folder / "no-git").rename(copy.top / ".git")
    for data, word in ((b"a program", "build/sedck is no program"), (copies.PROGRAM[:18] + b"\xf3" + copies.PROGRAM[19:], "build/sedck is no program"),
                       (copies.PROGRAM[:18] + b"\xb7" + copies.PROGRAM[19:], "for several processors: aarch64, x86_64")):
        (copy.top / "build/sedck").write_bytes(data)
        status, said, found = copy.packs()
        expect(status == 1 and not found and word in said, "the program %r gives %d: %s" % (data[:20], status, said))
    (copy.top / "build/sedck").write_bytes(MADE["sedck"])


def check_real_toolchain():
    """Of the toolchain that is here the libraries are named that those of our crates use, at any depth, and its own compiler."""
    if not has("packing", "the libraries of the toolchain", "rt"):
        return
    sys.path.insert(0, str(TOP / "tools"))
    import materials
    import page

    kit = page.Kit("rt")
    found = set(materials.linked(kit))
    due = crates_of_kit() | {"std", "core", "os", "io", "libc", "strsim", "ryu", "fast_float", "simdutf8", "ucd_breaks", "ucd_perl", "unicode_segmentation"}
    expect(due <= found and {"libos_c.a", "liblibc_c.a"} <= found, "of the libraries these are missing: %s" % sorted(due - found))
    expect("clang" in materials.compilers(kit, "cc", False)["clang"][0], "the compiler of the toolchain is %s" % (materials.compilers(kit, "cc", False)["clang"],))


# ---- Links

def dead_links(folder: Path) -> tuple[list[str], int]:
    """The links of the pages below a folder that lead to no file in it, or to no heading, and how many there are."""
    dead, count = [], 0
    for page in sorted(folder.rglob("*.md")):
        for target, file, head in links.links(page):
            count += 1
            inside = file.exists() and file.is_relative_to(folder.resolve())
            if not inside or head and head not in links.anchors(file):
                dead.append("%s: %s" % (page.relative_to(folder), target))
    return dead, count


def check_links(copy, whole):
    """Each link of the pages leads to what is unpacked, or installed; sources are linked where an address is given."""
    installed = copy.folder / "installed"
    status, said = run(["sh", whole / "install.sh"], copy.folder, PREFIX=str(installed), DESTDIR="", CPUINFO=str(cpuinfo(copy, FLAGS)))
    expect(status == 0 and "are below %s/share/doc/sedck." % installed in said, "installing ends with %d: %s" % (status, said))
    for folder, least in ((whole, 200), (installed, 200)):
        dead, count = dead_links(folder)
        expect(not dead and count > least, "%d of %d links are dead: %s" % (len(dead), count, dead[:5]))
    for page in sorted(installed.rglob("*.md")):
        text = page.read_text()
        expect(not re.search(r"\]\((?!#)[^)\s:]*(?:crates|man|tests)/", text), "%s leads to what isn't installed" % page.name)
    check_named(installed)
    named, _ = copy.unpacked("named", ADDRESS="https://example.org/sedck/blob/")
    readme = (named / "README.md").read_text()
    expect("(https://example.org/sedck/blob/%s/crates/sedck_cert/src/verifying.rt)" % copy.commit in readme, "no source is linked below the address")
    expect("(share/doc/sedck/docs/TRUST.md)" in readme and not dead_links(named)[0], "with an address links are dead: %s" % dead_links(named)[0][:5])
    due = {"command": "make dist", "address": "https://example.org/sedck/blob"}
    expect(json.loads((named / "PROVENANCE").read_text())["predicate"]["buildDefinition"]["externalParameters"] == due, "the statement doesn't have the address")
    for old, new, due in (("[TRUST](docs/img/none.svg)", "", "TRUST"), ("`[a](b)` [`c[]`](crates/x) d", "", "`[a](b)` `c[]` d"), ("```\n[a](b)\n```", "", "```\n[a](b)\n```")):
        code = "import sys; sys.path.insert(0, %r); import packed_links; print(packed_links.rewritten(%r, 'README.md', 'README.md', {}, %r), end='')" % (str(TOP / "tools"), old, new)
        expect(run([sys.executable, "-c", code], copy.folder) == (0, due), "%s is packed as %s" % (old, run([sys.executable, "-c", code], copy.folder)))


def check_named(installed):
    """Each page, with its heading, that the programs and the manual pages name is installed where they say."""
    place = installed / "share/doc/sedck"
    rows = {row for source in TOP.glob("crates/*/src/**/*.rt") for row in re.findall(r"\b([A-Z]+\.md)(?:#([\w-]+))?", source.read_text())}
    expect(len(rows) > 40, "the programs name %d places" % len(rows))
    for page, head in sorted(rows):
        expect((place / "docs" / page).is_file() and (not head or head in links.anchors(place / "docs" / page)), "docs/%s#%s, which a program names, isn't installed" % (page, head))
    for manual in sorted((installed / "share/man").rglob("*.[1-8]")):
        for name in re.findall(r"\bdocs/\w+\.md\b", manual.read_text()):
            expect((place / name).is_file(), "%s, which %s names, isn't installed" % (name, manual.name))


# ---- The processor

def cpuinfo(copy, flags):
    path = copy.folder / "cpuinfo"
    path.write_text("processor\t: 0\nflags\t\t: %s\nbugs\t\t: none\n" % flags)
    return path


def check_processor(copy, whole):
    """Nothing is installed where the processor lacks a feature, but below a DESTDIR."""
    to = copy.folder / "processor"
    for lacking in FLAGS.split()[1:-1]:
        flags = " ".join(flag if flag != lacking else flag + "x" for flag in FLAGS.split())
        status, said = run(["sh", whole / "install.sh"], copy.folder, PREFIX=str(to), DESTDIR="", CPUINFO=str(cpuinfo(copy, flags)))
        expect(status == 1 and not to.exists() and "lacks %s; nothing is installed" % lacking in said, "without %s the status is %d: %s" % (lacking, status, said))
    status, said = run(["sh", whole / "install.sh"], copy.folder, PREFIX="/usr", DESTDIR=str(to), CPUINFO=str(cpuinfo(copy, "fpu")))
    expect(status == 0 and (to / "usr/bin/sedck").exists(), "below a DESTDIR the status is %d: %s" % (status, said))
    shutil.rmtree(to)
    status, said = run(["sh", whole / "install.sh"], copy.folder, PREFIX=str(to), DESTDIR="", CPUINFO="/nowhere")
    expect(status == 0 and "isn't known whether this processor is of x86-64-v2" in said, "without the flags the status is %d: %s" % (status, said))
    shutil.rmtree(to)


# ---- Signatures

def check_signatures(copy, archive):
    """What the pages say of signing and of checking a signature works, and refuses another archive, another key, and another use of the key."""
    if not has("packing", "signatures of archives", "ssh-keygen"):
        return
    sign, verify = (next(iter(re.findall(r"^ *(ssh-keygen -Y %s .*)$" % word, (TOP / page).read_text(), re.M)), "exit 9")
                    for word, page in (("sign", "CONTRIBUTING.md"), ("verify", "docs/TRUST.md")))
    room = copy.folder / "signing"
    room.mkdir()
    for name in ("key", "other"):
        run(["ssh-keygen", "-q", "-t", "ed25519", "-N", "", "-f", name, "-C", ""], room)
    shutil.copy(archive, room / "an archive")
    (room / "signers").write_text("sedck " + (room / "key.pub").read_text())

    def tried(words, **given):
        return run(["sh", "-c", words], room, **{"archive": "an archive", "key": "key", **given})

    expect(tried(sign)[0] == 0 and tried(verify)[0] == 0, "signing gives %s, and checking %s" % (tried(sign), tried(verify)))
    (room / "changed").write_bytes(archive.read_bytes() + b"x")
    shutil.copy(room / "an archive.sig", room / "changed.sig")
    expect(tried(verify, archive="changed")[0] != 0, "the signature of another archive is taken")
    for what, words, given in (("another key", sign, {"key": "other"}), ("another use", sign.replace("-n sedck", "-n file"), {})):
        (room / "an archive.sig").unlink()
        expect(tried(words, **given)[0] == 0 and tried(verify)[0] != 0, "the signature by %s is taken" % what)


# ---- Building again

def changed(copy, archive, name, change):
    """An archive whose files, by their paths with their modes, were changed; its sums and its statement are right again."""
    with tarfile.open(archive) as whole:
        top = whole.getnames()[0].partition("/")[0]
        files = {entry.name.partition("/")[2]: (whole.extractfile(entry).read(), entry.mode) for entry in whole.getmembers()}
    change(files)
    found = json.loads(files["PROVENANCE"][0])
    found["subject"] = [{"name": path, "digest": {"sha256": hashlib.sha256(text).hexdigest()}} for path, (text, _) in sorted(files.items())
                        if path not in (*STATEMENTS, "SHA256SUMS")]
    files.update({path: (json.dumps(found).encode(), 0o644) for path in STATEMENTS})
    files["SHA256SUMS"] = ("".join("%s  %s\n" % (hashlib.sha256(text).hexdigest(), path) for path, (text, _) in sorted(files.items()) if path != "SHA256SUMS").encode(), 0o644)
    for path, (text, mode) in files.items():
        (copy.folder / "again" / top / path).parent.mkdir(parents=True, exist_ok=True)
        (copy.folder / "again" / top / path).write_bytes(text)
        (copy.folder / "again" / top / path).chmod(mode)
    with tarfile.open(copy.folder / name, "w:gz") as whole:
        for path in sorted(files):
            whole.add(copy.folder / "again" / top / path, "%s/%s" % (top, path))
    shutil.rmtree(copy.folder / "again")
    return copy.folder / name


def verified(copy, archive, build, **given):
    """What `make verify` ends with and says, where the build is this command. The status of make is 2 where there is another one than 0."""
    status, said = run(["make", "--no-print-directory", "verify", "ARCHIVE=%s" % archive, "RT=%s" % copy.rt, "BUILD=%s" % build], copy.top, **given)
    ended = re.search(r"^make(?:\[\d+\])?: .* Error (\d+)$", said, re.M)
    return (int(ended[1]) if ended else status), said


def check_verify(copy, archive):
    """The same commit gives the same files, by a real packing in the clone; what was changed is named."""
    kept = copy.folder / archive.name
    shutil.copy(archive, kept)
    own = "mkdir build && cp -p %s/build/sedck %s/build/sedck-explain %s/build/libsedck.a build && python3 tools/dist.py %s --by 'make dist'" % ((copy.top,) * 3 + (copy.rt,))
    # What lies in the folder of the repository isn't what is built: the clone is the commit.
    (copy.top / "docs/TRUST.md").write_text("changed\n")
    status, said = verified(copy, kept, own)
    copies.git(copy.top, "reset", "--quiet", "--hard")
    checker = hashlib.sha256(MADE["sedck"]).hexdigest()
    sums = re.findall(r"^verify: the checker (in the archive|as built) is bin/sedck, with the SHA-256 sum (\w+)$", said, re.M)
    expect(status == 0 and "verify: each file is the same" in said and sums == [("in the archive", checker), ("as built", checker)], "building again gives %d: %s" % (status, said[-2000:]))
    count = len(re.findall(r"^verify: \S+: same$", said, re.M))
    with tarfile.open(kept) as whole:
        expect(count == len(whole.getnames()), "%d of %d files are said to be the same" % (count, len(whole.getnames())))
    other = changed(copy, kept, "other.tar.gz", lambda files: files.update({"bin/sedck": (MADE["sedck"] + b"x", 0o755)}))
    status, said = verified(copy, kept, "mkdir build && cp %s build/sedck-other.tar.gz" % other)
    expect(status == 1 and "verify: bin/sedck: differs: %s in the archive, " % checker in said and "NOT each file is the same" in said, "another checker gives %d: %s" % (status, said[-2000:]))
    check_verify_faults(copy, kept, own)


def check_differences(copy, kept):
    """Each file that differs has its line, and no other has: by its bytes, by its mode, and where only one archive has it."""
    sys.path.insert(0, str(TOP / "tools"))
    import verify

    def compared(change):
        other = verify.Archive(changed(copy, kept, "other.tar.gz", change))
        other.check_sums()
        lines, is_same = verify.differences(verify.Archive(kept), other)
        return [line for line in lines if not line.endswith(": same")], is_same

    def says(files):
        found = json.loads(files["PROVENANCE"][0])
        found["predicate"]["runDetails"]["sedck_gate"] = {"said": "34 passed, 0 failed"}
        files["PROVENANCE"] = (json.dumps(found).encode(), 0o644)

    def says_more(files):
        found = json.loads(files["PROVENANCE"][0])
        found["predicate"]["runDetails"]["sedck_ledger"]["sums"]["planted.sums"] = "0" * 64
        files["PROVENANCE"] = (json.dumps(found).encode(), 0o644)

    lines, is_same = compared(says_more)
    expect(not is_same and [line.partition(": differs")[0] for line in lines] == ["PROVENANCE", "SHA256SUMS: same but for what the packer says of the gate", "share/doc/sedck/PROVENANCE"],
           "another ledger gives %s" % lines)
    but = " same but for what the packer says of the gate"
    for change, due, is_same in ((says, ["PROVENANCE:" + but, "SHA256SUMS:" + but, "share/doc/sedck/PROVENANCE:" + but], True),
                                 (lambda files: files.update({"bin/sedck-fmt": (files["bin/sedck-fmt"][0], 0o644)}), ["bin/sedck-fmt: has the mode 755 in the archive, and 644 as built"], False),
                                 (lambda files: files.pop("README.md"), ["README.md: is missing as built"], False),
                                 (lambda files: files.update({"bin/more": (b"x", 0o755)}), ["bin/more: is only there as built"], False),
                                 (lambda files: files.update({"README.md": (b"x", 0o644)}), ["README.md: differs: "], False)):
        seen, said = compared(change)
        # The sums and the statement differ with what they are of; the statement's text is another one here in any case.
        others = [line for line in seen if line.partition(":")[0] not in ("SHA256SUMS", *STATEMENTS)]
        expect(said == is_same and (seen == due if is_same else len(others) == 1 and others[0].startswith(due[0])), "%s gives %s" % (due, seen))
        expect(is_same or due[0].startswith("bin/sedck-fmt") or any(line.startswith("SHA256SUMS: differs") for line in seen), "other sums are the same: %s" % seen)


def check_verify_faults(copy, kept, own):
    """Where nothing can be compared the status is 4, and that is said; invalid arguments give 3."""
    def spoil(files):
        found = json.loads(files["PROVENANCE"][0])
        found["predicate"]["buildDefinition"]["resolvedDependencies"][0]["digest"]["gitCommit"] = "e" * 40
        files["PROVENANCE"] = (json.dumps(found).encode(), 0o644)

    def bare(files):
        files["PROVENANCE"] = (b"{}", 0o644)

    spoiled = copy.folder / "spoiled.tar.gz"
    spoiled.write_bytes(kept.read_bytes()[:-100])
    other_kit = copies.toolchain(copy.folder / "other-kit", {"std"})
    other_kit.write_text("#!/bin/sh\necho 'rattle-kit-9 logic 0'\n")
    unlisted = changed_without_sums(copy, kept)
    for what, archive, build, word in (("a build that fails", kept, "exit 7", "the build ended with status 7"), ("a build of nothing", kept, "true", "the build left 0 archives"),
                                       ("two archives", kept, own + " && cp build/sedck-*.tar.gz build/sedck-2.tar.gz", "the build left 2 archives"),
                                       ("an unknown commit", changed(copy, kept, "unknown.tar.gz", spoil), own, "`git checkout` failed"),
                                       ("a part of an archive", spoiled, own, "can't be read"), ("no archive", "/nowhere", own, "can't be read"),
                                       ("other sums", unlisted, own, "SHA256SUMS doesn't have the sums of its files")):
        status, said = verified(copy, archive, build)
        expect(status == 4 and word in said and "Traceback" not in said and "same" not in said, "%s gives %d: %s" % (what, status, said[-500:]))
    status, said = run([sys.executable, "tools/verify.py", kept, other_kit], copy.top)
    expect(status == 4 and "rattle-kit-9" in said and "building" not in said, "another toolchain gives %d: %s" % (status, said))
    status, said = run([sys.executable, "tools/verify.py", ""], copy.top)
    expect(status == 3 and "usage" in said, "no archive gives %d: %s" % (status, said))
    expect(not [path for path in Path(tempfile.gettempdir()).glob("sedck-verify-*")], "clones are left")


def changed_without_sums(copy, kept):
    """An archive with another file than SHA256SUMS says."""
    with tarfile.open(kept) as whole:
        top = whole.getnames()[0].partition("/")[0]
        whole.extractall(copy.folder / "unlisted")
    (copy.folder / "unlisted" / top / "bin/sedck").write_bytes(b"another")
    with tarfile.open(copy.folder / "unlisted.tar.gz", "w:gz") as whole:
        for path in sorted((copy.folder / "unlisted").rglob("*")):
            if path.is_file():
                whole.add(path, str(path.relative_to(copy.folder / "unlisted")))
    return copy.folder / "unlisted.tar.gz"


def main():
    if not has("packing", "what is packed", "git"):
        return WHOLE
    with tempfile.TemporaryDirectory(prefix="sedck-packing-") as name:
        copy = Copy(Path(name).resolve())
        whole, archive = copy.unpacked("whole")
        check_files(copy, archive)
        check_missing(copy)
        check_statement(copy, whole)
        check_materials(copy, whole)
        check_real_toolchain()
        check_links(copy, whole)
        check_processor(copy, whole)
        check_gate_words(copy)
        check_changes(copy)
        check_name(copy, whole, copy.packs()[2][0])
        archive = copy.archives()[0]
        check_signatures(copy, archive)
        check_differences(copy, archive)
        check_verify(copy, archive)
    if not wrong:
        print("packing: an archive says where it comes from, its links lead somewhere, and what is built again is compared with it")
    return 1 if wrong else 0


if __name__ == "__main__":
    sys.exit(main())
