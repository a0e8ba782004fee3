"""The list of what an archive was made of, in SPDX 2.3 (tools/dist.py): its files, the commit, the libraries that are linked, and the compilers."""
import hashlib
import json
import re
import shlex
import subprocess
import time
from pathlib import Path

import page
import prove
from provenance import STATEMENTS, Commit, Fault

TOP = Path(__file__).resolve().parent.parent
# The crates of what is packed: the library and both programs.
ROOTS = ("sedck_c", "sedck", "sedck_explain")
HEAP = "library/heap.c"
# Whatever is named here is in no list of files: what is made of the list, or later.
UNLISTED = ("sbom.spdx.json", "SHA256SUMS", *STATEMENTS)


def linked(kit: page.Kit) -> list[str]:
    """The libraries of the toolchain that are linked: those that our crates name, and those below them, with its parts in C."""
    names = ["std", *sorted({name for crate in prove.ordered(prove.libraries(), list(ROOTS)) for name in page.outside(crate)})]
    for name in names:
        try:
            names += [other for other in kit.uses(name) if other not in names]
        except OSError as error:
            raise Fault("the toolchain doesn't say what its library %s uses: %s" % (name, error.strerror)) from error
    parts = sorted(path.name for path in (kit.top / "c").glob("lib*_c.a"))
    if not parts:
        raise Fault("the toolchain has no parts in C in %s" % (kit.top / "c"))
    return sorted(set(names)) + parts


def first_line(words: list[str], **how) -> str:
    """The first line that a tool prints of its version."""
    try:
        done = subprocess.run(words, stdin=subprocess.DEVNULL, stdout=subprocess.PIPE, encoding="utf-8", check=True, **how)
    except (OSError, subprocess.CalledProcessError) as error:
        raise Fault("%s doesn't say its version: %s" % (words[0], error)) from error
    if not done.stdout.strip():
        raise Fault("%s says no version" % words[0])
    return done.stdout.strip().splitlines()[0].strip()


def compilers(kit: page.Kit, compiler: str, has_page: bool) -> dict[str, tuple[str, str]]:
    """The compilers, by name: what each says of itself, and what it compiled."""
    found = {"clang": (first_line(["clang", "--version"], executable=str(kit.clang)), "LLVM of the toolchain, which compiled the programs and the library"),
             "cc": (first_line([*shlex.split(compiler), "--version"]), "the compiler of C, which compiled %s" % HEAP)}
    if has_page:
        found["binaryen"] = (first_line(["wasm-opt", "--version"]), "wasm-opt, which made the modules of the page")
    return found


def package(name: str, number: str, **more) -> dict:
    return {"SPDXID": "SPDXRef-" + re.sub(r"[^A-Za-z0-9.-]", "-", name), "name": name, "versionInfo": number, "downloadLocation": "NOASSERTION",
            "filesAnalyzed": False, "licenseConcluded": "NOASSERTION", "licenseDeclared": "NOASSERTION", "copyrightText": "NOASSERTION", **more}


def own_package(number: str, commit: Commit, files: dict[str, bytes]) -> dict:
    """This package, with the commit that it was made of."""
    code = hashlib.sha1("".join(sorted(hashlib.sha1(text).hexdigest() for text in files.values())).encode()).hexdigest()
    return package("sedck", number, filesAnalyzed=True, sourceInfo="made of the commit %s, whose tree is %s" % (commit.number, commit.tree),
                   externalRefs=[{"referenceCategory": "PERSISTENT-ID", "referenceType": "swh", "referenceLocator": "swh:1:%s:%s" % one}
                                 for one in (("rev", commit.number), ("dir", commit.tree))],
                   packageVerificationCode={"packageVerificationCodeValue": code, "packageVerificationCodeExcludedFiles": ["./" + name for name in UNLISTED]})


def listed(files: dict[str, bytes]) -> list[dict]:
    return [{"SPDXID": "SPDXRef-File-%d" % at, "fileName": "./" + path, "licenseConcluded": "NOASSERTION", "copyrightText": "NOASSERTION",
             "checksums": [{"algorithm": "SHA1", "checksumValue": hashlib.sha1(files[path]).hexdigest()},
                           {"algorithm": "SHA256", "checksumValue": hashlib.sha256(files[path]).hexdigest()}]} for at, path in enumerate(sorted(files))]


def materials(number: str, commit: Commit, kit: page.Kit, compiler: str, files: dict[str, bytes]) -> str:
    """The list; `number` is the version of sedck."""
    whole = hashlib.sha256("".join("%s %s\n" % (path, hashlib.sha256(files[path]).hexdigest()) for path in sorted(files)).encode()).hexdigest()
    tools = {name: package(name, said, comment=what) for name, (said, what) in
             compilers(kit, compiler, any(path.startswith("share/sedck/page/") for path in files)).items()}
    tools["rattle"] = package("rattle", kit.version, comment="the toolchain: compiler, prover, LLVM and the libraries below")
    libraries = [package("rattle-" + name, kit.version.split()[0], comment="a library of the toolchain") for name in linked(kit)]
    libc = package("glibc", "2.34 or later", comment="the programs need it where they run; it isn't in the archive")
    heap = package("heap.c", number, packageFileName="./" + HEAP, comment="functions for memory in C, in lib/libsedck.a",
                   checksums=[{"algorithm": "SHA256", "checksumValue": hashlib.sha256((TOP / HEAP).read_bytes()).hexdigest()}])
    rows = listed(files)
    library = next(row["SPDXID"] for row in rows if row["fileName"] == "./lib/libsedck.a")
    related = [("SPDXRef-DOCUMENT", "DESCRIBES", "SPDXRef-sedck"), ("SPDXRef-glibc", "RUNTIME_DEPENDENCY_OF", "SPDXRef-sedck"),
               (library, "GENERATED_FROM", heap["SPDXID"])]
    related += [(one["SPDXID"], "BUILD_TOOL_OF", "SPDXRef-sedck") for one in tools.values()]
    related += [("SPDXRef-sedck", "STATIC_LINK", one["SPDXID"]) for one in libraries]
    related += [("SPDXRef-sedck", "CONTAINS", one["SPDXID"]) for one in rows]
    return json.dumps({
        "spdxVersion": "SPDX-2.3", "dataLicense": "CC0-1.0", "SPDXID": "SPDXRef-DOCUMENT", "name": "sedck-" + number,
        "documentNamespace": "https://spdx.org/spdxdocs/sedck-%s-%s" % (number, whole),
        "creationInfo": {"created": time.strftime("%Y-%m-%dT%H:%M:%SZ", time.gmtime(commit.time)), "creators": ["Tool: tools/dist.py of sedck"]},
        "packages": [own_package(number, commit, files), *tools.values(), *libraries, libc, heap], "files": rows,
        "relationships": [{"spdxElementId": one, "relationshipType": word, "relatedSpdxElement": other} for one, word, other in related],
    }, indent=1) + "\n"
