#!/usr/bin/env python3
"""Packs what build/ has, and tries the archive as somebody who has nothing else: python3 tests/archive.py

The archive is made in a copy of the repository that has a commit of its own. It is unpacked in an empty folder, its sums and
its list of materials are compared with its files, and it is installed below a PREFIX and a DESTDIR, with nothing of Rattle on the path. From
there README's examples, the library with its header by pkg-config, the manual pages and the pages that reports name are tried. The status is 0
only where all is as it is due.
"""
import hashlib
import json
import os
import re
import shutil
import subprocess
import sys
import tarfile
import tempfile
import time
from pathlib import Path

import copies
from packing import dead_links
from skips import WHOLE, has, present

TOP = Path(__file__).resolve().parent.parent
MADE = ("sedck", "sedck-explain", "libsedck.a")
PROGRAMS = {"bin/sedck", "bin/sedck-explain", "bin/sedck-fmt", "bin/sedck-known", "bin/sedck-run", "bin/sedck-sed", "bin/sedck-lsp", "libexec/sedck/sed"}
SECONDS = 60
wrong = []


def expect(holds, what):
    if not holds:
        wrong.append(what)
        print("archive: " + what)


def run(words, folder, **environment):
    done = subprocess.run(words, cwd=folder, stdin=subprocess.DEVNULL, stdout=subprocess.PIPE, stderr=subprocess.STDOUT, encoding="utf-8",
                          env={**os.environ, **environment})
    return done.returncode, done.stdout


def copied(folder: Path) -> Path:
    """A copy of the repository with what is made, and the command `rt` of a toolchain that stands in for the one that made it."""
    copies.repository(folder / "copy", {name: (TOP / "build" / name).read_bytes() for name in MADE})
    if (TOP / "build" / "page").is_dir():
        shutil.copytree(TOP / "build" / "page", folder / "copy" / "build" / "page")
    rows = dict(re.findall(r"^(\w+)[^:#\n]*:(.*)$", (TOP / "crates.txt").read_text(), re.M))
    return copies.toolchain(folder / "kit", {name for names in rows.values() for name in names.split() if name not in rows})


def unpacked(copy, rt, folder):
    """The folder of the archive."""
    status, said = run([sys.executable, "tools/dist.py", str(rt)], copy)
    expect(status == 0, "dist.py ends with %d: %s" % (status, said))
    with tarfile.open(next((copy / "build").glob("*.tar.gz"))) as archive:
        archive.extractall(folder)
    return next(folder.iterdir())


def check_lists(whole):
    """Each file has its sum, and stands in the list of materials with both sums."""
    status, said = run(["sha256sum", "-c", "--quiet", "SHA256SUMS"], whole)
    expect(status == 0, "SHA256SUMS: %s" % said)
    files = {str(path.relative_to(whole)): path.read_bytes() for path in whole.rglob("*") if path.is_file()}
    listed = json.loads(files["sbom.spdx.json"])
    due = {"./" + name: (hashlib.sha1(text).hexdigest(), hashlib.sha256(text).hexdigest()) for name, text in files.items()
           if name not in ("SHA256SUMS", "sbom.spdx.json", "PROVENANCE", "share/doc/sedck/PROVENANCE")}
    seen = {one["fileName"]: tuple(row["checksumValue"] for row in one["checksums"]) for one in listed["files"]}
    expect(seen == due, "the list of materials has other files or sums: %s" % sorted(set(seen.items()) ^ set(due.items()))[:3])
    code = hashlib.sha1("".join(sorted(sums[0] for sums in due.values())).encode()).hexdigest()
    own = [one["packageVerificationCode"]["packageVerificationCodeValue"] for one in listed["packages"] if one["filesAnalyzed"]]
    expect(own == [code], "the list of materials has the code %s" % own)
    numbers = {one["SPDXID"] for one in listed["packages"] + listed["files"]} | {"SPDXRef-DOCUMENT"}
    expect(len(numbers) == len(listed["packages"]) + len(listed["files"]) + 1, "two materials have one number")
    expect({one[end] for one in listed["relationships"] for end in ("spdxElementId", "relatedSpdxElement")} == numbers, "a material is related to none")


def files_of(folder):
    """The files in a folder, by their paths there."""
    return {str(path.relative_to(folder)) for path in folder.rglob("*") if path.is_symlink() or not path.is_dir()}


def installs(whole, to, *words, **given):
    """What install.sh of an archive ends with and says, with this DESTDIR."""
    return run(["sh", str(whole / "install.sh"), *words], whole.parent, **{"PREFIX": "/usr", "DESTDIR": str(to), **given})


def listed(folder, names):
    """Writes SHA256SUMS for these files of a folder."""
    (folder / "SHA256SUMS").write_text("".join("%s  %s\n" % (hashlib.sha256((folder / name).read_bytes()).hexdigest(), name) for name in sorted(names)))


def check_refusals(whole, folder):
    """Nothing is installed where PREFIX is none, words are invalid, or a file isn't the one that is listed."""
    spoiled, to = folder / "spoiled", folder / "none"
    shutil.copytree(whole, spoiled)
    for prefix in ("usr", "", " /usr"):
        status, said = installs(spoiled, to, PREFIX=prefix)
        expect(status == 3 and not to.exists(), "the PREFIX %r gives %d: %s" % (prefix, status, said))
    for words in (["--all"], ["--keep", "--uninstall"], [""]):
        expect(installs(spoiled, to, *words)[0] == 3 and not to.exists(), "install.sh takes the words %s" % words)
    page, sums = spoiled / "share/doc/sedck/SECURITY.md", spoiled / "SHA256SUMS"
    text, lines, name = page.read_bytes(), sums.read_text(), str(page.relative_to(spoiled))
    for path, link in ((spoiled / "bin/evil", None), (spoiled / "evil", None), (spoiled / "share/\nbin/sedck", None), (spoiled / "bin/evil", "sedck"), (spoiled / "lib/more", "/tmp")):
        path.parent.mkdir(exist_ok=True)
        path.symlink_to(link) if link else path.write_text("#!/bin/sh\n")
        status, said = installs(spoiled, to)
        expect(status == 1 and "nothing is installed" in said and not to.exists(), "the file %r, which isn't listed, gives %d: %s" % (str(path), status, said))
        path.unlink()
    (spoiled / "share/\nbin").rmdir()
    for changed in (lines.replace(name, "../" + name), lines.replace(name, name + "/../x"), lines.replace(name, "/" + name), lines + "x\n", "", "\n" + lines):
        sums.write_text(changed)
        status, said = installs(spoiled, to)
        expect(status == 1 and not to.exists(), "other lines of SHA256SUMS give %d: %s" % (status, said))
    sums.unlink()
    expect(installs(spoiled, to)[0] == 1 and not to.exists(), "without SHA256SUMS something is installed")
    sums.write_text(lines)
    page.write_bytes(text + b"x")
    status, said = installs(spoiled, to)
    expect(status == 1 and name in said and not to.exists(), "a changed file gives %d: %s" % (status, said))
    page.unlink()
    status, said = installs(spoiled, to)
    expect(status == 1 and name in said and not to.exists(), "a missing file gives %d: %s" % (status, said))
    (folder / "other").write_bytes(text)
    page.symlink_to(folder / "other")
    status, said = installs(spoiled, to)
    expect(status == 1 and not to.exists(), "a link in place of a file gives %d: %s" % (status, said))
    shutil.rmtree(spoiled)


def check_modes(whole, folder):
    """Where no file of the archive may be run, as in a folder that is mounted `noexec`, programs are installed as programs."""
    plain, to = folder / "plain", folder / "modes"
    shutil.copytree(whole, plain)
    for path in plain.rglob("*"):
        if path.is_file():
            path.chmod(0o644)
    status, said = installs(plain, to)
    programs = {str(path.relative_to(to / "usr")) for path in to.rglob("*") if path.is_file() and path.stat().st_mode & 0o777 == 0o755}
    others = {path.stat().st_mode & 0o777 for path in to.rglob("*") if path.is_file()} - {0o755}
    expect(status == 0 and programs == PROGRAMS and others == {0o644}, "without modes the status is %d, and the programs are %s: %s" % (status, programs, said))
    shutil.rmtree(plain)


def check_uninstalling(whole, folder):
    """What was installed is removed, also by an earlier version, and nothing else; without its list nothing is."""
    older, to = folder / "older", folder / "removed"
    status, said = installs(whole, to, "--uninstall")
    expect(status == 1 and "installed" in said and not to.exists(), "without a list uninstalling ends with %d: %s" % (status, said))
    shutil.copytree(whole, older)
    for name in ("bin/sedck-old", "share/old/page"):
        (older / name).parent.mkdir(exist_ok=True)
        (older / name).write_text("old\n")
    listed(older, files_of(older) - {"SHA256SUMS"})
    (to / "usr/bin").mkdir(parents=True)
    (to / "usr/share").mkdir()
    (to / "usr/bin/mine").write_text("mine\n")
    before = set(to.rglob("*"))
    for words, is_kept in (([], False), (["--keep"], True)):
        expect(installs(older, to)[0] == 0 and (to / "usr/bin/sedck-old").exists(), "an older version isn't installed")
        status, said = installs(whole, to, *words)
        expect(status == 0 and (to / "usr/bin/sedck-old").exists() == is_kept, "after an older version %s ends with %d: %s" % (words, status, said))
        expect((to / "usr/share/old/page").exists() == is_kept, "a page of an older version, with %s" % words)
        status, said = installs(whole, to, "--uninstall")
        expect(status == 0 and set(to.rglob("*")) == before, "uninstalling leaves %s, or says %s" % (sorted(map(str, set(to.rglob("*")) ^ before))[:5], said))
    # A folder that has something else stays, and a list with another path is none.
    installs(whole, to)
    (to / "usr/share/doc/sedck/mine").write_text("mine\n")
    kept = to / "usr/share/sedck/installed"
    text = kept.read_text()
    for line in ("../../bin/mine", "bin/../bin/mine", "/bin/mine", "bin//mine", "etc/mine", "bin/mine x"):
        kept.write_text(text + line + "\n")
        status, said = installs(whole, to, "--uninstall")
        expect(status == 1 and (to / "usr/bin/mine").exists() and (to / "usr/bin/sedck").exists(), "a list with %s gives %d: %s" % (line, status, said))
    kept.write_text(text)
    expect(installs(whole, to, "--uninstall")[0] == 0 and files_of(to) == {"usr/bin/mine", "usr/share/doc/sedck/mine"}, "uninstalling leaves %s" % files_of(to))
    shutil.rmtree(older)


def check_prefixes(whole, folder):
    """pkg-config gets only a prefix that it can pass on; of any other, install.sh says that sedck.pc isn't installed."""
    for number, (prefix, is_plain) in enumerate((("/usr", True), ("/opt/sedck-1.1~a_b+c", True), ("/opt/a b", False), ("/it's", False), ('/a"b', False), ("/$x", False), ("/a\nb", False))):
        to = folder / ("prefix-%d" % number)
        status, said = installs(whole, to, PREFIX=prefix)
        file = Path(str(to) + prefix) / "lib/pkgconfig/sedck.pc"
        expect(status == 0 and file.exists() == is_plain and ("sedck.pc is not installed" in said) != is_plain, "the PREFIX %r gives %d: %s" % (prefix, status, said))
        if is_plain:
            expect(file.read_text().startswith("prefix=%s\n" % prefix), "sedck.pc has another prefix than %s" % prefix)
        shutil.rmtree(to)
    # A DESTDIR that is relative is meant from where one is.
    run(["sh", str(whole / "install.sh")], folder, PREFIX="/usr", DESTDIR="relative")
    expect((folder / "relative/usr/bin/sedck").exists() and not (whole / "relative").exists(), "a relative DESTDIR leads elsewhere")
    shutil.rmtree(folder / "relative")


def check_installing(whole, folder):
    """install.sh puts each file below DESTDIR and PREFIX, and names the checker's sum."""
    to = folder / "a root"
    for _ in range(2):
        status, said = run(["sh", str(whole / "install.sh")], folder, PREFIX="/opt/own sedck", DESTDIR=str(to))
        expect(status == 0, "install.sh ends with %d: %s" % (status, said))
        checker = hashlib.sha256((whole / "bin/sedck").read_bytes()).hexdigest()
        expect(checker in said, "install.sh doesn't name the checker's sum: %s" % said)
        said = run([str(to / "opt/own sedck/bin/sedck-explain"), "--version"], folder)[1]
        expect(said.splitlines()[1:] == [checker + "  sedck"], "the version doesn't name the checker's sum: %s" % said)
    seen = {str(path.relative_to(to / "opt/own sedck")) for path in to.rglob("*") if path.is_file()}
    due = {str(path.relative_to(whole)) for part in ("bin", "include", "lib", "libexec", "share") for path in (whole / part).rglob("*") if path.is_file()}
    due = due - {"lib/pkgconfig/sedck.pc"} | {"share/sedck/installed"}
    expect(seen == due and len(due) > 40, "install.sh installs other files: %s" % sorted(seen ^ due))
    modes = {str(path.relative_to(to / "opt/own sedck")) for path in to.rglob("*") if path.is_file() and path.stat().st_mode & 0o777 == 0o755}
    expect(modes == PROGRAMS, "the programs are %s" % modes)


def check_readme(place, folder):
    """What README shows is printed by what is installed."""
    (folder / "build").mkdir(parents=True)
    for name in ("sedck", "sedck-explain"):
        (folder / "build" / name).symlink_to(place / "bin" / name)
    (folder / "examples").symlink_to(place / "share/doc/sedck/examples")
    path = "%s:/usr/bin:/bin" % (place / "bin")
    shown = 0
    for block in re.findall(r"^```console\n(.*?)^```", (place / "share/doc/sedck/README.md").read_text(), re.M | re.S):
        commands = re.findall(r"^\$ (.*)$", block, re.M)
        printed = "".join("$ %s\n%s" % (command, run(["sh", "-c", command], folder, PATH=path)[1]) for command in commands)
        expect(printed == block, "README shows %s, and this is printed: %s" % (block, printed))
        shown += len(commands)
    expect(shown >= 3, "README shows %d commands" % shown)
    status, said = run(["sh", "-c", "sedck-fmt --check examples/mail-body.sed; sedck-sed --mode refuse sed p < /dev/null && echo ran"], folder, PATH=path)
    expect(said.endswith("ran\n"), "sedck-fmt and the sed of sedck-sed give %d: %s" % (status, said))


def check_pages(place):
    """Each page that a report names is there, each manual page is one that can be shown, and each completion is where shells look."""
    named = set(re.findall(r"\b[A-Z]+\.md\b", "".join(path.read_text() for path in (TOP / "crates").glob("sedck_*/src/**/*.rt"))))
    expect(len(named) >= 7, "the reports name %s" % sorted(named))
    for page in sorted(named):
        expect((place / "share/doc/sedck/docs" / page).is_file(), "%s, which a report names, isn't there" % page)
    # What the action runs is beside it.
    runs = re.findall(r"\$GITHUB_ACTION_PATH/([\w/.-]+)", (place / "share/doc/sedck/action.yml").read_text())
    expect(runs and all((place / "share/doc/sedck" / name).is_file() for name in runs), "the action that is installed runs %s" % runs)
    dead, count = dead_links(place)
    expect(not dead and count > 200, "%d of %d links of the installed pages are dead: %s" % (len(dead), count, dead[:5]))
    pages = {path.name for path in (TOP / "man").glob("sedck*.[1-8]")}
    expect({path.name for path in (place / "share/man").rglob("*.*")} == pages, "the manual pages aren't all there")
    if has("archive", "a manual page as it is shown", "man"):
        status, said = run(["man", "-M", str(place / "share/man"), "sedck-explain"], place, MANPAGER="cat")
        expect(status == 0 and "say where and why a sed script" in " ".join(said.split()), "man shows %s" % said[:200])
    for name in ("sedck", "sedck-explain", "sedck-fmt", "sedck-known", "sedck-run", "sedck-sed"):
        for path in ("bash-completion/completions/" + name, "fish/vendor_completions.d/%s.fish" % name):
            expect((place / "share" / path).is_file(), "share/%s isn't there" % path)


def check_processors(place):
    """On a processor that lacks a feature of x86-64-v2 the programs end with 127 and say so; on one that has all of them they answer."""
    emulator = next(iter(present("archive", "the programs on other processors", ["qemu-x86_64"])), None)
    for name, due in (("Penryn", 127), ("Nehalem", 0)) if emulator else ():
        for words in (["sedck", "rank"], ["sedck-explain", "--"]):
            status, said = run([emulator, "-cpu", name, str(place / "bin" / words[0]), *words[1:], "share/doc/sedck/examples/mail-body.sed"], place)
            expect(status == due and (due == 0) != ("x86-64-v2" in said), "on the processor %s %s ends with %d: %s" % (name, words[0], status, said))


def check_library(place, folder):
    """The example is compiled by what pkg-config says, and judges a script."""
    compiler = os.environ.get("CC") or "cc"
    if not has("archive", "the library with the words of pkg-config", "pkg-config", compiler):
        return
    config = {"PKG_CONFIG_PATH": str(place / "lib/pkgconfig")}
    words = run(["pkg-config", "--cflags", "--libs", "sedck"], folder, **config)[1].split()
    version = run(["pkg-config", "--modversion", "sedck"], folder, **config)[1].strip()
    expect(version == re.search(r"^## (\d+\.\d+\.\d+) \(", (TOP / "CHANGELOG.md").read_text(), re.M)[1], "pkg-config says the version %s" % version)
    status, said = run([*compiler.split(), str(place / "share/doc/sedck/library/example.c"), "-o", "example", *words], folder)
    expect(status == 0, "the example isn't compiled: %s" % said)
    status, said = run(["./example", str(place / "share/doc/sedck/examples/mail-body.sed")], folder)
    expect((status, said) == (0, "accepted\nbound 3 12 3\nread 0\nwrite 0\n"), "the example gives %d: %s" % (status, said))


def check_make_install(copy, folder):
    """`make install` installs the same, proves nothing, and says what is missing and what makes it."""
    (folder / "tools").mkdir(parents=True)
    for name in ("rt", "proves"):
        (folder / "tools" / name).write_text("#!/bin/sh\necho proving > '%s/proved'\nexit 1\n" % folder)
        (folder / "tools" / name).chmod(0o755)
    path = {"PATH": "%s:%s" % (folder / "tools", os.environ["PATH"])}
    status, said = run(["make", "install", "PREFIX=/usr", "DESTDIR=%s" % (folder / "all")], copy, **path)
    lacks = {name for name in MADE if not (copy / "build" / name).exists()}
    expect(status == 0 and (folder / "all/usr/bin/sedck").exists(), "make install ends with %d: %s" % (status, said))
    expect(("make lib" in said) == ("libsedck.a" in lacks) and (folder / "all/usr/lib/libsedck.a").exists() != ("libsedck.a" in lacks), "make install says %s" % said)
    (copy / "build/sedck-explain").rename(folder / "sedck-explain")
    status, said = run(["make", "install", "PREFIX=/usr", "DESTDIR=%s" % (folder / "one")], copy, **path)
    programs = {path.name for path in (folder / "one/usr/bin").iterdir()}
    # What another `make install` put there stays, and `make uninstall` removes it.
    status_of_all = [run(["make", word, "PREFIX=/usr", "DESTDIR=%s" % (folder / "all")], copy, **path)[0] for word in ("install", "uninstall")]
    expect(status_of_all == [0, 0] and not files_of(folder / "all"), "make uninstall ends with %s, and leaves %s" % (status_of_all, files_of(folder / "all")))
    expect(status == 0 and programs == {"sedck"} and "make build" in said, "make install of the checker alone ends with %d: %s: %s" % (status, programs, said))
    (copy / "build/sedck").rename(folder / "sedck")
    status, said = run(["make", "install", "PREFIX=/usr", "DESTDIR=%s" % (folder / "nothing")], copy, **path)
    expect(status != 0 and "make build" in said and not (folder / "nothing").exists(), "make install of nothing ends with %d: %s" % (status, said))
    expect(not (folder / "proved").exists(), "make install began to prove")
    for name in ("sedck", "sedck-explain"):
        (folder / name).rename(copy / "build" / name)
    for prefix in ("", "usr"):
        status, said = run(["make", "install", "PREFIX=" + prefix, "DESTDIR=%s" % (folder / "nothing")], copy, **path)
        expect(status != 0 and "PREFIX" in said and not (folder / "nothing").exists(), "make install with the PREFIX %r ends with %d: %s" % (prefix, status, said))


def main():
    if not has("archive", "what is packed", "git"):
        return WHOLE
    lacks = [name for name in MADE if not (TOP / "build" / name).exists()]
    if lacks:
        print("archive: build/ lacks %s; `make build lib` makes it" % ", ".join(lacks))
        return 1
    with tempfile.TemporaryDirectory(prefix="sedck-archive-") as name:
        folder = Path(name)
        rt = copied(folder)
        (folder / "empty").mkdir()
        whole = unpacked(folder / "copy", rt, folder / "empty")
        check_lists(whole)
        for check in (check_refusals, check_modes, check_uninstalling, check_prefixes, check_installing):
            check(whole, folder)
        begun, prefix = time.monotonic(), folder / "prefix"
        run(["sh", str(whole / "install.sh")], folder, PREFIX=str(prefix))
        check_readme(prefix, folder / "work")
        expect(time.monotonic() - begun < SECONDS, "the first answers took more than %d seconds" % SECONDS)
        check_pages(prefix)
        check_processors(prefix)
        check_library(prefix, folder / "work")
        check_make_install(folder / "copy", folder / "made")
    if not wrong:
        print("archive: it has what it lists, installs below a prefix, and answers as README shows")
    return 1 if wrong else 0


if __name__ == "__main__":
    sys.exit(main())
