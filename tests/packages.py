#!/usr/bin/env python3
"""Builds packages for systems from an archive, and runs what the image of the Containerfile runs: python3 tests/packages.py SEDCK SEDCK_EXPLAIN

The archive is packed in a copy of the repository, by a toolchain that stands in for a real one. The rules of debian/ install from it, and each
file goes to just one package; with `dh` the packages are built and opened. The same is done by the spec of RPM, by a shell where `rpmbuild` is
missing. Where a server of Docker is here with the image that it begins with, the image is built. What needs a tool that is missing is skipped.
The status is 0 only where all is as it is due.
"""
import email.utils
import fnmatch
import hashlib
import json
import os
import re
import shlex
import shutil
import subprocess
import sys
import tarfile
import tempfile
from pathlib import Path

import copies
from skips import WHOLE, has, skip

TOP = Path(__file__).resolve().parent.parent
VERSION = re.search(r"^## (\d+\.\d+\.\d+) \(", (TOP / "CHANGELOG.md").read_text(), re.M)[1]
LOOP = ":a\nba\n"
wrong = []


def expect(holds, what):
    if not holds:
        wrong.append(what)
        print("packages: " + what)


def run(words, folder, **environment):
    done = subprocess.run([str(word) for word in words], cwd=folder, stdin=subprocess.DEVNULL, stdout=subprocess.PIPE, stderr=subprocess.STDOUT, encoding="utf-8",
                          errors="replace", env={**os.environ, **environment}, check=False)
    return done.returncode, done.stdout


def packed(folder, sedck, explain):
    """The archive, unpacked, and the archive."""
    made = {"sedck": Path(sedck).read_bytes(), "sedck-explain": Path(explain).read_bytes(), "libsedck.a": b"!<arch>\n"}
    copies.repository(folder / "copy", made)
    rows = dict(re.findall(r"^(\w+)[^:#\n]*:(.*)$", (TOP / "crates.txt").read_text(), re.M))
    rt = copies.toolchain(folder / "kit", {name for names in rows.values() for name in names.split() if name not in rows})
    status, said = run([sys.executable, "tools/dist.py", rt], folder / "copy")
    expect(status == 0, "packing ends with %d: %s" % (status, said))
    archive = next((folder / "copy/build").glob("*.tar.gz"))
    with tarfile.open(archive) as whole:
        whole.extractall(folder / "whole")
    return next((folder / "whole").iterdir()), archive


def files_of(folder):
    return {str(path.relative_to(folder)): path for path in folder.rglob("*") if path.is_file() or path.is_symlink()}


def sum_of(path):
    return hashlib.sha256(path.read_bytes()).hexdigest()


def due_files(whole, folder):
    """What a package for a system has of the archive, with these folders of its libraries: each file is the one of the archive."""
    parts = {name: path for name, path in files_of(whole).items() if name.split("/")[0] in ("bin", "include", "lib", "libexec", "share")}
    return {"usr/" + (folder + name.removeprefix("lib") if name.startswith("lib/") else name): path for name, path in parts.items()}


def check_installed(what, seen, whole, folder):
    """A system's tree has each file of the archive, its library in this folder, and nothing else."""
    due = due_files(whole, folder)
    expect(set(seen) == set(due), "%s: the files differ in %s" % (what, sorted(set(seen) ^ set(due))[:6]))
    for name in set(seen) & set(due):
        is_same = sum_of(seen[name]) == sum_of(due[name])
        if name.endswith(".pc"):
            expect(re.search(r"^prefix=/usr$", seen[name].read_text(), re.M) and re.search(r"^libdir=(\$\{prefix\}|/usr)/%s$" % folder, seen[name].read_text(), re.M),
                   "%s: sedck.pc is %s" % (what, seen[name].read_text()))
        else:
            expect(is_same, "%s: %s isn't that of the archive" % (what, name))
        mode = 0o755 if name.startswith(("usr/bin/", "usr/libexec/")) else 0o644
        expect(seen[name].stat().st_mode & 0o777 == mode, "%s: %s has the mode %o" % (what, name, seen[name].stat().st_mode & 0o777))


# ---- Debian

def check_debian(whole, folder):
    """What the rules install is in just one package, and the newest entry has the version, the commit's time and who made it."""
    if has("packages", "what debian/rules installs", "make", "dpkg-architecture"):
        tree = folder / "rules"
        shutil.copytree(whole, tree)
        for number in range(2):
            status, said = run(["make", "-f", "debian/rules", "override_dh_auto_install"], tree)
            expect(status == 0, "debian/rules ends with %d: %s" % (status, said[-1000:]))
        place = "lib/" + run(["dpkg-architecture", "-qDEB_HOST_MULTIARCH"], folder)[1].strip()
        check_installed("debian/rules", files_of(tree / "debian/tmp"), whole, place)
        lists = {path.name: path.read_text().split() for path in (tree / "debian").glob("*.install")}
        expect(len(lists) == 2, "the packages are %s" % sorted(lists))
        for name in files_of(tree / "debian/tmp"):
            takers = [one for one, patterns in lists.items() if any(fnmatch.fnmatchcase(name, pattern) or name.startswith(pattern + "/") or fnmatch.fnmatchcase(name, pattern + "/*") for pattern in patterns)]
            expect(len(takers) == 1, "%s is in the packages %s" % (name, takers))
        (tree / "bin/sedck").write_bytes(b"another")
        status, said = run(["make", "-f", "debian/rules", "override_dh_auto_install"], tree)
        expect(status != 0 and "not the one that was packed" in said, "debian/rules takes another checker: %d: %s" % (status, said[-500:]))
    if has("packages", "the entry of debian/changelog", "dpkg-parsechangelog"):
        said = dict(line.partition(": ")[::2] for line in run(["dpkg-parsechangelog", "-l", whole / "debian/changelog"], folder)[1].splitlines())
        date = email.utils.format_datetime(email.utils.parsedate_to_datetime(said["Date"])) if said.get("Date") else ""
        expect((said.get("Version"), said.get("Maintainer"), date) == (VERSION + "-1", "A maintainer <maintainer@example.org>", "Mon, 30 Nov 2026 12:34:56 +0000"),
               "debian/changelog has %s" % said)
    if has("packages", "packages of Debian", "dh", "dpkg-buildpackage", "dpkg-deb"):
        check_debs(whole, folder)


def check_debs(whole, folder):
    """The packages are built, and have what the archive has."""
    tree = folder / "debs" / "sedck"
    shutil.copytree(whole, tree)
    # Whether what it needs is installed is known by now.
    status, said = run(["dpkg-buildpackage", "-b", "-us", "-uc", "-d"], tree)
    expect(status == 0, "dpkg-buildpackage ends with %d: %s" % (status, said[-3000:]))
    found = {path.name.partition("_")[0]: path for path in tree.parent.glob("*.deb")}
    expect(set(found) == {"sedck", "libsedck-dev"}, "the packages are %s" % sorted(found))
    opened = folder / "opened"
    for name, path in found.items():
        fields = run(["dpkg-deb", "-f", path, "Version", "Architecture", "Depends"], folder)[1]
        expect("Version: %s-1\n" % VERSION in fields and "Architecture: amd64\n" in fields and (name != "sedck" or "libc6 (>= " in fields), "%s has %s" % (name, fields))
        run(["dpkg-deb", "-x", path, opened], folder)
    place = "lib/" + run(["dpkg-architecture", "-qDEB_HOST_MULTIARCH"], folder)[1].strip()
    seen = {}
    for name, path in files_of(opened).items():
        # Debian compresses manual pages, and has files of its own beside ours.
        if name.startswith("usr/share/man/"):
            subprocess.run(["gzip", "-d", path], check=True)
            name, path = name.removesuffix(".gz"), path.with_suffix("")
        if not re.search(r"/doc/(sedck|libsedck-dev)/(copyright|changelog\.Debian\.gz)$", name):
            seen[name] = path
    check_installed("the packages of Debian", seen, whole, place)


# ---- RPM

def section(text, name):
    """The lines of a section of the spec."""
    return re.search(r"^%%%s\n((?:(?!%%(?:files|build|prep|install)).*\n)*)" % name, text, re.M)[1]


def check_rpm(whole, archive, folder):
    """The spec installs the same, each file in one package; with `rpmbuild` the packages are built."""
    text = (whole / "sedck.spec").read_text()
    expect("Version: %s\n" % VERSION in text and "Source0: %s\n" % archive.name in text and "%%setup -q -n %s\n" % whole.name in text, "the spec is for another archive: %s" % text[:400])
    for place in ("/usr/lib", "/usr/lib64"):
        tree, root = folder / "spec" / place.strip("/"), folder / "root" / place.strip("/")
        shutil.copytree(whole, tree)
        lines = section(text, "install").replace("%{buildroot}", str(root)).replace("%{_libdir}", place)
        expect("%" not in lines, "the spec has other macros: %s" % lines)
        status, said = run(["sh", "-eu", "-c", lines], tree)
        expect(status == 0, "the spec's lines end with %d: %s" % (status, said))
        check_installed("the spec with %s" % place, files_of(root), whole, place.removeprefix("/usr/"))
        listed = (tree / "files").read_text().split()
        devel = text.partition("%files devel\n")[2].replace("%{_libdir}", place).split()
        expect(sorted([*listed, *devel]) == sorted("/" + name for name in files_of(root)), "the packages' lists differ in %s" % sorted(set(listed + devel) ^ {"/" + name for name in files_of(root)}))
    if has("packages", "packages of RPM", "rpmbuild", "rpm"):
        status, said = run(["rpmbuild", "-tb", "--define", "_topdir %s" % (folder / "rpm"), archive], folder)
        expect(status == 0, "rpmbuild ends with %d: %s" % (status, said[-3000:]))
        listed = [line for path in (folder / "rpm").rglob("*.rpm") for line in run(["rpm", "-qlp", path], folder)[1].splitlines()]
        found = next((place for place in ("lib64", "lib") if "/usr/%s/libsedck.a" % place in listed), "none")
        expect(sorted(listed) == sorted("/" + name for name in due_files(whole, found)), "the packages of RPM have %s" % listed[:10])


# ---- The image

def instructions(whole):
    return [line.partition(" ")[::2] for line in (whole / "Containerfile").read_text().splitlines() if line and not line.startswith("#")]


def check_image(whole, folder):
    """What the image runs judges a tree by the steps of the action, with the log where one is named, and ends with the status of the verdict."""
    rows = instructions(whole)
    expect([word for word, _ in rows] == ["FROM", "RUN", "COPY", "RUN", "WORKDIR", "ENV", "ENTRYPOINT"], "the Containerfile has %s" % rows)
    prefix, tree = folder / "prefix", folder / "tree"
    status, said = run(["sh", whole / "install.sh"], folder, PREFIX=str(prefix))
    expect(status == 0 and "sh /tmp/sedck/install.sh" in rows[3][1], "installing ends with %d: %s" % (status, said))
    words = [word.replace("/usr/local", str(prefix)) for word in json.loads(rows[6][1])]
    given = {**dict(word.split("=") for word in shlex.split(rows[5][1])), "PATH": "%s/bin:%s" % (prefix, os.environ["PATH"])}
    tree.mkdir()
    (tree / "good.sed").write_text("s/a/b/\n")
    (tree / "run.sh").write_text("sed 's/a/b/' in\n")
    expect(run(words, tree, **given) == (0, ""), "a good tree gives %s" % (run(words, tree, **given),))
    (tree / "loop.sed").write_text(LOOP)
    status, said = run(words, tree, **given)
    expect(status == 1 and "loop.sed:1:1: error: " in said and not (tree / "log").exists(), "a tree with a loop gives %d: %s" % (status, said))
    status, said = run(words, tree, **{**given, "SARIF": "log", "PATHS": "good.sed\n", "DENY": "writes"})
    expect(status == 0 and json.loads((tree / "log").read_text())["runs"][0]["results"] == [], "with a log a good script gives %d: %s" % (status, said))
    status, said = run(words, tree, **{**given, "SARIF": "log", "PATHS": "loop.sed"})
    rules = [one["ruleId"] for one in json.loads((tree / "log").read_text())["runs"][0]["results"]]
    expect(status == 1 and rules == ["loop-idle"], "with a log a loop gives %d: %s: %s" % (status, rules, said))
    for change, due in (({"PATHS": ""}, 3), ({"PATHS": "\n\n"}, 3), ({"PATHS": "none"}, 4)):
        expect(run(words, tree, **{**given, **change})[0] == due, "with %s the status is %s" % (change, run(words, tree, **{**given, **change})))
    expect(run([*words, "other"], tree, **given)[0] == 3, "another word is taken")
    check_docker(whole, folder, rows[0][1])


def check_docker(whole, folder, base):
    """The image is built and answers, where a server and the image that it begins with are here: nothing is fetched."""
    if not has("packages", "an image of the Containerfile", "docker"):
        return
    if run(["docker", "image", "inspect", base], folder)[0]:
        skip("packages", "an image of the Containerfile", "no server of Docker is here that has %s" % base)
        return
    status, said = run(["docker", "build", "--quiet", "-f", "Containerfile", "-t", "sedck-test", "."], whole)
    expect(status == 0, "the image isn't built: %s" % said)
    status, said = run(["docker", "run", "--rm", "-v", "%s:/tree:ro" % (folder / "tree"), "sedck-test"], folder)
    expect(status == 1 and "loop.sed:1:1: error: " in said, "the image gives %d: %s" % (status, said))
    run(["docker", "image", "rm", "sedck-test"], folder)


def main():
    if not has("packages", "all of it", "git"):
        return WHOLE
    with tempfile.TemporaryDirectory(prefix="sedck-packages-") as name:
        folder = Path(name).resolve()
        whole, archive = packed(folder, *map(os.path.abspath, sys.argv[1:3]))
        check_debian(whole, folder)
        check_rpm(whole, archive, folder)
        if has("packages", "what the image runs", "bash"):
            check_image(whole, folder)
    if not wrong:
        print("packages: the archive is installed by debian/, by the spec and in an image, and each file is in one package")
    return 1 if wrong else 0


if __name__ == "__main__":
    sys.exit(main())
