#!/usr/bin/env python3
"""Makes build/libsedck.a: python3 tools/library.py [RT] [--of-gate]

What isn't proved yet is proved first, as by tools/prove.py. With `--of-gate` the crates below are those that `rt ci` has just proved and left
here: `rt` takes none of these for its other commands without its own mark, so the library is built in a tree of its own, where each gets the
mark that `rt` would give it. The functions for memory (library/heap.c) are compiled by CC, and added. The status is 0 only where the library
is in place.
"""
import functools
import importlib.util
import os
import shlex
import shutil
import subprocess
import sys
from pathlib import Path

import prove

TOP = Path(__file__).resolve().parent.parent
CRATE = "sedck_c"
MADE = TOP / "crates" / CRATE / "out" / ("lib%s.a" % CRATE)
LIBRARY = TOP / "build" / "libsedck.a"


def below():
    return [name for name in prove.ordered(prove.libraries(), [CRATE]) if name != CRATE]


def of_toolchain(rt):
    """The part of the toolchain that knows when a library is built."""
    page = subprocess.run(shlex.split(rt) + ["doc"], stdout=subprocess.PIPE, encoding="utf-8", check=True).stdout.strip()
    spec = importlib.util.spec_from_file_location("rtlib", Path(page).parent / "bin" / "rtlib.py")
    module = importlib.util.module_from_spec(spec)
    sys.modules["rtlib"] = module
    spec.loader.exec_module(module)
    return module


def mark(rt: str, tree: Path, names: list[str]) -> None:
    """Gives the libraries that `rt ci` has built in a tree the marks without which the other commands of `rt` take none of them."""
    rtlib = of_toolchain(rt)
    # A crate's mark is made of those below it: each is asked for many times.
    rtlib.Crate.stamp = functools.cache(rtlib.Crate.stamp)
    built = {}
    for name in names:
        here = tree / "crates" / name
        # The file may be shared with another tree.
        (here / "out" / "rlib" / "stamp").unlink(missing_ok=True)
        (here / "out" / "rlib" / "stamp").write_text(rtlib.Crate(str(here), str(tree), built).stamp())


def built_of_gate(rt):
    """Builds the library over the crates that the gate left; what is said where that fails, else nothing."""
    lacking = [name for name in below() if not (TOP / "crates" / name / "out" / "rlib").is_dir()]
    if lacking:
        return "library: the gate left no %s: run it first" % ", ".join(lacking)
    with prove.trees("prove-") as folder:
        room = folder / CRATE
        prove.fill(room, CRATE, below())
        mark(rt, room, below())
        status, printed = prove.called(shlex.split(rt) + ["lib"], room / "crates" / CRATE)
        if status:
            return "%slibrary: `rt lib` of %s ended with status %d" % (printed, CRATE, status)
        MADE.parent.mkdir(exist_ok=True)
        shutil.copy2(room / "crates" / CRATE / "out" / MADE.name, MADE)
    return ""


def put_in_place():
    """Adds the functions for memory, and puts the library into build at once."""
    compiler = shlex.split(os.environ.get("CC") or "cc")
    new, heap = LIBRARY.with_name("libsedck.a.new"), LIBRARY.with_name("heap.o")
    LIBRARY.parent.mkdir(exist_ok=True)
    subprocess.run([*compiler, "-O2", "-Wall", "-Wextra", "-fPIC", "-c", str(TOP / "library" / "heap.c"), "-o", str(heap)], check=True)
    shutil.copyfile(MADE, new)
    # D: no times or owners, so that the same parts give the same library.
    subprocess.run(["ar", "rsD", str(new), str(heap)], check=True)
    heap.unlink()
    new.replace(LIBRARY)


def main():
    words = [word for word in sys.argv[1:] if word != "--of-gate"]
    rt = (words or ["rt"])[0]
    try:
        if "--of-gate" in sys.argv[1:]:
            fault = built_of_gate(rt)
            if fault:
                print(fault)
                return 1
        else:
            with prove.trees("prove-") as folder:
                if not prove.Proving(rt, [CRATE], folder).run():
                    return 1
        put_in_place()
    except (OSError, subprocess.CalledProcessError) as error:
        print("library: %s" % error)
        return 1
    return 0


if __name__ == "__main__":
    sys.exit(main())
