#!/usr/bin/env python3
"""Proves crates and what they need, and builds the programs: python3 tools/prove.py [RT] [CRATE ..]

Without a crate, those of both programs: `build/sedck` and `build/sedck-explain` are put in place, each as soon as it is proved. A library
is proved by `rt lib`, a program by `rt run`; both prove only what has changed.

`rt` keeps the folders of a crate and of all that it needs for itself while it works, so two crates that need the same one would wait for
each other. So each is proved in a tree of its own below `build`, which shares the files of this one, and what was made comes back from
there. Crates come in the order of dependence, a program before others that are ready, then those with the longest chain of others behind them. A crate on the chain that all
wait for gets three processes (what one proves, the others needn't), the others one each, as many as there are processors and 4 GB of
memory for each. What `rt` prints is shown where it fails; then no other crate is begun, and the status is 1.
"""
import contextlib
import fcntl
import os
import re
import shlex
import shutil
import signal
import subprocess
import sys
import tempfile
import threading
import time
from collections.abc import Iterator
from concurrent.futures import FIRST_COMPLETED, ThreadPoolExecutor, wait
from pathlib import Path

TOP = Path(__file__).resolve().parent.parent
# The programs, each with its name in `build`, and arguments for a run that ends with status 0.
PROGRAMS = {"sedck": ("sedck", ["check", "../../examples/next-line-loop.sed", "../../examples/next-line-loop.cert"]),
            "sedck_explain": ("sedck-explain", ["--version"])}
PARTS = ("src", "specs", "proofs")
MOST_PROCESSES = 4
CHAIN_PROCESSES = 3
MEMORY_EACH = 4_000_000_000
# Set where this is stopped, and what then has to end.
stopped, children = threading.Event(), set()


def libraries() -> dict[str, list[str]]:
    """The crates of crates.txt, each with those of its libraries that are crates of this repository."""
    rows = dict(re.findall(r"^(\w+)[^:#\n]*:(.*)$", (TOP / "crates.txt").read_text(), re.M))
    return {name: [word for word in words.split() if word in rows] for name, words in rows.items()}


def ordered(needs: dict[str, list[str]], names: list[str], done: tuple = ()) -> list[str]:
    """These crates and all that they need, each behind what it needs."""
    order = list(done)
    for name in names:
        if name not in order:
            order = ordered(needs, needs[name], order) + [name]
    return order


def work_of(name: str) -> int:
    """How much there is to prove in a crate: the bytes of its code and proofs."""
    return sum(path.stat().st_size for part in PARTS for path in (TOP / "crates" / name / part).rglob("*") if path.is_file())


def chains(needs, order):
    """For each crate its work with that of the longest chain of crates that wait for it."""
    longest = {name: 0 for name in order}
    for name in reversed(order):
        longest[name] += work_of(name)
        for below in needs[name]:
            longest[below] = max(longest[below], longest[name])
    return longest


def lanes() -> int:
    """How many processes may work at a time."""
    memory = os.sysconf("SC_PHYS_PAGES") * os.sysconf("SC_PAGE_SIZE")
    return max(1, min(len(os.sched_getaffinity(0)), memory // MEMORY_EACH))


def share(folder, into):
    """A folder whose files are shared with another one."""
    if folder.is_dir():
        shutil.copytree(folder, into, copy_function=os.link, symlinks=True)


@contextlib.contextmanager
def held(folder):
    """Keeps every `rt` out of a crate's folder, by the lock that `rt` itself takes."""
    lock = os.open(folder, os.O_RDONLY)
    try:
        while True:
            try:
                fcntl.flock(lock, fcntl.LOCK_EX | fcntl.LOCK_NB)
                break
            except BlockingIOError:
                if stopped.wait(0.5):
                    sys.exit(1)
        yield
    finally:
        os.close(lock)


def fill(room: Path, name: str, below: list[str], built: Path | None = TOP) -> None:
    """Fills the tree in which a crate is proved, with it and the crates below it alone; the libraries are those of the tree `built`, if any."""
    room.mkdir()
    shutil.copy(TOP / "HANDLES", room)
    rows = (TOP / "crates.txt").read_text().splitlines(True)
    (room / "crates.txt").write_text("".join(row for row in rows if re.split(r"\W", row)[0] in below + [name]))
    for other in below + [name]:
        for part in PARTS:
            share(TOP / "crates" / other / part, room / "crates" / other / part)
    for other in below if built else []:
        share(built / "crates" / other / "out" / "rlib", room / "crates" / other / "out" / "rlib")
    share(TOP / "examples", room / "examples")


def called(words: list[str], folder: Path) -> tuple[int, str]:
    """The exit status of a command in this folder, and what it printed. It is ended where this is stopped."""
    with subprocess.Popen(words, cwd=folder, stdin=subprocess.DEVNULL, stdout=subprocess.PIPE, stderr=subprocess.STDOUT, encoding="utf-8",
                          errors="replace") as child:
        children.add(child)
        printed = child.communicate()[0]
        children.discard(child)
    return child.returncode, printed


def ran(rt, name, processes, folder):
    """Has `rt` prove the crate in this folder; what it printed where it fails, else nothing."""
    words = ["run", "--jobs", str(processes), "--"] + PROGRAMS[name][1] if name in PROGRAMS else ["lib", "--jobs", str(processes)]
    try:
        status, printed = called(shlex.split(rt) + words, folder)
    except OSError as error:
        return "prove: %s can't be started: %s" % (rt, error.strerror)
    return status and "%s`rt %s` of %s ended with status %d" % (printed, words[0], name, status)


def proved(rt, name, below, processes, room):
    """Proves one crate in a tree of its own; what is said where it fails, else nothing."""
    there, here = TOP / "crates" / name, room / "crates" / name
    with held(there):
        fill(room, name, below)
        if (there / "out").is_dir():
            (there / "out").rename(here / "out")
        try:
            return ran(rt, name, processes, here)
        finally:
            if (here / "out").is_dir():
                (here / "out").rename(there / "out")
            shutil.rmtree(room, ignore_errors=True)


def put_in_place(name):
    """Copies a proved program into `build`, at once."""
    made, to = TOP / "crates" / name / "out" / name, TOP / "build" / PROGRAMS[name][0]
    shutil.copy2(made, to.with_name(to.name + ".new"))
    to.with_name(to.name + ".new").rename(to)
    return "build/%s is proved and in place" % to.name


class Proving:
    """Which crates wait, which are worked on, and which are proved."""

    def __init__(self, rt, names, folder):
        self.rt, self.folder, self.needs = rt, folder, libraries()
        self.order = ordered(self.needs, names)
        self.chains = chains(self.needs, self.order)
        self.waiting = sorted(self.order, key=lambda name: -self.chains[name])
        self.running, self.done, self.lanes, self.begun = {}, set(), lanes(), time.monotonic()

    def minutes(self):
        return (time.monotonic() - self.begun) / 60

    def processes(self, name, idle, others):
        """How many processes a crate gets: more than one where all wait for it, or nothing else is ready."""
        left = sum(work_of(other) for other in self.order if other not in self.done)
        if not others:
            return min(idle, MOST_PROCESSES)
        return min(idle, CHAIN_PROCESSES) if self.chains[name] * self.lanes > left and self.waiting[0] == name else 1

    def begin(self, pool):
        """Begins each crate that is ready and for which there is room: a program at once, since somebody waits for it."""
        ready = [name for name in self.waiting if self.done.issuperset(self.needs[name])]
        ready.sort(key=lambda name: name not in PROGRAMS)
        for at, name in enumerate(ready):
            idle = self.lanes - sum(processes for _, processes in self.running.values())
            if idle < 1:
                break
            processes = self.processes(name, idle, ready[at + 1:])
            self.waiting.remove(name)
            print("Proving crate %d of %d: %s (%d minutes so far) ..." % (
                len(self.order) - len(self.waiting), len(self.order), name, self.minutes()), flush=True)
            below = [other for other in ordered(self.needs, [name]) if other != name]
            self.running[pool.submit(proved, self.rt, name, below, processes, self.folder / name)] = name, processes

    def run(self):
        """Proves all; whether nothing failed."""
        failed = False
        with ThreadPoolExecutor() as pool:
            while self.running or self.waiting and not failed:
                if not failed:
                    self.begin(pool)
                for future in wait(self.running, return_when=FIRST_COMPLETED).done:
                    name, _ = self.running.pop(future)
                    fault = future.result()
                    self.done.add(name)
                    if not fault and name in PROGRAMS:
                        print("%s (%d minutes)." % (put_in_place(name), self.minutes()), flush=True)
                    if fault:
                        failed = True
                        print(fault, flush=True)
        return not failed


def stop(number, _):
    stopped.set()
    for child in list(children):
        child.terminate()
    sys.exit(128 + number)


@contextlib.contextmanager
def trees(prefix: str) -> Iterator[Path]:
    """A folder in `build` for the trees in which crates are proved. It is removed also where this is stopped, since the gate refuses code
    outside of the crates; what a run left that was killed is removed before the next one."""
    for number in (signal.SIGTERM, signal.SIGHUP):
        signal.signal(number, stop)
    (TOP / "build").mkdir(exist_ok=True)
    with open(TOP / "build" / "proving", "w") as lock:
        fcntl.flock(lock, fcntl.LOCK_EX)
        for left in [*(TOP / "build").glob("prove-*"), *(TOP / "build").glob("planted-*")]:
            shutil.rmtree(left, ignore_errors=True)
        with tempfile.TemporaryDirectory(prefix=prefix, dir=TOP / "build") as folder:
            yield Path(folder)


def main():
    rt, names = (sys.argv[1] if len(sys.argv) > 1 else "rt"), sys.argv[2:] or list(PROGRAMS)
    unfit = [name for name in names if name not in libraries() or name not in PROGRAMS and (TOP / "crates" / name / "src" / "main.rt").exists()]
    if unfit:
        print("prove: no library and no program for users: %s" % ", ".join(unfit))
        return 1
    with trees("prove-") as folder:
        return 0 if Proving(rt, names, folder).run() else 1


if __name__ == "__main__":
    sys.exit(main())
