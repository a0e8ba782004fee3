#!/usr/bin/env python3
"""Runs the gate, `rt ci`, and says what it cost: python3 tools/gate.py [RT | --bench]

With --bench nothing is run: what the last run cost is put into docs/BENCH.md, in place of what is there.

What it said last is kept in build/gate-said, with the commit if no file was changed, before and after: tools/dist.py packs it.

What it cost is printed, and kept in build/gate-cost: a table of processor seconds by crate, and its sum also in units, the processor
seconds of `rt selftest` right before, so that the speed of the machine goes out of the figure. Nothing here changes what that takes.

The status is that of `rt ci`, but 1 where a wrong body shows nothing: where an edit can't be applied or compiled, or was refused only
since a proof names what it took away. Edits are also looked at before anything is proved (tools/edits.py).

As many crates are worked on at a time as there are processors, as far as there is memory. `rt` gives a crate the processors that no other
waits for, so that the longest chain of crates takes less by the clock. Where several processes share the proof of one crate, each of them
loads what the crate stands on, which costs up to a third more processor time. `RT_JOBS` sets how many crates are worked on at a time, each
with one process; an older `rt` that takes no names of crates is given a number by this.
"""
import os
import re
import resource
import shlex
import subprocess
import sys
import threading
import time
from pathlib import Path

import edits
import planted
import provenance

TOP = Path(__file__).resolve().parent.parent
# What `rt` says of a wrong body that shows nothing, though it may count it as refused.
SHOWS_NOTHING = re.compile(r"BAD EDIT|NOT REFUSED|names what the edit took away")
TICKS = os.sysconf("SC_CLK_TCK")
HEAD = """| crate | proof | once more | wrong bodies |
|---|---|---|---|
"""


def jobs():
    memory = os.sysconf("SC_PHYS_PAGES") * os.sysconf("SC_PAGE_SIZE")
    return max(1, min(len(os.sched_getaffinity(0)), memory // 5_000_000_000, 4))


class Seen:
    """What was seen of one process: its words, the folder in which it works, and the processor seconds that it took."""

    def __init__(self, number, parent, started, words, folder, seconds):
        self.number, self.parent, self.started = number, parent, started
        self.words, self.folder, self.seconds = words, folder, seconds


class Watch(threading.Thread):
    """Looks five times a second at the processes below one, and keeps what each has taken."""

    def __init__(self, top):
        super().__init__(daemon=True)
        self.top, self.seen, self.ended = top, {}, threading.Event()

    def run(self):
        while not self.ended.wait(0.2):
            self.look()

    def look(self):
        for entry in os.listdir("/proc"):
            if not entry.isdigit():
                continue
            try:
                after_name = Path("/proc", entry, "stat").read_text().rpartition(") ")[2].split()
                parent, started, seconds = int(after_name[1]), int(after_name[19]), (int(after_name[11]) + int(after_name[12])) / TICKS
                known = self.seen.get((int(entry), started))
                words = Path("/proc", entry, "cmdline").read_bytes().decode(errors="replace").split("\0")
                folder = os.readlink("/proc/%s/cwd" % entry)
            except (OSError, ValueError, IndexError):
                continue
            if known is None:
                self.seen[int(entry), started] = Seen(int(entry), parent, started, words, folder, seconds)
            elif seconds >= known.seconds:
                # A process that ends has no words any more, while its memory is given back.
                known.words, known.folder, known.seconds = words if any(words) else known.words, folder, seconds

    def below(self):
        """The processes below the top one, in the order in which they were started."""
        found = {self.top}
        for seen in sorted(self.seen.values(), key=lambda seen: seen.started):
            if seen.parent in found:
                found.add(seen.number)
                yield seen


class Costs:
    """Processor seconds by crate: of its proof with tests and builds, of the proof once more, and of each wrong body."""

    def __init__(self, processes, top=TOP):
        self.proofs, self.firsts, self.others, self.rest = {}, {}, {}, 0.0
        # Each check of an edit has a folder of its own: its first process, and the seconds of all.
        checks = {}
        for seen in processes:
            inside = Path(seen.folder).parts[len(Path(top).parts):] if seen.folder.startswith(str(top) + "/crates/") else ()
            if "rt-edit-" in seen.folder:
                checks.setdefault(seen.folder.split()[0], [seen, 0.0])[1] += seen.seconds
            elif len(inside) > 1:
                self.proofs[inside[1]] = self.proofs.get(inside[1], 0.0) + seen.seconds
            else:
                self.rest += seen.seconds
        for first, seconds in checks.values():
            self.add_edit(first, seconds)

    def add_edit(self, first, seconds):
        """Adds one check of an edit. The first one of a crate with several proves the crate once more."""
        name = first.words[first.words.index("--crate-name") + 1] if "--crate-name" in first.words[:-1] else None
        if name is None:
            self.rest += seconds
        elif "--incremental" in first.words and name not in self.firsts:
            self.firsts[name] = seconds
        else:
            self.others.setdefault(name, []).append(seconds)

    def row(self, name, bodies):
        """A crate's seconds: the proof, the proof once more with which its wrong bodies begin, and these."""
        others = self.others.get(name, [])
        each = sum(others) / len(others) if others else 0.0
        once_more = max(0.0, self.firsts[name] - each) if name in self.firsts else 0.0
        return self.proofs.get(name, 0.0), once_more, (self.firsts.get(name, 0.0) - once_more + sum(others)) if bodies else 0.0


def table(costs: Costs, names: list[str], bodies: dict[str, int], unit: float) -> str:
    """The table of BENCH: a row for each crate, first those with wrong bodies, and what all took in seconds and in units."""
    rows = {name: costs.row(name, bodies[name]) for name in names}
    whole = sum(sum(row) for row in rows.values())
    text = HEAD + "".join("| `%s` | %.0f | %s | %d, %.0f |\n" % (name, proof, "%.0f" % once_more if once_more else "", bodies[name], tried)
                          for name, (proof, once_more, tried) in rows.items() if bodies[name])
    text += "".join("| `%s` | %.0f | | |\n" % (name, row[0]) for name, row in rows.items() if not bodies[name])
    columns = [sum(row[at] for row in rows.values()) for at in range(3)]
    text += "\n%.0f s for proofs, %.0f s once more, %.0f s for %d wrong bodies: %.0f s" % (*columns, sum(bodies.values()), whole)
    return text + (", or %.1f units of %.1f s. %.0f s more were seen for what starts them.\n" % (whole / unit, unit, costs.rest) if unit else ".\n")


def used_below() -> float:
    """The processor seconds of the processes that were started here and have ended."""
    used = resource.getrusage(resource.RUSAGE_CHILDREN)
    return used.ru_utime + used.ru_stime


def unit_of(rt: str) -> float:
    """The processor seconds of `rt selftest`, which proves, builds and runs an example of the toolchain; 0 where it fails."""
    before = used_below()
    done = subprocess.run(shlex.split(rt) + ["selftest"], cwd=TOP, stdout=subprocess.DEVNULL, stderr=subprocess.DEVNULL, check=False)
    return 0.0 if done.returncode else used_below() - before


def run(rt):
    """Runs `rt ci` and prints what it prints: its status, the lines on wrong bodies that show nothing, its costs if they were seen, and its last line."""
    with subprocess.Popen(shlex.split(rt) + ["ci"], cwd=TOP, stdout=subprocess.PIPE, encoding="utf-8", errors="replace") as gate:
        watch = Watch(gate.pid)
        if os.path.isdir("/proc/%d" % gate.pid):
            watch.start()
        lines, last = [], ""
        for line in gate.stdout:
            print(line, end="", flush=True)
            last = line.strip() or last
            if SHOWS_NOTHING.search(line):
                lines.append(line.rstrip("\n"))
        status = gate.wait()
    watch.ended.set()
    return status, lines, Costs(watch.below()), last


def put_into_bench():
    """Puts what the last run cost into docs/BENCH.md."""
    page, cost = TOP / "docs" / "BENCH.md", (TOP / "build" / "gate-cost").read_text()
    text, found = re.subn(re.escape(HEAD) + r"(?:.*\n)*?The gate took .*\n", lambda _: cost, page.read_text())
    page.write_text(text)
    return 0 if found == 1 else 1


def main():
    if sys.argv[1:] == ["--bench"]:
        return put_into_bench()
    rt = sys.argv[1] if len(sys.argv) > 1 else "rt"
    faults = list(edits.faults())
    for fault in faults:
        print("gate: " + fault)
    if faults:
        return 1
    provenance.SAID.unlink(missing_ok=True)
    try:
        if not planted.takes_names(rt):
            os.environ.setdefault("RT_JOBS", str(jobs()))
        unit = unit_of(rt)
        begun, before = time.monotonic(), resource.getrusage(resource.RUSAGE_CHILDREN)
        commit = provenance.known_commit()
        status, lines, costs, last = run(rt)
    except OSError as error:
        print("gate: %s can't be started: %s" % (rt, error.strerror))
        return 1
    for line in lines:
        print("gate: a wrong body shows nothing: " + line)
    used = resource.getrusage(resource.RUSAGE_CHILDREN)
    names = re.findall(r"^(\w+)[^:#\n]*:", (TOP / "crates.txt").read_text(), re.M)
    bodies = {name: len(list((TOP / "crates" / name / "must-fail").glob("*.edit"))) for name in names}
    cost = "%s\nThe gate took %.1f processor minutes, %.1f of them in the system, and %.1f minutes by the clock, on %s processors.\n" % (
        table(costs, names, bodies, unit), (used.ru_utime + used.ru_stime - before.ru_utime - before.ru_stime) / 60,
        (used.ru_stime - before.ru_stime) / 60, (time.monotonic() - begun) / 60, os.environ.get("RT_JOBS", len(os.sched_getaffinity(0))))
    print(cost, end="")
    (TOP / "build").mkdir(exist_ok=True)
    (TOP / "build" / "gate-cost").write_text(cost)
    ended = (status if 0 <= status < 256 else 1) or (1 if lines else 0)
    provenance.keep_said(shlex.split(rt), commit, ended, last)
    return ended


if __name__ == "__main__":
    sys.exit(main())
