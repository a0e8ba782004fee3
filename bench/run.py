#!/usr/bin/env python3
"""Measures `sedck` on large inputs: wall time, the best and the median of several runs, peak memory, and how the time grows.

    python3 bench/run.py build/sedck [RUNS]

Each input is made here, in a folder of its own. A run is timed from its start to its end; its output goes to
/dev/null, and its status is compared. Peak resident memory is measured with GNU time, where that is installed.
"""

import math
import os
import random
import statistics
import subprocess
import sys
import tempfile
import time

COMMANDS = 4095
SCRIPT_LIMIT = 1048576
NAMES_LIMIT = 1048576


def certificate(commands, ranks, reads=(), writes=(), version=2):
    """A certificate's text; ranks is a function from a place and flag to the ranks of both its nodes, or None."""
    out = [b"sedck %d\n" % version, b"commands %d\n" % commands]
    for at in range(commands + 1):
        for flag in (0, 1):
            pair = ranks(at, flag)
            for last in (b"",) if version == 1 else (b" 0", b" 1"):
                out.append(b"%d %d%s -\n" % (at, flag, last) if pair is None else b"%d %d%s %d %d\n" % (at, flag, last, *pair))
    for word, names in ((b"read", reads), (b"write", writes)):
        out.append(b"%s %d\n" % (word, len(names)))
        out.extend(name + b"\n" for name in names)
    out.append(b"end\n")
    return b"".join(out)


def names(count, size):
    """`count` increasing names, of `size` bytes with their newlines in all."""
    each, rest = divmod(size, count)
    return [b"%05d" % i + b"n" * (each - 6 + (i < rest)) for i in range(count)]


def inputs():
    falling = certificate(COMMANDS, lambda at, flag: (0, COMMANDS - at) if flag == 0 else None)
    yield "4,095 commands, all ranked", b"p\n" * COMMANDS, falling, 0
    long_label = b"l" * 250
    branches = b":" + long_label + b"\nn\n" + (b"b " + long_label + b"\n") * (COMMANDS - 2)
    ranks = certificate(COMMANDS, lambda at, flag: None if flag else ((0, 1) if at == 0 else (0, 0) if at == 1 else (0, 2)))
    yield "4,095 commands, a megabyte of branches", branches, ranks, 0
    yield "a megabyte of newlines", b"\n" * SCRIPT_LIMIT, certificate(0, lambda at, flag: (1, 1) if flag == 0 else None), 0
    full = certificate(COMMANDS, lambda at, flag: (65535, 65535), names(COMMANDS, NAMES_LIMIT))
    yield "the longest certificate", b"p\n" * COMMANDS, full, 1
    many = certificate(COMMANDS, lambda at, flag: (65535, 65535), names(COMMANDS, 6 * COMMANDS), names(COMMANDS, NAMES_LIMIT - 6 * COMMANDS))
    yield "two lists of 4,095 names", b"p\n" * COMMANDS, many, 1
    old = certificate(COMMANDS, lambda at, flag: (65535, 65535), names(COMMANDS, 6 * COMMANDS), names(COMMANDS, NAMES_LIMIT - 6 * COMMANDS), 1)
    yield "the same of version 1", b"p\n" * COMMANDS, old, 1
    both = certificate(COMMANDS, lambda at, flag: (0, COMMANDS - at))
    yield "4,095 of `/abc/p`", b"/abc/p\n" * COMMANDS, both, 0
    yield "4,095 of `s/abc/ab/`", b"s/abc/ab/\n" * COMMANDS, both, 0
    yield "4,095 of `s//ab/`, one with an expression", b"s/abc/ab/\n" + b"s//ab/\n" * (COMMANDS - 1), both, 0
    groups = b"s/" + b"".join(b"\\(%c\\)" % c for c in b"abcdefghi") + b"x/" + b"".join(b"\\%d" % k for k in range(1, 10)) + b"/\n"
    yield "4,095 of `s` with nine groups", groups * COMMANDS, both, 0
    yield "4,095 of `/x/D`", b"/x/D\n" * COMMANDS, both, 0
    one = certificate(1, lambda at, flag: (0, 1 - at))
    yield "a megabyte of one text", b"a\\\n" + b"t" * (SCRIPT_LIMIT - 4) + b"\n", one, 0
    yield "a megabyte of one expression", b"/" + b"e" * (SCRIPT_LIMIT - 3) + b"/p", one, 0
    few = names(COMMANDS, SCRIPT_LIMIT - 2 * COMMANDS)
    written = certificate(COMMANDS, lambda at, flag: (0, COMMANDS - at), (), few)
    yield "4,095 names written, in decreasing order", b"".join(b"w " + name + b"\n" for name in reversed(few)), written, 0


def forward_branches(draw):
    """Labels, each but the last followed by a branch, a test or a substitution; their targets are drawn among the labels after it."""
    out = []
    for i in range(2047):
        out.append(b":l%d\n" % i)
        target = draw.randrange(i + 1, 2048)
        out.append(draw.choice([b"/x/b l%d\n" % target, b"t l%d\n" % target, b"s/a/b/\n"]))
    return b"".join(out) + b":l2047\n"


def substitutions_with_branches(draw):
    """Labels, each followed by a substitution and by a branch that may be skipped, its target drawn among the labels after it."""
    out = [b":l%d\ns/a/b/\n/x/b l%d\n" % (i, draw.randrange(i + 1, 1365)) for i in range(1364)]
    return b"".join(out) + b":l1364\n"


def round_trip(order):
    """Labels in the order of their numbers, each followed by a substitution and by a branch to the next label of another order."""
    after = dict(zip(order, order[1:] + order[:1]))
    return b"".join(b":l%d\ns/a/b/\nb l%d\n" % (i, after[i]) for i in range(len(order)))


def scripts():
    """Scripts for `rank`, with the status that it answers."""
    yield "4,095 of `p`", b"p\n" * COMMANDS, 0
    yield "4,095 of `n`", b"n\n" * COMMANDS, 0
    yield "4,095 of `/abc/p`", b"/abc/p\n" * COMMANDS, 0
    yield "4,095 of `s/abc/ab/`", b"s/abc/ab/\n" * COMMANDS, 0
    groups = b"s/" + b"".join(b"\\(%c\\)" % c for c in b"abcdefghi") + b"x/" + b"".join(b"\\%d" % k for k in range(1, 10)) + b"/\n"
    yield "4,095 of `s` with nine groups", groups * COMMANDS, 0
    nine = b"".join(b"\\(%c*\\)" % c for c in b"abcdefghi")
    named = b"".join(b"\\%d" % k for k in range(1, 10))
    filled = b"e" * (SCRIPT_LIMIT - len(nine) - len(named) - 10)
    yield "a megabyte of one expression, refused for its references", b"/" + nine + filled + named + b"$/p", 2
    yield "a megabyte of one `s`, which keeps nine groups at its end", b"s/" + filled + nine + b"/" + named + b"/", 0
    yield "4,095 of `/x/D`", b"/x/D\n" * COMMANDS, 0
    yield "4,095 of `G`", b"G\n" * COMMANDS, 0
    yield "4,095 of `$!N`", b"$!N\n" * COMMANDS, 0
    loops = b"".join(b":a%d\ns/x//\nta%d\n" % (i, i) for i in range(COMMANDS // 3))
    yield "1,365 loops with ranks, one after another", loops, 0
    inner = b"".join(b":b%d\ns/x//\ntb%d\n" % (i, i) for i in range(1363))
    yield "1,363 loops with ranks inside one that reads", b":a\n" + inner + b"n\nba\n", 0
    idle = b"".join(b":a%d\ns/a/b/\nta%d\n" % (i, i) for i in range(COMMANDS // 3))
    yield "1,365 idle loops", idle, 1
    yield "one idle loop of 4,095 commands", b":a\n" + b"p\n" * (COMMANDS - 2) + b"ba\n", 1
    yield "1,363 loops inside an idle one", b":a\n" + inner + b"ba\n", 1
    yield "818 blocks that end in `b`", b"/x/{\ns/a/b/\np\nb\n}\n" * 818, 0
    back = b":y0\nq\n" + b"".join(b":y%d\nb y%d\n" % (i, i - 1) for i in range(1, 2040))
    yield "2,039 branches backward", b"b z\n" + back + b":z\nb y2039\n", 0
    tails = b"".join(b"/x/b l%d\n" % i for i in range(1000)) + b"b z\n" + b"".join(b":l%d\nb z\n" % i for i in range(1000))
    yield "1,000 branches to branches, and 1,000 of `s/a/b/`", tails + b":z\n" + b"s/a/b/\n" * 1000, 0
    parts = b"".join(b":l%d\ns/q/r/\np\nb z\n" % i for i in range(300))
    joined = b"".join(b"/x/b l%d\n" % i for i in range(300)) + b"b z\n" + parts + b":z\n" + b"s/a/b/\n" * 2500
    yield "300 branches to parts that join 2,500 of `s/a/b/`", joined, 0
    yield "random forward branches over 2,047 labels", forward_branches(random.Random(2024)), 0
    yield "1,364 labels with `s` and a random `/x/b` forward", substitutions_with_branches(random.Random(1)), 0
    drawn = list(range(1365))
    random.Random(3).shuffle(drawn)
    yield "an idle loop through 1,365 labels in random order", round_trip(drawn), 1
    to_and_fro = [label for pair in zip(range(682), range(1363, 681, -1)) for label in pair]
    yield "an idle loop that jumps to and fro 1,364 times", round_trip(to_and_fro), 1


def back_to_the_last(labels):
    """Labels, each followed by a branch to the label before it; a run begins at the last one and ends at the first."""
    back = b":l0\nq\n" + b"".join(b":l%d\nb l%d\n" % (at, at - 1) for at in range(1, labels))
    return b"b l%d\n" % (labels - 1) + back


def in_random_order(labels):
    drawn = list(range(labels))
    random.Random(3).shuffle(drawn)
    return round_trip(drawn)


def forward_in_random_order(labels):
    """Labels, each followed by a branch that may be skipped, its target drawn among the labels after it."""
    draw = random.Random(3)
    return b"".join(b":l%d\n/x/b l%d\n" % (at, draw.randrange(at + 1, labels + 1)) for at in range(labels)) + b":l%d\n" % labels


def written(size):
    """Names in increasing order, each of 250 bytes."""
    return b"".join(b"w %05d%s\n" % (at, b"n" * 242) for at in range(size // 250))


def written_in_random_order(size):
    """The same names, as they come."""
    drawn = list(range(size // 250))
    random.Random(3).shuffle(drawn)
    return b"".join(b"w %05d%s\n" % (at, b"n" * 242) for at in drawn)


# What grows: a name, the subcommand with its status, a function from a size to a script, and three sizes, each twice the one before.
GROWTH = [
    ("`p`, by commands", "rank", 0, lambda size: b"p\n" * size, 1000),
    ("`s/abc/ab/`, by commands", "rank", 0, lambda size: b"s/abc/ab/\n" * size, 1000),
    ("`/x/D`, by commands", "rank", 0, lambda size: b"/x/D\n" * size, 1000),
    ("blocks, by commands", "rank", 0, lambda size: b"/x/{\np\n}\n" * (size // 2), 1000),
    ("`y`, by commands", "rank", 0, lambda size: b"y/abc/bca/\n" * size, 1000),
    ("an idle loop of `p`, by commands", "rank", 1, lambda size: b":a\n" + b"p\n" * (size - 2) + b"ba\n", 1000),
    ("branches forward to labels in random order, by labels", "rank", 0, forward_in_random_order, 500),
    ("branches back to the label before, by labels", "rank", 0, back_to_the_last, 500),
    ("an idle loop through labels in random order, by labels", "rank", 1, in_random_order, 340),
    ("names written, in increasing order, by bytes", "files", 0, written, 250000),
    ("names written, in random order, by bytes", "files", 0, written_in_random_order, 250000),
    ("one expression, by bytes", "files", 0, lambda size: b"/" + b"e" * size + b"/p", 250000),
    ("lists in one expression, by bytes", "files", 0, lambda size: b"/" + b"[a-z]" * (size // 5) + b"/p", 250000),
    ("intervals in one expression, by bytes", "files", 0, lambda size: b"/" + b"a\\{1,2\\}" * (size // 8) + b"/p", 250000),
    ("`&` in one replacement, by bytes", "files", 0, lambda size: b"s/a/" + b"&" * size + b"/", 250000),
    ("comments, by bytes", "files", 0, lambda size: b"# c\n" * (size // 4) + b"p\n", 250000),
    ("one text, by bytes", "files", 0, lambda size: b"a\\\n" + b"t" * size + b"\n", 250000),
]


def growth(program, runs):
    """For each shape the best times of three sizes, without that of an empty script, and the exponent between the last two."""
    print("\n| what grows | sizes | best ms, without an empty script's | exponent |")
    print("|---|---|---|---|")
    for name, subcommand, status, make, first in GROWTH:
        sizes, times = [first, 2 * first, 4 * first], []
        for script, due in [(b"", 0)] + [(make(size), status) for size in sizes]:
            with tempfile.TemporaryDirectory(prefix="bench") as folder:
                with open(os.path.join(folder, "script"), "wb") as handle:
                    handle.write(script)
                times.append(min(measure(program, folder, [subcommand, "script"], due) for _ in range(runs)))
        own = [max(time - times[0], 0.01) for time in times[1:]]
        print("| %s | %s | %s | %.2f |" % (name, ", ".join(format(size, ",") for size in sizes), ", ".join("%.1f" % time for time in own),
                                           math.log2(own[2] / own[1])))


def measure(program, folder, words, status):
    begin = time.perf_counter()
    done = subprocess.run([program, *words], cwd=folder, stdout=subprocess.DEVNULL, stderr=subprocess.DEVNULL)
    seconds = time.perf_counter() - begin
    if done.returncode != status:
        raise SystemExit("status %d instead of %d" % (done.returncode, status))
    return seconds * 1000


def peak(program, folder):
    """The peak in MiB, measured with GNU time: a child of this process would count the memory of Python."""
    if not os.path.exists("/usr/bin/time"):
        return "-"
    done = subprocess.run(["/usr/bin/time", "-f", "%M", program, "check", "script", "cert"], cwd=folder,
                          stdout=subprocess.DEVNULL, stderr=subprocess.PIPE)
    return "%.1f" % (int(done.stderr.split()[-1]) / 1024)


def main():
    program = os.path.abspath(sys.argv[1])
    runs = int(sys.argv[2]) if len(sys.argv) > 2 else 15
    print("| input | script bytes | certificate bytes | check: best ms | median ms | peak MiB | graph: median ms |")
    print("|---|---|---|---|---|---|---|")
    for name, script, cert, status in inputs():
        with tempfile.TemporaryDirectory(prefix="bench") as folder:
            for file, data in (("script", script), ("cert", cert)):
                with open(os.path.join(folder, file), "wb") as handle:
                    handle.write(data)
            times = [measure(program, folder, ["check", "script", "cert"], status) for _ in range(runs)]
            graphs = [measure(program, folder, ["graph", "script"], 0) for _ in range(runs)]
            memory = peak(program, folder)
        print("| %s | %s | %s | %.1f | %.1f | %s | %.1f |" % (
            name, format(len(script), ","), format(len(cert), ","), min(times), statistics.median(times), memory,
            statistics.median(graphs)))
    print("\n| input | script bytes | rank: best ms | median ms |")
    print("|---|---|---|---|")
    for name, script, status in scripts():
        with tempfile.TemporaryDirectory(prefix="bench") as folder:
            with open(os.path.join(folder, "script"), "wb") as handle:
                handle.write(script)
            times = [measure(program, folder, ["rank", "script"], status) for _ in range(runs)]
        print("| %s | %s | %.1f | %.1f |" % (name, format(len(script), ","), min(times), statistics.median(times)))
    growth(program, runs)


if __name__ == "__main__":
    main()
