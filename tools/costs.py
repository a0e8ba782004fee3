#!/usr/bin/env python3
"""Which functions of a crate are dear to prove: python3 tools/costs.py CRATE [COUNT]

The prover writes modules for each function, and the time of its proof grows with their size; `rt check` keeps them in
crates/CRATE/out/incremental. Printed are the functions with the largest ones, 20 or COUNT of them: megabytes, and their part of the
crate's. A check prints its line for a function only later, so the time between two of its lines says little.
"""
import re
import sys
from collections import Counter
from pathlib import Path

TOP = Path(__file__).resolve().parent.parent
# What is written of a function, or of those that call one another (`+name`), has its path, and then names of its own, which begin with
# a capital; a type in the path does so, too.
FUNCTION = re.compile(r"(?:\S+\.)?[a-z_+][^.]*")


def function_of(module):
    """The path of the function for which the module is written."""
    match = FUNCTION.match(module)
    return match[0] if match else "what proofs share"


def sizes(folder, crate):
    """The bytes of the modules of each function, the newest where there are several."""
    start = "Rattle-%s-proofs." % crate
    written = {}
    for path in sorted(folder.rglob(start + "*.oantt"), key=lambda path: path.stat().st_mtime):
        if path.name.endswith(".decls.oantt"):
            continue
        written[path.name] = path.stat().st_size
    total = Counter()
    for name, size in written.items():
        total[function_of(name[len(start):-len(".oantt")])] += size
    return total


def main():
    if not 2 <= len(sys.argv) <= 3 or len(sys.argv) == 3 and not sys.argv[2].isdecimal():
        print(__doc__.splitlines()[0])
        return 2
    crate = sys.argv[1]
    total = sizes(TOP / "crates" / crate / "out" / "incremental", crate)
    if not total:
        print("costs: nothing is kept of %s: run `rt check` in crates/%s first" % (crate, crate))
        return 1
    whole = sum(total.values())
    for name, size in total.most_common(int(sys.argv[2]) if len(sys.argv) == 3 else 20):
        print("%6.1f  %4.1f%%  %s" % (size / 1e6, 100 * size / whole, name))
    print("%6.1f  in all" % (whole / 1e6))
    return 0


if __name__ == "__main__":
    sys.exit(main())
