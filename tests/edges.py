#!/usr/bin/env python3
"""Compares the table of edges in docs/DEFINITIONS.md with `sedck graph`: python3 tests/edges.py build/sedck docs/DEFINITIONS.md

Each command between backquotes in the first column stands in a script of its own, after one command and before two others, the
second of which is the label `a`. The edges that leave its four nodes must be those of the row. The status is 0 only where each is.
"""
import os
import re
import subprocess
import sys
import tempfile

HEAD = "| commands | before the last line | on the last line |"


def rows(text):
    """The commands of each row, whether it speaks of the end, its flags, and its edges before and on the last line."""
    for line in text[text.index(HEAD):].split("\n")[2:]:
        if not line.startswith("|"):
            return
        commands, before, after = (cell.strip() for cell in line.strip("|").split("|"))
        flag = re.search(r"with the flag ([01])", commands)
        edges = [[tuple(edge.split()) for edge in re.findall(r"`([^`]*)`", cell)] for cell in (before, before if after == "the same" else after)]
        for cell, found in ((before, edges[0]), (after, edges[1])):
            if not found and not cell.startswith("none"):
                raise SystemExit("no edges in %r" % line)
        yield re.findall(r"`([^`]*)`", commands), "the end of the script" in commands, flag[1] if flag else "01", edges


def graph(sedck, folder, script):
    """The edges of a script as tuples of words."""
    path = os.path.join(folder, "script")
    with open(path, "w") as out:
        out.write(script)
    done = subprocess.run([sedck, "graph", path], capture_output=True, text=True)
    if done.returncode:
        raise SystemExit("%r: %s" % (script, done.stderr))
    return {tuple(line.split()) for line in done.stdout.split("\n")[1:-1]}


def due(place, places, flag, last, edges):
    """The edges that the row has for a node."""
    out = set()
    for kind, to, there in edges:
        for side in "01" if kind == "consume" else last:
            out.add((place, flag, last, places[to], flag if there == "f" else there, side, kind))
    return out


def main():
    sedck = os.path.abspath(sys.argv[1])
    with open(sys.argv[2]) as page:
        text = page.read()
    nodes = wrong = 0
    with tempfile.TemporaryDirectory(prefix="sedck-edges-") as folder:
        for commands, of_end, flags, by_side in rows(text):
            for command in commands + ["end"] * of_end:
                block = command.endswith("{")
                found = graph(sedck, folder, "p\n%s\np\n:a\np\n" % (command + "\np\n}" if block else command if command != "end" else "p"))
                place = "5" if command == "end" else "1"
                places = {"start": "0", "next": "2", "past": "3", "target": "4" if block else "3"}
                for flag in flags:
                    for last, edges in zip("01", by_side):
                        nodes += 1
                        there = {edge for edge in found if edge[:3] == (place, flag, last)}
                        if there != due(place, places, flag, last, edges):
                            wrong += 1
                            print("%s, flag %s, last %s: sedck has %s" % (command, flag, last, sorted(there)))
    if not wrong:
        print("edges: %d nodes of the table have the edges that it says" % nodes)
    return 1 if wrong or not nodes else 0


if __name__ == "__main__":
    sys.exit(main())
