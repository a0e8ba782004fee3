#!/usr/bin/env python3
"""Measures one call of `sedck-explain` for a folder of scripts against a call of `sedck rank` for each, and of a program that does nothing.

    python3 bench/folder.py build/sedck build/sedck-explain [SCRIPTS] [RUNS]

The scripts are made by the generator of tests/seds/seds.py, always the same ones. Many calls are made by `xargs -n 1`. All output goes
to /dev/null; before that it is compared: a line of JSON for each script, with the status of `sedck rank`.
"""
import json
import os
import statistics
import subprocess
import sys
import tempfile
import time

sys.path.insert(0, os.path.join(os.path.dirname(os.path.dirname(os.path.abspath(__file__))), "tests", "seds"))
from seds_draw import Draw  # noqa: E402

SEED = 1


def timed(words, folder, names, is_each):
    """The milliseconds of one call with all names, or of one for each."""
    given = b"".join(name.encode() + b"\0" for name in names) if is_each else None
    command = ["xargs", "-0", "-n", "1", *words] if is_each else [*words, *names]
    begin = time.perf_counter()
    subprocess.run(command, cwd=folder, input=given, stdout=subprocess.DEVNULL, stderr=subprocess.DEVNULL)
    return (time.perf_counter() - begin) * 1000


def compare(sedck, explain, folder, names):
    """How many scripts have each status, where both programs agree on all."""
    lines = subprocess.run([explain, "--format", "json", *names], cwd=folder, capture_output=True, text=True).stdout.splitlines()
    said = [(report["file"], report["status"]) for report in map(json.loads, lines)]
    due = [(name, subprocess.run([sedck, "rank", name], cwd=folder, capture_output=True).returncode) for name in names]
    if said != due:
        raise SystemExit("the statuses differ: %r" % [pair for pair in zip(said, due) if pair[0] != pair[1]][:3])
    return [sum(status == one for _, status in due) for one in (0, 1, 2)]


def main():
    sedck, explain = map(os.path.abspath, sys.argv[1:3])
    count = int(sys.argv[3]) if len(sys.argv) > 3 else 4000
    runs = int(sys.argv[4]) if len(sys.argv) > 4 else 7
    draw = Draw(SEED)
    with tempfile.TemporaryDirectory(prefix="bench") as folder:
        names = ["%05d.sed" % number for number in range(count)]
        size = 0
        for name in names:
            script = draw.script()
            size += len(script)
            with open(os.path.join(folder, name), "wb") as file:
                file.write(script)
        print("%s scripts, %s bytes: %s accepted, %s with a loop, %s refused\n" % (
            format(count, ","), format(size, ","), *(format(one, ",") for one in compare(sedck, explain, folder, names))))
        print("| calls | best ms | median ms |\n|---|---|---|")
        calls = [("one of `sedck-explain --format %s`" % form, [explain, "--format", form], False) for form in ("gcc", "json", "text")]
        calls += [("one of `sedck rank` for each", [sedck, "rank"], True), ("one of `true` for each", ["true"], True)]
        times = {name: [] for name, _, _ in calls}
        for _ in range(runs):
            for name, words, is_each in calls:
                times[name].append(timed(words, folder, names, is_each))
        for name, found in times.items():
            print("| %s | %s | %s |" % (name, format(round(min(found)), ","), format(round(statistics.median(found)), ",")))


if __name__ == "__main__":
    main()
