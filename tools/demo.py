#!/usr/bin/env python3
"""Shows both programs without a proof: python3 tools/demo.py [RT]

`rt try` compiles a program from its sources and runs it in a new folder, and proves nothing. The checker comes first, and what it
answers is shown before the other one is compiled. What `rt` says itself is shown only where it runs nothing, and then the status is 1. Else
the status is 0 where each program ended with the status that is due.
"""
import re
import shlex
import subprocess
import sys
import time
from pathlib import Path

TOP = Path(__file__).resolve().parent.parent
# What is shown: a head, the crate of the program, its name, its arguments, and the exit status that is due.
SHOWN = [
    ("A script that always ends, with its certificate, which `sedck rank` has found:",
     "sedck", "sedck", ["check", "next-line-loop.sed", "next-line-loop.cert"], 0),
    ("A script that may run for ever:",
     "sedck_explain", "sedck-explain", ["join-all-loop.sed"], 1),
]
# The lines of `rt try` on standard error: what came of its check, and of the run.
OWN_LINE = re.compile(r"(checked: |run=)")
ENDED = re.compile(r"^run=ended status=(\d+) ", re.M)


def tried(rt, crate, words):
    """What `rt try` answers for the program of a crate; the arguments that are examples are copied for it."""
    data = []
    for word in words:
        if (TOP / "examples" / word).exists():
            data += ["--data", "%s=%s" % (word, TOP / "examples" / word)]
    return subprocess.run(shlex.split(rt) + ["try"] + data + ["--"] + words, cwd=TOP / "crates" / crate, stdin=subprocess.DEVNULL,
                          stdout=subprocess.PIPE, stderr=subprocess.PIPE, encoding="utf-8", errors="replace")


def shown(head, name, words, due, ran):
    """Prints what a program answered, as it looks in a terminal; whether it is what is due."""
    print("\n" + head + "\n")
    scripts = [word for word in words if word.endswith(".sed")]
    for script in scripts:
        print("$ cat " + script)
        print((TOP / "examples" / script).read_text(), end="")
    print("$ " + " ".join([name] + words))
    print(ran.stdout, end="")
    ended = ENDED.findall(ran.stderr)
    if not ended:
        print(ran.stderr, end="")
        print("demo: `rt try` didn't run %s to its end" % name)
        return False
    print("".join(line for line in ran.stderr.splitlines(True) if not OWN_LINE.match(line)), end="")
    print("(exit status %s)" % ended[-1])
    if int(ended[-1]) != due:
        print("demo: the exit status of %s should be %d" % (name, due))
    return int(ended[-1]) == due


def main():
    rt = sys.argv[1] if len(sys.argv) > 1 else "rt"
    print("unproved: run by `rt try`, without the proofs; `make build` proves", flush=True)
    begun, fine = time.monotonic(), []
    for head, crate, name, words, due in SHOWN:
        print("\nCompiling %s ..." % name, flush=True)
        try:
            fine.append(shown(head, name, words, due, tried(rt, crate, words)))
        except OSError as error:
            print("demo: %s can't be started: %s" % (rt, error.strerror))
            return 1
        print("(%d seconds so far)" % (time.monotonic() - begun), flush=True)
    print("\nUnproved: `make build` proves the programs, and puts them into build/.")
    return 0 if all(fine) else 1


if __name__ == "__main__":
    sys.exit(main())
