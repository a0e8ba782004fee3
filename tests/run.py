#!/usr/bin/env python3
"""Runs tests by name: python3 tests/run.py [--unproved] [-k WORD] [NAME ..]

A NAME is that of a test or of a group, which stands for all its tests; most groups are targets of the Makefile. -k runs those with the WORD
in their names. Without either the tests are listed, and none is run. The programs are those of build/. With --unproved they are those of build/unproved, which
`rt try` compiles without a proof where a source has changed; tests that need more are skipped, which is said. Each test has a line at the
end: one that ends with 77 was skipped. Then follows what was skipped in tests, which also goes to the file that SEDCK_SKIPPED names. The status
is 0 only where each test has ended with 0 or 77.
"""
import argparse
import contextlib
import os
import signal
import subprocess
import sys
import tempfile
import time
from pathlib import Path

from skips import WHOLE

TOP = Path(__file__).resolve().parent.parent
PROVED = {"sedck": "build/sedck", "explain": "build/sedck-explain", "probe": "crates/sedck_probe/out/sedck_probe", "library": "build/libsedck.a",
          "refuse": "build/refuse.so", "all": ""}
UNPROVED = {"sedck": "build/unproved/sedck", "explain": "build/unproved/sedck-explain", "probe": "build/unproved/sedck_probe", "refuse": "build/refuse.so"}
# The target of the Makefile, the test, and its arguments: a word between braces is a program, and `all` everything in build/. What `pages`
# and `style` have is also in `docs`.
TESTS = """\
docs documents.sh {all}
rows rows.py {sedck} {probe}
rows matchers.py {sedck} {explain}
explain-tests explain.py {explain} {sedck}
explain-tests hints.py {explain}
explain-tests followed.py {explain}
explain-tests endless.py {explain}
explain-tests fixes.py {explain}
explain-tests parts.py {probe}
explain-tests locales.py {explain}
refusals refusals.py {probe} {sedck} {refuse} {explain}
streams streams.sh {sedck} {explain}
tools-tests tools.py
tools-tests packing.py
tools-tests forge.py
integration-tests packages.py {sedck} {explain}
calls-tests calls.py {explain}
calls-tests calls_in_files.py {explain}
calls-tests mentions.py {explain}
calls-tests attacks.py {explain}
wrapper-tests wrapper.py {explain}
wrapper-tests command.py {explain}
wrapper-tests formatter.py {explain}
wrapper-tests known.py {explain}
wrapper-tests run_stranger.py {explain}
page-tests page.py {all}
library-tests library.py {library} {sedck} {refuse}
integration-tests language_server.py {explain}
integration-tests completions.py {sedck} {explain}
integration-tests integrations.py {explain}
archive-tests archive.py {all}
pages pages.py {sedck} docs/FAULTS.md docs/MENDING.md
pages faults.py {explain}
pages edges.py {sedck} docs/DEFINITIONS.md
pages recipes.py {sedck} {explain}
style links.py
style sentences.py
style definitions.py
style style.py
style workflows.py
"""


class Test:
    """A test: the target that it belongs to, its name, and the words of its command."""

    def __init__(self, row: str) -> None:
        self.target, self.file, *self.words = row.split()
        self.name = self.file.partition(".")[0]

    def is_asked(self, names: list[str], word: str | None) -> bool:
        """Whether it has one of the names, or the word in its name."""
        return self.name in names or self.target in names or (word is not None and word in self.name)

    def lacks(self, programs: dict[str, str]) -> list[str]:
        """The programs that it needs and that there are none of."""
        return [word for word in self.words if word.startswith("{") and word.strip("{}") not in programs]

    def run(self, programs: dict[str, str], skipped: str) -> int:
        """The status of the test, which adds what it skips to the file of this name."""
        words = [word.format(**programs) for word in self.words]
        shell = ["sh"] if self.file.endswith(".sh") else [sys.executable]
        marks = {"SEDCK_VERSION_MARK": " (unproved)"} if programs is UNPROVED else {}
        return ended([*shell, "tests/" + self.file, *filter(None, words)], {**os.environ, **marks, "SEDCK_SKIPPED": skipped})


class Stopped(Exception):
    """This program is to end."""


def ended(words: list[str], environment: dict[str, str]) -> int:
    """The status of a command. Where this program is stopped the command is, too, as by a key, so that it removes what it made."""
    def stop(*_):
        raise Stopped

    before = signal.signal(signal.SIGTERM, stop)
    # What a shell starts in the background ignores SIGINT, and hands that down.
    if signal.getsignal(signal.SIGINT) == signal.SIG_IGN:
        signal.signal(signal.SIGINT, signal.default_int_handler)
    with subprocess.Popen(words, cwd=TOP, env=environment) as running:
        try:
            return running.wait()
        except Stopped:
            running.send_signal(signal.SIGINT)
            # What ignores that is ended without.
            with contextlib.suppress(subprocess.TimeoutExpired):
                running.wait(20)
            running.terminate()
            sys.exit(128 + signal.SIGTERM)
        finally:
            signal.signal(signal.SIGTERM, before)


def asked() -> argparse.Namespace:
    """What the command line asks for."""
    words = argparse.ArgumentParser(description="Runs tests by name.")
    words.add_argument("--unproved", action="store_true", help="with the programs that `rt try` compiles, without a proof")
    words.add_argument("-k", metavar="WORD", help="the tests with this word in their names")
    words.add_argument("names", metavar="NAME", nargs="*", help="a test, or a target of the Makefile")
    return words.parse_args()


def prepared(tests: list[Test]) -> bool:
    """Compiles the programs that the tests need, without a proof; whether that was done."""
    needed = {word.strip("{}") for test in tests for word in test.words if word.startswith("{")}
    names = [os.path.basename(UNPROVED[key]) for key in ("sedck", "explain", "probe") if key in needed]
    if "refuse" in needed:
        subprocess.run(["make", "--no-print-directory", "build/refuse.so"], cwd=TOP, check=False)
    return not names or subprocess.run([sys.executable, "tools/try.py", os.environ.get("RT", "rt"), "--programs", *names], cwd=TOP, check=False).returncode == 0


def skipped_in(name: str) -> list[str]:
    """The lines of a list of what was skipped."""
    return Path(name).read_text().splitlines() if os.path.exists(name) else []


def main() -> int:
    """Runs what is asked for, or lists the tests."""
    words, tests = asked(), [Test(row) for row in TESTS.splitlines()]
    known = {name for test in tests for name in (test.name, test.target)}
    unknown = [name for name in words.names if name not in known]
    if unknown:
        print("run: no test or target of this name: %s" % ", ".join(unknown))
        return 3
    if not words.names and words.k is None:
        print("\n".join("%-18s %s" % (test.target, test.name) for test in tests))
        return 0
    programs = UNPROVED if words.unproved else PROVED
    chosen = [test for test in tests if test.is_asked(words.names, words.k)]
    ready = [test for test in chosen if not test.lacks(programs)]
    if words.unproved and not prepared(ready):
        return 4
    lines, failed = [], not chosen
    with tempfile.NamedTemporaryFile("w+", prefix="sedck-skipped-") as own:
        # The file of what calls this one, as `make test`, has more in it.
        name = os.environ.get("SEDCK_SKIPPED") or own.name
        before = skipped_in(name)
        for test in ready:
            begun, known = time.monotonic(), len(skipped_in(name))
            status = test.run(programs, name)
            failed |= status not in (0, WHOLE)
            parts = len(skipped_in(name)) - known
            said = {0: "passed" + (", %d skipped" % parts if parts else ""), WHOLE: "skipped"}.get(status, "FAILED with status %d" % status)
            lines.append("%-18s %-18s %s (%.1f s)" % (test.target, test.name, said, time.monotonic() - begun))
        parts = skipped_in(name)[len(before):]
    lines += ["%-18s %-18s skipped: it needs what is proved" % (test.target, test.name) for test in chosen if test not in ready]
    print("\n".join([*(lines or ["run: no test has this word in its name"]), *parts]))
    return 1 if failed else 0


if __name__ == "__main__":
    sys.exit(main())
