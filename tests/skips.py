"""What tests leave out where a machine, or build/, lacks something. Each part is printed, and goes to the list that SEDCK_SKIPPED names, which
tests/run.py prints at its end. A test of which nothing could be tried ends with the status WHOLE, which Automake has for that."""
import os
import shutil
import subprocess
from collections.abc import Iterable

WHOLE = 77


def skip(test: str, what: str, why: str) -> None:
    """Says that this part of a test is left out."""
    line = "%s: skipped: %s: %s" % (test, what, why)
    print(line, flush=True)
    if os.environ.get("SEDCK_SKIPPED"):
        with open(os.environ["SEDCK_SKIPPED"], "a") as file:
            file.write(line + "\n")


def present(test: str, what: str, programs: Iterable[str]) -> list[str]:
    """Those of the commands whose programs are here; what the others are for is left out."""
    found = {command: shutil.which(command.split()[0]) is not None for command in programs}
    missing = [command for command, is_here in found.items() if not is_here]
    if missing:
        skip(test, what, "this machine lacks " + ", ".join(missing))
    return [command for command, is_here in found.items() if is_here]


def has(test: str, what: str, *programs: str) -> bool:
    """Whether all these programs are here; if not, what they are for is left out."""
    return len(present(test, what, programs)) == len(programs)


def has_gnu_sed(test: str, what: str) -> bool:
    """Whether the sed of the path is that of GNU; if not, what it is for is left out."""
    try:
        version = subprocess.run(["sed", "--version"], stdin=subprocess.DEVNULL, capture_output=True, check=False).stdout
    except OSError:
        version = b""
    is_gnu = version.startswith(b"sed (GNU sed)")
    if not is_gnu:
        skip(test, what, "this machine lacks GNU sed")
    return is_gnu
