"""Reads and writes of `sedck-explain` that fail in the middle: nothing is said of a script that wasn't read whole, and of a report that
can't be written its beginning."""
import os
import resource
import socket
import subprocess

from explain_texts import NEXT_LINE
from explain_tools import Tools
from refusals import NEXT_LINE_RANKS

# a script, and the status and the report for editors
REPORTS = [
    (NEXT_LINE, 0, b""),
    (b"p;q9", 2, b"f:1:4: error: unexpected text after a command [extra-text]\n"
     b"f:1:4: note: hint: an exit status of `q` is an extension of GNU sed: without it the status is 0, so look for the line outside the script, as "
     b"with `grep`\n"),
    (b"b z", 2, b"f:1:3: error: this label isn't defined, and the script has none [unknown-label]\n"),
    (b"w /x", 0, b"f:1:1: warning: this writes \"/x\": it is an absolute path [absolute-name]\n"),
]
WORDS = ["--format", "gcc", "--stdin-filename", "f"]
CERTIFIED = [*WORDS, "--cert", "streams.cert", "-"]


def read_in_part(tools, words, front):
    """What a run answers that reads this much from standard input, whose next read fails: the other end of the connection is reset."""
    ours, theirs = socket.socketpair()
    with theirs:
        ours.sendall(front)
        theirs.sendall(b"this is never read")
        ours.close()
        done = subprocess.run([tools.explain_path, *words], cwd=tools.folder, stdin=theirs, capture_output=True, timeout=60, check=False)
    return done.returncode, done.stdout, done.stderr


def written_in_part(tools, words, script, room):
    """What a run answers whose report goes to a file that may have no more bytes than this; Python ignores the signal for it."""
    path = tools.path("report")
    with open(path, "wb") as report:
        done = subprocess.run([tools.explain_path, *words], cwd=tools.folder, input=script, stdout=report, stderr=subprocess.PIPE, timeout=60, check=False,
                              restore_signals=False, preexec_fn=lambda: resource.setrlimit(resource.RLIMIT_FSIZE, (room, room)))
    with open(path, "rb") as report:
        return done.returncode, report.read(), done.stderr


def check(tools: Tools) -> None:
    tools.write("streams.cert", NEXT_LINE_RANKS.encode())
    tools.same("with its certificate", tools.explain(*CERTIFIED, given=NEXT_LINE), (0, b"", b""))
    for script, status, report in REPORTS:
        tools.same("%r" % script, tools.explain(*WORDS, given=script), (status, report, b""))
        for length in range(len(script) + 1):
            for words in (WORDS, CERTIFIED):
                tools.same("%r, of which %d bytes are read" % (script, length), read_in_part(tools, words, script[:length]),
                           (4, b"", b"sedck-explain: cannot read f\n"))
        for room in range(len(report)):
            tools.same("%r, with room for %d bytes" % (script, room), written_in_part(tools, WORDS, script, room),
                       (4, report[:room], b"sedck-explain: cannot write\n"))
    os.remove(tools.path("report"))
