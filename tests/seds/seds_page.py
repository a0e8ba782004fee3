"""The tables of docs/SEDS.md, run again.

A script's lines, and an input's, are code spans; a control character is its picture (`␍`), a byte that is in no character is `⟨A9⟩`, and
a bar has a backslash before it. The heads of seds are a name and a version. Where a sed of that version answers something else, that is
a fault, else it is reported.
"""
import os
import re
import subprocess
import tempfile
from collections.abc import Iterator

from seds_hunt import COMMAND, END, FILE, LINE, READ, broken_lines, known_kinds, marked

TRACES = {"file": FILE, "command": COMMAND, "read": READ, "end": END, "line": LINE}
STOPPED_SECONDS = 2


def spans(cell):
    """The code spans of a cell, as bytes."""
    control = lambda found: chr(ord(found.group()) - 0x2400)
    alone = lambda found: bytes([int(found[1], 16)]).decode("utf-8", "surrogateescape")
    read = lambda span: re.sub("⟨([89A-F][0-9A-F])⟩", alone, re.sub("[\u2400-\u241f]", control, span.replace("\0", "|")))
    return [read(span).encode("utf-8", "surrogateescape") for span in re.findall("`([^`]*)`", cell)]


def joined(cell):
    return b"".join(span + b"\n" for span in spans(cell))


def table(page, head):
    """The heads behind the first one, and the rows of the table that begins so."""
    with open(page, encoding="utf-8") as text:
        lines = text.read().split("\n")
    begin = next(at for at, line in enumerate(lines) if line.startswith(head))
    cells = lambda line: [cell.strip() for cell in line.replace("\\|", "\0").strip("|").split("|")]
    rows = []
    for line in lines[begin + 2:]:
        if not line.startswith("|"):
            break
        rows.append(cells(line))
    return cells(lines[begin]), rows


IN_UTF_8 = "trace in UTF-8"
HEADS = {"statuses": "| script | sedck |", "traces": "| script | input | trace |", "outputs": "| script | input | sedck |",
         "matches": "| script | input | what is refused |", "locales": "| script | input | %s |" % IN_UTF_8}


def shown(done):
    """What a run printed, as a cell says it."""
    return "stopped" if done.status is None else "status %d" % done.status if done.status else done.output


def expected(cell):
    return joined(cell) if "`" in cell else b"" if cell == "nothing" else cell


class Page:
    """The tables, and what each of the seds, or `sedck`, answers."""
    def __init__(self, page, scratch, seds, locale):
        self.page, self.scratch, self.seds, self.locale = page, scratch, seds, locale

    def compared(self):
        """What is other here: whether it is a fault, and its line. How long a match takes is up to the C library, and no fault."""
        answers = [("statuses", self.status), ("traces", self.trace), ("outputs", self.printed), ("matches", self.ends)]
        for name, answer in answers + ([("locales", self.trace_there)] if self.locale else []):
            heads, rows = table(self.page, HEADS[name])
            for row in rows:
                cells = dict(zip(heads, row))
                for head, sed in self.columns(heads):
                    got, due = answer(sed, cells), cells[head]
                    if got != (expected(due) if name == "outputs" else due):
                        line = "docs/SEDS.md, %s: %s has %r for %r, not %s" % (name, sed.name, got, joined(row[0]), due)
                        yield name != "matches" and head.rsplit(" ", 1)[1] in sed.version, line

    def columns(self, heads):
        """The heads of seds that are here: `GNU 4.9` is every GNU sed."""
        for head in heads:
            for sed in self.seds:
                kind = ("GNU" + " --posix" * ("--posix" in sed.words)) if sed.is_gnu else sed.name
                if re.fullmatch(re.escape(kind) + r" [\d.]+", head):
                    yield head, sed

    def status(self, sed, cells):
        self.scratch.put(joined(cells["script"]), b"a1\nb\n")
        status = self.scratch.run(sed.words, STOPPED_SECONDS).status
        return str(124 if status is None else status if status >= 0 else 128 - status)

    def printed(self, sed, cells):
        self.scratch.put(joined(cells["script"]), joined(cells["input"]))
        return shown(self.scratch.run(sed.words, STOPPED_SECONDS))

    def ends(self, sed, cells):
        """Whether the run ends by itself in time."""
        self.scratch.put(joined(cells["script"]), joined(cells["input"]))
        return "yes" if self.scratch.run(sed.words, STOPPED_SECONDS).status == 0 else "-"

    def trace(self, sed, cells):
        """Whether the run leaves the trace, found as in a script that was drawn."""
        script, given = joined(cells["script"]), joined(cells["input"])
        listed = set(spans(cells["lists"]))
        self.scratch.put(marked(script[:-1]) if cells["trace"] == "line" else script, given)
        done = self.scratch.run(sed.words, STOPPED_SECONDS)
        if cells["trace"] == "line":
            return "yes" if broken_lines("shorten", given, done.output) else "-"
        return "yes" if TRACES[cells["trace"]] in known_kinds(done, listed) else "-"

    def trace_there(self, sed, cells):
        """The same in the locale of UTF-8."""
        posix = self.scratch.environment
        self.scratch.environment = {**posix, **self.locale.environment}
        try:
            return self.trace(sed, {**cells, "trace": cells[IN_UTF_8]})
        finally:
            self.scratch.environment = posix


def compared(page: str, scratch: object, seds: list, locale: object) -> list:
    """What is other here in each table, and whether that is a fault."""
    return list(Page(page, scratch, seds, locale).compared())


def answers_of_sedck(page: str, sedck: str) -> Iterator[str]:
    """The rows whose status of `sedck rank` is another one."""
    for name, head in HEADS.items():
        heads, rows = table(page, head)
        for row in rows:
            cells = dict(zip(heads, row))
            with tempfile.TemporaryDirectory(prefix="sedck-seds-") as folder:
                path = os.path.join(folder, "script")
                with open(path, "wb") as out:
                    out.write(joined(cells["script"]))
                status = subprocess.run([sedck, "rank", path], stdout=subprocess.DEVNULL, stderr=subprocess.DEVNULL).returncode
            if str(status) != cells["sedck"]:
                yield "docs/SEDS.md, %s: sedck has %d for %r, not %s" % (name, status, joined(cells["script"]), cells["sedck"])
