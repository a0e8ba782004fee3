"""Reports in JSON, held against `sedck`: statuses, places, files, bounds and loops, on drawn scripts and on the examples.

The place of a command's verb is also that of fault 19: with 4,095 - k commands `p`, one a line, before a script, its command k is the
4,096th, and the fault's offset less 2 * (4,095 - k) is that of its verb.
"""
import concurrent.futures
import functools
import json
import os
import random
import re
import sys
from collections.abc import Iterator
from pathlib import Path

from explain_texts import PRINT, REFUSED_CERTIFICATES, WITH_CERTIFICATE
from explain_tools import VERSION, Tools, place, shown_name
from links import anchors

TOP = os.path.dirname(os.path.dirname(os.path.abspath(__file__)))
sys.path.insert(0, os.path.join(TOP, "tests", "seds"))
from seds_draw import Draw  # noqa: E402

WHOLE = 200
COMMANDS = 4095
LABELS = ["label-to-the-line-end", "long-labels"]
FIELDS = ["file", "status", "answer", "bound", "bound_by_lines", "space_bound", "reads", "writes", "findings", "commands", "version"]
FINDING = ["level", "code", "message", "hint", "position", "steps", "page", "end", "fix"]
ANSWERS = {0: ["accepted"], 1: ["rejected", "loop"], 2: ["script-refused", "certificate-refused"]}


def example_scripts() -> Iterator[bytes]:
    """The scripts of the examples."""
    folder = os.path.join(TOP, "examples")
    for name in sorted(os.listdir(folder)):
        if name.endswith(".sed"):
            with open(os.path.join(folder, name), "rb") as file:
                yield file.read()


def drawn_scripts(count: int) -> list[bytes]:
    """As many drawn scripts, the same ones each time."""
    draw = Draw(1)
    return [draw.script() for _ in range(count)]


def reports(tools: Tools, words: list[str]) -> list[dict]:
    """The objects of a report in JSON, one a line, in ASCII; the exit status is the greatest one."""
    status, report, errors = tools.explain("--format", "json", *words)
    tools.holds("ASCII alone", all(byte == 10 or 32 <= byte < 127 for byte in report))
    tools.same("standard error", errors, b"")
    parsed = [json.loads(line) for line in report.decode().split("\n")[:-1]]
    tools.same("greatest status", status, max(one["status"] for one in parsed))
    for one in parsed:
        tools.same("fields", list(one), FIELDS)
        tools.holds("answer %r" % one["answer"], one["answer"] in ANSWERS[one["status"]])
        tools.same("version", one["version"], VERSION)
        levels = [["error", "warning", "note"].index(finding["level"]) for finding in one["findings"]]
        tools.same("levels in their order", levels, sorted(levels))
        for finding in one["findings"]:
            hold_finding(tools, one["file"], finding)
    return parsed


def hold_finding(tools, what, finding):
    """The fields of a finding; a page with a heading; an end and a fix that are no parts of the script before its position."""
    tools.same("fields of a finding of %s" % what, list(finding), FINDING)
    tools.holds("page %s" % finding["page"], finding["page"] in headings())
    start, end = finding["position"], finding["end"]
    tools.same("end in %s" % what, end is None, start is None)
    if end:
        tools.same("line of an end in %s" % what, (end["line"], end["column"] - start["column"]), (start["line"], end["offset"] - start["offset"]))
        tools.holds("order of an end in %s" % what, start["offset"] <= end["offset"])
    for fix in [finding["fix"]] * (finding["fix"] is not None):
        tools.same("fields of a fix of %s" % what, list(fix), ["start", "end", "text"])
        tools.holds("fix in %s" % what, fix["start"]["offset"] <= fix["end"]["offset"] and fix["text"].isascii())


@functools.cache
def headings():
    """The pages in the folder `docs` with their headings, as a link names them."""
    return {"%s#%s" % (page.name, head) for page in (Path(TOP) / "docs").glob("*.md") for head in anchors(page)}


def check_headings(tools):
    """Each section that a code or a hint has, whether it is printed here or not. That of a fault has the fault's name."""
    crates = Path(TOP) / "crates"
    found = re.findall(r'section\(\s*"(\w+\.md)",\s*"([\w-]+)",?\s*\)', (crates / "sedck_report/src/code.rt").read_text())
    of_faults = [("FAULTS.md", name) for part in ("commands", "expressions") for name in
                 re.findall(r'Fault::\w+ \{[^}]*\} => \(\s*\d+,\s*"([a-z-]+)"', (crates / f"sedck_{part}/src/fault.rt").read_text())]
    of_hints = re.findall(r"^(\w+\.md)#(\S+) \S.*$", (crates / "sedck_formats/src/pages.rt").read_text(), flags=re.M)
    tools.holds("sections", len(found) > 20 and len(of_faults) > 30 and len(of_hints) > 50)
    for file, heading in [*found, *of_faults, *of_hints]:
        tools.holds("section %s of %s" % (heading, file), heading == "bad-expression" or f"{file}#{heading}" in headings())


def positions_in(value):
    """Each object of a report that is a position."""
    if isinstance(value, list):
        for part in value:
            yield from positions_in(part)
    elif isinstance(value, dict):
        if "offset" in value:
            yield value
        for part in value.values():
            yield from positions_in(part)


def name_bytes(shown):
    """The bytes of a name that is shown."""
    parts = re.findall(r'\\\\|\\"|\\x[0-9a-f]{2}|[^\\"]', shown)
    assert "".join(parts) == shown
    return b"".join(bytes([int(part[2:], 16)]) if len(part) > 2 else part[-1:].encode() for part in parts)


def listed_names(lines, word):
    """The names behind the line `read K` or `write K`."""
    at = next(at for at, line in enumerate(lines) if re.fullmatch(word + b" [0-9]+", line))
    return lines[at + 1:at + 1 + int(lines[at].split()[1])]


def hold_names(tools, what, script, report):
    """The files against those of `sedck files`; each command that names one is named once, in order, by its place."""
    lines = tools.sedck("files", what)[1].split(b"\n")
    for word, key, verbs in ((b"read", "reads", b"r"), (b"write", "writes", b"ws")):
        names = listed_names(lines, word)
        tools.same("%s %s" % (key, what), [name_bytes(file["name"]) for file in report[key]], names)
        for file, name in zip(report[key], names):
            tools.same("shown %s" % what, file["name"], shown_name(name))
            for position in file["positions"]:
                rest = script[position["offset"]:].split(b"\n")[0]
                tools.holds("%s of %r in %s" % (key, name, what), rest[:1] in (verbs[:1], verbs[1:]) and rest.endswith(name))
            offsets = [position["offset"] for position in file["positions"]]
            tools.holds("order %s" % what, offsets and offsets == sorted(set(offsets)))
    named = [position for file in report["reads"] + report["writes"] for position in file["positions"]]
    tools.holds("commands %s" % what, all(position in report["commands"] for position in named))


def verb_at(script, position):
    """The byte of a command's verb."""
    return script[position["offset"]:position["offset"] + 1]


def by_lines_due(graph, certificate):
    """The limit by lines by the edges that `sedck graph` prints and the ranks of the certificate, or None where it isn't due."""
    ranks = {}
    for line in certificate.split("\n"):
        words = line.split(" ")
        if len(words) == 5:
            ranks[tuple(words[:3])] = int(words[3])
    for line in graph.split("\n"):
        words = line.split(" ")
        if len(words) == 7 and words[6] != "consume" and tuple(words[:3]) in ranks and ranks[tuple(words[3:6])] >= ranks[tuple(words[:3])]:
            return None
    return {"per_byte": 0, "per_line": max(ranks.values()) + 1, "fixed": 1}


def hold_bound(tools, what, script, certificate, report):
    """The bound against that of `sedck check`, and the other limits against the graph, the ranks and the verbs."""
    tools.write(what + ".cert", certificate)
    lines = tools.sedck("check", what, what + ".cert")[1].split(b"\n")
    bound = report["bound"]
    shown = ["bound %(per_byte)d %(per_line)d %(fixed)d" % bound] if bound else []
    tools.same("bound %s" % what, [line.decode() for line in lines if line.startswith(b"bound ")], shown)
    codes = [finding["code"] for finding in report["findings"] if finding["level"] != "warning" and finding["code"] not in LABELS]
    by_lines, spaces = report["bound_by_lines"], report["space_bound"]
    tools.same("note %s" % what, codes, [] if spaces else ["no-space-bound"] if bound or by_lines else ["no-bound"])
    tools.same("limit by lines %s" % what, by_lines, by_lines_due(tools.sedck("graph", what)[1].decode(), certificate.decode()))
    due = {"per_byte": 1, "per_line": 1, "fixed": 0} if bound and not any(verb_at(script, at) == b"H" for at in report["commands"]) else None
    tools.same("limit on the spaces %s" % what, spaces, due)


def hold_loop(tools, what, text, report):
    """The steps of a loop against the nodes and kinds of `sedck rank`, and their places against those of the commands."""
    finding, *_ = report["findings"]
    rows = [" ".join([str(step["command"]), str(int(step["flag"])), str(int(step["last"]))] + [step["kind"]] * (step["kind"] is not None))
            for step in finding["steps"]]
    lines = text.decode().split("\n")[:-1]
    tools.same("loop %s" % what, ["loop " + finding["code"].removeprefix("loop-")] + rows, lines)
    places = report["commands"] + [None]
    tools.same("steps %s" % what, [step["position"] for step in finding["steps"]], [places[step["command"]] for step in finding["steps"]])
    tools.same("first step %s" % what, finding["position"], finding["steps"][0]["position"])


def hold_script(tools, what, script, report):
    """A report against what `sedck` says of the script."""
    status, text, errors = tools.sedck("rank", what)
    tools.same("status %s" % what, report["status"], status)
    tools.same("answer %s" % what, report["answer"], ["accepted", "loop", "script-refused"][status])
    for position in positions_in(report):
        tools.same("place %s" % what, (position["line"], position["column"]), place(script, position["offset"]))
    if status == 2:
        empty = [report[key] for key in ("bound", "bound_by_lines", "space_bound", "reads", "writes", "commands")]
        tools.same("refused %s" % what, empty, [None, None, None, [], [], []])
        code, at = re.fullmatch(r".*fault [0-9]+ ([a-z-]+) at ([0-9]+)\n", errors.decode()).groups()
        finding, = report["findings"]
        tools.same("fault %s" % what, finding["code"], code)
        if b"expression fault" not in errors:
            tools.same("offset %s" % what, finding["position"]["offset"], int(at))
        return
    hold_names(tools, what, script, report)
    if status == 0:
        hold_bound(tools, what, script, text, report)
    else:
        hold_loop(tools, what, text, report)
        tools.same("no bound %s" % what, [report[key] for key in ("bound", "bound_by_lines", "space_bound")], [None] * 3)


def hold_place(tools, what, script, number, position):
    """The place of a command's verb against that of fault 19."""
    name = tools.write("%s.%d" % (what, number), b"p\n" * (COMMANDS - number) + script)
    _, _, errors = tools.sedck("files", name)
    due = "sedck: script fault 19 too-many-commands at %d\n" % (position["offset"] + 2 * (COMMANDS - number))
    tools.same("command %d of %s %r" % (number, what, script), errors.decode(), due)
    os.remove(tools.path(name))


def hold_places(tools, at, what, script, report):
    """The places of all commands, or of one, and how many there are."""
    count = len(report["commands"])
    if report["status"] == 2:
        return
    graph = tools.sedck("graph", what)[1].split(b"\n")[0]
    tools.same("count %s" % what, graph, b"commands %d" % count)
    numbers = range(count) if at < WHOLE else random.Random(at).sample(range(count), min(count, 1))
    for number in numbers:
        hold_place(tools, what, script, number, report["commands"][number])


def check_certificates(tools):
    """Rejections and refusals against the line of `sedck check`, and the edge that is rejected."""
    cases = [(script, text) for script, text, *_ in WITH_CERTIFICATE] + [(PRINT, text) for text, *_ in REFUSED_CERTIFICATES]
    for script, text in cases:
        tools.write("s.sed", script)
        tools.write("s.cert", text.encode())
        status, lines, errors = tools.sedck("check", "s.sed", "s.cert")
        report, = reports(tools, ["--cert", "s.cert", "s.sed"])
        tools.same("status %r" % text, report["status"], status)
        words = lines.decode().split("\n")[0].split()
        codes = [finding["code"] for finding in report["findings"]]
        steps = [step for finding in report["findings"] for step in finding["steps"]]
        if status == 2:
            tools.holds("refused %r" % text, len(codes) == 1 and " %s " % codes[0] in errors.decode())
            tools.same("who %r" % text, report["answer"], "%s-refused" % errors.decode().split()[1])
        elif status == 1:
            ends = [str(int(step[key])) for step in steps for key in ("command", "flag", "last")]
            kinds = [step["kind"] for step in steps]
            tools.same("rejected %r" % text, codes + ends + kinds[:1], words[2:])
            tools.same("kinds %r" % text, kinds[1:], [None] * (len(steps) // 2))
        else:
            tools.same("accepted %r" % text, (words, codes), (["accepted"], []))


def check_paths(tools):
    """Paths are just what was given; in ASCII. Other formats have a `?` for each character that isn't seen, and `./` before a path whose line a host of
    code would take for a command."""
    for name, shown in (("\u00e9\u2603\U0001f600.sed", None), ('"\\<b>&\'.sed', None), ("a\x1b[31m\n\u009b\x7f.sed", "a?[31m???.sed"),
                        ("::error::x.sed", "./::error::x.sed"), ("\t \u3000:x.sed", "./? ?:x.sed"), ("x::y.sed", None)):
        tools.write(name, b"b z\n")
        report, = reports(tools, [name])
        tools.same("path %r" % name, report["file"], name)
        for form in ("text", "gcc"):
            tools.holds("path %r, %s" % (name, form), tools.explain("--format", form, name)[1].startswith((shown or name).encode() + b":1:3: "))
            tools.write("::error::x.sh", b"sed 'b z'\n")
            calls = tools.explain("--calls", "--format", form, "::error::x.sh")[1]
            tools.holds("path of a call, %s" % form, calls.startswith(b"./::error::x.sh:1:") and not re.search(rb"(?m)^\s*::", calls))


def check(tools: Tools, count: int) -> None:
    """Compares the reports on the examples and on drawn scripts with what `sedck` says of them."""
    scripts = list(example_scripts()) + drawn_scripts(count)
    names = [tools.write("%d.sed" % at, script) for at, script in enumerate(scripts)]
    found = reports(tools, names)
    tools.same("files", [report["file"] for report in found], names)
    with concurrent.futures.ThreadPoolExecutor(os.cpu_count()) as pool:
        jobs = []
        for at, (name, script, report) in enumerate(zip(names, scripts, found)):
            jobs.append(pool.submit(hold_script, tools, name, script, report))
            jobs.append(pool.submit(hold_places, tools, at, name, script, report))
        for job in jobs:
            job.result()
    check_certificates(tools)
    check_paths(tools)
    check_headings(tools)
