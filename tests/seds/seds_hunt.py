"""Runs accepted scripts by every sed, and looks for what their certificates rule out.

A finding is a file that was made and isn't listed, a command that was run, an unlisted file that was read, a run that doesn't end
within its bound, or a substitution that takes out less than the least length of its expression. Each script is run in the POSIX locale
on one input, and in other ways (seds_ways.py): there what is found counts only where the script is byte safe.
"""
import re

from seds_draw import CONTROLS, HIGH, WHOLE, Grammar
from seds_run import LIMIT_SECONDS, LONG_SECONDS, OPERANDS, SECRET, TOLD_SECONDS
from seds_trace import limit_of, steps_at_most
from seds_ways import Ways

FILE, COMMAND, READ, END, LINE = "unlisted file", "command run", "unlisted file read", "run without end", "shorter line changed"
LONGEST = 7
NOT_SAFE_SECONDS = 0.2
NOT_SAFE = "scripts that aren't byte safe, in other ways: "
BEYOND_FIRST = "runs over several files that go beyond the bound of the first one"
# Scripts that are accepted and not byte safe, each with an input on which GNU sed runs for ever where a character has several bytes.
UNSAFE = ((b":a\ns/x\xc3\xa9*/x/\nt a\n", b"x\n"),
          (b":a\ns/\xc3\xa9/a/\ny/\xc3\xa9a/e\xc3\xa9/\nt a\n", b"\xc3\xa9a\n"),
          (b":a\ns/\\(x*\\).\xc3/\\1\xc3/\nt a\n", b"x\xc3\xa9\n"))


def is_byte_safe(script: bytes, judged: object) -> bool:
    """No byte above 127 is repeated by itself or in a list of `y`, of which `sedck-explain` warns, and all of them are in characters."""
    try:
        script.decode("utf-8")
    except UnicodeDecodeError:
        return False
    return "locale" not in judged.codes and not re.search(rb"sedck: *ignore", script)


def is_inside(names: list[bytes]) -> bool:
    """No name leads out of the folder of the run, or is one that a file system can't have."""
    return all(b"/" not in name and not name.startswith(b".") and len(name) < 200 for name in names)


class HuntDraw(Grammar):
    """Inputs, and substitutions that are measured."""
    def lines(self, script, count, longest):
        """Lines of bytes of the script and of control characters."""
        own = sorted({byte for byte in script if byte != 10}) + CONTROLS
        return [bytes(self.choices(own, k=self.randrange(longest + 1))) for _ in range(count)]

    def input(self, script):
        lines = [bytes(CONTROLS)] + self.lines(script, 5, 4) + [b"", b"x", b"xyx"]
        return b"\n".join(lines) + self.choice([b"\n", b"\n", b""])

    def filler(self):
        """A byte of a literal, which an expression may match again."""
        return self.choice([b"X", b"X", b"a", b"]", b"="])

    def measured(self):
        """A delimiter, an expression, and a replacement for it that names groups."""
        self.high = self.choice([WHOLE, HIGH])
        d = self.fresh_delimiter()
        expression = self.fitted(self.expression()).replace("\\\n", "") or "a"
        parts = self.choices(["", "X", "\\1", "\\1", "\\2\\1", "&"], k=self.randrange(1, 3))
        return [part.encode("latin-1") for part in (d, expression, "".join(parts))]


def substitution(d, expression, replacement):
    return b"s" + d + expression + d + replacement + d


def literal(d, count, byte=b"X"):
    return (b"Z" if d == byte else byte) * count


def probe(d, expression):
    """Substitutions by literals of 0 bytes and more: as many shorten as the least length has bytes."""
    return b"".join(substitution(d, expression, literal(d, count)) + b"\n" for count in range(LONGEST + 1))


def marked(command: bytes) -> bytes:
    """The substitution between commands that make a byte 1 of the input a newline, and mark each line: Y where something was
    substituted, else N."""
    return b"y/\x01/\\n/\n" + command + b"\nt y\ns/^/N/\nb e\n:y\ns/^/Y/\n:e\ny/\\n/\x01/\n"


def looped(command: bytes) -> bytes:
    """The command in a loop that goes on as long as it substitutes something."""
    return b":a\n" + command + b"\nt a\n"


def broken_lines(kind: str, given: bytes, output: bytes) -> list:
    """Lines with which a substitution of this kind does what it shouldn't: shorten, or at least not lengthen."""
    lines, answers = given.split(b"\n")[:-1], output.split(b"\n")[:-1]
    if len(lines) != len(answers):
        return []
    longest = {"shorten": -1, "keep": 0}.get(kind)
    return [line for line, answer in zip(lines, answers)
            if longest is not None and answer[:1] == b"Y" and len(answer) - 1 > len(line) + longest]


class Hunt:
    """Runs scripts by the seds, and puts what is found into a report."""
    def __init__(self, scratch, judge, seds, abilities, report, seed):
        self.scratch, self.judge, self.seds, self.abilities, self.report = scratch, judge, seds, abilities, report
        self.draw, self.ways = HuntDraw(seed), Ways(seed + " ways")

    def hidden(self, count):
        """Scripts that hide commands."""
        scripts = [self.draw.script() for _ in range(count)]
        for script, judged in zip(scripts, self.judge.judge_all(scripts)):
            self.report.count("scripts that hide commands: " + ("accepted", "with a loop", "refused")[judged.status])
            if judged.status == 0 and is_inside(judged.reads | judged.writes):
                self.run(script, judged, self.draw.input(script))

    def lengths(self, count):
        """Substitutions whose kind, or the least length of their expression, is known from `sedck graph`."""
        drawn = [self.draw.measured() for _ in range(count)]
        probes = [probe(d, expression) for d, expression, _ in drawn]
        grouped = [marked(substitution(*parts)) for parts in drawn]
        judged = self.judge.judge_all(probes + grouped)
        for at, (d, expression, replacement) in enumerate(drawn):
            self.report.count("substitutions: " + ("accepted" if judged[at].status == 0 else "refused"))
            if judged[at].status == 0:
                least = list(self.judge.kinds(probes[at]).values()).count("shorten")
                if least:
                    self.measure(substitution(d, expression, literal(d, min(least, LONGEST) - 1, self.draw.filler())), "shorten", least)
            if judged[count + at].status == 0 and b"\\" in replacement:
                kind = self.judge.kinds(grouped[at])[1]
                if kind != "grow":
                    self.measure(substitution(d, expression, replacement), kind, 3)

    def measure(self, command, kind, least):
        """The substitution on lines about as short as the least length, and in a loop, where it shortens."""
        given = b"\n".join(self.draw.lines(command, 24, least + 1) + [bytes([byte]) for byte in sorted(set(command) - {10})]) + b"\n"
        is_loop = kind == "shorten"
        judged = self.judge.judge_all([looped(command) if is_loop else marked(command)])[0]
        assert judged.status == 0, "a substitution that shortens, or that is alone, isn't accepted: %r" % command
        broken = self.measured(marked(command), kind, given)
        self.measured_so(marked(command), kind, command, least, is_byte_safe(command, judged))
        if is_loop:
            self.run(looped(command), judged, given, [sed for sed in self.seds if sed.counts or sed not in broken])

    def measured(self, script, kind, given):
        """The seds that break the kind, each with the first line that shows it."""
        self.scratch.put(script, given)
        broken = []
        for sed in self.seds:
            lines = broken_lines(kind, given, self.scratch.run(sed.words).output)
            self.report.run(sed)
            if lines:
                broken.append(sed)
                self.found(sed, LINE, script, lines[0] + b"\n", "where the kind is " + kind)
        return broken

    def measured_so(self, script, kind, command, least, is_safe):
        """The same in a locale whose characters the sed knows."""
        for sed in self.seds:
            locale = self.ways.locale(command, self.abilities, sed)
            if locale:
                way = self.ways.way_of(locale, self.ways.lines(command, locale, 24, least + 1))
                self.report.count("lines: runs of %s, %s" % (sed.name, way.name))
                lines = broken_lines(kind, way.files[0], self.scratch.run_so(sed.words, way).output)
                if lines:
                    self.found_so(sed, LINE, script, way._replace(files=(lines[0] + b"\n",)), "where the kind is " + kind, is_safe)

    def run(self, script, judged, given, seds=None):
        """An accepted script by each sed."""
        seds = self.seds if seds is None else seds
        self.scratch.put(script, given)
        for sed in seds:
            done = self.scratch.run(sed.words, LIMIT_SECONDS if sed.counts else TOLD_SECONDS)
            self.report.run(sed)
            for what, detail in self.findings(sed, done, judged, [given], self.scratch.run):
                self.found(sed, what, script, given, detail)
        self.run_everywhere(script, judged, seds)

    def run_everywhere(self, script, judged, seds):
        """An accepted script in other ways."""
        if (judged.reads | judged.writes).isdisjoint(OPERANDS):
            is_safe = is_byte_safe(script, judged)
            self.report.count("scripts run in other ways: " + ("byte safe" if is_safe else "not byte safe"))
            self.scratch.put(script)
            for sed in seds if is_safe else [sed for sed in seds if self.abilities.known[sed.name]]:
                for way in self.ways.drawn(script, self.abilities, sed):
                    self.report.count("runs of %s, %s" % (sed.name, way.name))
                    for what, detail in self.findings_so(sed, judged, way, is_safe):
                        self.found_so(sed, what, script, way, detail, is_safe)

    def findings_so(self, sed, judged, way, is_safe):
        """What is found in a run of the script that was put. One that isn't byte safe is only counted, and has less time."""
        again = lambda words, seconds=LIMIT_SECONDS: self.scratch.run_so(words, way, seconds)
        done = again(sed.words, NOT_SAFE_SECONDS if not is_safe else LIMIT_SECONDS if sed.counts else TOLD_SECONDS)
        yield from self.findings(sed if is_safe else sed._replace(counts=False), done, judged, way.files, again, way.end)

    def findings(self, sed, done, judged, files, again, end=b"\n"):
        """What is found in a run over files whose lines end with this byte; another run of it is made by `again`."""
        made = done.made - judged.writes
        if b"E" in made:
            yield COMMAND, "touch E"
        elif made:
            yield FILE, b" ".join(sorted(made)).decode("latin-1")
        if SECRET in done.output and b"secret" not in judged.reads:
            yield READ, "secret"
        if done.status is None:
            if not sed.counts or again(sed.words, LONG_SECONDS).status is None:
                yield END, "stopped"
        elif sed.is_gnu and (judged.bound or judged.by_lines) and done.status == 0:
            shown = again(sed.words + ["--debug", "-n"])
            self.report.count("runs of GNU sed held against a limit on steps")
            steps = steps_at_most(shown.output)
            for bound in filter(None, (judged.bound, judged.by_lines)):
                if shown.status == 0 and steps > limit_of(bound, files, end):
                    yield END, "%d steps, above the limit %d" % (steps, limit_of(bound, files, end))
            if judged.bound and len(files) > 1 and steps > limit_of(judged.bound, files[:1], end):
                self.report.count(BEYOND_FIRST)

    def found_so(self, sed, what, script, way, detail, is_safe):
        """What was found in a way, where it counts."""
        if is_safe:
            self.found(sed, "%s, %s" % (what, way.name), script, way.files, detail)
        else:
            self.report.count(NOT_SAFE + what)

    def missed(self):
        """The scripts that aren't byte safe, run where that isn't asked: a line for each one that isn't found."""
        for script, given in UNSAFE:
            judged = self.judge.judge_all([script])[0]
            if self.judge.certificate(script) != 0 or is_byte_safe(script, judged):
                yield "this isn't accepted, or is byte safe: %r" % script
            for sed in self.seds:
                locale = next((one for one in self.abilities.known[sed.name] if one.charmap == "UTF-8"), None)
                if sed.is_gnu and locale:
                    self.scratch.put(script)
                    way = self.ways.way_of(locale, given.split(b"\n")[:-1])
                    if END not in dict(self.findings_so(sed, judged, way, False)):
                        yield "%s, %s: this isn't found to run for ever: %r" % (sed.name, way.name, script)

    def found(self, sed, what, script, given, detail):
        """What was found, once it is certain that `sedck rank` and `check` accept the script too."""
        if self.judge.certificate(script) != 0:
            raise SystemExit("sedck and sedck-explain answer otherwise: %r" % script)
        self.report.finding(sed, what, script, given, detail)


def known_kinds(done: object, listed: set) -> set:
    """The kinds of what a run shows of which no certificate is asked."""
    made = done.made - listed
    kinds = {COMMAND} if b"E" in made else {FILE} if made else set()
    return kinds | ({READ} if SECRET in done.output else set()) | ({END} if done.status is None else set())
