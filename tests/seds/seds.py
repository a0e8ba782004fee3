#!/usr/bin/env python3
"""Runs real seds beside sedck: on scripts that are drawn, on the examples and on folders of your own.

    python3 tests/seds/seds.py build/sedck [--scripts N] [--seed S] [--jobs J] [--inputs K] [--folder DIR] [--sed NAME=COMMAND] ..
        [--explain build/sedck-explain] [--only-plain]
    python3 tests/seds/seds.py build/sedck --table

Scripts that hide commands, and substitutions, are drawn from all of the grammar (seds_draw.py); those that `sedck` accepts are run by
each sed, also in other locales, over several files and with `-s`, `-i` and `-z` (seds_ways.py), and what their certificates rule out is
a finding (seds_hunt.py). A twentieth as many scripts, with K inputs each, and the scripts of the examples and folders, are also run by
GNU sed with `--debug`, and each step is held against the edges that `sedck graph` lists (seds_trace.py); the same steps are held against
a graph with `keep` in place of `grow`, which must be caught. So must each script of the page docs/SEDS.md that some sed is known to read
in another way, which is run without asking `sedck`, and two that run for ever in UTF-8, where it isn't asked whether a script is byte
safe. Accepted scripts are also run in their plain spelling (seds_plain.py), which the program of `--explain`, or the one beside `sedck`,
writes; with `--only-plain` nothing else is run. At the end the page's table of statuses is run again, and rows that are others here are
printed, which is no finding: that sed is of another version. With `--table` only what `sedck` answers in the page's tables is looked at.
The status is 0 where nothing was found.
Runs are in scratch folders, under limits, with a search path that has `touch` alone, and not as the superuser. Which scripts are
drawn depends on N and S alone; locales that `localedef` has made may be kept in the folder of LOCPATH.
"""
import argparse
import collections
import itertools
import multiprocessing
import os
import shutil
import subprocess
import sys

sys.path.insert(0, os.path.dirname(os.path.abspath(__file__)))
from seds_draw import Draw  # noqa: E402
from seds_hunt import BEYOND_FIRST, Hunt, is_inside  # noqa: E402
from seds_page import answers_of_sedck, compared  # noqa: E402
from seds_plain import PlainHunt, has_plain  # noqa: E402
from seds_run import Judge, Scratch, become_nobody, make_top  # noqa: E402
from seds_trace import Graph, Trace, limit_of, unexplained  # noqa: E402
from seds_ways import Abilities, locales_found  # noqa: E402

TOP = os.path.dirname(os.path.dirname(os.path.dirname(os.path.abspath(__file__))))
PAGE = os.path.join(TOP, "docs", "SEDS.md")
BATCH = 200
SHOWN = 4
TOLD_ALONE = ("toybox", "ssed")
LOOP_SECONDS = 0.3

Sed = collections.namedtuple("Sed", "name words version is_gnu counts")


def first_line(command):
    done = subprocess.run(command, stdin=subprocess.DEVNULL, stdout=subprocess.PIPE, stderr=subprocess.DEVNULL, text=True)
    return done.stdout.split("\n")[0]


def seds_found(named: list[str]) -> list:
    """The seds of this machine. Of GNU sed there are two: as it is, and with `--posix`."""
    commands = dict(item.split("=", 1) for item in named)
    for name, words in (("sed", "sed"), ("gsed", "gsed"), ("busybox", "busybox sed"), ("toybox", "toybox sed"), ("ssed", "ssed")):
        if shutil.which(words.split()[0]):
            commands.setdefault(name, words)
    found = []
    for name, words in commands.items():
        words = words.split()
        if not shutil.which(words[0]):
            raise SystemExit("no command %s" % words[0])
        words[0] = os.path.abspath(shutil.which(words[0]))
        versions = (first_line(command) for command in (words + ["--version"], words[:1] + ["--version"], words[:1]))
        version = next((line for line in versions if line and "not GNU" not in line), "no version")
        is_gnu = "(GNU sed)" in version
        found.append(Sed(name, words, version, is_gnu, name not in TOLD_ALONE))
        if is_gnu and "--posix" not in words:
            found.append(Sed(name + " --posix", words + ["--posix"], version, is_gnu, True))
    return found


class Report:
    """Counts, and findings by kind and sed."""
    def __init__(self):
        self.counts, self.found, self.unspelled = collections.Counter(), [], []

    def count(self, what, by=1):
        self.counts[what] += by

    def run(self, sed):
        self.counts["runs of " + sed.name] += 1

    def finding(self, sed, what, script, given, detail):
        self.found.append((sed.name, sed.counts, what, script, given, detail))

    def add(self, other):
        self.counts += other.counts
        self.found += other.found
        self.unspelled += other.unspelled

    def lines(self):
        """A line for each count; then for each sed and kind how many findings there are, and the shortest scripts."""
        yield from ("%7d %s" % (count, what) for what, count in sorted(self.counts.items()))
        kinds = collections.defaultdict(dict)
        for name, counts, what, script, given, detail in self.found:
            kinds[not counts, name, what].setdefault(script, (given, detail))
        for (apart, name, what), scripts in sorted(kinds.items()):
            yield "%s: %s: %s, in %d scripts" % ("apart" if apart else "FOUND", name, what, len(scripts))
            for script in sorted(scripts, key=len)[:SHOWN]:
                yield "  script %r\n  input %r: %s" % (script, *scripts[script])
        for script in sorted(self.unspelled, key=len)[:SHOWN]:
            yield "no plain spelling: %r" % script
        yield "%d findings" % self.failures()

    def failures(self):
        return sum(1 for finding in self.found if finding[1])


# ---- steps of GNU sed

def try_steps(scratch, judge, script, inputs, seds, report):
    """The script by each sed, and the steps of GNU sed held against its edges and its limits; with a loop, by GNU sed on one input."""
    judged = judge.judge_all([script])[0]
    report.count("scripts held step by step: " + ("with a certificate", "with a loop", "refused")[judged.status])
    for name, limit in (("bound", judged.bound), ("limit on the steps", judged.bound or judged.by_lines), ("limit on the spaces", judged.spaces)):
        if limit:
            report.count("scripts held step by step: with a " + name)
    if judged.status == 2 or not is_inside(judged.reads | judged.writes):
        return judged
    graph = Graph(judge.call("graph", os.path.join(judge.folder, "0"))[1])
    if judged.status == 1:
        inputs, seds = inputs[:1], [sed for sed in seds if sed.is_gnu]
    for given in inputs:
        scratch.put(script, given)
        for sed in seds:
            done = scratch.run(sed.words + (["--debug", "-n"] if sed.is_gnu else ["-n"]), LOOP_SECONDS if judged.status else 5)
            report.count("runs step by step")
            if done.status is None:
                report.count("runs step by step, of scripts with a loop, that were stopped")
                if judged.status == 0:
                    report.finding(sed, "run without end", script, given, "stopped")
            elif judged.status == 0 and done.made - judged.writes:
                report.finding(sed, "unlisted file", script, given, repr(done.made))
            elif done.status < 0:
                report.count("runs step by step in which %s crashed" % sed.name)
            elif done.status == 1:
                report.count("runs step by step of scripts that %s doesn't read" % sed.name)
            elif sed.is_gnu:
                hold_steps(graph, judged, Trace(done.output), given, sed, script, report)
    return judged


def hold_steps(graph, judged, trace, given, sed, script, report):
    if len(trace.places()) != graph.commands:
        if trace.program:
            report.count("runs whose commands couldn't be told apart")
        return
    total, steps = given.count(b"\n"), trace.steps()
    report.count("steps held against edges", len(steps))
    wrong = unexplained(graph, trace, total)
    if wrong:
        report.finding(sed, "step on no edge", script, given, wrong)
    if unexplained(graph.with_keep_for_grow(), trace, total):
        report.count("runs that a graph with keep for grow doesn't explain")
    most = len(steps) + sum(1 for line in trace.events if line == "END-OF-CYCLE:") + 1
    for name, limit, reached in (("bound", judged.bound, most), ("limit by lines", judged.by_lines, most), ("limit on the spaces", judged.spaces, trace.longest())):
        if limit:
            report.count("runs held against a " + name)
            if reached == limit_of(limit, [given]):
                report.count("runs that reach a " + name)
            if reached > limit_of(limit, [given]):
                report.finding(sed, "run above its " + name, script, given, "%d at most, above %d" % (reached, limit_of(limit, [given])))


# ---- work, by processes

def prepare(top, seds, locales):
    """A process of its own folder, without the superuser's rights."""
    become_nobody()
    prepare.scratch = Scratch(top)
    prepare.judge, prepare.seds = Judge(prepare.scratch, top), seds
    prepare.locales, prepare.abilities = locales, None


def hunt_of(report, seed, kind=Hunt):
    # What the seds know is found out by the first task, since a fault in what prepares a process would begin another one for ever.
    prepare.abilities = prepare.abilities or Abilities(prepare.scratch, prepare.seds, prepare.locales)
    return kind(prepare.scratch, prepare.judge, prepare.seds, prepare.abilities, report, seed)


def work(task):
    """One task: its report. What is drawn depends on the task's seed alone."""
    what, seed, argument = task
    report = Report()
    if what in ("plain", "plain lengths", "plain script"):
        hunt = hunt_of(report, seed, PlainHunt)
        {"plain": hunt.texts, "plain lengths": hunt.lengths, "plain script": hunt.script}[what](argument)
        return report
    hunt = hunt_of(report, seed)
    if what == "steps":
        draw = Draw(seed)
        script, inputs = argument
        times = 1 if script is None else inputs
        script = draw.script() if script is None else script
        judged = try_steps(prepare.scratch, prepare.judge, script, [draw.input() for _ in range(inputs)], prepare.seds, report)
        if judged.status == 0 and is_inside(judged.reads | judged.writes):
            for _ in range(times):
                hunt.run_everywhere(script, judged, prepare.seds)
    else:
        report.count("scripts that hide commands: drawn" if what == "hidden" else "substitutions: drawn", argument)
        (hunt.hidden if what == "hidden" else hunt.lengths)(argument)
    return report


def pages(page):
    """The page's tables, run again."""
    return compared(page, prepare.scratch, prepare.seds, next((one for one in prepare.locales if one.charmap == "UTF-8"), None))


def known():
    """What the seds know, and which scripts that aren't byte safe aren't found where the characters of a GNU sed have several bytes."""
    hunt = hunt_of(Report(), "")
    is_tried = any(sed.is_gnu and one.charmap == "UTF-8" for sed in prepare.seds for one in hunt.abilities.known[sed.name])
    return list(hunt.abilities.lines()), list(hunt.missed()), is_tried


def unnoticed():
    """Which wrong plain texts aren't noticed."""
    return list(hunt_of(Report(), "", PlainHunt).unnoticed())


def scripts_in(folders):
    """The names and texts of the scripts there."""
    for folder in folders:
        for name in sorted(os.listdir(folder)):
            if name.endswith(".sed"):
                with open(os.path.join(folder, name), "rb") as text:
                    yield name, text.read()


def plain_tasks(scripts, seed, folders):
    """The same scripts, of which a fifth are substitutions, in their plain spelling, and those of the folders."""
    for at in range(0, scripts, BATCH):
        yield "plain lengths" if at // BATCH % 5 == 4 else "plain", "%d %d" % (seed, at), min(BATCH, scripts - at)
    for name, text in scripts_in(folders):
        yield "plain script", "%d %s" % (seed, name), text


def tasks(scripts, seed, inputs, folders):
    """Of the scripts a fifth are substitutions, and a twentieth more are held step by step."""
    for at in range(0, scripts, BATCH):
        what = "lengths" if at // BATCH % 5 == 4 else "hidden"
        yield what, "%d %d" % (seed, at), min(BATCH, scripts - at)
    for at in range(scripts // 20):
        yield "steps", "%d steps %d" % (seed, at), (None, inputs)
    for name, text in scripts_in(folders):
        yield "steps", "%d %s" % (seed, name), (text, inputs)


def arguments():
    words = argparse.ArgumentParser()
    words.add_argument("sedck")
    words.add_argument("--scripts", type=int, default=20000)
    words.add_argument("--seed", type=int, default=1)
    words.add_argument("--jobs", type=int, default=1)
    words.add_argument("--inputs", type=int, default=4)
    words.add_argument("--folder", action="append", default=[])
    words.add_argument("--sed", action="append", default=[])
    words.add_argument("--table", action="store_true")
    words.add_argument("--explain")
    words.add_argument("--only-plain", action="store_true")
    return words.parse_args()


def main():
    asked = arguments()
    sedck = os.path.abspath(asked.sedck)
    if asked.table:
        wrong = list(answers_of_sedck(PAGE, sedck))
        print("\n".join(wrong) or "seds: the tables have the statuses of sedck")
        return 1 if wrong else 0
    seds, report = seds_found(asked.sed), Report()
    for sed in seds:
        print("%s: %s%s" % (sed.name, sed.version, "" if sed.counts else ", whose findings don't count"))
    if not seds:
        print("no sed is found")
        return 0
    folders = [os.path.join(TOP, "examples")] + asked.folder
    explain = os.path.abspath(asked.explain or sedck + "-explain")
    top = make_top([sedck])
    shutil.copy(explain, os.path.join(top, "sedck-explain"))
    spells = has_plain(explain) and any(sed.is_gnu for sed in seds)
    if not spells:
        print("plain texts are left out: no GNU sed is found, or %s has no format sed" % explain)
    try:
        with multiprocessing.Pool(asked.jobs, prepare, (top, seds, locales_found(top))) as pool:
            lines, missed, is_tried = pool.apply(known)
            print("\n".join(lines), flush=True)
            missed += pool.apply(unnoticed) if spells else []
            every = () if asked.only_plain else tasks(asked.scripts, asked.seed, asked.inputs, folders)
            plain = plain_tasks(asked.scripts, asked.seed, folders) if spells else ()
            for part in pool.imap_unordered(work, itertools.chain(every, plain)):
                report.add(part)
            others = [] if asked.only_plain else pool.apply(pages, (PAGE,))
    finally:
        shutil.rmtree(top, ignore_errors=True)
    return status_of(asked, report, seds, missed, others, is_tried)


def status_of(asked, report, seds, missed, others, is_tried):
    """Prints what was found and what was missed, and answers the status."""
    for line in report.lines():
        print(line)
    print("\n".join(missed) or "known scripts that aren't byte safe " + ("are found" if is_tried else "weren't tried: no GNU sed with UTF-8"))
    missed += [line for is_fault, line in others if is_fault]
    for is_fault, line in others:
        print(("" if is_fault else "of another version: ") + line)
    if len(report.unspelled) * 1000 > report.counts["plain texts: accepted scripts"]:
        missed.append("more than one of a thousand accepted scripts has no plain spelling")
        print(missed[-1])
    if asked.only_plain:
        return 1 if report.failures() or missed else 0
    if any(sed.is_gnu for sed in seds) and not report.counts["runs that a graph with keep for grow doesn't explain"]:
        missed.append("a graph with keep for grow was not caught")
        print(missed[-1])
    if any(sed.is_gnu for sed in seds) and not report.counts[BEYOND_FIRST]:
        missed.append("no run over several files went beyond the bound of the first one")
        print(missed[-1])
    return 1 if report.failures() or missed else 0


if __name__ == "__main__":
    sys.exit(main())
