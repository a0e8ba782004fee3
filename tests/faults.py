#!/usr/bin/env python3
"""Compares what the pages say of faults: python3 tests/faults.py build/sedck-explain, in the folder of the repository.

The faults and rejections in the tables of docs/FAULTS.md must be just those of man/sedck.5, by number and name. A fault whose sections
show scripts must be the answer to one of them; tests/pages.py says whether the answers are right. The message with which a section begins
must be that of sedck-explain for the section's first script or, without one, be in the code. The findings of man/sedck-explain.1 must
be just the codes, by name, and all of these faults and rejections must be among them: the variants of `Code` in sedck_report, and the
faults that a code names. The manual page must name each field of the format for programs. The status is 0 only where all of this holds.
"""
import json
import os
import re
import subprocess
import sys

# The heads of man/sedck.5 and of docs/FAULTS.md, and how an answer of `sedck` names a fault of that family.
HEADS = {"FAULTS OF SCRIPTS": ("Faults of scripts", "script fault"), "FAULTS OF EXPRESSIONS": ("Faults of expressions", "expression fault"),
         "FAULTS OF CERTIFICATES": ("Faults of certificates", None), "REJECTIONS": ("Rejections", None)}
FAULT = r"^\| (?:`rejected )?(\d+) \[?`?([a-z][\w-]+)(?=[` ])"
# A refused expression is a finding by its own fault, and lack of memory is none.
NO_FINDINGS = {"bad-expression", "out-of-memory"}
CODES = "crates/sedck_report/src/code.rt"
FAULTS = ["crates/sedck_commands/src/fault.rt", "crates/sedck_expressions/src/fault.rt", "crates/sedck_cert/src/reading.rt"]
MESSAGES = "crates/sedck_errors/src/refusals.rt"


def section(text, head, mark):
    """What follows the line with this head, up to the next line that begins with the mark."""
    return re.split(mark, text.split(head + "\n", 1)[1], maxsplit=1, flags=re.M)[0]


def read(name):
    with open(name) as file:
        return file.read()


def by_section(text):
    """The name of each fault that has sections, with the texts of these."""
    found = {}
    for part in re.split(r"^### ", text, flags=re.M)[1:]:
        found.setdefault(re.match(r"[a-z-]+", part)[0], []).append(part)
    return found


def unshown(text, words):
    """The faults whose sections show refused scripts, none of which has the fault as its answer."""
    numbers, wrong = {name: number for number, name in re.findall(FAULT, text, flags=re.M)}, []
    for name, parts in by_section(text).items():
        answers = re.findall(r"^Refused, `([^`]*)`:$", "".join(parts), flags=re.M)
        if answers and not any("%s %s %s at " % (words, numbers.get(name), name) in answer for answer in answers):
            wrong.append((numbers.get(name), name))
    return wrong


def said_of(explain, script):
    """The first finding of a script: its message without the hint, and its code."""
    line = subprocess.run([explain, "--format", "gcc", "-"], input=script, capture_output=True, text=True, check=False).stdout.split("\n")[0]
    found = re.fullmatch(r"-:\d+:\d+: error: (.*?)(?:; hint: .*)? \[([a-z-]+)\]", line)
    return found.groups() if found else (line, None)


def messages_differ(explain, text):
    """The sections of faults that don't begin with the message of `sedck-explain` for their first script, and what it says."""
    source = read(MESSAGES)
    for name, parts in by_section(text).items():
        shown = re.match(r"[a-z-]+\n\n```\nerror: (.*) \[([a-z-]+)\]\n```\n", parts[0])
        script = re.search(r"^```sed\n(.*?)^```$", parts[0], flags=re.M | re.S)
        if name in NO_FINDINGS:
            continue
        if not shown or shown[2] != name:
            yield name, "no message"
        elif script and said_of(explain, script[1]) != shown.groups():
            yield name, said_of(explain, script[1])
        elif not script and '"%s"' % shown[1].replace("\\", "\\\\") not in source:
            yield name, "no such text in %s" % MESSAGES


def codes():
    """The names of the variants of `Code`, as `Code::name` answers them, and of the faults that a code names."""
    enum = section(read(CODES), "pub enum Code {", r"^}")
    variants = re.findall(r"^    (\w+),$", enum, flags=re.M)
    table = dict(re.findall(r'^ +Code::(\w+) => "([a-z-]+)",$', section(read(CODES), "        match self {", r"^        }"), flags=re.M))
    names = [re.sub(r"\B([A-Z])", r"-\1", variant).lower() for variant in variants]
    if not names or [table.get(variant) for variant in variants] != names:
        return set()
    faults = {name for path in FAULTS for name in re.findall(r'^ +\w+Fault::\w+(?: \{.*\})? => \(\s*\d+,\s*"([a-z-]+)",', read(path), flags=re.M)}
    return set(names) | faults - NO_FINDINGS


def findings_differ(names):
    """How the findings of the manual page differ from the codes, and which of those names is no code."""
    page = section(read("man/sedck-explain.1").replace(r"\-", "-"), ".SH FINDINGS", r"^\.SH ")
    found, due = set(re.findall(r"^\.TP\n\.B ([a-z-]+)$", page, flags=re.M)), codes()
    if not due:
        return "%s: the variants of `Code` aren't named as `Code::name` names them" % CODES
    if found == due and names - NO_FINDINGS <= due:
        return ""
    return "it lacks %s, and has %s too many; no codes: %s" % (sorted(due - found), sorted(found - due), sorted(names - NO_FINDINGS - due))


def fields(value):
    """The names of all fields in a value of JSON."""
    inner = value.values() if isinstance(value, dict) else value if isinstance(value, list) else []
    return set(value if isinstance(value, dict) else []).union(*map(fields, inner))


def fields_unnamed(explain):
    """The fields that the program prints of a loop, a limit and a file, and the manual page doesn't name."""
    page = section(read("man/sedck-explain.1"), ".SS json", r"^\.SS ")
    named = set(re.findall(r"[a-z_]+", " ".join(re.findall(r"^\.B[RI]? (.*)$", page, flags=re.M))))
    scripts = ["examples/join-all-loop.sed", "examples/write-section.sed"]
    lines = subprocess.run([explain, "--format", "json", *scripts], capture_output=True, text=True).stdout.splitlines()
    found = set().union(*(fields(json.loads(line)) for line in lines))
    return sorted(found - named) if {"steps", "per_byte", "positions"} <= found else ["nothing is printed"]


def pages_differ(explain):
    """How the families of faults differ on both pages, and the names of all faults."""
    names, wrong = set(), []
    manual, page = read("man/sedck.5").replace(r"\-", "-"), read("docs/FAULTS.md")
    for head, (heading, words) in HEADS.items():
        text = section(page, "## " + heading, r"^## ")
        found = set(re.findall(FAULT, text, flags=re.M))
        manual_text = re.split(r"^\.SH ", re.split(r'^\.SH "?%s"?\n' % head, manual, flags=re.M)[1], flags=re.M)[0]
        due = set(re.findall(r"^\.B (\d+) ([a-z][\w-]+)$", manual_text, flags=re.M))
        names |= due
        if found != due or not due:
            wrong.append("docs/FAULTS.md, %s: it lacks %s of man/sedck.5, and has %s too many" % (heading, sorted(due - found), sorted(found - due)))
        if words:
            wrong += ["docs/FAULTS.md, %s: no script gets fault %s %s" % (heading, *fault) for fault in unshown(text, words)]
        wrong += ["docs/FAULTS.md, %s: %s: sedck-explain says %s" % (heading, *differs) for differs in messages_differ(explain, text)]
    return names, wrong


def main():
    explain = os.path.abspath(sys.argv[1])
    faults, wrong = pages_differ(explain)
    differs = findings_differ({name for _, name in faults})
    if differs:
        wrong.append("man/sedck-explain.1, FINDINGS: " + differs)
    unnamed = fields_unnamed(explain)
    if unnamed:
        wrong.append("man/sedck-explain.1, FORMATS: fields that it doesn't name: %s" % unnamed)
    for text in wrong:
        print(text)
    if not wrong:
        print("faults: %d are the same on both pages" % len(faults))
    return 1 if wrong else 0


if __name__ == "__main__":
    sys.exit(main())
