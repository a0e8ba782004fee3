#!/usr/bin/env python3
"""Compares the two readers of scripts: python3 tests/parts.py crates/sedck_probe/out/sedck_probe [--scripts N] [--seed SEED]

`Reading` of `sedck_parts` knows just enough of the language to say in which part of a script a byte is, also where the text is no script:
hints, warnings and the holes of calls depend on it. `sedck_script` is proved. It is asked by what it makes of a script that it accepts once
a few bytes are put in: the fault and its place say in which part they are. So each offset of each script is tried, of the examples, of
the rows that are scripts, and of drawn ones. The status is 0 only where both readers find the same everywhere.
"""
import argparse
import json
import re
import subprocess
import sys
import tempfile
from collections import Counter
from pathlib import Path

TOP = Path(__file__).resolve().parent.parent
sys.path.insert(0, str(TOP / "tests" / "seds"))
from seds_draw import Draw, Grammar

FAULT = re.compile(r"fault \d+ ([a-z-]+) at (\d+)(?:: expression fault \d+ ([a-z-]+) at (\d+))?")
# Scripts for what is seldom drawn.
CHOSEN = [
    rb"s/[]]/x/", rb"s/[^]]\{1,2\}/x/", rb"s/[^^]*a/x/", rb"s/[[:alpha:]x[.[.]]x/y/", rb"s:[\:[]x:y:", rb"s:[[\:alpha\:][=[=]]z:y:", rb"s=[a[\=b\=]c]*=y=",
    rb"s/[[.].]x]/y/", rb"s/[\/]]/[/", rb"s/\[x]/[x/", rb"s/a\/[\]/x\/y\&/w out", rb"\,x\,[x\,]*,p", rb"y/a\/\\\nb/c\/\\\nd/", rb"y,[a],abc,;p",
    b"a\\\nx\\\ny;p\np", b"a x\\\ny\np",
    b"i\\  x\np", b"c\\\n\np", b"$!{p;b end\n};:end # x;y\np", b"/x/{bend};p\n:end;p", b"b a # it's; p\n:a # }\np", b":a;s/x\\ny/\\\n/;ta\np", rb"s/\(a\)\{2\}}/\1}/;p",
    b"s/a/b/w out;p\np", b"s/a/b/pw out\n#;p\np # x", b"s/a/b/ # x\np", b"1,/x/{/y/,$!p\n}", b"r in;p\nw out}\nx", b"#n\np", b"s/a/b/\n/c/s/d/e/\n/f/p", b"\\xa\\x\\{1\\}xd", b"y/abc/\\n\\\\x/ ;p",
]


def texts_of(value):
    """All texts in a value of JSON."""
    if isinstance(value, str):
        yield value.encode("latin-1", "replace")
    elif isinstance(value, (list, dict)):
        for inside in value.values() if isinstance(value, dict) else value:
            yield from texts_of(inside)


def scripts_of(count, seed):
    """The scripts that are tried, each once."""
    grammar, plain = Grammar(seed), Draw(seed)
    drawn = [plain.script() if at % 4 == 0 else grammar.script() for at in range(count)]
    files = [path.read_bytes() for path in sorted((TOP / "examples").glob("*.sed"))]
    rows = [text for path in sorted((TOP / "tests" / "rows").glob("*.json")) for text in texts_of(json.loads(path.read_text("utf-8")))]
    return [text for text in dict.fromkeys(CHOSEN + files + drawn + rows) if len(text) < 3000 and b"\0" not in text]


def read(program, texts):
    """What the program says of each text: the letters of its places, and its commands or its fault."""
    with tempfile.NamedTemporaryFile(prefix="sedck-parts-") as file:
        file.write(b"\0".join(texts))
        file.flush()
        done = subprocess.run([program, "--parts", file.name], capture_output=True, text=True, check=True)
    lines = [line for line in done.stdout.split("\n") if line and not line.startswith(("checked:", "run="))]
    if len(lines) != 2 * len(texts):
        raise SystemExit("%s says %d lines of %d texts" % (program, len(lines), len(texts)))
    return list(zip(lines[::2], lines[1::2]))


def commands_of(said):
    """The commands, each with its start, its verb, its end and a length; None where there is a fault."""
    return [tuple(map(int, word.split(","))) for word in said.split()[1:]] if said.startswith("commands") else None


def fault_of(said):
    """The fault's name and place, and the same of an expression's."""
    match = FAULT.fullmatch(said)
    return (match[1], int(match[2]), match[3], match[4] and int(match[4])) if match else (None, None, None, None)


class Probe:
    """Bytes that are put into a script, and what must be said of it then."""

    def __init__(self, script, offset, bytes_in, holds):
        self.script, self.offset, self.holds = script, offset, holds
        self.text = script[:offset] + bytes_in + script[offset:]


def grown(commands, offset):
    """Whether the text or the name of the command that has the offset is longer, and no other one's; none is where no command has it."""
    def holds(said):
        found = [length for *_, length in commands_of(said) or ()]
        return len(found) == len(commands) and all((length < now) if start < offset <= end else length == now
                                                   for (start, _, end, length), now in zip(commands, found))
    return holds


def faulty(names, place):
    """Whether the fault has one of these names, and this place."""
    return lambda said: fault_of(said)[0] in names and fault_of(said)[1] == place


def refused_for(inside, names, begin):
    """Whether the fault has one of these names, and is one of these in the expression that begins there."""
    def holds(said):
        name, at, inner, _ = fault_of(said)
        return name in names and (name != "bad-expression" or inner in inside and begin in (at, None))
    return holds


def probes_of(script, letters, commands):
    """The probes of a script that is accepted."""
    begin, delimiter = 0, None
    for offset, letter in enumerate(letters):
        if letter in "EeIiLRrYy":
            delimiter = script[offset - 1:offset] if letters[offset - 1] in "dc" else delimiter
            begin = offset if letters[offset - 1] in "dc" else begin
        other = b"w" if delimiter == b"z" else b"z"
        # Beside an escaped delimiter `sedck_script` looks at the whole expression first.
        wrong = {"bad-expression"}, begin
        if delimiter in (b":", b"=", b"'", b"x") and b"\\" + delimiter in script:
            wrong = {"bad-expression", "escaped-delimiter"}, None
        mark = b"=" if delimiter in (b":", b"z") else b":"
        at = lambda bytes_in, holds, offset=offset: Probe(script, offset, bytes_in, holds)
        if letter == "E":
            yield at(b"\\" + other, refused_for({"bad-escape"}, *wrong))
        elif letter == "e":
            yield at(other, refused_for({"bad-escape"}, *wrong))
        elif letter in "Ii" and delimiter not in (b"z", b"w"):
            yield at(b"z", refused_for({"bad-interval"}, *wrong))
        elif letter == "L" and delimiter not in (b"[", b"]", b"="):
            yield at(b"[" + mark + b"zz" + mark + b"]", refused_for({"bad-bracket", "unclosed-bracket"}, *wrong))
        elif letter == "R":
            yield at(b"\\" + other, faulty({"bad-replacement"}, offset))
        elif letter == "r":
            yield at(other, faulty({"bad-replacement"}, offset - 1))
        elif letter == "Y":
            yield at(b"\\" + other, faulty({"bad-transliteration"}, offset))
        elif letter == "y":
            yield at(other, faulty({"bad-transliteration"}, offset - 1))
        elif letter == "F":
            yield at(b"z", faulty({"bad-flag", "extra-text"}, offset))
        elif letter == "c":
            yield at(b"z", faulty({"unknown-command", "extra-text", "bad-address"}, offset))
        elif letter == "T" or letter in "NC" and script[offset - 1:offset] not in (b"\\", b"\r"):
            yield at(b"z", grown(commands, offset))
        elif letter == "t":
            yield at(b"z\\", grown(commands, offset))
        elif letter == "K":
            yield at(b"z", faulty({"extra-text", "bad-label"}, offset))


def beginnings(script, letters, commands):
    """What is wrong with the places where commands begin and have their verbs."""
    for start, verb, _, _ in commands:
        for offset in (start, verb):
            if letters[offset] != "c":
                yield offset, "a command is here"
    for offset, letter in enumerate(letters):
        if letter in "JB" and not any(verb < offset <= end for _, verb, end, _ in commands):
            yield offset, "no label and no text is here"


def main():
    words = argparse.ArgumentParser()
    words.add_argument("program")
    words.add_argument("--scripts", type=int, default=4000)
    words.add_argument("--seed", type=int, default=1)
    asked = words.parse_args()
    scripts = scripts_of(asked.scripts, asked.seed)
    accepted = [(script, letters, commands_of(said)) for script, (letters, said) in zip(scripts, read(asked.program, scripts)) if commands_of(said) is not None]
    failures = [(script, offset, what) for script, letters, commands in accepted for offset, what in beginnings(script, letters, commands)]
    probes = [probe for found in accepted for probe in probes_of(*found)]
    for probe, (_, said) in zip(probes, read(asked.program, [probe.text for probe in probes])):
        if not probe.holds(said):
            failures.append((probe.script, probe.offset, "%r gives %r" % (probe.text, said)))
    for script, offset, what in failures[:20]:
        print("FAILED: %r, offset %d: %s" % (script, offset, what))
    places = Counter(letter for _, letters, _ in accepted for letter in letters)
    print("parts: %d scripts of %d texts, %d offsets tried, %d failures; by place: %s" % (len(accepted), len(scripts), len(probes), len(failures), dict(places)))
    return 1 if failures or len(accepted) < 100 else 0


if __name__ == "__main__":
    sys.exit(main())
