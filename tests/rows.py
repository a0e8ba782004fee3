#!/usr/bin/env python3
"""Runs sedck on rows of data: python3 tests/rows.py build/sedck crates/sedck_probe/out/sedck_probe [--jobs N]

The rows are in tests/rows/*.json, a file for each subject, with texts that have names, and tables. A string among a table's rows is a
remark on the rows after it. What a table has beside its rows holds for each row that doesn't say otherwise. A row has:

    script, certificate   the bytes of these files, as a text
    rank, check, ..       what this verb must answer: a text is printed, with status 0; {"no": TEXT} is printed with status 1;
                          {"begins": TEXT} begins what is printed, with status 0; {"fault": LINE} is said on standard error, with
                          status 2; after {} it is only asked that the status is 0
    expression, locate,   what this call of the second program must answer, for functions that sedck doesn't show: the text that it
    verify, reader, ..    prints, or {"fault": LINE}; it makes each call twice. `reader` and `old` read a certificate of version 2 and 1
    verbs                 that each of these must answer the same: the row's fault, or where it has none that there is no fault
    for                   that the row is one for each of these characters, in place of `@` in the script
    lengths               [FIRST, LAST]: this of each beginning of the certificate with so many bytes
    beginnings            that each beginning of the script is read, or refused for a fault that lies in it or at its end
    bytes                 how long the certificate is
    endless               this text, again and again for ever, as both files
    words                 the arguments in place of a verb: a word after `@` is the file of the named text, or missing. Then `status`,
                          `stdout` and `stderr` are wanted, and the same status and output where standard error has room for 0 or 7 bytes

A text is a string, whose characters are bytes; a list of texts, one after another; {"named": NAME}, with `old` replaced by `new` where
they are there (`certificate` is the row's own); {"text": TEXT, "times": N}; {"text": TEXT, "from": M, "count": N}: copies for n from M
on, with numbers in place of `{n}`, `{3n+1}` or `{-n+9}`; or a certificate: `version`, `commands`, `ranks` by node, and the names to
`read` and to `write`. What is expected was worked out by hand from the rules of docs/GRAMMAR.md, docs/FORMATS.md and docs/FAULTS.md.
"""
import argparse
import json
import os
import re
import subprocess
import sys
import tempfile
from concurrent.futures import ThreadPoolExecutor
from pathlib import Path

FOLDER = Path(__file__).resolve().parent / "rows"
VERBS = {"rank": "s", "files": "s", "graph": "s", "check": "sc", "upgrade": "c"}
CALLS = {"expression": "s", "locate": "s", "verify": "sc", "reader": "c", "old": "c", "either": "c"}
KEYS = {"about", "script", "certificate", "verbs", "fault", "lengths", "beginnings", "endless", "bytes", "words", "status", "stdout", "stderr", *VERBS, *CALLS}
LINEAR = re.compile(r"\{(-?\d*)n([+-]\d+)?\}")
FAULT = re.compile(rb"sedck: script fault (\d+) [a-z-]+ at (\d+)(: expression fault \d+ [a-z-]+ at \d+)?\n")
OUT_OF_MEMORY = 23
# Runs a program whose files may have no more bytes than this. Python ignores the signal for it, and so does the program then.
LIMITED = "import os, resource, sys; room = int(sys.argv[1]); resource.setrlimit(resource.RLIMIT_FSIZE, (room, room)); os.execv(sys.argv[2], sys.argv[2:])"


def numbered(text, number):
    """The text with numbers in place of what is linear in n."""
    def value(match):
        times = {"": 1, "-": -1}.get(match[1]) or int(match[1])
        return str(times * number + int(match[2] or 0))

    return LINEAR.sub(value, text)


def certificate(parts):
    """The text of the certificate; a node that isn't listed has no ranks."""
    unknown = set(parts) - {"version", "commands", "ranks", "read", "write"}
    assert not unknown, unknown
    ranks = dict(line.rsplit(" ", 2)[0:1] + [line] for line in parts["ranks"].split(", ") if line)
    ends = {1: ["0", "1"], 2: ["0 0", "0 1", "1 0", "1 1"]}[parts["version"]]
    nodes = ["%d %s" % (at, end) for at in range(parts["commands"] + 1) for end in ends]
    assert set(ranks) <= set(nodes), parts
    lines = ["sedck %d" % parts["version"], "commands %d" % parts["commands"]]
    lines += [ranks.get(node, node + " -") for node in nodes]
    for access in ("read", "write"):
        names = parts.get(access, [])
        lines += ["%s %d" % (access, len(names)), *names]
    return "".join(line + "\n" for line in [*lines, "end"])


def text_of(text, named):
    """The text as a string whose characters are bytes."""
    if isinstance(text, str):
        return text
    if isinstance(text, list):
        return "".join(text_of(part, named) for part in text)
    if "named" in text:
        found = text_of(named[text["named"]], named)
        if "old" not in text:
            return found
        assert text["old"] in found, text
        return found.replace(text["old"], text["new"])
    if "times" in text:
        return text["text"] * text["times"]
    if "count" in text:
        return "".join(numbered(text["text"], number) for number in range(text["from"], text["from"] + text["count"]))
    return certificate(text)


def bytes_of(text, named):
    return text_of(text, named).encode("latin-1")


def due_of(answer, named):
    """The status, what is printed, whether that is all of it, and what is said on standard error; None is not compared."""
    if isinstance(answer, dict):
        if answer == {}:
            return 0, None, False, b""
        if "fault" in answer:
            return 2, b"", True, b"sedck: " + answer["fault"].encode("latin-1") + b"\n"
        if "no" in answer:
            return 1, bytes_of(answer["no"], named), True, b""
        if "begins" in answer:
            return 0, bytes_of(answer["begins"], named), False, b""
    return 0, bytes_of(answer, named), True, b""


def short(data):
    """The bytes for a line of a report, cut where there are many."""
    return repr(data) if data is None or len(data) <= 300 else "%r.. (%d bytes)" % (data[:300], len(data))


class Rows:
    """Runs of the programs on rows, and what was not as it is due."""

    def __init__(self, program, calls, folder):
        self.program, self.calls, self.folder = os.path.abspath(program), os.path.abspath(calls), folder

    def run(self, words, stderr=subprocess.PIPE, program=None):
        done = subprocess.run([program or self.program, *words], cwd=self.folder, stdout=subprocess.PIPE, stderr=stderr, timeout=120, check=False)
        return done.returncode, done.stdout, done.stderr

    def write(self, name, data):
        path = os.path.join(self.folder, name)
        with open(path, "wb") as file:
            file.write(data)
        return path

    def compare(self, words, due):
        """What is wrong with the program's answer to the words, if anything."""
        status, printed, is_whole, said = due
        found = self.run(words)
        matches = printed is None or (found[1] == printed if is_whole else found[1].startswith(printed))
        if found[0] == status and matches and found[2] == said:
            return []
        wanted = "status %d, %s%s, %s" % (status, short(printed), "" if is_whole else " and more", short(said))
        return ["%s: due: %s; came: status %d, %s, %s" % (words[0] if words else "no words", wanted, found[0], short(found[1]), short(found[2]))]

    def call(self, call, texts, answer, named):
        """The same of a call by the second program."""
        status, printed, said = self.run(["--twice", {"reader": "certificate"}.get(call, call), *texts], program=self.calls)
        parts = re.split(rb"^(?:first|again)\n", printed, flags=re.M)
        if answer == {}:
            due, holds = "no fault", len(parts) == 3 and parts[1] == parts[2] and not parts[1].startswith(b"fault ")
        else:
            is_fault = isinstance(answer, dict) and "fault" in answer
            due = answer["fault"].split(" ", 1)[1].encode() + b"\n" if is_fault else bytes_of(answer, named)
            holds = parts == [b"", due, due]
        if holds and (status, said) == (0, b""):
            return []
        return ["%s: due: %s; came: status %d, %s, %s" % (call, short(due), status, short(printed), short(said))]

    def answers(self, row, named, texts, paths):
        """What is wrong with the answers of each verb and each call of the row, and how many there are."""
        answers = {verb: row[verb] for verb in (*VERBS, *CALLS) if verb in row}
        for verb in row.get("verbs", []):
            answers.setdefault(verb, {"fault": row["fault"]} if "fault" in row else {})
        failures = []
        for verb, answer in answers.items():
            if verb in VERBS:
                failures += self.compare([verb, *(paths[file] for file in VERBS[verb])], due_of(answer, named))
            else:
                failures += self.call(verb, [texts[file] for file in CALLS[verb]], answer, named)
        return failures, len(answers)

    def beginnings(self, script, path):
        """The same of the beginnings of a script."""
        failures = []
        for length in range(len(script)):
            self.write(path, script[:length])
            status, printed, said = self.run(["files", path])
            fault = FAULT.fullmatch(said)
            is_read = status == 0 and said == b""
            is_refused = status == 2 and printed == b"" and fault and int(fault[1]) < OUT_OF_MEMORY and int(fault[2]) <= length
            if not is_read and not is_refused:
                failures.append("%r: status %d, %s, %s" % (script[:length], status, short(printed), short(said)))
        return failures, len(script)

    def lengths(self, row, named, texts, paths):
        """The same of beginnings of a certificate."""
        failures, count = [], 0
        first, last = row["lengths"]
        assert first <= last < len(texts["c"]), row
        for length in range(first, last + 1):
            front = {**texts, "c": texts["c"][:length]}
            self.write(paths["c"], front["c"])
            wrong, runs = self.answers(row, named, front, paths)
            failures += ["%d bytes: %s" % (length, failure) for failure in wrong]
            count += runs
        return failures, count

    def endless(self, row, named):
        """The same of files that never end, as standard input."""
        failures = []
        for verb in row["verbs"]:
            words = [self.program, verb, *("/dev/stdin" for _ in VERBS[verb])]
            with subprocess.Popen(words, stdin=subprocess.PIPE, stdout=subprocess.PIPE, stderr=subprocess.PIPE, bufsize=0) as run:
                try:
                    while True:
                        run.stdin.write(row["endless"].encode() * 65536)
                except BrokenPipeError:
                    pass
                printed, said = run.communicate(timeout=120)
            if (run.returncode, printed, True, said) != due_of({"fault": row["fault"]}, named):
                failures.append("%s: due: %s; came: status %d, %s, %s" % (verb, row["fault"], run.returncode, short(printed), short(said)))
        return failures, len(row["verbs"])

    def words(self, row, named, folder):
        """The same of arguments in place of a verb, also where standard error is full after some bytes."""
        os.mkdir(folder)
        for name in named:
            self.write(os.path.join(folder, name), bytes_of(named[name], named))
        words = [os.path.join(folder, word[1:]) if word.startswith("@") else word for word in row["words"].split()]
        printed, said = bytes_of(row.get("stdout", ""), named), row.get("stderr", "").encode()
        failures = self.compare(words, (row["status"], printed, True, said))
        for room in (0, 7):
            with open(os.path.join(folder, "errors"), "w+b") as errors:
                status, found, _ = self.run(["-S", "-c", LIMITED, str(room), self.program, *words], errors, sys.executable)
                errors.seek(0)
                front = errors.read()
            if (status, found, front) != (row["status"], printed, said[:room]):
                failures.append("room for %d bytes: status %d, %s, %s" % (room, status, short(found), short(front)))
        return failures, 3

    def row(self, number, row, named):
        """The same of one row, whose files have its number."""
        unknown = set(row) - KEYS
        assert not unknown, unknown
        if "words" in row:
            return self.words(row, named, os.path.join(self.folder, "%d" % number))
        named = {**named, "certificate": row.get("certificate", "")}
        texts = {"s": bytes_of(row.get("script", ""), named), "c": bytes_of(named["certificate"], named)}
        paths = {file: self.write("%d.%s" % (number, file), texts[file]) for file in texts}
        if "endless" in row:
            return self.endless(row, named)
        if "beginnings" in row:
            return self.beginnings(texts["s"], paths["s"])
        if "lengths" in row:
            return self.lengths(row, named, texts, paths)
        failures, count = self.answers(row, named, texts, paths)
        if row.get("bytes", len(texts["c"])) != len(texts["c"]):
            failures.append("the certificate has %d bytes, and not %d" % (len(texts["c"]), row["bytes"]))
        return failures, count


def each_of(row):
    """The rows for which this one stands."""
    if "for" not in row:
        return [row]
    return [{**{key: row[key] for key in row if key != "for"}, "script": row["script"].replace("@", byte)} for byte in row["for"]]


def rows_of(path):
    """The rows of a file: the table's subject and the row's number in it, the row, and the texts that have names."""
    data = json.loads(path.read_text(encoding="ascii"))
    assert set(data) <= {"about", "texts", "tables"}, path
    for table in data["tables"]:
        shared = {key: value for key, value in table.items() if key != "rows"}
        rows = [row for given in table["rows"] if not isinstance(given, str) for row in each_of(given)]
        assert rows, "%s: %s: no rows" % (path, table["about"])
        for number, row in enumerate(rows, 1):
            yield "%s: %s Row %d" % (path.name, table["about"], number), {**shared, **row}, data.get("texts", {})


def main():
    words = argparse.ArgumentParser()
    words.add_argument("program")
    words.add_argument("calls")
    words.add_argument("--jobs", type=int, default=os.cpu_count())
    asked = words.parse_args()
    rows = [row for path in sorted(FOLDER.glob("*.json")) for row in rows_of(path)]
    failed, count = 0, 0
    with tempfile.TemporaryDirectory(prefix="sedck-rows-") as folder, ThreadPoolExecutor(asked.jobs) as pool:
        runs = Rows(asked.program, asked.calls, folder)
        answers = pool.map(lambda item: runs.row(item[0], *item[1][1:]), enumerate(rows))
        for (where, row, _), (failures, comparisons) in zip(rows, answers):
            if not comparisons:
                failures = ["nothing is compared"]
            failed, count = failed + bool(failures), count + comparisons
            for failure in failures:
                print("FAILED: %s, %s: %s" % (where, short(json.dumps(row.get("words", row.get("script", "")))), failure))
    print("rows: %d rows, %d comparisons, %d rows failed" % (len(rows), count, failed))
    return 0 if rows and not failed else 1


if __name__ == "__main__":
    sys.exit(main())
