#!/usr/bin/env python3
"""How large the code is: functions, their parameters and lines, and the lines of proof for each line of code.

    python3 tools/measures.py            prints a row for each crate, and what is above the aims
    python3 tools/measures.py --functions N   and the N longest functions

Lines of code are those of src without blank lines, comments and tests; the contracts and imports count. Lines of proof are those of
proofs that aren't blank. A function's lines are those of its body. The aims are for the crates that read and prove; CONTRIBUTING
says why a crate may have more than a hundred functions.
"""
import re
import sys
from pathlib import Path

TOP = Path(__file__).resolve().parent.parent
PARAMETERS, LINES, FUNCTIONS, READERS, RATIO, EXPLAINING = 5, 30, 100, 3000, 2.4, 14000
READING = ["sedck_text", "sedck_expressions", "sedck_bre", "sedck_commands", "sedck_script"]
PROVED = READING + ["sedck_flow", "sedck_cert", "sedck_search", "sedck_engines", "sedck_cli", "sedck"]
OTHERS = ["sedck_plain", "sedck_locales", "sedck_model", "sedck_tests", "sedck_probe"]
FUNCTION = re.compile(r"^ *(?:pub(?:\(crate\))? )?fn (\w+)", re.M)


def opened(text, at, pair):
    """The index after what closes the pair that begins at `at`."""
    depth = 0
    for index in range(at, len(text)):
        depth += (text[index] == pair[0]) - (text[index] == pair[1])
        if depth == 0:
            return index + 1
    raise SystemExit(f"no {pair[1]} after {text[at:at + 40]!r}")


def parameters(text):
    """How many parameters are between these parentheses."""
    depth, count, some = 0, 0, False
    for index, char in enumerate(text):
        depth += char in "([{<"
        depth -= char in ")]}" or char == ">" and text[index - 1] != "-"
        if char == "," and depth == 0:
            count, some = count + some, False
        elif not char.isspace():
            some = True
    return count + some


def functions(path):
    """Name, parameters and lines of the body of each function in the file."""
    text = re.sub(r"(?m)^\s*//.*$", "", path.read_text())
    text = re.sub(r"b?'(?:\\.|[^\\'])'", "0", text)
    # A backslash also joins a line of a string with the next one.
    text = re.sub(r'b?"(?:\\[\s\S]|[^"\\])*"', '""', text)
    for match in FUNCTION.finditer(text):
        start = text.index("(", match.end())
        end = opened(text, start, "()")
        # A clause is between braces after its word; the body is the first brace at the beginning of a line, or after the result.
        body = re.compile(r"^ *\{$|(?<=[\w>)\]]) \{$|;$", re.M).search(text, end)
        if body is None or body[0] == ";":
            continue
        brace = body.end() - 1
        lines = text[brace:opened(text, brace, "{}")].strip("{}").strip().splitlines()
        yield match[1], parameters(text[start + 1:end - 1]), len([line for line in lines if line.strip()])


def lines(folder, suffix):
    """How many lines of the folder's files are neither blank nor comments."""
    found = 0
    for path in sorted(folder.rglob("*" + suffix)):
        for line in path.read_text().splitlines():
            found += bool(line.strip()) and not (suffix == ".rt" and line.strip().startswith("//"))
    return found


def main(words):
    names = re.findall(r"^(\w+)(?: [^:]*)?:", (TOP / "crates.txt").read_text(), re.M)
    above, everything = [], []
    print(f"{'crate':20} {'functions':>9} {'code':>6} {'proof':>6} {'proof a line':>12}")
    total = {}
    for name in names:
        crate = TOP / "crates" / name
        own = [(name, path.stem, *function) for path in sorted((crate / "src").rglob("*.rt")) for function in functions(path)]
        code, proof = lines(crate / "src", ".rt"), lines(crate / "proofs", ".antt") if (crate / "proofs").exists() else 0
        total[name] = (code, proof)
        everything += own
        print(f"{name:20} {len(own):9} {code:6} {proof:6} {proof / code:12.2f}")
        if len(own) > FUNCTIONS and not name.endswith(("_tests", "_refusals")):
            above.append(f"{name} has {len(own)} functions")
    for crate, file, function, many, long in everything:
        if many > PARAMETERS:
            above.append(f"{crate} {file}::{function} has {many} parameters")
        if long > LINES and not crate.endswith(("_tests", "_refusals")):
            above.append(f"{crate} {file}::{function} has {long} lines")
    readers = sum(total[name][0] for name in READING)
    ratio = sum(total[name][1] for name in PROVED) / sum(total[name][0] for name in PROVED)
    print(f"\nreaders ({', '.join(READING)}): {readers:,} lines of code, aim {READERS:,}")
    print(f"crates of the promise: {ratio:.2f} lines of proof for a line of code, aim {RATIO}")
    explaining = sum(code for name, (code, _) in total.items() if name not in PROVED + OTHERS)
    print(f"crates that explain scripts and find calls: {explaining:,} lines of code, aim {EXPLAINING:,}")
    if "--functions" in words:
        for row in sorted(everything, key=lambda row: -row[4])[:int(words[words.index("--functions") + 1])]:
            print(f"{row[4]:4} lines, {row[3]} parameters: {row[0]} {row[1]}::{row[2]}")
    print(f"\nabove the aims: {len(above)}")
    for line in above:
        print("  " + line)


if __name__ == "__main__":
    main(sys.argv[1:])
