#!/usr/bin/env python3
"""Tries the wrong bodies that the gate leaves out: python3 tools/planted.py [RT] [--all | --below | --behind | CRATE ..]

The edits in crates/NAME/planted are like those in crates/NAME/must-fail, and the prover must refuse each one by a goal. Each takes a
quarter of a minute or more, so the gate tries the few that tell most, and all others are for this.

The ledger `planted.sums` has for each crate two checksums as they were when all its planted edits were refused: of its code, definitions and
edits, and of the code and definitions of all crates below it. A line with one checksum is older: it is the first one, and says nothing of
what was below. `planted.refusals` has the first line by which each edit was refused then. Neither knows of proofs, nor of the toolchain.

Tried are those of the crates that are behind, whose first checksum is another one now; with `--below` also those of the crates below which
something is another one or isn't known, with `--all` those of all crates, or those of the crates that are named. With `--behind` nothing is
tried: it is printed which crates are behind, and below which something has changed. The status is 1 if there are crates that are behind.

What the crates need is proved first. Where `rt ci` takes names of crates it uses what the gate has kept on this machine; otherwise what is
proved stays in the crates' folders, as for `make build`. Then each crate is checked as it is, and its edits in trees of their own over what
that check kept: as many at a time as there are processors. Edits in several functions share a check, since most of its time goes into
loading. What it says of a function is said of the edit there; an edit of which it says nothing is tried once more, alone. All that
`rt check` prints of an edit is kept in build/planted.

An edit is refused only where something else is said of it than that a name is gone: a proof that cites a variable, a field or a call that the
edit took away fails whatever the contract says. The status is 0 only where each edit is refused.
"""
import hashlib
import os
import re
import shlex
import shutil
import sys
from concurrent.futures import FIRST_COMPLETED, ThreadPoolExecutor, wait
from pathlib import Path

import edits
import library
import prove

TOP = Path(__file__).resolve().parent.parent
LEDGER, REFUSALS = TOP / "planted.sums", TOP / "planted.refusals"
# The first line of the file of refusals.
HEAD = "# What `rt check` said first of each planted edit when it was refused, at the place that it was then at (tools/planted.py).\n"
KEPT = TOP / "build" / "planted"
# A line of `rt check` on a place of a file: an error, or a note that belongs to one.
SAID = re.compile(r"(?:note: )?(?:\./)?(\S+?):(\d+):\d+: ")
# What it says of a proof that cites a name which the edit took away, and of the proofs that cite that one.
NAME_IS_GONE = re.compile(r"(?:note: )?(?:\./)?proofs/.*(?:has no field|is not in scope|has no `|was not admitted|\(nearest: |which was rejected)")
# The head of a function, as `rt fmt` writes it, with what is before it and its name; and how a clause of its contract begins.
FUNCTION = re.compile(r"( *)(?:pub(?:\([a-z]+\))? )?(?:unsafe )?(?:extern \"C\" )?fn (\w+)")
CLAUSES = ("requires", "ensures", "ghost")
# The most edits of one check.
MOST = 8


def planted(name: str) -> list[Path]:
    return sorted((TOP / "crates" / name / "planted").glob("*.edit"))


def crates() -> list[str]:
    """The crates that have planted edits."""
    return sorted(path.parent.name for path in TOP.glob("crates/*/planted") if planted(path.parent.name))


def sum_of(names: list[str], parts: tuple[str, ...]) -> str:
    """A checksum of these parts of crates."""
    whole = hashlib.sha256()
    for folder in (TOP / "crates" / name / part for name in names for part in parts):
        for path in sorted(folder.rglob("*")):
            if path.is_file():
                text = path.read_bytes()
                # An edit's head is for readers: what is tried begins with its first file.
                if path.suffix == ".edit":
                    text = text[re.search(rb"^file: |\Z", text, re.M).start():]
                whole.update(b"%s\0%s\0" % (path.relative_to(TOP).as_posix().encode(), hashlib.sha256(text).hexdigest().encode()))
    return whole.hexdigest()


def sums_of(name: str) -> tuple[str, str]:
    """Checksums of what decides whether a crate's planted edits are refused: of its code, its definitions and they themselves; and of the code
    and definitions of all crates below."""
    below = [other for other in prove.ordered(prove.libraries(), [name]) if other != name]
    return sum_of([name], ("src", "specs", "planted")), sum_of(sorted(below), ("src", "specs"))


def ledger() -> dict[str, tuple[str, str | None]]:
    """The checksums of each crate; of an older line there is no second one."""
    lines = [line.split("  ") for line in LEDGER.read_text().splitlines()] if LEDGER.exists() else []
    return {line[-1]: (line[0], line[1] if len(line) == 3 else None) for line in lines}


def refusals() -> dict[str, str]:
    """By crate and edit, the first line by which each one was refused."""
    lines = REFUSALS.read_text().splitlines() if REFUSALS.exists() else []
    return dict(line.split(": ", 1) for line in lines if not line.startswith("#"))


def compared() -> tuple[list[str], list[str], list[str]]:
    """The crates whose planted edits weren't tried since their code, definitions or edits changed; of the others those below which something
    has changed since, and those of which it isn't known what was below them."""
    known, late, earlier, unknown = ledger(), [], [], []
    for name in crates():
        own, below = sums_of(name)
        if known.get(name, ("", ""))[0] != own:
            late.append(name)
        elif known[name][1] is None:
            unknown.append(name)
        elif known[name][1] != below:
            earlier.append(name)
    return late, earlier, unknown


def said_of(late: list[str], earlier: list[str], unknown: list[str]) -> list[str]:
    """What is known of the crates that have planted edits."""
    lines = [(len(crates()) - len(late + earlier + unknown), "refused as they are now, with the code and definitions below them: %d crates"),
             (", ".join(earlier), "refused as they are now, but before something below changed: %s"),
             (", ".join(unknown), "refused as they are now; the ledger doesn't say with what below: %s"),
             (", ".join(late), "to be tried by `make planted`: %s")]
    return [line % which for which, line in lines if which]


def behind() -> list[str]:
    """The crates whose planted edits weren't tried since their code, definitions or edits changed."""
    return compared()[0]


def entered(name: str, sums: tuple[str, str], lines: dict[str, str]) -> None:
    """Writes the sums of a crate all of whose edits were refused, and the line by which each one was; those of what is gone go."""
    known = {other: one for other, one in {**ledger(), name: sums}.items() if other in crates()}
    LEDGER.write_text("".join("%s  %s\n" % ("  ".join(filter(None, known[other])), other) for other in sorted(known)))
    there = {"%s/%s" % (edit.parent.parent.name, edit.stem) for other in crates() for edit in planted(other)}
    said = {key: line for key, line in refusals().items() if key in there and key.partition("/")[0] != name}
    said.update({"%s/%s" % (name, stem): line for stem, line in lines.items()})
    REFUSALS.write_text(HEAD + "".join("%s: %s\n" % (key, said[key]) for key in sorted(said)))


def takes_names(rt: str) -> bool:
    """Whether `rt ci` takes names of crates."""
    return re.search(r"\brt ci \[?NAME", prove.called(shlex.split(rt) + ["help"], TOP)[1]) is not None


def proved(rt, below, folder):
    """Proves these crates; the tree in which their libraries are then, or nothing where that fails."""
    if not takes_names(rt):
        return TOP if prove.Proving(rt, below, folder).run() else None
    tree = folder / "below"
    prove.fill(tree, below[-1], below[:-1], None)
    # `rt ci` runs at the top of a repository alone.
    (tree / ".git").mkdir()
    os.environ["RT_JOBS"] = str(prove.lanes())
    status, printed = prove.called(shlex.split(rt) + ["ci"], tree)
    if status:
        print(printed, end="", flush=True)
        return None
    library.mark(rt, tree, below)
    return tree


def checked(rt, name, tree, room, kept=None, texts=None):
    """What `rt check` ends with and prints of a crate in a tree of its own, over the libraries of another tree: with what an earlier check has
    kept, and with other texts of some files."""
    needs = prove.libraries()
    prove.fill(room, name, [other for other in prove.ordered(needs, [name]) if other != name], tree)
    crate = room / "crates" / name
    if kept:
        # What was proved is shared, since a check puts another file in the place of one that changes; all else is copied.
        shutil.copytree(kept, crate / "out", symlinks=True, copy_function=lambda one, to: (os.link if one.endswith(".oantt") else shutil.copy2)(one, to))
    for path, text in (texts or {}).items():
        # The file is shared with the repository's.
        (crate / path).unlink()
        (crate / path).write_text(text)
    return prove.called(shlex.split(rt) + ["check", "--jobs", "1"], crate)


class Function:
    """A function of a file: its name, the file's path in the crate, and the lines of its code, counted from 1."""

    def __init__(self, path, name, first, last):
        self.path, self.name, self.first, self.last = path, name, first, last

    def has(self, line):
        """Whether what a check prints is said of this function: of its code, or of its proof."""
        file, number = SAID.match(line).groups()
        if file == self.path:
            return self.first <= int(number) <= self.last
        parts, module = file.split("/"), Path(self.path).with_suffix("").parts[1:]
        return parts[0] == "proofs" and parts[-2] == self.name and tuple(parts[1:1 + len(module)]) == (() if module == ("lib",) else module)


def functions_of(path, text):
    """The functions of a file whose names stand once in it."""
    lines, found = text.splitlines(), []
    for number, line in enumerate(lines):
        if head := FUNCTION.match(line):
            opens = [at for at in range(number, len(lines)) if lines[at] == head[1] + "{" or lines[at].endswith(" {") and not lines[at].strip().startswith(CLAUSES)]
            ends = [at for at in range(number, len(lines)) if lines[at] == head[1] + "}"]
            if opens and ends and opens[0] < ends[0]:
                found.append(Function(path, head[2], opens[0] + 2, ends[0]))
    names = [one.name for one in found]
    return [one for one in found if names.count(one.name) == 1]


def function_of(crate, edit):
    """The function in whose code an edit changes something, and nowhere else; none where it has another form."""
    texts = edits.edited(crate, edit)
    if len(texts) != 1:
        return None
    path, new = texts.popitem()
    ends = []
    for one, other in ((new, (crate / path).read_text()), ((crate / path).read_text(), new)):
        one, other = one.splitlines(), other.splitlines()
        same = [at for at in range(min(len(one), len(other))) if one[at] != other[at]]
        tail = [at for at in range(1, min(len(one), len(other)) + 1) if one[-at] != other[-at]]
        ends.append((same[0] + 1 if same else min(len(one), len(other)) + 1, len(one) - (tail[0] if tail else 0) + 1))
    within = [{one.name for one in functions_of(path, text) if one.first <= first and last <= one.last}
              for text, (first, last) in zip((new, (crate / path).read_text()), ends)]
    names = within[0] & within[1]
    return (path, names.pop()) if len(names) == 1 else None


def grouped(name):
    """The edits of a crate in groups that share a check: those in the code of different functions, with these, and each other one alone."""
    crate, groups = TOP / "crates" / name, []
    for edit in planted(name):
        place = function_of(crate, edit)
        group = next((group for group in groups if place and None not in group and place not in group and len(group) < MOST), None)
        if group is None:
            groups.append({place: edit})
        else:
            group[place] = edit
    return groups


def verdict(status, printed):
    """What a check of an edit came to: whether it was refused by more than a name that is gone, and what to say."""
    said = [line for line in printed.splitlines() if SAID.match(line)]
    said = [line for line in said if ": error" in line or line.startswith("note: ")] or said
    if status == 0:
        return False, "NOT REFUSED: the crate is proved with it"
    if status != 1 or "logic=not-proved" not in printed:
        return False, "NOT TRIED: `rt check` ended with status %d" % status
    by_goal = [line for line in said if not NAME_IS_GONE.match(line)]
    if said and not by_goal:
        return False, "REFUSED ONLY SINCE A NAME IS GONE: " + said[0]
    return True, "refused" + (": " + by_goal[0] if by_goal else "")


def tried(rt, name, group, tree, folder):
    """Tries edits of a crate that was checked, all in one check: of each whether it is refused, and what to say; none of the latter where
    that has to be seen alone."""
    stems = [edit.stem for edit in group.values()]
    room, texts = folder / ("%s-%s" % (name, stems[0])), {}
    try:
        for edit in group.values():
            texts = edits.edited(TOP / "crates" / name, edit, texts)
        status, printed = checked(rt, name, tree, room, folder / name / "crates" / name / "out", texts)
    except edits.Unfit:
        return {stem: (False, None) for stem in stems}
    finally:
        shutil.rmtree(room, ignore_errors=True)
    (KEPT / name).mkdir(parents=True, exist_ok=True)
    for stem in stems:
        (KEPT / name / (stem + ".txt")).write_text(printed)
    if len(group) == 1:
        return {stems[0]: verdict(status, printed)}
    return {edit.stem: verdict_of(place, status, printed, texts) for place, edit in group.items()}


def verdict_of(place, status, printed, texts):
    """What a check of several edits came to for that in the code of this function: that it was refused, or that it has to be seen alone."""
    one = next((one for one in functions_of(place[0], texts[place[0]]) if one.name == place[1]), None)
    lines = [line for line in printed.splitlines() if not SAID.match(line) or one and one.has(line)]
    is_refused, words = verdict(status, "\n".join(lines))
    return (True, words) if is_refused and words != "refused" else (False, None)


class Trying:
    """Crates that are checked, and then their edits, as many at a time as there are processors."""

    def __init__(self, rt, names, tree, folder):
        self.rt, self.tree, self.folder = rt, tree, folder
        # The sums are taken before, so that what is changed meanwhile counts as not tried.
        self.sums = {name: sums_of(name) for name in names}
        self.open = {name: {edit.stem for edit in planted(name)} for name in names}
        self.said = {name: {} for name in names}
        self.failed = set()

    def after_check(self, pool, name, result):
        """The edits of a crate that was checked, by what tries them."""
        status, printed = result
        if status:
            print("%splanted: %s isn't proved as it is" % (printed, name), flush=True)
            self.failed.add(name)
            return {}
        return {pool.submit(tried, self.rt, name, group, self.tree, self.folder): (name, group) for group in grouped(name)}

    def after_edits(self, pool, name, group, results):
        """Says what came of edits, and tries those alone of which nothing is known yet."""
        alone = {}
        for place, edit in group.items():
            if results[edit.stem][1] is None:
                alone[pool.submit(tried, self.rt, name, {place: edit}, self.tree, self.folder)] = name, {place: edit}
            else:
                self.after_edit(name, edit.stem, *results[edit.stem])
        return alone

    def after_edit(self, name, stem, is_refused, words):
        """Says what came of an edit; after the last one of a crate all of whose edits were refused, its sum is entered."""
        print("planted: %s/%s: %s" % (name, stem, words[:170]), flush=True)
        self.open[name].discard(stem)
        self.said[name][stem] = words.removeprefix("refused: ") if ": " in words else "nothing was said of a place"
        if not is_refused:
            self.failed.add(name)
        if not self.open[name]:
            shutil.rmtree(self.folder / name, ignore_errors=True)
            if name not in self.failed:
                entered(name, self.sums[name], self.said[name])
            print("planted: %s: %s" % (name, "NOT EACH WAS REFUSED" if name in self.failed else "each of %d was refused" % len(planted(name))), flush=True)

    def run(self):
        """Tries all; whether each edit was refused."""
        largest = sorted(self.open, key=lambda name: -len(planted(name)) * prove.work_of(name))
        with ThreadPoolExecutor(prove.lanes()) as pool:
            running = {pool.submit(checked, self.rt, name, self.tree, self.folder / name): (name, None) for name in largest}
            while running:
                for future in wait(running, return_when=FIRST_COMPLETED).done:
                    name, group = running.pop(future)
                    if group is None:
                        running |= self.after_check(pool, name, future.result())
                    else:
                        running |= self.after_edits(pool, name, group, future.result())
        return not self.failed


def try_all(rt, names):
    """Tries the edits of these crates; whether each was refused."""
    needs = prove.libraries()
    below = [name for name in prove.ordered(needs, names) if any(name in needs[other] for other in prove.ordered(needs, names))]
    with prove.trees("planted-") as folder:
        tree = proved(rt, below, folder) if below else TOP
        return tree is not None and Trying(rt, names, tree, folder).run()


def main():
    rt, words = (sys.argv[1] if len(sys.argv) > 1 else "rt"), sys.argv[2:]
    there, (late, earlier, unknown) = crates(), compared()
    if words == ["--behind"]:
        print("\n".join("planted: " + line for line in said_of(late, earlier, unknown)))
        return 1 if late else 0
    names = {"--all": there, "--below": sorted(late + earlier + unknown)}.get(" ".join(words), words or late)
    unknown = [name for name in names if name not in there]
    if unknown:
        print("planted: no wrong bodies are planted in %s" % ", ".join(unknown))
        return 1
    unfit = list(edits.faults())
    for fault in unfit:
        print("planted: " + fault)
    if unfit:
        return 1
    if not names:
        print("\n".join("planted: " + line for line in ["nothing is to be tried", *said_of(late, earlier, unknown)]))
        return 0
    try:
        return 0 if try_all(rt, names) else 1
    except OSError as error:
        print("planted: %s can't be started: %s" % (rt, error.strerror))
        return 1


if __name__ == "__main__":
    sys.exit(main())
