#!/usr/bin/env python3
"""Which definitions the exported contracts reach, file by file, with what they mean.

    python3 tools/definitions.py            writes docs/DEFINITIONS.md, by the text of tools/definitions.txt
    python3 tools/definitions.py --check    compares the page, and checks the definitions:
                                            no exported contract reaches specs/Private, and
                                            each word outside of specs/Private is reached

A line of a file of definitions that belongs to nothing stops it. tests/definitions.py tests it.
"""
import re
import sys
from pathlib import Path

TOP = Path(__file__).resolve().parent.parent
# The libraries, lowest first; what is in a crate's tests alone needn't be believed.
NAMES = re.findall(r"^(\w+)(?: [^:]*)?:", (TOP / "crates.txt").read_text(), re.M)
CRATES = [name for name in NAMES if (TOP / "crates" / name / "src" / "lib.rt").exists() and not name.endswith("_tests")]
# Modules that a crate passes on from one below, each with its own name.
PASSED = {f"Rattle.{name}.specs.{module.rpartition('.')[2]}": module for name in CRATES
          for path in [TOP / "crates" / name / "specs/Lib.antt"] if path.exists()
          for module in re.findall(r"^pub use (Rattle\.\w+\.specs\.\w+)$", path.read_text(), re.M)}
TOKEN = re.compile(r"[^\s(){}\[\];,λ→×∷\"]+")
STRING = re.compile(r'"(?:[^"\\]|\\.)*"')


class Block:
    """A definition, or several that are defined together, with the comment above."""
    def __init__(self, module, names, lines, rest):
        self.module, self.names, self.lines, self.rest = module, names, lines, rest
        self.refs = set()


class Unplaced(Exception):
    """A line of a file of definitions that belongs to nothing."""


def uses(text, scope):
    """Reads the lines that import words: the local name of each, with its module and its name there."""
    for match in re.finditer(r"^\s*(?:pub |ghost )*use (Rattle\.[\w.]+?)(?:\.\{(.*?)\}| as (\w+))?;?\s*$", text, re.M | re.S):
        module, words, alias = match.groups()
        while module in PASSED:
            module = PASSED[module]
        if words is None:
            scope["modules"][alias or module.rpartition(".")[2]] = module
        else:
            for word in words.split(","):
                name, _, local = word.strip().partition(" as ")
                if name:
                    scope["words"][(local or name).strip()] = (module, name)


# What begins a definition, and what is given inside of one.
START = re.compile(r"(?:(?P<kind>abbrev|unfoldable|opaque) )?(?:pub )?(?:(?P<mutual>mutual)\s*$|(?P<form>record|data) (?P<type>\S+)|(?P<word>\S+) :)")
INNER = re.compile(r"(?:pub )?(?:(?P<form>record|data) (?P<type>\S+)|(?P<word>\S+) :)")
FIELD = re.compile(r"(?:pub )?\S+ :")


def parts_of(name):
    """The tokens of an operator, as `≡` of `◌≡◌`; none of a word."""
    return [part for part in name.split("◌") if part] if "◌" in name else []


def is_equation_of(names, line):
    """Whether a line defines one of these: a word at its start, or an operator before the first `=`."""
    left = tokens(line.partition(" =")[0])
    return any(all(part in left for part in parts_of(name)) if "◌" in name else left[:1] == [name] for name in names)


class Reader:
    """Reads a file of definitions, line by line. Each line has its place, or the file is refused."""
    def __init__(self, path, module, head):
        self.path, self.module = path, module
        # Comments that the next line decides on, what is being read, and whether that is an import.
        self.blocks, self.waiting, self.current, self.importing = [], [], None, False
        # Of what is being read: its form, how deep its own lines are, and the form of the one inside a mutual block.
        self.form, self.inner = None, None
        self.at = head

    def refuse(self, why):
        raise Unplaced(f"{self.path}:{self.at}: {why}")

    def keep(self, line, comment=False):
        """Adds a line to what is being read, with the comments above."""
        if self.current is None:
            self.refuse("it belongs to no definition")
        self.current.lines += self.waiting + [line]
        if not comment:
            self.current.rest.append(line)
        self.waiting = []

    def begin(self, names, form):
        self.current, self.form, self.inner = Block(self.module, names, [], []), form, None
        self.blocks.append(self.current)

    def name(self, name):
        if name not in self.current.names:
            self.current.names.append(name)

    def line(self, line):
        self.at += 1
        if self.importing:
            self.importing = "}" not in line
        elif not line.strip():
            pass
        elif re.match(r"(pub )?use |pub mod ", line):
            self.importing = "{" in line and "}" not in line
            self.current = None
        elif line.startswith("-- ----"):
            self.end()
        elif line.startswith("--"):
            self.waiting.append(line)
        elif line[0] in " \t":
            self.indented(line)
        else:
            self.outer(line)

    def outer(self, line):
        """A line at the margin: a definition begins, or an equation of the one that is being read."""
        start = START.match(line)
        if re.match(r"infix[lr]? \d+ ", line):
            self.begin([line.split()[2]], "operator")
        elif start and start["mutual"]:
            self.begin([], "mutual")
        elif start and start["form"]:
            self.begin([start["type"]], start["form"])
        elif start and self.form == "operator" and self.current and start["word"] in self.current.names:
            self.form = "word"
        elif start and not is_equation_of(self.current.names if self.current else [], line):
            self.begin([start["word"]], "word")
        elif not self.current or self.form != "word" or not (is_equation_of(self.current.names, line) or re.fullmatch(r"[})\]]+", line.strip())):
            self.refuse("it is no equation of the definition above, and begins none")
        self.keep(line)

    def indented(self, line):
        depth, text = len(line) - len(line.lstrip()), line.strip()
        if text.startswith("--"):
            return self.keep(line, comment=True)
        if self.form == "mutual" and depth == 2:
            start = INNER.match(text)
            if start:
                self.inner = start["form"] or "word"
                self.name(start["type"] or start["word"])
            elif not is_equation_of(self.current.names, text):
                self.refuse("it is nothing of the mutual block above")
        form, own = (self.inner, 4) if self.form == "mutual" else (self.form, 2)
        if form == "data" and depth == own:
            start = re.match(r"(\S+) :", text)
            if not start:
                self.refuse("it is no constructor of the type above")
            self.name(start[1])
        if form == "record" and depth == own and not FIELD.match(text):
            self.refuse("it is no field of the record above")
        self.keep(line)

    def end(self):
        """At a heading, or at the end: comments with nothing below belong to what is above."""
        if self.waiting and self.current is None:
            self.refuse("the comment above belongs to no definition")
        if self.waiting:
            self.current.lines += self.waiting
        self.waiting, self.current = [], None


def definitions(path, module):
    """The blocks of a file of definitions, its scope and its head."""
    text = path.read_text()
    scope = {"words": {}, "modules": {}}
    uses(text, scope)
    lines = text.split("\n")
    head = []
    for line in lines:
        if not line.startswith("--") or line.startswith("-- ----"):
            break
        head.append(line[2:].strip())
    reader = Reader(path, module, len(head))
    for line in lines[len(head):]:
        reader.line(line)
    reader.end()
    return reader.blocks, scope, head


def tokens(text):
    """The words of a text, without its comments; `[]` and `∷` are words too."""
    text = re.sub(r"(?m)(^|\s)--.*$", " ", STRING.sub(" ", text))
    return TOKEN.findall(text) + re.findall(r"\[\]|∷", text)


def resolve(token, scope, own):
    """The module and the word that a token names, if it names one."""
    if token in own:
        return (own[token], token)
    if token in scope["words"]:
        return scope["words"][token]
    first, dot, second = token.partition(".")
    if dot and first in scope["modules"]:
        return (scope["modules"][first], second.split(".")[0])
    if dot and (first in own or first in scope["words"]):
        return resolve(first, scope, own)
    for name in [*own, *scope["words"]]:
        if token in parts_of(name):
            return (own[name], name) if name in own else scope["words"][name]
    return None


class Contract:
    """The clauses of an exported function or type."""
    def __init__(self, crate, path, name):
        self.crate, self.path, self.name = crate, path, name
        self.clauses = {}

    def add(self, label, refs):
        self.clauses.setdefault(label, set()).update(refs)


def balanced(text, start):
    """The end of the braces that open at `start`."""
    depth = 0
    for at in range(start, len(text)):
        depth += (text[at] == "{") - (text[at] == "}")
        if depth == 0:
            return at + 1
    return len(text)


def exported(crate):
    """What lib.rt exports: words, and modules."""
    text = (TOP / "crates" / crate / "src" / "lib.rt").read_text()
    words, modules = set(), set(re.findall(r"^pub mod (\w+);", text, re.M))
    for module, group, single in re.findall(r"^pub use ([\w:]+?)::(?:\{([^}]*)\}|(\w+));", text, re.M):
        words |= {w.strip() for w in (group or single).split(",") if w.strip()}
    return words, modules


def words_in(text, scope):
    """The words of definitions that a text has, where they are imported so."""
    return {found for found in (resolve(token, scope, {}) for token in tokens(text)) if found}


def end_of_type(text, match):
    """Where the type whose head is the match ends."""
    end = text.index("\n", match.end())
    return balanced(text, text.index("{", match.end())) if "{" in text[match.end():end] else end


def type_head(text):
    """The trait and the type of an `impl` with this head; the trait may be none."""
    head = re.sub(r"<[^<>]*(?:<[^<>]*>[^<>]*)*>", "", text)
    trait, _, impl = head.rpartition(" for ")
    return trait.strip() or None, impl.strip().split(" ")[0]


def clauses_of(text, match):
    """The clauses of the function whose head begins at the match, each with its label."""
    header_end = re.compile(r"^" + re.escape(match.group(1)) + r"\{", re.M)
    line_end = re.compile(r"[{;]\s*$", re.M).search(text, match.end())
    clauses, at = [], match.end()
    while True:
        stop = header_end.search(text, at)
        clause = re.compile(r"\s*(?:^\s*//.*\n)*\s*(requires|ensures)\s*([\w-]*)\s*\{", re.M).search(text, at)
        if not clause or clause.start() > (stop.start() if stop else len(text)) or (line_end and not clauses and clause.start() > line_end.end()):
            return clauses
        at = balanced(text, clause.end() - 1)
        clauses.append((clause.group(2) or clause.group(1), text[clause.end() - 1:at]))


def contracts(crate):
    """The contracts of what a crate exports, and the Rust types that it declares."""
    words, modules = exported(crate)
    found, types = [], {}
    root = TOP / "crates" / crate / "src"
    for path in sorted(root.rglob("*.rt")):
        text = re.sub(r"^\s*//(?!/).*$", "", path.read_text(), flags=re.M)
        module = ".".join(path.relative_to(root).with_suffix("").parts)
        public = module in modules
        scope = {"words": {}, "modules": {}}
        uses(text, scope)
        impl, impl_end, trait = None, 0, None
        for match in re.finditer(r"^(\s*)(pub (?:const )?(?:extern \S+ )?fn (\w+)|fn (\w+)|impl\b([^{]*)\{|pub (struct|enum) (\w+)|ghost (\w+) = \{)", text, re.M):
            if match.start() >= impl_end:
                impl = trait = None
            if match.group(5) is not None:
                impl_end = balanced(text, match.end() - 1)
                trait, impl = type_head(match.group(5))
                continue
            if match.group(6):
                end = end_of_type(text, match)
                if match.group(7) in words or public:
                    found.append(Contract(crate, path, match.group(7)))
                    for ghost in re.findall(r"pub ghost \w+: \{(.*)\}", text[match.start():end]):
                        found[-1].add("field", words_in(ghost, scope))
                types[(f"Rattle.{crate}.specs.declared.{module}.{match.group(7)}", match.group(7))] = (path, text[match.start():end].strip(), scope)
                continue
            if match.group(8):
                closed = impl and re.search(r"pub struct " + impl + r"\b[^{;]*\{(?!(?:(?!^\}).)*^    pub )", text, re.M | re.S)
                inside = match.group(8) in ("view", "invariant") and closed
                if impl and (impl in words or public) and match.group(8) != "coded" and not inside:
                    found.append(Contract(crate, path, f"{impl} as {trait}"))
                    found[-1].add("view", words_in(text[match.end() - 1:balanced(text, match.end() - 1)], scope))
                continue
            name = match.group(3) or (trait and match.group(4))
            if name and (public or (impl or name) in words):
                found.append(Contract(crate, path, f"{impl}::{name}" if impl else name))
                for label, body in clauses_of(text, match):
                    found[-1].add(label, words_in(body, scope))
    return found, types


class Book:
    def __init__(self):
        self.blocks, self.heads, self.paths, self.exports = {}, {}, {}, {}
        self.all_blocks = {}
        for crate in CRATES:
            specs = TOP / "crates" / crate / "specs"
            for path in sorted(specs.rglob("*.antt")):
                parts = path.relative_to(specs).with_suffix("").parts
                if parts in (("Lib",), ("Private",)):
                    continue
                module = ".".join(("Rattle", crate, "specs") + parts)
                blocks, scope, head = definitions(path, module)
                self.heads[module], self.paths[module] = head, path
                self.all_blocks[module] = blocks
                self.exports[module] = scope["words"]
                own = {}
                for block in blocks:
                    for name in block.names:
                        own[name] = module
                        self.blocks[(module, name)] = block
                for block in blocks:
                    block.refs = {r for r in (resolve(t, scope, own) for t in tokens("\n".join(block.rest))) if r}
        self.contracts, self.types = [], {}
        for crate in CRATES:
            found, types = contracts(crate)
            self.contracts += found
            self.types.update(types)

    def reach(self, roots):
        """All blocks, and all Rust types, that these words reach."""
        seen, types, todo = set(), set(), list(roots)
        while todo:
            module, name = todo.pop()
            block = self.blocks.get((module, name))
            if block is None and name in self.exports.get(module, {}):
                todo.append(self.exports[module][name])
                continue
            if block is not None:
                if block not in seen:
                    seen.add(block)
                    todo += block.refs
                continue
            if ".declared." in module:
                parts = module.split(".")
                if parts[-1] == "TheVariants":
                    key = (".".join(parts[:-1]), parts[-2])
                elif parts[-1] == "TheInside":
                    key = (".".join(parts[:-1]), parts[-2])
                else:
                    key = (module, parts[-1])
                types.add(key)
        return seen, types


# In which order an expert of sed reads the files.
ORDER = """
cert.Headline
flow.Run flow.Substitutes flow.Patterns
bre.Match expressions.Tree
commands.Program script.Names
script.Spelling commands.Items script.Resolution commands.Parts commands.Narrowings commands.Cuts
expressions.Shape expressions.Brackets expressions.WellFormed text.Classes text.Runs text.Text text.Bytes
commands.ReadAlike commands.BracketLists expressions.Misjudged
cert.Ranked flow.Flow flow.Nodes commands.References bre.Rests
cert.Certificate cert.Text cert.Versions cert.VersionOne
cert.Everywhere flow.WideRun bre.WideMatch flow.CharacterRun flow.Characters script.ByteSafe
cert.Rejections
cert.Bounds cert.SpaceLimit cert.Limits cert.StepLimit flow.Spaces
text.Cursors model.Spots model.States endless.Endless
search.Found search.Obstacle search.Rows search.NodeSet flow.VersionOne flow.LiteralKinds search.VersionOne
commands.Locations plain.WrittenLists plain.Plain plain.Mended locales.Written locales.Locales locales.Laws
commands.ReadItems commands.Labels commands.Blocks
script.FirstFault commands.FirstFaults commands.Faults expressions.Faults expressions.FirstFault expressions.Reading expressions.BracketReading expressions.IntervalReading cert.Faults
commands.FaultWords expressions.FaultWords cert.FaultText cli.Lines
flow.Words engines.Reports engines.Engines cli.Statuses cli.Causes c.Answers engines.Faults cert.Streams engines.Inputs engines.Opened
explanation.Answers answer.Status answer.Answers errors.Denials explanation.Denial explanation.Explanations explanation.Errors errors.Errors formats.Plain calls_in_files.Delivered explain_cli.Mended explain_cli.Spelled explain_cli.Explained explain_cli.Statuses calls_in_files.Lines explain_cli.CallStatus explain_cli.Readings explain_cli.Requests explain_cli.Answers report.Positions report.Shown report.Codes report.Levels report.Files report.Reported advice.Slow advice.References advice.Locale advice.Ignored advice.Added report.Html report.Ascii
explanation.Called calls_in_files.Judged calls_in_files.Placed calls_in_files.Scanned origin.Traced origin.Texts find.Told mentions.Told mentions.Lines mentions.Words call.Words call.Options call.Calls call.Origins call.Scripts
formats.Names
bre.Lengths script.Shortest script.Invariant
expressions.View commands.View commands.ReplacementView commands.ItemView script.View cert.View
bre.Laws bre.Examples commands.Laws script.Laws script.First script.Examples flow.Laws flow.Examples cert.Laws search.Laws
""".split()

# What is promised, in parts, and these in groups with the contracts that they rest on. tools/definitions.txt has the texts.
PARTS = [
    [
        ("The promise", [("sedck_cert", "judge", ("promise",)), ("sedck_cert", "verify", ("promise",))]),
    ], [
        ("The promise everywhere", [("sedck_cert", "judge", ("everywhere", "limited")), ("sedck_cert", "verify", ("everywhere",))]),
    ], [
        ("Accepted, rejected or refused", [("sedck_cert", "judge", ("answer",)), ("sedck_cert", "verify", ("answer",)), ("sedck_cert", "check", ("accepted",))]),
        ("Why a certificate is rejected", [("sedck_cert", "verify", ("why",)), ("sedck_cert", "check", ("rejected",))]),
        ("What was judged", [("sedck_cert", "judge", ("judged",))]),
        ("The fault of a text that is refused", [("sedck_cert", "judge", ("reported",)), ("sedck_cert", "verify", ("reported",))]),
    ], [
        ("The bound", [("sedck_cert", "bound", None), ("sedck_cert", "steady_runs_are_counted", None)]),
        ("The other limits", [("sedck_cert", "limit_by_lines", None), ("sedck_cert", "falling_runs_are_counted", None), ("sedck_cert", "space_limit", None),
         ("sedck_cert", "limits_of", None), ("sedck_cert", "Limits*", None)]),
        ("The search", [("sedck_search", "search", None), ("sedck_search", "count_bits", None)]),
        ("Readers and faults", [("sedck_expressions", "read_tree", None), ("sedck_bre", "parse", None), ("sedck_commands", "read_items", None), ("sedck_script", "parse", None), ("sedck_cert", "read_cert", None), ("sedck_cert", "read_any", None),
         ("sedck_expressions", "ReFault*", None), ("sedck_commands", "ScriptFault*", None), ("sedck_cert", "CertFault*", None)]),
        ("Where commands are", [("sedck_script", "locate", ("count", "locations", "order"))]),
        ("The plain spelling", [("sedck_plain", "*", None), ("sedck_locales", "*", None)]),
        ("Reports and statuses", [("sedck_engines", "*", None), ("sedck_cli", "*", None), ("sedck_c", "*", None), ("sedck_cert", "write_cert", None)]),
        ("What is explained", [("sedck_explanation", "*", None), ("sedck_answer", "*", None), ("sedck_report", "*", None), ("sedck_errors", "*", None), ("sedck_advice", "*", None),
         ("sedck_explain_cli", "*", None), ("sedck_formats", "*", None), ("sedck_calls_in_files", "*", None)]),
        ("The model, decided", [("sedck_model", "*", None), ("sedck_endless", "*", None)]),
        ("Certificates of version 1", [("sedck_cert", "read_cert_one", None), ("sedck_cert", "upgrade*", None), ("sedck_cert", "CertOne*", None),
         ("sedck_flow", "edges_were_there", None), ("sedck_flow", "kinds_agree", None), ("sedck_flow", "literal_kinds_stay", None), ("sedck_search", "obstacles_were_there", None)]),
        ("The parts, and laws", [(crate, "*", None) for crate in CRATES]),
        ("The first part of the language", [("sedck_script", "first_part*", None)]),
    ],
]

# The words of the toolchain's library that the promise's definitions use, each in plain words.
LIBRARY = {
    "ℕ": "the numbers 0, 1, 2 and so on, without a limit",
    "zero": "0",
    "suc": "`suc n`: n + 1",
    "◌+◌": "the sum",
    "◌-◌": "the difference, but never below 0",
    "◌^◌": "the power",
    "◌<◌": "less than",
    "◌≤◌": "at most",
    "nat_le": "whether one number is at most another",
    "nat_lt": "whether it is less",
    "nat_eq": "whether it is equal",
    "◌==◌": "the same test",
    "Bool": "`true` or `false`",
    "true": "yes",
    "false": "no",
    "not": "no of yes, and yes of no",
    "◌&&◌": "yes where both are",
    "◌||◌": "yes where one is",
    "if◌then◌else◌": "the first of two values where a test says yes, else the second",
    "IsTrue": "it is `true`",
    "MatchBool": "`MatchBool b P Q`: P where b is `true`, else Q",
    "◌≡◌": "two values are the same",
    "◌≢◌": "they aren't",
    "◌⊎◌": "one or the other holds, or both",
    "◌↔◌": "each follows from the other",
    "Option": "`None`, or `Some` with a value",
    "None": "no value",
    "Some": "a value",
    "MatchOption": "`MatchOption o P Q`: P where o is `None`, and `Q x` where it is `Some x`",
    "unwrap_or": "the value, or another one where there is none",
    "option_to_list": "the list of the value, or the empty one",
    "Result": "`Ok` with a value, or `Err` with a fault",
    "Ok": "an answer",
    "Err": "a fault instead",
    "List": "a finite list, and of a text the numbers of its bytes",
    "[]": "the empty list",
    "◌∷◌": "an element before a list",
    "◌++◌": "one list, then another",
    "length": "how many elements there are",
    "slice_get": "`slice_get xs i`: the element at i, from 0, or `None`",
    "slice_index": "`slice_index xs i`: the number at i, and 0 after the end",
    "range_with_len": "`range_with_len a n`: the n numbers from a on",
    "Contains": "the list has this element",
    "All": "it holds of each element",
    "list_all": "whether all elements pass a test",
    "list_any": "whether one does",
    "filter": "the elements that pass a test",
    "flat_map": "the lists that a function gives for the elements, joined",
    "before_first": "what is before the first element that passes a test, or all",
    "ends_with": "whether a list ends with another, by a test of equal elements",
    "codes": "`codes \"..\"`: the bytes between the quotes (ASCII)",
    "decimal": "a number's decimal digits, without leading zeros",
    "digits_value": "`digits_value 10 text`: the number that decimal digits write",
}


def short(module):
    _, crate, _, *rest = module.split(".")
    return crate[6:] + "." + ".".join(rest)


def size(blocks):
    return sum(sum(1 for line in block.lines if line.strip()) for block in blocks)


def roots(book, crate, name, labels):
    prefix = name.rstrip("*")
    for contract in book.contracts:
        is_of_part = name == "*" and contract.name.startswith("first_part")
        if contract.crate == crate and not is_of_part and (contract.name == name or name.endswith("*") and contract.name.startswith(prefix)):
            for label, refs in contract.clauses.items():
                if labels is None or label in labels:
                    yield from refs


def sentence(head):
    text = " ".join(head)
    end = re.search(r"\.(?= [A-Z(`]|$)", text)
    return text[:end.start() + 1] if end else text


def is_private(module):
    return ".specs.Private" in module


def place_in_order(module):
    return ORDER.index(short(module)) if short(module) in ORDER else len(ORDER)


class Text:
    """tools/definitions.txt: the page with a mark for each list, and below a line `%%` the words of each file with their meaning."""
    def __init__(self, text):
        self.page, _, rows = text.partition("\n%%\n")
        self.entries, self.shown, file = {}, set(), ""
        for line in rows.splitlines():
            words, colon, meaning = line.partition(": ")
            if colon:
                self.entries[file].append((tuple(words.split(", ")), meaning))
            else:
                file = line
                self.entries.setdefault(file, [])

    def meaning(self, module, blocks, first, head):
        """What these definitions of a file mean: each entry of which they have the first word, or what the file is for, or their names."""
        file, names = short(module), [name for block in blocks for name in block.names]
        found = [entry for entry in self.entries.get(file, []) if entry[0][0] in names]
        self.shown |= {(file, *entry) for entry in found}
        if found:
            return ". ".join(", ".join(f"`{word}`" for word in words) + ": " + meaning for words, meaning in found)
        return head.rstrip(".") if first else ", ".join(f"`{name}`" for name in names[:3]) + (", .." if len(names) > 3 else "")

    def faults(self, book):
        """Words that no file has any more, and entries that no list shows."""
        for file, entries in self.entries.items():
            names = {name for module, blocks in book.all_blocks.items() if short(module) == file for block in blocks for name in block.names}
            if not names:
                yield f"tools/definitions.txt: {file} is no file of definitions"
            for words, meaning in entries:
                yield from (f"tools/definitions.txt: {file} doesn't define {word}" for word in words if word not in names)
                if (file, words, meaning) not in self.shown:
                    yield f"tools/definitions.txt: {file}: {words[0]} is in no list"


class Seen:
    """What the page has had so far: definitions, files of them, and types of the code."""
    def __init__(self):
        self.blocks, self.modules, self.types = set(), set(), set()


def files(book, text, seen, blocks):
    """A table of the files of these definitions, in reading order, each with its lines and what they mean."""
    rows = ["| file | lines | what it defines |", "|---|---|---|"]
    for module in sorted({b.module for b in blocks}, key=place_in_order):
        here = [b for b in book.all_blocks[module] if b in blocks]
        path = book.paths[module].relative_to(TOP)
        meaning = text.meaning(module, here, module not in seen.modules, sentence(book.heads[module]))
        seen.modules.add(module)
        rows.append(f"| [`{path.relative_to('crates')}`](../{path}) | {size(here)} | {meaning} |")
    return "\n".join(rows)


def files_alone(book, seen, blocks):
    """The files of these definitions, in reading order: the first lines of each say what they mean."""
    modules = sorted({b.module for b in blocks}, key=place_in_order)
    seen.modules.update(modules)
    paths = [book.paths[module].relative_to(TOP) for module in modules]
    return ", ".join(f"[`{path.relative_to('crates')}`](../{path})" for path in paths) + "."


def group(book, text, seen, contracts_of, alone):
    """The list of the definitions that a group adds, or of their files alone, with types of the code, and how many lines they have."""
    reached, types = book.reach({r for root in contracts_of for r in roots(book, *root)})
    new = reached - seen.blocks
    seen.blocks |= reached
    shown = "It adds no definition."
    if new:
        shown = f"{size(new):,} lines" + (", " + files_alone(book, seen, new) if alone else ":\n\n" + files(book, text, seen, new))
    new_types = sorted((t for t in types - seen.types if t in book.types), key=lambda t: (CRATES.index(t[0].split(".")[1]), t[1]))
    seen.types |= types
    sizes = {one: len(book.types[one][1].splitlines()) for one in new_types}
    if new_types and not alone:
        names = ", ".join(f"`{module.split('.')[1]}::{name}` ({sizes[(module, name)]})" for module, name in new_types)
        shown += f"\n\nTypes of the code are, each with its lines: {names}."
    return shown, size(new) + sum(sizes.values())


def library_words(blocks):
    """The words of the toolchain's library that these definitions use."""
    return {name for block in blocks for module, name in block.refs if module.startswith("Rattle.std.")}


def library_text():
    """A table of the words of the library."""
    # A meaning that begins with the word and its arguments shows them in place of the word; an operator is shown without its places.
    rows = ["| word | meaning |", "|---|---|"]
    for word, meaning in LIBRARY.items():
        shown, _, said = meaning.partition(": ") if meaning.startswith(f"`{word} ") else (f"`{' '.join(parts_of(word)) or word}`", "", meaning)
        rows.append("| %s | %s |" % (shown.replace("|", "\\|"), said))
    return "\n".join(rows)


def page(book, text):
    """The text of docs/DEFINITIONS.md."""
    seen, marks = Seen(), {"library": str(len(LIBRARY)), "words": library_text()}
    for number, groups in enumerate(PARTS, 1):
        total = 0
        for name, contracts_of in groups:
            marks[f"list {name}"], lines = group(book, text, seen, contracts_of, number == len(PARTS))
            total += lines
            if len(groups) == 1:
                marks[f"list {name}"] = marks[f"list {name}"].partition("\n\n")[2]
        marks[f"lines {number}"] = f"{total:,}"
    unused = set(marks) - set(re.findall(r"\{([^{}\n`]+)\}", text.page))
    if unused:
        raise Unplaced(f"tools/definitions.txt has no {{{sorted(unused)[0]}}}")
    # The braces of a sed script stay: a mark is one of those above.
    return re.sub(r"\{([^{}\n`]+)\}", lambda mark: marks.get(mark[1], mark[0]), text.page).rstrip("\n") + "\n"


def faults(book):
    """What is in the wrong folder, and what the library's table lacks."""
    wrong = []
    reached, types = book.reach({r for c in book.contracts for refs in c.clauses.values() for r in refs})
    for contract in book.contracts:
        for label, refs in contract.clauses.items():
            for block in book.reach(refs)[0]:
                if is_private(block.module):
                    wrong.append(f"{contract.crate}::{contract.name}, {label}: reaches {block.names[0]} of {short(block.module)}")
    used = library_words(book.reach({r for root in PARTS[0][0][1] for r in roots(book, *root)})[0])
    wrong += [f"tools/definitions.py says nothing of the library's word {word}, which the promise uses" for word in sorted(used - set(LIBRARY))]
    wrong += [f"tools/definitions.py explains the library's word {word}, which the promise doesn't use" for word in sorted(set(LIBRARY) - used)]
    for module, blocks in book.all_blocks.items():
        for block in blocks:
            if not is_private(module) and block not in reached:
                wrong.append(f"{short(module)}: no exported contract reaches {block.names[0] if block.names else block.rest[0]}")
        if not is_private(module) and short(module) not in ORDER:
            wrong.append(f"{short(module)}: not in the reading order of tools/definitions.py")
        if not is_private(module) and not book.heads[module]:
            wrong.append(f"{short(module)}: has no head")
    return wrong


def main(words):
    kept = TOP / "docs" / "DEFINITIONS.md"
    try:
        book, text = Book(), Text((TOP / "tools" / "definitions.txt").read_text())
        due = page(book, text)
    except Unplaced as line:
        sys.exit(f"{line}")
    wrong = faults(book) + list(text.faults(book))
    if "--check" not in words:
        kept.write_text(due)
    elif not kept.exists() or kept.read_text() != due:
        wrong.append("docs/DEFINITIONS.md isn't what `python3 tools/definitions.py` writes")
    for line in wrong:
        print(line)
    sys.exit(1 if wrong else 0)


if __name__ == "__main__":
    main(sys.argv[1:])
