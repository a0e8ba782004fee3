"""The steps of GNU sed, as `--debug` shows them, held against the edges that `sedck graph` lists."""
import re


def length(shown):
    """The bytes of a space as `--debug` shows it."""
    return len(re.sub(r"\\([0-7]{3}|.)", "x", shown))


class Trace:
    """The steps of a run of GNU sed, by what `--debug` prints."""
    def __init__(self, text):
        lines = text.decode("latin-1").split("\n")
        begin = next((k for k, line in enumerate(lines) if line.startswith("INPUT: ")), len(lines))
        self.program = [line.strip() for line in lines[1:begin] if line.startswith("  ")]
        self.events = lines[begin:]

    def places(self):
        """The command at each place, by its text; the `}` have none."""
        return [text for text in self.program if text != "}"]

    def steps(self):
        """Each visited command: its text; the pattern space's length and the lines read before it; the same after it, before a
        next cycle reads a line; and whether a cycle began by reading before it."""
        pattern, hold, read, began, shown, visited = "", "", 0, False, False, []
        for line in self.events:
            if line.startswith("INPUT: "):
                read, began = read + 1, True
            elif line.startswith("PATTERN: "):
                if visited and not began and self.reads_line(visited[-1][0]):
                    read += 1
                pattern, shown = line[9:], True
            elif line.startswith("HOLD:    "):
                hold = line[9:]
                if visited and visited[-1][0].endswith("g") and not shown:
                    pattern = hold
            elif line.startswith("COMMAND: "):
                shown = False
                if line[9:].strip() != "}":
                    visited.append([line[9:].strip(), length(pattern), read, None, None, began])
                    began = False
            if visited and not began:
                visited[-1][3:5] = length(pattern), read
        return visited

    def longest(self):
        """The bytes of the longest space that is shown."""
        return max([length(line[9:]) for line in self.events if line.startswith(("PATTERN: ", "HOLD:    "))], default=0)

    @staticmethod
    def reads_line(text):
        return re.fullmatch(r"(?:[^sy:bt].*?)?[nN]", text) is not None and not text.startswith((":", "s", "y", "b", "t"))


class Graph:
    """The edges of a script's flow graph, and the number of its commands."""
    def __init__(self, text):
        lines = text.decode().split("\n")
        self.commands = int(lines[0].split()[1])
        self.edges = {tuple(line.split()) for line in lines[1:-1]}

    def with_keep_for_grow(self):
        other = object.__new__(Graph)
        other.commands = self.commands
        other.edges = {edge[:6] + ("keep" if edge[6] == "grow" else edge[6],) for edge in self.edges}
        return other


def is_true(kind, before, after, lines):
    return {"consume": lines == 1, "shorten": lines == 0 and after < before, "keep": lines == 0 and after <= before,
            "grow": lines == 0}[kind]


def unexplained(graph: object, trace: object, total: int) -> object:
    """The first step that no edge explains, or None. A place is followed by those that some true edge leads to."""
    places, visited, end = trace.places(), trace.steps(), graph.commands
    leaving = {}
    for edge in graph.edges:
        leaving.setdefault((int(edge[0]), edge[2]), []).append((int(edge[3]), edge[5], edge[6]))

    def reached(froms, text, before, read, after, after_read):
        """The places that true edges lead to, of commands with this text, or the end."""
        last, after_last = ("1" if n >= total else "0" for n in (read, after_read))
        return {to for place in froms for to, to_last, kind in leaving.get((place, last), [])
                if to_last == after_last and is_true(kind, before, after, after_read - read) and text in (None if to == end else places[to],)}

    now = {0}
    for here, then in zip(visited, visited[1:]):
        text, before, read, after, after_read, _ = here
        to, begins, begins_read, began = then[0], then[1], then[2], then[5]
        if began:
            at_end = reached(now, None, before, read, after, after_read)
            next_places = reached(now, to, before, read, begins, begins_read) | reached(at_end, to, after, after_read, begins, begins_read)
        else:
            next_places = reached(now, to, before, read, begins, begins_read)
        if not next_places:
            return "%s, then %s (lengths %d, %d, %d; lines read %d, %d, %d of %d)" % (
                text, to, before, after, begins, read, after_read, begins_read, total)
        now = next_places
    return None


def steps_at_most(text: bytes) -> int:
    """No fewer steps than a run had that `--debug` shows so: the commands but `}`, the ends of cycles, and the beginning. What is printed
    before one of these may end in a byte 0, or may not end."""
    braces = len(re.findall(rb"COMMAND: *\}$", text, re.MULTILINE))
    return text.count(b"COMMAND: ") - braces + text.count(b"END-OF-CYCLE:") + 1


def limit_of(bound: tuple, files: list[bytes], end: bytes = b"\n") -> int:
    """The steps of a limit for these files, whose lines end with this byte, or the bytes of one on the spaces."""
    ends = sum(text.count(end) for text in files)
    lines = ends + sum(1 for text in files if text and not text.endswith(end))
    return bound[0] * (sum(map(len, files)) - ends) + bound[1] * lines + bound[2]
