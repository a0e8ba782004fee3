"""Pages for browsers and graphs for Graphviz: whether they are well formed, and what they show of lines, jumps, ranks and nodes."""
import concurrent.futures
import html.parser
import os
import re
import shutil
import subprocess

from explain_json import drawn_scripts, example_scripts, reports
from explain_texts import REFUSED_CERTIFICATES, PRINT, WITH_CERTIFICATE
from explain_tools import VERSION, Tools, is_seen, letters, page_due, shown_line, shown_unicode
from skips import has

VOID = {"meta", "br", "hr", "link", "img", "input"}
ADDRESSES = ("href", "src", "srcset", "action", "data", "poster", "xlink:href")
SCRIPTS = [
    b"",
    b"\n",
    b"p",
    b"\n\n# <b>&\"' \\ \x1b[31m\xe9\r\np\n\n",
    b"r <b>&\"'\nw </code><script>alert(1)</script>\n\ts/<b>&\"'/<\\&>&/\n",
    b"r a`b`c;\nw x\\\n",
    b":a\nb a\n# <b>&\"'\n",
    b":b<\n",
    b"s/<b>\\+/&/\n",
    b"b <b>&\"'\n",
    b"{p\n",
    b"p\n1,",
    b"p\n1\n",
    b":a\n$!N\nba\n",
    b":a;s/x/xx/;ta\n",
    b":a\n" + b"b a\n" * 3 + b"t a\nb\n" * 20,
    b"".join(b":%d\nt %d\n" % (at, (at * 7) % 40) for at in range(40)) + b"n\n",
    b"p;p;w /a \np\n",
    b"k" + b"x" * 3000 + b"\n",
    b"$s/\"\\\\&/x\\\\\"/\nG\n",
    # characters of UTF-8: of two, three and four bytes, then what is none (too long, a surrogate, above the greatest, cut off), or can't be seen
    "# ä☃😀 e\u0301 ﬁ\n:a\ns/[äö]/ü/\nta\n".encode(),
    b"# \xc0\xaf \xe0\x80\xaf \xf0\x80\x80\xaf \xed\xa0\x80 \xf4\x90\x80\x80 \xf8\x88\x80\x80\x80 \xc3\n# \xe2\x98\n# \xf0\x9f\x98",
    "# \u0080 \u009b \u00a0 \u00ad \u061c \u200b \u200e \u200f \u2028 \u202a \u202e \u2066 \u2069 \u3000 \ufeff \U000e0041 \x7f\n".encode(),
    "# \u07ff \u0800 \ud7ff \ue000 \uffff \U00010000 \U0010ffff\np\n".encode(),
    # a finding at a character, at the byte behind its first one, and one in a long line
    "p é\n".encode(), b"s\xc3a\xc3b\xc3\xa9\n", ("s/é/" + "ü" * 100 + "/;:é\n").encode(), ("# " + "ä" * 200 + "\n").encode(),
    ("/" + "ä" * 100 + "/s/x/y/\n:a\nba\n").encode(), (":a\n/" + "ä" * 20 + "/s/x/y/;p" + ";s/ü/é/" * 9 + "\nta\n").encode(),
]


class Page(html.parser.HTMLParser):
    """A page: its elements as they are nested, its links, and what its parts say."""

    def __init__(self, text):
        super().__init__(convert_charrefs=True)
        self.open, self.faults, self.counts, self.ids, self.links = [], [], {}, [], []
        self.lines, self.returns, self.rows, self.cell, self.title = [], [], [], None, ""
        self.feed(text)
        self.close()
        self.faults += ["open: %s" % name for name, _ in self.open]

    def handle_starttag(self, tag, attrs):
        values = dict(attrs)
        self.counts[tag] = self.counts.get(tag, 0) + 1
        self.ids += [values["id"]] if "id" in values else []
        self.links += [(tag, name, values[name]) for name in ADDRESSES if name in values]
        self.faults += ["handler: %s" % name for name in values if name.startswith("on")]
        if len(values) < len(attrs):
            self.faults.append("an attribute twice: %s" % tag)
        if tag == "li" and self.parent() == ("ol", "script"):
            self.lines.append(["", None])
        if tag == "code" and self.parent()[0] == "li" and len(self.open) > 1 and self.open[-2] == ("ol", "script"):
            self.faults += ["two codes"] if self.lines[-1][1] is not None else []
            self.lines[-1][1] = ""
        if tag == "a" and values.get("class") == "tag soft":
            self.returns.append((self.lines[-1][0], values["href"]))
        if tag == "tr":
            self.rows.append([])
        if tag in ("td", "th"):
            self.rows[-1].append("")
        if tag not in VOID:
            self.open.append((tag, values.get("class", "").split(" ")[0]))

    def handle_startendtag(self, tag, attrs):
        self.handle_starttag(tag, attrs)
        self.handle_endtag(tag)

    def handle_endtag(self, tag):
        if not self.open or self.open.pop()[0] != tag:
            self.faults.append("end of %s" % tag)

    def parent(self):
        return self.open[-1] if self.open else ("", "")

    def handle_data(self, data):
        names = [name for name, _ in self.open]
        if self.open[-2:-1] and self.open[-1] == ("a", "number"):
            self.lines[-1][0] += data
        if ("ol", "script") in self.open and names[-1] in ("code", "mark"):
            inside = self.open[self.open.index(("ol", "script")) + 1:]
            if [name for name, _ in inside] in (["li", "code"], ["li", "code", "mark"]):
                self.lines[-1][1] += data
        if "td" in names or "th" in names:
            self.rows[-1][-1] += data
        if names[-1:] == ["title"]:
            self.title += data


def shown_marked(line, spots):
    """A line of a page with marks from these columns on, of these lengths: no mark, and nothing beside one, has a part of a character that is
    shown."""
    shown, start = "", 0
    for at, length in sorted(((column - 1, length) for column, length in spots), key=lambda spot: spot[0]):
        if at >= start:
            end = min(at + length, len(line))
            end += len(re.match(rb"[\x80-\xbf]{0,3}", line[end:])[0])
            end = max(at + max(len(letters(line[at:])[0]) if line[at:] else 1, 1), end)
            shown += shown_unicode(line[start:at]) + (shown_unicode(line[at:end]) or " ")
            start = end
    return shown + shown_unicode(line[start:])


def lines_due(script, report):
    """Each line with its number, and the script's end. What is found at a line's end marks a blank there. A last line that is
    empty, behind a newline, is none."""
    lines = (script[:-1] if script.endswith(b"\n") else script).split(b"\n")
    places = [(finding["position"], finding["end"]["offset"] - finding["position"]["offset"]) for finding in report["findings"] if finding["position"]]
    return [[str(number), shown_marked(line, [(place["column"], length) for place, length in places if place["line"] == number])]
            for number, line in enumerate(lines, 1)] + [["end", ""]]


def graph_of(tools, name):
    """The edges of `sedck graph` that leave the nodes that a run may reach, and these nodes."""
    lines = tools.sedck("graph", name)[1].decode().split("\n")[1:-1]
    leaving = {}
    for line in lines:
        words = line.split()
        leaving.setdefault(tuple(map(int, words[:3])), []).append((tuple(map(int, words[3:6])), words[6]))
    work, reached = [(0, 0, 0), (0, 0, 1)], {(0, 0, 0), (0, 0, 1)}
    while work:
        for node, _ in leaving.get(work.pop(), []):
            if node not in reached:
                reached.add(node)
                work.append(node)
    return reached, sorted((node, to, kind) for node in reached for to, kind in leaving.get(node, []))


def loop_of(tools, name):
    """The edges of the loop of `sedck rank`; none for any other answer."""
    status, text, _ = tools.sedck("rank", name)
    if status != 1:
        return set()
    rows = [line.split() for line in text.decode().split("\n")[1:-1]]
    nodes = [tuple(map(int, row[:3])) for row in rows]
    return set(zip(nodes, nodes[1:], (row[3] for row in rows[:-1])))


def place_words(report, command):
    """The place of a command, or the script's end."""
    if command == len(report["commands"]):
        return "end"
    return "%(line)d:%(column)d" % report["commands"][command]


def jumps_due(tools, name, report):
    """The rows of jumps: each pair of commands and kind once, but for steps to the next command."""
    _, edges = graph_of(tools, name)
    loop = loop_of(tools, name)
    jumps = {}
    for node, to, kind in edges:
        if to[0] != node[0] + 1:
            key = (node[0], to[0], ["consume", "shorten", "keep", "grow"].index(kind))
            jumps[key] = jumps.get(key, False) or (node, to, kind) in loop
    kinds = ["consume", "shorten", "keep", "grow"]
    return sorted([place_words(report, at), place_words(report, to), kinds[kind] + ", part of the loop" * bold] for (at, to, kind), bold in jumps.items())


def returns_due(tools, name, report, end):
    """The labels of jumps back over twenty lines and more: the line that each leaves, and a link to the one that it leads to."""
    lines = [command["line"] for command in report["commands"]] + [end]
    _, edges = graph_of(tools, name)
    jumps = {(lines[node[0]], lines[to[0]]) for node, to, _ in edges if to[0] != node[0] + 1}
    return [("end" if line == end else str(line), "#L%d" % to) for line, to in sorted(jumps) if line - to >= 20]


def ranks_due(tools, name, report):
    """The rows of ranks: a row for each place with its four nodes, as `sedck rank` has them."""
    status, text, _ = tools.sedck("rank", name)
    if status:
        return []
    nodes = [line.split(" ", 3)[3] for line in text.decode().split("\n")[2:2 + 4 * (len(report["commands"]) + 1)]]
    return [[place_words(report, at)] + nodes[4 * at:4 * at + 4] for at in range(len(report["commands"]) + 1)]


def well_formed(tools, what, text):
    """The page, after a look at its form: tags that balance, no script, and no address elsewhere."""
    tools.holds("%s: control characters" % what, all(letter == "\n" or is_seen(letter) for letter in text.decode()))
    page = Page(text.decode())
    tools.same("%s: faults" % what, page.faults, [])
    counts = [page.counts.get(tag, 0) for tag in ("html", "head", "body", "main", "h1", "title", "script", "b")]
    tools.same("%s: counts" % what, counts, [1, 1, 1, 1, 1, 1, 0, 0])
    tools.same("%s: ids" % what, len(set(page.ids)), len(page.ids))
    elsewhere = [link for link in page.links if link[:2] != ("a", "href") or link[2][:1] != "#" or link[2][1:] not in page.ids]
    tools.same("%s: links" % what, elsewhere, [])
    tools.holds("%s: sources" % what, not re.search(rb"https?:|url\(|@import", text))
    return page


def tables_of(page):
    """The rows of each table, without the head, by the first word of the head."""
    tables = {"File": [], "From": [], "Command": []}
    for row in page.rows:
        if row[0] in tables:
            table = tables[row[0]]
        else:
            table.append(row)
    return tables


def files_due(report):
    """The rows of files: the name, its use, and the places of the commands."""
    for use, key in (("read", "reads"), ("written", "writes")):
        for file in report[key]:
            yield [file["name"], use, ["%(line)d:%(column)d" % one for one in file["positions"]]]


HEADLINES = {"accepted": "Accepted: every run of the script ends.", "loop": "Loop: a run may never end.", "script-refused": "The script is refused."}


def words_of(part):
    """The words of a part of a page, without its elements."""
    return html.unescape(re.sub("<[^>]*>", "", part))


def hold_findings(tools, what, text, report):
    """The headline; at the top each error in full, with its steps, hint, page and code, and an entry for each other finding, whose box is at its line."""
    top, _, listing = text.partition("</header>")
    tools.holds("%s: headline" % what, ">%s</p>" % HEADLINES[report["answer"]] in top)
    for at, finding in enumerate(report["findings"]):
        is_error = finding["level"] == "error"
        part = top if is_error else listing
        tools.same("%s: boxes of F%d" % (what, at), (text.count('id="F%d"' % at), part.count('id="F%d"' % at)), (1, 1))
        box = words_of(part.partition('id="F%d">' % at)[2].partition("</div>")[0])
        place = "%s at %d:%d: " % (finding["level"], finding["position"]["line"], finding["position"]["column"])
        code = " [%s]" % finding["code"]
        tools.holds("%s: place of F%d" % (what, at), box.startswith(place + finding["message"].replace("`", "") + code))
        tools.holds("%s: page of F%d" % (what, at), box.endswith("see: docs/" + (page_due(finding["code"], finding["hint"] or "") if is_error else finding["page"])))
        line = text.partition('id="F%d">' % at)[2].partition("</div>")[0].partition("<p><code>")[2].partition("</code></p>")[0]
        tools.same("%s: line of F%d" % (what, at), line.count("<mark>"), int(is_error))
        tools.holds("%s: hint of F%d" % (what, at), not finding["hint"] or "hint: %ssee" % finding["hint"].replace("`", "") in box)
        tools.holds("%s: steps of F%d" % (what, at), all(step["message"].replace("`", "") in box for step in finding["steps"][:1] + finding["steps"][-1:]))
        tools.same("%s: mentions of F%d" % (what, at), (top.count('<a href="#F%d"' % at), listing.count('<a href="#F%d"' % at)), (0, 1) if is_error else (1, 0))


def hold_page(tools, name, script, report):
    """A page: its form, title, lines, files, jumps and ranks."""
    status, text, errors = tools.explain("--format", "html", name)
    what = "html %r" % script[:60]
    tools.same(what, (status, errors), (report["status"], b""))
    page = well_formed(tools, what, text)
    tools.same("%s: title" % what, page.title, "%s: %s" % (name, report["answer"]))
    tools.holds("%s: version" % what, b">sedck-explain %s</footer>" % VERSION.encode() in text)
    hold_findings(tools, what, text.decode(), report)
    tools.same("%s: lines" % what, [[number, code or ""] for number, code in page.lines], lines_due(script, report))
    tables = tables_of(page)
    files = [[row[0][1:-1], row[1], row[2].split()] for row in tables["File"]]
    tools.same("%s: files" % what, files, list(files_due(report)))
    jumps = [] if report["status"] == 2 else jumps_due(tools, name, report)
    tools.same("%s: jumps" % what, sorted(tables["From"]), jumps)
    tools.same("%s: labels" % what, page.returns, returns_due(tools, name, report, len(page.lines)) if jumps else [])
    tools.same("%s: ranks" % what, tables["Command"], ranks_due(tools, name, report))


def check_certificates(tools):
    """The form of pages with certificates."""
    cases = [(script, text) for script, text, *_ in WITH_CERTIFICATE] + [(PRINT, text) for text, *_ in REFUSED_CERTIFICATES]
    for script, text in cases:
        tools.write("s.sed", script)
        tools.write("s.cert", text.encode())
        status, _, _ = tools.sedck("check", "s.sed", "s.cert")
        for form in ("html", "dot"):
            seen, report, errors = tools.explain("--format", form, "--cert", "s.cert", "s.sed")
            tools.same("%s %r" % (form, text), (seen, errors), (status, b""))
            if form == "html":
                well_formed(tools, "html %r" % text, report)


# What is dark has no width of its own, and what is red is bold and has red words.
INK = r'color="(?:#374151|#374151:white:#374151)", style=[a-z]+|color="(?:#c81e1e|#c81e1e:white:#c81e1e)", style=[a-z]+(, penwidth=3, fontcolor="#c81e1e")'
# The line of each kind.
LINES = {"consume": "style=solid", "shorten": "style=dashed", "keep": "style=dotted", "grow": ':white:#'}


def hold_legend(tools, what, line, drawn, inside, has_loop):
    """The legend has each kind, `[t]` and `[$]` that is drawn, what a box of several commands means, and a loop where there is one."""
    label = re.fullmatch(r'  legend \[shape=note, fontsize=10, label="(.*)\\l"\];', line)
    words = [words.split(": ")[0] for words in label[1].split(r"\l")] if label else line
    due = [kind for kind in ("consume", "shorten", "keep", "grow") if any(key[2] == kind for key in drawn)]
    due += ["in a box"] * bool(inside) + ["[t]"] * any(flag for flag, _, _ in drawn.values()) + ["[$]"] * any(last for _, last, _ in drawn.values())
    tools.same("%s: legend" % what, words, due + ["red"] * has_loop)


def unescaped(label):
    """What a label means."""
    return re.sub(r"\\(.)", r"\1", label).replace("&amp;", "&")


def hold_form(tools, what, text, dot):
    """The form of a graph: in ASCII, with quotes and braces that balance; Graphviz reads it where it is there."""
    tools.holds("%s: ASCII" % what, all(byte == 10 or 32 <= byte < 127 for byte in text))
    plain = re.sub(r'"(?:[^"\\]|\\.)*"', "", text.decode())
    tools.same("%s: braces and quotes" % what, [plain.count(sign) for sign in '{}\\"'], [1, 1, 0, 0])
    if dot:
        done = subprocess.run([dot, "-Tdot"], input=text, capture_output=True, timeout=60, check=False)
        tools.same("%s: Graphviz" % what, (done.returncode, done.stderr), (0, b""))


def hold_refusal(tools, what, script, label, finding):
    """The box of a refused script: the place, a part of the line, the message with the code, and the hint, in lines that aren't long."""
    place, line, *words = ["", ""] if r"\l" not in label else [unescaped(part) for part in re.findall(r"((?:[^\\]|\\[^l])*)\\l", label + r"\l")]
    start = finding["position"]
    tools.same("%s: place" % what, place, "%d:%d" % (start["line"], start["column"]))
    tools.holds("%s: line" % what, line.removeprefix("...").removesuffix("...") in shown_line((script.split(b"\n") + [b""])[start["line"] - 1]))
    said = "%(message)s [%(code)s]" % finding + (" hint: %(hint)s" % finding if finding["hint"] else "")
    tools.same("%s: refusal" % what, " ".join(words), said)
    tools.holds("%s: width" % what, all(len(part) <= 60 or " " not in part[60:] for part in words))


COMMAND = re.compile(r'  n([0-9]+) \[label="((?:[^"\\]|\\.)*)"(, shape=oval)?(, color="#c81e1e", penwidth=3)?\];')
STEP = re.compile(r'  n([0-9]+) -> n([0-9]+) \[label="(consume|shorten|keep|grow)( \[t\])?( \[\$\])?", (?:' + INK + r')\];')


def steps_due(edges, loop):
    """Of each kind of step from a command to another: whether all of its edges have the flag, and the last line, and whether one of
    them is of the loop."""
    steps = {}
    for node, to, kind in edges:
        steps.setdefault((node[0], to[0], kind), []).append((node[1], node[2], (node, to, kind) in loop))
    return {key: (all(flag for flag, _, _ in seen), all(last for _, last, _ in seen), any(bold for _, _, bold in seen)) for key, seen in steps.items()}


def runs_due(steps, count):
    """The steps inside of boxes: from a command to the next one, and not to the end, where no other step leaves the one or reaches the other, and
    which keep the length in all states."""
    def is_inside(key):
        at, to, kind = key
        alone = [one for one in steps if one[0] == at] == [key] and [one for one in steps if one[1] == to] == [key]
        return alone and to == at + 1 and to < count and kind == "keep" and steps[key][:2] == (False, False)
    return {key: steps[key] for key in steps if is_inside(key)}


def hold_commands(tools, name, script, report, dot):
    """A graph by commands: a box for each straight run of those that a run may reach, with each command, and the steps between the boxes."""
    status, text, errors = tools.explain("--format", "dot", name)
    what = "dot %r" % script[:60]
    tools.same(what, (status, errors), (report["status"], b""))
    hold_form(tools, what, text, dot)
    lines = text.decode().split("\n")
    tools.holds("%s: title" % what, '[label="%s: %s", ' % (name, report["answer"]) in lines[1])
    if report["status"] == 2:
        hold_refusal(tools, what, script, re.fullmatch(r'  refused \[label="(.*)"\];', lines[4])[1].removesuffix(r"\l"), report["findings"][0])
        tools.same("%s: rest" % what, lines[5:], ["}", ""])
        return
    reached, edges = graph_of(tools, name)
    boxes = [match for match in map(COMMAND.fullmatch, lines) if match]
    seen = [match for match in map(STEP.fullmatch, lines) if match]
    due = steps_due(edges, loop_of(tools, name))
    inside = runs_due(due, len(report["commands"]))
    heads = {}
    for at in sorted({node[0] for node in reached}):
        heads[at] = heads[at - 1] if (at - 1, at, "keep") in inside else at
    tools.same("%s: commands" % what, [int(box[1]) for box in boxes], sorted(set(heads.values())))
    drawn = {(int(one[1]), int(one[2]), one[3]): (bool(one[4]), bool(one[5]), bool(one[6])) for one in seen}
    between = {(heads[at], heads[to], kind): value for (at, to, kind), value in due.items() if (at, to, kind) not in inside}
    tools.same("%s: steps" % what, (len(drawn), drawn), (len(seen), between))
    hold_legend(tools, what, lines[4], drawn, inside, bool(loop_of(tools, name)))
    tools.holds("%s: lines of kinds" % what, all(LINES[one[3]] in one[0] for one in seen))
    tools.same("%s: start" % what, lines[5:7], ["  start [shape=point];", "  start -> n0;"])
    tools.same("%s: all lines" % what, len(lines), 4 + 3 + len(boxes) + len(seen) + 2)
    for box in boxes:
        at = int(box[1])
        red = any(bold for (first, _, _), (_, _, bold) in inside.items() if heads[first] == at)
        tools.same("%s: look of n%d" % (what, at), (bool(box[3]), bool(box[4])), (at == len(report["commands"]), red))
        hold_rows(tools, "%s: n%d" % (what, at), script, box, [place_words(report, command) for command, head in heads.items() if head == at])


def hold_rows(tools, what, script, box, places):
    """The rows of a box: a place and a part of its line for each command, or the words for the end."""
    if box[3]:
        tools.same("words of %s" % what, box[2], r"end\nnext cycle, or the run ends")
        return
    rows = re.findall(r"((?:[^\\]|\\[^l])*)\\l", box[2])
    tools.same("places of %s" % what, [unescaped(row).split("  ")[0] for row in rows], places)
    for row, place in zip(rows, places):
        line = shown_line(script.split(b"\n")[int(place.split(":")[0]) - 1])
        shown = unescaped(row).partition("  ")[2].removesuffix("...")
        tools.holds("line of %s, %s" % (what, place), shown and shown in line)


def check(tools: Tools) -> None:
    """Compares pages and graphs of chosen scripts, of the examples and of drawn ones."""
    dot = shutil.which("dot") if has("explain", "the graphs as Graphviz reads them", "dot") else None
    scripts = SCRIPTS + list(example_scripts()) + drawn_scripts(60)
    names = [tools.write("page-%d.sed" % at, script) for at, script in enumerate(scripts)]
    found = reports(tools, names)
    with concurrent.futures.ThreadPoolExecutor(os.cpu_count()) as pool:
        jobs = [pool.submit(hold_page, tools, *case) for case in zip(names, scripts, found)]
        jobs += [pool.submit(hold_commands, tools, *case, dot) for case in zip(names, scripts, found)]
        for job in jobs:
            job.result()
    check_certificates(tools)
