#!/usr/bin/env python3
"""Tests the page that `make page` or `make try-page` has made: python3 tests/page.py, in the folder of the repository.

What the page's worker answers under Node is held against the programs of the same build, byte for byte: reports of examples, rows and
drawn scripts, and `check` of their certificates and of changed ones. Then the page is opened in Chromium, where it must also refuse an
answer on which its modules don't agree. What can't be tested is skipped by name: where there is no Node or no Chromium. Without a page, or
with one of other sources, the status is 77. It is 0 only where everything that was tested is as expected.
"""
import base64
import gzip
import hashlib
import json
import random
import re
import shutil
import struct
import subprocess
import sys
import tempfile
import zlib
from concurrent.futures import ThreadPoolExecutor
from pathlib import Path

import browser
from explain_json import drawn_scripts, example_scripts
from skips import WHOLE, has, skip

TOP = Path(__file__).resolve().parent.parent
sys.path.insert(0, str(TOP / "tools"))
import page  # noqa: E402

PAGE = page.OUT / "sedck.html"
MEMORY = 5
NAMES = {"explain": "sedck-explain", "checker": "sedck"}
ROWS, DRAWN, CHANGED = 120, 100, 8
REPORTS = [("explain", ["--format", form, "script.sed"]) for form in ("json", "text", "dot", "sed", "html")] + [
    ("checker", [word, "script.sed"]) for word in ("rank", "files", "graph")]
CHECK = ("checker", ["check", "script.sed", "script.cert"])
ANSWERS = {0: "Accepted.", 1: "No.", 2: "Refused."}
# A script that is accepted, and has what would be elements if it were read as HTML.
MARKUP = "s/x/<\\/script><script>document.title='run'<\\/script><img src=x onerror=\"document.title='run'\">/w <b>name<%sb>\n" % "/"
HOSTILE = [MARKUP, ":a\ns/x/<img src=x onerror=document.title='run'>&/\nb a\n", "</script><script>document.title='run'</script>\n", "s/a\\+/<img src=x onerror=document.title='run'>/\n"]
faults = []


def holds(what, is_so):
    if not is_so:
        faults.append(what)
        print("page: NOT so: " + what, flush=True)


def same(what, found, due):
    holds("%s: %r, and not %r" % (what, str(found)[:300], str(due)[:300]), found == due)


def block(text, name):
    """What an element `script` of the page holds."""
    found = re.findall(r'<script type="[^"]*" id="%s">(.*?)</script>' % name, text, re.S)
    same("elements %s" % name, len(found), 1)
    return found[0]


def encoded(data):
    return base64.b64encode(data).decode()


class Built:
    """The page with its parts, in files for Node, and the programs of the same build."""

    def __init__(self, folder):
        self.text = PAGE.read_text()
        self.facts = json.loads(block(self.text, "facts"))
        self.natives = {program: (TOP / "build" if self.facts["proved"][program] else page.OUT / "native") / name for program, name in NAMES.items()}
        self.folder, self.files = Path(folder), []
        for name, data in [("worker-source", block(self.text, "worker-source").encode())] + [
                (program, gzip.decompress(base64.b64decode(block(self.text, program + "-module")))) for program in NAMES]:
            (self.folder / name).write_bytes(data)
            self.files.append(str(self.folder / name))

    def is_fresh(self):
        """Whether it was made from the sources as they are now."""
        modules = {program: page.OUT / (name + ".wasm") for program, name in NAMES.items()}
        return (self.facts["sources"] == page.sum_of(*page.sources()) and all(path.exists() for path in [*modules.values(), *self.natives.values()])
                and self.text == page.page_of(modules, self.facts))

    def hold_modules(self):
        """The modules are those beside the page, have the sums that it shows, and import nothing."""
        for program, name in NAMES.items():
            data = (self.folder / program).read_bytes()
            holds("%s.wasm is the module of the page" % name, (page.OUT / (name + ".wasm")).read_bytes() == data)
            holds("the sum of %s.wasm" % name, [name + ".wasm", hashlib.sha256(data).hexdigest()] in self.facts["sums"])
            holds("%s.wasm imports nothing" % name, 2 not in sections(data) and 10 in sections(data))

    def in_node(self, jobs, files=None):
        """What the worker's functions answer to each job, by the modules of the page or by those in other files."""
        lines = "".join(json.dumps(job) + "\n" for job in jobs)
        done = subprocess.run(["node", TOP / "tests" / "page.js", *(files or self.files)], input=lines, capture_output=True, encoding="utf-8", check=False)
        found = [json.loads(line) for line in done.stdout.splitlines()]
        same("answers of Node (%s)" % done.stderr[-300:], len(found), len(jobs))
        return found

    def native(self, job):
        """What the program answers to the same job, in a folder with the same files."""
        with tempfile.TemporaryDirectory(dir=self.folder) as room:
            for name, text in job["files"].items():
                (Path(room) / name).write_bytes(base64.b64decode(text))
            done = subprocess.run([self.natives[job["program"]], *job["words"][1:]], cwd=room, stdin=subprocess.DEVNULL, capture_output=True, check=False)
        return {"status": done.returncode, "out": encoded(done.stdout), "err": encoded(done.stderr)}


def sections(module):
    """The numbers of a module's sections."""
    at, numbers = 8, []
    while at < len(module):
        numbers.append(module[at])
        size, start = page.read_number(module, at + 1)
        at = start + size
    return numbers


def job_of(report, files):
    program, words = report
    return {"program": program, "words": [NAMES[program], *words], "files": {name: encoded(data) for name, data in files.items()}}


def scripts_in(value):
    """The scripts of rows that are given as they are."""
    if isinstance(value, dict) and isinstance(value.get("script"), str):
        yield value["script"]
    for one in value.values() if isinstance(value, dict) else value if isinstance(value, list) else []:
        yield from scripts_in(one)


def row_scripts(count):
    """Scripts of the rows, nearly half of them those of loops."""
    rows = {path.stem: set(scripts_in(json.loads(path.read_text()))) for path in sorted((TOP / "tests" / "rows").glob("*.json"))}
    loops, others, draw = sorted(rows["loops"]), sorted(set().union(*rows.values()) - rows["loops"]), random.Random(1)
    return [text.encode() for text in draw.sample(loops, count // 2 - 10) + draw.sample(others, count // 2 + 10)]


def changed(certificate, others, draw):
    """Certificates that are near to one: some of them are accepted too."""
    lines = certificate.split(b"\n")
    at = draw.randrange(len(lines) - 1)
    digits = [place for place, byte in enumerate(certificate) if chr(byte).isdigit()]
    place = draw.choice(digits)
    yield certificate[:place] + str(draw.randrange(10)).encode() + certificate[place + 1:]
    yield certificate.replace(b" 1\n", b" 2\n", 1)
    yield certificate.replace(b" -\n", b" 1 1\n", 1)
    yield re.sub(rb" (\d+) (\d+)\n", rb" \2 \1\n", certificate, count=draw.randrange(1, 4))
    yield b"\n".join(lines[:at] + lines[at + 1:])
    yield b"\n".join(lines[:at] + [lines[at]] + lines[at:])
    yield certificate[:draw.randrange(len(certificate))]
    yield draw.choice(others)


def compared(built, jobs, pool):
    """Holds what the modules answer against the programs; what these answer."""
    due = list(pool.map(built.native, jobs))
    for job, found, wanted in zip(jobs, built.in_node(jobs), due):
        if found != wanted:
            same("%s of %r" % (" ".join(job["words"]), base64.b64decode(job["files"]["script.sed"])[:80]), found, wanted)
    return due


def hold_answers(built, pool):
    """The modules against the programs, on scripts, on certificates, and in the order in which the worker asks them."""
    scripts = list(example_scripts()) + row_scripts(ROWS) + drawn_scripts(DRAWN)
    jobs = [job_of(report, {"script.sed": script}) for script in scripts for report in REPORTS]
    due = compared(built, jobs, pool)
    rank = REPORTS.index(("checker", ["rank", "script.sed"]))
    ranked = [(script, base64.b64decode(one["out"])) for script, one in zip(scripts, due[rank::len(REPORTS)]) if one["status"] == 0]
    statuses = [one["status"] for one in due[::len(REPORTS)]]
    for status, least in ((0, 60), (1, 40), (2, 20)):
        holds("at least %d scripts with status %d, of %d" % (least, status, len(scripts)), statuses.count(status) >= least)
    draw, others = random.Random(2), [certificate for _, certificate in ranked]
    checks = [job_of(CHECK, {"script.sed": script, "script.cert": text}) for script, certificate in ranked
              for text in [certificate, *changed(certificate, others, draw)]]
    verdicts = [one["status"] for one in compared(built, checks, pool)]
    holds("certificates that are accepted, rejected and refused", all(verdicts.count(status) > 50 for status in (0, 1, 2)))
    same("certificates that `rank` found and `check` takes", sum(verdicts[::CHANGED + 1]), 0)
    heard = built.in_node([{"script": encoded(script)} for script in scripts])
    for script, answer, status in zip(scripts, heard, statuses):
        hold_heard(script, answer["heard"], status)
    print("page: %d scripts (%d accepted), %d reports and %d certificates (%d accepted) as the programs have them" % (
        len(scripts), statuses.count(0), len(jobs), len(checks), verdicts.count(0)))


def coded(number):
    """A number in LEB128."""
    return bytes([number]) if number < 128 else bytes([number & 127 | 128]) + coded(number >> 7)


def with_memory(module, more):
    """The module with a memory that grows by so many pages at most."""
    at = 8
    while module[at] != MEMORY:
        size, start = page.read_number(module, at + 1)
        at = start + size
    size, start = page.read_number(module, at + 1)
    least = page.read_number(module, start + 2)[0]
    limits = b"\1\1" + coded(least) + coded(least + more)
    return module[:at + 1] + coded(len(limits)) + limits + module[start + size:]


def hold_memory(built):
    """Where memory runs out a module ends with status 4 and no report, or the host gives up; else it answers as ever."""
    script = {"script.sed": b"s/a/b/\n" * 3000}
    jobs = [job_of(report, script) for report in (("checker", ["rank", "script.sed"]), ("explain", ["--format", "json", "script.sed"]), ("explain", ["--format", "sed", "script.sed"]))]
    due, kinds = [built.native(job) for job in jobs], set()
    for more in [*range(0, 24, 3), *range(24, 240, 24)]:
        files = built.files[:1]
        for program in NAMES:
            (built.folder / "small").mkdir(exist_ok=True)
            (built.folder / "small" / program).write_bytes(with_memory((built.folder / program).read_bytes(), more))
            files.append(str(built.folder / "small" / program))
        for job, found, wanted in zip(jobs, built.in_node(jobs, files), due):
            kind = "same" if found == wanted else "stopped" if "stopped" in found else found["status"]
            kinds.add((job["program"], kind))
            holds("%s with %d pages more: %r" % (" ".join(job["words"]), more, str(found)[:200]), kind == "same" or kind == 4 and found["out"] == "" or (
                kind == "stopped" and "memory is full" in found["stopped"]))
    same("what came of little memory", {kind for kind in kinds if kind[1] != "stopped"}, {(program, kind) for program in NAMES for kind in ("same", 4)})


def hold_heard(script, heard, status):
    """The worker says the verdict first, with `check` only where there is a certificate, and then the rest."""
    what = "the worker on %r" % script[:60]
    same(what, [sorted(set(one) & {"verdict", "rest", "stopped"}) for one in heard], [["verdict"], ["rest"]])
    verdict = heard[0]["verdict"]
    same(what, (verdict["reportStatus"], verdict["rankStatus"], verdict.get("checkStatus")), (status, status, 0 if status == 0 else None))
    same(what, "plain" in heard[1]["rest"], status == 0)


# The page in a browser.

SETTLED = "document.documentElement.dataset.settled === String(asked)"
VERDICT = "document.getElementById('verdict').innerText"
SAVED = "document.querySelector('a[download=\"script.cert\"]').href.startsWith('blob:') && byId('certificate').textContent"
LABELLED = """[...document.querySelectorAll('input, select, textarea, button, summary, a')].every((one) =>
    one.labels && one.labels.length > 0 && one.labels[0].innerText.trim() !== '' || one.innerText.trim() !== '')"""


def put(tab, script):
    """Writes a script into the field and waits for its answer; what the verdict says."""
    tab.value("byId('script').value = %s; byId('script').dispatchEvent(new Event('input')); judge()" % json.dumps(script))
    tab.until(SETTLED)
    return tab.value(VERDICT)


def pixels(picture):
    """The colour of the corner of a PNG, and how many different rows of pixels it has."""
    width, height, depth, kind = struct.unpack(">IIBB", picture[16:26])
    data, at = b"", 8
    while at < len(picture):
        size, name = struct.unpack(">I4s", picture[at:at + 8])
        data += picture[at + 8:at + 8 + size] if name == b"IDAT" else b""
        at += size + 12
    raw, step = zlib.decompress(data), {2: 3, 6: 4}[kind]
    same("depth of a picture", depth, 8)
    rows = [raw[at:at + 1 + width * step] for at in range(0, len(raw), 1 + width * step)]
    return tuple(raw[1:4]), len(set(rows)), height


def hold_look(built, tab, width, scheme):
    """The page as it is opened: the verdict of its example, its colours, its width, its labels."""
    tab.look(width, scheme)
    tab.open(PAGE)
    tab.until(SETTLED)
    what = "%s at %d" % (scheme, width)
    said = tab.value(VERDICT)
    holds("the verdict of the first example, " + what, said.startswith("No.") and "never ends on the line x with a newline" in said and "no input" not in said)
    same("the ground, " + what, tab.value("getComputedStyle(document.body).backgroundColor"), {"light": "rgb(255, 255, 255)", "dark": "rgb(13, 17, 23)"}[scheme])
    for example in built.facts["examples"]:
        tab.value("byId('example').value = %s; byId('example').dispatchEvent(new Event('change'))" % json.dumps(example["name"]))
        tab.until(SETTLED)
        same("width of %s, %s" % (example["name"], what), tab.value("document.documentElement.scrollWidth <= innerWidth"), True)
        same("status of %s" % example["name"], tab.value(VERDICT).split(" ")[0], ANSWERS[built.native(job_of(REPORTS[0], {"script.sed": example["text"].encode()}))["status"]])
        holds("names of what can be used, of %s" % example["name"], tab.value(LABELLED))
    picture = tab.picture()
    (page.OUT / ("sedck-%s-%d.png" % (scheme, width))).write_bytes(picture)
    corner, rows, height = pixels(picture)
    same("corner of the picture, " + what, corner, {"light": (255, 255, 255), "dark": (13, 17, 23)}[scheme])
    holds("a picture with more than 100 different rows, " + what, rows > 100 and height > 1000)
    said = tab.value("byId('made').innerText")
    same("what the page says of its proofs", ("Not proved" in said, "Both modules come from the LLVM code of programs that Rattle has proved" in said),
         (not all(built.facts["proved"].values()), all(built.facts["proved"].values())))


def hold_parts(built, tab):
    """What is shown of an accepted script, of a loop and of a script with a fix; and what the buttons do."""
    holds("accepted", put(tab, "s/a/b/w out\nr in\n").startswith("Accepted."))
    holds("a warning is said with the verdict", "Read the warnings" not in tab.value(VERDICT) and "Read the warnings" in put(tab, "s/x\u00e9*/x/\n"))
    put(tab, "s/a/b/w out\nr in\n")
    shown = tab.value("byId('report').innerText")
    holds("files, limits, certificate, spelling and graph", all(re.search(words, shown, re.I) for words in (
        r"Reads:\s+in at 2:1", r"Writes:\s+out at 1:1", r"At most 2 × lines|At most \d+ × lines", "Save the certificate", "Plain spelling", "Flow graph")))
    script = {"script.sed": b"s/a/b/w out\nr in\n"}
    certificate = base64.b64decode(built.native(job_of(("checker", ["rank", "script.sed"]), script))["out"])
    same("the certificate to save", tab.value(SAVED), certificate.decode())
    same("what the small module said", tab.value("byId('checked').textContent").encode(),
         base64.b64decode(built.native(job_of(CHECK, {**script, "script.cert": certificate}))["out"]))
    holds("a loop", put(tab, ":a\ns/x/y/\nb a\n").startswith("No."))
    same("the marked loop", tab.value("[...document.querySelectorAll('.listing mark')].map((one) => one.textContent).join(' ')"), ":a1 s/x/y/2 b a3")
    holds("red edges", tab.value("document.querySelectorAll('svg.graph .edge.loop').length") >= 3)
    holds("refused", put(tab, "s/[0-9]\\+/n/\n").startswith("Refused."))
    tab.value("document.querySelector('.fix').click()")
    tab.until(SETTLED)
    same("the script with its fix", tab.value("byId('script').value"), "s/[0-9]\\{1,\\}/n/\n")
    holds("accepted with its fix", tab.value(VERDICT).startswith("Accepted."))
    put(tab, "s/a/b/;p\n")
    tab.value("[...document.querySelectorAll('button')].find((one) => one.innerText === 'Use this spelling').click()")
    tab.until(SETTLED)
    same("the plain spelling", tab.value("byId('script').value"), "s/a/b/\np\n")


def hold_files(tab):
    """A file whose bytes the field can't hold is judged as it is; its fix changes those bytes."""
    tab.value("showBytes(new Uint8Array([...new TextEncoder().encode('s/a/b/\\r\\np\\n')]))")
    tab.until(SETTLED)
    holds("a carriage return is refused", tab.value(VERDICT).startswith("Refused."))
    holds("and said", "can't hold" in tab.value("byId('file-note').innerText"))
    tab.value("document.querySelector('.fix').click()")
    tab.until(SETTLED)
    holds("and taken out", tab.value(VERDICT).startswith("Accepted.") and tab.value("byId('file-note').innerText") == "")


def hold_hostile(tab):
    """No text of a script becomes an element."""
    count = "document.querySelectorAll('img, b, iframe, script').length"
    before = tab.value(count)
    for script, head in zip(HOSTILE, ("Accepted.", "No.", "Refused.", "Refused.")):
        same("the verdict on %r" % script, put(tab, script).split(" ")[0], head)
        same("elements after %r" % script, (tab.value(count), tab.value("document.title.startsWith('sedck')")), (before, True))
    put(tab, MARKUP)
    holds("the name of a file as it is", "<b>name</b>" in tab.value("byId('report').innerText"))
    for name, shown in (("\\a\"b`c'd", "\\\\a\\\"b\\x60c'd"), ("\u00e9 \t~^_{}[]@", "\\xc3\\xa9 \\x09~^_{}[]@")):
        holds("both modules name %r alike" % name, put(tab, "w %s\nr z%s\n" % (name, name)).startswith("Accepted."))
        same("the name %r" % name, tab.value("[...document.querySelectorAll('#report li > code')].map((one) => one.innerText).join()"), "z%s,%s" % (shown, shown))


def hold_keys(tab):
    """Everything is reached by the keyboard, in the order in which it is read; the field is judged by Ctrl and Enter."""
    tab.open(PAGE)
    tab.until(SETTLED)
    reached = []
    for _ in range(4):
        tab.key("Tab", 9)
        reached.append(tab.value("document.activeElement.id"))
    same("the order of focus", reached, ["example", "script", "judge", "file"])
    tab.value("byId('script').focus()")
    before = tab.value("asked")
    tab.key("Enter", 13, modifiers=2)
    tab.until(SETTLED)
    same("Ctrl and Enter", tab.value("asked"), before + 1)
    same("the verdict is announced", tab.value("['role', 'aria-live'].map((name) => byId('verdict').getAttribute(name)).join()"), "status,polite")


def hold_cancel(tab):
    """A long search doesn't stop the page, and can be cancelled; the next script is answered."""
    tab.value("byId('script').value = 'N;'.repeat(4) + 's/a*b*c*/&&/;t\\n'.repeat(2040); judge()")
    same("at work", tab.value("byId('cancel').disabled"), False)
    tab.value("byId('cancel').click()")
    holds("cancelled", tab.value(VERDICT) == "No answer. It was cancelled.")
    holds("the next answer", put(tab, "p\n").startswith("Accepted."))


def hold_disagreement(built, tab):
    """Where the small module doesn't take the certificate, nothing is accepted, whatever the large one says."""
    old = "[CERTIFICATE, rank.out]"
    for old, change in ((old, "[CERTIFICATE, rank.out.slice(1)]"), (old, "[CERTIFICATE, rank.out.map((byte) => byte === 50 ? 48 : byte)]"),
                        ("checked: check.out", "checked: new TextEncoder().encode('accepted\\nbound 3 12 3\\nread 1\\nx\\nwrite 0\\n')"),
                        ("checked: check.out", "checked: new TextEncoder().encode('accepted\\nread 0\\nwrite 0\\n')"),
                        ("checked: check.out", "checked: new TextEncoder().encode('accepted\\nbound 3 12 4\\nread 0\\nwrite 0\\n')"),
                        ("checkStatus: check.status", "checkStatus: 1")):
        text = built.text.replace(old, change)
        same("places of %s" % old, built.text.count(old), 1)
        (built.folder / "changed.html").write_text(text)
        tab.open(built.folder / "changed.html")
        tab.until(SETTLED)
        for script in ("p\n", ":a\n$!N\n$!b a\ns/\\n/ /g\n"):
            holds("no yes without a checked certificate", put(tab, script).startswith("No answer. The two modules don't agree."))


def fails(call, *words):
    try:
        call(*words)
    except page.Fault:
        return True
    return False


def hold_build():
    """What the build does to code, modules and texts; this needs no page."""
    code = 'target datalayout = "e"\ntarget triple = "x"\ndefine i32 @main() #0 {\nattributes #0 = { nounwind "target-cpu"="x86-64-v2" }\n'
    same("code with another target", page.retargeted(code, 'target datalayout = "w"'),
         'target datalayout = "w"\ntarget triple = "wasm64-unknown-unknown"\ndefine i32 @program() #0 {\nattributes #0 = { nounwind  }\n')
    for what in ('  call void asm sideeffect "nop", ""()\n', "declare void @llvm.x86.sse2.pause()\n", 'target triple = "y"\n'):
        holds("code with %r is refused" % what, fails(page.retargeted, code + what, 'target datalayout = "w"'))
    holds("code without `main` is refused", fails(page.retargeted, code.replace("@main", "@other"), 'target datalayout = "w"'))
    head, table, elements, last = b"\0asm\1\0\0\0", b"\4\5\1\x70\5\1\1", b"\x09\1\0", b"\x0a\x81\1" + b"\0" * 129
    same("a module without its table", page.without_table(head + table + last), head + last)
    same("sections", sections(head + table + last), [4, 10])
    holds("a table that is used is refused", fails(page.without_table, head + table + elements + last))
    holds("a text that ends its element is refused", fails(page.in_script, "a</SCRIPT b") and fails(page.in_script, "<!--") and page.in_script("</p>") == "</p>")
    holds("a value in an element", "<" not in page.as_text({"a": "</script>"}) and json.loads(page.as_text({"a": "</script>"})) == {"a": "</script>"})


def hold_spoiled(built, tab):
    """A page whose module is none, or isn't packed, says so."""
    for name in ("explain", "checker"):
        for packed in (gzip.compress(b"\0asm"), b"no gzip"):
            (built.folder / "changed.html").write_text(built.text.replace(block(built.text, name + "-module"), encoded(packed)))
            tab.open(built.folder / "changed.html")
            tab.until(VERDICT + ".startsWith('No answer.')")
            holds("no report of a spoiled module", tab.value("byId('report').children.length") == 0)


def hold_browser(built, path):
    with browser.Browser(path) as tab:
        for width, scheme in ((1000, "light"), (360, "dark"), (360, "light"), (1000, "dark")):
            hold_look(built, tab, width, scheme)
        hold_parts(built, tab)
        hold_files(tab)
        hold_hostile(tab)
        hold_keys(tab)
        hold_cancel(tab)
        hold_disagreement(built, tab)
        hold_spoiled(built, tab)
    print("page: opened from a file in %s, light and dark, 360 and 1,000 wide" % path)


def hold_programs(natives):
    """The programs beside the page are those that they should be: what they say of examples is what pages say, and no silence is held against another."""
    for name, status in (("mail-body", 0), ("join-lines", 0), ("pad-left-loop", 1)):
        script = TOP / "examples" / (name + ".sed")
        ranked = subprocess.run([natives["checker"], "rank", script], stdout=subprocess.PIPE, check=False)
        due = script.with_suffix(".cert").read_bytes() if status == 0 else b"loop growing\n"
        same("what sedck says of %s" % name, (ranked.returncode, ranked.stdout[:len(due)]), (status, due))
        said = subprocess.run([natives["explain"], "--format", "json", script], stdout=subprocess.PIPE, encoding="utf-8", check=False)
        same("what sedck-explain says of %s" % name, (said.returncode, re.findall(r'"answer":"(\w+)"', said.stdout)), (status, ["loop" if status else "accepted"]))


def main():
    hold_build()
    if not PAGE.exists():
        skip("page", "the page", "build/page/sedck.html isn't there (`make page` or `make try-page`%s)" % (
            "" if shutil.which("wasm-opt") else "; wasm-opt isn't there either"))
        return 1 if faults else WHOLE
    with tempfile.TemporaryDirectory(prefix="sedck-page-") as folder, ThreadPoolExecutor(2) as pool:
        built = Built(folder)
        if not built.is_fresh():
            skip("page", "the page", "build/page/sedck.html was made from other sources (`make page` or `make try-page`)")
            return 1 if faults else WHOLE
        built.hold_modules()
        hold_programs(built.natives)
        if has("page", "the modules", "node"):
            hold_answers(built, pool)
            hold_memory(built)
        if browser.found():
            hold_browser(built, browser.found())
        else:
            skip("page", "the page in a browser", "this machine lacks chromium")
    print("page: %s" % ("%d faults" % len(faults) if faults else "all as expected"))
    return 1 if faults else 0


if __name__ == "__main__":
    sys.exit(main())
