#!/usr/bin/env python3
"""Compares the library for C with the program: python3 tests/library.py build/libsedck.a build/sedck build/refuse.so

From C (tests/library.c) and from Python (library/example.py): each script of the examples and of a list, with each certificate; rooms of several
sizes; null pointers; several threads at a time. Then each request for memory is refused in turn: the answer must be out of memory, or the one
that is due, and never a yes by accident. The status is 0 only where all is as it is due.
"""
import ctypes
import importlib.util
import os
import re
import subprocess
import sys
import tempfile
from concurrent.futures import ThreadPoolExecutor
from pathlib import Path

from skips import has

TOP = Path(__file__).resolve().parent.parent
# Scripts of each answer, with what the program prints of its own that the examples don't have.
SCRIPTS = [b"", b"p\n", b":a;s/x//;ta\n", b":a;ba\n", b":a;s/x/xx/;ta\n", b"r in\nw out\nw a name \n", b"G;h\n", b"s/a\\+/b/\n", b"p\0", b"s/[/x/", b"{p",
           b"b nowhere\n", b"#n\np\n", b"p\n" * 4096, b"x" * 1048577, b"w \xff\xfe\n", b"$!N;P;D\n"]
WRONG_CERTIFICATES = [b"", b"sedck 3\n", b"sedck 2\ncommands 1\n", b"sedck 2\ncommands 9999\n", b"sedck 1\ncommands 0\n0 0 1 1\n0 1 -\nread 0\nwrite 0\nend\n"]
ACCEPTED, REJECTED, REFUSED, MEMORY, ROOM = 0, 1, 2, 4, 5
wrong = []


def expect(holds, what):
    if not holds:
        wrong.append(what)
        if len(wrong) < 30:
            print("library: " + what)


class Told:
    """What the program answers: the status, and what the library has to tell."""
    def __init__(self, sedck, folder, words, **files):
        for name, text in files.items():
            (folder / name).write_bytes(text)
        done = subprocess.run([sedck, *words], cwd=folder, stdin=subprocess.DEVNULL, capture_output=True)
        self.status, self.report = done.returncode, done.stdout
        lines, said = done.stdout.split(b"\n"), done.stderr.decode(errors="replace")
        bound = re.match(rb"bound (\d+) (\d+) (\d+)$", lines[1]) if len(lines) > 1 else None
        self.bound = tuple(map(int, bound.groups())) if bound else None
        fault = re.match(r"sedck: (script|certificate) fault (\d+) \S+ at (?:line )?(\d+)", said)
        rejected = re.match(rb"rejected (\d) ", done.stdout)
        self.fault = (["script", "certificate"].index(fault[1]) + 1, int(fault[2]), int(fault[3])) if fault else (0, int(rejected[1]) if rejected else 0, 0)


def told(answer):
    """The same of an answer of the library."""
    bound = (answer.per_byte, answer.per_line, answer.fixed)
    return bound if answer.bounded else None, (answer.text, answer.fault, answer.place)


class Tried:
    def __init__(self, library, program, sedck, folder):
        self.library, self.program, self.sedck, self.folder = library, program, sedck, folder
        self.scripts = SCRIPTS + [path.read_bytes() for path in sorted((TOP / "examples").glob("*.sed"))]
        self.certificates = WRONG_CERTIFICATES + [path.read_bytes() for path in sorted((TOP / "examples").glob("*.cert"))]

    def check_scripts(self):
        """The status, the text and the answer of each script by itself."""
        for script in self.scripts:
            ranked = Told(self.sedck, self.folder, ["rank", "script"], script=script)
            status, text = self.library.rank(script)
            expect((status, text) == (ranked.status, ranked.report), "rank of %r is %d, %r" % (script[:40], status, text[:60]))
            status, answer, lists = self.library.judge(script)
            bound, fault = told(answer)
            expect(status == ranked.status, "judge of %r is %d" % (script[:40], status))
            if status == ACCEPTED:
                checked = Told(self.sedck, self.folder, ["check", "script", "cert"], cert=ranked.report)
                files = Told(self.sedck, self.folder, ["files", "script"])
                expect(bound == checked.bound and lists == files.report, "judge of %r tells %s, %r" % (script[:40], bound, lists))
                counts = tuple(map(int, re.findall(rb"^(?:read|write) (\d+)$", files.report, re.M)))
                expect((answer.reads, answer.writes) == counts, "judge of %r counts %d and %d" % (script[:40], answer.reads, answer.writes))
            else:
                expect(lists == b"" and (bound, fault) == (None, ranked.fault), "judge of %r tells %s, %s, %r" % (script[:40], bound, fault, lists))

    def check_pairs(self):
        """Each script with each certificate: most don't fit, and some do though they were made for another script."""
        accepted = 0
        for script in self.scripts:
            for certificate in self.certificates:
                due = Told(self.sedck, self.folder, ["check", "script", "cert"], script=script, cert=certificate)
                status, answer = self.library.check(script, certificate)
                accepted += status == ACCEPTED
                expect((status, *told(answer)) == (due.status, due.bound, due.fault), "check of %r with %r is %d, %s" % (script[:40], certificate[:40], status, told(answer)))
        expect(accepted > len(self.certificates) - len(WRONG_CERTIFICATES), "only %d pairs are accepted" % accepted)

    def check_rooms(self):
        """A text is put where there is room for it, and nothing else is written; a room that is too small stays as it was."""
        size_of = ctypes.c_size_t
        for script, call in ((b"w out\n", "judge"), (b"w out\n", "rank"), (b":a;ba\n", "rank")):
            status, text = self.library.rank(script) if call == "rank" else self.library.judge(script)[::2]
            expect(len(text) > 10, "%s of %r puts %r" % (call, script, text))
            for size in (0, 1, len(text) - 1, len(text), len(text) + 1, 4096):
                room, needed = ctypes.create_string_buffer(b"\xaa" * 4200, 4200), size_of()
                before = [example().Answer()] if call == "judge" else []
                seen = getattr(self.library.library, "sedck_" + call)(script, len(script), *before, room, size, needed)
                due = status if size == 0 or size >= len(text) else ROOM
                put = text if size >= len(text) else b""
                expect((seen, needed.value, room.raw) == (due, len(text), put + b"\xaa" * (4200 - len(put))), "%s of %r in a room of %d is %d" % (call, script, size, seen))

    def check_threads(self):
        with ThreadPoolExecutor(4) as pool:
            for script, seen in zip(self.scripts * 20, pool.map(self.library.rank, self.scripts * 20)):
                expect(seen[0] in (0, 1, 2) and seen == self.library.rank(script), "rank of %r beside others is %d" % (script[:40], seen[0]))

    def check_program(self):
        """The program in C tells what Python was told; null pointers."""
        for script in self.scripts[:12]:
            (self.folder / "script").write_bytes(script)
            for call in ("judge", "rank"):
                done = subprocess.run([self.program, call, "script"], cwd=self.folder, stdout=subprocess.PIPE)
                line, _, text = done.stdout.partition(b"\n")
                status, *answer, lists = self.library.judge(script) if call == "judge" else self.library.rank(script)
                seen = list(map(int, line.split()))
                expect((done.returncode, seen[0], text) == (status, status, lists), "%s of %r in C is %d, %r" % (call, script[:40], done.returncode, text[:60]))
                if answer:
                    one = answer[0]
                    expect(seen[1:] == [one.bounded, one.per_byte, one.per_line, one.fixed, one.reads, one.writes, one.text, one.fault, one.place], "%r in C tells %s" % (script[:40], seen))
        expect(subprocess.run([self.program, "null"], cwd=self.folder).returncode == 0, "null pointers")

    def refused(self, shim, words):
        """How many requests were refused in turn, and how often memory ran out."""
        due = subprocess.run([self.program, *words], cwd=self.folder, stdout=subprocess.PIPE)
        number, ran_out = 0, 0
        while True:
            number += 1
            done = subprocess.run([self.program, *words], cwd=self.folder, capture_output=True, env={**os.environ, "LD_PRELOAD": shim, "REFUSE": str(number)})
            if not done.stderr:
                expect((done.returncode, done.stdout) == (due.returncode, due.stdout), "%s with no refusal is %d" % (words, done.returncode))
                return number - 1, ran_out
            line, _, text = done.stdout.partition(b"\n")
            is_memory = done.returncode == MEMORY and line.split()[0] == b"4" and text == b""
            ran_out += is_memory
            expect(is_memory or (done.returncode, done.stdout) == (due.returncode, due.stdout), "%s with request %d refused is %d, %r" % (words, number, done.returncode, done.stdout[:80]))

    def check_refusals(self, shim):
        total = 0
        for script in (b":a;$!{N;ba};s/\\(a\\)*\\n/ \\1/gw out\nr in\n", b":a;b a\n", b":a;s/x/xx/;ta\n", b"s/a\\+/b/\n"):
            ranked = Told(self.sedck, self.folder, ["rank", "script"], script=script)
            (self.folder / "cert").write_bytes(ranked.report if ranked.status == 0 else self.certificates[-1])
            for words in (["judge", "script"], ["rank", "script"], ["check", "script", "cert"]):
                count, ran_out = self.refused(shim, words)
                expect(count > 0 and ran_out > 0, "%s of %r: %d requests were refused, and memory ran out %d times" % (words[0], script[:40], count, ran_out))
                total += count
        return total


def example():
    if "example" not in sys.modules:
        spec = importlib.util.spec_from_file_location("example", TOP / "library" / "example.py")
        sys.modules["example"] = importlib.util.module_from_spec(spec)
        spec.loader.exec_module(sys.modules["example"])
    return sys.modules["example"]


def compiled(archive, folder):
    """The shared library, and the program of tests/library.c; each has nothing that the C library doesn't."""
    compiler = (os.environ.get("CC") or "cc").split()
    flags = ["-Wall", "-Wextra", "-Werror", "-I", str(TOP / "library")]
    subprocess.run([*compiler, "-shared", "-o", str(folder / "libsedck.so"), "-Wl,-z,defs", "-Wl,--whole-archive", archive, "-Wl,--no-whole-archive"], check=True)
    subprocess.run([*compiler, "-std=c99", "-D_POSIX_C_SOURCE=200809L", *flags, str(TOP / "tests" / "library.c"), archive, "-o", str(folder / "library")], check=True)
    subprocess.run([*compiler, *flags, str(TOP / "library" / "example.c"), archive, "-o", str(folder / "example")], check=True)
    if has("library", "the header in C++", "c++"):
        (folder / "header.cc").write_text('#include <sedck.h>\nint main() { return sedck_judge("p", 1, 0, 0, 0, 0); }\n')
        subprocess.run(["c++", *flags, str(folder / "header.cc"), archive, "-o", str(folder / "header")], check=True)
        expect(subprocess.run([folder / "header"]).returncode == 0, "a program in C++")


def check_examples(folder):
    """The examples in C and in Python print the same, of each answer."""
    for script, due in ((b":a;s/x//;ta\nr in\n", (0, b"accepted\nbound 7 49 7\nread 1\nin\nwrite 0\n")), (b":a;ba\n", (1, b"a loop may never end\n")),
                        (b"p\nb z\n", (2, b"fault 15 at 4\n"))):
        (folder / "script").write_bytes(script)
        for words in ([folder / "example", "script"], [sys.executable, TOP / "library" / "example.py", folder / "libsedck.so", "script"]):
            done = subprocess.run(words, cwd=folder, stdout=subprocess.PIPE)
            expect((done.returncode, re.sub(rb"^bound .*\n", b"", done.stdout, flags=re.M)) == (due[0], re.sub(rb"^bound .*\n", b"", due[1], flags=re.M)), "%s prints %d, %r" % (words[-2], done.returncode, done.stdout))


def main():
    archive, sedck, shim = map(os.path.abspath, sys.argv[1:4])
    with tempfile.TemporaryDirectory(prefix="sedck-library-") as name:
        folder = Path(name)
        compiled(archive, folder)
        tried = Tried(example().Library(str(folder / "libsedck.so")), folder / "library", sedck, folder)
        tried.check_scripts()
        tried.check_pairs()
        tried.check_rooms()
        tried.check_threads()
        tried.check_program()
        check_examples(folder)
        total = tried.check_refusals(shim)
    if not wrong:
        print("library: as the program on %d scripts and %d pairs; never a yes with one of %d requests for memory refused" % (
            len(tried.scripts), len(tried.scripts) * len(tried.certificates), total))
    return 1 if wrong else 0


if __name__ == "__main__":
    sys.exit(main())
