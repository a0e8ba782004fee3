"""Scripts that write their own file: which ones are warned of, and that a real sed runs such a script on as another one."""
import json
import os
import subprocess
import tempfile

from explain_tools import Tools
from skips import has_gnu_sed

CODE = "names-itself"
# How much of a script a sed reads at once.
BLOCK = 4096

# The path by which a script is given, the script, and the place of each warning that a name is that of its own file.
ROWS = [
    ("self.sed", b"w self.sed\n", [(1, 1)]),
    ("self.sed", b"p;s/a/b/w self.sed\n", [(1, 3)]),
    ("self.sed", b"w ./self.sed\n", [(1, 1)]),
    ("./self.sed", b"p\nw .//self.sed\nw self.sed\n", [(2, 1), (3, 1)]),
    ("sub/self.sed", b"w self.sed\n", [(1, 1)]),
    ("self.sed", b"w ../here/self.sed\n", [(1, 1)]),
    (".//sub/./self.sed", b"w /sub/self.sed\n", [(1, 1)]),
    ("./-", b"w -\n", [(1, 1)]),
    # other names, a file that is only read, and names in texts
    ("self.sed", b"w self.se\nw xself.sed\nw self.sed.new\nw Self.sed\nw self.sed/x\n", []),
    ("self.sed", b"r self.sed\n", []),
    ("self.sed", b"a\\\nw self.sed\ns/x/w self.sed/\n# w self.sed\n", []),
    ("sub/self.sed", b"w sub\n", []),
]


def places(report, code=CODE):
    """The place of each finding with the code."""
    return [(finding["position"]["line"], finding["position"]["column"]) for finding in report["findings"] if finding["code"] == code]


def check_rows(tools):
    """Which names are warned of."""
    os.makedirs(tools.path("sub"), exist_ok=True)
    for path, script, due in ROWS:
        tools.write(path, script)
        status, report, _ = tools.explain("--format", "json", path)
        tools.same("%s: %r" % (path, script), (status, places(json.loads(report))), (0, due))
        tools.same("%s: %r with a denial" % (path, script), tools.explain("--deny", "warnings", path)[0] if due else 1, 1)
        tools.write(path, b"# sedck: ignore names-itself\n" + script)
        behind = [(line + 1, column) for line, column in due]
        tools.same("%s: %r, ignored" % (path, script), places(json.loads(tools.explain("--format", "json", path)[1])), behind)
    for words, due in (([], []), (["--stdin-filename", "/home/me/self.sed"], [(1, 1)]), (["--stdin-filename", "other.sed"], [])):
        report = tools.explain("--format", "json", *words, "-", given=b"w self.sed\nw -\n")[1]
        tools.same("standard input, %s" % words, places(json.loads(report)), due)


def check_folders(tools):
    """A script below a folder, and one with a certificate."""
    tools.write("sub/self.sed", b"w self.sed\n")
    lines = [json.loads(line) for line in tools.explain("--calls", "--format", "json", "sub")[1].splitlines()]
    tools.same("below a folder", [places(line) for line in lines if line.get("file", "").endswith("self.sed")], [[(1, 1)]])
    tools.write("self.cert", tools.sedck("rank", "sub/self.sed")[1])
    tools.same("with a certificate", places(json.loads(tools.explain("--format", "json", "--cert", "self.cert", "sub/self.sed")[1])), [(1, 1)])


def cut_script(write):
    """A script that ends, and of which the first block runs for ever."""
    head, tail = write + "\n#", "\n:a\nba"
    return head + "x" * (BLOCK - len(head) - len(tail)) + tail + "bc\n:abc\n"


def runs_on(folder, path, script):
    """Whether sed doesn't end by the script at this path."""
    with open(os.path.join(folder, path), "w") as file:
        file.write(script)
    try:
        subprocess.run(["sed", "-n", "-f", path], cwd=folder, input=b"x\n", capture_output=True, timeout=3, check=False, env={"PATH": os.environ["PATH"], "LC_ALL": "C"})
    except subprocess.TimeoutExpired:
        return True
    return False


def check_runs(tools):
    """Where the warning is, GNU sed runs on; from a copy with another name it ends."""
    runs = has_gnu_sed("explain", "scripts that write their own file, as they run on")
    for write in ("w self.sed", "w ./self.sed", "w ../here/self.sed", "s/y/z/w self.sed"):
        script = cut_script(write)
        tools.write("self.sed", script.encode())
        status, report, _ = tools.explain("--format", "json", "self.sed")
        tools.same("%s: the warning" % write, (status, len(places(json.loads(report)))), (0, 1))
        if runs:
            with tempfile.TemporaryDirectory(prefix="sedck-itself-") as whole:
                folder = os.path.join(whole, "here")
                os.makedirs(folder)
                tools.same("%s: sed runs on by it, and ends by a copy" % write, [runs_on(folder, path, script) for path in ("self.sed", "copy.sed")], [True, False])


# Words of a call of sed, and how many warnings there are. Of the files `write.sed` has `w write.sed`, and `other.sed` has `p`.
CALLS = [
    (["-n", "-f", "write.sed", "in"], 1), (["-nfwrite.sed", "in"], 1), (["--file=./write.sed", "in"], 1), (["-f", "sub/../write.sed"], 1), (["-f", "sub/write.sed"], 1),
    (["-f", "other.sed", "-f", "write.sed"], 1), (["-f", "other.sed", "-e", "w other.sed"], 1), (["-f", "other.sed", "-f", "write.sed", "-e", "w other.sed"], 2),
    (["-e", "w write.sed", "in"], 0), (["w -"], 0), (["-f", "other.sed", "-e", "w in", "x"], 0), (["-f", "other.sed", "-e", "r other.sed"], 0), (["-f", "-"], 0),
]


def check_calls(tools):
    """Of a call each file of `-f` is one that the script may name."""
    for path, text in (("write.sed", b"w write.sed\n"), ("sub/write.sed", b"w write.sed\n"), ("other.sed", b"p\n")):
        tools.write(path, text)
    for words, due in CALLS:
        status, report, _ = tools.explain("--format", "json", "--sed", "--", *words, given=b"w -\n")
        tools.same("the call %s" % words, (status, len(places(json.loads(report)))), (0, due))
        tools.same("the call %s with a denial" % words, tools.explain("--deny", CODE, "--sed", "--", *words, given=b"w -\n")[0], 1 if due else 0)
    if has_gnu_sed("explain", "a call that writes the file of its script, as it runs on"):
        # The file's first block ends in the middle of a name.
        head, tail = "w write.sed\n#", "\nw outfile\n"
        with tempfile.TemporaryDirectory(prefix="sedck-itself-") as folder:
            with open(os.path.join(folder, "write.sed"), "w") as file:
                file.write(head + "x" * (BLOCK - len(head) - len(tail) + len("file\n")) + tail)
            subprocess.run(["sed", "-n", "-f", "write.sed"], cwd=folder, input=b"x\n", capture_output=True, timeout=30, check=False)
            tools.same("what sed makes by a call that is warned of", sorted(os.listdir(folder)), ["out", "write.sed"])


def check(tools: Tools) -> None:
    """Compares which scripts are warned of, and what a sed makes of some."""
    check_rows(tools)
    check_calls(tools)
    check_folders(tools)
    check_runs(tools)
