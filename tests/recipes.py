#!/usr/bin/env python3
"""Runs the Makefiles, the hooks and the steps of docs/RECIPES.md in scratch folders:

    python3 tests/recipes.py build/sedck build/sedck-explain

Each recipe is taken from the page, or from .pre-commit-hooks.yaml, and must pass what it should pass and refuse what it should
refuse. One that needs a program which this machine lacks is left out, which is said. The status is 0 only where none fails.
"""
import hashlib
import os
import re
import shlex
import shutil
import subprocess
import sys
import tarfile
import tempfile

from skips import skip

try:
    import yaml
except ImportError:
    yaml = None

TOP = os.path.dirname(os.path.dirname(os.path.abspath(__file__)))
ENDLESS = ":a\np\nb a\n"


def read(name):
    with open(os.path.join(TOP, name)) as file:
        return file.read()


def block(head, language, nth=0):
    """A block of a section of the page; the others are examples of what it prints."""
    section = re.split(r"^## ", read("docs/RECIPES.md").split("\n## %s\n" % head, 1)[1], flags=re.M)[0]
    return re.findall(r"^```%s\n(.*?)^```$" % language, section, flags=re.M | re.S)[nth]


class Failure(Exception):
    pass


class LeftOut(Exception):
    """What this machine, or this program, lacks."""


class Scratch:
    """A folder with the programs sedck, sedck-explain, sedck-fmt, sedck-known and sedck-sed on the path."""
    def __init__(self, sedck, explain):
        self.sedck, self.explain = sedck, explain

    def __enter__(self):
        self.whole = tempfile.TemporaryDirectory(prefix="sedck-recipes-")
        self.folder = os.path.join(self.whole.name, "here")
        os.makedirs(os.path.join(self.whole.name, "bin"))
        os.makedirs(self.folder)
        shutil.copy(self.sedck, os.path.join(self.whole.name, "bin", "sedck"))
        shutil.copy(self.explain, os.path.join(self.whole.name, "bin", "sedck-explain"))
        os.makedirs(os.path.join(self.whole.name, "libexec", "sedck"))
        for name in ("sedck-fmt", "sedck-known", "sedck-sed"):
            shutil.copy(os.path.join(TOP, "wrapper", name), os.path.join(self.whole.name, "bin"))
        shutil.copy(os.path.join(TOP, "wrapper", "sed"), os.path.join(self.whole.name, "libexec", "sedck"))
        self.environment = {"PATH": os.path.join(self.whole.name, "bin") + ":" + os.environ["PATH"], "HOME": self.whole.name, "LC_ALL": "C"}
        return self

    def __exit__(self, *_):
        self.whole.cleanup()

    def write(self, name, text, mode=0o644):
        path = os.path.join(self.folder, name)
        os.makedirs(os.path.dirname(path), exist_ok=True)
        with open(path, "w") as file:
            file.write(text)
        os.chmod(path, mode)

    def copy(self, name, to=None):
        self.write(to or name, read("examples/" + name))

    def text(self, name):
        with open(os.path.join(self.folder, name)) as file:
            return file.read()

    def has(self, name):
        return os.path.exists(os.path.join(self.folder, name))

    def run(self, due, *words):
        """What the command prints, both streams, where it ends with the status that is due."""
        done = subprocess.run(words, cwd=self.folder, env=self.environment, stdin=subprocess.DEVNULL, stdout=subprocess.PIPE,
                              stderr=subprocess.STDOUT, text=True)
        if done.returncode != due:
            raise Failure("%s ends with %d, not %d:\n%s" % (" ".join(words), done.returncode, due, done.stdout))
        return done.stdout


def holds(what, says):
    if not what:
        raise Failure(says)


def makefile(scratch):
    scratch.write("Makefile", block("A Makefile that checks a script before it runs it", "make"))
    scratch.copy("clean-paths.sed")
    scratch.copy("clean-paths.cert")
    scratch.write("paths.ini.in", "[paths]\na = /usr//./lib\n")
    holds("\naccepted\n" in scratch.run(0, "make", "paths.ini"), "no report is shown")
    holds(scratch.text("paths.ini") == "[paths]\na = /usr/lib\n", "the script isn't run")
    with tempfile.TemporaryDirectory(prefix="sedck-recipes-") as other:
        scratch.environment["TMPDIR"] = other
        script = scratch.text("clean-paths.sed")
        itself = "w clean-paths.sed\n#%s\n:a\nbabc\n:abc\n" % ("x" * 4071)
        holds(itself.index("babc") == 4094, "the block of the script that writes itself doesn't end behind `ba`")
        scratch.write("clean-paths.sed", itself)
        scratch.write("clean-paths.cert", scratch.run(0, "sedck", "rank", "clean-paths.sed"))
        scratch.run(0, "timeout", "20", "make", "paths.ini")
        holds(scratch.text("paths.ini") == scratch.text("paths.ini.in") == scratch.text("clean-paths.sed"), "a script that writes itself isn't run whole")
        scratch.write("clean-paths.sed", "w /no/such/folder/x\n")
        scratch.write("clean-paths.cert", scratch.run(0, "sedck", "rank", "clean-paths.sed"))
        holds("/no/such/folder" in scratch.run(2, "make", "paths.ini"), "a sed that fails isn't seen")
        os.remove(os.path.join(scratch.folder, "paths.ini.new"))
        holds(os.listdir(other) == [], "the copy is left")
        scratch.write("clean-paths.sed", script)
        scratch.copy("clean-paths.cert")
    del scratch.environment["TMPDIR"]
    scratch.write("paths.ini", "[paths]\na = /usr/lib\n")
    scratch.write("clean-paths.sed", scratch.text("clean-paths.sed") + ENDLESS)
    holds("rejected 1 wrong-count" in scratch.run(2, "make", "paths.ini"), "the rejection isn't shown")
    holds(not scratch.has("paths.ini.new") and scratch.text("paths.ini").endswith("lib\n"), "a rejected script leaves something else")
    # A script that is older than all that was made of the last one.
    scratch.write("clean-paths.sed", ENDLESS)
    os.utime(os.path.join(scratch.folder, "clean-paths.sed"), (1, 1))
    scratch.write("paths.ini.in", "[paths]\na = /usr//lib\n")
    holds("rejected" in scratch.run(2, "timeout", "20", "make", "paths.ini"), "an old script is run unchecked")


def in_place(scratch):
    scratch.copy("clean-paths.sed")
    scratch.write("texts/a.txt", "[paths]\na = /usr//lib\n")
    scratch.write("texts/b.txt", "b//c\n")
    scratch.run(0, "sh", "-c", block("In place of `sed -i`", "sh"))
    holds((scratch.text("texts/a.txt"), scratch.text("texts/b.txt")) == ("[paths]\na = /usr/lib\n", "b//c\n"), "other texts")
    holds(os.listdir(os.path.join(scratch.folder, "texts")).__len__() == 2, "a file is left over")


def inline(scratch):
    scratch.write("notes.txt", "  a  \nb\n")
    holds(scratch.run(0, "sh", "-c", block("Scripts inside of other files", "sh")) == "a\nb\n", "other texts")


def vim(scratch):
    """The positions and levels that Vim takes from the lines, of a loop and of a certificate."""
    scratch.copy("join-all-loop.sed")
    scratch.copy("join-all-loop.sed", "-h.sed")
    scratch.write("vimrc", block("Vim and Emacs", "vim"))
    scratch.write("bad.cert", "sedck 3\n")
    lists = "call writefile(map(getqflist(), 'bufname(v:val.bufnr) . \":\" . v:val.lnum . \":\" . v:val.col . v:val.type . v:val.valid'), '%s')"
    scratch.write("run.vim", "\n".join(["source vimrc", "edit join-all-loop.sed", "silent make!", lists % "loop", "edit -h.sed", "silent make!", lists % "option",
                                       "edit join-all-loop.sed", "let &makeprg = substitute(&makeprg, ' --', ' --cert bad.cert --', '')", "silent make!",
                                       lists % "certificate", "qa!", ""]))
    scratch.run(0, "vim", "-es", "-u", "NONE", "-N", "-S", "run.vim")
    name = "join-all-loop.sed:"
    holds(scratch.text("loop").split() == [name + end for end in ("1:1e1", "1:1n1", "2:3n1", "3:1n1", "1:1n1", "1:1n1")], "other places of the loop")
    holds(scratch.text("option").split()[:1] == ["-h.sed:1:1e1"], "a name that looks like an option isn't explained")
    holds(scratch.text("certificate").split()[0] == name + "0:0e1", "the refused certificate isn't listed")


def without_explain(scratch, *words):
    """What the command prints where sedck-explain isn't on the path; the status must be the first word."""
    path = scratch.environment["PATH"]
    scratch.environment["PATH"] = ":".join(folder for folder in path.split(":") if not os.path.exists(os.path.join(folder, "sedck-explain")))
    try:
        return scratch.run(*words)
    finally:
        scratch.environment["PATH"] = path


def make_check(scratch):
    head, test = "A test of `make check`", "tests/sed-scripts.test"
    scratch.write(test, block(head, "sh"), 0o755)
    scratch.write("Makefile", block(head, "make", 1))
    holds(re.findall(r"^\w+ = (.*)$", block(head, "make"), flags=re.M) == [test, test], "automake is given another file")
    scratch.copy("odd-lines.sed", "scripts/odd-lines.sed")
    scratch.run(0, "sh", test)
    scratch.run(0, "make", "-s", "check")
    holds(all(" -- " in line for line in block(head, "sh").splitlines() if line.startswith("exec ")), "a folder may be taken for an option")
    holds("skipped" in without_explain(scratch, 77, "sh", test), "that the test is skipped isn't said")
    without_explain(scratch, 0, "make", "-s", "check")
    scratch.write("scripts/loop.sed", ENDLESS)
    holds("scripts/loop.sed:1:1: error: " in scratch.run(2, "make", "-s", "check"), "the loop isn't shown")
    scratch.run(1, "env", "srcdir=" + scratch.folder, "sh", "-c", "cd / && sh %s" % os.path.join(scratch.folder, test))


def fewer(scratch):
    """The comment that silences a warning, and where it doesn't."""
    scratch.write("quiet.sed", block("Fewer findings", "sed"))
    if subprocess.run([scratch.explain, "--level", "note", os.path.join(scratch.folder, "quiet.sed")], capture_output=True).returncode == 3:
        raise LeftOut("this sedck-explain has no option --level")
    holds(scratch.run(0, "sedck-explain", "--format", "gcc", "quiet.sed") == "", "the warning isn't silenced")
    holds("denied-warnings" in scratch.run(1, "sedck-explain", "--format", "gcc", "--deny", "warnings", "quiet.sed"), "a script speaks for itself")
    scratch.write("doubtful.sed", "w /var/log/changed\n")
    holds("absolute-name" in scratch.run(0, "sedck-explain", "--format", "gcc", "doubtful.sed"), "the warning isn't shown")
    holds(scratch.run(0, "sedck-explain", "--format", "gcc", "--level", "error", "doubtful.sed") == "", "a warning is shown as an error")


def pairs(scratch):
    """Scripts with certificates, of which two fail, and one without."""
    for name in ("endless-print", "lost-label", "odd-lines"):
        for end in (".sed", ".cert"):
            scratch.copy(name + end, "scripts/" + name + end)
    scratch.copy("last-line.sed", "scripts/new.sed")


def certificates(scratch):
    """The step that checks certificates: a line for each failure, and none without one."""
    pairs(scratch)
    scratch.write("check.sh", block("Certificates in the repository, or none", "sh"))
    says = scratch.run(1, "sh", "check.sh").splitlines()
    holds([line.split(": ")[0] for line in says] == ["scripts/endless-print.sed", "scripts/lost-label.sed", "scripts/new.sed"], "the failures are %s" % says)
    holds("rejected 4 not-lowered" in says[0] and "unknown-label" in says[1] and "cannot read certificate" in says[2], "the failures are %s" % says)
    for name in ("endless-print.sed", "lost-label.sed", "new.sed"):
        os.remove(os.path.join(scratch.folder, "scripts", name))
    holds(scratch.run(0, "sh", "check.sh") == "", "something is printed")
    shutil.rmtree(os.path.join(scratch.folder, "scripts"))
    scratch.run(1, "sh", "check.sh")


# Files with a call or a script: the name, the text, whether a step passes, and what it says.
FILES = [("a.sh", "sed s/a/b/ f\n", True, ""), ("-h.sh", "sed ':x;bx' f\n", False, "-h.sh:1:6: error: "), ("b.sh", 'sed "s/$a/b/" f\n', True, "b.sh:1:8: warning: "),
         ("Makefile", "a:\n\tsed ':x;bx' f\n", False, "Makefile:2:7: error: "), ("d/e.sh", "sed 's/a' f\n", False, "e.sh:1:6: error: ")]


def step(scratch):
    """The step over a tree, with the programs from an archive as `make dist` makes it: a loop and a refused script fail, and an open hole passes."""
    whole = os.path.join(scratch.whole.name, "sedck.tar.gz")
    with tarfile.open(whole, "w:gz", compresslevel=1) as archive:
        archive.add(os.path.join(scratch.whole.name, "bin", "sedck-explain"), "sedck-1.1.0-kit/bin/sedck-explain")
    with open(whole, "rb") as file:
        scratch.environment.update(SEDCK_ARCHIVE="file://" + whole, SEDCK_SHA256=hashlib.sha256(file.read()).hexdigest(), TMPDIR=scratch.whole.name)
    text = block("A step of continuous integration", "sh")
    for name, content, passes, said in [*FILES, ("g.sed", ENDLESS, False, "g.sed:1:1: error: "), ("h.sed", "n\n", True, "")]:
        scratch.write(name, content)
        says = scratch.run(0 if passes else 1, "sh", "-c", text)
        holds(said in says if said else ": error: " not in says and ": warning: " not in says, "of %s this is said:\n%s" % (name, says))
        os.remove(os.path.join(scratch.folder, name))
    scratch.environment["SEDCK_SHA256"] = "0" * 64
    scratch.run(1, "sh", "-c", text)


def hook_of_calls(scratch):
    """The hook sedck-calls: a loop and a refused script fail, an open hole passes, and each is named."""
    hook = {hook["id"]: hook for hook in yaml.safe_load(read(".pre-commit-hooks.yaml"))}["sedck-calls"]
    for name, text, passes, said in FILES:
        scratch.write(name, text)
        says = scratch.run(0 if passes else 1, *shlex.split(hook["entry"]), name)
        holds(said in says if said else says == "", "of %s this is said:\n%s" % (name, says))
        os.remove(os.path.join(scratch.folder, name))
    names = ["a.sh", "Makefile", "x/Makefile.in", "debian/rules", "debian/sedck.postinst", "ci.yml", "Dockerfile", "configure", "configure.ac", "a.c", "README", "rules"]
    asked = [name for name in names if re.search(hook["files"], name)]
    holds(asked == names[:-3], "the hook is asked of %s" % asked)


def hook_of_forms(scratch):
    """The hook sedck-fmt: a script that isn't in its plain spelling fails and is named, and so does one that isn't accepted."""
    hook = {hook["id"]: hook for hook in yaml.safe_load(read(".pre-commit-hooks.yaml"))}["sedck-fmt"]
    for name, text, status, said in (("a.sed", "# x\np\n", 0, ""), ("-h.sed", "p\n", 0, ""), ("b.sed", "p;p\n", 1, "b.sed\n"), ("-n.sed", "p # x\n", 1, "./-n.sed\n")):
        scratch.write(name, text)
        holds(scratch.run(status, *shlex.split(hook["entry"]), name) == said, "of %s something else is said" % name)
    scratch.write("c.sed", ENDLESS)
    holds("c.sed:" in scratch.run(2, *shlex.split(hook["entry"]), "a.sed", "c.sed"), "a loop isn't named")


def hook_of_known(scratch):
    """The hook sedck-known: a loop passes that the file names, whatever else that names; one that it doesn't name fails."""
    hook = {hook["id"]: hook for hook in yaml.safe_load(read(".pre-commit-hooks.yaml"))}["sedck-known"]
    for name in ("a.sed", "b.sed", "-c.sed"):
        scratch.write(name, ENDLESS)
    scratch.run(0, "sedck-known", "--write", "known-loops", "--", "a.sed", "-c.sed")
    for names, status in ((["a.sed"], 0), (["-c.sed"], 0), (["-c.sed", "a.sed"], 0), (["b.sed"], 1), (["a.sed", "b.sed"], 1)):
        says = scratch.run(status, *shlex.split(hook["entry"]), *hook["args"], *names)
        holds(all("known: %s:" % name in says for name in names if name != "b.sed"), "the hook sedck-known says of %s:\n%s" % (names, says))


def pre_commit(scratch):
    hooks = {hook["id"]: hook for hook in yaml.safe_load(read(".pre-commit-hooks.yaml"))}
    used = yaml.safe_load(block("A hook", "yaml"))["repos"][0]["hooks"]
    holds(all(hook["id"] in hooks for hook in used), "the page shows a hook that isn't there")
    asked = [name for name in ("a.sed", "b.sin", "c.sed.in", "d.in", "sed.txt") if re.search(used[0]["files"], name)]
    # A template is no script yet.
    holds(asked == ["a.sed", "b.sin"], "the page asks of the files %s" % asked)
    pairs(scratch)
    names = sorted("scripts/" + name for name in os.listdir(os.path.join(scratch.folder, "scripts")))
    loops = (["endless-print", "lost-label"], ["new", "odd-lines"])
    for hook, status, failing, passing in (("sedck", 1, ["endless-print", "lost-label", "new"], ["odd-lines"]), ("sedck-rank", 1, *loops), ("sedck-explain", 2, *loops)):
        words, files = shlex.split(hooks[hook]["entry"]), hooks[hook]["files"]
        asked = [name for name in names if re.search(files, name)]
        says = scratch.run(status, *words, *asked)
        holds(all("scripts/%s.sed:" % name in says for name in failing), "%s doesn't name %s:\n%s" % (hook, failing, says))
        holds(not any("scripts/%s.sed:" % name in says for name in passing), "%s names %s" % (hook, passing))
        scratch.run(0, *words, *[name for name in asked if name.split("/")[1].split(".")[0] in passing])
        # A name that looks like an option is a name: a loop in such a file doesn't pass, and a script that ends does.
        for name, text, passes in (("-h.sed", ENDLESS, False), ("--help.sed", ENDLESS, False), ("-V.sed", "n\n", hook != "sedck")):
            scratch.write(name, text)
            says = scratch.run(0 if passes else 1, *words, name)
            holds((name in says) != passes, "%s says of %s:\n%s" % (hook, name, says))
        # A name is printed on one line, with nothing that a terminal or a host of code would obey.
        for name in ("::error::x.sed", " ::x.sed", "a\x1b[1Ab.sed", "a\n::error::b.sed", "a\u202eb.sed"):
            scratch.write(name, ENDLESS)
            says = scratch.run(1, *words, name)
            holds(says and not re.search(r"[\0-\x09\x0b-\x1f\x7f\u202e]|^\s*::", says, re.M), "%s says of %r:\n%r" % (hook, name, says))
            os.remove(os.path.join(scratch.folder, name))


# Each recipe with the programs that it needs.
RECIPES = [(make_check, "make"), (pre_commit, "yaml"), (hook_of_calls, "yaml"), (hook_of_forms, "yaml"), (hook_of_known, "yaml"), (step, "curl sha256sum tar"), (certificates, ""), (makefile, "make sed"),
           (in_place, "sed"), (inline, "sed"), (vim, "vim"), (fewer, "")]


def main():
    failed, run = 0, 0
    for recipe, needs in RECIPES:
        lacks = [need for need in needs.split() if (yaml is None if need == "yaml" else shutil.which(need) is None)]
        if lacks:
            skip("recipes", recipe.__name__, "this machine lacks " + ", ".join(lacks))
            continue
        with Scratch(*map(os.path.abspath, sys.argv[1:3])) as scratch:
            try:
                recipe(scratch)
                run += 1
            except LeftOut as lack:
                skip("recipes", recipe.__name__, str(lack))
            except Failure as failure:
                failed += 1
                print("recipes: %s: %s" % (recipe.__name__, failure))
    if not failed:
        print("recipes: %d of docs/RECIPES.md and docs/TRUST.md do what they should" % run)
    return 1 if failed else 0


if __name__ == "__main__":
    sys.exit(main())
