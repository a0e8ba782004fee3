"""Runs of programs with limits on time, memory and the size of files, in a scratch folder, and the answers of `sedck`."""
import collections
import json
import os
import re
import resource
import select
import shutil
import signal
import tempfile

LIMIT_SECONDS = 3
TOLD_SECONDS = 0.5
LONG_SECONDS = 10
# For the scripts of a batch.
JUDGE_SECONDS = 60
# A run on a busy machine may take so many times its limit, until it has had that much of a processor.
PATIENCE = 20
TICKS = os.sysconf("SC_CLK_TCK")
LIMIT_BYTES = 4 << 20
LIMIT_MEMORY = 2 << 30
NOBODY = 65534
SECRET = b"@SECRET@"

Done = collections.namedtuple("Done", "status output made")
Judged = collections.namedtuple("Judged", "status bound by_lines spaces reads writes codes")
# How a script is run other than as it was checked: by these words for the sed, in a locale, on several files.
Way = collections.namedtuple("Way", "name options environment files end")
OPERANDS = (b"one", b"two", b"three", b"four")
# What a sed that was stopped leaves of `-i`.
TEMPORARY = re.compile(rb"(sed|%s)\w{6}" % b"|".join(OPERANDS))


def name_bytes(shown):
    """The bytes of a name as `sedck-explain` shows it."""
    parts = re.findall(r'\\\\|\\"|\\x[0-9a-f]{2}|[^\\"]', shown)
    return b"".join(bytes([int(part[2:], 16)]) if len(part) > 2 else part[-1:].encode() for part in parts)


def become_nobody() -> None:
    """The superuser gives up its rights, since a script that is read in another way may name any file."""
    if os.geteuid() == 0:
        os.setgroups([])
        os.setgid(NOBODY)
        os.setuid(NOBODY)


def in_memory():
    """A folder in memory from which programs may be run, if there is one."""
    place = "/dev/shm"
    return place if os.access(place, os.W_OK | os.X_OK) and not os.statvfs(place).f_flag & os.ST_NOEXEC else None


def make_top(programs: list[str]) -> str:
    """A scratch folder that anyone may write to, with copies of the programs, and with `touch` for a search path."""
    top = tempfile.mkdtemp(prefix="sedck-seds-", dir=in_memory())
    os.chmod(top, 0o1777)
    os.mkdir(os.path.join(top, "bin"))
    os.symlink(shutil.which("touch"), os.path.join(top, "bin", "touch"))
    for program in programs:
        shutil.copy(program, top)
    return top


class Scratch:
    """An empty folder for each run, deep in a folder of this process, which has the script and the input."""
    def __init__(self, top):
        self.folder = tempfile.mkdtemp(dir=top)
        self.place = os.path.join(self.folder, "a", "b", "run")
        os.makedirs(self.place)
        os.chdir(self.place)
        self.environment = {"PATH": os.path.join(top, "bin"), "LC_ALL": "C"}
        self.script, self.given, self.out = (os.path.join(self.folder, name) for name in ("script", "given", "out"))
        self.kept = {b"in1", b"secret"}
        self.put(b"")
        resource.setrlimit(resource.RLIMIT_FSIZE, (LIMIT_BYTES, LIMIT_BYTES))
        resource.setrlimit(resource.RLIMIT_AS, (LIMIT_MEMORY, resource.getrlimit(resource.RLIMIT_AS)[1]))
        resource.setrlimit(resource.RLIMIT_CORE, (0, 0))
        signal.signal(signal.SIGXFSZ, signal.SIG_IGN)
        self.child = None
        signal.signal(signal.SIGTERM, self.end)

    def end(self, number, frame):
        """No run outlives this process."""
        if self.child:
            os.killpg(self.child, signal.SIGKILL)
        os._exit(128 + number)

    @staticmethod
    def write(path, text):
        with open(path, "wb") as out:
            out.write(text)
        return path

    def put(self, script, given=b""):
        for name, text in ((self.script, script), (self.given, given), ("in1", b"read\n"), ("secret", SECRET + b"\n")):
            self.write(name, text)

    def spawn(self, words, seconds, environment=None, errors=os.devnull):
        """The status of a run, below 0 for a signal; None for one that doesn't end in time."""
        opened = [(os.POSIX_SPAWN_OPEN, 0, self.given, os.O_RDONLY, 0),
                  (os.POSIX_SPAWN_OPEN, 1, self.out, os.O_WRONLY | os.O_CREAT | os.O_TRUNC, 0o600),
                  (os.POSIX_SPAWN_OPEN, 2, errors, os.O_WRONLY, 0)]
        self.child = os.posix_spawn(words[0], words, {**self.environment, **(environment or {})}, file_actions=opened, setpgroup=0,
                                    setsigdef=[signal.SIGXFSZ])
        watched = os.pidfd_open(self.child)
        for _ in range(PATIENCE):
            ended = select.select([watched], [], [], seconds)[0]
            if ended or self.used() > seconds * 0.8:
                break
        os.close(watched)
        if not ended:
            os.killpg(self.child, signal.SIGKILL)
        _, ended_as, usage = os.wait4(self.child, 0)
        status, self.kilobytes = os.waitstatus_to_exitcode(ended_as), usage.ru_maxrss
        self.child = None
        return None if not ended or status == -signal.SIGXFSZ else status

    def used(self):
        """The seconds of a processor that the child has had."""
        with open("/proc/%d/stat" % self.child, "rb") as stat:
            user, system = stat.read().rsplit(b")", 1)[1].split()[11:13]
        return (int(user) + int(system)) / TICKS

    def output(self, path=None):
        with open(path or self.out, "rb") as text:
            return text.read()

    def run(self, words, seconds=LIMIT_SECONDS):
        """A run of a sed on the script and the input that were put, in an empty folder, with the files that it made."""
        status = self.spawn(words + ["-f", self.script], seconds)
        return Done(status, self.output(), self.taken_away())

    def run_so(self, words, way, seconds=LIMIT_SECONDS):
        """The same in a way. What is in the files after it is a part of the output."""
        names = OPERANDS[:len(way.files)]
        for name, text in zip(names, way.files):
            self.write(name, text)
        status = self.spawn(words + list(way.options) + ["-f", self.script, *names], seconds, way.environment)
        output = self.output()
        if "-i" in way.options:
            output += b"".join(self.output(name) for name in names if os.path.isfile(name))
        made = self.taken_away() - set(names)
        return Done(status, output, {name for name in made if status is not None or not TEMPORARY.fullmatch(name)})

    def taken_away(self):
        """The names of the files that are there after a run, which are removed."""
        made = set(os.listdir(b".")) - self.kept
        for name in made:
            if os.path.isdir(name):
                shutil.rmtree(name)
            else:
                os.remove(name)
        return made

    def close(self):
        os.chdir("/")
        shutil.rmtree(self.folder)


class Judge:
    """What `sedck` and `sedck-explain` say of scripts."""
    def __init__(self, scratch, top):
        self.scratch = scratch
        self.sedck, self.explain = (os.path.join(top, name) for name in ("sedck", "sedck-explain"))
        self.folder = os.path.join(scratch.folder, "scripts")
        os.mkdir(self.folder)

    def judge_all(self, scripts):
        """Status, limits and files of each script."""
        return [self.judged(one) for one in self.reports(scripts)]

    def reports(self, scripts):
        """What `sedck-explain` reports of each script in JSON, by one call for all."""
        paths = [os.path.join(self.folder, str(at)) for at in range(len(scripts))]
        for path, script in zip(paths, scripts):
            self.scratch.write(path, script)
        self.scratch.spawn([self.explain, "--format", "json", "--"] + paths, JUDGE_SECONDS)
        objects = [json.loads(line) for line in self.scratch.output().decode().split("\n")[:-1]]
        assert len(objects) == len(scripts), "sedck-explain doesn't answer for each script"
        return objects

    @staticmethod
    def judged(one):
        limits = (one[name] and tuple(one[name].values()) for name in ("bound", "bound_by_lines", "space_bound"))
        names = ({name_bytes(name["name"]) for name in one[word]} for word in ("reads", "writes"))
        return Judged(one["status"], *limits, *names, {finding["code"] for finding in one["findings"]})

    def call(self, *words):
        status = self.scratch.spawn([self.sedck] + list(words), LONG_SECONDS)
        return status, self.scratch.output()

    def fault(self, script):
        """What `sedck files` says on standard error."""
        errors = self.scratch.write(os.path.join(self.folder, "errors"), b"")
        self.scratch.spawn([self.sedck, "files", self.scratch.write(os.path.join(self.folder, "one"), script)], LONG_SECONDS, errors=errors)
        return self.scratch.output(errors)

    def certificate(self, script):
        """The status of `sedck rank`; where that is 0, its certificate must be accepted by `sedck check`."""
        path = self.scratch.write(os.path.join(self.folder, "one"), script)
        status, text = self.call("rank", path)
        if status == 0:
            report = self.call("check", path, self.scratch.write(os.path.join(self.folder, "cert"), text))
            assert report[0] == 0 and report[1].startswith(b"accepted\n"), "a certificate that rank finds isn't accepted"
        return status

    def kinds(self, script):
        """The kinds of the edges that set the flag, by place: those of successful substitutions."""
        text = self.call("graph", self.scratch.write(os.path.join(self.folder, "one"), script))[1].decode()
        edges = [line.split() for line in text.split("\n")[1:-1]]
        return {int(edge[0]): edge[6] for edge in edges if edge[1] == "0" and edge[4] == "1"}
