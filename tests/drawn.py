"""Inputs that are drawn from a script's own bytes, and what GNU sed makes of them by two scripts."""
import os
import random
import re
import subprocess
import tempfile
from collections.abc import Callable, Iterable, Iterator
from concurrent.futures import ThreadPoolExecutor

INPUTS = 100
# Of a script that runs for ever on so many inputs, no more are tried.
MOST_ENDLESS = 4
# Of a pair of scripts so many inputs at least must be compared, unless the first one is refused or runs for ever.
LEAST_COMPARED = 20


def parts(script):
    """What the lines of inputs are made of: the script's bytes, its words, and what is in its bracket lists."""
    text = re.sub(r"\\[nt]", " ", script)
    words = [word for word in re.findall(r"[A-Za-z]+|[0-9]+", text) if len(word) < 12]
    single = [byte for byte in text if byte.isprintable() and byte not in "\\\n"]
    return words * 2 + single + [" ", " ", "\t", "a", "x", "1"]


def line(chooser, pieces):
    """A line of at most 40 bytes, or an empty one."""
    if chooser.random() < 0.15:
        return ""
    # A few different pieces make matches, and repeated ones, more frequent.
    few = chooser.sample(pieces, min(len(pieces), chooser.randint(1, 8)))
    return "".join(chooser.choice(few) for _ in range(chooser.randint(1, 40)))[:chooser.randint(1, 40)]


def characters(script):
    """The characters above 127 of a script in UTF-8, of which each byte is a character here; with their last bytes once more; and these alone."""
    found = re.findall("[\xc2-\xf4][\x80-\xbf]+", script)
    return found * 4 + [character + character[-1] for character in found] + [byte for character in found for byte in character]


def inputs(name: str, script: str, locale: str = "C") -> list[str]:
    """Inputs for a script, the same in each run of the tests."""
    chooser, pieces = random.Random(name + script), parts(script)
    if locale != "C":
        pieces += characters(script)
    return ["".join(line(chooser, pieces) + "\n" for _ in range(chooser.choice((1, 1, 1, 2, 3, 5, 8)))) for _ in range(INPUTS)]


# Runs both scripts on each input, the first one for two seconds at most. A process for each run in Python would take a minute.
RUNS = """endless=0
for given in *.in; do
    timeout 2 sed -f first < "$given" > "$given.first" 2> "$given.said"
    if [ $? = 124 ]; then
        endless=$((endless + 1)); rm "$given.first"
        if [ $endless = %d ]; then exit; fi
    elif [ -s "$given.said" ]; then
        exit
    else
        timeout 10 sed -f second < "$given" > "$given.second" 2>&1 || if [ $? = 124 ]; then exit; fi
    fi
done
""" % MOST_ENDLESS


def differing(name: str, first: str, second: str, excluded: Callable[[str], bool] | None = None,
              locale: str = "C") -> tuple[tuple[str, str, str] | None, int | None]:
    """An input of which two scripts make different outputs, with these, or None; and how many inputs were compared, or None where the
    first script is refused or runs for ever. The excluded inputs are left out, and those for which it doesn't end within two seconds."""
    with tempfile.TemporaryDirectory(prefix="sedck-drawn-") as folder:
        def path(file):
            return os.path.join(folder, file)

        def read(file):
            with open(path(file), encoding="latin-1", newline="") as text:
                return text.read()

        drawn = [given for given in inputs(name, first, locale) if excluded is None or not excluded(given)]
        for file, text in [("first", first), ("second", second)] + [("%03d.in" % place, given) for place, given in enumerate(drawn)]:
            with open(path(file), "w", encoding="latin-1", newline="") as out:
                out.write(text)
        subprocess.run(["sh", "-c", RUNS], cwd=folder, check=True, env={"PATH": os.environ["PATH"], "LC_ALL": locale})
        places = [place for place in range(len(drawn)) if os.path.exists(path("%03d.in.second" % place))]
        for place in places:
            made, also = read("%03d.in.first" % place), read("%03d.in.second" % place)
            if made != also:
                return (drawn[place], made, also), len(places)
        was_stopped = not drawn or not os.path.exists(path("%03d.in.said" % (len(drawn) - 1))) or os.path.getsize(path("%03d.in.said" % (len(drawn) - 1)))
        return None, None if was_stopped else len(places)


def compare(pairs: Iterable[tuple]) -> Iterator[str]:
    """What is wrong with pairs of scripts: a name, both, which inputs are excluded, or None, and perhaps a locale."""
    with ThreadPoolExecutor(os.cpu_count() or 1) as pool:
        found = list(pool.map(lambda pair: differing(*pair), pairs))
    for (name, first, second, *_), (difference, compared) in zip(pairs, found):
        if difference is not None:
            yield "%s: of %r %r makes %r, and %r %r" % (name, difference[0], first, difference[1], second, difference[2])
        elif compared is not None and compared < LEAST_COMPARED:
            yield "%s: only %d drawn inputs were compared" % (name, compared)
