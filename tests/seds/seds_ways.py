"""Ways to run scripts: locales, options and files.

Every locale of this machine is used, and some more are compiled where `localedef` can: three of UTF-8 with other orders, one of UTF-8 with
other cases, and two in which bytes of ASCII are parts of characters. What a sed knows is tried: whether `-s`, `-i` and `-z` do what they should, and in which locales
it knows characters.
"""
import collections
import os
import random
import re
import shutil
import subprocess

from seds_draw import CONTROLS
from seds_run import OPERANDS, Way

Locale = collections.namedtuple("Locale", "name charmap environment")
COMPILED = (("en_US", "UTF-8", "en_US.UTF-8"), ("de_DE", "UTF-8", "de_DE.UTF-8"), ("cs_CZ", "UTF-8", "cs_CZ.UTF-8"), ("tr_TR", "UTF-8", "tr_TR.UTF-8"),
            ("ja_JP", "SHIFT_JIS", "ja_JP.SJIS"), ("zh_CN", "GB18030", "zh_CN.GB18030"))
OPTIONS = ((), ("-s",), ("-i",), ("-z",))
POSIX = Locale("POSIX", "", {"LC_ALL": "C"})
# In these the characters of UTF-8, or each byte, are whole characters: elsewhere only scripts of ASCII are run.
PLAIN = re.compile(r"UTF-8|ISO-8859-")
# Locales of other encodings are left out. Bytes from the start: a process without rights may not be able to load an encoding.
CHARACTERS = {name: [one.encode(name) for one in text] for name, text in
              {"UTF-8": "éüÉ€ßİı\U0001f600\u0301", "SHIFT_JIS": "表ソア能ｱ", "GB18030": "中乗éßİ", "EUC-JP": "表ソア能", "EUC-KR": "가각힝",
               "ISO-8859-1": "éüß", "ISO-8859-15": "éü€"}.items()}
BROKEN = [b"\xc3", b"\xa9", b"\xe2\x82", b"\xff", b"\x80", b"\x83"]
# In these the second byte of a character may be any from 64 on.
LEADS = {"SHIFT_JIS": b"\x83", "GB18030": b"\x81"}


def charmap(environment):
    """The name of the encoding of a locale, or of that of POSIX where there is no such locale."""
    done = subprocess.run(["locale", "charmap"], env={**os.environ, **environment}, capture_output=True, text=True)
    return done.stdout.strip()


def compiled(top):
    """Locales that are in the folder of LOCPATH, or else are compiled into the scratch folder, as far as that can be done here."""
    folder = os.environ.get("LOCPATH") or os.path.join(top, "locales")
    os.makedirs(folder, exist_ok=True)
    running = []
    for name, encoding, called in COMPILED if shutil.which("localedef") else ():
        if not os.path.exists(os.path.join(folder, called)):
            words = ["localedef", "-c", "--no-archive", "-i", name, "-f", encoding, os.path.join(folder, called)]
            running.append(subprocess.Popen(words, stdin=subprocess.DEVNULL, stdout=subprocess.DEVNULL, stderr=subprocess.DEVNULL))
    for process in running:
        process.wait()
    for _, encoding, called in COMPILED:
        environment = {"LC_ALL": called, "LOCPATH": folder}
        if shutil.which("locale") and charmap(environment) == encoding:
            yield Locale(called, encoding, environment)


def locales_found(top: str) -> list:
    """The locales but that of POSIX; the first one is of UTF-8, if there is one."""
    names = []
    if shutil.which("locale"):
        names = subprocess.run(["locale", "-a"], capture_output=True, text=True, errors="replace").stdout.split()
    names = [re.sub(r"(?i)[.]utf-?8$", ".UTF-8", name) for name in names if name not in ("C", "POSIX")]
    found = [Locale(name, charmap({"LC_ALL": name}), {"LC_ALL": name}) for name in dict.fromkeys(names)]
    found = [one for one in found if characters(one)] + list(compiled(top))
    return sorted(found, key=lambda one: (one.charmap != "UTF-8", one.name != "C.UTF-8"))


def characters(locale):
    return CHARACTERS.get(locale.charmap, [])


class Abilities:
    """What the seds know: options, and locales whose characters they tell apart."""
    def __init__(self, scratch, seds, locales):
        self.scratch, self.locales = scratch, locales
        self.options = {sed.name: [words for words in OPTIONS if not words or self.knows_option(sed, words)] for sed in seds}
        self.known = {sed.name: [one for one in locales if self.knows_characters(sed, one)] for sed in seds}

    def answer(self, sed, script, options, files, environment=None):
        self.scratch.put(script)
        return self.scratch.run_so(sed.words, Way("", options, environment or {"LC_ALL": "C"}, files, b"\n"))

    def knows_option(self, sed, words):
        """Whether the sed does with these words what they are for, and reads the script as before: with `-z` toybox doesn't."""
        due = {("-s",): b"a\nc\n", ("-i",): b"a\nc\n", ("-z",): b"b\nc\n\0"}[words]
        files = (b"b\na\n", b"b\nc\n") if words != ("-z",) else (b"b\na\n\0b\nc\n\0",)
        done = self.answer(sed, b"w out1\n$!d\n", words, files)
        return done.status == 0 and done.output == due and done.made == {b"out1"}

    def knows_characters(self, sed, locale):
        sample = characters(locale)[:1]
        return bool(sample) and self.answer(sed, b"s/./x/g\n", (), (sample[0] + b"\n",), locale.environment).output == b"x\n"

    def lines(self):
        """What each sed knows, for people."""
        for name, options in self.options.items():
            words = " ".join("".join(part) for part in options if part) or "no option"
            yield "%s knows %s, and characters in %s" % (name, words, ", ".join(one.name for one in self.known[name]) or "no locale")


class Ways(random.Random):
    """Draws ways, and lines of characters and of broken ones."""
    def pieces(self, script, locale):
        """What lines are made of: characters and bytes of the script, and of the locale, and what is no character anywhere."""
        own = sorted({byte for byte in script if byte not in (0, 10)})
        pieces = [bytes([byte]) for byte in own]
        if locale.charmap == "UTF-8":
            whole = script.replace(b"\n", b"").replace(b"\0", b"").decode("utf-8", "surrogateescape")
            pieces += [one.encode("utf-8", "surrogateescape") for one in sorted(set(whole)) if ord(one) > 127] * 3
        if locale.charmap in LEADS:
            pieces += [LEADS[locale.charmap] + bytes([byte]) for byte in own if 64 <= byte < 127]
        return pieces + self.sample(characters(locale), min(3, len(characters(locale)))) + self.sample(BROKEN, 2)

    def lines(self, script, locale, count, longest, more=()):
        pieces = self.pieces(script, locale) + list(more)
        return [b"".join(self.choices(pieces, k=self.randrange(longest + 1))) for _ in range(count)]

    def file(self, script, locale, end):
        """A file, perhaps an empty one, or one whose last line doesn't end."""
        if self.random() < 0.15:
            return b""
        more = [bytes([byte]) for byte in self.sample(CONTROLS, 4)] + ([b"\n"] * 2 if end == b"\0" else [])
        lines = self.lines(script, locale, self.randrange(1, 5), 5, more) + self.sample([b"", b"x", b"xyx", b"a", bytes(CONTROLS)], 1)
        self.shuffle(lines)
        return end.join(lines) + self.choice([end, end, b""])

    def way(self, script, locale, options):
        end = b"\0" if "-z" in options else b"\n"
        count = self.choice([1, 2, 2, 3, 4] if options in (("-s",), ("-i",)) else [1, 1, 1, 2])
        files = tuple(self.file(script, locale, end) for _ in range(min(count, len(OPERANDS))))
        return Way(" ".join((locale.name, *options)), options, locale.environment, files, end)

    @staticmethod
    def way_of(locale, lines):
        """On these lines, without an option."""
        return Way(locale.name, (), locale.environment, (b"".join(line + b"\n" for line in lines),), b"\n")

    def locale(self, script, abilities, sed):
        """A locale in which the sed knows the characters of this script; half the time the first one."""
        known = [one for one in abilities.known[sed.name] if script.isascii() or PLAIN.match(one.charmap)]
        return self.choice([known[0], self.choice(known)]) if known else None

    def drawn(self, script, abilities, sed):
        """Ways for the sed: GNU sed as it is runs in the first locale, and half the time in another one; the others half the time in one
        of these."""
        first = abilities.locales[0] if abilities.locales else POSIX
        other = self.locale(script, abilities, sed) or first
        more = self.sample([other], self.randrange(2))
        locales = [first] + more if sed.is_gnu and "--posix" not in sed.words else self.sample([first, other], len(more))
        return [self.way(script, locale, self.choice(abilities.options[sed.name])) for locale in locales]
