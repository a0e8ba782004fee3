"""Draws scripts whose steps are easy to follow, and scripts from all of the grammar of docs/GRAMMAR.md that hide commands.

What is hidden is a command that leaves a trace where a sed runs it: it makes the file `F`, which no script lists, runs `touch E`, or
reads `secret`. It is put where the grammar has data: in texts, comments, names, bracket lists, replacements and the lists of `y`,
behind what may close an expression that another sed takes to be open.

A third of the expressions have bytes above 127, and some of the other parts: in half of the scripts whole characters of UTF-8, in the
others bytes that are none, too.
"""
import random

CLASSES = "upper lower alpha digit alnum xdigit space blank punct graph print cntrl".split()
ESCAPABLE = ",;:!@#%~_=\"' -x"
CONTROLS = [byte for byte in range(1, 32) if byte != 10]
# Characters of two bytes and more; and then also parts of these, and bytes that are in no character.
WHOLE = [text.encode().decode("latin-1") for text in "ééüı€\U0001f600"]
HIGH = WHOLE + ["\xc3", "\xa9", "\xe2\x82", "\x80", "\xff"]


class Draw(random.Random):
    """Scripts of the grammar, with names of files that stay inside of the scratch folder."""
    EXPRESSIONS = ["a", "b*", "^a", "b$", ".", "[ab]", "[^a]", r"a\{1,2\}", r"\(a\)b", r"\(.\)\1", r"\n", r"\(a*\)\(b\)", "^$", "c.*a"]
    PARTS = ["", "a", "bb", "&", "&&", r"\1", r"x\1", r"\n", "c"]

    def expression(self):
        return self.choice(self.EXPRESSIONS)

    def address(self):
        kind = self.randrange(12)
        if kind < 5:
            return ""
        one = lambda: self.choice(["1", "2", "3", "$", "/%s/" % self.expression()])
        text = one() if kind < 10 else "%s,%s" % (one(), one())
        return text + ("!" if self.random() < 0.3 else "")

    def substitution(self):
        expression = self.expression()
        groups = expression.count(r"\(")
        parts = [part for part in self.choices(self.PARTS, k=self.randrange(3)) if r"\1" not in part or groups]
        flags = self.choice(["", "", "g", "p", "2", "gw out1"])
        return "s/%s/%s/%s" % (expression, "".join(parts), flags)

    def verb(self, labels):
        name = self.choice("bbttdDgGhHnNpPxsssssy=lqaicrw")
        if name in "bt":
            return name + (" " + self.choice(labels) if labels and self.random() < 0.8 else "")
        if name == "s":
            return self.substitution()
        return {"y": "y/ab/ba/", "a": "a\\\ntext", "i": "i\\\ntext", "c": "c\\\ntext", "r": "r in1", "w": "w out2"}.get(name, name)

    def script(self):
        labels = ["l%d" % k for k in range(self.randrange(3))]
        lines, places = [], sorted(self.sample(range(9), len(labels)))
        depth = 0
        for at in range(self.randrange(1, 9)):
            lines += [":" + label for label, place in zip(labels, places) if place == at]
            if self.random() < 0.12:
                lines.append(self.address() + "{")
                depth += 1
            address = self.address()
            verb = self.verb(labels)
            if verb == "q" and "," in address:
                verb = "d"
            lines.append(address + verb)
            if depth and self.random() < 0.4:
                lines.append("}")
                depth -= 1
        lines += ["}"] * depth
        lines += [":" + label for label in labels if ":" + label not in lines]
        return ("\n".join(lines) + "\n").encode()

    def input(self):
        return "".join("".join(self.choices("aabbc", k=self.randrange(7))) + "\n" for _ in range(self.randrange(6))).encode()


class Grammar(random.Random):
    """Scripts of the whole grammar, as text of one character a byte. Some are refused: they are drawn from tokens."""
    HIDDEN = ["w F", "w F", "w F", "W F", "e touch E", "r secret", "R secret", "s/^/x/w F", "s/.*/touch E/e", "b", "d", "i;w F"]
    CLOSERS = ["", "", "]", "]]", "x]", ".]]", "=]]", ":]]", "\\", "[]", "\\)", "\\}"]
    BEFORE = ["", "", ";", ";", "}", "};", "\r", "\f", "\v", " ", "\t", "#", " #", "!", ";#\r"]
    TOKENS = ["[", "]", "[^", "[[", "]]", "[:", ":]", "[.", ".]", "[=", "=]", "\\", "\\\\", "\n", "\\\n", "\r", "\f", "\v", "\t", " ",
              "}", "{", ";", "#", "/", "!", ",", "$", "^", "*", "&", "'", "\\n", "\\c", "\\x", "\\(", "\\)", "\\{1\\}", "b", "t", "a",
              "w F", "\x7f", "\x80", "\xff"]

    # Lists that in bytes are another one of these, or nearly, and have other characters in some locale.
    ALIKE = ["[abcd]", "[a-d]", "[89:;]", "[8-;]", "[@ABCD]", "[@-D]", "[[:digit:]]", "[0-9]", "[[:alpha:]]", "[a-zA-Z]", "[^A-Z]", "[^[:upper:]]", "[[=a=]]", "[a]", "[ \\t]", "[\\t ]", "[\t ]"]
    HIGH_ALIKE = [text.encode().decode("latin-1") for text in ("[é£]", "[©ã]", "[^é£]", "[ã©]", "[а-я]", "[é-ü]")]

    def __init__(self, seed):
        super().__init__(seed)
        self.delimiter, self.labels, self.is_high, self.high = "/", [], False, WHOLE

    def script(self):
        self.delimiter, self.labels, self.high = "/", [], self.choice([WHOLE, HIGH])
        shape = self.random()
        text = self.loop() if shape < 0.3 else self.cut() if shape < 0.6 else self.commands(self.randrange(1, 6))
        if self.random() < 0.2:
            text = self.choice(["#n\n", "#" + self.data() + "\n", "# c\\\n", " ;\n", "\n"]) + text
        if self.random() < 0.15:
            text = self.edited(text)
        return text.encode("latin-1")

    def edited(self, text):
        """The script with a token more, or with some bytes less."""
        for _ in range(self.randrange(1, 3)):
            at = self.randrange(len(text) + 1)
            text = text[:at] + (self.choice(self.TOKENS) if self.random() < 0.7 else "") + text[at + self.choice([0, 0, 0, 1, 2]):]
        return text

    def control(self):
        return chr(self.choice(CONTROLS))

    # ---- what is hidden

    def hidden(self):
        """What may close an open part, and then a command that leaves a trace."""
        d = self.delimiter
        parts = self.choice(["", "", d, d + d, d + "y" + d, d + "y" + d, d + d + d])
        return self.choice(self.CLOSERS) + parts + self.choice(self.BEFORE) + self.choice(self.HIDDEN)

    def data(self):
        """Bytes of a line of data."""
        parts = [self.choice(["x", "a", self.choice(self.TOKENS), self.hidden()]) for _ in range(self.randrange(3))]
        if self.random() < 0.15:
            parts.append(self.choice(self.high))
        if self.random() < 0.1:
            parts.append(self.choice(self.ALIKE + self.HIGH_ALIKE))
        if self.random() < 0.6:
            parts.append(self.hidden())
        parts.append(self.choice(["", "", "", "", "\\", "\\\\", " ", "\r", "}", "\\\\\\"]))
        return "".join(parts).replace("\n", "")

    # ---- commands

    def cut(self):
        """An expression that has a bracket list, and then data on the same line that would close it and go on."""
        d = self.fresh_delimiter()
        first = self.choice(["", "", "x", "^"]) + self.bracket() + self.choice(["", "", "x", "*", self.bracket()])
        first = self.fitted(first).replace("\\\n", "")
        closer = self.choice(["]", "]]", ".]]", "=]]", ":]]", "x]"])
        begin = self.choice(["a ", "a ", "a ", "i\\", "# ", "w out1", "b #", "t #", "s,a,b,w o"])
        command = self.choice(["w F", "w F", "e touch E", "r secret", "s/^/x/w F", ";w F", "}w F"])
        if self.random() < 0.3:
            return ("/" if d == "/" else "\\" + d) + first + d + begin + closer + d + self.choice(["", "", "!"]) + command + "\n"
        if self.random() < 0.8:
            cut = "s" + d + first + d + "x" + d
        else:
            cut = "y" + d + self.choice(["[", "x[", "[^"]) + d + self.choice(["]", "x]", "]]"]) + d
        behind = begin + closer + d + "y" + d + self.choice(["", "", ";"]) + command
        return cut + self.choice([";", ";", " ;", "\n"]) + behind + "\n"

    def loop(self):
        """A loop that ends by what is in it, mostly behind a command that has data."""
        ending = self.choice(["n", "N", "d", "b", "n", "b", "$!N", "$d", "$b", "/x/d", "D", "q", "s/x//", "s/..*//", "t"])
        before, behind = self.commands(self.choice([1, 1, 1, 2])), self.commands(self.choice([0, 0, 0, 1]))
        if self.random() < 0.3:
            before = "{" + self.choice(["", "\n"]) + self.one_block() + self.between() + before
            ending += self.choice(["\n", ";", " "]) + "}"
        joined = "".join(part if part.endswith("\n") else part + self.between() for part in (before, ending, behind) if part)
        back = self.choice(["b a", "ba", "b a", "ba", "t a", "$!ba", "$!ta", "/x/ba"])
        return ":a" + self.choice(["\n", "\n", ";", " ;", " \n"]) + joined + back + self.choice(["\n", "", ";", " # " + self.data()])

    def one_block(self):
        """A block whose last command is a branch."""
        branch = self.choice(["b", "t", "b ", "b l", "t l", "ba", "ba "])
        if "l" in branch:
            self.labels.append("l")
        return self.address() + "{" + branch + self.choice(["}", "}", " }", ";}"]) + ("\n:l" if "l" in branch else "")

    def between(self):
        return self.choice(["\n", "\n", "\n", ";", ";", " ; ", "\t\n", "\n\n", ";;", " # " + self.data() + "\n", "#" + self.data() + "\n"])

    def commands(self, count):
        text = ""
        for _ in range(count):
            if self.random() < 0.12:
                inside = self.commands(self.randrange(3))
                close = inside + ("" if inside.endswith("\n") else self.choice(["", " ", ";", "\n", ";\n"])) + "}"
                text += self.address() + "{" + self.choice(["", " ", "\n", ";"]) + close + self.between()
                continue
            command, to_end_of_line = self.command()
            text += command + ("\n" if to_end_of_line else self.between())
        return text

    def command(self):
        """A command, and whether it runs to the end of its line."""
        verb = self.choice("ssssssyyaiicccrwwbtGgxhHnNdDpP=lq:")
        if verb == ":":
            label = "l%d" % len(self.labels) + (self.choice(self.high) if self.random() < 0.03 else "")
            self.labels.append(label)
            return ":" + self.choice(["", " "]) + label + self.choice(["", " ", " # " + self.data()]), True
        address = self.address()
        if verb == "s":
            flags = self.flags()
            return address + "s" + self.substitution() + flags, "w" in flags
        if verb == "y":
            return address + "y" + self.transliteration(), False
        if verb in "aic":
            return address + verb + self.text(), True
        if verb in "rw":
            return address + verb + self.name(), True
        if verb in "bt":
            label = self.choice(self.labels + ["", "", ""])
            return address + verb + self.choice(["", " "]) + label + self.choice(["", "", " ", "}", " }", " # " + self.data()]), False
        return address + verb + self.choice(["", "", "", " ", "#" + self.data().strip()]), False

    def flags(self):
        return "".join(self.sample(["g", "p", str(self.randrange(1, 4))], self.choice([0, 0, 1, 2]))) + \
            self.choice(["", "", "", "", "w" + self.name(), " ", "#" + self.data(), " # " + self.data()])

    def name(self):
        begin = self.choice(["", "", " ", " ", "\t", "\f", "\r", "\v", " \f"])
        end = self.choice(["", "", "", " ", "\\", "\\\\", " \\", "\r", ";w F", "}w F", "\rw F", " # x", self.hidden()])
        end = self.choice(self.high) + end if self.random() < 0.15 else end
        return (begin + self.choice(["out1", "out1", "out2", "out3", ""]) + end).replace("/", "").replace("\n", "")

    def text(self):
        """A text in one of its three forms, of one line or more."""
        lines = [self.data() for _ in range(self.choice([1, 1, 2, 3]))]
        if self.random() < 0.3:
            lines[0] = self.choice([" ", "\t", "\f", "\r", "\v", ""]) + lines[0]
        return self.choice(["\\\n", "\\\n", "\\", " \\", "\\ ", " ", "", "\t\\\n"]) + "\\\n".join(lines)

    # ---- parts of commands

    def fresh_delimiter(self):
        part = self.random()
        every = [chr(byte) for byte in range(1, 256) if byte not in (10, 92)]
        self.delimiter = "/" if part < 0.4 else self.choice(ESCAPABLE) if part < 0.8 else self.choice(every)
        return self.delimiter

    def fitted(self, text):
        """The text without a bare delimiter or a newline, as a part that is delimited needs it."""
        out, at, d = [], 0, self.delimiter
        while at < len(text):
            pair = text[at:at + 2] if text[at] == "\\" else text[at]
            at += len(pair)
            if pair == "\\" or "\n" in pair and len(pair) == 1:
                continue
            can_be_escaped = d in ESCAPABLE + "/"
            if pair == d or pair == "\\" + d:
                pair = "\\" + d if can_be_escaped and self.random() < 0.9 else ""
            out.append(pair)
        return "".join(out)

    def address(self):
        kind = self.randrange(12)
        if kind < 6:
            return ""
        one = self.one_address()
        if kind > 9:
            one += self.choice([",", " , ", ", "]) + self.one_address()
        return one + self.choice(["", "", "", "!", " !", "! ", " "])

    def one_address(self):
        if self.random() < 0.5:
            return self.choice(["1", "2", "$", "$", "3", "4294967295"])
        d = self.fresh_delimiter()
        return ("/" if d == "/" else "\\" + d) + self.fitted(self.expression()).replace("\\\n", "") + d

    def substitution(self):
        d = self.fresh_delimiter()
        expression = self.fitted(self.expression()).replace("\\\n", "") if self.random() < 0.97 else ""
        return d + expression + d + self.fitted(self.replacement()) + d

    def replacement(self):
        parts = ["", "", "x", "xx", "&", "\\1", "\\n", "\\t", "\\\n", "\\&", "\\\\", "\\]", "[", "]", "\\" + self.delimiter, self.hidden(),
                 "\\\n" + self.hidden()] + self.sample(self.high, 2) + ["\\" + self.choice(self.high)]
        return "".join(self.choice(parts) for _ in range(self.randrange(4)))

    def transliteration(self):
        d = self.fresh_delimiter()
        tokens = ["[", "]", "^", "[", "]", "\\\\", "\\n", "\\" + d, "a", "b", ";", "}", "#", "w", "F", " ", "\r", self.control()]
        tokens += self.sample(self.high, 2) if self.random() < 0.1 else []
        one = lambda: self.fitted(self.choice(tokens))
        first = [one() for _ in range(self.randrange(5))]
        second = [one() for _ in first]
        fill = lambda parts: "".join(part or "z" for part in parts)
        return d + fill(first) + d + fill(second) + d

    # ---- expressions

    def expression(self, depth=0):
        text = self.choice(["", "", "", "", "", "", "^", "^", "*", "^*"])
        groups = 0
        self.is_high = self.random() < 1 / 3 if depth == 0 else self.is_high
        count = self.randrange(1, 4)
        high_at = self.randrange(count) if self.is_high and depth == 0 else None
        for at in range(count):
            kind = self.randrange(20)
            if at == high_at or self.is_high and self.random() < 0.2:
                text += self.high_item()
                continue
            if kind < 9:
                item = self.bracket()
            elif kind < 11 and depth < 2:
                item = "\\(" + self.expression(depth + 1) + "\\)"
                groups += 1
            elif kind < 12 and groups and depth == 0:
                item = "\\1"
            elif kind < 14:
                item = "\\" + self.choice([self.delimiter] * 4 + ["n", "t", ".", "[", "\\", "*", "]", "/", "-", "=", "'"])
            else:
                item = self.choice(["a", "x", ".", "]", "$", "^", "{", "}", "(", "|", "+", ";", "#", "b", self.control(), "\xff"])
            text += item + self.choice(["", "", "", "", "*", "\\{2\\}", "\\{0,1\\}", "\\{1,\\}", "\\{5\\}"])
        return text + self.choice(["", "", "", "$"])

    def high_item(self):
        """Bytes above 127 alone, in a group, in a list, and now and then repeated by themselves."""
        piece, repeats = self.choice(self.high), ["", "*", "\\{2\\}", "\\{0,1\\}"]
        kind = self.randrange(8)
        if kind < 3:
            return piece
        if kind < 5:
            return "\\(%s\\)" % piece + self.choice(repeats)
        if kind < 7:
            return "[" + self.choice(["", "^"]) + piece + self.choice(["", "a", self.choice(self.high)]) + "]" + self.choice(repeats)
        return piece + self.choice(repeats)

    def bracket(self):
        """A bracket list from tokens, or one that in bytes is another one."""
        if self.random() < 0.15:
            return self.choice(self.HIGH_ALIKE if self.is_high else self.ALIKE)
        begin = "[" + self.choice(["", "", "^"]) + self.choice(["", "", "", "]", "-"])
        elements = "".join(self.element() for _ in range(self.randrange(1, 4)))
        return begin + elements + self.choice(["", "", "", "-", "[", "[^", "\\"]) + "]"

    def element(self):
        kind, d = self.randrange(16), self.delimiter
        byte = self.choice([".", "=", ":", "]", "[", "-", "\\", "a"])
        if self.is_high and self.random() < 0.3:
            piece = self.choice(self.high)
            return self.choice([piece, piece, "[=%s=]" % piece, "[.%s.]" % piece, piece + "-" + self.choice(self.high), "a-" + piece])
        if kind < 2:
            return "[:" + self.choice(CLASSES) + ":]"
        if kind < 5:
            sign = self.choice(".=")
            return "[" + sign + self.choice([byte, byte, sign]) + sign + "]"
        if kind < 6 or d in ":=" and kind < 8:
            return "[\\%s%s\\%s]" % ((d, self.choice(["alpha", "a", "a", "."]), d))
        if kind < 8:
            return self.choice(["a-z", "0-9", "+--", "[.+.]-[.-.]", "!-[", "A-\\", "[.+.]-[", "\\n-\\n", "[=a=]", "%-x", "\x01-\x1f"])
        if kind < 12:
            behind = ["c]", "c[", "c\\", "x5b", "x5d", "x5b.", "o133", "o135", "d091", "d093", "|", "|", "|", "(", ")", "{", "+", "?"]
            return "\\" + self.choice(behind + ["n", "t", "]", "\\", "[", "a", "r", "f", "'", d, d])
        tokens = ["[", "^", ".", ":", "=", "a", "b", "x", "w", "F", " ", ";", "#", "}", "{", "*", "$", "&", "|", "(", ")", "\r", "\f", byte]
        return self.choice(tokens + [self.control()])
