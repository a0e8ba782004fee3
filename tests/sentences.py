#!/usr/bin/env python3
"""Checks the sentences of the pages: python3 tests/sentences.py [PAGE ..], in any folder.

A sentence has at most 25 words, and a paragraph at most one semicolon. Each item of a list is a paragraph, and a label in bold at its
beginning is a sentence by itself. Code between backquotes is one word. Blocks of code, tables, quotations, headings and pictures are left
out, and so are the examples and the synopsis of a manual page. Without a PAGE all pages are checked. The status is 0 only where each
page keeps to both limits.
"""
import re
import sys
from collections.abc import Iterator
from pathlib import Path

TOP = Path(__file__).resolve().parent.parent
MOST_WORDS, MOST_SEMICOLONS = 25, 1
PAGES = ("*.md", "docs/*.md", "examples/*.md", "tests/seds/*.md", ".github/*.md", ".github/**/*.md", "man/*.[1-8]")
# What ends a sentence, with what may close it, where another one begins, also with a name in small letters.
END = re.compile(r"(?<=[.?!])[)\"”*_]*\s+(?=[\"“(\[*`\dA-Z-]|(?:toybox|ssed|bash|dash|sedck)\b|docs/)")
# A line of a list: its mark, or a number and a full stop.
ITEM = re.compile(r"\s*(?:[-*]|\d+\.)\s+(?:\[[ x]\] )?")
LABEL = re.compile(r"\*\*[^*]+\*\*[:.]?(?:\s|$)")
# In a manual page: what begins a paragraph, and requests whose arguments are text.
BREAKS = re.compile(r"\.(SH|SS|TP|PP|IP|RS|RE|TH|P|HP|TQ)\b")
FONTS = re.compile(r"\.(B|I|BR|BI|IB|IR|RB|RI|SM|SB)\s+")
SILENT = {"SYNOPSIS", "EXAMPLES", "SEE ALSO", "NAME"}


def of_markdown(text: str) -> Iterator[str]:
    """The paragraphs of a page, with each piece of code as one word and each link as its words."""
    text = re.sub(r"\A---\n.*?^---$|^(\s*)```.*?^\s*```$", "", text, flags=re.M | re.S)
    text = re.sub(r"<!--.*?-->|<[^>\n]+>", "", text, flags=re.S)
    text = re.sub(r"(`+)(?!`).+?(?<!`)\1(?!`)", "CODE", text)
    text = re.sub(r"!\[[^\]]*\]\([^)]*\)", "", text)
    text = re.sub(r"\[([^\]]*)\]\([^)]*\)", r"\1", text)
    held: list[str] = []
    for line in [*text.split("\n"), ""]:
        ends = not line.strip() or line.lstrip().startswith(("|", ">", "#", "---"))
        if held and (ends or ITEM.match(line)):
            yield " ".join(held)
            held = []
        if not ends:
            held.append(ITEM.sub("", line, count=1) if ITEM.match(line) else line.strip())


def of_manual(text: str) -> Iterator[str]:
    """The paragraphs of a manual page, with each piece in bold or italics as one word."""
    held: list[str] = []
    shown = silent = tagged = False
    for line in text.split("\n"):
        if line.startswith((".nf", ".EX")):
            shown = True
        if BREAKS.match(line) or line.startswith((".nf", ".EX")):
            if held:
                yield " ".join(held)
            held, tagged = [], line.startswith((".TP", ".TQ"))
        if line.startswith(".SH"):
            silent = line[3:].strip().strip('"') in SILENT
        if not (shown or silent or line.startswith(('.\\"', ".SH", ".SS", ".TH")) or BREAKS.match(line) or not line.strip()):
            if tagged:
                tagged = False
            elif FONTS.match(line):
                pieces = re.findall(r'"[^"]*"|\S+', FONTS.sub("", line).replace("\\ ", "_").replace("\\&", ""))
                alternate = re.match(r"\.[A-Z]{2}", line)
                held.append("CODE" + (re.sub(r"^[^;:.,?!)]*", "", pieces[-1].strip('"')) if alternate else ""))
            elif not line.startswith("."):
                held.append(line)
        if line.startswith((".fi", ".EE")):
            shown = False
    if held:
        yield " ".join(held)


def sentences(paragraph: str) -> Iterator[str]:
    """The sentences of a paragraph; a label at its beginning is one."""
    label = LABEL.match(paragraph)
    if label:
        yield label[0]
        paragraph = paragraph[label.end():]
    yield from END.split(paragraph)


def faults(page: Path) -> Iterator[str]:
    """What a page has of long sentences, and of paragraphs with many semicolons."""
    text = page.read_text()
    for paragraph in of_markdown(text) if page.suffix == ".md" else of_manual(text):
        for sentence in sentences(paragraph):
            words = [word for word in sentence.split() if re.search(r"\w", word)]
            if len(words) > MOST_WORDS:
                yield "%d words: %s" % (len(words), sentence)
        if paragraph.rstrip(";").count(";") > MOST_SEMICOLONS:
            yield "%d semicolons: %s" % (paragraph.count(";"), paragraph)


def main() -> int:
    """Reports what is wrong in each page."""
    pages = [Path(name).resolve() for name in sys.argv[1:]] or sorted({page for names in PAGES for page in TOP.glob(names)})
    count = 0
    for page in pages:
        for fault in faults(page):
            count += 1
            print("%s: %s" % (page.relative_to(TOP), fault))
    if not count:
        print("sentences: %d pages keep to %d words a sentence" % (len(pages), MOST_WORDS))
    return 1 if count or not pages else 0


if __name__ == "__main__":
    sys.exit(main())
