"""The links of pages as they are packed (tools/dist.py): each leads to a file that is packed, to the sources at an address, or is plain words.

A page of the repository has links to other files of it. In an archive, and where it is installed, some of these lie elsewhere, and some
aren't there. Manual pages are named by their words alone, since `man` shows them, and packages for systems compress them.
"""
import os.path
import re
from collections.abc import Callable

from provenance import Fault

# Blocks of code; then on one line: code between backquotes, a link or a picture, and an attribute of HTML.
BLOCK = re.compile(r"^```.*?^```$", re.M | re.S)
PART = re.compile(r"(?P<code>(?P<ticks>`+)(?!`)[^\n]*?(?<!`)(?P=ticks)(?!`))"
                  r"|(?P<picture>!?)\[(?P<words>(?:`[^`\n]*`|[^\[\]`\n])*)\]\((?P<target>[^)\s]+)\)"
                  r"|(?P<attribute>\bsrc(?:set)?)=\"(?P<source>[^\"\s]+)\"")


def whither(source: str, target: str) -> tuple[str, str]:
    """The file of the repository to which a link of a page leads, and the heading with its mark or nothing."""
    name, mark, head = target.partition("#")
    return (os.path.normpath(os.path.join(os.path.dirname(source), name)) if name else source), mark + head


def rewritten(text: str, source: str, path: str, places: dict[str, str], address: str) -> str:
    """The text of the page `source` of the repository, as it is packed at `path`. `places` has the path of each file that pages lead to;
    where it has none, a link leads below the address, or is plain words where that is empty."""
    def led(target: str) -> str:
        file, head = whither(source, target)
        if file in places and not file.startswith("man/"):
            return (os.path.relpath(places[file], os.path.dirname(path) or ".") if file != source else "") + head
        if file.startswith(".."):
            raise Fault("%s has a link out of the repository: %s" % (source, target))
        return "%s/%s%s" % (address, file, head) if address else ""

    def put(part: re.Match) -> str:
        target = part["target"] or part["source"]
        if part["code"] or re.match(r"[a-z]+:", target):
            return part[0]
        to = led(target)
        if not to and (part["picture"] or part["attribute"]):
            raise Fault("%s has the picture %s, which isn't packed" % (source, target))
        if part["attribute"]:
            return '%s="%s"' % (part["attribute"], to)
        return "%s[%s](%s)" % (part["picture"], part["words"], to) if to else part["words"]

    return outside_blocks(text, lambda words: PART.sub(put, words))


def outside_blocks(text: str, change: Callable[[str], str]) -> str:
    """The text with what is outside of blocks of code changed."""
    at, whole = 0, ""
    for block in BLOCK.finditer(text):
        whole += change(text[at:block.start()]) + block[0]
        at = block.end()
    return whole + change(text[at:])
