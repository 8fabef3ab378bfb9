"""Reads docs/REFUSALS.md: its sections with their sentences, words, repairs, and sources with the lines that they give."""
import os
import re

TOP = os.path.dirname(os.path.dirname(os.path.dirname(os.path.abspath(__file__))))
PAGE = os.path.join(TOP, "docs", "REFUSALS.md")
BLOCK = re.compile(r"^```(\w+)\n(.*?)^```$", re.M | re.S)
HELP = {"range": range, "join": "".join, "chr": chr}


def expanded(text):
    """A source, in which an expression between back quotes stands for its text."""
    pieces = text.split("`")
    pieces[1::2] = [eval(piece, {"__builtins__": {}}, HELP) for piece in pieces[1::2]]
    return "".join(pieces)


def sections():
    """For each rule its name and its list of pairs: the kind of a block (wrong, answer, right), and its text."""
    with open(PAGE, encoding="utf-8") as file:
        page = file.read()
    for part in re.split(r"^## ", page, flags=re.M)[1:]:
        name, _, body = part.partition("\n")
        yield name.strip(), [(kind, text) for kind, text in BLOCK.findall(body)]
