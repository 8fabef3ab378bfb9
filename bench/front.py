#!/usr/bin/env python3
"""Prints seconds and peak memory of the stages before the core program (tokens, left-out words, nesting, tree) over sources
of doubling sizes, from 64 KiB to the limits of 4 MiB and 1,000,000 tokens, good ones and bad ones.

A good source is refused last, as one that isn't built yet, so that all of it was read. The column `a token` is the peak
beyond that of an empty source, in bytes over the tokens, the tree with them.

Usage: bench/front.py [HCC]      HCC is the program, crates/hcc/out/hcc if none is given
"""
import os, re, tempfile

import measure

CLOCK = b'set clock = external "clk";\n'
LIMIT = 4 << 20
TOKENS = 1_000_000


def repeated(size, head, unit, tail):
    """The head, as many units as fit in the size and the limit of tokens, and the tail."""
    each = len(tokens(unit))
    many = min((size - len(head) - len(tail)) // len(unit), (TOKENS - len(tokens(head)) - len(tokens(tail))) // each if each else size)
    return head + unit * many + tail


def tokens(text):
    """The tokens of a text without comments, roughly: enough to count them."""
    return re.findall(rb'"[^"]*"|\w+|<<=|>>=|[-+<>&|]{2}|[^\s\w]', text)


MAIN = b"void main(void) { "
GOOD = {
    "declarations": lambda size: repeated(size, CLOCK + b"unsigned 4 r0", b", name", b";\n" + MAIN + b"}"),
    "statements": lambda size: repeated(size, CLOCK + MAIN, b"x = x + 1; ", b"}"),
    "nesting": lambda size: repeated(size, CLOCK + MAIN, b"x = " + b"(" * 195 + b"1" + b")" * 195 + b"; ", b"}"),
    "blocks": lambda size: repeated(size, CLOCK + MAIN, b"{" * 190 + b";" + b"}" * 190, b"}"),
    "expression": lambda size: repeated(size, CLOCK + MAIN + b"x = f(1", b", a*b+c", b"); }"),
    "words": lambda size: repeated(size, CLOCK + b"unsigned 4 r0", b", name", b"; struct"),
    "short words": lambda size: repeated(size, CLOCK, b"a ", b"struct"),
    "comment": lambda size: CLOCK + b"/*" + b"x" * (size - len(CLOCK) - 4) + b"*/",
}
BAD = {
    "brackets": lambda size: b"(" * size,
    "closing": lambda size: b"]" * size,
    "NUL bytes": lambda size: b"\0" * size,
    "bytes over 127": lambda size: b"\xc8" * size,
    "in a comment": lambda size: b"/*" + b"\xc8" * (size - 4) + b"*/",
    "in a text": lambda size: b'"' + b"\xc8" * (size - 2) + b'"',
    "open comment": lambda size: b"/*" + b"*" * (size - 2),
    "one word": lambda size: b"a" * size,
    "one number": lambda size: b"1" * size,
    "stars": lambda size: b"/" * size,
    "else": lambda size: repeated(size, CLOCK + MAIN, b"if (a) ; else ", b"}"),
}


def main():
    program = measure.program()
    print(f"{'source':16} {'bytes':>8} {'tokens':>8} {'seconds':>8} {'MiB':>7} {'a token':>8}  line")
    with tempfile.TemporaryDirectory() as folder:
        name, out = os.path.join(folder, "a.hc"), os.path.join(folder, "a.edif")

        def once(text):
            with open(name, "wb") as file:
                file.write(text)
            return measure.run([program, "build", name, "--edif", out])

        _, least, _, _ = once(b"")
        for kind, make in [*GOOD.items(), *BAD.items()]:
            size = 1 << 16
            while size <= LIMIT:
                text = make(size)
                count = len(tokens(text)) if kind in GOOD and kind != "comment" else 0
                seconds, peak, status, printed = once(text)
                each = f"{(peak - least) * 1024 / count:8.1f}" if count else " " * 8
                print(f"{kind:16} {len(text):8} {count:8} {seconds:8.3f} {peak / 1024:7.1f} {each}  {status} {printed}", flush=True)
                size *= 2


main()
