#!/usr/bin/env python3
"""Prints seconds and peak memory of `hcc check` over sources of doubling sizes, up to the limits of expansion: 65,535 objects,
4,096 elements, 200 calls, 2,000 nodes around a node and 1,000,000 nodes in all; and those of sources that pass a limit by
few words.

The column `a node` is the peak beyond that of an empty source, in bytes over the nodes that are expanded, roughly.

Usage: bench/expand.py [HCC]      HCC is the program, crates/hcc/out/hcc if none is given
"""
import os, tempfile

import measure

CLOCK = 'set clock = external "clk";\n'


def source(declarations, body):
    return CLOCK + declarations + "\nvoid main(void) { " + body + " }\n"


def doubling(first, last):
    """The sizes from the first on, each twice the one before, and the last."""
    while first < last:
        yield first
        first *= 2
    yield last


def names(n):
    """n registers in one scope, each written once."""
    return source("".join(f"unsigned 1 r{i};" for i in range(n)), "".join(f"r{i} = 1;" for i in range(n))), 6 * n


def objects(n):
    """n registers in one declaration."""
    return source("unsigned 1 " + ", ".join(f"r{i}" for i in range(n)) + ";", ""), n


def scopes(n):
    """Blocks 190 deep, each with a register of its own, and uses of the outermost name in the innermost, n times."""
    deep = "".join(f"{{ unsigned 4 r{i}; " for i in range(190)) + "x = x + 1;" * n + "}" * 190
    return source("unsigned 4 x;", deep), 4 * n + 570


def depths(n):
    """Blocks n deep, each with a register of its own, and 100,000 uses of the outermost name in the innermost."""
    deep = "".join(f"{{ unsigned 4 r{i}; " for i in range(n)) + "x = x + 1;" * 100_000 + "}" * n
    return source("unsigned 4 x;", deep), 400_000 + 3 * n


def turns(n):
    """A replicator of n turns."""
    return source("unsigned 32 x;", f"seq (i = 0; i < {n}; ++i) {{ x = i; }}"), 8 * n


def arguments(n):
    """A macro procedure that hands its argument on through 100 others, n times."""
    chain = "macro proc f0(v) { x = v; }" + "".join(f"macro proc f{i}(v) {{ f{i - 1}(v); }}" for i in range(1, 100))
    return source("unsigned 4 x;" + chain, "f99(3);" * n), 400 * n


def scopes_of_macros(n):
    """A macro procedure that calls the one before it twice, n deep: 2 to the power of n calls."""
    chain = "macro proc f0() { delay; }" + "".join(f"macro proc f{i}() {{ f{i - 1}(); f{i - 1}(); }}" for i in range(1, n + 1))
    return source(chain, f"f{n}();"), 3 << n


def sums(n):
    """One sum of n terms."""
    return source("macro expr one = x; unsigned 4 x;", "x = " + " + ".join(["x"] * n) + ";"), 2 * n


def elements(n):
    """An array of n elements with as many first numbers."""
    return source(f"unsigned 8 a[{n}] = {{" + ", ".join(str(i % 256) for i in range(n)) + "};", ""), n


def calls(n):
    """Macro procedures that call one another, n deep."""
    chain = "macro proc f0() { delay; }" + "".join(f"macro proc f{i}() {{ f{i - 1}(); }}" for i in range(1, n))
    return source(chain, f"f{n - 1}();"), 3 * n


def nodes(n):
    """A node that n nodes stand around, by blocks within macro procedures."""
    return source("".join(f"macro proc f{i}() {{ {'{' * 18}{f'f{i - 1}();' if i else 'delay;'}{'}' * 18} }}" for i in range(n // 20)), f"f{n // 20 - 1}();"), n


GROWING = [
    (names, 1 << 10, 65_535),
    (objects, 1 << 10, 65_535),
    (scopes, 1 << 10, 100_000),
    (depths, 1, 190),
    (turns, 1 << 10, 100_000),
    (arguments, 1 << 5, 2_000),
    (sums, 1 << 10, 300_000),
    (elements, 1 << 8, 4_096),
    (calls, 25, 200),
    (nodes, 250, 2_000),
]
PASSING = [
    ("objects", objects(65_536)[0]),
    ("elements", source("unsigned 1 a[4097];", "")),
    ("calls", calls(201)[0]),
    ("nodes", nodes(2_020)[0]),
    ("endless turns", source("", "par (i = 0; i < 1; i = i) { delay; }")),
    ("growing number", source("", "seq (i = 0; 1; i = i * 2 + 1) { }")),
    ("doubling macros", scopes_of_macros(20)[0]),
    ("endless macro", source("macro proc f(n) { f(n); }", "f(1);")),
]


def main():
    program = measure.program()
    print(f"{'source':16} {'size':>8} {'bytes':>8} {'seconds':>8} {'MiB':>7} {'a node':>8}  line")
    with tempfile.TemporaryDirectory() as folder:
        name = os.path.join(folder, "a.hc")

        def once(text):
            with open(name, "w") as file:
                file.write(text)
            return measure.run([program, "check", name])

        _, least, _, _ = once("")
        for make, first, last in GROWING:
            for size in doubling(first, last):
                text, count = make(size)
                seconds, peak, status, printed = once(text)
                each = (peak - least) * 1024 / count
                print(f"{make.__name__:16} {size:8} {len(text):8} {seconds:8.3f} {peak / 1024:7.1f} {each:8.1f}  {status} {printed}", flush=True)
        for kind, text in PASSING:
            seconds, peak, status, printed = once(text)
            print(f"{kind:16} {'':8} {len(text):8} {seconds:8.3f} {peak / 1024:7.1f} {'':8}  {status} {printed}", flush=True)


main()
