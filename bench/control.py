#!/usr/bin/env python3
"""Prints seconds and peak memory of `hcc check` and `hcc build`, with the gates and the bytes of the netlist, over sources of nested control of
doubling size, up to the limit of the weight of 2,000,000.

Usage: bench/control.py [HCC [SHAPE..]]      HCC is the program, crates/hcc/out/hcc if none is given; all shapes if none is named
"""
import measure

DECLARED = "unsigned 1 c; unsigned 4 x; unsigned 4 y;"


def source(statements, declarations=DECLARED):
    """A source of a list of statements, a line each."""
    return "\n".join(['set clock = external "clk";', declarations, "void main(void) {"] + statements + ["}", ""])


def loops(n):
    """n loops one after another, each with an `if` in it."""
    return source(["while (c) { if (x == 3) y = 1; else delay; }"] * n)


def nested(n):
    """n assignments in groups of a hundred, each group within 90 nested loops and branches."""
    opened = "while (c) { delay; if (c) { " * 45
    closed = "} }" * 45
    return source([opened + "y = 1; " * 100 + closed] * max(1, n // 100))


def threads(n):
    """n threads, each a loop of two clocks."""
    return source(["par {"] + ["while (1) { delay; if (c) x = y; else delay; }"] * n + ["}"])


def replicated(n):
    """A replicator of n threads of one clock."""
    return source([f"par (i = 0; i < {n}; ++i) {{ delay; }}"])


def switches(n):
    """n switches of four arms and a default."""
    arms = " ".join(f"case {k}: y = {k}; break;" for k in range(4))
    return source(["switch (x) { " + arms + " default: delay; }"] * n)


def labels(n):
    """One switch of n arms over a selector of 16 bits."""
    arms = [f"case {k}: delay; break;" for k in range(n)]
    return source(["switch (s) {"] + arms + ["}"], "unsigned 16 s;")


# each shape with the greatest size, near the limit
SHAPES = {
    "loops": (loops, 8_200),
    "nested": (nested, 12_000),
    "threads": (threads, 6_900),
    "replicated": (replicated, 19_200),
    "switches": (switches, 3_000),
    "labels": (labels, 13_800),
}


measure.print_builds(SHAPES)
