#!/usr/bin/env python3
"""Prints seconds and peak memory of `hcc check` over sources whose signals and channels decide one another within a clock, of
doubling size; each shape also with a cycle through all of them, which the line of S17 names.

Usage: bench/order.py [HCC [SHAPE..]]      HCC is the program, crates/hcc/out/hcc if none is given; all shapes if none is named
"""
import os, sys, tempfile

import measure


def source(declarations, statements):
    """A source of a list of declarations and a list of statements, a line each."""
    return "\n".join(['set clock = external "clk";'] + declarations + ["void main(void) {"] + statements + ["}", ""])


def signals(n, cyclic):
    """n signals, each assigned the next; the last one the first where there is to be a cycle."""
    last = "s0" if cyclic else "1"
    return source([f"signal unsigned 1 s{k};" for k in range(n)],
                  ["par {"] + [f"s{k} = s{k + 1};" for k in range(n - 1)] + [f"s{n - 1} = {last};", "}"])


def channels(n, cyclic):
    """A ring of n channels: each thread receives and then sends; where there is to be a cycle, by cases with a default."""
    declared = [f"chan unsigned 1 c{k};" for k in range(n)] + ["unsigned 1 x;"]
    if cyclic:
        threads = [f"prialt {{ case c{k} ? x: break; default: c{(k + 1) % n} ! 1; break; }}" for k in range(n)]
    else:
        threads = [f"while (1) {{ c{k} ? x; c{(k + 1) % n} ! x; }}" for k in range(n)]
    return source(declared, ["par {"] + threads + ["}"])


def choices(n, cyclic):
    """n `prialt`s with defaults over the same eight channels; the default sends on the first where there is to be a cycle."""
    declared = [f"chan unsigned 1 c{k};" for k in range(9)] + ["unsigned 1 x;"]
    cases = " ".join(f"case c{k} ? x: break;" for k in range(8))
    return source(declared, ["par {"] + [f"prialt {{ {cases} default: {'c0' if cyclic else 'c8'} ! 1; break; }}"] * n + ["}"])


def loops(n, cyclic):
    """n assignments of signals within 190 nested loops, whose conditions read the first signal where there is to be a cycle."""
    condition = "s0" if cyclic else "c"
    return source(["unsigned 1 c; unsigned 1 x; signal unsigned 1 s0; signal unsigned 1 s1;"],
                  ["do " * 190 + "{"] + ["s1 = x;" if k % 2 else "s0 = x; s1 = s0;" for k in range(n)] + ["}" + f" while ({condition});" * 190])


# each shape with the greatest size
SHAPES = {"signals": (signals, 65_500), "channels": (channels, 32_000), "choices": (choices, 10_000), "loops": (loops, 5_000)}


def main():
    program = measure.program()
    names = sys.argv[2:] or list(SHAPES)
    print("shape          n cyclic | check s    MiB  status line")
    with tempfile.TemporaryDirectory() as folder:
        name = os.path.join(folder, "a.hc")
        for shape in names:
            make, most = SHAPES[shape]
            for cyclic in (False, True):
                for size in sorted({max(2, most >> k) for k in range(4)}):
                    with open(name, "w") as file:
                        file.write(make(size, cyclic))
                    seconds, peak, status, printed = measure.run([program, "check", name])
                    print(f"{shape:9} {size:6} {'yes' if cyclic else 'no':>6} | {seconds:7.3f} {peak / 1024:6.1f}  {status} {printed[:60]}")


main()
