#!/usr/bin/env python3
"""Prints seconds and peak memory of `hcc check` and `hcc build`, with the gates and the bytes of the netlist, over sources of
doubling weight, up to the limit of 2,000,000.

Usage: bench/build.py [HCC [SHAPE..]]      HCC is the program, crates/hcc/out/hcc if none is given; all shapes if none is named
"""
import os, tempfile

import measure


def source(declarations, statements):
    """A source of a list of declarations and a list of statements, a line each."""
    return "\n".join(['set clock = external "clk";'] + declarations + ["void main(void) {"] + statements + ["}", ""])


def mixed(n):
    """Arithmetic, arrays, inputs and outputs, in n parts alike."""
    declarations, statements = [], []
    for k in range(n):
        declarations += [
            f"interface bus_in(unsigned 16 x) i{k}();",
            f"unsigned 16 a{k}; unsigned 16 b{k}; unsigned 16 t{k}[8];",
            f"interface bus_out() o{k}(unsigned 16 y = t{k}[i{k}.x[2:0]] + b{k});",
        ]
        statements += [
            f"a{k} = i{k}.x * b{k} + 1; t{k}[a{k}[2:0]] = a{k} ^ i{k}.x; b{k} = t{k}[i{k}.x[5:3]] >> a{k}[3:0];",
            f"a{k} = a{k} < b{k} ? a{k} - b{k} : b{k};",
        ]
    return source(declarations, statements)


def registers(n):
    """n registers, each written once."""
    return source([f"unsigned 8 r{k};" for k in range(n)], [f"r{k} = r{(k + 1) % n} + 3;" for k in range(n)])


def writes(n):
    """One register that is written n times."""
    return source(["unsigned 32 r; unsigned 32 s;"], [f"r = {'r + s' if k % 8 == 0 else 's'};" for k in range(n)])


def delays(n):
    """n delays."""
    return source([], ["delay;"] * n)


def products(n):
    """n products of 128 bits."""
    return source(["unsigned 128 x;"], ["x = x * x;"] * n)


def elements(n):
    """An array of 512 elements, written and read n times at any index."""
    return source(["unsigned 16 a[512]; unsigned 9 i;"], ["a[i] = a[a[i][8:0]];"] * n)


def outputs(n):
    """n outputs, each with its own expression."""
    return source(["unsigned 64 x; unsigned 64 y;"] + [f"interface bus_out() o{k}(unsigned 64 z = (x & y) + x);" for k in range(n)], [])


# each shape with the sizes over which it is measured, the last near the limit
SHAPES = {
    "mixed": (mixed, 440),
    "registers": (registers, 13_500),
    "writes": (writes, 13_800),
    "delays": (delays, 41_600),
    "products": (products, 15),
    "elements": (elements, 30),
    "outputs": (outputs, 3_100),
}


def print_blanks():
    """A line for each size of a source of blanks and one byte that begins no token."""
    hcc = measure.program()
    with tempfile.TemporaryDirectory() as folder:
        name, out = os.path.join(folder, "a.hc"), os.path.join(folder, "a.edif")
        for size in [1 << 16, 1 << 18, 1 << 20, 1 << 22]:
            with open(name, "w") as file:
                file.write(" " * (size - 1) + "$")
            seconds, peak, status, printed = measure.run([hcc, "build", name, "--edif", out])
            print(f"blanks {size:11}          |                | {seconds:7.3f} {peak / 1024:6.1f} {'':8} {'':9}  {status} {printed}")


measure.print_builds(SHAPES)
print_blanks()
