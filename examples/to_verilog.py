#!/usr/bin/env python3
"""Turns a netlist of hcc from EDIF to structural Verilog, for simulators that read no EDIF.

    examples/to_verilog.py NETLIST.edif > NETLIST.v

Gates become the primitives of IEEE 1364 and flip-flops instances of the cells in examples/cells.v; names stay. It reads the
text that hcc writes, line by line, and no other EDIF. It isn't proved."""
import re
import sys

PORT = re.compile(r'\(port (?:\(rename (\w+) "([^"]*)"\)|(clk)) \(direction (\w+)\)(?: \(property PIN \(string "([^"]*)"\)\))?\)')
INSTANCE = re.compile(r"\(instance (\w+) \(viewRef v \(cellRef (\w+)\)\)\)")
NET = re.compile(r"\(net (\w+) \(joined (.*)\)\)")
READER = re.compile(r"\(portRef (\w+)(?: \(instanceRef (\w+)\))?\)")
GATES = {"HC_INV": "not", "HC_AND2": "and", "HC_OR2": "or", "HC_XOR2": "xor"}
CONSTANTS = {"HC_GND": "1'b0", "HC_VCC": "1'b1"}


def main_lines(text):
    """The lines of the cell `main`: those before it are the library."""
    return text[text.index("(cell main ") :].split("\n")


def port_line(found):
    name, label, clock, direction, pin = found.groups()
    notes = [f'{key} = "{value}"' for key, value in (("NAME", label), ("PIN", pin)) if value is not None]
    return f"(* {', '.join(notes)} *) {direction.lower()} {name or clock};"


def verilog(text):
    lines = main_lines(text)
    ports = [found for line in lines if (found := PORT.fullmatch(line))]
    instances = [found.groups() for line in lines if (found := INSTANCE.fullmatch(line))]
    nets = [found.groups() for line in lines if (found := NET.fullmatch(line))]
    pins = {(instance, pin): net for net, joined in nets for pin, instance in READER.findall(joined)}
    at_ports = [(found[1], found[4], pins["", found[1]]) for found in ports if found[1]]
    yield f"module main ({', '.join(found[1] or found[3] for found in ports)});"
    yield from map(port_line, ports)
    yield from (f"wire {net};" for net, _ in nets if net != "nc")
    yield from (f"assign {net} = {port};" for port, direction, net in at_ports if direction == "INPUT")
    for name, cell in instances:
        at = {pin: pins[name, pin] for pin in "qydabc" if (name, pin) in pins}
        if cell in GATES:
            yield f"{GATES[cell]} {name} ({', '.join(at[pin] for pin in 'yab' if pin in at)});"
        elif cell in CONSTANTS:
            yield f"assign {at['y']} = {CONSTANTS[cell]};"
        elif cell in ("HC_DFF0", "HC_DFF1"):
            yield f"{cell} {name} (.q({at['q']}), .d({at['d']}), .c(clk));"
        else:
            raise SystemExit(f"to_verilog: no cell of this kind is known: {cell}")
    yield from (f"assign {port} = {net};" for port, direction, net in at_ports if direction == "OUTPUT")
    yield "endmodule"


if __name__ == "__main__":
    with open(sys.argv[1], encoding="ascii") as netlist:
        print("\n".join(verilog(netlist.read())))
