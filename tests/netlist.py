"""Reads a netlist that `hcc build` wrote as EDIF, and runs it gate by gate. Standard library only."""
import re

PINS = {"HC_GND": "", "HC_VCC": "", "HC_INV": "a", "HC_AND2": "ab", "HC_OR2": "ab", "HC_XOR2": "ab", "HC_DFF0": "dc", "HC_DFF1": "dc"}
NOT, AND, OR, XOR = 2, 3, 4, 5
GATES = {"HC_GND": 0, "HC_VCC": 1, "HC_INV": NOT, "HC_AND2": AND, "HC_OR2": OR, "HC_XOR2": XOR}
HEAD = """(edif hc (edifVersion 2 0 0) (edifLevel 0) (keywordMap (keywordLevel 0))
(library hc (edifLevel 0) (technology (numberDefinition))
""" + "".join(
    f"(cell {cell} (cellType GENERIC) (view v (viewType NETLIST) (interface (port {'q' if 'DFF' in cell else 'y'} (direction OUTPUT))"
    + "".join(f" (port {pin} (direction INPUT))" for pin in pins)
    + ")))\n"
    for cell, pins in PINS.items()
) + "(cell main (cellType GENERIC) (view v (viewType NETLIST) (interface\n"
TAIL = "))))\n(design main (cellRef main (libraryRef hc))))\n"
PIN = r'(?: \(property PIN \(string "([^"\\%]*)"\)\))?'
PORT = re.compile(r'\(port \(rename (p\d+_\d+) "([^"]*)\[(\d+)\]"\) \(direction (INPUT|OUTPUT)\)' + PIN + r"\)")
INSTANCE = re.compile(r"\(instance (\w+) \(viewRef v \(cellRef (HC_\w+)\)\)\)")
NET = re.compile(r"\(net (\w+) \(joined((?: \(portRef [^()]+(?:\(instanceRef \w+\))?\))+)\)\)")
REF = re.compile(r"\(portRef (\w+)(?: \(instanceRef (\w+)\))?\)")


class BadText(Exception):
    pass


class Netlist:
    def __init__(self, text):
        """Reads a text of the first form; raises BadText with the reason where it is none."""
        if not text.startswith(HEAD) or not text.endswith(TAIL):
            raise BadText("the head or the tail of the text")
        lines = iter(text[len(HEAD) : -len(TAIL)].split("\n")[:-1])
        self.pins, self.inputs, self.outputs, self.cells = {}, {}, {}, {}
        self.read_ports(lines)
        nets = self.read_instances(lines)
        self.join(nets, lines)
        self.gates = [name for name, cell in self.cells.items() if cell in GATES]
        self.flops = [name for name, cell in self.cells.items() if cell not in GATES]
        self.state = {name: int(self.cells[name] == "HC_DFF1") for name in self.flops}

    def read_ports(self, lines):
        clock = re.fullmatch(r"\(port clk \(direction INPUT\)" + PIN + r"\)", next(lines, ""))
        if not clock:
            raise BadText("the clock's port")
        self.pins["clk"] = clock[1]
        for line in lines:
            if line == ")":
                return
            found = PORT.fullmatch(line)
            if not found:
                raise BadText(f"a port: {line}")
            port, name, bit, direction, pin = found.groups()
            side = self.inputs if direction == "INPUT" else self.outputs
            side.setdefault(name, []).append(port)
            self.pins[f"{name}[{bit}]"] = pin

    def read_instances(self, lines):
        """Reads the instances; answers the line of the first net."""
        if next(lines, "") != "(contents":
            raise BadText("the contents")
        for line in lines:
            found = INSTANCE.fullmatch(line)
            if not found:
                return line
            if found[1] in self.cells or found[2] not in PINS:
                raise BadText(f"an instance: {line}")
            self.cells[found[1]] = found[2]
        return ""

    def join(self, line, lines):
        """Reads the nets: what drives each pin of a cell and each bit of an output."""
        self.driver, drives = {}, {}
        while line:
            found = NET.fullmatch(line)
            if not found:
                raise BadText(f"a net: {line[:200]}")
            refs = [tuple(it for it in (cell, pin) if it) for pin, cell in REF.findall(found[2])]
            if refs[0] in drives:
                raise BadText(f"two nets of {refs[0]}")
            drives[refs[0]] = True
            for ref in refs[1:]:
                if ref in self.driver:
                    raise BadText(f"two drivers of {ref}")
                self.driver[ref] = refs[0]
            line = next(lines, "")
        for cell, kind in self.cells.items():
            if any((cell, pin) not in self.driver for pin in PINS[kind]) or (cell, "q" if "DFF" in kind else "y") not in drives:
                raise BadText(f"a pin of {cell} in no net")

        self.number = {ref: i for i, ref in enumerate(drives)}
        self.steps = []
        for cell, kind in self.cells.items():
            if kind in GATES:
                a, b, *_ = [self.number[self.driver[cell, pin]] for pin in PINS[kind]] + [0, 0]
                self.steps.append((GATES[kind], self.number[cell, "y"], a, b))

    def clock(self, inputs):
        """Runs one clock on the number of each input; answers the numbers of the outputs in it."""
        value = [0] * len(self.number)
        for name, bits in self.inputs.items():
            for i, port in enumerate(bits):
                value[self.number[port,]] = inputs[name] >> i & 1
        for flop, bit in self.state.items():
            value[self.number[flop, "q"]] = bit
        for gate, to, a, b in self.steps:
            a, b = value[a], value[b]
            value[to] = a & b if gate == AND else a | b if gate == OR else a ^ b if gate == XOR else 1 - a if gate == NOT else gate
        of = lambda ref: value[self.number[self.driver[ref]]]
        outputs = {name: sum(of((port,)) << i for i, port in enumerate(bits)) for name, bits in self.outputs.items()}
        self.state = {flop: of((flop, "d")) for flop in self.state}
        return outputs

    def held(self, k):
        """The number in the flip-flops of object k, and how many they are."""
        number = width = 0
        while f"R{k}_{width}" in self.state:
            number |= self.state[f"R{k}_{width}"] << width
            width += 1
        return number, width
