"""The sources of the documents: each of docs/REFUSALS.md, each idiom of docs/LANGUAGE.md, and the examples' netlists."""
import importlib.util
import os
import re
import shutil

from pages import expanded, sections
from programs import TOP, Failure

RULES = [f"S{i}" for i in range(1, 25)] + [f"L{i}" for i in range(1, 10)]
NOT_BUILT = re.compile(rb"refused NotBuilt at \d+:\d+\n")
ACCEPTED = re.compile(rb"objects \d+, weight \d+, flip-flops \d+\n")
SMALL = """(edif hc (edifVersion 2 0 0) (edifLevel 0) (keywordMap (keywordLevel 0))
(cell main (cellType GENERIC) (view v (viewType NETLIST) (interface
(port clk (direction INPUT) (property PIN (string "clk")))
(port (rename p0_0 "i[0]") (direction INPUT))
(port (rename p1_0 "o[0]") (direction OUTPUT) (property PIN (string "P2")))
)
(contents
(instance R0_0 (viewRef v (cellRef HC_DFF0)))
(instance g2 (viewRef v (cellRef HC_INV)))
(net nc (joined (portRef clk) (portRef c (instanceRef R0_0))))
(net n0 (joined (portRef p0_0) (portRef a (instanceRef g2))))
(net n1 (joined (portRef q (instanceRef R0_0)) (portRef p1_0)))
(net n2 (joined (portRef y (instanceRef g2)) (portRef d (instanceRef R0_0))))
))))
"""
SMALL_VERILOG = """module main (clk, p0_0, p1_0);
(* PIN = "clk" *) input clk;
(* NAME = "i[0]" *) input p0_0;
(* NAME = "o[0]", PIN = "P2" *) output p1_0;
wire n0;
wire n1;
wire n2;
assign n0 = p0_0;
HC_DFF0 R0_0 (.q(n1), .d(n2), .c(clk));
not g2 (n2, n0);
assign p1_0 = n1;
endmodule"""


def checked(programs, source):
    programs.put("a.hc", source)
    try:
        ended = programs.launch(["check", "a.hc"])
    except Failure as failure:
        return None, str(failure).encode()
    return ended.returncode, ended.stdout


def test_each_rule_and_limit_has_a_section(programs):
    names = [name for name, _ in sections()]
    if [name for name in names if name != "NotBuilt"] != RULES:
        yield f"the sections are {names}"


def test_refusals(programs):
    for rule, blocks in sections():
        kinds = [kind for kind, _ in blocks]
        if not kinds or kinds != ["wrong", "answer", "right"] * (len(kinds) // 3):
            yield f"{rule}: the blocks are {kinds}"
            continue
        for at in range(0, len(blocks), 3):
            wrong, answer, right = (expanded(text) for _, text in blocks[at : at + 3])
            status, line = checked(programs, wrong)
            if not answer.startswith(f"refused {rule} at "):
                yield f"{rule}: the line is {answer}"
            if (status, line) != (1, answer.encode()):
                yield f"{rule}: status {status}, {line}, not {answer}"
            status, line = checked(programs, right)
            if not (status == 0 and ACCEPTED.fullmatch(line)) and not (NOT_BUILT.fullmatch(line) and rule != "NotBuilt"):
                yield f"{rule}: the mended source: status {status}, {line}"


def language(title):
    """The indented lines of a section of docs/LANGUAGE.md, and its text."""
    with open(os.path.join(TOP, "docs", "LANGUAGE.md"), encoding="utf-8") as file:
        text = file.read().split(f"## {title}\n")[1].split("\n## ")[0]
    return "".join(line[4:] + "\n" for line in text.split("\n") if line.startswith("    ")), text


def test_idioms(programs):
    declared, text = language("Idioms")
    statements = [it.replace("\\|", "|") for it in re.findall(r"^\| `(.*?)` \| ", text, re.M)]
    if len(statements) < 20:
        raise Failure(f"the idioms are {statements}")
    for statement in statements:
        status, line = checked(programs, f'set clock = external "clk";\n{declared}void main(void) {{ {statement} }}\n')
        if status or not ACCEPTED.fullmatch(line):
            yield f"{statement}: status {status}, {line}"


def test_pins(programs):
    source, _ = language("Pins and other entries of `with`")
    programs.put("a.hc", source)
    ended = programs.end(["build", "a.hc", "--edif", "a.edif"])
    if ended.returncode:
        raise Failure(f"the pins: status {ended.returncode}, {ended.stdout}")
    for bit, pin in (("keys[3]", "P5"), ("keys[0]", "P2"), ("leds[1]", "P7"), ("leds[0]", "P6")):
        if not re.search(rf'"{re.escape(bit)}"\) \(direction \w+\) \(property PIN \(string "{pin}"\)\)', programs.get("a.edif").decode()):
            yield f"{bit} hasn't the pin {pin}"


def test_the_example_of_the_readme(programs):
    with open(os.path.join(TOP, "README.md"), encoding="utf-8") as file:
        text = file.read()
    programs.put_first()
    for words in (["check", "a.hc"], ["build", "a.hc", "--edif", "a.edif"]):
        line = programs.end(words).stdout.decode()
        if f"    {line}" not in text:
            yield f"the README hasn't the line {line}"


def test_verilog(programs):
    spec = importlib.util.spec_from_file_location("to_verilog", os.path.join(TOP, "examples", "to_verilog.py"))
    to_verilog = importlib.util.module_from_spec(spec)
    spec.loader.exec_module(to_verilog)
    if "\n".join(to_verilog.verilog(SMALL)) != SMALL_VERILOG:
        yield "the small netlist as Verilog: " + "\n".join(to_verilog.verilog(SMALL))
    for name in ("first", "crc8", "lfsr16", "mac"):
        ended = programs.end(["build", os.path.join(TOP, "examples", name + ".hc"), "--edif", name + ".edif"])
        lines = list(to_verilog.verilog(programs.get(name + ".edif").decode()))
        gates, flops = map(int, re.match(rb"built: gates (\d+), flip-flops (\d+)", ended.stdout).groups())
        found = sum(bool(re.match(r"(not|and|or|xor) g|assign n\d+ = 1'b", line)) for line in lines)
        if found != gates or sum(line.startswith("HC_DFF") for line in lines) != flops:
            yield f"{name} as Verilog has other numbers of gates or flip-flops"
        programs.put(name + ".v", "\n".join(lines) + "\n")
    if shutil.which("iverilog"):
        yield from simulated(programs)


def simulated(programs):
    cells, bench = (os.path.join(TOP, "examples", name) for name in ("cells.v", "first_bench.v"))
    programs.end(["-o", "first.vvp", cells, "first.v", bench], ["iverilog"])
    found = programs.end(["-n", "first.vvp"], ["vvp"]).stdout.decode().split()
    if found != ["0", "5", "5", "6", "6"]:
        yield f"the simulated register is {found}"
