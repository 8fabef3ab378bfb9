"""What the benches share: the program, and the time and memory of one run of it."""
import os, re, subprocess, sys, tempfile, time

TOP = os.path.dirname(os.path.dirname(os.path.abspath(__file__)))


def program():
    """The program that is measured: the first word of the command line, or else crates/hcc/out/hcc."""
    return sys.argv[1] if len(sys.argv) > 1 else os.path.join(TOP, "crates", "hcc", "out", "hcc")


def run(command):
    """Runs the command, and gives its seconds, the peak of its memory in KiB, its status and what it printed."""
    start = time.monotonic()
    child = subprocess.Popen(command, stdout=subprocess.PIPE)
    printed = child.stdout.read().decode().strip()
    _, status, usage = os.wait4(child.pid, 0)
    return time.monotonic() - start, usage.ru_maxrss, os.waitstatus_to_exitcode(status), printed


def print_builds(shapes):
    """Prints a line for each size of each shape, up to its greatest, of `hcc check` and `hcc build` of its source. A shape is a function
    that makes the source of a size, and its greatest size; those that the command line names behind the program, else all."""
    hcc = program()
    print("shape            n   weight | check s    MiB | build s    MiB    gates     bytes  line")
    with tempfile.TemporaryDirectory() as folder:
        name, out = os.path.join(folder, "a.hc"), os.path.join(folder, "a.edif")
        for shape in sys.argv[2:] or list(shapes):
            make, most = shapes[shape]
            for size in sorted({max(1, most >> k) for k in range(5)}):
                with open(name, "w") as file:
                    file.write(make(size))
                check_seconds, check_peak, _, line = run([hcc, "check", name])
                weight = re.search(r"weight (\d+)", line)
                seconds, peak, status, printed = run([hcc, "build", name, "--edif", out])
                gates = re.search(r"gates (\d+)", printed)
                size_of = os.path.getsize(out) if status == 0 else 0
                print(f"{shape:10} {size:7} {weight.group(1) if weight else line:>8} | {check_seconds:7.3f} {check_peak / 1024:6.1f}"
                      f" | {seconds:7.3f} {peak / 1024:6.1f} {gates.group(1) if gates else '':>8} {size_of:9}  {status} {printed}")
