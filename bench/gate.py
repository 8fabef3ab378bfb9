#!/usr/bin/env python3
"""What the gate costs from nothing: runs `rt ci --anew` in a fresh clone of what is committed, and prints processor seconds by
crate: its own proof, its tests, the check that its must-fail edits begin with, and the edits. Takes all processors for an hour or more.
Usage: bench/gate.py [CRATE ..]   (these crates and those below them alone)

The times are those of the checks' processes, read twice a second, so that each process counts up to half a second too little."""
import collections
import os
import re
import shutil
import signal
import subprocess
import sys
import tempfile
import time

TOP = os.path.dirname(os.path.dirname(os.path.abspath(__file__)))
KINDS = ["proof", "tests", "start of edits", "edits"]
# Bounds in seconds: of a crate's own proof, of all tests, and of what edits with their start take by the crate's own proof.
MOST_OF_A_PROOF, MOST_OF_TESTS, MOST_OF_EDITS = 450, 900, 1.4
TICKS = os.sysconf("SC_CLK_TCK")


def kind_of(words, folder):
    """What a check is for, by its words and the folder that it runs in."""
    if "--test" in words:
        return "tests"
    over = words[words.index("--incremental") + 1] if "--incremental" in words else ""
    if os.path.basename(over) == "seed":
        return "start of edits"
    return "edits" if over or os.path.basename(folder).startswith("rt-edit-") else "proof"


def look(mark, seen):
    """Notes each check of this run that is alive: its crate, what it is for, and its processor seconds so far."""
    for number in filter(str.isdigit, os.listdir("/proc")):
        try:
            with open(f"/proc/{number}/cmdline", "rb") as file:
                words = file.read().decode(errors="replace").split("\0")
            if os.path.basename(words[0]) != "rattle" or "--crate-name" not in words:
                continue
            with open(f"/proc/{number}/environ", "rb") as file:
                if mark not in file.read().split(b"\0"):
                    continue
            with open(f"/proc/{number}/stat", encoding="utf-8") as file:
                fields = file.read().rpartition(")")[2].split()
            crate = words[words.index("--crate-name") + 1]
            kind = kind_of(words, os.readlink(f"/proc/{number}/cwd"))
            seen[number, fields[19]] = crate, kind, (int(fields[11]) + int(fields[12])) / TICKS
        except (OSError, ValueError, IndexError):
            continue


def main(names):
    if not shutil.which("rt"):
        print("bench/gate.py: the kit's command rt is not on the PATH", file=sys.stderr)
        return 2
    started, seen, name = time.monotonic(), {}, f"HCC_GATE_{os.getpid()}"
    with tempfile.TemporaryDirectory(prefix="hcc-gate-") as folder:
        subprocess.run(["git", "clone", "-q", TOP, folder], check=True)
        with open(os.path.join(folder, ".git", "gate.log"), "w+", encoding="utf-8", errors="replace") as log:
            run = subprocess.Popen(["rt", "ci", "--anew", *names], cwd=folder, env={**os.environ, name: "1"}, stdout=log, stderr=log)
            signal.signal(signal.SIGTERM, lambda *_: sys.exit(143))
            try:
                while run.poll() is None:
                    look(f"{name}=1".encode(), seen)
                    time.sleep(0.5)
            finally:
                run.terminate()
                run.wait()
            log.seek(0)
            said = log.read()
    spent = collections.defaultdict(lambda: dict.fromkeys(KINDS, 0.0))
    for crate, kind, seconds in seen.values():
        spent[crate][kind] += seconds
    print("| crate | " + " | ".join(KINDS) + " | all |\n|---|" + "---:|" * (len(KINDS) + 1))
    rows = sorted(spent.items(), key=lambda it: -sum(it[1].values()))
    all_of = {kind: sum(row[kind] for _, row in rows) for kind in KINDS}
    for crate, row in [*rows, ("**all**", all_of)]:
        print(f"| {crate} | " + " | ".join(f"{row[kind]:,.0f}" for kind in KINDS) + f" | {sum(row.values()):,.0f} |")
    for crate, row in rows:
        edits = row["start of edits"] + row["edits"]
        if row["proof"] > MOST_OF_A_PROOF:
            print(f"over the bound: {crate} takes {row['proof']:,.0f} s to prove, and may take {MOST_OF_A_PROOF}")
        if edits > MOST_OF_EDITS * row["proof"]:
            print(f"over the bound: the edits of {crate} take {edits / max(row['proof'], 0.1):.1f} times its proof, and may take {MOST_OF_EDITS}")
    if all_of["tests"] > MOST_OF_TESTS:
        print(f"over the bound: all tests take {all_of['tests']:,.0f} s, and may take {MOST_OF_TESTS}")
    print(f"{sum(all_of.values()) / 60:,.0f} processor minutes in {(time.monotonic() - started) / 60:,.0f} minutes; the gate's last line: ", end="")
    print(next((it for it in reversed(said.split("\n")) if re.fullmatch(r"\d+ passed, \d+ failed.*", it)), "none"))
    return run.returncode


if __name__ == "__main__":
    sys.exit(main(sys.argv[1:]))
