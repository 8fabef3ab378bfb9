"""What the launcher says itself: explanations of refusals, compared whole, the pages, the help and the version."""
import os
import pty
import re
import subprocess

from pages import PAGE
from programs import TOP, Failure

EXPLAINED = os.path.join(TOP, "tests", "launcher", "explained.txt")
REFUSED = b"refused S9 at 3:19: 8 4\n"
SOURCE = 'set clock = external "clk";\nunsigned 8 x; unsigned 4 y;\nvoid main(void) { x = y; }\n'


def cases():
    """Sources, each behind a line `== TITLE`, and behind a line `--` the whole explanation of its refusal."""
    with open(EXPLAINED, encoding="utf-8") as file:
        for part in re.split(r"^== ", file.read(), flags=re.M)[1:]:
            title, _, body = part.partition("\n")
            source, _, said = body.partition("--\n")
            yield title, source, said


def test_explanations(programs):
    for title, source, said in cases():
        programs.put("a.hc", source)
        alone = programs.end(["check", "a.hc"])
        if alone.returncode != 1 or alone.stderr:
            yield f"{title}: the program alone: status {alone.returncode}, {alone.stderr}"
        for words in (["check", "a.hc"], ["build", "a.hc", "--edif", "a.edif"]):
            ended = programs.launch(words, explain="1")
            if (ended.returncode, ended.stdout) != (1, alone.stdout):
                yield f"{title}: status {ended.returncode}, {ended.stdout}, not {alone.stdout}"
            if ended.stderr.decode() != said:
                yield f"{title}:\n{ended.stderr.decode()}not\n{said}"


def test_nothing_is_explained_unasked(programs):
    programs.put("a.hc", SOURCE)
    for explain in (None, "0", ""):
        programs.want(programs.launch(["check", "a.hc"], explain=explain), 1, REFUSED, b"")


def test_the_weight_is_said_where_it_is_asked_for(programs):
    heavy = next(source for title, source, said in cases() if title == "L8: too heavy")
    endless = 'set clock = external "clk";\nvoid main(void) { while (1) { } }\n'
    for source, said in ((heavy, b"hcc: the source weighs 2130108\n"), (endless, b"hcc: the source weighs 229\n"), (SOURCE, b"")):
        programs.put("a.hc", source)
        refused = programs.end(["check", "a.hc"]).stdout
        for words in (["check", "a.hc"], ["build", "a.hc", "--edif", "a.edif"]):
            programs.want(programs.end(words, weight="1"), 1, refused, said)
    programs.put_first()
    line = programs.end(["check", "a.hc"]).stdout
    programs.want(programs.end(["check", "a.hc"], weight="1"), 0, line, b"")


def test_a_terminal_is_told(programs):
    programs.put("a.hc", SOURCE)
    screen, terminal = pty.openpty()
    for explain, is_told in ((None, True), ("0", False)):
        ended = programs.launch(["check", "a.hc"], explain=explain, stderr=terminal)
        programs.want(ended, 1, REFUSED)
        os.write(terminal, b"end\n")
        shown = b""
        while not shown.endswith(b"end\r\n"):
            shown += os.read(screen, 4096)
        if (b"a.hc:3:19: S9: Two widths differ." in shown) != is_told:
            yield f"HCC_EXPLAIN {explain}: the terminal shows {shown}"
    os.close(screen)
    os.close(terminal)


def test_other_answers_stay(programs):
    programs.put_first()
    for words, status, out in (
        (["check", "a.hc"], 0, b"objects 1, weight 344, flip-flops 8\n"),
        (["check", "none.hc"], 3, b"read fault: source\n"),
    ):
        programs.want(programs.launch(words, explain="1"), status, out)
    for words in ([], ["check"], ["help"], ["-h"]):
        ended = programs.launch(words, explain="1")
        if ended.returncode != 2 or ended.stdout != programs.end(words).stdout or ended.stderr:
            yield f"{words}: status {ended.returncode}, {ended.stdout}, {ended.stderr}"
    for words in (["--help"], ["--version"], ["explain", "S9"]):
        ended = programs.end(words)
        if ended.returncode != 2 or not ended.stdout.startswith(b"usage: "):
            yield f"{words} of the program alone: status {ended.returncode}, {ended.stdout}"


def test_a_source_that_is_no_file_is_only_refused(programs):
    ended = programs.launch(["check", "/dev/stdin"], explain="1", stdin=None, input=SOURCE.encode())
    programs.want(ended, 1, REFUSED, b"")


def test_pages(programs):
    with open(PAGE, encoding="utf-8") as file:
        page = file.read()
    names = re.findall(r"^## (.*)$", page, re.M)
    for name in names:
        ended = programs.launch(["explain", name.lower()] if name != "NotBuilt" else ["explain", name])
        if ended.returncode or f"## {ended.stdout.decode()}" not in page or not ended.stdout.startswith(name.encode() + b"\n"):
            yield f"explain {name}: status {ended.returncode}, {ended.stdout}"
    every = programs.launch(["explain"])
    if [line.split()[0] for line in every.stdout.decode().splitlines()] != names:
        yield f"explain: {every.stdout}"
    for words in (["explain", "S99"], ["explain", "S9", "S8"]):
        ended = programs.launch(words)
        if ended.returncode != 2 or ended.stdout or not ended.stderr.startswith(b"usage: "):
            yield f"{words}: status {ended.returncode}, {ended.stdout}, {ended.stderr}"


def test_help_and_version(programs):
    for run in (programs.launch, lambda words: programs.end(words, ["sh", os.path.join(TOP, "hcc")])):
        helped, version = run(["--help"]), run(["--version"])
        if helped.returncode or b"hcc build FILE --edif FILE" not in helped.stdout:
            yield f"--help: status {helped.returncode}, {helped.stdout}"
        if version.returncode or not re.fullmatch(rb"hcc of (commit [0-9a-f]{12}|no known commit)\n", version.stdout):
            yield f"--version: status {version.returncode}, {version.stdout}"


def test_an_installed_compiler_runs_from_any_folder(programs):
    environment = {**os.environ, "HCC_PROGRAM": programs.program}
    prefix = programs.path("a prefix")
    subprocess.run([os.path.join(TOP, "tools", "install"), prefix], env=environment, check=True, timeout=60)
    os.symlink(os.path.join(prefix, "bin", "hcc"), programs.path("link"))
    programs.put("a.hc", SOURCE)
    for program in (os.path.join(prefix, "bin", "hcc"), programs.path("link")):
        ended = programs.end(["check", "a.hc"], [program], explain="1")
        programs.want(ended, 1, REFUSED)
        if b"repair: " not in ended.stderr:
            yield f"{program}: {ended.stderr}"
        if programs.end(["explain", "S9"], [program]).returncode:
            yield f"{program} explain S9 fails"
    used = subprocess.run([os.path.join(TOP, "tools", "install")], capture_output=True, timeout=60)
    if used.returncode != 2:
        raise Failure("tools/install without a folder doesn't end with 2")
