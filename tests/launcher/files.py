"""What becomes of files: sources are kept, and a failure says its file, what was tried and the system's reason."""
import os
import resource
import shutil

from programs import BUILT, Failure, limited

KEPT = b"hcc: %s can't be opened for writing: it was read or written before\n"


def test_a_source_is_kept(programs):
    """By five kinds of names: a path, the absolute path, a symbolic link, a hard link, and a descriptor."""
    programs.put_first()
    source = programs.get("a.hc")
    os.symlink("a.hc", programs.path("soft"))
    os.link(programs.path("a.hc"), programs.path("hard"))
    for name in ("./a.hc", programs.path("a.hc"), "soft", "hard", "/proc/self/fd/0"):
        for run in (programs.end, programs.launch):
            with open(programs.path("a.hc"), "rb") as standard_input:
                ended = run(["build", "a.hc", "--edif", name], stdin=standard_input)
            programs.want(ended, 4, b"", KEPT % name.encode())
            if programs.get("a.hc") != source:
                yield f"the source was changed under the name {name}"
                programs.put("a.hc", source)


def test_a_source_under_another_name_is_kept(programs):
    programs.put_first()
    source = programs.get("a.hc")
    with open(programs.path("a.hc"), "rb") as standard_input:
        ended = programs.end(["build", "/dev/stdin", "--edif", "a.hc"], stdin=standard_input)
    programs.want(ended, 4, b"", KEPT % b"a.hc")
    if programs.get("a.hc") != source:
        yield "the source was changed"


def test_standard_output_is_no_netlist(programs):
    programs.put_first()
    for name, words in (("m", "/dev/stdout"), ("both", "both"), ("n", "/proc/self/fd/1")):
        with open(programs.path(name), "wb") as out:
            ended = programs.end(["build", "a.hc", "--edif", words], stdout=out)
        programs.want(ended, 4, None, b"hcc: %s can't be opened for writing: it is the standard output\n" % words.encode())
        if programs.get(name):
            yield f"something was written into {name}"
    programs.want(programs.end(["build", "a.hc", "--edif", "/dev/stdout"]), 4)


def test_devices_that_keep_nothing_may_be_both(programs):
    programs.put_first()
    with open("/dev/null", "wb") as out:
        programs.want(programs.end(["build", "a.hc", "--edif", "/dev/null"], stdout=out), 0)


def test_an_older_netlist_is_written_anew(programs):
    programs.put_first()
    programs.put("a.edif", b"x" * 100_000)
    programs.want(programs.end(["build", "a.hc", "--edif", "a.edif"]), 0, BUILT, b"")
    programs.want(programs.end(["build", "a.hc", "--edif", "b.edif"]), 0, BUILT, b"")
    if programs.get("a.edif") != programs.get("b.edif"):
        yield "the netlist isn't the same over an older file"


def test_a_failure_says_its_reason(programs):
    programs.put_first()
    os.mkdir(programs.path("folder"))
    for name, tried, reason in (
        (b"no/a.edif", b"opened for writing", b"No such file or directory (os error 2)"),
        (b"folder", b"opened for writing", b"Is a directory (os error 21)"),
        (b"/dev/full", b"written", b"No space left on device (os error 28)"),
    ):
        ended = programs.end([b"build", b"a.hc", b"--edif", name])
        programs.want(ended, 4, b"", b"hcc: %s can't be %s: %s\n" % (name, tried, reason))
    ended = programs.end(["check", "none.hc"])
    programs.want(
        ended, 3, b"read fault: source\n", b"hcc: none.hc can't be opened for reading: No such file or directory (os error 2)\n"
    )


def test_a_failure_of_permission_says_its_reason(programs):
    programs.put_first()
    programs.put("a.edif", b"older")
    os.chmod(programs.path("a.edif"), 0o444)
    shutil.copy(programs.program, programs.path("program"))
    os.chmod(programs.path("program"), 0o755)
    as_another = {"user": 65534, "group": 65534, "extra_groups": []} if os.getuid() == 0 else {}
    ended = programs.end(["build", "a.hc", "--edif", "a.edif"], [programs.path("program")], **as_another)
    programs.want(ended, 4, b"", b"hcc: a.edif can't be opened for writing: Permission denied (os error 13)\n")
    if programs.get("a.edif") != b"older":
        yield "the file was changed"


def test_a_full_standard_output_says_its_reason(programs):
    programs.put_first()
    with open("/dev/full", "wb") as out:
        ended = programs.end(["check", "a.hc"], stdout=out)
    programs.want(ended, 4, None, b"hcc: the standard output can't be written: No space left on device (os error 28)\n")


def test_a_limit_on_files_is_a_write_fault(programs):
    programs.put_first()
    ended = programs.launch(["build", "a.hc", "--edif", "a.edif"], preexec_fn=limited(resource.RLIMIT_FSIZE, 512, 512))
    programs.want(ended, 4, b"", b"hcc: a.edif can't be written: File too large (os error 27)\n")


def test_want_of_memory_is_said(programs):
    programs.put("a.hc", "void main(void) { " + ";" * 900_000 + " }")
    ended = programs.end(["check", "a.hc"], preexec_fn=limited(resource.RLIMIT_AS, 30_000_000, 30_000_000))
    if b"AddressSanitizer" not in ended.stderr:
        programs.want(ended, 5, b"", b"hcc: there wasn't enough memory\n")


def test_a_small_stack_is_said(programs):
    programs.put_first()
    small = 9 * 1024 * 1024
    ended = programs.launch(["check", "a.hc"], preexec_fn=limited(resource.RLIMIT_STACK, small, small))
    said = b"hcc: the stack can't be made 64 MiB large (it has 9216 KiB): sources nested very deep may end in a crash\n"
    programs.want(ended, 0, b"objects 1, weight 344, flip-flops 8\n", said)
    large = 128 * 1024 * 1024
    for soft, hard in ((small, large), (large, large)):
        ended = programs.launch(["check", "a.hc"], preexec_fn=limited(resource.RLIMIT_STACK, soft, hard))
        programs.want(ended, 0, b"objects 1, weight 344, flip-flops 8\n", b"")
