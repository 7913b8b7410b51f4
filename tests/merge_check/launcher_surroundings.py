"""What the program finds that the script `lms_tool` becomes, over stand-ins, for the module `launcher`: its
input, of each kind, and all else, as it was for the script. And what the script does not take: tools out
of the repository, and variables of the environment."""

import contextlib
import os
import pty
import re
import shutil
import socket

from tests.harness import TOP
from tests.merge_check.stand_ins import (
    ARM, COMMON, FAST, LINKER, SOME, StandIns, builds, is_program, runs, runs_again,
)

INPUT = b"input\n"
# What ends the input on a terminal.
END = b"\x04"
# The tools of the script, but for the shell.
TOOLS = ["rt", "setsid", "env", "mktemp", "dirname", "find", "head", "tail", "grep", "sed", "awk", "tr", "wc", "cmp", "cp"]
TOOLS += ["mv", "rm", "mkdir", "touch", "cat", "sleep", "python3", LINKER]
# What the script may take from the environment, and what its shell says of a language that it does not have.
TAKEN = {"PATH", "HOME", "TMPDIR", "CC_AARCH64", "LC_ALL"}
# What a program finds: its mask, limits, folder, signals and rights, its files, and its environment.
REPORTS = """[ "$*" != --help ] || exit 0
exec 2>/dev/null
report={0}/report
umask >"$report"
ulimit -a >>"$report"
readlink "/proc/$$/cwd" >>"$report"
grep -E '^(SigIgn|Cap...|NoNewPrivs|Groups):' "/proc/$$/status" >>"$report"
for number in 0 1 3 4 5 6 7 8 9; do
    readlink "/proc/$$/fd/$number" >>"$report" || echo none >>"$report"
done
env >>"$report"
"""
# What shells set, and numbers of pipes.
OTHERS = re.compile(r"(?m)^(_|SHLVL|PWD|OLDPWD)=.*|(?<=^pipe:)\[\d+\]")
# What is set before the script is started, by a shell.
SETTINGS = [
    "umask 000; cd /",
    "umask 077; exec <&- >&-",
    "umask 027; ulimit -n 64; ulimit -c 0; exec 7<text 9>&1",
    "umask 022; trap '' HUP INT QUIT PIPE TERM USR1; export MALLOC_ARENA_MAX=1 SOME='a b'",
]


def found_by(it, program, by):
    """The lines of what the program that reports finds where this one is started by these words."""
    it.write("report", "")
    it.start("sign", by=by, program=program)
    return OTHERS.sub("", it.has("report")).splitlines()


def finds_all_as_it_was(is_built):
    """The program finds what it would where it were started in place of the script."""
    with StandIns(is_built) as it:
        it.write("text", "abc")
        for name in ("fast", *[os.path.relpath(it.fast, it.top)] * is_built):
            it.script(name, REPORTS.format(it.top))
        for setting in SETTINGS:
            by = ["sh", "-c", f'{setting}; exec "$0" "$@"']
            wanted, found = found_by(it, "fast", by), found_by(it, "lms_tool", by)
            others = sorted({*wanted} ^ {*found})
            it.holds(found and found == wanted, f"after {setting} there are other lines: {others}")
            if not is_built:
                os.remove(it.fast)


def terminal(stack):
    """A terminal on which the input was typed."""
    master, slave = pty.openpty()
    stack.callback(os.close, master)
    stack.callback(os.close, slave)
    os.write(master, INPUT + END)
    return slave


def pipe(stack):
    """A pipe with the input."""
    reader, writer = os.pipe()
    stack.callback(os.close, reader)
    os.write(writer, INPUT)
    os.close(writer)
    return reader


def connection(stack):
    """A socket with the input."""
    here, there = socket.socketpair()
    stack.enter_context(here)
    stack.enter_context(there)
    here.sendall(INPUT)
    here.shutdown(socket.SHUT_WR)
    return there.fileno()


def passes_the_input_on(kind, is_built):
    """The program reads an input of this kind."""
    with StandIns(is_built) as it, contextlib.ExitStack() as stack:
        it.start(*SOME, stdin=kind(stack))
        it.ran("old_fast" if is_built else "fast", *SOME)


def takes_no_tool_of_the_repository():
    """Programs by the names of tools, in the folder of the script, where it is started, and in bin/ there are
    left alone."""
    with StandIns(False) as it:
        os.makedirs(f"{it.top}/bin")
        for name in TOOLS:
            for folder in (".", "bin"):
                it.script(f"{folder}/{name}", f'echo "$0" >>"{it.top}/taken"\nexit 99\n')
        runs(it, "fast")
        it.asked_to_build(FAST)
        it.forget()
        builds(it, "all")
        it.asked_to_build(COMMON, ARM)
        is_program(it, it.arm, "arm")
        runs_again(it, "fast")
        it.holds(not it.has("taken"), f"it took {it.has('taken')}")


def works_without_the_kit():
    """Where `rt` is not there each script says so in a line, makes nothing and leaves nothing; a program that is
    built runs."""
    with StandIns() as it:
        os.makedirs(f"{it.top}/few")
        for name in {*TOOLS, "sh", "dpkg-deb", "tar", "gzip", "cc", "nm", "size"} - {"rt", LINKER}:
            os.symlink(shutil.which(name), f"{it.top}/few/{name}")
        few = ["env", f"PATH={it.top}/few"]
        it.start(*SOME, by=few)
        it.ran("old_fast", *SOME)
        os.remove(it.fast)
        os.remove(it.common)
        scripts = [(f"{it.top}/lms_tool", words) for words in (SOME, ["--help"], ["verify"], ["build"], ["build", "both"])]
        for script, words in [*scripts, (TOP / "lms_c", []), (TOP / "lms_c", ["--portable", "folder"]), (TOP / "release", ["folder"])]:
            it.start(*words, by=few, program=os.path.relpath(script, it.top))
            wanted = f"{os.path.basename(script)}: there is no rt on the PATH, of Rattle's kit, which proves and builds this; "
            it.holds((it.status, it.output) == (70, "") and it.errors == f"{wanted}the packages need nothing of it\n", f"{script} {words}")
            it.holds(not os.path.exists("folder"), "something is made")


def no_variable_misleads_it(is_built):
    """Each word of the script is a variable of the environment, which names another program, too."""
    words = set(re.findall(r"[A-Za-z_]\w*", (TOP / "lms_tool").read_text(encoding="utf-8"))) - TAKEN
    with StandIns(is_built) as it:
        it.script("another", f'echo "$0" >>"{it.top}/taken"\nexit 99\n')
        by = ["env", *(f"{word}={it.top}/another" for word in sorted(words))]
        it.start(*SOME, by=by)
        it.ran("old_fast" if is_built else "fast", *SOME)
        it.forget()
        it.start("build", "all", by=by)
        it.holds(it.status == 0 and not it.output, "not just built")
        it.asked_to_build(*[COMMON] * (not is_built), ARM)
        is_program(it, it.arm, "arm")
        it.holds(not it.has("taken"), f"it took {it.has('taken')}")


CHECKS = [("takes no tool of the repository", takes_no_tool_of_the_repository)]
CHECKS.append(("works without the kit, or says that it is missing", works_without_the_kit))
for is_there in (True, False):
    SUFFIX = "is there" if is_there else "is built first"
    CHECKS.append((f"a program that {SUFFIX} finds all as it was", finds_all_as_it_was, is_there))
    CHECKS.append((f"no variable misleads the script, a program that {SUFFIX}", no_variable_misleads_it, is_there))
    for what in (terminal, pipe, connection):
        NAMED = f"passes the input on, a {what.__name__}, a program that {SUFFIX}"
        CHECKS.append((NAMED, passes_the_input_on, what, is_there))
