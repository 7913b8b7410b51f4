"""The program for aarch64, in an emulator, and the C functions that it is linked with.

The functions are compiled by each compiler that there is here, and tried on this computer, by
sanitizers, too, and in the emulator. The program is built where it is not there, or older than a
source, over the libraries that `rt ci` leaves. Then tests of the common program are run over it,
which `by_hand/aarch64_whole.py` does with all of them. What needs the emulator or the compiler for
aarch64 is skipped where that is not there."""

import os
import re
import shutil
import subprocess

from tests.harness import TOP, Skipped, checks, holds, said_by
from tests.merge_check.crates import libraries_of, take_left
from tests.merge_check.emulator import ARM, EMULATOR, passes, skip_where_missing
from tests.merge_check.wasm_functions import links
from tests.program import CROSS_COMPILER

FUNCTIONS = TOP / "runtime/aarch64"
FLAGS = ["-std=c11", "-O2", "-Wall", "-Wextra", "-Werror", "-pedantic", f"-I{FUNCTIONS}"]
SANITIZERS = ["-fsanitize=address,undefined", "-fno-sanitize-recover=all"]
# The longest argument that Linux takes, without its end.
LONGEST = 32 * os.sysconf("SC_PAGE_SIZE") - 1
ARGUMENTS = [[], ["", "a", "\u00e9 \u4e16", "x" * 1000], ["-", "x" * LONGEST]]
# The C library that docs and packages ask for.
GLIBC = (2, 34)
# What is run over the program here: of these modules, in less than a minute, the tests with this in
# their names, or all.
QUICK = {
    "vectors": [""],
    "help_texts": [""],
    "states": ["makes_a_key", "finds_no_memory", "refuses_bad_states"],
    "closed_streams": ["streams:_0_1_2", "each_status"],
    "kept_nodes": ["what_was_kept", "in_place_of_a_draft"],
    "locks": ["until_all_is_printed"],
    "job_lines": ["over_the_end", "as_many_threads"],
    "serve": ["each_line_at_once"],
    "file_steps": ["info,_each_operation"],
    "refused_requests": ["verify"],
}


def compile_functions(name, *compiler):
    """A program of this name that tries the functions."""
    files = [TOP / "tests/c/runtime.c", *(FUNCTIONS / it for it in ("heap.c", "errors.c"))]
    said_by(*compiler, *FLAGS, *files, "-o", name)


def try_functions(*words, again=False):
    """It finds them right, with no argument but its name and with the longest; and started by none,
    where it can start itself."""
    # (Sanitizers hold a refusal for a mistake.)
    how = {**os.environ, "ASAN_OPTIONS": "allocator_may_return_null=1"}
    for arguments in ARGUMENTS:
        said = said_by(*words, *arguments, env=how)
        holds(said == f"{len(arguments) + 1} arguments\n", f"it says {said!r}")
    if again:
        # (Linux hands over an empty name then, since version 5.18.)
        holds(said_by(*words, env={**how, "AGAIN": "1"}) in ("0 arguments\n", "1 arguments\n"), "other arguments")


def functions_here(compiler, *flags):
    """The functions, compiled by a compiler of this computer."""
    if not shutil.which(compiler):
        raise Skipped(f"there is no {compiler}")
    if flags and not links(*flags):
        raise Skipped(f"{compiler} links no program with {' '.join(flags)}")
    compile_functions("here", compiler, *flags)
    try_functions("./here", again=not flags)


def another_c_library():
    """The file of arguments is not compiled where uClibc says that it is glibc."""
    ran = subprocess.run(["cc", *FLAGS, "-D__UCLIBC__", "-fsyntax-only", FUNCTIONS / "arguments.c"], check=False, capture_output=True, text=True)
    holds(ran.returncode and "no other C library" in ran.stderr, f"it ended with {ran.returncode}: {ran.stderr}")


def functions_on_aarch64():
    skip_where_missing()
    compile_functions("there", *CROSS_COMPILER)
    try_functions(*EMULATOR, "./there")


def is_built():
    """The program is there. What `rt ci` has left is proved already."""
    skip_where_missing()
    if not shutil.which("rt"):
        holds(ARM.exists(), "there is neither program nor toolchain")
        return
    take_left(libraries_of("lms_tool"))
    said_by(TOP / "lms_tool", "build", "aarch64", stderr=subprocess.STDOUT)


def is_hardened():
    """It can lie at any address, and nothing that it runs or is linked by can be written. It asks for
    glibc alone, and for no newer one than is said."""
    said = said_by("readelf", "-hldVW", ARM)
    for wanted in (r"Machine: +AArch64", r"Type: +DYN", r"\(FLAGS_1\) +Flags: NOW PIE", r"GNU_RELRO", r"GNU_STACK .* RW +0x"):
        holds(re.search(wanted, said), f"no {wanted} in\n{said}")
    holds("TEXTREL" not in said and not re.search(r"LOAD .* RWE ", said), "code can be written")
    needed = set(re.findall(r"\(NEEDED\) +Shared library: \[(.*)\]", said))
    holds("libc.so.6" in needed <= {"libc.so.6", "ld-linux-aarch64.so.1"}, f"it needs {needed}")
    newest = max(tuple(map(int, it.split("."))) for it in re.findall(r"Name: GLIBC_([0-9.]+)", said))
    holds(newest <= GLIBC, f"it asks for glibc {newest}")


@checks
def the_program_for_aarch64(counter):
    for compiler in ("cc", "gcc", "clang"):
        counter.check(f"the C functions by {compiler}", functions_here, compiler)
    counter.check("the C functions by sanitizers", functions_here, "cc", *SANITIZERS)
    counter.check("another C library is refused", another_c_library)
    counter.check("the C functions in the emulator", functions_on_aarch64)
    if counter.check("the program is built", is_built):
        counter.check("the program is hardened", is_hardened)
        for name, parts in QUICK.items():
            counter.check(f"{name} by the program", passes, *(f"{name}:{part}" for part in parts))
