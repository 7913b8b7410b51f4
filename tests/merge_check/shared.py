"""The shared library of the verifier, as `lms_c --shared` builds it: what is in its files, which of them is
loaded on which processor, here and in an emulator, and programs in C that call it, by threads and sanitizers,
too. `c`, `published` and `bindings` judge more by it. What needs a tool that is not there is skipped."""

import os
import pathlib
import re
import shutil
import subprocess

from tests.harness import TOP, Skipped, add_test, holds, test
from tests.merge_check.c_programs import EXAMPLE, EXAMPLES, INCLUDES, LEVELS_OF, SHARED, WARNINGS, gives, install, levels_here, library_for, said_by
from tests.merge_check.emulator import EMULATOR, LIBRARIES, what_is_missing
from tests.merge_check.packages import VERSION
from tests.merge_check.portable_vectors import LONGEST, empty_message, signed
from tests.merge_check.wasm_functions import links
from tests.program import CROSS_COMPILER, put, read

TWO_LEVELS = [str(EXAMPLES / name) for name in ("c/two_levels.pub", "firmware.bin", "c/two_levels.sig")]
CALLS = ["lms_message_head", "lms_verify", "lms_verify_hash", "lms_verify_pieces"]
# The newest version of glibc whose functions it may ask for.
GLIBC = (2, 17)
# The bytes of stack that docs/C.md says, of x86-64.
MOST_STACK = 20 * 1024
# Processors of the emulator, the first without SSSE3, the second without AVX2, and what is loaded on each.
EMULATED = {"qemu64": "x86-64", "Nehalem": "x86-64-v2", "Haswell-noTSX": "x86-64-v3"}
STATIC = ["-static", "-O2", EXAMPLES / "c/verify.c", "-o", "static"]


def is_as_it_should_be(processor):
    """It has the four calls and a soname, asks for functions of memory of the C library alone, and has no
    segment that may be written and run, nor data that stay writable."""
    said = said_by("readelf", "-lWd", "--dyn-syms", library_for(processor))
    symbols = [line.split() for line in said.splitlines() if re.match(r" +\d+: [0-9a-f]+ ", line)]
    defined = sorted(it[7] for it in symbols if it[6] not in ("UND", "Ndx") and it[3] == "FUNC" and it[5] == "DEFAULT")
    asked = {it[7].partition("@")[0] for it in symbols if it[6] == "UND" and len(it) > 7}
    others = [it for it in symbols if it[6] != "UND" and (it[3] != "FUNC" or it[4] != "GLOBAL")]
    holds(defined == CALLS and not others, f"its symbols are {symbols}")
    holds(asked <= {"memcpy", "memmove", "memset"}, f"it asks for {asked}")
    versions = [tuple(map(int, it.split("."))) for it in re.findall(r"@GLIBC_([\d.]+)", said)]
    holds(all(it[:2] <= GLIBC for it in versions), f"it asks for functions of {versions}")
    holds("Library soname: [liblms.so.1]" in said, "it has no soname, or another one")
    holds(re.findall(r"NEEDED\).*\[(.*)\]", said) == ["libc.so.6"], "it needs other libraries")
    flags = re.findall(r"(?m)^  (\w+) +0x\S+ 0x\S+ 0x\S+ 0x\S+ 0x\S+ ([RWE ]{3}) ", said)
    holds(flags and not any("W" in it and "E" in it for _, it in flags), f"its segments are {flags}")
    holds(("GNU_STACK", "RW ") in flags and "BIND_NOW" in said and "TEXTREL" not in said, "its stack or its calls may be changed")
    holds(any(it == "GNU_RELRO" for it, _ in flags), f"what the loader has written stays writable: {flags}")
    sections = re.findall(r"(?m)^   \d+ +(.*)$", said)
    holds(sections and not re.search(r"\.(data|bss)\b", " ".join(sections)), f"it has data to write: {sections}")


for name in LEVELS_OF:
    add_test(f"has four calls and nothing to write, {name}", is_as_it_should_be, name)


def build_caller(*flags, compiler="cc", library="installed/lib"):
    """The program that calls the symbols of the library in this folder. (Where its code may not lie anywhere, the
    address of a symbol may be one of its own.)"""
    anywhere, link = ["-fPIE", "-pie"], [f"-L{library}", "-llms"]
    said_by(compiler, "-std=c11", "-O2", *WARNINGS, "-pthread", *anywhere, *flags, *INCLUDES, TOP / "tests/c/shared.c", *link, "-o", "caller")


def calls(verdict, level, files, *emulator, **more):
    """The program finds this verdict on these files, by the library for that processor."""
    loaded = os.path.abspath("installed/lib") + (f"/glibc-hwcaps/{level}" if level in ("x86-64-v2", "x86-64-v3") else "")
    words = [*emulator, "./caller", *files]
    environment = {**os.environ, "LD_LIBRARY_PATH": os.path.abspath("installed/lib"), **more}
    script = 'out=$("$@"); status=$?; echo "$out"; exit $((status > 1 ? status : 0))'
    said = said_by("sh", "-c", script, "sh", *words, env=environment)
    holds(said.splitlines()[-2:] == [f"{loaded}/liblms.so.1", verdict], f"{words}: {said}")


def changed_signature():
    """The example's files, with another signature."""
    contents = bytearray(pathlib.Path(EXAMPLE[2]).read_bytes())
    contents[-1] ^= 1
    pathlib.Path("changed").write_bytes(contents)
    return [*EXAMPLE[:2], "changed"]


@test
def is_loaded_here_for_this_processor():
    install()
    build_caller()
    for files, verdict in ((EXAMPLE, "valid"), (TWO_LEVELS, "valid"), (empty_message(), "valid"), (changed_signature(), "invalid")):
        calls(verdict, levels_here()[-1], files)


def is_loaded_in_the_emulator(processor, level):
    """On this processor, which the emulator is, the library for that one is loaded."""
    if not shutil.which("qemu-x86_64"):
        raise Skipped("there is no qemu-x86_64: Debian's qemu-user has it")
    emulator = ["qemu-x86_64", "-cpu", processor]
    if level not in levels_here(*emulator):
        raise Skipped(f"the loader does not take the emulator's {processor} for {level}")
    install()
    build_caller()
    calls("valid", level, EXAMPLE, *emulator)


for name, wanted in EMULATED.items():
    add_test(f"is loaded in the emulator as {name}", is_loaded_in_the_emulator, name, wanted)


@test
def is_called_on_aarch64():
    library = library_for("aarch64")
    if why := what_is_missing():
        raise Skipped(why)
    os.makedirs("installed/lib")
    shutil.copy(library, "installed/lib")
    os.symlink("liblms.so.1", "installed/lib/liblms.so")
    build_caller(compiler=CROSS_COMPILER[0])
    calls("valid", "aarch64", TWO_LEVELS, *EMULATOR, "-E", f"LD_LIBRARY_PATH={os.path.abspath('installed/lib')}:{LIBRARIES}/lib")


def ends_well(*words):
    """Whether a command is there and ends with 0."""
    return bool(shutil.which(words[0])) and subprocess.run(words, stdin=subprocess.DEVNULL, capture_output=True, check=False).returncode == 0


def is_called_with(sanitizers):
    """Sanitizers find nothing in a program that calls it, by threads, too. (That of threads in gcc 12 wants
    addresses less random than newer kernels have them.)"""
    flags = [f"-fsanitize={sanitizers}", "-fno-sanitize-recover=all"]
    alike = ["setarch", "-R"] if ends_well("setarch", "-R", "true") else []
    if not links(*flags) or not ends_well(*alike, "./probe"):
        raise Skipped(f"an empty program with sanitizers of {sanitizers} does not link or run")
    install()
    build_caller("-g", *flags)
    for files, verdict in ((TWO_LEVELS, "valid"), (empty_message(), "valid"), (changed_signature(), "invalid")):
        calls(verdict, levels_here()[-1], files, *alike)


for name in ("address,undefined", "thread"):
    add_test(f"is called with sanitizers of {name}", is_called_with, name)


@test
def takes_no_more_stack_than_is_said():
    """Over the examples, and over the longest signature, which has the most chains."""
    longest = signed(LONGEST, [2**25 - 1] * len(LONGEST), read(EXAMPLE[1]))
    for name, contents in zip(("longest.pub", "message", "longest.sig"), longest):
        put(name, contents)
    for level in levels_here():
        words = [TOP / "tests/c/stack.c", library_for(level), f"-Wl,-rpath,{SHARED / level}", "-o", "stack"]
        said_by("cc", "-std=c11", "-O2", *INCLUDES, *words)
        taken = int(said_by("./stack", *EXAMPLE, *TWO_LEVELS, "longest.pub", "message", "longest.sig"))
        print(f"{level}: {taken} bytes of stack", flush=True)
        holds(taken <= MOST_STACK, f"{level}: takes {taken} bytes of {MOST_STACK}")


def said_by_pkg_config(*words):
    """What pkg-config says of the library in a folder as the tarball has it, where all files are those that
    were built."""
    if not shutil.which("pkg-config"):
        raise Skipped("there is no pkg-config")
    install()
    named = {**os.environ, "PKG_CONFIG_PATH": os.path.abspath("installed/lib/pkgconfig")}
    holds(said_by("pkg-config", "--modversion", "lms", env=named) == f"{VERSION}\n", "it has another version")
    return said_by("pkg-config", *words, "--cflags", "--libs", "lms", env=named).split()


@test
def pkg_config_gives_it():
    said_by("cc", "-O2", EXAMPLES / "c/verify.c", "-o", "shared", *said_by_pkg_config())
    holds("Shared library: [liblms.so.1]" in said_by("readelf", "-d", "shared"), "the program does not name the shared library")
    gives("valid", "env", f"LD_LIBRARY_PATH={os.path.abspath('installed/lib')}", "./shared", *EXAMPLE)


@test
def pkg_config_gives_the_archive():
    if not links("-static"):
        raise Skipped("no program links with -static, as where there is no static C library")
    said_by("cc", *STATIC, *said_by_pkg_config("--static"))
    gives("valid", "./static", *EXAMPLE)
