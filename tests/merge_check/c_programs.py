"""Programs in C over a verifier, the library that lms_c builds or the C file, and what they say of files."""

import os
import shutil
import subprocess

from tests import harness
from tests.harness import TOP, Skipped, holds

EXAMPLES = TOP / "examples"
# A public key, a message, and its signature.
EXAMPLE = [EXAMPLES / name for name in ("release.pub", "firmware.bin", "firmware.sig")]
LIBRARY = TOP / "crates/lms_c/out/liblms_c.a"
# Where the shared library is, by the processors that it is built for.
SHARED = TOP / "crates/lms_c_lanes/out/shared"
LEVELS_OF = ["x86-64", "x86-64-v2", "x86-64-v3", "aarch64"]
LOADER = "/lib64/ld-linux-x86-64.so.2"
INCLUDES = [f"-I{TOP}/include", f"-I{EXAMPLES}/c"]
WARNINGS = ["-Wall", "-Wextra", "-pedantic", "-Werror"]
# Compilers that take a source as one of the language, whatever its name.
C, CPLUSPLUS = ["cc", "-std=c99", "-x", "c"], ["g++", "-std=c++11", "-x", "c++"]


def said_by(*words, **how):
    """What a command prints to its two streams, which must end well."""
    return harness.said_by(*words, stderr=subprocess.STDOUT, **how)


def gives(verdict, *words):
    """A program prints this verdict, and ends with its status."""
    ran = subprocess.run(words, stdin=subprocess.DEVNULL, capture_output=True, text=True, check=False)
    wanted = (["valid", "invalid"].index(verdict), f"{verdict}\n")
    holds((ran.returncode, ran.stdout) == wanted, f"{words[0]}: {ran.returncode} {ran.stdout!r} {ran.stderr!r}, not {verdict}")


def levels_here(*emulator):
    """Those of x86-64 that the loader of the C library finds this processor, or that of an emulator, to be, the
    last one first tried. Where there is no such loader, or it can't run, a check is skipped."""
    if not os.path.exists(LOADER):
        raise Skipped(f"there is no {LOADER}")
    words = [*emulator, LOADER, "--help"]
    ran = subprocess.run(words, stdin=subprocess.DEVNULL, capture_output=True, text=True, check=False)
    if ran.returncode:
        raise Skipped(f"{' '.join(words)} ended with {ran.returncode}")
    return ["x86-64", *(it for it in LEVELS_OF[1:3] if f"{it} (supported" in ran.stdout)]


def library_for(processor):
    """The shared library for a processor, which has to be built."""
    file = SHARED / processor / "liblms.so.1"
    if not file.exists():
        raise Skipped(f"{file.relative_to(TOP)} is not built")
    return file


def install():
    """A folder with the libraries for x86-64 as the tarball has them, and what programs are built with."""
    for name, place in {"x86-64": ".", "x86-64-v2": "glibc-hwcaps/x86-64-v2", "x86-64-v3": "glibc-hwcaps/x86-64-v3"}.items():
        os.makedirs(f"installed/lib/{place}", exist_ok=True)
        shutil.copy(library_for(name), f"installed/lib/{place}")
    os.symlink("liblms.so.1", "installed/lib/liblms.so")
    shutil.copy(SHARED / "x86-64/liblms.a", "installed/lib")
    for name, place in (("lms.h", "include"), ("lms.pc", "lib/pkgconfig")):
        os.makedirs(f"installed/{place}")
        shutil.copy(TOP / "include" / name, f"installed/{place}")


def build(verifier, source, program, *flags):
    """A program of this source, with a verifier."""
    build_by(C, source, program, *flags, verifier)


def build_by(compiler, source, program, *more):
    """The same by one of these compilers, of which that for C has to be there."""
    if compiler is CPLUSPLUS and not shutil.which("g++"):
        raise Skipped("there is no g++")
    said_by(*compiler, "-O2", *WARNINGS, *INCLUDES, source, "-x", "none", *more, "-o", program)
