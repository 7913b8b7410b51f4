"""Runs functions of a module in node and of the C file made of it, on the same memories and arguments,
and compares what they answer and leave."""

import re
import shutil
import subprocess
import sys

from tests.harness import TOP, Wrong, holds, said_by
from tests.merge_check.wasm_builder import all_exported
from tests.program import put

sys.path.append(str(TOP / "portable"))
import wasm_module  # noqa: E402  pylint: disable=import-error,wrong-import-position
import wasm_stack  # noqa: E402  pylint: disable=import-error,wrong-import-position
import wasm_to_c  # noqa: E402  pylint: disable=import-error,wrong-import-position

FOLDER = TOP / "tests/portable"
STACK_END = 0x100000
STRICT = ["-Wall", "-Wextra", "-Wconversion", "-Wsign-conversion", "-Wshadow", "-pedantic", "-Werror"]
INCLUDES = [f"-I{TOP}/include", f"-I{TOP}/examples/c", f"-I{FOLDER}", "-I."]


class Case:
    """A call of a function: its arguments, each with its type, the bytes that are put to addresses,
    the seed of all other memory from `low` on, and the globals."""

    def __init__(self, function, arguments, places=(), low=STACK_END - 256, pointer=STACK_END, seed=1, in_call=0):
        self.function, self.arguments, self.places = function, arguments, places
        self.low, self.pointer, self.seed, self.in_call = low, pointer, seed, in_call

    def line(self):
        """The line of it that the two programs read."""
        sizes = {"i32": 4, "i64": 8}
        words = [self.function, self.pointer, self.in_call, self.seed, self.low, len(self.arguments)]
        words += [f"{sizes[valtype]}:{value}" for valtype, value in self.arguments]
        words += [word for at, contents in self.places if contents for word in (at, contents.hex())]
        return " ".join(map(str, words))


def node():
    """How node is called: versions before 24 want a word for 64-bit memories, and later ones know no
    such word."""
    words = ["node", "--experimental-wasm-memory64"]
    how = {"stdin": subprocess.DEVNULL, "capture_output": True, "check": False}
    return words if subprocess.run([*words, "-e", "0"], **how).returncode == 0 else words[:1]


def links(*flags):
    """Whether the compiler links programs with these flags."""
    put("probe.c", b"int main(void) { return 0; }\n")
    how = {"stdin": subprocess.DEVNULL, "capture_output": True, "check": False}
    return subprocess.run(["cc", *flags, "probe.c", "-o", "probe"], **how).returncode == 0


def calls(module):
    """C that calls a function by its number."""
    lines = ["static uint64_t call_function(struct machine *m, unsigned function, const uint64_t *a) {", "    switch (function) {"]
    for at, function in enumerate(module.functions):
        words = ["m", *(f"(uint32_t)a[{k}]" if it == "i32" else f"a[{k}]" for k, it in enumerate(function.parameters))]
        call = f"{wasm_to_c.c_name(at, function.name)}({', '.join(words)})"
        lines.append(f"    case {at}: {'return ' if function.results else ''}{call};{'' if function.results else ' return 0;'}")
    return "\n".join([*lines, "    default: return 0;", "    }", "}", ""])


def build(contents, text, *flags):
    """Builds `module.wasm` and `functions` of a module and of the C file made of it, which checks all
    that it can, so that it traps just where WebAssembly does."""
    module = wasm_module.Module(contents)
    put("module.wasm", all_exported(contents, len(module.functions)))
    enlarged, count = re.subn(r"(?m)^#define STACK_BYTES \d+$", f"#define STACK_BYTES {STACK_END}", text)
    holds(count == 1, "the file has not one line with STACK_BYTES")
    put("machine.c", enlarged.encode())
    put("calls.h", calls(module).encode())
    said_by("cc", "-std=c11", "-DLMS_CHECK_CALLER", *flags, *INCLUDES, FOLDER / "functions.c", "-o", "functions")


def compare(cases):
    """Node and C say the same of each case. How many cases trapped."""
    put("cases", "".join(f"{it.line()}\n" for it in cases).encode())
    with open("cases", encoding="utf-8") as file:
        there = said_by(*node(), FOLDER / "functions.mjs", "module.wasm", stdin=file).splitlines()
    with open("cases", encoding="utf-8") as file:
        here = said_by("./functions", stdin=file).splitlines()
    holds(len(here) == len(there) == len(cases), f"{len(cases)} cases, {len(there)} answers of node and {len(here)} in C")
    for case, one, other in zip(cases, there, here):
        if one != other:
            raise Wrong(f"{case.line()[:300]}: node {one}, C {other}")
    return there.count("trap")


def has_node():
    """Node is there."""
    return shutil.which("node") is not None
