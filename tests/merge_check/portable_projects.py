"""The portable file in projects that compile it: beside other headers than C's, by its own names, and as
docs/C.md shows it. (What is checked here is of the module `portable`.)"""

import re

from tests.harness import TOP, blocks_of, holds, said_by
from tests.merge_check.portable_targets import CHECKED, FILE, HERE, HOSTED, MODES, keeps_bounds
from tests.merge_check.wasm_functions import FOLDER, INCLUDES, STRICT
from tests.program import put

# The types of U-Boot and Linux, in a header that stands for theirs, and what they warn of.
KERNEL = ["-std=gnu11", "-nostdinc", f"-I{FOLDER}/kernel", '-DLMS_TYPES="linux/types.h"']
KERNEL_WARNINGS = ["-Wundef", "-Wstrict-prototypes", "-Wmissing-prototypes", "-Wdeclaration-after-statement", "-Wvla"]
# What `#if` takes as 64 bits on each processor.
LYING = b"#include <stdbool.h>\n#include <stddef.h>\n#include <stdint.h>\n#undef UINTPTR_MAX\n#define UINTPTR_MAX (~0UL)\n"
CALLS = ["lms_message_head", "lms_verify", "lms_verify_hash", "lms_verify_pieces"]
# What the examples of docs/C.md say, by what the four calls answer.
SAYS = {"1111": "valid, signed", "0010": "not valid, not signed", "0000": "malformed, not signed"}
LOADER = TOP / "examples/cortex-m/loader.c"


def judges_in_kernel(target, mode, answers):
    """It is compiled by U-Boot's and Linux's types and warnings, silently, to as many bytes as ever, and answers as ever."""
    target.skip_where_missing()
    words = ["-Os", *STRICT, *MODES[mode], f"-I{TOP}/include", "-c", FILE, "-o", "lms_verify.o"]
    sizes = []
    for more in (["-std=gnu11"], [*KERNEL, *KERNEL_WARNINGS]):
        said_by(*target.compiler, *more, *words)
        sizes.append(said_by("size", "lms_verify.o").splitlines()[-1].split()[0])
    holds(sizes[0] == sizes[1], f"{sizes[1]} bytes in place of {sizes[0]}")
    target.link("judge.c", answers.include)
    answers.check(target.run())


def keeps_bounds_by_sizeof(target, mode):
    """A project's UINTPTR_MAX says nothing of pointers."""
    put("lying.h", LYING)
    keeps_bounds(target, mode, FILE.read_text(encoding="utf-8"), '-DLMS_TYPES="lying.h"')


def calls_by_name():
    """With LMS_PORTABLE the names are those of the file's functions, and nothing stands between."""
    table = ", ".join(f"(any *){it}" for it in CALLS)
    put("names.c", f'#include "lms.h"\ntypedef void any(void);\nany *const calls[] = {{{table}}};\n'.encode())
    said_by("cc", "-std=c99", "-DLMS_PORTABLE", *INCLUDES, "-c", "names.c", "-o", "names.o")
    names = sorted(line.split()[-1] for line in said_by("nm", "names.o").splitlines())
    holds(names == ["calls", *CALLS], f"it names {names}")


def is_as_documented(answers):
    """The examples of docs/C.md say what the four calls answer; those of a loader are that loader's."""
    loader, examples = LOADER.read_text(encoding="utf-8"), []
    for block in blocks_of("docs/C.md", "c"):
        if block not in loader:
            examples.append(block)
    put("documented.h", "\n".join(examples).encode())
    HERE.compile("checked", "-O2")
    HERE.link("documented.c", answers.include)
    wanted = [re.sub(r" ([01]{4}) .*", lambda found: f" {SAYS[found[1]]}", line) for line in answers.lines]
    holds(HERE.run().splitlines() == wanted, "the examples of docs/C.md say something else")


def judges_projects(counter, few):
    """What projects ask of the file."""
    for target in (HERE, HOSTED[0]):
        for mode in MODES:
            counter.check(f"by U-Boot's and Linux's types, {target.name}, {mode}", judges_in_kernel, target, mode, few)
    for mode in CHECKED:
        counter.check(f"its bounds by another UINTPTR_MAX, {mode}", keeps_bounds_by_sizeof, HOSTED[0], mode)
    counter.check("its names are those of its functions", calls_by_name)
    counter.check("the examples of docs/C.md", is_as_documented, few)
