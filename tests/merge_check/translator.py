"""The translator of portable/: each instruction that it knows, alone and among others, against node's
own WebAssembly, on numbers at the edges; what its template reaches; how much stack it finds calls to
need; and modules that it has to refuse, each with what it says."""

from tests.harness import Skipped, Wrong, checks, holds, said_by
from tests.merge_check import wasm_functions
from tests.merge_check.portable_targets import CHECKED, HERE, keeps_bounds
from tests.merge_check.refused_modules import ENDS, REFUSED, refused_instructions, with_frames
from tests.merge_check.small_functions import all_functions, cases_of, module_of, seen_instructions
from tests.merge_check.wasm_builder import KNOWN
from tests.merge_check.wasm_functions import INCLUDES, TOP, build, compare, has_node, links, wasm_module, wasm_to_c
from tests.program import put

TEMPLATE = (TOP / "portable/lms_verify.c.in").read_text(encoding="utf-8")
OTHER_END = 0x20000
# (No -Wextra: the small functions leave parameters unused.)
WELL_FORMED = ["-std=c99", "-pedantic", "-Wconversion", "-Wsign-conversion", "-Werror"]
UNDEFINED = ["-fsanitize=undefined", "-fno-sanitize-recover=all"]
# What the place for the head takes of the stack.
HEAD = 64
# The frames of the four calls, in the order of lms.h, and how much stack the deepest one needs.
NEEDS = {
    (0, 0, 0, 0): HEAD,
    (64, 80, 16, 48): 16 + HEAD,
    (64, 80, 32, 48): 32 + HEAD,
    (96, 80, 16, 48): 96,
    (64, 112, 32, 48): 112,
    (64, 80, 48, 128): 128,
    (0, 0, ENDS[0] - HEAD, 0): ENDS[0],
}


def translated(functions):
    """The module of these functions, and the C file of it."""
    module = module_of(functions, wasm_functions.STACK_END)
    return module, wasm_to_c.c_file(module, module_of(functions, OTHER_END), TEMPLATE)


def knows_all(functions):
    """Each instruction that is translated is in one of the functions."""
    missing = set(KNOWN) - seen_instructions(functions)
    holds(not missing, f"no function has {' '.join(sorted(missing))}")


def is_well_formed(functions):
    """The C file is what a strict compiler takes."""
    put("small.c", translated(functions)[1].encode())
    said_by("cc", *WELL_FORMED, *INCLUDES, "-c", "small.c", "-o", "small.o")


def is_as_in_node(functions):
    """All functions answer and leave in C what they do in node."""
    if not has_node():
        raise Skipped("there is no node")
    build(*translated(functions), *(UNDEFINED if links(*UNDEFINED) else []))
    cases = cases_of(functions)
    traps = compare(cases)
    print(f"{len(functions)} functions, {len(cases)} calls, {traps} of them traps", flush=True)


def has_bounds(mode, functions):
    """What the template has for memory reaches all that it may, and nothing else."""
    keeps_bounds(HERE, mode, translated(functions)[1])


@checks
def instructions(counter):
    functions = all_functions()
    counter.check("each instruction is tried", knows_all, functions)
    counter.check("the C is well-formed", is_well_formed, functions)
    counter.check("all are as in node", is_as_in_node, functions)
    for mode in CHECKED:
        counter.check(f"the template's bounds, {mode}", has_bounds, mode, functions)


def is_refused(modules, says):
    """The translator refuses these modules, the same with two sizes of stack, and says so."""
    try:
        wasm_to_c.c_file(*modules, TEMPLATE)
    except wasm_module.Refused as why:
        holds(says in str(why), f"it says: {why}")
    else:
        raise Wrong("it is translated")


def instructions_are_refused():
    """No other instruction is translated."""
    for name, modules in refused_instructions():
        is_refused(modules, f"the instruction {name}, which no module of ours has")


def counts_stack(frames, needed):
    """The stack is as large as the deepest call needs it, the place for the head counted."""
    line = f"#define STACK_BYTES {needed}\n"
    holds(line in wasm_to_c.c_file(*with_frames(frames), TEMPLATE), f"it has not the line {line}")


@checks
def stacks(counter):
    for frames, needed in NEEDS.items():
        counter.check(f"the stack of frames of {' '.join(map(str, frames))} bytes", counts_stack, frames, needed)
    says = f"lms_message_head needs {ENDS[0] + 16} bytes of stack, and there are {ENDS[0]}"
    counter.check("a head that is larger than the stack", is_refused, with_frames((0, 0, ENDS[0] + 16 - HEAD, 0)), says)


@checks
def refusals(counter):
    for name, modules, says in REFUSED:
        counter.check(name, is_refused, modules, says)
    counter.check("all other instructions", instructions_are_refused)
