"""The verifier as one C file: that it is what ./lms_c makes, what it answers on each processor that
there is a compiler and an emulator for here, and that its functions do what those of the module do.
`-- 20000` tries so many changes of signatures on this computer, in place of 200."""

import os
import re
import shutil

from tests.harness import ARGUMENTS, TOP, Skipped, Wrong, checks, holds, said_by
from tests.merge_check import verifier_functions
from tests.merge_check.c_programs import LIBRARY
from tests.merge_check.crates import KIT
from tests.merge_check.portable_loader import judges_loader
from tests.merge_check.portable_projects import judges_projects
from tests.merge_check.portable_targets import AT_ZERO, BOARDS, CHECKED, FILE, FOLDER, HERE, HOSTED, INCLUDES, MODES, STRICT, Target, keeps_bounds
from tests.merge_check.portable_vectors import all_changes, all_vectors, header, some
from tests.merge_check.wasm_functions import build, compare, has_node, links, wasm_module
from tests.program import is_plain, put, read

TARGET = "wasm64-unknown-unknown"
CHANGES = int(ARGUMENTS[0]) if ARGUMENTS else 200
TWO = ["5/4", "5/2,25/4"]
# What emulators judge, with some changes, since they are slow. (Stack is measured on the first two.)
FEW = ["5/2,25/4", "5/2", "5/1", "15/4", "25/1", "example", "10/2,15/4,5/1"]
# And they do without the checks that are for tests.
FEW_MODES = ["checked", "direct"]
SANITIZERS = ["-fsanitize=address,undefined", "-fno-sanitize-recover=all"]
# The bytes of stack that docs/C.md asks of a boot loader.
MOST_STACK = 4608
# What a program says of a call: the bytes of stack that it took, and how many instructions.
COST = re.compile(r"(?m)^cost .* (\d+) \d+$")


class Answers:
    """Vectors and changes of them in a header, and what has to be answered on them: what the first
    program said, once it is found to be right."""

    def __init__(self, folder, vectors, changes):
        self.vectors, self.changes, self.lines = vectors, all_changes(vectors, changes), None
        self.include = f"-I{folder}"
        os.makedirs(folder)
        put(f"{folder}/vectors.h", header(vectors, self.changes).encode())

    def check(self, said):
        """A program says that all vectors are valid, and nothing that was changed, and it says what the
        first program said."""
        lines = [it for it in said.splitlines() if not it.startswith("cost ")]
        if self.lines is None:
            for name, line in zip(self.vectors, lines):
                holds(re.fullmatch(re.escape(name) + " 1111 [0-9a-f]{64}", line), f"a valid signature: {line}")
            for line in lines[len(self.vectors) :]:
                holds(re.search(r" 00(00 |10 [0-9a-f]{64})$", line), f"a changed key, message or signature: {line}")
            holds(len(lines) == len(self.vectors) + len(self.changes), f"{len(lines)} answers")
            self.lines = lines
        differ = [pair for pair in zip(self.lines, lines) if pair[0] != pair[1]]
        holds(len(lines) == len(self.lines), f"{len(lines)} answers, and {len(self.lines)} at first\n{said[-300:]}")
        holds(not differ, f"the first different answers: {differ[:1]}")


def skip_where_another_made_it():
    """Another toolchain than README.md names may make another module."""
    if not shutil.which("rt"):
        raise Skipped("there is no rt")
    kit = said_by("rt", "version").split()[0]
    if kit not in (TOP / "README.md").read_text(encoding="utf-8"):
        raise Skipped(f"the file was not made by {kit}")


def is_made():
    """The file is what ./lms_c --portable makes in a folder elsewhere."""
    skip_where_another_made_it()
    said_by(TOP / "lms_c", "--portable", os.path.abspath("a folder elsewhere"))
    made = read("a folder elsewhere/lms_verify.c")
    holds(made == read(FILE), "portable/lms_verify.c is another file than ./lms_c --portable makes")
    holds(read("a folder elsewhere/lms.h") == read(TOP / "include/lms.h"), "lms.h is another file")
    for name in ("lms_verify.c", "lms.h"):
        is_plain(f"a folder elsewhere/{name}")


def compiles_silently(compiler):
    """A compiler has nothing to say of the file, whatever it is to optimize and to check."""
    for flags in ("-O0", "-Os", *(f"-O2 {' '.join(it)}" for it in MODES.values())):
        words = ["-std=c99", *STRICT, *flags.split(), f"-I{TOP}/include", "-c", FILE, "-o", "silent.o"]
        said = said_by(compiler, *words)
        holds(said == "", said)


def is_not_of_two_ways():
    """No compiler takes the words that ask for all checks and for none."""
    words = [*MODES["direct"], *MODES["the caller checked"], f"-I{TOP}/include", "-c", FILE, "-o", "two.o"]
    try:
        said_by("cc", *words)
    except Wrong as why:
        holds("define one of them" in str(why), f"it says: {why}")
    else:
        raise Wrong("it is compiled")


def keeps_to_itself():
    """The file exports four calls, asks for two functions of memory, and has no writable data."""
    HERE.compile("checked", "-O2")
    rows = [line.split() for line in said_by("nm", "-g", "lms_verify.o").splitlines()]
    exports = sorted(row[2] for row in rows if len(row) == 3)
    asks = {row[1] for row in rows if row[0] == "U"}
    holds(exports == ["lms_message_head", "lms_verify", "lms_verify_hash", "lms_verify_pieces"], f"exports {exports}")
    holds(asks <= {"memmove", "memset"}, f"asks for {asks}")
    holds(said_by("size", "lms_verify.o").splitlines()[-1].split()[1:3] == ["0", "0"], "it has writable data")


def judges(target, mode, answers, *flags):
    """The answers of a target."""
    target.skip_where_missing()
    target.compile(mode, *flags)
    target.link("judge.c", answers.include, *(it for it in flags if it.startswith("-fsanitize")))
    said = target.run()
    answers.check(said)
    taken = max(map(int, COST.findall(said)), default=None)
    if taken is not None:
        print(f"{target.name}, {mode}: {taken} bytes of stack", flush=True)
        holds(stack_bytes() <= taken <= MOST_STACK, f"{taken} bytes of stack")


def judges_as_the_library(answers):
    """The library of this computer says the same."""
    if not LIBRARY.exists():
        raise Skipped(f"{LIBRARY.relative_to(TOP)} is not built")
    words = ["-std=c11", "-O2", answers.include, *INCLUDES, FOLDER / "judge.c", FOLDER / "hosted.c", LIBRARY]
    said_by("cc", *words, "-o", "program")
    answers.check(HERE.run())


def judges_at_zero(target, mode, lines):
    """The answers on two vectors, where each part in turn is at address 0."""
    target.skip_where_missing()
    target.compile(mode, "-O2", "-fno-delete-null-pointer-checks")
    target.link("at_zero.c", "-fno-delete-null-pointer-checks", "-Itwo")
    said = target.run()
    holds(said.splitlines() == [line for line in lines for _ in range(3)], f"at address 0: {said}")


def changed(old, new):
    """The file with this line in another's place, as changed.c."""
    text = FILE.read_text(encoding="utf-8")
    holds(text.count(old) == 1, f"the file has not once: {old}")
    put("changed.c", text.replace(old, new).encode())


def stack_bytes():
    """The bytes of stack that the translator found the module to need."""
    return int(re.search(r"(?m)^#define STACK_BYTES (\d+)$", FILE.read_text(encoding="utf-8"))[1])


def traps(mode, old, new, wanted):
    """What the four calls answer, and how many of them trap, on a key of one level and on one of two,
    where this line is in another's place."""
    changed(old, new)
    said_by("cc", "-std=c11", "-O1", *MODES[mode], "-Itwo", *INCLUDES, FOLDER / "traps.c", FOLDER / "hosted.c", "-o", "traps")
    said = said_by("./traps").splitlines()
    holds(said == [f"{name} {it}" for name, it in zip(TWO, wanted)], f"{said}")


def aligns_its_stack(answers):
    """Wherever the struct has the stack, the answers are the same where nothing is checked."""
    line = "    uint8_t stack[STACK_ROOM];\n"
    for skew in (1, 2):
        changed(line, f"    uint8_t skew[{skew}];\n{line}")
        HERE.compile("direct", "-O1", file="changed.c")
        HERE.link("judge.c", answers.include)
        answers.check(HERE.run())


def takes_stack():
    """The deepest call takes no more stack than docs/C.md asks for, and as much as the module's."""
    names = ["release.pub", "firmware.bin", "firmware.sig", "c/two_levels.pub", "firmware.bin", "c/two_levels.sig"]
    files = [TOP / "examples" / it for it in names]
    for mode in MODES:
        HERE.compile(mode, "-O2")
        said_by("cc", "-std=c11", "-O2", *INCLUDES, TOP / "tests/c/stack.c", "lms_verify.o", "-o", "stack")
        taken = int(said_by("./stack", *files))
        print(f"{mode}: {taken} bytes of stack", flush=True)
        holds(stack_bytes() <= taken and (taken <= MOST_STACK or mode == "the caller checked"), f"{mode}: {taken} bytes")


def judges_here(counter, answers, few):
    """The answers on this computer, by each compiler, with sanitizers, and by its own library."""
    for compiler in filter(shutil.which, ("cc", "clang")):
        for mode in MODES:
            counter.check(f"{compiler}, {mode}", judges, Target(compiler, [compiler], []), mode, answers, "-O2")
    counter.check("as the library for this computer", judges_as_the_library, answers)
    if links(*SANITIZERS):
        for mode in MODES:
            counter.check(f"with sanitizers, {mode}", judges, HERE, mode, few, "-O0", *SANITIZERS)
    else:
        counter.skip("with sanitizers", "cc has none here")
    counter.check("some, as the library for this computer", judges_as_the_library, few)
    counter.check("at any place of the stack", aligns_its_stack, few)


def judges_there(counter, few):
    """The answers by emulators."""
    for target in HOSTED + BOARDS:
        for mode in FEW_MODES:
            counter.check(f"{target.name}, {mode}", judges, target, mode, few, "-Os" if target in BOARDS else "-O2")


def fails_closed(counter):
    """A trap makes a call false, and comes once in it: where the stack is too small, where a byte of
    the caller's is outside, and at an instruction `unreachable`."""
    size = stack_bytes()
    less = [f"#define STACK_BYTES {size}\n", f"#define STACK_BYTES {size - 16}\n"]
    given = ["    m->given[k].len = len;\n", "    m->given[k].len = len - (len > 0);\n"]
    busy = ["    m->stack_pointer = STACK_TOP(m);\n", "    m->stack_pointer = STACK_TOP(m);\n    m->in_call = 1;\n"]
    for mode in CHECKED:
        counter.check(f"16 bytes of stack less, {mode}", traps, mode, *less, ["1111 0000", "0011 1100"])
    counter.check("a byte less of the caller's, the caller checked", traps, "the caller checked", *given, ["0000 1111"] * 2)
    for mode in MODES:
        counter.check(f"unreachable, {mode}", traps, mode, *busy, ["0000 1111"] * 2)


def build_module():
    """Builds the module that the file was made of, as lms.wasm."""
    shutil.copy2(LIBRARY, "kept.a")
    try:
        said_by("rt", "lib", "--target", TARGET, cwd=LIBRARY.parent.parent)
        said_by(KIT / "bin/rattle-link", "--target", TARGET, "--toolchain", KIT / "toolchain", "-o", "lms.wasm", LIBRARY)
    finally:
        shutil.move("kept.a", LIBRARY)


def does_as_the_module(contents):
    """Each function does what it does in the module, over many calls."""
    module = wasm_module.Module(contents)
    left = verifier_functions.unknown(module)
    holds(not left, f"nobody knows what is given to {left}")
    build(contents, FILE.read_text(encoding="utf-8"), "-O2")
    cases = verifier_functions.cases_of(module)
    traps = compare(cases)
    print(f"{len(module.functions)} functions, {len(cases)} calls, {traps} of them traps", flush=True)


@checks
def the_functions(counter):
    skip_where_another_made_it()
    if not LIBRARY.exists():
        raise Skipped(f"{LIBRARY.relative_to(TOP)} is not built")
    if not has_node():
        raise Skipped("there is no node")
    if counter.check("the module is built", build_module):
        counter.check("each function does what that of the module does", does_as_the_module, read("lms.wasm"))


@checks
def the_file(counter):
    counter.check("it is what ./lms_c makes", is_made)
    for compiler in filter(shutil.which, ("cc", "clang")):
        counter.check(f"{compiler} has nothing to say of it", compiles_silently, compiler)
    counter.check("it is not checked and direct at once", is_not_of_two_ways)
    counter.check("it keeps to itself", keeps_to_itself)
    counter.check("its stack", takes_stack)
    for target in [HERE, *HOSTED]:
        for mode in CHECKED:
            counter.check(f"its bounds, {target.name}, {mode}", keeps_bounds, target, mode, FILE.read_text(encoding="utf-8"))


@checks
def the_loader(counter):
    judges_loader(counter)


@checks
def the_answers(counter):
    vectors = all_vectors()
    answers, few = Answers("all", vectors, CHANGES), Answers("few", some(vectors, *FEW), 0)
    os.mkdir("two")
    put("two/vectors.h", header(some(vectors, *TWO)).encode())
    judges_here(counter, answers, few)
    fails_closed(counter)
    judges_projects(counter, few)
    judges_there(counter, few)
    lines = [answers.lines[list(vectors).index(it)] for it in TWO]
    for target, modes in zip(AT_ZERO, (MODES, FEW_MODES)):
        for mode in modes:
            counter.check(f"{target.name}, {mode}, at address 0", judges_at_zero, target, mode, lines)
