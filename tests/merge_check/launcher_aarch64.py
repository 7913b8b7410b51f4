"""How the script `lms_tool` makes the program for aarch64, over stand-ins, for the module `launcher`."""

import os

from tests.merge_check.stand_ins import (
    ARM, COMMON, FAST, PROVED, SIGNALS, StandIns, builds, is_given_up, is_program,
)

# The files that the toolchain makes of the common program.
FILES = ["", ".o", ".stamp"]
# What makes the program older.
NEWER = ["crates/lms_spec/src/file", "runtime/aarch64/heap.c", "runtime/aarch64/rattle.h"]
# What the toolchain does in place of all that it should.
WAYS = [
    ("it is not proved", "echo object >lms_tool.o"),
    ("it is proved for another target", f"echo object >lms_tool.o; echo '{PROVED}' | sed s/aarch64/x86_64/"),
    ("there is no object file", f"echo '{PROVED}'"),
    ("another program is there by the common one's name", "echo another >lms_tool"),
]


def files_of_common(it):
    """What is there of them, each with its bytes and its time."""
    found = [f"{it.common}{end}" for end in FILES if os.path.exists(f"{it.common}{end}")]
    return {name: (it.has(name), os.stat(name).st_mtime_ns) for name in found}


def has_files_of_common(it, is_built):
    """All of them are there, or none. What is there."""
    for end in FILES[1:] if is_built else []:
        it.write(f"{it.common}{end}", f"of the common program: {end}")
    return files_of_common(it)


def the_arguments_build_aarch64(is_built):
    """`build aarch64` builds that program once, and leaves the others as they were."""
    with StandIns(is_built) as it:
        files = has_files_of_common(it, is_built)
        builds(it, "aarch64")
        it.asked_to_build(ARM)
        is_program(it, it.arm, "arm")
        it.holds(it.has("linked") == "object\n", "another object file was linked")
        it.holds(f" {it.top}/runtime/aarch64/heap.c " in it.has("words"), f"not with the C functions: {it.has('words')}")
        it.holds(files_of_common(it) == files, "the common program has other files")
        it.holds(os.path.exists(it.fast) == is_built, "the program for AVX2 was built, or is gone")
        it.forget()
        builds(it, "aarch64")
        it.is_quiet()


def the_program_for_aarch64_is_older(hours):
    """Than a source, one of the C functions or their header, which was last changed so many hours ago."""
    with StandIns() as it:
        for newer in NEWER:
            builds(it, "aarch64")
            it.age(it.arm, 1)
            it.age(newer, hours)
            it.forget()
            builds(it, "aarch64")
            it.asked_to_build(ARM)
            it.age(newer, 2)


def the_arguments_build_all():
    """And again, where one of the three is missing."""
    with StandIns(False) as it:
        builds(it, "all")
        it.asked_to_build(FAST, COMMON, ARM)
        for file, name in [(it.fast, "fast"), (it.common, "common"), (it.arm, "arm")]:
            is_program(it, file, name)
        it.forget()
        builds(it, "all")
        it.is_quiet()
        for file, asked in [(it.common, COMMON), (it.arm, ARM)]:
            os.remove(file)
            it.forget()
            builds(it, "all")
            it.asked_to_build(asked)


def no_compiler_for_aarch64():
    """Nothing is proved then, but where the program is there."""
    with StandIns(False) as it:
        named = ["env", "CC_AARCH64=no-compiler --of-mine"]
        for words in ("aarch64", "all"):
            it.start("build", words, by=named)
            it.holds(it.status == 70 and not it.output and not it.has("builds"), "not given up")
            it.reports("there is no no-compiler on the PATH to link the program for aarch64; CC_AARCH64 may name another C compiler for it")
        builds(it, "aarch64")
        it.forget()
        it.start("build", "aarch64", by=named)
        it.holds(it.status == 0, "a program that is there is refused")
        it.is_quiet()


def another_compiler_for_aarch64():
    with StandIns() as it:
        it.links(name="another-compiler")
        it.start("build", "aarch64", by=["env", "CC_AARCH64=another-compiler --of-mine"])
        it.holds(it.status == 0 and it.has("words").startswith("--of-mine "), "it was not asked")
        is_program(it, it.arm, "arm")


def is_not_built(it, files, said):
    """The program for aarch64 is not there, and those of the common one are as they were."""
    is_given_up(it, said)
    left = os.listdir(os.path.dirname(it.arm)) if os.path.isdir(os.path.dirname(it.arm)) else []
    it.holds(not left and files_of_common(it) == files, f"there is {left}, or other files of the common program")


def cannot_be_proved(makes):
    """The toolchain does this in place of all that it should."""
    with StandIns() as it:
        files = has_files_of_common(it, True)
        it.on("run", f"cd out\n{makes}\nexit 1\n")
        it.start("build", "aarch64")
        is_not_built(it, files, "a line of rt run")


def a_program_for_aarch64_that_cannot_be_linked():
    with StandIns() as it:
        files = has_files_of_common(it, True)
        it.links('echo "undefined reference"\nexit 1\n')
        it.start("build", "aarch64")
        is_not_built(it, files, "undefined reference")


def interrupted_while_the_program_for_aarch64_is_made():
    """While it is proved, and while it is linked."""
    with StandIns() as it:
        files, makes = has_files_of_common(it, True), it.has("on_run")
        for on_run, link in [(makes.replace("exit 1", 'echo $$ >"$number"\nexec sleep 60'), ""), (makes, 'echo $$ >"$number"\nsleep 1\n')]:
            it.on("run", f'number="{it.top}/number"\n{on_run}')
            it.links(f'number="{it.top}/number"\n{link}')
            for number in SIGNALS:
                it.interrupt(number, "build", "aarch64")
                left = os.listdir(os.path.dirname(it.arm)) if os.path.isdir(os.path.dirname(it.arm)) else []
                it.holds(not left and files_of_common(it) == files, f"after {number} there is {left}, or other files of the common program")


def changes_while_it_is_built():
    with StandIns() as it:
        changes = f'sleep 0.1\ntouch "{it.top}/crates/lms_spec/src/file"\nsleep 0.1\n'
        it.on("run", changes + it.has("on_run"))
        for _ in range(2):
            it.forget()
            builds(it, "aarch64")
            it.asked_to_build(ARM)


CHECKS = [
    ("the arguments build aarch64, all is built", the_arguments_build_aarch64, True),
    ("the arguments build aarch64, nothing is built", the_arguments_build_aarch64, False),
    ("the program for aarch64 is older", the_program_for_aarch64_is_older, 0),
    ("the program for aarch64 is older than what has a time in the future", the_program_for_aarch64_is_older, -1),
    ("the arguments build all", the_arguments_build_all),
    ("no compiler for aarch64", no_compiler_for_aarch64),
    ("another compiler for aarch64", another_compiler_for_aarch64),
    *((f"a program for aarch64 that can't be built: {why}", cannot_be_proved, makes) for why, makes in WAYS),
    ("a program for aarch64 that cannot be linked", a_program_for_aarch64_that_cannot_be_linked),
    ("interrupted while the program for aarch64 is made", interrupted_while_the_program_for_aarch64_is_made),
    ("a source that changes while the program for aarch64 is built", changes_while_it_is_built),
]
