"""The script `lms_tool` in a folder of its own, over stand-ins for `rt`, for the programs that it
builds and for the C compiler that links one of them: which program runs, with arguments, input and
status passed through and all else as it was for the script, when and how one is built, what an
interruption leaves, and that no argument is told or kept."""

import os
import pathlib
import re
import signal

from tests.harness import add_test, test
from tests.merge_check import launcher_aarch64, launcher_surroundings
from tests.merge_check.stand_ins import COMMON, SIGNALS, StandIns, builds, is_given_up, is_program, runs, runs_again

# A seed, as it may be an argument.
SECRET = "5eedc0ffee" * 6 + "5eed"


def fails_once_it_is_built(it):
    """The program for AVX2 ends with 127 once it is built."""
    fast = f"""*--cpu=x86-64-v3*) echo 'exit 127' >"{it.common}"; exit 127 ;;"""
    it.on("run", f'cp "{it.top}/common" "{it.common}"\ncase $* in {fast} esac\n')


def cannot_be_built(it):
    """The program for AVX2 can't be built."""
    it.on("run", f'case $* in *--cpu=x86-64-v3*) exit 1 ;; esac\ncp "{it.top}/common" "{it.common}"\n')


@test
def with_avx2():
    with StandIns() as it:
        runs(it, "old_fast")
        it.is_quiet()


@test
def a_program_for_avx2_that_ends_with_127():
    with StandIns() as it:
        it.script(it.fast, "echo 'no AVX2' >&2\nexit 127\n")
        runs(it, "old_common")
        it.is_quiet()


@test
def no_program_for_avx2():
    with StandIns() as it:
        os.remove(it.fast)
        runs(it, "old_common")
        it.is_quiet()


@test
def an_older_program_for_avx2():
    with StandIns() as it:
        it.age(it.fast, 3)
        runs(it, "old_common")
        it.is_quiet()


def is_newer(newer):
    """A source is newer than both programs: the best one is built, and its progress is reported."""
    with StandIns() as it:
        it.age(it.common, 1)
        it.age(it.fast, 1)
        it.age(newer, 0)
        runs(it, "fast")
        it.asked_to_build(it.build)
        for crate in ("lms_blocks", "lms_spec"):
            reported = re.search(rf"(?m)^lms_tool: {crate} is checked, [12] of 5 crates$", it.errors)
            it.holds(reported is not None, "no progress is reported")
        for number, crate in enumerate(("lms_lines", "lms_world", "lms_tool"), 3):
            it.reports(f"{crate} is checked, {number} of 5 crates")
        it.holds(not os.path.exists(it.common), "two programs")
        runs_again(it, "fast")


def is_of_the_future(newer):
    """A source with a time in the future is newer than what was built since, too."""
    with StandIns() as it:
        it.age(newer, -1)
        for _ in range(2):
            it.forget()
            runs(it, "fast")
            it.asked_to_build(it.build)


for source in ("crates/lms_tool/src/file", "crates/lms_lines/specs/file", "crates/lms_spec/proofs/file", "crates.txt"):
    add_test(f"{source} is newer", is_newer, source)
    add_test(f"{source} has a time in the future", is_of_the_future, source)


def nothing_is_built(has_avx2):
    """A command builds the program for this processor, and runs it."""
    with StandIns(False, has_avx2) as it:
        runs(it, it.best)
        it.asked_to_build(it.build)
        runs_again(it, it.best)


def the_argument_build(has_avx2):
    """`build` builds it once."""
    with StandIns(False, has_avx2) as it:
        builds(it)
        it.asked_to_build(it.build)
        it.forget()
        builds(it)
        it.is_quiet()
        runs_again(it, it.best)


def the_arguments_build_both(has_avx2):
    """`build both` builds both programs once, whichever processor this is."""
    with StandIns(False, has_avx2) as it:
        builds(it, "both")
        is_program(it, it.fast, "fast")
        is_program(it, it.common, "common")
        it.forget()
        builds(it, "both")
        it.holds(not it.has("builds"), "built again")


for processor in (True, False):
    suffix = "with AVX2" if processor else "without AVX2"
    add_test(f"nothing is built, {suffix}", nothing_is_built, processor)
    add_test(f"the argument build, {suffix}", the_argument_build, processor)
    add_test(f"the arguments build both, {suffix}", the_arguments_build_both, processor)


@test
def the_argument_build_where_only_the_common_program_is_there():
    with StandIns() as it:
        os.remove(it.fast)
        builds(it)
        it.asked_to_build(it.build)
        runs_again(it, "fast")


@test
def the_argument_build_and_another():
    with StandIns(False) as it:
        for words in (["--help"], [""], ["both", "aarch64"]):
            it.start("build", *words)
            it.holds(it.status == 2 and not it.output and not it.has("builds"), f"not refused: {words}")
            it.reports("build takes no further argument but both, aarch64 or all")


@test
def build_both_and_a_program_for_avx2_that_ends_with_127_once_it_is_built():
    with StandIns(False) as it:
        fails_once_it_is_built(it)
        builds(it, "both")
        it.holds(it.has(it.fast) == "exit 127\n", "not the program for AVX2")
        runs_again(it, "common")


@test
def build_both_where_the_common_program_is_older_than_a_source():
    with StandIns() as it:
        it.age(it.common, 3)
        builds(it, "both")
        it.asked_to_build(COMMON)
        is_program(it, it.common, "common")
        runs_again(it, "old_fast")


@test
def build_both_and_a_program_for_avx2_that_cannot_be_built():
    with StandIns(False) as it:
        cannot_be_built(it)
        it.start("build", "both")
        it.holds(it.status == 70 and not it.output, "not given up")


@test
def a_source_that_changes_while_it_is_built():
    with StandIns(False) as it:
        changes = f'sleep 0.1\ntouch "{it.top}/crates/lms_spec/src/file"\nsleep 0.1\n'
        it.on("run", f'{changes}cp "{it.top}/fast" "{it.common}"\n')
        runs(it, "fast")
        it.forget()
        runs(it, "fast")
        it.asked_to_build(it.build)


@test
def a_program_for_avx2_that_cannot_be_built():
    with StandIns() as it:
        it.age(it.common, 3)
        it.age(it.fast, 3)
        cannot_be_built(it)
        runs(it, "common")
        it.asked_to_build(it.build, COMMON)
        runs_again(it, "common")


@test
def a_program_for_avx2_that_ends_with_127_once_it_is_built():
    with StandIns(False) as it:
        fails_once_it_is_built(it)
        runs(it, "common")
        it.asked_to_build(it.build, COMMON)
        runs_again(it, "common")
        builds(it)
        it.is_quiet()


def programs_that_cannot_be_built(argument):
    """Neither program can be built."""
    with StandIns(False) as it:
        it.on("run", "exit 1\n")
        it.start(argument)
        is_given_up(it, "a line of rt run")
        it.asked_to_build(it.build, COMMON)


for first in ("sign", "build"):
    add_test(f"programs that can't be built, {first}", programs_that_cannot_be_built, first)


def a_library_that_cannot_be_checked(library):
    """Those above it are not asked for."""
    with StandIns(False) as it:
        it.on("lib", f'[ "${{PWD##*/}}" != {library} ]\n')
        it.start("sign")
        is_given_up(it, "a line of rt lib")
        it.holds(not re.search("lms_world|lms_tool", it.has("builds")), "those above were asked for")


for unchecked in ("lms_lines", "lms_spec"):
    add_test(f"a library that can't be checked, {unchecked}", a_library_that_cannot_be_checked, unchecked)


@test
def libraries_that_use_no_other_go_beside_each_other():
    with StandIns(False) as it:
        others = "case ${PWD##*/} in lms_spec) other=lms_blocks ;; lms_blocks) other=lms_spec ;; *) exit 0 ;; esac\n"
        waits = f'for _ in $(seq 100); do ! grep -qx "$other lib" "{it.top}/builds" || exit 0; sleep 0.1; done\nexit 1\n'
        it.on("lib", others + waits)
        runs(it, "fast")
        it.asked_to_build(it.build)


@test
def interrupted_while_libraries_are_checked():
    with StandIns(False) as it:
        it.on("lib", f'echo $$ >"{it.top}/number"; exec sleep 60\n')
        for number in SIGNALS:
            it.interrupt(number, "build")
            it.holds(not os.path.exists(it.common) and not os.path.exists(it.fast), "something was built")


def interrupted_while_a_program_is_made(has_avx2, numbers, *arguments):
    """The toolchain has put the program there by the common one's name, and does not end. None is
    left, whichever it is, so the next start builds it."""
    with StandIns(False, has_avx2) as it:
        makes = pathlib.Path(it.top, "on_run").read_text()
        for number in numbers:
            it.on("run", f'{makes}echo $$ >"{it.top}/number"\nexec sleep 60\n')
            it.interrupt(number, *arguments)
            it.holds(not os.path.exists(it.common) and not os.path.exists(it.fast), "a program is left")
        it.on("run", makes)
        it.forget()
        runs(it, it.best)
        it.asked_to_build(it.build)


for processor, numbers, words in [
    (True, SIGNALS, ["sign"]),
    (True, [signal.SIGINT], ["build"]),
    (True, [signal.SIGTERM], ["build", "both"]),
    (False, [signal.SIGINT], ["sign"]),
]:
    suffix = f"{' '.join(words)}, {'with' if processor else 'without'} AVX2"
    add_test(f"interrupted while a program is made, {suffix}", interrupted_while_a_program_is_made, processor, numbers, *words)


@test
def build_both_interrupted_while_the_common_program_is_made():
    """That for AVX2 stays."""
    with StandIns() as it:
        it.age(it.common, 3)
        it.on("run", f'cp "{it.top}/common" "{it.common}"\necho $$ >"{it.top}/number"\nexec sleep 60\n')
        it.interrupt(signal.SIGTERM, "build", "both")
        it.holds(not os.path.exists(it.common), "a program is left")
        it.forget()
        runs_again(it, "old_fast")


def has_secret(text):
    return SECRET.lower() in text.lower()


def keeps_nothing(it):
    """What is secret of the arguments is in nothing that was printed, in no file, nor in its name,
    and was in nothing that the toolchain was given or found beside it."""
    it.holds(not has_secret(it.output + it.errors), "it tells an argument")
    for file in pathlib.Path(it.top).rglob("*"):
        name = str(file.relative_to(it.top))
        is_kept = has_secret(name) or file.is_file() and has_secret(os.fsdecode(file.read_bytes()))
        it.holds(not is_kept, f"an argument is in {name}")


# What the toolchain sees while it runs: its environment, and the files that the script made.
SEES = 'env >>"{0}/seen"\n(cd "{0}" && find . ! -name seen && find files crates -type f -exec cat {{}} +) >>"{0}/seen"\n'


def tells_and_keeps_no_argument(has_avx2, is_built, failing, status, *words):
    """Neither where the program runs nor where it can't be built. The program here prints nothing,
    and ends with 3."""
    with StandIns(is_built, has_avx2) as it:
        for name in ("common", "fast", *(os.path.relpath(file, it.top) for file in (it.common, it.fast) if is_built)):
            it.script(name, '[ "$*" = --help ] || exit 3\n')
        sees = SEES.format(it.top)
        for verb in ("lib", "run", "try"):
            text = it.has(f"on_{verb}")
            it.on(verb, f"{sees}{text}{'exit 1' * (verb in failing)}\n")
        it.start(*words, "--seed", SECRET, f"--id={SECRET[:32]}", "--state", "key.state")
        it.holds(it.status == status, f"not {status}")
        it.holds(is_built or "HOME=" in it.has("seen"), "the toolchain saw nothing")
        keeps_nothing(it)


for what, *row in [
    ("a program that is there", True, True, [], 3, "keygen"),
    ("the common program that is there", False, True, [], 3, "keygen"),
    ("a program that is built first", True, False, [], 3, "keygen"),
    ("the common program that is built first", False, False, [], 3, "keygen"),
    ("no trial run", True, False, ["try"], 3, "keygn"),
    ("no library", True, False, ["lib"], 70, "keygen"),
    ("no program", True, False, ["run"], 70, "keygen"),
]:
    add_test(f"tells and keeps no argument, {what}", tells_and_keeps_no_argument, *row)


@test
def tells_and_keeps_no_argument_where_it_is_interrupted():
    with StandIns(False) as it:
        it.on("run", f'{SEES.format(it.top)}echo $$ >"{it.top}/number"\nexec sleep 60\n')
        it.interrupt(signal.SIGINT, "keygen", "--seed", SECRET)
        keeps_nothing(it)


@test
def standard_error_is_closed():
    with StandIns(False) as it:
        it.start("sign", by=["sh", "-c", 'exec "$0" "$@" 2>&-'])
        it.ran("fast", "sign")
        it.asked_to_build(it.build)


for row in (*launcher_aarch64.CHECKS, *launcher_surroundings.CHECKS):
    add_test(*row)
