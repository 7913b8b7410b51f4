"""The C file with the caller's own compression of SHA-256 (`LMS_COMPRESS`): one in plain C and that by SHA
instructions, which are instructions of this processor or C in their place, beside the proved one over random
blocks and over all that is published; and others, with which every call answers false."""

import itertools
import pathlib
import re

from tests.harness import TOP, Skipped, add_test, holds, said_by, test
from tests.merge_check.c_programs import EXAMPLE, build, gives
from tests.merge_check.portable_targets import FILE, MODES
from tests.merge_check.published_rows import judges

FOLDER = TOP / "tests/portable"
# What each is compiled of, and whether it is a compression.
PLAIN = [FOLDER / "compressions.c"]
X86 = [FILE.parent / "sha256_x86.c", "-msse4.1"]
BLOCKS = "10000"
COMPRESSIONS = {"plain": PLAIN, "lms_sha256_x86": [*X86, "-include", FOLDER / "sha_instructions.h"]}
OTHERS = {"nothing": PLAIN, "one_bit": PLAIN}


def are_compared(name, sources, flags, wanted):
    """The comparison over random blocks and the file's own check say this of a compression."""
    include = f"-I{FILE.parent}"
    build(FOLDER / "compress.c", sources[0], "compress", include, f"-DLMS_COMPRESS={name}", *flags, *sources[1:])
    holds(said_by("./compress", BLOCKS) == f"{wanted}\n", f"{name} {flags}: not {wanted}")


for (named, its), (mode, words) in itertools.product(COMPRESSIONS.items(), MODES.items()):
    add_test(f"{named} is the proved one, {mode}", are_compared, named, its, words, "one checked")
for (named, its), (mode, words) in itertools.product(OTHERS.items(), MODES.items()):
    add_test(f"{named} is refused, {mode}", are_compared, named, its, words, "differ refused")


@test
def the_instructions_of_this_processor_are_the_proved_one():
    if not re.search(r"(?m)^flags.* sha_ni( |$)", pathlib.Path("/proc/cpuinfo").read_text(encoding="utf-8")):
        raise Skipped("this processor has no SHA instructions")
    are_compared("lms_sha256_x86", [*X86, "-msha"], [], "one checked")


def ways(name, sources, *flags):
    """The program of all ways of calling, by the C file with this compression."""
    build(FILE, TOP / "tests/c/ways.c", "ways", f"-DLMS_COMPRESS={name}", *flags, *sources)


def judges_by(name, sources):
    """Each published row has its verdict by a compression, checked in each call or once."""
    for mode, flags in MODES.items():
        for more in ([], ["-DLMS_COMPRESS_CHECKED"]):
            ways(name, sources, *flags, *more)
            judges(lambda verdict, *files: gives(verdict, "./ways", *files))


for named, its in COMPRESSIONS.items():
    add_test(f"published verdicts by {named}", judges_by, named, its)


def refuses_all(name, sources):
    """With a function that is no compression no signature is valid, and none has a head."""
    for flags in MODES.values():
        ways(name, sources, *flags)
        gives("invalid", "./ways", *EXAMPLE, "none")


for named, its in OTHERS.items():
    add_test(f"all is invalid by {named}", refuses_all, named, its)


@test
def it_is_what_the_calls_use():
    """With a function that is no compression, and that nothing checks, the example is invalid."""
    for flags in MODES.values():
        ways("one_bit", OTHERS["one_bit"], "-DLMS_COMPRESS_CHECKED", *flags)
        gives("invalid", "./ways", *EXAMPLE)
