"""Keys, messages and signatures that others published, in tests/vectors/: what RFC 8554 has in Appendix F,
and NIST's for ACVP. Each row has its verdict by the program, the libraries for C, the C file and the page
for browsers, and Appendix F's private keys sign its bytes again. What is not built, or needs a tool that
is not there, is skipped."""

from tests.harness import TOP, Skipped, add_test, holds, test
from tests.merge_check.browser import build_page, found_browser, opened
from tests.merge_check.c_programs import LIBRARY, build, gives, levels_here, library_for
from tests.merge_check.portable_targets import FILE, MODES
from tests.merge_check.published_rows import COUNTS, all_rows, judges, rows_of
from tests.program import PROGRAM, makes_again, verify
from tests.reference import CHAINS, HEIGHTS

WAYS = TOP / "tests/c/ways.c"
# What the typecodes of RFC 8554 name.
HEIGHTS_OF = {code: height for height, code in HEIGHTS.items()}
WIDTHS_OF = {code: width for width, (code, _, _) in CHAINS.items()}


def judges_in_c(verifier, *flags):
    """Each row has its verdict by every way of calling a verifier from C."""
    build(verifier, WAYS, "ways", *flags)
    judges(lambda verdict, *files: gives(verdict, "./ways", *files))


@test
def files_are_whole():
    for source, counts in COUNTS.items():
        rows = rows_of(source).values()
        found = len(rows), sum(it == "valid" for it, _ in rows), sum("seed" in it for _, it in rows)
        holds(found == counts, f"{source} has {found}, not {counts}: rows, valid ones, private keys")


@test
def by_the_program():
    judges(lambda verdict, public, message, signature: gives(verdict, PROGRAM, *verify(message, signature, public)))


@test
def by_the_library_for_c():
    if not LIBRARY.exists():
        raise Skipped(f"{LIBRARY.relative_to(TOP)} is not built")
    judges_in_c(LIBRARY)


@test
def by_the_shared_library():
    for level in levels_here():
        library = library_for(level)
        judges_in_c(library, f"-Wl,-rpath,{library.parent}")


@test
def by_the_c_file():
    for flags in MODES.values():
        judges_in_c(FILE, *flags)


@test
def by_the_page():
    def shows(verdict, *files):
        shown, outcome = browser.verdict_on(*files)
        holds(shown == verdict, f"the page shows {shown!r} {outcome!r}, not {verdict}")

    program = found_browser()
    with opened(program, build_page()) as browser:
        judges(shows)


def is_made_again(parts):
    """The program makes the public key of a private key, and its signature by the leaf and the randomizer
    that the signature has."""
    public, signature = parts["public"], parts["signature"]
    level = HEIGHTS_OF[public[7]], WIDTHS_OF[public[11]]
    index, randomizer = int.from_bytes(signature[4:8], "big"), signature[12:44]
    makes_again((level,), index, parts["seed"], parts["identifier"], randomizer, parts["message"], public, signature)


for row, (_, texts) in all_rows().items():
    if "seed" in texts:
        add_test(f"private key of {row}", is_made_again, texts)
