"""Each text of help and the version, each kind of mistake in arguments, and options in another order and with `=`:
what the program prints, and nothing else."""

import os

from tests.harness import add_test, test
from tests.merge_check.commands_help import TEXTS
from tests.program import endorsed_lines, ends, put, read
from tests.reference import RANDOMIZER, SEED, public_of, witness_of

MORE = "For more information, try '--help'.\n"
USAGE = f"Usage: lms_tool <COMMAND>\n\n{MORE}"
JOIN_WORDS = "join --public k --endorsement e --signer p --signature s --out o"
JOIN_USAGE = (
    "Usage: lms_tool join --public <FILE> --endorsement <FILE> --signer <FILE> --signature <FILE> --out <FILE>"
    f"\n\n{MORE}"
)
VERIFY_USAGE = f"Usage: lms_tool verify --public <FILE> --message <FILE> --signature <FILE>\n\n{MORE}"

# Arguments that are a mistake, what is said of them, and how to go on.
MISTAKES = [
    (
        "",
        "'lms_tool' requires a subcommand but one was not provided\n  [subcommands: keygen, info, inspect, public, sign, endorse, batch, serve, witness, resume, verify, join, join-public, help]",
        USAGE,
    ),
    ("stray", "unrecognized subcommand 'stray'", USAGE),
    ("help stray", "unrecognized subcommand 'stray'", USAGE),
    ("help --help", "unrecognized subcommand '--help'", USAGE),
    ("--stray", "unexpected argument '--stray' found", USAGE),
    ("verify --version", "unexpected argument '--version' found", VERIFY_USAGE),
    (
        "-- verify",
        "unexpected argument 'verify' found\n\n  tip: subcommand 'verify' exists; to use it, remove the '--' before it",
        USAGE,
    ),
    ("verify stray", "unexpected argument 'stray' found", VERIFY_USAGE),
    (
        "verify --public k --signature s",
        "the following required arguments were not provided:\n  --message <FILE>",
        VERIFY_USAGE,
    ),
    ("verify --public k --public k", "the argument '--public <FILE>' cannot be used multiple times", VERIFY_USAGE),
    ("verify --public", "a value is required for '--public <FILE>' but none was supplied", MORE),
    # After all that a command may have.
    (f"{JOIN_WORDS} --out", "a value is required for '--out <FILE>' but none was supplied", MORE),
    (f"{JOIN_WORDS} --out o", "the argument '--out <FILE>' cannot be used multiple times", JOIN_USAGE),
    (f"{JOIN_WORDS} -- stray", "unexpected argument 'stray' found", JOIN_USAGE),
]


def shows(arguments, text, status=0):
    """The program prints this text, and nothing else."""
    ends(arguments.split(), status, text)


def is_mistaken(arguments, said, how_to_go_on):
    """The program says this of the arguments, and then how to go on."""
    ends(arguments.split(), 2, errors=f"error: {said}\n\n{how_to_go_on}")


for help_text, askings in TEXTS:
    for asking in askings:
        add_test(f"help by `{asking}`", shows, asking, help_text)
for mistake, saying, then in MISTAKES:
    add_test(f"the mistake in `{mistake}`", is_mistaken, mistake, saying, then)


@test
def takes_options_in_any_order_and_with_equals_signs():
    shows(f"keygen --public key.pub --state=key.state --id {'2' * 32} --seed {SEED.hex()} --levels 5/8", "capacity 32\n")
    shows(f"sign --out=text.sig --message text --random {RANDOMIZER.hex()} --state key.state", "index 0\n")
    shows("info --state=key.state", "levels 5/8\ncounter 1\ncapacity 32\nleft 31\nopenings 1\nburnt 0\n")
    put("signer.pub", public_of(((5, 1),), identifier=b"\x66" * 16))
    shows(
        f"endorse --out=signer.end --joined 2 --signer=signer.pub --random {RANDOMIZER.hex()} --state key.state",
        endorsed_lines(1, read("signer.pub")),
    )
    shows("inspect --file=text", "no state, public key or signature\n", 1)
    shows("public --public=key.pub --state key.state", "capacity 32\n")
    shows("batch --workers=1 --state key.state", "")
    shows("serve --workers=1 --state key.state", "")
    shows("witness --counter=2 --on=key.state.witness --state key.state", f"{witness_of(2).decode()}{os.path.realpath('key.state.witness')}\n")
    put("key.state.witness", witness_of(4))
    shows("resume --counter 4 --state=key.state", "indices 2 to 3 burnt; right only if the witness is the newest\n")
    shows("verify --signature text.sig --message=text --public key.pub", "valid\n")
