"""Where a key's seed may stand: in the state's file, in its draft, and in a file that was a run's input,
and in nothing else that a run of the program wrote or printed."""

import functools
import os
import pathlib
import stat

from tests.harness import holds
from tests.reference import IDENTIFIER, SEED, derived

# So many bytes of a seed, one after another, tell it.
TELLING = 8
# A longer file is a message.
MOST_LENGTH = 2**23
# The paths of all states that runs were given, and of their drafts; how tests name one; and the paths of
# all files that were a run's input.
STATES, STATE, INPUTS = set(), "key.state", set()


@functools.lru_cache(maxsize=None)
def parts(seed):
    """What tells a seed, as it is and by digits: a few of its bytes; the seed of the tree below the first
    leaf; and what the check value of kept nodes is made by."""
    cut = {seed[at : at + TELLING] for at in range(len(seed) - TELLING + 1)}
    cut |= {derived(IDENTIFIER, seed, 0, 0xFFFE), derived(IDENTIFIER, seed, 0, 0xFFFC)}
    return cut, {it.hex().encode() for it in cut}


def tells(contents, seed=SEED):
    """Whether a part of a seed is in these bytes, as it is or by digits in either case."""
    as_it_is, digits = parts(seed)
    lowered = contents.lower()
    return any(it in contents for it in as_it_is) or any(it in lowered for it in digits)


def given(words, option):
    """The value of an option, if it is among these words."""
    for word, after in zip(words, [*words[1:], None]):
        if word == option:
            return after
        if word.startswith(f"{option}="):
            return word.partition("=")[2]
    return None


def input_of(how):
    """The bytes of a run's input, if they are a text or in a file with a name."""
    text, file = how.get("input") or b"", getattr(how.get("stdin"), "name", None)
    if isinstance(file, str):
        INPUTS.add(os.path.realpath(file))
        return contents_of(file)
    return text.encode() if isinstance(text, str) else text


def of_digits(text):
    """The bytes of a text of digits, without the last where it has no pair; none of another text."""
    try:
        return bytes.fromhex(text[: len(text) // 2 * 2])
    except ValueError:
        return b""


def seeds_in(words, given_input):
    """The seed of most tests, and the digits that these words, or this input where they say so, have for a
    seed or in place of levels: also of a seed that is cut, where what is left tells it."""
    digits, levels = given(words, "--seed") or "", given(words, "--levels") or ""
    if digits == "-":
        digits = given_input[: 2 * len(SEED)].decode(errors="replace")
    named = {of_digits(digits), of_digits(levels)}
    return {SEED, *(it for it in named if len(it) >= TELLING and any(it))}


def contents_of(path):
    """The bytes of a plain file, or none where it is long, gone or may not be read."""
    try:
        found = os.lstat(path)
        is_read = stat.S_ISREG(found.st_mode) and found.st_size <= MOST_LENGTH
        return pathlib.Path(path).read_bytes() if is_read else b""
    except OSError:
        return b""


def keeps_secret(arguments, printed, folder=".", seeds=(), record=None, given_input=b""):
    """A run of the program with these arguments, in this folder, and with this input printed this. Neither
    that nor a file beside what it was given tells its seed, that of most tests, or one of these, but for
    states, their drafts, inputs, and the record of what was written."""
    words = [os.fsdecode(it) if isinstance(it, bytes) else str(it) for it in arguments]
    seeds = {*seeds_in(words, given_input), *seeds}
    for text in printed:
        contents = text.encode(errors="replace") if isinstance(text, str) else text or b""
        holds(not any(tells(contents, it) for it in seeds), f"{words[:1]}: the seed is printed")
    folders = {os.path.realpath(folder)}
    for option, name in [("--state", STATE), *((it, given(words, it)) for it in ("--state", "--public", "--out", "--on"))]:
        if name:
            path = os.path.realpath(os.path.join(folder, name))
            folders.add(os.path.dirname(path))
            if option == "--state":
                STATES.update((path, f"{path}.new"))
                # (Its witness may be in another folder.)
                folders.add(os.path.dirname(os.path.realpath(f"{path}.witness")))
    others = {os.path.realpath(os.path.join(folder, record))} if record else set()
    others |= STATES | INPUTS
    for path in (os.path.join(it, name) for it in folders if os.path.isdir(it) for name in os.listdir(it)):
        if path not in others:
            contents = contents_of(path)
            holds(not any(tells(contents, it) for it in seeds), f"{words[:1]}: the seed is in {path}")
