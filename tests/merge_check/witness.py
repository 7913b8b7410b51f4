"""A key's witness: what `witness` makes, and when it makes none; which files are no witness of the key; a
medium that is missing; and files over which nothing is written.

A refusal leaves the state, the witness and all else as they were, and prints nothing. Older states and
`resume` are in `older_states`, drafts in `witness_drafts`; what the program asks of files is compared by
`file_steps`, and what a stop leaves by `crashes` and `power_cuts`."""

import os

from tests.harness import add_test, holds, test
from tests.merge_check.watched import BAD, CAPACITY, MOST, NO_COUNTERS, OLDER, ONE, THERE, UNREAD, UNWRITTEN, USERS
from tests.merge_check.watched import begin, made, refuses, refuses_all, say, uses
from tests.program import (
    BATCH, DRAFT, NODES, PLACE, SERVE, VERIFY, WITNESS, Lock, as_who_may_not, described, ends, fails, has, is_lock_free, join, keygen, mode_of, public, put, read,
    resume, sign, signs, witness,
)
from tests.reference import image, public_of, signature_of, witness_of


@test
def makes_a_witness_that_follows_the_state():
    """It is its owner's alone by each mask, and so is what takes its place; the link stays."""
    for mask in (0, 0o022, 0o077):
        how = {"umask": mask}
        os.mkdir("other")
        ends(keygen("5/4"), 0, "capacity 32\n", **how)
        state = read("key.state")
        ends(witness(), 0, made(0), **how)
        holds(is_lock_free(), "its lock is held")
        has("key.state", state)
        holds(os.readlink(WITNESS) == os.path.realpath(PLACE), f"the link leads to {os.readlink(WITNESS)}")
        index = 0
        for name in [*USERS, *USERS]:
            say(index)
            holds(mode_of(PLACE) == 0o600, f"the witness has the mode {mode_of(PLACE):o}")
            number, link = os.stat(PLACE).st_ino, os.lstat(WITNESS).st_ino
            index = uses(name, index, **how)
            holds(os.stat(PLACE).st_ino != number and os.lstat(WITNESS).st_ino == link, f"{name} wrote into the witness, or over the link")
        say(index)
        holds(os.listdir("other") == ["witness"], f"there is more beside the witness: {os.listdir('other')}")
        described("5/4", index, CAPACITY, 6, 0)
        os.remove(PLACE)
        os.rmdir("other")
        for name in os.listdir():
            if name != "text":
                os.remove(name)


@test
def makes_a_witness_of_a_used_key():
    """Of its counter, by another name of the folder, of a state of version 1, too."""
    os.mkdir("other")
    os.symlink("other", "medium")
    for state in (image(ONE, 7, 3, 2), image(ONE, 7, version=1), image(ONE, CAPACITY, 1)):
        put("key.state", state)
        counter = CAPACITY if state == image(ONE, CAPACITY, 1) else 7
        ends(witness(counter, "medium/../medium/witness"), 0, made(counter))
        has("key.state", state)
        has(PLACE, witness_of(counter))
        if counter == 7:
            say(uses("sign", 7))
        else:
            refuses(sign(), 4, "exhausted: 0 left")
        os.remove(PLACE)
        os.remove(WITNESS)


@test
def makes_a_witness_beside_the_state():
    """In a file of the witness's own name, which has no link then, however it is named."""
    for at, place in enumerate([WITNESS, f"./{WITNESS}", os.path.abspath(WITNESS)]):
        put("key.state", image(ONE, at))
        ends(witness(at, place), 0, made(at, WITNESS))
        holds(not os.path.islink(WITNESS) and mode_of(WITNESS) == 0o600, "it is a link, or not its owner's alone")
        say(uses("sign", at), WITNESS)
        put("key.state", image(ONE, at))
        refuses_all(OLDER)
        os.remove(WITNESS)


@test
def makes_none_of_another_counter():
    """Of several faults the first is reported. Nothing is written."""
    put("key.state", image(ONE, 7, 1))
    os.mkdir("other")
    with Lock():
        for text in NO_COUNTERS:
            refuses([*witness()[:-2], f"--counter={text}"], 2, "bad counter")
        refuses(witness(7), 3, "state in use")
    for text in (0, 6, 8, 2**64 - 1):
        refuses(witness(text), 3, "counter is 7")
    os.remove("key.state")
    refuses(witness(0), 3, "cannot read state")
    put("key.state", b"HSSK")
    refuses(witness(0), 3, "bad state: Truncated")


def put_at(path, what):
    """Puts something of this kind in the place of a name: it can't be read as a witness."""
    if what == "a folder":
        os.mkdir(path)
    elif what == "a pipe":
        os.mkfifo(path)
    elif what == "too long":
        put(path, witness_of(7) + bytes(MOST + 1 - len(witness_of(7))))
    elif what == "a link to itself":
        os.symlink(os.path.basename(path), path)
    elif what == "a device":
        os.symlink("/dev/zero", path)
    else:
        os.symlink("nowhere/witness", path)


def take_away(path):
    """Takes that away again."""
    (os.rmdir if os.path.isdir(path) and not os.path.islink(path) else os.remove)(path)


@test
def a_state_as_its_own_witness():
    """It is no text of one, or too long. No draft is made over an image that a stop left."""
    for levels, line in ((ONE, BAD), (ONE * 2, UNREAD)):
        put("key.state", image(levels, 5, 1))
        os.symlink("key.state", WITNESS)
        refuses_all(line)
        put("key.state.new", image(levels, 6, 2))
        refuses_all(UNWRITTEN if line == BAD else line)
        os.remove("key.state.new")
        os.remove(WITNESS)


@test
def a_missing_medium_before_a_bad_line():
    """The witness's fault comes first, and nothing is read."""
    begin(5)
    os.rename("other", "elsewhere")
    for words in (BATCH, SERVE):
        refuses(words, 3, UNREAD, input="-\n")


UNREADABLE = ["a folder", "a pipe", "too long", "a link to itself", "a device", "a link that leads nowhere"]


def cannot_read(what):
    """Something of the witness's name, or that a link of this name leads to, is no witness: it is not opened
    where that could block. No new key is made beside it."""
    state = image(ONE, 7, 1)
    os.mkdir("other")
    for name in (WITNESS, PLACE):
        put("key.state", state)
        put_at(name, what)
        if name == PLACE:
            os.symlink(os.path.abspath(PLACE), WITNESS)
        refuses_all(UNREAD)
        refuses(resume(8), 3, UNREAD)
        refuses(witness(7, "other/new"), 3, UNREAD)
        os.remove("key.state")
        refuses(keygen("5/4"), 3, UNREAD)
        # (These do not look at it.)
        put("key.state", state)
        described("5/4", 7, CAPACITY, 1, 0)
        ends(public(), 0, "capacity 32\n")
        put("text.sig", signature_of(ONE, 3, b"abc"))
        ends(VERIFY, 0, "valid\n")
        os.remove("text.sig")
        take_away(name)
    os.remove(WITNESS)
    signs(ONE, 7)


for kind in UNREADABLE:
    add_test(f"a witness that is {kind}", cannot_read, kind)


@test
def a_medium_that_is_not_there():
    """Once it is back, all goes on."""
    begin(7)
    os.rename("other", "elsewhere")
    refuses_all(UNREAD)
    refuses(resume(7), 3, UNREAD)
    os.mkdir("other")
    refuses_all(UNREAD)
    os.rmdir("other")
    os.rename("elsewhere", "other")
    say(uses("sign", 7))


@test
def may_not_read_the_witness():
    begin(7)
    how = as_who_may_not()
    for name in (PLACE, "other"):
        mode = mode_of(name)
        os.chmod(name, 0)
        fails(sign(), 3, UNREAD, **how)
        os.chmod(name, mode)
    say(7)
    ends(sign(), 0, "index 7\n", **how)
    say(8)


@test
def makes_no_second_witness():
    """Whatever the first one is, nor a new key beside one. Nothing is written over, also later: none is made under
    a name that the program writes beside the state, nor where its own draft's name is taken."""
    put("key.state", image(ONE, 7, 1))
    os.mkdir("other")
    for text in (witness_of(7), witness_of(7, bytes(16)), b"", b"text", bytes(MOST)):
        put(WITNESS, text)
        refuses(witness(7), 3, THERE)
        os.remove("key.state")
        refuses(keygen("5/4"), 3, THERE)
        put("key.state", image(ONE, 7, 1))
    os.remove(WITNESS)
    for what in ("a file", "a folder", "a pipe", "a link that leads nowhere"):
        if what == "a file":
            put(PLACE, b"")
        else:
            put_at(PLACE, what)
        refuses(witness(7), 3, UNWRITTEN)
        take_away(PLACE)
    for name in ("nowhere/witness", "key.state", "key.state.new", NODES, DRAFT, "key.state.lock"):
        refuses(witness(7, name), 3, UNWRITTEN)
    put(f"{PLACE}.new", b"left by a stop")
    refuses(witness(7), 3, UNWRITTEN)
    os.remove(f"{PLACE}.new")
    refuses(witness(7, ""), 3, UNWRITTEN)
    ends(witness(7), 0, made(7))


@test
def may_not_make_one():
    """In the folder of the witness, or in that of the state: no new file is left."""
    put("key.state", image(ONE, 7, 1))
    os.mkdir("other")
    how = as_who_may_not()
    for folder in ("other", "."):
        os.chmod(folder, 0o500)
        refuses(witness(7), 3, UNWRITTEN, **how)
        os.chmod(folder, 0o700)
    ends(witness(7), 0, made(7), **how)


LINE = witness_of(5)
# Texts that are no witness of the key, whose state counts 5 indices, and what is said of them.
TEXTS = {
    "cut by a byte": (LINE[:-1], BAD),
    "empty": (b"", BAD),
    "a line of its own": (b"\n", BAD),
    "cut before the number": (LINE[:-2], BAD),
    "without a number": (LINE[:-2] + b"\n", BAD),
    "of another identifier": (witness_of(5, b"\x22" * 15 + b"\x23"), BAD),
    "with a leading zero": (LINE[:-2] + b"05\n", BAD),
    "with a sign": (LINE[:-2] + b"+5\n", BAD),
    "of a negative number": (LINE[:-2] + b"-5\n", BAD),
    "with a blank": (LINE[:-2] + b" 5\n", BAD),
    "with a blank after it": (LINE[:-1] + b" \n", BAD),
    "of 2^64": (witness_of(2**64), BAD),
    "of a long number": (LINE[:-2] + b"7" * 59 + b"\n", BAD),
    "ended by CR and LF": (LINE[:-1] + b"\r\n", BAD),
    "of a line and an empty one": (LINE + b"\n", BAD),
    "of two lines": (LINE * 2, UNREAD),
    "with a line before it": (b"\n" + LINE, BAD),
    "in capitals": (LINE.upper(), BAD),
    "of blanks": (b" " * MOST, BAD),
    "of zeros": (bytes(len(LINE)), BAD),
    "changed in its first byte": (b"I" + LINE[1:], BAD),
    "of the most that there is": (witness_of(2**64 - 1), OLDER),
    "of one more": (witness_of(6), OLDER),
}


def is_no_witness(text, line):
    """Each command refuses that, and `resume` does so, too, but where it says more."""
    begin(5)
    put(PLACE, text)
    refuses_all(line)
    if line != OLDER:
        refuses(resume(6), 3, line)
    put(PLACE, LINE)
    say(uses("sign", 5))


for kind, (contents, fault) in TEXTS.items():
    add_test(f"a witness {kind}", is_no_witness, contents, fault)


@test
def reads_digits_of_identifiers_with_letters():
    """In small letters alone."""
    identifier = bytes(range(0xA0, 0xB0))
    os.mkdir("other")
    ends(keygen("5/4", identifier=identifier.hex()), 0, "capacity 32\n")
    ends(witness(), 0, f"{witness_of(0, identifier).decode()}{os.path.realpath(PLACE)}\n")
    ends(sign(), 0, "index 0\n")
    has(PLACE, witness_of(1, identifier))
    digits = identifier.hex().encode()
    put(PLACE, witness_of(1, identifier).replace(digits, digits.upper()))
    refuses_all(BAD)


@test
def a_witness_through_several_links():
    """The last one's file is replaced, and no link."""
    begin(5)
    os.remove(WITNESS)
    os.mkdir("links")
    os.symlink("links/first", WITNESS)
    os.symlink("second", "links/first")
    os.symlink("../other/witness", "links/second")
    links = [os.readlink(it) for it in (WITNESS, "links/first", "links/second")]
    say(uses("sign", 5))
    holds([os.readlink(it) for it in (WITNESS, "links/first", "links/second")] == links, "a link is replaced")
    put("key.state", image(ONE, 5, 1))
    refuses_all(OLDER)


@test
def nothing_is_written_over_a_witness():
    """By its name, by its file's, and where it is another key's, or a draft, or only begins as one."""
    begin(5)
    index, other = 5, witness_of(7, bytes(16))
    top, signer = public_of(((5, 1),), b"\x44" * 32), public_of(ONE)
    for text in (None, other, b"HSS key ", b"HSS key " + bytes(MOST - 8)):
        for name in (PLACE, WITNESS) if text is None else ("file",):
            if text is not None:
                put(name, text)
            fails(sign(out=name), 6, "cannot write output")
            index += 1
            say(index)
            refuses(public(name=name), 6, "cannot write output")
            put("top.pub", top)
            put("signer.pub", signer)
            refuses(["join-public", "--public", "top.pub", "--signer", "signer.pub", "--out", name], 6, "cannot write output")
            if text is not None:
                has(name, text)
    put("file", other)
    fails(keygen("5/4", state="another", public="file"), 6, "cannot write output")
    has("file", other)
    for text in (b"HSS key", b"HSS key " + bytes(MOST - 7), b"HSS Key 1", b"hss key 1"):
        put("file", text)
        ends(public(name="file"), 0, "capacity 32\n")
        has("file", public_of(ONE))


@test
def joins_over_no_witness():
    """As `join-public`, with what is joined in place."""
    begin(5)
    key = public_of(ONE)
    put("key.pub", key)
    put("key.end", signature_of(ONE, 9, key[4:]))
    put("text.sig", signature_of(ONE, 3, b"abc"))
    refuses(join("key.pub", "key.end", "key.pub", "text.sig", PLACE), 6, "cannot write output")
    ends(join("key.pub", "key.end", "key.pub", "text.sig", "joined.sig"), 0)
