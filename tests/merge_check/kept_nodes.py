"""The program beside kept nodes: right ones, wrong ones, none, and what else is in their place."""

import functools
import os
import resource
import socket
import subprocess

from tests.harness import Skipped, Wrong, holds, test
from tests.merge_check.wrong_nodes import damaged, misfitting, wrong_way
from tests.program import (
    BATCH, DRAFT, NODES, PROGRAM, SERVE, VERIFY, as_who_may_not, described, ends, fails, has, job_lines, keeps, keygen, put, read, sign,
    signs,
)
from tests.reference import CHAINS, SUBTREE, checked, image, kept, kept_parts, number, public_of, signature_of, way_of

# A level whose trees are quickly made.
QUICK = (5, 1)
LEVELS = (QUICK, QUICK)
# In kilobytes, more than the program takes of memory, and less than a file has that it is not to
# read.
MOST_MEMORY = 2**19


def put_nodes(nodes):
    """These nodes are kept, or none."""
    if nodes is not None:
        put(NODES, nodes)
    elif os.path.exists(NODES):
        os.remove(NODES)


def begins_at(levels, index, nodes=None):
    """The state gives this index next, and these nodes are kept, or none."""
    put("key.state", image(levels, index))
    put_nodes(nodes)


def meets(nodes, make=None, name=NODES, levels=LEVELS, index=33, at=33, **how):
    """The index signs beside these nodes, or none, and what `make` puts there by that name. Then
    right nodes are kept, written at the index `at`."""
    begins_at(levels, index, nodes)
    if make:
        make(name)
    signs(levels, index, timeout=60, **how)
    keeps(levels, at)


def marks_nodes():
    """Marks the file of nodes, until it is written again."""
    os.utime(NODES, (0, 0))


def are_marked():
    return os.stat(NODES).st_mtime == 0


def goes_on(levels, indices, at):
    """Signs by these indices, where nodes were written at the index `at`, or are not there. At
    which index they are written last."""
    height = min(levels[-1][0], SUBTREE)
    for openings, index in enumerate(indices, 1):
        is_on_way = at is not None and at >> height == index >> height
        at = at if is_on_way else index
        if is_on_way:
            marks_nodes()
        signs(levels, index)
        has("key.state", image(levels, index + 1, openings))
        ends(VERIFY, 0, "valid\n")
        keeps(levels, at)
        holds(are_marked() == is_on_way, f"the nodes were {'' if is_on_way else 'not '}written at index {index}")
    return at


@test
def signs_by_kept_trees():
    """Over the ends of trees of each level, to the last index. Nodes are written only where an
    index goes through other ones."""
    many = [(QUICK,) * count for count in range(4, 9)]
    for levels in [LEVELS, ((5, 8), (5, 8)), ((10, 1), QUICK), (QUICK, (10, 1)), (QUICK, (5, 2), QUICK), *many]:
        capacity, at = 2 ** sum(height for height, _ in levels), None
        put("key.pub", public_of(levels))
        for first in (30, 1022, capacity - 2):
            put("key.state", image(levels, first))
            at = goes_on(levels, range(first, min(first + 4, capacity)), at)
        fails(sign(), 4, "exhausted: 0 left")
        keeps(levels, at)
        os.remove(NODES)


@test
def signs_by_a_tall_tree():
    """The nodes of one bottom subtree are kept, and all those above such subtrees. `reference`
    makes no tree of height 15: the signatures are valid under the public key, and what is kept at
    the last index, after others, is what is computed there."""
    levels = ((15, 1),)
    ends(keygen("15/1"), 0, "capacity 32768\n")
    for index, at in [(0, 0), (1023, 0), (1024, 1024), (32767, 32767)]:
        put("key.state", image(levels, index))
        ends(sign(), 0, f"index {index}\n")
        ends(VERIFY, 0, "valid\n")
        text = read(NODES)
        holds(len(text) == 16 + 32 * 63 + 32 * 2047 + 32, f"nodes of {len(text)} bytes")
        holds(text == checked(levels, [b"HSSN", number(1, 4), number(at, 8), text[16:-32]]), f"the nodes are not of index {at}")
    fails(sign(), 4, "exhausted: 0 left")
    begins_at(levels, 32767)
    ends(sign(), 0, "index 32767\n")
    has(NODES, text)


@test
def signs_whatever_is_kept():
    """Nothing is printed about nodes that are none of the key's; the right ones are written in
    their place."""
    for what, text in [*damaged(LEVELS, 33), *misfitting(LEVELS, 33).items()]:
        try:
            holds(text != kept(LEVELS, 33), "the nodes are right")
            meets(text)
        except Wrong as why:
            raise Wrong(f"{what}: {why}") from why


@test
def signs_by_what_was_kept():
    """By nodes of earlier and later indices, and of some levels from the top. They stay where the
    index uses them."""
    levels = (QUICK, QUICK, QUICK)
    for index, held, at in [
        (0, None, 1057),
        (1023, None, 1057),
        (1055, None, 1057),
        (1056, None, 1056),
        (1087, None, 1087),
        (1088, None, 1057),
        (32767, None, 1057),
        *((index, held, 1057) for index in (0, 1023, 1057, 1088, 32767) for held in (1, 2)),
    ]:
        meets(kept(levels, index, held), levels=levels, index=1057, at=at)


def make_long(name, size):
    put(name, b"")
    os.truncate(name, size)


def make_socket(name):
    with socket.socket(socket.AF_UNIX) as it:
        it.bind(name)


@test
def meets_what_is_no_file_of_nodes():
    """What else is in their place is not opened, nor a long file read. A plain file takes its place."""
    put("others", kept(LEVELS, 33))
    for make in [
        os.mkfifo,
        make_socket,
        *(functools.partial(os.symlink, target) for target in ("nowhere", "/dev/zero", "others")),
        lambda name: make_long(name, 2**40),
    ]:
        meets(None, make, preexec_fn=lambda: resource.setrlimit(resource.RLIMIT_AS, (2**30, 2**30)))
    holds(not os.path.lexists("nowhere"), "a file was made where a link led")
    begins_at(LEVELS, 34)
    make_long(NODES, 2**31)
    with subprocess.Popen([PROGRAM, *sign()], stdout=subprocess.PIPE, stderr=subprocess.STDOUT) as running:
        _, status, used = os.wait4(running.pid, 0)
        said = running.stdout.read()
    holds((status, said) == (0, b"index 34\n"), f"beside a long file: {status} {said!r}")
    holds(used.ru_maxrss < MOST_MEMORY, "a long file was held in memory")
    has("text.sig", signature_of(LEVELS, 34, b"abc"))
    keeps(LEVELS, 34)


@test
def meets_a_folder_in_place_of_nodes():
    """It stays, and the program signs without kept nodes."""
    os.mkdir(NODES)
    put("key.state", image(LEVELS, 31))
    for index in (31, 32):
        signs(LEVELS, index)
        holds(os.listdir(NODES) == [], "something is in the folder")
        holds(not os.path.lexists(DRAFT), "a draft of the nodes is left")


@test
def meets_what_is_in_place_of_a_draft():
    """A draft that a crash left, or what else is there, is removed. A folder stays, and no nodes
    are written."""
    older = kept(LEVELS, 0)
    put("others", bytes(3000))
    for make in [
        lambda name: put(name, bytes(30000)),
        os.mkfifo,
        lambda name: os.symlink("others", name),
        lambda name: os.symlink("nowhere", name),
    ]:
        meets(older, make, DRAFT)
    has("others", bytes(3000))
    holds(not os.path.lexists("nowhere"), "a file was made where a link led")
    begins_at(LEVELS, 33, older)
    os.mkdir(DRAFT)
    signs(LEVELS, 33)
    has(NODES, older)
    os.rmdir(DRAFT)
    signs(LEVELS, 34)
    keeps(LEVELS, 34)


@test
def meets_a_full_file_system():
    """It has space for the state and the signature, and not for the nodes: the program signs
    without these."""
    levels = ((10, 1),)
    put("key.state", image(levels, 5))
    os.mkdir("disk")
    script = 'mount -t tmpfs -o size=32k disk disk && cd disk && cp ../key.state ../text . && "$@" && ls && mv key.state text.sig ..'
    words = ["-rm" if os.geteuid() else "-m", "sh", "-c", script, "sh"]
    try:
        subprocess.run(["unshare", *words, "touch", "text.sig"], capture_output=True, check=True)
    except (OSError, subprocess.SubprocessError) as why:
        raise Skipped(f"no file system can be made here: {why}") from why
    ends([*words, PROGRAM, *sign()], 0, "index 5\nkey.state\nkey.state.lock\ntext\ntext.sig\n", program="unshare")
    has("key.state", image(levels, 6, 1))
    has("text.sig", signature_of(levels, 5, b"abc"))


@test
def meets_a_name_too_long_for_nodes():
    """The longest name of a state that leaves space for its witness's: no draft of nodes can be beside
    it. With a longer one nothing is signed."""
    name = "k" * (os.pathconf(".", "PC_NAME_MAX") - len(".witness"))
    put(name, image(LEVELS, 31))
    for index in (31, 32):
        signs(LEVELS, index, state=name)
    holds(sorted(os.listdir()) == [name, f"{name}.lock", "text", "text.sig"], "something else was written")
    os.rename(name, f"{name}k")
    fails(sign(state=f"{name}k"), 3, "cannot read witness")
    has(f"{name}k", image(LEVELS, 33, 2))


@test
def writes_nodes_in_their_turn():
    """After the state is stored, and before the signature is written; beside the state that a link
    leads to."""
    put("key.state", image(LEVELS, 33))
    os.mkdir("key.state.new")
    fails(sign(), 3, "cannot write state: 33 to 33 burnt")
    holds(not os.path.lexists(NODES), "nodes were written beside a state that was not stored")
    os.rmdir("key.state.new")
    fails(sign(out="/dev/full"), 6, "cannot write output")
    keeps(LEVELS, 33)
    os.mkdir("there")
    os.rename("key.state", "there/state")
    os.remove(NODES)
    os.symlink("there/state", "key.state")
    signs(LEVELS, 34)
    has("there/state.nodes", kept(LEVELS, 34))
    holds(not os.path.lexists(NODES), "nodes were written beside a link")


@test
def may_not_read_nodes():
    begins_at(LEVELS, 32)
    signs(LEVELS, 32)
    how = as_who_may_not()
    os.chmod(NODES, 0)
    signs(LEVELS, 33, **how)
    keeps(LEVELS, 33)


def answers(first, count):
    """So many jobs for a `batch` and for a `serve` are answered by the signatures of the indices from the
    first one on."""
    for words in (BATCH, SERVE):
        lines = "".join(f"{index} {signature_of(LEVELS, index, b'abc').hex()}\n" for index in range(first, first + count))
        ends(words, 0, lines, input=job_lines(*[b"abc"] * count).decode(), timeout=60)
        first += count


@test
def leaves_nodes_to_sign():
    """`info`, `verify`, `batch` and `serve` neither read nor write nodes that are kept."""
    put("key.pub", public_of(LEVELS))
    begins_at(LEVELS, 29)
    signs(LEVELS, 29)
    marks_nodes()
    described("5/1,5/1", 30, 1024, 1, 0)
    ends(VERIFY, 0, "valid\n")
    wrong = checked(LEVELS, kept_parts(36, wrong_way(LEVELS, 36, 0, 20)))
    answers(30, 3)
    has(NODES, kept(LEVELS, 29))
    holds(are_marked(), "the nodes were written again")
    put(NODES, wrong)
    answers(36, 3)
    has(NODES, wrong)
    os.remove(NODES)
    os.mkfifo(NODES)
    answers(42, 3)
    described("5/1,5/1", 48, 1024, 7, 0)


@test
def signs_by_wrong_nodes():
    """Nodes that fit each other, with the right check value, which only the seed makes. Signatures
    use them while the index goes through their trees. Other trees are computed, and signed as
    usual, but for the path, which is of the nodes above."""
    levels = (QUICK, QUICK, QUICK)
    put("key.pub", public_of(levels))
    for level, status, verdict in [(0, 1, "invalid"), (1, 0, "valid"), (2, 0, "valid")]:
        way = wrong_way(levels, 1020, level, 20)
        text = checked(levels, kept_parts(1020, way))
        begins_at(levels, 1020, text)
        for index in range(1020, 1027):
            way = way_of(levels, index, way)
            if index == 1024:
                text = checked(levels, kept_parts(index, way))
            signs(levels, index, way)
            has(NODES, text)
            ends(VERIFY, status, f"{verdict}\n")


def signed_key(text, at):
    """Of a signed public key that begins here: the leaf that signs, its one-time signature with the
    key that it signs, and where it ends."""
    path = at + 8 + 32 * (CHAINS[QUICK[1]][1] + 1)
    public = path + 4 + 32 * QUICK[0]
    return int.from_bytes(text[at : at + 4], "big"), text[at:path] + text[public : public + 56], public + 56


@test
def uses_no_one_time_key_twice():
    """While right and wrong nodes are kept in turn, over the ends of trees, no index is given
    twice, and each one-time key of the upper level signs one public key alone, in signatures and in
    kept nodes."""
    put("key.pub", public_of(LEVELS))
    top, (one, leaf, signed) = way_of(LEVELS, 40)
    wrong = {
        # In the top tree: of this index, none, and of an index below the leaf before.
        29: kept_parts(29, wrong_way(LEVELS, 29, 0, 20)),
        31: None,
        32: kept_parts(31, wrong_way(LEVELS, 31, 0, 20)),
        # In the bottom tree, whose public key is signed as ever: no signature by it is accepted.
        40: kept_parts(40, [top, (one.altered(20), leaf, signed)]),
        # At the leaf of the top tree that index 64 goes through: none is accepted from there on.
        45: kept_parts(45, wrong_way(LEVELS, 45, 0, 2)),
    }
    used, given = {}, []
    begins_at(LEVELS, 28)
    for index in range(28, 68):
        if index in wrong:
            put_nodes(wrong[index] and checked(LEVELS, wrong[index]))
        ends(sign(), 0, f"index {index}\n")
        is_wrong = index in (29, 30, *range(32, 40), *range(45, 64))
        ends(VERIFY, int(is_wrong), "invalid\n" if is_wrong else "valid\n")
        for name, at in [("text.sig", 4), (NODES, 16 + 32 * 64)]:
            text = read(name)
            above, key, end = signed_key(text, at)
            holds(used.setdefault(above, key) == key, f"the one-time key of leaf {above} signed two keys, by {name}")
            if name == "text.sig":
                given.append(32 * above + int.from_bytes(text[end : end + 4], "big"))
    holds(given == list(range(28, 68)), f"the signatures are by {given}")


@test
def keeps_the_top_tree_of_a_new_key():
    """For one level these are all nodes that the first signature needs."""
    for levels, text, capacity in [((QUICK,) * 3, "5/1,5/1,5/1", 32768), (((5, 2),), "5/2", 32)]:
        put(NODES, kept(LEVELS, 33))
        ends(keygen(text), 0, f"capacity {capacity}\n")
        keeps(levels, 0, held=1)
        marks_nodes()
        signs(levels, 0)
        keeps(levels, 0)
        holds(are_marked() == (len(levels) == 1), "the nodes were written where they were whole, or were not where they were not")
        os.remove("key.state")


@test
def makes_a_key_without_nodes():
    """No nodes are kept where something is in their way, or where the state is not stored or
    exists; they are written before the public key."""
    words = keygen("5/1,5/1")
    os.mkdir(NODES)
    ends(words, 0, "capacity 1024\n")
    has("key.pub", public_of(LEVELS))
    has("key.state", image(LEVELS, 0))
    holds(not os.path.lexists(DRAFT), "a draft of the nodes is left")
    os.rmdir(NODES)
    fails(words, 3, "state exists")
    os.remove("key.state")
    os.mkdir("key.state.new")
    fails(words, 3, "cannot write state")
    holds(not os.path.lexists(NODES), "nodes are kept of a state that was not stored")
    os.rmdir("key.state.new")
    os.remove("key.pub")
    os.mkdir("key.pub")
    fails(words, 6, "cannot write output")
    has("key.state", image(LEVELS, 0))
    keeps(LEVELS, 0, held=1)
