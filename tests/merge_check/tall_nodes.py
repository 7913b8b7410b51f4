"""`sign` by kept nodes of the tallest trees, which nobody computes: made-up nodes, with the right check
value. A key of `25/1,25/1` and one whose kept nodes are the longest that there are.

The nodes are used as they are, and written again where an index goes through another bottom subtree or
another tree, which is quickly computed. Were they not used, the program would compute for minutes."""

import os

from tests.harness import holds, test
from tests.merge_check.made_up_trees import MadeUpTree
from tests.program import NODES, VERIFY, ends, has, put, signs, taken
from tests.reference import IDENTIFIER, SEED, SUBTREE, checked, derived, image, kept_parts, number, tree

# In seconds: what a signature takes of a processor at most, and on the clock, on a machine with much else
# to do.
MOST, MOST_WAITED = 5, 60
# A leaf in the middle of a top tree.
ABOVE = 2**24 + 12345


def below(leaf, one):
    """The identifier and the seed of the tree below a leaf."""
    return derived(one.identifier, one.seed, leaf, 0xFFFF)[:16], derived(one.identifier, one.seed, leaf, 0xFFFE)


def goes_on(levels, ways):
    """Signs by these indices, each with its way and whether nodes are written at it. The first one's nodes
    are kept before."""
    text = None
    for index, (way, writes) in ways.items():
        if text is None:
            text = checked(levels, kept_parts(index, way))
            put(NODES, text)
            put("key.state", image(levels, index))
            put("key.pub", number(len(levels), 4) + way[0][0].public())
        elif writes:
            text = checked(levels, kept_parts(index, way))
        os.utime(NODES, (0, 0))
        begun = taken()
        signs(levels, index, way, timeout=MOST_WAITED)
        holds(taken() - begun < MOST, f"the signature by index {index} took {taken() - begun:.1f} seconds of the processors")
        has(NODES, text)
        holds((os.stat(NODES).st_mtime == 0) != writes, f"the nodes were {'not ' if writes else ''}written at index {index}")
        ends(VERIFY, 0, "valid\n")


@test
def signs_at_the_edge_of_two_bottom_subtrees():
    """Of a bottom tree of height 25, below one of height 25: 1024 leaves are computed there."""
    levels, edge = ((25, 1), (25, 1)), 20000 << SUBTREE
    top = MadeUpTree(*levels[0], IDENTIFIER, SEED, {ABOVE >> SUBTREE: [ABOVE]})
    subtrees = {edge - 1 >> SUBTREE: [edge - 2, edge - 1], edge >> SUBTREE: range(edge, edge + 2**SUBTREE)}
    bottom = MadeUpTree(*levels[1], *below(ABOVE, top), subtrees)
    signed = top.signed_key(ABOVE, bottom)
    first = ABOVE << 25
    goes_on(levels, {first + leaf: ([(top, ABOVE, b""), (bottom, leaf, signed)], leaf == edge) for leaf in range(edge - 2, edge + 2)})


@test
def signs_by_the_longest_nodes():
    """By the last leaf of a tree of height 10 and by the first one of the next tree, which is computed."""
    levels = ((25, 1), (25, 1), (10, 1))
    top = MadeUpTree(*levels[0], IDENTIFIER, SEED, {ABOVE >> SUBTREE: [ABOVE]})
    middle = MadeUpTree(*levels[1], *below(ABOVE, top), {ABOVE >> SUBTREE: [ABOVE, ABOVE + 1]})
    ways = {}
    for leaf, last, writes in [(ABOVE, 2**10 - 1, False), (ABOVE + 1, 0, True)]:
        bottom = tree(*levels[2], *below(leaf, middle)) if writes else MadeUpTree(*levels[2], *below(leaf, middle), {0: [last]})
        way = [(top, ABOVE, b""), (middle, leaf, top.signed_key(ABOVE, middle)), (bottom, last, middle.signed_key(leaf, bottom))]
        ways[(ABOVE << 25 | leaf) << 10 | last] = way, writes
    goes_on(levels, ways)
