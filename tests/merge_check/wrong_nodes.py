"""Stored nodes that are none of a key's, or not those of an index, for `kept_nodes`."""

from tests.reference import checked, kept_parts, number, way_of


def changed(contents, at):
    """These bytes, the one at this place changed."""
    return contents[:at] + bytes([contents[at] ^ 1]) + contents[at:][1:]


def damaged(levels, index):
    """Stored nodes without the right check value, each with what it is."""
    parts = kept_parts(index, way_of(levels, index))
    right = checked(levels, parts)
    yield from {"no byte": b"", "a byte": right[:1], "half": right[: len(right) // 2], "a byte less": right[:-1]}.items()
    yield from {"a byte more": right + b"\0", "twice": right * 2, "zeros": bytes(len(right))}.items()
    start = 0
    for at, part in enumerate([*parts, right[-32:]]):
        yield f"part {at}, its first byte", changed(right, start)
        start += len(part)
        yield f"part {at}, its last byte", changed(right, start - 1)
    yield "of levels of other widths", checked(((5, 1), (5, 2)), parts)
    yield "of more levels", checked(((5, 1),) * 3, parts)
    seed = b"\x44" * 32
    yield "of another seed", checked(levels, kept_parts(index, way_of(levels, index, seed=seed)), seed)


def misfitting(levels, index):
    """Stored nodes with the right check value that have another form, or nodes of other trees, each
    with what it is."""
    way = way_of(levels, index)
    parts = kept_parts(index, way)
    word, version, _, upper, _, signed, *below = parts
    texts = {
        "another word": [b"HSSK", *parts[1:]],
        "another version": kept_parts(index, way, version=2),
        "an index past the last one": [word, version, number(2 ** sum(height for height, _ in levels), 8), *parts[3:]],
        "the greatest index": [word, version, number(2**64 - 1, 8), *parts[3:]],
        "the way of another index": [word, version, number(index ^ 32, 8), *parts[3:]],
        "no level": parts[:3],
        "less than a level": [*parts[:-1], parts[-1][:-1]],
        "more than all levels": [*parts, b"\0"],
        "another root of the top tree": [*parts[:3], changed(upper, 0), *parts[4:]],
        "another node beside the leaf": [*parts[:-1], changed(below[1], -32 * (32 - (index % 32 ^ 1)))],
        "trees of another seed": kept_parts(index, way_of(levels, index, seed=b"\x44" * 32)),
    }
    for at in (0, 4, 8, 40, len(signed) - 57, len(signed) - 1):
        texts[f"byte {at} of what is signed"] = [*parts[:5], changed(signed, at), *below]
    return {what: checked(levels, text) for what, text in texts.items()}


def wrong_way(levels, index, level, leaf):
    """The way of an index, with another node in place of a leaf's in the tree of one level. All
    above it, and all that is signed of trees, is made from that."""
    way = []
    for at, (one, its, _) in enumerate(way_of(levels, index)):
        one = one.altered(leaf) if at == level else one
        way.append((one, its, way[-1][0].signed_key(way[-1][1], one) if way else b""))
    return way
