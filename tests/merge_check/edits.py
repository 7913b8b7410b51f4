"""Edits of a crate's code that the prover has to refuse, and which function each changes.

Those of `wrong-bodies.edits` are one after another, a blank line between, each after a line
`edit: NAME`; else they are as the toolchain has them: a line `file: PATH`, and pairs of lines
`old: TEXT` and `new: TEXT`."""

import pathlib
import re

from tests.harness import Wrong
from tests.merge_check.crates import read

# Where a crate's edits are.
WRONG_BODIES, MUST_FAIL = "wrong-bodies.edits", "must-fail"


def edits_of(crate, place):
    """The edits of a crate that are in this place."""
    if place == MUST_FAIL:
        return [Edit(crate, it.stem, it.read_text(encoding="utf-8")) for it in sorted((crate / place).glob("*.edit"))]
    found = [it.partition("\n") for it in (crate / place).read_text(encoding="utf-8").strip("\n").split("\n\n")]
    heads = [head for head, _, _ in found]
    if not all(re.fullmatch(r"edit: \w+", it) for it in heads) or len(set(heads)) < len(heads):
        raise Wrong(f"crates/{crate.name}/{place} has an edit without its line, or two of one name")
    return [Edit(crate, head.removeprefix("edit: "), text) for head, _, text in found]


class Edit:
    """A piece of code that takes the place of another one, in one or more files of a crate."""

    def __init__(self, crate, name, text):
        self.name, self.crate = name, crate
        self.pairs, path, old = [], None, None
        for line in text.split("\n"):
            word, _, rest = line.partition(": ")
            if word == "file":
                path = rest.strip()
            elif word == "old":
                old = rest
            elif word.removesuffix(":") == "new":
                self.pairs.append((path, old, rest))
        places = [edited_function(self.crate, path, old) for path, old, _ in self.pairs]
        self.functions = {function for function, _ in places}
        # What changes a contract, a type or a constant may leave other functions unproved.
        self.is_of_bodies = all(is_in_body for _, is_in_body in places)

    def changes(self, name):
        """Whether it changes a function, by the name that a check has for it, or may change it."""
        return None in self.functions or any(names(self.crate.name, it).fullmatch(name) for it in self.functions)

    def apply(self, texts):
        """The files' contents with this edit in them, or None where what it replaces is not there
        exactly once."""
        texts = dict(texts)
        for path, old, new in self.pairs:
            text = texts.get(path) or read(self.crate / path)
            if text.count(old) != 1:
                return None
            texts[path] = text.replace(old, new)
        return texts


def edited_function(crate, path, old):
    """The file, the type with its trait, and the name of the function in which a piece of code is,
    or None where it is in none, and whether it is in the body."""
    text = read(crate / path)
    at = text.find(old)
    if not path.endswith(".rt") or at < 0:
        return None, False
    # (the piece may begin with the function's first line)
    heads = list(re.finditer(r"(?m)^( *)(?:pub(?:\([^)]*\))? )?(?:const |unsafe |extern \"C\" )*fn (\w+)", text[: at + len(old)]))
    if not heads:
        return None, False
    (margin, name), start = heads[-1].groups(), heads[-1].start()
    before = text[start:at]
    if re.search(rf"(?m)^{margin}\}}$", before):
        return None, False
    blocks = re.findall(r"(?m)^impl\b(?:<.*?>)? ?([^{]*)\{", text[:at]) if margin else []
    # Where there is a contract, the body begins on a line of its own.
    is_in_body = re.search(rf"(?m)^{margin}\{{$|\A.*\{{$", before) is not None
    return (path, words_of(blocks[-1]) if blocks else "", name), is_in_body


def words_of(head):
    """The type of an `impl`, followed by the trait where it has one, as a check names it."""
    head = re.sub(r"(?s)\bwhere\b.*|'\w+|\w+::", "", head)
    # A trait's arguments are in its name, a type's are not.
    trait, _, block = head.partition(" for ") if " for " in head else ("", "", head)
    return "".join([*re.findall(r"\w+", block)[:1], *re.findall(r"\w+", trait)])


def names(crate, function):
    """What a check calls a function, and the closures in it: by its module, or, where it is a
    method, by its type, wherever that is."""
    path, block, name = function
    modules = "".join(f"{it}::" for it in pathlib.PurePath(path).with_suffix("").parts[1:] if it not in ("lib", "main"))
    place = r"(?:\w+::)*" if block else modules
    own = "::".join([it for it in (block, name) if it])
    return re.compile(rf"{crate}::{place}(?:{own}|fn::{own}::\S+)")
