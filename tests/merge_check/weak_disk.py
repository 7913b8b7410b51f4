"""A model of a weak file system, for `power_cuts` and `random_lives`: what a loss of power may
leave of files and names that are not flushed. A key's witness is in another folder, of which nothing is
flushed with others, as if it were another disk."""

import itertools
import math
import os
import random
import stat

from tests.harness import holds
from tests.program import put

# The most states that are tried of a moment, and of a file.
MOST_STATES = 4000
# How links to witnesses and to public keys are named.
LINKS = (".witness", ".link")
# What may become of a write that is not flushed: what of its bytes is written.
FATES = {
    "lost": lambda part: b"",
    "as zeros": lambda part: bytes(len(part)),
    "its second half after zeros": lambda part: bytes(len(part) // 2) + part[len(part) // 2 :],
    "its first half": lambda part: part[: len(part) // 2],
    "whole": lambda part: part,
}


def written(contents, at, part):
    """A file's bytes after this part is written there."""
    return contents[:at].ljust(at, b"\0") + part + contents[at + len(part) :] if part else contents


def cut(contents, length):
    """A file's bytes after it is cut, or made longer, to this length."""
    return contents[:length].ljust(length, b"\0")


def ways(lists):
    """How many choices there are of one out of each list."""
    return math.prod(len(it) for it in lists)


def some(lists, most):
    """Choices of one out of each list: all, or so many where there are more, with all first ones
    and all last ones among them."""
    if ways(lists) <= most:
        yield from itertools.product(*lists)
        return
    dice = random.Random(8554)
    yield from ([it[at] for it in lists] for at in (0, -1))
    yield from ([dice.choice(it) for it in lists] for _ in range(most - 2))


class Link(bytes):
    """Where a link leads, by a path from the folder."""


class File:
    """A file: its bytes, those that are flushed, and its changes since: where a part was written, or None
    and the length to which it was cut. Or a link."""

    def __init__(self, contents=b""):
        self.contents = self.flushed = contents
        self.changes = []

    def change(self, at, part, what):
        """Writes a part, or cuts the file."""
        self.contents = cut(self.contents, part) if at is None else written(self.contents, at, part)
        self.changes.append((at, part, what))

    def flush(self):
        """Flushes all changes."""
        self.flushed, self.changes = self.contents, []

    def fates(self):
        """What may become of each change."""
        return [["lost", "whole"] if at is None else [*FATES] for at, _, _ in self.changes]

    def left(self, fates):
        """What a loss of power leaves where each change has its fate, and what is lost."""
        contents = self.flushed
        for (at, part, _), fate in zip(self.changes, fates):
            if at is not None:
                contents = written(contents, at, FATES[fate](part))
            elif fate == "whole":
                contents = cut(contents, part)
        return contents, [f"{what} ({fate})" for (_, _, what), fate in zip(self.changes, fates) if fate != "whole"]

    def all_left(self):
        """What a loss of power may leave, each contents once with what is lost, from all lost to
        nothing lost."""
        return list(dict(self.left(fates) for fates in some(self.fates(), MOST_STATES)).items())


def differs_by(left, beside):
    """What distinguishes a loss from others: the bytes of the names that begin as these, those beside the state
    and the witness, and which of them lead to one file."""
    first = {}
    for name in sorted(left):
        if name.startswith(beside):
            first.setdefault(left[name][0], name)
    return tuple((name, first[left[name][0]], left[name][1]) for name in sorted(left) if name.startswith(beside))


def fault_of(state, states, least, what="state"):
    """What is wrong with this state image, or witness, if anything, where a run found the first of these and
    stores the others, one after another, and so many of them are too old, since bytes were given away: a word
    for it, and what it is."""
    if state in states[least:]:
        return None
    if state in states:
        return "older", f"{f'an older {what}' if state else f'no {what}'}, and bytes were given away"
    if state is None:
        return "gone", f"no {what}"
    return "torn", f"{len(state)} bytes that are neither {what}: {state[:20].hex()}{'..' if state[20:] else ''}"


def witness_in(left, state):
    """The witness that the state of this name has after a loss, or None where there is none. A fault in its
    place where a link leads nowhere."""
    link = left.get(f"{state}.witness", (0, None))[1]
    if link is None:
        return None, None
    found = left.get(os.fsdecode(link), (0, None))[1]
    return found, ("older", "a link to a witness that is not there") if found is None else None


def lay(folder, files):
    """Puts files into a folder. Those of one number are one file."""
    first = {}
    for name, (number, contents) in files.items():
        path = f"{folder}/{name}"
        os.makedirs(os.path.dirname(path), exist_ok=True)
        if isinstance(contents, Link):
            os.symlink(os.path.join(os.path.realpath(folder), os.fsdecode(contents)), path)
        elif number in first:
            os.link(first[number], path)
        else:
            put(path, contents)
        first.setdefault(number, path)


def found_in(folder):
    """The plain files in a folder and below it, and links whose names end as one of these, by their names: the
    number and the bytes of each."""
    found = {}
    for at, _, names in os.walk(folder):
        for name in names:
            path = os.path.join(at, name)
            if name.endswith(LINKS) and os.path.islink(path):
                leads_to = os.path.relpath(os.path.join(os.path.realpath(at), os.readlink(path)), os.path.realpath(folder))
                found[os.path.relpath(path, folder)] = os.lstat(path).st_ino, Link(os.fsencode(leads_to))
            elif stat.S_ISREG(os.lstat(path).st_mode):
                with open(path, "rb") as it:
                    found[os.path.relpath(path, folder)] = os.lstat(path).st_ino, it.read()
    return dict(sorted(found.items()))


class Disk:
    """The files that a folder has, all flushed, and what is done to them. Each name has what it led
    to since its folder was flushed, and why; and `states` and `witnesses` what these were from the beginning of a
    run on.
    Flushes of `files`, of `folders` or of a file of one name do nothing where these are ignored. The witness,
    if there may be one, is at a place."""

    def __init__(self, folder, found, state, ignored=None, place=None):
        self.folder, self.state, self.ignored, self.place = os.path.realpath(folder), state, ignored, place
        self.beside = (state, place) if place else (state,)
        files = {number: File(contents) for number, contents in found.values()}
        self.names = {name: [(files[number], "")] for name, (number, _) in found.items()}
        self.start()

    def start(self):
        """Begins a run."""
        self.opened, self.has_left, self.printed = {}, False, 0
        self.states, self.witnesses = [self.contents(self.state)], [self.contents(self.place)]

    def contents(self, name):
        """The bytes of a file, or None where it is not there."""
        return self.file(name).contents if self.file(name) else None

    def file(self, name):
        """The file to which a name leads, or None."""
        return self.names[name][-1][0] if name in self.names else None

    def is_beside(self, name):
        """Whether this is the state's file, or one beside it, or the witness's, or its draft."""
        return name.startswith(self.beside)

    def lead(self, name, file, what):
        """Has a name lead to a file, or nowhere."""
        self.names.setdefault(name, [(None, "")]).append((file, what))

    def name(self, path):
        """A file's path from the folder."""
        above, last = os.path.split(os.path.join(self.folder, os.fsdecode(path)))
        return os.path.relpath(os.path.join(os.path.realpath(above), last), self.folder)

    def do(self, word, first, second, data, number):
        """Does the operation of this number. What it is, or None where it changes nothing."""
        if word == "open":
            return self.open(first, second, self.name(data), f"{number} open")
        if word == "write" and first not in self.opened:
            holds(first in (1, 2), f"{number} write: to a file that was not opened")
            self.has_left = self.has_left or first == 1
            self.printed += len(data) if first == 1 else 0
            return f"{number} write to stream {first}"
        if word == "write":
            name, file = self.opened[first]
            what = f"{number} write of {len(data)} bytes to {name}"
            holds(file, f"{what}: it is no file that is known")
            file.change(second, data, what)
            self.has_left = self.has_left or not self.is_beside(name)
            return what
        if word == "cut":
            name, file = self.opened[first]
            what = f"{number} cut of {name} to {second} bytes"
            file.change(None, second, what)
            return what
        if word == "flush":
            name, file = self.opened[first]
            self.flush(name, file)
            return f"{number} flush of {name}"
        if word == "link":
            return self.link(*map(self.name, data.split(b"\0")), number)
        if word == "rename":
            return self.rename(*map(self.name, data.split(b"\0")), number)
        holds(word == "unlink", f"{number} {data.decode()}: a call that is not known")
        what = f"{number} removal of {self.name(data)}"
        self.lead(self.name(data), None, what)
        return what

    def link(self, target, name, number):
        """Makes a symbolic link. What it is."""
        what = f"{number} link {name} to {target}"
        self.lead(name, File(Link(os.fsencode(target))), what)
        return what

    def rename(self, old, new, number):
        """Renames a file within its folder. What it is."""
        what = f"{number} rename of {old} to {new}"
        holds(os.path.dirname(old) == os.path.dirname(new), f"{what}: into another folder")
        # (Of two names of one file both stay.)
        if self.file(old) is not self.file(new):
            self.lead(new, self.file(old), what)
            self.lead(old, None, what)
        for name, became in [(self.state, self.states), (self.place, self.witnesses)]:
            if new == name:
                became.append(self.contents(new))
        return what

    def led(self, name):
        """The name to which a link of this name leads, or that name where it is none."""
        contents = self.contents(name)
        return os.fsdecode(contents) if isinstance(contents, Link) else name

    def open(self, number, flags, name, what):
        """Opens a file, or the one to which a link leads, which may make or empty it."""
        name, made = self.led(name), None
        if flags & os.O_CREAT and not self.file(name):
            made = f"{what} of {name}, which is new"
            self.lead(name, File(), made)
        elif flags & os.O_TRUNC and self.file(name) and self.file(name).contents:
            made = f"{what} of {name}, which is emptied"
            self.file(name).change(None, 0, made)
        self.opened[number] = name, self.file(name)
        return made

    def flush(self, name, file):
        """Flushes a file, or the names of a folder. Flushes of nodes do nothing."""
        if file and self.ignored not in ("files", name) and not name.startswith(f"{self.state}.nodes"):
            file.flush()
        if not file and self.ignored != "folders":
            for inner in self.names:
                if (os.path.dirname(inner) or ".") == name:
                    self.names[inner] = self.names[inner][-1:]

    def begin(self):
        """Begins another run: what the runs before gave away is flushed."""
        self.start()
        for name in self.names:
            if not self.is_beside(name):
                self.names[name] = self.names[name][-1:]
                if self.file(name):
                    self.file(name).flush()

    def losses(self):
        """What a loss of power may leave now: by each name the number of a file and its bytes; and
        what is lost."""
        # (Where a name led to a file at several times, the last one counts, at which least is
        # lost.)
        last = {name: {file: at for at, (file, _) in enumerate(led)} for name, led in self.names.items()}
        choices = [[(name, at) for at in times.values()] for name, times in last.items()]
        rows, possible = [], {}
        for choice in some(choices, MOST_STATES):
            files = {name: self.names[name][at][0] for name, at in choice if self.names[name][at][0]}
            unsure = [file for file in dict.fromkeys(files.values()) if file.changes]
            for file in unsure:
                possible[file] = possible.get(file) or file.all_left()
            rows.append((choice, files, unsure, [possible[file] for file in unsure]))
        total = sum(ways(options) for _, _, _, options in rows)
        share = total if total <= MOST_STATES else max(2, MOST_STATES // len(rows))
        for choice, files, unsure, options in rows:
            for picked in some(options, share):
                chosen = {file: contents for file, (contents, _) in zip(unsure, picked)}
                left = {name: (id(file), chosen.get(file, file.contents)) for name, file in files.items()}
                yield left, (choice, [lost for _, lost in picked])

    def loss(self, dice):
        """One of the losses, at random."""
        choice = [(name, dice.randrange(len(led))) for name, led in self.names.items()]
        files = {name: self.names[name][at][0] for name, at in choice if self.names[name][at][0]}
        possible = {file: file.left([dice.choice(it) for it in file.fates()]) for file in dict.fromkeys(files.values())}
        left = {name: (id(file), possible[file][0]) for name, file in files.items()}
        return left, (choice, [lost for _, lost in possible.values()])

    def said(self, lost):
        """What is lost, as a line says it."""
        choice, parts = lost
        names = [f"{what} (for {name})" for name, at in choice for _, what in self.names[name][at + 1 :]]
        return ", ".join(names + [it for part in parts for it in part]) or "nothing"


def operations(record):
    """The operations of a record, but for one that is cut, since the program was killed."""
    at = 0
    while (end := record.find(b"\n", at)) >= 0:
        word, first, second, length = record[at:end].split()
        at = end + 1 + int(length)
        if at <= len(record):
            yield word.decode(), int(first), int(second), record[end + 1 : at]


def printed(done):
    """What these operations wrote to standard output."""
    return b"".join(contents for word, file, _, contents in done if (word, file) == ("write", 1))
