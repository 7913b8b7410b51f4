"""How a life of `random_lives` loses power, by the model of `weak_disk`."""

import os
import random

from tests.harness import Wrong, holds
from tests.merge_check.weak_disk import Disk, fault_of, found_in, lay, operations, printed, witness_in

# The state's file, and that of its witness, if it has one.
STATE, PLACE = "key.state", "medium/witness"


def beside(folder):
    """The state's file in a folder and those beside it, and the witness's."""
    return {name: it for name, it in found_in(folder).items() if name.startswith((STATE, PLACE))}


class Power:
    """The power of a life, which is lost before its operations or after one that changes something.
    All that the life finds counts as flushed. Flushes of `files` or of `folders` do nothing where
    these are ignored."""

    def __init__(self, life, seed, ignored):
        self.life, self.folder, self.ignored = life, life.key.folder, ignored
        # (The key's own dice would depend on the moment of a kill.)
        self.dice = random.Random(seed)
        self.found, self.is_state_new = beside(self.folder), False

    def lose(self):
        """The files become what may be left at some moment, and the life gave what it had written
        before."""
        life, done = self.life, list(operations(self.life.read("record")))
        disk, moments = self.after(done)
        if life.status >= 0:
            self.check_record(disk, done)
        count, last = self.dice.choice(moments)
        disk, _ = self.after(done[:count])
        left, lost = disk.loss(self.dice)
        fault = self.fault(disk, left)
        if fault:
            raise Wrong(f"{life.name}: power is lost after {last}; lost: {disk.said(lost)}; found: {fault[1]}")
        self.leave({name: it for name, it in left.items() if disk.is_beside(name)})
        signature = disk.file(disk.name(f"{life.name}.sig"))
        life.output, life.signature = printed(done[:count]), signature.contents if signature else b""

    def after(self, done):
        """The files after these operations; and of each that changes something how many are done by
        then, and what it is."""
        disk, moments = Disk(self.folder, self.found, STATE, self.ignored, PLACE), [(0, "no operation")]
        for number, operation in enumerate(done, 1):
            what = disk.do(*operation, f"#{number}")
            if what:
                moments.append((number, what))
        return disk, moments

    def check_record(self, disk, done):
        """All that was done and printed is recorded, where the life was not killed."""
        recorded = {name: disk.file(name).contents for name in disk.names if disk.is_beside(name) and disk.file(name)}
        there = {name: contents for name, (_, contents) in beside(self.folder).items()}
        holds(recorded == there, f"{self.life.name}: not all that was done to files is recorded")
        holds(printed(done) == self.life.output, f"{self.life.name}: not all that was printed is recorded")

    def fault(self, disk, left):
        """What is wrong with the state that is left, or with its witness, if anything."""
        # (Whether each index that was given is counted is seen by the key.)
        least = 1 if disk.has_left and len(disk.states) > 1 else 0
        witness, fault = witness_in(left, STATE)
        fault = fault or fault_of(witness, disk.witnesses, min(least, len(disk.witnesses) - 1), "witness")
        return fault_of(left.get(STATE, (0, None))[1], disk.states, least) or fault

    def leave(self, files):
        """Puts these in the place of all that is there."""
        for name in beside(self.folder):
            os.remove(f"{self.folder}/{name}")
        lay(self.folder, files)
        self.is_state_new = files[STATE][1] != self.found[STATE][1]
