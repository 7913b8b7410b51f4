"""The loader of examples/cortex-m in an emulator, built as the README there says, over good and bad images.
(What is checked here is of the module `portable`.)"""

import os
import re
import shutil
import subprocess

from tests.harness import TOP, Skipped, Wrong, blocks_of, holds, said_by
from tests.program import PROGRAM, put, read, run, sign

EXAMPLE = TOP / "examples/cortex-m"
README = "examples/cortex-m/README.md"
PACKAGES = {"arm-none-eabi-gcc": "gcc-arm-none-eabi", "qemu-system-arm": "qemu-system-arm", "openssl": "openssl"}
EMULATOR = ["qemu-system-arm", "-M", "mps2-an385", "-nographic", "-no-reboot", "-kernel", "loader.elf"]
SLOTS, KEPT = [0x100000, 0x200000], 0x20300000
SLOT_LEN, HEADER_LEN = 0x100000, 256
# Where numbers are in a header.
VERSION, LENGTH, ADDRESS = 4, 8, 12
UNSIGNED, OLDER, ELSEWHERE, NONE = "not signed by a key that is taken", "an older version", "for another place", "no image"


def skip_where_missing():
    """Where something is not there, this is skipped."""
    for tool, package in PACKAGES.items():
        if not shutil.which(tool):
            raise Skipped(f"there is no {tool}: Debian's {package} has it")
    if not os.path.exists(PROGRAM):
        raise Skipped("the program is not built")


def does_as_documented():
    """The README's commands make two keys, the loader and an image, and it is started."""
    skip_where_missing()
    environment = {**os.environ, "lms": str(TOP), "PATH": f"{os.path.dirname(PROGRAM)}:{os.environ['PATH']}"}
    blocks = blocks_of(README)
    said = said_by("sh", "-eu", "-c", "\n".join(blocks), env=environment, timeout=300)
    holds(said.endswith("slot 0: started\nversion 7 runs, the least is 7\n"), f"it says: {said}")
    # The compiler's words, for applications of other slots.
    put("cc", re.search(r"(?ms)^example=.*?^(?=\$cc)", "".join(blocks))[0].encode())
    said_by(PROGRAM, "keygen", "--levels", "10/4", "--seed", "-", "--id", "0" * 32, "--state", "third.state", "--public", "third.pub", input="3" * 64)
    image("third.bin", 9, "third")


def application_at(slot):
    """The application for a slot."""
    text = '. ./cc; $cc -Wl,--defsym=CODE_AT=$0 $example/application.c $example/board.c -lgcc -o other.elf'
    said_by("sh", "-eu", "-c", text, hex(SLOTS[slot] + HEADER_LEN), env={**os.environ, "lms": str(TOP)})
    said_by("arm-none-eabi-objcopy", "-O", "binary", "other.elf", f"application-{slot}.bin")


def made(*words):
    """What `image.py` makes."""
    ran = subprocess.run(["python3", "-B", EXAMPLE / "image.py", *words], stdin=subprocess.DEVNULL, capture_output=True, check=False)
    holds(ran.returncode == 0, f"it ended with {ran.returncode}: {ran.stderr}")
    return ran.stdout


def image(name, version, key="first", slot=0):
    """An image of a version, by a key, for a slot, in a file of this name."""
    application_at(slot)
    put("message", made("message", str(version), hex(SLOTS[slot] + HEADER_LEN), f"application-{slot}.bin"))
    ran = run(sign("message", "signature", state=f"{key}.state"))
    holds(ran.returncode == 0, f"it is not signed: {ran.stderr}")
    put(name, made("image", "message", "signature"))


def boot(*images, least=0, refused=0):
    """What the loader says of the images in the slots, or of none where there is none of these."""
    devices = [f"loader,file={it},addr={at:#x},force-raw=on" for it, at in zip(images, SLOTS) if it]
    devices += [f"loader,addr={KEPT + 4 * at:#x},data={it},data-len=4" for at, it in enumerate((least, refused)) if it]
    return said_by(*EMULATOR, *(word for it in devices for word in ("-device", it)), timeout=60)


def starts(version, slot, *images, **kept):
    """An image of this version is started from a slot, and its version is the least one from now on."""
    said = boot(*images, **kept)
    wanted = f"slot {slot}: started\nversion {version} runs, the least is {version}\n"
    holds(said.endswith(wanted), f"it says: {said}")


def starts_none(why, *images, second=NONE, **kept):
    """Nothing is started, for this reason, and this one of the second slot."""
    said = boot(*images, **kept)
    holds(said == f"slot 0: {why}\nslot 1: {second}\nnothing is started\n", f"it says: {said}")


def changed(contents, at, new):
    """Bytes with others in their place, as a file."""
    put("changed.bin", contents[:at] + new + contents[at + len(new) :])
    return "changed.bin"


def number(value):
    """A number as in an image."""
    return value.to_bytes(4, "little")


def chooses_keys():
    """Two keys are taken, unless one of them is refused, and no other key."""
    image("second.bin", 8, "second")
    starts(8, 0, "second.bin")
    starts_none(UNSIGNED, "third.bin")
    starts_none(UNSIGNED, "image.bin", refused=1)
    starts(8, 0, "second.bin", refused=1)
    starts_none(UNSIGNED, "second.bin", refused=2)


def keeps_versions():
    """An older version than the last one is not started."""
    starts(7, 0, "image.bin", least=7)
    starts_none(OLDER, "image.bin", least=8)
    starts_none(OLDER, "image.bin", least=0xFFFFFFFF)


def refuses_changes():
    """No changed image is started; lengths that no slot has are no fault."""
    contents = read("image.bin")
    length = int.from_bytes(contents[LENGTH : LENGTH + 4], "little")
    end, room = HEADER_LEN + length, SLOT_LEN - HEADER_LEN - 4
    for at in (VERSION, ADDRESS, HEADER_LEN - 1, HEADER_LEN, end - 1, end + 4, len(contents) - 1):
        starts_none(UNSIGNED, changed(contents, at, bytes([contents[at] ^ 1])))
    starts_none(NONE, changed(contents, 0, b"lms1"))
    for size in (room + 1, 0x7FFFFFFF, 0xFFFFFFFF):
        starts_none(NONE, changed(contents, LENGTH, number(size)))
    for size in (room - length + 1, 0xFFFFFFFF):
        starts_none(NONE, changed(contents, end, number(size)))
    for size in (0, len(contents) - end - 5, room - length):
        starts_none(UNSIGNED, changed(contents, end, number(size)))
    for size in (0, length - 1, length + 1, room):
        said = boot(changed(contents, LENGTH, number(size)))
        holds(said.endswith(f"slot 1: {NONE}\nnothing is started\n"), f"it says: {said}")


def takes_the_other_slot():
    """What is in the second slot is started where the first one has nothing that may be."""
    image("other.bin", 9, "second", slot=1)
    starts(9, 1, None, "other.bin")
    starts(9, 1, "third.bin", "other.bin", least=9)
    starts(7, 0, "image.bin", "other.bin")
    starts_none(NONE)


def starts_nothing_elsewhere():
    """A good image in a slot that it isn't linked to isn't started: it would run what lies in the other one."""
    put("foreign.bin", bytes(HEADER_LEN) + read("application-0.bin"))
    starts_none(NONE, "foreign.bin", "image.bin", second=ELSEWHERE)
    image("other.bin", 9, slot=1)
    starts_none(ELSEWHERE, "other.bin")


def takes_whole_keys():
    """What isn't as long as a key doesn't become one."""
    key = read("first.pub")
    holds(str(list(key))[1:-1].encode() in made("keys", "first.pub"), "the key isn't there")
    for contents in (key[:-1], key + b"0"):
        put("no.pub", contents)
        try:
            made("keys", "no.pub")
        except Wrong as why:
            holds("is no HSS public key" in str(why), f"it says: {why}")
        else:
            raise Wrong(f"{len(contents)} bytes are taken as a key")


def judges_loader(counter):
    """The loader, if it can be built."""
    if counter.check("the loader, as documented", does_as_documented):
        for call in (chooses_keys, keeps_versions, refuses_changes, takes_the_other_slot, starts_nothing_elsewhere, takes_whole_keys):
            counter.check(f"the loader {call.__name__.replace('_', ' ')}", call)
