"""Names of `--out` and `--public` that lead elsewhere than they seem to: links that are turned while a run waits for
its message, a witness that leads nowhere, and names that end as those of folders. No such file is written."""

import os
import stat
import threading

from tests.harness import add_test, holds, test
from tests.program import WITNESS, fails, has, public, put, read, sign
from tests.reference import image, signature_of

ONE = ((5, 8),)
REFUSED = (6, "cannot write output")
SIGNATURE = signature_of(ONE, 0, b"abc")
OTHER = image(ONE, 7, seed=b"\x44" * 32)


def begin():
    """A state of which no index is used."""
    put("key.state", image(ONE, 0))


@test
def writes_through_no_witness_that_leads_nowhere():
    """As one on a medium that is not there, of its own state and of another key's."""
    os.mkdir("media")
    os.symlink("media/place", WITNESS)
    begin()
    put("other.state", OTHER)
    for words in (public(name=WITNESS), sign(out=WITNESS, state="other.state"), public(name=WITNESS, state="other.state")):
        fails(words, *REFUSED)
        holds(os.listdir("media") == [], "it is written")


@test
def makes_no_file_by_the_name_of_a_folder():
    os.mkdir("folder")
    for name in ("none/.", "none/", "none/..", ".", "folder", "folder/.", "folder/none/."):
        for words in (sign(out=name), public(name=name)):
            begin()
            fails(words, *REFUSED)
    holds(not os.path.exists("none") and os.listdir("folder") == [], "a file is made")


def found():
    """The plain files here, but those of the key that signs, with their bytes."""
    names = [os.path.join(folder, name) for folder, _, names in os.walk(".") for name in names]
    plain = [name for name in names if stat.S_ISREG(os.lstat(name).st_mode)]
    return {name: read(name) for name in plain if not name.startswith("./key.state")}


def leads_elsewhere(name, first, then, made):
    """The name of a file, or the link to the folder in it, leads to `first` when a `sign` begins and to `then` once its
    file is planned, where it waits for its message: nothing is written but what is `made`."""
    os.mkfifo("pipe")
    link = name.split("/", maxsplit=1)[0]
    for folder in ("one", "two"):
        os.mkdir(folder)
    for put_there in ("other.state", "one/state"):
        put(put_there, OTHER)
    for put_there in ("file", "text", "one/file", "two/file"):
        put(put_there, b"older")

    def turn():
        """Writes the message, after the link was turned."""
        with open("pipe", "wb") as pipe:
            if first:
                os.remove(link)
            os.symlink(then, link)
            pipe.write(b"abc")

    begin()
    if first:
        os.symlink(first, link)
    wanted = found() | {f"./{it}": SIGNATURE for it in made}
    turning = threading.Thread(target=turn)
    turning.start()
    fails(sign(message="pipe", out=name), *REFUSED)
    turning.join()
    holds(found() == wanted, f"there is {sorted(found())}, not {sorted(wanted)}, or a file is another")
    has("key.state", image(ONE, 1, 1))


# (Where nothing was there and nothing is, it is seen only after the write.)
TURNS = {
    "a state": ("link", "other.state", "none", []), "a file": ("link", "file", "none", []), "nothing": ("link", "none", "file", []),
    "a lock": ("link", "other.state.lock", "none", []), "a file and then a state": ("link", "file", "other.state", []),
    "a file and then nodes": ("link", "file", "other.state.nodes", []), "one file and then another": ("link", "file", "text", []),
    "nothing and then nothing": ("link", "none", "neither", ["none"]), "no link and then a state": ("link", None, "other.state", []),
    "no link and then a witness": ("link", None, "other.state.witness", []), "no link and then a file": ("link", None, "file", []),
    "a folder with a state": ("link/state", "one", "two", []), "a folder with a file": ("link/file", "one", "two", []),
    "a folder without a file": ("link/none", "one", "two", ["one/none"]),
    "a folder with a lock": ("link/state.lock", "one", "two", []),
}

for what, case in TURNS.items():
    add_test(f"writes nothing where {what} was named", leads_elsewhere, *case)
