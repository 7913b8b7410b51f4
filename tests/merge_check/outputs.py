"""The files of `--out` and `--public`: states that they name stay as they are, all else is written,
also what can't be flushed."""

import itertools
import os
import subprocess
import tempfile
import threading

from tests.harness import holds, test
from tests.program import PROGRAM, as_who_may_not, ends, fails, has, keygen, public, put, read, run, sign
from tests.reference import image, kept, public_of, signature_of
from tests.seeds import STATES

ONE = ((5, 8),)
REFUSED = (6, "cannot write output")
# Another key's state: at its longest, and as version 1 wrote it.
OTHERS = [image(((5, 8),) * 8, 7, seed=b"\x44" * 32), image(ONE, 7, version=1, seed=b"\x44" * 32)]


def writers(name):
    """Each command that writes a file of this name, with the numbers of the state after it, where
    the state's are 5 and 0 before."""
    return [(sign(out=name), (6, 1)), (public(name=name), (5, 0))]


@test
def writes_over_no_state_of_its_own():
    """By its name, by other ways to it, also by long ones, by a symbolic link, and by a hard link, which
    has the older image then."""
    os.mkdir("folder")
    ways = ["key.state", "folder/../key.state", "./" * 100 + "key.state"]
    for name in [*ways, *(f"{os.getcwd()}/{way}" for way in ways), "soft", "hard"]:
        for words, numbers in writers(name):
            put("key.state", image(ONE, 5))
            if name == "soft":
                os.symlink("key.state", name)
            elif name == "hard":
                os.link("key.state", name)
                STATES.add(os.path.abspath(name))
            fails(words, *REFUSED)
            has("key.state", image(ONE, *numbers))
            if name == "hard":
                has(name, image(ONE, 5))
            if name in ("soft", "hard"):
                os.remove(name)


@test
def writes_over_no_state_of_another_key():
    """Nor over what begins as one and is no longer, as a draft that a crash left."""
    for text in [*OTHERS, OTHERS[0][:50], b"HSSK", b"HSSK" + bytes(176)]:
        for words, numbers in writers("other"):
            put("key.state", image(ONE, 5))
            put("other", text)
            fails(words, *REFUSED)
            has("other", text)
            has("key.state", image(ONE, *numbers))


@test
def writes_over_no_state_that_it_is_handed():
    """By the names that the system has for an open file, one of its own state's and one of another key's."""
    states = [("key.state", image(ONE, 5)), ("other", OTHERS[0])]
    for (state, text), name, at in itertools.product(states, ["/dev/fd/{}", "/proc/self/fd/{}", "/dev/stdin"], range(3)):
        put("key.state", image(ONE, 5))
        put(state, text)
        with open(state, "rb") as file:
            named = name.format(file.fileno())
            words, numbers = [*writers(named), (keygen(state="new.state", public=named), (5, 0))][at]
            fails(words, *REFUSED, stdin=file, pass_fds=[file.fileno()])
            file.seek(0)
            holds(file.read() == text, f"{words[0]} wrote to {named}, which leads to {state}")
        has("key.state", image(ONE, *numbers))
        if os.path.exists("new.state"):
            os.remove("new.state")


@test
def keygen_writes_over_no_state():
    """The key is stored, and `public` gives its public key."""
    put("other", OTHERS[0])
    fails(keygen(public="other"), *REFUSED)
    has("other", OTHERS[0])
    has("key.state", image(ONE, 0))
    os.remove("key.state")
    fails(keygen(public="key.state"), *REFUSED)
    has("key.state", image(ONE, 0))
    ends(public(), 0, "capacity 32\n")
    has("key.pub", public_of(ONE))
    ends(sign(), 0, "index 0\n")


@test
def writes_over_other_files():
    """Shorter and longer ones, and kept nodes."""
    texts = [b"", b"HSS", b"HSSK" + bytes(177), b"hssk", bytes(124), kept(ONE, 5), public_of(ONE), signature_of(ONE, 0, b"abc")]
    put("key.state", image(ONE, 0))
    for index, text in enumerate(texts):
        put("file", text)
        ends(sign(out="file"), 0, f"index {index}\n")
        has("file", signature_of(ONE, index, b"abc"))
        put("file", text)
        ends(public(name="file"), 0, "capacity 32\n")
        has("file", public_of(ONE))


@test
def signs_between_pipes():
    """By the system's names of them; what is named `-` is a file."""
    put("key.state", image(ONE, 0))
    words = ["sh", "-c", '"$0" "$@" 3>&1 >&2', PROGRAM, *sign("/dev/stdin", "/dev/fd/3")]
    ran = subprocess.run(words, input=b"abc", capture_output=True, check=False)
    holds((ran.returncode, ran.stderr) == (0, b"index 0\n"), f"{ran.returncode} {ran.stderr!r}")
    holds(ran.stdout == signature_of(ONE, 0, b"abc"), "the signature is another one")
    put("-", b"abc")
    ends(sign("-", "other"), 0, "index 1\n")
    has("other", signature_of(ONE, 1, b"abc"))
    put("text", b"abc")
    ends(sign("text", "-"), 0, "index 2\n")
    has("-", signature_of(ONE, 2, b"abc"))


@test
def writes_over_no_file_that_it_can_not_read():
    """Where that is so short that it may be a state."""
    put("key.state", image(ONE, 5))
    put("file", OTHERS[0])
    how = as_who_may_not()
    os.chmod("file", 0o200)
    fails(sign(out="file"), *REFUSED, **how)
    put("file", bytes(181))
    ends(sign(out="file"), 0, "index 6\n", **how)


@test
def writes_what_can_not_be_flushed():
    """Its output as a pipe and as a file without a name, and a pipe with a name."""
    put("key.state", image(ONE, 0))
    line, signature = b"capacity 32\n", signature_of(ONE, 0, b"abc")
    ran = run(sign(out="/dev/stdout"), text=False)
    holds((ran.returncode, ran.stdout, ran.stderr) == (0, signature + b"index 0\n", b""), f"sign to a pipe: {ran}")
    ran = run(public(name="/dev/stdout"), text=False)
    holds((ran.returncode, ran.stdout, ran.stderr) == (0, public_of(ONE) + line, b""), f"public to a pipe: {ran}")
    with tempfile.TemporaryFile() as file:
        ran = subprocess.run([PROGRAM, *public(name="/dev/stdout")], stdin=subprocess.DEVNULL, stdout=file, stderr=subprocess.PIPE, check=False)
        file.seek(0)
        found = file.read()
    # (It is opened anew, so the line is written over the beginning of the key.)
    holds((ran.returncode, ran.stderr, found) == (0, b"", line + public_of(ONE)[len(line) :]), f"public to a file: {ran} {found}")
    os.mkfifo("pipe")
    read_so = []
    reader = threading.Thread(target=lambda: read_so.append(read("pipe")))
    reader.start()
    ends(public(name="pipe"), 0, line.decode())
    reader.join()
    holds(read_so == [public_of(ONE)], "another public key in the pipe")


@test
def writes_through_links():
    """To a file that is there, and to one that is not."""
    os.mkdir("keys")
    put("key.state", image(ONE, 5))
    for there in (True, False):
        os.symlink("keys/key.pub", "link")
        if there:
            put("keys/key.pub", bytes(500))
        ends(public(name="link"), 0, "capacity 32\n")
        has("keys/key.pub", public_of(ONE))
        holds(os.path.islink("link"), "the link was replaced")
        os.remove("link")
        os.remove("keys/key.pub")


@test
def writes_in_place_by_a_name_where_its_whole_path_may_not_be_gone_along():
    """As from a folder that is the user's, below one that is not."""
    put("key.state", image(ONE, 0))
    how = as_who_may_not()
    state, tool = os.path.abspath("key.state"), os.path.abspath(how.get("program", PROGRAM))
    os.makedirs("closed/open")
    if how:
        os.chown("closed/open", how["user"], how["group"])
        how["program"] = tool
    put("closed/open/text", b"abc")
    os.chdir("closed/open")
    os.chmod("..", 0)
    try:
        ends(sign(out="text.sig", state=state), 0, "index 0\n", **how)
        has("text.sig", signature_of(ONE, 0, b"abc"))
    finally:
        os.chmod("..", 0o700)
        os.chdir("../..")
