"""The verifier, called from C, by the libraries that lms_c builds and by those that docs/C.md names
beside them: the example, every way of calling, also from C++, what the header hands on, a program with
no C library, and the same for aarch64 and for browsers. What needs a tool that is not there is
skipped."""

import os
import pathlib
import re
import shutil
import subprocess

from tests.harness import TOP, Wrong, checks, holds
from tests.merge_check.c_programs import C, CPLUSPLUS, EXAMPLES, INCLUDES, LIBRARY, SHARED, build, build_by, gives, levels_here, said_by
from tests.merge_check.crates import KIT, libraries_of, take_left
from tests.merge_check.portable_vectors import LONGEST, signed
from tests.program import PROGRAM, is_plain, join, join_public, keygen, put, read, sign, verify

PUBLIC, MESSAGE, SIGNATURE = EXAMPLES / "release.pub", EXAMPLES / "firmware.bin", EXAMPLES / "firmware.sig"
TWO_PUBLIC, TWO_SIGNATURE = EXAMPLES / "c/two_levels.pub", EXAMPLES / "c/two_levels.sig"
# Where the library is, while one of the others has its place.
KEPT = "kept.a"
NAMES = ["llvm", "sse2", "rattle"]
# The archive by eight lanes.
LANES = "lanes"
EXPORTS = ["T lms_message_head", "T lms_verify", "T lms_verify_hash", "T lms_verify_pieces"]
# The bytes of stack that docs/C.md asks of a boot loader.
MOST_STACK = 4096
# The bytes of the head of a message's hash, by its parts, and those of a hash.
HEAD_LEN, HASH_LEN = 16 + 4 + 2 + 32, 32


def all_ways(verdict, public, message, signature):
    """The verdict on a public key, a message and a signature, by every library, every way of
    calling and the example."""
    programs = sorted(pathlib.Path("programs").iterdir())
    holds(programs, "no program is built")
    for program in programs:
        gives(verdict, program.resolve(), public, message, signature)


def all_heads(verdict, public, message, signature, head):
    """The same, with `head` where key and signature have one, and `none` where they don't."""
    all_ways(verdict, public, message, signature)
    programs = sorted(pathlib.Path("programs").glob("*_ways"))
    holds(programs, "no program of all ways is built")
    for program in programs:
        gives(verdict, program.resolve(), public, message, signature, head)


def changed(contents, at):
    """Bytes with the lowest bit of one of them changed."""
    return b"".join([contents[:at], bytes([contents[at] ^ 1]), contents[at + 1 :]])


def others(contents):
    """Six other contents of a file, with their names."""
    return {
        "cut": contents[:-1],
        "longer": contents + b"x",
        "empty": b"",
        "first": changed(contents, 0),
        "last": changed(contents, len(contents) - 1),
        "zeros": bytes(len(contents)),
    }


def refuses_others(counter):
    """Other keys, messages and signatures are invalid."""
    for name in others(b"x"):
        put("other", others(read(PUBLIC))[name])
        counter.check(f"{name} public key", all_ways, "invalid", "other", MESSAGE, SIGNATURE)
        put("other", others(read(MESSAGE))[name])
        counter.check(f"{name} message", all_heads, "invalid", PUBLIC, "other", SIGNATURE, "head")
        put("other", others(read(SIGNATURE))[name])
        counter.check(f"{name} signature", all_ways, "invalid", PUBLIC, MESSAGE, "other")


def judges_heads(counter):
    """Which keys and signatures have a head. In one level a signature is its number of signed keys,
    q, the one-time typecode, C, 34 values, the typecode and the path; in two the upper one's of
    1292 bytes and the signed key come before it."""

    def judges_place(name, public, signature, at, head):
        """A changed byte of a signature at this place: key and signature have a head, or none."""
        put("changed", changed(read(signature), at))
        counter.check(name, all_heads, "invalid", public, MESSAGE, "changed", head)

    counter.check("one level has a head", all_heads, "valid", PUBLIC, MESSAGE, SIGNATURE, "head")
    judges_place("another number of signed keys", PUBLIC, SIGNATURE, 3, "none")
    judges_place("a leaf that is not in the tree", PUBLIC, SIGNATURE, 4, "none")
    judges_place("another leaf of the tree", PUBLIC, SIGNATURE, 7, "head")
    judges_place("another one-time typecode", PUBLIC, SIGNATURE, 11, "none")
    judges_place("another C", PUBLIC, SIGNATURE, 12, "head")
    judges_place("another typecode", PUBLIC, SIGNATURE, 12 + 32 * 35 + 3, "none")
    put("longer", read(SIGNATURE) + b"x")
    counter.check("a signature that is too long has no head", all_heads, "invalid", PUBLIC, MESSAGE, "longer", "none")
    counter.check("two levels have a head", all_heads, "valid", TWO_PUBLIC, MESSAGE, TWO_SIGNATURE, "head")
    judges_place("another signature of the upper level", TWO_PUBLIC, TWO_SIGNATURE, 1000, "none")
    judges_place("another signed key", TWO_PUBLIC, TWO_SIGNATURE, 4 + 1292 + 40, "none")
    judges_place("another path of the lower level", TWO_PUBLIC, TWO_SIGNATURE, 2643, "head")
    counter.check("a signature of two levels under a key of one", all_heads, "invalid", PUBLIC, MESSAGE, TWO_SIGNATURE, "none")


def hands_on(compiler, longest):
    """The header's names hand on what they are given, and its lengths are those of keys, of the
    longest signature, of heads and of hashes."""
    build_by(compiler, TOP / "tests/c/header.c", "header")
    said = said_by("./header")
    lengths = [len(longest[0]), len(longest[2]), HEAD_LEN, HASH_LEN]
    holds(said.split() == list(map(str, lengths)), f"it says: {said}, and the lengths are {lengths}")


def judges_longest(counter):
    """The longest signature, and what the header hands on, in C and in C++."""
    longest = signed(LONGEST, [2**25 - 1] * len(LONGEST), read(MESSAGE))
    put("longest.pub", longest[0])
    put("longest.sig", longest[2])
    put("longer.sig", longest[2] + b"x")
    counter.check("what the header hands on", hands_on, C, longest)
    counter.check("what the header hands on in C++", hands_on, CPLUSPLUS, longest)
    counter.check("the longest signature", all_heads, "valid", "longest.pub", MESSAGE, "longest.sig", "head")
    counter.check("a longer one", all_heads, "invalid", "longest.pub", MESSAGE, "longer.sig", "none")


def make_key(name, levels, seed, identifier):
    """Makes the key of a name, of these levels, from a digit for its seed and one for its
    identifier."""
    said_by(PROGRAM, *keygen(levels, seed * 64, identifier * 32, f"{name}.state", f"{name}.pub"))


def sign_by(name, message):
    """Signs a message by the key of a name."""
    said_by(PROGRAM, *sign(message, f"{name}.sig", "7" * 64, f"{name}.state"))


def judges_crosswise(counter, levels, head):
    """Two keys of one shape and identifier from different seeds: each verifies its own signature,
    and not the other's."""
    counter.check(f"{levels}: the first key", make_key, "first", levels, "1", "2")
    counter.check(f"{levels}: the second key", make_key, "second", levels, "3", "2")
    counter.check(f"{levels}: it signs by the first", sign_by, "first", MESSAGE)
    counter.check(f"{levels}: it signs by the second", sign_by, "second", MESSAGE)
    counter.check(f"{levels}: the first's, under the first", all_heads, "valid", "first.pub", MESSAGE, "first.sig", "head")
    counter.check(f"{levels}: the second's, under the second", all_heads, "valid", "second.pub", MESSAGE, "second.sig", "head")
    counter.check(f"{levels}: the first's, under the second", all_heads, "invalid", "second.pub", MESSAGE, "first.sig", head)
    counter.check(f"{levels}: the second's, under the first", all_heads, "invalid", "first.pub", MESSAGE, "second.sig", head)
    for name in os.listdir():
        if name.startswith(("first.", "second.")):
            os.remove(name)


def judges_joined(counter):
    """What is joined of a signer's signature and a top key's endorsement of its key."""
    counter.check("a top key", make_key, "top", "5/2", "8", "9")
    counter.check("a signer's key", make_key, "signer", "5/4", "a", "b")
    put("signer.key", read("signer.pub")[4:])
    counter.check("the top key signs the signer's", sign_by, "top", "signer.key")
    counter.check("the signer signs", sign_by, "signer", MESSAGE)
    counter.check("the signatures are joined", said_by, PROGRAM, *join("top.pub", "top.sig", "signer.pub", "signer.sig"))
    counter.check("the keys are joined", said_by, PROGRAM, *join_public("top.pub", "signer.pub"))
    counter.check("the joined signature", all_heads, "valid", "joined.pub", MESSAGE, "joined.sig", "head")
    counter.check("the joined signature under the signer's key", all_heads, "invalid", "signer.pub", MESSAGE, "joined.sig", "none")


def is_file(name, other):
    """Two files have the same bytes."""
    holds(read(name) == read(other), f"{name} has other bytes")


def judges_signed(counter):
    """Messages on both sides of the hash's block, and a long one, signed in two levels; keys
    crosswise; and the files of the example."""
    counter.check("a key of two levels", make_key, "key", "5/4,5/8", "1", "2")
    for length in (0, 1, 55, 64, 200000):
        put("message", read(PROGRAM)[:length])
        counter.check(f"two levels, {length} bytes, are signed", sign_by, "key", "message")
        counter.check(f"two levels, {length} bytes", all_ways, "valid", "key.pub", "message", "key.sig")
        counter.check(f"two levels, {length} bytes, by lms_tool", gives, "valid", PROGRAM, *verify("message", "key.sig", "key.pub"))
        counter.check(f"two levels, {length} bytes, under a key of one", all_ways, "invalid", PUBLIC, "message", "key.sig")
    judges_crosswise(counter, "5/8", "head")
    judges_crosswise(counter, "5/4,5/8", "none")
    judges_joined(counter)
    counter.check("the example's key of two levels", make_key, "two", "5/8,5/8", "5", "6")
    counter.check("the example of two levels is signed", sign_by, "two", MESSAGE)
    counter.check("the example's public key is that file", is_file, "two.pub", TWO_PUBLIC)
    counter.check("the example's signature is that file", is_file, "two.sig", TWO_SIGNATURE)


def example_fails(program):
    """The example says which file it can't read, and that it can't print."""
    ran = subprocess.run([program, "missing", MESSAGE, SIGNATURE], stdin=subprocess.DEVNULL, capture_output=True, text=True, check=False)
    holds(ran.returncode == 2 and "missing" in ran.stderr, f"with no key: {ran.returncode} {ran.stderr!r}")
    words = ["sh", "-c", 'exec "$0" "$@" >&-', program, PUBLIC, MESSAGE, SIGNATURE]
    ran = subprocess.run(words, stdin=subprocess.DEVNULL, capture_output=True, check=False)
    holds(ran.returncode == 2, f"with no output: {ran.returncode}")


def put_back():
    """The library of this computer, where one of the others has taken its place."""
    if os.path.exists(KEPT):
        shutil.move(KEPT, LIBRARY)


def build_other(name, *words):
    """Builds the library of a name, with these arguments of `rt lib`, and then puts the one that
    was there back. What `rt` says."""
    shutil.copy2(LIBRARY, "copy.a")
    shutil.move("copy.a", KEPT)
    try:
        said = said_by("rt", "lib", *words, cwd=LIBRARY.parent.parent)
        shutil.move(LIBRARY, f"{name}.a")
    finally:
        put_back()
    return said


def build_installed():
    """By pkg-config, from the folder that lms_c was given, in which it is named without its path:
    flags with blanks would fall apart."""
    environment = {**os.environ, "PKG_CONFIG_PATH": "lib/pkgconfig"}
    flags = said_by("pkg-config", "--cflags", "--libs", "lms_c", cwd="installed", env=environment).split()
    said_by("cc", "-O2", EXAMPLES / "c/verify.c", "-o", os.path.abspath("programs/installed_verify"), *flags, cwd="installed")


def code_and_data(library):
    """How many bytes of code and constants a library has, and how many of data that is written."""
    code, data, zeros = map(int, said_by("size", "-t", library).splitlines()[-1].split()[:3])
    return code, data + zeros


def keeps_to_itself(library):
    """The four calls are all that a library exports, functions of memory are all that it asks for,
    and it has no data to write."""
    rows = [line.split() for line in said_by("nm", "-g", library).splitlines()]
    exports = sorted(" ".join(row[1:]) for row in rows if len(row) == 3)
    more = [row[1] for row in rows if row[:1] == ["U"] and row[1] not in ("memcpy", "memmove", "memset")]
    code, data = code_and_data(library)
    holds(exports == EXPORTS and not more and code > 0 and data == 0, f"exports {exports}; asks for more: {more}; {code} and {data} bytes")


def stays_within(name, most):
    """A call of this library takes no more than so many bytes of stack."""
    holds(most is not None, "the compiler reported no bound")
    said_by("cc", "-std=c11", "-O2", *INCLUDES, TOP / "tests/c/stack.c", f"{name}.a", "-o", "stack")
    taken = int(said_by("./stack", PUBLIC, MESSAGE, SIGNATURE, TWO_PUBLIC, MESSAGE, TWO_SIGNATURE))
    holds(taken <= most, f"takes {taken} bytes of {most}")


def is_at_most(bound, most):
    """The compiler's bound is no more than so many bytes."""
    holds(bound is not None and bound <= most, f"the bound is {bound}")


def links(text):
    """Whether the compiler links a program of this text."""
    put("probe.c", text.encode())
    how = {"stdin": subprocess.DEVNULL, "stdout": subprocess.DEVNULL, "stderr": subprocess.DEVNULL}
    return subprocess.run(["cc", "-w", "probe.c", "-o", "probe"], check=False, **how).returncode == 0


def has_no_makecontext():
    """The C library has no makecontext, though programs can be linked."""
    return links("int main(void) { return 0; }") and not links("int makecontext(void); int main(void) { return makecontext(); }")


def link_bare(made, library, *compiler):
    """Links a program of this name with a library and no C library."""
    bare = ["-std=c11", "-O2", "-ffreestanding", "-fno-stack-protector", "-nostdlib", "-static"]
    said_by(*compiler, *bare, *INCLUDES, TOP / "tests/c/bare.c", library, "-o", made)


def judges_bare(*program):
    """The files are judged with no C library, by a program that is run as the words say."""
    gives("valid", *program, PUBLIC, MESSAGE, SIGNATURE)
    gives("invalid", *program, PUBLIC, SIGNATURE, SIGNATURE)
    gives("valid", *program, TWO_PUBLIC, MESSAGE, TWO_SIGNATURE)


def judges_aarch64(counter):
    """The library and the program with no C library, for aarch64."""
    counter.check("it is built for aarch64", build_other, "aarch64", "--target", "aarch64-unknown-linux-gnu")
    if not (shutil.which("clang") and shutil.which("ld.lld")):
        counter.skip("a program for aarch64", "there is no clang or no lld")
        return
    counter.check("it links for aarch64", link_bare, "bare_aarch64", "aarch64.a", "clang", "--target=aarch64-linux-gnu", "-fuse-ld=lld")
    emulator = shutil.which("qemu-aarch64") or shutil.which("qemu-aarch64-static")
    if emulator:
        counter.check("it runs on aarch64", judges_bare, emulator, "./bare_aarch64")
    else:
        counter.skip("running a program for aarch64", "there is no emulator")


def links_wasm():
    """Links the library for browsers, into a module that asks for nothing."""
    said_by(KIT / "bin/rattle-link", "--target", "wasm64-unknown-unknown", "--toolchain", KIT / "toolchain", "-o", "lms.wasm", "wasm.a")


def judges_node():
    """The verdicts of that module, in node."""
    # Versions before 24 want the word, and later ones know no such word.
    memories = ["--experimental-wasm-memory64"]
    if subprocess.run(["node", *memories, "-e", "0"], stdin=subprocess.DEVNULL, capture_output=True, check=False).returncode:
        memories = []
    node = ["node", *memories, TOP / "tests/c/node.mjs", "lms.wasm"]
    put("changed", changed(read(MESSAGE), 0))
    gives("valid", *node, PUBLIC, MESSAGE, SIGNATURE)
    gives("invalid", *node, PUBLIC, "changed", SIGNATURE)
    gives("valid", *node, TWO_PUBLIC, MESSAGE, TWO_SIGNATURE)
    gives("invalid", *node, TWO_PUBLIC, MESSAGE, SIGNATURE)


def builds_here():
    """The library of this computer, with header and pkg-config file in a folder."""
    print(said_by(TOP / "lms_c", os.path.abspath("installed")), end="", flush=True)
    for name in ("include/lms.h", "lib/liblms_c.a", "lib/pkgconfig/lms_c.pc"):
        is_plain(f"installed/{name}")


def builds_shared():
    """The library by eight lanes, shared and as an archive, with what programs are built with in a folder,
    too, where the file of an earlier one, which processes may have mapped, stays as it is. Those for this
    computer are among the programs that judge."""
    os.makedirs("shared/lib")
    put("earlier", b"mapped")
    os.link("earlier", "shared/lib/liblms.so.1")
    said_by(TOP / "lms_c", "--shared", os.path.abspath("shared"))
    for name in ("lib/liblms.a", *(f"lib/{it}liblms.so.1" for it in ("", "glibc-hwcaps/x86-64-v2/", "glibc-hwcaps/x86-64-v3/"))):
        level = "x86-64" if name.count("/") == 1 else name.split("/")[2]
        holds(read(f"shared/{name}") == read(SHARED / level / os.path.basename(name)), f"{name} is another file than was built")
    for name in ("include/lms.h", "lib/pkgconfig/lms.pc"):
        is_plain(f"shared/{name}")
    holds(read("earlier") == b"mapped", "the file of an earlier library is overwritten")
    holds(os.readlink("shared/lib/liblms.so") == "liblms.so.1", "it can't be linked by its name")
    shutil.copy2("shared/lib/liblms.a", f"{LANES}.a")
    for level in levels_here():
        flags = [f"-Wl,-rpath,{SHARED / level}"]
        build(SHARED / level / "liblms.so.1", TOP / "tests/c/ways.c", f"programs/{level}_ways", *flags)


def builds_by_rattle(bounds):
    """The library by Rattle's own compiler, whose bound on the stack is noted."""
    found = re.findall(r".* stack-bytes=(\d+) ", build_other("rattle", "--backend", "rattle"))
    if not found:
        raise Wrong("the compiler reported no bound")
    bounds.append(int(found[-1]))
    print(f"by Rattle's own compiler: {code_and_data('rattle.a')[0]} bytes, with at most {bounds[-1]} bytes of stack", flush=True)


@checks
def the_verifier_for_c(counter):
    os.mkdir("programs")
    bounds = []
    take_left(libraries_of("lms_c"))
    counter.check("the shared library is built", builds_shared)
    counter.check("the library is built", builds_here)
    counter.check("the library is copied", shutil.copy2, LIBRARY, "llvm.a")
    counter.check("it is built for processors with SSE2 alone", build_other, "sse2", "--cpu", "x86-64")
    counter.check("it is built by Rattle's own compiler", builds_by_rattle, bounds)
    bound = bounds[0] if bounds else None
    for name in [*NAMES, LANES]:
        counter.check(f"all ways are built, {name}", build, f"{name}.a", TOP / "tests/c/ways.c", f"programs/{name}_ways")
        counter.check(f"the example is built, {name}", build, f"{name}.a", EXAMPLES / "c/verify.c", f"programs/{name}_verify")
        counter.check(f"it keeps to itself, {name}", keeps_to_itself, f"{name}.a")
        counter.check(f"it links with no C library, {name}", link_bare, f"bare_{name}", f"{name}.a", "cc")
        counter.check(f"it runs with no C library, {name}", judges_bare, f"./bare_{name}")
    counter.check("all ways are built in C++", build_by, CPLUSPLUS, TOP / "tests/c/ways.c", "programs/cplusplus_ways", "llvm.a")
    if shutil.which("pkg-config"):
        counter.check("the example is built from the folder that was named", build_installed)
    else:
        counter.skip("the example from the folder that lms_c was given", "there is no pkg-config")
    if has_no_makecontext():
        counter.skip("the stack", "the C library has no makecontext")
    else:
        for name in NAMES:
            counter.check(f"the stack is within what docs/C.md states, {name}", stays_within, name, MOST_STACK)
        counter.check("the stack is within the compiler's bound", stays_within, "rattle", bound)
        counter.check("the compiler's bound is within what docs/C.md states", is_at_most, bound, MOST_STACK)
    counter.check("the example says what fails", example_fails, os.path.abspath("programs/llvm_verify"))
    judges_longest(counter)
    judges_heads(counter)
    refuses_others(counter)
    if os.access(PROGRAM, os.X_OK):
        judges_signed(counter)
    else:
        counter.skip("signatures of lms_tool", "it is not built")
    judges_aarch64(counter)
    counter.check("it is built for browsers", build_other, "wasm", "--target", "wasm64-unknown-unknown")
    counter.check("it links for browsers", links_wasm)
    if shutil.which("node"):
        counter.check("it runs in node", judges_node)
    else:
        counter.skip("running the verifier for browsers", "there is no node")
