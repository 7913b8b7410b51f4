"""The shared library from other languages: examples/python/lms.py, and what docs/C.md has for Rust and Go,
where their compilers are. Each judges the rows that others published, and the examples."""

import os
import re
import shutil
import subprocess
import sys

from tests.harness import TOP, Skipped, holds, said_by, test
from tests.merge_check.c_programs import EXAMPLE, EXAMPLES, gives, install
from tests.merge_check.portable_vectors import empty_message
from tests.merge_check.published_rows import judges
from tests.program import put, read

BINDING = EXAMPLES / "python/lms.py"
# The lines that it may have, and that the text for Rust and that for Go may.
MOST_LINES, MOST_LINES_OF_TEXT = 80, 20
# The first version of rustc with `unsafe extern`.
RUSTC = (1, 82)
# What the programs of these languages are made of beside the text: they print a verdict on three files.
RUST = """
fn main() {
    let texts: Vec<_> = std::env::args().skip(1).map(|name| std::fs::read(name).unwrap()).collect();
    let is_valid = verify(&texts[0], &texts[1], &texts[2]);
    println!("{}", if is_valid { "valid" } else { "invalid" });
    std::process::exit(!is_valid as i32);
}
"""
GO = """package main

import (
	"fmt"
	"os"

	"example.org/verifier/lms"
)

func main() {
	var texts [3][]byte
	for i := range texts {
		texts[i], _ = os.ReadFile(os.Args[i+1])
	}
	if lms.Verify(texts[0], texts[1], texts[2]) {
		fmt.Println("valid")
		return
	}
	fmt.Println("invalid")
	os.Exit(1)
}
"""


def text_in(language):
    """The block of docs/C.md in a language."""
    found = re.findall(rf"(?ms)^```{language}\n(.*?)^```$", (TOP / "docs/C.md").read_text(encoding="utf-8"))
    holds(len(found) == 1, f"docs/C.md has {len(found)} blocks in {language}")
    holds(len(found[0].splitlines()) <= MOST_LINES_OF_TEXT, f"the block in {language} has {len(found[0].splitlines())} lines")
    return found[0]


def with_library(**more):
    """The environment in which the installed library is found."""
    folder = os.path.abspath("installed/lib")
    flags = {"PKG_CONFIG_PATH": f"{folder}/pkgconfig", "LD_LIBRARY_PATH": folder}
    return {**os.environ, **flags, **more}


def judges_by(*words):
    """A program that prints the verdict on three files has the right one on all that is published, on an example
    whose files are empty in turn, and on an empty message with its signature."""
    run = ["env", f"LD_LIBRARY_PATH={os.path.abspath('installed/lib')}", *words]
    judges(lambda verdict, *files: gives(verdict, *run, *files))
    gives("valid", *run, *EXAMPLE)
    gives("valid", *run, *empty_message())
    for at in range(3):
        gives("invalid", *run, *EXAMPLE[:at], "empty", *EXAMPLE[at + 1 :])


@test
def python_judges():
    install()
    holds(len(read(BINDING).splitlines()) <= MOST_LINES, "it is longer than it should be")
    judges_by(sys.executable, "-B", BINDING)


@test
def python_ends_with_2_without_a_verdict():
    install()
    for words in (EXAMPLE[:2], [*EXAMPLE, "more"], ["missing", *EXAMPLE[1:]], [EXAMPLE[0], "missing", EXAMPLE[2]], [*EXAMPLE[:2], "missing"]):
        ran = subprocess.run([sys.executable, "-B", BINDING, *words], env=with_library(), capture_output=True, text=True, check=False)
        says = "missing" if "missing" in words else "usage: lms.py PUBLIC MESSAGE SIGNATURE\n"
        holds((ran.returncode, ran.stdout) == (2, "") and says in ran.stderr, f"{words}: {ran}")


def raises(error, call, *arguments):
    """A call raises this."""
    try:
        answer = call(*arguments)
    except error:
        return
    holds(False, f"{arguments} gave {answer}, and no {error.__name__}")


def refuses_types(lms):
    """What the binding does with other types and lengths, and with files that can't be mapped."""
    public, message, signature = (read(name) for name in EXAMPLE)
    holds(lms.verify(public, message, signature) and lms.verify_file(public, EXAMPLE[1], signature), "the example is invalid")
    for other in (None, "text", bytearray(public), memoryview(public), 60, [public]):
        for parts in ((other, message, signature), (public, other, signature), (public, message, other)):
            raises(TypeError, lms.verify, *parts)
        raises(TypeError, lms.verify_file, other, EXAMPLE[1], signature)
        raises(TypeError, lms.verify_file, public, EXAMPLE[1], other)
    raises(OSError, lms.verify_file, public, "missing", signature)
    for parts in ((public[:-1], message, signature), (public + b"x", message, signature), (public, message, bytes(75000))):
        holds(not lms.verify(*parts), "another length is valid")
    holds(not lms.verify_file(public, EXAMPLE[2], signature), "another file is valid")
    os.mkfifo("pipe")
    with subprocess.Popen(["sh", "-c", 'cat "$0" >pipe', EXAMPLE[1]]) as writer:
        is_valid = lms.verify_file(public, "pipe", signature)
    holds(is_valid and writer.returncode == 0, "a message from a pipe is invalid")


@test
def python_refuses_what_is_no_bytes():
    install()
    code = "import sys; sys.path[:0] = sys.argv[1:]; sys.dont_write_bytecode = True; import lms; "
    code += "from tests.merge_check.bindings import refuses_types; refuses_types(lms)"
    said_by(sys.executable, "-B", "-c", code, TOP, BINDING.parent, env=with_library())


def skip_without(name, *asks):
    """Where a compiler is not there, or does not answer this, a check is skipped."""
    if not shutil.which(name) or subprocess.run([name, *asks], capture_output=True, check=False).returncode:
        raise Skipped(f"there is no {name}")


@test
def rust_judges():
    skip_without("rustc", "--version")
    version = re.match(r"rustc (\d+)\.(\d+)", said_by("rustc", "--version"))
    if not version or tuple(map(int, version.groups())) < RUSTC:
        raise Skipped(f"rustc is older than {RUSTC[0]}.{RUSTC[1]}")
    install()
    put("verifier.rs", (text_in("rust") + RUST).encode())
    said_by("rustc", "-L", "installed/lib", "verifier.rs")
    judges_by("./verifier")


@test
def go_judges():
    for name, asked in (("go", "version"), ("gcc", "--version"), ("pkg-config", "--version")):
        skip_without(name, asked)
    if said_by("go", "env", "CGO_ENABLED").strip() != "1":
        raise Skipped("cgo is not on")
    install()
    os.makedirs("verifier/lms")
    put("verifier/lms/lms.go", text_in("go").encode())
    put("verifier/main.go", GO.encode())
    put("verifier/go.mod", b"module example.org/verifier\n")
    alone = {"GOFLAGS": "-mod=mod", "GOPROXY": "off", "GOCACHE": os.path.abspath("cache"), "GOTOOLCHAIN": "local"}
    said_by("go", "build", "-o", os.path.abspath("verifier_by_go"), ".", cwd="verifier", env=with_library(**alone))
    judges_by(os.path.abspath("verifier_by_go"))
