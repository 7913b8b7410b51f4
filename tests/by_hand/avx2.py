"""What is built for processors with AVX2, in a copy of the repository.

The tests of chains, trees and levels (vectors of another implementation, the slow signer);
`bench_keys`, which has to print its `stdout`, and so that public hashes are the same chain by
chain; and the program, by which the README's example has to be valid, and which has to write the
same states, keys, signatures and answers to job lines as the program for other processors, each
verified by both. Then both are started as on a processor without AVX2, which needs `cc`. All is
skipped where the processor has no AVX2, and the last where CPUID can't be stopped.

It proves those tests and the programs anew, which takes more than half an hour on four
processors."""

import os
import pathlib
import re
import shutil
import subprocess

from tests.harness import TOP, Skipped, checks, holds
from tests.program import job_lines, keygen, put, read, sign, verify
from tests.reference import SEED

FIRMWARE, SIGNATURE, PUBLIC = (TOP / "examples" / name for name in ("firmware.bin", "firmware.sig", "release.pub"))
AVX2 = "--cpu=x86-64-v3"
TESTS = ["lms_ots_tests", "lms_tree_tests", "lms_hss_tests"]
LEVELS = ["5/1", "5/2", "10/4", "5/8,5/8"]
JOBS = job_lines(b"\0", b"abc", 3 * SEED, randomizer=SEED)
# The last lines of what a command said that are shown where it failed.
LINES = 20


def has_flag(name):
    """Whether the processor has a flag."""
    cpuinfo = pathlib.Path("/proc/cpuinfo")
    return cpuinfo.exists() and re.search(rf"(?m)^flags.* {name}", cpuinfo.read_text()) is not None


def said_by(*words, **how):
    """What a command prints, which must end well."""
    how = {"stdin": subprocess.DEVNULL, "stdout": subprocess.PIPE, "stderr": subprocess.STDOUT, **how}
    ran = subprocess.run(words, check=False, **how)
    said = "\n".join((ran.stdout + (ran.stderr or b"")).decode(errors="replace").splitlines()[-LINES:])
    holds(ran.returncode == 0, f"{' '.join(map(str, words))} ended with {ran.returncode}\n{said}")
    return ran.stdout


def tests_of(crate):
    """Tests of a crate pass."""
    said_by("rt", "test", AVX2, cwd=f"crates/{crate}")


def counts():
    """The program that times prints in this build what the merge check expects of the common
    one."""
    folder = pathlib.Path("crates/bench_keys")
    (folder / "out/bench_keys").unlink(missing_ok=True)
    counted = said_by("rt", "run", AVX2, cwd=folder, stderr=subprocess.PIPE)
    holds(counted == read(folder / "stdout"), f"it printed {counted.decode(errors='replace')}")


def makes(name, *flags):
    """Builds the program with these flags of `rt run`, under another name."""
    folder = pathlib.Path("crates/lms_tool")
    (folder / "out/lms_tool").unlink(missing_ok=True)
    said_by("rt", "run", *flags, "--", "--help", cwd=folder)
    os.rename(folder / "out/lms_tool", name)


def is_valid(*words):
    """A program finds a signature valid."""
    holds(said_by(*words) == b"valid\n", f"{words[0]} finds it invalid")


def signed_by(name, levels):
    """Makes a key of these levels by the program of this name, two signatures of it, and answers to
    job lines, all with the same secrets. All files that were written, by their names, and what was
    printed."""
    folder, secret, program = f"{name}.files", SEED.hex(), f"./{name}"
    shutil.rmtree(folder, ignore_errors=True)
    os.mkdir(folder)
    said_by(program, *keygen(levels, secret, secret[:32], f"{folder}/state", f"{folder}/public"))
    for message in (FIRMWARE, SIGNATURE):
        said_by(program, *sign(message, f"{folder}/{message.name}", secret, f"{folder}/state"))
    put("jobs", JOBS)
    with open("jobs", "rb") as jobs:
        answers = said_by(program, "batch", "--state", f"{folder}/state", "--workers", "2", stdin=jobs, stderr=subprocess.PIPE)
    put(f"{folder}/answers", answers)
    put(f"{folder}/info", said_by(program, "info", "--state", f"{folder}/state"))
    return {file.name: file.read_bytes() for file in pathlib.Path(folder).iterdir()}


def verified_by(signer, verifier):
    """The program of the second name verifies what the one of the first name signed."""
    for message in (FIRMWARE, SIGNATURE):
        is_valid(f"./{verifier}", *verify(message, f"{signer}.files/{message.name}", f"{signer}.files/public"))


def agree():
    """The programs of both builds write the same files, and each takes the signatures of the other
    one."""
    for levels in LEVELS:
        ours, theirs = signed_by("avx2", levels), signed_by("common", levels)
        differing = [name for name in sorted(ours.keys() | theirs.keys()) if ours.get(name) != theirs.get(name)]
        holds(not differing, f"of {levels} these differ: {differing}")
        verified_by("avx2", "common")
        verified_by("common", "avx2")


def refuses():
    """Started as on a processor without AVX2, the program for processors with it names what it was
    built for, ends with 127, and reads no job lines; the other one does its work."""
    said_by("cc", "-O1", "-o", "without_avx2", TOP / "tests/c/without_avx2.c")
    put("jobs", JOBS)
    words = ["./without_avx2", "./avx2", "batch", "--state", "avx2.files/state", "--workers", "2"]
    with open("jobs", "rb", 0) as jobs:
        ran = subprocess.run(words, stdin=jobs, capture_output=True, check=False)
        left = jobs.read()
    said = f"ended with {ran.returncode}: {ran.stdout!r} {ran.stderr!r}"
    holds(ran.returncode == 127 and not ran.stdout and b"x86-64-v3" in ran.stderr, said)
    holds(left == JOBS, "it read job lines")
    holds(read("avx2.files/state") == read("common.files/state"), "another state")
    is_valid("./without_avx2", "./common", *verify(FIRMWARE, f"avx2.files/{FIRMWARE.name}", "avx2.files/public"))


@checks
def the_build_for_avx2(counter):
    if not has_flag("avx2"):
        raise Skipped("this processor has no AVX2")
    for name in ("crates.txt", "HANDLES"):
        shutil.copy2(TOP / name, ".")
    shutil.copytree(TOP / "crates", "crates", symlinks=True)
    for crate in TESTS:
        counter.check(f"tests of {crate}", tests_of, crate)
    counter.check("the run of bench_keys", counts)
    counter.check("the program for processors with AVX2", makes, "avx2", AVX2)
    counter.check("the example's signature", is_valid, "./avx2", *verify(FIRMWARE, SIGNATURE, PUBLIC))
    counter.check("the program for other processors", makes, "common")
    counter.check("the same files by both programs", agree)
    if has_flag("cpuid_fault"):
        counter.check("the programs where there is no AVX2", refuses)
    else:
        counter.skip("the programs where there is no AVX2", "CPUID can't be stopped here")
