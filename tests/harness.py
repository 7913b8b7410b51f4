"""What a module of tests is made of: its checks, how each of them is run, and how they are
counted."""

import os
import pathlib
import re
import shutil
import signal
import subprocess
import sys
import tempfile

TOP = pathlib.Path(__file__).resolve().parent.parent
# The arguments of the module, as they follow `--`.
ARGUMENTS = []
# The module's tests in their order: each one's name and what runs it.
TESTS = []
SIGNALS = [signal.SIGHUP, signal.SIGINT, signal.SIGTERM]


class Wrong(Exception):
    """What should not have happened."""


class Skipped(Exception):
    """Why a check can't be run here."""


def holds(is_so, what):
    """Fails the check where this is not so."""
    if not is_so:
        raise Wrong(what)


def said_by(*words, **how):
    """What a command prints, which must end well. It has no input where none is given."""
    how = {"stdout": subprocess.PIPE, "stderr": subprocess.PIPE, "text": True, "errors": "replace", **how}
    if "input" not in how:
        how.setdefault("stdin", subprocess.DEVNULL)
    ran = subprocess.run(words, check=False, **how)
    holds(ran.returncode == 0, f"{words[0]} ended with {ran.returncode}\n{ran.stdout[-2000:]}{(ran.stderr or '')[-2000:]}")
    return ran.stdout


def blocks_of(document, language=""):
    """The blocks of commands in a document of the repository, or of a language, one after another."""
    return re.findall(rf"(?ms)^```{language}\n(.*?)^```$", (TOP / document).read_text(encoding="utf-8"))


def add_test(name, call, *arguments):
    """Makes this call one of the module's tests."""
    TESTS.append((name, lambda counter: counter.check(name, call, *arguments)))


def test(call):
    """Makes a function one of the module's tests, named as the function is."""
    add_test(call.__name__.replace("_", " "), call)
    return call


def checks(call):
    """Makes a function that makes several checks part of the module: it is called with a
    `Counter`."""
    TESTS.append((call.__name__.replace("_", " "), lambda counter: counter.group(call)))
    return call


class Counter:
    """Runs checks, prints a line for each, and counts them."""

    def __init__(self):
        self.passed = self.failed = 0

    def check(self, name, call, *arguments):
        """Makes this call, which raises where it fails or is to be skipped. Whether it passed."""
        try:
            call(*arguments)
        except Skipped as why:
            print(f"skipped {name}: {why}", flush=True)
            return False
        except Exception as why:  # pylint: disable=broad-except
            self.failed += 1
            print(f"FAILED {name}: {why if isinstance(why, Wrong) else repr(why)}", flush=True)
            return False
        self.passed += 1
        print(f"ok {name}", flush=True)
        return True

    def skip(self, name, why):
        """Says that a check can't be run here."""
        print(f"skipped {name}: {why}", flush=True)

    def group(self, call):
        """Has this function make its checks. Where it breaks off itself, that is one more that
        failed."""
        name = call.__name__.replace("_", " ")
        try:
            call(self)
        except Skipped as why:
            self.skip(name, why)
        except Exception as why:  # pylint: disable=broad-except
            self.failed += 1
            print(f"FAILED {name}: {why if isinstance(why, Wrong) else repr(why)}", flush=True)


def stop(*_):
    """Ends, and has all that was made removed."""
    for it in SIGNALS:
        signal.signal(it, signal.SIG_IGN)
    sys.exit(130)


def remove(folder):
    """Removes a folder, also where a test took rights on it away."""
    os.chdir("/")
    os.chmod(folder, 0o700)
    shutil.rmtree(folder)


def run_tests(module, part):
    """Runs a module's tests whose names have this part, where `_` is a blank, each in a folder of
    its own with a message of three bytes. How many failed: one where no test is run."""
    counter, part = Counter(), part.replace("_", " ")
    chosen = [(name, run) for name, run in TESTS if part in name.replace("_", " ")]
    if not chosen:
        counter.failed += 1
        print(f"FAILED {module}: no test has {part!r} in its name" if part else f"FAILED {module}: it has no test", flush=True)
    for it in SIGNALS:
        signal.signal(it, stop)
    tempfile.tempdir = tempfile.mkdtemp(prefix="lms_tests-")
    # (Another user may have to run a program in there.)
    os.chmod(tempfile.tempdir, 0o755)
    try:
        for _, run in chosen:
            folder = tempfile.mkdtemp()
            os.chdir(folder)
            pathlib.Path("text").write_bytes(b"abc")
            try:
                run(counter)
            finally:
                remove(folder)
    finally:
        remove(tempfile.tempdir)
    print(f"{module}: {counter.passed} passed, {counter.failed} failed", flush=True)
    return counter.failed
