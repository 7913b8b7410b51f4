"""The scripts `.ci/run` and `tests/run` in a folder of their own, over stand-ins for `rt` and for
all modules of tests: how they end, and what they count and leave, where `rt ci` fails or breaks off,
where a module fails, breaks off, is skipped or left out, and where they are interrupted."""

import ast
import os
import pathlib
import re
import shutil
import signal
import subprocess
import time

from tests.harness import SIGNALS, TOP, add_test, holds, test
from tests.merge_check.runner_modules import (
    BREAKS_OFF, COMMANDS, FAILS, FAILURES, NO_MODULE, PASSES, RAISED, RAISES, SECONDS, SKIPS, WAITS,
)

# The lists of modules in the copy of `tests/run`.
SHORT = {"FIRST": ["wrong_bodies"], "ROWS": [["misuse"], ["crashes", "readme"]], "ALONE": ["locks", "tall_tree", "may_wait"]}
NAMES = ["wrong_bodies", "misuse", "crashes", "readme", "locks", "tall_tree", "may_wait"]
# What is passed by the `rt ci` that stands in.
PROVED = 40
# The folders of a crate.
PARTS = ["must-fail", "proofs", "specs", "src"]


def lists():
    """Where `tests/run` says which modules it runs where none is named: first, in rows, and alone.
    The statements, by the names of these lists."""
    body = ast.parse((TOP / "tests/run").read_text(encoding="utf-8")).body
    named = [(getattr(it.targets[0], "id", ""), it) for it in body if isinstance(it, ast.Assign)]
    return {name: it for name, it in named if name in SHORT}


def all_modules(first, rows, alone):
    """The modules of these lists."""
    return [*first, *(name for row in rows for name in row), *alone]


def shortened():
    """The text of `tests/run` with shorter lists, since each module takes a process."""
    lines = (TOP / "tests/run").read_text(encoding="utf-8").splitlines()
    for name, it in lists().items():
        lines[it.lineno - 1 : it.end_lineno] = [f"{name} = {SHORT[name]!r}"] + [""] * (it.end_lineno - it.lineno)
    return "\n".join(lines) + "\n"


def has_tests(file):
    """Whether a file of merge_check/ is a module of tests, and not what modules share."""
    imported = [it for it in ast.walk(ast.parse(file.read_text(encoding="utf-8"))) if isinstance(it, ast.ImportFrom)]
    names = {name.name for it in imported if it.module == "tests.harness" for name in it.names}
    return bool(names & {"test", "add_test", "checks"})


def files_in(folder):
    """The files of a folder, with what each of them has."""
    return {it.relative_to(folder): it.read_bytes() for it in folder.rglob("*") if it.is_file()}


class Copy:
    """The scripts in a folder with stand-ins for all modules, which pass but for these, and for an
    `rt` that prints this and ends so. What these note, and what is made for a time, is beside it."""

    def __init__(self, says=f"{PROVED} passed, 0 failed\n", ends=0, **modules):
        self.place, self.printed = pathlib.Path("copy").absolute(), ""
        self.top = self.place / "tree"
        shutil.rmtree(self.place, ignore_errors=True)
        for folder in ("tree/tests/merge_check", "tree/.ci", "tree/crates/lms_tool/out", "bin", "files"):
            (self.place / folder).mkdir(parents=True)
        for file in [*(TOP / "tests").glob("*.py"), TOP / "tests/run", TOP / ".ci/run"]:
            shutil.copy(file, self.top / file.relative_to(TOP))
        (self.top / "tests/run").write_text(shortened())
        for name in (*NAMES, "launcher"):
            (self.top / f"tests/merge_check/{name}.py").write_text(modules.get(name, PASSES))
        (self.top / "crates/lms_tool/out/lms_tool").write_text("")
        (self.place / "says").write_text(says)
        self.rt(f'cat "{self.place}/says"\nexit {ends}')

    def rt(self, text):
        """What `rt` does, once it has noted what it is asked for."""
        (self.place / "bin/rt").write_text(f'#!/bin/sh\necho "$*" >>"{self.place}/asked"\n{text}\n')
        (self.place / "bin/rt").chmod(0o755)

    def lines(self, name):
        """The lines of a file, or none where there is no file."""
        file = self.place / name
        return file.read_text().splitlines() if file.exists() else []

    def waits(self):
        """Comes back once it is printed that something waits."""
        last = time.monotonic() + SECONDS
        while "waits" not in self.lines("printed"):
            holds(time.monotonic() < last, "nothing waits")
            time.sleep(0.05)

    def run(self, *words, interrupt=None, **named):
        """Runs a script with these variables, in a group of its own, and calls `interrupt` with its process once
        it is printed that something waits. The last line, and how the script ended."""
        own = {"PATH": f"{self.place}/bin:{os.environ['PATH']}", "TMPDIR": f"{self.place}/files"}
        how = {"cwd": self.top, "env": {**os.environ, **own, **named}, "stdin": subprocess.DEVNULL}
        with open(self.place / "printed", "wb") as printed:
            how |= {"stdout": printed, "stderr": subprocess.STDOUT, "start_new_session": True}
            with subprocess.Popen(words, **how) as running:
                try:
                    if interrupt:
                        self.waits()
                        interrupt(running.pid)
                    status = running.wait(SECONDS)
                except BaseException:
                    os.killpg(running.pid, signal.SIGKILL)
                    raise
        self.printed = (self.place / "printed").read_text()
        return (self.printed.splitlines() or [""])[-1], status

    def ran(self, what, names):
        """These modules ran, and nothing that was made for a time is left."""
        holds(sorted(self.lines("ran")) == sorted(names), f"{what}: these ran: {self.lines('ran')}")
        holds(not os.listdir(self.place / "files"), f"{what}: a folder is left that was made for a time")

    def ends(self, words, line, status, ran, **named):
        """A script ends with this line and this status, and these modules ran."""
        found, what = self.run(*words, **named), " ".join(words)
        holds(found == (line, status), f"{what}: {found}, not {(line, status)}\n{self.printed}")
        self.ran(what, ran)

    def checks(self, line, status, ran, **named):
        """The merge check ends so. `rt` was asked for `ci` alone."""
        self.ends([".ci/run"], line, status, ran, **named)
        holds(self.lines("asked") == ["ci"], f"rt was asked for {self.lines('asked')}")


@test
def each_module_of_the_merge_check_is_run():
    names = all_modules(*(ast.literal_eval(it.value) for it in lists().values()))
    holds(len(set(names)) == len(names), "one is listed twice")
    files = [file.stem for file in (TOP / "tests/merge_check").glob("*.py") if has_tests(file)]
    holds(sorted(files) == sorted(names), f"the modules are {sorted(files)}, and listed are {sorted(names)}")


@test
def all_passes():
    copy = Copy()
    copy.checks(f"{PROVED + len(NAMES)} passed, 0 failed", 0, NAMES)
    given = ["wrong_bodies --changed", "tall_tree --needed", f"may_wait {PROVED} passed, 0 failed", ""]
    holds(copy.lines("given") == given, f"they were given {copy.lines('given')}")


@test
def modules_fail():
    """One is skipped, fails, breaks off, or is none. What breaks off counts one failure alone."""
    copy = Copy(wrong_bodies=SKIPS, crashes=FAILS, locks=BREAKS_OFF, readme=NO_MODULE)
    counted = f"{PROVED + len(NAMES) - 2} passed, {FAILURES + 2} failed"
    copy.checks(counted, 1, [name for name in NAMES if name != "readme"])
    crashes = f"crashes: 1 passed, {FAILURES} failed"
    for line in (crashes, "wrong_bodies: 1 passed, 0 failed", f"rt ci: {PROVED} passed, 0 failed"):
        holds(line in copy.printed.splitlines(), f"no line: {line}\n{copy.printed}")
    for name, code in (("locks", 0), ("readme", 1)):
        line = f"{name}: 0 passed, 1 failed: it ended with {code}, and did not count"
        holds(line in copy.printed.splitlines(), f"no line: {line}\n{copy.printed}")


# What `rt ci` says, how it ends, and what the merge check counts then: one failure more.
ENDINGS = {
    "fails": ("one\n3 passed, 0 failed\n38 passed, 2 failed\n", 1, "38 passed, 3 failed"),
    "breaks off before it counts": ("one\ntwo\n", 1, "0 passed, 1 failed"),
    "breaks off after it counted": (f"{PROVED} passed, 0 failed\n", 137, f"{PROVED} passed, 1 failed"),
    "says nothing": ("", 2, "0 passed, 1 failed"),
    "counts failures and ends well": ("39 passed, 1 failed\n", 0, "39 passed, 2 failed"),
    "counts nothing and ends well": ("one\n", 0, "0 passed, 1 failed"),
}


def rt_ci(what):
    """No module is run."""
    says, ends, line = ENDINGS[what]
    copy = Copy(says, ends)
    copy.checks(line, 1, [])
    holds(says in copy.printed, "what rt ci says is not printed")


for ending in ENDINGS:
    add_test(f"rt ci {ending}", rt_ci, ending)


# What `tests/run` says last, how it ends, and how the merge check ends then.
RUNS = {
    "passes": ("45 passed, 0 failed", 0, "45 passed, 0 failed", 0),
    "fails": ("44 passed, 10 failed", 1, "44 passed, 10 failed", 1),
    "counts failures and ends well": ("44 passed, 10 failed", 0, "44 passed, 10 failed", 1),
    "counts no failure and does not end well": ("45 passed, 0 failed", 1, "45 passed, 0 failed", 1),
    "breaks off": ("one", 2, f"{PROVED} passed, 1 failed", 1),
    "breaks off and ends well": ("one", 0, f"{PROVED} passed, 1 failed", 1),
}


def tests_run(what):
    """A script stands in for it."""
    says, ends, line, status = RUNS[what]
    copy = Copy()
    (copy.top / "tests/run").write_text(f"#!/bin/sh\necho '{says}'\nexit {ends}\n")
    copy.checks(line, status, [])


for kind in RUNS:
    add_test(f"tests/run {kind}", tests_run, kind)


@test
def rt_ci_sees_the_tree_as_it_is():
    """And it is asked whatever stands in the tree, be it a result, by any name that the script has in it, and
    whatever the script's variables are set to before."""
    copy, script = Copy(), (TOP / ".ci/run").read_text(encoding="utf-8")
    named = {name: "1" for name in re.findall(r"\$\{?([A-Za-z_]\w*)", script) if name not in os.environ}
    files = re.findall(r"[.\w][./\w-]*", script) + [f"crates/lms_tool/{part}/file" for part in PARTS]
    for file in sorted((copy.top / name for name in files if ".." not in name), key=lambda it: -len(it.parts)):
        if not file.exists():
            file.parent.mkdir(parents=True, exist_ok=True)
            file.write_text("9 passed, 0 failed\n")
    copy.rt(f'cp -r . "{copy.place}/seen"\ncat "{copy.place}/says"')
    before = files_in(copy.top)
    copy.checks(f"{PROVED + len(NAMES)} passed, 0 failed", 0, NAMES, **named)
    changed = dict(before.items() ^ files_in(copy.place / "seen").items())
    holds(not changed, f"it sees other files: {sorted(map(str, changed))}")


@test
def tells_what_is_missing():
    """Before all else, with a folder of the few tools that the script needs itself as the PATH: there is no
    other, and then one that is needed and one without which tests are skipped."""
    copy = Copy()
    for tool in ("sh", "awk", "cat", "dirname", "env", "mktemp", "nproc", "python3", "rm", "tail", "tee"):
        (copy.place / "bin" / tool).symlink_to(shutil.which(tool))

    def first_lines():
        copy.run(".ci/run", PATH=f"{copy.place}/bin")
        return copy.printed.partition(f"{PROVED} passed")[0].splitlines()

    said = first_lines()
    holds(said[0].startswith("tests will fail, as there is no cc nm size openssl basenc: "), f"{said}")
    holds(any(it.startswith("skipped for want of chromium|") for it in said) and "skipped for want of node: parts of translator" in said, f"{said}")
    for tool in ("cc", "node"):
        (copy.place / "bin" / tool).symlink_to("/bin/true")
    said = first_lines()
    holds(said[0].startswith("tests will fail, as there is no nm size openssl basenc: "), f"{said}")
    holds(not any("translator" in it for it in said), f"{said}")


@test
def there_is_no_rt():
    copy = Copy()
    os.remove(copy.place / "bin/rt")
    (copy.place / "bin/rt").mkdir()
    copy.ends([".ci/run"], "0 passed, 1 failed", 1, [], PATH=f"{copy.place}/bin:/usr/bin:/bin")


# A module, and how `tests/run` ends where it is named.
MODULES = {
    "fails": (FAILS, f"1 passed, {FAILURES} failed", 1),
    "is skipped": (SKIPS, "1 passed, 0 failed", 0),
    "breaks off": (BREAKS_OFF, "0 passed, 1 failed", 1),
    "has no test": ("", "0 passed, 1 failed", 1),
}


def a_module(what):
    """It alone is run."""
    text, line, status = MODULES[what]
    copy = Copy(locks=text)
    copy.ends(["tests/run", "locks"], line, status, ["locks"] * ("passes()" in text))
    holds(not copy.lines("asked"), "rt was asked")


for kind in MODULES:
    add_test(f"a module that {kind}", a_module, kind)


@test
def all_that_a_check_can_raise():
    """What is printed of each check and each group of checks, and how they count. Only what says so is skipped, and
    a command that does not end well fails the check."""
    copy, lines = Copy(locks=RAISES), []
    for error, (kind, why) in RAISED.items():
        lines += [f"{kind} {error}: {why}", "ok one of a group", f"{kind} group of {error}: {why}"]
    lines += [f"FAILED {command}: sh ended with {status}\n" for command, status in COMMANDS.items()]
    counted = f"{len(RAISED) + 1} passed, {2 * len(RAISED) - 2 + len(COMMANDS)} failed"
    copy.ends(["tests/run", "locks"], counted, 1, [])
    wanted = "\n".join([*lines, "ok takes rights away", f"locks: {counted}", counted, ""])
    holds(copy.printed == wanted, f"printed was\n{copy.printed}and not\n{wanted}")


@test
def parts_of_modules():
    """One test of a module, another module beside it, and what is not there."""
    copy = Copy(locks=FAILS)
    copy.ends(["tests/run", "locks:passes", "crashes"], "2 passed, 0 failed", 0, ["locks", "crashes"])
    copy.ends(["tests/run", "locks:none"], "0 passed, 1 failed", 1, ["locks", "crashes"])
    for words in (["none"], ["--printed", "none"]):
        _, status = copy.run("tests/run", *words)
        holds(status == 2, f"{words}: {status}")
    counted = f"{PROVED} passed, {FAILURES} failed"
    copy.ends(["tests/run", "--printed", "../says", "locks:fails"], counted, 1, ["locks", "crashes"])


@test
def the_program_is_missing():
    """It is built first; where it can't be, no module that needs it is run, which is a failure."""
    copy = Copy()
    os.remove(copy.top / "crates/lms_tool/out/lms_tool")
    copy.ends(["tests/run", "locks"], "1 passed, 0 failed", 0, ["locks"])
    holds(copy.lines("asked") == ["run -- --help"], f"rt was asked for {copy.lines('asked')}")
    copy = Copy(ends=1)
    os.remove(copy.top / "crates/lms_tool/out/lms_tool")
    copy.ends(["tests/run", "locks"], "0 passed, 1 failed", 1, [])
    copy.ends(["tests/run", "launcher"], "1 passed, 0 failed", 0, ["launcher"])


def interrupted(number, script, send, ran):
    """While `rt ci` waits, or a module. No other module is run, and nothing is counted."""
    copy = Copy(wrong_bodies=WAITS)
    copy.rt(f"echo waits\nexec sleep {SECONDS}")
    _, status = copy.run(script, interrupt=lambda process: send(process, number))
    holds(status == 130 and " passed, " not in copy.printed, f"it ended with {status}\n{copy.printed}")
    copy.ran(script, ran)


# What `.ci/run` runs is sent the signal, too, as by a terminal, since a shell first waits for that. `tests/run` ends
# it itself.
for sent in SIGNALS:
    add_test(f".ci/run is sent {sent.name}", interrupted, sent, ".ci/run", os.killpg, [])
    add_test(f"tests/run is sent {sent.name}", interrupted, sent, "tests/run", os.kill, ["wrong_bodies"])
