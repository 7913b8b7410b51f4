"""Tries wrong bodies: those of crates/NAME/wrong-bodies.edits, which `rt ci` leaves out, of the crates
that the arguments name, or of all that have some. With --must-fail before them it tries the edits of
must-fail/ in their place. With --changed alone, as the merge check has it, it tries those of the
crates of which something changed.

Edits of several functions go into one check, which says of each function whether it is proved. An
edit is refused where the function that it changes is not proved, for a reason of its own: not for a
name or a type, and not for another function that it calls. What a check leaves open is tried again
with fewer others, and at last alone. Edits are tried in copies of their crate, as many at once as
there are processors, over the libraries in crates/NAME/out: those that `rt ci` left, or else those
that `rt lib` makes first. Prints how many of each crate were refused, and names the others; each
edit counts.

Where all of a crate are refused, tests/wrong_bodies.sums gets a sum of what they were tried over
(`edit_sums.py`). It is to be committed: --changed leaves a crate out that has the same sum again."""

import collections
import concurrent.futures
import contextlib
import os
import pathlib
import re
import shutil
import signal
import subprocess
import tempfile
import threading

from tests.harness import ARGUMENTS, TOP, Wrong, checks
from tests.merge_check.crates import PARTS, check_words, crates_listed, libraries_of, take_left
from tests.merge_check.edit_sums import note, noted, sum_of
from tests.merge_check.edits import MUST_FAIL, WRONG_BODIES, edits_of

# The commands that run, and whether no more are to be started.
RUNNING, STOPPED = set(), threading.Event()

# What a check says where a name or a type is wrong, and no statement is false.
NAMES = re.compile(r"has no field|is not in scope|has no `|was not admitted|is no name|operand is missing|expected the end|cannot continue")
NO_TYPES = re.compile(r"\berror\[[\w-]+\]")
# A function, with the lines before it in the report, from what was said of the one before on.
FUNCTION = re.compile(r"(?m)((?:^(?!fn |impl |struct |enum ).*\n)*)^fn (\S+): (proved|not proved|no proof|could not tell)(.*)$")
OPEN = re.compile(r"(?m)^note: src/\S+:\d+:\d+: it is not proved that")
# The most edits in one check: more would leave processors idle while the last ones are tried.
MOST_EDITS = 8
# What a check has proved of a crate.
KEPT = "out/incremental"
PROCESSORS = len(os.sched_getaffinity(0))


class Said:
    """What a check said of the functions of a crate."""

    def __init__(self, crate, status, text):
        self.crate, self.status, self.text = crate, status, text
        self.has_verdict = status == 1 and re.search(r"(?m)^logic=not-proved", text) is not None
        self.found = FUNCTION.findall(text)

    def refused(self, edits):
        """The edits of these, which were made together, that are refused: of each a function that
        it changes is named, for a reason of its own. No edit of a body leaves another function
        unproved but by a call, so where such a one is named, nothing is known of any."""
        if not self.has_verdict:
            return []
        named = [name for before, name, kind, why in self.found if self.is_own(name, kind, why, before)]
        refused = {edit: [it for it in named if edit.changes(it)] for edit in edits}
        is_known = len(edits) == 1 or set(named) == {it for its in refused.values() for it in its}
        return [edit for edit, its in refused.items() if its and is_known]

    def is_own(self, name, kind, why, before):
        """Whether a function is not proved by search, or what its own proof files say of it is
        false."""
        if kind == "no proof":
            return "`search` did not prove" in why
        # A function that calls itself has a folder whose name begins with +.
        *parents, last = name.split("::")[1:]
        folder = "/".join(["proofs", *parents, rf"\+?{last}", ""])
        errors = re.findall(rf"(?m)^(?:\./)?{folder}\S+: error: (.*)$", self.text)
        return kind == "not proved" and (OPEN.search(before) is not None or any(not NAMES.search(it) for it in errors))

    def why(self):
        """Why an edit is not refused."""
        if self.status == 0:
            return "it is still proved"
        lines = self.text.rstrip("\n").split("\n")
        reported = [it for it in lines if NO_TYPES.search(it) or re.search(r":\d+:\d+: error", it)] if self.status == 1 else []
        return [*reported, lines[-1]][0]


def check(crate, texts):
    """Checks a copy of a crate with these contents of files in place of its own, over what
    crates/NAME/out/incremental has proved."""
    with tempfile.TemporaryDirectory() as folder:
        for part in PARTS:
            if (crate / part).is_dir():
                shutil.copytree(crate / part, f"{folder}/{part}")
        for path, text in texts.items():
            (pathlib.Path(folder) / path).write_text(text, encoding="utf-8")
        shutil.copytree(crate / KEPT, f"{folder}/kept", copy_function=link)
        words = [*check_words(crate.name), "--incremental", "kept"]
        ran = run(*words, cwd=folder)
        if ran.returncode < 0 and not STOPPED.is_set():
            ran = run(*words, cwd=folder)
        return Said(crate, ran.returncode, ran.stdout)


def link(one, other):
    """Copies a file. What was proved is replaced by a check and never changed, so a second name is
    enough where there can be one."""
    try:
        return os.link(one, other) if one.endswith(".oantt") else shutil.copy2(one, other)
    except OSError:
        return shutil.copy2(one, other)


def run(*words, cwd):
    """What a command ended with and printed."""
    if STOPPED.is_set():
        raise Wrong("it was stopped")
    how = {"stdin": subprocess.DEVNULL, "stdout": subprocess.PIPE, "stderr": subprocess.STDOUT, "text": True, "errors": "replace"}
    with subprocess.Popen(words, cwd=cwd, start_new_session=True, **how) as ran:
        RUNNING.add(ran)
        if STOPPED.is_set():
            stop()
        try:
            said, _ = ran.communicate()
        finally:
            RUNNING.discard(ran)
    return subprocess.CompletedProcess(words, ran.returncode, said)


class Trials:
    """The edits that are left to try, in groups for one check each, and what came of the others."""

    def __init__(self, edits):
        self.turn = threading.Condition()
        self.refused, self.failed = collections.Counter(), []
        self.groups, self.running = [], 0
        # Those of the highest crates take longest, and go first.
        for crate in reversed(list(dict.fromkeys(it.crate for it in edits))):
            self.groups += grouped([it for it in edits if it.crate == crate])

    def next(self):
        """The next group, once there is one, or None at the end."""
        with self.turn:
            self.turn.wait_for(lambda: self.groups or not self.running)
            if not self.groups or STOPPED.is_set():
                return None
            self.running += 1
            return self.groups.pop(0)

    def ended(self, group, said):
        """Takes what a check said of a group: the edits that are not refused yet go into smaller
        groups."""
        edits, _ = group
        try:
            refused = said.refused(edits)
        except Exception as error:  # pylint: disable=broad-except
            refused, said = [], Said(said.crate, 2, repr(error))
        left = [it for it in edits if it not in refused]
        with self.turn:
            self.running -= 1
            self.refused.update(it.crate.name for it in refused)
            if len(edits) == 1:
                self.failed += [(it, said.why()) for it in left]
            elif len(left) < len(edits):
                self.groups += grouped(left)
            else:
                # Nothing is known of any: halves, down to each alone.
                half = len(left) // 2
                self.groups += [group for part in (left[:half], left[half:]) for group in grouped(part)]
            self.turn.notify_all()


def grouped(edits):
    """Edits of a crate in groups, with the files' contents of each, or None for one that can't be
    applied. A function is changed by one edit of a group; what changes more than bodies is
    alone."""
    groups = []
    for edit in edits:
        for members, texts in groups:
            apart = texts and len(members) < MOST_EDITS and edit.is_of_bodies
            apart = apart and all(it.is_of_bodies and not it.functions & edit.functions for it in members)
            more = edit.apply(texts) if apart else None
            if more:
                members.append(edit)
                texts.update(more)
                break
        else:
            groups.append(([edit], edit.apply({})))
    return groups


def work(trials):
    """Tries groups, until none is left."""
    while group := trials.next():
        edits, texts = group
        crate = edits[0].crate
        try:
            said = check(crate, texts) if texts else Said(crate, 2, "what it replaces is not in its file exactly once")
        except Exception as error:  # pylint: disable=broad-except
            said = Said(crate, 2, repr(error))
        trials.ended(group, said)


def can_be_made(crate):
    """Whether what each wrong body of a crate replaces is there: it may be in a comment, which no sum has."""
    return all(it.apply({}) for it in edits_of(crate, WRONG_BODIES))


def make_libraries(crates):
    """Has `rt lib` make the libraries below these crates, where they are neither left nor made
    yet."""
    needed = {low for it in crates for low in libraries_of(it.name)}
    if not needed or take_left(needed):
        return
    for name in sorted(needed, key=lambda it: len(libraries_of(it))):
        ran = run("rt", "lib", cwd=TOP / "crates" / name)
        if ran.returncode:
            raise Wrong(f"{name} is not proved\n{end_of(ran.stdout)}")


def prove(crate):
    """Proves a crate, and keeps what that found for the tries."""
    ran = run(*check_words(crate.name), "--incremental", KEPT, cwd=crate)
    if ran.returncode:
        raise Wrong(f"{crate.name} is not proved\n{end_of(ran.stdout)}")


def prove_all(crates):
    """Proves crates, as many at once as there are processors."""
    with concurrent.futures.ThreadPoolExecutor(PROCESSORS) as pool:
        try:
            list(pool.map(prove, crates))
        except BaseException:
            # (Else the pool would wait for what runs.)
            stop()
            raise


def end_of(said):
    """The last lines of what a command said."""
    return "\n".join(said.split("\n")[-40:])


def chosen_crates(place, names):
    """The crates of these names, or all that have edits in this place, in the order of `crates.txt`."""
    listed = list(crates_listed()[0])
    names = sorted(names, key=listed.index) if set(names) <= set(listed) else names
    names = names or [it for it in listed if (TOP / "crates" / it / place).exists()]
    for name in names:
        if not (TOP / "crates" / name / place).exists():
            raise Wrong(f"crates/{name} has no {place}; the arguments are --changed, or [--must-fail] [CRATE ..]")
    return [TOP / "crates" / name for name in names]


def tried(edits):
    """What came of these edits, tried as many at once as there are processors."""
    trials = Trials(edits)
    threads = [threading.Thread(target=work, args=(trials,), daemon=True) for _ in range(PROCESSORS)]
    for it in threads:
        it.start()
    try:
        for it in threads:
            it.join()
    except BaseException:
        stop()
        for it in threads:
            it.join()
        raise
    return trials


def stop():
    """Ends what runs."""
    STOPPED.set()
    for it in list(RUNNING):
        with contextlib.suppress(ProcessLookupError):
            os.killpg(it.pid, signal.SIGKILL)


def asked():
    """Whether the edits of changed crates alone are to be tried, where the edits are, and the crates
    that are named."""
    words = list(ARGUMENTS)
    if words == ["--changed"]:
        return True, WRONG_BODIES, []
    if words[:1] == ["--must-fail"]:
        return False, MUST_FAIL, words[1:]
    return False, WRONG_BODIES, words


@checks
def wrong_bodies(counter):
    """Each edit counts as one that passed where it is refused."""
    of_changed, place, names = asked()
    crates = chosen_crates(place, names)
    sums = {it.name: sum_of(it.name) for it in crates} if place == WRONG_BODIES else {}
    if of_changed:
        before, every = noted(), crates
        crates = [it for it in every if before.get(it.name) != sums[it.name] or not can_be_made(it)]
        same = len(every) - len(crates)
        print(f"{same} of {len(every)} crates are as they were when their wrong bodies were refused", flush=True)
    edits = [edit for crate in crates for edit in edits_of(crate, place)]
    try:
        make_libraries(crates)
        prove_all(crates)
        trials = tried(edits)
    finally:
        stop()
    for crate in crates:
        count = sum(it.crate == crate for it in edits)
        print(f"{crate.name}: {trials.refused[crate.name]} of {count} wrong bodies were refused")
    for edit, why in trials.failed:
        print(f"NOT REFUSED: {edit.crate.name}/{edit.name}: {why}")
    failed = {it.crate.name for it, _ in trials.failed}
    # (What was changed meanwhile was not tried.)
    same = {it.name for it in crates if sums and it.name not in failed and sum_of(it.name) == sums[it.name]}
    if note({it.name: sums[it.name] if it.name in same else None for it in crates if sums}):
        print("tests/wrong_bodies.sums has changed: commit it")
    passed = sum(trials.refused.values())
    counter.passed += passed
    counter.failed += len(edits) - passed
