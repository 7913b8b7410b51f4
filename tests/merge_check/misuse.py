"""A lease (`Lease` of `lms_book`) and a pass (`IndexPass` of `lms_pool`, `CellPass` of `lms_cell_pool`)
have to be used, and once; and what has a key's seed in it can't be printed.

The toolchain reads small bodies of a crate over these: each wrong body it must refuse by the
error that is named beside it, with no other beside that, and the right body it must take, up to
where moves are looked for. It looks for wrong types first, then for what is dropped, then for what
is moved twice, and stops where it has found some; so what was refused is taken out, and the rest is
read again. Nothing is proved or built. And each place of the three crates that names one of the types
is compared with a list: its declaration, its impls with their functions and constants, and whatever
else gives, takes, makes or ends one."""

import collections
import contextlib
import os
import pathlib
import re
import shutil
import signal
import string
import subprocess

from tests.harness import TOP, Wrong, add_test, checks, holds, test
from tests.merge_check import misuse_secrets, misuse_signing
from tests.merge_check.misuse_cases import CASES, CRATES, TYPES

ERROR = re.compile(r"(?m)^(.+?):\d+:\d+: error\[([\w-]+)\]: (.*)$")
NO_CODE = re.compile(r"(?s)//[^\n]*|/\*.*?\*/|\"(?:\\.|[^\"\\])*\"|'(?:\\.|[^'\\])'")
CLAUSE = re.compile(r"\b(?:requires|ensures)\b[^{};]*(?=\{)")
FUNCTION = re.compile(r"\bfn (\w+)")
IMPL = re.compile(r"^(?:#\[.*\] )?impl\b(?:.*\bfor\b)?[^{]*?\b([A-Z]\w+)(?:<.*>)?(?: where .*)?$")
AGAIN = re.compile(r"\b(for|while|loop)\b|(?:^|[(,=]|=>|\bmove|\breturn)\s*(\|)[^|]*\|")
WORD = re.compile(r"[\w:]+")


def unindented(text):
    """The text, with the margin of its first line taken from all."""
    lines = text.strip("\n").split("\n")
    margin = len(lines[0]) - len(lines[0].lstrip())
    return "\n".join(line[margin:] for line in lines) + "\n"


class Body:
    """A body, in a module of its own, with the error that has to name what is wrong in it, or none
    where it is right."""

    def __init__(self, name, file, text, error=None, says=None):
        self.name, self.file, self.text, self.error, self.says = name, file, unindented(text), error, says

    def fault(self, errors):
        """What is wrong with these errors of a check, each a name and what it says, or nothing."""
        others = [(name, says) for name, says in errors if name != self.error or self.says not in says]
        if others:
            name, says = others[0]
            return f"refused for another reason than {self.error}: {name}: {says}" if self.error else f"refused: {name}: {says}"
        return f"taken, and not refused by {self.error}" if self.error and not errors else ""


# Each check refuses this body, once it looks for what is moved twice. Then it has looked for all.
ALWAYS_REFUSED = Body(
    "a text moved twice",
    "always_refused",
    """
        pub fn twice(text: String) -> (String, String) {
            (text, text)
        }""",
    "borrow-e0382",
    "use of moved value: `text`",
)


def bodies():
    """The wrong and the right bodies of each case, for each type, and those that print."""
    found = []
    for type_name, words in TYPES.items():
        words = {"Type": type_name, **words}
        for number, (what, error, *texts) in enumerate(CASES):
            says, wrong, right = (string.Template(it).substitute(words) for it in texts)
            file = f"{words['it']}_{number}"
            found.append(Body(f"a {words['it']} {what}", f"{file}_wrong", wrong, error, says))
            found.append(Body(f"a {words['it']} that is not {what}", f"{file}_right", right))
    for name, file, words, error, says in misuse_secrets.bodies():
        found.append(Body(name, file, string.Template(misuse_secrets.BODY).substitute(words), error, says))
    return found


class Copy:
    """A copy of the crates that the bodies use, with a crate for the bodies and one that is never
    built. `rt check` builds the libraries below, but where one is not built yet, it first has the
    sources of all read, and goes no further where that finds an error. The one that is never built
    is named first, so that it looks for no other."""

    def __init__(self, folder):
        self.top = folder
        lines = {}
        for line in (TOP / "crates.txt").read_text(encoding="utf-8").split("\n"):
            words = line.partition("#")[0].replace(":", " : ").split()
            lines.update({words[0]: line} if words else {})
        wanted, below = [], list(CRATES)
        while below:
            name = below.pop()
            if name in lines and name not in wanted:
                wanted.append(name)
                below += lines[name].partition(":")[2].split()
        for name in wanted:
            others = shutil.ignore_patterns("out", "must-fail", "wrong-bodies.edits")
            shutil.copytree(TOP / "crates" / name, folder / "crates" / name, ignore=others)
        for name in ("never_built", "misuse"):
            (folder / "crates" / name / "src").mkdir(parents=True)
        self.write("never_built", {"lib": "#![tactic(auto)]\n"})
        more = ["never_built:", f"misuse: never_built {' '.join(wanted)}", ""]
        (folder / "crates.txt").write_text("\n".join([*(lines[name] for name in wanted), *more]), encoding="utf-8")

    def write(self, name, texts):
        """Writes the source files of a crate, and no others."""
        src = self.top / "crates" / name / "src"
        for file in src.iterdir():
            file.unlink()
        for file, text in texts.items():
            (src / f"{file}.rt").write_text(text, encoding="utf-8")

    def check(self, read):
        """Has these bodies read. Returns what was said, and each error's name and words, by the
        body's file, or else by the path. A check shows so many errors, and tells how many more
        there are: then those of the last file may not be all, and are left out."""
        texts = {it.file: it.text for it in [ALWAYS_REFUSED, *read]}
        self.write("misuse", {"lib": "\n".join(["#![tactic(auto)]", *(f"mod {it};" for it in texts), ""]), **texts})
        said = run("rt", "check", "--only", "", cwd=self.top / "crates" / "misuse").replace(f"{self.top}/", "")
        errors = collections.defaultdict(list)
        for path, name, says in ERROR.findall(said):
            file = pathlib.PurePath(path)
            errors[file.stem if file.parts[:-1] == ("src",) else path].append((name, says.partition(": help:")[0]))
        if is_cut(said) and len(errors) > 1:
            errors.popitem()
        return said, errors


def is_cut(said):
    """Whether a check did not show all errors."""
    return re.search(r"(?m)\band \d+ more errors?$", said) is not None


def run(*words, cwd):
    """What a command prints. It ends with this module, however that ends."""
    how = {"stdin": subprocess.DEVNULL, "stdout": subprocess.PIPE, "stderr": subprocess.STDOUT, "text": True, "errors": "replace"}
    try:
        ran = subprocess.Popen(words, cwd=cwd, start_new_session=True, **how)
    except OSError as error:
        return str(error)
    with ran:
        try:
            return ran.communicate()[0]
        finally:
            with contextlib.suppress(ProcessLookupError):
                os.killpg(ran.pid, signal.SIGKILL)


def judged(copy, read):
    """What is wrong with each of these bodies: nothing, where it is as it should be."""
    faults, left = {}, list(read)
    while left:
        said, errors = copy.check(left)
        is_at_end = ALWAYS_REFUSED.file in errors and not ALWAYS_REFUSED.fault(errors[ALWAYS_REFUSED.file])
        is_last = is_at_end and not is_cut(said)
        files = {it.file for it in [*left, *[ALWAYS_REFUSED] * is_at_end]}
        others = [f"{path}: {name}: {says}" for path, its in errors.items() if path not in files for name, says in its]
        refused = [it for it in left if it.file in errors]
        if others or not (refused or is_last):
            why = [*others, *said.strip().split("\n")[-1:]][0] or "rt printed nothing"
            return {**faults, **{it: f"not judged: {why}" for it in left}}
        for body in left if is_last else refused:
            faults[body] = body.fault(errors[body.file])
        left = [] if is_last else [it for it in left if it not in refused]
    return faults


def places(type_name):
    """The places of the three crates that name a type, with its fields at its declaration and the
    heads of the functions in its impls."""
    found = []
    named = re.compile(rf"\b{type_name}\b")
    uses = re.compile(r"(?:\bpub(?:\([^)]*\))? )?\buse [^;]*;")
    for crate, code in sources():
        heads = [plain(it) for it in uses.findall(code) if named.search(it)]
        code = uses.sub(";", code)
        # (a head may name it twice)
        for head, end in dict.fromkeys(head_at(code, it.start()) for it in named.finditer(code)):
            if re.search(rf"\b(?:struct|enum|union) {type_name}\b", head):
                head += f" {{ {plain(block(code, end))} }}"
            heads.append(head)
            if re.search(r"\bimpl\b", head):
                inside = block(code, end)
                heads += [f"{head}: {head_at(inside, it.start())[0]}" for it in re.finditer(r"\b(?:fn|const|type) \w+", inside)]
        found += [f"{crate}: {it}" for it in heads]
    return collections.Counter(found)


def sources(crates=CRATES):
    """The code of each file of the three crates, or of others, without comments and strings, and the
    crate's name."""
    for crate in crates:
        for file in sorted((TOP / "crates" / crate / "src").rglob("*.rt")):
            yield crate, NO_CODE.sub(" ", file.read_text(encoding="utf-8"))


def head_at(code, at):
    """The code around a place, from brace or semicolon to brace or semicolon and without clauses,
    and where it ends."""
    start = max(code.rfind(it, 0, at) for it in ";{}") + 1
    end = re.compile(r"[;{}]|\Z").search(code, at).start()
    return plain(re.split(r"\b(?:requires|ensures)\b", code[start:end])[0]), end


def block(code, at):
    """The code between the brace at a place and the one that closes it."""
    depth = 0
    for place in range(at, len(code)):
        depth += {"{": 1, "}": -1}.get(code[place], 0)
        if depth == 0:
            return code[at + 1 : place]
    return code[at:]


def plain(text):
    """The text, with one blank between its words."""
    return " ".join(text.split())


def are_as_listed(found, listed):
    """These places are those on the list."""
    listed = collections.Counter(plain(it) for it in listed.strip().split("\n"))
    differences = [*(f"not on the list: {it}" for it in found - listed), *(f"gone: {it}" for it in listed - found)]
    holds(not differences, "; ".join(differences))


def is_named_as_listed(type_name, listed):
    """The places that name a type are those on the list."""
    are_as_listed(places(type_name), listed)


for name_of_type, its_words in TYPES.items():
    add_test(f"the places that name {name_of_type}", is_named_as_listed, name_of_type, its_words["places"])


@test
def the_calls_that_sign():
    """Nothing else of the product signs by an index, and nothing does so more often."""
    are_as_listed(found_in_product(calls_of, misuse_signing.SIGNS), misuse_signing.SIGNING)


@test
def the_calls_that_reserve():
    """Nothing else of the product opens a book, or reserves indices."""
    are_as_listed(found_in_product(calls_of, misuse_signing.RESERVES), misuse_signing.RESERVING)


@test
def calls_that_are_seen():
    """A second call, one in a loop or a closure, one from another function or type, and one by another
    name are seen; other names of locals are not."""
    counted = {name: collections.Counter(calls_of(code, misuse_signing.SIGNS)) for name, code in misuse_signing.SAMPLES.items()}
    once = counted.pop("once")
    same = {name for name, calls in counted.items() if calls == once}
    holds(same == {"named otherwise"}, f"seen as one call: {', '.join(sorted(same))}")


def product_crates():
    """The crates of the product."""
    return sorted(it.name for it in (TOP / "crates").iterdir() if not misuse_signing.OTHERS.search(it.name))


def found_in_product(find, words):
    """What is found of these words in the product's code, each with its crate."""
    bodies = ((crate, without_clauses(code)) for crate, code in sources(product_crates()))
    return collections.Counter(f"{crate}: {it}" for crate, code in bodies for it in find(code, words))


def calls_of(code, words):
    """The calls in this code: each with its type and function, the loops and closures around it, and what it
    calls."""
    for it in words.finditer(code):
        before = without_array_ends(code[: it.start()])
        statement = before[max(before.rfind(end) for end in ";{}") + 1 :]
        place = "::".join([*type_around(code, it.start()), around(code, it.start())])
        yield f"{' '.join([place, *again_in(statement)])}: {''.join(WORD.findall(it[0]))}"


def texts_of(code, words):
    """The places in this code that have one of these words: each with its function, the loops and closures
    around it and the code from brace or semicolon to brace or semicolon."""
    return (f"{around(code, it.start())}: {head_at(code, it.start())[0]}" for it in words.finditer(code))


def without_clauses(code):
    """The code without its contracts, whose braces are none of a body."""
    parts, start = [], 0
    for clause in CLAUSE.finditer(code):
        if clause.start() >= start:
            parts.append(code[start : clause.start()])
            start = clause.end() + len(block(code, clause.end())) + 2
    return "".join([*parts, code[start:]])


def around(code, at):
    """The function that a place is in, and which loops and closures it is in there."""
    heads = heads_around(code, at)
    names = [name[1] if (name := FUNCTION.search(head)) else None for head in heads]
    inner = max((k for k, name in enumerate(names) if name), default=None)
    if inner is None:
        return "outside"
    return " ".join([names[inner], *(it for head in heads[inner + 1 :] for it in again_in(head))])


def again_in(head):
    """The loops and closures that this code begins, but for those in brackets that it ends, too."""
    while (shorter := re.sub(r"\([^()]*\)|\[[^\[\]]*\]", "", head)) != head:
        head = shorter
    return [next(filter(None, it.groups())) for it in AGAIN.finditer(head)]


def type_around(code, at):
    """The types whose impls a place is in."""
    return [name[1] for head in heads_around(code, at) if (name := IMPL.search(head))]


def heads_around(code, at):
    """What is before each brace that is open at a place, from the brace or semicolon before."""
    heads, start, before = [], 0, without_array_ends(code[:at])
    for it in re.finditer("[;{}]", before):
        if it[0] == "{":
            heads.append(plain(before[start : it.start()]))
        elif it[0] == "}":
            heads.pop()
        start = it.end()
    return heads


def without_array_ends(code):
    """The code with commas in place of the semicolons in brackets, which end nothing."""
    depth, found = 0, []
    for it in code:
        depth += {"[": 1, "]": -1}.get(it, 0)
        found.append("," if it == ";" and depth else it)
    return "".join(found)


@test
def the_calls_that_walk():
    """No other place of the product walks chains, or derives what is secret."""
    are_as_listed(found_in_product(calls_of, misuse_signing.WALKS), misuse_signing.WALKING)


@test
def the_places_that_name_a_seed():
    """No other place of the product has a key's seed, so that none gives it away."""
    are_as_listed(found_in_product(texts_of, misuse_secrets.SEED), misuse_secrets.SEEDS)


def types_of(crates, found_in):
    """The types that are found in the code of each of these crates, with its name."""
    code = collections.defaultdict(str)
    for crate, text in sources(crates):
        code[crate] += text
    return [f"{it} of {crate}" for crate, text in code.items() for it in found_in(text)]


@test
def what_can_be_printed():
    """No type of any crate that can be printed has a seed in it."""
    crates = sorted(it.name for it in (TOP / "crates").iterdir())
    printed = types_of(crates, misuse_secrets.printed_with_a_seed)
    holds(not printed, f"with a seed in them these can be printed: {', '.join(printed)}")


@test
def what_can_be_printed_and_has_bytes():
    """No other type of the product that can be printed has bytes in it, which might be a seed's."""
    printed = types_of(product_crates(), misuse_secrets.printed_with_bytes)
    holds(set(printed) == misuse_secrets.WITH_BYTES, f"these can be printed: {', '.join(printed)}")


@test
def unsafe_code_and_macros():
    """Nothing else in the three crates may give a value twice though no place names its type."""
    found = {f"{crate} has the word {it}" for crate, code in sources() for it in re.findall(r"\b(?:unsafe|macro_rules)\b", code)}
    holds(not found, "; ".join(sorted(found)))


def is_as_it_should_be(fault):
    """A body is taken, or refused for its reason."""
    if fault:
        raise Wrong(fault)


@checks
def bodies_that_use_one(counter):
    read = bodies()
    faults = judged(Copy(pathlib.Path.cwd()), read)
    for body in read:
        counter.check(body.name, is_as_it_should_be, faults[body])
