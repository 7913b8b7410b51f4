"""Sums of what the wrong bodies of a crate are tried over, for `wrong_bodies`.

A sum is over the crate's code, without comments and imports, and over what that names, and what this
names in turn: definitions of the crate's own and of the crates of the repository below it, and what
code below declares, without bodies and without functions that another crate can't name. Of an import
it has what a name stands for that is another's, or that several files define; and it has which crates
of the toolchain are used. In which crate a definition stands doesn't count. Left out are all lemmas
and proofs: no contract cites one, so they can change how a proof is found, and not what a contract
says, and a body that breaks it stays refused."""

import collections
import hashlib
import re

from tests.harness import TOP
from tests.merge_check.crates import crates_listed, files_of, libraries_of

SUMS = TOP / "tests" / "wrong_bodies.sums"
# The line on which a function begins, but for a `const` one, whose value other crates may read.
HEAD = re.compile(r"( *)(pub(?:\([^)]*\))? )?(?:unsafe |extern \"C\" )*fn \w")
# Imports, of code and of definitions, and lists of modules.
IMPORT = re.compile(r"(?m)^ *(?:pub |ghost )*use [^;\n]*\{[^}]*\};?\n|^ *(?:pub |ghost )*(?:use|mod) [^{\n]*\n")
NAMES = re.compile(r"([\w◌-]+)(?: as ([\w◌-]+))?")
# Texts of a crate alone.
OWN = re.compile(r"(?ms)^pub\(crate\) const \w+: &str =.*?;\n")
WORD = re.compile(r"[^\W\d]\w*(?:-\w+)*")
# What stands before a name where it is defined or declared.
BEFORE = {"abbrev", "unfoldable", "pub", "record", "data", "const", "static", "type", "struct", "enum", "trait", "fn", "unsafe", "extern", "crate"}
# What code of another crate can name only by a path or an import.
ALONE = re.compile(r"(?:pub |const |unsafe |extern \"C\" )*(fn|const|static) (\w+)")
PATH = re.compile(r"::(\w+)")
# What has names of its own within it.
WITH_NAMES = re.compile(r"(?m)^(?:pub )*(?:data|enum) ")


def is_own(head):
    """Whether no other crate can name the function that begins so: it is no method, and not public to all."""
    margin, visibility = head[1], head[2] or ""
    return visibility.startswith("pub(") or not margin + visibility


def statements(text):
    """A file of code without bodies of functions, comments, and what is the crate's own. As `rt fmt`
    lays it out, a body begins on a line that ends with its brace and is no further in than its
    function, and ends with a brace alone in that place."""
    kept, margin, is_in_body, is_left_out = [], None, False, False
    for line in text.split("\n"):
        if is_in_body:
            if line == f"{margin}}}":
                is_in_body, margin, is_left_out = False, None, False
        elif line and not line.lstrip().startswith("//"):
            head = HEAD.match(line)
            if head:
                margin, is_left_out = head[1], is_own(head)
            if not is_left_out:
                kept.append(line)
            if margin is None:
                continue
            # (Clauses are further in than their function.)
            is_at_margin = re.match(rf"{margin}\S", line)
            is_in_body = is_at_margin and line.endswith("{")
            if line.endswith((";", "}") if is_at_margin else "};"):
                margin, is_left_out = None, False
    return text if is_in_body else OWN.sub("", "\n".join(kept))


def without_comments(path, text):
    """A file without the lines that are comments."""
    mark = "//" if path.suffix == ".rt" else "--"
    return "".join(f"{it}\n" for it in text.split("\n") if not it.lstrip().startswith(mark))


def imported(text):
    """What the names stand for that a file imports, each by the end of its path."""
    found = {}
    for line in IMPORT.findall(text):
        path, brace, inner = line.strip().rstrip(";").partition("{")
        words = re.split(r"\.|::", path.split()[-1] if brace or " as " not in path else path.split()[-3])
        above = [it for it in words if it][-2:]
        if brace:
            found.update({new or old: ".".join([*above, old]) for old, new in NAMES.findall(inner)})
        else:
            found[path.split()[-1] if " as " in path else above[-1]] = ".".join(above)
    return found


class Item:
    """What is defined or declared on lines of a file of which the first alone is not indented, with
    the words by which it is known, none where these aren't seen, and the words that it names, as its
    file's imports have them. A function is known after `::` alone, and to code a constant, too."""

    def __init__(self, path, text, imports):
        self.path, self.text, self.imports = path, text, imports
        self.words = set(WORD.findall(text))
        self.named = {*self.words, *(imports[it].split(".")[-1] for it in self.words if it in imports)}
        self.names = self.known_by(text)

    @staticmethod
    def known_by(text):
        """The words by which it is known."""
        head = re.sub(r"(?m)^#.*\n", "", text)
        first = head.split("\n", 1)[0]
        alone = ALONE.match(first)
        if alone:
            return {f"::{alone[2]}"} if alone[1] == "fn" else {f"::{alone[2]}", f"const {alone[2]}"}
        if first.startswith("impl"):
            return set(WORD.findall(head.split("{", 1)[0]))
        name = first.split(" : ")[0]
        found = [it for it in WORD.findall(name) if it not in BEFORE]
        if not found or first.startswith("module") or "◌" in name:
            return set()
        within = re.findall(r"(?m)^ +(?:pub )?([^\W\d][\w-]*)", head) if WITH_NAMES.search(head) else []
        return {*(found[:1] if "=" in name else found), *within}


def items_of(path, text):
    """What a file defines or declares, each definition with all its lines."""
    imports, parts = imported(text), []
    for line in IMPORT.sub("", text).split("\n"):
        begins = re.match(r"[^\s)}\]]", line) and not (parts and re.fullmatch(r"(?:#.*\n)+", parts[-1]))
        if begins or not parts:
            parts.append("")
        parts[-1] += f"{line}\n"
    items = []
    for part in (it.rstrip() for it in parts if it.strip()):
        item = Item(path, part, imports)
        if items and path.suffix == ".antt" and item.names and item.names <= items[-1].names:
            item = Item(path, f"{items.pop().text}\n{part}", imports)
        items.append(item)
    return items


def edits_in(name):
    """The file of a crate's wrong bodies."""
    return TOP / "crates" / name / "wrong-bodies.edits"


def definitions_for(name):
    """What the specs of a crate define, and what stands in those below it, by the words by which it
    is known."""
    known = collections.defaultdict(list)
    for crate in (name, *libraries_of(name)):
        for path in files_of(crate, "specs", *(["src"] if crate != name else [])):
            text = path.read_text(encoding="utf-8")
            said = statements(text) if path.suffix == ".rt" else text
            for item in items_of(path, without_comments(path, said)):
                for word in item.names or {None}:
                    known[word].append(item)
    return known


def stands_for(known, words, imports):
    """What those of these words stand for that are another name, or of which there are several."""
    several = {it for it in words if len({item.path for item in known.get(it, [])}) > 1}
    told = {it for it in words & imports.keys() if it in several or imports[it].split(".")[-1] != it}
    return tuple((it, imports[it]) for it in sorted(told))


def toolchain_of(name):
    """The crates of the toolchain that a crate and those below it use, and whether it is a static
    library."""
    uses, static = crates_listed()
    crates = {name, *libraries_of(name)}
    return sorted({it for crate in crates for it in uses[crate]} - uses.keys()), name in static


def sum_of(name):
    """The sum of a crate."""
    code = [(it, without_comments(it, it.read_text(encoding="utf-8"))) for it in files_of(name, "src")]
    code.append((edits_in(name), edits_in(name).read_text(encoding="utf-8")))
    known, said, seen, left, parts = definitions_for(name), {}, set(), {None}, []
    for path, text in code:
        imports, words = imported(text), set(WORD.findall(text))
        left |= words | {imports[it].split(".")[-1] for it in words if it in imports}
        left |= {f"::{it}" for it in [*PATH.findall(text), *WORD.findall("".join(IMPORT.findall(text)))]}
        parts.append((str(path.relative_to(TOP)), IMPORT.sub("", text), stands_for(known, words, imports)))
    while left:
        word = left.pop()
        seen.add(word)
        for item in known.get(word, []):
            if item not in said:
                said[item] = (item.text, stands_for(known, item.words, item.imports))
                left |= ({*item.named} | {f"const {it}" for it in item.named}) - seen
    return hashlib.sha256(repr((parts, sorted({*said.values()}), toolchain_of(name))).encode()).hexdigest()


def noted():
    """The sums that are noted, by crate."""
    return dict(line.split() for line in SUMS.read_text(encoding="utf-8").splitlines()) if SUMS.exists() else {}


def note(sums):
    """Notes the sums of these crates, or takes one away that is None. Whether that changes the
    file."""
    before = noted()
    kept = {name: it for name, it in {**before, **sums}.items() if it and edits_in(name).exists()}
    if kept != before:
        SUMS.write_text("".join(f"{name} {kept[name]}\n" for name in sorted(kept)), encoding="utf-8")
    return kept != before
