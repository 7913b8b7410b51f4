"""What packages have of the program's help and of CHANGELOG.md: manuals, completions, and Debian's changelog."""

import gzip
import pathlib
import re
import shutil

from tests.harness import said_by

COMMANDS = ["keygen", "witness", "sign", "batch", "serve", "verify", "info", "inspect", "public", "resume", "endorse", "join", "join-public"]
PAGES = {command: f"share/man/man1/lms_tool{'-' * bool(command)}{command}.1.gz" for command in ("", *COMMANDS)}
COMPLETIONS = {"bash": "share/bash-completion/completions/lms_tool", "zsh": "share/zsh/vendor-completions/_lms_tool"}


def words_of(text):
    """The words of a text of help, or of what is shown of it: without brackets around values, backquotes and what
    joins lines of an example."""
    return " ".join(it for it in re.sub(r"[<>`]", "", text).split() if it != "\\")


def shown(page):
    """The words of a page of the manual in the order of its source, and the names of its sections."""
    lines = gzip.decompress(page).decode().splitlines()
    sections = [it.removeprefix(".SH ") for it in lines if it.startswith(".SH ")]
    texts = [it.removeprefix(".I ") for it in lines if not re.match(r"[.](?!I )", it)]
    text = re.sub(r"\\f[BIR]|\\&", "", "\n".join(texts)).replace("\\-", "-").replace("\\e", "\\")
    return words_of(text), sections


# The requests to the formatter that a page may have.
REQUESTS = (".TH ", ".SH ", ".TP", ".PP", ".nf", ".fi", ".nh", ".ad l", ".I ", ".BR ")


def pieces_of(help_text):
    """What a text of help says, piece by piece: its first line, its use, each line of a table, each paragraph."""
    for piece in filter(None, help_text.split("\n\n")):
        lines = piece.splitlines()
        if lines[0] in ("Commands:", "Options:"):
            yield from lines[1:]
        else:
            yield piece.removeprefix("Usage: ").removeprefix("Example:\n")


def options_in(help_text):
    """The options that a text of help describes, with the names of their values, if they have one."""
    table = help_text.partition("\nOptions:\n")[2].partition("\n\n")[0]
    return re.findall(r"(?m)^ +(?:-\w, )?(--[\w-]+)(?: <(\w+)>)?", table)


def has_manual(package, program):
    """Each page of the manual has all that the help of this program says, in sections of a manual, and no line of
    it is a request that it does not have."""
    for command, name in PAGES.items():
        help_text = said_by(program, *[command] * bool(command), "--help")
        said, sections = shown(package.bytes[name])
        for piece in pieces_of(help_text):
            package.holds(words_of(piece) in said, f"{name} does not say: {piece}")
        wanted = ["NAME", "SYNOPSIS", "DESCRIPTION", "OPTIONS", "EXIT STATUS", "SEE ALSO"]
        wanted += ["FILES"] * (not command or "--state" in dict(options_in(help_text))) + ["EXAMPLES"] * ("\nExample" in help_text)
        package.holds(set(wanted) <= {*sections}, f"{name} has the sections {sections}")
        raw = gzip.decompress(package.bytes[name]).decode().splitlines()
        lost = [it for it in raw if it.startswith("'") or it.startswith(".") and not it.startswith(REQUESTS)]
        package.holds(not lost, f"a line of {name} is lost: {lost}")


def has_completions(package, program):
    """By the completions for bash the program has its commands and options, each command the options of its help, and
    no others, and each file of an option is completed; those for zsh can be read."""
    for shell, name in COMPLETIONS.items():
        pathlib.Path(f"completions.{shell}").write_bytes(package.bytes[name])
    ask = 'source completions.bash; COMP_WORDS=(lms_tool "$@"); COMP_CWORD=$#; _lms_tool; printf "%s\\n" "${COMPREPLY[@]}"'
    for command in COMMANDS:
        options = options_in(said_by(program, command, "--help"))
        found = said_by("bash", "-c", ask, "-", command, "--").split()
        package.holds(sorted(found) == sorted(dict(options)), f"bash completes {command} to {found}")
        for option, value in filter(lambda it: it[1], options):
            for words in ([option, "completions.b"], [option, "=", "completions.b"]):
                found = said_by("bash", "-c", ask, "-", command, *words).split()
                package.holds(found == ["completions.bash"] * (value == "FILE"), f"bash completes {command} {words} to {found}")
    names = said_by("bash", "-c", ask, "-", "").split()
    wanted = [*COMMANDS, "help", *dict(options_in(said_by(program, "--help")))]
    package.holds(sorted(names) == sorted(wanted), f"bash completes the program to {names}")
    if shutil.which("zsh"):
        said_by("zsh", "-n", "completions.zsh")


def has_changelog(package, name, top, maintainer):
    """Debian's changelog has what CHANGELOG.md says of each version, word for word, in short lines, and each version
    is signed."""
    said = gzip.decompress(package.bytes[name]).decode()
    text = re.sub(r"\[([^][]*)\]\([^()]*\)", r"\1", (pathlib.Path(top) / "CHANGELOG.md").read_text(encoding="utf-8"))
    versions = re.split(r"(?m)^## ", text)[1:]
    entries = said.split("\nlms-tool (")
    package.holds(len(entries) == len(versions) and max(map(len, said.splitlines())) < 80, f"its changelog is\n{said}")
    for entry, version in zip(entries, versions):
        package.holds(entry.removeprefix("lms-tool (").startswith(f"{version.split()[0]}) unstable; urgency=medium\n"), "another version")
        last = entry.rstrip("\n").splitlines()[-1]
        package.holds(last.startswith(f" -- {maintainer}  "), f"it is signed {last}")
        wanted = re.sub(r"(?m)^- |^#+ |\*\*|`", "", version.partition("\n")[2]).split()
        found = re.sub(r"(?m)^  \* |^  \[ | \]$", "", "\n".join(entry.splitlines()[1:-1])).split()
        package.holds(found == wanted, f"its changelog says other words of {version.split()[0]}")
