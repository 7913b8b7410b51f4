"""The crates of the repository, their files and libraries, and how one is checked."""

import functools
import importlib.machinery
import importlib.util
import os
import pathlib
import shutil
import sys

from tests.harness import TOP

# The folders of a crate that a check reads.
PARTS = ("src", "specs", "proofs")
# The toolchain.
KIT = pathlib.Path(os.path.realpath(shutil.which("rt") or "rt")).parent.parent


@functools.lru_cache(maxsize=None)
def crates_listed():
    """The crates of `crates.txt`, each with the libraries that it uses, and those that are static
    libraries."""
    lines = [it.partition("#")[0].partition(":") for it in (TOP / "crates.txt").read_text(encoding="utf-8").split("\n")]
    heads = [(head.split(), uses.split()) for head, colon, uses in lines if colon]
    return {head[0]: uses for head, uses in heads}, {head[0] for head, _ in heads if "staticlib" in head}


@functools.lru_cache(maxsize=None)
def libraries_of(name):
    """The crates of the repository that a crate uses, and those that they use."""
    uses, _ = crates_listed()
    own = [it for it in uses[name] if it in uses]
    return sorted({*own, *(low for it in own for low in libraries_of(it))})


def files_of(name, *parts):
    """The files of a crate in these folders of it."""
    return [it for part in parts for it in sorted((TOP / "crates" / name / part).rglob("*")) if it.is_file()]


def read(file):
    """The text of a file, or none where there is no such file."""
    return file.read_text(encoding="utf-8") if file.is_file() else ""


def library(name):
    """What is built of a crate for those that use it."""
    return TOP / "crates" / name / "out" / "rlib" / f"{name}.rlib"


def are_left(names):
    """Whether the libraries of these crates, and of all below them, were built over each other from
    the sources as they are, by this toolchain."""
    sources = [it for name in names for it in files_of(name, *PARTS)]
    changed = max(it.stat().st_ctime for it in [KIT / "WHAT", TOP / "crates.txt", *sources])
    built = {it: library(it).stat().st_mtime if library(it).is_dir() else 0 for it in names}
    return all(time > max([changed, *(built[low] for low in libraries_of(name))]) for name, time in built.items())


def take_left(names):
    """Has `rt lib` take the libraries of these crates, and of all below them, where `rt ci` has left
    them: that gives them no stamp, by which `rt lib` knows what is built. Whether they are left."""
    if not are_left(names):
        return False
    loader = importlib.machinery.SourceFileLoader("rtlib", str(KIT / "bin/rtlib.py"))
    sys.modules["rtlib"] = rtlib = importlib.util.module_from_spec(importlib.util.spec_from_loader("rtlib", loader))
    loader.exec_module(rtlib)
    for crate in rtlib.crates_below(str(TOP)):
        stamp = library(crate.name).parent / "stamp"
        if crate.name in names and not stamp.exists():
            stamp.write_text(crate.stamp(), encoding="utf-8")
    return True


@functools.lru_cache(maxsize=None)
def check_words(name):
    """The command that checks a crate in its folder, by one processor, over its libraries in
    crates/NAME/out."""
    uses, static = crates_listed()
    words = [KIT / "bin/rattle", "check", "--crate-name", name, "src/lib.rt", "--jobs", "1", "--links", f"{name}="]
    for it in ["std", *uses[name]]:
        words += ["--extern", f"{it}={library(it) if it in uses else KIT / 'rlibs' / f'{it}.rlib'}"]
    for folder in [KIT / "rlibs", *(library(it).parent for it in libraries_of(name))]:
        words += ["-L", f"dependency={folder}"]
    words += ["--antt-project", KIT / "rattle/logic/antt-project.json", "--logic-built", KIT / "logic_built"]
    return words + ["--crate-type", "staticlib"] * (name in static)
