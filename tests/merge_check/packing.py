"""The script `release` in a folder of its own, over stand-ins for the programs, the library and the
page that it packs, and for what makes these: what it refuses, and all that it packs. It needs the
tools that it packs with, git and cc."""

import os
import pathlib
import shutil
import subprocess
import time

from tests.harness import TOP, Skipped, add_test, holds, said_by, test
from tests.merge_check.launched import becomes_the_program, starts_by
from tests.merge_check.package_texts import COMPLETIONS
from tests.merge_check.packages import (
    ARM, ARM_DEBIAN, ARM_NAME, ARM_OUTPUTS, COMMON, DEBIAN, FAST, LIBRARY, NAME, OUTPUTS, PAGE, PAGE_SOURCES, SECONDS,
    SHARED, SHARED_OUTPUTS, SHARED_SOURCES, VERSION, are_right, copy_sources, pack_twice,
)
from tests.merge_check.shells import SHELLS, completes

SOURCES = ["crates/lms_c/src/file", "crates/lms_c/specs/file", "crates/lms_c/proofs/a folder/file", "crates.txt"]
# The folders of which packages are made, or what is in them.
FOLDERS = [
    "crates", "crates/lms_c", "crates/lms_c/src", "crates/lms_c/src/out", "crates/lms_c/specs", "crates/lms_c/proofs",
    "docs", "examples", "examples/c", "examples/cortex-m", "examples/python", "examples/serve", "examples/u-boot", "examples/web", "include", "packaging", "portable", "runtime",
    "runtime/aarch64", "runtime/shared", "tests/c",
]
# Files of which no package is made: notes, what was built, and what tests of crates leave.
HARMLESS = ["notes", "tests/notes", "crates/lms_c/out/rlib/notes", "examples/web/out/notes"]
HARMLESS += ["crates/lms_c/file_store_1/notes", "crates/lms_c/disk_world_1/notes"]
# What git is told to ignore.
IGNORED = "out/\ncrates/*/file_store_*/\ncrates/*/disk_world_*/\n__pycache__/\nignored*\n"
# What `release` asks for where it is to build, in this order, with a C compiler for aarch64 or without.
ASKED = ["lms_tool build all", "lms_c", "lms_c --shared", "lms_c --portable", "examples/web/build"]
ASKED_WITHOUT = ["lms_tool build both", *ASKED[1:]]
# Whether there is such a compiler: the words that name it.
COMPILER, NO_COMPILER = {"CC_AARCH64": "sh --of-mine"}, {"CC_AARCH64": "no-compiler --of-mine"}
AUTHOR = "Some One <some-one@debian.org>"
WHO = [word for key, text in zip(("name", "email"), AUTHOR[:-1].split(" <")) for word in ("-c", f"user.{key}={text}")]
# Files of the commit by which packages are made.
OWN = ["README.md", "SECURITY.md", "CHANGELOG.md", "packaging/manual.awk", "crates.txt", "lms_c", "lms_tool", "release", "docs/C.md", "include/lms.h"]
# What stands in for `./lms_tool`, `./lms_c` and `examples/web/build`: each notes what it is asked,
# and makes its outputs of those in ../made. The file `fails` names one that can't.
MAKER = """\
#!/bin/sh
top=%s
echo "%s$([ "${1-}" != build ] || echo " $*")$(case ${1-} in --*) echo " $1" ;; esac)" >>"$top/../asked"
umask 077
[ "$(tail -n 1 "$top/../asked")" != "$(cat "$top/../fails")" ] || exit 70
%s
"""
MAKES = {
    "lms_tool": 'mkdir -p "$top/crates/lms_tool/out/avx2" && cp -p "$top/../made/common" "$top/crates/lms_tool/out/lms_tool" && '
    'cp -p "$top/../made/fast" "$top/crates/lms_tool/out/avx2/lms_tool" && { [ "$2" != all ] || '
    '{ mkdir -p "$top/crates/lms_tool/out/aarch64" && cp -p "$top/../made/arm" "$top/crates/lms_tool/out/aarch64/lms_tool"; }; }',
    "lms_c": 'if [ "${1-}" = --portable ]; then mkdir -p "$2" && cp "$top/../made/lms_verify.c" "$2"; exit; fi\n'
    'if [ "${1-}" = --shared ]; then mkdir -p "$top/crates/lms_c_lanes/out" && cp -R "$top/../made/shared" "$top/crates/lms_c_lanes/out"\n'
    'case $CC_AARCH64 in no-*) rm -r "$top/crates/lms_c_lanes/out/shared/aarch64" ;; esac; exit; fi\n'
    'mkdir -p "$top/crates/lms_c/out" && cat "$top/../made/library" >"$top/crates/lms_c/out/liblms_c.a"',
    "examples/web/build": 'cat "$top/../made/page" >"$1"',
}


def make_outputs():
    """Makes what stands in for what is built, in made/, with a program that only its owner may
    use."""
    if not shutil.which("cc"):
        holds(False, "the stand-ins need a C compiler, and there is no cc here")
    os.mkdir("made")
    for name in ("common", "fast", "arm"):
        said_by("cc", "-O1", f'-DNAME="{name}"', f'-DVERSION="{VERSION}"', TOP / "tests/c/packed.c", "-o", f"made/{name}")
        os.chmod(f"made/{name}", 0o700)
    pathlib.Path("made/library").write_bytes(bytes(range(256)) * 40)
    for output in [*SHARED_OUTPUTS, *ARM_OUTPUTS[1:]]:
        file = pathlib.Path("made/shared", os.path.relpath(output, SHARED))
        file.parent.mkdir(parents=True, exist_ok=True)
        file.write_bytes(f"a library {file}\n".encode() * 99)
    pathlib.Path("made/page").write_bytes(b"<title>a page</title>\n" * 999)
    shutil.copy(TOP / "portable/lms_verify.c", "made")


def age(file, hours):
    """A file was last changed so many hours ago."""
    then = time.time() - 3600 * hours
    os.utime(file, (then, then))


def make_sources(folder):
    """Makes a folder with what `release` reads, nothing of it younger than two hours."""
    for name in ("tar", "gzip", "strip", "sha256sum", "md5sum", "dpkg-deb", "git"):
        if not shutil.which(name):
            raise Skipped(f"there is no {name}")
    if not os.path.exists("made"):
        make_outputs()
    copy_sources(folder, {})
    for name in SOURCES:
        os.makedirs(os.path.dirname(f"{folder}/{name}"), exist_ok=True)
        with open(f"{folder}/{name}", "ab"):
            pass
    for file in pathlib.Path(folder).rglob("*"):
        age(file, 2)


def make_built(folder, has_arm=True):
    """Makes such a folder, where all is built, but for the program for aarch64 where that is said."""
    make_sources(folder)
    made = {COMMON: "common", FAST: "fast", LIBRARY: "library", PAGE: "page", ARM: "arm"}
    for output in [*OUTPUTS, *ARM_OUTPUTS * has_arm]:
        os.makedirs(os.path.dirname(f"{folder}/{output}"), exist_ok=True)
        shutil.copy(f"made/{made.get(output) or 'shared/' + os.path.relpath(output, SHARED)}", f"{folder}/{output}")


def run(words, **more):
    """Runs a command outside of any repository, with the system's own tools and a stand-in for `rt`.
    How it ended, and what it printed to standard error."""
    os.makedirs("path", exist_ok=True)
    pathlib.Path("path/rt").write_text("#!/bin/sh\nexit 1\n")
    os.chmod("path/rt", 0o755)
    environment = {name: value for name, value in os.environ.items() if not name.startswith("GIT_")}
    environment |= {"GIT_CONFIG_GLOBAL": os.devnull, "GIT_CONFIG_NOSYSTEM": "1", "GIT_CEILING_DIRECTORIES": os.getcwd()}
    environment["PATH"] = f"{os.path.abspath('path')}:{os.environ['PATH']}"
    how = {"stdin": subprocess.DEVNULL, "stdout": subprocess.PIPE, "stderr": subprocess.PIPE, "text": True}
    ran = subprocess.run(words, env={**environment, **more}, check=False, **how)
    return ran.returncode, ran.stderr


def is_told_alone(package):
    """The launcher of a package, copied elsewhere without what it starts, says so in a line."""
    os.makedirs("alone/bin", exist_ok=True)
    shutil.copy(f"{package}/bin/lms_tool", "alone/bin")
    status, errors = run(["alone/bin/lms_tool", "--help"])
    told = errors.startswith("lms_tool: there is no ") and errors.endswith("keep it where the package has it\n") and errors.count("\n") == 1
    holds(status == 70 and told, f"{status} {errors!r}")


def packs_completions(shell):
    """A shell completes commands, options and files by what the packages have for it."""
    make_built("here")
    os.mkdir("packed")
    said_by("here/release", "--built", "packed", env={**os.environ, "SOURCE_DATE_EPOCH": "1", "MAINTAINER": AUTHOR})
    said_by("tar", "-xzf", f"packed/{NAME}.tar.gz")
    file = os.path.abspath(f"{NAME}/{COMPLETIONS[shell]}")
    completes(shell, os.path.dirname(file), file)


for completing in SHELLS:
    add_test(f"packs completions for {completing}", packs_completions, completing)


@test
def packs_what_is_built():
    pack_twice(make_built)
    are_right("packed", "here", True)
    said_by("tar", "-xzf", f"packed/{NAME}.tar.gz")
    becomes_the_program(NAME)
    said_by("dpkg-deb", "-x", f"packed/{DEBIAN}", "debian")
    becomes_the_program("debian/usr")
    is_told_alone("debian/usr")
    said_by("tar", "-xzf", f"packed/{ARM_NAME}.tar.gz")
    said_by("dpkg-deb", "-x", f"packed/{ARM_DEBIAN}", "arm64")
    for package in (ARM_NAME, "arm64/usr"):
        starts_by(os.path.abspath(f"{package}/bin/lms_tool"), "aarch64", "arm")


def packs_without_arm(why):
    """Nothing is packed for aarch64, and the reason is said."""
    shutil.rmtree("packed", ignore_errors=True)
    found = run(["here/release", "--built", "packed"], SOURCE_DATE_EPOCH=str(SECONDS), MAINTAINER=AUTHOR)
    holds(found == (0, f"release: nothing is packed for aarch64: {why}\n"), f"{found}, not: {why}")
    are_right("packed", "here", False, maintainer=AUTHOR)


@test
def packs_without_a_program_for_aarch64():
    """Or with one that is older than a source or a C function of it, or without libraries."""
    make_built("here", has_arm=False)
    here = os.path.abspath("here")
    packs_without_arm(f"{here}/{ARM} is not built")
    os.makedirs(os.path.dirname(f"here/{ARM}"))
    shutil.copy("made/arm", f"here/{ARM}")
    for source in (SOURCES[0], "runtime/aarch64/heap.c", "runtime/aarch64/rattle.h"):
        age(f"here/{ARM}", 2)
        age(f"here/{source}", 1)
        for output in OUTPUTS:
            age(f"here/{output}", 0)
        packs_without_arm(f"{here}/{source} is newer than {here}/{ARM}")
        age(f"here/{source}", 2)
    age(f"here/{ARM}", 0)
    packs_without_arm(f"{here}/{ARM_OUTPUTS[1]} is not built")


def refuses_built(line):
    """`release --built` refuses with this line, and packs nothing."""
    found = run(["here/release", "--built", "packed"], SOURCE_DATE_EPOCH="1", MAINTAINER=AUTHOR)
    holds(found == (70, f"release: {line}\n"), f"{found}, not: {line}")
    holds(not os.listdir("packed"), "something was packed")


@test
def refuses_what_is_not_built():
    make_built("here")
    for output in OUTPUTS:
        os.rename(f"here/{output}", "away")
        refuses_built(f"{os.path.abspath('here')}/{output} is not built")
        os.rename("away", f"here/{output}")


def refuses_older(source, output, hours=1):
    """An output that is older than a source, which was last changed so many hours ago."""
    age(f"here/{output}", 2)
    age(f"here/{source}", hours)
    here = os.path.abspath("here")
    refuses_built(f"{here}/{source} is newer than {here}/{output}")
    age(f"here/{output}", 0)
    age(f"here/{source}", 2)


@test
def refuses_what_is_older_than_a_source():
    make_built("here")
    for output in OUTPUTS:
        refuses_older(SOURCES[0], output)
    for source in SOURCES[1:]:
        refuses_older(source, FAST)
        refuses_older(source, COMMON, -1)
    for source in PAGE_SOURCES:
        refuses_older(source, PAGE)
    for source in SHARED_SOURCES:
        refuses_older(source, SHARED_OUTPUTS[0])


def commit(folder):
    """Makes a repository of a folder, with one commit."""
    pathlib.Path(folder, ".gitignore").write_text(IGNORED)
    for name, makes in MAKES.items():
        here = "$(dirname -- \"$0\")" + "/.." * name.count("/")
        file = pathlib.Path(folder, name)
        file.write_text(MAKER % (here, name, makes))
        file.chmod(0o755)
    for words in (["init", "-q"], ["add", "-A"], [*WHO, "commit", "-q", "-m", "all"]):
        found = run(["git", "-C", folder, *words], GIT_COMMITTER_DATE=f"{SECONDS} +0000", GIT_AUTHOR_DATE=f"{SECONDS - 99} +0000")
        holds(found[0] == 0, f"git {words}: {found}")
    for file in ("asked", "fails"):
        pathlib.Path(file).write_text("")


def asked():
    """What `release` asked for."""
    return pathlib.Path("asked").read_text().splitlines()


@test
def packs_the_commit():
    """All is made first, and the packages have the commit's time and author. Of files that the commit
    does not have only those are refused that could get into a package."""
    make_sources("here")
    commit("here")
    for name in HARMLESS:
        os.makedirs(os.path.dirname(f"here/{name}"), exist_ok=True)
        change(f"here/{name}")
    found = run(["sh", "-c", 'umask 077 && exec "$0" "$@"', "here/release", "packed"], **COMPILER)
    holds(found == (0, ""), f"{found}")
    holds(asked() == ASKED, f"asked for {asked()}")
    are_right("packed", "here", True, maintainer=AUTHOR)


@test
def packs_the_commit_without_a_compiler_for_aarch64():
    make_sources("here")
    commit("here")
    found = run(["here/release", "packed"], **NO_COMPILER)
    missing = f"{os.path.abspath('here')}/{ARM} is not built"
    wanted = f"release: there is no no-compiler on the PATH\nrelease: nothing is packed for aarch64: {missing}\n"
    holds(found == (0, wanted), f"{found}")
    holds(asked() == ASKED_WITHOUT, f"asked for {asked()}")
    are_right("packed", "here", False, maintainer=AUTHOR)


def change(name):
    """Changes a file."""
    with open(name, "a") as file:
        file.write("more\n")


def stage(name):
    """Changes a file, and adds that to what the next commit has."""
    change(name)
    holds(run(["git", "-C", "here", "add", "-A"])[0] == 0, "git add")


def change_unseen(mark):
    """Changes a file after git was told by a mark not to look for that."""
    holds(run(["git", "-C", "here", "update-index", mark, "docs/C.md"])[0] == 0, "git update-index")
    change("here/docs/C.md")


# What makes the sources others than those of the commit.
CHANGES = {
    "a source": lambda: change("here/crates/lms_c/specs/file"),
    "a document": lambda: change("here/docs/C.md"),
    "a script": lambda: change("here/release"),
    "a change that is staged": lambda: stage("here/README.md"),
    "a file that is gone": lambda: os.remove("here/examples/firmware.sig"),
    "a mode": lambda: os.chmod("here/crates.txt", 0o755),
    "a change that git assumes is none": lambda: change_unseen("--assume-unchanged"),
    "a change that git skips": lambda: change_unseen("--skip-worktree"),
    "no repository": lambda: shutil.rmtree("here/.git"),
}


def refuses_changed(what):
    """Sources that are not those of the commit are not built."""
    make_sources("here")
    commit("here")
    CHANGES[what]()
    found = "git can't tell whether" if what == "no repository" else ""
    line = f"{found} the sources are {'' if found else 'not '}those of the commit".strip()
    status, errors = run(["here/release", "packed"], SOURCE_DATE_EPOCH="1", MAINTAINER=AUTHOR)
    holds((status, errors.splitlines()[-1:]) == (70, [f"release: {line}"]), f"{status} {errors!r}")
    holds(not asked() and not os.path.exists("packed"), f"asked for {asked()}")


for changed in CHANGES:
    add_test(f"refuses sources that are not those of the commit: {changed}", refuses_changed, changed)


def refuses_other(name):
    """A file that the commit does not have, and that could get into a package, is named, and nothing is made."""
    pathlib.Path("here", name).parent.mkdir(parents=True, exist_ok=True)
    change(f"here/{name}")
    found = run(["here/release", "packed"], SOURCE_DATE_EPOCH="1", MAINTAINER=AUTHOR)
    wanted = f"release: the commit does not have {name}, which could get into a package\n"
    holds(found == (70, wanted), f"{found}, not: {wanted}")
    holds(not asked() and not os.path.exists("packed"), f"asked for {asked()}")
    os.remove(f"here/{name}")


def refuses_others(*names):
    """A file of each of these names, whatever it is ignored by, in each folder that packages are made of."""
    make_sources("here")
    commit("here")
    pathlib.Path("here/.git/info").mkdir(exist_ok=True)
    pathlib.Path("here/.git/info/exclude").write_text("excluded*\n")
    for name in (f"{folder}/{name}" for folder in FOLDERS for name in names):
        refuses_other(name)


IGNORED_FILES = ["ignored.c", "excluded.h", "__pycache__/more.pyc"]
add_test("refuses new files that the commit does not have", refuses_others, "more.c")
add_test("refuses ignored files that the commit does not have", refuses_others, *IGNORED_FILES)


@test
def refuses_files_that_the_commit_does_not_have_in_place_of_its_own():
    """Those that are packed by their names, and what they are built by, where the commit lacks them."""
    make_sources("here")
    commit("here")
    for name in OWN:
        holds(run(["git", "-C", "here", "rm", "-q", "--cached", name])[0] == 0, f"git rm {name}")
        holds(run(["git", "-C", "here", *WHO, "commit", "-q", "-m", "without"])[0] == 0, f"git commit without {name}")
        found = run(["here/release", "packed"], SOURCE_DATE_EPOCH="1", MAINTAINER=AUTHOR)
        wanted = f"release: the commit does not have {name}, which could get into a package\n"
        holds(found == (70, wanted), f"{found}, not: {wanted}")
        holds(run(["git", "-C", "here", "add", name])[0] == 0, f"git add {name}")
    holds(not asked() and not os.path.exists("packed"), f"asked for {asked()}")


@test
def refuses_what_cannot_be_made():
    """Each of what it asks for fails in turn, or makes another C file than the repository has."""
    make_sources("here")
    commit("here")
    for at, name in enumerate(ASKED):
        pathlib.Path("asked").write_text("")
        pathlib.Path("fails").write_text(name)
        status, _ = run(["here/release", "packed"], **COMPILER)
        holds(status == 70 and asked() == ASKED[: at + 1], f"{name}: {status} {asked()}")
        holds(not os.listdir("packed"), "something was packed")
    pathlib.Path("fails").write_text("")
    change("made/lms_verify.c")
    found = run(["here/release", "packed"], **COMPILER)
    holds(found == (70, "release: portable/lms_verify.c is not what ./lms_c --portable makes\n"), f"{found}")
    holds(not os.listdir("packed"), "something was packed")
