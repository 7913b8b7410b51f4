"""Packs what is built twice, by ./release --built, and tries the packages as a new user would: with
no toolchain on the PATH, in folders of their own. Nothing is proved or built. What is built by
`./lms_tool build both`, `./lms_c`, `./lms_c --shared` and `examples/web/build` is tried whole; where that is only the
common program and the libraries, others stand in for the rest, and a part is tried."""

import os
import pathlib
import re
import shutil

from tests.harness import TOP, Skipped, blocks_of, checks, holds, said_by
from tests.merge_check.emulator import EMULATOR, what_is_missing
from tests.merge_check.package_texts import COMMANDS, PAGES, pieces_of, words_of
from tests.merge_check.packages import (
    ARM, ARM_DEBIAN, ARM_DEBIANS, ARM_NAME, ARM_OUTPUTS, COMMON, DEBIAN, DEBIANS, FAST, FLAGS, LEVELS, LIBRARY, NAME, OUTPUTS, PAGE,
    PAGE_SOURCES, SHARED_OUTPUTS, SHARED_SOURCES, VERSION, are_right, copy_sources, pack_twice,
)
from tests.program import job_lines, keygen, put, sign, verify

TOOLS = ["tar", "gzip", "strip", "objcopy", "sha256sum", "md5sum", "dpkg-deb", "dpkg", "basenc"]
# `dpkg` is there for root.
ALL_TOOLS = f"{os.environ.get('PATH', '')}:/usr/sbin:/sbin"


def sources():
    """The files that what is built was built from."""
    folders = [it for kind in ("src", "specs", "proofs") for it in (TOP / "crates").glob(f"*/{kind}")]
    return [TOP / "crates.txt", *(file for folder in folders for file in folder.rglob("*") if file.is_file())]


def why_not(output):
    """Why an output can't be packed, or nothing."""
    if not (TOP / output).is_file():
        return f"{output} is not built"
    more = {PAGE: [TOP / name for name in PAGE_SOURCES], ARM: (TOP / "runtime/aarch64").glob("*.[ch]")}
    more |= {it: [TOP / name for name in SHARED_SOURCES] for it in [*SHARED_OUTPUTS, *ARM_OUTPUTS[1:]]}
    newest = max(file.stat().st_mtime_ns for file in [*sources(), *more.get(output, [])])
    return f"{output} is older than a source" if (TOP / output).stat().st_mtime_ns < newest else ""


def outputs():
    """The files that are packed as outputs, and whether all are what is built. Where there is no
    program for AVX2 the common one with a section more stands in for it, and a text for a page. All
    is skipped where a tool or another output is not there."""
    for tool in TOOLS:
        if not shutil.which(tool, path=ALL_TOOLS):
            raise Skipped(f"there is no {tool}")
    for output in (COMMON, LIBRARY, *SHARED_OUTPUTS):
        if why := why_not(output):
            raise Skipped(why)
    files = {output: TOP / output for output in OUTPUTS}
    if why_not(FAST):
        put("section", b"one more")
        said_by("objcopy", "--add-section", ".one_more=section", TOP / COMMON, "fast")
        files[FAST] = "fast"
    if why_not(PAGE):
        put("page", b"<title>a page</title>\n")
        files[PAGE] = "page"
    if not any(map(why_not, ARM_OUTPUTS)):
        files |= {output: TOP / output for output in ARM_OUTPUTS}
    return files, not any(map(why_not, OUTPUTS))


def alone(*words, **how):
    """The same, as on a machine with nothing but the system's own programs."""
    return said_by(*words, env={"PATH": "/usr/bin:/bin", "HOME": os.getcwd(), **how.pop("more", {})}, **how)


def prints(wanted, said):
    """A command printed this line, or these."""
    holds(said == f"{wanted}\n", f"it printed {said!r}, not {wanted!r}")


def packs(files):
    """Two packings of these outputs in two folders are the same bytes."""
    pack_twice(lambda folder: copy_sources(folder, files))


def goes_round(program, package, emulator=()):
    """A whole round by a program, with the examples of a package."""
    program, examples = os.path.abspath(program), os.path.abspath(f"{package}/share/doc/lms-tool/examples")
    message, number = f"{examples}/firmware.bin", "{:064d}".format
    shutil.rmtree("keys", ignore_errors=True)
    os.mkdir("keys")

    def said(*words, **how):
        return alone(*emulator, program, *words, cwd="keys", **how)

    prints("valid", said(*verify(message, f"{examples}/firmware.sig", f"{examples}/release.pub")))
    prints("capacity 1024", said(*keygen("5/8,5/8", number(1), f"{2:032d}")))
    prints("index 0", said(*sign(message, "sig", number(3))))
    holds("counter 1" in said("info", "--state", "key.state").splitlines(), "another counter")
    job = job_lines(b"abc", randomizer=bytes.fromhex(number(4))).decode()
    index, digits = said("batch", "--state", "key.state", "--workers", "1", input=job).split()
    holds(index == "1", f"index {index}")
    put("keys/abc", b"abc")
    put("keys/abc.sig", bytes.fromhex(digits))
    prints("valid", said(*verify("abc", "abc.sig")))
    prints("valid", said(*verify(message, "sig")))


def follows_readme():
    """README.md's blocks up to that of the first key, as they are there, in a folder with what is packed. Where
    there is apt, it says what it would install."""
    blocks = blocks_of("README.md")
    first = next(at for at, it in enumerate(blocks) if "lms_tool keygen" in it)
    put("blocks", "".join(blocks[: first + 1]).encode())
    for folder in ("user", "few"):
        os.mkdir(folder)
    for name in (f"{NAME}.tar.gz", DEBIAN, "SHA256SUMS"):
        shutil.copy(f"packed/{name}", "user")
    has_apt = shutil.which("apt-get") is not None
    script("few/sudo", 'exec "$@"')
    script("few/apt", 'exec apt-get --simulate -o Debug::NoLocking=1 "$@"' if has_apt else "exit 0")
    more = {"HOME": os.path.abspath("user"), "PATH": f"{os.path.abspath('few')}:/usr/bin:/bin"}
    lines = alone("sh", "-eu", os.path.abspath("blocks"), cwd="user", more=more).splitlines()
    for wanted in (f"{NAME}.tar.gz: OK", "capacity 1048576", "index 0", "valid", "counter 1"):
        holds(wanted in lines, f"it does not say {wanted}: {lines}")
    holds(not has_apt or any(it.startswith(f"Inst lms-tool ({VERSION}") for it in lines), f"apt would not install it: {lines}")


def script(file, text):
    """Writes a script."""
    put(file, f"#!/bin/sh\n{text}\n".encode())
    os.chmod(file, 0o755)


def chooses(package):
    """The launcher takes the program for AVX2 on a processor with all flags that it asks for, and
    else the common one. Its /proc/cpuinfo is read by a stand-in for sed here."""
    shutil.rmtree("other", ignore_errors=True)
    for folder in ("bin", "path", *(f"lib/lms_tool/{level}" for level in LEVELS)):
        os.makedirs(f"other/{folder}")
    shutil.copy(f"{package}/bin/lms_tool", "other/bin")
    for level in LEVELS:
        script(f"other/lib/lms_tool/{level}/lms_tool", f'echo {level} "$@"')
    for missing in (None, *FLAGS):
        flags = " ".join(it for it in ("fpu", *FLAGS, "sse2") if it != missing)
        script("other/path/sed", f'echo "{flags}"')
        level = LEVELS[missing is None]
        said = alone("other/bin/lms_tool", "a b", more={"PATH": f"{os.path.abspath('other/path')}:/usr/bin:/bin"})
        holds(said == f"{level} a b\n", f"without {missing}: {said!r}")


def launches(package):
    """The launcher starts a program, through a link, too."""
    launcher = os.path.abspath(f"{package}/bin/lms_tool")
    goes_round(launcher, package)
    os.symlink(launcher, "link")
    holds(alone(launcher, "--help") == alone("./link", "--help"), "another text by a link")
    os.remove("link")


def compiles(package, library, docs):
    """examples/c/verify.c, with header and each library of a package, with the flags that their
    pkg-config files say; and with the portable file in place of a library. The binding for Python."""
    package = os.path.abspath(package)
    examples, loaded = f"{package}/{docs}/examples", {**os.environ, "LD_LIBRARY_PATH": f"{package}/{library}"}
    files = [f"{examples}/{name}" for name in ("release.pub", "firmware.bin", "firmware.sig")]
    flags = {"lms_c": [f"{package}/{library}/liblms_c.a"], "lms": [f"-L{package}/{library}", "-llms"]}
    flags = {name: [f"-I{package}/include", *its] for name, its in flags.items()}
    if shutil.which("pkg-config"):
        named = {**os.environ, "PKG_CONFIG_PATH": f"{package}/{library}/pkgconfig"}
        flags = {name: said_by("pkg-config", "--cflags", "--libs", name, env=named).split() for name in flags}
    for its in (*flags.values(), [f"-I{package}/include", f"{package}/share/lms-tool/lms_verify.c"]):
        said_by("cc", "-O2", f"{examples}/verify.c", "-o", "verify", *its)
        prints("valid", said_by("./verify", *files, env=loaded if its == flags["lms"] else os.environ))
    prints("valid", said_by("python3", "-B", f"{examples}/lms.py", *files, env=loaded))


def manual_shows(package, command):
    """A page of the manual shows each option that the command's help names, and no line is lost."""
    shown = alone("man", "-l", f"{package}/{PAGES[command]}", more={"MANWIDTH": "80"}).replace("\b", "")
    help_text = alone(f"{package}/bin/lms_tool", *[command] * bool(command), "--help")
    holds(help_text, "there is no help")
    for piece in pieces_of(help_text):
        holds(words_of(piece) in words_of(shown), f"the page has no: {piece}")
    wide = [line for line in shown.splitlines() if len(line) > 80]
    holds(not wide, f"lines have more than 80 columns: {wide}")


def installs(debians, *force, emulator=()):
    """Packages can be installed and removed, below a folder, and the program does what it should. From what is
    installed for this computer examples/c/verify.c is built."""
    below, names = os.path.abspath(f"installed {debians[0]}"), [it.partition("_")[0] for it in debians]
    for folder in ("info", "updates"):
        os.makedirs(f"{below}/var/lib/dpkg/{folder}")
    put(f"{below}/var/lib/dpkg/status", b"")
    dpkg = ["dpkg", f"--root={below}", f"--log={os.path.abspath('log')}", "--force-not-root", *force]
    how = {"env": {**os.environ, "PATH": ALL_TOOLS}}
    said_by(*dpkg, "--force-depends", "-i", *(f"packed/{it}" for it in debians), **how)
    for name in names:
        status = said_by("dpkg", f"--root={below}", "-s", name, **how).splitlines()
        holds([it for it in status if it.startswith("Status")] == ["Status: install ok installed"], f"{status}")
    goes_round(f"{below}/usr/bin/lms_tool", f"{below}/usr", emulator)
    if not emulator and shutil.which("cc"):
        os.rename(below, "installed")
        compiles("installed/usr", "lib/x86_64-linux-gnu", "share/doc/liblms-dev")
        os.rename("installed", below)
    said_by(*dpkg, "-r", *names, **how)
    left = [it for it in pathlib.Path(below, "usr").rglob("*") if not it.is_dir()]
    holds(not left, f"these are left: {left}")


def tries_arm(counter):
    """Tries both packages for aarch64, in an emulator."""
    if why := next(filter(None, map(why_not, ARM_OUTPUTS)), "") or what_is_missing():
        counter.skip("the packages for aarch64", why)
        return
    said_by("tar", "-xzf", f"packed/{ARM_NAME}.tar.gz")
    counter.check(f"the program of {ARM_NAME}", goes_round, f"{ARM_NAME}/bin/lms_tool", ARM_NAME, EMULATOR)
    name = "the packages for aarch64 are installed and removed"
    counter.check(name, lambda: installs([ARM_DEBIAN, *ARM_DEBIANS], "--force-architecture", emulator=EMULATOR))


def is_silent_on(package):
    """lintian finds neither an error nor a thing to warn of."""
    said = said_by("lintian", "--allow-root", "--tag-display-limit", "0", f"packed/{package}")
    holds(not said, said)


def names_the_version():
    """Each pkg-config file has the line of this version."""
    for name in ("lms.pc", "lms_c.pc"):
        lines = (TOP / "include" / name).read_text(encoding="utf-8").splitlines()
        holds(f"Version: {VERSION}" in lines, f"{name} has another one")


def tries(counter, package, library, docs):
    """Tries the programs, the launcher, the library and the manual of a package."""
    counter.check(f"the common program of {package}", goes_round, f"{package}/lib/lms_tool/x86-64-v2/lms_tool", package)
    name = f"the program for AVX2 of {package}"
    if re.search(r"(?m)^flags.* avx2", pathlib.Path("/proc/cpuinfo").read_text()):
        counter.check(name, goes_round, f"{package}/lib/lms_tool/x86-64-v3/lms_tool", package)
    else:
        counter.skip(name, "this processor has no AVX2")
    counter.check(f"the launcher of {package}", launches, package)
    counter.check(f"the program that it takes, of {package}", chooses, package)
    name = f"examples/c/verify.c with {package}"
    if shutil.which("cc"):
        counter.check(name, compiles, package, library, docs)
    else:
        counter.skip(name, "there is no cc")
    for command in ("", *COMMANDS):
        name = f"the manual's page of {command or 'the program'} of {package}"
        if shutil.which("man"):
            counter.check(name, manual_shows, package, command)
        else:
            counter.skip(name, "there is no man")


@checks
def the_packages(counter):
    files, are_built = outputs()
    if not counter.check("two packings in two folders are the same bytes", packs, files):
        return
    counter.check("what is packed, with its modes", are_right, "packed", "here", ARM in files)
    said_by("tar", "-xzf", f"packed/{NAME}.tar.gz")
    for name in (DEBIAN, *DEBIANS):
        said_by("dpkg-deb", "-x", f"packed/{name}", "debian")
    if are_built:
        tries(counter, NAME, "lib", "share/doc/lms-tool")
        tries(counter, "debian/usr", "lib/x86_64-linux-gnu", "share/doc/liblms-dev")
    else:
        counter.check(f"the launcher of {NAME}", launches, NAME)
        counter.skip("each program, library and page of the manual", "not all is built")
    counter.check("README's first blocks", follows_readme)
    counter.check("the packages are installed and removed", installs, [DEBIAN, *DEBIANS])
    tries_arm(counter)
    if shutil.which("lintian"):
        for package in (DEBIAN, *DEBIANS, *[ARM_DEBIAN, *ARM_DEBIANS] * (ARM in files)):
            counter.check(f"lintian says nothing of {package}", is_silent_on, package)
    else:
        counter.skip("lintian says nothing", "there is no lintian")
    counter.check("the pkg-config files name the version", names_the_version)
