"""What `release` packs: its sources in a folder of their own, and what its packages have to have in
them, made of these."""

import hashlib
import io
import os
import pathlib
import re
import shutil
import stat
import subprocess
import tarfile
import time
from typing import NamedTuple

from tests.harness import TOP, holds, said_by
from tests.merge_check.package_texts import COMPLETIONS, PAGES, has_changelog, has_completions, has_manual

VERSION = re.search(r'VERSION: &str = "(.*)"', (TOP / "crates/lms_command_line/src/version.rt").read_text(encoding="utf-8"))[1]
NAME, DEBIAN = f"lms_tool-{VERSION}-x86_64", f"lms-tool_{VERSION}_amd64.deb"
ARM_NAME, ARM_DEBIAN = f"lms_tool-{VERSION}-aarch64", f"lms-tool_{VERSION}_arm64.deb"
# The other Debian packages for an architecture: those of the shared library and of what programs are built with.
DEBIANS, ARM_DEBIANS = ([f"{name}_{VERSION}_{it}.deb" for name in ("liblms1", "liblms-dev")] for it in ("amd64", "arm64"))
COMMON, FAST = "crates/lms_tool/out/lms_tool", "crates/lms_tool/out/avx2/lms_tool"
LIBRARY, PAGE = "crates/lms_c/out/liblms_c.a", "examples/web/out/lms_verify.html"
SHARED = "crates/lms_c_lanes/out/shared"
SHARED_OUTPUTS = [f"{SHARED}/x86-64/liblms.a", *(f"{SHARED}/{it}/liblms.so.1" for it in ("x86-64", "x86-64-v2", "x86-64-v3"))]
OUTPUTS = [COMMON, FAST, LIBRARY, *SHARED_OUTPUTS, PAGE]
# What the page is made of beside the library's sources.
PAGE_SOURCES = ["examples/web/index.html", "examples/web/build"]
# Without which nothing is packed for aarch64.
ARM = "crates/lms_tool/out/aarch64/lms_tool"
ARM_OUTPUTS = [ARM, f"{SHARED}/aarch64/liblms.a", f"{SHARED}/aarch64/liblms.so.1"]
# What the libraries are made of beside the crates.
SHARED_SOURCES = ["runtime/shared/liblms.c", "runtime/shared/names", "runtime/shared/exports", "include/lms.h"]
LEVELS = ["x86-64-v2", "x86-64-v3"]
LAUNCHER = "bin/lms_tool"
# The programs of the packages for x86-64, which the launcher starts, and that of those for aarch64.
PROGRAMS = {f"lib/lms_tool/{level}/lms_tool": built for level, built in zip(LEVELS, (COMMON, FAST))}
ARM_PROGRAMS = {LAUNCHER: ARM}
DOCS = "share/doc/lms-tool"
# The documents of the packages, by their names in the repository, and the examples: those that liblms-dev has, too, and
# those that the program's packages have alone.
FOR_PROGRAMS = {"docs/C.md": "C.md", "portable/README.md": "MICROCONTROLLERS.md"}
DOCUMENTS = {f"{name}.md": f"{name}.md" for name in ("README", "SECURITY", "CHANGELOG")}
DOCUMENTS |= {f"docs/{name}.md": f"{name}.md" for name in ("PROVED", "PROFILE", "TESTED", "SERVICE", "EMBEDDING", "KEYS", "CHOOSING", "INTEROP")}
BUILT_WITH = [f"examples/{name}" for name in ("release.pub", "firmware.bin", "firmware.sig", "c/verify.c", "c/sha256.h")]
BUILT_WITH += [*(f"examples/{name}" for name in ("c/two_levels.pub", "c/two_levels.sig", "python/lms.py")), "tests/c/bare.c"]
EXAMPLES = ["examples/serve/client.py", "examples/serve/lms-queue.service"]
# The examples of both that keep their folders, each with a document, and what of them may be run.
LOADERS = [f"examples/cortex-m/{name}" for name in ("application.c", "board.c", "board.h", "board.ld", "image.py", "loader.c")]
LOADERS += [f"examples/u-boot/{name}" for name in ("add_to", "image.its", "mkimage-lms-sign", "payload.S")]
LOADERS += [f"examples/u-boot/lib-lms/{name}" for name in ("Kconfig", "Makefile", "lms-image.c", "lms-image.h", "lms-sign.c")]
FOR_PROGRAMS |= {f"examples/{name}/README.md": f"examples/{name}/README.md" for name in ("cortex-m", "u-boot")}
SCRIPTS = ["examples/u-boot/add_to", "examples/u-boot/mkimage-lms-sign"]
# What else documents lead to, where the package has it.
BESIDE = {"examples/web/index.html": "lms_verify.html", "include/lms.h": "../../../include/lms.h"}
BESIDE |= {f"portable/{name}": f"../../lms-tool/{name}" for name in ("lms_verify.c", "sha256_x86.c")}
# The names that lead to others.
LINKS = {"bin/lms-tool": "lms_tool", "share/man/man1/lms-tool.1.gz": "lms_tool.1.gz", "share/bash-completion/completions/lms-tool": "lms_tool"}
# The time of all files in packages, 2001-09-09, 01:46:40, and their maintainer.
SECONDS, MAINTAINER = 1000000000, "No One <no-one@debian.org>"
# What scripts may take from the environment.
TAKEN = {"PATH", "SOURCE_DATE_EPOCH", "MAINTAINER"}
# What each Debian package needs.
NEEDS = {"lms-tool": "libc6 (>= 2.34)", "liblms1": "libc6 (>= 2.17)", "liblms-dev": f"liblms1 (= {VERSION})"}
# What the launcher asks of a processor before it takes the program for AVX2.
FLAGS = ["avx", "avx2", "bmi1", "bmi2", "f16c", "fma", "abm", "movbe"]


def copy_sources(folder, outputs):
    """A folder with all that `release` reads, with these files as outputs, and nothing else."""
    for part in ("src", "specs", "proofs"):
        os.makedirs(f"{folder}/crates/lms_c/{part}", exist_ok=True)
    for name in ("docs", "include", *(f"examples/{it}" for it in ("c", "cortex-m", "python", "serve", "u-boot")), "packaging", "portable", "runtime"):
        shutil.copytree(TOP / name, f"{folder}/{name}", ignore=shutil.ignore_patterns("__pycache__"))
    plain = [it.relative_to(TOP) for it in (TOP / "examples").glob("*.*")]
    sources = ["release", "README.md", "SECURITY.md", "CHANGELOG.md", "crates.txt", "tests/c/bare.c", *PAGE_SOURCES, *plain]
    for name, file in {**{name: TOP / name for name in sources}, **outputs}.items():
        os.makedirs(os.path.dirname(f"{folder}/{name}"), exist_ok=True)
        shutil.copy2(file, f"{folder}/{name}")


def misleading(script, text):
    """Each word of a script as a variable of the environment that says this, but for what it may take from
    there."""
    words = set(re.findall(r"[A-Za-z_]\w*", pathlib.Path(script).read_text(encoding="utf-8")))
    return {word: text for word in words - TAKEN}


def pack_twice(make):
    """Packs what was built, from two folders with sources that `make` makes: that gives the same
    bytes, whatever was set, also by the name of any word of the script. The copies are in no
    repository. The first packages are in packed/, made of here/."""
    make("here")
    make("a folder elsewhere")
    for file in pathlib.Path("a folder elsewhere/docs").iterdir():
        then = time.time() - 3 * 86400
        os.utime(file, (then, then))
    both = {**os.environ, "SOURCE_DATE_EPOCH": str(SECONDS), "MAINTAINER": MAINTAINER}
    said_by("here/release", "--built", "packed", env=both)
    os.mkdir("temporary")
    os.chmod("temporary", 0o2777)
    other = {"TZ": "Asia/Tokyo", "LC_ALL": "C.UTF-8", "TMPDIR": os.path.abspath("temporary")}
    more = {"TAR_OPTIONS": "--mtime=now", "DPKG_DEB_COMPRESSOR_LEVEL": "1"}
    masked = ["sh", "-c", 'umask 077 && exec "$0" "$@"']
    pathlib.Path("other").write_text("not of the sources\n")
    words = misleading("here/release", os.path.abspath("other"))
    said_by(*masked, "a folder elsewhere/release", "--built", "packed again", env={**both, **words, **other, **more})
    os.remove("other")
    for file in sorted({*os.listdir("packed"), *os.listdir("packed again")}):
        holds(pathlib.Path("packed", file).read_bytes() == pathlib.Path("packed again", file).read_bytes(), f"{file} has other bytes")
    holds(not os.listdir("temporary"), "temporary files are left")


class Kind(NamedTuple):
    """What a package has: programs, each with what it is made of; the processors and the folder of its libraries;
    whether it has the shared one, and what programs are built with, with documents in this folder."""

    programs: dict
    processor: str = ""
    folder: str = ""
    is_shared: bool = False
    docs: str = ""


class Package:
    """A package, read without being unpacked: its files and folders by their names below the root
    of what it installs."""

    def __init__(self, name, packed, kind):
        self.name, self.kind, self.found, self.bytes = name, kind, {}, {}
        for it in packed:
            below = os.path.relpath(it.name, name)
            self.found[below] = it
            self.bytes[below] = packed.extractfile(it).read() if it.isfile() else b""

    def holds(self, is_so, what):
        """Fails the check where this is not so."""
        holds(is_so, f"{self.name}: {what}")


def tarball(folder, name, kind):
    """The tarball of a name in a folder."""
    with tarfile.open(f"{folder}/{name}.tar.gz") as packed:
        return Package(name, packed, kind)


def debian(folder, name, kind):
    """The Debian package of a name in a folder."""
    words = ["dpkg-deb", "--fsys-tarfile", f"{folder}/{name}"]
    with tarfile.open(fileobj=io.BytesIO(subprocess.run(words, stdout=subprocess.PIPE, check=True).stdout)) as packed:
        return Package("usr", packed, kind)


def links_of(kind):
    """The names of a package that lead to others, each with where it leads."""
    return (LINKS if kind.programs else {}) | ({f"{kind.folder}/liblms.so": "liblms.so.1"} if kind.docs else {})


def files_of(package, top, own):
    """The names of the files that a package is to have, with these own files of a Debian package."""
    kind = package.kind
    names = {*own, *texts_of(kind, top), *libraries_of(kind), *links_of(kind), *kind.programs}
    return sorted(names | ({LAUNCHER, *PAGES.values(), *COMPLETIONS.values()} if kind.programs else set()))


def has_modes(package, top, own):
    """A package has these files and no other, which only root may write, and all may read. Programs and
    scripts alone may be run."""
    files = sorted(name for name, it in package.found.items() if not it.isdir())
    wanted = files_of(package, top, own)
    package.holds(files == wanted, f"its files are {files}, not {wanted}")
    scripts = [f"{package.kind.docs or DOCS}/{it}" for it in SCRIPTS]
    for name, it in package.found.items():
        package.holds((it.uid, it.gid) == (0, 0), f"{name} has another owner")
        if name in (links := links_of(package.kind)):
            package.holds(it.issym() and it.linkname == links[name], f"{name} leads elsewhere")
            continue
        mode = 0o755 if it.isdir() or name in {LAUNCHER, *package.kind.programs, *scripts} else 0o644
        package.holds(it.isfile() or it.isdir(), f"{name} is neither file nor folder")
        package.holds(it.mode == mode, f"{name} has the mode {it.mode:o}, not {mode:o}")


def has_programs(package, top):
    """A package has its programs as they were built, but for what `strip` leaves out of those for
    x86-64. They differ."""
    programs = package.kind.programs
    for name, built in programs.items():
        whole = f"{top}/{built}"
        if built != ARM:
            said_by("strip", "-o", "stripped", whole)
            whole = "stripped"
        package.holds(package.bytes[name] == pathlib.Path(whole).read_bytes(), f"another program than {built}")
    package.holds(len({package.bytes[name] for name in programs}) == len(programs), "its programs are one")


def libraries_of(kind):
    """The libraries of a package, each with what it is."""
    found = {}
    if kind.is_shared:
        found["liblms.so.1"] = f"{SHARED}/{kind.processor}/liblms.so.1"
        for level in LEVELS if kind.processor == "x86-64" else []:
            found[f"glibc-hwcaps/{level}/liblms.so.1"] = f"{SHARED}/{level}/liblms.so.1"
    if kind.docs:
        found["liblms.a"] = f"{SHARED}/{kind.processor}/liblms.a"
        found |= {"liblms_c.a": LIBRARY} if kind.processor == "x86-64" else {}
    return {f"{kind.folder}/{name}": output for name, output in found.items()}


def led(text, source, name, places):
    """A document of the repository as a package has it, by this name: each link leads to where the package has what
    it names, and one to another file of the repository is its text."""
    up = "../" * name.count("/")

    def link(found):
        target, _, anchor = found[2].partition("#")
        there = places.get(os.path.normpath(os.path.join(os.path.dirname(source), target)))
        if not target or target.startswith("https:"):
            return found[0]
        return f"[{found[1]}]({up}{there}{'#' * bool(anchor)}{anchor})" if there else found[1]

    return re.sub(r"\[([^][\n]*)\]\(([^()\n]*)\)", link, text)


def documents_of(kind):
    """The documents and the examples of a package, by their names in the repository."""
    documents = {**(DOCUMENTS if kind.programs else {}), **(FOR_PROGRAMS if kind.programs or kind.docs else {})}
    return documents, [*EXAMPLES * bool(kind.programs), *(BUILT_WITH + LOADERS) * bool(kind.programs or kind.docs)]


def texts_of(kind, top):
    """The files of a package that are made of sources, with the bytes that each is to have."""
    top, texts = pathlib.Path(top), {}
    if kind.programs:
        texts[f"{DOCS}/lms_verify.html"] = (top / PAGE).read_bytes()
    if kind.docs:
        texts["include/lms.h"] = (top / "include/lms.h").read_bytes()
        texts |= {f"share/lms-tool/{name}": (top / "portable" / name).read_bytes() for name in ("lms_verify.c", "sha256_x86.c")}
        for name in ["lms", *["lms_c"] * (kind.processor == "x86-64")]:
            texts[f"{kind.folder}/pkgconfig/{name}.pc"] = flags_of(name, kind.folder, top)
    documents, examples = documents_of(kind)
    docs = kind.docs or DOCS
    shown = {name: name if name in LOADERS else f"examples/{os.path.basename(name)}" for name in examples}
    beside = {name: it for name, it in BESIDE.items() if os.path.normpath(f"{docs}/{it}") in texts}
    for source, name in documents.items():
        text = led((top / source).read_text(encoding="utf-8"), source, name, {**documents, **shown, **beside})
        texts[f"{docs}/{name}"] = text.encode()
    return texts | {f"{docs}/{name}": (top / source).read_bytes() for source, name in shown.items()}


def anchors_in(text):
    """The anchors of a document's headings."""
    headings = re.findall(r"(?m)^#+ (.*)$", re.sub(r"(?ms)^```.*?^```$", "", text))
    return {re.sub(r"[^\w -]", "", it.lower()).replace(" ", "-") for it in headings}


def has_links(package):
    """Each link in a document of a package leads to a file of it and, where it names a heading, to one that the
    file has; and some do."""
    count, docs = 0, package.kind.docs or DOCS
    documents, _ = documents_of(package.kind)
    for name in documents.values():
        text = package.bytes[f"{docs}/{name}"].decode()
        for target in re.findall(r"\]\(([^()\s]*)\)", text):
            file, _, anchor = target.partition("#")
            below = os.path.normpath(f"{docs}/{os.path.dirname(name)}/{file}" if file else f"{docs}/{name}")
            package.holds(target.startswith("https:") or below in package.found, f"{name} has a link to {target}, which is not there")
            if anchor:
                package.holds(anchor in anchors_in(package.bytes[below].decode()), f"{below} has no heading {anchor}, as {name} says")
            count += 1
    package.holds(not documents or count > len(documents), "its documents have no links")


def flags_of(name, folder, top):
    """The pkg-config file of a library in this folder of a package."""
    up = "/".join([".."] * (folder.count("/") + 2))
    flags = (top / f"include/{name}.pc").read_text(encoding="utf-8").replace("${pcfiledir}/../..", f"${{pcfiledir}}/{up}")
    return flags.replace("-L${prefix}/lib ", f"-L${{prefix}}/{folder} ").encode()


def has_texts(package, top):
    """What a package has of sources and libraries is whole."""
    libraries = {name: pathlib.Path(top, output).read_bytes() for name, output in libraries_of(package.kind).items()}
    for name, text in {**texts_of(package.kind, top), **libraries}.items():
        package.holds(text, f"there is nothing that {name} is made of")
        package.holds(package.bytes[name] == text, f"{name} is not what it is made of")


def has_sums(folder, has_arm):
    """What was packed are the files that should be, all of which may be read by all and written by
    their owner alone, and the sums of the others in SHA256SUMS."""
    packed = [f"{NAME}.tar.gz", DEBIAN, *DEBIANS, *[f"{ARM_NAME}.tar.gz", ARM_DEBIAN, *ARM_DEBIANS] * has_arm, "lms_verify.html"]
    holds(sorted(os.listdir(folder)) == sorted([*packed, "SHA256SUMS"]), f"{os.listdir(folder)} were packed")
    for name in [*packed, "SHA256SUMS"]:
        mode = stat.S_IMODE(os.stat(f"{folder}/{name}").st_mode)
        holds(mode == 0o644, f"{name} has the mode {mode:o}")
    sums = [f"{hashlib.sha256(pathlib.Path(folder, name).read_bytes()).hexdigest()}  {name}" for name in packed]
    holds(pathlib.Path(folder, "SHA256SUMS").read_text().splitlines() == sums, "SHA256SUMS has others")


def has_own(file, package, maintainer, seconds):
    """The own files of the Debian package in this file: it names its version, maintainer and size,
    and each of its files with its sum, and may be read by all."""
    words = ["dpkg-deb", "--ctrl-tarfile", file]
    with tarfile.open(fileobj=io.BytesIO(subprocess.run(words, stdout=subprocess.PIPE, check=True).stdout)) as own:
        texts = {os.path.basename(it.name): own.extractfile(it).read().decode() for it in own if it.isfile()}
        holds(all(it.mode == (0o755 if it.isdir() else 0o644) for it in own), "its own files have other modes")
        holds(all((it.uid, it.gid, it.mtime) == (0, 0, seconds) for it in own), "its own files have another owner or time")
    called, _, architecture = os.path.basename(file).removesuffix(".deb").split("_")
    loaded = {"shlibs": "liblms 1 liblms1\n", "triggers": "activate-noawait ldconfig\n"} if called == "liblms1" else {}
    holds(sorted(texts) == sorted(["control", "md5sums", *loaded]), f"its own files are {sorted(texts)}")
    holds(all(texts[name] == text for name, text in loaded.items()), f"its own files say {texts}")
    files = {name: text for name, text in package.bytes.items() if package.found[name].isfile()}
    size = sum((len(text) + 1023) // 1024 for text in files.values())
    lines = texts["control"].splitlines()
    named = {"Package": called, "Version": VERSION, "Architecture": architecture}
    named |= {"Maintainer": maintainer, "Installed-Size": size, "Depends": NEEDS[called]}
    named |= {"Recommends": "openssl"} if called == "lms-tool" else {"Source": "lms-tool"}
    for name, what in named.items():
        holds(f"{name}: {what}" in lines, f"control has no line {name}: {what}")
    sums = sorted(f"{hashlib.md5(text).hexdigest()}  usr/{name}" for name, text in files.items())
    holds(sorted(texts["md5sums"].splitlines()) == sums, "not each file has its sum")


def are_right(folder, top, has_arm, seconds=SECONDS, maintainer=MAINTAINER):
    """All that was packed into a folder, also for aarch64 or not, is made of the sources in another
    one, with this time and maintainer."""
    has_sums(folder, has_arm)
    holds(pathlib.Path(folder, "lms_verify.html").read_bytes() == pathlib.Path(top, PAGE).read_bytes(), "another page was packed")
    kinds = kinds_of([DEBIAN, *DEBIANS], "x86-64", "lib/x86_64-linux-gnu", PROGRAMS)
    tarballs = [tarball(folder, NAME, Kind(PROGRAMS, "x86-64", "lib", True, DOCS))]
    if has_arm:
        kinds |= kinds_of([ARM_DEBIAN, *ARM_DEBIANS], "aarch64", "lib/aarch64-linux-gnu", ARM_PROGRAMS)
        tarballs.append(tarball(folder, ARM_NAME, Kind(ARM_PROGRAMS, "aarch64", "lib", True, DOCS)))
    own = {}
    for name, kind in kinds.items():
        package = debian(folder, name, kind)
        has_own(f"{folder}/{name}", package, maintainer, seconds)
        own[package] = [f"share/doc/{name.partition('_')[0]}/{it}" for it in ("changelog.gz", "copyright")]
        has_changelog(package, own[package][0], top, maintainer)
    for package in [*tarballs, *own]:
        has_modes(package, top, own.get(package, []))
        has_programs(package, top)
        has_texts(package, top)
        has_links(package)
        if package.kind.programs:
            has_manual(package, f"{top}/{COMMON}")
            has_completions(package, f"{top}/{COMMON}")
        package.holds(all(it.mtime == seconds for it in package.found.values()), "its files have another time")


def kinds_of(names, processor, folder, programs):
    """What the three Debian packages of these names have."""
    shared, development = Kind({}, processor, folder, is_shared=True), Kind({}, processor, folder, docs="share/doc/liblms-dev")
    return dict(zip(names, (Kind(programs), shared, development)))
