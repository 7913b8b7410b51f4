"""U-Boot with the verifier, as examples/u-boot adds it, built for its sandbox and for 32-bit ARM."""

import os
import pathlib
import shutil
import subprocess

from tests.harness import TOP, Skipped, Wrong, holds, said_by
from tests.program import put, read

EXAMPLE = TOP / "examples/u-boot"
ARM = "arm-linux-gnueabihf-"
# What has to be there, and which of Debian's packages has it.
PACKAGES = {
    "cc": "gcc", "python3-config": "python3-dev", "make": "make", "bc": "bc", "bison": "bison", "flex": "flex", "swig": "swig", "dtc": "device-tree-compiler", "openssl": "openssl",
    f"{ARM}gcc": "gcc-arm-linux-gnueabihf", "qemu-system-arm": "qemu-system-arm",
}
HEADERS = {"openssl/ssl.h": "libssl-dev", "gnutls/gnutls.h": "libgnutls28-dev", "uuid/uuid.h": "uuid-dev", "Python.h": "python3-dev"}
PAINTED = 0x7000


def what_is_missing():
    """What is not there, and which package has it, or nothing."""
    for tool, package in PACKAGES.items():
        if not shutil.which(tool):
            return f"there is no {tool}: Debian's {package} has it"
    for header, package in HEADERS.items():
        words = ["cc", "-fsyntax-only", "-x", "c", *said_by("python3-config", "--includes").split(), "-"]
        if subprocess.run(words, input=f"#include <{header}>\n", text=True, capture_output=True, check=False).returncode:
            return f"there is no {header}: Debian's {package} has it"
    return ""


def skip_where_missing(arguments):
    """A test is skipped where its arguments name no source, or where a package is not there, and fails where
    they name something else."""
    if not arguments:
        raise Skipped("no source of U-Boot is named: tests/run u_boot -- SOURCE")
    holds(os.path.exists(f"{arguments[0]}/boot/image-fit-sig.c"), f"{arguments[0]} is no source of U-Boot")
    if why := what_is_missing():
        raise Skipped(why)


class Build:
    """U-Boot in a folder of this name, by a default configuration and options of scripts/config. It may begin
    as another build, of which little is then built anew."""

    def __init__(self, name, defconfig, *options, like=None):
        self.name, self.defconfig, self.options, self.like = name, defconfig, options, like

    def make(self, *words):
        """Has `make` do this. What it says."""
        cross = [] if self.defconfig.startswith("sandbox") else [f"CROSS_COMPILE={ARM}"]
        jobs = f"-j{len(os.sched_getaffinity(0))}"
        return said_by("make", "-s", "-C", "u-boot", f"O={os.path.abspath(self.name)}", jobs, "NO_SDL=1", *cross, *words, stderr=subprocess.STDOUT)

    def build(self):
        """Builds it, or what has changed of it. No warning is of the files that were added."""
        if not os.path.exists(f"{self.name}/.config"):
            if self.like:
                shutil.copytree(self.like.name, self.name, symlinks=True)
            else:
                self.make(self.defconfig)
            words = ["-e", "CMD_TIME", "--set-val", "BOOTDELAY", "-1", *self.options]
            said_by("u-boot/scripts/config", "--file", f"{self.name}/.config", *words)
            self.make("olddefconfig")
        warnings = [line for line in self.make("u-boot.bin", "tools").splitlines() if "lms" in line and "warning" in line]
        holds(not warnings, f"{warnings}")

    def bytes(self):
        """The bytes of code, constants and data."""
        return int(said_by(f"{ARM}size", f"{self.name}/u-boot").splitlines()[-1].split()[3])


class Sandbox(Build):
    """U-Boot as a program of this computer."""

    runs = "sandbox: continuing, as we cannot run Linux"

    def boot(self, name, tree, commands="bootm 1000000"):
        """What it says where it boots what this file has."""
        words = [f"{self.name}/u-boot", "-d", tree, "-c", f"host load hostfs - 1000000 {name}; {commands}"]
        how = {"stdin": subprocess.DEVNULL, "stdout": subprocess.PIPE, "stderr": subprocess.STDOUT, "text": True, "errors": "replace"}
        return subprocess.run(words, check=False, timeout=60, **how).stdout


class Arm(Build):
    """U-Boot for the emulator's 32-bit ARM. The control device tree lies behind it, not in the emulator."""

    runs = "PAYLOAD RUNS"
    machine = ["qemu-system-arm", "-M", "virt", "-m", "256", "-nographic", "-nic", "none", "-no-reboot"]

    def __init__(self, name, *options, like=None):
        super().__init__(name, "qemu_arm_defconfig", "-d", "OF_BOARD", "-d", "OF_OMIT_DTB", *options, like=like)

    def boot(self, name, tree, commands="bootm 42000000"):
        """The same, by one instruction in a nanosecond."""
        put("arm.bin", read(f"{self.name}/u-boot-nodtb.bin") + read(tree))
        words = ["-icount", "shift=0,sleep=off", "-bios", "arm.bin", "-device", f"loader,file={name},addr=0x42000000,force-raw=on"]
        how = {"input": f"\n{commands}\nreset\n", "stdout": subprocess.PIPE, "stderr": subprocess.STDOUT, "text": True, "errors": "replace"}
        return subprocess.run([*self.machine, *words], check=False, timeout=120, **how).stdout.replace("\r", "")

    def number(self, name, tree, commands, before, base=10):
        """A number that it says after this."""
        said = self.boot(name, tree, commands)
        holds(before in said, f"no {before!r} in {said}")
        return int(said.split(before)[1].split()[0].replace(".", ""), base)

    def cost(self, name, tree):
        """Millions of instructions of a `bootm start`, and bytes of stack from the prompt's on: the stack is
        painted, and compared with paint."""
        millions = self.number(name, tree, "time bootm start 42000000", "time:")
        low = self.number(name, tree, "bdinfo", "sp start    =", 16) - PAINTED - 0x1000
        paint = f"mw.b {low:x} aa {PAINTED:x}; mw.b 46000000 aa {PAINTED:x}"
        same = self.number(name, tree, f"{paint}; bootm start 42000000; cmp.b {low:x} 46000000 {PAINTED:x}", "Total of")
        return millions, PAINTED + 0x1000 - same


def put_source(source):
    """Puts the source here, with the verifier in it: as it is now, where that was done before."""
    if not os.path.exists("u-boot/lib/lms"):
        shutil.rmtree("u-boot", ignore_errors=True)
        shutil.copytree(source, "u-boot", symlinks=True)
        said_by(EXAMPLE / "add_to", "u-boot")
    for file in [*(EXAMPLE / "lib-lms").iterdir(), TOP / "portable/lms_verify.c", TOP / "include/lms.h"]:
        if read(file) != read(f"u-boot/lib/lms/{file.name}"):
            shutil.copy(file, "u-boot/lib/lms")


def is_added_once():
    """What has the verifier already is left as it is."""
    try:
        said_by(EXAMPLE / "add_to", "u-boot")
    except Wrong as why:
        holds("there is lib/lms already" in str(why), f"it says: {why}")
    else:
        raise Wrong("it is added twice")


def is_added_whole(source):
    """Where a line is missing, nothing is edited."""
    last = "tools/image-sig-host.c"
    files = ["lib/Kconfig", "lib/Makefile", "tools/Makefile", last]
    for folder in ("lib", "tools"):
        os.makedirs(f"other/{folder}", exist_ok=True)
    contents = {it: b"" if it == last else read(f"{source}/{it}") for it in files}
    for file in files:
        put(f"other/{file}", contents[file])
    try:
        said_by(EXAMPLE / "add_to", "other")
    except Wrong as why:
        holds(f"{last} has not one line" in str(why), f"it says: {why}")
    else:
        raise Wrong("it is added to another source")
    holds({it: read(f"other/{it}") for it in files} == contents and not os.path.exists("other/lib/lms"), "files are edited")
    shutil.rmtree("other")


def go_to(arguments):
    """Goes to the folder for builds, where one is named."""
    if len(arguments) > 1:
        pathlib.Path(arguments[1]).mkdir(parents=True, exist_ok=True)
        os.chdir(arguments[1])
