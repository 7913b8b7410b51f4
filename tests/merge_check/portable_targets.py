"""The processors that the portable file is tried on, by what compilers and emulators for them are here."""

import shutil
import subprocess

from tests.harness import TOP, Skipped, holds, said_by
from tests.merge_check.wasm_functions import FOLDER, INCLUDES, STRICT
from tests.program import put

FILE = TOP / "portable/lms_verify.c"
# How the file is compiled, by what has to be defined for it.
MODES = {"checked": [], "the caller checked": ["-DLMS_CHECK_CALLER"], "direct": ["-DLMS_DIRECT"]}
CHECKED = ["checked", "the caller checked"]
SECONDS = 120
FREESTANDING = ["-ffreestanding", "-nostdlib", "-fno-tree-loop-distribute-patterns", "-Wl,--gc-sections", "-Wl,--build-id=none"]


class Target:
    """A processor: the words of its compiler, those of an emulator or none, and which package has each
    of the two."""

    def __init__(self, name, compiler, packages, emulator=()):
        self.name, self.compiler, self.emulator = name, compiler, list(emulator)
        self.packages = dict(zip([compiler[0], *self.emulator[:1]], packages))

    def skip_where_missing(self):
        """Where something is not there, a check is skipped, and its package named."""
        for tool, package in self.packages.items():
            if not shutil.which(tool):
                raise Skipped(f"there is no {tool}: Debian's {package} has it")

    def compile(self, mode, *flags, file=FILE):
        """Compiles the file for a mode, as `lms_verify.o`, with a trap that ends the program."""
        trap = "-DLMS_TRAP=__builtin_trap"
        said_by(*self.compiler, "-std=c99", *STRICT, trap, *MODES[mode], *flags, *INCLUDES, "-c", file, "-o", "lms_verify.o")

    def link(self, source, *more):
        """Links a test program, `program`, with what is compiled."""
        words = ["-std=c11", "-O2", "-DLMS_PORTABLE", *more, *INCLUDES, FOLDER / source, FOLDER / "hosted.c", "lms_verify.o"]
        said_by(*self.compiler, *words, "-o", "program")

    def run(self):
        """What the program prints."""
        return said_by(*self.emulator, "./program", timeout=SECONDS)


class Board(Target):
    """A processor with nothing beside it: also where its code and its memory are, and how many."""

    def __init__(self, name, compiler, packages, emulator, code, ram, tick="1"):
        super().__init__(name, compiler, packages, emulator)
        places = zip(["CODE_AT", "CODE_LEN", "RAM_AT", "RAM_LEN"], [*code, *ram])
        self.places = [f"-Wl,--defsym={name}={value:#x}" for name, value in places]
        self.tick = tick

    def compile(self, mode, *flags, file=FILE):
        super().compile(mode, "-ffreestanding", "-ffunction-sections", *flags, file=file)

    def link(self, source, *more):
        words = ["-std=gnu11", "-O2", "-DLMS_PORTABLE", f"-DTICK={self.tick}", *FREESTANDING, *more, *INCLUDES]
        said_by(*self.compiler, *words, FOLDER / source, FOLDER / "board.c", "lms_verify.o", "-T", FOLDER / "board.ld", *self.places, "-lgcc", "-o", "program")

    def run(self, *more):
        words = ["-nographic", "-monitor", "none", "-serial", "none", "-semihosting-config", "enable=on,target=native", *more]
        how = {"stdin": subprocess.DEVNULL, "stdout": subprocess.PIPE, "stderr": subprocess.STDOUT, "text": True, "errors": "replace"}
        ran = subprocess.run([*self.emulator, *words, "-kernel", "program"], check=False, timeout=SECONDS, **how)
        holds(ran.returncode == 0, f"it ended with {ran.returncode}\n{ran.stdout[-500:]}")
        return ran.stdout


def keeps_bounds(target, mode, text, *flags):
    """What the C file of this text has for memory reaches all that it may, and nothing else."""
    target.skip_where_missing()
    put("machine.c", text.encode())
    words = ["-std=c11", "-O1", *MODES[mode], *flags, *INCLUDES, FOLDER / "memory.c", FOLDER / "hosted.c", "-o", "program"]
    said_by(*target.compiler, *words)
    target.run()


HERE = Target("x86-64", ["cc"], ["gcc"])
# (An emulator has memory at address 0 of the program where that is elsewhere for the computer.)
BASE = ["-B", "0x40000000"]
AT_ZERO = [
    Target("x86-64", ["cc", "-static"], ["gcc", "qemu-user"], ["qemu-x86_64", *BASE]),
    Target("32-bit ARM", ["arm-linux-gnueabihf-gcc", "-static"], ["gcc-arm-linux-gnueabihf", "qemu-user"], ["qemu-arm", *BASE]),
]
HOSTED = [
    Target("32-bit ARM", ["arm-linux-gnueabihf-gcc", "-static"], ["gcc-arm-linux-gnueabihf", "qemu-user"], ["qemu-arm"]),
    Target("powerpc, big-endian", ["powerpc-linux-gnu-gcc", "-static"], ["gcc-powerpc-linux-gnu", "qemu-user"], ["qemu-ppc"]),
    Target("s390x, big-endian", ["s390x-linux-gnu-gcc", "-static"], ["gcc-s390x-linux-gnu", "qemu-user"], ["qemu-s390x"]),
]
MIB = 1 << 20
BOARDS = [
    Board(
        "Cortex-M3", ["arm-none-eabi-gcc", "-mcpu=cortex-m3", "-mthumb"], ["gcc-arm-none-eabi", "qemu-system-arm"],
        ["qemu-system-arm", "-M", "mps2-an385"], (0, 4 * MIB), (0x20000000, 4 * MIB), "40",
    ),
    Board(
        "Cortex-M0 with 16 KiB of memory", ["arm-none-eabi-gcc", "-mcpu=cortex-m0", "-mthumb"], ["gcc-arm-none-eabi", "qemu-system-arm"],
        ["qemu-system-arm", "-M", "microbit"], (0, MIB // 4), (0x20000000, 16384), "125/2",
    ),
    Board(
        "RISC-V 32", ["riscv64-unknown-elf-gcc", "-march=rv32imac", "-mabi=ilp32"], ["gcc-riscv64-unknown-elf", "qemu-system-misc"],
        ["qemu-system-riscv32", "-M", "virt", "-bios", "none"], (0x80000000, 4 * MIB), (0x80400000, 4 * MIB),
    ),
    Board(
        "ARM code", ["arm-none-eabi-gcc", "-march=armv7-a", "-marm", "-mfloat-abi=soft", "-mno-unaligned-access"],
        ["gcc-arm-none-eabi", "qemu-system-arm"], ["qemu-system-arm", "-M", "virt", "-nic", "none"], (0x40200000, 4 * MIB), (0x40600000, 4 * MIB),
    ),
]
