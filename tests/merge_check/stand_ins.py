"""Stand-ins for the toolchain and for the programs that it builds, over which the script `lms_tool`
is tested."""

import os
import pathlib
import select
import shutil
import signal
import subprocess
import time

from tests.harness import TOP, Wrong

# Both programs are in out/ of this crate.
OUT = "crates/lms_tool/out"
CRATES = """\
lms_tool may_wait=1: lms_world lms_lines # and not bench_keys
bench_keys: lms_lines sha2
lms_world: lms_lines lms_blocks
lms_lines may_wait=2: lms_spec lms_blocks hex
lms_spec: sha2
lms_blocks:
"""
NAMES = ["lms_tool", "bench_keys", "lms_world", "lms_lines", "lms_spec", "lms_blocks"]
# How the libraries are asked for: first those that use no other, in any order.
LIBRARIES = ["lms_blocks lib", "lms_spec lib", "lms_lines lib", "lms_world lib"]
FAST, COMMON, ARM = "run --cpu=x86-64-v3 -- --help", "run -- --help", "run --target=aarch64-unknown-linux-gnu -- --help"
# What the toolchain says of the program for aarch64, which it can't link, and the C compiler that can.
PROVED = "logic=proved functions=1 target=aarch64-unknown-linux-gnu main=Wait"
LINKER = "aarch64-linux-gnu-gcc"
SECONDS = 40
# What may end the script.
SIGNALS = [signal.SIGHUP, signal.SIGINT, signal.SIGPIPE, signal.SIGTERM]
# Arguments of which one has a space and one is empty.
SOME = ["sign", "a b", ""]
# What the script says before a trial run.
IS_TRIAL = (
    "lms_tool: this is a trial run, which takes about a minute and proves nothing; ./lms_tool build proves and builds the program in "
    "18 to 45 minutes on four processors\n"
)


class StandIns:
    """The script `lms_tool` in the current folder, with crates that have nothing in them, and in
    tools/ short scripts that stand in for `rt`, which notes what it is asked, and for what tells
    whether the processor has AVX2. Others stand in for the programs that `rt` makes. Where nothing
    else is said, both are there, built after the sources were last changed. What the script makes
    for a time only its owner may see, and at the end nothing of it may be left. One stands in for the
    C compiler that links the program for aarch64, which is not there."""

    def __init__(self, is_built=True, has_avx2=True):
        self.top = os.getcwd()
        self.common, self.fast = f"{self.top}/{OUT}/lms_tool", f"{self.top}/{OUT}/avx2/lms_tool"
        self.arm = f"{self.top}/{OUT}/aarch64/lms_tool"
        self.best, self.build = ("fast", FAST) if has_avx2 else ("common", COMMON)
        self.pid, self.status, self.output, self.errors = None, None, "", ""
        for folder in ("tools", "files", "home", os.path.dirname(self.fast)):
            os.makedirs(folder)
        shutil.copy(TOP / "lms_tool", ".")
        self.write("crates.txt", CRATES)
        for crate in NAMES:
            for folder in ("src", "specs", "proofs"):
                os.makedirs(f"crates/{crate}/{folder}")
                self.write(f"crates/{crate}/{folder}/file", "")
                self.age(f"crates/{crate}/{folder}/file", 2)
        os.makedirs("runtime/aarch64")
        for name in ("heap.c", "rattle.h"):
            self.write(f"runtime/aarch64/{name}", "")
        for name in ("crates.txt", "runtime/aarch64/heap.c", "runtime/aarch64/rattle.h"):
            self.age(name, 2)
        self.write("cpuinfo", f"flags : sse2 avx {'avx2 ' * has_avx2}bmi2\n")
        self.make_tools()
        self.stand_in("common", "common")
        self.stand_in("fast", "fast")
        self.stand_in("arm", "arm")
        if is_built:
            self.stand_in(self.common, "old_common")
            self.stand_in(self.fast, "old_fast")
        self.on("lib", "")
        fast = f'*--cpu=x86-64-v3*) cp "{self.top}/fast" "{self.common}" ;;'
        arm = f'*--target=*) rm -f "{self.common}.stamp"; echo object >"{self.common}.o"; echo "{PROVED}"; exit 1 ;;'
        self.on("run", f'case $* in {fast} {arm} *) cp "{self.top}/common" "{self.common}" ;; esac\n')
        self.links()
        self.forget()

    def __enter__(self):
        return self

    def __exit__(self, kind, *_):
        if kind is None:
            self.holds(not os.listdir(f"{self.top}/files") + os.listdir(f"{self.top}/home"), "files are left behind")
            self.holds(set(self.has("modes").split()) <= {"700"}, f"others may see what it makes: {self.has('modes')!r}")

    def make_tools(self):
        """What stands in for `grep` and for `rt`."""
        top = self.top
        grep = f'[ "$3" != /proc/cpuinfo ] || set -- "$1" "$2" "{top}/cpuinfo"\nexec {shutil.which("grep")} "$@"\n'
        self.script("tools/grep", grep)
        notes = f'[ "$1" = try ] || echo "${{PWD##*/}} $*" >>"{top}/builds"\nstat -c %a "{top}/files/"* >>"{top}/modes" 2>/dev/null\n'
        notes += f'cat >"{top}/nothing"\n'
        self.script("tools/rt", f'{notes}[ "$1" = try ] || echo "a line of rt $1"\n. "{top}/on_$1"\n')

    def write(self, name, text):
        """Writes a file."""
        pathlib.Path(self.top, name).write_bytes(os.fsencode(text))

    def has(self, name):
        """What a file has, or nothing where there is none."""
        file = pathlib.Path(self.top, name)
        return os.fsdecode(file.read_bytes()) if file.exists() else ""

    def age(self, name, hours):
        """A file was last changed so many hours ago."""
        then = time.time() - 3600 * hours
        os.utime(pathlib.Path(self.top, name), (then, then))

    def script(self, name, text):
        """Writes a script."""
        self.write(name, f"#!/bin/sh\n{text}")
        os.chmod(pathlib.Path(self.top, name), 0o755)

    def stand_in(self, file, name):
        """Makes a program that prints this name, its arguments, a line each, and its input, notes
        its process, and ends with 3. Where it is asked for help it reads its input, too, and ends
        with 0."""
        asked = f'[ "$*" = --help ] && cat >"{self.top}/nothing" && exit\n'
        self.script(file, f"{asked}echo $$ >\"{self.top}/process\"\nprintf '%s\\n' {name} \"$@\"\ncat\nexit 3\n")

    def links(self, text="", name=LINKER):
        """The C compiler of this name notes its words and the object file that it is to link, does this,
        and makes the program for aarch64."""
        notes = f'printf "%s " "$@" >"{self.top}/words"\nfor word; do case $word in *.o) cat "$word" >"{self.top}/linked" ;; esac; done\n'
        makes = f'until [ "$1" = -o ]; do shift; done\ncp "{self.top}/arm" "$2"\n'
        self.script(f"tools/{name}", f"{notes}{makes}{text}")

    def on(self, verb, text):
        """What `rt` does where its first argument is this one."""
        self.write(f"on_{verb}", text)

    def forget(self):
        """Forgets what the toolchain was asked."""
        self.write("builds", "")

    def begin(self, arguments, by, cwd, program="lms_tool", **how):
        """Starts the script, or another program, with these arguments, by these words before it, and with
        these streams. It is left to the script to take rights away."""
        folders = {"TMPDIR": f"{self.top}/files", "HOME": f"{self.top}/home", "PATH": f"{self.top}/tools:{os.environ['PATH']}"}
        words = [*by, f"{self.top}/{program}", *arguments]
        named = {name: text for name, text in os.environ.items() if name != "CC_AARCH64"}
        running = subprocess.Popen(words, cwd=cwd, env={**named, **folders}, umask=0, **how)
        self.pid = running.pid
        return running

    def start(self, *arguments, by=(), cwd=None, stdin=None, program="lms_tool"):
        """Runs the script, or another program, with these arguments, an input, which is a file where no
        other one is given, and one end of a pipe, which must be closed everywhere when it has ended."""
        reader, writer = os.pipe()
        self.write("input", "input\n")
        files = [open(f"{self.top}/{name}", mode) for name, mode in (("input", "rb"), ("output", "wb"), ("errors", "wb"))]
        with files[0] as given, files[1] as output, files[2] as errors:
            streams = {"stdin": given if stdin is None else stdin, "stdout": output, "stderr": errors}
            running = self.begin(arguments, by, cwd, program, **streams, pass_fds=[writer])
            os.close(writer)
            with running, os.fdopen(reader, "rb", 0) as stream:
                try:
                    self.status = running.wait(SECONDS)
                    is_closed = bool(select.select([stream], [], [], SECONDS)[0])
                finally:
                    running.kill()
        self.output, self.errors = self.has("output"), self.has("errors")
        self.holds(is_closed, "a stream is held open")

    def interrupt(self, number, *arguments, cwd=None):
        """Starts the script with these arguments, sends it this signal once `rt` has written its
        number, and sees both end."""
        pathlib.Path(self.top, "number").unlink(missing_ok=True)
        with open(f"{self.top}/output", "wb") as output, open(f"{self.top}/errors", "wb") as errors:
            running = self.begin(arguments, (), cwd, stdin=subprocess.DEVNULL, stdout=output, stderr=errors)
            with running:
                try:
                    for _ in range(10 * SECONDS):
                        if self.has("number"):
                            break
                        time.sleep(0.1)
                    running.send_signal(number)
                    self.status = running.wait(SECONDS)
                finally:
                    running.kill()
        self.output, self.errors = self.has("output"), self.has("errors")
        name = signal.Signals(number).name
        self.holds(self.status == 130, f"another status after {name}")
        try:
            os.kill(int(self.has("number")), 0)
        except ProcessLookupError:
            return
        self.holds(False, f"the toolchain goes on after {name}")

    def holds(self, is_so, what):
        """Fails the check where this is not so, with all that was printed and asked."""
        if not is_so:
            said = "\n".join([self.has("builds"), self.output, self.errors])
            raise Wrong(f"{what}; ended with {self.status}\n{said}".encode(errors="backslashreplace").decode())

    def ran(self, name, *arguments):
        """The program of this name ran in place of the script, with these arguments and the
        input."""
        wanted = "".join(f"{it}\n" for it in (name, *arguments, "input"))
        self.holds((self.status, self.output) == (3, wanted), f"not as {name} does")
        self.holds(self.has("process") == f"{self.pid}\n", "the script did not become the program")

    def is_quiet(self):
        """Nothing was asked of the toolchain, and nothing said."""
        self.holds(not self.has("builds") and not self.errors, "not quiet")

    def asked_to_build(self, *words):
        """The toolchain was asked for the libraries, and then for programs by these words."""
        builds = self.has("builds").splitlines()
        self.holds(sorted(builds[:2]) + builds[2:] == [*LIBRARIES, *(f"lms_tool {it}" for it in words)], "other builds")

    def reports(self, line):
        """This line was printed to standard error."""
        self.holds(f"lms_tool: {line}" in self.errors.split("\n"), f"does not report: {line}")


def runs(it, name):
    """The script runs the program of this name."""
    it.start(*SOME)
    it.ran(name, *SOME)


def runs_again(it, name):
    """The next start builds nothing."""
    it.forget()
    runs(it, name)
    it.is_quiet()


def builds(it, *arguments):
    """The argument `build` builds, and runs nothing."""
    it.start("build", *arguments)
    it.holds(it.status == 0 and not it.output, "not just built")


def is_program(it, file, name):
    """The program of this name is in this file."""
    ran = subprocess.run([file, "a"], stdin=subprocess.DEVNULL, stdout=subprocess.PIPE, text=True, check=False)
    it.holds(ran.stdout == f"{name}\na\n", f"not the program {name}")


def is_given_up(it, said):
    """The program can't be built, and the last that the toolchain said is this."""
    it.holds(it.status == 70 and not it.output, "something ran")
    lines = it.errors.splitlines()
    it.holds(said in lines, "what the toolchain said is not reported")
    it.holds(lines[-1] == "lms_tool: the program could not be built", "not said")
