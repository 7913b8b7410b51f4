"""What a shell makes of the completions in a package, as they are typed on a terminal."""

import os
import pty
import select
import shutil
import subprocess
import time

from tests.harness import Skipped, holds

SECONDS = 20
# How each shell is started, what it reads first, of a file with completions, and what the program is given then.
SHELLS = {
    "bash": (["bash", "--norc", "--noprofile", "-i"], "bind 'set bell-style none'; . {file}", "<resume><--state><one.state>"),
    "zsh": (["zsh", "-f", "-i"], "unsetopt beep; autoload -Uz compinit; fpath=({folder} $fpath); compinit -u -D", "<resume><--state=one.state>"),
}
# The program says what it is given, once that is complete.
SAYS = "lms_tool() {{ printf '<%s>' \"$@\"; echo; }}; lms-tool() {{ lms_tool \"$@\"; }}; echo re''ady"


def read_until(terminal, wanted):
    """What is printed on a terminal until this is."""
    text, end = "", time.monotonic() + SECONDS
    while wanted not in text and time.monotonic() < end:
        if select.select([terminal], [], [], 0.2)[0]:
            text += os.read(terminal, 4096).decode(errors="replace")
    holds(wanted in text, f"there is no {wanted} in {text!r}")


def completes(shell, folder, file):
    """Typed with the key Tab, the beginnings of a command, an option and a file become whole, by either name of the
    program, and so does that of an option of the program itself."""
    if not shutil.which(shell):
        raise Skipped(f"there is no {shell}")
    open("one.state", "wb").close()
    words, first, wanted = SHELLS[shell]
    here, there = pty.openpty()
    environment = {"PATH": os.environ["PATH"], "HOME": os.getcwd(), "TERM": "dumb", "PS1": "", "LC_ALL": "C"}
    with subprocess.Popen(words, stdin=there, stdout=there, stderr=there, env=environment, start_new_session=True) as running:
        os.close(there)
        try:
            os.write(here, f"{first.format(folder=folder, file=file)}; {SAYS.format()}\n".encode())
            read_until(here, "\nready")
            for name in ("lms_tool", "lms-tool"):
                for line, given in (("resu\t--sta\ton\t", wanted), ("--ver\t", "<--version>")):
                    os.write(here, f"{name} {line}\n".encode())
                    read_until(here, given)
        finally:
            running.kill()
            os.close(here)
