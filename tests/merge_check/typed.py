"""What `keygen --seed -` and `batch` say that they wait for, where somebody may type it: on a terminal for
input and errors, once, after all that is looked at before the input, and nowhere else."""

import contextlib
import os
import subprocess
import termios
import tty

from tests.harness import holds, test
from tests.program import BATCH, PROGRAM, SERVE, fails, job_lines, keygen, put, run, said_on
from tests.reference import SEED, image, signature_of

ONE = ((5, 1),)
FROM_INPUT = keygen("5/1", "-")
HINTS = {
    "keygen": "keygen waits for the seed: 64 hexadecimal digits, Enter and Ctrl-D\n",
    "batch": "batch waits for job lines; Ctrl-D at the beginning of a line ends them\n",
}
CTRL_D = b"\x04"


def typed(arguments, text, streams=("stdin", "stderr")):
    """Runs the program with these of its streams on one terminal, where this is typed, which is not shown.
    What it ended with, what it printed there, and what to the others of its streams."""
    terminal, side = os.openpty()
    settings = termios.tcgetattr(side)
    settings[tty.OFLAG] &= ~termios.OPOST
    settings[tty.LFLAG] &= ~termios.ECHO
    termios.tcsetattr(side, termios.TCSANOW, settings)
    how = {name: side if name in streams else subprocess.PIPE for name in ("stdin", "stdout", "stderr")}
    with contextlib.ExitStack() as stack:
        shown = stack.enter_context(os.fdopen(terminal, "r+b", 0))
        running = stack.enter_context(subprocess.Popen([PROGRAM, *arguments], **how))
        stack.callback(running.kill)
        os.close(side)
        if "stdin" in streams:
            shown.write(text)
        else:
            running.stdin.write(text.rstrip(CTRL_D))
            running.stdin.close()
        said = said_on(shown.fileno()).decode()
        rest = [it.read().decode() for it in (running.stdout, running.stderr) if it]
        return running.wait(), said, *rest


def is_asked(arguments, text, status, output, hint):
    """The program ends so, prints this output, and this hint or none on its terminal."""
    found = typed(arguments, text)
    holds(found == (status, hint, output), f"{arguments[0]}: {found}, not {(status, hint, output)}")


@test
def a_seed_is_asked_for():
    for text in (SEED.hex().encode() + b"\n" + CTRL_D, SEED.hex().encode() + CTRL_D * 2):
        is_asked(FROM_INPUT, text, 0, "capacity 32\n", HINTS["keygen"])
        os.remove("key.state")
    is_asked(FROM_INPUT, b"\n" + CTRL_D, 2, "", HINTS["keygen"] + "error: bad seed\nnote: a seed has 64 hexadecimal digits, and nothing else\n")


@test
def job_lines_are_asked_for():
    for lines, count in ((b"", 0), (job_lines(b"abc"), 1), (job_lines(b"abc", b"abc"), 2)):
        put("key.state", image(ONE, 3))
        answers = "".join(f"{3 + at} {signature_of(ONE, 3 + at, b'abc').hex()}\n" for at in range(count))
        is_asked(BATCH, lines + CTRL_D, 0, answers, HINTS["batch"])


@test
def nothing_is_asked_for_before_another_fault():
    """Nor where the input is not read, nor by `serve`, which programs talk to."""
    is_asked(keygen("5/3", "-"), CTRL_D, 2, "", "error: bad levels\nnote: heights are 5, 10, 15, 20, 25, widths 1, 2, 4, 8, as in 10/8,10/8\n")
    is_asked(keygen("5/1"), CTRL_D, 0, "capacity 32\n", "")
    is_asked(SERVE, CTRL_D, 0, "", "")
    os.remove("key.state")
    is_asked(BATCH, CTRL_D, 3, "", "error: cannot read state\nnote: key.state: No such file or directory\n")


@test
def nobody_is_asked_elsewhere():
    """Where one of input and errors is no terminal, whatever the others are."""
    for streams in (["stdin"], ["stderr"], ["stdin", "stdout"], ["stdout", "stderr"]):
        found = typed(FROM_INPUT, SEED.hex().encode() + b"\n" + CTRL_D, streams)
        holds(found[0] == 0 and "waits" not in "".join(found[1:]), f"{streams}: {found}")
        os.remove("key.state")
    holds(run(FROM_INPUT, input=SEED.hex()).stderr == "", "something was said")
    os.remove("key.state")
    fails(FROM_INPUT, 2, "bad seed")
