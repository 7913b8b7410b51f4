"""The script `lms_tool` where no program is built, by stand-ins: which arguments are answered by a
trial run of the toolchain, which files that is given, what of it is an answer and what builds the
program in its place."""

import os
import pathlib
import signal

from tests.harness import add_test, test
from tests.merge_check.stand_ins import IS_TRIAL, StandIns

ENDED = "it did not end as the program does"
UNREADABLE = "error: cannot read input\n"
VERIFY = ["verify", "--public", "public", "--message", "message", "--signature", "signature"]
HANDED = ["verify", "--public", "handed-public", "--message", "handed-message", "--signature", "handed-signature"]
# What the trial run notes: its arguments, with what is in the files that it is given.
NOTES = """\
for word; do
    case $word in
        handed-*=*) word="${word%%=*} is $(cat "${word#*=}")" ;;
    esac
    printf '%s\\n' "$word"
done"""


class Trial(StandIns):
    """The stand-ins with nothing built, and a folder with three files, in which the script is
    started."""

    def __init__(self):
        super().__init__(False)
        self.folder = f"{self.top}/files here"
        os.makedirs(f"{self.folder}/folder")
        for name, contents in (("public", "key"), ("message", "text"), ("signature", "signed")):
            self.write(f"files here/{name}", f"{contents}\n")

    def tries(self, status, printed, reported):
        """A trial run prints these two texts, and ends with this status."""
        self.write("printed", printed)
        self.write("reported", reported)
        top = self.top
        self.on("try", f'{NOTES} >"{top}/tried"\ncat "{top}/printed"\ncat "{top}/reported" >&2\nexit {status}\n')

    def tries_well(self, status, printed="", errors=""):
        """The same of a run in which the program ends with this status."""
        checked, run = f"checked: ended status={status}", f"run=ended status={status} runners=1 races=unchecked proved=no"
        self.tries(status, printed, f"{errors}{checked}\nraces: not looked for, since\n{run}\n")

    def starts(self, *arguments, **how):
        """Starts the script in the folder with the three files."""
        self.start(*arguments, cwd=self.folder, **how)

    def answered(self, status, output="", errors="", trial=IS_TRIAL):
        """It ended with this status, and printed these two texts and the line on the trial run, and
        nothing was built."""
        self.holds(self.output == output, f"another output than {output!r}")
        self.holds(self.errors == trial + errors, f"other errors than {errors!r}")
        is_unbuilt = not self.has("builds") and not os.path.exists(self.fast)
        self.holds(self.status == status and is_unbuilt, "not the trial run's answer")

    def asked_to_try(self, *words):
        """The trial run was asked for with these arguments, in lms_tool's folder."""
        tried = self.has("tried")
        self.holds(tried == "".join(f"{it}\n" for it in words), f"other arguments for the trial run: {tried!r}")

    def was_built(self, why, *arguments):
        """The program was built, and ran with these arguments. It was said that there is no
        verdict, for this reason."""
        self.reports(f"no verdict by a trial run: {why}; the program is built first")
        self.only_ran(*arguments)

    def only_ran(self, *arguments):
        """The program was built, and ran with these arguments. It is removed."""
        self.asked_to_build(self.build)
        self.ran("fast", *arguments)
        os.remove(self.fast)
        self.forget()

    def is_unwritable(self, closing):
        """The script can't print the verdict to the output that is redirected so."""
        self.starts(*VERIFY, by=["sh", "-c", f'exec "$0" "$@" {closing}'])
        self.answered(6, errors="error: cannot write output\n")


def a_verdict(status):
    """The verdict of a trial run is the script's."""
    with Trial() as it:
        it.tries_well(status, "the verdict\n")
        it.starts(*VERIFY)
        it.answered(status, "the verdict\n")
        data = ["--data", "handed-signature is signed", "--data", "handed-message is text", "--data", "handed-public is key"]
        it.asked_to_try("try", *data, "--", *HANDED)


def the_file(name):
    """A file of this name, after the option with = or with a space, is given to the trial run by
    another name."""
    with Trial() as it:
        file = f"{it.folder}/absolute" if name == "absolute" else name
        it.tries_well(0)
        it.write(f"files here/{file.rpartition('/')[2]}", f"in {file}\n")
        data = ["try", "--data", f"handed-message is in {file}", "--data", "handed-public is key", "--"]
        it.starts("verify", f"--message={file}", "--signature", "none", "--public", "public")
        it.answered(0)
        words = ["verify", "--message=handed-message", "--signature", "handed-signature", "--public", "handed-public"]
        it.asked_to_try(*data, *words)
        if not file.startswith("--"):
            it.starts("verify", "--public", "public", "--message", file, "--signature=none")
            it.answered(0)
            words = ["verify", "--public", "handed-public", "--message", "handed-message", "--signature=handed-signature"]
            it.asked_to_try(*data, *words)


def a_file_that_cannot_be_read(file):
    """The trial run is given no such file, so the program can't read it either."""
    with Trial() as it:
        os.symlink("nowhere", f"{it.folder}/dangling")
        it.write("files here/unreadable", "")
        os.chmod(f"{it.folder}/unreadable", 0)
        if file == "unreadable" and os.access(f"{it.folder}/unreadable", os.R_OK):
            file = "none"
        it.tries_well(6, errors=UNREADABLE)
        it.starts("verify", "--public", "public", "--message", file, "--signature", "signature")
        it.answered(6, errors=UNREADABLE)
        it.asked_to_try("try", "--data", "handed-signature is signed", "--data", "handed-public is key", "--", *HANDED)


for verdict in (0, 1):
    add_test(f"a verdict of {verdict}", a_verdict, verdict)
for given in ("-", "src", "stdin", "=", "--help", "a=b c", "a\nb", "*", "ä", "absolute", "../files here/relative"):
    add_test(f"the file {given!r}", the_file, given)
for missing in ("none", "folder", "..", "/", "dangling", "folder/none", "public/none", "unreadable"):
    add_test(f"a file that can't be read, {missing}", a_file_that_cannot_be_read, missing)


@test
def an_empty_name():
    with Trial() as it:
        it.tries_well(6, errors=UNREADABLE)
        it.starts("verify", "--public=", "--message", "", "--signature", "signature")
        it.answered(6, errors=UNREADABLE)
        words = ["verify", "--public=", "--message", "", "--signature", "handed-signature"]
        it.asked_to_try("try", "--data", "handed-signature is signed", "--", *words)


MISTAKES = [
    "",
    "stray",
    "--stray sign",
    "-- sign",
    "verify",
    "verify --public",
    "verify --public --message",
    "verify --public -x --message message",
    "verify --public public --public public",
    "verify --public=public --public public",
    "verify stray",
    "verify --pub public",
]
HELP = [
    "--help",
    "-h",
    "help",
    "help sign",
    "verify --help",
    "verify --public public -h",
    "keygen --help",
    "info --help",
    "public --help",
    "sign --help",
    "join-public --help",
    "batch -h",
    "serve --help",
    "witness --help",
    "resume -h",
]


def passes_on(it, lines, status, output, errors):
    """The trial run is given the arguments of each of these lines as they are, and what it printed
    names the program."""
    for line in lines:
        it.starts(*line.split())
        it.asked_to_try("try", "--", *line.split())
        it.answered(status, output, errors)


@test
def mistakes_in_arguments():
    said = "error: '{}' requires a subcommand\n\nUsage: {} <COMMAND>\n\nthe program --help\n"
    with Trial() as it:
        it.tries_well(2, errors=said.format("program", "program"))
        passes_on(it, MISTAKES, 2, "", said.format("lms_tool", "lms_tool"))


@test
def texts_of_help():
    with Trial() as it:
        it.tries_well(0, "Usage: program\nUsage: program <COMMAND>\n  program\n")
        passes_on(it, HELP, 0, "Usage: program\nUsage: lms_tool <COMMAND>\n  program\n", "")


@test
def commands_that_sign_or_read_a_state_and_others_beside_their_help():
    with Trial() as it:
        it.tries_well(0, "capacity 32\n")
        commands = ["keygen", "info", "inspect", "public", "sign", "endorse", "batch", "serve", "witness", "resume", "join", "join-public"]
        for line in (*commands, "sign --help --state", "batch --state --help", "serve --state key.state --workers 2"):
            it.starts(*line.split())
            it.only_ran(*line.split())


ENDED_0 = "checked: ended status=0\nrun=ended status=0 runners=1 proved=no\n"
# A status, and a report that is no answer with it.
WAYS = [
    (6, "checked: no-answer: the program did not end within the time limit\nrun=no-answer proved=no\n"),
    (4, "checked: fault kind=overflow\nrun=fault proved=no\n"),
    (5, "run=differs proved=no\n"),
    (2, "run=none proved=no\n"),
    (2, ""),
    (1, "error\nrun=none proved=no\n"),
    (0, ""),
    (0, f"{ENDED_0}one line more\n"),
    (1, ENDED_0),
    (124, ENDED_0),
    (126, ENDED_0),
    (127, ENDED_0),
    (137, ENDED_0),
    (3, "checked: ended status=3\nrun=ended status=3 runners=1 proved=no\n"),
    (5, "checked: ended status=5\nrun=ended status=5 runners=1 proved=no\n"),
]


def no_verdict(status, report):
    """Such a trial run is no answer, and the program is built."""
    with Trial() as it:
        it.tries(status, "valid\n", report)
        it.starts(*VERIFY)
        it.was_built(ENDED, *VERIFY)


for ending, reporting in WAYS:
    add_test(f"no verdict: {ending}, {(reporting.splitlines() or ['no report'])[-1]}", no_verdict, ending, reporting)


@test
def a_status_that_the_arguments_cannot_have():
    with Trial() as it:
        it.tries_well(0, "valid\n")
        for line in ("stray", "verify --public", f"{' '.join(VERIFY)} --"):
            it.starts(*line.split())
            it.was_built(ENDED, *line.split())


@test
def a_trial_run_that_is_killed():
    with Trial() as it:
        it.on("try", "kill -9 $$\n")
        it.starts(*VERIFY)
        it.was_built(ENDED, *VERIFY)


@test
def files_that_a_trial_run_cannot_have():
    with Trial() as it:
        it.tries_well(0, "valid\n")
        pathlib.Path(it.folder, "large").write_bytes(bytes((1 << 24) + 1))
        os.mkfifo(f"{it.folder}/pipe")
        large = ["verify", "--public=public", "--message", "large", "--signature", "signature"]
        it.starts(*large)
        it.was_built("a file is too large for it", *large)
        for file in ("pipe", "/dev/null"):
            words = ["verify", "--public=public", "--signature", file, "--message", "message"]
            it.starts(*words)
            it.was_built("a file is a pipe or a device", *words)


@test
def arguments_that_are_no_text():
    with Trial() as it:
        it.tries_well(0, "valid\n")
        words = ["verify", "--public=public", "--message", os.fsdecode(b"\xff"), "--signature", "signature"]
        it.starts(*words)
        it.was_built("an argument is no UTF-8 text", *words)


@test
def a_trial_run_has_no_input_and_leaves_it():
    with Trial() as it:
        it.tries_well(0, "valid\n")
        it.starts(*VERIFY, by=["sh", "-c", '"$0" "$@" && cat'])
        it.holds(it.output == "valid\ninput\n" and not it.has("nothing"), "not the input")


@test
def an_output_that_cannot_be_written():
    with Trial() as it:
        it.tries_well(0, "valid\n")
        it.is_unwritable(">&-")
        if os.access("/dev/full", os.W_OK):
            it.is_unwritable(">/dev/full")


@test
def standard_error_is_closed_in_a_trial_run():
    with Trial() as it:
        it.tries_well(1, "invalid\n")
        it.starts(*VERIFY, by=["sh", "-c", 'exec "$0" "$@" 2>&-'])
        it.answered(1, "invalid\n", trial="")


@test
def a_trial_run_that_is_interrupted():
    with Trial() as it:
        it.on("try", f"echo $$ >'{it.top}/number'; exec sleep 60\n")
        for number in (signal.SIGHUP, signal.SIGPIPE, signal.SIGTERM):
            it.interrupt(number, *VERIFY, cwd=it.folder)
            it.holds(not it.has("builds") and not os.path.exists(it.fast), "the program is built")
