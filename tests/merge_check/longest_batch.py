"""The most and the longest job lines that a batch takes: 1024 messages of 65,536 bytes, 134 MB of
lines."""

from tests.harness import holds, test
from tests.program import ends, fails, job_lines, keygen, put, run, verify

BATCH = ["batch", "--state", "key.state", "--workers", "4"]


def message(number):
    """The message of a line: the two bytes of its number over and over."""
    return number.to_bytes(2, "big") * 32768


@test
def the_longest_batch():
    """Three of the answers are verified, and a line more is refused."""
    ends(keygen("5/4,10/4"), 0, "capacity 32768\n")
    jobs = job_lines(*map(message, range(1024)))
    ran = run(BATCH, input=jobs, text=False)
    holds((ran.returncode, ran.stderr) == (0, b""), f"ended with {ran.returncode}: {ran.stderr}")
    answers = [line.split(b" ") for line in ran.stdout.splitlines()]
    holds([int(index) for index, _ in answers] == list(range(1024)), "other answers")
    for number in (0, 511, 1023):
        put(f"{number}.bin", message(number))
        put(f"{number}.sig", bytes.fromhex(answers[number][1].decode()))
        ends(verify(f"{number}.bin", f"{number}.sig"), 0, "valid\n")
    ends(verify("0.bin", "511.sig"), 1, "invalid\n")
    fails(BATCH, 2, "too many jobs", input=(jobs + b"\n").decode())
    ran = run(["info", "--state", "key.state"])
    holds("\ncounter 1024\n" in ran.stdout, f"another number of indices is used: {ran.stdout}")
