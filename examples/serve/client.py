"""Signs files by a service that it starts, and writes the signature of FILE to FILE.sig, a new file:
  python3 client.py FILE .. -- lms_tool serve --state STATE --workers N
One thread writes job lines while another reads answers: who writes all first and then reads stands
still once both pipes are full. Ends as the service does, or with 1 where a file is not signed."""

import contextlib
import pathlib
import secrets
import sys
from concurrent.futures import ThreadPoolExecutor
from subprocess import PIPE, Popen


def job_of(name):
    """A file's name, a fresh randomizer, and the job line of both."""
    message = pathlib.Path(name).read_bytes()
    if len(message) > 65536:
        raise OSError(f"{name} has over 65536 bytes")
    randomizer = secrets.token_hex(32)
    return name, randomizer, f"{randomizer} {message.hex()}\n".encode()


def write_jobs(service, jobs):
    """Writes the job lines, and ends the input. A service that has ended says itself why."""
    with contextlib.suppress(BrokenPipeError), service.stdin as lines:
        lines.writelines(line for _, _, line in jobs)


def save(jobs, answer):
    """Writes the signature of an answer line, and says its index. Whether that was done. A job may
    have no answer: the next is that of the job whose randomizer stands in the signature."""
    index, digits = answer.decode().split()
    name = next(name for name, randomizer, _ in jobs if randomizer in digits)
    try:
        with open(f"{name}.sig", "xb") as file:
            file.write(bytes.fromhex(digits))
    except OSError as why:
        print(f"client.py: {why}", file=sys.stderr)
        return False
    print(f"{name}.sig has index {index}", flush=True)
    return True


def sign(names, command):
    """Signs these files. The status to end with. (The last line of a killed service may be cut.)"""
    jobs = [job_of(name) for name in names]
    with Popen(command, stdin=PIPE, stdout=PIPE) as service, ThreadPoolExecutor(1) as threads:
        threads.submit(write_jobs, service, jobs)
        rest = iter(jobs)
        count = sum(save(rest, line) for line in service.stdout if line.endswith(b"\n"))
    print(f"{count} of {len(names)} files are signed", file=sys.stderr)
    return service.returncode or int(count < len(names))


if __name__ == "__main__":
    at = sys.argv.index("--", 2) if "--" in sys.argv[2:-1] else sys.exit(__doc__)
    try:
        sys.exit(sign(sys.argv[1:at], sys.argv[at + 1 :]))
    except OSError as why:
        sys.exit(f"client.py: {why}")
