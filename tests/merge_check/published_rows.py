"""Keys, messages and signatures that others published, as tests/vectors/ has them, each with its verdict."""

from tests.harness import TOP, Wrong, holds
from tests.program import put

FOLDER = TOP / "tests/vectors"
# How many rows each file has, how many of them valid, and how many with a private key.
COUNTS = {"rfc8554_appendix_f": (9, 6, 2), "acvp_lms_sigver": (40, 10, 0)}
PARTS = ["public", "message", "signature"]
SECRETS = ["seed", "identifier"]


def rows_of(source):
    """The rows of a file by their names: each one's verdict, and its parts by theirs."""
    rows, parts, name_of_part = {}, {}, None
    for line in (FOLDER / f"{source}.txt").read_text(encoding="ascii").splitlines():
        word, _, rest = line.partition(" ")
        if word == "row":
            name, verdict = rest.partition(":")[0].split()
            holds(name not in rows, f"{source} has two rows {name}")
            parts = {}
            rows[name] = verdict, parts
        elif word in PARTS + SECRETS:
            name_of_part, earlier = word, rest.partition("of ")[2]
            parts[word] = rows[earlier][1][word] if earlier else b""
        elif line and word != "#":
            parts[name_of_part] += bytes.fromhex(line)
    return rows


def all_rows():
    """The rows of all files, by the names of file and row."""
    return {f"{source}, {name}": row for source in COUNTS for name, row in rows_of(source).items()}


def judges(judge):
    """Each row has its verdict by this judge, which takes a verdict and the names of three files."""
    count = 0
    for name, (verdict, parts) in all_rows().items():
        files = [f"{name}, {part}" for part in PARTS]
        for file, part in zip(files, PARTS):
            put(file, parts[part])
        try:
            judge(verdict, *files)
        except Wrong as why:
            raise Wrong(f"{name}: {why}") from why
        count += 1
    wanted = sum(rows for rows, _, _ in COUNTS.values())
    holds(count == wanted, f"{count} rows were judged, not {wanted}")
