"""The keys and signatures that another implementation made, which the tests of crates have, by the
program: it makes each public key and each signature byte for byte, and finds it valid."""

import re

from tests.harness import TOP, add_test, holds
from tests.program import VERIFY, ends, makes_again, put

FOLDER = TOP / "crates/lms_slow/src/vectors"
VECTOR = re.compile(r"(?ms)^pub const (\w+): Vector = Vector \{$(.*?)^\};$")
LEVEL = re.compile(r"\(LmsType::H(\d+), OtsType::W(\d+)\)")
TEXT = re.compile(r'(?s)^    (\w+): "(.*?)",$', re.M)
NUMBER = re.compile(r"(?m)^    index: (\d+),$")
COUNT = re.compile(r"\[Vector; (\d+)\]")


def vectors():
    """Each of them by its name: its levels, its index, and its texts by their names."""
    found = {}
    for file in sorted(FOLDER.glob("*.rt")):
        for name, body in VECTOR.findall(file.read_text(encoding="utf-8")):
            levels = tuple((int(height), int(width)) for height, width in LEVEL.findall(body))
            texts = {field: text.replace("\\\n", "") for field, text in TEXT.findall(body)}
            found[name] = levels, int(NUMBER.search(body)[1]), texts
    count = COUNT.search(FOLDER.with_suffix(".rt").read_text(encoding="utf-8"))[1]
    holds(len(found) == int(count), f"{len(found)} vectors, and not {count}")
    return found


def is_made_again(levels, index, texts):
    """The key's seed gives its public key, and its index the signature, which alone is valid."""
    *secrets, public, signature = (bytes.fromhex(texts[it]) for it in ("seed", "id", "randomizer", "public", "signature"))
    makes_again(levels, index, *secrets, texts["message"].replace("\\n", "\n").encode(), public, signature)
    for at in (0, len(signature) // 2, len(signature) - 1):
        put("text.sig", signature[:at] + bytes([signature[at] ^ 1]) + signature[at + 1 :])
        ends(VERIFY, 1, "invalid\n")


for vector, parts in vectors().items():
    add_test(f"vector {vector}", is_made_again, *parts)
