#!/usr/bin/env python3
"""What the loader takes, each to the output:

    image.py keys PUBLIC_KEY ..                     its keys, as C
    image.py message VERSION ADDRESS APPLICATION    what is to be signed; the application is linked to the address
    image.py image MESSAGE SIGNATURE                the image"""

import pathlib
import struct
import sys

MAGIC, HEADER_LEN = b"LMS1", 256
PUBLIC_KEY_LEN = 60


def read(name):
    return pathlib.Path(name).read_bytes()


def public_key(name):
    contents = read(name)
    if len(contents) != PUBLIC_KEY_LEN:
        sys.exit(f"{name} is no HSS public key: it has {len(contents)} bytes")
    return contents


def keys(*names):
    rows = "".join(f"    {{{', '.join(map(str, public_key(it)))}}},\n" for it in names)
    text = f'#include "lms.h"\n\nstatic const uint8_t keys[][LMS_PUBLIC_KEY_LEN] = {{\n{rows}}};\n'
    return text.encode()


def message(version, address, application):
    contents = read(application)
    return struct.pack(f"<4sIII{HEADER_LEN - 16}x", MAGIC, int(version), len(contents), int(address, 0)) + contents


def image(signed, signature):
    return read(signed) + struct.pack("<I", len(read(signature))) + read(signature)


CALLS = {"keys": keys, "message": message, "image": image}


def main():
    if len(sys.argv) < 3 or sys.argv[1] not in CALLS:
        sys.exit(__doc__)
    sys.stdout.buffer.write(CALLS[sys.argv[1]](*sys.argv[2:]))


main()
