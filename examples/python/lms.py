"""HSS/LMS signatures (RFC 8554 with SHA-256), verified by liblms.so.1:

    lms.verify(public, message, signature)        three `bytes`
    lms.verify_file(public, path, signature)      the message is a file, mapped and not read

As a program: lms.py PUBLIC MESSAGE SIGNATURE prints `valid` or `invalid`, and ends with 0 or 1, or with 2
for other arguments and for a file that can't be opened, read or mapped.

Nobody may write to or shorten a file while it is verified. The library runs without the lock of the
interpreter, and takes at most 20 KiB of a thread's stack on x86-64."""

import ctypes
import mmap
import os
import sys

PUBLIC_KEY_LEN = 60
LONGEST_SIGNATURE_LEN = 74988

_verify = ctypes.CDLL("liblms.so.1").lms_verify
_verify.argtypes = [ctypes.c_void_p, ctypes.c_size_t] * 3
_verify.restype = ctypes.c_bool


def _may_be_valid(public, signature):
    """Whether a key and a signature have lengths that may be valid. Raises `TypeError` where one is
    not `bytes`, which nobody can change while the library reads them."""
    for name, value in (("public", public), ("signature", signature)):
        if not isinstance(value, bytes):
            raise TypeError(f"{name} must be bytes, not {type(value).__name__}")
    return len(public) == PUBLIC_KEY_LEN and len(signature) <= LONGEST_SIGNATURE_LEN


def verify(public, message, signature):
    """Whether a signature is valid for a message under an HSS public key of 60 bytes (RFC 8554, 6.3)."""
    if not isinstance(message, bytes):
        raise TypeError(f"message must be bytes, not {type(message).__name__}")
    if not _may_be_valid(public, signature):
        return False
    # (The address of no bytes is not null.)
    return _verify(public, len(public), message, len(message), signature, len(signature))


def verify_file(public, path, signature):
    """The same for the bytes of a file, which is mapped, not read, but for one without a size, as a pipe.
    Raises `OSError` where it can't be opened, read or mapped."""
    if not _may_be_valid(public, signature):
        return False
    with open(path, "rb") as file:
        if os.fstat(file.fileno()).st_size == 0:
            return verify(public, file.read(), signature)
        # (A private map: `ctypes` gives no address of one that may only be read.)
        with mmap.mmap(file.fileno(), 0, access=mmap.ACCESS_COPY) as mapped:
            message = (ctypes.c_char * len(mapped)).from_buffer(mapped)
            try:
                return _verify(public, len(public), message, len(message), signature, len(signature))
            finally:
                del message


def main():
    """Verifies the files that the arguments name. The status."""
    if len(sys.argv) != 4:
        print("usage: lms.py PUBLIC MESSAGE SIGNATURE", file=sys.stderr)
        return 2
    public, message, signature = sys.argv[1:]
    try:
        with open(public, "rb") as key, open(signature, "rb") as file:
            is_valid = verify_file(key.read(), message, file.read())
    except OSError as why:
        print(f"lms.py: {why}", file=sys.stderr)
        return 2
    print("valid" if is_valid else "invalid")
    return not is_valid


if __name__ == "__main__":
    sys.exit(main())
