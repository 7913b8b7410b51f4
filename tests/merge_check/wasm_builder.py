"""Builds small WebAssembly modules, in the binary format of the specification."""

import sys

from tests.harness import TOP

sys.path.append(str(TOP / "portable"))
import wasm_instructions  # noqa: E402  pylint: disable=import-error,wrong-import-position

VALTYPES = {"i32": 0x7F, "i64": 0x7E}
OPCODES = {name: bytes([opcode]) for opcode, name in wasm_instructions.NAMES.items()}
OPCODES.update((name, bytes([wasm_instructions.PREFIX, opcode])) for opcode, name in wasm_instructions.PREFIXED.items())
KNOWN = wasm_instructions.KNOWN
END = "end"
# The names of the globals.
GLOBALS = ["__stack_pointer", "in_call"]


def unsigned(value):
    """A number in LEB128."""
    found = b""
    while value > 0x7F:
        found += bytes([value & 0x7F | 0x80])
        value >>= 7
    return found + bytes([value])


def signed(value):
    """A signed number in LEB128."""
    found = b""
    while not -0x40 <= value < 0x40:
        found += bytes([value & 0x7F | 0x80])
        value >>= 7
    return found + bytes([value & 0x7F])


def as_signed(value, bits):
    """The signed number of the same bits."""
    return value - (1 << bits) if value >> (bits - 1) else value


def sized(contents):
    """Bytes with their number before them."""
    return unsigned(len(contents)) + contents


def vector(parts):
    """A list of encoded parts."""
    return unsigned(len(parts)) + b"".join(parts)


def valtypes(names):
    """A list of types."""
    return vector([bytes([VALTYPES[it]]) for it in names])


def code(*words):
    """Instructions: each a name, a name and its immediates, or bytes as they are."""
    return b"".join(it if isinstance(it, bytes) else instruction(*([it] if isinstance(it, str) else it)) for it in words)


def instruction(name, *immediates):
    """An instruction with its immediates, as KNOWN says what they are."""
    kind = KNOWN.get(name, "nothing")
    head = OPCODES[name]
    if kind in VALTYPES:
        return head + signed(as_signed(immediates[0], int(kind[1:])))
    if kind == "memarg":
        return head + b"\0" + unsigned(immediates[0])
    if kind == "labelidx vector":
        return head + vector([unsigned(it) for it in immediates[:-1]]) + unsigned(immediates[-1])
    fixed = {"blocktype": b"\x40", "two memidx": b"\0\0", "one memidx": b"\0"}
    return head + fixed.get(kind, b"") + b"".join(unsigned(it) for it in immediates)


class Function:
    """A function: its name, types, locals, and its instructions without the last `end`."""

    def __init__(self, name, parameters, results, body, own=()):
        self.name, self.parameters, self.results, self.body, self.own = name, parameters, results, body, own

    def functype(self):
        """Its type."""
        return b"\x60" + valtypes(self.parameters) + valtypes(self.results)

    def contents(self):
        """Its body."""
        own = vector([unsigned(1) + bytes([VALTYPES[it]]) for it in self.own])
        return sized(own + self.body + code(END))


def names(pairs):
    """A list of numbers with their names."""
    return vector([unsigned(at) + sized(name.encode()) for at, name in pairs])


def name_section(of_functions, of_globals):
    """The section with the names of functions and globals."""
    return sized(b"name") + b"\x01" + sized(names(of_functions)) + b"\x07" + sized(names(of_globals))


def sections(functions, exported, base, data, pages=17):
    """The sections of a module with these functions, which exports those of these names, and whose
    stack ends at this address, where its data begins: each one's number and its contents, in their
    order."""
    address = code(("i64.const", base), END)
    exports = [sized(it.name.encode()) + b"\0" + unsigned(at) for at, it in enumerate(functions) if it.name in exported]
    exports += [sized(b"memory") + b"\x02\0", sized(b"__stack_pointer") + b"\x03\0"]
    return [
        (1, vector([it.functype() for it in functions])),
        (3, vector([unsigned(at) for at in range(len(functions))])),
        (5, vector([b"\x04" + unsigned(pages)])),
        (6, vector([b"\x7e\x01" + address, b"\x7f\x01" + code(("i32.const", 0), END)])),
        (7, vector(exports)),
        (10, vector([it.contents() for it in functions])),
        (11, vector([b"\0" + address + sized(data)])),
        (0, name_section(enumerate(it.name for it in functions), enumerate(GLOBALS))),
    ]


def joined(parts):
    """The module of these sections."""
    return b"\0asm\1\0\0\0" + b"".join(bytes([number]) + sized(contents) for number, contents in parts)


def section(number, contents):
    """A function that puts this section in another one's place, or in its own."""

    def change(parts, _):
        others = [it for it in parts if it[0] != number]
        at = sum(0 < it[0] < number for it in others) if number else len(others)
        return [*others[:at], (number, contents), *others[at:]]

    return change


def replaced(number, old, new):
    """A function that has other bytes in place of these in a section."""

    def change(parts, _):
        found = [(at, it.replace(old, new) if at == number else it) for at, it in parts]
        assert found != parts
        return found

    return change


def more(number, contents):
    """A function that puts one more thing to the end of a section that is a list."""
    return lambda parts, _: [(at, bytes([it[0] + 1]) + it[1:] + contents if at == number else it) for at, it in parts]


def split(module):
    """The sections of a module."""
    found, at = [], 8
    while at < len(module):
        number, size, shift = module[at], 0, 0
        at += 1
        while True:
            size |= (module[at] & 0x7F) << shift
            shift, at = shift + 7, at + 1
            if module[at - 1] < 0x80:
                break
        found.append((number, module[at : at + size]))
        at += size
    return found


def all_exported(module, count):
    """The same module, which exports nothing but its functions, by their numbers, its memory, and
    its first two globals."""
    exports = [sized(str(at).encode()) + b"\0" + unsigned(at) for at in range(count)]
    exports += [sized(b"memory") + b"\x02\0", sized(b"stack_pointer") + b"\x03\0", sized(b"in_call") + b"\x03\x01"]
    return joined([(number, vector(exports) if number == 7 else contents) for number, contents in split(module)])
