"""The binary format of WebAssembly (chapter 5 of its specification), as far as the verifier's module
uses it. All else is refused: another section, form or instruction than that module has."""

from wasm_instructions import KNOWN, NAMES, PREFIX, PREFIXED

MAGIC_AND_VERSION = b"\0asm\1\0\0\0"
VALTYPES = {0x7F: "i32", 0x7E: "i64"}
BITS = {"i32": 32, "i64": 64}
PAGE = 65536
SECTIONS = {
    0: "custom", 1: "type", 2: "import", 3: "function", 4: "table", 5: "memory", 6: "global", 7: "export",
    8: "start", 9: "element", 10: "code", 11: "data", 12: "data count", 13: "tag",
}
EXPORTED = {0: "function", 1: "table", 2: "memory", 3: "global", 4: "tag"}


class Refused(Exception):
    """What is not translated, and where it is."""


class Reader:
    """The bytes of a part of the module, which are read from its beginning to its end."""

    def __init__(self, contents, what):
        self.contents, self.what, self.at = contents, what, 0

    def refuse(self, why):
        raise Refused(f"{self.what}: {why}")

    def left(self):
        """How many bytes are left."""
        return len(self.contents) - self.at

    def take(self, size):
        """So many bytes."""
        if size > self.left():
            self.refuse("it ends early")
        self.at += size
        return self.contents[self.at - size : self.at]

    def byte(self):
        return self.take(1)[0]

    def leb128(self, bits):
        """A number, and how many bits its bytes have, which are no more than a number of so many
        bits needs."""
        value = taken = 0
        while taken < bits:
            byte = self.byte()
            value |= (byte & 0x7F) << taken
            taken += 7
            if byte < 0x80:
                return value, taken
        return self.refuse(f"a number of more than {bits} bits")

    def unsigned(self, bits):
        """An unsigned number of so many bits."""
        value, _ = self.leb128(bits)
        if value >> bits:
            self.refuse(f"a number of more than {bits} bits")
        return value

    def signed(self, bits):
        """A signed number of so many bits, as the unsigned one of the same bits."""
        value, taken = self.leb128(bits)
        value -= value >> (taken - 1) << taken
        if not -(1 << (bits - 1)) <= value < 1 << (bits - 1):
            self.refuse(f"a number of more than {bits} bits")
        return value % (1 << bits)

    def index(self):
        return self.unsigned(32)

    def name(self):
        try:
            return self.take(self.index()).decode()
        except UnicodeDecodeError:
            return self.refuse("a name that is no UTF-8")

    def vector(self, read):
        """A list, each element of which `read` takes."""
        return [read() for _ in range(self.index())]

    def part(self, what):
        """A part that has its size before it."""
        return Reader(self.take(self.index()), what)

    def end(self):
        """The part ends here."""
        if self.left():
            self.refuse("it does not end where it should")

    def valtype(self):
        byte = self.byte()
        return VALTYPES.get(byte) or self.refuse(f"a value of type {byte:#x}")

    def expect(self, byte, what):
        """This byte, which means that the form is the one that the verifier's module has."""
        found = self.byte()
        if found != byte:
            self.refuse(f"{what} {found:#x}, where only {byte:#x} is known")


class Function:
    """A function: its type, its locals beyond its parameters, its body, and its name."""

    def __init__(self, functype):
        self.parameters, self.results = functype
        self.locals, self.body, self.name = [], [], None


class Module:
    """A module: functions, the memory's first size in bytes, globals as their type, whether they
    change and their first value, exported functions by name, and the one data segment as its address
    and its bytes."""

    def __init__(self, contents):
        self.functions, self.globals, self.global_names, self.exports = [], [], {}, {}
        self.types, self.memory, self.data = [], None, None
        reader = Reader(contents, "the module")
        if reader.take(min(8, reader.left())) != MAGIC_AND_VERSION:
            reader.refuse("it is no WebAssembly of version 1")
        last = 0
        while reader.left():
            section = reader.byte()
            name = SECTIONS.get(section, f"{section}")
            part = reader.part(f"the {name} section")
            if 0 < section <= last:
                part.refuse("it comes too late or twice")
            last = max(section, last)
            read = getattr(self, f"read_{name}", None) or part.refuse("no module of ours has one")
            read(part)
            part.end()
        self.check(reader)

    def check(self, reader):
        """The module is whole."""
        if self.memory is None or self.data is None:
            reader.refuse("there is not one memory with one data segment")
        if self.data[0] + len(self.data[1]) > self.memory:
            reader.refuse("the data does not fit into the memory")
        for function in self.functions:
            if not function.body or not function.name:
                reader.refuse("a function has no body or no name")

    def read_custom(self, part):
        name = part.name()
        if name == "name":
            self.read_names(part)
        elif name in ("producers", "target_features"):
            part.take(part.left())
        else:
            part.refuse(f"its name is {name}, and no module of ours has one")

    def read_type(self, part):
        def functype():
            part.expect(0x60, "a type")
            return part.vector(part.valtype), part.vector(part.valtype)

        self.types = part.vector(functype)

    def read_function(self, part):
        self.functions = [Function(self.at(self.types, it, part)) for it in part.vector(part.index)]

    def read_memory(self, part):
        part.expect(1, "a number of memories")
        part.expect(4, "limits")
        self.memory = part.unsigned(64) * PAGE

    def read_global(self, part):
        def one():
            valtype, changes = part.valtype(), part.byte()
            if changes > 1:
                part.refuse(f"mut {changes:#x}")
            return valtype, changes == 1, self.constant(part, valtype)

        self.globals = part.vector(one)

    def read_export(self, part):
        names = set()

        def one():
            name, kind, index = part.name(), part.byte(), part.index()
            if name in names:
                part.refuse(f"{name} is exported twice")
            names.add(name)
            if kind == 0:
                self.exports[name] = index
                self.at(self.functions, index, part)
            elif EXPORTED.get(kind) not in ("memory", "global"):
                part.refuse(f"{name} is a {EXPORTED.get(kind, kind)}, and no module of ours exports one")

        part.vector(one)

    def read_code(self, part):
        bodies = part.vector(lambda: part.part("a body"))
        if len(bodies) != len(self.functions):
            part.refuse("there is not one body for each function")
        for index, (function, body) in enumerate(zip(self.functions, bodies)):
            body.what = f"function {index}"
            groups = body.vector(lambda body=body: (body.index(), body.valtype()))
            function.locals = [valtype for count, valtype in groups for _ in range(count)]
            function.body = list(self.instructions(body))

    def read_data(self, part):
        part.expect(1, "a number of data segments")
        part.expect(0, "a data segment of kind")
        self.data = self.constant(part, "i64"), part.take(part.index())

    def read_names(self, part):
        """The names of functions and globals: of the name section these subsections are read."""
        while part.left():
            kind = part.byte()
            names = part.part("the name section")
            if kind not in (1, 7):
                continue
            for index, name in names.vector(lambda names=names: (names.index(), names.name())):
                if kind == 7:
                    self.name_global(index, name, names)
                else:
                    self.name_function(index, name, names)
            names.end()

    def name_global(self, index, name, part):
        self.at(self.globals, index, part)
        if index in self.global_names:
            part.refuse(f"global {index} has two names, {self.global_names[index]} and {name}")
        if name in self.global_names.values():
            part.refuse(f"two globals have the name {name}")
        self.global_names[index] = name

    def name_function(self, index, name, part):
        function = self.at(self.functions, index, part)
        if function.name is not None:
            part.refuse(f"function {index} has two names, {function.name} and {name}")
        function.name = name

    def at(self, things, index, part):
        """The thing of this index."""
        if index >= len(things):
            part.refuse(f"index {index} is too large")
        return things[index]

    def constant(self, part, valtype):
        """The value of a constant expression of one instruction."""
        part.expect({"i32": 0x41, "i64": 0x42}[valtype], "a constant expression that begins with")
        value = part.signed(BITS[valtype])
        part.expect(0x0B, "a constant expression that goes on with")
        return value

    def instructions(self, body):
        """The instructions of a body: each one's name, with its immediate or none."""
        while body.left():
            opcode = body.byte()
            if opcode == PREFIX:
                opcode = body.index()
                name = PREFIXED.get(opcode, f"0xfc {opcode}")
            else:
                name = NAMES.get(opcode, f"{opcode:#x}")
            if name not in KNOWN:
                body.refuse(f"the instruction {name}, which no module of ours has")
            yield name, self.immediate(body, KNOWN[name])

    def immediate(self, body, kind):
        """An immediate of this kind."""
        if kind in ("labelidx", "localidx"):
            return body.index()
        if kind == "labelidx vector":
            return (*body.vector(body.index), body.index())
        if kind == "funcidx":
            return self.at(range(len(self.functions)), body.index(), body)
        if kind == "globalidx":
            return self.at(range(len(self.globals)), body.index(), body)
        if kind in BITS:
            return body.signed(BITS[kind])
        if kind == "memarg":
            # The alignment is a hint. (Six bits are a flag for another memory.)
            if body.unsigned(32) > 3:
                body.refuse("a memarg of another memory")
            return body.unsigned(64)
        if kind == "blocktype":
            body.expect(0x40, "a blocktype")
        for _ in range({"two memidx": 2, "one memidx": 1}.get(kind, 0)):
            body.expect(0, "a memidx")
        return None
