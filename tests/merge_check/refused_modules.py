"""Modules that the translator has to refuse, each with a part of what it says. They differ in one thing
from a module that it takes."""

from tests.merge_check.small_functions import CALLS, CONSTANTS
from tests.merge_check.wasm_builder import (
    GLOBALS, KNOWN, Function, code, joined, more, name_section, replaced, section, sections, signed, sized, unsigned, vector,
    wasm_instructions,
)

PREFIX = wasm_instructions.PREFIX
ENDS = (0x100000, 0x20000)
NEGATIVE, LARGE = (1 << 64) - 64, ENDS[0] + 16


def frame(size):
    """Takes a frame of this size."""
    return f"SP i64.const:{size} i64.sub local.tee:6 global.set:0"


def back(size):
    """Gives it back."""
    return f"OWN i64.const:{size} i64.add global.set:0"


# Instructions that recur: GO goes on, or to the end of a block.
SHORT = {
    "A": "local.get:0", "ZERO": "i32.const:0", "SP": "global.get:0", "OWN": "local.get:6", "LOAD": "i32.load:0", "WRAP": "i32.wrap_i64",
    "FRAME": frame(64), "BACK": back(64), "GO": "A i64.eqz br_if:0", "LOOP": "loop A i64.const:0 i64.ne br_if:0 end",
}


def coded(text):
    """The bytes of the instructions in a text, which have their numbers after colons."""
    pairs = [it.split(":") for it in text.split()]
    return b"".join(coded(SHORT[it]) if it in SHORT else code((it, *map(int, numbers)) if numbers else it) for it, *numbers in pairs)


def functions(first="ZERO", own=("i64", "i32"), more=()):
    """The four calls, the first of which has these instructions, and further functions."""
    bodies = [first, "local.get:2 i64.load:8 WRAP", "ZERO", "ZERO"]
    return [*(Function(name, CALLS[name].split(), ["i32"], coded(it), own) for name, it in zip(CALLS, bodies)), *more]


def both(change=lambda parts, base: parts, **how):
    """The module with two sizes of stack, each with its sections changed by a function."""
    return [joined(change(sections(functions(**how), CALLS, base, CONSTANTS), base)) for base in ENDS]


def with_frames(sizes):
    """The module with two sizes of stack whose four calls take frames of these sizes."""
    bodies = [coded(f"{frame(it)} {back(it)} ZERO" if it else "ZERO") for it in sizes]
    found = [Function(name, CALLS[name].split(), ["i32"], body, ("i64", "i64")) for name, body in zip(CALLS, bodies)]
    return [joined(sections(found, CALLS, base, CONSTANTS)) for base in ENDS]


def body(*pieces):
    """A function that makes the first body of these texts and bytes, with no locals. {C} stands for the address of
    a constant, {E} for that of their end, {P} for a part of it."""

    def change(_, base):
        at = {"C": base + 8, "E": base + len(CONSTANTS), "P": base >> 16}
        made = b"".join(coded(it.format(**at)) if isinstance(it, str) else it for it in pieces)
        bodies = [sized(b"\0" + made), *(it.contents() for it in functions(own=())[1:])]
        return [(at, vector(bodies) if at == 10 else it) for at, it in sections(functions(own=()), CALLS, base, CONSTANTS)]

    return change


def names(of_functions=(), of_globals=()):
    """A function that gives further names to functions and globals of these numbers."""
    return section(0, name_section([*enumerate(CALLS), *of_functions], [*enumerate(GLOBALS), *of_globals]))


# What is said, and what the first call then does.
BODIES = f"""
a branch out of the function | br:0 ; block br:7 end ZERO
a loop that is never repeated | loop end ZERO
block, with operands left | ZERO block end
end, with operands left | block ZERO end
br, with operands left | block ZERO ZERO br:0 end ZERO
br_if, with operands left | block ZERO ZERO br_if:0 end ZERO
br_table, with operands left | block ZERO ZERO br_table:0 end ZERO
a return, with operands left | ZERO ZERO return
unreachable, with operands left | ZERO unreachable
i32.const where nothing gets | unreachable ZERO
there is no operand | i32.eqz
an operand of type i64, where one of type i32 | i64.const:0 i32.eqz ; i64.const:0
an operand of type i32, where one of type i64 | ZERO ZERO ZERO select
there is no local 99 | local.get:99
a rotation by another | ZERO local.get:7 i32.rotl ; ZERO ZERO i32.rotl ; ZERO i32.const:32 i32.rotr
a select of what is loaded | A i64.load:0 A ZERO select WRAP
the global None | global.get:2 WRAP
index 99 is too large | call:99 ; global.get:99
lms_verify calls itself | A A A A A A call:0
takes stack in another way than at its beginning | LOOP FRAME BACK ZERO
takes stack in another way | SP A i64.sub local.tee:6 global.set:0 ZERO
gives back stack in another way | FRAME A global.set:0 ZERO ; FRAME OWN i64.const:8 i64.add global.set:0 ZERO
changes the local that has its stack pointer | FRAME A local.set:6 BACK ZERO
uses the stack pointer for more than a frame | SP i64.const:16 i64.sub local.tee:6 A i64.store:0 ZERO ; SP i64.load:8 WRAP
uses the stack pointer for more than a frame | block SP i64.const:64 i64.lt_s br_if:0 end ZERO ; FRAME SP i64.load:0 WRAP BACK
uses the stack pointer for more than a frame | SP local.tee:6 i64.const:16 i64.sub A i64.store:0 OWN global.set:0 ZERO
uses the stack pointer for more than a frame | block SP local.tee:6 i64.const:16 i64.lt_s br_if:0 end OWN i64.load:0 WRAP OWN global.set:0
does not give back its stack on each way out | FRAME ZERO ; FRAME block GO ZERO return end BACK ZERO
does not give back its stack on each way out | FRAME block GO BACK ZERO return end ZERO
does not give back its stack on each way out | FRAME block block ZERO br_table:0:1:0 end BACK ZERO return end ZERO
gives back its stack on one of two ways that meet | FRAME block GO BACK end ZERO ; FRAME block block GO BACK br:1 end end ZERO
gives back its stack on one of two ways that meet | FRAME loop BACK GO end ZERO
takes {NEGATIVE} bytes of stack, and there are | {frame(NEGATIVE)} {back(NEGATIVE)} ZERO
lms_verify takes {LARGE} bytes of stack, and there are {ENDS[0]} | {frame(LARGE)} {back(LARGE)} ZERO
lms_verify takes 24 bytes of stack, which is no multiple of 16 | {frame(24)} {back(24)} ZERO
lms_verify needs {LARGE} bytes of stack, and there are {ENDS[0]} | {frame(LARGE - 64)} call:4 {back(LARGE - 64)} ZERO
"""
# The same with an address of the constants, C, where no module of ours has one.
ADDRESSES = """C i64.const:1 i64.or LOAD ; C i64.const:65520 i64.and LOAD ; A C i64.add i64.const:1 i64.or LOAD
; C A i64.add i64.const:1 i64.or LOAD ; A C i64.add i64.const:7 local.set:0 i64.const:1 i64.or LOAD ; A C i64.sub LOAD ; A C i64.ne
; C local.set:0 ZERO ; A C i64.store:0 ZERO ; C A i64.store:0 ZERO ; C ZERO i64.const:1 memory.fill ZERO ; C A i64.const:1 memory.copy ZERO
; A C i64.const:1 memory.copy ZERO ; A A C memory.copy ZERO ; C C i64.add LOAD ; C i32.load:{C}"""
SIX, FIVE, VERIFY, MEMORY, HASH = b"\x60\x06" + b"\x7e" * 6, b"\x60\x05" + b"\x7e" * 5, sized(b"lms_verify"), sized(b"memory"), b"lms_verify_hash"
FLAG, END, ZERO, OURS = more(6, b"\x7f\1" + coded("ZERO end")), coded("end"), coded("ZERO end"), "no module of ours has one"
TYPE, HEAD, MANY = "lms_verify has another type than lms.h's function", "lms_message_head has another type than", "a number of more than 32 bits"
LIBRARY, ONE, COMMENT = "the two modules are not of one library", "there is not one memory with one data segment", "a name that may not stand in a comment"
# How the sections are changed, and what is said.
SECTIONS = {
    **{f"{name} section": (section(at, b"\0"), f"the {name} section: {OURS}") for at, name in [(8, "start"), (2, "import"), (4, "table"), (9, "element")]},
    **{f"{TYPE}: {new.hex()}": (replaced(1, old, new), TYPE) for old, new in [(SIX, FIVE), (b"\1\x7f", b"\1\x7e"), (b"\1\x7f", b"\0")]},
    **{f"{HEAD}: {new.hex()}": (replaced(1, old, new), HEAD) for old, new in [(FIVE + b"\1", SIX + b"\1"), (FIVE, FIVE[:-1] + b"\x7f")]},
    **{f"a call's name for {what}": (more(7, VERIFY + at), "lms_verify is exported twice") for what, at in [("a call", b"\0\1"), ("the memory", b"\2\0")]},
    "a function of two names": (names([(0, "other")]), "function 0 has two names, lms_verify and other"),
    "a global of two names": (names(of_globals=[(1, "other")]), "global 1 has two names, in_call and other"),
    "two globals of one name": (lambda parts, _: names(of_globals=[(2, "in_call")])(FLAG(parts, _), _), "two globals have the name in_call"),
    "the name of a global that is not there": (names(of_globals=[(2, "other")]), "index 2 is too large"),
    **{f"the name {it!r}": (replaced(0, HASH, it), COMMENT) for it in (b"lms_verify_*/sh", b"lms_verify*\\\n/h")},
    "a data count section": (lambda parts, _: [*parts[:-1], (12, b"\1")], f"the data count section: {OURS}"),
    "a section of no known number": (lambda parts, _: [*parts, (77, b"")], f"the 77 section: {OURS}"),
    "a custom section of another name": (lambda parts, _: [*parts, (0, sized(b"linking"))], "its name is linking"),
    "a section twice": (lambda parts, _: [*parts, parts[0]], "the type section: it comes too late or twice"),
    "a section that is too long": (lambda parts, _: [(1, parts[0][1] + b"\0"), *parts[1:]], "the type section: it does not end where it should"),
    "a section that is too short": (lambda parts, _: [(1, parts[0][1][:-1]), *parts[1:]], "the type section: it ends early"),
    "a type of no function": (replaced(1, b"\x60", b"\x5f"), "a type 0x5f, where only 0x60 is known"),
    "a parameter of another type": (replaced(1, b"\x7e", b"\x7c"), "a value of type 0x7c"),
    "two memories": (replaced(5, b"\1\4", b"\2\4"), "a number of memories 0x2"),
    "a memory of 32 bits": (replaced(5, b"\1\4", b"\1\0"), "limits 0x0, where only 0x4 is known"),
    "a memory with an end": (replaced(5, b"\1\4\x11", b"\1\5\x11\x12"), "limits 0x5, where only 0x4 is known"),
    "a memory that is too small": (replaced(5, b"\1\4\x11", b"\1\4\1"), "the data does not fit into the memory"),
    **{f"no {what}": (lambda parts, _, at=at: [it for it in parts if it[0] != at], ONE) for what, at in [("memory", 5), ("data", 11)]},
    "two data segments": (replaced(11, b"\1\0", b"\2\0"), "a number of data segments 0x2"),
    "a data segment of another kind": (replaced(11, b"\1\0", b"\1\1"), "a data segment of kind 0x1"),
    "a global of another mutability": (replaced(6, b"\x7f\1", b"\x7f\2"), "mut 0x2"),
    "a global that begins with another one": (replaced(6, ZERO, b"\x23\0\x0b"), "a constant expression that begins with 0x23"),
    "a global of several instructions": (replaced(6, ZERO, coded("ZERO ZERO end")), "a constant expression that goes on with 0x41"),
    "a flag that begins as 1": (replaced(6, ZERO, coded("i32.const:1 end")), "in_call does not begin with 0"),
    "a stack pointer elsewhere": (lambda parts, base: replaced(6, signed(base), signed(base - 16))(parts, base), "no __stack_pointer that begins"),
    "an exported table": (replaced(7, MEMORY + b"\2", MEMORY + b"\1"), "memory is a table"),
    "another function exported": (replaced(7, HASH, b"lms_verify_hush"), "module and template have not the same names: CALL_lms_verify_h"),
    "an exported function that is not there": (replaced(7, VERIFY + b"\0\0", VERIFY + b"\0\x63"), "index 99 is too large"),
    "no names": (lambda parts, _: parts[:-1], "a function has no body or no name"),
    "a name that is no UTF-8": (replaced(0, HASH, b"lms_verify_h\xffsh"), "a name that is no UTF-8"),
    "a body too few": (lambda parts, _: [(at, vector([]) if at == 10 else it) for at, it in parts], "there is not one body for each function"),
    "a body that goes on": (body("ZERO end end"), "end after the end"),
    "a body with no end": (body("block ZERO end"), "end, with operands left"),
    "a body that ends early": (body("block end"), "the body has no end"),
    "a block with a value": (body(b"\x02\x7f", "ZERO end end"), "a blocktype 0x7f, where only 0x40 is known"),
    "a memarg of another memory": (body("A", b"\x28\x40\0\0", END), "a memarg of another memory"),
    "a copy of another memory": (body("A A A", b"\xfc\x0a\0\1", ZERO), "a memidx 0x1"),
    **{f"{MANY}: {it}": (body(bytes.fromhex(it), END), MANY) for it in ("41808080808000", "41ffffffff0f", "20ffffffff1f")},
    "another data than at the other size": (lambda parts, base: [(at, it[:-1] + bytes([base >> 20]) if at == 11 else it) for at, it in parts], LIBRARY),
    "more instructions than at the other size": (lambda parts, base: body("ZERO" + " i32.eqz" * (base == ENDS[0]) + " end")(parts, base), LIBRARY),
    "a number that differs with the size": (body("i32.const:{P} end"), "i32.const 16 differs, and is no address of a constant"),
    "an address behind the constants": (body("i64.const:{E} LOAD end"), "differs, and is no address of a constant"),
}


def refused():
    """Names of what is refused, each with the two modules and what is said."""
    deeper, pair = Function("deeper", [], [], coded("FRAME BACK"), ["i64"] * 7), Function("pair", [], ["i32", "i32"], coded("ZERO ZERO"))
    steady = more(6, b"\x7e\0" + coded("i64.const:5 end"))
    for says, texts in (line.split(" | ") for line in BODIES.strip().split("\n")):
        for text in texts.split(" ; "):
            yield f"{says}: {text}", both(steady, first=text, more=[deeper]), says
    says = "an address of the constants, where no module of ours has one"
    for text in " ".join(ADDRESSES.split()).split(" ; "):
        yield f"{says}: {text}", both(body(f"{text} end".replace("C ", "i64.const:{C} "))), says
    for name, (change, says) in SECTIONS.items():
        yield name, both(change), says
    yield "several results", both(first="call:4", more=[pair]), "several results"
    for name, parameters, count in [("a compression of another type", ["i64"], 1), ("two compressions", ["i64", "i64"], 2)]:
        its = [Function("sha2::block256::compress", parameters, [], b"", ())] * count
        yield name, both(more=its), "sha2::block256::compress is not one function of a state and a block"
    uncalled = Function("sha2::block256::compress", ["i64", "i64"], [], b"", ())
    yield "a compression that nothing calls", both(more=[uncalled]), "no call uses sha2::block256::compress"
    yield "two modules of one size of stack", both()[:1] * 2, "the two modules have their constants at the same address"
    for name, contents in [("what is no module", b"\0asm\2\0\0\0"), ("an empty file", b"")]:
        yield name, [contents] * 2, "it is no WebAssembly of version 1"


def refused_instructions():
    """Each opcode that is not translated, by its name or its number, in a module."""
    plain, prefixed = wasm_instructions.NAMES, wasm_instructions.PREFIXED
    found = [(plain.get(it, f"{it:#x}"), bytes([it])) for it in range(256) if it != PREFIX and plain.get(it) not in KNOWN]
    found += [(prefixed.get(it, f"0xfc {it}"), bytes([PREFIX]) + unsigned(it)) for it in range(20) if prefixed.get(it) not in KNOWN]
    return [(name, both(body(opcode, END))) for name, opcode in found]


REFUSED = list(refused())
