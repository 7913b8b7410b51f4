"""Small functions in WebAssembly, which together have each instruction that is translated, and calls of
them on numbers at the edges."""

import random

from tests.merge_check.wasm_builder import Function, code, joined, sections
from tests.merge_check.wasm_functions import STACK_END, Case, wasm_module

I32 = [0, 1, 2, 7, 31, 32, 33, 0x7F, 0x80, 0xFF, 0x100, 0xFFFF, 0x10000]
I32 += [0x7FFFFFFF, 0x80000000, 0x80000001, 0xFFFFFFFE, 0xFFFFFFFF, 0x6A09E667]
I64 = [*I32, 63, 64, 65, (1 << 63) - 1, 1 << 63, (1 << 63) + 1, (1 << 64) - 2, (1 << 64) - 1, 0x123456789ABCDEF0]
EDGES = {"i32": I32, "i64": I64}
# As a constant right of an operation, also where x + (-n) begins to be written x - n.
BESIDE = {
    "i32": [0, 1, 31, 32, 33, 0xFFFF, 0x10000, 0x7FFFFFFF, 0x80000000, 0xFFFF0000, 0xFFFF0001, 0xFFFFFFFF],
    "i64": [0, 1, 32, 63, 64, 65, 0xFFFFFFFF, 1 << 32, 1 << 63, (1 << 64) - 0x10000, (1 << 64) - 0xFFFF, (1 << 64) - 1],
}
CONSTANTS = bytes(range(0x80, 0x100))
FRAME = 128
TEST = [("i64.const", 16), "i64.lt_s", ("br_if", 0)]
# Where lms_verify_pieces says that the caller's array is.
PIECES = 1 << 61
# Of the verifier's four calls, which each module has to export, with what the template hands them.
CALLS = {"lms_verify": "i64 " * 6, "lms_verify_pieces": "i64 " * 6, "lms_message_head": "i64 " * 5, "lms_verify_hash": "i64 " * 5}
BINARY = """
    i32.eq i32.ne i32.lt_u i32.gt_u i32.le_u i32.ge_u i32.add i32.mul i32.and i32.or i32.xor i32.shl i32.shr_u
    i64.ne i64.lt_s i64.lt_u i64.gt_u i64.ge_u i64.add i64.sub i64.mul i64.and i64.or i64.xor i64.shl i64.shr_u""".split()
UNARY = {"i32.eqz": ("i32", "i32"), "i64.eqz": ("i64", "i32"), "i32.wrap_i64": ("i64", "i32"), "i64.extend_i32_u": ("i32", "i64")}
COMPARISONS = {"eq", "ne", "lt_s", "lt_u", "gt_u", "le_u", "ge_u"}
A, B = ("local.get", 0), ("local.get", 1)


def result_of(name):
    """The type of an instruction's result."""
    valtype, _, operation = name.partition(".")
    return "i32" if operation in COMPARISONS else valtype


def numbers():
    """Each operation on two operands, and with a constant as either; rotations; and one operation in
    another."""
    found = []
    for name in BINARY:
        valtype, result = name[:3], result_of(name)
        found.append(Function(name, [valtype] * 2, [result], code(A, B, name)))
        for number in BESIDE[valtype]:
            constant = (f"{valtype}.const", number)
            found.append(Function(f"{name} {number:#x}", [valtype], [result], code(A, constant, name)))
        found.append(Function(f"constant {name}", [valtype], [result], code(constant, A, name)))
        found.append(Function(f"{name} in eqz", [valtype] * 2, ["i32"], code(A, B, name, f"{result}.eqz")))
        found.append(Function(f"{name} twice", [valtype] * 2, [result], code(A, B, name, *again(name, result))))
    for name, (valtype, result) in UNARY.items():
        found.append(Function(name, [valtype], [result], code(A, name)))
    for places in range(1, 32):
        for name in ("i32.rotl", "i32.rotr"):
            found.append(Function(f"{name} {places}", ["i32"], ["i32"], code(A, ("i32.const", places), name)))
    return found


def again(name, result):
    """Applies an operation once more to its result and an operand, from the left."""
    if result == name[:3]:
        return [B, name]
    return ["i64.extend_i32_u", B, name] if name.startswith("i64") else [B, name]


def conditions():
    """Conditions as numbers, as operands, as each other's operands, and as tests."""
    less = [A, B, "i64.lt_s"]
    least = [A, B, "i64.ge_u"]
    both = ["i64", "i64"]
    bodies = {
        "not less": [*less, "i32.eqz"],
        "not not less": [*less, "i32.eqz", "i32.eqz"],
        "not not": [A, "i64.eqz", "i32.eqz"],
        "sum of conditions": [*less, *least, "i32.add"],
        "equal conditions": [*less, *least, "i32.eq"],
        "shifted condition": [*less, ("i32.const", 31), "i32.shl"],
        "shifted by a condition": [A, "i32.wrap_i64", *less, "i32.shr_u"],
        "turned condition": [*less, ("i32.const", 0xFFFFFFFF), "i32.xor"],
        "rotated condition": [*least, ("i32.const", 5), "i32.rotl"],
    }
    found = [Function(name, both, ["i32"], code(*words)) for name, words in bodies.items()]
    found.append(Function("extended condition", both, ["i64"], code(*less, "i64.extend_i32_u")))
    number, sums = [A, "i32.wrap_i64"], [A, B, "i64.add", A, B, "i64.sub"]
    for name, test in {"less": less, "not": [A, "i64.eqz"], "number": number, "not number": [*number, "i32.eqz"]}.items():
        found.append(Function(f"select by {name}", both, ["i64"], code(A, B, *test, "select")))
        found.append(Function(f"select of sums by {name}", both, ["i64"], code(*sums, *test, "select", A, "i64.xor")))
        body = code("block", *test, ("br_if", 0), B, "return", "end", A)
        found.append(Function(f"branch by {name}", both, ["i64"], body))
    return found


def control():
    """Blocks, loops, tables, calls, and operands that wait while what they read changes."""
    count_down = code(
        "block", A, "i64.eqz", ("br_if", 0), "loop",
        ("local.get", 2), A, "i64.mul", ("i64.const", 3), "i64.add", ("local.set", 2),
        A, ("i64.const", 1), "i64.sub", ("local.tee", 0), ("i64.const", 0), "i64.ne", ("br_if", 0), "end", "end", ("local.get", 2),
    )
    nested = code(
        "block", "block", "block", "block", "block", A, ("br_table", 1, 3, 2, 4, 1), "end", "end",
        ("local.get", 1), ("i64.const", 10), "i64.add", ("local.set", 1), ("br", 1), "end",
        ("local.get", 1), ("i64.const", 20), "i64.mul", ("local.set", 1), "end",
        ("local.get", 1), ("i64.const", 5), "i64.xor", "return", "end", ("i64.const", 7),
    )
    waits = code(A, ("local.get", 1), ("local.set", 0), A, "i64.sub", ("i64.const", 9), ("local.tee", 0), A, "i64.mul", "i64.add")
    twice = code(A, A, ("i64.const", 1), "i64.add", ("local.tee", 0), "i64.mul", A, "i64.sub")
    itself = code(A, ("local.tee", 0), A, "i64.add")
    unreached = code("block", A, "i64.eqz", ("br_if", 0), "unreachable", "end", B)
    return [
        Function("count down", ["i64"], ["i64"], count_down, ["i64", "i64"]),
        Function("table", ["i32", "i64"], ["i64"], nested),
        Function("operands wait", ["i64", "i64"], ["i64"], waits),
        Function("tee", ["i64"], ["i64"], twice),
        Function("tee itself", ["i64"], ["i64"], itself),
        Function("unreachable", ["i64", "i64"], ["i64"], unreached),
        Function("unreachable at once", [], [], code("unreachable")),
        Function("locals are zero", [], ["i64"], code(("local.get", 1), "i64.extend_i32_u", ("local.get", 0), "i64.add"), ["i64", "i32"]),
    ]


def globals_and_calls(first):
    """What reads and sets globals, and calls functions, the first of which has this number: also
    while operands wait that a call changes."""
    frame = [("global.get", 0), ("i64.const", FRAME), "i64.sub", ("local.tee", 2), ("global.set", 0)]
    back = [("local.get", 2), ("i64.const", FRAME), "i64.add", ("global.set", 0)]
    mark = code(("global.get", 1), A, ("global.set", 1), ("global.get", 1), "i32.xor")
    calls = code(
        ("global.get", 1), A, ("call", first), ("i32.const", 3), "i32.mul", "i32.add",
        ("i32.const", 5), ("call", first), "i32.add", B, ("call", first + 3), "i32.xor",
    )
    own = ("local.get", 2)
    stores = [own, A, ("i64.store", 8), own, B, ("i32.store", 10), own, ("i64.load", 6), ("local.set", 3)]
    framed = code(*frame, *stores, *back, ("local.get", 3))
    calls_framed = code(*frame, A, B, ("call", first + 2), A, "i64.add", ("local.set", 3), *back, ("local.get", 3))
    leaves_nothing = code(A, ("i32.const", 1), "i32.xor", ("global.set", 1), ("global.get", 1), A, "i32.or")
    traps = code(A, ("global.set", 1), "unreachable")
    after_a_trap = code("loop", B, ("call", first + 4), A, ("i32.const", 1), "i32.add", ("local.tee", 0), ("br_if", 0), "end", A)
    endless = code("loop", A, ("call", first + 4), ("i32.const", 1), ("br_if", 0), "end", A)
    return [
        Function("mark", ["i32"], ["i32"], mark),
        Function("calls", ["i32", "i32"], ["i32"], calls),
        Function("framed", ["i64", "i32"], ["i64"], framed, ["i64", "i64"]),
        Function("leaves nothing", ["i32"], ["i32"], leaves_nothing),
        Function("traps", ["i32"], [], traps),
        Function("after a trap", ["i32", "i32"], ["i32"], after_a_trap),
        Function("endless but for a trap", ["i32"], ["i32"], endless),
        Function("calls framed", ["i64", "i32"], ["i64"], calls_framed, ["i64", "i64"]),
        *stack(frame, back),
    ]


def stack(frame, back):
    """What takes no frame, an empty one, or one that it gives back on several ways."""
    own = ("local.get", 2)
    tests = code("block", ("global.get", 0), *TEST, A, "return", "end", "unreachable")
    empty = code("block", ("global.get", 0), ("local.tee", 2), *TEST, own, ("global.set", 0), A, "return", "end", "unreachable")
    halved = [own, own, ("i64.load", 0), ("i64.const", 1), "i64.shr_u", ("i64.store", 0)]
    again = [own, ("i64.load", 0), ("i64.const", 7), "i64.gt_u", ("br_if", 0)]
    ways = code(
        "block", *frame, own, *TEST, "block", "block", A, "i64.eqz", ("br_if", 0), own, A, ("i64.store", 0),
        "loop", *halved, *again, "end", B, ("br_table", 0, 1, 0), "end", *back, ("i64.const", 5), "return", "end",
        own, ("i64.load", 0), ("local.set", 3), *back, ("local.get", 3), "return", "end", "unreachable",
    )
    return [
        Function("tests the stack", ["i64"], ["i64"], tests),
        Function("an empty frame", ["i64", "i32"], ["i64"], empty, ["i64"]),
        Function("several ways out", ["i64", "i32"], ["i64"], ways, ["i64", "i64"]),
    ]


def memory():
    """Loads and stores at addresses with offsets, and while operands wait that a store changes."""
    found = []
    for offset in (0, 1, 40, 1 << 63):
        for name in ("i32.load", "i32.load8_u", "i64.load"):
            found.append(Function(f"{name} {offset}", ["i64"], [name[:3]], code(A, (name, offset))))
        for name in ("i32.store", "i32.store8", "i32.store16", "i64.store"):
            found.append(Function(f"{name} {offset}", ["i64", name[:3]], [], code(A, B, (name, offset))))
    stored = code(A, ("i32.load", 0), A, ("i32.load8_u", 1), A, B, ("i32.store16", 0), A, ("i32.load", 0), "i32.add", "i32.xor")
    filled = code(A, ("i64.load", 0), A, B, "i32.wrap_i64", ("i64.const", 5), "memory.fill", A, ("i64.load", 0), "i64.sub")
    copied = code(A, ("i64.load", 0), A, B, ("i64.const", 6), "memory.copy", A, ("i64.load", 0), "i64.sub")
    return found + [
        Function("waits for a store", ["i64", "i32"], ["i32"], stored),
        Function("waits for a fill", ["i64", "i64"], ["i64"], filled),
        Function("waits for a copy", ["i64", "i64"], ["i64"], copied),
        Function("memory.copy", ["i64"] * 3, [], code(A, B, ("local.get", 2), "memory.copy")),
        Function("memory.fill", ["i64", "i32", "i64"], [], code(A, B, ("local.get", 2), "memory.fill")),
    ]


def constants(base, load):
    """Loads of constants by their addresses, one of them by the function of this number."""
    each = code(("i64.const", base + 3), ("i64.load", 5), A, ("i32.load", base + 7), "i64.extend_i32_u", "i64.xor")
    waits = code(A, ("i64.const", base), "i64.add", ("i64.const", base + 1), A, "i64.add", ("i64.const", 0), ("local.set", 0))
    summed = code(waits, ("i64.load", 2), A, "i64.sub", ("local.set", 0), ("i64.load", 1), A, "i64.xor")
    return [
        Function("constants", ["i64"], ["i64"], each),
        Function("sums with constants", ["i64"], ["i64"], summed),
        Function("constants that are handed on", ["i64"], ["i64"], code(("i64.const", base + 9), ("call", load), A, "i64.xor")),
    ]


def of_pieces():
    """Loads of what may be an array of pieces, also where the sum of address and offset passes 2^64."""
    return [Function(f"i64.load {it} of pieces", ["i64"], ["i64"], code(A, ("i64.load", it))) for it in (8, PIECES + 16)]


def calls_of(functions, first):
    """Calls of functions, the first of which has this number."""
    words = []
    for at, function in enumerate(functions, first):
        words += [*((f"{it}.const", 0) for it in function.parameters), ("call", at)]
        words += [*["i32.wrap_i64"] * (function.results == ["i64"]), ("global.set", 1)] if function.results else []
    return words


def verifier(functions, loads):
    """The four calls: the first one calls all these functions, that with the pieces these loads."""
    answer = [("i32.const", 0)]
    bodies = [calls_of(functions, 0) + answer, calls_of(loads, len(functions)) + answer, answer, answer]
    return [Function(name, CALLS[name].split(), ["i32"], code(*body)) for name, body in zip(CALLS, bodies)]


def all_functions(base=STACK_END):
    """All functions, for a stack that ends at this address. The names say what is tried."""
    found = numbers() + conditions() + control()
    found += globals_and_calls(len(found)) + memory()
    found += constants(base, [it.name for it in found].index("i64.load 0"))
    return found + of_pieces() + verifier(found, of_pieces())


def module_of(functions, base):
    """The module of functions of these names, as they are for this address."""
    there = {it.name: it for it in all_functions(base)}
    return joined(sections([there.get(it.name, it) for it in functions], CALLS, base, CONSTANTS))


def seen_instructions(functions):
    """The names of the instructions that the functions have."""
    module = wasm_module.Module(module_of(functions, STACK_END))
    return {name for function in module.functions for name, _ in function.body}


# In the stack, near both of its ends; among the constants, from their first one on; and where there is
# no memory.
STACK = [STACK_END - 256, STACK_END - 255, STACK_END - 100, STACK_END - 60, STACK_END - 49]
CONSTANT = [0, 1, 2, 60, 113]
NOWHERE = [1 << 33, (1 << 62) + STACK_END, (1 << 64) - 41, (1 << 64) - 8, (1 << 64) - 1]


def addresses(function, at):
    """The addresses for a parameter of a function, which may be written to; none where it is no
    address."""
    if function.name in ("memory.copy", "waits for a copy") and at == 1:
        return [*STACK, STACK_END, STACK_END + 3, *NOWHERE]
    if "constants" in function.name:
        return CONSTANT
    is_memory = any(it in function.name for it in (".load", ".store", "memory.", "waits for"))
    if at or not is_memory:
        return []
    return [*STACK, STACK_END, STACK_END + 3, *NOWHERE] if ".load" in function.name else STACK + NOWHERE


def arguments_of(function, chance):
    """Lists of arguments for a function: all pairs of edges, or some at random where they are more."""
    choices = [addresses(function, at) or EDGES[it] for at, it in enumerate(function.parameters)]
    if function.name == "count down":
        choices = [[0, 1, 2, 77]]
    if function.name == "after a trap":
        choices[0] = [0xFFFFFFFF, 0xFFFFFFF0]
    if function.name.startswith("memory."):
        choices[2] = [0, 1, 2, 3, 7, 8, 40, 49, 1 << 32, 1 << 63]
    every = [[]]
    for choice in choices:
        every = [[*it, value] for it in every for value in choice]
    if function.name.startswith("memory."):
        # (Of no bytes WebAssembly traps where there is no memory. In C nothing is done.)
        every = [it for it in every if it[2] > 0 or not set(it) & set(NOWHERE)]
    return every if len(every) <= 1000 else chance.sample(every, 1000)


def cases_of(functions):
    """Calls of all functions but the verifier's own."""
    chance, cases = random.Random(8554), []
    for number, function in enumerate(functions):
        if function.name in CALLS:
            continue
        for values in arguments_of(function, chance):
            pairs = list(zip(function.parameters, values))
            cases.append(Case(number, pairs, seed=chance.randrange(1, 1 << 32), in_call=chance.choice(EDGES["i32"][:4])))
    return cases
