#!/usr/bin/env python3
"""wasm_to_c.py MODULE OTHER TEMPLATE: prints the verifier as one C file.

MODULE is the verifier's library linked for wasm64, OTHER the same with a stack of another size.
Whatever number differs between the two is an address of the constants, and no other number is one.
TEMPLATE has the memory and the calls; what stands between @ there is put in. Whatever the module has
that no module of ours has had is refused, by its name."""

import hashlib
import pathlib
import re
import sys

from c_functions import Body
from wasm_module import Module, Refused
from wasm_stack import need_of, order_of

# The call that is given an array of the caller's, whose elements have another layout in C.
PIECES = "lms_verify_pieces"
# The call whose answer is written to the top of the module's stack, and how much of that it takes.
HEAD, HEAD_BYTES = "lms_message_head", 64
# The compression of SHA-256, which a function of the caller's may take the place of.
COMPRESSION = "sha2::block256::compress"
NO_COMPRESSION = "no_compression"
# How many pointers and lengths lms.h's functions are given. (Their answer is an i32.)
PARAMETERS = {"lms_verify": 6, PIECES: 6, HEAD: 5, "lms_verify_hash": 5}


def addresses(module, other):
    """For each function the instructions with an immediate that is an address of the constants: those
    in which the two modules differ."""
    (base, constants), (base_there, constants_there) = module.data, other.data
    if base == base_there:
        raise Refused("the two modules have their constants at the same address")
    if constants != constants_there or len(module.functions) != len(other.functions):
        raise Refused("the two modules are not of one library")
    found = []
    for one, two in zip(module.functions, other.functions):
        if len(one.body) != len(two.body) or (one.parameters, one.results, one.locals) != (two.parameters, two.results, two.locals):
            raise Refused("the two modules are not of one library")
        differ = [at for at, (it, there) in enumerate(zip(one.body, two.body)) if it != there]
        for at in differ:
            (name, here), (name_there, there) = one.body[at], two.body[at]
            is_one = name == name_there and (name == "i64.const" or ".load" in name) and there - here == base_there - base
            if not is_one or not 0 <= here - base < len(constants):
                raise Refused(f"{one.name}, instruction {at}: {name} {here} differs, and is no address of a constant")
        found.append(frozenset(differ))
    return found


def check_calls(module):
    """What is exported has the types of lms.h's functions. (That it is these, the template says.)"""
    for name, index in module.exports.items():
        function = module.functions[index]
        if name in PARAMETERS and (function.parameters, function.results) != (["i64"] * PARAMETERS[name], ["i32"]):
            raise Refused(f"{name} has another type than lms.h's function")


def c_name(index, name):
    """A C name for the path of a function."""
    path = re.sub(r"::<.*", "", name).split("::")[-2:]
    return f"f{index}_{re.sub('[^A-Za-z0-9]+', '_', '_'.join(path)).strip('_')}"


def compression_of(module, names):
    """The name in C of the function that is the compression of SHA-256: it takes the addresses of a state and
    of a block, and answers nothing. Where there is none, that of no function: LMS_COMPRESS does not compile."""
    found = [(name, it) for name, it in zip(names, module.functions) if it.name == COMPRESSION]
    if len(found) > 1 or any((it.parameters, it.results) != (["i64"] * 2, []) for _, it in found):
        raise Refused(f"{COMPRESSION} is not one function of a state and a block")
    return found[0][0] if found else NO_COMPRESSION


def with_compression(functions, name):
    """The text of the functions, with COMPRESS called in place of the compression of this name, if there is one."""
    # (In its own definition no blank follows the name of the machine's pointer.)
    call = f"{name}(m, "
    if name != NO_COMPRESSION and call not in functions:
        raise Refused(f"no call uses {COMPRESSION}")
    return functions.replace(call, "COMPRESS(m, ")


def functions_of(module, marks):
    """The names of all functions in C, and the text of those that are called, each after those that
    it calls."""
    names = [c_name(index, it.name) for index, it in enumerate(module.functions)]
    others = order_of(module, [index for name, index in module.exports.items() if name != PIECES])
    texts = []
    for index in order_of(module, module.exports.values()):
        load64 = "i64_load" if index in others else "i64_load_or_piece"
        texts.append(Body(module, index, names, marks[index], load64).text())
    return names, "\n".join(texts)


def stack_of(module):
    """The bytes of stack that the deepest call needs, of those that the module has."""
    needs = {name: need_of(module, index) + (HEAD_BYTES if name == HEAD else 0) for name, index in module.exports.items()}
    deepest, place = max(needs, key=needs.get), module.data[0]
    if needs[deepest] > place:
        raise Refused(f"{deepest} needs {needs[deepest]} bytes of stack, and there are {place}")
    return needs[deepest]


def rows(contents):
    """Bytes as C numbers, 16 in a row."""
    return ",\n".join("    " + ", ".join(f"0x{it:02x}" for it in contents[at : at + 16]) for at in range(0, len(contents), 16))


def filled(template, values):
    """The template with its values put in, all of which it asks for."""
    asked = set(re.findall(r"@(\w+)@", template))
    if asked != set(values):
        raise Refused(f"module and template have not the same names: {' '.join(sorted(asked ^ set(values)))}")
    return re.sub(r"@(\w+)@", lambda found: values[found[1]], template)


def c_file(contents, other, template):
    """The C file of the module with these bytes."""
    module, there = Module(contents), Module(other)
    for at, name in module.global_names.items():
        if name == "in_call" and module.globals[at] != ("i32", True, 0):
            raise Refused("in_call does not begin with 0")
    check_calls(module)
    names, functions = functions_of(module, addresses(module, there))
    base, constants = module.data
    compression = compression_of(module, names)
    values = {
        "MODULE": hashlib.sha256(contents).hexdigest(),
        "STACK_BYTES": str(stack_of(module)),
        "STACK_END": f"{base:#x}",
        "CONSTANTS_LEN": str(len(constants)),
        "CONSTANTS": rows(constants),
        "HEAD_BYTES": str(HEAD_BYTES),
        "COMPRESS": compression,
        "FUNCTIONS": with_compression(functions, compression),
    }
    values.update((f"CALL_{name}", names[index]) for name, index in module.exports.items())
    return filled(template, values)


def main():
    if len(sys.argv) != 4:
        sys.exit("usage: wasm_to_c.py MODULE OTHER TEMPLATE")
    contents, other, template = (pathlib.Path(it).read_bytes() for it in sys.argv[1:])
    try:
        sys.stdout.write(c_file(contents, other, template.decode()))
    except Refused as why:
        sys.exit(f"wasm_to_c.py: {why}")


if __name__ == "__main__":
    main()
