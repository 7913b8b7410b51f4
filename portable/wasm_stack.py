"""How much of its stack a module needs. The stack lies below the constants, and the global
__stack_pointer says where it begins to be free. Nothing here is measured: frames are added up along
the calls."""

from wasm_module import Refused

POINTER = "__stack_pointer"
# Frames are of whole steps, so that what is aligned in them is aligned in memory.
STEP = 16
# What may follow where the stack pointer is read: a test whether it is less than 16.
TEST = [("i64.const", 16), ("i64.lt_s", None)]


def pointer_of(module):
    """The index of the stack pointer, which first is where the constants begin."""
    found = [at for at, name in module.global_names.items() if name == POINTER]
    if len(found) != 1 or module.globals[found[0]] != ("i64", True, module.data[0]):
        raise Refused(f"the module has no {POINTER} that begins where its constants do")
    return found[0]


def refuse(function, why):
    raise Refused(f"{function.name} {why}")


def called_by(module, index):
    """The functions that a function calls itself."""
    return {immediate for name, immediate in module.functions[index].body if name == "call"}


def order_of(module, indices, above=()):
    """These functions and all that they call, each after those that it calls itself."""
    order = []
    for index in sorted(indices):
        if index in above:
            refuse(module.functions[index], "calls itself")
        for it in [*order_of(module, called_by(module, index), (*above, index)), index]:
            if it not in order:
                order.append(it)
    return order


def prologue(body, pointer):
    """At the beginning of a body, after blocks that it opens: how many bytes of stack it takes, the
    local that then has the stack pointer, and how many instructions that are."""
    start = next(at for at, it in enumerate(body) if it[0] != "block")
    words = body[start : start + 5]
    if [it[0] for it in words] == ["global.get", "i64.const", "i64.sub", "local.tee", "global.set"] and words[4][1] == pointer:
        size, local, end = words[1][1], words[3][1], start + 5
    elif [it[0] for it in words[:2]] == ["global.get", "local.tee"]:
        size, local, end = 0, words[1][1], start + 2
    else:
        return None
    return (size, local, end) if words[0][1] == pointer else None


def frame_of(module, index):
    """The bytes of stack that a function takes at its beginning, by one local that it never changes,
    and gives back by it on each way out."""
    function, pointer = module.functions[index], pointer_of(module)
    if ("global.set", pointer) not in function.body:
        check_reads(function, pointer, [("global.get", pointer)], 0)
        return 0
    frame = prologue(function.body, pointer) or refuse(function, "takes stack in another way than at its beginning")
    size, local, end = frame
    check_size(function, size, module.data[0])
    check_local(function, pointer, frame)
    # (A local with no frame below it is the stack pointer itself.)
    own = [] if size else [("local.get", local), ("local.tee", local)]
    check_reads(function, pointer, [("global.get", pointer), *own], end if size else end - 1)
    check_ways(function, pointer, end - 1)
    return size


def check_size(function, size, place):
    """A frame is a part of the stack. (A negative number is read as a large one.)"""
    if size > place:
        refuse(function, f"takes {size} bytes of stack, and there are {place}")
    if size % STEP:
        refuse(function, f"takes {size} bytes of stack, which is no multiple of {STEP}")


def check_local(function, pointer, frame):
    """The local stays as it is, and the stack is given back by it alone."""
    body, (size, local, end) = function.body, frame
    own = ("local.get", local)
    back = [own, ("i64.const", size), ("i64.add", None)] if size else [own]
    for at, it in enumerate(body[end:], end):
        if it in (("local.set", local), ("local.tee", local)) and body[at - 1] != own:
            refuse(function, "changes the local that has its stack pointer")
        if it == ("global.set", pointer) and body[at - len(back) : at] != back:
            refuse(function, "gives back stack in another way")


def check_reads(function, pointer, reads, start):
    """From an instruction on the stack pointer is tested and given back, and nothing else: no address
    below it is computed, since no frame would count what lies there."""
    body = function.body
    for at, it in enumerate(body[start:], start + 1):
        if it in reads and body[at : at + 2] != TEST and body[at : at + 1] != [("global.set", pointer)]:
            refuse(function, "uses the stack pointer for more than a frame")


def check_ways(function, pointer, taken):
    """On each way out the stack is given back that one instruction takes."""
    ways = Ways(function)
    for at, it in enumerate(function.body):
        if it == ("global.set", pointer):
            ways.held = at == taken
        ways.follow(*it)


class Ways:
    """The ways through a body, whose branches go to labels of it: whether the frame is held here, or
    none where no way leads. Where ways meet, it is held on all of them or on none."""

    def __init__(self, function):
        self.function, self.held = function, False
        # Whether it is held where a branch leads: at a block's end, at a loop's beginning.
        self.labels = [["block", None]]

    def follow(self, name, immediate):
        """Goes over an instruction."""
        if name in ("block", "loop"):
            self.labels.append([name, self.held if name == "loop" else None])
        elif name == "end":
            self.end()
        elif name == "return":
            self.leave()
        elif name in ("br", "br_if", "br_table"):
            for depth in immediate if name == "br_table" else [immediate]:
                self.branch(depth)
        if name in ("br", "br_table", "return", "unreachable"):
            self.held = None

    def branch(self, depth):
        label = self.labels[-1 - depth]
        label[1] = self.met(label[1])

    def end(self):
        kind, held = self.labels.pop()
        if kind == "block":
            self.held = self.met(held)
        if not self.labels:
            self.leave()

    def met(self, there):
        """Whether the frame is held where this way and those from elsewhere meet."""
        if None not in (there, self.held) and there != self.held:
            refuse(self.function, "gives back its stack on one of two ways that meet")
        return there if self.held is None else self.held

    def leave(self):
        if self.held:
            refuse(self.function, "does not give back its stack on each way out")


def need_of(module, index):
    """The bytes of stack that a function and what it calls take at most."""
    return frame_of(module, index) + max((need_of(module, it) for it in called_by(module, index)), default=0)
