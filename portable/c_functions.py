"""Function bodies of WebAssembly as C: the operand stack becomes expressions, locals become variables,
labels those of C."""

import re

from c_values import C_TYPES, MEMORY, Value, binary, call, cast, comparison, constant, reads_of, shift
from wasm_module import BITS, Refused

# The fields of struct machine for the globals of these names.
GLOBALS = {"__stack_pointer": "stack_pointer", "in_call": "in_call"}
# A function's name stands in a comment, which nothing in it can end.
NAME = re.compile("[A-Za-z0-9_.:<># ]+")
OPERATORS = {"add": "+", "sub": "-", "mul": "*", "and": "&", "or": "|", "xor": "^"}
SHIFTS = {"shl": "<<", "shr_u": ">>"}
COMPARISONS = {
    "eq": ("==", "!="), "ne": ("!=", "=="), "lt_u": ("<", ">="), "gt_u": (">", "<="), "le_u": ("<=", ">"), "ge_u": (">=", "<"),
}


class Label:
    """A block or loop that is open: its name in C, the place that a branch to it goes to, and whether
    there is a branch to it."""

    def __init__(self, kind, number):
        self.kind, self.used = kind, False
        self.name = f"{'again' if kind == 'loop' else 'after'}{number}"


class Body:
    """The translation of a function's body. `names` has the C name of each function, `constants`
    says which of its instructions have an address of the constants as their immediate, and the
    address of the first one. `load64` is the C function for i64.load."""

    def __init__(self, module, index, names, constants, load64):
        self.module, self.names, self.load64 = module, names, load64
        self.constants, self.base = constants, module.data[0]
        self.function, self.name = module.functions[index], names[index]
        self.locals = [*self.function.parameters, *self.function.locals]
        self.lines, self.operands, self.temporaries, self.labels = [], [], [], []
        self.label_count, self.reachable, self.at = 0, True, 0
        if len(self.function.results) > 1:
            self.refuse("several results")
        if not NAME.fullmatch(self.function.name):
            self.refuse("a name that may not stand in a comment")
        self.result = self.function.results[0] if self.function.results else None

    def refuse(self, why):
        raise Refused(f"{self.function.name}, instruction {self.at}: {why}")

    def text(self):
        """The function in C."""
        self.open(Label("function", 0))
        for self.at, (name, immediate) in enumerate(self.function.body):
            if not self.labels:
                self.refuse(f"{name} after the end")
            if not self.reachable and name != "end":
                self.refuse(f"{name} where nothing gets")
            self.translate(name, immediate)
        if self.labels:
            self.refuse("the body has no end")
        return "\n".join([f"/* {self.function.name} */", f"{self.head()} {{", *self.declarations(), *self.lines, "}", ""])

    def head(self):
        """The function's head in C."""
        parameters = [f"{C_TYPES[it]} {self.local(at)}" for at, it in enumerate(self.function.parameters)]
        result = C_TYPES[self.result] if self.result else "void"
        return f"static {result} {self.name}({', '.join(['struct machine *m', *parameters])})"

    def declarations(self):
        """The locals, zero as in WebAssembly, and the temporaries."""
        own = [(self.local(at), it) for at, it in enumerate(self.locals)][len(self.function.parameters) :]
        variables = own + [(f"t{at}", it) for at, it in enumerate(self.temporaries)]
        names = {it: ", ".join(f"{name} = 0" for name, valtype in variables if valtype == it) for it in C_TYPES}
        return [f"    {C_TYPES[it]} {names[it]};" for it in C_TYPES if names[it]]

    def local(self, at):
        """The C name of a local."""
        if at >= len(self.locals):
            self.refuse(f"there is no local {at}")
        return f"p{at}" if at < len(self.function.parameters) else f"l{at}"

    # The operand stack.

    def push(self, value):
        self.operands.append(value)

    def pop(self, valtype, may_be_address=False):
        """The last operand, of this type. It may be an address of the constants only where nothing is
        done with the number, which C compilers choose, but to add to it."""
        if not self.operands:
            self.refuse("there is no operand")
        value = self.operands.pop()
        if value.valtype != valtype:
            self.refuse(f"an operand of type {value.valtype}, where one of type {valtype} should be")
        if value.is_address and not may_be_address:
            self.refuse("an address of the constants, where no module of ours has one")
        return value

    def no_operands(self, name):
        """No operand is left, where the module of ours leaves none."""
        if self.operands:
            self.refuse(f"{name}, with operands left")

    def put_aside(self, changed):
        """Has the operands computed that read this, before it changes."""
        for at, value in enumerate(self.operands):
            if changed in value.reads:
                self.operands[at] = self.temporary(value.valtype, value.plain(), value.is_address)

    def temporary(self, valtype, text, is_address=False):
        """A variable that keeps the value of this text."""
        name = f"t{len(self.temporaries)}"
        self.temporaries.append(valtype)
        self.say(f"{name} = {text};")
        return Value(valtype, name, is_address=is_address)

    # Statements.

    def say(self, line):
        depth = 1 + sum(it.kind == "loop" for it in self.labels)
        self.lines.append("    " * depth + line)

    def open(self, label):
        self.no_operands(label.kind)
        self.labels.append(label)

    def goto(self, depth):
        """The statement that branches to a label."""
        if depth >= len(self.labels) - 1:
            self.refuse("a branch out of the function")
        label = self.labels[-1 - depth]
        label.used = True
        return f"goto {label.name};"

    def leave(self):
        """The statement that returns."""
        value = f" {self.pop(self.result).plain()}" if self.result else ""
        self.no_operands("a return")
        return f"return{value};"

    def translate(self, name, immediate):
        """Translates an instruction."""
        valtype, _, operation = name.partition(".")
        if operation in OPERATORS:
            right = self.pop(valtype, operation == "add")
            left = self.pop(valtype, operation == "add" and not right.is_address)
            self.push(binary(valtype, OPERATORS[operation], left, right))
        elif operation in SHIFTS:
            right, left = self.pop(valtype), self.pop(valtype)
            self.push(shift(valtype, SHIFTS[operation], left, right))
        elif operation in COMPARISONS:
            right, left = self.pop(valtype), self.pop(valtype)
            self.push(comparison(*COMPARISONS[operation], left, right))
        else:
            getattr(self, "on_" + name.replace(".", "_"))(immediate)

    # Control instructions.

    def on_unreachable(self, _):
        self.no_operands("unreachable")
        self.say(f"UNREACHABLE({'0' if self.result else ''});")
        self.reachable = False

    def on_block(self, _):
        self.open(Label("block", self.label_count))
        self.label_count += 1

    def on_loop(self, _):
        label = Label("loop", self.label_count)
        self.label_count += 1
        self.say(f"{label.name}: LOOP({'0' if self.result else ''});")
        self.open(label)

    def on_end(self, _):
        label = self.labels[-1]
        if label.kind == "function":
            if self.reachable and self.result:
                self.say(self.leave())
        elif label.kind == "loop" and not label.used:
            self.refuse("a loop that is never repeated")
        self.no_operands("end")
        self.labels.pop()
        if label.kind == "block" and label.used:
            self.say(f"{label.name}:;")
            self.reachable = True

    def on_br(self, depth):
        self.no_operands("br")
        self.say(self.goto(depth))
        self.reachable = False

    def on_br_if(self, depth):
        test = self.pop("i32").is_true()
        self.no_operands("br_if")
        self.say(f"if ({test}) {self.goto(depth)}")

    def on_br_table(self, depths):
        index = self.pop("i32").plain()
        self.no_operands("br_table")
        self.say(f"switch ({index}) {{")
        for case, depth in enumerate(depths[:-1]):
            self.say(f"case {case}: {self.goto(depth)}")
        self.say(f"default: {self.goto(depths[-1])}")
        self.say("}")
        self.reachable = False

    def on_return(self, _):
        self.say(self.leave())
        self.reachable = False

    def on_call(self, index):
        called = self.module.functions[index]
        values = [self.pop(it, True) for it in reversed(called.parameters)][::-1]
        self.put_aside(MEMORY)
        text = f"{self.names[index]}({', '.join(['m', *(it.plain() for it in values)])})"
        if called.results:
            self.push(self.temporary(called.results[0], text))
        else:
            self.say(f"{text};")

    def on_select(self, _):
        test = self.pop("i32")
        second = self.pop("i64")
        first = self.pop("i64")
        if MEMORY in reads_of(first, second):
            self.refuse("a select of what is loaded")
        text = f"{test.is_true()} ? {first.operand()} : {second.operand()}"
        self.push(Value("i64", text, "?", reads_of(test, first, second)))

    # Variables.

    def on_local_get(self, at):
        self.push(Value(self.valtype_of(at), self.local(at), reads=frozenset([at])))

    def on_local_set(self, at):
        value = self.pop(self.valtype_of(at))
        if value.text != self.local(at):
            self.put_aside(at)
            self.say(f"{self.local(at)} = {value.plain()};")

    def on_local_tee(self, at):
        self.on_local_set(at)
        self.on_local_get(at)

    def valtype_of(self, at):
        """The type of a local."""
        self.local(at)
        return self.locals[at]

    def on_global_get(self, at):
        valtype, field = self.global_of(at)
        self.push(Value(valtype, f"m->{field}", reads=frozenset([MEMORY])))

    def on_global_set(self, at):
        valtype, field = self.global_of(at)
        value = self.pop(valtype)
        self.put_aside(MEMORY)
        self.say(f"m->{field} = {value.plain()};")

    def global_of(self, at):
        """The type of a global that changes, and its field."""
        valtype, changes, _ = self.module.globals[at]
        name = self.module.global_names.get(at)
        if name not in GLOBALS or not changes:
            self.refuse(f"the global {name}")
        return valtype, GLOBALS[name]

    # Memory.

    def address(self, base, offset):
        """An address, and the offset that is added."""
        if self.is_address():
            offset = self.constant_at(offset)
        elif offset >= 0x10000:
            offset = constant("i64", offset).text
        return f"m, {base.plain()}, {offset}"

    def is_address(self):
        """The immediate is an address of the constants."""
        return self.at in self.constants

    def constant_at(self, address):
        return f"CONSTANT({address - self.base})"

    def load(self, valtype, function, offset):
        base = self.pop("i64", not self.is_address())
        self.push(Value(valtype, f"{function}({self.address(base, offset)})", reads=base.reads | {MEMORY}))

    def on_i32_load(self, offset):
        self.load("i32", "i32_load", offset)

    def on_i32_load8_u(self, offset):
        self.load("i32", "i32_load8_u", offset)

    def on_i64_load(self, offset):
        self.load("i64", self.load64, offset)

    def store(self, valtype, function, offset):
        value, base = self.pop(valtype), self.pop("i64")
        self.put_aside(MEMORY)
        self.say(f"{function}({self.address(base, offset)}, {value.plain()});")

    def on_i32_store(self, offset):
        self.store("i32", "i32_store", offset)

    def on_i32_store8(self, offset):
        self.store("i32", "i32_store8", offset)

    def on_i32_store16(self, offset):
        self.store("i32", "i32_store16", offset)

    def on_i64_store(self, offset):
        self.store("i64", "i64_store", offset)

    def on_memory_copy(self, _):
        size, source, to = self.pop("i64"), self.pop("i64"), self.pop("i64")
        self.put_aside(MEMORY)
        self.say(f"memory_copy(m, {to.plain()}, {source.plain()}, {size.plain()});")

    def on_memory_fill(self, _):
        size, byte, to = self.pop("i64"), self.pop("i32"), self.pop("i64")
        self.put_aside(MEMORY)
        self.say(f"memory_fill(m, {to.plain()}, {byte.plain()}, {size.plain()});")

    # Numbers.

    def on_i32_const(self, number):
        self.push(constant("i32", number))

    def on_i64_const(self, number):
        is_address = self.is_address()
        self.push(Value("i64", self.constant_at(number), is_address=True) if is_address else constant("i64", number))

    def on_i32_eqz(self, _):
        self.equals_zero("i32")

    def on_i64_eqz(self, _):
        self.equals_zero("i64")

    def equals_zero(self, valtype):
        value = self.pop(valtype)
        self.push(Value("i32", value.is_false(), "==", value.reads, opposite=value.is_true()))

    def on_i64_lt_s(self, _):
        right, left = self.pop("i64"), self.pop("i64")
        less = call("i32", "i64_lt_s", left, right)
        self.push(Value("i32", less.text, None, less.reads, opposite=f"!{less.text}"))

    def on_i32_rotl(self, _):
        self.rotate("i32_rotl")

    def on_i32_rotr(self, _):
        self.rotate("i32_rotr")

    def rotate(self, function):
        places, value = self.pop("i32"), self.pop("i32")
        if places.number is None or not 0 < places.number < BITS["i32"]:
            self.refuse("a rotation by another number of places than the constants 1 to 31")
        self.push(Value("i32", f"{function}({value.plain()}, {places.number})", reads=value.reads))

    def on_i32_wrap_i64(self, _):
        self.push(cast("i32", self.pop("i64")))

    def on_i64_extend_i32_u(self, _):
        self.push(cast("i64", self.pop("i32")))
