"""Operands of WebAssembly as C expressions."""

from wasm_module import BITS

C_TYPES = {"i32": "uint32_t", "i64": "uint64_t"}
# What an expression may read beside locals.
MEMORY = "memory"
# Of several operands of such an operator in a row, the first ones need no parentheses.
ASSOCIATIVE = "+ & | ^".split()


class Value:
    """An operand: C text that computes it, of the unsigned type of its bits.

    `operator` is the outermost one of the text, where parentheses may be needed. `reads` has the
    locals, and MEMORY, that change the value when they change. A constant has its `number`. A
    condition has the text of its `opposite`; its own text is 0 or 1 as an int. `is_address` says that
    it is an address of the constants, or a sum with one."""

    def __init__(self, valtype, text, operator=None, reads=frozenset(), number=None, opposite=None, is_address=False):
        self.valtype, self.text, self.operator, self.reads = valtype, text, operator, reads
        self.number, self.opposite, self.is_address = number, opposite, is_address

    def plain(self):
        """The text where nothing stands beside it."""
        return f"(uint32_t)({self.text})" if self.opposite else self.text

    def operand(self, operator=None):
        """The text as an operand, or as the first one of this operator."""
        is_alone = self.operator is None or self.opposite or (operator == self.operator and operator in ASSOCIATIVE)
        return self.plain() if is_alone else f"({self.text})"

    def is_true(self):
        """A C condition: it is not zero."""
        return self.text if self.opposite else f"{self.operand()} != 0"

    def is_false(self):
        """A C condition: it is zero."""
        return self.opposite or f"{self.operand()} == 0"


def reads_of(*values):
    """What these values read."""
    return frozenset().union(*(it.reads for it in values))


def constant(valtype, number):
    """A number."""
    suffix = "u" if valtype == "i32" else "ull"
    return Value(valtype, f"{number}{suffix}" if number < 0x10000 else f"{number:#x}{suffix}", number=number)


def binary(valtype, operator, left, right):
    """Two operands with an operator between them; x + (-5) is written x - 5."""
    bits = BITS[valtype]
    if operator == "+" and right.number is not None and right.number > (1 << bits) - 0x10000:
        operator, right = "-", constant(valtype, (1 << bits) - right.number)
    text, is_address = f"{left.operand(operator)} {operator} {right.operand()}", left.is_address or right.is_address
    return Value(valtype, text, operator, reads_of(left, right), is_address=is_address)


def comparison(operator, opposite, left, right):
    """A condition that compares two operands."""
    texts = [f"{left.operand()} {it} {right.operand()}" for it in (operator, opposite)]
    return Value("i32", texts[0], operator, reads_of(left, right), opposite=texts[1])


def shift(valtype, operator, left, right):
    """A shift; of the number of places the lowest bits count."""
    most = BITS[valtype] - 1
    places = f"({right.operand()} & {most})" if right.number is None else str(right.number & most)
    return Value(valtype, f"{left.operand()} {operator} {places}", operator, reads_of(left, right))


def call(valtype, function, *values):
    """A C function of these values."""
    return Value(valtype, f"{function}({', '.join(it.plain() for it in values)})", reads=reads_of(*values))


def cast(valtype, value):
    """The value with the bits of another type: the lowest ones, or zeros before it."""
    return Value(valtype, f"({C_TYPES[valtype]}){value.operand()}", "cast", value.reads)
