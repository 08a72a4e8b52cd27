"""Finds where a select has another width in C-INTERCAL than here, and gives it C-INTERCAL's.

C-INTERCAL fixes widths when it compiles: a select is as wide as its right operand. Here the ones of its right operand
decide when it is computed: more than 16 make 32 bits. Only a unary operator over the select shows the difference, in
the bits 15 and 31 of its result.
"""
from typing import NamedTuple, Optional

import ick_source

SHOWN = 1 << 31 | 1 << 15
MASK = b"#65535$#65535"


class Doubt(NamedTuple):
    """A group whose unary operator shows the difference: where it begins, and the operand between two places."""

    at: int
    start: int
    end: int


class Width(NamedTuple):
    """The width of an operand in C-INTERCAL, and here, if that is known. Bits can be possible, and some of them sure."""

    theirs: int
    ours: Optional[int]
    possible: int
    sure: int = 0
    doubt: Optional[Doubt] = None

    def number(self):
        """The number of a constant, or None."""
        return self.sure if self.sure == self.possible else None

    def may_be(self, number):
        """Whether the operand can have a number as its value, as far as its constants tell."""
        return not number & ~self.possible and not self.sure & ~number


def mingle(left, right):
    return sum((left >> place & 1) << 2 * place + 1 | (right >> place & 1) << 2 * place for place in range(16))


def select(left, right):
    places = [place for place in range(32) if right >> place & 1]
    return sum((left >> place & 1) << packed for packed, place in enumerate(places))


def unary(operator, possible, sure, width):
    """The possible and the sure bits of a unary operator's result. Of an operator that isn't known here no bit is."""
    rotated = [bits >> 1 | (bits & 1) << width - 1 for bits in (possible, sure)]
    if operator == b"&":
        return possible & rotated[0], sure & rotated[1]
    if operator == b"V":
        return possible | rotated[0], sure | rotated[1]
    if operator == b"?":
        unknown, ones = possible ^ sure | rotated[0] ^ rotated[1], sure ^ rotated[1]
        return ones | unknown, ones & ~unknown
    return (1 << width) - 1, 0


class Operand(NamedTuple):
    """An operand that was met, and where it begins."""

    width: Width
    start: int


class Operands:
    """The operands of a recognised statement, which each operation takes and gives. `doubts` are those of its groups."""

    def __init__(self, one):
        self.source, self.stack, self.operators, self.doubts, self.last = one.source, [], [], [], None
        for mark in one.marks:
            self.meet(mark)

    def meet(self, mark):
        kind, start, end = mark
        if kind == "operator":
            self.operators.append(mark)
        elif kind in ("variable", "element"):
            while kind == "element" and self.stack and self.stack[-1].start > start:
                self.stack.pop()
            self.push(variable(32 if self.source[start:start + 1] in b":;" else 16), start)
        elif kind == "mesh":
            number = ick_source.value(self.source, start) & 65535
            self.push(Width(16, 16, number, number), start)
        elif kind == "unary":
            operator = self.operators.pop()
            doubt = Doubt(start, operator.end, end - 1)
            self.push(self.under(self.source[operator.start:operator.end], self.stack.pop().width, doubt), start)
        elif kind == "binary":
            right, left, operator = self.stack.pop().width, self.stack.pop().width, self.operators.pop()
            self.push(self.joined(self.source[operator.start:operator.end], left, right), start)

    def push(self, width, start):
        self.last = width
        self.stack.append(Operand(width, start))

    def joined(self, operator, left, right):
        number = right.number()
        if operator == b"$":
            return Width(32, 32, mingle(left.possible, right.possible), mingle(left.sure, right.sure))
        if number is None:
            ours = 16 if right.theirs == 16 else None
            return Width(right.theirs, ours, (1 << bin(right.possible).count("1")) - 1)
        if left.doubt and not number & SHOWN:
            self.doubts.remove(left.doubt)
        ours = 32 if bin(number).count("1") > 16 else 16
        return Width(right.theirs, ours, select(left.possible, number), select(left.sure, number))

    def under(self, operator, width, doubt):
        """The width of an operand with a unary operator in front."""
        possible, sure = unary(operator, width.possible, width.sure, width.theirs)
        if width.theirs == width.ours:
            return Width(width.theirs, width.ours, possible, sure)
        self.doubts.append(doubt)
        return Width(32, 32, possible, sure, doubt)


def variable(width):
    return Width(width, width, (1 << width) - 1)


def width_of(expression):
    return Operands(ick_source.cut(b"DO FORGET " + expression)[0]).last


def doubts(one):
    """The doubts of a statement."""
    return Operands(one).doubts if b"~" in one.text() and one.read() else []


def masked(source, tell):
    """The source with a mask of 32 ones around each operand in doubt. `tell` takes a place and what is changed there."""
    added = []
    for doubt in (doubt for one in ick_source.cut(source) for doubt in doubts(one)):
        mark = source[doubt.at:doubt.at + 1]
        other = b"\"" if mark == b"'" else b"'"
        # subscripts in the operand may begin with the other mark
        inner = mark if b"SUB" in source[doubt.start:doubt.end] else other
        added += [(doubt.start, inner), (doubt.end, b"%s~%s%s%s" % (inner, other, MASK, other))]
        tell(doubt.at, "the operand is masked, so that it has 32 bits as in C-INTERCAL")
    parts, at = [], 0
    for place, text in sorted(added):
        parts += [source[at:place], text]
        at = place
    return b"".join(parts) + source[at:]
