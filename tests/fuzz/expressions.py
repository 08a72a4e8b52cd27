"""Makes expressions from the rules of lowering, with their values by the definitions of the operators.

The forms of the expressions are the examples in the table of rules of crates/ick_lowering/RULES.md. A form's masks get
a bit more or less, its names become others, and a form may stand in another one.
"""
import functools
import re
from typing import NamedTuple

from ick_widths import mingle, select, unary
from tally import TOP, text_of

LEAF = re.compile(r"(,\d+SUB#\d+)|([.:#])([&V?]?)(\d+)")
NAMES = [".1", ".2", ".3", ":1", ":2", ",1SUB#2"]
# The lowest bits of a number, which a field moves nowhere.
WITHOUT_EXAMPLE = [".1~#255", ":1~#255"]
NUMBERS = [0, 0, 1, 2, 3, 255, 256, 32767, 32768, 65534, 65535]


class Node(NamedTuple):
    """A part of an expression: an operator with its operands, a mesh with its number, or a name."""

    kind: str
    parts: tuple


class Fault(Exception):
    """A calculation has the fault of this number."""


class Form:
    """An example of the table, which is read into nodes."""

    def __init__(self, text):
        self.text, self.at = text, 0

    def next(self):
        return self.text[self.at:self.at + 1]

    def take(self, choices):
        """Takes the next character, if it is one of these."""
        found = self.next()
        if not found or found not in choices:
            return ""
        self.at += 1
        return found

    def expression(self, mark=""):
        left = self.operand(mark)
        operator = self.take("$~")
        return Node(operator, (left, self.expression(mark))) if operator else left

    def operand(self, mark):
        leaf = LEAF.match(self.text, self.at)
        if leaf:
            self.at = leaf.end()
            element, kind, operator, number = leaf.groups()
            node = Node("name", (element or kind + number,)) if kind != "#" else Node("#", (int(number),))
            return Node(operator, (node,)) if operator else node
        opened = self.take("'\"".replace(mark, "") if mark else "'\"")
        if not opened:
            raise ValueError(self.text)
        operator = self.take("&V?")
        inner = self.expression(opened)
        if not self.take(opened):
            raise ValueError(self.text)
        return Node(operator, (inner,)) if operator else inner


@functools.lru_cache()
def forms():
    """Returns the expressions of the table, and those that the rules have no example of."""
    table = text_of(TOP, "crates", "ick_lowering", "RULES.md").split("\n## Rules\n")[1].split("\n## ")[0]
    found = [Form(text).expression() for text in WITHOUT_EXAMPLE]
    for row in re.findall(r"^\| .*", table, re.MULTILINE):
        for text in re.findall(r"`([^`]*)`", row.split(" | ")[2]):
            form = Form(text.rpartition("<- ")[2])
            try:
                node = form.expression()
            except ValueError:
                continue
            if not form.next():
                found.append(node)
    return found


def printed(node, mark="", is_operand=True):
    """Returns the text of a part, which is inside a group with this mark."""
    if node.kind in "#":
        return f"#{node.parts[0]}"
    if node.kind == "name":
        return node.parts[0]
    inner = "'" if mark == '"' or not mark else '"'
    if node.kind in "$~":
        if is_operand:
            return inner + printed(node, inner, is_operand=False) + inner
        left, right = node.parts
        return printed(left, mark) + node.kind + printed(right, mark)
    part = node.parts[0]
    text = printed(part, inner, is_operand=False)
    if part.kind in ("#", "name") and text[0] != ",":
        return text[0] + node.kind + text[1:]
    return inner + node.kind + text + inner


def value(node, numbers):
    """Returns the number and the width of a part, if the names have these numbers. It may raise a fault."""
    if node.kind == "#":
        return node.parts[0], 16
    if node.kind == "name":
        return numbers[node.parts[0]], 32 if node.parts[0][0] == ":" else 16
    found = [value(part, numbers) for part in node.parts]
    (left, width), (right, _) = found[0], found[-1]
    if node.kind == "$":
        if max(left, right) > 65535:
            raise Fault(533)
        return mingle(left, right), 32
    if node.kind == "~":
        return select(left, right), 32 if bin(right).count("1") > 16 else 16
    return unary(node.kind.encode(), left, left, width)[1], width


def replaced(node, part):
    """Yields the node with each of its names in turn replaced by a part."""
    if node.kind == "name":
        yield part
    elif node.kind != "#":
        for place, inner in enumerate(node.parts):
            for other in replaced(inner, part):
                yield Node(node.kind, (*node.parts[:place], other, *node.parts[place + 1:]))


@functools.lru_cache()
def nested_forms():
    """Returns each form, and each form with one of its names replaced by another form."""
    return forms() + [nested for form in forms() for part in forms() for nested in replaced(form, part)]


def varied(random, node, rate):
    """Returns a part that differs from another one a little: in its meshes at this rate, and in its operators at half
    of the rate.
    """
    draw = random.random()
    if node.kind == "#":
        number = node.parts[0]
        if draw < rate * 0.7:
            number ^= 1 << random.randrange(16)
        elif draw < rate:
            low = (1 << random.randrange(17)) - 1
            number = random.choice([number >> 1, number << 1 & 65535, number ^ 65535, low, random.choice(NUMBERS)])
        return Node("#", (number,))
    if node.kind == "name":
        if draw < rate / 4:
            return varied(random, random.choice(forms()), 0)
        alike = [name for name in NAMES if name[0] == node.parts[0][0] or random.random() < rate]
        return Node("name", (random.choice(alike),)) if draw < 0.3 else node
    parts = tuple(varied(random, part, rate) for part in node.parts)
    kind = node.kind
    if kind in "&V?" and draw < rate / 2:
        kind = random.choice("&V?")
    elif kind in "$~" and draw < rate / 2:
        kind, parts = random.choice([("$", parts), ("~", parts), (kind, parts[::-1])])
    return Node(kind, parts)


def number_for(random, most):
    """Returns a number up to a power of two less 1."""
    number = random.choice([*NUMBERS, random.getrandbits(32), random.getrandbits(16), 1 << random.randrange(32)])
    return number & most
