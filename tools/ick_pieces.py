"""The pieces of statements with their places, and what can stand at a place.

The language server asks a program by this file alone.
"""
import collections
import re

import ick_source
from ick_source import DIGITS

# A piece: its kind, and its places in the source.
Piece = collections.namedtuple("Piece", "kind start end")
# A variable where a statement names it: its name, as .1, its places, the place of its digits, and what is done with it.
Name = collections.namedtuple("Name", "name start end digits use")
# A label where a statement names it, or has it as its own: its places and those of its digits.
Label = collections.namedtuple("Label", "label start end digits is_own")
# What can stand at a place: its name as ick-stages has it, the place, and what was typed from there on.
Wanted = collections.namedtuple("Wanted", "expected start typed")

START = "DO or PLEASE"
READ, STORED = "read", "stored"
USES = {"STASH": "stashed", "RETRIEVE": "retrieved", "IGNORE": "ignored", "REMEMBER": "remembered"}
TYPED = re.compile(rb"[(.:,;][\t-\r ]*[0-9]*\Z")
SUB = re.compile(rb"[\t-\r ]*SUB")
WORD = re.compile(rb"<-|\+|SUB|BY|NEXT")  # a word or a mark between the parts of a body that ick-stages marks


def pieces(one):
    """The pieces of a recognised body that are no variables or labels. A later one can be inside an earlier one."""
    found, rest = [], bytearray(one.source[one.body:one.end] if one.read() else b"")
    for kind, start, end in one.marks:
        if kind in ("mesh", "gerund", "operator"):
            found.append(Piece(kind, start, end))
        if kind in ("mesh", "gerund", "variable", "name", "label", "listed"):
            rest[start - one.body:end - one.body] = b" " * (end - start)
        if kind == "group":
            found += [Piece(kind, start, start + 1), Piece(kind, end - 1, end)]
    found += [Piece("operator", one.body + word.start(), one.body + word.end()) for word in WORD.finditer(rest)]
    return sorted(found, key=lambda it: it.start)


def names(one):
    """The variables of a statement that is read, in the order of their places."""
    return sorted(names_in(one), key=lambda it: it.start)


def names_in(one):
    items = {mark.start for mark in one.of_kind("action")} if one.kind in ("WRITE-IN", "READ-OUT") else set()
    alone = items - {mark.start for mark in one.marks if mark.kind != "action"}
    for kind, start, _ in one.marks:
        if kind in ("name", "variable", "listed") or kind == "action" and start in alone:
            digits = DIGITS.search(one.source, start).span()
            number = ick_source.value(one.source, start)
            yield Name(f"{mark_of(one.source, start)}{number}", start, digits[1], digits, use(one, kind, start, items))


def mark_of(source, start):
    return source[start:start + 1].replace(b"!", b".").decode()


def use(one, kind, start, items):
    """What a statement does with a variable. A subscript is read, whatever its array is used for."""
    if kind == "listed":
        return USES[one.kind]
    if one.kind == "WRITE-IN" and start in items:
        return STORED
    if kind != "name" or one.kind != "CALCULATE" or start != one.body:
        return READ
    is_whole = mark_of(one.source, start) in ",;" and not SUB.match(one.source, DIGITS.search(one.source, start).end())
    return "given dimensions" if is_whole else STORED


def names_it(one, name):
    """Whether a statement may name a variable. It takes less time than `names`."""
    return name[1:].encode() in one.text() and one.read()


def labels(one):
    """The label that a statement has, and those that it names."""
    own = one.head.get("label")
    for mark in [own] * (own is not None) + one.of_kind("label"):
        digits = DIGITS.search(one.source, mark.start).span()
        yield Label(ick_source.value(one.source, mark.start), mark.start, mark.end, digits, mark is own)


def wanted(source, statement, at):
    """What can stand at a place of a statement, or None in a comment.

    A variable or a label that ends there counts as typed.
    """
    if at < statement.body or not statement.identifier:
        return Wanted(START, statement.start, source[statement.start:at])
    if statement.abstained and not statement.read():
        return None
    body = source[statement.body:at]
    typed = TYPED.search(body)
    end = typed.start() if typed else len(body)
    one = ick_source.cut(b"DO " + body[:end])[0]
    expected, start = (ick_source.END, end) if one.read() else (one.expected, one.stop - one.body)
    start = end if typed else start
    return Wanted(expected, statement.body + start, body[start:])
