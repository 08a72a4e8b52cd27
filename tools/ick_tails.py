"""Puts a unary operator behind the mark of an array in front of a group: ,&1SUB#1 becomes '&,1SUB#1'."""
import itertools
import re

import ick_foreign
import ick_source
from ick_source import SPACES

SIGN = re.compile(rb"[,;][\t-\r ]*[&V?]")
SIGNED = re.compile(rb"[,;][\t-\r ]*\Z")
SUBSCRIPT = re.compile(rb"([0-9]|SUB)[\t-\r ]*\Z")  # what stands in front of a subscript, or a group


def whole(text):
    """The statement of a text without what stands behind its body, or None if its body isn't whole."""
    one = ick_source.cut(text)[0]
    if not one.read() and one.expected == ick_source.END:
        one = ick_source.cut(text[:one.stop])[0]
    return one if one.read() else None


def signs(text):
    """The text with a space for each operator behind the mark of an array, and their places, the last one first."""
    found, one = [], ick_source.cut(text)[0]
    while not one.read() and text[one.stop:one.stop + 1] in (b"&", b"V", b"?") and SIGNED.search(text[:one.stop]):
        found.insert(0, one.stop)
        text = text[:one.stop] + b" " + text[one.stop + 1:]
        one = ick_source.cut(text)[0]
    return text, found


def element(one, start):
    """The mark of an element that begins at a place and is an operand of an expression, or None."""
    actions = {mark.start for mark in one.of_kind("action")} if one.kind == "READ-OUT" else ()
    is_subscript = SUBSCRIPT.search(one.source[:start]) or any(
        not one.source[mark.end:start].strip(SPACES) for mark in one.of_kind("group") if mark.end <= start)
    return next((mark for mark in one.of_kind("element") if mark.start == start and start not in actions
                 and not is_subscript), None)


def grouped(text, begin, sign, at):
    """The text with a group around the element that begins at a place, and its operator in front, or None."""
    one = whole(text)
    found = one and element(one, begin)
    for mark in (b"'", b'"') if found else ():
        made = b"".join((text[:begin], mark, sign, text[begin:at], text[at + 1:found.end], mark, text[found.end:]))
        again = whole(made)
        if again and any(it.start == begin and it.end == found.end + 2 for it in again.of_kind("group")):
            return made
    return None


def regrouped(source, tell):
    """The source with its operators in front of groups. `tell` takes a place and what is changed there."""
    parts, at, statements = [], 0, ick_source.cut(source)
    for statement, following in itertools.zip_longest(statements, statements[1:]):
        if statement.read() or not statement.identifier or not SIGN.search(statement.text()):
            continue
        end = ick_foreign.end_of_text(source, following)
        text, found = signs(ick_foreign.counted(source, statement, end))
        places = [SIGNED.search(text[:one]).start() for one in found]
        for begin, one in zip(places, found):
            sign = source[statement.start + one:statement.start + one + 1]
            text = text and grouped(text, begin, sign, one)
        if text and found:
            verb = ick_foreign.COUNTING.match(source, statement.body)
            behind = verb.end() if verb else statement.start
            parts += [source[at:behind], text[behind - statement.start:]]
            at = end
            for begin, one in reversed(list(zip(places, found))):
                tell(statement.start + begin, f"{chr(source[statement.start + one])} is in front of a group now")
    return b"".join(parts) + source[at:]
