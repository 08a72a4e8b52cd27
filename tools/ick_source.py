"""Reads the lines of `ick-stages --parts`: the statements of a text with the places of their parts, and its refusals.

`Source` runs the program once, for any text up to the longest, also for one that ick refuses. All places are those of bytes
in the text, from 0.
"""
import bisect
import functools
import re
import subprocess
from typing import NamedTuple

import ick_tool
from ick_listing import HEAD, MARK, PLACED, REFUSAL, STOP, unquoted

GREATEST, LONGEST = 65535, 1 << 20
SPACES = b"\t\n\v\f\r "
DIGITS = re.compile(rb"[0-9]+")
STATEMENT = re.compile(PLACED.pattern + rb"\n((?:  .*\n)*)")
LAST = re.compile(rb"(?:DONE|REFUSED [0-9]+ [0-9]+)\n")
LABELLING = ("NEXT", "ABSTAIN", "REINSTATE")  # the kinds of statements that name labels
# what can be missing where reading stops, as ick-stages names it
BODY, GERUND, END = "a variable, an array, a label or a verb", "a gerund", "the end of the statement"
CLOSING = {"an operator or the spark that closes the group": "'", "an operator or the rabbit ears that close the group": '"'}


class Lines:
    """Finds the line and the column, each from 1, of a place in a text."""

    def __init__(self, text):
        end = "\n" if isinstance(text, str) else b"\n"
        self.starts = [0] + [found.end() for found in re.finditer(end, text)]

    def line(self, at):
        return bisect.bisect_right(self.starts, at)

    def place(self, at):
        line = self.line(at)
        return f"{line}:{at - self.starts[line - 1] + 1}"


class Mark(NamedTuple):
    """A part of a statement: the program's word for its kind, and where it begins and ends."""

    kind: str
    start: int
    end: int


class Statement:
    """A statement.

    number, label, polite, abstained, chance and kind are the fields of `ick list`. The text goes from start to end. For an
    unrecognised body, stop is where reading stopped, and expected says what could have come there. Reading can stop behind
    the statement: in `DO (1) DO` it stops behind the label. What stands in front of the first DO or PLEASE is a statement
    without an identifier.
    """

    def __init__(self, source, lines, found):
        number, line, column, label, identifier, negation, chance, kind, text, self.printed = found
        self.source, self.number, self.kind, self.chance = source, int(number), kind.decode(), int(chance)
        self.start = lines.starts[int(line) - 1] + int(column) - 1
        self.end = self.start + len(unquoted(text) if b"\\" in text else text)
        self.label = None if label == b"-" else value(source, self.start)
        self.polite, self.abstained, self.stop, self.expected = identifier == b"PLEASE", negation == b"NOT", None, None
        stop = None if self.read() else STOP.search(self.printed)
        if stop:
            self.stop, self.expected = self.behind_text(self.start + int(stop[1])), stop[2].decode()

    def found(self, pattern):
        return [Mark(kind.decode(), self.start + int(start), self.start + int(end))
                for start, end, kind in pattern.findall(self.printed)]

    @functools.cached_property
    def head(self):
        """The marks of the head by their kinds: label, identifier, not and chance, and that of the body."""
        return {mark.kind: mark for mark in self.found(HEAD)}

    @functools.cached_property
    def identifier(self):
        """The mark of DO or PLEASE, or None."""
        return self.head.get("identifier")

    @functools.cached_property
    def body(self):
        """Where the body begins."""
        return self.behind_text(self.head["body"].start) if self.identifier else self.start

    @functools.cached_property
    def marks(self):
        """The marks of a recognised body, in the order of its operations."""
        return self.found(MARK) if self.read() else []

    def of_kind(self, kind):
        return [mark for mark in self.marks if mark.kind == kind]

    @functools.cached_property
    def labels(self):
        """The labels that the body names: pairs of a value and a place."""
        found = self.of_kind("label") if self.kind in LABELLING else ()
        return [(value(self.source, mark.start), mark.start) for mark in found]

    def behind_text(self, at):
        """A place, or if it is behind the statement, the end of the text in front of it: reading passes white bytes."""
        return at if at <= self.end else self.start + len(self.source[self.start:at].rstrip(SPACES))

    def text(self):
        return self.source[self.start:self.end]

    def read(self):
        return self.kind != "UNRECOGNISED"

    def may_be_done(self):
        """Whether it is done when it is met, sometimes at least, before any statement reinstates it."""
        return not self.abstained and self.chance > 0


class Source:
    """A text with its statements, and every reason to refuse it: triples of a message's number, a statement and a place."""

    def __init__(self, text):
        lines, (printed, newline, refused) = Lines(text), lines_of(text).partition(b"\nrefused ")
        self.text, self.statements = text, [Statement(text, lines, found) for found in STATEMENT.findall(printed + b"\n")]
        self.refusals = [(int(number), self.statements[int(which) - 1], self.statements[int(which) - 1].start + int(at))
                         for number, which, at, _ in REFUSAL.findall(newline + refused)]


def value(source, at):
    """The first number of a text from a place on. A number of more than nine digits is only known to be large."""
    digits = DIGITS.search(source, at)[0].lstrip(b"0")
    return int(digits or b"0") if len(digits) < 10 else 10 ** 9


@functools.cache
def program():
    try:
        return ick_tool.find_program("ick-stages")
    except FileNotFoundError as error:
        raise ick_tool.Unable(str(error), 1) from None


def lines_of(text):
    """What ick-stages prints of a text. Raises Unable if the text is too long, or if nothing whole is printed."""
    if len(text) > LONGEST:  # what ick-stages doesn't read to its end would end the tool by SIGPIPE
        raise ick_tool.Unable(f"the program has {len(text)} bytes, and a source has at most {LONGEST}", 2)
    asked = subprocess.run([program(), "--parts"], input=text, capture_output=True, check=False)
    if not LAST.fullmatch(asked.stdout, asked.stdout.rfind(b"\n", 0, -1) + 1):
        raise ick_tool.Unable(f"ick-stages: {asked.stderr.decode(errors='replace').strip()}", asked.returncode)
    return asked.stdout


def cut(text):
    """The statements of a text, in order."""
    return Source(text).statements


def wanted(statements):
    """Returns how many more PLEASE the statements need, or how many fewer, as a number below 0."""
    count, polite = len(statements), sum(one.polite for one in statements)
    return 0 if count < 3 else max(0, count // 5 - polite) + min(0, count // 3 - polite)


def to_change(statements, more):
    """Returns the statements, evenly spread, in which to say PLEASE for as many more, or fewer."""
    able = [one for one in statements if one.polite == (more < 0) and one.identifier]
    count = min(abs(more), len(able))
    return [able[len(able) * place // count] for place in range(count)]
