"""The library's files, their routines, and the routines that a program calls.

A routine is a comment of the library with the statements up to the next comment. `joined` pastes below LINE the
routines that a program calls, and those that they call.
"""
import functools
import os
import re

import ick_source
import ick_tool

PLACES = ("../library", "../../share/ick/library")  # in the repository, and as it is installed
NAMES = ("text.i", "arithmetic.i")
LABELS = frozenset(range(1000, 2000))  # a set, because None is looked up in a range by going through it
LABEL = re.compile(rb"^\(([0-9]+)\)", re.MULTILINE)
FAULT = 1999  # labels the statement by which a routine ends the program
LINE = b"DO NOTE: BELOW IS WHAT THIS PROGRAM CALLS OF THE LIBRARY"


def path(name):
    """Returns the path of a file of the library, or None."""
    found = (os.path.join(ick_tool.HERE, place, name) for place in PLACES)
    return next((os.path.realpath(it) for it in found if os.path.exists(it)), None)


def files():
    """Returns the sources of the library, in the order in which they are pasted."""
    return [ick_tool.content(path(name)) for name in NAMES if path(name)]


class Routine:
    """A routine: its text, the labels that it has, those that it calls, and whether it runs on into the next one."""

    def __init__(self, source, statements):
        last = statements[-1]
        self.text = source[statements[0].start:last.end]
        self.labels, self.calls = labels_of(statements)
        self.runs_on = last.read() and last.kind != "RESUME" and FAULT not in dict(last.labels)


def labels_of(statements):
    """Returns the labels that statements have, and those that they name."""
    return ({one.label for one in statements} - {None}, {label for one in statements for label, _ in one.labels})


@functools.lru_cache(maxsize=None)
def routines(source):
    """Returns the routines of a file of the library. Its first statement and its first comment belong to none."""
    found = []
    for statement in ick_source.cut(source):
        if statement.abstained:
            found.append([])
        if found:
            found[-1].append(statement)
    return [Routine(source, statements) for statements in found if len(statements) > 1]


@functools.lru_cache(maxsize=None)
def labels():
    """Returns the labels that the library's routines have. Each of them begins a line."""
    return frozenset(int(label) for source in files() for label in LABEL.findall(source))


def own(source):
    """Returns a program without LINE and what is below it."""
    return re.split(rb"\n?^%s$" % re.escape(LINE), source, maxsplit=1, flags=re.MULTILINE)[0]


def called(program, library):
    """Returns the routines that a program calls, in their order, or None if a label would stand twice."""
    taken, calls = labels_of(ick_source.cut(program))
    known = [routine for source in library for routine in routines(source)]
    needed, calls, more = set(), calls - taken, {None}
    while more:
        more = {place for place, routine in enumerate(known) if place not in needed and
                (routine.labels & calls or place - 1 in needed and known[place - 1].runs_on)}
        needed |= more
        calls |= {label for place in more for label in known[place].calls}
    found = [known[place] for place in sorted(needed)]
    return None if any(routine.labels & taken for routine in found) else found


def joined(source, library):
    """Returns a program with the routines that it calls below LINE, or None if a label would stand twice.

    What was below LINE is dropped. If the program is polite, the result is polite.
    """
    program = own(source)
    found = called(program, library)
    if not found:
        return None if found is None else program
    head = program + b"\n" * (not program.endswith(b"\n")) + b"\n" + LINE + b"\n"
    text = head + b"".join(b"\n" + routine.text + b"\n" for routine in found)
    statements = ick_source.cut(text)
    pasted = [one for one in statements if one.start >= len(head)]
    for one in reversed(ick_source.to_change(pasted, ick_source.wanted(statements))):
        text = text[:one.identifier.start] + (b"DO" if one.polite else b"PLEASE") + text[one.identifier.end:]
    return text
