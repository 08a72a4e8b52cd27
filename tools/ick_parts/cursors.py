"""Places in a listing, as texts, and the lines that runs have there.

A place is the choices of a run, as a text of 0 and 1; FIRST before all runs; or LAST behind them. Places are ordered as
texts, since no run's choices begin another's. A program that asks for no choice has one run, whose place is FIRST too.
"""
import re

from ick_parts import Refused

FIRST, LAST = "", "DONE"
PRINTED_PLAIN = 64
GROUPS = re.compile(r"[01]\*[1-9]\d{0,7}(,[01]\*[1-9]\d{0,7})*")


def read_place(cursor):
    if cursor in ("-", LAST):
        return LAST if cursor == LAST else FIRST
    if cursor and not cursor.strip("01"):
        return cursor
    if not GROUPS.fullmatch(cursor):
        raise Refused(f"{cursor[:40]!r} is no cursor")
    return "".join(digit * int(times) for digit, times in (group.split("*") for group in cursor.split(",")))


def show_place(place):
    """Returns the cursor as ick prints it."""
    if len(place) <= PRINTED_PLAIN:
        return place or "-"
    return ",".join(f"{it[0][0]}*{len(it[0])}" for it in re.finditer("0+|1+", place))


def argument_of(place):
    """Returns the shorter form of a cursor."""
    return min(place or "-", show_place(place), key=len)


def follows(before, after):
    """Returns whether no run can be between two places.

    The next run differs at the last 0 of the run before: a 1 is there, and then only 0. So Q 1 0..0 follows Q 0 1..1.
    """
    if before == FIRST or after == LAST:
        return "0" not in before and "1" not in after
    stem = before.rstrip("1")
    return stem != "" and after.startswith(stem[:-1] + "1") and "1" not in after[len(stem):]


def first_run(lines):
    return read_place(lines[:max(0, lines.find(b" "))].decode("ascii", "replace"))


def last_run(lines):
    return first_run(lines[lines.rfind(b"\n", 0, -1) + 1:])


def end_of_line(lines, run):
    """Returns where the line of a run ends, or 0 if it isn't there."""
    here = (b"\n" + lines).find(b"\n" + show_place(run).encode() + b" ")
    return lines.index(b"\n", here) + 1 if here >= 0 else 0
