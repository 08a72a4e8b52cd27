"""Reads lines of `ick runs`, and says what `ick run` has to answer for each."""
import collections
import os
import re
import sys

sys.path.insert(0, os.path.join(os.path.dirname(os.path.realpath(__file__)), "..", "cli"))
from language import TEXTS  # noqa: E402
from table import message  # noqa: E402

# A line: its choices as digits, its end, and its output.
Line = collections.namedtuple("Line", "choices end output")

LINE = re.compile(rb'(\S+) (GIVE-UP|LIMIT|E\d{3}@\d+) "((?:[^"\\]|\\.)*)"')
ESCAPED = re.compile(rb"\\(n|\\|\"|x[0-9a-f]{2})")
CURSOR = re.compile(r"-|[01]+|[01]\*[1-9][0-9]*(,[01]\*[1-9][0-9]*)*")
MOST_PLAIN = 64


def choices_in(text):
    """Returns the choices of a cursor's text, or None if the text is no cursor."""
    if not CURSOR.fullmatch(text):
        return None
    if text == "-":
        return ""
    if "*" not in text:
        return text
    groups = [group.split("*") for group in text.split(",")]
    if any(one[0] == other[0] for one, other in zip(groups, groups[1:])):
        return None
    return "".join(digit * int(size) for digit, size in groups)


def grouped(choices):
    return ",".join(f"{found.group(0)[0]}*{len(found.group(0))}" for found in re.finditer("0+|1+", choices)) or "-"


def printed(choices):
    """Returns the text in which a listing prints choices."""
    return grouped(choices) if len(choices) > MOST_PLAIN else choices or "-"


def near_cursor(random, choices):
    """Returns a text that is nearly one of groups: one group is cut in two, or is written in another way."""
    groups = grouped(choices or "0").split(",")
    at = random.randrange(len(groups))
    digit, size = groups[at].split("*")
    group = groups[at]
    groups[at] = random.choice([f"{digit}*1,{group}", f"{group},{digit}*1", f"{digit}*0{size}", f"{digit}*0",
                                f"{digit}*", f"*{size}", f"{digit}{size}", f"2*{size}", f"{group},", f"-,{group}",
                                f"{group}9", f" {group}", f"{digit}*+{size}", digit * int(size)])
    return ",".join(groups)


def unquoted(text):
    return ESCAPED.sub(lambda found: {b"n": b"\n", b"\\": b"\\", b'"': b'"'}.get(
        found.group(1)) or bytes([int(found.group(1)[1:], 16)]), text)


def read_listing(output):
    """Returns the lines of a listing and its last line, or None if it isn't a listing."""
    rows = output.split(b"\n")
    if len(rows) < 2 or rows[-1] or rows[-2] not in (b"MORE", b"DONE"):
        return None
    lines = []
    for row in rows[:-2]:
        found = LINE.fullmatch(row)
        choices = choices_in(found.group(1).decode()) if found else None
        if choices is None or printed(choices) != found.group(1).decode():
            return None
        lines.append(Line(choices, found.group(2).decode(), unquoted(found.group(3))))
    return lines, rows[-2].decode()


def follows(choices, before):
    """Tells whether choices are the next after these: the last 0 becomes 1, and only zeros follow. Before the first
    run, which has only zeros, before is None.
    """
    if before is None:
        return "1" not in choices
    kept, zero, _ = before.rpartition("0")
    return bool(zero) and choices.startswith(kept + "1") and "1" not in choices[len(kept) + 1:]


def errors_of(line, statements, limit):
    """Returns the status and the error text of `ick run` for a line, or a pattern for the text."""
    if line.end == "GIVE-UP":
        return 0, b""
    if line.end == "LIMIT":
        return 3, f"LIMIT REACHED AFTER {limit} STEPS\n".encode()
    number, at = int(line.end[1:4]), int(line.end[5:])
    if number == 0:
        return 1, message(0, statements[at - 1], at + 1)
    if number == 579:
        return 1, re.compile(re.escape(message(579, "WHAT BASE AND/OR LANGUAGE INCLUDES WORD?", at + 1)
                                       ).replace(b"WORD", rb"[^ \t-\r]+"), re.DOTALL)
    return 1, message(number, TEXTS[number], at + 1)
