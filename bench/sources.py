#!/usr/bin/env python3
"""Writes the sources that are measured, 1 MiB each, to a folder.

  sources.py FOLDER

It needs a folder that can be written, or made, 20 MiB and Python 3.8.
"""
import os
import random
import sys

from measuring import run

SIZE = 1_048_576


def filled(parts, after="", size=SIZE):
    """Parts, one after another, as many as fit, and then what comes after."""
    found, length = [], len(after)
    for part in parts:
        if length + len(part) > size:
            break
        found.append(part)
        length += len(part)
    return ("".join(found) + after).encode()


def forever(part):
    while True:
        yield part


def statements():
    """Every kind of statement, every third one polite at most and every fifth at least."""
    draw = random.Random(1972)
    bodies = [
        lambda n: f".{n} <- #{n}$':{n}~;{n}SUB#1'",
        lambda n: f",{n} <- #{n % 9 + 1} BY .{n}",
        lambda n: f"({n}) NEXT",
        lambda n: f"FORGET #{n % 4}",
        lambda n: f"RESUME .{n}",
        lambda n: f"STASH .{n} + :{n} + ,{n} + ;{n}",
        lambda n: f"RETRIEVE .{n}",
        lambda n: f"IGNORE ,{n} + .{n}",
        lambda n: f"REMEMBER ,{n} + .{n}",
        lambda n: f"ABSTAIN FROM ({n})",
        lambda n: "ABSTAIN FROM CALCULATING + READING OUT",
        lambda n: f"REINSTATE ({n})",
        lambda n: "REINSTATE NEXTING + WRITING IN",
        lambda n: "GIVE UP",
        lambda n: f"WRITE IN .{n} + ,{n}SUB#1#2",
        lambda n: f"READ OUT .{n} + #{n} + ;{n}SUB.{n}",
        lambda n: "E THAT THIS IS A COMMENT",
    ]
    number = 0
    while True:
        number += 1
        label = f"({number}) " if number <= 2_000 else ""
        qualifier = draw.choice(["", "", "", " NOT", " %50", " N'T %7"])
        polite = "PLEASE" if number % 4 == 0 else "DO"
        body = bodies[number % len(bodies)](draw.randrange(1, 2_001))
        yield f"{label}{polite}{qualifier} {body}\n"


def names():
    """A label and four names that no statement before had, as far as they go."""
    for n in range(1, 65_536):
        yield f"({n}){'PLEASE' if n % 4 == 0 else 'DO'}.{n}<-:{n}~,{n}SUB;{n}SUB#1"


def deep_groups():
    while True:
        for depth in (255, 256, 1):
            opened, closed = "'\"" * (depth // 2) + "'" * (depth % 2), "'" * (depth % 2) + "\"'" * (depth // 2)
            yield f"DO .1 <- {opened}#1{closed}\nPLEASE DO FORGET #1\nDO FORGET #1\n"


def long_chains():
    while True:
        yield "DO :1 <- " + "~".join(f".{n}" for n in range(1, 257)) + "\nPLEASE FORGET #1\nDO FORGET #1\n"


SOURCES = {
    "statements": lambda: filled(statements()),
    "names": lambda: filled(names()),
    "deep-groups": lambda: filled(deep_groups()),
    "long-chains": lambda: filled(long_chains()),
    "one-long-list": lambda: b"DO READ OUT #1" + filled(forever("+#1"), size=SIZE - 14),
    "long-subscripts": lambda: b"DO .1 <- ,1SUB" + filled(forever("#1"), size=SIZE - 14),
    "comments": lambda: filled(forever("DO NOTE THAT NOTHING OF THIS IS EVER MET\nPLEASE NOTE IT\nDO NOT\n")),
    "no-bodies": lambda: filled(forever("DO THIS THAT AND THE OTHER\nPLEASE TRY\nDO IT\n")),
    "only-DO": lambda: filled(forever("DO")),
    "only-PLEASE": lambda: filled(forever("PLEASE ")),
    "open-wax": lambda: filled(forever("(")),
    "open-labels": lambda: filled(forever("(1")),
    "labels": lambda: filled(forever("(1)")),
    "digits": lambda: filled(forever("7")),
    "white": lambda: filled(forever(" ")),
    "sparks": lambda: b"DO .1 <- " + filled(forever("'"), size=SIZE - 9),
    "wows": lambda: b"DO .1 <- " + filled(forever("!"), size=SIZE - 9),
    "near-lists": lambda: filled(forever("DO READOUT #1+#1+#1+#1+#1+#1+#1+X")),
    "near-chains": lambda: filled(forever("DO .1<-" + ".1~" * 250 + "X")),
}


def write_all(folder):
    os.makedirs(folder, exist_ok=True)
    for name, make in SOURCES.items():
        source = make()
        assert len(source) <= SIZE, name
        with open(os.path.join(folder, name + ".i"), "wb") as file:
            file.write(source)


def main():
    if len(sys.argv) != 2 or sys.argv[1].startswith("-"):
        sys.exit(__doc__)
    write_all(sys.argv[1])


if __name__ == "__main__":
    run(main)
