#!/usr/bin/env python3
"""Writes the programs whose speed is measured, and their inputs.

  workloads.py FOLDER [short]

Most do one kind of work each, in nested loops of 16 turns, and then print what came of it; each ends by GIVE UP. They
are programs of C-INTERCAL too; `gerunds` is as large as its compiler takes. With `short` most have a sixteenth of the
turns, for counting instructions.

Ten others are programs of examples/. Most are long by their input; `life` and `factorial` go round in loops, and the
sieve of `primes` is larger. They call the library, which is pasted whole behind them. C-INTERCAL has a library of its
own, with the same labels below 1600. For it the script writes them into FOLDER/c-intercal: there the labels of the
pasted library are higher by 1000, and only its routines for text are called. The input of NAME.i is NAME.in, or empty.
"""
import collections
import os
import random
import re
import string
import sys

from measuring import TOP, run, written

sys.path.insert(0, f"{TOP}/tools")
import ick_library  # noqa: E402


def polite(statements):
    """The statements, every fourth with PLEASE; each is a label or none, and a body."""
    lines = []
    for number, (label, body) in enumerate(statements):
        mark = f"({label})" if label else ""
        lines.append(f"{mark}\t{'PLEASE' if number % 4 == 3 else 'DO'} {body}")
    return "\n".join(lines) + "\n"


def loop(depth, body, first=11):
    """Loops of 16 turns inside each other, around a body. Scalar .k, k from first, counts by losing a one a turn."""
    if depth == 0:
        return body
    name, label = f".{first - 1 + depth}", 100 * depth
    return [(None, f"{name} <- #65535"), (None, f"({label}) NEXT"), (label, "FORGET #1")] \
        + loop(depth - 1, body, first) \
        + [(None, f"{name} <- {name}~#65534"),
           (None, f"({label + 1}) NEXT"),      # one more turn: both returns are taken off here
           (None, f"({label}) NEXT"),
           (label + 1, f"({label + 2}) NEXT"),  # the last turn: the run goes on behind this
           (None, "FORGET #1"),
           (None, f"({label + 3}) NEXT"),
           (label + 2, f"""RESUME "?'{name}~#1'$#1"~#3"""),
           (label + 3, "FORGET #1")]


def program(depth, body, before=(), after=("READ OUT .11",)):
    """A body in loops, between what is done before and after."""
    return polite([(None, it) for it in before] + loop(depth, [(None, it) for it in body])
                  + [(None, it) for it in after] + [(None, "GIVE UP")])


def calculations(count):
    """As many statements as that, one after another."""
    return polite([(None, f".{k % 9 + 1} <- '.{k % 7 + 1}$#{k % 200 + 1}'~#{k % 99 + 3}") for k in range(count - 2)]
                  + [(None, "READ OUT .1+.2+.3"), (None, "GIVE UP")])


def halves(target, source):
    """A calculation of seventeen operators that takes the even and the odd bits of a scalar apart and together again."""
    even, odd = (f"""'{source}~"{mask}"'""" for mask in ("#0$#65535", "#65535$#0"))
    return f"""{target} <- '"?{even}${odd}"~"#0$#65535"'$'"V{odd}${even}"~"#65535$#0"'"""


def workloads(fewer=0):
    """Programs that do one kind of work each, with so many loops fewer than where time is measured."""
    return {
        "loop": program(5 - fewer, []),
        "expressions": program(5 - fewer, [
            halves(":2", ":1"),
            halves(":3", ":2"),
            ':1 <- "?\':3~"#0$#65535"\'$.5"'],
            [":1 <- #1972$#40961", ".5 <- #65535"],
            # small numbers alone, whose numerals have the same letters everywhere
            [".1 <- :1~#2047", "READ OUT .1"]),
        "masks": program(5 - fewer, [
            """.1 <- '"?.2$.3"~"#21845$#4095"'~'"&.4$.5"~"#255$#65280"'""",
            """:1 <- '"V.1$#3"~"#43690$#0"'$'"?.3$:2"~"#255$#255"'"""],
            [".2 <- #1972", ".3 <- #40961", ".4 <- #65244", ".5 <- #32767", ":2 <- #51966"],
            [".1 <- .1~#2047", ".2 <- :1~#2047", "READ OUT .1+.2"]),
        "logic": program(5 - fewer, [
            """.1 <- '"?.2$.3"~"#0$#65535"'~'"&.4$.5"~"#0$#65535"'""",
            """:1 <- '"V.1$#3"~"#0$#65535"'$'"?.3$.2"~"#0$#65535"'"""],
            [".2 <- #1972", ".3 <- #40961", ".4 <- #65244", ".5 <- #32767"],
            [".1 <- .1~#2047", ".2 <- :1~#2047", "READ OUT .1+.2"]),
        "arrays": program(5 - fewer, [
            ",1SUB.1 <- ,1SUB#2", ";1SUB#3.1 <- ;1SUB.1#4", ".2 <- ,1SUB.1"],
            [",1 <- #8", ";1 <- #8 BY #8", ".1 <- #5", ",1SUB#2 <- #77", ";1SUB#5#4 <- #1066"],
            ["READ OUT .2+;1SUB#3#5"]),
        "stashes": program(5 - fewer, [
            "STASH .1+.2+:1", ".1 <- .3", "RETRIEVE .1+.2+:1", "STASH ,1", "RETRIEVE ,1"],
            [",1 <- #16", ".1 <- #3", ".3 <- #7"], ["READ OUT .1"]),
        "gerunds": program(3 - fewer, [
            "ABSTAIN FROM CALCULATING", "REINSTATE CALCULATING"],
            [f".{k % 7 + 1} <- #{k % 100}" for k in range(4000)]),
        "numerals": program(4 - fewer, ["READ OUT .1+.2+.3+.4+.1+.2+.3+.4"],
                            [".1 <- #1972", ".2 <- #3", ".3 <- #444", ".4 <- #888"]),
        "read-outs": program(4 - fewer, ["READ OUT .1"], [".1 <- #1972"]),
    }


WORKLOADS = workloads()

NOTHING = "DO GIVE UP\n"


def jobs(fewer=0):
    """Programs that are measured beside."""
    return {
        "lines": program(4 - fewer, ["WRITE IN .1"], after=["READ OUT .1"]),
        "statements-1000": calculations(1000),
        "statements-3000": calculations(3000),
        "tiny": NOTHING,
    }


LINES = "ONE NINE SEVEN TWO\n" * 16 ** 4

# A program of examples/: what is changed in its text, how many loops are put around the statement DO (10) NEXT, how
# often this stands in a turn, and the input.
Example = collections.namedtuple("Example", "changes depth calls input", defaults=[(), 0, 1, ""])


def numbers(count, bound):
    """Numbers below a bound, the same at each call."""
    drawn = random.Random(1972)
    return [drawn.randrange(bound) for _ in range(count)]


def letters(count, others=""):
    """As many bytes as that, each a letter or one of the others."""
    known = string.ascii_letters + others
    return "".join(known[it] for it in numbers(count, len(known)))


def sums(count):
    """Lines for the calculator, as many of each sign."""
    drawn = numbers(2 * count, 65535)
    return "".join(f"{max(pair)} {'+-*/'[at % 4]} {1 + min(pair)}\n"
                   for at, pair in enumerate(zip(drawn[::2], drawn[1::2])))


CELLS = """.*..............
..*.............
***.......***...
................
................
...........*....
..**........*...
..**......*.....
"""

# Reads numbers until the input ends, and not one alone.
ALL_NUMBERS = [
    ("DO (1640) NEXT\n", """DO (4) NEXT
(4) DO FORGET #1
    DO (1640) NEXT
    DO .5 <- :4
    PLEASE (5) NEXT
    DO GIVE UP
(5) DO (1001) NEXT
"""),
    ("DO GIVE UP\n(20)", "DO (4) NEXT\n(20)"),
]


def examples(size):
    """Programs of examples/ that take half a second or less at the size 16. `primes` and `sort` have one size."""
    return {
        "brackets": Example(input=letters(25_000 * size, "(. )")),
        "calculator": Example(input=sums(1024 * size)),
        "collatz": Example(ALL_NUMBERS, input="27\n" * 32 * size),
        # C-INTERCAL takes the word for a statement
        "factorial": Example([("ITS FACTORIAL", "THE PRODUCT")], depth=1, calls=8 * size, input="12\n"),
        "hanoi": Example(input="ONE EIGHT\n" if size > 1 else "ONE FOUR\n"),
        "life": Example(depth=1, calls=4 * size, input=CELLS),
        # numerals of numbers from 4000 on are others in C-INTERCAL
        "primes": Example([("#100", "#30000"), ("#101", "#30001"),
                           ("DO READ OUT .10", "DO .12 <- .10~#2047\n        DO READ OUT .12")]),
        "reverse": Example(input=letters(25_000 * size) + "\n"),
        "rot13": Example(input=letters(25_000 * size, " ,.")),
        "sort": Example([("#100", "#1000")], input="".join(f"{it}\n" for it in numbers(1000, 65536))),
    }


def of_example(name, example):
    """A program of examples/, as long as is measured, without the library; and the library's files that it calls."""
    with open(f"{TOP}/examples/{name}.i", "rb") as file:
        text = ick_library.own(file.read()).decode()
    files = [*(["text.i"] if re.search(r"\(16\d\d\) NEXT", text) else []), "arithmetic.i"]
    for old, new in example.changes:
        text = text.replace(old, new)
    if example.depth:
        turns = polite(loop(example.depth, [(None, "(10) NEXT")] * example.calls, first=51))
        text = text.replace("        DO (10) NEXT\n", turns, 1)
    return text, files


def with_library(name, example):
    """A program of examples/ with the library behind it, for `ick` and for C-INTERCAL."""
    text, files = of_example(name, example)
    library = ""
    for part in files:
        with open(f"{TOP}/library/{part}", encoding="ascii") as file:
            library += file.read()
    moved = re.sub(r"\(1(\d{3})\)", r"(2\1)", library) if "text.i" in files else ""
    return text + library, re.sub(r"\(1([6-9]\d{2})\)", r"(2\1)", text) + moved


def main():
    if len(sys.argv) not in (2, 3) or sys.argv[1] in ("-h", "--help") or sys.argv[2:] not in ([], ["short"]):
        sys.exit(__doc__)
    os.makedirs(f"{sys.argv[1]}/c-intercal", exist_ok=True)
    fewer, size = (1, 1) if sys.argv[2:] else (0, 16)
    files = {name + ".i": source for name, source in {**workloads(fewer), **jobs(fewer)}.items()}
    files["lines.in"] = LINES
    for name, example in examples(size).items():
        files[f"{name}.i"], files[f"c-intercal/{name}.i"] = with_library(name, example)
        files[f"{name}.in"] = example.input
    for name, text in files.items():
        written(sys.argv[1], name, text)


if __name__ == "__main__":
    run(main)
