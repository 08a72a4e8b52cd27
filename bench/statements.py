#!/usr/bin/env python3
"""Counts the instructions that the processor makes for a statement of each kind, on each machine.

  statements.py [--program PROGRAM] [--ick ICK] [MACHINE..]

PROGRAM is the program `test_runs`. Without --program the script takes the one that `dev/build_unproved.py . test_runs
bare` builds in a minute, which is neither proved nor checked. A MACHINE is copied, trailed or live. Without a MACHINE
the script counts on all three. With --ick, `live` is counted by `ick run` of ICK, the program `ick`: that has one loop
over `Live`, and test_runs has six, so it calls what the other inlines. It needs callgrind (Valgrind), Python 3.8 and
Linux.

For each kind the script writes a program of 3,000 like statements, which run in a circle. It counts the instructions of
480,000 steps, takes off those of a run without a step, and divides by the steps. In rows of two kinds, such as IGNORE
and REMEMBER, the number is the mean of both. WRITE IN finds no input, so its elements become 256.

The second table is of an array of 65,535 elements. The C library sets or copies the same bytes, by one call of memset
or memmove for one statement or both. The script counts such calls from Python, without those of calls on no bytes.
"""
import collections
import os
import subprocess
import sys
import tempfile

import measuring
from measuring import TOP, print_heading, print_row, stop

PROGRAM = f"{TOP}/crates/test_runs/out/preview/test_runs.bare"
MACHINES = ["copied", "trailed", "live"]
COUNT = 3000
STEPS = 480_000
FIRST = [".1 <- #1", ".2 <- #7", ".3 <- #300", ":1 <- #1$#300", ":2 <- #9$#9", ":3 <- :1"]
Kind = collections.namedtuple("Kind", "circle behind before", defaults=[[], []])
# For each kind its statements in the circle, the labelled statements behind the circle, and statements before it.
KINDS = {
    "FORGET #0": Kind(["FORGET #0"]),
    ".1 <- #7": Kind([".1 <- #7"]),
    ":1 <- :2": Kind([":1 <- :2"]),
    ".1 <- :2": Kind([".1 <- :2"]),
    "and, by the mingle idiom": Kind(['''.1 <- "'&.2$.3'~'#0$#65535'"''']),
    "exclusive or, by the mingle idiom": Kind(['''.1 <- "'?.2$.3'~'#0$#65535'"''']),
    ".1 <- .?2": Kind([".1 <- .?2"]),
    ".1 <- .2~#12": Kind([".1 <- .2~#12"]),
    ".1 <- .2~#21845": Kind([".1 <- .2~#21845"]),
    ":1 <- .2$.3": Kind([":1 <- .2$.3"]),
    ".1 <- .2~.3": Kind([".1 <- .2~.3"]),
    ":1 <- :2~:3": Kind([":1 <- :2~:3"]),
    "IGNORE, REMEMBER": Kind(["IGNORE .1", "REMEMBER .1"]),
    "ABSTAIN, REINSTATE by label": Kind(["ABSTAIN FROM (2)", "REINSTATE (2)"], behind=[(2, ".4 <- #1")]),
    "ABSTAIN, REINSTATE by gerund": Kind(["ABSTAIN FROM IGNORING", "REINSTATE IGNORING"]),
    "NEXT and RESUME #1": Kind(["(2) NEXT"], behind=[(2, "RESUME #1")]),
    "NEXT and RESUME .1": Kind(["(2) NEXT"], behind=[(2, "RESUME .1")]),
    "passed over": Kind(["NOT .1 <- #7"]),
    ".1 <- ,1SUB.2": Kind([".1 <- ,1SUB.2"], before=[",1 <- #9"]),
    ",1SUB.2 <- .1": Kind([",1SUB.2 <- .1"], before=[",1 <- #9"]),
    ".1 <- ,1SUB.2.2": Kind([".1 <- ,1SUB.2.2"], before=[",1 <- #9BY#9"]),
    ".1 <- ,1SUB.2.2.2": Kind([".1 <- ,1SUB.2.2.2"], before=[",1 <- #9BY#9BY#9"]),
    "READ OUT .1": Kind(["READ OUT .1"]),
    "STASH, RETRIEVE .1": Kind(["STASH .1", "RETRIEVE .1"]),
    "STASH, RETRIEVE ,1 of 3": Kind(["STASH ,1", "RETRIEVE ,1"], before=[",1 <- #3"]),
    "WRITE IN ,1 of 3, at the end": Kind(["WRITE IN ,1"], before=[",1 <- #3"]),
}
# Kinds that change all elements of an array, of four bytes each, and the call of the C library that does as much. The
# runs have fewer steps.
LARGE = {
    ",1 <- #65535": (Kind([",1 <- #65535"]), "memset(a, 0, {size})"),
    "STASH, RETRIEVE ,1": (Kind(["STASH ,1", "RETRIEVE ,1"], before=[",1 <- #65535"]), "memmove(a, b, {size})"),
}
LARGE_STEPS = 1000
LARGE_SIZE = 4 * 65535
CALLS = 50


def source_of(kind):
    """Returns a program that runs in a circle of like statements."""
    bodies = [(None, body) for body in FIRST + kind.before] + [(1, "FORGET #1")]
    bodies += [(None, body) for body in kind.circle] * COUNT + [(None, "(1) NEXT")] + kind.behind
    return "".join(f"{f'({label}) ' if label else ''}{'PLEASE' if at % 4 == 3 else 'DO'} {body}\n"
                   for at, (label, body) in enumerate(bodies))


def collected(words, source=""):
    """Returns the instructions that the processor made for a command, and what it printed."""
    with tempfile.TemporaryFile() as text:
        text.write(source.encode())
        text.seek(0)
        count, printed = measuring.counted(words, stdin=text, stdout=subprocess.PIPE)
    return count, printed.decode()


def instructions(programs, machine, source, limit):
    """Returns the instructions that the processor made for a run of at most so many steps."""
    program, ick = programs
    if ick and machine == "live":
        return measuring.counted_run(ick, source, limit)
    count, printed = collected([program, "measure", str(limit), machine], source)
    if printed.split() != [machine, str(limit)]:
        stop(f"{program} measure {limit} {machine} printed {printed}")
    return count


def of_each_step(programs, machine, kind, steps):
    """Returns the instructions for a step, without those of the start."""
    source = source_of(kind)
    count = instructions(programs, machine, source, steps) - instructions(programs, machine, source, 0)
    return f"{count / steps:.1f}"


def of_library(call):
    """Returns the instructions that a call of the C library takes for the bytes of a large array."""
    def calls(size):
        lines = ["import ctypes", f"a, b = (ctypes.create_string_buffer({LARGE_SIZE}) for _ in range(2))",
                 f"for _ in range({CALLS}): ctypes.{call.format(size=size)}"]
        return collected([sys.executable, "-c", "\n".join(lines)])[0]
    return (calls(LARGE_SIZE) - calls(0)) / CALLS


def main():
    words = sys.argv[1:]
    if words[:1] in (["-h"], ["--help"]):
        sys.exit(__doc__)
    program = PROGRAM
    if words[:1] == ["--program"] and len(words) > 1:
        program, words = words[1], words[2:]
    ick = None
    if words[:1] == ["--ick"] and len(words) > 1:
        ick, words = words[1], words[2:]
    machines = words or MACHINES
    if any(machine not in MACHINES for machine in machines):
        sys.exit(__doc__)
    if not os.access(program, os.X_OK) or os.path.isdir(program):
        stop(f"{program} is no program that can be run: `dev/build_unproved.py . test_runs bare` builds it")
    heading = [f"`{machine}`" for machine in machines]
    print_heading("Statement", *heading)
    for name, kind in KINDS.items():
        print_row(f"`{name}`", *[of_each_step((program, ick), machine, kind, STEPS) for machine in machines])
    print()
    print_heading("65,535 elements", "C library", *heading)
    for name, (kind, call) in LARGE.items():
        print_row(f"`{name}`", f"{of_library(call) / len(kind.circle):.1f}",
                  *[of_each_step((program, ick), machine, kind, LARGE_STEPS) for machine in machines])


if __name__ == "__main__":
    measuring.run(main)
