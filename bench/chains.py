#!/usr/bin/env python3
"""Measures `ick-outcomes` without a limit, beside the model checkers SPIN and Maude on models of the same programs.

  chains.py [PROGRAM]                  prints a table of states, times and memory
  chains.py [PROGRAM] --instructions   prints the instructions of the processor that callgrind counts

PROGRAM is the built ick-outcomes, or else the one that a call of ./ick-outcomes builds. It needs Python 3.8, Linux, a C
compiler, and the commands `spin` and `maude` (Debian packages of the same names); or `valgrind`, for instructions.

Two programs, each with as many rounds as its name says:
- Peterson's two processes. A process raises its flag, leaves the turn to the other one, waits, and enters its critical
  section. Before each step a coin, of 50 or 30 in 100, says whether the second process makes it. The run ends once both
  together have entered so often, and prints which of them was the last.
- A token that goes round a ring. A station sends it until an answer comes. A tenth of all messages is lost, tokens and
  answers alike. The run ends after so many passes, and prints as many binary digits 1 as tokens came twice, at most 8.

The models have a state for each state of the program in which a choice is asked, and for each in which a run has ended.
The program has one state more, in which it begins. `ick-outcomes` is called with that number for --most. In the short
programs one state less is refused, and the weights are those that floating point finds by steps from the first state on.
SPIN and Maude find the states, and weigh nothing. SPIN's times are without making and compiling its program.

A time is processor time without the system's, the least of ten rounds. A round calls each program once, but one that took
ten seconds is called no more. Nothing else is judged.
"""
import argparse
import collections
import os
import re
import shutil
import subprocess
import tempfile
from fractions import Fraction

from measuring import TOP, counted, measured_well, print_heading, print_row, run, stop, written
from outcomes import NEXT, searcher, source, spin

ROUNDS = 10
LONG = 10  # seconds from which a command is called once
SHORT = 5000  # states up to which weights are compared
LEFT = 1e-15  # the weight of runs that still go on, below which floating point stops
MADE = re.compile(rb"(\d+) states, stored")

# A program, its models, its number of states, and the weight of each line of its output.
Case = collections.namedtuple("Case", "source spin maude first moves")
# Counts a round in .7, which is 1 behind the last one. Then .5 is 1, and else 2.
COUNTED = f".7 <- {NEXT.replace('.1', '.7')}"
DIFFERENT = "\"'?.7$#1'~'#0$#65535'\""
AT_END = f".5 <- '?\"'{DIFFERENT}~{DIFFERENT}'~#1\"$#1'~#3"


def turned(times):
    """Returns the number in the ring of a shift register that becomes 1 after so many turns."""
    ring = [1]
    for _ in range(2046):
        last = ring[-1]
        ring.append((last << 1 & 2047) | ((last >> 10 ^ last >> 8) & 1))
    return ring[-times % 2047]


def maude(operator, start, end, *rules):
    """Returns a module for Maude and its search for all last states."""
    made = "\n".join(f"    rl {rule} ." for rule in rules)
    return (f"mod MODEL is\n    protecting NAT .\n    sort State .\n    op {operator} -> State .\n"
            f"    vars a b c d : Nat .\n{made}\nendm\nsearch {start} =>! {end} .\nquit\n")


def searched(first, moves):
    """Returns the number of states that can be reached, and the weight of each result, by floating point. `moves` gives
    the states behind one, each with its chance, or the result of a state that ended."""
    found, now, results = {first}, {first: 1.0}, collections.Counter()
    while sum(now.values()) > LEFT:
        then = collections.Counter()
        for state, weight in now.items():
            behind = moves(*state)
            if isinstance(behind, str):
                results[behind] += weight
                continue
            for chance, to in behind:
                found.add(to)
                then[to] += weight * chance
        now = then
    return len(found), dict(results)


def peterson(rounds, chance):
    """Peterson's processes. A process raises its flag at 1, leaves the turn at 4, waits at 3, and is inside at 2."""
    program = source(
        ".1 <- #2", f".7 <- #{turned(rounds)}", ",1 <- #2", ",2 <- #2", ",1SUB#1 <- #1", ",1SUB#2 <- #1",
        "10: FORGET #1", ".5 <- #0", ".8 <- #0", ".9 <- #0", ".6 <- #1", f"%{chance} .6 <- #2",
        ".9 <- '?.6$#3'~'#0$#65535'", ".5 <- ,1SUB.6", "(20) NEXT",
        ".1 <- .9", ",1SUB.6 <- #3", "(10) NEXT",
        "20: (21) NEXT", ".8 <- ,2SUB.9", ",1SUB.6 <- #1$\".8~'.1~.9'\"", "FORGET #1", "(10) NEXT",
        "21: (22) NEXT", ",2SUB.6 <- #0", ",1SUB.6 <- #1", COUNTED, AT_END, "FORGET #2", "(50) NEXT", "(10) NEXT",
        "22: (23) NEXT", ",2SUB.6 <- #1", ",1SUB.6 <- #4", "FORGET #3", "(10) NEXT",
        "23: RESUME .5", "50: (60) NEXT", "READ OUT .6", "GIVE UP", "60: RESUME .5")

    def step(at, own, turn, left):
        other, place = 3 - own, at[own - 1]
        waits = at[other - 1] != 1 and turn == other
        to = {1: 4, 4: 3, 3: 3 if waits else 2, 2: 1}[place]
        left, turn = left - (place == 2), other if place == 4 else turn
        return (*((to, at[1]) if own == 1 else (at[0], to)), turn, left, 0 if left else own)

    def moves(one, two, turn, left, last):
        return str(last) if last else [(1 - chance / 100, step((one, two), 1, turn, left)),
                                       (chance / 100, step((one, two), 2, turn, left))]

    def chosen(own, other):
        last = f"if :: count == {rounds - 1} -> last = {own} :: else fi; count++"
        return [f"count < {rounds} && at{own} == 1 -> at{own} = 4",
                f"count < {rounds} && at{own} == 4 -> at{own} = 3; turn = {other}",
                f"count < {rounds} && at{own} == 3 && (at{other} == 1 || turn == {own}) -> at{own} = 2",
                f"count < {rounds} && at{own} == 2 -> at{own} = 1; {last}"]

    declared = "byte at1 = 1, at2 = 1, turn = 2, last = 0; short count = 0;"
    return Case(program, spin(declared, *chosen(1, 2), *chosen(2, 1)),
                maude("at : Nat Nat Nat Nat Nat", f"at(1, 1, 2, {rounds}, 0)", "at(a, b, c, 0, d)",
                      "at(1, b, c, s d, 0) => at(4, b, c, s d, 0)", "at(4, b, c, s d, 0) => at(3, b, 2, s d, 0)",
                      "at(3, 1, c, s d, 0) => at(2, 1, c, s d, 0)",
                      "at(3, s s b, 1, s d, 0) => at(2, s s b, 1, s d, 0)",
                      "at(2, b, c, s s d, 0) => at(1, b, c, s d, 0)", "at(2, b, c, 1, 0) => at(1, b, c, 0, 1)",
                      "at(a, 1, c, s d, 0) => at(a, 4, c, s d, 0)", "at(a, 4, c, s d, 0) => at(a, 3, 1, s d, 0)",
                      "at(1, 3, c, s d, 0) => at(1, 2, c, s d, 0)",
                      "at(s s a, 3, 2, s d, 0) => at(s s a, 2, 2, s d, 0)",
                      "at(a, 2, c, s s d, 0) => at(a, 1, c, s d, 0)", "at(a, 2, c, 1, 0) => at(a, 1, c, 0, 2)"),
                (1, 1, 2, rounds, 0), moves)


def ring(passes):
    """A token that passes round a ring. It is sent at 0, and sent again at 2. An answer is sent at 1, if the token came,
    and at 3, if it came again."""
    program = source(
        ".2 <- #1", f".7 <- #{turned(passes)}",
        "10: FORGET #1", ".5 <- #0", "%90 (20) NEXT", "(10) NEXT",
        "20: FORGET #1", "%90 (40) NEXT",
        "30: FORGET #1", "%90 (31) NEXT", "(30) NEXT",
        "31: FORGET #1", ".2 <- '.2$#1'~'#255$#1'", "%90 (40) NEXT", "(30) NEXT",
        "40: FORGET #1", COUNTED, AT_END, "(50) NEXT", "(10) NEXT",
        "50: (60) NEXT", "READ OUT .2", "GIVE UP", "60: RESUME .5")

    def passed(twice, left):
        return 4 if left == 1 else 0, twice, left - 1

    def moves(at, twice, left):
        again = 3, min(twice + 1, 8), left
        return {0: [(0.9, (1, twice, left)), (0.1, (0, twice, left))],
                1: [(0.9, passed(twice, left)), (0.1, (2, twice, left))],
                2: [(0.9, again), (0.1, (2, twice, left))],
                3: [(0.9, passed(twice, left)), (0.1, (2, twice, left))], 4: str(2 ** (twice + 1) - 1)}[at]

    done = f"if :: count == {passes - 1} -> at = 4 :: else -> at = 0 fi; count++"
    return Case(program, spin("byte at = 0, twice = 0; short count = 0;", "at == 0 -> at = 1", f"at == 1 -> {done}",
                              "at == 1 -> at = 2", "at == 2 && twice < 8 -> at = 3; twice++",
                              "at == 2 && twice == 8 -> at = 3", f"at == 3 -> {done}", "at == 3 -> at = 2"),
                maude("at : Nat Nat Nat", f"at(0, 0, {passes})", "at(4, b, 0)", "at(0, b, c) => at(1, b, c)",
                      "at(1, b, s s c) => at(0, b, s c)", "at(1, b, 1) => at(4, b, 0)", "at(1, b, c) => at(2, b, c)",
                      "at(2, b, c) => at(3, min(s b, 8), c)", "at(3, b, s s c) => at(0, b, s c)",
                      "at(3, b, 1) => at(4, b, 0)", "at(3, b, c) => at(2, b, c)"),
                (0, 0, passes), moves)


CASES = {"Peterson, 100 rounds": peterson(100, 50), "Peterson, 100 rounds, by 30": peterson(100, 30),
         "Peterson, 600 rounds": peterson(600, 50),
         "a token ring, 100 passes": ring(100), "a token ring, 1,000 passes": ring(1000)}


def numeral(number):
    """Returns a number as READ OUT prints it."""
    text = ""
    for value, letters in zip((1000, 900, 500, 400, 100, 90, 50, 40, 10, 9, 5, 4, 1),
                              "M CM D CD C XC L XL X IX V IV I".split()):
        times, number = divmod(number, value)
        text += letters * times
    return text


def is_searched(outcomes, path, most):
    """Returns whether so many states are enough."""
    return subprocess.run([outcomes, "--total", "--most", str(most), path], stdin=subprocess.DEVNULL,
                          capture_output=True).returncode == 0


def compare(outcomes, name, path, case, stored):
    """Compares the number of states that SPIN stored, and the weights of all results."""
    states, wanted = searched(case.first, case.moves)
    if stored != states or is_searched(outcomes, path, states):
        stop(f"{name}: {states} states, and SPIN stored {stored}")
    ran = subprocess.run([outcomes, path], stdin=subprocess.DEVNULL, capture_output=True, check=True)
    found = {}
    for line in ran.stdout.split(b"\n")[:-2]:
        _, weight, _, _, output = line.split(b" ")
        found[output] = float(Fraction(weight.decode().rstrip(".")))
    shown = {f'"\\n{numeral(int(number))}\\n"'.encode(): weight for number, weight in wanted.items()}
    if found.keys() != shown.keys() or any(abs(found[it] - shown[it]) > 1e-12 for it in found):
        stop(f"{name}: {found}, and not {shown}")


def commands(outcomes, folder, number, name, case):
    """Returns the commands for a program and its models, and the number of states, which are compared."""
    path, out = written(folder, f"{number}.i", case.source), os.path.join(folder, "out")
    search = [searcher(folder, str(number), case.spin), "-m1000000", "-w24"]
    with open(out, "wb") as file:
        measured_well(search, stdout=file)
    with open(out, "rb") as file:
        stored = int(MADE.search(file.read())[1])
    if stored <= SHORT:
        compare(outcomes, name, path, case, stored)
    model = written(folder, f"{number}.maude", case.maude)
    return stored + 1, [[outcomes, "--most", str(stored + 1), path], search, ["maude", "-no-banner", "-batch", model]]


def print_times(outcomes, folder):
    """Prints a row for each program."""
    calls = {name: commands(outcomes, folder, number, name, case) for number, (name, case) in enumerate(CASES.items())}
    least = {}
    for _ in range(ROUNDS):
        for name, (_, words) in calls.items():
            for tool, command in enumerate(words):
                time, memory = least.get((name, tool), (float("inf"), 0))
                if memory and time >= LONG:
                    continue
                used = measured_well(command)
                least[name, tool] = min(time, used.seconds - used.system), max(memory, used.memory)
    print_heading("Program", "states", "`ick-outcomes`, s", "MiB", "SPIN, s", "MiB", "Maude, s", "MiB")
    for name, (states, words) in calls.items():
        found = [least[name, tool] for tool in range(len(words))]
        print_row(name, f"{states:,}", *[cell for time, memory in found for cell in (f"{time:.2f}", f"{memory / 1024:.0f}")])


def print_instructions(outcomes, folder):
    """Prints the instructions of short programs."""
    print_heading("Program", "millions of instructions")
    for name, case in CASES.items():
        if "100 " in name:
            path = written(folder, "counted.i", case.source)
            print_row(name, f"{counted([outcomes, path])[0] / 1e6:.1f}")


def main():
    parser = argparse.ArgumentParser(usage=__doc__.split("\n\n")[1].strip())
    parser.add_argument("program", nargs="?", default=f"{TOP}/crates/outcomes/out/outcomes")
    parser.add_argument("--instructions", action="store_true")
    asked = parser.parse_args()
    if not os.access(asked.program, os.X_OK):
        stop(f"{asked.program} is no program that can be run: a call of ./ick-outcomes builds it")
    for need in ("valgrind",) if asked.instructions else ("spin", "maude"):
        if not shutil.which(need):
            stop(f"there is no command {need}")
    outcomes = os.path.abspath(asked.program)
    with tempfile.TemporaryDirectory() as folder:
        (print_instructions if asked.instructions else print_times)(outcomes, folder)


if __name__ == "__main__":
    run(main)
