#!/usr/bin/env python3
"""Measures `ick-outcomes`, beside the model checkers SPIN and Maude on models of the same programs.

  outcomes.py [PROGRAM [ICK]]                  prints two tables of times and memory
  outcomes.py [PROGRAM [ICK]] --instructions   prints the instructions of the processor that callgrind counts

PROGRAM is the built ick-outcomes and ICK the built ick, or else those that calls of ./ick-outcomes and ./ick build. It
needs Python 3.8, Linux, a C compiler, and the commands `spin` and `maude` (Debian packages of the same names); or
`valgrind`, for instructions.

The programs print at their end alone, but for `printed`, which prints each choice. So states are joined in all others.
A model has a state for each state of its program at a choice, and SPIN says how many there are. SPIN and Maude find the
states, and neither counts runs nor weighs them. SPIN's times are without making and compiling its program.

ick-outcomes has a limit that no run reaches, or that of the channel. A time is processor time without the system's, the
least of some rounds. Nothing is judged.
"""
import argparse
import collections
import os
import re
import shutil
import subprocess
import tempfile

from measuring import TOP, counted, measured, print_heading, print_row, run, stop, written
from workloads import polite

ROUNDS = 5
LONG = 20  # seconds from which a command is called once
PATIENCE = 900  # seconds after which Maude is ended
UNREACHED = ["--limit", "10000"]
# The next of 2047 numbers in the ring of a shift register: a counter that takes one statement.
NEXT = "'.1$\"?'.1~#1024'$'.1~#256'\"~#1'~'#1023$#1'"
SPIN_FLAGS = "-DSAFETY -DNOREDUCE -DNOCLAIM -DNOBOUNDCHECK".split()
MADE = re.compile(rb"(\d+) states, stored")

# A program, the options of ick-outcomes, and its models.
Case = collections.namedtuple("Case", "source options spin maude")


def source(*bodies):
    """Returns a program of these bodies. A label and a colon may be in front of each."""
    parted = [re.fullmatch(r"(?:(\d+): )?(.*)", body) for body in bodies]
    return polite([(it[1], it[2]) for it in parted])


def spin(declared, *choices):
    """Returns a model for SPIN that makes one of the choices again and again, as long as there is one."""
    made = "\n".join(f"    :: d_step {{ {choice} }}" for choice in choices)
    return f"{declared}\nactive proctype choose() {{\nend:\n    do\n{made}\n    od\n}}\n"


def maude(operator, start, end, *rules):
    """Returns a module for Maude and its search for all last states."""
    made = "\n".join(f"    rl {rule} ." for rule in rules)
    return (f"mod MODEL is\n    protecting NAT .\n    sort State .\n    op {operator} -> State .\n    vars a b c : Nat .\n"
            f"{made}\nendm\nsearch {start} =>! {end} .\nquit\n")


def coins(count):
    """Throws coins, and counts heads."""
    throws = [f"%50 .1 <- {NEXT}"] * count
    return Case(source(".1 <- #1", *throws, "READ OUT .1", "GIVE UP"), UNREACHED,
                spin("short count = 0, heads = 0;", f"count < {count} -> count++",
                     f"count < {count} -> count++; heads++"),
                maude("at : Nat Nat", f"at({count}, 0)", "at(0, b)", "at(s a, b) => at(a, b)",
                      "at(s a, b) => at(a, s b)"))


def walk(moves):
    """Walks on a line, whose places to the left and to the right of each are in two arrays."""
    places = 2 * moves + 1
    left = [f",1SUB#{place} <- #{place - 1}" for place in range(2, places + 1)]
    right = [f",2SUB#{place} <- #{place + 1}" for place in range(1, places)]
    steps = [".2 <- ,1SUB.1", "%50 .2 <- ,2SUB.1", ".1 <- .2"] * moves
    before = [f",1 <- #{places}", f",2 <- #{places}", *left, *right, f".1 <- #{moves + 1}"]
    return Case(source(*before, *steps, "READ OUT .1", "GIVE UP"), UNREACHED,
                spin(f"short count = 0, place = {moves};", f"count < {moves} -> count++; place++",
                     f"count < {moves} -> count++; place--"),
                maude("at : Nat Nat", f"at({moves}, {moves})", "at(0, b)", "at(s a, s b) => at(a, b)",
                      "at(s a, b) => at(a, s b)"))


def channel(limit):
    """Sends letters for ever, each until an answer comes, and counts those that arrive. A round has 3 or 6 steps."""
    program = source(".1 <- #1", "10: FORGET #1", "%90 (20) NEXT", "(10) NEXT", f"20: .1 <- {NEXT}",
                     "%90 (30) NEXT", "FORGET #1", "(10) NEXT", "30: FORGET #2", "(10) NEXT")
    return Case(program, ["--limit", str(limit), "--most", "4294967295"],
                spin("short steps = 2, arrived = 0; bool sent = false;",
                     f"!sent && steps < {limit} -> steps = steps + 3",
                     f"!sent && steps < {limit} -> steps = steps + 2; arrived++; sent = true",
                     f"sent && steps < {limit} -> steps = steps + 4; sent = false"),
                maude("at : Nat Nat Nat", f"at({limit}, 0, 0)", "at(0, b, c)", "at(s s s a, b, 0) => at(a, b, 0)",
                      "at(s s a, b, 0) => at(a, s b, 1)", "at(s s s s a, b, 1) => at(a, b, 0)"))


def printed(count):
    """Throws coins, and prints each head as a number of its own."""
    throws = [f"%50 READ OUT #{number}" for number in range(1, count + 1)]
    return Case(source(*throws, "GIVE UP"), [*UNREACHED, "--most", "4294967295"],
                spin("byte count = 0; int made = 1;", f"count < {count} -> count++; made = made * 2",
                     f"count < {count} -> count++; made = made * 2 + 1"),
                maude("at : Nat Nat", f"at({count}, 1)", "at(0, b)", "at(s a, b) => at(a, b + b)",
                      "at(s a, b) => at(a, s (b + b))"))


CASES = {"300 coins": coins(300), "1,000 coins": coins(1000), "a walk of 200 moves": walk(200),
         "a channel, 1,000 steps": channel(1000), "a channel, 10,000 steps": channel(10000),
         "16 coins, all printed": printed(16), "19 coins, all printed": printed(19)}


def least(words, out, patience=None):
    """Returns the least processor time of a command in seconds, without the system's, and its memory in MiB. Returns None
    if it takes longer than is allowed."""
    times, memory = [], 0
    limited = words if patience is None else ["timeout", str(patience), *words]
    while not times or len(times) < ROUNDS and times[0] < LONG:
        with open(out, "wb") as file:
            used = measured(limited, stdout=file)
        if patience is not None and used.status == 124:
            return None
        if used.status:
            stop(f"{' '.join(words)} ended with status {used.status}")
        times.append(used.seconds - used.system)
        memory = max(memory, used.memory)
    return min(times), memory / 1024


def searcher(folder, name, model):
    """Returns the program that SPIN makes of a model."""
    room = os.path.join(folder, name)
    os.mkdir(room)
    subprocess.run(["spin", "-o2", "-a", written(room, "model.pml", model)], cwd=room, check=True, stdout=subprocess.DEVNULL)
    subprocess.run([os.environ.get("CC", "cc"), "-O2", "-w", *SPIN_FLAGS, "-o", "pan", "pan.c"], cwd=room, check=True)
    return os.path.join(room, "pan")


def shown(found):
    return ("..", "..") if found is None else (f"{found[0]:.2f}", f"{found[1]:.0f}")


def print_times(outcomes, folder):
    """Prints a row for each program."""
    out = os.path.join(folder, "out")
    print_heading("Program", "outcomes", "digits of the number of runs", "`ick-outcomes`, s", "MiB", "states",
                  "SPIN, s", "MiB", "Maude, s", "MiB")
    for number, (name, case) in enumerate(CASES.items()):
        path = written(folder, f"{number}.i", case.source)
        words = [outcomes, *case.options, path]
        found = least(words, out)
        total = subprocess.run([*words, "--total"], stdin=subprocess.DEVNULL, capture_output=True, check=True).stdout
        kinds, runs = re.fullmatch(rb"(\d+) OUTCOMES, (\d+) RUNS\n", total).groups()
        by_spin = least([searcher(folder, str(number), case.spin), "-m1000000", "-w24"], out)
        with open(out, "rb") as file:
            states = int(MADE.search(file.read())[1])
        by_maude = least(["maude", "-no-banner", "-batch", written(folder, f"{number}.maude", case.maude)], out, PATIENCE)
        print_row(name, f"{int(kinds):,}", str(len(runs)), *shown(found), f"{states:,}", *shown(by_spin),
                  *shown(by_maude))


def print_printed(outcomes, ick, folder):
    """Prints how `ick-outcomes` compares with a listing where nothing is joined, and what a state takes of memory, with the
    row of its outcome."""
    out = os.path.join(folder, "out")
    print()
    print_heading("Program", "`ick runs`, s", "`ick-outcomes`, s", "times", "bytes a state")
    for count in (16, 19):
        path = written(folder, "printed.i", printed(count).source)
        listed, _ = least([ick, "runs", "--count", "1000000", path], out)
        found, memory = least([outcomes, *printed(count).options, path], out)
        print_row(f"{count} coins, all printed", f"{listed:.2f}", f"{found:.2f}", f"{found / listed:.1f}",
                  f"{memory * 2**20 / 2**count:.0f}")


def print_instructions(outcomes, ick, folder):
    """Prints instructions of short programs."""
    print_heading("Program", "millions of instructions", "of `ick runs`")
    for name in ("300 coins", "a walk of 200 moves", "a channel, 1,000 steps", "16 coins, all printed"):
        case, path = CASES[name], os.path.join(folder, "counted.i")
        written(folder, "counted.i", case.source)
        listed = ""
        if "printed" in name:
            listed = f"{counted([ick, 'runs', '--count', '1000000', path])[0] / 1e6:.1f}"
        print_row(name, f"{counted([outcomes, *case.options, path])[0] / 1e6:.1f}", listed)


def main():
    parser = argparse.ArgumentParser(usage=__doc__.split("\n\n")[1].strip())
    parser.add_argument("program", nargs="?", default=f"{TOP}/crates/outcomes/out/outcomes")
    parser.add_argument("ick", nargs="?", default=f"{TOP}/crates/ick/out/ick")
    parser.add_argument("--instructions", action="store_true")
    asked = parser.parse_args()
    for program in (asked.program, asked.ick):
        if not os.access(program, os.X_OK):
            stop(f"{program} is no program that can be run: calls of ./ick-outcomes and ./ick build them")
    for need in ("valgrind",) if asked.instructions else ("spin", "maude"):
        if not shutil.which(need):
            stop(f"there is no command {need}")
    outcomes, ick = os.path.abspath(asked.program), os.path.abspath(asked.ick)
    with tempfile.TemporaryDirectory() as folder:
        if asked.instructions:
            print_instructions(outcomes, ick, folder)
        else:
            print_times(outcomes, folder)
            print_printed(outcomes, ick, folder)


if __name__ == "__main__":
    run(main)
