#!/usr/bin/env python3
"""Measures how fast runs are listed, and how much memory it takes: by the built program's `ick runs`.

  listings.py [PROGRAM]

It needs the built program (a call of ./ick builds it), Python 3.8 and Linux, and for the second table valgrind.

There are five programs. Three have twenty or sixteen chances, and so 1,048,576 or 65,536 runs. The first of these makes
40,000 steps before its first chance and prints nothing. The second prints a numeral behind the chances, and the third
prints 204 bytes before them. The fourth program has ten chances, and then each run goes through the loops of
workloads.py. So nearly all of its steps are made under marks. Each run of the fifth has a million choices. The first
table has the least processor time of five listings, the runs and the steps a second, the nanoseconds a step, and the
largest resident memory.

The second table has the instructions that callgrind counts for a run: those of a listing of many runs less those of a
listing of one run.

At last the script compares a step of the fourth program's runs, which is made under marks, with a step of the same
loops by `ick run`, without marks. Both are measured in turns, and each is the least of twenty rounds. Nothing is
judged.
"""
import shutil
import tempfile

from measuring import counted, measured, print_heading, print_row, program_to_measure, run, written
from workloads import WORKLOADS, loop, polite

ROUNDS = 5
TURNS = 20
LISTED = 60
LIMIT = 1_500_000
NOTHING = (None, "FORGET #0")


def program(before, chances, after):
    """A program of some statements, chances, and what comes after."""
    return polite(before + [(None, "%50 FORGET #0")] * chances + after + [(None, "GIVE UP")])


def endless(chances):
    """A loop of chances without an end."""
    return polite([(1, "FORGET #1")] + [(None, "%50 FORGET #0")] * chances + [(None, "(1) NEXT")])


# the source; the steps before the chances, the chances, the steps behind them; the limit; and how many runs are listed
PROGRAMS = {
    "long before the chances": (program([NOTHING] * 40_000, 20, []), 40_000, 20, 1, 50_000, (1_000, 1_000_000)),
    "a numeral a run": (program([], 20, [(None, "READ OUT #1")]), 0, 20, 2, 50_000, (1_000, 1_000_000)),
    "204 bytes before the chances": (program([(None, "READ OUT #3888")] * 12, 16, []), 12, 16, 1, 50_000, (65_536,)),
    "loops behind the chances": (program([], 10, loop(3, [])), 0, 10, 27_301, 50_000, (1_000,)),
    "a million choices a run": (endless(1_000), 1_999, 1_000_000, 0, 1_001_999, (1_000,)),
}


def steps(before, chances, after, runs):
    """The steps of the first runs: what two neighbours share is made once."""
    made = before + chances + after
    for number in range(1, runs):
        made += (number ^ (number - 1)).bit_length() + after
    return made


def listing(ick, limit, runs, path):
    """The command that lists the first runs of a program."""
    return [ick, "runs", "--limit", str(limit), "--count", str(runs), path]


def count_instructions(ick, folder):
    """Prints the instructions that a run takes in a listing."""
    print()
    print_heading("Program", "instructions a run")
    for name, (source, _, _, _, limit, counts) in PROGRAMS.items():
        path, runs = written(folder, "program.i", source), min(counts[-1], 16_384)
        first, all_runs = (counted(listing(ick, limit, count, path))[0] for count in (1, runs))
        print_row(name, f"{(all_runs - first) / (runs - 1):,.0f}")


def compare(ick, folder):
    """Prints how long a step takes in a listing, while marks stand, and in a run of the same loops."""
    source, before, chances, after, _, _ = PROGRAMS["loops behind the chances"]
    third, alone = written(folder, "third.i", source), written(folder, "loop.i", WORKLOADS["loop"])
    commands = {
        "listing": listing(ick, 50_000, LISTED, third),
        "first run": listing(ick, 50_000, 1, third),
        "run": [ick, "run", "--limit", str(LIMIT), alone],
        "no run": [ick, "run", "--limit", "0", alone],
    }
    least = {name: float("inf") for name in commands}
    for _ in range(TURNS):
        for name, words in commands.items():
            least[name] = min(least[name], measured(words).seconds)
    marked = (least["listing"] - least["first run"]) \
        / (steps(before, chances, after, LISTED) - steps(before, chances, after, 1))
    plain = (least["run"] - least["no run"]) / LIMIT
    print(f"\nA step takes {marked * 1e9:.1f} ns while marks stand, and {plain * 1e9:.1f} in a run: "
          f"{marked / plain:.2f} times as much.")


def main():
    ick = program_to_measure(__doc__)
    print_heading("Program", "runs", "s", "runs a second", "steps a second", "ns a step", "MiB")
    with tempfile.TemporaryDirectory() as folder:
        for name, (source, before, chances, after, limit, counts) in PROGRAMS.items():
            path = written(folder, "program.i", source)
            for runs in counts:
                found = [measured(listing(ick, limit, runs, path)) for _ in range(ROUNDS)]
                time, memory = min(it.seconds for it in found), max(it.memory for it in found)
                made = steps(before, chances, after, runs)
                print_row(name, f"{runs:,}", f"{time:.3f}", f"{runs / time:,.0f}", f"{made / time:,.0f}",
                          f"{time / made * 1e9:.1f}", f"{memory / 1024:.0f}")
        if shutil.which("valgrind"):
            count_instructions(ick, folder)
        compare(ick, folder)


if __name__ == "__main__":
    run(main)
