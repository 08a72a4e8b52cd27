#!/usr/bin/env python3
"""Measures how long a step takes on each machine: the programs of workloads.py, by the built program `test_runs`.

  machines.py [--instructions] [PROGRAM [ICK]]

It needs that program (`rt run` in crates/test_runs builds it), Python 3.8 and Linux, and callgrind (Valgrind) for
--instructions.

The script prints the nanoseconds a step, for each program and machine. The program makes a run once, and then so many
further runs that these have some twenty million steps. Their time is measured, less the time of as many runs of the
same source with GIVE UP in front, which only make the machine. Each time is the least processor time of ten rounds, and
each round measures every machine. All runs must make equally many steps. Nothing else is judged.

With --instructions it prints the instructions a step that callgrind counts for a run of half a million steps, less
those of a run of no step. With ICK, the program `ick`, those of `Live` are counted by its `ick run`.
"""
import os
import subprocess
import sys
import tempfile

import measuring
from measuring import counted_run, print_heading, print_row, program_to_measure, stop
from workloads import NOTHING, WORKLOADS

MACHINES = {"copied": "Copied", "trailed": "Trailed", "live": "Live"}
# The greatest limit on the steps of a run, which no program of workloads.py comes to.
LIMIT = str(2**32 - 1)
STEPS = 20_000_000
COUNTED = 500_000
ROUNDS = 10


def run(program, machine, source, runs):
    """Returns the processor time of some runs on a machine, and the steps of each."""
    with tempfile.TemporaryFile() as text:
        text.write(source.encode())
        text.seek(0)
        child = subprocess.Popen([program, "measure", LIMIT] + [machine] * runs, stdin=text, stdout=subprocess.PIPE,
                                 stderr=subprocess.PIPE)
        words, refusal = (stream.read().decode() for stream in (child.stdout, child.stderr))
        words = words.split()
        _, status, usage = os.wait4(child.pid, 0)
        child.returncode = status
        child.stdout.close()
        child.stderr.close()
    if status or len(words) != 2 * runs or len(set(words[1::2])) != 1:
        stop(f"{program} {machine} ended with status {status} and printed {words[:6]} {refusal}")
    return usage.ru_utime + usage.ru_stime, int(words[1])


def least(program, source):
    """Returns the least time of a step on each machine, and how many steps each makes."""
    made = {run(program, machine, source, 1)[1] for machine in MACHINES}
    if len(made) != 1:
        stop(f"the machines don't make equally many steps: {sorted(made)}")
    steps = made.pop()
    runs = max(1, STEPS // steps)
    best = {}
    for _ in range(ROUNDS):
        for machine in MACHINES:
            for text in source, NOTHING + source:
                for count in 1 + runs, 1:
                    taken, _ = run(program, machine, text, count)
                    best[machine, text, count] = min(taken, best.get((machine, text, count), float("inf")))

    def further(machine, text):
        return best[machine, text, 1 + runs] - best[machine, text, 1]

    return {machine: (further(machine, source) - further(machine, NOTHING + source)) / (runs * steps)
            for machine in MACHINES}, steps


def instructions(program, source, ick):
    """Returns the instructions of a step on each machine, and how many steps were counted."""
    def counted(machine, limit):
        with tempfile.TemporaryFile() as text:
            text.write(source.encode())
            text.seek(0)
            count, printed = measuring.counted([program, "measure", str(limit), machine], stdin=text,
                                               stdout=subprocess.PIPE)
        return count, int(printed.split()[1])

    counts = {machine: (counted(machine, 0)[0], *counted(machine, COUNTED)) for machine in MACHINES}
    steps = {made for _, _, made in counts.values()}
    if len(steps) != 1:
        stop(f"the machines don't make equally many steps: {sorted(steps)}")
    found = {machine: (all_steps - none) / made for machine, (none, all_steps, made) in counts.items()}
    if ick:
        found["live"] = (counted_run(ick, source, COUNTED) - counted_run(ick, source, 0)) / max(steps)
    return found, steps.pop()


def main():
    counts = sys.argv[1:2] == ["--instructions"]
    if counts:
        del sys.argv[1]
    ick = sys.argv.pop() if counts and len(sys.argv) > 2 else None
    program = program_to_measure(__doc__, "test_runs")
    print_heading("Program", "steps", *[f"`{name}`" if counts else f"`{name}`, ns" for name in MACHINES.values()])
    for name in sorted(WORKLOADS):
        found, steps = instructions(program, WORKLOADS[name], ick) if counts else least(program, WORKLOADS[name])
        row = [f"{found[machine] if counts else found[machine] * 1e9:.1f}" for machine in MACHINES]
        print_row(f"`{name}`", f"{steps:,}", *row)


if __name__ == "__main__":
    measuring.run(main)
