#!/usr/bin/env python3
"""Measures how long the built program takes to read sources of 1 MiB, and how much memory it holds.

  reading.py [PROGRAM]

It needs the built program (a call of ./ick builds it), Python 3.8 and Linux.

The script calls `ick check`, `ick list` and `ick run` on each source of sources.py. `ick run` compiles the source, and
ends at its first fault or choice. The table has the least processor time of five calls, the largest resident memory,
and the exit status. Nothing is judged.
"""
import os
import subprocess
import sys
import tempfile

from measuring import TOP, measured, print_heading, print_row, program_to_measure, run, stop

RUNS = 5
COMMANDS = ["check", "list", "run"]


def table(program, folder):
    """Prints the row of each source in the folder, as it comes."""
    print_heading("Source", *[name for it in COMMANDS for name in (f"`{it}`, s", "MiB", "status")])
    for name in sorted(os.listdir(folder)):
        row = []
        for command in COMMANDS:
            runs = [measured([program, command, os.path.join(folder, name)]) for _ in range(RUNS)]
            row += [f"{min(it.seconds for it in runs):.3f}", f"{max(it.memory for it in runs) / 1024:.0f}",
                    str(runs[0].status)]
        print_row(name[:-2], *row)


def main():
    program = program_to_measure(__doc__)
    with tempfile.TemporaryDirectory() as folder:
        if subprocess.run([sys.executable, f"{TOP}/bench/sources.py", folder]).returncode:
            stop("there are no sources to measure")
        table(program, folder)


if __name__ == "__main__":
    run(main)
