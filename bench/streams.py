#!/usr/bin/env python3
"""Measures how long input and output take, by the built program's `ick run`. Three programs read a line or print a
numeral, or do both, 1,048,576 times. Four are those of workloads.py that print much.

  streams.py [PROGRAM]

It needs the built program (a call of ./ick builds it), Python 3.8 and Linux. If C-INTERCAL is installed, its compiled
programs are measured in the same rounds, without and with its optimiser (-O). It is Debian's package `intercal`, and
its compiler is called `ick` too.

Each of the three is measured with files as standard input and output, and with pipes, and each of the four from a file
into a file, and from a file into a pipe. The table has the least processor time of five rounds, and the system's part
of it. Nothing is judged.
"""
import os
import subprocess
import sys
import tempfile

from measuring import TOP, measured_well, print_heading, print_row, program_to_measure, run, stop, written
from speed import commands, input_of
from workloads import program

ROUNDS = 5
DEPTH = 5
TURNS = 16 ** DEPTH
TITLES = {"-b": "C-INTERCAL -b", "-bO": "C-INTERCAL -bO"}
LINE = b"ONE NINE SEVEN TWO\n"
PROGRAMS = {
    "lines in": program(DEPTH, ["WRITE IN .1"]),
    "numerals out": program(DEPTH, ["READ OUT .1"], [".1 <- #1972"]),
    "lines in, numerals out": program(DEPTH, ["WRITE IN .1", "READ OUT .1"]),
}
PRINTING = "brackets", "life", "reverse", "rot13"


def seconds(words, source, target):
    """The processor time of a command from a stream to a stream, and what of it the system took."""
    return measured_well(words, stdin=source, stdout=target)[:2]


def over_files(words, lines):
    with open(lines, "rb") as source, tempfile.TemporaryFile() as target:
        return seconds(words, source, target)


def into_pipe(words, source):
    with subprocess.Popen(["cat"], stdin=subprocess.PIPE, stdout=subprocess.DEVNULL) as drain:
        found = seconds(words, source, drain.stdin)
        drain.stdin.close()
    return found


def over_pipes(words, lines):
    with subprocess.Popen(["cat", lines], stdout=subprocess.PIPE) as feeder:
        found = into_pipe(words, feeder.stdout)
        feeder.stdout.close()
    return found


def from_file_into_pipe(words, lines):
    with open(lines, "rb") as source:
        return into_pipe(words, source)


def least(table, over, lines):
    """The least time of each command, where each round does all of them."""
    rounds = [{name: over(words, lines) for name, words in table.items()} for _ in range(ROUNDS)]
    return {name: min(it[name] for it in rounds) for name in table}


def measure(name, table, lines, ways):
    for over, kind in ways:
        best = least(table, over, lines)
        print_row(name, kind, *[f"{part * 1000:.0f}" for it in table for part in best[it]])


def main():
    built = program_to_measure(__doc__)
    with tempfile.TemporaryDirectory() as folder:
        lines = os.path.join(folder, "lines")
        with open(lines, "wb") as file:
            file.write(LINE * TURNS)
        tables = {}
        for name, text in PROGRAMS.items():
            source = written(folder, name.replace(" ", "-").replace(",", "") + ".i", text)
            tables[name] = commands(built, source, folder)
        if subprocess.run([sys.executable, f"{TOP}/bench/workloads.py", folder]).returncode:
            stop("there are no programs to measure")
        printing = {name: commands(built, os.path.join(folder, f"{name}.i"), folder) for name in PRINTING}
        titles = [name for it in tables["lines in"] for name in (f"{TITLES.get(it, it)}, ms", "system")]
        print_heading("Program", "over", *titles)
        for name, table in tables.items():
            measure(name, table, lines, ((over_files, "files"), (over_pipes, "pipes")))
        for name, table in printing.items():
            measure(name, table, input_of(name, folder), ((over_files, "files"), (from_file_into_pipe, "file, pipe")))


if __name__ == "__main__":
    run(main)
