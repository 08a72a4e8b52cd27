#!/usr/bin/env python3
"""Measures how much stack the built program needs for the deepest sources.

  stack.py [PROGRAM]

It needs the built program (a call of ./ick builds it), Python 3.8 and Linux.

The sources are the deepest of tests/hostile, with the highest expressions that are recognised, and a shallow one
beside them. For each source and each command the script prints the smallest limit of the stack in KiB under which ten
runs end with status 0. The system chooses the stack's first address, so one run can need up to 8 KiB less than another.
Nothing is judged.
"""
import resource
import subprocess
import sys
import tempfile

from measuring import TOP, print_heading, print_row, program_to_measure, run, written

sys.path.insert(0, f"{TOP}/tests/hostile")
from deepest import DEEPEST, limited  # noqa: E402

COMMANDS = ["check", "list", "run", "runs"]
RUNS = 10
PAGE = 4
MOST = 8192
SHALLOW = ("one operand", "DO READ OUT #1\nPLEASE GIVE UP\n", b"\nI\n")


def ends_well(words, size):
    """Tells whether each of ten runs of a command ends with status 0 on a stack of so many KiB."""
    for _ in range(RUNS):
        try:
            ran = subprocess.run(words, env={}, stdin=subprocess.DEVNULL, stdout=subprocess.DEVNULL,
                                 stderr=subprocess.DEVNULL, preexec_fn=limited(resource.RLIMIT_STACK, size * 1024))
        except (OSError, subprocess.SubprocessError):
            return False
        if ran.returncode:
            return False
    return True


def needed(words):
    """Returns the smallest size in KiB on which a command ends well."""
    too_small, enough = 0, MOST
    while enough - too_small > PAGE:
        size = (too_small + enough) // 2 // PAGE * PAGE
        if ends_well(words, size):
            enough = size
        else:
            too_small = size
    return enough


def main():
    program = program_to_measure(__doc__)
    with tempfile.TemporaryDirectory() as folder:
        print_heading("Source", *[f"`{it}`, KiB" for it in COMMANDS])
        for name, text, _ in [SHALLOW] + DEEPEST:
            source = written(folder, "source.i", text)
            print_row(name, *[str(needed([program, command, source])) for command in COMMANDS])


if __name__ == "__main__":
    run(main)
