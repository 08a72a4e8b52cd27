#!/usr/bin/env python3
"""Measures `ick runs` beside two model checkers that go through as many runs: SPIN and Maude.

  checkers.py [PROGRAM]

It needs the built program (a call of ./ick builds it), Python 3.8, Linux, a C compiler, and the commands `spin` and
`maude` (Debian packages of the same names).

The program has nineteen chances, and so 524,288 runs of 20 steps. The models make the same choices. A state has the
choices made so far, so that no two states are the same and nothing is merged. `ick` writes the line of each run into a
file, by one write. SPIN's program is compiled and called in the plainest way, and then with flags and a hash table for
a fast search. It writes nothing of a run, or the same lines as `ick` by blocks of the C library, or each of these lines
by one write. Maude writes each last state into a file, by blocks.

The table has the least processor times of fifteen rounds (five for Maude), the system's share of each, and how many
times as long as `ick` each takes. SPIN's times don't include that its program is made and compiled. Nothing is judged.
"""
import os
import shutil
import subprocess
import tempfile

from measuring import measured_well, print_heading, print_row, program_to_measure, run, stop, written
from workloads import polite

CHOICES = 19
ROUNDS = 15

PROGRAM = polite([(None, "%50 FORGET #0")] * CHOICES + [(None, "GIVE UP")])
# what SPIN does after a choice, if it writes lines
TELLING = f"if :: count == {CHOICES} -> c_code {{ tell(now.made); }} :: else fi"
TELL = f"""
#include <stdio.h>
static void tell(int made) {{
    char line[] = "{'0' * CHOICES} GIVE-UP \\"\\"\\n";
    for (int at = {CHOICES} - 1; at >= 0; at--, made /= 2)
        line[at] = '0' + made % 2;
    fwrite(line, 1, sizeof line - 1, stdout);
    if (AT_ONCE)
        fflush(stdout);
}}
"""
FAST = "-DSAFETY -DNOREDUCE -DNOCLAIM -DNOBOUNDCHECK".split()
SMALL = ["-m100", "-w22"]
MAUDE = f"""
mod RUNS is
    protecting NAT .
    sort Run .
    op run : Nat Nat -> Run .
    vars left made : Nat .
    rl run(s left, made) => run(left, made + made) .
    rl run(s left, made) => run(left, s (made + made)) .
endm
search run({CHOICES}, 1) =>! run(0, made) .
quit
"""


def spin_model(head, end):
    """The model for SPIN, with what it declares and what it does after each choice."""
    return f"""
{head}
int made = 1;
active proctype choose() {{
    byte count = 0;
end:
    do
    :: d_step {{ count < {CHOICES} -> made = made * 2; count++; {end} }}
    :: d_step {{ count < {CHOICES} -> made = made * 2 + 1; count++; {end} }}
    od
}}
"""


def times(words, out):
    """The processor time of a command that prints into a file, and the system's share of it."""
    with open(out, "wb") as file:
        return measured_well(words, stdout=file, stderr=file)[:2]


def searcher(folder, name, model, *flags):
    """The program that SPIN makes of a model, compiled with these flags."""
    room = os.path.join(folder, name)
    os.mkdir(room)
    written(room, "tell.h", TELL)
    subprocess.run(["spin", "-a", written(room, "runs.pml", model)], cwd=room, check=True, stdout=subprocess.DEVNULL)
    subprocess.run([os.environ.get("CC", "cc"), "-O2", "-w", *flags, "-o", "pan", "pan.c"], cwd=room, check=True)
    return os.path.join(room, "pan")


def lines_in(path):
    """The lines of runs in a file."""
    with open(path, "rb") as file:
        return [line for line in file if b" GIVE-UP " in line]


def main():
    ick = program_to_measure(__doc__)
    for need in ("spin", "maude"):
        if not shutil.which(need):
            stop(f"there is no command {need}")
    with tempfile.TemporaryDirectory() as folder:
        source, maude = written(folder, "runs.i", PROGRAM), written(folder, "runs.maude", MAUDE)
        silent, telling = spin_model("", ""), spin_model('c_decl { \\#include "tell.h" }', TELLING)
        commands = {
            "`ick runs`": [ick, "runs", "--count", str(2**CHOICES), source],
            "SPIN, no lines, plain": [searcher(folder, "plain", silent)],
            "SPIN, no lines": [searcher(folder, "silent", silent, *FAST), *SMALL],
            "SPIN, lines by blocks": [searcher(folder, "blocks", telling, *FAST, "-DAT_ONCE=0"), *SMALL],
            "SPIN, a write for each line": [searcher(folder, "writes", telling, *FAST, "-DAT_ONCE=1"), *SMALL],
            "Maude": ["maude", "-no-banner", "-batch", maude],
        }
        outs = {name: os.path.join(folder, str(number)) for number, name in enumerate(commands)}
        least = {name: (float("inf"), 0) for name in commands}
        for number in range(ROUNDS):
            for name, words in commands.items():
                if name != "Maude" or number % 3 == 0:
                    least[name] = min(least[name], times(words, outs[name]))
        of_ick, of_spin = lines_in(outs["`ick runs`"]), lines_in(outs["SPIN, a write for each line"])
    if of_spin != of_ick or len(of_ick) != 2**CHOICES:
        stop("the lines of SPIN are not those of ick")
    print_heading("Checker", "s", "system, s", "times")
    for name, (time, system) in least.items():
        print_row(name, f"{time:.3f}", f"{system:.3f}", f"{time / least['`ick runs`'][0]:.1f}")


if __name__ == "__main__":
    run(main)
