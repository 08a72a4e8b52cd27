#!/usr/bin/env python3
"""Measures how fast programs run: those of workloads.py, by the built program's `ick run`.

  speed.py [--instructions] [--program PROGRAM] [NAME..]

PROGRAM is the program `ick`. Without --program the script takes the one that ./ick builds. Each NAME is a program of
workloads.py. Without a NAME the script measures all. It needs Python 3.8 and Linux, and callgrind (Valgrind) for
--instructions. If C-INTERCAL is installed, its compiled programs are measured in the same rounds, without and with its
optimiser (-O). It is Debian's package `intercal`, and its compiler is called `ick` too. The script first checks that
all print the same.

The first table is of the run alone: the least processor time of forty-one rounds, less the time before the first step.
For `ick run` this is the time that it takes for the same source with GIVE UP in front, which it reads and compiles too.
For a compiled program it is the time of one that ends at once. The second table is of the whole job, from the source to
the program's end: for C-INTERCAL its compiler, gcc, and the compiled program.

With --instructions there is one table, of the run alone: the millions of instructions that callgrind counts, less those
before the first step. It doesn't count the system's. Nothing is judged.
"""
import os
import shutil
import subprocess
import sys
import tempfile
import time

from measuring import BUILDS, TOP, counted, measured_well, print_heading, print_row, run, stop
from workloads import NOTHING

PROGRAM = f"{TOP}/crates/ick/out/ick"
TINY = "tiny"
COMPILER = "/usr/bin/ick"
ROUNDS = 41
JOBS = 9
PATIENCE = 60
OPTIONS = ("-b", "-bO")


def seconds(words, source, folder=None):
    """The processor time of a command and its children, with a file as its input, that prints to nowhere."""
    with open(source, "rb") as lines:
        return measured_well(words, cwd=folder, stdin=lines).seconds


def printed(words, source):
    """What a command prints, without white at the ends of lines, which C-INTERCAL's programs fill up."""
    with open(source, "rb") as lines:
        output = subprocess.run(words, stdin=lines, stdout=subprocess.PIPE, check=True).stdout
    return b"\n".join(line.rstrip() for line in output.split(b"\n"))


def ours(program, source):
    return [program, "run", "--limit", "4294967295", source]


def compiled(option, source, folder):
    """The program that C-INTERCAL makes of a source, or none where it makes none."""
    os.makedirs(folder, exist_ok=True)
    shutil.copy(source, folder)
    name = os.path.basename(source)
    subprocess.run([COMPILER, option, name], cwd=folder, stdout=subprocess.DEVNULL, stderr=subprocess.DEVNULL)
    made = os.path.join(folder, name[:-2])
    return made if os.access(made, os.X_OK) else None


def commands(program, source, folder):
    """The commands that run a source, by their names. C-INTERCAL may have a source of its own."""
    found = {"ick run": ours(program, source)}
    theirs = os.path.join(folder, "c-intercal", os.path.basename(source))
    for option in OPTIONS if os.access(COMPILER, os.X_OK) else ():
        made = compiled(option, theirs if os.path.exists(theirs) else source, os.path.join(folder, option))
        if made:
            found[option] = [made]
    return found


def ended(source, folder):
    """The same source with GIVE UP in front, in a file of that folder."""
    os.makedirs(folder, exist_ok=True)
    place = os.path.join(folder, os.path.basename(source))
    with open(source, encoding="ascii") as text, open(place, "w", encoding="ascii") as file:
        file.write(NOTHING + text.read())
    return place


def alone(table, source, start, folder, measure):
    """What the steps of each command take, by a measure of them all; start is what compiled programs take to end."""
    ends = ended(source, os.path.join(folder, "ended"))
    found = measure({**table, "start": table["ick run"][:-1] + [ends]})
    starts = {**start, "ick run": found.pop("start")}
    return {it: max(found[it] - starts[it], 1e-6) for it in found}


def jobs(program, source, folder):
    """The commands that do the whole job, by their names."""
    found = {"ick run": (ours(program, source), None)}
    for option in OPTIONS if os.access(COMPILER, os.X_OK) else ():
        place = os.path.join(folder, option)
        name = os.path.basename(source)
        if os.access(os.path.join(place, name[:-2]), os.X_OK):
            found[option] = (["sh", "-c", f"{COMPILER} {option} {name} >&2 && ./{name[:-2]}"], place)
    return found


def least(table, rounds, measure):
    """The least time of each command, where each round does all of them; fewer rounds where they take long."""
    best = {}
    began = time.monotonic()
    for _ in range(rounds):
        for name, command in table.items():
            best[name] = min(measure(command), best.get(name, float("inf")))
        if time.monotonic() - began > PATIENCE:
            break
    return best


def print_numbers(name, found, digits):
    """Prints a line of a table: thousandths or millions, and how many times as much the others take."""
    mine = found["ick run"]
    cells = [f"{mine:,.{digits}f}"]
    for option in OPTIONS:
        cells += [f"{found[option]:,.{digits}f}", f"{found[option] / mine:.2f}"] if option in found else ["", ""]
    print_row(name, *cells)


def print_head(title, unit):
    theirs = [name for it in OPTIONS for name in (f"C-INTERCAL `{it}`, {unit}", "ratio")]
    print_heading(title, f"`ick run`, {unit}", *theirs)


def times(table, lines, rounds=ROUNDS):
    """The least processor time of each command with an input, in milliseconds."""
    return least(table, rounds, lambda words: 1000 * seconds(words, lines))


def instructions(table, lines):
    """The instructions of each command with an input, in millions."""
    found = {}
    for name, words in table.items():
        with open(lines, "rb") as source:
            found[name] = counted(words, stdin=source)[0] / 1e6
    return found


def read_words():
    """Returns whether instructions are counted, the program, and the names of what it runs."""
    words = sys.argv[1:]
    counts = words[:1] == ["--instructions"]
    words = words[counts:]
    program = PROGRAM
    if words[:1] == ["--program"] and len(words) > 1:
        program, words = words[1], words[2:]
    if any(word.startswith("-") for word in words):
        sys.exit(__doc__)
    if not os.access(program, os.X_OK) or os.path.isdir(program):
        stop(f"{program} is no program that can be run: {BUILDS['ick']}")
    return counts, os.path.abspath(program), words


def input_of(name, folder):
    lines = os.path.join(folder, f"{name}.in")
    return lines if os.path.exists(lines) else os.devnull


def main():
    counts, program, names = read_words()
    with tempfile.TemporaryDirectory() as folder:
        length = ["short"] if counts else []
        if subprocess.run([sys.executable, f"{TOP}/bench/workloads.py", folder, *length]).returncode:
            stop("there are no programs to measure")
        known = sorted(it[:-2] for it in os.listdir(folder) if it.endswith(".i"))
        if not set(names) <= set(known):
            stop(f"the programs are {' '.join(known)}")
        names = [it for it in names or known if it != TINY]
        sources = {it: os.path.join(folder, f"{it}.i") for it in [*names, TINY]}
        table = {it: commands(program, source, folder) for it, source in sources.items()}
        for name in names:
            if len({printed(words, input_of(name, folder)) for words in table[name].values()}) > 1:
                stop(f"what {name} prints isn't the same")
        measure = instructions if counts else times
        start = measure(table[TINY], os.devnull)
        print_head("Run alone", "millions" if counts else "ms")
        for name in names:
            lines = input_of(name, folder)
            found = alone(table[name], sources[name], start, folder, lambda commands: measure(commands, lines))
            print_numbers(name, found, 1 if counts else 2)
        if counts:
            return
        print()
        print_head("Whole job", "ms")
        for name, source in sources.items():
            lines = input_of(name, folder)
            found = least(jobs(program, source, folder), JOBS, lambda job: 1000 * seconds(job[0], lines, job[1]))
            print_numbers(name, found, 1)


if __name__ == "__main__":
    run(main)
