#!/usr/bin/env python3
"""Proves a program of this repository and the crates below it, and links the program.

  build_proved.py TOP CRATE                 the checker's lines go to standard output, the progress to standard error
  build_proved.py TOP CRATE --beside JOBS   builds this one library, beside another `rt lib`

`rt lib` builds each crate, the lowest first, and `rt run` the program at last. Crates of the same height are built side
by side. `rt lib` locks its own crate and all below it, so a second `rt lib` would wait. The kit's own module therefore
builds the other crates of a height, as `rt lib` does, and this script locks their own folders alone. `rt lib` goes over
them afterwards, and finds them built. Proved crates stay in crates/CRATE/out, also if the build is interrupted.
"""
import fcntl
import os
import re
import subprocess
import sys
import threading

from kit import crate_of, load_kit
from progress import Progress

MEMORY_OF_A_JOB = 2_000_000_000
SO_FAR = re.compile(r"so far: (\d+ of \d+ functions)")


def read_crates(top):
    """Returns what each crate of crates.txt rests on, of the repository's crates alone."""
    uses = {}
    with open(f"{top}/crates.txt", encoding="utf-8") as file:
        for line in file:
            name, _, libraries = line.partition("#")[0].partition(":")
            if name.strip():
                uses[name.split()[0]] = re.split(r"[\s,]+", libraries)
    return {name: [library for library in libraries if library in uses] for name, libraries in uses.items()}


def in_levels(uses, name):
    """Returns the crates that a crate rests on, and itself, in lists by height: each rests on lower ones alone."""
    heights = {}

    def height(crate):
        if crate not in heights:
            heights[crate] = 1 + max(map(height, uses[crate]), default=-1)
        return heights[crate]

    height(name)
    return [sorted(crate for crate in heights if heights[crate] == level) for level in range(heights[name] + 1)]


def count_jobs():
    """Returns the jobs that RT_JOBS names, or one a processor, as far as there are 2 GB of free memory for each."""
    if os.environ.get("RT_JOBS", "").isdigit():
        return max(1, int(os.environ["RT_JOBS"]))
    jobs = len(os.sched_getaffinity(0))
    with open("/proc/meminfo", encoding="ascii") as file:
        free = re.search(r"MemAvailable: *(\d+)", file.read())
    return max(1, min(jobs, 1024 * int(free[1]) // MEMORY_OF_A_JOB if free else 1))


class Checking:
    """Prints the checker's lines, and says how far it is."""

    def __init__(self, progress, crates):
        self.progress, self.crates, self.built = progress, crates, 0
        self.lock = threading.Lock()

    def at(self, crate, more=""):
        self.progress.at(f"crate {self.built + 1} of {self.crates}, {crate}{more}")

    def read(self, crate, line):
        with self.lock:
            print(line, end="", flush=True)
            found = SO_FAR.match(line)
            if found:
                self.at(crate, f", {found[1]}")
            elif line.startswith("rt: waiting "):
                self.progress.say(line.rstrip())

    def ended(self):
        with self.lock:
            self.built += 1


class Building:
    """The commands that build one repository's crates."""

    def __init__(self, top, checking, jobs):
        self.top, self.checking, self.jobs = top, checking, jobs

    def run(self, crate, *words):
        """Runs a command in a crate's folder, and returns whether it ended well."""
        self.checking.at(crate)
        with subprocess.Popen(words, cwd=f"{self.top}/crates/{crate}", stdin=subprocess.DEVNULL, errors="replace",
                              stdout=subprocess.PIPE, stderr=subprocess.STDOUT, universal_newlines=True) as ran:
            for line in ran.stdout:
                self.checking.read(crate, line)
        return ran.returncode == 0

    def library(self, crate, jobs):
        is_well = self.run(crate, "rt", "lib", "--jobs", str(jobs))
        if is_well:
            self.checking.ended()
        return is_well

    def beside(self, crate, jobs):
        script = os.path.realpath(__file__)
        return self.run(crate, sys.executable, "-B", script, self.top, crate, "--beside", str(jobs))

    def level(self, crates):
        """Builds the libraries of one height, side by side if jobs allow, and returns whether all are built."""
        first, *others = crates
        beside = others if self.jobs >= len(crates) else []
        jobs = self.jobs // (1 + len(beside))
        threads = [threading.Thread(target=self.beside, args=(crate, jobs)) for crate in beside]
        for thread in threads:
            thread.start()
        is_well = self.library(first, jobs)
        for thread in threads:
            thread.join()
        return is_well and all(self.library(crate, self.jobs) for crate in others)


def build(top, name):
    uses = read_crates(top)
    if name not in uses:
        print(f"crates.txt names no crate {name}")
        return False
    levels = in_levels(uses, name)
    jobs = count_jobs()
    program = "ick" if name == "ick" else f"ick-{name}"
    crates = sum(map(len, levels))
    with Progress(program) as progress:
        progress.say(f"proving {crates} crates with {jobs} jobs. The first time takes about half an hour on four processors")
        building = Building(top, Checking(progress, crates), jobs)
        for level in levels[:-1]:
            if not building.level(level):
                return False
        return building.run(name, "rt", "run", "--jobs", str(jobs), "--", "--help")


def build_beside(top, name, jobs):
    """Builds one library over those below it, which are built, as `rt lib` does."""
    kit = load_kit()
    crate = kit and crate_of(kit, top, name)
    if crate is None:
        sys.exit(f"the kit's own module doesn't know {name}, so `rt lib` builds it afterwards")
    folder = os.open(crate.folder, os.O_RDONLY)
    fcntl.flock(folder, fcntl.LOCK_EX)
    return crate.build_rlib(["--jobs", jobs], anew=False) == 0


def main():
    top, name = os.path.realpath(sys.argv[1]), sys.argv[2]
    if sys.argv[3:4] == ["--beside"]:
        sys.exit(not build_beside(top, name, sys.argv[4]))
    sys.exit(not build(top, name))


if __name__ == "__main__":
    try:
        main()
    except KeyboardInterrupt:
        sys.exit(130)
