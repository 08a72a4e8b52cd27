"""The folder of a job: the program, its input, the limit, a checksum of these and of ick, and the last plan."""
import hashlib
import os
import re
import subprocess
import sys

from ick_parts import Refused
from ick_parts.cursors import read_place, show_place
from ick_tool import content, end, find_program

FORM = "ick-parts-1"
PIECE = r"\S+ \S+( [0-9a-f]+)?"  # a line of a plan: two places, and about how many runs are between them
RUNS_A_CALL = "1000000"  # the most that ick lists in one call


class Job:
    def __init__(self, folder):
        self.folder = folder
        if os.path.isdir(folder) and not os.path.exists(self.path("job")):
            raise Refused(f"{self.path('job')} is missing: begin a job in another folder")
        words = content(self.path("job")).decode("ascii", "replace").split()
        if len(words) != 3 or words[0] != FORM:
            raise Refused(f"{self.path('job')} is damaged: begin the job anew in another folder")
        self.limit, self.name = words[1:]

    def path(self, *names):
        return os.path.join(self.folder, *names)

    def compared(self):
        """Returns the job if program, input and ick are those that it began with."""
        self.ick = find_program("ick")
        for name in ("program.i", "input"):
            if not os.path.exists(self.path(name)):
                raise Refused(f"{self.path(name)} is missing: put the same file there, or begin another job")
        if name_of(self.limit, self.path("program.i"), self.path("input"), self.ick) != self.name:
            raise Refused(f"the program, its input or {self.ick} has changed since {self.folder} was begun")
        return self

    def call(self, *arguments, **more):
        """Starts ick on the program and its input."""
        with open(self.path("input"), "rb") as given:
            return subprocess.Popen([self.ick, *arguments, "--limit", self.limit, self.path("program.i")],
                                    stdin=given, **more)

    def read_plan(self):
        """Returns the number of the last plan, and its pieces: two places, and about how many runs, or None."""
        if not os.path.exists(self.path("plan")):
            end(f"{self.path('plan')} is missing: plan first")
        lines = content(self.path("plan")).decode("ascii", "replace").split("\n")[:-1] or [""]
        pieces = [line.split(" ") for line in lines[1:]]
        if not lines[0].isdigit() or not all(re.fullmatch(PIECE, line) for line in lines[1:]):
            raise Refused(f"{self.path('plan')} is damaged: remove it, and plan again")
        return int(lines[0]), [(read_place(it[0]), read_place(it[1]), int(it[2], 16) if it[2:] else None) for it in pieces]

    def write_plan(self, pieces):
        path = self.path("plan")
        number = self.read_plan()[0] + 1 if os.path.exists(path) else 1
        with open(path + ".new", "w", encoding="ascii") as file:
            file.write(f"{number}\n")
            for start, end_, weight in pieces:
                file.write(f"{show_place(start)} {show_place(end_)}" + (f" {weight:x}\n" if weight is not None else "\n"))
        os.rename(path + ".new", path)


def name_of(limit, *paths):
    checksum = hashlib.blake2b(limit.encode(), digest_size=16)
    for path in paths:
        with open(path, "rb") as file:
            checksum.update(hashlib.blake2b(file.read()).digest())
    return checksum.hexdigest()


def begin(folder, source, limit):
    program, ick = content(source), find_program("ick")
    given = b"" if sys.stdin.isatty() else sys.stdin.buffer.read()
    try:
        os.makedirs(os.path.join(folder, "parts"))
    except FileExistsError:
        raise Refused(f"{folder}/parts is there already")
    paths = [os.path.join(folder, name) for name in ("program.i", "input")]
    for path, text in zip(paths, (program, given)):
        with open(path, "wb") as file:
            file.write(text)
    with open(os.path.join(folder, "job"), "w", encoding="ascii") as file:
        file.write(f"{FORM} {limit} {name_of(limit, *paths, ick)}\n")
