"""Refuses every request for memory in turn, over a built test_refusals.

The program attempts each row of its standard input K + 1 times, if the row makes K requests. In attempt N the Nth
request is refused, and in the last attempt none. A request is refused in two ways:

  one    alone. The call may then succeed: the standard library's collect and extend ask again for less room, and a call
         that makes many steps goes on by single ones
  write  together with all later requests until the program writes, which it does as soon as a call was refused

The program writes `refused: CALL` for the call that was refused: exactly once in each attempt by `write`, at most once
in each by `one`, and never in the last. An attempt ends with the row's name if the row holds, and with `NAME: refused`
if the refused call can't be made again. Each call of CALLS must be refused in both ways. Each attempt counts as one.
"""
import collections
import os
import subprocess

from library import build_library
from tally import TOP, text_of

ROWS = os.path.join(TOP, "crates", "test_refusals", "stdin")
CALLS = """read_source compile append_numeral append_decimal append_quoted append_message append_listing append_fault
append_text from_text Copied::new Trailed::new Live::new run_with run_seeded run_stream after next write_runs
serve""".split() + [f"{call} of {machine}" for machine in ("Copied", "Trailed") for call in ("step", "mark", "run")] + [
    "step of Live", "run of Live"]
TOLD = "refused: "
SECONDS = 300


def rows_of(text):
    """The rows of a text, by their names: paragraphs without comments. Rows that are attempted once are left out."""
    found = {}
    for paragraph in text.split("\n\n"):
        lines = [line for line in paragraph.splitlines() if line and not line.startswith("-- ")]
        if lines and "once" not in lines:
            found[lines[0]] = "\n".join(lines)
    return found


class Refusals:
    def __init__(self, tally, program, folder):
        self.tally, self.program = tally, program
        self.library, self.log = build_library(folder), os.path.join(folder, "log")

    def fail(self, what):
        self.tally.check(False, f"    {what}")

    def run(self, rows, way):
        """Runs the program. Returns its lines, and for each attempt how many requests were made and refused."""
        env = {"LD_PRELOAD": self.library, "FAULT": "alloc", "FAULT_AT": "each", "FAULT_TO": way, "FAULT_LOG": self.log}
        ran = subprocess.run([self.program], input="\n\n".join(rows).encode(), env=env, stdout=subprocess.PIPE,
                             stderr=subprocess.STDOUT, timeout=SECONDS)
        if ran.returncode:
            self.fail(f"{way}: status {ran.returncode}")
        with open(self.log, encoding="ascii") as file:
            parts = [[int(word.partition("=")[2]) for word in line.split()[:2]] for line in file]
        os.remove(self.log)
        # The first line and part are there before the first row, and the last line and two parts after the last row.
        return ran.stdout.decode(errors="replace").splitlines()[1:-1], parts[1:-2]

    def sweep(self, rows, counts, way):
        """Refuses each request of each row, and returns how often each call was refused."""
        due = [(name, at, at > count) for name, count in counts.items() for at in range(1, count + 2)]
        lines, parts = self.run([rows[name] for name, _, _ in due], way)
        refused, told, done = collections.Counter(), [], 0
        for line in lines:
            if line.startswith(TOLD):
                told.append(line[len(TOLD):])
            elif done < min(len(due), len(parts)):
                name, at, is_last = due[done]
                wrong = mistake(name, line, told, parts[done][1], way, is_last)
                self.tally.check(not wrong, f"    {way}: {name}, at {at}: {wrong}")
                refused.update(told)
                told, done = [], done + 1
        if not done == len(due) == len(parts):
            self.fail(f"{way}: {done} attempts, and not {len(due)}")
        return refused

    def all(self):
        rows = rows_of(text_of(ROWS))
        lines, parts = self.run(rows.values(), "none")
        if lines != list(rows):
            self.fail(f"with nothing refused: {[line for line in lines if line not in rows]}")
        counts = {name: requests for name, (requests, _) in zip(rows, parts)}
        for way in ("one", "write"):
            refused = self.sweep(rows, counts, way)
            for call in CALLS:
                if not refused[call]:
                    self.fail(f"{way}: {call} is never refused")
            print(f"{way}: {sum(counts.values())} requests of {len(rows)} rows; {dict(sorted(refused.items()))}")


def mistake(name, line, told, refused, way, is_last):
    """Returns what is wrong with an attempt at a row, or None."""
    if (refused == 0) != is_last or (way == "one" and refused > 1):
        return f"{refused} requests were refused"
    if len(told) > (0 if is_last else 1) or (way == "write" and not told and not is_last):
        return f"the refused calls are {told}"
    return None if line == name or (told and line == f"{name}: refused") else line[:1000]
