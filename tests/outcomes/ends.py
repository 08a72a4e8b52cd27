"""Outcomes by their ends alone (--ends): sums over whole summaries, and programs that print in a loop."""
import os
import re
from fractions import Fraction

from tally import TOP, called, content, write

LINE = re.compile(rb"(\d+|\*) (\S+) (\S+) (\S+)")

# Each round gives up at 1 in 2. Otherwise it prints, and then has a fault at 1 in 5. So its runs have infinitely many
# outputs. They give up with p = 1/2 + 1/2 4/5 p = 5/6. They make m = 2 + 1/2 (2 + 4/5 (1 + m)) = 17/3 steps.
NUMERALS = b"""(1) PLEASE FORGET #1
DO %50 GIVE UP
DO READ OUT #5
DO %20 READ OUT ,2
DO (1) NEXT
"""
# The same with a byte that each round prints elsewhere on the tape of output, behind two statements without a choice.
BYTES = b"PLEASE DO ,1 <- #1\nDO ,1 SUB #1 <- #7\n" + NUMERALS.replace(b"#5", b",1")
ROUNDS = b"* 1/6 01 E241@%d\n* 5/6 1 GIVE-UP\nDONE\n"


def by_end(rows):
    """Returns the rows of a summary with those of one end as one, in the order of their first runs."""
    found = {}
    for count, weight, first, outcome in rows:
        end = outcome.split(b" ", 1)[0]
        before, sum_before, first = found.get(end, (0, 0, first))
        both = None if None in (before, count) else before + count
        found[end] = (both, sum_before + weight, first)
    return [(*row, end) for end, row in found.items()]


class Ends:
    """The tests of --ends, beside those of Outcomes, which has `rows` and `outcomes`."""

    def ends(self, name, *options, given=b""):
        """Returns the count or None, the weight, the run that is shown, and the end, of each end."""
        status, output, errors = self.outcomes("--ends", *options, given=given)
        lines = output.split(b"\n")
        if not self.tally.equal(name, (status, errors, lines[-2:]), (0, b"", [b"DONE", b""])):
            return []
        found = [LINE.fullmatch(line) for line in lines[:-2]]
        if not self.tally.check(all(found), f"{name}: a line is no end\n{output}"):
            return []
        return [(None if it[1] == b"*" else int(it[1]), Fraction(it[2].decode()), it[3], it[4]) for it in found]

    def compare_ends(self, name, limit, rows, given):
        """Compares ends under a limit with the rows of a whole summary."""
        found = self.ends(f"{name}: ends", "--limit", str(limit), "--exact", given=given)
        self.tally.equal(f"{name}: ends", found, by_end(rows))
        total = f"{len(found)} OUTCOMES, {sum(it[0] for it in rows)} RUNS\n".encode()
        self.tally.equal(f"{name}: the total of ends",
                         self.outcomes("--ends", "--limit", str(limit), "--total", given=given), (0, total, b""))

    def ends_of_examples(self):
        """Compares ends without a limit with the whole summaries of the examples."""
        for name in sorted(os.listdir(f"{TOP}/examples")):
            base = f"{TOP}/examples/{name.removesuffix('.i')}"
            if not name.endswith(".i"):
                continue
            given = content(f"{base}.in") if os.path.exists(f"{base}.in") else b""
            write(self.source, content(f"{base}.i"))
            rows = self.rows(name, "--exact", given=given)
            wanted = by_end([(it[0], Fraction(it[1].decode()), *it[2:]) for it in rows])
            found = self.ends(f"{name}: ends", "--exact", given=given)
            self.tally.equal(f"{name}: ends without a limit", sorted((it[3], *it[:2]) for it in found),
                             sorted((it[3], *it[:2]) for it in wanted))

    def ends_of_loops(self):
        """Compares programs that print in a loop with what is known for them."""
        for name, source, fault in (("numerals", NUMERALS, 4), ("bytes", BYTES, 6)):
            write(self.source, source)
            self.tally.equal(f"{name} in a loop", self.outcomes("--ends"), (0, ROUNDS % fault, b""))
            self.tally.equal(f"{name} in a loop, with outputs", self.outcomes("--most", "1000")[:2], (4, b""))
            self.tally.equal(f"{name} in a loop: states", self.outcomes("--ends", "--most", "20")[0], 0)
            for choices, status in ((b"1", 0), (b"01", 1), (b"001", 0), (b"0001", 1)):
                run = called([self.ick, "run", "--choices", choices.decode(), self.source])
                self.tally.equal(f"{name} in a loop: the run of {choices}", run[0], status)
            self.rounds(f"{name} in a loop, under limits")
        write(self.source, NUMERALS)
        self.tally.equal("the total of ends", self.outcomes("--ends", "--total"),
                         (0, b"2 OUTCOMES, * RUNS, 17/3 STEPS\n", b""))
        write(self.source, b"DO %50 (9) NEXT\n(1) PLEASE READ OUT #1\nDO FORGET #1\nDO (1) NEXT\n(9) DO GIVE UP\n")
        self.tally.equal("a loop without an end", self.outcomes("--ends"),
                         (0, b"1 0.5 1 GIVE-UP\n* 0.5 0 NEVER\nDONE\n", b""))

    def rounds(self, name):
        """Compares the weights under limits that end after some rounds with the geometric sums."""
        rows = {it[3]: it for it in self.ends(name, "--limit", "5000", "--exact")}
        self.tally.check(rows[b"GIVE-UP"][1] < Fraction(5, 6) and rows[b"LIMIT"][0] == 1
                         and rows[b"GIVE-UP"][1] + rows[b"LIMIT"][1] > Fraction(5, 6), f"{name}: {rows.keys()}")
        rounds = rows[b"GIVE-UP"][0]
        self.tally.equal(name, rows[b"GIVE-UP"][1], Fraction(5, 6) * (1 - Fraction(2, 5) ** rounds))

    def all_ends(self):
        self.ends_of_examples()
        self.ends_of_loops()
