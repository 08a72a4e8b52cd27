"""The runs that are shown without a limit: random chains against their ways, and rows under a great limit.

A row with a number of runs shows the first of them in the order of the listing. A row with `*` shows the first of those
with the fewest choices. Both are found here by the edges of a chain, and the first ones by a listing under a limit too.
"""
import os
import random

from exact import PRINTED, Chain
from listings import choices_in
from tally import TOP, content, write

WAYS = 150
# A limit for programs whose runs all end, and one for the others, of which some run goes on under each limit.
GREATEST, GREAT = "1000000", "5000"


class Ways(Chain):
    """A chain in which most edges lead forward, so that most outcomes have no cycle on a way to them."""

    @staticmethod
    def made(chance):
        count = chance.randint(3, 16)
        ends = chance.randint(1, max(1, count // 3))
        turns = chance.choice((0, 0.05, 0.2))
        nodes = []
        for at in range(count - ends):
            to = [chance.randrange(count) if chance.random() < turns else chance.randrange(at + 1, count)
                  for _ in range(2)]
            nodes.append((chance.randint(1, 99), *to))
        return Ways(nodes + [chance.randint(1, 3) for _ in range(ends)])

    def leads(self, at, number):
        """Whether a way leads from a node to one that prints a number."""
        return any(self.nodes[it] == number for it in self.reached(at))

    def first(self, number):
        """Returns the choices of the first run that prints a number. There is one if no cycle is on a way to it."""
        at, choices = 0, ""
        while not isinstance(self.nodes[at], int):
            _, one, zero = self.nodes[at]
            choice = not self.leads(zero, number)
            at, choices = (one, choices + "1") if choice else (zero, choices + "0")
        return choices

    def fewest(self, number):
        """Returns the choices of the first of those runs with the fewest choices that print a number."""
        rank = {0: ""}
        while not any(self.nodes[at] == number for at in rank):
            after = {}
            for at, choices in rank.items():
                if not isinstance(self.nodes[at], int):
                    _, one, zero = self.nodes[at]
                    for to, more in ((zero, choices + "0"), (one, choices + "1")):
                        after[to] = min(after.get(to, more), more)
            rank = after
        return min(choices for at, choices in rank.items() if self.nodes[at] == number)

    def shown(self, number):
        return self.fewest(number) if self.count(number) is None else self.first(number)


class Firsts:
    """The tests of the runs that are shown, beside those of Outcomes, which has `rows`."""

    def finite(self, rows):
        """Returns the number of runs and the choices of each outcome that has a number of runs."""
        return {it[3]: (it[0], choices_in(it[2].decode())) for it in rows if it[0] is not None}

    def first_under_limit(self, name, given=b""):
        """Compares rows that have a number of runs with the same rows under a great limit."""
        rows = self.rows(name, given=given)
        finite = self.finite(rows)
        limit = GREATEST if len(finite) == len(rows) else GREAT
        under = self.finite(self.rows(f"{name}, limit {limit}", "--limit", limit, given=given))
        self.tally.equal(f"{name}: first runs", finite, {outcome: under.get(outcome) for outcome in finite})

    def first_in_chains(self):
        for number in range(WAYS):
            chain = Ways.made(random.Random(f"ways {number}"))
            name = f"ways {number}: {chain.nodes}"
            write(self.source, chain.source())
            found = {PRINTED[it[3].split(b" ", 1)[1]]: choices_in(it[2].decode())
                     for it in self.rows(name) if not it[3].startswith(b"NEVER")}
            self.tally.equal(f"{name}: shown", found, {value: chain.shown(value) for value in found})
            self.first_under_limit(name)

    def first_in_examples(self):
        for name in sorted(os.listdir(f"{TOP}/examples")):
            base = f"{TOP}/examples/{name.removesuffix('.i')}"
            if name.endswith(".i"):
                write(self.source, content(f"{base}.i"))
                self.first_under_limit(name, content(f"{base}.in") if os.path.exists(f"{base}.in") else b"")

    def firsts(self):
        self.first_in_chains()
        self.first_in_examples()
