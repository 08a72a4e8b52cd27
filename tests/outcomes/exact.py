"""Answers without a limit: random programs with loops of chance against fractions, and what is known.

A random chain has nodes that throw a coin, and nodes that print a number and give up. It is written as a program with a
label for each node, and solved here by fractions. So the program itself is never read here.
"""
import os
import random
import re
from fractions import Fraction

from tally import TOP, called, content, write

CHAINS = 100
PRINTED = {b'"\\nI\\n"': 1, b'"\\nII\\n"': 2, b'"\\nIII\\n"': 3}


def numbered(statements):
    """Returns a source of statements, each with its label or None, in which every fourth is polite."""
    lines = []
    for at, (label, body) in enumerate(statements):
        lines.append(f"{f'({label}) ' if label else ''}{'PLEASE ' if at % 4 == 0 else ''}DO {body}\n")
    return "".join(lines).encode()


def coins(count):
    """Returns the statements of so many coins that all print at once, so that each list of choices is an outcome."""
    return [(None, f"%50 READ OUT #{at + 1}") for at in range(count)] + [(None, "GIVE UP")]


class Chain:
    """Nodes that throw a coin, as (chance of the first, first, second), or give up, as a number that is printed."""

    def __init__(self, nodes):
        self.nodes = nodes

    @staticmethod
    def made(chance):
        count = chance.randint(2, 9)
        numbers = range(1, chance.randint(2, 4))
        ends = max(1, count // 3)
        nodes = [(chance.randint(1, 99), chance.randrange(count), chance.randrange(count)) for _ in range(count - ends)]
        return Chain(nodes + [chance.choice(numbers) for _ in range(ends)])

    def source(self):
        statements = []
        for at, node in enumerate(self.nodes):
            statements.append((at + 1, "FORGET #1"))
            if isinstance(node, int):
                statements += [(None, f"READ OUT #{node}"), (None, "GIVE UP")]
            else:
                statements += [(None, f"%{node[0]} ({node[1] + 1}) NEXT"), (None, f"({node[2] + 1}) NEXT")]
        return numbered(statements)

    def edges(self, at):
        return () if isinstance(self.nodes[at], int) else self.nodes[at][1:]

    def reached(self, start):
        found, rest = {start}, [start]
        while rest:
            more = set(self.edges(rest.pop())) - found
            found |= more
            rest += more
        return found

    def weight(self, number):
        """Returns the weight of the runs that print a number, by elimination over the nodes that can end."""
        ending = [at for at in sorted(self.reached(0)) if any(isinstance(self.nodes[it], int) for it in self.reached(at))]
        place = {at: row for row, at in enumerate(ending)}
        rows = []
        for at in ending:
            row = [Fraction(0)] * (len(ending) + 1)
            row[place[at]] += 1
            if isinstance(self.nodes[at], int):
                row[-1] = Fraction(self.nodes[at] == number)
            else:
                chance, *to = self.nodes[at]
                for part, other in zip((chance, 100 - chance), to):
                    if other in place:
                        row[place[other]] -= Fraction(part, 100)
            rows.append(row)
        for at in range(len(rows)):
            other = next(it for it in range(at, len(rows)) if rows[it][at])
            rows[at], rows[other] = rows[other], rows[at]
            rows[at] = [it / rows[at][at] for it in rows[at]]
            for below in range(len(rows)):
                if below != at and rows[below][at]:
                    factor = rows[below][at]
                    rows[below] = [it - factor * own for it, own in zip(rows[below], rows[at])]
        return rows[place[0]][-1] if 0 in place else Fraction(0)

    def count(self, number):
        """Returns the number of runs that print a number, or None if a cycle is on a way to it."""
        ending = {at for at in self.reached(0) if any(self.nodes[it] == number for it in self.reached(at))}
        ways, left = {}, set(ending)
        while left:
            done = [at for at in left if not left & set(self.edges(at))]
            if not done:
                return None
            for at in done:
                ways[at] = sum(ways.get(to, 0) for to in self.edges(at)) if self.edges(at) else 1
            left -= set(done)
        return ways.get(0, 0)

    def wanted(self):
        """Returns the number of runs and the weight of each number that is printed, and of the runs that never end."""
        numbers = {node for at, node in enumerate(self.nodes) if isinstance(node, int) and at in self.reached(0)}
        found = {number: (self.count(number), self.weight(number)) for number in numbers}
        never = 1 - sum(weight for _, weight in found.values())
        return found | ({None: (None, never)} if never else {})


class Exact:
    """The tests of answers without a limit, beside those of Outcomes, which has `rows` and `outcomes`."""

    def weights(self, name, *options, given=b""):
        """Returns the weight of each outcome, by its end and its output."""
        return {it[3].decode(): Fraction(it[1].decode()) for it in self.rows(name, "--exact", *options, given=given)}

    def leads(self, name, choices, outcome, given):
        """Whether the choices that are shown lead to the outcome."""
        status, output, _ = called([self.ick, "run", "--choices", choices.decode(), self.source], given)
        quoted = output.replace(b"\n", b"\\n").decode("latin-1")
        self.tally.check(outcome.split(b" ", 1)[1].decode("latin-1").strip('"') == quoted or status == 1,
                         f"{name}: the run of {choices} printed {output}, and not {outcome}")

    def chains(self):
        """Compares random chains with fractions: each number of runs, each weight, and the order of the choices."""
        for number in range(CHAINS):
            chain = Chain.made(random.Random(f"chain {number}"))
            name = f"chain {number}: {chain.nodes}"
            write(self.source, chain.source())
            found = {}
            rows = self.rows(name, "--exact")
            for count, weight, choices, outcome in rows:
                end, output = outcome.split(b" ", 1)
                value = None if end == b"NEVER" else PRINTED[output]
                found[value] = (count, Fraction(weight.decode()))
                if value is not None:
                    self.leads(name, choices, outcome, b"")
            self.tally.equal(name, found, chain.wanted())
            ended = [choices for _, _, choices, outcome in rows if not outcome.startswith(b"NEVER")]
            self.tally.equal(f"{name}: the order", [it for it in rows if it[2] in ended], rows[:len(ended)])

    def between(self):
        """Compares each example with its outcomes under two limits: a weight grows, by what lies behind the limit."""
        for name in sorted(os.listdir(f"{TOP}/examples")):
            base = f"{TOP}/examples/{name.removesuffix('.i')}"
            if not name.endswith(".i"):
                continue
            given = content(f"{base}.in") if os.path.exists(f"{base}.in") else b""
            write(self.source, content(f"{base}.i"))
            exact = self.weights(name, given=given)
            never = exact.pop('NEVER ""', Fraction(0))
            self.tally.equal(f"{name}: the sum", sum(exact.values()) + never, 1)
            for limit in ("60", "2000"):
                short = self.weights(f"{name}, limit {limit}", "--limit", limit, given=given)
                behind = sum(weight for outcome, weight in short.items() if outcome.startswith("LIMIT"))
                ended = {outcome: weight for outcome, weight in short.items() if not outcome.startswith("LIMIT")}
                self.tally.check(ended.keys() <= exact.keys() and never <= behind and all(
                    ended.get(outcome, 0) <= weight <= ended.get(outcome, 0) + behind - never
                    for outcome, weight in exact.items()), f"{name}, limit {limit}: {short} and {exact}")
                if not behind:
                    self.tally.equal(f"{name}: the bytes of limit {limit}", self.outcomes(given=given),
                                     self.outcomes("--limit", limit, given=given))

    def known(self):
        """Compares programs with the answers that are known for them."""
        self.source = f"{TOP}/examples/die.i"
        self.tally.equal("a die", [it[:2] for it in self.rows("die.i")], [(None, b"1/6")] * 6)
        self.tally.equal("the total of a die", self.outcomes("--total"), (0, b"6 OUTCOMES, * RUNS, 55/3 STEPS\n", b""))
        self.source = f"{TOP}/examples/fair.i"
        self.tally.equal("a fair coin", [it[:2] for it in self.rows("fair.i")], [(None, b"0.5")] * 2)
        self.source = f"{TOP}/examples/craps.i"
        self.tally.equal("craps", [it[:2] for it in self.rows("craps.i")], [(None, b"251/495"), (None, b"244/495")])
        self.source = f"{TOP}/examples/lock.i"
        self.tally.equal("a lock", [it[:2] for it in self.rows("lock.i")], [(None, b"0.75"), (4, b"0.25")])
        self.source = f"{self.folder}/source"
        trap = Chain([(50, 2, 1), (50, 1, 1), 1])
        write(self.source, trap.source())
        self.tally.equal("a trap", self.outcomes(), (0, b'1 0.5 1 GIVE-UP "\\nI\\n"\n* 0.5 0 NEVER ""\nDONE\n', b""))
        write(self.source, b"(1) DO FORGET #1\nPLEASE DO (1) NEXT\n")
        self.tally.equal("a program that never ends", self.outcomes(), (0, b'* 1 - NEVER ""\nDONE\n', b""))
        self.ruin()

    def ruin(self):
        """A gambler wins each game at 49 in 100, begins with half of the places, and is ruined or has all."""
        for places in (4, 10, 50):
            order = [places // 2, *(at for at in range(places + 1) if at != places // 2)]
            row = {at: index for index, at in enumerate(order)}
            chain = [{0: 1, places: 2}.get(at) or (49, row[at + 1], row[at - 1]) for at in order]
            write(self.source, Chain(chain).source())
            ratio = Fraction(51, 49)
            wins = (1 - ratio ** (places // 2)) / (1 - ratio ** places)
            found = {it[3].rsplit(b" ", 1)[1]: Fraction(it[1].decode()) for it in self.rows(f"ruin {places}", "--exact")}
            self.tally.equal(f"ruin {places}", found, {b'"\\nI\\n"': 1 - wins, b'"\\nII\\n"': wins})

    def enough(self, option, below, above):
        """Returns the least number of an option that is enough for a source."""
        while above - below > 1:
            middle = (below + above) // 2
            below, above = (below, middle) if self.outcomes(option, str(middle))[0] == 0 else (middle, above)
        return above

    def refused(self):
        """Refusals just below and just above the numbers of states and bytes that are enough."""
        self.source = f"{TOP}/examples/die.i"
        total = (0, b"6 OUTCOMES, * RUNS, 55/3 STEPS\n", b"")
        for option, least, most, line in (("--most", 4, 50, rb"TOO MANY STATES: %d IN \d+ STEPS; TRY --limit 10000 OR --ends\n"),
                                          ("--memory", 0, 2 ** 20, rb"TOO MUCH MEMORY: %d BYTES; TRY --limit 10000 OR --ends\n")):
            enough = self.enough(option, least, most)
            self.tally.equal(f"enough by {option}", self.outcomes(option, str(enough), "--total"), total)
            status, output, errors = self.outcomes(option, str(enough - 1))
            self.tally.check((status, output) == (4, b"") and re.fullmatch(line % (enough - 1), errors),
                             f"one too few by {option} {enough - 1}: {status} {output} {errors}")
        self.tally.equal("a command that is tried", self.outcomes("--most", "4", "--limit", "10000")[0], 0)
        self.tally.check(96 * 8 < enough, f"{enough} bytes are enough for a die")
        for given in ("0", str(2 ** 64)):
            self.tally.equal(f"--memory {given}", self.outcomes("--memory", given)[:2], (64, b""))
        self.tally.equal("all bytes", self.outcomes("--memory", str(2 ** 64 - 1), "--total"), total)
        self.tally.equal("bytes and a limit", self.outcomes("--memory", "9", "--limit", "9"), (64, b"", b"MEMORY WITH LIMIT\n"))
        self.source = f"{self.folder}/source"
        write(self.source, numbered(coins(9)))
        self.tally.equal("outcomes without all states", self.outcomes("--most", "512", "--total"),
                         (0, b"512 OUTCOMES, 512 RUNS\n", b""))
        self.tally.equal("outcomes without all bytes", self.outcomes("--memory", "1", "--total"),
                         (0, b"512 OUTCOMES, 512 RUNS\n", b""))
        self.tally.equal("neither states nor runs", self.outcomes("--most", "3", "--total"),
                         (4, b"", b"TOO MANY STATES\n"))
        for limit in ((), ("--limit", "100")):
            # 256 states are kept before the last coin, and the runs that have ended don't count.
            self.tally.equal(f"a state too few at a time, {limit}", self.outcomes("--most", "255", "--total", *limit),
                             (4, b"", b"TOO MANY STATES\n"))
            self.tally.equal(f"states enough at a time, {limit}", self.outcomes("--most", "256", "--total", *limit),
                             (0, b"512 OUTCOMES, 512 RUNS\n", b""))
        # Steps without a choice are cut behind 10,001 steps: one step, and the longest stretch of further ones.
        write(self.source, b"(1) DO FORGET #1\nPLEASE READ OUT #1\nDO (1) NEXT\n")
        self.tally.equal("states without end", self.outcomes("--most", "7"),
                         (4, b"", b"TOO MANY STATES: 7 IN 70007 STEPS; TRY --limit 10000 OR --ends\n"))

    def totals(self):
        """Nouns in the singular without a limit, also if not all states are kept, and in the plural with one."""
        self.source = f"{self.folder}/source"
        for source, total in ((b"PLEASE GIVE UP\n", b"1 OUTCOME, 1 RUN"),
                              (b"DO %50 .1 <- #1\nPLEASE GIVE UP\n", b"1 OUTCOME, 2 RUNS"),
                              (b"DO %50 READ OUT #1\nPLEASE GIVE UP\n", b"2 OUTCOMES, 2 RUNS"),
                              (b"(1) DO FORGET #1\nPLEASE DO (1) NEXT\n", b"0 OUTCOMES, * RUNS"),
                              (b"(1) DO FORGET #1\nPLEASE DO %50 (1) NEXT\nDO GIVE UP\n", b"1 OUTCOME, * RUNS, 5 STEPS")):
            write(self.source, source)
            self.tally.equal(f"the total of {source}", self.outcomes("--total"), (0, total + b"\n", b""))
            if b"*" not in total:
                plural = total.replace(b"OUTCOME,", b"OUTCOMES,").replace(b"1 RUN", b"1 RUNS") + b"\n"
                self.tally.equal(f"{total}, with a limit", self.outcomes("--total", "--limit", "9"), (0, plural, b""))
                self.tally.equal(f"{total}, without all states", self.outcomes("--total", "--memory", "1"),
                                 (0, total + b"\n", b""))

    def exact(self):
        self.chains()
        self.between()
        self.known()
        self.refused()
        self.totals()
