"""States and where their choices lead (--states): random programs with loops of chance against their own chains."""
import re
import random
from fractions import Fraction

from exact import CHAINS, Chain
from tally import TOP, called, write

REFUSED = (64, b"", b"STATES WITH LIMIT, TOTAL OR ASKED\n")


def steps_to(chain, at, choice):
    """The steps from a coin to the next coin or end: over the coin, by NEXT, over FORGET, and an end prints and ends."""
    return (2 if choice else 3) + 2 * isinstance(chain.nodes[at], int)


def wanted(chain):
    """The lines of a chain that begins with a coin, with weights as fractions: state 0 meets statement 1."""
    order, place = [0], {0: 1}
    for at in order:
        for to in reversed(chain.edges(at)):
            if to not in place:
                place[to] = len(place) + 1
                order.append(to)
    apart = Chain([at if isinstance(node, int) else node for at, node in enumerate(chain.nodes)])
    first_stuck = Chain([at if never(chain, at) else node for at, node in enumerate(apart.nodes)])
    kind = "never 0 1" if never(chain, 0) else "state 0"
    lines = [f'{kind} 1 ""', "edge 0 - 1 100 1"]
    for at in order:
        node = chain.nodes[at]
        if isinstance(node, int):
            lines.append(f'end {place[at]} {apart.weight(at)} GIVE-UP "\\n{"I" * node}\\n"')
            continue
        weight = 0 if never(chain, 0) else first_stuck.weight(at)
        kind = f"never {place[at]} {weight}" if never(chain, at) else f"state {place[at]}"
        lines.append(f'{kind} {3 * at + 2}:{node[0]} ""')
        for choice, chance in ((0, 100 - node[0]), (1, node[0])):
            to = node[2 - choice]
            lines.append(f"edge {place[at]} {choice} {place[to]} {chance} {steps_to(chain, to, choice)}")
    return lines + ["DONE"]


def never(chain, at):
    """Whether no end can be reached from a node."""
    return not any(isinstance(chain.nodes[to], int) for to in chain.reached(at))


def with_fractions(output):
    """The lines of a text, with weights as fractions."""
    lines = [line.split(" ", 3) for line in output.decode().splitlines()]
    return [" ".join([*line[:2], str(Fraction(line[2])), *line[3:]]) if line[0] in ("end", "never") else " ".join(line)
            for line in lines]


class States:
    """The tests of states, beside those of Outcomes, which has `outcomes`."""

    def states(self):
        for number in range(CHAINS):
            chain = Chain.made(random.Random(f"states {number}"))
            write(self.source, chain.source())
            status, output, errors = self.outcomes("--states", "--exact")
            if self.tally.equal(f"states {number}: the status", (status, errors), (0, b"")):
                self.tally.equal(f"states {number}: {chain.nodes}", with_fractions(output), wanted(chain))
        write(self.source, b"(1) DO FORGET #1\nPLEASE DO (1) NEXT\n")
        found = self.outcomes("--states")
        # state 2 is state 0 with a return address that the next FORGET deletes
        self.tally.equal("the states of a program that never ends", found, (0, b'never 0 1 1 ""\nedge 0 - 1 100 10001\n'
                         b'never 1 0 2 ""\nedge 1 - 2 100 10001\nnever 2 0 1 ""\nedge 2 - 1 100 10001\nDONE\n', b""))
        write(self.source, b"DO GIVE UP\n")
        self.tally.equal("the states of a short run", self.outcomes("--states"),
                         (0, b'state 0 1 ""\nedge 0 - 1 100 1\nend 1 1 GIVE-UP ""\nDONE\n', b""))
        die = f"{TOP}/examples/die.i"
        for words in (["--limit", "3"], ["--total"], ["--asked", die], ["--total", "--exact"]):
            self.tally.equal(f"--states {words}", called([self.program, "--states", *words, die]), REFUSED)
        enough = called([self.program, "--states", die])
        status, output, errors = called([self.program, "--states", "--most", "20", die])
        self.tally.check((status, output) == (4, b"") and re.fullmatch(rb"TOO MANY STATES: 20 IN \d+ STEPS\n", errors),
                         f"too few states: {status} {output} {errors}")
        self.tally.equal("enough states", called([self.program, "--states", "--most", "21", die]), enough)
