"""Random programs whose answers come a second way: from a session of ick-step that follows no trace, or from the
definitions of the operators.
"""
import random
import re

from checking import Checking
from expressions import NAMES, Fault, nested_forms, number_for, printed, value, varied
from ick_numerals import numeral
from language import TEXTS
from loops import Looping, Nesting
from programs import Maker, Program, Statement, input_for, source_of
from table import message
from tally import programs

# A trace makes no step if fewer than 80 are left.
FEW = 79
UNKNOWN = b"unknown command; help lists all commands\n"
MOST_STEPS = [300, 3000, 12000]
PLACES = 12
EXPRESSIONS = 60
# A variable that no expression reads. It gets each 0, so that the others keep numbers that tell more.
UNREAD = ":3"


class Compared(Checking):
    """A program of many steps. `ick run` follows traces, and so does a session of ick-step that goes back."""

    def __init__(self, command, folder, seed, number, other=None):
        chance = random.Random(f"{seed} compared {number}")
        super().__init__(command, folder, number, chance, other)
        self.made = chance.choice([Looping, Looping, Looping, Nesting])(chance).program()
        self.source, self.input = source_of(self.made), input_for(chance)
        self.stepper = programs(None, "step")[0]
        self.write("source", self.source)
        self.write("input", self.input)

    def choices(self):
        """Returns the option with the choices of a run: some choices, or a seed for all of them."""
        if self.random.random() < 0.5:
            return "seed", self.random.randrange(2 ** 64)
        counts = [self.random.choice([1, 1, 2, 9, 80, 300]) for _ in range(self.random.randint(1, 40))]
        return "choices", ",".join(f"{at % 2}*{count}" for at, count in enumerate(counts))

    def session(self, choices, groups):
        """Returns the answer of a session to each group of commands."""
        lines = "".join(f"{command}\n" for group in groups for command in [*group, "?"]).encode()
        words = [self.stepper, "--input", "input", f"--{choices[0]}={choices[1]}", "source"]
        status, output, errors = self.called(words, input=lines)
        self.hold("a session", (status, output.count(UNKNOWN), errors), (0, len(groups), b""))
        return output.split(UNKNOWN)[:-1]

    def recorded(self, choices, limits):
        """Returns what a session that follows no trace shows at each of these limits, by its number of steps: the end
        of the run, the state and the output.
        """
        groups, at = [], 0
        for limit in limits:
            groups += [[f"step {FEW}"] * ((limit - at) // FEW) + [f"step {(limit - at) % FEW}"], ["state"], ["output"]]
            at = limit
        found = self.session(choices, groups)
        ends = [re.split(rb"^(?=\d+ )", place, flags=re.MULTILINE)[-1] for place in found[::3]]
        return {int(end.split()[0]): shown for end, *shown in zip(ends, ends, found[1::3], found[2::3])}

    def ended(self, end, limit):
        """Returns the status and the error text of a run with a limit, by the last line of a session."""
        steps, rest = end.split(b" ", 1)
        if rest.startswith(b"ended: "):
            fault = re.match(rb"ended: (ICL.*?RESUBNIT\n)", rest, re.DOTALL)
            return (1, fault[1]) if fault else (0, b"")
        text = "LIMIT REACHED" if int(steps) == limit else "CHOICE WANTED"
        return 3, f"{text} AFTER {int(steps)} STEPS\n".encode()

    def go_back(self, choices, recorded):
        """Checks the state that a session has when it has gone back: it makes the steps behind a mark again."""
        places = sorted(recorded, reverse=True)
        groups = [[f"step {places[0]}"]]
        for above, below in zip(places, places[1:]):
            groups += [[f"back {above - below}"], ["state"]]
        for place, state in zip(places[1:], self.session(choices, groups)[2::2]):
            self.hold(f"the state after going back to step {place}", state, recorded[place][1])

    def all(self):
        choices, first = self.choices(), self.random.randint(1, self.random.choice(MOST_STEPS))
        limits = sorted({*range(first, first + PLACES), first + self.random.randint(PLACES, 2000)})
        recorded = self.recorded(choices, limits)
        for limit in self.random.sample(limits[:-1], 2) + limits[-1:]:
            end, _, output = recorded.get(limit) or recorded[max(recorded)]
            status, errors = self.ended(end, limit)
            self.hold(f"a run that follows traces, to limit {limit}",
                      self.answer("run", [choices, ("limit", limit)]), (status, output, errors))
        self.go_back(choices, recorded)


class Valued(Checking):
    """A program that prints the values of many expressions, up to one that has a fault."""

    def __init__(self, command, folder, seed, number, other=None):
        chance = random.Random(f"{seed} valued {number}")
        super().__init__(command, folder, number, chance, other)
        self.maker, self.wanted, self.limit, self.input = Maker(chance), [], 1000, b""
        self.numbers = {name: 0 for name in NAMES}
        self.fill()
        self.source = source_of(Program(self.maker.made, [chance.random() for _ in self.maker.made]))
        self.write("source", self.source)

    def put(self, kind, body):
        self.maker.made.append(Statement(None, False, False, None, body, kind))

    def fill(self):
        self.put("CALCULATE", ",1 <- #2")
        for name in NAMES:
            self.numbers[name] = number = number_for(self.random, 0xffffffff if name[0] == ":" else 65535)
            odd, even = (sum((number >> 2 * place + by & 1) << place for place in range(16)) for by in (1, 0))
            self.put("CALCULATE", f"{name} <- #{odd}$#{even}" if number > 65535 else f"{name} <- #{number}")
        self.fault = None
        while not self.fault and len(self.wanted) < EXPRESSIONS:
            self.calculate()
        self.put("GIVE-UP", "GIVE UP")
        self.maker.be_polite()

    def calculate(self):
        """Adds a calculation and a READ OUT of its variable. A fault is rarely kept."""
        node = varied(self.random, self.random.choice(nested_forms()), self.random.choice([0, 0.1, 0.3]))
        target = self.random.choice([*NAMES, *[UNREAD] * 9])
        try:
            number, _ = value(node, self.numbers)
            if number > 65535 and target[0] != ":":
                raise Fault(275)
        except Fault as fault:
            if self.random.random() < 0.9:
                return
            self.fault = fault.args[0]
        if not self.fault and number == 0:
            target = UNREAD
        self.put("CALCULATE", f"{target} <- {printed(node, is_operand=False)}")
        if not self.fault:
            self.numbers[target] = number
            self.put("READ-OUT", f"READ OUT {target}")
            self.wanted.append(number)

    def all(self):
        output = "".join(f"{line}\n" for number in self.wanted for line in numeral(number)).encode()
        status, errors = 0, b""
        if self.fault:
            status, errors = 1, message(self.fault, TEXTS[self.fault], len(self.maker.made))
        self.hold("the values of expressions", self.answer("run", [], entered=b""), (status, output, errors))
