"""Makes random programs whose statements interact. They have subroutines and loops by NEXT, FORGET and RESUME, stashes
of ignored names, and arrays that get other dimensions under chances. They ABSTAIN by label and by gerund, also from a
GIVE UP with a label, and have loops that count and Turing text. Each program comes with its listing.
"""
import collections

# A statement. The chance is None if the statement has no %.
Statement = collections.namedtuple("Statement", "label polite negated chance body kind")
# A program: its statements and how each of their texts is laid out.
Program = collections.namedtuple("Program", "statements layouts")

SCALARS = [".1", ".2", ":1", ".0002", ":3"]
ARRAYS = [",1", ",2", ";1"]
KINDS = {
    "CALCULATE": "CALCULATING", "NEXT": "NEXTING", "FORGET": "FORGETTING", "RESUME": "RESUMING", "STASH": "STASHING",
    "RETRIEVE": "RETRIEVING", "IGNORE": "IGNORING", "REMEMBER": "REMEMBERING", "ABSTAIN": "ABSTAINING",
    "REINSTATE": "REINSTATING", "WRITE-IN": "WRITING IN", "READ-OUT": "READING OUT",
}
# What a loop counts by, and its labels.
COUNTER = ".7"
COUNTING = (11, 12, 13, 14)
UNRECOGNISED = ["HELLO", "READ OUT ;1", ".1 <- ,1SUB", "WRITE IN #1", "%101 GIVE UP", "STASH #1"]
WEIGHTS = {
    "calculate": 12, "calculate_element": 6, "dimension": 6, "next": 4, "forget": 4, "resume": 2, "stash": 8,
    "retrieve": 8, "ignore": 5, "remember": 4, "abstain": 10, "reinstate": 8, "write_in": 9, "read_out": 14,
    "give_up": 2, "unrecognised": 1,
}


class Bodies:
    """Makes bodies of statements. Each method returns a kind and a text."""

    def __init__(self, random, labels):
        self.random, self.labels = random, labels
        self.sizes = {}
        self.stashed = []

    def some(self, names, most=3):
        return [self.random.choice(names) for _ in range(self.random.choice([1, 1, 1, 2, most]))]

    def mesh(self):
        return f"#{self.random.choice([0, 1, 1, 2, 2, 3, 4, 5, 255, 256, 1000, 65535, self.random.randrange(65536)])}"

    def subscripts(self, array):
        """Returns subscripts that mostly are within the dimensions that the array was last given."""
        sizes = self.sizes.get(array, [2])
        found = []
        for size in sizes:
            number = self.random.choice([1, size, self.random.randint(1, size + (self.random.random() < 0.05))])
            found.append(f"#{number}" if self.random.random() < 0.95 else self.random.choice(SCALARS[:2]))
        return "".join(found)

    def element(self):
        array = self.random.choice(list(self.sizes) if self.sizes and self.random.random() < 0.97 else ARRAYS)
        return f"{array}SUB{self.subscripts(array)}"

    def operand(self, depth):
        draw = self.random.random()
        unary = self.random.choice(["", "", "", "&", "V", "?"])
        if draw < 0.3:
            return "#" + unary + self.mesh()[1:]
        if draw < 0.6 or depth == 0:
            name = self.random.choice(SCALARS)
            return name[0] + unary + name[1:]
        if draw < 0.75:
            return self.element()
        mark = "'\""[depth % 2]
        return mark + unary + self.expression(depth - 1) + mark

    def expression(self, depth=2):
        found = self.operand(depth)
        while self.random.random() < 0.35:
            found += self.random.choice("~~$") + self.operand(depth)
        return found

    def narrow(self):
        """Returns an expression of at most 16 bits."""
        if self.random.random() < 0.3:
            return self.mesh()
        return f"'{self.expression(1)}'~#{self.random.choice([1, 3, 255, 65535])}"

    def calculate(self):
        target = self.random.choice(SCALARS)
        wide = target[0] == ":" or self.random.random() < 0.15
        return "CALCULATE", f"{target} <- {self.expression() if wide else self.narrow()}"

    def calculate_element(self):
        return "CALCULATE", f"{self.element()} <- {self.narrow()}"

    def dimension(self, array=None):
        array = array or self.random.choice(ARRAYS)
        sizes = [self.random.randint(1, 4) for _ in range(self.random.choice([1, 1, 1, 2]))]
        texts = [f"#{size}" for size in sizes]
        self.sizes[array] = sizes
        if self.random.random() < 0.03:
            texts[0] = self.random.choice(["#0", "#65535", ".1"])
        return "CALCULATE", f"{array} <- {' BY '.join(texts)}"

    def next(self):
        return "NEXT", f"({self.random.choice(self.labels)}) NEXT"

    def forget(self):
        return "FORGET", f"FORGET {self.random.choice(['#1', '#1', '#2', '#0', '.1~#3'])}"

    def resume(self):
        return "RESUME", f"RESUME {self.random.choice(['#1', '#1', '#1', '#2', '.1~#1'])}"

    def names(self):
        return self.some(SCALARS + ARRAYS)

    def stash(self):
        names = self.names()
        self.stashed += names
        return "STASH", f"STASH {' + '.join(names)}"

    def retrieve(self):
        if not self.stashed and self.random.random() < 0.9:
            return self.stash()
        known = self.stashed if self.random.random() < 0.95 else SCALARS + ARRAYS
        return "RETRIEVE", f"RETRIEVE {' + '.join(self.some(known or SCALARS, 2))}"

    def ignore(self):
        return "IGNORE", f"IGNORE {' + '.join(self.names())}"

    def remember(self):
        return "REMEMBER", f"REMEMBER {' + '.join(self.names())}"

    def statements_named(self):
        if self.random.random() < 0.5:
            return f"({self.random.choice(self.labels)})"
        return " + ".join(self.some(list(KINDS.values()), 2))

    def abstain(self):
        return "ABSTAIN", f"ABSTAIN FROM {self.statements_named()}"

    def reinstate(self):
        return "REINSTATE", f"REINSTATE {self.statements_named()}"

    def whole(self):
        """Returns a tail, mostly one that was last given one dimension, or a scalar."""
        tails = [tail for tail in ARRAYS[:2] if len(self.sizes.get(tail, [])) == 1]
        if self.random.random() < 0.05:
            tails = ARRAYS[:2]
        return self.random.choice(tails or SCALARS)

    def place(self):
        return self.random.choice([self.random.choice(SCALARS), self.element(), self.whole()])

    def write_in(self):
        return "WRITE-IN", f"WRITE IN {' + '.join(self.place() for _ in range(self.random.choice([1, 1, 2])))}"

    def read_out(self):
        items = [self.mesh() if self.random.random() < 0.2 else self.place()
                 for _ in range(self.random.choice([1, 1, 2, 3]))]
        return "READ-OUT", f"READ OUT {' + '.join(items)}"

    def give_up(self):
        return "GIVE-UP", "GIVE UP"

    def unrecognised(self):
        return "UNRECOGNISED", self.random.choice(UNRECOGNISED)

    def any(self):
        return getattr(self, self.random.choices(list(WEIGHTS), WEIGHTS.values())[0])()


class Maker:
    """Makes one program: arrays, a middle part that may have a loop, a GIVE UP, and subroutines."""

    def __init__(self, random):
        self.random = random
        self.labels = random.sample([1, 2, 3, 7, 40, 65535], random.randint(3, 5))
        self.subroutines = self.labels[:random.randint(0, 2)]
        self.bodies = Bodies(random, self.labels)
        self.chances = random.choice([[50], [50], [1], [99], [37], [1, 50, 99], [0, 50, 50, 100, 20]])
        self.made = []

    def add(self, kind, body, label=None, chance=0.4):
        given = self.random.choice(self.chances) if self.random.random() < chance else None
        negated = self.random.random() < 0.04
        self.made.append(Statement(label, False, negated, given, body, kind))

    def loop(self):
        """Adds a loop that forgets the return address of each round. It goes on by a chance, or always."""
        label = self.labels[-1]
        self.add("FORGET", "FORGET #1", label, chance=0)
        for _ in range(self.random.randint(0, 3)):
            self.add(*self.bodies.any(), chance=0.3)
        often = self.random.random() < 0.5
        if often:
            self.add("FORGET", "FORGET #0", chance=1)
        self.add("NEXT", f"({label}) NEXT", chance=0 if often else 1)

    def counted_loop(self):
        """Adds a loop of some turns, as programs write it: a NEXT to a NEXT to a RESUME chooses whether it goes on."""
        again, ask, turn, leave = COUNTING
        self.add("CALCULATE", f"{COUNTER} <- #{self.random.choice([1, 3, 7, 15])}", chance=0)
        self.add("NEXT", f"({again}) NEXT", chance=0)
        self.add("FORGET", "FORGET #1", again, chance=0)
        self.some(self.random.randint(1, 3))
        self.add("CALCULATE", f"{COUNTER} <- {COUNTER}~#65534", chance=0)
        self.add("NEXT", f"({ask}) NEXT", chance=0)
        self.add("NEXT", f"({again}) NEXT", chance=0)
        self.add("NEXT", f"({turn}) NEXT", ask, chance=0)
        self.add("FORGET", "FORGET #1", chance=0)
        self.add("NEXT", f"({leave}) NEXT", chance=0)
        self.add("RESUME", f"""RESUME "?'{COUNTER}~#1'$#1"~#3""", turn, chance=0)
        self.add("FORGET", "FORGET #1", leave, chance=0)

    def called(self):
        if self.subroutines and self.random.random() < 0.25:
            return "NEXT", f"({self.random.choice(self.subroutines)}) NEXT"
        return self.bodies.any()

    def shown(self):
        """Returns a READ OUT of most of what the program can change."""
        places = [place for place in SCALARS if self.random.random() < 0.7] + [self.bodies.whole()]
        elements = [f"{array}SUB{''.join(f'#{self.random.choice([1, 1, size])}' for size in sizes)}"
                    for array, sizes in self.bodies.sizes.items() for _ in range(2)]
        return "READ-OUT", f"READ OUT {' + '.join(places + elements + ['#5'])}"

    def calculations(self):
        """Adds calculations of scalars in a row, without chances."""
        for _ in range(self.random.randint(2, 4)):
            self.add(*self.bodies.calculate(), chance=0)

    def some(self, count):
        for _ in range(count):
            if self.random.random() < 0.15:
                self.calculations()
            else:
                self.add(*self.called())

    def fill(self):
        for array in ARRAYS:
            if self.random.random() < 0.85:
                self.add(*self.bodies.dimension(array), chance=0.1)
        self.some(self.random.randint(1, 9))
        draw = self.random.random()
        if draw < 0.3:
            self.loop()
        elif draw < 0.6:
            self.counted_loop()
        self.some(self.random.randint(0, 5))
        if self.random.random() < 0.75:
            self.add(*self.shown(), chance=0.1)
        if self.random.random() < 0.85:
            self.add("GIVE-UP", "GIVE UP", chance=0.2)
        for label in self.subroutines:
            self.add(*self.bodies.any(), label)
            for _ in range(self.random.randint(0, 3)):
                self.add(*self.bodies.any())
            self.add("RESUME", self.bodies.resume()[1], chance=0.1)

    def label_rest(self):
        """Gives each label that no statement has to a statement, often to a GIVE UP, and adds one if none is left."""
        used = {statement.label for statement in self.made}
        for label in self.labels:
            if label in used:
                continue
            free = [at for at, statement in enumerate(self.made) if statement.label is None]
            if not free:
                self.add(*self.bodies.any())
                free = [len(self.made) - 1]
            ends = [at for at in free if self.made[at].kind == "GIVE-UP"]
            at = self.random.choice(ends if ends and self.random.random() < 0.3 else free)
            self.made[at] = self.made[at]._replace(label=label)

    def be_polite(self):
        count = len(self.made)
        polite = self.random.randint(count // 5, count // 3) if count >= 3 else 0
        for at in self.random.sample(range(count), polite):
            self.made[at] = self.made[at]._replace(polite=True)

    def program(self):
        self.fill()
        self.label_rest()
        self.be_polite()
        return Program(self.made, [self.random.random() for _ in self.made])


def text_of(statement, layout):
    """Returns the text of a statement. The layout, a number from 0 to 1, chooses among ways to write it."""
    parts = [f"({statement.label})" if statement.label else "",
             ["PLEASE", "PLEASE DO"][layout < 0.5] if statement.polite else "DO"]
    marks = [["NOT", "N'T"][layout * 10 % 1 < 0.5] if statement.negated else "",
             f"%{statement.chance}" if statement.chance is not None else ""]
    parts += marks if layout * 100 % 1 < 0.5 else marks[::-1]
    body = statement.body.replace("'.", "!") if layout * 1000 % 1 < 0.3 else statement.body
    return " ".join(part for part in parts + [body] if part)


def source_of(program):
    return "".join(text_of(*pair) + "\n" for pair in zip(program.statements, program.layouts)).encode()


def listing_of(program):
    """Returns what `ick list` prints."""
    lines = []
    for number, (statement, layout) in enumerate(zip(program.statements, program.layouts), 1):
        text = text_of(statement, layout).replace("\\", "\\\\").replace('"', '\\"')
        lines.append(f"{number} {f'({statement.label})' if statement.label else '-'} "
                     f"{'PLEASE' if statement.polite else 'DO'} {'NOT' if statement.negated else '-'} "
                     f"{100 if statement.chance is None else statement.chance} {statement.kind} \"{text}\"\n")
    return "".join(lines).encode()


def asks(statement):
    """Tells whether a statement asks for a choice when it is met."""
    return statement.chance not in (None, 0, 100)


def decided(program, chance):
    """Returns the program in which each statement that asks has this chance instead: 0, or None for no chance."""
    return program._replace(statements=[statement._replace(chance=chance) if asks(statement) else statement
                                        for statement in program.statements])


def input_for(random):
    """Returns an input: lines of digit names, and at times bytes, an unknown word, or a number that is too large."""
    names = ["OH", "ZERO", "ONE", "TWO", "THREE", "FOUR", "FIVE", "SIX", "SEVEN", "EIGHT", "NINE", "NINER"]
    lines = []
    for _ in range(random.choice([0, 1, 2, 4, 8, 12])):
        line = " ".join(random.choice(names) for _ in range(random.choice([0, 1, 1, 1, 2, 3, 5])))
        draw = random.random()
        if draw < 0.05:
            line = random.choice(["TEN", "ONE ELEVEN", "X", "FOUR TWO NINE FOUR NINE SIX SEVEN TWO NINE SIX"])
        elif draw < 0.3:
            line = line.lower() if draw < 0.2 else line.swapcase() + "\t"
        lines.append(line.encode())
    text = b"\n".join(lines) + (b"\n" if lines and random.random() < 0.7 else b"")
    if text and random.random() < 0.2:
        at = random.randrange(len(text))
        text = text[:at] + bytes(random.randrange(256) for _ in range(random.randint(1, 4))) + text[at:]
    return text
