"""Makes random programs of many steps, for traces: loops of thousands of turns, and NEXT calls that are nested deep.

Few statements of a loop can fault at every turn. Events come by a shift register: its number of 15 bits takes all
values but 0 in turn, and seldom has so many ones that an event comes. An event is a fault, or it ends the turns.
"""
from programs import ARRAYS, COUNTER, COUNTING, KINDS, Maker, Statement

NARROW = [".1", ".2", ".0002", COUNTER]
REGISTER = f"""{COUNTER} <- '{COUNTER}$"'?"{COUNTER}~#16384"$"{COUNTER}~#8192"'~#1"'~'#16383$#1'"""
# Masks of one bit, by how seldom it is among the register's ones: once in some 7, 17, 57, 270 or 2,047 turns, if 10 to
# 14 ones are there.
OFTEN, SELDOM = [512, 1024, 2048], [1024, 2048, 4096, 8192]
# Bodies that have a fault, or ask for an element that may not be there, only if the event comes.
FAULTS = [
    '.1 <- "?{}"$#0',
    """:3 <- '"?{}"$#0'$#1""",
    """.2 <- ,1SUB'"{}"$#1'""",
    """,1SUB'"{}"$#1' <- #9""",
    """;1 <- '?"{}"$#1'~#1 BY #2""",
]
# Gerunds whose statements a loop can do without.
SPARED = ["CALCULATE", "STASH", "RETRIEVE", "IGNORE", "REMEMBER", "ABSTAIN", "REINSTATE", "WRITE-IN", "READ-OUT"]
WEIGHTS = {
    "calculated": 4, "stored": 3, "dimensioned": 4, "ignored": 4, "remembered": 3, "abstained": 4, "reinstated": 7,
    "stashed": 3, "printed": 1, "entered": 0.3, "faulted": 2, "called": 3, "forgot": 1, "unknown": 0.1,
}
# About how many return addresses the bounds of traces and of the NEXT stack are.
DEPTHS = [16, 63, 79]


class Looping(Maker):
    """Makes one program with a loop whose turns are ended by an event, or never."""

    def __init__(self, random):
        super().__init__(random)
        self.often = random.choice([0, 0, 0.1, 0.3])
        self.negated = random.choice([0, 0.3, 0.5])
        # A program has half of the kinds of turns, since one kind may hide what another does.
        self.weights = {"calculated": 1, **{kind: it for kind, it in WEIGHTS.items() if random.random() < 0.5}}

    def put(self, kind, body, label=None):
        """Adds a statement without a chance."""
        self.made.append(Statement(label, False, False, None, body, kind))

    def event(self, masks):
        return f"'{COUNTER}~{COUNTER}'~#{self.random.choice(masks)}"

    def narrow(self):
        return self.random.choice(NARROW + [f",1SUB#{self.random.randint(1, self.bodies.sizes[',1'][0])}"])

    def calculated(self):
        mesh, mask = self.bodies.mesh(), self.bodies.mesh()
        body = self.random.choice([
            f".1 <- {self.narrow()}~{mask}", f".2 <- '?{self.narrow()}${mesh}'~'#0$#65535'",
            f":1 <- {self.narrow()}${self.narrow()}", f".1 <- '&:1~:1'~{mask}",
            f".2 <- '{self.narrow()}${mesh}'~{mask}", f":3 <- '?:1~{mask}'", f".1 <- {mesh}", f".2 <- {self.narrow()}",
        ])
        return "CALCULATE", body

    def stored(self):
        size = self.bodies.sizes[",1"][0]
        return "CALCULATE", f",1SUB#{self.random.randint(1, size)} <- {self.narrow()}~{self.bodies.mesh()}"

    def dimensioned(self):
        array = self.random.choice([",1", ",1", ",2", ";1"])
        sizes = self.bodies.sizes[array]
        if self.random.random() < 0.3 and array != ",1":
            sizes = [self.random.randint(1, 4) for _ in sizes]
        return "CALCULATE", f"{array} <- {' BY '.join(f'#{size}' for size in sizes)}"

    def ignored(self):
        return "IGNORE", f"IGNORE {self.random.choice(['.1', '.2', ':1', ',1', ',1', ',1', ',2'])}"

    def remembered(self):
        return self.bodies.remember()

    def named(self):
        if self.random.random() < 0.3:
            return f"({self.random.choice(self.labels)})"
        if self.random.random() < 0.05:
            return self.random.choice(list(KINDS.values()))
        named = {self.random.choice(["CALCULATE", self.random.choice(SPARED)]) for _ in range(2)}
        return " + ".join(KINDS[kind] for kind in sorted(named))

    def abstained(self):
        return "ABSTAIN", f"ABSTAIN FROM {self.named()}"

    def reinstated(self):
        return "REINSTATE", f"REINSTATE {self.named()}"

    def stashed(self):
        """Adds a STASH and some statement, and returns the RETRIEVE of the same."""
        name = self.random.choice([".1", ":1", ",1", ",2"])
        self.put("STASH", f"STASH {name}")
        self.turn()
        return "RETRIEVE", f"RETRIEVE {name}"

    def printed(self):
        return "READ-OUT", f"READ OUT {self.narrow()} + .1 + :1"

    def entered(self):
        return "WRITE-IN", f"WRITE IN {self.random.choice(['.1', ',1'])}"

    def faulted(self):
        return "CALCULATE", self.random.choice(FAULTS).format(self.event(SELDOM))

    def called(self):
        if not self.subroutines:
            return self.calculated()
        return "NEXT", f"({self.random.choice(self.subroutines)}) NEXT"

    def forgot(self):
        return "FORGET", f"FORGET {self.random.choice(['#0', self.event(SELDOM)])}"

    def unknown(self):
        return self.bodies.unrecognised()

    def turn(self):
        """Adds a statement of a loop, which may have a chance, or be abstained from at the start."""
        kind, body = getattr(self, self.random.choices(list(self.weights), self.weights.values())[0])()
        chance = self.random.choice(self.chances) if self.random.random() < self.often else None
        negated = kind not in ("NEXT", "RETRIEVE") and self.random.random() < self.negated
        self.made.append(Statement(None, False, negated, chance, body, kind))

    def begin(self):
        """Gives the variables numbers, and the arrays dimensions, of which ,1 and ,2 have one."""
        for array in ARRAYS:
            sizes = [self.random.randint(2, 4) for _ in range(1 if array[0] == "," else 2)]
            self.bodies.sizes[array] = sizes
            self.put("CALCULATE", f"{array} <- {' BY '.join(f'#{size}' for size in sizes)}")
            self.put("CALCULATE", f"{array}SUB{'#1' * len(sizes)} <- {self.bodies.mesh()}")
        for name in [".1", ".2", ".0002", ":1", ":3"]:
            number = self.bodies.mesh() + (f"${self.bodies.mesh()}" if name[0] == ":" else "")
            self.put("CALCULATE", f"{name} <- {number}")
        self.put("CALCULATE", f"{COUNTER} <- #{self.random.randint(1, 32767)}")
        if self.random.random() < 0.3:
            self.put(*self.ignored())

    def show(self):
        sizes = [(array, size) for array in ",1 ,2".split() for size in self.bodies.sizes[array]]
        elements = [f"{array}SUB#{place}" for array, size in sizes for place in range(1, 1 + min(size, 2))]
        self.put("READ-OUT", f"READ OUT {' + '.join(['.1', '.2', ':1', ':3', *elements])}")

    def routines(self):
        """Adds the subroutines, of which the first may call the second one."""
        for at, label in enumerate(self.subroutines):
            self.put(*self.calculated(), label)
            if at == 0 and len(self.subroutines) > 1 and self.random.random() < 0.5:
                self.put("NEXT", f"({self.subroutines[1]}) NEXT")
            for _ in range(self.random.randint(0, 2)):
                kind, body = self.random.choice([self.calculated, self.stored, self.ignored, self.reinstated])()
                self.put(kind, body)
            self.put("RESUME", "RESUME #1")

    def fill(self):
        again, ask, turn, leave = COUNTING
        self.begin()
        self.put("FORGET", "FORGET #1", again)
        places = self.random.randint(1, 6)
        register = self.random.randrange(places)
        for place in range(places):
            self.turn()
            if place == register:
                self.put("CALCULATE", REGISTER)
        if self.random.random() < 0.8:
            self.put("NEXT", f"({ask}) NEXT")
            self.put("NEXT", f"({again}) NEXT")
            self.put("NEXT", f"({turn}) NEXT", ask)
            self.put("FORGET", "FORGET #1")
            self.put("NEXT", f"({leave}) NEXT")
            event = self.event(OFTEN).replace("'", '"')
            self.put("RESUME", f"""RESUME "?'{event}'$#2"~#3""", turn)
            self.put("FORGET", "FORGET #1", leave)
            self.show()
        if self.random.random() < 0.7:
            self.put("NEXT", f"({again}) NEXT")
        self.put("GIVE-UP", "GIVE UP")
        self.routines()


class Nesting(Looping):
    """Makes one program with a loop of NEXT calls, each of which is made from where the last one has led."""

    def fill(self):
        again, first = COUNTING[0], 1000
        depth = self.random.choice(DEPTHS) + self.random.randint(-2, 3)
        below = self.random.choice([0, self.random.randint(0, depth - 1)])
        chain = depth - below
        self.begin()
        for place in range(below):
            self.put("NEXT", f"({500 + place}) NEXT")
            self.put("FORGET", "FORGET #0", 500 + place)
        self.put("NEXT", f"({again}) NEXT")
        self.put("FORGET", "FORGET #1", again)
        self.put("CALCULATE", REGISTER)
        for place in range(chain):
            self.put("NEXT", f"({first + place}) NEXT", None if place == 0 else first + place - 1)
            if self.random.random() < 0.1:
                self.put(*self.calculated())
            if place == 0:
                self.show() if self.random.random() < 0.3 else self.turn()
                self.put("NEXT", f"({again}) NEXT")
            else:
                self.put("RESUME", "RESUME #1")
        self.put(*self.calculated(), first + chain - 1)
        self.turn()
        if self.random.random() < 0.5:
            self.put("FORGET", f"FORGET #{self.random.randint(0, 2)}")
        self.put("RESUME", f"RESUME {self.random.choice(['#1', '#1', '#2', f'#{max(1, chain - 2)}', '.1~#3'])}")
        self.routines()
