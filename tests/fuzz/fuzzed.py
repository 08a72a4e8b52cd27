"""One random program over a built ick, which is held against itself and against what is known of the program."""
import random

import seeds
from checking import Checking
from listings import MOST_PLAIN, choices_in, errors_of, follows, grouped, near_cursor, printed, read_listing
from programs import Maker, asks, decided, input_for, listing_of, source_of, text_of

MANY = 40
MILLION = 1_000_000


def steps_in(errors):
    """Returns the number of steps in the error text of a run that was cut short, or 0."""
    found = errors.split()[3:4]
    return int(found[0]) if found and found[0].isdigit() else 0


class Fuzzed(Checking):
    """One program, its input and its limit, and the checks of it."""

    def __init__(self, command, folder, seed, number, other=None):
        chance = random.Random(f"{seed} {number}")
        super().__init__(command, folder, number, chance, other)
        self.made = Maker(chance).program()
        self.source, self.input = source_of(self.made), input_for(chance)
        self.texts = [text_of(*pair) for pair in zip(*self.made)]
        self.limit = chance.choice([chance.randint(0, 12), chance.randint(5, 60), chance.randint(50, 400)])
        self.write("source", self.source)
        self.write("input", self.input)

    def run(self, choices=None, limit=None, file="FILE", **options):
        words = [("choices", choices)] if choices is not None else []
        return self.answer("run", words + [("limit", self.limit if limit is None else limit)], file, **options)

    def runs(self, count, after=None, limit=None, file="FILE", **options):
        words = [("from", after)] if after is not None else []
        words += [("count", count), ("limit", self.limit if limit is None else limit)]
        return self.answer("runs", words, file, **options)

    def statements(self):
        """Checks the listing of the statements and their count."""
        listing = listing_of(self.made)
        polite = sum(statement.polite for statement in self.made.statements)
        self.hold("list", self.answer("list", []), (0, listing, b""))
        self.hold("check", self.answer("check", []),
                  (0, f"{len(self.texts)} STATEMENTS, {polite} POLITE\n".encode(), b""))

    def listed(self, limit):
        """Returns the lines of the listing at a limit, and whether it has all runs, after each line was looked at."""
        found = self.runs(MANY, limit=limit)
        listing = read_listing(found[1])
        if not self.hold("a listing", (found[0], listing is not None, found[2]), (0, True, b"")):
            return [], False
        lines, last = listing
        before = None
        for line in lines:
            self.hold("the next run", (line.choices, follows(line.choices, before)), (line.choices, True))
            before = line.choices
        more = "0" in (before or "")
        self.hold("the end of a listing", (last, len(lines) <= MANY), ("MORE" if more else "DONE", True))
        self.hold("a listing without a run", bool(lines), True)
        return lines, last == "DONE"

    def same_run(self, line, limit):
        """Checks what `ick run` answers for a line; choices that it doesn't use change nothing."""
        text = self.random.choice([printed, grouped, lambda choices: choices or "-"])(line.choices)
        if line.choices and self.random.random() < 0.2:
            text = line.choices + self.random.choice(["0", "1", "01"])
        status, errors = errors_of(line, self.texts, limit)
        self.hold("the run of a line", self.run(text, limit), (status, line.output, errors))

    def wanted(self, line):
        """Checks the run without its last choice, which wants one, and returns the number of its steps."""
        status, output, errors = self.run(line.choices[:-1] or "-")
        steps = steps_in(errors)
        self.hold("a run that wants a choice",
                  (status, errors, line.output.startswith(output), steps < self.limit),
                  (3, f"CHOICE WANTED AFTER {steps} STEPS\n".encode(), True, True))
        self.hold("the same run at a limit", self.run(line.choices, steps),
                  (3, output, f"LIMIT REACHED AFTER {steps} STEPS\n".encode()))
        return steps

    def rest(self, lines, done):
        """Checks listings from cursors against the rest of the listing, and small counts against its front."""
        for at in self.random.sample(range(len(lines)), min(3, len(lines))):
            count = self.random.choice([1, 2, 3, MANY])
            following = lines[at + 1:at + 1 + count]
            if len(following) < count and not done:
                continue
            last = b"MORE\n" if "0" in (following or lines)[-1].choices else b"DONE\n"
            wanted = b"".join(self.rows[line] for line in following) + last
            choices = lines[at].choices
            for text in {printed(choices), grouped(choices), choices or "-"}:
                self.hold("the rest of a listing", self.runs(count, text), (0, wanted, b""))
        for count in (1, 2, 3):
            if count <= len(lines):
                last = b"MORE\n" if "0" in lines[count - 1].choices else b"DONE\n"
                wanted = b"".join(self.rows[line] for line in lines[:count]) + last
                self.hold("the front of a listing", self.runs(count), (0, wanted, b""))

    def refused(self, lines):
        """Checks cursors that aren't those of a run, and texts that are no cursors."""
        refusal = (64, b"", b"NO SUCH RUN\n")
        choices = self.random.choice(lines).choices
        self.hold("a cursor with a choice more", self.runs(1, choices + "0"), refusal)
        if choices:
            self.hold("a cursor with a choice less", self.runs(1, grouped(choices[:-1])), refusal)
        texts = ["".join(self.random.choice("0011*,-259") for _ in range(self.random.randint(1, 7)))]
        texts += [near_cursor(self.random, choices) for _ in range(3)]
        for text in texts:
            found = choices_in(text)
            if found is None:
                self.hold("no cursor", self.runs(1, text), (64, b"", b"BAD CURSOR\n"))
                self.hold("no choices", self.run(text), (64, b"", b"BAD CURSOR\n"))
            elif len(found) > MILLION:
                self.hold("too many choices", self.run(text), refusal)
            elif len(found) > self.limit:
                self.hold("more choices than the limit", self.runs(1, text), refusal)

    def grouped_from(self, choices):
        """Checks the first run, which has these choices, at limits where it has 64 of them, the most that are printed
        plainly, and one more.
        """
        for count in (MOST_PLAIN, MOST_PLAIN + 1):
            if len(choices) > count:
                steps = steps_in(self.run(choices[:count])[2])
                lines, _ = self.listed(steps)
                self.hold("the choices up to a limit", [line.choices for line in lines[:1]], [choices[:count]])

    def seeded(self, lines, done):
        """Checks runs of seeds against the listed runs, and against the choices that the seed draws."""
        chances = {statement.chance for statement in self.made.statements if asks(statement)}
        for _ in range(2):
            seed = self.random.choice([self.random.randrange(4), self.random.randrange(2 ** 64)])
            found = self.answer("run", [("seed", seed), ("limit", self.limit)])
            if len(chances) == 1:
                choices = seeds.drawn(seed, *chances, self.limit)
                self.hold("the run of a seed", found, self.run(choices or "-"))
            if done:
                listed = any(errors_of(line, self.texts, self.limit)[0] == found[0] and line.output == found[1]
                             for line in lines)
                self.hold("a listed run", listed, True)

    def streams(self):
        """Checks a run whose input comes from a pipe, and what it leaves there; and the source as standard input."""
        choices = self.random.choice(["-", "0*400", "1*400", "1*1,0*1,1*400"])
        by_file, left = self.run_by_file(choices)
        by_pipe, also_left = self.run_by_pipe(choices)
        self.hold("a run by a pipe", by_pipe, by_file)
        self.hold("what a run leaves", (also_left, self.input.endswith(left)), (left, True))
        for call in (lambda **how: self.runs(3, **how), lambda **how: self.run(choices, **how)):
            self.hold("the source as standard input", call(file=None, entered=self.source), call(entered=b""))

    def chances_decided(self):
        """Checks that choosing 1 at a statement equals no chance there, and choosing 0 equals the chance 0."""
        for digit, chance in (("1", None), ("0", 0)):
            other = decided(self.made, chance)
            found = self.run(f"{digit}*{MILLION}")
            self.write("source", source_of(other))
            wanted = self.run(self.random.choice([None, "-", "01"]))
            self.write("source", self.source)
            for statement, text in zip(other.statements, zip(*[map(text_of, *pair) for pair in (self.made, other)])):
                if statement.kind == "UNRECOGNISED" and wanted[2].startswith(b"ICL000I " + text[1].encode() + b"\n"):
                    wanted = wanted[:2] + (wanted[2].replace(text[1].encode(), text[0].encode(), 1),)
                    break
            self.hold(f"each choice {digit}", found, wanted)

    def longer(self):
        """Holds longer runs, whose choices a seed draws, against those of another build."""
        for limit in (200, 4000):
            self.answer("run", [("seed", self.random.randrange(2 ** 64)), ("limit", self.random.randint(80, limit))])

    def all(self):
        if self.other:
            self.longer()
        self.statements()
        lines, done = self.listed(self.limit)
        if not lines:
            return
        self.rows = dict(zip(lines, self.runs(MANY)[1].splitlines(keepends=True)))
        for line in self.random.sample(lines, min(6, len(lines))):
            self.same_run(line, self.limit)
        asking = [line for line in lines if line.choices]
        if asking:
            limit = self.wanted(self.random.choice(asking)) + self.random.choice([0, 1, 2])
            fewer, _ = self.listed(limit)
            for line in self.random.sample(fewer, min(2, len(fewer))):
                self.same_run(line, limit)
        self.rest(lines, done)
        self.refused(lines)
        self.grouped_from(lines[0].choices)
        self.seeded(lines, done)
        self.streams()
        self.chances_decided()
