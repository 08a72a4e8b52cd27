"""Compares random sessions with their model, and some of them with each growth of memory refused in turn."""
import functools
import itertools
import os
import random

from library import build_library
from model import SHOW, STOPPED, Model, Recorded, commands
from programs import Maker, input_for, source_of
from tally import called, content, write

SESSIONS = 200
COMMANDS = 100
LIMIT = 60
GIVEN = 8  # choices at most
STARVED = 4
UNKNOWN = b"unknown command; help lists all commands\n"
# What memory stops: all growth from one on, or one alone.
REFUSED = ("all", "one")
# A program that goes on beyond several of the marks from which `back` makes steps again: a loop with calls.
FAR = 3_500
FAR_COMMANDS = 40
FAR_PROGRAM = b"""DO ,1 <- #3
(1) PLEASE DO FORGET #1
DO (2) NEXT
DO .1 <- '?.1$#1'~'#0$#65535'
DO READ OUT .2
PLEASE DO (1) NEXT
(2) DO .2 <- '.2$#1'~'#32767$#1'
DO ,1 SUB #2 <- .2
DO (3) NEXT
DO RESUME #1
(3) PLEASE DO STASH .2 + .1
DO RESUME #1
"""


class Sessions:
    """The sessions of one program at a time."""

    def __init__(self, steps):
        self.steps, self.tally = steps, steps.tally
        self.log, self.library = os.path.join(steps.folder, "log"), build_library(steps.folder)
        self.stopped = []

    def begin(self, source, given, limit):
        """Takes a program, its input and the limit of its sessions."""
        write(self.steps.source, source)
        write(self.steps.input, given)
        self.limit = limit
        self.recorded = functools.cache(self.record)
        self.texts = [b'%d %d:1 "%s"\n' % (number, number, line.replace(b"\\", b"\\\\").replace(b'"', b'\\"'))
                      for number, line in enumerate(source.splitlines(), 1)]

    def options(self, choices, limit):
        return ["--limit", str(limit), f"--choices={choices or '-'}"]

    def record(self, choices):
        """Records a run step by step. It may make one step more than the sessions."""
        asked = [SHOW, "state"] + ["step", SHOW, "state"] * (self.limit + 1)
        found = self.steps.answers(asked, *self.options(choices, self.limit + 2))
        first = found[0][:found[0].index(b".1 = ")]
        return Recorded(choices, first, [found[0].removeprefix(first), *found[1:]])

    def begun(self, choices):
        """Returns the model of a new session, and what a session says first."""
        model = Model(self.recorded, choices, self.limit, self.texts)
        return model, model.where(model.run())

    def compare(self, name, asked, choices):
        """Compares a session with its model. Returns the length of the longest answer."""
        model, first = self.begun(choices)
        wanted = [model.answer(command) for command in asked]
        found = self.steps.answers(asked, *self.options(choices, self.limit))
        found[0] = found[0].removeprefix(first)
        wrong = [at for at in range(len(asked)) if found[at:at + 1] != wanted[at:at + 1]][:1]
        self.tally.equal(f"{name}, given {choices}: the last answer of {asked[:wrong[0] + 1] if wrong else 'all'}",
                         [found[at:at + 1] for at in wrong], [wanted[at:at + 1] for at in wrong])
        return max(map(len, wanted))

    def refused(self, asked, choices, at, kind):
        """Runs a session with its growth refused at a place. Returns what it left, how often it asked to grow, and how
        often that was refused.
        """
        words = [self.steps.program, "--input", self.steps.input, *self.options(choices, self.limit), self.steps.source]
        lines = "".join(f"{command}\n?\n" for command in asked).encode()
        environment = {"FAULT": "alloc", "FAULT_AT": str(at), "FAULT_TO": kind, "FAULT_LOG": self.log}
        left = called(words, lines, {"LD_PRELOAD": self.library, **environment})
        calls, failed = (int(word.partition(b"=")[2]) for word in content(self.log).split()[:2])
        return left, calls, failed

    def starve(self, name, asked, choices, kind, longest):
        """Compares a session with its model, with its growth refused at each place in turn. Its first command makes
        room for the longest answer, without which the session would end.
        """
        asked = ["print" + " .1" * (longest // len(".1 = 0\n") + 1), *asked]
        first = self.refused(asked[:1], choices, 0, kind)[1] + 1
        for at in itertools.count(first):
            (status, output, errors), _, failed = self.refused(asked, choices, at, kind)
            if not failed:
                self.tally.check(at > first, f"{name}: no growth")
                return
            place = f"{name}, given {choices}, refused from growth {at} on ({kind})"
            *found, rest = output.split(UNKNOWN)
            self.tally.equal(place, (status, len(found), rest, errors), (0, len(asked), b"", b""))
            if not self.follow(place, asked, choices, found):
                return

    def follow(self, place, asked, choices, found):
        """Compares the answers of a session whose memory ended. Returns whether they are right."""
        model, first = self.begun(choices)
        for at, answer in enumerate(found):
            command, before = asked[at], model.steps
            short = STOPPED.fullmatch(answer)
            if short:
                right = model.stops_short(command, int(short[1] or before))
                self.stopped.append((command.split()[0], before, model.steps))
            else:
                right = answer.removeprefix(first if at == 0 else b"") == model.answer(command)
            if not self.tally.check(right, f"{place}: the last answer of {asked[:at + 1]}: {answer!r}"):
                return False
        return True

    def all(self):
        starved = 0
        for number in range(SESSIONS):
            name, chance = f"session {number}", random.Random(f"session {number}")
            self.begin(source_of(Maker(chance).program()), input_for(chance), LIMIT)
            if called([self.steps.ick, "check", self.steps.source])[0]:
                continue
            choices = "".join(chance.choice("01") for _ in range(chance.randint(0, GIVEN)))
            asked = commands(chance, COMMANDS, len(self.texts), LIMIT)
            longest = self.compare(name, asked, choices)
            if starved < STARVED and self.recorded(choices).last > LIMIT // 2:
                self.starve(name, asked, choices, REFUSED[starved % 2], longest)
                starved += 1
        self.go_far()
        verbs = {verb for verb, _, _ in self.stopped}
        wanted = {"step", "run", "back", "why", "watch", "break"}
        self.tally.check(verbs >= wanted, f"memory stopped nothing but {verbs}")
        self.tally.check(any(before < after for _, before, after in self.stopped), "no command stopped on its way")

    def go_far(self):
        chance = random.Random("far")
        self.begin(FAR_PROGRAM, b"", FAR)
        asked = commands(chance, FAR_COMMANDS, len(self.texts), FAR)
        longest = self.compare("a long session", asked, "")
        for kind in REFUSED:
            self.starve("a long session", asked, "", kind, longest)
