"""A model of sessions: where each command stops and what it answers, by nothing but the recorded states of runs."""
import itertools
import re

NAMES = [".1", ".2", ":1", ":3", ".7", ",1", ",2", ";1"]
SHOW = "print " + " ".join(NAMES)
PRINTED = re.compile(rb'^  prints "(.*)"\n')
STOPPED = re.compile(rb"stopped after (\d+) steps: out of memory\n|out of memory\n")
RETURNS = re.compile(rb"^NEXT stack:((?: \d+)*)", re.MULTILINE)


class Recorded:
    """A run step by step, up to a choice that it isn't given, its end, or so many steps. It has of each state the line
    of its place, its text, the line of each name, the statement that is met next, the number of return addresses, and
    how many choices were asked before it. Of each step it has what the step printed.
    """

    def __init__(self, choices, first, answers):
        self.choices, self.lines, self.printed = choices, [first], [b""]
        for answer in answers[2::3]:
            if not self.add(answer):
                break
        self.states = answers[1::3][:len(self.lines)]
        self.names = [dict(zip(NAMES, found.splitlines(keepends=True))) for found in answers[::3][:len(self.lines)]]
        self.places = [int(state.split()[2]) for state in self.states]
        self.depths = [len(RETURNS.search(state)[1].split()) for state in self.states]
        self.asks = [b"\n  asks %" in line for line in self.lines]
        self.asked = [0, *itertools.accumulate(self.asks)]
        self.last = len(self.lines) - 1

    def add(self, answer):
        """Adds the place behind a step. Returns whether the step was made."""
        printed = PRINTED.match(answer)
        line = answer[printed.end():] if printed else answer
        made = int(line.split()[0]) == len(self.lines)
        if made:
            self.lines.append(line)
            self.printed.append(printed[1] if printed else b"")
        return made

    def has_ended(self, at):
        return self.lines[at].split(b" ")[1] == b"ended:"


class Model:
    """A session. `recorded` returns the recorded run of some choices, and `texts` are the lines of the statements."""

    def __init__(self, recorded, given, limit, texts):
        self.recorded, self.given, self.limit, self.texts = recorded, given, limit, texts
        self.steps, self.chosen, self.breakpoints = 0, "", set()

    def run(self):
        """The run of the choices so far, and then of those that are given."""
        return self.recorded(self.chosen + self.given[len(self.chosen):])

    def go(self, run, steps):
        """Stands behind the first steps of a run."""
        self.steps, self.chosen = steps, run.choices[:run.asked[steps]]

    def where(self, run):
        """What tells where the session is."""
        stops = not run.has_ended(self.steps) and run.places[self.steps] in self.breakpoints
        return (run.lines[self.steps] + b"  breakpoint\n" * stops + b"  limit reached\n" * (self.steps == self.limit))

    def way(self, before, run):
        """What the steps since a state printed, and where the session is."""
        printed = b"".join(run.printed[before + 1:self.steps + 1])
        return (b'  prints "' + printed + b'"\n' if printed else b"") + self.where(run)

    def forward(self, is_there, most):
        """Makes steps until a state is there, or has a breakpoint."""
        run, before = self.run(), self.steps
        at, last = before, min(run.last, before + most, self.limit)
        while at < last:
            at += 1
            if is_there(run, at) or run.places[at] in self.breakpoints:
                break
        self.go(run, at)
        return self.way(before, run)

    def answer(self, command):
        """Does a command, and returns its answer."""
        verb, *words = command.replace("break (", "break_label ").replace(")", "").split()
        return getattr(self, "do_" + verb)(*words)

    def do_step(self, most="1"):
        return self.forward(lambda run, at: False, int(most))

    def do_back(self, steps="1"):
        run = self.run()
        self.go(run, max(0, self.steps - int(steps)))
        return self.where(run)

    def do_next(self):
        depth = self.run().depths[self.steps]
        return self.forward(lambda run, at: run.depths[at] <= depth, self.limit)

    def do_out(self):
        depth = self.run().depths[self.steps]
        if depth == 0:
            return b"the NEXT stack is empty\n"
        return self.forward(lambda run, at: run.depths[at] < depth, self.limit)

    def do_until(self, statement):
        return self.forward(lambda run, at: run.places[at] == int(statement), self.limit)

    def do_run(self, most=""):
        before, most = self.steps, int(most or 2 ** 32 - 1)
        found, run = self.do_step(most), self.run()
        ends = self.steps in (self.limit, run.last) or run.places[self.steps] in self.breakpoints
        return found + (b"" if ends or self.steps - before < most else b"  goes on\n")

    def do_break(self, statement):
        if not 1 <= int(statement) <= len(self.texts):
            return f"the last statement is {len(self.texts)}\n".encode()
        self.breakpoints.add(int(statement))
        return b"breakpoint at " + self.texts[int(statement) - 1]

    def do_break_label(self, label):
        found = [at for at, text in enumerate(self.texts, 1) if re.match(rb'\d+ \d+:1 "\(%s\)' % label.encode(), text)]
        return self.do_break(found[0]) if found else b"no statement has this label\n"

    def do_delete(self, statement=""):
        if not statement:
            self.breakpoints.clear()
            return b"no breakpoint is left\n"
        if int(statement) not in self.breakpoints:
            return b"no breakpoint is there\n"
        self.breakpoints.remove(int(statement))
        return b"breakpoint deleted\n"

    def do_choose(self, choice):
        run, before = self.run(), self.steps
        if before == self.limit:
            return b"limit reached\n"
        if not run.asks[before]:
            return b"no choice is asked\n"
        self.chosen += choice
        self.steps += 1
        return self.way(before, self.run())

    def do_watch(self, name):
        run, before = self.run(), self.steps
        way = self.forward(lambda run, at: run.names[at][name] != run.names[before][name], self.limit)
        line = run.names[self.steps][name]
        if line == run.names[before][name]:
            return way + line
        return way + line[:-1] + b", changed by statement %d\n" % run.places[self.steps - 1]

    def do_why(self, name):
        run, now = self.run(), self.steps
        changed = [at for at in range(now) if run.names[at][name] != run.names[at + 1][name]]
        if not changed:
            return run.names[now][name] + b"not changed by any step\n"
        self.go(run, changed[-1])
        return run.names[now][name][:-1] + b", changed by statement %d\n" % run.places[self.steps] + self.where(run)

    def do_print(self, *names):
        return b"".join(self.run().names[self.steps][name] for name in names)

    def do_state(self):
        return self.run().states[self.steps]

    def do_stack(self):
        return RETURNS.search(self.do_state())[0] + (b"" if self.run().depths[self.steps] else b" none") + b"\n"

    def do_cursor(self):
        return (self.chosen or "-").encode() + b"\n"

    def stops_short(self, command, steps):
        """Stands where a command came to that memory stopped. Returns whether it may stop there."""
        run, before, breakpoints = self.run(), self.steps, set(self.breakpoints)
        self.answer(command)
        verb, after = command.split()[0], self.steps
        first, last = {"back": (0, before), "why": (0, before), "choose": (before, before)}.get(verb, (before, after))
        self.breakpoints = breakpoints
        if not first <= steps <= last:
            return False
        self.go(run, steps)
        return True


def commands(chance, count, statements, limit):
    """Makes random commands for a program of so many statements. Most of them move by a third of the limit at most."""
    def number(most):
        return str(chance.randint(0, most))

    def one():
        name, place, some = chance.choice(NAMES), number(statements + 1), number(limit // 3)
        return chance.choice([
            "step", "step " + some, "back", "back " + some, "next", "next", "out", "out", "until " + place, "run",
            "run " + number(9), "run " + some, "break " + place, f"break ({number(9)})", "delete " + place,
            chance.choice(["delete", f"back {limit}"]), "choose 0", "choose 1", "choose 1", "watch " + name,
            "why " + name, f"print {name} .1", "state", "stack", "cursor"])
    return [one() for _ in range(count)]
