"""Rewrites statements that C-INTERCAL has and this language hasn't.

DO COME FROM (n) becomes a place, and a jump to this place follows the statement with the label n:

    DO (m) NEXT             lets a run from above come to the place
    (m) DO FORGET #1        the place, which drops the entry that a NEXT left
    ..
    (n) DO ..
    (j) DO (m) NEXT         the jump, with the NOT and the chance of the COME FROM

As in C-INTERCAL, the jump follows (n) also if (n) is abstained from. If (n) is a NEXT, the jump follows its return.
A computed COME FROM becomes such a place too. Behind each label that it may name, the label's number goes into a
variable, and a NEXT leads to the tests of all computed COME FROMs.

ONCE and AGAIN become an ABSTAIN or REINSTATE behind their statement, or in front of it if it is a NEXT. For ABSTAIN with
a count, a variable has the count of each statement that it names. TRY AGAIN becomes a NEXT to the first statement.

An ABSTAIN or REINSTATE whose gerund would reach statements that are added here becomes a list by labels:

    (s) DO (g) NEXT         with the NOT, the chance and the label of the statement
    DO (e) NEXT
    (g) DO ABSTAIN FROM (a)
    DO ABSTAIN FROM (b)
    (e) DO FORGET #1
"""
import itertools
import re
from typing import NamedTuple, Optional

import ick_foreign
import ick_reasons
import ick_source
import ick_widths
from ick_foreign import ABSTAIN, REINSTATE

LIBRARIES = (range(1000, 2000), range(5000, 6000))  # their labels stay free
ADDED = {"NEXT", "FORGET", "ABSTAIN", "REINSTATE"}  # kinds of statements that are added
ADDED_FOR_TESTS = {"CALCULATE", "RESUME"}


class Unconvertible(Exception):
    """Statements can't be rewritten: triples of a place, the statement's number, and why."""

    def __init__(self, reasons):
        super().__init__(reasons)
        self.reasons = sorted(reasons)


class Line(NamedTuple):
    """A statement that is added: its body, its label, and its NOT and chance as a text."""

    body: bytes
    label: Optional[int] = None
    qualifiers: bytes = b""

    def text(self, do):
        return (b"(%d) " % self.label if self.label else b"") + do() + self.qualifiers + b" " + self.body


class Fresh:
    """Gives labels and variables that a source doesn't have."""

    def __init__(self, source):
        labels = {ick_source.value(found[1], 0) for found in ick_foreign.LABEL.finditer(source)}
        variables = {ick_source.value(number, 0) for number in re.findall(rb"[.:!][\t-\r &V?]*([0-9]+)", source)}
        self.labels = (label for label in range(ick_source.GREATEST, 0, -1)
                       if label not in labels and not any(label in labels for labels in LIBRARIES))
        self.variables = (number for number in range(ick_source.GREATEST, 0, -1) if number not in variables)

    def label(self):
        return next(self.labels)

    def variable(self):
        return next(self.variables)


def test(mark, variable, of_zero):
    """A RESUME of 1 entry if the variable is 0, or else if it isn't. Otherwise it is of 2 entries."""
    return b"RESUME \"?'\"%s%d~%s%d\"~#1'$#%d\"~#3" % (mark, variable, mark, variable, 1 if of_zero else 2)


class Counts:
    """The routines that work with the counts of statements, and their variables. A count goes up to 65,535."""

    def __init__(self, fresh):
        self.sum, self.other, self.carry, self.count = (fresh.variable() for _ in range(4))
        self.add, self.subtract, self.zero, self.not_zero = (fresh.label() for _ in range(4))
        self.fresh, self.of_part = fresh, {}
        self.lines = self.common()

    def common(self):
        """Routines: `add` puts sum + other into sum, and `subtract` sum - 1 unless sum is 0.

        `zero` and `not_zero` return if sum is so, and otherwise to the caller of their caller.
        """
        loop, end, step = (self.fresh.label() for _ in range(3))
        total, other, carry = self.sum, self.other, self.carry
        return [
            Line(b"(%d) NEXT" % loop, self.add),
            Line(b"FORGET #1", loop),
            Line(b".%d <- \"&'.%d$.%d'\"~'#0$#65535'" % (carry, total, other)),
            Line(b".%d <- \"?'.%d$.%d'\"~'#0$#65535'" % (total, total, other)),
            Line(b".%d <- \".%d$#0\"~'#32767$#1'" % (other, carry)),
            Line(b"(%d) NEXT" % end),
            Line(b"(%d) NEXT" % loop),
            Line(test(b".", other, False), end),
            Line(b"(%d) NEXT" % step, self.subtract),
            Line(b".%d <- #65535" % other),
            Line(b"(%d) NEXT" % self.add),
            Line(b"RESUME #1"),
            Line(test(b".", total, False), step),
            Line(test(b".", total, True), self.zero),
            Line(test(b".", total, False), self.not_zero),
        ]

    def routine(self, part, state, adds):
        """The label of the routine that adds the count to that of a statement, or takes 1 from it, and sets its state."""
        if (part, adds) not in self.of_part:
            label = self.of_part[part, adds] = self.fresh.label()
            self.lines.append(Line(b".%d <- .%d" % (self.sum, part.count), label))
            self.lines += [Line(b".%d <- .%d" % (self.other, self.count))] * adds
            self.lines += [
                Line(b"(%d) NEXT" % (self.add if adds else self.subtract)),
                Line(b".%d <- .%d" % (part.count, self.sum)),
                Line(b"(%d) NEXT" % (self.not_zero if adds else self.zero)),
                Line(b"%s (%d)" % (ABSTAIN if adds else REINSTATE, state)),
                Line(b"RESUME #1"),
            ]
        return self.of_part[part, adds]

    def at_least_one(self, count):
        """The bodies that make a count 1 if it is 0."""
        return [b".%d <- \"?'\".%d~.%d\"~#1'$#1\"~#1" % (self.carry, count, count),
                b".%d <- \"V'.%d$.%d'\"~'#0$#65535'" % (count, count, self.carry)]


class Rewriting:
    """A source, and what is to be changed in it. `tell` takes a place and what is changed there.

    top is the label of the first statement, if TRY AGAIN or routines need one, and routines stand in front of it.
    """

    def __init__(self, source, wanted, tell):
        self.source, self.wanted, self.tell = source, wanted, tell
        self.parts = ick_foreign.parts_of(source, wanted)
        self.labelled = {}
        for part in self.parts:
            if part.label is not None:
                self.labelled.setdefault(part.label, part)
        self.come_froms = [part for part in self.parts if part.kind == "COME-FROM" and not part.form.expression]
        self.computed = [part for part in self.parts if part.kind == "COME-FROM" and part.form.expression]
        self.look_for_what_cant_be()
        self.fresh = Fresh(source)
        self.top, self.counts, self.begin, self.routines = None, None, [], []

    def look_for_what_cant_be(self):
        """Raises Unconvertible with every reason."""
        reasons, known = [], {}
        for part in self.come_froms:
            target = part.form.label[0]
            if target not in self.labelled:
                first = ": use ick-join first" if any(target in labels for labels in LIBRARIES) else ""
                reasons.append((part, part.start, f"no statement has the label ({target}){first}"))
            elif known.setdefault(target, part) is not part:
                reasons.append((part, part.start, f"a second COME FROM ({target}) makes threads"))
        for part in self.parts:
            if part.form.expression and part.form.label and not self.targets(part.form):
                reasons.append((part, part.start, f"no statement has the label ({part.form.label[0]})"))
            if part.kind == "UNRECOGNISED":
                reasons += [(part, at, why) for at, why in self.foreign(part)]
        if reasons:
            raise Unconvertible([(at, part.statement.number, why) for part, at, why in reasons])

    def foreign(self, part):
        """What keeps an unrecognised statement from being rewritten, if it should be: pairs of a place and why."""
        found = list(ick_reasons.elsewhere(self.source, part.statement))
        is_come_from = "--come-from" in self.wanted and ick_foreign.COME_FROM.match(part.body)
        if is_come_from and not found and not part.statement.abstained:
            return [(part.start, "this COME FROM has neither a label nor an expression")]
        return found if is_come_from or self.wanted >= ick_foreign.ALL else []

    def rewrite(self):
        for part in self.come_froms + self.computed:
            part.place = self.fresh.label()
        if self.computed:
            self.computed[0].state = self.fresh.label()
        self.count()
        for part in self.parts:
            if part.form.verb:
                self.abstention(part)
        for part in self.parts:
            if part.kind == "TRY-AGAIN":
                self.again(part)
            elif part.kind != "COME-FROM" and part.form.suffix:
                self.suffixed(part)
        for part in self.come_froms:
            self.come_from(part)
        if self.computed:
            self.computed_come_froms()
        if self.counts:
            self.routines += self.counts.lines
        if self.routines and not self.top:
            self.top = self.fresh.label()

    # which statements ABSTAIN and REINSTATE change, and how

    def targets(self, form):
        if form.label:
            return [self.labelled[form.label[0]]] if form.label[0] in self.labelled else []
        return [part for part in self.parts if part.kind in form.kinds]

    def count(self):
        """Gives a variable to each statement that an ABSTAIN with a count names."""
        for part in self.parts:
            if part.form.verb and part.form.expression:
                self.counts = self.counts or Counts(self.fresh)
                for target in self.targets(part.form):
                    if target.count is None:
                        target.count = self.fresh.variable()
                        if target.statement.abstained:
                            self.begin.append(Line(b".%d <- #1" % target.count))

    def state(self, part):
        """The label whose statement is abstained from if the part is."""
        if part.state is None:
            if part.kind == "COME-FROM" or part.kind == "NEXT" and part.form.suffix:
                part.state = self.fresh.label()
            else:
                if part.label is None:
                    part.new_label = self.fresh.label()
                part.state = part.label or part.new_label
        return part.state

    def changes(self, part, verb, adds=False):
        """The bodies that abstain from a part or reinstate it. With `adds` they add the count."""
        if part.count is not None and (adds or verb == REINSTATE):
            return [b"(%d) NEXT" % self.counts.routine(part, self.state(part), adds)]
        at_least_one = [] if part.count is None else self.counts.at_least_one(part.count)
        return at_least_one + [b"%s (%d)" % (verb, self.state(part))]

    def own_changes(self, part):
        """The statements by which ONCE or AGAIN changes its own statement."""
        if not part.form.suffix:
            return []
        if part.abstains_itself():
            return [Line(body) for body in self.changes(part, ABSTAIN)]
        reset = [] if part.count is None else [Line(b".%d <- #0" % part.count)]
        return reset + [Line(b"%s (%d)" % (REINSTATE, self.state(part)))]

    def abstention(self, part):
        form, targets = part.form, self.targets(part.form)
        added = ADDED | ick_foreign.OWN_KINDS | (ADDED_FOR_TESTS if self.counts or self.computed else set())
        if not form.expression and all(target.count is None for target in targets):
            if form.label and all(self.state(target) == form.label[0] for target in targets):
                return
            if form.kinds and not added & set(form.kinds):
                return
        bodies = [body for target in targets for body in self.changes(target, form.verb, bool(form.expression))]
        if form.expression:
            bodies.insert(0, b".%d <- %s" % (self.counts.count, self.masked(form.expression)))
        self.tell(part.start, "the list is one of labels now" if form.kinds else "ABSTAIN has other labels now")
        part.lines = self.done_if(part, bodies or [b"FORGET #0"])

    def done_if(self, part, bodies):
        """The statements that do the bodies if they would do the part."""
        if len(bodies) == 1:
            return [Line(bodies[0], None, part.qualifiers())]
        begin, end = self.fresh.label(), self.fresh.label()
        return [Line(b"(%d) NEXT" % begin, None, part.qualifiers()), Line(b"(%d) NEXT" % end), Line(bodies[0], begin),
                *map(Line, bodies[1:]), Line(b"FORGET #1", end)]

    # ONCE, AGAIN and TRY AGAIN

    def suffixed(self, part):
        suffix = part.form.suffix.decode()
        if part.kind == "NEXT":
            jump, state = self.fresh.label(), self.state(part)
            negation = b" NOT" * part.statement.abstained
            part.lines = [Line(b"%s (%d)" % (ABSTAIN, jump)), Line(b"%s (%d)" % (REINSTATE, jump), state, negation),
                          *self.own_changes(part), Line(part.body, jump, part.chance())]
        else:
            part.lines = part.lines or [Line(self.masked(part.body), None, part.qualifiers())]
            part.behind += self.own_changes(part)
        self.tell(part.start,
                  f"{suffix} is {'ABSTAIN FROM' if part.abstains_itself() else 'REINSTATE'} ({self.state(part)}) now")

    def again(self, part):
        """Makes TRY AGAIN a jump to the first statement. ONCE and AGAIN do nothing behind it in C-INTERCAL either."""
        self.top = self.top or self.fresh.label()
        part.lines, part.last = [Line(b"(%d) NEXT" % self.top, None, part.qualifiers())], [Line(b"GIVE UP")]
        self.tell(part.start, f"TRY AGAIN is ({self.top}) NEXT now")

    # COME FROM

    def come_from(self, part):
        target = self.labelled[part.form.label[0]]
        entry, changes = part.place, self.own_changes(part)
        part.lines = [Line(b"(%d) NEXT" % part.place)]
        if changes and part.abstains_itself():
            entry = self.fresh.label()
            part.lines += [changes[0]._replace(label=entry), *changes[1:]]
        part.lines.append(Line(b"FORGET #1", part.place))
        target.after.append(Line(b"(%d) NEXT" % entry, part.state, part.qualifiers()))
        target.after += changes
        self.tell(part.start,
                  f"COME FROM ({target.label}) is ({entry}) NEXT behind ({target.label}) now")

    def computed_come_froms(self):
        """Puts a call of the tests behind each label that a computed COME FROM may name."""
        number, value, unequal = self.fresh.variable(), self.fresh.variable(), self.fresh.label()
        calls, called = {}, self.computed[0].state
        self.routines.append(Line(test(b":", value, True), unequal))
        for part in self.computed:
            begin, changes = self.fresh.label(), self.own_changes(part)
            self.routines.append(Line(b"(%d) NEXT" % begin, part.state, part.qualifiers()))
            part.lines = [
                Line(b"(%d) NEXT" % part.place),
                Line(b":%d <- %s" % (value, self.masked(part.form.expression)), begin),
                Line(b":%d <- \"'?':%d~#65535'$.%d'~'#0$#65535'\"$\":%d~'#65280$#65280'\"" % (value, value, number, value)),
                Line(b"(%d) NEXT" % unequal), Line(b"FORGET #1"), Line(b"FORGET #1", part.place), *changes]
            width = ick_widths.width_of(part.form.expression)
            named = [label for label in self.labelled if width.may_be(label)]
            calls.update((label, self.labelled[label]) for label in named)
            self.tell(part.start, f"COME FROM is a test behind {len(named)} labels now")
        self.routines.append(Line(b"RESUME #1"))
        for label, target in calls.items():
            target.after += [Line(b".%d <- #%d" % (number, label)), Line(b"(%d) NEXT" % called)]

    def masked(self, expression):
        """An expression or a body with the widths of C-INTERCAL, if they are wanted."""
        if "--widths" not in self.wanted:
            return expression
        head = b"DO :1 <- "
        return ick_widths.masked(head + expression, lambda at, what: None)[len(head):]

    # the new text

    def text(self, do):
        """The new text. `do` gives the identifier of each statement that it adds."""
        parts, at = [], 0
        if self.top:
            start = next(part.start for part in self.parts if part.statement.identifier)
            lines = [*self.begin, Line(b"(%d) NEXT" % self.top), *self.routines, Line(b"FORGET #1", self.top)]
            parts, at = [self.source[:start], *(line.text(do) + b"\n" for line in lines)], start
        for part in self.parts:
            start, end = part.start, part.end
            label = part.label or part.new_label
            texts = [line.text(do) for line in part.behind + part.after + part.last]
            if part.lines:
                lines = [part.lines[0]._replace(label=label), *part.lines[1:]]
                parts += [self.source[at:start], b"\n".join([line.text(do) for line in lines] + texts)]
            else:
                new = b"(%d) " % label if part.new_label else b""
                parts += [self.source[at:start], b"\n".join([new + self.source[start:end], *texts])]
            at = end
        return b"".join(parts) + self.source[at:]


def politely(text):
    """The text of a function that asks for identifiers, with as many PLEASE as make a fourth of its statements."""
    asked = []
    plain = ick_source.cut(text(lambda: asked.append(b"DO") or b"DO"))
    added, wanted = len(asked), len(plain) // 4 - sum(statement.polite for statement in plain)
    numbers = itertools.count(1)
    return text(lambda: b"PLEASE" if next(numbers) * wanted % added < wanted else b"DO")


def rewritten(source, wanted, tell):
    """The source without the statements that the options wanted name. Raises Unconvertible."""
    rewriting = Rewriting(source, wanted, tell)
    if not any(ick_foreign.needed(part.form) for part in rewriting.parts):
        return source
    rewriting.rewrite()
    return politely(rewriting.text)
