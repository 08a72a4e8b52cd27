"""The states of a program, as `ick-outcomes --states` prints them: a graph, and the part of it that a drawing shows."""
import collections
import fractions
import heapq
import re

import ick_tool
from ick_listing import QUOTED, WEIGHT, quoted, unquoted
from ick_numerals import pieces

STATE = re.compile(rb"(state|end|never) ([0-9]+) (?:(" + WEIGHT + rb") )?([0-9]+(?::[0-9]+)?|GIVE-UP|E[0-9]{3}@[0-9]+) "
                   + QUOTED)
EDGE = re.compile(rb"edge ([0-9]+) ([01-]) ([0-9]+) ([0-9]+) ([0-9]+)")
WORK = 5_000_000  # edges that are followed at most to find out which states are the heaviest
ROUNDS = 1000
LONGEST = 15  # characters of a weight that are shown


FAULT = re.compile(r"E([0-9]{3})@([0-9]+)")


def fields_of(line):
    """The fields of a line as JSON has them, and the output of a state or None; or None for any other line."""
    if found := EDGE.fullmatch(line):
        at, choice, to, chance, steps = found.groups()
        return {"from": int(at), "choice": None if choice == b"-" else int(choice), "to": int(to), "chance": int(chance),
                "steps": int(steps)}, None
    found = STATE.fullmatch(line)
    if found is None or (found[1] == b"state") != (found[3] is None):
        return None
    kind, number, weight, asks, text = found.groups()
    fields = {"state": int(number), "kind": kind.decode(), "weight": weight and weight.decode()}
    asks, fault = asks.decode(), FAULT.fullmatch(asks.decode())
    if (kind == b"end") != (fault is not None or asks == "GIVE-UP"):
        return None
    if fault:
        fields.update({"end": "FAULT", "fault": int(fault[1]), "statement": int(fault[2])})
    elif kind == b"end":
        fields["end"] = asks
    else:
        statement, _, chance = asks.partition(":")
        fields.update({"asks": int(statement), "chance": int(chance) if chance else None, "end": None})
    return fields, unquoted(text)


def line_of(fields, output):
    """The line of these fields, and of an output for a state."""
    if "from" in fields:
        choice = "-" if fields["choice"] is None else fields["choice"]
        return f"edge {fields['from']} {choice} {fields['to']} {fields['chance']} {fields['steps']}".encode()
    weight = f" {fields['weight']}" if fields["weight"] is not None else ""
    if fields["end"] is None:
        asks = f"{fields['asks']}" + (f":{fields['chance']}" if fields["chance"] is not None else "")
    else:
        asks = f"E{fields['fault']:03}@{fields['statement']}" if fields["end"] == "FAULT" else fields["end"]
    return f"{fields['kind']} {fields['state']}{weight} {asks} ".encode() + quoted(output)


class State:
    """A state: its kind, what it asks or how it ends, the output before it, its weight or None, and its edges.

    An edge has its choice, `-` if there is none, the state to which it leads, and its chance in hundredths. `visits` is
    about how often a run comes to the state. It is a floating-point number, and decides only what is drawn.
    """
    __slots__ = "kind", "asks", "output", "weight", "edges", "visits"

    def __init__(self, kind, asks, output, weight):
        self.kind, self.asks, self.output, self.weight, self.edges, self.visits = kind, asks, output, weight, [], 0.0


def exact(weight):
    """The weight as a fraction, or None if digits of it are left out."""
    return None if weight.endswith("..") else fractions.Fraction(weight)


def read(file):
    """The states of a text, in their order."""
    states = []
    for number, line in enumerate(file, 1):
        line = line.rstrip(b"\n")
        if line == b"DONE":
            break
        if found := STATE.fullmatch(line):
            kind, at, weight, asks, text = found.groups()
            if int(at) == len(states) and (kind == b"state") == (weight is None):
                states.append(State(kind.decode(), asks.decode(), unquoted(text), weight and weight.decode()))
                continue
        elif found := EDGE.fullmatch(line):
            at, choice, to, chance, _ = found.groups()
            if int(at) == len(states) - 1 and int(chance) <= 100:
                states[-1].edges.append((choice.decode(), int(to), int(chance)))
                continue
        ick_tool.end(f"line {number} is no line of `ick-outcomes --states`", 1)
    else:
        ick_tool.end("the states have no last line DONE", 1)
    if any(to >= len(states) for state in states for _, to, _ in state.edges):
        ick_tool.end("an edge leads to no state", 1)
    return states


def with_joined_ends(states):
    """The states with one end for each outcome, which has the weight of all its ends.

    Returns for each state the number of the one that stands for it, and the exact weights of the ends, or None of an end
    with digits that are left out.
    """
    first, stands, weights = {}, list(range(len(states))), {}
    for number, state in enumerate(states):
        if state.kind != "end":
            continue
        stands[number] = at = first.setdefault((state.asks, state.output), number)
        more = exact(state.weight)
        if at == number:
            weights[at] = more
        else:
            states[at].visits += share(state.weight)
            weights[at] = None if more is None or weights[at] is None else weights[at] + more
    for state in states:
        state.edges = [(choice, stands[to], chance) for choice, to, chance in state.edges]
    return stands, weights


def share(weight):
    return float(fractions.Fraction(weight.rstrip("."))) if weight else 0.0


def count_visits(states):
    """Finds about how often a run comes to each state, as far as the work allows."""
    edges = sum(len(state.edges) for state in states)
    coming = {0: 1.0} if states else {}
    for _ in range(max(20, min(ROUNDS, WORK // (edges + 1)))):
        going = collections.defaultdict(float)
        for at, more in coming.items():
            states[at].visits += more
            for _, to, chance in states[at].edges:
                if states[at].kind == "state":
                    going[to] += more * chance / 100
        coming = {at: more for at, more in going.items() if more > 1e-12}
        if not coming:
            break


def heaviest(states, most):
    """The numbers of the states that are drawn: of all that an edge leads to, always the heaviest, at most so many."""
    drawn, waiting, met = [], [(0.0, 0)], {0}
    while waiting and len(drawn) < most:
        _, at = heapq.heappop(waiting)
        drawn.append(at)
        for _, to, _ in states[at].edges:
            if to not in met:
                met.add(to)
                heapq.heappush(waiting, (-states[to].visits, to))
    return sorted(drawn)


def weight_text(weight, visits):
    """A weight as a decimal fraction or in lowest terms, if it is short, and in percent."""
    percent = f"{100 * visits:.3g} %"
    if weight is None:
        return f"about {percent}"
    rest, places = weight.denominator, 0
    while rest % 10 == 0 or rest % 2 == 0 or rest % 5 == 0:
        rest, places = (rest // 10 if rest % 10 == 0 else rest // 2 if rest % 2 == 0 else rest // 5), places + 1
    text = str(weight)
    if rest == 1 and places:
        text = f"0.{weight.numerator * 10 ** places // weight.denominator:0{places}d}"
    return f"{text} = {percent}" if len(text) <= LONGEST else percent


class Drawing:
    """The part of the states that is drawn, with labels, heads and looks as for trees of runs."""

    def __init__(self, states, labels, most, looks):
        self.states, self.labels, self.looks = states, labels, looks
        self.stands, self.weights = with_joined_ends(states)
        count_visits(states)
        self.drawn = heaviest(states, most)
        self.before = self.outputs_before()

    def outputs_before(self):
        """How many bytes of each output were written before, in each state that leads to it."""
        before = {}
        for state in self.states:
            for _, to, _ in state.edges:
                before[to] = min(before.get(to, len(state.output)), len(state.output))
        return before

    def label(self, at):
        state = self.states[at]
        since = state.output if state.kind == "end" else state.output[self.before.get(at, 0):]
        lines = [f'<FONT FACE="Courier">{line or " "}</FONT>' for line in self.labels.text(pieces(since))]
        asks = f"<B>{state.asks.replace(':', ' %')}</B>"
        if state.kind == "end":
            weight = self.weights[at]
            asks += f"  {weight_text(weight, share(state.weight) if weight is None else float(weight))}"
        elif state.kind == "never":
            weight = exact(state.weight)
            asks += "  never ends" if weight == 0 else f"  never ends, {weight_text(weight, share(state.weight))}"
        return "<BR/>".join(lines + [asks])

    def look(self, at):
        state = self.states[at]
        if state.kind == "end":
            return self.looks.get(state.asks, self.looks["fault"])
        return self.looks["LIMIT" if state.kind == "never" else "branch"]

    def edges(self, at):
        """The edges of a state in dot's language: one if both choices lead to the same state."""
        joined = collections.defaultdict(list)
        for choice, to, chance in self.states[at].edges:
            joined[to if to in self.drawn else None].append((choice, chance))
        for to, choices in joined.items():
            names, chance = " ".join(choice for choice, _ in choices), sum(chance for _, chance in choices)
            label = "" if names == "-" else f' label=" {names}  {chance} %"'
            style = "style=dashed" if names == "0" else "penwidth=1.6"
            if to is None:
                yield f'  n{at}_rest [{self.looks["rest"]} label=".."]'
            yield f"  n{at} -> {f'n{at}_rest' if to is None else f'n{to}'} [{style}{label}]"

    def dot(self, head):
        all_states = len(set(self.stands))
        said = "" if len(self.drawn) == all_states else f'  label="the {len(self.drawn)} heaviest of {all_states:,} states"'
        limits = "  graph [nslimit=1 nslimit1=1]"  # Graphviz may take minutes otherwise if many edges lead to one state
        out = [line for at in self.drawn
               for line in [f"  n{at} [{self.look(at)} label=<{self.label(at)}>]", *self.edges(at)]]
        return "\n".join(["digraph states {", *head, limits, *([said] if said else []), *out, "}", ""])
