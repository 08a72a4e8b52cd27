"""What an editor shows of the place under the pointer: a message's number, a variable, a label, an operator, a statement."""
import collections
import re
import subprocess

import ick_explained
import ick_library
import ick_pieces
import ick_source
import ick_tool
from ick_faults import FAULTS

MESSAGE = re.compile(rb"(?:ICL|E)(\d{3})I?")
SHOWN = 8  # lines of a list
SHOWN_INSTRUCTIONS = 24  # of a statement
STAGES_SECONDS = 1
TO_LABELS = {"NEXT": "NEXT goes there", "ABSTAIN": "ABSTAIN FROM it", "REINSTATE": "REINSTATE"}

# what a statement does, and the faults that it can have
KINDS = {
    "CALCULATE": ("stores a value in a variable or an element, or gives an array its dimensions", (240, 241, 275, 533)),
    "NEXT": ("goes to a label, and keeps the way back on the NEXT stack", (123,)),
    "FORGET": ("drops entries of the NEXT stack", (241, 533)),
    "RESUME": ("goes back by entries of the NEXT stack", (241, 533, 621, 632)),
    "STASH": ("keeps values aside", ()),
    "RETRIEVE": ("brings back values that a STASH kept", (436,)),
    "IGNORE": ("lets variables keep their values, whatever is stored", ()),
    "REMEMBER": ("lets variables change again", ()),
    "ABSTAIN": ("keeps statements from being done", ()),
    "REINSTATE": ("lets statements be done again", ()),
    "GIVE-UP": ("ends the run", ()),
    "WRITE-IN": ("reads a line of digit names, or for a whole tail bytes", (241, 275, 533, 562, 579)),
    "READ-OUT": ("writes numerals, or for a whole tail bytes", (241,)),
    "UNRECOGNISED": ("can't be read", (0,)),
}
ROUTINES = {}


def routines():
    """What each routine of the library gives, by its label, from the table of the library's README."""
    if not ROUTINES:
        path = ick_library.path("README.md")
        rows = re.findall(rb"^\| \((\d+)\) \| (.*?) \| (.*?) \|", ick_tool.content(path) if path else b"", re.MULTILINE)
        ROUTINES.update({int(label): (gives.decode(), stops.decode()) for label, gives, stops in rows})
    return ROUTINES


def routine(label):
    """What a routine takes and gives, and when it ends the program."""
    gives, stops = routines()[label]
    return f"{gives}." + (f" It ends the program if the result is {stops}." if stops else "")


def hover(document, at):
    """What is to be said of a place, and the start and the end of what it is said of, or None."""
    line = document.lines[document.line(at) - 1]
    for found in MESSAGE.finditer(document.source, line, document.line_end(line)):
        if found.start() <= at <= found.end() and int(found[1]) in FAULTS:
            return explained(int(found[1])), *found.span()
    one = document.statement_at(at)
    if one is None:
        return None
    named = document.named_at(at)
    found = None if named and at < named.end else piece(document, one, at)
    if named and not found:
        return (label if hasattr(named, "label") else variable)(document, named), named.start, named.end
    return found or ("\n\n".join([statement(one), *stages(document.source, one)]), one.start, one.end)


def explained(number):
    meant, _, _, todo = FAULTS[number]
    return f"**E{number:03}**: {meant} {todo}"


def lines(document, places):
    """The lines of places, without those that are too many."""
    found = list(dict.fromkeys(map(document.line, places)))
    more = f" and {len(found) - SHOWN} more" if len(found) > SHOWN else ""
    return f"line{'s' * (len(found) > 1)} {', '.join(map(str, found[:SHOWN]))}{more}"


def variable(document, named):
    """What is done with a variable, and in which lines."""
    uses = collections.defaultdict(list)
    for one in document.names_of(named.name):
        uses[one.use].append(one.start)
    text = [f"**{named.name}** is {ick_explained.VARIABLES[named.name[0]]}."]
    return "\n".join([*text, "", *(f"- {use} in {lines(document, places)}" for use, places in uses.items())])


def label(document, named):
    """Which statement has a label, and who goes there, abstains from it or reinstates it."""
    own, text = document.program.labelled.get(named.label), [f"**({named.label})**"]
    text[0] += (f" is the label of statement {own.number}, line {document.line(own.start)}." if own else
                " is no label of this program.")
    if named.label in routines():
        text += ["", f"({named.label}): {routine(named.label)}"]
    users = [one for one in document.statements if any(value == named.label for value, _ in one.labels)]
    by_kind = [(kind, [one.start for one in users if one.kind == kind]) for kind in TO_LABELS]
    told = [f"- {TO_LABELS[kind]} in {lines(document, places)}" for kind, places in by_kind if places]
    return "\n".join([*text, "", *(told or ["No statement names it."])])


def piece(document, one, at):
    """What an operator, a mesh, a group or a gerund at a place means, or None."""
    found = [it for it in ick_pieces.pieces(one) if it.start <= at < it.end]
    for kind, start, end in found[-1:]:
        text = "".join(document.source[start:end].decode("latin-1").split())
        if kind == "operator" and text in ick_explained.OPERATORS:
            return ick_explained.operator(text), start, end
        if kind == "mesh":
            return ick_explained.mesh(text), start, end
        if kind == "group":
            return ick_explained.GROUP, start, end
        if kind == "gerund":
            return gerund(document, text), start, end
    return None


def gerund(document, text):
    kind = next(kind for kind, name in ick_explained.GERUNDS.items() if name.replace(" ", "") == text)
    places = [one.start for one in document.statements if one.kind == kind]
    return f"**{ick_explained.GERUNDS[kind]}** means each `{kind}`: " + (lines(document, places) if places else "none") + "."


def stages(source, one):
    """How many operations a statement has, and its instructions, as ick-stages shows them. Nothing is said if it refuses
    the program.
    """
    words = [ick_source.program(), "--operations", "--instructions", "--statement", str(one.number)]
    try:
        asked = subprocess.run(words, input=source, capture_output=True, timeout=STAGES_SECONDS, check=False)
    except (OSError, subprocess.TimeoutExpired):
        return
    if asked.returncode:
        return
    lines_of = asked.stdout.decode("latin-1").split("\n")
    shown = [line.partition(": ")[2] for line in lines_of if line.startswith("  instruction ")]
    count = sum(line.startswith("  operation ") for line in lines_of)
    if count and len(shown) <= SHOWN_INSTRUCTIONS:
        yield (f"{count} operation{'s' * (count > 1)} → {len(shown)} instruction{'s' * (len(shown) != 1)}"
               + "".join(f"\n- `{line}`" for line in shown))


def statement(one):
    """What a statement is, what it does, and its faults. Each part is a paragraph."""
    does, faults = KINDS[one.kind]
    text = [f"**Statement {one.number}**" + (f", label ({one.label})" if one.label is not None else "")
            + f": `{one.kind}` {does}."]
    if one.abstained:
        text.append("It is abstained from, so it isn't done until a REINSTATE.")
    if one.chance < 100:
        text.append(f"Its chance is {one.chance}%: each time a run meets it, it asks for a choice."
                    if one.chance else "Its chance is 0%, so it is never done.")
    text += [f"({value}): {routine(value)}" for value, _ in one.labels if value in routines()]
    text += [explained(number) for number in faults if one.may_be_done() or one.kind == "UNRECOGNISED"]
    return "\n\n".join(text)
