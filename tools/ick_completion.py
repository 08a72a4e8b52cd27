"""What an editor offers at a place of a program: words, gerunds, labels, routines of the library, and variables."""
import bisect
import itertools
import re

import ick_explained
import ick_hover
import ick_pieces
import ick_source

FUNCTION, VARIABLE, KEYWORD = 3, 6, 14
MOST = 400  # items of an answer. A client asks again when more is typed
STARTS = ("DO", "PLEASE", "PLEASE DO")
WORD = re.compile(rb"[A-Z]*\Z")
NAMED = re.compile(rb"([.:,;!])[\t-\r &V?]*([0-9]+)")
A_WORD = re.compile("<-|[A-Z]+")


def completions(document, at):
    """What can be written at a place, as a list of the protocol."""
    index = bisect.bisect_right(document.statements, at, key=lambda one: one.start) - 1
    if index < 0:
        start = WORD.search(document.source, 0, at).start()
        wanted = ick_pieces.Wanted(ick_pieces.START, start, document.source[start:at])
    else:
        wanted = ick_pieces.wanted(document.source, document.statements[index], at)
    if wanted is None:
        return {"isIncomplete": False, "items": []}
    typed, place = squeezed(wanted.typed.decode("latin-1")), document.range(wanted.start, at)
    known = document.source[wanted.start:at].decode("utf-8", "replace")
    fitting = ((text, kind, detail) for text, kind, detail in offered(document, wanted.expected)
               if squeezed(text).startswith(typed) and squeezed(text) != typed)
    items = [{"label": text, "kind": kind, "filterText": known or text, "textEdit": {"range": place, "newText": text},
              **({"detail": detail} if detail else {})} for text, kind, detail in itertools.islice(fitting, MOST)]
    return {"isIncomplete": len(items) == MOST, "items": items}


def squeezed(text):
    return "".join(text.split())


def offered(document, expected):
    """Everything that can stand where something is expected: its text, its kind and what it does."""
    if expected in (ick_pieces.START, ick_source.END):
        return [(word, KEYWORD, None) for word in STARTS]
    if A_WORD.fullmatch(expected):
        return [(expected, KEYWORD, ick_explained.OPERATORS.get(expected, (None,))[0])]
    if expected in ick_source.CLOSING:
        return [(ick_source.CLOSING[expected], KEYWORD, None)]
    found = []
    if expected == ick_source.BODY:
        found += [(word, KEYWORD, ick_hover.KINDS[kind][0]) for word, kind in ick_explained.BODIES.items()]
        found += [("NOT", KEYWORD, "keeps the statement from being done until a REINSTATE"), *called(document)]
    if expected == ick_source.GERUND:
        found += [(word, KEYWORD, f"each {kind}") for kind, word in ick_explained.GERUNDS.items()]
        found += [(f"({label})", FUNCTION, document.shown(one)) for label, one in document.program.labelled.items()]
    if "a variable" in expected:
        found += [(name, VARIABLE, ick_explained.VARIABLES[name[0]]) for name in variables(document)]
    return found


def called(document):
    """The calls of the program's labels, and of the library's routines with what they take and give."""
    own = document.program.labelled
    yield from ((f"({label}) NEXT", FUNCTION, document.shown(one)) for label, one in own.items()
                if label not in ick_hover.routines())
    yield from ((f"({label}) NEXT", FUNCTION, ick_hover.routine(label)) for label in ick_hover.routines())


def variables(document):
    """The variables that recognised statements name, those with small numbers first."""
    found = {(mark.replace(b"!", b".").decode(), int(number[:9]))
             for one in document.statements if one.read() for mark, number in NAMED.findall(one.text())}
    return [f"{mark}{number}" for mark, number in sorted(found, key=lambda it: (it[1], ".:,;".index(it[0])))]
