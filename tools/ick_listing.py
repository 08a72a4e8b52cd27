"""The lines that `ick runs`, `ick list`, `ick-outcomes` and `ick-stages` print, and texts in quotes."""
import re

PLAIN = rb"[ !#-\[\]-~]*"
QUOTED = rb'"(' + PLAIN + rb'(?:\\(?:n|\\|"|x[0-9a-f]{2})' + PLAIN + rb')*)"'
CHOICES = rb"(-|[01]+|[01]\*[1-9][0-9]*(?:,[01]\*[1-9][0-9]*)*)"
FAULT = rb"E([0-9]{3})@([0-9]+)"
WEIGHT = rb"[0-9]+(?:/[1-9][0-9]*|(?:\.[0-9]+)?(?:\.\.)?)"
WEIGHED = rb"(\*|[1-9][0-9]*) (" + WEIGHT + rb") "
RUN = re.compile(CHOICES + rb" (GIVE-UP|LIMIT|" + FAULT + rb") " + QUOTED)
OUTCOME = re.compile(WEIGHED + CHOICES + rb" (GIVE-UP|LIMIT|NEVER|" + FAULT + rb")(?: " + QUOTED + rb")?")
PARTS = rb"(\([0-9]+\)|-) (PLEASE|DO) (NOT|-) ([0-9]+) ([A-Z-]+) " + QUOTED
STATEMENT = re.compile(rb"([0-9]+) " + PARTS)
# The lines of ick-stages: a statement with its line and column, and its stages.
PLACED = re.compile(rb"([0-9]+) ([0-9]+):([0-9]+) " + PARTS)
STAGES = {name: re.compile(rb"  " + name.encode() + rb" " + fields) for name, fields in {
    "tree": rb"([ -~]+)",
    "operation": rb"([0-9]+) ([0-9]+) ([A-Z][A-Za-z]*)(?: ([ -~]+))?",
    "head": rb"([0-9]+)-([0-9]+) ([a-z]+)",
    "part": rb"([0-9]+) ([0-9]+)-([0-9]+)(?: ([a-z]+))?",
    "mark": rb"([0-9]+)-([0-9]+) ([a-z]+)",
    "stops": rb"([0-9]+) ([ -~]+)",
    "rule": rb"([0-9]+) ([a-z0-9~+-]+)(?:: ([ -~]+?))?(?: -> ([ -~]+))?",
    "dropped": rb"([0-9]+) ([ -~]+)",
    "instruction": rb"([0-9]+)(?: by ([0-9]+(?: [0-9]+)*))?: ([ -~]+)",
    "trace": rb"([0-9]+) ([0-9]+)(?: pending ([0-9]+(?: [0-9]+)*))?: ([ -~]+)",
}.items()}
# The lines of `ick-stages --parts`: the parts of heads and of bodies, where reading stops, and the refusals.
HEAD = re.compile(rb"^  head ([0-9]+)-([0-9]+) ([a-z]+)$", re.MULTILINE)
MARK = re.compile(rb"^  (?:mark|part [0-9]+) ([0-9]+)-([0-9]+) ([a-z]+)$", re.MULTILINE)
STOP = re.compile(rb"^  stops ([0-9]+) ([ -~]+)$", re.MULTILINE)
REFUSAL = re.compile(rb"^refused ([0-9]+) ([0-9]+) ([0-9]+)-([0-9]+)$", re.MULTILINE)
TEXT = re.compile(QUOTED)
ENDS = (b"DONE", b"MORE")
REFUSED = re.compile(rb"REFUSED ([0-9]+) ([0-9]+)")  # the last line of the stages of a refused program
NAMED = {b"n": b"\n", b"\\": b"\\", b'"': b'"'}
QUOTES = {byte: b"\\x%02x" % byte for byte in range(256) if not 32 <= byte <= 126}
QUOTES.update({10: b"\\n", 34: b'\\"', 92: b"\\\\"})


def unquoted(text):
    """The bytes that stand between quotes, as they were."""
    if text.count(b"\\") == text.count(b"\\n"):
        return text.replace(b"\\n", b"\n")
    return re.sub(rb'\\(n|\\|"|x[0-9a-f]{2})', lambda code: NAMED.get(code[1]) or bytes([int(code[1][1:], 16)]), text)


def quoted(text):
    """The bytes in quotes, as ick prints them."""
    return b'"' + b"".join(QUOTES.get(byte) or bytes([byte]) for byte in text) + b'"'


def choices_of(text, most):
    """The first choices that a cursor's text stands for, as a text of 0 and 1, at most so many."""
    if text == b"-":
        return b""
    if b"*" not in text:
        return text[:most]
    found = b""
    for group in text.split(b","):
        found += group[:1] * min(int(group[2:]), most - len(found))
    return found
