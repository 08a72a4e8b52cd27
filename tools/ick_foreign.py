"""Reads statements as C-INTERCAL does: COME FROM, ONCE and AGAIN, ABSTAIN with a count, TRY AGAIN, and its gerunds."""
import itertools
import re
from typing import NamedTuple, Optional

import ick_source
from ick_source import SPACES

W = rb"[\t-\r ]*"
WHITE = re.compile(W)
LABEL = re.compile(rb"\(" + W + rb"([0-9]+)" + W + rb"\)")
FROM, PLUS = re.compile(rb"FROM"), re.compile(rb"\+")
SUFFIX = re.compile(rb"ONCE|AGAIN")
LAST_SUFFIX = re.compile(rb"[\t-\r ]+(ONCE|AGAIN)[\t-\r ]*\Z")
WORD = re.compile(rb"[A-Z]+|[.:#][\t-\r ]*[0-9]+|[^\t-\r ]")
KEYWORDS = {b"FROM", b"NEXT", b"BY", b"SUB", b"WHILE", b"MAYBE", b"REINSTATE"}
COME_FROM, TRY_AGAIN = (re.compile(words.replace(b" ", W)) for words in (b"COME FROM", b"TRY AGAIN"))
VERB = re.compile(rb"ABSTAIN" + W + rb"FROM|REINSTATE|ABSTAIN")
COUNTING = re.compile(COME_FROM.pattern + rb"|ABSTAIN(?!" + W + rb"FROM)")  # a verb with an expression behind it
# the kind of the statements that a gerund names; the last ones are C-INTERCAL's
GERUNDS = {"CALCULATING": "CALCULATE", "NEXTING": "NEXT", "FORGETTING": "FORGET", "RESUMING": "RESUME", "STASHING": "STASH",
           "RETRIEVING": "RETRIEVE", "IGNORING": "IGNORE", "REMEMBERING": "REMEMBER", "ABSTAINING": "ABSTAIN",
           "REINSTATING": "REINSTATE", "WRITING IN": "WRITE-IN", "READING OUT": "READ-OUT", "COMING FROM": "COME-FROM",
           "TRYING AGAIN": "TRY-AGAIN", "COMMENTING": "UNRECOGNISED", "COMMENTS": "UNRECOGNISED", "COMMENT": "UNRECOGNISED"}
KINDS = {gerund.replace(" ", ""): kind for gerund, kind in GERUNDS.items()}
GERUND = re.compile("|".join(GERUNDS).replace(" ", W.decode()).encode())
ABSTAIN, REINSTATE = b"ABSTAIN FROM", b"REINSTATE"
# the options of ick-convert by which statements of C-INTERCAL's kinds, or gerunds of them, are rewritten
OPTIONS = {"COME-FROM": "--come-from", "TRY-AGAIN": "--again", "UNRECOGNISED": "--abstain"}
OWN_KINDS = set(OPTIONS)
ALL = {"--come-from", "--once", "--abstain", "--again"}


class Form(NamedTuple):
    """A body as C-INTERCAL reads it. Its places are those of the source.

    end is where the body ends without its suffix, ONCE or AGAIN, and after is where the statement ends. A COME FROM has
    a label or an expression, and an ABSTAIN or REINSTATE has a label or kinds. Labels are pairs of a value and a place,
    and an expression, which is also the count of an ABSTAIN, is its text.
    """

    kind: str
    end: int
    after: int
    suffix: bytes = b""
    verb: bytes = b""
    label: Optional[tuple] = None
    kinds: Optional[list] = None
    expression: Optional[bytes] = None


class Reading:
    """Reads a body as C-INTERCAL does. The text of its statement ends where the next head begins."""

    def __init__(self, source, statement, end):
        self.source, self.statement, self.end = source, statement, end

    def form(self):
        """The form of the body, or None if C-INTERCAL can't read it either, as far as these statements go."""
        for reading in (self.come_from, self.try_again, self.abstention, self.native):
            try:
                kind, at, found = reading()
            except Unread:
                continue
            suffix = self.found(SUFFIX, at)
            after = suffix.end() if suffix else at
            rest = self.source[after:self.end].strip(SPACES)
            if not rest or LABEL.fullmatch(rest):
                return Form(kind, at, after, suffix[0] if suffix else b"", **found)
        return None

    def found(self, pattern, at):
        """What a pattern finds behind white bytes, or None."""
        return pattern.match(self.source, WHITE.match(self.source, at, self.end).end(), self.end)

    def match(self, pattern, at):
        found = self.found(pattern, at)
        if not found:
            raise Unread
        return found

    def come_from(self):
        verb = self.match(COME_FROM, self.statement.body)
        label = self.found(LABEL, verb.end())
        if label:
            return "COME-FROM", label.end(), {"label": self.labelled(label)}
        return "COME-FROM", *self.expression(verb.end())

    def expression(self, at):
        """The end of the expression behind a verb, and the expression."""
        one = ick_source.cut(counted(self.source, self.statement, self.end))[0]
        end = self.statement.start + end_of(one)
        return end, {"expression": self.source[WHITE.match(self.source, at).end():end]}

    @staticmethod
    def labelled(found):
        return ick_source.value(found[1], 0), found.start(1)

    def try_again(self):
        return "TRY-AGAIN", self.match(TRY_AGAIN, self.statement.body).end(), {}

    def abstention(self):
        verb = self.match(VERB, self.statement.body)
        kind = "REINSTATE" if verb[0] == REINSTATE else "ABSTAIN"
        at, found = verb.end(), {"verb": REINSTATE if verb[0] == REINSTATE else ABSTAIN}
        if verb[0] == b"ABSTAIN":
            at, count = self.expression(at)
            at = self.match(FROM, at).end()
            found.update(count)
        label = self.found(LABEL, at)
        if label:
            return kind, label.end(), {**found, "label": self.labelled(label)}
        gerund = self.match(GERUND, at)
        gerunds = [gerund]
        while plus := self.found(PLUS, gerund.end()):
            gerund = self.match(GERUND, plus.end())
            gerunds.append(gerund)
        return kind, gerund.end(), {**found, "kinds": [KINDS[b"".join(one[0].split()).decode()] for one in gerunds]}

    def native(self):
        """A body of this language, perhaps in front of a suffix."""
        one, end = self.statement, end_of(self.statement)
        if not one.read() and not self.found(SUFFIX, end):
            raise Unread
        return one.kind if one.read() else ick_source.cut(self.source[one.start:end])[0].kind, end, {}


class Unread(Exception):
    """C-INTERCAL can't read a body so."""


def counted(source, statement, end):
    """A statement with FORGET for the verb of a COME FROM or an ABSTAIN, so that ick-stages reads the expression. All places
    stay.
    """
    verb = COUNTING.match(source, statement.body)
    text = source[statement.start:end]
    if verb:
        start, behind = verb.start() - statement.start, verb.end() - statement.start
        text = text[:start] + b"FORGET".ljust(behind - start) + text[behind:]
    return text


def end_of(one):
    """Where the body of a statement ends that is whole, whatever follows it."""
    if not one.read() and one.expected != ick_source.END:
        raise Unread
    return one.start + len(one.source[one.start:one.end if one.read() else one.stop].rstrip(SPACES))


class Part:
    """A statement of the source: its form, its places, the label that ABSTAIN names for it, its count, and what it becomes.

    new_label is the label that it gets in front. lines are the statements in its place, or None if it stays. behind, after
    and last follow it, in this order.
    """

    def __init__(self, source, statement, form, start, label):
        self.statement, self.form, self.kind, self.start, self.label = statement, form, form.kind, start, label
        self.end = max(statement.end, form.after)
        self.new_label, self.state, self.count, self.place = None, None, None, None
        self.lines, self.behind, self.after, self.last = None, [], [], []
        self.body = source[statement.body:form.end]

    def chance(self):
        return b" %%%d" % self.statement.chance if self.statement.chance < 100 else b""

    def qualifiers(self):
        return b" NOT" * self.statement.abstained + self.chance()

    def abstains_itself(self):
        """Whether its suffix lets it abstain from itself, and not reinstate itself."""
        return (self.form.suffix == b"ONCE") != self.statement.abstained


def parts_of(source, wanted):
    """The statements of a source with their forms. Only the wanted options let a form of C-INTERCAL be read."""
    statements, parts, taken = ick_source.cut(source), [], 0
    for statement, following in itertools.zip_longest(statements, statements[1:]):
        end = end_of_text(source, following)
        # a label that ends the statement in front isn't this one's
        start, label = (statement.identifier.start, None) if statement.start < taken else (statement.start, statement.label)
        parts.append(Part(source, statement, form_of(source, statement, end, wanted), start, label))
        taken = parts[-1].end
    return parts


def end_of_text(source, following):
    """Where the text ends in which C-INTERCAL may find a statement: behind the label of the statement that follows."""
    if following is None:
        return len(source)
    return following.head["label"].end if following.label is not None else following.start


def form_of(source, statement, end, wanted):
    """The form of a statement, whose text with a label that may end it goes up to `end`."""
    plain, suffix = Form(statement.kind, statement.end, statement.end), None
    if not statement.read() or statement.kind in ("ABSTAIN", "REINSTATE"):
        form = Reading(source, statement, end).form()
        if form:
            return form if needed(form) <= wanted else plain
    if not statement.read() and "--once" in wanted:
        suffix = LAST_SUFFIX.search(source, statement.body, statement.end)
    if suffix and is_unknown(source[statement.body:suffix.start()]):
        return plain._replace(end=suffix.start(), after=suffix.end(1), suffix=suffix[1])
    return plain


def is_unknown(body):
    """Whether a body is words and variables without a keyword. C-INTERCAL reads a suffix behind it, and behind no other."""
    return all(word[:1] in b".:#" and len(word) > 1 or word.isalpha() and word not in KEYWORDS for word in WORD.findall(body))


def needed(form):
    """The options that let a form be rewritten."""
    kinds = {form.kind} if form.kind != "UNRECOGNISED" else set()
    found = {OPTIONS[kind] for kind in (kinds | set(form.kinds or ())) & OWN_KINDS}
    if form.suffix:
        found.add("--once")
    if form.verb and form.expression:
        found.add("--abstain")
    return found
