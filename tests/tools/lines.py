"""Tries the lines of `ick-stages --parts`, on which the tools rest: for mutated programs the statements and refusals against
ick, and the places against the text.
"""
import glob
import os
import random
import re
import sys

from advice import PEER
from common import EXAMPLES, LIBRARY, TOOLS, called, content

import ick_listing
import ick_source
import lsp

TEXTS = 2000
W = r"[\t-\r ]*"
PIECES = (".1 <- .2 ~ #3", ".1<-'#1$!2'~#3", ',1 <- #2 BY "#3"', ",1SUB'#1''#2' <- ,1SUB,2SUB#1#2", "READ OUT .1 + #2 + ,1",
          "READOUT ,1SUB#1", "WRITE IN .1 + :2", "STASH .1+,2", "FORGET #1", "RESUME '?.1$#1'~#3", "GIVE UP", "GIVEUP",
          "ABSTAIN FROM CALCULATING + READING OUT", "REINSTATE WRITING IN", "IGNORE ;1", ".1<-\"'#1$#2'$\"#3~#4\"\"",
          "REMEMBER .1", "RETRIEVE :3")
SCRAPS = ("DO", "PLEASE", "NOT", "N'T", "%50", "%101", "% 7", "(1)", "(70000)", "NEXT", "ABSTAIN FROM", "READ OUT", "READOUT",
          "<-", "+", "BY", ".1", ",1", ";1", "SUB", "#1", "#70000", ".0", "'", '"', "!1", "&", "V", "~", "$", "\n", "\t",
          "\x0b", "\x80", "\\", "do", "NOTE", "COME FROM", "1 2")
# How the bytes of a part look.
NUMBER, UNARY = rf"{W}[0-9]+", rf"{W}[&V?]?"
LOOKS = {name: re.compile(look.encode(), re.DOTALL) for name, look in {
    "label": rf"\({NUMBER}{W}\)", "identifier": rf"PLEASE{W}DO|PLEASE|DO", "not": "NOT|N'T",
    "chance": f"%{NUMBER}", "body": ".*", "name": f"[.:,;!]{NUMBER}", "listed": f"[.:,;!]{NUMBER}", "variable": f"[.:!]{UNARY}{NUMBER}",
    "mesh": f"#{UNARY}{NUMBER}", "operator": r"[~$&V?]", "group": "['\"!].*['\"]", "element": f"[,;]{NUMBER}{W}SUB.*",
    "unary": rf"[.:#'\"!]{W}[&V?].*", "binary": r"[.:,;#'\"!].*[~$].*", "action": ".+",
    "gerund": rf"[A-Z]+ING({W}(IN|OUT))?"}.items()}
# What stands between the parts of a body.
WORDS = re.compile(rf"(<-|\+|SUB|BY|NEXT|FORGET|RESUME|STASH|RETRIEVE|IGNORE|REMEMBER|ABSTAIN{W}FROM|REINSTATE|GIVE{W}UP"
                   rf"|WRITE{W}IN|READ{W}OUT|[\t-\r ])*".encode())
LEAVES = {"label", "name", "listed", "variable", "mesh", "operator", "gerund"}
OPERATIONS = {"variable", "mesh", "element", "unary", "binary", "listed", "gerund", "action"}


def random_text(chance):
    """Statements, most of them sound, with scraps between them and single bytes changed."""
    words = []
    for place in range(chance.randint(1, 12)):
        if chance.random() < 0.3:
            words.append(f"({10 * place + chance.randint(1, 9)})")
        words.append(chance.choice(("DO", "DO", "DO", "PLEASE", "PLEASE DO")))
        if chance.random() < 0.2:
            words.append(chance.choice(("NOT", "N'T", "%30", "%0 NOT")))
        if chance.random() < 0.7:
            words.append(chance.choice(PIECES))
        else:
            words += [chance.choice(SCRAPS) for _ in range(chance.randint(0, 7))]
    text = "".join(word + chance.choice(("", " ", "\n")) for word in words)
    if chance.random() < 0.2:
        place = chance.randrange(len(text))
        text = text[:place] + chance.choice("'\"!~$.,;:#(%)\n 1D") + text[place:]
    return text.encode("latin-1")


def mutated(chance, sources):
    """A stretch of a program with a few bytes taken away, doubled, or changed for those of another place."""
    source = chance.choice(sources)
    at = chance.randrange(len(source))
    text = bytearray(source[at:at + chance.choice((200, 600, 2000))])
    for _ in range(chance.choice((0, 1, 2, 5, 20))):
        at, length = chance.randrange(len(text) + 1), chance.choice((1, 1, 2, 7))
        other = chance.randrange(len(text) + 1)
        text[at:at + length * chance.randrange(2)] = text[other:other + length * chance.randrange(2)]
    return bytes(text)


def listed(read):
    """What `ick list` prints of a text, or the number and the statement of its refusal."""
    if read.refusals:
        return read.refusals[0][0], read.refusals[0][1].number
    lines = [f"{one.number} {'-' if one.label is None else f'({one.label})'} {'PLEASE' if one.polite else 'DO'} "
             f"{'NOT' if one.abstained else '-'} {one.chance} {one.kind} ".encode()
             + ick_listing.quoted(one.text()) + b"\n" for one in read.statements]
    return b"".join(lines)


def refused(err):
    """The number and the statement of a message."""
    found = re.match(rb"ICL(\d+)I .*\n +ON THE WAY TO (\d+)\n", err, re.DOTALL)
    return (int(found[1]), int(found[2]) - 1) if found else None


def is_item(one, mark):
    """Whether a mark is that of a whole item, of which no other mark may be."""
    return mark.kind == "action" and one.kind in ("WRITE-IN", "READ-OUT")


def refusals(statements):
    """Every pair of a reason to refuse these statements and a statement, from their numbers and labels."""
    def is_out(one, least, *kinds):
        """Whether a number of these kinds is out of range."""
        return any(mark.kind in kinds and not least <= ick_source.value(one.source, mark.start) <= ick_source.GREATEST
                   for mark in [*own(one), *one.marks])

    def own(one):
        return [one.head["label"]] if one.label is not None else []

    def is_nameless(one):
        return any(is_item(one, mark) and one.source[mark.start] != ord("#")
                   and not 0 < ick_source.value(one.source, mark.start) <= ick_source.GREATEST for mark in one.marks)

    labels, found, seen = {one.label for one in statements}, set(), set()
    for one in statements:
        lost = 129 if one.kind == "NEXT" else 139
        found |= {(number, one.number) for number, holds in (
            (17, is_out(one, 0, "mesh")), (200, is_out(one, 1, "name", "listed", "variable") or is_nameless(one)),
            (197, is_out(one, 1, "label")), (182, one.label in seen), (lost, any(it not in labels for it, _ in one.labels))) if holds}
        seen |= {one.label} - {None}
    count, polite = len(statements), sum(one.polite for one in statements)
    if count > 2 and not count // 5 <= polite <= count // 3:
        found.add((79 if polite < count // 5 else 99, count))
    return found


def strange(one):
    """The marks whose bytes don't look like a part of their kind, or aren't inside the statement."""
    for mark in [*one.head.values(), *one.marks]:
        text = one.source[mark.start:mark.end]
        end = one.end if text else mark.start  # a body without bytes begins behind white bytes
        if not LOOKS[mark.kind].fullmatch(text) or not one.start <= mark.start <= mark.end <= end:
            yield mark, text


def overlapping(one):
    """The parts of operations that overlap others: each has those before it inside it, or ends before it begins."""
    inside = []
    for mark in (mark for mark in one.marks if mark.kind in OPERATIONS):
        while inside and inside[-1].start >= mark.start and inside[-1].end <= mark.end:
            inside.pop()
        if any(it.start < mark.start < it.end for it in inside):
            yield mark, "overlaps"
        inside.append(mark)


def between(one):
    """What stands between the parts of a recognised body, if it isn't words alone."""
    rest = bytearray(one.source[one.body:one.end])
    for mark in one.marks:
        ends = [(mark.start, mark.start + 1), (mark.end - 1, mark.end)] if mark.kind == "group" else []
        for start, end in [(mark.start, mark.end)] if mark.kind in LEAVES or is_item(one, mark) else ends:
            rest[start - one.body:end - one.body] = b" " * (end - start)
    if one.read() and not WORDS.fullmatch(rest):
        yield "between the parts", bytes(rest)


def misplaced(one):
    """The places of the parts of a head that aren't in order, or don't begin with the statement."""
    places = [one.head[kind].start for kind in ("label", "identifier", "body") if kind in one.head]
    if places and (places != sorted(places) or places[0] != one.start):
        yield "the head", places


def mistakes(one):
    """What is wrong with the places of a statement."""
    return [*strange(one), *overlapping(one), *between(one), *misplaced(one)]


def try_stops(tally, name, statements):
    """Reading stops at the same place, for want of the same, if nothing follows there: it looks no further."""
    unread = [one for one in statements if one.stop is not None and not one.abstained
              and not one.expected.startswith("at most") and not re.search(b"DO|PLEASE", one.source[one.body:one.stop])]
    heads = [(b"DO " + one.source[one.body:one.stop]).rstrip(ick_source.SPACES) for one in unread]
    again, at = ick_source.cut(b"\n".join(heads)), 0
    if not tally.check(len(again) == len(unread), f"the statements of {name} up to its stops: {heads}"):
        return
    for one, head, short in zip(unread, heads, again):
        found = (ick_source.END, len(head)) if short.read() else (short.expected, short.stop - at)
        tally.equal(f"where reading stops in {one.text()!r} as {head!r}", found, (one.expected, len(head)))
        at += len(head) + 1


def try_text(tally, name, source):
    """Compares the lines of a text with the text and with ick. Returns whether ick accepts it."""
    status, out, err = tally.ick("list", given=source)
    read = ick_source.Source(source)
    tally.equal(f"the statements of {name}: {source[:400]!r}", listed(read), out if status == 0 else refused(err))
    found = [(number, one.number) for number, one, _ in read.refusals]
    tally.equal(f"the refusals of {name}: {source[:400]!r}", sorted(found), sorted(refusals(read.statements)))
    wrong = [(one.number, mistake) for one in read.statements for mistake in mistakes(one)]
    tally.equal(f"the places of {name}: {source[:400]!r}", wrong, [])
    tally.equal(f"what is marked of {name} as refused", [(number, at) for number, one, at in read.refusals
                                                         if not one.start <= at <= one.end], [])
    try_stops(tally, name, read.statements)
    return status == 0


def try_unable(tally):
    """A tool that can't read a program says why in one line. ick-lsp shows it, and goes on."""
    long = b" " * ((1 << 20) - 1) + b"DO"
    status, out, err = called([tally.stages, "--parts"], long[:-1])
    tally.check(status == 0 and out.endswith(b"\nDONE\n"), f"the longest text: {status} {out[:99]!r} {err!r}")
    too_long = b"the program has 1048577 bytes, and a source has at most 1048576"
    for name, *words in (["ick-advice"], ["ick-convert", "--widths"], ["ick-join"]):
        tally.equal(f"{name} of a long text", tally.tool(name, *words, given=long),
                    (2, b"", name.encode() + b": " + too_long + b"\n"))
        words = [sys.executable, os.path.join(TOOLS, name), *words]
        tally.equal(f"{name} without ick-stages", called(words, b"DO", dict(os.environ, ICK_STAGES="/nowhere")),
                    (1, b"", name.encode() + b": there is no /nowhere\n"))
    _, found = lsp.talk(tally, lsp.opened(long.decode()), lsp.at("hover", 0, 0))
    tally.equal("what ick-lsp shows of a long text", [one["message"] for one in lsp.diagnostics(found)[0]], [too_long.decode()])
    tally.check(too_long.decode() in lsp.results(found)[1]["message"], f"a hover on a long text: {lsp.results(found)[1]}")


def try_all(tally):
    chance = random.Random(72)
    sources = [content(path) for path in EXAMPLES + LIBRARY]
    tried = [(path, content(path)) for path in EXAMPLES + LIBRARY + sorted(glob.glob(f"{PEER}/**/*.*i", recursive=True))]
    tried += [(f"random text {place}", random_text(chance)) for place in range(TEXTS // 2)]
    tried += [(f"mutated program {place}", mutated(chance, sources)) for place in range(TEXTS // 2)]
    tried += [(f"height {high}", b"DO .1 <- " + text) for high in (255, 256)
              for text in (b"'" * high + b"#1" + b"'" * high, b"#1" + b"~#1" * high, b",1SUB" * high + b"#1")]
    accepted = sum(try_text(tally, name, source) for name, source in tried)
    tally.check(accepted > TEXTS // 5, f"only {accepted} texts were accepted")
    try_unable(tally)
