"""A large program, with its listing and what its run prints: 60,000 statements, 1,000 labels, an expression of 100
operands. Sources and inputs at their limits, and a source of every byte.
"""
from table import LONGEST, REFUSAL, REFUSED, SOURCE, Answer, Given, message

STATEMENTS = 60_000
LABELS = 1_000
OPERANDS = 100
NEGATION = "N'T"

LETTERS = [(1000, "M"), (900, "CM"), (500, "D"), (400, "CD"), (100, "C"), (90, "XC"), (50, "L"), (40, "XL"), (10, "X"),
           (9, "IX"), (5, "V"), (4, "IV"), (1, "I")]


def roman(number):
    """The letters of a number from 1 to 1000."""
    found = ""
    for worth, letters in LETTERS:
        found += letters * (number // worth)
        number %= worth
    return found


def statement(number):
    """A statement as (label, head, NOT, body, kind): those with a label print their number, the others are abstained
    from at the start, and the last one gives up.
    """
    head = "PLEASE" if number % 4 == 0 else "DO"
    if number <= LABELS:
        return number, head, False, f"READ OUT #{number}", "READ-OUT"
    if number == LABELS + 1:
        operands = "~".join(f"#{n}" for n in range(1, OPERANDS + 1))
        return None, head, True, f".1 <- {operands}", "CALCULATE"
    if number == STATEMENTS:
        return None, head, False, "GIVE UP", "GIVE-UP"
    if number % 2:
        return None, head, True, f"({number % LABELS + 1}) NEXT", "NEXT"
    return None, head, True, "STASH .1", "STASH"


def large():
    """The source, its listing and what its run prints."""
    source, listing, printed = [], [], []
    for number in range(1, STATEMENTS + 1):
        label, head, negated, body, kind = statement(number)
        text = f"{f'({label}) ' if label else ''}{head}{NEGATION if negated else ''} {body}"
        source.append(text + "\n")
        listing.append(f"{number} {f'({label})' if label else '-'} {head} {'NOT' if negated else '-'} 100 {kind}"
                       f' "{text}"\n')
        if kind == "READ-OUT":
            printed.append(f"\n{roman(number)}\n")
    return "".join(source).encode(), "".join(listing).encode(), "".join(printed).encode()


def nested(depth, kind):
    """A row by `list`: an expression in so many groups, and the kind of its statement."""
    sparks = "'" * depth
    text = f"DO .1 <- {sparks}#1{sparks}"
    return Given(f"an expression in {depth} groups", ["list"], text.encode(), SOURCE), \
        Answer(0, f'1 - DO - 100 {kind} "{text}"\n'.encode(), b"")


LONGEST_SOURCE = b" " * LONGEST
TOO_LONG = b" " * (LONGEST + 1)
TOO_LONG_INPUT = b"\n" * (LONGEST + 1)
BYTES = bytes(range(256))
COMMANDS = ["check", "list", "run", "runs"]
EDGE = message(633, "PROGRAM FELL OFF THE EDGE ON THE WAY TO THE NEW WORLD.", 1)

LIMITS = [
    (Given("the longest source, checked", ["check"], LONGEST_SOURCE, SOURCE),
     Answer(0, b"0 STATEMENTS, 0 POLITE\n", b"")),
    (Given("the longest source, listed", ["list"], LONGEST_SOURCE, SOURCE), Answer(0, b"", b"")),
    (Given("the longest source, run", ["run"], LONGEST_SOURCE, SOURCE), Answer(1, b"", EDGE)),
    nested(255, "CALCULATE"),
    nested(256, "UNRECOGNISED"),
    (Given("the most statements", ["check"], b"DO" * (LONGEST // 2), SOURCE),
     Answer(2, b"", message(79, "PROGRAMMER IS INSUFFICIENTLY POLITE", LONGEST // 2 + 1))),
    (Given("every byte, checked", ["check"], BYTES + b"DO GIVE UP\n", SOURCE),
     Answer(0, b"2 STATEMENTS, 0 POLITE\n", b"")),
    (Given("every byte, run", ["run"], BYTES + b"DO GIVE UP\n", SOURCE),
     Answer(1, b"", b"ICL000I " + BYTES + message(0, "", 2)[len(b"ICL000I "):])),
] + [
    (Given(f"{command} of a source that is too long", words, TOO_LONG, entered),
     Answer(2, b"", b"SOURCE TOO LONG\n"))
    for command in COMMANDS for words, entered in [([command], SOURCE), ([command, "FILE"], b"")]
] + [
    (Given(f"{command} of a source that is refused, with an input that is too long", [command, "FILE"], REFUSED,
           TOO_LONG_INPUT), REFUSAL)
    for command in COMMANDS
]
