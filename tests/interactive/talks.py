"""Talks with programs: what is seen and sent, turn by turn, and how the run ends. The texts are written out, from
docs/MANUAL.md, and come from no run of the program.
"""
from table import Answer, Given, message

ENDS = Answer(0, b"", b"")
NO_INPUT = Answer(1, b"", message(562, "I DO NOT COMPUTE", 2))
STOPPED = Answer(-15, b"", b"")

PRINTS_AND_ASKS = b"""DO READ OUT #1
DO WRITE IN .1
PLEASE READ OUT .1
DO WRITE IN .2
PLEASE READ OUT .2
DO GIVE UP
"""
PROMPTS = b"""DO ,1 <- #2
DO ,1SUB#1 <- #238
DO ,1SUB#2 <- #124
PLEASE READ OUT ,1
DO WRITE IN .1
PLEASE READ OUT .1
DO GIVE UP
"""
ASKS_BYTES = b"""DO ,1 <- #1
DO WRITE IN ,1
PLEASE READ OUT ,1SUB#1
DO WRITE IN ,1
PLEASE READ OUT ,1SUB#1
DO GIVE UP
"""
ECHOES_FOR_EVER = b"(1) DO WRITE IN .1\nPLEASE READ OUT .1\nDO FORGET #1\nDO (1) NEXT\n"
PRINTS_FOR_EVER = b"(1) DO READ OUT #1\nPLEASE FORGET #1\nDO (1) NEXT\n"
PRINTS_AND_TURNS = b"DO READ OUT #1\n(1) PLEASE FORGET #1\nDO (1) NEXT\n"
LONG = ["run", "--limit", "4294967295", "FILE"]


def sees(text):
    return "sees", text


def sends(text):
    return "sends", text


INPUT_ENDS = ("input ends", b"")
NOBODY_READS = ("nobody reads", b"")
IS_STOPPED = ("is stopped", b"")

# Over pipes and over a terminal.
TALKS = [
    (Given("asks for lines", ["run", "FILE"], PRINTS_AND_ASKS, b""),
     [sees(b"\nI\n"), sends(b"SIX\n"), sees(b"\nVI\n"), sends(b"oh NI"), sends(b"NER\n"), sees(b"\nIX\n")], ENDS),
    (Given("asks for lines, with a seed", ["run", "--seed", "1", "FILE"], PRINTS_AND_ASKS, b""),
     [sees(b"\nI\n"), sends(b"SIX\n"), sees(b"\nVI\n"), sends(b"\n"), sees(b"_\n\n")], ENDS),
    (Given("is given lines beforehand", ["run", "FILE"], PRINTS_AND_ASKS, b""),
     [sends(b"SIX\nSEVEN\n"), sees(b"\nI\n\nVI\n\nVII\n")], ENDS),
    (Given("prompts without ending a line", ["run", "FILE"], PROMPTS, b""),
     [sees(b"Hi"), sends(b"TWO\n"), sees(b"\nII\n")], ENDS),
    (Given("asks until the input ends", ["run", "FILE"], ECHOES_FOR_EVER, b""),
     [sends(b"ONE\n"), sees(b"\nI\n"), sends(b"FOUR\n"), sees(b"\nIV\n"), INPUT_ENDS], NO_INPUT),
    (Given("reads its source", ["run"], b"", b""),
     [sends(b"DO READ OUT #1\n"), sends(b"PLEASE GIVE UP\n"), INPUT_ENDS, sees(b"\nI\n")], ENDS),
    (Given("takes the bytes of a line", ["run", "FILE"], ASKS_BYTES, b""),
     [sends(b"AB\n"), sees(b"\nLXV\n\nI\n")], ENDS),
    (Given("prints, and then calculates for ever", LONG, PRINTS_AND_TURNS, b""),
     [sees(b"\nI\n"), IS_STOPPED], STOPPED),
    (Given("prints for ever", LONG, PRINTS_FOR_EVER, b""),
     [sees(b"\nI\n" * 1000), NOBODY_READS], Answer(4, b"", b"WRITE FAILED\n")),
    (Given("prints up to its limit", ["run", "--limit", "9", "FILE"], PRINTS_FOR_EVER, b""),
     [sees(b"\nI\n" * 3)], Answer(3, b"", b"LIMIT REACHED AFTER 9 STEPS\n")),
]

# Over pipes alone: a terminal gives no byte before its line is ended.
BY_BYTES = [
    (Given("asks for bytes", ["run", "FILE"], ASKS_BYTES, b""),
     [sends(b"A"), sees(b"\nLXV\n"), sends(b"B"), sees(b"\nI\n")], ENDS),
]
