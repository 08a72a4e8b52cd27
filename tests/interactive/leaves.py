"""What runs leave of their input for the next reader, what comes if output and errors go to one place, and what is
written at once. The texts are written out, from docs/MANUAL.md, and come from no run of the program.
"""
from table import ECHOES, FAULTED, FAULTS, REFUSAL, REFUSED, Answer, Given, message

MAY_TAKE_ANOTHER = b"DO %50 WRITE IN .1\nDO WRITE IN .2\nPLEASE READ OUT .2\nDO GIVE UP\n"
TAKES_BYTES = b"DO ,1 <- #2\nDO WRITE IN ,1\nPLEASE READ OUT ,1SUB#1 + ,1SUB#2\nDO GIVE UP\n"
TAKES_A_LINE_AND_BYTES = b"DO ,1 <- #2\nDO WRITE IN .1 + ,1\nPLEASE READ OUT .1 + ,1SUB#1\nDO GIVE UP\n"
TAKES_ALL = b"(1) DO WRITE IN .1\nDO FORGET #1\nPLEASE DO (1) NEXT\n"
WANTS_A_CHOICE = b"DO WRITE IN .1\nDO %50 GIVE UP\n"
TAKES_NONE = b"DO READ OUT #1\nPLEASE GIVE UP\n"
FAULTS_IN_A_LIST = b"DO READ OUT #1 + ,1SUB#1\nPLEASE GIVE UP\n"
PRINTS_LISTS = b"DO READ OUT #1 + #2\nPLEASE READ OUT #3\nDO GIVE UP\n"
PRINTS_BYTES = b"""DO ,1 <- #2
DO ,1SUB#1 <- #238
DO ,1SUB#2 <- #124
PLEASE READ OUT ,1
DO READ OUT #1
DO GIVE UP
"""

SIX = Answer(0, b"\nVI\n", b"")
REST = b"SEVEN\nEIGHT\n"
BLOCK = 4096
ANYTHING = bytes(range(256)) * 200

# What is entered, what of it is left, and the answer; where the output is None nothing can be written.
LEAVES = [
    (Given("one line", ["run", "FILE"], ECHOES, b"SIX\n" + REST), REST, SIX),
    (Given("one line before anything", ["run", "FILE"], ECHOES, b"SIX\n" + ANYTHING), ANYTHING, SIX),
    (Given("a line that ends with a block", ["run", "FILE"], ECHOES, b"SIX\n".rjust(BLOCK) + REST), REST, SIX),
    (Given("a line of more than a block", ["run", "FILE"], ECHOES, b"SIX\n".rjust(BLOCK + 1) + REST), REST, SIX),
    (Given("a line of many blocks", ["run", "FILE"], ECHOES, b"SIX\n".rjust(12 * BLOCK) + REST), REST, SIX),
    (Given("a line without its end", ["run", "FILE"], ECHOES, b"SIX"), b"", SIX),
    (Given("one line, with choices", ["run", "--choices", "0", "FILE"], MAY_TAKE_ANOTHER, b"SIX\n" + REST), REST, SIX),
    (Given("two lines, with choices", ["run", "--choices", "1", "FILE"], MAY_TAKE_ANOTHER, b"ONE\nSIX\n" + REST), REST,
     SIX),
    (Given("one line, with a seed", ["run", "--seed", "7", "FILE"], MAY_TAKE_ANOTHER, b"SIX\n" + REST), REST, SIX),
    (Given("two lines, with a seed", ["run", "--seed", "1", "FILE"], MAY_TAKE_ANOTHER, b"ONE\nSIX\n" + REST), REST, SIX),
    (Given("two bytes", ["run", "FILE"], TAKES_BYTES, b"AB" + ANYTHING), ANYTHING, Answer(0, b"\nLXV\n\nI\n", b"")),
    (Given("a line and two bytes", ["run", "FILE"], TAKES_A_LINE_AND_BYTES, b"SIX\nAB" + REST), REST,
     Answer(0, b"\nVI\n\nLXV\n", b"")),
    (Given("all lines", ["run", "FILE"], TAKES_ALL, b"SIX\n" + REST), b"",
     Answer(1, b"", message(562, "I DO NOT COMPUTE", 2))),
    (Given("a line of no digits", ["run", "FILE"], ECHOES, b"TEN\n" + REST), REST,
     Answer(1, b"", message(579, "WHAT BASE AND/OR LANGUAGE INCLUDES TEN?", 2))),
    (Given("a line up to the limit", ["run", "--limit", "1", "FILE"], ECHOES, b"SIX\n" + REST), REST,
     Answer(3, b"", b"LIMIT REACHED AFTER 1 STEPS\n")),
    (Given("a line before a choice", ["run", "FILE"], WANTS_A_CHOICE, b"SIX\n" + REST), REST,
     Answer(3, b"", b"CHOICE WANTED AFTER 1 STEPS\n")),
    (Given("a line before a failed write", ["run", "FILE"], ECHOES, b"SIX\n" + REST), REST,
     Answer(4, None, b"WRITE FAILED\n")),
    (Given("nothing", ["run", "FILE"], TAKES_NONE, REST), REST, Answer(0, b"\nI\n", b"")),
    (Given("nothing, where the source is refused", ["run", "FILE"], REFUSED, REST), REST, REFUSAL),
    (Given("nothing, where statements are counted", ["check", "FILE"], ECHOES, REST), REST,
     Answer(0, b"3 STATEMENTS, 1 POLITE\n", b"")),
    (Given("nothing, where no file is read", ["run", "no-such-file"], b"", REST), REST,
     Answer(4, b"", b"FILE NOT READ\n")),
]

# The status, and the output with the error text behind it.
JOINED = [
    (Given("a fault", ["run", "FILE"], FAULTS, b""), FAULTED.status, FAULTED.output + FAULTED.errors),
    (Given("a fault in a list", ["run", "FILE"], FAULTS_IN_A_LIST, b""), 1,
     b"\nI\n" + message(241, "VARIABLES MAY NOT BE STORED IN WEST HYPERSPACE", 2)),
    (Given("a limit", ["run", "--limit", "1", "FILE"], TAKES_NONE, b""), 3, b"\nI\nLIMIT REACHED AFTER 1 STEPS\n"),
    (Given("a choice", ["run", "FILE"], b"DO READ OUT #1\nDO %50 GIVE UP\n", b""), 3,
     b"\nI\nCHOICE WANTED AFTER 1 STEPS\n"),
]

# What is written at once, text by text.
WRITES = [
    (Given("numerals of a list", ["run", "FILE"], PRINTS_LISTS, b""), [b"\nI\n\nII\n", b"\nIII\n"]),
    (Given("bytes of an array", ["run", "FILE"], PRINTS_BYTES, b""), [b"Hi", b"\nI\n"]),
    (Given("numerals before a fault", ["run", "FILE"], b"DO READ OUT #1 + #2 + ,1SUB#1\nPLEASE GIVE UP\n", b""),
     [b"\nI\n\nII\n"]),
]
