"""Rows over the built program: words, what it is given, and what it leaves. All answers are absolute: they come from
docs/MANUAL.md, which has the exit statuses and the error lines, and from the layout of clap, and not from a run of the
program.
"""
import collections

from usage import ERRORS, HELP, error

# Arguments, the source, and the standard input: bytes, or SOURCE for the source. The argument FILE is replaced by the
# name of a file with the source, and " FILE " by such a name that begins and ends with a blank.
Given = collections.namedtuple("Given", "name words source entered")
# The exit status, the output and the error text.
Answer = collections.namedtuple("Answer", "status output errors")

SOURCE = object()


def message(number, text, line):
    return f"ICL{number:03}I {text}\n        ON THE WAY TO {line}\n        CORRECT SOURCE AND RESUBNIT\n".encode()


PRINTS = b"DO READ OUT #1\nPLEASE READ OUT #4000 + #65535\nDO GIVE UP\n"
PRINTED = b"\nI\n _\nMV\n___\nLXVDXXXV\n"
FAULTS = b"DO READ OUT #1\nPLEASE READ OUT LOUD\nDO GIVE UP\n"
FAULTED = Answer(1, b"\nI\n", message(0, "PLEASE READ OUT LOUD", 3))
CHANCES = b"DO READ OUT #1\nDO %50 GIVE UP\n"
WANTS = Answer(3, b"\nI\n", b"CHOICE WANTED AFTER 1 STEPS\n")
LISTED_RUNS = b"""0 E633@2 "\\nI\\n"
1 GIVE-UP "\\nI\\n"
DONE
"""
ECHOES = b"DO WRITE IN .1\nPLEASE READ OUT .1\nDO GIVE UP\n"
TALKS = b"""DO READ OUT #1
DO %50 WRITE IN .1
PLEASE READ OUT .1
DO ,1 <- #2
DO WRITE IN ,1 + .2
PLEASE READ OUT ,1SUB#1 + ,1SUB#2 + .2
DO GIVE UP
"""
TALKED = b"\nI\n\nVI\n\nLXV\n\nI\n\nIX\n"
ENTERED = b"SIX\nABoh NINER\nTWO\n"
REFUSED = b"DO READ OUT #70000\nPLEASE GIVE UP\n"
REFUSAL = Answer(2, b"", message(17, "DO YOU EXPECT ME TO FIGURE THIS OUT?", 2))
LOST = b"(1) DO (2) NEXT\nPLEASE GIVE UP\n"
LISTED = b"(1) DO .1 <- ,1SUB'#1$.2'#3\nDO STASH .1 + ,1\nPLEASE ABSTAIN FROM (1)\nDO \xff"
LISTING = b"""1 (1) DO - 100 CALCULATE "(1) DO .1 <- ,1SUB'#1$.2'#3"
2 - DO - 100 STASH "DO STASH .1 + ,1"
3 - PLEASE - 100 ABSTAIN "PLEASE ABSTAIN FROM (1)"
4 - DO - 100 UNRECOGNISED "DO \\xff"
"""
LONGEST = 1_048_576

# Rows over which faults/ has every call of the system fail.
SWEPT = [
    (Given("prints", [], PRINTS, SOURCE), Answer(0, PRINTED, b"")),
    (Given("prints from FILE", ["run", "FILE"], PRINTS, b""), Answer(0, PRINTED, b"")),
    (Given("faults", ["run"], FAULTS, SOURCE), FAULTED),
    (Given("faults from FILE", ["run", "FILE"], FAULTS, b""), FAULTED),
    (Given("wants a choice", ["run", "FILE"], CHANCES, b""), WANTS),
    (Given("choices", ["run", "--choices", "1", "FILE"], CHANCES, b""), Answer(0, b"\nI\n", b"")),
    (Given("cut short", ["run", "--limit", "1", "FILE"], PRINTS, b""),
     Answer(3, b"\nI\n", b"LIMIT REACHED AFTER 1 STEPS\n")),
    (Given("reads a line", ["run", "FILE"], ECHOES, b"ONE OH\n"), Answer(0, b"\nX\n", b"")),
    (Given("talks", ["run", "--choices", "1", "FILE"], TALKS, ENTERED), Answer(0, TALKED, b"")),
    (Given("talks, with a seed", ["run", "--seed", "1", "FILE"], TALKS, ENTERED), Answer(0, TALKED, b"")),
    (Given("talks, and is told no digit", ["run", "--choices", "1", "FILE"], TALKS, b"SIX\nABTEN\nTWO\n"),
     Answer(1, b"\nI\n\nVI\n", message(579, "WHAT BASE AND/OR LANGUAGE INCLUDES TEN?", 6))),
    (Given("runs", ["runs", "FILE"], CHANCES, b""), Answer(0, LISTED_RUNS, b"")),
    (Given("runs after one", ["runs", "--from", "0"], CHANCES, SOURCE),
     Answer(0, b'1 GIVE-UP "\\nI\\n"\nDONE\n', b"")),
    (Given("refused", ["run"], REFUSED, SOURCE), REFUSAL),
    (Given("refused from FILE", ["run", "FILE"], REFUSED, b""), REFUSAL),
    (Given("check", ["check"], PRINTS, SOURCE), Answer(0, b"3 STATEMENTS, 1 POLITE\n", b"")),
    (Given("list from FILE", ["list", "FILE"], LISTED, b""), Answer(0, LISTING, b"")),
    (Given("refused by its labels", ["check"], LOST, SOURCE),
     Answer(2, b"", message(129, "PROGRAM HAS GOTTEN LOST", 2))),
    (Given("no file", ["run", "no-such-file"], b"", b""), Answer(4, b"", b"FILE NOT READ\n")),
    (Given("help", ["--help"], b"", b""), Answer(0, HELP[""], b"")),
    (Given("help of check", ["check", "--help"], b"", b""), Answer(0, HELP["check"], b"")),
    (Given("usage", ["jump"], b"", b""), Answer(64, b"", error("", "unrecognized subcommand 'jump'"))),
]
# Those that are also swept with reads and writes of each size.
PIECEMEAL = [row for row in SWEPT if row[0].name in ("faults", "talks", "runs", "list from FILE")]

# The rest, which a plain run shows.
PLAIN = [
    (Given("dashes alone", ["--"], PRINTS, SOURCE), Answer(0, PRINTED, b"")),
    (Given("file behind dashes", ["run", "--", "FILE"], PRINTS, b""), Answer(0, PRINTED, b"")),
    (Given("choices and seed", ["run", "--seed", "1", "--choices", "0", "no-such-file"], b"", b""),
     Answer(64, b"", b"CHOICES AND SEED TOGETHER\n")),
    (Given("no cursor and a seed", ["run", "--seed", "1", "--choices", "2", "no-such-file"], b"", b""),
     Answer(64, b"", b"CHOICES AND SEED TOGETHER\n")),
    (Given("no choices", ["run", "--choices", "2", "no-such-file"], b"", b""), Answer(64, b"", b"BAD CURSOR\n")),
    (Given("no cursor", ["runs", "--from", "2", "no-such-file"], b"", b""), Answer(64, b"", b"BAD CURSOR\n")),
    (Given("no run", ["runs", "--from", "01", "FILE"], CHANCES, b""), Answer(64, b"", b"NO SUCH RUN\n")),
    (Given("input one byte too long for a listing", ["runs", "FILE"], ECHOES, b"\n" * (LONGEST + 1)),
     Answer(4, b"", b"INPUT TOO LONG\n")),
    (Given("the longest input of a listing", ["runs", "FILE"], ECHOES, b"\n" * LONGEST),
     Answer(0, b'- GIVE-UP "_\\n\\n"\nDONE\n', b"")),
    (Given("a longer input of a run", ["run", "FILE"], ECHOES, b"\n" * (LONGEST + 1)), Answer(0, b"_\n\n", b"")),
    (Given("standard input beside FILE", ["run", "FILE"], PRINTS, REFUSED), Answer(0, PRINTED, b"")),
    (Given("a file whose name begins and ends with a blank", ["run", " FILE "], PRINTS, b""), Answer(0, PRINTED, b"")),
    (Given("a word of byte 255", ["check", b"\xff"], b"", b""), Answer(64, b"", b"WORDS NOT READ\n")),
    (Given("a folder", ["check", "."], b"", b""), Answer(4, b"", b"FILE NOT READ\n")),
    (Given("no bytes", ["check"], b"", b""), Answer(0, b"0 STATEMENTS, 0 POLITE\n", b"")),
    (Given("the longest source", ["check", "FILE"], b" " * LONGEST, b""), Answer(0, b"0 STATEMENTS, 0 POLITE\n", b"")),
    (Given("one byte longer", ["run"], b" " * (LONGEST + 1), SOURCE), Answer(2, b"", b"SOURCE TOO LONG\n")),
    (Given("one byte longer, from FILE", ["list", "FILE"], b" " * (LONGEST + 1), b""),
     Answer(2, b"", b"SOURCE TOO LONG\n")),
] + [
    (Given(f"help by {words}", words.split(), b"", b""), Answer(0, text, b"")) for command, text in HELP.items()
    for words in [f"{command} -h", f"{command} --help", f"help {command}"]
] + [
    (Given(f"error by {words}", words, PRINTS, PRINTS), Answer(64, b"", text)) for words, text in ERRORS
]
