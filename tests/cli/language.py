"""Rows of the language over the built program: programs, their input, and the answers of `check`, `list`, `run` and
`runs`. The sources and answers are written out, from docs/MANUAL.md and the tables of faults and numerals, and come
from no run of the program. A source and an input that are given as text end with a line feed, and ` / ` is a line feed
too.
"""
from table import PLAIN, SOURCE, Answer, Given, message

TEXTS = {
    17: "DO YOU EXPECT ME TO FIGURE THIS OUT?",
    79: "PROGRAMMER IS INSUFFICIENTLY POLITE",
    99: "PROGRAMMER IS OVERLY POLITE",
    123: "PROGRAM HAS DISAPPEARED INTO THE BLACK LAGOON",
    129: "PROGRAM HAS GOTTEN LOST",
    139: "I WASN'T PLANNING TO GO THERE ANYWAY",
    182: "YOU MUST LIKE THIS LABEL A LOT!",
    197: "SO! 65535 LABELS AREN'T ENOUGH FOR YOU?",
    200: "NOTHING VENTURED, NOTHING GAINED",
    240: "ERROR HANDLER PRINTED SNIDE REMARK",
    241: "VARIABLES MAY NOT BE STORED IN WEST HYPERSPACE",
    275: "DON'T BYTE OFF MORE THAN YOU CAN CHEW",
    436: "THROW STICK BEFORE RETRIEVING!",
    533: "YOU WANT MAYBE WE SHOULD IMPLEMENT 64-BIT VARIABLES?",
    562: "I DO NOT COMPUTE",
    621: "ERROR TYPE 621 ENCOUNTERED",
    632: "THE NEXT STACK RUPTURES.  ALL DIE.  OH, THE EMBARRASSMENT!",
    633: "PROGRAM FELL OFF THE EDGE ON THE WAY TO THE NEW WORLD.",
}
ENDS = Answer(0, b"", b"")


def lines(text):
    return (text.replace(" / ", "\n") + "\n").encode() if isinstance(text, str) else text


def ran(source, wanted, entered=b"", words=()):
    """A row by `run`, from FILE."""
    return Given(f"run {source!r} {list(words)}", ["run", *words, "FILE"], lines(source), lines(entered)), wanted


def listed(source, wanted, words=(), entered=b"", command="runs"):
    """A row by a command whose answer is these lines, from FILE."""
    printed = "".join(line + "\n" for line in wanted).encode()
    return Given(f"{command} {source!r} {list(words)}", [command, *words, "FILE"], lines(source), lines(entered)), \
        Answer(0, printed, b"")


def checked(source, statements, polite):
    """A row by `check`, from FILE: the numbers of statements and of polite ones."""
    return listed(source, [f"{statements} STATEMENTS, {polite} POLITE"], command="check")


def uncompiled(command, source, number, line):
    """A row whose source is refused with the message of a fault that names this line."""
    return Given(f"{command} {source!r}", [command, "FILE"], lines(source), b""), \
        Answer(2, b"", message(number, TEXTS[number], line))


def again(rows, *commands):
    """The rows that name FILE alone, with each of the other commands. A command without FILE is entered the source, so
    it is there for the rows that enter nothing.
    """
    return [(given._replace(name=f"{words} {given.source!r}", words=words,
                            entered=given.entered if "FILE" in words else SOURCE), wanted)
            for given, wanted in rows if len(given.words) == 2 for words in commands
            if "FILE" in words or not given.entered]


def refused(command, source, words, status, errors):
    """A row that writes one line on standard error alone."""
    return Given(f"{command} {source!r} {list(words)}", [command, *words, "FILE"], lines(source), b""), \
        Answer(status, b"", errors.encode() + b"\n")


def prints(output):
    return Answer(0, output, b"")


def faults(number, line, output=b"", text=None):
    """The message of a fault that names a statement's line, which is one more than its number."""
    return Answer(1, output, message(number, text or TEXTS[number], line))


ASKS = "DO %50 READ OUT #1 / PLEASE GIVE UP"
OFTEN = "(1) DO %50 (1) NEXT / PLEASE GIVE UP"
OFTEN_AND_ONCE = "(1) DO %50 (1) NEXT / DO %50 .1 <- #1 / PLEASE GIVE UP"
ECHO = "DO WRITE IN .1 / PLEASE READ OUT .1 / DO GIVE UP"
SILENCED = "DO %50 ABSTAIN FROM READING OUT / DO READ OUT #1 / PLEASE GIVE UP"
BOTH = "DO %50 READ OUT #5 / DO %50 ABSTAIN FROM READING OUT / PLEASE READ OUT #1 / DO GIVE UP"
WIDE = "DO :1 <- #65535$#65535 / DO READ OUT :1 / PLEASE GIVE UP"
ELEMENTS = "DO ,1 <- #2 BY #3 / DO ,1SUB'#2''#3' <- #7 / PLEASE READ OUT ,1SUB#2#3+,1SUB'#1$#0'#1 / DO GIVE UP"
LOST_ELEMENT = "DO ,1 <- #2 BY #3 / DO ,1SUB'#2''#3' <- #7 / PLEASE READ OUT ,1SUB#3#1+,1SUB'#1$#0'#1 / DO GIVE UP"
HIDDEN = "DO .1 <- #5 / DO STASH .1 / DO .1 <- #6 / DO IGNORE .1 / DO RETRIEVE .1 / PLEASE READ OUT .1 / " \
    "DO REMEMBER .1 / DO RETRIEVE .1 / DO GIVE UP"
ARRAYS = "DO ,1 <- #256 BY #256 / DO ,1SUB#256#256 <- #7 / DO STASH ,1 / DO ,1 <- #1 / " \
    "PLEASE %50 RETRIEVE ,1 / DO READ OUT ,1SUB#256#256 / DO GIVE UP"
ONE = b"\nI\n"

RUN = [
    # statements
    ran("DO READ OUT #1 / PLEASE GIVE UP", prints(ONE)),
    ran("PLEASE NOTE THAT THIS WOULD DO NOTHING / DO GIVE UP", ENDS),
    ran("HELLO", faults(0, 2, text="HELLO")),
    ran("DO %101 GIVE UP", faults(0, 2, text="DO %101 GIVE UP")),
    ran("DO %0 READ OUT #1 / DO %100 READ OUT #2 / PLEASE GIVE UP", prints(b"\nII\n")),
    ran("DO READOUT #1 / PLEASE GIVE UP", prints(ONE)),
    ran("DO READ OUT ;1 / PLEASE GIVE UP", faults(0, 2, text="DO READ OUT ;1")),
    ran(b"", faults(633, 1)),
    # values and numerals
    ran("DO READ OUT #0 / PLEASE GIVE UP", prints(b"_\n\n")),
    ran("DO READ OUT #4000 / PLEASE GIVE UP", prints(b" _\nMV\n")),
    ran(WIDE, prints(b" _    _ _____\nmvccxcMvCMLXVMMCCXCV\n")),
    ran("DO .1 <- #&77 / DO .2 <- #V77 / DO .3 <- #?77 / PLEASE READ OUT .1+.2+.3 / DO GIVE UP",
        prints(b"\nIV\n___\nXXXMMDCCCLXXIX\n___\nXXXMMDCCCLXXV\n")),
    ran("DO .1 <- #179~#201 / DO .2 <- #201~#179 / PLEASE READ OUT .1+.2 / DO GIVE UP",
        prints(b"\nIX\n\nXVII\n")),
    ran("DO .1 <- #65535$#1 / PLEASE GIVE UP", faults(275, 2)),
    ran("DO :1 <- #0$#1$#1 / DO READ OUT :1 / PLEASE GIVE UP", prints(b"\nV\n")),
    ran('DO :1 <- "#65535$#1"$#1 / PLEASE GIVE UP', faults(533, 2)),
    ran('DO :1 <- "#65535$#1"$#1', faults(533, 2)),
    ran("DO :1 <- 'V#1~#1' / DO :2 <- 'V#1~\"#65535$#65535\"' / PLEASE READ OUT :1+:2 / DO GIVE UP",
        prints(b"___\nXXXMMDCCLXIX\n      ________\nmmcxlvMMCDLXXXMMMDCXLIX\n")),
    # and, or and exclusive or of two numbers, as programs say them: all even bits of the operator on their mingle
    ran("DO .1 <- #12 / DO .2 <- #10 / DO .3 <- \"&.1$.2\"~\"#0$#65535\" / PLEASE READ OUT .3 / "
        "DO .3 <- \"V.1$.2\"~\"#0$#65535\" / DO .4 <- \"?.1$.2\"~\"#0$#65535\" / PLEASE READ OUT .3+.4 / DO GIVE UP",
        prints(b"\nVIII\n\nXIV\n\nVI\n")),
    # all odd bits have the right number rotated by one; a mask and a select go on from there
    ran("DO .1 <- #12 / DO .2 <- #10 / DO .3 <- \"V.1$.2\"~\"#65535$#0\" / PLEASE READ OUT .3 / "
        "DO .3 <- '\"V.1$.2\"~\"#0$#65535\"'~#6 / DO .4 <- '\"V.1$.2\"~\"#0$#65535\"'~'\"?.1$.2\"~\"#0$#65535\"' / "
        "PLEASE READ OUT .3+.4 / DO GIVE UP",
        prints(b"\nXIII\n\nIII\n\nIII\n")),
    # its lowest bit comes to the highest place, and its highest one moves on; so it is with one of a wide number
    ran("DO .1 <- #32777 / DO .2 <- #11 / DO .3 <- \"&.1$.2\"~\"#65535$#0\" / PLEASE READ OUT .3 / "
        "DO .3 <- \"V.1$.2\"~\"#65535$#0\" / DO .4 <- \"?.1$.2\"~\"#65535$#0\" / PLEASE READ OUT .3+.4 / DO GIVE UP",
        prints(b"___\nXXXMMDCCLXIX\n___\nXXXMMDCCLXXXI\n\nXII\n")),
    ran("DO .1 <- #16386 / DO .2 <- #32770 / DO .3 <- \"?.1$.2\"~\"#65535$#0\" / DO .1 <- #3 / DO :1 <- #0$#255 / "
        "DO .4 <- \"&.1$:1\"~\"#65535$#0\" / PLEASE READ OUT .3+.4 / DO GIVE UP",
        prints(b"\nIII\n\nII\n")),
    ran("DO :1 <- #65535$#65535 / DO .1 <- #1 / DO .3 <- \"?.1$:1\"~\"#65535$#0\" / PLEASE READ OUT #1 / DO GIVE UP",
        faults(533, 4)),
    ran("DO :1 <- #65535$#65535 / DO .3 <- \"?:1$#1\"~\"#0$#65535\" / PLEASE READ OUT #1 / DO GIVE UP", faults(533, 3)),
    ran("DO :1 <- #0$#255 / DO .3 <- \"?:1$#1\"~\"#0$#65535\" / PLEASE READ OUT .3 / DO GIVE UP",
        prints(b"__\nXXMDCCCXLIV\n")),
    # a field of .1 that is moved up by one place keeps its top bit, bit 8
    ran("DO .1 <- #65535 / DO .2 <- '?.3$\"'\".1~#255\"$#0'~'#32767$#1'\"'~'#0$#65535' / PLEASE READ OUT .2 / DO GIVE UP",
        prints(b"\nDX\n")),
    # n~:1 has the width of the ones of :1, which here are two
    ran("DO :1 <- #3 / DO :2 <- 'V:1~:1' / PLEASE READ OUT :2 / DO GIVE UP", prints(b"___\nXXXMMDCCLXXI\n")),
    # arrays
    ran(ELEMENTS, prints(b"\nVII\n_\n\n")),
    ran(LOST_ELEMENT, faults(241, 4)),
    ran("DO ,1 <- #0", faults(240, 2)),
    ran("DO ,1 <- #256 BY #257", faults(241, 2)),
    ran("DO ,1 <- #256 BY #256", faults(633, 2)),
    ran("DO ,1 <- #2 BY #3 / DO ,1SUB#3#1 <- #7", faults(241, 3)),
    # NEXT, FORGET and RESUME
    ran("DO (1) NEXT / DO READ OUT #1 / PLEASE GIVE UP / (1) DO (2) NEXT / DO READ OUT #3 / (2) DO RESUME #2",
        prints(ONE)),
    ran("DO RESUME #0", faults(621, 2)),
    ran("DO RESUME #1", faults(632, 2)),
    ran("(1) DO (1) NEXT", faults(123, 2)),
    ran("DO (1) NEXT / DO GIVE UP / (1) PLEASE FORGET #9 / DO RESUME #1", faults(632, 5)),
    # STASH, RETRIEVE, IGNORE and REMEMBER
    ran(HIDDEN, faults(436, 9, b"\nVI\n")),
    ran("DO RETRIEVE .1", faults(436, 2)),
    ran("DO IGNORE .1 / DO .1 <- #1 / PLEASE RESUME .1", faults(621, 4)),
    ran("DO ,1 <- #2 / DO STASH ,1 / DO ,1 <- #3 / DO RETRIEVE ,1 / PLEASE ,1SUB#3 <- #1", faults(241, 6)),
    ran("DO ,1 <- #2 / DO IGNORE ,1 / PLEASE ,1 <- #0", faults(240, 4)),
    ran("DO ,1 <- #3 / DO ,1 SUB #1 <- #7 / PLEASE IGNORE ,1 / DO .1 <- #1 / DO ,1 <- #3 / DO .1 <- #2 / "
        "PLEASE READ OUT ,1 SUB #1 / DO GIVE UP", prints(b"\nVII\n")),
    # ABSTAIN and REINSTATE
    ran("DO ABSTAIN FROM (1) / (1) PLEASE GIVE UP", ENDS),
    ran("DO ABSTAIN FROM CALCULATING / PLEASE .1 <- #1 / DO RESUME .1", faults(621, 4)),
    ran("DO REINSTATE (1) / (1) PLEASE DO NOT GIVE UP", faults(633, 3)),
    ran("DO REINSTATE CALCULATING / PLEASE FORGET #0 / DO NOT .1 <- #5 / DO .2 <- #1 / PLEASE READ OUT .1 / DO GIVE UP",
        prints(b"\nV\n")),
    ran("DO (1) NEXT / PLEASE GIVE UP / (1) DO NOT RESUME #0", faults(633, 4)),
    ran("DO ABSTAIN FROM (5) DO READ OUT #1 (5) DO READ OUT #2 PLEASE GIVE UP", prints(ONE)),
    # input
    ran(ECHO, prints(b"\nIX\n"), "oh NINER"),
    ran(ECHO, prints(b"_\n\n"), b"\n"),
    ran(ECHO, faults(579, 2, text="WHAT BASE AND/OR LANGUAGE INCLUDES TEN?"), "TEN"),
    ran(ECHO, faults(562, 2), b""),
    ran("DO WRITE IN .1 / PLEASE GIVE UP", faults(562, 2)),
    ran(ECHO, faults(275, 2), "SIX FIVE FIVE THREE SIX"),
    ran("DO WRITE IN ,1SUB#1 / PLEASE GIVE UP", faults(241, 2), "TEN"),
    ran("DO READ OUT #1+,1SUB#1 / PLEASE GIVE UP", faults(241, 2, ONE)),
    # arrays as bytes
    ran("DO ,1 <- #3 / DO ,1SUB#1 <- #238 / DO ,1SUB#2 <- #124 / DO ,1SUB#3 <- #70 / PLEASE READ OUT ,1 / DO GIVE UP",
        prints(b"Hi\n")),
    ran("DO ,1 <- #3 / DO WRITE IN ,1 / PLEASE READ OUT ,1SUB#1+,1SUB#2+,1SUB#3 / DO GIVE UP",
        prints(b"\nLXV\n\nI\n\nCCLVI\n"), b"AB"),
    ran("DO ,1 <- #1 / DO WRITE IN .1+,1 / PLEASE READ OUT .1+,1SUB#1 / DO GIVE UP",
        prints(b"\nI\n\nLXV\n"), b"ONE\nA"),
    ran("DO READ OUT ,1 / PLEASE GIVE UP", faults(241, 2)),
    ran("DO ,1 <- #1 BY #1 / PLEASE READ OUT ,1", faults(241, 3)),
    ran("DO ,1 <- #1 BY #1 / DO READ OUT ,1", faults(241, 3)),
    # choices, seeds and limits
    ran(OFTEN, Answer(3, b"", b"CHOICE WANTED AFTER 0 STEPS\n")),
    ran(OFTEN, ENDS, words=["--limit", "3", "--choices", "10"]),
    ran(OFTEN, ENDS, words=["--limit", "3", "--choices", "10111"]),
    ran(OFTEN, Answer(3, b"", b"LIMIT REACHED AFTER 3 STEPS\n"), words=["--limit", "3", "--choices", "110"]),
    ran(OFTEN, Answer(3, b"", b"CHOICE WANTED AFTER 1 STEPS\n"), words=["--limit", "3", "--choices", "1"]),
    ran(OFTEN, Answer(3, b"", b"CHOICE WANTED AFTER 0 STEPS\n"), words=["--choices=-"]),
    ran(OFTEN, Answer(3, b"", b"LIMIT REACHED AFTER 0 STEPS\n"), words=["--seed", "7", "--limit", "0"]),
    ran(OFTEN, Answer(3, b"", b"LIMIT REACHED AFTER 0 STEPS\n"), words=["--choices", "0*1000000", "--limit", "0"]),
    ran(OFTEN, faults(123, 2), words=["--choices", "1*80"]),
    ran(OFTEN, ENDS, words=["-b", "--choices", "0"]),
    refused("run", OFTEN, ["--seed", "1", "--choices", "0"], 64, "CHOICES AND SEED TOGETHER"),
    refused("run", OFTEN, ["--choices", "0*1000001"], 64, "NO SUCH RUN"),
    refused("run", OFTEN, ["--choices", "2"], 64, "BAD CURSOR"),
    refused("run", OFTEN, ["--choices", ""], 64, "BAD CURSOR"),
    refused("run", OFTEN, ["--choices="], 64, "BAD CURSOR"),
    # the first words that these seeds draw are 298703107, 866585574, 2442223337 and 2553256318: 1 is below 2 ^ 31
    ran(ASKS, prints(ONE), words=["--seed", "0"]),
    ran(ASKS, prints(ONE), words=["--seed", "1"]),
    ran(ASKS, ENDS, words=["--seed", "7"]),
    ran(ASKS, ENDS, words=["--seed", "18446744073709551615"]),
    # the second word of seed 7 is 414063806
    ran(BOTH, ENDS, words=["--seed", "7"]),
    ran(ARRAYS, prints(b"\nVII\n"), words=["--choices", "1"]),
]

LONG_RUNS = [f'{"1" * k}0 GIVE-UP ""' for k in range(64)] + [f'1*{k},0*1 GIVE-UP ""' for k in range(64, 80)] \
    + ['1*80 E123@1 ""']

RUNS = [
    listed(ASKS, ['0 GIVE-UP ""', '1 GIVE-UP "\\nI\\n"', "DONE"]),
    listed(ASKS, ['0 GIVE-UP ""', '1 GIVE-UP "\\nI\\n"', "DONE"], ["--count", "2"]),
    listed(ASKS, ['0 GIVE-UP ""', "MORE"], ["--count", "1"]),
    listed(OFTEN, ['0 GIVE-UP ""', '10 GIVE-UP ""', '110 LIMIT ""', '111 LIMIT ""', "DONE"], ["--limit", "3"]),
    listed(OFTEN, ['0 GIVE-UP ""', '10 GIVE-UP ""', '110 LIMIT ""', '111 LIMIT ""', "DONE"],
           ["--limit", "3", "--count", "4"]),
    listed(OFTEN, ['0 GIVE-UP ""', "MORE"], ["--limit", "3", "--count", "1"]),
    listed(OFTEN, ['- LIMIT ""', "DONE"], ["--limit", "0"]),
    listed(OFTEN, ["DONE"], ["--limit", "0", "--from=-"]),
    listed(OFTEN, ['110 LIMIT ""', "MORE"], ["--limit", "3", "--from", "10", "--count", "1"]),
    listed(OFTEN, ['110 LIMIT ""', '111 LIMIT ""', "DONE"], ["--limit", "3", "--from", "10", "--count", "2"]),
    listed(OFTEN, ["DONE"], ["--limit", "3", "--from", "111"]),
    refused("runs", OFTEN, ["--limit", "3", "--from", "1"], 64, "NO SUCH RUN"),
    refused("runs", OFTEN, ["--limit", "3", "--from", "100"], 64, "NO SUCH RUN"),
    refused("runs", OFTEN, ["--limit", "3", "--from", "2"], 64, "BAD CURSOR"),
    refused("runs", OFTEN, ["--limit", "3", "--from", ""], 64, "BAD CURSOR"),
    refused("runs", OFTEN, ["--limit", "1", "--from", "012"], 64, "BAD CURSOR"),
    refused("runs", OFTEN, ["--limit", "1", "--from", "01"], 64, "NO SUCH RUN"),
    listed("(1) DO (1) NEXT", ['- E123@1 ""', "DONE"], ["--limit", "100"]),
    listed("(1) DO (1) NEXT", ['- LIMIT ""', "DONE"], ["--limit", "79"]),
    listed(SILENCED, ['0 GIVE-UP "\\nI\\n"', '1 GIVE-UP ""', "DONE"]),
    listed(SILENCED, ['1 GIVE-UP ""', "DONE"], ["--from", "0"]),
    listed(SILENCED, ["DONE"], ["--from", "1"]),
    refused("runs", SILENCED, ["--from", "10"], 64, "NO SUCH RUN"),
    refused("runs", SILENCED, ["--from", "-"], 64, "NO SUCH RUN"),
    listed(BOTH, ['00 GIVE-UP "\\nI\\n"', '01 GIVE-UP ""', '10 GIVE-UP "\\nV\\n\\nI\\n"', '11 GIVE-UP "\\nV\\n"',
                  "DONE"]),
    listed(BOTH, ['10 GIVE-UP "\\nV\\n\\nI\\n"', "MORE"], ["--from", "01", "--count", "1"]),
    listed(BOTH, ['11 GIVE-UP "\\nV\\n"', "DONE"], ["--from", "1*1,0*1"]),
    listed(ARRAYS, ['0 E241@6 ""', '1 GIVE-UP "\\nVII\\n"', "DONE"]),
    listed(b"", ['- E633@0 ""', "DONE"]),
    listed("DO %0 READ OUT #1 / DO %100 READ OUT #2 / PLEASE GIVE UP", ['- GIVE-UP "\\nII\\n"', "DONE"]),
    listed("DO %50 WRITE IN .1 / DO WRITE IN .2 / PLEASE READ OUT .2 / DO GIVE UP",
           ['0 GIVE-UP "\\nI\\n"', '1 GIVE-UP "\\nII\\n"', "DONE"], entered="ONE / TWO"),
    listed("DO STASH .1 / DO %50 (1) NEXT / DO RETRIEVE .1 / (1) DO RETRIEVE .1 / PLEASE GIVE UP",
           ['0 E436@4 ""', '1 GIVE-UP ""', "DONE"]),
    listed("DO ,1 <- #2 / DO %50 (1) NEXT / DO ,1 <- #3 / (1) PLEASE ,1SUB#3 <- #1 / DO GIVE UP",
           ['0 GIVE-UP ""', '1 E241@4 ""', "DONE"]),
    listed("DO (1) NEXT / DO GIVE UP / (1) DO %50 (2) NEXT / (2) PLEASE RESUME #1 / DO FORGET #1",
           ['0 GIVE-UP ""', '1 GIVE-UP ""', "DONE"]),
    listed("DO ,1 <- #1 / DO ,1SUB#1 <- #238 / DO %50 READ OUT ,1 / PLEASE READ OUT ,1 / DO GIVE UP",
           ['0 GIVE-UP "H"', '1 GIVE-UP "H$"', "DONE"]),
    # neighbouring runs of one end have outputs of one length, or they have one output and other faults
    listed("DO .1 <- #1 / DO %50 .1 <- #5 / PLEASE READ OUT .1 / DO GIVE UP",
           ['0 GIVE-UP "\\nI\\n"', '1 GIVE-UP "\\nV\\n"', "DONE"]),
    listed("DO %50 RESUME #0 / DO %50 RESUME #0 / PLEASE RESUME #1",
           ['00 E632@3 ""', '01 E621@2 ""', '1 E621@1 ""', "DONE"]),
    # a list of more than 64 choices is printed in groups, and read so and plain
    listed(OFTEN, LONG_RUNS + ["DONE"], ["--limit", "100"]),
    listed(OFTEN, LONG_RUNS + ["DONE"], ["--limit", "100", "--count", "81"]),
    listed(OFTEN, LONG_RUNS[:80] + ["MORE"], ["--limit", "100", "--count", "80"]),
    listed(OFTEN, LONG_RUNS[63:65] + ["MORE"], ["--limit", "100", "--from", "1" * 62 + "0", "--count", "2"]),
    listed(OFTEN, ['1*80 E123@1 ""', "DONE"], ["--limit", "100", "--from", "1*79,0*1"]),
    listed(OFTEN, ['1*80 E123@1 ""', "DONE"], ["--limit", "100", "--from", "1" * 79 + "0"]),
    listed(OFTEN_AND_ONCE, ['1*63,0*2 GIVE-UP ""', '1*63,0*1,1*1 GIVE-UP ""', '1*64,0*2 GIVE-UP ""',
                            '1*64,0*1,1*1 GIVE-UP ""', "MORE"],
           ["--limit", "100", "--from", "1" * 62 + "01", "--count", "4"]),
    refused("runs", OFTEN, ["--limit", "100", "--from", "0*101"], 64, "NO SUCH RUN"),
    refused("runs", OFTEN, ["--limit", "100", "--from", "0*" + "9" * 30], 64, "NO SUCH RUN"),
    refused("runs", OFTEN, ["--limit", "100", "--from", "0*" + "9" * 30 + ","], 64, "BAD CURSOR"),
    refused("runs", OFTEN, ["--limit", "100", "--from", "0*0"], 64, "BAD CURSOR"),
    refused("runs", OFTEN, ["--limit", "100", "--from", "0*03"], 64, "BAD CURSOR"),
    refused("runs", OFTEN, ["--limit", "100", "--from", "0*2,0*1"], 64, "BAD CURSOR"),
    (Given("runs, input too long", ["runs", "FILE"], lines(OFTEN), b" " * 1_048_577),
     Answer(4, b"", b"INPUT TOO LONG\n")),
]

CHECK = [
    checked("PLEASE GIVE UP / PLEASE GIVE UP", 2, 2),
    checked(b"", 0, 0),
    checked("DO GIVE UP / DO GIVE UP / DO GIVE UP / DO GIVE UP", 4, 0),
    checked("DO READ OUT #1 / PLEASE GIVE UP", 2, 1),
    checked("HELLO", 1, 0),
    checked("PLEASE NOTE THAT THIS WOULD DO NOTHING / DO GIVE UP", 3, 1),
    checked("DO GIVE UP / DO GIVE UP / DO GIVE UP / DO GIVE UP / PLEASE GIVE UP", 5, 1),
    checked("DO GIVE UP / DO GIVE UP / DO GIVE UP / DO GIVE UP / PLEASE GIVE UP / PLEASE GIVE UP", 6, 2),
    uncompiled("check", "DO GIVE UP / DO GIVE UP / DO GIVE UP / DO GIVE UP / DO GIVE UP", 79, 6),
    uncompiled("check", "PLEASE GIVE UP / PLEASE GIVE UP / DO GIVE UP / DO GIVE UP / DO GIVE UP", 99, 6),
    uncompiled("check", "PLEASE GIVE UP / PLEASE GIVE UP / DO GIVE UP", 99, 4),
    uncompiled("check", "DO .70000 <- #1 / PLEASE READ OUT #70000", 17, 3),
    uncompiled("check", "(7) DO GIVE UP / (007) PLEASE GIVE UP", 182, 3),
    uncompiled("check", "(1) DO (9) NEXT / (1) DO ABSTAIN FROM (8)", 182, 3),
    uncompiled("check", "(99999999999999999999999) DO GIVE UP", 197, 2),
    uncompiled("check", "DO (7) NEXT", 129, 2),
    uncompiled("check", "DO ABSTAIN FROM (8) / DO (9) NEXT", 129, 3),
    uncompiled("check", "DO ABSTAIN FROM (8) / PLEASE GIVE UP", 139, 2),
    uncompiled("check", "DO REINSTATE (8)", 139, 2),
    uncompiled("check", "DO .0 <- #70000", 17, 2),
    uncompiled("check", "(70000) DO .0 <- #1", 200, 2),
    uncompiled("check", "DO (0) NEXT", 197, 2),
]


def items(source, *wanted):
    """A row by `list`, from FILE: the lines of its statements."""
    return listed(source, wanted, command="list")


def item(body, kind):
    """A row by `list`, from FILE: a source of one statement, and the kind of its body."""
    quoted = body.replace('"', '\\"')
    return items("DO " + body, f'1 - DO - 100 {kind} "DO {quoted}"')


LIST = [
    items("PLEASE NOTE THAT THIS WOULD DO NOTHING / DO GIVE UP",
          '1 - PLEASE NOT 100 UNRECOGNISED "PLEASE NOTE THAT THIS WOULD"', '2 - DO NOT 100 UNRECOGNISED "DO NOTHING"',
          '3 - DO - 100 GIVE-UP "DO GIVE UP"'),
    items(b""),
    items("HELLO", '1 - DO - 100 UNRECOGNISED "HELLO"'),
    items("(007) PLEASE DO %000000100 READ OUT #1 + #2",
          '1 (7) PLEASE - 100 READ-OUT "(007) PLEASE DO %000000100 READ OUT #1 + #2"'),
    # a byte that is escaped behind three that are not
    items('DO ".1', '1 - DO - 100 UNRECOGNISED "DO \\".1"'),
    items("DO \\.1", '1 - DO - 100 UNRECOGNISED "DO \\\\.1"'),
    items("DO  / GIVE UP", '1 - DO - 100 GIVE-UP "DO \\nGIVE UP"'),
    items("DO N'T %0 GIVE / UP", '1 - DO NOT 0 GIVE-UP "DO N\'T %0 GIVE\\nUP"'),
    uncompiled("list", "DO READ OUT #70000", 17, 2),
    uncompiled("list", "PLEASE GIVE UP / PLEASE GIVE UP / PLEASE GIVE UP", 99, 4),
    items("DO ABSTAIN FROM (5) DO READ OUT #1 (5) DO READ OUT #2 PLEASE GIVE UP",
          '1 - DO - 100 ABSTAIN "DO ABSTAIN FROM (5)"', '2 - DO - 100 READ-OUT "DO READ OUT #1"',
          '3 (5) DO - 100 READ-OUT "(5) DO READ OUT #2"', '4 - PLEASE - 100 GIVE-UP "PLEASE GIVE UP"'),
    items("(1) DO %50 (1) NEXT", '1 (1) DO - 50 NEXT "(1) DO %50 (1) NEXT"'),
    items("DO .1 <- #1 / DO ,1 <- #2 BY #3 / PLEASE (5) NEXT / DO FORGET #1 / DO RESUME #1 / (5) DO STASH .1 + ,2 / "
          "DO RETRIEVE :1 / PLEASE IGNORE ;1 / DO REMEMBER .1 / DO ABSTAIN FROM CALCULATING + READINGOUT / "
          "DO REINSTATE (5) / PLEASE WRITE IN .1 + ,2SUB#1 / DO READ OUT ,2SUB.1 / DO READ OUT #1~#1 / DO GIVE UP",
          '1 - DO - 100 CALCULATE "DO .1 <- #1"',
          '2 - DO - 100 CALCULATE "DO ,1 <- #2 BY #3"',
          '3 - PLEASE - 100 NEXT "PLEASE (5) NEXT"',
          '4 - DO - 100 FORGET "DO FORGET #1"',
          '5 - DO - 100 RESUME "DO RESUME #1"',
          '6 (5) DO - 100 STASH "(5) DO STASH .1 + ,2"',
          '7 - DO - 100 RETRIEVE "DO RETRIEVE :1"',
          '8 - PLEASE - 100 IGNORE "PLEASE IGNORE ;1"',
          '9 - DO - 100 REMEMBER "DO REMEMBER .1"',
          '10 - DO - 100 ABSTAIN "DO ABSTAIN FROM CALCULATING + READINGOUT"',
          '11 - DO - 100 REINSTATE "DO REINSTATE (5)"',
          '12 - PLEASE - 100 WRITE-IN "PLEASE WRITE IN .1 + ,2SUB#1"',
          '13 - DO - 100 READ-OUT "DO READ OUT ,2SUB.1"',
          '14 - DO - 100 UNRECOGNISED "DO READ OUT #1~#1"',
          '15 - DO - 100 GIVE-UP "DO GIVE UP"'),
    item("%99999999999999999999 GIVE UP", "UNRECOGNISED"),
    item(".1 <- !1~#5'", "CALCULATE"),
    item(".1 <- ,1SUB'.1''.2'", "CALCULATE"),
    item(".1 <- ',1SUB#1\"#2\"'", "CALCULATE"),
    item(".1 <- ',1SUB#1'#2''", "UNRECOGNISED"),
    item(".1 <- ,1SUB,2SUB#1#2", "CALCULATE"),
    item(".1 <- #&&77", "UNRECOGNISED"),
    item(".1 <- ,V1SUB#1", "UNRECOGNISED"),
]

# The rows of FILE alone, once more in the other ways to name a source.
AGAIN = again(CHECK, ["check"], ["check", "--", "FILE"]) + again(LIST, ["list"], ["list", "--", "FILE"]) \
    + again(RUN, ["run", "-b", "--", "FILE"], [], ["--"], ["run"]) \
    + again(RUNS, ["runs", "-b", "FILE"], ["runs", "--limit", "10000", "FILE"])

# The rows of these sources are swept too, and those of the last one also with no further page.
SWEPT = [row for row in RUN + RUNS
         if row[0].source in [lines(it) for it in (WIDE, ECHO, BOTH, ELEMENTS, LOST_ELEMENT, HIDDEN, ARRAYS)]]
PAGED = [row for row in SWEPT if row[0].source == lines(ARRAYS)] \
    + [row for row in PLAIN if row[0].name in ("the longest source", "the longest input of a listing")]
