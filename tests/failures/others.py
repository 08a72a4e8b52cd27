"""Rows of ick-outcomes, ick-step and ick-stages over which every call of the system fails: words, what they are given,
and what they leave. All answers are absolute: they come from chapters 14, 10, 11 and 12 of docs/MANUAL.md, and from no
run.
"""
from table import CHANCES, ECHOES, ENTERED, LISTED_RUNS, REFUSAL, REFUSED, SOURCE, TALKS, Answer, Given

# Files beside the source, by the words that name them.
FILES = {"listing": LISTED_RUNS, "entered": ENTERED}

COINS = b"""DO %50 .1 <- '.1$#1'~'#32767$#1'
DO %50 .1 <- '.1$#1'~'#32767$#1'
PLEASE READ OUT .1
DO GIVE UP
"""
TOSSED = b"""1 0.25 00 GIVE-UP "_\\n\\n"
2 0.5 01 GIVE-UP "\\nI\\n"
1 0.25 11 GIVE-UP "\\nIII\\n"
DONE
"""
# A coin that is thrown until it shows a 0.
THROWN = b"(1) DO FORGET #1\nPLEASE %50 (1) NEXT\nDO READ OUT #1\nDO GIVE UP\n"
ENDLESS = b'* 1 0 GIVE-UP "\\nI\\n"\nDONE\n'
# A coin before a loop without an end.
CAUGHT = b"DO %50 GIVE UP\n(1) DO FORGET #1\nPLEASE (1) NEXT\n"
# The choice takes a step to GIVE UP, and 10,001 steps into the loop.
UNFINISHED = b"TOO MANY STATES: 2 IN 10002 STEPS; TRY --limit 10000 OR --ends\n"
# Without its first WRITE IN the program takes two bytes of SIX, and its second number is the rest of this line.
TALKED_OF = b"""1 0.5 0 E579@5 "\\nI\\n_\\n\\n"
1 0.5 1 GIVE-UP "\\nI\\n\\nVI\\n\\nLXV\\n\\nI\\n\\nIX\\n"
DONE
"""
OUTCOMES = [
    (Given("outcomes", ["FILE"], COINS, b""), Answer(0, TOSSED, b"")),
    (Given("outcomes of standard input", ["--total"], COINS, SOURCE), Answer(0, b"3 OUTCOMES, 4 RUNS\n", b"")),
    (Given("outcomes with input", ["FILE"], TALKS, ENTERED), Answer(0, TALKED_OF, b"")),
    (Given("choices that were asked", ["--asked", "listing", "FILE"], CHANCES, b""), Answer(0, b"2:50\n2:50\n", b"")),
    (Given("infinitely many runs", ["FILE"], THROWN, b""), Answer(0, ENDLESS, b"")),
    (Given("outcomes under a limit", ["--limit", "10", "FILE"], COINS, b""), Answer(0, TOSSED, b"")),
    (Given("too few states", ["--most", "2", "FILE"], CAUGHT, b""), Answer(4, b"", UNFINISHED)),
    (Given("too many states", ["--most", "1", "FILE"], COINS, b""), Answer(4, b"", b"TOO MANY STATES\n")),
    (Given("outcomes of a refused source", ["FILE"], REFUSED, b""), REFUSAL),
    (Given("outcomes of no file", ["no-such-file"], b"", b""), Answer(4, b"", b"FILE NOT READ\n")),
]

COMMANDS = b"""run
choose 1
step 2
back
print .1 ,1
why .1
cursor
no
"""
ANSWERS = b"""0 1 1:1 "DO READ OUT #1"
  prints "\\nI\\n"
1 2 2:1 "DO %50 WRITE IN .1"
  asks %50
2 3 3:1 "PLEASE READ OUT .1"
  prints "\\nVI\\n"
4 5 5:1 "DO WRITE IN ,1 + .2"
3 4 4:1 "DO ,1 <- #2"
.1 = 6
,1 = no dimensions
.1 = 6, changed by statement 2
1 2 2:1 "DO %50 WRITE IN .1"
  asks %50
-
unknown command; did you mean next? help lists all commands
"""
TRACE = b"""0 1 1:1 "DO READ OUT #1"
  prints "\\nI\\n"
1 2 2:1 "DO %50 WRITE IN .1"
  asks %50: 1
  reads "SIX\\n"
  .1 = 6
2 3 3:1 "PLEASE READ OUT .1"
  prints "\\nVI\\n"
3 4 4:1 "DO ,1 <- #2"
  ,1 = 2: 0 0
4 5 5:1 "DO WRITE IN ,1 + .2"
  reads "ABoh NINER\\n"
  ,1 = 2: 65 1
  .2 = 9
5 6 6:1 "PLEASE READ OUT ,1SUB#1 + ,1SUB#2 + .2"
  prints "\\nLXV\\n\\nI\\n\\nIX\\n"
6 7 7:1 "DO GIVE UP"
7 ended: GIVE UP
"""
WANTED = b"""0 1 1:1 "DO READ OUT #1"
  prints "\\nI\\n"
1 2 2:1 "DO %50 GIVE UP"
  asks %50
"""
STEP = [
    (Given("a session", ["--input", "entered", "FILE"], TALKS, COMMANDS), Answer(0, ANSWERS, b"")),
    (Given("a trace", ["--trace", "--choices", "1", "--input", "entered", "FILE"], TALKS, b""), Answer(0, TRACE, b"")),
    (Given("a trace of standard input", ["--trace"], CHANCES, SOURCE),
     Answer(3, WANTED, b"CHOICE WANTED AFTER 1 STEPS\n")),
    (Given("a session of a refused source", ["FILE"], REFUSED, b""), REFUSAL),
    (Given("a session of no input", ["--input", "no-such-file", "FILE"], ECHOES, b""),
     Answer(4, b"", b"FILE NOT READ\n")),
]

# A statement that is half of another value, and one that a trace comes to by a NEXT and a FORGET.
SHOWN = b"""DO .1 <- .1~#3
DO (1) NEXT
(1) PLEASE FORGET #1
DO GIVE UP
"""
STAGES_SHOWN = b"""1 1:1 - DO - 100 CALCULATE "DO .1 <- .1~#3"
  tree .1 <- (.1 ~ #3)
  operation 1 1 Load .1
  operation 2 2 Constant 3
  operation 3 1 Select
  operation 4 0 Store .1
  part 1 9-11
  part 2 12-14
  part 3 9-14
  part 4 3-14
  rule 1 read-in-place -> .1, 16 bits
  rule 3 select-a-field: t1 = Field .1 0 00000003 -> t1, 16 bits, ones 00000003, .1 & 00000003
  rule 4 calculate-into-the-scalar: .1 = Field .1 0 00000003
  instruction 1 by 3 4: .1 = Field .1 0 00000003
  trace 0 1: .1 = Field .1 0 00000003
  trace 1 2: -
  trace 2 3 pending 3: -
  trace 3 4: Stop
2 2:1 - DO - 100 NEXT "DO (1) NEXT"
  tree (1) NEXT
  operation 1 0 Call 3
  part 1 3-11
  rule 1 as-it-is: Call 3
  instruction 1 by 1: Call 3
3 3:1 (1) PLEASE - 100 FORGET "(1) PLEASE FORGET #1"
  tree FORGET #1
  operation 1 1 Constant 1
  operation 2 0 Forget
  part 1 18-20
  part 2 11-20
  rule 2 as-it-is: Forget #1
  instruction 1 by 2: Forget #1
4 4:1 - DO - 100 GIVE-UP "DO GIVE UP"
  tree GIVE UP
  operation 1 0 Stop
  part 1 3-10
  rule 1 as-it-is: Stop
  instruction 1 by 1: Stop
DONE
"""
INSTRUCTIONS = b"""3 3:1 (1) PLEASE - 100 FORGET "(1) PLEASE FORGET #1"
  instruction 1 by 2: Forget #1
DONE
"""
REFUSED_SHOWN = b"""1 1:1 - DO - 100 READ-OUT "DO READ OUT #70000"
  tree -
  part 1 12-18
  part 2 12-18
2 2:1 - PLEASE - 100 GIVE-UP "PLEASE GIVE UP"
  tree GIVE UP
  part 1 7-14
REFUSED 17 1
"""
STAGES = [
    (Given("stages", ["FILE"], SHOWN, b""), Answer(0, STAGES_SHOWN, b"")),
    (Given("stages of standard input", ["--instructions", "--statement", "3"], SHOWN, SOURCE),
     Answer(0, INSTRUCTIONS, b"")),
    (Given("stages of no statement", ["--statement", "5", "FILE"], SHOWN, b""),
     Answer(64, b"", b"NO SUCH STATEMENT\n")),
    (Given("stages of a refused source", ["FILE"], REFUSED, b""), REFUSAL._replace(output=REFUSED_SHOWN)),
    (Given("stages of no file", ["no-such-file"], b"", b""), Answer(4, b"", b"FILE NOT READ\n")),
]
