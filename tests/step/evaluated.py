"""`eval` against calculations that `ick` runs."""
import random

from programs import Bodies
from tally import called, write

EXPRESSIONS = 120
# Statements that give variables and arrays their values. The calculation of an expression comes behind them.
SETUP = ["DO .1 <- #5", "PLEASE DO .2 <- #65535", "DO :1 <- #43690$#255", "DO ,1 <- #3", "PLEASE DO ,1 SUB #2 <- #20",
         "DO ;1 <- #2 BY #2", "DO ;1 SUB #2 #1 <- #7$#9", "DO STASH .2"]
WIDTHS = [("#5", b"5 (16 bits)\n"), (".1", b"5 (16 bits)\n"), (":1", b"2290671069 (32 bits)\n"),
          ("#1$#2", b"6 (32 bits)\n"), ("#3~#3", b"3 (16 bits)\n"), (":1~:1", b"65535 (16 bits)\n"),
          (",1 SUB #2", b"20 (16 bits)\n"), (";1 SUB #2 #1", b"107 (32 bits)\n"), (".9", b"0 (16 bits)\n"),
          (":9", b"0 (32 bits)\n"), ("#V3", b"32771 (16 bits)\n")]
NO_EXPRESSION = b"eval takes one expression, such as .1 ~ #3\n"
NO_EXPRESSIONS = ["", "#", ".1 +", ".1 DO GIVE UP", ".1 PLEASE", "#1 (5) DO .1 <- #2", "NOT #1", "#1 BY #2", ",1", "DO"]


def halves(number):
    """Returns the two numbers whose mingle is this number."""
    bits = f"{number:032b}"
    return int(bits[::2], 2), int(bits[1::2], 2)


def program_of(*bodies):
    lines = [*SETUP, *bodies, "PLEASE GIVE UP"]
    return "".join(line + "\n" for line in lines).encode()


def evaluated(steps, *expressions):
    """Returns the answers of `eval` in the state behind the setup, and checks that the state stays as it is."""
    asked = [f"until {len(SETUP) + 1}", "state", *(f"eval {one}" for one in expressions), "state"]
    _, before, *found, after = steps.answers(asked)
    steps.tally.equal("the state behind eval", after, before)
    return found


def compare(steps, number):
    """Compares the value or the fault of a random expression with a run that calculates it."""
    bodies = Bodies(random.Random(f"eval {number}"), [])
    bodies.sizes = {",1": [3], ";1": [2, 2]}
    expression = bodies.expression()
    write(steps.source, program_of(f"DO :9 <- {expression}", "DO READ OUT :9"))
    status, printed, errors = called([steps.ick, "run", steps.source])
    found, = evaluated(steps, expression)
    if status:
        steps.tally.equal(f"eval {expression}", found, errors)
        return
    value, _, width = found.partition(b" ")
    high, low = halves(int(value))
    write(steps.source, program_of(f"DO :9 <- #{high}$#{low}", "DO READ OUT :9"))
    wanted = called([steps.ick, "run", steps.source])[1]
    steps.tally.equal(f"eval {expression}: {found}", (printed, width in (b"(16 bits)\n", b"(32 bits)\n")), (wanted, True))


def evaluate(steps):
    write(steps.input, b"")
    write(steps.source, program_of())
    for (expression, wanted), found in zip(WIDTHS, evaluated(steps, *(it[0] for it in WIDTHS))):
        steps.tally.equal(f"eval {expression}", found, wanted)
    for expression, found in zip(NO_EXPRESSIONS, evaluated(steps, *NO_EXPRESSIONS)):
        steps.tally.equal(f"eval {expression}", found, NO_EXPRESSION)
    for expression, fault in (("#65536", b"ICL017I"), (".65536", b"ICL200I"), (".0", b"ICL200I"), (",1 SUB #4", b"ICL241I")):
        steps.tally.equal(f"the fault of {expression}", evaluated(steps, expression)[0][:7], fault)
    for number in range(EXPRESSIONS):
        compare(steps, number)
