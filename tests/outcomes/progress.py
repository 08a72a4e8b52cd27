"""What is shown of long work: lines on the error stream if it is a terminal, none elsewhere, and the same output."""
import os
import re
import subprocess
import tempfile
import tty

from tally import write

# 17 coins, each of a variable of its own. So there are 2^18 - 1 states. The two edges of a state with a choice have one
# step, or two if the coin is the last. So 250,001 states are found by 65,535 * 2 + 59,465 * 4 steps.
COINS = "".join(f"{'PLEASE ' if at % 4 == 0 else ''}DO %50 .{at + 1} <- #1\n" for at in range(17)) + "PLEASE GIVE UP\n"
# Two rings of sixteen places, on which chances turn a bit. The weights of their 256 states are long fractions.
TURN = "DO %{0} .{1} <- \"?.{1}$'?.{1}'\"~'#0$#65535'\n"
RINGS = ("PLEASE DO .1 <- #1\nDO .2 <- #1\n(1) DO FORGET #1\nDO %10 GIVE UP\n" + TURN.format(37, 1)
         + TURN.format(29, 2) + "PLEASE DO (1) NEXT\n")
REMOVED = rb"\r {20}\r"


def at_terminal(command):
    """Returns the exit status, the output and the standard error of a command whose standard error is a terminal."""
    ours, theirs = os.openpty()
    tty.setraw(theirs)
    with tempfile.TemporaryFile() as output:
        with subprocess.Popen(command, stdin=subprocess.DEVNULL, stdout=output, stderr=theirs) as running:
            os.close(theirs)
            errors = b""
            # A terminal that nobody has open any more is at its end by an error.
            try:
                while more := os.read(ours, 4096):
                    errors += more
            except OSError:
                pass
        os.close(ours)
        output.seek(0)
        return running.returncode, output.read(), errors


class Progress:
    """The tests of what is shown of long work, beside those of Outcomes, which has `outcomes`."""

    def shown(self, name, source, shown, *options, message=b""):
        """Compares a call at a terminal with one whose standard error is a pipe."""
        write(self.source, source.encode())
        status, output, errors = self.outcomes(*options)
        self.tally.equal(f"{name}: nothing is shown to a pipe", errors, message)
        at = at_terminal([self.program, *options, self.source])
        self.tally.equal(f"{name}: the same at a terminal", at[:2], (status, output))
        self.tally.check(re.fullmatch(shown + re.escape(message), at[2]), f"{name}: what is shown\n  {at[2]}")

    def progress(self):
        self.shown("states", COINS, rb"\r100000 STATES\r200000 STATES" + REMOVED)
        self.shown("states that are printed", COINS, rb"\r100000 STATES\r200000 STATES" + REMOVED, "--states")
        self.shown("too many states", COINS, rb"\r100000 STATES" + REMOVED, "--states", "--most", "250000",
                   message=b"TOO MANY STATES: 250000 IN 368930 STEPS\n")
        self.shown("primes", RINGS, rb"\r10 PRIMES {10}\r20 PRIMES {10}(\r\d+ PRIMES {10})+" + REMOVED)
        self.shown("short work", "PLEASE GIVE UP\n", b"")
        self.shown("work under a limit", COINS, b"", "--limit", "100")
