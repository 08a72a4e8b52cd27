"""What the tests of the tools share: the program and the tools, and the tests of every tool."""
import glob
import os
import subprocess
import sys

sys.path.insert(0, os.path.join(os.path.dirname(os.path.realpath(__file__)), ".."))
from tally import SECONDS, TOP, Tally, called, content, programs, text_of, write  # noqa: E402

TOOLS = os.path.join(TOP, "tools")
EXAMPLES = sorted(glob.glob(os.path.join(TOP, "examples", "*.i")))
LIBRARY = [os.path.join(TOP, "library", name) for name in ("text.i", "arithmetic.i")]

sys.path.insert(0, TOOLS)


class ToolTally(Tally):
    """A tally of the tests of tools, with the programs `ick`, `ick-outcomes`, `ick-step` and `ick-stages`."""

    def __init__(self, program):
        super().__init__()
        self.program = os.path.realpath(program)
        self.outcomes, self.step, self.stages = (os.path.realpath(programs(None, crate)[0])
                                                 for crate in ("outcomes", "step", "stages"))
        os.environ["ICK_STAGES"] = self.stages  # also for what this process reads by ick_source

    def ick(self, *arguments, given=b""):
        return called([self.program, *arguments], given)

    def tool(self, name, *arguments, given=b"", path=None):
        environment = dict(os.environ, ICK_OUTCOMES=self.outcomes, ICK_STEP=self.step, ICK_STAGES=self.stages,
                           **({"PATH": path} if path is not None else {}))
        return called([sys.executable, "-W", "error", os.path.join(TOOLS, name), *arguments], given, environment)


def help_and_mistakes(tally, name, needs_input=False):
    """--help prints a page with an example; a wrong option is status 2; no traceback for a closed pipe."""
    status, out, err = tally.tool(name, "--help")
    tally.check(status == 0 and b"Example" in out and b"Exit status" in out and not err, f"{name} --help: {out!r} {err!r}")
    status, out, err = tally.tool(name, "--no-such-option")
    tally.check(status == 2 and not out and b"usage: " + name.encode() in err, f"{name}, wrong option: {status} {err!r}")
    status, out, err = tally.tool(name, *(["in"] if name == "ick-wimp" else []), "/no/such/file")
    tally.check(status == 2 and err == f"{name}: /no/such/file: No such file or directory\n".encode(),
                f"{name}, no file: {status} {err!r}")
    number_of_version(tally, name)


def closed_pipe(tally, name, arguments, given, said=b""):
    """A tool whose reader is gone ends, and says no more than it says else."""
    reading, writing = os.pipe()
    os.close(reading)
    done = subprocess.run([sys.executable, os.path.join(TOOLS, name), *arguments], input=given, stdout=writing,
                          stderr=subprocess.PIPE, timeout=SECONDS, check=False)
    os.close(writing)
    tally.equal(f"{name} into a closed pipe", done.stderr, said)


def full_disk(tally, name, arguments, given):
    """A tool whose output can't be written says so in one line, with status 4, and without a traceback."""
    for buffered in ("", "1"):
        for errors in (subprocess.PIPE, subprocess.STDOUT):
            with open("/dev/full", "wb") as full:
                done = subprocess.run([sys.executable, os.path.join(TOOLS, name), *arguments], input=given, stdout=full,
                                      stderr=errors, env=dict(os.environ, PYTHONUNBUFFERED=buffered), timeout=SECONDS,
                                      check=False)
            lines = (done.stderr or b"").splitlines()[-1:]
            tally.check(done.returncode == 4 and (errors != subprocess.PIPE or lines == [
                f"{name}: a read or a write failed: No space left on device".encode()]) and b"Traceback" not in
                (done.stderr or b""), f"{name} on a full disk: {done}")


def number_of_version(tally, name):
    tally.equal(f"{name} --version", tally.tool(name, "--version"), (0, f"{name} {text_of(TOP, 'VERSION')}".encode(), b""))
