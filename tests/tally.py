"""What the parts of the tests share: a tally with its one way to print a failure, the programs that are tried, and the
commands that are called.
"""
import importlib.util
import os
import shutil
import subprocess
import sys
import tempfile

TOP = os.path.dirname(os.path.dirname(os.path.realpath(__file__)))
SECONDS = 600
SHOWN = 1000
# The environment variable that names a crate's program.
VARIABLES = {"ick": "ICK", "outcomes": "ICK_OUTCOMES", "step": "ICK_STEP", "stages": "ICK_STAGES"}


class Tally:
    """Counts checks, and prints each that fails. A quiet tally keeps these texts for `add`, as other processes need."""

    def __init__(self, quiet=False):
        self.passed = self.failed = 0
        self.untried = []
        self.kept = [] if quiet else None

    def say(self, text):
        if self.kept is None:
            print(text, flush=True)
        else:
            self.kept.append(text)

    def check(self, holds, complaint):
        """Counts a check. Returns whether it holds."""
        if holds:
            self.passed += 1
        else:
            self.failed += 1
            self.say(complaint)
        return bool(holds)

    def equal(self, name, found, wanted):
        if found == wanted:
            return self.check(True, name)
        return self.check(False, f"{name}\n  wanted {str(wanted)[:SHOWN]}\n  found  {str(found)[:SHOWN]}")

    def add(self, passed, failed, texts=()):
        """Counts what another tally counted, and prints what it kept."""
        self.passed += passed
        self.failed += failed
        for text in texts:
            self.say(text)

    def lacks(self, command, what):
        """Whether a command isn't there, so that something is not tried."""
        if shutil.which(command):
            return False
        self.untried.append(f"{what} ({command})")
        return True

    def lacks_module(self, module, what):
        """Whether a module of Python isn't there, so that something is not tried."""
        if importlib.util.find_spec(module):
            return False
        self.untried.append(f"{what} (the module {module} of Python)")
        return True

    def end(self):
        """Prints what was not tried and the result, and ends the part with its exit status."""
        for text in self.untried:
            print(f"not tried: {text}")
        print(f"{self.passed} passed, {self.failed} failed")
        sys.exit(self.failed > 0)


def program_named(usage):
    """Returns the program that the one argument names, or None. Prints the usage if the arguments are others."""
    if len(sys.argv) > 2 or sys.argv[1:] in (["-h"], ["--help"]):
        sys.exit(usage)
    return sys.argv[1] if len(sys.argv) > 1 else None


def programs(named, crate="ick"):
    """Returns the programs to try: the named one, or that of the crate's environment variable, or the two that `rt ci`
    leaves, as the two compilers built them.
    """
    named = named or os.environ.get(VARIABLES.get(crate, ""))
    if named:
        return [os.path.abspath(named)]
    return [f"{TOP}/crates/{crate}/out/{crate}{ending}" for ending in ("", ".by-rattle")]


def installed_programs(named):
    """Returns the first of the programs to try under each name by which it is installed."""
    return {"ick": programs(named)[0], "ick-outcomes": programs(None, "outcomes")[0],
            "ick-step": programs(None, "step")[0], "ick-stages": programs(None, "stages")[0]}


def try_programs(part, named, crate="ick"):
    """Tries each program by part(tally, program, folder).all(), and ends with the sum."""
    tally = Tally()
    try_each(tally, part, named, crate)
    tally.end()


def try_each(tally, part, named, crate):
    """Tries each program by part(tally, program, folder).all()."""
    for program in programs(named, crate):
        tally.say(f"== {program}")
        if not os.access(program, os.X_OK):
            tally.check(False, f"{program} isn't there. `rt ci` builds the programs that are tested")
            continue
        with tempfile.TemporaryDirectory() as folder:
            part(tally, program, folder).all()


def called(command, given=b"", environment=None):
    """Returns the exit status, the output and the standard error of a command, as bytes."""
    done = subprocess.run(command, input=given, capture_output=True, timeout=SECONDS, env=environment, check=False)
    return done.returncode, done.stdout, done.stderr


def do(*command, **more):
    """Runs a command without input. Returns what it did: its exit status, and what it wrote, as texts."""
    return subprocess.run(command, stdin=subprocess.DEVNULL, capture_output=True, text=True, check=False, **more)


def content(*path):
    with open(os.path.join(*path), "rb") as file:
        return file.read()


def text_of(*path):
    with open(os.path.join(*path), encoding="utf-8") as file:
        return file.read()


def write(path, data):
    with open(path, "wb") as file:
        file.write(data)
