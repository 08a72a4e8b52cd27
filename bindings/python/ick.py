#!/usr/bin/env python3
"""Runs and explores INTERCAL-72 programs by the proved ick.

    import ick
    print(ick.run("DO READ OUT #1972 PLEASE GIVE UP").output.decode())
    for run in ick.runs("DO %50 READ OUT #5\\nPLEASE GIVE UP"):
        print(run.choices, run.end, run.output)
    for outcome in ick.outcomes("DO %30 READ OUT #5\\nPLEASE GIVE UP"):
        print(outcome.count, outcome.weight, outcome.output)
    print(ick.steps("DO .1 <- #5\\nPLEASE GIVE UP", ["step", "print .1"]).decode())
    print(ick.stages("DO .1 <- #5\\nPLEASE GIVE UP", statement=1).decode())
    with ick.Session("DO .1 <- #5\\nPLEASE GIVE UP") as session:
        print(session.do("step"), session.do("print .1"))

A source and an input are bytes, or a text that is written in UTF-8. An option that isn't given is the program's own.
Each call but `serve` and those that begin with `serve_` raises Refused if ick doesn't do what was asked: the source is
refused (status 2), memory runs out (4), or an argument is wrong (64). A run that ends by a fault (1), or for want of
steps or choices (3), is an answer.
`from ick import *` leaves out `list`, because Python has a function of that name: call `ick.list`.
The calls of the main thread are made in a process beside this one. An exception that comes before the answer, as the
KeyboardInterrupt of Ctrl-C or one of a signal handler, ends the call with that process, and the next call starts another.
The calls of other threads are made in this process, at the same time.

As a program, `python3 ick.py ARGUMENT..` does what ick does. If its last argument names a file that can be read, that
is the source.

The module loads libick.so, which bindings/build makes: the one that the environment variable ICK_LIBRARY names, or
that beside this file, or that in ../out, or else the system's. A Session starts the program ick-step: the one that the
environment variable ICK_STEP names, or that beside this file, of this repository or of this install, or on the PATH.
"""
import atexit
import contextlib
import ctypes
import fractions
import functools
import mmap
import os
import pickle
import re
import shutil
import signal
import subprocess
import sys
import threading
from typing import NamedTuple, Optional

__all__ = ["Answer", "Asker", "Outcome", "Refused", "Run", "Session", "Statement", "Summary", "asked", "check", "outcomes", "run",
           "runs", "serve", "serve_outcomes", "serve_stages", "serve_step", "stages", "steps", "trace", "version"]

# Sizes of the room for a text. The module takes the first size that the system grants. No text is longer than the first
# one. A room is only addresses: a page of it takes memory when a text is written there.
ROOMS = (1 << 40, 1 << 32, 1 << 16)
NO_RESERVE = getattr(mmap, "MAP_NORESERVE", 0x4000)  # Python before 3.11 doesn't name it
RUN = re.compile(rb'(\S+) (\S+) "(.*)"')
OUTCOME = re.compile(rb'(\d+|\*) (\S+) (\S+) (\S+) "(.*)"')
STATEMENT = re.compile(rb'(\d+) (\S+) (\S+) (\S+) (\d+) (\S+) "(.*)"')
SUMMARY = re.compile(rb"(\d+) STATEMENTS, (\d+) POLITE\n")
NO_COMMAND = b"unknown command; help lists all commands\n"
CODE = re.compile(rb'\\(?:x(..)|(.))')


class Answer(NamedTuple):
    """What ick leaves: the exit status, and the bytes of standard output and of standard error."""

    status: int
    output: bytes
    errors: bytes


class Run(NamedTuple):
    """A run in a listing: its choices, which are its cursor too; GIVE-UP, LIMIT or Ennn@j; and its output."""

    choices: str
    end: str
    output: bytes


class Outcome(NamedTuple):
    """An outcome: the number of its runs, their weight, the choices of the first of them, their end and their output.

    The count is None if the runs are infinitely many. The end NEVER is that of the runs that never end.
    """

    count: Optional[int]
    weight: fractions.Fraction
    first: str
    end: str
    output: bytes


class Asker(NamedTuple):
    """The statement that asked for a choice: its number, and its chance in hundredths."""

    statement: int
    chance: int


class Statement(NamedTuple):
    """A statement as ick read it."""

    number: int
    label: "int | None"
    polite: bool
    abstained: bool
    chance: int
    kind: str
    text: bytes


class Summary(NamedTuple):
    """How many statements a program has, and how many of them are polite."""

    statements: int
    polite: int


class Refused(Exception):
    """ick didn't do what was asked. The exception has the whole answer."""

    def __init__(self, answer):
        super().__init__(f"status {answer.status}: {answer.errors.decode('utf-8', 'replace').rstrip()}")
        self.answer = answer


class Lengths(ctypes.Structure):
    _fields_ = [("output", ctypes.c_size_t), ("errors", ctypes.c_size_t)]


@functools.lru_cache(maxsize=None)
def library():
    """Returns the library with its functions. Raises OSError if there is no library."""
    here = os.path.dirname(os.path.realpath(__file__))
    places = [os.path.join(here, "libick.so"), os.path.join(here, "..", "out", "libick.so")]
    named = os.environ.get("ICK_LIBRARY") or next(filter(os.path.exists, places), "libick.so")
    loaded = ctypes.CDLL(os.path.abspath(named) if os.path.dirname(named) else named)
    text = [ctypes.c_char_p, ctypes.c_size_t]
    room = [ctypes.c_void_p, ctypes.c_size_t]
    for function, texts in ((loaded.ick_serve, 3), (loaded.ick_outcomes_serve, 4), (loaded.ick_step_serve, 4),
                            (loaded.ick_stages_serve, 3)):
        function.argtypes = text * texts + room * 2 + [ctypes.POINTER(Lengths)]
        function.restype = ctypes.c_uint8
    loaded.ick_version.argtypes, loaded.ick_version.restype = [], ctypes.c_uint32
    return loaded


def version():
    """Returns the library's version, as `0.1.0`."""
    number = library().ick_version()
    return f"{number // 1000000}.{number // 1000 % 1000}.{number % 1000}"


def serve(arguments, file=b"", input=b""):
    """Returns what `ick ARGUMENT..` leaves if each file has these bytes, and standard input has this input."""
    return served("ick_serve", arguments, file, input)


def serve_outcomes(arguments, file=b"", listing=b"", input=b""):
    """Returns what `ick-outcomes ARGUMENT..` leaves if each FILE and each LISTING has these bytes."""
    return served("ick_outcomes_serve", arguments, file, listing, input)


def serve_step(arguments, file=b"", input=b"", commands=b""):
    """Returns what `ick-step ARGUMENT..` leaves if standard input has these commands.

    The file that `--input` names has this input, and FILE has these bytes.
    """
    return served("ick_step_serve", arguments, file, input, commands)


def serve_stages(arguments, file=b"", input=b""):
    """Returns what `ick-stages ARGUMENT..` leaves if each FILE has these bytes, and standard input has this input."""
    return served("ick_stages_serve", arguments, file, input)


def served(name, arguments, *contents):
    """Has a function of the library called, in the process for the main thread's calls or in this one."""
    given = [ended(map(bytes_of, arguments)), *map(bytes_of, contents)]
    library()
    if threading.current_thread() is threading.main_thread():
        with contextlib.suppress(NoWorker):
            return Worker.ready().answer(name, given)
    return made(name, given)


def ended(words):
    """Returns arguments as the library takes them: a byte 0 follows each of them."""
    words = [*words]
    if any(b"\0" in word for word in words):
        raise ValueError("an argument has a byte 0")
    return b"".join(word + b"\0" for word in words)


class NoWorker(Exception):
    """No process could be started."""


class Worker:
    """A process that makes one call after the other. Ending it ends its call."""

    last = None

    def __init__(self):
        words = [sys.executable, "-c", WORK, os.path.realpath(__file__)]
        try:
            self.process = subprocess.Popen(words, stdin=subprocess.PIPE, stdout=subprocess.PIPE, start_new_session=True,
                                            env={**os.environ, "ICK_LIBRARY": library()._name})
        except (OSError, TypeError) as error:  # there may be no path of Python
            raise NoWorker from error
        self.owner, self.calls = os.getpid(), False
        atexit.register(self.end)

    @classmethod
    def ready(cls):
        """Returns a worker of this process that makes no call. A signal's handler can come while one makes a call."""
        found = cls.last
        if found is None or found.owner != os.getpid() or found.calls or found.process.poll() is not None:
            cls.last = cls()
        return cls.last

    def answer(self, name, given):
        """Has a function of the library called. Ends the call if an exception comes before its answer.

        Raises ChildProcessError if the process ends before, as it does if the system kills it for its memory.
        """
        try:
            self.calls = True
            pickle.dump((name, given), self.process.stdin)
            self.process.stdin.flush()
            answer = pickle.load(self.process.stdout)
            self.calls = False
        except BaseException as error:
            self.end()
            if isinstance(error, (BrokenPipeError, EOFError, pickle.UnpicklingError)):
                raise ChildProcessError("the process of a call ended before its answer") from error
            raise
        if self is not Worker.last:
            self.end()
        if isinstance(answer, Exception):
            raise answer
        return Answer(*answer)

    def end(self):
        """Ends the process, unless it is that of the process that forked this one."""
        atexit.unregister(self.end)
        if self.owner == os.getpid():
            self.process.kill()
            self.process.wait()
            for stream in (self.process.stdin, self.process.stdout):
                with contextlib.suppress(OSError):
                    stream.close()


# The program of a worker, which loads this module from its file.
WORK = """
import importlib.util, sys
spec = importlib.util.spec_from_file_location("ick", sys.argv[1])
ick = importlib.util.module_from_spec(spec)
spec.loader.exec_module(ick)
ick.work()
"""
PR_SET_PDEATHSIG = 1


def work():
    """Makes the calls that standard input has. The process ends with the input, or when its caller's process ends."""
    ctypes.CDLL(None).prctl(PR_SET_PDEATHSIG, signal.SIGKILL)
    with contextlib.suppress(EOFError):
        while True:
            name, given = pickle.load(sys.stdin.buffer)
            try:
                answer = tuple(made(name, given))
            except Exception as error:
                answer = error
            pickle.dump(answer, sys.stdout.buffer)
            sys.stdout.buffer.flush()


def made(name, given):
    """Calls a function of the library with rooms that its texts fit in. Returns its status and its texts."""
    function = getattr(library(), name)
    texts = [part for content in given for part in (content, len(content))]
    lengths = Lengths()
    rooms = [room_for(0), room_for(0)]
    while True:
        starts = [ctypes.byref(ctypes.c_char.from_buffer(room)) for room in rooms]
        status = function(*texts, starts[0], len(rooms[0]), starts[1], len(rooms[1]), ctypes.byref(lengths))
        sizes = lengths.output, lengths.errors
        if all(size <= len(room) for size, room in zip(sizes, rooms)):
            return Answer(status, *(room[:size] for size, room in zip(sizes, rooms)))
        # the system refused rooms for any text
        rooms = [room_for(size) for size in sizes]


def room_for(least):
    """Returns memory for a text of at least so many bytes."""
    for size in (*(size for size in ROOMS if size >= least), max(least, 1)):
        with contextlib.suppress(OSError):
            room = mmap.mmap(-1, size, flags=mmap.MAP_PRIVATE | mmap.MAP_ANONYMOUS | NO_RESERVE)
            with contextlib.suppress(OSError):
                room.madvise(mmap.MADV_NOHUGEPAGE)  # a short text takes a page, and not two million bytes
            return room
    raise MemoryError


def run(source, input=b"", choices=None, seed=None, limit=None):
    """Runs a program once, and returns what `ick run` leaves: status 0 for a GIVE UP, 1 for a fault, 3 for no end."""
    return done(["run", *options(choices=choices, seed=seed, limit=limit), "program"], source, input, (0, 1, 3))


def runs(source, input=b"", after=None, limit=None, count=1000):
    """Yields every run of a program in order, or every run after that with the choices `after`.

    The runs are listed in parts of at most `count` runs, each when it is needed. Raises Refused if ick refuses the
    source, the choices or the input, or if memory runs out.
    """
    more = True
    while more:
        given = ["runs", *options(limit=limit, count=count, **{"from": after}), "program"]
        *lines, last = done(given, source, input).output.splitlines()
        for line in lines:
            choices, end, output = RUN.fullmatch(line).groups()
            after = choices.decode()
            yield Run(after, end.decode(), unquoted(output))
        more = last == b"MORE"


def outcomes(source, input=b"", limit=None, most=None):
    """Returns every outcome of a program once, in the order of their first runs, with exact weights.

    Without a limit runs may have any length. Raises Refused if ick refuses the source or the input, if more states would
    be kept than `most`, or if memory runs out.
    """
    given = ["--exact", *options(limit=limit, most=most), "program"]
    *lines, _ = answered(serve_outcomes(given, source, input=input)).output.splitlines()
    return [outcome_of(line) for line in lines]


def asked(source, listing, input=b"", limit=None):
    """Returns, for each run of a listing, the statements that asked for its first 10,000 choices."""
    given = [*options(limit=limit, asked="listing"), "program"]
    lines = answered(serve_outcomes(given, source, listing, input)).output.splitlines()
    return [[Asker(*map(int, asker.split(b":"))) for asker in line.split()] for line in lines]


def steps(source, commands=(), input=b"", choices=None, seed=None, limit=None):
    """Returns what a session prints: first where the run begins, then the answer to each command.

    Nothing is kept from one call to the next; a Session keeps its state. Raises Refused if ick refuses the source, the
    choices or the input, or if memory runs out.
    """
    given = [*options(input="input", choices=choices, seed=seed, limit=limit), "program"]
    lines = b"".join(bytes_of(command) + b"\n" for command in commands)
    return answered(serve_step(given, source, input, lines)).output


def stages(source, statement=None):
    """Returns what ick-stages prints: for each statement, or for the one of a number, its line, its tree, its operations,
    its rules, its instructions and the trace that begins with it.

    Raises Refused if ick refuses the source, if there is no such statement, or if memory runs out.
    """
    return answered(serve_stages([*options(statement=statement), "program"], source)).output


def step_program():
    """Returns the path of the program ick-step."""
    here = os.path.dirname(os.path.realpath(__file__))
    places = [os.path.join(here, place) for place in ("ick-step", "../../bin/ick-step", "../../../bin/ick-step")]
    for found in (os.environ.get("ICK_STEP"), *places, shutil.which("ick-step")):
        if found and os.access(found, os.X_OK):
            return found
    raise FileNotFoundError("there is no program ick-step; the environment variable ICK_STEP can name it")


def memory_file(content):
    """Returns a descriptor of a file in memory, at its beginning."""
    number = os.memfd_create("ick")
    with open(number, "wb", closefd=False) as file:
        file.write(content)
    os.lseek(number, 0, os.SEEK_SET)
    return number


class Session:
    """A session of ick-step, in a process of its own, which keeps its state from one command to the next.

    `start` has what a session prints first: where the run begins. Raises Refused if ick refuses the source, the choices
    or the input, or if memory runs out. An exception that comes before an answer ends the session.
    """

    def __init__(self, source, input=b"", choices=None, seed=None, limit=None):
        files = [memory_file(bytes_of(content)) for content in (source, input)]
        try:
            names = [f"/proc/self/fd/{file}" for file in files]
            words = [step_program(), *options(input=names[1], choices=choices, seed=seed, limit=limit), names[0]]
            self.process = subprocess.Popen(words, stdin=subprocess.PIPE, stdout=subprocess.PIPE, stderr=subprocess.PIPE,
                                            pass_fds=files, start_new_session=True)
        finally:
            for file in files:
                os.close(file)
        self.start = self.answer(b"")

    def do(self, command):
        """Returns the answer to a command. Raises ValueError if the command is no line, or if the session is over."""
        line = bytes_of(command)
        if b"\n" in line:
            raise ValueError("a command is one line")
        if self.process.returncode is not None:
            raise ValueError("the session is over")
        size = 0
        if line.split()[:1] and b"output".startswith(line.split()[0]):
            # what the run has printed may look like an answer
            size = int(re.search(rb"^output: (\d+)", self.answer(b"state\n"), re.MULTILINE)[1])
        return self.answer(line + b"\n", size)

    def answer(self, line, size=0):
        """Returns the answer to a line. The first bytes are taken as they are. Behind it come the answers to a line that
        is no command and to a command, which no answer has one behind the other.
        """
        try:
            with contextlib.suppress(BrokenPipeError):
                self.process.stdin.write(line + b"?\nprint .65535\n")
                self.process.stdin.flush()
            found = [self.process.stdout.read(size)]
            for line in self.process.stdout:
                if line.startswith(b".65535 = ") and found[-1] == NO_COMMAND:
                    return b"".join(found[:-1])
                found.append(line)
        except BaseException:
            self.close()
            raise
        return self.last(b"".join(found))

    def last(self, output):
        """Returns the last answer of a session that has ended."""
        errors = self.process.stderr.read()
        status = self.process.wait()
        self.close()
        return answered(Answer(status, output, errors)).output

    def close(self):
        """Ends the session."""
        self.process.kill()
        self.process.wait()
        for stream in (self.process.stdin, self.process.stdout, self.process.stderr):
            with contextlib.suppress(OSError):
                stream.close()

    def __enter__(self):
        return self

    def __exit__(self, *_):
        self.close()


def trace(source, input=b"", choices=None, seed=None, limit=None):
    """Returns what a trace leaves: a line for each step and what it changed, and the status of `run`."""
    given = ["--trace", *options(input="input", choices=choices, seed=seed, limit=limit), "program"]
    return answered(serve_step(given, source, input), (0, 1, 3))


def check(source):
    """Returns how many statements a program has, and how many are polite. Raises Refused if ick refuses it."""
    return Summary(*map(int, SUMMARY.fullmatch(done(["check", "program"], source).output).groups()))


def list(source):
    """Returns the statements of a program. Raises Refused if ick refuses it."""
    return [statement_of(line) for line in done(["list", "program"], source).output.splitlines()]


def done(arguments, source, input=b"", statuses=(0,)):
    """Returns the answer of a call with one of the statuses."""
    return answered(serve(arguments, source, input), statuses)


def answered(answer, statuses=(0,)):
    """Returns an answer with one of the statuses."""
    if answer.status not in statuses:
        raise Refused(answer)
    return answer


def options(**given):
    """Returns the arguments for the options that are given."""
    return [f"--{name}={value}" for name, value in given.items() if value is not None]


def outcome_of(line):
    count, weight, first, end, output = OUTCOME.fullmatch(line).groups()
    return Outcome(None if count == b"*" else int(count), fractions.Fraction(weight.decode()), first.decode(), end.decode(), unquoted(output))


def statement_of(line):
    number, label, identifier, no, chance, kind, text = STATEMENT.fullmatch(line).groups()
    return Statement(int(number), None if label == b"-" else int(label[1:-1]), identifier == b"PLEASE", no == b"NOT",
                     int(chance), kind.decode(), unquoted(text))


def unquoted(text):
    """Returns the bytes that are between quotes, as they were."""
    return CODE.sub(lambda code: bytes.fromhex(code[1].decode()) if code[1] else b"\n" if code[2] == b"n" else code[2],
                    text)


def bytes_of(text):
    if not isinstance(text, (str, bytes, bytearray, memoryview)):
        raise TypeError(f"a text or bytes are wanted, not {type(text).__name__}")
    return text.encode() if isinstance(text, str) else bytes(text)


def main():
    words = [os.fsencode(word) for word in sys.argv[1:]]
    file = b""
    if words and os.path.isfile(words[-1]):
        with open(words[-1], "rb") as stream:
            file = stream.read()
    answer = made("ick_serve", [ended(words), file, sys.stdin.buffer.read()])
    sys.stdout.buffer.write(answer.output)
    sys.stderr.buffer.write(answer.errors)
    sys.exit(answer.status)


if __name__ == "__main__":
    main()
