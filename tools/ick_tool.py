"""What the tools beside this file share: options, files, and quiet ends.

Each tool is a script in the same folder, or a symbolic link to one: Python looks for this file beside the script that a
link stands for.
"""
import argparse
import contextlib
import os
import shutil
import signal
import subprocess
import sys
import time

# What is known of each program: the variable that names it, the arguments by which ./preview names it, and what it
# answers to an argument over an empty source.
PROGRAMS = {
    "ick": ("ICK", (), "check", b"0 STATEMENTS, 0 POLITE\n"),
    "ick-outcomes": ("ICK_OUTCOMES", ("outcomes",), "--total", b"1 OUTCOME, 1 RUN\n"),
    "ick-step": ("ICK_STEP", ("step",), "-b", b"0 1 past the last statement\n"),
    "ick-stages": ("ICK_STAGES", ("stages",), "--parts", b"DONE\n"),
}
HERE = os.path.dirname(os.path.realpath(__file__))
NAME = os.path.basename(sys.argv[0])
PREVIEW = os.path.normpath(os.path.join(HERE, "../preview"))
PAUSE = 0.3  # seconds between two lines of progress
ERASE = "\r\033[K"  # what erases the line of a terminal


class Unable(Exception):
    """What a tool can't do, in words, and its exit status then."""

    def __init__(self, text, status):
        super().__init__(text)
        self.status = status


def open_closed_streams():
    """Gives each standard stream that was closed a file, because Python has None for it.

    Reads and writes of this file fail as those of a closed stream do. What is said on a closed error stream is lost. Each
    file takes the stream's own number, also in programs that the tool calls, so that no other file takes it.
    """
    for name, access, mode in (("stdin", os.O_WRONLY, "r"), ("stdout", os.O_RDONLY, "w"), ("stderr", os.O_WRONLY, "w")):
        if getattr(sys, name) is None:
            number = os.open(os.devnull, access)
            os.set_inheritable(number, True)
            opened_anew = os.fdopen(number, mode, closefd=False)
            setattr(sys, name, opened_anew)
            setattr(sys, f"__{name}__", opened_anew)


def options(page):
    """A parser whose help is the page, below the line of usage. A usage error ends with status 2."""
    quiet_ends()
    parser = argparse.ArgumentParser(prog=NAME, description=page, formatter_class=argparse.RawDescriptionHelpFormatter)
    parser.add_argument("--version", action="version", version=f"{NAME} {version()}")
    return parser


def version():
    places = ("../VERSION", "../../share/ick/VERSION")  # in the repository, and as it is installed
    paths = [os.path.join(HERE, place) for place in places]
    # the installed file can also say that programs aren't proved
    return next((content(path).decode().split()[0] for path in paths if os.path.exists(path)), "of no known version")


def run(main):
    """Ends with the status that main returns. A read or write that fails, as on a full disk, is one line and status 4."""
    status = 0
    open_closed_streams()
    try:
        try:
            status = main()
        except SystemExit as ended:
            status = ended.code
        except Unable as unable:
            say(unable)
            status = unable.status
        sys.stdout.flush()
    except OSError as error:
        with contextlib.suppress(OSError):
            say(f"a read or a write failed: {error.strerror}" if error.strerror else error)
        os._exit(4)  # what is still held back can't be written
    sys.exit(status)


def quiet_ends():
    """Lets a closed pipe and an interrupt end the tool as they end any other program."""
    signal.signal(signal.SIGPIPE, signal.SIG_DFL)
    signal.signal(signal.SIGINT, signal.SIG_DFL)


def number_within(least, greatest):
    """A type for options: a decimal number from the least to the greatest."""
    def number(text):
        if not text.isascii() or not text.isdigit() or len(text) > 18 or not least <= int(text) <= greatest:
            raise argparse.ArgumentTypeError(f"{text!r} is no number from {least} to {greatest}")
        return int(text)
    return number


def say(text):
    """Writes one line on standard error. At a terminal it takes the place of the line of progress."""
    print(f"{ERASE if sys.stderr.isatty() else ''}{NAME}: {text}", file=sys.stderr)


def with_progress(parts, lines_of):
    """Yields the parts of a listing while it is read. Standard error has a line of progress then, if it is a terminal.

    `lines_of` counts the lines of a part.
    """
    is_shown = sys.stderr.isatty()
    count, due = 0, time.monotonic() + PAUSE
    try:
        for part in parts:
            count += lines_of(part)
            if is_shown and time.monotonic() >= due:
                due = time.monotonic() + PAUSE
                print(f"{ERASE}{NAME}: {count:,} lines", end="", file=sys.stderr, flush=True)
            yield part
    finally:
        if is_shown:
            print(ERASE, end="", file=sys.stderr, flush=True)


def end(text, status=2):
    say(text)
    sys.exit(status)


def opened(path):
    """Opens a file of bytes: standard input for None or '-'."""
    if path in (None, "-"):
        return sys.stdin.buffer
    try:
        return open(path, "rb")
    except OSError as error:
        end(f"{path}: {error.strerror}")


def content(path):
    """Reads a file whole."""
    with opened(path) as file:
        try:
            return file.read()
        except OSError as error:
            end(f"{path or 'standard input'}: {error.strerror}")


def find_program(name):
    """Returns the path of a program: the one that its variable names, or else the first one beside the tool, on the PATH
    or in the tool's own repository.

    The tool's own folder comes before that of a link to it: there `ick` can be C-INTERCAL's.
    Raises FileNotFoundError if there is none, or only other programs, as C-INTERCAL's ick is.
    """
    variable, words, argument, answer = PROGRAMS[name]
    named = os.environ.get(variable)
    other = None
    for found in filter(None, [shutil.which(named)] if named else places(name, words)):
        # ./preview, to which a clone's bin/ has links, says on standard error that it builds a program
        is_built = os.path.basename(os.path.realpath(found)) != "preview"
        asked = subprocess.run([found, argument], stdin=subprocess.DEVNULL, stdout=subprocess.PIPE,
                               stderr=subprocess.DEVNULL if is_built else None, check=False)
        if asked.stdout == answer:
            return found
        other = other or found
    if other:
        raise FileNotFoundError(f"{other} is another program; the environment variable {variable} can name {name}")
    if named:
        raise FileNotFoundError(f"there is no {named}")
    builds = f"{' '.join(('./preview', *words))} builds it; " if os.path.exists(PREVIEW) else ""
    raise FileNotFoundError(f"there is no {name} on the PATH; {builds}the environment variable {variable} can name it")


def places(name, words):
    """The places where a program can be, each of them a path or None. The repository's own is newer than its sources,
    and proved if ./ick or its like proved it.
    """
    for folder in (HERE, os.path.dirname(sys.argv[0])):
        yield shutil.which(os.path.join(folder, name))
    yield shutil.which(name)
    if os.path.exists(PREVIEW):
        asked = subprocess.run([PREVIEW, "--any", "--built", "--path", *words], capture_output=True, check=False)
        yield os.fsdecode(asked.stdout).removesuffix("\n") or None
