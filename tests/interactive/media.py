"""What the standard input and output of a program can be: pipes, a file, a terminal."""
import os
import select
import termios
import time

SECONDS = 120
CONTROL_D = b"\x04"
LONGEST_TYPED = 4000
BLOCK = 65_536
MOST = 1 << 30


def pipes():
    """A pipe to the program and one from it: its input and output, and what we write to and read from."""
    entering, ours_to_write = os.pipe()
    ours_to_read, leaving = os.pipe()
    return (entering, leaving), (ours_to_write, ours_to_read)


def bare_terminal():
    """The program's end and ours of a terminal, which gives a line when it is ended, and neither echoes nor changes a
    byte that is written.
    """
    ours, theirs = os.openpty()
    settings = termios.tcgetattr(theirs)
    settings[1] &= ~termios.OPOST
    settings[3] &= ~termios.ECHO
    termios.tcsetattr(theirs, termios.TCSANOW, settings)
    return theirs, ours


def terminal():
    """A terminal: the program's input and output, and what we write to and read from."""
    theirs, ours = bare_terminal()
    return (theirs, os.dup(theirs)), (ours, os.dup(ours))


def can_be_typed(text):
    """Whether a terminal gives a text as it is: lines of printed bytes."""
    return len(text) < LONGEST_TYPED and text.endswith(b"\n") and all(byte == 10 or 32 <= byte < 127 for byte in text)


def terminal_with(text):
    """A terminal at which lines were typed, and then the end of the input: for the program, and again for whoever reads
    after it.
    """
    theirs, ours = bare_terminal()
    os.write(ours, text + CONTROL_D + CONTROL_D)
    return theirs, ours


def pipe_with(text):
    """A pipe that holds a text which it has room for, and that nobody else writes to."""
    reader, writer = os.pipe()
    os.write(writer, text)
    os.close(writer)
    return reader


def file_with(text, folder):
    """A file that holds a text, from its front."""
    name = os.path.join(folder, "input")
    with open(name, "wb") as file:
        file.write(text)
    return os.open(name, os.O_RDONLY)


def seen(reader, count):
    """The next bytes that come, as many as are asked for; fewer at the end, or where no more come in time."""
    found, end = b"", time.monotonic() + SECONDS
    while len(found) < count:
        ready, _, _ = select.select([reader], [], [], max(0, end - time.monotonic()))
        part = read_some(reader, min(BLOCK, count - len(found))) if ready else b""
        if not part:
            break
        found += part
    return found


def rest(reader):
    """All that still comes."""
    return seen(reader, MOST)


def read_some(reader, count):
    """Some bytes, or none at the end; a terminal that nobody writes to any more is at its end too."""
    try:
        return os.read(reader, count)
    except OSError:
        return b""
