"""Tries ick-tui on terminals of several sizes: what it shows after each key. The first program is the manual's."""
import fcntl
import os
import pty
import re
import resource
import select
import signal
import struct
import subprocess
import sys
import termios
import time

from common import SECONDS, TOOLS, help_and_mistakes, write

DOUBLE = b"""DO ,1 <- #3
DO ,1SUB#2 <- #20
DO .1 <- #2
DO (20) NEXT
PLEASE READ OUT .3
DO READ OUT ,1SUB.1
PLEASE GIVE UP
(20) DO STASH .1 + .2
DO .1 <- '.1$#0'~'#32767$#1'
DO .3 <- .1
DO RETRIEVE .2
PLEASE RESUME #1
"""
LINES = b"DO .1 <- #1\nPLEASE FOO\n5 BAR\n  at 9 X\n"
LOOP = b"DO .1 <- #1\n(1) DO FORGET #1\nPLEASE (1) NEXT\n"
CONTROL = b"DO .1 <- #1\nPLEASE FOO\x07BAR\n"
ASKS = b"DO %50 READ OUT #1\nPLEASE WRITE IN .1\nDO GIVE UP\n"
REDRAW = "\f"
MEMORY = 100_000_000
CODES = re.compile(rb"\x1b(?:\[[0-9;?]*[A-Za-z]|[()][0-9A-Za-z]|.)|[\x0e\x0f]")

# keys, and what the screen then has
FAULT = (
    ("", ["steps: 0", "> 1 DO ,1 <- #3", "NEXT stack: none"]),
    ("s", ["steps: 1", "> 2 DO ,1SUB#2 <- #20", ",1 = 3: 0 0 0"]),
    ("r", ["steps: 11", "! 6 DO READ OUT ,1SUB.1", ".1 = 4 (1 stashed)", "ended: ICL241I", "IV"]),
    ("y.1\n", ["steps: 5", "> 9 DO .1 <- '.1$#0'~'#32767$#1'", "NEXT stack: 5"]),
    ("b", ["steps: 4", "> 8 (20) DO STASH .1 + .2", ".1 = 2"]),
    ("b", ["steps: 3", "> 4 DO (20) NEXT"]),
    ("n", ["steps: 9", "> 5 PLEASE READ OUT .3", ".1 = 4 (1 stashed)"]),
    ("bbbbbbbbb", ["steps: 0", "> 1 DO ,1 <- #3"]),
    ("w.3\n", ["steps: 7", "> 11 DO RETRIEVE .2", ".3 = 4"]),
    ("w.x\n", ["steps: 7"]),
    ("w.1\033", ["steps: 7"]),
    ("bbbbbbb\033OB\033OB\033OB\033OAu", ["steps: 2", "> 3 DO .1 <- #2"]),
)
TEXT = (("r", ["steps: 2", "! 2 PLEASE FOO 5 BAR at 9 X", "ended: ICL000I"]), ("b", ["steps: 1", "> 2 PLEASE FOO"]))
DOWN = "\033OB"
BREAKS = (
    (DOWN * 8 + "t", ["steps: 0", "> 1 DO ,1 <- #3", " *9 DO .1 <-", "breakpoint at 9 9:1"]),
    ("r", ["steps: 5", ">*9 DO .1 <-"]),
    ("o", ["steps: 9", "> 5 PLEASE READ OUT .3", " *9 DO .1 <-"]),
    ("o", ["steps: 9", "the NEXT stack is empty"]),
    ("bbbbbbbbbn", ["steps: 1", "> 2 DO ,1SUB#2"]),
    ("n", ["steps: 2"]),
    ("w.3\n", ["steps: 5", ">*9 DO .1 <-"]),
    ("t", ["steps: 5", "> 9 DO .1 <-", "breakpoint deleted"]),
    ("bbbbbr", ["steps: 11", "! 6 DO READ OUT ,1SUB.1"]),
)
ESCAPED = ((DOWN + "t", [" *2 PLEASE FOO\\x07BAR", 'breakpoint at 2 2:1 "PLEASE FOO\\x07BAR"']), ("r", [">*2 PLEASE FOO\\x07BAR"]))
CHOICES = (
    ("", ["steps: 0", "asks %50 (keys 0, 1)"]),
    ("1", ["steps: 1", "> 2 PLEASE WRITE IN .1", "input left: 4"]),
    ("b0s", ["steps: 2", ".1 = 6", "input left: 0"]),
)


def seen(terminal, wanted):
    """Reads what is written until all wanted texts are there. Returns what came, or nothing if they didn't."""
    written, end = b"", time.monotonic() + SECONDS / 10
    while time.monotonic() < end:
        shown = CODES.sub(b"", written).decode()
        if all(text in shown for text in wanted):
            return shown
        if select.select([terminal], [], [], 1)[0]:
            try:
                written += os.read(terminal, 65536)
            except OSError:  # the tool has ended
                return ""
    return ""


def try_keys(tally, rows, words, size):
    terminal, other = pty.openpty()
    fcntl.ioctl(other, termios.TIOCSWINSZ, struct.pack("HHHH", *size, 0, 0))
    with subprocess.Popen([sys.executable, os.path.join(TOOLS, "ick-tui"), *words], stdin=other, stdout=other,
                          stderr=subprocess.PIPE, env=dict(os.environ, TERM="vt100", ICK_STEP=tally.step)) as tool:
        os.close(other)
        for keys, wanted in rows:
            os.write(terminal, (keys + REDRAW).encode())
            if not tally.check(seen(terminal, wanted), f"ick-tui of {size}, keys {keys!r}: no {wanted}"):
                break
        os.write(terminal, b"q")
        while select.select([terminal], [], [], 0.1)[0] or tool.poll() is None:
            try:
                os.read(terminal, 65536)
            except OSError:  # the tool has closed its terminal
                break
        tally.equal("the end of ick-tui", (tool.wait(SECONDS), tool.stderr.read()), (0, b""))
    os.close(terminal)


def start(tally, words, kind):
    """Starts the tool on a terminal of a kind. Returns the tool and the terminal's other end."""
    terminal, other = pty.openpty()
    fcntl.ioctl(other, termios.TIOCSWINSZ, struct.pack("HHHH", 24, 80, 0, 0))
    tool = subprocess.Popen([sys.executable, os.path.join(TOOLS, "ick-tui"), *words], stdin=other, stdout=other,
                            stderr=subprocess.PIPE, env=dict(os.environ, TERM=kind, ICK_STEP=tally.step))
    os.close(other)
    return tool, terminal


def end(tally, tool, terminal, name, wanted):
    """Compares the status and what the tool says on its error stream."""
    while select.select([terminal], [], [], 0.1)[0] or tool.poll() is None:
        try:
            os.read(terminal, 65536)
        except OSError:  # the tool has closed its terminal
            break
    tally.equal(name, (tool.wait(SECONDS), tool.stderr.read()), wanted)
    tool.stderr.close()
    os.close(terminal)


def try_long_run(tally, path):
    """A key stops a long run, and the session goes on. TERM ends the tool, and the end of ick-step is told."""
    tool, terminal = start(tally, ["--limit", "4000000000", path], "vt100")
    os.write(terminal, b"r")
    tally.check(seen(terminal, ["any key stops"]), "ick-tui: a long run doesn't show its steps")
    os.write(terminal, b" " + REDRAW.encode())
    tally.check(seen(terminal, ["steps: ", "s step", "goes on"]), "ick-tui: a key doesn't stop a long run")
    os.write(terminal, ("b" * 3 + REDRAW).encode())
    tally.check(seen(terminal, ["steps: "]), "ick-tui: no step back after a run that was stopped")
    tool.terminate()
    end(tally, tool, terminal, "ick-tui after TERM", (143, b""))
    tool, terminal = start(tally, [path], "vt100")
    tally.check(seen(terminal, ["steps: 0"]), "ick-tui: no first screen")
    os.kill(program_of(tool), signal.SIGKILL)
    os.write(terminal, b"s")
    end(tally, tool, terminal, "ick-tui without its program", (4, b"ick-tui: ick-step: ended by the signal SIGKILL\n"))


def program_of(tool):
    """The process of ick-step that the tool has started."""
    with open(f"/proc/{tool.pid}/task/{tool.pid}/children", encoding="ascii") as children:
        return int(children.read())


def try_without_memory(tally, path):
    """A run whose memory ends says so, and a step goes back from there."""
    tool, terminal = start(tally, ["--limit", "4000000000", path], "vt100")
    tally.check(seen(terminal, ["steps: 0"]), "ick-tui: no first screen")
    resource.prlimit(program_of(tool), resource.RLIMIT_AS, (MEMORY, MEMORY))
    os.write(terminal, b"r")
    stopped = re.search("stopped after ([0-9]+) steps: out of memory", seen(terminal, ["out of memory"]))
    if tally.check(stopped, "ick-tui doesn't say that memory ended"):
        os.write(terminal, ("b" + REDRAW).encode())
        tally.check(seen(terminal, [f"steps: {int(stopped[1]) - 1}"]), "ick-tui: no step back after memory ended")
    os.write(terminal, b"q")
    end(tally, tool, terminal, "ick-tui whose memory ended", (0, b""))


def try_colours(tally, path):
    """A terminal with colours shows the next statement in one, and another terminal gets no code of a colour."""
    for kind, has_colours in (("xterm-256color", True), ("vt100", False)):
        tool, terminal = start(tally, [path], kind)
        written = b""
        while select.select([terminal], [], [], 1)[0]:
            written += os.read(terminal, 65536)
        tally.equal(f"colours on {kind}", bool(re.search(rb"\x1b\[[0-9;]*36m", written)), has_colours)
        os.write(terminal, b"q")
        end(tally, tool, terminal, f"ick-tui on {kind}", (0, b""))


def try_all(tally):
    help_and_mistakes(tally, "ick-tui")
    paths = double, asks, lines, control, entered = [os.path.join(tally.folder, f"{number}.i") for number in range(5)]
    for path, text in zip(paths, (DOUBLE, ASKS, LINES, CONTROL, b"SIX\n")):
        write(path, text)
    for size in ((24, 80), (40, 200)):
        try_keys(tally, FAULT, [double], size)
        try_keys(tally, BREAKS, [double], size)
    try_keys(tally, CHOICES, ["--input", entered, asks], (12, 60))
    try_keys(tally, TEXT, [lines], (24, 80))
    try_keys(tally, ESCAPED, [control], (24, 80))
    loop = os.path.join(tally.folder, "loop.i")
    write(loop, LOOP)
    try_long_run(tally, loop)
    try_without_memory(tally, loop)
    try_colours(tally, double)
    status, out, err = tally.tool("ick-tui", "--seed", "x", double)
    tally.check(status == 4 and not out and err.startswith(b"ick-tui: ick-step: "), f"ick-tui --seed x: {status} {err!r}")
    status, out, err = tally.tool("ick-tui", double)
    tally.check(status == 1 and err.startswith(b"ick-tui: no terminal"), f"ick-tui without a terminal: {status} {err!r}")
