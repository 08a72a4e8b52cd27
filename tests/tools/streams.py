"""Tries each tool with each standard stream closed, and with an output that is full or that its reader leaves early.

Tries the line of progress on a terminal too.
"""
import os
import pty
import subprocess
import sys

from common import EXAMPLES, TOOLS, closed_pipe, full_disk
from tally import SECONDS

CLOSED = "a read or a write failed: Bad file descriptor"
LISTING = b'0 GIVE-UP ""\n1 GIVE-UP "\\nI\\n"\nDONE\n'
LONG = b"DO NOT X\n" * 20_000
# A call of each tool that writes: its arguments, and its input or None if it reads none.
WRITING = (
    ("ick-advice", [], b"DO X"), ("ick-advice", ["--explain", "E017"], None), ("ick-convert", [], b"do"),
    ("ick-join", [], b"DO GIVE UP"), ("ick-json", [], LISTING), ("ick-say", ["x"], None), ("ick-wimp", ["in"], b"1\n"),
    ("ick-wimp", ["out"], b"\nI\n"), ("ick-tree", ["--format", "dot"], LISTING), ("ick-parts", ["check"], LISTING),
)


def tried(name, arguments, given, redirected):
    """Calls a tool whose streams a shell redirects."""
    words = ["sh", "-c", f'exec "$@" {redirected}', "sh", sys.executable, os.path.join(TOOLS, name)]
    done = subprocess.run([*words, *arguments], input=given, capture_output=True, timeout=SECONDS, check=False)
    return done.returncode, done.stdout, done.stderr


def try_closed(tally, name, arguments, given):
    status, out, err = tried(name, arguments, given or b"", "")
    call = " ".join([name, *arguments])
    tally.check(out, f"{call}: {status} {out!r} {err!r}")
    tally.equal(f"{call} >&-", tried(name, arguments, given or b"", ">&-"), (4, b"", err + f"{name}: {CLOSED}\n".encode()))
    tally.equal(f"{call} 2>&-", tried(name, arguments, given or b"", "2>&-"), (status, out, b""))
    tally.equal(f"{call} >&- 2>&-", tried(name, arguments, given or b"", ">&- 2>&-"), (4, b"", b""))
    if given is None:
        tally.equal(f"{call} <&-", tried(name, arguments, None, "<&-"), (status, out, err))
    else:
        status, out, err = tried(name, arguments, None, "<&-")
        tally.check(status in (2, 4) and not out and err.endswith(b"Bad file descriptor\n") and err.count(b"\n") == 1,
                    f"{call} <&-: {status} {out!r} {err!r}")


def try_progress(tally):
    """A terminal on standard error shows how many lines are read. They are erased at the end and in front of an error."""
    script = "import runpy, sys; sys.argv[:] = sys.argv[1:]; sys.path.insert(0, sys.argv.pop(0)); import ick_tool; " \
             "ick_tool.PAUSE = 0; runpy.run_path(sys.argv[0])"
    for name, arguments in (("ick-tree", ["--format", "dot"]), ("ick-json", [])):
        for given, said in ((LISTING, b""), (b"NO LISTING\n" + LISTING, name.encode() + b": line 1 is no line of")):
            ours, theirs = pty.openpty()
            subprocess.run([sys.executable, "-c", script, TOOLS, os.path.join(TOOLS, name), *arguments], input=given,
                           stdout=subprocess.DEVNULL, stderr=theirs, timeout=SECONDS, check=False)
            os.write(theirs, b"\n")
            shown = os.read(ours, 4096)
            os.close(theirs)
            os.close(ours)
            tally.check(b" lines\r\033[K" + said in shown, f"progress of {name}: {shown!r}")


def try_all(tally):
    try_progress(tally)
    for name, arguments, given in WRITING:
        try_closed(tally, name, arguments, given)
        full_disk(tally, name, arguments, given or b"")
    for name, arguments, given in (("ick-advice", [], LONG), ("ick-convert", [], LONG),
                                   ("ick-json", [], LISTING[:-5] * 4000), ("ick-say", [], b"x" * 20_000),
                                   ("ick-wimp", ["out"], b"x\n" * 4000), ("ick-tree", ["--format", "dot"], LISTING),
                                   ("ick-parts", ["check"], LISTING)):
        closed_pipe(tally, name, arguments, given)
    closed_pipe(tally, "ick-join", [], LONG, b"ick-join: pasted nothing: - has each label that it names\n")
    for redirected in ("<&-", ">&-", "2>&-", "<&- >&- 2>&-"):
        status, out, err = tried("ick-tui", [EXAMPLES[0]], None, redirected)
        tally.check(status in (1, 4) and b"Traceback" not in err and err.count(b"\n") <= 1,
                    f"ick-tui {redirected}: {status} {out!r} {err!r}")
