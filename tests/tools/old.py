"""Tries ick-old: its steps and their order, what it keeps, its arguments, and the messages and statuses of failing steps."""
import os
import sys

from common import TOOLS, called, content, help_and_mistakes, write

from ick_numerals import pieces

SUM = b"please do .1 <- #2\ndo .2 <- #3\ndo (1000) next\ndo read out .3\nplease give up\n"
WIDE = b"DO :1 <- #1$#1\nPLEASE (5000) NEXT\nDO READ OUT :2\nDO GIVE UP\n"
FLOATS = b"(5000) DO :2 <- '?:1~:1'\nPLEASE RESUME #1\n(5001) DO COME FROM (5000) ONCE\nDO READ OUT #7\nPLEASE RESUME #1\n"
BEYOND = b"MAYBE GIVE UP\nDO GO BACK\nPLEASE NEXT FROM (1)\n"
# a program, arguments, its input, and the exit status, the output, and the beginning of each line of standard error
ROWS = (
    (SUM, [], b"", 0, b"\nV\n", []),
    (SUM.decode().encode("cp037"), [], b"", 0, b"\nV\n", []),
    (SUM.decode().encode("utf-16"), ["--from", "utf-16"], b"", 0, b"\nV\n", []),
    (b"DO WRITE IN ,1SUB#1\nPLEASE GIVE UP", [], b"ONE\n", 1, b"", ["ICL241I", "        ON THE WAY TO 2", "        CORRECT"]),
    (b"DO ,1 <- #1\nDO WRITE IN ,1SUB#1\nPLEASE READ OUT ,1SUB#1\nDO GIVE UP", [], b"ONE\n", 0, b"\nI\n", []),
    (b"DO %50 READ OUT #1\nPLEASE GIVE UP", [], b"", 3, b"", ["CHOICE WANTED"]),
    (b"DO %50 READ OUT #1\nPLEASE GIVE UP", ["--", "--choices", "1"], b"", 0, b"\nI\n", []),
    (b"(1) DO FORGET #1\nDO (1) NEXT", ["--", "--limit", "7"], b"", 3, b"", ["LIMIT REACHED AFTER 7 STEPS"]),
    (b"DO (100) NEXT\nPLEASE (200) NEXT", [], b"", 1, b"", ["ick-join: no statement of PATH or "]),
    (BEYOND, [], b"", 1, b"", [f"ick-convert: PATH:{place}: statement " for place in ("1:1", "2:4", "3:8")]),
    (b"DO COME FROM (8)\nDO GIVE UP", [], b"", 1, b"", ["ick-convert: PATH:1:1: statement 1 can't be rewritten: no"]),
    (b"DO GIVE UP\n" * 9, [], b"", 2, b"", ["ICL079I", "        ON THE WAY TO 10", "        CORRECT"]),
    (b"PLEASE GIVE UP", ["--from", "no-such-code"], b"", 2, b"", ["ick-convert: no-such-code is no code page"]),
    (b"PLEASE GIVE UP", ["--with", "/no/such/library"], b"", 2, b"", ["ick-join: /no/such/library: No such file"]),
    (b"PLEASE GIVE UP", ["--keep", "/no/such/folder/x"], b"", 4, b"", ["ick-old: a read or a write failed: No such file"]),
)


def try_old(tally, arguments, given=b""):
    environment = dict(os.environ, ICK=tally.program)
    return called([sys.executable, "-W", "error", os.path.join(TOOLS, "ick-old"), *arguments], given, environment)


def try_all(tally):
    help_and_mistakes(tally, "ick-old")
    path, kept, library = (os.path.join(tally.folder, name) for name in ("old.i", "kept.i", "library.i"))
    for source, arguments, given, *wanted, told in ROWS:
        write(path, source)
        place = arguments.index("--") if "--" in arguments else len(arguments)
        status, out, err = try_old(tally, [*arguments[:place], path, *arguments[place:]], given)
        lines = err.decode().splitlines()
        begins = [line.replace("PATH", path) for line in told]
        tally.check([status, out] == wanted and len(lines) == len(begins)
                    and all(map(str.startswith, lines, begins)), f"ick-old {arguments} of {source!r}: {status} {out!r} {err!r}")
    # a library that is pasted is converted too, and what is kept is what ran
    write(path, WIDE)
    write(library, FLOATS)
    found = try_old(tally, ["--with", library, "--keep", kept, path])
    tally.equal("a library with statements of C-INTERCAL", (found[0], pieces(found[1]), found[2]), (0, [7, 2147483650], b""))
    tally.equal("what is kept", tally.ick("run", kept), found)
    tally.check(b"#65535$#65535" in content(kept) and b"ONCE" not in content(kept), "the library is converted")
    write(path, b"DO COME FROM .1\n(1) DO READ OUT #1\nPLEASE GIVE UP")
    environment = dict(os.environ, ICK="/no/such/ick")
    status, out, err = called([sys.executable, os.path.join(TOOLS, "ick-old"), path], b"", environment)
    tally.equal("no ick", (status, out, err), (2, b"", b"ick-old: there is no /no/such/ick\n"))
