"""Tries ick-join: what it pastes, in which order, and what it refuses."""
from common import LIBRARY, content, help_and_mistakes

import ick_library

TEXT, ARITHMETIC = map(content, LIBRARY)
SUM = b"DO .1 <- #2\nDO .2 <- #3\nPLEASE (1000) NEXT\nDO READ OUT .3\nDO GIVE UP"
FLOATS = b"(5000) DO (1020) NEXT\nPLEASE RESUME #1\n"
BELOW = b"\n" + ick_library.LINE + b"\n\n(1000) DO RESUME #1\n"
ROWS = (
    # the program, what is pasted behind it, and the lines that are told
    (SUM, ARITHMETIC, ["pasted library/arithmetic.i, for the calls of (1000)"]),
    (b"PLEASE (1610) NEXT\nDO (1000) NEXT\nDO ABSTAIN FROM (1020)\nDO GIVE UP\n", TEXT + ARITHMETIC,
     ["pasted library/text.i, for the calls of (1610)", "pasted library/arithmetic.i, for the calls of (1000), (1020)"]),
    (b"PLEASE (5000) NEXT\nDO GIVE UP\n", FLOATS + ARITHMETIC,
     ["pasted floats, for the calls of (5000)", "pasted library/arithmetic.i, for the calls of (1020)"]),
    (b"PLEASE (1000) NEXT\nDO GIVE UP\n" + BELOW, b"", ["pasted nothing: - has each label that it names"]),
    (b"PLEASE (1000) NEXT\nDO GIVE UP\n(1000) DO RESUME #1\n", b"", ["pasted nothing: - has each label that it names"]),
    (b"", b"", ["pasted nothing: - has each label that it names"]),
)
REFUSED = (
    (b"PLEASE (7) NEXT\nDO (1000) NEXT\nDO REINSTATE (8)\nDO GIVE UP", "floats or library/text.i or library/arithmetic.i "
                                                                      "has (7), (8)"),
    (b"PLEASE (1010) NEXT\nDO GIVE UP\n(1000) DO RESUME #1", "- calls (1010) of library/arithmetic.i, but both have (1000)"),
)


def try_all(tally):
    help_and_mistakes(tally, "ick-join")
    floats = f"{tally.folder}/floats"
    with open(floats, "wb") as file:
        file.write(FLOATS)
    for source, behind, told in ROWS:
        status, out, err = tally.tool("ick-join", "--with", floats, given=source)
        found = [line.split(": ", 1)[1].replace(floats, "floats") for line in err.decode().splitlines()]
        tally.equal(f"ick-join of {source!r}", (status, found), (0, told))
        tally.check(out == source + b"\n" * (not source.endswith(b"\n") and bool(source)) + behind, f"{source!r}: {out[:99]!r}")
    tally.equal("a sum", tally.ick("run", given=tally.tool("ick-join", given=SUM)[1]), (0, b"\nV\n", b""))
    lacking = b"PLEASE (1010) NEXT\nDO GIVE UP\n"
    tally.equal("in place of what stands below", tally.tool("ick-join", given=lacking + BELOW),
                tally.tool("ick-join", given=lacking))
    for source, reason in REFUSED:
        status, out, err = tally.tool("ick-join", "--with", floats, given=source)
        last = err.decode().replace(floats, "floats").splitlines()[-1]
        tally.check(status == 1 and not out and last.endswith(reason), f"ick-join of {source!r}: {status} {err!r}")
    status, out, err = tally.tool("ick-join", "--with", "/no/such/file", given=SUM)
    tally.equal("no library", (status, out, err), (2, b"", b"ick-join: /no/such/file: No such file or directory\n"))
