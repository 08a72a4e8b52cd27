"""Tries ick-tree: the parts and edges that it draws in dot's language, and Graphviz's pictures of them."""
import itertools
import re
import resource

import ick_numerals
from common import TOP, closed_pipe, content, full_disk, help_and_mistakes, write

# a listing, options, the labels of the parts that are drawn, and the edges as pairs of a choice and a label
ROWS = (
    (b'0 GIVE-UP ""\n1 GIVE-UP "\\nI\\n"\nDONE\n', [], ["2 runs", "GIVE-UP", "I GIVE-UP"],
     [("0", "GIVE-UP"), ("1", "I GIVE-UP")]),
    # what both wrote first stands at the branch
    (b'0 GIVE-UP "A\\nB\\n"\n1 GIVE-UP "A\\nC"\nDONE\n', [], ["A 2 runs", "B GIVE-UP", "C GIVE-UP"],
     [("0", "B GIVE-UP"), ("1", "C GIVE-UP")]),
    # equal parts are drawn once, and two equal sides have one edge
    (b'00 GIVE-UP ""\n01 E275@3 ""\n10 GIVE-UP ""\n11 E275@3 ""\nDONE\n', [],
     ["4 runs", "4 runs", "GIVE-UP 2 runs", "E275@3 2 runs"], [("0 1", "4 runs"), ("0", "GIVE-UP 2 runs"),
                                                                ("1", "E275@3 2 runs")]),
    # equal leaves behind branches of other depths are drawn beside these branches
    (b'0 LIMIT ""\n10 LIMIT ""\n11 GIVE-UP ""\nDONE\n', [], ["3 runs", "LIMIT", "2 runs", "LIMIT", "GIVE-UP"],
     [("0", "LIMIT"), ("1", "2 runs"), ("0", "LIMIT"), ("1", "GIVE-UP")]),
    # numerals: bars, decimal numbers, zero
    (b'- LIMIT " _\\nMV\\n_\\n\\n"\nDONE\n', [], ["M<O>V</O>, <O>&#160;&#160;</O> LIMIT"], []),
    (b'- LIMIT " _\\nMV\\n_\\n\\n"\nDONE\n', ["--numerals"], ["4000, 0 LIMIT"], []),
    # deeper than is drawn, in groups and plain
    (b'0*70 LIMIT ""\n0*69,1*1 LIMIT ""\n1 GIVE-UP "<&>\\x80"\nDONE\n', ["--depth", "1"],
     ["3 runs", "2 runs: 2 LIMIT", "&lt;&amp;&gt;\\x80 GIVE-UP"],
     [("0", "2 runs: 2 LIMIT"), ("1", "&lt;&amp;&gt;\\x80 GIVE-UP")]),
    (b'00 E241@7 ""\n010 LIMIT ""\n011 E241@8 "X"\n10 GIVE-UP ""\n11 GIVE-UP ""\nDONE\n', ["--depth", "1"],
     ["5 runs", "3 runs: 2 E241, 1 LIMIT", "2 runs: 2 GIVE-UP"],
     [("0", "3 runs: 2 E241, 1 LIMIT"), ("1", "2 runs: 2 GIVE-UP")]),
    # wider than is drawn
    (b'0 GIVE-UP ""\n1 LIMIT ""\nDONE\n', ["--width", "1"], ["2 runs", "GIVE-UP", "1 run: 1 LIMIT"],
     [("0", "GIVE-UP"), ("1", "1 run: 1 LIMIT")]),
    # the runs with an end; a part without one isn't drawn further
    (b'00 E241@7 ""\n010 LIMIT ""\n011 E241@8 "X"\n10 GIVE-UP ""\n11 GIVE-UP "X"\nDONE\n', ["--only", "E241"],
     ["5 runs", "3 runs", "E241@7", "2 runs", "LIMIT", "X E241@8", "2 runs: 2 GIVE-UP"],
     [("0", "3 runs"), ("0", "E241@7"), ("1", "2 runs"), ("0", "LIMIT"), ("1", "X E241@8"), ("1", "2 runs: 2 GIVE-UP")]),
    (b'00 E241@7 ""\n010 LIMIT ""\n011 E241@8 "X"\nDONE\n', ["--only", "E241@7"],
     ["3 runs", "3 runs", "E241@7", "2 runs: 1 E241, 1 LIMIT", ".."],
     [("0", "3 runs"), ("0", "E241@7"), ("1", "2 runs: 1 E241, 1 LIMIT"), ("1", "..")]),
    # outcomes: each leaf has the number of its runs and their weight, and equal leaves aren't joined
    (b'2 0.5 00 GIVE-UP ""\n1 1/4 10 LIMIT "\\nI\\n"\n1 1/4 11 LIMIT "\\nV\\n\\nI\\n"\nDONE\n', [],
     ["3 outcomes", "1 outcome", "GIVE-UP 2 runs, weight 0.5", "..", "2 outcomes", "I LIMIT 1 run, weight 1/4",
      "V, I LIMIT 1 run, weight 1/4"],
     [("0", "1 outcome"), ("1", "2 outcomes"), ("0", "GIVE-UP 2 runs, weight 0.5"), ("1", ".."),
      ("0", "I LIMIT 1 run, weight 1/4"), ("1", "V, I LIMIT 1 run, weight 1/4")]),
    (b'1 0.5 0 GIVE-UP "A\\nI"\n1 0.25 10 E241@2 "B\\nI"\n1 0.25 11 LIMIT ""\nDONE\n', ["--depth", "1"],
     ["3 outcomes", "A I GIVE-UP 1 run, weight 0.5", "2 outcomes: 1 E241, 1 LIMIT"],
     [("0", "A I GIVE-UP 1 run, weight 0.5"), ("1", "2 outcomes: 1 E241, 1 LIMIT")]),
    # numerals and lines behind each other: what is common ends with a whole numeral or line
    (b'0 LIMIT "_\\n\\n\\nX"\n1 LIMIT "_\\n\\n\\nV\\n"\nDONE\n', ["--numerals"], ["0 2 runs", "X LIMIT", "5 LIMIT"],
     [("0", "X LIMIT"), ("1", "5 LIMIT")]),
    (b'0 LIMIT "\\nX\\n"\n1 LIMIT "\\nXX\\n"\nDONE\n', ["--numerals"], ["2 runs", "10 LIMIT", "20 LIMIT"],
     [("0", "10 LIMIT"), ("1", "20 LIMIT")]),
    # what the listing doesn't have
    (b'0 GIVE-UP ""\nMORE\n', [], ["1 run", "GIVE-UP", ".."], [("0", "GIVE-UP"), ("1", "..")]),
)


# a program, options of `ick runs`, labels and edges with --program: each branch has its statement and its chance
PROGRAMS = (
    (b"DO %20 READ OUT #1\nDO %30 FORGET #0\nPLEASE GIVE UP\n", [],
     ["1 %20 4 runs", "2 %30 2 runs", "I 2 %30 2 runs", "GIVE-UP 4 runs"],
     [("0", "2 %30 2 runs"), ("1", "I 2 %30 2 runs"), ("0 1", "GIVE-UP 4 runs"), ("0 1", "GIVE-UP 4 runs")]),
    # parts that are equal but for the statements that ask are drawn apart
    (b"DO %50 (10) NEXT\nDO %20 FORGET #0\nPLEASE GIVE UP\n(10) DO %30 FORGET #0\nDO GIVE UP\n", [],
     ["1 %50 4 runs", "2 %20 2 runs", "4 %30 2 runs", "GIVE-UP 4 runs"],
     [("0", "2 %20 2 runs"), ("1", "4 %30 2 runs"), ("0 1", "GIVE-UP 4 runs"), ("0 1", "GIVE-UP 4 runs")]),
    # statement 1 asks again and again, up to the limit
    (b"(1) DO %50 (1) NEXT\nPLEASE GIVE UP\n", ["--limit", "2"],
     ["1 %50 3 runs", "1 %50 2 runs", "LIMIT 2 runs", "GIVE-UP"],
     [("0", "GIVE-UP"), ("1", "1 %50 2 runs"), ("0 1", "LIMIT 2 runs")]),
)


def plain(label):
    return " ".join(re.sub(r"</?(BR/|B|FONT[^>]*)>", " ", label).split())


def drawn(dot):
    """The labels of the parts, and the edges as pairs of a choice and the label where it goes."""
    parts = {name: plain(label) for name, label in re.findall(r"^  (n\w+) \[.*label=<(.*)>\]$", dot, re.MULTILINE)}
    edges = re.findall(r'^  n\w+ -> (n\w+) \[label=" ([01 ]+)"', dot, re.MULTILINE)
    return sorted(parts.values()), sorted((choice, parts[name]) for name, choice in edges)


def try_rows(tally):
    for listing, options, parts, edges in ROWS:
        status, out, err = tally.tool("ick-tree", "--format", "dot", *options, given=listing)
        tally.equal(f"ick-tree {options} of {listing!r}", (status, err, *drawn(out.decode())),
                    (0, b"", sorted(parts), sorted(edges)))


def try_programs(tally):
    path = f"{tally.folder}/asks.i"
    for program, options, parts, edges in PROGRAMS:
        write(path, program)
        _, listing, _ = tally.ick("runs", *options, path)
        status, out, err = tally.tool("ick-tree", "--format", "dot", "--program", path, *options, given=listing)
        tally.equal(f"ick-tree --program of {program!r}", (status, err, *drawn(out.decode())),
                    (0, b"", sorted(parts), sorted(edges)))
    second = f"{TOP}/examples/second"
    given = content(f"{second}.runs")
    status, out, err = tally.tool("ick-tree", "--format", "dot", "--program", f"{second}.i", "--input", f"{second}.in",
                                  f"{second}.runs")
    tally.equal("ick-tree --input", (status, err, *drawn(out.decode())),
                (0, b"", sorted(["1 %50 2 runs", "I GIVE-UP", "II GIVE-UP"]), [("0", "I GIVE-UP"), ("1", "II GIVE-UP")]))
    for options, wanted in (([f"{second}.i"], b"LINE 1 IS NOT OF THIS PROGRAM"), (["/no/such.i"], b"FILE NOT READ"),
                            ([f"{second}.i", "--input", "/no/such"], b"/no/such")):
        status, out, err = tally.tool("ick-tree", "--format", "dot", "--program", *options, given=given)
        tally.check(status in (1, 2) and not out and wanted in err, f"ick-tree --program {options}: {status} {err!r}")
    for options in (["--input", path], ["--limit", "3"], ["--program", path, "--limit", "x"]):
        status, out, err = tally.tool("ick-tree", *options, given=given)
        tally.check(status == 2 and not out and b"usage" in err, f"ick-tree {options}: {status} {err!r}")


def try_refusals(tally):
    for listing, wanted in ((b"", b"no run"), (b"DONE\n", b"no run"), (b"HELLO\n", b"line 1 is no line"),
                            (b'0 GIVE-UP ""\n1 GIVE-UP "\nDONE\n', b"line 2 is no line"),
                            (b'0 LIMIT ""\n0 LIMIT ""\nDONE\n', b"listed twice"),
                            (b'0 LIMIT ""\n01 LIMIT ""\nDONE\n', b"goes on where another"),
                            (b'1 LIMIT ""\n0 LIMIT ""\nDONE\n', b"before an earlier one")):
        status, out, err = tally.tool("ick-tree", "--format", "dot", given=listing)
        tally.check(status == 1 and not out and wanted in err, f"ick-tree of {listing!r}: {status} {err!r}")
    status, out, err = tally.tool("ick-tree", given=ROWS[0][0], path="/nowhere")
    tally.check(status == 1 and not out and b"install Graphviz" in err, f"ick-tree without dot: {status} {err!r}")
    for options in (["--depth", "0"], ["--width", "x"], ["-o", "tree.gif"]):
        status, out, err = tally.tool("ick-tree", *options, given=ROWS[0][0])
        tally.check(status == 2 and not out and b"usage" in err, f"ick-tree {options}: {status} {err!r}")
    status, out, err = tally.tool("ick-tree", "--only", "E24", given=ROWS[0][0])
    tally.check(status == 1 and not out and b"ends by E24" in err, f"ick-tree --only E24: {status} {err!r}")
    status, _, err = tally.tool("ick-tree", "-o", "/no/such/tree.dot", given=ROWS[0][0])
    tally.check(status == 4 and b"/no/such/tree.dot" in err, f"ick-tree into no folder: {status} {err!r}")


def listing(depth, end):
    """A listing of all runs of so many choices. `end` gives the end and the output of the run of a number."""
    return b"".join(b"%s %s\n" % (format(run, f"0{depth}b").encode(), end(run)) for run in range(1 << depth)) + b"DONE\n"


def try_large(tally):
    """Equal parts are one before anything is cut. Of unequal ones as many are remembered as a drawing can have."""
    _, out, _ = tally.tool("ick-tree", "--format", "dot", given=listing(14, lambda run: b'GIVE-UP ""'))
    parts, edges = drawn(out.decode())
    tally.equal("the tree of 14 quiet coins", (parts, edges),
                (["16,384 runs"] * 14 + ["GIVE-UP 16,384 runs"], [("0 1", "16,384 runs")] * 13
                 + [("0 1", "GIVE-UP 16,384 runs")]))
    given = listing(16, lambda run: b'%s "%d"' % (b"E241@5" if run % 1024 < 3 else b"GIVE-UP", run))
    before = resource.getrusage(resource.RUSAGE_CHILDREN).ru_maxrss
    for depth in (None, 10):
        options = [] if depth is None else ["--depth", str(depth), "--width", "1024"]
        status, out, err = tally.tool("ick-tree", "--format", "dot", *options, given=given)
        parts, edges = drawn(out.decode())
        cut = [part for part in parts if ":" in part]
        wanted = (["2,048 runs: 2,042 GIVE-UP, 6 E241"] * 32 if depth is None
                  else ["64 runs: 61 GIVE-UP, 3 E241"] * 64 + ["64 runs: 64 GIVE-UP"] * 960)
        tally.equal(f"what is cut {options}", (status, cut, len(parts)), (0, wanted, 2 * len(wanted) - 1))
    used = resource.getrusage(resource.RUSAGE_CHILDREN).ru_maxrss
    tally.check(used <= max(before, 200_000), f"ick-tree takes {used} KB for 65,536 unequal runs")


def try_bunches(tally):
    """Runs that are joined many at once have the tree that their branches have."""
    names = ["I", "II", "III", "IV", "V", "VI"]
    given = listing(6, lambda run: b'GIVE-UP "%s"' % b"".join(
        b"\\n%s\\n" % name.encode() for place, name in enumerate(names) if run >> 5 - place & 1))
    levels = [["64 runs"]] + [["32 runs", f"{name} 32 runs"] for name in names[:-1]]
    levels.append(["GIVE-UP 32 runs", f"{names[-1]} GIVE-UP 32 runs"])
    edges = [pair for upper, lower in zip(levels, levels[1:]) for _ in upper for pair in zip("01", lower)]
    status, out, err = tally.tool("ick-tree", "--format", "dot", given=given)
    tally.equal("the tree of 6 printed coins", (status, err, *drawn(out.decode())),
                (0, b"", sorted(sum(levels, [])), sorted(edges)))
    # a part that isn't listed whole is equal to none: behind each first choice one run is lacking, and one goes on
    given = re.sub(rb"(.)0101 .*\n(.)0110( .*\n)", rb"\g<1>01100\3\g<1>01101\3", listing(5, lambda run: b'GIVE-UP ""'))
    status, out, err = tally.tool("ick-tree", "--format", "dot", given=given)
    labels, edges = drawn(out.decode())
    tally.equal("the tree of 2 times 16 of 17 runs", (status, err, labels.count(".."), edges.count(("1", ".."))),
                (0, b"", 2, 2))
    # the place from which bunches are compared changes no result
    wrong = []
    for lines in itertools.product((b"", b"_", b"I", b" _"), repeat=6):
        outputs = [b"\n".join(lines) + end for end in (b"", b"I\n", b"V\nX\n", b"\n\n")]
        start = ick_numerals.start_of_context(outputs)
        wrong += [pair for pair in itertools.combinations(outputs, 2) if ick_numerals.common_pieces(*pair)
                  != start + ick_numerals.common_pieces(*[output[start:] for output in pair])]
    tally.check(not wrong, f"what two outputs have in common depends on what is far before: {wrong[:3]}")


def try_pictures(tally):
    _, listing, _ = tally.ick("runs", f"{TOP}/examples/quiet.i")
    if tally.lacks("dot", "the pictures of ick-tree"):
        return
    status, out, err = tally.tool("ick-tree", given=listing)
    tally.check(status == 0 and b"<svg" in out and b"GIVE&#45;UP" in out and not err, f"ick-tree as SVG: {status} {err!r}")
    path = f"{tally.folder}/quiet.png"
    status, out, err = tally.tool("ick-tree", "-o", path, given=listing)
    with open(path, "rb") as file:
        tally.check(status == 0 and not out and not err and file.read(8) == b"\x89PNG\r\n\x1a\n", f"ick-tree as PNG: {err!r}")


def try_all(tally):
    help_and_mistakes(tally, "ick-tree")
    closed_pipe(tally, "ick-tree", ["--format", "dot"], ROWS[0][0])
    full_disk(tally, "ick-tree", ["--format", "dot"], ROWS[0][0])
    try_rows(tally)
    try_programs(tally)
    try_refusals(tally)
    try_large(tally)
    try_bunches(tally)
    try_pictures(tally)
