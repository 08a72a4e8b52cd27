"""Tries ick-tree --states: the states and lines that it draws in dot's language, against those that were printed."""
import json
import re
from fractions import Fraction

from common import TOP, called, content, write
from tree import plain

# what a program prints by --states, and the labels and the lines that are drawn: what they are labelled by, and where
# they lead
ROWS = (
    # a loop of one state, and one end; equal ends are one
    (b'state 0 1:40 ""\nedge 0 0 1 60 3\nedge 0 1 0 40 4\nend 1 1 GIVE-UP "\\nI\\n"\nDONE\n', [],
     ["1 %40", "I GIVE-UP 1 = 100 %"], [("0 60 %", "I GIVE-UP 1 = 100 %"), ("1 40 %", "1 %40")]),
    (b'state 0 1:50 ""\nedge 0 0 1 50 1\nedge 0 1 2 50 1\nend 1 0.5 E241@3 "A"\nend 2 1/2 E241@3 "A"\nDONE\n', [],
     ["1 %50", "A E241@3 1 = 100 %"], [("0 1 100 %", "A E241@3 1 = 100 %")]),
    (b'state 0 1:50 ""\nedge 0 0 1 50 1\nedge 0 1 2 50 1\nend 1 0.25.. GIVE-UP ""\nend 2 3/4 GIVE-UP "A"\nDONE\n', [],
     ["1 %50", "GIVE-UP about 25 %", "A GIVE-UP 0.75 = 75 %"],
     [("0 50 %", "GIVE-UP about 25 %"), ("1 50 %", "A GIVE-UP 0.75 = 75 %")]),
    # what was written since the states before; what never ends
    (b'state 0 7 "A\\n"\nedge 0 - 1 100 3\nstate 1 8:10 "A\\n\\nV\\n"\nedge 1 0 1 90 3\nedge 1 1 2 10 3\n'
     b'never 2 1 9 "A\\n\\nV\\nB"\nedge 2 - 2 100 10001\nDONE\n', [], ["A 7", "V 8 %10", "B 9 never ends, 1 = 100 %"],
     [("", "V 8 %10"), ("0 90 %", "V 8 %10"), ("1 10 %", "B 9 never ends, 1 = 100 %"), ("", "B 9 never ends, 1 = 100 %")]),
    # the heaviest of those that a line leads to
    (b'state 0 1:10 ""\nedge 0 0 1 90 1\nedge 0 1 2 10 1\nstate 1 2:50 ""\nedge 1 0 3 50 1\nedge 1 1 3 50 1\n'
     b'end 2 0.1 GIVE-UP ""\nend 3 0.9 GIVE-UP "A"\nDONE\n', ["--most", "2"], ["1 %10", "2 %50", "..", ".."],
     [("0 90 %", "2 %50"), ("1 10 %", ".."), ("0 1 100 %", "..")]),
)
BAD = ((b"", b"no last line"), (b"DONE\n", b"no state"), (b'state 1 1:50 ""\nDONE\n', b"line 1 is no line"),
       (b'state 0 1:50 ""\nedge 1 0 0 50 1\nDONE\n', b"line 2 is no line"), (b'end 0 GIVE-UP ""\nDONE\n', b"line 1 is no line"),
       (b'state 0 1:50 ""\nedge 0 0 1 50 1\nDONE\n', b"leads to no state"), (b'0 GIVE-UP ""\nDONE\n', b"line 1 is no line"))
KNOWN = {  # states, ends with different outcomes, and their weights
    "ruin": (7, {"I": Fraction(2601, 5002), "XVI": Fraction(2401, 5002)}),
    "lock": (15, {"": Fraction(3, 4), "II": Fraction(1, 4)}),
    "craps": (704, {"I": Fraction(244, 495), "": Fraction(251, 495)}),
}


def drawn(dot):
    """The labels of what is drawn, and the lines as pairs of a label and the label of where they lead."""
    parts = dict(re.findall(r'^  (n\w+) \[.*label=[<"](.*)[>"]\]$', dot, re.MULTILINE))
    parts = {name: plain(label) for name, label in parts.items()}
    lines = re.findall(r'^  (n\w+) -> (n\w+) \[\S+(?: label=" ([^"]+)")?\]$', dot, re.MULTILINE)
    return parts, [(start, end, " ".join(label.split())) for start, end, label in lines]


def try_rows(tally):
    for given, options, labels, lines in ROWS:
        status, out, err = tally.tool("ick-tree", "--states", "--format", "dot", *options, given=given)
        parts, found = drawn(out.decode())
        tally.equal(f"ick-tree --states {options} of {given!r}",
                    (status, err, sorted(parts.values()), sorted((label, parts[end]) for _, end, label in found)),
                    (0, b"", sorted(labels), sorted(lines)))


def printed(text):
    """The states and edges of a text of --states: kinds by number, and edges by where they begin."""
    states, edges = {}, {}
    for line in text.decode().splitlines()[:-1]:
        kind, number, rest = line.split(" ", 2)
        if kind == "edge":
            edges.setdefault(number, []).append(rest.split())
        else:
            states[number] = kind, rest
    return states, edges


def try_examples(tally):
    """Each state of an example but joined ends is drawn once, with its edges; the chances of a state's edges are 1."""
    for name, (count, weights) in KNOWN.items():
        status, text, err = called([tally.outcomes, "--states", "--exact", f"{TOP}/examples/{name}.i"])
        if not tally.equal(f"the status of {name} by --states", (status, err), (0, b"")):
            continue
        states, edges = printed(text)
        tally.equal(f"the states of {name}", len(states), count)
        wrong = [at for at, leads in edges.items() if sum(int(chance) for _, _, chance, _ in leads) != 100]
        tally.equal(f"the states of {name} whose edges are not 1", wrong, [])
        status, out, err = tally.tool("ick-tree", "--states", "--most", "10000", "--format", "dot", given=text)
        parts, lines = drawn(out.decode())
        going = [at for at, (kind, _) in states.items() if kind != "end"]
        tally.equal(f"the states of {name} that are drawn", (status, err, len(parts)), (0, b"", len(going) + len(weights)))
        ends = {name: label.split(" GIVE-UP ") if " GIVE-UP " in label else ["", label] for name, label in parts.items()
                if "GIVE-UP" in label}
        found = {wrote: Fraction(re.search(r"([\d./]+) =", label)[1]) for wrote, label in ends.values()}
        tally.equal(f"the ends of {name}", found, weights)
        chances = dict.fromkeys([f"n{at}" for at in going], 0)
        for start, _, label in lines:
            chances[start] += int(label.split()[-2]) if label else 100
        tally.equal(f"the drawn states of {name} whose lines are not 1", [at for at in chances if chances[at] != 100], [])


def try_json(tally):
    """Each line of states becomes an object of JSON, and the same line again."""
    for given, *_ in ROWS:
        status, out, err = tally.tool("ick-json", given=given)
        tally.check(status == 0 and not err, f"ick-json of {given!r}: {status} {err!r}")
        tally.equal(f"ick-json --back of {given!r}", tally.tool("ick-json", "--back", given=out), (0, given, b""))
    status, out, _ = tally.tool("ick-json", given=b'end 1 1/2 E241@3 "A"\nedge 0 - 1 100 4\nnever 2 0.5 7 ""\nDONE\n')
    tally.equal("states as JSON", (status, [json.loads(line) for line in out.splitlines()]), (0, [
        {"state": 1, "kind": "end", "weight": "1/2", "end": "FAULT", "fault": 241, "statement": 3, "output": "A",
         "base64": "QQ=="},
        {"from": 0, "choice": None, "to": 1, "chance": 100, "steps": 4},
        {"state": 2, "kind": "never", "weight": "0.5", "asks": 7, "chance": None, "end": None, "output": "", "base64": ""},
        {"listing": "DONE"}]))
    for given in (b'state 0 1 GIVE-UP ""\n', b'end 0 1 5:50 ""\n', b'never 0 5:50 ""\n', b"edge 0 2 1 50 1\n",
                  b'state 0 1:50 ""\n'):
        tally.equal(f"ick-json of {given!r}", tally.tool("ick-json", given=given)[0], 1)


def try_mistakes(tally):
    for given, wanted in BAD:
        status, out, err = tally.tool("ick-tree", "--states", "--format", "dot", given=given)
        tally.check(status == 1 and not out and wanted in err, f"ick-tree --states of {given!r}: {status} {err!r}")
    for options in (["--states", "--only", "E241"], ["--states", "--depth", "3"], ["--most", "3"], ["--states", "--most", "0"]):
        status, out, err = tally.tool("ick-tree", *options, given=ROWS[0][0])
        tally.check(status == 2 and not out and b"usage" in err, f"ick-tree {options}: {status} {err!r}")


def try_pictures(tally):
    """A picture comes soon even if many lines lead to one end."""
    if tally.lacks("dot", "the pictures of ick-tree --states"):
        return
    path = f"{tally.folder}/again.i"
    write(path, content(f"{TOP}/examples/again.i"))
    status, text, _ = called([tally.outcomes, "--states", path])
    status, out, err = tally.tool("ick-tree", "--states", given=text)
    tally.check(status == 0 and b"<svg" in out and not err, f"ick-tree --states as SVG: {status} {err!r}")


def try_all(tally):
    try_rows(tally)
    try_examples(tally)
    try_json(tally)
    try_mistakes(tally)
    try_pictures(tally)
