"""Tries ick-advice: its messages, and every fault that it explains."""
import glob
import re

from common import EXAMPLES, LIBRARY, TOP, closed_pipe, content, help_and_mistakes

import ick_faults
import ick_library
import ick_source

LINE = ick_library.LINE.decode()
WRITERS = "\n(1610) DO READ OUT ,1610\n(1020) DO RESUME #1\n(1620) PLEASE RESUME #1\n(1630) DO RESUME #1"

PEER = "/usr/share/doc/intercal/examples"

ROWS = (
    ("DO .1 <- 5 PLEASE GIVE UP", "1:10: statement 1 {E}: a number is written with a mesh, as #5"),
    ("DO .1 = #5 PLEASE GIVE UP", "1:7: statement 1 {E}: a calculation is written with <-"),
    ("DO .1 <- #5 + #6 PLEASE GIVE UP",
     "1:13: statement 1 {E}: + joins lists, and is no sum: call (1000) of library/arithmetic.i"),
    ("DO .1 <- .2 - #1 PLEASE GIVE UP", "1:13: statement 1 {E}: there is no minus: call (1010) of library/arithmetic.i"),
    ("DO READ OUT .1$.2 PLEASE GIVE UP", "1:15: statement 1 {E}: READ OUT takes no expression: calculate a variable first"),
    ("DO READ OUT HELLO PLEASE GIVE UP",
     "1:13: statement 1 {E}: READ OUT takes no text: ick-say makes statements that print one"),
    ('DO READ OUT "HELLO" PLEASE GIVE UP',
     "1:13: statement 1 {E}: READ OUT takes no text: ick-say makes statements that print one"),
    ("DO READ OUT .1, .2 PLEASE GIVE UP", "1:15: statement 1 {E}: a list is written with +"),
    ("DO READ OUT ;1 PLEASE GIVE UP",
     "1:15: statement 1 {E}: a hybrid can't be read or written whole: name an element, or use a tail"),
    ("DO .1 <- '#1~#2 PLEASE GIVE UP", "1:16: statement 1 {E}: after `DO .1 <- '#1~#2` {S}"),
    ("PLEASE GIVE UP DO (1) NEXT\n(1) DO READ OUT ,1SUB!2~\"#1$!3'\nDO GIVE UP",
     "2:32: statement 3 {E}: after `(1) DO READ OUT ,1SUB!2~\"#1$!3'` an operator or the rabbit ears that close the group was expected"),
    ("DO .1 <- \"#1~'#2\" PLEASE GIVE UP", "1:17: statement 1 {E}: after `DO .1 <- \"#1~'#2` {S}"),
    ("DO .1 <- #5 $ PLEASE GIVE UP", "1:14: statement 1 {E}: after `DO .1 <- #5 $` {O}"),
    ("PLEASE GIVE UP\n(7) DO :1 <-\n    ,1 SUB PLEASE GIVE UP", "3:11: statement 2 {E}: after `(7) DO :1 <- ,1 SUB` {O}\n"
     "3:12: refused, E099: 3 statements, 2 with PLEASE: say PLEASE in 1 fewer"),
    ("DO READ\tIN .1 PLEASE GIVE UP", "1:9: statement 1 {E}: after `DO READ` OUT was expected"),
    ("DO STASH .1 .2 PLEASE GIVE UP", "1:13: statement 1 {E}: after `DO STASH .1` the end of the statement was expected"),
    ("DO .1 <- '\"#1$#2\"~'#3$#4'\"#5$#6\"' PLEASE GIVE UP",
     "1:26: statement 1 {E}: after `DO .1 <- '\"#1$#2\"~'#3$#4'` {S}"),
    ("DO .1 <- " + "#1~" * 20 + " PLEASE GIVE UP", "1:70: statement 1 {E}: after `..~" + "#1~" * 13 + "` {O}"),
    ("DO .1 <- #&&5 PLEASE GIVE UP",
     "1:12: statement 1 {E}: an operand has one unary operator: put a group round the inner one"),
    ("DO .1 <- &#5 PLEASE GIVE UP",
     "1:10: statement 1 {E}: a unary operator stands behind the first mark of its operand, as in #&77"),
    ("DO COME FROM (5) DO GIVE UP",
     "1:4: statement 1 {E}: COME FROM is C-INTERCAL's, and not in this language: ick-convert --come-from rewrites it"),
    ("DO COME FROM .1 PLEASE GIVE UP DO COME FROM (5) ONCE",
     "1:4: statement 1 {E}: COME FROM is C-INTERCAL's, and not in this language: ick-convert --come-from rewrites it"),
    ("DO (5) COME FROM (6) PLEASE GIVE UP",
     "1:8: statement 1 {E}: COME FROM is C-INTERCAL's, and not in this language: ick-convert --all rewrites it if it begins "
     "with its label or expression"),
    ("PLEASE GIVE UP DO NEXT FROM (5) DO GIVE UP", "1:29: NEXT FROM, which is C-INTERCAL's, hands its (5) to statement 3 as its label"),
    ("DO COME FROM (5)\nDO READ OUT #1\n(5) PLEASE GIVE UP",
     "3:1: refused, E182: (5) is the label of statement 3, and of statement 2 at line 1, since COME FROM hands it on: "
     "ick-convert --come-from rewrites it"),
    ("10 DO RESUME #1\nPLEASE GIVE UP", "1:1: statement 1 {E}: a label is written in parentheses, as (10)"),
    ("DO READ OUT #1\n 10 DO RESUME #1\nPLEASE GIVE UP",
     "2:2: statement 1 {E}: a label is written in parentheses, as (10)"),
    ("DO RESUME 10 PLEASE GIVE UP", "1:11: statement 1 {E}: a number is written with a mesh, as #5"),
    ("(5) DO GIVE UP DO COME FROM (5) PLEASE GIVE UP",
     "1:29: refused, E182: (5) is the label of statement 3, since COME FROM hands it on, and of statement 1 at line 1: "
     "ick-convert --come-from rewrites it"),
    ("DO .1 <- #1 ONCE PLEASE GIVE UP", "1:13: statement 1 {E}: ONCE and AGAIN are C-INTERCAL's: ick-convert --once rewrites them"),
    ("DO ABSTAIN #1 FROM GIVING UP PLEASE GIVE UP",
     "1:12: statement 1 {E}: ABSTAIN with a count is C-INTERCAL's, and not in this language: ick-convert "
     "--abstain rewrites it"),
    ("DO ABSTAIN .1 FROM (10)\nDO READ OUT #1\nPLEASE GIVE UP",
     "1:12: statement 1 {E}: ABSTAIN with a count is C-INTERCAL's, and not in this language: ick-convert "
     "--abstain rewrites it"),
    ("DO ABSTAIN #1 FROM (10)\nDO READ OUT #1\n(10) PLEASE GIVE UP",
     "3:1: refused, E182: (10) is the label of statement 3, and of statement 2 at line 1, since ABSTAIN with a count, which is "
     "C-INTERCAL's, hands it on"),
    ("DO GIVE UP DO ABSTAIN #1 FROM (10) PLEASE GIVE UP",
     "1:31: ABSTAIN with a count, which is C-INTERCAL's, hands its (10) to statement 3 as its label"),
    ("DO ABSTAIN FROM COMMENTING PLEASE GIVE UP", "1:17: statement 1 {E}: no gerund begins so"),
    ("DO RAED OUT #1 PLEASE GIVE UP", "1:4: statement 1 {E}: RAED is no word of this language; READ is"),
    ("DO DO GIVE UP", "1:3: statement 1 {E}: nothing stands between this identifier and the next one"),
    ("DO %50% READ OUT #1 PLEASE GIVE UP", "1:7: statement 1 {E}: a chance has one %, in front of its number, as %50"),
    ("DO 50% READ OUT #1 PLEASE GIVE UP", "1:4: statement 1 {E}: a chance has one %, in front of its number, as %50"),
    ("DO %50 %50 READ OUT #1 PLEASE GIVE UP", "1:8: statement 1 {E}: NOT and a chance stand once each"),
    ("DO %101 GIVE UP PLEASE GIVE UP", "1:4: statement 1 {E}: a chance goes from 0 to 100"),
    ("please do read out #1\nplease give up",
     "1:1: statement 1 {E}: small letters are no letters of the language: write capitals, or use ick-convert\n"
     "2:15: {G}"),
    ("#!/usr/bin/ick\nDO GIVE UP",
     "1:1: statement 1 {E}: what stands in front of the first DO or PLEASE is a statement of its own"),
    ("PLEASE NOTE: NOTHING RANDOM HERE\nDO GIVE UP", "1:25: the comment in front is cut at RANDOM: statement 2 {E}"),
    ("DOES IT WORK?\nPLEASE GIVE UP", "1:1: statement 1 {E}: it begins inside the word DOES"),
    # the word before is in the line before
    ("DO (1) NEXT\nDO FOO\n(1) PLEASE GIVE UP", "2:4: statement 2 {E}: no statement of this language begins so"),
    ("PLEASE NOTE: SEE (5)\nDO GIVE UP",
     "1:18: the comment in front hands its (5) to statement 2 as its label"),
    ("PLEASE NOTE: SEE (5)\nDO (5) NEXT\n(5) DO GIVE UP",
     "1:18: the comment in front hands its (5) to statement 2 as its label\n"
     "3:1: refused, E182: (5) is the label of statement 3, and of statement 2 at line 1, since the comment in front hands "
     "it on"),
    ("DO (1610) NEXT\nDO (1000) NEXT\nPLEASE DO (1610) NEXT\nDO GIVE UP",
     "1:4: the library has (1000), (1610): ick-join pastes it after the program"),
    ("DO NOT (1234) NEXT\nDO ABSTAIN FROM (1020)\nDO (1000) NEXT\nPLEASE GIVE UP",
     "1:8: refused, E129: no statement has the label (1234)\n"
     "2:17: the library has (1000), (1020): ick-join pastes it after the program"),
    ("DO (1020) NEXT\nDO (1001) NEXT\nPLEASE GIVE UP\n(1001) DO RESUME .5",
     "1:4: refused, E129: no statement has the label (1020)"),
    (f"DO (1020) NEXT\nDO (1001) NEXT\nPLEASE GIVE UP\n{LINE}\n(1001) DO RESUME .5",
     "1:4: the library has (1020): ick-join pastes it after the program"),
    ("DO (1020) NEXT\nDO (5000) NEXT\nPLEASE (7) NEXT\nDO GIVE UP",
     "1:4: the library has (1020): ick-join pastes it after the program\n"
     "2:4: refused, E129: no statement has the label (5000); ick-join --with pastes C-INTERCAL's floatlib.i\n"
     "3:8: refused, E129: no statement has the label (7)"),
    ("DO GIVE UP\n" * 11, "11:1: refused, E079: 11 statements, 0 with PLEASE: say PLEASE in 2 more"),
    ("PLEASE GIVE UP\n" * 3, "3:1: refused, E099: 3 statements, 3 with PLEASE: say PLEASE in 2 fewer"),
    ("DO READ OUT #70000\nPLEASE GIVE UP",
     "1:13: refused, E017: A mesh (#) holds 0 to 65535. Make a larger number by mingle: #a$#b has the bits of a at the odd "
     "places, and those of b at the even ones."),
    ("DO :1 <- \"?:6~:6\"~#65535\nPLEASE GIVE UP",
     "1:10: the operand of ? has 16 bits if its select takes at most 16; in C-INTERCAL it has 32: ick-convert --widths"),
    ("DO READ OUT #1 + ,1 + #2\nDO (1020) NEXT\nDO (1620) NEXT\nPLEASE (1630) NEXT\nDO GIVE UP" + WRITERS,
     "1:1: (1620) writes wrong bytes after this text, unless .1610 has its last byte: ick-say --library writes both"),
    ("DO READ OUT ,1\nDO .1610 <- #80\nDO (1620) NEXT\nPLEASE (1630) NEXT\nDO GIVE UP" + WRITERS, ""),
    ("DO (1610) NEXT\nDO READ OUT ,1\nDO (1020) NEXT\nPLEASE READ OUT ,1SUB#1\nDO GIVE UP" + WRITERS, ""),
    ("DO READ OUT ,1SUB#1 + .1\nDO (1620) NEXT\nDO NOT READ OUT ,1\nPLEASE (1630) NEXT\nDO GIVE UP" + WRITERS, ""),
    ("DO READ OUT #1", "1:15: {G}"),
    ("", "1:1: {G}"),
    ("DO GIVE UP\nPLEASE BE IDLE HERE", ""),
    ("(10) DO .1 <- #1\nDO RESUME #1\nPLEASE GIVE UP BEFORE THE LIBRARY\n(1000) DO GIVE UP", ""),
)


def try_messages(tally):
    marks = {"E": "is fault 000 when it is done", "G": "no GIVE UP is ever done: the program can only end by a fault",
             "O": "an operand was expected: a variable, an element, a mesh or a group",
             "S": "an operator or the spark that closes the group was expected"}
    for source, wanted in ROWS:
        wanted = "".join(f"-:{line}\n" for line in wanted.format(**marks).splitlines()).encode()
        found = tally.tool("ick-advice", "--brief", given=source.encode())
        tally.equal(f"advice on {source!r}", found, (1 if wanted else 0, wanted, b""))


def try_pictures(tally):
    """Without --brief each line has its text, a mark under the place, and the sentence."""
    given = "no GIVE UP is ever done: the program can only end by a fault"
    for source, wanted in (
            (b"", f" --> -:1:1\n1 |\n  | ^\n  = {given}\n"),
            (b"DO READ OUT .1\r\n\n", f" --> -:1:15\n1 | DO READ OUT .1\n  |               ^\n  = {given}\n"),
            (b"PLEASE GIVE UP\n" * 9 + b"\tDO \xe6\x97\xa5\x1b\xff NOT.1 DO .1 <- 5", "  --> -:10:17\n"
             "10 |  DO \u65e5?\ufffd NOT.1 DO .1 <- 5\n   |                ^\n"
             "   = refused, E099: 11 statements, 9 with PLEASE: say PLEASE in 6 fewer\n"),
            (b"PLEASE GIVE UP (1) DO NOTE \xe6\x97\xa5\x1b\xff\tDO .1 <- 5\n(2) DO DO NOT", " --> -:1:34\n"
             "1 | PLEASE GIVE UP (1) DO NOTE \u65e5?\ufffd DO .1 <- 5\n  |                                 ^\n"),
            (b"DO GIVE UP PLEASE NOTE " + b"A" * 200 + b"(7) DO NOTE " + b"B" * 200,
             f" --> -:1:224\n1 | ..{'A' * 60}(7) DO NOTE {'B' * 22}..\n  | {' ' * 62}^\n"
             "  = the comment in front hands its (7) to statement 3 as its label\n")):
        status, out, err = tally.tool("ick-advice", given=source)
        tally.check((status, err) == (1, b"") and wanted in out.decode(), f"the picture of {source!r}: {out.decode()}")
        brief = tally.tool("ick-advice", "--brief", given=source)[1]
        told = re.findall(r"^ *--> (.*)\n.*\n.*\n *= (.*)\n", out.decode(), re.MULTILINE)
        tally.equal(f"--brief and else of {source!r}", [": ".join(one) for one in told], brief.decode().splitlines())


def try_examples(tally):
    wanted = {"bodies.i": b"ick-convert --widths", "trap.i": b"cut at RANDOM", "edge.i": b"no GIVE UP", "lagoon.i": b"no GIVE UP"}
    for path in EXAMPLES:
        name = path.rsplit("/", 1)[1]
        _, out, err = tally.tool("ick-advice", "--brief", given=content(path))
        good = wanted[name] in out and out.count(b"\n") == 1 if name in wanted else not out
        tally.check(good and not err, f"advice on {path}: {out!r} {err!r}")


def try_peer(tally):
    """Each example of C-INTERCAL that ick refuses gets the reason: COME FROM, a count, or a library."""
    paths = sorted(glob.glob(f"{PEER}/**/*.i", recursive=True))
    if not paths:
        tally.untried.append("ick-advice on C-INTERCAL's examples (package intercal)")
    for path in paths:
        source = content(path)
        refusals = ick_source.Source(source).refusals
        if not refusals:
            continue
        number = refusals[0][0]
        _, out, _ = tally.tool("ick-advice", "--brief", path)
        reason = {182: rb"refused, E182: .* since .* hands it on",
                  129: rb"the library has|refused, E129: .*floatlib"}.get(number, rb"$.")
        tally.check(re.search(reason, out) is not None, f"no reason for E{number} in {path}: {out[:400]!r}")


def try_explained(tally):
    for number, (_, program, given, _) in ick_faults.FAULTS.items():
        path = f"{tally.folder}/fault.i"
        with open(path, "w", encoding="ascii") as file:
            file.write(program)
        _, _, err = tally.ick("run", path, given=given.encode())
        tally.check(err.startswith(f"ICL{number:03}I ".encode()), f"the program of E{number:03}: {err!r}")
        status, out, _ = tally.tool("ick-advice", "--explain", str(number))
        tally.check(status == 0 and out.startswith(f"ICL{number:03}I: ".encode()), f"--explain {number}: {out!r}")
    for name in ("E017", "ICL017I"):
        tally.equal(name, tally.tool("ick-advice", "--explain", name), tally.tool("ick-advice", "--explain", "17"))
    manual, told = content(f"{TOP}/docs/MANUAL.md").decode(), {"SOURCE TOO LONG"}
    for title in ("Exit statuses", "Outcomes"):
        text = re.split(rf"\n## \d+ {title}\n", manual)[1].split("\n## ")[0]
        found = re.findall(r"^\| \d+ \| `([A-Zn, ]+?)(?: AFTER n STEPS|(?:: n (?:IN m STEPS|BYTES))?; TRY --limit 10000 OR --ends)?` \|",
                           text, re.MULTILINE)
        told |= {name.replace("n", "N") for name in found}
    tally.equal("the messages of the manual", told, set(ick_faults.MESSAGES))
    tally.equal("a line by its number", *(tally.tool("ick-advice", "--explain", *f"LINE {number} IS NOT OF THIS PROGRAM".split())
                                          for number in ("n", 17)))
    for name in ick_faults.MESSAGES:
        for words in ([name.lower()], [*name.split(), "AFTER", "3", "STEPS"]):
            status, out, err = tally.tool("ick-advice", "--explain", *words)
            tally.check(status == 0 and out.startswith(f"{name}, status ".encode()) and max(map(len, out.split(b"\n"))) < 81,
                        f"--explain {words}: {status} {out!r} {err!r}")
    for name in ("1", "E", "-17"):
        status, out, err = tally.tool("ick-advice", f"--explain={name}")
        tally.check(status == 2 and not out and b"no message" in err, f"--explain {name}: {status} {out!r} {err!r}")


def try_line(tally):
    source = b"HELLO\nDO READ OUT #70000 (7) PLEASE\nGIVE UP"
    for line, wanted in (("2", b'-:1:1: statement 1: "HELLO"\n'), ("3", b'-:2:1: statement 2: "DO READ OUT #70000"\n'),
                         ("4", b'-:2:20: statement 3: "(7) PLEASE\\nGIVE UP"\n')):
        tally.equal(f"--line {line}", tally.tool("ick-advice", "--line", line, given=source), (0, wanted, b""))
    for line in ("1", "5"):
        status, out, err = tally.tool("ick-advice", "--line", line, given=source)
        tally.check(status == 2 and not out and b"3 statements" in err, f"--line {line}: {status} {out!r} {err!r}")


def try_all(tally):
    help_and_mistakes(tally, "ick-advice")
    closed_pipe(tally, "ick-advice", [], b"DO X " * 20000)
    try_messages(tally)
    try_pictures(tally)
    try_examples(tally)
    try_peer(tally)
    try_explained(tally)
    try_line(tally)
