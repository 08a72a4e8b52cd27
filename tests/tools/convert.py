"""Tries ick-convert: each old spelling, code pages, small letters of whole programs, widths, and COME FROM."""
import os
import re

from common import TOP, content, help_and_mistakes

from ick_numerals import pieces

ROWS = (
    # options, the source, the converted source, the places of changes
    ([], b"DO .1 <- '#1c\b/#2'~#3", b"DO .1 <- '#1$#2'~#3", ["1:13"]),
    ([], b"DO .1 <- '#1/\bc#2'~#3", b"DO .1 <- '#1$#2'~#3", ["1:13"]),
    ([], b"DO\n.1 <- '#1\xa2#2\xa3#3\xa4#4'~#3", b"DO\n.1 <- '#1$#2$#3$#4'~#3", ["2:10", "2:13", "2:16"]),
    ([], "DO :1 <- #1¢#2 NOTE é".encode(), "DO :1 <- #1$#2 NOTE é".encode(), ["1:12"]),
    ([], b"DO .1 <- .V\b-2", b"DO .1 <- .?2", ["1:11"]),
    ([], b"DO .1 <- .-\bV2 \xe9", b"DO .1 <- .?2 \xe9", ["1:11"]),
    ([], b"DO .1 <- .\xa52", b"DO .1 <- .?2", ["1:11"]),
    ([], b"DO .1 -\b< '\b.2~#1'", b"DO .1 <- '.2~#1'", ["1:7", "1:11"]),
    ([], b"please do read out #1\n(7) do note what we do here\nplease don't give up",
     b"PLEASE DO READ OUT #1\n(7) DO NOTe what we DO here\nPLEASE DON'T GIVE UP", ["1:1", "2:1", "2:21", "3:1"]),
    ([], b"DO NOT do this\nPLEASE GIVE UP", b"DO NOT do this\nPLEASE GIVE UP", []),
    ([], b"hello do .1 <- #v5", b"hello DO .1 <- #V5", ["1:7"]),
    ([], "DO .1 ← ’∀.1¢.2‘~“#0$#3”\nPLEASE DON’T GIVE UP".encode(), b"DO .1 <- '?.1$.2'~\"#0$#3\"\nPLEASE DON'T GIVE UP",
     ["1:7", "1:9", "1:10", "1:13", "1:16", "1:18", "1:24", "2:11"]),
    ([], "\ufeffDO .1\xa0<– '⊻.1'~#5".encode(), b"DO .1 <- '?.1'~#5", ["1:1", "1:7", "1:9", "1:12"]),
    ([], b"DO .1 <\x96 \x91?.1\x92~#5\xe9", b"DO .1 <- '?.1'~#5\xe9", ["1:8", "1:10", "1:14"]),
    (["--from", "cp037"], "DO :1 <- #1¢#2\x85PLEASE NOTE é".encode("cp037"),
     "DO :1 <- #1$#2\nPLEASE NOTE é".encode(), ["1:12"]),
)

# an expression where :1 is 3 and :2 has 32 ones, as --widths leaves it, and its number in C-INTERCAL 0.30
WIDTHS = (
    ("'?:1~:1'", """'?":1~:1"~"#65535$#65535"'""", 2147483650),
    ("'?:1~.1~:1'", """'?":1~.1~:1"~"#65535$#65535"'""", 2147483649),
    ("""'V"?:2~:1"'~"#65535$#65535\"""", """'V"?':2~:1'~'#65535$#65535'"'~"#65535$#65535\"""", 3221225475),
    ("'?:1~;1SUB#1'", """'?':1~;1SUB#1'~"#65535$#65535"'""", 2147483649),
    ("""'V"#1~:1"'""", """'V""#1~:1""~"#65535$#65535"'""", 2147483649),
    ("""'V#1~"#1$#1"'""", """'V"#1~"#1$#1""~"#65535$#65535"'""", 2147483649),
    ("""'V"#3~:1"~:2'""", """'V""#3~:1"~:2"~"#65535$#65535"'""", 2147483651),
    ("""'"V!1~:2'~:1"~#1'""", """'"V!1~:2'~:1"~#1'""", 1),  # the highest bits aren't taken
    ("'V.1~.1'", "'V.1~.1'", 32771),
    ("'?.1~#65535$#1'", "'?.1~#65535$#1'", 2147483649),
    ("'?:2~:1'~#32767", "'?:2~:1'~#32767", 2),
    ("'V:2~#65535$#3'", "'V:2~#65535$#3'", 2147745791),
)
# a program with COME FROM, and the numbers that C-INTERCAL 0.30 prints; both give up then, or have the fault
COME_FROM = (
    ("DO READ OUT #1\n(1) DO READ OUT #2\nDO READ OUT #3\nPLEASE GIVE UP\nDO COME FROM (1)\nDO READ OUT #4\n"
     "PLEASE GIVE UP", [1, 2, 4], b""),
    ("(1) DO NOT READ OUT #1\nDO READ OUT #2\nPLEASE GIVE UP\n(5) DO COME FROM (1)\nPLEASE READ OUT #3\nDO GIVE UP",
     [3], b""),
    ("(1) DO (2) NEXT\nDO READ OUT #1\nPLEASE GIVE UP\n(2) DO READ OUT #2\nDO RESUME #1\nPLEASE COME FROM (1)\n"
     "DO READ OUT #3\nDO RESUME #1", [2, 3], b"ICL632I"),
    ("DO (2) NEXT\nDO READ OUT #1\nPLEASE GIVE UP\n(2) DO (3) NEXT\nDO READ OUT #2\n(3) DO RESUME #2\n"
     "PLEASE COME FROM (2)\nDO READ OUT #3\nDO GIVE UP", [1], b""),
    ("DO REINSTATE (5)\n(1) DO READ OUT #1\nDO READ OUT #2\nPLEASE GIVE UP\n(5) DO NOT COME FROM (1)\n"
     "PLEASE READ OUT #3\nDO GIVE UP", [1, 3], b""),
    ("(1) DO READ OUT #1\nDO READ OUT #2\nPLEASE GIVE UP\n(5) DO N'T COME FROM (1)\nPLEASE READ OUT #3\nDO GIVE UP",
     [1, 2], b""),
    ("(7) DO READ OUT #1\nDO READ OUT #2\nPLEASE (5) NEXT\nDO GIVE UP\n(5) DO COME FROM (7)\n(6) DO ABSTAIN FROM (5)\n"
     "PLEASE READ OUT #3\nDO COME FROM (8)\n(8) DO (7) NEXT", [1, 3] + [1, 2, 3] * 39 + [1, 2], b"ICL123I"),
    ("DO (1) NEXT\n(1) DO READ OUT #1\nPLEASE ABSTAIN FROM COMING FROM + CALCULATING\n(2) DO READ OUT #2\nDO (3) NEXT\n"
     "DO COME FROM (2)\nDO COME FROM (1)\nPLEASE READ OUT #4\nDO GIVE UP\n(3) DO .1 <- #9\nPLEASE READ OUT .1\n"
     "DO GIVE UP", [1, 4], b""),
    ("DO ABSTAIN FROM COMING FROM + CALCULATING\n(2) DO .1 <- #2\n(1) PLEASE READ OUT .1\nDO GIVE UP\n"
     "DO COME FROM (2)\nDO COME FROM (1)\nPLEASE READ OUT #4\nDO GIVE UP", [0], b""),
    ("PLEASE REINSTATE COMINGFROM\n(1) DO READ OUT #1\nDO GIVE UP\nDO NOT COME FROM (2)\nDO READ OUT #4\n"
     "PLEASE GIVE UP\nDO NOT COME FROM (1)\n(2) DO READ OUT #2\nDO GIVE UP", [1, 2, 4], b""),
    ("(1) DO READ OUT #1\nDO GIVE UP\n(2) DO COME FROM (1)\nPLEASE READ OUT #2\nDO GIVE UP\nDO COME FROM (2)\n"
     "PLEASE READ OUT #3\nDO GIVE UP", [1, 3], b""),
    ("(1) DO NOT GIVE UP\nDO READ OUT #1\n(2) PLEASE NOTE THAT\nDO READ OUT #2\nPLEASE DO COME FROM (1)\n"
     "DO READ OUT #3\nDO (2) NEXT\nDO COME FROM (2)\nPLEASE READ OUT #4\nDO GIVE UP", [3, 4], b""),
    ("DO ABSTAIN FROM NEXTING + FORGETTING\nDO (3) NEXT\nPLEASE FORGET #1\n(1) DO READ OUT #1\nDO GIVE UP\n"
     "(3) DO READ OUT #3\nPLEASE GIVE UP\nDO COME FROM (1)\nDO READ OUT #4\nDO (3) NEXT\nPLEASE COME FROM (4)\n"
     "(4) DO GIVE UP", [1, 4], b""),
)
# options, a program that they rewrite, and the numbers that C-INTERCAL 0.30 prints; both give up then, or have the fault
REWRITTEN = (
    ("--once", "DO (9) NEXT\nPLEASE GIVE UP\n(9) DO READ OUT #1 ONCE\n(8) DO READ OUT #2 AGAIN\n"
     "(7) DO NOT READ OUT #3 ONCE\nPLEASE NOT READ OUT #4 AGAIN\nDO ABSTAIN FROM (8) ONCE\n"
     "DO (9) NEXT ONCE\nPLEASE GIVE UP", [1, 2, 3], b''),
    ("--once", "DO (5) NEXT ONCE\nPLEASE READ OUT #1\nDO GIVE UP\n(5) DO READ OUT #2\nPLEASE FORGET #1\n"
     "DO (6) NEXT\n(6) DO FORGET #1\nDO REINSTATE (7)\nPLEASE DO (7) NEXT\n(7) DO NOT (8) NEXT AGAIN\n"
     "DO READ OUT #3\nDO GIVE UP\n(8) DO READ OUT #4\nPLEASE RESUME #2", [2, 4, 3], b''),
    ("--once", "(1) DO RESUME #1 AGAIN\nDO ABSTAIN FROM NEXTING + READING OUT ONCE\nPLEASE READ OUT #1\n"
     "DO REINSTATE READING OUT\n(2) DO READ OUT #2 ONCE\nPLEASE READ OUT #3\nDO GIVE UP", [], b'ICL632I'),
    ("--once", "DO (1) NEXT\nDO READ OUT #1\nPLEASE GIVE UP\n(1) DO RESUME #1 ONCE", [1], b''),
    ("--once", "PLEASE DO (4) NEXT\n(4) DO FORGET #1\nDO READ OUT #7\n(3) DO NOTHING ONCE\n"
     "PLEASE REINSTATE (3)\nDO (4) NEXT", [7, 7], b'ICL000I'),
    ("--once", "DO ABSTAIN FROM ABSTAINING\nDO .1 <- #5 ONCE\nPLEASE READ OUT .1 ONCE\n"
     "DO REINSTATE ABSTAINING + READING OUT\n"
     "PLEASE ABSTAIN FROM REINSTATING + NEXTING + FORGETTING ONCE\nDO REINSTATE (2)\n"
     "(2) DO NOT READ OUT #3 AGAIN\nDO READ OUT #4\nPLEASE GIVE UP", [5, 3, 4], b''),
    ("--come-from", "DO .1 <- #3\n(1) DO READ OUT #1\nPLEASE READ OUT #2\nDO GIVE UP\n(3) DO READ OUT #3\n"
     "PLEASE READ OUT #4\nDO COME FROM .1\nDO .1 <- #1\nPLEASE READ OUT #5\n(4) DO (3) NEXT\n"
     "DO COME FROM '.1$#0'~#1\nDO READ OUT #9\nDO GIVE UP", [1, 2], b''),
    ("--come-from", "DO :1 <- #65535$#1\n(1) DO READ OUT #1\nDO :1 <- #0$#1\n(2) PLEASE READ OUT #2\nDO :1 <- #1$#1\n"
     "(3) DO READ OUT #3\nPLEASE GIVE UP\nDO COME FROM :1\nDO READ OUT #4\nDO GIVE UP", [1, 2, 3, 4], b''),
    ("--come-from", "DO READ OUT #1\n(1) DO READ OUT #2\nDO NOT COME FROM \"?'.1$#2'~#3\"\nPLEASE READ OUT #3\n"
     "(2) DO NOTE\nPLEASE GIVE UP\n(9) DO COME FROM #2\nDO READ OUT #4\nPLEASE ABSTAIN FROM (9)\n"
     "DO (2) NEXT", [1, 2, 3, 4], b''),
    ("--come-from", "DO .1 <- #1\nDO ABSTAIN FROM CALCULATING + RESUMING + FORGETTING + NEXTING + ABSTAINING\n"
     "(1) DO READ OUT #1\nDO COME FROM .2\n(5) PLEASE READ OUT #5\nDO GIVE UP\nPLEASE COME FROM .1\n"
     "DO READ OUT #2\nDO ABSTAIN FROM COMING FROM\nPLEASE REINSTATE COMING FROM\n(3) DO READ OUT #3\n"
     "DO GIVE UP", [1, 2, 3], b''),
    ("--come-from", "(1) DO COME FROM (2)\nDO READ OUT #1\nPLEASE GIVE UP\nDO COME FROM (1)\nDO READ OUT #3\n"
     "DO GIVE UP\n(3) DO COME FROM #9\n(2) PLEASE READ OUT #2", [3], b''),
    ("--abstain --once", "DO ABSTAIN #2 FROM (1)\n(1) DO READ OUT #1\nPLEASE REINSTATE (1)\nDO (2) NEXT\n"
     "DO REINSTATE (1)\n(2) DO READ OUT #2\nDO (3) NEXT\n(3) PLEASE FORGET #1\nDO (1) NEXT ONCE\n"
     "DO GIVE UP", [2, 2], b''),
    ("--abstain", "DO .1 <- #0\nDO ABSTAIN .1 FROM (1)\n(1) DO READ OUT #1\n"
     "PLEASE ABSTAIN #3 FROM READING OUT + CALCULATING\nDO ABSTAIN FROM (1)\n"
     "DO REINSTATE READING OUT\nPLEASE REINSTATE CALCULATING\nDO REINSTATE READING OUT\n"
     "DO READ OUT #2\nPLEASE REINSTATE (3)\n(3) DO READ OUT #3\nDO READ OUT #4\nDO REINSTATE (3)\n"
     "DO REINSTATE (3)\nPLEASE GIVE UP", [1, 3], b''),
    ("--abstain", "DO REINSTATE (1)\n(1) DO NOT READ OUT #1\nDO ABSTAIN FROM (2)\n"
     "PLEASE ABSTAIN #65535~#1 FROM (2)\nDO REINSTATE (2)\n(2) DO READ OUT #2\nDO REINSTATE (2)\n"
     "PLEASE ABSTAIN #1 FROM ABSTAINING + REINSTATING\nDO ABSTAIN FROM READING OUT\nDO READ OUT #3\n"
     "PLEASE GIVE UP", [1, 3], b''),
    ("--abstain", "(4) DO NOT NOTE\nDO ABSTAIN #2 FROM COMMENTING\nDO REINSTATE COMMENTS\nDO REINSTATE COMMENT\n"
     "PLEASE NOTE\nDO READ OUT #1\nDO REINSTATE (4)\nPLEASE GIVE UP", [1], b''),
    ("--abstain --once", "DO (5) NEXT\n(5) DO FORGET #1\nDO ABSTAIN #2 FROM (6) ONCE\nPLEASE READ OUT #1\n"
     "(6) DO READ OUT #2 AGAIN\nDO ABSTAIN #2 FROM READING OUT ONCE\nPLEASE REINSTATE (6) AGAIN\n"
     "DO REINSTATE (6)\n(8) DO (5) NEXT ONCE\nDO REINSTATE READING OUT ONCE\n"
     "DO REINSTATE READING OUT\nPLEASE READ OUT #3", [1, 2, 3], b'ICL633I'),
    ("--again", "DO READ OUT #1\n(1) DO READ OUT #2\nPLEASE ABSTAIN FROM READING OUT\n"
     "DO ABSTAIN FROM TRYING AGAIN\nPLEASE REINSTATE (1)\n(2) DO TRY AGAIN", [1, 2], b''),
    ("--again --once", "DO READ OUT #1 ONCE\nDO NOT GIVE UP ONCE\n(1) DO READ OUT #2 AGAIN\nDO ABSTAIN FROM (2)\n"
     "DO REINSTATE (2) ONCE\nPLEASE ABSTAIN FROM (1)\n(2) PLEASE DO TRY AGAIN ONCE", [1, 2], b''),
    ("--all", "DO READ OUT #1 ONCE\nPLEASE COME FROM (5) ONCE\nDO READ OUT #2\n(9) PLEASE COME FROM #7 AGAIN\n"
     "DO ABSTAIN FROM (9)\n(4) DO READ OUT #4\n(5) DO READ OUT #5\n(7) DO ABSTAIN FROM (8) ONCE\n"
     "PLEASE READ OUT #6\nDO GIVE UP\n(8) DO COME FROM .1 ONCE", [1, 2, 4, 5, 2, 4, 5, 6], b''),
)
# options, a program that they can't rewrite, and the place and a part of each reason
NEVER = (
    ("--come-from", "DO COME FROM (7)\nPLEASE GIVE UP", ("1:1", "statement 1 can't be rewritten: no statement has the label (7)")),
    ("--come-from", "DO COME FROM (1020)\nPLEASE GIVE UP", ("1:1", "(1020): use ick-join first")),
    ("--come-from", "(1) DO COME FROM (1)\nPLEASE COME FROM (1)\nDO COME FROM (3)", ("2:1", "threads"), ("3:1", "the label (3)")),
    ("--come-from", "(1) DO GIVE UP\nPLEASE COME FROM (1) AGAIN\nDO GIVE UP", ("2:8", "needs --once too")),
    ("--come-from", "DO COME FROM HERE\nPLEASE DO COME FROM .1 WHILE .2 <- #1", ("1:1", "neither"), ("2:24", "WHILE")),
    ("--all", "DO ABSTAIN #3 FROM (7)\nPLEASE GIVE UP", ("1:1", "no statement has the label (7)")),
    ("--all", "MAYBE DON'T GIVE UP\nDO GO BACK\nPLEASE DON'T GO AHEAD", ("1:1", "MAYBE"), ("2:4", "GO BACK"), ("3:14", "GO AHEAD")),
    ("--all", "DO .1 <- #1\nMAYBE COME FROM (1)\n(1) DO CREATE (5) SWAP .1", ("2:1", "MAYBE"), ("3:8", "CREATE")),
    ("--all", "DO (7) NEXT FROM (8)\nPLEASE NEXT FROM (7)\nDO PIN :1", ("1:4", "NEXT FROM"), ("2:8", "NEXT FROM"), ("3:4", "PIN")),
    ("--all", "DO COME FROM .1 WHILE :1 <- '#1:2/.1'", ("1:17", "WHILE"), ("1:32", "/ overloads")),
)
NEVER_A_REASON = b"PLEASE NOTE: A / B, MAYBE WHILE, GO BACK\nDO NOT CREATE THINGS\nPLEASE DO NOTE .1 / 2\n"
# options, a statement that they leave as it is
LEFT = (
    ("--come-from", b"DO NOT COME FROM HERE\nPLEASE GIVE UP"),
    ("--come-from", b"PLEASE NOTE: COME FROM (5) DO\n"),
    ("--come-from", b"DO .1 <- #1 ONCE PLEASE TRY AGAIN"),
    ("--once", b"DO COME FROM .1\nPLEASE NOTE FROM HERE ONCE\nDO NOTE: THIS ONCE\nDO ABSTAIN #1 FROM (1) ONCE"),
    ("--once", b"DO READ OUT #1\nPLEASE TRY AGAIN"),
    ("--again", b"DO .1 <- #1 AGAIN"),
    ("--abstain", b"(1) DO ABSTAIN FROM (1)\nDO ABSTAIN FROM NEXTING\nPLEASE REINSTATE CALCULATING"),
    ("--tails", b"DO .1 <- .2$,&SUB#1\nDO ,&1SUB#1 <- #1\nDO .1 <- ,1SUB,&2SUB#1\nPLEASE READ OUT ,&1SUB#1"),
    ("--all", NEVER_A_REASON),
)
# an expression with operators behind the marks of arrays, as --tails leaves it, and its number in C-INTERCAL 0.30
TAILS = (
    (".1$,&1SUB#2", ".1$'&,1SUB#2'", 6),
    ("'.1$,?1 SUB#2'~'#0$#65535'", "'.1$'?,1 SUB#2''~'#0$#65535'", 5),
    (";V1SUB.1#2", "'V;1SUB.1#2'", 2147483661),
    (";V1SUB'.1~#1'#2", "'V;1SUB'.1~#1'#2'", 2147483661),
    (".1~,&1SUB\"#1\"", ".1~'&,1SUB\"#1\"'", 0),
    ("#5$,&1SUB\"',1SUB#1'~#3\"", "#5$'&,1SUB\"',1SUB#1'~#3\"'", 38),
)


def try_rows(tally):
    for options, source, wanted, places in ROWS:
        status, out, err = tally.tool("ick-convert", *options, given=source)
        found = [line.split(": ")[1][2:] for line in err.decode("utf-8", "replace").splitlines()]
        tally.equal(f"ick-convert {options} of {source!r}", (status, out, found), (0, wanted, places))


def try_programs(tally):
    """Programs in EBCDIC come back as they were, and in small letters they run as before."""
    for name in ("bodies", "fibonacci"):
        source = content(f"{TOP}/examples/{name}.i")
        tally.equal(f"{name}.i from EBCDIC", tally.tool("ick-convert", "--from", "cp500", given=source.decode().encode("cp500")),
                    (0, source, b""))
        _, out, _ = tally.tool("ick-convert", given=source.lower())
        fields = [[line.split(b" ")[:6] for line in tally.ick("list", given=text)[1].splitlines()] for text in (out, source)]
        tally.equal(f"{name}.i from small letters", fields[0], fields[1])


def try_refusals(tally):
    source = "PLEASE GIVE UP\x85".encode("cp037")
    tally.equal("EBCDIC is seen and said", tally.tool("ick-convert", given=source),
                (0, b"PLEASE GIVE UP\n", b"ick-convert: the source is EBCDIC: it is read as by --from cp037\n"))
    for code, source in (("no-such-code", b"x"), ("rot13", b"x"), ("ascii", b"\xff"), ("utf-16", b"x")):
        status, out, err = tally.tool("ick-convert", "--from", code, given=source)
        tally.check(status == 2 and not out and err.count(b"\n") == 1, f"ick-convert --from {code}: {status} {err!r}")


def widths_program(expression):
    return ("DO .1 <- #5\nDO :1 <- #3\nDO :2 <- #65535$#65535\nPLEASE ;1 <- #1\nDO ;1SUB#1 <- #9\n"
            f"DO :9 <- {expression}\nPLEASE READ OUT :9\nDO GIVE UP")


def try_widths(tally):
    for written, wanted, number in WIDTHS:
        texts = [widths_program(expression).encode() for expression in (written, wanted)]
        status, out, err = tally.tool("ick-convert", "--widths", given=texts[0])
        tally.equal(f"--widths of {written}", (status, out, err.count(b"\n")), (0, texts[1], int(written != wanted)))
        tally.equal(f"the number of {wanted}", [pieces(tally.ick("run", given=out)[1])], [[number]])
        status, out, err = tally.tool("ick-advice", given=texts[0])
        tally.equal(f"advice on {written}", (out.count(b"ick-convert --widths"), err), (int(written != wanted), b""))
    for wow in (b"DO :1 <- \"V!1~.1'~:1\" PLEASE ,1SUB'V.1~:2!3 <- #1",):
        masked = b"DO :1 <- \"V'!1~.1'~:1'~'#65535$#65535'\" PLEASE ,1SUB'V\".1~:2\"~\"#65535$#65535\"!3 <- #1"
        tally.equal("--widths beside a wow", tally.tool("ick-convert", "--widths", given=wow)[1], masked)


def try_come_from(tally):
    for source, wanted, fault in COME_FROM:
        status, text, err = tally.tool("ick-convert", "--come-from", given=source.encode())
        _, out, told = tally.ick("run", given=text)
        tally.equal(f"COME FROM in {source!r}", (status, pieces(out), told[:7]), (0, wanted, fault))
        tally.equal(f"what is told of {source!r}", err.count(b"COME FROM"), len(re.findall("COME FROM", source)))
    source = b"(1) DO READ OUT #1\nPLEASE GIVE UP\n(2) DO %30 COME FROM (1)\nDO READ OUT #2\nDO GIVE UP"
    tally.equal("a COME FROM with a chance", tally.ick("runs", given=tally.tool("ick-convert", "--come-from", given=source)[1]),
                (0, b'0 GIVE-UP "\\nI\\n"\n1 GIVE-UP "\\nI\\n\\nII\\n"\nDONE\n', b""))


def tails_program(expression):
    return ("DO ,1 <- #3\nDO ,1SUB#1 <- #2\nDO ,1SUB#2 <- #6\nPLEASE ;1 <- #2 BY #2\nDO ;1SUB#1#2 <- #9\n"
            f"DO .1 <- #1\nPLEASE :1 <- {expression}\nDO READ OUT :1\nDO GIVE UP")


def try_tails(tally):
    for written, wanted, number in TAILS:
        texts = [tails_program(expression).encode() for expression in (written, wanted)]
        status, out, err = tally.tool("ick-convert", "--tails", given=texts[0])
        tally.equal(f"--tails of {written}", (status, out, err.count(b"\n")), (0, texts[1], 1))
        tally.equal(f"the number of {wanted}", pieces(tally.ick("run", given=out)[1]), [number])


def try_rewriting(tally):
    for options, source, wanted, fault in REWRITTEN:
        status, text, _ = tally.tool("ick-convert", *options.split(), given=source.encode())
        _, out, told = tally.ick("run", given=text)
        tally.equal(f"{options} of {source!r}", (status, pieces(out), told[:7]), (0, wanted, fault))
        tally.equal(f"--all of {source!r}", tally.tool("ick-convert", "--all", given=source.encode())[:2], (0, text))
    for option, source in LEFT:
        tally.equal(f"{option} of {source!r}", tally.tool("ick-convert", option, given=source), (0, source, b""))
    for option, source, *reasons in NEVER:
        status, out, err = tally.tool("ick-convert", option, given=source.encode())
        lines = err.decode().splitlines()
        good = all(line.startswith(f"ick-convert: -:{place}: ") and reason in line for line, (place, reason) in zip(lines, reasons))
        tally.check(status == 1 and not out and good and len(lines) == len(reasons), f"{option} of {source!r}: {status} {err!r}")


def try_labels(tally):
    """A computed COME FROM is a test behind the labels that its expression may name, and behind no other."""
    for expression, count in ((".1", 4), ("#7", 1), ("'.1~#2'$#3", 2), ("#9", 0), ("'V.1$#1'~#3", 2), ("'&.1$#1'~#0", 0),
                              (";1SUB#1", 4), ("\"?'.1~#1'$#3\"~#21", 1)):
        source = f"DO COME FROM {expression}\n" + "".join(f"({label}) DO NOTE\n" for label in (1, 3, 5, 7))
        err = tally.tool("ick-convert", "--come-from", given=source.encode())[2]
        tally.equal(f"the labels of {expression}", err, b"ick-convert: -:1:1: COME FROM is a test behind %d labels now\n" % count)


def try_politeness(tally):
    """However many COME FROM there are, a program stays within the bounds."""
    for count in (1, 2, 5, 40):
        for polite in range(1, count + 1, 7):
            source = b"".join(b"(%d) DO GIVE UP\n%s COME FROM (%d)\nDO GIVE UP\n" %
                              (place, b"PLEASE" if place <= polite else b"DO", place) for place in range(1, count + 1))
            _, out, _ = tally.tool("ick-convert", "--come-from", given=source)
            status, _, err = tally.ick("check", given=out)
            tally.check(status == 0, f"{count} COME FROM, {polite} polite: {err!r}")


def try_large(tally):
    """Four times as many changes take about four times as long."""
    seconds = []
    for count in (50000, 200000):
        before = os.times().children_user
        status, out, err = tally.tool("ick-convert", given="#1¢\n".encode() * count)
        seconds.append(os.times().children_user - before)
        tally.equal(f"{count} changes", (status, out.count(b"$"), err.count(b"\n")), (0, count, count))
    tally.check(seconds[1] < 7 * seconds[0], f"50,000 and 200,000 changes took {seconds} seconds")


def try_all(tally):
    help_and_mistakes(tally, "ick-convert")
    try_widths(tally)
    try_come_from(tally)
    try_tails(tally)
    try_rewriting(tally)
    try_labels(tally)
    try_politeness(tally)
    try_large(tally)
    try_rows(tally)
    try_programs(tally)
    try_refusals(tally)
