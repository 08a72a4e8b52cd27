"""Tries what ick-lsp says of variables, labels and operators, how it renames them, what it offers, and how it mends."""
import re

import ick_explained
import ick_source

from lsp import URI, applied, at, diagnostics, opened, results, talk

TEXT = """(10) DO .1 <- '.2$#1'~#&7
PLEASE ,1 <- #5 BY .3
DO ,1SUB.1#2 <- !1~.2'
DO STASH .0001 + ,1
PLEASE IGNORE .?1
DO IGNORE .1 + .100
DO ABSTAIN FROM CALCULATING + READING OUT
DO (10) NEXT
DO REINSTATE (10)
DO (1000) NEXT
PLEASE DO READ OUT .1 + #5
DO NOTE .1 AND (10) TOO
DO .1 <- 5 ~ 6
DO .4 <- '.1~"#3
PLEASE WRITE IN ,1SUB.1#1
DO GIVE UP
"""
HOVERS = (
    ("(10) DO", "**(10)** is the label of statement 1, line 1.\n\n- NEXT goes there in line 8\n- REINSTATE in line 9"),
    ("10) NEXT", "**(10)** is the label of statement 1"),
    ("(1000)", "(1000): `.3` = `.1` + `.2`. It ends the program if the result is above 65535."),
    ("(1000)", "**(1000)** is no label of this program."),
    (".1 <- '", "**.1** is a onespot: a number from 0 to 65535.\n\n- stored in line 1\n- read in lines 3, 11, 15\n"
     "- stashed in line 4\n- ignored in line 6"),
    ("!1", "**.1** is a onespot"), (",1 <-", "- given dimensions in line 2\n- stored in lines 3, 15\n- stashed in line 4"),
    ("$#1", "`$` mingle"), ("~#&7", "`~` select"), ("&7", "`&` unary and"), ("#1'", "`#1` is the number 1"), ("<-", "stores"),
    ("BY .3", "`BY`"), ("SUB.1#2", "`SUB`"), ("+ ,1", "no sum"), ("'.2", "A group"), ("NEXT", "`NEXT` goes to"),
    ("CULATING", "**CALCULATING** means each `CALCULATE`: lines 1, 2, 3."), ("OUT\nDO (10)", "`READ-OUT`: line 11."),
    ("READ OUT .1", "**Statement 11**: `READ-OUT` writes numerals"), ("NOTE .1", "can't be read"), ("GIVE UP", "ends the run"),
)
# A program that compiles, and what ick-stages adds to the hover on its second statement.
COMPILED = "DO WRITE IN .1 + .2\nDO .1 <- '?.1$.2'~'#0$#65535'\nPLEASE READ OUT .1\nDO GIVE UP\n"
STAGES = "9 operations → 1 instruction\n- `.1 = Xor .1 .2`"
# What is typed, and some of what is offered, or None for nothing.
OFFERS = (
    ("", "DO PLEASE"), ("P", "PLEASE"), ("DO GIVE UP\nPLE", "PLEASE"), ("DO ", "READ_OUT STASH NOT (1000)_NEXT"),
    ("DO READ O", "OUT"), ("DO READ\tO", "OUT"), ("DO WRITEI", "IN"), ("DO RE", "REMEMBER RESUME READ_OUT"),
    ("DO ABSTAIN ", "FROM"), ("DO GIVE ", "UP"),
    ("DO ABSTAIN FROM ", "CALCULATING READING_OUT"), ("DO ABSTAIN FROM READING OUT + N", "NEXTING"),
    ("(5) DO GIVE UP\nDO REINSTATE (", "(5)"), ("(5) DO GIVE UP\nDO ABSTAIN FROM ", "(5) NEXTING"),
    ("(5) DO GIVE UP\nDO (", "(5)_NEXT (1030)_NEXT"), ("DO (15", "(1500)_NEXT (1550)_NEXT"), ("DO (5) N", "NEXT"),
    ("DO .7 <- #1 DO .2 <- .", ".7"), ("DO .7 <- #1 DO :2 ", "<-"), ("DO ,1 <- #1 DO .2 <- ,1 ", "SUB"),
    ("DO .7 <- #1 DO .2 <- '", ".7"), ("DO .7 <- #1 DO READ OUT #1 + .", ".7"), ("DO .2 <- '!1~#1' ~ '!1~#", None),
    ("DO .1 <- '#1 ", "'"), ("DO ;4 <- #3 DO STASH ", ";4"), ("DO ;4 <- #3 DO .1 <- #2 DO WRITE IN ;", ";4"),
    ("DO NOTE X", None), ("DO GIVE UP \n", "DO PLEASE"), ("DO STASH .12 DO STASH .1", ".12"), ("DO XYZ", None),
)
# A statement, and what the actions make of it: the titles' beginnings and the statement behind them.
MENDED = (
    ("DO .1 <- 5", "Write the number with a mesh: #5", "DO .1 <- #5"),
    ("DO .1 <- 5~'6$ 7'", "Write the number with a mesh: #5, #6, #7", "DO .1 <- #5~'#6$ #7'"),
    ("DO ,1 <- 10 BY #2 BY 3", "Write the number with a mesh: #10, #3", "DO ,1 <- #10 BY #2 BY #3"),
    ("DO READ OUT 5 + 6", "Write the number with a mesh: #5, #6", "DO READ OUT #5 + #6"),
    ("DO .1 <- '#1~#2", "Close the group: '", "DO .1 <- '#1~#2'"), ("DO .1 <- '.1~\"#3", "Close the group: \"'", "DO .1 <- '.1~\"#3\"'"),
    ("DO .1 <- '#1~#2 \n", "Close the group: '", "DO .1 <- '#1~#2' \n"), ("DO FORGET 10", "Write the number with a mesh: #10", "DO FORGET #10"),
    ("DO RESUME", None, None), ("10 DO GIVE UP", None, None), ("DO NOT .1 <- 5", None, None),
)
REFUSED = ((".1", ".2", "is used already"), (".1", ":5", "no variable as .1"), (".1", ".0", "no variable as .1"),
           (".1", "65536", "numbers go from 1"), (".1", "", "no variable"), ("(10)", "(0)", "no label as (10)"),
           ("(10)", ".3", "no label"), ("(1000)", "(7)", "no statement has the label (1000)"), ("GIVE", ".1", "no variable"))


def place(text, part):
    before = text[:text.index(part)]
    return before.count("\n"), len(before) - before.rfind("\n") - 1


def try_hovers(tally):
    _, found = talk(tally, opened(TEXT), *(at("hover", *place(TEXT, part)) for part, _ in HOVERS))
    for number, (part, wanted) in enumerate(HOVERS, 1):
        told = results(found)[number]
        tally.check(told and wanted in told["contents"]["value"], f"hover on {part!r}: {told} has no {wanted!r}")
    _, found = talk(tally, opened(COMPILED), at("hover", 1, 0))
    told = results(found)[1]
    tally.check(told and STAGES in told["contents"]["value"], f"hover on a statement that compiles: {told} has no {STAGES!r}")
    for text, (does, expression, value) in ick_explained.OPERATORS.items():
        if expression:
            status, out, _ = tally.ick("run", given=f"DO READ OUT {expression}\nPLEASE GIVE UP".encode())
            status, out, _ = tally.ick("run", given=f"DO :1 <- {expression}\nDO READ OUT :1\nPLEASE GIVE UP".encode())
            back = tally.tool("ick-wimp", "out", given=out)[1]
            tally.equal(f"the worked value of {text}, {does[:20]}", (status, back.split()), (0, [str(value).encode()]))


def try_uses(tally):
    """References and renaming have each place of a variable or a label in statements that are read, and no other one."""
    asked = [place(TEXT, part) for part in (".1 <- '", "!1", "(10) DO", "(10) NEXT", "GIVE")]
    _, found = talk(tally, opened(TEXT), *(at("references", *one, context={"includeDeclaration": True}) for one in asked),
                    at("references", *asked[2], context={"includeDeclaration": False}))
    found = [[(one["range"]["start"]["line"], one["range"]["start"]["character"]) for one in answer]
             for answer in list(results(found).values())[:6]]
    variable = [(0, 8), (2, 8), (2, 16), (3, 9), (5, 10), (10, 19), (14, 21)]
    label = [(0, 0), (7, 3), (8, 13)]
    tally.equal("the uses", found, [variable, variable, label, label, [], label[1:]])
    for part, new, wanted in ((".1 <- '", ".77", r"(?<=[.!])(000)?1(?!\d)(?=.*\n)"), (",1 <-", "8", r"(?<=,)1(?!\d)")):
        _, answers = talk(tally, opened(TEXT), at("rename", *place(TEXT, part), newName=new))
        changed = applied(TEXT, results(answers)[1]["changes"][URI])
        number = re.sub(r"\D", "", new)
        kept = [line if not one.read() else re.sub(wanted, number, line)
                for line, one in zip(TEXT.splitlines(True), ick_source.cut(TEXT.encode()))]
        tally.equal(f"{part} as {new}", changed.splitlines(), "".join(kept).splitlines())
    _, answers = talk(tally, opened(TEXT), at("rename", *place(TEXT, "(10) NEXT"), newName="(23)"),
                      at("prepareRename", *place(TEXT, "(10) NEXT")), at("prepareRename", *place(TEXT, "GIVE")),
                      at("prepareRename", *place(TEXT, "(1000)")), *(at("rename", *place(TEXT, part), newName=new) for part, new, _ in REFUSED))
    answers = results(answers)
    tally.equal("(10) as (23)", applied(TEXT, answers[1]["changes"][URI]).splitlines(), [
        line if "NOTE" in line else line.replace("(10)", "(23)") for line in TEXT.splitlines()])
    tally.equal("what can be renamed", [answers[2] and answers[2]["placeholder"], answers[3], answers[4]], ["(10)", None, None])
    for number, (part, new, wanted) in enumerate(REFUSED, 5):
        tally.check(answers[number].get("code") == -32602 and wanted in answers[number]["message"],
                    f"{part} as {new!r}: {answers[number]}")


def try_offers(tally):
    for text, wanted in OFFERS:
        line = text.count("\n"), len(text) - text.rfind("\n") - 1
        _, found = talk(tally, opened(text), at("completion", *line))
        items = results(found)[1]["items"]
        labels = [one["label"].replace(" ", "_") for one in items]
        tally.check(set((wanted or "").split()) <= set(labels) and (wanted or not labels), f"offered after {text!r}: {labels}")
        for one in items[:20] if wanted else ():
            changed = applied(text, [one["textEdit"]])
            tally.check(changed.endswith(one["label"]), f"{one['label']} after {text!r}: {changed!r}")
    many = "".join(f"DO .{number} <- #1\n" for number in range(1, 1000)) + "DO STASH ."
    _, found = talk(tally, opened(many), at("completion", 999, 10))
    tally.equal("many offers", (results(found)[1]["isIncomplete"], len(results(found)[1]["items"])), (True, 400))


def try_mending(tally):
    for text, title, wanted in MENDED:
        where = {"line": 0, "character": 4}
        _, found = talk(tally, opened(text), ("textDocument/codeAction", {
            "textDocument": {"uri": URI}, "range": {"start": where, "end": where}, "context": {"diagnostics": []}}))
        actions = [one for one in results(found)[1] if one["title"].startswith(("Write", "Close"))]
        tally.equal(f"the actions on {text!r}", [one["title"] for one in actions], [title] if title else [])
        for one in actions:
            tally.equal(f"{title} in {text!r}", applied(text, one["edit"]["changes"][URI]), wanted)
            tally.check(ick_source.cut(wanted.encode())[0].read(), f"{wanted!r} can't be read")
    many, where = "DO READ OUT " + " + ".join("5" * 3000), {"line": 0, "character": 4}
    _, found = talk(tally, opened(many), ("textDocument/codeAction", {
        "textDocument": {"uri": URI}, "range": {"start": where, "end": where}, "context": {"diagnostics": []}}))
    tally.equal("what mends a long list", [len(one["edit"]["changes"][URI]) for one in results(found)[1]], [1, 50])


def try_further(tally):
    """A diagnostic has the number of its message. If a statement can't be read, it says where, and what could stand there."""
    text = ("DO (7) NEXT\nDO .1 <- =\nDO NOTE ANYTHING\nPLEASE READ OUT #70000\nDO .2 <- '#1\nPLEASE STASH #2\n"
            "(8) DO STASH .0\n(8) DO ABSTAIN FROM (9)\n(70000) DO GIVE UP\nDO NEVER\n(1) DO %0 NEVER\n(2) DO NOT .1 <- 2\n"
            "(3) DO .1 <-\nDO .1 <- #1\nDO .1 <- #1\nDO .1 <- #1")
    _, found = talk(tally, opened(text))
    told = [(one["range"]["start"]["line"], one.get("code"), one["message"].partition("\n")[2], [
        (it["location"]["range"]["start"]["character"], it["message"]) for it in one.get("relatedInformation", [])])
        for one in diagnostics(found)[0]]
    tally.equal("what could have stood there", told, [
        (0, "E129", "", []),
        (1, "E000", "", []),
        (3, "E017", "", []),
        (4, "E000", "", []),
        (5, "E000", "", []),
        (6, "E200", "", []), (7, "E182", "", []), (7, "E139", "", []), (8, "E197", "", []),
        (12, "E000", "", []), (15, "E079", "", [])])
    _, found = talk(tally, opened("DO .1 <- 5\nPLEASE GIVE UP"))
    tally.equal("a number without a mesh", [one["message"].partition("\n")[2] for one in diagnostics(found)[0]],
                ["after `DO .1 <-` an operand was expected: a variable, an element, a mesh or a group"])
    _, found = talk(tally, opened("DO .1 <- #5 $\n  \nDO please $\nPLEASE GIVE UP"))
    tally.equal("the places where reading stops", [
        (one["range"], one["message"].partition("done: ")[2], [it["location"]["range"]["start"] for it in
                                                               one["relatedInformation"]]) for one in diagnostics(found)[0]],
        [({"start": {"line": 0, "character": 13}, "end": {"line": 0, "character": 13}},
          "after `DO .1 <- #5 $` an operand was expected: a variable, an element, a mesh or a group", []),
         ({"start": {"line": 2, "character": 0}, "end": {"line": 2, "character": 11}},
          "small letters are no letters of the language: write capitals, or use ick-convert\nafter `DO` a variable, an array, "
          "a label or a verb was expected", [{"line": 2, "character": 3}])])


def try_all(tally):
    try_hovers(tally)
    try_uses(tally)
    try_offers(tally)
    try_mending(tally)
    try_further(tally)
