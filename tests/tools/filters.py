"""Tries ick-json, ick-say and ick-wimp: there and back over every example, rows, and numerals of all sizes."""
import glob
import json
import random
import sys

from common import LIBRARY, TOP, closed_pipe, content, full_disk, help_and_mistakes, number_of_version

import ick_listing

RUNS = (b'- GIVE-UP "\\nI\\n"\n0*65,1*1 E275@3 "\\x80\\\\\\"\\n"\n1 LIMIT ""\nMORE\n')
OBJECTS = (
    {"choices": "-", "end": "GIVE-UP", "output": "\nI\n", "base64": "CkkK", "numerals": [1]},
    {"choices": "0*65,1*1", "end": "FAULT", "fault": 275, "statement": 3, "output": "\ufffd\\\"\n", "base64": "gFwiCg==",
     "numerals": []},
    {"choices": "1", "end": "LIMIT", "output": "", "base64": "", "numerals": []},
    {"listing": "MORE"},
)
OUTCOMES = (b'8 0.0625 0000000 LIMIT ""\n* 1/6 00 GIVE-UP "\\nI\\n"\n3 0.123456789012345.. 1 E275@3 "x"\n* 1/2 1 NEVER ""\n'
            b"* 1/3 01 E241@4\n* 2/3 0 NEVER\nDONE\n")
OF_OUTCOMES = (
    {"runs": 8, "weight": "0.0625", "numerator": 1, "denominator": 16, "decimal": 0.0625, "choices": "0000000",
     "end": "LIMIT", "output": "", "base64": "", "numerals": []},
    {"runs": None, "weight": "1/6", "numerator": 1, "denominator": 6, "decimal": 1 / 6, "choices": "00",
     "end": "GIVE-UP", "output": "\nI\n", "base64": "CkkK", "numerals": [1]},
    {"runs": 3, "weight": "0.123456789012345..", "numerator": None, "denominator": None, "decimal": 0.123456789012345,
     "choices": "1", "end": "FAULT", "fault": 275, "statement": 3, "output": "x", "base64": "eA==", "numerals": []},
    {"runs": None, "weight": "1/2", "numerator": 1, "denominator": 2, "decimal": 0.5, "choices": "1", "end": "NEVER",
     "output": "", "base64": "", "numerals": []},
    {"runs": None, "weight": "1/3", "numerator": 1, "denominator": 3, "decimal": 1 / 3, "choices": "01", "end": "FAULT",
     "fault": 241, "statement": 4},
    {"runs": None, "weight": "2/3", "numerator": 2, "denominator": 3, "decimal": 2 / 3, "choices": "0", "end": "NEVER"},
    {"listing": "DONE"},
)
STAGES = (b'2 2:9 (7) DO - 100 CALCULATE "DO .1 <- .2"\n  tree .1 <- .2\n  operation 1 1 Load .2\n  operation 3 1 Mingle\n'
          b"  rule 1 read-in-place -> .2, 16 bits\n  rule 3 no-check: Check :1 | t1 = Mingle :1 .2 -> t1, 32 bits, :1 $ .2\n"
          b"  rule 7 select-from-the-right-operand+select-all -> .2, 16 bits\n  rule 1 statement-that-stays\n"
          b"  rule 8 n~n: t1 = Ones .2 -> t1, 16 bits, .2 ~ .2\n  dropped 3 t1 = Ones .2\n"
          b"  instruction 1 by 8 9: .1 = LookUp .2 [0>0 2>1]\n  instruction 2: Pass\n"
          b"  trace 0 2: .1 = LookUp .2 [0>0 2>1]\n  trace 1 3: -\n  trace 3 12 pending 10 8: Resume t4\nDONE\n")
OF_STAGES = (
    {"statement": 2, "line": 2, "column": 9, "label": 7, "polite": False, "abstained": False, "chance": 100,
     "kind": "CALCULATE", "text": "DO .1 <- .2", "base64": "RE8gLjEgPC0gLjI="},
    {"stage": "tree", "body": ".1 <- .2"},
    {"stage": "operation", "number": 1, "depth": 1, "operation": "Load", "names": ".2"},
    {"stage": "operation", "number": 3, "depth": 1, "operation": "Mingle", "names": None},
    {"stage": "rule", "number": 1, "rules": ["read-in-place"], "instructions": [], "value": ".2, 16 bits"},
    {"stage": "rule", "number": 3, "rules": ["no-check"], "instructions": ["Check :1", "t1 = Mingle :1 .2"],
     "value": "t1, 32 bits, :1 $ .2"},
    {"stage": "rule", "number": 7, "rules": ["select-from-the-right-operand", "select-all"], "instructions": [],
     "value": ".2, 16 bits"},
    {"stage": "rule", "number": 1, "rules": ["statement-that-stays"], "instructions": [], "value": None},
    {"stage": "rule", "number": 8, "rules": ["n~n"], "instructions": ["t1 = Ones .2"], "value": "t1, 16 bits, .2 ~ .2"},
    {"stage": "dropped", "number": 3, "instruction": "t1 = Ones .2"},
    {"stage": "instruction", "number": 1, "by": [8, 9], "instruction": ".1 = LookUp .2 [0>0 2>1]"},
    {"stage": "instruction", "number": 2, "by": [], "instruction": "Pass"},
    {"stage": "trace", "number": 0, "statement": 2, "pending": [], "instruction": ".1 = LookUp .2 [0>0 2>1]"},
    {"stage": "trace", "number": 1, "statement": 3, "pending": [], "instruction": "-"},
    {"stage": "trace", "number": 3, "statement": 12, "pending": [10, 8], "instruction": "Resume t4"},
    {"listing": "DONE"},
)
PLACES = (b'1 1:1 - DO - 100 UNRECOGNISED "DO .1 <- #5 $"\n  head 0-2 identifier\n  head 3-13 body\n  part 1 0-13 action\n'
          b"  part 2 3-5\n  mark 3-5 name\n  stops 13 an operand: a variable, an element, a mesh or a group\n"
          b"refused 129 2 3-6\nREFUSED 129 2\n")
OF_PLACES = (
    {"statement": 1, "line": 1, "column": 1, "label": None, "polite": False, "abstained": False, "chance": 100,
     "kind": "UNRECOGNISED", "text": "DO .1 <- #5 $", "base64": "RE8gLjEgPC0gIzUgJA=="},
    {"stage": "head", "from": 0, "to": 2, "kind": "identifier"},
    {"stage": "head", "from": 3, "to": 13, "kind": "body"},
    {"stage": "part", "number": 1, "from": 0, "to": 13, "kind": "action"},
    {"stage": "part", "number": 2, "from": 3, "to": 5},
    {"stage": "mark", "from": 3, "to": 5, "kind": "name"},
    {"stage": "stops", "at": 13, "expected": "an operand: a variable, an element, a mesh or a group"},
    {"refused": 129, "statement": 2, "from": 3, "to": 6},
    {"listing": "REFUSED", "fault": 129, "statement": 2},
)
WRONG = (b'1 1/0 0 GIVE-UP ""\n', b"HELLO\n", b'0 GIVE-UP ""x\n', b'2 GIVE-UP ""\n', b'0 GIVE-UP "\\q"\n', b'0 E1@1 ""\n',
         b"  tree \n", b"  branch 1\n", b"  operation 1 Load\n", b"  rule 1 No\n", b"  instruction 1 by : Pass\n",
         b"  tree \x80\n", b"  head 1 label\n", b"  part 1 2\n", b"  mark 1-2\n", b"refused 129 2\n", b"REFUSED 129\n")
NO_OBJECTS = (b"[]\n", b"{}\n", b"1\n", b"x\n", b'{"listing": "END"}\n', b'{"choices": "2", "end": "LIMIT", "base64": ""}\n',
              b'{"choices": "0", "end": "LIMIT", "base64": "?"}\n', b"[" * 5000 + b"\n", b'{"stage": "tree"}\n',
              b'{"stage": "dropped", "number": "x", "instruction": "Pass"}\n',
              b'{"stage": [], "number": 1, "instruction": "Pass"}\n',
              b'{"stage": "tree", "body": "a\\nDONE"}\n', b'{"stage": "rule", "number": 1, "rules": 1}\n')


def try_json(tally):
    sys.set_int_max_str_digits(0)
    for name, lines, objects in (("runs", RUNS, OBJECTS), ("outcomes", OUTCOMES, OF_OUTCOMES),
                                 ("stages", STAGES, OF_STAGES), ("places", PLACES, OF_PLACES)):
        status, out, err = tally.tool("ick-json", "--numerals", given=lines)
        tally.equal(f"ick-json of {name}", (status, err, [json.loads(line) for line in out.splitlines()]),
                    (0, b"", list(objects)))
    long = b"1 0." + b"0" * 5000 + b'1 1 GIVE-UP ""\nDONE\n'
    tally.equal("ick-json of a long weight", [json.loads(tally.tool("ick-json", given=long)[1].splitlines()[0])[name]
                                              for name in ("numerator", "decimal")], [1, 0])
    examples = [path for kind in ("runs", "list", "outcomes") for path in sorted(glob.glob(f"{TOP}/examples/*.{kind}"))]
    examples += sorted(glob.glob(f"{TOP}/tests/stages/*.stages"))
    listing = RUNS + OUTCOMES + STAGES + PLACES + b"".join(map(content, examples))
    status, out, err = tally.tool("ick-json", given=listing)
    bare = b"".join(json.dumps({key: value for key, value in json.loads(line).items() if key not in ("output", "text")})
                    .encode() + b"\n" for line in out.splitlines())
    tally.equal("ick-json of the examples' listings, and back", (status, err, tally.tool("ick-json", "--back", given=bare)),
                (0, b"", (0, listing, b"")))
    for options, lines in (([], WRONG), (["--back"], NO_OBJECTS)):
        for line in lines:
            status, out, err = tally.tool("ick-json", *options, given=line)
            tally.check(status == 1 and not out and b"line 1 is no line" in err, f"ick-json {options} of {line[:40]!r}: "
                                                                                f"{status} {err!r}")


    for options, listing in (([], RUNS[:-5]), (["--back"], tally.tool("ick-json", given=RUNS[:-5])[1])):
        status, out, err = tally.tool("ick-json", *options, given=listing)
        tally.check(status == 1 and out.count(b"\n") == 3 and err.startswith(b"ick-json: the listing has no last line"),
                    f"ick-json {options} of a listing without its last line: {status} {err!r}")
    for lines in (STAGES[:-5], STAGES.splitlines(True)[0], PLACES[:-14]):
        status, out, err = tally.tool("ick-json", given=lines)
        tally.check(status == 1 and b"no last line" in err, f"ick-json of stages without a last line: {status} {err!r}")


def try_say(tally):
    every = bytes(range(256)) * 3
    for text in (b"x", b"Hello, world!\n", every, b"\0", b"PLEASE DO NOT\n" * 40):
        status, out, err = tally.tool("ick-say", "--array", "7", given=text)
        polite = out.count(b"PLEASE ,7") + out.count(b"PLEASE READ")
        source = out + b"DO GIVE UP\n"
        tally.equal(f"ick-say of {text[:20]!r}", (status, err, tally.ick("run", given=source)), (0, b"", (0, text, b"")))
        tally.check(polite == len(out.splitlines()) // 4, f"ick-say of {text[:20]!r}: {polite} polite")
    _, first, _ = tally.tool("ick-say", "Hello,", "you")
    _, second, _ = tally.tool("ick-say", "--after", "10", "again")
    tally.equal("two texts", tally.ick("run", given=first + second + b"DO GIVE UP"), (0, b"Hello, you\nagain\n", b""))
    tally.equal("no text", tally.tool("ick-say", given=b""), (0, b"", b""))
    tally.equal("no text for the library", tally.tool("ick-say", "--library", given=b""), (0, b"", b""))
    number = b"DO :1 <- #12\nPLEASE (1620) NEXT\nDO (1630) NEXT\n"
    for text in (b"x", b"Hello, world!\n", bytes(range(256))):
        _, first, _ = tally.tool("ick-say", "--library", given=text)
        _, again, _ = tally.tool("ick-say", "--library", "--after", "10", given=text)
        source = first + number + again + number + b"DO GIVE UP\n" + b"".join(map(content, LIBRARY))
        tally.equal(f"numbers after {text[:20]!r}", tally.ick("run", given=source), (0, 2 * (text + b"12\n"), b""))
    for size, wanted in ((44000, 0), (60000, 2)):
        status, out, err = tally.tool("ick-say", given=bytes(range(250)) * (size // 250))
        tally.check(status == wanted and (tally.ick("check", given=out + b"DO GIVE UP")[0] == 0 if wanted == 0 else not out),
                    f"ick-say of {size} bytes: {status} {err!r}")
    for options, given in ((["--array", "0", "x"], b""), (["--after", "256", "x"], b""), ([], b"x" * 65536)):
        status, out, err = tally.tool("ick-say", *options, given=given)
        tally.check(status == 2 and not out and err.count(b"\n") < 6, f"ick-say {options}: {status} {err[:80]!r}")


def try_wimp(tally):
    chance = random.Random(5)
    numbers = [0, 1, 4, 3999, 4000, 65535, 999999, 3888888888, 4294967295]
    numbers += [chance.getrandbits(chance.randint(1, 32)) for _ in range(91)]
    decimal = b"".join(b"%d\n" % number for number in numbers)
    path = f"{tally.folder}/echo.i"
    with open(path, "wb") as file:
        file.write(b"PLEASE WRITE IN :1\nDO READ OUT :1\nDO WRITE IN :1\nDO READ OUT :1\n" * (len(numbers) // 2))
        file.write(b"DO GIVE UP\n")
    _, names, _ = tally.tool("ick-wimp", "in", given=decimal)
    status, numerals, err = tally.ick("run", path, given=names)
    tally.check(status == 0, f"numbers in: {status} {err!r}")
    tally.equal("numbers out", tally.tool("ick-wimp", "out", given=numerals), (0, decimal, b""))
    for given, wanted in ((b"12 x OH 0\n\n7", b"ONE TWO x OH ZERO\n\nSEVEN"), (b"1a 2\n", b"1a TWO\n")):
        tally.equal(f"ick-wimp in of {given!r}", tally.tool("ick-wimp", "in", given=given), (0, wanted, b""))
    for given, wanted in (
            (b"\nI\n", b"1\n"), (b"_\n\n", b"0\n"), (b"\n\nI\n", b"\n1\n"), (b"\nMILD\n", b"\nMILD\n"), (b"\nIIII\n", b"\nIIII\n"),
            (b" _\nMV", b" _\nMV"), (b"", b""), (b"_", b"_"), (b"\xff\x00\n", b"\xff\x00\n"), (b"_ \nV\n", b"_ \nV\n"),
            (b"   \nVII\n", b"7\n"), (b"__\nIX\n  \nXI\n", b"9000\n11\n"), (b"__      _______     \nivccxcivCMLXVIICCXCV\n", b"4294967295\n"),
            (b"  \nVII\n", b"  \nVII\n"), (b"__ \nIX\n", b"__ \nIX\n"),  # C-INTERCAL's have as many bars as letters
            (b'01 GIVE-UP "\\nV\\n_\\n\\n"\nDONE\n', b'01 GIVE-UP "5\\n0\\n"\nDONE\n'),
            (b'0 E275@1 "x\\x80"\n', b'0 E275@1 "x\\x80"\n')):
        tally.equal(f"ick-wimp out of {given!r}", tally.tool("ick-wimp", "out", given=given), (0, wanted, b""))


def try_all(tally):
    for name in ("ick-json", "ick-wimp"):
        help_and_mistakes(tally, name)
    for name, options, given in (("ick-json", [], RUNS), ("ick-wimp", ["out"], b"x\n"), ("ick-wimp", ["in"], b"1\n"),
                                 ("ick-say", ["x"], b""), ("ick-convert", [], b"do"), ("ick-join", [], b"DO GIVE UP"),
                                 ("ick-advice", [], b"DO X"), ("ick-advice", ["--explain", "17"], b"")):
        full_disk(tally, name, options, given)
    number_of_version(tally, "ick-say")
    closed_pipe(tally, "ick-json", [], RUNS * 2000)
    closed_pipe(tally, "ick-wimp", ["out"], b"x\n" * 2000)
    closed_pipe(tally, "ick-say", [], b"x" * 20000)
    tally.check(ick_listing.unquoted(ick_listing.quoted(bytes(range(256)))[1:-1]) == bytes(range(256)), "every byte quoted")
    try_json(tally)
    try_say(tally)
    try_wimp(tally)
