"""Tries the syntax file for vim: identifiers and comments have their groups, and no recognised statement has an error."""
import os
import random
import sys

from common import EXAMPLES, LIBRARY, TOOLS, TOP, called, content, write

sys.path.insert(0, os.path.join(TOP, "tests", "fuzz"))
import ick_source
import programs

PROGRAMS = 200


def sources():
    """The examples, the library, their statements without the white between the words, and random programs."""
    for path in EXAMPLES + LIBRARY:
        yield path, content(path)
        yield f"{path} without spaces", b"\n".join(
            content(path)[one.start:one.end].replace(b" ", b"") for one in ick_source.cut(content(path)) if one.read())
    for seed in range(PROGRAMS):
        yield f"random program {seed}", programs.source_of(programs.Maker(random.Random(seed)).program())


def places(source):
    """The places of bytes of identifiers, of comments' bytes behind them, and of recognised statements."""
    identifiers, comments, recognised = set(), set(), set()
    for statement in ick_source.cut(source):
        identifiers.update(range(statement.identifier.start, statement.identifier.end))
        if statement.abstained:
            comments.update(range(statement.head["not"].start, statement.end))
        if statement.read():
            recognised.update(range(statement.start, statement.end))
    return identifiers, comments, recognised


def try_groups(tally, name, source, names):
    identifiers, comments, recognised = places(source)
    ends = {place for place, byte in enumerate(source) if byte in b" \n"}
    for group, wanted in (("ickIdentifier", identifiers), ("ickComment", comments)):
        found = {place for place, one in enumerate(names) if one == group}
        tally.equal(f"{group} in {name}", sorted(found - ends), sorted(wanted - ends))
    wrong = sorted(place for place in recognised if names[place] == "ickUnread")
    if name in LIBRARY:  # also what can't be read there on purpose
        wrong = [place for place in range(len(source)) if names[place] == "ickUnread"]
    tally.check(not wrong, f"{name}: {[source[place:place + 20] for place in wrong[:3]]} is shown as an error")


def groups_of(paths):
    """The names of vim's groups, byte by byte, for each file. The end of a line has no group of its own."""
    called(["vim", "-es", "-u", "NONE", "-N", "-S", f"{TOP}/tests/tools/groups.vim", *paths], b"",
           dict(os.environ, SYNTAX=f"{TOP}/editors/vim/syntax/ick.vim"))
    return [content(f"{path}.groups").decode().replace("\n", " . ").split() for path in paths]


def try_middle(tally):
    """Lines in the middle of a program are shown right without those far in front of them."""
    path = f"{tally.folder}/middle.i"
    write(path, b"DO READ OUT .1\nPLEASE NOTE: THIS IS A COMMENT\n    THAT GOES ON HERE\n    AND HERE\n" * 200 + b"DO GIVE UP\n")
    called(["vim", "-es", "-u", "NONE", "-N", "-S", f"{TOP}/tests/tools/middle.vim", path], b"",
           dict(os.environ, SYNTAX=f"{TOP}/editors/vim/syntax/ick.vim"))
    tally.equal("vim's groups in the middle of a program", content(f"{path}.groups"), b"ickComment\n" * 2)


def try_make(tally):
    """:make has each line of ick-advice --brief, at its place."""
    paths = [f"{tally.folder}/{name}" for name in ("a b.i", "sound.i", "unsound.i")]
    for path, source in zip(paths, (b"DO .1 <- 5\n  DO .2 <- 6: 7\nPLEASE GIVE UP\n", b"DO GIVE UP\n",
                                    b"PLEASE NOTE RANDOM\nDO (7) NEXT\nDO GIVE UP\n")):
        write(path, source)
    called(["vim", "-es", "-u", "NONE", "-N", "-S", f"{TOP}/tests/tools/make.vim", *paths], b"",
           dict(os.environ, EDITORS=f"{TOP}/editors/vim", PATH=f"{TOOLS}:{os.environ['PATH']}"))
    for path in paths:
        told = [line.split(":", 3) for line in tally.tool("ick-advice", "--brief", path)[1].decode().splitlines()]
        found = content(f"{path}.found").decode().splitlines() if os.path.exists(f"{path}.found") else ["none"]
        tally.equal(f":make of {path}", found, ["\t".join([line, column, text.strip(), name]) for name, line, column, text in told])


def try_all(tally):
    if tally.lacks("vim", "the syntax file for vim"):
        return
    tried = [(name, source, f"{tally.folder}/{at}.i") for at, (name, source) in enumerate(sources())]
    for _, source, path in tried:
        with open(path, "wb") as file:
            file.write(source)
    for (name, source, _), names in zip(tried, groups_of([path for *_, path in tried])):
        try_groups(tally, name, source, names)
    try_make(tally)
    try_middle(tally)
