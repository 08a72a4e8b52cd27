"""Tries the mode for Emacs on what vim's syntax file is tried on, and the language server by eglot."""
import os
import re
import shutil

from common import EXAMPLES, TOOLS, TOP, called, content, write

import vim

STATEMENTS = 5000
MILLISECONDS = 50  # what a key may take, on average
CHANGED = 60  # programs that are changed
GROUPS = {"font-lock-keyword-face": "ickIdentifier", "font-lock-comment-face": "ickComment",
          "font-lock-warning-face": "ickUnread"}
HAS_EGLOT = """(progn (require 'package)
  (add-to-list 'package-directory-list "/usr/share/emacs/site-lisp/elpa")
  (package-activate-all)
  (require 'eglot))"""
TRIED = """DO READ OUT .1
DO (1020) NEXT
DO (7) NEXT
(7) DO FORGET #1
DO REINSTATE (7)
DO .1 <- 5
DO GIVE UP
"""
ANSWERS = (
    ("hover", "**Statement 1**: `READ-OUT` writes numerals"), ("routine", "(1020): `.1` = `.1` + 1, modulo 65536."),
    ("library", "library/arithmetic.i"), ("definition", "4"), ("uses", "3"), ("symbols", "((7))"),
    ("action", "Say PLEASE in 1 more statement"), ("action", "Say PLEASE"),
    ("action", "Paste the library's routines that are called"), ("polite", "1"), ("variable", "- read in line 1"),
    ("variable's uses", "1"), ("renamed", "3"), ("completed", "DO STASH"), ("offered", "(23)"), ("mended", "DO .1 <- #5"),
)


def emacs(script, *paths, **environment):
    return called(["emacs", "--batch", "-Q", "-l", f"{TOP}/tests/tools/{script}", *paths], b"",
                  dict(os.environ, EMACS_MODE=f"{TOP}/editors/emacs", **environment))


def try_faces(tally):
    tried = [(name, source, f"{tally.folder}/{at}.i") for at, (name, source) in enumerate(vim.sources())]
    for _, source, path in tried:
        with open(path, "wb") as file:
            file.write(source)
    status, _, err = emacs("faces.el", *[path for *_, path in tried])
    tally.check(status == 0, f"emacs: {err.decode()[-600:]}")
    for name, source, path in tried if status == 0 else ():
        vim.try_groups(tally, name, source, [GROUPS.get(face, face) for face in content(f"{path}.faces").decode().split()])


def large():
    """A program with many statements, one in three of them a comment of two lines."""
    lines = ("DO .{0} <- '.1$#{0}'~#7", "DO NOTE: THIS LINE IS {0},\n       AND THIS IS ITS SECOND ONE", "(1{0}) PLEASE READ OUT .{0}")
    return "\n".join(lines[at % 3].format(at) for at in range(1, STATEMENTS)) + "\nDO GIVE UP\n"


def try_edits(tally):
    """After a change, what is shown is as if the whole text were shown anew. A key takes no time that a person notices."""
    paths = []
    for at, (_, source) in enumerate(list(vim.sources())[-CHANGED:]):
        paths.append(f"{tally.folder}/changed{at}.i")
        write(paths[-1], source)
    write(f"{tally.folder}/large.i", large().encode())
    status, out, err = emacs("edits.el", *paths, f"{tally.folder}/large.i")
    differing, times = (out.decode().splitlines() + ["", ""])[:2]
    tally.check(status == 0 and differing.startswith("0 of "), f"faces after changes: {status} {differing} {err.decode()[-600:]}")
    tally.check(times and float(times.split()[1]) < MILLISECONDS, f"a key takes {times} milliseconds")


def try_eglot(tally):
    path = f"{tally.folder}/tried.i"
    with open(path, "w", encoding="ascii") as file:
        file.write(TRIED)
    examples = [shutil.copy(one, tally.folder) for one in EXAMPLES]
    status, out, err = emacs("eglot.el", path, *examples, PATH=f"{TOOLS}:{os.environ['PATH']}", HOME=tally.folder)
    tally.check(status == 0, f"eglot: {status} {err.decode()[-900:]}")
    lines = out.decode().splitlines()
    for one in (path, *examples):
        told = [line.decode().split(":", 3) for line in tally.tool("ick-advice", "--brief", one)[1].splitlines()]
        name = os.path.basename(one)
        wanted = [f"{name}: {line} ick: {text.strip()}" for _, line, _, text in told]
        found = [line for line in lines if line.startswith(f"{name}: ")]
        found = [re.sub(r" \[E\d{3}\]: ", ": ", line) for line in found]
        tally.equal(f"the advice on {name} by eglot", sorted(found), sorted(wanted))
    answers = [line.partition(": ")[::2] for line in lines if not line.partition(":")[0].endswith(".i")]
    for (name, text), (wanted_name, wanted) in zip(answers + [("", "")] * len(ANSWERS), ANSWERS):
        tally.check(name == wanted_name and wanted in text, f"eglot, {wanted_name}: {text!r} has no {wanted!r}")


def try_all(tally):
    if tally.lacks("emacs", "the mode for Emacs, and ick-lsp by eglot"):
        return
    try_faces(tally)
    try_edits(tally)
    if called(["emacs", "--batch", "-Q", "--eval", HAS_EGLOT])[0]:
        tally.untried.append("ick-lsp by eglot (elpa-eglot)")
        return
    try_eglot(tally)
