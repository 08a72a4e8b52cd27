"""Tries ick-lsp by Neovim's own client, without a terminal."""
import json
import os

from common import TOOLS, TOP, called, content, write

SOURCE = b"""DO READ OUT .1
DO (1020) NEXT
DO (7) NEXT
(7) DO FORGET #1
DO REINSTATE (7)
DO .1 <- 5
DO GIVE UP
"""


def try_client(tally):
    path, out = f"{tally.folder}/tried.i", f"{tally.folder}/answers"
    write(path, SOURCE)
    status, _, err = called(["nvim", "--headless", "-u", "NONE", "-i", "NONE", "-n", path, "-S", f"{TOP}/tests/tools/nvim.lua"], b"",
                            dict(os.environ, PATH=f"{TOOLS}:{os.environ['PATH']}", HOME=tally.folder, OUT=out))
    lines = [json.loads(line) for line in content(out).splitlines()] if os.path.exists(out) else []
    found = {name: [value for other, value in lines if other == name] for name, _ in lines}
    tally.check(status == 0 and not err, f"nvim: {status} {err.decode()[-900:]}")
    told = [line.split(":", 3)[1:] for line in tally.tool("ick-advice", "--brief", path)[1].decode().splitlines()]
    tally.equal("the advice by Neovim", sorted([str(line), str(column), f" {text}".split("\n")[0]]
                                               for line, column, text, _ in found.get("diagnostic", [])), sorted(told))
    for name, wanted in (
            ("attached", True), ("told", True), ("definition", 3), ("references", 3), ("mended", "DO .1 <- #5"), ("renamed", True),
            ("lines", SOURCE.decode().replace("<- 5", "<- #5").replace(".1", ".23").splitlines()), ("changed", True),
            ("stopped", True)):
        tally.equal(f"Neovim, {name}", found.get(name), [wanted])
    hover, *_ = found.get("hover", [""])
    tally.check("**.1** is a onespot" in hover and "read in line 1" in hover, f"the hover by Neovim: {hover!r}")
    words, *_ = found.get("completion", [[]])
    tally.check({"READ OUT", "STASH", "(1000) NEXT", "(7) NEXT"} <= set(words), f"the completion by Neovim: {words}")
    titles = [title.split(":")[0] for title in found.get("action", [])]
    tally.equal("the actions by Neovim", titles, ["Say PLEASE in 1 more statement", "Say PLEASE", "Write the number with a mesh",
                                                  "Paste the library's routines that are called"])


def try_all(tally):
    if tally.lacks("nvim", "ick-lsp by Neovim's own client"):
        return
    try_client(tally)
