"""Tries which programs a tool takes: what ICK or its like names, beside it, on the PATH, or of its own repository, proved
or by ./preview; and no other program.
"""
import os
import shutil
import sys

from common import TOOLS, TOP, called

ASK = ("import sys; sys.argv = [{tool!r}]; sys.path.insert(0, {tools!r}); import ick_tool; "
       "print(ick_tool.find_program({name!r}))")


def script(path, text):
    os.makedirs(os.path.dirname(path), exist_ok=True)
    with open(path, "w", encoding="utf-8") as file:
        file.write(f"#!/bin/sh\n{text}\n")
    os.chmod(path, 0o755)
    return path


def try_program(tally, name, crate, variable, program):
    top = os.path.join(tally.folder, f"a prefix of {name}")
    tools, inside, beside, on_path, proved, preview, other = (os.path.join(top, place) for place in (
        "lib/tools", f"lib/tools/{name}", f"bin/{name}", f"path/{name}", f"lib/crates/{crate}/out/{crate}",
        f"lib/crates/{crate}/out/preview/{crate}.checked", f"other/{name}"))
    source = os.path.join(top, "lib/crates.txt")
    shutil.copytree(TOOLS, tools, ignore=shutil.ignore_patterns("__pycache__"))
    shutil.copy(os.path.join(TOP, "preview"), os.path.join(top, "lib"))
    for kind in ("src", "specs", "proofs"):
        os.makedirs(os.path.join(top, f"lib/crates/{crate}/{kind}"))
    for path in (source, os.path.join(top, "lib/HANDLES"), os.path.join(os.path.dirname(preview), "sources")):
        os.makedirs(os.path.dirname(path), exist_ok=True)
        with open(path, "w", encoding="utf-8") as file:
            file.write("crates.txt\n")
    for path in (inside, beside, on_path, proved, preview):
        script(path, f"exec '{program}' \"$@\"")
    script(other, "echo ICL998I EXCUSE ME")

    def found(**more):
        environment = {known: value for known, value in os.environ.items() if known != variable}
        words = [sys.executable, "-c", ASK.format(tool=os.path.join(top, "bin/ick-parts"), tools=tools, name=name)]
        status, out, err = called(words, environment={**environment, "PATH": f"{top}/path:{os.environ['PATH']}", **more})
        return os.path.normpath(out.decode().strip()) if status == 0 else err.decode().splitlines()[-1]

    tally.equal(f"{name} that {variable} names", found(**{variable: on_path}), on_path)
    for path in (inside, beside, on_path):
        tally.equal(f"the first {name} of {path}", found(), path)
        os.remove(path)
    with_other = f"{top}/other:{os.environ['PATH']}"
    for path in (proved, preview):
        tally.equal(f"the first {name} of {path}", found(PATH=with_other), path)
        os.utime(path, (1, 1))
    tally.check("is another program" in found(PATH=with_other), f"another {name} on the PATH")
    few = os.path.join(top, "few")  # without any ick
    os.makedirs(few)
    for command in ("find", "cat"):
        os.symlink(shutil.which(command), os.path.join(few, command))
    builds = "./preview" if crate == "ick" else f"./preview {crate}"
    tally.equal(f"{name} that is older than its source", found(PATH=few), "FileNotFoundError: there is no "
                f"{name} on the PATH; {builds} builds it; the environment variable {variable} can name it")
    tally.check("is another program" in found(**{variable: other}), f"another program by {variable}")
    tally.check(f"there is no {name} on the PATH" in found(PATH="/nowhere"), f"no {name}")
    tally.check("there is no /nowhere" in found(**{variable: "/nowhere"}), f"no program by {variable}")


def try_all(tally):
    try_program(tally, "ick", "ick", "ICK", tally.program)
    try_program(tally, "ick-outcomes", "outcomes", "ICK_OUTCOMES", tally.outcomes)
    try_program(tally, "ick-step", "step", "ICK_STEP", tally.step)
    try_program(tally, "ick-stages", "stages", "ICK_STAGES", tally.stages)
