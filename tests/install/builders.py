"""A folder with the programs for an install, and stand-ins for the two scripts that build its optional part."""
import os

MADE = {"bindings/build": ("bindings/out/libick.a", "bindings/out/libick.so"), "web/build": ("web/out/ick.html",)}


def stand_in(copy):
    """Writes both scripts into a copy of the repository. Each makes empty files in place of what it would build."""
    for script, files in MADE.items():
        path = os.path.join(copy, script)
        os.makedirs(os.path.join(os.path.dirname(path), "out"), exist_ok=True)
        with open(path, "w", encoding="utf-8") as file:
            file.write(f"#!/bin/sh\ncd '{copy}'\ntouch {' '.join(files)}\n")
        os.chmod(path, 0o755)


def folder_of(programs, folder):
    """Makes a folder of links to the programs, under the names by which they are installed. Returns the folder."""
    os.makedirs(folder)
    for name, program in programs.items():
        os.symlink(program, os.path.join(folder, name))
    return folder
