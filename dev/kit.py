"""Finds the Rattle kit and its own Python module, which knows a repository's crates and how `rt` builds them.

  kit.py     says what is missing if there is no kit, and ends with status 1
"""
import importlib
import os
import shutil
import subprocess
import sys

NO_KIT = ("there is no rt on the PATH, the command of the Rattle kit: the compiler and prover that builds ick. The kit is "
          "no part of this repository, and can't be had from here. The Debian package and the page run without it")


def load_kit():
    """Returns the module rtlib of the kit whose `rt` is on the PATH, or None if there is none."""
    rt = shutil.which("rt")
    if rt is None:
        return None
    page = subprocess.run([rt, "doc"], stdout=subprocess.PIPE, universal_newlines=True).stdout.strip()
    sys.path.insert(0, os.path.join(os.path.dirname(page), "bin"))
    try:
        return importlib.import_module("rtlib")
    except ImportError:
        return None


def crate_of(kit, top, name):
    """Returns the crate of that name in the repository at top, or None."""
    return {crate.name: crate for crate in kit.crates_below(top)}.get(name)


def toolchain_with(kit, room, clang):
    """Makes a folder as the kit's toolchain, with a script in the place of clang. Returns the folder."""
    made, real = f"{room}/toolchain", f"{kit}/toolchain"
    os.makedirs(f"{made}/bin")
    os.symlink(f"{real}/lib", f"{made}/lib")
    for tool in os.listdir(f"{real}/bin"):
        if tool != "clang":
            os.symlink(f"{real}/bin/{tool}", f"{made}/bin/{tool}")
    with open(f"{made}/bin/clang", "w", encoding="utf-8") as file:
        file.write(clang)
    os.chmod(f"{made}/bin/clang", 0o755)
    return made


def last_change(top, crate):
    """Returns when a file or folder changed last that a proof of the crate reads."""
    found = [f"{top}/crates.txt", f"{top}/HANDLES"]
    for part in ("src", "specs", "proofs"):
        for where, _, names in os.walk(f"{crate.folder}/{part}"):
            found += [where, *[f"{where}/{name}" for name in names]]
    return max(os.path.getmtime(path) for path in found)


def are_left_by_ci(top, crate):
    """Returns whether `rt ci` left the library of each crate below, and nothing changed since. `rt lib` marks its own
    libraries by a stamp, and would prove these again.
    """
    below = crate.below()
    return all(os.path.isdir(it.rlib) and not os.path.exists(f"{it.folder}/out/rlib/stamp") for it in below) and max(
        last_change(top, it) for it in below) < min(os.path.getmtime(it.rlib) for it in below)


if __name__ == "__main__":
    if shutil.which("rt") is None:
        print(NO_KIT)
        sys.exit(1)
