"""Proves the library ick_c, and builds its archive and its LLVM module once, for bindings/build and web/build.

`rattle build` makes one LLVM module of the proved library for x86-64, and calls the clang of the toolchain folder that
its flag --toolchain names. This script names a folder whose clang keeps the module.
"""
import os
import shutil
import subprocess
import tempfile

from kit import are_left_by_ci, crate_of, toolchain_with

LIBRARY = "ick_c"
# Copies the library's module, which the toolchain's clang compiles.
KEEPER = """#!/bin/sh
for word; do
    case $word in *module.bc) cp "$word" '{kept}' ;; esac
done
exec '{clang}' "$@"
"""


class NotBuilt(Exception):
    """Why the library could not be proved or built."""


def words_of_proof(kit, top, crate):
    """Returns the words for the proof, over the libraries below as `rt ci` left them, or as `rt lib` builds them."""
    if are_left_by_ci(top, crate):
        return crate.words(["--jobs", "2"], keeps=False)
    for below in crate.deps:
        if subprocess.run(["rt", "lib"], cwd=below.folder, stdin=subprocess.DEVNULL, check=False).returncode:
            raise NotBuilt(f"rt lib failed in {below.folder}")
    return crate.words([]) + kit.KEPT


def proved_library(kit, top):
    """Returns the paths of the archive and of the module. Both are kept until a source or the kit changes."""
    crate = crate_of(kit, top, LIBRARY)
    if crate is None:
        raise NotBuilt(f"crates.txt names no crate {LIBRARY}")
    out = f"{crate.folder}/out/library"
    archive, module, made_of = f"{out}/libick_c.a", f"{out}/module.bc", f"{out}/stamp"
    stamp = crate.stamp()
    if os.path.isfile(made_of):
        with open(made_of, encoding="ascii") as file:
            if file.read() == stamp:
                return archive, module
    shutil.rmtree(out, ignore_errors=True)
    os.makedirs(out)
    with tempfile.TemporaryDirectory(prefix="library-") as room:
        keeper = KEEPER.format(kept=module, clang=f"{kit.KIT}/toolchain/bin/clang")
        words = words_of_proof(kit, top, crate)
        words += ["--toolchain", toolchain_with(kit.KIT, room, keeper), "--backend", "llvm"]
        if crate.call(kit.RATTLE, "build", *words, "-o", archive) or not os.path.isfile(module):
            raise NotBuilt("the proved library wasn't built")
    with open(made_of, "w", encoding="ascii") as file:
        file.write(stamp)
    return archive, module
