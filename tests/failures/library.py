"""The library that makes calls of the system fail (failures.c), which a program is loaded with by LD_PRELOAD."""
import os
import subprocess


def build_library(folder):
    """Compiles the library into a folder, and returns its path."""
    library, source = os.path.join(folder, "failures.so"), os.path.join(os.path.dirname(__file__), "failures.c")
    subprocess.run([os.environ.get("CC", "cc"), "-O1", "-Wall", "-shared", "-fPIC", "-o", library, source], check=True)
    return library
