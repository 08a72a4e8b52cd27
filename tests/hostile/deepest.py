"""The deepest sources, and limits of the system for a child. bench/stack.py measures with them."""
import resource

SPARKS = "'" * 255
DEEPEST = [
    ("groups", f"DO .1 <- {SPARKS}#1{SPARKS}\nPLEASE READ OUT .1\nDO GIVE UP\n", b"\nI\n"),
    ("a chain", f"DO .1 <- {'~'.join(['#1'] * 256)}\nPLEASE READ OUT .1\nDO GIVE UP\n", b"\nI\n"),
    ("elements", f"DO ,1 <- #1\nDO ,1SUB#1 <- #1\nDO .1 <- {',1SUB' * 255}#1\nPLEASE READ OUT .1\nDO GIVE UP\n",
     b"\nI\n"),
]


def limited(kind, most):
    """Returns what a child does before the program: it sets a limit of the system."""
    return lambda: resource.setrlimit(kind, (most, most))
