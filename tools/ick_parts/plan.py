"""The plan: cuts what isn't listed yet into pieces of about equal numbers of runs.

A gap is a list of subtrees of the tree of choices. Heavy ones are split until all are light, or until the probes are
used up. Then neighbours are put together to pieces.
"""
import itertools
import os
import subprocess
import sys
from concurrent.futures import ThreadPoolExecutor

from ick_parts.cursors import FIRST, LAST
from ick_parts.job import RUNS_A_CALL
from ick_parts.probes import Prober
from ick_parts.segments import cover

PROBES_A_PIECE = 50
LIGHT = 2  # a subtree is light if this many are at most a piece
FLIPPED = str.maketrans("01", "10")


class Subtrees:
    """Neighbouring subtrees, each of which leaves one path at one of the forks. At its end it is the path itself."""

    def __init__(self, prober, gap, path, forks):
        self.prober, self.gap, self.path, self.forks = prober, gap, path, forks
        # three are weighed, and the others are on a line between them: a split finds out what is too heavy
        ends = sorted({0, len(forks) // 2, len(forks) - 1})
        known = [prober.weight(self.stem(it)) for it in ends]
        self.weights = known[:1]
        for i, size in enumerate(b - a for a, b in zip(ends, ends[1:])):
            self.weights += [known[i] + (known[i + 1] - known[i]) * k // size for k in range(1, size + 1)]
        self.weight = sum(self.weights)

    def stem(self, which):
        fork = self.forks[which]
        return self.path[:fork] + self.path[fork:fork + 1].translate(FLIPPED)

    def last_run(self):
        return self.prober.last_below(self.stem(-1))

    def split(self):
        """Returns the same in two, or in one if it is one run."""
        if len(self.forks) == 1:
            stem = self.stem(0)
            first, last = self.prober.first_below(stem), self.prober.last_below(stem)
            if first == stem:
                return [self]
            forks = range(len(stem), max(len(first), len(last)) + 1)
            below = (first, forks[::-1]) if len(first) > len(last) else (last, forks)
            return Subtrees(self.prober, self.gap, *below).split()
        sums = list(itertools.accumulate(self.weights))
        half = max(1, sum(it <= sums[-1] // 2 for it in sums[:-1]))
        return [Subtrees(self.prober, self.gap, self.path, it) for it in (self.forks[:half], self.forks[half:])]


def subtrees_of(prober, gap):
    """Returns the subtrees in a gap, in order: those right of its start, and those left of its end with the end."""
    start, end = gap
    if gap == (FIRST, LAST):
        return [Subtrees(prober, gap, "", [0])]
    common = len(os.path.commonprefix([start, end])) if start != FIRST and end != LAST else -1
    right = [at for at in range(len(start) - 1, common, -1) if start[at] == "0"]
    left = [at for at in range(common + 1, len(end)) if end[at] == "1"] + [len(end)] if end != LAST else []
    return [Subtrees(prober, gap, path, forks) for path, forks in ((start, right), (end, left)) if forks]


def cut(prober, gaps, wanted):
    """Returns about so many pieces, at least one for each gap, the heaviest first, each with its weight."""
    items = [it for gap in gaps for it in subtrees_of(prober, gap)]
    with ThreadPoolExecutor(len(os.sched_getaffinity(0))) as pool:
        while len(prober.known) < PROBES_A_PIECE * wanted:
            light = sum(it.weight for it in items) // (LIGHT * wanted)
            split = list(pool.map(lambda it: it.split() if it.weight > light else [it], items))
            if all(len(parts) == 1 for parts in split):
                break
            items = [it for parts in split for it in parts]
    whole, pieces = sum(it.weight for it in items), []
    for _, group in itertools.groupby(items, key=lambda it: it.gap):
        pieces += pieces_of(list(group), wanted, whole)
    return sorted(pieces, key=lambda it: -it[2])


def pieces_of(items, wanted, whole):
    """Cuts one gap. Yields each piece and its weight: the subtrees whose middles are in one of equal shares."""
    (start, end), share, groups = items[0].gap, sum(it.weight for it in items), {}
    count = max(1, round(share * wanted / whole))
    for it, sum_ in zip(items, itertools.accumulate(it.weight for it in items)):
        groups.setdefault((2 * sum_ - it.weight) * count // (2 * share), []).append(it)
    for group in groups.values():
        here = group[-1].last_run() if group[-1] is not items[-1] else end
        yield start, here, sum(it.weight for it in group)
        start = here


def is_short(job, seconds):
    """Returns whether ick lists all runs in less than so many seconds."""
    with job.call("runs", "--count", RUNS_A_CALL, stdout=subprocess.PIPE) as ick:
        try:
            return ick.communicate(timeout=seconds)[0].endswith(b"DONE\n")
        except subprocess.TimeoutExpired:
            ick.kill()
            return False


def plan(job, wanted, short):
    """Writes the plan, and returns how many pieces it has."""
    gaps = cover(job)[1]
    if wanted > 1 and gaps == [(FIRST, LAST)] and is_short(job, short):
        print(f"ick-parts: one piece, since the whole listing takes less than {short:g} seconds", file=sys.stderr)
        wanted = 1
    pieces = cut(Prober(job), gaps, wanted) if wanted > 1 else [(*gap, None) for gap in gaps]
    job.write_plan(pieces)
    return len(pieces)
