"""Probes: finds runs that begin with given choices, and about how many there are, by single runs of ick."""
import random
import subprocess

from ick_parts.cursors import argument_of

SAMPLES = 3  # the most random runs from which a number of runs is estimated


class Guess:
    """Guesses the length of a run: that of the last one, or as much above its stem, whichever was nearer then."""

    def __init__(self):
        self.stem, self.length, self.is_by_stem = 0, 0, False

    def of(self, stem):
        return max(stem, self.length + (stem - self.stem if self.is_by_stem else 0))

    def learn(self, stem, length):
        plain, by_stem = abs(length - self.length), abs(length - self.length - stem + self.stem)
        self.is_by_stem = by_stem < plain or by_stem == plain and self.is_by_stem
        self.stem, self.length = stem, length


class Prober:
    def __init__(self, job):
        self.job, self.limit, self.known, self.weights = job, int(job.limit), {}, {}
        self.first, self.last, self.random = Guess(), Guess(), Guess()

    def is_enough(self, choices):
        """Returns whether choices are all that a run takes, or more."""
        if choices not in self.known:
            with self.job.call("run", "--choices=" + argument_of(choices), stdout=subprocess.DEVNULL,
                               stderr=subprocess.PIPE) as ick:
                error = ick.stderr.read()
            if ick.returncode not in (0, 1, 3):
                raise ChildProcessError(f"ick run ended with status {ick.returncode}: {error.decode(errors='replace')}")
            self.known[choices] = not error.startswith(b"CHOICE WANTED AFTER ")
        return self.known[choices]

    def run_below(self, guess, stem, prefix):
        """Returns the run that begins with a stem and takes choices of an endless list, whose first n are prefix(n)."""
        low, high, step = len(stem), guess.of(len(stem)), 1
        while not self.is_enough(prefix(high)):
            # a run asks for at most as many choices as it makes steps
            low, high, step = high + 1, min(high + step, self.limit), step * 2
        step = 1
        while low < high:
            # as long as each try is enough, the steps grow
            middle = (low + high) // 2 if low > len(stem) else max(low, high - step)
            if self.is_enough(prefix(middle)):
                high, step = middle, step * 2
            else:
                low = middle + 1
        guess.learn(len(stem), high)
        return prefix(high)

    def first_below(self, stem):
        return self.run_below(self.first, stem, lambda length: stem.ljust(length, "0"))

    def last_below(self, stem):
        return self.run_below(self.last, stem, lambda length: stem.ljust(length, "1"))

    def weight(self, stem):
        """Returns about how many runs begin with a stem.

        A random run stands for 2 to the number of its further choices (Knuth's estimate). The result is the mean of
        several, up to one whose length was guessed.
        """
        if stem not in self.weights:
            numbers, is_guessed = [], False
            while len(numbers) < SAMPLES and not is_guessed:
                seed, guessed = f"{stem} {len(numbers)}", self.random.of(len(stem))
                length = len(self.run_below(self.random, stem, lambda length: (
                    stem + "".join(random.Random(seed).choices("01", k=length - len(stem))))))
                numbers.append(2 ** (length - len(stem)))
                is_guessed = length == guessed
            self.weights[stem] = sum(numbers) // len(numbers)
        return self.weights[stem]
