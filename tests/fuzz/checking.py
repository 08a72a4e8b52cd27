"""Runs the program on a source and an input, with its arguments written in one of several ways, and counts checks."""
import os
import re
import subprocess

from tally import SECONDS, Tally


class Checking:
    def __init__(self, command, folder, number, random, other=None):
        self.command, self.folder, self.number, self.random = command, folder, number, random
        self.other = other
        self.tally, self.last = Tally(quiet=True), []

    def write(self, name, text):
        with open(os.path.join(self.folder, name), "wb") as file:
            file.write(text)

    def words(self, command, options, file):
        """Returns the arguments: options with `=` or apart, FILE before, between or after them, and -b now and then."""
        parts = []
        for name, value in options:
            together = self.random.random() < 0.5 or str(value).startswith("-")
            parts.append([f"--{name}={value}"] if together else [f"--{name}", str(value)])
        if command.startswith("run") and self.random.random() < 0.1:
            parts.append(["-b"])
        self.random.shuffle(parts)
        if file:
            at = self.random.randint(0, len(parts))
            parts[at:at] = [["source"]] if at < len(parts) or self.random.random() < 0.8 else [["--", "source"]]
        return [self.command, command] + [word for part in parts for word in part]

    def called(self, words, **streams):
        self.last = words[1:]
        done = subprocess.run(words, cwd=self.folder, stdout=subprocess.PIPE, stderr=subprocess.PIPE, timeout=SECONDS,
                              close_fds=False, **streams)
        return done.returncode, done.stdout, done.stderr

    def entered(self, words, text):
        """Calls a program on a text as its input, or on the program's own input if there is none."""
        if text is not None:
            return self.called(words, input=text)
        with open(os.path.join(self.folder, "input"), "rb") as file:
            return self.called(words, stdin=file)

    def answer(self, command, options, file="FILE", entered=None):
        """Returns the status, the output and the error text. The input is the program's own, if no other is given. If
        there is another build, checks that it answers the same.
        """
        words = self.words(command, options, file)
        found = self.entered(words, entered)
        if self.other:
            self.hold("the answer of both builds", found, self.entered([self.other] + words[1:], entered))
        return found

    def run_by_file(self, choices):
        """Returns the answer of a run and what is left of its input, which is a file."""
        words = self.words("run", [("choices", choices), ("limit", self.limit)], "FILE")
        with open(os.path.join(self.folder, "input"), "rb", buffering=0) as file:
            answer = self.called(words, stdin=file)
            return answer, file.read()

    def run_by_pipe(self, choices):
        """Returns the answer of a run and what is left of its input, which is a pipe."""
        words = self.words("run", [("choices", choices), ("limit", self.limit)], "FILE")
        ours, theirs = os.pipe()
        os.write(theirs, self.input)
        os.close(theirs)
        with open(ours, "rb", buffering=0) as file:
            answer = self.called(words, stdin=file)
            return answer, file.read()

    def hold(self, name, found, wanted):
        """Counts a check. A tuple of status, output and error text may have a pattern as its error text."""
        if isinstance(wanted, tuple) and isinstance(wanted[-1], re.Pattern):
            same = found[:-1] == wanted[:-1] and bool(wanted[-1].fullmatch(found[-1]))
        else:
            same = found == wanted
        if same:
            return self.tally.check(True, name)
        if not self.tally.failed:
            self.tally.say(f"program {self.number}:\n{self.source.decode()}input {self.input}")
        return self.tally.equal(f"program {self.number}, {name}, last {' '.join(self.last)}", found, wanted)
