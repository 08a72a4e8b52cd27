"""What the tests by rows share: the program and a folder to run it in, and the command of a row."""
import os

from table import SOURCE


# The name of a file for a word of a row.
FILES = {"FILE": "source", " FILE ": " source "}


class Checks:
    def __init__(self, tally, program, folder):
        self.tally, self.program, self.folder = tally, program, folder

    def command(self, given):
        """The command of a row, after its source is written to each file that the row names and to no other."""
        for word, name in FILES.items():
            path = os.path.join(self.folder, name)
            if word in given.words:
                with open(path, "wb") as file:
                    file.write(given.source)
            elif os.path.exists(path):
                os.remove(path)
        return [self.program] + [FILES.get(word, word) for word in given.words]


def entered(given):
    """The bytes of a row's standard input."""
    return given.source if given.entered is SOURCE else given.entered
