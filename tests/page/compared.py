"""Holds the page's module against the built program: the rows of tests/cli, the examples, and programs of tests/fuzz.

The module is called in the browser, by the page's own worker.
"""
import base64
import glob
import os
import subprocess
import sys
import tempfile

from tally import TOP

sys.path += [f"{TOP}/tests/cli", f"{TOP}/tests/fuzz"]
from checks import entered
from fuzzed import Fuzzed
from language import AGAIN, CHECK, LIST, RUN, RUNS
from large import LIMITS, large
from table import PLAIN, SWEPT, Answer, Given

MOST = 1 << 26
# The module has one file, so it can't be without one.
LACKING = {"no-such-file", "."}
SERVED = """
globalThis.served = async (stages, ...given) => {
  const bytes = given.map((text) => Uint8Array.from(atob(text), (letter) => letter.charCodeAt(0)));
  const [argv, file, input, listing] = bytes;
  const { status, failed, ...found } = await engine.call({ argv, file, input, listing, stages, most: MOST_BYTES });
  const packed = await Promise.all([found.output, found.errors].map((bytes) => new Promise((done) => {
    const reader = new FileReader();
    reader.onload = () => done(reader.result.split(',')[1]);
    reader.readAsDataURL(new Blob([bytes ?? '']));
  })));
  return { status: failed ?? status, output: packed[0], errors: packed[1] };
};
0""".replace("MOST_BYTES", str(MOST))


class Module:
    """The module of the page that a Chromium shows."""

    def __init__(self, chromium):
        self.chromium = chromium
        chromium.evaluate(SERVED)

    def answer(self, words, file, given, listing=None, stages=False):
        """Returns the status, the output and the error text of `ick`, of `ick-outcomes` if there is a listing, or of
        `ick-stages`.
        """
        words = b"".join((word.encode() if isinstance(word, str) else word) + b"\0" for word in words)
        parts = [words, file, given, *([] if listing is None else [listing])]
        texts = ", ".join(f"'{base64.b64encode(part).decode()}'" for part in parts)
        found = self.chromium.evaluate(f"served({'true' if stages else 'false'}, {texts})")
        return found["status"], base64.b64decode(found["output"]), base64.b64decode(found["errors"])


def compare_rows(tally, module):
    """Each row of tests/cli that speaks of one file and of streams that work, by its own absolute answer."""
    source, listing, printed = large()
    rows = SWEPT + PLAIN + CHECK + LIST + RUN + RUNS + AGAIN + LIMITS + [
        (Given("large, listed", ["list", "FILE"], source, b""), Answer(0, listing, b"")),
        (Given("large, run", ["run", "FILE"], source, b""), Answer(0, printed, b""))]
    for given, wanted in rows:
        if not LACKING & {word for word in given.words if isinstance(word, str)}:
            found = module.answer(given.words, given.source, entered(given))
            tally.equal(f"the row {given.name}", Answer(*found), wanted)


def example_words(name):
    """Returns the options of an example for each command."""
    words = read(f"{TOP}/examples/{name}.how").decode()
    return {line.split()[0]: line.split()[1:] for line in words.splitlines()}


def read(path, default=b""):
    if not os.path.isfile(path):
        return default
    with open(path, "rb") as file:
        return file.read()


def compare_examples(tally, module, program, outcomes, stages):
    """Each example by each command, by ick-outcomes with its own options, and by ick-stages."""
    for path in sorted(glob.glob(f"{TOP}/examples/*.i")):
        name = os.path.basename(path)[:-2]
        options, source = example_words(name), read(path)
        given = read(f"{TOP}/examples/{name}.in")
        with tempfile.NamedTemporaryFile() as file:
            file.write(source)
            file.flush()
            for command in ("run", "runs", "list", "check"):
                words = [command, *options.get(command, [])]
                done = subprocess.run([program, *words, file.name], input=given, capture_output=True, check=False)
                tally.equal(f"ick {' '.join(words)} {name}.i", module.answer([*words, "FILE"], source, given),
                            (done.returncode, done.stdout, done.stderr))
                if command == "runs":
                    compare_asked(tally, module, outcomes, file.name, given, done.stdout, words[1:])
            words = options.get("outcomes", options.get("runs", []))
            done = subprocess.run([outcomes, *words, file.name], input=given, capture_output=True, check=False)
            tally.equal(f"ick-outcomes {' '.join(words)} {name}.i", module.answer([*words, "FILE"], source, given, b""),
                        (done.returncode, done.stdout, done.stderr))
            for words in ([], ["--statement", "2"]):
                done = subprocess.run([stages, *words, file.name], input=b"", capture_output=True, check=False)
                found = module.answer([*words, "FILE"], source, b"", stages=True)
                tally.equal(f"ick-stages {' '.join(words)} {name}.i", found, (done.returncode, done.stdout, done.stderr))


def compare_asked(tally, module, outcomes, path, given, listing, options):
    """What the choices of a listing were asked by, by ick-outcomes and by the module."""
    with tempfile.NamedTemporaryFile() as file:
        file.write(listing)
        file.flush()
        words = [outcomes, *options, "--asked", file.name, path]
        done = subprocess.run(words, input=given, capture_output=True, check=False)
    found = module.answer([*options, "--asked", "LISTING", "FILE"], read(path), given, listing)
    tally.equal(f"what asked in {path} {options}", found, (done.returncode, done.stdout, done.stderr))


class Held(Fuzzed):
    """A random program whose every call is also made by the module."""

    def __init__(self, module, answers, *given):
        self.module, self.answers, self.files = module, answers, {}
        super().__init__(*given)

    def write(self, name, text):
        self.files[name] = text
        super().write(name, text)

    def called(self, words, **streams):
        found = super().called(words, **streams)
        given = streams.get("input", self.files["input"])
        self.answers.equal(f"program {self.number}: {' '.join(words[1:])}",
                           self.module.answer(words[1:], self.files["source"], given), found)
        return found


def compare_programs(tally, module, program, seed, numbers):
    """Random programs by all commands, options and cursors that tests/fuzz calls them with."""
    with tempfile.TemporaryDirectory() as folder:
        for number in numbers:
            held = Held(module, tally, program, folder, seed, number)
            held.all()
            tally.equal(f"what tests/fuzz finds in program {number}: {held.tally.kept}", held.tally.failed, 0)
