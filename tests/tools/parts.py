"""Tries ick-parts: whole listings in any number of parts, through kills, failures, full disks and damage."""
import bisect
import contextlib
import glob
import heapq
import io
import os
import random
import re
import shutil
import signal
import subprocess
import sys
import time
from concurrent.futures import ThreadPoolExecutor

from common import SECONDS, TOOLS, TOP, called, content
from tally import write

from ick_parts import Refused
from ick_parts.cursors import FIRST, LAST, argument_of, first_run, follows, read_place, show_place
from ick_parts.job import Job
from ick_parts.plan import cut
from ick_parts.probes import Prober
from ick_parts.segments import segments_of
from ick_parts.status import lines_of
from ick_parts.whole import ranges_of, check

PARTS = os.path.join(TOOLS, "ick-parts")


def chances(count):
    return "".join(f"{'DO' if number % 4 else 'PLEASE'} %50 FORGET #0\n" for number in range(count))


LETTERS = "PLEASE %50 WRITE IN .1\nDO %50 READ OUT .1\nDO %50 WRITE IN .1\nDO %50 READ OUT .1\n" * 3
STAIRS = "DO (1) NEXT\n(1) DO FORGET #1\nDO %50 (2) NEXT\nPLEASE (1) NEXT\n(2) DO FORGET #1\n"

# each is a program, its input, the limit of its listing, and the numbers of pieces into which it is cut
PROGRAMS = {
    # a full tree
    "even": (chances(13) + "DO READ OUT #1972\nDO GIVE UP\n", b"", 10_000, (1, 2, 5)),
    # runs that end at different places
    "letters": (LETTERS + "DO GIVE UP\n", b"ONE\nTWO\nTHREE FOUR\nFIVE\n", 10_000, (2, 5)),
    # one long path with a full tree at each step
    "stairs": (STAIRS + chances(6) + "DO GIVE UP\n", b"", 600, (3,)),
    # one long path
    "again": ("(1) DO %50 (1) NEXT\nPLEASE GIVE UP\n", b"", 10_000, (3,)),
    # no choices
    "one": ("DO READ OUT #1 PLEASE GIVE UP\n", b"", 10_000, (1, 2)),
}

# stands for ick; FAIL says what goes wrong with a listing
FAILING_ICK = """#!/bin/sh
[ "$1" = runs ] || exec '{0}' "$@"
case ${{FAIL-}} in
    dies) '{0}' "$@" 2>/dev/null | head -c 50001; exit 4 ;;
    ends) '{0}' "$@" 2>/dev/null | head -n 1000 ;;
    silent) exit 4 ;;
    waits) '{0}' "$@" 2>/dev/null | head -c 50001; while kill -0 $PPID 2>/dev/null; do sleep 0.1; done ;;
    *) exec '{0}' "$@" ;;
esac
"""


class Case:
    """A job of a program in a folder of its own, and ick-parts on it."""

    def __init__(self, tally, name, folder=None, ick=None):
        self.tally, self.name = tally, name
        self.folder = os.path.join(tally.folder, folder or name)
        self.environment = dict(os.environ, ICK=ick or tally.program, ICK_PARTS_SEAL="0")
        shutil.rmtree(self.folder, ignore_errors=True)
        source, given, limit, _ = PROGRAMS[name]
        path = os.path.join(tally.folder, f"{name}.i")
        with open(path, "w", encoding="ascii") as file:
            file.write(source)
        _, self.whole, _ = tally.ick("runs", "--count", "1000000", "--limit", str(limit), path, given=given)
        tally.check(self.whole.endswith(b"DONE\n"), f"{name} isn't listed whole: {self.whole[-40:]!r}")
        tally.equal(f"begin {name}", self.call("begin", path, "--limit", str(limit), given=given), (0, b"", b""))

    def call(self, command, *arguments, given=b"", **more):
        words = [sys.executable, PARTS, command, self.folder, *map(str, arguments)]
        return called(words, given, dict(self.environment, **more))

    def start(self, command, *arguments, stdout=None, **more):
        return subprocess.Popen([sys.executable, PARTS, command, self.folder, *arguments], stdin=subprocess.DEVNULL,
                                stdout=stdout, stderr=subprocess.PIPE, env=dict(self.environment, **more))

    def plan(self, count):
        status, out, err = self.call("plan", count, "--short", 0)
        self.tally.check(status == 0, f"plan of {self.name}: {status} {err!r}")
        return int(out or 0)

    def parts(self, count, *arguments, **more):
        with ThreadPoolExecutor(2) as pool:
            return list(pool.map(lambda which: self.call("part", which, *arguments, **more), range(1, count + 1)))

    def lines(self):
        return [path[:-len(".seals")] for path in sorted(glob.glob(f"{self.folder}/parts/*/*.seals"))]

    def refuses(self, text):
        status, out, err = self.call("join")
        self.tally.check(status == 1 and not out and err.startswith(b"ick-parts: ") and err.count(b"\n") == 1,
                         f"join, {text}: {status} {out[:40]!r} {err!r}")

    def finishes(self, text):
        """Plans and lists the rest, and compares the whole."""
        for _ in range(30):
            count = self.plan(3)
            if count == 0:
                break
            self.parts(count)
        status, out, err = self.call("join")
        self.tally.check((status, err) == (0, b"") and out == self.whole, f"{text}, not the whole: {status} {err!r}")


def ended(process):
    """Waits for a process. Returns its status and what it wrote to standard error."""
    status = process.wait(SECONDS)
    with process.stderr:
        return status, process.stderr.read()


def random_tree(dice, depth):
    """The runs of a random tree of choices, in order."""
    runs, stems = [], [""]
    while stems:
        stem = stems.pop()
        if len(stem) == depth or stem and dice.random() < 0.3:
            runs.append(stem)
        else:
            stems += [stem + "1", stem + "0"]
    return runs


def try_cursors(tally):
    dice = random.Random(7)
    for _ in range(40):
        places = [FIRST, *random_tree(dice, 7), LAST]
        pairs = [(i, j) for j in range(len(places)) for i in range(j) if (i, j) != (0, len(places) - 1)]
        good = all(follows(places[i], places[j]) == (j == i + 1) for i, j in pairs)
        tally.check(good and places == sorted(places), f"which places follow each other in {places}")
    for place in (FIRST, LAST, "0", "01" * 32, "01" * 33, "0" * 99 + "1"):
        tally.check(place == read_place(show_place(place)) == read_place(argument_of(place)), f"place {place}")
    _, out, _ = tally.ick("runs", "--limit", "300", "--from", "1*78,0*1", given=PROGRAMS["again"][0].encode())
    tally.equal("a cursor as ick prints it", show_place(first_run(out)), out.split(b" ")[0].decode())
    for cursor in ("2", "0*0", "0*1,", "01*2", "*1", "0*01", " 0", "^", "MORE"):
        try:
            tally.check(read_place(cursor) is None, f"{cursor!r} is read as a cursor")
        except Refused:
            tally.check(True, "")


def try_check(tally):
    def checked(text):
        sys.stdin = io.TextIOWrapper(io.BytesIO(text))
        try:
            return check()
        except Refused as complaint:
            complaints.append(str(complaint))
            return None

    complaints = []

    kept = sys.stdin
    for text, wanted in ((b'- LIMIT ""\nDONE\n', 1), (b"0 A\n1 A\nDONE\n", 2), (b"0 A\n100 A\n101 A\n11 A\nDONE\n", 4)):
        tally.equal(f"check of {text!r}", checked(text), wanted)
    for text in (b"", b"DONE\n", b"0 A\nDONE\n", b"1 A\nDONE\n", b"0 A\n1 A\n", b"0 A\n1 A", b"0 A\n0 A\n1 A\nDONE\n",
                 b"00 A\n01 A\n11 A\nDONE\n", b"0 A\nMORE\n1 A\nDONE\n", b"0 A\n1 A\nDONE\nDONE\n", b"- A\n- A\nDONE\n",
                 b"- A\n0 A\n1 A\nDONE\n", b"0 A\n10 A\n110 A\n1111 A\nDONE\n", b"x\n", b"0\n1\nDONE\n",
                 b"0 A\n1 A\nDONE"):
        tally.check(checked(text) is None, f"check passes {text!r}")
    tally.check(all(re.match(r"line \d+: ", it) for it in complaints), f"complaints without their line: {complaints}")
    for text, wanted in ((b"0 A\nMORE\n", "line 2: MORE: the listing goes on"), (b"0 A\n1 A\n", "line 3: is missing"),
                         (b"0 A\nx A\n", "line 2: 'x' is no cursor"), (b"0 A\n11 A\n", "line 2: doesn't come right")):
        checked(text)
        tally.check(complaints[-1].startswith(wanted), f"check of {text!r}: {complaints[-1]}")
    sys.stdin = kept


def try_splits(tally):
    for name, (_, _, _, counts) in PROGRAMS.items():
        for count in counts:
            case = Case(tally, name)
            made = case.plan(count)
            results = case.parts(made)
            least = 1 if name in ("again", "one") else min(count, 2)
            tally.check(least <= made <= count, f"{name} in {count}: {made} pieces")
            tally.equal(f"parts of {name} in {made}", results, [(0, b"", b"")] * made)
            tally.equal(f"join of {name} in {made}", case.call("join"), (0, case.whole, b""))
            tally.equal(f"plan of {name} behind its end", case.plan(3), 0)
    tally.equal("check of even", called([sys.executable, PARTS, "check"], Case(tally, "even").whole),
                (0, b"8192 RUNS\n", b""))
    case = Case(tally, "even")
    status, out, err = case.call("plan", 5, "--short", SECONDS)
    tally.check((status, out) == (0, b"1\n") and b"one piece" in err, f"plan of a short listing: {status} {err!r}")
    case.finishes("a short listing")


def try_damage(tally):
    """Each single bit that changes is seen, and so is each loss."""
    case, dice = Case(tally, "letters"), random.Random(3)
    case.parts(case.plan(3))

    def is_refused():
        try:
            return not list(ranges_of(Job(case.folder)))
        except Refused:
            return True

    tally.check(not is_refused(), "a whole listing is refused")
    path = case.lines()[1]
    for name, places in ((path, 300), (path + ".seals", None)):
        text = content(name)
        places = dice.sample(range(8 * len(text)), places or 8 * len(text))
        for place in places:
            write(name, text[:place // 8] + bytes([text[place // 8] ^ 1 << place % 8]) + text[place // 8 + 1:])
            tally.check(is_refused(), f"bit {place} of {name} is changed, and nobody sees it")
        write(name, text)
    text, seals = content(path), content(path + ".seals")
    write(path, bytes([text[0] ^ 1]) + text[1:])
    case.refuses("a bit changed")
    for new in (text[:len(text) // 2], text[text.index(b"\n") + 1:], b""):
        write(path, new)
        case.refuses(f"{len(new)} of {len(text)} bytes are left")
    os.unlink(path)
    status, out, err = case.call("join")
    tally.check(status == 1 and not out and b"is missing: remove" in err, f"join without a file: {status} {err!r}")
    write(path, text)
    write(path + ".seals", seals[:-3])
    case.refuses("a seal is torn")
    case.finishes("after a torn seal")
    case = Case(tally, "letters")
    case.parts(case.plan(2))
    path = case.lines()[0]
    write(path, b"x" + content(path)[1:])
    case.refuses("a segment is damaged")
    os.unlink(path)
    os.unlink(path + ".seals")
    case.finishes("after a damaged segment was removed")


def try_foreign(tally):
    """Two processes on a piece make one listing. What is of another job, program, input or ick is refused."""
    case = Case(tally, "even")
    case.plan(2)
    with ThreadPoolExecutor(4) as pool:
        results = list(pool.map(lambda which: case.call("part", which), (1, 1, 2, 2)))
    tally.equal("each piece twice", (results, case.call("join")), ([(0, b"", b"")] * 4, (0, case.whole, b"")))
    other = Case(tally, "letters", "other")
    other.parts(other.plan(2))
    shutil.copytree(f"{other.folder}/parts/1-1", f"{case.folder}/parts/9-9")
    case.refuses("a segment of another job")
    for name in ("program.i", "input"):
        with open(f"{other.folder}/{name}", "ab") as file:
            file.write(b"\n")
        status, _, err = other.call("part", 1)
        tally.check(status == 1 and b"has changed" in err, f"part after {name} changed: {status} {err!r}")
    case = Case(tally, "even")
    case.plan(2)
    ick = os.path.join(tally.folder, "newer-ick")
    write(ick, FAILING_ICK.format(tally.program).encode())
    os.chmod(ick, 0o755)
    status, _, err = case.call("part", 1, ICK=ick)
    tally.check(status == 1 and b"has changed" in err, f"part by a newer ick: {status} {err!r}")
    status, _, err = case.call("part", 1, ICK="/bin/sh")
    tally.check(status == 4 and b"is another program" in err, f"part by another program: {status} {err!r}")
    for text in (b"", b"x\n", b"1\n- 0\n1\n", b"1\n- 2\n"):
        write(f"{case.folder}/plan", text)
        status, _, err = case.call("part", 1)
        tally.check(status == 1 and err.count(b"\n") == 1, f"part of the plan {text!r}: {status} {err!r}")


def try_failures(tally):
    """What ick listed before it failed, or was stopped or killed, is whole lines and is kept."""
    ick = os.path.join(tally.folder, "failing-ick")
    write(ick, FAILING_ICK.format(tally.program).encode())
    os.chmod(ick, 0o755)
    for fails, wanted in (("dies", 4), ("ends", 4), ("waits", 143), ("waits", 0), ("waits", -9)):
        case = Case(tally, "even", ick=ick)
        case.plan(1)
        part = case.start("part", "1", *(["--seconds", "1"] if wanted == 0 else []), FAIL=fails)
        if wanted in (143, -9):
            wait_for(lambda: any(content(f"{path}.seals").count(b"\n") > 1 for path in case.lines()))
            part.send_signal(signal.SIGTERM if wanted == 143 else signal.SIGKILL)
        status, err = ended(part)
        tally.check(status == wanted and (wanted == 4) == (b"ick ended with" in err),
                    f"part whose ick {fails}: {status}, not {wanted}: {err!r}")
        path, = case.lines()
        kept = content(path)
        tally.check(kept.endswith(b"\n") and case.whole.startswith(kept),
                    f"what is kept of an ick that {fails} isn't whole lines")
        case.refuses(f"after an ick that {fails}")
        with open(path, "ab") as file:
            file.write(b"0101 GIVE-UP")
        case.finishes(f"after an ick that {fails}, and a torn line")


def wait_for(holds):
    until = time.monotonic() + SECONDS
    while not holds() and time.monotonic() < until:
        time.sleep(0.01)


def try_kills(tally):
    """Kills parts at random times."""
    case, dice = Case(tally, "stairs"), random.Random(5)
    for _ in range(3):
        for which in range(1, case.plan(2) + 1):
            part = case.start("part", str(which))
            time.sleep(dice.uniform(0.05, 0.3))
            part.kill()
            ended(part)
    case.finishes("after kills")


def try_disks(tally):
    case = Case(tally, "even")
    case.plan(2)
    for blocks in (0, 200):
        limited = ["sh", "-c", f'ulimit -f {blocks}; exec "$@"', "sh", sys.executable, PARTS, "part", case.folder, "1"]
        status, _, err = called(limited, environment=case.environment)
        tally.check(status == 4 and b"File too large" in err and err.count(b"\n") == 1,
                    f"part whose files have at most {blocks} blocks: {status} {err!r}")
        case.refuses("after a full disk")
    case.finishes("after a full disk")
    with open("/dev/full", "wb") as full:
        status, err = ended(case.start("join", stdout=full))
    tally.check(status == 4 and b"No space left" in err, f"join to a full disk: {status} {err!r}")
    reading, writing = os.pipe()
    os.close(reading)
    tally.equal("join into a closed pipe", ended(case.start("join", stdout=writing)), (-signal.SIGPIPE, b""))
    os.close(writing)


def try_arguments(tally):
    for name in ("ick-parts", "ick-parts-parallel", "ick-parts-slurm"):
        path = os.path.join(TOOLS, name)
        status, out, err = called([path, "--help"])
        tally.check(status == 0 and b"Example" in out and b"Exit status" in out and not err, f"{name} --help: {err!r}")
        status, out, err = called([path, "--version"])
        tally.equal(f"{name} --version", (status, out, err),
                    (0, f"{name} ".encode() + content(os.path.join(TOP, "VERSION")), b""))
        for words in (["--no-such-option"], [], ["job"]):
            status, out, err = called([path, *words])
            tally.check(status == 2 and not out and err.count(b"\n") < 6, f"{name} {words}: {status} {err!r}")
        if name != "ick-parts":
            status, out, err = called([path, "/no/such", "1", "1"])
            tally.check(status == 2 and not out and b"no folder /no/such" in err, f"{name} /no/such: {status} {err!r}")
            status, out, err = called(["/bin/sh", path, tally.folder, "1", "1"], environment={"PATH": "/nowhere"})
            tally.check(status == 4 and not out and b"on the PATH" in err, f"{name} on no PATH: {status} {err!r}")
    case = Case(tally, "one")
    for words in (["plan", case.folder, "0"], ["plan", case.folder, "1", "--short", "x"], ["part", case.folder, "-1"],
                  ["part", case.folder, "1", "--seconds", "-1"], ["part", case.folder, "1"], ["join", "/no/such"],
                  ["begin", case.folder, "/no/such"], ["begin", case.folder, __file__, "--limit", "4294967296"]):
        status, out, err = called([PARTS, *words], environment=case.environment)
        tally.check(status == 2 and not out and b"Traceback" not in err, f"ick-parts {words}: {status} {err!r}")
    status, _, err = case.call("begin", __file__)
    tally.check(status == 1 and b"is there already" in err, f"begin twice: {status} {err!r}")
    status, _, err = case.call("plan", 2, ICK="/no/such")
    tally.check(status == 4 and b"there is no /no/such" in err, f"plan without ick: {status} {err!r}")
    write(f"{case.folder}/job", b"x")
    case.refuses("a damaged job")


def try_verify(tally):
    """Each file that is damaged or missing is named; if it is removed, the next plan cuts its runs again."""
    case = Case(tally, "even")
    tally.equal("verify of nothing", case.call("verify"), (0, b"nothing is damaged, and runs are missing behind -: "
                                                             b"plan again\n", b""))
    case.parts(case.plan(5))
    tally.equal("verify of all", case.call("verify"), (0, b"nothing is damaged, and all runs are listed\n", b""))
    first, second, third, *_ = case.lines()
    text = content(first)
    write(first, text[:99] + b"?" + text[100:])
    os.unlink(second)
    seals = content(f"{third}.seals")
    write(f"{third}.seals", seals.replace(b"\n", b" x\n", 1))
    status, out, err = case.call("verify")
    named = re.findall(rb"^(\S+?)(?:\.seals)? is (?:damaged|missing).*: remove .*, and plan again$", out, re.MULTILINE)
    tally.equal("what verify names", (status, sorted(named), err), (1, [os.fsencode(it) for it in (first, second, third)],
                                                                   b"ick-parts: 3 segments are damaged\n"))
    for path in (first, third, f"{first}.seals", f"{second}.seals", f"{third}.seals"):
        os.unlink(path)
    case.finishes("after what verify named was removed")
    for name, status, wanted in (("plan", 2, b"plan first"), ("program.i", 1, b"put the same file there"),
                                 ("input", 1, b"put the same file there"), ("job", 1, b"begin a job in another folder")):
        os.rename(f"{case.folder}/{name}", f"{case.folder}/gone")
        found, out, err = case.call("part", 1)
        tally.check(found == status and f"{case.folder}/{name} is missing: ".encode() + wanted in err,
                    f"part without {name}: {found} {err!r}")
        os.rename(f"{case.folder}/gone", f"{case.folder}/{name}")


STATUS = re.compile(rb"(\d+)% listed: ([\d,]+) of about ([\d,]+) runs, (.*)\n")


def try_status(tally):
    case = Case(tally, "even")
    tally.equal("status before a plan", case.call("status"),
                (0, b"about 0 runs are listed, and it isn't known of how many\n", b""))
    case.plan(4)
    for which in range(1, 4):
        case.call("part", which)
        found = STATUS.fullmatch(case.call("status")[1])
        percent, listed, whole = [int(it.replace(b",", b"")) for it in found.groups()[:3]] if found else (0, 0, 1)
        lines = sum(content(path).count(b"\n") for path in case.lines())
        tally.check(abs(percent - 100 * listed // whole) <= 1 and abs(listed / lines - 1) < .01
                    and .7 < whole / 8192 < 1.4 and found[4].endswith(b"left"),
                    f"status after {lines} of 8192 runs: {found and found[0]}")
    case.finishes("status")
    tally.equal("status of all", case.call("status"), (0, b"100% listed: 8,192 runs\n", b""))
    tally.check(abs(lines_of(segments_of(Job(case.folder))[0]) - content(case.lines()[0]).count(b"\n")) < 9, "lines of")
    write(f"{case.folder}/plan", b"1\n- DONE " + f"{1 << 99999:x}\n".encode())
    shutil.rmtree(f"{case.folder}/parts")
    tally.equal("status of 2^99999 runs", case.call("status"),
                (0, b"0% listed: 0 of about 10^30102 runs, and no time is known yet\n", b""))


class Listed(Prober):
    """Answers from a listing that is there."""

    def __init__(self, job, runs):
        super().__init__(job)
        self.runs = runs

    def is_enough(self, choices):
        if choices not in self.known:
            self.known[choices] = choices.startswith(self.runs[bisect.bisect_right(self.runs, choices) - 1])
        return self.known[choices]


def time_of(sizes, processes):
    """When the last of the processes is done, each of which takes the next piece as soon as it is free."""
    free = [0] * processes
    for size in sizes:
        heapq.heappush(free, heapq.heappop(free) + size)
    return max(free)


def try_balance(tally):
    """The heaviest process has at most 1.3 times the mean, in runs, if a part ends after a quarter of such a share."""
    for name in ("even", "letters", "stairs"):
        case = Case(tally, name)
        runs = [first_run(line) for line in case.whole.splitlines()[:-1]]
        place_of = {FIRST: 0, LAST: len(runs), **{run: place for place, run in enumerate(runs, 1)}}
        for processes in (4, 16):
            gaps, time_, most, probes = [(FIRST, LAST)], 0, len(runs) // processes // 4, 0
            while gaps:
                prober = Listed(Job(case.folder), runs)
                pieces = cut(prober, gaps, 4 * processes)
                probes += len(prober.known)
                places = [(place_of[start], place_of[end]) for start, end, _ in pieces]
                time_ += time_of([min(end - start, most) for start, end in places], processes)
                gaps = sorted((runs[start + most - 1], runs[end - 1] if end < len(runs) else LAST)
                              for start, end in places if end - start > most)
            heaviest = time_ * processes / len(runs)
            tally.check(heaviest <= 1.3, f"{name} on {processes}: the heaviest has {heaviest:.2f} times the mean")
            tally.check(probes <= 100 * 4 * processes, f"{name} on {processes}: {probes} probes")


def try_parallel(tally):
    if b"GNU parallel" not in (called(["parallel", "--version"])[1] if shutil.which("parallel") else b""):
        tally.untried.append("ick-parts-parallel (GNU parallel)")
        return
    case = Case(tally, "letters")
    command = [f"{TOOLS}/ick-parts-parallel", case.folder, "3", "1", "-j", "2"]
    case.environment["HOME"] = tally.folder
    status, out, err = called(command, environment=case.environment)
    tally.check(status == 0 and not out and case.plan(2) == 0, f"ick-parts-parallel: {status} {out!r} {err!r}")
    case.finishes("by ick-parts-parallel")
    parallel_kills(tally)
    write(f"{case.folder}/input", b"")
    status, out, err = called(command, environment=case.environment)
    tally.check(status == 1 and b"has changed" in err, f"ick-parts-parallel after a change: {status} {err!r}")


def processes_of(case):
    """The numbers of the processes that list parts of a job."""
    found = []
    for path in glob.glob("/proc/[0-9]*/cmdline"):
        with contextlib.suppress(OSError):
            words = content(path).split(b"\0")
            if b"part" in words and os.fsencode(case.folder) in words and b"parallel" not in b"".join(words[:3]):
                found.append(int(path.split("/")[2]))
    return found


def parallel_kills(tally):
    """Two killed parts are listed by the next round, and a signal ends all that was started."""
    ick = os.path.join(tally.folder, "waiting-ick")
    write(ick, FAILING_ICK.format(tally.program).encode())
    os.chmod(ick, 0o755)
    case = Case(tally, "even", ick=ick)
    command = [f"{TOOLS}/ick-parts-parallel", case.folder, "2", "5", "-j", "2"]
    case.environment.update(HOME=tally.folder, FAIL="waits")
    with subprocess.Popen(command, stdin=subprocess.DEVNULL, stderr=subprocess.PIPE, env=case.environment) as running:
        wait_for(lambda: sum(content(f"{path}.seals").count(b"\n") > 1 for path in case.lines()) == 2)
        killed = processes_of(case)
        tally.equal("the parts of a round", len(killed), 2)
        for process in killed:
            os.kill(process, signal.SIGKILL)
        wait_for(lambda: len(case.lines()) > 2)
        tally.equal("ick-parts-parallel with two killed parts", running.wait(SECONDS), 0)
        err = running.stderr.read()
    tally.check(b"100% listed: 8,192 runs\n" in err, f"no status in the log of ick-parts-parallel: {err!r}")
    case.finishes("by ick-parts-parallel with two killed parts")
    for number, wanted in ((signal.SIGTERM, 143), (signal.SIGINT, 130)):
        case = Case(tally, "even", ick=ick)
        case.environment.update(HOME=tally.folder, FAIL="waits")
        command[3] = "300"
        with subprocess.Popen(command, stdin=subprocess.DEVNULL, stderr=subprocess.PIPE, env=case.environment,
                              start_new_session=True, preexec_fn=lambda: signal.signal(signal.SIGINT, signal.SIG_DFL)
                              ) as running:
            wait_for(lambda: sum(content(f"{path}.seals").count(b"\n") > 1 for path in case.lines()) == 2)
            os.killpg(running.pid, number) if number == signal.SIGINT else running.send_signal(number)
            tally.equal(f"ick-parts-parallel at {number.name}", running.wait(SECONDS), wanted)
            wait_for(lambda: not processes_of(case))
        tally.equal(f"parts that are left after {number.name}", processes_of(case), [])
        del case.environment["FAIL"]
        case.finishes(f"after {number.name}")


def try_all(tally):
    for attempt in (try_cursors, try_check, try_splits, try_damage, try_foreign, try_failures, try_kills, try_disks,
                    try_arguments, try_verify, try_status, try_balance, try_parallel):
        attempt(tally)
