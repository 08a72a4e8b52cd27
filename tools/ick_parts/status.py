"""The status: about how much of a listing is there, and about how long the rest takes.

A plan says about how many runs each of its pieces has. The lines that are sealed are estimated by the length of some,
and counted once the listing is whole.
"""
import math
import os
import signal
import sys
import time

from ick_parts import Refused
from ick_parts.segments import READ_BYTES, cover

PAUSES = 1, 60  # seconds between two lines, on a terminal and in a log
SPANS = ((86400 * 365, "year"), (86400, "day"), (3600, "hour"), (60, "minute"))
BLOCKS = 16
EXACT = 10 ** 15  # larger numbers are shown as powers of 10


class Status:
    """What is listed of a job now: the count of all runs if no gap is left, and else estimates."""

    def __init__(self, job):
        self.used, self.gaps = used, _ = cover(job)
        self.listed, self.here, pieces, plan = 0, 0, {}, job.path("plan")
        self.since, self.until = os.path.getmtime(job.path("job")), 0
        for segment, _ in used:
            lines = lines_of(segment)
            folder = os.path.basename(os.path.dirname(segment.path))
            pieces[folder] = pieces.get(folder, 0) + lines
            self.listed += lines
            self.until = max(self.until, os.path.getmtime(segment.path + ".seals"))
        self.left = None
        if os.path.exists(plan) and self.gaps:
            number, planned = job.read_plan()
            if all(weight is not None for *_, weight in planned):
                self.left = sum(self.left_of(piece, pieces.get(f"{number}-{which}", 0))
                                for which, piece in enumerate(planned, 1))
            self.here = sum(lines for folder, lines in pieces.items() if folder.startswith(f"{number}-"))
            if self.here:
                self.since = os.path.getmtime(plan)

    def left_of(self, piece, listed):
        """About how many runs of a piece aren't listed: none if it has no gap, and else at least a hundredth."""
        start, end, weight = piece
        if not any(gap[0] < end and start < gap[1] for gap in self.gaps):
            return 0
        return max(weight - listed, weight // 100, 1)

    def show(self):
        if not self.gaps:
            return f"100% listed: {shown(sum(segment.count_behind(place) for segment, place in self.used))} runs"
        if self.left is None:
            return f"about {shown(self.listed)} runs are listed, and it isn't known of how many"
        whole = self.listed + self.left
        return (f"{100 * self.listed // whole}% listed: {shown(self.listed)} of about {shown(whole)} runs, "
                + self.show_time())

    def show_time(self):
        """The time that the rest takes, if it goes on as since the last plan, or since the job began."""
        listed, took = self.here or self.listed, int(1000 * (self.until - self.since))
        if not listed or took <= 0:
            return "and no time is known yet"
        seconds = self.left * took // (1000 * listed)
        for length, name in SPANS:
            if seconds >= length:
                count = seconds // length
                return f"about {shown(count)} {name}{'s' * (count > 1)} left"
        return "less than a minute left"


def lines_of(segment):
    """About how many lines a segment has: as many as blocks at equal distances let expect."""
    step, lines, read = max(READ_BYTES, segment.size) // BLOCKS, 0, 0
    with segment.read() as file:
        for at in range(0, segment.size, step):
            file.seek(at)
            text = file.read(min(READ_BYTES // BLOCKS, segment.size - at))
            lines, read = lines + text.count(b"\n"), read + len(text)
    return lines * segment.size // max(1, read)


def shown(number):
    return f"{number:,}" if number < EXACT else f"10^{int(math.log10(number))}"


def follow(job):
    """Shows the status until it is told to end, or its parent has ended: on a terminal in one line."""
    is_terminal, parent = sys.stdout.isatty(), os.getppid()
    before, end = ("\r", "\033[K") if is_terminal else ("", "\n")

    def show():
        try:
            if os.path.exists(job.path("plan")):
                print(before + Status(job).show(), end=end, flush=True)
        except (Refused, OSError):  # a file is being written or removed, or is damaged: the plan or join says so
            pass

    def stop(*_):
        show()
        print(end="\n" if is_terminal else "", flush=True)
        sys.exit()

    signal.signal(signal.SIGTERM, stop)
    while os.getppid() == parent:
        if is_terminal:
            show()
        for _ in range(1 if is_terminal else PAUSES[1]):
            time.sleep(PAUSES[0])
            if os.getppid() != parent:
                return
        if not is_terminal:
            show()
