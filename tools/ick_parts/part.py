"""A part: lists one piece of the plan, or a prefix of it, as a segment of its own."""
import contextlib
import fcntl
import signal
import subprocess
import time

from ick_parts import Refused
from ick_parts.cursors import FIRST, LAST, argument_of, end_of_line, last_run
from ick_parts.job import RUNS_A_CALL
from ick_parts.segments import READ_BYTES, Writer, segments_of

F_SETPIPE_SZ, F_GETPIPE_SZ = 1031, 1032
STOPPED = 143
PAUSES = 0.02, 0.1  # seconds between two reads, at least and at most


def list_part(job, which, seconds):
    """Returns the exit status. It goes on behind the segments that earlier calls made of this piece."""
    number, pieces = job.read_plan()
    if not 0 < which <= len(pieces):
        raise Refused(f"there is no piece {which} in the plan of {job.folder}")
    start, end, _ = pieces[which - 1]
    piece = f"{number}-{which}"
    for segment in segments_of(job, piece):
        if segment.start <= start < segment.end:
            start = segment.end
    return Part(job, Writer(job, job.path("parts", piece), start), end).run(seconds) if start < end else 0


class Part:
    def __init__(self, job, writer, end):
        self.job, self.writer, self.end = job, writer, end
        self.ick = self.told = None

    def stop(self, number, _):
        """Kills ick at SIGTERM, and at SIGALRM too if it has listed a run."""
        self.told = number
        if self.ick and (number == signal.SIGTERM or self.writer.size):
            self.ick.kill()

    def run(self, seconds):
        """Calls ick until the piece or the time is at its end."""
        signal.signal(signal.SIGTERM, self.stop)
        signal.signal(signal.SIGALRM, self.stop)
        signal.setitimer(signal.ITIMER_REAL, seconds)
        how = "MORE"
        while how == "MORE":
            how = self.call()
        signal.setitimer(signal.ITIMER_REAL, 0)
        self.writer.seal(self.writer.place)
        if how == "DONE":
            self.writer.seal(LAST)
        if how == "failed" and self.ick.returncode == -signal.SIGTERM:
            self.told = signal.SIGTERM  # it went to all processes
        if how == "failed" and not self.told:
            raise ChildProcessError(f"ick ended with status {self.ick.returncode}, and not with MORE or DONE")
        return STOPPED if self.told == signal.SIGTERM else 0

    def call(self):
        """Keeps the lines of one call. Returns MORE or DONE, `enough` at the end of piece or time, or `failed`."""
        place = self.writer.place
        after = ["--from=" + argument_of(place)] if place != FIRST else []
        with self.job.call("runs", "--count", RUNS_A_CALL, *after, stdout=subprocess.PIPE, bufsize=0) as self.ick:
            try:
                for text in blocks_of_lines(self.ick.stdout):
                    how = self.take(text)
                    if how:
                        return how
                self.ick.wait()
                return "failed"
            finally:
                self.ick.kill()

    def take(self, text):
        """Keeps whole lines up to the end of the piece."""
        how = text[-5:-1].decode() if text.endswith((b"MORE\n", b"DONE\n")) else None
        text = text[:-5] if how else text
        place = last_run(text) if text else self.writer.place
        if place >= self.end:
            text, how = text[:end_of_line(text, self.end) or None], "enough"
            place = last_run(text)
        self.writer.keep(text, place)
        return "enough" if self.told and self.writer.size else how


def blocks_of_lines(pipe):
    """Yields whole lines, and sleeps between two reads.

    It sleeps for a hundredth of the time that it has taken, since each read costs time, and ick lists past the end of
    the piece until the next read. It wakes before the pipe is full.
    """
    with contextlib.suppress(OSError):  # a user may have only so many large pipes, and a small one does too
        fcntl.fcntl(pipe, F_SETPIPE_SZ, READ_BYTES)
    half = fcntl.fcntl(pipe, F_GETPIPE_SZ) / 2
    began = before = time.monotonic()
    rest = b""
    while True:
        more = pipe.read(READ_BYTES)
        if not more:
            return
        text = rest + more
        size = text.rfind(b"\n") + 1
        rest = text[size:]
        yield text[:size]
        now = time.monotonic()
        time.sleep(min((now - before) * half / len(more), max(PAUSES[0], (now - began) / 100), PAUSES[1]))
        before = now
