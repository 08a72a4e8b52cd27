"""Segments: files of lines that stand together in the listing, each with a file of seals.

The first line of the seals says behind which place the segment begins. Each further line is a seal: how many bytes are
good, their checksum with the first line, and the place to which they go. One process writes a segment once, and nobody
changes it later. Bytes behind the last seal don't count.
"""
import glob
import os
import re
import time
import zlib

from ick_parts import Refused
from ick_parts.cursors import FIRST, LAST, end_of_line, first_run, follows, read_place, show_place
from ick_parts.job import FORM

AGAIN = "remove {0} and {0}.seals, and plan again"
SEAL = re.compile(r"(\d+) [0-9a-f]{8} (\S+)")
SEAL_SECONDS = float(os.environ.get("ICK_PARTS_SEAL") or 2)
SEAL_BYTES = 1 << 25
READ_BYTES = 1 << 20


def show_seal(size, checksum, cursor):
    return f"{size} {zlib.crc32(f'{size} {cursor}'.encode(), checksum):08x} {cursor}"


class Writer:
    """Writes a new segment, and seals it from time to time."""

    def __init__(self, job, folder, start):
        os.makedirs(folder, exist_ok=True)
        path = os.path.join(folder, os.urandom(6).hex())
        self.lines, self.seals = (open(name, "xb", buffering=0) for name in (path, path + ".seals"))
        self.place, self.size, self.sealed, self.sealed_at = start, 0, 0, time.monotonic()
        head = f"{FORM} {job.name} {show_place(start)}".encode()
        self.checksum = zlib.crc32(head)
        write_all(self.seals, head + b"\n")

    def keep(self, lines, place):
        """Writes lines, the last of which has the run of a place."""
        write_all(self.lines, lines)
        self.checksum = zlib.crc32(lines, self.checksum)
        self.size += len(lines)
        self.place = place
        if self.size > self.sealed + SEAL_BYTES or time.monotonic() > self.sealed_at + SEAL_SECONDS:
            self.seal(self.place)

    def seal(self, place):
        """Seals the lines up to a place, if there are new ones or it is the end of the listing."""
        if self.size > self.sealed or place == LAST:
            os.fsync(self.lines.fileno())
            write_all(self.seals, show_seal(self.size, self.checksum, show_place(place)).encode() + b"\n")
            os.fsync(self.seals.fileno())
            self.sealed, self.sealed_at = self.size, time.monotonic()


class Segment:
    """A segment to read. It has the runs behind `start`, up to `end`."""

    def __init__(self, job, path, head, *seals):
        self.path, self.head, self.seals = path, head, [SEAL.fullmatch(line) for line in seals]
        words = head.split(" ")
        if len(words) != 3 or words[0] != FORM or None in self.seals:
            raise Refused(f"{path}.seals is damaged: {AGAIN.format(path)}")
        if words[1] != job.name:
            raise Refused(f"{path} is of another job: {AGAIN.format(path)}")
        self.places = [read_place(words[2])] + [read_place(it[2]) for it in self.seals]
        self.start, self.end, self.size = self.places[0], self.places[-1], int(self.seals[-1][1])

    def read(self):
        """Opens the file of lines."""
        try:
            return open(self.path, "rb")
        except FileNotFoundError:
            raise Refused(f"{self.path} is missing: remove {self.path}.seals, and plan again")

    def checked(self, place):
        """Returns the range of the lines behind a place. The first of them has the next run, and LAST is the end."""
        begin, end = self.range_behind(place)
        with self.read() as file:
            file.seek(begin)
            if begin < end and not follows(place, first_run(file.readline())):
                raise Refused(f"{self.path} doesn't go on right behind {show_place(place)}: {AGAIN.format(self.path)}")
        if self.end == LAST and not follows(self.places[-2], LAST):
            raise Refused(f"{self.path} is at its end where more runs are: {AGAIN.format(self.path)}")
        return begin, end

    def range_behind(self, place):
        """Returns where the lines behind a place begin and end, after it compared all lines with their seals."""
        begin, at, checksum = 0 if place == self.start else None, 0, zlib.crc32(self.head.encode())
        with self.read() as file:
            for it in self.seals:
                block = at
                for lines in read_range(file, block, int(it[1])):
                    at, checksum = at + len(lines), zlib.crc32(lines, checksum)
                if it[0] != show_seal(at, checksum, it[2]):
                    raise Refused(f"{self.path} is damaged before byte {it[1]}: {AGAIN.format(self.path)}")
                if begin is None:
                    skipped = end_of_line(b"".join(read_range(file, block, at)), place)
                    begin = block + skipped if skipped else None
        if begin is None:
            raise Refused(f"{self.path} goes past {show_place(place)} and hasn't got it: {AGAIN.format(self.path)}")
        return begin, at

    def count_behind(self, place):
        """Returns how many lines there are behind a place."""
        begin, end = self.range_behind(place)
        with self.read() as file:
            return sum(lines.count(b"\n") for lines in read_range(file, begin, end))


def seals_of(job, piece="*"):
    """Yields the files of seals with at least one seal, of all pieces or of one, each with its lines."""
    for path in sorted(glob.glob(os.path.join(glob.escape(job.path("parts")), piece, "*.seals"))):
        with open(path, "rb") as file:
            lines = file.read().decode("ascii", "replace").split("\n")[:-1]  # a last line without its end was torn
        if len(lines) > 1:
            yield path[:-len(".seals")], lines


def segments_of(job, piece="*"):
    """Returns the segments, of all pieces or of one, in the order of their starts."""
    return sorted((Segment(job, path, *lines) for path, lines in seals_of(job, piece)), key=lambda it: it.start)


def cover(job):
    """Returns the segments that make the listing, each with the place behind which it is wanted; and the gaps."""
    return cover_by(segments_of(job))


def cover_by(segments):
    """The same, by these segments."""
    used, gaps, at = [], [], FIRST
    for segment in segments:
        if segment.start > at:
            gaps.append((at, segment.start))
            at = segment.start
        if segment.end > at:
            used.append((segment, at))
            at = segment.end
    return used, gaps + ([(at, LAST)] if at != LAST else [])


def read_range(file, begin, end):
    """Yields the bytes of a range, in pieces that stay in the processor's cache."""
    file.seek(begin)
    for at in range(begin, end, READ_BYTES):
        yield file.read(min(READ_BYTES, end - at))


def write_all(file, text):
    """Writes to a file without a buffer."""
    view = memoryview(text)
    while view:
        view = view[file.write(view):]
