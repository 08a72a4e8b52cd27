"""The whole listing: joins the segments, and looks for damage; checks a listing by its cursors alone."""
import sys

from ick_parts import Refused
from ick_parts.cursors import FIRST, LAST, first_run, follows, show_place
from ick_parts.segments import Segment, cover, cover_by, read_range, seals_of, write_all


def ranges_of(job):
    """Yields the ranges of bytes that make the listing, with their files. All bytes were compared with their seals."""
    used, gaps = cover(job)
    if gaps:
        raise Refused(f"not whole: runs are missing behind {show_place(gaps[0][0])}; plan again")
    for segment, place in used:
        yield (segment.path, *segment.checked(place))


def join(job):
    """Writes the listing. All of it is compared first, so that a refusal writes nothing."""
    ranges = list(ranges_of(job))
    with open(1, "wb", buffering=0, closefd=False) as output:
        for path, begin, end in ranges:
            with open(path, "rb") as file:
                for text in read_range(file, begin, end):
                    write_all(output, text)
        write_all(output, b"DONE\n")


def verify(job):
    """Compares every segment with its seals. Yields a complaint for each one that is damaged, and what to remove.

    Then yields whether the others make the whole listing.
    """
    good, damaged = [], 0
    for path, lines in seals_of(job):
        try:
            segment = Segment(job, path, *lines)
            segment.checked(segment.start)
            good.append(segment)
        except Refused as complaint:
            damaged += 1
            yield str(complaint)
    used, gaps = cover_by(sorted(good, key=lambda it: it.start))
    for segment, place in used:
        try:
            segment.checked(place)
        except Refused as complaint:
            damaged += 1
            yield str(complaint)
    if damaged:
        raise Refused(f"{damaged} segment{'s are' if damaged > 1 else ' is'} damaged")
    yield ("nothing is damaged, and "
           + (f"runs are missing behind {show_place(gaps[0][0])}: plan again" if gaps else "all runs are listed"))


def check():
    """Returns how many runs the listing on standard input has. Refuses it unless each run follows the one before."""
    place, is_done, number = FIRST, False, 0
    for number, line in enumerate(sys.stdin.buffer, 1):
        try:
            place, is_done = behind(line, place, number == 1, is_done)
        except Refused as complaint:
            raise Refused(f"line {number}: {complaint}")
    if not is_done:
        raise Refused(f"line {number + 1}: is missing, and DONE is the last line of a whole listing")
    return number - 1


def behind(line, place, is_first, is_done):
    """Returns the place of a line of a listing, behind a place, and whether it is the last line."""
    if line == b"MORE\n" and not is_done:
        raise Refused("MORE: the listing goes on; list the rest by --from and the cursor of the line before")
    if is_done or not line.endswith(b"\n"):
        raise Refused("no line of a listing")
    is_done = line == b"DONE\n"
    here = LAST if is_done else first_run(line)
    # behind FIRST comes a run, but DONE if the one run without choices was there
    if place == FIRST and is_done == is_first or not follows(place, here):
        raise Refused("doesn't come right after the line before")
    return here, is_done
