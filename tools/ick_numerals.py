"""Numerals as READ OUT prints them, and what they are worth."""
import functools
import re

WORTH = dict(zip("IVXLCDM", (1, 5, 10, 50, 100, 500, 1000)))
WORTH.update({letter.lower(): 1000000 * worth for letter, worth in list(WORTH.items())})
# the letters of each place for 1, 5 and 10, a bar in front of a letter that has one
PLACES = ("I V X", "X L C", "C D M", "M _V _X", "_X _L _C", "_C _D _M", "_M v x", "x l c", "c d m", "m _v -")
THEIR_PLACES = {3: "_I _V _X", 6: "i v x", 9: "_i _v -"}  # in C-INTERCAL, for the digits 4 and 6 to 9
DIGITS = ("", "a", "aa", "aaa", "ab", "b", "ba", "baa", "baaa", "ac")
BARS, LETTERS = re.compile(rb"[ _]*"), re.compile(rb"[IVXLCDMivxlcdm]*")


def symbols(number, places):
    """The letters of a number above 0, with a bar in front of each that has one. `places` has those of some digits."""
    for place, digit in reversed(list(enumerate(reversed(str(number))))):
        row = places.get(place) if digit in "46789" else None
        letters = dict(zip("abc", (row or PLACES[place]).split()))
        yield from (letters[one] for one in DIGITS[int(digit)])


def numeral(number, in_c_intercal=False):
    """The bars and the letters of a number, as two lines without their ends. C-INTERCAL ends its bars by spaces."""
    if number == 0:
        return "_", ""
    found = list(symbols(number, THEIR_PLACES if in_c_intercal else {}))
    bars = "".join("_" if len(symbol) > 1 else " " for symbol in found)
    return bars if in_c_intercal else bars.rstrip(), "".join(symbol[-1] for symbol in found)


@functools.lru_cache(1 << 16)
def number_of(bars, letters):
    """The number whose numeral, here or in C-INTERCAL, is these two lines of bytes, or None."""
    if not BARS.fullmatch(bars) or not LETTERS.fullmatch(letters) or len(letters) > 39:
        return None
    bars, letters = bars.decode(), letters.decode()
    worths = [WORTH[letter] * (1000 if bars[place:place + 1] == "_" else 1) for place, letter in enumerate(letters)]
    number = sum(-worth if worths[place + 1:place + 2] > [worth] else worth for place, worth in enumerate(worths))
    if not 0 <= number < 1 << 32 or (bars, letters) not in (numeral(number), numeral(number, True)):
        return None
    return number


def pieces(output):
    """The pieces of an output, in order: a number for each numeral, and the bytes of each other line with its end."""
    lines = output.split(b"\n")
    place, found = 0, []
    while place < len(lines):
        number = number_of(lines[place], lines[place + 1]) if place + 2 < len(lines) else None
        if number is not None:
            found.append(number)
            place += 1
        elif place + 1 < len(lines):
            found.append(lines[place] + b"\n")
        elif lines[place]:
            found.append(lines[place])
        place += 1
    return found


def common_pieces(first, second):
    """How many bytes the pieces have with which both outputs begin."""
    most = common(first, second)
    if most == len(first) == len(second):
        return most
    cut = first.rfind(b"\n", 0, most) + 1  # where the line begins in which they differ
    if not cut:
        return 0
    bars = first.rfind(b"\n", 0, cut - 1) + 1
    # an empty line can be the second one of the numeral 0, whose bars are _
    if cut - bars > 1 or not (first.endswith(b"\n_\n", 0, bars) or bars == 2 and first.startswith(b"_")):
        for output in (first, second):
            end = output.find(b"\n", cut)
            if end >= 0 and number_of(first[bars:cut - 1], output[cut:end]) is not None:
                return bars
    return cut


def start_of_context(outputs):
    """Where a line begins, so that what is before it is equal in all outputs, and that `common_pieces` of two of them
    depends only on what is behind it: on the line in which they differ, and the two before it.
    """
    place = common(min(outputs), max(outputs))
    for _ in range(3):
        place = outputs[0].rfind(b"\n", 0, max(place - 1, 0)) + 1
    return place


def common(first, second):
    """How many bytes both begin with."""
    size = min(len(first), len(second))
    if second.startswith(first):
        return size
    differing = int.from_bytes(first[:size], "big") ^ int.from_bytes(second[:size], "big")
    return size - (differing.bit_length() + 7) // 8
