"""Shows a place of a text: its line, with a mark under the place."""
import unicodedata

WIDTH = 96  # columns of a line that are shown
LEFT = 60  # columns in front of the place in a line that is cut
CUT = ".."


def excerpt(source, lines, at):
    """Returns the lines of text that show a place. `lines` are the source's ick_source.Lines."""
    number = lines.line(at)
    start, end = lines.starts[number - 1], (lines.starts[number:number + 1] or [len(source) + 1])[0] - 1
    # a line can be as long as the source, and a character takes at most four bytes
    before = shown(source[max(start, at - 4 * WIDTH):at])
    behind = shown(source[at:min(end, at + 4 * WIDTH)].rstrip(b"\r"))
    if columns(before) + columns(behind) > WIDTH:
        before = CUT * (len(before) > LEFT) + before[-LEFT:]
        room = max(1, WIDTH - columns(before))
        behind = behind[:room] + CUT * (len(behind) > room)
    margin = " " * len(str(number))
    return [f"{number} | {before}{behind}".rstrip(), f"{margin} | {' ' * columns(before)}^"]


def shown(piece):
    """The text of bytes, with a question mark for each character that a terminal doesn't print, and tabs as spaces."""
    text = piece.decode("utf-8", "replace").replace("\t", " ")
    return "".join(one if one.isprintable() else "?" for one in text)


def columns(text):
    """How many columns of a terminal a text takes."""
    return sum(0 if unicodedata.combining(one) else 2 if unicodedata.east_asian_width(one) in "WF" else 1 for one in text)
