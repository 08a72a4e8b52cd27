"""Insertions by which ick reads more of a statement that it can't read: a mesh in front of a number, the end of a group."""
import ick_source

MOST = 50  # insertions. Behind each of them the statement is read anew


def mesh(statement, text):
    """The mark that a number lacks where reading stopped."""
    return b"#" if text[statement.stop:statement.stop + 1].isdigit() else b""


def group_end(statement, _):
    """The mark that closes the group in which reading stopped."""
    return ick_source.CLOSING.get(statement.expected, "").encode()


def insertions(statement, lacking):
    """The insertions, each a place and marks, after which reading comes further. `lacking` says what a statement lacks."""
    text, found = statement.text(), []
    one = ick_source.cut(text)[0]
    while len(found) < MOST and not one.read() and (mark := lacking(one, text)):
        further = text[:one.stop] + mark + text[one.stop:]
        again = ick_source.cut(further)[0]
        if not again.read() and again.stop < one.stop + len(mark):
            break
        place = statement.start + one.stop - sum(len(marks) for _, marks in found)
        if found and found[-1][0] == place:
            mark = found.pop()[1] + mark
        found.append((place, mark))
        text, one = further, again
    return found
