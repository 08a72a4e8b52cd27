"""What an editor asks of a program: advice, explanations, labels and their uses, and PLEASE added or taken away.

Places are those of the language server protocol: a line and a count of UTF-16 units, both from 0.
"""
import bisect
import importlib.machinery
import importlib.util
import os
import pathlib
import re

import ick_completion
import ick_hover
import ick_library
import ick_mending
import ick_pieces
import ick_reasons
import ick_source
import ick_tool

ERROR, WARNING, INFORMATION = 1, 2, 3
FUNCTION, QUICK_FIX = 12, "quickfix"
TOLD = re.compile(r"refused, (E\d{3}): |statement (\d+) is fault 000 when it is done")
NUMBER = re.compile(r"[(.:,;]?\s*(\d{1,9})\s*\)?")
LINE_END = re.compile(rb"\r\n|\n|\r")


def load_advice():
    """The script ick-advice as a module."""
    loader = importlib.machinery.SourceFileLoader("ick_advice", os.path.join(ick_tool.HERE, "ick-advice"))
    module = importlib.util.module_from_spec(importlib.util.spec_from_loader("ick_advice", loader))
    loader.exec_module(module)
    return module


ADVICE = load_advice()


def encoded(text):
    """The bytes of a text. Half a character of UTF-16 becomes a question mark."""
    return text.encode("utf-8", "replace")


class Text:
    """A text that an editor shows, and places in it."""

    def __init__(self, source):
        self.source, self.lines = source, [0] + [found.end() for found in LINE_END.finditer(source)]
        self.is_ascii = source.isascii()

    def place(self, at):
        line = bisect.bisect_right(self.lines, at) - 1
        start = self.lines[line]
        before = b"" if self.is_ascii else self.source[start:at]  # a line can be as long as the text
        units = len(before.decode("utf-8", "replace").encode("utf-16-le")) // 2
        return {"line": line, "character": at - start if self.is_ascii else units}

    def range(self, start, end):
        return {"start": self.place(start), "end": self.place(end)}

    def offset(self, place):
        """Where a place is in the bytes. Behind a line it is the line's end, and inside a character its start."""
        if place["line"] >= len(self.lines):
            return len(self.source)
        start = self.lines[place["line"]]
        line = self.source[start:self.line_end(start)].decode("utf-8", "replace").encode("utf-16-le")
        return start + len(line[:2 * place["character"]].decode("utf-16-le", "ignore").encode())

    def line_end(self, at):
        """Where the line that has a place ends."""
        line = bisect.bisect_right(self.lines, at)
        if line == len(self.lines):
            return len(self.source)
        end = self.lines[line]
        return end - 2 if self.source[end - 2:end] == b"\r\n" else end - 1

    def replaced(self, start, end, new):
        """The text with new bytes from one place to another."""
        start, end = self.offset(start), self.offset(end)
        return Text(self.source[:start] + new + self.source[max(start, end):])


class Document(Text):
    """A program that an editor shows."""

    def __init__(self, uri, text):
        self.uri, self.text = uri, text
        self.source, self.lines, self.is_ascii = text.source, text.lines, text.is_ascii
        self.program = ADVICE.Program(uri, ick_source.Source(self.source))
        self.statements = self.program.statements

    def statement_at(self, at):
        """The statement that has a place, or that ends there."""
        first = max(0, bisect.bisect_left(self.statements, at, key=lambda one: one.start) - 1)
        return next((one for one in self.statements[first:first + 2] if one.start <= at <= one.end), None)

    def diagnostics(self):
        """The advice: each from its place to the end of its statement in this line."""
        return [{"range": self.range(at, self.end_of(at)), "source": "ick",
                 "severity": ERROR if text.startswith("refused") else
                 INFORMATION if text.startswith(("no GIVE UP", "the library has")) or "--widths" in text else WARNING,
                 "message": text, **self.further(at, text)}
                for at, text in ADVICE.look_over(self.program)]

    def further(self, at, text):
        """The number of the message that an advice is about. If a statement can't be read, also what was expected where
        reading stops.
        """
        told = TOLD.match(text)
        if not told or told[1]:
            return {"code": told[1]} if told else {}
        one = self.statements[int(told[2]) - 1]
        if one.stop is None:
            return {"code": "E000"}
        missing = ick_reasons.missing(one)
        place = {"uri": self.uri, "range": self.range(one.stop, self.end_of(one.stop))}
        return {"code": "E000", "message": text if missing in text else f"{text}\n{missing}",
                "relatedInformation": [{"location": place, "message": missing}] if one.stop != at else []}

    def end_of(self, at):
        line, index = self.line_end(at), bisect.bisect_right(self.statements, at, key=lambda one: one.start)
        end = self.statements[index - 1].end if index else at
        return max(at, min(line, end) if at < end else line)

    def hover(self, at):
        found = ick_hover.hover(self, at)
        return found and (found[0], self.range(*found[1:]))

    def completions(self, at):
        return ick_completion.completions(self, at)

    def line(self, at):
        return bisect.bisect_right(self.lines, at)

    def shown(self, one):
        """The text of a statement in one line."""
        return " ".join(self.source[one.start:one.end].decode("utf-8", "replace").split())[:60]

    def named_at(self, at):
        """The variable or the label, with its places, that stands at a place or ends there."""
        one = self.statement_at(at)
        found = [*ick_pieces.labels(one), *ick_pieces.names(one)] if one else []
        return next((it for ends in (0, 1) for it in found if it.start <= at < it.end + ends), None)

    def label_at(self, at):
        """The label that stands at a place: as a statement's own, or in its body."""
        named = self.named_at(at)
        return named.label if isinstance(named, ick_pieces.Label) else None

    def names_of(self, name):
        """Each place where a statement names a variable."""
        return [it for one in self.statements if ick_pieces.names_it(one, name)
                for it in ick_pieces.names(one) if it.name == name]

    def labels_of(self, label):
        """Each place where a statement names a label or has it."""
        return [it for one in self.statements if one.label == label or one.labels
                for it in ick_pieces.labels(one) if it.label == label]

    def all_of(self, named):
        """Each place of what stands at a place."""
        return self.labels_of(named.label) if isinstance(named, ick_pieces.Label) else self.names_of(named.name)

    def definition(self, label):
        """Where a label is: in this program, or in the library."""
        one = self.program.labelled.get(label)
        if one:
            return {"uri": self.uri, "range": self.label_range(one)}
        for name in ick_library.NAMES if label in ick_library.LABELS else ():
            path = ick_library.path(name)
            library = path and Document(pathlib.Path(path).as_uri(), Text(ick_tool.content(path)))
            if library and label in library.program.labelled:
                return library.definition(label)
        return None

    def label_range(self, one):
        return self.range(one.start, self.source.index(b")", one.start) + 1)

    def references(self, at, declared):
        """Each place where a statement names the variable or the label at a place, and the label itself."""
        named = self.named_at(at)
        return [{"uri": self.uri, "range": self.range(it.start, it.end)} for it in (self.all_of(named) if named else ())
                if declared or not getattr(it, "is_own", False)]

    def renamable(self, at):
        """The range of the variable or the label that a place has, and its name, or None."""
        named = self.named_at(at)
        if named is None or self.lacks(named):
            return None
        return {"range": self.range(named.start, named.end),
                "placeholder": f"({named.label})" if isinstance(named, ick_pieces.Label) else named.name}

    def lacks(self, named):
        """Whether a label is named that no statement has: another name for it would name nothing either."""
        return isinstance(named, ick_pieces.Label) and named.label not in self.program.labelled

    def renamed(self, at, new):
        """The edits that give the variable or the label at a place another number. Raises ValueError if it can't have it."""
        named, number = self.named_at(at), NUMBER.fullmatch(new.strip())
        if named is None:
            raise ValueError("there is no variable and no label")
        if self.lacks(named):
            raise ValueError(f"no statement has the label ({named.label})")
        is_label = isinstance(named, ick_pieces.Label)
        mark = "(" if is_label else named.name[0]
        if not number or new.strip()[0] not in mark + "0123456789" or not 1 <= int(number[1]) <= ick_source.GREATEST:
            raise ValueError(f"{new} is no {'label' if is_label else 'variable'} as {f'({named.label})' if is_label else named.name}"
                             f": numbers go from 1 to {ick_source.GREATEST}")
        value = int(number[1])
        old = named.label if is_label else int(named.name[1:])
        if value != old and (self.labels_of(value) if is_label else self.names_of(f"{mark}{value}")):
            raise ValueError(f"{f'({value})' if is_label else f'{mark}{value}'} is used already")
        return {"changes": {self.uri: [{"range": self.range(*it.digits), "newText": str(value)} for it in self.all_of(named)]}}

    def symbols(self):
        """The statements that have a label."""
        return [{"name": f"({one.label})", "kind": FUNCTION, "range": self.range(one.start, one.end),
                 "detail": self.shown(one),
                 "selectionRange": self.label_range(one)} for one in self.statements if one.label is not None]

    def actions(self, start, end):
        """PLEASE for a statement at these places, for as many as the program needs, and what it lacks of the library."""
        found, wanted = [], ick_source.wanted(self.statements)
        for one in self.statements:
            if one.start <= end and start <= one.end and one.identifier:
                found.append(self.action("Say DO without PLEASE" if one.polite else "Say PLEASE", [one]))
        if wanted:
            chosen = ick_source.to_change(self.statements, wanted)
            text = f"Say PLEASE in {wanted} more" if wanted > 0 else f"Say PLEASE in {-wanted} fewer"
            many = self.action(f"{text} statement{'s' * (len(chosen) > 1)}", chosen)
            found.insert(0, {**many, "isPreferred": True})
        return found + self.mending(start, end) + self.pasting()

    def mending(self, start, end):
        """The actions by which more of a statement at these places is read: a mesh, and the end of a group."""
        found = []
        for one in self.statements:
            if one.start <= end and start <= one.end and not one.read() and not one.abstained and one.identifier:
                for title, lacking in (("Write the number with a mesh", ick_mending.mesh), ("Close the group", ick_mending.group_end)):
                    edits = [{"range": self.range(at, at), "newText": mark.decode()}
                             for at, mark in ick_mending.insertions(one, lacking)]
                    found += [self.change(f"{title}: {', '.join(self.mended(edits))}", edits)] if edits else []
        return found

    def mended(self, edits):
        """What the insertions are: a mesh with its number, or a mark."""
        places = [self.offset(edit["range"]["start"]) for edit in edits]
        return [edit["newText"] + re.match(rb"\d*", self.source[at:])[0].decode() for edit, at in zip(edits, places)]

    def pasting(self):
        """The action that pastes the library's routines, if the program calls any that aren't there."""
        labels, calls = ick_library.labels_of(self.statements)
        if not (calls - labels) & ick_library.labels():
            return []
        joined, start = ick_library.joined(self.source, ick_library.files()), len(ick_library.own(self.source))
        return [] if joined is None else [self.change("Paste the library's routines that are called", [
            {"range": self.range(start, len(self.source)), "newText": joined[start:].decode()}])]

    def action(self, title, statements):
        return self.change(title, [{"range": self.range(one.identifier.start, one.identifier.end),
                                    "newText": "DO" if one.polite else "PLEASE"} for one in statements])

    def change(self, title, edits):
        return {"title": title, "kind": QUICK_FIX, "edit": {"changes": {self.uri: edits}}}
