"""Reads wrong bodies: the gate's, one in each file crates/CRATE/must-fail/NAME.edit, and those of further.edits.

A wrong body has a line `file: PATH`, and for each change a line `old: TEXT` and a line `new: TEXT`. The old text is
exactly once in the file. crates/CRATE/further.edits has a block for each wrong body, with an empty line between two. A
block begins with `name: NAME`. It may end with `refused: DATE SUM`, which `further-edits` writes.
"""
import glob
import os


def text_of(path):
    with open(path, "rb") as file:
        return file.read().decode()


class Edit:
    """A wrong body: its name, its lines, and the date and the sum of when it was last refused, or None."""

    def __init__(self, name, lines, refused=None):
        self.name, self.lines, self.refused = name, lines, refused

    def text(self):
        """Returns the text of the file NAME.edit."""
        return "".join(f"{line}\n" for line in self.lines)

    def block(self):
        """Returns the block of further.edits."""
        return f"name: {self.name}\n{self.text()}" + (f"refused: {' '.join(self.refused)}\n" if self.refused else "")

    def applied(self, folder):
        """Returns the one file that is changed in a crate's folder, its text and the changed text, or None if an old
        text isn't there once.
        """
        fields = [line.partition(": ")[::2] for line in self.lines]
        files = {text for word, text in fields if word == "file"}
        if len(files) != 1 or not os.path.isfile(f"{folder}/{min(files)}"):
            return None
        file, old = files.pop(), ""
        was = text = text_of(f"{folder}/{file}")
        for word, part in fields:
            if word == "old":
                old = part
            elif word.rstrip(":") == "new":
                if not old or text.count(old) != 1:
                    return None
                text = text.replace(old, part)
        return file, was, text


def edit_in(block):
    """Returns the wrong body of a block of further.edits."""
    lines = block.strip("\n").split("\n")
    fields = dict(line.partition(": ")[::2] for line in lines)
    refused = tuple(fields["refused"].split()) if "refused" in fields else None
    return Edit(fields["name"], [line for line in lines if not line.startswith(("name: ", "refused: "))], refused)


def further_edits(folder):
    """Returns the wrong bodies of a crate that the gate leaves out."""
    path = f"{folder}/further.edits"
    return [edit_in(block) for block in text_of(path).split("\n\n")] if os.path.isfile(path) else []


def write_further(folder, edits):
    """Writes the wrong bodies of a crate that the gate leaves out."""
    with open(f"{folder}/further.edits.new", "w", encoding="utf-8") as file:
        file.write("\n".join(edit.block() for edit in sorted(edits, key=lambda edit: edit.name)))
    os.replace(f"{folder}/further.edits.new", f"{folder}/further.edits")


def gate_edits(folder):
    """Returns the wrong bodies of a crate that the gate tries."""
    return [Edit(os.path.basename(path)[:-len(".edit")], text_of(path).rstrip("\n").split("\n"))
            for path in sorted(glob.glob(f"{folder}/must-fail/*.edit"))]
