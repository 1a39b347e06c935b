"""The files that hold wrong bodies, and what each body says."""
import os
import re
from dataclasses import dataclass, field

from planted_lib.repository import PARTS, Crate, read

# one file for each body that the gate tries, and one file for all others of a crate
GATE_FOLDER, FILE = "must-fail", "planted.edits"
NAME = re.compile(r"[a-z0-9]+(?:-[a-z0-9]+)*")
LINE = re.compile(r"(\w+):(?: (.*))?")


@dataclass(frozen=True)
class Change:
    """A text in a file, or in one function of the file, and the text that replaces it."""

    file: str
    function: str
    old: str
    new: str


@dataclass
class Edit:
    """A wrong body as its file has it. A fault says why it cannot be read."""

    name: str
    harm: str = ""
    clause: str = ""
    changes: list[Change] = field(default_factory=list)
    fault: str = ""


class Reader:
    """Reads the lines of one wrong body."""

    def __init__(self, name: str, crate: Crate) -> None:
        self.edit, self.crate = Edit(name), crate
        self.file, self.function, self.old = "", "", ""

    def take(self, word: str, text: str) -> str:
        """Takes a line, and returns what is wrong with it, or ''."""
        if word in ("file", "fn"):
            self.file, _, self.function = text.partition(" ") if word == "fn" else (text.strip(), "", "")
            return "" if self.is_file() else f"there is no file {self.file} below {'/, '.join(PARTS)}/"
        if word == "old":
            self.old = text
            return "" if text and self.file else "an 'old:' line is empty, or above any 'file:' or 'fn:' line"
        if word == "new":
            self.edit.changes.append(Change(self.file, self.function, self.old, text))
            is_pair, self.old = bool(self.old), ""
            return "" if is_pair else "a 'new:' line follows no 'old:' line"
        if word not in ("harm", "clause") or getattr(self.edit, word):
            return f"a line '{word}:' is unknown, or there twice"
        setattr(self.edit, word, text)
        return ""

    def is_file(self) -> bool:
        is_plain = os.path.normpath(self.file) == self.file and self.file.partition("/")[0] in PARTS
        return is_plain and os.path.isfile(f"{self.crate.folder}/{self.file}")

    def end(self, lacks: str) -> Edit:
        """Returns the body. The fault of an earlier line, or of this end, stays."""
        lacks = lacks or ("" if self.edit.changes and not self.old else "it has no 'old:' and 'new:' pair")
        self.edit.fault = self.edit.fault or lacks
        return self.edit


def read_lines(reader: Reader, rows: list[str]) -> None:
    """Hands the lines of one body to its reader, until one is wrong."""
    for row in rows:
        line = LINE.fullmatch(row)
        if row and not row.startswith("#") and not reader.edit.fault:
            reader.edit.fault = reader.take(line[1], line[2] or "") if line else f"a line is not 'WORD: TEXT': {row}"


def edits_of_gate(crate: Crate) -> list[Edit]:
    """Returns the bodies of must-fail/, which `rt ci` tries too."""
    folder, found = f"{crate.folder}/{GATE_FOLDER}", []
    for name in sorted(os.listdir(folder)) if os.path.isdir(folder) else []:
        if not name.endswith(".md"):
            reader = Reader(name.removesuffix(".edit"), crate)
            read_lines(reader, read(f"{folder}/{name}").split("\n"))
            found.append(reader.end(""))
    return found


def edits_of_file(crate: Crate) -> list[Edit]:
    """Returns the bodies of planted.edits."""
    path, found = f"{crate.folder}/{FILE}", []
    parts = re.split(r"^body: *", read(path), flags=re.M) if os.path.isfile(path) else [""]
    for part in parts[1:]:
        name, *rows = part.split("\n")
        reader = Reader(name.strip(), crate)
        read_lines(reader, rows)
        found.append(reader.end("" if reader.edit.harm else "it has no line 'harm:'"))
    head = [row for row in parts[0].split("\n") if row and not row.startswith("#")]
    return found + [Edit(FILE, fault=f"a line is above any 'body:' line: {row}") for row in head]


def edits_of(crate: Crate) -> list[Edit]:
    """Returns all wrong bodies of a crate. A name is of words joined by dashes, and of one body of the crate."""
    edits = [*edits_of_gate(crate), *edits_of_file(crate)]
    names = [edit.name for edit in edits]
    for edit in edits:
        if edit.name != FILE and not NAME.fullmatch(edit.name):
            edit.fault = f"its name is not words of a-z and 0-9 joined by dashes: {edit.name}"
        elif names.count(edit.name) > 1:
            edit.fault = "another body of the crate has its name"
    return edits
