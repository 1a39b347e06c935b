"""The lines of what one shelf sees, a JSON object for each version: reads, checks and compares them."""
import hashlib
import json
import re
from dataclasses import dataclass
from datetime import datetime
from functools import lru_cache

ELEMENT = "[A-Za-z0-9_~-](?:[A-Za-z0-9._~-]*[A-Za-z0-9_~-])?"
PATH = re.compile(f"(?=.{{1,255}}$){ELEMENT}(?:/{ELEMENT})*")
VERSION = re.compile(r"(?=.{1,128}$)v([0-9]+)\.([0-9]+)\.([0-9]+)(?:-([0-9A-Za-z.-]+))?(\+incompatible)?")
TIME = re.compile(r"[0-9]{4}-[0-9]{2}-[0-9]{2}T[0-9]{2}:[0-9]{2}:[0-9]{2}Z")
GO = re.compile(r"[0-9]+\.[0-9]+(?:\.[0-9]+|rc[0-9]+|beta[0-9]+)?")
SUM = re.compile(r"h1:[A-Za-z0-9+/]{43}=")
STAMP = re.compile(r"[0-9]{14}-[0-9a-f]{12}")
SHELVES = ("own", "group", "common")
FIELDS = ("Path", "Version", "Time", "Retracted", "Latest", "GoVersion", "Require", "Shelf", "GoModSum", "ZipSize")
NEEDED = {"Path", "Version", "Require", "Shelf", "GoModSum", "ZipSize"}


class Refused(Exception):
    """Why no page was made."""


@dataclass(slots=True)
class Line:
    """A version that the shelf sees. Without a time or a Go version these are None."""

    path: str
    version: str
    time: str
    is_retracted: bool
    is_latest: bool
    go: str
    requires: list
    shelf: str
    sum: str
    size: int

    def content(self):
        """What tells it from the same version on another shelf."""
        return self.sum, self.size, self.time


def line_of(text):
    """Returns the Line of a line that was checked."""
    return line_with(json.loads(text))


def line_with(fields):
    """Returns the Line with these fields."""
    requires = [(entry["Path"], entry["Version"]) for entry in fields["Require"]]
    return Line(
        fields["Path"],
        fields["Version"],
        fields.get("Time"),
        "Retracted" in fields,
        "Latest" in fields,
        fields.get("GoVersion"),
        requires,
        fields["Shelf"],
        fields["GoModSum"],
        fields["ZipSize"],
    )


def checked(text, place):
    """The Line of a line that anybody may have written. Refuses one whose fields are not of their forms."""
    try:
        found = json.loads(text)
    except (ValueError, RecursionError):
        raise Refused(f"{place}: not a JSON object on a line of its own") from None
    if not isinstance(found, dict) or set(found) - set(FIELDS) or NEEDED - set(found):
        raise Refused(f"{place}: not a JSON object with the fields of a version")
    if wrong := wrong_fields(found):
        raise Refused(f"{place}: {wrong} is not of its form")
    return line_with(found)


def wrong_fields(found):
    """The name of the first field whose value is not of its form, or None."""
    rules = (
        ("Path", is_text(PATH, found["Path"])),
        ("Version", is_text(VERSION, found["Version"])),
        ("Time", "Time" not in found or is_text(TIME, found["Time"])),
        ("Retracted", found.get("Retracted", True) is True),
        ("Latest", found.get("Latest", True) is True),
        ("GoVersion", "GoVersion" not in found or is_text(GO, found["GoVersion"])),
        ("Require", isinstance(found["Require"], list) and all(map(is_requirement, found["Require"]))),
        ("Shelf", found["Shelf"] in SHELVES),
        ("GoModSum", is_text(SUM, found["GoModSum"])),
        ("ZipSize", type(found["ZipSize"]) is int and found["ZipSize"] >= 0),
    )
    return next((name for name, is_right in rules if not is_right), None)


def is_text(form, value):
    return isinstance(value, str) and is_of(form, value)


@lru_cache(maxsize=16_384)
def is_of(form, text):
    return form.fullmatch(text) is not None


def is_requirement(entry):
    if not isinstance(entry, dict) or set(entry) != {"Path", "Version"}:
        return False
    return is_text(PATH, entry["Path"]) and is_text(VERSION, entry["Version"])


@lru_cache(maxsize=16_384)
def precedence(version):
    """A value whose order is that of SemVer, in which `+incompatible` does not count."""
    major, minor, patch, parts, _ = VERSION.fullmatch(version).groups()
    return int(major), int(minor), int(patch), parts is None, identifiers(parts)


def identifiers(parts):
    """The identifiers of a pre-release: numbers are below texts."""
    return [(0, int(it), "") if it.isdigit() else (1, 0, it) for it in parts.split(".")] if parts else []


@lru_cache(maxsize=16_384)
def kind(version):
    """`release`, `pre-release` or `pseudo-version`."""
    _, minor, patch, parts, _ = VERSION.fullmatch(version).groups()
    if parts is None:
        return "release"
    *before, last = parts.split(".")
    forms = (
        not before and minor == patch == "0",
        before == ["0"] and patch != "0",
        len(before) > 1 and before[-1] == "0",
    )
    return "pseudo-version" if any(forms) and is_stamp(last) else "pre-release"


@lru_cache(maxsize=16_384)
def rank(version):
    """A value whose order decides of the latest version: docs/REFERENCE.md, Versions."""
    of_kind = ("pseudo-version", "pre-release", "release").index(kind(version))
    stamp = int(version.removesuffix("+incompatible")[-27:-13]) if of_kind == 0 else 0
    return of_kind, stamp, precedence(version)


def is_before(line, other):
    """Whether a lower version may be the one before another: before a release stand releases only."""
    return kind(other.version) != "release" or kind(line.version) == "release"


def is_stamp(text):
    """Whether the last identifier of a version has a date that exists, a time of day, and the name of a commit."""
    if not STAMP.fullmatch(text):
        return False
    # (Python has no year 0, a leap year as 2000 was)
    day = "2000" + text[4:14] if text.startswith("0000") else text[:14]
    try:
        return datetime.strptime(day, "%Y%m%d%H%M%S").strftime("%S") == text[12:14]
    except ValueError:
        return False


# how goshelf begins a line: a path in this form has no escape of JSON
HEAD = re.compile(rb'\{"Path":"([A-Za-z0-9._~/-]+)","Version":"')


@dataclass(slots=True)
class Part:
    """The lines of a module: its path, the number of the first line, where that stands, their length and their sum."""

    path: str
    number: int
    place: int
    length: int
    sum: str


def parts(file, name, known=()):
    """Yields the Part of each module of a file. Refuses paths that are out of order. `name` names the file, and `known`
    has the modules of the last run by their paths: lines that are as they were are not looked at one by one."""
    file.seek(0)
    place, number, before, text = 0, 1, "", file.readline()
    while text:
        head = HEAD.match(text)
        path = head[1].decode() if head else checked(text, f"{name}:{number}").path
        if path < before:
            raise out_of_order(name, number)
        part = Part(path, number, place, 0, "")
        module = known[path] if head and path in known else None
        found, count = lines_as_before(file, place, text, module) if module else ([text], 1)
        is_known = len(found) > 1
        place, number, before = place + sum(map(len, found)), number + count, path
        while (text := file.readline()) and is_of_path(text, head and head[0], path, f"{name}:{number}"):
            found.append(text)
            place, number, is_known = place + len(text), number + 1, False
        part.length = place - part.place
        part.sum = module.sum if is_known else sum_of(b"".join(found))
        yield part


def lines_as_before(file, place, first, module):
    """Returns the first line of a module and all others, and how many they are, if they are those of the last run;
    otherwise the first one alone, behind which the file stands."""
    rest = file.read(module.length - len(first)) if module.length > len(first) else b""
    if rest.endswith(b"\n") and sum_of(first + rest) == module.sum:
        return [first, rest], module.count
    file.seek(place + len(first))
    return [first], 1


def is_of_path(text, start, path, place):
    """Whether a line is of the module of a path, as the line before, which begins with `start` if goshelf wrote it."""
    if start and text.startswith(start):
        return True
    head = HEAD.match(text)
    return (head[1].decode() if head else checked(text, place).path) == path


def sum_of(content):
    """The sum of the lines of a module."""
    return hashlib.blake2b(content, digest_size=16).hexdigest()


def out_of_order(name, number):
    return Refused(f"{name}:{number}: not above the line before, by path and then by precedence")


def lines_in(file, part, name):
    """Returns the Lines of a module, the lowest version first, once each is checked."""
    file.seek(part.place)
    found, before = [], ()
    for number, text in enumerate(file.read(part.length).removesuffix(b"\n").split(b"\n"), part.number):
        line = checked(text, f"{name}:{number}")
        now = precedence(line.version)
        if now <= before or line.path != part.path:
            raise out_of_order(name, number)
        found.append(line)
        before = now
    return found


# of so many versions below the latest one the pages tell which files changed
BEFORE = 2


def chosen(lines):
    """Returns the versions of a module whose zips are read, each with whether it is read whole: the latest, the one
    whose go.mod says which are retracted, and those before the latest."""
    ruling = max(lines, key=lambda line: rank(line.version))
    shown = next((line for line in lines if line.is_latest), ruling)
    below = [line for line in lines[: lines.index(shown)] if is_before(line, shown)]
    brief = {line.version: line for line in [ruling, *below[-BEFORE:]] if line is not shown}
    return [(shown, True), *((line, False) for line in brief.values())]
