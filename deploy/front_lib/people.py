"""People, by their words and by a list."""

import csv
import io
import os
from collections.abc import Mapping
from typing import TextIO

from front_lib import files
from front_lib.files import Refused

# right and last day, by name and shelf
People = dict[tuple[str, str], tuple[str, str]]
RIGHTS = ("read", "publish")
# the people of the last list, in its form
LAST = f"{files.FOLDER}/people"


def checked(place: str, name: str, shelf: str, right: str, until: str = "") -> tuple[str, str, str, str]:
    """Returns the words of a person. Refuses those that are not of their forms."""
    if not files.is_name(name):
        said = "1 to 128 characters, none of them a tab, an end of line or one that does not show"
        raise Refused(f"{place}a name has {said}: {name!a}")
    if not files.SHELF.fullmatch(shelf):
        raise Refused(f"{place}no shelf has the name {shelf!r}")
    if right not in RIGHTS:
        raise Refused(f"{place}a right is read or publish, not {right!r}")
    return name, shelf, right, files.last(until, place)


def listed(name: str) -> People:
    """Returns the people of a file, at least one."""
    found = read(name)
    if not found:
        raise Refused(f"{name} names nobody")
    return found


def read(name: str) -> People:
    """Returns the people of a file."""
    try:
        with open(name, encoding="utf-8-sig", newline="") as file:
            rows = list(enumerate(csv.reader(file, strict=True), 1))
    except (OSError, UnicodeDecodeError, csv.Error) as error:
        raise Refused(f"{name} cannot be read: {error}") from None
    found: People = {}
    for number, row in rows:
        words = [word.strip() for word in row]
        if not any(words) or words[0].startswith("#"):
            continue
        if not 3 <= len(words) <= 4:
            raise Refused(f"{name}:{number}: not of the form NAME,SHELF,RIGHT or NAME,SHELF,RIGHT,LAST DAY")
        person, shelf, right, until = checked(f"{name}:{number}: ", *words)
        if (person, shelf) in found:
            raise Refused(f"{name}:{number}: {person} has a line for {shelf} already")
        found[person, shelf] = right, until
    return found


def last() -> People:
    """Returns the people of the last list, and who revoked a key since."""
    return read(LAST) if os.path.exists(LAST) else {}


def keep(people: Mapping[tuple[str, str], tuple[str, str]]) -> None:
    """Writes who may have keys, also those who have none."""
    text = io.StringIO()
    csv.writer(text, lineterminator="\n").writerows((*who, *what) for who, what in people.items())
    files.replace(LAST, text.getvalue())


def is_listed(name: str) -> bool:
    return any(person == name for person, _ in last())


def drop(name: str) -> bool:
    """Removes a name from the last list. Returns whether it was there."""
    people = last()
    left = {who: what for who, what in people.items() if who[0] != name}
    if len(left) == len(people):
        return False
    keep(left)
    return True


def rights(name: str) -> dict[str, tuple[str, str]]:
    """Returns what a person may have keys for: right and last day, by shelf. The last list counts, then the person's
    keys."""
    found: dict[str, tuple[str, str]] = {}
    for user in files.front().get("users", {}).values():
        own = user["right"], user.get("until", "")
        if user["name"] == name and not user.get("machine"):
            found[user["shelf"]] = max(own, found.get(user["shelf"], own), key=lambda right: right[1] or "9")
    found.update({shelf: what for (who, shelf), what in last().items() if who == name})
    return {shelf: what for shelf, what in found.items() if not files.is_over(what[1])}


def new_file(name: str) -> TextIO:
    """Opens a new file that only its owner reads, for lines of ~/.netrc."""
    try:
        return os.fdopen(os.open(name, os.O_WRONLY | os.O_CREAT | os.O_EXCL, 0o600), "w", encoding="utf-8")
    except OSError as error:
        raise Refused(f"{name} cannot be made: {error.strerror}") from None
