"""The files of /etc/nginx/goshelf: who may log in, whose paths are whose, what was taken out, and what nginx reads.

None of them has a key. Each is written whole, beside its place, and then renamed.
"""

import contextlib
import datetime
import json
import os
import re
import time
import unicodedata
from collections.abc import Iterable, Mapping
from typing import Any

FOLDER = "/etc/nginx/goshelf"
NAME_LINE = re.compile(
    r"([0-9a-f]{64}|[0-9a-f]{16})\t([^\t\n\r]+)\t(|\d{4}-\d\d-\d\d(?:T\d\d:\d\d)?)(?:\t(|machine)(?:\t([^\t\n\r]+))?)?"
)
# most characters of a name, and of what a person calls a machine
LONGEST_NAME, LONGEST_LABEL = 128, 64
# what a line of names may have in the place of either, also by a rule of before, so that it can be removed
WORD = re.compile(r"[^\x00-\x1f\x7f-\x9f\u2028\u2029\u202a-\u202e\u2066-\u2069]{1,128}")
LABEL = re.compile(WORD.pattern.replace("128", "64"))
# characters that Python calls printable, and that show nothing
UNSEEN = re.compile("[\u034f\u115f\u1160\u17b4\u17b5\u180b-\u180f\u2800\u3164\ufe00-\ufe0f\uffa0\U000e0100-\U000e01ef]")
SHELF = re.compile(r"[a-z][a-z0-9-]{0,31}")
HOST = re.compile(r"[a-z0-9-]+(\.[a-z0-9-]+)+")
ELEMENT = re.compile(r"[a-z0-9_~-]([a-z0-9._~-]*[a-z0-9_~-])?")
VERSION = re.compile(r"v[0-9][A-Za-z0-9.+-]*")
FORM = 'not of the form {"PATH": ["SHELF", ..], ..}'
# the shelves that publish at each path of the company, in small letters
Owners = dict[str, list[str]]
# shelf, right and SHA-256, if goshelf prints it, of each key that goshelf has, by its fingerprint
Known = dict[str, tuple[str, str, str]]
# a file that is there until nginx has read goshelf.json
UNREAD = "unread"
# the last day of a name that was removed, until goshelf has revoked the key
REMOVED = "1970-01-01"


class Refused(Exception):
    """Why it was not done."""


class BadUsage(Exception):
    """A word that is not one of the usage."""


def read(name: str) -> str:
    """Returns the text of a file of the folder."""
    try:
        with open(f"{FOLDER}/{name}", encoding="utf-8") as file:
            return file.read()
    except (OSError, UnicodeDecodeError) as error:
        raise Refused(f"{FOLDER}/{name} cannot be read: {error}") from None


def write(name: str, text: str) -> None:
    """Writes a file of the folder."""
    replace(f"{FOLDER}/{name}", text)


def replace(name: str, text: str, mode: int = 0o600) -> None:
    """Puts a file in the place of another, whole or not at all."""
    if os.path.islink(name):
        raise Refused(f"{name} is a link, and a new file would take its place: put the file itself there")
    descriptor = os.open(f"{name}.new", os.O_WRONLY | os.O_CREAT | os.O_TRUNC, mode)
    with open(descriptor, "w", encoding="utf-8") as file:
        os.fchmod(descriptor, mode)
        file.write(text)
        file.flush()
        os.fsync(descriptor)
    os.replace(f"{name}.new", name)


def now() -> datetime.datetime:
    return datetime.datetime.now(datetime.timezone.utc)


def day(days: int) -> str:
    """Returns the day that is a number of days from now, as names has it."""
    try:
        return (now().date() + datetime.timedelta(days)).isoformat()
    except OverflowError:
        raise BadUsage(f"--days {days} ends behind all days") from None


def last(text: str, place: str = "") -> str:
    """Returns a last day or minute, or nothing."""
    for form in ("%Y-%m-%d", "%Y-%m-%dT%H:%M") if text else ():
        with contextlib.suppress(ValueError):
            return datetime.datetime.strptime(text, form).strftime(form)
    if text:
        raise Refused(f"{place}no day YYYY-MM-DD: {text}")
    return ""


def is_seen(letter: str) -> bool:
    """Whether a character shows something, if only a gap. Controls, marks of direction and halves of others do not."""
    return unicodedata.category(letter) == "Zs" or letter.isprintable() and not UNSEEN.match(letter)


def is_name(text: str, longest: int = LONGEST_NAME) -> bool:
    """Whether a text can be a name, which is one word of a line of a log, in quotes. No two look alike by what does
    not show."""
    return 0 < len(text) <= longest and text == text.strip() and all(map(is_seen, text))


def is_label(text: str) -> bool:
    """Whether a text can be what a person calls a machine."""
    return is_name(text, LONGEST_LABEL)


def is_over(until: str) -> bool:
    """Whether a last day or minute is over."""
    return bool(until) and until < now().isoformat()[: len(until)]


class Name:
    """A line of names: a key, by its SHA-256 or the 16 digits of it that goshelf prints, whose it is, and what its
    owner calls the machine that has it."""

    def __init__(
        self, digest: str, name: str, until: str = "", machine: str | None = None, label: str | None = None
    ) -> None:
        self.digest, self.fingerprint, self.name, self.until = digest, digest[:16], name, until
        self.machine, self.label = machine, label

    def is_over(self) -> bool:
        return is_over(self.until)

    def line(self) -> str:
        """Returns the line."""
        words = [self.digest, self.name, self.until]
        if self.machine or self.label:
            words.append(self.machine or "")
        return "\t".join([*words, self.label] if self.label else words) + "\n"


def names() -> list[Name]:
    """Returns the lines of names."""
    found: list[Name] = []
    seen: set[str] = set()
    for number, line in enumerate(read("names").split("\n"), 1):
        if not line or line.startswith("#"):
            continue
        words = NAME_LINE.fullmatch(line)
        if not words or not WORD.fullmatch(words[2]) or words[5] and not LABEL.fullmatch(words[5]):
            raise Refused(f"names:{number}: not of the form SHA256<tab>NAME<tab>LAST DAY")
        last(words[3], f"names:{number}: ")
        if words[1][:16] in seen:
            raise Refused(f"names:{number}: {words[1][:16]} has a line already")
        seen.add(words[1][:16])
        found.append(Name(*words.groups()))
    return found


def put_names(lines: Iterable[Name]) -> None:
    """Writes names, unless it has these lines."""
    text = "".join(line.line() for line in lines)
    if text != read("names"):
        write("names", text)


def wrong_path(path: str) -> str:
    """Returns why a path cannot be the company's, or nothing."""
    host, *rest = path.lower().split("/")
    if "!" in path or "%" in path:
        return f"{path} is escaped: write it as in a go.mod"
    if not HOST.fullmatch(host) or host.startswith("-") or not all(map(ELEMENT.fullmatch, rest)):
        return f"{(path if path.isprintable() else repr(path)) or 'an empty text'} is not a module path"
    return ""


def wrong_shelves(shelves: Any) -> str:
    """Returns why a list cannot be that of the shelves that publish at a path, or nothing."""
    if not isinstance(shelves, list) or not all(isinstance(shelf, str) for shelf in shelves):
        return FORM
    if odd := [shelf for shelf in shelves if not SHELF.fullmatch(shelf)]:
        return f"{odd[0]!r} is no shelf; [] is a path where nobody publishes"
    if twice := [shelf for shelf in shelves if shelves.count(shelf) > 1]:
        return f"{twice[0]} is listed twice"
    return ""


def owner_faults(text: str) -> list[str]:
    """Returns the faults of the text of owners.json."""
    try:
        pairs = json.loads(text, object_pairs_hook=list)
    except ValueError as error:
        return [str(error)]
    if not isinstance(pairs, list) or not pairs:
        return ["it names no path, so every module would be public"]
    if not all(isinstance(pair, tuple) for pair in pairs):
        return [FORM]
    paths = [path.lower() for path, _ in pairs]
    found = [(path, why) for path, shelves in pairs for why in (wrong_path(path), wrong_shelves(shelves)) if why]
    found += [(path, "it is there twice") for at, (path, _) in enumerate(pairs) if path.lower() in paths[:at]]
    return [why if "module path" in why or "escaped" in why else f"{path}: {why}" for path, why in found]


def owners() -> Owners:
    """Returns the company's paths, and the shelves that publish there."""
    text = read("owners.json")
    if faults := owner_faults(text):
        raise Refused("\ngoshelf-front: ".join(f"owners.json: {fault}" for fault in faults))
    return {path.lower(): shelves for path, shelves in json.loads(text).items()}


def taken_out() -> list[tuple[str, str, list[str]]]:
    """Returns each version that was taken out: path, version, and the shelves, or none for all."""
    try:
        lines = [line.split() for line in read("taken-out").split("\n") if line and not line.startswith("#")]
    except Refused:
        if os.path.exists(f"{FOLDER}/taken-out"):
            raise
        return []
    if wrong := [words for words in lines if len(words) < 2]:
        raise Refused(f"taken-out: not of the form PATH VERSION SHELF..: {' '.join(wrong[0])}")
    return [(path, version, shelves) for path, version, *shelves in lines]


def target_of(path: str, version: str) -> str:
    """Returns the target of a version, without the end of a file's name."""
    return re.sub("[A-Z]", lambda letter: "!" + letter[0].lower(), f"/{path}/@v/{version}")


def front() -> dict[str, Any]:
    """Returns what nginx has now, or nothing."""
    try:
        return json.loads(read("goshelf.json"))
    except (Refused, ValueError):
        return {}


def put_front(settings: Mapping[str, Any]) -> None:
    """Writes what nginx is to have."""
    write("goshelf.json", json.dumps(settings, ensure_ascii=False, indent=1) + "\n")


def user_of(line: Name, shelf: str, right: str, digest: str) -> dict[str, Any]:
    """Returns a key as nginx knows it."""
    digest = digest or (line.digest if len(line.digest) == 64 else "")
    more = {"sha256": digest, "until": line.until, "machine": bool(line.machine)}
    return {"name": line.name, "shelf": shelf, "right": right, **{key: value for key, value in more.items() if value}}


def made(lines: Iterable[Name], known: Known, paths: Owners, generation: int | None = None) -> dict[str, Any]:
    """Returns the new goshelf.json: names, the keys of goshelf, the company's paths and what was taken out."""
    before, users = front(), {}
    for line in lines:
        if line.fingerprint in known and not line.is_over():
            users[line.fingerprint] = user_of(line, *known[line.fingerprint])
    settings = {
        "serial": before.get("serial", 0),
        "generation": generation or before.get("generation", 1),
        "deepest": max(path.count("/") + 1 for path in paths),
        "owners": paths,
        "users": users,
    }
    if gone := taken_out():
        settings["gone"] = {target_of(path, version): shelves for path, version, shelves in gone}
    if os.path.exists(f"{FOLDER}/before/users.map"):
        settings["before"] = True
    if settings != before:
        now_ms = time.time_ns() // 1_000_000
        settings["serial"] = now_ms + (now_ms == settings["serial"])
    return settings
