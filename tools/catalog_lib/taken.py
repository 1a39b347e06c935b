"""When goshelf took a version, and by whose key: the lines of publishes.log, which nginx and goshelf-front append."""
import json
import re
from collections import namedtuple
from datetime import datetime, timezone

from catalog_lib.lines import PATH, VERSION, Refused
from catalog_lib.markup import date, html

# the moment in UTC, and the name that published
Taken = namedtuple("Taken", "time name")
# a longer line is none of nginx: a name, a path and a version have some hundred letters each
LINE_MOST = 16_384
# as goshelf-front takes it, without what turns the direction of a text, and whole
NAME = re.compile(r"[^\x00-\x1f\x7f-\x9f\u061c\u200e\u200f\u2028-\u202e\u2066-\u2069\ufffd]{1,128}")
SHELF = re.compile(r"[a-z][a-z0-9-]{0,31}")
# what goshelf answers as it takes a version, and never again for it
PUBLISHED = "201"


def taken_of(name, chain):
    """What the log has of the publishes to some shelves: the Taken of each shelf's word, path and version, and how many
    of its lines are neither a publish nor an order.

    `chain` has the word of each of these shelves. Lines of others are only counted. Where a version was published again
    (after a restore), its last line counts."""
    found, wrong = {}, 0
    try:
        with open(name, "rb") as file:
            for line in lines_in(file):
                told = checked(line)
                wrong += told is None
                if told and told["shelf"] in chain:
                    key = chain[told["shelf"]], told["path"], told["version"]
                    found[key] = Taken(told["time"], told["name"])
    except OSError as error:
        raise Refused(f"{name}: {error.strerror}") from None
    return found, wrong


def lines_in(file):
    """Yields the lines of a file. One that is too long or has no end is empty."""
    while line := file.readline(LINE_MOST):
        is_whole = line.endswith(b"\n")
        while line and not line.endswith(b"\n"):
            line = file.readline(LINE_MOST)
        yield line if is_whole else b""


def checked(line):
    """The publish of a line that anybody may have had nginx write, or {} if it tells of something else. None is no line
    of the log."""
    try:
        told = json.loads(line)
    except (ValueError, RecursionError):
        return None
    if not isinstance(told, dict) or not all(isinstance(it, str) for it in told.values()):
        return None
    if "order" in told or told.get("status", PUBLISHED) != PUBLISHED:
        return {}
    forms = ("name", NAME), ("shelf", SHELF), ("path", PATH), ("version", VERSION)
    if not all(form.fullmatch(told.get(key, "")) for key, form in forms):
        return None
    time = in_utc(told.get("time", ""))
    return {**told, "time": time} if time else None


def in_utc(text):
    """A moment as lines of a shelf have it, or nothing."""
    try:
        moment = datetime.fromisoformat(text)
        return moment.astimezone(timezone.utc).strftime("%Y-%m-%dT%H:%M:%SZ") if moment.tzinfo else ""
    except (ValueError, OverflowError):
        return ""


def published(taken):
    """When it was taken and by whom, for a page."""
    return [minute(taken.time), " ", by(taken.name)] if taken else ""


def when(own, taken):
    """The date of a version that its publisher gave, and when it was taken and by whom, as far as they are known."""
    if not taken:
        return date(own)
    return [date(own), ", published ", published(taken)] if own else ["published ", published(taken)]


def minute(time):
    return html('<time datetime="{}">{} {}</time>', time, time[:10], time[11:16])


def by(name):
    """A name, whose letters may run from right to left."""
    return html('<span class="by">by <bdi>{}</bdi></span>', name) if name else ""
