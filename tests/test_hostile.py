"""What hostile callers send, and the bytes that answer them: over shelves in memory and over a file.

A publish that is cut at each byte; heads and lengths at their limits and beyond; what each key may do on each of eight
shelves, one of them a group, and what it sees; zips that end where a piece ends; 100,000 messages, each in a read
of its own. Memory has one team with one key, so rows of other keys run over the file alone. The suite of the largest
sizes has the largest files and full shelves.
"""

import os
from collections.abc import Sequence

import pytest

from lib.keys import KEY, KEYS
from lib.messages import Dialogue, Row, find_difference, get, number_exchanges, put, read_exchanges, reply
from lib.shelves import (
    AGAIN,
    BAD,
    CONFLICT,
    FORBIDDEN,
    NOT_FOUND,
    NO_MODULE,
    PUBLISHED,
    TOO_LARGE,
    File,
    Memory,
    gomod_sum,
    info,
    run_in_reads,
    zipped,
)
from lib.stores import add_shelf
from lib.tables import PIECE

READER, NOBODY = KEYS["R"], KEYS["N"]
GOMOD = b"module example.com/lib\n"

# a publish, and what shows that nothing of it is in the store
PUT = put("example.com/lib", "v1.0.0", GOMOD)
SEEN = [get("example.com/lib/@v/v1.0.0.mod"), get("example.com/lib/@v/list"), get("-/modules")]
NOTHING = NOT_FOUND + NOT_FOUND + NO_MODULE


def front(*lines: str) -> list[bytes]:
    """Returns a publish with these lines in its head, and a GET after it, which is answered if the stream goes on."""
    head = "\r\n".join([f"PUT /k/{KEY}/example.com/lib/@v/v1.0.0 HTTP/1.1", *lines, "", ""])
    return [head.encode() + GOMOD, get("-/modules", NOBODY)]


def head_of(*lines: str) -> list[bytes]:
    """Returns a GET by an unknown key with these lines in its head, and another after it."""
    head = "\r\n".join([f"GET /k/{NOBODY}/-/modules HTTP/1.1", *lines, "", ""])
    return [head.encode(), get("-/modules", NOBODY)]


def head_of_size(size: int) -> list[bytes]:
    """Returns two such GETs, the first with a line that makes its head this long."""
    return head_of("a: " + "x" * (size - len(head_of("a: ")[0])))


MOD = "Mod-Length: 23"
# a 400 or 413 of a front ends the stream: its own publish and what follows are not read
FRONTS: list[Row] = [
    ("a length with a plus", front(MOD, "Content-Length: +23"), [BAD]),
    ("a length with a leading zero", front(MOD, "Content-Length: 023"), [BAD]),
    ("a length in base 16", front(MOD, "Content-Length: 0x17"), [BAD]),
    ("a length of 11 digits", front(MOD, "Content-Length: 99999999999"), [BAD]),
    ("a length with a minus", front(MOD, "Content-Length: -23"), [BAD]),
    ("a list of lengths", front(MOD, "Content-Length: 23,23"), [BAD]),
    ("a length with a space inside", front(MOD, "Content-Length: 2 3"), [BAD]),
    ("an empty length", front(MOD, "Content-Length:"), [BAD]),
    ("two lengths, the second is right", front(MOD, "Content-Length: 0", "Content-Length: 23"), [BAD]),
    ("two lengths, the first is right", front(MOD, "Content-Length: 23", "Content-Length: 0"), [BAD]),
    ("two lengths, both are right", front(MOD, "Content-Length: 23", "content-length: 23"), [BAD]),
    ("a length of 10 digits", front(MOD, "Content-Length: 9999999999"), [TOO_LARGE]),
    ("a length of one byte too many", front(MOD, "Content-Length: 17825793"), [TOO_LARGE]),
    ("a transfer encoding and a length", front(MOD, "Transfer-Encoding: identity", "Content-Length: 23"), [BAD]),
    ("a transfer encoding", front(MOD, "Transfer-Encoding: identity"), [BAD]),
    ("a head of 16,384 bytes", head_of_size(16_384), [NOT_FOUND, NOT_FOUND]),
    ("a head of 16,385 bytes", head_of_size(16_385), [BAD]),
    ("64 headers", head_of(*["a: b"] * 64), [NOT_FOUND, NOT_FOUND]),
    ("65 headers", head_of(*["a: b"] * 65), [BAD]),
    ("all these publish nothing", SEEN, [NOTHING]),
    (
        "and the right publish is taken",
        front(MOD, "Content-Length: 23")[:1] + [get("-/modules")],
        [PUBLISHED, reply(200, b"example.com/lib\n")],
    ),
]

PATH = "example.com/p"
# the zip of each version, which ends where a piece ends or beside it
ZIPS = {
    "v1.0.0": b"",
    "v1.0.1": b"Z",
    "v1.0.2": b"a" * PIECE,
    "v1.0.3": b"a" * PIECE + b"b",
    "v1.0.4": b"a" * PIECE + b"b" * PIECE + b"c",
}
OTHER_ZIPS = [
    ("one byte, not none", "v1.0.0", b"Z"),
    ("another byte", "v1.0.1", b"Y"),
    ("no byte, not one", "v1.0.1", b""),
    ("another last byte of a full piece", "v1.0.2", b"a" * (PIECE - 1) + b"x"),
    ("another byte behind a full piece", "v1.0.3", b"a" * PIECE + b"x"),
    ("another last byte of the first piece", "v1.0.4", b"a" * (PIECE - 1) + b"x" + b"b" * PIECE + b"c"),
    ("another first byte of the second piece", "v1.0.4", b"a" * PIECE + b"x" + b"b" * (PIECE - 1) + b"c"),
    ("another last piece", "v1.0.4", b"a" * PIECE + b"b" * PIECE + b"x"),
    ("the pieces in another order", "v1.0.4", b"b" * PIECE + b"a" * PIECE + b"c"),
    ("a byte less", "v1.0.4", b"a" * PIECE + b"b" * PIECE),
    ("a byte more", "v1.0.4", b"a" * PIECE + b"b" * PIECE + b"cc"),
]


def publish(version: str, zip_bytes: bytes) -> bytes:
    return put(PATH, version, f"module {PATH}\n".encode(), zip_bytes)


PIECES: list[Row] = [
    *[
        (f"a zip of {len(zip_bytes)} bytes", [publish(version, zip_bytes)], [PUBLISHED])
        for version, zip_bytes in ZIPS.items()
    ],
    *[
        (f"comes back, {len(zip_bytes)} bytes", [get(f"{PATH}/@v/{version}.zip")], [zipped(zip_bytes)])
        for version, zip_bytes in ZIPS.items()
    ],
    *[
        (f"is the same again, {len(zip_bytes)} bytes", [publish(version, zip_bytes)], [AGAIN])
        for version, zip_bytes in ZIPS.items()
    ],
    *[(f"conflicts: {what}", [publish(version, zip_bytes)], [CONFLICT]) for what, version, zip_bytes in OTHER_ZIPS],
]

# each shelf, its key that publishes, and its key that reads: teams of no group, those of the group, the group, and
# common
ALONE = [
    ("alpha", KEY, READER),
    ("beta", "betakey000000001", "betareader000001"),
    ("a", "0000000000000000", "0000000000000001"),
    ("z-345678901234567890123456789012", "zzzzzzzzzzzzzzzz", "zzzzzzzzzzzzzzz0"),
]
MEMBERS = [("gamma", "gammakey00000001", "gammareader00001"), ("delta", "deltakey00000001", "deltareader00001")]
GROUP = ("platform", "platformkey00001", "platformreader01")
TOP = ("common", "commonkey0000001", "commonreader0001")
SHELVES = [*ALONE, *MEMBERS, GROUP, TOP]
OWN = "example.com/own"
OWN_GOMOD = f"module {OWN}\n".encode()
LIST = reply(200, b"v1.0.0\nv1.1.0-rc.1\nv3.0.0+incompatible\n")
LATEST = info("v3.0.0+incompatible")
MODULES = reply(200, f"{OWN}\n".encode())


def own(version: str, key: str, zip_bytes: bytes = b"", time: str = "") -> bytes:
    """Returns a publish on the shelf of the key."""
    return put(OWN, version, OWN_GOMOD, zip_bytes, key, time)


def by_both(name: str, target: str, keys: Sequence[str], wanted: bytes) -> Row:
    """Returns a row whose GET is answered alike to each of the keys."""
    return name, [get(target, key) for key in keys], [wanted] * len(keys)


def rights(shelf: str, key: str, reader: str) -> list[Row]:
    """Returns the rows of the keys of a shelf. The zip is the key that publishes it."""
    zip_bytes, keys = key.encode(), (key, reader)
    time = "2024-02-29T23:59:59Z"
    rows = [
        by_both("sees no go.mod", f"{OWN}/@v/v1.0.0.mod", keys, NOT_FOUND),
        by_both("sees no zip", f"{OWN}/@v/v1.0.0.zip", keys, NOT_FOUND),
        by_both("sees no list", f"{OWN}/@v/list", keys, NOT_FOUND),
        by_both("sees no module", "-/modules", keys, NO_MODULE),
        (
            "the reader publishes nothing",
            [own("v1.0.0", reader, zip_bytes), get(f"{OWN}/@v/v1.0.0.mod", key)],
            [FORBIDDEN, NOT_FOUND],
        ),
        ("publishes a release", [own("v1.0.0", key, zip_bytes)], [PUBLISHED]),
        ("publishes it again", [own("v1.0.0", key, zip_bytes)], [AGAIN]),
        ("publishes another zip", [own("v1.0.0", key, b"another zip")], [CONFLICT]),
        ("publishes a pre-release", [own("v1.1.0-rc.1", key, b"T", time)], [PUBLISHED]),
        ("publishes a pseudo-version", [own("v0.0.0-20240101000000-aaaaaaaaaaaa", key)], [PUBLISHED]),
        ("publishes an incompatible version", [own("v3.0.0+incompatible", key)], [PUBLISHED]),
        ("the reader publishes no version again", [own("v1.0.0", reader, zip_bytes)], [FORBIDDEN]),
        by_both("sees the go.mod", f"{OWN}/@v/v1.0.0.mod", keys, reply(200, OWN_GOMOD)),
        by_both("sees the zip", f"{OWN}/@v/v1.0.0.zip", keys, zipped(zip_bytes)),
        by_both("sees the info", f"{OWN}/@v/v1.0.0.info", keys, info("v1.0.0")),
        by_both("sees the time", f"{OWN}/@v/v1.1.0-rc.1.info", keys, info("v1.1.0-rc.1", time)),
        by_both("sees the list", f"{OWN}/@v/list", keys, LIST),
        by_both("sees the latest", f"{OWN}/@latest", keys, LATEST),
        by_both("sees the module", "-/modules", keys, MODULES),
        by_both("sees the sum", f"-/gosum/{OWN}/@v/v1.0.0", keys, reply(200, gomod_sum(OWN, "v1.0.0", OWN_GOMOD))),
    ]
    return [(f"{shelf}: {name}", requests, wanted) for name, requests, wanted in rows]


LATE = "1234567890123456789012345678901234567890123456789012345678901234"
MEMBER = "member1234567890123456789012345678901234567890123456789012345678"
BETA, BETA_READER = ALONE[1][1:]
GAMMA, GAMMA_READER = MEMBERS[0][1:]
PLATFORM, PLATFORM_READER = GROUP[1:]
COMMON, COMMON_READER = TOP[1:]


def came_last(name: str, key: str, parent: str, zip_bytes: bytes, more: bytes, others: tuple[str, ...]) -> list[Row]:
    """Returns the rows of the key of a team that came last: it sees what its parent published with this zip, conflicts
    with it or repeats it, and publishes another version, with one more zip, which others do not see."""
    version = f"{OWN}/@v/v1.0.1.zip"
    return [
        (
            f"{name}: sees {parent}",
            [get(f"{OWN}/@v/v1.0.0.zip", key), get(f"{OWN}/@v/list", key)],
            [zipped(zip_bytes), LIST],
        ),
        (f"{name}: conflicts with {parent}", [own("v1.0.0", key, b"another zip")], [CONFLICT]),
        (f"{name}: repeats what {parent} has", [own("v1.0.0", key, zip_bytes)], [AGAIN]),
        (f"{name}: publishes its own", [own("v1.0.1", key, more), get(version, key)], [PUBLISHED, zipped(more)]),
        by_both(f"{name}: the others do not see it", version, others, NOT_FOUND),
    ]


# once common has published too, each shelf goes on seeing its own; of two teams that came last, each with a key of 64
# bytes, `late` sees common, and `member`, which is of the group, sees the group
AFTER: list[Row] = [
    *[
        by_both(f"{shelf}: still sees its own", f"{OWN}/@v/v1.0.0.zip", keys, zipped(keys[0].encode()))
        for shelf, *keys in SHELVES
    ],
    ("beta: sees its own list", [get(f"{OWN}/@v/list", BETA_READER)], [LIST]),
    ("beta: sees its own latest", [get(f"{OWN}/@latest", BETA_READER)], [LATEST]),
    ("beta: sees one module", [get("-/modules", BETA_READER)], [MODULES]),
    *came_last("late", LATE, "common", COMMON.encode(), b"Z", (BETA, COMMON, COMMON_READER, GAMMA, PLATFORM, MEMBER)),
    ("member: conflicts with the group, by common's zip", [own("v1.0.0", MEMBER, COMMON.encode())], [CONFLICT]),
    *came_last(
        "member",
        MEMBER,
        "the group",
        PLATFORM.encode(),
        b"M",
        (BETA, COMMON, GAMMA, GAMMA_READER, PLATFORM, PLATFORM_READER),
    ),
    (
        "member: the group publishes it too",
        [own("v1.0.1", PLATFORM, b"P"), get(f"{OWN}/@v/v1.0.1.zip", MEMBER)],
        [PUBLISHED, zipped(b"M")],
    ),
    by_both("gamma: sees the group's", f"{OWN}/@v/v1.0.1.zip", (GAMMA, GAMMA_READER, PLATFORM_READER), zipped(b"P")),
    ("gamma: the reader publishes nothing", [own("v1.0.2", GAMMA_READER)], [FORBIDDEN]),
    by_both("beta: does not", f"{OWN}/@v/v1.0.1.zip", (BETA, BETA_READER, COMMON), NOT_FOUND),
    ("an unknown key sees nothing", [get(f"{OWN}/@v/v1.0.0.zip", NOBODY)], [NOT_FOUND]),
]


CUTS: list[Row] = [
    *[(f"a publish of 121 bytes, cut at {end}", [PUT[:end]], [BAD]) for end in range(1, 121)],
    ("all these publish nothing", SEEN, [NOTHING]),
]
over_both = pytest.mark.parametrize("store", ["--mem", "--db"], ids=["memory", "a file"], indirect=True)


@pytest.fixture(scope="class")
def store(request: pytest.FixtureRequest, class_folder: str) -> Memory | File:
    if request.param == "--mem":
        return Memory()
    return File(os.path.join(class_folder, "shelves.db"), ("alpha", KEY, READER))


@pytest.fixture(scope="class")
def dialogue(request: pytest.FixtureRequest, store: Memory | File) -> Dialogue:
    """The rows of a class over a store."""
    return Dialogue(request.cls.ROWS, store.answer)


def test_publish_has_121_bytes() -> None:
    assert len(PUT) == 121


@over_both
class TestCuts:
    ROWS = read_exchanges(CUTS)

    @pytest.mark.parametrize(**number_exchanges(ROWS))
    def test_row(self, dialogue: Dialogue, number: int) -> None:
        assert not dialogue.find_difference(number)


@over_both
class TestFronts:
    ROWS = read_exchanges(FRONTS)

    @pytest.mark.parametrize(**number_exchanges(ROWS))
    def test_row(self, dialogue: Dialogue, number: int) -> None:
        assert not dialogue.find_difference(number)


@over_both
class TestPieces:
    ROWS = read_exchanges(PIECES)

    @pytest.mark.parametrize(**number_exchanges(ROWS))
    def test_row(self, dialogue: Dialogue, number: int) -> None:
        assert not dialogue.find_difference(number)


@over_both
class TestManyMessages:
    def test_100_001_messages_each_in_a_read_of_its_own(self, store: Memory | File) -> None:
        first = put("example.com/lib", "v1.0.0", GOMOD, b"Z")
        five = [first, get("example.com/lib/@v/v1.0.0.mod", store.reader), get("example.com/lib/@v/v1.0.0.mod", NOBODY)]
        five += [get("example.com/lib/@v/v1.0.0.info"), get("example.com/lib/@v/list")]
        wanted = AGAIN + reply(200, GOMOD) + NOT_FOUND + info("v1.0.0") + reply(200, b"v1.0.0\n")
        status, output, errors = run_in_reads(["answer", *store.words], [first, *five * 20_000])
        assert (status, errors) == (0, "")
        assert not find_difference(output, PUBLISHED + wanted * 20_000)


RIGHT_ROWS = read_exchanges([row for shelf in SHELVES for row in rights(*shelf)])
AFTER_ROWS = read_exchanges(AFTER)


def make_eight_shelves(file: str) -> File:
    members = ((*member, GROUP[0]) for member in MEMBERS)
    return File(file, *ALONE, *members, TOP, groups=[GROUP])


class TestRights:
    """What each key may do and sees, of eight shelves, one after another."""

    @pytest.fixture(scope="class")
    def dialogue(self, class_folder: str) -> Dialogue:
        store = make_eight_shelves(os.path.join(class_folder, "rights.db"))
        return Dialogue(RIGHT_ROWS, store.answer)

    @pytest.mark.parametrize(**number_exchanges(RIGHT_ROWS))
    def test_row(self, dialogue: Dialogue, number: int) -> None:
        assert not dialogue.find_difference(number)


class TestRightsAfterAll:
    """What keys may do and see once each shelf has published, and two teams came last."""

    @pytest.fixture(scope="class")
    def dialogue(self, class_folder: str) -> Dialogue:
        store = make_eight_shelves(os.path.join(class_folder, "rights.db"))
        store.answer([request for row in RIGHT_ROWS for request in row.requests])
        add_shelf(store.file, "late", LATE)
        add_shelf(store.file, "member", MEMBER, group=GROUP[0])
        return Dialogue(AFTER_ROWS, store.answer)

    @pytest.mark.parametrize(**number_exchanges(AFTER_ROWS))
    def test_row(self, dialogue: Dialogue, number: int) -> None:
        assert not dialogue.find_difference(number)
