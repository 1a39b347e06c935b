"""Nothing is refused without a cause: what has the largest size is taken, and one more is refused.

Over shelves in memory and over a file, each reply byte for byte: a go.mod of 1,048,576 bytes with a zip of 16,777,216,
fetched back, and each a byte longer; go.mod files of very many lines and words; a stream of more than 100 MiB; 4,096
versions of a path, and what a full shelf still does. The suite of hostile callers has 100,000 messages and what each
key may do.
"""

import os

import pytest

from lib.keys import KEY, KEYS, PLATFORM, SHELVES
from lib.messages import Dialogue, Row, get, number_exchanges, put, read_exchanges, reply
from lib.shelves import (
    AGAIN,
    CONFLICT,
    FULL,
    NOT_FOUND,
    NO_MODULE,
    PUBLISHED,
    TOO_LARGE,
    File,
    Memory,
    gomod_sum,
    info,
    zipped,
)

GOMOD, ZIP = 1_048_576, 16_777_216
READER, BETA, COMMON, GROUP = KEYS["R"], KEYS["B"], KEYS["C"], KEYS["P"]


def make_gomod(path: str, size: int) -> bytes:
    """Returns a go.mod of this many bytes, most of them a comment."""
    text = f"module {path}\n//".encode()
    return (text + b"comment " * (size // 8))[: size - 1] + b"\n"


def make_zip(size: int) -> bytes:
    """Returns a zip whose text repeats each 67 bytes, which is no place where a page ends."""
    unit = b"a piece of 67 bytes, so that it ends at no place where a page ends "
    return (unit * (size // len(unit) + 1))[:size]


def list_too_large(zip_size: int) -> list[Row]:
    """Returns the rows of a go.mod or a zip of a byte too many, after which nothing is published."""
    path, gomod = "example.com/m", make_gomod("example.com/m", GOMOD)
    mod, modules = get(f"{path}/@v/v1.0.0.mod"), get("-/modules")
    return [
        (
            "a go.mod of one byte too many",
            [put(path, "v1.0.0", make_gomod(path, GOMOD + 1)), mod, modules],
            [TOO_LARGE, NOT_FOUND, NO_MODULE],
        ),
        (
            "a go.mod of one byte too many and a zip of one less than the most",
            [put(path, "v1.0.0", make_gomod(path, GOMOD + 1), make_zip(zip_size - 1)), modules],
            [TOO_LARGE, NO_MODULE],
        ),
        (
            "a go.mod of one byte less than the most and a zip of one too many",
            [put(path, "v1.0.0", make_gomod(path, GOMOD - 1), make_zip(zip_size + 1)), modules],
            [TOO_LARGE, NO_MODULE],
        ),
        (
            "both, and one byte too many, which ends the stream",
            [put(path, "v1.0.0", gomod, make_zip(zip_size + 1)), modules],
            [TOO_LARGE],
        ),
        ("all these publish nothing", [modules, mod], [NO_MODULE, NOT_FOUND]),
    ]


def list_sizes(reader: str, zip_size: int = ZIP) -> list[Row]:
    """Returns the rows of the largest files, and of each with a byte more."""
    path, gomod, zip_bytes = "example.com/m", make_gomod("example.com/m", GOMOD), make_zip(zip_size)
    other, small = zip_bytes[:-1] + b"!", f"module {path}\n".encode()
    return [
        *list_too_large(zip_size),
        (
            "the largest go.mod and the largest zip",
            [put(path, "v1.0.0", gomod, zip_bytes), get("-/modules")],
            [PUBLISHED, reply(200, f"{path}\n".encode())],
        ),
        ("the go.mod comes back", [get(f"{path}/@v/v1.0.0.mod")], [reply(200, gomod)]),
        ("the zip comes back", [get(f"{path}/@v/v1.0.0.zip", reader)], [zipped(zip_bytes)]),
        ("they are the same again", [put(path, "v1.0.0", gomod, zip_bytes)], [AGAIN]),
        ("another last byte conflicts", [put(path, "v1.0.0", gomod, other)], [CONFLICT]),
        ("the sum", [get(f"-/gosum/{path}/@v/v1.0.0")], [reply(200, gomod_sum(path, "v1.0.0", gomod))]),
        ("the latest", [get(f"{path}/@latest")], [info("v1.0.0")]),
        (
            "a small go.mod and a zip of one byte too many",
            [put(path, "v1.1.0", small, make_zip(zip_size + 1)), get(f"{path}/@v/v1.1.0.zip"), get(f"{path}/@v/list")],
            [TOO_LARGE, NOT_FOUND, reply(200, b"v1.0.0\n")],
        ),
    ]


def make_block(path: str, word: str, lines: list[bytes]) -> bytes:
    """Returns a go.mod with a block of these lines."""
    return f"module {path}\n{word} (\n".encode() + b"".join(lines) + b")\n"


def bad(line: int) -> bytes:
    return reply(422, f"bad-gomod {line}\n".encode())


def make_bad_row(name: str, text: bytes, line: int) -> Row:
    """Returns the row of a publish whose go.mod does not read. Nothing is published then."""
    path = "example.com/t"
    gomod = f"module {path}\n".encode() + text
    return (
        name,
        [put(path, "v1.0.0", gomod), get(f"{path}/@v/v1.0.0.mod"), get(f"{path}/@v/list")],
        [bad(line), NOT_FOUND, NOT_FOUND],
    )


R, S = "example.com/r", "example.com/s"
SAME = make_block(R, "require", [b"example.com/x v1.0.0\n"] * 20_000)
WRONG = make_block(R, "require", [b"example.com/x v1.0.0\n"] * 19_999 + [b"example.com/x v1.0\n"])
EACH = make_block(R, "require", [b"\texample.com/r%05d v1.0.0\n" % n for n in range(20_000)])
RETRACTED = make_block(S, "retract", [b"v1.0.0\nv1.0.1\nv1.0.2\nv1.0.3\nv1.1.0\n"] * 20_000)
RANGES = make_block(S, "retract", [b"\t[v1.%d.0, v1.%d.9]\n" % (n + 2, n + 2) for n in range(40_000)])
# go.mod files of very many lines and words
LONG: list[Row] = [
    ("20,000 requirements", [put(R, "v1.0.0", SAME)], [PUBLISHED]),
    (
        "20,000 requirements come back",
        [get(f"{R}/@v/v1.0.0.mod"), get(f"{R}/@latest")],
        [reply(200, SAME), info("v1.0.0")],
    ),
    ("the last of 20,000 is wrong", [put(R, "v1.1.0", WRONG), get(f"{R}/@v/v1.1.0.mod")], [bad(20_002), NOT_FOUND]),
    ("20,000 requirements of as many paths", [put(R, "v1.2.0", EACH)], [PUBLISHED]),
    ("a version that is retracted later", [put(S, "v1.0.9", f"module {S}\n".encode())], [PUBLISHED]),
    ("100,000 retractions, its own too", [put(S, "v1.1.0", RETRACTED)], [PUBLISHED]),
    (
        "100,000 retractions come back",
        [get(f"{S}/@v/v1.1.0.mod"), get(f"{S}/@latest")],
        [reply(200, RETRACTED), info("v1.0.9")],
    ),
    ("40,000 retracted ranges", [put(S, "v1.1.1", RANGES)], [PUBLISHED]),
    make_bad_row("a line of 100,000 words", b"require " + b"a " * 100_000 + b"\n", 2),
    make_bad_row("a line of 100,000 brackets", b"require " + b"(" * 100_000 + b"\n", 2),
    make_bad_row("a line of 100,000 brackets with spaces", b"require " + b"( " * 100_000 + b"\n", 2),
    make_bad_row(
        "a line of 100,000 words behind one that reads, in a block",
        b"require (\nexample.com/x v1.0.0\n" + b"a " * 100_000 + b"\n",
        4,
    ),
    make_bad_row("80,000 nested blocks", b"require (\n" * 80_000, 3),
    make_bad_row("a quotation of 1,000,000 bytes that stays open", b'"' + b"a" * 1_000_000 + b"\n", 2),
    ("what was refused is not published", [get("-/modules")], [reply(200, f"{R}\n{S}\n".encode())]),
]

B = "example.com/b"


def list_stream(size: int = 1_000_000) -> list[Row]:
    """Returns the rows of a stream of 105 zips of this size."""
    publishes = [put(B, f"v1.{n}.0", f"module {B}\n".encode(), bytes(size)) for n in range(105)]
    return [
        ("a stream of more than 100 MiB", publishes, [PUBLISHED] * 105),
        ("its last zip comes back", [get(f"{B}/@v/v1.104.0.zip")], [zipped(bytes(size))]),
    ]


F = "example.com/f"


def publish(patch: int, zip_bytes: bytes = b"", key: str = KEY, path: str = F) -> bytes:
    return put(path, f"v1.0.{patch}", f"module {path}\n".encode(), zip_bytes, key)


def fetch(name: str, key: str = KEY) -> bytes:
    return get(f"{F}/@v/{name}", key)


SHELF: list[Row] = [
    ("4,096 versions of a path", [publish(patch) for patch in range(4096)], [PUBLISHED] * 4096),
    ("the next is refused", [publish(4096), fetch("v1.0.4096.mod")], [FULL, NOT_FOUND]),
    (
        "the last is published",
        [get(f"{F}/@latest"), fetch("v1.0.4095.mod")],
        [info("v1.0.4095"), reply(200, f"module {F}\n".encode())],
    ),
    ("another path has room", [publish(4096, path="example.com/g")], [PUBLISHED]),
    ("one of them again", [publish(0)], [AGAIN]),
    ("one of them with another zip", [publish(0, b"a")], [CONFLICT]),
]
# over a file alone, since shelves in memory have one team with one key
SHELF_AMONG_OTHERS: list[Row] = [
    ("beta has room", [publish(4096, b"b", BETA)], [PUBLISHED]),
    (
        "common has room, and alpha sees it",
        [publish(4096, b"c", COMMON), fetch("v1.0.4096.zip")],
        [PUBLISHED, zipped(b"c")],
    ),
    ("full, with another zip than common", [publish(4096, b"a")], [CONFLICT]),
    ("full, with the zip of common", [publish(4096, b"c")], [AGAIN]),
    ("each sees its own", [fetch("v1.0.4096.zip"), fetch("v1.0.4096.zip", BETA)], [zipped(b"c"), zipped(b"b")]),
    ("the latest is that of common", [get(f"{F}/@latest")], [info("v1.0.4096")]),
    ("full, with one that nobody has", [publish(4097), fetch("v1.0.4097.mod")], [FULL, NOT_FOUND]),
    (
        "alpha's group has room, and alpha sees it",
        [publish(4097, b"p", GROUP), fetch("v1.0.4097.zip")],
        [PUBLISHED, zipped(b"p")],
    ),
    ("full, with another zip than the group", [publish(4097, b"a")], [CONFLICT]),
    ("full, with the zip of the group", [publish(4097, b"p")], [AGAIN]),
    ("the latest is that of the group", [get(f"{F}/@latest")], [info("v1.0.4097")]),
    ("full, with one that neither has", [publish(4098)], [FULL]),
]
# alpha has room where its group is full
ROOM_UNDER_GROUP: list[Row] = [
    (
        "4,096 versions of a path on the group's shelf",
        [publish(patch, key=GROUP) for patch in range(4096)],
        [PUBLISHED] * 4096,
    ),
    ("the group's next is refused", [publish(4096, key=GROUP)], [FULL]),
    (
        "alpha has room",
        [publish(4096), fetch("v1.0.4096.mod"), fetch("v1.0.4096.mod", GROUP)],
        [PUBLISHED, reply(200, f"module {F}\n".encode()), NOT_FOUND],
    ),
    ("alpha repeats the group's last", [publish(4095)], [AGAIN]),
    (
        "the latest is alpha's own",
        [get(f"{F}/@latest"), get(f"{F}/@latest", GROUP)],
        [info("v1.0.4096"), info("v1.0.4095")],
    ),
]


ALPHA = ("alpha", KEY, READER, PLATFORM[0])
OTHERS = [shelf for shelf in SHELVES if shelf[0] != "alpha"]
over_both = pytest.mark.parametrize("store", ["--mem", "--db"], ids=["memory", "a file"], indirect=True)


def make_store(folder: str) -> File:
    return File(os.path.join(folder, "shelves.db"), ALPHA, *OTHERS, groups=[PLATFORM])


@pytest.fixture(scope="class")
def store(request: pytest.FixtureRequest, class_folder: str) -> Memory | File:
    return Memory() if request.param == "--mem" else make_store(class_folder)


@pytest.mark.parametrize("size", [GOMOD - 1, GOMOD, GOMOD + 1])
def test_size_of_a_gomod(size: int) -> None:
    assert len(make_gomod("example.com/m", size)) == size


@over_both
class TestSizes:
    @pytest.fixture(scope="class")
    def dialogue(self, store: Memory | File) -> Dialogue:
        return Dialogue(read_exchanges(list_sizes(store.reader)), store.answer)

    # (the numbers and names are those of small zips, so that a run that only collects stays small)
    @pytest.mark.parametrize(**number_exchanges(read_exchanges(list_sizes(KEY, 1))))
    def test_row(self, dialogue: Dialogue, number: int) -> None:
        assert not dialogue.find_difference(number)


@over_both
class TestLongGomods:
    ROWS = read_exchanges(LONG)

    @pytest.fixture(scope="class")
    def dialogue(self, store: Memory | File) -> Dialogue:
        return Dialogue(self.ROWS, store.answer)

    @pytest.mark.parametrize(**number_exchanges(ROWS))
    def test_row(self, dialogue: Dialogue, number: int) -> None:
        assert not dialogue.find_difference(number)


@over_both
class TestLongStream:
    @pytest.fixture(scope="class")
    def dialogue(self, store: Memory | File) -> Dialogue:
        return Dialogue(read_exchanges(list_stream()), store.answer)

    @pytest.mark.parametrize(**number_exchanges(read_exchanges(list_stream(1))))
    def test_row(self, dialogue: Dialogue, number: int) -> None:
        assert not dialogue.find_difference(number)


@over_both
class TestFullShelf:
    ROWS = read_exchanges(SHELF)

    @pytest.fixture(scope="class")
    def dialogue(self, store: Memory | File) -> Dialogue:
        return Dialogue(self.ROWS, store.answer)

    @pytest.mark.parametrize(**number_exchanges(ROWS))
    def test_row(self, dialogue: Dialogue, number: int) -> None:
        assert not dialogue.find_difference(number)


class TestFullShelfAmongOthers:
    ROWS = read_exchanges(SHELF_AMONG_OTHERS)

    @pytest.fixture(scope="class")
    def dialogue(self, class_folder: str) -> Dialogue:
        store = make_store(class_folder)
        store.answer([request for _, requests, _ in SHELF for request in requests])
        return Dialogue(self.ROWS, store.answer)

    @pytest.mark.parametrize(**number_exchanges(ROWS))
    def test_row(self, dialogue: Dialogue, number: int) -> None:
        assert not dialogue.find_difference(number)


class TestRoomUnderAFullGroup:
    ROWS = read_exchanges(ROOM_UNDER_GROUP)

    @pytest.fixture(scope="class")
    def dialogue(self, class_folder: str) -> Dialogue:
        store = File(os.path.join(class_folder, "shelves.db"), ALPHA, groups=[PLATFORM])
        return Dialogue(self.ROWS, store.answer)

    @pytest.mark.parametrize(**number_exchanges(ROWS))
    def test_row(self, dialogue: Dialogue, number: int) -> None:
        assert not dialogue.find_difference(number)
