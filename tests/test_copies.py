"""`copy --control S --to G`: copies of a store while peers ask and publish.

Each is opened and compared. Some are refused, and some meet a full disk. A copy has each version that was acknowledged
before the order, and none whose publish began after the answer. The store that is served keeps its bytes.
"""

import os
import subprocess
import threading
import time
from collections.abc import Callable, Iterable, Iterator

import pytest

from lib.ids import name_value, name_values
from lib.keys import KEY, KEYS, MEMBERS, PLATFORM, SHELVES
from lib.kills import fetch, publish
from lib.messages import get, put
from lib.peers import GOMOD, LIST, Load, by_false_server
from lib.ports import wait_until
from lib.program import answered, done, refusal, run
from lib.runs import Ending
from lib.scratch import read, small_disk, write
from lib.servers import CONTROL, Server
from lib.stores import new_store

# versions of a store that is copied; their zips have up to 150,000 bytes
VERSIONS = 12
DONE = 0, b"", ""
# the longest path of a store: sqlite's names beside it have eight bytes more, and a path of the system 4,095
LONGEST = 4_087
# the longest path in an order
SAID = 4_090
# files to none of which a copy is made
FILES = ("served.db", "served.db-wal", "other.db", "other.db-wal", "made.db", "made.db-wal", "text")
# where no copy is made, and the word of the refusal
PLACES = (
    ("text", "not-empty"),
    ("other.db", "device"),
    ("made.db", "not-empty"),
    ("served.db", "not-empty"),
    ("./served.db", "not-empty"),
    ("named.db", "not-empty"),
    ("linked.db", "not-empty"),
    ("served.db-wal", "device"),
    ("linked.log", "device"),
    ("served.db-journal", "device"),
    ("./served.db-shm", "device"),
    ("named.db-journal", "device"),
    ("other.db-journal", "device"),
    ("text-wal", "device"),
    ("folder", "device"),
    ("none/one.db", "device"),
    ("nowhere.db", "device"),
    ("/dev/null", "device"),
    ("", "device"),
    (":memory:", "device"),
    ("file:one.db", "device"),
    ("a path.db", "name"),
    ("path\n", "name"),
    ("p" * SAID, "device"),
    ("p" * (SAID + 1), "name"),
)
# bytes of an operator, and the reply
LINES = (
    (b"copy\n", b"bad\n"),
    (b"copy \n", b"device\n"),
    (b"copy a b\n", b"bad\n"),
    (b"Copy one.db\n", b"bad\n"),
    (b"copy one.db", b"bad\n"),
    (b"copy one.db\n\n", b"bad\n"),
    (b"copy " + b"p" * (SAID + 1) + b"\n", b"bad\n"),
)


def copy(to: str, control: str = CONTROL) -> Ending:
    """Returns how a copy ends."""
    return run(["copy", "--control", control, f"--to={to}"])


def inventories(store: str) -> list[Ending]:
    """Returns what each key sees in a store that nobody has open."""
    return [run(["inventory", "--db", store, "--key", key]) for key in KEYS.values()]


def zips_in(store: str, numbers: Iterable[int]) -> list[tuple[int, bytes]]:
    """Returns the replies to requests for the files of these versions."""
    return answered(["--db", store], [fetch(number, kind) for number in numbers for kind in ("mod", "zip", "info")])


def statuses_in(store: str, numbers: Iterable[int]) -> set[int]:
    return {status for status, _ in zips_in(store, numbers)}


def make_path(length: int) -> str:
    """Returns a path of this many bytes, in folders that are made."""
    path = os.getcwd()
    while length - len(path) > 250:
        path = os.path.join(path, "d" * 200)
        os.mkdir(path)
    return os.path.join(path, "").ljust(length, "g")


def read_served() -> tuple[bytes, bytes]:
    """Returns the bytes of the served store."""
    return read("served.db-wal"), read("served.db")


class TestWhole:
    """Copies of a store with groups, teams and keys, each at its moment, in one run of `serve`."""

    @pytest.fixture(scope="class")
    def endings(self, class_folder: str) -> dict[str, object]:
        """How each copy ended, and what came between them, by name."""
        new_store("served.db", *SHELVES, *MEMBERS, groups=[PLATFORM])
        found: dict[str, object] = {}
        with Server("served.db", CONTROL) as server:
            for number in range(VERSIONS):
                server.status(publish(number, KEYS["P"] if number % 3 == 0 else KEY))
            before = read_served()
            found["a file that is missing"] = copy("one.db")
            found["is the store as it was"] = read_served() == before
            found["a publish"] = server.status(publish(100))
            write({"two.db": ""})
            found["an empty file"] = copy("two.db")
            found["a key"] = server.order(b"key-add alpha newkey0000000001\n")
            new_store("three.db")
            found["an empty store"] = copy("three.db")
            longest = make_path(LONGEST)
            assert len(longest) == LONGEST
            found["a path of 4,087 bytes"] = copy(longest)
            found["a path of 4,088 bytes"] = copy(longest + "g")
        return found

    @pytest.mark.parametrize(
        "to", ["a file that is missing", "an empty file", "an empty store", "a path of 4,087 bytes"]
    )
    def test_copy_into(self, endings: dict[str, object], to: str) -> None:
        assert endings[to] == DONE

    def test_copy_leaves_the_store_as_it_was(self, endings: dict[str, object]) -> None:
        assert endings["is the store as it was"]

    def test_publish_and_key_between_copies(self, endings: dict[str, object]) -> None:
        assert (endings["a publish"], endings["a key"]) == (201, b"done\n")

    def test_path_that_is_too_long(self, endings: dict[str, object]) -> None:
        assert endings["a path of 4,088 bytes"] == refusal("device")

    def test_last_copy_sees_what_the_store_sees(self, endings: dict[str, object]) -> None:
        assert inventories("three.db") == inventories("served.db")

    def test_last_copy_answers_as_the_store(self, endings: dict[str, object]) -> None:
        numbers = [*range(VERSIONS), 100]
        assert zips_in("three.db", numbers) == zips_in("served.db", numbers)

    def test_copy_between_has_the_publish_and_not_the_key(self, endings: dict[str, object]) -> None:
        assert zips_in("two.db", [100]) == zips_in("served.db", [100])
        assert run(["inventory", "--db", "two.db", "--key", "newkey0000000001"])[0] == 1

    def test_first_copy_has_all_before_its_order_and_no_more(self, endings: dict[str, object]) -> None:
        assert statuses_in("one.db", [100]) == {404}
        assert zips_in("one.db", range(VERSIONS)) == zips_in("served.db", range(VERSIONS))


def test_copy_is_served_and_published_to_and_copied(folder: str, serve: Callable[..., Server]) -> None:
    new_store("served.db", *SHELVES)
    server = serve("served.db", CONTROL)
    assert server.status(publish(1)) == 201
    assert copy("one.db") == DONE
    server.kill()
    server = serve("one.db", CONTROL)
    assert server.status(fetch(1, "mod")) == 200
    assert server.status(publish(200)) == 201
    assert copy("four.db") == DONE
    server.kill()
    assert zips_in("four.db", [1, 200]) == zips_in("one.db", [1, 200])


def test_copy_of_common_alone_is_a_store(folder: str, serve: Callable[..., Server]) -> None:
    done("init", "--db", "served.db")
    serve("served.db", CONTROL)
    assert copy("one.db") == DONE
    done("group-add", "--db", "one.db", "--group", "platform")
    done("team-add", "--db", "one.db", "--team", "gamma", "--group", "platform")
    done("key-add", "--db", "one.db", "--shelf", "gamma", "--key", KEYS["M"])
    publish_one = put("example.com/lib", "v1.0.0", GOMOD, b"zip", KEYS["M"])
    assert answered(["--db", "one.db"], [publish_one]) == [(201, b"published\n")]
    assert copy("one.db") == refusal("not-empty")


class Publishes:
    """Publishes one version after another, and when each began and was acknowledged."""

    def __init__(self, server: Server) -> None:
        self.server, self.stopped = server, threading.Event()
        self.seen: list[tuple[int, float, float]] = []
        self.thread = threading.Thread(target=self.publish)
        self.thread.start()

    def publish(self) -> None:
        number = VERSIONS
        while not self.stopped.is_set():
            begun = time.monotonic()
            assert self.server.status(publish(number)) == 201
            self.seen.append((number, begun, time.monotonic()))
            number += 1

    def wait_for_more(self, count: int) -> None:
        """Waits until so many more versions were acknowledged."""
        wanted = len(self.seen) + count
        wait_until(lambda: len(self.seen) >= wanted)

    def stop(self) -> None:
        self.stopped.set()
        self.thread.join()


class TestUnderLoad:
    """Copies while 8 clients ask and one publishes."""

    COPIES = range(4)

    class Made:
        """Each copy: how it ended, when its order was given, and when it ended."""

        def __init__(self) -> None:
            self.endings: list[Ending] = []
            self.times: list[tuple[float, float]] = []
            self.asked: list[tuple[float, float, int]] = []
            self.published: list[tuple[int, float, float]] = []

        def copy(self, to: str) -> None:
            begun = time.monotonic()
            self.endings.append(copy(to))
            self.times.append((begun, time.monotonic()))

    @pytest.fixture(scope="class")
    def made(self, class_folder: str) -> Made:
        new_store("served.db", *SHELVES)
        made = self.Made()
        with Server("served.db", CONTROL) as server:
            for number in range(VERSIONS):
                server.status(publish(number))
            assert server.status(put("example.com/lib", "v1.0.0", GOMOD)) == 201
            load, publishes = Load(server, KEY, 8), Publishes(server)
            for number in self.COPIES:
                publishes.wait_for_more(3)
                made.copy(f"copy{number}.db")
            publishes.wait_for_more(3)
            publishes.stop()
            load.stop()
            made.asked, made.published = load.seen, publishes.seen
        slowest = max(ended - begun for begun, ended in made.times)
        print(f"a copy of {len(made.published) + VERSIONS} versions under load takes {slowest:.2f} s at most")
        return made

    def test_each_request_is_answered(self, made: Made) -> None:
        assert {status for _, _, status in made.asked} == {200}, f"{len(made.asked)} requests"

    @pytest.mark.parametrize("number", COPIES)
    def test_copy_has_what_was_acknowledged_before_it_and_nothing_of_later(self, made: Made, number: int) -> None:
        assert made.endings[number] == DONE
        begun, ended = made.times[number]
        numbers = [version for version, _, _ in made.published]
        replies = answered(["--db", f"copy{number}.db"], [fetch(version, "mod") for version in numbers])
        is_there = {version: status == 200 for version, (status, _) in zip(numbers, replies)}
        lost = [version for version, _, at in made.published if at < begun and not is_there[version]]
        late = [version for version, at, _ in made.published if at > ended and is_there[version]]
        assert (lost, late) == ([], [])
        kept = [*range(VERSIONS), *(version for version in is_there if is_there[version])]
        has_bytes = zips_in(f"copy{number}.db", kept) == zips_in("served.db", kept)
        assert has_bytes, f"other bytes of {len(kept)} versions"


class TestRefused:
    """What no copy is made of; then nothing is changed, and peers are answered."""

    @pytest.fixture(scope="class")
    def server(self, class_folder: str) -> Iterator[Server]:
        new_store("served.db", ("alpha", KEY))
        new_store("other.db", ("beta", KEYS["B"]))
        write({"text": "bytes\n"})
        os.mkdir("folder")
        with Server("served.db", CONTROL) as server:
            assert server.status(put("example.com/lib", "v1.0.0", GOMOD, b"zip")) == 201
            assert copy("made.db") == DONE
            # more names of the store that is served, and of one that does not exist
            os.link("served.db", "linked.db")
            os.link("served.db-wal", "linked.log")
            os.symlink("served.db", "named.db")
            os.symlink("none/one.db", "nowhere.db")
            with Server("other.db", "other"):
                yield server

    @pytest.mark.parametrize(("to", "word"), PLACES, ids=name_values(to for to, _ in PLACES))
    def test_copy_to(self, server: Server, to: str, word: str) -> None:
        self.check_refused(server, to, word)

    @pytest.mark.parametrize(("name", "word"), [("served.db", "not-empty"), ("served.db-journal", "device")])
    def test_copy_to_an_absolute_path(self, server: Server, name: str, word: str) -> None:
        self.check_refused(server, os.path.abspath(name), word)

    def check_refused(self, server: Server, to: str, word: str) -> None:
        before, names = [read(name) for name in FILES], {*os.listdir(".")}
        assert copy(to) == refusal(word)
        assert server.status(get(LIST)) == 200
        assert [read(name) for name in FILES] == before
        # (opening a file that is no store leaves a log beside it)
        assert {*os.listdir(".")} - names <= ({"text-wal"} if os.path.basename(to).startswith("text") else set())

    @pytest.mark.parametrize(("sent", "outcome"), LINES, ids=name_values(sent for sent, _ in LINES))
    def test_line(self, server: Server, sent: bytes, outcome: bytes) -> None:
        assert server.order(sent) == outcome
        assert not os.path.lexists("one.db")


def test_copy_where_nobody_listens(folder: str) -> None:
    assert copy("one.db") == refusal("device")


def test_refused_copies_leave_both_stores_whole(folder: str, serve: Callable[..., Server]) -> None:
    new_store("served.db", ("alpha", KEY))
    new_store("other.db", ("beta", KEYS["B"]))
    server = serve("served.db", CONTROL)
    assert server.status(put("example.com/lib", "v1.0.0", GOMOD, b"zip")) == 201
    assert copy("made.db") == DONE
    assert copy("other.db") == refusal("not-empty"), "a store with a team"
    assert copy("made.db") == refusal("not-empty")
    server.kill()
    served, made = (run(["inventory", "--db", store, "--key", KEY]) for store in ("served.db", "made.db"))
    assert served == made
    assert served[0] == 0


def test_copy_whose_log_would_be_the_served_store(folder: str, serve: Callable[..., Server]) -> None:
    new_store("odd-wal", ("alpha", KEY))
    server = serve("odd-wal", CONTROL)
    assert copy("odd") == refusal("device")
    assert run(["inventory", "--db", "odd-wal", "--key", KEY]) == refusal("device"), "the store is not held"
    assert server.status(put("example.com/lib", "v1.0.0", GOMOD)) == 201


def test_server_that_gives_no_outcome(folder: str) -> None:
    assert by_false_server(["copy", "--to", "one.db", "--control"], b"") == (refusal("io"), b"copy one.db\n")


@pytest.mark.parametrize(
    "words",
    [
        ["copy"],
        ["copy", "--control", "S"],
        ["copy", "--to", "G"],
        ["copy", "--db", "F", "--control", "S", "--to", "G"],
    ],
    ids=name_value,
)
def test_bad_usage(words: list[str]) -> None:
    assert run(words)[0] == 2


@pytest.mark.root
@pytest.mark.needs("umount")
def test_copy_onto_a_full_disk(folder: str, serve: Callable[..., Server]) -> None:
    """It ends with `device`, and is made once there is room; the server goes on."""
    os.mkdir("small")
    with small_disk("small", "64k") as is_there:
        if not is_there:
            pytest.skip("no tmpfs can be mounted here")
        new_store("served.db", *SHELVES)
        server = serve("served.db", CONTROL)
        for number in range(VERSIONS):
            assert server.status(publish(number)) == 201
        before = read_served()
        assert copy("small/one.db") == refusal("device")
        assert read_served() == before
        assert server.status(fetch(1, "zip")) == 200
        subprocess.run(["mount", "-o", "remount,size=64m", "small"], check=True)
        assert copy("small/one.db") == DONE
        assert server.status(publish(100)) == 201
        server.kill()
        assert zips_in("small/one.db", range(VERSIONS)) == zips_in("served.db", range(VERSIONS))
