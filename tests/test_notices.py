"""What `serve --control` writes on standard error: a notice of each order and each fault, and none with a key.

The notices of orders are compared with the fingerprints that hashlib makes, and the characters that are not shown with
the categories of Python's `unicodedata`. A fault is made by a full disk, it is noted once a minute at most, and a
standard error that takes nothing changes nothing else.
"""

import hashlib
import os
import re
import signal
import unicodedata
from collections.abc import Callable
from typing import NamedTuple

import pytest

from lib.keys import KEY, KEYS
from lib.messages import get, put
from lib.peers import GOMOD, LIST
from lib.ports import wait_until
from lib.program import run
from lib.scratch import entered_folder, read, small_disk, write
from lib.servers import CONTROL, Server
from lib.stores import new_store

# what an operator sends, where a capital letter is a key of the worked rows, and the notice of it; `#A` is the
# fingerprint of A, or of another word, and an order that leaves no notice has none
NOTICES = [
    ("group-add platform", "order: group-add platform: done"),
    ("group-add platform", "order: group-add platform: taken"),
    ("group-add Platform", "order: group-add ?: name"),
    ("team-add beta platform", "order: team-add beta platform: done"),
    ("team-add beta platform", "order: team-add beta ?: taken"),
    ("team-add gamma", "order: team-add gamma: done"),
    ("team-add goshelf:", "order: team-add ?: name"),
    ("team-add delta gamma", "order: team-add ? ?: no-group"),
    ("key-add beta B", "order: key-add beta #B: done"),
    ("key-add beta B", "order: key-add beta #B: taken"),
    ("reader-add beta R", "order: key-add beta read-only #R: done"),
    ("key-add nosuch N", "order: key-add ? #N: no-team"),
    ("key-revoke R", "order: key-revoke #R: done"),
    ("key-revoke N", "order: key-revoke #N: no-key"),
    ("keys-revoke gamma", "order: keys-revoke gamma: done"),
    ("copy copy.db", "order: copy copy.db: done"),
    ("copy served.db", "order: copy served.db: not-empty"),
    ("copy nosuch/copy.db", "order: copy nosuch/copy.db: device"),
    ("copy nosuch/größe-日本.db", "order: copy nosuch/größe-日本.db: device"),
    ("catalog B", "order: catalog #B: done"),
    ("catalog N", "order: catalog #N: no-key"),
    ("team-add be\x1b[2Jta", "order: team-add ?: name"),
    ("key-ad beta B", "order: bad"),
    ("key-add beta", "order: bad"),
    # a key in the place of a name
    ("key-add B beta", "order: key-add ? #beta: name"),
    ("reader-add B A", "order: key-add ? read-only #A: no-team"),
    ("keys-revoke B", "order: keys-revoke ?: no-team"),
    ("team-add delta N", "order: team-add ? ?: no-group"),
    ("team-add beta N", "order: team-add beta ?: taken"),
    (f"group-add {'k' * 40}", "order: group-add ?: name"),
    ("ping", None),
    ("key-list", None),
    ("shelf-list", None),
    ("stop", "order: stopping"),
]
# characters that a path may have and that no notice shows, each with its category, and some of the same planes that
# are shown
HIDDEN = {
    "\x01": "Cc", "\x7f": "Cc", "\x85": "Cc", "\x9b": "Cc", "\xad": "Cf", "\u061c": "Cf", "\u200b": "Cf",
    "\u2028": "Zl", "\u2029": "Zp", "\u202e": "Cf", "\u2066": "Cf", "\ufeff": "Cf", "\U000e0041": "Cf",
}  # fmt: skip
SHOWN = "~\xa1\u0301\u2027\u2030\u3042\ue000\ufffd\U0001f600"


def fingerprint(word: str) -> str:
    """Returns the fingerprint of a key, named by its letter, or of another word."""
    return hashlib.sha256(KEYS.get(word, word).encode()).hexdigest()[:16]


def name_keys(notice: str) -> str:
    """Puts the fingerprints of keys into a notice."""
    return re.sub(r"#(\w+)", lambda found: fingerprint(found[1]), notice)


def line_of(order: str) -> bytes:
    """Returns the line of an order, with its keys."""
    return " ".join(KEYS.get(word, word) for word in order.split(" ")).encode() + b"\n"


def read_notices() -> list[str]:
    """Returns the notices so far."""
    return read("errors").decode().split("\n")[:-1]


def wait_for_notices(count: int) -> list[str]:
    """Returns the notices once there are this many: an outcome reaches the operator before it is noted."""
    wait_until(lambda: len(read_notices()) >= count, 10)
    return read_notices()


def start(*more: str, store: str = "served.db") -> Server:
    """Serves a store of this folder, with its notices in `errors`."""
    with open("errors", "ab") as errors:
        return Server(store, CONTROL, *more, errors=errors)


class Noted(NamedTuple):
    """The status of a server that was given the orders of a table, and its notices after each and at its end."""

    publish: int
    after: list[list[str]]
    status: int
    notices: list[str]


class TestOrders:
    """A notice of each order, in their order, between those of the opening and of the end."""

    @pytest.fixture(scope="class")
    def noted(self) -> Noted:
        with entered_folder():
            new_store("served.db", ("alpha", KEY))
            with start() as server:
                publish = server.status(put("example.com/lib", "v1.0.0", GOMOD))
                after, count = [], 1
                for order, notice in NOTICES:
                    server.order(line_of(order))
                    count += notice is not None
                    after.append(wait_for_notices(count)[:count])
                return Noted(publish, after, server.child.wait(60), read_notices())

    @pytest.mark.parametrize("number", range(len(NOTICES)), ids=[order for order, _ in NOTICES])
    def test_notice(self, noted: Noted, number: int) -> None:
        notices = [name_keys(notice) for _, notice in NOTICES[: number + 1] if notice]
        assert noted.after[number][-1:] == notices[-1:]
        assert noted.after[number] == ["opened: served.db: 0 versions", *notices]

    def test_server_ends_well_and_its_end_is_noted(self, noted: Noted) -> None:
        notices = [name_keys(notice) for _, notice in NOTICES if notice]
        assert (noted.publish, noted.status) == (201, 0)
        assert noted.notices == ["opened: served.db: 0 versions", *notices, "ended: served.db"]

    @pytest.mark.parametrize("letter", KEYS)
    def test_no_notice_has_a_key(self, noted: Noted, letter: str) -> None:
        assert [notice for notice in noted.notices if KEYS[letter] in notice] == []

    def test_no_notice_is_a_refusal(self, noted: Noted) -> None:
        assert [notice for notice in noted.notices if notice.startswith("goshelf:")] == []


def test_server_whose_connections_are_used_up_notes_its_versions_and_its_end(folder: str) -> None:
    new_store("served.db", ("alpha", KEY))
    with start("--connections", "2") as server:
        assert server.status(put("example.com/lib", "v1.0.0", GOMOD)) == 201
        assert server.status(get(LIST)) == 200
        assert server.child.wait(60) == 0
    with start("--connections", "1") as server:
        server.status(get(LIST))
        assert server.child.wait(60) == 0
    assert read_notices()[-2:] == ["opened: served.db: 1 versions", "ended: served.db"]


class TestHidden:
    """A path or a file name with a control or a format character, or one that ends a line, is not shown."""

    @pytest.fixture(scope="class")
    def notices(self) -> list[str]:
        """The notices of copies to paths with each of the characters."""
        with entered_folder():
            new_store("served.db", ("alpha", KEY))
            with start() as server:
                for character in (*HIDDEN, *SHOWN):
                    server.order(f"copy nosuch/a{character}b.db\n".encode())
                return wait_for_notices(1 + len(HIDDEN) + len(SHOWN))

    @pytest.mark.parametrize("character", HIDDEN, ids=[f"U+{ord(character):04X}" for character in HIDDEN])
    def test_hidden_character(self, notices: list[str], character: str) -> None:
        assert unicodedata.category(character) == HIDDEN[character]
        assert notices[1 + list(HIDDEN).index(character)] == "order: copy ?: device"

    @pytest.mark.parametrize("character", SHOWN, ids=[f"U+{ord(character):04X}" for character in SHOWN])
    def test_shown_character(self, notices: list[str], character: str) -> None:
        notice = notices[1 + len(HIDDEN) + SHOWN.index(character)]
        assert notice == f"order: copy nosuch/a{character}b.db: device"

    @pytest.mark.parametrize(
        ("name", "shown"), [("bidi\u202e.db", "?"), ("größe.db", "größe.db")], ids=["bidi", "größe"]
    )
    def test_name_of_the_store(self, folder: str, name: str, shown: str) -> None:
        new_store(name, ("alpha", KEY))
        with start(store=name) as server:
            assert server.order(b"stop\n") == b"stopping\n"
            assert server.child.wait(60) == 0
        assert read_notices() == [f"opened: {shown}: 0 versions", "order: stopping", f"ended: {shown}"]


def test_without_a_socket_nothing_is_noted(folder: str, serve: Callable[..., Server]) -> None:
    new_store("served.db", ("alpha", KEY))
    with open("errors", "wb") as errors:
        server = serve("served.db", errors=errors)
    assert server.status(get(LIST)) == 404
    assert read_notices() == []


def test_refusal_is_the_only_line_of_a_socket_that_cannot_be_made(folder: str) -> None:
    write({CONTROL: ""})
    words = ["serve", "--db", "other.db", "--port", "0", "--control", CONTROL]
    assert run(words)[2].splitlines()[-1:] == ["goshelf: io"]


def test_standard_error_that_takes_nothing_changes_nothing_else(folder: str, serve: Callable[..., Server]) -> None:
    new_store("served.db", ("alpha", KEY))
    with open("/dev/full", "wb") as full:
        server = serve("served.db", CONTROL, errors=full)
    assert server.order(b"team-add beta\n") == b"done\n"
    assert server.status(put("example.com/lib", "v1.0.0", GOMOD)) == 201
    assert (server.order(b"stop\n"), server.child.wait(60)) == (b"stopping\n", 0)


@pytest.mark.parametrize(
    ("order", "notice"),
    [
        ("catalog A", "order: catalog #A: ended"),
        ("catalog N", "order: catalog #N: ended"),
        ("key-add alpha R", "order: key-add alpha #R: done"),
    ],
)
def test_operator_who_has_left_before_the_outcome(folder: str, order: str, notice: str) -> None:
    """What was done is noted as done, and no catalog is."""
    new_store("served.db", ("alpha", KEY))
    with start() as server:
        server.child.send_signal(signal.SIGSTOP)
        with server.operator() as held:
            held.sendall(line_of(order))
        server.child.send_signal(signal.SIGCONT)
        assert wait_for_notices(2) == ["opened: served.db: 0 versions", name_keys(notice)]
        assert server.order(line_of("catalog A")) == b"done\n"
        assert wait_for_notices(3)[2:] == [f"order: catalog {fingerprint('A')}: done"]
        assert (server.order(b"stop\n"), server.child.wait(60)) == (b"stopping\n", 0)


@pytest.mark.root
@pytest.mark.needs("umount")
def test_fault_is_noted_once_a_minute(folder: str) -> None:
    """A fault is noted with what it met, and the same fault once a minute at most."""
    os.mkdir("small")
    with small_disk("small", "1m") as is_there:
        if not is_there:
            pytest.skip("no tmpfs can be mounted here")
        new_store("small/served.db", ("alpha", KEY))
        with start(store="small/served.db") as server:
            for version in ("v1.0.0", "v1.0.0", "v1.1.0", "v1.0.0"):
                assert server.status(put("example.com/lib", version, GOMOD, bytes(2_000_000))) == 503
            faults = [f"fault: publish example.com/lib {version}: device" for version in ("v1.0.0", "v1.1.0")]
            # (the disk has no room for a reserve)
            assert wait_for_notices(4)[1:] == ["reserve: device", *faults]
            for number in range(100):
                gomod = GOMOD.replace(b"lib", b"lib%d" % number)
                server.status(put(f"example.com/lib{number}", "v1.0.0", gomod, bytes(2_000_000)))
            notices = read_notices()
            assert len(notices[2:]) == 20, "lines of faults in a minute"
            assert server.order(b"nonsense\n") == b"bad\n"
            assert wait_for_notices(len(notices) + 1) == [*notices, "order: bad"]
