"""A key can be revoked once the disk of the store is full: `serve --control` keeps a file beside it, and gives it up.

Each disk is small and is filled by publishes of one team, until all are refused. Then all three orders revoke keys of
it, a key and a team are added, and each is seen by the next request. With more room the file is whole again. A file of
the same name that is not goshelf's keeps its bytes.
"""

import os
import subprocess
from collections.abc import Callable, Iterator

import pytest

from lib.keys import KEY
from lib.messages import get, put
from lib.ports import wait_until
from lib.program import refusal, run
from lib.runs import Ending
from lib.scratch import fill, read, small_disk, write
from lib.servers import CONTROL, Server
from lib.stores import add_keys, new_store

PATH, GOMOD = "example.com/lib", b"module example.com/lib\n"
PATHS = "-/modules"
# what `serve` reserves, on a disk that has the room: 24 MiB, and on one of 6 MiB
WHOLE, HALF = 25_165_824, 3_145_728
# alpha's keys, and those of other teams that are revoked by another order each
NAMED, ALL, MORE = "alphanamed000001", ("betakey000000001", "betakey000000002"), "gammakey00000001"
ADDED = "alphaadded000001"
DONE: Ending = (0, b"", "")


def start(store: str) -> Server:
    """Serves a store with orders, and with its notices in `errors`."""
    with open("errors", "wb") as errors:
        return Server(store, CONTROL, errors=errors)


def order(*words: str) -> Ending:
    """Returns how a command of the registry with `--control` ends."""
    return run([*words, "--control", CONTROL])


def fingerprint_of(shelf: str) -> str:
    """Returns the fingerprint that `key-list` prints for the key of a shelf."""
    lines = [line.split() for line in order("key-list")[1].decode().splitlines()]
    return next(word for line in lines if shelf in line for word in line if len(word) == 16)


class Disk:
    """A server of a store on a small disk, the folder `small`."""

    def __init__(self) -> None:
        new_store("small/s.db", ("alpha", KEY), ("beta", ALL[0]), ("gamma", MORE))
        add_keys("small/s.db", "alpha", NAMED)
        add_keys("small/s.db", "beta", ALL[1])
        self.published = 0
        self.start()

    def start(self) -> None:
        self.server = start("small/s.db")

    def publish(self, size: int, key: str = KEY) -> int:
        """Returns the status of the publish of another version, with a zip of this many bytes."""
        self.published += 1
        return self.server.status(put(PATH, f"v1.{self.published}.0", GOMOD, os.urandom(size), key))

    def fill(self, size: int) -> list[int]:
        """Publishes until three publishes in a row are refused, and returns their statuses."""
        refused: list[int] = []
        while len(refused) < 3 and self.published < 6_000:
            status = self.publish(size)
            refused = [*refused, status] if status != 201 else []
        return refused

    def statuses(self, *keys: str) -> list[int]:
        """Returns how a request by each key is answered."""
        return [self.server.status(get(PATHS, key)) for key in keys]

    def reserved(self) -> tuple[int, int]:
        """Returns how many bytes the reserve has, and how many the disk has for it."""
        found = os.stat("small/s.db-reserve")
        return found.st_size, found.st_blocks * 512

    def close(self) -> None:
        if self.server.child.poll() is None:
            self.server.kill()


def make_holes(reserve: str) -> None:
    """Gives the room of a whole reserve back to its disk, but for the first bytes."""
    os.truncate(reserve, 4_096)
    os.truncate(reserve, WHOLE)


def notices() -> list[str]:
    """Returns the notices of the reserve."""
    return [line for line in read("errors").decode().splitlines() if line.startswith("reserve:")]


@pytest.fixture
def disk(folder: str, request: pytest.FixtureRequest) -> Iterator[Disk]:
    """A disk of the size that the test is parametrized with."""
    os.mkdir("small")
    with small_disk("small", request.param) as is_there:
        if not is_there:
            pytest.skip("no tmpfs can be mounted here")
        made = Disk()
        try:
            yield made
        finally:
            made.close()


def check_orders(disk: Disk, size: int) -> None:
    """Checks that all orders are carried out on a full disk, and that each is seen."""
    assert [disk.fill(size), disk.fill(0)] == [[503] * 3] * 2
    assert disk.statuses(KEY, NAMED, *ALL, MORE) == [200] * 5
    assert order("key-revoke", "--key", NAMED) == DONE
    assert order("key-revoke", "--shelf", "beta", "--all") == DONE
    assert order("key-revoke", "--fingerprint", fingerprint_of("gamma")) == DONE
    assert disk.statuses(NAMED, *ALL, MORE) == [404] * 4
    assert order("key-add", "--shelf", "alpha", "--key", ADDED) == DONE
    assert order("team-add", "--team", "delta") == DONE
    assert order("group-add", "--group", "platform") == DONE
    assert disk.statuses(ADDED) == [200]


def check_room_again(disk: Disk, whole: int, free: Callable[[], object]) -> None:
    """Checks that the reserve is short, and is whole at the next request once there is room; both are noted."""
    wait_until(lambda: notices() == ["reserve: device"], 10)
    assert disk.reserved()[0] < whole
    free()
    assert disk.statuses(KEY) == [200]
    wait_until(lambda: notices() == ["reserve: device", "reserve: done"], 10)
    size, on_disk = disk.reserved()
    assert size == whole <= on_disk
    assert disk.publish(100) == 201


@pytest.mark.root
@pytest.mark.needs("umount")
class TestFullDisk:
    """Disks of several sizes that publishes fill, and one that another file fills."""

    @pytest.mark.parametrize(
        ("disk", "size", "whole"),
        [("6m", 100_000, HALF), ("6m", 20_000, HALF), ("48m", 1_500_000, WHOLE)],
        indirect=["disk"],
        ids=["6 MiB, zips of 100,000 bytes", "6 MiB, zips of 20,000 bytes", "48 MiB, zips of 1,500,000 bytes"],
    )
    def test_orders_are_carried_out(self, disk: Disk, size: int, whole: int) -> None:
        reserved, on_disk = disk.reserved()
        assert reserved == whole <= on_disk
        assert os.stat("small/s.db-reserve").st_mode & 0o777 == 0o600, "nobody else may read it"
        check_orders(disk, size)
        assert [disk.publish(size), disk.publish(0)] == [503] * 2
        words = ["mount", "-o", "remount,size=200m", "small"]
        check_room_again(disk, whole, lambda: subprocess.run(words, check=True))
        disk.server.stop()
        assert KEY.encode() not in read("errors")
        disk.start()
        assert disk.reserved()[0] == WHOLE, "the next start makes it larger"
        assert disk.statuses(NAMED, KEY) == [404, 200]

    @pytest.mark.parametrize("disk", ["48m"], indirect=True)
    def test_room_that_another_file_took_is_taken_back(self, disk: Disk) -> None:
        fill("small/other")
        check_orders(disk, 100_000)
        check_room_again(disk, WHOLE, lambda: os.remove("small/other"))
        os.remove("small/s.db-reserve")
        assert order("team-add", "--team", "epsilon") == DONE
        wait_until(lambda: notices() == ["reserve: device", "reserve: done", "reserve: device"], 10)
        disk.server.kill()
        disk.start()
        assert disk.reserved()[0] == WHOLE, "the next start makes it again"
        assert disk.statuses(KEY, ADDED, NAMED) == [200, 200, 404]

    @pytest.mark.parametrize("disk", ["48m"], indirect=True)
    def test_reserve_that_was_cut_is_filled_by_the_next_start(self, disk: Disk) -> None:
        assert disk.reserved()[0] == WHOLE
        disk.server.kill()
        os.truncate("small/s.db-reserve", 5_000)
        disk.start()
        assert disk.reserved()[0] == WHOLE
        assert disk.statuses(KEY) == [200]

    @pytest.mark.parametrize("disk", ["48m"], indirect=True)
    def test_reserve_with_holes_on_a_full_disk_is_short(self, disk: Disk) -> None:
        assert disk.reserved()[0] == WHOLE
        disk.server.kill()
        make_holes("small/s.db-reserve")
        fill("small/other")
        disk.start()
        assert disk.publish(100) == 503
        check_room_again(disk, WHOLE, lambda: os.remove("small/other"))


RESERVE = "s.db-reserve"
# what has the name and is no reserve, and how it is made
FOREIGN: dict[str, Callable[[], object]] = {
    "a link": lambda: os.symlink("theirs", RESERVE),
    "another name of a file": lambda: os.link("theirs", RESERVE),
    "a text": lambda: write({RESERVE: "goshelf reserve of nothing"}),
    "a folder": lambda: os.mkdir(RESERVE),
    "a pipe": lambda: os.mkfifo(RESERVE),
    "a reserve that is too large": lambda: write({RESERVE: f"goshelf reserve of {WHOLE * 2} bytes\n"}),
}


@pytest.mark.parametrize("kind", FOREIGN)
def test_what_is_no_reserve_stays_as_it_is(folder: str, kind: str) -> None:
    new_store("s.db", ("alpha", KEY))
    write({"theirs": "a text"})
    FOREIGN[kind]()
    before = os.lstat(RESERVE)
    with start("s.db") as server:
        assert server.status(get(PATHS)) == 200
        assert order("team-add", "--team", "beta") == DONE
        server.stop()
    assert b"\nreserve: device\n" in read("errors")
    after = os.lstat(RESERVE)
    assert (after.st_ino, after.st_size) == (before.st_ino, before.st_size)
    assert read("theirs") == b"a text"


def test_reserve_with_holes_is_filled_by_the_next_start(folder: str) -> None:
    new_store("s.db", ("alpha", KEY))
    start("s.db").stop()
    blocks = os.stat(RESERVE).st_blocks
    make_holes(RESERVE)
    assert os.stat(RESERVE).st_blocks < blocks
    start("s.db").stop()
    assert os.stat(RESERVE).st_blocks >= blocks
    assert not notices()


def test_empty_file_is_filled(folder: str) -> None:
    new_store("s.db", ("alpha", KEY))
    write({RESERVE: ""})
    start("s.db").stop()
    assert os.stat(RESERVE).st_size == WHOLE
    assert not notices()


@pytest.mark.root
def test_empty_file_of_another_user_stays_as_it_is(folder: str) -> None:
    new_store("s.db", ("alpha", KEY))
    write({RESERVE: ""})
    os.chown(RESERVE, 65534, 65534)
    with start("s.db") as server:
        # (the notice is written once peers may come, and before one is answered)
        assert server.status(get(PATHS)) == 200
        server.stop()
    assert os.stat(RESERVE).st_size == 0
    assert notices() == ["reserve: device"]


# a system that misbehaves as FAULT says
LIBRARY = """
#define _GNU_SOURCE
#include <errno.h>
#include <stdio.h>
#include <stdlib.h>
#include <string.h>
#include <sys/stat.h>
#include <sys/syscall.h>
#include <unistd.h>

static int is_fault(const char *name) {
    const char *fault = getenv("FAULT");
    return fault && !strcmp(fault, name);
}

/* reports no blocks */
int statx(int at, const char *restrict path, int flags, unsigned mask, struct statx *restrict found) {
    int failed = syscall(SYS_statx, at, path, flags, mask, found);
    if (!failed && is_fault("blocks")) found->stx_blocks = 0;
    return failed;
}

/* fails at a reserve */
int fsync(int fd) {
    char link[64], name[4096] = "";
    snprintf(link, sizeof link, "/proc/self/fd/%d", fd);
    if (!is_fault("sync") || readlink(link, name, sizeof name - 1) < 0 || !strstr(name, "-reserve"))
        return syscall(SYS_fsync, fd);
    errno = EIO;
    return -1;
}
"""


@pytest.mark.needs("cc")
class TestSystem:
    """Reserves of a system that reports no blocks, and of one that does not write them to the disk."""

    @pytest.fixture(scope="class")
    def library(self, class_folder: str) -> str:
        write({"fault.c": LIBRARY})
        subprocess.run(["cc", "-shared", "-fPIC", "-o", "fault.so", "fault.c"], check=True)
        return os.path.abspath("fault.so")

    @pytest.fixture
    def fault(self, library: str, monkeypatch: pytest.MonkeyPatch) -> Callable[[str], None]:
        def set_fault(name: str) -> None:
            monkeypatch.setenv("LD_PRELOAD", library)
            monkeypatch.setenv("FAULT", name)

        return set_fault

    def test_reserve_without_blocks_is_filled_once(self, folder: str, fault: Callable[[str], None]) -> None:
        new_store("s.db", ("alpha", KEY))
        start("s.db").stop()
        whole = os.stat(RESERVE)
        fault("blocks")
        start("s.db").stop()
        filled = os.stat(RESERVE)
        assert (filled.st_size, filled.st_mtime_ns > whole.st_mtime_ns) == (WHOLE, True)
        with start("s.db") as server:
            assert order("team-add", "--team", "beta") == DONE
            server.stop()
        assert os.stat(RESERVE).st_mtime_ns == filled.st_mtime_ns
        assert not notices()

    def test_whole_reserve_that_is_not_synced_stays_whole(self, folder: str, fault: Callable[[str], None]) -> None:
        new_store("s.db", ("alpha", KEY))
        start("s.db").stop()
        fault("sync")
        with start("s.db") as server:
            assert order("team-add", "--team", "beta") == DONE
            server.stop()
        assert not notices()

    @pytest.mark.root
    @pytest.mark.needs("umount")
    @pytest.mark.parametrize("disk", ["48m"], indirect=True)
    def test_room_is_given_up_though_it_is_not_synced(self, disk: Disk, fault: Callable[[str], None]) -> None:
        disk.server.kill()
        fault("sync")
        disk.start()
        fill("small/other")
        check_orders(disk, 100_000)


class TestMistaken:
    """No command takes a reserve for a store, or writes to it."""

    @pytest.fixture(scope="class")
    def server(self, class_folder: str) -> Iterator[Server]:
        new_store("s.db", ("alpha", KEY))
        with start("s.db") as server:
            yield server

    @pytest.mark.parametrize(
        "words",
        [
            ["init", "--db", RESERVE],
            ["team-add", "--db", RESERVE, "--team", "alpha"],
            ["copy", "--control", CONTROL, "--to", RESERVE],
        ],
        ids=lambda words: words[0],
    )
    def test_command_while_it_is_held(self, server: Server, words: list[str]) -> None:
        before = read(RESERVE)
        assert run(words) in [refusal(word) for word in ("device", "bad-schema", "not-empty")]
        assert read(RESERVE) == before

    @pytest.mark.parametrize(
        "words",
        [
            ["extract", "--db", "s.db", "--team", "alpha", "--to", RESERVE],
            ["migrate", "--from", "s.db", "--to", RESERVE],
            ["migrate", "--from", RESERVE, "--to", "new.db"],
        ],
        ids=["extract", "migrate to it", "migrate from it"],
    )
    def test_command_once_its_server_has_ended(self, folder: str, words: list[str]) -> None:
        new_store("s.db", ("alpha", KEY))
        start("s.db").stop()
        before = read(RESERVE)
        assert run(words)[0] == 1
        assert read(RESERVE) == before


def test_without_a_socket_there_is_no_reserve(folder: str, serve: Callable[..., Server]) -> None:
    new_store("s.db", ("alpha", KEY))
    server = serve("s.db")
    assert server.status(get(PATHS)) == 200
    server.stop()
    assert sorted(os.listdir(".")) == ["s.db", "s.db-wal"]
