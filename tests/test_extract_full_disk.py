"""An extract onto a disk that is full ends with `device`, leaves its source as it was, and is taken once there is room.

The store of two teams is on the machine's disk, and the part of one of them goes to a small tmpfs, where the machine
lets one be mounted. It is tried with random sizes of the tmpfs from one page up, until the part has room; after each
refusal the files of the source have the bytes that they had, and no reply is lost. Then the tmpfs gets more room, and
the same extract into the same file is taken.
"""

import os
import subprocess
from collections.abc import Iterator

import pytest

from lib.keys import KEY
from lib.kills import RANDOM, fetch, print_seed, publish
from lib.program import answered, refusal, run
from lib.scratch import entered_folder, mounted, read
from lib.stores import new_store

pytestmark = pytest.mark.needs("umount")
OTHER_KEY = "betakey000000001"
# versions of each team; their zips have up to 150,000 bytes
VERSIONS = 12
PAGE = 4_096
# disks whose sizes are in as many parts of what an extract needs, and some that are larger
DISKS, LARGER = 20, 4
Replies = list[tuple[int, bytes]]


def fetch_all(file: str) -> tuple[Replies, Replies]:
    """Returns what a store answers alpha, and what beta, for the files of each version of both teams."""
    asked = [(number, kind) for number in (*range(VERSIONS), *range(100, 100 + VERSIONS)) for kind in ("mod", "zip")]
    replies = answered(["--db", file], [fetch(*file_of, key) for key in (KEY, OTHER_KEY) for file_of in asked])
    return replies[: len(asked)], replies[len(asked) :]


def read_store(file: str) -> tuple[bytes, bytes]:
    return read(file), read(f"{file}-wal")


def extract(file: str, to: str) -> tuple[int, bytes, str]:
    return run(["extract", "--db", file, "--team", "alpha", "--to", to])


class Whole:
    """A store of two teams, each with versions of its own: its files, its replies, and the pages of alpha's part."""

    def __init__(self, folder: str) -> None:
        self.file, part = os.path.join(folder, "whole.db"), os.path.join(folder, "part.db")
        new_store(self.file, ("alpha", KEY), ("beta", OTHER_KEY))
        for key, first in ((OTHER_KEY, 100), (KEY, 0)):
            replies = answered(["--db", self.file], [publish(first + number, key) for number in range(VERSIONS)])
            assert [status for status, _ in replies] == [201] * VERSIONS
        # a first opening may still change the files
        self.replies = fetch_all(self.file)
        self.files = read_store(self.file)
        assert extract(self.file, part) == (0, b"", "")
        self.pages = sum(map(len, read_store(part))) // PAGE


@pytest.fixture(scope="module")
def whole() -> Iterator[Whole]:
    with entered_folder() as folder:
        yield Whole(folder)


def take_pages(whole: Whole, disk: int) -> int:
    """Returns the pages of a disk: for the first DISKS fewer than the part has, for others at least as many."""
    print_seed()
    step = whole.pages // DISKS
    return max(1, RANDOM.randrange(disk * step, (disk + 1) * step))


@pytest.mark.root
class TestFullDisk:
    @pytest.fixture
    def small(self, folder: str) -> Iterator[str]:
        """A folder to mount a disk at."""
        os.mkdir("small")
        at = os.path.join(folder, "small")
        yield at
        subprocess.run(["umount", "-q", at])

    def mount(self, at: str, pages: int) -> str:
        """Mounts a disk of this many pages, and returns the name of a part there."""
        if not mounted(at, pages * PAGE):
            pytest.skip("no tmpfs can be mounted")
        return os.path.join(at, "part.db")

    def check_with_more_room(self, whole: Whole, part: str) -> None:
        """Extracts anew onto a disk that gets more room."""
        subprocess.run(["mount", "-o", "remount,size=64m", os.path.dirname(part)], check=True)
        assert extract(whole.file, part) == (0, b"", "")
        assert read_store(whole.file) == whole.files
        assert fetch_all(whole.file) == whole.replies
        for_alpha, for_beta = fetch_all(part)
        assert for_alpha == whole.replies[0]
        assert {status for status, _ in for_beta} == {404}

    @pytest.mark.parametrize("disk", range(DISKS), ids=lambda disk: f"{disk} of {DISKS} parts")
    def test_a_disk_too_small_is_full(self, whole: Whole, small: str, disk: int) -> None:
        part = self.mount(small, take_pages(whole, disk))
        assert extract(whole.file, part) == refusal("device")
        assert read_store(whole.file) == whole.files
        self.check_with_more_room(whole, part)

    @pytest.mark.parametrize("disk", range(DISKS, DISKS + LARGER), ids=lambda disk: f"{disk} of {DISKS} parts")
    def test_a_disk_that_may_have_room_is_full_or_takes_all(self, whole: Whole, small: str, disk: int) -> None:
        part = self.mount(small, take_pages(whole, disk))
        ended = extract(whole.file, part)
        assert read_store(whole.file) == whole.files
        if ended != (0, b"", ""):
            assert ended == refusal("device")
            self.check_with_more_room(whole, part)

    def test_a_disk_of_three_times_the_size_has_room(self, whole: Whole, small: str) -> None:
        part = self.mount(small, 3 * whole.pages)
        assert extract(whole.file, part) == (0, b"", "")
        assert fetch_all(part)[0] == whole.replies[0]
