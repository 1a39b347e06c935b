"""What an opening reads of a store and how much memory it takes, as docs/OPERATING.md says.

goshelf serves a store of six large zips, which it made, and the system says how many bytes it read and what its memory
was at the peak. The page says how often a file is read, and how much memory an opening takes beside the zips.
"""

import os
import re
from typing import NamedTuple

import pytest

from lib.keys import KEY
from lib.messages import put
from lib.pages import read_page
from lib.program import answered
from lib.scratch import entered_folder
from lib.servers import Server
from lib.stores import new_store
from lib.tables import connected, settled

MIB = 2**20
ZIP, COUNT = 16 * MIB, 6
GOMOD = b"module example.com/large\n"
NUMBERS = {"five": 5, "six": 6, "seven": 7, "eight": 8}
# an unproved program is larger
MARGIN = 8 * MIB


def read_number(pid: int, file: str, name: str) -> int:
    """Returns a number that the system has of a process."""
    with open(f"/proc/{pid}/{file}", encoding="ascii") as numbers:
        return int(re.search(rf"^{name}:\s*(\d+)", numbers.read(), re.M)[1])


class Opened(NamedTuple):
    """The bytes of a store's file, those that an opening read, and the most memory that it took."""

    size: int
    read: int
    memory: int


@pytest.fixture(scope="module")
def opened() -> Opened:
    with entered_folder():
        new_store("large.db", ("alpha", KEY))
        requests = [put("example.com/large", f"v1.{number}.0", GOMOD, bytes([number]) * ZIP) for number in range(COUNT)]
        assert [status for status, _ in answered(["--db", "large.db"], requests)] == [201] * COUNT
        settled(connected("large.db"))
        with Server("large.db") as server:
            pid = server.child.pid
            memory = 1_024 * read_number(pid, "status", "VmHWM")
            return Opened(os.path.getsize("large.db"), read_number(pid, "io", "rchar"), memory)


def test_file_is_read_as_often_as_the_page_says(opened: Opened) -> None:
    times = NUMBERS[re.search(r"An opening reads it\s+(\w+)\s+times", read_page("OPERATING.md"))[1]]
    assert opened.read / opened.size == pytest.approx(times, abs=0.2)


def test_opening_takes_the_memory_that_the_page_says(opened: Opened) -> None:
    beside = re.search(r"as much memory as\s+the zips\s+have,\s+plus\s+(\d+)\s+MiB", read_page("OPERATING.md"))
    zips = COUNT * ZIP
    assert zips < opened.memory < zips + int(beside[1]) * MIB + MARGIN
