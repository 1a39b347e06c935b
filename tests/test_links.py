"""A store whose name is a link.

As with SQLite, its log stands beside the file that the link leads to, and a log beside the link is that of no store.
"""

import os

import pytest

from lib.keys import KEY
from lib.program import refusal, run
from lib.scratch import read, write
from lib.servers import CONTROL, NEW_STORE, Server
from lib.stores import new_store

SERVE = "serve --db link --port 0 --connections 0"
# commands that make a store of the file that the link leads to
FILLS = ["extract --db good.db --team alpha --to link", "migrate --from good.db --to link"]
TARGET, ITS_LOG, LOG_BESIDE_LINK = "away/s.db", "away/s.db-wal", "link-wal"


@pytest.fixture(autouse=True)
def log(folder: str) -> bytes:
    """Makes a link to a file without bytes, and a store. Returns a log that holds a store."""
    new_store("good.db", ("alpha", KEY))
    os.mkdir("away")
    write({TARGET: ""})
    os.symlink(TARGET, "link")
    return read("good.db-wal")


def test_store_is_read_with_its_log() -> None:
    os.symlink("good.db", "name")
    assert run(["shelf-list", "--db", "name"]) == (0, b"alpha team\ncommon common\n", "")
    assert not os.path.lexists("name-wal")


def test_store_with_a_log_alone_is_not_said_to_be_new(log: bytes) -> None:
    write({ITS_LOG: log})
    assert run(SERVE.split()) == refusal("device")
    assert (read(TARGET), read(ITS_LOG)) == (b"", log)


def test_store_is_said_to_be_new_whatever_stands_beside_the_link(log: bytes) -> None:
    write({LOG_BESIDE_LINK: log})
    status, _, errors = run(SERVE.split())
    assert (status, errors) == (0, NEW_STORE)
    assert read(LOG_BESIDE_LINK) == log


@pytest.mark.parametrize("line", FILLS)
def test_log_alone_is_not_empty(log: bytes, line: str) -> None:
    """No line names the log: it has the name of the file that the link leads to."""
    write({ITS_LOG: log})
    assert run(line.split()) == refusal("not-empty")
    assert (read(TARGET), read(ITS_LOG)) == (b"", log)


def test_log_alone_is_not_empty_for_a_copy(log: bytes) -> None:
    write({ITS_LOG: log})
    with Server("good.db", CONTROL):
        assert run(["copy", "--control", CONTROL, "--to", os.path.abspath("link")]) == refusal("not-empty")
    assert (read(TARGET), read(ITS_LOG)) == (b"", log)


@pytest.mark.parametrize("line", FILLS)
def test_log_beside_the_link_is_not_that_of_a_file_that_cannot_be_opened(log: bytes, line: str) -> None:
    write({LOG_BESIDE_LINK: log})
    os.link(TARGET, "away/second.db")
    assert run(line.split()) == refusal("device")
    assert read(LOG_BESIDE_LINK) == log
