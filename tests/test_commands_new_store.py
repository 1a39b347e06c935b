"""Commands on a file that is missing or empty: who says that the store is new, and who leaves no file."""

import os
import pty
import socket
import subprocess
import tty
from collections.abc import Iterator

import pytest

from lib.messages import get, put, reply
from lib.program import NOBODY, PROGRAM, can_be_nobody, refusal, run
from lib.runs import Ending, Run, read_runs
from lib.scratch import write
from lib.servers import NEW_STORE

# what a command says about a file that is missing or empty
NEW_FILE = "new store: the file of --db is missing or empty\n"
FILES = {
    "go.mod": "module example.com/lib\n",
    "empty": "",
    "list.csv": "path,version,time,mod,zip\nexample.com/lib,v1.0.0,,go.mod,empty\n",
}
# commands that write to a store, and how they end on a new one
WRITES = read_runs(
    """
team-add --db {} --team alpha | 0
group-add --db {} --group platform | 0
key-add --db {} --shelf common --key C | 0
key-revoke --db {} --key C | 1 no-key
key-revoke --db {} --fingerprint 4ae6c4eb38bf8b54 | 1 no-key
key-revoke --db {} --shelf alpha --all | 1 no-team
key-add --db {} --shelf alpha --new | 1 no-team
publish --db {} --key C --module example.com/lib --version v1.0.0 --mod go.mod --zip empty | 1
    404 not found
import --db {} --key C --list list.csv | 1
    1 404 not found
"""
)
# commands that only read, on a file that is missing
READS = read_runs(
    """
inventory --db none.db --key A | 1 no-key
catalog --db none.db --key A | 1 no-key
requires --db none.db --key A --module example.com/lib --version v1.0.0 | 1 not-found
key-list --db none.db | 0
shelf-list --db none.db | 0
    common common
answer --db none.db | 0
answer --db none.db < A example.com/lib/@v/list | 0
    404 not found
inventory --db away/none.db --key A | 1 no-key
inventory --db none/none.db --key A | 1 device
inventory --db none.db/ --key A | 1 device
inventory --db nowhere --key A | 1 device
inventory --db :memory: --key A | 1 device
inventory --db file:none.db --key A | 1 device
inventory --db= --key A | 1 device
"""
)
# commands that do not say it, or whose store is not new; the first makes the store of the last
SILENT = ["init --db init.db", "inventory --db none.db --key C", "answer --db none.db"]


def serve(store: str, port: int = 0) -> Ending:
    """Runs `serve` for no connection."""
    return run(["serve", "--db", store, "--port", str(port), "--connections", "0"])


@pytest.mark.parametrize("content", [None, b""], ids=["missing", "empty"])
def test_serve_says_once_that_its_store_is_new(folder: str, content: bytes | None) -> None:
    write({} if content is None else {"store.db": content})
    status, _, errors = serve("store.db")
    assert (status, errors) == (0, NEW_STORE)
    status, _, errors = serve("store.db")
    assert (status, errors) == (0, "")


@pytest.mark.parametrize(
    ("store", "ending"),
    [
        ("bad.db", refusal("bad-schema")),
        (".", refusal("device")),
        ("none/none.db", (1, b"", NEW_STORE + "goshelf: device\n")),
    ],
    ids=["bytes that are no store", "a folder", "in a folder that is missing"],
)
def test_serve_refuses(folder: str, store: str, ending: Ending) -> None:
    write({"bad.db": b"no store"})
    assert serve(store) == ending


def test_serve_on_a_missing_file_and_a_port_that_is_taken(folder: str) -> None:
    with socket.create_server(("127.0.0.1", 0)) as taken:
        assert serve("other.db", taken.getsockname()[1]) == (1, b"", NEW_STORE + "goshelf: io\n")


def test_team_add_says_nothing_without_a_terminal(folder: str) -> None:
    assert run("team-add --db team.db --team alpha".split()) == (0, b"", "")


def run_at_terminal(words: list[str]) -> Ending:
    """Runs goshelf with a terminal as standard error, and returns its status, its output, and what it printed there."""
    ours, theirs = pty.openpty()
    tty.setraw(theirs)
    how = {"stdin": subprocess.DEVNULL, "stdout": subprocess.PIPE, "stderr": theirs, "timeout": 120}
    ran = subprocess.run([PROGRAM, *words], **how)
    os.write(theirs, b".")
    shown = b""
    while not shown.endswith(b"."):
        shown += os.read(ours, 65_536)
    os.close(ours)
    os.close(theirs)
    return ran.returncode, ran.stdout, shown[:-1].decode()


@pytest.mark.parametrize("content", [None, b""], ids=["missing", "empty"])
@pytest.mark.parametrize("write_run", WRITES, ids=str)
def test_terminal_shows_that_a_store_is_new(folder: str, write_run: Run, content: bytes | None) -> None:
    write(FILES if content is None else {**FILES, "store.db": content})
    words = [word.format("store.db") for word in write_run.words]
    status, output, errors = write_run.wanted
    assert run_at_terminal(words) == (status, output, NEW_FILE + errors)
    assert NEW_FILE not in run_at_terminal(words)[2]


def test_terminal_shows_a_new_store_in_a_missing_folder(folder: str) -> None:
    words = "team-add --db none/a.db --team alpha".split()
    assert run_at_terminal(words) == (1, b"", NEW_FILE + "goshelf: device\n")


@pytest.mark.parametrize("line", SILENT)
def test_terminal_does_not_show_it_for_other_commands(folder: str, line: str) -> None:
    assert "new store" not in run_at_terminal(line.split())[2]


def test_terminal_does_not_show_it_after_init(folder: str) -> None:
    assert "new store" not in run_at_terminal("init --db init.db".split())[2]
    assert "new store" not in run_at_terminal("team-add --db init.db --team alpha".split())[2]


@pytest.fixture
def places(folder: str) -> Iterator[None]:
    """A folder beside the missing files, and a link to a missing folder. Nothing else may be there in the end."""
    os.mkdir("away")
    os.symlink("none/store.db", "nowhere")
    yield
    assert (sorted(os.listdir(".")), os.listdir("away")) == (["away", "nowhere"], [])


@pytest.mark.parametrize("read_run", READS, ids=str)
def test_reading_leaves_no_file(places: None, read_run: Run) -> None:
    assert run(list(read_run.words), read_run.requests) == read_run.wanted


def test_publish_to_a_missing_file_leaves_none(places: None) -> None:
    requests = put("example.com/lib", "v1.0.0", b"module example.com/lib\n") + get("-/modules")
    assert run(["answer", "--db", "none.db"], requests) == (0, reply(404, b"not found\n") * 2, "")


@pytest.mark.root
@pytest.mark.skipif(not can_be_nobody(), reason="root cannot become nobody here")
def test_reading_where_nothing_may_be_made(folder: str) -> None:
    words = "inventory --db none.db --key alphakey00000001".split()
    assert run(words, before=NOBODY) == refusal("device")
