"""What each command prints and how it ends: runs on one store, inventories, and where `serve` listens."""

import os
import re
import socket
from collections.abc import Callable, Iterator

import pytest

from lib.messages import get, reply
from lib.peers import exchanged
from lib.program import ROOT, run
from lib.runs import Story, begun, number_runs, read_runs
from lib.scratch import read
from lib.servers import Server
from lib.stores import new_store

LIB_FILES = {"go.mod": "module example.com/lib\n", "zip": "", "long.mod": b" " * 1_048_577}
LIB = read_runs(
    """
init --db store.db | 0
init --db store.db | 1 not-empty
team-add --db store.db --team common | 1 name
team-add --db store.db --team alpha | 0
team-add --db store.db --team alpha | 1 taken
key-add --db store.db --shelf alpha --key shortkey1234567 | 1 name
key-add --db store.db --shelf alpha --key A | 0
key-add --db store.db --shelf alpha --key A | 1 taken
key-add --db store.db --shelf nosuch --key A | 1 no-team
key-add --db store.db --shelf alpha --key R --read-only | 0
key-revoke --db store.db --key B | 1 no-key
answer --db store.db | 0
answer --db store.db < A example.com/lib/@v/v1.0.0.mod | 0
    404 not found
publish --db store.db --key A --module example.com/lib --version v1.0.0 --mod go.mod --zip zip | 0
    201 published
publish --db store.db --key A --module example.com/lib --version v1.0.0 --mod go.mod --zip zip | 0
    200 already published
publish --db store.db --key R --module example.com/lib --version v1.0.0 --mod go.mod --zip zip | 1
    403 forbidden
publish --db store.db --key B --module example.com/lib --version v1.0.0 --mod go.mod --zip zip | 1
    404 not found
publish --db store.db --key A --module example.com/!lib --version v1.0.0 --mod go.mod --zip zip | 1
    404 not found
publish --db store.db --key A --module example.com/lib --version v1 --mod go.mod --zip zip | 1
    404 not found
publish --db store.db --key A --module example.com/lib --version v1.1.0 --mod go.mod --zip zip --time= | 1
    422 bad-time
publish --db store.db --key A --module example.com/Lib --version v1.0.0 --mod go.mod --zip zip | 1
    422 module-path
publish --db store.db --key A --module example.com/lib --version v1.1.0 --mod long.mod --zip zip | 1
    413 too large
publish --db store.db --key A --module example.com/lib --version v1.0.0 --mod go.mod --zip none | 1 io
publish --db store.db --key N --module none --version none --mod . --zip zip | 1 io
answer --db store.db < A example.com/lib/@v/v1.0.0.mod | 0
    200 module example.com/lib
key-revoke --db store.db --key A | 0
answer --db store.db < A example.com/lib/@v/v1.0.0.mod | 0
    404 not found
team-add --db store.db --team beta | 0
key-add --db store.db --shelf beta --key A | 0
answer --db store.db < A example.com/lib/@v/v1.0.0.mod | 0
    404 not found
init --db store.db | 1 not-empty
"""
)
SEEN_FILES = {
    "x.mod": "module example.com/x\n",
    "y.mod": "module example.com/y\n",
    "requires.mod": (
        "module example.com/y\nrequire (\nexample.com/z v0.2.0\nexample.com/x v1.0.0\n)\nrequire mymod v0.0.0\n"
    ),
    "one": "X",
    "none": "",
}
SEEN = read_runs(
    """
team-add --db store.db --team alpha | 0
team-add --db store.db --team beta | 0
key-add --db store.db --shelf common --key C | 0
key-add --db store.db --shelf alpha --key A | 0
key-add --db store.db --shelf alpha --key R --read-only | 0
key-add --db store.db --shelf beta --key B | 0
inventory --db store.db --key B | 0
    path,version,shelf,class,time,mod_bytes,zip_bytes
publish --db store.db --key C --module example.com/x --version v1.0.0 --mod x.mod --zip one | 0
    201 published
publish --db store.db --key A --module example.com/y --version v1.0.0 --mod y.mod --zip one | 0
    201 published
publish --db store.db --key C --module example.com/y --version v1.0.0 --mod y.mod --zip one | 0
    201 published
inventory --db store.db --key B | 0
    path,version,shelf,class,time,mod_bytes,zip_bytes
    example.com/x,v1.0.0,common,release,,21,1
    example.com/y,v1.0.0,common,release,,21,1
publish --db store.db --key A --module example.com/y --version v1.10.0 --mod y.mod --zip none --time \
2024-01-31T23:59:59Z | 0
    201 published
publish --db store.db --key A --module example.com/y --version v1.9.0 --mod requires.mod --zip none | 0
    201 published
publish --db store.db --key A --module example.com/y --version v1.10.0-rc.1 --mod y.mod --zip none | 0
    201 published
publish --db store.db --key A --module example.com/y --version v1.9.1-0.20240102030405-aaaaaaaaaaaa --mod y.mod --zip \
none | 0
    201 published
inventory --db store.db --key R | 0
    path,version,shelf,class,time,mod_bytes,zip_bytes
    example.com/x,v1.0.0,common,release,,21,1
    example.com/y,v1.0.0,alpha,release,,21,1
    example.com/y,v1.9.0,alpha,release,,96,0
    example.com/y,v1.9.1-0.20240102030405-aaaaaaaaaaaa,alpha,pseudo,2024-01-02T03:04:05Z,21,0
    example.com/y,v1.10.0-rc.1,alpha,pre,,21,0
    example.com/y,v1.10.0,alpha,release,2024-01-31T23:59:59Z,21,0
inventory --db store.db --key N | 1 no-key
requires --db store.db --key R --module example.com/y --version v1.9.0 | 0
    example.com/z v0.2.0
    example.com/x v1.0.0
    mymod v0.0.0
requires --db store.db --key R --module example.com/y --version v1.10.0 | 0
requires --db store.db --key B --module example.com/y --version v1.9.0 | 1 not-found
requires --db store.db --key N --module example.com/y --version v1.9.0 | 1 not-found
requires --db store.db --key R --module example.com//y --version v1.9.0 | 1 not-found
requires --db store.db --key R --module example.com/y --version 1.9.0 | 1 not-found
"""
)
# a command that finds what another left was run on the file that the other closed
CLOSED_FILES = {"bytes.db": "bytes\n"}
CLOSED = read_runs(
    """
init --db nosuch/other.db | 1 device
init --db bytes.db | 1 not-empty
init --db shelves.db | 0
team-add --db nosuch/other.db --team alpha | 1 device
team-add --db shelves.db --team alpha | 0
team-add --db shelves.db --team alpha | 1 taken
key-add --db shelves.db --shelf beta --key B | 1 no-team
key-add --db shelves.db --shelf alpha --key A | 0
key-add --db shelves.db --shelf alpha --key A | 1 taken
inventory --db shelves.db --key B | 1 no-key
inventory --db shelves.db --key A | 0
    path,version,shelf,class,time,mod_bytes,zip_bytes
extract --db shelves.db --team alpha --to bytes.db | 1 not-empty
migrate --from shelves.db --to bytes.db | 1 not-empty
team-add --control shelves.db --team alpha | 1 device
copy --control shelves.db --to new.db | 1 device
ping --control shelves.db | 1 device
key-list --control shelves.db | 1 device
catalog --control shelves.db --key A | 1 device
stop --control shelves.db | 1 device
inventory --db shelves.db --key A | 0
    path,version,shelf,class,time,mod_bytes,zip_bytes
"""
)


@pytest.fixture(scope="module")
def one_store() -> Iterator[Story]:
    with begun(LIB, LIB_FILES) as story:
        yield story


@pytest.mark.parametrize(**number_runs(LIB))
def test_run_on_one_store(one_store: Story, number: int) -> None:
    one_store.check(number)


@pytest.fixture(scope="module")
def seen() -> Iterator[Story]:
    with begun(SEEN, SEEN_FILES) as story:
        yield story


@pytest.mark.parametrize(**number_runs(SEEN))
def test_run_of_what_a_shelf_sees(seen: Story, number: int) -> None:
    seen.check(number)


@pytest.fixture(scope="module")
def closed() -> Iterator[Story]:
    with begun(CLOSED, CLOSED_FILES) as story:
        yield story


@pytest.mark.parametrize(**number_runs(CLOSED))
def test_run_on_the_store_that_the_last_one_closed(closed: Story, number: int) -> None:
    closed.check(number)


@pytest.fixture(scope="module")
def readme() -> str:
    return read(os.path.join(ROOT, "README.md")).decode()


@pytest.fixture(scope="module")
def replies(readme: str) -> bytes:
    return read(os.path.join(ROOT, re.search(r"bytes of `(\S+)`", readme)[1]))


def test_first_command_of_the_readme(readme: str, replies: bytes) -> None:
    words, stream = re.search(r"^\./goshelf --unproved (answer .*) < (\S+)$", readme, re.M).groups()
    assert run(words.split(), read(os.path.join(ROOT, stream))) == (0, replies, "")


def test_readme_counts_the_bytes(readme: str, replies: bytes) -> None:
    assert int(re.search(r"writes the (\d+)\s+bytes", readme)[1]) == len(replies)


def test_serve_of_no_connections_prints_its_port(folder: str) -> None:
    new_store("store.db")
    status, output, errors = run("serve --db store.db --port 0 --connections 0".split())
    assert (status, errors) == (0, "")
    line = re.fullmatch(rb"listening on 127\.0\.0\.1:(\d+)\n", output)
    assert line and 0 < int(line[1]) < 65_536, output


def test_serve_on_a_port_that_is_taken(folder: str) -> None:
    new_store("store.db")
    with socket.create_server(("127.0.0.1", 0)) as taken:
        words = f"serve --db store.db --port {taken.getsockname()[1]} --connections 0"
        assert run(words.split()) == (1, b"", "goshelf: io\n")


def test_serve_listens_at_one_address(folder: str, serve: Callable[..., Server]) -> None:
    new_store("store.db")
    server = serve("store.db", None, "--connections", "1")
    request = get("example.com/lib/@v/list")
    with pytest.raises(ConnectionRefusedError):
        exchanged(server.port, request, "127.0.0.2")
    assert exchanged(server.port, request, "127.0.0.1") == reply(404, b"not found\n")
    assert server.child.wait(60) == 0
