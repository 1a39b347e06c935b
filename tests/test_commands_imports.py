"""Imports of lists, and what a shelf sees of them: stories of runs, each on a new store."""

import contextlib
from collections.abc import Iterator

import pytest

from lib.runs import Story, begun, number_stories, read_runs
from lib.worked import HEADER

# the files that are published
FILES = {
    "i.mod": "module example.com/i\n",
    "commented.mod": "module example.com/i // text\n",
    "x.mod": "module example.com/x\n",
    "y.mod": "module example.com/y\n",
    "requires.mod": (
        "module example.com/y\nrequire (\nexample.com/z v0.2.0\nexample.com/x v1.0.0\n)\nrequire mymod v0.0.0\n"
    ),
    "modul.mod": "modul example.com/i\n",
    "more.mod": "module example.com/i\nrequire example.com/x v1.0.0\n",
    "bad.mod": "module example.com/i\n\nrequire (\nexample.com/x 1.0.0\n)\n",
    "empty": "",
    "one": "X",
    # a byte longer than a go.mod may be
    "long.mod": b" " * 1_048_577,
}
# the lists, and those that are none
LISTS = {
    "two": HEADER + "example.com/i,v1.0.0,,i.mod,empty\n" + "example.com/i,v1.1.0,2024-01-01T00:00:00Z,i.mod,empty\n",
    "others": HEADER
    + "example.com/i,v1.0.0,,i.mod,one\n"
    + "example.com/i,v1.0.0,,commented.mod,empty\n"
    + "example.com/i,v1.0.0,2024-01-01T00:00:00Z,i.mod,empty\n",
    "one-row": HEADER + "example.com/i,v1.0.0,,i.mod,empty\n",
    "files": HEADER
    + "example.com/i,v1.2.0,,absent,empty\n"
    + "example.com/i,v1.2.0,,i.mod,absent\n"
    + "example.com//i,v1.2.0,,absent,absent\n"
    + "example.com/i,1.2.0,,absent,absent\n"
    + "example.com/i,v1.2.0,,i.mod,empty\n",
    "checks": HEADER
    + "example.com/i,v2.0.0,,i.mod,empty\n"
    + "example.com/i,v1.3.0,2024-02-30T00:00:00Z,i.mod,empty\n"
    + "example.com/i,v1.3.0,,long.mod,empty\n"
    + "example.com/i,v1.3.0,,bad.mod,empty\n"
    + "example.com/i,v1.3.0,,empty,empty\n"
    + "example.com/i,v1.3.0,,x.mod,empty\n"
    + "example.com/i,v1.0.0,,i.mod,one\n"
    + "example.com/i,v0.0.0-20240101000000-aaaaaaaaaaaa,2024-01-01T00:00:01Z,i.mod,empty\n"
    + "example.com/i,v2.1.0+incompatible,,more.mod,empty\n",
    "modul": HEADER + "example.com/i,v1.3.0,,modul.mod,empty\n",
    "no-text": HEADER.encode() + b"\xff,v1.0.0,,m,z\n",
    "header": HEADER,
    "none": "",
    "short-header": "path,version,time,mod\n",
    "other-header": "path,version,time,zip,mod\nexample.com/i,v1.3.0,,i.mod,empty\n",
    "short-row": HEADER
    + "example.com/i,v1.4.0,,i.mod,empty\n"
    + "example.com/i,v1.5.0,,i.mod\n"
    + "example.com/i,v1.5.0,,i.mod,empty\n",
    "long-row": HEADER + "example.com/i,v1.5.0,,i.mod,empty,more\n",
    "quoted": HEADER + "\n" + '"example.com/i",v1.6.0,"",i.mod,"one"\n' + "\n" + 'example.com/i,v1.6.0,,"i.mod",one',
    "of-common": HEADER + "example.com/x,v1.0.0,,x.mod,one\n" + "example.com/y,v1.0.0,,y.mod,one\n",
    "of-alpha": HEADER
    + "example.com/y,v1.0.0,,y.mod,empty\n"
    + "example.com/y,v1.10.0,2024-01-31T23:59:59Z,y.mod,empty\n"
    + "example.com/y,v1.9.0,,requires.mod,empty\n"
    + "example.com/y,v1.10.0-rc.1,,y.mod,empty\n"
    + "example.com/y,v1.9.1-0.20240102030405-aaaaaaaaaaaa,,y.mod,empty\n",
}

# a list that is imported twice and keeps its files, because others conflict with them; then with other keys
TWICE = """
team-add --db store.db --team beta | 0
key-add --db store.db --shelf alpha --key R --read-only | 0
key-add --db store.db --shelf beta --key B | 0
import --db store.db --key A --list two | 0
    1 201 published
    2 201 published
inventory --db store.db --key A | 0
    path,version,shelf,class,time,mod_bytes,zip_bytes
    example.com/i,v1.0.0,alpha,release,,21,0
    example.com/i,v1.1.0,alpha,release,2024-01-01T00:00:00Z,21,0
import --db store.db --key A --list two | 0
    1 200 already published
    2 200 already published
inventory --db store.db --key A | 0
    path,version,shelf,class,time,mod_bytes,zip_bytes
    example.com/i,v1.0.0,alpha,release,,21,0
    example.com/i,v1.1.0,alpha,release,2024-01-01T00:00:00Z,21,0
import --db store.db --key A --list others | 1
    1 409 conflict
    2 409 conflict
    3 409 conflict
import --db store.db --key N --list two | 1
    1 404 not found
    2 404 not found
import --db store.db --key R --list two | 1
    1 403 forbidden
    2 403 forbidden
inventory --db store.db --key B | 0
    path,version,shelf,class,time,mod_bytes,zip_bytes
import --db store.db --key B --list two | 0
    1 201 published
    2 201 published
"""
# rows that are refused, each by the first check that fails, and lists that end early
CHECKS = """
key-add --db store.db --shelf alpha --key R --read-only | 0
import --db store.db --key A --list one-row | 0
    1 201 published
import --db store.db --key A --list files | 1
    1 no file
    2 no file
    3 404 not found
    4 404 not found
    5 201 published
import --db store.db --key N --list files | 1
    1 no file
    2 no file
    3 404 not found
    4 404 not found
    5 404 not found
import --db store.db --key R --list files | 1
    1 no file
    2 no file
    3 404 not found
    4 404 not found
    5 403 forbidden
import --db store.db --key A --list checks | 1
    1 422 major-mismatch
    2 422 bad-time
    3 413 too large
    4 422 bad-gomod 4
    5 422 bad-gomod 0
    6 422 module-path
    7 409 conflict
    8 422 time-mismatch
    9 422 incompatible-gomod
import --db store.db --key A --list header | 0
import --db store.db --key A --list none | 1 bad-row
    0 bad row
import --db store.db --key A --list short-header | 1 bad-row
    0 bad row
import --db store.db --key A --list other-header | 1 bad-row
    0 bad row
import --db store.db --key A --list short-row | 1 bad-row
    1 201 published
    2 bad row
import --db store.db --key A --list long-row | 1 bad-row
    1 bad row
import --db store.db --key A --list quoted | 0
    1 201 published
    2 200 already published
inventory --db store.db --key A | 0
    path,version,shelf,class,time,mod_bytes,zip_bytes
    example.com/i,v1.0.0,alpha,release,,21,0
    example.com/i,v1.2.0,alpha,release,,21,0
    example.com/i,v1.4.0,alpha,release,,21,0
    example.com/i,v1.6.0,alpha,release,,21,1
"""
# what shelves see, and what versions require
REPORTS = """
team-add --db store.db --team beta | 0
key-add --db store.db --shelf alpha --key R --read-only | 0
key-add --db store.db --shelf beta --key B | 0
key-add --db store.db --shelf common --key C | 0
inventory --db store.db --key B | 0
    path,version,shelf,class,time,mod_bytes,zip_bytes
import --db store.db --key A --list of-alpha | 0
    1 201 published
    2 201 published
    3 201 published
    4 201 published
    5 201 published
import --db store.db --key C --list of-common | 0
    1 201 published
    2 201 published
inventory --db store.db --key B | 0
    path,version,shelf,class,time,mod_bytes,zip_bytes
    example.com/x,v1.0.0,common,release,,21,1
    example.com/y,v1.0.0,common,release,,21,1
inventory --db store.db --key R | 0
    path,version,shelf,class,time,mod_bytes,zip_bytes
    example.com/x,v1.0.0,common,release,,21,1
    example.com/y,v1.0.0,alpha,release,,21,0
    example.com/y,v1.9.0,alpha,release,,96,0
    example.com/y,v1.9.1-0.20240102030405-aaaaaaaaaaaa,alpha,pseudo,2024-01-02T03:04:05Z,21,0
    example.com/y,v1.10.0-rc.1,alpha,pre,,21,0
    example.com/y,v1.10.0,alpha,release,2024-01-31T23:59:59Z,21,0
inventory --db store.db --key N | 1 no-key
requires --db store.db --key R --module example.com/y --version v1.9.0 | 0
    example.com/z v0.2.0
    example.com/x v1.0.0
    mymod v0.0.0
requires --db store.db --key R --module example.com/y --version v1.10.0 | 0
requires --db store.db --key B --module example.com/y --version v1.9.0 | 1 not-found
requires --db store.db --key N --module example.com/y --version v1.9.0 | 1 not-found
requires --db store.db --key R --module example.com//y --version v1.9.0 | 1 not-found
requires --db store.db --key R --module example.com/y --version 1.9.0 | 1 not-found
"""
# a group with a member: why others are not added, and what the group and the teams see
GROUPS = """
group-add --db store.db --group common | 1 name
group-add --db store.db --group Platform | 1 name
group-add --db store.db --group alpha | 1 taken
group-add --db store.db --group platform | 0
group-add --db store.db --group platform | 1 taken
team-add --db store.db --team platform | 1 taken
team-add --db store.db --team gamma --group platform | 0
group-add --db store.db --group gamma | 1 taken
team-add --db store.db --team gamma --group nosuch | 1 taken
team-add --db store.db --team Eps --group nosuch | 1 name
team-add --db store.db --team eps --group nosuch | 1 no-group
team-add --db store.db --team eps --group common | 1 no-group
team-add --db store.db --team eps --group alpha | 1 no-group
team-add --db store.db --team eps --group gamma | 1 no-group
key-add --db store.db --shelf eps --key epskey0000000001 | 1 no-team
key-add --db store.db --shelf platform --key P | 0
key-add --db store.db --shelf gamma --key M | 0
key-add --db store.db --shelf common --key C | 0
import --db store.db --key C --list of-common | 0
    1 201 published
    2 201 published
import --db store.db --key P --list one-row | 0
    1 201 published
import --db store.db --key M --list two | 0
    1 200 already published
    2 201 published
import --db store.db --key M --list others | 1
    1 409 conflict
    2 409 conflict
    3 409 conflict
import --db store.db --key A --list others | 1
    1 201 published
    2 409 conflict
    3 409 conflict
inventory --db store.db --key P | 0
    path,version,shelf,class,time,mod_bytes,zip_bytes
    example.com/i,v1.0.0,platform,release,,21,0
    example.com/x,v1.0.0,common,release,,21,1
    example.com/y,v1.0.0,common,release,,21,1
inventory --db store.db --key M | 0
    path,version,shelf,class,time,mod_bytes,zip_bytes
    example.com/i,v1.0.0,platform,release,,21,0
    example.com/i,v1.1.0,gamma,release,2024-01-01T00:00:00Z,21,0
    example.com/x,v1.0.0,common,release,,21,1
    example.com/y,v1.0.0,common,release,,21,1
inventory --db store.db --key A | 0
    path,version,shelf,class,time,mod_bytes,zip_bytes
    example.com/i,v1.0.0,alpha,release,,21,1
    example.com/x,v1.0.0,common,release,,21,1
    example.com/y,v1.0.0,common,release,,21,1
"""
# lists that are no text, or not there, for a store and for none
UNREAD = """
import --db store.db --key A --list modul | 1
    1 422 bad-gomod 1
import --db store.db --key A --list no-text | 1 bad-row
    1 bad row
import --db store.db --key A --list nosuch | 1 io
import --db new.db --key A --list no-text | 1 bad-row
    1 bad row
import --db new.db --key A --list nosuch | 1 io
"""
# what each script begins with
BEGIN = """
init --db store.db | 0
team-add --db store.db --team alpha | 0
key-add --db store.db --shelf alpha --key A | 0
"""
STORIES = {
    "a list twice": read_runs(BEGIN + TWICE),
    "the checks of a row": read_runs(BEGIN + CHECKS),
    "what is seen": read_runs(BEGIN + REPORTS),
    "a group": read_runs(BEGIN + GROUPS),
    "lists that cannot be read": read_runs(BEGIN + UNREAD),
}


@pytest.fixture(scope="module")
def stories() -> Iterator[dict[str, Story]]:
    with contextlib.ExitStack() as folders:
        yield {name: folders.enter_context(begun(runs, FILES | LISTS)) for name, runs in STORIES.items()}


@pytest.mark.parametrize(**number_stories(STORIES))
def test_run(stories: dict[str, Story], story: str, number: int) -> None:
    stories[story].check(number)
