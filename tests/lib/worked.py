"""The store of the worked rows, filled by the program, and everything that is asked of it."""

import os
import shutil
from collections.abc import Iterable

from lib.keys import KEYS
from lib.messages import get, raw_replies
from lib.program import run
from lib.runs import Story

HEADER = "path,version,time,mod,zip\n"
FILES: dict[str, str] = {
    "none": "",
    "a": "a",
    "c": "c",
    "d": "d",
    "g": "g",
    "h": "h",
    "m": "m",
    "one": "X",
    **{
        f"{name}.mod": f"module example.com/{name}\n"
        for name in ("own", "lib", "Lib", "ps", "ra", "rb", "rc", "rd", "x", "y", "g", "h", "s")
    },
    "ra-next.mod": "module example.com/ra\nretract [v1.0.5, v1.1.0]\n",
    "rb-next.mod": "module example.com/rb\nretract v1.1.0\n",
    "rd.mod": "module example.com/rd\nretract v1.0.0\n",
    "many.csv": HEADER + "".join(f"example.com/own,v1.{n}.0,,own.mod,one\n" for n in range(1, 101)),
    "beta.csv": HEADER + "example.com/own,v1.0.0,,own.mod,one\n",
    "alpha.csv": (
        HEADER
        + """\
example.com/lib,v1.0.0,,lib.mod,none
example.com/y,v1.0.0,,y.mod,a
example.com/Lib,v1.0.0,,Lib.mod,none
example.com/lib,v2.0.0+incompatible,,lib.mod,none
example.com/rc,v1.0.0-rc.10,,rc.mod,none
example.com/rc,v1.0.0,,rc.mod,none
example.com/rc,v1.0.0-rc.2,,rc.mod,none
example.com/ps,v0.0.0-20240101000000-aaaaaaaaaaaa,,ps.mod,none
example.com/ps,v0.0.1-0.20230101000000-bbbbbbbbbbbb,,ps.mod,none
example.com/ra,v1.0.0,,ra.mod,none
example.com/ra,v1.1.0,,ra-next.mod,none
example.com/rb,v1.1.0,,rb.mod,none
example.com/rb,v1.2.0-rc.1,,rb-next.mod,none
example.com/rd,v1.0.0,,rd.mod,none
"""
    ),
    "common.csv": HEADER + "example.com/x,v1.0.0,,x.mod,one\nexample.com/y,v1.0.0,,y.mod,c\n",
    # group-publishes and chain-publishes, and a version of delta's own
    "gamma.csv": HEADER + "example.com/h,v1.0.0,,h.mod,m\n",
    "platform.csv": HEADER + "example.com/g,v1.0.0,,g.mod,g\nexample.com/h,v1.0.0,,h.mod,h\n",
    "common-h.csv": HEADER + "example.com/h,v1.0.0,,h.mod,c\n",
    "delta.csv": HEADER + "example.com/s,v1.0.0,,s.mod,d\n",
    "many-delta.csv": HEADER + "".join(f"example.com/s,v1.{n}.0,,s.mod,one\n" for n in range(1, 101)),
}

# each version of the store, and lib v9.0.0, which it lacks, as targets spell them
VERSIONS = """\
example.com/!lib v1.0.0
example.com/g v1.0.0
example.com/h v1.0.0
example.com/lib v1.0.0
example.com/lib v2.0.0%2Bincompatible
example.com/lib v9.0.0
example.com/own v1.0.0
example.com/ps v0.0.0-20240101000000-aaaaaaaaaaaa
example.com/ps v0.0.1-0.20230101000000-bbbbbbbbbbbb
example.com/ra v1.0.0
example.com/ra v1.1.0
example.com/rb v1.1.0
example.com/rb v1.2.0-rc.1
example.com/rc v1.0.0-rc.2
example.com/rc v1.0.0-rc.10
example.com/rc v1.0.0
example.com/rd v1.0.0
example.com/s v1.0.0
example.com/x v1.0.0
example.com/y v1.0.0"""
ADD_PLATFORM = """\
group-add --db {0} --group platform | 0
key-add --db {0} --shelf platform --key P | 0
team-add --db {0} --team gamma --group platform | 0
key-add --db {0} --shelf gamma --key M | 0
team-add --db {0} --team delta --group platform | 0
key-add --db {0} --shelf delta --key D | 0
"""
TARGETS = (
    "{0}/@v/{1}.info",
    "{0}/@v/{1}.mod",
    "{0}/@v/{1}.zip",
    "-/gosum/{0}/@v/{1}",
    "{0}/@v/list",
    "{0}/@latest",
    "-/modules",
)


def imports_of(file: str, more: str = "") -> str:
    """Returns the table of runs that imports the worked rows, after another list of beta's where one is named."""
    return imports(file, ("B", more), ("B", "beta.csv"), ("A", "alpha.csv"), ("C", "common.csv"))


def group_runs_of(file: str, more: str = "") -> str:
    """Returns the table of runs that adds the group platform and imports its rows and those of its teams, after another
    list of delta's where one is named."""
    lists = (("D", more), ("D", "delta.csv"), ("M", "gamma.csv"), ("P", "platform.csv"), ("C", "common-h.csv"))
    return ADD_PLATFORM.format(file) + imports(file, *lists)


def imports(file: str, *lists: tuple[str, str]) -> str:
    """Returns the table of runs that imports lists, each by the letter of a key and its name."""
    return "".join(
        f"import --db {file} --key {letter} --list {name} | 0\n{published(FILES[name].count(chr(10)) - 1)}"
        for letter, name in lists
        if name
    )


def published(count: int) -> str:
    """Returns what an import of this many versions prints, as a table of runs has it."""
    return "".join(f"    {number} 201 published\n" for number in range(1, count + 1))


def finish(story: Story) -> None:
    """Makes all runs of a story."""
    story.ending(len(story.runs) - 1)


def everything() -> list[str]:
    """Returns all targets of each version of the store, and of one that it lacks."""
    return [target.format(*line.split()) for line in VERSIONS.split("\n") for target in TARGETS]


def replies_of(file: str, requests: Iterable[bytes]) -> list[bytes]:
    """Has one run of `goshelf answer`, which must end well, answer requests. Returns the bytes of each reply."""
    status, output, errors = run(["answer", "--db", file], b"".join(requests), 600)
    assert (status, errors) == (0, ""), (status, errors)
    return raw_replies(output)


def seen_by(file: str, letter: str) -> list[tuple[str, bytes]]:
    """Asks a store for everything, by a key. Returns each target with the reply."""
    targets = everything()
    found = replies_of(file, [get(target, KEYS[letter]) for target in targets])
    assert len(found) == len(targets), len(found)
    return list(zip(targets, found))


def copy_store(source: str, to: str) -> None:
    """Copies the files of a store that no program has open."""
    for end in ("", "-wal"):
        if os.path.exists(source + end):
            shutil.copy(source + end, to + end)
