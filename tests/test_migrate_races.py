"""`migrate` while sqlite3 commits to the older store: the commit stays, whichever call of the system it comes behind.

strace stops the program for a moment behind its first call on the older file or its log, then behind its second, and so
on. Meanwhile sqlite3 commits a key, and ends without a checkpoint, so that the key stands in the log alone. Without
--long every third call is tried.
"""

import contextlib
import os
import shutil
import subprocess
import sys
import tempfile
from collections.abc import Callable, Collection, Iterator, Sequence
from typing import NamedTuple

import pytest

from lib.older import LATE_KEY, fill_whole_store, older, with_log
from lib.ports import wait_until
from lib.program import NOBODY, PROGRAM, can_be_nobody, refusal, run
from lib.runs import Ending
from lib.scratch import files_of, read
from lib.stores import remove_store
from lib.tables import connected, rows_of

DONE: Ending = (0, b"", "")
# a program that commits a key to a store, and ends without a checkpoint; for some seconds it waits for a lock
COMMITS = """
import os, sqlite3, sys
conn = sqlite3.connect(sys.argv[1], timeout=20, isolation_level=None)
conn.execute("PRAGMA wal_autocheckpoint = 0")
conn.execute("INSERT INTO access VALUES (?, 'alpha', 1)", (sys.argv[2],))
os._exit(0)
"""
KEY = "racekey000000001"
# the calls of the system behind which the program is stopped, and for how many microseconds
CALLS = "openat,close,fcntl,read,pread64,write,pwrite64,unlink,unlinkat,ftruncate,fsync,fdatasync,statx,newfstatat"
CALLS += ",fstat,lseek"
PAUSE = 400_000
# more calls on both files than a run makes
MOST = 400
NEW = "new.db"
# how a migration may end during which another program commits
DONE_OR_DEVICE = ((0, ""), (1, "goshelf: device\n"))


class Base(NamedTuple):
    """A folder with the folders `marked` and `logged`, each with an older store: one without a log, whose file says
    that it has one, and one with a log."""

    folder: str

    def copy(self, name: str, to: str) -> None:
        shutil.copytree(f"{self.folder}/{name}", to)


@pytest.fixture(scope="module")
def base() -> Iterator[Base]:
    with tempfile.TemporaryDirectory(prefix="goshelf-") as folder:
        with contextlib.chdir(folder):
            fill_whole_store()
            with_log("logged", 2)
            os.mkdir("marked")
            older("marked/old.db", 2)
            conn = connected("marked/old.db")
            assert conn.execute("PRAGMA journal_mode = WAL").fetchone() == ("wal",)
            conn.close()
            assert os.listdir("marked") == ["old.db"]
        yield Base(folder)


def keys_of(folder: str) -> set[str]:
    """Returns the keys that sqlite3 finds in the store of a folder, by a copy of it."""
    shutil.rmtree("looked", ignore_errors=True)
    shutil.copytree(folder, "looked")
    conn = connected("looked/old.db")
    found = {key for (key,) in conn.execute("SELECT token FROM access")}
    conn.close()
    return found


class Race(NamedTuple):
    """A migration that was stopped behind one of its calls: how it ended, how the commit did, and whether there were
    as many calls."""

    ending: tuple[int, str]
    commit: tuple[int, str]
    is_reached: bool


def count_lines(trace: str) -> int:
    return read(trace).count(b"\n") if os.path.exists(trace) else 0


def race(folder: str, to: str, turn: int, before: Sequence[str]) -> Race:
    """Runs `migrate`, stopped behind one of its calls on both files, and meanwhile commits a key."""
    trace = os.path.abspath("trace")
    with contextlib.suppress(FileNotFoundError):
        os.remove(trace)
    old = os.path.abspath(f"{folder}/old.db")
    watch = ["strace", "-f", "-qq", "-o", trace, "-P", old, "-P", f"{old}-wal", "-e", f"trace={CALLS}"]
    watch += ["-e", f"inject={CALLS}:delay_exit={PAUSE}:when={turn}", *before]
    words = [*watch, PROGRAM, "migrate", "--from", old, "--to", to]
    child = subprocess.Popen(words, stdout=subprocess.DEVNULL, stderr=subprocess.PIPE, text=True)
    wait_until(lambda: count_lines(trace) >= turn or child.poll() is not None, 120)
    commit = subprocess.run([sys.executable, "-c", COMMITS, old, KEY], capture_output=True, text=True)
    errors = child.communicate(timeout=120)[1]
    return Race((child.returncode, errors), (commit.returncode, commit.stderr), count_lines(trace) >= turn)


def check_races(
    base: Base,
    name: str,
    is_long: bool,
    to: str = NEW,
    before: Sequence[str] = (),
    endings: Collection[tuple[int, str]] = (),
) -> None:
    """Checks a commit behind one call after another: it stays, and the new store has the rows from before it, or from
    after it. `migrate` has to end in one of some ways, if any are named."""
    tried = 0
    for turn in range(1, MOST, 1 if is_long else 3):
        base.copy(name, "folder")
        keys = keys_of("folder")
        found = race("folder", to, turn, before)
        about = f"behind call {turn}: {found}"
        assert found.commit == (0, ""), f"sqlite3 could not commit {about}"
        assert keys_of("folder") == keys | {KEY}, about
        assert not endings or found.ending in endings, about
        if found.ending == (0, ""):
            assert {row[0] for row in rows_of(to)[0][1]} in (keys, keys | {KEY}), f"the new store has others {about}"
        shutil.rmtree("folder")
        if to == NEW:
            remove_store(to)
        if not found.is_reached:
            break
        tried += 1
    assert tried > 2


@pytest.mark.needs("strace")
class TestNoLog:
    def test_commit_stays(self, folder: str, base: Base, is_long: bool) -> None:
        check_races(base, "marked", is_long, endings=DONE_OR_DEVICE)


@pytest.mark.needs("strace")
class TestLog:
    def test_commit_stays(self, folder: str, base: Base, is_long: bool) -> None:
        check_races(base, "logged", is_long, endings=DONE_OR_DEVICE)


@pytest.mark.needs("strace")
class TestNewStoreThatIsNotEmpty:
    def test_commit_stays(self, folder: str, base: Base, is_long: bool) -> None:
        assert run(["team-add", "--db", "team.db", "--team", "alpha"]) == DONE
        check_races(
            base, "marked", is_long, "team.db", endings=[(1, refusal(word)[2]) for word in ("not-empty", "device")]
        )


@pytest.mark.root
@pytest.mark.needs("strace", "setpriv")
class TestReadOnlyFile:
    """The file is locked as a reader does, which does not hold off a program that keeps a log."""

    def test_commit_stays(self, folder: str, base: Base, is_long: bool) -> None:
        if not can_be_nobody():
            pytest.skip("no process can become nobody here")
        # (a copy has the rights of its original: nobody may only read it)
        for name in os.listdir(f"{base.folder}/logged"):
            os.chmod(f"{base.folder}/logged/{name}", 0o644)
        os.chmod(f"{base.folder}/logged", 0o755)
        os.chmod(".", 0o777)
        check_races(base, "logged", is_long, before=NOBODY)


@pytest.mark.parametrize(
    "more",
    [lambda log: log[32:], lambda log: log[32:800], lambda log: bytes(range(256)) * 40],
    ids=["frames", "a part of a frame", "other bytes"],
)
def test_log_with_bytes_behind_its_last_commit_keeps_them(
    folder: str, base: Base, more: Callable[[bytes], bytes]
) -> None:
    base.copy("logged", "two")
    with open("two/old.db-wal", "ab") as file:
        file.write(more(read("two/old.db-wal")))
    before = files_of("two")
    assert run(["migrate", "--from", "two/old.db", "--to", NEW]) == DONE
    assert files_of("two") == before
    assert (LATE_KEY, "beta", 1) in rows_of(NEW)[0][1]
    assert [name for name in os.listdir(".") if name.startswith("goshelf-")] == [], "a copy is left"
