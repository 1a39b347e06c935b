"""A migration onto a full disk, or one that is killed, leaves the old store as it was.

The new store has `common` alone or all. The sizes of the disks, small tmpfs, and the moments of the kills are random:
GOSHELF_SEED=N repeats a run. --long has 1,000 kills.
"""

import os
import random
import shutil
import subprocess
import time
from collections import Counter
from collections.abc import Iterator
from dataclasses import dataclass

import pytest

from lib.keys import KEYS
from lib.kills import RANDOM, print_seed
from lib.messages import get, raw_replies
from lib.older import OWN, SHARED, put_entry
from lib.program import PROGRAM, refusal, run
from lib.runs import Ending
from lib.scratch import entered_folder, files_of, mounted
from lib.stores import remove_store
from lib.tables import connected, order_key, rank_key, rows_of, settled

SHORT, LONG = 100, 1_000
DONE: Ending = (0, b"", "")
# versions of the store that is migrated onto small disks, and of the one whose migration is killed
ON_DISKS, ON_KILLS = 60, 30
# the most pages of a disk that is too small for the store, and some more
MOST_PAGES = 1_500


def pytest_generate_tests(metafunc: pytest.Metafunc) -> None:
    if "turn" in metafunc.fixturenames:
        metafunc.parametrize("turn", range(LONG if metafunc.config.getoption("--long") else SHORT))


def requests_for(count: int) -> bytes:
    """Returns the requests for the zips of this many versions, their list and the latest."""
    targets = [f"example.com/many/@v/v1.0.{number}.zip" for number in range(count)]
    targets += ["example.com/many/@v/list", "example.com/many/@latest"]
    return b"".join(get(target, KEYS["A"]) for target in targets)


def make_old_store(file: str, count: int) -> None:
    """Makes a store of schema 2 with this many versions of 40,000 bytes."""
    conn = connected(file)
    for text in (*SHARED, *OWN[2]):
        conn.execute(text)
    conn.execute("BEGIN")
    conn.execute("INSERT INTO meta VALUES ('schema', 2)")
    conn.execute("INSERT INTO shelf VALUES ('common')")
    conn.execute("INSERT INTO shelf VALUES ('alpha')")
    conn.execute("INSERT INTO access VALUES (?, 'alpha', 1)", (KEYS["A"],))
    for number in range(count):
        version, gomod = f"v1.0.{number}", b"module example.com/many\n"
        row = (number, "alpha", "example.com/many", version, None, gomod, order_key(version), rank_key(version))
        put_entry(conn, 2, row, random.Random(number).randbytes(40_000))
    conn.execute("COMMIT")
    settled(conn)


def is_common_alone(file: str) -> bool:
    """Whether a store has `common` alone, or is none: no file, or one without tables."""
    if not os.path.exists(file):
        return True
    conn = connected(file)
    tables = conn.execute("SELECT count(*) FROM sqlite_schema").fetchone()[0]
    settled(conn)
    return tables == 0 or rows_of(file) == ([[("schema", 3)], []], [("common", "")], [])


@dataclass(frozen=True)
class OnDisk:
    """A migration onto a disk of some pages, and the one after it where that disk was full and grew."""

    pages: int
    ending: Ending
    is_old_unchanged: bool
    # what was left of the new store
    is_common_alone: bool = True
    # the files on the disk that are not of the new store
    others: tuple[str, ...] = ()
    ending_with_room: Ending = DONE
    versions: int = ON_DISKS


def migrate_onto(pages: int, before: dict[str, bytes]) -> OnDisk:
    """Migrates onto a disk of some pages, and again with more room if that is too small."""
    new, words = "small/new.db", ["migrate", "--from", "old.db", "--to", "small/new.db"]
    ending = run(words)
    is_unchanged = files_of() == before
    if ending == DONE:
        return OnDisk(pages, ending, is_unchanged)
    others = tuple(name for name in os.listdir("small") if not name.startswith("new.db"))
    subprocess.run(["mount", "-o", "remount,size=64m", "small"], check=True)
    shutil.copytree("small", "left")
    is_alone = is_common_alone("left/new.db")
    shutil.rmtree("left")
    return OnDisk(pages, ending, is_unchanged, is_alone, others, run(words), len(rows_of(new)[2]))


@pytest.mark.root
@pytest.mark.needs("umount")
class TestFullDisks:
    """Disks of more and more pages, until one has room for all."""

    @pytest.fixture(scope="class")
    def disks(self, class_folder: str) -> list[OnDisk]:
        print_seed()
        make_old_store("old.db", ON_DISKS)
        before = files_of()
        os.mkdir("small")
        disks: list[OnDisk] = []
        pages = 1
        while not disks or disks[-1].ending != DONE:
            assert pages < MOST_PAGES, "a disk that is large enough does not suffice"
            if not mounted("small", pages * 4_096):
                pytest.skip("no tmpfs can be mounted")
            try:
                disks.append(migrate_onto(pages, before))
                if disks[-1].ending == DONE:
                    shutil.copytree("small", "done")
            finally:
                subprocess.run(["umount", "small"], check=True)
            pages += RANDOM.randrange(1, 120)
        return disks

    def test_some_disks_are_full(self, disks: list[OnDisk]) -> None:
        assert len(disks) > 3

    def test_old_store_is_as_it_was(self, disks: list[OnDisk]) -> None:
        for disk in disks:
            assert disk.is_old_unchanged, f"a disk of {disk.pages} pages"

    def test_full_disk_is_refused(self, disks: list[OnDisk]) -> None:
        for disk in disks[:-1]:
            assert disk.ending == refusal("device"), f"a disk of {disk.pages} pages"

    def test_no_copy_of_the_old_store_is_left(self, disks: list[OnDisk]) -> None:
        for disk in disks:
            assert disk.others == (), f"a disk of {disk.pages} pages"

    def test_what_is_left_has_common_alone(self, disks: list[OnDisk]) -> None:
        for disk in disks:
            assert disk.is_common_alone, f"a disk of {disk.pages} pages"

    def test_what_is_left_is_taken_with_more_room(self, disks: list[OnDisk]) -> None:
        for disk in disks:
            assert disk.ending_with_room == DONE, f"a disk of {disk.pages} pages"
            assert disk.versions == ON_DISKS, f"a disk of {disk.pages} pages"

    def test_disk_with_room_has_all(self, disks: list[OnDisk]) -> None:
        status, written, errors = run(["answer", "--db", "done/new.db"], requests_for(ON_DISKS))
        assert (status, errors) == (0, "")
        replies = raw_replies(written)
        assert len(replies) == ON_DISKS + 2
        assert {reply.split()[1] for reply in replies} == {b"200"}


def run_and_kill(words: list[str], wait: float) -> bool:
    """Runs goshelf and kills it after some seconds. Returns whether it had ended before."""
    child = subprocess.Popen([PROGRAM, *words], stdout=subprocess.DEVNULL, stderr=subprocess.DEVNULL)
    try:
        child.wait(wait)
        return True
    except subprocess.TimeoutExpired:
        child.kill()
        child.wait()
        return False


class Kills:
    """Migrations that are killed. `wrong` has what each broke, or nothing, and `ends` counts what they left: no new
    store, one that has `common` alone, the whole, or a copy of the old one."""

    def __init__(self, count: int) -> None:
        make_old_store("old.db", ON_KILLS)
        self.requests = requests_for(ON_KILLS)
        self.before = files_of()
        self.ends: Counter[str] = Counter()
        begun = time.monotonic()
        assert run(["migrate", "--from", "old.db", "--to", "first.db"]) == DONE
        self.seconds = time.monotonic() - begun
        self.replies, self.rows = run(["answer", "--db", "first.db"], self.requests), rows_of("first.db")
        self.wrong: list[str] = []
        for turn in range(count):
            self.wrong.append(self.kill(f"{turn}.db"))
            remove_store(f"{turn}.db")

    def kill(self, new: str) -> str:
        """Kills a migration at any moment, and runs it again. Returns what is wrong, or nothing."""
        words = ["migrate", "--from", "old.db", "--to", new]
        was_done = run_and_kill(words, self.seconds * 1.1 * RANDOM.random())
        # a kill while it copies leaves the copy
        for name in [name for name in os.listdir(".") if name.startswith("goshelf-")]:
            os.remove(name)
            self.ends["copy"] += 1
        if {name: content for name, content in files_of().items() if name.startswith("old.db")} != self.before:
            return "the old store is changed"
        was_there, again = os.path.exists(new), run(words)
        if again == DONE and not was_done:
            self.ends["common" if was_there else "none"] += 1
        elif again == refusal("not-empty"):
            self.ends["whole"] += 1
        else:
            return f"the run after it ended as {again}"
        if rows_of(new) != self.rows:
            return "the new store is not whole"
        return "" if run(["answer", "--db", new], self.requests) == self.replies else "it answers otherwise"


class TestKills:
    """A kill at any moment: the old store is as it was, and the new one has `common` alone, which is taken, or all."""

    @pytest.fixture(scope="class")
    def kills(self, is_long: bool) -> Iterator[Kills]:
        print_seed()
        with entered_folder():
            kills = Kills(LONG if is_long else SHORT)
            print(f"{len(kills.wrong)} kills left {dict(kills.ends)}")
            yield kills

    def test_kill_breaks_nothing(self, kills: Kills, turn: int) -> None:
        assert kills.wrong[turn] == ""

    def test_some_kills_leave_a_store_that_is_taken(self, kills: Kills) -> None:
        assert kills.ends["common"] > 0
