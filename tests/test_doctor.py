"""Each cause that goshelf-doctor finds for a refusal: of a file, its rights, its disk, its tables, and a socket.

Every test makes the cause and runs a command, which refuses by its word, and the doctor, which names the cause; where a
page names a remedy, the command is run again after it. Rights are tried as nobody, where the machine lets a process
become that; a full disk on a small tmpfs, where it lets one be mounted; sqlite3 by Python's own.
"""

import contextlib
import os
import shutil
import socket
import sqlite3
import subprocess
import sys
import threading
from collections.abc import Callable, Iterator, Sequence

import pytest

from lib.older import SCHEMA_1, SCHEMA_2
from lib.program import NOBODY, PROGRAM, can_be_nobody, done
from lib.refusals import DOCTOR, doctor, new_store, word
from lib.scratch import entered_folder, files_of, fill, read, small_disk, write
from lib.servers import Server
from lib.tables import change, reordered, settled

# what docs/REFERENCE.md has sqlite3 run in a new store, to take over the rows of a file f
TAKE_OVER = (
    "BEGIN",
    "INSERT INTO shelf SELECT name, parent FROM f.shelf WHERE name <> 'common'",
    "INSERT INTO access (token, shelf, publish) SELECT token, shelf, publish FROM f.access",
    (
        "INSERT INTO version (id, shelf, path, version, time, mod, order_key, rank_key) SELECT id, shelf, path,"
        " version, time, mod, order_key, rank_key FROM f.version"
    ),
    "INSERT INTO piece (version, number, bytes) SELECT version, number, bytes FROM f.piece",
    "COMMIT",
)
# ends in the middle of a transaction whose pages no longer fit into its cache
LEAVES_A_JOURNAL = """
import os, sqlite3, sys
other = sqlite3.connect(sys.argv[1], isolation_level=None)
for words in ("PRAGMA journal_mode = DELETE", "PRAGMA cache_size = 1", "BEGIN", "CREATE TABLE t (x)"):
    other.execute(words)
for _ in range(500):
    other.execute("INSERT INTO t VALUES (?)", ("x" * 1000,))
os._exit(0)
"""
# names of no file, or of none that a store could be in, and what the doctor says of them
NAMES = {
    "folder": "device: folder is a folder",
    "none/d.db": "device: there is no folder ",
    "": "device: '' does not name a file",
    ":memory:": "device: ':memory:' does not name a file",
    "d" * 4_100: "device: the path has more than 4087 bytes",
    "missing.db": "bad-schema: there is no file missing.db",
}
# rows and tables that sqlite3 puts into a store: the cause, the statement, and what the doctor says of it
ROWS = "the rows do not describe shelves: "
CHANGES = {
    "a row that means no shelf": (
        "INSERT INTO shelf VALUES ('No Team', 'common')", f"{ROWS}'No Team' is not a name"),
    "a parent that is no group": ("INSERT INTO shelf VALUES ('beta', 'alpha')", f"{ROWS}the parent of beta"),
    "a key of no shelf": ("INSERT INTO access VALUES ('nokey00000000001', 'none', 1)", f"{ROWS}a row of access"),
    "another schema": ("UPDATE meta SET value = 4", "d.db has schema 4"),
    "a table more": ("CREATE TABLE x (a INTEGER) STRICT", "d.db has other tables"),
    "ANALYZE": ("ANALYZE", "ANALYZE in sqlite3 added a table"),
}  # fmt: skip
OLDER = {"schema 1": (1, SCHEMA_1), "schema 2": (2, SCHEMA_2)}

needs_nobody = pytest.mark.skipif(not can_be_nobody(), reason="a process can't become nobody here")


@pytest.fixture(scope="module")
def files() -> dict[str, bytes]:
    """The files of a store with alpha."""
    with entered_folder():
        new_store("d.db")
        return files_of()


@pytest.fixture
def store(files: dict[str, bytes], folder: str) -> str:
    """A store with alpha, in a new folder."""
    write(files)
    return "d.db"


def find_cause(*words: str, before: Sequence[str] = ()) -> str:
    """Returns the one cause that goshelf-doctor finds, or nothing if it finds none."""
    ran = doctor(*words, before=before)
    lines = ran.stdout.splitlines()
    assert ran.stderr == ""
    if ran.returncode == 0:
        assert len(lines) == 1 and lines[0].startswith("no cause is found")
        return ""
    assert (ran.returncode, len(lines)) == (1, 2), ran.stdout
    assert lines[1].startswith("    ")
    return lines[0]


def add_team(store: str, team: str = "beta", before: Sequence[str] = ()) -> str:
    """Adds a team, and returns the word that the command ends with; nothing where it ends well."""
    return word(f"team-add --db {store} --team {team}", before=before)


def test_serve_has_the_store_open(store: str, serve: Callable[..., Server]) -> None:
    server = serve(store)
    assert add_team(store) == "device"
    assert f"device: process {server.child.pid} ({PROGRAM} serve) has d.db open" in find_cause("--db", store)
    server.stop()
    assert add_team(store) == ""
    assert find_cause("--db", store) == ""


def test_sqlite3_has_a_transaction(store: str) -> None:
    with contextlib.closing(sqlite3.connect(store, isolation_level=None)) as other:
        other.execute("BEGIN IMMEDIATE")
        assert add_team(store) == "device"
        assert f"device: process {os.getpid()} (" in find_cause("--db", store)
        other.execute("ROLLBACK")
    assert add_team(store) == ""


def test_a_store_has_a_second_name_by_a_hard_link(store: str) -> None:
    os.link(store, "second.db")
    assert add_team(store) == "device"
    assert "device: d.db has a second name, by a hard link" in find_cause("--db", store)
    os.remove("second.db")
    assert add_team(store) == ""


def test_another_program_left_a_journal(store: str) -> None:
    subprocess.run([sys.executable, "-c", LEAVES_A_JOURNAL, store], check=True)
    assert os.path.getsize("d.db-journal") > 0
    assert add_team(store) == "device"
    said = "device: another program with SQLite left a rollback journal, d.db-journal"
    assert said in find_cause("--db", store)
    left = sqlite3.connect(store)
    # sqlite3 plays it back
    assert left.execute("SELECT count(*) FROM shelf").fetchone() == (2,)
    settled(left)
    assert add_team(store) == ""


@pytest.mark.parametrize("name", ["d.db-journal", "d.db-wal", "d.db-shm"])
def test_a_name_of_sqlite_for_a_new_store(store: str, name: str) -> None:
    assert word(f"extract --db {store} --team alpha --to {name}") == "device"


def test_another_name_for_a_new_store(store: str) -> None:
    assert word(f"extract --db {store} --team alpha --to alpha.db") == ""


def test_a_log_whose_file_is_gone(store: str) -> None:
    os.rename(store, "away.db")
    said = "device: there is a log d.db-wal without d.db"
    assert add_team(store) == "device"
    assert said in find_cause("--db", store)
    write({store: b""})
    assert said in find_cause("--db", store)
    os.rename("away.db", store)
    assert add_team(store) == ""


def test_a_link_has_the_log_of_what_it_leads_to(store: str) -> None:
    os.symlink(store, "link")
    assert add_team("link") == ""
    assert find_cause("--db", "link") == ""
    write({store: b""})
    assert add_team("link") == "device"
    real = os.path.realpath(store)
    assert f"device: there is a log {real}-wal without {real}" in find_cause("--db", "link")


@pytest.mark.parametrize("name", ["folder", "none/d.db", "", ":memory:"], ids=lambda name: name or "empty")
def test_init_refuses_a_name_of_no_file(folder: str, name: str) -> None:
    os.mkdir("folder")
    assert word(f"init --db={name}") == "device"


@pytest.mark.parametrize("name", NAMES, ids=lambda name: name[:12] or "empty")
def test_the_doctor_names_what_is_no_file(folder: str, name: str) -> None:
    os.mkdir("folder")
    assert NAMES[name] in find_cause("--db", name)


@needs_nobody
def test_a_file_that_may_not_be_written(folder: str) -> None:
    os.mkdir("theirs")
    store, log = "theirs/r.db", "theirs/r.db-wal"
    new_store(store)
    os.chown("theirs", 65534, 65534)
    assert add_team(store, before=NOBODY) == "device"
    os.chown(store, 65534, 65534)
    os.chmod(log, 0o600)
    said = "device: nobody may not write to theirs/r.db-wal, which belongs to root"
    assert said in find_cause("--db", store, before=NOBODY)
    said = "device: theirs/r.db-wal belongs to root, and its folder to nobody, who cannot open it"
    assert said in find_cause("--db", store)
    for name in os.listdir("theirs"):
        os.chown(f"theirs/{name}", 65534, 65534)
    assert add_team(store, before=NOBODY) == ""


@needs_nobody
def test_a_folder_that_may_not_be_written(folder: str) -> None:
    os.mkdir("closed")
    assert word("init --db closed/r.db", before=NOBODY) == "device"
    assert "device: nobody may not write to " in find_cause("--db", "closed/r.db", before=NOBODY)
    os.chmod("closed", 0o700)
    assert "device: nobody may not enter " in find_cause("--db", "closed/r.db", before=NOBODY)


def test_a_full_disk(store: str) -> None:
    os.mkdir("small")
    with small_disk("small", "1m") as is_there:
        if not is_there:
            pytest.skip("no tmpfs can be mounted here")
        for end in ("", "-wal"):
            if os.path.exists(store + end):
                shutil.copy(store + end, f"small/f.db{end}")
        fill("small/filler")
        assert add_team("small/f.db") == "device"
        assert "device: the disk of " in find_cause("--db", "small/f.db")
        os.remove("small/filler")
        assert add_team("small/f.db", "gamma") == ""
        # nothing was lost
        assert add_team("small/f.db", "alpha") == "taken"


def assert_bad(store: str, said: str) -> None:
    """A team is not added to a file with a cause, of which the doctor says this."""
    assert add_team(store) == "bad-schema"
    assert f"bad-schema: {said}" in find_cause("--db", store)


@pytest.fixture
def changed(store: str) -> str:
    """A store whose rows are all in its file."""
    change(store)
    return store


def test_a_file_that_is_no_database(changed: str) -> None:
    with open(changed, "r+b") as file:
        file.write(b"\xff" * 16)
    assert_bad(changed, "d.db is not a database")


def test_a_damaged_file(changed: str) -> None:
    write({"cut.db": read(changed)[:5000]})
    assert_bad("cut.db", "cut.db is damaged (")


def test_other_tables(folder: str) -> None:
    change("tables.db", ["CREATE TABLE x (a INTEGER) STRICT"])
    assert_bad("tables.db", "tables.db has other tables")


@pytest.mark.parametrize("cause", CHANGES)
def test_rows_and_tables_of_sqlite3(changed: str, cause: str) -> None:
    statement, said = CHANGES[cause]
    change(changed, [statement])
    assert_bad(changed, said)


def test_the_table_of_analyze_is_dropped(changed: str) -> None:
    change(changed, ["ANALYZE"])
    change(changed, ["DROP TABLE sqlite_stat1"])
    assert add_team(changed) == ""


def test_another_program_made_the_tables(changed: str) -> None:
    """A new store takes the rows over."""
    reordered("order.db", changed)
    assert_bad("order.db", "another program made the tables, in another order")
    done("init", "--db", "taken.db")
    change("taken.db", ["ATTACH 'order.db' AS f"], *([statement] for statement in TAKE_OVER))
    assert add_team("taken.db", "alpha") == "taken"


@pytest.fixture(params=OLDER)
def older(folder: str, request: pytest.FixtureRequest) -> tuple[str, int]:
    """A store of an older schema, and the number of that."""
    number, schema = OLDER[request.param]
    change("older.db", *([statement] for statement in filter(str.strip, schema.split(";"))))
    return "older.db", number


def test_a_store_of_an_older_schema_is_migrated(older: tuple[str, int]) -> None:
    store, number = older
    assert_bad(store, f"older.db has schema {number}, of an older goshelf")
    assert word(f"migrate --from {store} --to migrated.db") == ""
    assert add_team("migrated.db") == ""


@pytest.mark.parametrize("name", ["d.db", "missing.db", "empty"])
def test_what_cannot_be_migrated(store: str, name: str) -> None:
    """A store of this schema, a missing file, and an empty one."""
    write({"empty": b""})
    assert word(f"migrate --from {name} --to none.db") == "bad-schema"


@pytest.mark.parametrize(
    ("name", "said"),
    [
        ("control", "device: there is no socket control"),
        ("none/control", "device: there is no folder "),
        ("c" * 108, "io: the name of the socket has more than 107 bytes"),
        ("d.db", "io: d.db is another file, not a socket"),
    ],
    ids=["no socket", "no folder", "too long", "another file"],
)
def test_a_name_of_no_socket(store: str, name: str, said: str) -> None:
    """tests/test_control.py has the words of the commands."""
    assert said in find_cause("--control", name)


@pytest.fixture
def server(store: str, serve: Callable[..., Server]) -> Server:
    return serve(store, "control")


def test_a_socket_that_answers_has_no_fault(server: Server) -> None:
    assert find_cause("--control", "control") == ""


def test_the_doctor_names_the_socket_of_who_has_the_store_open(server: Server) -> None:
    ran = doctor("--db", server.store)
    assert "\n    use --control control, or stop it\n" in ran.stdout, ran


def test_a_copy_to_a_name_with_an_old_log(server: Server) -> None:
    write({"copy.db-wal": bytes(100)})
    assert word("copy --control control --to copy.db") == "device"
    assert "device: there is a log copy.db-wal without copy.db" in find_cause("--db", "copy.db")
    os.rename("copy.db-wal", "away")
    assert word("copy --control control --to copy.db") == ""


@needs_nobody
def test_nobody_may_not_connect(server: Server) -> None:
    said = "device: nobody may not connect to control"
    assert said in find_cause("--control", "control", before=NOBODY)


def test_nobody_listens_any_more(server: Server) -> None:
    server.kill()
    assert "device: nobody listens at control: serve ended" in find_cause("--control", "control")


@pytest.fixture
def silent(folder: str) -> Iterator[str]:
    """A socket whose server closes each connection."""

    def close_all() -> None:
        with contextlib.suppress(OSError):
            while True:
                listener.accept()[0].close()

    with socket.socket(socket.AF_UNIX) as listener:
        listener.bind("false")
        listener.listen()
        closing = threading.Thread(target=close_all, daemon=True)
        closing.start()
        yield "false"
        listener.shutdown(socket.SHUT_RDWR)
        closing.join()


def test_serve_does_not_answer(silent: str) -> None:
    assert "io: serve listens at false, and does not answer" in find_cause("--control", silent)


@pytest.mark.parametrize("words", [["--db"], ["--db", "s.db", "more"], ["--store", "s.db"], ["s.db"], [""]], ids=str)
def test_bad_words(words: list[str]) -> None:
    assert subprocess.run([DOCTOR, *words], capture_output=True).returncode == 2
