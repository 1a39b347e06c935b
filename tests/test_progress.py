"""A line on a terminal says how far a command is, and nothing else changes.

It comes on standard error, and only if that is a terminal: `copy`, `import`, `extract` and `migrate` say how much is
done, and each command that it opens a large store. The same run over a pipe prints the same, ends the same and
leaves the same files. A command is made to last long enough by a file that it has to wait for, or by many short stops.
The terminal is one that the suite reads: what is on it at the end, and where the cursor is.
"""

import os
import re
import signal
import socket
import subprocess
import threading
import time
from collections.abc import Callable, Iterator
from typing import NamedTuple

import pytest

from lib.keys import KEYS, SHELVES
from lib.older import older
from lib.program import run
from lib.scratch import write
from lib.servers import CONTROL, Server
from lib.stores import new_store, remove_store
from lib.terminal import OnTerminal, screen
from lib.worked import HEADER

RATE = r"\d+(\.\d)? MiB/s"
LEFT = r"(, \d+ h \d+ min left|, \d+ min \d+ s left|, \d+ s left)?"
# how long a command is held up, so that the next line is due
HELD = 1.3


class Ended(NamedTuple):
    """How a command on a terminal ended: its status, its output, and what came to the terminal."""

    status: int
    output: bytes
    text: str


def read_drawn(text: str) -> list[str]:
    """Returns the lines that were drawn on a terminal, one after another, without trailing blanks."""
    return [part.rsplit("\r", 1)[-1].replace("\x1b[A", "").rstrip() for part in text.split("\r\n")[:-1]]


def read_shares(text: str) -> list[int]:
    """Returns the percentages of the lines that were drawn."""
    return [int(line.split()[1]) for line in read_drawn(text)]


def is_taken_away(text: str, verb: str) -> bool:
    """Returns whether only lines of a command were drawn, of at most 79 columns each, and all were taken away."""
    lines, looks = read_drawn(text), re.compile(rf"{verb}: \d+ %, {RATE}{LEFT}")
    is_drawn = bool(lines) and all(looks.fullmatch(line) and len(line) <= 79 for line in lines)
    rows, cursor = screen(text)
    return is_drawn and not any(rows) and cursor == (0, 0)


def write_rows() -> None:
    """Writes a list of four rows, of which the second and the third wait for their zip."""
    write({"m.mod": "module example.com/m\n", "m.zip": "PK"})
    zips = ("m.zip", "second.zip", "third.zip", "m.zip")
    rows = "".join(f"example.com/m,v1.{at}.0,,m.mod,{zip_name}\n" for at, zip_name in enumerate(zips))
    write({"rows.csv": HEADER + rows})
    for name in ("second.zip", "third.zip"):
        os.mkfifo(name)


def feed(name: str, wait: float = 0) -> None:
    """Writes what a row waits for, after a time."""
    with open(name, "wb") as file:
        time.sleep(wait)
        file.write(b"PK")


def feed_both() -> None:
    for name in ("second.zip", "third.zip"):
        feed(name)


def make_store(name: str = "store.db") -> str:
    new_store(name, *SHELVES)
    return name


def list_import(store: str, rows: str = "rows.csv") -> tuple[str, ...]:
    """Returns the words of an import."""
    return "import", "--db", store, "--key", KEYS["A"], "--list", rows


def take_inventory(store: str) -> tuple[int, bytes, str]:
    return run(["inventory", "--db", store, "--key", KEYS["A"]])


class TestImport:
    """A line is drawn between two rows, and the rows are printed as ever."""

    @pytest.fixture(scope="class")
    def files(self, class_folder: str) -> None:
        write_rows()

    @pytest.fixture(scope="class")
    def ended(self, files: None) -> Ended:
        shown = OnTerminal(*list_import(make_store("one.db")))
        feed("second.zip", HELD)
        shown.await_line()
        feed("third.zip", HELD)
        return Ended(*shown.end())

    @pytest.fixture(scope="class")
    def piped(self, files: None) -> tuple[int, bytes, str]:
        """How the same import ends whose standard error is a pipe."""
        feeder = threading.Thread(target=feed_both)
        feeder.start()
        ended = run(list_import(make_store("two.db")))
        feeder.join()
        return ended

    # (on a machine so busy that a row takes a second, a line may have a row more or less)
    def test_first_line_has_two_rows_of_four(self, ended: Ended) -> None:
        assert read_shares(ended.text)[0] in (50, 25, 75), ended.text

    def test_last_line_has_three_rows_of_four(self, ended: Ended) -> None:
        assert read_shares(ended.text)[-1] in (75, 50, 100), ended.text

    def test_each_line_is_taken_away(self, ended: Ended) -> None:
        assert is_taken_away(ended.text, "import"), ended.text

    def test_over_a_pipe_the_same_rows_are_printed(self, ended: Ended, piped: tuple[int, bytes, str]) -> None:
        assert (ended.status, ended.output, "") == piped

    def test_the_same_is_in_the_store(self, ended: Ended, piped: tuple[int, bytes, str]) -> None:
        assert take_inventory("one.db") == take_inventory("two.db")


class TestImportElsewhere:
    def test_where_the_rows_come_no_line_is_drawn(self, folder: str) -> None:
        write_rows()
        both = OnTerminal(*list_import(make_store()), is_all=True)
        feed("second.zip", HELD)
        feed("third.zip", HELD)
        status, _, text = both.end()
        assert (status, text) == (0, "".join(f"{number} 201 published\r\n" for number in (1, 2, 3, 4)))

    def test_a_list_from_a_pipe_has_a_percentage_too(self, folder: str) -> None:
        write_rows()
        os.mkfifo("rows")
        shown = OnTerminal(*list_import(make_store(), "rows"))
        with open("rows", "wb") as rows, open("rows.csv", "rb") as written:
            rows.write(written.read())
        feed("second.zip", HELD)
        first = screen(shown.await_line())[0][0]
        feed("third.zip")
        assert re.fullmatch(f"import: (25|50|75) %, {RATE}{LEFT}", first)
        assert shown.end()[0] == 0


class TestSignals:
    @pytest.fixture
    def is_interruptible(self) -> Iterator[None]:
        """A shell has what it runs in the background ignore SIGINT, and that is handed on."""
        before = signal.signal(signal.SIGINT, signal.default_int_handler)
        yield
        signal.signal(signal.SIGINT, before)

    @pytest.mark.parametrize("number", [signal.SIGINT, signal.SIGTERM, signal.SIGKILL], ids=lambda number: number.name)
    def test_a_signal_leaves_the_cursor_on_a_fresh_line(
        self, folder: str, is_interruptible: None, number: signal.Signals
    ) -> None:
        write_rows()
        shown = OnTerminal(*list_import(make_store()))
        feed("second.zip", HELD)
        shown.await_line()
        shown.child.send_signal(number)
        status, _, text = shown.end()
        rows, cursor = screen(text)
        assert (status, rows[1:], cursor) == (-number, [""], (1, 0)), text


def run_shortly(words: tuple[str, ...], made: str = "") -> Ended:
    """Runs a command that takes less than a second, as it does unless the machine is busy.

    The store that it makes is removed before each try."""
    for _ in range(5):
        if made:
            remove_store(made)
        begun = time.monotonic()
        ended = Ended(*OnTerminal(*words).end())
        if time.monotonic() - begun < 1:
            return ended
    pytest.skip("this machine takes a second for it")


SHORT = {
    "import": (list_import("store.db", "short.csv"), ""),
    "extract": (("extract", "--db", "store.db", "--team", "alpha", "--to", "part.db"), "part.db"),
    "migrate": (("migrate", "--from", "older.db", "--to", "new.db"), "new.db"),
    "copy": (("copy", "--control", CONTROL, "--to"), "copy.db"),
    "inventory": (("inventory", "--db", "store.db", "--key", KEYS["A"]), ""),
}


class TestShortCommands:
    """Nothing is drawn for what takes less than a second, refusals among it."""

    @pytest.fixture(scope="class", autouse=True)
    def stores(self, class_folder: str, module_serve: Callable[..., Server]) -> None:
        write_rows()
        write({"short.csv": HEADER + "example.com/m,v1.9.0,,m.mod,m.zip\n"})
        older("older.db", 2, make_store())
        module_serve(make_store("served.db"), CONTROL)

    @pytest.mark.parametrize("words, made", SHORT.values(), ids=SHORT)
    def test_nothing_is_drawn(self, words: tuple[str, ...], made: str) -> None:
        path = [os.path.abspath(made)] if words[0] == "copy" else []
        status, _, text = run_shortly((*words, *path), made)
        assert (status, text) == (0, "")

    def test_a_refusal_stands_alone(self) -> None:
        status, _, text = run_shortly(("extract", "--db", "store.db", "--team", "nobody", "--to", "none.db"))
        assert (status, text) == (1, "goshelf: no-team\r\n")


class TestOpening:
    """The opening of a large store is said until it ends, and that of others is not."""

    @pytest.mark.parametrize(
        "size, wanted",
        [
            (1 << 27, ["opening a store of 128 MiB", "goshelf: bad-schema"]),
            ((1 << 27) - 1, ["goshelf: bad-schema"]),
        ],
        ids=["128 MiB", "a byte less"],
    )
    def test_lines_of_an_opening(self, folder: str, size: int, wanted: list[str]) -> None:
        with open("sparse.db", "wb") as file:
            file.truncate(size)
        status, output, text = OnTerminal("key-list", "--db", "sparse.db").end()
        assert run(["key-list", "--db", "sparse.db"]) == (status, output, "goshelf: bad-schema\n")
        assert (read_drawn(text), screen(text)[0]) == (wanted, ["goshelf: bad-schema", ""])


def make_large_store(file: str) -> None:
    """Makes a store of 25 MiB on the shelf of one team."""
    make_store(file)
    write({"m.mod": "module example.com/m\n", "m.zip": bytes(range(256)) * 1024})
    write({"large.csv": HEADER + "".join(f"example.com/m,v1.{at}.0,,m.mod,m.zip\n" for at in range(100))})
    status, _, errors = run(list_import(file, "large.csv"))
    assert (status, errors) == (0, "")


def run_slowly(words: tuple[str, ...], made: str, server: subprocess.Popen | None = None) -> Ended:
    """Runs a command on a terminal and lets it, or its server, run for a moment and stand still for a hundred of them
    until a line is drawn. If it ends first, it is tried anew and stands still for longer."""
    for still in (0.1, 0.2, 0.4, 0.8, 1.6):
        remove_store(made)
        shown = OnTerminal(*words)
        slow = server or shown.child
        # (on a busy machine it is this suite that has to come in time)
        os.setpriority(os.PRIO_PROCESS, slow.pid, 19)
        while not shown.shown and shown.child.poll() is None:
            slow.send_signal(signal.SIGSTOP)
            shown.read(still)
            slow.send_signal(signal.SIGCONT)
            time.sleep(0.001)
        ended = Ended(*shown.end())
        if ended.text:
            break
    return ended


class TestSlowCommands:
    @pytest.fixture(scope="class", autouse=True)
    def stores(self, class_folder: str) -> None:
        make_large_store("large.db")
        older("older.db", 2, "large.db")

    @pytest.mark.parametrize(
        "words, verb",
        [
            (("extract", "--db", "large.db", "--team", "alpha", "--to", "made.db"), "extract"),
            (("migrate", "--from", "older.db", "--to", "made.db"), r"migrate [12]/2"),
        ],
        ids=["extract", "migrate"],
    )
    def test_lines_change_nothing_else(self, words: tuple[str, ...], verb: str) -> None:
        status, output, text = run_slowly(words, "made.db")
        assert is_taken_away(text, verb), text
        inventory = take_inventory("made.db")
        remove_store("made.db")
        assert run(words) == (status, output, "")
        assert take_inventory("made.db") == inventory


class FalseServer:
    """A server that answers operators as one does that makes a copy, until the copy ends."""

    def __init__(self, health: bytes) -> None:
        self.health, self.ordered, self.ends = health, threading.Event(), threading.Event()
        self.listener = socket.socket(socket.AF_UNIX)
        self.listener.bind("false")
        self.listener.listen()
        self.thread = threading.Thread(target=self.answer, daemon=True)
        self.thread.start()

    def answer(self) -> None:
        while not self.ends.is_set():
            connection, _ = self.listener.accept()
            line = connection.makefile("rb").readline()
            if line == b"ping\n":
                connection.sendall(self.health)
                connection.close()
            elif line.startswith(b"copy "):
                threading.Thread(target=self.end_copy, args=(connection,), daemon=True).start()

    def end_copy(self, connection: socket.socket) -> None:
        self.ordered.set()
        self.ends.wait()
        connection.sendall(b"done\n")
        connection.close()

    def close(self) -> None:
        self.ends.set()
        with socket.socket(socket.AF_UNIX) as last:
            last.connect("false")
        self.thread.join()
        self.listener.close()
        os.unlink("false")


def run_copy(health: bytes, seconds: float, is_stopped: bool = False) -> Ended:
    """Orders a copy, on a terminal, of a server that copies for so long and answers pings with this health.

    The command may be stopped for a moment in between."""
    server = FalseServer(health)
    shown = OnTerminal("copy", "--control", "false", "--to=/copy.db")
    threading.Timer(seconds, server.ends.set).start()
    if is_stopped:
        server.ordered.wait(20)
        shown.hold(0.2)
    ended = Ended(*shown.end())
    server.close()
    return ended


@pytest.fixture(scope="module")
def health(module_folder: str) -> bytes:
    """What a server of 12 versions answers a ping while it copies them and has copied 3."""
    server = Server(make_store("small.db"), CONTROL)
    first, _, rest = server.order(b"ping\n").decode().partition("\n")
    server.stop()
    words = [re.sub("^bytes=.*", f"bytes={48 << 20}", word) for word in first.split(" ")]
    return " ".join([*words[:-1], "copying=3/12", words[-1]]).encode() + b"\n" + rest.encode()


class Copied(NamedTuple):
    ended: Ended
    seconds: float


class TestCopy:
    """The lines of a copy say what pings answer."""

    @pytest.fixture(scope="class")
    def copied(self, health: bytes, class_folder: str) -> Copied:
        begun = time.monotonic()
        ended = run_copy(health, 3.5)
        return Copied(ended, time.monotonic() - begun)

    def test_copy_is_done(self, copied: Copied) -> None:
        assert copied.ended[:2] == (0, b"")

    def test_its_lines_are_taken_away(self, copied: Copied) -> None:
        assert is_taken_away(copied.ended.text, "copy"), copied.ended.text

    def test_three_versions_of_twelve_are_25_percent(self, copied: Copied) -> None:
        assert set(read_shares(copied.ended.text)) == {25}, copied.ended.text

    def test_a_line_comes_each_second_at_most(self, copied: Copied) -> None:
        assert 1 <= len(read_drawn(copied.ended.text)) <= copied.seconds

    def test_copy_goes_on_after_the_command_was_stopped(self, health: bytes, folder: str) -> None:
        status, output, text = run_copy(health, 1.5, is_stopped=True)
        assert (status, output) == (0, b"")
        assert is_taken_away(text, "copy"), text


HEALTHS: dict[str, Callable[[bytes], bytes]] = {
    "no copy": lambda health: health.replace(b" copying=3/12", b""),
    "no bytes": lambda health: re.sub(rb" bytes=\d+", b"", health),
    "a refusal": lambda health: b"device\n",
    "nothing": lambda health: b"",
}


class TestCopyOfOtherPings:
    @pytest.mark.parametrize("change", HEALTHS.values(), ids=HEALTHS)
    def test_terminal_is_left_alone(self, health: bytes, folder: str, change: Callable[[bytes], bytes]) -> None:
        assert run_copy(change(health), 2.5) == (0, b"", "")


def test_copy_of_a_slow_server_is_shown(folder: str, serve: Callable[..., Server]) -> None:
    make_large_store("large.db")
    server = serve("large.db", CONTROL)
    to = os.path.abspath("copy.db")
    status, output, text = run_slowly(("copy", "--control", CONTROL, f"--to={to}"), to, server.child)
    assert (status, output) == (0, b"")
    assert is_taken_away(text, "copy"), text
