"""What was acknowledged is there after the program is killed, and no store is refused after a kill.

The program is killed (SIGKILL) at random moments while it answers publishes, by turns as `answer` on a pipe and as
`serve` on a port, over one file that goes on from kill to kill. After each kill the store is opened again: each version
whose 201 was read has its go.mod and its zip, byte for byte, and of the version that was under way all or nothing is
there. Then a disk that is full (a small tmpfs), and a file and a folder that can only be read. --long has 1,000 kills;
GOSHELF_SEED=N repeats the random moments of a run.
"""

import contextlib
import http.client
import os
import subprocess
import time
from collections.abc import Callable, Iterator
from dataclasses import dataclass, field

import pytest

from lib.keys import KEY
from lib.kills import MODULE, MOST, RANDOM, fetch, files_of, is_kept, kill_after, print_seed, publish
from lib.messages import replies
from lib.program import NOBODY, PROGRAM, can_be_nobody, refusal, run
from lib.scratch import entered_folder, small_disk
from lib.stores import new_store

SHORT, LONG = 100, 1_000
# publishes a turn
BURST = 50
Child = subprocess.Popen[bytes]
# sends the publish of a number, and returns its status, or None where the reply does not come whole
Send = Callable[[int], int | None]


def pytest_generate_tests(metafunc: pytest.Metafunc) -> None:
    if "turn" in metafunc.fixturenames:
        metafunc.parametrize("turn", range(LONG if metafunc.config.getoption("--long") else SHORT))


def read_status(child: Child) -> int | None:
    """Returns the status of the next reply of a pipe, or None where it ends before a whole one is there."""
    assert child.stdout
    head = b""
    while not head.endswith(b"\r\n\r\n"):
        byte = child.stdout.read(1)
        if not byte:
            return None
        head += byte
    length = int(head.lower().split(b"content-length:")[1].split(b"\r\n")[0])
    return int(head.split()[1]) if len(child.stdout.read(length)) == length else None


def start_answer(store: str) -> tuple[Child, Callable[[], Send | None]]:
    """Starts the program on a pipe. It is ready once it answers a first request."""
    words = [PROGRAM, "answer", "--db", store]
    child = subprocess.Popen(words, stdin=subprocess.PIPE, stdout=subprocess.PIPE, bufsize=0)

    def send(request: bytes) -> int | None:
        assert child.stdin
        child.stdin.write(request)
        return read_status(child)

    def wait_until_ready() -> Send | None:
        return (lambda number: send(publish(number))) if send(b"GET / HTTP/1.1\r\n\r\n") else None

    return child, wait_until_ready


def start_serve(store: str) -> tuple[Child, Callable[[], Send | None]]:
    """Starts the program on a port. It is ready once it has printed that."""
    child = subprocess.Popen([PROGRAM, "serve", "--db", store, "--port", "0"], stdout=subprocess.PIPE)

    def send(port: int, number: int) -> int:
        gomod, zip_bytes = files_of(number)
        connection = http.client.HTTPConnection("127.0.0.1", port, timeout=30)
        headers = {"Mod-Length": str(len(gomod))}
        connection.request("PUT", f"/k/{KEY}/{MODULE}/@v/v1.{number}.0", gomod + zip_bytes, headers)
        reply = connection.getresponse()
        reply.read()
        return reply.status

    def wait_until_ready() -> Send | None:
        assert child.stdout
        line = child.stdout.readline()
        # (it may be killed in the middle of that line)
        return (lambda number: send(int(line.rsplit(b":", 1)[1]), number)) if line.endswith(b"\n") else None

    return child, wait_until_ready


def publish_until_killed(turn: int, store: str, first: int) -> tuple[list[int], str]:
    """Publishes until the program is killed, some time after its start or after it is ready. Returns the numbers that
    were acknowledged, and which publish was refused, or nothing."""
    child, wait_until_ready = (start_answer, start_serve)[turn % 2](store)
    wait = RANDOM.choice((0.005, 0.02, 0.06)) * RANDOM.random()
    timers = [kill_after(child, wait)] if turn % 5 == 4 else []
    acknowledged: list[int] = []
    try:
        with contextlib.suppress(OSError, http.client.HTTPException):
            send = wait_until_ready()
            if send and not timers:
                timers.append(kill_after(child, wait))
            for number in range(first, first + BURST) if send else ():
                status = send(number) if send else None
                if status is None:
                    break
                if status != 201:
                    return acknowledged, f"the publish of version {number} was answered {status}"
                acknowledged.append(number)
    finally:
        for timer in timers:
            timer.cancel()
        child.kill()
        child.wait()
        if child.stdout:
            child.stdout.close()
    return acknowledged, ""


@dataclass
class Kills:
    """Kills of the program, one after another. `wrong` has what each turn found wrong, or nothing."""

    wrong: list[str] = field(default_factory=list)
    store: str = ""
    stores: int = 0
    # what the last store acknowledged, or was seen to have, and the number of its next version
    acknowledged: list[int] = field(default_factory=list)
    next_number: int = 0
    publishes: int = 0

    def kill(self) -> None:
        """Kills the program once, and opens its store again."""
        if not self.store or self.next_number > MOST:
            self.store, self.acknowledged, self.next_number = f"kills{self.stores}.db", [], 0
            new_store(self.store, ("alpha", KEY))
            self.stores += 1
        acknowledged, refused = publish_until_killed(len(self.wrong), self.store, self.next_number)
        self.next_number += len(acknowledged)
        self.acknowledged += acknowledged
        self.publishes += len(acknowledged)
        # what was acknowledged of late, and some of what is older
        some = RANDOM.sample(self.acknowledged, min(8, len(self.acknowledged)))
        is_there, wrong = is_kept(self.store, sorted({*self.acknowledged[-12:], *some}), [self.next_number])
        if is_there:
            self.acknowledged.append(self.next_number)
            self.next_number += 1
        self.wrong.append(refused or wrong or "")
        if self.wrong[-1]:
            self.store = ""


@pytest.fixture(scope="module")
def kills(is_long: bool) -> Iterator[Kills]:
    print_seed()
    with entered_folder():
        kills = Kills()
        begun = time.monotonic()
        for _ in range(LONG if is_long else SHORT):
            kills.kill()
        seconds = time.monotonic() - begun
        print(f"{len(kills.wrong)} kills, {kills.stores} stores, {seconds:.0f} s, {kills.publishes} publishes")
        yield kills


def test_kill_loses_nothing(kills: Kills, turn: int) -> None:
    assert kills.wrong[turn] == ""


def test_last_store_has_all_that_it_acknowledged(kills: Kills) -> None:
    assert kills.store and is_kept(kills.store, kills.acknowledged, []) == (False, None)


@pytest.mark.root
@pytest.mark.needs("umount")
class TestFullDisk:
    """Publishes into a tmpfs of 1 MiB until it is full; then the store is opened again with more room."""

    STORE = "small/full.db"
    PUBLISHES = b"".join(publish(number) for number in range(60))

    @pytest.fixture(scope="class")
    def statuses(self, class_folder: str) -> Iterator[list[int]]:
        os.mkdir("small")
        with small_disk("small", "1m") as is_there:
            if not is_there:
                pytest.skip("no tmpfs can be mounted")
            new_store(self.STORE, ("alpha", KEY))
            status, written, _ = run(["answer", "--db", self.STORE], self.PUBLISHES)
            assert status == 0
            subprocess.run(["mount", "-o", "remount,size=64m", "small"], check=True)
            yield [status for status, _ in replies(written)]

    def test_each_publish_is_answered(self, statuses: list[int]) -> None:
        assert len(statuses) == 60

    def test_what_is_not_acknowledged_is_503(self, statuses: list[int]) -> None:
        assert {*statuses} == {201, 503}

    def test_what_was_acknowledged_is_kept_and_with_room_all_is_taken(self, statuses: list[int]) -> None:
        acknowledged = [number for number, status in enumerate(statuses) if status == 201]
        assert is_kept(self.STORE, acknowledged, []) == (False, None)
        again = {status for status, _ in replies(run(["answer", "--db", self.STORE], self.PUBLISHES)[1])}
        assert again <= {200, 201}
        assert is_kept(self.STORE, [*range(60)], []) == (False, None)


@pytest.mark.root
@pytest.mark.skipif(not can_be_nobody(), reason="root cannot become nobody here")
@pytest.mark.parametrize(("place", "mode"), [("fixed/fixed.db", 0o444), ("fixed", 0o555)], ids=["file", "folder"])
def test_what_can_only_be_read_is_refused_and_stays(folder: str, place: str, mode: int) -> None:
    os.mkdir("fixed")
    new_store("fixed/fixed.db", ("alpha", KEY))
    published = replies(run(["answer", "--db", "fixed/fixed.db"], publish(0))[1])
    assert [status for status, _ in published] == [201]
    os.chmod(place, mode)
    # (as nobody, since root may write all)
    assert run(["answer", "--db", "fixed/fixed.db"], fetch(0, "mod"), before=NOBODY) == refusal("device")
    os.chmod(place, 0o755)
    assert is_kept("fixed/fixed.db", [0], []) == (False, None)
