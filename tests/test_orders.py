"""Orders one after another on one served store, and operators and peers who come at once.

A server that is stopped by SIGSTOP goes on once all of them have come. strace has `accept4` fail, a small library that
is loaded before the C library (made with `cc`) shows another time, and a limit of its memory and a bit that turns have
orders fail.
"""

import os
import re
import resource
import shutil
import signal
import subprocess
from collections.abc import Callable, Iterator

import pytest

from lib.keys import KEY, KEYS
from lib.messages import get, put, reply
from lib.peers import GOMOD, LIST, rest
from lib.ports import wait_until
from lib.program import answered, done, refusal, run
from lib.runs import name_rows
from lib.scratch import read, turn_in_file, write
from lib.servers import CONTROL, Server, write_failing
from lib.stores import new_store
from lib.tables import LEAST, MOST, connected, empty_log, put_versions, settled

# lines in their order, and after `|` the outcome of each
ROWS = """\
group-add platform|done
group-add platform|taken
team-add alpha|done
team-add alpha|taken
team-add beta platform|done
team-add gamma nobody|no-group
team-add Gamma|name
team-add |name
key-add alpha alphakey00000001|done
key-add alpha alphakey00000001|taken
key-add alpha alphakey0000001|name
key-add delta deltakey00000001|no-team
reader-add common commonreader0001|done
key-revoke alphakey00000001|done
key-revoke alphakey00000001|no-key
key-revoke commonreader0001 |bad
key-revoke  commonreader0001|bad
team-add a b c|bad
team-add|bad
Team-add delta|bad
|bad
key-revoke commonreader0001|done
key-add beta betakey000000001|done
keys-revoke beta|done
key-revoke betakey000000001|no-key
keys-revoke beta|done
keys-revoke delta|no-team
keys-revoke |no-team
keys-revoke|bad
keys-revoke alpha beta|bad
keys-revoke alpha |bad
key-add alpha alphakey00000001|done
revoke-fingerprint ccaaf6d99f2c8ac|no-key
revoke-fingerprint ccaaf6d99f2c8ac7|done
revoke-fingerprint ccaaf6d99f2c8ac7|no-key
key-add alpha alphakey00000001|done
revoke-fingerprint ccaaf6d99f2c8ac7d9c4a0277e323db4465bf5929f8262e063c9229ab93cb24|no-key
revoke-fingerprint CCAAF6D99F2C8AC7D9C4A0277E323DB4465BF5929F8262E063C9229AB93CB24C|no-key
revoke-fingerprint ccaaf6d99f2c8ac7000000000000000000000000000000000000000000000000|no-key
revoke-fingerprint ccaaf6d99f2c8ac7d9c4a0277e323db4465bf5929f8262e063c9229ab93cb24c|done
revoke-fingerprint ccaaf6d99f2c8ac7d9c4a0277e323db4465bf5929f8262e063c9229ab93cb24c|no-key
revoke-fingerprint|bad
revoke-fingerprint ccaaf6d99f2c8ac7 more|bad
key-add alpha alphakey00000001|done
copy one.db|done
copy full|not-empty
copy |device
copy|bad
copy one two|bad
Copy one|bad
catalog alphakey00000001|done
catalog nobody|no-key
catalog |no-key
catalog|bad
catalog alphakey00000001 more|bad
Catalog alphakey00000001|bad
ping |bad
ping now|bad
Ping|bad
""".splitlines()
NOT_FOUND = reply(404, b"not found\n")
TIME = "2026-11-26T18:40:00Z"
# shows the time that `SECONDS` says, or none if it says none
LIBRARY = """
#define _GNU_SOURCE
#include <errno.h>
#include <stdlib.h>
#include <sys/syscall.h>
#include <time.h>
#include <unistd.h>
int clock_gettime(clockid_t clock, struct timespec *time) {
    const char *seconds = getenv("SECONDS");
    if (clock != CLOCK_REALTIME) return syscall(SYS_clock_gettime, clock, time);
    if (!*seconds) { errno = EINVAL; return -1; }
    time->tv_sec = atoll(seconds);
    time->tv_nsec = 0;
    return 0;
}
"""


class TestRows:
    """Lines that one store is given in their order."""

    @pytest.fixture(scope="class")
    def outcomes(self, class_folder: str) -> list[bytes]:
        new_store("served.db")
        write({"full": "bytes\n"})
        with Server("served.db", CONTROL) as server:
            return [server.order(row.partition("|")[0].encode() + b"\n") for row in ROWS]

    @pytest.mark.parametrize("number", range(len(ROWS)), ids=name_rows([row.partition("|")[0] for row in ROWS]))
    def test_line(self, outcomes: list[bytes], number: int) -> None:
        assert outcomes[number] == ROWS[number].partition("|")[2].encode() + b"\n"


def test_ping_whose_counts_all_differ(folder: str, serve: Callable[..., Server]) -> None:
    new_store("served.db", ("alpha", KEY))
    conn = connected("served.db")
    # (with both row numbers taken no version can be added)
    put_versions(conn, "alpha", "example.com/lib", [LEAST, MOST], b"zip")
    settled(conn)
    server = serve("served.db", CONTROL)
    since = re.search(rb" since=(\S+) ", server.order(b"ping\n"))
    assert since
    requests = [get(LIST)] * 4 + [get(LIST, KEYS["N"])] * 3 + [put("example.com/lib", "v1.9.0", GOMOD)] * 2
    assert [server.status(request) for request in requests] == [200] * 4 + [404] * 3 + [503] * 2
    server.connected().close()
    wait_until(lambda: server.order(b"ping\n").startswith(b"connections=10 "))
    sizes = [os.path.getsize(file) for file in ("served.db", "served.db-wal")]
    assert server.order(b"ping\n").decode() == (
        f"connections=10 2xx=4 4xx=3 5xx=2 unanswered=1 store-failures=2 since={since[1].decode()} versions=2 "
        f"bytes={sizes[0]} log={sizes[1]} shelves=0\n"
    )


def stopped(server: Server) -> None:
    """Stops a server until `going_on`."""
    server.child.send_signal(signal.SIGSTOP)


def going_on(server: Server) -> None:
    server.child.send_signal(signal.SIGCONT)


class TestAtOnce:
    """Operators and peers who have come before the server looks."""

    def test_operator_is_obeyed_before_the_last_peer(self, folder: str, serve: Callable[..., Server]) -> None:
        new_store("served.db")
        server = serve("served.db", CONTROL, "--connections", "1")
        stopped(server)
        with server.connected() as peer, server.operator() as operator:
            peer.sendall(get(LIST))
            operator.sendall(b"team-add alpha\n")
            going_on(server)
            assert rest(operator) == b"done\n"
            assert rest(peer) == NOT_FOUND
        assert server.wait_for_end() == 0

    def test_peers_are_served_up_to_a_stop(self, folder: str, serve: Callable[..., Server]) -> None:
        new_store("served.db")
        done("team-add", "--db", "served.db", "--team", "alpha")
        with open("errors", "wb") as errors:
            server = serve("served.db", CONTROL, "--connections", "4", errors=errors)
        assert server.exchange(get("example.com/lib/@v/v1.0.0.mod")) == NOT_FOUND
        assert server.order(f"key-add alpha {KEY}\n".encode()) == b"done\n"
        assert server.exchange(put("example.com/lib", "v1.0.0", GOMOD)) == reply(201, b"published\n")
        stopped(server)
        with server.connected() as peer, server.operator() as operator:
            peer.sendall(get("example.com/lib/@v/v1.0.0.mod"))
            operator.sendall(b"stop\n")
            going_on(server)
            assert rest(operator) == b"stopping\n"
            assert rest(peer) == b"", "the last peer is not taken"
        assert server.wait_for_end() == 0
        assert read("errors").decode().splitlines()[1:-1] == [
            "order: key-add alpha ccaaf6d99f2c8ac7: done",
            "order: stopping",
        ]


@pytest.mark.needs("strace")
def test_caller_who_cannot_be_taken_counts(folder: str, serve: Callable[..., Server]) -> None:
    """The operator is taken, and each of the three peers behind it is not."""
    new_store("served.db")
    done("team-add", "--db", "served.db", "--team", "alpha")
    server = serve("served.db", CONTROL, "--connections", "3", program=write_failing(2))
    assert server.order(f"key-add alpha {KEY}\n".encode()) == b"done\n"
    server.connected().close()
    assert server.wait_for_end() == 0
    assert read("calls").count(b"ECONNABORTED") == 3


# the versions of a store, whose go.mod files have this many bytes: it is larger than what the program keeps in memory
LARGE_VERSIONS, LARGE = 48, 1_000_000
# the bytes by which a process that lacks memory may still grow
LITTLE = 400_000


def large_gomod(number: int) -> bytes:
    return b"module example.com/lib\n//" + b"%04d" % number * (LARGE // 4)


class TestFaults:
    """A copy and a catalog that want memory, and a catalog that meets a bad page."""

    @pytest.fixture(scope="class")
    def large(self, class_folder: str) -> str:
        new_store("large.db", ("alpha", KEY))
        puts = [put("example.com/lib", f"v1.{number}.0", large_gomod(number)) for number in range(LARGE_VERSIONS)]
        assert [status for status, _ in answered(["--db", "large.db"], puts)] == [201] * LARGE_VERSIONS
        empty_log("large.db")
        return f"{class_folder}/large.db"

    @pytest.fixture
    def server(self, folder: str, large: str, monkeypatch: pytest.MonkeyPatch) -> Iterator[Server]:
        # (so that the system gets back at once what is freed)
        for name, value in (("MALLOC_MMAP_THRESHOLD_", "32768"), ("MALLOC_TRIM_THRESHOLD_", "0")):
            monkeypatch.setenv(name, value)
        shutil.copy(large, "served.db")
        with Server("served.db", CONTROL) as server:
            yield server

    @pytest.mark.parametrize("order", ["copy one.db", f"catalog {KEY}"], ids=["copy", "catalog"])
    def test_order_that_wants_memory(self, server: Server, order: str) -> None:
        pages = int(read(f"/proc/{server.child.pid}/statm").split()[0])
        limits = resource.prlimit(server.child.pid, resource.RLIMIT_AS)
        little = (pages * resource.getpagesize() + LITTLE, limits[1])
        resource.prlimit(server.child.pid, resource.RLIMIT_AS, little)
        assert server.order(f"{order}\n".encode()) == b"memory\n"
        resource.prlimit(server.child.pid, resource.RLIMIT_AS, limits)
        assert server.order(f"{order}\n".encode()).endswith(b"done\n")

    def test_catalog_that_meets_a_bad_page(self, server: Server) -> None:
        order = f"catalog {KEY}\n".encode()
        at = read("served.db").index(large_gomod(0)[1_000:2_000])
        turn_in_file("served.db", at)
        assert server.order(order).endswith(b"device\n")
        turn_in_file("served.db", at)
        assert server.order(order).endswith(b"done\n")


@pytest.mark.needs("cc")
class TestClock:
    """`serve --control` begins only once the clock shows a time."""

    @pytest.fixture(scope="class", autouse=True)
    def library(self, class_folder: str) -> None:
        write({"clock.c": LIBRARY})
        subprocess.run(["cc", "-shared", "-fPIC", "-o", "clock.so", "clock.c"], check=True)
        new_store("served.db")

    @pytest.fixture
    def show(self, monkeypatch: pytest.MonkeyPatch) -> Iterator[Callable[[str], None]]:
        def show_seconds(seconds: str) -> None:
            monkeypatch.setenv("LD_PRELOAD", os.path.abspath("clock.so"))
            monkeypatch.setenv("SECONDS", seconds)

        yield show_seconds

    @pytest.mark.parametrize("seconds", ["", "253402300800"], ids=["a clock that fails", "the year 10000"])
    def test_no_time(self, show: Callable[[str], None], seconds: str) -> None:
        show(seconds)
        assert run(["serve", "--db", "served.db", "--port", "0", "--control", CONTROL]) == refusal("io")
        assert not os.path.lexists(CONTROL)

    def test_time(self, show: Callable[[str], None], serve: Callable[..., Server]) -> None:
        show(subprocess.run(["date", "-d", TIME, "+%s"], capture_output=True, text=True, check=True).stdout.strip())
        server = serve("served.db", CONTROL)
        assert server.line.startswith("listening on 127.0.0.1:")
        assert f" since={TIME} ".encode() in server.order(b"ping\n")
        assert (server.order(b"stop\n"), server.wait_for_end()) == (b"stopping\n", 0)
