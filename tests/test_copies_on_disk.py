"""How the log of a copy gets to the disk: as it grows, so that nobody waits for all of it at the end.

strace lists what `serve` writes to the new store and when it has that written to the disk. A library that is loaded
before the C library is a disk that fails meanwhile.
"""

import os
import re
import subprocess
from collections.abc import Callable

import pytest

from lib.keys import KEY
from lib.ports import wait_until
from lib.program import PROGRAM, refusal, run
from lib.scratch import read, write
from lib.servers import CONTROL, Server
from lib.stores import new_store
from lib.tables import connected, put_versions, settled

pytestmark = pytest.mark.needs("strace")
# what goes to the disk where all is written at once, mostly as the file is made, takes some 20 orders
FEW = 40
# a disk that loses what was written, and reports that to whoever asks first, and to nobody else: that is a descriptor
# which only reads the log, since the store itself asks at the commit, by one that writes it
LOSES_ONCE = """
#define _GNU_SOURCE
#include <errno.h>
#include <fcntl.h>
#include <sys/syscall.h>
#include <unistd.h>
int fdatasync(int fd) {
    static int reported;
    if (!reported && (fcntl(fd, F_GETFL) & O_ACCMODE) == O_RDONLY) {
        reported = 1;
        errno = EIO;
        return -1;
    }
    return syscall(SYS_fdatasync, fd);
}
"""
WRITE = re.compile(rb"pwrite64\(.*= (\d+)$", re.M)
CALLS = re.compile(rb"(?:pwrite64|fdatasync|fsync)\(.*", re.M)


def read_steps(trace: bytes) -> list[int]:
    """Returns the bytes that were written to files before each order to have them on the disk, and after the last."""
    steps = [0]
    for call in CALLS.findall(trace):
        wrote = WRITE.match(call)
        if wrote:
            steps[-1] += int(wrote[1])
        else:
            steps.append(0)
    return steps


def trace_copy(server: Server) -> list[int]:
    """Returns what a copy writes, step by step."""
    words = ["strace", "-f", "-e", "trace=pwrite64,fdatasync,fsync", "-o", "trace", "-p", str(server.child.pid)]
    with open("strace", "wb") as errors:
        watch = subprocess.Popen(words, stderr=errors)
    wait_until(lambda: b" attached" in read("strace"))
    assert run(["copy", "--control", CONTROL, "--to", "copy.db"]) == (0, b"", "")
    server.stop()
    watch.wait(60)
    return read_steps(read("trace"))


@pytest.fixture(scope="class")
def steps(class_folder: str, request: pytest.FixtureRequest) -> list[int]:
    """What a copy writes of a store with the zips of a class."""
    new_store("served.db", ("alpha", KEY))
    conn = connected("served.db")
    put_versions(conn, "alpha", "example.com/lib", range(1, request.cls.ZIPS + 1), bytes(request.cls.LENGTH))
    settled(conn)
    with Server("served.db", CONTROL) as server:
        return trace_copy(server)


class TestLarge:
    """At most two thirds of what a copy writes is handed to the disk at once, on a slow disk too."""

    ZIPS, LENGTH = 96, 1 << 20

    def test_copy_writes_the_zips(self, steps: list[int]) -> None:
        assert sum(steps) > self.ZIPS << 20

    def test_copy_hands_them_to_the_disk_piece_by_piece(self, steps: list[int]) -> None:
        assert max(steps) <= 2 * sum(steps) // 3
        assert len([step for step in steps if step > 1 << 20]) >= 4


class TestSmall:
    """The log of small zips goes to the disk by what it has, not by how many they are."""

    ZIPS, LENGTH = 3_000, 1 << 10

    def test_small_zips_are_not_handed_to_the_disk_a_few_at_a_time(self, steps: list[int]) -> None:
        assert len(steps) <= FEW
        assert sum(steps) > self.ZIPS << 10


@pytest.mark.needs("cc")
def test_copy_to_a_disk_that_loses_a_part_of_it_fails(folder: str, serve: Callable[..., Server]) -> None:
    new_store("served.db", ("alpha", KEY))
    conn = connected("served.db")
    put_versions(conn, "alpha", "example.com/lib", range(1, 17), bytes(1 << 20))
    settled(conn)
    write({"loses.c": LOSES_ONCE, "losing": f'#!/bin/sh\nLD_PRELOAD="$PWD/loses.so" exec {PROGRAM} "$@"\n'})
    subprocess.run(["cc", "-shared", "-fPIC", "-o", "loses.so", "loses.c"], check=True)
    os.chmod("losing", 0o755)
    server = serve("served.db", CONTROL, program="./losing")
    assert run(["copy", "--control", CONTROL, "--to", "copy.db"]) == refusal("device")
    assert run(["copy", "--control", CONTROL, "--to", "copy.db"]) == (0, b"", "")
    server.stop()
    assert run(["shelf-list", "--db", "copy.db"]) == (0, b"alpha team\ncommon common\n", "")
