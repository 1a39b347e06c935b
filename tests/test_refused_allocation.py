"""One refused allocation gives at most one 503, and changes nothing but that one answer.

Runs the program on a stream of publishes and fetches, over shelves in memory and over a file, once for each N, with the
Nth allocation refused by a small library that is loaded before the C library (made with `cc`). Each run has to end as a
run of the machine: the replies are those to the requests that were not answered 503; where the 503 closes the stream,
it is the last. A run whose memory ends before the first request says `goshelf: memory`. A file is opened again after
it: what was answered 201 is there, and is answered 200 when it comes again. The short form refuses each tenth
allocation over the file, from a random one of the first ten; --long each.
"""

import functools
import os
import subprocess
import tempfile
from collections.abc import Iterator
from concurrent.futures import ThreadPoolExecutor

import pytest

from lib import messages
from lib.keys import KEY, MEMORY, PLATFORM
from lib.kills import RANDOM, print_seed
from lib.messages import put, raw_replies
from lib.program import PROGRAM
from lib.scratch import entered_folder, write
from lib.stores import new_store
from lib.worked import copy_store

pytestmark = pytest.mark.needs("cc")
# a test refuses one in this many allocations: in memory, which has few, and over a file in the short and long forms
MEMORY_STEP, FILE_STEP, LONG_STEP = 10, 100, 20
# the short form over a file refuses one in this many allocations
SHARE = 10

LIBRARY = """
#include <stdlib.h>
extern void *__libc_malloc(size_t);
extern void *__libc_calloc(size_t, size_t);
extern void *__libc_realloc(void *, size_t);
static long count, refused = -1;
static int refuse(void) {
    if (refused < 0) { const char *n = getenv("REFUSED"); refused = n ? atol(n) : 0; }
    return ++count == refused;
}
void *malloc(size_t n) { return refuse() ? 0 : __libc_malloc(n); }
void *calloc(size_t n, size_t m) { return refuse() ? 0 : __libc_calloc(n, m); }
void *realloc(void *p, size_t n) { return refuse() ? 0 : __libc_realloc(p, n); }
__attribute__((destructor)) static void tell(void) {
    if (refused == 0 && getenv("COUNT")) { char b[24]; int i = 24; long c = count; b[--i] = 10;
        do { b[--i] = '0' + c % 10; c /= 10; } while (c); extern long write(int, const void *, unsigned long); \
write(2, b + i, 24 - i); }
}
"""


def publish(path: str, version: str, zip_bytes: bytes = b"") -> bytes:
    return put(path, version, f"module {path}\n".encode(), zip_bytes)


def get(path: str, file: str, key: str = KEY) -> bytes:
    return messages.get(f"{path}/@v/{file}", key)


REQUESTS = [
    publish("example.com/lib", "v1.0.0"),
    get("example.com/lib", "v1.0.0.zip"),
    get("example.com/lib", "v1.0.0.mod"),
    publish("example.com/lib", "v1.0.0"),
    publish("example.com/lib", "v1.0.0", b"Z"),
    get("example.com/lib", "v1.0.0.zip", "nosuchkey0000001"),
    get("example.com/lib", "v9.0.0.zip"),
    publish("example.com/!lib", "v1.0.0-rc.1", b"zip" * 3000),
    get("example.com%2F%21lib", "v1.0.0-rc.1.zip"),
    publish("example.com//lib", "v1.0.0"),
]
Ending = tuple[int, bytes, bytes]


def read_status(reply: bytes) -> int:
    return int(reply.split()[1])


class Runs:
    """Runs of the program over shelves in memory, some of whose allocations a library refuses."""

    def __init__(self, library: str) -> None:
        self.library = library

    def answer(self, words: list[str], requests: list[bytes], **settings: str) -> Ending:
        env = {**os.environ, "LD_PRELOAD": self.library, **settings}
        ran = subprocess.run([PROGRAM, "answer", *words], input=b"".join(requests), capture_output=True, env=env)
        return ran.returncode, ran.stdout, ran.stderr

    def answer_anew(self, requests: list[bytes], **settings: str) -> tuple[Ending, str]:
        """Answers requests over a new store. Returns how the run ended, and what is wrong with the store after it."""
        return self.answer(MEMORY, requests, **settings), ""

    @functools.cached_property
    def ample(self) -> Ending:
        """How a run ends with ample memory: its errors are the number of allocations."""
        return self.answer_anew(REQUESTS, COUNT="1")[0]

    @functools.cache
    def replies_without(self, *left_out: int) -> list[bytes]:
        """Returns the replies to the requests but these, with ample memory."""
        requests = [request for number, request in enumerate(REQUESTS) if number not in left_out]
        return raw_replies(self.answer_anew(requests)[0][1])

    def judge(self, number: int) -> str:
        """Returns what is wrong with a run of which this allocation is refused; nothing if it is right."""
        (status, output, errors), wrong = self.answer_anew(REQUESTS, REFUSED=str(number))
        found = raw_replies(output)
        if wrong:
            return f"opened again after {number}: {wrong}"
        if status == 1:
            return "" if (output, errors) == (b"", b"goshelf: memory\n") else f"{number}: refused with {errors!r}"
        if status != 0 or errors:
            return f"{number}: status {status}, {errors!r}"
        places = [place for place, reply in enumerate(found) if read_status(reply) == 503]
        if len(places) > 1:
            return f"{number}: {len(places)} replies 503"
        if not places:
            is_right = found == self.replies_without()
        elif places[0] + 1 == len(found) < len(REQUESTS):
            is_right = found[:-1] == self.replies_without(*range(places[0], len(REQUESTS)))
        else:
            is_right = found[: places[0]] + found[places[0] + 1 :] == self.replies_without(places[0])
        return "" if is_right else f"{number}: the other replies differ: {found}"

    def check(self, first: int, step: int) -> None:
        """Refuses one in `step` allocations, from the `first` on."""
        numbers = range(first, int(self.ample[2]) + 1, step)
        assert numbers, "no allocation to refuse"
        with ThreadPoolExecutor(os.cpu_count()) as pool:
            for wrong in pool.map(self.judge, numbers):
                assert not wrong


class RunsOverFiles(Runs):
    """Runs over a file, each over a new one. Its team is in a group."""

    def __init__(self, library: str, folder: str) -> None:
        super().__init__(library)
        self.folder, self.fresh = folder, os.path.join(folder, "fresh.db")
        new_store(self.fresh, ("alpha", KEY, "", PLATFORM[0]), groups=[PLATFORM])

    def answer_anew(self, requests: list[bytes], **settings: str) -> tuple[Ending, str]:
        with tempfile.TemporaryDirectory(dir=self.folder) as folder:
            file = os.path.join(folder, "run.db")
            copy_store(self.fresh, file)
            ended = self.answer(["--db", file], requests, **settings)
            accepted = [asked for asked, reply in zip(requests, raw_replies(ended[1])) if read_status(reply) == 201]
            status, output, errors = self.answer(["--db", file], accepted)
        is_right = status == 0 and list(map(read_status, raw_replies(output))) == [200] * len(accepted)
        return ended, "" if is_right else f"status {status}, {errors!r}, {output!r}"


@pytest.fixture(scope="module")
def library() -> Iterator[str]:
    """A library that refuses the allocation whose number REFUSED has, and counts them if COUNT is set."""
    with entered_folder() as folder:
        write({"refuse.c": LIBRARY})
        subprocess.run(["cc", "-shared", "-fPIC", "-O1", "-o", "refuse.so", "refuse.c"], check=True)
        yield os.path.join(folder, "refuse.so")


def parametrize_first(step: int) -> pytest.MarkDecorator:
    """Has a test refuse one in `step` allocations, from each of the first ones on."""
    ids = [f"allocations {first}, {first + step}, .." for first in range(1, step + 1)]
    return pytest.mark.parametrize("first", range(1, step + 1), ids=ids)


def check_ample(ended: Ending) -> None:
    status, output, errors = ended
    assert status == 0, errors
    assert 503 not in map(read_status, raw_replies(output))


class TestInMemory:
    @pytest.fixture(scope="class")
    def runs(self, library: str) -> Runs:
        return Runs(library)

    def test_ample_memory_gives_no_503(self, runs: Runs) -> None:
        check_ample(runs.ample)

    @parametrize_first(MEMORY_STEP)
    def test_a_refused_allocation_changes_one_answer(self, runs: Runs, first: int) -> None:
        runs.check(first, MEMORY_STEP)


class TestOverAFile:
    @pytest.fixture(scope="class")
    def runs(self, library: str, class_folder: str) -> Runs:
        return RunsOverFiles(library, class_folder)

    def test_ample_memory_gives_no_503(self, runs: Runs) -> None:
        check_ample(runs.ample)

    @pytest.fixture(scope="class")
    def start(self) -> int:
        """One of the first allocations, from which on each tenth is refused."""
        return RANDOM.randint(1, SHARE)

    @pytest.mark.parametrize("part", range(SHARE), ids=lambda part: f"part {part + 1} of {SHARE}")
    def test_each_tenth_refused_allocation_changes_one_answer(self, runs: Runs, start: int, part: int) -> None:
        print_seed()
        runs.check(start + part * SHARE, FILE_STEP)

    @pytest.mark.long
    @parametrize_first(LONG_STEP)
    def test_a_refused_allocation_changes_one_answer(self, runs: Runs, first: int) -> None:
        runs.check(first, LONG_STEP)
