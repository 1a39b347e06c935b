"""The copies of deploy/warm: cut short, damaged, of another store, under a rush, on full disks, without an order.

What was served goes on, and all is named. The hosts are network namespaces (lib/hosts.py). The files of deploy/ run as
they are, set up by the commands of the pages.
"""

import contextlib
import hashlib
import io
import os
import re
import subprocess
import tarfile
import threading
from collections.abc import Callable, Iterator
from typing import NamedTuple

import pytest

from lib.company import FIRST, Asking
from lib.hosts import Answer, Host
from lib.ports import wait_until
from lib.program import PROGRAM, done, run
from lib.scratch import fill, mounted, opened, read, unpack, write
from lib.warm import COPY, HOME, NOT_WHOLE, SAMPLE, WARM, Warm, publishes

pytestmark = [
    pytest.mark.needs(
        "curl", "flock", "ip", "nginx", "nginx-js", "nginx-stream", "openssl", "pgrep", "setpriv", "sqlite3", "umount"
    ),
    pytest.mark.root,
]

CREATED = (201, b"published\n")
# what goshelf-copy says if goshelf fails, and the folder where it is to have the copy made on a small disk
NO_COPY, SMALL = "goshelf does not copy its store: goshelf: device", f"{HOME}/goshelf-copy-abcdef"
NO_STORE, REFUSED = "the copy is no store", "goshelf refuses the copy"
LACKS = r"the copy lacks versions that are served here:\nalpha\|example.com/lib\|v1.1.0\|"
BROKEN_STORE = f"({NO_STORE}|{REFUSED}|the copy lacks versions)"
# On the first host: publishes a large version and a small one.
RUSH = """
for it in big small; do
    curl -sf -o /dev/null -T "@/$it" -H Expect: -H 'Mod-Length: 24' \
        http://127.0.0.1:8080/k/KEY/example.com/rush/@v/v1.0.$(date +%s%N)
done
"""
# On the warm host: goshelf, whose serve ends at once if there is a file `broken`, which it removes.
BROKEN = """#!/bin/sh
if [ "$1" = serve ] && [ -e "@/broken" ]; then rm "@/broken"; echo 'goshelf: memory' >&2; exit 1; fi
exec PROGRAM "$@"
"""


class Older(NamedTuple):
    """The files of a copy that lacks what was published since, and the rights of others to them."""

    files: dict[str, bytes]
    rights: set[int]


@pytest.fixture(scope="module")
def new_company() -> Iterator[Warm]:
    with opened(Warm) as company:
        company.maps()
        yield company


@pytest.fixture(scope="module")
def older(new_company: Warm) -> Older:
    company, folder = new_company, f"{new_company.warm.folder}/root/older"
    assert publishes(company, "v1.0.0") == {CREATED}
    company.copy()
    with tarfile.open(fileobj=io.BytesIO(company.wire.copied("store")[1])) as tar:
        unpack(tar, folder)
    assert publishes(company, "v1.1.0") == {CREATED}
    files = {name: read(f"{folder}/{name}") for name in COPY}
    return Older(files, {os.stat(f"{folder}/{name}").st_mode & 0o77 for name in COPY})


@pytest.fixture(scope="module")
def company(new_company: Warm, older: Older) -> Warm:
    """A company that has a copy, and has published since."""
    return new_company


@pytest.fixture(scope="module")
def sample(company: Warm) -> dict[Asking, Answer]:
    """Some answers that need no other than a copy."""
    return {asking: company.own(*asking) for asking in SAMPLE}


def is_served(company: Warm, sample: dict[Asking, Answer]) -> bool:
    """Whether the warm host gives these answers without the first host."""
    begun = len(company.lines(FIRST))
    wrong = company.differing(sample, (WARM,))
    asked = company.lines(FIRST, begun)
    print(wrong, asked)
    return not wrong and not asked


def test_the_files_of_a_copy_are_their_owners_alone(older: Older) -> None:
    assert older.rights == {0}


class Whole(NamedTuple):
    """A good copy: its bytes, where each member begins and where its text does, its files, another store's, an
    empty one's, older ones, and the file that the warm host serves."""

    tar: bytes
    members: dict[str, tuple[int, int]]
    files: dict[str, bytes]
    other: dict[str, bytes]
    empty: dict[str, bytes]
    older: dict[str, bytes]
    served: bytes

    @property
    def log(self) -> bytes:
        return self.files[COPY[1]]


def sums_of(files: dict[str, bytes]) -> bytes:
    return "".join(f"{hashlib.sha256(text).hexdigest()}  {name}\n" for name, text in files.items()).encode()


def tar_of(files: dict[str, bytes], sums: bytes | None = None) -> bytes:
    """Returns a tar file as goshelf-copy makes it, with other sums if they are given."""
    held = io.BytesIO()
    with tarfile.open(fileobj=held, mode="w", format=tarfile.GNU_FORMAT) as tar:
        for name, text in {**files, "SHA256SUMS": sums_of(files) if sums is None else sums}.items():
            info = tarfile.TarInfo(name)
            info.size, info.mode = len(text), 0o600
            tar.addfile(info, io.BytesIO(text))
    return held.getvalue()


def tar_of_store(text: bytes) -> bytes:
    """Returns a tar file of a store whose log is empty."""
    return tar_of({COPY[0]: text, COPY[1]: b""})


def other_store(folder: str, *versions: str) -> dict[str, bytes]:
    """Returns the files of another store, with a team if it has versions."""
    os.makedirs(folder)
    file = f"{folder}/shelves.db"
    done("init", "--db", file)
    if versions:
        done("team-add", "--db", file, "--team", "alpha")
        done("key-add", "--db", file, "--shelf", "alpha", "--key", "alphakey00000001")
    for version in versions:
        write({f"{folder}/mod": "module example.com/lib\n", f"{folder}/zip": "other bytes"})
        line = f"publish --db {file} --key alphakey00000001 --module example.com/lib --version {version}"
        run([*line.split(), "--mod", f"{folder}/mod", "--zip", f"{folder}/zip"])
    return {name: read(f"{folder}/{name}") for name in COPY}


def zero_page(whole: Whole, number: int) -> bytes:
    """Returns a copy of which a page is zeros. sqlite3 moved the log of the served copy into its file."""
    served = whole.served
    return tar_of_store(served[: 4096 * number] + bytes(4096) + served[4096 * (number + 1) :])


def cut_pages(whole: Whole, number: int) -> bytes:
    """Returns a copy of the first pages of a store, or but for the last ones if the number is below 0."""
    count = number if number > 0 else len(whole.served) // 4096 + number
    return tar_of_store(whole.served[: 4096 * count])


def flip(text: bytes) -> bytes:
    """Returns a text with another byte in its middle."""
    middle = len(text) // 2
    return text[:middle] + bytes([text[middle] ^ 1]) + text[middle + 1 :]


# where a copy is cut short
CUTS: dict[str, Callable[[Whole], int]] = {
    "nothing": lambda whole: 0,
    "100 bytes": lambda whole: 100,
    "half": lambda whole: len(whole.tar) // 2,
    "no text of the store": lambda whole: whole.members[COPY[0]][1],
    "no log": lambda whole: whole.members[COPY[1]][0],
    "no text of the log": lambda whole: whole.members[COPY[1]][1],
    "no sums": lambda whole: whole.members["SHA256SUMS"][0],
    "no text of the sums": lambda whole: whole.members["SHA256SUMS"][1],
    "10 bytes of the sums": lambda whole: whole.members["SHA256SUMS"][1] + 10,
}
# copies that are not to be served, each with what goshelf-warm says of it
BAD_COPIES: dict[str, tuple[Callable[[Whole], bytes], str]] = {
    "no tar file": (lambda whole: b"Permission denied\n" * 1000, NOT_WHOLE),
    "without sums": (lambda whole: tar_of(whole.files, b""), NOT_WHOLE),
    "with another byte": (
        lambda whole: tar_of({**whole.files, COPY[1]: flip(whole.log)}, sums_of(whole.files)), NOT_WHOLE),
    "without its log": (lambda whole: tar_of({COPY[0]: whole.files[COPY[0]]}), NOT_WHOLE),
    "an empty file": (lambda whole: tar_of_store(b""), NO_STORE),
    "no store": (lambda whole: tar_of_store(b"x" * 9_000), NO_STORE),
    "page 1 is zeros": (lambda whole: zero_page(whole, 1), BROKEN_STORE),
    "page 4 is zeros": (lambda whole: zero_page(whole, 4), BROKEN_STORE),
    "page 7 is zeros": (lambda whole: zero_page(whole, 7), BROKEN_STORE),
    "1 page": (lambda whole: cut_pages(whole, 1), BROKEN_STORE),
    "5 pages": (lambda whole: cut_pages(whole, 5), BROKEN_STORE),
    "all pages but one": (lambda whole: cut_pages(whole, -1), BROKEN_STORE),
    "an empty store": (lambda whole: tar_of(whole.empty), REFUSED),
    "another store": (lambda whole: tar_of(whole.other), LACKS),
    "the store of a day before": (lambda whole: tar_of(whole.older), LACKS),
}  # fmt: skip


@pytest.fixture(scope="module")
def whole(company: Warm, older: Older) -> Whole:
    company.copy()
    status, tar, errors = company.wire.copied("store")
    assert (status, errors) == (0, b"")
    with tarfile.open(fileobj=io.BytesIO(tar)) as file:
        members = {member.name: (member.offset, member.offset_data) for member in file}
        files = {name: file.extractfile(name).read() for name in COPY}
    root = f"{company.warm.folder}/root"
    other, empty = other_store(f"{root}/other", "v1.0.0", "v7.0.0"), other_store(f"{root}/empty")
    return Whole(tar, members, files, other, empty, older.files, read(company.warm.store))


def test_what_goshelf_copy_sends_is_served(company: Warm, whole: Whole) -> None:
    assert company.wire.copied("store")[::2] == (0, b"")
    assert company.tried(company.wire.copied("store")[1]) == (0, "", "")
    assert company.wrong_answers() == []


@pytest.mark.parametrize("name", [*CUTS, *BAD_COPIES])
def test_a_bad_copy_is_named_and_the_one_before_is_served(
    company: Warm, whole: Whole, sample: dict[Asking, Answer], name: str
) -> None:
    if name in CUTS:
        text, said = whole.tar[: CUTS[name](whole)], NOT_WHOLE
    else:
        make, said = BAD_COPIES[name]
        text = make(whole)
    left = sorted(os.listdir(f"{company.warm.folder}/{HOME}"))
    status, printed, _ = company.tried(text)
    assert status == 1 and re.search(f"^goshelf-warm: {said}", printed, re.M)
    assert is_served(company, sample)
    assert sorted(os.listdir(f"{company.warm.folder}/{HOME}")) == left


def test_each_answer_is_right_after_bad_copies(company: Warm, whole: Whole) -> None:
    for name in ("an empty file", "no store", "the store of a day before"):
        assert company.tried(BAD_COPIES[name][0](whole))[0] == 1
    assert company.wrong_answers() == []


def test_the_line_is_cut_in_the_middle_of_a_copy(company: Warm) -> None:
    new, ran = f"{company.warm.folder}/{HOME}/new", []
    copying = threading.Thread(target=lambda: ran.append(company.warm.sh("goshelf-warm store")))
    with company.wire.holds():
        copying.start()
        wait_until(lambda: os.path.exists(f"{new}/shelves.db"))
        second = company.warm.sh("goshelf-warm store")
        with company.first.cut_off():
            copying.join(30)
    assert second == (1, "goshelf-warm: the run before has not ended: store\n", "")
    company.back()
    assert ran and ran[0][0] == 1 and NOT_WHOLE in ran[0][1]
    assert not os.path.exists(new)
    company.copy()
    assert company.wrong_answers() == []


# what a run had moved away that was killed, and what of the new copy had come
KILLED = {
    "nothing was moved": ((), ()),
    "the old file was": (COPY[:1], ()),
    "the old log was": (COPY[1:], ()),
    "both old files were": (COPY, ()),
    "the new log had come": (COPY, COPY[1:]),
    "both new files had come": (COPY, COPY),
}


@pytest.mark.parametrize("when", KILLED)
def test_a_run_was_killed_in_the_middle_of_the_swap(
    company: Warm, sample: dict[Asking, Answer], folder: str, when: str
) -> None:
    """The next one puts the old copy back first."""
    (moved, come), warm = KILLED[when], company.warm
    home, old = f"{warm.folder}/{HOME}", f"{warm.folder}/{HOME}/old"
    other = other_store(f"{folder}/half", "v1.0.0")
    warm.does("systemctl stop goshelf")
    before = read(f"{home}/{COPY[0]}")
    os.mkdir(old)
    for name in moved:
        os.rename(f"{home}/{name}", f"{old}/{name}")
    write({f"{home}/{name}": other[name] for name in come} | ({f"{old}/all": ""} if come else {}))
    status, printed, _ = company.tried(b"")
    assert status == 1 and NOT_WHOLE in printed
    assert is_served(company, sample)
    assert not os.path.exists(old)
    assert read(f"{home}/{COPY[0]}") == before


def test_goshelf_does_not_start_over_the_new_copy(company: Warm, sample: dict[Asking, Answer]) -> None:
    warm = company.warm
    program, file = f"{warm.folder}/usr/local/bin/goshelf", f"{warm.folder}/{HOME}/{COPY[0]}"
    os.remove(program)
    warm.command("goshelf", BROKEN.replace("PROGRAM", PROGRAM))
    warm.write("broken", "")
    assert company.put("pub", "example.com/unstarted", "v1.3.0") == CREATED
    before = read(file)
    status, printed, _ = warm.sh("goshelf-warm store")
    said = "goshelf-warm: goshelf does not answer over the new copy: the old one is back\n"
    assert (status, printed) == (1, said)
    assert is_served(company, sample)
    assert read(file) == before
    company.copy()
    assert company.wrong_answers() == []


@contextlib.contextmanager
def small_disk(company: Warm, host: Host, place: str, size: str) -> Iterator[str]:
    """Gives a folder of a host a disk of a size, until the block ends. A goshelf that began before does not see it."""
    folder, services = f"{host.folder}/{place}", {company.warm, host}
    for service in services:
        service.does("systemctl stop goshelf")
    os.makedirs(folder, exist_ok=True)
    is_mounted = mounted(folder, size)
    try:
        if not is_mounted:
            pytest.skip("this machine mounts no tmpfs")
        if host is not company.warm:
            for service in services:
                service.does("systemctl start goshelf")
        yield folder
    finally:
        for service in services:
            service.does("systemctl stop goshelf")
        if is_mounted:
            subprocess.run(["umount", folder], check=True)
        for service in services:
            service.does("systemctl start goshelf")


def put_later(company: Warm, size: int = 2_000) -> int:
    """Publishes a version that is not there yet, and returns the status."""
    return company.put("pub", "example.com/disks", f"v1.{len(company.published)}.0", size)[0]


def test_the_disk_of_the_warm_host_is_full(company: Warm) -> None:
    warm = company.warm
    with small_disk(company, warm, HOME, "40m") as folder:
        company.copy()
        assert put_later(company, 2_000_000) == 201
        fill(f"{folder}/other")
        wanted = company.answers(("ann", "com"))
        status, printed, errors = warm.sh("goshelf-warm store")
        assert status == 1 and NOT_WHOLE in printed and "No space left" in errors
        # the old copy is served, and the first host answers the rest
        assert company.differing(wanted) == []
        assert not os.path.exists(f"{folder}/new")
        assert put_later(company) == 201
        os.unlink(f"{folder}/other")
        company.copy()
        assert company.wrong_answers(users=("ann", "com")) == []
    company.copy()
    assert company.wrong_answers() == []


def test_the_disk_of_copies_of_the_first_host_is_full(company: Warm) -> None:
    first = company.first
    first.command("mktemp", f'#!/bin/sh\necho "@/{SMALL}"\n')
    try:
        with small_disk(company, first, SMALL, "1m") as folder:
            assert put_later(company, 2_000_000) == 201
            fill(f"{folder}/other")
            wanted = company.answers(("ann", "com"))
            status, printed, errors = company.warm.sh("goshelf-warm store")
            assert status == 1 and NOT_WHOLE in printed and NO_COPY in errors
            assert company.differing(wanted) == []
            assert os.listdir(folder) == []
            assert put_later(company) == 201
        os.rmdir(folder)
    finally:
        os.remove(f"{first.folder}/usr/local/bin/mktemp")
    company.copy()
    assert company.wrong_answers() == []


def test_a_copy_waits_while_goshelf_makes_another(company: Warm) -> None:
    with company.first.busy(2):
        status, _, errors = company.wire.copied("store")
    assert (status, errors) == (0, b"")


def test_what_a_killed_run_left_goes_after_a_day(company: Warm) -> None:
    left = [f"{company.first.folder}/{HOME}/goshelf-copy-{end}" for end in ("abcdef", "later0", "abcdef-other", "file")]
    of_a_day, new, other, file = left
    for folder in left[:3]:
        os.mkdir(folder)
    write({file: "text", f"{of_a_day}/shelves.db": "text"})
    for name in (of_a_day, other, file):
        os.utime(name, (0, 0))
    try:
        company.copy()
        assert [os.path.exists(name) for name in left] == [False, True, True, True]
    finally:
        for folder in (new, other):
            os.rmdir(folder)
        os.remove(file)


def test_goshelf_takes_no_orders(company: Warm) -> None:
    first, wanted = company.first, company.answers(("ann", "com"))
    first.does("systemctl stop goshelf")
    try:
        status, printed, errors = company.wire.copied("store")
        left = sorted(os.listdir(f"{first.folder}/{HOME}"))
    finally:
        first.does("systemctl start goshelf")
    said = b"goshelf-copy: goshelf does not copy its store: goshelf: device\n"
    assert (status, printed, errors) == (1, b"", said)
    assert left == sorted((*COPY, "shelves.db-reserve"))
    company.back()
    assert company.differing(wanted) == []
    company.copy()


class TestRush:
    """Large publishes come on and on while goshelf copies: each copy is whole."""

    @pytest.fixture
    def rushed(self) -> Iterator[Warm]:
        """A company whose goshelf made two copies meanwhile."""
        with opened(Warm) as company:
            company.maps()
            assert publishes(company, "v1.0.0") == {CREATED}
            self.rush(company)
            yield company

    def rush(self, company: Warm) -> None:
        first, is_over = company.first, threading.Event()
        gomod = b"module example.com/rush\n"
        write({f"{first.folder}/big": gomod + company.seed.randbytes(4_200_000), f"{first.folder}/small": gomod})
        script = RUSH.replace("@/", f"{first.folder}/", 1).replace("KEY", company.key("pub"))

        def publish() -> None:
            # (the store grows by 4 MB each time)
            for _ in range(20):
                if is_over.wait(0.3):
                    return
                first.does(script)

        publisher = threading.Thread(target=publish)
        publisher.start()
        try:
            for _ in range(2):
                company.copy()
        finally:
            is_over.set()
            publisher.join()

    def test_each_copy_is_whole(self, rushed: Warm) -> None:
        versions = rushed.own("ann", "/example.com/rush/@v/list")[2].decode().split()
        assert len(versions) > 1
        targets = [f"/example.com/rush/@v/{version}.{kind}" for version in versions for kind in ("mod", "zip")]
        files = {("ann", target): rushed.own("ann", target) for target in targets}
        assert rushed.differing(files) == []
        rushed.copy()
        assert rushed.wrong_answers() == []
