"""Kept proofs by tools/kept: what is packed and unpacked, and what a wrong file gives, with a stand-in for rt.

With `--long` the kit itself meets files that lie: it takes a library that one has for proved, and `rt ci` does not.
"""

import contextlib
import fcntl
import io
import json
import os
import re
import shutil
import subprocess
import sys
import tarfile
from collections.abc import Iterator, Mapping

import pytest

from lib.ports import wait_until
from lib.program import ROOT
from lib.scratch import entered_folder, read, small_disk, write

pytestmark = pytest.mark.needs("zstd")

KEPT = os.path.join(ROOT, "tools", "kept")
# a body that the contract of `text` refuses
RIGHT, WRONG = "Ok(Text::new(String::from_str(alloc, text)?))", 'Ok(Text::new(String::from_str(alloc, "")?))'
# prints the sum by which rt tells whether a library is of the text that stands there
STAMP = """
import os, sys
sys.path.insert(0, os.path.dirname(os.path.realpath(sys.argv[1])))
import rtlib
print(next(crate for crate in rtlib.crates_below(os.getcwd()) if crate.name == "text").stamp(), end="")
"""
KIT = "a kit 1"
# a repository: `above` uses `base`, and `other` nothing
CRATES = "# crates\nbase:\nabove: base semver\nother:\nempty:\n"
NAMES = ("base", "above", "other")
TEXTS = {"src/lib.rt": "fn one() {}\n", "specs/Lib.antt": "pub mod One\n", "proofs/Lib.antt": ""}
# what a check keeps, and the program, which is not packed
MADE = {"incremental/antt-1/a.oantt": "a" * 5000, "rlib/stamp": "1", "rlib/NAME.rlib/format": "b", "NAME": "program"}
GOOD = ("crates/base/out/rlib/stamp", b"base1")
Ran = tuple[int, str, str]
Member = str | tarfile.TarInfo


class Rooms:
    """Repositories in a folder, and a stand-in for rt that says the name of a kit."""

    def __init__(self, folder: str) -> None:
        self.folder, self.count = folder, 0
        # a path on which there is only Python
        self.python_only = f"{folder}/bin"
        os.mkdir(self.python_only)
        os.symlink(sys.executable, f"{self.python_only}/python3")
        self.rt = self.make_rt("rt", KIT)
        self.full, self.file = self.repository(NAMES), f"{folder}/all.kept"
        self.packed = self.kept(self.full, "pack", self.file)

    def make_rt(self, name: str, kit: str) -> str:
        """Makes a stand-in for rt that says that it is this kit."""
        write({f"{self.folder}/{name}": f"#!/bin/sh\necho '{kit}'\n"})
        os.chmod(f"{self.folder}/{name}", 0o755)
        return f"{self.folder}/{name}"

    def repository(self, made: tuple[str, ...] = (), below: str | None = None) -> str:
        """Makes a repository in which these crates have kept proofs, and returns its folder."""
        self.count += 1
        top = f"{below or self.folder}/repository{self.count}"
        files = {"crates.txt": CRATES}
        for crate in (*NAMES, "empty"):
            files.update({f"crates/{crate}/{name}": text for name, text in TEXTS.items()})
        for crate in made:
            files.update({f"crates/{crate}/out/{name}": crate + text for name, text in MADE.items()})
        write_below(top, files)
        return top

    def kept(self, top: str, *words: str, **settings: str) -> Ran:
        """Runs tools/kept in a repository, and returns its status, output and errors."""
        how = {"cwd": top, "env": {**os.environ, "RT": self.rt, **settings}, "stdin": subprocess.DEVNULL}
        ran = subprocess.run([KEPT, *words], capture_output=True, text=True, timeout=120, **how)
        return ran.returncode, ran.stdout, ran.stderr

    def archive(self, *members: tuple[Member, bytes], head: bytes | None = None) -> str:
        """Makes a file with these members behind its head, which is that of a good file unless one is given, packed as
        `pack` does. It has no head if that is empty."""
        self.count += 1
        made, at = io.BytesIO(), f"{self.folder}/made{self.count}.kept"
        if head != b"":
            members = (("KEPT.json", self.read_head() if head is None else head), *members)
        with tarfile.open(fileobj=made, mode="w") as tar:
            for name, content in members:
                info = name if isinstance(name, tarfile.TarInfo) else tarfile.TarInfo(name)
                info.size = len(content)
                tar.addfile(info, io.BytesIO(content))
        subprocess.run(["zstd", "-qf", "-o", at], input=made.getvalue(), check=True)
        return at

    def read_head(self) -> bytes:
        """Returns what a good file says of itself."""
        tar_bytes = subprocess.run(["zstd", "-qdc", self.file], capture_output=True, check=True).stdout
        with tarfile.open(fileobj=io.BytesIO(tar_bytes)) as tar:
            return json.dumps(json.load(tar.extractfile(tar.next()))).encode()

    def refuses(self, file: str, top: str | None = None, **settings: str) -> str:
        """Unpacks a file that has to be refused without a word on standard output, and to leave all as it is. Returns
        why, with FILE for the name of the file."""
        top = top or self.repository()
        before = made_in(top)
        status, output, errors = self.kept(top, "unpack", file, **settings)
        assert (status, output, made_in(top)) == (1, "", before), errors
        return re.sub(r"zstd: .*\n", "", errors).replace(file, "FILE")


def write_below(top: str, files: Mapping[str, str]) -> None:
    """Writes files below a folder, and the folders that they lack."""
    for name in files:
        os.makedirs(os.path.dirname(f"{top}/{name}"), exist_ok=True)
    write({f"{top}/{name}": text for name, text in files.items()})


def made_in(top: str) -> dict[str, bytes]:
    """Returns the files below the out/ of each crate."""
    found = {}
    for at, _, names in os.walk(f"{top}/crates"):
        found.update({os.path.relpath(f"{at}/{name}", top): read(f"{at}/{name}") for name in names if "/out" in at})
    return found


def kept_of(*crates: str) -> dict[str, bytes]:
    """Returns the files that these crates have after `unpack`."""
    made = {name: text for name, text in MADE.items() if name != "NAME"}
    return {f"crates/{crate}/out/{name}": (crate + text).encode() for crate in crates for name, text in made.items()}


@contextlib.contextmanager
def locked(folder: str) -> Iterator[None]:
    """Locks a crate, as rt does while it works there."""
    lock = os.open(folder, os.O_RDONLY)
    try:
        fcntl.flock(lock, fcntl.LOCK_EX)
        yield
    finally:
        os.close(lock)


@pytest.fixture(scope="module")
def rooms() -> Iterator[Rooms]:
    with entered_folder() as folder:
        yield Rooms(folder)


class TestPack:
    """What `pack` writes, and what it refuses."""

    @pytest.mark.parametrize(
        "words",
        [[], ["nosuch"], ["--nosuch"], ["pack"], ["pack", ""], ["pack", "file", ""], ["unpack"], ["unpack", ""],
         ["unpack", "file", "more"], ["unpack", "file", "--nosuch"]],
        ids=lambda words: " ".join(words) or "no words",
    )  # fmt: skip
    def test_bad_usage(self, words: list[str], rooms: Rooms) -> None:
        status, output, errors = rooms.kept(rooms.full, *words)
        assert (status, output) == (2, "")
        assert "usage: tools/kept" in errors

    def test_all_crates_are_packed(self, rooms: Rooms) -> None:
        assert rooms.packed == (0, "packed 3 crates: 0 MiB\n", "")

    def test_another_clone_packs_the_same_bytes(self, rooms: Rooms) -> None:
        rooms.kept(rooms.repository(NAMES), "pack", f"{rooms.folder}/same.kept")
        assert read(f"{rooms.folder}/same.kept") == read(rooms.file)

    def test_a_crate_is_packed_with_those_below(self, rooms: Rooms) -> None:
        ran = rooms.kept(rooms.full, "pack", f"{rooms.folder}/one.kept", "above")
        assert ran == (0, "packed 2 crates: 0 MiB\n", "")

    def check_refusal(self, rooms: Rooms, top: str, why: str, *words: str, **settings: str) -> None:
        """A refused `pack` says why and leaves no file."""
        assert rooms.kept(top, "pack", f"{rooms.folder}/not", *words, **settings) == (1, "", f"tools/kept: {why}\n")
        assert [name for name in os.listdir(rooms.folder) if name.startswith("not")] == []

    def test_nothing_is_packed_while_rt_works_there(self, rooms: Rooms) -> None:
        top = rooms.repository(NAMES)
        with locked(f"{top}/crates/base"):
            why = "another rt works in crates/base: run this again once it has ended"
            self.check_refusal(rooms, top, why)

    @pytest.mark.parametrize(
        ("crate", "why"),
        [("nosuch", "nosuch is no crate of crates.txt"), ("empty", "empty has no kept proofs: run rt check there")],
        ids=["a crate that does not exist", "a crate without kept proofs"],
    )
    def test_a_crate_is_refused(self, crate: str, why: str, rooms: Rooms) -> None:
        self.check_refusal(rooms, rooms.full, why, crate)

    def test_a_repository_without_kept_proofs_is_refused(self, rooms: Rooms) -> None:
        self.check_refusal(rooms, rooms.repository(), "no crate has kept proofs: run rt all check")

    def test_nothing_is_packed_without_zstd(self, rooms: Rooms) -> None:
        self.check_refusal(rooms, rooms.full, "there is no command zstd", "other", PATH=rooms.python_only)


# a file that has another text, that text, and the crates that are left out then
OTHER_TEXTS = [
    ("crates/base/src/lib.rt", "fn two() {}\n", ["base", "above"]),
    ("crates/base/specs/Lib.antt", "", ["base", "above"]),
    ("crates/base/proofs/New.antt", "", ["base", "above"]),
    ("crates/above/src/lib.rt", "", ["above"]),
    ("crates.txt", CRATES.replace("semver", "jiff"), ["above"]),
    ("crates/base/must-fail/a.edit", "", []),
    ("crates/base/README", "", []),
]


class TestUnpack:
    """What `unpack` gives the crates."""

    def test_each_file_is_as_it_was(self, rooms: Rooms) -> None:
        top = rooms.repository()
        assert rooms.kept(top, "unpack", rooms.file) == (0, f"3 crates have kept proofs of {rooms.file}\n", "")
        assert made_in(top) == kept_of(*NAMES)

    def test_a_second_time_changes_nothing(self, rooms: Rooms) -> None:
        top = rooms.repository()
        rooms.kept(top, "unpack", rooms.file)
        same = "".join(f"{name}: left as it is, as it has kept proofs\n" for name in NAMES)
        wanted = 0, f"{same}0 crates have kept proofs of {rooms.file}\n", ""
        assert rooms.kept(top, "unpack", rooms.file) == wanted
        assert made_in(top) == kept_of(*NAMES)

    def test_kept_proofs_of_ones_own_stay(self, rooms: Rooms) -> None:
        top = rooms.repository()
        own = {"crates/base/out/rlib/own": "own", "crates/other/out/incremental/own": "own"}
        write_below(top, own)
        rooms.kept(top, "unpack", rooms.file)
        assert made_in(top) == {**kept_of("above"), **{name: b"own" for name in own}}

    def test_what_a_killed_run_left_goes_and_all_else_stays(self, rooms: Rooms) -> None:
        top = rooms.repository()
        left = {"crates/base/out/unpacking-1/incremental/a": "half", "crates/base/out/program": "program"}
        write_below(top, left)
        rooms.kept(top, "unpack", rooms.file)
        assert made_in(top) == {**kept_of(*NAMES), "crates/base/out/program": b"program"}

    @pytest.mark.parametrize(("file", "text", "left_out"), OTHER_TEXTS, ids=[row[0] for row in OTHER_TEXTS])
    def test_crates_of_another_text_are_left_out(self, file: str, text: str, left_out: list[str], rooms: Rooms) -> None:
        top = rooms.repository()
        write_below(top, {file: text})
        why = "left out, as its text, or that of a crate below, is another"
        said = "".join(f"{name}: {why}\n" for name in left_out)
        wanted = 0, f"{said}{3 - len(left_out)} crates have kept proofs of {rooms.file}\n", ""
        assert rooms.kept(top, "unpack", rooms.file) == wanted
        assert made_in(top) == kept_of(*[name for name in NAMES if name not in left_out])

    def test_a_crate_that_is_gone_is_left_out(self, rooms: Rooms) -> None:
        top = rooms.repository()
        write_below(top, {"crates.txt": CRATES.replace("other:\n", "")})
        _, output, _ = rooms.kept(top, "unpack", rooms.file)
        assert output.splitlines()[0] == "other: left out, as it is no crate here"

    def test_a_stopped_run_leaves_nothing(self, rooms: Rooms) -> None:
        source, top, pipe = rooms.repository(NAMES), rooms.repository(), f"{rooms.folder}/pipe"
        for crate in NAMES:
            write_below(source, {f"crates/{crate}/out/incremental/long": os.urandom(2_000_000).hex()})
        rooms.kept(source, "pack", f"{rooms.folder}/long.kept")
        whole = read(f"{rooms.folder}/long.kept")
        os.mkfifo(pipe)
        how = {"cwd": top, "stdout": subprocess.DEVNULL, "stderr": subprocess.DEVNULL}
        child = subprocess.Popen([KEPT, "unpack", pipe], env={**os.environ, "RT": rooms.rt}, **how)
        with open(pipe, "wb") as file:
            file.write(whole[: len(whole) * 3 // 4])
            file.flush()
            wait_until(lambda: made_in(top), 60)
            child.terminate()
            assert child.wait(60) == 1
        assert made_in(top) == {}


# a packed file, cut short or changed
BREAKS = {
    "no bytes": lambda whole: b"",
    "a tenth": lambda whole: whole[: len(whole) // 10],
    "half": lambda whole: whole[: len(whole) // 2],
    "all but the last byte": lambda whole: whole[:-1],
    "another byte": lambda whole: whole[:-20] + bytes([whole[-20] ^ 1]) + whole[-19:],
    "another sum": lambda whole: whole[:-1] + bytes([whole[-1] ^ 1]),
    "not packed": lambda whole: b"KEPT.json" * 100,
}
# names of members that are no kept proofs, where OUTSIDE is a file outside of the repository
LYING_NAMES = """
OUTSIDE
../outside
crates/base/out/rlib/../../../../../outside
crates/base/out/rlib/../../src/lib.rt
crates/base/out/../src/lib.rt
crates/../crates/base/out/rlib/a
crates/base/out/rlib//a
./crates/base/out/rlib/a
crates/base/src/lib.rt
crates/base/out/base
crates/base/out/rlib
crates/nosuch/out/rlib/a
crates.txt
.git/hooks/post-checkout
KEPT.json
""".split()
LYING_KINDS = {
    "a link": tarfile.SYMTYPE,
    "a hard link": tarfile.LNKTYPE,
    "a folder": tarfile.DIRTYPE,
    "a pipe": tarfile.FIFOTYPE,
    "a device": tarfile.CHRTYPE,
}
NO_FILE = "tools/kept: FILE is no file of tools/kept"


class TestBrokenFiles:
    """Files that are cut short, changed, or lie give nothing."""

    @pytest.mark.parametrize("name", BREAKS)
    def test_a_broken_file_gives_nothing(self, name: str, rooms: Rooms) -> None:
        at, top = f"{rooms.folder}/broken", rooms.repository()
        write({at: BREAKS[name](read(rooms.file))})
        status, output, errors = rooms.kept(top, "unpack", at)
        assert (status, output, made_in(top)) == (1, "", {})
        assert f"tools/kept: {at} " in errors

    def test_a_missing_file_is_named(self, rooms: Rooms) -> None:
        status, _, errors = rooms.kept(rooms.full, "unpack", "/none")
        assert status == 1 and "/none" in errors

    @pytest.mark.parametrize("name", LYING_NAMES)
    def test_a_name_that_lies_gives_nothing(self, name: str, rooms: Rooms) -> None:
        outside = f"{rooms.folder}/outside"
        shown = name.replace("OUTSIDE", outside)
        why = rooms.refuses(rooms.archive(GOOD, (shown, b"lie")))
        assert why == f"tools/kept: FILE has something else than kept proofs: {shown!r}\n"
        assert not os.path.lexists(outside)

    @pytest.mark.parametrize("name", LYING_KINDS)
    def test_a_member_that_is_no_file_gives_nothing(self, name: str, rooms: Rooms) -> None:
        info, outside = tarfile.TarInfo("crates/base/out/rlib/a"), f"{rooms.folder}/outside"
        info.type, info.linkname = LYING_KINDS[name], outside
        why = rooms.refuses(rooms.archive(GOOD, (info, b"")))
        assert why == f"tools/kept: FILE has something else than kept proofs: {info.name!r}\n"
        assert not os.path.lexists(outside)

    def test_a_name_twice_gives_nothing(self, rooms: Rooms) -> None:
        top = rooms.repository()
        status, _, errors = rooms.kept(top, "unpack", rooms.archive(GOOD, GOOD))
        assert status == 1 and "File exists" in errors
        assert made_in(top) == {}

    def test_a_file_without_a_head_is_refused(self, rooms: Rooms) -> None:
        assert rooms.refuses(rooms.archive(GOOD, head=b"")) == f"{NO_FILE}\n"

    def test_a_long_head_is_refused(self, rooms: Rooms) -> None:
        assert rooms.refuses(rooms.archive(head=b" " * (2**20 + 1))) == f"{NO_FILE}\n"

    @pytest.mark.parametrize(
        "head",
        ["{}", "[]", "no json", '{"kit": "a kit 1", "crates": {"base": {"text": "1", "files": "x", "bytes": 1}}}'],
    )
    def test_a_head_of_another_form_is_refused(self, head: str, rooms: Rooms) -> None:
        why = rooms.refuses(rooms.archive(head=head.encode()))
        assert why == f"{NO_FILE}: its KEPT.json cannot be read\n"

    @pytest.mark.parametrize(
        ("members", "why"),
        [
            ([GOOD], "is cut short: it lacks files of base"),
            ([(f"crates/base/out/rlib/{number}", b"1") for number in range(4)], "has more of base than it says"),
            ([("crates/base/out/rlib/a", b"1" * 6000)], "has more of base than it says"),
        ],
        ids=["fewer files", "more files", "more bytes"],
    )
    def test_a_head_that_lies_is_refused(self, members: list[tuple[str, bytes]], why: str, rooms: Rooms) -> None:
        assert rooms.refuses(rooms.archive(*members)) == f"tools/kept: FILE {why}\n"


class TestMachines:
    """What the machine lacks."""

    def test_a_file_of_another_kit_is_refused(self, rooms: Rooms) -> None:
        why = rooms.refuses(rooms.file, RT=rooms.make_rt("other-rt", "a kit 2"))
        assert why == "tools/kept: FILE is of 'a kit 1', and the kit here is 'a kit 2'\n"

    def test_nothing_is_unpacked_without_zstd(self, rooms: Rooms) -> None:
        assert rooms.refuses(rooms.file, PATH=rooms.python_only) == "tools/kept: there is no command zstd\n"

    def test_nothing_is_unpacked_without_the_kit(self, rooms: Rooms) -> None:
        assert rooms.refuses(rooms.file, RT="/none/rt") == "tools/kept: there is no command /none/rt\n"

    def test_nothing_is_unpacked_while_rt_works_there(self, rooms: Rooms) -> None:
        top = rooms.repository()
        with locked(f"{top}/crates/other"):
            why = rooms.refuses(rooms.file, top)
        assert why == "tools/kept: another rt works in crates/other: run this again once it has ended\n"

    def test_a_link_in_place_of_out_is_refused(self, rooms: Rooms) -> None:
        top, elsewhere = rooms.repository(), f"{rooms.folder}/elsewhere"
        os.mkdir(elsewhere)
        os.symlink(elsewhere, f"{top}/crates/base/out")
        assert rooms.refuses(rooms.file, top) == "tools/kept: crates/base/out is a link\n"
        assert os.listdir(elsewhere) == []

    def test_a_disk_without_room_is_refused(self, rooms: Rooms) -> None:
        os.mkdir(f"{rooms.folder}/small")
        with small_disk(f"{rooms.folder}/small", "64m") as is_small:
            if not is_small:
                pytest.skip("no disk can be mounted here")
            why = rooms.refuses(rooms.file, rooms.repository(below=f"{rooms.folder}/small"))
        assert why == "tools/kept: the disk has 0.1 GiB left, and this takes 1.0\n"


@pytest.mark.long
@pytest.mark.needs("git", "rt")
def test_rt_takes_a_library_that_lies_for_proved_and_rt_ci_does_not(folder: str) -> None:
    env = {name: text for name, text in os.environ.items() if name != "RT"}
    liar, victim, source = f"{folder}/liar", f"{folder}/victim", "crates/text/src/lib.rt"

    def run(top: str, *words: str) -> tuple[int, str]:
        """Returns the status of a command, and the last line of what it prints."""
        how = {"cwd": top, "env": env, "stdin": subprocess.DEVNULL, "stderr": subprocess.STDOUT}
        ran = subprocess.run(words, stdout=subprocess.PIPE, text=True, **how)
        return ran.returncode, (ran.stdout.splitlines() or [""])[-1]

    for top in (liar, victim):
        subprocess.run(["git", "clone", "-q", ROOT, top], check=True)
    assert run(f"{liar}/crates/text", "rt", "lib")[0] == 0
    for top in (liar, victim):
        write({f"{top}/{source}": read(f"{top}/{source}").decode().replace(RIGHT, WRONG)})
    stamp = run(liar, sys.executable, "-c", STAMP, shutil.which("rt"))[1]
    write({f"{liar}/crates/text/out/rlib/stamp": stamp})
    run(liar, KEPT, "pack", f"{folder}/lie.kept", "text")
    words = [KEPT, "unpack", f"{folder}/lie.kept"]
    unpacked = subprocess.run(words, cwd=victim, env=env, stdin=subprocess.DEVNULL, capture_output=True, text=True)
    assert (unpacked.returncode, unpacked.stdout) == (0, f"1 crates have kept proofs of {folder}/lie.kept\n")
    assert run(f"{victim}/crates/text", "rt", "lib")[0] == 0
    last = "0 passed, 1 failed (text and the crates below alone: not the gate)"
    assert run(victim, "rt", "ci", "text") == (1, last)
