"""The release of tools/release: its files, what it says of itself, and when the gate or the tests refuse it.

It packs the program of this checkout, which `./goshelf --version` builds, or the one that GOSHELF names.
"""

import hashlib
import os
import re
import shutil
import subprocess
import tarfile
from collections.abc import Iterator

import pytest

from lib.program import PROGRAM, ROOT
from lib.releases import RELEASE, Release, about, lines_of, make_release, packed, shared_release
from lib.scratch import entered_folder, read, unpack, write

pytestmark = pytest.mark.needs("cc", "dpkg-deb", "git", "go", "ldd", "zstd")

VERSION = os.path.join(ROOT, "crates", "cli", "src", "version.rt")
# files that a release has among others
WANTED = {
    "README.md",
    "copyright",
    "docs/OPERATING.md",
    "docs/TROUBLE.md",
    "docs/REFERENCE.md",
    "bench/RESULTS.md",
    "deploy/systemd/goshelf.service",
    "deploy/systemd/goshelf-keys.socket",
    "deploy/warm/goshelf-warm",
    "deploy/common.sh",
    "deploy/shelf_lines.py",
    "deploy/doctor_nginx.py",
    "deploy/store_pages.py",
    "deploy/words.py",
    "deploy/units.py",
    "deploy/goshelf-front",
    "deploy/front_lib/files.py",
    "deploy/nginx/goshelf.js",
    "deploy/nginx/locations.conf",
    "deploy/nginx/keys.conf",
    "deploy/nginx/errors.conf",
    "deploy/nginx/page.conf",
    "deploy/nginx/public.conf",
    "deploy/front_words.py",
    "goshelf-adopt",
    "goshelf-publish",
    "tools/publish/go.mod",
    "deploy/goshelf-offer",
    "tools/catalog",
    "tools/catalog_lib/catalog.css",
    "docs/catalog.png",
}
# how the programs of each system begin
SYSTEMS = {"linux": b"\x7fELF", "darwin": b"\xcf\xfa\xed\xfe", "windows": b"MZ"}
PROGRAMS = [(system, kind) for system in SYSTEMS for kind in ("amd64", "arm64")]


def sum_files(folder: str) -> dict[str, str]:
    """Returns the sum of each file of a folder."""
    return {name: hashlib.sha256(read(f"{folder}/{name}")).hexdigest() for name in sorted(os.listdir(folder))}


def check_sums(folder: str) -> int:
    """Returns how sha256sum ends that checks the sums of a folder."""
    words = ["sha256sum", "--quiet", "-c", "SHA256SUMS"]
    return subprocess.run(words, cwd=folder, capture_output=True).returncode


def name_commit(folder: str) -> str:
    """Returns the name of the commit that a checkout is at."""
    ran = subprocess.run(["git", "rev-parse", "HEAD"], cwd=folder, capture_output=True, text=True, check=True)
    return ran.stdout.strip()


def is_instrumented() -> bool:
    """Whether the program is one that `rt try` built, with a sanitizer. It needs more libraries."""
    return b"AddressSanitizer" in read(PROGRAM)


class TestRelease:
    """A release of a program that is given."""

    @pytest.fixture(scope="class")
    def release(self, tmp_path_factory: pytest.TempPathFactory) -> Release:
        return shared_release(tmp_path_factory)

    @pytest.fixture(scope="class")
    def build(self, release: Release) -> dict[str, str]:
        """What the release says of itself."""
        return about(release.tar)

    @pytest.fixture(scope="class")
    def members(self, release: Release) -> list[tarfile.TarInfo]:
        """The files of the tar file."""
        with tarfile.open(release.tar) as archive:
            return archive.getmembers()

    @pytest.fixture(scope="class")
    def unpacked(self, release: Release) -> Iterator[str]:
        """The folder that the tar file has."""
        with entered_folder() as folder:
            with tarfile.open(release.tar) as archive:
                unpack(archive, folder)
            yield f"{folder}/{os.path.basename(release.tar).removesuffix('.tar.gz')}"

    @pytest.fixture(scope="class")
    def files(self, unpacked: str) -> set[str]:
        """The names of the files in that folder."""
        found = [os.path.join(at, name) for at, _, names in os.walk(unpacked) for name in names]
        return {os.path.relpath(name, unpacked) for name in found}

    def test_a_second_release_has_the_same_bytes(self, release: Release, folder: str) -> None:
        assert make_release(f"{folder}/second") == ""
        assert sum_files(f"{folder}/second") == sum_files(release.folder)

    def test_its_sums_are_those_of_each_file(self, release: Release) -> None:
        sums = sum_files(release.folder)
        wanted = "".join(f"{sums[name]}  {name}\n" for name in sums if name != "SHA256SUMS")
        assert read(f"{release.folder}/SHA256SUMS").decode() == wanted

    def test_the_tar_file_has_one_folder(self, release: Release, members: list[tarfile.TarInfo]) -> None:
        top = os.path.basename(release.tar).removesuffix(".tar.gz")
        assert [member.name for member in members if member.name.split("/")[0] != top] == []

    def test_its_files_are_roots(self, members: list[tarfile.TarInfo]) -> None:
        assert {(member.uid, member.gid, member.mode & 0o22) for member in members} == {(0, 0, 0)}

    def test_each_of_its_files_has_a_sum(self, unpacked: str, files: set[str]) -> None:
        assert check_sums(unpacked) == 0
        summed = {line.split("  ./", 1)[1] for line in read(f"{unpacked}/SHA256SUMS").decode().splitlines()}
        assert files - summed == {"SHA256SUMS"}

    def test_it_has_the_program(self, unpacked: str) -> None:
        assert read(f"{unpacked}/goshelf") == read(PROGRAM)

    def test_it_has_pages_commands_and_units(self, files: set[str]) -> None:
        assert WANTED - files == set()

    def test_it_names_its_commit(self, build: dict[str, str]) -> None:
        commit = name_commit(ROOT)
        assert build["commit"] == commit
        assert re.fullmatch(rf"[\d.]+\+git\d{{14}}\.{commit[:12]}~ungated", build["version"])

    def test_it_says_that_nothing_was_gated(self, build: dict[str, str]) -> None:
        assert (build["gate"], build["suites"]) == ("not run", "not run")

    def test_it_names_the_libraries_of_the_program(self, build: dict[str, str]) -> None:
        libraries, _, glibc = build["libraries"].partition(", of ")
        assert glibc in read(os.path.join(ROOT, "docs", "OPERATING.md")).decode()
        if is_instrumented():
            pytest.skip("this program was built unproved, with a sanitizer")
        assert libraries == "libc.so.6"

    @pytest.mark.parametrize(("system", "kind"), PROGRAMS)
    def test_it_has_goshelf_publish_for_a_system(
        self, system: str, kind: str, release: Release, build: dict[str, str]
    ) -> None:
        ending = ".exe" if system == "windows" else ""
        name = f"{release.folder}/goshelf-publish-{build['version']}-{system}-{kind}{ending}"
        assert read(name).startswith(SYSTEMS[system])

    def test_goshelf_publish_prints_its_version(self, release: Release, build: dict[str, str]) -> None:
        program = f"{release.folder}/goshelf-publish-{build['version']}-linux-amd64"
        printed = subprocess.run([program, "--version"], capture_output=True, text=True).stdout
        assert printed == f"goshelf-publish {build['version']}\n"

    def test_it_names_the_go_that_built_goshelf_publish(self, release: Release, build: dict[str, str]) -> None:
        program = f"{release.folder}/goshelf-publish-{build['version']}-linux-amd64"
        printed = subprocess.run(["go", "version", program], capture_output=True, text=True).stdout
        assert build["go"] == printed.split()[-1]


# Stands in for `rt`: its `ci` makes a program that prints VERSION, and otherwise the version of the tree. Its `all`
# keeps proofs of `text`, and ends with the status KEEPS.
GATE = """#!/bin/sh
[ "$1" != all ] || { mkdir -p crates/text/out/rlib && echo kept > crates/text/out/rlib/stamp; exit $KEEPS; }
[ "$1" = ci ] || exec echo a kit
version=${VERSION:-$(sed -n 's/.*"\\(.*\\)".*/\\1/p' crates/cli/src/version.rt)}
mkdir -p crates/goshelf/out
printf '#include <stdio.h>\\nint main(void) { puts("goshelf %s"); }\\n' "$version" | cc -x c -o \
crates/goshelf/out/goshelf -
echo $GATE
"""


# what the gate and the suites print where they pass
PASSED = {"GATE": "59 passed, 0 failed", "SUITES": "9 passed, 0 failed, 1 skipped", "KEEPS": "0"}
# what refuses a release: the words and settings of tools/release, and what it says
FAILURES: dict[str, tuple[list[str], dict[str, str], str]] = {
    "proofs of a program that was not gated": (
        ["--proofs", "--program", "/bin/true"],
        {},
        "tools/release: --proofs packs what was gated, and not with --program\n",
    ),
    "proofs that cannot be kept": (["--proofs"], {"KEEPS": "1"}, "tools/release: no release: rt all check\n"),
    "a program that does not exist": (["--program", "/none"], {}, "realpath: /none: No such file or directory\n"),
    "a gate that failed": ([], {"GATE": "58 passed, 1 failed"}, "tools/release: no release: .ci/gate\n"),
    "a test that failed": ([], {"SUITES": "8 passed, 1 failed"}, "tools/release: no release: tests/all\n"),
    "a gate that says nothing": ([], {"GATE": ""}, "tools/release: no release: .ci/gate\n"),
    "a test that changes a file": (
        [],
        {"WHILE": "echo >> README.md"},
        "tools/release: the gate or the suites changed files\n",
    ),
    "a program of another version": ([], {"VERSION": "0.1.0"}, "tools/release: the program has another version\n"),
}


class Gated:
    """A clone of this checkout, whose gate and tests are scripts that print what they are told."""

    def __init__(self, folder: str) -> None:
        self.clone, self.bin = f"{folder}/clone", f"{folder}/bin"
        subprocess.run(["git", "clone", "-q", ROOT, self.clone], check=True)
        os.mkdir(self.bin)
        tests = '#!/bin/sh\neval "$WHILE"\necho $SUITES\n'
        for name, text in ((f"{self.bin}/rt", GATE), (f"{self.clone}/tests/all", tests)):
            write({name: text})
            os.chmod(name, 0o755)
        for name in (RELEASE, VERSION):
            shutil.copy2(name, f"{self.clone}/{os.path.relpath(name, ROOT)}")
        self.changed = self.release()
        self.commit()

    def commit(self) -> None:
        user = ["-c", "user.name=release", "-c", "user.email=release@localhost"]
        subprocess.run(["git", "add", "-A"], cwd=self.clone, check=True)
        subprocess.run(["git", *user, "commit", "-qm", "scripts"], cwd=self.clone, check=True)

    def release(self, *words: str, **settings: str) -> tuple[int, str]:
        """Runs its tools/release, and returns its status and its errors."""
        path = f"{self.bin}:{os.environ['PATH']}"
        env = {**os.environ, "PATH": path, "LC_ALL": "C", **PASSED, **settings}
        words = (f"{self.clone}/tools/release", *words)
        ran = subprocess.run(words, cwd=self.clone, capture_output=True, text=True, timeout=1_000, env=env)
        return ran.returncode, ran.stderr


class TestRefusals:
    """Without --program the gate and the tests decide."""

    @pytest.fixture(scope="class")
    def gate(self) -> Iterator[Gated]:
        with entered_folder() as folder:
            yield Gated(folder)

    def test_changed_files_are_refused(self, gate: Gated) -> None:
        differs = "files differ from the commit: commit or remove them first"
        assert gate.changed == (1, f"tools/release: {differs}\n")

    @pytest.mark.parametrize(("words", "settings", "said"), FAILURES.values(), ids=FAILURES)
    def test_a_release_is_refused_and_writes_nothing(
        self, words: list[str], settings: dict[str, str], said: str, gate: Gated
    ) -> None:
        assert gate.release(*words, **settings) == (1, said)
        assert not os.path.exists(f"{gate.clone}/out")


class TestGated:
    """A release of what passed."""

    @pytest.fixture(scope="class")
    def gate(self) -> Iterator[Gated]:
        with entered_folder() as folder:
            yield Gated(folder)

    @pytest.fixture(scope="class")
    def ran(self, gate: Gated) -> tuple[int, str]:
        return gate.release()

    @pytest.fixture(scope="class")
    def unpacked(self, gate: Gated, ran: tuple[int, str]) -> str:
        """The folder of its tar file."""
        tar, _ = packed(f"{gate.clone}/out")
        with tarfile.open(tar) as archive:
            unpack(archive, f"{gate.clone}/../gated")
        return f"{gate.clone}/../gated/{os.path.basename(tar).removesuffix('.tar.gz')}"

    @pytest.fixture(scope="class")
    def build(self, unpacked: str) -> dict[str, str]:
        """What it says of itself."""
        return lines_of(read(f"{unpacked}/BUILD").decode())

    def test_it_ends_well(self, ran: tuple[int, str]) -> None:
        assert ran == (0, "")

    def test_it_says_what_passed(self, build: dict[str, str]) -> None:
        assert (build["kit"], build["gate"], build["suites"]) == ("a kit", PASSED["GATE"], PASSED["SUITES"])

    def test_it_names_its_commit(self, build: dict[str, str], gate: Gated) -> None:
        commit = name_commit(gate.clone)
        assert build["commit"] == commit
        assert build["version"].endswith(commit[:12])

    def test_its_program_prints_its_version(self, unpacked: str, build: dict[str, str]) -> None:
        printed = subprocess.run([f"{unpacked}/goshelf", "--version"], capture_output=True, text=True).stdout
        assert printed == f"goshelf {build['version']}\n"

    def test_it_changes_no_file_of_the_checkout(self, gate: Gated, ran: tuple[int, str]) -> None:
        assert read(f"{gate.clone}/{os.path.relpath(VERSION, ROOT)}") == read(VERSION)


class TestProofs:
    """A release with the kept proofs of the commit, which another clone of it takes."""

    @pytest.fixture(scope="class")
    def gate(self) -> Iterator[Gated]:
        with entered_folder() as folder:
            yield Gated(folder)

    @pytest.fixture(scope="class")
    def ran(self, gate: Gated) -> tuple[int, str]:
        return gate.release("--proofs")

    def test_it_has_nine_files_and_their_sums(self, gate: Gated, ran: tuple[int, str]) -> None:
        assert ran == (0, "")
        assert len(os.listdir(f"{gate.clone}/out")) == 10
        assert check_sums(f"{gate.clone}/out") == 0
        assert read(f"{gate.clone}/out/SHA256SUMS").count(b"\n") == 9

    def test_another_clone_takes_the_proofs(self, gate: Gated, ran: tuple[int, str]) -> None:
        (name,) = [name for name in os.listdir(f"{gate.clone}/out") if name.endswith(".kept")]
        other, file = f"{gate.clone}/../other", f"{gate.clone}/out/{name}"
        subprocess.run(["git", "clone", "-q", gate.clone, other], check=True)
        how = {"cwd": other, "capture_output": True, "text": True, "env": {**os.environ, "RT": f"{gate.bin}/rt"}}
        took = subprocess.run(["tools/kept", "unpack", file], **how)
        assert (took.returncode, took.stdout) == (0, f"1 crates have kept proofs of {file}\n"), took.stderr
        assert read(f"{other}/crates/text/out/rlib/stamp") == b"kept\n"
