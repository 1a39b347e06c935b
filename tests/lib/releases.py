"""Releases of this checkout by tools/release, with the program that it built."""

import fcntl
import os
import subprocess
import tarfile
from typing import NamedTuple

import pytest

from lib.program import PROGRAM, ROOT

RELEASE = os.path.join(ROOT, "tools", "release")


def make_release(folder: str) -> str:
    """Makes a release in a folder, and returns why it failed, or nothing."""
    ran = subprocess.run([RELEASE, "--program", PROGRAM, "--to", folder], capture_output=True, text=True)
    return "" if ran.returncode == 0 else ran.stderr or f"status {ran.returncode}"


def packed(folder: str) -> tuple[str, str]:
    """Returns the names of the tar file and the package of a release."""
    return _find_ending(folder, ".tar.gz"), _find_ending(folder, ".deb")


def _find_ending(folder: str, ending: str) -> str:
    return next(f"{folder}/{name}" for name in sorted(os.listdir(folder)) if name.endswith(ending))


def lines_of(text: str) -> dict[str, str]:
    """Returns the values of the lines `name: value` of a text, by their names."""
    pairs = (line.partition(": ") for line in text.splitlines())
    return {name: value for name, colon, value in pairs if colon}


def about(tar: str) -> dict[str, str]:
    """Returns what the BUILD of a release says, by its tar file."""
    top = os.path.basename(tar).removesuffix(".tar.gz")
    with tarfile.open(tar) as archive:
        build = archive.extractfile(f"{top}/BUILD")
        assert build, tar
        return lines_of(build.read().decode())


class Release(NamedTuple):
    """A release in a folder."""

    folder: str
    tar: str
    package: str
    version: str


def shared_release(factory: pytest.TempPathFactory) -> Release:
    """Returns a release of this checkout that is made once for all processes of a test run."""
    own = factory.getbasetemp()
    folder = own.parent if "PYTEST_XDIST_WORKER" in os.environ else own
    at = str(folder / "release")
    with open(folder / "release.lock", "w", encoding="ascii") as lock:
        fcntl.flock(lock, fcntl.LOCK_EX)
        if not os.path.exists(f"{at}/SHA256SUMS"):
            why = make_release(at)
            assert not why, why
    tar, package = packed(at)
    return Release(at, tar, package, about(tar)["version"])
