"""Folders and files of a test's own, and disks that are small."""

import contextlib
import os
import subprocess
import tarfile
import tempfile
from collections.abc import Callable, Iterator, Mapping
from typing import Protocol, TypeVar


def mounted(at: str, size: int | str) -> bool:
    """Mounts a tmpfs of a size at a folder, and returns whether this machine could. `umount` takes it away."""
    options = (f"size={size},noswap", f"size={size}")
    return any(
        subprocess.run(["mount", "-t", "tmpfs", "-o", option, "tmpfs", at], capture_output=True).returncode == 0
        for option in options
    )


@contextlib.contextmanager
def small_disk(at: str, size: int | str) -> Iterator[bool]:
    """Gives a folder a disk of a size, until the block ends. Yields whether this machine could."""
    is_there = mounted(at, size)
    try:
        yield is_there
    finally:
        if is_there:
            subprocess.run(["umount", at], check=True)


def unpack(archive: tarfile.TarFile, folder: str) -> None:
    """Unpacks an open archive of a test's own into a folder. The Python of Debian 12 knows no filter for that."""
    setattr(archive, "extraction_filter", getattr(tarfile, "tar_filter", None))
    archive.extractall(folder)


@contextlib.contextmanager
def entered_folder() -> Iterator[str]:
    """Makes a folder, goes into it, and removes it in the end. Its path is short, as a socket's has to be."""
    with tempfile.TemporaryDirectory(prefix="goshelf-") as folder:
        os.chmod(folder, 0o755)
        with contextlib.chdir(folder):
            yield folder


class Closable(Protocol):
    def close(self) -> None:
        ...


C = TypeVar("C", bound=Closable)


@contextlib.contextmanager
def opened(make: Callable[[str], C]) -> Iterator[C]:
    """Makes a thing in a new folder, and closes it in the end: a machine, a company."""
    with tempfile.TemporaryDirectory(prefix="goshelf-") as folder:
        os.chmod(folder, 0o755)
        with contextlib.closing(make(folder)) as made:
            yield made


@contextlib.contextmanager
def closed_on_failure(opened: Closable) -> Iterator[None]:
    """Closes a thing if the block that sets it up fails."""
    try:
        yield
    except BaseException:
        opened.close()
        raise


def write(files: Mapping[str, str | bytes]) -> None:
    """Writes files, by their names. A text is written as UTF-8."""
    for name, content in files.items():
        with open(name, "wb") as file:
            file.write(content if isinstance(content, bytes) else content.encode())


def read(name: str) -> bytes:
    """Returns the bytes of a file."""
    with open(name, "rb") as file:
        return file.read()


def files_of(folder: str = ".") -> dict[str, bytes]:
    """Returns the files of a folder, with their bytes."""
    return {
        name: read(os.path.join(folder, name))
        for name in sorted(os.listdir(folder))
        if os.path.isfile(os.path.join(folder, name))
    }


def turn_in_file(name: str, at: int) -> None:
    """Turns a bit of a file that a program may have open."""
    with open(name, "r+b") as held:
        held.seek(at)
        byte = held.read(1)[0]
        held.seek(at)
        held.write(bytes([byte ^ 1]))


def fill(name: str) -> None:
    """Writes a file until its disk is full."""
    with open(name, "wb", buffering=0) as file, contextlib.suppress(OSError):
        while True:
            file.write(bytes(4_096))
