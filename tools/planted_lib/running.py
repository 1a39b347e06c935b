"""Commands that end with the tool, and the folders that go with it."""
import contextlib
import os
import shutil
import signal
import subprocess
import threading

from planted_lib.repository import Unusable

# The process groups of the commands that run, the folders that they work in, and whether the tool ends.
RUNNING: set[int] = set()
FOLDERS: set[str] = set()
ENDS = threading.Event()


def run(words: list[str], folder: str) -> tuple[int, str]:
    """Runs a command in a folder, and returns its status and what it printed. It does not return once the tool ends."""
    if ENDS.is_set():
        threading.Event().wait()
    with subprocess.Popen(
        words,
        cwd=folder,
        start_new_session=True,
        stdin=subprocess.DEVNULL,
        stdout=subprocess.PIPE,
        stderr=subprocess.STDOUT,
        text=True,
        errors="replace",
    ) as ran:
        RUNNING.add(ran.pid)
        text = ran.communicate()[0]
        RUNNING.discard(ran.pid)
    if ENDS.is_set():
        threading.Event().wait()
    return ran.returncode, text


def copy(folder: str, to: str) -> None:
    """Copies a folder to a path where nothing is. Checked modules are linked, because a check replaces such a file
    and changes none."""

    def linked(one: str, other: str) -> str:
        if one.endswith(".oantt"):
            with contextlib.suppress(OSError):
                os.link(one, other)
                return other
        return shutil.copy2(one, other)

    try:
        shutil.copytree(folder, to, symlinks=True, copy_function=linked)
    except (OSError, shutil.Error) as why:
        raise Unusable(f"{folder} cannot be copied: {why}") from why


def stop(*_: object) -> None:
    """Ends the commands that run, removes their folders, and ends."""
    ENDS.set()
    for pid in [*RUNNING]:
        with contextlib.suppress(ProcessLookupError):
            os.killpg(pid, signal.SIGKILL)
    for folder in [*FOLDERS]:
        shutil.rmtree(folder, ignore_errors=True)
    os._exit(130)
