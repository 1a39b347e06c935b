"""An operator's machine: the scripts of deploy/, and a store whose program runs."""

import contextlib
import functools
import os
import tempfile
from collections.abc import Iterator
from typing import NamedTuple

from lib.keys import KEYS
from lib.machine import Machine
from lib.messages import get
from lib.pages import block
from lib.program import answered, run
from lib.scratch import files_of, opened, write
from lib.stores import new_store

ALPHA, READER, BETA, COMMON, GROUP, MEMBER = (KEYS[letter] for letter in "ARBCPM")
SECRET = os.urandom(150_000)
TIME = "2024-01-31T12:00:00Z"


class Published(NamedTuple):
    """A version of the operator's store, and the key that published it."""

    key: str
    module: str
    version: str
    zipped: bytes


PUBLISHED = [
    Published(ALPHA, "example.com/lib", "v1.0.0", b"one"),
    Published(ALPHA, "example.com/lib", "v1.1.0", SECRET),
    Published(ALPHA, "example.com/lib", "v1.2.0", b"three"),
    Published(BETA, "example.com/lib", "v1.1.0", b"beta's own"),
    Published(COMMON, "example.com/base", "v0.1.0", b"four" * 50_000),
]


def publish(store: str, version: Published) -> str:
    """Publishes to a store that no program serves, and returns what is printed."""
    with tempfile.TemporaryDirectory(prefix="goshelf-") as folder:
        files = {"mod": f"{folder}/go.mod", "zip": f"{folder}/zip"}
        write({files["mod"]: f"module {version.module}\n", files["zip"]: version.zipped})
        words = ["publish", "--db", store, "--key", version.key, "--module", version.module, "--time", TIME]
        words += ["--version", version.version, "--mod", files["mod"], "--zip", files["zip"]]
        return run(words)[1].decode().strip()


@functools.cache
def make_store_files() -> dict[str, bytes]:
    """Makes the operator's store, and returns its files by their names."""
    with tempfile.TemporaryDirectory(prefix="goshelf-") as folder:
        store = f"{folder}/shelves.db"
        shelves = [("alpha", ALPHA, READER), ("beta", BETA), ("common", COMMON), ("gamma", MEMBER, "", "platform")]
        new_store(store, *shelves, groups=[("platform", GROUP)])
        printed = [publish(store, version) for version in PUBLISHED]
        assert printed == ["201 published"] * len(PUBLISHED), printed
        return files_of(folder)


def prepare(machine: Machine) -> None:
    """Gives a machine the scripts of deploy/, their lines for cron, and the store, whose program then runs."""
    machine.write("restarts", "0\n")
    machine.check_out()
    home = os.path.dirname(machine.store)
    write({f"{home}/{name}": content for name, content in make_store_files().items()})
    for script in ("goshelf-backup", "goshelf-watch", "goshelf-metrics", "goshelf-backup", "goshelf-metrics"):
        machine.does(block("sh", f"root $(command -v {script})"))
    os.makedirs(f"{machine.folder}/var/cache/nginx/goshelf/1/ab")
    machine.does("systemctl start goshelf")


@contextlib.contextmanager
def opened_machine() -> Iterator[Machine]:
    """Opens an operator's machine, and closes it in the end."""
    with opened(Machine) as machine:
        prepare(machine)
        yield machine


def empty_store(machine: Machine) -> None:
    """Puts a file without bytes in the place of the store, over which the program then runs."""
    machine.does("systemctl stop goshelf; rm /var/lib/goshelf/shelves.db*")
    machine.does("cp /dev/null /var/lib/goshelf/shelves.db; systemctl start goshelf")


def is_running(machine: Machine) -> bool:
    """Whether the machine's program runs."""
    return machine.sh(f'kill -0 "$(cat {machine.folder}/serve.pid)"')[0] == 0


def list_backups(machine: Machine) -> list[str]:
    """Returns the names of the backups, the oldest first."""
    names = os.listdir(f"{machine.folder}/var/backups/goshelf")
    return sorted(name for name in names if name.startswith("2"))


def read_cron_lines(machine: Machine) -> list[str]:
    """Returns the lines for cron, in the order backup, watch, metrics."""
    files = [machine.read(f"etc/cron.d/goshelf-{script}") for script in ("backup", "watch", "metrics")]
    return [line for text in files for line in text.splitlines()]


def ask_store(file: str, *targets: str, key: str = ALPHA) -> list[tuple[int, bytes]]:
    """Returns the statuses and bodies of requests to a store that no program serves."""
    return answered(["--db", file], [get(target, key) for target in targets])
