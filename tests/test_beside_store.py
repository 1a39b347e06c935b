"""Commands of root beside the store: its user reaches no other file by them, and a killed goshelf-restore loses none.

The commands run on a machine in a folder (lib/machine.py). Stand-ins of the commands that they call act before they do:
as the user of the store, who puts links to files of root's in the place of what is beside it, or by a kill. With --long
each command that they call does, otherwise six.
"""

import os
import shutil
import subprocess
from collections.abc import Iterator
from typing import NamedTuple

import pytest

from lib.machine import Machine
from lib.operating import BETA, Published, opened_machine, publish
from lib.ports import wait_until
from lib.program import can_be_nobody
from lib.scratch import files_of, read, write

pytestmark = [pytest.mark.root, pytest.mark.needs("curl", "flock", "setpriv", "sqlite3")]

HOME, BACKUPS, USER = "var/lib/goshelf", "var/backups/goshelf", 65534
# what the commands of goshelf call
CALLED = """cat chmod chown comm cp dd env find goshelf head mkdir mktemp mv rm rmdir sha256sum sort sqlite3 sync
    systemctl tar touch wc""".split()
OFTEN = "cat chown goshelf mv sort sqlite3".split()
CHANGES = "dd mkdir mv rm rmdir touch".split()
STAND_IN = """#!/bin/sh
read -r act names < "@/root/when"
case " $names " in *" NAME "*) "@/root/$act" ;; esac
exec REAL "$@"
"""
AS_USER = """#!/bin/sh
[ "$(/usr/bin/id -u)" != 0 ] || exec setpriv --reuid=65534 --regid=65534 --clear-groups "@/root/ACT.sh"
exec "@/root/ACT.sh"
"""
# The folders beside the store become links to a folder of root's, also those that are not there yet.
FOLDERS = """#!/bin/sh
cd "@/var/lib/goshelf" || exit 0
for it in *; do
    [ -L "$it" ] || [ ! -d "$it" ] || { /bin/mv "$it" ".gone-$$-$it" && /bin/ln -s "@/roots" "$it"; }
done 2> /dev/null
for it in new old restore aside-part; do [ -e $it ] || [ -L $it ] || /bin/ln -s "@/roots" $it; done
"""
# The files become links to files of root's.
FILES = """#!/bin/sh
cd "@/var/lib/goshelf" || exit 0
for at in . */; do
    for it in shelves.db shelves.db-wal shelves.db-shm shelves.db-journal goshelf-backup.db goshelf-backup.db-wal \\
        SHA256SUMS versions lost all; do
        [ -L "$at/$it" ] || { /bin/rm -f "$at/$it" && /bin/ln -s "@/roots/$it" "$at/$it"; }
    done
done 2> /dev/null
"""
# Somebody holds the copy that goshelf makes for a backup open, and spoils it once there is a file `go`.
HOLD = """#!/bin/sh
cd "@/var/lib/goshelf" && [ -e goshelf-backup.db ] && [ ! -e held ] || exit 0
: > held
{
    n=0
    until [ -e "@/root/go" ] || [ $n -gt 600 ]; do n=$((n + 1)); sleep 0.1; done
    printf spoilt >&3
    : > spoilt
} 3<> goshelf-backup.db > /dev/null 2>&1 &
"""
# Kills the command that calls this one, at the call of a number.
KILL = """#!/bin/sh
left=$(($(/bin/cat "@/root/calls") - 1))
echo $left > "@/root/calls"
[ $left = 0 ] || exit 0
caller=$(/usr/bin/awk '{ print $4 }' "/proc/$PPID/stat")
[ "$caller" = 1 ] || kill -9 "$caller"
"""
# `goshelf serve` as the unit runs it
SERVE = """\
    chown -Rh --reference="@/var/lib/goshelf" "@/var/lib/goshelf" "@/run/goshelf"
    user=$(stat -c %u "@/var/lib/goshelf")
    setpriv --reuid="$user" --regid="$user" --clear-groups goshelf serve"""
LEAKED = "alpha example.com/lib v1.1.0"
USED = ("goshelf-backup", "goshelf-backup stop", f"goshelf-forget --yes {LEAKED}", "goshelf-restore --yes last")
COPY = "goshelf-copy store > sent"
COMMANDS = [*USED, COPY, "goshelf-warm store"]


def pytest_generate_tests(metafunc: pytest.Metafunc) -> None:
    if "called" in metafunc.fixturenames:
        metafunc.parametrize("called", CALLED if metafunc.config.getoption("--long") else OFTEN)


@pytest.fixture(scope="class")
def machine() -> Iterator[Machine]:
    """A machine with a store of another user, a backup that lacks a version of it, and what the warm host gets."""
    if not can_be_nobody():
        pytest.skip("a process can't become nobody here")
    with opened_machine() as machine:
        lay_out(machine)
        yield machine


def lay_out(machine: Machine) -> None:
    folder = machine.folder
    machine.does("systemctl stop goshelf")
    machine.edit("usr/local/bin/systemctl", ("    goshelf serve", SERVE.replace("@/", f"{folder}/")))
    give(machine, USER)
    machine.does("systemctl start goshelf; goshelf-backup; systemctl stop goshelf")
    publish(machine.store, Published(BETA, "example.com/late", "v1.0.0", b"late"))
    machine.does("systemctl start goshelf; goshelf-copy store > copy.tar; systemctl stop goshelf")
    machine.command("ssh", '#!/bin/sh\n/bin/cat "@/root/copy.tar"\n')
    machine.write("etc/default/goshelf", "GOSHELF_FIRST=shelf.example.com\n")
    for name in (HOME, BACKUPS):
        shutil.copytree(f"{folder}/{name}", f"{folder}/root/saved/{name}")
    roots = f"{folder}/roots"
    shutil.copytree(f"{folder}/{HOME}", roots)
    write({f"{roots}/versions": "root's\n"})
    for path in (roots, *(f"{roots}/{name}" for name in os.listdir(roots))):
        os.chown(path, 0, 0)
        os.chmod(path, 0o755 if path == roots else 0o600)
    replace_commands(machine)


def replace_commands(machine: Machine) -> None:
    """Puts a stand-in in the place of each command, and what they do."""
    at = f"{machine.folder}/usr/local/bin"
    os.makedirs(f"{machine.folder}/usr/real")
    for name in CALLED:
        real = shutil.which(name)
        if os.path.lexists(f"{at}/{name}"):
            real = f"{machine.folder}/usr/real/{name}"
            os.rename(f"{at}/{name}", real)
        machine.command(name, STAND_IN.replace("NAME", name).replace("REAL", real))
    for name, text in (("folders", FOLDERS), ("files", FILES), ("hold", HOLD)):
        machine.command(f"../../../root/{name}.sh", text)
        machine.command(f"../../../root/{name}", AS_USER.replace("ACT", name))
    machine.command("../../../root/kill", KILL)


def renew(machine: Machine, user: int = USER) -> None:
    """Puts the store and the backups back, and starts goshelf."""
    folder = machine.folder
    machine.write("root/when", "none\n")
    machine.does("systemctl stop goshelf")
    for name in (HOME, BACKUPS):
        shutil.rmtree(f"{folder}/{name}")
        shutil.copytree(f"{folder}/root/saved/{name}", f"{folder}/{name}")
    give(machine, user)
    machine.does("systemctl start goshelf")


def give(machine: Machine, user: int) -> None:
    """Makes a user that of the store."""
    subprocess.run(["chown", "-R", f"{user}:{user}", f"{machine.folder}/{HOME}"], check=True)


class Roots(NamedTuple):
    """Files of root's, to which the links lead, with their owners and rights by their paths."""

    files: dict[str, bytes]
    rights: dict[str, tuple[int, int]]


def look_at_roots(machine: Machine) -> Roots:
    at = f"{machine.folder}/roots"
    paths = (at, *(f"{at}/{name}" for name in os.listdir(at)))
    return Roots(files_of(at), {path: (os.stat(path).st_uid, os.stat(path).st_mode) for path in paths})


def restore_roots(machine: Machine, before: Roots) -> None:
    """Puts the files of root's back."""
    at = f"{machine.folder}/roots"
    shutil.rmtree(at)
    os.mkdir(at)
    write({f"{at}/{name}": content for name, content in before.files.items()})
    for path, (_, mode) in before.rights.items():
        os.chmod(path, mode & 0o777)


class TestUnharmed:
    """Nobody is hostile: each command does its work, and leaves nothing of root's beside the store."""

    @pytest.mark.parametrize("command", COMMANDS)
    def test_it_works(self, machine: Machine, command: str) -> None:
        renew(machine)
        status, _, errors = machine.sh(command)
        assert status == 0, errors
        beside = [os.path.join(at, name) for at, _, names in os.walk(f"{machine.folder}/{HOME}") for name in names]
        assert [path for path in beside if os.stat(path).st_uid != USER] == []


class Hostile:
    """The user of the store puts links beside it, each time when the command of root calls another."""

    act = ""

    @pytest.mark.parametrize("command", COMMANDS)
    def test_files_of_root_stay(self, machine: Machine, command: str, called: str) -> None:
        before = look_at_roots(machine)
        renew(machine)
        machine.write("root/when", f"{self.act} {called}\n")
        ended = machine.sh(command)
        after = look_at_roots(machine)
        if after != before:
            restore_roots(machine, before)
        assert after == before, ended


class TestFolders(Hostile):
    """The folders become links."""

    act = "folders"


class TestFiles(Hostile):
    """The files become links."""

    act = "files"


class TestCopies:
    """The copies that goshelf makes."""

    def test_a_backup_stays_where_its_copy_is_held_open(self, machine: Machine) -> None:
        renew(machine)
        machine.write("root/when", f"hold {' '.join(CALLED)}\n")
        status, at = machine.sh("goshelf-backup")[0], f"{machine.folder}/{BACKUPS}"
        new = max(name for name in os.listdir(at) if name.startswith("2"))
        before = files_of(f"{at}/{new}")
        machine.write("root/go", "")
        wait_until(lambda: os.path.exists(f"{machine.folder}/{HOME}/spoilt"))
        assert status == 0
        assert files_of(f"{at}/{new}") == before

    def test_goshelf_copy_reads_as_the_user_of_the_store(self, machine: Machine) -> None:
        """A link in the place of the copy leads to a file of root's, which is not sent."""
        renew(machine)
        secret, own = os.urandom(64), f"{machine.folder}/roots/shelves.db"
        before = read(own)
        write({own: secret})
        machine.write("root/when", "files tar\n")
        status = machine.sh(COPY)[0]
        machine.write("root/when", "none\n")
        write({own: before})
        assert status != 0
        assert secret not in read(f"{machine.folder}/root/sent")


def read_pair(machine: Machine) -> list[bytes | None]:
    """Returns the store's file and its log, each as its bytes or None."""
    return [read(name) if os.path.exists(name) else None for name in (machine.store, f"{machine.store}-wal")]


def find_loss(machine: Machine, old: list[bytes | None]) -> str:
    """Returns what is wrong beside a store after a kill, or nothing."""
    found, home = read_pair(machine), f"{machine.folder}/{HOME}"
    held = {read(os.path.join(at, name)) for at, _, names in os.walk(home) for name in names}
    if not held.issuperset(old):
        return "the old store is lost"
    if found[0] is not None and (found[0] == old[0]) != (found[1] == old[1]):
        return "a file is not with its log"
    return ""


def restore_until(machine: Machine, number: int) -> tuple[int, list[bytes | None]]:
    """Runs goshelf-restore, which is killed before the change of a number, and returns its status and the old store."""
    renew(machine, 0)
    machine.write("root/calls", f"{number}\n")
    machine.does("systemctl stop goshelf")
    old = read_pair(machine)
    machine.does("systemctl start goshelf")
    machine.write("root/when", f"kill {' '.join(CHANGES)}\n")
    status = machine.sh("goshelf-restore --yes last")[0]
    machine.write("root/when", "none\n")
    return status, old


class TestKills:
    """goshelf-restore is killed before each change: the old store is somewhere whole, and the next run ends well."""

    # how many tests share the kills, so that each takes little
    PARTS = 6

    @pytest.fixture(scope="class")
    def changes(self, machine: Machine) -> int:
        """How many changes goshelf-restore makes."""
        status, _ = restore_until(machine, 1_000)
        assert status == 0
        return 1_000 - int(machine.read("root/calls"))

    def test_it_makes_many_changes(self, changes: int) -> None:
        assert 10 < changes < 60

    @pytest.mark.parametrize("first", range(1, PARTS + 1))
    def test_no_kill_loses_a_store(self, machine: Machine, changes: int, first: int) -> None:
        for number in range(first, changes + 1, self.PARTS):
            status, old = restore_until(machine, number)
            assert status != 0 or number > 10, f"change {number} was not killed"
            assert find_loss(machine, old) == "", f"kill {number}"
            ended = machine.sh("goshelf-restore --yes last")
            assert ended[0] == 0, f"the run after kill {number}: {ended}"
            assert find_loss(machine, old) == "", f"the run after kill {number}"
