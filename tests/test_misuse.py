"""Commands of operators in odd places: links, folders of others, names with spaces, a full disk, a kill.

The commands run on a machine in a folder (lib/machine.py), with the store of lib/operating.py and an nginx that accepts
all.
"""

import contextlib
import os
import shutil
import subprocess
from collections.abc import Iterator

import pytest

from lib.machine import Machine
from lib.operating import is_running, list_backups, opened_machine
from lib.program import PROGRAM, ROOT, done
from lib.scratch import read, small_disk, write
from lib.stores import remove_store

pytestmark = [
    pytest.mark.root,
    pytest.mark.needs("curl", "flock", "openssl", "prlimit", "setpriv", "sqlite3", "umount"),
]

# a folder of others among the backups; the words of its name are those of no file, wherever a command that splits the
# name removes them
BACKUPS, OWN = "var/backups/goshelf", "2019 goshelf-kept goshelf-own"
TOOL, DOCTOR = os.path.join(ROOT, "tools", "shards"), os.path.join(ROOT, "deploy", "goshelf-doctor")
CONF = "upstream goshelf {\n    server 127.0.0.1:8080;\n}\n# http://goshelf;\n"
SHARDS = "shard first 127.0.0.1:1\nteam alpha\n"


@contextlib.contextmanager
def opened_host() -> Iterator[Machine]:
    """Opens a machine whose goshelf-watch asks no host, which takes a minute where none answers."""
    with opened_machine() as machine:
        machine.write("etc/default/goshelf", "")
        yield machine


@pytest.fixture
def machine() -> Iterator[Machine]:
    with opened_host() as machine:
        yield machine


class TestBackups:
    """What else is among the backups stays, and the backups may be behind a link."""

    @pytest.fixture
    def shared(self, machine: Machine) -> Machine:
        """A machine with many backups, and a folder of others among them."""
        at = f"{machine.folder}/{BACKUPS}"
        machine.does("goshelf-backup")
        (made,) = list_backups(machine)
        for day in range(16):
            shutil.copytree(f"{at}/{made}", f"{at}/2020-01-{day + 1:02}T031500Z")
        for folder in (f"{at}/{OWN}", f"{machine.folder}/root/goshelf-kept"):
            os.mkdir(folder)
        return machine

    def test_a_folder_of_others_stays(self, shared: Machine) -> None:
        assert shared.sh("goshelf-backup") == (0, "", "")
        assert os.path.isdir(f"{shared.folder}/{BACKUPS}/{OWN}")
        assert os.path.isdir(f"{shared.folder}/root/goshelf-kept")
        assert len(list_backups(shared)) - 1 == 14
        listed = shared.does("goshelf-restore")
        assert OWN not in listed and len(listed.splitlines()) == 14

    def test_backups_behind_a_link(self, shared: Machine) -> None:
        shared.does("goshelf-backup")
        listed, at = shared.does("goshelf-restore"), f"{shared.folder}/{BACKUPS}"
        os.rename(at, f"{at}.there")
        os.symlink("goshelf.there", at)
        assert shared.does("goshelf-restore") == listed
        assert shared.sh("goshelf-backup") == (0, "", "")
        assert len(list_backups(shared)) - 1 == 14
        assert "no backup" not in shared.sh("goshelf-watch")[1]
        metrics = shared.sh("goshelf-metrics")[1]
        assert "no backup" not in metrics and "backup_age" in metrics


class TestFullDisk:
    """The disk of the backups is full: nothing half made stays there, and the metrics stay as they were."""

    @pytest.fixture
    def small(self, machine: Machine) -> Iterator[str]:
        """A small disk, which is behind the folder of the backups."""
        small = f"{machine.folder}/root/small"
        os.mkdir(small)
        with small_disk(small, "64k") as is_there:
            if not is_there:
                pytest.skip("this needs to mount a tmpfs")
            os.symlink(small, f"{machine.folder}/{BACKUPS}")
            yield small

    def test_no_backup_is_made(self, machine: Machine, small: str) -> None:
        assert machine.sh("goshelf-backup")[0] == 1
        assert os.listdir(small) == []

    def test_metrics_stay(self, machine: Machine, small: str) -> None:
        machine.does("goshelf-metrics --to /root/small/it.prom")
        before = machine.read("root/small/it.prom")
        subprocess.run(["dd", "if=/dev/zero", f"of={small}/filler", "bs=1k"], capture_output=True)
        assert machine.sh("goshelf-metrics --to /root/small/it.prom")[0] == 1
        assert machine.read("root/small/it.prom") == before
        assert sorted(os.listdir(small)) == ["filler", "it.prom"]


class TestForgets:
    """goshelf-forget that does not end its work."""

    @pytest.fixture
    def front(self, machine: Machine) -> Machine:
        """A machine with a front of nginx, a backup, and a folder of others beside it."""
        machine.write("etc/nginx/conf.d/goshelf.conf", CONF)
        machine.does("goshelf-backup")
        os.mkdir(f"{machine.folder}/{BACKUPS}/{OWN}")
        return machine

    def test_the_next_run_does_the_rest_after_a_kill(self, front: Machine) -> None:
        words = "goshelf-forget --yes alpha example.com/lib v1.0.0"
        front.command("goshelf-front", '#!/bin/sh\n[ "$1" != uncache ] || [ "$PPID" = 1 ] || kill -9 "$PPID"\n')
        before = list_backups(front)
        assert front.sh(words)[0] != 0
        assert list_backups(front) == before, "it was not killed in the middle"
        front.command("goshelf-front", "#!/bin/sh\n")
        assert front.sh(words)[0] == 0
        assert list_backups(front) == [OWN]
        status, _, errors = front.sh(words)
        assert status == 1 and "Nothing was taken out" in errors
        assert is_running(front)

    def test_caches_that_stay_are_left_to_do(self, front: Machine) -> None:
        words = "goshelf-forget --yes alpha example.com/lib v1.2.0"
        front.command("goshelf-front", '#!/bin/sh\n[ "$1" != uncache ]\n')
        status, printed, _ = front.sh(words)
        assert status == 1 and printed.count("- NOT DONE: ") == 1
        assert ": goshelf-front uncache\n" in printed
        assert "Nothing was taken out" in front.sh(words)[2], "the version is in the store"
        assert is_running(front)


class TestUnits:
    """A word that is no unit, a store that is not there, and a folder in the place of a file."""

    @pytest.fixture(scope="class")
    def machine(self) -> Iterator[Machine]:
        with opened_host() as machine:
            os.makedirs(f"{machine.folder}/root/it.prom")
            yield machine

    @pytest.mark.parametrize(
        "words, status, said",
        [
            ("GOSHELF_UNIT=../x goshelf-watch", 1, "goshelf-watch: no unit has the name ../x\n"),
            ("GOSHELF_UNIT=../x goshelf-doctor", 2, "goshelf-doctor: GOSHELF_UNIT is not a unit\n"),
            ("goshelf-metrics --to it.prom", 1, "goshelf-metrics: it.prom is a folder\n"),
        ],
    )
    def test_it_is_refused(self, machine: Machine, words: str, status: int, said: str) -> None:
        found = machine.sh(words)
        assert (found[0], found[1] + found[2]) == (status, said)
        assert os.listdir(f"{machine.folder}/root/it.prom") == []
        assert [name for name in os.listdir(machine.folder) if name.startswith("x-")] == []

    def test_goshelf_watch_without_a_store(self, machine: Machine) -> None:
        os.rename(machine.store, f"{machine.store}.aside")
        _, printed, errors = machine.sh("goshelf-watch")
        os.rename(f"{machine.store}.aside", machine.store)
        assert f"there is no store {machine.store}\n" in printed
        assert errors == ""


class TestWithoutCommon:
    """Without the file that the commands source, as after half an installation, each ends before it does anything."""

    COMMANDS = [
        "backup",
        "backup stop",
        "restore --yes last",
        "forget --yes alpha example.com/lib v1.0.0",
        "catalog",
        "metrics",
        "watch",
        "copy store",
        "warm store",
    ]

    @pytest.fixture(scope="class")
    def machine(self) -> Iterator[Machine]:
        with opened_host() as machine:
            machine.does("goshelf-backup")
            os.remove(f"{machine.folder}/root/deploy/common.sh")
            yield machine

    @pytest.mark.parametrize("words", COMMANDS)
    def test_it_does_nothing(self, machine: Machine, words: str) -> None:
        before = list_backups(machine), machine.read("serve.pid")
        status, printed, errors = machine.sh(f"goshelf-{words}")
        assert status != 0 and printed == ""
        assert f"{machine.folder}/usr/share/goshelf/deploy/common.sh" in errors
        assert (list_backups(machine), machine.read("serve.pid")) == before
        assert is_running(machine)


class TestLinks:
    """A link in the place of a file of nginx's: it stays, or the command refuses it."""

    @pytest.fixture
    def front(self, machine: Machine) -> Machine:
        """A machine whose goshelf.conf is a link to there.conf."""
        machine.command("nginx", '#!/bin/sh\n[ "$1" != -s ]\n')
        at = f"{machine.folder}/etc/nginx"
        write({f"{at}/there.conf": CONF, f"{machine.folder}/root/shards.conf": SHARDS})
        os.symlink("../there.conf", f"{at}/conf.d/goshelf.conf")
        return machine

    @pytest.mark.parametrize(
        "words, changes",
        [
            ("goshelf-front set-up localhost example.com=alpha", False),
            (f"{TOOL} conf shards.conf /etc/nginx/conf.d/goshelf.conf", True),
        ],
        ids=["goshelf-front set-up leaves its file", "tools/shards changes its file"],
    )
    def test_the_link_stays(self, front: Machine, words: str, changes: bool) -> None:
        status, _, errors = front.sh(words)
        assert status == 0, errors
        assert os.path.islink(f"{front.folder}/etc/nginx/conf.d/goshelf.conf")
        assert (read(f"{front.folder}/etc/nginx/there.conf") != CONF.encode()) == changes

    def test_goshelf_front_refuses_a_link_to_its_names(self, front: Machine) -> None:
        at, names = f"{front.folder}/etc/nginx", f"{front.folder}/etc/nginx/goshelf/names"
        front.does("goshelf-front set-up localhost example.com=alpha")
        front.does("goshelf-front add ann alpha read")
        os.rename(names, f"{at}/names")
        os.symlink("../names", names)
        before = front.does("goshelf key-list --control /run/goshelf/control")
        status, _, errors = front.sh("goshelf-front add bob alpha publish")
        assert status == 1 and "names is a link" in errors
        assert os.path.islink(names)
        assert front.does("goshelf key-list --control /run/goshelf/control") == before, "it added a key"
        listed = front.does("goshelf-front list").split("\t")
        assert (listed[:3], listed[-1]) == (["ann", "alpha", "read"], "\n")


def test_an_empty_word_names_no_folder_for_shards(machine: Machine) -> None:
    """It is not the folder above all."""
    made = "/goshelf-misuse-row.db"
    machine.does("systemctl stop goshelf")
    teams = "team alpha\nteam beta\ngroup platform gamma\n"
    machine.write("root/shards.conf", f"shard goshelf-misuse-row 127.0.0.1:1\n{teams}")
    status, printed, errors = machine.sh(f"{TOOL} make shards.conf {machine.store} ''")
    is_made = os.path.exists(made)
    remove_store(made)
    assert (status, printed) == (2, "")
    assert errors.endswith("\nshards: FOLDER is empty\n")
    assert not is_made


class TestDoctor:
    """What mends a fault can be pasted, wherever the file is; and what is no file is not read."""

    @pytest.fixture
    def odd(self, folder: str) -> str:
        """A folder whose name has spaces, with a store of another user."""
        odd = f"{folder}/a b; c"
        os.mkdir(odd)
        done("init", "--db", f"{odd}/s.db")
        done("team-add", "--db", f"{odd}/s.db", "--team", "alpha")
        for name in (odd, f"{odd}/s.db"):
            os.chown(name, 65534, 65534)
        return odd

    def test_a_name_with_spaces(self, odd: str) -> None:
        assert f"\n    chown -h --reference='{odd}' '{odd}/s.db-wal'\n" in examine(f"{odd}/s.db")[1]

    @pytest.mark.parametrize("file", ["pipe", "/dev/zero"])
    def test_what_is_no_file(self, folder: str, file: str) -> None:
        os.mkfifo("pipe")
        path = os.path.join(folder, file)
        status, printed, _ = examine(path)
        assert status == 1 and f"device: {path} is no file" in printed

    def test_without_a_program(self, odd: str) -> None:
        found = examine(f"{odd}/s.db", f"{odd}/none")
        assert found == (2, "", f"goshelf-doctor: there is no command {odd}/none: install it\n")


def examine(file: str, program: str = PROGRAM) -> tuple[int, str, str]:
    """Returns how goshelf-doctor ends over a file, within a minute and with 100 MiB of a file."""
    words = ["prlimit", "--fsize=104857600", DOCTOR, "--db", file]
    settings = {**os.environ, "GOSHELF": program}
    ran = subprocess.run(words, capture_output=True, text=True, env=settings, timeout=60)
    return ran.returncode, ran.stdout, ran.stderr
