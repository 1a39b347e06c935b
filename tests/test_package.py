"""The Debian package of tools/release under systemd: it is installed, upgraded, removed and purged.

It goes to copies of this machine, which vanish with their tests, and the machine stays as it is. The commands that set
goshelf up are those of docs/OPERATING.md, and those for a second shard of docs/DEPLOYMENTS.md.
"""

import os
import re
import subprocess
import time
from collections.abc import Iterator
from typing import NamedTuple

import pytest

from lib.packages import (
    ARE_ACTIVE,
    ARE_ENABLED,
    COMMANDS,
    LIST,
    NEEDS,
    PING,
    STOP,
    UNITS,
    Ran,
    Started,
    ask,
    boot,
    find_process,
    install,
    read_commands,
    start_installed,
)
from lib.program import ROOT
from lib.releases import Release, lines_of, shared_release
from lib.systemd import Copy

pytestmark = pytest.mark.needs(*NEEDS)

UNIT = os.path.join(ROOT, "deploy", "systemd", "goshelf.service")
# the rating of systemd-analyze below which the unit has to stay
SAFE = 2.5
NOBODY = "setpriv --reuid=65534 --clear-groups"


class Installed(NamedTuple):
    """A copy of this machine with the package, how its installation ended, and its user before."""

    copy: Copy
    ran: Ran
    user_before: str


@pytest.fixture(scope="module")
def release(tmp_path_factory: pytest.TempPathFactory) -> Release:
    return shared_release(tmp_path_factory)


@pytest.fixture(scope="class")
def copy() -> Iterator[Copy]:
    yield from boot()


@pytest.fixture(scope="class")
def started(copy: Copy, release: Release) -> Started:
    return start_installed(copy, release)


def test_the_unit_is_rated_as_safe() -> None:
    words = ["systemd-analyze", "security", "--offline=true", "--no-pager", UNIT]
    ran = subprocess.run(words, capture_output=True, text=True)
    found = re.search(r"exposure level for goshelf.service: ([\d.]+)", ran.stdout)
    assert found, ran.stdout[-200:] + ran.stderr
    assert float(found[1]) < SAFE


@pytest.mark.root
class TestInstallation:
    """The first command of the page makes a user and a folder, and starts nothing."""

    @pytest.fixture(scope="class")
    def installed(self, copy: Copy, release: Release) -> Installed:
        user = copy.sh("getent passwd goshelf")[1]
        return Installed(copy, install(copy, release), user)

    def test_apt_installs_the_package(self, installed: Installed, release: Release) -> None:
        assert installed.ran[0] == 0, installed.ran
        assert installed.copy.prints("dpkg-query -W goshelf") == f"goshelf {release.version}"

    def test_it_makes_a_user(self, installed: Installed) -> None:
        assert installed.user_before == ""
        found = installed.copy.prints("getent passwd goshelf | cut -d: -f 6,7")
        assert found == "/var/lib/goshelf:/usr/sbin/nologin"

    def test_it_makes_an_empty_folder(self, installed: Installed) -> None:
        found = installed.copy.prints("stat -c '%a %U %G' /var/lib/goshelf; ls -A /var/lib/goshelf")
        assert found == "700 goshelf goshelf"

    def test_it_starts_nothing_now_or_at_boot(self, installed: Installed) -> None:
        assert installed.copy.prints(f"{ARE_ACTIVE}; {ARE_ENABLED}") == "inactive inactive disabled disabled"

    def test_its_units_are_valid(self, installed: Installed) -> None:
        assert installed.copy.sh(f"systemd-analyze verify {UNITS}") == (0, "", "")

    def test_its_commands_are_on_the_path(self, installed: Installed) -> None:
        found = installed.copy.prints(f"for name in {' '.join(COMMANDS)}; do command -v $name; done")
        assert found.split() == [f"/usr/bin/{name}" for name in COMMANDS]

    def test_it_has_a_copyright(self, installed: Installed) -> None:
        assert "licence" in installed.copy.sh("cat /usr/share/doc/goshelf/copyright")[1]

    def test_it_does_not_start_without_a_store(self, installed: Installed) -> None:
        installed.copy.sh("systemctl start goshelf")
        found = installed.copy.prints(f"systemctl show -P AssertResult goshelf; {ARE_ACTIVE}; ls -A /var/lib/goshelf")
        assert found == "no inactive inactive"


@pytest.mark.root
class TestStart:
    """The commands of the page make a store and start goshelf, as systemd and the kernel see it."""

    ORDER = "goshelf key-revoke --control /run/goshelf/control --key nosuchkey0000001"

    def test_the_commands_end_well_and_it_takes_orders_at_once(self, started: Started) -> None:
        status, _, errors = started.ran
        assert status == 0
        assert re.fullmatch(r"(Created symlink .*\n)*", errors)

    def test_it_answers(self, started: Started) -> None:
        assert started.published == "published 201"
        assert ask(started.copy, "-/modules") == "example.com/lib 200"

    def test_it_runs_with_its_port_now_and_from_boot_on(self, started: Started) -> None:
        assert started.copy.prints(f"{ARE_ACTIVE}; {ARE_ENABLED}") == "active active enabled enabled"

    def test_root_gives_orders(self, started: Started) -> None:
        assert started.copy.sh(self.ORDER) == (1, "", "goshelf: no-key\n")

    def test_its_user_gives_orders(self, started: Started) -> None:
        assert started.copy.sh(f"runuser -u goshelf -- {self.ORDER}") == (1, "", "goshelf: no-key\n")

    def test_nobody_else_gives_orders(self, started: Started) -> None:
        assert started.copy.sh(f"{NOBODY} {self.ORDER}") == (1, "", "goshelf: device\n")

    def test_its_socket_is_its_own(self, started: Started) -> None:
        found = started.copy.prints("stat -c '%F %a %U' /run/goshelf/control /run/goshelf")
        assert found == "socket 600 goshelf directory 700 goshelf"

    def test_its_files_are_its_own(self, started: Started) -> None:
        assert started.copy.prints("stat -c %U /var/lib/goshelf/* | sort -u") == "goshelf"
        assert started.copy.sh(f"{NOBODY} ls /var/lib/goshelf")[0] == 2

    @pytest.fixture
    def status(self, started: Started) -> dict[str, str]:
        """What the kernel says of the process."""
        return lines_of(started.copy.sh(f"tr '\\t' ' ' < /proc/{find_process(started.copy)}/status")[1])

    def test_it_runs_as_its_user(self, started: Started, status: dict[str, str]) -> None:
        assert status["Uid"].split() == [started.copy.prints("id -u goshelf")] * 4

    def test_it_has_no_rights_of_root(self, status: dict[str, str]) -> None:
        assert (status["CapBnd"], status["CapEff"], status["NoNewPrivs"]) == ("0" * 16, "0" * 16, "1")

    def test_its_system_calls_are_filtered(self, status: dict[str, str]) -> None:
        assert status["Seccomp"] == "2"

    def test_it_leaves_no_core(self, started: Started) -> None:
        found = started.copy.prints(f"grep 'Max core' /proc/{find_process(started.copy)}/limits")
        assert found.split()[4:6] == ["0", "0"]

    def test_it_returns_freed_memory(self, started: Started) -> None:
        found = started.copy.prints(f"tr '\\0' '\\n' < /proc/{find_process(started.copy)}/environ | grep MALLOC")
        assert found == "MALLOC_MMAP_THRESHOLD_=32768"


# a drop-in by which serve opens its store late, or ends late without having opened it
LATE = """mkdir -p /run/systemd/system/goshelf.service.d
printf '[Service]\nExecStart=\nExecStart=sh -c "sleep 3; %s"\n' '{}' > /run/systemd/system/goshelf.service.d/late.conf
systemctl daemon-reload"""


@pytest.mark.root
class TestRestarts:
    """goshelf is restarted: late, edited, killed, on another port."""

    @pytest.fixture
    def copy_with_drop_ins(self, started: Started) -> Iterator[Copy]:
        """The copy, whose unit loses its drop-ins in the end. Then goshelf is started again."""
        yield started.copy
        undo = "rm -rf /run/systemd/system/goshelf.service.d; systemctl daemon-reload; systemctl restart goshelf"
        assert (started.copy.sh(undo)[0], ask(started.copy, LIST)) == (0, "v1.0.0 200")

    def test_a_start_ends_when_it_takes_orders(self, copy_with_drop_ins: Copy) -> None:
        serve = "exec goshelf serve --db /var/lib/goshelf/shelves.db --stdin --control /run/goshelf/control"
        ran = copy_with_drop_ins.sh(f"{LATE.format(serve)}; systemctl restart goshelf; {PING}")
        assert ran[0] == 0, ran

    def test_a_start_fails_at_once_if_it_ends_before(self, copy_with_drop_ins: Copy) -> None:
        begun = time.monotonic()
        status = copy_with_drop_ins.sh(f"{LATE.format('exit 1')}; systemctl restart goshelf")[0]
        assert status == 1
        assert time.monotonic() - begun < 30

    def test_it_starts_beside_a_file_whose_owner_stays(self, started: Started) -> None:
        # (chown fails over it as over a file that goes meanwhile)
        fixed = "/var/lib/goshelf/fixed"
        mount = f"mkdir {fixed}; mount -t tmpfs -o ro tmpfs {fixed}; systemctl restart goshelf"
        status = started.copy.sh(mount)[0]
        started.copy.sh(f"umount {fixed}; rmdir {fixed}")
        assert status == 0

    def test_systemctl_edit_changes_a_choice(self, started: Started) -> None:
        copy, editor = started.copy, "#!/bin/sh\\necho [Service] > $1\\necho RestartSec=7 >> $1\\n"
        copy.sh(f"printf '{editor}' > /root/editor; chmod 755 /root/editor")
        # (it wants a terminal)
        edit = "script -qec 'SYSTEMD_EDITOR=/root/editor systemctl edit goshelf' /dev/null"
        found = copy.sh(edit)[0], copy.prints("systemctl show -P RestartUSec goshelf")
        copy.sh("systemctl revert goshelf")
        assert found == (0, "7s")

    def test_a_killed_one_is_started_again(self, started: Started) -> None:
        copy, before = started.copy, find_process(started.copy)
        copy.sh(f"kill -9 {before}")
        copy.sh(f"while [ $(systemctl show -P MainPID goshelf) = {before} ]; do sleep 0.1; done")
        assert ask(copy, LIST) == "v1.0.0 200"

    def test_it_starts_over_files_of_root_on_the_port_of_the_page(self, started: Started) -> None:
        copy = started.copy
        add = "goshelf key-add --db /var/lib/goshelf/shelves.db --shelf alpha --key alphareader00001 --read-only"
        copy.sh(STOP)
        by_user = copy.sh(f"runuser -u goshelf -- {add}")
        copy.sh("chown root:root /var/lib/goshelf/*; chmod 600 /var/lib/goshelf/*")
        on_port = copy.sh(read_commands("ListenStream=127.0.0.1:8181")), ask(copy, LIST, 8181)
        undo = f"{STOP}; rm -r /etc/systemd/system/goshelf.socket.d; systemctl daemon-reload; systemctl start goshelf"
        back = copy.sh(undo)[0], ask(copy, LIST)
        assert by_user == (0, "", "")
        assert on_port == ((0, "", ""), "v1.0.0 200")
        assert back == (0, "v1.0.0 200")


@pytest.mark.root
class TestDoctor:
    """goshelf-doctor without words looks at the unit."""

    @pytest.fixture
    def stopped(self, started: Started) -> Iterator[Copy]:
        """goshelf is stopped, and started again in the end."""
        started.copy.sh(STOP)
        yield started.copy
        started.copy.sh("systemctl start goshelf")
        assert ask(started.copy, LIST) == "v1.0.0 200"

    def test_it_finds_no_cause_if_goshelf_runs(self, started: Started) -> None:
        assert started.copy.sh("goshelf-doctor") == (0, "no cause is found: goshelf answers\n", "")

    def test_it_finds_a_stopped_unit(self, stopped: Copy) -> None:
        status, output, _ = stopped.sh("goshelf-doctor")
        assert status == 1 and "device: there is no folder /run/goshelf\n" in output

    def test_it_finds_a_log_of_root(self, stopped: Copy) -> None:
        log = "/var/lib/goshelf/shelves.db-wal"
        status, output, _ = stopped.sh(f"touch {log}; chown root {log}; goshelf-doctor")
        assert status == 1 and "shelves.db-wal belongs to root" in output

    def test_it_finds_a_port_that_is_taken(self, stopped: Copy) -> None:
        listen = 'IO::Socket::INET->new(Listen => 1, ReuseAddr => 1, LocalAddr => "127.0.0.1:8080")'
        waits = "until ss -Hltn | grep -q :8080; do sleep 0.1; done"
        ran = stopped.sh(f"perl -MIO::Socket -e '$s = {listen}; sleep 60' & {waits}; goshelf-doctor || :; kill $!")
        assert "io: port 8080 is taken\n" in ran[1], ran
