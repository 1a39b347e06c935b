"""A goshelf of the Debian package under load, stopped, beside a second one, upgraded, removed, and by the tar file.

It goes to copies of this machine, as in tests/test_package.py, by the commands of docs/OPERATING.md and
docs/DEPLOYMENTS.md.
"""

import os
import re
import subprocess
from collections.abc import Iterator
from typing import NamedTuple

import pytest

from lib.keys import KEY
from lib.packages import (
    ARE_ACTIVE,
    ARE_ENABLED,
    BOTH,
    COMMANDS,
    LIST,
    NEEDS,
    STOP,
    UNITS,
    Ran,
    Started,
    ask,
    ask_both,
    boot,
    find_process,
    read_commands,
    read_set_up,
    start_installed,
)
from lib.pages import block, blocks
from lib.releases import Release, shared_release
from lib.scratch import read
from lib.systemd import Copy

pytestmark = [pytest.mark.needs(*NEEDS), pytest.mark.root]

LEFT = "/etc/default/goshelf /var/lib/goshelf: shelves.db shelves.db-reserve shelves.db-wal"
KEPT = "goshelf: kept /var/lib/goshelf and the user goshelf. A purge with GOSHELF_REMOVE_DATA=yes removes both.\n"


@pytest.fixture(scope="module")
def release(tmp_path_factory: pytest.TempPathFactory) -> Release:
    return shared_release(tmp_path_factory)


@pytest.fixture(scope="class")
def copy() -> Iterator[Copy]:
    yield from boot()


@pytest.fixture(scope="class")
def started(copy: Copy, release: Release) -> Started:
    return start_installed(copy, release)


# asks for a list until a file is there, and prints how each request ends
ASKING = """while [ ! -e /tmp/enough ]; do
    curl -s -m 60 -o /dev/null -w '%{http_code}' URL || :
    echo " $?"
done"""
# six who ask at once, around restarts
LOAD = """rm -f /tmp/enough /tmp/seen-*
for asking in 1 2 3 4 5 6; do { ASKING; } > /tmp/seen-$asking & done
for restart in 1 2 3 4 5; do sleep 0.5; systemctl restart goshelf; done
touch /tmp/enough
wait
cat /tmp/seen-*"""
# Replaces `cat`, by which the user of the store copies a file of it: a connection comes before each copy, and how it
# ends is noted. (curl's 7 says that it was refused.)
COPYING = """: > /tmp/during
chmod 666 /tmp/during
cat > /usr/local/bin/cat <<'END'
#!/bin/sh
case $1 in
*/shelves.db*) curl -s http://127.0.0.1:8080/ || echo $? >> /tmp/during ;;
esac
exec /usr/bin/cat "$@"
END
chmod 755 /usr/local/bin/cat"""


class TestPort:
    """systemd holds the port, so that no request is refused while goshelf restarts."""

    def test_no_request_fails_around_restarts(self, started: Started) -> None:
        copy, url = started.copy, f"http://127.0.0.1:8080/k/{KEY}/{LIST}"
        before = find_process(copy)
        endings = copy.sh(LOAD.replace("ASKING", ASKING).replace("URL", url))[1].splitlines()
        # (each of the six meets each restart, however slow the machine is)
        assert len(endings) >= 30 and find_process(copy) != before
        assert set(endings) == {"200 0"}

    def test_a_connection_starts_a_goshelf_that_was_stopped_alone(self, started: Started) -> None:
        copy = started.copy
        copy.sh("systemctl stop goshelf")
        answer = ask(copy, LIST)
        # (it answers a moment before systemd has heard that it does)
        copy.sh("for try in $(seq 100); do ! systemctl is-active -q goshelf || exit 0; sleep 0.1; done")
        assert (answer, copy.prints(ARE_ACTIVE)) == ("v1.0.0 200", "active active")

    def test_the_page_has_a_command_that_stops_both(self) -> None:
        assert blocks("docs/OPERATING.md", "sh", STOP)[0] == f"{STOP}\n"

    @pytest.mark.parametrize("script", [STOP, "/var/lib/dpkg/info/goshelf.prerm remove"], ids=["page", "removal"])
    def test_no_connection_starts_what_was_stopped(self, script: str, started: Started) -> None:
        copy = started.copy
        ran = copy.sh(f"{script}\ncurl -s http://127.0.0.1:8080/ || echo $?")
        active = copy.prints(ARE_ACTIVE)
        restarted = copy.sh("systemctl start goshelf"), ask_both(copy)
        copy.sh("systemctl enable goshelf")
        assert ran == (0, "7\n", "")
        assert active == "inactive inactive"
        assert restarted == ((0, "", ""), BOTH)


class TestScripts:
    """The scripts stop the port too while they copy or change the store, and then both units run again."""

    @pytest.fixture
    def running(self, started: Started) -> Iterator[Copy]:
        """The copy. Afterwards both units run, and there is no backup."""
        yield started.copy
        assert ask_both(started.copy) == BOTH
        started.copy.sh("rm -rf /var/backups/goshelf /var/lib/goshelf/aside-*")

    def test_no_connection_starts_it_while_a_backup_copies_files(self, running: Copy) -> None:
        running.sh(COPYING)
        ran = running.sh("goshelf-backup stop")
        running.sh("rm /usr/local/bin/cat")
        assert ran == (0, "", "")
        assert running.prints("cat /tmp/during") == "7 7"

    def test_a_restore_gives_the_store_to_its_user(self, running: Copy) -> None:
        assert running.sh("goshelf-backup stop") == (0, "", "")
        ran = running.sh("goshelf-restore --yes last")
        assert ran[0] == 0 and "lacks 0 versions" in ran[1], ran
        assert running.prints("stat -c '%U %a' /var/lib/goshelf/shelves.db") == "goshelf 600"

    def test_nothing_is_taken_out(self, running: Copy) -> None:
        ran = running.sh("goshelf-forget --yes alpha example.com/lib v9.9.9")
        assert ran[0] == 1 and "Nothing was taken out" in ran[2], ran


class TestSecondShard:
    """A second shard beside the first, by the commands of docs/DEPLOYMENTS.md."""

    @pytest.fixture(scope="class")
    def second(self, started: Started) -> Started:
        """The second shard has a store of its own, without a version."""
        store = "goshelf init --db second.db; goshelf team-add --db second.db --team delta\n"
        store += f"goshelf key-add --db second.db --shelf delta --key {KEY}\n"
        page = block("sh", "goshelf-second/shelves.db", "DEPLOYMENTS.md")
        return started._replace(ran=started.copy.sh(f"cd /usr/share/goshelf\n{store}{page}"))

    def test_the_commands_end_well(self, second: Started) -> None:
        assert second.ran[0] == 0, second.ran

    def test_its_units_are_valid(self, second: Started) -> None:
        ran = second.copy.sh("systemd-analyze verify goshelf-second.service goshelf-second.socket")
        assert ran == (0, "", "")

    def test_each_answers_for_its_own_store(self, second: Started) -> None:
        assert (ask(second.copy, LIST), ask(second.copy, LIST, 8081)) == ("v1.0.0 200", "not found 404")

    def test_it_does_without_the_first(self, second: Started) -> None:
        second.copy.sh(STOP)
        ping = second.copy.sh("goshelf ping --control /run/goshelf-second/control")
        found = ping[0], ask(second.copy, "-/modules", 8081)
        started = second.copy.sh("systemctl start goshelf")[0]
        assert (started, *found) == (0, 0, "200")

    def test_it_has_a_backup_of_its_own(self, second: Started) -> None:
        ran = second.copy.sh("export GOSHELF_UNIT=goshelf-second; goshelf-backup; goshelf-backup stop; ls /var/backups")
        assert ran == (0, "goshelf-second\n", "")
        assert (ask(second.copy, LIST), ask(second.copy, "-/modules", 8081)) == ("v1.0.0 200", "200")


def make_later(package: str, folder: str) -> str:
    """Makes a package of a later version with the same files, and returns its name."""
    subprocess.run(["dpkg-deb", "--raw-extract", package, f"{folder}/later"], check=True)
    control = read(f"{folder}/later/DEBIAN/control").decode()
    with open(f"{folder}/later/DEBIAN/control", "w", encoding="utf-8") as file:
        file.write(re.sub(r"(?m)^Version: .*$", r"\g<0>.later", control))
    words = ["dpkg-deb", "-Znone", "--root-owner-group", "--build", f"{folder}/later", f"{folder}/later.deb"]
    subprocess.run(words, check=True, capture_output=True)
    return f"{folder}/later.deb"


class Step(NamedTuple):
    """How the commands of a step of an upgrade ended, and what was there then."""

    ran: Ran
    version: str
    is_restarted: bool
    answer: str


# the steps of an upgrade: words of the block of the page, and what stands behind the version that is installed then
STEPS = {
    "a try": ("dpkg-deb -x", ""),
    "an upgrade": ("apt install -y ./goshelf_NEW", ".later"),
    "the way back": ("--allow-downgrades", ""),
}


class TestUpgrade:
    """The commands of the page try another version on a copy of the store, put it over a running one, and undo that."""

    @pytest.fixture(scope="class")
    def steps(self, started: Started, release: Release, tmp_path_factory: pytest.TempPathFactory) -> dict[str, Step]:
        """Each step, over a goshelf whose port is another by the page's commands."""
        copy = started.copy
        assert copy.sh(read_commands("ListenStream=127.0.0.1:8181")) == (0, "", "")
        copy.sh(f"{STOP}; cp /var/lib/goshelf/shelves.db* /root; systemctl start goshelf")
        later = make_later(release.package, str(tmp_path_factory.mktemp("later")))
        replaced = {"COPY": "/root/shelves.db", "KEY": KEY}
        replaced["goshelf_OLD_amd64.deb"] = os.path.basename(release.package)
        replaced["goshelf_NEW_amd64.deb"] = os.path.basename(copy.put(later))
        return {name: make_step(copy, words, replaced) for name, (words, _) in STEPS.items()}

    @pytest.mark.parametrize("name", STEPS)
    def test_the_commands_of_a_step_end_well(self, name: str, steps: dict[str, Step]) -> None:
        status, _, errors = steps[name].ran
        assert status == 0 and "error" not in errors.lower(), steps[name]

    @pytest.mark.parametrize("name", STEPS)
    def test_a_step_installs_its_version(self, name: str, steps: dict[str, Step], release: Release) -> None:
        assert steps[name].version == release.version + STEPS[name][1]

    @pytest.mark.parametrize("name", STEPS)
    def test_all_but_a_try_restart_goshelf(self, name: str, steps: dict[str, Step]) -> None:
        assert steps[name].is_restarted == (name != "a try")

    @pytest.mark.parametrize("name", STEPS)
    def test_a_step_leaves_settings_and_store(self, name: str, steps: dict[str, Step]) -> None:
        assert steps[name].answer == "v1.0.0 200"

    def test_a_try_shows_what_the_new_program_sees(self, steps: dict[str, Step]) -> None:
        assert "example.com/lib,v1.0.0,alpha," in steps["a try"].ran[1]

    def test_an_upgrade_leaves_a_backup(self, steps: dict[str, Step], copy: Copy) -> None:
        found = copy.prints("cut -d'|' -f 1-3 /var/backups/goshelf/2*/versions")
        assert found == "alpha|example.com/lib|v1.0.0"


def make_step(copy: Copy, words: str, replaced: dict[str, str]) -> Step:
    """Runs the commands of the page that have these words, and looks at what is there then."""
    script, before = read_commands(words), find_process(copy)
    for old, new in replaced.items():
        script = script.replace(old, new)
    ran = copy.sh(f"cd /root\n{script}")
    version = copy.prints("dpkg-query -W -f '${Version}' goshelf")
    return Step(ran, version, find_process(copy) not in (before, "0"), ask(copy, LIST, 8181))


def run_apt(copy: Copy, words: str, **settings: str) -> tuple[int, str]:
    """Runs apt on the copy, and returns its status, and the lines of the package and of what went wrong."""
    status, printed, errors = copy.sh(f"apt {words} -y goshelf", **settings)
    said = "".join(f"{line}\n" for line in printed.splitlines() if line.startswith("goshelf: "))
    return status, said + re.sub(r"\n*WARNING: apt does not have a stable CLI.*\n*", "", errors)


class TestStopped:
    """A package over a goshelf that was stopped, with a port in its settings."""

    def test_it_stays_stopped_and_on_its_port(self, started: Started, release: Release) -> None:
        copy = started.copy
        copy.sh(f"{STOP}; echo GOSHELF_PORT=8282 >> /etc/default/goshelf")
        ran = copy.sh(f"dpkg -i {copy.put(release.package)}")
        assert copy.prints(f"{ARE_ACTIVE}; {ARE_ENABLED}") == "inactive inactive enabled enabled"
        copy.sh("systemctl start goshelf")
        assert "has the port 8282" in ran[2], ran
        assert ask(copy, LIST, 8282) == "v1.0.0 200"


class TestRemoval:
    """What a removal and a purge leave, each in turn."""

    def test_a_removal_leaves_store_and_settings_and_a_purge_the_store(
        self, started: Started, release: Release
    ) -> None:
        copy = started.copy
        assert run_apt(copy, "remove") == (0, "")
        assert copy.prints("pgrep -c goshelf") == "0"
        found = copy.prints("find /etc/systemd /run/systemd -name 'goshelf*' -not -name goshelf.socket.d")
        assert found == "", "something starts at boot"
        assert copy.prints("ls /var/lib/goshelf /etc/default/goshelf") == LEFT
        assert run_apt(copy, "purge") == (0, KEPT)
        owners = copy.prints("stat -c %U /var/lib/goshelf /var/lib/goshelf/shelves.db")
        assert owners == "goshelf goshelf"
        assert copy.prints("ls /etc/default | grep goshelf") == ""
        copy.sh(f"dpkg -i {copy.put(release.package)}; systemctl start goshelf")
        assert ask(copy, LIST) == "v1.0.0 200", "installed again, it lacks the version"
        assert run_apt(copy, "purge", GOSHELF_REMOVE_DATA="yes") == (0, "")
        names = "find /etc /usr /var /run -xdev -path /etc/netns -prune -o -name '*goshelf*' -print"
        assert copy.prints(f"getent passwd goshelf; getent group goshelf; {names}") == ""


class Unpacked(NamedTuple):
    """A copy of this machine with the tar file of a release by the page's commands, and how they ended."""

    copy: Copy
    ran: Ran
    script: str


class TestTarFile:
    """The commands of the page do with the tar file what the package does."""

    FILES = "cat /usr/local/bin/goshelf | sha256sum; cat /usr/share/goshelf/BUILD | sha256sum"

    @pytest.fixture(scope="class")
    def unpacked(self, copy: Copy, release: Release) -> Unpacked:
        for file in (release.tar, f"{release.folder}/SHA256SUMS"):
            copy.put(file)
        script = "cd /root\n" + read_commands("tar -xzf").replace("VERSION", release.version)
        ran = copy.sh(script)
        copy.sh(read_set_up())
        return Unpacked(copy, ran, script)

    def test_the_commands_end_well(self, unpacked: Unpacked) -> None:
        assert (unpacked.ran[0], unpacked.ran[2]) == (0, "")

    def test_its_commands_are_there(self, unpacked: Unpacked) -> None:
        assert unpacked.copy.prints("ls /usr/local/bin | grep ^goshelf").split() == COMMANDS

    def test_its_units_are_valid(self, unpacked: Unpacked) -> None:
        assert unpacked.copy.sh(f"systemd-analyze verify {UNITS}") == (0, "", "")

    def test_goshelf_answers(self, unpacked: Unpacked) -> None:
        status = "curl -s --retry 300 --retry-max-time 60 --retry-connrefused -o /dev/null -w '%{http_code}'"
        assert unpacked.copy.prints(f"{status} http://127.0.0.1:8080/k/{KEY}/-/modules") == "200"

    def test_the_commands_replace_another_release(self, unpacked: Unpacked) -> None:
        copy = unpacked.copy
        before, files, modules = find_process(copy), copy.prints(self.FILES), ask(copy, "-/modules")
        other = "echo '#!/bin/sh' > goshelf.other; install goshelf.other /usr/local/bin/goshelf"
        copy.sh(f"echo other > /usr/share/goshelf/BUILD; {other}")
        ran = copy.sh(f"{unpacked.script}systemctl restart goshelf")
        assert (ran[0], ran[2]) == (0, "")
        assert (copy.prints(self.FILES), ask(copy, "-/modules")) == (files, modules)
        assert find_process(copy) not in (before, "0")

    def test_its_go_programs_have_its_version(self, unpacked: Unpacked, release: Release) -> None:
        found = unpacked.copy.prints("goshelf-publish --version; goshelf-adopt --version")
        assert found == f"goshelf-publish {release.version} goshelf-adopt {release.version}"

    def test_goshelf_publish_is_offered(self, unpacked: Unpacked, release: Release) -> None:
        status, output, _ = unpacked.copy.sh(read_commands("goshelf-offer"))
        stamp = f"{release.version[9:23]}-{release.version[24:36]}"
        assert status == 0
        assert re.fullmatch(rf"published example.com/goshelf-publish v0\.0\.0-{stamp}\n", output)
