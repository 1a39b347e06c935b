"""Blocks of the pages as a reader pastes them: into a shell that goes on after a line that fails, and perhaps twice.

They run on a machine in a folder (lib/machine.py). Commands that would need more than files are scripts here, which
note what they are asked.
"""

import contextlib
import os
import subprocess
from typing import NamedTuple

import pytest

from lib.machine import Machine
from lib.pages import block, blocks
from lib.program import ROOT

pytestmark = [pytest.mark.root, pytest.mark.needs("bash")]

# a command that notes its words, and one that also fails
NOTES = '#!/bin/sh\necho "${0##*/} $*" >> @/root/asked\n'
FAILS = f"{NOTES}exit 1\n"
# stops goshelf and its port
STOP = "systemctl stop goshelf.socket goshelf"
# what the reader has put into files that a block makes
OWN = "# the reader's own\n"


@pytest.fixture
def machine(folder: str) -> Machine:
    machine = Machine(folder)
    machine.check_out()
    os.symlink(os.path.join(ROOT, "tools"), f"{folder}/root/tools")
    return machine


class Pasted(NamedTuple):
    """What commands were asked by a script that was pasted, and how its shell ended."""

    asked: list[str]
    status: int
    errors: str


def paste(machine: Machine, script: str, **settings: str) -> Pasted:
    """Gives a script to a shell on its standard input."""
    machine.write("root/asked", "")
    home, path = f"{machine.folder}/root", f"{machine.folder}/usr/local/bin:{os.environ['PATH']}"
    how = {"cwd": home, "env": {"PATH": path, "HOME": home, **settings}, "capture_output": True, "text": True}
    ran = subprocess.run(["bash"], input=machine.placed(script), timeout=60, **how)
    return Pasted(machine.read("root/asked").splitlines(), ran.returncode, ran.stderr)


def replace_commands(machine: Machine, **texts: str) -> None:
    """Puts scripts in the place of commands, by their names."""
    for name, text in texts.items():
        # (goshelf is a link to the program that is tested, and stays as it is)
        with contextlib.suppress(FileNotFoundError):
            os.remove(f"{machine.folder}/usr/local/bin/{name}")
        machine.command(name, text)


class TestNginx:
    """The blocks that set nginx up keep what is there: names, owners, hosts."""

    CONF = "etc/nginx/conf.d/goshelf.conf"
    NAMES, OWNERS, HOSTS = (f"etc/nginx/goshelf/{name}" for name in ("names", "owners.json", "goshelf.json"))
    # a word of the block, its page, and the files that it makes
    BLOCKS = {
        "NGINX": ("goshelf-front set-up", "NGINX.md", [CONF, NAMES, OWNERS, HOSTS]),
        "a site": ("deploy/one/site.conf", "DEPLOYMENTS.md", [CONF]),
        "a warm host": ("set-up --warm", "DEPLOYMENTS.md", [CONF, NAMES, HOSTS]),
    }

    @pytest.fixture
    def host(self, machine: Machine) -> Machine:
        """A host whose packages, nginx and systemd do nothing."""
        machine.write("root/goshelf-first.pem", "")
        replace_commands(machine, apt=NOTES, nginx='#!/bin/sh\n[ "$1" != -s ]\n', systemctl=NOTES)
        return machine

    @pytest.mark.parametrize("name", BLOCKS)
    def test_a_second_time_files_stay(self, host: Machine, name: str) -> None:
        word, page, wanted = self.BLOCKS[name]
        lines = [line for line in block("sh", word, page).splitlines() if "goshelf-front add" not in line]
        script = "\n".join(lines) + "\n"
        paste(host, script)
        files = (self.CONF, self.NAMES, self.OWNERS, self.HOSTS)
        made = [file for file in files if os.path.exists(f"{host.folder}/{file}")]
        assert made == wanted
        own = {file: OWN for file in made if file in (self.CONF, self.NAMES)}
        own |= {file: host.read(file) + " \n" for file in made if file == self.OWNERS}
        for file, text in own.items():
            host.write(file, text)
        _, status, errors = paste(host, script)
        assert (status, errors) == (0, "")
        assert {file: host.read(file) for file in own} == own

    def test_an_nginx_that_refuses_its_files_is_not_restarted(self, host: Machine) -> None:
        replace_commands(host, nginx=FAILS)
        asked = paste(host, block("sh", "goshelf-front set-up", "NGINX.md")).asked
        assert any("nginx" in line for line in asked), asked
        assert [line for line in asked if "systemctl" in line] == []


class TestCurl:
    """A publish by curl wants each of its words, and ends as the server answers."""

    WORDS = {"module": "example.com/a", "version": "v1.0.0", "time": "2024-01-31T12:00:00Z"}

    @pytest.fixture
    def publisher(self, machine: Machine) -> Machine:
        replace_commands(machine, curl=NOTES)
        machine.write("root/go.mod", "module example.com/a\n")
        return machine

    @pytest.mark.parametrize("word", WORDS)
    def test_without_a_word(self, publisher: Machine, word: str) -> None:
        asked, status, errors = paste(publisher, block("sh", "curl --netrc"), **{**self.WORDS, word: ""})
        assert asked == []
        assert status != 0 and word in errors

    def test_with_all_words(self, publisher: Machine) -> None:
        asked, status, _ = paste(publisher, block("sh", "curl --netrc"), **self.WORDS)
        assert status == 0
        assert len(asked) == 1 and "--fail-with-body" in asked[0]


@pytest.mark.parametrize("name", ["backup", "watch", "metrics", "catalog"])
def test_a_line_for_cron_is_not_doubled(machine: Machine, name: str) -> None:
    paste(machine, block("sh", f"root $(command -v goshelf-{name})") * 2)
    (line,) = machine.read(f"etc/cron.d/goshelf-{name}").splitlines()
    assert f" root {machine.folder}/usr/local/bin/goshelf-{name}" in line


class TestWarm:
    """The commands of a warm host and of its first host."""

    def test_the_lines_after_a_fetch_that_fails_run(self, machine: Machine) -> None:
        ssh = '#!/bin/sh\n[ "$1" = -n ] || cat > @/root/swallowed\nexit 1\n'
        replace_commands(machine, ssh=ssh, systemctl=NOTES, flock="#!/bin/sh\n")
        machine.write("etc/default/goshelf", "GOSHELF_FIRST=shelf.example.com\n")
        asked, _, errors = paste(machine, block("sh", "root $(command -v goshelf-warm) store", "DEPLOYMENTS.md") * 2)
        assert asked == ["systemctl enable goshelf"] * 2
        assert "Not found in archive" in errors
        lines = machine.read("etc/cron.d/goshelf-warm").splitlines()
        assert [line.split()[-1] for line in lines] == ["store", "front"], "cron has a line twice"

    def test_without_the_key_of_the_warm_host_no_line_lets_it_in(self, machine: Machine) -> None:
        script = block("sh", "cat warm.pub", "DEPLOYMENTS.md")
        paste(machine, script)
        assert not os.path.exists(f"{machine.folder}/root/.ssh/authorized_keys")
        machine.write("root/warm.pub", "ssh-ed25519 AAAA root@warm\n")
        paste(machine, script)
        line = f'restrict,command="{machine.folder}/usr/local/bin/goshelf-copy" ssh-ed25519 AAAA root@warm\n'
        assert machine.read("root/.ssh/authorized_keys") == line

    def test_a_new_front_is_fetched_without_a_word(self, machine: Machine) -> None:
        """Cron mails nothing, also where nginx has something to say."""
        names = ("goshelf.json", "names", "owners.json", "taken-out")
        make = f"for name in {' '.join(names)}; do echo new > $name; done; sha256sum {' '.join(names)} > SHA256SUMS"
        ssh = f"#!/bin/sh\nmkdir -p @/root/front && cd @/root/front\n{make}; tar -cf - *\n"
        nginx = '#!/bin/sh\n[ "$1" = -q ] || echo a notice >&2\n'
        replace_commands(machine, ssh=ssh, flock="#!/bin/sh\n", nginx=nginx)
        machine.write("etc/default/goshelf", "GOSHELF_FIRST=shelf.example.com\n")
        os.makedirs(f"{machine.folder}/etc/nginx/goshelf", exist_ok=True)
        for name in names:
            machine.write(f"etc/nginx/goshelf/{name}", "old\n")
        assert machine.sh("goshelf-warm front") == (0, "", "")
        assert machine.read("etc/nginx/goshelf/goshelf.json") == "new\n"


class TestStores:
    """A migration and a second shard leave the stores that are there."""

    def test_goshelf_is_not_started_over_a_store_that_was_not_made(self, machine: Machine) -> None:
        script = block("sh", "goshelf migrate")
        replace_commands(machine, goshelf=FAILS, systemctl=NOTES)
        machine.write("var/lib/goshelf/shelves.db", OWN)
        asked = paste(machine, script).asked
        assert [line for line in asked if line.startswith("systemctl")] == [STOP]
        machine.write("var/lib/goshelf/shelves.db", "new")
        asked = paste(machine, script).asked
        assert [line for line in asked if line.startswith("systemctl")] == [], "a second time goshelf is stopped"
        assert machine.read("var/lib/goshelf/older/shelves.db") == OWN
        assert machine.read("var/lib/goshelf/shelves.db") == "new"

    def test_a_second_time_the_store_of_the_second_shard_stays(self, machine: Machine) -> None:
        replace_commands(machine, goshelf=FAILS, systemctl=NOTES)
        script = block("sh", "goshelf-second/shelves.db", "DEPLOYMENTS.md").replace("/etc/systemd/system/", "")
        for text in ("second\n", "made again\n"):
            for name in ("second.db", "second.db-wal"):
                machine.write(f"root/{name}", text)
            paste(machine, script)
        found = [machine.read(f"var/lib/goshelf-second/{name}") for name in ("shelves.db", "shelves.db-wal")]
        assert found == ["second\n"] * 2


def test_a_tar_file_whose_sum_is_wrong_is_not_unpacked(machine: Machine) -> None:
    script = block("sh", "sha256sum --ignore-missing").partition("\ncd ")[0].replace("VERSION", "1") + "\n"
    replace_commands(machine, tar=NOTES)
    machine.write("root/goshelf-1-linux-amd64.tar.gz", "spoilt")
    machine.write("root/SHA256SUMS", f"{'0' * 64}  goshelf-1-linux-amd64.tar.gz\n")
    asked, status, _ = paste(machine, script)
    assert (asked, status) == ([], 1)


@pytest.mark.parametrize("page", ["README.md", "docs/TUTORIAL.md"])
def test_no_loop_waits_for_a_serve_that_has_ended(machine: Machine, page: str) -> None:
    """It ends at once where its port is taken."""
    replace_commands(machine, goshelf=FAILS)
    os.symlink(f"{machine.folder}/usr/local/bin/goshelf", f"{machine.folder}/root/goshelf")
    script, *_ = blocks(page, "sh run", "goshelf serve")
    asked = paste(machine, script, TMPDIR=f"{machine.folder}/root").asked
    assert any("serve" in line.split() for line in asked), asked


def test_the_tutorial_makes_no_pages_where_goshelf_prints_no_line(machine: Machine) -> None:
    replace_commands(machine, goshelf=FAILS, catalog=NOTES)
    asked = paste(machine, block("sh run", "catalog --to pages", "TUTORIAL.md")).asked
    assert [line.split()[0] for line in asked] == ["goshelf", "goshelf"]
