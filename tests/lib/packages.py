"""goshelf by its Debian package, on a copy of this machine that systemd runs: it is installed, started and asked."""

import os
from collections.abc import Iterator
from typing import NamedTuple

import pytest

from lib.keys import KEY
from lib.pages import block
from lib.program import ROOT
from lib.releases import Release
from lib.systemd import CannotBoot, Copy, booted_copy

# the status, the output and the errors of a script
Ran = tuple[int, str, str]

# what a machine needs for a release and for copies of itself
NEEDS = "adduser curl dpkg-deb git go ldd nsenter sqlite3 systemd-analyze unshare".split()
# the commands that the package installs
DEPLOY = os.path.join(ROOT, "deploy")
SCRIPTS = [name for at in ("", "warm") for name in os.listdir(os.path.join(DEPLOY, at)) if name.startswith("goshelf-")]
COMMANDS = sorted(["goshelf", "goshelf-adopt", "goshelf-publish", *SCRIPTS])
LIST = "example.com/lib/@v/list"
UNITS = "goshelf.service goshelf.socket"
ARE_ACTIVE, ARE_ENABLED = f"systemctl is-active {UNITS}", f"systemctl is-enabled {UNITS}"
# what `ask_both` returns of a goshelf that runs
BOTH = ("active active", "v1.0.0 200")
# the command of the page that stops both units
STOP = "systemctl stop goshelf.socket goshelf"
PING = "goshelf ping --control /run/goshelf/control"


class Started(NamedTuple):
    """A copy of this machine with a goshelf that serves v1.0.0 of example.com/lib, and how its commands ended."""

    copy: Copy
    ran: Ran
    published: str


def boot() -> Iterator[Copy]:
    """Yields a copy of this machine, or skips the test where the machine can't run one."""
    try:
        with booted_copy() as copy:
            yield copy
    except CannotBoot as why:
        pytest.skip(str(why))


def read_commands(first: str) -> str:
    """Returns the shell commands of docs/OPERATING.md of the block that has these words."""
    return block("sh", first, "OPERATING.md")


def install(copy: Copy, release: Release) -> Ran:
    """Runs the first command of the page, which installs the package."""
    copy.put(release.package)
    command = read_commands("goshelf_VERSION_amd64.deb").partition("\n")[0]
    return copy.sh(f"cd /root\n{command}".replace("VERSION", release.version))


def read_set_up() -> str:
    """Returns the commands of the page that make a store with a key, and start goshelf."""
    return read_commands("goshelf_VERSION_amd64.deb").partition("\n")[2].replace("--new", f"--key {KEY}")


def start(copy: Copy) -> Started:
    """Runs the other commands of the page, asks whether goshelf takes orders at once, and publishes v1.0.0."""
    ran = copy.sh(f"{read_set_up()}{PING}")
    copy.sh("printf 'module example.com/lib\nzip' > /root/body")
    published = ask(copy, "example.com/lib/@v/v1.0.0", how="-T /root/body -H Expect: -H 'Mod-Length: 23'")
    return Started(copy, ran, published)


def start_installed(copy: Copy, release: Release) -> Started:
    """Installs the package, without apt and its lists, and starts goshelf by the commands of the page."""
    ran = copy.sh(f"dpkg -i {copy.put(release.package)}")
    assert ran[0] == 0, ran
    started = start(copy)
    assert ask_both(copy) == BOTH, started
    return started


def ask(copy: Copy, rest: str, port: int = 8080, how: str = "") -> str:
    """Returns the body and the status of a request on the copy, once somebody listens on the port."""
    wait = "--retry 300 --retry-delay 0 --retry-max-time 60 --retry-connrefused"
    return copy.prints(f"curl -s {wait} -w ' %{{http_code}}' {how} http://127.0.0.1:{port}/k/{KEY}/{rest}")


def ask_both(copy: Copy) -> tuple[str, str]:
    """Returns whether goshelf and its port are active, and what a request gets."""
    return copy.prints(ARE_ACTIVE), ask(copy, LIST)


def find_process(copy: Copy) -> str:
    """Returns the number of the process of goshelf on the copy, or 0."""
    return copy.prints("systemctl show -P MainPID goshelf")
