"""goshelf-keys as its unit runs it, confined, on a copy of this machine (systemd.py) with goshelf and nginx."""

import contextlib
import os
import re
import tarfile
import tempfile
from collections.abc import Iterator

from lib.own_keys import NAMED
from lib.ports import wait_until
from lib.program import PROGRAM, ROOT
from lib.systemd import Copy, groups

SET_UP = """
install -m 755 /root/program /usr/local/bin/goshelf
mkdir -p /usr/share/goshelf
tar -xf /root/deploy.tar -C /usr/share/goshelf
install -m 755 /usr/share/goshelf/deploy/goshelf-* /usr/local/bin
install -m 644 /usr/share/goshelf/deploy/systemd/goshelf* /etc/systemd/system
getent passwd goshelf > /dev/null || useradd --system --user-group --home-dir /var/lib/goshelf goshelf
install -d -o goshelf -g goshelf -m 700 /var/lib/goshelf
systemctl daemon-reload
goshelf init --db /var/lib/goshelf/shelves.db
goshelf team-add --db /var/lib/goshelf/shelves.db --team alpha
goshelf key-add --db /var/lib/goshelf/shelves.db --shelf alpha --new > /dev/null
systemctl start goshelf
rm -rf /etc/nginx/sites-enabled /etc/nginx/goshelf /etc/nginx/conf.d/goshelf.conf
openssl req -x509 -newkey ec -pkeyopt ec_paramgen_curve:P-256 -nodes -days 2 -subj /CN=localhost \
    -addext subjectAltName=DNS:localhost -out /etc/ssl/goshelf.pem -keyout /etc/ssl/goshelf.key 2> /dev/null
goshelf-front set-up localhost example.com=alpha > /dev/null
systemctl restart nginx
goshelf-front add ann alpha read 2> /dev/null
"""
ASK = "curl -sk https://localhost/keys/{} -H 'X-Forwarded-User: ann'"


class Unable(Exception):
    """Why this machine cannot run a copy of itself."""


class KeysUnit:
    """A copy of this machine with goshelf, nginx, and the page of keys, which is turned on."""

    def __init__(self, copy: Copy) -> None:
        self.copy = copy
        status, printed, errors = copy.sh(SET_UP)
        assert status == 0 and printed.startswith("machine localhost"), errors
        turns_on = NAMED.replace("192.0.2.10", "127.0.0.1").replace("nginx -s reload", "systemctl reload nginx")
        status, _, errors = copy.sh(turns_on)
        assert status == 0, errors
        self.sockets = copy.prints(
            "stat -c '%F %a %U %G' /run/goshelf-keys/socket; systemctl is-active goshelf-keys; true"
        )
        # (the processes of nginx from before go on for a moment)
        wait_until(lambda: "Keys of ann" in self.ask(""))

    def ask(self, target: str, words: str = "") -> str:
        """Returns what the page answers to ann."""
        return self.copy.sh(f"{ASK.format(target)} {words}")[1]

    def send(self, action: str, *fields: str) -> str:
        """Sends a form of ann with these fields, and returns what the page answers."""
        found = re.search(r'name="token" value="([^"]+)"', self.ask(""))
        assert found
        sent = " ".join(f"--data-urlencode {field}" for field in (f"token={found[1]}", *fields))
        return self.ask(action, f"-H 'Origin: https://localhost' {sent}")

    def log(self) -> str:
        """Returns what the unit has printed."""
        return self.copy.sh("journalctl -u goshelf-keys -o cat --no-pager")[1]

    def status_of(self, key: str) -> str:
        """Returns what nginx answers to a login by a key."""
        return self.copy.prints(f"curl -sk -o /dev/null -w '%{{http_code}}' -u any:{key} https://localhost/login")


@contextlib.contextmanager
def running_unit() -> Iterator[KeysUnit]:
    """Runs the unit on a copy of this machine."""
    folder_of_groups = groups()
    if not folder_of_groups:
        raise Unable("this needs control groups of version 2")
    with tempfile.TemporaryDirectory(prefix="goshelf-unit-") as folder:
        copy = Copy(tempfile.mkdtemp(prefix="goshelf-copy-", dir=folder), folder_of_groups)
        with contextlib.closing(copy):
            if why := copy.starts():
                raise Unable(f"systemd does not start on a copy: {why}")
            with tarfile.open(f"{folder}/deploy.tar", "w") as archive:
                archive.add(os.path.join(ROOT, "deploy"), "deploy")
            os.symlink(PROGRAM, f"{folder}/program")
            for name in ("deploy.tar", "program"):
                copy.put(f"{folder}/{name}")
            yield KeysUnit(copy)
