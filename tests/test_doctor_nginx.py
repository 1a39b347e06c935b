"""What goshelf-doctor says of nginx in front of goshelf: each cause is made, found with its row, and undone.

So is a full disk of the store, over which both answer.
They are made on a machine in a folder (lib/machine.py), whose nginx has the files of deploy/ as the page puts them.
"""

import contextlib
import http.client
import os
import re
import shutil
import socket
import subprocess
import threading
from collections.abc import Iterator

import pytest

from lib.front import start
from lib.keys import KEY
from lib.machine import Machine
from lib.pages import read_page
from lib.ports import free_port, wait_for, wait_until
from lib.scratch import closed_on_failure, opened, small_disk
from lib.stores import new_store

pytestmark = [
    pytest.mark.needs("nginx", "nginx-js", "nginx-stream", "openssl", "pgrep", "umount"),
    pytest.mark.root,
]

CONF, CERTIFICATE, CACHE = "etc/nginx/conf.d/goshelf.conf", "etc/ssl/goshelf.pem", "var/cache/nginx/goshelf"
CERTIFICATE_KEY, WAY = "etc/ssl/goshelf.key", "etc/nginx/modules-enabled/goshelf.conf"
WELL = (0, "no cause is found: goshelf answers, and nginx in front of it\n", "")
# makes a certificate and its key
MADE = """openssl req -x509 -newkey ec -pkeyopt ec_paramgen_curve:P-256 -nodes -days 2 -subj /CN=NAME \\
    -addext subjectAltName=DNS:NAME -out /etc/ssl/goshelf.pem -keyout /etc/ssl/goshelf.key"""
# makes one that has ended
AUTHORITY = """[ca]
default_ca = own
[own]
database = index
new_certs_dir = .
rand_serial = yes
default_md = sha256
policy = any
[any]
commonName = supplied
"""
ENDED = """: > index
openssl req -new -newkey ec -pkeyopt ec_paramgen_curve:P-256 -nodes -subj /CN=localhost -out own.csr \\
    -keyout /etc/ssl/goshelf.key
openssl ca -config ca.conf -batch -notext -selfsign -keyfile /etc/ssl/goshelf.key -in own.csr \\
    -startdate 20200101000000Z -enddate 20200102000000Z -out /etc/ssl/goshelf.pem"""
# certificates that nginx serves, by the scripts that make them, and what the doctor says of them
CERTIFICATES = {
    "that has ended": (ENDED, "the certificate .*goshelf.pem ended on Jan  2 00:00:00 2020 GMT$"),
    "for another name": (
        MADE.replace("NAME", "other.example.com"),
        "the certificate .* is not for localhost$",
    ),
}
# the first words of the rows of the page
ROWS = re.findall(r"^\| (.*?) \|", read_page("TROUBLE.md"), re.M)
# another server with the name of goshelf's, before it
OTHER = """server {
    listen 443 ssl;
    server_name localhost;
    ssl_certificate /etc/ssl/goshelf.pem;
    ssl_certificate_key /etc/ssl/goshelf.key;
    return 404;
}
"""


def make(folder: str) -> Machine:
    """Returns a machine whose goshelf and nginx answer."""
    machine = Machine(folder)
    with closed_on_failure(machine):
        new_store(machine.store, ("alpha", KEY))
        start(machine, {"example.com": ["alpha"]})
    return machine


@pytest.fixture(scope="module")
def machine() -> Iterator[Machine]:
    """A machine with which nothing is wrong, before all tests and behind them."""
    with opened(make) as machine:
        assert machine.sh("goshelf-doctor") == WELL
        yield machine
        assert machine.sh("goshelf-doctor") == WELL


@pytest.fixture
def undone(machine: Machine) -> Iterator[None]:
    """Behind the test nothing is wrong."""
    yield
    assert machine.sh("goshelf-doctor") == WELL


def find_cause(machine: Machine) -> str:
    """Returns what the doctor says of nginx, and nothing else of it, with a row of the page that is there."""
    status, printed, errors = machine.sh("goshelf-doctor")
    causes = [line.removeprefix("nginx: ") for line in printed.splitlines() if line.startswith("nginx: ")]
    assert (status, errors, len(causes)) == (1, "", 1), printed
    rows = re.findall(r"^    docs/TROUBLE\.md: (.*)$", printed, re.M)
    assert rows and set(rows) <= set(ROWS)
    return causes[0]


def reload(machine: Machine) -> None:
    """Has nginx read its files anew, and waits for the end of those who took connections by the old ones."""
    before = machine.workers()
    machine.does("nginx -q -t && nginx -s reload 2> /dev/null")
    machine.wait_for_workers(before)


@contextlib.contextmanager
def reloaded(machine: Machine, name: str, text: str) -> Iterator[None]:
    """Has nginx read a file with another text, until the block ends."""
    before = machine.read(name)
    machine.write(name, text)
    reload(machine)
    try:
        yield
    finally:
        machine.write(name, before)
        reload(machine)


def asks_another_port(machine: Machine, port: int) -> str:
    """Returns nginx's file with another port than goshelf's."""
    return machine.read(CONF).replace(f"127.0.0.1:{machine.behind}", f"127.0.0.1:{port}")


def test_nginx_is_stopped(machine: Machine, undone: None) -> None:
    machine.does("nginx -s stop 2> /dev/null")
    wait_until(lambda: not os.path.exists(f"{machine.folder}/nginx.pid"))
    cause = find_cause(machine)
    machine.does("nginx")
    wait_for(machine.front)
    assert re.match(rf"nobody listens at 127\.0\.0\.1:{machine.front}: nginx does not run$", cause)


def test_nginx_refuses_a_line(machine: Machine) -> None:
    text = machine.read(CONF)
    machine.write(CONF, text + "nosuch line;\n")
    try:
        assert re.match(r'nginx does not take its files: unknown directive "nosuch" in ', find_cause(machine))
    finally:
        machine.write(CONF, text)


def test_nginx_gives_the_name_to_another_server(machine: Machine, undone: None) -> None:
    machine.write("etc/nginx/conf.d/a.conf", machine.placed(OTHER))
    reload(machine)
    cause = find_cause(machine)
    os.remove(f"{machine.folder}/etc/nginx/conf.d/a.conf")
    reload(machine)
    assert re.match(r"nginx answers 404 for https://localhost/healthz: ", cause)


def test_nginx_asks_another_port(machine: Machine) -> None:
    other = free_port()
    with reloaded(machine, CONF, asks_another_port(machine, other)):
        said = (
            rf"nginx asks 127\.0\.0\.1:{other}, where nobody listens, and goshelf is at 127\.0\.0\.1:{machine.behind}$"
        )
        assert re.match(said, find_cause(machine))


def test_nginx_has_no_fault_if_goshelf_is_stopped(machine: Machine, undone: None) -> None:
    machine.does("systemctl stop goshelf")
    status, printed, _ = machine.sh("goshelf-doctor")
    machine.does("systemctl start goshelf")
    assert status == 1
    assert "device: nobody listens at " in printed and "nginx: " not in printed


@pytest.fixture
def small_store(machine: Machine) -> Iterator[str]:
    """The folder of the store has a small disk."""
    folder = f"{machine.folder}/var/lib/goshelf"
    machine.does("systemctl stop goshelf; mkdir aside; mv /var/lib/goshelf/* aside")
    with small_disk(folder, "6m") as is_there:
        if is_there:
            machine.does("cp aside/shelves.db aside/shelves.db-wal /var/lib/goshelf; systemctl start goshelf")
            yield folder
            machine.does("systemctl stop goshelf")
    machine.does("mv aside/* /var/lib/goshelf; rmdir aside; systemctl start goshelf")
    if not is_there:
        pytest.skip("this needs to mount a tmpfs")


def put(machine: Machine, version: str, body: bytes) -> int:
    """Publishes a version of example.com/lib at goshelf itself, and returns the status."""
    connection = http.client.HTTPConnection("127.0.0.1", machine.behind, timeout=60)
    connection.request("PUT", f"/k/{KEY}/example.com/lib/@v/{version}", body, {"Mod-Length": "23"})
    return connection.getresponse().status


def test_the_disk_of_the_store_is_full(machine: Machine, undone: None, small_store: str) -> None:
    """goshelf and nginx answer, and publishes fail, until the disk gets room again."""
    assert machine.sh("goshelf-doctor") == WELL
    gomod = b"module example.com/lib\n"
    statuses = [put(machine, f"v1.{number}.0", gomod + os.urandom(500_000)) for number in range(12)]
    assert (statuses[0], statuses[-3:]) == (201, [503] * 3)
    status, printed, errors = machine.sh("goshelf-doctor")
    said = (
        rf"device: the disk of {small_store} has \d MiB left, and publishes failed\n    free space: df"
        rf" {small_store}; .*\n"
    )
    assert status == 1 and re.fullmatch(said, printed), printed + errors
    with reloaded(machine, CONF, asks_another_port(machine, free_port())):
        assert re.match(r"nginx asks 127\.0\.0\.1:\d+, where nobody listens, ", find_cause(machine))
    subprocess.run(["mount", "-o", "remount,size=200m", small_store], check=True)
    assert machine.sh("goshelf-doctor") == WELL


@pytest.fixture
def certificate(machine: Machine) -> Iterator[Machine]:
    """A machine whose certificate may change."""
    files = [f"{machine.folder}/{name}" for name in (CERTIFICATE, CERTIFICATE_KEY)]
    for file in files:
        shutil.copy(file, f"{file}.good")
    machine.write("root/ca.conf", AUTHORITY)
    yield machine
    for file in files:
        shutil.copy(f"{file}.good", file)
    reload(machine)


@pytest.mark.parametrize("name", CERTIFICATES)
def test_a_certificate(certificate: Machine, name: str) -> None:
    script, said = CERTIFICATES[name]
    certificate.does(script)
    reload(certificate)
    assert re.match(said, find_cause(certificate))


def test_a_certificate_that_nginx_has_not_read(certificate: Machine) -> None:
    certificate.does(MADE.replace("NAME", "localhost"))
    assert re.match("nginx serves another certificate than .*pem", find_cause(certificate))
    reload(certificate)
    assert certificate.sh("goshelf-doctor") == WELL


def test_a_certificate_with_another_key(certificate: Machine) -> None:
    good = certificate.read(CERTIFICATE_KEY)
    certificate.does(MADE.replace("NAME", "localhost"))
    reload(certificate)
    certificate.write(CERTIFICATE_KEY, good)
    assert re.match("the key .*goshelf.key does not fit its certificate", find_cause(certificate))


def test_a_certificate_that_is_none(undone: None, certificate: Machine) -> None:
    certificate.write(CERTIFICATE, "nothing\n")
    assert re.match(r"nginx does not take its files: .*goshelf\.pem", find_cause(certificate))


def test_nginx_may_not_write_into_its_cache(machine: Machine) -> None:
    folder = f"{machine.folder}/{CACHE}"
    os.mkdir(f"{folder}/a")
    try:
        assert re.match(f"www-data, who runs nginx, may not write to {folder}/a$", find_cause(machine))
    finally:
        os.rmdir(f"{folder}/a")


def test_the_disk_of_the_cache_is_full(machine: Machine, undone: None) -> None:
    folder = f"{machine.folder}/{CACHE}"
    owner = os.stat(folder).st_uid
    with small_disk(folder, "1m") as is_there:
        if not is_there:
            pytest.skip("this needs to mount a tmpfs")
        os.chmod(folder, 0o700)
        os.chown(folder, owner, 0)
        assert re.match(f"the disk of {folder} is full$", find_cause(machine))


class NameServer:
    """A name server that answers as it is told to, if at all. nginx asks it for proxy.example.com."""

    def __init__(self, machine: Machine) -> None:
        self.machine = machine
        self.socket = socket.socket(socket.AF_INET, socket.SOCK_DGRAM)
        self.socket.bind(("127.0.0.1", 0))
        self.address = f"127.0.0.1:{self.socket.getsockname()[1]}"

    def placed(self, text: str) -> str:
        """Returns a text of nginx that names this server."""
        return re.sub(r"^(\s*)resolver \S+", rf"\1resolver {self.address}", text, flags=re.M)

    def reply_once(self, code: int, count: int) -> None:
        """Answers the next query that is not yet read, with a code and a number of addresses."""
        self.socket.setblocking(False)
        with contextlib.suppress(BlockingIOError):
            while True:
                self.socket.recv(512)
        self.socket.setblocking(True)
        threading.Thread(target=self._reply, args=(code, count), daemon=True).start()

    def _reply(self, code: int, count: int) -> None:
        query, peer = self.socket.recvfrom(512)
        head = query[:2] + bytes([0x81, 0x80 | code, 0, 1, 0, count])
        address = b"\xc0\x0c\0\1\0\1\0\0\0\x3c\0\4\x7f\0\0\1"
        self.socket.sendto(head + query[8:] + address * count, peer)


@pytest.fixture
def name_server(machine: Machine) -> Iterator[NameServer]:
    server = NameServer(machine)
    asked = 'map "" $asked {\n    default proxy.example.com:443;\n}\n'
    with (
        contextlib.closing(server.socket),
        reloaded(machine, WAY, server.placed(machine.read(WAY))),
        reloaded(machine, CONF, server.placed(machine.read(CONF)) + asked),
    ):
        yield server


def test_a_name_server_is_silent(machine: Machine, name_server: NameServer) -> None:
    said = f"the name server {name_server.address}, which nginx asks, says nothing of proxy.example.com"
    assert find_cause(machine) == said


@pytest.mark.parametrize("code", [3, 0])
def test_a_name_server_has_no_address(machine: Machine, name_server: NameServer, code: int) -> None:
    name_server.reply_once(code, 0)
    said = f"the name server {name_server.address}, which nginx asks, has no address of proxy.example.com"
    assert find_cause(machine) == said


def test_a_name_server_knows_the_address(machine: Machine, undone: None, name_server: NameServer) -> None:
    name_server.reply_once(0, 1)
    assert machine.sh("goshelf-doctor") == WELL


def test_the_doctor_leaves_nothing(machine: Machine) -> None:
    assert machine.sh("goshelf-doctor") == WELL
    left = subprocess.run(["find", f"{machine.folder}/root", "-name", "__pycache__"], capture_output=True, text=True)
    assert left.stdout == ""


def test_an_nginx_that_has_nothing_of_goshelf_is_no_cause(machine: Machine) -> None:
    folder, aside = f"{machine.folder}/etc/nginx/conf.d", f"{machine.folder}/root/conf.d"
    os.rename(folder, aside)
    os.mkdir(folder)
    ran = machine.sh("goshelf-doctor")
    os.rmdir(folder)
    os.rename(aside, folder)
    assert ran == (0, "no cause is found: goshelf answers\n", "")
