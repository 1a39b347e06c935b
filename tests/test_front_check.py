"""goshelf-front check names each fault of the front: owners, names, keys, certificate, caches, ports, clock, DNS.

Another key with the fingerprint of one in names is nobody's. The machine, its users and its nginx are those of
lib/front.py.
"""

import contextlib
import hashlib
import os
from collections.abc import Iterator

import pytest

from lib.front import FOLDER, UNUSED, USERS, Front, fingerprint, stopped_goshelf, users_of
from lib.outside import NameServer
from lib.ports import free_port, wait_until
from lib.scratch import opened

pytestmark = [pytest.mark.needs("nginx", "nginx-js", "nginx-stream", "openssl"), pytest.mark.root]
CONF, STREAM = (f"etc/nginx/{folder}/goshelf.conf" for folder in ("conf.d", "modules-enabled"))
OWNERS, NAMES = f"{FOLDER}/owners.json", f"{FOLDER}/names"
# a certificate of a time, which openssl makes by its command for authorities
DATED = """: > index
printf '[ca]\ndefault_ca = own\n[own]\ndatabase = index\nnew_certs_dir = .\ndefault_md = sha256\nrand_serial = yes
policy = any\n[any]\ncommonName = supplied\n' > ca.conf
openssl req -new -key /etc/ssl/goshelf.key -subj /CN=localhost -out own.csr
openssl ca -config ca.conf -batch -notext -selfsign -keyfile /etc/ssl/goshelf.key -in own.csr -out /etc/ssl/dated.pem \
    -startdate {}0101000000Z -enddate {}0102000000Z 2> /dev/null"""
# a goshelf that lists the keys of a file, and notes what it is to revoke
LISTING = """\
#!/bin/sh
case $1 in
key-list) cat "@/keys" ;;
key-revoke) echo "$5" >> "@/revoked" ;;
*) exec "@/usr/local/bin/goshelf.own" "$@" ;;
esac
"""
Pair = tuple[str, str]


@pytest.fixture(scope="module")
def front() -> Iterator[Front]:
    with opened(Front) as made:
        yield made


def check(front: Front) -> tuple[int, str]:
    """Returns the status of check, and what it says but for keys that nobody has."""
    status, printed, errors = front.machine.sh("goshelf-front check")
    return status, "\n".join(line for line in (printed + errors).splitlines() if "has no name" not in line)


def assert_named(front: Front, said: str) -> None:
    """Asserts that check names a fault by these words."""
    status, lines = check(front)
    assert status == 1 and said in lines, lines


@contextlib.contextmanager
def edited(front: Front, file: str, *pairs: Pair) -> Iterator[None]:
    """Replaces texts of a file, in which names are those of the machine, until the block ends."""
    text = front.machine.read(file)
    front.machine.edit(file, *((front.machine.placed(old), front.machine.placed(new)) for old, new in pairs))
    try:
        yield
    finally:
        front.machine.write(file, text)


@contextlib.contextmanager
def added(front: Front, line: str) -> Iterator[None]:
    """Adds a line to names until the block ends."""
    text = front.machine.read(NAMES)
    front.machine.write(NAMES, f"{text}{line}\n")
    try:
        yield
    finally:
        front.machine.write(NAMES, text)


def test_no_fault_is_found(front: Front) -> None:
    assert check(front)[1] == ""


def sum_of(front: Front, user: str) -> str:
    return hashlib.sha256(front.passwords[user].encode()).hexdigest()


class TestSameDigits:
    """Another key with the fingerprint of somebody's."""

    @pytest.fixture
    def keys(self, front: Front) -> Iterator[tuple[str, str]]:
        """The lines of goshelf's keys with whole sums and without, while goshelf lists those of a file."""
        sums = {fingerprint(front.passwords[user]): sum_of(front, user) for user, _, _ in USERS}
        rows = [line.split()[:3] for line in front.keys().splitlines()]
        whole = "".join(f"{' '.join(row)} {sums.get(row[2], row[2] + '1' * 48)}\n" for row in rows)
        names = front.machine.read(NAMES)
        with front.machine.instead(LISTING):
            yield whole, "".join(f"{' '.join(row)}\n" for row in rows)
        front.machine.write(NAMES, names)
        assert front.machine.sh("goshelf-front sync") == (0, "", "")
        assert {front.get("/login", user)[0] for user in ("ann", "pub")} == {204}

    @pytest.mark.parametrize("where", ["beside it", "in its place", "not there", "not told of"])
    def test_another_key_is_nobodys(self, front: Front, keys: tuple[str, str], where: str) -> None:
        whole, short = keys
        own, digits = sum_of(front, "ann"), sum_of(front, "ann")[:16]
        other = f"beta publish {digits} {digits}{'0' * 48}"
        lines = {
            "beside it": f"{whole}{other}\n",
            "in its place": whole.replace(f"alpha read {digits} {own}", other),
            "not there": whole,
            "not told of": short,
        }
        front.machine.write("keys", lines[where])
        is_missing = f"ann: goshelf has no key {digits}\n" in front.machine.sh("goshelf-front check")[1]
        front.machine.does("goshelf-front sync")
        user = users_of(front.machine).get(digits)
        wanted = None if where == "in its place" else ("alpha", own)
        assert (user and (user["shelf"], user["sha256"]), is_missing) == (wanted, wanted is None)

    @pytest.mark.parametrize("is_whole", [True, False], ids=["whole sums", "16 digits"])
    def test_key_is_revoked_by_what_goshelf_lists(self, front: Front, keys: tuple[str, str], is_whole: bool) -> None:
        names, own = front.machine.read(NAMES), sum_of(front, "pub")
        front.machine.write("keys", keys[0] if is_whole else keys[1])
        with added(front, f"{fingerprint(UNUSED)}\teve\t"):
            printed = front.machine.sh("goshelf-front check")[1]
        assert (f"eve: names has 16 digits of {fingerprint(UNUSED)}" in printed) == (not is_whole)
        front.machine.write("revoked", "")
        front.machine.write(NAMES, names.replace("\tpub\t", "\tpub\t2020-01-01"))
        front.machine.does("goshelf-front sync")
        assert front.machine.read("revoked") == f"{own if is_whole else own[:16]}\n"


LINES = [
    ("0123456789abcdef\teve\t", "eve: goshelf has no key 0123456789abcdef"),
    (f"{fingerprint(UNUSED)}\teve\t2020-01-01", f"eve: the day of {fingerprint(UNUSED)} is over"),
    ("half a line", "names:6: not of the form"),
    (f"{'0' * 64}\tann\t2027-02-30", "names:6: no day YYYY-MM-DD: 2027-02-30"),
    (f"{'0' * 64}\tann\t\tserver", "names:6: not of the form"),
    (f"{'0' * 64}\tann\t\t\t{'m' * 65}", "names:6: not of the form"),
    (f"{'0' * 64}\tann\t\tmachine\tbox\tmore", "names:6: not of the form"),
    (f"{'0' * 64}\ta\x1bnn\t", "names:6: not of the form"),
    (f"{'0' * 64}\ta\u202enn\t", "names:6: not of the form"),
]


@pytest.mark.parametrize("line, said", LINES, ids=[ascii(line.replace("0" * 64, "SUM"))[1:-1] for line, _ in LINES])
def test_line_of_names(front: Front, line: str, said: str) -> None:
    with added(front, line):
        assert_named(front, said)


def test_line_of_names_that_is_there_twice(front: Front) -> None:
    with added(front, front.machine.read(NAMES).splitlines()[0]):
        assert_named(front, "has a line already")


def test_key_that_goshelf_alone_revoked(front: Front) -> None:
    key = fingerprint(front.give("add zed alpha read"))
    front.machine.does(f"goshelf key-revoke --control /run/goshelf/control --fingerprint {key}")
    assert_named(front, f"zed: goshelf has no key {key}")
    front.order("remove zed")


def test_goshelf_that_is_stopped(front: Front) -> None:
    key = fingerprint(front.give("add una alpha read"))
    waits = f"una: {key} was removed, and waits to be revoked: sync revokes it"
    with stopped_goshelf(front.machine):
        front.machine.sh("goshelf-front remove una")
        assert_named(front, "goshelf is stopped: start it, then run goshelf-front sync")
        assert_named(front, f"nobody answers at 127.0.0.1:{front.machine.behind}, which nginx asks")
        assert_named(front, waits)
        with edited(front, CONF, ("ssl/goshelf.pem;", "ssl/nosuch.pem;")):
            assert_named(front, "nosuch.pem cannot be read as a certificate")
    assert check(front) == (1, waits)
    front.order("sync")
    assert check(front)[1] == "", "none waits"


@pytest.mark.parametrize("name", ["nginx/goshelf.log", "nginx/goshelf-errors.log", "goshelf/publishes.log"])
def test_log_that_is_missing_is_made_for_root_alone(front: Front, name: str) -> None:
    file = f"{front.machine.folder}/var/log/{name}"
    before = os.stat(file)
    os.rename(file, f"{file}.1")
    assert check(front) == (1, f"{file} was missing, and is made: nginx -s reopen has nginx write to it")
    made = os.stat(file)
    assert (made.st_mode & 0o7777, made.st_uid, made.st_gid) == (0o640, before.st_uid, before.st_gid)
    assert check(front)[1] == ""
    os.rename(file, f"{file}.2")
    front.order("uncache")
    assert os.stat(file).st_mode & 0o7777 == 0o640, "after a reload"


@pytest.mark.parametrize(
    "pair, said",
    [
        (('"beta", ', ""), "bob can publish nothing"),
        (("beta", "gamma"), "example.com: there is no shelf gamma"),
        (("example.com", "example.org"), "nginx does not have what these files say"),
        (("example.com", "example"), "owners.json: example is not a module path"),
        (("{", "["), "owners.json: "),
    ],
    ids=["a shelf without a path", "no such shelf", "not read by nginx", "no path", "no JSON"],
)
def test_fault_of_owners(front: Front, pair: Pair, said: str) -> None:
    with edited(front, OWNERS, pair):
        assert_named(front, said)


@pytest.mark.parametrize(
    "pair, said",
    [
        (("server_name localhost;", "server_name other.example;"), "is not for other"),
        (("ssl/goshelf.pem;", "ssl/nosuch.pem;"), "cannot be read as a certificate"),
        (("min_free=2g", "min_free=90000g"), "has less room than min_free=90000g"),
        (("upstream goshelf {", "upstream {"), "invalid number of arguments"),
        (("/var/cache/nginx/goshelf ", "/proc/goshelf "), "/proc/goshelf"),
        (("127.0.0.1:8080;", "127.0.0.1:9;"), "127.0.0.1:9, which"),
        (("js_var $goshelf_others", "x $goshelf_others"), "unknown directive"),
    ],
    ids=[
        "a certificate of another",
        "no certificate",
        "a cache without room",
        "a file that nginx refuses",
        "a cache that cannot be made",
        "a goshelf elsewhere",
        "an unknown directive",
    ],
)
def test_fault_of_nginx(front: Front, pair: Pair, said: str) -> None:
    with edited(front, CONF, pair):
        assert_named(front, said)


def test_site_that_answers_for_each_other_name(front: Front) -> None:
    name = f"{front.machine.folder}/etc/nginx/sites-enabled/default"
    os.makedirs(os.path.dirname(name))
    front.machine.write("etc/nginx/sites-enabled/default", "server {\n\tlisten 80 default_server;\n}\n")
    assert_named(front, f"{name} logs keys that come by another name of this host")
    os.unlink(name)
    assert front.check() == []


def test_way_out_where_nobody_listens(front: Front) -> None:
    way = f"127.0.0.1:{front.machine.way}"
    with edited(front, STREAM, (f"listen {way};", f"listen 127.0.0.1:{free_port()};")):
        front.machine.does("systemctl restart nginx")
        assert_named(front, f"nobody answers at {way}, which nginx asks")
    front.machine.does("systemctl restart nginx")


def test_nginx_that_is_stopped(front: Front) -> None:
    front.machine.does("nginx -s stop")
    wait_until(lambda: not os.path.exists(f"{front.machine.folder}/nginx.pid"))
    assert_named(front, "nginx does not answer at")
    front.machine.does("systemctl restart nginx")


@pytest.mark.parametrize(
    "year, said", [(2020, "has ended"), (2090, "or the clock of this host is behind")], ids=["that ended", "of later"]
)
def test_certificate_of_another_time(front: Front, year: int, said: str) -> None:
    front.machine.does(DATED.format(year, year))
    with edited(front, CONF, ("ssl/goshelf.pem;", "ssl/dated.pem;")):
        assert_named(front, said)


def test_log_for_all_to_read(front: Front) -> None:
    log = f"{front.machine.folder}/var/log/nginx/goshelf.log"
    os.chmod(log, 0o644)
    assert_named(front, "others than root and its group may read")
    os.chmod(log, 0o640)


def test_key_of_the_certificate_for_all_to_read(front: Front) -> None:
    name = f"{front.machine.folder}/etc/ssl/goshelf.key"
    mode = os.stat(name).st_mode & 0o777
    os.chmod(name, 0o644)
    assert_named(front, f"anybody on this host may read {name}: chmod 600 {name}")
    os.chmod(name, mode)


def test_clock_that_was_set_back(front: Front) -> None:
    front.machine.does(f"sed -i 's/: 1[0-9]*,/: 9&/; s/: 9: /: 9/' /{FOLDER}/goshelf.json")
    assert_named(front, "clock")
    front.order("uncache")


class TestNameServer:
    """A name server of the host's own, and the public proxy by its name."""

    @pytest.fixture(scope="class")
    def server(self, front: Front) -> Iterator[NameServer]:
        server = NameServer()
        texts = {file: front.machine.read(file) for file in (CONF, STREAM)}
        for file in texts:
            front.machine.does(f"sed -i 's/resolver [0-9.]* /resolver 127.0.0.1:{server.port} /' /{file}")
        front.machine.edit(STREAM, (f"127.0.0.1:{front.machine.public};", "proxy.golang.org:443;"))
        yield server
        for file, text in texts.items():
            front.machine.write(file, text)

    @pytest.fixture
    def silent(self, server: NameServer) -> Iterator[str]:
        """Has it say nothing. What check says then."""
        server.is_on = False
        yield f"the name server 127.0.0.1:{server.port}, which nginx asks, says nothing of proxy.golang.org"
        server.is_on = True

    def test_one_that_answers(self, front: Front, server: NameServer) -> None:
        assert check(front)[1] == ""
        assert {*server.asked} == {"proxy.golang.org"}

    def test_one_that_is_silent(self, front: Front, silent: str) -> None:
        assert_named(front, silent)

    def test_user_is_removed_while_it_is_silent(self, front: Front, silent: str) -> None:
        key = front.give("add ivo alpha read")
        status, _, errors = front.machine.sh("goshelf-front remove ivo")
        assert status == 0 and silent in errors, errors
        assert front.status_of(key) == 401

    @pytest.mark.usefixtures("silent")
    def test_one_that_nobody_runs(self, front: Front, server: NameServer) -> None:
        with edited(front, CONF, (f"127.0.0.1:{server.port} ", "127.0.0.1:9 ")):
            assert_named(front, "the name server 127.0.0.1:9, which nginx asks, says nothing of")

    @pytest.mark.usefixtures("silent")
    def test_none_is_asked_by_the_second_way(self, front: Front) -> None:
        with edited(front, CONF, ("js_var $goshelf_others public;", "js_var $goshelf_others nowhere;")):
            assert check(front)[1] == ""

    @pytest.mark.usefixtures("server")
    def test_way_out_that_has_no_file(self, front: Front) -> None:
        place = f"{front.machine.folder}/{STREAM}"
        os.rename(place, f"{front.machine.folder}/root/stream.conf")
        assert_named(front, "modules-enabled/goshelf.conf cannot be read")
        os.rename(f"{front.machine.folder}/root/stream.conf", place)
