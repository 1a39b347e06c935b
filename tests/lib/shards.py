"""Two goshelfs that share the teams behind one nginx, by tools/shards, and one goshelf that has it all."""

import base64
import contextlib
import functools
import http.client
import json
import os
import random
import shutil
import ssl
import subprocess
import tempfile
from collections.abc import Iterable, Mapping

from lib.front import fingerprint
from lib.machine import Machine
from lib.ports import wait_for
from lib.program import PROGRAM, ROOT, done
from lib.scratch import closed_on_failure, write
from lib.servers import Server
from lib.stores import new_store

# gamma is a team of the group platform
TEAMS = {"first": ("alpha", "beta"), "second": ("platform", "gamma", "delta")}
SHELVES = ("common", "alpha", "beta", "platform", "gamma", "delta")
RIGHTS = ("read", "publish")
SEED = random.Random(11)
PSEUDO = "v0.0.0-20240131120000-abcdefabcdef"
TOOL = f"{ROOT}/tools/shards"
CERTIFICATE = (
    "openssl req -x509 -newkey ec -pkeyopt ec_paramgen_curve:P-256 -nodes -days 2 -subj /CN=localhost -out"
    " /etc/ssl/goshelf.pem -keyout /etc/ssl/goshelf.key"
)
SHARDS = """\
shard first 127.0.0.1:{first}
team alpha
team beta
shard second 127.0.0.1:{second}
group platform gamma
team delta
"""
CONF, FRONT = "etc/nginx/conf.d/goshelf.conf", "etc/nginx/goshelf/goshelf.json"
# folders that nginx's files name
FOLDERS = ("etc/nginx/goshelf", "var/cache/nginx/goshelf", "var/cache/nginx/goshelf-public", "var/log/goshelf")
# where the stores are that those of each company are copies of
_STORES = tempfile.TemporaryDirectory(prefix="goshelf-")

# the status and the body of a reply
Reply = tuple[int, bytes]
# the status, the lines and the errors of a command
Ending = tuple[int, list[str], str]
# the shelf, the target and the right of a request
Asking = tuple[str, str, str]


def key(shelf: str, right: str = "publish") -> str:
    """Returns the key of a shelf that has a right."""
    return f"{shelf}{right}key0000000000"[:20]


def login(shelf: str, right: str = "publish") -> str:
    """Returns the header by which the user of a shelf and a right logs in."""
    return "Basic " + base64.b64encode(f"{shelf}-{right}:{key(shelf, right)}".encode()).decode()


def front(shelves: Iterable[str], serial: int = 1) -> str:
    """Returns the text of nginx's goshelf.json, with a user of each of these shelves and each right."""
    shelves = list(shelves)
    users = {
        fingerprint(key(shelf, right)): {"name": f"{shelf}-{right}", "shelf": shelf, "right": right}
        for shelf in shelves
        for right in RIGHTS
    }
    owners = {"example.com": shelves}
    return json.dumps({"serial": serial, "generation": 1, "deepest": 1, "owners": owners, "users": users})


def add(file: str, shelf: str) -> None:
    """Adds a group, a team of it, or a team to a store."""
    if shelf == "platform":
        done("group-add", "--db", file, "--group", shelf)
    else:
        done("team-add", "--db", file, "--team", shelf, *(["--group", "platform"] if shelf == "gamma" else []))


def add_keys(file: str, shelf: str) -> None:
    """Adds the two keys of a shelf to a store."""
    done("key-add", "--db", file, "--shelf", shelf, "--key", key(shelf))
    done("key-add", "--db", file, "--shelf", shelf, "--key", key(shelf, "read"), "--read-only")


def with_teams(file: str, teams: Iterable[str]) -> str:
    """Makes a store with common and some teams, and returns its name."""
    for end in ("", "-wal"):
        shutil.copy(_first_store(tuple(teams)) + end, file + end)
    return file


@functools.cache
def _first_store(teams: tuple[str, ...]) -> str:
    """Returns the name of a store with common and some teams, which is made once."""
    file = f"{_STORES.name}/{teams[0]}{len(teams)}.db"
    new_store(file)
    for shelf in teams:
        add(file, shelf)
        add_keys(file, shelf)
    add_keys(file, "common")
    return file


def write_shards(name: str, first: int, second: int) -> None:
    """Writes a file of two shards that listen on these ports."""
    write({name: SHARDS.format(first=first, second=second)})


def write_keys(name: str, shelves: Iterable[str]) -> None:
    """Writes a file of the keys by which the shards are asked."""
    lines = [f"{shelf} {right} {key(shelf, right)}\n" for shelf in shelves for right in RIGHTS]
    with open(os.open(name, os.O_WRONLY | os.O_CREAT | os.O_TRUNC, 0o600), "w", encoding="utf-8") as file:
        file.writelines(lines)


def mod_escaped(version: str) -> str:
    """Returns a version as a target has it."""
    return version.replace("RC", "!r!c")


def run_tool(*words: str) -> Ending:
    """Returns the status, the lines and the errors of tools/shards."""
    settings = dict(os.environ, GOSHELF=PROGRAM)
    ran = subprocess.run([TOOL, *words], stdin=subprocess.DEVNULL, capture_output=True, text=True, env=settings)
    return ran.returncode, ran.stdout.splitlines(), ran.stderr


class Goshelf(Server):
    """A server that teams ask by their keys."""

    def ask(  # type: ignore[override]
        self,
        method: str,
        shelf: str,
        target: str,
        body: bytes | None = None,
        headers: Mapping[str, str] | None = None,
        right: str = "publish",
    ) -> Reply:
        return super().ask(method, target.removeprefix("/"), body, key(shelf, right), headers)


class Company:
    """One goshelf that has it all, two that share the teams, and nginx before these."""

    def __init__(self, folder: str) -> None:
        self.machine, self.folder = Machine(f"{folder}/machine"), folder
        self.published: list[tuple[str, str]] = []
        self.started: list[Goshelf] = []
        self.kept: list[http.client.HTTPSConnection] = []
        with closed_on_failure(self):
            self.one = self.started_goshelf("one", SHELVES[1:])
            self.shards = {name: self.started_goshelf(name, teams) for name, teams in TEAMS.items()}
            self.file, self.keys = f"{folder}/shards.conf", f"{folder}/shards.keys"
            write_shards(self.file, **{name: shard.port for name, shard in self.shards.items()})
            self.start_nginx()

    def started_goshelf(self, name: str, teams: Iterable[str]) -> Goshelf:
        """Returns a goshelf over a new store with some teams."""
        self.started.append(Goshelf(with_teams(f"{self.folder}/{name}.db", teams)))
        return self.started[-1]

    def start_nginx(self) -> None:
        """Starts nginx with its files of deploy/, as tools/shards changes them."""
        machine = self.machine
        machine.check_out()
        machine.does(CERTIFICATE)
        for name in FOLDERS:
            os.makedirs(f"{machine.folder}/{name}")
        os.chmod(f"{machine.folder}/var/cache/nginx/goshelf", 0o777)
        write_keys(self.keys, SHELVES)
        machine.write(FRONT, front(SHELVES))
        machine.does("install -m 0644 deploy/nginx/*.js deploy/nginx/*.conf /etc/nginx/goshelf/")
        machine.does(f"{TOOL} conf {self.file} < deploy/nginx/goshelf.conf > /{CONF}")
        machine.does("nginx")
        wait_for(machine.front)
        self.context = ssl.create_default_context(cafile=f"{machine.folder}/etc/ssl/goshelf.pem")
        self.context.check_hostname = False

    def ask(
        self,
        method: str,
        shelf: str,
        target: str,
        body: bytes | None = None,
        headers: Mapping[str, str] | None = None,
        right: str = "publish",
    ) -> Reply:
        """Returns the status and the body of what nginx answers to the user of a shelf."""
        request = method, target, body, {"Authorization": login(shelf, right), **(headers or {})}
        if method == "GET" and self.kept:
            # (nginx may have closed it meanwhile)
            with contextlib.suppress(OSError, http.client.HTTPException):
                return self._exchange(self.kept.pop(), *request)
        conn = http.client.HTTPSConnection("127.0.0.1", self.machine.front, timeout=60, context=self.context)
        return self._exchange(conn, *request)

    def _exchange(self, conn: http.client.HTTPSConnection, *request: object) -> Reply:
        """Returns the reply on a connection, which is kept for another request."""
        conn.request(*request)  # type: ignore[arg-type]
        reply = conn.getresponse()
        answer = reply.status, reply.read()
        if not reply.will_close:
            self.kept.append(conn)
        return answer

    def put(
        self, shelf: str, path: str, version: str, content: bytes | None = None, to: Goshelf | None = None
    ) -> Reply:
        """Publishes by nginx, or at a goshelf."""
        head = f"module {path}\n".encode()
        time = {} if version == PSEUDO else {"Version-Time": "2024-01-31T12:00:00Z"}
        body, headers = head + (content or SEED.randbytes(3_000)), {"Mod-Length": str(len(head)), **time}
        return (to or self).ask("PUT", shelf, f"/{path}/@v/{mod_escaped(version)}", body, headers)

    def put_both(self, shelf: str, path: str, version: str) -> tuple[Reply, Reply]:
        """Publishes by nginx and at the one goshelf, and returns both replies."""
        content = SEED.randbytes(3_000)
        replies = self.put(shelf, path, version, content), self.put(shelf, path, version, content, self.one)
        self.published.append((path, mod_escaped(version)))
        return replies

    def targets(self) -> list[str]:
        """Returns every file of what was published at both, and lists, and a name that nobody published."""
        versions = sorted(set(self.published))
        files = [f"/{path}/@v/{version}.{kind}" for path, version in versions for kind in ("info", "mod", "zip")]
        lists = [f"/{path}/{end}" for path in sorted({path for path, _ in versions}) for end in ("@v/list", "@latest")]
        return [*files, *lists, "/-/modules", "/example.com/none/@v/list"]

    def differing(self) -> list[tuple[Asking, int, int]]:
        """Returns the requests to which nginx does not answer what the one goshelf does, with the statuses of both."""
        wrong = []
        for asking in ((shelf, target, right) for shelf in SHELVES for target in self.targets() for right in RIGHTS):
            shelf, target, right = asking
            found = self.ask("GET", shelf, target, right=right)
            wanted = self.one.ask("GET", shelf, target, right=right)
            if found != wanted:
                wrong.append((asking, found[0], wanted[0]))
        return wrong

    def tool(self, command: str, *words: str, file: str | None = None, keys: str | None = None) -> Ending:
        """Runs tools/shards with the file of the shards and that of the keys, unless others are named."""
        return run_tool(command, file or self.file, keys or self.keys, *words)

    def close(self) -> None:
        """Ends nginx and the goshelfs."""
        self.machine.close()
        for goshelf in self.started:
            if goshelf.child.poll() is None:
                goshelf.stop()
