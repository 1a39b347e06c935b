"""The go command and goshelf-publish before nginx and `goshelf serve`: they log in by ~/.netrc.

It is set up as in test_behind_nginx.py.
"""

import os
import subprocess
import tempfile
import time
from collections.abc import Iterator
from typing import NamedTuple

import pytest

from lib.front import Front
from lib.go_command import settings
from lib.modules import zipped
from lib.pages import block
from lib.peers import NoModules
from lib.program import ROOT
from lib.repositories import built
from lib.scratch import opened, write

pytestmark = [
    pytest.mark.needs("nginx", "nginx-js", "nginx-stream", "openssl", "go", "git", "curl"),
    pytest.mark.root,
]

GREET = "module example.com/greet\n"
HELLO = 'package main\n\nimport "example.com/greet"\n\nfunc main() { println(greet.Text) }\n'
# what a ~/.netrc has for ann: her key, or not
PASSWORDS = {"no ~/.netrc": "", "a wrong password": "machine localhost login ann password wrong\n"}


@pytest.fixture(scope="module")
def front() -> Iterator[Front]:
    with opened(Front) as front:
        yield front


@pytest.fixture(scope="module")
def next_proxy() -> Iterator[NoModules]:
    """The proxy behind goshelf's, which has no module."""
    proxy = NoModules()
    yield proxy
    proxy.shutdown()
    proxy.server_close()


@pytest.fixture(scope="module")
def published(front: Front) -> str:
    """What curl says of a module that it publishes by ~/.netrc, by the command of the page."""
    code = {"go.mod": GREET, "greet.go": "package greet\n\nconst Text = 1\n"}
    body = GREET.encode() + zipped("example.com/greet", "v1.0.0", code)
    front.machine.write("root/.netrc", f"machine localhost login pub password {front.passwords['pub']}\n")
    publish = (
        block("sh", "curl --netrc --fail-with-body")
        .replace("curl ", "curl -sS --cacert /etc/ssl/goshelf.pem ")
        .replace("shelf.example.com", f"localhost:{front.machine.front}")
    )
    words = {"module": "example.com/greet", "version": "v1.0.0", "time": "2024-01-31T12:00:00Z"}
    with tempfile.TemporaryDirectory(prefix="goshelf-") as folder:
        write({f"{folder}/go.mod": GREET, f"{folder}/body": body})
        return front.machine.does(f"cd {folder}\n{publish}", **words)


class Ran(NamedTuple):
    """How a go command ended, what it said, and what the next proxy was asked."""

    status: int
    said: str
    asked: list[str]


def run_go(front: Front, proxy: NoModules, netrc: str, *words: str) -> Ran:
    """Runs the go command in a new module, with no module cache."""
    proxy.asked.clear()
    proxies = f"https://localhost:{front.machine.front},{proxy.url}"
    with tempfile.TemporaryDirectory(prefix="goshelf-") as folder:
        files = {"go.mod": "module example.com/hello\n\ngo 1.19\n", ".netrc": netrc, "main.go": HELLO}
        write({f"{folder}/{name}": text for name, text in files.items()})
        env = settings(
            folder,
            GOPROXY=proxies,
            GONOSUMDB="example.com",
            SSL_CERT_FILE=front.pem,
            GOCACHE=f"{front.machine.folder}/gocache",
        )
        ran = subprocess.run(["go", *words], cwd=folder, env=env, capture_output=True, text=True, timeout=300)
    return Ran(ran.returncode, ran.stdout + ran.stderr, list(proxy.asked))


@pytest.fixture
def netrc(front: Front) -> str:
    return f"machine localhost login ann password {front.passwords['ann']}\n"


def test_curl_publishes_by_netrc(published: str) -> None:
    assert published == "published\n"


def test_go_builds_by_netrc(front: Front, published: str, next_proxy: NoModules, netrc: str) -> None:
    ran = run_go(front, next_proxy, netrc, "run", "-mod=mod", ".")
    assert (ran.status, ran.said.splitlines()[-1:], ran.asked) == (0, ["1"], [])
    assert [password for password in front.passwords.values() if password in ran.said] == []


@pytest.mark.parametrize("name", PASSWORDS)
def test_a_401_ends_the_go_command(front: Front, published: str, next_proxy: NoModules, name: str) -> None:
    ran = run_go(front, next_proxy, PASSWORDS[name], "get", "example.com/greet@v1.0.0")
    assert ran.status != 0
    assert "401" in ran.said and "log in: " in ran.said
    assert ran.asked == []


def test_a_name_that_the_shelf_lacks_is_asked_at_the_next_proxy(
    front: Front, next_proxy: NoModules, netrc: str
) -> None:
    ran = run_go(front, next_proxy, netrc, "get", "example.com/nosuch@v1.0.0")
    assert ran.status != 0
    assert any("nosuch" in target for target in ran.asked), ran


def run_as(front: Front, folder: str, user: str, script: str) -> tuple[int, str, str]:
    """Runs a script in a folder as a user with a home of its own, who logs in by ~/.netrc. Returns its status, output
    and errors."""
    home = f"{folder}/{user}"
    os.mkdir(home)
    write({f"{home}/.netrc": f"machine localhost login {user} password {front.passwords[user]}\n"})
    path = f"{os.path.join(ROOT, 'tools')}:{os.environ['PATH']}"
    env = settings(home, PATH=path, SSL_CERT_FILE=front.pem, CURL_CA_BUNDLE=front.pem)
    words = ["sh", "-euc", script]
    ran = subprocess.run(words, cwd=folder, env=env, capture_output=True, text=True, timeout=300)
    return ran.returncode, ran.stdout, ran.stderr


def test_the_repository_of_the_tutorial_is_published_and_built_with(front: Front, folder: str) -> None:
    """Three modules by the page's commands: one user publishes them, another, who only reads, builds with them."""
    made, uses = (
        block("sh run", word, "TUTORIAL.md") for word in ("mkdir -p team/log", 'import "example.com/team/log"')
    )
    wanted = block("output", "published example.com/team v1.0.0", "TUTORIAL.md")
    publish = block("sh", "--netrc --repository team")
    prepare = "chmod 600 ~/.netrc\n" + block("sh", "needed only where GOPRIVATE is set")
    url = f"https://localhost:{front.machine.front}"
    publish, prepare = (script.replace("https://shelf.example.com", url) for script in (publish, prepare))
    built()
    begun = time.monotonic()
    status, printed, errors = run_as(front, folder, "pub", made + publish)
    assert (status, printed) == (0, wanted), errors
    script = prepare + f"mkdir hello\ncd hello\ngo mod init example.com/hello\ncd ..\n{uses}"
    status, printed, errors = run_as(front, folder, "ann", script)
    assert (status, printed) == (0, "log and team 2\n"), errors
    assert time.monotonic() - begun < 300
