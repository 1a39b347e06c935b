"""A company whose developers have one URL: goshelf behind nginx, by the commands of docs/NGINX.md.

PATHS are its own. What is outside (outside.py) may have BAIT there, which nobody may get.
"""

import http.client
import os
import re
import subprocess
import time
from collections.abc import Iterable, Mapping

from lib import go_command
from lib.front import Client, Reply, start
from lib.logins import log_in
from lib.machine import AUTHORITIES, Machine
from lib.modules import escaped
from lib.outside import NAME, STORE, Outside, module
from lib.ports import wait_until
from lib.scratch import closed_on_failure, read, write
from lib.stores import new_store

PATHS = {
    "example.com": "common",
    "example.com/alpha": "alpha",
    "example.com/shared": "alpha beta",
    "example.com/Big": "beta",
    "forge.example/corp": "alpha",
    "forge.example/corp/a/b/c/d": "beta",
    "fallow.example": "-",
}
READER = ("ann", "alpha", "read")
USERS = (("pat", "alpha", "publish"), ("bob", "beta", "publish"), ("com", "common", "publish"), READER)
BAIT = b"BAIT"
FIRST_WAY, SECOND_WAY = "js_var $goshelf_others public;\n", "js_var $goshelf_others nowhere;\n"
# seconds that nginx waits for the public proxy: here, where the files say 30
PATIENCE = 2


class Developers:
    """The company. `client` has its users."""

    def __init__(self, folder: str) -> None:
        os.chmod(folder, 0o755)
        self.folder, self.count = folder, 0
        self.outside = Outside(f"{folder}/outside")
        self.machine = Machine(f"{folder}/machine", self.outside.port)
        with closed_on_failure(self):
            self.start()

    def start(self) -> None:
        """Starts goshelf and nginx, and adds the users."""
        new_store(self.machine.store, ("alpha", "firstkey00000001"), ("beta", "firstkey00000002"))
        start(self.machine, {path: shelves.replace("-", "").split() for path, shelves in PATHS.items()}, self.change)
        self.client = Client(self.machine)
        for user in USERS:
            self.client.add(*user)
        self.client.context.load_verify_locations(self.outside.authority)
        self.url = f"https://localhost:{self.machine.front}"
        write({f"{self.folder}/trusted.pem": read(self.client.pem) + read(self.outside.authority)})

    def change(self, machine: Machine) -> None:
        """Puts what nginx's files say of the outside on this host."""
        os.unlink(f"{machine.folder}{AUTHORITIES}")
        os.symlink(self.outside.authority, f"{machine.folder}{AUTHORITIES}")
        store = STORE.replace(".", r"\.")
        for name in ("conf.d", "modules-enabled"):
            text = machine.read(f"etc/nginx/{name}/goshelf.conf")
            own = f"resolver 127.0.0.1:{self.outside.name_server.port} valid=1s "
            text = re.sub("resolver [0-9.]+ valid=60s ", own, text)
            text = text.replace(f"127.0.0.1:{self.outside.port};", f"{NAME}:{self.outside.port};")
            machine.write(f"etc/nginx/{name}/goshelf.conf", text)
        self.conf(
            (f"https://{store}/", f"https://{store}:{self.outside.store_port}/"),
            ("min_free=2g", "min_free=1m"),
        )
        machine.edit("etc/nginx/goshelf/public.conf", ("proxy_read_timeout 30s", f"proxy_read_timeout {PATIENCE}s"))

    def conf(self, *pairs: tuple[str, str]) -> None:
        """Replaces texts of nginx's file."""
        self.machine.edit("etc/nginx/conf.d/goshelf.conf", *pairs)

    def reload(self) -> str:
        """Has nginx read its files, and waits until its processes of before have ended. Returns why it refuses them."""
        status, _, errors = self.machine.sh("nginx -q -t")
        if status:
            return errors
        before = self.workers()
        self.machine.does("nginx -s reload")
        wait_until(lambda: bool(self.workers()) and not before & self.workers())
        return ""

    def workers(self) -> set[str]:
        """Returns the processes of nginx beside the first."""
        words = ["pgrep", "-P", self.machine.read("nginx.pid").strip()]
        return set(subprocess.run(words, capture_output=True, text=True).stdout.split())

    def give(self, words: str, user: str = "") -> str:
        """Has goshelf-front make a key, and returns it. A user, if one is named, has it as a password."""
        key = self.machine.does(f"goshelf-front {words}").split()[5]
        self.client.passwords[user or f"{len(self.client.passwords)} {words}"] = key
        return key

    def status(
        self,
        key: str,
        target: str,
        method: str = "GET",
        body: bytes | None = None,
        headers: Mapping[str, str] | None = None,
    ) -> int:
        """Returns the status of the answer to a login by a key."""
        return self.client.ask(method, target, log_in(key), body, headers)[0]

    def ask(
        self,
        target: str,
        user: str | None = "ann",
        method: str = "GET",
        body: bytes | None = None,
        headers: Mapping[str, str] | None = None,
    ) -> Reply:
        """Returns the status and the body of an answer; status 0 and the error if none comes whole."""
        try:
            return self.client.ask(method, target, self.client.login(user) if user else None, body, headers)
        except (OSError, http.client.HTTPException) as error:
            return 0, repr(error).encode()

    def publish(
        self,
        user: str,
        path: str,
        version: str = "v1.0.0",
        gomod: str | None = None,
        files: Mapping[str, str] | None = None,
    ) -> Reply:
        """Publishes a version, which has a file and a go.mod if none is given."""
        head, zipped, _ = module(path, version, gomod, files)
        headers = {"Mod-Length": str(len(head)), "Version-Time": "2024-01-31T12:00:00Z"}
        return self.ask(f"/{escaped(path)}/@v/{escaped(version)}", user, "PUT", head + zipped, headers)

    def fresh(self) -> str:
        """Makes a new folder, and returns it."""
        self.count += 1
        os.makedirs(folder := f"{self.folder}/work{self.count}")
        return folder

    def work(self, *imports: str, requires: Iterable[str] = (), main: str = "") -> str:
        """Makes the folder of a new module that imports packages, and returns it."""
        folder, named = self.fresh(), "".join(f'import _ "{package}"\n' for package in imports)
        lines = "".join(f"require {required}\n" for required in requires)
        write({f"{folder}/go.mod": f"module my.example/app\n\ngo 1.17\n\n{lines}"})
        write({f"{folder}/main.go": f"package main\n\n{named}{main or 'func main() {}'}\n"})
        return folder

    def go(
        self, folder: str, *words: str, user: str = "ann", cache: str | None = None, **settings: str
    ) -> tuple[bool, str, str]:
        """Runs the go command in a folder, with an empty module cache unless one is named. Returns whether it ended
        well, what it printed, and its errors."""
        home = self.fresh()
        if user in self.client.passwords:
            write({f"{home}/.netrc": f"machine localhost login {user} password {self.client.passwords[user]}\n"})
        own = {
            "GOMODCACHE": cache or f"{home}/cache",
            "GOPROXY": self.url,
            "GONOSUMDB": "example.com,forge.example/corp",
            "GOSUMDB": self.outside.verifies,
            "SSL_CERT_FILE": f"{self.folder}/trusted.pem",
        }
        env = go_command.settings(home, **{**own, **settings})
        ran = subprocess.run(["go", *words], cwd=folder, env=env, capture_output=True, text=True, timeout=120)
        return ran.returncode == 0, ran.stdout, ran.stderr

    def leaks(self, since: int = 0) -> list[str]:
        """Returns what was asked outside that names a path of the company."""
        return self.outside.leaks(PATHS, since)

    def asked_outside(self) -> int:
        """Returns how often anything was asked outside."""
        return len(self.outside.asked)

    def log(self, since: int = 0) -> list[str]:
        """Returns the lines of nginx's log, once it writes no more: a line follows the end of its answer."""
        text = None
        while text != (now := self.machine.read("var/log/nginx/goshelf.log")):
            text = now
            time.sleep(0.1)
        return now.splitlines()[since:]

    def secrets(self) -> list[str]:
        """Returns keys and logins."""
        passwords = self.client.passwords
        return [*passwords.values(), *(self.client.login(user).split()[1] for user in passwords)]

    def close(self) -> None:
        self.machine.close()
        self.outside.close()


# how somebody might spell the path of another shelf
SPELLINGS = """
/{} //{} /./{} /pub.example/../{} /pub.example/%2e%2e/{} /pub.example/..%2f{} /pub.example/.%2e/{}
/%65xample.com/alpha/core /example%2ecom/alpha/core /example%2Ecom/alpha/core /example.com%2falpha%2fcore
/example.com%2Falpha/core /%2f{} /%2e/{} /%252e%252e/{} /example%252ecom/alpha/core /EXAMPLE.COM/alpha/core
/Example.com/alpha/core /!{} /%21{} /example.com/!alpha/core /example.com/%21alpha/core /example.com/ALPHA/core
/!e!x!a!m!p!l!e.com/alpha/core /example.!com/alpha /{}/ /{};x /example.com./alpha/core /.example.com/alpha/core
/example.com\\alpha/core /pub.example\\..\\example.com/alpha /pub.example/@v/{} /pub.example/@v/../{}
/pub.example/@latest/{} /pub.example/x/@v/v1.0.0.mod/{} /example.com/@v/alpha/core /example.com//alpha/core
/example.com/./alpha/core /sumdb/sum.golang.org/lookup/{} /sumdb/sum.golang.org/tile/{} /sumdb/sum.golang.org/{}
/sumdb/{} /sumdb/sum.golang.org/lookup/!{} /sumdb//sum.golang.org/lookup/{} /!sumdb/sum.golang.org/lookup/{}
/sumdb/sum.golang.org/supported/{} /k/x/{} /-/{} /https://{} /http:/{} /pub.example@{} /pub.example:80/{}
/example.com:443/alpha/core /example.com%00/alpha/core /example.com%09/alpha /example.com%20/alpha/core
/example.com%c0%ae/alpha /example%EF%BC%8Ecom/alpha /example.com/alpha%23/core /forge.example/%21corp/x
/forge.example/!corp/x /forge.example/Corp/x /forge.example/!c!o!r!p/x /forge.example/corp /forge.example/corp/x
/fallow.example/x /{}/../../../pub.example /{}/%2e%2e/%2e%2e/%2e%2e/pub.example
"""
