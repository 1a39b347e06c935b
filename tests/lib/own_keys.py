"""The page of goshelf-keys on the machine of developers.py, behind a server that plays a company's login."""

import grp
import http.server
import os
import re
import socket
import subprocess
import threading
import urllib.parse
from collections.abc import Mapping
from typing import Any

from lib.developers import Developers
from lib.front import Answer, fingerprint, list_keys
from lib.machine import Machine
from lib.pages import block
from lib.ports import wait_until

LOGIN = "etc/nginx/goshelf/login.conf"
# how the page of docs has nginx ask the company's login
ASKS, NAMED = (block("sh", word, "NGINX.md") for word in ("auth_request /company-login", "$http_x_forwarded_user"))
FORM = "application/x-www-form-urlencoded"
FIELD = re.compile(r'<input type="hidden" name="(\w+)" value="([^"]*)">')
# the status and the text of a page
Page = tuple[int, str]
Fields = dict[str, str]


class Sessions(http.server.ThreadingHTTPServer):
    """Plays the endpoint of a company's login that nginx asks: it names who has a session, by its cookie, in a header.
    It is a careless one: it believes a caller who sends that header."""

    daemon_threads = True

    def __init__(self) -> None:
        super().__init__(("127.0.0.1", 0), Endpoint)
        self.names: dict[str, bytes] = {}
        self.heads: list[dict[str, str]] = []
        threading.Thread(target=self.serve_forever, kwargs={"poll_interval": 0.05}, daemon=True).start()

    def server_close(self) -> None:
        # (a server whose socket is closed while it serves asks for connections without an end)
        self.shutdown()
        super().server_close()

    def sign_in(self, name: str | bytes) -> str:
        """Returns the cookie of somebody who signs in."""
        word = os.urandom(16).hex()
        self.names[word] = name if isinstance(name, bytes) else name.encode()
        return f"session={word}"


class Endpoint(http.server.BaseHTTPRequestHandler):
    """A question of nginx."""

    server: Sessions

    def do_GET(self) -> None:
        self.server.heads.append(dict(self.headers))
        session = re.search(r"(?:^|; )session=([0-9a-f]+)", self.headers.get("Cookie", ""))
        name = self.server.names.get(session[1]) if session else None
        name = self.headers.get("X-Auth-Request-User", "").encode("latin-1") or name
        self.send_response_only(401 if name is None else 202)
        if name is not None:
            self.send_header("X-Auth-Request-User", name.decode("latin-1"))
        self.send_header("Content-Length", "0")
        self.end_headers()

    def log_message(self, format: str, *words: Any) -> None:  # pylint: disable=redefined-builtin
        """Prints nothing."""


class OwnKeys(Developers):
    """The company, whose people have the page once `turn_on` has nginx ask for them."""

    child: subprocess.Popen | None = None
    last: Answer

    def start(self) -> None:
        super().start()
        self.sessions = Sessions()
        self.at = f"{self.machine.folder}/run/goshelf-keys"
        os.makedirs(self.at)
        self.listener = socket.socket(socket.AF_UNIX)
        self.listener.bind(f"{self.at}/socket")
        self.listener.listen(64)
        os.chmod(f"{self.at}/socket", 0o660)
        os.chown(f"{self.at}/socket", 0, grp.getgrnam("www-data").gr_gid)
        self.serve()

    def change(self, machine: Machine) -> None:
        super().change(machine)
        # (who asks for a page has no key, and tests ask more often than a person)
        self.conf(("rate=5r/s", "rate=500r/s"))

    def serve(self) -> None:
        """Starts goshelf-keys as its unit does, anew if it runs."""
        self.end()
        with open(f"{self.folder}/keys.err", "a", encoding="utf-8") as errors:
            program = f"{self.machine.folder}/usr/local/bin/goshelf-keys"
            own = {"PATH": os.environ["PATH"]}
            self.child = subprocess.Popen(
                [program], stdin=self.listener.fileno(), stdout=errors, stderr=errors, env=own
            )

    def end(self) -> None:
        """Ends goshelf-keys."""
        if self.child:
            self.child.terminate()
            self.child.wait()

    def turn_on(self, text: str, *pairs: tuple[str, str]) -> None:
        """Turns the page on by the commands of docs/NGINX.md."""
        for old, new in (("127.0.0.1:4180", f"127.0.0.1:{self.sessions.server_address[1]}"), *pairs):
            text = text.replace(old, new)
        self.machine.does(text)
        wait_until(lambda: self.reload() == "")

    def see(self, cookie: str = "", target: str = "/keys/", **headers: str) -> Page:
        """Returns the status and the text of a page, for who has a session."""
        return self.ask_page("GET", target, cookie, None, headers)

    def ask_page(
        self, method: str, target: str, cookie: str, body: bytes | str | None, headers: Mapping[str, str]
    ) -> Page:
        """Returns the status and the text of an answer, which is `last`."""
        sent = {**({"Cookie": cookie} if cookie else {}), **headers}
        self.last = self.client.reply(method, target, None, body, sent)
        return self.last.status, self.last.body.decode()

    def fields(self, cookie: str, action: str, **wanted: str) -> Fields:
        """Returns the hidden fields of the form that has these, as the page shows it."""
        text = self.see(cookie)[1]
        for form in re.findall(rf'<form method="post" action="/keys/{action}">(.*?)</form>', text):
            found = dict(FIELD.findall(form))
            if all(found.get(name) == value for name, value in wanted.items()):
                return found
        raise AssertionError((action, wanted, text))

    def send(self, cookie: str, action: str, fields: Fields | str | bytes, **headers: str | None) -> Page:
        """Sends a form as a browser does, but for these headers; None leaves one out."""
        own: dict[str, str | None] = {
            "Origin": f"https://localhost:{self.machine.front}",
            "Sec-Fetch-Site": "same-origin",
            "Content-Type": FORM,
        }
        own.update({name.replace("_", "-"): text for name, text in headers.items()})
        sent = {name: text for name, text in own.items() if text is not None}
        body = fields if isinstance(fields, (str, bytes)) else urllib.parse.urlencode(fields)
        return self.ask_page("POST", f"/keys/{action}", cookie, body, sent)

    def send_make(self, cookie: str, machine: str, shelf: str = "alpha") -> Page:
        """Has somebody ask for a key."""
        return self.send(cookie, "make", {**self.fields(cookie, "make", shelf=shelf), "machine": machine})

    def make(self, cookie: str, machine: str, shelf: str = "alpha") -> str:
        """Has somebody make a key, and returns it."""
        status, text = self.send_make(cookie, machine, shelf)
        found = re.search(r"<pre>machine localhost login \S+ password ([a-z0-9]+)</pre>", text)
        assert status == 200 and found, text
        self.client.passwords[f"{len(self.client.passwords)} of the page"] = found[1]
        return found[1]

    def revoke(self, cookie: str, key: str) -> Page:
        """Has somebody revoke a key."""
        digits = fingerprint(key)
        return self.send(cookie, "revoke", self.fields(cookie, "revoke", fingerprint=digits))

    def status_of(self, key: str) -> int:
        """Returns what nginx answers to a login by a key."""
        return self.client.status_of(key)

    def keys(self) -> str:
        """Returns a line for each key that goshelf has."""
        return list_keys(self.machine)

    def state(self) -> list[str]:
        """Returns all that an order may change."""
        return [*self.state_of_files(), self.keys()]

    def state_of_files(self) -> list[str]:
        return [self.machine.read(f"etc/nginx/goshelf/{name}") for name in ("names", "goshelf.json")]

    def find_holders(self) -> str:
        """Returns the logs, caches and files of nginx that have a key or a session."""
        secrets = [word for secret in (*self.secrets(), *self.sessions.names) for word in ("-e", secret)]
        names = ("etc", "var/log", "var/cache", "var/lib/nginx", "serve.err", "serve.out")
        places = [*(f"{self.machine.folder}/{name}" for name in names), f"{self.folder}/keys.err"]
        return subprocess.run(["grep", "-rlF", *secrets, *places], capture_output=True, text=True).stdout

    def errors(self) -> str:
        """Returns what goshelf-keys has printed."""
        with open(f"{self.folder}/keys.err", encoding="utf-8") as file:
            return file.read()

    def close(self) -> None:
        self.end()
        if hasattr(self, "listener"):
            self.listener.close()
        if hasattr(self, "sessions"):
            self.sessions.server_close()
        super().close()
