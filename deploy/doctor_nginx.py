"""Why nginx does not answer for goshelf, by the files that it reads (`nginx -T`), for goshelf-doctor.

A cause is what is seen, what mends it, and the row of docs/TROUBLE.md whose first words a user sees.
"""

import fnmatch
import http.client
import os
import pwd
import random
import re
import shutil
import socket
import ssl
import struct
import subprocess
import time
from collections.abc import Iterator, Mapping
from dataclasses import dataclass, field

# what a user sees: rows of docs/TROUBLE.md
REFUSED = "`connection refused`"
CERTIFICATE = "`certificate ..`"
AWAY = "502 `goshelf does not answer: ..`"
ELSEWHERE = "a page of another server"
UNKEPT = "500, or an answer that is cut"
PUBLIC = "502 `the public proxy does not answer: ..`"
RELOAD = "nginx -t && nginx -s reload"
# seconds to wait for an answer, and bytes that a cache's disk has at least
PATIENCE, ROOM = 20, 64 << 20
# where nginx looks first for the files that it includes
PREFIX = "/etc/nginx"
TOKEN = re.compile(
    r"""\s+|\#[^\n]*|"(?P<double>(?:[^"\\]|\\.)*)"|'(?P<single>(?:[^'\\]|\\.)*)'|(?P<mark>[{};])"""
    r"""|(?P<word>(?:\\.|\$\{\w*\}|[^\s{};\\])+)""",
    re.S,
)


# what is seen, what mends it, and the row of docs/TROUBLE.md
Cause = tuple[str, str, str]


@dataclass
class Directive:
    """A directive of nginx: its words, and the directives of its block."""

    words: list[str]
    block: list["Directive"] = field(default_factory=list)

    @property
    def name(self) -> str:
        return self.words[0] if self.words else ""

    def all(self, *names: str) -> Iterator["Directive"]:
        """Yields the directives of these names in the block, however deep, or all."""
        for directive in self.block:
            if not names or directive.name in names:
                yield directive
            yield from directive.all(*names)

    def values(self, name: str) -> list[str]:
        """Returns the first values of the directives of a name in the block, each once."""
        return sorted({directive.words[1] for directive in self.all(name) if len(directive.words) > 1})

    def is_goshelfs(self) -> bool:
        """Whether its block answers for goshelf."""
        return any("goshelf" in found.words[1] for found in self.all("access_log", "proxy_pass", "root"))


def parsed(text: str) -> list[Directive]:
    """Returns the directives of a file of nginx."""
    blocks: list[list[Directive]] = [[]]
    words: list[str] = []
    for found in TOKEN.finditer(text):
        kind = found.lastgroup
        if kind == "mark" and found["mark"] == "}":
            blocks.pop()
        elif kind == "mark":
            blocks[-1].append(Directive(words))
            if found["mark"] == "{":
                blocks.append(blocks[-1][-1].block)
            words = []
        elif kind:
            words.append(found[kind])
    return blocks[0]


def included(directives: list[Directive], files: Mapping[str, str]) -> list[Directive]:
    """Returns directives with those of the files that they include in the place of each `include`."""
    found = []
    for directive in directives:
        directive.block = included(directive.block, files)
        if directive.name == "include":
            pattern = os.path.join(PREFIX, directive.words[1])
            for name in sorted(fnmatch.filter(files, pattern)):
                found += included(parsed(files[name]), files)
        else:
            found.append(directive)
    return found


def dumped(text: str) -> Directive:
    """Returns what nginx reads, as the block of one directive, by what `nginx -T` prints."""
    parts = re.split(r"^# configuration file (.*):\n", text, flags=re.M)[1:]
    files = dict(zip(parts[::2], parts[1::2]))
    return Directive([], included(parsed(parts[1]), files) if parts else [])


def ran(*words: str) -> tuple[int, str, str]:
    """Runs a command, and returns its exit status, what it prints, and its errors."""
    done = subprocess.run(words, stdin=subprocess.DEVNULL, capture_output=True, text=True, errors="replace")
    return done.returncode, done.stdout, done.stderr


def causes(port: int | None, is_down: bool) -> list[Cause] | None:
    """Returns why nginx does not answer for goshelf, which listens at a port, or None, and may be down. None if it has
    nothing to do with it here."""
    where = f"{os.environ.get('PATH', '')}:/usr/sbin:/sbin"
    nginx = shutil.which("nginx", path=where)
    if not nginx:
        return None
    status, printed, errors = ran(nginx, "-T")
    if status:
        return [refused(errors)]
    conf = dumped(printed)
    servers = [server for server in conf.all("server") if server.is_goshelfs() and listened(server)]
    if not servers:
        return None
    found = [cause for server in servers for cause in answer(server, conf, port, is_down)]
    return [*found, *caches(conf), *names(conf)]


def refused(errors: str) -> Cause:
    """Returns the cause by which nginx does not take its files."""
    lines = re.findall(r"\[emerg\] (?:\d+#\d+: )?(.*)", errors) or errors.splitlines() or ["no reason"]
    if host := re.search(r"host not found in upstream \"([^\"]*)\"", lines[0]):
        return f"nginx does not start while {host[1]} has no address", f"getent hosts {host[1].split(':')[0]}", REFUSED
    if "key values mismatch" in lines[0]:
        named = re.search(r'\("([^"]*)"', lines[0])
        said = f"the key {named[1] if named else ''} does not fit its certificate"
        return said, f"put both files of one certificate in their places; {RELOAD}", CERTIFICATE
    return f"nginx does not take its files: {lines[0]}", f"mend that line; {RELOAD}", REFUSED


def listened(server: Directive) -> tuple[str, int] | None:
    """Returns the host and the port at which a server listens with TLS, or None."""
    for listen in server.all("listen"):
        host, _, port = listen.words[1].rpartition(":")
        if "ssl" in listen.words and port.isdigit():
            return host if host.strip("[]*") not in ("", "0.0.0.0", "::") else "127.0.0.1", int(port)
    return None


def answer(server: Directive, conf: Directive, port: int | None, is_down: bool) -> Iterator[Cause]:
    """Yields why a server does not answer: nobody listens, its certificate, or what it asks."""
    host, own = listened(server) or ("127.0.0.1", 443)
    name = (server.values("server_name") or ["localhost"])[0]
    try:
        served, status = healthy(host, own, name)
    except ConnectionRefusedError:
        yield f"nobody listens at {host}:{own}: nginx does not run", "systemctl start nginx", REFUSED
        return
    except (OSError, http.client.HTTPException) as error:
        yield f"{host}:{own} does not answer as nginx: {error}", f"ss -ltnp sport = :{own}", REFUSED
        return
    yield from certificate(server, name, served)
    if status in (502, 504):
        yield from behind(conf, port, is_down)
    elif status != 200:
        said = f"nginx answers {status} for https://{name}/healthz: another server of its files has that name"
        yield said, f"nginx -T | grep -n 'server_name.*{name}'", ELSEWHERE


def healthy(host: str, port: int, name: str) -> tuple[bytes | None, int]:
    """Asks a server by its name, and returns its certificate and the status of `/healthz`."""
    context = ssl.create_default_context()
    context.check_hostname, context.verify_mode = False, ssl.CERT_NONE
    with socket.create_connection((host, port), PATIENCE) as raw, context.wrap_socket(
        raw, server_hostname=name
    ) as held:
        served = held.getpeercert(True)
        held.sendall(f"GET /healthz HTTP/1.1\r\nHost: {name}\r\nConnection: close\r\n\r\n".encode())
        reply = http.client.HTTPResponse(held)
        reply.begin()
        return served, reply.status


def certificate(server: Directive, name: str, served: bytes | None) -> Iterator[Cause]:
    """Yields what is wrong with the certificate of a server, beside what it serves, as far as there is an openssl."""
    for file in server.values("ssl_certificate") if shutil.which("openssl") else ():
        mend = f"put a new certificate and its key in their places; {RELOAD}"
        status, ends, _ = ran("openssl", "x509", "-noout", "-enddate", "-checkend", "0", "-in", file)
        if status and "notAfter=" not in ends:
            yield f"openssl cannot read the certificate {file}", mend, CERTIFICATE
            continue
        if status:
            yield f"the certificate {file} ended on {ends.partition('notAfter=')[2].splitlines()[0]}", mend, CERTIFICATE
        begins = ran("openssl", "x509", "-noout", "-startdate", "-in", file)[1].strip().removeprefix("notBefore=")
        if begins and ssl.cert_time_to_seconds(begins) > time.time():
            yield f"the certificate {file} begins on {begins}", "date; set the clock of this host", CERTIFICATE
        if key := other_key(server, file):
            yield f"the key {key} does not fit its certificate", mend, CERTIFICATE
        if "does NOT match" in ran("openssl", "x509", "-noout", "-checkhost", name, "-in", file)[1]:
            yield f"the certificate {file} is not for {name}", mend, CERTIFICATE
        with open(file, encoding="utf-8", errors="replace") as held:
            first = re.search(r"-----BEGIN CERTIFICATE-----.*?-----END CERTIFICATE-----", held.read(), re.S)
        if first and ssl.PEM_cert_to_DER_cert(first[0]) != served:
            yield f"nginx serves another certificate than {file}, which it has not read", RELOAD, CERTIFICATE


def other_key(server: Directive, file: str) -> str | None:
    """Returns the file of the key that a server has for the only certificate that it names, if it is another's. nginx
    does not refuse a key of another kind."""
    keys = server.values("ssl_certificate_key")
    if len(keys) != 1 or server.values("ssl_certificate") != [file]:
        return None
    wanted = ran("openssl", "x509", "-noout", "-pubkey", "-in", file)[1]
    return keys[0] if wanted != ran("openssl", "pkey", "-pubout", "-in", *keys)[1] else None


def behind(conf: Directive, port: int | None, is_down: bool) -> Iterator[Cause]:
    """Yields why what nginx asks does not answer."""
    upstreams = [upstream for upstream in conf.all("upstream") if upstream.words[1].startswith("goshelf")]
    asked = [server.words[1] for upstream in upstreams for server in upstream.all("server")]
    own = [address for address in asked if re.fullmatch(r"127\.0\.0\.1:\d+", address)]
    wrong = [address for address in own if not is_heard(int(address.split(":")[1]))]
    if port and wrong and f"127.0.0.1:{port}" not in wrong:
        said = f"nginx asks {wrong[0]}, where nobody listens, and goshelf is at 127.0.0.1:{port}"
        yield said, f"put {port} into the upstream of {PREFIX}/conf.d/goshelf.conf; {RELOAD}", AWAY
    elif not is_down:
        yield f"nginx asks {', '.join(asked)} for goshelf, and gets no answer", "ss -ltnp", AWAY


def is_heard(port: int) -> bool:
    """Whether somebody listens at a port of 127.0.0.1."""
    with socket.socket() as probe:
        return probe.connect_ex(("127.0.0.1", port)) == 0


def caches(conf: Directive) -> Iterator[Cause]:
    """Yields the caches that the processes of nginx cannot write, or whose disk is full."""
    worker = (conf.values("user") or ["www-data"])[0]
    try:
        uid = pwd.getpwnam(worker).pw_uid
    except KeyError:
        return
    for folder in conf.values("proxy_cache_path"):
        if not os.path.isdir(folder):
            yield f"there is no folder {folder}", f"install -d -o {worker} -m 0700 {folder}; {RELOAD}", UNKEPT
        elif others := [entry.path for entry in os.scandir(folder) if entry.stat(follow_symlinks=False).st_uid != uid]:
            # (nginx itself takes the folder over when it reads its files, and nothing below it)
            said = f"{worker}, who runs nginx, may not write to {min(others)}"
            yield said, f"chown -R {worker} {folder}", UNKEPT
        elif shutil.disk_usage(folder).free < ROOM:
            yield f"the disk of {folder} is full", f"free space: df {folder}", UNKEPT


def names(conf: Directive) -> Iterator[Cause]:
    """Yields the name servers of nginx that do not know the public proxy, unless nginx asks nobody else."""
    if any(directive.words[-1] == "nowhere" for directive in conf.all("default", "js_var")):
        return
    words = {word for directive in conf.all() for word in directive.words}
    hosts = {found[1] for word in words if (found := re.search(r"^([\w.-]+\.[a-z]+):443$", word))}
    # (nginx's http and its way to the public proxy name one each)
    for server in sorted({word for found in conf.all("resolver") for word in found.words[1:] if "=" not in word}):
        for host in sorted(hosts):
            if why := unknown(server, host):
                said = f"the name server {server}, which nginx asks, {why} {host}"
                yield said, f"put another into `resolver` of nginx's files; {RELOAD}", PUBLIC


def unknown(server: str, host: str) -> str | None:
    """Returns why a name server does not say where a host is, or None."""
    number = random.getrandbits(16)
    labels = b"".join(bytes([len(label)]) + label.encode() for label in host.split("."))
    query = struct.pack(">6H", number, 0x100, 1, 0, 0, 0) + labels + b"\0" + struct.pack(">2H", 1, 1)
    with socket.socket(socket.AF_INET, socket.SOCK_DGRAM) as asked:
        asked.settimeout(3)
        address, _, port = server.partition(":")
        try:
            asked.connect((address, int(port or 53)))
            asked.send(query)
            reply = asked.recv(4_096)
        except (OSError, ValueError):
            return "says nothing of"
    if len(reply) < 12 or reply[:2] != query[:2] or reply[3] & 15 or not struct.unpack(">H", reply[6:8])[0]:
        return "has no address of"
    return None
