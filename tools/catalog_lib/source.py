"""Where go.mods and zips come from: a goshelf that serves, or one that answers over a store in a file.

Both get the same requests, with a key that only reads. The key is neither a word of a command nor in an error.
"""
import re
import socket
import subprocess

from catalog_lib.lines import Refused
from catalog_lib.markup import cased
from catalog_lib.zips import ZIP_MOST

KEY = re.compile(r"[A-Za-z0-9_-]{16,128}")
# seconds that it waits for more of a reply
PATIENCE = 60
HEAD_MOST = 8_192
STATUS = re.compile(rb"HTTP/1\.1 ([0-9]{3}) ")
LENGTH = re.compile(rb"\r\nContent-Length: ([0-9]{1,10})\r\n")


def key_of(name):
    """The key in a file."""
    try:
        with open(name, encoding="ascii") as file:
            key = file.read(200).strip()
    except (OSError, ValueError):
        key = ""
    if not KEY.fullmatch(key):
        raise Refused(f"{name} does not hold one key")
    return key


class Source:
    """What a key reads. Each kind of it says how it gets the reply to a request."""

    def __init__(self, key):
        self.key = key

    def get(self, path, version, kind):
        """The `mod` or `zip` of a version, or None if the key does not see it."""
        target = f"{cased(path)}/@v/{cased(version)}.{kind}"
        try:
            status, body = self.asked(f"GET /k/{self.key}/{target} HTTP/1.1\r\n\r\n".encode())
        except OSError as error:
            raise Refused(f"goshelf does not answer: {error.strerror or error}") from None
        if status not in (200, 404):
            raise Refused(f"goshelf answers {status} for {target}")
        return body if status == 200 else None

    def close(self):
        """Ends what it began."""


class Served(Source):
    """A goshelf that serves at a port of this machine. It answers one request on each connection."""

    def __init__(self, port, key):
        super().__init__(key)
        self.port = port

    def asked(self, request):
        with socket.socket() as held:
            held.settimeout(PATIENCE)
            held.connect(("127.0.0.1", self.port))
            held.sendall(request)
            with held.makefile("rb") as reads:
                return reply(reads)


class Stored(Source):
    """A store in a file that nobody serves, over which `goshelf answer` runs meanwhile."""

    def __init__(self, store, key):
        super().__init__(key)
        pipe = subprocess.PIPE
        self.run = subprocess.Popen(["goshelf", "answer", "--db", store], stdin=pipe, stdout=pipe)

    def asked(self, request):
        self.run.stdin.write(request)
        self.run.stdin.flush()
        return reply(self.run.stdout)

    def close(self):
        self.run.stdin.close()
        self.run.stdout.close()
        self.run.wait()


def reply(reads):
    """The status and the body of a reply."""
    head = b""
    while not head.endswith(b"\r\n\r\n"):
        line = reads.readline(HEAD_MOST)
        head += line
        if not line or len(head) > HEAD_MOST:
            raise Refused("goshelf does not answer: the reply was cut off")
    status, length = STATUS.match(head), LENGTH.search(head)
    if not status or not length or int(length[1]) > ZIP_MOST:
        raise Refused("goshelf does not answer: no reply of goshelf")
    body = reads.read(int(length[1]))
    if len(body) < int(length[1]):
        raise Refused("goshelf does not answer: the reply was cut off")
    return int(status[1]), body
