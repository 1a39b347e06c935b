"""What is outside of a company, on this host: the public proxy, its store of zips, a checksum database, a name server.

The public proxy notes what it is asked, and misbehaves as it is told. It has certificates of its real name, by
authorities that stand three deep, of which `Outside.authority` is the first.
"""

import atexit
import contextlib
import functools
import http.client
import http.server
import os
import re
import socket
import ssl
import struct
import subprocess
import tempfile
import threading
import urllib.parse

from lib.modules import escaped, sums, zipped
from lib.peers import Quiet, fetched
from lib.ports import free_port, wait_until
from lib.program import ROOT

NAME, STORE = "proxy.golang.org", "storage.googleapis.com"
DATABASE = "/sumdb/sum.golang.org"
# the folder of golang.org/x/mod by Debian's package golang-golang-x-mod-dev, with which the checksum database is built
XMOD = "/usr/share/gocode/src/golang.org/x/mod"
TIME = "2024-01-31T12:00:00Z"
TEXT, JSON, ZIP = "text/plain; charset=UTF-8", "application/json", "application/zip"
CERTIFICATES = """
new="-newkey ec -pkeyopt ec_paramgen_curve:P-256 -nodes"
authority() {
    printf 'basicConstraints=critical,CA:TRUE\\nkeyUsage=keyCertSign\\n' > ext
    openssl req $new -subj /CN=$1 -keyout $1.key -out csr
    openssl x509 -req -in csr -CA $2.pem -CAkey $2.key -CAcreateserial -days 2 -extfile ext -out $1.pem
}
leaf() {
    printf "subjectAltName=$2\\n" > ext
    openssl req $new -subj /CN=$1 -keyout $1.key -out csr
    openssl x509 -req -in csr -CA lower.pem -CAkey lower.key -CAcreateserial -days 2 -extfile ext -out leaf
    cat leaf lower.pem middle.pem > $1.pem
}
openssl req -x509 $new -days 2 -subj /CN=root -keyout root.key -out root.pem \
    -addext keyUsage=keyCertSign
authority middle root
authority lower middle
leaf public DNS:$PUBLIC
leaf store DNS:$STORE
leaf wrong DNS:wrong.example
leaf local IP:127.0.0.1
openssl req -x509 $new -days 2 -subj /CN=self -keyout self.key -out self.pem \
    -addext subjectAltName=DNS:$PUBLIC
"""


def module(path, version, gomod=None, files=None):
    """The go.mod, the zip and the go.sum lines of a version, which has a file and a go.mod where none is given."""
    gomod, files = gomod or f"module {path}\n\ngo 1.17\n", files or {"a.go": "package a\n"}
    whole = zipped(path, version, {"go.mod": gomod, **files})
    of_gomod, of_zip = sums(gomod.encode(), whole)
    return gomod.encode(), whole, f"{path} {version} {of_zip}\n{path} {version}/go.mod {of_gomod}\n"


@functools.cache
def build_database():
    """Builds the checksum database of Debian's package into a folder that goes with this process, and returns that."""
    folder = tempfile.TemporaryDirectory(prefix="goshelf-")
    atexit.register(folder.cleanup)
    settings = {"GO111MODULE": "off", "GOPATH": "/usr/share/gocode", "GOFLAGS": ""}
    words = ["go", "build", "-o", f"{folder.name}/checksums", os.path.join(ROOT, "tests", "checksums.go")]
    subprocess.run(words, check=True, env={**os.environ, **settings})
    return folder


class NameServer(threading.Thread):
    """Answers with 127.0.0.1 for each name, while it is on."""

    def __init__(self):
        super().__init__(daemon=True)
        self.socket = socket.socket(socket.AF_INET, socket.SOCK_DGRAM)
        self.socket.bind(("127.0.0.1", 0))
        self.port, self.asked, self.is_on = self.socket.getsockname()[1], [], True
        self.start()

    def run(self):
        while True:
            query, peer = self.socket.recvfrom(4096)
            end = query.index(b"\0", 12)
            self.asked.append(re.sub(rb"[\x01-\x1f]", b".", query[12:end]).decode()[1:])
            if self.is_on:
                address = b"\xc0\x0c\0\1\0\1" + struct.pack(">IH", 5, 4) + bytes([127, 0, 0, 1])
                self.socket.sendto(query[:2] + b"\x81\x80\0\1\0\1\0\0\0\0" + query[12 : end + 5] + address, peer)


class Handler(Quiet):
    """A connection to the public proxy or to where it keeps its zips."""

    protocol_version = "HTTP/1.1"

    def do_GET(self):
        outside = self.server.outside
        length = int(self.headers.get("Content-Length") or 0)
        outside.asked.append((self.path, dict(self.headers), self.rfile.read(length)))
        how = next((how for begin, how in outside.how.items() if self.path.startswith(begin)), None)
        target = self.path.replace("%21", "!").partition("?")[0]
        found = outside.files.get(target)
        if how:
            how(self, found)
        elif target.startswith(DATABASE):
            self.reply(*outside.database_says(target.removeprefix(DATABASE)))
        elif found:
            self.reply(200, *found)
        else:
            self.reply(404, TEXT, f"not found: the public proxy has no {target}\n".encode())

    do_PUT = do_POST = do_HEAD = do_GET

    def head(self, status, *headers):
        self.send_response(status)
        for name, text in headers:
            self.send_header(name, text)
        self.end_headers()

    def reply(self, status, kind, body, *headers):
        self.head(status, ("Content-Type", kind), ("Content-Length", str(len(body))), *headers)
        self.wfile.write(body)


class Listener(http.server.ThreadingHTTPServer):
    """Takes connections over TLS. The thread of a connection does its handshake."""

    daemon_threads, request_queue_size = True, 128

    def __init__(self, outside, certificate, port):
        super().__init__(("127.0.0.1", port), Handler)
        self.outside, self.taken = outside, []
        self.context = ssl.SSLContext(ssl.PROTOCOL_TLS_SERVER)
        self.context.load_cert_chain(f"{outside.folder}/{certificate}.pem", f"{outside.folder}/{certificate}.key")
        self.context.sni_callback = lambda _, name, __: outside.names.append(name)
        threading.Thread(target=self.serve_forever, kwargs={"poll_interval": 0.05}, daemon=True).start()

    def get_request(self):
        raw, peer = super().get_request()
        self.taken.append(self.context.wrap_socket(raw, server_side=True, do_handshake_on_connect=False))
        return self.taken[-1], peer

    def stop(self):
        """Ends, and all connections with it."""
        self.shutdown()
        self.server_close()
        for it in self.taken:
            with contextlib.suppress(OSError):
                it.shutdown(socket.SHUT_RDWR)

    def handle_error(self, *_):
        pass


class Outside:
    """All that is outside. `files` is what it has, by targets; `how` is how it misbehaves, by beginnings of targets."""

    def __init__(self, folder):
        self.folder, self.files, self.how, self.servers = folder, {}, {}, {}
        self.asked, self.names = [], []
        os.makedirs(folder)
        env = {**os.environ, "PUBLIC": NAME, "STORE": STORE}
        subprocess.run(["sh", "-euc", CERTIFICATES], cwd=folder, env=env, check=True, capture_output=True)
        self.authority, self.sums = f"{folder}/root.pem", f"{folder}/sums"
        with open(self.sums, "w", encoding="utf-8"):
            pass
        self.start_database()
        self.name_server = NameServer()
        self.port, self.store_port = self.listen("public"), self.listen("store")

    def start_database(self):
        """Starts the checksum database."""
        program = f"{build_database().name}/checksums"
        quiet = {"stdout": subprocess.PIPE, "stderr": subprocess.DEVNULL, "text": True}
        self.database = subprocess.Popen([program, self.sums], **quiet)
        port, self.verifies = self.database.stdout.readline().split()
        self.database_port = int(port)

    def database_says(self, target):
        if target == "/supported":
            return 200, TEXT, b""
        conn = http.client.HTTPConnection("127.0.0.1", self.database_port, timeout=30)
        status, kind, body = fetched(conn, "GET", target)
        return status, kind or TEXT, body

    def listen(self, certificate, port=0):
        port, found = port or free_port(), []

        def listens():
            # (somebody may have the port for a moment)
            with contextlib.suppress(OSError):
                found.append(Listener(self, certificate, port))
            return found

        wait_until(listens)
        self.servers[port] = found[0]
        return port

    def stop(self, port):
        self.servers.pop(port).stop()

    def add(self, path, version, gomod=None, files=None, is_listed=True, is_true=True):
        """Has a version in public. The checksum database knows it, by another hash unless `is_true`."""
        gomod, zipped, sums = module(path, version, gomod, files)
        at, info = f"/{escaped(path)}", f'{{"Version":"{version}","Time":"{TIME}"}}'.encode()
        known = self.files.get(f"{at}/@v/list", (TEXT, b""))[1]
        file = f"{at}/@v/{escaped(version)}"
        self.files.update({f"{file}.info": (JSON, info), f"{file}.mod": (TEXT, gomod), f"{file}.zip": (ZIP, zipped)})
        self.files[f"{at}/@v/list"] = TEXT, known + (f"{version}\n".encode() if is_listed else b"")
        if is_listed:
            self.files[f"{at}/@latest"] = JSON, info
        with open(self.sums, "a", encoding="utf-8") as file:
            file.write(sums if is_true else sums.replace("h1:", "h1:AAAA"))

    def targets(self, since=0):
        """What it was asked."""
        return [target for target, _, _ in self.asked[since:]]

    def leaks(self, paths, since=0):
        """What it was asked that names one of these paths, read as generously as can be."""
        return [it for it in self.targets(since) if names_any(it, paths)]

    def close(self):
        for port in list(self.servers):
            self.stop(port)
        self.database.terminate()
        self.database.wait()


def names_any(target, paths):
    """Whether a target names one of these paths, in any case and with any escapes."""
    for _ in range(3):
        target = urllib.parse.unquote(target)
    plain = re.sub("/+", "/", target.lower().replace("!", ""))
    return any(re.search(rf"(^|/){re.escape(it.lower())}(/|@|$)", plain) for it in paths)
