#!/usr/bin/env python3
"""Processor time of nginx for a request, by the files of several fronts in turn, such as those of two commits.

Each folder that is named is a deploy/nginx: of the front whose passwords are keys, or of the one before it, which had
users.map. One worker of nginx for each, without TLS and limits, is asked by one connection, so many times a round.
Prints the least and the median of the rounds, and the median of how many times the first folder's a round took. Other
work on the machine adds to all alike.

    git worktree add /tmp/old ee9d2b1e && python3 bench/front.py /tmp/old/deploy/nginx deploy/nginx
"""

import argparse
import base64
import hashlib
import json
import os
import re
import socket
import statistics
import subprocess
import sys
import tempfile

from company import read, workers_of
from company_public import free_port
from shared import ROOT, add_sizes, need

from lib.ports import wait_for
from lib.servers import Server
from lib.stores import new_store

KEY = hashlib.sha256(b"a key").hexdigest()[:32]
AT = "/example.com/alpha/core/@v"
GOMOD = b"module example.com/alpha/core\n"
ASKED = {
    "a .mod of ours, cached": f"{AT}/v1.0.0.mod",
    "a list of ours, by goshelf": f"{AT}/list",
    "a 404 of ours, by goshelf": f"{AT}/v1.9.9.mod",
    "a login": "/login",
}
NGINX = """
load_module /usr/lib/nginx/modules/ngx_http_js_module.so;
load_module /usr/lib/nginx/modules/ngx_stream_module.so;
daemon off; pcre_jit on; worker_processes 1; pid {0}/pid; error_log {0}/errors crit;
events {{ worker_connections 1024; }}
http {{
    client_body_temp_path {0}/body; proxy_temp_path {0}/proxy; fastcgi_temp_path {0}/fastcgi;
    uwsgi_temp_path {0}/uwsgi; scgi_temp_path {0}/scgi; keepalive_requests 1000000;
    include {0}/goshelf.conf;
}}
"""


def logged_in(user):
    return base64.b64encode(f"{user}:{KEY}".encode()).decode()


def settings():
    """Who may log in, in the files of both fronts."""
    digest = hashlib.sha256(KEY.encode()).hexdigest()
    user = {"name": "ann", "shelf": "alpha", "right": "read", "sha256": digest}
    told = {"serial": 1, "generation": 1, "deepest": 2, "owners": {"example.com": [], "example.com/alpha": ["alpha"]}}
    login = logged_in("ann")
    return {
        "goshelf.json": json.dumps({**told, "users": {digest[:16]: user}}),
        "users.map": f'"Basic {login}" "{login} ann alpha read";\n',
        "keys.map": f'"alpha read" {KEY};\n',
        "paths.map": '"example.com" "-";\n"example.com/alpha" "alpha";\n',
    }


def spent(process):
    """Nanoseconds of a processor that a process has used."""
    return int(read(f"/proc/{process}/schedstat").split()[0])


class Front:
    """nginx by the files of a folder."""

    def __init__(self, folder, behind):
        self.folder, self.listens = tempfile.mkdtemp(prefix="goshelf-front-"), free_port()
        for it in ("cache", "cache-public"):
            os.makedirs(f"{self.folder}/{it}")
            os.chmod(f"{self.folder}/{it}", 0o777)
        os.chmod(self.folder, 0o777)
        texts = {it: self.placed(read(os.path.join(folder, it)), behind) for it in os.listdir(folder)}
        texts = {**texts, **settings(), "nginx.conf": NGINX.format(self.folder)}
        for name, text in texts.items():
            with open(f"{self.folder}/{name}", "w", encoding="utf-8") as file:
                file.write(text)
        self.child = subprocess.Popen(["nginx", "-c", f"{self.folder}/nginx.conf", "-e", f"{self.folder}/start"])
        wait_for(self.listens)

    def placed(self, text, behind):
        """A file with its places below the folder, without TLS and limits."""
        text = "\n".join(it for it in text.split("\n") if not re.match(r"\s*(ssl_|limit_)", it))
        text = re.sub(r"/etc/nginx/goshelf/|/var/log/(?:nginx|goshelf)/", f"{self.folder}/", text)
        text = text.replace("/var/cache/nginx/goshelf", f"{self.folder}/cache").replace("127.0.0.1:8080", behind)
        text = text.replace("listen 443 ssl;", f"listen 127.0.0.1:{self.listens};")
        text = text.replace("server proxy.golang.org:443;", "server 127.0.0.1:9;")
        return re.sub(r"listen (?:127.0.0.1:\d+|80);", self.elsewhere, text)

    def elsewhere(self, found):
        own = found[0] == f"listen 127.0.0.1:{self.listens};"
        return found[0] if own else f"listen 127.0.0.1:{free_port()};"

    def ask(self, target, count):
        """Microseconds of the worker for each of so many requests."""
        lines = (
            f"GET {target} HTTP/1.1",
            "Host: shelf.example.com",
            f"Authorization: Basic {logged_in('ann')}",
            "",
            "",
        )
        head = "\r\n".join(lines).encode()
        # (nginx ends a connection on which nothing is asked for ten seconds)
        with socket.create_connection(("127.0.0.1", self.listens)) as held:
            held.sendall(head)
            first = held.recv(65_536)
            [worker] = workers_of(self.child)
            before = spent(worker)
            for _ in range(count):
                held.sendall(head)
                told = held.recv(65_536)
                if told[:12] != first[:12]:
                    sys.exit(f"{target}: {told[:200]}")
            return first.split(b" ")[1].decode(), (spent(worker) - before) / count / 1000

    def stop(self):
        self.child.terminate()
        self.child.wait()


def measured(sizes, folders, server):
    """Asks each front in turn, and prints a line for each kind of request and each front."""
    if server.put(KEY, "example.com/alpha/core", "v1.0.0", GOMOD, b"")[0] != 201:
        sys.exit("nothing was published")
    fronts = [Front(it, f"127.0.0.1:{server.port}") for it in folders]
    try:
        for name, target in ASKED.items():
            rounds = [[it.ask(target, sizes.count) for it in fronts] for _ in range(sizes.rounds)]
            for at, folder in enumerate(folders):
                took = [row[at][1] for row in rounds]
                times = statistics.median(row[at][1] / row[0][1] for row in rounds)
                told = f"{min(took):.1f} µs, median {statistics.median(took):.1f}, {times:.2f} times"
                print(f"{name} ({rounds[0][at][0]}), {folder}: {told}", flush=True)
    finally:
        for it in fronts:
            it.stop()


def main():
    parser = argparse.ArgumentParser(description=__doc__, formatter_class=argparse.RawDescriptionHelpFormatter)
    add_sizes(parser, ("rounds", 9, "rounds"), ("count", 4_000, "requests of a round"))
    parser.add_argument("folders", nargs="*", default=[os.path.join(ROOT, "deploy", "nginx")])
    sizes = parser.parse_args()
    need()
    with tempfile.TemporaryDirectory(prefix="goshelf-front-") as folder:
        store = os.path.join(folder, "shelves.db")
        new_store(store, ("alpha", KEY))
        server = Server(store)
        try:
            measured(sizes, sizes.folders, server)
        finally:
            server.stop()


if __name__ == "__main__":
    main()
