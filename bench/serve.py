#!/usr/bin/env python3
"""Requests a second of `goshelf serve`, in turn with nginx over the same bytes as files; `bench/zips.py` has the zips.

Build the program first (`./goshelf --version`); nginx and cc are on the path. With --program FILE it measures that
program. nginx has one worker, and each request a connection of its own, as it has with `serve`, by a client in C so
that it is no bottleneck: its part of the processor stands behind each figure. `list` and `@latest` are asked of one
path again and again, and of 2,000 paths in turn, all asked before. --rounds N makes N turns (9); with --quick there are
a tenth of the requests.
"""

import argparse
import http.client
import os
import shutil
import statistics
import subprocess
import sys
import tempfile
import time
from collections.abc import Iterator

import store
from shared import ROOT, add_program, add_quick, add_sizes, need, parser_of
from store import KEY, middle

from lib.ports import free_port, wait_for

AT = f"/k/{KEY}/example.com/lib/@v/v1.0.0"
GOMOD = b"module example.com/lib\n"
ZIP = bytes(range(256)) * 65_536
INFO = b'{"Time":"2024-01-31T12:00:00Z","Version":"v1.0.0"}'
# the paths whose lists are asked for, and the versions of each
PATHS, VERSIONS = 2_000, 10
CONFIG = """
daemon off; worker_processes 1; pid {folder}/pid; error_log {folder}/errors;
events {{ worker_connections 64; }}
http {{
    access_log off; client_body_temp_path {folder}/body; proxy_temp_path {folder}/proxy;
    fastcgi_temp_path {folder}/fastcgi; uwsgi_temp_path {folder}/uwsgi; scgi_temp_path {folder}/scgi;
    sendfile on; tcp_nopush on; types {{ }} default_type application/octet-stream;
    server {{ listen 127.0.0.1:{port}; root {folder}/files; }}
}}
"""


def ask(
    port: int, method: str, target: str, body: bytes | None = None, headers: dict[str, str] | None = None
) -> tuple[int, bytes]:
    """The status and the body of a reply."""
    conn = http.client.HTTPConnection("127.0.0.1", port, timeout=60)
    conn.request(method, target, body, headers or {})
    reply = conn.getresponse()
    return reply.status, reply.read()


def started(
    program: str, store: str, *more: str, setting: dict[str, str] | None = None
) -> tuple[subprocess.Popen, int]:
    """`serve` over a store, with these settings of the C library, and its port."""
    words = [program, "serve", "--db", store, "--port", "0", *more]
    child = subprocess.Popen(words, stdout=subprocess.PIPE, text=True, env={**os.environ, **(setting or {})})
    assert child.stdout
    return child, int(child.stdout.readline().rsplit(":", 1)[1])


def stopped(child: subprocess.Popen) -> None:
    child.terminate()
    child.wait()


def start_nginx(folder: str) -> tuple[subprocess.Popen, int]:
    """nginx over the files of a folder, and its port."""
    for parent, _, _ in os.walk(folder):
        os.chmod(parent, 0o755)
    port = free_port()
    with open(os.path.join(folder, "nginx.conf"), "w", encoding="utf-8") as file:
        file.write(CONFIG.format(folder=folder, port=port))
    child = subprocess.Popen(
        [shutil.which("nginx") or "/usr/sbin/nginx", "-c", f"{folder}/nginx.conf", "-e", f"{folder}/errors"]
    )
    try:
        wait_for(port)
    except TimeoutError:
        sys.exit("nginx does not start")
    return child, port


def start_goshelf(program: str, folder: str) -> tuple[subprocess.Popen, int]:
    """The program over a store with the version and the paths, and its port."""
    file = os.path.join(folder, "shelves.db")
    conn = store.made(file)
    conn.execute("BEGIN")
    for n in range(PATHS):
        for version in (f"v1.0.{at}" for at in range(VERSIONS)):
            store.put_version(conn, "alpha", path_of(n), version, store.gomod(path_of(n)))
    conn.execute("COMMIT")
    conn.close()
    child, port = started(program, file)
    headers = {"Mod-Length": str(len(GOMOD)), "Version-Time": "2024-01-31T12:00:00Z"}
    begun = time.monotonic()
    status, _ = ask(port, "PUT", AT, GOMOD + ZIP, headers)
    print(f"a publish of 16 MiB: {time.monotonic() - begun:.2f} s")
    if status != 201:
        sys.exit(f"the publish was answered {status}")
    return child, port


def path_of(n: int) -> str:
    return f"example.com/path{n}"


def lists(end: str) -> list[str]:
    """The targets of the paths that end so."""
    return [f"/k/{KEY}/{path_of(n)}/{end}" for n in range(PATHS)]


def write_files(folder: str, port: int) -> dict[str, bytes]:
    """The files of nginx: those of the version, and the lists as goshelf answers them."""
    files = {f"{AT}.{kind}": content for kind, content in (("mod", GOMOD), ("info", INFO), ("zip", ZIP))}
    for target in lists("@v/list") + lists("@latest"):
        status, files[target] = ask(port, "GET", target)
        if status != 200:
            sys.exit(f"{target} is answered {status}")
    for target, content in files.items():
        name = f"{folder}/files{target}"
        os.makedirs(os.path.dirname(name), exist_ok=True)
        with open(name, "wb") as file:
            file.write(content)
    return files


def resident(child: subprocess.Popen) -> tuple[float, ...]:
    """MiB of memory of a process, now and at the most."""
    with open(f"/proc/{child.pid}/status", encoding="ascii") as file:
        fields = dict(line.split(":", 1) for line in file)
    return tuple(int(fields[name].split()[0]) / 1024 for name in ("VmRSS", "VmHWM"))


def client_in(folder: str) -> str:
    """The client, compiled."""
    client = os.path.join(folder, "client")
    source = os.path.join(ROOT, "bench", "client.c")
    subprocess.run(["cc", "-O2", "-D_GNU_SOURCE", "-pthread", "-o", client, source], check=True)
    return client


def fetched(client: str, port: int, targets: list[str], lanes: int = 1) -> tuple[float, float]:
    """The seconds in which each target is answered 200, and the client's seconds of processor time."""
    words = [client, str(port), str(lanes)]
    ran = subprocess.run(words, input="\n".join(targets), capture_output=True, text=True, check=False)
    if ran.returncode:
        sys.exit(f"the client failed: {ran.stderr}")
    seconds, _, own = map(float, ran.stdout.split())
    return seconds, own


def compare(client: str, ports: tuple[int, int], name: str, targets: list[str], lanes: int, rounds: int) -> None:
    """Prints the medians of rounds in turn, with the least and the most of each."""
    turns = [[fetched(client, port, targets, lanes) for port in ports] for _ in range(rounds)]
    ours, theirs = ([len(targets) / turn[at][0] for turn in turns] for at in (0, 1))
    ratio = statistics.median(one / other for one, other in zip(ours, theirs))
    busy = statistics.median(own / seconds for turn in turns for seconds, own in turn)
    print(
        (
            f"{name}, {lanes} at once: goshelf {middle(ours, ',.1f')} a second, nginx {middle(theirs, ',.1f')}:"
            f" {ratio:.2f} times; client busy {busy:.0%}"
        ),
        flush=True,
    )


def questions(scale: int) -> Iterator[tuple[str, list[str]]]:
    """Of each kind its name and the targets of a round."""
    count = 20_000 // scale
    for kind in ("mod", "info"):
        yield f".{kind}", [f"{AT}.{kind}"] * count
    for name, end in (("list", "@v/list"), ("@latest", "@latest")):
        yield f"`{name}` of {VERSIONS} versions", lists(end)[:1] * count
        yield f"`{name}`, {PATHS:,} paths in turn", (lists(end) * (count // PATHS + 1))[: max(count, PATHS)]
    yield ".zip of 16 MiB", [f"{AT}.zip"] * max(1, 100 // scale)


def options() -> argparse.Namespace:
    parser = parser_of(__doc__)
    add_program(parser)
    add_sizes(parser, ("rounds", 9, "turns"))
    add_quick(parser)
    return parser.parse_args()


def main() -> None:
    words = options()
    need(words.program)
    with tempfile.TemporaryDirectory(prefix="goshelf-serve-") as folder:
        client = client_in(folder)
        ours, our_port = start_goshelf(words.program, folder)
        files = write_files(folder, our_port)
        theirs, their_port = start_nginx(folder)
        try:
            for target, content in files.items():
                if [ask(port, "GET", target) for port in (our_port, their_port)] != 2 * [(200, content)]:
                    sys.exit(f"the bytes of {target} differ")
            for name, targets in questions(words.scale):
                for lanes in (1, 8):
                    compare(client, (our_port, their_port), name, targets, lanes, words.rounds)
            print(
                "memory of goshelf: {:.0f} MiB, {:.0f} at the most; of nginx's first process: {:.0f} MiB".format(
                    *resident(ours), resident(theirs)[0]
                )
            )
        finally:
            stopped(ours)
            stopped(theirs)


if __name__ == "__main__":
    main()
