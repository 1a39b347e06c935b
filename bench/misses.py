#!/usr/bin/env python3
"""A public module that nginx has not cached: what nginx adds to the public proxy's own time.

The company and its public proxy are those of lib/developers.py, by docs/NGINX.md, over TLS and with a login. The public
proxy takes --delay milliseconds (20) for an answer. It is asked itself and through nginx in turn, --count times (200)
each, by a client that keeps its connections, and so does nginx. Build the program first; it wants root, nginx, openssl
and go.
"""

import http.client
import http.server
import socket
import ssl
import statistics
import sys
import tempfile
import time

from shared import add_sizes, need, parser_of

from lib.developers import Developers
from lib.outside import NAME, Outside

# in one piece, so that no end waits for the other's acknowledgement
ANSWER = b"HTTP/1.1 200 OK\r\nContent-Type: text/plain\r\nContent-Length: 9\r\n\r\nmodule x\n"


def seconds_of(conn: http.client.HTTPConnection, target: str, headers: dict[str, str]) -> float:
    """How long an answer takes, which has to be a 200."""
    begun = time.perf_counter()
    conn.request("GET", target, headers=headers)
    reply = conn.getresponse()
    reply.read()
    if reply.status != 200:
        sys.exit(f"{target} gets {reply.status}")
    return time.perf_counter() - begun


def itself(outside: Outside) -> http.client.HTTPConnection:
    """A connection to the public proxy, by its name."""
    conn = http.client.HTTPConnection(NAME, outside.port)
    context = ssl.create_default_context(cafile=outside.authority)
    conn.sock = context.wrap_socket(socket.create_connection(("127.0.0.1", outside.port)), server_hostname=NAME)
    return conn


def measured(company: Developers, delay: float, count: int) -> list[list[float]]:
    """The milliseconds of each answer of the public proxy itself, and of each through nginx."""
    outside, client = company.outside, company.client

    def answer(handler: http.server.BaseHTTPRequestHandler, _: object) -> None:
        time.sleep(delay)
        handler.wfile.write(ANSWER)

    outside.how["/slow.example/"] = answer
    own = itself(outside)
    front = http.client.HTTPSConnection("localhost", company.machine.front, context=client.context)
    login = {"Authorization": client.login("ann")}
    direct, fronted = [], []
    for number in range(count + 1):
        target = f"/slow.example/m{number}/@v/v1.0.0.mod"
        direct.append(1000 * seconds_of(own, target, {}))
        fronted.append(1000 * seconds_of(front, target, login))
    # the first answer makes the connections
    return [direct[1:], fronted[1:]]


def main() -> None:
    parser = parser_of(__doc__)
    add_sizes(parser, ("delay", 20, "milliseconds of an answer"), ("count", 200, "answers of each"))
    sizes = parser.parse_args()
    need()
    with tempfile.TemporaryDirectory(prefix="goshelf-misses-") as folder:
        company = Developers(folder)
        try:
            times = measured(company, sizes.delay / 1000, sizes.count)
        finally:
            company.close()
    for name, millis in zip(("the public proxy itself", "through nginx"), times):
        print(f"{name}: {statistics.median(millis):.2f} ms ({min(millis):.2f} at least)")


if __name__ == "__main__":
    main()
