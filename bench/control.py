#!/usr/bin/env python3
"""What `serve --control` costs its peers and its operators.

It measures GETs with the socket and without, orders under load, a key revoked, a copy, a catalog. Build the program
first (`./goshelf --version`); cc is on the path. With --program FILE it measures that program. It prints a table for
bench/RESULTS.md, of six parts, or of those that --only names:

  gets      GETs a second of one `.mod` with `--control` beside those without, in turn, by a client in C, each on a
            connection of its own, and the server's processor time of one, which other processes on the machine hardly
            change
  orders    how long orders take while eight clients ask on and on: keys that are added and revoked, each on the disk
            before it is reported
  revoke    on a store of a million versions, made by sqlite3: how long a key's revocation takes while eight clients
            ask with it, and how many requests that began after `done` were answered 200, of which there may be none
  pings     on a store of 100,000 versions: the server's processor time of the first ping, which counts them, and of
            later ones
  copy      `copy --control` of a store of 1 GiB with zips of 1 MiB, and of one of 100,000 zips of 1 KiB: what it takes
            while nobody asks, and while eight clients ask on and on; how long their requests wait meanwhile, beside the
            same load without a copy; and the server's peak memory of both, started as the unit starts it. With
            --beside FILE in turn with that program
  catalog   `catalog --control` of a store of 2,000 paths with 10 versions each, beside `inventory --db` less what the
            opening takes: the seconds of all processors, while nobody asks, and the command's peak memory; and what it
            takes while eight clients ask on and on, and how long their requests wait meanwhile, beside the same load
            without a catalog

STORES names the folder of the stores, 6 GiB for all parts.
"""

import argparse
import os
import re
import shutil
import socket
import sqlite3
import statistics
import subprocess
import sys
import tempfile
import time
from collections.abc import Callable, Sequence

import lists
import store
from memory import SETTING
from serve import client_in, fetched, started, stopped
from shared import MIB, add_program, add_sizes, file_named, head, need, parser_of, remove_stores
from store import KEY, middle

PARTS = ("gets", "orders", "revoke", "pings", "copy", "catalog")
# seconds of load around a revocation
BEFORE, AFTER = 0.5, 1.5
# seconds of load without a copy, and the longest that a copy may take under load
PLAIN, LONGEST = 5, 300
# when a request began, when it was answered, and its status
Outcome = tuple[float, float, int]
# what is measured, and the figures
Rows = list[tuple[str, str]]


class Server:
    """A `serve` with a socket for operators."""

    def __init__(self, program: str, file: str, control: str, setting: dict[str, str] | None = None) -> None:
        self.program, self.control = program, control
        self.child, self.port = started(program, file, "--control", control, setting=setting)

    def ask(self, line: str) -> bytes:
        """Sends a line, and returns the reply."""
        with socket.socket(socket.AF_UNIX) as held:
            held.connect(self.control)
            held.sendall(f"{line}\n".encode())
            return b"".join(iter(lambda: held.recv(1_000), b""))

    def order(self, line: str) -> tuple[float, float]:
        """Gives an order, which has to be done. Returns when it was sent and when the reply had come."""
        begun = time.monotonic()
        reply = self.ask(line)
        ended = time.monotonic()
        if reply != b"done\n":
            sys.exit(f"{line} gets {reply!r}")
        return begun, ended

    def pinged(self, versions: int) -> float:
        """The microseconds of processor time that a ping takes, which has to report this many versions."""
        before = used(self.child)
        reply = self.ask("ping")
        if f" versions={versions} ".encode() not in reply:
            sys.exit(f"ping gets {reply!r}")
        return used(self.child) - before

    def copied(self, to: str) -> tuple[float, float]:
        """Has its store copied. Returns when the command began and when it had ended."""
        begun = time.monotonic()
        subprocess.run([self.program, "copy", "--control", self.control, "--to", to], check=True)
        return begun, time.monotonic()

    def printed(self) -> tuple[float, float, float, float, int]:
        """Has a catalog printed. Returns when the command began and when it had ended, the seconds of all processors
        that it took, its own too, its peak in MiB, and its bytes."""
        before, begun = used(self.child), time.monotonic()
        own, peak, size = lists.run(self.program, ["catalog", "--control", self.control, "--key", KEY], b"")
        return begun, time.monotonic(), own + (used(self.child) - before) / 1e6, peak, size

    def forget_peak(self) -> None:
        with open(f"/proc/{self.child.pid}/clear_refs", "w", encoding="ascii") as file:
            file.write("5")

    def peak(self) -> float:
        """The most MiB that it has held since `forget_peak`."""
        with open(f"/proc/{self.child.pid}/status", encoding="ascii") as file:
            return int(re.findall(r"VmHWM:\s+(\d+)", file.read())[0]) / 1024

    def stop(self) -> None:
        stopped(self.child)


class Load:
    """Clients who ask for some targets on and on, for some seconds."""

    def __init__(self, client: str, port: int, targets: list[str], lanes: int, seconds: float) -> None:
        words = [client, str(port), str(lanes), str(seconds)]
        self.child = subprocess.Popen(words, stdin=subprocess.PIPE, stdout=subprocess.PIPE, text=True)
        assert self.child.stdin
        self.child.stdin.write("\n".join(targets))
        self.child.stdin.close()

    def end(self) -> None:
        self.child.terminate()

    def outcomes(self) -> list[Outcome]:
        """The outcome of each request."""
        assert self.child.stdout
        rows = [line.split() for line in self.child.stdout.read().splitlines()]
        if self.child.wait():
            sys.exit("the clients failed")
        return [(float(begun), float(ended), int(status)) for begun, ended, status in rows]


def mod(n: int, key: str = KEY) -> str:
    """The target of the .mod of the nth version of a store."""
    path, version = store.place(n)
    return f"/k/{key}/{path}/@v/{version}.mod"


def in_order(values: Sequence[float], share: float) -> float:
    return sorted(values)[min(len(values) - 1, int(share * len(values)))]


def used(child: subprocess.Popen) -> float:
    """Microseconds of processor time that a process has used."""
    with open(f"/proc/{child.pid}/schedstat", encoding="ascii") as file:
        return int(file.read().split()[0]) / 1_000


def got(words: argparse.Namespace, client: str, child: subprocess.Popen, port: int, lanes: int) -> tuple[float, float]:
    """GETs a second of a server, and the microseconds of its processor time that one takes."""
    before = used(child)
    seconds, _ = fetched(client, port, [mod(0)] * words.gets, lanes)
    return words.gets / seconds, (used(child) - before) / words.gets


def gets(words: argparse.Namespace, folder: str, client: str) -> Rows:
    """GETs with the socket beside those without, as rows of the table."""
    files = [os.path.join(folder, f"{name}.db") for name in ("with", "without")]
    for file in files:
        store.filled(file, 1)
    server, plain = Server(words.program, files[0], f"{folder}/control"), started(words.program, files[1])
    both, rows = [(server.child, server.port), plain], []
    for lanes in (1, 8):
        took: tuple[list[tuple[float, float]], list[tuple[float, float]]] = [], []
        for number in range(words.rounds):
            # by turns the one and the other first
            for at in (number % 2, 1 - number % 2):
                took[at].append(got(words, client, *both[at], lanes))
        rates, micros = ([[turn[at] for turn in turns] for turns in took] for at in (0, 1))
        text = beside(rates[0], rates[1], ",.0f", " a second") + " without; "
        text += beside(micros[0], micros[1], ".1f", " µs of the server's processor")
        rows.append((f"GETs of a `.mod` with `--control`, {clients(lanes)}", text))
    server.stop()
    stopped(plain[0])
    return rows


def beside(ours: Sequence[float], theirs: Sequence[float], form: str, unit: str) -> str:
    """The medians of two kinds of turns, and that of their ratios turn by turn."""
    ratio = statistics.median(one / other for one, other in zip(ours, theirs))
    return f"{statistics.median(ours):{form}}{unit}, {ratio:.2f} times the {statistics.median(theirs):{form}}"


def clients(count: int) -> str:
    return "one client" if count == 1 else f"{count} clients"


def orders(words: argparse.Namespace, folder: str, client: str) -> Rows:
    """How long orders take under load."""
    file = os.path.join(folder, "orders.db")
    store.filled(file, 100)
    server, took = Server(words.program, file, f"{folder}/control"), []
    keys = [f"key{number:013}" for number in range((words.orders + 1) // 2)]
    lines = [*(f"reader-add alpha {key}" for key in keys), *(f"key-revoke {key}" for key in keys)][: words.orders]
    # longer than the orders take; the rest is cut off
    load = Load(client, server.port, [mod(n) for n in range(100)], words.clients, 5 + words.orders / 5)
    time.sleep(BEFORE)
    for line in lines:
        begun, ended = server.order(line)
        took.append(1000 * (ended - begun))
        time.sleep(0.005)
    if load.child.poll() is not None:
        sys.exit("the load ended before the orders did")
    load.child.kill()
    load.child.wait()
    server.stop()
    figures = (
        f"{statistics.median(took):.1f} ms in the median, {in_order(took, 0.99):.1f} at 99 %, {max(took):.1f} at most"
    )
    return [(f"an order while {clients(words.clients)} ask, of {len(took)}", figures)]


def revoke(words: argparse.Namespace, folder: str, client: str) -> Rows:
    """How long a key's revocation takes on a large store, and whether a later request was answered 200."""
    file = os.path.join(folder, "large.db")
    store.filled(file, words.versions)
    begun = time.monotonic()
    server = Server(words.program, file, f"{folder}/control")
    took: list[float] = []
    late: list[int] = []
    opened = time.monotonic() - begun
    for number in range(words.rounds):
        key = f"revoked{number:09}"
        server.order(f"reader-add alpha {key}")
        targets = [mod(n * 7919 % words.versions, key) for n in range(10_000)]
        load = Load(client, server.port, targets, words.clients, BEFORE + AFTER)
        time.sleep(BEFORE)
        begun, ended = server.order(f"key-revoke {key}")
        took.append(1000 * (ended - begun))
        outcomes = load.outcomes()
        late += [status for at, _, status in outcomes if at > ended]
        early = [status for _, at, status in outcomes if at < begun]
        if {*early} != {200} or not late:
            sys.exit(
                f"{len(late)} requests began after a revocation, and those before were answered {sorted({*early})}"
            )
    server.stop()
    remove_stores(file)
    name = (
        f"a key is revoked on {words.versions:,} versions ({opened:.0f} s to open) while {clients(words.clients)} ask"
    )
    text = f"{middle(took, '.1f', ' ms')}; of {len(late):,} requests after `done`, {late.count(200)} are answered 200"
    return [(name, text)]


def pings(words: argparse.Namespace, folder: str, client: str) -> Rows:
    """What pings of a large store take: the first, and those behind it."""
    file = os.path.join(folder, "pinged.db")
    store.filled(file, words.pinged)
    server = Server(words.program, file, f"{folder}/control")
    first = server.pinged(words.pinged)
    later = [server.pinged(words.pinged) for _ in range(words.rounds)]
    server.stop()
    remove_stores(file)
    text = f"{first / 1000:.1f} ms of the server's processor; each later one {middle(later, '.0f', ' µs')}"
    return [(f"the first ping of {words.pinged:,} versions", text)]


class Copies:
    """What the copies of a program took: the seconds where nobody asked, those of the processor then, and the seconds
    under load; what the requests of the load waited with a copy and without, and the server's MiB of both."""

    def __init__(self, program: str, whole: str, file: str) -> None:
        shutil.copyfile(whole, file)
        self.server, self.file, self.to = Server(program, file, f"{file}-control", SETTING), file, f"{file}-copy"
        self.alone: list[float] = []
        self.used: list[float] = []
        self.loaded: list[float] = []
        self.waits: list[float] = []
        self.plain: list[float] = []
        self.peaks: list[float] = []
        self.plain_peaks: list[float] = []

    def turn(self, whole: str, load: Callable[[float, int], Load]) -> None:
        """A load without a copy, a copy without a load, and both."""
        self.server.forget_peak()
        plain = load(PLAIN, self.server.port)
        self.plain += waits_of(plain.outcomes())
        self.plain_peaks.append(self.server.peak())
        before = used(self.server.child)
        begun, ended = self.server.copied(self.to)
        self.alone.append(ended - begun)
        self.used.append((used(self.server.child) - before) / 1e6)
        self.check(whole)
        both = load(BEFORE + LONGEST, self.server.port)
        time.sleep(BEFORE)
        begun, ended = self.server.copied(self.to)
        if both.child.poll() is not None:
            sys.exit("the load ended before the copy did")
        both.end()
        self.waits += waits_of(both.outcomes(), begun, ended)
        self.loaded.append(ended - begun)
        self.peaks.append(self.server.peak())
        self.check(whole)

    def check(self, whole: str) -> None:
        if contents(self.to) != contents(whole):
            sys.exit("the copy is not as the store")
        remove_stores(self.to)

    def stop(self) -> None:
        self.server.stop()
        remove_stores(self.file)


def waits_of(outcomes: list[Outcome], begun: float = 0, ended: float = float("inf")) -> list[float]:
    """The milliseconds that requests waited, of those that were underway between two moments."""
    meanwhile = [outcome for outcome in outcomes if outcome[0] < ended and outcome[1] > begun]
    if {status for _, _, status in meanwhile} != {200}:
        sys.exit("a request is answered otherwise than by 200")
    return [1000 * (end - start) for start, end, _ in meanwhile]


def copy(words: argparse.Namespace, folder: str, client: str) -> Rows:
    """Copies of a store of large zips and of one of many small ones, as rows of the table."""
    rows = []
    for count, length, unit in ((words.mib, MIB, "1 MiB"), (words.small, 1024, "1 KiB")):
        whole = os.path.join(folder, "whole.db")
        filled(whole, count, length)
        targets = [mod(n * 7919 % count) for n in range(10_000)]
        load = lambda seconds, port: Load(client, port, targets, words.clients, seconds)
        programs = [words.program, *([words.beside] if words.beside else [])]
        sides = [Copies(program, whole, os.path.join(folder, f"served{at}.db")) for at, program in enumerate(programs)]
        for number in range(words.copies):
            # by turns the one and the other first
            for side in sides if number % 2 == 0 else sides[::-1]:
                side.turn(whole, load)
        size = f"{os.path.getsize(whole) / MIB:,.0f} MiB, {count:,} zips of {unit}"
        rows += copied(size, clients(words.clients), sides)
        for side in sides:
            side.stop()
        remove_stores(whole)
    return rows


def copied(size: str, asking: str, sides: list[Copies]) -> Rows:
    """The rows of the table on a store, by the program and perhaps by another beside it."""
    name, ours, theirs = f"`copy` of {size}", sides[0], sides[1] if sides[1:] else None
    alone, used_alone = (theirs.alone, theirs.used) if theirs else (None, None)
    rows = [
        (f"{name}, nobody asks", times(ours.alone, alone)),
        (f"{name}, of the processor of `serve`", times(ours.used, used_alone)),
        (f"{name}, while {asking} ask", times(ours.loaded, alone)),
    ]
    for whose, side in (("", ours), (", the program beside", theirs)):
        if side:
            rows += [
                (f"{name}, a request meanwhile{whose}", f"{late(side.waits)}; without a copy {late(side.plain)}"),
                (f"{name}, the peak of `serve`{whose}", peaks_of(side)),
            ]
    return rows


def peaks_of(side: Copies) -> str:
    first, last = side.plain_peaks[0], side.plain_peaks[-1]
    return f"{max(side.peaks):,.1f} MiB; {first:,.1f} by the load before the first copy, {last:,.1f} before the last"


def times(took: list[float], theirs: list[float] | None) -> str:
    """Some seconds, beside those of the other program where nobody asks, if there is one."""
    if not theirs:
        return middle(took, unit=" s")
    ratio = statistics.median(took) / statistics.median(theirs)
    return f"{middle(took, unit=' s')}, {ratio:.2f} times the {statistics.median(theirs):.2f} of the program beside"


def late(waits: Sequence[float]) -> str:
    return f"{in_order(waits, 0.999):.1f} ms at 99.9 %, {max(waits):,.1f} at most, of {len(waits):,}"


def catalog(words: argparse.Namespace, folder: str, client: str) -> Rows:
    """Catalogs of a served store, beside inventories of its file, as rows of the table."""
    file = os.path.join(folder, "listed.db")
    lists.filled(file, words.paths, words.each, 1024, words.requires)
    opening, inventory = (
        [lists.run(words.program, command, b"")[0] for _ in range(words.rounds)]
        for command in (["answer", "--db", file], ["inventory", "--db", file, "--key", KEY])
    )
    server = Server(words.program, file, f"{folder}/control")
    targets = [f"/k/{KEY}/example.com/team/module{n * 7 % words.paths}/@v/v1.0.0.mod" for n in range(words.paths)]
    alone = [server.printed() for _ in range(words.rounds)]
    plain = waits_of(Load(client, server.port, targets, words.clients, PLAIN).outcomes())
    waits: list[float] = []
    loaded: list[float] = []
    for _ in range(words.copies):
        load = Load(client, server.port, targets, words.clients, BEFORE + LONGEST)
        time.sleep(BEFORE)
        begun, ended, _, _, size = server.printed()
        if load.child.poll() is not None or size != alone[0][4]:
            sys.exit("the load ended before the catalog did, or the catalog is not whole")
        load.end()
        waits += waits_of(load.outcomes(), begun, ended)
        loaded.append(ended - begun)
    server.stop()
    remove_stores(file)
    less = statistics.median(inventory) - statistics.median(opening)
    mine, peak = [seconds for _, _, seconds, _, _ in alone], max(most for _, _, _, most, _ in alone)
    name = f"`catalog --control` of {words.paths:,} paths with {words.each} versions each"
    ratio = f"{middle(mine)}, {statistics.median(mine) / less:.2f} times the {less:.2f} of `inventory --db`"
    return [
        (f"{name}, nobody asks, all processors", f"{ratio} beside its opening of {statistics.median(opening):.2f}"),
        (f"{name}, nobody asks", middle([ended - begun for begun, ended, _, _, _ in alone])),
        (f"{name}, the command's peak", f"{peak:.0f} MiB for lines of {alone[0][4] / 1_048_576:.1f} MiB"),
        (f"{name}, while {clients(words.clients)} ask", middle(loaded)),
        (f"{name}, a request meanwhile", f"{late(waits)}; without a catalog {late(plain)}"),
    ]


def filled(file: str, count: int, length: int) -> None:
    """A store with this many zips of this length."""
    conn = store.made(file)
    conn.execute("BEGIN")
    for n in range(count):
        store.insert(conn, n, length)
    conn.execute("COMMIT")
    conn.close()


def contents(file: str) -> list[tuple[int, ...]]:
    """How many rows each table has, and the bytes of the zips."""
    conn = sqlite3.connect(file)
    counts = [conn.execute(f"SELECT COUNT(*) FROM {name}").fetchone() for name in ("shelf", "access", "version")]
    counts.append(conn.execute("SELECT COUNT(*), SUM(LENGTH(bytes)) FROM piece").fetchone())
    conn.close()
    return counts


def table(rows: Rows) -> str:
    lines = [("what", "figure", "program", "command"), ("---",) * 4]
    lines += [(what, figure, f"`{head()}`", "`bench/control.py`") for what, figure in rows]
    return "\n".join(f"| {' | '.join(line)} |" for line in lines)


def parts_named(names: str) -> list[str]:
    """Returns the parts that a list names, or refuses it."""
    parts = names.split(",")
    if not set(parts) <= {*PARTS}:
        raise argparse.ArgumentTypeError(f"the parts are {', '.join(PARTS)}")
    return parts


def options() -> argparse.Namespace:
    parser = parser_of(__doc__)
    add_program(parser)
    parser.add_argument(
        "--beside", help="another program, whose copies are made in turn", metavar="FILE", type=file_named
    )
    parser.add_argument(
        "--only", help=f"parts, of {','.join(PARTS)}", default=[*PARTS], metavar="PARTS", type=parts_named
    )
    add_sizes(
        parser,
        ("rounds", 9, "turns of gets, and revocations"),
        ("gets", 20_000, "GETs of a turn"),
        ("orders", 200, "orders under load"),
        ("clients", 8, "clients at once"),
        ("versions", 1_000_000, "versions of the store where keys are revoked"),
        ("pinged", 100_000, "versions of the store that is pinged"),
        ("mib", 1_024, "zips of 1 MiB in the first store that is copied"),
        ("small", 100_000, "zips of 1 KiB in the second"),
        ("copies", 5, "turns of the copies, and of the catalogs under load"),
        ("paths", 2_000, "paths of the store whose catalog is printed"),
        ("each", 10, "versions of each of them"),
        ("requires", 0, "requirements of each of their go.mods"),
    )
    return parser.parse_args()


def main() -> None:
    words = options()
    need(words.program)
    rows: Rows = []
    with tempfile.TemporaryDirectory(prefix="goshelf-control-", dir=os.environ.get("STORES")) as folder:
        client = client_in(folder)
        for name in words.only:
            begun = time.monotonic()
            rows += dict(zip(PARTS, (gets, orders, revoke, pings, copy, catalog)))[name](words, folder, client)
            print(f"{name}: {time.monotonic() - begun:.0f} s", file=sys.stderr, flush=True)
    print(table(rows))


if __name__ == "__main__":
    main()
