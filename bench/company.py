#!/usr/bin/env python3
"""A synthetic company asks as the go command does: answers and builds a second, processor time of a build (goshelf and
nginx) and of an answer at each hop, and latencies.

One goshelf is asked alone, and then 1, 2 and 4 of them behind nginx by tools/shards and deploy/nginx (without TLS), the
teams shared out among them, without and with nginx's cache. Each is asked three times: with publishes and an empty
cache, where every answer is compared with that of the one goshelf; by other builds, as fast as it answers; and at
--load of that rate, in bursts, for the latencies. Build the program first (`./goshelf --version`); nginx and a C
compiler are on the path (Debian: nginx-light, libnginx-mod-http-js, libnginx-mod-stream, gcc).

With --public 95, 95 of 100 requests of a build are for public modules, and each deployment behind a cache is asked in
three ways: goshelf answers 404 and the public proxy stands behind in GOPROXY; nginx answers that 404 itself; or nginx
is the one URL. The public proxy is an nginx of its own on this machine, which company_public.py makes.
"""

import argparse
import base64
import hashlib
import json
import os
import random
import re
import shutil
import struct
import subprocess
import sys
import tempfile
from collections import Counter
from collections.abc import Iterable
from typing import Any

from company_plan import Asked, Company, Plan
from company_plot import plot
from company_public import BEHIND, ONE, SECOND, WAYS, Outside, files, free_port
from shared import PROGRAM, ROOT, add_sizes, need, parser_of, read

from lib.ports import wait_for

OUTCOME = struct.Struct("=IIQQ")
TICK = os.sysconf("SC_CLK_TCK")
QUANTILES = (0.5, 0.99, 0.999)
# the figures of a deployment by their names; and of an answer its status, its microseconds, its length and its sum
Row = dict[str, Any]
Outcome = tuple[int, ...]
NGINX = """
load_module /usr/lib/nginx/modules/ngx_http_js_module.so; load_module /usr/lib/nginx/modules/ngx_stream_module.so;
include {folder}/stream.conf;
daemon off; worker_processes {workers}; pid {folder}/pid; error_log {folder}/errors crit; \
worker_rlimit_nofile 16384;
events {{ worker_connections 4096; }}
http {{
    client_body_temp_path {folder}/body; proxy_temp_path {folder}/proxy; fastcgi_temp_path {folder}/fastcgi; \
uwsgi_temp_path {folder}/uwsgi;
    scgi_temp_path {folder}/scgi; keepalive_requests 10000;
    include {folder}/goshelf.conf;
}}
"""


class Direct:
    """goshelf is asked itself, by a key in the target."""

    outside: int | None = None

    def __init__(self, company: Company, store: "Store") -> None:
        self.company, self.store = company, store

    def port(self, shelf: str) -> int:
        return self.store.port

    def head(self, method: str, shelf: str, target: str, publishes: bool) -> bytes:
        key = (self.company.key if publishes else self.company.reader)(shelf)
        return f"{method} /k/{key}{target} HTTP/1.1\r\n".encode()


class Front:
    """nginx is asked, by a login."""

    def __init__(self, company: Company, port: int, outside: int | None) -> None:
        self.company = company
        self.listens, self.users, self.random = port, company.sizes.users, random.Random(company.sizes.seed)
        # the public proxy's port, where this has no public modules
        self.outside = outside

    def port(self, shelf: str) -> int:
        return self.listens

    def head(self, method: str, shelf: str, target: str, publishes: bool) -> bytes:
        user = user_of(shelf, "publish" if publishes else "read", self.random.randrange(self.users))
        login = basic(user, (self.company.key if publishes else self.company.reader)(shelf))
        return f"{method} {target} HTTP/1.1\r\nHost: localhost\r\nAuthorization: {login}\r\n".encode()


def user_of(shelf: str, right: str, number: int) -> str:
    return f"{shelf}-{right}-{number}"


def basic(user: str, key: str) -> str:
    return "Basic " + base64.b64encode(f"{user}:{key}".encode()).decode()


class Store:
    """goshelf over a store with common and some groups and teams, as it was when it was filled."""

    def __init__(self, company: Company, folder: str, shelves: list[str]) -> None:
        self.file = os.path.join(folder, "shelves.db")
        run("init", "--db", self.file)
        for shelf in shelves:
            member = ["--group", company.group[shelf]] if shelf in company.group else []
            is_group = shelf in company.groups
            words = ["group-add", "--group", shelf] if is_group else ["team-add", "--team", shelf, *member]
            run(*words, "--db", self.file)
        for shelf in ("common", *shelves):
            run("key-add", "--db", self.file, "--shelf", shelf, "--key", company.key(shelf))
            run("key-add", "--db", self.file, "--shelf", shelf, "--key", company.reader(shelf), "--read-only")
        self.fill(company, shelves)
        for end in ("", "-wal"):
            shutil.copyfile(self.file + end, f"{self.file}{end}.filled")

    def fill(self, company: Company, shelves: list[str]) -> None:
        with tempfile.TemporaryFile() as stream:
            for shelf, module, version in company.versions_of(["common", *shelves]):
                path = company.modules[shelf][module]
                # a version has the same bytes in each store
                company.random.seed(f"{company.sizes.seed} {path} {version}")
                headers, body = company.publish(path, version, company.sizes.zip)
                stream.write(
                    f"PUT /k/{company.key(shelf)}/{path}/@v/{version} HTTP/1.1\r\n".encode() + headers + b"\r\n" + body
                )
            stream.seek(0)
            words = [PROGRAM, "answer", "--db", self.file]
            answers = subprocess.run(words, stdin=stream, capture_output=True, check=True).stdout
        company.random.seed(company.sizes.seed)
        if answers.count(b"HTTP/1.1 201 ") != answers.count(b"HTTP/1.1 "):
            sys.exit(f"a store was not filled: {answers[:300]!r}")

    def start(self) -> "Store":
        for end in ("", "-wal"):
            shutil.copyfile(f"{self.file}{end}.filled", self.file + end)
        self.child = subprocess.Popen(
            [PROGRAM, "serve", "--db", self.file, "--port", "0"], stdout=subprocess.PIPE, text=True
        )
        assert self.child.stdout
        self.port = int(self.child.stdout.readline().rsplit(":", 1)[1])
        return self

    def stop(self) -> None:
        self.child.terminate()
        self.child.wait()


def run(*words: str) -> None:
    subprocess.run([PROGRAM, *words], check=True)


def config(
    company: Company,
    folder: str,
    port: int,
    stores: list[Store],
    is_cached: bool,
    way: str,
    outside: Outside | None,
) -> str:
    """nginx's file by tools/shards, without TLS and limits, for a way to have public modules."""
    write_shards(company, stores, f"{folder}/shards.conf")
    with open(os.path.join(ROOT, "deploy", "nginx", "goshelf.conf"), "rb") as file:
        words = [os.path.join(ROOT, "tools", "shards"), "conf", f"{folder}/shards.conf"]
        whole = subprocess.run(words, stdin=file, capture_output=True, check=True).stdout.decode()
    text = "\n".join(line for line in whole.split("\n") if not re.match(r"\s*(ssl_|limit_)", line))
    text = text.replace("listen 443 ssl;", f"listen 127.0.0.1:{port} backlog=4096;")
    text = text.replace("/var/log/nginx/", f"{folder}/").replace("/var/log/goshelf/", f"{folder}/")
    text = text.replace("/etc/nginx/goshelf/", f"{folder}/").replace("/var/cache/nginx/goshelf", f"{folder}/cache")
    for listens in ("listen 80;", "listen 127.0.0.1:8445;"):
        text = text.replace(listens, f"listen 127.0.0.1:{free_port()};")
    text = text.replace("127.0.0.1:8444", outside.way if outside else "127.0.0.1:9")
    if way == SECOND:
        text = text.replace("js_var $goshelf_others public;", "js_var $goshelf_others nowhere;")
    return text if is_cached else text.replace("proxy_cache goshelf;", "proxy_cache off;")


def write_shards(company: Company, stores: list[Store], name: str) -> None:
    """The file of tools/shards."""
    with open(name, "w", encoding="utf-8") as file:
        for number, (store, shelves) in enumerate(zip(stores, company.share(len(stores)))):
            file.write(f"shard store{number} 127.0.0.1:{store.port}\n")
            for shelf in shelves:
                members = [team for team in company.teams if company.group.get(team) == shelf]
                if shelf not in company.group:
                    file.write(f"{'group' if shelf in company.groups else 'team'} {' '.join([shelf, *members])}\n")


def front(company: Company, way: str) -> str:
    """goshelf.json, by which all users of a shelf with one right have one key."""
    users = {}
    for shelf in company.shelves:
        for right, key in (("read", company.reader(shelf)), ("publish", company.key(shelf))):
            digest = hashlib.sha256(key.encode()).hexdigest()
            users[digest[:16]] = {"name": f"{shelf}-{right}", "shelf": shelf, "right": right, "sha256": digest}
    owners = {"example.com": company.shelves, **({"public.example": []} if way == BEHIND else {})}
    return json.dumps({"serial": 1, "generation": 1, "deepest": 1, "owners": owners, "users": users})


class Nginx:
    """nginx over stores."""

    def __init__(
        self,
        company: Company,
        folder: str,
        stores: list[Store],
        is_cached: bool,
        way: str,
        outside: Outside | None,
    ) -> None:
        self.listens = free_port()
        for name in ("cache", "cache-public"):
            os.makedirs(f"{folder}/{name}")
            os.chmod(f"{folder}/{name}", 0o777)
        os.chmod(folder, 0o777)
        conf = config(company, folder, self.listens, stores, is_cached, way, outside)
        texts = {"goshelf.conf": conf, **files(folder, outside), "goshelf.json": front(company, way)}
        texts["nginx.conf"] = NGINX.format(folder=folder, workers=company.sizes.workers)
        for name, text in texts.items():
            with open(f"{folder}/{name}", "w", encoding="utf-8") as file:
                file.write(text)
        command = shutil.which("nginx") or "/usr/sbin/nginx"
        self.folder, self.child = folder, subprocess.Popen(
            [command, "-c", f"{folder}/nginx.conf", "-e", f"{folder}/start.log"]
        )
        try:
            wait_for(self.listens)
        except TimeoutError:
            sys.exit(f"nginx does not start: {read(f'{folder}/start.log')}")

    def workers(self) -> list[int]:
        return workers_of(self.child)

    def looked_up(self) -> list[str]:
        """HIT, or why not, of each request that nginx looked up in its cache."""
        ends = [line.split()[9] for line in read(f"{self.folder}/goshelf.log").splitlines()]
        return [end for end in ends if end != "-"]

    def stop(self) -> None:
        self.child.terminate()
        self.child.wait()


def workers_of(nginx: subprocess.Popen) -> list[int]:
    words = ["pgrep", "-P", str(nginx.pid), "-f", "worker process"]
    return list(map(int, subprocess.run(words, capture_output=True, text=True).stdout.split()))


def seconds_of(processes: Iterable[int]) -> float:
    """Seconds of processor time that processes have used."""
    stats = [read(f"/proc/{process}/stat").rsplit(")", 1)[1].split() for process in processes]
    return sum(int(fields[11]) + int(fields[12]) for fields in stats) / TICK


def ask(folder: str, plan: Plan, lanes: int) -> tuple[list[Outcome], float, float]:
    """Has the client ask what a plan says. Returns the outcomes, the seconds, and the client's processor time."""
    with open(f"{folder}/plan", "wb") as file:
        file.write(plan.bytes())
    with open(f"{folder}/outcome", "wb") as file:
        child = subprocess.Popen(
            [f"{folder}/client", f"{folder}/plan", str(lanes)], stdout=file, stderr=subprocess.PIPE
        )
        assert child.stderr
        seconds = child.stderr.read()
        _, status, usage = os.wait4(child.pid, 0)
    if status:
        sys.exit(f"the client failed: {seconds.decode()}")
    with open(f"{folder}/outcome", "rb") as file:
        return list(OUTCOME.iter_unpack(file.read())), float(seconds), usage.ru_utime + usage.ru_stime


def measured(
    sizes: argparse.Namespace,
    folder: str,
    name: str,
    stores: list[Store],
    is_cached: bool | None,
    way: str,
    outside: Outside | None,
) -> tuple[Row, list[Outcome]]:
    """Asks one deployment, or a store itself where is_cached is None. Returns its row, and the answers to the first
    requests, without the 404s after which the public proxy is asked."""
    company, nginx = Company(sizes), None
    for store in stores:
        store.start()
    try:
        if is_cached is not None:
            nginx = Nginx(company, tempfile.mkdtemp(dir=folder), stores, is_cached, way, outside)
        behind = outside.plain if outside and way != ONE else None
        front: Asked = Direct(company, stores[0])
        if nginx:
            front = Front(company, nginx.listens, behind)
        plan = Plan(company, front).fill(0)
        answers, _, _ = ask(folder, plan, sizes.lanes)
        if found := {answers[place][0] for place in plan.absent} - {404}:
            sys.exit(f"{name}: public modules get {found} where they are not to be had")
        row: Row = {"name": name, **flat_out(sizes, folder, front, stores, nginx, outside)}
        row["latencies"] = at_load(sizes, folder, front, row["rate"] * sizes.load)
        return row, [answer[:1] + answer[2:] for place, answer in enumerate(answers) if place not in plan.absent]
    finally:
        servers: list[Store | Nginx] = [*stores, *([nginx] if nginx else [])]
        for server in servers:
            server.stop()


def others(sizes: argparse.Namespace, front: Asked, rate: float) -> Plan:
    """What other builds of the company ask for."""
    other = argparse.Namespace(**{**vars(sizes), "seed": sizes.seed + 1, "publishes": 0})
    return Plan(Company(other), front).fill(rate)


def flat_out(
    sizes: argparse.Namespace,
    folder: str,
    front: Asked,
    stores: list[Store],
    nginx: Nginx | None,
    outside: Outside | None,
) -> Row:
    """The highest rate, and microseconds of processor time of an answer at each hop and of a build."""
    groups = {"goshelf": [store.child.pid for store in stores], "nginx": nginx.workers() if nginx else []}
    if outside:
        groups["public"] = workers_of(outside.child)
    plan, begun = others(sizes, front, 0), nginx.looked_up() if nginx else []
    before = {hop: seconds_of(numbers) for hop, numbers in groups.items()}
    _, seconds, own = ask(folder, plan, sizes.lanes)
    row = {hop: (seconds_of(numbers) - before[hop]) / plan.count * 1e6 for hop, numbers in groups.items()}
    looked = nginx.looked_up()[len(begun) :] if nginx else []
    row["builds"] = sizes.builds / seconds
    row["build"] = (row["goshelf"] + row["nginx"]) * plan.count / sizes.builds
    return {
        **row,
        "rate": plan.count / seconds,
        "client": own / plan.count * 1e6,
        "busy": own / seconds,
        "hits": looked.count("HIT") / max(1, len(looked)),
    }


def at_load(sizes: argparse.Namespace, folder: str, front: Asked, rate: float) -> list[float]:
    """The latencies in milliseconds, in order, of builds that come at a rate."""
    outcomes, _, _ = ask(folder, others(sizes, front, rate), 16 * sizes.lanes)
    return sorted(micros / 1000 for _, micros, *_ in outcomes)


def quantile(row: Row, share: float) -> float:
    return row["latencies"][min(len(row["latencies"]) - 1, int(share * len(row["latencies"])))]


def table(rows: list[Row], wrong: dict[str, int]) -> str:
    """The rows as a table of Markdown."""
    named = [hop for hop in ("goshelf", "nginx", "public", "client") if hop in rows[0]]
    heads = ["deployment", "answers a second", "builds a second", "a build", *named, "client busy", "hits"]
    heads += ["p50", "p99", "p99.9", "differ"]
    lines = [heads, ["---"] * len(heads)]
    for row in rows:
        hops = [f"{row['build'] / 1000:.1f} ms", *(f"{row[hop]:.0f} µs" for hop in named)]
        rates = f"{row['rate']:,.0f}", f"{row['builds']:,.1f}"
        shares = (f"{row[name]:.0%}" for name in ("busy", "hits"))
        latencies = (f"{quantile(row, share):.2f} ms" for share in QUANTILES)
        lines.append([row["name"], *rates, *hops, *shares, *latencies, str(wrong[row["name"]])])
    return "\n".join("| " + " | ".join(line) + " |" for line in lines)


def options() -> argparse.Namespace:
    parser = parser_of(__doc__)
    add_sizes(
        parser,
        ("seed", 1, "another one makes another company"),
        ("teams", 8, "teams"),
        ("groups", 4, "groups that share them out"),
        ("modules", 30, "modules of a shelf"),
        ("versions", 4, "versions of a module"),
        ("needs", 30, "modules that a build needs at most"),
        ("builds", 1_500, "builds"),
        ("publishes", 40, "publishes"),
        ("zip", 8_000, "bytes of a zip, on average"),
        ("users", 10, "users of each shelf and right"),
        ("lanes", 32, "connections at once"),
        ("workers", 1, "processes of nginx"),
        ("public", 0, "of 100 requests of a build those for public modules"),
    )
    parser.add_argument(
        "--load", type=float, default=0.5, help="the share of the highest rate at which latencies are measured (0.5)"
    )
    parser.add_argument("--stores", default="1,2,4", help="how many stores to share the teams among (1,2,4)")
    parser.add_argument("--plot", default="company.svg", help="the file of the plot (company.svg)")
    return parser.parse_args()


def deployments(sizes: argparse.Namespace, count: int) -> list[tuple[str, bool | None, str]]:
    """Those of a number of stores: the name, whether nginx caches (None: no nginx), the way to public modules."""
    if sizes.public:
        return [(f"{count} behind a cache, {way}", True, way) for way in WAYS]
    behind: list[tuple[str, bool | None, str]] = [
        (f"{count} behind nginx", False, ONE),
        (f"{count} behind a cache", True, ONE),
    ]
    return [("1 alone", None, ONE), *behind] if count == 1 else behind


def main() -> None:
    sizes = options()
    need()
    with tempfile.TemporaryDirectory(prefix="goshelf-company-") as folder:
        os.chmod(folder, 0o755)
        subprocess.run(
            ["cc", "-O2", "-D_GNU_SOURCE", "-o", f"{folder}/client", os.path.join(ROOT, "bench", "company.c")],
            check=True,
        )
        rows: list[Row] = []
        wrong: dict[str, int] = {}
        first: list[Outcome] = []
        outside = Outside(tempfile.mkdtemp(dir=folder), sizes.zip) if sizes.public else None
        for count in map(int, sizes.stores.split(",")):
            company = Company(sizes)
            stores = [Store(company, tempfile.mkdtemp(dir=folder), shelves) for shelves in company.share(count)]
            for name, is_cached, way in deployments(sizes, count):
                row, outcomes = measured(sizes, folder, name, stores, is_cached, way, outside)
                first = first or outcomes
                wrong[name] = sum(one != other for one, other in zip(first, outcomes)) + abs(len(first) - len(outcomes))
                rows.append(row)
                print(f"{name}: {row['rate']:,.0f} answers a second", file=sys.stderr, flush=True)
        if outside:
            outside.stop()
        # (before the folder goes, which takes a minute where a cache has filled it)
        statuses = dict(sorted(Counter(status for status, *_ in first).items()))
        print(f"{len(first):,} requests; statuses {statuses}")
        print(table(rows, wrong), flush=True)
    with open(sizes.plot, "w", encoding="utf-8") as file:
        file.write(plot([(row["name"], row["latencies"]) for row in rows]))


if __name__ == "__main__":
    main()
