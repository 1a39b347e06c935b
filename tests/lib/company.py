"""A company of hosts by deploy/one: one store behind nginx, and caches at two sites.

The files of deploy/ run as they are, set up by the commands of the pages, but a site asks again after 2 seconds, not
after a minute, who may log in.
"""

import random
import re
import socket
import threading
import time
from collections.abc import Collection, Iterable, Mapping

from lib.front import set_up_front
from lib.hosts import Answer, Desk, Host, Network, inside
from lib.pages import block
from lib.peers import fetched, over
from lib.ports import wait_until
from lib.program import done
from lib.scratch import closed_on_failure

FIRST, SITE, OTHER, DESK = "shelf.example.com", "site.example.com", "site-b.example.com", "desk.example.com"
FRONTS = (FIRST, SITE, OTHER)
# alpha is a team of the group platform
SHELVES = ("platform", "alpha", "beta", "common")
USERS = [
    ("ann", "alpha", "read"),
    ("pub", "alpha", "publish"),
    ("bob", "beta", "read"),
    ("rob", "beta", "publish"),
    ("com", "common", "publish"),
    ("gil", "platform", "publish"),
]
# the users who read, one of each shelf and a second of alpha
READERS = ("ann", "pub", "bob", "com", "gil")
# a user of each shelf who publishes, and a path
OWN = (
    ("pub", "example.com/lib"),
    ("rob", "example.com/lib"),
    ("com", "example.com/base"),
    ("gil", "example.com/!big"),
)
# how long a site takes a login without asking: in the files, and here, to a second
ASKED_AGAIN = ("proxy_cache_valid 204 1m;", "proxy_cache_valid 204 2s;")
FORGOTTEN = 3.2
# how long a host leaves the first one alone that failed twice: 5 seconds, which nginx counts by whole ones
LEFT_ALONE = 7
# seconds after which a failure is one that stays, fewer than a host is left alone
SOON = 3
# room that a cache leaves on its disk: in the files, and here
SMALL = ("min_free=1g", "min_free=2m")
KEPT = re.compile(r"/@v/[^/]+\.(info|mod|zip)$|^/-/gosum/")
CONF = "etc/nginx/conf.d/goshelf.conf"
# a user and a target
Asking = tuple[str, str]
# a host, a user and a target, the status and the beginning of the body that came, and the status that was wanted
Wrong = tuple[str, str, str, int, bytes, int]


class Company:
    """The hosts, the users, and what was published."""

    fronts: tuple[str, ...] = FRONTS
    # names that each certificate has besides its host's
    more_names: tuple[str, ...] = ()

    def __init__(self, folder: str) -> None:
        self.network = Network(folder, (*self.fronts, DESK))
        self.hosts, self.seed = self.network.hosts, random.Random(7)
        self.first = self.hosts[FIRST]
        self.published: set[tuple[str, str]] = set()
        # when the first host was back last
        self.was_back = 0.0
        with closed_on_failure(self):
            self.start()

    def start(self) -> None:
        """Makes the store, sets the hosts up, and adds the users."""
        certificates = {name: self.hosts[name].certificate(*self.more_names) for name in self.fronts}
        done("init", "--db", self.first.store)
        done("group-add", "--db", self.first.store, "--group", "platform")
        done("team-add", "--db", self.first.store, "--team", "alpha", "--group", "platform")
        done("team-add", "--db", self.first.store, "--team", "beta")
        self.first.does("systemctl start goshelf")
        set_up_first(self.first)
        for name in self.fronts[1:]:
            self.set_up(self.hosts[name], certificates[FIRST])
        self.desk = Desk(self.network, DESK, certificates.values())
        for user in USERS:
            self.desk.add(self.first, *user)

    def set_up(self, host: Host, certificate: str) -> None:
        """Sets up a host that is not the first, whose certificate is given."""
        set_up_site(host, certificate)

    def key(self, user: str) -> str:
        """Returns the key by which the first host asks for a user: the user's own."""
        return self.desk.passwords[user]

    def own(self, user: str, target: str) -> Answer:
        """Returns the store's own answer."""
        with inside(self.first.namespace):
            connection = socket.create_connection(("127.0.0.1", self.first.behind), 30)
        return fetched(over(connection), "GET", f"/k/{self.key(user)}{target}")

    def put(
        self, user: str, path: str, version: str, size: int = 2_000, at: str | None = None, body: bytes | None = None
    ) -> tuple[int, bytes]:
        """Publishes by a host, the second unless one is named, with a zip of random bytes unless a body is given.

        Returns the status and the body of the reply."""
        head = re.sub("!(.)", lambda match: match[1].upper(), f"module {path}\n").encode()
        sent = head + (body or self.seed.randbytes(size))
        status, _, said = self.desk.ask(
            at or self.fronts[1], user, f"/{path}/@v/{version}", "PUT", sent, {"Mod-Length": str(len(head))}
        )
        if status in (200, 201):
            self.published.add((path, version))
        return status, said

    def targets(self) -> list[str]:
        """Returns every file of every version, and lists, and names that nobody published."""
        versions = sorted(self.published)
        files = [f"/{path}/@v/{version}.{kind}" for path, version in versions for kind in ("info", "mod", "zip")]
        sums = [f"/-/gosum/{path}/@v/{version}" for path, version in versions]
        ends = ("@v/list", "@latest", "@v/v9.9.9.mod")
        lists = [f"/{path}/{end}" for path in sorted({path for path, _ in versions}) for end in ends]
        nobodys = ["/-/gosum/example.com/none/@v/v1.0.0", "/x", "/example.com/lib/@v/../@v/v1.0.0.mod"]
        return [*files, *sums, *lists, "/-/modules", *nobodys]

    def answers(self, users: Iterable[str] = READERS) -> dict[Asking, Answer]:
        """Returns what the store itself answers to each user."""
        return {(user, target): self.own(user, target) for user in users for target in self.targets()}

    def differing(
        self, wanted: Mapping[Asking, Answer], fronts: Iterable[str] | None = None, failures: Collection[int] = ()
    ) -> list[Wrong]:
        """Returns the answers of hosts that are not the wanted ones, apart from failures: statuses that a host may
        give in their place."""
        wrong: list[Wrong] = []
        for host in fronts or self.fronts:
            for asking, answer in wanted.items():
                found = self.answer(host, asking, answer, failures)
                if found != answer and found[0] not in failures:
                    wrong.append((host, *asking, found[0], found[2][:60], answer[0]))
        return wrong

    def wrong_answers(self, fronts: Iterable[str] | None = None, users: Iterable[str] = READERS) -> list[Wrong]:
        """Returns the answers of hosts that are not the store's own, as `differing` does."""
        return self.differing(self.answers(users), fronts)

    def answer(self, host: str, asking: Asking, wanted: Answer, failures: Collection[int] = ()) -> Answer:
        """Returns what a host answers. If it fails where it may not, it is asked again: a site waits only 2 seconds
        for the first host."""
        found = self.desk.ask(host, *asking)
        if found[0] in (502, 504) and found[0] not in (wanted[0], *failures):
            print(f"asked again, after {found}: {host} {asking}")
            found = self.desk.ask(host, *asking)
        return found

    def statuses(self, user: str | None, target: str, fronts: Iterable[str] | None = None) -> list[int]:
        """Returns the status that each host answers."""
        return [self.desk.status(host, user, target) for host in fronts or self.fronts]

    def back(self, status: int = 200) -> None:
        """Waits until the first host answers at each site, as it does again some seconds after it failed."""
        wait_until(lambda: set(self.statuses("ann", "/-/modules", self.fronts[1:])) == {status})
        self.was_back = time.monotonic()

    def is_trusted(self) -> bool:
        """Whether no host leaves the first one alone any more, since that failed."""
        return time.monotonic() - self.was_back > LEFT_ALONE

    def forget(self) -> None:
        """Waits until a site asks again who may log in."""
        time.sleep(FORGOTTEN)

    def lines(self, host: str, begun: int = 0) -> list[str]:
        """Returns the lines of a host's log from a number on."""
        return self.hosts[host].read("var/log/nginx/goshelf.log").splitlines()[begun:]

    def close(self) -> None:
        """Ends what runs on the hosts."""
        self.network.close()


def publish_own(company: Company, version: str) -> set[tuple[int, bytes]]:
    """Publishes a version of each shelf at the second host. Returns the replies."""
    return {company.put(user, path, version) for user, path in OWN}


def is_file(asking: Asking, answer: Answer) -> bool:
    """Whether a request is one of a file that never changes, and got it."""
    return answer[0] == 200 and bool(KEPT.search(asking[1]))


def set_up_first(first: Host) -> None:
    """Sets the first host up, by the commands of NGINX."""
    first.check_out()
    set_up_front(first, FIRST, {"example.com": SHELVES})
    first.edit(CONF, SMALL)
    first.start_nginx()


def set_up_site(site: Host, certificate: str) -> None:
    """Sets a site up, by the commands of DEPLOYMENTS."""
    site.check_out()
    site.write("root/goshelf-first.pem", certificate)
    site.does(block("sh", "deploy/one/site.conf", "DEPLOYMENTS.md"))
    site.edit(CONF, ASKED_AGAIN, SMALL, ("site.example.com", site.name))
    site.start_nginx()


def ask_over_reloads(
    company: Company, host: str, target: str = "/example.com/lib/@v/v9.9.9.info"
) -> list[tuple[int, bytes]]:
    """Returns what three who ask at a host get while the first host's nginx reloads five times. Who gets a failure
    asks again.

    After a failure nginx sends one request to find out whether the first host is back, and has the others fail until
    that one is answered. A host that it leaves alone fails for 5 seconds.
    """
    wait_until(company.is_trusted)
    answers, ended = set(), threading.Event()

    def ask() -> None:
        desk = company.desk.another()
        while not ended.is_set():
            found, begun = desk.ask(host, "bob", target), time.monotonic()
            while found[0] in (502, 504) and time.monotonic() - begun < SOON:
                time.sleep(0.05)
                found = desk.ask(host, "bob", target)
            answers.add((found[0], found[2]))

    threads = [threading.Thread(target=ask) for _ in range(3)]
    for thread in threads:
        thread.start()
    try:
        for _ in range(5):
            company.first.reload()
            time.sleep(0.2)
    finally:
        ended.set()
        for thread in threads:
            thread.join()
    return sorted(answers)
