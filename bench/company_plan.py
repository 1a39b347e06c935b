"""A synthetic company: teams and groups with modules and versions, builds that ask in bursts, and publishes.

A build asks as the go command does. Everything follows from the sizes and the seed.
"""

import argparse
import itertools
import random
from collections.abc import Iterable, Iterator, Sequence
from typing import Protocol

# what a build of each kind asks for; of 100 builds so many are of that kind
KINDS = {"pinned": 80, "upgrade": 12, "new import": 8}
# lists of requests that one go command has under way at a time
PARALLEL = 4
TIME = "2024-01-31T12:00:00Z"
# what every build needs of public modules is among so many
PUBLIC = [f"public.example/m{number}" for number in range(200)]
# what one go command asks for, one after another
Targets = list[str]


class Asked(Protocol):
    """Who is asked: goshelf itself, or nginx. `outside` is the port of the public proxy, if that is asked too."""

    outside: int | None

    def port(self, shelf: str) -> int:
        """Returns the port to ask for a shelf."""

    def head(self, method: str, shelf: str, target: str, publishes: bool) -> bytes:
        """Returns the first lines of a request."""


class Company:
    """The teams, their modules, and who needs which."""

    def __init__(self, sizes: argparse.Namespace) -> None:
        self.sizes, self.random = sizes, random.Random(sizes.seed)
        self.teams = [f"team{number}" for number in range(1, sizes.teams + 1)]
        self.groups = [f"group{number}" for number in range(1, sizes.groups + 1)]
        # the group of a team; without groups it has none
        self.group = dict(zip(self.teams, itertools.cycle(self.groups)))
        self.shelves = ["common", *self.groups, *self.teams]
        self.modules = {
            shelf: [f"example.com/{shelf}/m{number}" for number in range(sizes.modules)] for shelf in self.shelves
        }
        self.versions = [f"v1.{number}.0" for number in range(sizes.versions)]
        self.block = self.random.randbytes(1_048_576)

    def share(self, count: int) -> list[list[str]]:
        """The groups and teams of each of so many stores. A team is where its group is."""
        units = [[group, *(team for team in self.teams if self.group[team] == group)] for group in self.groups] or [
            [team] for team in self.teams
        ]
        return [list(itertools.chain.from_iterable(units[start::count])) for start in range(count)]

    @staticmethod
    def key(shelf: str) -> str:
        """The key that publishes to a shelf."""
        return f"{shelf}key0000000000000"[:24]

    @staticmethod
    def reader(shelf: str) -> str:
        """The key that reads on a shelf."""
        return f"{shelf}reader0000000000"[:24]

    def versions_of(self, shelves: Sequence[str]) -> Iterator[tuple[str, int, str]]:
        """Every version of some shelves, as its shelf, path and version."""
        return itertools.product(shelves, range(self.sizes.modules), self.versions)

    def zip_bytes(self, mean: int) -> bytes:
        """The bytes of a zip. Most are small, and some many times as long."""
        length = min(int(self.random.lognormvariate(0, 1) * mean / 1.65) + 1, 16_000_000)
        at = self.random.randrange(len(self.block))
        return (self.block[at:] + self.block * (length // len(self.block) + 1))[:length]

    def publish(self, path: str, version: str, mean: int) -> tuple[bytes, bytes]:
        """The headers and the body of a publish."""
        gomod = f"module {path}\n\ngo 1.19\n".encode()
        body = gomod + self.zip_bytes(mean)
        return f"Mod-Length: {len(gomod)}\r\nVersion-Time: {TIME}\r\nContent-Length: {len(body)}\r\n".encode(), body

    def popular(self, paths: Sequence[str], count: int) -> list[str]:
        """Some of these paths, the first ones most often."""
        weights = [1 / (place + 1) for place in range(len(paths))]
        return list(dict.fromkeys(self.random.choices(paths, weights, k=count)))

    def needs(self, team: str) -> list[tuple[str, str]]:
        """The versions that a build needs: some modules of its team, some of its group, and most of common."""
        count = self.random.randint(1, max(1, self.sizes.needs // 4))
        paths = [
            path for shelf in (team, self.group.get(team)) if shelf for path in self.popular(self.modules[shelf], count)
        ]
        paths += self.popular(self.modules["common"], 2 * count)
        return [(path, self.random.choice(self.versions[-2:])) for path in paths]

    def public(self, count: int) -> Targets:
        """What a build asks of public modules beside this number of requests for the company's, by their share."""
        wanted = count * self.sizes.public // (100 - self.sizes.public)
        popular = itertools.cycle(self.popular(PUBLIC, 60)) if wanted else iter(())
        paths = itertools.islice(popular, (wanted + 1) // 2)
        return [f"/{path}/@v/v1.0.0.{end}" for path in paths for end in ("mod", "zip")]

    def builds(self) -> Iterator[list[tuple[str, list[Targets]]]]:
        """The lists of requests of every build, as pairs of a team and its targets, in bursts of builds that need
        the same."""
        left = self.sizes.builds
        while left > 0:
            team = self.popular(self.teams, 1)[0]
            needed, size = self.needs(team), min(left, self.random.choice((1, 1, 2, 4, 8, 16)))
            yield [(team, lists(self.random.choices([*KINDS], [*KINDS.values()])[0], needed)) for _ in range(size)]
            left -= size


def lists(kind: str, needed: list[tuple[str, str]]) -> list[Targets]:
    """The targets that a go command asks for, in the lists that it has under way at a time."""
    asked = [targets(kind, path, version) for path, version in needed]
    return [list(itertools.chain.from_iterable(asked[start::PARALLEL])) for start in range(min(PARALLEL, len(asked)))]


def targets(kind: str, path: str, version: str) -> Targets:
    """What a go command asks for about a module: with a go.sum, by `go get -u`, or for an import of a package that
    no go.mod names."""
    files = [f"/{path}/@v/{version}.{end}" for end in ("mod", "zip")]
    if kind == "pinned":
        return files
    info = f"/{path}/@v/{version}.info"
    if kind == "upgrade":
        return [f"/{path}/@v/list", info, *files]
    return [f"/{path}/pkg/@v/list", f"/{path}/@v/list", f"/{path}/@latest", info, *files]


class Plan:
    """Requests of a company for a front, in lists as bench/company.c reads them. The same sizes make the same plan."""

    def __init__(self, company: Company, front: Asked) -> None:
        self.company, self.front = company, front
        self.parts: list[bytes] = []
        self.count, self.due = 0, 0.0
        self.absent: set[int] = set()

    def add(self, port: int, requests: Iterable[bytes]) -> None:
        """Adds a list of requests at a port, each as its bytes."""
        self.parts.append(f"L {int(self.due * 1e6)} {port}\n".encode())
        for request in requests:
            self.parts.append(b"R %d\n%s" % (len(request), request))
            self.count += 1

    def gets(self, team: str, lists_of_targets: list[Targets]) -> None:
        for asked in lists_of_targets:
            self.at_front(team, asked)
        self.public(team, self.company.public(sum(map(len, lists_of_targets))))

    def at_front(self, team: str, targets: Targets) -> None:
        port = self.front.port(team)
        self.add(port, [self.front.head("GET", team, target, False) + b"\r\n" for target in targets])

    def public(self, team: str, targets: Targets) -> None:
        """Asks for public modules: at the front, and if that has none, at the public proxy. `absent` has the places of
        the former."""
        for start in range(min(PARALLEL, len(targets))):
            asked, begun = targets[start::PARALLEL], self.count
            self.at_front(team, asked)
            if self.front.outside:
                self.absent.update(range(begun, self.count))
                gets = [f"GET {target} HTTP/1.1\r\nHost: localhost\r\n\r\n".encode() for target in asked]
                self.add(self.front.outside, gets)

    def publish(self, team: str, number: int) -> None:
        """A publish of a version, and the publisher's look at it."""
        path, version = f"example.com/{team}/new{number}", "v1.0.0"
        headers, body = self.company.publish(path, version, self.company.sizes.zip)
        put = self.front.head("PUT", team, f"/{path}/@v/{version}", True) + headers + b"\r\n" + body
        looks = [
            self.front.head("GET", team, f"/{path}/@v/{file}", False) + b"\r\n" for file in ("list", f"{version}.info")
        ]
        self.add(self.front.port(team), [put, *looks])

    def fill(self, rate: float) -> "Plan":
        """Adds every build and publish. With a rate, bursts are due so that there are so many answers a second on
        average."""
        sizes, bursts = self.company.sizes, list(self.company.builds())
        every = max(1, len(bursts) // max(1, sizes.publishes))
        numbers = iter(range(sizes.publishes))
        for place, burst in enumerate(bursts):
            before = self.count
            for team, asked in burst:
                self.gets(team, asked)
            if place % every == 0 and (number := next(numbers, None)) is not None:
                self.publish(self.company.teams[number % len(self.company.teams)], number)
            if rate:
                # the next burst comes by chance, on average when the answers to this one are had
                self.due += self.company.random.expovariate(1) * (self.count - before) / rate
        return self

    def bytes(self) -> bytes:
        return b"".join(self.parts)
