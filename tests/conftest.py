"""What each test can take, and what it is skipped for."""

import os
from collections.abc import Callable, Iterator
from typing import Any

import pytest

from lib.needs import find_missing
from lib.program import PROGRAM
from lib.scratch import entered_folder
from lib.servers import Server

# The files that take longest, the longest first: they begin first, so that no process is left with one in the end. The
# first builds a program, the second compiles Go's library for six systems.
LONGEST = """
test_readme test_publish_go test_scripts test_catalog_control test_catalog_hostile test_front_page test_kills
test_hostile test_slow_peers test_users test_largest test_refused_allocation test_front test_package_upgrades
test_migrate test_behind_nginx_users test_beside_store test_front_page_logins test_warm_lost test_tables test_shards
test_catalog test_package
""".split()


def pytest_addoption(parser: pytest.Parser) -> None:
    parser.addoption("--long", action="store_true", help="runs whole what takes up to an hour")


def pytest_sessionstart(session: pytest.Session) -> None:
    if not session.config.option.collectonly and not os.access(PROGRAM, os.X_OK):
        why = "./goshelf --version proves and builds it, ./goshelf --unproved --version only builds it"
        raise pytest.UsageError(f"there is no program {PROGRAM}: {why}, and GOSHELF names another")


def pytest_report_header() -> str:
    return f"program: {PROGRAM}"


def pytest_collection_modifyitems(config: pytest.Config, items: list[pytest.Item]) -> None:
    places = {name: place for place, name in enumerate(LONGEST)}
    items.sort(key=lambda item: places.get(item.path.stem, len(places)))
    for item in items:
        if why := find_reason_to_skip(config, item):
            item.add_marker(pytest.mark.skip(reason=why))


def find_reason_to_skip(config: pytest.Config, item: pytest.Item) -> str:
    """Returns why this run can't make a test, or nothing."""
    needed = [command for marker in item.iter_markers("needs") for command in marker.args]
    if missing := find_missing(dict.fromkeys(needed)):
        return f"the machine has no {', no '.join(missing)}"
    if item.get_closest_marker("root") and os.geteuid() != 0:
        return "it needs root"
    if item.get_closest_marker("long") and not config.getoption("--long"):
        return "it takes long: --long runs it"
    return ""


@pytest.fixture
def folder() -> Iterator[str]:
    """A new folder, which the test runs in."""
    with entered_folder() as path:
        yield path


@pytest.fixture(scope="class")
def class_folder() -> Iterator[str]:
    """A new folder, which the tests of a class run in."""
    with entered_folder() as path:
        yield path


@pytest.fixture(scope="module")
def module_folder() -> Iterator[str]:
    """A new folder, which the tests of a file run in."""
    with entered_folder() as path:
        yield path


@pytest.fixture
def serve() -> Iterator[Callable[..., Server]]:
    """Starts servers as `Server(..)` does. Those that still run in the end are killed."""
    yield from _servers()


@pytest.fixture(scope="module")
def module_serve() -> Iterator[Callable[..., Server]]:
    """Starts servers, as `serve` does, for all tests of a file."""
    yield from _servers()


def _servers() -> Iterator[Callable[..., Server]]:
    started: list[Server] = []

    def start(*words: Any, **how: Any) -> Server:
        started.append(Server(*words, **how))
        return started[-1]

    yield start
    for server in started:
        if server.child.poll() is None:
            server.kill()


@pytest.fixture(scope="session")
def is_long(request: pytest.FixtureRequest) -> bool:
    """Whether --long was given."""
    return request.config.getoption("--long")
