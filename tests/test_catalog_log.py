"""tools/catalog: when goshelf took a version and who published it, by publishes.log, and how fresh the pages are."""

import json
import os
import re
import time
from collections.abc import Callable, Iterable, Iterator
from datetime import datetime, timezone

import pytest

from lib import catalog_lines
from lib.catalog_pages import Page, pages_in
from lib.catalog_store import EVIL, TODAY, line_of, make_store, tool, write_lines
from lib.scratch import entered_folder, read, write

LOG, RPC, APP = (f"example.com/{it}" for it in ("log", "rpc", "gamma/app"))
# lines of the log: time, name, shelf, path, version and status
ROWS = (
    ("2026-11-01T12:00:00+00:00", "Cam", "common", LOG, "v1.2.0", "201"),
    ("2026-11-01T12:00:01+00:00", "Second", "common", LOG, "v1.2.0", "200"),
    ("2026-11-26T23:30:00-02:00", "Gus O'Neil", "gamma", APP, "v0.3.0", "201"),
    ("2026-11-27T03:00:00+05:30", "Pam", "platform", RPC, "v1.0.0", "201"),
    ("2026-11-20T09:00:00+00:00", "Old Gus", "gamma", RPC, "v1.0.0", "201"),
    ("2026-11-25T09:00:00+00:00", "Gus again", "gamma", RPC, "v1.0.0", "201"),
    ("2026-11-28T09:00:00+00:00", "Refused", "gamma", RPC, "v1.1.0", "403"),
    ("2026-11-28T09:00:00+00:00", "Nobody", "gamma", "example.com/nosuch", "v1.0.0", "201"),
    ("2026-11-28T09:00:00+00:00", "Bea Secret", "beta", "example.com/Beta/UI/v2", "v2.0.0", "201"),
    ("2026-11-28T09:00:00+00:00", "Bea Secret", "beta", LOG, "v1.2.0", "201"),
    ("2026-11-28T09:00:00+00:00", "Ann Secret", "alpha", "example.com/both", "v1.0.1", "201"),
    ("2026-11-28T09:00:00+00:00", EVIL, "common", "example.com/both", "v1.0.0", "201"),
)
ORDER = {"time": "2026-11-27T10:00:00+00:00", "order": "add", "by": "root", "name": "Order", "shelf": "gamma"}
# a page of gamma, and the id of a heading; indented below it, the rows of that table
TABLES = {
    ("m/example.com/log", "versions"): [
        "v1.3.0-rc.1|pre-release|2026-11-20||1.5 KiB|1.21|common|go.mod of v1.3.0-rc.1",
        "v1.2.0|latest|2026-11-01|2026-11-01 12:00 by Cam|1.0 MiB|1.21|common|go.mod of v1.2.0",
        "v1.1.0|retracted|2026-02-01||1.0 KiB|1.20|common|go.mod of v1.1.0",
        "v1.0.0||2026-01-01||1 B|1.19|common|go.mod of v1.0.0",
    ],
    ("m/example.com/rpc", "versions"): [
        "v1.1.0|latest|2026-10-29||20 B||platform|go.mod of v1.1.0",
        "v1.0.0||2026-03-01|2026-11-25 09:00 by Gus again|21 B||gamma|go.mod of v1.0.0",
    ],
    ("", "fresh"): [
        f"example.com/both|v1.0.0|2026-11-28 09:00 by {EVIL}|1",
        "example.com/gamma/app|v0.3.0|2026-11-27 01:30 by Gus O'Neil|1",
        "example.com/rpc|v1.0.0|2026-11-25 09:00 by Gus again|1",
    ],
    ("health", "changed"): [
        f"example.com/both|v1.0.0|2026-11-28 by {EVIL}|2",
        "example.com/gamma/app|v0.3.0|2026-11-27 by Gus O'Neil|1",
        "example.com/rpc|v1.0.0|2026-11-25 by Gus again|2",
        "example.com/log|v1.3.0-rc.1|2026-11-20|2",
        "example.com/gamma/pseudo|v0.0.0-20261110120000-abcdefabcdef|2026-11-10|1",
    ],
}
RIGHT = dict(time="2026-11-28T09:00:00+00:00", name="Eve", shelf="gamma", path=APP, version="v0.1.0", status="201")
# lines that are neither a publish nor an order
TORN = (
    b'{"time": "2026-11-28T09:00:00+00:00", "name": "Eve", "shelf": "gam\n',
    b"\n",
    b"null\n",
    b"[1]\n",
    b"[" * 5000 + b"\n",
    b"\0\n",
    b'{"time": 1}\n',
    b"{}\n",
    b'{"name": "' + b"x" * 3_000_000 + b'"}\n',
)
# what makes a line that is right hostile
HOSTILE = (
    {"name": ""}, {"name": "x" * 129}, {"name": "a\nb"}, {"name": "a\tb"}, {"name": "\u202egnp"}, {"name": "a\x1b[2J"},
    {"name": "a\u2066b"}, {"name": "torn \ufffd"}, {"name": "\u200ea"}, {"name": "\0"}, {"name": None},
    {"name": ["Eve"]},
    {"path": "../a"}, {"path": EVIL}, {"path": "a b"}, {"path": ""}, {"path": "x" * 300}, {"path": None},
    {"version": EVIL}, {"version": "v1"}, {"version": "v1.0.0\n"}, {"version": ""},
    {"shelf": "Gamma"}, {"shelf": "../gamma"}, {"shelf": ""}, {"shelf": None},
    {"time": "today"}, {"time": ""}, {"time": "2026-11-28T09:00:00"}, {"time": "0001-01-01T00:00:00+23:00"},
    {"time": "2026-13-01T00:00:00+00:00"}, {"time": EVIL}, {"time": None},
)  # fmt: skip


SKIPPED = [
    *TORN,
    *(json.dumps({**RIGHT, **field}).encode() + b"\n" for field in HOSTILE),
    json.dumps(RIGHT, ensure_ascii=False).encode().replace(b"Eve", b"E\xffve") + b"\n",
    # (which has no end yet)
    json.dumps(RIGHT).encode(),
]
NAMES = [
    *(repr(line[:40]) for line in TORN),
    *(f"{key} {str(value)[:40]!r}" for field in HOSTILE for key, value in field.items()),
    "a name that is no UTF-8",
    "no end of the line",
]


def log_of(rows: Iterable[tuple[str, ...]]) -> bytes:
    """Returns the lines of the log for rows, as nginx writes them."""
    keys = "time name shelf path version status".split()
    return b"".join(json.dumps(dict(zip(keys, row)), ensure_ascii=False).encode() + b"\n" for row in rows)


def make_by_log(
    shelf: str, name: str = "publishes.log", folder: str | None = None, today: str = TODAY
) -> tuple[int, str, str]:
    """Makes the pages of a shelf by a log. Returns the status, and what is printed."""
    words = ["--to", folder or shelf, "--shelf", shelf, "--today", today, "--log", name, "--common", "common.lines"]
    words += ["--group", "platform=platform.lines"] if shelf == "gamma" else []
    return tool(*words, lines=catalog_lines.lines("store.db", shelf))


def texts_of(folder: str) -> dict[str, str]:
    """Returns the text of each page in a folder."""
    return {name: page.text for name, page in pages_in(folder).items()}


@pytest.fixture(scope="module", autouse=True)
def store() -> Iterator[None]:
    """A folder with a store, its log, and the pages of gamma by it."""
    with entered_folder():
        make_store("store.db")
        write_lines()
        os.mkdir("mine")
        write({"publishes.log": log_of(ROWS) + json.dumps(ORDER).encode() + b"\n"})
        assert make_by_log("gamma") == (0, "7 pages, 7 new or changed\n", "")
        yield


@pytest.mark.parametrize(("place", "rows"), TABLES.items(), ids=[" ".join(place).strip() for place in TABLES])
def test_table_has_the_time_and_the_name(place: tuple[str, str], rows: list[str]) -> None:
    page, heading = place
    assert Page(os.path.join("gamma", page, "index.html")).table_of(heading) == rows


def test_latest_version_says_when_it_was_taken() -> None:
    time_of = '<time datetime="2026-11-01T12:00:00Z">2026-11-01 12:00</time>'
    text = Page("gamma/m/example.com/log/index.html").text
    assert f'published {time_of} <span class="by">by <bdi>Cam</bdi>' in text


def test_version_without_an_own_date_shows_the_day_it_was_taken() -> None:
    path = "example.com/gamma/pseudo"
    write(
        {
            "pseudo.log": log_of(
                [("2026-11-27T10:00:00+00:00", "Gus", "gamma", path, "v0.0.0-20261110120000-abcdefabcdef", "201")]
            )
        }
    )
    lines = "".join(line for line in catalog_lines.lines("store.db", "gamma").splitlines(True) if path in line)
    lines = re.sub(r'"Time":"[^"]*",', "", lines)
    words = ["--to", "undated", "--shelf", "gamma", "--today", TODAY, "--log", "pseudo.log"]
    assert tool(*words, lines=lines) == (0, "3 pages, 3 new or changed\n", "")
    row = f"{path}|v0.0.0-20261110120000-abcdefabcdef|2026-11-27|1|gamma"
    assert Page("undated/index.html").table_of("modules") == [row]
    text = Page(f"undated/m/{path}/index.html").text
    assert "no time" not in text and "published <time" in text


def test_week_ends_before_the_30_days() -> None:
    assert make_by_log("gamma", folder="later", today="2026-12-06")[0] == 0
    assert Page("later/index.html").table_of("fresh") == []
    rows = [row.split("|")[0] for row in Page("later/health/index.html").table_of("changed")]
    assert rows == ["example.com/both", APP, RPC, LOG, "example.com/gamma/pseudo"]


def test_ten_of_many_new_modules_are_shown() -> None:
    numbers, when = range(25), "2026-11-28T09:00:00+00:00"
    rows = [(when, "Bo", "alpha", f"example.com/m{number:02}", "v1.0.0", "201") for number in numbers]
    write({"many.log": log_of(rows)})
    lines = "".join(line_of(Path=row[3], Latest=True) for row in rows)
    made = tool("--to", "many", "--shelf", "alpha", "--today", TODAY, "--log", "many.log", lines=lines)
    assert made[0] == 0, made
    page = Page("many/index.html")
    assert len(page.table_of("fresh")) == 10
    assert "15 more, and those of 30 days" in page.text
    assert len(Page("many/health/index.html").table_of("changed")) == 25


OTHERS = {
    "gamma": ("Secret|Refused|Nobody|Second|Pam|Order", ("gamma", "platform", "common")),
    "alpha": ("Bea|Gus|Pam|Refused|Nobody", ("alpha", "common")),
}


@pytest.mark.parametrize(("shelf", "others", "chain"), [(shelf, *row) for shelf, row in OTHERS.items()], ids=OTHERS)
def test_shelf_sees_the_lines_of_its_own_versions_alone(shelf: str, others: str, chain: tuple[str, ...]) -> None:
    assert make_by_log(shelf, folder=f"{shelf}-all")[0] == 0
    texts = texts_of(f"{shelf}-all")
    assert [name for name, text in texts.items() if re.search(others, text)] == []
    write({f"{shelf}.log": log_of(row for row in ROWS if row[2] in chain)})
    assert make_by_log(shelf, f"{shelf}.log", f"{shelf}-own")[0] == 0
    assert texts_of(f"{shelf}-own") == texts
    assert make_by_log(shelf, f"{shelf}.log", f"{shelf}-own")[1] == "nothing changed\n"


@pytest.mark.parametrize("line", SKIPPED, ids=NAMES)
def test_hostile_line_is_skipped(line: bytes) -> None:
    write({"one.log": read("publishes.log") + line})
    wanted = 0, "nothing changed; 1 lines of the log are no publish and no order\n", ""
    assert make_by_log("gamma", "one.log") == wanted


@pytest.fixture(scope="module")
def by_hostile_log() -> tuple[int, str, str]:
    """How the run ends that makes the pages `all` by a log with all hostile lines."""
    write({"all.log": read("publishes.log") + b"".join(SKIPPED)})
    return make_by_log("gamma", "all.log", "all")


def test_all_hostile_lines_are_counted(by_hostile_log: tuple[int, str, str]) -> None:
    printed = by_hostile_log[1]
    assert printed.endswith(f"; {len(SKIPPED)} lines of the log are no publish and no order\n"), by_hostile_log


def test_pages_are_the_same_without_hostile_lines(by_hostile_log: tuple[int, str, str]) -> None:
    texts = texts_of("all")
    assert texts == texts_of("gamma")
    assert [name for name, text in texts.items() if "<script>alert" in text] == []


def test_log_that_is_not_there_is_refused() -> None:
    assert make_by_log("gamma", "nosuch.log") == (1, "", "catalog: nosuch.log: No such file or directory")


def test_folder_is_no_log() -> None:
    assert make_by_log("gamma", ".")[0] == 1


def test_empty_log_makes_no_column() -> None:
    write({"empty.log": b""})
    assert make_by_log("gamma", "empty.log", "empty")[0] == 0
    heads = [tag for tag, _ in Page("empty/m/example.com/log/index.html").tags if tag == "th"]
    assert len(heads) == 4 + 3 + 7 + 4


def find_stamp(folder: str) -> tuple[str, str]:
    """Returns what the foot of the pages says of their age: the moment and the number of versions."""
    form = r'\.made::after \{ content: " Made at (.+) of ([\d,]+) versions?\."; \}\n(\.findings::after .*\n)?'
    found = re.fullmatch(form, read(f"{folder}/parts/made.css").decode())
    assert found
    return found[1], found[2]


def test_foot_says_when_the_pages_were_made() -> None:
    assert make_by_log("gamma", folder="now")[0] == 0
    moment, count = find_stamp("now")
    made = datetime.strptime(moment, "%Y-%m-%d %H:%M").replace(tzinfo=timezone.utc)
    assert 0 <= (datetime.now(timezone.utc) - made).total_seconds() < 180
    assert count == "12"
    assert all('<p class="made">' in text for text in texts_of("now").values())


def test_style_says_how_many_findings_there_are() -> None:
    style = read("gamma/parts/made.css").decode()
    assert style.endswith('.findings::after { content: "3"; content: "3" / " 3 findings"; }\n')
    # (each of three sections of the page has one)
    assert re.findall(r'class="count bad">(\d+)<', read("gamma/health/index.html").decode()) == ["1"] * 3
    for page in pages_in("gamma").values():
        assert [values["href"] for _, values in page.tags if values.get("class") == "findings"], page.name


STAMPED: dict[str, tuple[Callable[[], str], str]] = {
    "the same lines": (lambda: make_by_log("gamma", folder="stamped")[1], "nothing changed\n"),
    "--still": (lambda: tool("--still", "stamped", "gamma")[1], "2 folders are as they were\n"),
}


@pytest.mark.parametrize(("run", "printed"), STAMPED.values(), ids=STAMPED)
def test_run_without_news_says_the_time_anew(run: Callable[[], str], printed: str) -> None:
    assert make_by_log("gamma", folder="stamped")[0] == 0
    style, folder = "stamped/parts/made.css", os.readlink("stamped")
    os.utime(style, (1, 1))
    write({style: "old\n"})
    assert run() == printed
    assert find_stamp("stamped")[1] == "12"
    assert time.time() - os.stat(style).st_mtime < 180
    assert os.readlink("stamped") == folder, "it is the same folder"


def test_foot_counts_one_version() -> None:
    assert tool("--to", "one", "--shelf", "alpha", lines=line_of(Latest=True))[0] == 0
    assert 'of 1 version."' in read("one/parts/made.css").decode()


@pytest.mark.parametrize(
    ("words", "status", "error"),
    [
        ("--still", 2, "--still needs"),
        ("--still --to", 2, "--still needs"),
        ("--still nosuch", 1, "nosuch has no pages"),
        ("--still mine", 1, "mine was not made by this command"),
        ("--still nosuch gamma", 1, "nosuch has no pages"),
    ],
)
def test_still_without_pages_is_refused(words: str, status: int, error: str) -> None:
    made = tool(*words.split())
    assert made[:2] == (status, "") and error in made[2]


def test_still_stamps_the_folders_that_have_pages() -> None:
    assert make_by_log("gamma", folder="half")[0] == 0
    write({"half/parts/made.css": "old\n"})
    assert tool("--still", "nosuch", "half")[0] == 1
    assert find_stamp("half")[1] == "12"
