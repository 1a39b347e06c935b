"""The pages of shelves as a person sees them: a headless Chromium logs in at nginx, searches, reads and follows links.

With PICTURES=FOLDER in the environment the tests also write there what they see, as PNG files of each look.
"""

import os
import subprocess
from collections.abc import Iterator
from urllib.parse import quote

import pytest

from catalog_lib import search
from lib.browser import Page
from lib.catalog_front import AT, USERS, Visitors
from lib.catalog_store import EVIL
from lib.catalog_words import modules_of
from lib.catalog_zips import published
from lib.peers import exchanged
from lib.program import columns
from lib.scratch import opened

pytestmark = [
    pytest.mark.root,
    pytest.mark.needs("chromium", "nginx", "nginx-js", "nginx-stream", "openssl", "sqlite3", "tidy"),
]
LOG, RPC, APP = (f"example.com/{name}" for name in ("log", "rpc", "gamma/app"))
PATHS = "#list tbody tr th a"
FOUND = "#results tbody tr th a"
NARROW = {"width": 360, "height": 740}
LOOKS = {"light": {}, "dark": {"is_dark": True}, "narrow": NARROW, "narrow and dark": {**NARROW, "is_dark": True}}
PAGES = {"modules": "/", "health": "/health/", "module": f"/m/{LOG}/", "users": f"/m/{RPC}/"}


@pytest.fixture(scope="module")
def visitors() -> Iterator[Visitors]:
    """The visitors of a machine with pages."""
    with opened(Visitors) as made:
        yield made


def target_of(page: Page) -> str:
    return page.value("location.pathname")


@pytest.mark.parametrize(("user", "count"), [("ann", 2), ("gus", 5), ("pam", 3)])
def test_person_logs_in_once_and_sees_the_own_shelf(visitors: Visitors, user: str, count: int) -> None:
    page = visitors.visit(user)
    assert (page.value("document.title"), len(page.shown(PATHS))) == (f"{USERS[user]}: modules", count)
    assert (page.logins, page.faults) == (1, [])


def test_wrong_password_is_asked_for_again(visitors: Visitors) -> None:
    stranger = visitors.browser.page(("ann", "wrong"))
    stranger.go(visitors.url)
    assert (stranger.shown("h1"), stranger.logins) == (["Log in"], 2)


class TestSearch:
    """The search finds modules as one types, the best match first, and the URL has what was typed."""

    @pytest.fixture
    def page(self, visitors: Visitors) -> Page:
        """The first page of gamma, in whose box one types."""
        page = visitors.visit("gus")
        page.press("/", "/")
        assert page.value("document.activeElement.id") == "search"
        return page

    @pytest.mark.parametrize(
        ("typed", "paths", "sentence"),
        [
            ("lo", [LOG], "1 of 5 modules."),
            ("log exa", [LOG], "1 of 5 modules."),
            ("log exax", [LOG], "No module has all of these words; 1 of 5 modules has 1 of them."),
        ],
    )
    def test_what_is_typed_is_found(self, page: Page, typed: str, paths: list[str], sentence: str) -> None:
        page.type(typed)
        page.until(f"document.querySelector('#found').innerText === {sentence!r}")
        assert page.shown(FOUND) == paths
        assert page.value("location.search") == f"?q={quote(typed)}"

    def test_escape_shows_all_again(self, visitors: Visitors, page: Page) -> None:
        everything = page.shown(PATHS)
        page.type("x")
        page.until("document.querySelector('#list').hidden")
        page.press("Escape")
        page.until("!document.querySelector('#list').hidden")
        assert (page.shown(PATHS), page.shown("#found")) == (everything, ["5 modules"])
        assert page.value("location.href") == f"{visitors.url}/"

    def test_result_leads_to_its_module_and_back(self, page: Page) -> None:
        page.type("GAMMA")
        page.until("document.querySelectorAll('#results tbody tr').length === 2")
        assert page.shown(FOUND) == [APP, "example.com/gamma/pseudo"], "capitals do not count"
        page.press("Enter", "\r")
        assert (target_of(page), len(page.shown(FOUND)), page.faults) == ("/", 2, []), "Enter leaves the page as it is"
        page.follow(f"#results a[href='m/{APP}/']")
        assert (target_of(page), page.shown("h1")) == (f"/m/{APP}/", [APP])
        page.back()
        page.until("document.querySelectorAll('#results tbody tr').length === 2")
        assert (target_of(page), page.shown(FOUND)[0]) == ("/", APP), "it is still searched"


# what is searched for, the first modules that are found, and the sentence
SEARCHES = """
dbpool | example.com/dbpool | 2 of 6 modules.
dbpol | example.com/dbpool example.com/my-dbpool | No module has “dbpol”; 2 of 6 modules have a word like it.
connections | example.com/dbpool | 1 of 6 modules.
pooldriver | example.com/dbpool | 1 of 6 modules.
midleware | github.com/acme/web-middleware | No module has “midleware”; 1 of 6 modules has a word like it.
handels | github.com/acme/web-middleware | No module has “handels”; 1 of 6 modules has a word like it.
walrus | github.com/acme/web-middleware | 1 of 6 modules.
example.com/dbpool/pooldriver | example.com/dbpool | pooldriver is a package of example.com/dbpool.
example.com/dbpool@v1.0.0 | example.com/dbpool | This is example.com/dbpool, asked for at v1.0.0.
go get example.com/DBPOOL@v1.0.0 | example.com/dbpool | This is example.com/dbpool, asked for at v1.0.0.
"example.com/dbpool/nosuch" | example.com/dbpool | nosuch is below the path of example.com/dbpool.
https://github.com/acme/web-middleware | github.com/acme/web-middleware | This is github.com/acme/web-middleware.
keeps the connections | example.com/dbpool | 1 of 6 modules. Too common to count: the.
“The walrus is in the README alone.” | github.com/acme/web-middleware | \
1 of 6 modules. Too common to count: the, is, in, readme.
connections walrus | example.com/dbpool github.com/acme/web-middleware | \
No module has all of these words; 2 of 6 modules have 1 of them.
ostrich | example.com/dbpool | 1 of 6 modules.
github.com/acme/web-midleware | github.com/acme/web-middleware | \
No module has “midleware”; 1 of 6 modules has a word like it.
the | | No module has “the”, and READMEs are not searched for so common a word.
<script>alert(1)</script> | | No module has “<script>alert(1)</script>”.
"""
DBPOOL = {
    "README.md": "# Pool\n\nIt keeps connections.\n",
    "pool.go": "// Package dbpool keeps connections.\npackage dbpool\n",
    "pooldriver/d.go": "// Package pooldriver speaks Ostrich.\npackage pooldriver\n",
}
WEB = {
    "README.md": "# Web\n\nThe walrus is in the README alone.\n\n<img src=x onerror=alert(1)>\n",
    "web.go": "// Package web handles requests.\npackage web\n",
}


class TestWords:
    """The search reads what modules are for: their packages, their sentences and the words of their READMEs."""

    @pytest.fixture(scope="class", autouse=True)
    def published(self, visitors: Visitors) -> None:
        """Modules with packages and READMEs on the shelf delta."""
        machine = visitors.reader.machine
        for path, files in (
            ("example.com/dbpool", DBPOOL),
            ("example.com/my-dbpool", {}),
            ("github.com/acme/web-middleware", WEB),
        ):
            reply = exchanged(machine.behind, published("D", path, "v1.0.0", files))
            assert reply.startswith(b"HTTP/1.1 201 "), reply
        machine.does("goshelf-catalog")

    @pytest.mark.parametrize("row", SEARCHES.split("\n")[1:-1], ids=lambda row: row.partition(" | ")[0])
    def test_search(self, visitors: Visitors, row: str) -> None:
        text, paths, sentence = columns(row, 3)
        page = visitors.visit("dee", f"/?q={quote(text)}")
        page.until("document.querySelector('#found').innerText !== '6 modules'")
        assert page.shown(FOUND)[: len(paths.split())] == paths.split()
        assert (page.shown("#found"), page.faults) == ([sentence], [])
        assert (page.shown("#unlisted") == []) == bool(paths), "who finds nothing reads what is not listed"

    def test_result_leads_to_readme_packages_and_files(self, visitors: Visitors) -> None:
        page = visitors.visit("dee")
        page.press("/", "/")
        page.type("walrus")
        page.until("document.querySelectorAll('#results tbody tr').length === 1")
        page.follow("#results tbody a")
        assert page.shown(".synopsis") == ["Package web handles requests."]
        texts = {"readme": "The walrus is in the README alone.", "packages": "web", "files": "web.go"}
        for name, text in texts.items():
            page.follow(f".tabs a[href='{name}.html']")
            assert text in page.value("document.body.innerText"), name
        assert page.faults == [], "nothing is loaded from elsewhere, and nothing is wrong"

    def test_script_of_another_page_gets_an_error_for_the_words(self, visitors: Visitors) -> None:
        error = visitors.visit("dee").value(
            "new Promise((done) => { addEventListener('error', (it) => done(it.message), {once: true});"
            "document.body.append(Object.assign(document.createElement('script'), {src: 'parts/modules.js'})); })"
        )
        assert "Unexpected token 'export'" in error


# types a word, letter by letter, and notes how many milliseconds each takes until what it finds is laid out
PRESSES = """(async (word) => {
    const [input, found, times] = [document.querySelector("#search"), document.querySelector("#found"), []];
    for (let end = 1; end <= word.length; end += 1) {
        const told = new Promise((done) => new MutationObserver(done).observe(found, {childList: true}));
        const begin = performance.now();
        input.value = word.slice(0, end);
        input.dispatchEvent(new Event("input"));
        await told;
        document.body.getBoundingClientRect();
        times.push(performance.now() - begin);
    }
    return times;
})"""


class TestLargeSearch:
    """The search knows 10,000 modules, with as many words of READMEs as fit."""

    @pytest.fixture(scope="class")
    def page(self, visitors: Visitors) -> Iterator[Page]:
        """The first page of delta, whose search knows these modules."""
        name = f"{visitors.reader.machine.folder}/{AT}/delta/parts/modules.js"
        os.rename(name, f"{name}.before")
        with open(name, "wb") as file:
            file.write(search.script(*modules_of(10_000, 60))[0])
        try:
            page = visitors.visit("dee", "/?q=example.com")
            page.until("document.querySelector('#found').innerText.startsWith('10,000 of 10,000 modules')")
            yield page
        finally:
            os.replace(f"{name}.before", name)

    @pytest.mark.parametrize("word", ["zebraak", "team3/m00", "serverabc", "own270fq"])
    def test_key_press_takes_less_than_50_ms(self, page: Page, word: str) -> None:
        # (the least of some rounds, because other tests run beside this one)
        rounds = [page.value(f"{PRESSES}({word!r})") for _ in range(5)]
        assert max(map(min, zip(*rounds, strict=True))) < 50
        assert page.shown(FOUND) or word == "serverabc"
        assert page.faults == []


class TestLinks:
    """A person opens a module, copies how to get it, and goes to who uses it, to a go.mod and to the health page."""

    @pytest.fixture
    def page(self, visitors: Visitors) -> Iterator[Page]:
        """The page of a module, which one opens from the list. Its console has no word in the end."""
        page = visitors.visit("gus")
        page.follow(f"a[href='m/{LOG}/']")
        assert (target_of(page), page.shown("h1")) == (f"/m/{LOG}/", [LOG])
        yield page
        assert page.faults == []

    def test_button_copies_how_to_get_it(self, page: Page) -> None:
        assert page.shown("#get") == [f"go get {LOG}@v1.2.0"]
        page.browser.call("Browser.grantPermissions", permissions=["clipboardReadWrite", "clipboardSanitizedWrite"])
        page.click("button.copy")
        page.until("document.querySelector('button.copy').innerText !== 'Copy'")
        assert page.shown("button.copy") == ["Copied"]

    def test_users_are_in_a_graph_and_a_table(self, page: Page) -> None:
        page.click(".jumps a[href='#users']")
        assert page.value("location.hash") == "#users"
        assert page.value("document.querySelectorAll('.graph rect').length") == 4
        page.follow("#users ~ .wide tbody tr:nth-child(3) a")
        assert (target_of(page), page.shown("h1")) == (f"/m/{RPC}/", [RPC])
        assert page.shown("#requires ~ .wide tbody tr")[0].split() == [LOG, "v1.1.0", "retracted"]

    def test_gomod_is_a_text(self, visitors: Visitors, page: Page) -> None:
        page.go(f"{visitors.url}/m/{RPC}/")
        page.follow("#versions ~ .wide tbody tr:nth-child(2) td:last-child a")
        assert (target_of(page), page.value("document.contentType")) == (f"/{RPC}/@v/v1.0.0.mod", "text/plain")
        assert page.value("document.body.innerText.split('\\n')[0]") == f"module {RPC}"

    def test_health_page_leads_to_what_needs_attention(self, visitors: Visitors, page: Page) -> None:
        badge = "getComputedStyle(document.querySelector('a.findings'), '::after').content"
        # (four of the go.mods, and five zips that are none)
        assert page.value(badge) == '"9" / " 9 findings"'
        page.go(visitors.url + "/health/")
        assert page.shown(".facts") == ["9 findings"]
        page.follow("#missing ~ .wide a")
        assert target_of(page) == f"/m/{APP}/"


def test_keys_alone_lead_to_a_module(visitors: Visitors) -> None:
    page = visitors.visit("ann")
    page.press("Tab")
    assert page.shown(".skip:focus") == ["Skip to the content"]
    page.press("Enter", "\r")
    assert page.value("document.activeElement.id") == "main"
    page.press("Tab")
    assert page.value("document.activeElement.id") == "search"
    page.press("Tab")
    assert page.value("document.activeElement.tagName") == "SUMMARY", "the box that sets a machine up"
    page.press("Enter", "\r")
    page.until("!document.querySelector('details.setup').open")
    page.press("Tab")
    # (the table, which may be wider than the window)
    assert page.value("document.activeElement.className") == "wide"
    page.press("Tab")
    page.loaded(lambda: page.press("Enter", "\r"))
    assert target_of(page) == "/m/example.com/both/"


def test_without_scripts_all_is_there_but_the_search(visitors: Visitors) -> None:
    page = visitors.visit("gus", has_scripts=False)
    assert len(page.shown(PATHS)) == 5
    assert page.shown("form, input") == []
    page.follow(f"a[href='m/{LOG}/']")
    assert (page.shown("h1"), page.shown("button")) == ([LOG], [])
    page.follow("#users ~ .wide tbody a")
    assert (page.shown("h1"), page.faults) == ([APP], [])


COLOURS = "(it => [it.backgroundColor, it.color])(getComputedStyle(document.body))"
WIDER = "document.documentElement.scrollWidth - document.documentElement.clientWidth"


@pytest.mark.parametrize("look", LOOKS)
@pytest.mark.parametrize(("name", "target"), PAGES.items(), ids=PAGES)
def test_page_fits(visitors: Visitors, look: str, name: str, target: str) -> None:
    page = visitors.visit("gus", target, **LOOKS[look])
    assert (page.value(WIDER), page.faults) == (0, [])
    if folder := os.environ.get("PICTURES"):
        page.draw(os.path.join(folder, f"{name}-{look.replace(' ', '-')}.png"))


@pytest.mark.parametrize("target", PAGES.values(), ids=PAGES)
def test_dark_has_another_ground_and_other_words(visitors: Visitors, target: str) -> None:
    light, dark = (visitors.visit("gus", target, is_dark=is_dark).value(COLOURS) for is_dark in (False, True))
    assert light[0] != dark[0] and light[1] != dark[1]


def targets_of(visitors: Visitors, shelf: str) -> list[str]:
    """Returns the targets of the pages of a shelf."""
    found, top = [], os.path.realpath(f"{visitors.reader.machine.folder}/var/lib/goshelf-catalog/{shelf}")
    for at, _, names in os.walk(top):
        found += ["/" + os.path.relpath(os.path.join(at, name), top) for name in names if name.endswith(".html")]
    return sorted(target.removesuffix("index.html") for target in found)


@pytest.mark.parametrize(("user", "shelf"), USERS.items(), ids=USERS)
class TestEachPage:
    def test_nothing_runs_or_is_loaded_from_elsewhere(self, visitors: Visitors, user: str, shelf: str) -> None:
        page = visitors.visit(user)
        for target in targets_of(visitors, shelf):
            page.go(visitors.url + target)
        assert page.faults == []
        assert [url for url in page.asked if not url.startswith(f"{visitors.url}/")] == []

    def test_is_valid_html(self, visitors: Visitors, user: str, shelf: str) -> None:
        words = ["tidy", "-q", "-e", "--show-info", "no", "--drop-proprietary-attributes", "no"]
        for target in targets_of(visitors, shelf):
            ran = subprocess.run(words, input=visitors.reader.read(target, user)[2], capture_output=True)
            lines = ran.stderr.decode().splitlines()
            assert [line for line in lines if "proprietary attribute" not in line] == [], target


def test_gomod_that_is_html_is_a_text(visitors: Visitors) -> None:
    page = visitors.visit("gus", f"/{LOG}/@v/v1.2.0.mod")
    assert page.value("document.contentType") == "text/plain"
    assert EVIL in page.value("document.body.innerText") and page.faults == []


FOREIGN = {
    "a script in the page": "Object.assign(document.createElement('script'), {text: 'window.evil = 1'})",
    "a script from elsewhere": "Object.assign(document.createElement('script'), {src: 'https://example.com/x.js'})",
    "a style in the page": "Object.assign(document.createElement('style'), {textContent: 'body {color: red}'})",
    "an image from elsewhere": "Object.assign(document.createElement('img'), {src: 'https://example.com/x.png'})",
    "a frame": "Object.assign(document.createElement('iframe'), {src: '/'})",
}


@pytest.mark.parametrize("made", FOREIGN.values(), ids=FOREIGN)
def test_policy_refuses_what_is_not_ours(visitors: Visitors, made: str) -> None:
    page = visitors.visit("gus", f"/m/{LOG}/")
    disposition = page.value(
        "new Promise((done) => { document.addEventListener('securitypolicyviolation', (it) => done(it.disposition),"
        f" {{once: true}}); document.body.append({made}); setTimeout(() => done('it runs'), 30000); }})"
    )
    assert disposition == "enforce"
    assert page.value("window.evil") is None
