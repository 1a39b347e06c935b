"""The pages as each reader meets them: set up by the box, refused by nginx, on a phone, by keys alone, in each colour.

A headless Chromium reads what nginx sends, and the real go command does what the box says. With PICTURES=FOLDER in the
environment the tests also write there what they see, as PNG files of 1280 and 360 points, light and dark.
"""

import base64
import contextlib
import hashlib
import json
import os
import re
import subprocess
from collections.abc import Callable, Iterator
from email.message import Message
from typing import NamedTuple

import pytest

from lib import go_command
from lib.browser import Page
from lib.catalog_example import DBPOOL, OLD, VERSIONS, gomod_of
from lib.catalog_front import TOOL, Visitors
from lib.catalog_looks import CONTRASTS, CUT, FOCUSED, REACHED
from lib.catalog_store import TODAY
from lib.catalog_zips import zipped
from lib.modules import module
from lib.scratch import opened, read, write

pytestmark = [
    pytest.mark.root,
    pytest.mark.needs("chromium", "curl", "go", "nginx", "nginx-js", "nginx-stream", "openssl", "sqlite3", "tidy"),
]
LOG, RPC, NEW = (f"example.com/{it}" for it in ("log", "rpc", "gamma/new"))
WIDTHS = (1_280, 360)
BOX = "details.setup"
PAGES = {"first": "/", "module": f"/m/{LOG}/", "health": "/health/", "new": f"/m/{NEW}/"}
# what a browser sends, and what nginx says to it: the target, the status, the title, and the text that others get
HTML = "text/html,application/xhtml+xml,*/*;q=0.8"
ERRORS = {
    "no module": ("/nosuch", 404, "Nothing is here", "not found\n"),
    "no page": ("/m/nosuch/", 404, "No such page", "no such page; those of a shelf are made every few minutes\n"),
    "a key in the URL": (
        "/k/0123456789abcdef/-/modules",
        404,
        "A key does not go into the URL",
        "the key does not go into the URL, but into ~/.netrc, as the password\n",
    ),
    "no database": (
        f"/sumdb/sum.golang.org/lookup/{LOG}@v1.2.0",
        404,
        "No checksum database has this module",
        "no checksum database has the company's paths: set GONOSUMDB\n",
    ),
    "taken out": (f"/{RPC}/@v/v1.0.0.mod", 403, "This version was taken out", "taken out\n"),
    "no public proxy": (
        "/golang.org/x/text/@v/list",
        502,
        "The public proxy does not answer",
        "the public proxy does not answer: try again in a minute\n",
    ),
}
LATER = {
    "not logged in": (
        "/",
        401,
        "Log in",
        "log in: no such key; the go command takes it from ~/.netrc, as the password\n",
    ),
    "too often": ("/", 429, "Too many requests at once", "too many requests at once\n"),
    "goshelf is away": (
        "/-/modules",
        502,
        "goshelf does not answer",
        "goshelf does not answer: try again in a minute, and if it stays, tell the operator\n",
    ),
}
# what goshelf answers, also to a browser: a target and the status
OURS = ((f"/{LOG}/@v/v9.0.0.mod", 404), (f"/{LOG}/@v/list", 200), ("/-/modules", 200), ("/-/nosuch", 404))


# what pages of modules with odd paths and tables of each kind are, by their readers
# (those of dee are of modules with READMEs, packages, a deprecation and a retraction)
ALL = {
    "gus": [*PAGES.values(), f"/m/{RPC}/", "/m/example.com/gamma/pseudo/"],
    "bea": ["/", "/health/", "/m/example.com/Beta/UI/v2/"],
    "dee": [
        *("/", "/health/", "/?q=connections", f"/m/{OLD}/", f"/m/{DBPOOL}/"),
        *(f"/m/{DBPOOL}/{name}.html" for name in ("readme", "packages", "files", "versions")),
    ],
}
TARGETS = [(user, target) for user, targets in ALL.items() for target in targets]
LOOKS = [(width, is_dark) for width in WIDTHS for is_dark in (False, True)]


class Readers(Visitors):
    """Visitors of pages of today. Versions were published through nginx, and one was taken out."""

    def __init__(self, folder: str) -> None:
        super().__init__(folder)
        self.machine = self.reader.machine
        self.machine.write("root/tools/catalog", TOOL.replace(f" --today {TODAY}", ""))
        self.reader.add("pub", "gamma", "publish")
        self.reader.add("dev", "delta", "publish")
        self.publish("pub", *module(NEW, "v1.0.0"))
        for day, version in enumerate(VERSIONS, 10):
            gomod = gomod_of(version)
            content = zipped(version.path, version.version, {"go.mod": gomod, **version.files})
            when = f"2026-11-{day}T09:30:00Z"
            self.publish("dev", version.path, version.version, gomod.encode(), content, "-H", f"Version-Time: {when}")
        self.machine.does(f"goshelf-front take-out {RPC} v1.0.0")
        made = self.machine.sh("goshelf-catalog")
        assert made[0] == 0 and "\ngamma: " in made[1], made

    @contextlib.contextmanager
    def changed(self, text: str, other: str) -> Iterator[None]:
        """Has nginx read another text in its locations, until the block ends."""
        name = "etc/nginx/goshelf/locations.conf"
        self.machine.edit(name, (text, other))
        self.machine.does("nginx -s reload")
        try:
            yield
        finally:
            self.machine.edit(name, (other, text))
            self.machine.does("nginx -s reload")

    def publish(self, user: str, path: str, version: str, gomod: bytes, content: bytes, *more: str) -> None:
        """Publishes a version through nginx."""
        words = ["curl", "-s", "-o", "/dev/null", "-w", "%{http_code}", "--cacert", self.reader.pem, "-T", "-", *more]
        words += ["-H", f"Authorization: {self.reader.login(user)}", "-H", f"Mod-Length: {len(gomod)}"]
        words.append(f"{self.url}/{path}/@v/{version}")
        status = subprocess.run(words, input=gomod + content, capture_output=True).stdout
        assert status == b"201", (path, version, status)


@pytest.fixture(scope="module")
def readers() -> Iterator[Readers]:
    """The readers of a machine with pages of today."""
    with opened(Readers) as made:
        yield made


def is_open(page: Page) -> bool:
    return page.value(f"document.querySelector('{BOX}').open")


class TestBox:
    """The box stands open until its reader has shut it, and a link from the page of a module opens it again."""

    @pytest.fixture
    def page(self, readers: Readers) -> Iterator[Page]:
        """The first page, in a browser that was never here. Its console has no word in the end."""
        page = readers.visit("gus")
        yield page
        assert page.faults == []

    def test_new_reader_finds_it_open_with_the_own_name(self, page: Page) -> None:
        assert is_open(page)
        assert "login gus password YOUR-KEY" in page.shown("#setup-netrc")[0]
        assert page.shown("var.login") == ["gus"]

    def test_lines_are_copied(self, page: Page) -> None:
        page.browser.call("Browser.grantPermissions", permissions=["clipboardReadWrite", "clipboardSanitizedWrite"])
        page.click("button[data-from=setup-go]")
        page.until("document.querySelector('button[data-from=setup-go]').innerText !== 'Copy'")
        assert page.shown("button[data-from=setup-go]") == ["Copied"]

    def test_stays_shut_once_it_was_shut(self, readers: Readers, page: Page) -> None:
        page.click(f"{BOX} summary")
        page.until(f"!document.querySelector('{BOX}').open && localStorage.getItem('setup') !== null")
        for target in ("/", "/health/", "/"):
            page.go(readers.url + target)
        assert not is_open(page)
        assert is_open(readers.visit("gus")), "another browser finds it open"

    def test_module_has_its_own_box_with_a_link(self, readers: Readers, page: Page) -> None:
        page.click(f"{BOX} summary")
        page.until("localStorage.getItem('setup') !== null")
        page.go(f"{readers.url}/m/{NEW}/")
        assert not is_open(page)
        page.click(f"{BOX} summary")
        page.until(f"document.querySelector('{BOX}').open")
        run = f"goshelf-publish --to https://localhost --netrc --repository . {NEW} TAG"
        assert page.shown("#setup-run") == [run]
        page.follow(f"{BOX} a[href$='#setup-undo']")
        assert (is_open(page), page.value("location.hash")) == (True, "#setup-undo")

    def test_without_scripts_it_is_shut_and_opens(self, readers: Readers) -> None:
        page = readers.visit("gus", has_scripts=False)
        assert (is_open(page), page.shown(f"{BOX} summary")) == (False, ["Set me up"])
        page.click(f"{BOX} summary")
        assert (is_open(page), page.shown("#setup-unset")) == (True, ["go env -u GOPROXY GONOSUMDB GONOPROXY"])


def test_go_obeys_the_box(readers: Readers, folder: str) -> None:
    """The real go command, told by the lines of the box alone, gets a module; and the box undoes them."""
    page = readers.visit("gus")
    text = {
        name: page.value(f"document.getElementById('setup-{name}').textContent")
        for name in ("netrc", "go", "try", "unset")
    }
    write({".netrc": text["netrc"].replace("YOUR-KEY", readers.reader.passwords["gus"]) + "\n"})
    env = go_command.settings(
        folder, SSL_CERT_FILE=readers.reader.pem, GOENV=f"{folder}/env", GOCACHE=f"{folder}/cache"
    )

    def sh(script: str) -> subprocess.CompletedProcess[str]:
        # (a browser's port is not that of the page, which is nginx's own)
        script = script.replace("https://localhost", readers.url)
        return subprocess.run(["sh", "-euc", script], env=env, capture_output=True, text=True, timeout=300)

    ran = sh(text["go"] + "go env GOPROXY GONOSUMDB GONOPROXY")
    assert (ran.returncode, ran.stdout) == (0, f"{readers.url}\nexample.com\nnone\n"), ran.stderr
    ran = sh(text["try"])
    assert (ran.returncode, ran.stdout) == (0, "example.com/both v1.0.0 v1.0.1\n"), ran.stderr
    ran = sh(f"go list -m -f '{{{{.Version}}}}' {NEW}@latest")
    assert (ran.returncode, ran.stdout) == (0, "v1.0.0\n"), ran.stderr
    ran = sh(f"mkdir app && cd app && go mod init my.example/app 2> /dev/null && go get {NEW}@v1.0.0 && cat go.sum")
    assert ran.returncode == 0 and ran.stdout.count(NEW) == 2, ran
    sh(text["unset"])
    assert read("env").strip() == b""


class TestNews:
    """What was published through nginx is new this week, with the name of who published it."""

    def test_first_page_and_page_of_the_module_say_so(self, readers: Readers) -> None:
        page = readers.visit("gus")
        rows = [re.sub(r"\d{4}-\d\d-\d\d \d\d:\d\d", "NOW", row) for row in page.shown("#fresh ~ .wide tbody tr")]
        assert [row.split() for row in rows] == [[NEW, "v1.0.0", "NOW", "by", "pub", "1"]]
        page.follow("#fresh ~ .wide tbody a")
        shown = page.shown("#versions ~ .wide tbody tr")[0]
        assert re.search(r"\d{4}-\d\d-\d\d \d\d:\d\d by pub", shown)

    def test_foot_says_when_the_pages_were_made(self, readers: Readers) -> None:
        page = readers.visit("gus")
        foot = page.value("getComputedStyle(document.querySelector('footer p'), '::after').content")
        assert re.fullmatch(r'" Made at [\d-]+ [\d:]+ of 13 versions."', foot), foot

    @pytest.mark.parametrize("user", ["ann", "bea", "pam", "dee"])
    def test_others_see_nothing_of_it(self, readers: Readers, user: str) -> None:
        text = readers.visit(user).value("document.body.innerText")
        assert NEW not in text and "by pub" not in text

    def test_search_hides_what_is_new(self, readers: Readers) -> None:
        page = readers.visit("dee", "/?q=connections")
        page.until("document.querySelector('#list').hidden")
        assert page.shown("#fresh") == []
        page.press("/", "/")
        page.press("Escape")
        page.until("!document.querySelector('#list').hidden")
        assert page.shown("#fresh") == ["New this week"]


class TestDeleted:
    """Without news, a run says that the pages are of now; and it makes those again that somebody deleted."""

    def test_run_without_news_stamps_the_pages(self, readers: Readers) -> None:
        styles = [
            f"{readers.machine.folder}/var/lib/goshelf-catalog/{name}/parts/made.css" for name in ("alpha", "gamma")
        ]
        readers.machine.does("goshelf-catalog")
        for style in styles:
            os.utime(style, (1, 1))
        assert readers.machine.sh("goshelf-catalog") == (0, "nothing has changed\n", "")
        assert min(os.stat(style).st_mtime for style in styles) > 1

    def test_deleted_pages_are_made_again(self, readers: Readers) -> None:
        readers.machine.does("rm /var/lib/goshelf-catalog/alpha")
        assert readers.reader.read("/", "ann")[0] == 404
        made = readers.machine.sh("goshelf-catalog")
        assert made[0] == 0 and "alpha: " in made[1], made
        assert readers.visit("ann").shown("h1") == ["Modules of alpha"]


class Refusal(NamedTuple):
    """What nginx answers at a target: the status, the title of its page, and the text that others than browsers get."""

    target: str
    status: int
    title: str
    text: str


def ask(readers: Readers, target: str, user: str | None, accept: str = "*/*") -> tuple[int, str, str, Message]:
    """Returns what somebody gets at a target: status, kind, text and headers."""
    status, headers, body = readers.reader.read(target, user, Accept=accept)
    return status, headers["Content-Type"], body.decode(), headers


def check_refusal(readers: Readers, user: str | None, refusal: Refusal) -> None:
    """nginx says a text to the go command, and shows a page to a browser that asks for nothing else."""
    target, status, title, text = refusal
    assert ask(readers, target, user)[:3] == (status, "text/plain; charset=utf-8", text)
    found, kind, page, headers = ask(readers, target, user, HTML)
    assert (found, kind) == (status, "text/html; charset=utf-8")
    style = re.search("<style>(.*)</style>", page, re.S)
    assert style
    digest = base64.b64encode(hashlib.sha256(style[1].encode()).digest()).decode()
    policy = f"default-src 'none'; img-src 'self'; style-src 'sha256-{digest}'; "
    policy += "base-uri 'none'; form-action 'none'; frame-ancestors 'none'"
    assert headers["Content-Security-Policy"] == policy
    kept = headers["Cache-Control"], headers["X-Content-Type-Options"], headers["Cross-Origin-Resource-Policy"]
    assert kept == ("no-store", "nosniff", "same-origin")
    assert re.findall("<title>(.*)</title>", page) == [title]
    asks = re.findall(r"(?:src|href|action)=\"([^\"]*)\"|<script|url\(|https?:", page)
    assert [url for url in asks if not re.fullmatch(r"|\?|/|/favicon.ico|/#setup-\w+", url)] == []
    tidy = subprocess.run(["tidy", "-q", "-e", "--show-info", "no"], input=page.encode(), capture_output=True)
    assert [line for line in tidy.stderr.decode().splitlines() if "proprietary attribute" not in line] == []


class TestRefusals:
    """Each refusal of nginx is a page with a way back for a browser, and a text for anybody else."""

    @pytest.mark.parametrize("refusal", [Refusal(*row) for row in ERRORS.values()], ids=ERRORS)
    def test_page_with_a_way_back(self, readers: Readers, refusal: Refusal) -> None:
        check_refusal(readers, "gus", refusal)
        page = readers.visit("gus", refusal.target)
        assert page.shown("h1") == [refusal.title]
        assert "gus" not in page.value("document.body.innerText")
        page.follow("nav a[href='/'], nav a[href^='/#']")
        assert page.shown("h1") == ["Modules of gamma"]

    @pytest.mark.parametrize(("target", "status"), OURS, ids=[target for target, _ in OURS])
    def test_goshelf_answers_a_browser_the_same(self, readers: Readers, target: str, status: int) -> None:
        plain, html = (readers.reader.read(target, "gus", Accept=accept)[::2] for accept in ("*/*", HTML))
        assert (plain[0], html) == (status, plain)

    def test_without_a_login(self, readers: Readers) -> None:
        check_refusal(readers, None, Refusal(*LATER["not logged in"]))

    def test_wrong_key_is_asked_for_again(self, readers: Readers) -> None:
        page = readers.browser.page(("gus", "0123456789abcdef"))
        page.go(readers.url)
        assert (page.logins, page.shown("h1")) == (2, ["Log in"])

    def test_while_goshelf_is_stopped(self, readers: Readers) -> None:
        readers.machine.does("systemctl stop goshelf")
        try:
            check_refusal(readers, "gus", Refusal(*LATER["goshelf is away"]))
            for width, is_dark in LOOKS:
                page = readers.visit("gus", f"/{LOG}/@v/list", width=width, height=740, is_dark=is_dark)
                check_looks(page, "goshelf is away", width, is_dark)
            assert page.shown("h1") == ["goshelf does not answer"]
            page.follow("nav a[href='/']")
            assert page.shown("h1") == ["Modules of gamma"], "the pages stay"
        finally:
            readers.machine.does("systemctl start goshelf")


class TestTooOften:
    """Whoever asks too often without a login gets a page too."""

    @pytest.fixture(scope="class")
    def until_often(self, readers: Readers) -> Iterator[Callable[[str], tuple[int, str, str, Message] | None]]:
        """Asks until it is too often, of an nginx that soon has enough."""
        with readers.changed("burst=20 nodelay", "burst=1 nodelay"):
            yield lambda accept: next(
                (it for _ in range(200) if (it := ask(readers, "/", None, accept))[0] == 429), None
            )

    @pytest.mark.parametrize("accept", ["*/*", HTML], ids=["the go command", "a browser"])
    def test_answer(
        self, readers: Readers, until_often: Callable[[str], tuple[int, str, str, Message] | None], accept: str
    ) -> None:
        _, status, title, text = Refusal(*LATER["too often"])
        answer = until_often(accept)
        assert answer and answer[0] == status
        if accept == HTML:
            assert answer[1] == "text/html; charset=utf-8" and f"<title>{title}</title>" in answer[2]
            for width, is_dark in LOOKS:
                page = readers.browser.page(width=width, height=740, is_dark=is_dark)
                page.value(f"(document.write({json.dumps(answer[2])}), document.close())")
                check_looks(page, "too often", width, is_dark)
        else:
            assert answer[1:3] == ("text/plain; charset=utf-8", text)


@pytest.mark.parametrize(("user", "target"), TARGETS, ids=[" ".join(row) for row in TARGETS])
class TestLooks:
    def test_phone_cuts_nothing_off(self, readers: Readers, user: str, target: str) -> None:
        page = readers.visit(user, target, width=360, height=740)
        assert page.value(CUT) == []

    @pytest.mark.parametrize(("width", "is_dark"), LOOKS, ids=[f"{width} {'dark' * dark}" for width, dark in LOOKS])
    def test_words_can_be_told_from_their_ground(
        self, readers: Readers, user: str, target: str, width: int, is_dark: bool
    ) -> None:
        page = readers.visit(user, target, width=width, is_dark=is_dark)
        bad, count = page.value(CONTRASTS)
        assert bad == [] and count > 3
        draw(page, f"{user}{target}", width, is_dark)


def check_looks(page: Page, name: str, width: int, is_dark: bool) -> None:
    """A page can be read, and a phone cuts nothing off."""
    bad, count = page.value(CONTRASTS)
    assert bad == [] and count > 3
    assert width > 360 or page.value(CUT) == []
    draw(page, name, width, is_dark)


def draw(page: Page, name: str, width: int, is_dark: bool) -> None:
    """Writes a picture of a page if PICTURES says where."""
    if folder := os.environ.get("PICTURES"):
        look = f"{width}-{'dark' if is_dark else 'light'}"
        page.draw(os.path.join(folder, f"{re.sub('[^a-z0-9]+', '-', name).strip('-')}-{look}.png"))


@pytest.mark.parametrize(("width", "is_dark"), LOOKS, ids=[f"{width} {'dark' * dark}" for width, dark in LOOKS])
@pytest.mark.parametrize("name", [*ERRORS, "not logged in"])
def test_refusal_can_be_read(readers: Readers, name: str, width: int, is_dark: bool) -> None:
    user = None if name == "not logged in" else "gus"
    page = readers.visit(user, ERRORS[name][0] if user else "/", width=width, height=740, is_dark=is_dark)
    check_looks(page, name, width, is_dark)


def test_phone_shows_all_of_a_row(readers: Readers) -> None:
    page = readers.visit("gus", f"/m/{LOG}/", width=360, height=740)
    assert page.shown("#get") == [f"go get {LOG}@v1.2.0"]
    cells = [" ".join(cell.split()) for cell in page.shown("#versions ~ .wide tbody tr:nth-child(2) td")]
    assert cells == ["latest", "2026-11-01", "1.0 MiB", "1.21", "common", "go.mod of v1.2.0"]


@pytest.mark.parametrize("width", WIDTHS)
@pytest.mark.parametrize("target", ["/", f"/m/{LOG}/", "/health/", "/nosuch"])
def test_tab_leads_through_all_of_a_page(readers: Readers, width: int, target: str) -> None:
    """What the key leads to comes in the order of the page, and is seen."""
    page = readers.visit("gus", target, width=width, height=740)
    page.value("document.querySelectorAll('details').forEach((it) => (it.open = true))")
    found = []
    for _ in range(page.value(f"({REACHED}).length")):
        page.press("Tab")
        found.append(page.value(FOCUSED))
    assert len(found) > 1
    assert found == [[number, True, True] for number in range(len(found))]


def test_keys_open_and_shut_the_box(readers: Readers) -> None:
    page = readers.visit("gus")
    page.press("Tab")
    assert page.shown(".skip:focus") == ["Skip to the content"]
    page.press("Enter", "\r")
    assert page.value("document.activeElement.id") == "main"
    page.press("Tab")
    assert page.value("document.activeElement.id") == "search"
    page.press("Tab")
    assert page.value("document.activeElement.tagName") == "SUMMARY"
    page.press("Enter", "\r")
    page.until(f"!document.querySelector('{BOX}').open")
    page.press(" ", " ")
    page.until(f"document.querySelector('{BOX}').open")
    assert page.faults == []


def test_developer_gets_along_by_the_pages_alone(readers: Readers) -> None:
    """Finds a module by a word of its README, and reads what it is for, what changed, and what to use instead."""
    page = readers.visit("dee")
    page.press("/", "/")
    page.type("replaced")
    page.until("document.querySelectorAll('#results tbody tr').length === 1")
    page.follow("#results tbody a")
    assert page.shown("h1") == [DBPOOL]
    page.follow(".tabs a[href='versions.html']")
    text = page.value("document.querySelector(\"section[aria-labelledby='v1.4.0']\").innerText")
    for part in ("Changed since v1.3.1", "Go 1.22 in place of 1.21.", "example.com/retry", "health.go", "by dev"):
        assert part in text, part
    page.follow(".tabs a[href='./']")
    assert "loses connections under load" in page.shown("#versions ~ .wide tbody tr")[1]
    page.go(f"{readers.url}/m/{OLD}/")
    assert page.shown(".notice") == [f"Deprecated: use {DBPOOL}."]
    assert page.faults == []
