"""A headless Chromium, which goes where a person would: it logs in, clicks, types and looks.

It is driven over a pipe, by messages of its DevTools protocol: https://chromedevtools.github.io/devtools-protocol/. It
finds no host but this one.
"""

import base64
import fcntl
import json
import os
import select
import signal
import subprocess
import time
from collections.abc import Callable
from typing import Any

WORDS = (
    "--headless --no-sandbox --disable-gpu --disable-dev-shm-usage --no-first-run --hide-scrollbars --no-proxy-server "
    "--disable-background-networking --disable-component-update --disable-sync --remote-debugging-pipe"
).split()
NOWHERE = "--host-resolver-rules=MAP * ~NOTFOUND, EXCLUDE localhost"
# seconds within which it answers, also on a busy machine
LIMIT = 60
# the elements of a page in which a person reads
SHOWN = "[...document.querySelectorAll({})].filter((it) => it.checkVisibility()).map((it) => it.innerText)"


def hash_of_key(pem: str) -> str:
    """The hash of the key of a certificate, by which the browser is told to take it."""
    key = subprocess.run(["openssl", "x509", "-in", pem, "-pubkey", "-noout"], capture_output=True, check=True).stdout
    words = ["openssl", "pkey", "-pubin", "-outform", "der"]
    der = subprocess.run(words, input=key, capture_output=True, check=True).stdout
    told = subprocess.run(["openssl", "dgst", "-sha256", "-binary"], input=der, capture_output=True, check=True).stdout
    return base64.b64encode(told).decode()


def high(descriptor: int) -> int:
    """The same file by a number above those that the browser reads and writes, 3 and 4."""
    copy = fcntl.fcntl(descriptor, fcntl.F_DUPFD_CLOEXEC, 10)
    os.close(descriptor)
    return copy


class Browser:
    """A browser, whose files are in a folder. It takes the certificate in a file."""

    def __init__(self, folder: str, pem: str) -> None:
        reads, self.writes = map(high, os.pipe())
        self.reads, writes = map(high, os.pipe())
        words = [
            *WORDS,
            NOWHERE,
            f"--user-data-dir={folder}",
            f"--ignore-certificate-errors-spki-list={hash_of_key(pem)}",
        ]
        files = [
            (os.POSIX_SPAWN_DUP2, reads, 3),
            (os.POSIX_SPAWN_DUP2, writes, 4),
            (os.POSIX_SPAWN_OPEN, 0, "/dev/null", os.O_RDONLY, 0),
            *(
                (os.POSIX_SPAWN_OPEN, it, f"{folder}.log", os.O_WRONLY | os.O_CREAT | os.O_APPEND, 0o600)
                for it in (1, 2)
            ),
        ]
        where = {**os.environ, "HOME": folder}
        self.pid = os.posix_spawnp("chromium", ["chromium", *words], where, file_actions=files, setpgroup=0)
        for it in (reads, writes):
            os.close(it)
        self.number, self.rest = 0, b""
        self.pages: dict[str, Page] = {}
        self.answers: dict[int, dict[str, Any]] = {}

    def send(self, method: str, session: str | None = None, **values: Any) -> int:
        """Sends a message and returns its number."""
        self.number += 1
        message = {"id": self.number, "method": method, "params": values}
        os.write(self.writes, json.dumps({**message, **({"sessionId": session} if session else {})}).encode() + b"\0")
        return self.number

    def call(self, method: str, session: str | None = None, **values: Any) -> dict[str, Any]:
        """Sends a message and returns what is answered."""
        number = self.send(method, session, **values)
        self.wait_until(lambda: number in self.answers)
        told = self.answers.pop(number)
        assert "error" not in told, (method, told)
        return told["result"]

    def wait_until(self, holds: Callable[[], bool]) -> None:
        """Takes messages until something holds. Answers are kept, and each page is told of its events."""
        end = time.monotonic() + LIMIT
        while not holds():
            message = self.message(end)
            if "id" in message:
                self.answers[message["id"]] = message
            elif page := self.pages.get(str(message.get("sessionId"))):
                page.told(message)

    def message(self, end: float) -> dict[str, Any]:
        """The next message."""
        while b"\0" not in self.rest:
            is_ready = select.select([self.reads], [], [], max(0, end - time.monotonic()))[0]
            part = os.read(self.reads, 1 << 20) if is_ready else b""
            assert part, "the browser has ended" if is_ready else f"the browser says nothing for {LIMIT} seconds"
            self.rest += part
        message, _, self.rest = self.rest.partition(b"\0")
        return json.loads(message)

    def page(self, login: tuple[str, str] | None = None, **look: Any) -> "Page":
        """Returns a new window of a person who has not logged in yet, and will do so by this name and password."""
        context = self.call("Target.createBrowserContext")["browserContextId"]
        target = self.call("Target.createTarget", url="about:blank", browserContextId=context)["targetId"]
        session = self.call("Target.attachToTarget", targetId=target, flatten=True)["sessionId"]
        return Page(self, session, login, **look)

    def close(self) -> None:
        for it in (self.reads, self.writes):
            os.close(it)
        os.killpg(self.pid, signal.SIGKILL)
        os.waitpid(self.pid, 0)


class Page:
    """A window. `faults` has what its console says is wrong, `logins` how often a login was asked for, and `asked` the
    URLs of what it loaded."""

    def __init__(self, browser, session, login, is_dark=False, width=1_200, height=900, has_scripts=True):
        self.browser, self.session, self.login, self.width = browser, session, login, width
        self.faults, self.logins, self.loads, self.asked = [], 0, 0, []
        browser.pages[session] = self
        for name in ("Page", "Runtime", "Log", "Network"):
            self.call(f"{name}.enable")
        self.call("Fetch.enable", handleAuthRequests=True)
        scheme = {"name": "prefers-color-scheme", "value": "dark" if is_dark else "light"}
        self.call("Emulation.setEmulatedMedia", features=[scheme])
        size = {"width": width, "height": height, "deviceScaleFactor": 1, "mobile": width < 600}
        self.call("Emulation.setDeviceMetricsOverride", **size)
        self.call("Emulation.setScriptExecutionDisabled", value=not has_scripts)

    def call(self, method: str, **values: Any) -> dict[str, Any]:
        return self.browser.call(method, self.session, **values)

    def told(self, message: dict[str, Any]) -> None:
        """Notes what is wrong, logs in once where that is asked for, and lets requests go on."""
        kind, values = message["method"], message.get("params", {})
        if kind == "Fetch.requestPaused":
            self.browser.send("Fetch.continueRequest", self.session, requestId=values["requestId"])
        elif kind == "Fetch.authRequired":
            self.logins += 1
            answer = {"response": "CancelAuth"}
            if self.login and self.logins == 1:
                answer = {"response": "ProvideCredentials", "username": self.login[0], "password": self.login[1]}
            number = {"requestId": values["requestId"]}
            self.browser.send("Fetch.continueWithAuth", self.session, **number, authChallengeResponse=answer)
        elif kind == "Page.loadEventFired" or values.get("type") == "BackForwardCacheRestore":
            self.loads += 1
        elif kind == "Network.requestWillBeSent":
            self.asked.append(values["request"]["url"])
        elif kind == "Page.javascriptDialogOpening":
            self.faults.append(f"a dialog: {values['message']}")
            self.browser.send("Page.handleJavaScriptDialog", self.session, accept=False)
        elif kind == "Log.entryAdded" and values["entry"]["level"] == "error":
            self.faults.append(f"{values['entry']['text']} {values['entry'].get('url', '')}")
        elif kind == "Runtime.consoleAPICalled" and values["type"] in ("error", "assert"):
            self.faults.append(str(values["args"]))
        elif kind == "Runtime.exceptionThrown":
            self.faults.append(str(values["exceptionDetails"]))

    def loaded(self, begin: Callable[[], object]) -> None:
        """Does what begins to load a page, and waits until it is there."""
        before = self.loads
        begin()
        self.browser.wait_until(lambda: self.loads > before)

    def go(self, url: str) -> None:
        self.loaded(lambda: self.call("Page.navigate", url=url))

    def value(self, code: str) -> Any:
        """The value of an expression in the page."""
        told = self.call("Runtime.evaluate", expression=code, returnByValue=True, awaitPromise=True)
        assert "exceptionDetails" not in told, (code, told)
        return told["result"].get("value")

    def until(self, code: str) -> None:
        """Waits until an expression in the page holds."""
        end = time.monotonic() + LIMIT
        while not self.value(code):
            assert time.monotonic() < end, code
            time.sleep(0.02)

    def back(self) -> None:
        """Goes back to the page before this one."""
        told = self.call("Page.getNavigationHistory")
        number = told["entries"][told["currentIndex"] - 1]["id"]
        self.loaded(lambda: self.call("Page.navigateToHistoryEntry", entryId=number))

    def shown(self, selector: str) -> list[str]:
        """The texts that a person sees of the elements that a selector chooses."""
        return self.value(SHOWN.format(json.dumps(selector)))

    def click(self, selector: str) -> None:
        """Clicks on the middle of an element."""
        found = f"document.querySelector({json.dumps(selector)})"
        box = f"(it => (it.scrollIntoView({{block: 'center'}}), it.getClientRects()[0].toJSON()))({found})"
        at = self.value(box)
        place = {"x": at["x"] + at["width"] / 2, "y": at["y"] + at["height"] / 2, "button": "left", "clickCount": 1}
        for kind in ("mousePressed", "mouseReleased"):
            self.call("Input.dispatchMouseEvent", type=kind, **place)

    def follow(self, selector: str) -> None:
        """Clicks on a link, and waits until its page is there."""
        self.loaded(lambda: self.click(selector))

    def press(self, key: str, text: str = "") -> None:
        """Presses a key, which types a text if one is named."""
        self.call("Input.dispatchKeyEvent", type="keyDown", key=key, text=text)
        self.call("Input.dispatchKeyEvent", type="keyUp", key=key)

    def type(self, text: str) -> None:
        for it in text:
            self.press(it, it)

    def picture(self, **part: Any) -> bytes:
        """What the window shows, or a part of the page, as a PNG."""
        return base64.b64decode(self.call("Page.captureScreenshot", **part)["data"])

    def draw(self, name: str, most: int = 1_600) -> None:
        """Writes the whole page as PNG files of at most this height, the second one as `NAME-2.png`."""
        self.value("(document.activeElement.blur(), scrollTo(0, 0))")
        height = self.value("document.documentElement.scrollHeight")
        for number, top in enumerate(range(0, height, most), 1):
            part = {"x": 0, "y": top, "width": self.width, "height": min(most, height - top), "scale": 1}
            with open(name if number == 1 else f"{name.removesuffix('.png')}-{number}.png", "wb") as file:
                file.write(self.picture(clip=part, captureBeyondViewport=True))
