"""Refusals of goshelf-publish: the sentences that a test wants, the table of docs/REFERENCE.md, and a false server."""

import contextlib
import http.server
import os
import re
import subprocess
import threading
from collections.abc import Iterable
from dataclasses import dataclass

from lib.keys import KEYS
from lib.pages import read_page
from lib.peers import Quiet
from lib.scratch import read

# words of capitals in a phrase of the table, which stand for any text
CAPITALS = re.compile(r"\b[A-Z]{2,}\b(?!-)")
# the first row of the table of what a key, a URL or a server says against a version; those before are of its repository
FIRST_OF_SERVERS = "a URL with a key or a password"
# how lines begin that go with a refusal
NOTES = re.compile(r"there: |here: |the zip there has other bytes|not checked without|\S+ accepts the")


@dataclass(frozen=True)
class Refusal:
    """What goshelf-publish is given, and the sentence by which it refuses that. Both may have fields in braces."""

    name: str
    words: str
    sentence: str

    def __str__(self) -> str:
        return self.name


def refused(sentence: str) -> tuple[int, str, str]:
    """Returns how a run of goshelf-publish ends that refuses by these lines: its status, output and errors."""
    return 1, "", "".join(f"publish: {line}\n" for line in sentence.split("\n"))


def read_phrases() -> tuple[list[str], list[str]]:
    """Returns the sentences of the page's table: those about a repository, and those about keys and servers."""
    section = read_page("REFERENCE.md").partition("## Refusals of goshelf-publish\n")[2].partition("\n## ")[0]
    phrases = re.findall(r"^\| `([^`|]+)` \|", section, re.M)
    first = phrases.index(FIRST_OF_SERVERS)
    return phrases[:first], phrases[first:]


def is_of(sentence: str, phrase: str) -> bool:
    """Whether a sentence, whose fields may still be in braces, has a phrase of the table."""
    pattern = ".*".join(map(re.escape, CAPITALS.split(phrase)))
    return bool(re.search(pattern, re.sub(r"\{\w+\}", "X", sentence)))


def find_unlisted(errors: str) -> list[str]:
    """Returns the lines of a refusal that no phrase of the table fits."""
    phrases = [phrase for part in read_phrases() for phrase in part]
    said = [line.removeprefix("publish: ") for line in errors.splitlines() if line.startswith("publish: ")]
    return [line for line in said if not NOTES.match(line) and not any(is_of(line, phrase) for phrase in phrases)]


def has_sentence(phrase: str, sentences: Iterable[str]) -> bool:
    """Whether one of these sentences has a phrase of the table."""
    return any(is_of(sentence, phrase) for sentence in sentences)


class Answering(http.server.ThreadingHTTPServer):
    """A server that is not goshelf. It gives the `first` answers in order, and then `answer`. It notes what it is
    asked, and the command lines of the processes below this one meanwhile."""

    def __init__(self) -> None:
        super().__init__(("127.0.0.1", 0), Handler)
        self.url = f"http://127.0.0.1:{self.server_port}"
        self.answer: tuple[int, bytes] = 200, b""
        self.first: list[tuple[int, bytes]] = []
        self.asked: list[tuple[str, str, str | None]] = []
        self.commands: list[str] = []
        threading.Thread(target=self.serve_forever, args=(0.02,), daemon=True).start()

    def server_close(self) -> None:
        # (a server whose socket is closed while it serves asks for connections without an end)
        self.shutdown()
        super().server_close()

    def shown_keys(self) -> list[str]:
        """Returns the command lines that have a key."""
        return [command for command in self.commands if any(key in command for key in KEYS.values())]


class Handler(Quiet):
    """A connection to a server that is not goshelf."""

    server: Answering

    def do_GET(self) -> None:
        self.rfile.read(int(self.headers.get("Content-Length") or 0))
        self.server.asked.append((self.command, self.path, self.headers.get("Authorization")))
        self.server.commands.extend(commands_below(os.getpid()))
        status, body = self.server.first.pop(0) if self.server.first else self.server.answer
        self.send_response(status)
        self.send_header("Content-Length", str(len(body)))
        self.end_headers()
        self.wfile.write(body)

    do_PUT = do_GET


def commands_below(parent: int) -> list[str]:
    """Returns the command lines of the processes below one."""
    found = []
    listed = subprocess.run(["ps", "-o", "pid=", "--ppid", str(parent)], capture_output=True, text=True).stdout
    for child in map(int, listed.split()):
        with contextlib.suppress(OSError):
            found.append(read(f"/proc/{child}/cmdline").replace(b"\0", b" ").decode())
            found += commands_below(child)
    return found
