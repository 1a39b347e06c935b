"""The pages of goshelf-keys. No page has a script, and none is kept anywhere."""

import base64
import hashlib
from collections.abc import Mapping, Sequence
from dataclasses import dataclass
from html import escape

from front_lib.files import LONGEST_LABEL

STYLE = """:root { color-scheme: light dark }
body { font: 1rem/1.5 sans-serif; max-width: 60rem; margin: 2rem auto; padding: 0 1rem }
table { border-collapse: collapse }
th, td { text-align: left; padding: .3rem 1rem .3rem 0 }
pre { padding: 1rem; border: 1px solid; white-space: pre-wrap; overflow-wrap: anywhere }
@media (max-width: 48rem) {
table, tbody, tr, td { display: block; overflow-wrap: anywhere }
tr { padding: .5rem 0; border-top: 1px solid }
tr:first-child { display: none }
td { padding: 0 }
td:nth-child(2)::before { content: "Shelf: " }
td:nth-child(3)::before { content: "Right: " }
td:nth-child(4)::before { content: "Fingerprint: " }
td:nth-child(5)::before { content: "Last day: " }
}"""
STYLE_SUM = base64.b64encode(hashlib.sha256(STYLE.encode()).digest()).decode()
# (a referrer of this host goes to this host, or a browser would name no origin of a form)
HEADERS = {
    "Content-Type": "text/html; charset=utf-8",
    "Cache-Control": "no-store",
    "Content-Security-Policy": f"default-src 'none'; style-src 'sha256-{STYLE_SUM}'; base-uri 'none'; "
    "form-action 'self'; frame-ancestors 'none'",
    "Cross-Origin-Opener-Policy": "same-origin",
    "Cross-Origin-Resource-Policy": "same-origin",
    "Referrer-Policy": "same-origin",
    "X-Content-Type-Options": "nosniff",
}
TOP = "/keys/"
HEADS = ("Machine", "Shelf", "Right", "Fingerprint", "Last day", "")


@dataclass(frozen=True)
class Key:
    """A key as its owner sees it."""

    label: str
    shelf: str
    right: str
    fingerprint: str
    until: str


def whole(title: str, body: str) -> str:
    """Returns a page."""
    head = f'<meta charset="utf-8"><meta name="viewport" content="width=device-width"><title>{escape(title)}</title>'
    return f'<!DOCTYPE html><html lang="en"><head>{head}<style>{STYLE}</style></head><body>{body}</body></html>\n'


def form(action: str, token: str, body: str, **hidden: str) -> str:
    """Returns a form with hidden fields."""
    fields = "".join(
        f'<input type="hidden" name="{name}" value="{escape(text)}">'
        for name, text in {"token": token, **hidden}.items()
    )
    return f'<form method="post" action="{TOP}{action}">{fields}{body}</form>'


def row(key: Key, token: str) -> str:
    """Returns a key that a person has, as a row of the table."""
    words = [key.label or "-", key.shelf, key.right, key.fingerprint, key.until or "-"]
    button = f'<button aria-label="Revoke {escape(key.fingerprint)}">Revoke</button>'
    cells = [*(escape(word) for word in words), form("revoke", token, button, fingerprint=key.fingerprint)]
    return f'<tr>{"".join(f"<td>{cell}</td>" for cell in cells)}</tr>'


def makes(shelf: str, right: str, until: str, token: str) -> str:
    """Returns a form that makes a key of a shelf."""
    until = f", until {until}" if until else ""
    label = f"A key that may {right} on <b>{escape(shelf)}</b>{escape(until)}, for the machine "
    field = f'<input name="machine" maxlength="{LONGEST_LABEL}" required autocomplete="off">'
    return form("make", token, f"<label>{label}{field}</label> <button>Make a key</button>", shelf=shelf)


def listing(
    host: str, name: str, keys: Sequence[Key], rights: Mapping[str, tuple[str, str]], most: int, token: str
) -> str:
    """Returns the page of a person's keys, with forms that make one and revoke one."""
    rows = "".join(row(key, token) for key in keys)
    heads = "".join(f'<th scope="col">{head}</th>' for head in HEADS)
    table = f"<table><tr>{heads}</tr>{rows}</table>" if rows else "<p>You have none.</p>"
    forms = "".join(makes(shelf, right, until, token) for shelf, (right, until) in sorted(rights.items()))
    if len(keys) >= most:
        forms = f"<p>You have {len(keys)} keys, the most that one person may have. Revoke one to make another.</p>"
    said = f"A key is the password for <code>https://{escape(host)}</code>, in the file <code>~/.netrc</code>."
    text = f"<h1>Keys of {escape(name)}</h1><p>{said} Make one for each machine.</p>{table}<h2>A new key</h2>{forms}"
    return whole(f"Keys of {name}", text)


def shown(line: str, machine: str, fingerprint: str) -> str:
    """Returns the page of a new key, which no other page shows."""
    place = f"the file <code>~/.netrc</code> of {escape(machine)}, which only you may read"
    text = f"<h1>A new key</h1><p>Put this line into {place}. <b>It is shown only now.</b></p><pre>{escape(line)}</pre>"
    text += f"<p>Its fingerprint is <code>{fingerprint}</code>.</p>"
    return whole("A new key", f'{text}<p><a href="{TOP}">All keys</a></p>')


def note(title: str, said: str) -> str:
    """Returns the page of a sentence."""
    return whole(title, f'<h1>{escape(title)}</h1><p>{escape(said)}</p><p><a href="{TOP}">All keys</a></p>')
