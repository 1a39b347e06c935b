"""Words within a line of a README: code, emphasis and links. Nothing is loaded, and no address is hidden."""
import re
from urllib.parse import urlsplit

from catalog_lib.markup import Html, html

LABEL = r"\[(?P<{}>(?:[^\[\]\\]|\\.){{1,300}})\]"
TARGET = r"\([ \t]*<?(?P<{}>[^\s()<>]{{0,1000}})>?(?:\s+[\"'][^\"']{{0,300}}[\"'])?[ \t]*\)"
STRONG, EM = r"[^\s*](?:[^*]{0,500}[^\s*])?", r"[^\s_](?:[^_]{0,500}[^\s_])?"
INLINE = re.compile(
    "|".join(
        (
            r"\\(?P<escape>[!-/:-@\[-`{-~])",
            r"``(?P<code2>[^\n]{1,300}?)``|`(?P<code>[^`]{1,500})`",
            LABEL.format("text") + TARGET.format("url"),
            LABEL.format("text2") + r"\[(?P<name>[^\[\]]{0,200})\]",
            r"<(?P<auto>https?://[^\s<>]{1,1000})>",
            r"(?P<bare>\bhttps?://[^\s<>\"'`|\[\]]{1,1000})",
            rf"\*\*(?P<strong>{STRONG})\*\*|(?<!\w)__(?P<strong2>{EM})__(?!\w)",
            rf"\*(?P<em>{STRONG})\*|(?<!\w)_(?P<em2>{EM})_(?!\w)",
        )
    )
)
# what a mark begins with: most texts have none, and this finds that faster
MARK = re.compile(r"[\\`\[<*_]|http")
IMAGE = re.compile(r"!\[(?P<alt>[^\[\]]{0,300})\](?:" + TARGET.format("url") + r"|\[[^\[\]]{0,200}\])?")
HOST = re.compile(r"[A-Za-z0-9.-]+(?::[0-9]{1,5})?")
# marks at the end of a bare URL that belong to the sentence around it
BEHIND = ".,;:!?)*_'\""


def inline(text, links):
    """The words of a text as HTML. `links` has the URLs of names that the README defines."""
    if not MARK.search(text):
        return [text]
    return marked(IMAGE.sub(lambda it: it["alt"], text), links, 0)


def marked(text, links, depth):
    """The words of a text without images, in marks of this depth."""
    found, at = [], 0
    for part in INLINE.finditer(text):
        found += [text[at : part.start()], shown(part, links, depth)]
        at = part.end()
    return [*found, text[at:]]


def shown(part, links, depth):
    """A part of a line that is marked."""
    kind = part.lastgroup
    words = part[kind]
    if kind == "escape":
        return words
    if kind in ("code", "code2"):
        return html("<code>{}</code>", " ".join(words.split()))
    if kind == "auto":
        return outward(words, words)
    if kind == "bare":
        url = words.rstrip(BEHIND)
        return [outward(url, url), words[len(url) :]]
    if kind == "url":
        return outward(inner(part["text"], links, depth), words)
    if kind == "name":
        url = links.get((words or part["text2"]).lower())
        return outward(inner(part["text2"], links, depth), url) if url else part[0]
    tag = Html("strong" if kind.startswith("strong") else "em")
    return html("<{}>{}</{}>", tag, inner(words, links, depth), tag)


def inner(text, links, depth):
    """The words within a mark, which may hold one more."""
    return marked(text, links, depth + 1) if depth < 2 else text


def outward(words, url):
    """Words with the address to which they lead: a link to another host names the host, and any other is a text."""
    host = host_of(url)
    if host is None:
        is_seen = url.startswith("#") or not url or words == url
        return words if is_seen else [words, html(' <span class="quiet">({})</span>', url)]
    link = html('<a href="{}" rel="noopener noreferrer">{}</a>', url, words)
    return link if words == url else [link, html(' <span class="quiet">({})</span>', host)]


def host_of(url):
    """The host of a URL of the web, or None of any other."""
    try:
        parts = urlsplit(url)
        is_web = parts.scheme in ("http", "https") and HOST.fullmatch(parts.netloc)
    except ValueError:
        return None
    return parts.netloc if is_web and url.isascii() and url.isprintable() and " " not in url else None
