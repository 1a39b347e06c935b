"""The box that tells a reader how to set a machine up, how to publish, how to undo it, and what a refusal means."""
import re
from collections import namedtuple

from catalog_lib.lines import PATH, Refused
from catalog_lib.markup import Html, cell, html, row, table

HOST = re.compile(r"(?=.{1,253}$)[A-Za-z0-9-]+(\.[A-Za-z0-9-]+)*")
PROXIES = re.compile(r"[A-Za-z0-9.:/-]+(,[A-Za-z0-9.:/-]+)*")
# the last element of the module that goshelf-offer publishes
PUBLISHER = "goshelf-publish"
# what the box has: the host, what goes into GOPROXY, the company's paths, those at which the shelf publishes, and the
# module of the publisher or None
Setup = namedtuple("Setup", "host proxies paths own publisher")

# nginx puts the reader's own name in its place (`sub_filter` of goshelf.conf); no text of a module has such a tag
LOGIN = Html('<var class="login">YOUR-NAME</var>')
# what a refusal says, what it means, and what to do
ANSWERS = (
    (
        "401 log in",
        "The host does not know the key, or the key has expired",
        Html("Look at the line of <code>~/.netrc</code>. An operator gives you a new one."),
    ),
    ("403 not your path", "Your shelf may not publish at this path", "Ask an operator whose path it is."),
    ("403 forbidden", "Your key only reads", "Ask an operator for a key that publishes."),
    ("403 taken out", "The version held a secret, so nobody gets it any more", "Require another version."),
    (
        "404 not found",
        "Your shelf does not see the module or the version",
        "Look here for its spelling. It may be on another team's shelf, or not published yet.",
    ),
    (
        "404 no checksum database",
        "The go command asked for the sum of a module that only the company has",
        Html("Set <code>GONOSUMDB</code> as above."),
    ),
    (
        "409 conflict",
        "The version is there, on this shelf or above it, with another go.mod, zip or time",
        "Publish the next version: what a version has never changes.",
    ),
    (
        "429 too many requests",
        "You, or all users together, asked for too much at once",
        "Wait a minute, and ask again.",
    ),
    ("502, 503, 504", "goshelf or the public proxy does not answer", "Ask again in a minute, then tell an operator."),
)


def checked_host(host, proxies):
    """The host and what goes into GOPROXY, if they are of their forms; otherwise None."""
    proxies = proxies or f"https://{host}"
    return (host, proxies) if HOST.fullmatch(host) and PROXIES.fullmatch(proxies) else None


def setup_of(shelf, host, proxies, owners, chain):
    """The Setup of a shelf. `owners` has the company's paths, each with the shelves that publish there, and `chain` the
    names of the shelf and of those above it."""
    if wrong := [it for it in owners if not PATH.fullmatch(it)]:
        raise Refused(f"the company's paths: no module path: {wrong[0]!r}")
    own = sorted(path for path, who in owners.items() if shelf.name in who)
    return Setup(host, proxies, paths_for(shelf, owners, chain), own, publisher_of(shelf))


def paths_for(shelf, owners, chain):
    """The company's paths that the shelf may name: those where it, its group or `common` publishes, and those above a
    module that it sees. One below another is left out."""
    known = {it.lower() for it in owners}
    found = {path for path, who in owners.items() if not chain.isdisjoint(who)}
    for path in shelf.modules:
        parts = path.split("/")
        tops = ("/".join(parts[:it]) for it in range(1, len(parts) + 1))
        found.update([next((it for it in tops if it.lower() in known), None)])
    found.discard(None)
    return sorted((it for it in found if not is_below_any(it, found)), key=lambda it: (it.lower(), it))


def is_below_any(path, found):
    parts = path.split("/")
    return any("/".join(parts[:it]) in found for it in range(1, len(parts)))


def publisher_of(shelf):
    """The module of goshelf-publish on the shelf `common`, if it is offered there."""
    word = "own" if shelf.name == "common" else "common"
    offered = (it for it in shelf.modules.values() if it.path.endswith(f"/{PUBLISHER}") and it.shelf == word)
    return next((it.path for it in offered), None)


def copied(name, text):
    """Lines to copy, by the name of their element."""
    text = text if isinstance(text, Html) else [unbroken(it) for it in re.split("([ \n]+)", text)]
    return html(COPIED, name, text, name)


COPIED = (
    '<div class="get"><pre id="{}" tabindex="0"><code>{}</code></pre>\n'
    '<button type="button" class="copy" data-from="{}" hidden>Copy</button></div>\n'
)


def unbroken(word):
    """A word that a phone does not break behind a hyphen, where it would look like two."""
    return html('<span class="word">{}</span>', word) if "-" in word else word


def box(place, shelf, module=None, names=None):
    """The box of the first page, or that of a module's page, for which `names` has the shelves' names. Without the name
    of the host there is none."""
    it = shelf.setup
    if not it:
        return ""
    if module:
        is_above = module.shelf not in ("own", None)
        how = html(ABOVE, names[module.shelf], *[shelf.name] * 3) if is_above else publishing(it, shelf, module.path)
        return html(BOX, "", "Publish the next version", [how, html(MORE, place.root)])
    # (it stands open until its reader has shut it: catalog.js)
    whole = [fetching(it, shelf), publishing(it, shelf), undoing(it), *answers()]
    return html(BOX, Html(" data-opens"), "Set me up", whole)


BOX = '<details class="setup"{}>\n<summary>{}</summary>\n{}</details>\n'
MORE = (
    '<p><a href="{0}#setup-fetch">How a machine is set up</a>, <a href="{0}#setup-undo">how to undo it</a>, and '
    '<a href="{0}#setup-answers">what a refusal means</a>.</p>\n'
)


# of a module of a shelf above
ABOVE = (
    "<p>This module is on the shelf <b>{}</b>, so ask those who publish there. With a key of {} you publish to {}: "
    "only {} would see the version, in the place of theirs.</p>\n"
)


def fetching(it, shelf):
    """How a machine gets modules of the shelf."""
    netrc = html("machine {} login {} password YOUR-KEY", it.host, LOGIN)
    settings = [f"go env -w GOPROXY={it.proxies}\n"]
    if it.paths:
        settings.append(f"go env -w GONOSUMDB={','.join(it.paths)}\n")
    settings.append("go env -w GONOPROXY=none\n")
    return html(
        (
            '<h2 id="setup-fetch">Fetch</h2>\n'
            "<p>An operator gives you this line, with your key in it. Put it into <code>~/.netrc</code>, on Windows "
            "<code>%USERPROFILE%\\_netrc</code>, and let nobody else read the file: "
            "<code>chmod 600 ~/.netrc</code>.</p>\n{}"
            "<p>Then, with Go 1.19 or later. If you have settings to go back to, note first what "
            "<code>go env GOPROXY GONOSUMDB GONOPROXY</code> prints.</p>\n{}"
            "<p><code>GONOSUMDB</code> names what no public checksum database knows; the go command still checks all "
            "other modules. <code>GONOPROXY=none</code> matters only where <code>GOPRIVATE</code> is set. "
            "Put no key into <code>GOPROXY</code>, which the go command prints.</p>\n{}"
        ),
        copied("setup-netrc", netrc),
        copied("setup-go", "".join(settings)),
        trying(shelf),
    )


def trying(shelf):
    """How to see that a machine is set up, by a module of the shelf."""
    path = next((it.path for it in shelf.modules.values() if it.latest), None)
    told = Html("<p>It works if this prints the versions of a module:</p>\n")
    return [told, copied("setup-try", f"go list -m -versions {path}")] if path else ""


INSTALL = (
    "<p>Once, with git and go. The command is then in the folder <code>bin</code> of <code>go env GOPATH</code>, which "
    "has to be on the path:</p>\n"
)


def publishing(it, shelf, path="MODULE"):
    """How a version of a module is published."""
    if it.publisher:
        get = [Html(INSTALL), copied("setup-get", f"go install {it.publisher}@latest")]
    else:
        get = Html(NOT_OFFERED)
    run = f"goshelf-publish --to https://{it.host} --netrc --repository . {path} TAG"
    told = [get, owned(it, shelf), Html(TAG), copied("setup-run", run), Html(SOON)]
    return html('<h2 id="setup-publish">Publish</h2>\n{}', told)


NOT_OFFERED = (
    "<p>It takes <code>goshelf-publish</code>, git and go. To install the first by the go command, ask an operator to "
    "run <code>goshelf-offer</code>: this page then says how.</p>\n"
)
TAG = (
    "<p>In a clone that has the tag (<code>git tag v1.2.3</code>), with a key that publishes. <code>TAG</code> is "
    "<code>v1.2.3</code>, or <code>log/v1.2.3</code> for a module in the folder <code>log</code>. "
    'With <code class="word">--check</code> it tries all and publishes nothing.</p>\n'
)
SOON = "<p>These pages have the version a few minutes later.</p>\n"


def owned(it, shelf):
    """At which paths the shelf publishes."""
    if not it.own:
        return html("<p>The shelf {} has no path yet to publish at: ask an operator for one.</p>\n", shelf.name)
    paths = [[", " if at else "", html("<code>{}</code>", path)] for at, path in enumerate(it.own)]
    told = "<p>The shelf {} publishes at and below: {}, but not below a longer path that is another shelf's.</p>\n"
    return html(told, shelf.name, paths)


def undoing(it):
    """How both are undone."""
    names = "GOPROXY GONOSUMDB GONOPROXY" if it.paths else "GOPROXY GONOPROXY"
    return html(
        (
            '<h2 id="setup-undo">Undo</h2>\n{}'
            "<p>The settings are then Go's own: put back what you noted. Take the line out of <code>~/.netrc</code>. "
            "<code>go clean -modcache</code> removes all modules that were fetched. A version that was published "
            "stays: <code>retract</code> it in the go.mod of the next one.</p>\n"
        ),
        copied("setup-unset", f"go env -u {names}"),
    )


def answers():
    """What a refusal means, and what to do."""
    rows = [row(said, cell(means), cell(does)) for said, means, does in ANSWERS]
    heads = "Answer", "It means", "What to do"
    return [Html('<h2 id="setup-answers">What an answer means</h2>\n'), table("setup-answers", heads, rows)]
