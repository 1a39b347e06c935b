"""By which sentences goshelf-publish refuses keys, URLs and the answers of servers.

A sentence may have fields in braces, for what is known once a server runs."""

from lib.publishing import Refusal
from lib.repositories import KEY, TIME

NO_FILE_OF_A_KEY = "--key-file names no file that can be read: put the key into a file, and name it"
NO_KEY = "the file of the key does not hold one key: a key is 16 to 64 characters of a-z and 0-9"
ONLY_READS = "the key only reads: use a key that was added without --read-only"
UNKNOWN = (
    "{url} has no such key, or takes no such path or version: check the key and the URL, then example.com/greet v1.0.0"
)
SECRET = "a URL with a key or a password shows it to every user of this machine: use --key-file or --netrc"
# what is refused of a key or a URL
REFUSED_KEYS = [
    Refusal("a key that only reads", "--key-file {folder}/reader", ONLY_READS),
    Refusal("a check by a key that only reads", "--check --key-file {folder}/reader", ONLY_READS),
    Refusal("a key of nobody", "--key-file {folder}/nobody", UNKNOWN),
    Refusal("a check by a key of nobody", "--check --key-file {folder}/nobody", UNKNOWN),
    Refusal("a key in place of its file", f"--key-file {KEY}", NO_FILE_OF_A_KEY),
    Refusal("a file without a key", "--key-file /dev/null", NO_KEY),
    Refusal("a key in the URL", f"--to {{url}}/k/{KEY} --netrc", SECRET),
    Refusal(
        "no URL",
        "--to shelf.example.com --netrc",
        "shelf.example.com is not a URL: it begins with http:// or https://",
    ),
]
BAD_LINE = "line 3 of the go.mod is not valid: mend it, and tag a new version (frobnicate y)"
OTHER_BYTES = """\
example.com/other {version} is there with other bytes, which never change: publish a new version
there: example.com/other {version} {there}
there: {gomod}
here:  {here}
here:  {gomod}"""
ANOTHER_TIME = (
    f"example.com/other v1.2.0 is there with the same sums and the time 2024-02-01T12:00:00Z, not {TIME}: leave it, it"
    " never changes"
)
# what a server may answer: the status, the body, and the sentence
ANSWERS = [
    (200, "", "{url} answers 200 and is no goshelf: check the URL ()"),
    (200, "<html>\nhello", "{url} answers 200 and is no goshelf: check the URL (<html>)"),
    (301, "", "{url} leads to another URL: give that to --to"),
    (400, "bad mod-length\n", "the header Mod-Length did not arrive: let the server in front of goshelf pass it on"),
    (401, "", "{url} wants a user: give --netrc, and a line of ~/.netrc with the host, the user and its password"),
    (404, "<html>", "{url} answers 404 and is no goshelf: check the URL (<html>)"),
    (404, "no /k/KEY/example.com/greet", "{url} answers 404 and is no goshelf: check the URL "
     "(no /k/.../example.com/greet)"),
    (404, "the key does not go into the URL, but into ~/.netrc, as the password\n",
     "{url} takes the key from ~/.netrc: give --netrc in place of --key-file, and a line there with the host, "
     "your name and the key as the password"),
    (403, "not your path\n",
     "{url} does not let you publish example.com/greet: "
     "publish a path of your own, or ask the operator for this one"),
    (403, "taken out\n",
     "example.com/greet v1.0.0 was taken out of {url} and never comes back: publish the next version"),
    (409, "conflict\n",
     "example.com/greet v1.0.0 is there with another go.mod, zip or time, and {url} answers 409 to a GET of it: "
     "publish a new version"),
    (413, "", "{url} takes no body of SIZE bytes: raise client_max_body_size of the server in front"),
    (422, "major-mismatch\n",
     "v1.0.0 does not fit the path example.com/greet: version 2 and higher need a path that ends in /v2 and so on"),
    (422, "bad-time\n", f"the time {TIME} does not fit v1.0.0: check the clock of whoever made the commit"),
    (422, "module-path\n", "the go.mod does not name example.com/greet: publish it by the path that it names"),
    (422, "bad-gomod 0\n", "the go.mod has no module line, or is not UTF-8: mend it, and tag a new version"),
    (422, "bad-gomod 1w/nosuch\n", "{url} answers 422 and is no goshelf: check the URL (bad-gomod 1w/nosuch)"),
    (422, "incompatible-gomod\n",
     "v1.0.0 is +incompatible, which only a go.mod with a module line alone can be: "
     "name the module example.com/greet/v1"),
    (507, "full\n", "the shelf has 4096 versions of example.com/greet and takes no more: go on under a new path"),
]  # fmt: skip
# what a server may answer that is busy, and is asked again
BUSY_ANSWERS = [
    (429, "too many requests at once\n", "{url} gets too many requests at once: run this again in a minute"),
    (502, "", "{url} answers 502: goshelf behind it is down or busy, so run this again in a minute, "
     "and if it stays, tell the operator"),
    (503, "unavailable\n",
     "the store met a fault and published nothing: run this again, and tell the operator if it stays"),
]  # fmt: skip
# what a server may answer to a check
ANSWERS_TO_CHECKS = [
    (201, "published\n", "{url} answers 201 and is no goshelf: check the URL (published)"),
    (422, "bad-gomod 0\n",
     "the header Version-Time did not arrive: let the server in front of goshelf pass it on"),
]  # fmt: skip
READS = "{netrc} logs in as a user who only reads: ask the operator of {url} for the right to publish"
LOST = (
    "{url} takes no such path or version, or has lost the key of your user: check example.com/greet v1.0.0, then ask"
    " the operator"
)
WRONG_PASSWORD = (
    "{url} does not take the password of {user}: mend the line for 127.0.0.1 in {netrc}, or ask the operator whether it"
    " still holds"
)
NO_LOGIN = "{netrc} has no line with a login for 127.0.0.1: add one, with the name and the key from the operator"
NO_NETRC = "{netrc} cannot be read: make it, with a line for the host of {url}"
# what a server answers to a user, the words before the URL, and the sentence
ANSWERS_TO_USERS = [
    ("a user who only reads", "", 403, "forbidden\n", READS),
    ("a check of a user who only reads", "--check", 403, "forbidden\n", READS),
    ("a user whose key is revoked", "", 404, "not found\n", LOST),
]
# logins that a server does not take
LOGINS = [
    ("another password", "127.0.0.1 login alpha password other", WRONG_PASSWORD.replace("{user}", "alpha")),
    ("a key in place of the user", f"127.0.0.1 login {KEY} password other", WRONG_PASSWORD.replace("{user}", "...")),
    ("a misspelt host", "127.0.0.2 login alpha password other", NO_LOGIN),
    ("no user", "127.0.0.1 password other", NO_LOGIN),
]
NO_ANSWER = (
    "{url} did not answer within 2 seconds, so it may or may not have published. Run this again: it ends well if the"
    " version is there."
)
NO_ANSWER_TO_CHECK = "{url} did not answer within 2 seconds: run this again"
NOBODY = "nobody listens at {url}: check the URL, and that goshelf serves"
CLOSED = "closed the connection, so it may or may not have published"
NO_TLS = "no TLS with {url}: "
BY_PROXY = "the proxy by which to ask {url}: mend http_proxy and https_proxy, or name the host in no_proxy"
NO_PROXY, DEAF_PROXY = f"no host has the name of {BY_PROXY}", f"nobody listens at {BY_PROXY}"
FORBIDDEN = "{url} cannot be asked: Forbidden"
NO_HOST = "no host has the name in https://nosuch.invalid: check the URL"
IN_CLEAR = "http://{host} would show the key or the password to everybody on the way: give --to a URL with https://"
SENTENCES = [
    *(row.sentence for row in REFUSED_KEYS), *(row[-1] for row in ANSWERS), *(row[-1] for row in BUSY_ANSWERS),
    *(row[-1] for row in ANSWERS_TO_CHECKS),
    *(row[-1] for row in ANSWERS_TO_USERS), *(row[-1] for row in LOGINS), BAD_LINE, OTHER_BYTES, ANOTHER_TIME, NO_NETRC,
    NO_ANSWER, NO_ANSWER_TO_CHECK, NOBODY, f"{{url}} {CLOSED}", NO_TLS, NO_PROXY, DEAF_PROXY, FORBIDDEN, NO_HOST,
    IN_CLEAR,
]  # fmt: skip
