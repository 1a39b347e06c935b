"""tools/catalog, given modules that want to break it: HTML, marks of direction, lines of 1 MB, and zips that lie.

Each is a module of one shelf. Which zips no go command takes is what `go mod download` says of each.
"""

import json
import os
import re
import resource
import subprocess
from collections.abc import Callable, Iterator
from concurrent.futures import ProcessPoolExecutor
from multiprocessing import get_context
from typing import NamedTuple

import pytest

from lib.catalog_pages import Page, pages_in
from lib.catalog_zips import Entry, deflated, lines_of, made_pages, raw, read_pages, stored, zipped
from lib.go_command import settings
from lib.keys import KEYS, SHELVES
from lib.messages import put
from lib.program import PROGRAM, answered
from lib.scratch import entered_folder
from lib.servers import Server
from lib.stores import add_platform, new_store

pytestmark = pytest.mark.needs("go")

EVIL = "<script>alert(1)</script>"
# READMEs
READMES = (
    EVIL,
    "<img src=x onerror=alert(1)> and <IMG SRC=https://evil.example.org/x.png>",
    "[x](javascript:alert(1)) [x](JaVaScRiPt:alert(1)) [x](data:text/html;base64,PHNjcmlwdD4=) [x](vbscript:x)",
    '[x](https://a.example.org/"onmouseover="alert(1)) <https://a.example.org/"onclick="alert(1)>',
    "![x](https://evil.example.org/x.png) ![x][y]\n\n[y]: https://evil.example.org/y.png",
    '<a href="javascript:alert(1)" onclick="alert(1)">words</a>',
    f"</pre></div></main></body></html>{EVIL}",
    "[a]: javascript:alert(1)\n\n[words][a] [a][]",
    f"```\n</code></pre>{EVIL}\n```\n    </code></pre>{EVIL}",
    f"| {EVIL} | b |\n|---|---|\n| <td onclick=alert(1)> | `{EVIL}` |",
    f"<!-- --><!--{EVIL}",
    "<svg/onload=alert(1)><math><mtext></form><form><mglyph><style></math><img src onerror=alert(1)>",
    '<iframe src="https://evil.example.org/"></iframe><object data=x><embed src=x>',
    "<style>@import url(https://evil.example.org/x.css);</style><link rel=stylesheet href=//evil.example.org>",
    '<meta http-equiv="refresh" content="0;url=https://evil.example.org/"><base href="https://evil.example.org/">',
    '<form action="https://evil.example.org/"><input name=password><button>Log in</button></form>',
    "&lt;script&gt;alert(1)&lt;/script&gt; &#x6a;avascript: &#60;b&#62;",
    "nul \0 <scr\0ipt>alert(1)</script> bell \a escape \x1b[31mred\x1b[0m",
    "[x](//evil.example.org/) [x](\\\\evil) [x](https://good.example.org@evil.example.org/)",
    "[good](https://exa\u202eelpm.example.org) \u202e evil \u2066 x \u200b zero \ufeff",
    f"# {EVIL}\n## <b onclick=alert(1)>\n{EVIL}\n===\n> {EVIL}\n- {EVIL}\n1. {EVIL}",
    "`" * 20_000 + "*" * 10_000 + "_" * 10_000,
    "[" * 30_000 + "](" * 10_000,
    "![" * 20_000 + "<" * 10_000,
    "> " * 15_000 + "deep",
    "\n".join("  " * it + "- deep" for it in range(200)),
    "|" * 60_000 + "\n" + "|-" * 2_000 + "|\n" + "|" * 1_000,
    "x" * 1_000_000,
    "a_b*" * 15_000,
    ("[a](b " * 10_000) + "<a " * 5_000,
    "- " * 20_000 + "\n" + "1. " * 10_000,
    "\n" * 60_000,
)
# comments of a package
COMMENTS = (
    f"// Package x {EVIL}.\n",
    f"/*\n{EVIL}\n\n\t</code></pre>{EVIL}\n\n# {EVIL}\n\n  - {EVIL}\n*/\n",
    '// Package x says \u202e evil. See https://evil.example.org/"onclick=alert(1).\n',
    "// " + "x" * 1_000_000 + "\n",
    "/*" * 30_000,
    "//\n" * 30_000,
)
# go.mods behind their first line
GOMODS = (
    f"// Deprecated: {EVIL}\n",
    f"retract v0.9.0 // {EVIL}\n",
    "// Deprecated: \u202e use evil\n",
    "// Deprecated: " + "long " * 200 + "\n",
    f'replace (\n"example.com/a" => example.com/b v1.0.0\nexample.com/b => example.com/a v1.0.0\n) // {EVIL}\n',
)
LICENCES = (f"SPDX-License-Identifier: {EVIL}", "SPDX-License-Identifier: MIT\u202e", "x" * 1_000_000)
ZEROS, FEWER = bytes(64 << 20), bytes(4 << 20)


Zips = dict[str, Callable[[], bytes]]


def zips_of(path: str) -> Zips:
    """Returns what makes each zip that lies, by its name, for a module."""
    root, gomod = f"{path}@v1.0.0/", f"module {path}\n".encode()
    right = stored(f"{root}go.mod", gomod)
    return {**broken(root, right), **named(path, root, right, gomod), **packed(root, right)}


def broken(root: str, right: Entry) -> Zips:
    """Returns zips that are cut off or hold more than a zip."""
    good = raw([right, stored(f"{root}a.go", b"package a\n")])
    return {
        "nothing": lambda: b"",
        "no zip": lambda: b"no zip" * 100,
        "cut off": lambda: good[:-30],
        "without its beginning": lambda: good[40:],
        "with bytes in front": lambda: b"#!/bin/sh\n" + good,
        "a comment": lambda: raw([right], comment=b"PK\5\6" * 100),
    }


def named(path: str, root: str, right: Entry, gomod: bytes) -> Zips:
    """Returns zips whose files have names that lead elsewhere, or that stand for something else."""
    return {
        "slips out": lambda: raw([right, stored(f"{root}../../../../slipped", b"x")]),
        "slips out at once": lambda: raw([right, stored("../slipped", b"x")]),
        "a whole name": lambda: raw([right, stored("/etc/slipped", b"x")]),
        "a name of Windows": lambda: raw([right, stored(f"{root}..\\slipped", b"x"), stored(f"{root}con.txt", b"x")]),
        "of another module": lambda: raw([stored("example.com/other@v1.0.0/go.mod", gomod)]),
        "HTML in a name": lambda: raw([right, stored(f"{root}{EVIL}.go", b"package a\n")]),
        "a mark of direction in a name": lambda: raw([right, stored(f"{root}a\u202eog.exe", b"x")]),
        "NUL in a name": lambda: raw([right, stored(f"{root}a\0.go", b"x")]),
        "a name that is no UTF-8": lambda: raw([right, stored(root.encode() + b"\xff.go", b"x")]),
        "letters of other scripts": lambda: raw(
            [right, stored(f"{root}\u043f\u0430\u043a\u0435\u0442.go", b"package a\n")]
        ),
        "a name twice": lambda: raw([right, stored(f"{root}a.go", b"1"), stored(f"{root}a.go", b"2")]),
        "names that differ by case": lambda: raw([right, stored(f"{root}a.go", b"1"), stored(f"{root}A.go", b"2")]),
        "a file and a folder": lambda: raw([right, stored(f"{root}a", b"1"), stored(f"{root}a/b", b"2")]),
        "a folder": lambda: raw([right, stored(f"{root}sub/", b""), stored(f"{root}sub/a.go", b"package sub\n")]),
        "a go.mod below": lambda: raw([right, stored(f"{root}sub/go.mod", gomod)]),
        "a GO.MOD": lambda: raw([stored(f"{root}GO.MOD", gomod)]),
        "another go.mod": lambda: zipped(path, "v1.0.0", {"go.mod": "module example.com/else\n", "README": "x"}),
    }


def packed(root: str, right: Entry) -> Zips:
    """Returns zips whose entries do not say how large their files are, or how many."""
    name, content, method, size, crc = deflated(f"{root}README.md", b"words " * 100)
    return {
        "less than it says": lambda: raw([right, (name, content, method, size + 5, crc)]),
        "more than it says": lambda: raw([right, (name, content, method, size - 5, crc)]),
        "a wrong sum": lambda: raw([right, (name, content, method, size, crc ^ 1)]),
        "an unknown method": lambda: raw([right, (name, content, 99, size, crc)]),
        "packed content that is none": lambda: raw([right, (name, b"\xff" * 50, method, size, crc)]),
        "a bomb": lambda: raw([right, deflated(f"{root}README.md", ZEROS)]),
        "a bomb that says it is small": lambda: raw([right, deflated(f"{root}README.md", ZEROS, size=10)]),
        "bombs of Go files": lambda: raw([right, *(deflated(f"{root}p{it}/a.go", FEWER) for it in range(200))]),
        "600 MB by its entries": lambda: raw([right, *((f"{root}{it}.bin", b"", 0, 60 << 20, 0) for it in range(10))]),
        "30,000 files": lambda: raw([right, *(stored(f"{root}f{it}.txt", b"") for it in range(30_000))]),
        "more entries than it says": lambda: raw([right, stored(f"{root}a.go", b"package a\n")], count=1),
        "fewer entries than it says": lambda: raw([right], count=3),
        "a name of 60,000 letters": lambda: raw([right, stored(f"{root}{'d/' * 30_000}x", b"x")]),
        "entries that share a content": lambda: shared(right, root),
    }


def shared(right: Entry, root: str) -> bytes:
    """Returns a zip whose entries all stand at one place."""
    content = raw([right, *(stored(f"{root}{it:03}.go", b"package a\n") for it in range(100))])
    first = content.index(b"PK\3\4", 10)
    begin = content.index(b"PK\1\2", content.index(b"PK\1\2") + 4)
    body = bytearray(content)
    while (begin := body.find(b"PK\1\2", begin + 4)) > 0:
        body[begin + 42 : begin + 46] = first.to_bytes(4, "little")
    return bytes(body)


# zips of which the pages read too little to tell
UNREAD = ("30,000 files", "a name of 60,000 letters", "bombs of Go files")


class Module(NamedTuple):
    """A module that wants to break the pages: its path, its go.mod, its zip, and what it is."""

    path: str
    gomod: str
    content: bytes
    name: str


def find_hostile() -> list[Module]:
    """Returns the modules whose texts are hostile."""
    files: list[tuple[str, str, dict[str, str], str]] = []
    for number, text in enumerate(READMES):
        files.append((f"example.com/readme{number:02}", "", {"README.md": text}, f"README {number}"))
        files.append((f"example.com/plain{number:02}", "", {"README": text}, f"plain README {number}"))
    for number, text in enumerate(COMMENTS):
        files.append((f"example.com/doc{number:02}", "", {"a.go": f"{text}package a\n"}, f"comment {number}"))
    for number, text in enumerate(LICENCES):
        files.append((f"example.com/licence{number:02}", "", {"LICENSE": text}, f"licence {number}"))
    for number, text in enumerate(GOMODS):
        files.append((f"example.com/gomod{number:02}", text, {}, f"go.mod {number}"))
    return [
        Module(path, gomod_of(path, text), zipped(path, "v1.0.0", {"go.mod": gomod_of(path, text), **more}), name)
        for path, text, more, name in files
    ]


def gomod_of(path: str, text: str) -> str:
    """Returns a go.mod with a text: above its first line if it is a deprecation."""
    return f"{text}module {path}\n" if text.startswith("// Dep") else f"module {path}\n{text}"


def find_lying() -> list[Module]:
    """Returns the modules whose zips lie."""
    paths = {name: f"example.com/zip{number:02}" for number, name in enumerate(ZIPS)}
    return [Module(path, f"module {path}\n", zips_of(path)[name](), name) for name, path in paths.items()]


ZIPS = list(zips_of("example.com/x"))
# what an HTML page of ours has
TAGS = set(
    "html head meta title link script body a header nav ul li main footer p b h1 h2 h3 h4 h5 h6 section div span table "
    "thead tbody tr th td pre code button form label input time wbr blockquote ol em strong hr svg g rect text path "
    "details summary var".split()
)
HIDDEN = re.compile("[\x00-\x08\x0b-\x1f\x7f-\x9f\u200b\u200e\u200f\u202a-\u202e\u2060-\u2069\ufeff]")


class Made(NamedTuple):
    """What making the pages printed, the seconds of processor time and the bytes of memory it took, and which files are
    new beside the pages."""

    printed: str
    seconds: float
    memory: int
    beside: list[str]


def make_and_measure(lines: str) -> tuple[str, resource.struct_rusage]:
    """Makes the pages, and returns what that printed and what the children of this process used."""
    printed = made_pages("pages", "A", lines, "--store", "store.db")
    return printed, resource.getrusage(resource.RUSAGE_CHILDREN)


@pytest.fixture(scope="module", autouse=True)
def made() -> Iterator[Made]:
    """The pages of all these modules, in a folder of their own."""
    with entered_folder():
        new_store("store.db", *SHELVES)
        add_platform("store.db")
        modules = [*find_hostile(), *find_lying()]
        requests = [put(module.path, "v1.0.0", module.gomod.encode(), module.content, KEYS["A"]) for module in modules]
        replies = zip(modules, answered(["--db", "store.db"], requests))
        assert [module.name for module, reply in replies if reply != (201, b"published\n")] == []
        os.mkdir("bin")
        os.symlink(PROGRAM, "bin/goshelf")
        lines, beside = lines_of("A", "store.db"), {*os.listdir("."), "pages", "key"}
        # (a process of its own, because the peak of children counts each that this one ever had)
        with ProcessPoolExecutor(1, get_context("fork")) as alone:
            printed, used = alone.submit(make_and_measure, lines).result()
        left = [name for name in os.listdir(".") if not name.startswith(".pages.") and name not in beside]
        yield Made(printed, used.ru_utime + used.ru_stime, used.ru_maxrss << 10, left)


@pytest.fixture(scope="module")
def pages(made: Made) -> dict[str, Page]:
    """The pages of all these modules, by their files."""
    return pages_in("pages")


def test_all_of_them_become_pages(made: Made) -> None:
    assert " new or changed" in made.printed


def test_time_is_bounded(made: Made) -> None:
    assert made.seconds < 60


def test_memory_is_bounded(made: Made) -> None:
    assert made.memory < 300 << 20


def test_nothing_is_written_beside_the_pages(made: Made) -> None:
    slipped = [name for name in ("/etc/slipped", "/slipped", "../slipped", "../../slipped") if os.path.lexists(name)]
    assert (made.beside, slipped) == ([], [])


def test_no_file_of_a_zip_is_among_the_pages() -> None:
    assert [name for name in read_pages("pages") if "slipped" in name or "\\" in name or ".." in name] == []


def test_no_page_is_larger_than_2_mb() -> None:
    assert {name: len(content) for name, content in read_pages("pages").items() if len(content) > 2_000_000} == {}


def find_foreign(page: Page) -> list[str]:
    """Returns the tags, attributes, links and scripts of a page that no page of ours has."""
    found = [tag for tag, _ in page.tags if tag not in TAGS]
    found += [
        name for _, values in page.tags for name in values if name.startswith("on") or name in ("style", "srcset")
    ]
    found += [link for link in page.links if re.match("[a-z]*:|//", link.lower())]
    found += [link for link in page.outward if not re.match("https?://[a-z0-9.-]+(/|$)", link)]
    own = [name for name in page.loads if name.endswith(("parts/catalog.js", "parts/search.js"))]
    scripts = [tag for tag, _ in page.tags if tag == "script"]
    return [*found, *scripts[len(own) :], *page.scripts]


def test_no_page_has_html_of_a_module(pages: dict[str, Page]) -> None:
    assert len(pages) > 300
    assert {name: found for name, page in pages.items() if (found := find_foreign(page))} == {}


def test_no_page_has_a_letter_that_hides_others(pages: dict[str, Page]) -> None:
    assert {name: found for name, page in pages.items() if (found := HIDDEN.findall(page.text))} == {}


def test_words_of_the_search_are_one_literal() -> None:
    script = read_pages("pages")["parts/modules.js"].decode()
    literals = re.fullmatch(r'export const COMMON = "[a-z ]*";\nexport const MODULES = (".*");\n', script, re.S)
    assert literals and isinstance(json.loads(literals[1]), str)
    assert HIDDEN.findall(script) == []


@pytest.mark.parametrize("number", range(len(READMES)))
def test_hostile_readme_has_pages(pages: dict[str, Page], number: int) -> None:
    for kind in ("readme", "plain"):
        page = pages[f"m/example.com/{kind}{number:02}/readme.html"]
        assert all(link.startswith("http") for link in page.outward)
        assert page.headings[0] == ["h1", f"example.com/{kind}{number:02}"]


class TestGoAgrees:
    """The zips that the pages call unusable are those that the go command refuses."""

    @pytest.fixture(scope="class")
    def errors(self, made: Made) -> dict[str, str | None]:
        """Why `go mod download` refuses a zip, by its path; None if it takes it."""
        with Server("store.db") as server:
            proxy = f"{server.url}/k/{KEYS['A']}"
            where = settings(os.getcwd(), GOPROXY=proxy, GONOSUMDB="*", GONOSUMCHECK="1", GOFLAGS="-modcacherw")
            paths = [f"example.com/zip{number:02}@v1.0.0" for number in range(len(ZIPS))]
            ran = subprocess.run(
                ["go", "mod", "download", "-json", *paths], env=where, capture_output=True, timeout=600
            )
        text, decoder, found = ran.stdout.decode(errors="replace").strip(), json.JSONDecoder(), {}
        while text:
            row, end = decoder.raw_decode(text)
            text = text[end:].lstrip()
            found[row["Path"]] = row.get("Error")
        return found

    @pytest.mark.parametrize("name", ZIPS)
    def test_zip(self, errors: dict[str, str | None], pages: dict[str, Page], name: str) -> None:
        path = f"example.com/zip{ZIPS.index(name):02}"
        says = re.search("No go command takes the zip of this version: ([^<]*)", pages[f"m/{path}/index.html"].text)
        assert bool(says) == bool(errors[path]) or (name in UNREAD and not says), (says and says[1], errors[path])
