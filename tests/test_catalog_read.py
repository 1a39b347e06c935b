"""What tools/catalog reads in the zips of modules: READMEs, licences, packages and files, on pages of their own.

What it says about a package is compared with `go list`, and the pages of a team with those of the store extracted for
it.
"""

import os
import subprocess
from collections.abc import Iterator

import pytest

from lib.catalog_pages import OUTWARD, Page, pages_in
from lib.catalog_zips import lines_of, made_pages, published, read_pages
from lib.go_command import settings
from lib.keys import SHELVES
from lib.program import PROGRAM, answered, done
from lib.scratch import entered_folder, read, write
from lib.servers import Server
from lib.stores import add_platform, new_store

pytestmark = pytest.mark.needs("go")

MIT = """MIT License

Copyright (c) 2026 Example

Permission is hereby granted, free of charge, to any person obtaining a copy of this software and associated
documentation files (the "Software"), to deal in the Software without restriction.

THE SOFTWARE IS PROVIDED "AS IS", WITHOUT WARRANTY OF ANY KIND.
"""
README = """# Pool

Pools *connections* to a `database`, see [the guide](https://docs.example.org/pool?a=1&b=2 "Guide") and
[the design](design.md). ![A picture](https://img.example.org/x.png)

- one
- two
  1. inner

| name | what |
|:-----|-----:|
| `Max` | at most |

```go
p := pool.New() // <b>
```

> quoted <https://example.org/q>

<p align="center"><img src="https://img.example.org/y.png"></p>
"""
ROOT_GO = """// Copyright 2026 Example. All rights reserved.

//go:build linux

// Package pool keeps connections open. It is safe for use by many.
//
// # Limits
//
// At most:
//   - 100 connections, see https://example.org/limits.
//   - 10 hosts
//
// As in
//
//\tpool.New(1 < 2)
package pool
"""
POOL, GOMOD = "example.com/pool", "module example.com/pool\n\ngo 1.19\n"
FILES = {
    "go.mod": GOMOD,
    "README.md": README,
    "LICENSE": MIT,
    "pool.go": ROOT_GO,
    "pool_test.go": "// Package wrong is a test.\npackage pool\n",
    "driver/driver.go": "/*\nPackage driver says what a ``driver'' does.\n*/\npackage driver\n",
    "driver/a.go": "package driver\n",
    "cmd/pooler/main.go": "// Pooler shows a pool. Mr. X. wrote it.\npackage main\n\nfunc main() {}\n",
    "internal/x/x.go": "package x // Package no comment.\n",
    "testdata/t/t.go": "// Package t is no package.\npackage t\n",
    "_old/old.go": "// Package old is no package.\npackage old\n",
}
TABLES = {
    "packages.html packages": [
        f"{POOL}|Package pool keeps connections open.",
        "cmd/pooler|command Pooler shows a pool.",
        "driver|Package driver says what a “driver” does.",
        "internal/x|internal",
    ],
    "files.html files": [f"{name}|{len(FILES[name])} B" for name in sorted(FILES)],
    "readme.html readme": ["Max|at most"],
}
# a page, and the texts that it has from the README or from a comment
HTML = {
    "readme.html": (
        "<h2>Pool</h2>",
        "<p>Pools <em>connections</em> to a <code>database</code>, see "
        f'<a href="https://docs.example.org/pool?a=1&amp;b=2" rel="{OUTWARD}">the guide</a> '
        '<span class="quiet">(docs.example.org)</span> and\nthe design <span class="quiet">(design.md)</span>. A '
        "picture</p>",
        "<ul>\n<li>one</li>\n<li>two\n<ol>\n<li>inner</li>\n</ol>\n</li>\n</ul>",
        '<pre tabindex="0"><code>p := pool.New() // &lt;b&gt;</code></pre>',
        f'<a href="https://example.org/q" rel="{OUTWARD}">https://example.org/q</a></p>\n</blockquote>',
    ),
    "packages.html": (
        "<p>Package pool keeps connections open. It is safe for use by many.</p>",
        "<h3>Limits</h3>",
        f'see <a href="https://example.org/limits" rel="{OUTWARD}">https://example.org/limits</a>.</li>',
        '<pre tabindex="0"><code>pool.New(1 &lt; 2)</code></pre>',
        "<code>go run example.com/pool/cmd/pooler@v1.1.0</code>",
        "<code>import &quot;example.com/pool/driver&quot;</code>",
    ),
    "index.html": (
        '<p class="synopsis" dir="auto">Package pool keeps connections open.</p>',
        'licence <span title="by the file LICENSE">MIT</span>',
        f'<a href="https://example.com/pool" rel="{OUTWARD}">',
    ),
}
# a module that is a command
LINT = {
    "README.md": "# lint\n\n    go install example.com/lint/cmd/vets@latest\n\nOur vet checks.\n",
    "cmd/vets/main.go": "// Vets checks.\npackage main\n",
    "internal/x.go": "package x\n",
}
# modules, each by the letter of a key, the path, the version, and its files without a go.mod
OTHERS = (
    ("A", "example.com/pool", "v1.0.0", {"old.go": "package pool\n", "README": "older"}),
    ("A", "example.com/plain", "v1.0.0", {"README": "Plain <b>text</b>\n\tas it is\n", "COPYING": "Own terms."}),
    ("A", "github.com/acme/thing/v2", "v2.0.0", {"a.go": "package thing\n"}),
    ("A", "github.com/acme/thing", "v1.0.0", {}),
    ("A", "example.com/empty", "v1.0.0", {}),
    ("A", "example.com/lint", "v0.2.0", LINT),
    ("C", "example.com/shared", "v1.0.0", {"README.md": "Shared by all, which is a sentence.\n"}),
    (
        "B",
        "example.com/hidden",
        "v1.0.0",
        {"README.md": "secretword of beta\n", "h.go": "// Package h secretdoc.\npackage h\n"},
    ),
    ("B", "example.com/shared", "v1.1.0", {"README.md": "secretword of beta\n"}),
)
TEXTS = {
    "example.com/plain/readme.html": '<pre class="readme">Plain &lt;b&gt;text&lt;/b&gt;\n    as it is\n</pre>',
    "example.com/plain/index.html": 'licence <span title="by the file COPYING">see COPYING</span>',
    "github.com/acme/thing/v2/index.html": '<a href="https://github.com/acme/thing" rel="noopener noreferrer">',
    "example.com/shared/index.html": "Shared by all, which is a sentence.",
    "example.com/lint/index.html": "<code>go install example.com/lint/cmd/vets@v0.2.0</code>",
}

STORE = "--store", "store.db"
MADE, SAME = "30 pages, 30 new or changed\n", "30 pages, 0 new or changed\n"
LOADED = ["catalog.css", "catalog.js", "icon.svg", "made.css", "narrow.css", "prose.css", "search.js"]
ROWS = TABLES["packages.html packages"]


@pytest.fixture(scope="module", autouse=True)
def printed() -> Iterator[str]:
    """What the tool prints as it makes the pages of alpha, which the tests read."""
    with entered_folder():
        new_store("store.db", *SHELVES)
        add_platform("store.db")
        requests = [published("A", POOL, "v1.1.0", FILES), *(published(*module) for module in OTHERS)]
        assert answered(["--db", "store.db"], requests) == [(201, b"published\n")] * len(requests)
        os.mkdir("bin")
        os.symlink(PROGRAM, "bin/goshelf")
        yield made_pages("alpha", "A", lines_of("A", "store.db"), *STORE)


def test_tool_counts_its_pages(printed: str) -> None:
    assert printed == MADE


@pytest.mark.parametrize(("name", "rows"), TABLES.items(), ids=TABLES)
def test_table(name: str, rows: list[str]) -> None:
    page, heading = name.split()
    assert Page(f"alpha/m/{POOL}/{page}").table_of(heading) == rows


@pytest.mark.parametrize(
    ("page", "text"),
    [(page, text) for page, texts in HTML.items() for text in texts],
    ids=[f"{page} {number}" for page, texts in HTML.items() for number, _ in enumerate(texts)],
)
def test_page_has_the_text(page: str, text: str) -> None:
    assert text in Page(f"alpha/m/{POOL}/{page}").text


@pytest.mark.parametrize(("page", "text"), TEXTS.items(), ids=TEXTS)
def test_page_of_another_module_has_the_text(page: str, text: str) -> None:
    assert text in Page(f"alpha/m/{page}").text


@pytest.mark.parametrize(("path", "other"), [("thing", "thing/v2"), ("thing/v2", "thing")])
def test_page_leads_to_the_other_major_version(path: str, other: str) -> None:
    page = Page(f"alpha/m/github.com/acme/{path}/index.html")
    assert "Other major versions: <a " in page.text
    assert any(link.endswith(f"m/github.com/acme/{other}/") for link in page.links)


def test_synopsis_is_a_sentence_of_the_readme_and_no_code() -> None:
    assert '<p class="synopsis" dir="auto">Our vet checks.</p>' in Page("alpha/m/example.com/lint/index.html").text


def test_cell_of_a_table_has_the_name_of_its_column() -> None:
    assert '<td data-is="what">at most</td>' in Page(f"alpha/m/{POOL}/readme.html").text


def test_module_with_a_gomod_alone_has_three_pages() -> None:
    names = sorted(name for name in pages_in("alpha") if name.startswith("m/example.com/empty/"))
    assert names == [f"m/example.com/empty/{page}.html" for page in ("files", "index", "versions")]


def test_pages_load_nothing_else() -> None:
    loads = {load for page in pages_in("alpha").values() for load in page.loads}
    assert sorted({os.path.basename(load) for load in loads}) == LOADED


class TestGoAgrees:
    """`go list` has the same packages, with the same sentences."""

    @pytest.fixture(scope="class")
    def packages(self, printed: str) -> list[list[str]]:
        """The path, the name and the sentence of each package, by `go list`."""
        for name, content in FILES.items():
            os.makedirs(os.path.dirname(f"source/{name}"), exist_ok=True)
            write({f"source/{name}": content})
        words = ["go", "list", "-f", "{{.ImportPath}}|{{.Name}}|{{.Doc}}", "./..."]
        how = {"cwd": "source", "env": settings(os.getcwd()), "capture_output": True, "text": True}
        return [line.split("|") for line in subprocess.run(words, check=True, **how).stdout.splitlines()]

    def test_sentences(self, packages: list[list[str]]) -> None:
        sentences = [f"{'command ' if name == 'main' else ''}{sentence}" for _, name, sentence in packages]
        assert [row.partition("|")[2].removeprefix("internal") for row in ROWS] == sentences

    def test_packages(self, packages: list[list[str]]) -> None:
        paths = [path.removeprefix(f"{POOL}/") for path, _, _ in packages]
        assert [row.partition("|")[0] for row in ROWS] == paths


class TestWays:
    """A goshelf that serves and one that answers over the store give the same pages; each zip is read once."""

    @pytest.fixture(scope="class")
    def port(self, printed: str) -> int:
        """The port by which the pages `served` were made, where nobody listens any more."""
        # (while it is served, no other program opens the store)
        lines = lines_of("A", "store.db")
        with Server("store.db") as server:
            made_pages("served", "A", lines, "--port", str(server.port))
            return server.port

    def test_pages_by_a_port_are_the_same(self, port: int) -> None:
        assert read_pages("served") == read_pages("alpha")

    def test_no_zip_is_asked_for_twice(self, port: int) -> None:
        assert made_pages("served", "A", lines_of("A", "store.db"), "--port", str(port), "--anew") == SAME

    def test_only_the_owner_reads_what_is_cached(self) -> None:
        assert os.stat(".alpha.kept").st_mode & 0o777 == 0o600

    def test_broken_cache_is_made_again(self, port: int) -> None:
        write({".served.kept": b"broken" * 1_000})
        assert made_pages("served", "A", lines_of("A", "store.db"), *STORE, "--anew") == SAME


class TestIsolation:
    """No page of alpha has a word of beta's modules."""

    def test_pages_are_those_of_the_extracted_store(self) -> None:
        done("extract", "--db", "store.db", "--team", "alpha", "--to", "alpha.db")
        made_pages("apart", "A", lines_of("A", "alpha.db"), "--store", "alpha.db")
        assert read_pages("apart") == read_pages("alpha")

    def test_no_page_has_a_word_of_beta(self) -> None:
        pages = read_pages("alpha").items()
        assert [name for name, content in pages if b"secret" in content or b"com/hidden" in content] == []

    def test_cache_has_no_word_of_beta(self) -> None:
        assert b"secret" not in read(".alpha.kept")

    def test_beta_sees_its_own(self) -> None:
        made_pages("beta", "B", lines_of("B", "store.db"), *STORE)
        assert b"secretword" in read("beta/m/example.com/shared/readme.html")
