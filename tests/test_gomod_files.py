"""go.mod files in the style of public modules, and what they say, worked out by hand.

Each is published as the highest version of its path, among versions that it retracts and others. `requires` prints what
it requires, and `catalog` which versions it retracts.
"""

import json
from collections.abc import Iterator
from typing import NamedTuple

import pytest

from lib.keys import KEY
from lib.messages import put
from lib.modules import escaped
from lib.program import answered, run
from lib.scratch import entered_folder
from lib.stores import new_store

# The first line of a file has what it says: the path of the module; what it requires; some versions that it retracts;
# and some that it does not. `====` stands between two files.
FILES = """\
example.com/a||v1.0.5 v1.1.0-rc.1 v1.1.0|v1.0.5-rc.1 v1.1.1
module example.com/a
retract [v1.0.5, v1.1.0]
====
example.com/stretches||v1.1.0 v1.1.5 v1.2.1 v1.3.0 v1.4.0 v1.5.5 v1.6.5 v1.7.0 v1.7.5 v1.8.0-rc.1 v1.8.0-rc.2 v1.8.0 \
v1.8.1-alpha v1.8.1-beta.2 v1.9.0|v1.0.9 v1.1.0-rc.1 v1.3.1-0 v1.3.1 v1.4.0-rc.1 v1.7.6-rc.1 v1.7.6 v1.8.0-beta \
v1.8.1-0 v1.8.1-beta.3 v1.8.1 v1.9.0-rc.1 v1.9.1
module example.com/stretches

retract (
\tv1.9.0
\t[v1.4.0, v1.6.0] // overlaps the next
\t[v1.5.0, v1.7.0]
\t[v1.1.0, v1.3.0]
\t[v1.1.5, v1.2.0] // within the one above
\t[v1.7.0, v1.7.5] // begins where another ends
\t[v1.1.0, v1.3.0] // once more
\tv1.9.0
\t[v1.1.0, v1.1.0]
)

retract [v1.8.1-alpha, v1.8.1-beta.2]
retract [v1.8.0-rc.1, v1.8.0]
====
github.com/davecgh/go-spew|||
module github.com/davecgh/go-spew
====
github.com/gorilla/mux|||
module github.com/gorilla/mux

go 1.20
====
golang.org/x/tools|github.com/google/go-cmp v0.6.0 github.com/yuin/goldmark v1.4.13 golang.org/x/mod v0.22.0 \
golang.org/x/telemetry v0.0.0-20240521205824-bda55230c457 ||v0.1.0
// Tools.
module golang.org/x/tools

go 1.22.0 // see the notes

require (
\tgithub.com/google/go-cmp v0.6.0

\tgithub.com/yuin/goldmark v1.4.13 // indirect
\t"golang.org/x/mod" v0.22.0
)

require golang.org/x/telemetry v0.0.0-20240521205824-bda55230c457
====
gopkg.in/yaml.v3|gopkg.in/check.v1 v0.0.0-20161208181325-20d25e280405 ||
module "gopkg.in/yaml.v3"

require (
\t"gopkg.in/check.v1" v0.0.0-20161208181325-20d25e280405
)
====
github.com/spf13/cobra|github.com/cpuguy83/go-md2man/v2 v2.0.6 github.com/inconshreveable/mousetrap v1.1.0 \
gopkg.in/yaml.v3 v3.0.1 ||
module github.com/spf13/cobra

go 1.15

require (
\tgithub.com/cpuguy83/go-md2man/v2 v2.0.6
\tgithub.com/inconshreveable/mousetrap v1.1.0
\tgopkg.in/yaml.v3 v3.0.1
)
====
github.com/docker/cli|github.com/Azure/go-autorest v14.2.0+incompatible github.com/docker/docker \
v28.0.0-rc.1+incompatible github.com/docker/libtrust v0.0.0-20160708172513-aabc10ec26b7 ||
module github.com/docker/cli

// 'vendor.mod' is this file's other name (see the notes).

go 1.23rc1

require (
\tgithub.com/Azure/go-autorest v14.2.0+incompatible
\tgithub.com/docker/docker v28.0.0-rc.1+incompatible // v28.0.0
)

require (
\tgithub.com/docker/libtrust v0.0.0-20160708172513-aabc10ec26b7 // indirect
)
====
k8s.io/kubernetes|k8s.io/api v0.0.0 k8s.io/utils v0.0.0-20241104100929-3ea5e8cea738 ||
// This is a generated file. Do not edit directly.

module k8s.io/kubernetes

go 1.24.0

require (
\tk8s.io/api v0.0.0
\tk8s.io/utils v0.0.0-20241104100929-3ea5e8cea738
)

replace (
\tk8s.io/api => ./staging/src/k8s.io/api
\tk8s.io/client-go => ./staging/src/k8s.io/client-go
)
====
go.etcd.io/etcd/v3|go.etcd.io/etcd/api/v3 v3.6.0-alpha.0 ||
module go.etcd.io/etcd/v3

replace (
\tgo.etcd.io/etcd/api/v3 => ./api
\tgithub.com/coreos/bbolt v1.3.4 => go.etcd.io/bbolt v1.3.4 // moved
)

replace github.com/old/grpc => github.com/new/grpc/v2 v2.1.0
replace github.com/old/grpc v1.0.0 => /src/grpc

// It does not build.
exclude github.com/old/grpc v1.1.0

exclude (
\tgithub.com/old/grpc v1.2.0-beta.1
)

require go.etcd.io/etcd/api/v3 v3.6.0-alpha.0
====
github.com/redis/go-redis/v9|github.com/bsm/ginkgo/v2 v2.12.0 github.com/dgryski/go-rendezvous \
v0.0.0-20200823014737-9f7001d12a5f |v9.7.2 v9.5.4|v9.7.1 v9.6.0
module github.com/redis/go-redis/v9

go 1.18

require (
\tgithub.com/bsm/ginkgo/v2 v2.12.0
\tgithub.com/dgryski/go-rendezvous v0.0.0-20200823014737-9f7001d12a5f
)

retract (
\tv9.7.2 // Released by accident. Please use v9.7.3.
\tv9.5.4 // Released by accident. Please use v9.6.0.
)
====
github.com/foo/bar/v3||v3.0.0-alpha v3.0.0-alpha.1 v3.0.0 v3.1.3 v3.1.5 v3.9.0-rc.1|\
v3.0.1 v3.1.6-0.20240101000000-aaaaaaaaaaaa v3.9.0
module github.com/foo/bar/v3

// Published before the interface was settled,
// and withdrawn with all its betas.
retract [v3.0.0-alpha, v3.0.0]

retract (
\t// It loses data.
\t[ v3.1.0 , v3.1.5 ]

\tv3.9.0-rc.1 // Only the tag was wrong (see [v3.9.0]).
)
====
example.com/shop|internal v0.0.0 shop/prices/v2 v2.0.0 ||
module example.com/shop

require (
\tinternal v0.0.0
\tshop/prices/v2 v2.0.0
)

replace internal => ../internal

replace shop/prices/v2 v2.0.0 => ..
====
example.com/strings|github.com/a/b v1.0.0 github.com/c/d v0.1.0 github.com/e/f v0.2.0 |v1.0.0 v1.2.0-rc.1|v1.0.1 v1.2.1
module `example.com/strings`

go "1.21"

require "github.com/a/b" "v1.0.0"
require `github.com/c/d` v0.1.0 // a "comment"
require "github.com/\\e/f" v0.2.0
replace "github.com/a/b" => "./a directory/of \\"ours\\", (old)"
retract "v1.0.0"
retract [`v1.1.0`,"v1.2.0"]
====
golang.org/x/vulndb|github.com/BurntSushi/toml v1.5.0 golang.org/x/mod v0.27.0 golang.org/x/tools v0.36.0 ||
module golang.org/x/vulndb

go 1.24.0

toolchain go1.24.6 // the one that builds it

require (
\tgithub.com/BurntSushi/toml v1.5.0
\tgolang.org/x/mod v0.27.0
\tgolang.org/x/tools v0.36.0 // indirect
)

tool golang.org/x/tools/cmd/stringer
====
k8s.io/apiserver|k8s.io/api v0.34.0 |v0.31.0-beta.0|v0.31.0
// This is a generated file. Do not edit directly.

module k8s.io/apiserver

go 1.24.0

godebug default=go1.24

require k8s.io/api v0.34.0

retract v0.31.0-beta.0
====
example.com/site|example.com/site/tools v0.3.0 ||
module example.com/site

go 1.25

godebug (
\tdefault=go1.21
\tpanicnil=1 // until it is mended
\t`asynctimerchan=0`
)

ignore (
\t./node_modules

\tstatic // built beside it
\t"content/a draft"
)

tool (
\t// The pages.
\texample.com/site/tools/pages
\t"example.com/site/cmd/\\s"
)

ignore third_party/javascript

tool example.com/site/tools/links

require example.com/site/tools v0.3.0

toolchain "go1.25rc1"
====
example.com/windows|github.com/a/b v1.0.0 github.com/c/d v1.0.0 ||
require github.com/a/b v1.0.0\r
require(\r
  github.com/c/d  v1.0.0 \t\r
)\r
\r
module (\r
\texample.com/windows//the path\r
)\r
go 1.9.2\r
require (\r
)
"""
# the beginning of a file that retracts patches 0 to 5 of 300 minor versions, the last minor version first
MANY = """\
example.com/many||v1.0.0 v1.0.5 v1.7.3 v1.149.0 v1.150.5 v1.298.0 v1.299.1-rc.1 v1.299.5|\
v1.0.0-rc.1 v1.0.6 v1.7.6 v1.8.0-rc.1 v1.149.6 v1.298.7 v1.299.6 v1.300.0
module example.com/many
retract (
"""


class GoMod(NamedTuple):
    """A go.mod, and what it says."""

    text: str
    path: str
    required: list[str]
    retracted: list[str]
    others: list[str]

    def __str__(self) -> str:
        return self.path

    @property
    def version(self) -> str:
        """The version that it is published as, above all others."""
        last = self.path.rpartition("/")[2].rpartition(".")[2]
        return f"{last if last[1:].isdigit() and last[0] == 'v' else 'v1'}.999999.0"


def read_gomod(file: str) -> GoMod:
    said, _, text = file.partition("\n")
    path, required, retracted, others = said.split("|")
    words = required.split()
    return GoMod(
        text, path, [" ".join(pair) for pair in zip(words[::2], words[1::2])], retracted.split(), others.split()
    )


RETRACTED = "".join(f"[v1.{minor}.0, v1.{minor}.5]\n" for minor in reversed(range(300)))
GOMODS = [read_gomod(file) for file in [*FILES.removesuffix("\n").split("====\n"), f"{MANY}{RETRACTED})\n"]]


@pytest.fixture(scope="module")
def store() -> Iterator[str]:
    """A store that has all of them, each among the versions that its first line names."""
    with entered_folder() as folder:
        new_store("store.db", ("alpha", KEY))
        puts = []
        for gomod in GOMODS:
            plain = f'module "{gomod.path}"\n'.encode()
            puts += [put(escaped(gomod.path), version, plain) for version in [*gomod.retracted, *gomod.others]]
            puts.append(put(escaped(gomod.path), gomod.version, gomod.text.encode()))
        assert answered(["--db", "store.db"], puts) == [(201, b"published\n")] * len(puts)
        yield f"{folder}/store.db"


@pytest.fixture(scope="module")
def retracted(store: str) -> dict[str, dict[str, bool]]:
    """For each path, whether each of its versions is retracted."""
    status, printed, errors = run(["catalog", "--db", store, "--key", KEY])
    assert (status, errors) == (0, "")
    found: dict[str, dict[str, bool]] = {}
    for line in map(json.loads, printed.splitlines()):
        found.setdefault(line["Path"], {})[line["Version"]] = line.get("Retracted", False)
    return found


@pytest.mark.parametrize("gomod", GOMODS, ids=str)
def test_what_a_file_requires(store: str, gomod: GoMod) -> None:
    words = ["requires", "--db", store, "--key", KEY, "--module", gomod.path, "--version", gomod.version]
    assert run(words) == (0, "".join(f"{line}\n" for line in gomod.required).encode(), "")


@pytest.mark.parametrize("gomod", GOMODS, ids=str)
def test_what_a_file_retracts(retracted: dict[str, dict[str, bool]], gomod: GoMod) -> None:
    wanted = {**dict.fromkeys(gomod.retracted, True), **dict.fromkeys(gomod.others, False), gomod.version: False}
    assert retracted[gomod.path] == wanted
