"""A shelf as a company has it: modules with READMEs, licences, packages, users, a deprecation and a retraction."""

from typing import NamedTuple

from lib.catalog_zips import published

LICENCE = """MIT License

Copyright (c) 2026 Example

Permission is hereby granted, free of charge, to any person obtaining a copy of this software and associated
documentation files (the "Software"), to deal in the Software without restriction.

THE SOFTWARE IS PROVIDED "AS IS", WITHOUT WARRANTY OF ANY KIND.
"""
README = """# dbpool

Keeps connections to a database open, and hands them out.

## Use

```go
pool, err := dbpool.Open(ctx, "postgres://db.example.com/orders", dbpool.Max(20))
if err != nil {
	return err
}
defer pool.Close()
```

A connection that fails is replaced. **At most `Max` of them are open**; who asks for more waits.

| option | default | meaning |
|---|---:|---|
| `Max` | 10 | how many connections are open at most |
| `Idle` | 1 m | how long an unused connection stays open |
| `Health` | 30 s | how often an unused connection is tested |

- See the [design](https://wiki.example.com/dbpool) for how it was chosen.
- `dbpool/pgdriver` has the driver of PostgreSQL.
"""
DOC = """// Package dbpool keeps connections to a database open, and hands them out.
//
// A Pool is safe for use by many goroutines.
//
// # Limits
//
// Three limits hold for each Pool:
//   - Max connections are open at once
//   - Idle is how long an unused one stays open
//   - Health is how often it is tested
//
// A caller beyond Max waits until its context is done:
//
//	conn, err := pool.Get(ctx)
package dbpool
"""
DBPOOL, RECORD, INVOICE, ORDERS, RETRY, OLD = (
    f"example.com/{name}" for name in ("dbpool", "record", "billing/invoice", "orders", "retry", "sqlpool")
)
CODE = "package dbpool\n\nconst Name = {!r}\n"


class Version(NamedTuple):
    """A version of the example: its path, its go.mod behind the line `module`, and its other files."""

    path: str
    version: str
    gomod: str
    files: dict[str, str]


def driver(name: str, sentence: str) -> str:
    """Returns a Go file of a package with a comment."""
    return f"// Package {name} {sentence}\npackage {name}\n"


DBPOOL_FILES = {
    "README.md": README,
    "LICENSE": LICENCE,
    "pool.go": DOC,
    "pgdriver/driver.go": driver("pgdriver", "is the driver of PostgreSQL."),
}
VERSIONS = (
    Version(RETRY, "v1.0.0", "go 1.22\n", {"retry.go": driver("retry", "calls again what failed, and waits longer.")}),
    Version(RECORD, "v1.2.0", "go 1.22\n", {"record.go": driver("record", "writes records of what a service does.")}),
    Version(OLD, "v0.9.0", "go 1.20\n", {"sqlpool.go": driver("sqlpool", "keeps connections open.")}),
    Version(DBPOOL, "v1.3.0", f"go 1.21\nrequire {RECORD} v1.2.0\n", {**DBPOOL_FILES, "old.go": CODE.format("old")}),
    Version(DBPOOL, "v1.3.1", f"go 1.21\nrequire {RECORD} v1.2.0\n", {**DBPOOL_FILES, "old.go": CODE.format("new")}),
    Version(
        DBPOOL,
        "v1.4.0",
        f"go 1.22\nrequire (\n\t{RECORD} v1.2.0\n\t{RETRY} v1.0.0\n)\nretract v1.3.1 // loses connections under load\n",
        {**DBPOOL_FILES, "health.go": "package dbpool\n"},
    ),
    Version(
        INVOICE,
        "v0.4.0",
        f"go 1.22\nrequire (\n\t{DBPOOL} v1.3.1\n\t{RECORD} v1.2.0\n)\n",
        {"invoice.go": driver("invoice", "writes and sends invoices.")},
    ),
    Version(
        ORDERS,
        "v1.7.0",
        f"go 1.22\nrequire (\n\t{DBPOOL} v1.4.0\n\t{OLD} v0.9.0\n)\n",
        {"orders.go": driver("orders", "keeps what customers ordered.")},
    ),
    Version(
        "example.com/reports",
        "v0.2.0",
        f"go 1.22\nrequire {DBPOOL} v1.3.0\n",
        {"README.md": "# reports\n\nReports of each day, as the accounts department reads them.\n"},
    ),
    Version(OLD, "v0.9.1", "go 1.20\n", {"sqlpool.go": driver("sqlpool", "keeps connections open.")}),
)


def gomod_of(version: Version) -> str:
    """Returns the go.mod of a version."""
    comment = f"// Deprecated: use {DBPOOL}.\n" if (version.path, version.version) == (OLD, "v0.9.1") else ""
    return f"{comment}module {version.path}\n\n{version.gomod}"


def publishes(letter: str) -> list[bytes]:
    """Returns the publishes of all versions, in order, with the key of a letter."""
    return [
        published(letter, version.path, version.version, {"go.mod": gomod_of(version), **version.files})
        for version in VERSIONS
    ]
