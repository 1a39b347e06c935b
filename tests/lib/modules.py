"""Modules as files and zips, and their sums."""

import base64
import hashlib
import io
import zipfile
from collections.abc import Iterable, Mapping

# the path, the version, the go.mod and the zip of a module
Version = tuple[str, str, bytes, bytes]


def module(path: str, version: str, requires: Iterable[str] = (), more: str = "", code: str | None = None) -> Version:
    """Returns a version with one package, whose constant names the version. With `bare`, its go.mod has one line."""
    name = next(part for part in reversed(path.split("/")) if not part[1:].isdigit()).lower()
    lines = "".join(f"require {required}\n" for required in requires)
    gomod = f"module {path}\n" if code is None and more == "bare" else f"module {path}\n\ngo 1.17\n{lines}{more}"
    source = code or f'package {name}\n\nconst Version = "{path} {version}"\n'
    return path, version, gomod.encode(), zipped(path, version, {"go.mod": gomod, f"{name}.go": source})


def h1(files: Iterable[tuple[str, bytes]]) -> str:
    """Returns the h1 sum of named files (golang.org/x/mod/sumdb/dirhash)."""
    lines = "".join(f"{hashlib.sha256(content).hexdigest()}  {name}\n" for name, content in sorted(files))
    return "h1:" + base64.b64encode(hashlib.sha256(lines.encode()).digest()).decode()


def sums(gomod: bytes, zip_bytes: bytes) -> tuple[str, str]:
    """Returns the sums of a go.mod and of a zip, as go.sum has them."""
    with zipfile.ZipFile(io.BytesIO(zip_bytes)) as archive:
        files = [(name, archive.read(name)) for name in archive.namelist()]
    return h1([("go.mod", gomod)]), h1(files)


def escaped(text: str) -> str:
    """Returns a path or a version in the case escape of the GOPROXY protocol."""
    return "".join(f"!{letter.lower()}" if letter.isupper() else letter for letter in text)


def zipped(path: str, version: str, files: Mapping[str, str | bytes]) -> bytes:
    """Returns the zip of a version with these files, the same bytes in each call."""
    written = io.BytesIO()
    with zipfile.ZipFile(written, "w") as archive:
        for name, content in files.items():
            archive.writestr(zipfile.ZipInfo(f"{path}@{version}/{name}"), content)
    return written.getvalue()
