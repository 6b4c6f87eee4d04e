"""Builds the wheel, with nothing but Python's own library: `pip install .` needs no network, and writes nothing here.

With `--config-settings library=PATH`, or with CEDAR_LIBRARY in the environment, the shared object goes into the wheel."""

import base64
import hashlib
import io
import os
import re
import tarfile
import zipfile
from typing import Dict, Iterator, Optional, Tuple

HERE = os.path.dirname(os.path.abspath(__file__))
# What is used by a program, and the service over it.
PACKAGE, SERVICE = "cedar_session", "cedar_server"
Settings = Optional[Dict[str, str]]


def _read(path: str) -> bytes:
    with open(os.path.join(HERE, path), "rb") as it:
        return it.read()


def _told(key: str) -> str:
    """What pyproject.toml says of the project."""
    found = re.search(rf'(?m)^{key} = "(.*)"$', _read("pyproject.toml").decode())
    if found is None:
        raise ValueError(f"pyproject.toml has no {key}")
    return found[1]


def _extras() -> Iterator[str]:
    """What pyproject.toml says that parts of it need besides."""
    listed = _read("pyproject.toml").decode().partition("[project.optional-dependencies]")[2]
    for extra, needs in re.findall(r"(?m)^(\w+) = \[(.*)\]$", listed):
        yield f"Provides-Extra: {extra}"
        yield from (f"Requires-Dist: {it}; extra == '{extra}'" for it in re.findall(r'"([^"]+)"', needs))


def _metadata() -> bytes:
    head = ["Metadata-Version: 2.1", f"Name: {_told('name')}", f"Version: {_told('version')}", f"Summary: {_told('description')}"]
    head += [f"Requires-Python: {_told('requires-python')}", *_extras()]
    head += ["Description-Content-Type: text/markdown", "", _read("README.md").decode()]
    return "\n".join(head).encode()


def _sources() -> Iterator[Tuple[str, bytes]]:
    for package in (PACKAGE, SERVICE):
        for name in sorted(os.listdir(os.path.join(HERE, package))):
            if name.endswith((".py", ".typed", ".html")):
                yield f"{package}/{name}", _read(f"{package}/{name}")


def _info() -> str:
    return f"{_told('name').replace('-', '_')}-{_told('version')}"


def get_requires_for_build_wheel(_: Settings = None) -> "list[str]":
    return []


def build_wheel(folder: str, settings: Settings = None, _: Optional[str] = None) -> str:
    library = (settings or {}).get("library") or os.environ.get("CEDAR_LIBRARY")
    tag = "py3-none-linux_x86_64" if library else "py3-none-any"
    files = dict(_sources())
    if library:
        files[f"{PACKAGE}/libcedar.so"] = _read(os.path.abspath(library))
    info = f"{_info()}.dist-info"
    files[f"{info}/METADATA"] = _metadata()
    files[f"{info}/WHEEL"] = f"Wheel-Version: 1.0\nGenerator: wheels\nRoot-Is-Purelib: {'false' if library else 'true'}\nTag: {tag}\n".encode()
    record = f"{info}/RECORD"
    files[record] = "".join(_recorded(*it) for it in files.items()).encode() + f"{record},,\n".encode()
    wheel = f"{_info()}-{tag}.whl"
    with zipfile.ZipFile(os.path.join(folder, wheel), "w", zipfile.ZIP_DEFLATED) as archive:
        for name, data in files.items():
            archive.writestr(zipfile.ZipInfo(name, (1980, 1, 1, 0, 0, 0)), data, zipfile.ZIP_DEFLATED)
    return wheel


def _recorded(name: str, data: bytes) -> str:
    digest = base64.urlsafe_b64encode(hashlib.sha256(data).digest()).rstrip(b"=").decode()
    return f"{name},sha256={digest},{len(data)}\n"


def build_sdist(folder: str, _: Settings = None) -> str:
    files = [*_sources(), *((it, _read(it)) for it in ("README.md", "pyproject.toml", "wheels.py")), ("PKG-INFO", _metadata())]
    name = f"{_info()}.tar.gz"
    with tarfile.open(os.path.join(folder, name), "w:gz") as archive:
        for path, data in files:
            member = tarfile.TarInfo(f"{_info()}/{path}")
            member.size = len(data)
            archive.addfile(member, io.BytesIO(data))
    return name
