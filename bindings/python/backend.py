"""Builds the wheel, the editable wheel and the source archive of the package, as PEP 517 and PEP 660 ask. It needs only Python's standard
library.

The version is the first word of the file VERSION, which is in this folder or at the top of the repository. If src/lakhdzeva/ holds the shared
library, the wheel holds it too, and is for the processor of this library. It names no C library, so pip installs it under glibc and under
musl: both have each function that it asks for, glibc since 2.25 and musl since 1.2.
"""

from __future__ import annotations

import base64
import hashlib
import io
import tarfile
import zipfile
from pathlib import Path
from typing import Any, Dict, Optional

_HERE = Path(__file__).resolve().parent
_PACKAGE = _HERE / "src" / "lakhdzeva"
_LIBRARY = _PACKAGE / "liblakhdzeva.so.3"
# The processors by their numbers in an ELF file.
_PROCESSORS = {62: "x86_64", 183: "aarch64"}


def _file(name: str) -> Path:
    """A file that is in this folder or at the top of the repository."""
    for folder in (_HERE, _HERE.parent.parent):
        if (folder / name).is_file():
            return folder / name
    raise FileNotFoundError(f"there is no file {name} in {_HERE} or two folders up")


def _version() -> str:
    return _file("VERSION").read_text("utf-8").split()[0]


def _license() -> Dict[str, bytes]:
    """The file LICENSE, unless this folder was installed without it."""
    try:
        return {"LICENSE": _file("LICENSE").read_bytes()}
    except FileNotFoundError:
        return {}


def _metadata() -> str:
    return (
        "Metadata-Version: 2.1\n"
        "Name: lakhdzeva\n"
        f"Version: {_version()}\n"
        "Summary: Sign, verify, encrypt and decrypt with octet keys (JWS, JWE, JWK and JWT), by a proved library\n"
        "Keywords: jose,jwt,jws,jwe,jwk,hmac\n"
        "License: Apache-2.0\n"
        "Classifier: Operating System :: POSIX :: Linux\n"
        "Classifier: Topic :: Security :: Cryptography\n"
        "Classifier: Typing :: Typed\n"
        "Requires-Python: >=3.9\n"
        "Description-Content-Type: text/markdown\n"
        "\n" + (_HERE / "README.md").read_text("utf-8")
    )


def _system() -> str:
    """What the wheel is for: each system, or those that can load the shared library."""
    if not _LIBRARY.is_file():
        return "any"
    number = int.from_bytes(_LIBRARY.read_bytes()[18:20], "little")
    if number not in _PROCESSORS:
        raise ValueError(f"{_LIBRARY} is for another processor: {number}")
    return f"manylinux_2_25_{_PROCESSORS[number]}.musllinux_1_2_{_PROCESSORS[number]}"


def _wheel(folder: str, files: Dict[str, bytes], system: str) -> str:
    """Writes a wheel with these files, and returns its name. The same files give the same octets."""
    info = f"lakhdzeva-{_version()}.dist-info"
    files = {**files, f"{info}/METADATA": _metadata().encode()}
    tags = "".join(f"Tag: py3-none-{it}\n" for it in system.split("."))
    files[f"{info}/WHEEL"] = f"Wheel-Version: 1.0\nGenerator: lakhdzeva\nRoot-Is-Purelib: {str(system == 'any').lower()}\n{tags}".encode()
    files.update({f"{info}/{name}": octets for name, octets in _license().items()})
    rows = []
    for name, octets in files.items():
        digest = base64.urlsafe_b64encode(hashlib.sha256(octets).digest()).rstrip(b"=").decode()
        rows.append(f"{name},sha256={digest},{len(octets)}\n")
    files[f"{info}/RECORD"] = "".join([*rows, f"{info}/RECORD,,\n"]).encode()
    wheel = f"lakhdzeva-{_version()}-py3-none-{system}.whl"
    with zipfile.ZipFile(Path(folder) / wheel, "w") as archive:
        for name, octets in files.items():
            entry = zipfile.ZipInfo(name)
            entry.external_attr = 0o100644 << 16
            archive.writestr(entry, octets, zipfile.ZIP_DEFLATED)
    return wheel


def build_wheel(wheel_directory: str, config_settings: Optional[Dict[str, Any]] = None, metadata_directory: Optional[str] = None) -> str:
    """Writes the wheel and returns its name."""
    paths = [*sorted(_PACKAGE.glob("*.py")), _PACKAGE / "py.typed", *[_LIBRARY] * _LIBRARY.is_file()]
    files = {f"lakhdzeva/{path.name}": path.read_bytes() for path in paths}
    return _wheel(wheel_directory, {**files, "lakhdzeva/VERSION": f"{_version()}\n".encode()}, _system())


def build_editable(wheel_directory: str, config_settings: Optional[Dict[str, Any]] = None, metadata_directory: Optional[str] = None) -> str:
    """Writes a wheel that leads Python to the sources in this folder, and returns its name."""
    return _wheel(wheel_directory, {"lakhdzeva.pth": f"{_PACKAGE.parent}\n".encode()}, "any")


def build_sdist(sdist_directory: str, config_settings: Optional[Dict[str, Any]] = None) -> str:
    """Writes the source archive and returns its name."""
    top = f"lakhdzeva-{_version()}"
    paths = [_HERE / "pyproject.toml", _HERE / "backend.py", _HERE / "README.md", *_PACKAGE.glob("*.py"), _PACKAGE / "py.typed", *_HERE.glob("tests/*.py")]
    files = {str(path.relative_to(_HERE)): path.read_bytes() for path in sorted(paths)}
    files["VERSION"] = _file("VERSION").read_bytes()
    files.update(_license())
    files["PKG-INFO"] = _metadata().encode()
    with tarfile.open(Path(sdist_directory) / f"{top}.tar.gz", "w:gz", format=tarfile.PAX_FORMAT) as archive:
        for name, octets in files.items():
            entry = tarfile.TarInfo(f"{top}/{name}")
            entry.size = len(octets)
            archive.addfile(entry, io.BytesIO(octets))
    return f"{top}.tar.gz"
