"""The Debian package: a tree of files, which dpkg-deb packs."""

from __future__ import annotations

import gzip
import os
import subprocess
import tempfile
from pathlib import Path
from typing import NamedTuple

HERE = Path(__file__).resolve().parent
TOP = HERE.parent

PYTHON = "usr/lib/python3/dist-packages"
UNITS = "usr/lib/systemd/system"
SERVICE = (
    "duqishom.service",
    "duqishom.socket",
    "duqishom-admin.socket",
    "duqishom-tls.service",
    "duqishom-remote.service",
)
SHARED = "usr/share/duqishom"
NETWORK = ("stunnel-server.conf", "stunnel-client.conf")
DOCUMENTS = "usr/share/doc/duqishom"

COMMAND = b"""#!/usr/bin/python3
import sys

from duqishom.__main__ import run

sys.exit(run())
"""


class File(NamedTuple):
    """The bytes of a file, and whether it can be executed."""

    data: bytes
    is_run: bool = False


def zipped(text: str) -> File:
    """A compressed file without a time in it."""
    return File(gzip.compress(text.encode(), mtime=0))


def files(programs: dict[str, bytes], python: dict[str, bytes], manuals: dict[str, str]) -> dict[str, File]:
    """The files of the package, by their paths, with these programs, Python package and manual pages."""
    found = {f"usr/bin/{name}": File(data, True) for name, data in (programs | {"duqishom": COMMAND}).items()}
    found |= {f"{PYTHON}/{path}": File(data) for path, data in python.items()}
    found |= {f"usr/share/man/man1/{name}.1.gz": zipped(text) for name, text in manuals.items()}
    found |= {f"{UNITS}/{unit}": File((HERE / unit).read_bytes()) for unit in SERVICE}
    found |= {f"{SHARED}/{name}": File((HERE / name).read_bytes()) for name in NETWORK}
    found["usr/lib/sysusers.d/duqishom.conf"] = File((HERE / "duqishom.sysusers").read_bytes())
    found[f"{DOCUMENTS}/changelog.gz"] = zipped((TOP / "docs" / "CHANGELOG.md").read_text(encoding="utf-8"))
    pages = [TOP / "README.md", *(TOP / "docs").glob("*.md")]
    found |= {f"{DOCUMENTS}/{page.relative_to(TOP)}": File(page.read_bytes()) for page in pages}
    return found


def control(version: str, architecture: str, glibc: str, size: int) -> str:
    """The control file. `glibc` is the least version of the C library, and `size` is in bytes."""
    values = {"VERSION": version, "ARCHITECTURE": architecture, "GLIBC": glibc, "SIZE": str(-(-size // 1024))}
    text = (HERE / "control").read_text(encoding="utf-8")
    for name, value in values.items():
        text = text.replace(f"@{name}@", value)
    return text


def put(tree: Path, contents: dict[str, File]) -> None:
    """Writes files into a tree, each with its mode, whatever the umask is."""
    for path, file in contents.items():
        place = tree / path
        place.parent.mkdir(parents=True, exist_ok=True)
        place.write_bytes(file.data)
        place.chmod(0o755 if file.is_run else 0o644)
    for directory, _, _ in os.walk(tree):
        os.chmod(directory, 0o755)


def write(folder: Path, version: str, glibc: str, contents: dict[str, File], made_at: int) -> Path:
    """Writes the package into a folder. Its files have this time, so that the same files give the same package. Returns
    its path."""
    architecture = subprocess.check_output(["dpkg", "--print-architecture"], text=True).strip()
    size = sum(len(file.data) for file in contents.values())
    own = {"DEBIAN/control": File(control(version, architecture, glibc, size).encode())}
    own |= {f"DEBIAN/{name}": File((HERE / name).read_bytes(), True) for name in ("postinst", "prerm")}
    package = folder / f"duqishom_{version}_{architecture}.deb"
    with tempfile.TemporaryDirectory() as tree:
        put(Path(tree), contents | own)
        environment = {**os.environ, "SOURCE_DATE_EPOCH": str(made_at)}
        command = ["dpkg-deb", "--root-owner-group", "-Zxz", "-z1", "--build", tree, str(package)]
        subprocess.run(command, env=environment, stdout=subprocess.DEVNULL, check=True)
    return package
