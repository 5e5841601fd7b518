"""Builds the wheel of this package for pip, without any other package, so that it needs no network.

`scripts/package` builds one that has programs in it too, for one kind of machine.
"""

from __future__ import annotations

import base64
import hashlib
import runpy
import tarfile
import tomllib
from collections.abc import Collection
from pathlib import Path
from zipfile import ZIP_DEFLATED, ZipFile, ZipInfo

HERE = Path(__file__).resolve().parent

# The tag of a wheel without programs.
ANY = "py3-none-any"


def described() -> tuple[str, str, dict[str, str]]:
    """The name of the package with its version, its metadata, and the commands that it installs."""
    project = tomllib.loads((HERE / "pyproject.toml").read_text(encoding="utf-8"))["project"]
    version = runpy.run_path(str(HERE / "duqishom" / "version.py"))["VERSION"]
    metadata = (
        f"Metadata-Version: 2.1\nName: {project['name']}\nVersion: {version}\nSummary: {project['description']}\n"
        f"Requires-Python: {project['requires-python']}\n"
    )
    return f"{project['name']}-{version}", metadata, project["scripts"]


def sources() -> dict[str, bytes]:
    """The files of the package."""
    files = sorted(HERE.glob("duqishom/**/*.py")) + [HERE / "duqishom" / "py.typed"]
    return {str(file.relative_to(HERE)): file.read_bytes() for file in files}


def build_wheel(wheel_directory: str, config_settings: object = None, metadata_directory: object = None) -> str:
    """Writes the wheel into a folder. Returns its name."""
    return write_wheel(wheel_directory, sources())


def build_editable(wheel_directory: str, config_settings: object = None, metadata_directory: object = None) -> str:
    """Writes a wheel that points to the sources here into a folder. Returns its name."""
    return write_wheel(wheel_directory, {"duqishom.pth": f"{HERE}\n".encode()})


def build_program_wheel(folder: str, programs: dict[str, bytes], platform: str) -> str:
    """Writes the wheel with programs for this platform, and a command that runs tabletd, into a folder. Returns its
    name."""
    placed = {f"duqishom/{name}": program for name, program in programs.items()}
    files, commands = {**sources(), **placed}, {"tabletd": "duqishom.program:run"}
    return write_wheel(folder, files, f"py3-none-{platform}", commands, set(placed))


def write_wheel(
    folder: str,
    files: dict[str, bytes],
    tag: str = ANY,
    more: dict[str, str] | None = None,
    programs: Collection[str] = (),
) -> str:
    """Writes a wheel of these files, of which some are programs, with more commands if any are given. It has no times,
    so that the same files give the same wheel. Returns its name."""
    name, metadata, commands = described()
    info = f"{name}.dist-info"
    entries = "".join(f"{command} = {target}\n" for command, target in {**commands, **(more or {})}.items())
    pure = "true" if tag == ANY else "false"
    files = {
        **files,
        f"{info}/METADATA": metadata.encode(),
        f"{info}/WHEEL": f"Wheel-Version: 1.0\nGenerator: wheel_of\nRoot-Is-Purelib: {pure}\nTag: {tag}\n".encode(),
        f"{info}/entry_points.txt": f"[console_scripts]\n{entries}".encode(),
    }
    record = "".join(f"{file},sha256={digest(data)},{len(data)}\n" for file, data in files.items())
    files[f"{info}/RECORD"] = f"{record}{info}/RECORD,,\n".encode()
    wheel = f"{name}-{tag}.whl"
    with ZipFile(Path(folder) / wheel, "w", ZIP_DEFLATED) as made:
        for file, data in files.items():
            entry = ZipInfo(file)
            entry.external_attr = (0o100755 if file in programs else 0o100644) << 16
            made.writestr(entry, data, ZIP_DEFLATED)
    return wheel


def digest(data: bytes) -> str:
    """The checksum of a file, in a wheel's format."""
    return base64.urlsafe_b64encode(hashlib.sha256(data).digest()).rstrip(b"=").decode()


def build_sdist(sdist_directory: str, config_settings: object = None) -> str:
    """Writes the sources as an archive into a folder. Returns its name."""
    name = described()[0]
    with tarfile.open(Path(sdist_directory) / f"{name}.tar.gz", "w:gz") as made:
        for file in ("pyproject.toml", "wheel_of.py", *sources()):
            made.add(HERE / file, f"{name}/{file}")
    return f"{name}.tar.gz"
