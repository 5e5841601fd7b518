"""LevelDB's iterator over the rows of the shape scan, if LevelDB is here."""

from __future__ import annotations

import shutil
import subprocess
import tempfile
from pathlib import Path

SOURCE = Path(__file__).with_name("leveldb_scan.cc")
HEADER = Path("/usr/include/leveldb/db.h")


def compiled(place: Path) -> str | None:
    """The program that drives LevelDB's iterator, or None if LevelDB's header or a compiler is missing."""
    compiler = shutil.which("c++")
    if compiler is None or not HEADER.exists():
        return None
    program = str(place / "leveldb_scan")
    subprocess.run([compiler, "-O2", "-std=c++17", str(SOURCE), "-o", program, "-lleveldb"], check=True)
    return program


def scan_seconds(program: str, count: int, passes: int) -> float:
    """The processor seconds in which LevelDB reads `count` rows `passes` times."""
    with tempfile.TemporaryDirectory() as place:
        words = [program, f"{place}/store", str(count), str(passes)]
        return float(subprocess.run(words, check=True, capture_output=True, text=True).stdout)
