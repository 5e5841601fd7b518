"""The packages: their contents, and that they run without anything else installed."""

from __future__ import annotations

import importlib.util
import os
import re
import shutil
import subprocess
import sys
import tempfile
import unittest
import venv
from pathlib import Path
from zipfile import ZipFile

from duqishom.program import default_program
from duqishom.version import VERSION
from tests.gateways import Gateway, folder_of
from tests.pages import TOP, fenced

PROGRAM = os.environ.get("TABLETD", "")

# The files of the Debian package besides the Python package and the pages, each with its mode.
DEBIAN = {
    "./usr/bin/duqishom": "-rwxr-xr-x",
    "./usr/bin/duqishom-gateway": "-rwxr-xr-x",
    "./usr/bin/tabletd": "-rwxr-xr-x",
    "./usr/lib/systemd/system/duqishom-admin.socket": "-rw-r--r--",
    "./usr/lib/systemd/system/duqishom-remote.service": "-rw-r--r--",
    "./usr/lib/systemd/system/duqishom-tls.service": "-rw-r--r--",
    "./usr/lib/systemd/system/duqishom.service": "-rw-r--r--",
    "./usr/lib/systemd/system/duqishom.socket": "-rw-r--r--",
    "./usr/lib/sysusers.d/duqishom.conf": "-rw-r--r--",
    "./usr/share/doc/duqishom/README.md": "-rw-r--r--",
    "./usr/share/doc/duqishom/changelog.gz": "-rw-r--r--",
    "./usr/share/duqishom/stunnel-client.conf": "-rw-r--r--",
    "./usr/share/duqishom/stunnel-server.conf": "-rw-r--r--",
    "./usr/share/man/man1/duqishom.1.gz": "-rw-r--r--",
    "./usr/share/man/man1/tabletd.1.gz": "-rw-r--r--",
}
LIBRADOS = Path("/usr/include/rados/librados.hpp")
PYTHON, PAGES = "./usr/lib/python3/dist-packages/duqishom/", "./usr/share/doc/duqishom/docs/"

# The files of the wheel besides the sources, each with whether it can be executed.
INFO = f"duqishom-{VERSION}.dist-info"
WHEEL = {
    "duqishom/duqishom-gateway": True,
    "duqishom/tabletd": True,
    f"{INFO}/METADATA": False,
    f"{INFO}/WHEEL": False,
    f"{INFO}/entry_points.txt": False,
    f"{INFO}/RECORD": False,
}


def sources() -> set[str]:
    """The files of the Python package."""
    package = TOP / "clients" / "python" / "duqishom"
    return {str(file.relative_to(package)) for file in (*package.rglob("*.py"), package / "py.typed")}


@unittest.skipUnless(PROGRAM, "TABLETD names no build")
class Packages(unittest.TestCase):
    """The packages of the program that TABLETD names."""

    path: Path
    made: list[Path]

    @classmethod
    def setUpClass(cls) -> None:
        folder = tempfile.TemporaryDirectory()
        cls.addClassCleanup(folder.cleanup)
        cls.path = Path(folder.name)
        command = [f"{TOP}/scripts/package", "--tabletd", PROGRAM, "--out", folder.name]
        cls.made = [Path(line) for line in subprocess.check_output(command, text=True).splitlines()]

    def run_in(self, python: Path | str, text: str, **environment: str) -> str:
        """The output of Python for this text, with no environment but this."""
        ran = subprocess.run([python, "-c", text], cwd=self.path, env=environment, capture_output=True, text=True)
        self.assertEqual((ran.returncode, ran.stderr), (0, ""))
        return ran.stdout

    def test_debian(self) -> None:
        listed = subprocess.check_output(["dpkg-deb", "--contents", self.made[0]], text=True).splitlines()
        rows = [line.split() for line in listed]
        self.assertEqual({owner for _, owner, *_ in rows}, {"root/root"})
        modes = {path: mode for mode, *_, path in rows}
        self.assertEqual({mode for path, mode in modes.items() if path.endswith("/")}, {"drwxr-xr-x"})
        files = {path: mode for path, mode in modes.items() if not path.endswith("/")}
        wanted = DEBIAN | dict.fromkeys((PYTHON + path for path in sources()), "-rw-r--r--")
        if LIBRADOS.exists():
            wanted["./usr/bin/duqishom-bridge"] = "-rwxr-xr-x"
        wanted |= dict.fromkeys((PAGES + page.name for page in TOP.glob("docs/*.md")), "-rw-r--r--")
        self.assertEqual(files, wanted)
        about = subprocess.check_output(["dpkg-deb", "--field", self.made[0], "Version", "Depends"], text=True)
        needs = r"libc6 \(>= 2\.\d+\), libgcc-s1, python3 \(>= 3\.11\)"
        self.assertRegex(about, rf"\AVersion: {re.escape(VERSION)}\nDepends: {needs}\n\Z")

    def test_debian_files(self) -> None:
        """The command of the unpacked package runs its program, and each option of a program is on its page."""
        tree, store = self.path / "tree", self.path / "store"
        store.mkdir()
        subprocess.run(["dpkg-deb", "--extract", self.made[0], tree], check=True)
        place = {"PATH": f"{tree}/usr/bin:/usr/bin:/bin", "PYTHONPATH": str(tree / "usr/lib/python3/dist-packages")}
        for words in (("set", "Bob", "bal", "10"), ("get", "Bob", "bal")):
            command = [sys.executable, f"{tree}/usr/bin/duqishom", "--dir", str(store), *words]
            said = subprocess.check_output(command, env=place, text=True)
        self.assertEqual(said, "10\n")
        helps: tuple[tuple[str, list[str | Path]], ...] = (
            ("tabletd", [tree / "usr/bin/tabletd", "--help"]),
            ("duqishom", [sys.executable, tree / "usr/bin/duqishom", "--help"]),
            ("duqishom", [sys.executable, tree / "usr/bin/duqishom", "serve", "--help"]),
        )
        for name, asked in helps:
            said = subprocess.check_output(asked, env=place, text=True)
            page = subprocess.check_output(["zcat", tree / f"usr/share/man/man1/{name}.1.gz"], text=True)
            options = set(re.findall(r"--[a-z][a-z-]+", said)) - {"--help"}
            self.assertGreater(len(options), 5)
            self.assertEqual(options - set(re.findall(r"--[a-z][a-z-]+", page.replace("\\-", "-"))), set())

    def test_wheel(self) -> None:
        """It has all files with their modes, and README's lines run if only it is installed."""
        with ZipFile(self.made[1]) as wheel:
            runs = {entry.filename: entry.external_attr >> 16 == 0o100755 for entry in wheel.infolist()}
        self.assertEqual(runs, WHEEL | dict.fromkeys((f"duqishom/{path}" for path in sources()), False))
        if importlib.util.find_spec("pip") is None:
            self.skipTest("pip isn't installed")
        python = self.path / "venv" / "bin" / "python"
        venv.create(self.path / "venv", symlinks=True)
        command = [sys.executable, "-m", "pip", "--python", str(python), "install", "--no-index", "--no-deps", "--quiet"]
        subprocess.run([*command, "--disable-pip-version-check", str(self.made[1])], check=True)
        [lines] = fenced("README.md", "python")
        said = self.run_in(python, f"import doctest; doctest.run_docstring_examples({lines.text!r}, {{}}, verbose=False)")
        self.assertEqual(said, "")
        found = self.run_in(python, "from duqishom.program import default_program; print(default_program())").rstrip()
        self.assertEqual(Path(found).parent.parent.name, "site-packages")
        said = subprocess.check_output([self.path / "venv" / "bin" / "tabletd", "--version"], text=True)
        self.assertEqual(said, f"tabletd {VERSION}\n")

    def test_no_program(self) -> None:
        """Without a program, the error says where it was looked for, and without a gateway, how it is built."""
        shutil.copytree(TOP / "clients" / "python" / "duqishom", self.path / "alone" / "duqishom")
        lines = "from duqishom import Store\ntry: Store()\nexcept FileNotFoundError as failure: print(failure)"
        said = self.run_in(sys.executable, lines, PATH="/nowhere", PYTHONPATH=str(self.path / "alone"))
        self.assertEqual(said, "there is no tabletd: neither on PATH nor in this package, and TABLETD names none\n")
        lines = "from duqishom.serving import main\nprint(main(['--socket', 'path']))"
        alone = {"PATH": "/nowhere", "PYTHONPATH": str(self.path / "alone")}
        ran = subprocess.run([sys.executable, "-c", lines], cwd=self.path, env=alone, capture_output=True, text=True)
        why = "duqishom: there is no duqishom-gateway: scripts/build_gateway builds it, or DUQISHOM_GATEWAY names one\n"
        self.assertEqual((ran.returncode, ran.stdout, ran.stderr), (0, "2\n", why))


class Service(unittest.TestCase):
    """The units of the service."""

    @unittest.skipUnless(shutil.which("systemd-analyze"), "systemd isn't installed")
    def test_units(self) -> None:
        """systemd knows each line, and the exposure of the service is at most 1 of 10, or 1.5 over a network."""
        units = sorted(map(str, (*TOP.glob("packaging/*.service"), *TOP.glob("packaging/*.socket"))))
        self.assertEqual(len(units), 5)
        verified = subprocess.run(["systemd-analyze", "verify", *units], capture_output=True, text=True)
        foreign = re.compile("Command .* is not executable|Command 'man ")
        self.assertEqual([line for line in verified.stderr.splitlines() if not foreign.search(line)], [])
        for name, most in (("duqishom", 10), ("duqishom-tls", 15), ("duqishom-remote", 15)):
            command = ["systemd-analyze", "security", "--offline=true", f"--threshold={most}", f"{TOP}/packaging/{name}.service"]
            exposed = subprocess.run(command, capture_output=True, text=True)
            self.assertEqual(exposed.returncode, 0, exposed.stdout)

    def test_words(self) -> None:
        """A gateway starts with the words of the service, and stops idle sessions."""
        unit = (TOP / "packaging" / "duqishom.service").read_text(encoding="utf-8").replace("\\\n", " ")
        [words] = re.findall(r"^ExecStart=/usr/bin/duqishom serve --dir /var/lib/duqishom (.*)$", unit, re.MULTILINE)
        gateway = Gateway(self, ["--dir", folder_of(self), *words.split()])
        self.assertEqual((gateway.first, gateway.stop()), ("duqishom: ready", 0))
        self.assertIn("--idle-session", words)


class Versions(unittest.TestCase):
    """The versions that programs print."""

    def test_tabletd(self) -> None:
        said = subprocess.run([default_program(), "--version"], capture_output=True, text=True)
        self.assertEqual((said.returncode, said.stdout, said.stderr), (0, f"tabletd {VERSION}\n", ""))


if __name__ == "__main__":
    unittest.main()
