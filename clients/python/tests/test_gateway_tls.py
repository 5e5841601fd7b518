"""A gateway over a network: stunnel at both ends, with the configurations of packaging/ and certificates of two
authorities."""

from __future__ import annotations

import shutil
import socket
import subprocess
import tempfile
import unittest
from pathlib import Path

from duqishom import Store
from tests.gateways import BEGIN, Gateway, Wire, free_port, listens, until
from tests.pages import TOP

ENDED = (EOFError, ConnectionError)
MISSING = [name for name in ("stunnel4", "openssl") if shutil.which(name) is None]

KEY = ["-newkey", "ec", "-pkeyopt", "ec_paramgen_curve:prime256v1", "-nodes", "-days", "2", "-batch"]


@unittest.skipIf(MISSING, f"{' and '.join(MISSING)} isn't installed")
class Tls(unittest.TestCase):
    def setUp(self) -> None:
        folder = tempfile.TemporaryDirectory()
        self.addCleanup(folder.cleanup)
        self.path = Path(folder.name)
        self.ends = 0

    def certify(self, name: str, authority: str | None = None) -> None:
        """Makes a certificate for localhost with its key, by an authority or by itself."""
        own = self.path / name
        words = ["openssl", "req", "-x509", *KEY, "-subj", f"/CN={name}", "-keyout", f"{own}.key", "-out", f"{own}.crt"]
        words += ["-addext", "subjectAltName=DNS:localhost"]
        if authority is not None:
            by = self.path / authority
            words += ["-CA", f"{by}.crt", "-CAkey", f"{by}.key", "-addext", "basicConstraints=CA:false"]
        subprocess.run(words, check=True, capture_output=True)
        Path(f"{own}.pem").write_bytes(Path(f"{own}.crt").read_bytes() + Path(f"{own}.key").read_bytes())

    def end(self, name: str, places: dict[str, str]) -> None:
        """Starts an end, with these texts in the place of others in its configuration."""
        text = (TOP / "packaging" / name).read_text(encoding="utf-8")
        for old, new in places.items():
            self.assertIn(old, text)
            text = text.replace(old, new)
        self.ends += 1
        place = self.path / f"{self.ends}.conf"
        place.write_text(text, encoding="utf-8")
        process = subprocess.Popen(["stunnel4", place], stderr=subprocess.DEVNULL, stdout=subprocess.DEVNULL)
        self.addCleanup(process.wait)
        self.addCleanup(process.terminate)

    def server(self, gateway: Gateway, certificate: str) -> str:
        """Starts a server's end, and returns its port."""
        port, credentials = free_port(), "/run/credentials/duqishom-tls.service"
        self.end(
            "stunnel-server.conf",
            {
                ":::7411": f"127.0.0.1:{port}",
                "/run/duqishom/socket": gateway.path,
                f"{credentials}/server.pem": f"{self.path}/{certificate}.pem",
                f"{credentials}/clients.pem": f"{self.path}/ours.crt",
            },
        )

        def listens() -> bool:
            with socket.socket() as probe:
                return probe.connect_ex(("127.0.0.1", port)) == 0

        self.assertTrue(until(listens))
        return str(port)

    def client(self, port: str, certificate: str | None, host: str = "localhost") -> str:
        """Starts a client's end, and returns its socket."""
        place, credentials = f"{self.path}/{self.ends}.socket", "/run/credentials/duqishom-remote.service"
        own = f"cert = {credentials}/client.pem"
        self.end(
            "stunnel-client.conf",
            {
                "HOST:7411": f"127.0.0.1:{port}",
                "HOST": host,
                "/run/duqishom-remote/socket": place,
                own: "" if certificate is None else f"cert = {self.path}/{certificate}.pem",
                f"{credentials}/servers.pem": f"{self.path}/ours.crt",
            },
        )
        self.assertTrue(until(lambda: listens(place)))
        return place

    def test_who_gets_through(self) -> None:
        gateway = Gateway(self)
        for name, authority in (("ours", None), ("theirs", None), ("server", "ours"), ("client", "ours")):
            self.certify(name, authority)
        for name in ("server", "client"):
            self.certify(f"false {name}", "theirs")
        right, wrong = self.server(gateway, "server"), self.server(gateway, "false server")
        with Store(socket=self.client(right, "client")) as store:
            store.put(b"r", b"c", b"v")
            self.assertEqual(store.get(b"r", b"c"), b"v")
        before = gateway.statistics()["clients"]["ever"]
        for port, certificate, host in (
            (right, "false client", "localhost"),
            (right, None, "localhost"),
            (right, "client", "example.org"),
            (wrong, "client", "localhost"),
        ):
            with self.subTest(port=port, certificate=certificate, host=host):
                wire = Wire(self.client(port, certificate, host))
                self.addCleanup(wire.close)
                self.assertRaises(ENDED, wire.ask, BEGIN)
        # None of them has come to the gateway
        self.assertEqual(gateway.statistics()["clients"]["ever"], before + 1)


if __name__ == "__main__":
    unittest.main()
