"""A TLS proxy, of the configurations in packaging/proxy, before the broker's relay."""

from __future__ import annotations

import asyncio
import os
import shutil
import ssl
import subprocess
from pathlib import Path

PROXIES = Path(__file__).resolve().parents[2] / "packaging" / "proxy"
HOST = "vault.example.com"
START_SECONDS = 10.0
NGINX_NAMESPACE = "            # proxy_set_header X-Vault-Namespace team-a;\n"
EC = ("-newkey", "ec", "-pkeyopt", "ec_paramgen_curve:P-256", "-nodes")


def _openssl(folder: Path, *words: str) -> None:
    subprocess.run(["openssl", *words], cwd=folder, check=True, capture_output=True, timeout=60)


def make_authority(folder: Path) -> None:
    """An authority of the folder's own: ca.pem and its key."""
    _openssl(folder, "req", "-x509", *EC, "-days", "2", "-keyout", "ca.key", "-out", "ca.pem", "-subj",
             "/CN=trial authority")


def make_certificate(folder: Path, host: str = HOST) -> ssl.SSLContext:
    """A server's context with a certificate for that host, signed by the folder's authority."""
    _openssl(folder, "req", *EC, "-keyout", f"{host}.key", "-out", f"{host}.csr", "-subj", f"/CN={host}")
    (folder / "names").write_text(f"subjectAltName=DNS:{host}\n")
    _openssl(folder, "x509", "-req", "-in", f"{host}.csr", "-CA", "ca.pem", "-CAkey", "ca.key", "-CAcreateserial",
             "-days", "2", "-extfile", "names", "-out", f"{host}.pem")
    context = ssl.SSLContext(ssl.PROTOCOL_TLS_SERVER)
    context.load_cert_chain(folder / f"{host}.pem", folder / f"{host}.key")
    return context


class Proxy:
    """A HAProxy or nginx with the project's configuration, with or (where it is "") without a namespace."""

    def __init__(self, name: str, folder: Path, port: int, namespace: str = "team-a") -> None:
        self.name, self._folder, self._port, self._namespace = name, folder, port, namespace
        self.socket = folder / "proxy.sock"
        self._process: asyncio.subprocess.Process | None = None

    @staticmethod
    def is_installed(name: str) -> bool:
        return shutil.which(name) is not None and shutil.which("openssl") is not None

    async def start(self) -> None:
        self.socket.unlink(missing_ok=True)
        words, environment = self.command()
        self._process = await asyncio.create_subprocess_exec(
            *words, env={**os.environ, **environment}, stdout=asyncio.subprocess.DEVNULL,
            stderr=asyncio.subprocess.DEVNULL)
        async with asyncio.timeout(START_SECONDS):
            while not self.socket.exists():
                await asyncio.sleep(0.05)

    async def stop(self) -> None:
        if self._process is not None and self._process.returncode is None:
            self._process.terminate()
            await self._process.wait()

    def command(self) -> tuple[list[str], dict[str, str]]:
        """What is to be run, and what of the environment it reads."""
        return self._haproxy() if self.name == "haproxy" else self._nginx()

    def _haproxy(self) -> tuple[list[str], dict[str, str]]:
        environment = {
            "PROXY_SOCKET": str(self.socket), "VAULT_ADDRESS": f"127.0.0.1:{self._port}", "VAULT_HOST": HOST,
            "VAULT_CA": str(self._folder / "ca.pem")}
        if self._namespace:
            environment["VAULT_NAMESPACE"] = self._namespace
        return ["haproxy", "-db", "-f", str(PROXIES / "haproxy.cfg")], environment

    def _nginx(self) -> tuple[list[str], dict[str, str]]:
        text = (PROXIES / "nginx.conf").read_text()
        for old, new in (
            ("/run/vault-proxy/vault.sock", str(self.socket)), ("https://vault.example.com:8200",
             f"https://127.0.0.1:{self._port}"), ("/etc/vault-proxy/ca.pem", str(self._folder / "ca.pem")),
            (NGINX_NAMESPACE, NGINX_NAMESPACE.replace("# ", "").replace("team-a", self._namespace) if self._namespace else NGINX_NAMESPACE),
            ("/tmp/nginx-", f"{self._folder}/nginx-"),
        ):
            if old not in text:
                raise ValueError(f"nginx.conf has no {old!r}")
            text = text.replace(old, new)
        (self._folder / "nginx.conf").write_text(text)
        (self._folder / "logs").mkdir(exist_ok=True)
        return ["nginx", "-p", str(self._folder), "-c", str(self._folder / "nginx.conf"), "-g",
                f"daemon off; pid {self._folder}/nginx.pid;"], {}
