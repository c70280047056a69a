"""The units for systemd, and the installed programs."""

from __future__ import annotations

import os
import shutil
import stat
import subprocess
import tempfile
import unittest
from pathlib import Path

from trial.programs import SLOWER

from .test_package import programs

TOP = Path(__file__).resolve().parents[2]
SYSTEMD = TOP / "packaging" / "systemd"
SERVE, FLEET = (SYSTEMD / name for name in ("leasekeep.service", "leasekeep@.service"))
AGENTS = SERVE, FLEET
PROXY = SYSTEMD / "leasekeep-proxy.service"
UNITS = *AGENTS, PROXY
SYSUSERS = SYSTEMD / "leasekeep.sysusers"
TMPFILES = SYSTEMD / "leasekeep.tmpfiles"


class Units(unittest.TestCase):
    def setUp(self) -> None:
        self.folder = Path(tempfile.mkdtemp())
        self.addCleanup(shutil.rmtree, self.folder, True)

    @unittest.skipIf(shutil.which("systemd-analyze") is None, "systemd-analyze is not installed")
    def test_systemd_takes_each_without_a_word(self) -> None:
        for unit in UNITS:
            with self.subTest(unit=unit.name):
                copy = self.folder / unit.name
                text = unit.read_text()
                for program in ("/usr/local/bin/leasekeep", "/usr/sbin/haproxy"):
                    # (a program has to be there: another one stands for it)
                    text = text.replace(f"={program} ", f"={shutil.which('true')} ")
                copy.write_text(text)
                said = subprocess.run(["systemd-analyze", "verify", "--man=no", str(copy)], capture_output=True, text=True,
                                      timeout=60 * SLOWER)
                about_it = [line for line in (said.stdout + said.stderr).splitlines() if "leasekeep" in line]
                self.assertEqual((said.returncode, about_it), (0, []))

    def test_what_lives_depend_on_stands_in_each(self) -> None:
        for unit in UNITS:
            lines = unit.read_text().splitlines()
            own = ("User=leasekeep-proxy", "PrivateUsers=yes") if unit == PROXY else (
                "User=leasekeep", "IPAddressDeny=any", "IPAddressAllow=localhost", "After=network-online.target leasekeep-proxy.service")
            for line in ("Restart=always", "RestartSec=1", "StartLimitIntervalSec=0", "NoNewPrivileges=yes", "ProtectSystem=strict",
                         "Group=leasekeep", "SocketBindDeny=any", "MemoryDenyWriteExecute=yes", "SystemCallErrorNumber=EPERM", *own):
                with self.subTest(unit=unit.name, line=line):
                    self.assertIn(line, lines)

    def test_serve_keeps_its_ends_while_it_is_stopped_and_reads_the_id_of_the_boot(self) -> None:
        for unit in AGENTS:
            text = unit.read_text()
            for line in ("Type=exec", "ExecReload=/usr/local/bin/leasekeep reload", "RuntimeDirectoryPreserve=yes"):
                self.assertIn(line, text.splitlines())
            self.assertNotIn("\nProcSubset=", text)
            self.assertNotIn("Watchdog", text)

    def test_a_fleet_is_the_same_unit_with_folders_of_its_own(self) -> None:
        def settings(unit: Path) -> list[str]:
            return [line for line in unit.read_text().splitlines() if "=" in line and not line.startswith("#")]
        own = ("Description=", "Environment=", "ExecStart=", "    --", "StateDirectory=", "RuntimeDirectory=", "ReadWritePaths=",
               "SocketBindAllow=")
        one, many = ([line for line in settings(unit) if not line.startswith(own)] for unit in (SERVE, FLEET))
        self.assertEqual(one, many)
        for line in ("StateDirectory=leasekeep/%i", "RuntimeDirectory=leasekeep/%i", "ReadWritePaths=-/etc/leasekeep/%i"):
            self.assertIn(line, settings(FLEET))

    @unittest.skipIf(shutil.which("systemd-analyze") is None, "systemd-analyze is not installed")
    def test_how_exposed_each_is(self) -> None:
        """At most 1.2 of 10, as systemd counts."""
        for unit in UNITS:
            said = subprocess.run(["systemd-analyze", "security", "--offline=true", "--threshold=12", str(unit)], capture_output=True,
                                  text=True, timeout=60 * SLOWER)
            self.assertEqual(said.returncode, 0, said.stdout[-300:])

    def test_its_user_and_folders_are_made(self) -> None:
        users, folders = SYSUSERS.read_text(), TMPFILES.read_text()
        for user in ("leasekeep", "leasekeep-proxy"):
            self.assertRegex(users, rf"(?m)^u {user} ")
        for path, mode, owner in (("/etc/leasekeep", "0750", "leasekeep"), ("/run/vault-proxy", "0750", "leasekeep-proxy")):
            for unit in AGENTS:
                self.assertIn(path, unit.read_text())
            self.assertRegex(folders, rf"(?m)^d {path} {mode} {owner} leasekeep -$")


def install(folder: Path, *words: str) -> str:
    """What install says, its files below the folder."""
    environment = {**os.environ, "DESTDIR": str(folder), "HOME": "/home/nobody"}
    return subprocess.run([str(TOP / "scripts" / "install"), *words], check=True, capture_output=True, text=True, timeout=300 * SLOWER,
                          env=environment).stdout


class Installed(unittest.TestCase):
    """What install puts below /usr/local, and uninstall takes away."""

    folder: Path
    local: Path
    said: str

    @classmethod
    def setUpClass(cls) -> None:
        cls.folder = Path(tempfile.mkdtemp())
        cls.addClassCleanup(shutil.rmtree, cls.folder, True)
        (cls.folder / "etc").mkdir()
        cls.said = install(cls.folder, "--built", str(programs(cls.folder / "programs", "leasekeep", "minibroker")), "/usr/local")
        cls.local = cls.folder / "usr" / "local"

    def test_the_units_lie_where_systemd_looks(self) -> None:
        self.assertIn("systemd-sysusers leasekeep.conf && systemd-tmpfiles --create leasekeep.conf", self.said)
        self.assertIn("systemctl enable --now leasekeep\n", self.said)
        for place, source in (*((f"lib/systemd/system/{unit.name}", unit) for unit in UNITS), ("lib/sysusers.d/leasekeep.conf", SYSUSERS),
                              ("lib/tmpfiles.d/leasekeep.conf", TMPFILES)):
            self.assertEqual((self.local / place).read_text(), source.read_text())

    @unittest.skipIf(shutil.which("systemd-sysusers") is None or os.getuid() != 0, "systemd or root is missing")
    def test_systemd_makes_user_and_folders(self) -> None:
        for program, words in (("systemd-sysusers", ()), ("systemd-tmpfiles", ("--create",))):
            made = subprocess.run([program, f"--root={self.folder}", *words, "leasekeep.conf"], capture_output=True, text=True, timeout=60 * SLOWER)
            self.assertEqual(made.returncode, 0, made.stderr)
        users = [line.split(":") for line in (self.folder / "etc/passwd").read_text().splitlines()]
        numbers = {user[0]: (int(user[2]), int(user[3])) for user in users}
        for path, owner in (("etc/leasekeep", "leasekeep"), ("run/vault-proxy", "leasekeep-proxy")):
            folder = (self.folder / path).stat()
            self.assertEqual((stat.S_IMODE(folder.st_mode), folder.st_uid, folder.st_gid),
                             (0o750, numbers[owner][0], numbers["leasekeep"][1]), path)

    def test_what_belongs_to_it(self) -> None:
        for file in ("share/man/man1/leasekeep-inventory.1", "share/man/man5/leasekeep-inventory.5",
                     "share/bash-completion/completions/leasekeep-draw", "share/zsh/site-functions/_leasekeep",
                     "share/fish/vendor_completions.d/leasekeep-inventory.fish",
                     "share/doc/leasekeep/examples/haproxy.cfg", "share/doc/leasekeep/examples/web.toml",
                     "share/doc/leasekeep/examples/leasekeep.rules.yml", "share/doc/leasekeep/examples/dashboard.json"):
            self.assertTrue((self.local / file).is_file(), file)

    def test_uninstall_takes_all_of_it_away(self) -> None:
        with tempfile.TemporaryDirectory() as room:
            copy = Path(room) / "copy"
            shutil.copytree(self.folder, copy, symlinks=True)
            (copy / "usr/local/bin/mine").write_text("")
            subprocess.run([str(TOP / "scripts" / "uninstall"), "/usr/local"], check=True, capture_output=True, timeout=60 * SLOWER,
                           env={**os.environ, "DESTDIR": str(copy)})
            left = [str(file.relative_to(copy)) for file in (copy / "usr").rglob("*") if not file.is_dir()]
            self.assertEqual(left, ["usr/local/bin/mine"])


class InstalledBelowAHome(unittest.TestCase):
    def test_no_unit_is_installed_and_install_says_so(self) -> None:
        with tempfile.TemporaryDirectory() as room:
            built = programs(Path(room) / "programs", "leasekeep", "minibroker")
            said = install(Path(room), "--built", str(built), "/home/nobody/.local")
            self.assertIn("the units for systemd are left out", said)
            self.assertIn("/usr/local", said)
            self.assertEqual([str(file) for file in Path(room).rglob("*.service")], [])
            self.assertTrue((Path(room) / "home/nobody/.local/bin/leasekeep").exists())


class ToolsAlone(unittest.TestCase):
    """Those in Python, which need no toolchain."""

    def test_they_run_and_no_unit_is_installed(self) -> None:
        with tempfile.TemporaryDirectory() as room:
            install(Path(room), "--tools", "/usr/local")
            self.assertEqual([str(file) for file in Path(room).rglob("*.service")], [])
            for name in ("leasekeep-inventory", "leasekeep-draw"):
                program = str(Path(room) / "usr/local/bin" / name)
                said = subprocess.run([program, "--version"], capture_output=True, text=True, timeout=60 * SLOWER)
                self.assertEqual(said.stdout, f"{name} {(TOP / 'VERSION').read_text()}")
            file = Path(room) / "list.toml"
            file.touch(0o600)
            file.write_text("margin = 0\n")
            program = str(Path(room) / "usr/local/bin/leasekeep-inventory")
            drafted = subprocess.run([program, "draft", str(file), "1"], capture_output=True, text=True, timeout=60 * SLOWER)
            self.assertEqual(drafted.returncode, 1)
            self.assertIn("list.toml:1: fault: margin: is not 1 to 3600 seconds", drafted.stderr)


if __name__ == "__main__":
    unittest.main()
