"""The Debian packages and the archive: what is in them, and that they work in a system without the clone."""

from __future__ import annotations

import gzip
import os
import re
import shutil
import stat
import subprocess
import tarfile
import tempfile
import unittest
from pathlib import Path

from trial.programs import SLOWER, find_program

TOP = Path(__file__).resolve().parents[2]
VERSION = (TOP / "VERSION").read_text().strip()


def programs(folder: Path, *names: str) -> Path:
    """A folder with these built programs; SkipTest where one is not built."""
    folder.mkdir()
    for name in names:
        found = find_program(name)
        if found is None:
            raise unittest.SkipTest(f"no built {name}")
        shutil.copy(found, folder / name)
    return folder


AGENT, TOOLS = "leasekeep", "leasekeep-tools"
FILES = {
    AGENT: (
        ("usr/bin/leasekeep", 0o755), ("lib/systemd/system/leasekeep.service", 0o644), ("lib/systemd/system/leasekeep@.service", 0o644),
        ("lib/systemd/system/leasekeep-proxy.service", 0o644), ("etc/vault-proxy/haproxy.cfg", 0o644),
        ("usr/lib/sysusers.d/leasekeep.conf", 0o644), ("usr/lib/tmpfiles.d/leasekeep.conf", 0o644),
        ("usr/share/man/man1/leasekeep.1.gz", 0o644), ("usr/share/man/man5/leasekeep-inventory.5.gz", 0o644),
        ("usr/share/bash-completion/completions/leasekeep", 0o644), ("usr/share/zsh/vendor-completions/_leasekeep", 0o644),
        ("usr/share/doc/leasekeep/examples/nginx.conf", 0o644), ("usr/share/doc/leasekeep/examples/sidecar.yaml", 0o644),
        ("usr/share/doc/leasekeep/examples/web.toml", 0o644), ("usr/share/doc/leasekeep/docs/running.md", 0o644),
        ("usr/share/doc/leasekeep/docs/commands/serve.md", 0o644), ("usr/share/doc/leasekeep/README.md", 0o644),
    ),
    TOOLS: (
        ("usr/bin/minibroker", 0o755), ("usr/lib/leasekeep/leasekeep-inventory", 0o755), ("usr/lib/leasekeep/leasekeep-draw", 0o755),
        ("usr/share/man/man1/leasekeep-inventory.1.gz", 0o644), ("usr/share/bash-completion/completions/leasekeep-inventory", 0o644),
        ("usr/share/fish/vendor_completions.d/minibroker.fish", 0o644),
    ),
}
"""Some files of each package."""


@unittest.skipIf(shutil.which("dpkg-deb") is None or shutil.which("strip") is None, "dpkg-deb or strip is not installed")
class Package(unittest.TestCase):
    folder: Path
    debs: dict[str, Path]
    tar: Path
    roots: dict[str, Path]
    """Each package, unpacked by itself."""
    root: Path
    """Both in one."""
    proved: str
    version: str
    """What the programs say of their build; and the version of the packages, which says so, too."""

    @classmethod
    def setUpClass(cls) -> None:
        cls.folder = Path(tempfile.mkdtemp())
        cls.addClassCleanup(shutil.rmtree, cls.folder, True)
        built = programs(cls.folder / "programs", "leasekeep", "minibroker")
        said = subprocess.run([str(built / "leasekeep"), "--version"], check=True, capture_output=True, text=True, timeout=60 * SLOWER).stdout
        cls.proved = said.removeprefix(f"leasekeep {VERSION} ").strip()
        cls.version = {"(proved)": VERSION, "(not proved)": f"{VERSION}~unproved"}[cls.proved]
        said = subprocess.run([str(TOP / "scripts" / "package"), "--built", str(built), str(cls.folder / "out")], check=True,
                              capture_output=True, text=True, timeout=600 * SLOWER,
                              env={**os.environ, "DPKG_DEB_COMPRESSOR_TYPE": "gzip"}).stdout
        *debs, tar = (Path(line) for line in said.splitlines())
        cls.debs, cls.tar = dict(zip((AGENT, TOOLS), debs, strict=True)), tar
        cls.roots, cls.root = {name: cls.folder / name for name in cls.debs}, cls.folder / "root"
        for name, deb in cls.debs.items():
            subprocess.run(["dpkg-deb", "-R", str(deb), str(cls.roots[name])], check=True, timeout=60 * SLOWER)
            subprocess.run(["dpkg-deb", "-x", str(deb), str(cls.root)], check=True, timeout=60 * SLOWER)

    def test_what_is_in_each(self) -> None:
        for name, files in FILES.items():
            for file, mode in (*files, ("DEBIAN/postinst", 0o755), ("DEBIAN/prerm", 0o755)):
                with self.subTest(package=name, file=file):
                    self.assertEqual(stat.S_IMODE((self.roots[name] / file).stat().st_mode), mode)
            self.assertFalse((self.roots[name] / "usr/local").exists())
        self.assertEqual([*self.roots[TOOLS].rglob("*.service")], [])

    def test_no_file_is_in_both(self) -> None:
        files = [{path.relative_to(root) for path in root.rglob("*") if not path.is_dir() and "DEBIAN" not in path.parts}
                 for root in self.roots.values()]
        self.assertEqual(files[0] & files[1], set())

    def test_the_agent_needs_no_python(self) -> None:
        root = self.roots[AGENT]
        self.assertEqual([str(path) for path in root.rglob("*.py")], [])
        for path in (*(root / "usr/bin").iterdir(), *(root / "DEBIAN").iterdir(), *(root / "lib/systemd/system").iterdir()):
            self.assertNotIn(b"python", path.read_bytes() if path.name != "leasekeep" else b"", path)
        self.assertEqual((root / "usr/bin/leasekeep").read_bytes()[:4], b"\x7fELF")

    def test_what_an_administrator_changes_is_kept(self) -> None:
        self.assertEqual((self.roots[AGENT] / "DEBIAN/conffiles").read_text(), "/etc/vault-proxy/haproxy.cfg\n")
        self.assertEqual((self.root / "etc/vault-proxy/haproxy.cfg").read_bytes(), (TOP / "packaging/proxy/haproxy.cfg").read_bytes())
        self.assertNotRegex((self.roots[AGENT] / "DEBIAN/md5sums").read_text(), "(?m)  etc/")

    def test_nothing_in_it_speaks_of_usr_local_or_of_the_clone(self) -> None:
        for unit in ("leasekeep", "leasekeep@"):
            text = (self.root / f"lib/systemd/system/{unit}.service").read_text()
            self.assertIn("ExecStart=/usr/bin/leasekeep serve ", text)
            self.assertNotIn("/usr/local/", re.sub(r"(?m)^#.*$", "", text))
        for file in self.root.rglob("*"):
            if file.is_file() and not file.is_symlink() and file.suffix not in (".gz", ".md5sums"):
                self.assertNotIn(str(TOP).encode(), file.read_bytes(), file)

    def test_each_document_that_a_page_names_is_in_it(self) -> None:
        for file in sorted(self.root.glob("usr/share/man/man*/*.gz")):
            page = gzip.decompress(file.read_bytes()).decode().replace("\\-", "-")
            for document in re.findall(r"\bdocs/[\w/-]+\.md\b", page):
                with self.subTest(page=file.name, document=document):
                    self.assertTrue((self.root / "usr/share/doc/leasekeep" / document).is_file())

    def test_each_link_of_a_document_leads_somewhere(self) -> None:
        documents = self.root / "usr/share/doc/leasekeep"
        for file in sorted(documents.rglob("*.md")):
            for target in re.findall(r"\]\(([^)\s#]+)", file.read_text()):
                with self.subTest(document=str(file.relative_to(documents)), target=target):
                    self.assertTrue("://" in target or (file.parent / target).exists())

    def test_its_news_has_its_version(self) -> None:
        news = gzip.decompress((self.root / "usr/share/doc/leasekeep/NEWS.md.gz").read_bytes()).decode()
        self.assertRegex(news, rf"(?m)^## {re.escape(self.version)}, of commit [0-9a-f]+ of \d{{4}}-\d\d-\d\d$")
        self.assertNotIn("Unreleased", news)
        with tarfile.open(self.tar) as archive:
            ours = archive.extractfile(f"leasekeep-{self.version}/share/doc/leasekeep/NEWS.md")
            assert ours is not None
            self.assertEqual(ours.read().decode(), news)

    def test_their_fields(self) -> None:
        for name, deb in self.debs.items():
            shown = subprocess.run(["dpkg-deb", "-f", str(deb), "Package", "Version", "Depends"], check=True, capture_output=True,
                                   text=True, timeout=60 * SLOWER).stdout
            self.assertIn(f"Package: {name}\nVersion: {self.version}\n", shown)
            self.assertIn("libc6", shown)
            self.assertEqual("python3 (>= 3.11)" in shown, name == TOOLS)
            self.assertEqual(f"leasekeep (= {self.version})" in shown, name == TOOLS)

    def test_the_programs_run_from_where_they_are_unpacked(self) -> None:
        environment = {"PATH": os.environ["PATH"], "HOME": str(self.folder)}
        subprocess.run(["tar", "-xzf", str(self.tar), "-C", str(self.folder)], check=True, timeout=60 * SLOWER)
        for folder in (self.root / "usr/bin", self.folder / f"leasekeep-{self.version}" / "bin"):
            for program in ("leasekeep", "minibroker", "leasekeep-inventory", "leasekeep-draw"):
                ran = subprocess.run([str(folder / program), "--version"], capture_output=True, text=True, timeout=60 * SLOWER, env=environment)
                version = VERSION if program.startswith("leasekeep-") else f"{VERSION} {self.proved}"
                self.assertEqual((ran.returncode, ran.stdout), (0, f"{program} {version}\n"), ran.stderr)

    def test_the_archive_is_for_usr_local(self) -> None:
        with tarfile.open(self.tar) as archive:
            names = {member.name for member in archive}
            owners = {(member.uid, member.gid) for member in archive}
            unit = archive.extractfile(f"leasekeep-{self.version}/lib/systemd/system/leasekeep.service")
            assert unit is not None
            self.assertIn(b"ExecStart=/usr/local/bin/leasekeep serve ", unit.read())
        self.assertEqual(owners, {(0, 0)})
        for file in ("bin/leasekeep", "bin/leasekeep-inventory", "lib/sysusers.d/leasekeep.conf", "lib/systemd/system/leasekeep@.service", "share/man/man1/leasekeep-draw.1",
                     "share/leasekeep/installed"):
            self.assertIn(f"leasekeep-{self.version}/{file}", names)

    @unittest.skipIf(shutil.which("lintian") is None, "lintian is not installed")
    def test_lintian_has_no_error(self) -> None:
        for deb in self.debs.values():
            said = subprocess.run(["lintian", "--fail-on", "error", "--allow-root", str(deb)], capture_output=True, text=True, timeout=300)
            self.assertEqual(said.returncode, 0, said.stdout + said.stderr)

    def test_their_scripts_are_taken_by_the_shell(self) -> None:
        for root in self.roots.values():
            for script in (*root.glob("DEBIAN/post*"), *root.glob("DEBIAN/pre*")):
                checked = subprocess.run(["sh", "-n", str(script)], capture_output=True, text=True, timeout=60 * SLOWER)
                self.assertEqual((checked.returncode, checked.stderr), (0, ""))


if __name__ == "__main__":
    unittest.main()
