"""The image of a container: what is in it, and that it runs in a chroot."""

from __future__ import annotations

import json
import os
import re
import shutil
import signal
import subprocess
import tarfile
import tempfile
import threading
import time
import unittest
from pathlib import Path
from typing import Any

from trial.programs import SLOWER

from .test_package import TOP, VERSION, programs

DOCKERFILE = (TOP / "packaging" / "container" / "Dockerfile").read_text()
SECONDS = 60 * SLOWER
INVENTORY = 'margin = 60\n[[token]]\nname = "app"\nsecret = "hvs.app"\nincrement = "1h"\nmax_ttl = "1d"\nneed = "always"\n'


def words_of(instruction: str) -> list[str]:
    """The words of an instruction of the Dockerfile that is a list."""
    words: list[str] = json.loads(re.findall(rf"(?m)^{instruction} (.*)$", DOCKERFILE)[0])
    return words


def blob(described: dict[str, Any]) -> str:
    """The path of what the digest names."""
    return f"blobs/{described['digest'].replace(':', '/')}"


def may_be_apart() -> bool:
    """Whether a process may get namespaces of its own here."""
    words = ["unshare", "--pid", "--fork", "--net", "--mount-proc", "chroot", "/", "true"]
    return shutil.which("unshare") is not None and subprocess.run(words, capture_output=True, timeout=SECONDS).returncode == 0


APART = unittest.skipUnless(may_be_apart(), "only root may make a namespace")


def children(process: int) -> list[int]:
    return [int(word) for word in Path(f"/proc/{process}/task/{process}/children").read_text().split()]


@unittest.skipIf(shutil.which("ldd") is None or shutil.which("strip") is None, "ldd or strip is not installed")
class Image(unittest.TestCase):
    """What scripts/image makes. Where root tries it, it is started in a chroot, as its user, in namespaces of its own: the program is
    process 1 there."""

    out: Path
    root: Path

    @classmethod
    def setUpClass(cls) -> None:
        folder = Path(tempfile.mkdtemp())
        cls.addClassCleanup(shutil.rmtree, folder, True)
        folder.chmod(0o755)
        cls.out, cls.root = folder / "out", folder / "root"
        subprocess.run([str(TOP / "scripts" / "image"), "--built", str(programs(folder / "programs", "leasekeep")), str(cls.out)],
                       check=True, capture_output=True, timeout=SECONDS)
        with tarfile.open(cls.out / "root.tar") as files:
            files.extractall(cls.root, numeric_owner=True)  # (root gives each file its owner)
        (cls.root / "proc").mkdir()

    def test_it_has_the_program_and_its_libraries_alone(self) -> None:
        with tarfile.open(self.out / "root.tar") as packed:
            files = {member.name for member in packed if not member.isdir()}
        libraries = {name for name in files if re.fullmatch(r"(usr/)?lib(64)?/.*\.so(\.\d+)*", name)}
        self.assertEqual(files - libraries, {"usr/bin/leasekeep", "etc/passwd", "etc/group"})
        self.assertTrue(any("libc.so" in name for name in libraries))

    def test_its_volumes_are_its_user_s(self) -> None:
        with tarfile.open(self.out / "root.tar") as files:
            owners = {f"/{member.name}": (member.uid, member.gid) for member in files}
        volumes = words_of("VOLUME")
        self.assertEqual({name for name, owner in owners.items() if owner != (0, 0)}, set(volumes))
        self.assertEqual({owners[volume] for volume in volumes}, {(65532, 65532)})

    def test_the_image_is_a_layout_whose_digests_agree(self) -> None:
        with tarfile.open(self.out / "image.tar") as layout:
            files = {member.name: layout.extractfile(member) for member in layout}
            data = {name: file.read() for name, file in files.items() if file is not None}
        index = json.loads(data["index.json"])
        manifest = json.loads(data[blob(index["manifests"][0])])
        config = json.loads(data[blob(manifest["config"])])
        for described in (index["manifests"][0], manifest["config"], *manifest["layers"]):
            self.assertEqual(described["size"], len(data[blob(described)]))
        self.assertEqual(data[blob(manifest["layers"][0])], (self.out / "root.tar").read_bytes())
        self.assertEqual(config["rootfs"]["diff_ids"], [layer["digest"] for layer in manifest["layers"]])
        self.assertEqual(json.loads(data["manifest.json"])[0]["Config"], blob(manifest["config"]))
        run = config["config"]
        self.assertEqual((run["User"], run["StopSignal"], run["Cmd"]), ("65532:65532", "SIGKILL", words_of("CMD")))
        self.assertEqual(run["Healthcheck"]["Interval"], 30_000_000_000)
        self.assertRegex(run["Labels"]["org.opencontainers.image.version"], rf"^{re.escape(VERSION)}(-unproved)?$")
        commit = subprocess.run(["git", "rev-parse", "HEAD"], cwd=TOP, check=True, capture_output=True, text=True, timeout=SECONDS).stdout
        self.assertEqual(run["Labels"]["org.opencontainers.image.revision"], commit.strip())

    def test_docker_is_given_the_same_files(self) -> None:
        self.assertEqual((self.out / "Dockerfile").read_text(), DOCKERFILE)
        self.assertIn("\nADD root.tar /\n", DOCKERFILE)

    def started(self) -> subprocess.Popen[str]:
        """The agent with the words of the image, under `unshare`."""
        apart = ["unshare", "--pid", "--fork", "--kill-child", "--net", f"--mount-proc={self.root}/proc"]
        outer = subprocess.Popen([*apart, "chroot", "--userspec=65532:65532", str(self.root), *words_of("ENTRYPOINT"), *words_of("CMD")],
                                 stdout=subprocess.PIPE, stderr=subprocess.STDOUT, text=True)
        self.addCleanup(outer.wait)
        self.addCleanup(outer.kill)
        at_last = threading.Timer(SECONDS, outer.kill)
        at_last.start()
        self.addCleanup(at_last.cancel)
        assert outer.stdout is not None
        self.addCleanup(outer.stdout.close)
        return outer

    def begun(self) -> tuple[subprocess.Popen[str], int]:
        """The same, and its process 1 as it is numbered outside."""
        outer = self.started()
        end = time.monotonic() + SECONDS
        while not children(outer.pid):
            self.assertLess(time.monotonic(), end)
            time.sleep(0.01)
        return outer, children(outer.pid)[0]

    def mount(self, mode: int) -> None:
        """The inventory as Kubernetes mounts a secret: a file of root and of the pod's group, behind two links."""
        volume = self.root / "etc" / "leasekeep"
        shutil.rmtree(volume)
        shutil.rmtree(self.root / "var" / "lib" / "leasekeep" / "state", ignore_errors=True)  # (it may hold a good copy)
        (volume / "..2026").mkdir(parents=True)
        (volume / "..data").symlink_to("..2026")
        (volume / "inventory.toml").symlink_to("..data/inventory.toml")
        file = volume / "..2026" / "inventory.toml"
        file.write_text(INVENTORY)
        file.chmod(mode)
        os.chown(file, 0, 65532)

    @APART
    def test_it_serves_what_its_group_may_read(self) -> None:
        self.mount(0o440)
        outer = self.started()
        assert outer.stdout is not None
        lines = iter(outer.stdout.readline, "")
        self.assertTrue(any(" begin start" in line for line in lines))
        self.assertTrue(any(" lost app connect" in line for line in lines))

    @APART
    def test_it_refuses_what_others_may_read(self) -> None:
        self.mount(0o644)
        outer = self.started()
        said, _ = outer.communicate(timeout=SECONDS)
        self.assertEqual((outer.returncode, said), (1, "leasekeep: /etc/leasekeep/inventory.toml: others may read or write this file "
                                                       "(mode 0644); chmod o-rwx it: it holds secrets\n"))

    @APART
    def test_as_process_1_it_ends_by_the_signal_that_the_image_names_and_by_no_other(self) -> None:
        self.mount(0o440)
        outer, first = self.begun()
        assert outer.stdout is not None
        self.assertTrue(any(" begin start" in line for line in iter(outer.stdout.readline, "")))
        for number in (signal.SIGTERM, signal.SIGINT, signal.SIGHUP):
            os.kill(first, number)
        time.sleep(0.5)
        self.assertIsNone(outer.poll())
        os.kill(first, signal.Signals[re.findall(r"(?m)^STOPSIGNAL (.*)$", DOCKERFILE)[0]])
        self.assertNotEqual(outer.wait(SECONDS), 0)


if __name__ == "__main__":
    unittest.main()
