"""`leasekeep-inventory draft`: what lookups tell is filled into a list, and everything else of it stays."""

from __future__ import annotations

import asyncio
import os
import shutil
import subprocess
import tempfile
import time
import unittest
from collections.abc import Callable
from pathlib import Path
from typing import Any

from leasekeep_inventory.broker import Broker, read_lease_lookup, read_token_lookup
from leasekeep_inventory.discover import DiscoverFault, Filled, discover, read_list
from leasekeep_inventory.inventory import ALWAYS, Entry, Inventory, Kind
from leasekeep_inventory.inventory_file import read_inventory
from leasekeep_inventory.rfc3339 import date_text
from trial.programs import SLOWER

from .broker import Vault, VaultServer, VaultTransport

BEGAN = 1_000_000
PROGRAM = Path(__file__).resolve().parents[1] / "leasekeep-inventory"
LIST = """# What app needs.
margin = "30s"   # as long as a restart takes

[[token]]
name = "app"
secret_file = "app.token"     # Vault Agent writes it
max_ttl = "30d"
need = "always"               # as long as may be

[[lease]]
name = "db"
token = "app"
lease_id = "db/creds/1"
increment = "10m"
max_ttl = "1d"
need = "1970-01-13T00:00:00Z"

[[token]]                     # A child of app, and the last table.
name = 'job'
parent = "app"
secret = "s.job"
"""
FILLED = """# What app needs.
margin = "30s"   # as long as a restart takes

[[token]]
name = "app"
secret_file = "app.token"     # Vault Agent writes it
max_ttl = "30d"
need = "always"               # as long as may be
issued = "1970-01-12T13:16:40Z"
end = "1970-01-12T14:16:40Z"
increment = 3600

[[lease]]
name = "db"
token = "app"
lease_id = "db/creds/1"
increment = "10m"
max_ttl = "1d"
need = "1970-01-13T00:00:00Z"
issued = "1970-01-12T13:16:40Z"
end = "1970-01-12T14:16:40Z"

[[token]]                     # A child of app, and the last table.
name = 'job'
parent = "app"
secret = "s.job"
issued = "1970-01-12T13:16:40Z"
end = "1970-01-12T14:16:40Z"
increment = 3600
"""


class Discovered(unittest.TestCase):
    def setUp(self) -> None:
        self.folder = Path(tempfile.mkdtemp())
        self.addCleanup(shutil.rmtree, self.folder, True)
        (self.folder / "app.token").write_text("hvs.app-secret\n")

    def fill(self, data: bytes, mode: int = 0o600, status: int | None = None, **real: Any) -> Filled:
        """The list filled in by a broker that issued everything 1,800 seconds ago for an hour, but for what `real` changes."""
        row = Entry("app", Kind.TOKEN, None, BEGAN - 1800, BEGAN + 1800, increment=3600, max_ttl=90_000, credential="hvs.app-secret")
        rows = (row, Entry("job", Kind.TOKEN, "app", BEGAN - 1800, BEGAN + 1800, increment=3600, credential="s.job"),
                Entry("db", Kind.LEASE, "app", BEGAN - 1800, BEGAN + 1800, increment=3600, credential="db/creds/1"))
        vault = Vault(lambda: BEGAN, status)
        vault.load(Inventory(rows, 30), **{name: {"lasts": 3600, **real.get(name, {})} for name in ("app", "job", "db")})
        return asyncio.run(discover(Broker(VaultTransport(vault), 5.0), vault.now, read_list(data, mode, self.folder)))

    def text(self, text: str, **real: Any) -> str:
        return self.fill(text.encode(), **real).data.decode()

    def faults(self, text: str, **words: Any) -> list[str]:
        with self.assertRaises(DiscoverFault) as caught:
            self.fill(text.encode(), **words)
        said = [finding.text("f") for finding in caught.exception.findings]
        self.assertNotIn("hvs.app-secret", "\n".join(said) + str(caught.exception))
        return said


class Kept(Discovered):
    def test_what_is_written_stays(self) -> None:
        """The file of the secret, `always`, durations, comments, spelling, order."""
        text = self.text(LIST)
        self.assertEqual(text, FILLED)
        self.assertNotIn("hvs.app-secret", text)
        inventory = read_inventory(text.encode()).inventory or Inventory()
        app = inventory.entries[0]
        self.assertEqual((app.need, app.max_ttl, app.credential_file, app.credential), (ALWAYS, 2_592_000, "app.token", None))

    def test_what_is_filled_in_stays_as_it_is(self) -> None:
        self.assertEqual(self.text(FILLED), FILLED)

    def test_ends_of_lines_a_mark_at_the_start_and_none_at_the_end(self) -> None:
        changes: tuple[Callable[[str], str], ...] = (
            lambda text: text.replace("\n", "\r\n"), lambda text: "\ufeff" + text, lambda text: text.removesuffix("\n"),
            lambda text: text.replace("\n", "\r\n").removesuffix("\r\n"))
        for change in changes:
            self.assertEqual(self.text(change(LIST)), change(FILLED))

    def test_old_values_are_written_anew_in_their_place(self) -> None:
        old = LIST.replace('name = "app"', 'name = "app"\nissued = 998200 # long ago\nend = 5\nrenewable = false\nperiod = "1m"\nincrement = "2h"')
        new = self.text(old, app={"explicit_max": 50_000})
        self.assertIn('name = "app"\nissued = 998200 # long ago\nend = 1001800\nrenewable = true\nperiod = 0\nincrement = "2h"\n', new)
        self.assertIn('as long as may be\nexplicit_max_ttl = 50000\n\n[[lease]]', new)
        other = LIST.replace('name = "app"', 'name = "app"\nissued = "1970-01-12T14:16:40+01:00"\nend = "1970-01-01T00:00:05Z"# old')
        self.assertIn('issued = "1970-01-12T14:16:40+01:00"\nend = "1970-01-12T14:16:40Z"# old\n', self.text(other))

    def test_what_a_lookup_tells_besides(self) -> None:
        text = self.text(LIST, app={"period": 1200, "explicit_max": 99_000}, db={"renewable": False})
        self.assertIn("period = 1200\nexplicit_max_ttl = 99000\n\n[[lease]]", text)
        self.assertNotIn("increment", text.partition("[[lease]]")[0])
        self.assertIn("renewable = false\n\n[[token]]                     # A child", text)

    def test_an_orphan_loses_its_parent(self) -> None:
        filled = self.fill(LIST.encode(), job={"parent": None})
        self.assertIn("name = 'job'\n# parent = \"app\"\nsecret = \"s.job\"\n", filled.data.decode())
        self.assertEqual([doubt.text("f") for doubt in filled.doubts if doubt.key == "parent"], [
            "f:20: doubt: job parent: is app, and the broker says that it is an orphan; the line is left out"])

    def test_doubts(self) -> None:
        filled = self.fill(LIST.encode(), db={"renewable": False})
        self.assertEqual([doubt.text("f") for doubt in filled.doubts], [
            "f:18: doubt: job max_ttl: is not written, and no lookup tells it; write that of its role or its mount, unless it is system_max",
            "f:10: doubt: db renewable: the broker says that it cannot be renewed; issue it afresh before its end"])


class Increments(Discovered):
    def increments(self, margin: int, **real: dict[str, object]) -> list[int | None]:
        text = self.text(LIST.replace('"30s"', str(margin)).replace('increment = "10m"\n', ""), **real)
        inventory = read_inventory(text.encode()).inventory
        assert inventory is not None
        return [entry.increment for entry in inventory.entries]

    def test_they_are_what_was_issued_and_never_what_is_left(self) -> None:
        """A token of 62 s with 18 left; one of ten days with 40 minutes left; a lease of an hour with half of it left."""
        left: dict[str, object] = {"issued": BEGAN - 44.0, "end": BEGAN + 18.0, "lasts": 62}
        self.assertEqual(self.increments(20, app=left), [62, 3600, 3600])
        long: dict[str, object] = {"issued": BEGAN + 2400.0 - 864_000, "end": BEGAN + 2400.0, "lasts": 864_000}
        self.assertEqual(self.increments(20, app=long), [864_000, 3600, 3600])

    def test_where_it_is_not_told_it_is_the_time_from_the_issue_to_the_end(self) -> None:
        rows: dict[str, dict[str, object]] = {name: {"lasts": None, "issued": BEGAN - 44.0, "end": BEGAN + 18.0} for name in ("app", "job", "db")}
        self.assertEqual(self.increments(20, **rows), [62, 62, 62])
        rows["app"]["issued"] = BEGAN - 800_000.0  # (Of a clock that was set, or long renewed.)
        rows["db"]["issued"] = BEGAN - 100_000.0
        self.assertEqual(self.increments(20, **rows), [800_018, 62, 86_400])

    def test_a_lease_that_was_renewed(self) -> None:
        self.assertEqual(self.increments(20, db={"issued": BEGAN - 90_000.0, "lasts": 900})[2], 900)

    def test_one_that_is_no_longer_than_the_margin_is_a_fault(self) -> None:
        self.assertEqual(self.faults(LIST, job={"lasts": 30}), [
            "f:18: fault: job increment: is not greater than the margin of 30 s; ask for more, or lower the margin"])

    def test_replies(self) -> None:
        lease = b'{"data":{"id":"l","issue_time":"2017-04-30T10:18:11.9999-04:00","expire_time":"2017-04-30T11:18:12.0001-04:00",%s"ttl":18}}'
        for more, seconds in ((b"", 3600), (b'"last_renewal":null,', 3600), (b'"last_renewal":"2017-04-30T11:08:12Z",', 15_000),
                              (b'"last_renewal":"2017-04-30T11:08:12.0001-04:00",', 600)):
            facts = read_lease_lookup(lease % more, "l")
            self.assertEqual(facts and facts.whole_ttl(0.0, 99_999), seconds)
        token = b'{"data":{"creation_time":1000,"ttl":18%s}}'
        for more, seconds in ((b"", 62), (b',"creation_ttl":90', 90), (b',"creation_ttl":0', 62), (b',"last_renewal_time":1020', 42),
                              (b',"last_renewal_time":"x"', 62)):
            facts = read_token_lookup(token % more, "")
            self.assertEqual(facts and facts.whole_ttl(1043.5, 99_999), seconds)
            self.assertEqual(facts and facts.whole_ttl(5.0, 99_999), 90 if b":90" in more else 18)  # (A clock that is behind the broker's.)


class Faults(Discovered):
    def test_each_with_its_line(self) -> None:
        for old, new, expected in (
            ("max_ttl", "max_tll", "f:7: fault: app max_tll: is not a key of this table; the keys are name, "),
            ("margin", "magrin", "f:2: fault: magrin: is not a key of the top level; the keys are system_max, "),
            ('"30s"', '"1 minute"', "f:2: fault: margin: is not 1 to 3600 seconds"),
            ("always", "forever", "f:8: fault: app need: is not "),
            ('secret = "s.job"', "", "f:18: fault: job secret: is missing"),
            ("app.token", "none", "f:6: fault: app secret_file: cannot be read: No such file or directory; write the secret into it"),
            ("# What", "What", "f:1: fault: the file is not a TOML document"),
            ("s.job", "s.nobody", "f:21: fault: job secret: its lookup: status 403; issue it afresh, or take it out"),
            ("creds/1", "creds/2", "f:13: fault: db lease_id: its lookup: status 400; issue it afresh, or take it out")):
            with self.subTest(new=new):
                (said,) = self.faults(LIST.replace(old, new, 1))
                self.assertTrue(said.startswith(expected), said)

    def test_all_of_them(self) -> None:
        text = LIST.replace("always", "forever").replace('name = "db"', 'name = "db"\nincremnt = 5')
        self.assertEqual([said.partition(" fault: ")[0] for said in self.faults(text)], ["f:8:", "f:12:"])
        self.assertEqual([said.partition(": its")[0] for said in self.faults(LIST, status=500)], [
            "f:4: fault: app secret", "f:13: fault: db lease_id", "f:21: fault: job secret"])

    def test_a_list_that_others_may_read(self) -> None:
        for mode in (0o604, 0o602):
            self.assertEqual(self.faults(LIST, mode=mode), [
                f"f: fault: others may read or write this file (mode 0{mode:o}); chmod o-rwx it: it holds secrets"])
        self.assertEqual(self.fill(LIST.encode(), 0o640).data.decode(), FILLED)

    def test_a_token_that_never_ends(self) -> None:
        reply = b'{"data":{"creation_time":1000,"ttl":0,"creation_ttl":0,"expire_time":null}}'
        facts = read_token_lookup(reply, "")
        self.assertTrue(facts and facts.never_ends)

    def test_a_spelling_that_nothing_can_be_filled_into(self) -> None:
        """Every text that is given is read as what was told: one for which that cannot be is refused."""
        said = "is written in a way that nothing can be filled into; write its table under a head of its own, and each key on a line of its own"
        self.assertEqual(self.faults('token = [{name = "app", secret_file = "app.token"}]\n'), [f"f: fault: app: {said}"])
        for issued in ('"""1970-01-01T00:00:00Z"""', '"""\\\n1970-01-01T00:00:00Z"""'):
            text = f'[[token]]\nname = "app"\nend = 7\nissued = {issued}\nsecret_file = "app.token"\n'
            self.assertEqual(self.faults(text), [f"f:1: fault: app: {said}"])

    def test_a_last_value_of_several_lines(self) -> None:
        text = '[[token]]\nname = "app"\nsecret_file = """\\\n  app.token"""\n'
        self.assertTrue(self.text(text).startswith('[[token]]\nissued = "1970-01-12T13:16:40Z"\nend = '))


class Command(Discovered):
    def run_on(self, mode: int, text: str = LIST) -> subprocess.CompletedProcess[str]:
        file = self.folder / "list.toml"
        file.write_text(text)
        file.chmod(mode)
        return subprocess.run([str(PROGRAM), "draft", str(file), str(self.folder / "nobody.sock")], capture_output=True, text=True,
                              timeout=60 * SLOWER)

    def test_over_a_socket(self) -> None:
        """The text comes as it was told, in UTF-8 whatever the terminal has, and what is doubtful to standard error."""
        began = int(time.time())
        vault = Vault(time.time)
        vault.load(Inventory((Entry("app", Kind.TOKEN, None, began, began + 900, renewable=False, credential="s.app"),)), app={"lasts": 900})
        server = VaultServer(vault).start()
        self.addCleanup(server.stop)
        file = self.folder / "list.toml"
        file.write_text('# für immer\r\n[[token]]\r\nname = "app" # €\r\nmax_ttl = "1d"\r\nsecret = "s.app"', "utf-8", newline="")
        file.chmod(0o600)
        ran = subprocess.run([str(PROGRAM), "draft", str(file), server.word], capture_output=True, timeout=60 * SLOWER,
                             env={**os.environ, "PYTHONIOENCODING": "latin-1"})
        self.assertEqual((ran.returncode, ran.stderr.decode()), (
            0, f"{file}: doubt: margin: is not written; write one of at least 4 times the time-out\n"
            f"{file}:2: doubt: app renewable: the broker says that it cannot be renewed; issue it afresh before its end\n"))
        lines = ran.stdout.decode("utf-8").split("\r\n")
        self.assertEqual(lines[:4], ["# für immer", "[[token]]", 'name = "app" # €', 'max_ttl = "1d"'])
        self.assertEqual([line.partition(" = ")[0] for line in lines[4:]], ["secret", "issued", "end", "renewable", "increment"])
        self.assertIn(lines[6], [f'end = "{date_text(began + 900 + late)}"' for late in (-1, 0, 1)])
        self.assertEqual(lines[7:], ["renewable = false", "increment = 900"])

    def test_where_nobody_answers(self) -> None:
        ran = self.run_on(0o600)
        self.assertEqual((ran.returncode, ran.stdout), (1, ""))
        self.assertEqual([line.partition("list.toml:")[2] for line in ran.stderr.splitlines()], [
            f"{line}: fault: {key}: its lookup: connect: No such file or directory; look at the broker or the proxy"
            for line, key in ((4, "app secret"), (13, "db lease_id"), (21, "job secret"))])

    def test_one_that_others_may_read(self) -> None:
        ran = self.run_on(0o644)
        self.assertEqual((ran.returncode, ran.stdout), (1, ""))
        self.assertIn("fault: others may read or write this file (mode 0644)", ran.stderr)


if __name__ == "__main__":
    unittest.main()
