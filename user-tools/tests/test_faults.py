"""The faults of an inventory: each is told where it is, and none that is not there."""

from __future__ import annotations

import shutil
import subprocess
import sys
import tempfile
import time
import unittest
from pathlib import Path

from leasekeep_inventory.discover import read_list
from leasekeep_inventory.inventory_file import read_inventory

GOOD = """margin = 20
[[token]]
name = "app"
issued = 999000
end = 1000900
increment = 900
need = 1050000
secret = "hvs.app-secret"

[[lease]]
name = "db"
token = "app"
issued = 999000
end = 1000900
increment = 900
need = 1050000
lease_id = "db/creds/1"
"""


def faults_of(text: str) -> list[str]:
    """In the order of their lines."""
    return [fault.text("f") for fault in sorted(read_inventory(text.encode()).faults, key=lambda fault: fault.line)]


class Values(unittest.TestCase):
    def test_a_good_inventory(self) -> None:
        self.assertEqual(faults_of(GOOD), [])

    def test_each(self) -> None:
        old = GOOD.replace
        for text, expected in (
            (old("1050000", "1764000000000", 1), "are these milliseconds? write 1764000000"),
            (old("increment = 900", 'increment = "1 hour"', 1),
             'f:6: fault: app increment: is not a whole number of seconds, 0 to 4294967295, or a text such as "90m", "1h", "30d";'
             ' did you mean "1h"?'),
            (old("end = 1000900", 'end = "1h"', 1), "write day, T, hours:minutes:seconds, and Z or an offset"),
            (old("increment = 900", 'increment = "900"', 1), "write it without quotes"),
            (old("increment = 900", "increment = 900.0", 1), "write 900"),
            (old("1050000", "1970-01-13T00:00:00Z", 1), "a date has to be in quotes"),
            (old("1050000", '"1970-01-13 00:00:00Z"', 1), "write day, T, hours:minutes:seconds, and Z or an offset"),
            (old('name = "app"', 'nam = "app"'), "f:3: fault: token 1 nam: is not a key of this table; the keys are name, "),
            (old('token = "app"', 'token = "nobody"'), "f:12: fault: db token: names no token above this table; write that token's table"),
            (old("margin = 20", "margin = 1000"), "f:6: fault: app increment: is not greater than the margin of 1000 s; ask for more, or"),
            (old("margin = 20", "margin = = 20"), "f:1: fault: the file is not a TOML document"),
            (old("db/creds/1", "db/creds/\\u00e9"), "lease_id: is not 1 to 256 printable ASCII"),
            (old("hvs.app-secret", "hvs.app-\\u00e9"), "secret: is not 1 to 256 printable ASCII"),
        ):
            with self.subTest(expected=expected):
                lines = faults_of(text)
                self.assertTrue(any(expected in line for line in lines), lines)
                self.assertNotIn("hvs.app-", "\n".join(lines))

    def test_curly_quotes(self) -> None:
        for left, right in (("\u201c", "\u201d"), ("\u2018", "\u2019"), ("\u201e", "\u201c"), ("\u00ab", "\u00bb")):
            (said,) = faults_of(GOOD.replace('"hvs.app-secret"', f"{left}hvs.app-secret{right}"))
            self.assertTrue(said.startswith("f:8: fault: "), said)
            self.assertTrue(said.endswith('; a text stands between straight quotes ("): these are curly, as some programs write them'), said)
            self.assertNotIn("hvs.", said)

    def test_names_of_64_letters(self) -> None:
        for length, faults in ((64, 0), (65, 1)):
            self.assertEqual(len(faults_of(GOOD.replace('"db"', f'"{"d" * length}"'))), faults)


def table(kind: str, name: str, *more: str) -> str:
    """A table that is good but for what `more` writes."""
    credential = "secret" if kind == "token" else "lease_id"
    return "\n".join((f"[[{kind}]]", f'name = "{name}"', "issued = 999000", "end = 1000900", "increment = 900",
                      "need = 1050000", f'{credential} = "x.{name}"', *more, ""))


class Tables(unittest.TestCase):
    """Mistakes of a first inventory."""

    def told(self, text: str, *expected: str) -> None:
        """These faults and no other, as far as each is written here."""
        faults = faults_of("margin = 20\n" + text)
        self.assertEqual(len(faults), len(expected), faults)
        for line, start in zip(faults, expected):
            self.assertTrue(line.startswith(start), f"{line!r} does not begin with {start!r}")

    def test_a_bad_table_is_no_fault_of_those_under_it(self) -> None:
        self.told(table("token", "top").replace("900\nneed", '"1 h"\nneed') + table("token", "mid", 'parent = "top"')
                  + table("lease", "low", 'token = "mid"'), "f:6: fault: top increment: ")

    def test_one_that_stands_under_a_later_one(self) -> None:
        said = "parent: names no token above this table; write that token's table before this one"
        self.told(table("token", "b", 'parent = "a"') + table("token", "a"), f"f:9: fault: b {said}")
        self.told(table("token", "a", 'parent = "a"'), f"f:9: fault: a {said}")

    def test_what_stands_twice_is_told_with_both_lines_beside_other_faults(self) -> None:
        bad = table("token", "bad").replace("end = 1000900", "end = -1")
        one, two = table("lease", "one", 'token = "bad"'), table("lease", "two", 'token = "bad"').replace("x.two", "x.one")
        self.told(bad + one + two, "f:5: fault: bad end: ", "f:23: fault: two lease_id: occurs twice: line 15 (one) has it too; ")
        self.told(table("token", "a") + bad.replace('"bad"', '"a"').replace("x.bad", "x.a"),
                  "f:10: fault: a name: occurs twice: line 3 (a) has it too", "f:12: fault: a end: ",
                  "f:15: fault: a secret: occurs twice: line 8 (a) has it too")

    def test_heads_that_are_nearly_those_of_tables(self) -> None:
        self.told(table("token", "a") + table("lease", "b", 'token = "a"').replace("[lease]", "[leases]"),
                  "f:9: fault: [[leases]]: is not a table of an inventory; the tables are [[token]] and [[lease]]")
        self.told(table("token", "a").replace("[[token]]", "[token]") + table("lease", "b", 'token = "a"'),
                  "f:2: fault: token: is not an array of tables [[token]]; write [[token]], with two brackets, over each token")
        one = table("token", "a").replace("[[token]]", "[token]")
        self.told(one + one, "f:9: fault: the file is not a TOML document: Cannot declare ('token',) twice (at line 9, column 7); "
                             "write [[token]], with two brackets")

    def test_the_parsers_words_for_syntax(self) -> None:
        for text, expected in (
            ("a = web\n", "f:2: fault: the file is not a TOML document: Invalid value (at line 2, column 5); put texts in quotes"),
            ("a = 'web\n", "Expected \"'\" (at end of document)"),
            ("[[token]]\na = 2026-13-01T00:00:00Z\n", "f:3: fault: the file is not a TOML document: Expected newline or end of document"
             " after a statement (at line 3, column 9); put the date in quotes"),
            ("[[token]]\na = 1\nb = 2\na = 3\n", "f:5: fault: a key occurs twice in one table, on line 3 too; remove one of them"),
            ("[[token]\n", "f:2: fault: the file is not a TOML document: Expected ']]' at the end of an array declaration"),
            ("a = " + "9" * 5000 + "\n", "a number has thousands of digits"),
        ):
            with self.subTest(text=text[:20]):
                lines = faults_of("margin = 20\n" + text)
                self.assertEqual(len(lines), 1, lines)
                self.assertIn(expected, lines[0])

    def test_the_parsers_words_show_no_key_that_may_be_a_secret(self) -> None:
        for text in ("a = {'hvs.app-secret' = 1, 'hvs.app-secret' = 2}", "['hvs.app-secret']\n['hvs.app-secret']\n",
                     "[[token]]\n['token'.'hvs.app-\\'secret']\n"):
            with self.subTest(text=text):
                self.assertNotIn("app-", "\n".join(faults_of(text)))

    def test_what_is_allowed_is_said(self) -> None:
        good = table("token", "a")
        for text, expected in (
            ("margin = 7200\n" + good, "f:1: fault: margin: is not 1 to 3600 seconds, or a text such as"
             ' "90m", "1h", "30d"; write 3600 or less'),
            ('margin = "2h"\n' + good, "that is 7200 s: write 3600 or less"),
            ("margin = 20\n" + good + 'renewable = "false"\n', "f:9: fault: a renewable: is not true or false; write false without"),
            ("margin = 20\n" + good.replace("= 1050000", "= -1"), "f:7: fault: a need: is not a whole number of seconds since 1970, or"
             ' a date such as "2026-11-22T09:00:00Z", or "always"; write 0 or more'),
            ("margin = 20\n" + good + "max_ttl = 5000000000\n", "f:9: fault: a max_ttl: is not a whole number of seconds, 0 to"
             ' 4294967295, or a text such as "90m", "1h", "30d"; write 4294967295 or less'),
            ("margin = 20\n" + good.replace("= 1050000", '= "2026-13-01T00:00:00Z"'), "months are 01 to 12, and this one is 13"),
            ("margin = 20\n" + good.replace("= 1050000", '= "2026-02-29T00:00:00Z"'), "days of 2026-02 are 01 to 28, and this one is 29"),
            ("margin = 20\n" + good.replace("= 1050000", '= "2026-02-28T24:00:00Z"'), "hours are 00 to 23, and this one is 24"),
            ("margin = 20\n" + good + 'secret_file = "f"\n', "f:9: fault: a secret_file: stands beside secret; write one of the two"),
            ("margin = 20\n" + good.replace('"a"', '"a b"'), "f:3: fault: token 1 name: is not 1 to 64 letters, digits, '-', '_', '.',"
             " '/'; its character 2 is a space"),
        ):
            with self.subTest(expected=expected):
                self.assertIn(expected, "\n".join(faults_of(text)))

    def test_a_step_of_nothing(self) -> None:
        """`leasekeep` refuses it (step-too-small), written or by a period of 0."""
        for keys in ("increment = 0", "increment = 0\nperiod = 0"):
            self.told(table("token", "a").replace("increment = 900", keys), "f:6: fault: a increment: is not greater than the margin of 20 s; ")

    def test_many_mistakes_take_no_long_time(self) -> None:
        begun = time.process_time()
        faults_of("".join(f"key{number} = 1\n" for number in range(60000)))
        faults_of("".join(table("token", f"t{number}", f'parent = "t{number + 1}"')[:-1] + "\n" for number in range(4000)))
        faults_of("".join(table("token", f"t{number}", f'parent = "nobody{number}"') for number in range(4000)))
        self.assertLess(time.process_time() - begun, 25)


class ByteOrderMark(unittest.TestCase):
    """One at the start is no part of the document (TOML 1.1); `leasekeep` reads it so, and everything else too."""

    def setUp(self) -> None:
        self.folder = Path(tempfile.mkdtemp())
        self.addCleanup(shutil.rmtree, self.folder, True)

    def test_one(self) -> None:
        self.assertEqual(faults_of("\ufeff" + GOOD), [])
        self.assertEqual(len(faults_of("\ufeff\ufeff" + GOOD)), 1)

    def test_a_short_list(self) -> None:
        data = ("\ufeff" + '[[token]]\nname = "a"\nsecret = "s.a"\n').encode()
        self.assertEqual([entry.name for entry in read_list(data, 0o600, self.folder).inventory.entries], ["a"])

    def test_draw(self) -> None:
        file = self.folder / "inventory.toml"
        file.write_text("\ufeff" + GOOD, "utf-8")
        draw = Path(__file__).resolve().parents[1] / "leasekeep-draw"
        drawn = subprocess.run([sys.executable, draw, file, "--table"], input="done 0 0\n", capture_output=True, text=True, timeout=60)
        self.assertEqual((drawn.returncode, drawn.stderr), (0, ""))


if __name__ == "__main__":
    unittest.main()
