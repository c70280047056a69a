"""The inventory as people have it: durations in words, needs without an end, and what a lookup tells left out."""

from __future__ import annotations

import unittest

from leasekeep_inventory.durations import duration_text, meant_duration, read_duration
from leasekeep_inventory.inventory import ALWAYS, Inventory, inventory_text
from leasekeep_inventory.inventory_file import read_inventory

SHORT = """margin = "1m"
[[token]]
name = "app"
max_ttl = "30d"
need = "always"
secret = "hvs.app-secret"

[[lease]]
name = "db"
token = "app"
increment = "90m"
max_ttl = "1d"
need = "2026-12-01T00:00:00Z"
lease_id = "db/creds/1"
"""
PLAIN = """system_max = 2764800
margin = 60

[[token]]
name = "app"
increment = 3600
max_ttl = 2592000
need = "always"
secret = "hvs.app-secret"

[[lease]]
name = "db"
token = "app"
increment = 5400
max_ttl = 86400
need = 1796083200
lease_id = "db/creds/1"
"""


def faults_of(text: str) -> list[str]:
    return [fault.text("f") for fault in read_inventory(text.encode()).faults]


def inventory_of(text: str) -> Inventory:
    reading = read_inventory(text.encode())
    assert reading.inventory is not None, [fault.text("f") for fault in reading.faults]
    return reading.inventory


class Durations(unittest.TestCase):
    def test_what_is_read(self) -> None:
        for text, seconds in (("1h", 3600), ("90m", 5400), ("30d", 2592000), ("45s", 45), ("1h30m", 5400), ("1d2h3m4s", 93784),
                              ("0s", 0), ("0001h", 3600)):
            with self.subTest(text):
                self.assertEqual(read_duration(text), seconds)
        for text in ("", "h", "1", "1 h", "1H", "30m1h", "1h1h", "-1h", "+1h", "1.5h", "1w", "1h\n", "\u0661h", "1" * 11 + "s"):
            with self.subTest(text):
                self.assertIsNone(read_duration(text))

    def test_what_is_written_is_read_again(self) -> None:
        for seconds in (0, 1, 59, 60, 61, 3599, 3600, 5400, 86399, 86400, 93784, 4294967295):
            self.assertEqual(read_duration(duration_text(seconds)), seconds)
        self.assertEqual(duration_text(5400), "1h30m")

    def test_what_was_meant(self) -> None:
        for text, meant in (("1 h", "1h"), ("1H", "1h"), ("1hr", "1h"), ("1 hour", "1h"), ("2 horus", "2h"), ("90 min", "1h30m"),
                            ("1.5h", "1h30m"), ("2w", "14d"), ("30 days", "30d"), ("1h, 30 minutes", "1h30m"), ("500ms", None),
                            ("2000ms", "2s"), ("30m1h", "1h30m"), ("one hour", None), ("", None), ("soon", None), ("5 apples", None)):
            with self.subTest(text):
                self.assertEqual(meant_duration(text), meant)


class Read(unittest.TestCase):
    def test_the_short_list(self) -> None:
        inventory = inventory_of(SHORT)
        app, db = inventory.entries
        self.assertEqual((inventory.margin, app.increment, app.max_ttl, app.need), (60, 3600, 2592000, 253402300799))
        self.assertEqual((db.increment, db.max_ttl, db.need, db.issued, db.end), (5400, 86400, 1796083200, 0, 0))

    def test_every_duration(self) -> None:
        text = ('system_max = "10d"\nmargin = "20s"\n[[token]]\nname = "a"\nissued = 1\nend = 2\nperiod = "1h"\nincrement = "2h"\n'
                'max_ttl = "3h"\nexplicit_max_ttl = "4h"\nsecret = "s"\n')
        inventory = inventory_of(text)
        (entry,) = inventory.entries
        self.assertEqual((inventory.system_max, inventory.margin, entry.period, entry.increment, entry.max_ttl,
                          entry.explicit_max_ttl), (864000, 20, 3600, 7200, 10800, 14400))

    def test_numbers_are_read_as_before(self) -> None:
        text = SHORT.replace('"1m"', "60").replace('"30d"', "2592000").replace('"90m"', "5400").replace('"1d"', "86400")
        self.assertEqual(inventory_of(text), inventory_of(SHORT))

    def test_a_margin_that_is_not_written(self) -> None:
        """It is read as the commands that plan read it, and noted."""
        reading = read_inventory(SHORT.replace('margin = "1m"\n', "").encode())
        self.assertEqual((reading.margin, reading.has_margin), (1, False))
        self.assertTrue(read_inventory(SHORT.encode()).has_margin)

    def test_issue_and_end_are_both_written_or_neither(self) -> None:
        for written, missing in (("issued = 1000", "end"), ("end = 2000", "issued"), ('end = "x"', "issued")):
            faults = read_inventory(SHORT.replace('max_ttl = "30d"', written).encode()).faults
            self.assertEqual([fault.key for fault in faults if fault.problem == "is missing"], [missing])
            self.assertEqual({fault.line for fault in faults}, {2, 4} if '"x"' in written else {2})
        self.assertEqual(inventory_of(SHORT.replace('max_ttl = "30d"', "issued = 1000\nend = 2000")).entries[0].end, 2000)

    def test_what_a_lookup_tells_may_be_left_open(self) -> None:
        text = SHORT.replace("[[token]]", "[[token]]\nissued = 1\nend = 2").replace('secret = "', 'secret_file = "')
        app, db = inventory_of(text).entries
        self.assertEqual((app.lacks_terms, db.lacks_terms), (False, True))

    def test_what_is_written_is_read_again(self) -> None:
        self.assertEqual(inventory_of(inventory_text(inventory_of(SHORT))), inventory_of(SHORT))

    def test_a_settled_file_has_the_words_and_means_the_same(self) -> None:
        inventory = inventory_of(SHORT)
        self.assertEqual(inventory_text(inventory, is_served=True), PLAIN)
        self.assertEqual(inventory_of(PLAIN), inventory)


class Faults(unittest.TestCase):
    def test_slips(self) -> None:
        for written, slip, expected in (
            ('"90m"', '"90 min"', 'f:11: fault: db increment: is not a whole number of seconds, 0 to 4294967295, or a text such as'
             ' "90m", "1h", "30d"; did you mean "1h30m"?'),
            ('"90m"', '"1.5h"', 'did you mean "1h30m"?'), ('"30d"', '"1 month"', "write a number and its unit, one of d, h, m, s"),
            ('"30d"', '"30 days"', 'f:4: fault: app max_ttl: '), ('"1m"', '"2h"', "that is 7200 s: write 3600 or less"),
            ('"1m"', '"0s"', "that is 0 s: write 1 or more"), ('"1m"', '"60"', "write it without quotes"),
            ('"1m"', '"50 secs"', 'did you mean "50s"?'), ("always", "forever", 'did you mean "always"?'),
            ("always", "Always", 'did you mean "always"?'), ("always", "allways", 'did you mean "always"?'),
            ("always", "30d", 'a need is a moment: write a date or "always"'),
            ("always", "2026-13-01T00:00:00Z", "months are 01 to 12"),
            ('increment = "90m"', 'incremnt = "90m"', "incremnt: is not a key of this table; the keys are name, "), ('"90m"', '"60s"', "is not greater than the margin of 60 s"),
        ):
            with self.subTest(slip):
                found = faults_of(SHORT.replace(written, slip))
                self.assertEqual(len(found), 1, found)
                self.assertIn(expected, found[0])


class Words(unittest.TestCase):
    def test_the_word_is_one_number(self) -> None:
        self.assertEqual(ALWAYS, 253402300799)


if __name__ == "__main__":
    unittest.main()
