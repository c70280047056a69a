"""TOML 1.1 as TOML 1.0: the same values, and what was no document stays none."""

from __future__ import annotations

import random
import time
import tomllib
import unittest
from typing import Any

from leasekeep_inventory.inventory_file import read_inventory
from leasekeep_inventory.toml_1_0 import older
from trial.programs import SLOWER

GOOD: tuple[tuple[str, dict[str, Any]], ...] = (
    (r'a = "\x41\e\xff"', {"a": "A\x1b\xff"}), (r'a = "\\x41 \\e"', {"a": r"\x41 \e"}), (r"a = '\x41'", {"a": r"\x41"}),
    ('a = """\\x41\n\\e""""', {"a": 'A\n\x1b"'}), ("a = '''\\e'''", {"a": "\\e"}), ("a = {\n}", {"a": {}}), ("a = {}", {"a": {}}),
    ("a = {b = 1,}", {"a": {"b": 1}}), ("a = {\nb = 1, # one\n\n# two\nc = [\n2,\n],\n}\nd = 3", {"a": {"b": 1, "c": [2]}, "d": 3}),
    ("a = {b = {c = 1,\n},\n d = '}',}", {"a": {"b": {"c": 1}, "d": "}"}}), ("a = {b = 1\n, c = 2\n}", {"a": {"b": 1, "c": 2}}),
    ('a = {b = "#",\n}', {"a": {"b": "#"}}), ("a = [{b = 1,\n}, {\n}]\n[[c]]\nd = {e = 1}", {"a": [{"b": 1}, {}], "c": [{"d": {"e": 1}}]}),
    ('a = {b = """\n}\n""",}', {"a": {"b": "}\n"}}), ("# {\na = 1\n# \\x", {"a": 1}),
)
BAD = (r'a = "\x4"', r'a = "\xg0"', r'a = "\E"', "a = {,}", "a = {b = 1,,}", "a = {\n,}", "a = {b =\n1}", "a = {b\n= 1}", "a = {b = 1\nc = 2}",
       "a = {b = 1,", "a = {b = #\n1}", "a = {b\n.c = 1}", "a = [,]", 'a = {b = "\n"}', "a\n= {}", "a = {b = 1, b = 2,}", "a = {b = 1 # }")


class Older(unittest.TestCase):
    def test_the_same_values(self) -> None:
        for text, value in GOOD:
            self.assertEqual(tomllib.loads(older(text).text), value, text)
            self.assertEqual(tomllib.loads(older(text.replace("\n", "\r\n")).text), value, text)

    def test_what_is_no_document_stays_none(self) -> None:
        for text in BAD:
            with self.assertRaises(tomllib.TOMLDecodeError, msg=text):
                tomllib.loads(older(text).text)

    def test_what_tomllib_reads_means_the_same(self) -> None:
        """Of random texts, and of those that are documents already."""
        chance, read = random.Random(5), 0
        pieces = ("a", "b", "=", "1", '"', "'", '"""', "'''", "{", "}", "[", "]", ",", "\n", " ", "#", "\\", "e", "x41", "\r\n", ".", "[[c]]\n", "a = 1\n",
                  'b = "{"\n', "b = {a = 1}\n", "c = [\n1,\n]\n")
        for _ in range(20_000):
            text = "".join(chance.choice(pieces) for _ in range(chance.randrange(9)))
            try:
                value = tomllib.loads(text)
            except tomllib.TOMLDecodeError:
                older(text)
                continue
            self.assertEqual(tomllib.loads(older(text).text), value, text)
            read += 1
        self.assertGreater(read, 500)

    def test_lines_are_those_of_the_file(self) -> None:
        text = 'margin = 20\ntoken = [{\nname = "a",\n},\n]\nlease = [\n]\nx = = 1\n'
        (fault,) = read_inventory(text.encode()).faults
        self.assertEqual(fault.line, 8)
        (fault,) = read_inventory(b'token = [{\nname = "a",\nend =\n1}]\n').faults
        self.assertEqual(fault.line, 3)

    def test_an_inventory(self) -> None:
        text = b'token = [{\n  name = "\\x61pp", # the first\n  issued = 1000, end = 2000,\n  increment = 100,\n}]\n'
        inventory = read_inventory(text).inventory
        assert inventory is not None
        self.assertEqual([(entry.name, entry.end, entry.increment) for entry in inventory.entries], [("app", 2000, 100)])

    def test_it_takes_no_long_time(self) -> None:
        for piece in ('a = {b = 1,\n}\n', "{,", '"', '"""', "'''", '{"\\e', "{#\n", "{\n\n"):
            text, began = piece * (200_000 // len(piece)), time.process_time()
            older("{" + text)
            self.assertLess(time.process_time() - began, 4.0 * SLOWER, piece)


if __name__ == "__main__":
    unittest.main()
