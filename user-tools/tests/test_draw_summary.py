"""A drawing of many entries: their numbers and those that need a look, unless all are asked for."""

from __future__ import annotations

import io
import tempfile
import unittest
import xml.etree.ElementTree as tree
from contextlib import redirect_stdout
from pathlib import Path

from leasekeep_draw import command, entries, history, picture, table, terminal
from leasekeep_draw.chart import LOOKS, Chart, chart_of

SPACED = "{http://www.w3.org/2000/svg}"
COUNT = 4096


def estate(count: int) -> str:
    """Tokens that end one after the other, needed until 5000; the last three end before that."""
    return "".join(
        f'[[token]]\nname = "t{place}"\nissued = 1000\nend = {6000 + place if place < count - 3 else 2000 + count - place}\n'
        f"increment = 100\nneed = {5000 if place < count - 3 else 2500}\n" for place in range(count))


def chart(count: int, *lines: str) -> Chart:
    inventory = entries.read(estate(count))
    places = {entry.name: place for place, entry in enumerate(inventory.entries)}
    return chart_of(inventory, history.read([*(f"{line}\n" for line in lines), "next none\n"], places, 1000), 1000)


LINES = ("wake 1010 t7 t9 t5", "refused t7 403", "lost t9", "lost t5", "wake 1020 t9", "lost t9")


class Summary(unittest.TestCase):
    def test_those_that_need_a_look(self) -> None:
        """First those that are not kept, then those of which most went wrong, then those that end first."""
        drawn = chart(COUNT, *LINES).arranged(False)
        names = [lane.entry.name for lane in drawn.lanes]
        self.assertEqual(len(names), LOOKS)
        self.assertEqual(names[:6], ["t4095", "t4094", "t4093", "t9", "t5", "t7"])
        self.assertEqual(names[6:10], ["t0", "t1", "t2", "t3"])
        self.assertEqual(drawn.summary, "3 not kept, 4,093 kept, 1 refused, 2 without an answer; the 40 that need a look (--all: every entry)")
        self.assertEqual(drawn.title, "4,096 entries, 2 wake-ups, 4 requests: 3 needs not kept")
        self.assertEqual(len(drawn.wakes), 2)

    def test_it_fits_a_screen(self) -> None:
        drawn = chart(COUNT, *LINES).arranged(False)
        shown = tree.fromstring(picture.svg(drawn))
        self.assertLess(int(shown.get("height") or 0), 1500)
        self.assertEqual([text.text for text in shown.iter(f"{SPACED}text") if text.get("class") == "heading"], [drawn.summary])
        lines = terminal.text(drawn, 80, terminal.ASCII).splitlines()
        self.assertLess(len(lines), 60)
        self.assertIn(drawn.summary, " ".join(lines))
        self.assertTrue(all(len(line) <= 80 for line in lines))
        rows = table.text(drawn).splitlines()
        self.assertEqual((rows[:2], len(rows)), ([drawn.title, drawn.summary], 4 + LOOKS))

    def test_few_are_all_drawn(self) -> None:
        drawn = chart(499).arranged(False)
        self.assertEqual((len(drawn.lanes), drawn.summary), (499, ""))
        self.assertEqual(len(chart(500).arranged(False).lanes), LOOKS)

    def test_all_of_them(self) -> None:
        with tempfile.TemporaryDirectory() as folder:
            inventory, lines = Path(folder) / "inventory.toml", Path(folder) / "lines"
            inventory.write_text(estate(600))
            lines.write_text("\n".join([*LINES, "next none", ""]))

            def drawn(*words: str) -> int:
                told = io.StringIO()
                with redirect_stdout(told):
                    self.assertEqual(command.main([str(inventory), str(lines), "--start", "1000", "--table", *words]), 0)
                return len(told.getvalue().splitlines()) - told.getvalue().count("need a look") - 3
            self.assertEqual((drawn(), drawn("--all"), drawn("--only-unkept")), (LOOKS, 600, 3))


if __name__ == "__main__":
    unittest.main()
