"""leasekeep-draw: what is read, what the lanes say, and that each shape of the output shows it."""

from __future__ import annotations

import re
import subprocess
import sys
import tempfile
import unittest
import xml.etree.ElementTree as tree
from dataclasses import replace
from pathlib import Path

SERVICE = Path(__file__).resolve().parent.parent
sys.path.insert(0, str(SERVICE))

from leasekeep_draw import entries, history, picture, table, terminal  # noqa: E402
from leasekeep_draw.axis import Axis  # noqa: E402
from leasekeep_draw.chart import Chart, chart_of, start_of  # noqa: E402
from leasekeep_draw.history import Sign  # noqa: E402
from trial.programs import SLOWER  # noqa: E402

SPACED = "{http://www.w3.org/2000/svg}"
FAMILY = """
[[token]]
name = "T"
issued = 1000
end = 1100
increment = 100
max_ttl = 250
need = 1200

[[token]]
name = "U"
issued = 1000
end = 1060
period = 60
explicit_max_ttl = 500

[[lease]]
name = "L"
token = "T"
issued = 1000
end = 1060
increment = 60
need = 1200
"""

LINES = """entry T 1100
entry U 1060
entry L 1060
wake 1059 T L
told T 100
lost L
next 1059
wake 1059 L
refused L 403
short L 1060
next none
"""


def family(lines: str = LINES) -> Chart:
    inventory = entries.read(FAMILY)
    indices = {entry.name: index for index, entry in enumerate(inventory.entries)}
    return chart_of(inventory, history.read(lines.splitlines(keepends=True), indices, 1000), 1000)


class Reading(unittest.TestCase):
    def test_ceilings(self) -> None:
        read = entries.read(FAMILY + "max_ttl = 0\n").entries
        self.assertEqual([entry.ceiling for entry in read], [1250, 1500, 1000 + 2_764_800])

    def test_a_periodic_token_without_explicit_maximum_has_no_ceiling(self) -> None:
        text = FAMILY.replace("explicit_max_ttl = 500", "explicit_max_ttl = 0")
        self.assertIsNone(entries.read(text).entries[1].ceiling)

    def test_dates(self) -> None:
        inventory = entries.read('[[token]]\nname = "a"\nissued = "1970-01-01T00:16:40Z"\nend = "1970-01-01T02:17:40.9+02:00"\nincrement = 60\n')
        self.assertTrue(inventory.is_dated)
        self.assertEqual((inventory.entries[0].issued, inventory.entries[0].end), (1000, 1060))

    def test_faults(self) -> None:
        for text, expected in (("[[token", "f.toml:1: fault: "), ("[[token]]\nname = 'a'\nend = 1\n", "f.toml:1: fault: a issued: is missing"),
                               ("token = 5\n", "f.toml:1: fault: token: is not an array"), ("margin = '1 m'\n", 'did you mean "1m"'),
                               (FAMILY.replace('token = "T"', 'token = "X"'), "f.toml:19: fault: L token: names no token")):
            with self.subTest(text=text), self.assertRaisesRegex(entries.InventoryFault, expected):
                entries.read(text, "f.toml")

    def test_lines_that_nobody_prints(self) -> None:
        for line in ("wake", "told nobody 5", "told T x", "wake 5 nobody", "", "entry T"):
            with self.subTest(line=line), self.assertRaises(history.LineFault) as caught:
                family("wake 1059 T\n" + line + "\n")
            self.assertEqual(caught.exception.number, 2)


OPEN = """margin = "20s"

[[token]]
name = "app"
secret_file = "app.token"
max_ttl = "30d"
need = "always"

[[token]]
name = "pay"
issued = 1000
end = 1060
period = "1m"
explicit_max_ttl = "1h"
need = "always"

[[lease]]
name = "db"
token = "app"
increment = "1h30m"
need = 90000
"""
"""As people have it: durations with units, files, needs without an end, and tables without what a lookup tells."""


class Open(unittest.TestCase):
    def drawn(self, lines: str, text: str = OPEN) -> Chart:
        inventory = entries.read(text)
        indices = {entry.name: index for index, entry in enumerate(inventory.entries)}
        return chart_of(inventory, history.read(lines.splitlines(keepends=True), indices, 1000), 1000)

    def test_what_is_read(self) -> None:
        app, pay, db = entries.read(OPEN).entries
        self.assertEqual((app.issued, app.end, app.need, app.ceiling, app.reach), (None, None, None, None, None))
        self.assertEqual((pay.issued, pay.end, pay.need, pay.ceiling, pay.reach), (1000, 1060, None, 4600, 4600))
        self.assertEqual((db.parent, db.end, db.need), (0, None, 90_000))
        self.assertFalse(entries.read(OPEN).is_dated)
        self.assertTrue(entries.read(OPEN.replace("90000", '"1970-01-02T00:00:00Z"')).is_dated)

    def test_an_always_is_as_far_as_any_renewal_leads(self) -> None:
        """The least ceiling above it, or the end of what cannot be renewed; and a year where there is none."""
        told = OPEN.replace('max_ttl = "30d"', "issued = 1000\nend = 2000\nmax_ttl = 9000")
        for text, reaches in ((told, (10_000, 4600)), (told.replace("issued = 1000\nend = 2000", "issued = 1000\nend = 2000\nrenewable = false"),
                                                      (2000, 4600)),
                              (told.replace('name = "pay"', 'name = "pay"\nparent = "app"').replace('explicit_max_ttl = "1h"', ""), (10_000, 10_000)),
                              (told.replace('explicit_max_ttl = "1h"', ""), (10_000, None))):
            self.assertEqual(tuple(entry.reach for entry in entries.read(text).entries[:2]), reaches)
        lanes = {lane.entry.name: lane.need for lane in self.drawn("").lanes}
        self.assertEqual(lanes, {"app": 1000 + 365 * 86_400, "db": 90_000, "pay": 4600})

    def test_ends_that_no_line_tells(self) -> None:
        chart = self.drawn("wake 1040 pay\ntold pay 60\nnext 1080\n")
        self.assertEqual([(row[0], row[2], row[3], row[4], row[-1]) for row in table.rows(chart)], [
            ("app", "-", "always", "-", "so far"), ("db", "-", "90000", "-", "so far"), ("pay", "1100", "always", "4600", "so far")])
        self.assertEqual(chart.title, "3 entries, 1 wake-up, 1 request so far: every need is kept")
        root = tree.fromstring(picture.svg(chart))
        lives = [len([one for one in group if one.get("class") == "life"]) for group in root.iter(f"{SPACED}g")
                 if group.find(f"{SPACED}title") is not None]
        self.assertEqual(lives, [0, 0, 1])
        self.assertIn("app: no end is told, needed always", "".join(root.itertext()))
        for signs in (terminal.UNICODE, terminal.ASCII):
            rows = [line for line in terminal.text(chart, 60, signs).splitlines() if line.startswith(("app", "pay"))]
            self.assertEqual([signs.token * 2 in row for row in rows], [False, True])

    def test_ends_that_a_line_tells(self) -> None:
        chart = self.drawn("entry app 3000\nentry db 5000\nwake 1040 pay\nnext none\n")
        self.assertEqual([(lane.entry.name, lane.begin, lane.end) for lane in chart.lanes], [("app", 1000, 3000), ("db", 1000, 3000), ("pay", 1000, 1060)])
        self.assertEqual(chart.stop, 90_000)  # (Not a year: nothing is known of how far it can be kept.)
        self.assertEqual([row[-1] for row in table.rows(chart)], ["no", "no", "no"])

    def test_a_need_that_is_always_is_kept_at_its_ceiling(self) -> None:
        lines = "wake 1040 pay\ntold pay 3560\nshort pay 4600\nnext none\n"
        only = "margin = 20\n" + OPEN[OPEN.index("[[token]]\nname = \"pay\""):OPEN.index("[[lease]]")]
        chart = self.drawn(lines, only)
        self.assertEqual([row[-1] for row in table.rows(chart)], ["yes"])
        self.assertEqual((chart.stop, chart.title), (4600, "1 entry, 1 wake-up, 1 request: every need is kept"))

    def test_a_start_where_the_inventory_has_no_moment(self) -> None:
        with tempfile.TemporaryDirectory() as folder:
            file, lines = Path(folder) / "f.toml", Path(folder) / "lines"
            file.write_text('[[token]]\nname = "app"\nsecret = "s"\nneed = "always"\n')
            lines.write_text("wake 5000 app\ntold app 60\nnext 5059\n")
            ran = subprocess.run([sys.executable, str(SERVICE / "leasekeep-draw"), str(file), str(lines), "--ascii", "--width", "60"],
                                 capture_output=True, text=True, timeout=60 * SLOWER)
            self.assertEqual((ran.returncode, ran.stderr), (0, ""))
            self.assertEqual(ran.stdout.splitlines()[1].split()[0], "5000")

    def test_a_document_of_toml_1_1(self) -> None:
        inventory = entries.read('token = [{\n name = "\\x61", # a\n issued = "1970-01-01T00:16:40Z", end = 2000,\n}]\n')
        self.assertEqual(([entry.name for entry in inventory.entries], inventory.is_dated), (["a"], True))

    def test_the_margin_that_is_not_written_is_that_of_the_plan(self) -> None:
        """An increment of 2 is read without one, though `serve` would not take it."""
        self.assertEqual(len(entries.read('[[token]]\nname = "a"\nissued = 1\nend = 9\nincrement = 2\n').entries), 1)


class Lanes(unittest.TestCase):
    def test_order_depth_and_ends(self) -> None:
        lanes = [(lane.entry.name, lane.depth, lane.end, lane.falls_short) for lane in family().lanes]
        self.assertEqual(lanes, [("T", 0, 1159, True), ("L", 1, 1060, True), ("U", 0, 1060, False)])

    def test_a_child_ends_with_its_parent(self) -> None:
        self.assertEqual(family("wake 1059 L\ntold L 600\n").lanes[1].end, 1100)

    def test_marks(self) -> None:
        marks = [(mark.moment, mark.sign) for mark in family().lanes[1].marks]
        self.assertEqual(marks, [(1059, Sign.LOST), (1059, Sign.REFUSED), (1059, Sign.SHORT)])

    def test_title_counts(self) -> None:
        self.assertEqual(family().title, "3 entries, 2 wake-ups, 3 requests: 2 needs not kept")

    def test_a_run_that_goes_on(self) -> None:
        chart = family("wake 1059 L\ntold L 60\nnext 1118\n")
        self.assertEqual(chart.title, "3 entries, 1 wake-up, 1 request so far: every need is kept")
        self.assertEqual([row[-1] for row in table.rows(chart)], ["so far", "so far", "yes"])
        self.assertEqual(chart.stop, 1100)

    def test_an_entry_that_ended_in_a_run_that_goes_on(self) -> None:
        chart = family("wake 1059 L\nrefused L 403\nshort L 1060\nnext 1099\nwake 1099 T\ntold T 100\nnext 1198\n")
        self.assertEqual(chart.title, "3 entries, 2 wake-ups, 2 requests so far: 1 need not kept")
        self.assertEqual([row[-1] for row in table.rows(chart)], ["so far", "no", "yes"])

    def test_a_later_lookup_counts(self) -> None:
        self.assertEqual(family("wake 1059 L\ntold L 600\nentry T 1090\nentry L 1080\n").lanes[1].end, 1080)

    def test_a_log(self) -> None:
        log = (
            "1970-01-01T00:16:49Z begin start\n1970-01-01T00:16:49Z look T L\n1970-01-01T00:16:49Z entry T 1100\n"
            "1970-01-01T00:16:50Z renew L\n1970-01-01T00:16:50Z told L 60\n"
            "1970-01-01T00:18:19Z wake 1099 T U\n1970-01-01T00:18:19Z renew T U\n1970-01-01T00:18:19Z told T 100\n"
            "1970-01-01T00:18:21Z warning: lost U\n"
            "1970-01-01T00:18:30Z note: short L 1071\n1970-01-01T00:18:30Z drop nobody\n"
        )
        chart = family(log)
        self.assertEqual([(lane.entry.name, lane.end) for lane in chart.lanes], [("T", 1199), ("L", 1070), ("U", 1060)])
        marks = [(mark.moment, mark.sign) for lane in chart.lanes for mark in lane.marks]
        self.assertEqual(marks, [(1099, Sign.RENEWED), (1010, Sign.RENEWED), (1110, Sign.SHORT), (1099, Sign.LOST)])
        self.assertEqual((chart.requests, chart.is_over, chart.stop), (3, False, 1199))

    def test_answers_of_a_log_that_come_while_other_requests_are_out(self) -> None:
        """Each is told of its own request; a lookup that fails, of the moment of the answer."""
        log = (
            "1970-01-01T00:17:39Z wake 1059 T L\n1970-01-01T00:17:39Z renew T L\n1970-01-01T00:17:41Z told L 60\n"
            "1970-01-01T00:17:42Z renew U\n1970-01-01T00:17:43Z told T 100\n1970-01-01T00:17:44Z warning: lost U timeout\n"
            "1970-01-01T00:17:44Z warning: away timeout\n1970-01-01T00:17:46Z look U\n1970-01-01T00:17:47Z note: lost U 503\n"
            "1970-01-01T00:17:48Z look U\n1970-01-01T00:17:48Z note: lost U connect ./vault.sock: no such file\n"
            "1970-01-01T00:17:49Z renew U\n1970-01-01T00:17:50Z warning: refused U 400\n"
        )
        chart = family(log)
        self.assertEqual([(lane.entry.name, lane.end) for lane in chart.lanes], [("T", 1159), ("L", 1119), ("U", 1060)])
        self.assertEqual([[(mark.moment, mark.sign) for mark in lane.marks] for lane in chart.lanes], [
            [(1059, Sign.RENEWED)], [(1059, Sign.RENEWED)], [(1062, Sign.LOST), (1067, Sign.LOST), (1068, Sign.LOST), (1069, Sign.REFUSED)]])
        self.assertEqual(chart.requests, 4)

    def test_a_reason_is_a_logs_alone(self) -> None:
        with self.assertRaises(history.LineFault):
            family("wake 1059 L\nlost L timeout\n")

    def test_the_moments_of_a_log_are_dates(self) -> None:
        """(They were seconds once.)"""
        log = ("1970-01-01T00:16:49Z entry T {}\n1970-01-01T00:17:30Z wake {} T\n1970-01-01T00:17:30Z renew T\n"
               "1970-01-01T00:17:31Z told T 100\n1970-01-01T00:17:40Z warning: short L {}\n")
        dated = family(log.format("1970-01-01T00:18:20Z", "1970-01-01T00:17:30Z", "1970-01-01T00:17:51Z"))
        self.assertEqual(dated, family(log.format(1100, 1050, 1071)))
        self.assertEqual((dated.wakes, [mark.number for lane in dated.lanes for mark in lane.marks]), ((1050,), [1150, 1071]))

    def test_what_says_that_a_run_is_over(self) -> None:
        for line in ("next none", "idle", "done 1 1"):
            self.assertTrue(family(f"{line}\n").is_over)
            self.assertFalse(family(f"{line}\nplanned\n").is_over)

    def test_a_start_near_the_run(self) -> None:
        self.assertEqual(start_of(entries.read(FAMILY)), 1000)
        self.assertEqual(start_of(entries.read("")), 0)


class Pictures(unittest.TestCase):
    def test_the_picture_is_well_formed_and_has_each_sign(self) -> None:
        root = tree.fromstring(picture.svg(family()))
        spaced = "{http://www.w3.org/2000/svg}"
        lanes = [group for group in root.iter(f"{spaced}g") if group.find(f"{spaced}title") is not None]
        self.assertEqual([group.get("class") for group in lanes], ["token", "lease", "token"])
        lease = lanes[1]
        self.assertEqual(len(lease.findall(f"{spaced}circle")), 1)
        self.assertEqual(len([path for path in lease.findall(f"{spaced}path") if path.get("class") == "bad"]), 3)
        self.assertIn("lives until  need", root.findtext(f"{spaced}desc") or "")

    def test_names_are_escaped(self) -> None:
        # (no inventory has such a name)
        read = entries.read(FAMILY)
        inventory = replace(read, entries=tuple(replace(entry, name=entry.name.replace("U", "<U&>")) for entry in read.entries))
        root = tree.fromstring(picture.svg(chart_of(inventory, history.History(), 1000)))
        self.assertIn("<U&>", "".join(root.itertext()))

    def test_marks_on_one_place_are_drawn_once(self) -> None:
        lines = "".join(f"wake {1000 + n // 50} U\ntold U 60\n" for n in range(50_000))
        self.assertLess(len(picture.svg(family(lines))), 200_000)

    def test_table(self) -> None:
        self.assertEqual(
            list(table.rows(family())),
            [
                ("T", "-", "1159", "1200", "1250", "1", "0", "0", "0", "no"),
                ("L", "T", "1060", "1200", "2765800", "0", "1", "1", "1", "no"),
                ("U", "-", "1060", "-", "1500", "0", "0", "0", "0", "yes"),
            ],
        )

    def test_the_terminal_keeps_its_width(self) -> None:
        for width in (40, 80, 200):
            for signs in (terminal.UNICODE, terminal.ASCII):
                with self.subTest(width=width):
                    lines = terminal.text(family(), width, signs).splitlines()
                    self.assertLessEqual(max(map(len, lines)), width)
                    lease = next(line for line in lines if line.startswith("  L"))
                    self.assertIn(signs.refused + signs.short, lease)

    def test_a_need_stands_over_renewals_and_under_what_went_wrong(self) -> None:
        renewed = terminal.text(family("wake 1198 T\ntold T 60\nwake 1200 T\ntold T 60\n"), 40, terminal.ASCII)
        self.assertIn("F", next(line for line in renewed.splitlines() if line.startswith("T ")))
        lost = terminal.text(family("wake 1200 T\nlost T\n"), 40, terminal.ASCII)
        self.assertNotIn("F", next(line for line in lost.splitlines() if line.startswith("T ")))

    def test_axis(self) -> None:
        axis = Axis(1000, 1200, 100.0, False)
        self.assertEqual([axis.place(moment) for moment in (900, 1000, 1100, 1200, 5000)], [0, 0, 50, 100, 100])
        self.assertEqual([moment for moment, _ in axis.ticks(5)], [1000, 1050, 1100, 1150, 1200])
        dated = Axis(0, 7200, 100.0, True)
        self.assertEqual([words for _, words in dated.ticks(3)], ["01-01 00:00", "01-01 01:00", "01-01 02:00"])


def many(count: int, short: int = 3) -> Chart:
    """So many pairs of a token and a lease; the leases of the last `short` pairs fall short."""
    text = "".join(
        f'[[token]]\nname = "t{n}"\nissued = 1000\nend = 2000\nincrement = 100\nneed = 1500\n' for n in range(count)
    ) + "".join(
        f'[[lease]]\nname = "l{n}"\ntoken = "t{n}"\nissued = 1000\nend = {1200 if n >= count - short else 1900}\nincrement = 100\n'
        "need = 1500\n" for n in range(count)
    )
    inventory = entries.read(text)
    return chart_of(inventory, history.read(["done 0 0\n"], {}, 1000), 1000)


class ManyEntries(unittest.TestCase):
    def test_from_500_on_those_that_are_not_kept_come_first(self) -> None:
        self.assertEqual(many(249).arranged(False).lanes, many(249).lanes)
        chart = many(250).arranged(False, has_all=True)
        self.assertEqual([lane.entry.name for lane in chart.lanes[:5]], ["l247", "l248", "l249", "t0", "l0"])
        self.assertEqual((len(chart.lanes), chart.first), (500, 3))
        self.assertEqual(chart.title, "500 entries, 0 wake-ups, 0 requests: 3 needs not kept")

    def test_where_all_are_kept_they_stay_as_they_are(self) -> None:
        self.assertEqual(many(250, 0).arranged(False, has_all=True).lanes, many(250, 0).lanes)

    def test_only_those_that_are_not_kept(self) -> None:
        chart = many(4).arranged(True)
        self.assertEqual([row[:2] for row in table.rows(chart)], [("l1", "t1"), ("l2", "t2"), ("l3", "t3")])
        self.assertEqual(chart.title, "8 entries, 0 wake-ups, 0 requests: 3 needs not kept")
        self.assertEqual(many(4, 0).arranged(True).lanes, ())

    def test_each_shape_says_where_they_end(self) -> None:
        chart = many(250).arranged(False, has_all=True)
        words = [text.text for text in tree.fromstring(picture.svg(chart)).iter(f"{SPACED}text") if text.get("class") == "heading"]
        self.assertEqual(words, ["not kept: 3", "the others: 497"])
        lines = terminal.text(chart, 60, terminal.ASCII).splitlines()
        self.assertEqual(lines[2], "not kept: 3")
        self.assertEqual(lines[6], "the others: 497")
        self.assertIsNone(many(4).arranged(False).heading(0))


class Shapes(unittest.TestCase):
    def of_class(self, chart: Chart, kind: str, word: str) -> list[tree.Element]:
        """The drawn things of that class in the lanes of that kind (the first of which is the legend's)."""
        groups = [group for group in tree.fromstring(picture.svg(chart)).iter(f"{SPACED}g") if group.get("class") == kind]
        return [one for group in groups if group.find(f"{SPACED}title") is not None for one in group if one.get("class") == word]

    def test_tokens_and_leases_differ_by_form(self) -> None:
        chart = family("wake 1059 T L\ntold T 100\ntold L 60\nnext none\n")
        for word in ("life", "told"):
            self.assertEqual({one.tag for one in self.of_class(chart, "token", word)}, {f"{SPACED}rect"})
            self.assertEqual({one.tag for one in self.of_class(chart, "lease", word)}, {f"{SPACED}path"})
        for signs in (terminal.UNICODE, terminal.ASCII):
            lines = terminal.text(chart, 60, signs).splitlines()
            self.assertIn(signs.token * 3, lines[2])
            self.assertIn(signs.lease * 3, lines[3])
            self.assertNotEqual(signs.token, signs.lease)

    def test_wake_ups_fade_by_their_number(self) -> None:
        def opacity(count: int) -> float:
            chart = family("".join(f"wake {1001 + 2 * n}\n" for n in range(count)) + "next none\n")
            path = next(one for one in tree.fromstring(picture.svg(chart)).iter(f"{SPACED}path") if one.get("stroke-opacity"))
            return float(path.get("stroke-opacity") or 0)
        few, some, hundreds = opacity(5), opacity(60), opacity(800)
        self.assertGreater(few, some)
        self.assertGreater(some, hundreds)
        self.assertGreaterEqual(hundreds, 0.1)

    def test_the_margin_is_drawn_after_each_wake_up(self) -> None:
        def band(margin: int) -> str | None:
            inventory = entries.read(f"margin = {margin}\n{FAMILY}")
            indices = {entry.name: index for index, entry in enumerate(inventory.entries)}
            chart = chart_of(inventory, history.read(["wake 1040 L\n", "wake 1100 L\n", "next none\n"], indices, 1000), 1000)
            paths = [one for one in tree.fromstring(picture.svg(chart)).iter(f"{SPACED}path") if one.get("class") == "margin"]
            return paths[0].get("d") if paths else None
        narrow, wide = band(10), band(20)
        assert narrow is not None and wide is not None
        self.assertEqual((narrow.count("M"), wide.count("M")), (2, 2))
        widths = [float(text.partition("h")[2].partition("V")[0]) for text in (narrow, wide)]
        self.assertAlmostEqual(widths[1], 2 * widths[0], delta=0.2)

    def test_a_margin_that_could_not_be_told_from_the_line_is_not_drawn(self) -> None:
        chart = family("".join(f"wake {1001 + n}\n" for n in range(400)) + "next none\n")
        self.assertNotIn('class="margin"', picture.svg(chart))

    def test_dense_marks_say_how_many_they_stand_for(self) -> None:
        chart = family("".join(f"wake {1000 + n // 50} U\ntold U 60\n" for n in range(5000)) + "next none\n")
        counts = [one.text or "" for one in self.of_class(chart, "token", "count")]
        self.assertEqual(sum(int(text[1:].replace(",", "")) for text in counts), 5000)
        lost = family("".join(f"wake {1000 + n // 50} U\nlost U\n" for n in range(120)) + "next none\n")
        self.assertIn("×120", [one.text for one in self.of_class(lost, "token", "count")])

    def test_marks_apart_from_each_other_have_no_number(self) -> None:
        self.assertEqual(self.of_class(family("wake 1050 T\ntold T 100\nwake 1140 T\ntold T 100\nnext none\n"), "token", "count"), [])

    def test_in_a_terminal_too(self) -> None:
        for count, shown in ((1, "o"), (2, "2"), (9, "9"), (10, "+"), (500, "+")):
            chart = family("".join("wake 1100 U\ntold U 60\n" for _ in range(count)) + "next none\n")
            line = next(line for line in terminal.text(chart, 60, terminal.ASCII).splitlines() if line.startswith("U "))
            self.assertEqual(line.count(shown), 1, line)
        chart = family("".join("wake 1100 U\nlost U\n" for _ in range(7)) + "next none\n")
        lines = terminal.text(chart, 60, terminal.ASCII).splitlines()
        self.assertTrue(any(line.startswith("U ") and line.endswith(" ?7") for line in lines), lines)
        self.assertLessEqual(max(map(len, lines)), 60)

    def test_a_dark_page_gets_a_dark_picture(self) -> None:
        drawn = picture.svg(family())
        style = drawn.partition("<style>")[2].partition("</style>")[0]
        light, _, rest = style.partition("@media (prefers-color-scheme: dark) {")
        dark = rest.partition("}\n}")[0]
        names = re.findall(r"(--[a-z-]+): (#[0-9a-f]{6})", light)
        self.assertEqual([name for name, _ in names], re.findall(r"(--[a-z-]+): #[0-9a-f]{6}", dark))
        self.assertEqual(re.findall(r"#[0-9a-f]{6}", drawn.replace(style, "")), [])
        for colours, is_dark in ((dict(names), False), (dict(re.findall(r"(--[a-z-]+): (#[0-9a-f]{6})", dark)), True)):
            self.assertEqual(brightness(colours["--page"]) < brightness(colours["--ink"]), is_dark)
            for name in ("--ink", "--faint", "--bad", "--token-mark", "--lease-mark"):
                self.assertGreater(contrast(colours["--page"], colours[name]), 4.5, (is_dark, name))


def brightness(colour: str) -> float:
    """Relative luminance, as WCAG 2 defines it."""
    parts = [int(colour[at:at + 2], 16) / 255 for at in (1, 3, 5)]
    red, green, blue = (part / 12.92 if part <= 0.03928 else float(((part + 0.055) / 1.055) ** 2.4) for part in parts)
    return 0.2126 * red + 0.7152 * green + 0.0722 * blue


def contrast(one: str, other: str) -> float:
    """The contrast ratio, as WCAG 2 defines it."""
    dark, light = sorted((brightness(one), brightness(other)))
    return (light + 0.05) / (dark + 0.05)


class Command(unittest.TestCase):
    def run_it(self, *words: str, given: str = LINES) -> subprocess.CompletedProcess[str]:
        with tempfile.NamedTemporaryFile("w", suffix=".toml") as file:
            file.write(FAMILY)
            file.flush()
            return subprocess.run(
                [sys.executable, str(SERVICE / "leasekeep-draw"), file.name, *words],
                input=given, capture_output=True, text=True, timeout=30 * SLOWER, check=False,
            )

    def test_exits(self) -> None:
        self.assertEqual(self.run_it("--svg", "--start", "1000").returncode, 0)
        self.assertEqual(self.run_it(given="nonsense\n").returncode, 1)
        self.assertEqual(self.run_it("/no/such/file").returncode, 6)
        self.assertEqual(self.run_it("--svg", "--table").returncode, 2)

    def test_its_man_page_begins_with_what_it_is_for(self) -> None:
        ran = subprocess.run(
            [sys.executable, str(SERVICE.parent / "tools" / "man"), str(SERVICE / "leasekeep-draw"), "leasekeep-draw"],
            capture_output=True, text=True, timeout=30 * SLOWER, check=True,
        )
        self.assertIn("\n.SH NAME\nleasekeep-draw \\- Draws the lives and renewals", ran.stdout)

    def test_a_full_output(self) -> None:
        with open("/dev/full", "w", encoding="utf-8") as full, tempfile.NamedTemporaryFile("w") as file:
            file.write(FAMILY)
            file.flush()
            ran = subprocess.run(
                [sys.executable, str(SERVICE / "leasekeep-draw"), file.name], input=LINES, stdout=full,
                stderr=subprocess.PIPE, text=True, timeout=30 * SLOWER, check=False,
            )
        self.assertEqual((ran.returncode, ran.stderr.count("\n")), (6, 1))


class Words(unittest.TestCase):
    """The command line."""

    def ran(self, *words: str) -> subprocess.CompletedProcess[str]:
        return subprocess.run([sys.executable, str(SERVICE / "leasekeep-draw"), *words], capture_output=True, text=True, timeout=60 * SLOWER)

    def test_a_start_is_whole_seconds(self) -> None:
        for word in ("2026-11-22T09:00:00Z", "1000.5", "-1", "253402300800", "9" * 40, "now"):
            with self.subTest(word=word):
                ran = self.ran("inventory.toml", f"--start={word}")
                self.assertEqual(ran.returncode, 2)
                self.assertIn("--start: a moment is whole seconds since 1970: $(date +%s) is now", ran.stderr)

    def test_the_version_is_that_of_the_file(self) -> None:
        self.assertEqual(self.ran("--version").stdout, f"leasekeep-draw {(SERVICE.parent / 'VERSION').read_text()}")


if __name__ == "__main__":
    unittest.main()
