"""Pictures show their colours outside browsers too, where nothing knows of variables."""

from __future__ import annotations

import re
import shutil
import struct
import subprocess
import unittest
import zlib
from pathlib import Path

from leasekeep_draw import colours

PICTURES = sorted((Path(__file__).resolve().parents[2] / "docs" / "pictures").glob("*.svg"))


def rendered_colours(picture: Path) -> set[bytes]:
    """The colours of the picture's pixels, as rsvg-convert draws it."""
    png = subprocess.run(["rsvg-convert", "--background-color", "white", str(picture)], capture_output=True, check=True).stdout
    width, height, depth, kind = struct.unpack(">IIBB", png[16:26])
    size = {2: 3, 6: 4}[kind]
    packed, at = b"", 8
    while at < len(png):
        (length,) = struct.unpack(">I", png[at : at + 4])
        if png[at + 4 : at + 8] == b"IDAT":
            packed += png[at + 8 : at + 8 + length]
        at += length + 12
    assert depth == 8
    return set(_pixels(zlib.decompress(packed), width * size, height, size))


def _pixels(rows: bytes, stride: int, height: int, size: int) -> set[bytes]:
    """The pixels of a PNG's rows, each of which says by what it was filtered (PNG, section 9)."""
    found, above = set[bytes](), bytearray(stride)
    for row in range(height):
        start = row * (stride + 1)
        line = bytearray(rows[start + 1 : start + 1 + stride])
        for at in range(stride):
            left = line[at - size] if at >= size else 0
            corner = above[at - size] if at >= size else 0
            line[at] = (line[at] + _foretold(rows[start], left, above[at], corner)) % 256
        found.update(bytes(line[at : at + 3]) for at in range(0, stride, size))
        above = line
    return found


def _foretold(kind: int, left: int, up: int, corner: int) -> int:
    if kind == 4:
        nearest = min((abs(up - corner), 0, left), (abs(left - corner), 1, up), (abs(left + up - 2 * corner), 2, corner))
        return nearest[2]
    return (0, left, up, (left + up) // 2)[kind]


class Colours(unittest.TestCase):
    def test_a_literal_comes_before_each_variable(self) -> None:
        self.assertIn(".a { fill: #1b2733; fill: var(--ink); stroke: #ffffff; stroke: var(--page) }",
                      colours.style(".a { fill: var(--ink); stroke: var(--page) }"))
        for picture in PICTURES:
            style = picture.read_text(encoding="utf-8").partition("<style>")[2].partition("</style>")[0]
            for attribute, name in re.findall(r"([\w-]+): var\(--([\w-]+)\)", style):
                with self.subTest(picture=picture.name, attribute=attribute, name=name):
                    self.assertIn(f"{attribute}: {colours.LIGHT[name]}; {attribute}: var(--{name})", style)

    def test_day_and_night_have_the_same_colours(self) -> None:
        self.assertEqual(set(colours.LIGHT), set(colours.DARK))

    @unittest.skipUnless(shutil.which("rsvg-convert"), "rsvg-convert is not installed")
    def test_they_show_where_nothing_knows_of_variables(self) -> None:
        for picture in PICTURES:
            with self.subTest(picture=picture.name):
                shown = rendered_colours(picture)
                # (the bars of wakes.svg are thinner than two pixels)
                area = "flag" if picture.name == "wakes.svg" else "token"
                wanted = {bytes.fromhex(colours.LIGHT[name][1:]) for name in ("page", "ink", area)}
                self.assertEqual(wanted - shown, set())
