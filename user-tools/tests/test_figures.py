"""How near to its end an entry was renewed, by a log."""

from __future__ import annotations

import unittest

from trial.figures import nearest

LOG = """2026-01-01T00:00:00Z begin start
2026-01-01T00:00:00Z entry app 2026-01-01T00:02:00Z
2026-01-01T00:00:00Z entry db 1767225720
2026-01-01T00:01:20Z told app 300
2026-01-01T00:01:30Z told db 300
"""


class Figures(unittest.TestCase):
    def test_the_nearest_renewal(self) -> None:
        self.assertEqual(nearest(LOG), "30 s before the end of db")
        self.assertEqual(nearest(LOG + "2026-01-01T00:06:10Z told app 300\n"), "10 s before the end of app")

    def test_a_lookup_is_no_renewal_and_tells_an_end(self) -> None:
        self.assertEqual(nearest(LOG + "2026-01-01T00:06:25Z entry db 2026-01-01T00:06:35Z\n2026-01-01T00:06:26Z told db 300\n"),
                         "9 s before the end of db")

    def test_a_credential_of_a_file_has_an_end_of_its_own(self) -> None:
        self.assertEqual(nearest(LOG + "2026-01-01T00:06:25Z replace db by its file\n2026-01-01T00:06:29Z told db 300\n"),
                         "30 s before the end of db")

    def test_an_entry_that_was_added_is_left_out(self) -> None:
        added = "2026-01-01T00:06:25Z add new\n2026-01-01T00:06:26Z entry new 2026-01-01T00:06:30Z\n2026-01-01T00:06:28Z told new 300\n"
        self.assertEqual(nearest(LOG + added), "30 s before the end of db")

    def test_none(self) -> None:
        self.assertEqual(nearest("2026-01-01T00:00:00Z begin start\n"), "none")


if __name__ == "__main__":
    unittest.main()
