"""The tools and `leasekeep` judge alike: random inventories with mistakes, and such inventories with random changes of their bytes, are
refused by both or by neither, and what leasekeep names first is among what the tools name. CASES and SEED are how many, and which."""

from __future__ import annotations

import os
import random
import subprocess
import tempfile
import unittest
from pathlib import Path

from leasekeep_inventory.findings import Finding
from leasekeep_inventory.inventory_file import read_inventory
from trial.programs import SLOWER, find_program

CASES = int(os.environ.get("CASES", "100"))
SEED = int(os.environ.get("SEED", "1"))
NAMES = "abcdefgh"
KEYS = ("name", "parent", "issued", "end", "renewable", "increment", "period", "max_ttl", "explicit_max_ttl", "reissued", "need",
        "secret", "token", "lease_id", "nam", "secret_file", "lease_id_file", "margin")
VALUES = ('"a"', '"b"', '"c"', "1000", "2000", "0", "-1", "true", "false", '"true"', '"2026-11-22T09:00:00Z"', '"2026-13-01T00:00:00Z"',
          "2026-11-22T09:00:00Z", "1.5", "4294967295", "4294967296", "253402300799", "253402300800", "257697268094", "257697268095",
          '"x y"', '""', "[]", "60", "61", "3", '"hvs.x"', '"é"', "{}", "{a=1}", '"always"', '"Always"', '"forever"',
          '"\\u0001"', '"\\u007F"', '"\\u0080"', f'"{"é" * 2048}"', f'"{"é" * 2048}a"')
DURATIONS = ("1h", "90m", "1h30m", "30m1h", "1h1h", "90", "1 hour", "1H", "1.5h", "-1h", "0s", "1s", "59s", "3601s", "49710d6h28m15s",
             "49710d6h28m16s", "0000000099s", "00000000099s", "1d1h1m1s", "s", "", "1h ", "é")
OF_SECONDS = ("system_max", "margin", "increment", "period", "max_ttl", "explicit_max_ttl")
RARE = ("increment = 0", "increment = 0\nperiod = 0", "period = 60", "period = 0", 'period = "0s"', 'period = "1m"', "", 'need = "always"',
        'secret_file = "f"', 'secret_file = "f"\nsecret = "s"', 'secret_file = ""\nsecret = ""', 'secret_file = "f"\nperiod = 60')
"""Keys of a token that chance seldom writes together; each is tried with and without issue and end."""
TERMS = 'name = "a", issued = 1000, end = 2000'
WHOLE = (f"token = [{{{TERMS},}}]\n", f"token = [{{\n{TERMS}\n, # a\n}},\n]\n", f"token = [{{{TERMS},,}}]\n", f"token = [{{{TERMS}, need =\n1}}]\n",
         f"token = {{{TERMS}}}\n", "token = [{}]\n", "lease = [\n]\n", '[[token]]\nname = "\\x61\\e"\n', '[[token]]\nname = "\\x6"\n',
         f'token = [{{{TERMS}, secret = "\\x41\\u0042", }}]\n', "[[token]]\n" + TERMS.replace(", ", "\n").replace('"a"', '"\\x61"') + "\n")
"""Documents of TOML 1.1, and what is nearly one."""


PIECES = (b'"', b"'", b'"""', b"'''", b"\n", b"\r\n", b"\r", b"\t", b" ", b"#", b"=", b".", b",", b"[", b"]", b"[[", b"]]", b"{", b"}", b"\\", b"\\u00e9",
          b"\\U0001F511", b"\\ud800", b"\\x00", b"\\e", b"\x00", b"\x1f", b"\x7f", b"\x85", b"\xc3\xa9", b"\xc3", b"\xef\xbb\xbf", b"0x10", b"0o17",
          b"0b11", b"1_000", b"1__0", b"_1", b"00", b"-0", b"+1", b"1e3", b".5", b"5.", b"inf", b"-nan", b"true", b"False", b"07:32:00", b"07:32",
          b"1979-05-27", b"1979-05-27 07:32:00Z", b"1979-05-27T07:32:00+24:00", b"9223372036854775807", b"9223372036854775808",
          b"18446744073709551616", b"\nmargin = 5\n", b"\n[token]\n", b"\n[a.b]\n", b'\n"need" = 1\n', b"\nname.x = 1\n", b"\n[[token.x]]\n",
          b"\n[[lease]]\n", b"\nneed = 1 # a\n", b"\nneed = 1 need = 2\n", b"max_ttl", b"name", b"= \"a\"")
"""What is put into a text: what TOML has a meaning for, or nearly."""


def mutated(chance: random.Random, text: bytes) -> bytes:
    """The text with a few changes."""
    for _ in range(chance.choice((1, 1, 1, 2, 3))):
        at = chance.randint(0, len(text))
        taken = chance.choice((0, 0, 1, 1, 2, 8, 30))
        put = chance.choice((b"", chance.choice(PIECES), chance.choice(PIECES), bytes([chance.randrange(256)]), text[at:at + chance.randrange(40)] * 2))
        text = text[:at] + put + text[at + taken:]
    return text


def a_table(chance: random.Random, kind: str, name: str, tokens: str) -> str:
    """A table that is mostly good, with up to two mistakes."""
    values = {"name": f'"{name}"', "issued": "1000", "end": "2000", "increment": "100"}
    above = chance.choice(NAMES if chance.random() < 0.15 or not tokens else tokens)
    if kind == "lease":
        values["token"] = f'"{above}"'
    elif tokens and chance.random() < 0.5:
        values["parent"] = f'"{above}"'
    if chance.random() < 0.3:
        values["secret" if kind == "token" else "lease_id"] = f'"s.{chance.randrange(3)}"'
    for _ in range(chance.choice((0, 0, 0, 0, 1, 2))):
        key = chance.choice(KEYS)
        if chance.random() < 0.3:
            values.pop(key, None)
        elif key in OF_SECONDS and chance.random() < 0.5:
            values[key] = f'"{chance.choice(DURATIONS)}"'
        else:
            values[key] = chance.choice(VALUES)
    if chance.random() < 0.03:
        values.pop("issued", None)
        values.pop("end", None)
    head = kind if chance.random() < 0.97 else f"{kind}s"
    return f"[[{head}]]\n" + "".join(f"{key} = {value}\n" for key, value in values.items())


def an_inventory(chance: random.Random) -> str:
    text = "\ufeff" if chance.random() < 0.1 else ""
    if chance.random() < 0.5:
        numbers = (1, 20, 60, 99, 100, 3600, 3601, 0, -1)
        text += f"margin = {chance.choice(numbers)}\n" if chance.random() < 0.8 else f'margin = "{chance.choice(DURATIONS)}"\n'
    if chance.random() < 0.1:
        text += f"{chance.choice(('system_max', 'system_max', 'sytem_max', 'foo'))} = {chance.choice((1, 0, 100, 4294967296))}\n"
    tokens = ""
    names = iter(NAMES)
    for kind, most in (("token", 4), ("lease", 3)):
        for _ in range(chance.randrange(most)):
            name = next(names) if chance.random() < 0.9 else chance.choice(NAMES)
            text += a_table(chance, kind, name, tokens)
            tokens += name if kind == "token" else ""
    return text


def faults(text: bytes) -> list[Finding]:
    return read_inventory(text).faults


def is_open(text: bytes, said: list[str]) -> bool:
    """Whether `leasekeep` may refuse a text without a fault so: it plans nothing for an entry whose end is left to a lookup."""
    inventory = read_inventory(text).inventory
    return (inventory is not None and said[2:3] == ["missing-key"] and said[4:] == ["issued"]
            and inventory.entries[int(said[3])].lacks_terms)


def a_text(chance: random.Random) -> bytes:
    """An inventory with mistakes, or one with few or none whose bytes are changed."""
    text = an_inventory(chance).encode()
    if chance.random() < 0.5:
        return text
    for _ in range(4):
        if not faults(text):
            break
        text = an_inventory(chance).encode()
    return mutated(chance, text)


def named(key: str, found: list[Finding]) -> bool:
    """Whether a fault is about that key."""
    return any(fault.key == key for fault in found)


class Agreement(unittest.TestCase):
    def test_what_leasekeep_refuses(self) -> None:
        program = find_program("leasekeep")
        if program is None:
            self.skipTest("no built leasekeep")
        refused = 0
        chance = random.Random(SEED)
        with tempfile.TemporaryDirectory() as folder:
            file = Path(folder) / "inventory.toml"
            rare = [f'margin = 20\n[[token]]\nname = "a"\n{terms}{keys}\n' for keys in RARE
                    for terms in ("issued = 1000\nend = 2000\n", "", "issued = 1000\n", "end = 2000\n", "issued = 0\nend = 0\n")]
            rare += WHOLE
            for case in range(CASES):
                text = rare[case].encode() if case < len(rare) else a_text(chance)
                file.write_bytes(text)
                ran = subprocess.run([program, "ends", str(file), "0"], capture_output=True, text=True, timeout=120 * SLOWER)
                found = faults(text)
                said = [one.text("f") for one in found]
                words = ran.stderr.partition("\n")[0].split()
                self.assertEqual(ran.returncode == 1, bool(found) or is_open(text, words), f"case {case}: {ran.stderr}{said}\n{text!r}")
                # A bare time without seconds is TOML 1.1, which no key takes: the tools, which read TOML 1.0, refuse the file for it.
                is_read = not any("is not a TOML document" in one.problem for one in found)
                if found and is_read and ("bad-value" in words or "missing-key" in words):
                    self.assertTrue(named(words[-1], found), f"case {case}: {ran.stderr}{said}\n{text!r}")
                refused += ran.returncode == 1
        if CASES >= 100:
            self.assertGreater(refused, CASES // 4)
            self.assertLess(refused, CASES * 9 // 10)


if __name__ == "__main__":
    unittest.main()
