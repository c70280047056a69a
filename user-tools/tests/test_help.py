"""Man pages and completions: made of each program's help, and tried in the shells that are there."""

from __future__ import annotations

import argparse
import functools
import os
import pty
import re
import select
import shutil
import subprocess
import sys
import tempfile
import time
import unittest
from pathlib import Path

from leasekeep_draw.command import _parser as draw_parser
from leasekeep_inventory.command import _parser as inventory_parser
from trial.programs import SLOWER, find_program

TOP = Path(__file__).resolve().parents[2]
MAN = TOP / "tools" / "man"


PLACES = {"": "man/man1/{}.1", "bash": "bash-completion/completions/{}", "zsh": "zsh/site-functions/_{}",
          "fish": "fish/vendor_completions.d/{}.fish"}


@functools.cache
def written(name: str) -> dict[str, str]:
    """What tools/man makes of a program: the page as "", the completions by their shell."""
    own = TOP / "user-tools" / name
    program = str(own) if own.exists() else find_program(name)
    if program is None:
        raise unittest.SkipTest(f"no built {name}")
    with tempfile.TemporaryDirectory() as folder:
        subprocess.run([sys.executable, str(MAN), "--into", folder, program, name], check=True, capture_output=True, timeout=300)
        return {shape: (Path(folder) / "share" / place.format(name)).read_text() for shape, place in PLACES.items()}


def shown(page: str) -> str:
    """The page as `man` sets it, in letters alone; AssertionError where it warns."""
    with tempfile.NamedTemporaryFile("w", suffix=".1") as file:
        file.write(page)
        file.flush()
        ran = subprocess.run(["man", "--warnings", "-E", "UTF-8", "-Tutf8", "-l", file.name], capture_output=True, text=True, timeout=60,
                             env={**os.environ, "MANWIDTH": "100", "LC_ALL": "C.UTF-8"})
    assert (ran.returncode, ran.stderr) == (0, ""), ran.stderr
    return re.sub(r".\x08", "", ran.stdout)


def options_of(parser: argparse.ArgumentParser) -> dict[str, set[str]]:
    """The options of a parser by command, "" for those of its own."""
    found: dict[str, set[str]] = {"": set()}
    for action in parser._actions:
        found[""].update(action.option_strings)
        if isinstance(action, argparse._SubParsersAction):
            for name, command in action.choices.items():
                found[name] = set().union(*(inner.option_strings for inner in command._actions))
    return found


class Help(unittest.TestCase):
    def setUp(self) -> None:
        self.folder = Path(tempfile.mkdtemp())
        self.addCleanup(shutil.rmtree, self.folder, True)

    def test_every_option_is_in_the_page_and_in_each_shell(self) -> None:
        for name, parser in (("leasekeep-inventory", inventory_parser()), ("leasekeep-draw", draw_parser())):
            made = written(name)
            page = made[""].replace("\\-", "-")
            for command, options in options_of(parser).items():
                part = page.partition(f'.SS "{command}"')[2].partition(".SS")[0] if command else page.partition(".SS")[0]
                bash = re.search(rf"^ +{command or chr(39) * 2}\) COMPREPLY=\(\$\(compgen -W '([^']*)'", made["bash"], re.M)
                assert bash is not None
                self.assertEqual(set(bash[1].split()), options)
                zsh = made["zsh"].partition(f"      {command})")[2].partition(";;")[0] if command else made["zsh"]
                for option in options:
                    with self.subTest(name=name, command=command, option=option):
                        self.assertIn(f"'{option}[", zsh)
                        where = f"__fish_seen_subcommand_from {command}'" if command else f"complete -c {name}"
                        flag = f" -l {option[2:]} " if option.startswith("--") else f" -s {option[1:]} "
                        self.assertTrue(any(where in line and flag in line for line in made["fish"].splitlines()))
                        if command == "" or option not in ("-h", "--help"):
                            self.assertIn(f"\\fB{option}\\fR", part)

    @unittest.skipIf(shutil.which("man") is None, "man is not installed")
    def test_the_pages_are_set_without_a_warning(self) -> None:
        for name in ("leasekeep-inventory", "leasekeep-draw", "leasekeep", "minibroker"):
            with self.subTest(name=name):
                heads = re.findall(r"^[A-Z][A-Z ]+$", shown(written(name)[""]), re.M)
                self.assertEqual(heads[:3], ["NAME", "SYNOPSIS", "DESCRIPTION"])
                self.assertEqual(heads[-1], "SEE ALSO")

    @unittest.skipIf(shutil.which("man") is None, "man is not installed")
    def test_files_and_signals_of_the_agent(self) -> None:
        page = shown(written("leasekeep")[""])
        heads = re.findall(r"^[A-Z][A-Z ]+$", page, re.M)
        self.assertEqual(heads[-4:], ["FILES", "ENVIRONMENT", "SIGNALS", "SEE ALSO"])
        for words in ("/var/lib/leasekeep/journal", "/run/leasekeep/control.sock", "SIGHUP", "leasekeep-inventory(5)"):
            self.assertIn(words, page)

    @unittest.skipIf(shutil.which("man") is None, "man is not installed")
    def test_the_page_of_the_inventory_has_each_key_and_is_set_without_a_warning(self) -> None:
        made = subprocess.run([sys.executable, str(MAN), "--inventory"], check=True, capture_output=True, text=True, timeout=60).stdout
        page = shown(made)
        for key in ("system_max", "margin", "parent", "issued", "increment", "explicit_max_ttl", "lease_id", "secret_file", "bad-value"):
            self.assertIn(key, page)
        self.assertNotRegex(page, r"\*\*|\]\(|`")

    def test_the_page_names_the_version_of_the_file(self) -> None:
        self.assertIn(f'"leasekeep {(TOP / "VERSION").read_text().strip()}"', written("leasekeep-draw")[""])

    def test_commands_of_clap(self) -> None:
        made = written("leasekeep")
        for command in ("ends", "plan", "margin", "reach", "check", "rehearse", "run", "serve"):
            self.assertIn(f'.SS "{command}"', made[""])
            self.assertRegex(made["bash"], rf"compgen -W '[^']*\b{command}\b")
        self.assertRegex(made[""], r"\\fB\\-\\-timeout\\fR \\fISECONDS\\fR")
        self.assertIn(r"SIGTERM, SIGINT, SIGHUP", made[""].partition("SIGNALS")[2])
        self.assertIn("compgen -W 'text json'", made["bash"])
        self.assertIn("(text json)", made["zsh"])
        self.assertRegex(made["fish"], r"-l log .*text json")
        self.assertNotIn('.SS "help"', made[""])

    def completed(self, shell: str, *words: str) -> list[str]:
        """What the shell offers for the last word. The programs in the folder are found before others."""
        file = self.folder / f"{shell}.completions"
        file.write_text(written(words[0])[shell])
        if shell == "bash":
            function = "_" + words[0].replace("-", "_")
            script = (f"source {file}; COMP_WORDS=(\"$@\"); COMP_CWORD=$(($# - 1)); {function} 2>/dev/null;"
                      " printf '%s\\n' \"${COMPREPLY[@]}\"")
            command = ["bash", "-c", script, "_", *words]
        else:
            command = ["fish", "--no-config", "-c", f"source {file}; complete -C '{' '.join(words)}'"]
        ran = subprocess.run(command, capture_output=True, text=True, timeout=60 * SLOWER, cwd=self.folder,
                             env={**os.environ, "HOME": str(self.folder), "PATH": f"{self.folder}:{os.environ['PATH']}"})
        self.assertEqual(ran.stderr, "")
        return sorted(line.split("\t")[0] for line in ran.stdout.splitlines() if line)

    def test_bash_and_fish(self) -> None:
        (self.folder / "web.toml").write_text("")
        for shell in ("bash", "fish"):
            if shutil.which(shell) is None:
                continue
            with self.subTest(shell=shell):
                self.assertEqual(self.completed(shell, "leasekeep-inventory", "d"), ["draft"])
                self.assertEqual(self.completed(shell, "leasekeep-inventory", "draft", "--ti"), ["--timeout"])
                self.assertEqual(self.completed(shell, "leasekeep-inventory", "draft", "w"), ["web.toml"])

    def test_names_of_entries(self) -> None:
        """They come from the agent that is asked for its status; the words after a name are none."""
        self.stand_in()
        for shell in ("bash", "fish"):
            if shutil.which(shell) is None:
                continue
            with self.subTest(shell=shell):
                for command in ("need", "replace", "drop"):
                    self.assertEqual(self.completed(shell, "leasekeep", command, "ap"), ["app", "app/db"])
                self.assertEqual(self.asked(), "status")
                self.assertEqual(self.completed(shell, "leasekeep", "drop", "--control", "./c.sock", "p"), ["pay"])
                self.assertEqual(self.asked(), "status --control ./c.sock")
                self.assertEqual(self.completed(shell, "leasekeep", "need", "app", "ap"), [])
                self.assertEqual(self.completed(shell, "leasekeep", "status", "ap"), [])

    def stand_in(self) -> None:
        """A program in the place of `leasekeep`, with three entries. It writes what it was asked last into the file `asked`."""
        program = self.folder / "leasekeep"
        lines = "'standby first next-wake -' 'app kept end -' 'app/db kept end -' 'pay unknown end -'"
        program.write_text(f"#!/bin/sh\necho \"$*\" >{self.folder}/asked\nprintf '%s\\n' {lines}\n")
        program.chmod(0o755)

    def asked(self) -> str:
        return (self.folder / "asked").read_text().strip()

    @unittest.skipIf(shutil.which("zsh") is None, "zsh is not installed")
    def test_zsh(self) -> None:
        for name in ("leasekeep-inventory", "leasekeep"):
            (self.folder / f"_{name}").write_text(written(name)["zsh"])
        self.assertIn("draft --timeout", self.typed_in_zsh("leasekeep-inventory draft --ti\t\t"))
        self.stand_in()
        self.assertIn("--control ./c.sock pay", self.typed_in_zsh("leasekeep drop --control ./c.sock p\t\t"))
        self.assertEqual(self.asked(), "status --control=./c.sock")

    def typed_in_zsh(self, line: str) -> str:
        """What a zsh shows that has these completions, while that is typed."""
        child, terminal = pty.fork()
        if child == 0:
            os.environ.update(TERM="dumb", PS1="", HOME=str(self.folder), PATH=f"{self.folder}:{os.environ['PATH']}")
            os.execvp("zsh", ["zsh", "-f", "-i"])
        try:
            set_up = f"PS1=''; fpath=({self.folder} $fpath); autoload -Uz compinit; compinit -u -D; stty columns 200; echo RE''ADY\n"
            os.write(terminal, set_up.encode())
            self.read_until(terminal, "READY")
            os.write(terminal, line.encode())
            return self.read_until(terminal, "\0", 3.0)
        finally:
            os.write(terminal, b"\x03\nexit\n")
            os.close(terminal)
            os.waitpid(child, 0)

    def read_until(self, terminal: int, wanted: str, seconds: float = 30.0 * SLOWER) -> str:
        """What comes until that has come, or the time is up."""
        shown, end = "", time.monotonic() + seconds
        while wanted not in shown and time.monotonic() < end:
            if select.select([terminal], [], [], 0.1)[0]:
                shown += os.read(terminal, 65536).decode(errors="replace")
        return shown


if __name__ == "__main__":
    unittest.main()
