"""The alert rules and the dashboard that are shipped: by promtool, and in a real Prometheus beside a real agent."""

from __future__ import annotations

import json
import re
import shutil
import socket
import subprocess
import tempfile
import time
import unittest
import urllib.parse
import urllib.request
from pathlib import Path
from shutil import which
from typing import Any

from leasekeep_inventory.inventory import Entry, Inventory, Kind, inventory_text
from trial.programs import SLOWER, TOP, find_program

from .broker import Vault, VaultServer

MONITORING = TOP / "packaging" / "monitoring"
RULES, DASHBOARD = MONITORING / "leasekeep.rules.yml", MONITORING / "dashboard.json"
SHOWN = set(re.findall(r"# TYPE (\w+)", (TOP / "tests/plays/onlookers/metrics").read_text()))
"""The metrics of an agent."""
UNASKED = {"leasekeep_build_info", "leasekeep_changes_kept", "leasekeep_alerts_dropped_total"}
"""What neither a rule nor a panel asks for: these stay as they are as long as an agent runs."""
PORT_WORDS = re.compile(r"Listening on.*address=127\.0\.0\.1:(\d+)")
NEED = 'leasekeep_need_carried_timestamp_seconds{entry="web"}'
WRITTEN = "leasekeep_metrics_written_timestamp_seconds"

END, SUCCESS = 'leasekeep_end_timestamp_seconds{entry="web"}', 'leasekeep_last_success_timestamp_seconds{entry="web"}'
WAKE, IN_FORCE = "leasekeep_next_wake_timestamp_seconds", 'leasekeep_need_in_force_timestamp_seconds{entry="web"}'
KEPT, TRYING, SHORT = (f'leasekeep_state{{entry="web",state="{name}"}}' for name in ("kept", "trying", "short"))
END_NEAR: tuple[tuple[dict[str, str], range], ...] = (
    # A step of 40 s, so a margin of 30 s: renewed each 10 to 15 s, and 25 s or more are left when the figures are written.
    ({END: "40+15x100", SUCCESS: "0+15x100", KEPT: "1x100"}, range(0)),
    ({END: "25+15x100", SUCCESS: "-15+15x100", KEPT: "1x100"}, range(0)),
    # The same, and from 150 s on it is renewed no more: its margin's half is 15 s before 190 s.
    ({END: "40+15x10 190x100", SUCCESS: "0+15x10 150x100", TRYING: "0x10 1x100"}, range(180, 600, 15)),
    # It is kept all the same: once the wake-up of 160 s is a minute late.
    ({END: "40+15x10 190x100", SUCCESS: "0+15x10 150x100", KEPT: "1x100", WAKE: "10+15x10 160x100"}, range(225, 600, 15)),
    # The figures are from 150 s on the same: a minute later they count as a minute old.
    ({END: "40+15x10 190x100", SUCCESS: "0+15x10 150x100", KEPT: "1x100", WAKE: "10+15x10 160x100", WRITTEN: "0+15x10 150x100"},
     range(240, 600, 15)),
    # A long step: the inventory's margin, half of which is 60 s before 500 s.
    ({END: "500x100", SUCCESS: "0x100", TRYING: "1x100"}, range(450, 600, 15)),
    # It is at its ceiling, and is issued again in time: from 480 s on it is short, since nobody has done so.
    ({END: "500x100", SUCCESS: "0x100", KEPT: "1x31 0x100", SHORT: "0x31 1x100", WAKE: "900x100", IN_FORCE: "10000x31 500x100"},
     range(480, 600, 15)),
    # A token over it ends at 500 s.
    ({END: "900x100", SUCCESS: "0x100", SHORT: "1x100", IN_FORCE: "500x100"}, range(450, 600, 15)),
    # Never renewed: while it is tried, or where the wake-up of 50 s is a minute late.
    ({END: "40x100", TRYING: "1x100"}, range(0, 600, 15)),
    ({END: "40x100", KEPT: "1x100", WAKE: "590x100"}, range(0)),
    ({END: "130x100", KEPT: "1x100", WAKE: "50x100"}, range(120, 600, 15)),
)
"""What is known of an entry that is needed, with an inventory's margin of 120 s, and the seconds at which the alert is there."""


def expressions() -> list[str]:
    """What the dashboard asks, for every job and instance."""
    panels = json.loads(DASHBOARD.read_text())["panels"]
    return [target["expr"].replace("$job", ".*").replace("$instance", ".*") for panel in panels
            for target in panel["targets"]]


def state(name: str) -> str:
    return f'leasekeep_state{{entry="web",state="{name}"}}'


def behind(place: int) -> str:
    return f'leasekeep_behind{{job="web",instance="{place}"}}'


class Shipped(unittest.TestCase):
    def test_they_ask_for_what_is_there_and_for_all_of_it(self) -> None:
        rules = set(re.findall(r"leasekeep_\w+", RULES.read_text()))
        dashboard = set(re.findall(r"leasekeep_\w+", " ".join(expressions())))
        self.assertEqual(rules - SHOWN, set())
        self.assertEqual(dashboard | rules, SHOWN - UNASKED)

    def test_panels_stand_beside_each_other(self) -> None:
        taken: set[tuple[int, int]] = set()
        panels = json.loads(DASHBOARD.read_text())["panels"]
        for panel in panels:
            place = panel["gridPos"]
            cells = {(x, y) for x in range(place["x"], place["x"] + place["w"])
                     for y in range(place["y"], place["y"] + place["h"])}
            self.assertFalse(cells & taken, panel["title"])
            self.assertLessEqual(max(x for x, _ in cells), 23)
            taken |= cells
        self.assertEqual(len({panel["id"] for panel in panels}), len(panels))


@unittest.skipIf(which("promtool") is None, "promtool is not installed")
class Rules(unittest.TestCase):
    def promtool(self, *words: str) -> None:
        said = subprocess.run(["promtool", *words], capture_output=True, text=True, timeout=60)
        self.assertEqual(said.returncode, 0, said.stdout + said.stderr)

    def test_promtool_takes_them(self) -> None:
        self.promtool("check", "rules", "--lint=all", "--lint-fatal", str(RULES))

    def test_when_each_one_fires(self) -> None:
        """Times count from 1970-01-01T00:00:00Z on: `web` is needed until 10,000."""
        def case(series: dict[str, str], *fires: tuple[str, str, int]) -> dict[str, Any]:
            told: dict[tuple[str, int], list[dict[str, Any]]] = {}
            for alert, seconds, count in fires:
                told[alert, int(seconds)] = [{}] * count
            return {"interval": "15s",
                    "input_series": [{"series": name, "values": values} for name, values in series.items()],
                    "promql_expr_test": [
                        {"expr": f'count(ALERTS{{alertname="{alert}",alertstate="firing"}}) or vector(0)',
                         "eval_time": f"{seconds}s", "exp_samples": [{"labels": "{}", "value": len(found)}]}
                        for (alert, seconds), found in told.items()]}
        up = {WRITTEN: "0+15x100"}
        needed = {**up, NEED: "10000x100"}
        tests = [
            case({WRITTEN: "0+15x4 60x40"}, ("LeasekeepAgentDown", "210", 0), ("LeasekeepAgentDown", "225", 1)),
            case({}, ("LeasekeepAgentDown", "15", 1)),
            case({WRITTEN + '{job="a",instance="1"}': "0+15x4 stale", WRITTEN + '{job="a",instance="2"}': "0+15x100",
                  'up{job="a",instance="1"}': "1x4 0x40", 'up{job="a",instance="2"}': "1x4 0x2 1x100", 'up{job="b",instance="1"}': "0x100"},
                 ("LeasekeepAgentDown", "165", 0), ("LeasekeepAgentDown", "195", 1), ("LeasekeepAgentDown", "600", 1)),
            *(case({**needed, state(name): "0x4 1x10 0x20"}, (alert, "45", 0), (alert, "75", 1), (alert, "300", 0))
              for name, alert in (("gone", "LeasekeepEntryGone"), ("ended", "LeasekeepEntryEnded"),
                                  ("short", "LeasekeepEntryShort"))),
            *(case({**up, NEED: "60x100", state(name): "1x100"}, (alert, "45", 1), (alert, "75", 0))
              for name, alert in (("gone", "LeasekeepEntryGone"), ("ended", "LeasekeepEntryEnded"),
                                  ("short", "LeasekeepEntryShort"))),
            case({**needed, state("waiting"): "1x100"}, ("LeasekeepEntryWaiting", "45", 0), ("LeasekeepEntryWaiting", "75", 1)),
            case({**up, NEED: "60x100", state("waiting"): "1x100"}, ("LeasekeepEntryWaiting", "90", 0)),
            *(case({**needed, state(name): "1x100"}, ("LeasekeepEntryTried", "285", 0), ("LeasekeepEntryTried", "315", 1))
              for name in ("trying", "unknown")),
            case({**up, NEED: "60x100", state("trying"): "1x100"}, ("LeasekeepEntryTried", "330", 0)),
            case({**needed, state("unknown"): "1x10 0x100", state("trying"): "0x10 1x100"}, ("LeasekeepEntryTried", "315", 1)),
            case({**needed, 'leasekeep_end_timestamp_seconds{entry="web"}': "500x100", "leasekeep_margin_seconds":
                  "120x100"}, ("LeasekeepEndNear", "435", 0), ("LeasekeepEndNear", "450", 1)),
            case({**up, NEED: "500x100", 'leasekeep_end_timestamp_seconds{entry="web"}': "500x100",
                  "leasekeep_margin_seconds": "120x100"}, ("LeasekeepEndNear", "450", 0)),
            *(case({**needed, **near, "leasekeep_margin_seconds": "120x100"}, *(
                ("LeasekeepEndNear", str(seconds), int(seconds in fires)) for seconds in range(0, 600, 15)))
              for near, fires in END_NEAR),
            case({**up, "leasekeep_config_last_reload_successful": "1x4 0x10"}, ("LeasekeepFileFaulty", "45", 0),
                 ("LeasekeepFileFaulty", "75", 1)),
            *(case({**up, "leasekeep_clock_offset_seconds": f"{offset}x100"}, ("LeasekeepClockOff", "330", fires))
              for offset, fires in ((2, 0), (3, 1), (-3, 1), (0, 0))),
            case({**up, "leasekeep_log_dropped_lines_total": "5x10 7x100"}, ("LeasekeepLogDropped", "135", 0),
                 ("LeasekeepLogDropped", "180", 1), ("LeasekeepLogDropped", "1200", 0)),
            case({**up, "leasekeep_stepped_in_total": "5x10 7x100"}, ("LeasekeepSteppedIn", "135", 0),
                 ("LeasekeepSteppedIn", "180", 1), ("LeasekeepSteppedIn", "1200", 0)),
            *(case({behind(place): f"{number}x100" for place, number in enumerate(numbers)},
                   ("LeasekeepNotOneInFront", "585", 0), ("LeasekeepNotOneInFront", "615", fires))
              for numbers, fires in (((0, 1, 1), 0), ((0,), 0), ((0, 0), 0), ((1, 1), 1), ((0, 0, 1), 1))),
            case({behind(0): "0x4 stale", behind(1): "1x100"},
                 ("LeasekeepNotOneInFront", "660", 0), ("LeasekeepNotOneInFront", "690", 1)),
        ]
        with tempfile.TemporaryDirectory() as folder:
            file = Path(folder) / "tests.yml"
            file.write_text(json.dumps({"rule_files": [str(RULES)], "evaluation_interval": "15s", "tests": tests}))
            self.promtool("test", "rules", str(file))


@unittest.skipIf(which("promtool") is None or which("prometheus") is None, "Prometheus is not installed")
class InPrometheus(unittest.TestCase):
    def asked(self, path: str) -> Any:
        with urllib.request.urlopen(f"http://127.0.0.1:{self.port}/api/v1/{path}", timeout=5) as reply:
            return json.load(reply)["data"]

    def start_prometheus(self, exporter: int) -> None:
        config = self.folder / "prometheus.yml"
        config.write_text(json.dumps({
            "global": {"scrape_interval": "1s", "scrape_timeout": "1s", "evaluation_interval": "1s"},
            "rule_files": [str(RULES)],
            "scrape_configs": [{"job_name": "leasekeep", "static_configs": [{"targets": [f"127.0.0.1:{exporter}"]}]}]}))
        log = self.folder / "prometheus.log"
        with open(log, "wb") as output:
            process = subprocess.Popen(
                ["prometheus", f"--config.file={config}", f"--storage.tsdb.path={self.folder / 'data'}",
                 "--web.listen-address=127.0.0.1:0"], stdout=output, stderr=output)
        self.addCleanup(process.wait)
        self.addCleanup(process.kill)
        end = time.monotonic() + 30 * SLOWER
        while not (listens := PORT_WORDS.search(log.read_text())):
            self.assertLess(time.monotonic(), end, log.read_text())
            time.sleep(0.1)
        self.port = int(listens[1])
        # (it listens before it answers)
        while not self.is_ready():
            self.assertLess(time.monotonic(), end, log.read_text())
            time.sleep(0.1)

    def is_ready(self) -> bool:
        try:
            with urllib.request.urlopen(f"http://127.0.0.1:{self.port}/-/ready", timeout=5):
                return True
        except OSError:
            return False

    def setUp(self) -> None:
        """An inventory of two entries and of one that nobody knows, and a broker for them."""
        program = find_program("leasekeep")
        if program is None:
            self.skipTest("no built leasekeep")
        self.program = program
        self.folder = Path(tempfile.mkdtemp())
        self.addCleanup(shutil.rmtree, self.folder, True)
        now = int(time.time())
        entries = (
            Entry("app", Kind.TOKEN, None, now, now + 17, increment=17, max_ttl=9000, need=now + 600, credential="s.app-secret"),
            Entry("db", Kind.LEASE, "app", now, now + 16, increment=16, max_ttl=9000, need=now + 600, credential="db/creds/1"),
            Entry("nobody", Kind.LEASE, "app", 1000, 1060, increment=16, need=now + 600, credential="db/creds/nobody"))
        self.inventory = Inventory(entries, 12)
        vault = Vault(time.time)
        vault.load(Inventory(entries[:2], 12))
        self.server = VaultServer(vault).start()
        self.addCleanup(self.server.stop)

    def one_rule_fires_and_every_panel_has_an_answer(self) -> None:
        end = time.monotonic() + 40 * SLOWER
        while not (fired := {(alert["labels"]["alertname"], alert["labels"].get("entry")) for alert in
                             self.asked("alerts")["alerts"] if alert["state"] == "firing"
                             if alert["labels"]["alertname"] != "LeasekeepAgentDown"}):
            self.assertLess(time.monotonic(), end, "no rule fires")
            time.sleep(0.2)
        self.assertEqual(fired, {("LeasekeepEntryGone", "nobody")})
        for expression in expressions():
            while not (found := self.asked("query?" + urllib.parse.urlencode({"query": expression}))["result"]):
                self.assertLess(time.monotonic(), end, f"no answer to {expression}")
                time.sleep(0.2)
            if "state=\"gone\"" in expression and " or vector(0)" in expression:
                self.assertEqual(found[0]["value"][1], "1")

    def test_over_the_page_of_leasekeep_serve(self) -> None:
        port = self.serve()
        self.start_prometheus(port)
        self.one_rule_fires_and_every_panel_has_an_answer()
        with urllib.request.urlopen(f"http://127.0.0.1:{port}/metrics", timeout=5) as reply:
            page = reply.read()
        self.assertEqual(set(re.findall(r"# TYPE (\w+)", page.decode())), SHOWN)
        checked = subprocess.run(["promtool", "check", "metrics"], input=page, capture_output=True, timeout=60)
        self.assertEqual((checked.returncode, checked.stdout + checked.stderr), (0, b""))
        for word in (b"s.app-secret", b"db/creds"):
            self.assertNotIn(word, page)

    def serve(self) -> int:
        """The port of the pages of a running agent."""
        with socket.create_server(("127.0.0.1", 0)) as free:
            port = int(free.getsockname()[1])
        file = self.folder / "served.toml"
        file.touch(0o600)
        file.write_text(inventory_text(self.inventory))
        with open(self.folder / "log", "wb") as log:
            process = subprocess.Popen([self.program, "serve", str(file), self.server.word, "--timeout", "1", "--listen", str(port)],
                                       stdout=log, stderr=log)
        self.addCleanup(process.wait)
        self.addCleanup(process.kill)
        return port


if __name__ == "__main__":
    unittest.main()
