"""What a man page says beside the program's help: files, signals, the environment."""

from __future__ import annotations

_DOCUMENTS = ("PREFIX/share/doc/leasekeep/docs", "the documents that this page names, as docs/running.md. PREFIX is /usr for the Debian "
              "package, and /usr/local or what was given to scripts/install otherwise")
_EXAMPLES = ("PREFIX/share/doc/leasekeep/examples", "inventories, configurations of a TLS proxy, alert rules and a dashboard")

SECTIONS: dict[str, list[tuple[str, list[tuple[str, str]]]]] = {
    "leasekeep": [
        ("FILES", [
            ("/etc/leasekeep/inventory.toml", "the inventory that the systemd unit serves (mode 0600, owned by leasekeep): see "
             "leasekeep-inventory(5)"),
            ("/var/lib/leasekeep/journal", "what need, replace, add and drop have changed. It holds secrets (mode 0600)"),
            ("/var/lib/leasekeep/journal.set-aside", "records of the journal that could not be read"),
            ("/var/lib/leasekeep/copy", "the last good copy of the inventory: served at a start where FILE is faulty (mode 0600)"),
            ("/run/leasekeep/ends", "when each entry ends, as the broker told in this boot (mode 0600)"),
            ("/run/leasekeep/control.sock", "the control socket of a running agent (mode 0660), for the commands from need to reload"),
            ("/run/vault-proxy/vault.sock", "the socket of the TLS proxy, in the unit"),
            ("PREFIX/lib/systemd/system/leasekeep.service", "the unit (the Debian package: /lib/systemd/system)"),
            ("PREFIX/lib/systemd/system/leasekeep@.service", "the same for several agents on one machine: leasekeep@a serves "
             "/etc/leasekeep/a/inventory.toml, with folders a below the two above"),
            _DOCUMENTS, _EXAMPLES,
            ("", "Without a unit the folders are those of serve's --state, and of --runtime or of the socket of --control."),
        ]),
        ("ENVIRONMENT", [
            ("RUNTIME_DIRECTORY, XDG_RUNTIME_DIR", "the folders of systemd and of a user in which these commands look for control.sock, where "
             "--control is not given"),
        ]),
        ("SIGNALS", [
            ("SIGTERM, SIGINT, SIGHUP", "serve ends at once. What it keeps lives on until its end. (leasekeep reload has it read FILE "
             "again, not SIGHUP)"),
            ("SIGKILL", "what was acknowledged holds; a start in the same boot knows the ends that were told"),
        ]),
    ],
    "leasekeep-inventory": [("FILES", [_DOCUMENTS, _EXAMPLES])],
    "leasekeep-draw": [("FILES", [_DOCUMENTS, _EXAMPLES])],
    "minibroker": [("FILES", [_DOCUMENTS, _EXAMPLES])],
}
"""By program: each section with its items. An item without a tag is a paragraph of its own."""
