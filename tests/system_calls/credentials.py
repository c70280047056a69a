"""SystemSecrets: which files of credentials it reads, and by what it knows that one has changed."""

from __future__ import annotations

import os
import time
from collections.abc import Callable

from trying import SLOWER, Peer, Ran

from .clocks import LONGEST
from .stage import IN_PIECES, TIMEOUT, Serving, Stage, inventory, until

LOOKED_AT = 10 + LONGEST / 1000
"""Seconds between two looks at a file's stamp: ten, and as long as a turn waits."""
FIRST, SECOND = f"s.{1:030}", f"s.{2:030}"
"""Two credentials of one length."""
HELD = 'secret_file = "held"'
"""How the inventory names the file, which is a link to `web.token`."""
NO_FILE = "warning: secret-file web is not a regular file: it keeps the old one"


def sends(broker: Peer, secret: str) -> Callable[[], bool]:
    return lambda: any(f"\r\nX-Vault-Token: {secret}\r\n".encode() in request for request in broker.requests)


def opened(agent: Serving) -> int:
    """How often the file was opened."""
    return sum(call.words[0].endswith(("/held", "held")) for call in agent.recording.calls("open"))


def follows_files(stage: Stage) -> None:
    """A file is read, whole though each read gives a piece, at the start and when it has changed, also where only the moment of its last
    change says so; it is not opened between; what is no regular file is not opened at all."""
    stage.write("web.token", FIRST)
    (stage.room / "held").symlink_to("web.token")
    name = stage.write("one.toml", inventory(HELD))
    token = stage.room / "web.token"
    words = (name, "./vault.sock", "--state", "./state", "--control", "./control.sock")
    with stage.broker() as broker, stage.serve(*words, told=IN_PIECES) as agent:
        stage.check("the first credential is sent", True, until(sends(broker, FIRST)))
        time.sleep((2 * LOOKED_AT + 1) * SLOWER)
        before = opened(agent)
        time.sleep(2 * LOOKED_AT + 1)
        stage.check("a file that stays is not opened", (True, before), (before > 0, opened(agent)))
        seen = token.stat()
        with token.open("r+") as handle:
            handle.write(SECOND)
        os.utime(token, ns=(seen.st_atime_ns, seen.st_mtime_ns))
        stage.check("one that has changed is read", True, until(sends(broker, SECOND)))
        os.mkfifo(stage.room / "pipe")
        (stage.room / "pipe").rename(token)
        before = opened(agent)
        stage.check("a pipe is told of", True, agent.says(NO_FILE))
        stage.check("and not opened", (True, before), (agent.answers(), opened(agent)))


def opens_no_pipe(stage: Stage) -> None:
    """A start on a pipe in the place of a file is refused, and does not open it."""
    os.mkfifo(stage.room / "held")
    ran, recording = stage.run("serve", stage.write("one.toml", inventory(HELD)), "./none", "--timeout", str(TIMEOUT))
    said = b"leasekeep: web: secret_file: the file cannot be read; put the credential there before the start\n"
    stage.check("it is refused", Ran(1, b"", said), ran)
    stage.check("it is not opened", [], [call for call in recording.calls("open") if call.words[0] == "held"])
