"""A client of a running agent's control socket."""

from __future__ import annotations

import json
import socket
from pathlib import Path

SECONDS = 10.0
"""The longest that an answer is waited for: an agent that was stopped gives none."""


class ControlFault(Exception):
    """A command that was not done."""


def send_command(path: Path, words: list[str]) -> list[str]:
    """Sends a command, and gives the lines of its answer; ControlFault where there is none, or it is a refusal."""
    answer = b""
    try:
        with socket.socket(socket.AF_UNIX, socket.SOCK_STREAM) as talk:
            talk.settimeout(SECONDS)
            talk.connect(str(path))
            talk.sendall(json.dumps(words).encode() + b"\n")
            while piece := talk.recv(65536):
                answer += piece
    except OSError as error:
        raise ControlFault(f"{path}: {error.strerror or 'no answer'}") from None
    first, *rest = answer.decode("utf-8", "replace").splitlines() or ["no answer"]
    if first != "ok":
        raise ControlFault(first.removeprefix("error: "))
    return rest
