"""Secrets and lease ids that stand in files of their own, as Vault Agent's sink writes them."""

from __future__ import annotations

import os
import stat
from pathlib import Path

from .values import CREDENTIAL

MOST = 4096


class SecretFault(Exception):
    """A file that holds no secret: the words say why, and hold nothing of it."""


def read_secret(path: Path) -> str:
    """The secret that the file holds, without the blanks around it; SecretFault where it holds none."""
    try:
        handle = os.open(path, os.O_RDONLY | os.O_CLOEXEC | os.O_NONBLOCK)
        try:
            data = os.read(handle, MOST) if stat.S_ISREG(os.fstat(handle).st_mode) else None
        finally:
            os.close(handle)
    except (OSError, ValueError) as error:
        raise SecretFault(f"cannot be read: {getattr(error, 'strerror', None) or 'no such name'}") from None
    text = (data or b"").decode("latin-1").strip()
    if not CREDENTIAL.fullmatch(text):
        raise SecretFault("holds no secret of 1 to 256 printable ASCII characters" if data is not None else "is not a regular file")
    return text
