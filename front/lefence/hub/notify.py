"""Messages of a hub to systemd: ready, alive, stopping."""

from __future__ import annotations

import contextlib
import os
import socket


def notify(*words: str, patience: float = 1) -> None:
    """Sends words such as `READY=1` to the socket that systemd named; without one it does nothing.

    It waits at most `patience` seconds for a socket that accepts nothing.
    """
    path = os.environ.get("NOTIFY_SOCKET", "")
    if path[:1] not in ("/", "@"):
        return
    with socket.socket(socket.AF_UNIX, socket.SOCK_DGRAM) as end, contextlib.suppress(OSError):
        end.settimeout(patience)
        end.sendto(
            "\n".join(words).encode("utf-8", "backslashreplace"), path.replace("@", "\0", 1) if path[0] == "@" else path
        )


def notify_alive(is_ready: bool) -> None:
    """Sends that the start is in progress or the main loop is running. Call it at least every few seconds."""
    notify("WATCHDOG=1" if is_ready else "EXTEND_TIMEOUT_USEC=60000000", patience=0)
