"""The owner of a journal: the host, boot and process that append to it, as the journal's notes record."""

from __future__ import annotations

import os
import re
import socket
from dataclasses import dataclass
from pathlib import Path

from .. import __version__
from ..base.faults import FAILED, Fault
from .frames import sum_of

# The note of a hub that has ended; after it the journal has no owner.
ENDED = b"ended"
_OWNER = re.compile(r"owner (\S+) (\S+) (\d+) (\d+) front (\S+) program (\S+)")
_BOOT = Path("/proc/sys/kernel/random/boot_id")


@dataclass(frozen=True)
class Owner:
    """A hub: its host and boot, its process and start time (in ticks of the boot), its version and its program.

    The program is given by the first 16 digits of its SHA-256.
    """

    host: str
    boot: str
    pid: int
    started: int
    front: str
    program: str

    def note(self) -> bytes:
        """Formats the owner as a note of the journal."""
        process = f"{self.host} {self.boot} {self.pid} {self.started}"
        return f"owner {process} front {self.front} program {self.program}".encode()

    def __str__(self) -> str:
        return f"process {self.pid} of host {self.host}"


class OwnerHistory:
    """The owners of a journal, from its notes in order."""

    def __init__(self) -> None:
        # The last hub, and whether it has not ended.
        self.last: Owner | None = None
        self.is_open = False

    def add_note(self, note: bytes) -> None:
        """Takes the next note into account."""
        self.last = owner_of(note) or self.last
        self.is_open = note != ENDED

    def refuse_owner(self, own: Owner, path: Path) -> None:
        """Raises a Fault if the last hub may be running."""
        if self.last and self.is_open and (reason := reason_in_use(self.last, own)):
            raise Fault(FAILED, f"{path}: {reason}; if that hub is gone, use --takeover")


def owner_of(note: bytes) -> Owner | None:
    """Parses the owner of a note; None if the note is of another kind."""
    found = _OWNER.fullmatch(note.decode("ascii", "replace"))
    return Owner(found[1], found[2], int(found[3]), int(found[4]), found[5], found[6]) if found else None


def this_process(program: str | None = None) -> Owner:
    """Returns this process as an owner, with the program at that path."""
    host = re.sub(r"[^!-~]", "?", socket.gethostname()) or "?"
    return Owner(
        host,
        _boot(),
        os.getpid(),
        _start_time(os.getpid()) or 0,
        __version__,
        sum_of(Path(program))[:16] if program else "-",
    )


def reason_in_use(owner: Owner, own: Owner) -> str | None:
    """Returns why an owner may still be using its journal; None if its process is certainly gone."""
    if owner.host != own.host:
        return f"{owner} has not ended it and may be using it"
    if owner.boot != own.boot or owner.pid == own.pid:
        return None
    return f"{owner} is using it" if _start_time(owner.pid) == owner.started else None


def _boot() -> str:
    try:
        return _BOOT.read_text().strip()
    except OSError:
        return "-"


def _start_time(pid: int) -> int | None:
    """Returns the start time of a process, or None if there is none."""
    try:
        return int(Path(f"/proc/{pid}/stat").read_text().rpartition(")")[2].split()[19])
    except (OSError, IndexError, ValueError):
        return None
