"""The line `changes TEAM REV` of the hub: which changes a team has made since a revision.

A client that shows a team reads the team once, and after that only what has changed. The changes are those of the
journal, as lines with their replies: `place`, `legalize`, `unplace` and `swap` name the cells that they move.
"""

from __future__ import annotations

import json
from collections import defaultdict, deque
from typing import Any, NamedTuple

from ..base.clock import Clock
from ..base.protocol import REVISIONS
from .connection import Entry
from .metrics import Metrics, TeamMetrics

# The number of changes that are kept for each team.
KEPT = 512


class Change(NamedTuple):
    """An accepted change of a team: the revision that it made, its line and reply, when it was kept, and whose it is.

    `socket` is the team's name or `operator`.
    """

    revision: int
    line: str
    reply: str
    time: float
    socket: str
    uid: int
    pid: int


class RecentChanges:
    """Keeps the last changes of each team since this start of the hub, and tells them."""

    def __init__(self, metrics: Metrics, clock: Clock) -> None:
        """Makes an empty list; `metrics` has the present revisions."""
        self._metrics = metrics
        self._clock = clock
        self._kept: defaultdict[bytes, deque[Change]] = defaultdict(lambda: deque(maxlen=KEPT))

    def note(self, entries: list[Entry]) -> None:
        """Adds changes that are on the disk, in the order of the journal."""
        now = self._clock.date()
        for entry in entries:
            client = entry.client
            if client and entry.verb in REVISIONS:
                team, reply = entry.fields[1], bytes(entry.reply_text)
                words = reply.split()
                socket = "operator" if client.team is None else client.team.decode()
                who = socket, client.uid, client.pid
                self._kept[team].append(Change(int(words[1]), entry.line.decode(), reply.decode().strip(), now, *who))

    def reply_to(self, team: bytes, known: int) -> bytes:
        """Returns `ok REV CHANGES`: the present revision, and the changes since the known one as JSON.

        CHANGES is null if they are not all kept: the client must read the team again.
        """
        present = self._metrics.teams.get(team, TeamMetrics()).revision
        found: list[dict[str, Any]] | None = [
            change._asdict() for change in self._kept[team] if known < change.revision <= present
        ]
        if known > present or (found is not None and len(found) != present - known):
            found = None
        return b"ok %d %b\n" % (present, json.dumps(found, separators=(",", ":")).encode())
