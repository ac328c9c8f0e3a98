"""Lines that the hub itself answers while it serves: the operator's, and the savepoints of teams.

- `status`
- `drop PID`: ends the connections of a process; the reply has their number.
- `freeze TEAM`, `thaw TEAM`: changes of the team's clients are refused (`no 14 Frozen`), and are so no longer. The
  operator can still change it. A start of the hub thaws all teams. The hub itself freezes a team whose replies do not
  fit the journal, for everybody.
- `state`: saves a state now, as a checkpoint does.
- `changes TEAM REV`: the team's changes since a revision, as on its query socket.
- `savepoint TEAM NAME`, also on the team's socket: names the team's present places in the journal.
"""

from __future__ import annotations

from collections.abc import Callable

from ..base.protocol import CHANGE_VERBS, REVISIONS, is_number
from .checkpoints import Checkpoints
from .client_pool import ClientPool
from .connection import Entry
from .journal_writer import JournalWriter
from .recent_changes import RecentChanges

_BAD_REQUEST, _NO_TEAM, _DONE = b"no 1 BadRequest\n", b"no 2 NoTeam\n", b"ok\n"
# The reply to a change of a frozen team.
FROZEN = b"no 14 Frozen\n"


class Operator:
    """Answers such lines, and knows the frozen teams. The hub calls a method at three points of a batch."""

    def __init__(
        self,
        pool: ClientPool,
        writer: JournalWriter,
        checkpoints: Checkpoints,
        changes: RecentChanges,
        status: Callable[[], bytes],
    ) -> None:
        self.teams: frozenset[bytes] = frozenset()
        self._pool = pool
        self._writer = writer
        self._checkpoints = checkpoints
        self._changes = changes
        self._status = status
        self._frozen: set[bytes] = set()
        # Teams whose replies do not fit the journal.
        self.diverged: set[bytes] = set()

    def reply_to(self, entry: Entry) -> bytes | None:
        """Does what a line of the operator says, and returns its reply; None for any other line."""
        client = entry.client
        if client is None or client.team is not None:
            return None
        match entry.fields:
            case [b"status"]:
                return b"ok %b\n" % self._status()
            case [b"state"]:
                self._checkpoints.is_requested = bool(self._writer.journal.tail_changes)
                return _DONE
            case [b"changes", team, revision]:
                if team not in self.teams:
                    return _NO_TEAM
                return self._changes.reply_to(team, int(revision)) if is_number(revision) else _BAD_REQUEST
            case [b"drop", pid]:
                return self._drop(int(pid)) if pid.isdigit() else _BAD_REQUEST
            case [b"freeze" | b"thaw" as verb, team]:
                if team not in self.teams:
                    return _NO_TEAM
                (self._frozen.add if verb == b"freeze" else self._frozen.discard)(team)
                if verb == b"thaw":
                    self.diverged.discard(team)
                return _DONE
        return None

    def _drop(self, pid: int) -> bytes:
        """Ends the connections of a process to the teams' sockets."""
        found = [client for client in self._pool.clients if client.pid == pid and client.team is not None]
        for client in found:
            client.transport.abort()
        return b"ok %d\n" % len(found)

    def is_frozen(self, team: bytes) -> bool:
        """Whether the operator has frozen the team."""
        return team in self._frozen

    def refuse_frozen(self, batch: list[Entry]) -> None:
        """Refuses the changes of frozen teams by their clients, and those of diverged teams by any client."""
        for entry in batch if self._frozen or self.diverged else []:
            if entry.client is None or not entry.is_pending:
                continue
            is_frozen = entry.verb in REVISIONS and entry.client.team in self._frozen
            if is_frozen or entry.verb in CHANGE_VERBS and team_of(entry) in self.diverged:
                entry.reply = FROZEN

    async def write_savepoints(self, batch: list[Entry]) -> None:
        """Answers the savepoints of a batch that is in the journal. They are at the end of a batch."""
        for entry in batch:
            if is_savepoint(entry):
                team, name = entry.fields[1:]
                if team not in self.teams:
                    entry.reply = _NO_TEAM
                elif name.isdigit():
                    # (in `--at` a number is one of a change)
                    entry.reply = _BAD_REQUEST
                else:
                    is_kept = await self._writer.add_note(b"savepoint %b %b" % (team, name))
                    entry.reply = _DONE if is_kept else b"no 12 OutOfMemory\n"


def team_of(entry: Entry) -> bytes:
    """The team that the line names, or empty."""
    return entry.fields[1] if len(entry.fields) > 1 else b""


def is_savepoint(entry: Entry) -> bool:
    """Whether the line is `savepoint TEAM NAME`."""
    return entry.verb == b"savepoint" and len(entry.fields) == 3 and entry.client is not None
