"""Pushes into a team that others change meanwhile: changes go through a session of their own, at the present revision.

A reply must be the recorded one but for its session and its revision.
"""

from __future__ import annotations

import itertools
from collections.abc import Iterable, Iterator
from contextlib import ExitStack
from pathlib import Path

from ..base.faults import FAILED, REFUSED, Fault
from ..base.protocol import REVISIONS
from ..client.blocking import Session
from ..client.endpoint import connect_to
from ..client.refusals import Refusal
from .records import Difference, Record, is_recorded_reply, records_of, revision_of

# How often a line that is Stale is sent again.
_TURNS = 1000
_STALE = b"no 4 "


def rebased(record: Record, session: int, offset: int) -> Record:
    """Returns a change for another session, at a revision that is `offset` greater."""
    number, line, reply = record
    verb, team, _, *fields = line.split()
    accepted, revision, *rest = reply.split()
    words = b" ".join([accepted, b"%d" % (int(revision) + offset), *rest])
    return number, b" ".join([verb, team, b"%d" % session, *fields]), words + reply[len(reply.rstrip(b"\n")) :]


class TeamPush:
    """Sends one team's changes through an open session.

    If another client has changed the team, a line is Stale; then it is sent again after a sync. An `undo` is not: it
    would take back the other's change. A `revert` is sent only after a `commit`.
    """

    def __init__(self, session: Session, first: int = 0) -> None:
        """Makes a push of records that begin at the revision `first`."""
        self.revision = session.first_revision
        # The number of changes with recorded replies; whether another client has changed the team.
        self.count, self.is_disturbed = 0, False
        self._session = session
        self._offset = session.first_revision - first
        self._has_commit = False

    def send(self, records: list[Record]) -> None:
        """Sends changes at once. Raises a Difference if a reply is another one; later ones may be done then."""
        connection, number = self._session.connection, self._session.number
        for turn in range(_TURNS):
            lines = [rebased(record, number, 0)[1] for record in self._checked(records)]
            if turn:
                sync = connection.send(b"sync %b %d" % (self._session.team.encode(), number))
            sent = [connection.send(line) for line in lines]
            connection.flush()
            if turn:
                self._rebase(connection.wait(sync), records[0])
            replies = [connection.wait(each) for each in sent]
            answered = [*itertools.takewhile(lambda reply: not reply.startswith(_STALE), replies)]
            for record, reply in zip(records, answered):
                self._compare(rebased(record, number, self._offset), reply)
            records = records[len(answered) :]
            if not records:
                return
            self.is_disturbed = True
        raise Fault(REFUSED, f"team {self._session.team}: others change it faster than lines can be sent")

    def _checked(self, records: list[Record]) -> Iterator[Record]:
        """Yields the changes. Raises a Fault before one that would take back others' changes."""
        for record in records:
            verb = record[1].split()[0]
            is_safe = not self.is_disturbed and (verb == b"undo" or self._has_commit)
            if verb in (b"undo", b"revert") and not is_safe:
                why = "others have changed the team" if self.is_disturbed else "no commit of this file comes before it"
                raise Fault(REFUSED, f"line {record[0]}: a `{verb.decode()}` cannot be rebased: {why}")
            self._has_commit = self._has_commit or verb == b"commit"
            yield record

    def _rebase(self, reply: bytes, following: Record) -> None:
        """Continues at the team's revision, given the reply to a sync."""
        words = reply.split()
        if words[:1] != [b"ok"]:
            raise Fault(REFUSED, f"sync: unexpected reply {reply!r}")
        self.revision = int(words[1])
        self._offset = self.revision + 1 - (revision_of(*following[1:]) or 0)

    def _compare(self, record: Record, reply: bytes) -> None:
        if not is_recorded_reply(reply, record[2]):
            raise Difference(record, reply, self.revision, self.count)
        self.count += 1
        self.revision = revision_of(*record[1:]) or 0


def push_rebased(path: Path, where: str, ahead: int, start: int) -> tuple[int, dict[bytes, int]]:
    """Sends the changes of a journal or a repair from a line on; returns their number and the teams' revisions."""
    records = list(records_of(path))
    endpoint = connect_to(where)
    pushes: dict[bytes, TeamPush] = {}
    try:
        with ExitStack() as sessions:
            for team, changes in _by_team(records).items():
                first = (revision_of(*changes[0][1:]) or 0) - 1
                rest = [record for record in changes if record[0] >= start]
                session = sessions.enter_context(endpoint.connection.session(team.decode()))
                pushes[team] = TeamPush(session, first + len(changes) - len(rest))
                for at in range(0, len(rest), ahead):
                    pushes[team].send(rest[at : at + ahead])
    except (OSError, Refusal) as error:
        count = sum(push.count for push in pushes.values())
        status = REFUSED if isinstance(error, Refusal) else FAILED
        raise Fault(status, f"{error}; {count} lines had their recorded replies") from None
    finally:
        endpoint.close()
    return sum(push.count for push in pushes.values()), {team: push.revision for team, push in pushes.items()}


def _by_team(records: Iterable[Record]) -> dict[bytes, list[Record]]:
    """The records that make revisions, by team. The others are about sessions."""
    found: dict[bytes, list[Record]] = {}
    for record in records:
        verb, team = record[1].split()[:2]
        if verb in REVISIONS:
            found.setdefault(team, []).append(record)
    return found
