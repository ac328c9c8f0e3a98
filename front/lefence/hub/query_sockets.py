"""The query sockets of teams, for clients that change nothing. A session there takes no slot, and no line is journaled.

The reply to a query does not depend on its session. So the program gets it in an open session of the team, or in one
that is opened for it and closed at once. The hub itself answers `open`, `sync` and `close` there, and its own lines
`wait`, `changes` and `uncommitted`.
"""

from __future__ import annotations

from collections import defaultdict
from collections.abc import Awaitable, Callable, Iterable

from ..base.faults import FAILED, Fault
from ..base.protocol import CHANGE_VERBS, is_number
from .client_pool import ClientPool
from .connection import DEFERRED, NOT_DONE, PENDING, Client, Deferred, Entry, Host, Pending, Reply
from .metrics import Metrics, TeamMetrics
from .recent_changes import RecentChanges
from .uncommitted_places import UncommittedPlaces

# Executes lines; returns the replies and the program's seconds.
Execute = Callable[[list[bytes]], Awaitable[tuple[list[bytes], float]]]

_BAD_REQUEST, _NO_TEAM, _QUERIES_ONLY = b"no 1 BadRequest\n", b"no 2 NoTeam\n", b"no 15 QueriesOnly\n"
# The number of words of the lines that a hub answers itself on a query socket. A third word is a number.
_OWN = {b"open": 2, b"sync": 3, b"close": 3, b"wait": 3, b"changes": 3, b"uncommitted": 2}
_REFUSED = CHANGE_VERBS | {b"savepoint"}


class QueryClient(Client):
    """A client of a team's query socket. All of them have turns as one user of the team, who is charged fourfold."""

    cost = 4

    def __init__(self, host: Host, team: bytes, queries: Queries) -> None:
        super().__init__(host, team)
        self._queries = queries

    @property
    def user(self) -> str:
        return "queries"

    def next_entry(self, keeps_reading: bool) -> Entry:
        entry = super().next_entry(keeps_reading)
        if not entry.is_pending:
            return entry
        match self._queries.reply_to(self, entry.fields):
            case Pending():
                return entry
            case reply:
                # (without fields: it opens and closes no session of the program)
                return Entry(self, [], reply)

    def connection_lost(self, error: Exception | None) -> None:
        self._queries.remove(self)
        super().connection_lost(error)


class Queries:
    """Answers the lines of query sockets, given the open sessions and the revisions of a hub's teams."""

    def __init__(
        self, pool: ClientPool, metrics: Metrics, changes: RecentChanges, uncommitted: UncommittedPlaces
    ) -> None:
        self._pool = pool
        self._metrics = metrics
        self._changes = changes
        self._uncommitted = uncommitted
        # Clients that wait until their team's revision is above a number, by team.
        self._waiting: defaultdict[bytes, dict[QueryClient, int]] = defaultdict(dict)
        self._is_ending = False

    def reply_to(self, client: QueryClient, fields: list[bytes]) -> Reply:
        """Returns the reply to a line that the hub itself answers, or that it comes later; `Pending` if the program
        answers the line.
        """
        verb = fields[0] if fields else b""
        if verb in _OWN:
            return self._own_reply_to(client, fields)
        return _QUERIES_ONLY if verb in _REFUSED else PENDING

    def _own_reply_to(self, client: QueryClient, fields: list[bytes]) -> bytes | Deferred:
        verb, *words = fields
        if len(fields) != _OWN[verb] or not all(map(is_number, words[1:])):
            return _BAD_REQUEST
        if words[0] != client.team:
            return _NO_TEAM
        revision = self._revision(words[0])
        if verb == b"wait":
            return self._wait(client, revision, int(words[1]))
        if verb == b"changes":
            return self._changes.reply_to(words[0], int(words[1]))
        if verb == b"uncommitted":
            return self._read_uncommitted(client)
        return {b"open": b"ok 0 %d\n" % revision, b"sync": b"ok %d\n" % revision, b"close": b"ok\n"}[verb]

    def _wait(self, client: QueryClient, revision: int, known: int) -> bytes | Deferred:
        if revision > known:
            return b"ok %d\n" % revision
        if self._is_ending:
            return NOT_DONE
        client.is_busy = True
        self._waiting[client.team or b""][client] = known
        return DEFERRED

    def _read_uncommitted(self, client: QueryClient) -> bytes | Deferred:
        if self._is_ending:
            return NOT_DONE
        reply = self._uncommitted.reply_to(client.team or b"", lambda reply: self._answer(client, reply))
        client.is_busy = isinstance(reply, Deferred)
        return reply

    def _revision(self, team: bytes) -> int:
        return self._metrics.teams.get(team, TeamMetrics()).revision

    def answer_waiting(self, teams: Iterable[bytes]) -> None:
        """Answers the clients that wait for a revision that one of these teams has now."""
        for team in teams:
            revision = self._revision(team)
            for client in [each for each, known in self._waiting[team].items() if revision > known]:
                self._answer(client, b"ok %d\n" % revision)

    def end(self) -> None:
        """Refuses the lines that wait for a revision, also those that follow."""
        self._is_ending = True
        self._uncommitted.end()
        for client in [client for clients in self._waiting.values() for client in clients]:
            self._answer(client, NOT_DONE)

    def _answer(self, client: QueryClient, reply: bytes) -> None:
        """Answers a client that waits; its next line may be executed."""
        self.remove(client)
        client.is_busy = False
        client.reply(reply)
        client.flush()
        client.host.enqueue(client)

    def remove(self, client: QueryClient) -> None:
        """Forgets a client that waits."""
        self._waiting[client.team or b""].pop(client, None)

    async def execute(self, entries: list[Entry], execute: Execute) -> tuple[list[bytes], float]:
        """Executes the lines of a batch between two others; returns their replies and the program's seconds. Queries of
        query sockets come first, in sessions that are open then.
        """
        queries: defaultdict[bytes, list[Entry]] = defaultdict(list)
        for entry in entries:
            if isinstance(entry.client, QueryClient):
                queries[entry.client.team or b""].append(entry)
        if not queries:
            return await execute([entry.line for entry in entries])
        lines: list[bytes] = []
        places: dict[Entry, int] = {}
        opened, last = {}, list[bytes]()
        for team, members in queries.items():
            number = min((slot for owner, slot in self._pool.owners if owner == team), default=None)
            if number is None:
                opened[team] = len(lines)
                lines.append(b"open " + team)
            for entry in members:
                places[entry] = len(lines)
                lines.append(_line_in(entry, number or 0))
            if number is None:
                # (a `def`, which is alone in its batch, must be the last line)
                (last if members[-1].verb == b"def" else lines).append(b"close %b 0" % team)
        for entry in entries:
            if entry not in places:
                places[entry] = len(lines)
                lines.append(entry.line)
        replies, seconds = await execute(lines)
        for team, at in opened.items():
            if replies[at] == NOT_DONE:
                # (the program died at this `open`: without a session nothing was asked)
                for entry in queries[team]:
                    replies[places[entry]] = NOT_DONE
            else:
                _refuse_unknown_session(team, replies[at])
        seconds += (await execute(last))[1] if last else 0
        return [replies[places[entry]] for entry in entries], seconds


def _line_in(entry: Entry, number: int) -> bytes:
    """The line of a query in the session with this number, whatever session it names."""
    verb, *words = entry.fields or [b""]
    if len(words) > 1 and is_number(words[1]):
        words[1] = b"%d" % number
    return b" ".join([verb, *words])


def _refuse_unknown_session(team: bytes, reply: bytes) -> None:
    """Raises a Fault if the session that was opened for queries is not the first one: it would be another client's."""
    if not reply.startswith(b"ok 0 "):
        text = reply.decode("ascii", "backslashreplace").strip()
        raise Fault(FAILED, f"team {team.decode()}: no session is open, but `open` is answered {text}")
