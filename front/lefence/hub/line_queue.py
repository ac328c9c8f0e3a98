"""The queue of a hub's program: whose line it executes next."""

from __future__ import annotations

import heapq
import itertools
from collections import Counter
from collections.abc import Callable, Hashable, Iterable

from ..base.protocol import UNBOUNDED
from .connection import Client, Entry

# Commands that may take as long as their team is large, exports, and savepoints. Each is alone in its batch.
ALONE = UNBOUNDED | {b"tidy", b"commit", b"revert", b"undo", b"export", b"savepoint"}
# The most lines of a batch, and the seconds above and below which the next batches get fewer or more.
_BATCH = 1024
_SLOW, _FAST = 0.02, 0.005
# The least seconds charged for a line, already when it is taken. So the lines of one batch come from all in turn.
_LEAST = 5e-6


class _Share:
    """A team, a user of it, or a client of that: its used seconds, and its members with lines, the least used first."""

    __slots__ = ("client", "clock", "cost", "is_queued", "members", "parent", "queued", "used")

    def __init__(self, parent: _Share | None, client: Client | None = None, cost: int = 1) -> None:
        self.parent = parent
        self.client = client
        # How often it is charged for what it uses.
        self.cost = cost
        self.members: dict[Hashable, _Share] = {}
        self.used = 0.0
        # A heap of members, with the seconds that each had used when it was queued, and a number that orders equals.
        self.queued: list[tuple[float, int, _Share]] = []
        self.is_queued = False
        # The used seconds of the member that had the last turn.
        self.clock = 0.0


class LineQueue:
    """Clients with lines that may be executed, and whose turn it is.

    The next line is that of the team that has used the least seconds of the program; in this team, of the least used
    user; and among that user's clients, of the least used. The operator's socket counts as a team. Each line is charged
    with an equal part of its batch's seconds.

    A team that comes back after a pause starts at the seconds of the team that had the last turn: a pause earns
    nothing. So a new line of a team with little work waits for the batch that is being executed, whatever the others
    have queued. A command of a whole team is alone in its batch, and is dropped if its client is gone.
    """

    def __init__(self, may_take: Callable[[Client], bool] = Client.is_ready) -> None:
        """Makes an empty queue. It takes the next line of a client only while `may_take` allows it."""
        self._may_take = may_take
        self._root = _Share(None)
        self._clients: dict[Client, _Share] = {}
        self._numbers = itertools.count()
        self._budget = _BATCH

    def add(self, client: Client) -> None:
        """Queues a client with a line that may be executed. Nothing changes if it is queued."""
        share: _Share | None = self._clients.get(client)
        if share is None:
            share = self._clients[client] = _Share(self._user(client), client)
        while share and share.parent and not share.is_queued:
            parent = share.parent
            share.is_queued, share.used = True, max(share.used, parent.clock)
            heapq.heappush(parent.queued, (share.used, next(self._numbers), share))
            share = parent

    def remove(self, client: Client) -> None:
        """Drops a client that is gone, with its lines."""
        client.waiting.clear()
        self._clients.pop(client, None)

    def next_batch(self, keeps_reading: bool) -> list[Entry]:
        """Takes the next lines: one command of a whole team, or others; `keeps_reading` allows to read more lines."""
        batch: list[Entry] = []
        while len(batch) < self._budget and (client := self._first()):
            is_alone = client.next_verb() in ALONE
            if is_alone and batch:
                break
            if is_alone and client.is_gone():
                self.remove(client)
                client.transport.abort()
                continue
            batch.append(client.next_entry(keeps_reading))
            self._count(self._clients[client])
            if is_alone:
                break
        return batch

    def charge(self, batch: list[Entry], seconds: float) -> None:
        """Charges the lines of an executed batch, and adapts the number of lines of the next ones."""
        more = max(0.0, seconds / len(batch) - _LEAST)
        for client, count in Counter(entry.client for entry in batch if entry.client).items():
            share: _Share | None = self._clients.get(client) or self._user(client)
            while share:
                share.used += more * count * share.cost
                share = share.parent
        if batch[0].verb not in ALONE:
            self._adapt(seconds)

    def _adapt(self, seconds: float) -> None:
        if seconds > _SLOW:
            self._budget = max(1, self._budget // 2)
        elif seconds < _FAST:
            self._budget = min(_BATCH, self._budget * 2)

    def _user(self, client: Client) -> _Share:
        """The share of the client's user in its team."""
        share = self._root
        for key, cost in ((client.team, 1), (client.user, client.cost)):
            if key not in share.members:
                share.members[key] = _Share(share, cost=cost)
            share = share.members[key]
        return share

    def _first(self) -> Client | None:
        """Returns the client whose turn it is. It stays queued."""
        share = self._root
        while share.queued:
            used, _, member = share.queued[0]
            if used < member.used:
                # (it was charged since)
                heapq.heapreplace(share.queued, (member.used, next(self._numbers), member))
                continue
            share = member
            if share.client is None:
                continue
            if self._may_take(share.client):
                return share.client
            self._pop()
            share = self._root
        return None

    def _pop(self) -> None:
        """Takes the client whose turn it is out of the queue, and its user and team if they have no other."""
        path = [self._root]
        while path[-1].queued:
            path.append(path[-1].queued[0][2])
        for share in reversed(path[1:]):
            if share.queued:
                break
            share.is_queued = False
            assert share.parent
            heapq.heappop(share.parent.queued)

    def _count(self, share: _Share | None) -> None:
        """Charges a client, its user and its team for a taken line with the least seconds."""
        while share and share.parent:
            share.parent.clock = max(share.parent.clock, share.used)
            share.used += _LEAST * share.cost
            share = share.parent


def clients_of(batch: Iterable[Entry]) -> set[Client]:
    """The clients of a batch's lines."""
    return {entry.client for entry in batch if entry.client}
