"""Connected clients, the sessions they own, and per-user limits on both."""

from __future__ import annotations

import os
import shutil
from dataclasses import dataclass
from pathlib import Path

from ..base.clock import Clock
from .connection import Client, Entry

# Clients per socket.
MOST_CLIENTS = 256
# The part of a socket's connections and of a team's sessions that one user may have. The hub's own user has no such
# limit.
_QUOTA = 3 / 4
# The most bytes of a socket's unread replies on the disk, and the bytes that stay free there.
_MOST_UNREAD = 1 << 30
_FREE = 256 << 20


@dataclass
class SessionOwner:
    """The client that opened a session, or None if that was before this start, and the time."""

    client: Client | None
    since: float


class ClientPool:
    """Connected clients, slow readers, and session owners."""

    def __init__(self, slots: int, clock: Clock) -> None:
        """Makes an empty pool, given the session slots of a team."""
        self._slots = slots
        self._clock = clock
        self.most_clients = MOST_CLIENTS
        self.clients: set[Client] = set()
        self.slow: set[Client] = set()
        # The owner of each open session, by team and slot number.
        self.owners: dict[tuple[bytes, int], SessionOwner] = {}

    def admit(self, client: Client) -> bool:
        """Adds a new client. Returns False if its socket, or its user there, has too many."""
        others = [other for other in self.clients if _has_same_socket(other, client)]
        of_user = sum(other.uid == client.uid for other in others)
        self.clients.add(client)
        return len(others) < self.most_clients and (
            _is_own(client) or of_user < max(1, int(self.most_clients * _QUOTA))
        )

    def remove(self, client: Client) -> None:
        """Removes a client that is gone; its sessions are still open."""
        self.clients.discard(client)
        self.slow.discard(client)

    def unread_bytes(self) -> int:
        """Bytes of unread replies, summed over slow clients."""
        return sum(client.unread_bytes() for client in self.slow)

    def has_space(self, client: Client, count: int, folder: Path) -> bool:
        """Whether a reply of this length may wait on the disk of the folder."""
        here = sum(other.unread_bytes() for other in self.slow if _has_same_socket(other, client))
        return here + count <= _MOST_UNREAD and shutil.disk_usage(folder).free >= count + _FREE

    def idle(self, seconds: float) -> list[Client]:
        """Lists the clients that have no session, wait for nothing, and were silent for this many seconds."""
        since = self._clock.now() - seconds
        owners = {owner.client for owner in self.owners.values()}
        found = [client for client in self.clients if client.last_heard < since and client not in owners]
        return [
            client
            for client in found
            if not (client.waiting or client.is_busy or client.is_slow or client.is_ended)
        ]

    def orphans(self) -> list[tuple[bytes, int]]:
        """Lists the sessions whose clients are gone."""
        return [session for session, owner in self.owners.items() if owner.client is None or owner.client.is_ended]

    def note(self, fields: list[bytes], reply: bytes, client: Client | None) -> None:
        """Records who opened or closed a session, given an accepted line and its client, or None."""
        if fields[0] == b"open":
            self.own(fields[1], int(reply.split()[1]), client)
        elif fields[0] == b"close":
            # (an earlier journal may lack the owner)
            self.owners.pop((fields[1], int(fields[2])), None)

    def own(self, team: bytes, number: int, client: Client | None) -> None:
        """Records the owner of a session from now on."""
        self.owners[team, number] = SessionOwner(client, self._clock.date())

    def over_quota(self, batch: list[Entry]) -> list[Entry]:
        """Lists the lines of the batch that would give a user too many sessions of a team."""
        found = []
        counts: dict[tuple[bytes, int], int] = {}
        closed: set[tuple[bytes, int]] = set()
        for entry in batch:
            client = entry.client
            if (session := _session_of_close(entry)) and session not in closed and (owner := self.owners.get(session)):
                closed.add(session)
                if owner.client:
                    key = session[0], owner.client.uid
                    counts[key] = counts.get(key, self._session_count(*key)) - 1
            if (
                not entry.is_pending
                or entry.verb != b"open"
                or len(entry.fields) != 2
                or client is None
                or _is_own(client)
            ):
                continue
            key = entry.fields[1], client.uid
            counts[key] = counts.get(key, self._session_count(*key)) + 1
            if counts[key] > max(1, self._slots * _QUOTA):
                found.append(entry)
        return found

    def _session_count(self, team: bytes, uid: int) -> int:
        """Counts the sessions of a team that the clients of a user own."""
        owners = [self.owners.get((team, number)) for number in range(self._slots)]
        return sum(each is not None and each.client is not None and each.client.uid == uid for each in owners)


def _session_of_close(entry: Entry) -> tuple[bytes, int] | None:
    """The session that a line closes."""
    if entry.verb == b"close" and len(entry.fields) == 3 and entry.fields[2].isdigit():
        return entry.fields[1], int(entry.fields[2])
    return None


def _has_same_socket(one: Client, other: Client) -> bool:
    """Whether two clients are of one team, and both of its query socket or both of the other one."""
    return one.team == other.team and type(one) is type(other)


def _is_own(client: Client) -> bool:
    """Whether a client has the hub's own user, who could end the hub anyway."""
    return client.uid == os.geteuid()
