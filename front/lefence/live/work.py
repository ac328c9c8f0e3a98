"""The lines that pages send: to a team's socket if the page may work for the team, else to its query socket.

Each page has a session of its own. A change is sent only if the page shows the revision that its session has seen. So
nobody overwrites by a page what the page does not show.
"""

from __future__ import annotations

import threading
from dataclasses import dataclass, field
from pathlib import Path
from typing import Any

from ..base.protocol import CHANGE_VERBS, REVISIONS, fields_of, query_socket_name, socket_name
from ..client.blocking import Connection, connect
from ..client.refusals import refusal_of

# Verbs that a page may send, without the team and the number of a session. The server opens sessions itself.
QUERIES = frozenset({b"where", b"find", b"check", b"sync"})
CHANGES = CHANGE_VERBS - {b"open", b"close", b"sync"} | {b"savepoint"}
# Seconds to wait for a reply.
_PATIENCE = 120.0


class Refused(Exception):
    """A line that is not sent; the text says why."""


@dataclass
class Seat:
    """A page's connection to a team: the number of its session, and the revision that this has seen."""

    connection: Connection | None = None
    number: int = 0
    revision: int = 0
    turn: threading.Lock = field(default_factory=threading.Lock)


class Work:
    """The connections of all pages."""

    def __init__(self, folder: Path, editable: list[str]) -> None:
        """Makes no connection yet. Pages may change the `editable` teams."""
        self.editable = editable
        self._folder = folder
        self._seats: dict[tuple[str, str], Seat] = {}
        self._lock = threading.Lock()

    def send(self, page: str, team: str, line: str, shown: int) -> dict[str, Any]:
        """Sends a line without its team and session, given the revision that the page shows.

        Returns the whole line, its reply, and a refusal in words. Raises Refused if the line must not be sent, OSError
        if the hub is gone.
        """
        verb, *fields = fields_of(line.encode("ascii", "replace")) or [b""]
        if verb not in QUERIES | CHANGES:
            raise Refused(f"a page cannot send {verb.decode() or 'this line'}")
        if verb in CHANGES and team not in self.editable:
            raise Refused(f"this page may not change team {team}: lefence-view --edit {team} allows it")
        with self._lock:
            seat = self._seats.setdefault((page, team), Seat())
        with seat.turn:
            try:
                return self._send(seat, team, verb, fields, shown)
            except OSError:
                self._leave(seat)
                raise

    def _send(self, seat: Seat, team: str, verb: bytes, fields: list[bytes], shown: int) -> dict[str, Any]:
        if seat.connection is None:
            is_editable = team in self.editable
            name = socket_name(team) if is_editable else query_socket_name(team)
            seat.connection = connect(self._folder / name, timeout=_PATIENCE)
            reply = seat.connection.ask_line(b"open " + team.encode())
            if not reply.startswith(b"ok "):
                self._leave(seat)
                return _answer(b"open " + team.encode(), reply)
            seat.number, seat.revision = (int(word) for word in reply.split()[1:3])
        session = [] if verb == b"savepoint" else [b"%d" % seat.number]
        whole = b" ".join([verb, team.encode(), *session, *fields])
        if verb in REVISIONS and shown < seat.revision:
            return _answer(whole, b"no 4 Stale %d\n" % seat.revision)
        reply = seat.connection.ask_line(whole)
        if reply.startswith(b"ok ") and verb in REVISIONS | {b"sync"}:
            seat.revision = int(reply.split()[1])
        return {**_answer(whole, reply), "revision": seat.revision}

    def leave(self, page: str) -> None:
        """Ends the sessions of a page that is gone."""
        with self._lock:
            seats = [self._seats.pop(key) for key in list(self._seats) if key[0] == page]
        for seat in seats:
            with seat.turn:
                self._leave(seat)

    def _leave(self, seat: Seat) -> None:
        if seat.connection is not None:
            seat.connection.close()
            seat.connection = None


def _answer(line: bytes, reply: bytes) -> dict[str, Any]:
    """A reply for the page: with a refusal in words, and the cells that it names."""
    text = reply.decode("ascii", "backslashreplace").strip()
    refusal = refusal_of(reply)
    words = refusal.words() if refusal else None
    return {"line": line.decode("ascii"), "reply": text, "refusal": words, "fields": refusal.fields if refusal else ()}
