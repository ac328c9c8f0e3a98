"""One connection to a socket of a hub: waiting lines, and replies to send."""

from __future__ import annotations

import asyncio
import contextlib
import fcntl
import os
import select
import socket
import struct
import sys
import termios
from collections import deque
from pathlib import Path
from typing import Protocol, final

from ..base.clock import Clock, Timer
from ..base.protocol import MOST_LINE, fields_of
from .spool import Spool

# Waiting lines above which a client is not read; unread bytes above which its lines are not executed, and bytes of a
# reply that goes to a file.
WAITING_LINES = 64
UNREAD_BYTES = 65536
# The reply to a line that is not executed, or whose reply has no room.
NOT_DONE = b"no 12 OutOfMemory\n"
# Bytes per read, and the most reads at the end.
_BUFFER = 16384
_MOST_READS = 64


@final
class Pending:
    """In place of a reply: the line is still to be executed."""

    __slots__ = ()


@final
class Deferred:
    """In place of a reply: the line is not executed, and its reply comes later, for example when an export is done."""

    __slots__ = ()


# The reply to a line, or why it has none yet. The end of a client's input has an empty reply.
Reply = bytes | Pending | Deferred
PENDING, DEFERRED = Pending(), Deferred()


class Entry:
    """One line on its way through the hub, and its reply once it is known. Lines of the hub itself have no client."""

    __slots__ = ("client", "fields", "is_last", "line", "reply", "since", "verb", "who")

    def __init__(
        self, client: Client | None, fields: list[bytes], reply: Reply = PENDING, is_last: bool = False
    ) -> None:
        self.client = client
        self.fields = fields
        self.reply: Reply = reply
        # No more lines of its client follow.
        self.is_last = is_last
        self.verb = fields[0] if fields else b""
        self.line = b" ".join(fields)
        # The client's uid and pid in the journal.
        self.who = client.who if client else b"-"
        # When it arrived. Lines of the hub itself do not arrive.
        self.since = client.taken_since if client else 0.0

    @property
    def is_pending(self) -> bool:
        """Whether the line is still to be executed."""
        return isinstance(self.reply, Pending)

    @property
    def reply_text(self) -> bytes:
        """The reply to a line that has one."""
        assert not isinstance(self.reply, (Pending, Deferred)), self.line
        return self.reply


class Host(Protocol):
    """What a client needs of its hub."""

    clock: Clock
    patience: float
    # A name that is not a team.
    unused_name: bytes
    # The database units per micron.
    units: bytes
    # The folder for files with unread replies.
    folder: Path

    def admit(self, client: Client) -> bool:
        ...

    def enqueue(self, client: Client) -> None:
        ...

    def remove(self, client: Client) -> None:
        ...

    def mark_slow(self, client: Client) -> None:
        ...

    def unmark_slow(self, client: Client) -> None:
        ...

    def has_space(self, client: Client, count: int) -> bool:
        ...

    def log_limited(self, kind: str, text: str) -> None:
        ...


class Client(asyncio.BufferedProtocol):
    """A client of a team, or the operator (`team` is None), who may name any team."""

    # How often a second of the program is charged for its lines.
    cost = 1

    def __init__(self, host: Host, team: bytes | None) -> None:
        self.host = host
        self.team = team
        # Waiting lines; None is the end of the input.
        self.waiting: deque[bytes | None] = deque()
        # When each of them arrived, and when the line arrived that was taken last.
        self._arrivals: deque[float] = deque()
        self.taken_since = 0.0
        # Replies that `flush` sends; and replies that wait until the client has read.
        self._replies: list[bytes] = []
        self._spool: Spool | None = None
        # Many bytes are unread; the reply to its last line comes later; no more lines follow.
        self.is_slow = self.is_busy = self.is_ended = False
        # The connection is to be closed after the last reply.
        self._is_closing = False
        self.transport: asyncio.Transport
        self._buffer = bytearray(_BUFFER)
        # A line without its end.
        self._partial = b""
        self._timer: Timer | None = None
        self.name = ""
        # Its uid and pid in the journal.
        self.who = b"-"
        self.uid = self.pid = -1
        # The time of the last line or reply.
        self.last_heard = host.clock.now()

    def connection_made(self, transport: asyncio.BaseTransport) -> None:
        assert isinstance(transport, asyncio.Transport)
        self.transport = transport
        transport.set_write_buffer_limits(high=UNREAD_BYTES)
        peer = transport.get_extra_info("socket").getsockopt(socket.SOL_SOCKET, socket.SO_PEERCRED, 12)
        self.pid, self.uid, _ = struct.unpack("iIi", peer)
        self.who = b"%d %d" % (self.uid, self.pid)
        team = "operator" if self.team is None else self.team.decode()
        self.name = f"{team} pid {self.pid} uid {self.uid}"
        if not self.host.admit(self):
            self.host.log_limited(f"crowd {team}", f"{self.name}: refused, too many clients")
            transport.abort()

    def get_buffer(self, sizehint: int) -> bytearray:
        return self._buffer

    def buffer_updated(self, count: int) -> None:
        self.last_heard = self.host.clock.now()
        *lines, rest = (self._partial + self._buffer[:count]).split(b"\n")
        # The rest does not matter: the line is too long anyway.
        self._partial = bytes(rest[: MOST_LINE + 1])
        self._arrivals.extend([self.last_heard] * len(lines))
        self.waiting.extend(lines)
        if len(self.waiting) > WAITING_LINES:
            self.transport.pause_reading()
        self.host.enqueue(self)

    def eof_received(self) -> bool:
        if self._partial:
            # A carriage return without a line feed is not an end of line; it makes a bad request.
            self._arrivals.append(self.last_heard)
            self.waiting.append(b"\0" if self._partial.endswith(b"\r") else self._partial)
        self.waiting.append(None)
        self.host.enqueue(self)
        return True

    @property
    def user(self) -> int | str:
        """Whose turns among those of its team it takes."""
        return self.uid

    def is_ready(self) -> bool:
        """Whether it has a line that may be executed."""
        return bool(self.waiting) and not (self.is_slow or self.is_busy or self.is_ended)

    def is_gone(self) -> bool:
        """Whether its end is closed, so that nobody will read a reply."""
        poll = select.poll()
        poll.register(self.transport.get_extra_info("socket").fileno(), 0)
        return any(event & select.POLLHUP for _, event in poll.poll(0))

    def next_verb(self) -> bytes:
        """The first word of the next waiting line."""
        words = (self.waiting[0] or b"").split(None, 1)
        return words[0] if words else b""

    def next_team(self) -> bytes:
        """The second field of the next waiting line, which is a team in most lines."""
        return b" ".join(fields_of(self.waiting[0] or b"")[1:2]) if self.waiting else b""

    def next_is_status(self) -> bool:
        """Whether the next waiting line is the operator's `status`."""
        return self.team is None and fields_of(self.waiting[0] or b"") == [b"status"]

    def next_entry(self, keeps_reading: bool) -> Entry:
        """Takes the next waiting line, in the form that the program gets; `keeps_reading` allows to read more.

        If a line of a team's client names another team, the program gets a name that is not a team.
        """
        line = self.waiting.popleft()
        self.taken_since = self._arrivals.popleft() if self._arrivals else self.host.clock.now()
        if keeps_reading and len(self.waiting) <= WAITING_LINES:
            self.transport.resume_reading()
        fields = fields_of(line) if line is not None else []
        if line is None or fields == [b"bye"]:
            self.is_ended = True
            return Entry(self, [], b"" if line is None else b"ok\n", is_last=True)
        if fields == [b"units"]:
            return Entry(self, fields, b"ok %b\n" % self.host.units)
        if self.team is not None and len(fields) > 1 and fields[1] != self.team:
            fields[1] = self.host.unused_name
        return Entry(self, fields)

    def unread_bytes(self) -> int:
        """The bytes of replies that the client has not read, except for those that the system holds."""
        return self.transport.get_write_buffer_size() + (self._spool.size if self._spool else 0)

    def reply(self, text: bytes) -> None:
        """Adds a reply to send. A long one goes to a file; if there is no room for it, it becomes a refusal."""
        if len(text) <= UNREAD_BYTES:
            self._replies.append(text)
            return
        self.flush()
        try:
            if not self.host.has_space(self, len(text)):
                raise OSError("the unread replies of this socket have no room")
            self._append(text)
        except OSError as error:
            self.host.log_limited("no room", f"{self.name}: a reply of {len(text)} bytes is refused: {error}")
            self._replies.append(NOT_DONE)
            if self._spool and not self._spool.size:
                self._close_spool()

    def flush(self) -> None:
        """Sends the replies."""
        self.last_heard = self.host.clock.now()
        text, self._replies = b"".join(self._replies), []
        try:
            if self._spool:
                self._append(text)
            elif not self.transport.is_closing():
                self.transport.write(text)
        except OSError as error:
            self._abort(f"its replies have no room: {error}")

    def _append(self, text: bytes) -> None:
        """Adds bytes to the file, and sends what the client may read. Raises OSError if the disk has no room."""
        self._spool = self._spool or Spool(self.host.folder)
        self._spool.write(text)
        self._send_spool()

    def _send_spool(self) -> None:
        """Sends from the file until the client must read first, or the file is empty."""
        try:
            while self._spool and not (self.is_slow or self.transport.is_closing()):
                if piece := self._spool.read(UNREAD_BYTES):
                    self.transport.write(piece)
                else:
                    self._close_spool()
        except OSError as error:
            self._close_spool()
            self._is_closing = True
            self.host.log_limited("dropped", f"{self.name}: dropped, its replies cannot be read from the disk: {error}")
        if self._is_closing and not self._spool:
            # (not within a call of the transport)
            asyncio.get_running_loop().call_soon(self.transport.close)

    def _close_spool(self) -> None:
        if self._spool:
            self._spool.close()
        self._spool = None

    def _abort(self, reason: str) -> None:
        self.host.log_limited("dropped", f"{self.name}: dropped, {reason}")
        self.transport.abort()

    def disconnect(self) -> None:
        """Ends the connection after the last reply.

        Unread bytes from the client are read and dropped: otherwise the end would be a reset.
        """
        self.is_ended = True
        with contextlib.suppress(OSError):
            for _ in range(_MOST_READS):
                if not os.read(self.transport.get_extra_info("socket").fileno(), _BUFFER):
                    break
        self._is_closing = True
        if not self._spool:
            self.transport.close()
        if self._timer is None and self.transport.get_write_buffer_size():
            # (the transport would wait forever for a client that does not read)
            self._drop_if_slow(sys.maxsize)

    def pause_writing(self) -> None:
        self.is_slow = True
        self.host.mark_slow(self)
        if self._timer is None:
            self._drop_if_slow(sys.maxsize)

    def _drop_if_slow(self, unread_before: int) -> None:
        """Drops the client if it has read nothing since the last call."""
        unread = self.unread_bytes() + self._unread_of_system()
        if unread < unread_before:
            self._timer = self.host.clock.call_later(self.host.patience, self._drop_if_slow, unread)
        else:
            self._abort(f"{unread} bytes unread")

    def _unread_of_system(self) -> int:
        """The bytes that the system holds for the client. They shrink before the bytes of the transport do."""
        held = fcntl.ioctl(self.transport.get_extra_info("socket").fileno(), termios.TIOCOUTQ, bytes(4))
        return int(struct.unpack("i", held)[0])

    def resume_writing(self) -> None:
        self.is_slow = False
        self._send_spool()
        if self.is_slow:
            return
        self.host.unmark_slow(self)
        # (a client that is done must still read the rest)
        if self._timer is not None and not self.is_ended:
            self._timer.cancel()
            self._timer = None
        self.host.enqueue(self)

    def connection_lost(self, error: Exception | None) -> None:
        self.is_ended = True
        self._close_spool()
        if self._timer is not None:
            self._timer.cancel()
        self.host.remove(self)
