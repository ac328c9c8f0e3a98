"""Accepts the connections to the sockets of a hub.

A connection costs the hub's only thread some tenths of a millisecond. So each socket accepts one at a time, between the
lines of others, and a user who connects in a loop waits.
"""

from __future__ import annotations

import asyncio
import select
import socket
import struct
from collections import deque
from collections.abc import Callable
from typing import NamedTuple

from ..base.clock import Clock, Timer

# Connections that may wait for acceptance in the system.
_QUEUE = 1024
# How often a user may connect at once, and a second from then on; how many connections of a user may wait for that.
MOST_AT_ONCE, A_SECOND, MOST_WAITING = 256, 100, 256
# Seconds until a socket accepts again if the system had no descriptor or no memory.
_RETRY = 1

MakeClient = Callable[[], asyncio.BaseProtocol]


class _Waiting(NamedTuple):
    """A connection that waits, and what makes its client."""

    connection: socket.socket
    make: MakeClient


class _User:
    """How often a user may connect at `now`, and the connections of this user that wait, in their order."""

    def __init__(self, now: float) -> None:
        self.waiting: deque[_Waiting] = deque()
        self.timer: Timer | None = None
        self._left = float(MOST_AT_ONCE)
        self._at = now

    def may_connect(self, now: float) -> bool:
        """Whether the user may connect now. It then counts as connected."""
        self._left = min(MOST_AT_ONCE, self._left + (now - self._at) * A_SECOND)
        self._at = now
        if round(self._left, 6) < 1:
            return False
        self._left -= 1
        return True


class Acceptor:
    """The listening sockets of a hub, and the connections that wait."""

    def __init__(self, clock: Clock, log_limited: Callable[[str, str], None]) -> None:
        self._clock = clock
        self._log_limited = log_limited
        self._listeners: list[socket.socket] = []
        self._users: dict[int, _User] = {}
        # (the loop itself keeps no reference to a task)
        self._tasks: set[asyncio.Task[object]] = set()
        self._is_closed = False

    def listen(self, listener: socket.socket, make: MakeClient) -> None:
        """Accepts the connections to a bound socket from now on; `make` makes the client of each."""
        listener.setblocking(False)
        listener.listen(_QUEUE)
        self._listeners.append(listener)
        self._watch(listener, make)

    def waiting(self, uid: int) -> int:
        """The number of connections of a user that wait."""
        return len(self._users[uid].waiting) if uid in self._users else 0

    def close(self) -> None:
        """Accepts no more connections, and closes those that wait."""
        self._is_closed = True
        for listener in self._listeners:
            asyncio.get_running_loop().remove_reader(listener)
            listener.close()
        for user in self._users.values():
            if user.timer:
                user.timer.cancel()
            for each in user.waiting:
                each.connection.close()
            user.waiting.clear()

    def _watch(self, listener: socket.socket, make: MakeClient) -> None:
        if not self._is_closed:
            asyncio.get_running_loop().add_reader(listener, self._accept, listener, make)

    def _accept(self, listener: socket.socket, make: MakeClient) -> None:
        """Accepts one connection."""
        try:
            connection, _ = listener.accept()
        except (BlockingIOError, InterruptedError, ConnectionAbortedError):
            return
        except OSError as error:
            self._log_limited("accept", f"cannot accept a connection: {error.strerror}")
            asyncio.get_running_loop().remove_reader(listener)
            self._clock.call_later(_RETRY, self._watch, listener, make)
            return
        uid, now = uid_of(connection), self._clock.now()
        user = self._users.setdefault(uid, _User(now))
        if not user.waiting and user.may_connect(now):
            self._serve(connection, make)
        elif _is_gone(connection):
            # (whoever connects in a loop has often closed it already)
            connection.close()
        elif len(user.waiting) < MOST_WAITING:
            self._log_limited(f"connects {uid}", f"uid {uid} connects too often, and waits")
            user.waiting.append(_Waiting(connection, make))
            self._call_later(user)
        else:
            connection.close()

    def _call_later(self, user: _User) -> None:
        if user.timer is None:
            user.timer = self._clock.call_later(1 / A_SECOND, self._serve_waiting, user)

    def _serve_waiting(self, user: _User) -> None:
        """Serves the connections of a user that need not wait any more."""
        user.timer = None
        while user.waiting:
            if _is_gone(user.waiting[0].connection):
                user.waiting.popleft().connection.close()
            elif user.may_connect(self._clock.now()):
                self._serve(*user.waiting.popleft())
            else:
                return self._call_later(user)

    def _serve(self, connection: socket.socket, make: MakeClient) -> None:
        loop = asyncio.get_running_loop()
        task: asyncio.Task[object] = loop.create_task(loop.connect_accepted_socket(make, connection))
        self._tasks.add(task)
        task.add_done_callback(self._tasks.discard)


def uid_of(connection: socket.socket) -> int:
    """The user of the other end of a connection."""
    uid: int = struct.unpack("iIi", connection.getsockopt(socket.SOL_SOCKET, socket.SO_PEERCRED, 12))[1]
    return uid


def _is_gone(connection: socket.socket) -> bool:
    """Whether the other end is closed."""
    poll = select.poll()
    poll.register(connection, 0)
    return any(event & select.POLLHUP for _, event in poll.poll(0))
