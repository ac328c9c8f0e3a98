"""Connections are accepted one at a time, and a user who connects in a loop waits."""

from __future__ import annotations

import asyncio
import socket
import tempfile
import unittest
from collections.abc import Awaitable, Callable
from pathlib import Path
from unittest import mock

from support import SettableClock, run_until

from lefence.hub import acceptor as module
from lefence.hub.acceptor import A_SECOND, MOST_AT_ONCE, MOST_WAITING, Acceptor


class Ended(asyncio.Protocol):
    """A client whose connection is closed at the end of the test."""

    def __init__(self, ends: list[Callable[[], object]]) -> None:
        self.ends = ends

    def connection_made(self, transport: asyncio.BaseTransport) -> None:
        self.ends.append(transport.close)


class Connections(unittest.TestCase):
    """An acceptor on a clock that stands still."""

    def setUp(self) -> None:
        self.path = Path(self.enterContext(tempfile.TemporaryDirectory())) / "s"
        self.clock = SettableClock()
        self.messages: list[str] = []
        self.made = 0
        # What closes the connections of the clients.
        self.ends: list[Callable[[], object]] = []
        # Whose connections are accepted next.
        self.uid = 4242
        self.enterContext(mock.patch.object(module, "uid_of", side_effect=lambda connection: self.uid))

    def client(self) -> asyncio.Protocol:
        self.made += 1
        return Ended(self.ends)

    def connect(self) -> socket.socket:
        end = socket.socket(socket.AF_UNIX)
        self.addCleanup(end.close)
        end.connect(str(self.path))
        return end

    def run_with(self, work: Callable[[Acceptor], Awaitable[None]]) -> None:
        async def run() -> None:
            acceptor = Acceptor(self.clock, lambda kind, text: self.messages.append(text))
            listener = socket.socket(socket.AF_UNIX)
            listener.bind(str(self.path))
            acceptor.listen(listener, self.client)
            try:
                await work(acceptor)
            finally:
                acceptor.close()
                for end in self.ends:
                    end()
                await asyncio.sleep(0)
            # (a closed socket accepts nothing)
            with self.assertRaises(ConnectionRefusedError):
                self.connect()

        asyncio.run(run())

    def test_a_user_who_connects_too_often_waits_and_others_do_not(self) -> None:
        async def work(acceptor: Acceptor) -> None:
            for _ in range(MOST_AT_ONCE + 5):
                self.connect()
            await run_until(lambda: acceptor.waiting(4242) == 5)
            self.assertEqual((self.made, self.messages[:1]), (MOST_AT_ONCE, ["uid 4242 connects too often, and waits"]))
            self.uid = 4243
            self.connect()
            await run_until(lambda: self.made == MOST_AT_ONCE + 1)
            for count in range(1, 6):
                self.clock.advance(1 / A_SECOND + 1e-6)
                self.assertEqual(acceptor.waiting(4242), 5 - count)
            await run_until(lambda: self.made == MOST_AT_ONCE + 6)
            # After a pause the user may connect as often as at first.
            self.uid = 4242
            self.clock.advance(MOST_AT_ONCE / A_SECOND)
            for _ in range(MOST_AT_ONCE):
                self.connect()
            await run_until(lambda: self.made == 2 * MOST_AT_ONCE + 6)
            self.assertEqual(acceptor.waiting(4242), 0)

        self.run_with(work)

    def test_connections_that_are_closed_again_take_no_turn(self) -> None:
        async def work(acceptor: Acceptor) -> None:
            for _ in range(MOST_AT_ONCE):
                self.connect()
            await run_until(lambda: self.made == MOST_AT_ONCE)
            for _ in range(500):
                self.connect().close()
            self.connect()
            await run_until(lambda: acceptor.waiting(4242) == 1)
            leaving = self.connect()
            self.connect()
            await run_until(lambda: acceptor.waiting(4242) == 3)
            leaving.close()
            self.clock.advance(2 / A_SECOND + 1e-6)
            self.assertEqual(acceptor.waiting(4242), 0)
            await run_until(lambda: self.made == MOST_AT_ONCE + 2)

        self.run_with(work)

    def test_only_so_many_connections_wait(self) -> None:
        async def work(acceptor: Acceptor) -> None:
            for _ in range(MOST_AT_ONCE + MOST_WAITING):
                self.connect()
            await run_until(lambda: acceptor.waiting(4242) == MOST_WAITING)
            refused = self.connect()
            refused.setblocking(False)

            def is_closed() -> bool:
                try:
                    return refused.recv(1) == b""
                except BlockingIOError:
                    return False

            await run_until(is_closed)
            self.assertEqual((acceptor.waiting(4242), self.made), (MOST_WAITING, MOST_AT_ONCE))

        self.run_with(work)

    def test_each_socket_accepts_one_connection_before_the_hub_does_something_else(self) -> None:
        async def work(acceptor: Acceptor) -> None:
            for _ in range(50):
                self.connect()
            most, before = 0, 0
            while self.made < 50:
                await asyncio.sleep(0)
                most, before = max(most, self.made - before), self.made
            self.assertEqual(most, 1)

        self.run_with(work)


if __name__ == "__main__":
    unittest.main()
