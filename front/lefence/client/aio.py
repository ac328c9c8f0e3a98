"""The client library for asyncio: the same sessions and verbs, as coroutines.

    async with await lefence.aio.connect("/run/lefence/A.sock") as connection, connection.session("A") as session:
        await asyncio.gather(*(session.place(cell, x, y, "N") for cell, x, y in moves))

A coroutine sends its line when it starts to run. Concurrent coroutines are in flight together, in the order in which
they started.
"""

from __future__ import annotations

import asyncio
import os
from collections.abc import Iterable
from types import TracebackType
from typing import TypeVar

from ..base.protocol import ProtocolError, is_accepted
from . import verbs
from .blocking import refuse_port, with_endpoint
from .cells import Cell, cells_in
from .refusals import BadRequest, Refusal, Stale
from .session import BaseSession, SessionOptions
from .verbs import Request
from .wire import ConnectionLost, SentLine, Wire, result_of

T = TypeVar("T")

# Bytes read at a time.
_PIECE = 1 << 18


async def connect(where: str | os.PathLike[str], port: int | None = None, timeout: float | None = None) -> Connection:
    """Connects to a Unix socket at a path or, with a port, to a host over TCP.

    With a timeout in seconds, a line raises TimeoutError if no reply at all came for that long; the connection is then
    unusable. Raises OSError, with the path or HOST:PORT, if nobody listens there.
    """
    address = os.fspath(where)
    refuse_port(port)
    try:
        async with asyncio.timeout(timeout):
            if port is not None:
                return Connection(*await asyncio.open_connection(address, port, limit=_PIECE), timeout)
            return Connection(*await asyncio.open_unix_connection(address, limit=_PIECE), timeout)
    except OSError as error:
        raise with_endpoint(error, address, port) from None


class _AwaitedLine(SentLine):
    """A line and the future of its reply."""

    def __init__(self, line: bytes) -> None:
        super().__init__(line)
        self.future: asyncio.Future[bytes] = asyncio.get_running_loop().create_future()


class Connection:
    """A connection: lines go out and replies come in, in order. Any number of coroutines may share it."""

    def __init__(
        self, reader: asyncio.StreamReader, writer: asyncio.StreamWriter, timeout: float | None = None
    ) -> None:
        self._reader = reader
        self._writer = writer
        self._timeout = timeout
        self._is_reported = False
        self._wire = Wire[_AwaitedLine]()
        self._reading = asyncio.create_task(self._read())

    async def __aenter__(self) -> Connection:
        return self

    async def __aexit__(self, *_: object) -> None:
        await self.close()

    @property
    def is_lost(self) -> bool:
        """Whether a caller has got an error that says that the connection is lost or a reply took too long."""
        return self._is_reported

    def session(
        self,
        team: str,
        *,
        retries: int = 0,
        microns: bool = False,
        per_micron: int | None = None,
        openaccess: bool = False,
    ) -> Session:
        """Makes a session of the team, for `async with`. Arguments are those of `lefence.client.Connection.session`."""
        return Session(self, team, SessionOptions(retries, microns or per_micron is not None, per_micron, openaccess))

    async def ask_line(self, line: bytes) -> bytes:
        """Sends a line, given without its line feed; returns the whole reply, for `def` with its text."""
        try:
            return await self._ask_line(line)
        except (ConnectionLost, TimeoutError, ProtocolError):
            self._is_reported = True
            raise

    async def _ask_line(self, line: bytes) -> bytes:
        # (each sender waits for its reply, which bounds the unsent bytes)
        reply = self._send(line)
        try:
            return await self._wait_for(reply)
        except BaseException:
            if not reply.cancel() and not reply.cancelled() and not reply.exception():
                # (the reply came after its caller was cancelled)
                self._close_abandoned(line, reply.result())
            raise

    def _send(self, line: bytes) -> asyncio.Future[bytes]:
        sent = self._wire.send(_AwaitedLine(line))
        if sent.is_done:
            self._settle([sent])
        else:
            self._writer.write(bytes(self._wire.unsent))
            self._wire.unsent.clear()
        return sent.future

    def send_unawaited(self, line: bytes) -> None:
        """Sends a line whose reply is ignored, unless the connection is lost."""
        if not self._wire.is_lost:
            self._send(line).cancel()

    async def _wait_for(self, reply: asyncio.Future[bytes]) -> bytes:
        """Waits for the reply, as long as any reply comes within the timeout."""
        while self._timeout is not None:
            replies = self._wire.replies
            done, _ = await asyncio.wait([reply], timeout=self._timeout)
            if done:
                break
            if replies == self._wire.replies:
                raise TimeoutError(f"no reply for {self._timeout} seconds")
        return await reply

    async def ask(self, request: Request[T]) -> T:
        """Sends a request; returns its result, or raises its refusal."""
        return result_of(request, await self.ask_line(request.line))

    async def export(self, path: str) -> None:
        """Has a hub write the committed places of all teams to a file of its machine, on the operator's socket."""
        await self.ask(Request(f"export {verbs.name(path)}".encode(), lambda words, text: None))

    async def bye(self) -> None:
        """Sends `bye`, waits for its reply and ends the connection."""
        await self.ask(Request(b"bye", lambda words, text: None))
        await self.close()

    async def close(self) -> None:
        """Ends the connection; a hub then frees its sessions."""
        self._reading.cancel()
        if self._wire.is_lost or self._is_reported or self._writer.transport.get_write_buffer_size():
            # (the other end may never read the rest)
            self._writer.transport.abort()
        self._writer.close()
        try:
            await self._writer.wait_closed()
        except OSError:
            pass
        self._settle(self._wire.lose("the connection is closed"))

    async def _read(self) -> None:
        """Reads until the connection is lost."""
        try:
            while not self._wire.is_lost and (piece := await self._reader.read(_PIECE)):
                self._settle(self._wire.receive(piece))
            reason = "the other end has closed the connection"
        except Exception as error:
            reason = f"the connection is lost: {error}"
        self._settle(self._wire.lose(reason))

    def _settle(self, done: Iterable[_AwaitedLine]) -> None:
        """Gives the replies of lines that are done, or their errors, to those who wait for them."""
        for sent in done:
            if not sent.future.done():
                if sent.error is not None:
                    sent.future.set_exception(sent.error)
                else:
                    sent.future.set_result(sent.result())
            elif sent.reply is not None:
                self._close_abandoned(sent.line, sent.reply)

    def _close_abandoned(self, line: bytes, reply: bytes) -> None:
        """Closes a session whose opener was cancelled, to free its slot."""
        words, replied = line.split(), reply.split()
        if words[:1] == [b"open"] and len(words) == 2 and is_accepted(reply) and len(replied) > 1:
            self.send_unawaited(b"close %b %b" % (words[1], replied[1]))


class Session(BaseSession[Connection]):
    """A session of a team. Each verb is a coroutine that returns the reply's result or raises its refusal."""

    async def open(self) -> Session:
        """Opens the session, which must not be open. Refused by NoTeam, SessionsFull."""
        self._refuse_open()
        number, self.first_revision = await self.connection.ask(verbs.open_session(self.team))
        self._begin(number)
        try:
            if self._lacks_units:
                self._per_micron = await self._units()
                self._begin(number)
        except BaseException:
            scope, self._scope = self.scope, None
            self.connection.send_unawaited(verbs.close_session(scope).line)
            raise
        return self

    async def _units(self) -> int:
        try:
            return await self.connection.ask(verbs.units())
        except BadRequest:
            return verbs.units_in(await self.def_text())

    async def close(self) -> None:
        """Frees the session. Refused by NoSession."""
        scope, self._scope = self.scope, None
        await self.connection.ask(verbs.close_session(scope))

    async def cells(self, *libraries: str | os.PathLike[str]) -> list[Cell]:
        """Lists the team's cells; see `lefence.Session.cells`."""
        return cells_in(await self.def_text(), self.scope, libraries)

    async def __aenter__(self) -> Session:
        return await self.open()

    async def __aexit__(
        self, kind: type[BaseException] | None, error: BaseException | None, trace: TracebackType | None
    ) -> None:
        if self._scope is None or self.connection.is_lost:
            # (the block already knows that the connection is lost, and its sessions with it)
            self._scope = None
            return
        try:
            await self.close()
        except (Refusal, OSError, ProtocolError):
            # An exception of the block counts more than a session that is gone.
            if kind is None:
                raise

    async def ask(self, request: Request[T]) -> T:
        """Sends a request; returns its result. With `retries`, a stale one is synced and sent again."""
        for _ in range(self.retries):
            try:
                return await self.connection.ask(request)
            except Stale:
                await self.connection.ask(verbs.sync(self.scope))
        return await self.connection.ask(request)
