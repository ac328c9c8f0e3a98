"""The client library without asyncio: connections, sessions and pipelines.

    import lefence

    with lefence.connect("/run/lefence/A.sock") as connection, connection.session("A") as session:
        session.place("u1", 400, 0, "N")
        print(session.legalize("u2", 1500, 300).place)

Use a connection in one thread at a time.
"""

from __future__ import annotations

import os
import selectors
import socket
import time
from types import TracebackType
from typing import Any, Generic, TypeVar

from ..base.protocol import ProtocolError
from . import verbs
from .cells import Cell, cells_in
from .refusals import BadRequest, Refusal, Stale
from .session import BaseSession, SessionOptions, Verbs
from .verbs import Request, Scope
from .wire import SentLine, Wire, result_of

T = TypeVar("T")

# Bytes read at a time, and bytes that may wait to be sent before a sender reads replies.
_PIECE = 1 << 16
_MOST_PORT = 65535


def connect(where: str | os.PathLike[str], port: int | None = None, timeout: float | None = None) -> Connection:
    """Connects to a Unix socket at a path or, with a port, to a host over TCP.

    With a timeout in seconds, a reply that takes longer raises TimeoutError; the connection is then unusable. Raises
    OSError, with the path or HOST:PORT, if nobody listens there.
    """
    refuse_port(port)
    try:
        return Connection(_end_at(os.fspath(where), port, timeout), timeout)
    except OSError as error:
        raise with_endpoint(error, os.fspath(where), port) from None


def refuse_port(port: int | None) -> None:
    """Raises ValueError if the number is not a port: the system would silently use another one."""
    if port is not None and not 0 <= port <= _MOST_PORT:
        raise ValueError(f"{port} is not a port: ports are 0 to {_MOST_PORT}")


def _end_at(where: str, port: int | None, timeout: float | None) -> socket.socket:
    if port is not None:
        end = socket.create_connection((where, port), timeout=timeout)
        end.setsockopt(socket.IPPROTO_TCP, socket.TCP_NODELAY, 1)
        return end
    end = socket.socket(socket.AF_UNIX)
    try:
        end.settimeout(timeout)
        end.connect(where)
    except OSError:
        end.close()
        raise
    return end


def with_endpoint(error: OSError, where: str, port: int | None) -> OSError:
    """Returns the error with the path or HOST:PORT."""
    tried = where if port is None else f"{where}:{port}"
    if error.errno is None:
        return type(error)(f"{tried}: {str(error) or 'timed out'}")
    error.filename = tried
    return error


class Connection:
    """A connection: lines go out and replies come in, in order. Any number may be in flight."""

    def __init__(self, end: socket.socket, timeout: float | None = None) -> None:
        """Makes a connection of a socket and takes its ownership."""
        self._end = end
        self._end.setblocking(False)
        self._timeout = timeout
        self._selector = selectors.DefaultSelector()
        self._events = selectors.EVENT_READ
        self._selector.register(end, self._events)
        self._wire = Wire[SentLine]()
        self._is_open, self._is_lost = True, False

    def __enter__(self) -> Connection:
        return self

    def __exit__(self, *_: object) -> None:
        self.close()

    @property
    def is_lost(self) -> bool:
        """Whether a caller has got an error that says that the connection is lost or a reply took too long."""
        return self._is_lost

    def session(
        self,
        team: str,
        *,
        retries: int = 0,
        microns: bool = False,
        per_micron: int | None = None,
        openaccess: bool = False,
    ) -> Session:
        """Makes a session of the team, which `with` opens and closes.

        - `retries`: how often a change that is refused as Stale is synced and sent again. Use it only for changes that
          are right whatever others changed.
        - `microns`: lengths are microns. The database units per micron come from the hub, from the team's DEF text
          (`lefence serve`), or from `per_micron`.
        - `openaccess`: orientations are R0, MX and so on.
        """
        return Session(self, team, SessionOptions(retries, microns or per_micron is not None, per_micron, openaccess))

    def ask_line(self, line: bytes) -> bytes:
        """Sends a line, given without its line feed; returns the whole reply, for `def` with its text."""
        return self.wait(self.send(line))

    def export(self, path: str) -> None:
        """Has a hub write the committed places of all teams to a file of its machine. Only for the operator's socket.

        Refused by NotExported, and by BadRequest on other sockets. The path has only the bytes 33 to 126.
        """
        self.ask(Request(f"export {verbs.name(path)}".encode(), lambda words, text: None))

    def bye(self) -> None:
        """Sends `bye`, waits for its reply and ends the connection."""
        self.ask(Request(b"bye", lambda words, text: None))
        self.close()

    def close(self) -> None:
        """Ends the connection; a hub then frees its sessions."""
        if self._is_open:
            self._is_open = False
            self._wire.lose("the connection is closed")
            self._selector.close()
            self._end.close()

    def ask(self, request: Request[T]) -> T:
        """Sends a request; returns its result, or raises its refusal."""
        return result_of(request, self.ask_line(request.line))

    def send(self, line: bytes) -> SentLine:
        """Queues a line without waiting; `wait` returns its reply. It goes out at the next `wait` or `flush`, or when
        many are queued.
        """
        sent = self._wire.send(SentLine(line))
        if len(self._wire.unsent) >= _PIECE:
            self._transfer(waits=False)
        return sent

    def flush(self) -> None:
        """Sends all queued lines."""
        last = self._deadline()
        while self._wire.unsent:
            self._transfer(last)
        if self._wire.is_lost:
            self._is_lost = True
            raise self._wire.loss()

    def wait(self, sent: SentLine) -> bytes:
        """Waits for the whole reply to a line. Replies to earlier lines come first and are kept."""
        last = self._deadline()
        while not sent.is_done:
            replies = self._wire.replies
            self._transfer(last)
            if replies != self._wire.replies:
                last = self._deadline()
        self._is_lost = self._is_lost or sent.error is not None
        return sent.result()

    def _deadline(self) -> float | None:
        """When the next reply must have come."""
        return None if self._timeout is None else time.monotonic() + self._timeout

    def _transfer(self, last: float | None = None, waits: bool = True) -> None:
        """Sends and reads as far as possible: both, so that neither end waits for the other. Lines get their replies,
        or an error if the connection is lost. Raises TimeoutError.
        """
        wire = self._wire
        events = selectors.EVENT_READ | (selectors.EVENT_WRITE if wire.unsent else 0)
        if events != self._events:
            self._selector.modify(self._end, events)
            self._events = events
        remaining = None if last is None else max(0, last - time.monotonic())
        ready = self._selector.select(remaining if waits else 0)
        if not ready and waits:
            self._is_lost = True
            raise TimeoutError(f"no reply for {self._timeout} seconds")
        try:
            # (read first: if the other end is gone, sending fails, but its last replies are still there)
            if ready and ready[0][1] & selectors.EVENT_READ:
                if piece := self._end.recv(_PIECE):
                    wire.receive(piece)
                else:
                    wire.lose("the other end has closed the connection")
            elif ready:
                del wire.unsent[: self._end.send(wire.unsent[:_PIECE])]
        except BlockingIOError:
            pass
        except (BrokenPipeError, ConnectionResetError) as error:
            wire.lose(f"the connection is lost: {error.strerror}")


class Pending(Generic[T]):
    """A request of a pipeline that was sent or is queued."""

    def __init__(self, pipeline: Pipeline, request: Request[T]) -> None:
        self.request = request
        # Whether somebody has read its reply, and how often it was sent.
        self.is_read, self.times_sent = False, 0
        self._pipeline = pipeline
        self.send()

    def send(self) -> None:
        """Sends it; again, if it has a reply."""
        self._sent = self._pipeline.connection.send(self.request.line)
        self.times_sent += 1

    def wait(self) -> bytes:
        """Waits for the reply to the last sending."""
        return self._pipeline.connection.wait(self._sent)

    def result(self) -> T:
        """Waits for the reply; returns its result or raises its refusal."""
        return result_of(self.request, self._reply())

    @property
    def refusal(self) -> Refusal | None:
        """Waits for the reply; returns its refusal, or None."""
        try:
            self.result()
        except Refusal as refusal:
            return refusal
        return None

    def _reply(self) -> bytes:
        reply = self._pipeline.final_reply(self)
        self.is_read = True
        return reply


class Session(BaseSession[Connection]):
    """A session of a team. Each verb waits for its reply, then returns its result or raises its refusal."""

    def open(self) -> Session:
        """Opens the session, which must not be open. Refused by NoTeam, SessionsFull."""
        self._refuse_open()
        number, self.first_revision = self.connection.ask(verbs.open_session(self.team))
        self._begin(number)
        try:
            if self._lacks_units:
                self._per_micron = self._units()
                self._begin(number)
        except Exception as error:
            self.__exit__(type(error), error, None)
            raise
        return self

    def _units(self) -> int:
        try:
            return self.connection.ask(verbs.units())
        except BadRequest:
            return verbs.units_in(self.def_text())

    def cells(self, *libraries: str | os.PathLike[str]) -> list[Cell]:
        """Lists the team's cells in loading order, with macros and working places; with LEF files also with sizes.

        Lengths are in the session's unit. Refused by NoSession, OutOfMemory.
        """
        return cells_in(self.def_text(), self.scope, libraries)

    def close(self) -> None:
        """Frees the session. Refused by NoSession."""
        scope, self._scope = self.scope, None
        self.connection.ask(verbs.close_session(scope))

    def __enter__(self) -> Session:
        return self.open()

    def __exit__(
        self, kind: type[BaseException] | None, error: BaseException | None, trace: TracebackType | None
    ) -> None:
        if self._scope is None or self.connection.is_lost:
            # (the block already knows that the connection is lost, and its sessions with it)
            self._scope = None
            return
        try:
            self.close()
        except (Refusal, OSError, ProtocolError):
            # An exception of the block counts more than a session that is gone.
            if kind is None:
                raise

    def ask(self, request: Request[T]) -> T:
        """Sends a request; returns its result. With `retries`, a stale one is synced and sent again."""
        for _ in range(self.retries):
            try:
                return self.connection.ask(request)
            except Stale:
                self.connection.ask(verbs.sync(self.scope))
        return self.connection.ask(request)

    def pipeline(self, *, raises: bool = True) -> Pipeline:
        """Makes a pipeline: in its block each verb queues its line and returns a `Pending` at once.

        The end of the block waits for all replies. It raises the first refusal that nobody has read; with
        `raises=False` it raises none, and the caller reads each `Pending`.
        """
        return Pipeline(self, raises)


class Pipeline(Verbs):
    """Requests of one session in flight. Their replies come in order.

    If the session has retries, stale requests are synced and sent again, in order, when one of them is read.
    """

    def __init__(self, session: Session, raises: bool) -> None:
        self._session = session
        self._raises = raises
        self._requests: list[Pending[Any]] = []

    @property
    def connection(self) -> Connection:
        """The session's connection."""
        return self._session.connection

    def final_reply(self, pending: Pending[Any]) -> bytes:
        """Waits for the reply to a request. While it is stale, sends it again, as often as the session allows."""
        most = self._session.retries + 1
        while _is_stale(reply := pending.wait()) and pending.times_sent < most:
            stale = [each for each in self._requests if each.times_sent < most and _is_stale(each.wait())]
            self.connection.ask(verbs.sync(self.scope))
            for each in stale:
                each.send()
        return reply

    @property
    def scope(self) -> Scope:
        """The open session."""
        return self._session.scope

    def __enter__(self) -> Pipeline:
        return self

    def __exit__(
        self, kind: type[BaseException] | None, error: BaseException | None, trace: TracebackType | None
    ) -> None:
        unread = [pending for pending in self._requests if not pending.is_read]
        try:
            refusals = [pending.refusal for pending in unread]
        except (OSError, ProtocolError):
            if kind is None:
                raise
            return
        first = next((refusal for refusal in refusals if refusal), None)
        if first and self._raises and kind is None:
            raise first

    def ask(self, request: Request[T]) -> Pending[T]:
        """Queues a request without waiting; see `Connection.send`."""
        pending = Pending(self, request)
        self._requests.append(pending)
        return pending


def _is_stale(reply: bytes) -> bool:
    return reply.startswith(b"no %d " % Stale.number)
