"""A connection without its socket: which bytes are sent, and which line each reply answers.

`blocking` and `aio` move the bytes: they send what a `Wire` has in `unsent`, and give it each piece that they read.
"""

from __future__ import annotations

from collections import deque
from dataclasses import dataclass
from typing import Generic, TypeVar

from ..base.protocol import ProtocolError, text_length
from .refusals import refusal_of
from .verbs import Request, read_reply

T = TypeVar("T")

# The most bytes of an unexpected reply in a message.
_SHOWN = 100


class ConnectionLost(ConnectionError):
    """The other end is gone. The team's revision shows which of the lines in flight were executed."""


@dataclass(eq=False)
class SentLine:
    """A line that was sent or waits to be sent. When it is done, it has its whole reply, or the error in its place."""

    line: bytes
    reply: bytes | None = None
    error: Exception | None = None

    @property
    def is_done(self) -> bool:
        """Whether it has its reply or an error."""
        return self.reply is not None or self.error is not None

    def result(self) -> bytes:
        """Returns the reply of a line that is done, or raises its error."""
        if self.error is not None:
            raise self.error
        assert self.reply is not None
        return self.reply


S = TypeVar("S", bound=SentLine)


class Wire(Generic[S]):
    """The lines that were sent and have no reply yet, and the bytes in both directions.

    Replies come in the order of the lines. Once the connection is lost, it stays so: each line without a reply gets an
    error, and so does each further line.
    """

    def __init__(self) -> None:
        """Makes the wire of a new connection."""
        # Bytes to send. Whoever sends some removes them.
        self.unsent = bytearray()
        # The number of replies received.
        self.replies = 0
        self._unanswered: deque[S] = deque()
        self._received = bytearray()
        # How many received bytes have no line feed; and the bytes of the next reply, 0 if they are not known yet.
        self._searched = self._length = 0
        # The kind and the text of the error that lines get once the connection is lost.
        self._loss: tuple[type[Exception], str] | None = None

    @property
    def is_lost(self) -> bool:
        """Whether no more replies come."""
        return self._loss is not None

    def send(self, sent: S) -> S:
        """Queues a line, and returns it. If the connection is lost, the line is done at once.

        Raises ValueError if it contains a line feed.
        """
        if b"\n" in sent.line:
            raise ValueError("a line must not contain a line feed")
        if self._loss is None:
            self._unanswered.append(sent)
            self.unsent += sent.line + b"\n"
        else:
            sent.error = self.loss()
        return sent

    def receive(self, piece: bytes) -> list[S]:
        """Takes the next bytes from the other end; returns the lines that are done now, in order."""
        done: list[S] = []
        if self.is_lost:
            return done
        self._received += piece
        try:
            while self._unanswered and self._has_reply(self._unanswered[0].line):
                sent = self._unanswered.popleft()
                sent.reply = self._take_reply()
                done.append(sent)
        except ProtocolError as error:
            # (nobody knows where the next reply starts)
            sent = self._unanswered.popleft()
            sent.error = error
            return [*done, sent, *self.lose(f"the connection is lost: {error}")]
        if self._received and not self._unanswered:
            # A later line must not get a reply that came before it was sent.
            shown = bytes(self._received[:_SHOWN])
            self.lose(f"unexpected reply {shown!r} to no line", ProtocolError)
        return done

    def lose(self, text: str, kind: type[Exception] = ConnectionLost) -> list[S]:
        """Marks the connection as lost for this reason, if it is not lost yet; returns the lines that are done now."""
        self._loss = self._loss or (kind, text)
        done = [*self._unanswered]
        self._unanswered.clear()
        self.unsent.clear()
        self._received.clear()
        for sent in done:
            sent.error = self.loss()
        return done

    def loss(self) -> Exception:
        """Makes the error of a line after the connection was lost."""
        assert self._loss
        kind, text = self._loss
        return kind(text)

    def _has_reply(self, line: bytes) -> bool:
        """Whether the whole reply to the next line was received. Raises ProtocolError if its length is not a number."""
        if not self._length:
            end = self._received.find(b"\n", self._searched)
            if end < 0:
                self._searched = len(self._received)
                return False
            # (the first line of another reply may be long: it is not copied for its length)
            is_def = line.lstrip().startswith(b"def")
            self._length = end + 1 + (text_length(line, bytes(self._received[: end + 1])) if is_def else 0)
        return len(self._received) >= self._length

    def _take_reply(self) -> bytes:
        """Takes the next reply, which was received."""
        with memoryview(self._received) as received, received[: self._length] as part:
            reply = bytes(part)
        del self._received[: self._length]
        self._searched = self._length = 0
        self.replies += 1
        return reply


def result_of(request: Request[T], reply: bytes) -> T:
    """Returns the result of a reply, or raises its refusal."""
    first, _, text = reply.partition(b"\n")
    if first == b"ok" or first.startswith(b"ok "):
        return read_reply(request, first.decode("ascii", "backslashreplace").split()[1:], text)
    refusal = refusal_of(first)
    if refusal is None:
        raise ProtocolError(f"unexpected reply {first!r} to {request.line!r}")
    raise refusal
