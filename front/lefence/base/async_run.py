"""Runs of the program for asyncio. `lefence.base.program` has the same runs, blocking."""

from __future__ import annotations

import asyncio
import contextlib
import os
import signal
import sys
import tempfile
from collections.abc import AsyncIterator
from typing import IO, TypeVar

from .clock import SYSTEM_CLOCK, Clock
from .faults import Fault, as_given
from .program import fault_of
from .reply_reader import ReplyReader, reply_pipe

T = TypeVar("T")
# More bytes than any line of a description has.
_LONGEST = 1 << 30


async def start_run(words: list[str]) -> AsyncRun:
    """Starts the program with these words, without an input."""
    errors = tempfile.TemporaryFile()
    return AsyncRun(await _start(words, asyncio.subprocess.DEVNULL, asyncio.subprocess.PIPE, errors), errors)


async def start_answering_run(words: list[str], clock: Clock = SYSTEM_CLOCK) -> AnsweringRun:
    """Starts the program with these words and an input. It writes its errors to the caller's standard error."""
    replies, pipe = reply_pipe(clock)
    try:
        return AnsweringRun(await _start(words, asyncio.subprocess.PIPE, pipe), replies)
    except BaseException:
        replies.close()
        raise
    finally:
        os.close(pipe)


async def _start(
    words: list[str], source: int, target: int, errors: IO[bytes] | None = None
) -> asyncio.subprocess.Process:
    # A session of its own: the terminal's Ctrl-C reaches the caller only. The program's input ends when the caller
    # ends.
    return await asyncio.create_subprocess_exec(
        as_given(words[0]),
        *words[1:],
        executable=words[0],
        stdin=source,
        stdout=target,
        stderr=errors,
        start_new_session=True,
        # (files that the program writes are private until they get their mode)
        umask=0o077,
        limit=_LONGEST,
    )


@contextlib.asynccontextmanager
async def in_threads(context: contextlib.AbstractContextManager[T]) -> AsyncIterator[T]:
    """Enters and leaves a context that waits for the disk in a thread, not in the event loop."""
    value = await asyncio.to_thread(context.__enter__)
    try:
        yield value
    except BaseException:
        if not await asyncio.to_thread(context.__exit__, *sys.exc_info()):
            raise
    else:
        await asyncio.to_thread(context.__exit__, None, None, None)


class AsyncRun:
    """A run of the program in a session of its own. Whoever starts it ends it with `kill`."""

    def __init__(self, process: asyncio.subprocess.Process, errors: IO[bytes] | None) -> None:
        """Makes a run of a process and, if its errors are kept, the file with them."""
        self._process = process
        self._errors = errors

    @property
    def pid(self) -> int:
        """The id of its process."""
        return self._process.pid

    @property
    def reader(self) -> asyncio.StreamReader:
        """Its output."""
        assert self._process.stdout
        return self._process.stdout

    async def wait(self) -> int:
        """Waits until the program has ended; returns its exit status."""
        return await self._process.wait()

    async def fault(self, otherwise: str) -> Fault:
        """Waits until the run has ended; returns the fault that its kept errors describe."""
        assert self._errors
        return fault_of(await self._process.wait(), self._errors, otherwise)

    def send_kill(self) -> None:
        """Kills the program with its whole session, without waiting."""
        with contextlib.suppress(ProcessLookupError):
            if self._process.returncode is None:
                os.killpg(self._process.pid, signal.SIGKILL)

    async def kill(self) -> None:
        """Kills the program with its whole session and waits for it. A script ends together with what it runs."""
        if self._process.returncode is None:
            self.send_kill()
            await self._process.wait()
        if self._errors:
            self._errors.close()


class AnsweringRun(AsyncRun):
    """A run of the program that answers lines."""

    def __init__(self, process: asyncio.subprocess.Process, replies: ReplyReader) -> None:
        """Makes a run of a process, given the reader of its replies, which `kill` closes."""
        super().__init__(process, None)
        self.replies = replies

    def send(self, text: bytes) -> None:
        """Sends bytes without waiting."""
        assert self._process.stdin
        self._process.stdin.write(text)

    async def finish(self) -> int:
        """Closes the program's input and waits until the program has ended; returns its exit status."""
        assert self._process.stdin
        self._process.stdin.close()
        return await self._process.wait()

    async def kill(self) -> None:
        try:
            await super().kill()
        finally:
            self.replies.close()
