"""Replies of a program on a pipe: lines, long ones in few reads and once in memory, and the end of the program."""

from __future__ import annotations

import asyncio
import os
import sys
import tracemalloc
from collections.abc import Awaitable, Callable

from support import FrontCase

from lefence.base.program import PIECE, Program
from lefence.base.reply_reader import ReplyReader, reply_pipe
from lefence.hub.replay_process import ReplayLost, ReplayProcess

LENGTH = 8 << 20
# A program that answers `def` with a long text, `check` with a long line, and ends in the middle of a text at `die`.
ANSWERING = f"""#!{sys.executable}
import os, sys
def write(text):
    view = memoryview(text)
    while view:
        view = view[os.write(1, view[:65536]):]
for line in sys.stdin.buffer:
    if line.startswith(b"def"):
        write(b"ok {LENGTH}\\n" + b"some text\\n" * {LENGTH // 10} + b"end of it\\n"[-{LENGTH % 10}:])
    elif line.startswith(b"check"):
        write(b"ok " + bytes({LENGTH}) + b"\\n")
    elif line.startswith(b"die"):
        write(b"ok 1\\nok 100000")
        sys.exit()
    else:
        write(b"ok " + line)
"""


class Reader(FrontCase):
    """A reader of a pipe."""

    def read(self, text: bytes, use: Callable[[ReplyReader, int], Awaitable[None]]) -> ReplyReader:
        """Uses a reader of a pipe that has this text; the other end is open until then."""

        async def work() -> ReplyReader:
            reader, pipe = reply_pipe()
            os.write(pipe, text)
            try:
                await use(reader, pipe)
            finally:
                reader.close()
                os.close(pipe)
            return reader

        return asyncio.run(work())

    def test_lines_and_what_comes_after_them(self) -> None:
        async def use(reader: ReplyReader, pipe: int) -> None:
            self.assertEqual(await reader.lines(2), [b"ok 1\n", b"ok\r\n", b"te"])
            os.write(pipe, b"ok\n")
            self.assertEqual(await reader.lines(1), [b"ok\n", b""])

        self.read(b"ok 1\nok\r\nte", use)

    def test_a_line_in_two_parts(self) -> None:
        async def use(reader: ReplyReader, pipe: int) -> None:
            waiting = asyncio.create_task(reader.lines(2))
            while not reader.reads:
                await asyncio.sleep(0)
            os.write(pipe, b" 1\nno 2 NoTeam\n")
            self.assertEqual(await waiting, [b"ok 1\n", b"no 2 NoTeam\n", b""])

        self.read(b"ok", use)

    def test_a_text_that_is_there_is_read_at_once(self) -> None:
        text = os.urandom(PIECE - 100).replace(b"\n", b" ")

        async def use(reader: ReplyReader, pipe: int) -> None:
            line, rest = await reader.lines(1)
            found = bytearray(len(text))
            found[: len(rest)] = rest
            await reader.fill(memoryview(found)[len(rest) :])
            self.assertTrue((line, found) == (b"ok\n", text))

        self.assertEqual(self.read(b"ok\n" + text, use).reads, 2)

    def test_the_end_of_the_pipe(self) -> None:
        async def work(step: Callable[[ReplyReader], Awaitable[object]]) -> None:
            reader, pipe = reply_pipe()
            os.write(pipe, b"ok")
            os.close(pipe)
            try:
                await step(reader)
            finally:
                reader.close()
                reader.close()

        for step in (lambda reader: reader.lines(1), lambda reader: reader.fill(memoryview(bytearray(3)))):
            with self.assertRaises(EOFError):
                asyncio.run(work(step))

    def test_a_call_that_waits_when_the_pipe_is_closed(self) -> None:
        async def use(reader: ReplyReader, pipe: int) -> None:
            waiting = asyncio.create_task(reader.lines(1))
            while not reader.reads:
                await asyncio.sleep(0)
            reader.close()
            with self.assertRaises(EOFError):
                await waiting

        self.read(b"ok", use)


class Replay(FrontCase):
    """A program with long replies."""

    def setUp(self) -> None:
        super().setUp()
        path = self.folder / "answering"
        path.write_text(ANSWERING)
        path.chmod(0o755)
        self.answering = Program(str(path), [])

    def execute(self, *batches: list[bytes]) -> list[list[bytes]]:
        """The replies to some batches of lines."""

        async def work() -> list[list[bytes]]:
            replay = ReplayProcess(self.answering, [])
            await replay.start()
            try:
                found = [await replay.execute(lines) for lines in batches]
                self.peak = tracemalloc.get_traced_memory()[1]
                return found
            finally:
                await replay.kill()

        return asyncio.run(work())

    def test_long_replies_are_whole(self) -> None:
        first, second, third = self.execute([b"a", b"def A 0"], [b"check A 0"], [b"b", b"c"])
        text = b"some text\n" * (LENGTH // 10) + b"end of it\n"[-(LENGTH % 10) :]
        self.assertTrue(first == [b"ok a\n", b"ok %d\n" % LENGTH + text])
        self.assertTrue(second == [b"ok " + bytes(LENGTH) + b"\n"])
        self.assertEqual(third, [b"ok b\n", b"ok c\n"])

    def test_a_long_reply_is_in_memory_once(self) -> None:
        for line in (b"def A 0", b"check A 0"):
            tracemalloc.start()
            try:
                self.execute([line])
                self.assertLess(self.peak, 1.5 * LENGTH, line)
            finally:
                tracemalloc.stop()

    def test_a_program_that_ends_within_a_text_is_lost(self) -> None:
        for batch in ([b"die", b"def A 0"], [b"die", b"a", b"b"]):
            with self.assertRaises(ReplayLost):
                self.execute(batch)
