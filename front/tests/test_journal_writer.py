"""Group commit: a hub's journal is synced in a thread, once for all batches that wait."""

from __future__ import annotations

import asyncio
import os
import tempfile
import threading
import unittest
from collections.abc import Coroutine
from pathlib import Path
from typing import Any
from unittest import mock

from support import PATIENCE, run_until

from lefence.base.faults import Fault
from lefence.hub.connection import Entry
from lefence.hub.journal_writer import JournalWriter, complete
from lefence.journal.journal import MOST_REPLY, Journal


def change(number: int) -> Entry:
    entry = Entry(None, [b"pad", b"A", b"0", b"%d" % number])
    entry.reply = b"ok %d\n" % number
    return entry


class Commits(unittest.TestCase):
    def setUp(self) -> None:
        path = Path(self.enterContext(tempfile.TemporaryDirectory())) / "j"
        self.journal = Journal(path, [], mock.Mock())
        self.kept: list[bytes] = []
        self.writer = JournalWriter(self.journal, lambda entries: self.kept.extend(each.line for each in entries))
        # Each sync waits until it is released.
        self.syncs, self.may_sync = 0, threading.Event()
        self.real_sync = os.fdatasync

    def sync(self, descriptor: int) -> None:
        self.syncs += 1
        self.assertTrue(self.may_sync.wait(PATIENCE))
        self.real_sync(descriptor)

    def run_synced(self, work: Coroutine[Any, Any, None]) -> None:
        with mock.patch("os.fdatasync", self.sync):
            asyncio.run(work)

    def lines(self) -> list[bytes]:
        with self.journal.tail(self.journal.position) as tail:
            return [record.line for record in tail.records]

    def frames(self) -> int:
        with open(self.journal.path, "rb") as file:
            return file.read().count(b"\nbatch ")

    async def wait_syncs(self, count: int) -> None:
        await run_until(lambda: self.syncs >= count)

    def test_changes_that_wait_share_a_sync_in_their_order(self) -> None:
        async def work() -> None:
            first = asyncio.create_task(self.writer.append([change(0), change(1)]))
            await self.wait_syncs(1)
            others = [asyncio.create_task(self.writer.append([change(number)])) for number in range(2, 9)]
            # The event loop does not wait.
            for _ in range(100):
                await asyncio.sleep(0)
            self.assertEqual((self.kept, first.done(), any(task.done() for task in others)), ([], False, False))
            self.may_sync.set()
            await asyncio.gather(first, *others)

        before = self.frames()
        self.run_synced(work())
        want = [change(number).line for number in range(9)]
        self.assertEqual((self.kept, self.lines(), self.syncs, self.frames() - before), (want, want, 2, 2))

    def test_after_a_failure_of_the_disk_no_change_is_kept(self) -> None:
        async def work() -> None:
            tasks = [asyncio.create_task(self.writer.append([change(number)])) for number in range(3)]
            found = await asyncio.gather(*tasks, return_exceptions=True)
            self.assertEqual([type(each) for each in found], [Fault] * 3)
            with self.assertRaisesRegex(Fault, "the disk has failed"):
                await self.writer.append([change(3)])

        with mock.patch("os.fdatasync", side_effect=OSError(5, "x")):
            asyncio.run(work())
        self.assertEqual(self.kept, [])

    def test_a_segment_begins_between_two_commits_with_room_for_all_batches(self) -> None:
        async def work() -> None:
            self.may_sync.set()
            self.assertTrue(await self.writer.reserve(5000))
            await self.writer.append([change(0)])
            self.may_sync.clear()
            second = asyncio.create_task(self.writer.append([change(1)]))
            await self.wait_syncs(2)
            rolled = asyncio.create_task(self.writer.roll(lambda: [b"kept %d" % len(self.kept)]))
            await asyncio.sleep(0)
            third = asyncio.create_task(self.writer.append([change(2)]))
            self.may_sync.set()
            await asyncio.gather(second, rolled, third)

        self.run_synced(work())
        header = self.journal.header
        self.assertEqual((header.number, self.journal.changes), (2, 3))
        self.assertEqual(self.lines(), [change(at).line for at in range(3)])
        # Notes and position of the segment are of one moment.
        with open(self.journal.path, "rb") as file:
            self.assertIn(b"\nkept %d\n" % header.changes, file.read())
        self.assertTrue(self.journal.is_reserved(5000 - MOST_REPLY))

    def test_bytes_are_reserved_for_each_batch_and_notes_take_none_of_them(self) -> None:
        async def work() -> list[bool]:
            found = [await self.writer.reserve(100_000), await self.writer.reserve(100_000)]
            size = os.fstat(self.journal._fd).st_size
            with mock.patch("os.posix_fallocate", side_effect=OSError(28, "full")):
                found += [await self.writer.reserve(200_000), await self.writer.add_note(b"n" * 200_000)]
                self.writer.release(100_000)
                found += [await self.writer.add_note(b"n" * 200_000), await self.writer.reserve(1000)]
            self.assertEqual(os.fstat(self.journal._fd).st_size, size)
            return found

        self.assertEqual(asyncio.run(work()), [True, True, False, False, True, True])

    def test_work_is_completed_although_its_caller_is_cancelled(self) -> None:
        done: list[int] = []

        async def slow(gate: asyncio.Event) -> int:
            await gate.wait()
            done.append(1)
            return 1

        async def work() -> None:
            gate = asyncio.Event()
            gate.set()
            self.assertEqual(await complete(slow(gate)), 1)
            gate.clear()
            task = asyncio.create_task(complete(slow(gate)))
            for _ in range(2):
                for _ in range(10):
                    await asyncio.sleep(0)
                task.cancel()
            self.assertEqual((task.done(), len(done)), (False, 1))
            gate.set()
            with self.assertRaises(asyncio.CancelledError):
                await task
            self.assertEqual(len(done), 2)

        asyncio.run(work())


if __name__ == "__main__":
    unittest.main()
