"""The journal by itself: what can be read after damage at any byte."""

from __future__ import annotations

import errno
import os
import random
import tempfile
import unittest
from collections.abc import Callable
from dataclasses import replace
from pathlib import Path
from unittest import mock

from support import SEED, page_blocks

from lefence.base.faults import Fault
from lefence.journal.frames import Record, Text
from lefence.journal.journal import Journal, texts_in
from lefence.journal.owner import this_process
from lefence.journal.segments import read_records

TEXTS = [Text("0" * 64, Path("/a b\n.def")), Text("f" * 64, Path("/b.lef"))]
RECORDS = [
    Record(b"open A", b"ok 0 0\n", b"7 8"),
    Record(b"place A 0 a1 0 0 N", b"ok 1\n", b"7 8"),
    Record(b"pad A 0 2", b"ok 2\n", b"9 10"),
    Record(b"tidy A 0", b"ok 3 7\n"),
]


class Journals(unittest.TestCase):
    def setUp(self) -> None:
        self.path = Path(self.enterContext(tempfile.TemporaryDirectory())) / "journal"
        self.messages: list[str] = []
        self.rng = random.Random(SEED)

    def open(self, texts: list[Text] | None = None) -> Journal:
        return Journal(self.path, texts or TEXTS, self.messages.append)

    def found(self) -> list[Record]:
        journal = self.open()
        with journal.tail(journal.position) as tail:
            records = list(tail.records)
        self.assertEqual(len(records), journal.changes)
        journal.close()
        return records

    def refusal(self, texts: list[Text] | None = None) -> str:
        before = self.path.read_bytes()
        with self.assertRaises(Fault) as caught:
            self.open(texts)
        self.assertEqual((caught.exception.status, self.path.read_bytes()), (1, before))
        return str(caught.exception)

    def fill(self) -> list[int]:
        """Appends a frame for each record after the first frame; returns the end of each."""
        journal = self.open()
        ends = [journal.end]
        for record in RECORDS:
            self.assertTrue(journal.has_room(100))
            journal.append([record])
            ends.append(journal.end)
        os.close(journal._fd)
        return ends

    def test_what_was_appended_is_found_in_order(self) -> None:
        self.fill()
        self.assertEqual((self.found(), self.found(), self.messages), (RECORDS, RECORDS, []))
        self.assertEqual(list(read_records(self.path)), RECORDS)

    @mock.patch("os.fsync", mock.Mock())
    @mock.patch("os.fdatasync", mock.Mock())
    def test_a_journal_truncated_at_any_byte_keeps_its_intact_frames(self) -> None:
        ends = self.fill()
        whole = self.path.read_bytes()
        start = whole.index(b"batch")
        for cut in range(start, ends[-1] + 1):
            found = whole[:cut] + self.rng.choice([b"", bytes(99), self.rng.randbytes(9)])
            self.path.write_bytes(found)
            frames = sum(end <= cut for end in ends)
            kept = max(0, frames - 1)
            self.messages.clear()
            self.assertEqual(list(read_records(self.path)), RECORDS[:kept])
            self.assertEqual(self.found(), RECORDS[:kept])
            is_torn = bool(found[max([start, *ends[:frames]]) :].strip(b"\0"))
            self.assertEqual("incomplete batch" in "".join(self.messages), is_torn)

    def test_damage_before_the_end_is_refused_with_its_position(self) -> None:
        ends = self.fill()
        whole = self.path.read_bytes()
        starts = [whole.index(b"batch"), *ends]
        for at in range(starts[0], ends[-2]):
            damaged = bytearray(whole)
            damaged[at] ^= 1 << self.rng.randrange(8)
            self.path.write_bytes(damaged)
            place = max(start for start in starts if start <= at)
            self.assertIn(f"damaged at byte {place},", self.refusal())
            with self.assertRaises(Fault):
                list(read_records(self.path))

    def test_damage_to_the_last_frame_is_refused_once_it_was_sealed(self) -> None:
        ends = self.fill()
        self.open().close()
        damaged = bytearray(self.path.read_bytes())
        damaged[ends[-1] - 3] ^= 1
        self.path.write_bytes(damaged)
        self.assertIn(f"damaged at byte {ends[-2]},", self.refusal())

    def test_other_designs_and_other_files_are_refused(self) -> None:
        self.fill()
        self.assertIn("of another design", self.refusal([TEXTS[1], TEXTS[0]]))
        self.assertIn("of another design", self.refusal(TEXTS[:1]))
        for other, output in (
            (b"something else\n", "not a journal"),
            (b"\n", "not a journal"),
            (b"lefence-hub journal 4\n" + bytes(300), "of another version"),
        ):
            self.path.write_bytes(other)
            self.assertIn(output, self.refusal())
            with self.assertRaises(Fault):
                list(read_records(self.path))

    def test_an_incomplete_header_is_written_again(self) -> None:
        self.fill()
        whole = self.path.read_bytes()
        for part in (b"", whole[:5], whole[:40], bytes(100)):
            self.path.write_bytes(part)
            self.assertEqual(self.found(), [])
            self.assertTrue(self.path.read_bytes().startswith(whole[: whole.index(b"batch")]))

    def test_the_number_of_sessions_stays_once_there_is_a_change(self) -> None:
        for slots in (9, None, 10, 8, 9):
            Journal(self.path, TEXTS, self.messages.append, slots=slots).close()
        header = self.path.read_bytes().partition(b"batch")[0]
        self.assertEqual(header.count(b"sessions 9\n"), 1)
        for cut in range(header.index(b"sessions"), len(header)):
            self.path.write_bytes(header[:cut])
            journal = Journal(self.path, TEXTS, self.messages.append, slots=9)
            journal.append(RECORDS[:1])
            journal.roll([])
            self.assertEqual(journal.header.slots, 9)
            journal.close()
            for file in journal.archive.files():
                file.unlink()
        before = self.path.read_bytes()
        for slots in (8, 10):
            with self.assertRaisesRegex(Fault, "made for 9 session slots per team"):
                Journal(self.path, TEXTS, self.messages.append, slots=slots)
        self.assertEqual(self.path.read_bytes(), before)

    def test_the_example_of_the_page_is_a_journal(self) -> None:
        blocks = page_blocks("HUB.md")
        self.path.write_text(next(block for block in blocks if block.startswith("lefence-hub journal")))
        lines = [b"open A", b"place A 0 a1 0 0 N", b"close A 0"]
        self.assertEqual([record.line for record in read_records(self.path)], lines)

    def test_the_last_frame_is_rewritten_before_it_is_trusted(self) -> None:
        ends = self.fill()
        last = self.path.read_bytes()[ends[-2] : ends[-1]]
        with mock.patch("os.pwrite", wraps=os.pwrite) as written, mock.patch("os.fsync") as synced:
            synced.side_effect = lambda _: self.assertEqual(
                [call.args[1:] for call in written.mock_calls], [(last, ends[-2])]
            )
            self.open().close()
        self.assertTrue(synced.called)

    def test_after_a_sync_that_failed_nothing_is_written(self) -> None:
        journal = self.open()
        whole = self.path.read_bytes()
        with mock.patch("os.fdatasync", side_effect=OSError(errno.EIO, "x")), self.assertRaises(Fault):
            journal.append(RECORDS)
        with mock.patch("os.pwrite") as written, mock.patch("os.fdatasync") as synced:
            journal.close()
        self.assertEqual((written.called, synced.called, self.path.read_bytes()), (False, False, whole))

    def test_a_missing_or_replaced_file_is_a_fault(self) -> None:
        other = self.path.with_name("other")
        steps: tuple[tuple[Callable[[], object], str], ...] = (
            (lambda: self.path.rename(other), "is gone"),
            (lambda: self.path.unlink(), "is gone"),
            (lambda: (self.path.rename(other), self.path.write_bytes(other.read_bytes())), "another file"),
            (lambda: os.truncate(self.path, 200), "another process"),
            (lambda: self.path.write_bytes(self.path.read_bytes() + b"x"), "another process"),
        )
        for step, output in steps:
            journal = self.open()
            journal.append(RECORDS)
            journal.refuse_loss()
            step()
            there = self.path.read_bytes() if self.path.exists() else b""
            with self.assertRaises(Fault) as caught:
                journal.refuse_loss()
            journal.close()
            self.assertIn(output, str(caught.exception))
            self.assertEqual(
                (caught.exception.status, self.path.read_bytes() if self.path.exists() else b""), (3, there)
            )
            self.path.unlink(missing_ok=True)

    def test_a_hub_that_may_be_running_keeps_its_journal(self) -> None:
        me, parent = this_process(), Path(f"/proc/{os.getppid()}/stat").read_text().rpartition(")")[2].split()[19]
        elsewhere, dead, alive = (
            replace(me, host="farm2"),
            replace(me, pid=1, started=7),
            replace(me, pid=os.getppid(), started=int(parent)),
        )
        for owner, is_refused in ((elsewhere, True), (alive, True), (dead, False), (replace(alive, boot="x"), False)):
            os.close(Journal(self.path, TEXTS, self.messages.append, owner=owner)._fd)
            before = self.path.read_bytes()
            if is_refused:
                with self.assertRaises(Fault) as caught:
                    self.open()
                self.assertEqual((caught.exception.status, self.path.read_bytes()), (3, before))
            Journal(self.path, TEXTS, self.messages.append, takes_over=is_refused).close()
            # After its end a journal has no owner.
            self.open().close()

    def test_a_journal_without_changes_is_written_again(self) -> None:
        self.open().close()
        other = [Text("1" * 64, Path("/c.def"))]
        journal = self.open(other)
        journal.append(RECORDS)
        journal.close()
        self.assertEqual((texts_in(self.path), list(read_records(self.path))), (other, RECORDS))
        self.assertIn("of another design", self.refusal())

    def test_one_hub_locks_it(self) -> None:
        first = self.open()
        with self.assertRaises(Fault) as caught:
            self.open()
        self.assertIn("another hub has locked it", str(caught.exception))
        first.close()
        self.open().close()

    def test_a_roll_keeps_group_and_mode_and_moves_another_file_aside(self) -> None:
        journal = self.open()
        os.chmod(self.path, 0o640)
        if os.geteuid() == 0:
            os.chown(self.path, -1, 12345)
        journal.archive.make()
        journal.archive.segment(1).write_text("an export")
        before = self.path.stat()
        journal.append(RECORDS[:1])
        journal.roll([])
        after = self.path.stat()
        self.assertEqual((after.st_mode, after.st_gid), (before.st_mode, before.st_gid))
        self.assertNotEqual(after.st_ino, before.st_ino)
        self.assertEqual(journal.archive.segment(1).stat().st_ino, before.st_ino)
        self.assertEqual((journal.archive.folder / "1.journal.aside").read_text(), "an export")
        journal.close()

    def test_a_segment_is_copied_where_no_link_is_possible(self) -> None:
        journal = self.open()
        journal.append(RECORDS[:2])
        with mock.patch("os.link", side_effect=OSError(errno.EXDEV, "x")):
            journal.roll([])
        journal.append(RECORDS[2:])
        journal.close()
        self.assertEqual((self.found(), list(read_records(self.path))), (RECORDS, RECORDS))

    def test_a_pipe_is_refused(self) -> None:
        os.mkfifo(self.path)
        with self.assertRaisesRegex(Fault, "is not a regular file"):
            texts_in(self.path)
        with self.assertRaisesRegex(Fault, "is not a regular file"):
            list(read_records(self.path))

    def test_fewer_bytes_are_reserved_if_the_disk_has_no_more(self) -> None:
        journal = self.open()
        with mock.patch("os.posix_fallocate", side_effect=[OSError(errno.ENOSPC, "x"), None]) as tried:
            self.assertTrue(journal.has_room(1000))
        self.assertLess(tried.mock_calls[1].args[2], 3000)
        self.assertFalse(journal.has_room(1 << 60))

    def test_a_full_disk_is_reported_and_a_failing_one_is_a_fault(self) -> None:
        journal = self.open()
        for number in (errno.ENOSPC, errno.EDQUOT, errno.EFBIG):
            with mock.patch("os.posix_fallocate", side_effect=OSError(number, "x")):
                self.assertFalse(journal.has_room(1000))
        with mock.patch("os.posix_fallocate", side_effect=OSError(errno.EIO, "x")), self.assertRaises(Fault):
            journal.has_room(1000)
        with mock.patch("os.posix_fallocate", side_effect=OSError(errno.EOPNOTSUPP, "x")):
            self.assertTrue(journal.has_room(1000))
        with mock.patch("os.fdatasync", side_effect=OSError(errno.EIO, "x")), self.assertRaises(Fault) as caught:
            journal.append(RECORDS)
        self.assertEqual((caught.exception.status, journal.changes), (3, 0))


if __name__ == "__main__":
    unittest.main()
