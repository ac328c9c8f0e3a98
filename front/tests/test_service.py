"""A hub in long service: its files, its operator's view, and its limits."""

from __future__ import annotations

import argparse
import asyncio
import contextlib
import grp
import io
import itertools
import json
import os
import re
import resource
import shutil
import signal
import socket
import subprocess
import sys
import tempfile
import threading
import unittest
from collections.abc import Callable
from hashlib import sha256
from pathlib import Path
from typing import Any
from unittest import mock

from support import (
    FRONT,
    PATIENCE,
    PROGRAM,
    FrontCase,
    Hub as RunningHub,
    HubCase,
    SettableClock,
    design_text,
    run_until,
    tool_words,
    wait_until,
)

from lefence.base import atomic_file
from lefence.base.clock import SYSTEM_CLOCK
from lefence.base.faults import Fault
from lefence.base.program import Program
from lefence.hub import client_pool, exporter, main as hub_tool, status
from lefence.hub.connection import DEFERRED, NOT_DONE, Client, Entry
from lefence.hub.hub import Hub, HubLimits, Phase
from lefence.hub.log_limit import RateLimitedLog
from lefence.hub.notify import notify_alive
from lefence.hub.replay_process import ReplayProcess
from lefence.hub.sockets import bind_socket, claim_folder, groups_of
from lefence.journal.frames import sum_of
from lefence.journal.journal import Journal
from lefence.journal.texts import resolve_texts


class Texts(HubCase):
    """The hub uses the files with which its journal was made."""

    def start_refused(self, *words: str) -> tuple[int, str]:
        done = subprocess.run([*tool_words("lefence-hub"), *words], capture_output=True, text=True, timeout=PATIENCE)
        return done.returncode, done.stderr

    def test_a_changed_design_file_does_not_matter(self) -> None:
        exported, kept = self.folder / "new.def", self.folder / "journal.texts"
        self.start()
        lines = ["open f0", "place f0 0 f0c1 0 0 N", "tidy f0 0", "commit f0 0"]
        self.assertEqual(self.talk("f0").ask(*lines), ["ok 0 0", "ok 1", "ok 2 9", "ok 3"])
        self.design.write_text("DESIGN other ;\nEND DESIGN\n")
        self.lef.unlink()
        os.kill(self.hub.replay_pid(), signal.SIGKILL)
        self.assertEqual(self.talk("f0").ask("open f0", "where f0 0 f0c1"), ["ok 1 3", "ok 0 0 N"])
        refused = f"no 13 NotExported {self.design} is the journal or a file of the design"
        self.assertEqual(self.talk("operator").ask(f"export {exported}", f"export {self.design}"), ["ok", refused])
        inside = kept / "new.def"
        refused = f"no 13 NotExported {inside} is in a folder of the journal"
        self.assertEqual(self.talk("operator").ask(f"export {inside}"), [refused])
        self.assertIn("f0c1 INV + PLACED ( 0 0 ) N", exported.read_text())
        listed = [(text["path"], text["sha256"]) for text in status.read_status(self.folder / "s")["texts"]]
        self.assertEqual(listed[0], (str(self.design), sha256(design_text().encode()).hexdigest()))
        self.hub.kill()
        # A start uses the copies only if the operator says so.
        refusal, output = self.start_refused(*self.words())
        expected = f"t.def has changed since {self.journal} was made: --kept-texts"
        self.assertEqual((refusal, expected in output), (1, True))
        self.assertIn("ready", self.start("--kept-texts"))
        self.assertIn("t.def has changed since the journal was made", self.hub.log_text())
        self.assertIn("t.lef is missing since the journal was made", self.hub.log_text())
        self.assertEqual(self.talk("f0").ask("open f0", "where f0 0 f0c1"), ["ok 0 3", "ok 0 0 N"])
        self.assertEqual(self.hub.end(), 0)
        # Another file is not accepted, nor one without a copy.
        self.lef.write_text("x")
        other = self.folder / "other.def"
        other.write_text(design_text() + "\n")
        refusal, output = self.start_refused(*self.words(design=other))
        self.assertEqual((refusal, "of another design" in output), (1, True), output)
        shutil.rmtree(kept)
        refusal, output = self.start_refused(*self.words())
        self.assertEqual((refusal, "no copy of that is kept" in output), (1, True), output)

    def test_missing_or_damaged_copies_are_made_again(self) -> None:
        self.start()
        self.talk("f0").ask("open f0", "place f0 0 f0c1 0 0 N")
        spoils: tuple[Callable[[Path], object], ...] = (lambda path: path.unlink(), lambda path: path.write_bytes(b"x"))
        for flip_bit in spoils:
            self.hub.kill()
            copies = [path for path in (self.folder / "journal.texts").rglob("*") if path.is_file()]
            self.assertEqual(sorted(path.name for path in copies), ["t.def", "t.lef"])
            for path in copies:
                # A copy that a killed hub did not finish does not stay.
                path.with_name(f"{path.name}.partial0").write_bytes(b"x")
                path.chmod(0o600)
                flip_bit(path)
            self.assertIn("ready", self.start())
        self.assertEqual(self.talk("f0").ask("open f0"), ["ok 0 1"])

    def test_a_backup_is_the_journal_and_its_texts_copied_while_the_hub_runs(self) -> None:
        self.start()
        self.talk("f0").ask("open f0", "place f0 0 f0c1 0 0 N")
        saved = self.folder / "saved"
        saved.mkdir()
        shutil.copy(self.journal, saved)
        shutil.copytree(self.folder / "journal.texts", saved / "journal.texts")
        self.assertEqual(self.hub.end(), 0)
        for path in (self.journal, self.design, self.lef):
            path.unlink()
        shutil.rmtree(self.folder / "journal.texts")
        # Another path but the same bytes: the copies themselves may be given.
        self.design, self.lef = (next((saved / "journal.texts").rglob(name)) for name in ("t.def", "t.lef"))
        self.hub = RunningHub(self.folder, self.words(journal="saved/journal"))
        self.addCleanup(self.hub.kill)
        self.assertIn("ready", self.hub.wait_ready())
        self.assertEqual(self.talk("f0").ask("open f0", "where f0 0 f0c1"), ["ok 0 1", "ok 0 0 N"])

    def test_another_program_is_reported_with_the_first_reply_that_differs(self) -> None:
        self.start()
        self.talk("f0").ask("open f0", "place f0 0 f0c1 0 0 N")
        self.hub.kill()
        script = self.folder / "other"
        script.write_text(
            f"#!/bin/sh\n[ $1 = replay ] || exec '{PROGRAM}' \"$@\"\n'{PROGRAM}' \"$@\" | sed -u 's/^ok 1$/ok 7/'\n"
        )
        script.chmod(0o755)
        self.program = str(script)
        self.assertIn("the journal was written with another program", self.start())
        self.assertIn("change 2: the journal has b'ok 1", self.hub.log_text())

    def test_a_first_start_may_be_interrupted_at_any_step(self) -> None:
        journal, steps = self.folder / "j", ("fsync", "replace", "pwrite", "ftruncate", "mkdir", "fdatasync")

        def start() -> list[Path]:
            texts, kept = resolve_texts(journal, [self.design, self.lef], self.fail)
            Journal(journal, texts, self.fail).close()
            return [path for text, path in zip(texts, kept) if sum_of(path) == text.sum]

        def begin(last: int) -> bool:
            """Whether a process that is to end at this step completes a start."""
            if child := os.fork():
                return os.waitpid(child, 0)[1] == 0
            count = itertools.count()
            for name in steps:
                step = getattr(os, name)

                def limited(*words: Any, step: Callable[..., Any] = step, **more: Any) -> Any:
                    return step(*words, **more) if next(count) < last else os._exit(7)

                setattr(os, name, limited)
            start()
            os._exit(0)

        number = 0
        while not begin(number):
            number += 1
            self.assertEqual([path.name for path in start()], ["t.def", "t.lef"])
            shutil.rmtree(self.folder / "j.texts")
            journal.unlink()
        self.assertGreater(number, 12)

    def test_a_journal_without_changes_can_get_another_design(self) -> None:
        self.design.write_text("DESIGN x ;\nEND DESIGN\n")
        self.assertIn("7 NoUnits", self.start())
        self.design.write_text(design_text())
        self.assertIn("ready", self.start())

    def test_a_journal_that_is_moved_ends_the_hub(self) -> None:
        self.start()
        self.talk("f0").ask("open f0", "place f0 0 f0c1 0 0 N")
        moved: Path = self.folder / "moved"
        self.journal.rename(moved)
        self.assertEqual(self.hub.process.wait(PATIENCE), 3)
        self.assertIn("the journal is gone", self.hub.log_text())
        moved.rename(self.journal)
        self.assertIn("ready", self.start())
        self.assertEqual(self.talk("f0").ask("open f0", "where f0 0 f0c1"), ["ok 0 1", "ok 0 0 N"])


class Sockets(FrontCase):
    """Owners of sockets, and their folder."""

    def bound(self, *words: Any) -> tuple[int, int]:
        path = self.folder / "A.sock"
        bind_socket(path, 0o660, True, *words).close()
        found = path.lstat()
        return found.st_mode & 0o777, found.st_gid

    def test_modes_are_taken_from_own_sockets(self) -> None:
        path, other = self.folder / "A.sock", self.folder / "other.sock"
        mine = os.getegid()
        self.assertEqual(self.bound(None), (0o660, mine))
        path.chmod(0o600)
        self.assertEqual(self.bound(None), (0o600, mine))
        path.rename(other)
        other.chmod(0o777)
        path.symlink_to(other)
        with self.assertRaises(Fault):
            self.bound(None)
        path.unlink()
        if os.geteuid() == 0:
            os.chown(other, 12345, 12345)
            other.chmod(0o777)
            other.rename(path)
            self.assertEqual(self.bound(None), (0o660, mine))
            self.assertEqual(self.bound(12345), (0o660, 12345))
            self.assertEqual(self.bound(None), (0o660, 12345))

    def test_a_group_that_cannot_be_set_is_a_fault(self) -> None:
        with mock.patch("os.chown", side_effect=PermissionError(1, "x")), self.assertRaises(Fault):
            self.bound(os.getegid() + 1)
        self.assertFalse((self.folder / "A.sock").exists())
        self.assertEqual(groups_of(["a=b=7", f"A={grp.getgrgid(0).gr_name}"]), {"a=b": 7, "A": 0})
        for word in ("A", "=7", "A=no such group"):
            with self.assertRaises(Fault):
                groups_of([word])

    def test_a_folder_that_others_may_write_to_is_refused(self) -> None:
        folder = self.folder / "s"
        folder.mkdir()
        for mode in (0o777, 0o775, 0o757, 0o1777):
            folder.chmod(mode)
            with self.assertRaises(Fault) as caught:
                claim_folder(folder)
            self.assertEqual(caught.exception.status, 1)
        folder.chmod(0o755)
        if os.geteuid() == 0:
            os.chown(folder, 12345, 12345)
            with self.assertRaises(Fault):
                claim_folder(folder)
        before = os.umask(0o002)
        self.addCleanup(os.umask, before)
        claim_folder(self.folder / "made")


class Made(unittest.TestCase):
    """A hub with hand-made clients, a program that accepts everything, and a clock that stands still."""

    def setUp(self) -> None:
        def execute(lines: list[bytes]) -> list[bytes]:
            self.lines += lines
            return [b"ok %d 0\n" % number if line.startswith(b"open") else b"ok\n" for number, line in enumerate(lines)]

        self.lines: list[bytes] = []
        self.messages: list[str] = []
        replay = mock.Mock(execute=mock.AsyncMock(side_effect=execute), pid=None)
        replay.seconds_silent.return_value = 0
        journal = Journal(Path(self.enterContext(tempfile.TemporaryDirectory())) / "j", [], self.messages.append)
        self.clock = SettableClock()
        self.hub = Hub(replay, journal, HubLimits(), self.messages.append, self.clock)
        self.hub.teams, self.hub.unused_name, self.hub.pool.most_clients = ["f0", "f1"], b"~", 8

    def client(self, team: bytes, uid: int = 4242) -> Client:
        made = Client(self.hub, team)
        made.uid = uid
        self.transport = mock.Mock(**{"is_closing.return_value": False, "get_write_buffer_size.return_value": 100000})
        made.transport = self.transport
        near, self.far = socket.socketpair()
        self.transport.get_extra_info.return_value = near
        for end in (near, self.far):
            self.addCleanup(end.close)
        return made

    def send(self, client: Client, text: bytes) -> None:
        client.get_buffer(len(text))[: len(text)] = text
        client.buffer_updated(len(text))

    def answer_all(self) -> list[bytes]:
        """The lines that the program gets."""
        self.lines.clear()

        async def answer() -> None:
            [shard] = self.hub.shards
            while batch := self.hub.next_batch(shard):
                await self.hub.answer(shard, batch)

        asyncio.run(answer())
        return self.lines[:]

    def written(self) -> bytes:
        """What was sent to the client that was made last."""
        return b"".join(call.args[0] for call in self.transport.write.mock_calls)


class Shares(Made):
    """The end of a hub, and what one user or one client may have of it."""

    def test_an_end_goes_from_phase_to_phase(self) -> None:
        phases: list[Phase] = []
        enter = self.hub._enter

        def note(phase: Phase) -> None:
            enter(phase)
            phases.append(self.hub.phase)

        async def end() -> None:
            await self.hub.stop(asyncio.create_task(self.hub.run()), PATIENCE)

        with mock.patch.object(self.hub, "_enter", note):
            asyncio.run(end())
        self.assertEqual(phases, [Phase.STOPPING, Phase.ANSWERED, Phase.OVER])
        for phase in Phase:
            with self.assertRaisesRegex(AssertionError, f"OVER is not followed by {phase.name}"):
                self.hub._enter(phase)

    def test_at_the_end_lines_that_are_not_executed_are_refused(self) -> None:
        client = self.client(b"f0")
        fields = [b"where", b"f0", b"0", b"x"]
        answered, deferred = Entry(client, fields, b"ok 1\n"), Entry(client, fields, DEFERRED)
        self.hub._refuse([answered, deferred, Entry(client, fields), Entry(None, [])])
        self.assertEqual(self.written(), b"ok 1\n" + NOT_DONE)

    def test_one_user_can_have_only_a_part_of_the_connections(self) -> None:
        self.assertEqual([self.hub.admit(self.client(b"f0")) for _ in range(7)], [True] * 6 + [False])
        self.assertEqual((self.hub.admit(self.client(b"f0", 7)), self.hub.admit(self.client(b"f1"))), (True, True))
        self.assertEqual([self.hub.admit(self.client(b"f1", os.geteuid())) for _ in range(7)], [True] * 7)

    def test_one_user_can_have_only_a_part_of_the_sessions(self) -> None:
        other, many = self.client(b"f0", 7), self.client(b"f0")
        self.send(many, b"open f0\n" * 4)
        self.answer_all()
        self.send(many, b"open f1\n" + b"open f0\n" * 5)
        self.send(other, b"open f0\n")
        self.assertEqual(self.answer_all().count(b"open f0"), 3)
        self.assertEqual(self.written().count(b"no 10 SessionsFull\n"), 3)
        # The program refuses another team's lines, however often they come.
        self.send(self.client(b"f0", 9), b"open f1\n" * 8)
        self.assertEqual(self.answer_all(), [b"open ~"] * 8)

    def test_a_session_that_is_closed_makes_room_for_another(self) -> None:
        many = self.client(b"f0")
        replies = {b"close f0 0": b"ok\n", b"open f0": b"ok 5 0\n"}
        execute = mock.AsyncMock(side_effect=lambda lines: [replies[line] for line in lines])
        [shard] = self.hub.shards
        shard.replay = mock.Mock(execute=execute, pid=None)
        self.hub.pool.owners = {(b"f0", number): client_pool.SessionOwner(many, 0) for number in range(6)}
        self.send(many, b"close f0 0\nclose f0 0\nopen f0\nopen f0\n")
        self.answer_all()
        self.assertEqual(self.written(), b"ok\nok\nok 5 0\nno 10 SessionsFull\n")

    def test_slow_readers_hold_no_long_replies_of_others(self) -> None:
        slow = [self.client(team) for team in (b"f0", b"f0", b"f1", b"f1")]
        for client in slow:
            client.is_slow = True
            self.transport.get_write_buffer_size.return_value = 1 << 40
            self.hub.mark_slow(client)
        third, other = self.client(b"f0"), self.client(b"f2")
        self.send(third, b"where f0 0 x\ncheck f0 0\nwhere f0 0 y\n")
        self.send(other, b"def f2 0\n")
        lines = [b"where f0 0 x", b"def f2 0", b"check f0 0", b"where f0 0 y"]
        self.assertEqual(sorted(self.answer_all()), sorted(lines))

    def read_reply(self, size: int, is_closed: bool) -> bytes:
        """What a client gets that begins to read late a reply of this size, between two short ones."""

        async def converse() -> bytes:
            near, far = socket.socketpair()
            with far:
                connected = await asyncio.get_running_loop().connect_accepted_socket(
                    lambda: Client(self.hub, b"f0"), near
                )
                client, text = connected[1], b"ok %d\n" % size + bytes(size)
                for reply in (b"first\n", text, b"last\n"):
                    client.reply(reply)
                client.flush()
                if is_closed:
                    client.disconnect()
                self.assertEqual(client.is_slow, size > 1 << 20)
                self.assertLess(client.transport.get_write_buffer_size(), 1 << 18)
                self.unread = client.unread_bytes()
                found = await asyncio.to_thread(self.received, far, len(text) + 11, is_closed)
                self.assertEqual((client.is_slow, client.unread_bytes()), (False, 0))
                if not is_closed:
                    client.transport.abort()
                return found

        return asyncio.run(converse())

    def received(self, far: socket.socket, count: int, is_closed: bool) -> bytes:
        found = b""
        while (is_closed or len(found) < count) and (piece := far.recv(1 << 16)):
            found += piece
        return found

    def test_a_long_reply_waits_in_a_file_until_it_is_read(self) -> None:
        for size in (100, 70_000, 5 << 20):
            for is_closed in (False, True):
                want = b"first\nok %d\n" % size + bytes(size) + b"last\n"
                self.assertTrue(self.read_reply(size, is_closed) == want, size)
        self.assertGreater(self.unread, 4 << 20)

    def test_a_long_reply_without_room_is_refused(self) -> None:
        patches: list[Any] = [
            mock.patch.object(client_pool, "_MOST_UNREAD", 1000),
            mock.patch.object(client_pool, "_FREE", 1 << 60),
            mock.patch("lefence.hub.spool.Spool.write", side_effect=OSError(28, "no room")),
        ]
        for patch in patches:
            with patch:
                client = self.client(b"f0")
                client.reply(b"ok 1\n")
                client.reply(b"ok 70000\n" + bytes(70000))
                client.flush()
                self.assertEqual(self.written(), b"ok 1\nno 12 OutOfMemory\n")

    def test_an_export_is_answered_when_its_name_is_on_the_disk(self) -> None:
        steps, target = mock.Mock(), Path(self.hub.journal.path).with_name("new.def")
        second = mock.Mock(start=mock.AsyncMock(), restore=mock.AsyncMock(), kill=mock.AsyncMock())
        second.end = mock.AsyncMock(side_effect=lambda: [steps.end(), 0][1])
        self.hub.replay.program.texts = []
        with mock.patch.object(exporter, "ReplayProcess", return_value=second), mock.patch.object(
            atomic_file, "sync_folder", steps.sync
        ):
            self.assertIsNone(asyncio.run(self.hub.exporter.write(str(target), self.hub.journal.position)))
        self.assertEqual([str(call) for call in steps.mock_calls], ["call.end()", f"call.sync({target.parent!r})"])


class Times(Made):
    """Limits in seconds, on a clock that passes as the tests say."""

    def test_a_slow_reader_is_not_dropped_and_one_that_reads_nothing_is(self) -> None:
        near, far = socket.socketpair()
        self.addCleanup(near.close)
        self.addCleanup(far.close)
        near.setblocking(False)
        with contextlib.suppress(BlockingIOError):
            while near.send(bytes(1 << 16)):
                pass
        client = self.client(b"f0")
        self.transport.get_extra_info.return_value = near
        client.pause_writing()
        for count in (50000, 50000, 0):
            if count:
                far.recv(count)
            self.clock.advance(59)
            self.assertFalse(self.transport.abort.called)
            self.clock.advance(1)
        self.assertTrue(self.transport.abort.called)
        self.assertRegex(self.messages[-1], "dropped, .* bytes unread")

    def test_a_client_that_leaves_without_reading_is_dropped(self) -> None:
        async def disconnect(unread: int, read: int) -> None:
            near, far = socket.socketpair()
            near.setsockopt(socket.SOL_SOCKET, socket.SO_SNDBUF, 4096)
            near.setblocking(False)
            far.setblocking(False)
            with contextlib.suppress(BlockingIOError):
                while near.send(bytes(1 << 10)):
                    pass
            with far:
                _, client = await asyncio.get_running_loop().connect_accepted_socket(
                    lambda: Client(self.hub, b"f0"), near
                )
                client.reply(bytes(unread))
                client.flush()
                client.disconnect()
                while client.is_slow and read:
                    with contextlib.suppress(BlockingIOError):
                        far.recv(read)
                    await asyncio.sleep(0)
                # (those of the second client that the event loop has not noticed yet take another turn)
                async with asyncio.timeout(PATIENCE):
                    while self.hub.pool.clients:
                        self.clock.advance(60)
                        await asyncio.sleep(0)

        # Few bytes remain, initially or after the client has read some.
        asyncio.run(disconnect(1000, 0))
        asyncio.run(disconnect(100_000, 1 << 12))

    def test_a_client_that_is_idle_without_a_session_is_dropped(self) -> None:
        idle, talking, owner, busy, slow, waiting = clients = [self.client(b"f0") for _ in range(6)]
        for number, client in enumerate(clients):
            self.assertTrue(self.hub.admit(client), number)
            client.name = f"client {number}"
        self.hub.pool.own(b"f0", 0, owner)
        busy.is_busy, slow.is_slow = True, True
        waiting.waiting.append(b"sync f0 0")
        self.clock.advance(600)
        self.send(talking, b"where f0 0 x\n")
        self.answer_all()
        dropped: list[Client] = []
        with mock.patch.object(Client, "disconnect", lambda client: dropped.append(client)):
            for seconds, expected in ((300, set()), (1, {idle}), (598, {idle}), (2, {idle, talking})):
                self.clock.advance(seconds)
                dropped.clear()
                self.hub.end_overdue()
                self.assertEqual({*dropped}, expected, self.clock.now())
        self.assertIn("client 0: dropped, idle without a session", self.messages)

    def test_a_line_without_an_end_is_no_silence(self) -> None:
        client = self.client(b"f0")
        self.hub.admit(client)
        for _ in range(5):
            self.clock.advance(800)
            self.send(client, b"x")
            self.assertEqual(self.hub.pool.idle(900), [])

    def test_changes_are_tried_again_a_second_after_a_full_disk(self) -> None:
        [shard] = self.hub.shards
        client = self.client(b"f0")
        with mock.patch.object(self.hub.writer, "reserve", mock.AsyncMock(return_value=False)):
            self.send(client, b"open f0\n")
            self.assertEqual(self.answer_all(), [])
        self.assertEqual((self.written(), shard.has_orphans), (NOT_DONE, False))
        self.clock.advance(0.9)
        self.assertFalse(shard.has_orphans)
        self.clock.advance(0.1)
        self.assertTrue(shard.has_orphans)

    def test_a_state_is_due_after_two_seconds_of_the_program(self) -> None:
        [shard] = self.hub.shards

        def execute(lines: list[bytes]) -> list[bytes]:
            self.clock.advance(1.5)
            return [b"ok 0 0\n" for _ in lines]

        shard.replay = mock.Mock(execute=mock.AsyncMock(side_effect=execute), pid=None)
        client, found = self.client(b"f0"), []
        for _ in range(2):
            self.send(client, b"open f0\nwhere f0 0 x\n" * 2)
            self.answer_all()
            found.append((self.hub.checkpoints.seconds, self.hub.checkpoints.is_due()))
        # (half of the lines are changes)
        self.assertEqual(found, [(0.75, False), (1.5, False)])
        self.send(client, b"open f0\n")
        self.answer_all()
        self.assertEqual((self.hub.checkpoints.seconds, self.hub.checkpoints.is_due()), (3, True))
        self.assertEqual([*shard.seconds], [1.5] * 3)

    def test_the_end_waits_for_lines_only_as_long_as_it_may(self) -> None:
        async def execute(lines: list[bytes]) -> list[bytes]:
            await asyncio.Event().wait()
            return []

        [shard] = self.hub.shards
        shard.replay = mock.Mock(execute=execute, pid=None)

        async def end() -> None:
            client = self.client(b"f0")
            self.hub.admit(client)
            run = asyncio.create_task(self.hub.run())
            self.send(client, b"sync f0 0\nbye\nsync f0 0\n")
            await run_until(lambda: shard.batch)
            stop = asyncio.create_task(self.hub.stop(run, 10))
            await run_until(lambda: self.hub.phase is Phase.STOPPING)
            self.clock.advance(9.9)
            await asyncio.sleep(0)
            self.assertEqual((stop.done(), self.written()), (False, b""))
            self.clock.advance(0.1)
            await stop

        asyncio.run(end())
        self.assertEqual(self.written(), NOT_DONE + b"ok\n")
        self.assertIn("not all lines were answered within 10 seconds; the rest is refused", self.messages)

    def test_clients_have_five_seconds_for_their_last_replies(self) -> None:
        async def end(reads: bool) -> float:
            client = self.client(b"f0")
            self.hub.admit(client)
            with mock.patch.object(Client, "disconnect"):
                task, begin = asyncio.create_task(hub_tool.disconnect_all(self.hub)), self.clock.now()
                while not task.done():
                    self.clock.advance(0.5)
                    if reads:
                        self.hub.remove(client)
                    await asyncio.sleep(0.001)
                await task
            self.hub.remove(client)
            return self.clock.now() - begin

        self.assertLess(asyncio.run(end(True)), 5)
        self.assertGreaterEqual(asyncio.run(end(False)), 5)

    def test_a_wait_ends_with_its_task_or_its_seconds(self) -> None:
        async def work() -> list[bool]:
            event, found = asyncio.Event(), []
            for clock in (self.clock, SYSTEM_CLOCK):
                event.clear()
                task = asyncio.create_task(event.wait())
                waiting = asyncio.create_task(clock.wait(task, 0.05))
                await asyncio.sleep(0)
                self.clock.advance(0.05)
                found.append(await waiting)
                waiting = asyncio.create_task(clock.wait(task, 1000))
                event.set()
                found.append(await waiting)
            return found

        self.assertEqual(asyncio.run(work()), [False, True] * 2)


class Silence(FrontCase):
    """A program that answers nothing, on a clock that passes as the test says."""

    def test_a_program_that_is_silent_for_the_deadline_is_restored(self) -> None:
        clock, messages = SettableClock(), list[str]()
        texts, kept = resolve_texts(self.journal, [self.design, self.lef], messages.append)
        journal = Journal(self.journal, texts, messages.append)
        self.addCleanup(journal.close)
        replay = ReplayProcess(Program(PROGRAM, kept), [text.sum for text in texts], clock=clock)

        async def work() -> None:
            hub = Hub(replay, journal, HubLimits(deadline=600), messages.append, clock)
            await hub.start([])
            [shard] = hub.shards
            try:
                self.assertEqual((await shard.execute([b"open f0"]))[0], [b"ok 0 0\n"])
                # (it has nothing to do)
                clock.advance(10_000)
                hub.end_overdue()
                os.kill(replay.pid or 0, signal.SIGSTOP)
                answered = asyncio.create_task(shard.execute([b"open f0"]))
                await run_until(lambda: replay._since)
                for seconds in (599, 1):
                    clock.advance(seconds)
                    hub.end_overdue()
                    self.assertEqual((replay.seconds_silent() >= 599, messages), (True, []))
                clock.advance(0.5)
                hub.end_overdue()
                self.assertEqual(messages, ["the program was silent for 600 seconds and is killed"])
                self.assertEqual((await answered)[0], [b"ok 0 0\n"])
                self.assertEqual((shard.restores, replay.seconds_silent()), (1, 0))
            finally:
                await hub.shards.kill()

        asyncio.run(work())


class Faults(FrontCase):
    def test_after_a_fault_nothing_more_is_answered(self) -> None:
        ended = []

        async def wait_forever() -> None:
            try:
                await asyncio.Event().wait()
            finally:
                ended.append(True)

        async def watch() -> None:
            await run_until((self.folder / "operator.sock").exists)
            raise Fault(3, "the journal is lost")

        async def run() -> None:
            hub = mock.MagicMock(
                teams=[], clients=set(), start=mock.AsyncMock(return_value=[]), run=wait_forever, watch=watch
            )
            patched = mock.patch.multiple(hub_tool, say=mock.DEFAULT, start_warning=mock.DEFAULT)
            with self.assertRaisesRegex(Fault, "is lost"), patched:
                await hub_tool.serve(
                    hub, argparse.Namespace(group=[], team=[], sockets=self.folder, roll=False), asyncio.Event()
                )
            await asyncio.sleep(0)
            self.assertEqual(ended, [True])

        asyncio.run(run())


class Floods(unittest.TestCase):
    def test_a_line_of_each_kind_is_printed_once_a_minute(self) -> None:
        output: list[str] = []
        clock = SettableClock()
        log_limited = RateLimitedLog(output.append, clock)
        for kind, seconds in zip("aabaab", (0, 1, 1, 1, 57, 0.5)):
            clock.advance(seconds)
            log_limited(kind, kind)
        self.assertEqual(output, ["a", "b", "a (and 2 more since the last such line)"])
        clock.advance(1.5)
        log_limited("b", "b")
        self.assertEqual(output[3:], ["b (and 1 more since the last such line)"])


class Operator(HubCase):
    """The operator's view, and limits."""

    def ask_hub(self, option: str) -> str:
        return subprocess.check_output(
            [*tool_words("lefence-hub"), option, str(self.folder / "s")], text=True, timeout=PATIENCE
        )

    def send_end(self, path: Path) -> None:
        with socket.socket(socket.AF_UNIX, socket.SOCK_DGRAM) as end, contextlib.suppress(OSError):
            end.sendto(b"end", str(path))

    def test_a_full_socket_of_systemd_blocks_nobody(self) -> None:
        path = self.folder / "systemd"
        with socket.socket(socket.AF_UNIX, socket.SOCK_DGRAM) as systemd, mock.patch.dict(
            os.environ, {"NOTIFY_SOCKET": str(path)}
        ):
            systemd.bind(str(path))
            for _ in range(2000):
                notify_alive(True)
            self.assertEqual(systemd.recv(100), b"WATCHDOG=1")

    def test_status_metrics_and_what_is_not_committed(self) -> None:
        address, words = self.folder / "systemd", bytearray()

        def hear(systemd: socket.socket) -> None:
            while (piece := systemd.recv(1 << 12)) != b"end":
                words.extend(piece + b"\n")

        with socket.socket(socket.AF_UNIX, socket.SOCK_DGRAM) as systemd:
            systemd.bind(str(address))
            listener = threading.Thread(target=hear, args=(systemd,))
            listener.start()
            self.addCleanup(listener.join)
            self.addCleanup(self.send_end, address)
            with mock.patch.dict(os.environ, {"NOTIFY_SOCKET": str(address)}):
                self.start("--slow", "0.000001")
            talker = self.talk("f0")
            talker.ask("open f0", "place f0 0 f0c1 0 0 N", "place f0 0 f0c2 2000 0 N")
            self.talk("f1").ask("open f1", "tidy f1 0", "commit f1 0")
            hub_status = json.loads(self.ask_hub("--status"))
            teams = {each["team"]: each for each in hub_status["teams"]}
            self.assertEqual([teams["f0"][key] for key in ("revision", "uncommitted", "clients")], [2, 2, 1])
            [session] = teams["f0"]["sessions"]
            self.assertEqual((session["number"], session["uid"], session["pid"]), (0, os.geteuid(), os.getpid()))
            self.assertEqual(
                (teams["f1"]["revision"], teams["f1"]["uncommitted"], hub_status["changes_total"]), (2, 0, 6)
            )
            self.assertTrue(
                hub_status["sync_seconds_p99"] > 0
                and hub_status["program_bytes"] > 1 << 20
                and hub_status["journal_bytes"] > 300
            )
            self.assertEqual((teams["f0"]["lines_total"], len(hub_status["slow_lines"])), (3, 6))
            self.assertTrue(0 < teams["f0"]["line_seconds_p50"] <= teams["f0"]["line_seconds_p99"])
            self.assertGreater(teams["f0"]["work_seconds_total"], 0)
            self.assertIn("a slow `open` of team f0: ", self.hub.log_text())
            metrics = self.ask_hub("--metrics")
            self.assertIn('lefence_team_revision{team="f0"} 2\n', metrics)
            self.assertIn('lefence_team_line_seconds_p99{team="f0"} ', metrics)
            for line in metrics.splitlines():
                self.assertRegex(
                    line,
                    r"^(# (HELP|TYPE) )?lefence_[a-z0-9_]+(\{team=\"[^ ]+\"\})? ([-0-9.e]+|counter|gauge|[A-Z].*)$",
                )
            self.assertEqual(talker.ask("status"), ["no 1 BadRequest"])
            wait_until(lambda: b"WATCHDOG=1" in words)
            self.assertEqual(self.hub.end(), 0)
            self.send_end(address)
            listener.join()
        self.assertEqual([b"READY=1\nSTATUS=ready" in words, b"STOPPING=1" in words], [True] * 2)
        self.assertIn("uncommitted changes: 2 of f0\n", self.hub.log_text())

    def test_status_of_a_hub_that_is_gone_or_does_not_answer(self) -> None:
        self.start()
        self.hub.end()
        done = self.tool("lefence-hub", "--status", self.folder / "s")
        refusal = f"lefence-hub: {self.folder / 's/operator.sock'}: Connection refused\n"
        self.assertEqual((done.returncode, done.stderr.decode()), (3, refusal))
        with socket.socket(socket.AF_UNIX) as silent, mock.patch.object(status, "_PATIENCE", 0.2):
            silent.bind(str(self.folder / "operator.sock"))
            silent.listen()
            with self.assertRaisesRegex(Fault, "no reply for 0.2 seconds"):
                status.read_status(self.folder)

    def test_status_waits_for_no_line(self) -> None:
        self.start()
        talker = self.talk("f0")
        self.assertEqual(talker.ask("open f0"), ["ok 0 0"])
        os.kill(self.hub.replay_pid(), signal.SIGSTOP)
        talker.socket.sendall(b"sync f0 0\n")
        with mock.patch.object(status, "_PATIENCE", PATIENCE):
            self.assertEqual(status.read_status(self.folder / "s")["clients"], 2)
        os.kill(self.hub.replay_pid(), signal.SIGCONT)
        self.assertEqual(talker.replies.readline(), b"ok 0\n")

    def test_a_team_whose_socket_has_a_long_path_is_served_by_the_operator(self) -> None:
        long = "a/" * 40
        self.design.write_text(
            design_text().replace("- f1 (", f"- {long} (").replace("REGION f1 ", f"REGION {long} ")
        )
        self.assertIn("ready: 9 teams", self.start())
        self.assertIn(f"team {long} has no socket", self.hub.log_text())
        self.assertEqual((self.talk("f0").ask("open f0"), self.talk("operator").ask(f"open {long}")), (["ok 0 0"],) * 2)

    def test_a_second_hangup_gives_nothing_up(self) -> None:
        async def signals(second: int) -> bool:
            stopped = mock.Mock(wraps=asyncio.Event())
            with mock.patch("os._exit") as exits, mock.patch.object(hub_tool, "say"), mock.patch("threading.Timer"):
                hub_tool.end_by_signals(mock.Mock(), stopped, 1)
                os.kill(os.getpid(), signal.SIGHUP)
                await asyncio.wait_for(stopped.wait(), PATIENCE)
                os.kill(os.getpid(), second)
                # (each signal asks whether it is the first one)
                await run_until(lambda: stopped.is_set.call_count == 2)
                return exits.called

        # (under `nohup` it is ignored)
        self.addCleanup(signal.signal, signal.SIGHUP, signal.signal(signal.SIGHUP, signal.SIG_DFL))
        self.assertFalse(asyncio.run(signals(signal.SIGHUP)))
        self.assertTrue(asyncio.run(signals(signal.SIGTERM)))

    def test_a_log_that_nobody_reads_holds_nothing(self) -> None:
        script = "from lefence.hub.main import say\nfor turn in range(5000):\n    say('x' * 100)"
        reading, writing = os.pipe()
        self.addCleanup(os.close, reading)
        words = ["-c", f"import sys; sys.path.insert(0, {str(FRONT)!r})\n{script}"]
        done = subprocess.run([sys.executable, *words], stderr=writing, timeout=PATIENCE)
        os.close(writing)
        self.assertEqual(done.returncode, 0)

    def test_bad_numbers_are_refused(self) -> None:
        needed = ["t.def", "t.lef", "--sockets", "s", "--journal", "j"]
        seconds, least = "a number of seconds, 0 or more", "0 or more"
        for option, value, expected in (
            *(
                (option, value, seconds)
                for option in ("--grace", "--idle", "--patience", "--deadline")
                for value in ("nan", "-3", "inf")
            ),
            ("--tail-seconds", "1e300", seconds),
            ("--tail-bytes", "-5", least),
            ("--keep", "1", "0, or 2 or more"),
            ("--sessions", "99", "1 to 64"),
        ):
            with contextlib.redirect_stderr(io.StringIO()) as output, self.assertRaises(SystemExit) as ended:
                hub_tool.parser().parse_args([*needed, option, value])
            self.assertEqual(
                (ended.exception.code, f"argument {option}: {value}: {expected}\n" in output.getvalue()),
                (2, True),
                output.getvalue(),
            )

    def test_a_program_that_hangs_is_restored_and_cannot_hold_the_end(self) -> None:
        # (on a busy machine the program may need seconds to start; shorter times are tested with a clock that is set)
        self.start("--deadline", "15", "--idle", "15", "--grace", "1")
        talker, idle = self.talk("f0"), self.talk("f1")
        self.assertEqual(talker.ask("open f0", "place f0 0 f0c1 0 0 N"), ["ok 0 0", "ok 1"])
        os.kill(self.hub.replay_pid(), signal.SIGSTOP)
        self.assertEqual(talker.ask("where f0 0 f0c1"), ["ok 0 0 N"])
        self.assertIn("was silent for 15 seconds", self.hub.log_text())
        # A silent client without a session is dropped.
        self.assertEqual(idle.replies.read(), b"")
        self.assertEqual(talker.ask("where f0 0 f0c1"), ["ok 0 0 N"])
        self.hub.kill()
        exported = self.folder / "new.def"
        self.start("--grace", "40", "--export", str(exported))
        talker = self.talk("f0")
        self.assertEqual(talker.ask("open f0", "tidy f0 0", "commit f0 0"), ["ok 0 1", "ok 2 9", "ok 3"])
        os.kill(self.hub.replay_pid(), signal.SIGSTOP)
        talker.socket.sendall(b"place f0 0 f0c1 400 0 N\nsync f0 0\n")
        talker.wait_read()
        self.assertEqual(self.hub.end(), 0)
        self.assertIn("not all lines were answered within 10 seconds", self.hub.log_text())
        self.assertEqual(talker.replies.read(), b"no 12 OutOfMemory\n" * 2)
        self.assertIn("f0c1 INV + PLACED ( 0 0 ) N", exported.read_text())

    def test_a_program_that_hangs_in_the_last_export_cannot_hold_the_end(self) -> None:
        script = self.folder / "hanging"
        script.write_text(f"#!/bin/sh\ncase \"$*\" in *--export*) exec sleep 3600;; esac\nexec '{PROGRAM}' \"$@\"\n")
        script.chmod(0o755)
        self.program = str(script)
        self.start("--grace", "1", "--export", str(self.folder / "new.def"))
        self.assertEqual(self.hub.end(), 3)
        self.assertIn("killed: not ended within", self.hub.log_text())

    def test_slow_readers_hold_neither_the_end_nor_the_last_export(self) -> None:
        exported = self.folder / "new.def"
        # (the few changes are worth a state at the end, and none before)
        self.start("--grace", "30", "--export", str(exported), "--tail-bytes", "400")
        talker, slow = self.talk("f0"), [self.talk("f0") for _ in range(2)]
        lines = ["open f0", "place f0 0 f0c1 0 0 N", "tidy f0 0", "commit f0 0"]
        self.assertEqual(talker.ask(*lines), ["ok 0 0", "ok 1", "ok 2 9", "ok 3"])
        for reader in slow:
            reader.socket.settimeout(0.2)
            with self.assertRaises(TimeoutError):
                reader.socket.sendall(b"def f0 0\n" * 100_000)
        wait_until(lambda: status.read_status(self.folder / "s")["unread_bytes"] >= 2 << 16)
        talker.socket.sendall(b"check f0 0\n")
        talker.wait_read()
        self.hub.process.terminate()
        # The reply comes at once, the file before the readers get their time to read.
        self.assertRegex(talker.replies.readline(), b'^ok {"')
        self.hub.wait_for("saved a state of")
        self.assertEqual(self.hub.process.wait(PATIENCE), 0)
        self.assertIn("f0c1 INV + PLACED ( 0 0 ) N", exported.read_text())

    def test_spent_descriptors_make_no_flood_of_lines(self) -> None:
        self.start()
        pid = self.hub.process.pid
        resource.prlimit(pid, resource.RLIMIT_NOFILE, (len(os.listdir(f"/proc/{pid}/fd")) + 2, 4096))
        ends = [socket.socket(socket.AF_UNIX) for _ in range(40)]
        for end in ends:
            self.addCleanup(end.close)
            end.setblocking(False)
            with contextlib.suppress(BlockingIOError):
                end.connect(str(self.folder / "s/f0.sock"))
        self.hub.wait_for("accept")
        for end in ends:
            end.close()
        resource.prlimit(pid, resource.RLIMIT_NOFILE, (4096, 4096))
        self.assertEqual(self.talk("f1").ask("open f1"), ["ok 0 0"])
        # The socket accepts again when the event loop has tried it again.
        self.assertEqual(self.talk("f0").ask("open f0"), ["ok 0 0"])
        self.assertLess(len(self.hub.log_text().splitlines()), 8)

    def test_errors_of_the_event_loop_are_printed_once_a_minute(self) -> None:
        clock, output = SettableClock(), list[str]()
        hub = mock.Mock(log_limited=RateLimitedLog(output.append, clock))

        async def work() -> None:
            hub_tool.limit_loop_errors(hub)
            context = {"message": "socket.accept() out of system resource", "exception": OSError(24, "no descriptor")}
            for _ in range(16):
                asyncio.get_running_loop().call_exception_handler(context)
            clock.advance(60)
            asyncio.get_running_loop().call_exception_handler(context)

        asyncio.run(work())
        text = "socket.accept() out of system resource: [Errno 24] no descriptor"
        self.assertEqual(output, [text, f"{text} (and 15 more since the last such line)"])


class Unit(unittest.TestCase):
    """The example of a systemd unit, checked by systemd's own tools."""

    def analyze(self, *words: str) -> str:
        done = subprocess.run(["systemd-analyze", *words], stdout=subprocess.PIPE, stderr=subprocess.STDOUT, text=True)
        return done.stdout

    @unittest.skipUnless(shutil.which("systemd-analyze"), "systemd-analyze is not installed")
    def test_it_is_sound_and_hardened(self) -> None:
        with tempfile.TemporaryDirectory() as folder:
            unit = Path(folder) / "lefence-hub.service"
            text = (FRONT / "lefence-hub.service").read_text()
            unit.write_text(text.replace("/usr/local/bin/lefence-hub ", "/bin/true "))
            self.assertEqual(self.analyze("verify", str(unit)), "")
            output = self.analyze("security", "--offline=yes", "--no-pager", str(unit))
        found = re.search(r"Overall exposure level for lefence-hub.service: ([0-9.]+)", output)
        self.assertTrue(found and float(found[1]) < 1, output)


if __name__ == "__main__":
    unittest.main()
