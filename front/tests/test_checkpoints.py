"""Segments and states of a journal: no crash loses acknowledged changes, and clients notice nothing."""

from __future__ import annotations

import asyncio
import itertools
import os
import shlex
import shutil
import signal
import tempfile
import unittest
from collections.abc import Callable
from pathlib import Path
from typing import Any
from unittest import mock

from support import (
    CELLS,
    LEF,
    PROGRAM,
    TEAMS,
    Hub,
    HubCase,
    Script,
    SettableClock,
    design_text,
    page_blocks,
    spot,
    wait_gone,
    wait_until,
)

from lefence.base.faults import Fault
from lefence.base.protocol import is_change, text_length
from lefence.hub.checkpoints import Checkpoints as Checkpointer, TailLimits, _sync_and_hash
from lefence.hub.journal_writer import JournalWriter
from lefence.hub.status import read_status
from lefence.journal.frames import Reader, Record, Text, frame_of, header_of
from lefence.journal.journal import Journal
from lefence.journal.segments import Archive, last_state, open_segments, read_records, records_in

TEXTS = [Text("0" * 64, Path("/a.def")), Text("f" * 64, Path("/b.lef"))]


class Disk:
    """Ends this process at a given step.

    A power cut then reverts each step whose file or folder was not synced after it.
    """

    STEPS = ("pwrite", "ftruncate", "replace", "link", "unlink", "mkdir", "fsync", "fdatasync")

    def __init__(self, saved: Path, last: int, is_cut: bool) -> None:
        self.saved, self.last, self.is_cut, self.count = saved, last, is_cut, itertools.count()
        # For each step that is not synced: the inode of its file or folder, and how to revert it.
        self.undo: list[tuple[int, Callable[[], object]]] = []
        self.real = {name: getattr(os, name) for name in self.STEPS}
        for name in self.STEPS:
            setattr(os, name, lambda *words, name=name, **more: self.take(name, *words, **more))

    def take(self, name: str, *words: Any, **more: Any) -> Any:
        if next(self.count) == self.last:
            for _, step in reversed(self.undo if self.is_cut else []):
                step()
            os._exit(7)
        if name in ("fsync", "fdatasync"):
            inode = os.fstat(words[0]).st_ino
            self.undo = [each for each in self.undo if each[0] != inode]
            return None
        undo = getattr(self, name)(*words)
        done = self.real[name](*words, **more)
        self.undo += undo
        return done

    def pwrite(self, file: int, text: bytes, at: int) -> list[tuple[int, Callable[[], object]]]:
        old, size = os.pread(file, len(text), at), os.fstat(file).st_size
        return [
            (os.fstat(file).st_ino, lambda: (self.real["pwrite"](file, old, at), self.real["ftruncate"](file, size)))
        ]

    def ftruncate(self, file: int, size: int) -> list[tuple[int, Callable[[], object]]]:
        old = os.fstat(file).st_size
        return self.pwrite(file, bytes(max(0, old - size)), size) if size < old else []

    def replace(self, old: Path, new: Path) -> list[tuple[int, Callable[[], object]]]:
        undo = self.unlink(new) if os.path.exists(new) else []
        return [*undo, (os.stat(Path(new).parent).st_ino, lambda: self.real["replace"](new, old))]

    def link(self, old: Path, new: Path) -> list[tuple[int, Callable[[], object]]]:
        return [] if os.path.exists(new) else [(os.stat(Path(new).parent).st_ino, lambda: self.real["unlink"](new))]

    def unlink(self, path: Path) -> list[tuple[int, Callable[[], object]]]:
        saved = self.saved / str(len(os.listdir(self.saved)))
        if not os.path.exists(path):
            return []
        self.real["link"](path, saved)
        return [(os.stat(Path(path).parent).st_ino, lambda: self.real["link"](saved, path))]

    def mkdir(self, path: Path, mode: int) -> list[tuple[int, Callable[[], object]]]:
        return [(os.stat(Path(path).parent).st_ino, lambda: shutil.rmtree(path))]


class Segments(unittest.TestCase):
    """A journal whose states list the lines of the changes."""

    def setUp(self) -> None:
        self.folder = Path(self.enterContext(tempfile.TemporaryDirectory()))
        self.path = self.folder / "journal"
        self.messages: list[str] = []

    def open(self) -> Journal:
        return Journal(self.path, TEXTS, self.messages.append)

    def lines_of(self, journal: Journal) -> list[bytes]:
        """The lines of the state and of the tail."""
        with journal.tail(journal.position) as tail:
            return (tail.state.path.read_bytes().splitlines() if tail.state else []) + [
                record.line for record in tail.records
            ]

    def found(self) -> list[bytes]:
        journal = self.open()
        lines = self.lines_of(journal)
        self.assertEqual((journal.changes, len(lines)), (len(lines), journal.changes))
        journal.close()
        return lines

    def append(self, journal: Journal) -> None:
        line = b"pad A 0 %d" % journal.changes
        self.assertTrue(journal.has_room(100))
        journal.append([Record(line, b"ok %d\n" % (journal.changes + 1))])

    def keep(self, journal: Journal) -> None:
        """Saves the state at the start of the last segment."""
        path = journal.archive.temporary_state(journal.header.number)
        lines = self.lines_of(journal)[: journal.header.changes]
        path.write_bytes(b"".join(b"%b\n" % line for line in lines))
        journal.keep_state(path, *_sync_and_hash(path))
        journal.archive.prune(2)

    prune = staticmethod(Archive.prune)

    def fill(self, rounds: int, report: Callable[[], object] = lambda: None) -> None:
        """Appends a change, starts a segment, appends a change meanwhile, and saves the state; `count` times."""
        journal = self.open()
        for _ in range(rounds):
            self.append(journal)
            report()
            journal.roll([b"team A %d 0 0,2" % journal.changes])
            self.append(journal)
            report()
            self.keep(journal)
        journal.close()

    def lines(self, count: int) -> list[bytes]:
        return [b"pad A 0 %d" % number for number in range(count)]

    def names(self) -> list[str]:
        return sorted(path.name for path in Archive(self.path).folder.iterdir())

    def resize(self, report: Callable[[], object] = lambda: None) -> None:
        """Appends a change, goes on with other session slots, and appends another change."""
        journal = self.open()
        self.append(journal)
        report()
        journal.roll([])
        self.keep(journal)
        copy, state = journal.archive.temporary_state(9), journal.state
        assert state
        shutil.copy(state.path, copy)
        journal.roll_with_state(copy, *_sync_and_hash(copy), [b"team A 1 0 -"], 16)
        self.append(journal)
        report()
        journal.close()

    def end_at(
        self, step: int, is_cut: bool, work: Callable[["Segments", Callable[[], object]], object]
    ) -> int | None:
        """The changes acknowledged by a process that ends at this step of its work; None if it ran to its end."""
        saved = self.folder / "saved"
        saved.mkdir()
        reading, writing = os.pipe()
        if not (child := os.fork()):
            Disk(saved, step, is_cut)
            work(self, lambda: os.write(writing, b"x"))
            os._exit(0)
        os.close(writing)
        with open(reading, "rb") as log:
            count = len(log.read())
        return count if os.waitstatus_to_exitcode(os.waitpid(child, 0)[1]) else None

    @mock.patch("os.fsync", mock.Mock())
    @mock.patch("os.fdatasync", mock.Mock())
    def test_a_kill_or_a_power_cut_at_any_step_loses_nothing(self) -> None:
        self.end_at_each_step(lambda case, report: case.fill(4, report), 60)

    @mock.patch("os.fsync", mock.Mock())
    @mock.patch("os.fdatasync", mock.Mock())
    def test_a_kill_or_a_power_cut_while_the_slots_change_loses_nothing(self) -> None:
        self.end_at_each_step(lambda case, report: case.resize(report), 30)

    def end_at_each_step(self, work: Callable[["Segments", Callable[[], object]], object], most: int) -> None:
        for is_cut in (False, True):
            for step in itertools.count():
                count = self.end_at(step, is_cut, work)
                if count is None:
                    self.assertGreater(step, most)
                    break
                with self.subTest(step=step, is_cut=is_cut):
                    lines = self.found()
                    self.assertEqual(lines, self.lines(len(lines)))
                    self.assertIn(len(lines), (count, count + 1))
                    # Then it continues as any journal.
                    self.fill(1)
                    self.assertEqual(self.found(), self.lines(len(lines) + 2))
                shutil.rmtree(self.folder / "saved")
                self.path.unlink(missing_ok=True)
                shutil.rmtree(Archive(self.path).folder, ignore_errors=True)
            shutil.rmtree(self.folder / "saved")
            self.path.unlink()
            shutil.rmtree(Archive(self.path).folder)

    def test_two_states_are_kept_with_the_journal_from_the_first(self) -> None:
        self.fill(4)
        self.assertEqual(self.names(), ["4.journal", "4.state", "5.state"])
        with self.assertRaises(Fault) as caught:
            list(read_records(self.path))
        self.assertIn("its first 5 changes exist only as a state", str(caught.exception))
        self.assertEqual((self.found(), self.messages), (self.lines(8), []))

    def test_all_segments_can_be_kept_and_are_read_one_at_a_time(self) -> None:
        with mock.patch.object(Archive, "prune", lambda archive, keep: self.prune(archive, keep, True)):
            self.fill(20)
        self.assertEqual(len(self.names()), 20 + 2)
        self.assertEqual([record.line for record in read_records(self.path)], self.lines(40))
        opened = set[int]()
        before = len(os.listdir("/proc/self/fd"))
        with open_segments(self.path) as readers:
            for _ in records_in(readers):
                opened.add(len(os.listdir("/proc/self/fd")) - before)
            self.assertEqual([reader.header().number for reader in readers], list(range(1, 22)))
        self.assertEqual((max(opened), len(os.listdir("/proc/self/fd"))), (2, before))

    def test_another_number_of_slots_begins_with_a_state(self) -> None:
        self.resize()
        names = ["1.journal", "2.journal", "2.state", "3.state"]
        self.assertEqual((self.found(), self.names()), (self.lines(2), names))
        journal = self.open()
        self.assertEqual((journal.header.slots, journal.header.number), (16, 3))
        journal.close()
        with open_segments(self.path) as readers:
            for is_all in (False, True):
                state, following = last_state(self.path, readers, is_all)
                self.assertEqual((state and state.path.name, len(following)), ("3.state", 1))
            self.assertEqual([record.line for record in records_in(readers)], self.lines(2))
        Archive(self.path).state(3).unlink()
        with self.assertRaisesRegex(Fault, "segment 3 has no intact state, and .*2.journal has 8 session slots"):
            self.open()

    def test_the_state_before_replaces_a_damaged_one(self) -> None:
        self.fill(3)
        past = Archive(self.path)
        past.state(4).write_bytes(b"pad A 0 7\n" * 5)
        self.assertEqual(self.found(), self.lines(6))
        self.assertIn("4.state is not the state that the journal names", self.messages[0])
        self.assertEqual(self.names(), ["3.journal", "3.state"])
        past.state(3).unlink()
        before = self.path.read_bytes()
        with self.assertRaises(Fault) as caught:
            self.open()
        self.assertIn("segment 3 has no intact state, and", str(caught.exception))
        self.assertEqual((caught.exception.status, self.path.read_bytes(), self.names()), (1, before, ["3.journal"]))

    def test_damage_to_a_segment_matters_if_no_later_state_is_intact(self) -> None:
        self.fill(1)
        past = Archive(self.path)
        whole = past.segment(1).read_bytes()
        for damaged in (whole[:-9], whole[:-9] + b"x" + whole[-8:]):
            past.segment(1).write_bytes(damaged)
            self.assertEqual(self.found(), self.lines(2))
        past.state(2).rename(past.folder / "away")
        with self.assertRaises(Fault) as caught:
            self.open()
        self.assertIn("1.journal: damaged at byte", str(caught.exception))
        past.segment(1).write_bytes(whole)
        self.assertEqual(self.found(), self.lines(2))

    def test_a_backup_is_the_journal_and_then_its_past(self) -> None:
        self.fill(2)
        earlier = self.path.read_bytes()
        self.fill(1)
        self.path.write_bytes(earlier)
        self.assertEqual(self.found(), self.lines(4))
        self.assertEqual(self.names(), ["3.journal.aside", "3.state", "4.state.aside"])
        self.fill(3)
        self.assertEqual(self.found(), self.lines(10))

    def test_an_archive_without_its_journal_is_refused(self) -> None:
        self.fill(2)
        self.path.unlink()
        with self.assertRaises(Fault) as caught:
            self.open()
        self.assertIn("move it away to start a new journal", str(caught.exception))
        self.assertEqual((caught.exception.status, self.names()), (1, ["1.journal", "2.journal", "2.state", "3.state"]))

    def test_a_journal_without_segments_is_read_and_continued(self) -> None:
        journal = self.open()
        self.append(journal)
        journal.close()
        with open(self.path, "rb") as file:
            reader = Reader(file.fileno(), self.path)
            frames = list(reader.frames(reader.header().length))
        whole = header_of(TEXTS).replace(b"journal 3", b"journal 2").replace(b"segment 1 0 0\n", b"")
        for frame in frames:
            whole += frame_of(len(whole), frame.body, frame.time)
        self.path.write_bytes(whole)
        self.assertEqual(
            (self.found(), [each.line for each in read_records(self.path)]), (self.lines(1), self.lines(1))
        )
        self.fill(1)
        self.assertEqual(self.found(), self.lines(3))


class Checkpoints(HubCase):
    """A hub that saves a state as often as it can."""

    OFTEN = ("--tail-bytes", "1")

    def places(self, count: int, begin: int = 0) -> list[str]:
        return [f"place f0 0 f0c{at % CELLS} {spot(0, at)}" for at in range(begin, begin + count)]

    def take_program(self, lines: str) -> None:
        """Makes later hubs run these lines of a shell before the proved program."""
        script = self.folder / "taken"
        script.write_text(f"#!/bin/sh\n{lines}\nexec '{PROGRAM}' \"$@\"\n")
        script.chmod(0o755)
        self.program = str(script)

    def wait_states(self, count: int) -> None:
        """Waits until the state of this segment or a later one is saved."""
        wait_until(lambda: max(Archive(self.journal).numbers("state"), default=0) >= count, self.hub.log_text)

    def status_of_last(self) -> str:
        """What the system says of the program that the hub started last."""
        return Path(f"/proc/{self.hub.children()[-1]}/status").read_text()

    def test_replies_are_the_same_over_checkpoints_starts_and_restored_programs(self) -> None:
        scripts = [Script(self.rng, team) for team in (0, 1, TEAMS)]
        lines = [self.rng.choice(scripts).line() for _ in range(1500)]
        found, talkers, changes = b"", 0, 0
        self.start(*self.OFTEN)
        talker = self.talk("operator")
        for line in lines:
            talker.socket.sendall(line + b"\n")
            reply = talker.replies.readline()
            found += reply + talker.replies.read(text_length(line, reply))
            changes += is_change(line.split(), reply)
            # (a state is saved only after a change)
            if changes and self.rng.random() < 0.01:
                self.wait_states(talkers + 2)
                talkers, changes = talkers + 1, 0
                os.kill(self.hub.replay_pid(), signal.SIGKILL)
        self.assertEqual(found, self.direct(b"\n".join(lines) + b"\n"))
        self.assertEqual(self.hub.end(), 0)

    def test_a_start_restores_sessions_undo_padding_and_uncommitted_changes(self) -> None:
        self.start(*self.OFTEN)
        talker = self.talk("f0")
        talker.ask(
            "open f0",
            "open f0",
            "place f0 1 f0c1 0 0 N",
            "sync f0 0",
            "pad f0 0 2",
            "sync f0 1",
            "place f0 1 f0c2 2000 0 N",
        )
        self.wait_states(2)
        self.hub.kill()
        self.assertIn("ready: 9 teams, ", self.start())
        talker = self.talk("f0")
        lines = ["open f0", "undo f0 0", "where f0 0 f0c2", "where f0 0 f0c1"]
        self.assertEqual(talker.ask(*lines), ["ok 0 3", "ok 4", "no 6 Unplaced f0c2", "ok 0 0 N"])
        self.assertEqual(talker.ask("place f0 0 f0c4 400 0 N")[0][:12], "no 7 Illegal")
        status = read_status(self.folder / "s")
        team = next(team for team in status["teams"] if team["team"] == "f0")
        self.assertEqual((team["revision"], team["uncommitted"], len(team["sessions"])), (4, 4, 1))
        self.assertEqual(
            status["past_bytes"], sum(path.stat().st_size for path in Path(f"{self.journal}.past").iterdir())
        )

    def test_an_export_has_all_changes(self) -> None:
        self.start(*self.OFTEN, "--export", str(self.folder / "end.def"))
        talker, operator, lines = self.talk("f0"), self.talk("operator"), ["open f0"]
        for turn in range(5):
            lines += [*self.places(20, 20 * turn), "commit f0 0"]
            self.assertEqual({reply[:2] for reply in talker.ask(*lines[-21 if turn else 0 :])}, {"ok"})
            self.assertEqual(operator.ask(f"export {self.folder / 'new.def'}"), ["ok"])
            self.direct("\n".join(lines).encode(), "--export", str(self.folder / "want.def"))
            self.assertEqual((self.folder / "new.def").read_bytes(), (self.folder / "want.def").read_bytes())
        self.assertEqual(self.hub.end(), 0)
        self.assertEqual((self.folder / "end.def").read_bytes(), (self.folder / "want.def").read_bytes())

    def test_the_last_checkpoint_is_made_if_it_is_worth_its_time(self) -> None:
        for words, is_made in (
            (("--tail-bytes", "100000", "--tail-seconds", "1000"), False),
            (("--tail-bytes", "10000", "--tail-seconds", "1000"), True),
            (("--tail-seconds", "0"), True),
        ):
            self.start(*words)
            self.assertEqual(self.talk("f0").ask("open f0", *self.places(40))[-1][:2], "ok")
            self.assertEqual(self.hub.end(), 0)
            self.assertEqual(Archive(self.journal).numbers("state") != [], is_made)
        self.assertIn("ready", self.start())
        self.assertEqual(self.talk("f0").ask("open f0", "where f0 0 f0c9"), ["ok 0 120", f"ok {spot(0, 39)}"])

    def test_a_state_that_cannot_be_made_is_reported_and_nothing_is_lost(self) -> None:
        self.take_program('case "$*" in *--save*) exit 3;; esac')
        self.start(*self.OFTEN)
        talker = self.talk("f0")
        self.assertEqual(talker.ask("open f0", *self.places(50))[-1], "ok 50")
        self.hub.wait_for("cannot save a state")
        failed = read_status(self.folder / "s")["failed_state"]
        self.assertIn(failed["reason"], self.hub.log_text())
        self.assertEqual(talker.ask(*self.places(50, 50))[-1], "ok 100")
        self.assertEqual((self.hub.end(), Archive(self.journal).numbers("state")), (0, []))
        self.assertFalse(list(Archive(self.journal).folder.glob("*.making-*")))
        self.program = PROGRAM
        self.assertIn("ready", self.start(*self.OFTEN))
        self.assertEqual(self.talk("f0").ask("open f0", "where f0 0 f0c9"), ["ok 0 100", f"ok {spot(0, 99)}"])

    def test_the_program_of_a_killed_hub_damages_no_state(self) -> None:
        # It takes the end of its input for the end of the lines, and saves a state.
        self.take_program(f"""case "$*" in *--save*) '{PROGRAM}' "$@"; sleep 1; exit;; esac""")
        for turn in range(3):
            self.start(*self.OFTEN)
            self.assertEqual(self.talk("f0").ask("open f0", *self.places(50, 50 * turn))[-1], f"ok {50 * turn + 50}")
            self.addCleanup(wait_gone, self.hub.kill_alone())
        self.assertIn("ready", self.start())
        self.assertEqual(self.talk("f0").ask("open f0", "where f0 0 f0c9"), ["ok 0 150", f"ok {spot(0, 149)}"])

    def test_the_program_of_a_killed_hub_writes_no_export(self) -> None:
        gate = self.folder / "gate"
        self.take_program(f"""case "$*" in *--export*) while ! [ -e '{gate}' ]; do sleep 0.01; done;; esac""")
        target = self.folder / "new.def"
        target.write_text("older")
        self.start()
        self.assertEqual(self.talk("f0").ask("open f0", *self.places(50))[-1], "ok 50")
        self.talk("operator").socket.sendall(b"export %b\n" % bytes(target))
        wait_until(lambda: list(self.folder.glob("new.def.partial*")), self.hub.log_text)
        # Until its end only its owner can read it, and what the program writes next to it.
        self.assertEqual([path.stat().st_mode & 0o777 for path in self.folder.glob("new.def.partial*")], [0o600])
        # (the program may not run yet)
        wait_until(lambda: "Umask:\t0077\n" in self.status_of_last(), self.hub.log_text)
        programs = self.hub.kill_alone()
        gate.touch()
        wait_gone(programs)
        self.assertEqual(target.read_text(), "older")


class Limited(unittest.TestCase):
    def test_a_checkpoint_is_due_by_bytes_or_seconds_and_after_a_failure_later(self) -> None:
        journal = mock.Mock(tail_changes=1, tail_bytes=1001)
        journal.roll.side_effect = OSError(28, "x")
        writer = JournalWriter(journal, mock.Mock())
        made = Checkpointer(mock.Mock(), writer, TailLimits(1000, 10), mock.Mock(), SettableClock())
        self.assertTrue(made.is_due())
        asyncio.run(made.make_last(mock.Mock(owners={}), mock.Mock(teams={}), False))
        self.assertFalse(made.is_due())
        journal.tail_bytes = 2001
        self.assertTrue(made.is_due())
        journal.tail_bytes, made.seconds = 0, 21
        self.assertEqual((made.is_due(), made.is_due(1.1)), (True, False))
        journal.tail_changes = 0
        self.assertFalse(made.is_due())
        writer = JournalWriter(mock.Mock(tail_changes=1, tail_bytes=1 << 40), mock.Mock())
        never = Checkpointer(mock.Mock(), writer, TailLimits(0), mock.Mock(), SettableClock())
        self.assertFalse(never.is_due())

    def test_by_default_a_checkpoint_is_due_when_a_replay_takes_two_seconds(self) -> None:
        journal = mock.MagicMock(tail_changes=1, tail_bytes=1 << 40)
        side = mock.MagicMock(write=mock.AsyncMock(return_value=(0.5, 0.25)))
        made = Checkpointer(side, JournalWriter(journal, mock.Mock()), TailLimits(), mock.Mock(), SettableClock())

        def due_after(seconds: float) -> bool:
            made.add(seconds)
            return made.is_due()

        self.assertEqual([due_after(1.5) for _ in range(2)], [False, True])

        async def make() -> None:
            with mock.patch("lefence.hub.checkpoints._sync_and_hash", return_value=(1, "")):
                await made.make_last(mock.Mock(owners={}), mock.Mock(teams={}), True)

        asyncio.run(make())
        # The replay was twelve times as fast as what was served.
        self.assertEqual([due_after(12) for _ in range(3)], [False, False, True])
        # A start that loads for long may replay for as long.
        made.loading = 5
        self.assertEqual([due_after(12) for _ in range(3)], [False, False, True])


class Pages(HubCase):
    """The commands of docs/HUB.md for backups and upgrades, line by line."""

    def setUp(self) -> None:
        super().setUp()
        self.design = self.folder / "chip.def"
        for name, text in (("chip.def", design_text()), ("tech.lef", LEF), ("cells.lef", "END LIBRARY\n")):
            (self.folder / name).write_text(text)

    def lines(self, begin: str) -> list[str]:
        """The lines of the page's block with this beginning."""
        return next(block for block in page_blocks("HUB.md") if block.startswith(begin)).splitlines()

    def begin(self, line: str, *extra: str) -> str:
        """Starts a hub by this line; returns its output until it is ready or ends."""
        words = [word if word.startswith("-") else str(self.folder / word) for word in shlex.split(line)[1:]]
        self.hub = Hub(self.folder, [*words, *extra])
        self.addCleanup(self.hub.kill)
        self.hub.wait_ready()
        return self.hub.log_text()

    def journal_tool(self, line: str) -> str:
        """Runs a line of lefence-journal with the program of the tests; returns its output."""
        done = self.tool("lefence-journal", *shlex.split(line)[1:], "--program", PROGRAM)
        self.assertEqual(done.returncode, 0, done.stderr)
        return done.stdout.decode()

    def test_an_upgrade(self) -> None:
        roll, serve = self.lines(
            "lefence-hub chip.def tech.lef cells.lef --sockets s --journal chip.journal --program old"
        )
        for name, script in (
            ("old", f"exec '{PROGRAM}' \"$@\""),
            ("new", f"'{PROGRAM}' \"$@\" | sed -u 's/^ok 1$/ok 7/'"),
        ):
            (self.folder / name).mkdir()
            (self.folder / name / "lefence").write_text(f"#!/bin/sh\n{script}\n")
            (self.folder / name / "lefence").chmod(0o755)
        self.begin(roll.removesuffix(" --roll"))
        self.talk("f0").ask("open f0", "place f0 0 f0c1 0 0 N")
        self.hub.kill()
        self.assertIn(
            "run that one with --roll first\nlefence-hub: change 2: the journal has b'ok 1", self.begin(serve)
        )
        self.assertEqual(
            (self.hub.process.wait(), "saved a state of 2 changes" in self.begin(roll), self.hub.process.wait()),
            (1, True, 0),
        )
        self.assertIn("ready", self.begin(serve))
        self.assertEqual(self.talk("f0").ask("open f0", "place f0 0 f0c1 200 0 N"), ["ok 0 1", "ok 2"])

    def test_a_backup(self) -> None:
        serve = self.lines("lefence-hub chip.def tech.lef cells.lef --sockets s --journal chip.journal --program old")[
            0
        ].partition(" --program")[0]
        self.begin(serve, "--program", PROGRAM, "--tail-bytes", "1", "--tail-seconds", "0")
        talker = self.talk("f0")
        self.assertEqual(talker.ask("open f0", "place f0 0 f0c1 0 0 N")[1], "ok 1")
        self.hub.wait_for("a state of")
        self.assertEqual(talker.ask("place f0 0 f0c1 200 0 N"), ["ok 2"])
        backup, restore = self.lines("lefence-journal backup")
        self.journal_tool(backup)
        self.assertEqual(talker.ask("place f0 0 f0c1 400 0 N"), ["ok 3"])
        self.hub.kill()
        for path in self.folder.glob("chip.journal*"):
            shutil.rmtree(path) if path.is_dir() else path.unlink()
        line = self.journal_tool(restore).strip().replace("--sockets DIR", "--sockets s")
        self.assertIn("ready", self.begin(line, "--program", PROGRAM))
        self.assertEqual(self.talk("f0").ask("open f0", "where f0 0 f0c1"), ["ok 0 2", "ok 200 0 N"])


if __name__ == "__main__":
    unittest.main()
