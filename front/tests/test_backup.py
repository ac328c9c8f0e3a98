"""Backups of journals, made while their hubs run, and the way back."""

from __future__ import annotations

import itertools
import shlex
import shutil
import threading
import time
import unittest
from unittest import mock

from support import PATIENCE, PROGRAM, HubCase, spot

from lefence.base.atomic_file import sync_folder
from lefence.base.faults import Fault
from lefence.journal import segments
from lefence.journal import backup as module
from lefence.journal.backup import copy_journal
from lefence.journal.segments import Archive, read_records

VERIFIED = ("--program", PROGRAM)


class Backups(HubCase):
    """A hub that makes a state after each few changes."""

    def setUp(self) -> None:
        super().setUp()
        self.start("--tail-bytes", "400", "--tail-seconds", "0")
        self.talker = self.talk("operator")
        self.assertEqual(self.talker.ask("open f0"), ["ok 0 0"])
        self.count = 0

    def change(self, first: int, last: int) -> None:
        for number in range(first, last):
            line = f"place f0 0 f0c{number % 10} {spot(0, number)}"
            self.assertEqual(self.talker.ask(line), [f"ok {number + 1}"])
        self.count = last

    def backup(self, name: str, status: int = 0) -> str:
        done = self.tool("lefence-journal", "backup", self.journal, self.folder / name, *VERIFIED)
        self.assertEqual(done.returncode, status, done.stderr)
        return done.stderr.decode()

    def test_a_backup_of_a_running_hub_is_restored_and_served(self) -> None:
        self.change(0, 30)
        changing = threading.Thread(target=self.change, args=(30, 200))
        changing.start()
        for number in range(3):
            self.assertIn("replayed with the recorded replies", self.backup(f"saved{number}"))
        changing.join()
        self.hub.kill()
        for path in (self.journal, Archive(self.journal).folder, self.folder / "journal.texts"):
            shutil.rmtree(path) if path.is_dir() else path.unlink()
        self.design.unlink()
        done = self.tool("lefence-journal", "restore", self.folder / "saved2", self.journal, *VERIFIED)
        self.assertEqual(done.returncode, 0, done.stderr)
        _, *words = shlex.split(done.stdout.decode().replace("--sockets DIR", f"--sockets {self.folder / 's'}"))
        self.assertEqual(words[-1], "--takeover")
        self.hub = type(self.hub)(self.folder, [*words, *VERIFIED])
        self.addCleanup(self.hub.kill)
        self.assertIn("ready", self.hub.wait_ready())
        self.talker = self.talk("f0")
        revision = int(self.talker.ask("open f0")[0].split()[2])
        self.assertGreaterEqual(revision, 30)
        self.change(revision, revision + 1)

    def go_on(self) -> None:
        """Changes the team until the hub no longer keeps the present last segment."""
        archive, last = Archive(self.journal), time.monotonic() + PATIENCE
        number = (archive.numbers("journal") or [0])[-1] + 1
        while (archive.numbers("journal") or [0])[0] <= number:
            self.assertLess(time.monotonic(), last)
            self.change(self.count, self.count + 10)

    def test_files_that_a_hub_removes_meanwhile_are_looked_for_again(self) -> None:
        self.go_on()
        opening, turns = module._open_back_to_state, itertools.count()

        def overtaken(*words: object) -> object:
            if next(turns) < 2:
                self.go_on()
            return opening(*words)  # type: ignore[arg-type]

        module._open_back_to_state = overtaken  # type: ignore[assignment]
        self.addCleanup(setattr, module, "_open_back_to_state", opening)
        (self.folder / "b").mkdir()
        copy_journal(self.journal, self.folder / "b/journal")
        # (what the hub has begun by then may overtake it once more)
        self.assertGreaterEqual(next(turns), 3)
        done = self.tool("lefence-journal", "verify", self.folder / "b/journal", *VERIFIED)
        self.assertEqual(done.returncode, 0, done.stderr)

    def test_the_names_of_all_files_and_folders_of_a_backup_are_on_the_disk(self) -> None:
        self.go_on()
        self.hub.kill()
        with mock.patch.object(module, "sync_folder", side_effect=sync_folder) as synced, \
                mock.patch.object(segments, "sync_folder", side_effect=sync_folder) as synced_too:
            module.backup_journal(self.journal, self.folder / "saved")
        folders = {call.args[0] for call in [*synced.call_args_list, *synced_too.call_args_list]}
        for path in (self.folder / "saved").rglob("*"):
            self.assertIn(path.parent, folders)
        self.assertIn(self.folder, folders)

    def test_what_is_damaged_or_in_the_way_is_refused_and_nothing_is_left(self) -> None:
        self.change(0, 10)
        self.hub.kill()
        (self.folder / "full").mkdir()
        (self.folder / "full/x").touch()
        self.assertIn("is not empty", self.backup("full", status=3))
        self.backup("saved")
        done = self.tool("lefence-journal", "restore", self.folder / "saved", self.journal, *VERIFIED)
        self.assertEqual((done.returncode, b"already exists" in done.stderr), (3, True))
        done = self.tool("lefence-journal", "restore", self.folder / "full", self.folder / "new", *VERIFIED)
        self.assertEqual((done.returncode, b"not a backup" in done.stderr), (1, True))
        kept = next((self.folder / "journal.texts").glob("*/t.lef"))
        kept.chmod(0o600)
        kept.write_text("END LIBRARY\n")
        self.assertIn("no intact copy", self.backup("other", status=1))
        self.assertEqual([*(self.folder / "other").iterdir()], [])

    def test_a_copy_that_the_program_answers_otherwise_is_removed(self) -> None:
        self.hub.end()
        self.start("--tail-bytes", "100000", "--tail-seconds", "1000")
        self.talker = self.talk("operator")
        self.talker.ask("open f0")
        self.change(0, 3)
        script = self.folder / "other-program"
        script.write_text(f"#!/bin/sh\n'{PROGRAM}' \"$@\" | sed -u 's/^ok 2$/ok 3/'\n")
        script.chmod(0o755)
        done = self.tool("lefence-journal", "backup", self.journal, self.folder / "b", "--program", str(script))
        self.assertEqual((done.returncode, [*(self.folder / "b").iterdir()]), (1, []), done.stderr)

    def test_all_segments_are_kept(self) -> None:
        self.hub.end()
        self.start("--tail-bytes", "400", "--tail-seconds", "0", "--keep", "0")
        self.talker = self.talk("operator")
        self.talker.ask("open f0")
        self.change(0, 30)
        self.backup("saved")
        lines = [each.line for each in read_records(self.folder / "saved/journal")]
        self.assertEqual(lines[-1], b"place f0 0 f0c9 " + spot(0, 29).encode())

    def test_a_journal_whose_last_state_is_damaged_is_copied_from_the_one_before(self) -> None:
        self.go_on()
        self.hub.kill()
        archive = Archive(self.journal)
        archive.state(archive.numbers("state")[-1]).write_bytes(b"x")
        self.backup("saved")
        for number in archive.numbers("state"):
            archive.state(number).write_bytes(b"x")
        (self.folder / "b").mkdir()
        with self.assertRaises(Fault):
            copy_journal(self.journal, self.folder / "b/journal")


if __name__ == "__main__":
    unittest.main()
