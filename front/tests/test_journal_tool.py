"""lefence-journal on intact and damaged journals."""

from __future__ import annotations

import os
import re
import shutil
import unittest
from dataclasses import replace
from pathlib import Path

from support import PROGRAM, HubCase

from lefence.journal.frames import Reader
from lefence.journal.journal import Journal, texts_in
from lefence.journal.owner import this_process
from lefence.journal.segments import Archive, read_records


class JournalTool(HubCase):
    """A journal of three changes of f0 and two of f1, frame by frame."""

    def setUp(self) -> None:
        super().setUp()
        self.start()
        self.lines = [
            "open f0",
            "place f0 0 f0c1 0 0 N",
            "open f1",
            "place f1 0 f1c1 8000 0 N",
            "place f0 0 f0c2 2000 0 N",
        ]
        talker = self.talk("operator")
        for line in self.lines:
            self.assertRegex(talker.ask(line)[0], "^ok")
        self.assertEqual(self.hub.end(), 0)

    def output_of(self, *words: str | Path | bytes, status: int = 0) -> list[str]:
        done = self.tool("lefence-journal", *words)
        self.assertEqual(done.returncode, status, done.stderr)
        return done.stdout.decode().splitlines()

    def frames(self) -> list[tuple[int, int]]:
        with open(self.journal, "rb") as file:
            reader = Reader(file.fileno(), self.journal)
            return [(frame.start, frame.end) for frame in reader.frames(reader.header().length)]

    def flip_bit(self, number: int) -> tuple[int, int]:
        """Flips a bit in the frame with this number."""
        start, end = self.frames()[number]
        whole = bytearray(self.journal.read_bytes())
        whole[end - 2] ^= 4
        self.journal.write_bytes(whole)
        return start, end

    def test_an_intact_journal_is_checked_and_listed(self) -> None:
        self.assertRegex(
            "\n".join(self.output_of("check", self.journal)),
            r"^text \w{64} of \S+/t.def: kept\ntext .*: kept\nintact from .*: 5 changes",
        )
        number = r"\d+\t20\d\d-\d\d-\d\dT\d\d:\d\d:\d\d\.\d{3}Z\t\d+\t\d+\t"
        listed = [line for line in self.output_of("list", self.journal) if not line.startswith("-")]
        self.assertEqual(
            [re.sub(f"^{number}", "", line) for line in listed[:2]], ["open f0\tok 0 0", "place f0 0 f0c1 0 0 N\tok 1"]
        )
        self.assertEqual(len(self.output_of("list", self.journal, "--team", "f1")), 2)
        self.assertIn(
            "5 changes replayed with the recorded replies",
            self.tool("lefence-journal", "verify", self.journal, "--program", PROGRAM).stderr.decode(),
        )

    def test_lines_and_journals_are_exported(self) -> None:
        self.assertEqual(self.output_of("export", self.journal), self.lines)
        made = self.folder / "f1.journal"
        self.output_of("export", self.journal, "--team", "f1", "-o", made)
        self.assertEqual(
            list(read_records(made)), [each for each in read_records(self.journal) if b"f1" in each.line.split()]
        )
        self.journal.rename(self.folder / "old")
        (self.folder / "journal.texts").rename(self.folder / "old.texts")
        self.start()
        self.assertEqual(self.tool("lefence-push", made, self.folder / "s/f1.sock").returncode, 0)

    def test_a_damaged_journal_can_be_made_usable(self) -> None:
        start, end = self.flip_bit(2)
        output = self.start()
        self.assertEqual(
            (f"damaged at byte {start}" in output, self.hub.process.wait(), "lefence-journal check" in output),
            (True, 1, True),
        )
        checked = self.output_of("check", self.journal, status=1)
        self.assertIn(
            f"damaged from byte {start} to {end}: `cut --at {start}` makes a journal of what is before", checked
        )
        # The part after the damage can be read, listed and exported.
        self.assertEqual(self.output_of("export", self.journal), [self.lines[0], *self.lines[2:]])
        self.assertEqual(self.output_of("list", self.journal, "--team", b"\xff"), [])
        self.assertEqual(self.output_of("export", self.journal, "--from", str(end)), self.lines[2:])
        before = self.journal.read_bytes()
        self.output_of("cut", self.journal, "--at", str(start + 1), status=1)
        self.assertEqual(self.journal.read_bytes(), before)
        self.output_of("cut", self.journal)
        self.assertEqual((self.folder / f"journal.before-cut-at-{start}").read_bytes(), before)
        self.assertIn("ready", self.start())
        self.assertEqual(self.tool("lefence-journal", "cut", self.journal).returncode, 3)

    def test_the_journal_of_another_host_is_cut_on_request(self) -> None:
        texts = texts_in(self.journal) or []
        os.close(Journal(self.journal, texts, self.fail, owner=replace(this_process(), host="farm2"))._fd)
        self.output_of("cut", self.journal, status=3)
        self.output_of("cut", self.journal, "--takeover")

    def test_an_incomplete_end_and_other_replies_are_reported(self) -> None:
        whole = self.journal.read_bytes()
        self.journal.write_bytes(whole + b"batch 1")
        output = self.output_of("check", self.journal)
        self.assertIn(
            f"incomplete: 7 bytes at byte {len(whole)} (an interrupted write); a start removes them",
            output,
        )
        (self.folder / "journal.texts").rename(self.folder / "away")
        self.assertIn("not kept", self.output_of("check", self.journal, status=1)[0])
        program = ("--program", PROGRAM)
        self.output_of("verify", self.journal, *program, status=1)
        self.output_of("verify", self.journal, self.design, self.lef, *program)
        script = self.folder / "other"
        script.write_text(f"#!/bin/sh\n'{PROGRAM}' \"$@\" | sed -u 's/^ok 2$/ok 3/'\n")
        script.chmod(0o755)
        done = self.tool("lefence-journal", "verify", self.journal, self.design, self.lef, "--program", str(script))
        self.assertEqual((done.returncode, b"change 5: the journal has b'ok 2" in done.stderr), (1, True), done.stderr)
        script.write_text("#!/bin/sh\nexit 9\n")
        done = self.tool("lefence-journal", "verify", self.journal, self.design, self.lef, "--program", str(script))
        self.assertEqual((done.returncode, done.stderr.count(b"journal: the program is lost")), (3, 1), done.stderr)


class Segments(HubCase):
    """A journal of three segments."""

    LINES = (
        ("open f0", "place f0 0 f0c1 0 0 N", "place f0 0 f0c2 2000 0 N", "undo f0 0"),
        ("open f1", "place f1 0 f1c1 8000 0 N"),
        ("open f0",),
    )

    def setUp(self) -> None:
        super().setUp()
        for number, lines in enumerate(self.LINES):
            if number:
                self.start("--roll")
                self.assertEqual(self.hub.process.wait(), 0)
            self.start()
            self.assertEqual({reply[:2] for reply in self.talk("operator").ask(*lines)}, {"ok"})
            self.hub.kill()
        self.archive = Archive(self.journal)

    def output_of(self, *words: str | Path, status: int = 0) -> tuple[str, str]:
        done = self.tool("lefence-journal", *words)
        self.assertEqual(done.returncode, status, done.stderr)
        return done.stdout.decode(), done.stderr.decode()

    def changes(self) -> list[str]:
        """The lines of the changes, with those of the hub that closed sessions."""
        first, second, third = self.LINES
        return [*first, "close f0 0", *second, "close f1 0", *third]

    def test_all_segments_are_checked_listed_and_replayed(self) -> None:
        output, _ = self.output_of("check", self.journal)
        for number, before in ((1, 0), (2, 4), (3, 7)):
            self.assertIn(f"segment {number}, after {before} changes: ", output)
        states = [f"it starts at the state {self.archive.state(number)}: whole" in output for number in (1, 2, 3)]
        self.assertEqual(states, [False, True, True])
        listed = [
            line.split("\t")
            for line in self.output_of("list", self.journal)[0].splitlines()
            if not line.startswith("-")
        ]
        self.assertEqual([(int(words[0]), words[4]) for words in listed], list(enumerate(self.changes(), 1)))
        self.assertEqual(self.output_of("export", self.journal)[0].splitlines(), self.changes())
        program = ("--program", PROGRAM)
        self.assertIn(
            "2 changes after a state of 7 replayed with the recorded replies",
            self.output_of("verify", self.journal, *program)[1],
        )
        self.assertIn(
            "9 changes replayed with the recorded replies", self.output_of("verify", self.journal, *program, "--all")[1]
        )
        self.assertEqual([record.line.decode() for record in read_records(self.journal)], self.changes())

    def test_missing_segments_are_reported_and_the_rest_starts_at_its_state(self) -> None:
        self.archive.prune(1)
        exported, output = self.output_of("export", self.journal)
        self.assertEqual(exported.splitlines(), self.changes()[7:])
        self.assertIn(f"the first 7 changes are missing; replay its lines with --state {self.archive.state(3)}", output)
        self.assertEqual(self.direct(exported.encode(), "--state", str(self.archive.state(3))), b"ok\nok 0 3\n")
        self.assertIn("the first 7 changes exist only as a state", self.output_of("check", self.journal)[0])
        self.assertTrue(self.output_of("list", self.journal, "--team", "f0")[0].startswith("9\t"))
        self.assertIn(
            "its first 7 changes exist only as a state",
            self.tool("lefence-push", self.journal, "s/f0.sock").stderr.decode(),
        )

    def test_states_that_the_hub_has_removed_are_not_damage(self) -> None:
        self.archive.prune(1, keeps_segments=True)
        removed = f"{self.archive.state(2)}: not there, since later states are kept\n"
        self.assertIn(removed, self.output_of("check", self.journal)[0])
        self.output_of("verify", self.journal, "--program", PROGRAM, "--all")
        whole = self.archive.state(3).read_bytes()
        self.archive.state(3).unlink()
        self.assertIn(f"{self.archive.state(2)}: not there\n", self.output_of("check", self.journal, status=1)[0])
        self.archive.state(3).write_bytes(whole)
        # If the first segment is gone, the second one needs its state.
        self.archive.segment(1).unlink()
        self.assertIn(f"{self.archive.state(2)}: not there\n", self.output_of("check", self.journal, status=1)[0])

    def test_with_all_segments_the_state_of_the_first_one_is_kept(self) -> None:
        self.archive.segment(1).unlink()
        self.archive.prune(1, keeps_segments=True)
        self.assertIn(f"{self.archive.state(2)}: whole\n", self.output_of("check", self.journal)[0])
        self.output_of("verify", self.journal, "--program", PROGRAM, "--all")

    def test_damage_to_any_segment_is_reported(self) -> None:
        whole = self.archive.segment(1).read_bytes()
        self.archive.segment(1).write_bytes(whole.replace(b"place f0 0 f0c1 0 0 N", b"place f0 0 f0c1 9 0 N"))
        expected = r"damaged from byte \d+ to \d+: copied to \S*/journal, `cut --at \d+`"
        self.assertRegex(self.output_of("check", self.journal, status=1)[0], expected)
        self.assertIn(
            "1.journal: damaged at byte",
            self.output_of("verify", self.journal, "--program", PROGRAM, "--all", status=1)[1],
        )
        self.output_of("verify", self.journal, "--program", PROGRAM)
        self.archive.segment(1).write_bytes(whole[:-20])
        self.assertIn(
            f"to {len(whole)}, where it ended when the next segment was made",
            self.output_of("check", self.journal, status=1)[0],
        )
        self.archive.state(3).write_bytes(b"x")
        self.assertIn(f"{self.archive.state(3)}: damaged", self.output_of("check", self.journal, status=1)[0])
        self.assertIn(
            "5 changes after a state of 4 replayed", self.output_of("verify", self.journal, "--program", PROGRAM)[1]
        )
        self.archive.state(2).unlink()
        self.assertIn(f"{self.archive.state(2)}: not there", self.output_of("check", self.journal, status=1)[0])
        output = self.start()
        self.assertIn(f"{self.archive.state(2)} is not there; the changes before it are replayed", output)
        self.assertEqual(("1.journal: damaged at byte" in output, self.hub.process.wait()), (True, 1))
        shutil.copy(self.archive.segment(1), self.journal)
        # (its truncated end had only notes)
        self.assertIn("ready: 9 teams, 4 changes restored", self.start())


if __name__ == "__main__":
    unittest.main()
