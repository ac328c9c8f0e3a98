"""The next netlist: places, paddings and revisions of a state go to a new design by the names of the cells."""

from __future__ import annotations

import json
import subprocess
from pathlib import Path
from unittest import main

from support import PATIENCE, PROGRAM, Hub, HubCase

from lefence.base.description import Description
from lefence.base.state_text import teams_in
from lefence.hub.status import read_status

# Of fence f0: f0c0 is resized, f0c1 gone, f0c2 in team f1, f0c3 FIXED; n1 is new, f1c0 renamed.
NEXT = (
    ("- f0c0 BUF ;", "- f0c0 WIDE ;"),
    ("- f0c1 INV ;\n", ""),
    ("- f0c2 INV ;", "- f1x INV ;"),
    ("- f0c3 BUF ;", "- f0c3 BUF + FIXED ( 7000 6000 ) FS ;"),
    ("- f1c0 BUF ;", "- f1c0new BUF ;"),
    ("- f0c4 INV ;", "- f0c4 INV ;\n- f0n1 INV + PLACED ( 6000 0 ) N ;"),
    ("- g0 f0c* +", "- g0 f0c* f0n* +"),
    ("- g1 f1c* +", "- g1 f1c* f0c5 +"),
    ("- g0 f0c* f0n* +", "- g0 f0c0 f0c4 f0c6 f0c7 f0c8 f0c9 f0n* +"),
)
WIDE = "MACRO WIDE CLASS CORE ; ORIGIN 0 0 ; SIZE 0.8 BY 2.0 ; SYMMETRY X Y ; SITE core ; END WIDE\nEND LIBRARY"
LINES = b"""open f0
place f0 0 f0c0 0 0 N
place f0 0 f0c4 600 0 N
place f0 0 f0c5 1200 0 N
place f0 0 f0c6 2000 0 N
commit f0 0
"""


class Carries(HubCase):
    def setUp(self) -> None:
        super().setUp()
        self.next, self.next_lef = self.folder / "v2.def", self.folder / "v2.lef"
        text = self.design.read_text()
        for old, new in NEXT:
            self.assertIn(old, text)
            text = text.replace(old, new)
        self.next.write_text(text)
        self.next_lef.write_text(self.lef.read_text().replace("END LIBRARY", WIDE))
        self.state, self.new_state = self.folder / "v1.state", self.folder / "v2.state"

    def saved(self, *lines: bytes) -> None:
        """Saves a state of the old design after some lines."""
        self.direct(b"".join(line + b"\n" for line in lines), "--save", str(self.state))

    def carry(self, *words: str | Path) -> subprocess.CompletedProcess[bytes]:
        done = self.tool(
            *("lefence-carry", "--to", self.next, self.next_lef, "-o", self.new_state, "--program", PROGRAM),
            *("--report", "report", *words),
        )
        self.assertNotIn(b"Traceback", done.stderr)
        return done

    def from_state(self, *words: str) -> subprocess.CompletedProcess[bytes]:
        return self.carry("--from", self.design, self.lef, "--state", self.state, *words)

    def report(self) -> dict[str, dict[str, int]]:
        """The counts that are not 0, by teams."""
        rows = [json.loads(line) for line in (self.folder / "report").read_text().splitlines()]
        return {row.pop("team"): {key: count for key, count in row.items() if count} for row in rows}

    def places(self) -> dict[str, tuple[bytes, bytes]]:
        """The two places of each cell in the new state, if it has one."""
        with open(self.new_state, "rb") as file:
            cells = [cell for _, team in teams_in(file) for cell in team]
        return {cell.name.decode(): cell[1:] for cell in cells if cell[1:] != (b"-", b"-")}

    def test_places_go_to_cells_of_one_name(self) -> None:
        moves = (b"open f0", b"place f0 0 f0c0 0 0 N", b"place f0 0 f0c4 600 0 N", b"place f0 0 f0c5 1200 0 N")
        self.saved(*moves, b"pad f0 0 1", b"open f1", b"place f1 0 f1c0 8000 0 N", b"place f0 0 f0c3 2000 2000 FS")
        done = self.from_state()
        self.assertEqual(done.returncode, 4, done.stderr)
        self.assertEqual(
            self.places(),
            {
                "f0c0": (b"0,0,N", b"-"),
                "f0c4": (b"600,0,N", b"-"),
                "f0c5": (b"1200,0,N", b"-"),
                "f0n1": (b"6000,0,N", b"6000,0,N"),
            },
        )
        report = self.report()
        self.assertEqual(
            report["f0"],
            {"cells": 7, "kept": 5, "resized": 1, "new": 1, "gone": 3, "unplaced": 4, "illegal": 2},
        )
        self.assertEqual(report["f1"]["from_other_team"], 1)
        self.assertEqual(report["all"]["cells"], 89)
        with open(self.new_state, "rb") as file:
            heads = [team[:3] for team, cells in teams_in(file) if list(cells)]
        self.assertEqual(heads[:2], [(b"f0", 5, 1), (b"f1", 1, 0)])
        self.assertIn(b"sessions are closed, and undo entries are not carried over", done.stderr)
        self.assertTrue(done.stdout.startswith(b"team  cells  kept  resized  new  from other team  gone"))

    def test_an_unchanged_design_keeps_its_state(self) -> None:
        self.saved(*LINES.split(b"\n")[:5], b"close f0 0")
        done = self.carry("--from", self.design, self.lef, "--state", self.state, "--to", self.design, self.lef)
        self.assertEqual(done.returncode, 4, done.stderr)
        replies = self.direct(b"open f0\nwhere f0 0 f0c6\n", "--state", str(self.new_state))
        self.assertEqual(replies, b"ok 0 4\nok 2000 0 N\n")

    def test_committed_places_stay_legal_if_wanted(self) -> None:
        text = self.design.read_text().replace("f0c0 BUF ;", "f0c0 BUF + PLACED ( 0 0 ) N ;")
        self.design.write_text(text.replace("f0c4 INV ;", "f0c4 INV + PLACED ( 600 0 ) N ;"))
        self.saved(b"open f0")
        self.assertEqual(self.from_state().returncode, 4)
        self.assertEqual(self.places()["f0c4"], (b"600,0,N", b"600,0,N"))
        done = self.from_state("--keep-committed-legal")
        expected = b"2 cells whose committed place breaks a rule are committed where the new DEF file has them"
        self.assertIn(expected, done.stderr)
        self.assertEqual([self.places()[name] for name in ("f0c0", "f0c4")], [(b"0,0,N", b"-"), (b"600,0,N", b"-")])

    def test_bad_input_is_refused_and_nothing_is_written(self) -> None:
        self.saved(b"open f0")
        for state, status, expected in (
            (b"lefence-state 2\n", 1, "25 OtherVersion"),
            (self.state.read_bytes()[:-9], 1, "2 UnexpectedEnd"),
            (self.state.read_bytes().replace(b"f0c1 ", b"f0c_ "), 1, "26 OtherDesign"),
        ):
            self.state.write_bytes(state)
            done = self.from_state()
            self.assertEqual((done.returncode, self.new_state.exists()), (status, False), done.stderr)
            self.assertIn(expected, done.stderr.decode())
            self.state.unlink()
            self.saved(b"open f0")
        for words in (("--state", "s"), (), ("--journal", "j", "--state", "s")):
            self.assertEqual(self.carry(*words).returncode, 2)
        self.assertEqual([*self.folder.glob("*.partial*")], [])

    def test_a_program_that_finds_other_places_is_noticed(self) -> None:
        self.saved(b"open f0", b"place f0 0 f0c4 600 0 N")
        made = self.folder / "other"
        made.write_text(f'#!/bin/sh\n\'{PROGRAM}\' "$@" | sed s/\'"box":.600,\'/\'"box":[800,\'/\n')
        made.chmod(0o755)
        done = self.from_state("--program", str(made))
        self.assertEqual((done.returncode, self.new_state.exists()), (3, False), done.stderr)

    def test_a_hub_begins_with_the_state_of_a_journal(self) -> None:
        self.start()
        talker = self.talk("f0")
        replies = talker.ask(*LINES.decode().splitlines()[:5])
        self.assertEqual(replies[-1], "ok 4")
        # (also while the hub runs)
        self.assertEqual(self.carry("--journal", self.journal).returncode, 4)
        words = [str(self.next), str(self.next_lef), "--program", PROGRAM, "--sockets", str(self.folder / "s2")]
        words += ["--journal", str(self.folder / "j2")]
        hub = Hub(self.folder, [*words, "--begin", str(self.new_state)], "log2")
        self.addCleanup(hub.kill)
        self.assertIn(": ready:", hub.wait_ready())
        talker = self.talk("f0", "s2")
        self.assertEqual(talker.ask("open f0", "where f0 0 f0c6"), ["ok 0 4", "ok 2000 0 N"])
        self.assertEqual(talker.ask("place f0 0 f0c6 3000 0 N"), ["ok 5"])
        self.assertEqual(hub.end(), 0)
        # The next start goes on from the state, without the option.
        carried = self.new_state.read_bytes()
        self.new_state.unlink()
        again = Hub(self.folder, words, "log4")
        self.addCleanup(again.kill)
        self.assertIn(": ready:", again.wait_ready())
        self.assertEqual(self.talk("f0", "s2").ask("open f0", "where f0 0 f0c6"), ["ok 0 5", "ok 3000 0 N"])
        again.kill()
        # With it, the state must be the same, also in a later segment.
        self.new_state.write_bytes(carried.replace(b"f0c6 2000,", b"f0c6 2200,"))
        self.assertNotEqual(self.new_state.read_bytes(), carried)
        again = self.started([*words, "--begin", str(self.new_state)])
        self.assertIn("only a new journal can begin with this one", again.log_text())
        self.assertEqual(again.process.wait(PATIENCE), 1)
        self.new_state.write_bytes(carried)
        again = self.started([*words, "--begin", str(self.new_state), "--roll"])
        self.assertEqual(again.process.wait(PATIENCE), 0, again.log_text())
        self.started([*words, "--begin", str(self.new_state)])
        self.assertEqual(self.talk("f0", "s2").ask("open f0", "where f0 0 f0c6"), ["ok 0 5", "ok 3000 0 N"])

    def test_a_first_start_that_was_interrupted_can_be_given_again(self) -> None:
        words = self.begun()
        self.started([*words, "--begin", str(self.new_state)])
        self.assertEqual(self.talk("f0", "s2").ask("open f0", "where f0 0 f0c6"), ["ok 0 4", "ok 2000 0 N"])

    def begun(self) -> list[str]:
        """Begins a journal with a carried state, without a change; returns the words that start its hub again."""
        self.saved(*LINES.split(b"\n")[:5])
        self.assertEqual(self.from_state().returncode, 4)
        words = [str(self.next), str(self.next_lef), "--program", PROGRAM, "--sockets", str(self.folder / "s2")]
        words += ["--journal", str(self.folder / "j2"), "--programs", "1"]
        hub = self.started([*words, "--begin", str(self.new_state)])
        self.assertEqual(hub.end(), 0)
        return words

    def started(self, words: list[str]) -> Hub:
        """Starts a hub with these words, and waits until it is ready or has ended."""
        hub = Hub(self.folder, words, "log2")
        self.addCleanup(hub.kill)
        hub.wait_ready()
        return hub

    def test_a_carried_state_without_changes_is_kept(self) -> None:
        words = self.begun()
        hub = self.started([*words, "--sessions", "16"])
        self.assertEqual(hub.process.wait(PATIENCE), 1)
        self.assertIn("made for 8 session slots per team, not 16", hub.log_text())
        text = self.next.read_text()
        self.next.write_text(text.replace("DESIGN t ;", "DESIGN other ;"))
        hub = self.started(words)
        self.assertEqual(hub.process.wait(PATIENCE), 1)
        self.assertIn("v2.def has changed since", hub.log_text())
        for extra in (["--kept-texts"], ["--kept-texts", "--roll", "--sessions", "16"], ["--kept-texts"]):
            hub = self.started([*words, *extra])
            if "--roll" not in extra:
                revisions = {each["team"]: each["revision"] for each in read_status(self.folder / "s2")["teams"]}
                self.assertEqual(revisions["f0"], 4, hub.log_text())
                hub.process.terminate()
            self.assertEqual(hub.process.wait(PATIENCE), 0, hub.log_text())
        self.started([*words, "--kept-texts"])
        self.assertEqual(self.talk("f0", "s2").ask("open f0", "where f0 0 f0c6"), ["ok 0 4", "ok 2000 0 N"])

    def test_a_journal_whose_first_state_is_damaged_is_refused(self) -> None:
        words = self.begun()
        state = self.folder / "j2.past/1.state"
        state.write_bytes(state.read_bytes().replace(b"f0c4 ", b"f0c4  "))
        again = Hub(self.folder, words, "log3")
        self.assertIn("is not the state that the journal names, and the journal begins with it", again.wait_ready())
        self.assertEqual(again.process.wait(), 1)

    def test_the_new_state_is_of_the_new_design(self) -> None:
        self.saved(b"open f0", b"place f0 0 f0c4 600 0 N")
        self.from_state()
        with Description(PROGRAM, self.next, [self.next_lef], self.new_state) as description:
            boxes = {cell.name: cell.box for cell in description.cells()}
        self.assertEqual(boxes["f0c4"], (600, 0, 1000, 2000))


if __name__ == "__main__":
    main()
