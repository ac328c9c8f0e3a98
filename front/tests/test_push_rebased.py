"""Work done elsewhere goes into a team that is alive: with other revisions, other sessions, and others at work."""

from __future__ import annotations

import contextlib
import random
import re
import threading
import unittest
from collections.abc import Iterator
from pathlib import Path

from support import Hub, HubCase, wait_until

import lefence
from lefence.journal.frames import Reader

ROWS, ROW_SITES = 3, 150


def team_text(places: dict[str, tuple[int, int, str]] | None, cells: dict[str, str]) -> str:
    """A design of the one team A with these cells, by macro, at places or unplaced."""
    rows = "".join(
        f"ROW r{row} core 0 {row * 2000} {('N', 'FS')[row % 2]} DO {ROW_SITES} BY 1 STEP 200 0 ;\n"
        for row in range(ROWS)
    )
    spots = {name: "+ PLACED ( %d %d ) %s" % spot for name, spot in (places or {}).items()}
    parts = "".join(f"- {name} {macro} {spots.get(name, '')} ;\n" for name, macro in cells.items())
    return (
        f"VERSION 5.8 ;\nDESIGN t ;\nUNITS DISTANCE MICRONS 1000 ;\n{rows}REGIONS 1 ;\n"
        f"- A ( 0 0 ) ( {ROW_SITES * 200} {ROWS * 2000} ) + TYPE FENCE ;\nEND REGIONS\n"
        f"COMPONENTS {len(cells)} ;\n{parts}END COMPONENTS\n"
        "GROUPS 1 ;\n- g c* + REGION A ;\nEND GROUPS\nEND DESIGN\n"
    )


def packed(rng: random.Random, cells: dict[str, str]) -> dict[str, tuple[int, int, str]]:
    """Legal places of all cells, in a random order, with some free sites in each row."""
    found, row, at = {}, 0, 0
    for name in rng.sample([*cells], len(cells)):
        sites = 3 if cells[name] == "BUF" else 2
        if at + sites > ROW_SITES:
            row, at = row + 1, 0
        found[name] = (at * 200, row * 2000, ("N", "FS")[row % 2])
        at += sites + (rng.random() < 0.1)
    assert row < ROWS
    return found


class Rebased(HubCase):
    """The journal of a slice of a running hub goes back to it."""

    def setUp(self) -> None:
        super().setUp()
        self.start()
        self.colleague = self.talk("f1")
        moves = ["place f1 0 f1c1 8000 0 N", "place f1 0 f1c2 9000 0 N"]
        self.assertEqual(self.colleague.ask("open f1", *moves), ["ok 0 0", "ok 1", "ok 2"])

    def work_away(self, *lines: str) -> Path:
        """Cuts the slice of the running hub, and has another hub over it answer lines; returns that hub's journal."""
        sliced, socket = self.folder / "f1.def", self.folder / "s/f1.sock"
        done = self.tool(
            "lefence-slice", self.design, self.lef, "--socket", socket, "-o", sliced, "--program", self.program
        )
        self.assertEqual(done.returncode, 0, done.stderr)
        self.assertIn(b"team f1 is at revision 2", done.stderr)
        hub = Hub(self.folder, self.words(sockets="away", journal="away.journal", design=sliced), log="away.log")
        self.addCleanup(hub.kill)
        self.assertIn("ready", hub.wait_ready())
        self.assertEqual({reply[:2] for reply in self.talk("f1", "away").ask(*lines)}, {"ok"})
        self.assertEqual(hub.end(), 0)
        return self.folder / "away.journal"

    def push(self, journal: Path, *words: str) -> tuple[int, str]:
        done = self.tool("lefence-push", journal, self.folder / "s/f1.sock", *words)
        return done.returncode, done.stderr.decode()

    def test_sessions_and_revisions_are_rebased(self) -> None:
        journal = self.work_away(
            *("open f1", "open f1", "where f1 0 f1c2", "place f1 0 f1c3 10000 0 N", "sync f1 1"),
            *("legalize f1 1 f1c4 8000 2000", "unplace f1 1 f1c4", "undo f1 1", "close f1 0", "swap f1 1 f1c1 f1c2"),
        )
        status, output = self.push(journal)
        self.assertEqual((status, "line 1: the recorded reply to 'open f1' is 'ok 0 0'" in output), (1, True), output)
        status, output = self.push(journal, "--rebase", "--ahead", "4")
        self.assertEqual((status, "5 lines answered as recorded; team f1 at revision 7" in output), (0, True), output)
        places = ["ok 9000 0 N", "ok 8000 0 N", "ok 10000 0 N"]
        self.assertEqual(self.colleague.ask(*(f"where f1 0 f1c{cell}" for cell in (1, 2, 3))), places)
        self.assertEqual(self.colleague.ask("open f1"), ["ok 1 7"])
        # After another change of a colleague the last reply is another one.
        self.assertEqual(self.colleague.ask("sync f1 0", "unplace f1 0 f1c1"), ["ok 7", "ok 8"])
        status, output = self.push(journal, "--rebase")
        self.assertEqual((status, "but now it is 'no 6 Unplaced f1c1'" in output), (1, True), output)
        self.assertEqual(self.push(journal, "--rebase", "--continue")[0], 2)

    def test_a_change_of_a_colleague_meanwhile_is_kept(self) -> None:
        moves = [f"place f1 0 f1c3 {8200 + 600 * (number % 9)} 4000 N" for number in range(60)]
        journal = self.work_away("open f1", *moves)
        stopped, turns = threading.Event(), 0

        def disturb() -> None:
            nonlocal turns
            while not stopped.wait(0.005):
                self.colleague.ask("sync f1 0", f"place f1 0 f1c5 {8000 + 400 * (turns % 2)} 6000 FS")
                turns += 1

        disturbing = threading.Thread(target=disturb)
        disturbing.start()
        try:
            wait_until(lambda: turns)
            status, output = self.push(journal, "--rebase")
        finally:
            stopped.set()
            disturbing.join()
        self.assertEqual((status, "60 lines answered as recorded" in output), (0, True), output)
        revision = int(self.colleague.ask("sync f1 0")[0].split()[1])
        self.assertGreater(turns, 0)
        self.assertGreater(revision, 62)
        self.assertEqual(self.colleague.ask("where f1 0 f1c3"), [f"ok {8200 + 600 * (59 % 9)} 4000 N"])

    def test_what_would_take_back_the_work_of_others_is_refused(self) -> None:
        journal = self.work_away("open f1", "place f1 0 f1c3 10000 0 N", "revert f1 0")
        status, output = self.push(journal, "--rebase", "--ahead", "3")
        self.assertEqual((status, "line 3: a `revert` cannot be rebased" in output), (1, True), output)
        self.assertEqual(self.colleague.ask("where f1 0 f1c1", "sync f1 0"), ["ok 8000 0 N", "ok 2"])


class NewPlaces(HubCase):
    """A dense team whose cells all change their places."""

    def setUp(self) -> None:
        super().setUp()
        self.cells = {f"c{number}": "BUF" if number % 3 == 0 else "INV" for number in range(150)}
        self.design.write_text(team_text(None, self.cells))
        self.start("--keep", "0", "--tail-bytes", "0")

    def push(self, places: dict[str, tuple[int, int, str]], *words: str) -> tuple[int, str]:
        placed = self.folder / "placed.def"
        placed.write_text(team_text(places, self.cells))
        done = self.tool("lefence-push", placed, self.folder / "s/A.sock", self.lef, "--program", self.program, *words)
        return done.returncode, done.stderr.decode()

    def places(self) -> dict[str, tuple[int, int, str] | None]:
        with lefence.connect(self.folder / "s/A.sock") as connection, connection.session("A") as session:
            return {
                cell.name: (int(at.x), int(at.y), at.orient) if (at := cell.place) else None for cell in session.cells()
            }

    def lines_without_place(self) -> Iterator[int]:
        """For how many lines of the journal each cell that had a place was without one; a colleague's do not count."""
        placed, without = set[bytes](), dict[bytes, int]()
        with open(self.journal, "rb") as file:
            reader = Reader(file.fileno(), self.journal)
            frames = [*reader.frames(reader.header().length)]
        records = [each for frame in frames for each in frame.records() if not each.line.startswith(b"pad ")]
        for number, record in enumerate(records):
            verb, _, *words = record.line.split()
            if verb == b"unplace":
                self.assertIn(words[1], placed)
                without[words[1]] = number
            elif verb in (b"place", b"legalize"):
                placed.add(words[1])
                with contextlib.suppress(KeyError):
                    yield number - without.pop(words[1])
        self.assertEqual(without, {})

    def test_all_cells_change_places_and_none_lacks_one_for_long(self) -> None:
        first, second, third = (packed(self.rng, self.cells) for _ in range(3))
        status, output = self.push(first)
        self.assertEqual((status, "150 cells brought to new places by 150 changes" in output), (0, True), output)
        self.assertEqual(self.places(), first)
        status, output = self.push(second)
        self.assertEqual((status, self.places()), (0, second), output)
        # A colleague changes the team meanwhile.
        stopped, colleague = threading.Event(), self.talk("A")
        self.assertEqual(colleague.ask("open A")[0][:5], "ok 0 ")

        def disturb() -> None:
            while not stopped.wait(0.05):
                colleague.ask("sync A 0", "pad A 0 0")

        disturbing = threading.Thread(target=disturb)
        disturbing.start()
        try:
            status, output = self.push(third)
        finally:
            stopped.set()
            disturbing.join()
        self.assertEqual((status, self.places()), (0, third), output)
        longest = re.search(r"at most (\d+) lines", output)
        assert longest
        self.assertLessEqual(int(longest[1]), 30)
        self.assertLessEqual(max(self.lines_without_place()), 30)
        self.assertIn("0 cells brought to new places by 0 changes", self.push(third)[1])

    def test_places_that_break_a_rule_are_refused_before_any_change(self) -> None:
        places = packed(self.rng, self.cells)
        for spot, reason in (((0, 2000, "N"), "Illegal"), ((*places["c1"][:2], places["c1"][2]), "c1")):
            status, output = self.push({**places, "c0": spot})
            self.assertEqual((status, "nothing is sent" in output, reason in output), (1, True, True), output)
        self.assertEqual(set(self.places().values()), {None})


if __name__ == "__main__":
    unittest.main()
