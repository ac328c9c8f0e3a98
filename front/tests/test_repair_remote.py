"""Repairs of a hub's teams from their present places, by changes of a session that others see and can undo."""

from __future__ import annotations

import subprocess
import unittest

from support import CELLS, PROGRAM, TEAMS, HubCase

import lefence
from lefence.base.design import Design


class RepairsThere(HubCase):
    def setUp(self) -> None:
        super().setUp()
        self.start()

    def repair(self, socket: str, *words: str) -> subprocess.CompletedProcess[bytes]:
        where = self.folder / "s" / f"{socket}.sock"
        return self.tool("lefence-repair", self.design, self.lef, "--socket", where, "--program", PROGRAM, *words)

    def test_a_team_is_repaired_at_its_present_places(self) -> None:
        with lefence.connect(self.folder / "s/f1.sock") as connection, connection.session("f1") as session:
            session.place("f1c1", 9000, 4000, "N")
            done = self.repair("f1", "--keep")
            self.assertEqual((done.returncode, done.stdout), (0, b""), done.stderr)
            self.assertIn(
                f"lefence-repair: team f1: 0 moved, 0 turned, {CELLS - 1} newly placed, 1 unmoved, "
                "0 unrepaired\n".encode(),
                done.stderr,
            )
            revision = session.sync()
            self.assertIn(f"lefence-repair: team f1: now at revision {revision}\n".encode(), done.stderr)
            report, place = session.check(), session.where("f1c1")
            self.assertEqual((report.unplaced, [*report.violations]), (0, []))
            self.assertEqual((place.x, place.y, place.orient), (9000, 4000, "N"))
            # Its session is closed; its changes are committed and can be undone.
            session.undo()
            self.assertEqual(session.check().unplaced, 1)
            session.revert()
        target = self.folder / "new.def"
        self.assertEqual(self.talk("operator").ask(f"export {target}"), ["ok"])
        exported = Design(target.read_bytes())
        placed = [each.name for each in exported.entries(b"COMPONENTS") if each.has(b"PLACED")]
        self.assertEqual(placed, exported.cells_of(b"f1"))
        done = self.repair("f1")
        expected = (
            b"lefence-repair: nothing moves; team f1 is committed\nlefence-repair: every cell of team f1 is legal\n"
        )
        self.assertEqual((done.returncode, done.stderr.endswith(expected)), (0, True), done.stderr)

    def test_the_operator_names_one_team(self) -> None:
        for words in ((), ("--team", "f1", "--team", "-")):
            done = self.repair("operator", *words)
            self.assertEqual((done.returncode, done.stderr), (2, b"lefence-repair: exactly one --team is needed\n"))
        self.assertEqual(self.repair("operator", "--team", "-").returncode, 0)
        self.assertEqual(self.talk("-").ask("open -")[0][:5], "ok 0 ")

    def test_a_reply_that_differs_is_reported_and_nothing_more_is_sent(self) -> None:
        with lefence.connect(self.folder / "s/f1.sock") as connection, connection.session("f1") as session:
            session.pad(16)
            done = self.repair("f1")
            self.assertEqual(done.returncode, 1, done.stderr)
            self.assertRegex(
                done.stderr.decode(),
                "line [0-9]+: the recorded reply to '[a-z]+ f1 1 f1c[0-9] .*' is 'ok .*', but now it is '(ok|no) ",
            )
            self.assertGreater(session.check().unplaced, 0)

    def test_a_design_with_other_cells_is_refused(self) -> None:
        self.design.write_text(self.design.read_text().replace("- f1c3 ", "- f1c33 "))
        done = self.repair("f1")
        expected = f"lefence-repair: {self.design} has other cells of team f1 than the hub's design\n"
        self.assertEqual((done.returncode, done.stderr.decode()), (1, expected))
        self.assertEqual(self.repair(f"f{TEAMS}").returncode, 3)
        done = self.tool("lefence-repair", "t.def", "t.lef", "--socket", "t.def", "--program", PROGRAM)
        self.assertEqual((done.returncode, done.stderr), (3, b"lefence-repair: t.def: it is not a socket\n"))
        done = self.repair("operator", "--team", "Z")
        self.assertEqual((done.returncode, b"Traceback" in done.stderr), (1, False), done.stderr)


if __name__ == "__main__":
    unittest.main()
