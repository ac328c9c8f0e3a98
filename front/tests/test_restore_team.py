"""A team goes back to the places that it had, by lines that the journal gives."""

from __future__ import annotations

import datetime
import time
import unittest

from support import PROGRAM, HubCase, Script

import lefence


class GoesBack(HubCase):
    """A running hub with some segments, and a team that wants yesterday's places."""

    def restore(self, when: str, status: int = 0, team: str = "f0") -> str:
        """Writes the lines to the file `back`; returns what the tool says."""
        words = (self.journal, team, "--at", when, "-o", self.folder / "back", "--program", PROGRAM)
        done = self.tool("lefence-journal", "restore-team", *words)
        self.assertEqual(done.returncode, status, done.stderr)
        return done.stderr.decode()

    def cells(self, team: str) -> bytes:
        with lefence.connect(self.folder / f"s/{team}.sock") as connection, connection.session(team) as session:
            return session.def_text()

    def work(self, count: int) -> None:
        """Random places of f0 and f1."""
        for team in (0, 1):
            script = Script(self.rng, team)
            lines = [line for _ in range(count * 4) if (line := script.line()).split()[0] in (b"place", b"legalize")]
            others = [b"sync f%d 0" % team, b"unplace f%d 0 f%dc%d" % (team, team, self.rng.randrange(10))]
            self.talker.ask(*(line.decode() for line in [*lines, *others]))

    def changes(self) -> int:
        listed = self.tool("lefence-journal", "list", self.journal).stdout.decode().splitlines()
        return max(int(words[0]) for line in listed if (words := line.split("\t"))[0] != "-")

    def test_a_team_goes_back_to_a_change_and_to_a_time(self) -> None:
        self.start("--tail-bytes", "2000", "--tail-seconds", "0", "--keep", "0")
        self.talker = self.talk("operator")
        self.talker.ask("open f0", "open f1", "pad f0 0 1")
        self.work(15)
        first, number = self.cells("f0"), self.changes()
        self.work(15)
        # (the journal rounds times to milliseconds)
        time.sleep(0.002)
        second, moment = self.cells("f0"), datetime.datetime.now().isoformat(timespec="milliseconds")
        time.sleep(0.002)
        self.work(15)
        other = self.cells("f1")
        for when, wanted in ((str(number), first), (moment, second)):
            self.assertNotEqual(self.cells("f0"), wanted)
            self.assertIn("with another place then", self.restore(when))
            done = self.tool("lefence-push", self.folder / "back", self.folder / "s/f0.sock", "--rebase")
            self.assertEqual((done.returncode, self.cells("f0")), (0, wanted), done.stderr)
        self.assertEqual(self.cells("f1"), other)
        self.assertIn("the journal has the changes 1 to", self.restore("999999", status=1))
        self.assertIn("the journal is younger", self.restore("2001-01-01", status=1))
        self.assertIn("no number, no time, and no savepoint", self.restore("never", status=2))
        self.assertIn("no team: Z", self.restore(str(number), status=1, team="Z"))


if __name__ == "__main__":
    unittest.main()
