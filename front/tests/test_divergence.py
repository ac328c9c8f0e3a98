"""A program whose replies do not fit the journal: its team is frozen, and the others go on."""

from __future__ import annotations

import unittest
from typing import Any

from support import PROGRAM, HubCase, wait_until

from lefence.base.clock import SYSTEM_CLOCK
from lefence.hub.metrics import Metrics, prometheus
from lefence.hub.status import read_status


class Divergences(HubCase):
    def wrap(self, condition: str, edit: str) -> None:
        """Makes a program whose replies are edited, if a condition of the shell holds for its words."""
        made = self.folder / "edited"
        run = f"'{PROGRAM}' \"$@\""
        made.write_text(f"#!/bin/sh\nif {condition}; then\n{run} | sed -u '{edit}'\nelse\nexec {run}\nfi\n")
        made.chmod(0o755)
        self.program = str(made)

    def status(self) -> dict[str, Any]:
        return read_status(self.folder / "s")

    def test_a_difference_that_the_side_program_finds_freezes_the_team(self) -> None:
        self.wrap('[ "$1" = replay ] && case "$*" in *--save*|*--export*) true;; *) false; esac', "s/^ok 2$/ok 3/")
        self.start("--tail-bytes", "0")
        first, second, operator = self.talk("f0"), self.talk("f1"), self.talk("operator")
        lines = ["open f0", "place f0 0 f0c1 0 0 N", "place f0 0 f0c2 1000 0 N"]
        self.assertEqual(first.ask(*lines), ["ok 0 0", "ok 1", "ok 2"])
        self.assertEqual(second.ask("open f1", "place f1 0 f1c1 8000 0 N"), ["ok 0 0", "ok 1"])
        self.assertEqual(self.status()["diverged_teams"], 0)
        text = "team f0 is frozen, since its program and its journal differ: change 3: the journal has b'ok 2\\n' for"
        # (the log has the message each time, not only once a minute)
        for count in (1, 2):
            wait_until(
                lambda: operator.ask("state") == ["ok"] and self.hub.log_text().count(text) >= count, self.hub.log_text
            )
        frozen = ["no 14 Frozen"] * 2
        self.assertEqual(first.ask("place f0 0 f0c2 2000 0 N", "open f0", "where f0 0 f0c2"), [*frozen, "ok 1000 0 N"])
        self.assertEqual(operator.ask("commit f0 0"), ["no 14 Frozen"])
        self.assertEqual(second.ask("place f1 0 f1c2 9000 0 N"), ["ok 2"])
        status = self.status()
        self.assertEqual(status["diverged_teams"], 1)
        self.assertEqual([each["team"] for each in status["teams"] if each["diverged"]], ["f0"])
        self.assertIn("\nlefence_diverged_teams 1\n", prometheus(status))
        [reply] = operator.ask(f"export {self.folder / 'new.def'}")
        self.assertRegex(reply, "no 13 NotExported change 3: ")
        self.assertEqual(operator.ask("thaw f0"), ["ok"])
        self.assertEqual(first.ask("place f0 0 f0c2 2000 0 N"), ["ok 3"])
        self.assertEqual(self.status()["diverged_teams"], 0)

    def test_a_change_with_another_revision_than_the_next_one_is_not_accepted(self) -> None:
        self.wrap(f"[ \"$1\" = replay ] && mkdir '{self.folder}/first' 2>/dev/null", "s/^ok 2$/ok 7/")
        self.start("--tail-bytes", "0")
        first, second, operator = self.talk("f0"), self.talk("f1"), self.talk("operator")
        self.assertEqual(first.ask("open f0", "place f0 0 f0c1 0 0 N"), ["ok 0 0", "ok 1"])
        self.assertEqual(second.ask("open f1", "place f1 0 f1c1 8000 0 N"), ["ok 0 0", "ok 1"])
        self.assertEqual(first.ask("place f0 0 f0c1 1000 0 N"), ["no 14 Frozen"])
        text = "team f0 is frozen, since its program and its journal differ: revision 2 is due, but the program replies"
        self.assertIn(f"{text} b'ok 7\\n' to `place`", self.hub.log_text())
        self.assertEqual(self.status()["diverged_teams"], 1)
        # The program was restored from the journal, which does not have the change.
        self.assertEqual(second.ask("place f1 0 f1c1 9000 0 N"), ["ok 2"])
        self.assertEqual(first.ask("where f0 0 f0c1", "undo f0 0"), ["ok 0 0 N", "no 14 Frozen"])
        self.assertEqual(operator.ask("thaw f0"), ["ok"])
        self.assertEqual(first.ask("place f0 0 f0c1 1000 0 N"), ["ok 2"])
        self.assertEqual((self.hub.end(), self.status_of_start()), (0, ["ok 0 2", "ok 1000 0 N"]))

    def status_of_start(self) -> list[str]:
        """What the next hub knows of team f0."""
        self.program = PROGRAM
        self.start()
        return self.talk("f0").ask("open f0", "where f0 0 f0c1")


class Revisions(unittest.TestCase):
    def test_each_accepted_change_has_the_next_revision_and_an_open_the_present_one(self) -> None:
        metrics = Metrics(SYSTEM_CLOCK)
        metrics.note([b"pad", b"A", b"0", b"1"], b"ok 5\n")
        lines = b"""open A>ok 0 5
place A 0 a 0 0 N>ok 6
place A 0 a 0 0 N>no 7 Illegal 3
tidy A 0>ok 7 0
undo A 0>ok 8
commit A 0>ok 9
revert A 0>ok 10 0
sync A 0>ok 10
where A 0 a>ok 7 7 N
close A 0>ok
open A>ok 0 10
open B>ok 0 0
legalize B 0 b 0 0>ok 1 0 0 N"""
        answered = [(line.split(), reply) for line, reply in (row.split(b">") for row in lines.splitlines())]
        self.assertEqual(metrics.divergences(answered), {})
        counted = (b"open", b"place", b"tidy", b"undo", b"commit", b"revert", b"legalize")
        for number, (fields, reply) in enumerate(answered):
            if fields[0] in counted and b"no" not in reply:
                words = reply.split()
                at = 2 if fields[0] == b"open" else 1
                words[at] = b"%d" % (int(words[at]) + 1)
                changed = [*answered[:number], (fields, b" ".join(words) + b"\n"), *answered[number + 1 :]]
                self.assertEqual([*metrics.divergences(changed)], [fields[1]])


if __name__ == "__main__":
    unittest.main()
