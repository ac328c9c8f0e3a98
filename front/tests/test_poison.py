"""Lines at which a program dies, and programs with a limit of memory: the line is refused, and the hub goes on."""

from __future__ import annotations

import resource
import unittest
from argparse import ArgumentTypeError
from pathlib import Path
from typing import Any

from support import PROGRAM, HubCase, slow_program

from lefence.hub.main import memory_size
from lefence.hub.status import read_status

# A design of one team outside all fences.
CELLS, IN_ROW = 4000, 1000
ROWS = CELLS // IN_ROW + 2


class Poison(HubCase):
    """A program that dies at each `where` of a certain cell."""

    def setUp(self) -> None:
        super().setUp()
        self.program = slow_program(self.folder, PROGRAM, b"where f0 0 f0c7", "process.kill(); sys.exit()")

    def programs(self) -> dict[str, dict[str, Any]]:
        """The programs by their teams."""
        return {team: each for each in read_status(self.folder / "s")["programs"] for team in each["teams"]}

    def test_a_line_at_which_its_program_dies_is_refused_and_the_others_go_on(self) -> None:
        self.start("--programs", "3", "--tail-bytes", "0")
        first, second = self.talk("f0"), self.talk("f1")
        self.assertEqual((first.ask("open f0"), second.ask("open f1")), (["ok 0 0"], ["ok 0 0"]))
        lines = ["place f0 0 f0c1 0 0 N", "where f0 0 f0c7", "place f0 0 f0c2 1000 0 N", "where f0 0 f0c1"]
        self.assertEqual(first.ask(*lines), ["ok 1", "no 12 OutOfMemory", "ok 2", "ok 0 0 N"])
        self.assertEqual(second.ask("place f1 0 f1c1 8000 0 N"), ["ok 1"])
        self.assertIn("program died 2 times at this line alone: where f0 0 f0c7", self.hub.log_text())
        self.assertEqual(first.ask("where f0 0 f0c7", "sync f0 0"), ["no 12 OutOfMemory", "ok 2"])
        programs = self.programs()
        self.assertNotEqual(programs["f0"]["pid"], programs["f1"]["pid"])
        self.assertGreaterEqual(programs["f0"]["restores"], 4)
        self.assertEqual(programs["f1"]["restores"], 0)
        self.assertEqual(self.hub.end(), 0, self.hub.log_text())
        self.start("--programs", "3")
        self.assertEqual(self.talk("f0").ask("open f0", "where f0 0 f0c2"), ["ok 0 2", "ok 1000 0 N"])

    def test_also_on_a_query_socket(self) -> None:
        self.start()
        talker = self.talk("f0.query")
        lines = ["where f0 0 f0c1", "where f0 0 f0c7", "where f0 0 f0c1"]
        self.assertEqual(talker.ask(*lines), ["no 6 Unplaced f0c1", "no 12 OutOfMemory", "no 6 Unplaced f0c1"])
        self.program = slow_program(self.folder, PROGRAM, b"open f0", "process.kill(); sys.exit()")
        self.hub.kill()
        self.start()
        talker = self.talk("f0.query")
        self.assertEqual(talker.ask("where f0 0 f0c1"), ["no 12 OutOfMemory"])
        self.assertEqual(self.talk("f1").ask("open f1"), ["ok 0 0"])


class Memory(HubCase):
    def test_a_size_is_a_number_of_bytes(self) -> None:
        sizes = {"1": 1, "500M": 500 << 20, "4G": 4 << 30, "2K": 2048, "1T": 1 << 40}
        self.assertEqual({word: memory_size(word) for word in sizes}, sizes)
        for word in ("", "0", "-1", "4g", "4 G", "1.5G", "G", "4GB"):
            self.assertRaises(ArgumentTypeError, memory_size, word)

    def test_a_program_that_may_have_no_more_memory_refuses_changes(self) -> None:
        rows = "".join(
            f"ROW r{row} core 0 {row * 2000} {('N', 'FS')[row % 2]} DO {IN_ROW * 4} BY 1 STEP 200 0 ;\n"
            for row in range(ROWS)
        )
        cells = "".join(f"- c{number} INV ;\n" for number in range(CELLS))
        self.design.write_text(
            f"VERSION 5.8 ;\nDESIGN t ;\nUNITS DISTANCE MICRONS 1000 ;\n{rows}"
            f"COMPONENTS {CELLS} ;\n{cells}END COMPONENTS\nEND DESIGN\n"
        )
        self.start("--memory", "500M", "--tail-bytes", "0")
        pid = read_status(self.folder / "s")["programs"][0]["pid"]
        self.assertEqual(resource.prlimit(pid, resource.RLIMIT_AS), (500 << 20, 500 << 20))
        # (the limit is now what the program has, so that the test needs no large design)
        used = int(Path(f"/proc/{pid}/statm").read_text().split()[0]) * resource.getpagesize()
        resource.prlimit(pid, resource.RLIMIT_AS, (used, used))
        talker = self.talk("-")
        self.assertEqual(talker.ask("open -"), ["ok 0 0"])
        revision = 0
        # Each of these takes memory for all cells, in the list of changes for `undo`.
        for line in ["tidy - 0", "revert - 0"] * 64:
            [reply] = talker.ask(line)
            if reply == "no 12 OutOfMemory":
                break
            revision += 1
        self.assertEqual((reply, talker.ask("sync - 0")), ("no 12 OutOfMemory", [f"ok {revision}"]))
        self.assertNotIn("restarting", self.hub.log_text())
        self.assertEqual(self.hub.end(), 0, self.hub.log_text())


if __name__ == "__main__":
    unittest.main()
