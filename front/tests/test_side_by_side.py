"""Repairs and improvements by several runs of the program at once: the same bytes as by one run, and runs that fail."""

from __future__ import annotations

import re
from unittest import main

from support import LEF, PROGRAM, TEAMS, WIDTH, FrontCase

from lefence.base.program import Program
from lefence.repair.side_by_side import divided

# A macro that is wider than every fence.
WIDE = f"MACRO WIDE CLASS CORE ; SIZE {(WIDTH + 200) / 1000} BY 2.0 ; SYMMETRY X Y ; SITE core ; END WIDE\nEND LIBRARY"


class SideBySide(FrontCase):
    """Tools that run the program for parts of the teams at the same time."""

    def setUp(self) -> None:
        super().setUp()
        self.target = self.folder / "new.def"
        self.jumble()

    def jumble(self) -> None:
        """Places each cell anywhere on the ground of its team; one in eight has no place."""

        def place(found: re.Match[str]) -> str:
            x, y = WIDTH * int(found[2] or 8) + self.rng.randrange(WIDTH - 600), self.rng.randrange(6_001)
            clause = f"+ PLACED ( {x} {y} ) N" if self.rng.random() < 0.875 else "+ UNPLACED"
            return f"{found[1]} {clause} ;"

        text = re.sub(r"^(- (?:f(\d)|g)c\d+ \w+) ;", place, self.design.read_text(), flags=re.M)
        self.design.write_text(text)

    def repair(self, *words: str, program: str = PROGRAM) -> tuple[int, str, str]:
        """Repairs the design. Returns the status and what is printed."""
        done = self.tool("lefence-repair", self.design, self.lef, *words, "--program", program)
        self.assertNotIn(b"Traceback", done.stderr)
        return done.returncode, done.stdout.decode(), done.stderr.decode()

    def is_as_one_run(self, *words: str) -> tuple[int, str, str]:
        """Checks that several runs print and write the same as one. Returns it."""
        found, texts = [], []
        for jobs in ("1", "3", "40"):
            self.target.unlink(missing_ok=True)
            found.append(self.repair(*words, "--jobs", jobs))
            texts.append(self.target.read_bytes() if self.target.exists() else b"")
            self.assertEqual((found[-1], texts[-1]), (found[0], texts[0]), jobs)
        return found[0]

    def test_several_runs_write_and_print_the_same_as_one(self) -> None:
        for scope in ((), ("--keep",)):
            status, _, printed = self.is_as_one_run("-o", str(self.target), *scope)
            self.assertEqual(status, 0)
            self.assertIn("every cell is legal\n", printed)
        status, moves, _ = self.is_as_one_run("--dry-run")
        self.assertEqual((status, len(moves.splitlines()) > 40), (0, True))
        self.assertEqual(self.repair("--dry-run", "--jobs", "0")[1], moves)

    def test_several_runs_repair_only_the_named_teams(self) -> None:
        for teams in (("f6", "-", "f1"), ("f1", "f1")):
            status, _, printed = self.is_as_one_run("-o", str(self.target), *(f"--team={team}" for team in teams))
            self.assertEqual(status, 4)
            self.assertIn("other teams have cells that break a rule or have no place\n", printed)
        status, _, printed = self.is_as_one_run("-o", str(self.target), "--team", "f1", "--team", "Z")
        self.assertEqual((status, printed), (1, "lefence-repair: NoTeam; team Z is not in the design\n"))

    def test_several_runs_report_the_cells_that_found_no_place(self) -> None:
        self.lef.write_text(LEF.replace("END LIBRARY", WIDE))
        text = self.design.read_text()
        for team in (1, 5):
            text = re.sub(rf"- f{team}c2 (INV|BUF)", f"- f{team}c2 WIDE", text)
        self.design.write_text(text)
        status, _, printed = self.is_as_one_run("-o", str(self.target))
        self.assertEqual(status, 4)
        self.assertRegex(printed, r"team f1: no place (can hold|for) f1c2")
        self.assertIn("not fully legal: 2 cells unrepaired\n", printed)
        self.is_as_one_run("--dry-run", "--team", "f5", "--team", "f6")

    def test_teams_are_divided_by_area_in_the_order_of_the_design(self) -> None:
        program = Program(PROGRAM, [self.design, self.lef])
        whole = [*(f"f{number}" for number in range(TEAMS)), "-"]
        parts = divided(program, [], 2)
        assert parts
        self.assertEqual((parts.order, sorted(sum(parts.parts, []))), (whole, sorted(whole)))
        self.assertLessEqual(abs(len(parts.parts[0]) - len(parts.parts[1])), 1)
        many = divided(program, ["-", "f3", "f1"], 40)
        assert many
        self.assertEqual((many.order, sorted(many.parts)), (["f1", "f3", "-"], [["-"], ["f1"], ["f3"]]))
        self.assertIsNone(divided(program, [], 1))
        for teams in (["f1"], ["f1", "f1"], ["f1", "Z"]):
            self.assertIsNone(divided(program, teams, 4))

    def fails(self, script: str, status: int, expected: str) -> None:
        """Checks that a repair by this script instead of the program fails with this message, and leaves no file."""
        odd = self.folder / "odd"
        odd.write_text(f"#!/bin/sh\n{script}\nexec '{PROGRAM}' \"$@\"\n")
        odd.chmod(0o755)
        for words in (("-o", str(self.target)), ("--dry-run",)):
            self.assertEqual(self.repair(*words, "--jobs", "3", program=str(odd)), (status, "", expected))
            self.assertEqual([path.name for path in sorted(self.folder.iterdir())], ["odd", "t.def", "t.lef"])

    def test_a_run_that_fails_ends_the_others_and_leaves_no_file(self) -> None:
        """All other runs would take an hour."""
        one = 'case "$*" in repair*--team=f2*)'
        others = "repair*) exec sleep 3600 ;; esac"
        died = "lefence-repair: the program ended unexpectedly with status -9\n"
        self.fails(f"{one} kill -9 $$ ;; {others}", 3, died)
        refused = f"{one} echo 'lefence: 24 OutOfMemory' >&2; exit 1 ;; {others}"
        self.fails(refused, 1, "lefence-repair: 24 OutOfMemory\n")

    def test_lines_that_are_refused_when_they_are_put_together_are_a_failure(self) -> None:
        refuse = f"[ $1 = replay ] && exec '{PROGRAM}' demo"
        self.fails(refuse, 3, "lefence-repair: the program refuses a line that it accepted before\n")
        self.fails("[ $1 = check ] && kill -9 $$", 3, "lefence-repair: the program ended unexpectedly with status -9\n")

    def test_bad_numbers_of_runs_are_refused(self) -> None:
        for word in ("-1", "x", "1.5", ""):
            status, _, printed = self.repair("--dry-run", f"--jobs={word}")
            self.assertEqual((status, "--jobs" in printed), (2, True))


if __name__ == "__main__":
    main()
