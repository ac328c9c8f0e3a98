"""Repairs: cells get legal places near their old ones if there is room; the others are listed and unplaced."""

from __future__ import annotations

import json
import re
import subprocess
from pathlib import Path
from unittest import main

from support import AREAS, CELLS, LEF, PROGRAM, TEAMS, WIDTH, FrontCase, klayout, with_klayout

from lefence.base.description import Cell, Description
from lefence.slice.splice import Spot, with_spots

# A macro that is higher than all rows.
HIGH = "MACRO HIGH CLASS CORE ; ORIGIN 0 0 ; SIZE 0.4 BY 10.0 ; SYMMETRY X Y ; SITE core ; END HIGH\nEND LIBRARY"
# A fence of five sites in one row. A cell of two sites and one of three fit there only next to each other.
TIGHT = """VERSION 5.8 ; DESIGN tight ; UNITS DISTANCE MICRONS 1000 ;
ROW r core 0 0 N DO 5 BY 1 STEP 200 0 ;
REGIONS 1 ; - A ( 0 0 ) ( 1000 2000 ) + TYPE FENCE ; END REGIONS
COMPONENTS 2 ;
- two INV + PLACED ( 0 0 ) FN ;
- three BUF + PLACED ( 200 0 ) N ;
END COMPONENTS
GROUPS 1 ; - g two three + REGION A ; END GROUPS
END DESIGN
"""
# Forms of a placement clause, and none.
CLAUSES = (
    "+ PLACED ( {x} {y} ) N",
    "+ SOURCE DIST + PLACED ( {x}\t{y} ) S + WEIGHT 2",
    '+ PROPERTY p "+ PLACED ( 0 0 ) N ;" + PLACED # a comment ;\n ( {x} {y} )\n FN',
    "+ + PLACED ( {x} {y} ) FS",
    "+ UNPLACED",
    "+ UNPLACED ( {x} {y} ) N + SOURCE USER",
    "",
)


def spot_of(cell: Cell) -> Spot | None:
    """The place of a cell."""
    return None if cell.box is None or cell.orient is None else Spot(cell.box.left, cell.box.bottom, cell.orient)


class Repairs(FrontCase):
    def setUp(self) -> None:
        super().setUp()
        self.target = self.folder / "new.def"
        self.jumble()

    def jumble(self) -> None:
        """Places each cell anywhere in its own fence or outside all, in one of two rows, on and off sites."""

        def place(found: re.Match[str]) -> str:
            left = WIDTH * int(found[2] or 8)
            x, y = left + self.rng.randrange(WIDTH - 600), self.rng.choice((0, 4000))
            return f"{found[1]} {self.rng.choice(CLAUSES).format(x=x - x % self.rng.choice((1, 200)), y=y)}\n;"

        text = re.sub(r"^(- (?:f(\d)|g)c\d+ \w+) ;", place, self.design.read_text(), flags=re.M)
        self.design.write_text(text)

    def repair(self, *words: str | Path, program: str = PROGRAM) -> subprocess.CompletedProcess[bytes]:
        done = self.tool("lefence-repair", self.design, self.lef, *words, "--program", program)
        self.assertNotIn(b"Traceback", done.stderr)
        return done

    def cells(self, design: Path) -> dict[str, Cell]:
        with Description(PROGRAM, design, [self.lef]) as description:
            return {cell.name: cell for cell in description.cells()}

    def add(self, component: str, group: str = "") -> None:
        text = self.design.read_text().replace("END COMPONENTS", f"{component} ;\nEND COMPONENTS")
        self.design.write_text(text.replace("END GROUPS", f"{group} ;\nEND GROUPS") if group else text)

    def test_a_repair_makes_every_cell_legal_and_may_keep_legal_cells(self) -> None:
        before = self.cells(self.design)
        done = self.repair("--output", self.target, "--keep")
        self.assertEqual((done.returncode, done.stdout), (0, b""), done.stderr)
        self.assertIn(b"every cell is legal", done.stderr)
        check = subprocess.run([PROGRAM, "check", self.target, self.lef], capture_output=True)
        self.assertEqual(check.returncode, 0, check.stdout)
        after = self.cells(self.target)
        for name, cell in before.items():
            if cell.box and cell.rule is None:
                self.assertEqual(after[name], cell)
            elif cell.box:
                box = after[name].box
                assert box
                self.assertLess(abs(box.left - cell.box.left) + abs(box.bottom - cell.box.bottom), 6000, name)
        self.assertEqual([path.name for path in sorted(self.folder.iterdir())], ["new.def", "t.def", "t.lef"])

    def test_the_options_of_the_search_are_those_of_the_program(self) -> None:
        for words in (["--effort", "0"], ["--effort=3", "--within", "40", "--balance-heights", "--near-nets"]):
            plain = self.folder / "plain.def"
            done = subprocess.run(
                [PROGRAM, "repair", self.design, self.lef, *words, "--export", plain], stdout=subprocess.DEVNULL
            )
            self.assertEqual(done.returncode, 0)
            self.assertEqual(self.repair("--output", self.target, *words).returncode, 0)
            self.assertEqual(self.target.read_bytes(), plain.read_bytes())

    def test_a_number_that_the_program_refuses_is_reported(self) -> None:
        done = self.repair("--output", self.target, "--within", "0")
        self.assertNotEqual(done.returncode, 0)
        self.assertIn(b"--within", done.stderr)
        self.assertFalse(self.target.exists())

    @with_klayout
    def test_klayout_finds_no_overlap_after_it(self) -> None:
        self.assertEqual(self.repair("--output", self.target).returncode, 0)
        for design, is_repaired in ((self.design, False), (self.target, True)):
            [line] = klayout(self.folder, AREAS, "-b", "-rd", f"design={design}", "-rd", f"lef={self.lef}")
            count, area, covered = map(float, line.split())
            self.assertEqual((count == CELLS * (TEAMS + 1), area == covered), (is_repaired, is_repaired), line)

    def test_a_splice_equals_the_export_of_the_program(self) -> None:
        self.assertEqual(self.repair("--output", self.target).returncode, 0)
        before, after = self.cells(self.design), self.cells(self.target)
        spots = {
            name: spot for name, cell in after.items() if (spot := spot_of(cell)) and spot != spot_of(before[name])
        }
        self.assertGreater(len(spots), 40)
        self.assertEqual(with_spots(self.design.read_bytes(), spots), self.target.read_bytes())
        unplaced = with_spots(self.target.read_bytes(), dict.fromkeys(spots))
        (self.folder / "unplaced.def").write_bytes(unplaced)
        self.assertEqual(
            {name for name, cell in self.cells(self.folder / "unplaced.def").items() if cell.box is None}, {*spots}
        )

    def test_a_cell_that_no_place_can_hold_stays_and_all_others_are_repaired(self) -> None:
        self.lef.write_text(LEF.replace("END LIBRARY", HIGH))
        place = f"{2 * WIDTH + 1000} 0 N"
        high = f"- high HIGH + PLACED ( {2 * WIDTH + 1000} 0 ) N"
        self.add(high, "- more high + REGION f2")
        self.add("- new HIGH", "- other new + REGION f2")
        done = self.repair("--output", self.target)
        self.assertEqual(done.returncode, 4)
        why = "no ground of its team holds it; it stays"
        self.assertIn(f"team f2: no place can hold high: {why} at {place}\n".encode(), done.stderr)
        self.assertIn(f"team f2: no place can hold new: {why} unplaced\n".encode(), done.stderr)
        self.assertIn(b"not fully legal: 2 cells unrepaired\n", done.stderr)
        check = json.loads(subprocess.run([PROGRAM, "check", self.target, self.lef], capture_output=True).stdout)
        self.assertEqual((check["cells"], check["unplaced"]), (92, 1))
        self.assertEqual([each["cell"] for each in check["violations"]], ["high"])
        self.assertIn(f"{high} ;", self.target.read_text())
        dry = self.repair("--dry-run", "--team", "f2")
        self.assertIn(b"f2 new unplaced -> no place\n", dry.stdout)
        self.assertNotIn(b"f2 high ", dry.stdout)
        self.assertEqual(dry.returncode, 4)

    def test_a_cell_without_room_is_reported_and_unplaced(self) -> None:
        self.design.write_text(TIGHT.replace("( 1000 2000 )", "( 800 2000 )"))
        done = self.repair("--output", self.target)
        self.assertEqual(done.returncode, 4)
        gap = rb"; the widest gap of the rows near it is \d+\.\d{3} microns\n"
        self.assertRegex(done.stderr, rb"team A: no place for (two|three), which was at (0 0 FN|200 0 N)" + gap)
        self.assertEqual(self.target.read_text().count("+ UNPLACED"), 1)
        self.assertIn(b" -> no place\n", self.repair("--dry-run").stdout)

    def test_cells_that_found_no_room_go_first_in_the_next_order(self) -> None:
        self.design.write_text(TIGHT)
        self.assertEqual(self.repair("--output", self.target).returncode, 0)
        wanted = TIGHT.replace("( 200 0 ) N", "( 400 0 ) N")
        self.assertEqual(self.target.read_text(), wanted)

    def test_a_cell_on_others_ground_does_not_move_them(self) -> None:
        self.design.write_text(
            TIGHT.replace("three BUF + PLACED ( 200", "three BUF + PLACED ( 400").replace("DO 5", "DO 9")
        )
        self.add("- g INV + PLACED ( 0 0 ) N")
        done = self.repair("--dry-run")
        self.assertEqual((done.returncode, done.stdout), (0, b"- g 0 0 N -> 1000 0 N by 1000\n"), done.stderr)
        self.assertEqual(self.repair("--dry-run", "--team", "A").returncode, 4)

    def test_the_least_displacement_is_not_named_if_cells_stay_on_soft_blockages(self) -> None:
        """A repair without any cell there moves one by 1.2 microns; this one moves another by 0.1."""
        cells = "- up INV + PLACED ( 1600 100 ) N ;\n"
        cells += "".join(f"- soft{x} INV + PLACED ( {x} 0 ) N ;\n" for x in (0, 400, 800))
        head = TIGHT.partition("REGIONS")[0].replace("DO 5", "DO 10")
        soft = "BLOCKAGES 1 ; - PLACEMENT + SOFT RECT ( 0 0 ) ( 1200 2000 ) ; END BLOCKAGES"
        self.design.write_text(f"{head}COMPONENTS 4 ;\n{cells}END COMPONENTS\n{soft}\nEND DESIGN\n")
        done = self.repair("--dry-run", "--keep")
        self.assertEqual((done.returncode, done.stdout), (0, b"- up 1600 100 N -> 1600 0 N by 100\n"), done.stderr)
        self.assertIn(b"displacement in microns: mean 0.100, largest 0.100\n", done.stderr)

    def test_a_dry_run_prints_what_would_move_and_writes_nothing(self) -> None:
        before = self.cells(self.design)
        done = self.repair("--dry-run")
        self.assertEqual(done.returncode, 0)
        self.assertEqual([path.name for path in sorted(self.folder.iterdir())], ["t.def", "t.lef"])
        self.repair("--output", self.target)
        after = self.cells(self.target)
        moved = [name for name, cell in before.items() if spot_of(cell) != spot_of(after[name])]
        moves = dict(line.split(" ", 2)[1:] for line in done.stdout.decode().splitlines())
        self.assertEqual(sorted(moves), sorted(moved))
        for name, text in moves.items():
            spot = spot_of(after[name])
            assert spot
            self.assertIn(f" -> {spot.x} {spot.y} {spot.orient}", text)

    def test_a_dry_run_says_which_cells_only_turn(self) -> None:
        self.design.write_text(TIGHT.replace("( 0 0 ) FN", "( 0 0 ) FS").replace("( 200 0 )", "( 400 0 )"))
        done = self.repair("--dry-run")
        self.assertEqual((done.returncode, done.stdout), (0, b"A two 0 0 FS -> 0 0 N turned\n"), done.stderr)

    def test_the_design_itself_may_be_written_and_then_nothing_moves(self) -> None:
        self.design.chmod(0o640)
        link = self.folder / "link"
        link.symlink_to(self.design)
        self.assertEqual(self.repair("--output", link).returncode, 0)
        self.assertTrue(link.is_symlink())
        self.assertEqual(self.design.stat().st_mode & 0o777, 0o640)
        done = self.repair("--output", self.target)
        self.assertEqual((done.returncode, self.target.read_bytes()), (0, self.design.read_bytes()))
        self.assertIn(b"lefence-repair: nothing moves\n", done.stderr)

    def test_only_the_named_teams_are_repaired(self) -> None:
        before = self.cells(self.design)
        done = self.repair("--output", self.target, "--team", "f1", "--team", "-")
        self.assertEqual(done.returncode, 4)
        after = self.cells(self.target)
        for name, cell in before.items():
            if cell.team in ("f1", "-"):
                self.assertEqual((after[name].box is None, after[name].rule), (False, None))
            else:
                self.assertEqual(spot_of(after[name]), spot_of(cell))
        self.assertTrue(
            done.stderr.endswith(b"not fully legal: other teams have cells that break a rule or have no place\n")
        )
        done = self.repair("--output", self.target, "--team", "Z")
        self.assertEqual((done.returncode, done.stderr), (1, b"lefence-repair: NoTeam; team Z is not in the design\n"))

    def test_a_slow_program_has_a_progress_line_each_second(self) -> None:
        slow = self.folder / "slow"
        slow.write_text(f"#!/bin/sh\n[ $1 = repair ] && sleep 2.5\nexec '{PROGRAM}' \"$@\"\n")
        slow.chmod(0o755)
        words = ("-o", self.target, "--program", slow)
        done = self.tool_with_progress("lefence-repair", self.design, self.lef, *words)
        self.assertEqual(done.returncode, 0)
        self.assertRegex(done.stderr, rb"^(lefence-repair: .*, \d+ s\n)+lefence-repair: team ")
        self.assertIn(b"lefence-repair: the program repairs, ", done.stderr)

    def test_a_refusal_is_reported_and_no_file_remains(self) -> None:
        text = self.design.read_text()
        for broken, expected in (
            (text[:400], b"2 UnexpectedEnd line"),
            (text.replace("UNITS", "#"), b"7 NoUnits t; DEF file"),
        ):
            self.design.write_text(broken)
            done = self.repair("--output", self.target)
            self.assertEqual((done.returncode, expected in done.stderr), (1, True), done.stderr)
            self.assertEqual([path.name for path in sorted(self.folder.iterdir())], ["t.def", "t.lef"])
        for target, why in (("nowhere/x", "cannot write nowhere/x: no such folder"), (".", ".: Is a directory")):
            done = self.repair("-o", target)
            self.assertEqual((done.returncode, done.stderr.decode()), (3, f"lefence-repair: {why}\n"))

    def fails(self, script: str, expected: bytes, *words: str) -> None:
        """Checks that a repair by this script instead of the program fails with this message and leaves no file."""
        odd = self.folder / "odd"
        odd.write_text(f"#!/bin/sh\n{script}\n")
        odd.chmod(0o755)
        done = self.repair(*words, program=str(odd))
        self.assertEqual((done.returncode, expected in done.stderr), (3, True), done.stderr)
        self.assertEqual([path.name for path in sorted(self.folder.iterdir())], ["odd", "t.def", "t.lef"])

    def test_a_program_that_dies_is_reported_and_no_file_remains(self) -> None:
        for words in (("--output", str(self.target)), ("--dry-run",)):
            self.fails("kill -9 $$", b"the program ended unexpectedly with status -9\n", *words)
            self.fails("echo ok", b"the program ended unexpectedly with status 0\n", *words)
        for end, expected in (
            ("kill -9 $$", b"the program ended unexpectedly with status -9\n"),
            ("exit 0", b"the program ended unexpectedly: replies are missing\n"),
            (f"'{PROGRAM}' \"$@\" | sed 's/ok 7/no 7/'; exit 0", b"unexpected reply of the program: 'no 7"),
        ):
            self.fails(f"if [ $1 = replay ]; then\n{end}\nfi\nexec '{PROGRAM}' \"$@\"", expected, "--dry-run")


if __name__ == "__main__":
    main()
