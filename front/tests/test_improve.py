"""lefence-improve: what it prints and writes, and improvements by several runs of the program at once."""

from __future__ import annotations

import json
import re
import subprocess
from unittest import main

from support import PROGRAM, FrontCase

PIN = "PIN A DIRECTION INPUT ; PORT LAYER m1 ; RECT 0 0.9 0.2 1.1 ; END END A"
LEF = f"""SITE core CLASS CORE ; SYMMETRY Y ; SIZE 0.2 BY 2.0 ; END core
MACRO INV CLASS CORE ; SIZE 0.4 BY 2.0 ; SYMMETRY X Y ; SITE core ; {PIN} END INV
END LIBRARY
"""
# The sites of a fence in each of the two rows.
SITES = 24


def design(teams: dict[str, dict[str, str]], nets: list[str], more: str = "") -> str:
    """Two rows with a fence for each team from left to right. The cells of a team have their places relative to its
    left edge. `more` is other components.
    """
    width = 200 * SITES
    rows = "".join(
        f"ROW r{row} core 0 {row * 2000} {side} DO {len(teams) * SITES} BY 1 STEP 200 0 ;\n"
        for row, side in enumerate(("N", "FS"))
    )
    fences = "".join(
        f"- {team} ( {width * number} 0 ) ( {width * (number + 1)} 4000 ) + TYPE FENCE ;\n"
        for number, team in enumerate(teams)
    )
    cells = "".join(
        f"- {name} INV {place} ;\n" if place[0] == "+" else
        f"- {name} INV + PLACED ( {width * number + int(place.split()[0])} {place.split()[1]} ) {place.split()[2]} ;\n"
        for number, team in enumerate(teams.values()) for name, place in team.items()
    )
    groups = "".join(f"- g{team} {' '.join(cells)} + REGION {team} ;\n" for team, cells in teams.items())
    count = sum(map(len, teams.values())) + more.count(";")
    return (
        f"DESIGN t ;\nUNITS DISTANCE MICRONS 1000 ;\n{rows}REGIONS {len(teams)} ;\n{fences}END REGIONS\n"
        f"COMPONENTS {count} ;\n{cells}{more}END COMPONENTS\nGROUPS {len(teams)} ;\n{groups}END GROUPS\n"
        f"NETS {len(nets)} ;\n" + "".join(f"- n{number} {net} ;\n" for number, net in enumerate(nets))
        + "END NETS\nEND DESIGN\n"
    )


class Improvements(FrontCase):
    def setUp(self) -> None:
        super().setUp()
        self.target = self.folder / "new.def"
        self.lef.write_text(LEF)

    def improve(self, *words: str, program: str = PROGRAM) -> tuple[int, str]:
        """Improves the design. Returns the status and what is printed on standard error."""
        done = self.tool("lefence-improve", self.design, self.lef, *words, "--program", program)
        self.assertEqual(done.stdout, b"")
        return done.returncode, done.stderr.decode()

    def doubled(self, text: str) -> int:
        """The wire length of a text in half database units."""
        path = self.folder / "measured.def"
        path.write_text(text)
        output = subprocess.run([PROGRAM, "wirelength", path, self.lef], stdout=subprocess.PIPE, check=True).stdout
        path.unlink()
        return int(json.loads(output.splitlines()[-1])["doubled"])

    def shuffled(self) -> None:
        """Three teams with cells in a random order. Each is joined to the next one and to one of another team."""
        teams: dict[str, dict[str, str]] = {}
        nets = []
        for team in "ABC":
            names = [f"{team.lower()}{number}" for number in range(12)]
            places = [f"{400 * number} {2000 * row} {'FS' if row else 'N'}" for row in (0, 1) for number in range(6)]
            self.rng.shuffle(places)
            teams[team] = dict(zip(names, places))
            nets += [f"( {one} A ) ( {other} A )" for one, other in zip(names, names[1:])]
        nets += [f"( a{number} A ) ( b{number} A ) ( c{number} A )" for number in range(0, 12, 3)]
        self.design.write_text(design(teams, nets))

    def test_the_nets_become_shorter_and_the_cells_stay_legal(self) -> None:
        self.shuffled()
        before = self.doubled(self.design.read_text())
        for jobs in ("1", "2", "3", "0"):
            status, printed = self.improve("-o", str(self.target), "--jobs", jobs)
            self.assertEqual(status, 0)
            after = self.doubled(self.target.read_text())
            self.assertLess(after, before)
            self.assertIn(f"wire length: {before / 2000:.3f} -> {after / 2000:.3f} microns (-", printed)
            self.assertEqual(len(re.findall(r"team [ABC]: \d+ moved, \d+ turned; mean ", printed)), 3)
            check = subprocess.run([PROGRAM, "check", self.target, self.lef], stdout=subprocess.PIPE)
            self.assertEqual(check.returncode, 0, check.stdout)

    def test_one_run_writes_what_the_program_writes(self) -> None:
        self.shuffled()
        words = ["--within", "2", "--rounds", "1", "--effort", "5", "--density", "90", "--team", "B", "--team", "-"]
        self.improve("-o", str(self.target), *words)
        plain = self.folder / "plain.def"
        words += ["--export", str(plain)]
        subprocess.run([PROGRAM, "improve", self.design, self.lef, *words], stdout=subprocess.DEVNULL, check=True)
        self.assertEqual(self.target.read_bytes(), plain.read_bytes())
        self.assertNotEqual(plain.read_bytes(), self.design.read_bytes())

    def test_moves_that_are_good_alone_and_bad_together_are_left_out(self) -> None:
        """Each cell would go to the row of the other, where it is two sites farther away."""
        teams = {"A": {"a": "4400 0 N"}, "B": {"b": "0 2000 FS"}}
        fixed = "- x INV + FIXED ( 4400 2000 ) FS ;\n- y INV + FIXED ( 4800 0 ) N ;\n"
        self.design.write_text(design(teams, ["( a A ) ( b A )"], fixed))
        before = self.doubled(self.design.read_text())
        alone = [self.improve("-o", str(self.target), "--team", team) for team in "AB"]
        self.assertEqual([f"team {team}: 1 moved, " in said for team, (_, said) in zip("AB", alone)], [True, True])
        status, printed = self.improve("-o", str(self.target), "--jobs", "2")
        self.assertEqual(status, 0)
        moves = r"moves, since its moves and those of other teams would make the nets longer\n"
        self.assertRegex(printed, r"team A: 1 moved, .*\n.*team B: nothing " + moves)
        self.assertLess(self.doubled(self.target.read_text()), before)

    def test_a_team_that_is_not_legal_is_skipped(self) -> None:
        self.shuffled()
        text = self.design.read_text()
        self.design.write_text(re.sub(r"(- b3 INV \+ PLACED \( \d+)", r"\g<1>1", text))
        for jobs in ("1", "3"):
            status, printed = self.improve("--dry-run", "--jobs", jobs)
            self.assertEqual(status, 4)
            self.assertIn("team B is skipped: one of its cells has no place or breaks a rule\n", printed)
            self.assertTrue(printed.endswith("not fully legal: lefence-repair moves cells to legal places\n"))
            self.assertFalse(self.target.exists())

    def test_a_run_that_fails_ends_the_others_and_leaves_no_file(self) -> None:
        self.shuffled()
        odd = self.folder / "odd"
        odd.write_text(
            '#!/bin/sh\ncase "$*" in improve*--team=B*) kill -9 $$ ;; improve*) exec sleep 3600 ;; esac\n'
            f"exec '{PROGRAM}' \"$@\"\n"
        )
        odd.chmod(0o755)
        died = (3, "lefence-improve: the program ended unexpectedly with status -9\n")
        self.assertEqual(self.improve("-o", str(self.target), "--jobs", "3", program=str(odd)), died)
        self.assertEqual([path.name for path in sorted(self.folder.iterdir())], ["odd", "t.def", "t.lef"])
        status, printed = self.improve("-o", str(self.target), "--jobs", "2", "--team", "Z")
        self.assertEqual((status, printed), (1, "lefence-improve: NoTeam; team Z is not in the design\n"))


if __name__ == "__main__":
    main()
