"""What `repair` writes: the report, the exported text, the commands, the status and the message.

Contracts fix the numbers of the report. They do not see the contents of real files, and do not say which places a
repair finds.
"""

from __future__ import annotations

import json
import os
import re
import subprocess
import unittest
from pathlib import Path

from program import DEF, DENSITY_KEYS, LEF, PATIENCE, PROGRAM, InFolder, Start, densities, preloading, run

# The keys of the line of a team, and of the line of all teams, in order.
TEAM_KEYS = [
    "average", "cells", "gaps", "impossible", "kept", "largest", "least_largest", "left", "mean", "mean_by_height",
    "moved", "placed", "pushed", "team", "total", "turned",
]
ALL_KEYS = [
    "cells", *DENSITY_KEYS, "kept", "largest", "least_largest", "left_cells", "legal", "mean", "moved", "placed",
    "pushed", "teams", "total", "turned",
]
# The cells of team A, with a2 one site right of a1 and overlapping it, and the other cells at legal places.
PLACED_CELLS = {
    "- a1 INV + SOURCE DIST ;": "- a1 INV + SOURCE DIST + PLACED ( 0 0 ) N ;",
    "- a2 INV + UNPLACED ;": "- a2 INV + PLACED ( 200 0 ) N ;",
    "- a3 DBL + WEIGHT 3 ;": "- a3 DBL + WEIGHT 3 + PLACED ( 2000 0 ) N ;",
    "- b1 INV ;": "- b1 INV + PLACED ( 6000 0 ) N ;",
    "- g1 INV ;": "- g1 INV + PLACED ( 4400 0 ) N ;",
}
# A fence of A that has room for one of its cells.
NARROW = {"- A ( 0 0 ) ( 4000 4000 ) + TYPE FENCE ;": "- A ( 0 0 ) ( 400 2000 ) + TYPE FENCE ;"}

# A row with free runs of 3, 15 and 4 sites between cells that do not move. Three cells of 8, 5 and 3 sites are in the
# widest run and overlap there. The narrowest has to move, and fits only into the run of 3 sites.
GAPS = {"w8": (8, 11), "s4": (4, 28), "w5": (5, 12), "s5": (5, 3), "w3": (3, 12), "t5": (5, 23)}

# Two cells without a place. One is in a net with a cell at the right end of the row.
NETTED_LEF = """VERSION 5.8 ;
SITE core CLASS CORE ; SYMMETRY Y ; SIZE 0.2 BY 2.0 ; END core
MACRO INV CLASS CORE ; SIZE 0.4 BY 2.0 ; SYMMETRY X Y ; SITE core ;
  PIN A PORT LAYER m1 ; RECT 0.1 0.9 0.3 1.1 ; END END A
END INV
END LIBRARY
"""
NETTED_DEF = """VERSION 5.8 ;
DESIGN w ;
UNITS DISTANCE MICRONS 1000 ;
ROW r core 0 0 N DO 100 BY 1 STEP 200 0 ;
COMPONENTS 3 ;
- far INV + PLACED ( 16000 0 ) N ;
- new INV ;
- lone INV ;
END COMPONENTS
NETS 1 ;
- n ( far A ) ( new A ) ;
END NETS
END DESIGN
"""

# Two rows that are far apart. The cells a, b and c overlap in the lower one, which has room for one of them.
FAR_LEF = """VERSION 5.8 ;
SITE core CLASS CORE ; SYMMETRY Y ; SIZE 0.2 BY 2.0 ; END core
MACRO WIDE CLASS CORE ; SIZE 0.6 BY 2.0 ; SYMMETRY X Y ; SITE core ; END WIDE
END LIBRARY
"""
FAR_DEF = """VERSION 5.8 ;
DESIGN w ;
UNITS DISTANCE MICRONS 1000 ;
ROW low core 0 0 N DO 5 BY 1 STEP 200 0 ;
ROW high core 0 40000 N DO 6 BY 1 STEP 200 0 ;
COMPONENTS 3 ;
- a WIDE + PLACED ( 0 0 ) N ;
- b WIDE + PLACED ( 200 0 ) N ;
- c WIDE + PLACED ( 0 0 ) N ;
END COMPONENTS
END DESIGN
"""


def of_gaps(site: dict[str, int]) -> tuple[str, str]:
    """The LEF and DEF texts of that row, with its cells at these sites."""
    macros = "".join(
        f"MACRO W{it} CLASS CORE ; SIZE {0.2 * it:.1f} BY 2.0 ; SYMMETRY X Y ; SITE core ; END W{it}\n"
        for it in (3, 4, 5, 8)
    )
    cells = "".join(f"- {name} W{width} + PLACED ( {200 * site[name]} 0 ) N ;\n" for name, (width, _) in GAPS.items())
    lef = f"SITE core CLASS CORE ; SYMMETRY Y ; SIZE 0.2 BY 2.0 ; END core\n{macros}END LIBRARY\n"
    rows = "DESIGN w ;\nUNITS DISTANCE MICRONS 1000 ;\nROW r0 core 0 0 N DO 36 BY 1 STEP 200 0 ;\n"
    return lef, f"VERSION 5.8 ;\n{rows}COMPONENTS {len(GAPS)} ;\n{cells}END COMPONENTS\nEND DESIGN\n"


def tight(sites: int, a1: int) -> dict[str, str]:
    """A fence of A around a3 and `sites` sites of a row to its left, with a1 at site `a1`."""
    left = 200 * sites
    return {
        **PLACED_CELLS,
        "- A ( 0 0 ) ( 4000 4000 ) + TYPE FENCE ;":
            f"- A ( 0 0 ) ( {left} 2000 ) ( {left} 0 ) ( {left + 600} 4000 ) + TYPE FENCE ;",
        "- a1 INV + SOURCE DIST ;": f"- a1 INV + SOURCE DIST + PLACED ( {200 * a1} 0 ) N ;",
        "- a3 DBL + WEIGHT 3 ;": f"- a3 DBL + WEIGHT 3 + PLACED ( {left} 0 ) N ;",
    }


def design(changes: dict[str, str]) -> str:
    """The text of the small design with lines replaced."""
    text = DEF.read_text()
    for old, new in changes.items():
        assert text.count(old) == 1, old
        text = text.replace(old, new)
    return text


def half_a_site_off(cells: int) -> str:
    """A design without fences. Each of its cells is half a site off, with room next to it."""
    rows = [
        f"ROW r{row} core 0 {2_000 * row} {'FS' if row % 2 else 'N'} DO 200 BY 1 STEP 200 0 ;\n"
        for row in range(cells // 60 + 1)
    ]
    places = [
        f"- c{cell} INV + PLACED ( {600 * (cell % 60) + 100} {2_000 * (cell // 60)} ) N ;\n" for cell in range(cells)
    ]
    header = "VERSION 5.8 ;\nDESIGN w ;\nUNITS DISTANCE MICRONS 1000 ;\n"
    return "".join([header, *rows, f"COMPONENTS {cells} ;\n", *places, "END COMPONENTS\nEND DESIGN\n"])


class Repairs(InFolder):
    """Repairs of the small design, in their own folder."""

    def setUp(self) -> None:
        super().setUp()
        self.text = self.folder / "old.def"
        self.new = self.folder / "new.def"
        self.lines = self.folder / "lines.txt"

    def repair(self, changes: dict[str, str], *words: str, note: str = "") -> tuple[int, list[dict[str, object]]]:
        """Repairs the design. Returns the status and the lines of the report. Only the note is written on standard
        error."""
        self.text.write_text(design(changes))
        status, written, said = run(["repair", str(self.text), str(LEF), *words])
        self.assertEqual(said, note)
        report = [json.loads(line) for line in written.splitlines()]
        self.assertEqual([list(line) for line in report], [TEAM_KEYS] * (len(report) - 1) + [ALL_KEYS])
        return status, report

    def alone(self) -> str:
        """The note that the exported text lacks working places."""
        return f"lefence: {self.new} has the committed places alone: --export-working FILE writes the others\n"

    def check(self, text: Path) -> int:
        """The status of a check of this DEF text."""
        return run(["check", str(text), str(LEF)])[0]

    def test_one_that_takes_its_time_says_how_far_it_is(self) -> None:
        self.text.write_text(design({}))
        words = ["repair", str(self.text), str(LEF), "--lines", str(self.lines)]
        hastened = {**preloading("hasten.c", self.folder), "HASTEN": "15000"}
        slowly = run(words, start=Start(environment=hastened))
        teams = [line.split()[1] for line in self.lines.read_text().splitlines()]
        progress = 'lefence: repairing "{}", team {} of 3: {} commands so far\n'.format
        begun = progress("A", 1, 0) + progress("B", 2, teams.count("A"))
        begun += progress("-", 3, teams.count("A") + teams.count("B"))
        self.assertEqual(slowly, (0, run(words)[1], begun))

    def test_on_a_terminal_it_says_how_far_it_is_after_two_seconds(self) -> None:
        self.text.write_text(design({}))
        hastened = {**preloading("hasten.c", self.folder), "HASTEN": "2500"}
        words = [str(PROGRAM), "repair", str(self.text), str(LEF)]
        control, terminal = os.openpty()
        with open(control, "rb", buffering=0) as screen:
            ran = subprocess.run(words, stdout=subprocess.PIPE, stderr=terminal, env=hastened, timeout=PATIENCE)
            # (of a terminal that is closed and empty nothing can be read)
            os.write(terminal, b"end\n")
            os.close(terminal)
            written = b""
            while not written.endswith(b"end\r\n"):
                written += screen.read(1_000)
            said = written.decode().splitlines()
        begun = [f'lefence: repairing "{team}", team {number} of 3' for number, team in enumerate(("A", "B", "-"), 1)]
        self.assertEqual((ran.returncode, [line.rpartition(":")[0] or line for line in said]), (0, [*begun, "end"]))
        self.assertEqual(run(words[1:], start=Start(environment=hastened))[2], "")

    def test_it_says_the_whole_name_of_a_team(self) -> None:
        name = "team_of_a_long_name"
        fence = "- A ( 0 0 ) ( 4000 4000 ) + TYPE FENCE ;"
        changes = {fence: fence.replace("A", name), "- ga a* + REGION A ;": f"- ga a* + REGION {name} ;"}
        self.text.write_text(design(changes))
        hastened = {**preloading("hasten.c", self.folder), "HASTEN": "15000"}
        said = run(["repair", str(self.text), str(LEF)], start=Start(environment=hastened))[2]
        self.assertEqual(said.splitlines()[0], f'lefence: repairing "{name}", team 1 of 3: 0 commands so far')

    def test_one_of_a_large_team_says_how_far_it_is_every_ten_seconds(self) -> None:
        # The clock is read once in 1,024 commands. It is then 2.5 seconds later, or a little more if the test's
        # program reads it for itself.
        self.text.write_text(half_a_site_off(4_400))
        hastened = {**preloading("hasten.c", self.folder), "HASTEN": "2500"}
        words = ["repair", str(self.text), str(LEF), "--lines", str(self.lines)]
        status, written, said = run(words, start=Start(environment=hastened))
        self.assertEqual((status, json.loads(written.splitlines()[0])["cells"]), (0, 4_400))
        self.assertGreater(len(self.lines.read_text().splitlines()), 4_096)
        begin, end = 'lefence: repairing "-", team 1 of 1: ', " commands so far"
        counts = [int(line.removeprefix(begin).removesuffix(end)) for line in said.splitlines()]
        within = [count for count in counts if count]
        self.assertEqual([count for count in within if count % 1_024], [])
        self.assertTrue(within)
        self.assertEqual([(old, new) for old, new in zip(within, within[1:]) if new - old < 2_048], [])

    def test_one_of_50_000_cells_takes_seconds(self) -> None:
        # (an unproved program, as tools/planted.py builds it, takes minutes)
        text = half_a_site_off(50_000)
        self.text.write_text(
            text.replace("COMPONENTS 50000 ;", "COMPONENTS 50001 ;").replace("END COMP", "- d DBL ;\nEND COMP")
        )
        status, written, said = run(["repair", str(self.text), str(LEF)], start=Start(patience=300))
        self.assertEqual((status, [line for line in said.splitlines() if " commands so far" not in line]), (0, []))
        last = json.loads(written.splitlines()[-1])
        self.assertEqual((last["cells"], last["left_cells"], last["least_largest"]), (50_001, 0, 100))

    def test_a_cell_that_overlaps_moves(self) -> None:
        status, report = self.repair(PLACED_CELLS, "--export", str(self.new))
        self.assertEqual((status, self.check(self.new)), (0, 0))
        self.assertEqual([line["team"] for line in report[:-1]], ["A", "B", "-"])
        first, last = report[0], report[-1]
        self.assertEqual((first["cells"], first["kept"], first["placed"], first["left"]), (2, 1, 0, []))
        self.assertEqual([(line["moved"], line["turned"]) for line in report], [(1, 0), (0, 0), (0, 0), (1, 0)])
        self.assertEqual([(line["total"], line["mean"]) for line in report], [(200, 200), (0, 0), (0, 0), (200, 200)])
        self.assertEqual(
            (last["cells"], last["kept"], last["teams"], last["left_cells"], last["legal"]), (2, 3, 3, 0, True)
        )
        self.assertEqual(last["total"], first["total"])

    def test_the_report_has_the_density_before_and_after(self) -> None:
        # (a3 is on b1 at first, so both are counted there)
        crowded = {**PLACED_CELLS, "- a3 DBL + WEIGHT 3 ;": "- a3 DBL + WEIGHT 3 + PLACED ( 6000 0 ) N ;"}
        _, report = self.repair(crowded, "--export", str(self.new))
        self.assertEqual({key: report[-1][key] for key in DENSITY_KEYS}, densities(self.text, self.new, LEF))

    def test_a_cell_that_faces_the_wrong_way_turns(self) -> None:
        legal = {**PLACED_CELLS, "- a2 INV + UNPLACED ;": "- a2 INV + PLACED ( 400 0 ) N ;"}
        status, report = self.repair({**legal, "- b1 INV ;": "- b1 INV + PLACED ( 6000 2000 ) N ;"})
        self.assertEqual((status, [line["cells"] for line in report]), (0, [0, 1, 0, 1]))
        self.assertEqual([(line["moved"], line["turned"]) for line in report], [(0, 0), (0, 1), (0, 0), (0, 1)])

    def test_a_cell_that_moves_faces_as_it_did(self) -> None:
        status, report = self.repair({**PLACED_CELLS, "- a2 INV + UNPLACED ;": "- a2 INV + PLACED ( 200 0 ) FN ;"})
        self.assertEqual((status, report[0]["moved"], report[0]["turned"]), (0, 1, 0))

    def test_cells_left_of_the_origin_stay_near(self) -> None:
        # d is higher than a row, and s is not.
        rows = "".join(
            f"ROW r{row} core -8000 {2_000 * row} {facing} DO 80 BY 1 STEP 200 0 ;\n"
            for row, facing in enumerate(("N", "FS"))
        )
        self.text.write_text(
            f"VERSION 5.8 ;\nDESIGN w ;\nUNITS DISTANCE MICRONS 1000 ;\n{rows}COMPONENTS 2 ;\n"
            "- d DBL + PLACED ( -4100 0 ) N ;\n- s INV + PLACED ( -6100 0 ) N ;\nEND COMPONENTS\nEND DESIGN\n"
        )
        status, written, said = run(["repair", str(self.text), str(LEF)])
        self.assertEqual((status, said), (0, ""))
        last = json.loads(written.splitlines()[-1])
        self.assertEqual((last["moved"], last["total"], last["largest"]), (2, 200, 100))

    def test_a_cell_of_a_long_name_moves(self) -> None:
        name = "b" * 1_024
        changes = {**PLACED_CELLS, "- b1 INV ;": f"- {name} INV + PLACED ( 6100 0 ) N ;", "- gb b1 ": "- gb b* "}
        status, report = self.repair(changes, "--lines", str(self.lines))
        self.assertEqual((status, report[1]["cells"], report[1]["left"]), (0, 1, []))
        self.assertIn(f"place B 0 {name} ", self.lines.read_text())

    def test_each_session_is_closed_at_the_end(self) -> None:
        for changes in (PLACED_CELLS, {**PLACED_CELLS, **NARROW}):
            self.repair(changes, "--lines", str(self.lines))
            lines = self.lines.read_text().splitlines()
            for team in ("A", "B", "-"):
                own = [line for line in lines if line.split()[1] == team]
                self.assertEqual((own[0], own[-1]), (f"open {team}", f"close {team} 0"))

    def test_gaps_are_those_of_the_cells_team_in_rows_near_it(self) -> None:
        # b1 is between two rows. It needs three sites, and each row of its fence has two.
        changes = {
            **tight(4, 1),
            "- a2 INV + UNPLACED ;": "- a2 INV + PLACED ( 600 2000 ) FS ;",
            "- B ( 6000 0 ) ( 10000 8000 ) + TYPE FENCE ;": "- B ( 6000 0 ) ( 6400 8000 ) + TYPE FENCE ;",
            "- b1 INV ;": "- b1 DBL + PLACED ( 6000 3000 ) N ;",
        }
        status, report = self.repair(changes, "--keep")
        self.assertEqual((status, [line["left"] for line in report[:-1]]), (4, [["a2"], ["b1"], []]))
        self.assertEqual([line["gaps"] for line in report[:-1]], [[200], [400], []])

    def test_gaps_are_near_the_working_places_of_a_state(self) -> None:
        # In the state, the cells a and b are in the upper row, or unplaced after a commit there. With the padding only
        # one of them fits there. Next to it two sites are free, and next to c, near the anchor of the team, one.
        lef, state = self.folder / "far.lef", self.folder / "far.state"
        lef.write_text(FAR_LEF)
        self.text.write_text(FAR_DEF)
        texts = [str(self.text), str(lef)]
        places = "open -\nplace - 0 a 0 40000 N\nplace - 0 b 600 40000 N\n"
        for more, gaps in ("", [400]), ("commit - 0\nunplace - 0 a\nunplace - 0 b\n", [200]):
            with self.subTest(more):
                done = run(["replay", *texts, "--save", str(state)], f"{places}{more}pad - 0 1\n")
                self.assertEqual((done[0], done[2]), (0, ""))
                _, written, _ = run(["repair", *texts, "--state", str(state)])
                report = [json.loads(line) for line in written.splitlines()]
                self.assertEqual((len(report[0]["left"]), report[0]["gaps"]), (1, gaps))

    def test_cells_without_a_place_get_one(self) -> None:
        status, report = self.repair({}, "--export", str(self.new))
        self.assertEqual((status, self.check(self.text), self.check(self.new)), (0, 4, 0))
        self.assertEqual([line["placed"] for line in report], [3, 1, 1, 5])

    def near_nets(self, text: str, *words: str) -> tuple[int, str, str]:
        """Repairs this text over the LEF text with pins. Returns the status and what was written."""
        lef = self.folder / "netted.lef"
        lef.write_text(NETTED_LEF)
        self.text.write_text(text)
        return run(["repair", str(self.text), str(lef), "--export", str(self.new), *words])

    def test_cells_without_a_place_go_near_their_nets(self) -> None:
        for words, x_of_new in (((), (0, 400)), (("--near-nets",), (15600, 16400))):
            with self.subTest(words):
                status, written, said = self.near_nets(NETTED_DEF, *words)
                self.assertEqual((status, said), (0, ""), written)
                found = dict(re.findall(r"^- (\w+) INV .*PLACED \( (\d+) 0 \)", self.new.read_text(), re.MULTILINE))
                self.assertEqual(found["far"], "16000")
                self.assertIn(int(found["new"]), x_of_new)
                self.assertIn(int(found["lone"]), (0, 400))

    def test_nets_are_read_only_if_cells_go_near_them(self) -> None:
        text = NETTED_DEF.replace("- n ( far A ) ( new A ) ;", "- n x ;")
        self.assertEqual(self.near_nets(text)[0], 0)
        line = text[: text.index("- n x")].count("\n") + 1
        said = f"lefence: 3 Unexpected line {line}\nlefence: DEF file {self.text}, line {line}: - n x ;\n"
        self.assertEqual(self.near_nets(text, "--near-nets"), (1, "", said))
        # A state that cannot be read is reported first.
        status, written, said = self.near_nets(text, "--near-nets", "--state", str(self.folder / "missing"))
        self.assertEqual((status, written), (3, ""))
        self.assertIn("state file", said)

    def test_no_cell_goes_farther_than_is_allowed(self) -> None:
        # b1 is three row heights left of its fence, where it overlaps a1.
        changes = {**PLACED_CELLS, "- b1 INV ;": "- b1 INV + PLACED ( 0 0 ) N ;"}
        for rows, status, left, largest in (("3", 0, [], 6000), ("2", 4, ["b1"], 0)):
            with self.subTest(rows):
                done, report = self.repair(changes, "--within", rows)
                self.assertEqual((done, report[1]["left"], report[1]["largest"]), (status, left, largest))
                self.assertEqual(report[0]["left"], [])

    def test_more_effort_makes_no_longer_displacements(self) -> None:
        lef, text = of_gaps({name: site for name, (_, site) in GAPS.items()})
        totals = []
        efforts: list[list[str]] = [["--effort=0"], ["--effort=0"], [], ["--effort=50"], ["--balance-heights"]]
        for effort in efforts:
            (self.folder / "gaps.lef").write_text(lef)
            self.text.write_text(text)
            words = ["repair", str(self.text), str(self.folder / "gaps.lef"), "--export", str(self.new), *effort]
            status, written, said = run(words)
            self.assertEqual((status, said), (0, ""), written)
            totals.append(json.loads(written.splitlines()[-1])["total"])
        self.assertEqual(totals[0], totals[1])
        self.assertLessEqual(totals[3], totals[0])

    def test_the_lines_do_the_repair_again(self) -> None:
        self.assertEqual(self.repair(PLACED_CELLS, "--export", str(self.new), "--lines", str(self.lines))[0], 0)
        again = self.folder / "again.def"
        status, replies, said = run(
            ["replay", str(self.text), str(LEF), "--export", str(again)], self.lines.read_text()
        )
        self.assertEqual((status, said), (0, ""))
        self.assertTrue(all(reply.split()[0] == "ok" for reply in replies.splitlines()), replies)
        self.assertEqual(again.read_text(), self.new.read_text())

    def test_only_teams_that_are_named_change(self) -> None:
        status, report = self.repair({}, "--team", "B", "--team=B", "--export", str(self.new))
        self.assertEqual((status, [line["team"] for line in report[:-1]]), (4, ["B"]))
        old, new = self.text.read_text().splitlines(), self.new.read_text().splitlines()
        self.assertEqual([a.split()[1] for a, b in zip(old, new, strict=True) if a != b], ["b1"])

    def test_legal_cells_stay(self) -> None:
        for more in ("", "--keep"):
            with self.subTest(more):
                self.repair(PLACED_CELLS, "--export", str(self.new), *more.split())
                new = self.new.read_text()
                for name in ("a3", "b1", "g1"):
                    line = next(line for line in self.text.read_text().splitlines() if line.startswith(f"- {name} "))
                    self.assertIn(line, new)

    def test_a_legal_cell_moves_where_another_would_be_left(self) -> None:
        for clause in ("UNPLACED", "PLACED ( 600 2000 ) FS"):
            changes = {**tight(4, 1), "- a2 INV + UNPLACED ;": f"- a2 INV + {clause} ;"}
            for more, status, left, pushed in (("--keep", 4, ["a2"], 0), ("", 0, [], 1)):
                with self.subTest(clause + more):
                    note = self.alone() if status and clause != "UNPLACED" else ""
                    done, report = self.repair(changes, "--export", str(self.new), *more.split(), note=note)
                    self.assertEqual((done, self.check(self.new)), (status, status))
                    self.assertEqual(
                        (report[0]["left"], report[0]["pushed"], report[-1]["pushed"]), (left, pushed, pushed)
                    )
                    self.assertEqual(report[0]["gaps"], [200] if left else [])

    def test_a_legal_cell_stays_where_that_helps_nobody(self) -> None:
        clause = "- a1 INV + SOURCE DIST ;"
        changes = {**tight(3, 0), clause: clause, "- a2 INV + UNPLACED ;": "- a2 INV + PLACED ( 0 0 ) N ;"}
        status, report = self.repair(changes, "--lines", str(self.lines))
        self.assertEqual((status, report[0]["left"], report[0]["kept"], report[0]["pushed"]), (4, ["a1"], 2, 0))
        last = [line for line in self.lines.read_text().splitlines() if " a2 " in line][-1]
        self.assertEqual(last, "place A 0 a2 0 0 N")

    def test_the_widest_goes_first_where_another_order_leaves_it(self) -> None:
        # In another order w8 and w3 stay in the widest run, and w5 finds no room next to cells that do not move.
        begin = {name: site for name, (_, site) in GAPS.items()}
        lef, (widths, clause) = self.folder / "gaps.lef", of_gaps(begin)
        lef.write_text(widths)
        self.text.write_text(clause)
        status, written, said = run(["repair", str(self.text), str(lef), "--keep", "--export", str(self.new)])
        self.assertEqual((status, said), (0, ""))
        self.assertEqual(self.new.read_text(), of_gaps({**begin, "w8": 15, "w5": 10, "w3": 0})[1])
        self.assertEqual([json.loads(line)["total"] for line in written.splitlines()], [3600, 3600])

    def test_all_cells_may_move(self) -> None:
        status, report = self.repair(PLACED_CELLS, "--all", "--export", str(self.new))
        self.assertEqual((status, self.check(self.new)), (0, 0))
        self.assertEqual(report[-1]["left_cells"], 0)

    def test_a_cell_without_room_is_named_and_its_team_is_as_it_was(self) -> None:
        words = ["--export", str(self.new), "--lines", str(self.lines)]
        status, report = self.repair({**PLACED_CELLS, **NARROW}, *words, note=self.alone())
        self.assertEqual(status, 4)
        left = report[0]["left"]
        assert isinstance(left, list)
        self.assertTrue(left and set(left) <= {"a1", "a2", "a3"}, left)
        self.assertEqual((report[-1]["left_cells"], report[-1]["legal"]), (len(left), False))
        self.assertEqual(self.new.read_text(), self.text.read_text())
        self.assertNotIn("commit A", self.lines.read_text())

    def test_a_team_that_is_not_in_the_design(self) -> None:
        self.text.write_text(design(PLACED_CELLS))
        words = ["repair", str(self.text), str(LEF), "--team", "A", "--team", "x\ty", "--export", str(self.new)]
        said = "lefence: NoTeam\nlefence: team x\\x09y is not in the design\n"
        self.assertEqual(run(words), (1, "", said))
        self.assertEqual(self.names(), ["old.def"])

    def test_files_that_cannot_be_written_are_reported_before_the_work(self) -> None:
        self.text.write_text(design(PLACED_CELLS))
        missing = self.folder / "no" / "file"
        kinds = {"export": "export", "export-working": "working export", "lines": "lines", "save": "state"}
        for option, word in kinds.items():
            words = ["repair", str(self.text), str(LEF), f"--{option}", str(missing)]
            said = f"lefence: File\nlefence: {word} file {missing} cannot be written: there is no such folder\n"
            self.assertEqual(run(words), (3, "", said))
        self.assertEqual(self.names(), ["old.def"])

    def test_the_first_of_the_files_that_cannot_be_written_is_reported(self) -> None:
        self.text.write_text(design(PLACED_CELLS))
        kinds = {"export": "export", "export-working": "working export", "lines": "lines", "save": "state"}
        missing = {option: self.folder / "no" / option for option in kinds}
        options = list(kinds)
        for number, option in enumerate(options):
            words = ["repair", str(self.text), str(LEF)]
            for later in reversed(options[number:]):
                words += [f"--{later}", str(missing[later])]
            path = f"{kinds[option]} file {missing[option]}"
            said = f"lefence: File\nlefence: {path} cannot be written: there is no such folder\n"
            self.assertEqual(run(words), (3, "", said))

    def test_places_of_any_team_that_are_not_committed_are_noted(self) -> None:
        # b1 and b2 overlap, and the fence of B has room for one of them.
        cell = "- b1 INV ;"
        changes = {
            **PLACED_CELLS,
            cell: "- b1 INV + PLACED ( 6000 0 ) N ;\n- b2 INV + PLACED ( 6200 0 ) N ;",
            "COMPONENTS 5 ;": "COMPONENTS 6 ;",
            "- gb b1 + REGION B ;": "- gb b* + REGION B ;",
            "- B ( 6000 0 ) ( 10000 8000 ) + TYPE FENCE ;": "- B ( 6000 0 ) ( 6400 2000 ) + TYPE FENCE ;",
        }
        status, report = self.repair(changes, "--export", str(self.new), note=self.alone())
        self.assertEqual((status, report[-1]["left_cells"]), (4, 1))
        self.assertIn(report[1]["left"], (["b1"], ["b2"]))

    def test_the_working_places_are_written_if_a_team_cannot_be_committed(self) -> None:
        working = self.folder / "working.def"
        words = ["--export", str(self.new), "--export-working", str(working), "--lines", str(self.lines)]
        note = f"lefence: {working} has working places that are not committed\n"
        status, report = self.repair({**PLACED_CELLS, **NARROW}, *words, note=note)
        self.assertEqual((status, self.new.read_text()), (4, self.text.read_text()))
        saved = self.folder / "w.state"
        done = run(["replay", str(self.text), str(LEF), "--save", str(saved)], self.lines.read_text())
        self.assertEqual((done[0], done[2]), (0, ""))
        self.assertEqual(
            run(["check", str(working), str(LEF)]), run(["check", str(self.text), str(LEF), "--state", str(saved)])
        )
        self.assertEqual(report[0]["left"], ["a1", "a3"])
        self.assertEqual(report[0]["impossible"], [None, "wider than every segment"])
        lines = working.read_text().splitlines()
        for name, clause in (("a1", "+ UNPLACED"), ("a3", "+ PLACED ( 2000 0 ) N")):
            self.assertIn(clause, next(line for line in lines if line.startswith(f"- {name} ")))
        self.assertNotEqual(working.read_text(), self.text.read_text())

    def test_a_cell_that_no_place_can_hold_stays_and_nobody_is_put_on_its_ground(self) -> None:
        macros = {"TALL": "0.6 BY 26.0", "WIDE": "9.0 BY 2.0", "INV": "0.4 BY 2.0"}
        sizes = "".join(
            f"MACRO {name} CLASS CORE ; SIZE {size} ; SYMMETRY X Y ; SITE core ; END {name}\n"
            for name, size in macros.items()
        )
        lef, working = self.folder / "tall.lef", self.folder / "working.def"
        lef.write_text(f"SITE core CLASS CORE ; SYMMETRY Y ; SIZE 0.2 BY 2.0 ; END core\n{sizes}END LIBRARY\n")
        rows = "".join(
            f"ROW r{row} core 0 {2000 * row} {('N', 'FS')[row % 2]} DO 8 BY 1 STEP 200 0 ;\n" for row in range(14)
        )
        tall = "- t TALL + PLACED ( 600 0 ) N ;\n"
        cells = "".join(f"- c{number} INV + PLACED ( {600 + 100 * number} 2000 ) N ;\n" for number in range(6))
        head = f"VERSION 5.8 ;\nDESIGN w ;\nUNITS DISTANCE MICRONS 1000 ;\n{rows}"
        self.text.write_text(
            f"{head}COMPONENTS 8 ;\n{tall}{cells}- w WIDE ;\nEND COMPONENTS\nEND DESIGN\n"
        )
        words = ["repair", str(self.text), str(lef), "--export", str(self.new), "--export-working", str(working)]
        status, written, _ = run(words)
        line = json.loads(written.splitlines()[0])
        self.assertEqual((status, line["left"]), (4, ["t", "w"]))
        self.assertEqual(line["impossible"], ["not 1 to 8 rows high", "wider than every segment"])
        self.assertEqual(self.new.read_text(), self.text.read_text())
        after = working.read_text()
        self.assertIn(tall, after)
        spots = [int(found) for found in re.findall(r"- c\d INV \+ PLACED \( (\d+) ", after)]
        self.assertEqual((len(spots), [x for x in spots if 200 < x < 1200]), (6, []))
        broken = json.loads(run(["check", str(working), str(lef)])[1].splitlines()[0])
        self.assertEqual([each["cell"] for each in broken["violations"]], ["t"])

    def test_the_working_places_of_a_legal_design_are_the_committed_ones(self) -> None:
        working = self.folder / "working.def"
        status, _ = self.repair(PLACED_CELLS, "--export", str(self.new), "--export-working", str(working))
        self.assertEqual((status, working.read_text()), (0, self.new.read_text()))
        self.assertEqual(self.names(), ["new.def", "old.def", "working.def"])

    def test_a_repair_begins_in_a_state_and_saves_its_own(self) -> None:
        self.text.write_text(design(PLACED_CELLS))
        before, after, again = (self.folder / name for name in ("before.state", "after.state", "again.state"))
        texts = [str(self.text), str(LEF)]
        # in the state alone a2 is legal, 2 sites away from a1, and b1 has no place
        lines = "open A\npad A 0 2\nplace A 0 a2 800 0 N\nopen B\nunplace B 0 b1\nclose A 0\n"
        done = run(["replay", *texts, "--save", str(before)], lines)
        self.assertEqual((done[0], done[2]), (0, ""))
        words = ["--state", str(before), "--lines", str(self.lines), "--export", str(self.new), "--save", str(after)]
        status, written, said = run(["repair", *texts, *words])
        self.assertEqual((status, said), (0, ""))
        report = [json.loads(line) for line in written.splitlines()]
        self.assertEqual([(line["team"], line["placed"]) for line in report[:-1]], [("A", 0), ("B", 1), ("-", 0)])
        # the lines lead from that state to the saved one
        words = ["--state", str(before), "--save", str(again)]
        done = run(["replay", *texts, *words], self.lines.read_text())
        self.assertEqual((done[0], done[2]), (0, ""))
        self.assertEqual(again.read_text(), after.read_text())
        committed = run(["check", *texts, "--state", str(after), "--committed"])
        self.assertEqual(committed, run(["check", str(self.new), str(LEF)]))
        # the state itself is replaced
        words = ["--state", str(before), "--save", str(before)]
        self.assertEqual(run(["repair", *texts, *words])[0], 0)
        self.assertEqual(before.read_text(), after.read_text())

    def test_a_state_comes_through_a_pipe(self) -> None:
        self.text.write_text(design(PLACED_CELLS))
        saved = self.folder / "w.state"
        texts = [str(self.text), str(LEF)]
        self.assertEqual(run(["replay", *texts, "--save", str(saved)], "")[0], 0)
        script = 'exec "$0" repair "$1" "$2" --state <(cat "$3")'
        command = ["bash", "-c", script, str(PROGRAM), *texts, str(saved)]
        piped = subprocess.run(command, capture_output=True, text=True, timeout=PATIENCE, check=False)
        whole = run(["repair", *texts])
        self.assertEqual((piped.returncode, piped.stdout, piped.stderr), whole)

    def test_what_is_no_state_of_the_design_is_refused(self) -> None:
        self.text.write_text(design(PLACED_CELLS))
        state = self.folder / "w.state"
        texts = [str(self.text), str(LEF)]
        words = ["repair", *texts, "--state", str(state), "--export", str(self.new)]
        said = f"lefence: File\nlefence: state file {state} cannot be read: there is no such file\n"
        self.assertEqual(run(words), (3, "", said))
        state.write_text("lefence-state 1\nteams 9\n")
        said = f"lefence: 26 OtherDesign line 2\nlefence: state file {state}, line 2: teams 9\n"
        self.assertEqual(run(words), (1, "", said))
        # one of nine slots
        self.assertEqual(run(["replay", *texts, "--sessions", "9", "--save", str(state)], "")[0], 0)
        self.assertEqual(run(words)[:2], (1, ""))
        self.assertEqual(run([*words, "--sessions", "9"])[0], 0)

    def test_the_text_itself_may_be_replaced(self) -> None:
        self.assertEqual(self.repair(PLACED_CELLS, "--export", str(self.text))[0], 0)
        self.assertEqual(self.check(self.text), 0)
        self.assertEqual(self.names(), ["old.def"])

    def test_the_least_largest_displacement_is_that_of_a_cell_alone(self) -> None:
        # a1 is 50 + 30 from its site; a2 moves left into A's ground, g1 out of B's ground, and b1 into B's ground and
        # to a row.
        changes = {
            **PLACED_CELLS,
            "- a1 INV + SOURCE DIST ;": "- a1 INV + SOURCE DIST + PLACED ( 150 30 ) N ;",
            "- a2 INV + UNPLACED ;": "- a2 INV + PLACED ( 4000 0 ) N ;",
            "- b1 INV ;": "- b1 INV + PLACED ( 5000 1000 ) N ;",
            "- g1 INV ;": "- g1 INV + PLACED ( 6100 0 ) N ;",
        }
        soft = {"BLOCKAGES 1 ;": "BLOCKAGES 2 ;\n- PLACEMENT + SOFT RECT ( 6000 0 ) ( 6400 4000 ) ;"}
        for text, displacements in ((changes, [400, 2000, 500, 2000]), ({**changes, **soft}, [400, 2400, 500, 2400])):
            with self.subTest(displacements):
                status, report = self.repair(text)
                self.assertEqual(
                    (status, [line["least_largest"] for line in report], [line["largest"] for line in report]),
                    (0, displacements, displacements),
                )

    def test_the_least_largest_displacement_ignores_other_cells(self) -> None:
        # a1 and a2 are on one place, where either may be alone. b1 has no place, and is not counted.
        changes = {**PLACED_CELLS, "- a2 INV + UNPLACED ;": "- a2 INV + PLACED ( 0 0 ) N ;", "- b1 INV ;": "- b1 INV ;"}
        status, report = self.repair(changes)
        self.assertEqual(
            (status, [line["least_largest"] for line in report], report[0]["largest"]), (0, [0, 0, 0, 0], 400)
        )

    def test_means_are_over_all_cells_and_by_height(self) -> None:
        # a2 moves by a tenth of a row's height. A has two cells of one row and one of two rows, all others stay.
        status, report = self.repair(PLACED_CELLS)
        means = [(line["average"], line["mean_by_height"]) for line in report[:-1]]
        self.assertEqual((status, means), (0, [(33, 25), (0, 0), (0, 0)]))
        # All cells without a place: nothing is displaced.
        status, report = self.repair({})
        self.assertEqual((status, [line["average"] for line in report[:-1]]), (0, [0, 0, 0]))
        self.assertEqual([line["mean_by_height"] for line in report[:-1]], [0, 0, 0])

    def test_a_legal_design_stays(self) -> None:
        legal = {**PLACED_CELLS, "- a2 INV + UNPLACED ;": "- a2 INV + PLACED ( 400 0 ) N ;"}
        status, report = self.repair(legal, "--export", str(self.new))
        self.assertEqual((status, report[-1]["cells"], report[-1]["kept"], report[-1]["moved"]), (0, 0, 5, 0))
        self.assertEqual(self.new.read_text(), self.text.read_text())


if __name__ == "__main__":
    unittest.main()
