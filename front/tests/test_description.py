"""The description, as the tools read it."""

from __future__ import annotations

import json
import unittest

from support import CELLS, TEAMS, FrontCase

from lefence.base.description import Box, Cell, Description, Facts, Fence, Obstacle, Row, Total
from lefence.base.faults import Fault

# A FIXED component, a soft blockage, and two cells that overlap.
MORE = """BLOCKAGES 1 ;
- PLACEMENT + SOFT RECT ( 9000 0 ) ( 9400 2000 ) ;
END BLOCKAGES
COMPONENTS 3 ;
- wall BUF + FIXED ( 0 6000 ) N ;
- one INV + PLACED ( 64000 0 ) N ;
- two INV + PLACED ( 64200 0 ) N ;
END COMPONENTS
"""


class Descriptions(FrontCase):
    def read(self) -> Description:
        description = Description(self.program, self.design, [self.lef])
        self.addCleanup(description.close)
        return description

    def test_a_design_is_read(self) -> None:
        self.design.write_text(self.design.read_text().replace("END DESIGN", f"{MORE}END DESIGN"))
        description = self.read()
        frame = description.frame
        self.assertEqual(frame.facts, Facts("t", 1000, "core", 200, 2000))
        self.assertEqual(frame.rows[1], Row("r1", Box(0, 2000, 72000, 4000), "FS", 360))
        self.assertEqual(frame.fences[1], Fence("f1", (Box(8000, 0, 16000, 8000),)))
        self.assertEqual(frame.obstacles, [Obstacle("wall", Box(0, 6000, 600, 8000))])
        self.assertEqual(frame.soft, [Box(9000, 0, 9400, 2000)])
        self.assertEqual(frame.teams, [*(f"f{team}" for team in range(TEAMS)), "-"])
        self.assertEqual(frame.box, Box(0, 0, 72000, 8000))
        cells = list(description.cells())
        self.assertEqual(cells[0], Cell("f0c0", "f0", "BUF", 600, 2000, None, None, None, None))
        self.assertEqual(cells[-1], Cell("two", "-", "INV", 400, 2000, Box(64200, 0, 64600, 2000), "N", 8, "one"))
        self.assertEqual(description.total, Total(4, TEAMS, 1, 1, 92, 90, 2))

    def test_the_cells_of_a_team_are_those_of_all_with_its_name(self) -> None:
        text = self.design.read_text()
        for clause in ("- f1 (", "REGION f1 ;"):
            text = text.replace(clause, clause.replace("f1", 'f"1\\'))
        self.design.write_text(text)
        cells = list(self.read().cells())
        for team in ("f0", 'f"1\\', "-"):
            description = self.read()
            found = list(description.cells_of(team))
            self.assertEqual((len(found), found), (CELLS, [cell for cell in cells if cell.team == team]))
            self.assertEqual(description.total.cells, len(cells))

    def test_lines_of_cells_have_what_the_cells_have(self) -> None:
        names = ["a", "u\\[0\\]", 'q"x', "\\u0041", "tab\t", '\\"', "\\\\n"]
        printed, program = self.folder / "printed", self.folder / "printing"
        program.write_text(f"#!/bin/sh\ncat '{printed}'\nexit 4\n")
        program.chmod(0o755)
        extras: list[dict[str, object]] = [{}, {"zone": 1}]
        for more in extras:
            text = '{"kind":"design","name":"t","site":"core","site_height":2000,"site_width":200,"units":1000}\n'
            for at, name in enumerate(names):
                keys: dict[str, object] = {"kind": "cell", "name": name, "team": name, "macro": name}
                keys |= {"width": 200, "height": 2000}
                place: list[object] = [[-at, 0, 200 - at, 2000], "FS", 8, names[0]] if at else [None] * 4
                line = keys | dict(zip(("box", "orient", "rule", "other"), place)) | more
                text += json.dumps(line, separators=(",", ":"), sort_keys=True) + "\n"
            total = ",".join(f'"{key}":{7 if key == "cells" else 0}' for key in Total._fields)
            density = '{"bins":0,"kind":"density","side":0}\n' if more else ""
            printed.write_text(f'{text}{density}{{"kind":"total",{total}}}\n')
            with Description(str(program), self.design, []) as description:
                lines = [line for part in description.cell_lines() for line in part]
                self.assertEqual(description.total.cells, 7)
            expected = [
                (b"%d,0" % -at, b"%d,2000" % (200 - at), b"2000", name.encode(), b"FS", b"8", name.encode(), b"200")
                for at, name in enumerate(names)
            ]
            expected[0] = (b"", b"", b"2000", b"a", b"", b"", b"a", b"200")
            self.assertEqual(lines, expected)

    def test_a_refusal_has_its_status_and_message(self) -> None:
        for text, status, expected in (
            (b"VERSION 5.8 ;", 1, "2 UnexpectedEnd line 1; DEF file "),
            (None, 3, "File; DEF file "),
        ):
            self.design.unlink(missing_ok=True)
            if text is not None:
                self.design.write_bytes(text)
            with self.assertRaises(Fault) as caught:
                self.read()
            self.assertEqual(caught.exception.status, status)
            self.assertTrue(str(caught.exception).startswith(expected), caught.exception)

    def test_a_program_that_ends_early_is_reported(self) -> None:
        facts = '{"kind":"design","name":"t","site":"core","site_height":2000,"site_width":200,"units":1000}'
        for lines, status in ((facts, 9), (f'{facts}\n{{"kind":"cell"', 0), ("", 0)):
            early = self.folder / "early"
            early.write_text(f"#!/bin/sh\nprintf '%s' '{lines}'\nexit {status}\n")
            early.chmod(0o755)
            with self.assertRaises(Fault) as caught:
                Description(str(early), self.design, [self.lef])
            self.assertEqual(caught.exception.status, 3)
            self.assertEqual(str(caught.exception), "the program ended without its last line")


if __name__ == "__main__":
    unittest.main()
