"""Repairs, improvements and wire lengths of designs as large as users have them.

No contract can say that memory is available: a task that needs it only for large inputs must not end with
`OutOfMemory`. An unproved program, as tools/planted.py builds it, takes minutes.
"""

from __future__ import annotations

import json
import unittest
from typing import Any

from program import InFolder, Start, run

# More than 200,000 cells, and as many nets.
ROWS, CELLS_OF_ROW = 501, 400
CELLS = ROWS * CELLS_OF_ROW
# The cells that find no place.
LEFT = 1_100
# Seconds that a task may take.
PATIENCE = 600
LEF = """VERSION 5.8 ;
SITE core
  CLASS CORE ;
  SIZE 0.2 BY 2.0 ;
END core
MACRO CELL
  CLASS CORE ;
  SIZE 0.4 BY 2.0 ;
  SYMMETRY X Y ;
  SITE core ;
  PIN A
    PORT
      LAYER m1 ;
      RECT 0.0 0.9 0.2 1.1 ;
    END
  END A
END CELL
END LIBRARY
"""
HEADER = "VERSION 5.8 ;\nDESIGN w ;\nUNITS DISTANCE MICRONS 1000 ;\n"


def rows_of(count: int, sites: int) -> list[str]:
    return [f"ROW r{row} core 0 {2_000 * row} {'FS' if row % 2 else 'N'} DO {sites} BY 1 STEP 200 0 ;\n"
            for row in range(count)]


def large_design() -> str:
    """Each cell is half a site off its place, with room beside it. Each net joins a cell and the one after the next."""
    components = [
        f"- c{cell} CELL + PLACED ( {600 * (cell % CELLS_OF_ROW) + 100} {2_000 * (cell // CELLS_OF_ROW)} ) N ;\n"
        for cell in range(CELLS)
    ]
    nets = [f"- n{cell} ( c{cell} A ) ( c{(cell + 2) % CELLS} A ) ;\n" for cell in range(CELLS)]
    return "".join([
        HEADER, *rows_of(ROWS, 3 * CELLS_OF_ROW), f"COMPONENTS {CELLS} ;\n", *components, "END COMPONENTS\n",
        f"NETS {CELLS} ;\n", *nets, "END NETS\nEND DESIGN\n",
    ])


def crowded_design() -> str:
    """A row for three cells, and more cells without a place."""
    components = [f"- c{cell} CELL ;\n" for cell in range(LEFT + 3)]
    return "".join([
        HEADER, *rows_of(1, 6), f"COMPONENTS {LEFT + 3} ;\n", *components, "END COMPONENTS\nEND DESIGN\n"
    ])


class UserSize(InFolder):
    """Each design in its own folder."""

    def setUp(self) -> None:
        super().setUp()
        self.lef, self.old, self.new = (self.folder / name for name in ("cells.lef", "old.def", "new.def"))
        self.lef.write_text(LEF)

    def task(self, verb: str, *words: str) -> tuple[int, list[dict[str, Any]]]:
        """Runs a task over the design. Returns its status and the lines of its report."""
        status, written, said = run([verb, *words], start=Start(patience=PATIENCE))
        progress = [line for line in said.splitlines() if not line.endswith(" commands so far")]
        self.assertEqual(progress, [])
        return status, [json.loads(line) for line in written.splitlines()]

    def test_a_large_design_is_repaired_measured_and_improved(self) -> None:
        self.old.write_text(large_design())
        status, report = self.task("repair", str(self.old), str(self.lef), "--export", str(self.new))
        self.assertEqual((status, report[-1]["cells"], report[-1]["left_cells"]), (0, CELLS, 0))
        status, report = self.task("wirelength", str(self.new), str(self.lef))
        self.assertEqual((status, report[-1]["nets"]), (0, CELLS))
        length = report[-1]["length"]
        status, report = self.task("improve", str(self.new), str(self.lef), "--rounds", "1")
        self.assertEqual((status, report[-1]["length_before"]), (0, length))
        self.assertLess(report[-1]["length"], length)

    def test_a_repair_leaves_more_than_a_thousand_cells(self) -> None:
        self.old.write_text(crowded_design())
        status, report = self.task("repair", str(self.old), str(self.lef))
        self.assertEqual((status, report[-1]["left_cells"], len(report[0]["left"])), (4, LEFT, LEFT))


if __name__ == "__main__":
    unittest.main()
