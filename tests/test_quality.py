"""How good the places of repairs and improvements are, held against known optima and against less effort.

No contract says which places a search finds, only that they are legal. `small_designs.py` has designs with their least
total displacement.
"""

from __future__ import annotations

import json
from typing import Any

import small_designs
from program import InFolder, run

# The effort of the repairs that come near the optimum: tries for each cell.
NEAR = 200


class Quality(InFolder):
    """Repairs of the small designs."""

    def setUp(self) -> None:
        super().setUp()
        self.text, self.library = self.folder / "small.def", self.folder / "small.lef"
        self.library.write_text(small_designs.LEF)

    def repair(self, design: small_designs.Small, *words: str) -> dict[str, Any]:
        """Repairs a design with these options. Returns the line of all teams. Each cell has a legal place then."""
        self.text.write_text(small_designs.text_of(design))
        status, written, said = run(["repair", str(self.text), str(self.library), *words])
        self.assertEqual((status, said), (0, ""), design.name)
        line: dict[str, Any] = json.loads(written.splitlines()[-1])
        return line

    def test_a_long_search_comes_near_the_optimum(self) -> None:
        for design, optimum in small_designs.OPTIMA.items():
            total = self.repair(design, "--effort", str(NEAR))["total"]
            self.assertGreaterEqual(total, optimum, design.name)
            self.assertLessEqual(total, optimum * 1.005, design.name)

    def test_more_effort_is_not_worse(self) -> None:
        for design in small_designs.OPTIMA:
            totals = [self.repair(design, "--effort", str(effort))["total"] for effort in (0, 2, 20, NEAR)]
            self.assertEqual(totals, sorted(totals, reverse=True), design.name)

    def test_a_repair_is_the_same_each_time(self) -> None:
        for design in small_designs.OPTIMA:
            lines = [self.repair(design, "--effort", "20") for _ in range(2)]
            self.assertEqual(lines[0], lines[1], design.name)
