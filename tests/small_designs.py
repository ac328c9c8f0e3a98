#!/usr/bin/env python3
"""Small designs whose best repair is known: some 80 cells in four rows, displaced like the result of a global placer.

usage: tests/small_designs.py FOLDER

The command writes the designs and their library into a folder. `bench/optimum.py` finds the least total displacement
of each. `OPTIMA` has these numbers.
"""

from __future__ import annotations

import random
import sys
from pathlib import Path
from typing import NamedTuple

SITE, ROW, ROWS, CELLS = 200, 2000, 4, 80
WIDTHS = (2, 3, 4, 4, 5, 6, 8)
LEF = "\n".join([
    "SITE core CLASS CORE ; SYMMETRY Y ; SIZE 0.2 BY 2.0 ; END core",
    *(f"MACRO w{width} CLASS CORE ; SIZE {0.2 * width:.1f} BY 2.0 ; SYMMETRY X Y ; SITE core ; END w{width}"
      for width in sorted(set(WIDTHS))),
    "END LIBRARY\n",
])


class Small(NamedTuple):
    """A design: the percentage of its sites that cells take, and the seed of its places."""

    percent: int
    seed: int

    @property
    def name(self) -> str:
        return f"small{self.percent}_{self.seed}"


# The least total displacement of each design, in database units. None of these placements moves a cell farther than the
# first plan of a repair does, since no search does.
OPTIMA = {
    Small(60, 1): 45_450,
    Small(60, 3): 53_306,
    Small(80, 8): 52_862,
    Small(80, 11): 56_703,
    Small(95, 2): 77_249,
    Small(95, 4): 64_304,
}


def text_of(design: Small) -> str:
    """The DEF text of a design. Each cell is displaced by a Gaussian of a row's height in x and in y."""
    rng = random.Random(design.seed)
    widths = [rng.choice(WIDTHS) for _ in range(CELLS)]
    sites = -(-sum(widths) * 100 // (design.percent * ROWS))
    # The cells fill the rows evenly, from left to right.
    lengths, cells = [0] * ROWS, []
    for number, width in enumerate(widths):
        row = lengths.index(min(lengths))
        x = round(lengths[row] * 100 / design.percent * SITE + rng.gauss(0, ROW))
        y = round(row * ROW + rng.gauss(0, ROW))
        lengths[row] += width
        x, y = min(max(x, 0), (sites - width) * SITE), min(max(y, 0), (ROWS - 1) * ROW)
        cells.append(f"- c{number} w{width} + PLACED ( {x} {y} ) N ;")
    return "\n".join([
        "VERSION 5.8 ;", "DESIGN small ;", "UNITS DISTANCE MICRONS 1000 ;",
        *(f"ROW r{row} core 0 {row * ROW} {'FS' if row % 2 else 'N'} DO {sites} BY 1 STEP {SITE} 0 ;"
          for row in range(ROWS)),
        f"COMPONENTS {len(cells)} ;", *cells, "END COMPONENTS", "END DESIGN\n",
    ])


def main() -> None:
    folder = Path(sys.argv[1])
    (folder / "small.lef").write_text(LEF)
    for design in OPTIMA:
        (folder / f"{design.name}.def").write_text(text_of(design))


if __name__ == "__main__":
    main()
