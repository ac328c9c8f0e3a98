#!/usr/bin/env python3
"""Finds the least total displacement of all legal placements of a small design, by the solver cbc (Debian: coinor-cbc).

usage: bench/optimum.py [--program PATH] [--reach ROWS] [--seconds N] DEF LEF..

The program describes the design. It has one team, cells of one row's height that may be in each row, and rows of the
same sites without gaps. A cell goes no farther than --reach row heights (3). If the solver has not proved its result
after --seconds (600), the line says so.
"""

from __future__ import annotations

import argparse
import re
import subprocess
import sys
import tempfile
from pathlib import Path

import model

PROGRAM = Path(__file__).resolve().parents[1] / "crates/lefence/out/lefence"


def integer_program(design: model.Described, reach: int) -> str:
    """The text of the integer program, in the format LP: a variable is 1 if a cell is at a site of a row."""
    width, reach = design.facts["site_width"], reach * design.facts["site_height"]
    if design.fences or design.blocked or any(cell["height"] != design.facts["site_height"] for cell in design.cells):
        sys.exit("the design has fences, blockages or cells of several rows")
    costs: list[str] = []
    chosen: list[list[str]] = []
    taken: dict[tuple[int, int], list[str]] = {}
    for number, cell in enumerate(design.cells):
        x, y, *_ = cell["box"]
        sites = -(-cell["width"] // width)
        spots = []
        for row, (left, bottom, right, _) in enumerate(row["box"] for row in design.rows):
            for site in range((right - left) // width - sites + 1):
                cost = abs(left + site * width - x) + abs(bottom - y)
                if cost > reach:
                    continue
                name = f"x{number}_{row}_{site}"
                costs.append(f"{cost} {name}")
                spots.append(name)
                for each in range(site, site + sites):
                    taken.setdefault((row, each), []).append(name)
        chosen.append(spots)
    return "\n".join([
        "Minimize", " + ".join(costs).replace(" + ", "\n + "), "Subject To",
        *("\n + ".join(spots) + " = 1" for spots in chosen),
        *("\n + ".join(names) + " <= 1" for names in taken.values()),
        "Binary", *(name for spots in chosen for name in spots), "End\n",
    ])


def least(text: str, seconds: int) -> str:
    """Has the solver find the least value. Returns its words on the result and the value."""
    with tempfile.TemporaryDirectory() as folder:
        file = Path(folder) / "design.lp"
        file.write_text(text)
        words = ["cbc", str(file), "ratio", "0", "seconds", str(seconds), "solve"]
        said = subprocess.run(words, stdout=subprocess.PIPE, text=True, check=True).stdout
    result = re.search(r"^Result - (.*)$", said, re.M)
    value = re.search(r"^Objective value:\s*(\S+)$", said, re.M)
    if not result or not value:
        sys.exit(f"cbc gave no result:\n{said}")
    return f"{result[1]}: {float(value[1]):.0f}"


def main() -> None:
    parser = argparse.ArgumentParser(description=__doc__, formatter_class=argparse.RawDescriptionHelpFormatter)
    parser.add_argument("--program", default=str(PROGRAM))
    parser.add_argument("--reach", type=int, default=3)
    parser.add_argument("--seconds", type=int, default=600)
    parser.add_argument("design", type=Path, metavar="DEF")
    parser.add_argument("libraries", type=Path, nargs="+", metavar="LEF")
    given = parser.parse_args()
    design = model.described(given.program, given.design, given.libraries)
    print(given.design.name, least(integer_program(design, given.reach), given.seconds), flush=True)


if __name__ == "__main__":
    main()
