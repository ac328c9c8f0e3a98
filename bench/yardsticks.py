"""How good the places of `lefence repair` are: against ruin and recreate in C++, and against a lower bound.

The designs have some 12,000 cells and ten fences. Each cell is displaced by a Gaussian of one row's height in x and in
y, in any part of a site, like the result of a global placer. A name is a letter and the percentage of taken sites:

- `m77`: cells of one to four rows, 69 percent of one row
- `l77`: the same with 91 percent of one row
- `r80`: tiles with the cells of a real design, a third of them in fences; takes --real
"""

from __future__ import annotations

import json
import os
import random
import re
import subprocess
import sys
import tempfile
from collections.abc import Iterator
from pathlib import Path
from typing import NamedTuple

import generate
import model

CELLS, FENCES, FENCED = 12_000, 10, 30
SITE, ROW = 200, 2000
# The rounds and seconds of a bound.
ROUNDS, SECONDS = 3000, 60
COMPONENT = re.compile(r"^\s*- (\S+) (\S+) [^;]*?\+ PLACED \( (\S+) (\S+) \) (\S+)", re.M)


class Case(NamedTuple):
    """A design, and its name."""

    name: str
    text: Path
    lef: Path


class Placed(NamedTuple):
    """A cell of a tile: its name and macro, its place relative to the tile, and its width."""

    name: str
    macro: str
    x: int
    y: int
    width: int


def generated(kind: str, percent: int, seed: int, text: Path, lef: Path) -> None:
    """Writes a design of cells of several heights, displaced."""
    macros = generate.TALL if kind == "m" else generate.LIGHT
    rng = random.Random(seed)
    legal = "".join(generate.packed(CELLS, FENCES, percent, 0, seed, macros))
    rows = [int(sites) for sites in re.findall(r"^ROW .* DO (\d+) ", legal, re.M)]
    right, top = rows[0] * SITE, len(rows) * ROW

    def moved(found: re.Match[str]) -> str:
        sites, high = macros[int(found[1])]
        x, y = (int(found[at]) + round(rng.gauss(0, ROW)) for at in (2, 3))
        x, y = min(max(x, 0), right - sites * SITE), min(max(y, 0), top - high * ROW)
        return f"T{found[1]} + PLACED ( {x} {y} )"

    text.write_text(re.sub(r"T(\d+) \+ PLACED \( (\d+) (\d+) \)", moved, legal))
    lef.write_text("".join(generate.tall(macros)))


def cells_of(placed: Path, library: str, units: int) -> list[Placed]:
    """The cells of a real design, relative to the lower left one, without fillers."""
    sizes = re.findall(r"^MACRO\s+(\S+).*?SIZE\s+(\S+)\s+BY", library, re.M | re.S)
    widths = {name: round(float(width) * units) for name, width in sizes}
    section = placed.read_text().partition("\nCOMPONENTS ")[2].partition("END COMPONENTS")[0]
    found = [words for words in COMPONENT.findall(section) if not words[1].startswith("FILL")]
    left, bottom = min(int(words[2]) for words in found), min(int(words[3]) for words in found)
    return [Placed(name, macro, int(x) - left, int(y) - bottom, widths[macro]) for name, macro, x, y, _ in found]


def core_site(library: str, units: int) -> tuple[str, int, int]:
    """The name and the size of the core site of a LEF text."""
    for name, part in re.findall(r"^SITE\s+(\S+)(.*?)^END\s+\1", library, re.M | re.S):
        if re.search(r"CLASS\s+CORE\s", part, re.I) and (size := re.search(r"SIZE\s+(\S+)\s+BY\s+(\S+)", part)):
            return name, round(float(size[1]) * units), round(float(size[2]) * units)
    sys.exit("the LEF file has no core site")


def tiled(placed: Path, lef: Path, percent: int, seed: int, text: Path) -> None:
    """Writes a design of tiles. Each has the cells of a real design of single-row cells, squeezed along x until they
    take this percentage of its sites, in a shuffled order, and displaced."""
    library, rng = lef.read_text(), random.Random(seed)
    [units] = map(int, re.findall(r"UNITS DISTANCE MICRONS (\d+)", placed.read_text()))
    site, width, height = core_site(library, units)
    cells = cells_of(placed, library, units)
    high = max(cell.y for cell in cells) // height + 1
    high += high % 2
    sites = -(-sum(cell.width for cell in cells) * 100 // (width * percent * high))
    right, top = sites * width, high * height
    squeeze = right / max(cell.x + cell.width for cell in cells)
    tiles = max(1, round(CELLS / len(cells)))
    across = max(1, round((tiles * top / right) ** 0.5))
    down = -(-tiles // across)
    spots = [(column, row) for row in range(down) for column in range(across)]
    fenced = [spot for spot in spots if rng.random() * 100 < FENCED]
    lines = [f"VERSION 5.8 ;\nDESIGN tiles ;\nUNITS DISTANCE MICRONS {units} ;\n"]
    for row in range(high * down):
        orient = "FS" if row % 2 else "N"
        lines.append(f"ROW r{row} {site} 0 {row * height} {orient} DO {across * sites} BY 1 STEP {width} 0 ;\n")
    lines.append(f"REGIONS {len(fenced)} ;\n")
    for column, row in fenced:
        box = f"( {column * right} {row * top} ) ( {(column + 1) * right} {(row + 1) * top} )"
        lines.append(f"- f{column}_{row} {box} + TYPE FENCE ;\n")
    lines.append(f"END REGIONS\nCOMPONENTS {len(cells) * len(spots)} ;\n")
    for column, row in spots:
        rng.shuffle(cells)
        for cell in cells:
            # (the middle of the cell is squeezed, so that the cells fill the tile evenly)
            middle = (cell.x + cell.width / 2) * squeeze
            x = column * right + round(middle - cell.width / 2 + rng.gauss(0, height))
            y = row * top + cell.y + round(rng.gauss(0, height))
            x = min(max(x, 0), across * right - cell.width)
            y = min(max(y, 0), (high * down - 1) * height)
            lines.append(f"- u{column}_{row}/{cell.name} {cell.macro} + PLACED ( {x} {y} ) N ;\n")
    lines.append(f"END COMPONENTS\nGROUPS {len(fenced)} ;\n")
    lines += [f"- g{column}_{row} u{column}_{row}/* + REGION f{column}_{row} ;\n" for column, row in fenced]
    text.write_text("".join([*lines, "END GROUPS\nEND DESIGN\n"]))


def cases(folder: Path, names: list[str], seed: int, real: list[Path] | None) -> Iterator[Case]:
    """Makes the designs of these names one by one."""
    for name in names:
        kind, percent = name[0], int(name[1:])
        text, lef = folder / "x.def", folder / "x.lef"
        if kind == "r":
            if real is None:
                sys.exit(f"{name}: --real names the DEF and the LEF file of a placed design")
            lef = real[1]
            tiled(real[0], lef, percent, seed + percent, text)
        else:
            generated(kind, percent, seed + percent, text, lef)
        yield Case(name, text, lef)


def repair(program: str, case: Case, export: Path) -> tuple[dict[str, float], float]:
    """Repairs a design. Returns the line of all teams and the processor seconds."""
    words = [program, "repair", str(case.text), str(case.lef), "--export", str(export)]
    with tempfile.TemporaryFile() as output:
        child = subprocess.Popen(words, stdout=output, stderr=subprocess.DEVNULL)
        _, ended, usage = os.wait4(child.pid, 0)
        child.returncode = os.waitstatus_to_exitcode(ended)
        output.seek(0)
        lines = output.readlines()
    if child.returncode not in (0, 4) or not lines:
        sys.exit(f"{' '.join(words)}: status {child.returncode}")
    total: dict[str, float] = json.loads(lines[-1])
    return total, usage.ru_utime + usage.ru_stime


def show(name: str, method: str, total: float, base: float, largest: float | None, seconds: float) -> None:
    far = "" if largest is None else f"{largest:8.2f}"
    print(f"{name:>6} {method:>14} | {total:>14,.0f} {100 * (total / base - 1):+7.2f} % {far:>8} {seconds:8.2f} s",
          flush=True)


def measure(case: Case, folder: Path, program: str, tries: list[str], has_bound: bool) -> None:
    """Prints a line for the repair, for each number of tries of the model, and for the bound."""
    before = model.described(program, case.text, [case.lef])
    height, repaired = before.facts["site_height"], folder / "repaired.def"
    total, seconds = repair(program, case, repaired)
    base = total["total"]
    left = f", {total['left_cells']} left" if total["left_cells"] else ""
    show(case.name, f"repair{left}", base, base, total["largest"] / height, seconds)
    # The model begins with the places of the repair.
    text = model.model_text(before, model.described(program, repaired, [case.lef]))
    for number in tries:
        found, seconds = model.answer([str(folder / "recreate"), number], text)
        if not found["legal"]:
            sys.exit(f"{case.name}: the model's places are not legal")
        show(case.name, f"model {number}", found["total"], base, found["largest"] / height, seconds)
    if has_bound:
        found, seconds = model.answer([str(folder / "bound"), str(ROUNDS), str(SECONDS)], text)
        show(case.name, "bound", found["bound"], base, None, seconds)


def run(program: str, names: list[str], seed: int, real: list[Path] | None, tries: list[str], has_bound: bool) -> None:
    """Prints the table of all designs. Percentages are relative to the first line of a design."""
    print(f"{'':>21} | {'total':>14} {'':>9} {'largest':>8}   in rows of height")
    with tempfile.TemporaryDirectory() as name:
        folder = Path(name)
        model.build(folder)
        for case in cases(folder, names, seed, real):
            measure(case, folder, program, tries, has_bound)
