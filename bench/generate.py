#!/usr/bin/env python3
"""Writes LEF and DEF texts of any size. The same numbers and seed give the same text.

usage: generate.py lef MACROS [SEED] > x.lef
       generate.py def COMPONENTS [FENCES] [ROWS] [SEED] > x.def    (on the macros of a LEF text of 200 macros)
       generate.py starred COMPONENTS [FENCES] [ROWS] [SEED] > x.def    (on the same)
       generate.py placed COMPONENTS [FENCES] [BLOCKAGES] [SEED] > x.def    (on those of one of 200 macros and seed 1)
       generate.py tall > x.lef
       generate.py light > x.lef
       generate.py packed COMPONENTS [FENCES] [PERCENT] [ILLEGAL] [SEED] > x.def    (on the macros of `tall`)

`def` places its cells anywhere; its fences are bands of rows over the left half. `starred` is `def` with cells in
blocks, and each group names one block with a star. `placed` is a fully legal design. Its fences are the left halves of
tiles. Every cell is on its rows within its fence, or outside all fences, next to blockages of two sites. Groups name
their cells one by one. `packed` is a design of cells of one to four rows that take about PERCENT percent of the sites;
ILLEGAL percent of its cells are half a site off their places. `light` has macros of the same sizes as `tall`, but nine
in ten of them are one row high.
"""

from __future__ import annotations

import random
import sys
from collections.abc import Iterator

SITE = "SITE core\n  CLASS CORE ;\n  SYMMETRY Y ;\n  SIZE 0.2 BY 2.0 ;\nEND core\n"
# A placed cell: its macro, x in sites, its row, and its fence.
Cell = tuple[int, int, int, int | None]


def pin(name: str, use: str, width: str, low: float, high: float) -> str:
    return (f"  PIN {name}\n    DIRECTION INOUT ;\n    USE {use} ;\n    PORT\n      LAYER m1 ;\n"
            f"      RECT 0 {low} {width} {high} ;\n    END\n  END {name}\n")


def sites_of(rng: random.Random) -> int:
    return rng.randint(2, 12)


def rows_of(number: int) -> int:
    return 2 if number % 10 == 9 else 1


def macro(number: int, rng: random.Random) -> str:
    sites, rows = sites_of(rng), rows_of(number)
    width = f"{sites * 0.2:.1f}"
    text = [f"MACRO M{number}\n  CLASS CORE ;\n  ORIGIN 0 0 ;\n  SIZE {width} BY {rows * 2.0:.1f} ;\n",
            "  SYMMETRY X Y ;\n  SITE core ;\n", pin("VSS", "GROUND", width, -0.1, 0.1)]
    if rows == 1:
        text.append(pin("VDD", "POWER", width, 1.9, 2.1))
    for letter in "AZ":
        x = f"{rng.randint(0, sites - 1) * 0.2:.1f}"
        text.append(f"  PIN {letter}\n    DIRECTION INPUT ;\n    USE SIGNAL ;\n    PORT\n      LAYER m1 ;\n"
                    f"      RECT {x} 0.5 {float(x) + 0.1:.1f} 1.5 ;\n    END\n  END {letter}\n")
    text.append(f"END M{number}\n")
    return "".join(text)


def lef(macros: int, seed: int) -> Iterator[str]:
    rng = random.Random(seed)
    yield "VERSION 5.8 ;\nUNITS\n  DATABASE MICRONS 1000 ;\nEND UNITS\n" + SITE
    for number in range(macros):
        yield macro(number, rng)
    yield "END LIBRARY\n"


def def_(components: int, fences: int, rows: int, seed: int, *, starred: bool = False) -> Iterator[str]:
    rng = random.Random(seed)
    rows = rows or max(8, int((components * 3) ** 0.5 / 2) // 2 * 2)
    sites = max(200, components * 10 // rows)
    height, width = rows * 2000, sites * 200
    yield "VERSION 5.8 ;\nDIVIDERCHAR \"/\" ;\nBUSBITCHARS \"[]\" ;\nDESIGN bench ;\nUNITS DISTANCE MICRONS 1000 ;\n"
    yield f"DIEAREA ( 0 0 ) ( {width} {height} ) ;\n"
    for row in range(rows):
        yield f"ROW r{row} core 0 {row * 2000} {'N' if row % 2 == 0 else 'FS'} DO {sites} BY 1 STEP 200 0 ;\n"
    yield f"REGIONS {fences} ;\n"
    band = max(1, rows // fences)
    for fence in range(fences):
        low, high = fence * band * 2000, (fence + 1) * band * 2000
        yield f"- f{fence} ( 0 {low} ) ( {sites // 2 * 200} {high} ) + TYPE FENCE ;\n"
    yield f"END REGIONS\nCOMPONENTS {components} ;\n"
    for number in range(components):
        block = f"block{number % (fences + 1)}/" if starred else ""
        name, mac = f"{block}u{number}", f"M{rng.randint(0, 199)}"
        if number % 4 == 3:
            yield f"- {name} {mac} + SOURCE DIST ;\n"
        else:
            x, y = rng.randint(0, sites - 1) * 200, rng.randint(0, rows - 1) * 2000
            yield f"- {name} {mac} + SOURCE NETLIST + PLACED ( {x} {y} ) N ;\n"
    yield f"END COMPONENTS\nGROUPS {fences} ;\n"
    for fence in range(fences):
        listed = (f"u{number}" for number in range(fence, components, fences + 1))
        members = f"block{fence}/*" if starred else " ".join(listed)
        yield f"- g{fence} {members} + REGION f{fence} ;\n"
    yield "END GROUPS\nEND DESIGN\n"


def sizes(macros: int, seed: int) -> list[tuple[int, int]]:
    """The macros' sizes in sites and rows, as in the LEF text of this seed."""
    rng = random.Random(seed)
    found: list[tuple[int, int]] = []
    for number in range(macros):
        sites = sites_of(rng)
        found.append((sites, rows_of(number)))
        rng.randint(0, sites - 1), rng.randint(0, sites - 1)    # the pins
    return found


def tiles(fences: int, rows: int) -> tuple[int, int]:
    """Columns of tiles, and the even number of rows of a tile: at least one tile for each fence."""
    down = max(1, min(rows // 2, int(fences ** 0.5)))
    return -(-fences // down), rows // down // 2 * 2


def regions(fences: int, across: int, wide: int, high: int) -> Iterator[str]:
    """The fences, each the left half of its tile."""
    yield f"REGIONS {fences} ;\n"
    for fence in range(fences):
        x, y = fence % across * wide * 200, fence // across * high * 2000
        yield f"- f{fence} ( {x} {y} ) ( {x + wide // 2 * 200} {y + high * 2000} ) + TYPE FENCE ;\n"
    yield "END REGIONS\n"


FILLED = 0.7    # the share of the ground that cells take; the rest is gaps between them


def placed_cells(
    wanted: int, fences: int, blockages: int, rows: int, sites: int, rng: random.Random
) -> tuple[list[Cell], list[tuple[int, int]]] | None:
    """Cells (macro, x in sites, row, fence) next to each other in pairs of rows, and blockages (x, row); None if there
    is no room."""
    across, high = tiles(fences, rows)
    wide = sites // across
    macros = sizes(200, 1)
    cells: list[Cell] = []
    blocked: list[tuple[int, int]] = []
    for row in range(0, rows - 1, 2):
        for column in range(across):
            fence = row // high * across + column
            begin, middle, end = column * wide, column * wide + wide // 2, (column + 1) * wide
            inside = [(begin, middle, fence), (middle, end, None)] if fence < fences else [(begin, end, None)]
            for left, right, team in inside:
                free = [left, left]
                while len(cells) < wanted:
                    if len(blocked) * wanted < blockages * (len(cells) + 1):
                        up = rng.randrange(2)
                        if free[up] + 2 <= right:
                            blocked.append((free[up], row + up))
                            free[up] += 2
                    mac = rng.randrange(len(macros))
                    long, tall = macros[mac]
                    up = 0 if tall == 2 else free.index(min(free))
                    x = max(free) if tall == 2 else free[up]
                    if x + long > right:
                        break
                    if rng.random() < FILLED:
                        cells.append((mac, x, row + up, team))
                    free = [x + long] * 2 if tall == 2 else [x + long if k == up else free[k] for k in range(2)]
    return (cells, blocked) if len(cells) == wanted else None


def placed(components: int, fences: int, blockages: int, seed: int) -> Iterator[str]:
    area, found = components * 10 + blockages * 2, None
    while not found:
        area = area * 21 // 20
        rows = max(8, int((area / 10) ** 0.5) // 2 * 2)
        sites = max(area // rows, 40 * tiles(fences, rows)[0])
        rng = random.Random(seed)
        found = placed_cells(components, fences, blockages, rows, sites, rng)
    cells, blocked = found
    rng.shuffle(cells)
    across, high = tiles(fences, rows)
    wide = sites // across
    yield "VERSION 5.8 ;\nDIVIDERCHAR \"/\" ;\nBUSBITCHARS \"[]\" ;\nDESIGN bench ;\nUNITS DISTANCE MICRONS 1000 ;\n"
    yield f"DIEAREA ( 0 0 ) ( {sites * 200} {rows * 2000} ) ;\n"
    for row in range(rows):
        yield f"ROW r{row} core 0 {row * 2000} {'N' if row % 2 == 0 else 'FS'} DO {sites} BY 1 STEP 200 0 ;\n"
    yield from regions(fences, across, wide, high)
    yield f"COMPONENTS {components} ;\n"
    members: list[list[str]] = [[] for _ in range(fences)]
    for number, (mac, x, row, team) in enumerate(cells):
        orient = rng.choice(("N", "FN") if row % 2 == 0 else ("FS", "S"))
        yield f"- u{number} M{mac} + SOURCE NETLIST + PLACED ( {x * 200} {row * 2000} ) {orient} ;\n"
        if team is not None:
            members[team].append(f"u{number}")
    yield f"END COMPONENTS\nBLOCKAGES {len(blocked)} ;\n"
    for x, row in blocked:
        yield f"- PLACEMENT RECT ( {x * 200} {row * 2000} ) ( {(x + 2) * 200} {(row + 1) * 2000} ) ;\n"
    yield f"END BLOCKAGES\nGROUPS {fences} ;\n"
    for fence in range(fences):
        yield f"- g{fence} {' '.join(members[fence])} + REGION f{fence} ;\n"
    yield "END GROUPS\nEND DESIGN\n"


# Sizes of macros in sites and rows.
Sizes = list[tuple[int, int]]
TALL: Sizes = [(sites, rows) for rows in (1, 1, 1, 1, 1, 2, 2, 3, 4) for sites in range(2, 12)]
LIGHT: Sizes = [(sites, rows) for rows in [1] * 45 + [2] * 3 + [3, 4] for sites in range(2, 12)]


def tall(macros: Sizes = TALL) -> Iterator[str]:
    """The LEF text of macros of these sizes."""
    yield "VERSION 5.8 ;\nUNITS\n  DATABASE MICRONS 1000 ;\nEND UNITS\n" + SITE
    for number, (sites, rows) in enumerate(macros):
        width = f"{sites * 0.2:.1f}"
        yield (f"MACRO T{number}\n  CLASS CORE ;\n  SIZE {width} BY {rows * 2.0:.1f} ;\n"
               f"  SYMMETRY X Y ;\n  SITE core ;\n"
               + pin("VSS", "GROUND", width, -0.1, 0.1) + f"END T{number}\n")
    yield "END LIBRARY\n"


def stacked(
    left: int, right: int, percent: int, rng: random.Random, macros: Sizes = TALL
) -> list[tuple[int, int, int]]:
    """Cells (macro, x in sites, row) next to each other in four rows from left to right. Keeps `percent` percent of
    them."""
    ends = [left] * 4
    cells: list[tuple[int, int, int]] = []

    def put(mac: int, bottom: int) -> None:
        sites, rows = macros[mac]
        if rng.random() * 100 < percent:
            cells.append((mac, ends[bottom], bottom))
        ends[bottom:bottom + rows] = [ends[bottom] + sites] * rows

    def fill(row: int, x: int) -> None:
        while x - ends[row] > 1:    # with cells of one row
            put(min(x - ends[row], 11 if x - ends[row] != 12 else 10) - 2, row)
        ends[row] = x

    while True:
        sites, rows = macros[mac := rng.randrange(len(macros))]
        bottom = min(
            [b for b in range(5 - rows) if rows % 2 == 1 or b % 2 == 0], key=lambda low: max(ends[low:low + rows])
        )
        x = max(ends[bottom:bottom + rows])
        if x + sites > right:
            break
        for row in range(bottom, bottom + rows):
            fill(row, x)
        put(mac, bottom)
    for row in range(4):
        fill(row, right)
    return cells


def packed(
    components: int, fences: int, percent: int, illegal: int, seed: int, macros: Sizes = TALL
) -> Iterator[str]:
    rng = random.Random(seed)
    area = sum(sites * rows for sites, rows in macros) / len(macros) * components * 100 / percent
    across = max(1, round(fences ** 0.5))
    down = -(-fences // across)
    quads = max(down, int((area / 10) ** 0.5) // 4 // down * down)
    wide = int(area * 0.8) // (quads * 4) // across
    while True:
        cells: list[Cell] = []
        for quad in range(quads):
            for column in range(across):
                fence = quad * down // quads * across + column
                begin, middle, end = column * wide, column * wide + wide // 2, (column + 1) * wide
                parts = [(begin, middle, fence), (middle, end, None)] if fence < fences else [(begin, end, None)]
                for left, right, team in parts:
                    cells += [
                        (mac, x, quad * 4 + bottom, team)
                        for mac, x, bottom in stacked(left, right, percent, rng, macros)
                    ]
        if len(cells) >= components:
            break
        wide = wide * 51 // 50 + 1
    sites, high = wide * across, quads // down * 4
    rng.shuffle(cells)
    cells = cells[:components]
    yield "VERSION 5.8 ;\nDIVIDERCHAR \"/\" ;\nBUSBITCHARS \"[]\" ;\nDESIGN bench ;\nUNITS DISTANCE MICRONS 1000 ;\n"
    for row in range(quads * 4):
        yield f"ROW r{row} core 0 {row * 2000} {'N' if row % 2 == 0 else 'FS'} DO {sites} BY 1 STEP 200 0 ;\n"
    yield from regions(fences, across, wide, high)
    yield f"COMPONENTS {components} ;\n"
    members: list[list[str]] = [[] for _ in range(fences)]
    for number, (mac, x, row, team) in enumerate(cells):
        beside = 100 if rng.randrange(100) < illegal else 0
        yield f"- u{number} T{mac} + PLACED ( {x * 200 + beside} {row * 2000} ) {'N' if row % 2 == 0 else 'FS'} ;\n"
        if team is not None:
            members[team].append(f"u{number}")
    yield f"END COMPONENTS\nGROUPS {fences} ;\n"
    for fence in range(fences):
        yield f"- g{fence} {' '.join(members[fence])} + REGION f{fence} ;\n"
    yield "END GROUPS\nEND DESIGN\n"


def main() -> None:
    kind, numbers = sys.argv[1], [int(word) for word in sys.argv[2:]]
    if kind == "lef":
        parts = lef(numbers[0], numbers[1] if len(numbers) > 1 else 1)
    elif kind in ("tall", "light"):
        parts = tall(TALL if kind == "tall" else LIGHT)
    elif kind == "packed":
        components, fences, percent, illegal, seed = numbers + [10, 60, 0, 1][len(numbers) - 1:]
        parts = packed(components, fences, percent, illegal, seed)
    elif kind == "placed":
        parts = placed(*(numbers + [10, 0, 1][len(numbers) - 1:]))
    else:
        parts = def_(*(numbers + [8, 0, 1][len(numbers) - 1:]), starred=kind == "starred")
    for part in parts:
        sys.stdout.write(part)


if __name__ == "__main__":
    main()
