#!/usr/bin/env python3
"""Makes the designs of examples/: soc.lef, soc.def, soc_placed.def and soc_v2.def.

usage: tools/examples.py [FOLDER]    (into the folder, else into examples/)

- soc.def: four fences, two hard macros, placement blockages, cells of one and two rows, nets and pins. Twelve cells
  break a rule and four have no place.
- soc_placed.def: the same design as a global placer leaves it: each cell is near its place, but on no grid.
- soc_v2.def: the same floorplan with the next netlist, without places: cells are new, gone or have another size.

Each run makes the same bytes.
"""

from __future__ import annotations

import random
import sys
from collections.abc import Iterator
from dataclasses import dataclass, field, replace
from pathlib import Path

EXAMPLES = Path(__file__).resolve().parent.parent / "examples"
# Database units, and the size of the core in sites and rows.
SITE, HEIGHT, SITES, ROWS = 200, 2000, 320, 24
SEED = 4
# (left, bottom, right, top) in sites and rows.
Box = tuple[int, int, int, int]
FENCES: dict[str, list[Box]] = {
    "cpu": [(0, 0, 120, 12), (0, 12, 70, 18)],
    "cache": [(200, 0, 320, 10)],
    "dma": [(0, 20, 130, 24)],
    "io": [(230, 17, 320, 24)],
}
GROUND = "-"
FIXED: dict[str, Box] = {"cache/ram": (246, 1, 306, 7), "rom": (140, 14, 200, 20)}
BLOCKED: list[Box] = [(140, 3, 160, 9), (120, 0, 124, 12)]
SOFT: list[Box] = [(128, 12, 212, 22)]
# The share of the ground that cells of one row take, the same in soft blockages, and the number of cells of two rows in
# each team.
FILLED, FILLED_SOFT, TALL = 0.8, 0.3, 5


@dataclass(frozen=True)
class Macro:
    """A macro with its size in sites and rows and its signal pins. The last pin is the output."""

    name: str
    width: int
    height: int
    pins: tuple[str, ...]

    @property
    def inputs(self) -> tuple[str, ...]:
        """The inputs without the clock."""
        return tuple(pin for pin in self.pins[:-1] if pin != "CK")


SINGLE = (
    Macro("INV_X1", 2, 1, ("A", "Y")),
    Macro("INV_X2", 3, 1, ("A", "Y")),
    Macro("NAND2_X1", 3, 1, ("A", "B", "Y")),
    Macro("NAND2_X2", 5, 1, ("A", "B", "Y")),
    Macro("BUF_X1", 4, 1, ("A", "Y")),
    Macro("AOI21_X1", 4, 1, ("A", "B", "C", "Y")),
    Macro("XOR2_X1", 7, 1, ("A", "B", "Y")),
    Macro("MUX2_X1", 8, 1, ("A", "B", "S", "Y")),
    Macro("DFF_X1", 11, 1, ("D", "CK", "Q")),
    Macro("DFFR_X1", 12, 1, ("D", "R", "CK", "Q")),
)
# A flip-flop of two rows, with ground at its bottom and top, so that it stands on every second row.
DOUBLE = Macro("DFF2_X1", 7, 2, ("D", "E", "CK", "Q"))
BLOCKS = (Macro("RAM", 60, 6, ("A", "D", "CK", "Q")), Macro("ROM", 60, 6, ("A", "B", "CK", "Q")))
# The macros that a new netlist takes in place of others.
WIDER = {"INV_X1": SINGLE[1], "NAND2_X1": SINGLE[3]}


@dataclass(frozen=True)
class Cell:
    """A movable cell. `x` and `y` are its lower left corner in database units, also while it has no place."""

    name: str
    team: str
    macro: Macro
    x: int
    y: int
    orient: str
    is_placed: bool = True

    @property
    def sites(self) -> set[tuple[int, int]]:
        """The sites and rows of its box, if it is on the grid."""
        left, bottom = self.x // SITE, self.y // HEIGHT
        return {(left + dx, bottom + dy) for dx in range(self.macro.width) for dy in range(self.macro.height)}


@dataclass
class Net:
    """A net with its pins, each a component (`PIN` for the design) and the name of its pin."""

    name: str
    pins: list[tuple[str, str]] = field(default_factory=list)
    use: str = "SIGNAL"


@dataclass
class Design:
    """The cells and nets of a design, and its own pins: each with its direction and place."""

    cells: list[Cell]
    nets: list[Net]
    pins: dict[str, tuple[str, int, int]]


def holds(boxes: list[Box], site: int, row: int) -> bool:
    """Whether one of the boxes has the site."""
    return any(box[0] <= site < box[2] and box[1] <= row < box[3] for box in boxes)


def is_soft(site: int, row: int) -> bool:
    return holds(SOFT, site, row)


def team_at(site: int, row: int) -> str | None:
    """Returns the team whose ground has the site, or None at an obstacle or outside the core."""
    if not holds([(0, 0, SITES, ROWS)], site, row) or holds([*FIXED.values(), *BLOCKED], site, row):
        return None
    return next((team for team, boxes in FENCES.items() if holds(boxes, site, row)), GROUND)


def orient_of(row: int) -> str:
    return ("N", "FS")[row % 2]


def made_cells(rng: random.Random) -> list[Cell]:
    """Makes cells at legal places, but one of two rows that stands on the wrong rail."""
    cells: list[Cell] = []
    taken: set[tuple[int, int]] = set()

    def add(macro: Macro, team: str, site: int, row: int) -> bool:
        """Adds a cell if its sites are free and of the team's ground."""
        made = Cell("", team, macro, site * SITE, row * HEIGHT, orient_of(row))
        if made.sites & taken or any(team_at(*each) != team for each in made.sites):
            return False
        taken.update(made.sites)
        cells.append(made)
        return True

    for team in (*FENCES, GROUND):
        for at in range(TALL):
            # (the first one of team - stands on a row whose bottom rail is power)
            wrong = int(team == GROUND and at == 0)
            while not add(DOUBLE, team, rng.randrange(SITES), 2 * rng.randrange(ROWS // 2 - 1) + wrong):
                pass
    for row in range(ROWS):
        site = 0
        while site < SITES:
            macro, owner = rng.choice(SINGLE), team_at(site, row)
            if owner is None or (site, row) in taken:
                site += 1
            elif rng.random() >= (FILLED_SOFT if is_soft(site, row) else FILLED):
                site += macro.width
            else:
                site += macro.width if add(macro, owner, site, row) else 1
    cells.sort(key=lambda cell: (cell.y, cell.x))
    return [replace(cell, name=f"{prefix_of(cell.team)}/u{at}") for at, cell in enumerate(cells)]


def prefix_of(team: str) -> str:
    return "top" if team == GROUND else team


class Breaker:
    """Moves cells of one row to places that break a rule. Each cell is moved once, and no other cell is hit."""

    def __init__(self, cells: list[Cell], rng: random.Random) -> None:
        self.cells = {cell.name: cell for cell in cells}
        self._taken = {site: cell.name for cell in cells for site in cell.sites}
        names = [cell.name for cell in cells if cell.macro.height == 1]
        self._names = rng.sample(names, len(names))
        # Cells that are moved, or next to one.
        self._used: set[str] = set()

    def _unused(self, team: str | None = None) -> Iterator[Cell]:
        for name in self._names:
            if name not in self._used and team in (None, self.cells[name].team):
                yield self.cells[name]

    def _right(self, cell: Cell, distance: int) -> str | None:
        """The name of the cell whose box has the site at this distance from the right edge."""
        return self._taken.get((cell.x // SITE + cell.macro.width + distance, cell.y // HEIGHT))

    def _set(self, cell: Cell) -> None:
        self._used.add(cell.name)
        self.cells[cell.name] = cell

    def off_the_grid(self) -> None:
        """Moves a cell by half a site into a gap: rule 2."""
        def has_gap(cell: Cell) -> bool:
            is_free = self._right(cell, 0) is None
            return is_free and team_at(cell.x // SITE + cell.macro.width, cell.y // HEIGHT) == cell.team

        cell = next(filter(has_gap, self._unused()))
        self._set(replace(cell, x=cell.x + SITE // 2))

    def flipped(self) -> None:
        """Turns a cell against its row: rule 4."""
        cell = next(self._unused())
        self._set(replace(cell, orient=orient_of(cell.y // HEIGHT + 1)))

    def outside(self, team: str, area: Box) -> None:
        """Moves a cell of a fence into a gap of the ground in this area: rule 6."""
        corners = [(site, row) for row in range(area[1], area[3]) for site in range(area[0], area[2])]
        for cell in self._unused(team):
            for site, row in corners:
                box = {(site + at, row) for at in range(cell.macro.width)}
                if not any(each in self._taken or team_at(*each) != GROUND for each in box):
                    self._taken.update(dict.fromkeys(box, cell.name))
                    self._set(replace(cell, x=site * SITE, y=row * HEIGHT, orient=orient_of(row)))
                    return
        raise ValueError(f"no gap for {team}")

    def in_obstacle(self, box: Box) -> None:
        """Moves the cell at the left of an obstacle two sites into it: rule 7."""
        for cell in self._unused():
            row, end = cell.y // HEIGHT, cell.x // SITE + cell.macro.width
            if box[1] <= row < box[3] and box[0] - 6 <= end <= box[0] and self._right(cell, 0) is None:
                if not any((site, row) in self._taken for site in range(end, box[0])):
                    self._set(replace(cell, x=(box[0] + 2 - cell.macro.width) * SITE))
                    return
        raise ValueError("no cell is next to the obstacle")

    def overlapping(self) -> None:
        """Moves a cell over half of the next one: rule 8 for both."""
        for cell in self._unused():
            name = self._right(cell, 0)
            if name is None or name in self._used or self.cells[name].team != cell.team:
                continue
            other = self.cells[name]
            if other.macro.height == 1 and other.macro.width >= 4:
                self._used.add(name)
                self._set(replace(cell, x=cell.x + min(cell.macro.width, other.macro.width // 2) * SITE))
                return

    def unplaced(self, team: str) -> None:
        """Takes the place of a cell away."""
        self._set(replace(next(self._unused(team)), is_placed=False))


def broken(cells: list[Cell], rng: random.Random) -> list[Cell]:
    """Makes eleven more cells illegal, and takes the places of four."""
    breaker = Breaker(cells, rng)
    for _ in range(2):
        breaker.off_the_grid()
        breaker.flipped()
        breaker.overlapping()
    breaker.outside("dma", (136, 21, 220, 24))
    breaker.outside("cpu", (80, 13, 128, 18))
    breaker.in_obstacle(FIXED["rom"])
    for team in ("cpu", "cache", "io", GROUND):
        breaker.unplaced(team)
    return list(breaker.cells.values())


def made_nets(cells: list[Cell], rng: random.Random) -> tuple[list[Net], dict[str, tuple[str, int, int]]]:
    """Makes nets between cells that are near each other, and the pins of the design."""
    pins: dict[str, tuple[str, int, int]] = {"clk": ("INPUT", 0, ROWS // 2 * HEIGHT)}
    for at in range(8):
        pins[f"din[{at}]"] = ("INPUT", 0, (2 * at + 3) * HEIGHT)
        pins[f"dout[{at}]"] = ("OUTPUT", SITES * SITE, (2 * at + 3) * HEIGHT)
    clock = Net("clk", [("PIN", "clk")], "CLOCK")
    free: list[tuple[Cell, str]] = [(cell, pin) for cell in cells for pin in cell.macro.inputs]
    blocks = [
        Cell(name, GROUND, macro, FIXED[name][0] * SITE, FIXED[name][1] * HEIGHT, "N")
        for name, macro in zip(FIXED, BLOCKS)
    ]
    free += [(block, pin) for block in blocks for pin in block.macro.inputs]
    clock.pins += [(cell.name, "CK") for cell in [*cells, *blocks] if "CK" in cell.macro.pins]
    nets = [clock]

    def take_near(x: int, y: int, team: str, most: int) -> list[tuple[str, str]]:
        """Takes free inputs near a point, mostly of the same team."""
        count = min(rng.randint(1, most), len(free))
        free.sort(key=lambda pair: abs(pair[0].x - x) + abs(pair[0].y - y) + (20_000 if pair[0].team != team else 0))
        near = free[: 4 * count + 4]
        chosen = rng.sample(near, min(count, len(near)))
        for pair in chosen:
            free.remove(pair)
        return [(cell.name, pin) for cell, pin in chosen]

    drivers = [(cell.name, cell.macro.pins[-1], cell.x, cell.y, cell.team) for cell in [*cells, *blocks]]
    drivers += [("PIN", pin, x, y, GROUND) for pin, (direction, x, y) in pins.items() if pin.startswith("din")]
    outputs = [pin for pin, (direction, _, _) in pins.items() if direction == "OUTPUT"]
    for name, pin, x, y, team in rng.sample(drivers, len(drivers)):
        sinks = take_near(x, y, team, 3)
        if sinks:
            net = pin if name == "PIN" else f"{prefix_of(team)}/n{len(nets)}"
            nets.append(Net(net, [(name, pin), *sinks]))
    for at, pin in enumerate(outputs):
        # (the output of a cell near the right edge; its net has the name of the pin)
        near = sorted(cells, key=lambda cell: abs(cell.x - pins[pin][1]) + abs(cell.y - pins[pin][2]))
        driver = next(cell for cell in near if all(net.pins[0][0] != cell.name for net in nets))
        nets.append(Net(pin, [(driver.name, driver.macro.pins[-1]), ("PIN", pin)]))
    return nets, pins


def next_netlist(design: Design, rng: random.Random) -> Design:
    """Makes the next netlist: eight cells are gone, six have another size, and ten buffers are new."""
    single = [cell for cell in design.cells if cell.macro.height == 1]
    gone = {cell.name for cell in rng.sample([cell for cell in single if "CK" not in cell.macro.pins], 8)}
    resized = {
        cell.name
        for cell in rng.sample([cell for cell in single if cell.macro.name in WIDER and cell.name not in gone], 6)
    }
    cells = [
        replace(cell, macro=WIDER[cell.macro.name]) if cell.name in resized else cell
        for cell in design.cells
        if cell.name not in gone
    ]
    nets = [replace(net, pins=[pin for pin in net.pins if pin[0] not in gone]) for net in design.nets]
    nets = [net for net in nets if len(net.pins) > 1]
    teams = {cell.name: cell.team for cell in cells}
    long = [net for net in nets if net.use == "SIGNAL" and len(net.pins) > 2 and net.pins[-1][0] in teams]
    for at, net in enumerate(rng.sample(long, 10)):
        sink = net.pins.pop()
        team = teams[sink[0]]
        cells.append(Cell(f"{prefix_of(team)}/eco{at}", team, SINGLE[4], 0, 0, "N"))
        net.pins.append((cells[-1].name, "A"))
        nets.append(Net(f"{prefix_of(team)}/eco_n{at}", [(cells[-1].name, "Y"), sink]))
    return Design([replace(cell, is_placed=False) for cell in cells], nets, design.pins)


def with_noise(cell: Cell, rng: random.Random) -> Cell:
    """Moves a cell off its place as far as a global placer leaves it, within the core."""
    x = round(cell.x + rng.gauss(0, 6 * SITE))
    y = round(cell.y + rng.gauss(0, 0.6 * HEIGHT))
    right, top = (SITES - cell.macro.width) * SITE, (ROWS - cell.macro.height) * HEIGHT
    return replace(cell, x=min(max(x, 0), right), y=min(max(y, 0), top), orient="N", is_placed=True)


def rect(box: Box) -> str:
    return f"( {box[0] * SITE} {box[1] * HEIGHT} ) ( {box[2] * SITE} {box[3] * HEIGHT} )"


def lef_text() -> str:
    lines = ['VERSION 5.8 ;', 'BUSBITCHARS "[]" ;', 'DIVIDERCHAR "/" ;', "SITE core"]
    lines += ["  CLASS CORE ;", "  SYMMETRY Y ;", f"  SIZE {SITE / 1000} BY {HEIGHT / 1000} ;", "END core"]
    for macro in (*SINGLE, DOUBLE, *BLOCKS):
        lines += macro_lines(macro)
    return "\n".join([*lines, "END LIBRARY", ""])


def macro_lines(macro: Macro) -> Iterator[str]:
    """The lines of a macro. The pins are in the middle from left to right; ground is at the bottom of the first row."""
    width, height = macro.width * SITE / 1000, macro.height * HEIGHT / 1000
    is_core = macro not in BLOCKS
    yield f"MACRO {macro.name}"
    yield f"  CLASS {'CORE' if is_core else 'BLOCK'} ;"
    yield f"  ORIGIN 0 0 ;\n  SIZE {width:.1f} BY {height:.1f} ;\n  SYMMETRY X Y ;"
    if is_core:
        yield "  SITE core ;"
    for at, pin in enumerate(macro.pins):
        x = width * (at + 1) / (len(macro.pins) + 1)
        direction = "OUTPUT" if pin == macro.pins[-1] else "INPUT"
        yield f"  PIN {pin}\n    DIRECTION {direction} ;\n    USE {'CLOCK' if pin == 'CK' else 'SIGNAL'} ;\n    PORT"
        bottom, top = height / 2 - 0.1, height / 2 + 0.1
        yield f"      LAYER m1 ;\n      RECT {x - 0.03:.2f} {bottom:.1f} {x + 0.03:.2f} {top:.1f} ;"
        yield f"    END\n  END {pin}"
    for name, use, odd in (("VSS", "GROUND", 0), ("VDD", "POWER", 1)):
        yield f"  PIN {name}\n    DIRECTION INOUT ;\n    USE {use} ;\n    PORT\n      LAYER m1 ;"
        for row in range(odd, macro.height + 1, 2):
            y = row * HEIGHT / 1000
            yield f"      RECT 0.0 {y - 0.1:.1f} {width:.1f} {y + 0.1:.1f} ;"
        yield f"    END\n  END {name}"
    yield f"END {macro.name}"


def def_text(design: Design) -> str:
    lines = ["VERSION 5.8 ;", 'DIVIDERCHAR "/" ;', 'BUSBITCHARS "[]" ;', "DESIGN soc ;"]
    lines.append("UNITS DISTANCE MICRONS 1000 ;")
    lines.append(f"DIEAREA {rect((0, 0, SITES, ROWS))} ;")
    for row in range(ROWS):
        lines.append(f"ROW r{row} core 0 {row * HEIGHT} {orient_of(row)} DO {SITES} BY 1 STEP {SITE} 0 ;")
    lines.append(f"REGIONS {len(FENCES)} ;")
    lines += [f"- {team} {' '.join(map(rect, boxes))} + TYPE FENCE ;" for team, boxes in FENCES.items()]
    lines += ["END REGIONS", f"COMPONENTS {len(design.cells) + len(FIXED)} ;"]
    for (name, box), macro in zip(FIXED.items(), BLOCKS):
        lines.append(f"- {name} {macro.name} + FIXED ( {box[0] * SITE} {box[1] * HEIGHT} ) N ;")
    for cell in design.cells:
        place = f" + PLACED ( {cell.x} {cell.y} ) {cell.orient}" if cell.is_placed else ""
        lines.append(f"- {cell.name} {cell.macro.name}{place} ;")
    lines += ["END COMPONENTS", f"PINS {len(design.pins)} ;"]
    for pin, (direction, x, y) in design.pins.items():
        use = "CLOCK" if pin == "clk" else "SIGNAL"
        lines.append(f"- {pin} + NET {pin} + DIRECTION {direction} + USE {use}")
        lines.append(f"  + LAYER m2 ( -70 -70 ) ( 70 70 ) + PLACED ( {x} {y} ) N ;")
    lines += ["END PINS", f"BLOCKAGES {len(BLOCKED) + len(SOFT)} ;"]
    lines += [f"- PLACEMENT RECT {rect(box)} ;" for box in BLOCKED]
    lines += [f"- PLACEMENT + SOFT RECT {rect(box)} ;" for box in SOFT]
    lines += ["END BLOCKAGES", f"GROUPS {len(FENCES)} ;"]
    lines += [f"- g_{team} {team}/* + REGION {team} ;" for team in FENCES]
    lines += ["END GROUPS", f"NETS {len(design.nets)} ;"]
    for net in design.nets:
        pins = [f"( {component} {pin} )" for component, pin in net.pins]
        lines.append(f"- {net.name} {' '.join(pins[:4])}")
        lines += [f"  {' '.join(pins[at : at + 4])}" for at in range(4, len(pins), 4)]
        lines.append(f"  + USE {net.use} ;")
    return "\n".join([*lines, "END NETS", "END DESIGN", ""])


def texts() -> dict[str, str]:
    """Returns the texts of the files by their names."""
    rng = random.Random(SEED)
    legal = made_cells(rng)
    nets, pins = made_nets(legal, rng)
    design = Design(broken(legal, rng), nets, pins)
    placed = Design([with_noise(cell, rng) for cell in legal], nets, pins)
    return {
        "soc.lef": lef_text(),
        "soc.def": def_text(design),
        "soc_placed.def": def_text(placed),
        "soc_v2.def": def_text(next_netlist(design, rng)),
    }


def main() -> int:
    folder = Path(sys.argv[1]) if len(sys.argv) == 2 else EXAMPLES
    if len(sys.argv) > 2 or not folder.is_dir():
        print(__doc__, file=sys.stderr)
        return 2
    for name, text in texts().items():
        (folder / name).write_text(text, encoding="utf-8")
    return 0


if __name__ == "__main__":
    sys.exit(main())
