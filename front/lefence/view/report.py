"""lefence-report: writes a page about a design that needs only a browser.

A design of many cells is drawn as a map, with the cells around the listed violations. Those need a second description.
"""

from __future__ import annotations

import json
import re
from collections import Counter
from collections.abc import Iterator
from contextlib import ExitStack
from dataclasses import dataclass, field
from datetime import datetime, timezone
from pathlib import Path
from urllib.parse import quote

from .. import __version__
from ..base.atomic_file import refuse_inputs, write_output
from ..base.description import Box, Cell, Description, Frame, Obstacle
from ..base.faults import DONE, Parser, log, run_tool
from ..base.input_files import use_plain_files
from ..base.program import Program, find_program
from ..base.progress import Progress
from ..base.protocol import GROUND, RULES
from ..base.wording import number
from ..client.refusals import violation_text
from .density import Density
from .drawing import shortened, text_of
from .flylines import nets_of_page
from .report_moves import PlacementDiff, data_of, legend_of, placement_diff, section_of
from .scene import BROKEN, LIMIT, SHADES, Bins, Scene, colour_of, row_blocks
from .summary import refuse_other_units
from .team_area import areas_of
from .wires import Wires, wires_or_note

TOOL = "lefence-report"
# The default number of listed violations.
MOST_LISTED = 500
# The most bytes of the cells around the listed violations; their greatest distance and the side of a tile, in site
# heights.
NEAR_BYTES, NEAR, TILE = 3_000_000, 3, 2
# The greatest extent of a violation, in tiles along either side, around which cells are searched.
LARGEST = 64
# The most unplaced cells that the page can find.
MOST_UNPLACED = 2000
# The scripts of the page, in the order in which they run.
_SCRIPTS = ("chip.js", "report.js")


@dataclass
class Report:
    """The contents of a page: the scene, each team's area, the cells and obstacles drawn one by one, and the design's
    file.
    """

    scene: Scene
    ground: dict[str, int]
    cells: list[Cell]
    obstacles: list[Obstacle]
    design: Path
    density: Density
    # The names of the first unplaced cells.
    unplaced: list[str]
    libraries: list[Path] = field(default_factory=list)
    # The differences to an earlier placement, if one was given.
    diff: PlacementDiff | None = None
    # The wire lengths, of the earlier placement first, or notes that say why they are not known.
    wires: Wires | None = None
    notes: list[str] = field(default_factory=list)
    # The nets of the drawn cells, as `nets_of_page` returns them, and a note on those that are left out.
    nets: tuple[list[list[object]], str] = ([], "")
    # Whether some cells near violations are left out.
    lacks: bool = False


class Near:
    """Selects cells near a violation, by square tiles, up to NEAR_BYTES."""

    def __init__(self, broken: list[Cell], height: int) -> None:
        self._side = TILE * height
        self._remaining = NEAR_BYTES
        self._broken = {cell.name for cell in broken}
        self._tiles = {tile for cell in broken if cell.box for tile in self._tiles_of(cell.box, NEAR * height)}

    def _tiles_of(self, box: Box, distance: int) -> Iterator[tuple[int, int]]:
        side = self._side
        left, bottom = (box.left - distance) // side, (box.bottom - distance) // side
        for along in range(left, min(left + LARGEST, (box.right + distance) // side) + 1):
            for up in range(bottom, min(bottom + LARGEST, (box.top + distance) // side) + 1):
                yield along, up

    @property
    def is_full(self) -> bool:
        """Whether the limit is reached."""
        return self._remaining <= 0

    def holds(self, name: str | None, box: Box) -> bool:
        """Whether a thing at this place is kept; it then counts for the limit."""
        side = self._side
        corners = [(x // side, y // side) for x in (box.left, box.right - 1) for y in (box.bottom, box.top - 1)]
        if self.is_full or self._tiles.isdisjoint(corners):
            return False
        self._remaining -= len(name or "") + 40
        return True

    def has(self, cell: Cell) -> bool:
        """Whether the cell is kept; it then counts for the limit. Cells that break a rule are kept elsewhere."""
        return cell.box is not None and cell.name not in self._broken and self.holds(cell.name, cell.box)


def _taken(scene: Scene, density: Density, unplaced: list[str], cells: Iterator[Cell]) -> Iterator[Cell]:
    """Yields the cells; adds them to the scene and the density, and the first unplaced ones to the list."""
    for cell in cells:
        scene.take(cell)
        density.add(cell)
        if cell.box is None and len(unplaced) < MOST_UNPLACED:
            unplaced.append(cell.name)
        yield cell


def report_of(
    program: str,
    design: Path,
    libraries: list[Path],
    limit: int = LIMIT,
    most: int = MOST_LISTED,
    before: Path | None = None,
) -> Report:
    """Collects a report of a design with at most `most` violations; with `before`, also the changes since."""
    with ExitStack() as both:
        description = both.enter_context(Description(program, design, libraries))
        scene, density = Scene(description.frame, limit, most), Density(description.frame)
        unplaced: list[str] = []
        cells = _taken(scene, density, unplaced, Progress(TOOL, "cells").over(description.cells()))
        diff = None
        if before is None:
            for _ in cells:
                pass
        else:
            early = both.enter_context(Description(program, before, libraries))
            refuse_other_units((before, early.frame), (design, description.frame))
            diff = placement_diff(before, early, description, cells, limit)
    areas = areas_of(scene.frame)
    report = Report(scene, areas, [], scene.obstacles, design, density, unplaced, libraries, diff)
    if scene.map is None:
        report.cells = [cell for cell in scene.cells if cell.rule is None]
    elif scene.broken:
        near = Near(scene.broken, scene.frame.facts.site_height)
        if len(scene.obstacles) < len(scene.frame.obstacles):
            report.obstacles = scene.obstacles + [
                each for each in scene.frame.obstacles if near.holds(each.name, each.box)
            ]
        with Description(program, design, libraries) as description:
            cells = Progress(TOOL, "cells again").over(description.cells())
            report.cells = [cell for cell in cells if near.has(cell)]
        report.lacks = near.is_full
    placements = [Program(program, [each, *libraries]) for each in (before, design) if each]
    report.wires, report.notes = wires_or_note(*placements)
    if not report.notes:
        numbers = {cell.name: at for at, cell in enumerate([*scene.broken, *report.cells])}
        report.nets = nets_of_page(design, libraries, scene.frame.facts.units, numbers)
    return report


def page_of(report: Report) -> str:
    """Returns the page; it refers to no other file."""
    facts, folder = report.scene.frame.facts, Path(__file__).parent
    libraries = ", ".join(path.name for path in report.libraries[:3]) + (", .." if len(report.libraries) > 3 else "")
    source = (report.design.name, libraries, number(report.scene.sum_of("cells"), "cell"), _date())
    parts = {
        "TITLE": text_of(f"{shortened(facts.name, 60)} – lefence"),
        "NAME": text_of(facts.name),
        "SOURCE": text_of(" · ".join(filter(None, source))),
        "BADGES": _badges(report),
        "LEGEND": _legend(report),
        "VIOLATIONS": _violations_card(report),
        "SINCE": section_of(report.diff) if report.diff else "",
        "TEAMS": _teams(report),
        "FACTS": _facts(report),
        "DATA": _embedded(_data(report)),
        "SCRIPT": "".join((folder / name).read_text(encoding="utf-8") for name in _SCRIPTS),
    }
    page = (folder / "report.html").read_text(encoding="utf-8")
    return re.sub("@([A-Z_]+)@", lambda found: parts[found[1]], page)


def _date() -> str:
    return f"{datetime.now(timezone.utc):%Y-%m-%d %H:%M} UTC"


def _embedded(data: dict[str, object]) -> str:
    """JSON inside an element of HTML."""
    return json.dumps(data, separators=(",", ":")).replace("<", "\\u003c")


def _data(report: Report) -> dict[str, object]:
    """The data for the page's script."""
    scene, frame = report.scene, report.scene.frame
    numbers = {team: at for at, team in enumerate(frame.teams)}
    macros: dict[str, int] = {}

    def cell_of(cell: Cell) -> list[object]:
        assert cell.box is not None
        macro = macros.setdefault(cell.macro, len(macros))
        return [*_sized(cell.box), numbers[cell.team], macro, cell.name, *([cell.rule] if cell.rule else [])]

    return {
        "units": frame.facts.units,
        "site": [frame.facts.site_width, frame.facts.site_height],
        "view": _sized(scene.view),
        "teams": [[team, colour_of(at, team)] for at, team in enumerate(frame.teams)],
        "rows": [_sized(block) for block in row_blocks(frame)],
        "fences": [[_sized(rect) for rect in fence.rects] for fence in frame.fences],
        "obstacles": [[*_sized(obstacle.box), obstacle.name] for obstacle in report.obstacles],
        "soft": [_sized(box) for box in scene.soft],
        "cells": [cell_of(cell) for cell in report.cells],
        "broken": [[*cell_of(cell), cell.other, _words(cell)] for cell in scene.broken],
        "map": None if scene.map is None else _map(scene.map, scene.red_paths()),
        "shades": SHADES,
        "broken_colour": BROKEN,
        "macros": list(macros),
        "since": None if report.diff is None else data_of(report.diff, [*scene.broken, *report.cells]),
        "density": report.density.data(),
        "unplaced": report.unplaced,
        "nets": report.nets[0],
        "file": report.design.name,
    }


def _sized(box: Box) -> list[int]:
    return [box.left, box.bottom, box.width, box.height]


def _map(bins: Bins, red: dict[tuple[int, int], str]) -> dict[str, object]:
    paths, ill = ([[team, shade, path] for (team, shade), path in each.items()] for each in (bins.paths(), red))
    return {"side": bins.side, "left": bins.view.left, "bottom": bins.view.bottom, "paths": paths, "broken": ill}


def _words(cell: Cell) -> str:
    return violation_text(cell.rule or 0, cell.name, cell.other, is_there=True)


def _swatch(frame: Frame, team: str) -> str:
    at = (
        len(frame.fences) if team == GROUND else next(at for at, fence in enumerate(frame.fences) if fence.name == team)
    )
    return f'<i class="swatch" style="background:{colour_of(at, team)}"></i>'


def _badges(report: Report) -> str:
    scene = report.scene
    broken, unplaced = scene.sum_of("broken"), scene.sum_of("unplaced")
    values = []
    if broken:
        values.append(("bad", number(broken, "cell breaks a rule", "cells break a rule")))
    if unplaced:
        values.append(("warn", number(unplaced, "cell is unplaced", "cells are unplaced")))
    if scene.outside:
        values.append(("warn", number(scene.outside, "cell is", "cells are") + " far outside the rows"))
    values = values or [("good", "fully legal")]
    if report.wires is not None:
        values.append(("faint", text_of(f"wire length {report.wires.text(scene.frame.facts.units)}")))
    return "".join(f'<span class="badge {kind}">{text}</span>' for kind, text in values)


def _legend(report: Report) -> str:
    scene, frame = report.scene, report.scene.frame
    kinds = {obstacle.name is None for obstacle in frame.obstacles}
    named = [("var(--fixed)", "FIXED")] * (False in kinds) + [("var(--blocked)", "blockage")] * (True in kinds)
    named += [
        (BROKEN, "breaks a rule; zoomed out: overfull bins" if scene.map and scene.shows_too_full else "breaks a rule")
    ] * bool(scene.broken)
    teams = [(colour_of(at, team), shortened(team)) for at, team in enumerate(frame.teams[:-1])][:12]
    teams.append((colour_of(len(frame.fences), GROUND), "- (ground)"))
    named += legend_of(report.diff) if report.diff else []
    text = [
        f'<span><i class="swatch" style="background:{colour}"></i>{text_of(name)}</span>'
        for colour, name in teams + named
    ]
    if len(frame.teams) > len(teams):
        text.append(f"<span>and {number(len(frame.teams) - len(teams), 'team')} more</span>")
    return "".join(text)


def _violations_card(report: Report) -> str:
    """The card beside the picture; nothing if no cell breaks a rule."""
    if not report.scene.broken and not report.scene.sum_of("broken"):
        return ""
    top = f'<div class="top"><h2>Violations</h2><p class="faint">{_violations_note(report)}</p></div>'
    return f'<div class="card tall list">\n{top}\n<div class="scroll">{_violations(report.scene)}</div>\n</div>'


def _violations_note(report: Report) -> str:
    """The number of violations by rule, and how many of them are listed."""
    scene = report.scene
    rules: Counter[int] = sum((tally.broken for tally in scene.tallies.values()), start=Counter())
    broken = rules.total()
    text = " · ".join(f"{RULES.get(rule, '')} (rule {rule}): {count:,}" for rule, count in sorted(rules.items()))
    if broken > len(scene.broken):
        text += f"<br>The first {len(scene.broken):,} of {broken:,} are listed; --most lists more."
    if report.lacks:
        text += "<br>Some of the cells near to them are left out of the picture; a lower --most keeps them all."
    return text


def _violations(scene: Scene) -> str:
    """A row for each listed violation, with a link to its place."""
    if not scene.broken:
        return ""
    swatches = {team: _swatch(scene.frame, team) for team in {cell.team for cell in scene.broken}}
    units, lines = scene.frame.facts.units, []
    for cell in scene.broken:
        assert cell.box is not None and cell.rule is not None
        anchor = text_of("v=" + quote(cell.name, safe="", errors="replace"))
        values = text_of(_words(cell).removeprefix(cell.name).strip())
        name = f'<a class="name" href="#{anchor}">{text_of(cell.name)}</a><small>{values}</small>'
        place = f"{cell.box.left / units:,.10g}, {cell.box.bottom / units:,.10g}"
        team = swatches[cell.team] + text_of(cell.team)
        rule = f"{cell.rule} {RULES.get(cell.rule, '')}"
        fields = (
            f'<td>{name}</td><td class="rule">{rule}</td><td class="team">{team}</td><td class="number">{place}</td>'
        )
        lines.append(f'<tr data-go="{anchor}">{fields}</tr>\n')
    head = '<tr><th>Cell</th><th>Rule</th><th>Team</th><th class="number">Place (µm)</th></tr>'
    return f"<table><thead>{head}</thead><tbody>\n{''.join(lines)}</tbody></table>"


def _teams(report: Report) -> str:
    """A row for each team, with a link to its fence."""
    scene, square = report.scene, report.scene.frame.facts.units**2
    lines = []
    for team, tally in scene.tallies.items():
        anchor = text_of("t=" + quote(team, safe="", errors="replace"))
        name = text_of(team) + ("<small>the ground outside all fences</small>" if team == GROUND else "")
        broken = ", ".join(f"{RULES.get(rule, rule)} {count:,}" for rule, count in sorted(tally.broken.items()))
        illegal = f'<span class="bad">{tally.broken.total():,}</span><small>{broken}</small>' if broken else "0"
        numbers = (
            f"{tally.cells:,}",
            f"{tally.cells - tally.unplaced:,}",
            f'<span class="warn">{tally.unplaced:,}</span>' if tally.unplaced else "0",
            illegal,
        )
        areas = f"{tally.area / square:,.1f}", f"{report.ground[team] / square:,.1f}"
        cells = "".join(f'<td class="number">{value}</td>' for value in numbers)
        cells += "".join(f'<td class="number wide">{value}</td>' for value in areas)
        cells += f'<td class="number">{_utilization(tally.area, report.ground[team])}</td>'
        lines.append(
            f'<tr data-go="{anchor}"><td>{_swatch(scene.frame, team)}<a href="#{anchor}">{name}</a></td>{cells}</tr>\n'
        )
    head = "".join(f'<th class="number">{name}</th>' for name in ("Cells", "Placed", "Unplaced", "Illegal"))
    head += "".join(f'<th class="number wide">{name}</th>' for name in ("Cells, µm²", "Ground, µm²"))
    head = f'<tr><th>Team</th>{head}<th class="number">Utilization</th></tr>'
    return f"<table><thead>{head}</thead><tbody>\n{''.join(lines)}</tbody></table>"


def _utilization(area: int, ground: int) -> str:
    if ground == 0:
        return "–" if area == 0 else '<span class="bad">no ground</span>'
    share = area / ground
    kind = ' class="bad"' if share > 1 else ""
    return f'<span class="bar"><i style="width:{min(1, share):.1%}"></i></span><span{kind}>{share:.1%}</span>'


def _facts(report: Report) -> str:
    scene = report.scene
    frame, facts = scene.frame, scene.frame.facts
    units, box = facts.units, frame.box
    wires = report.wires.text(units) if report.wires else "; ".join(report.notes)
    fixed = sum(obstacle.name is not None for obstacle in frame.obstacles)
    values = {
        "Design": facts.name,
        "Units": f"{number(units, 'database unit')} per micron",
        "Core site": f"{facts.site}, {facts.site_width / units:g} × {facts.site_height / units:g} µm",
        "Extent": f"{box.width / units:,.10g} × {box.height / units:,.10g} µm",
        "Lower left corner": f"{box.left / units:,.10g}, {box.bottom / units:,.10g} µm",
        "Core rows": f"{len(frame.rows):,}",
        "Fences": f"{len(frame.fences):,}",
        "Obstacles": f"{fixed:,} FIXED, {number(len(frame.obstacles) - fixed, 'rectangle')} of blockages",
        "Soft blockages": number(len(frame.soft), "rectangle"),
        "Cells": f"{scene.sum_of('cells'):,}",
        **({} if scene.sum_of("broken") else {"Violations": "No cell breaks a rule."}),
        **({"Wire length": wires} if wires else {}),
        **({"Nets in the picture": report.nets[1]} if report.nets[1] else {}),
        "Made": f"{_date()}, by {TOOL} {__version__}",
    }
    return "".join(f"<div><dt>{key}</dt><dd>{text_of(value)}</dd></div>" for key, value in values.items())


def parser() -> Parser:
    made = Parser(
        TOOL,
        "Writes a page about a design: a picture to move and zoom, the cells that break a rule with links to their\n"
        "places, and each team's cells and utilization. The page finds cells, shows how full the rows are, and if the\n"
        "DEF file has NETS, the nets of a clicked cell. It is one file that needs no network.",
        f"{TOOL} chip.def tech.lef cells.lef -o report.html\n"
        f"{TOOL} new.def tech.lef cells.lef --before chip.def -o report.html",
    )
    made.add_design()
    add = made.add_argument
    add("-o", "--output", metavar="FILE", type=Path, help="write the page to FILE (default: standard output)")
    add("--before", metavar="DEF", type=Path, help="also report which cells moved since this DEF file, and how far")
    add("--most", metavar="N", type=int, default=MOST_LISTED, help=f"list at most N violations ({MOST_LISTED})")
    add(
        "--limit",
        metavar="N",
        type=int,
        default=LIMIT,
        help=f"draw a map if the design has more than N cells ({LIMIT})",
    )
    made.add_program()
    return made


def main() -> int:
    options = parser().parse_args()

    def work() -> int:
        use_plain_files(options, "design", "libraries", "before")
        if options.output is not None:
            refuse_inputs(
                options.output, [options.design, *options.libraries, *([options.before] if options.before else [])]
            )
        program = find_program(options.program)
        report = report_of(
            program, options.design, options.libraries, max(0, options.limit), max(0, options.most), options.before
        )
        page = page_of(report).encode()
        write_output(options.output, page)
        if options.output is not None:
            log(TOOL, f"{options.output}: {len(page)} bytes")
        return DONE

    return run_tool(TOOL, work)
