"""A scene as an SVG. The chip is in database units, in a group that is flipped vertically."""

from __future__ import annotations

import math
import re
from collections.abc import Iterable, Iterator
from html import escape
from typing import NamedTuple

from ..base.description import Box, Cell, Obstacle
from ..base.protocol import GROUND
from ..base.wording import number
from ..client.refusals import violation_text
from .scene import BROKEN, OBSTACLES, SHADES, Bins, Scene, colour_of, darker, intersection, row_blocks

# In pixels: the longer side of the chip, the space around it, the width of the legend and the height of the heading.
CHIP, SPACE, LEGEND, HEAD = 760, 24, 216, 76
# Heights in pixels below which rows are drawn without lines, and names not at all.
LEAST_ROW, LEAST_NAME = 5, 9
# The most teams in the legend, and the most characters of their names.
MOST_NAMES, LONGEST_NAME = 20, 24

# Characters that XML does not allow.
_NO_TEXT = re.compile("[^\t\n\r\x20-\ud7ff\ue000-\ufffd\U00010000-\U0010ffff]")
# The colours of arrows by their greatest length in rows.
MOVE_COLOURS = (
    (2, "#20124d"),
    (5, "#5b1a8b"),
    (10, "#a3158f"),
    (20, "#e0457b"),
    (50, "#ff7f3f"),
    (math.inf, "#ffb000"),
)
# Characters that are as wide as high in most fonts; the others have about two thirds of that.
_WIDE = re.compile(r"[mwMWQ%@&]|[^\x00-\x7f]")
_INK, _FAINT, _OBSTACLE, _BLOCKAGE, _SOFT = "#1d232b", "#667080", "#59626e", "#aab2bd", "#8a6a2f"


class Move(NamedTuple):
    """A cell that moved."""

    name: str
    before: Box
    after: Box

    @property
    def length(self) -> int:
        """The displacement along x plus along y."""
        return abs(self.after.left - self.before.left) + abs(self.after.bottom - self.before.bottom)


class _Line(NamedTuple):
    """A line of the legend, and its approximate width."""

    svg: str
    wide: float


def text_of(name: str) -> str:
    """Escapes a name for XML or HTML."""
    return escape(_NO_TEXT.sub(lambda found: f"\\x{ord(found[0]):02x}", name))


def shortened(name: str, most: int = LONGEST_NAME) -> str:
    """Shortens a long name to its beginning and end."""
    return name if len(name) <= most else f"{name[: most // 2]}…{name[-(most - most // 2 - 1) :]}"


def by_length(moves: list[Move], row_height: int) -> Iterator[tuple[str, str, list[Move]]]:
    """Groups the moves by length, shortest first: a label, the colour of the arrows, and the moves."""
    least = 0.0
    for most, colour in MOVE_COLOURS:
        label = f"up to {most} rows" if most < math.inf else f"over {least:g} rows"
        yield label, colour, [move for move in moves if least < move.length / row_height <= most]
        least = most


class Drawing:
    """A scene to be drawn, with arrows for moves; `moved` is the number of all moves."""

    def __init__(self, scene: Scene, moves: list[Move] | None = None, moved: int = 0) -> None:
        self.scene, self.view = scene, scene.view
        self.moves, self.moved = moves, moved
        self.scale = CHIP / max(self.view.width, self.view.height)
        self.wide, self.high = self.view.width * self.scale, self.view.height * self.scale

    def svg(self) -> Iterator[str]:
        """Yields the SVG in pieces."""
        facts, legend = self.scene.frame.facts, [*self._legend()]
        height = max(self.high + HEAD + SPACE, HEAD + 22 * len(legend) + SPACE)
        width = self.wide + max(LEGEND, *(line.wide for line in legend)) + 3 * SPACE
        name = text_of(facts.name)
        yield f'<svg xmlns="http://www.w3.org/2000/svg" width="{width:.0f}" height="{height:.0f}" '
        yield f'viewBox="0 0 {width:.0f} {height:.0f}" font-family="DejaVu Sans, Helvetica, Arial, sans-serif">\n'
        yield f'<title>{name}</title>\n<rect width="{width:.0f}" height="{height:.0f}" fill="#ffffff"/>\n'
        yield f'<rect x="{SPACE}" y="{HEAD}" width="{self.wide:.2f}" height="{self.high:.2f}" fill="#f1f3f6"/>\n'
        across, up = SPACE - self.view.left * self.scale, HEAD + self.view.top * self.scale
        yield f'<g id="chip" transform="matrix({self.scale:.9g} 0 0 {-self.scale:.9g} {across:.9g} {up:.9g})">\n'
        yield from self._chip()
        yield "</g>\n"
        yield from self._names()
        # Cover what is drawn outside the chip, for example arrows from far away.
        outer = f"M0 0h{width:.2f}v{height:.2f}h-{width:.2f}z"
        inner = f"M{SPACE} {HEAD}h{self.wide:.2f}v{self.high:.2f}h-{self.wide:.2f}z"
        yield f'<path fill="#ffffff" fill-rule="evenodd" d="{outer}{inner}"/>\n'
        heading = text_of(shortened(facts.name, 60))
        yield f'<text x="{SPACE}" y="38" font-size="20" font-weight="bold" fill="{_INK}">{heading}</text>\n'
        yield f'<text x="{SPACE}" y="60" font-size="13" fill="{_FAINT}">{self._summary()}</text>\n'
        yield f'<g id="legend" font-size="13" fill="{_INK}">\n'
        for at, line in enumerate(legend):
            yield f'<g transform="translate({self.wide + 2 * SPACE:.2f} {HEAD + 22 * at})">{line.svg}</g>\n'
        yield "</g>\n</svg>\n"

    def _summary(self) -> str:
        scene, units = self.scene, self.scene.frame.facts.units
        box = scene.frame.box
        size = f"{box.width / units:,.4g} × {box.height / units:,.4g} µm"
        parts = [size, number(len(scene.frame.rows), "row"), number(scene.sum_of("cells"), "cell")]
        parts += [
            number(scene.sum_of("broken"), "breaks a rule", "break a rule"),
            f"{scene.sum_of('unplaced'):,} unplaced",
        ]
        return text_of(" · ".join(parts))

    def _box(self, box: Box, name: str | None = None) -> str:
        """The part of a rectangle inside the view, as SVG."""
        part = intersection(box, self.view)
        if part is None:
            return ""
        end = "/>" if name is None else f"><title>{text_of(name)}</title></rect>"
        return f'<rect x="{part.left}" y="{part.bottom}" width="{part.width}" height="{part.height}"{end}\n'

    def _group(self, name: str, style: str, boxes: Iterable[str]) -> Iterator[str]:
        yield f'<g id="{name}" {style}>\n'
        yield from boxes
        yield "</g>\n"

    def _line(self, width: float) -> str:
        """The width of a line in database units: Qt's SVG supports no other way."""
        return f'stroke-width="{width / self.scale:.4g}"'

    def _chip(self) -> Iterator[str]:
        scene, frame = self.scene, self.scene.frame
        lines = frame.facts.site_height * self.scale >= LEAST_ROW
        stroke = f'stroke="#d9dee5" {self._line(0.8)}' if lines else ""
        rows = [row.box for row in frame.rows] if lines else row_blocks(frame)
        yield from self._group("rows", f'fill="#ffffff" {stroke}', map(self._box, rows))
        yield from self._group("fences", 'fill-opacity="0.13"', self._fences("fill"))
        yield from self._cells() if scene.map is None else self._map()
        fixed = [obstacle for obstacle in scene.obstacles if obstacle.name is not None]
        blocked = (self._box(obstacle.box) for obstacle in scene.obstacles if obstacle.name is None)
        line = self._line(0.8)
        yield from self._group("blockages", f'fill="{_BLOCKAGE}" stroke="#7b8490" {line}', blocked)
        yield from self._group("fixed", f'fill="{_OBSTACLE}" stroke="#363d47" {line}', map(self._fixed, fixed))
        dashes = f'stroke-dasharray="{4 / self.scale:.4g} {3 / self.scale:.4g}"'
        style = f'fill="{_SOFT}" fill-opacity="0.12" stroke="{_SOFT}" {self._line(1)} {dashes}'
        yield from self._group("soft", style, map(self._box, scene.soft))
        if scene.map is None:
            style = f'fill="{BROKEN}" stroke="#7d0f0f" {line}'
            yield from self._group("broken", style, map(self._broken, scene.broken))
        else:
            yield from self._broken_map()
        yield from self._group("borders", f'fill="none" {self._line(1.6)}', self._fences("stroke"))
        if self.moves is not None:
            style = f'fill="none" stroke-opacity="0.85" {self._line(1.1)}'
            yield from self._group("moves", style, self._arrows())

    def _arrows(self) -> Iterator[str]:
        for _, colour, moves in by_length(self.moves or [], self.scene.frame.facts.site_height):
            if moves:
                yield f'<g stroke="{colour}">\n{"".join(map(self._arrow, moves))}</g>\n'

    def _fences(self, key: str) -> Iterator[str]:
        """The fences, with their colours as this attribute."""
        for at, fence in enumerate(self.scene.frame.fences):
            boxes = "".join(map(self._box, fence.rects))
            yield f'<g {key}="{colour_of(at, fence.name)}"><title>{text_of(fence.name)}</title>\n{boxes}</g>\n'

    def _cells(self) -> Iterator[str]:
        teams: dict[str, list[Cell]] = {}
        for cell in self.scene.cells:
            if cell.rule is None:
                teams.setdefault(cell.team, []).append(cell)
        yield '<g id="cells">\n'
        for at, team in enumerate(self.scene.frame.teams):
            colour = colour_of(at, team)
            style = f'fill="{colour}" fill-opacity="0.8" stroke="#ffffff" {self._line(0.5)}'
            if team in teams:
                boxes = "".join(self._box(cell.box, cell.name) for cell in teams[team] if cell.box)
                yield f"<g {style}>\n{boxes}</g>\n"
        yield "</g>\n"

    def _map(self) -> Iterator[str]:
        assert self.scene.map is not None
        bins, teams = self.scene.map, self.scene.frame.teams
        yield f'<g id="map" {self._place(bins)}>\n'
        for (team, shade), path in bins.paths().items():
            colour = _OBSTACLE if team == OBSTACLES else colour_of(team, teams[team])
            yield f'<path fill="{colour}" fill-opacity="{0.1 + 0.85 * shade / SHADES:.2f}" d="{path}"/>\n'
        yield "</g>\n"

    def _broken_map(self) -> Iterator[str]:
        yield f'<g id="broken" fill="{BROKEN}" {self._place(self.scene.broken_map)}>\n'
        for (_, shade), path in self.scene.red_paths().items():
            yield f'<path fill-opacity="{0.6 + 0.4 * shade / SHADES:.2f}" d="{path}"/>\n'
        yield "</g>\n"

    def _place(self, bins: Bins) -> str:
        """A transformation that makes a bin the unit."""
        return f'transform="matrix({bins.side} 0 0 {bins.side} {bins.view.left} {bins.view.bottom})"'

    def _broken(self, cell: Cell) -> str:
        text = violation_text(cell.rule or 0, cell.name, cell.other, is_there=True)
        return self._box(cell.box, text) if cell.box else ""

    def _fixed(self, obstacle: Obstacle) -> str:
        """A FIXED component, with a cross if it is large."""
        box = self._box(obstacle.box, obstacle.name)
        part = intersection(obstacle.box, self.view)
        if part and min(part.width, part.height) * self.scale > 10:
            left, bottom, right, top = part
            cross = f"M{left} {bottom}L{right} {top}M{left} {top}L{right} {bottom}"
            box += f'<path fill="none" stroke="#ffffff" stroke-opacity="0.35" d="{cross}"/>\n'
        return box

    def _arrow(self, move: Move) -> str:
        """An arrow between the centres of the old and the new place."""
        middles = [((box.left + box.right) / 2, (box.bottom + box.top) / 2) for box in (move.before, move.after)]
        (x0, y0), (x1, y1) = middles
        head = min(6 / self.scale, math.hypot(x1 - x0, y1 - y0) / 2)
        angle = math.atan2(y0 - y1, x0 - x1)
        ends = [
            f"{x1 + head * math.cos(angle + turn):.1f} {y1 + head * math.sin(angle + turn):.1f}"
            for turn in (0.45, -0.45)
        ]
        line = f"M{x0:g} {y0:g}L{x1:g} {y1:g}M{ends[0]}L{x1:g} {y1:g}L{ends[1]}"
        return f'<path d="{line}"><title>{text_of(move.name)}</title></path>\n'

    def _names(self) -> Iterator[str]:
        """The teams' names in the largest rectangles of their fences, if they fit."""
        yield '<g id="names" text-anchor="middle" font-weight="bold">\n'
        for at, fence in enumerate(self.scene.frame.fences):
            parts = [part for rect in fence.rects if (part := intersection(rect, self.view))]
            if not parts:
                continue
            part = max(parts, key=lambda box: box.width * box.height)
            name = shortened(fence.name, 16)
            size = min(15, part.width * self.scale / len(name), part.height * self.scale / 3)
            if size >= LEAST_NAME:
                x = SPACE + ((part.left + part.right) / 2 - self.view.left) * self.scale
                y = HEAD + (self.view.top - (part.bottom + part.top) / 2) * self.scale
                wide = size * (0.75 * len(name) + 1)
                yield f'<rect x="{x - wide / 2:.1f}" y="{y - size * 0.8:.1f}" width="{wide:.1f}" '
                yield f'height="{size * 1.6:.1f}" '
                yield f'rx="{size * 0.4:.1f}" fill="#ffffff" fill-opacity="0.85"/>\n'
                style = f'font-size="{size:.1f}" fill="{darker(colour_of(at, fence.name))}"'
                yield f'<text x="{x:.1f}" y="{y + size * 0.36:.1f}" {style}>{text_of(name)}</text>\n'
        yield "</g>\n"

    def _legend(self) -> Iterator[_Line]:
        scene, frame = self.scene, self.scene.frame
        teams = frame.teams
        shown = [*range(min(len(teams) - 1, MOST_NAMES)), len(teams) - 1]
        for at in shown:
            label = "- (ground)" if teams[at] == GROUND else shortened(teams[at])
            yield _entry(f'fill="{colour_of(at, teams[at])}"', label, number(scene.tallies[teams[at]].cells, "cell"))
        if len(teams) > len(shown):
            yield _note(f"and {number(len(teams) - len(shown), 'team')} more")
        broken = scene.sum_of("broken")
        if broken:
            yield _entry(f'fill="{BROKEN}"', "breaks a rule", number(broken, "cell"))
        fixed = sum(obstacle.name is not None for obstacle in frame.obstacles)
        for count, style, label in (
            (fixed, f'fill="{_OBSTACLE}"', "FIXED component"),
            (len(frame.obstacles) - fixed, f'fill="{_BLOCKAGE}"', "blockage"),
            (
                len(frame.soft),
                f'fill="{_SOFT}" fill-opacity="0.12" stroke="{_SOFT}" stroke-dasharray="3 2"',
                "soft blockage",
            ),
        ):
            if count:
                yield _entry(style, label, f"{count:,}")
        if self.moves is not None:
            yield _note(f"→ {self.moved:,} moved")
            if len(self.moves) < self.moved:
                yield _note(f"the {len(self.moves):,} longest drawn:")
            for label, colour, moves in by_length(self.moves, frame.facts.site_height):
                if moves:
                    yield _entry(f'y="5" height="3" fill="{colour}"', label, f"{len(moves):,}")
        yield from self._notes()

    def _notes(self) -> Iterator[_Line]:
        scene = self.scene
        if scene.sum_of("unplaced"):
            yield _note(f"{scene.sum_of('unplaced'):,} unplaced")
        if scene.outside:
            yield _note(f"{scene.outside:,} outside the picture")
        if scene.map:
            side = scene.map.side / scene.frame.facts.units
            yield _note(f"Bins of {side:.3g} µm; the darker,")
            yield _note("the more area is taken.")
            if scene.shows_too_full:
                yield _note("Most cells break a rule: red")
                yield _note("bins are more than full.")


def _width(text: str, size: int) -> float:
    """The approximate width of a text in pixels."""
    return size * (0.66 * len(text) + 0.34 * len(_WIDE.findall(text)))


def _entry(style: str, label: str, count: str) -> _Line:
    height = "" if "height=" in style else 'height="14" '
    box = f'<rect width="14" {height}rx="2" {style}/>'
    text = f'<text x="22" y="12">{text_of(label)} <tspan fill="{_FAINT}" font-size="11">{count}</tspan></text>'
    return _Line(box + text, 22 + _width(f"{label} ", 13) + _width(count, 11))


def _note(text: str) -> _Line:
    return _Line(f'<text y="12" font-size="12" fill="{_FAINT}">{text_of(text)}</text>', _width(text, 12))
