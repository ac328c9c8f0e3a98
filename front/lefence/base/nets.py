"""The nets of a DEF file, and where their pins are, as `lefence wirelength` measures them.

docs/CLI.md, "The wire length", says which pins have a point. Points and sizes of macros here are in half database
units, since the middle of a pin's shapes need not be a whole one. The functions expect texts that the program measures.
For any other text they only promise to end.
"""

from __future__ import annotations

import math
import re
from collections.abc import Collection, Iterable, Iterator, Mapping
from decimal import Decimal
from typing import NamedTuple

from .design import TOKENS, Design, Entry
from .lef import length, macros_of, sizes_in

# A whole number of a DEF text, which may be written with decimals.
_NUMBER = re.compile(rb"[+-]?\d{1,10}(\.0*)?")
_PLACEMENTS = (b"PLACED", b"FIXED", b"COVER")
_SUPPLIES = (b"POWER", b"GROUND")
# The component of a pin of the design.
_DESIGN = b"PIN"
# The orientations whose box is as wide as the macro is high.
_SIDEWAYS = (b"W", b"E", b"FW", b"FE")

Point = tuple[int, int]
_Box = tuple[Decimal, Decimal, Decimal, Decimal]


class Pin(NamedTuple):
    """A pin of a net: its component, or None for a pin of the design, and its name."""

    component: bytes | None
    name: bytes


class Net(NamedTuple):
    """A net that is neither POWER nor GROUND."""

    name: bytes
    pins: tuple[Pin, ...]


class Macro(NamedTuple):
    """A macro facing north: its size, and the points of its pins from its lower left corner."""

    width: int
    height: int
    pins: Mapping[bytes, Point]


# A port of a pin of the design is turned as a macro without extent.
_PORT = Macro(0, 0, {})


class Place(NamedTuple):
    """The lower left corner of a component's box in database units, and its orientation."""

    x: int
    y: int
    orient: bytes


class Netlist:
    """The nets of a design, with the macros and places of their components, and the points of the design's pins.

    `places` may be changed: the points of pins follow it.
    """

    def __init__(self, design: Design, libraries: Iterable[bytes], units: int, cells: Collection[bytes] | None = None):
        """Reads a design with its LEF texts; with `cells`, only the nets of these components."""
        self.nets = [net for net in nets_of(design) if cells is None or any(pin.component in cells for pin in net.pins)]
        self._components = {pin.component for net in self.nets for pin in net.pins}
        self.macro_names: dict[bytes, bytes] = {}
        self.places: dict[bytes, Place] = {}
        for entry in design.entries(b"COMPONENTS"):
            if entry.name in self._components and entry.name not in self.macro_names:
                self.macro_names[entry.name] = entry.words[1] if len(entry.words) > 1 else b""
                if place := _placed(entry):
                    self.places[entry.name] = place
        self._pins: dict[bytes, list[Point]] = {}
        for entry in design.entries(b"PINS"):
            self._pins.setdefault(entry.name, _points_of_ports(entry))
        names = {*self.macro_names.values()}
        self.macros: dict[bytes, Macro] = {}
        for text in libraries:
            for name, words in macros_of(text):
                if name in names and name not in self.macros:
                    self.macros[name] = _macro(words, units)

    def macro_of(self, component: bytes) -> Macro | None:
        """Returns the macro of a component, or None if the texts do not have it."""
        return self.macros.get(self.macro_names.get(component, b""))

    def points(self, pin: Pin) -> list[Point]:
        """Returns the points of a pin: one for each placed port of a pin of the design, and one for that of a cell.

        The list is empty if the pin does not count: something is missing, or has no place.
        """
        if pin.component is None:
            return self._pins.get(pin.name, [])
        macro, place = self.macro_of(pin.component), self.places.get(pin.component)
        if macro is None or place is None or pin.name not in macro.pins:
            return []
        return [_placed_point(macro.pins[pin.name], macro, place)]

    def points_or_middle(self, pin: Pin) -> list[Point]:
        """Returns the points of a pin; if it has none, the middle of its component if that has a place."""
        if (points := self.points(pin)) or pin.component is None:
            return points
        macro, place = self.macro_of(pin.component), self.places.get(pin.component)
        if macro is None or place is None:
            return []
        wide, high = (macro.height, macro.width) if place.orient in _SIDEWAYS else (macro.width, macro.height)
        return [(2 * place.x + wide // 2, 2 * place.y + high // 2)]

    def length(self, net: Net) -> int:
        """Returns the length of a net in half database units."""
        points = [point for pin in net.pins for point in self.points(pin)]
        if not points:
            return 0
        xs, ys = zip(*points)
        return int(max(xs) - min(xs) + max(ys) - min(ys))


def turned(point: Point, macro: Macro, orient: bytes) -> Point:
    """Returns a point of a macro from the lower left corner of the box that it has in this orientation."""
    x, y = point
    right, top = macro.width - x, macro.height - y
    match orient:
        case b"S":
            return right, top
        case b"FN":
            return right, y
        case b"FS":
            return x, top
        case b"W":
            return top, x
        case b"E":
            return y, right
        case b"FW":
            return y, x
        case b"FE":
            return top, right
    return x, y


def nets_of(design: Design) -> Iterator[Net]:
    """Yields the nets of NETS that are neither POWER nor GROUND, in the order of the text."""
    for entry in design.entries(b"NETS"):
        if b"USE" not in entry.text or entry.value_after(b"USE") not in _SUPPLIES:
            yield Net(entry.name, tuple(_pins(entry)))


def _pins(entry: Entry) -> Iterator[Pin]:
    """Yields the pins of a net, which come before its first `+`."""
    tokens = TOKENS.finditer(entry.text)
    for token in tokens:
        if token[1] in (b"+", b";"):
            return
        if token[1] == b"(":
            words = []
            for inner in tokens:
                if inner[1] in (b")", b";"):
                    break
                words.append(inner[1])
            if len(words) > 1:
                yield Pin(None if words[0] == _DESIGN else words[0], words[1])


def _clauses(entry: Entry) -> Iterator[list[bytes]]:
    """Yields the words of an entry's clauses, each without its `+`."""
    words = entry.words
    starts = [at for at, word in enumerate(words) if word == b"+"]
    for start, stop in zip(starts, [*starts[1:], len(words)]):
        yield words[start + 1 : stop]


def _corner(words: list[bytes]) -> Point | None:
    """The point whose coordinates these words begin with, or None."""
    if len(words) < 2 or not all(map(_NUMBER.fullmatch, words[:2])):
        return None
    return int(Decimal(words[0].decode())), int(Decimal(words[1].decode()))


def _place_in(clause: list[bytes]) -> Place | None:
    """The place in a clause of a component or a pin; None unless it is PLACED, FIXED or COVER."""
    if len(clause) > 5 and clause[0] in _PLACEMENTS and clause[1] == b"(" and (at := _corner(clause[2:])):
        return Place(*at, clause[5])
    return None


def _placed(entry: Entry) -> Place | None:
    """The place in the first clause of a component that has one; None if none has."""
    return next(filter(None, map(_place_in, _clauses(entry))), None)


def _placed_point(point: Point, macro: Macro, place: Place) -> Point:
    """The point of a design that a point of a macro is at, if the macro is at this place."""
    x, y = turned(point, macro, place.orient)
    return 2 * place.x + x, 2 * place.y + y


def _points_of_ports(entry: Entry) -> list[Point]:
    """The points of a pin of the design, one for each of its ports that is placed: the middle of the least box around
    the port's LAYER and POLYGON clauses, or where it is placed if it has none."""
    found: list[Point] = []
    place: Place | None = None
    corners: list[Point] = []
    for clause in [*_clauses(entry), [b"PORT"]]:
        if clause[:1] == [b"PORT"]:
            if place:
                xs, ys = zip(*corners or [(0, 0)])
                middle = min(xs) + max(xs), min(ys) + max(ys)
                found.append(_placed_point(middle, _PORT, place))
            place, corners = None, []
        elif clause[:1] in ([b"LAYER"], [b"POLYGON"]):
            starts = [at for at, word in enumerate(clause) if word == b"("]
            corners += filter(None, (_corner(clause[at + 1 :]) for at in starts))
        else:
            place = place or _place_in(clause)
    return found


def _macro(words: list[bytes], units: int) -> Macro:
    """A macro, given its words."""
    width, height = (math.floor(2 * side * units) for side in sizes_in(words)[0])
    boxes: dict[bytes, _Box | None] = {}
    x = y = Decimal(0)
    rest = iter(words)
    for word in rest:
        if word == b"PIN":
            name = next(rest, b"")
            boxes.setdefault(name, _box_of_pin(rest))
        elif word in (b"OBS", b"DENSITY"):
            _skip_to(rest, b"END")
        else:
            statement = _skip_to(rest, b";")
            if word == b"ORIGIN" and len(statement) == 2:
                x, y = map(length, statement)
    pins = {
        name: (math.floor((box[0] + box[2] + 2 * x) * units), math.floor((box[1] + box[3] + 2 * y) * units))
        for name, box in boxes.items()
        if box is not None
    }
    return Macro(width, height, pins)


def _box_of_pin(rest: Iterator[bytes]) -> _Box | None:
    """Reads a pin up to END and its name; returns the least box around the RECTs and POLYGONs of its PORTs, if any."""
    xs: list[Decimal] = []
    ys: list[Decimal] = []
    for word in rest:
        if word == b"END":
            # (END and the name of the pin)
            next(rest, None)
            break
        if word != b"PORT":
            _skip_to(rest, b";")
            continue
        for inner in rest:
            if inner == b"END":
                break
            statement = _skip_to(rest, b";")
            if inner in (b"RECT", b"POLYGON"):
                numbers = _numbers(statement)
                xs += numbers[::2]
                ys += numbers[1::2]
    return (min(xs), min(ys), max(xs), max(ys)) if xs and ys else None


def _skip_to(rest: Iterator[bytes], last: bytes) -> list[bytes]:
    """Reads the words up to this one; returns those before it."""
    found = []
    for word in rest:
        if word == last:
            break
        found.append(word)
    return found


def _numbers(words: list[bytes]) -> list[Decimal]:
    """The coordinates of a RECT or a POLYGON: of an ITERATE those of the first shape."""
    start = 2 if words[:1] == [b"MASK"] else 0
    end = words.index(b"DO") if b"DO" in words else len(words)
    return [length(word) for word in words[start:end] if word not in (b"ITERATE", b"(", b")")]
