"""What loads and may then go wrong: words that the program reads otherwise than the flow, and cells that are not of the
team that their place suggests, or that no place can hold.

Each remark has a count, the first names, and the option of lefence-prepare that helps.
"""

from __future__ import annotations

import contextlib
import os
import subprocess
import sys
from collections import Counter, defaultdict
from collections.abc import Callable, Iterator, Mapping
from decimal import Decimal
from pathlib import Path
from typing import NamedTuple

from ..base.description import Cell, Description, Facts, Frame
from ..base.design import shown
from ..base.faults import Fault, as_given, log
from ..base.lef import lines_of, rails_of, sites_of, sizes_of
from .library_text import LOWER_CASE, LibraryText
from .preparation import Preparation
from .cells import FenceGround, halos_in, strangers_in
from .skipped import Remark, few_of_each

# The most rows that a cell may be high, and the names that a remark shows.
_MOST_ROWS, _MOST_NAMES = 8, 3
_CORRECTED = "--lef-output FOLDER writes LEF files without this"
# What the program does with each kind of change that a LEF text needs.
_LIBRARY_KINDS = {
    LOWER_CASE: "the program reads words in capitals only",
    "numbers": "the program reads at most six decimals and no exponents",
    "text after END LIBRARY": "the program reads a LEF file up to its first END LIBRARY",
    "byte order marks": "the program refuses a byte order mark",
    "rails drawn by POLYGON": "the program knows rails by RECTs only",
}


class _Few:
    """A count of names, with the first ones."""

    def __init__(self) -> None:
        self.count = 0
        self._names: list[str] = []

    def add(self, name: str) -> None:
        self.count += 1
        if self.count <= _MOST_NAMES:
            self._names.append(name)

    def __str__(self) -> str:
        return ", ".join(self._names) + (", .." if self.count > _MOST_NAMES else "")


def library_pitfalls(libraries: Mapping[str, bytes]) -> Iterator[Remark]:
    """Yields a remark for each kind of change that a LEF text needs, given the texts by the names of their files."""
    for path, text in libraries.items():
        library = LibraryText(text)
        first: dict[str, tuple[int, str]] = {}
        counts: Counter[str] = Counter()
        for change in sorted(library.changes):
            counts[change.kind] += 1
            first.setdefault(change.kind, (text.count(b"\n", 0, change.start) + 1, change.text))
        for kind, (line, what) in first.items():
            where = f"LEF file {path}, line {line}: {what}"
            more = f" and {counts[kind] - 1} more like it" if counts[kind] > 1 else ""
            yield Remark(kind, f"{where}{more} would help: {_LIBRARY_KINDS[kind]}; {_CORRECTED}")


class _Definition(NamedTuple):
    """A site or a macro of a LEF file: its size in microns, the file, and its number among those of its name there."""

    width: Decimal
    height: Decimal
    path: str
    number: int

    def in_words(self, text: bytes, keyword: bytes, name: bytes) -> str:
        """The size and the place, given the file's text."""
        lines = lines_of(text, keyword, name)
        line = f", line {lines[self.number]}" if self.number < len(lines) else ""
        return f"{self.width.normalize():f} by {self.height.normalize():f} microns in LEF file {self.path}{line}"


def size_pitfalls(libraries: Mapping[str, bytes]) -> Iterator[Remark]:
    """Yields a remark for each of the first sites and macros that the LEF texts define with two sizes."""
    return few_of_each(_two_sizes(libraries))


def _two_sizes(libraries: Mapping[str, bytes]) -> Iterator[Remark]:
    for keyword, what in ((b"SITE", "site"), (b"MACRO", "macro")):
        first: dict[bytes, _Definition] = {}
        others: dict[bytes, _Definition] = {}
        for path, text in libraries.items():
            counts: Counter[bytes] = Counter()
            sites = ((site.name, site.width, site.height) for site in sites_of(text))
            for name, width, height in sites if keyword == b"SITE" else sizes_of(text):
                found = _Definition(width, height, path, counts[name])
                counts[name] += 1
                if first.setdefault(name, found)[:2] != found[:2]:
                    others.setdefault(name, found)
        for name, other in others.items():
            used = first[name].in_words(libraries[first[name].path], keyword, name)
            unused = other.in_words(libraries[other.path], keyword, name)
            text_of_sizes = f"{what} {shown(name)} is {used}, but {unused}"
            yield Remark(f"{what}s of two sizes", f"{text_of_sizes}: the program uses the first")


def design_pitfalls(text: bytes, libraries: list[bytes]) -> Iterator[Remark]:
    """Yields a remark on components with a HALO without a placement blockage, given the LEF texts."""
    halos = _Few()
    # (a text without UNITS does not load)
    with contextlib.suppress(Fault):
        for name, _ in halos_in(Preparation(text), libraries):
            halos.add(name)
    if halos.count:
        have = "1 FIXED component has" if halos.count == 1 else f"{halos.count} FIXED components have"
        what = f"{have} a HALO, which the program skips: {halos}"
        yield Remark("halos", f"{what}; --halos adds placement blockages")


class CellPitfalls:
    """The cells of a design that may go wrong, as the program describes them one by one."""

    def __init__(self, frame: Frame) -> None:
        self._ground = FenceGround(frame)
        self._tallest = _MOST_ROWS * frame.facts.site_height
        self._height = frame.facts.site_height
        self._strangers: defaultdict[str, _Few] = defaultdict(_Few)
        self._tall, self._odd, self._flipped = _Few(), _Few(), _Few()
        self._count = 0
        # Macros with an even number of rows, each with a cell.
        self._even: dict[str, str] = {}

    def add(self, cell: Cell) -> None:
        """Notes a cell."""
        self._count += 1
        for name, fence in strangers_in((cell,), self._ground):
            self._strangers[fence].add(name)
        if cell.height > self._tallest:
            self._tall.add(f"{cell.name} ({cell.macro})")
        elif cell.height % self._height:
            self._odd.add(f"{cell.name} ({cell.macro})")
        elif cell.height % (2 * self._height) == 0:
            self._even.setdefault(cell.macro, cell.name)
        if cell.rule == 4:
            self._flipped.add(cell.name)

    def remarks(self, facts: Facts, libraries: list[bytes]) -> Iterator[Remark]:
        """Yields the remarks, given the LEF texts."""
        for fence, names in self._strangers.items():
            what = f"{_cells(names)} of team - {_are(names)} inside fence {fence}: {names}"
            yield Remark("cells inside fences", f"{what}; --adopt {fence} binds them to its team")
        for names, height in ((self._tall, f"higher than {_MOST_ROWS} rows"), (self._odd, "not of whole rows' height")):
            # (if no cell fits the rows, the site is at fault)
            if 0 < names.count < max(self._count, 2):
                what = f"{_cells(names)} can move and {_are(names)} {height}: {names}"
                yield Remark("high cells", f"{what}; no rows hold such a cell; --fix PATTERN makes it FIXED")
        if self._flipped.count and not _has_symmetry(facts.site, libraries):
            what = f"{_cells(self._flipped)} {_are(self._flipped)} flipped against the row: {self._flipped}"
            yield Remark("flipped cells", f"{what}; site {facts.site} has no SYMMETRY in its LEF file")
        rails = dict(pair for text in reversed(libraries) for pair in list(rails_of(text))[::-1])
        unknown = _Few()
        for macro in self._even:
            if not rails.get(macro.encode(), True):
                unknown.add(macro)
        if unknown.count:
            what = f"no RECT of a POWER or GROUND pin is known of {_macros(unknown)} of even height: {unknown}"
            yield Remark("unknown rails", f"{what}; the program then takes ground for the bottom rail")


def _cells(names: _Few) -> str:
    return "1 cell" if names.count == 1 else f"{names.count} cells"


def _macros(names: _Few) -> str:
    return "1 macro" if names.count == 1 else f"{names.count} macros"


def _are(names: _Few) -> str:
    return "is" if names.count == 1 else "are"


def _has_symmetry(name: str, libraries: list[bytes]) -> bool:
    """Whether the first site of this name has a SYMMETRY."""
    found = (site.has_symmetry for text in libraries for site in sites_of(text) if shown(site.name) == name)
    return next(found, True)


def warn(say: Callable[[str], None], program: str, design: Path, libraries: list[Path]) -> None:
    """Says what may go wrong with a design; nothing if it cannot be read, or the program refuses it or dies."""
    with contextlib.suppress(Fault, OSError, ValueError, KeyError, TypeError):
        for remark in _remarks_of(program, design, libraries):
            say(f"warning: {remark.text}")


def _remarks_of(program: str, design: Path, libraries: list[Path]) -> list[Remark]:
    texts = {as_given(str(path)): path.read_bytes() for path in libraries}
    of_design = design_pitfalls(design.read_bytes(), list(texts.values()))
    remarks = [*library_pitfalls(texts), *size_pitfalls(texts), *of_design]
    with Description(program, design, libraries) as description:
        pitfalls = CellPitfalls(description.frame)
        for cell in description.cells():
            pitfalls.add(cell)
        return [*remarks, *pitfalls.remarks(description.frame.facts, list(texts.values()))]


def start_warning(tool: str, program: str, design: Path, libraries: list[Path]) -> subprocess.Popen[bytes]:
    """Starts a process that prints the remarks on a design on standard error, in this tool's name."""
    package = Path(__file__).resolve().parents[2]
    words = [sys.executable, "-m", __name__, tool, program, str(design), *map(str, libraries)]
    return subprocess.Popen(words, stdin=subprocess.DEVNULL, env={**os.environ, "PYTHONPATH": str(package)})


if __name__ == "__main__":
    _tool, _program, *_texts = sys.argv[1:]
    _design, *_libraries = map(Path, _texts)
    warn(lambda text: log(_tool, text), _program, _design, _libraries)
