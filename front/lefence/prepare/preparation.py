"""Changes that make a DEF file loadable: adds rows, fences and groups, removes fillers. All other bytes stay."""

from __future__ import annotations

import itertools
import re
from collections import Counter
from collections.abc import Iterator, Mapping
from dataclasses import dataclass, field
from decimal import Decimal
from typing import NamedTuple

from ..base.description import Box
from ..base.design import (
    TOKENS,
    Entry,
    Statement,
    entries,
    fences_of,
    pattern_of,
    section_parts,
    shown,
    statements,
    words_in,
)
from ..base.faults import REFUSED, USAGE, Fault
from ..base.lef import Site
from .skipped import line_of

# The most rows that the program loads.
MOST_ROWS = 65_535
_NUMBER = re.compile(rb"[+-]?\d{1,10}(\.0*)?")
_WORD = re.compile(rb"[^ \t\r\n]+")
_REST = re.compile(rb"[ \t\r]*(#[^\n]*)?(?=\n)")
# A name or a pattern in a DEF file: not a quoted text, not a comment.
_NAME = re.compile(r"[!$-~][!-~]*")
# Orientations of cells in a row with orientation N, and in one with FS.
_UPRIGHT, _FLIPPED = (b"N", b"FN"), (b"FS", b"S")


class _Change(NamedTuple):
    """Bytes that replace those from start up to stop."""

    start: int
    stop: int
    text: bytes


class Grid(NamedTuple):
    """The origin of the rows up to whole sites, and whether the row there is N; `reason` says how it was found."""

    x: int
    y: int
    is_upright: bool
    reason: str


@dataclass
class PreparationOptions:
    """The requested changes, in database units. The core is None if it is DIEAREA; `margin` is subtracted on every
    side. Lists have patterns of names, or names of sites, regions and fences.
    """

    replaces_rows: bool = False
    margin: int = 0
    core: Box | None = None
    dropped_sites: list[str] = field(default_factory=list)
    fillers: list[str] = field(default_factory=list)
    fixed: list[str] = field(default_factory=list)
    regions: list[str] = field(default_factory=list)
    fences: dict[str, list[Box]] = field(default_factory=dict)
    groups: dict[str, list[str]] = field(default_factory=dict)
    splits_patterns: bool = False
    adds_halos: bool = False
    adopting: list[str] = field(default_factory=list)
    # The text of the floorplan, and what messages call it.
    floorplan: bytes | None = None
    floorplan_name: str = ""


class Preparation:
    """A DEF text with pending changes; `messages` has a line for each change."""

    def __init__(self, text: bytes) -> None:
        self.text = text
        self.statements = statements(text)
        self._changes: list[_Change] = []
        self.messages: list[str] = []

    @property
    def units(self) -> int:
        """The database units per micron."""
        for statement in self.all_of(b"UNITS"):
            number = (self.words_of(statement)[3:4] or [b""])[0]
            if number.isdigit() and len(number) < 10 and int(number):
                return int(number)
        raise Fault(REFUSED, "the DEF file has no UNITS DISTANCE MICRONS")

    @property
    def has_rows(self) -> bool:
        return any(True for _ in self.all_of(b"ROW"))

    @property
    def is_changed(self) -> bool:
        return bool(self._changes)

    def result(self) -> bytes:
        """Returns the text with all changes. Changes at one place keep their order."""
        if not self._changes:
            return self.text
        pieces, at = [], 0
        for change in sorted(self._changes, key=lambda change: change.start):
            pieces += [self.text[at : change.start], change.text]
            at = change.stop
        return b"".join([*pieces, self.text[at:]])

    def position_before(self, place: int) -> int | None:
        """Converts a place in the result into one of the original text; None if it is in an inserted part."""
        shift = 0
        for change in sorted(self._changes, key=lambda change: change.start):
            if place < change.start + shift:
                break
            if place < change.start + shift + len(change.text):
                return None
            shift += len(change.text) - (change.stop - change.start)
        return place - shift

    def all_of(self, keyword: bytes) -> Iterator[Statement]:
        """Yields the statements or sections with this keyword."""
        return (statement for statement in self.statements if statement.keyword == keyword)

    def words_of(self, statement: Statement) -> list[bytes]:
        """Lists the words of a statement."""
        return list(words_in(self.text[statement.start : statement.stop]))

    def entries(self, keyword: bytes) -> Iterator[Entry]:
        """Yields the entries of all sections with this keyword."""
        return entries(self.text, self.statements, keyword)

    def statement_text(self, statement: Statement) -> bytes:
        """Returns the bytes of a statement from its keyword on."""
        keyword = TOKENS.match(self.text, statement.start)
        return self.text[keyword.start(1) if keyword else statement.start : statement.stop]

    def _line_end(self, place: int) -> int:
        """The end of the line if only a comment follows there, else the place itself."""
        rest = _REST.match(self.text, place)
        return rest.end() if rest else place

    def replace(self, start: int, stop: int, text: bytes) -> None:
        """Replaces the bytes from start up to stop."""
        self._changes.append(_Change(start, stop, text))

    def insert(self, place: int, text: bytes) -> None:
        """Inserts new lines after the line that ends at this place."""
        at = self._line_end(place)
        self._changes.append(_Change(at, at, text))

    def remove(self, start: int, stop: int) -> None:
        """Removes a statement or an entry, but not the comment in the line before it."""
        self._changes.append(_Change(self._line_end(start), stop, b""))

    def add_rows(self, site: Site, wanted: PreparationOptions) -> None:
        """Adds rows of the site over the core, on the grid of the placed cells; removes the old rows."""
        name = f"site {shown(site.name)}"
        width, height = (whole(length * self.units, name) for length in (site.width, site.height))
        core = wanted.core or self._die()
        core = Box(
            core.left + wanted.margin, core.bottom + wanted.margin, core.right - wanted.margin, core.top - wanted.margin
        )
        grid = self._grid(core, width, height)
        left, bottom = core.left + (grid.x - core.left) % width, core.bottom + (grid.y - core.bottom) % height
        sites, rows = (core.right - left) // width, (core.top - bottom) // height
        if sites < 1 or rows < 1:
            raise Fault(REFUSED, f"no row of {name} fits into the core: {_box(core)} database units")
        if rows > MOST_ROWS:
            raise Fault(REFUSED, f"{rows} rows of {name} fit into the core; the program loads at most {MOST_ROWS}")
        first = grid.is_upright == ((bottom - grid.y) // height % 2 == 0)
        text = b"".join(
            b"\nROW ROW_%d %b %d %d %b DO %d BY 1 STEP %d 0 ;"
            % (row, site.name, left, bottom + row * height, b"N" if first == (row % 2 == 0) else b"FS", sites, width)
            for row in range(rows)
        )
        if old := list(self.all_of(b"ROW")):
            for row in old:
                self.remove(row.start, row.stop)
            self.messages.append(f"{len(old)} rows removed")
        self.insert(old[-1].stop if old else self.place_of_rows(), text)
        size = f"{sites} sites each, the first at {left} {bottom} is {'N' if first else 'FS'}"
        self.messages += [f"{rows} rows of {name} added: {size}", grid.reason]

    def high_rows(self, sites: Mapping[bytes, Site]) -> list[Statement]:
        """Lists the rows of these sites that have several sites upwards."""
        rows = ((row, self.words_of(row)) for row in self.all_of(b"ROW"))
        return [row for row, words in rows if words[2:3] and words[2] in sites and sites_upwards(words) > 1]

    def split_rows(self, sites: Mapping[bytes, Site]) -> None:
        """Writes each row of these sites that has several sites upwards as single rows of the same orientation."""
        taken = {word for row in self.all_of(b"ROW") for word in self.words_of(row)[1:2]}
        for row in self.high_rows(sites):
            words, line = self.words_of(row), self.line_of(row)
            rows = self._single_rows(words, sites[words[2]], taken)
            keyword = TOKENS.match(self.text, row.start)
            self.replace(keyword.start(1) if keyword else row.start, row.stop, b"\n".join(rows))
            first, last = (shown(each.split()[1]) for each in (rows[0], rows[-1]))
            what = f"row {shown(words[1])} has {len(rows)} sites upwards"
            self.messages.append(f"line {line}: {what}: written as single rows, {first} to {last}")

    def _single_rows(self, words: list[bytes], site: Site, taken: set[bytes]) -> list[bytes]:
        """Returns the statements of single rows in place of one with these words; their names are taken then."""
        count, at = sites_upwards(words), words.index(b"DO")
        step = _whole_number(words[at + 6 : at + 7]) if words[at + 4 : at + 5] == [b"STEP"] else None
        height = whole(site.height * self.units, f"site {shown(site.name)}")
        bottom = _whole_number(words[4:5])
        if bottom is None or count > MOST_ROWS:
            raise Fault(REFUSED, f"row {shown(words[1])} cannot be split: its y or its number of sites is out of range")
        prefix = next(words[1] + mark for mark in _marks() if taken.isdisjoint(_names_of(words[1] + mark, count)))
        taken.update(_names_of(prefix, count))
        end = [b"1", *words[at + 4 : at + 6], b"0", *words[at + 7 :]] if step is not None else [b"1", *words[at + 4 :]]
        made = []
        for number, name in enumerate(_names_of(prefix, count)):
            y = b"%d" % (bottom + number * (step or height))
            made.append(b" ".join([b"ROW", name, *words[2:4], y, *words[5 : at + 3], *end]))
        return made

    def line_of(self, statement: Statement) -> int:
        """Returns the line of a statement's keyword."""
        keyword = TOKENS.match(self.text, statement.start)
        return line_of(self.text, keyword.start(1) if keyword else statement.start)

    def place_of_rows(self) -> int:
        """Returns the place for rows: after DIEAREA, else after UNITS."""
        return next(statement.stop for keyword in (b"DIEAREA", b"UNITS") for statement in self.all_of(keyword))

    def _die(self) -> Box:
        for statement in self.all_of(b"DIEAREA"):
            words = self.words_of(statement)
            numbers = [int(Decimal(word.decode())) for word in words if _NUMBER.fullmatch(word)]
            xs, ys = numbers[::2], numbers[1::2]
            corners = set(zip(xs, ys))
            is_rectangle = len(corners) == 2 or corners == {(x, y) for x in set(xs) for y in set(ys)}
            if len(numbers) not in (4, 8) or len(words) != 2 + 2 * len(numbers) or not is_rectangle:
                raise Fault(REFUSED, "DIEAREA is not a rectangle in whole database units; use --core to place the rows")
            return Box(min(xs), min(ys), max(xs), max(ys))
        raise Fault(REFUSED, "the DEF file has no DIEAREA; use --core to place the rows")

    def _grid(self, core: Box, width: int, height: int) -> Grid:
        """The grid of most placed cells; the core's corner if less than half of them agree."""
        columns: Counter[int] = Counter()
        # By the position of a cell in a pair of rows, and whether it is flipped; None if its orientation does not say.
        row_pairs: Counter[tuple[int, bool | None]] = Counter()
        for statement in self.all_of(b"COMPONENTS"):
            for entry in section_parts(self.text, statement)[2]:
                if found := placed_in(entry):
                    x, y, orient = found
                    columns[x % width] += 1
                    row_pairs[y % (2 * height), orient in _FLIPPED if orient in _UPRIGHT + _FLIPPED else None] += 1
        row_levels: Counter[int] = Counter()
        for (y, _), count in row_pairs.items():
            row_levels[y % height] += count
        cells = columns.total()
        (x, count_x), (y, count_y) = (*columns.most_common(1), (0, 0))[0], (*row_levels.most_common(1), (0, 0))[0]
        if not cells or 2 * min(count_x, count_y) < cells:
            reason = f"less than half of the {cells} placed cells agree on a grid" if cells else "no cell is placed"
            return Grid(core.left, core.bottom, True, f"{reason}: the rows start at the core's corner with N")
        upright = row_pairs[y, False] + row_pairs[y + height, True]
        flipped = row_pairs[y, True] + row_pairs[y + height, False]
        reason = f"the rows follow the {cells} placed cells: {count_x} fit along x, {count_y} along y"
        reason += f", {max(upright, flipped)} have their row's orientation"
        return Grid(x, y, upright >= flipped, reason)

    def drop_rows(self, sites: list[str]) -> None:
        """Removes the rows of these sites."""
        for site in sites:
            name = word_of(site).encode()
            self._remove_rows([row for row in self.all_of(b"ROW") if self._site_of(row) == name], f"site {site}")

    def keep_site(self, site: Site, core_sites: set[bytes]) -> None:
        """Removes the rows of the other core sites, so that this is the core site."""
        rows = list(self.all_of(b"ROW"))
        if not any(self._site_of(row) == site.name for row in rows):
            raise Fault(USAGE, f"the DEF file has rows, but none of site {shown(site.name)}; --rows replaces them")
        others = [row for row in rows if self._site_of(row) in core_sites - {site.name}]
        self._remove_rows(others, "other core sites")

    def _site_of(self, row: Statement) -> bytes:
        return (self.words_of(row)[2:3] or [b""])[0]

    def _remove_rows(self, rows: list[Statement], what: str) -> None:
        for row in rows:
            self.remove(row.start, row.stop)
        self.messages.append(f"{len(rows)} rows removed ({what})")

    def remove_fillers(self, patterns: list[str]) -> None:
        """Removes the components whose name or macro matches a pattern."""
        are_fillers = {pattern: pattern_of(word_of(pattern).encode()).fullmatch for pattern in patterns}
        removed, unmatched = 0, set(patterns)
        for statement in self.all_of(b"COMPONENTS"):
            section = Section(self.text, statement)
            kept = 0
            for start, entry in section.entries():
                found = {pattern for pattern, is_filler in are_fillers.items() if any(map(is_filler, entry.words[:2]))}
                if found:
                    unmatched -= found
                    self.remove(start, start + len(entry.text))
                    removed += 1
                else:
                    kept += 1
            self._changes.append(_Change(section.count, section.after_count, b"%d" % kept))
        self.messages.append(f"{removed} fillers removed ({' '.join(patterns)})")
        self.messages += [
            f"no component has a name or a macro that matches {pattern}"
            for pattern in patterns
            if pattern in unmatched and removed
        ]

    def add_fences(self, fences: dict[str, list[Box]]) -> None:
        """Adds FENCE regions of these rectangles."""
        sections = list(self.all_of(b"REGIONS"))
        known = {entry.name for section in sections for entry in section_parts(self.text, section)[2]}
        added = []
        for name, boxes in fences.items():
            word = word_of(name).encode()
            if word in known:
                raise Fault(REFUSED, f"the DEF file already has a region {name}")
            points = b" ".join(b"( %d %d ) ( %d %d )" % box for box in boxes)
            added.append(b"\n- %b %b + TYPE FENCE ;" % (word, points))
            self.messages.append(f"fence {name} added: {len(boxes)} {'rectangles' if len(boxes) > 1 else 'rectangle'}")
        self.add_entries(b"REGIONS", added, (b"COMPONENTS", b"PINS", b"NETS", b"GROUPS", b"END"))

    def add_groups(self, groups: dict[str, list[str]], fences: list[str]) -> None:
        """Adds groups of these patterns, each bound to the fence of its name; `fences` are the added ones."""
        known = {*fences_of(self.text, self.statements), *(name.encode() for name in fences)}
        taken = {entry.name for statement in self.all_of(b"GROUPS") for entry in section_parts(self.text, statement)[2]}
        added = []
        for name, patterns in groups.items():
            fence = word_of(name).encode()
            if fence not in known:
                raise Fault(REFUSED, f"no fence {name} for the group; --fence {name} adds one")
            names = (fence if number == 1 else b"%b_%d" % (fence, number) for number in itertools.count(1))
            group = next(each for each in names if each not in taken)
            members = b" ".join(word_of(pattern).encode() for pattern in patterns)
            added.append(b"\n- %b %b + REGION %b ;" % (group, members, fence))
        self.add_entries(b"GROUPS", added, (b"BEGINEXT", b"END"))

    def add_entries(self, keyword: bytes, added: list[bytes], followers: tuple[bytes, ...]) -> None:
        """Adds entries to the first section with this keyword. Without one, adds a section before the first of the
        followers.
        """
        if (statement := next(self.all_of(keyword), None)) is not None:
            section = Section(self.text, statement)
            last, count = section.start, len(added)
            for start, entry in section.entries():
                last, count = start + len(entry.text), count + 1
            self._changes.append(_Change(section.count, section.after_count, b"%d" % count))
            self.insert(last, b"".join(added))
            return
        place = next((each.start for each in self.statements if each.keyword in followers), len(self.text))
        self.insert(place, b"\n%b %d ;%b\nEND %b" % (keyword, len(added), b"".join(added), keyword))


def sites_upwards(row: list[bytes]) -> int:
    """Returns the number of a row's sites upwards, given its words; 1 if they do not say."""
    if b"DO" not in row or row[row.index(b"DO") + 2 : row.index(b"DO") + 3] != [b"BY"]:
        return 1
    return _whole_number(row[row.index(b"DO") + 3 : row.index(b"DO") + 4]) or 1


def _whole_number(words: list[bytes]) -> int | None:
    """The number that the only word is, or None."""
    return int(Decimal(words[0].decode())) if len(words) == 1 and _NUMBER.fullmatch(words[0]) else None


def _marks() -> Iterator[bytes]:
    """Yields what may come between a row's name and the numbers of its parts."""
    return (b"_" * count for count in itertools.count(1))


def _names_of(prefix: bytes, count: int) -> list[bytes]:
    """Lists the names of this many parts of a row."""
    return [b"%b%d" % (prefix, number) for number in range(count)]


class Stages:
    """Preparations one after the other, each of the last one's result: changes of one do not overlap."""

    def __init__(self, text: bytes) -> None:
        self._stages = [Preparation(text)]

    @property
    def text(self) -> bytes:
        """The original text."""
        return self._stages[0].text

    @property
    def messages(self) -> list[str]:
        """The messages of all stages."""
        return [message for stage in self._stages for message in stage.messages]

    def next(self) -> Preparation:
        """Returns a preparation for changes that may concern what was changed before."""
        if self._stages[-1].is_changed:
            self._stages.append(Preparation(self._stages[-1].result()))
        return self._stages[-1]

    def result(self) -> bytes:
        """Returns the text with the changes of all stages."""
        return self._stages[-1].result()

    def entry_line(self, entry: Entry) -> int | None:
        """Returns the line in the original text of an entry of the last stage's text; None if it was inserted."""
        dash = TOKENS.match(entry.text)
        place = self._position_before(entry.start + (dash.start(1) if dash else 0), self._stages[:-1])
        return None if place is None else line_of(self.text, place)

    def position_before(self, place: int) -> int | None:
        """Converts a place in the result into one of the original text; None if it is in an inserted part."""
        return self._position_before(place, self._stages)

    def _position_before(self, place: int, stages: list[Preparation]) -> int | None:
        found: int | None = place
        for stage in reversed(stages):
            found = None if found is None else stage.position_before(found)
        return found


class Section:
    """A section, with the places of its parts in the text."""

    def __init__(self, text: bytes, statement: Statement) -> None:
        before, after, self._entries = section_parts(text, statement)
        # The place of the count, and the start of the entries.
        self.count = statement.start + len(before)
        found = _WORD.match(text, self.count, statement.stop)
        self.after_count = found.end() if found else self.count
        self.start = self.after_count + len(after)

    def entries(self) -> Iterator[tuple[int, Entry]]:
        """Yields the start of each entry and the entry."""
        at = self.start
        for entry in self._entries:
            yield at, entry
            at += len(entry.text)


def entry_line(text: bytes, entry: Entry) -> int:
    """Returns the line of an entry's `-` in its text."""
    dash = TOKENS.match(entry.text)
    return line_of(text, entry.start + (dash.start(1) if dash else 0))


def first_of(names: list[str]) -> str:
    """Names the first three, and says that there are more."""
    return ", ".join(names[:3]) + (", .." if len(names) > 3 else "")


def placed_in(entry: Entry, clause: bytes = b"PLACED") -> tuple[int, int, bytes] | None:
    """Returns the point and orientation in a placement clause of a component, or None."""
    words = entry.words
    at = next((at for at in range(2, len(words) - 5) if words[at] == b"+" and words[at + 1] == clause), None)
    if at is None or not (_NUMBER.fullmatch(words[at + 3]) and _NUMBER.fullmatch(words[at + 4])):
        return None
    x, y = (int(Decimal(word.decode())) for word in words[at + 3 : at + 5])
    return x, y, words[at + 6] if len(words) > at + 6 else b""


def whole_units(microns: str, units: int) -> int:
    """Converts a length of the command line, in microns, into database units."""
    if not re.fullmatch(r"[+-]?(\d{1,7}(\.\d{0,6})?|\.\d{1,6})", microns, re.ASCII):
        raise Fault(USAGE, f"{microns} is not a length in microns")
    return whole(Decimal(microns) * units, f"{microns} microns")


def whole(length: Decimal, what: str) -> int:
    """Returns a length that must be a whole number of database units; messages call it `what`."""
    if length != int(length):
        raise Fault(REFUSED, f"{what} is not a whole number of database units: {length.normalize():f}")
    return int(length)


def word_of(word: str) -> str:
    """Returns the word. Raises a Fault if it cannot be a name or a pattern in a DEF file."""
    if not _NAME.fullmatch(word) or word in (";", "+", "-", "(", ")"):
        raise Fault(USAGE, f"{word!r} cannot be a name in a DEF file")
    return word


def _box(box: Box) -> str:
    return f"( {box.left} {box.bottom} ) ( {box.right} {box.top} )"
