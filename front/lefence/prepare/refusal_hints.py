"""What a refusal of the program does not say: a CLASS, a STEP, a SIZE, the other one of two rows, or the option of
lefence-prepare that helps.
"""

from __future__ import annotations

import re
from collections.abc import Iterator, Mapping
from decimal import Decimal
from typing import NamedTuple

from ..base.description import Box
from ..base.design import SECTIONS, Statement, shown, words_in
from ..base.lef import Site, classes_of_sites, sites_of, sizes_of
from ..base.wording import number
from .preparation import Preparation, sites_upwards

# A refusal of a design: its number, its word and a name; and one of a text: its number, its line, whether the text is
# a LEF text, and its path.
_REFUSAL = re.compile(r"(\d+) [A-Z]\w+ (\S+?);")
_IN_LINE = re.compile(r"(\d+) [A-Z]\w+ line (\d+); (LEF file )?(.*?)(?: \([^)]*\))?, line \2\b")
_MOST_SITES = 3
# The most bytes of a name.
_LONGEST_NAME = 1024
# The orientations of OpenAccess, and their names in DEF.
_OPEN_ACCESS = dict(R0="N", R90="W", R180="S", R270="E", MX="FS", MY="FN", MX90="FW", MY90="FE", MXR90="FW", MYR90="FE")
_ORIENTS = frozenset(_OPEN_ACCESS.values())
# The words that begin a statement or a section of DEF 5.8.
_STATEMENTS = SECTIONS | frozenset(
    b"VERSION NAMESCASESENSITIVE DIVIDERCHAR BUSBITCHARS DESIGN TECHNOLOGY UNITS HISTORY DIEAREA ROW TRACKS GCELLGRID"
    b" COMPONENTMASKSHIFT BEGINEXT END".split()
)
# White space in other formats than DEF and LEF.
_ODD_SPACES = {b"\f": "a form feed", b"\v": "a vertical tab", b"\xc2\xa0": "a no-break space", b"\0": "a zero byte"}


def hint_of(fault: str, text: bytes, libraries: Mapping[str, bytes]) -> str | None:
    """Returns what the program's message about a DEF text does not say, given the LEF texts by their files, or None."""
    if found := _IN_LINE.match(fault):
        wrong_text = libraries.get(found[4], b"") if found[3] else text
        return next(_of_line(found[1], wrong_text.split(b"\n"), int(found[2])), None)
    found = _REFUSAL.match(fault)
    return _hint_of_design(found[1], found[2], text, list(libraries.values())) if found else None


def _hint_of_design(refusal: str, name: str, text: bytes, libraries: list[bytes]) -> str | None:
    """The hint for a refused design, given the number of the refusal and the name in it."""
    preparation = Preparation(text)
    match refusal:
        case "7":
            return "there is no UNITS DISTANCE MICRONS, which says how many database units a micron has"
        case "8":
            return f"--drop-rows {name} removes the rows of this site"
        case "22":
            return "--longest-pattern binds a component to the fence whose pattern is longer"
    hints = {"9": _of_classes, "10": _of_high_row, "11": _of_step, "13": _of_overlap, "16": _of_size}
    return next(hints[refusal](preparation, libraries, name), None) if refusal in hints else None


def _of_line(refusal: str, lines: list[bytes], at: int) -> Iterator[str]:
    """Says what is wrong with a line of a text, given the number of the refusal."""
    line = lines[at - 1] if at <= len(lines) else b""
    words = list(words_in(line))
    match refusal:
        case "1":
            for odd, what in _ODD_SPACES.items():
                if odd in line:
                    yield f"{what} is not white space in LEF and DEF: write a space"
        case "3":
            for orient in map(shown, _orients_in(words)):
                if orient in _OPEN_ACCESS:
                    yield f"{orient} is an orientation of OpenAccess: DEF calls it {_OPEN_ACCESS[orient]}"
                elif orient not in _ORIENTS and orient.upper() in _ORIENTS:
                    yield f"{orient} is not an orientation: DEF writes {orient.upper()}"
        case "4" | "5":
            for word in words:
                if word.startswith(b"&"):
                    yield f"{shown(word)} is a word of &ALIAS, which LEF 5.8 lacks: write what it stands for"
        case "6":
            for last, word in zip([b";", *words], words):
                if last == b";" and word.isalpha() and word not in _STATEMENTS:
                    yield f"{shown(word)} does not begin a statement of DEF 5.8: remove it up to its end"
        case "23":
            for word in words:
                if len(word) > _LONGEST_NAME:
                    yield f"a name has {len(word):,} bytes, and the program reads names of at most {_LONGEST_NAME:,}"


def _orients_in(words: list[bytes]) -> Iterator[bytes]:
    """Yields the words of a line that stand where an orientation belongs: after a point, or in a row."""
    for at, word in enumerate(words):
        if at and words[at - 1] == b")":
            yield word
        elif word == b"ROW":
            yield from words[at + 5 : at + 6]


def _of_high_row(preparation: Preparation, libraries: list[bytes], name: str) -> Iterator[str]:
    """Says how many sites upwards the row has, and the option that makes single rows of it."""
    for row in preparation.high_rows({site.name: site for site in _sites(libraries).values()}):
        words = preparation.words_of(row)
        if shown(words[1]) == name:
            count = number(sites_upwards(words), "site")
            yield f"row {name} of line {preparation.line_of(row)} has {count} upwards: --rows writes it as single rows"


def _sites(libraries: list[bytes]) -> dict[str, Site]:
    """The sites by name. Of two with one name the first counts."""
    return {shown(site.name): site for site in reversed([site for text in libraries for site in sites_of(text)])}


def _of_classes(preparation: Preparation, libraries: list[bytes], _: str) -> Iterator[str]:
    """Says why the sites of the rows are no core sites."""
    known = [pair for text in libraries for pair in classes_of_sites(text)]
    classes, found = dict(reversed(known)), []
    for site in dict.fromkeys((preparation.words_of(row)[2:3] or [b""])[0] for row in preparation.all_of(b"ROW")):
        match classes.get(site, b""):
            case b"CORE":
                found.append(f"site {shown(site)} has no SIZE above 0")
            case b"":
                found.append(f"site {shown(site)} has no CLASS")
            case other:
                found.append(f"site {shown(site)} has CLASS {shown(other)}, which is not CORE")
    if found:
        yield "no row is of a core site: " + ", ".join(found[:_MOST_SITES])


def _of_step(preparation: Preparation, libraries: list[bytes], name: str) -> Iterator[str]:
    """Says the STEP of the row, and the width of its site."""
    for row in preparation.all_of(b"ROW"):
        words = list(map(shown, preparation.words_of(row)))
        if words[1:2] == [name] and "STEP" in words and (site := _sites(libraries).get(words[2])):
            step = words[words.index("STEP") + 1]
            yield f"row {name} has STEP {step}, but site {words[2]} is {_number(site.width * preparation.units)} wide"


class _Row(NamedTuple):
    """A row of the core site: its statement, and its box in database units."""

    statement: Statement
    name: str
    box: Box

    def overlaps(self, other: _Row) -> bool:
        """Whether the rows share a point; rows that only touch do not."""
        one, two = self.box, other.box
        return one.left < two.right and two.left < one.right and one.bottom < two.top and two.bottom < one.top


def _core_rows(preparation: Preparation, libraries: list[bytes]) -> Iterator[_Row]:
    """Yields the rows of the core site: that of the first row whose site has CLASS CORE and a size."""
    sites, core = _sites(libraries), None
    for statement in preparation.all_of(b"ROW"):
        words = list(map(shown, preparation.words_of(statement)))
        site = sites.get((words[2:3] or [""])[0])
        core = core or (site if site and site.is_core and site.width > 0 and site.height > 0 else None)
        if site is not None and site == core:
            left, bottom, sites_in_row = (int(Decimal(word)) for word in (*words[3:5], (words[7:8] or ["1"])[0]))
            width, height = (int(length * preparation.units) for length in (site.width, site.height))
            yield _Row(statement, words[1], Box(left, bottom, left + sites_in_row * width, bottom + height))


def _of_overlap(preparation: Preparation, libraries: list[bytes], name: str) -> Iterator[str]:
    """Says which earlier row the row overlaps."""
    rows = list(_core_rows(preparation, libraries))
    for at, row in enumerate(rows):
        if row.name == name and (earlier := next((each for each in rows[:at] if row.overlaps(each)), None)):
            one, two = (preparation.line_of(each.statement) for each in (row, earlier))
            yield f"row {name} of line {one} overlaps row {earlier.name} of line {two}"


def _of_size(preparation: Preparation, libraries: list[bytes], name: str) -> Iterator[str]:
    """Says the size of the site or macro, and the database units."""
    sizes = [(shown(macro), width, height) for text in libraries for macro, width, height in sizes_of(text)]
    sites = [(site, found.width, found.height) for site, found in _sites(libraries).items()]
    for what, width, height in sites + sizes:
        if what == name:
            size = f"{_number(width)} by {_number(height)} microns"
            yield f"{name} is {size}, and a database unit is 1/{preparation.units} micron"


def _number(value: Decimal) -> str:
    """Formats a number without zeros at its end."""
    return f"{value.normalize():f}"
