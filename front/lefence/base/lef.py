"""LEF files, as far as rows and lists of cells need them: sites, macros, and their sizes."""

from __future__ import annotations

import re
from collections.abc import Iterator
from decimal import Decimal
from typing import NamedTuple

from .design import words_in

# Sections that end with END and their name. They are skipped: a SITE inside them is another statement.
_NAMED = frozenset(b"SITE MACRO LAYER VIA VIARULE NONDEFAULTRULE ARRAY".split())
_LENGTH = re.compile(rb"[+-]?(\d{1,7}(\.\d{0,6})?|\.\d{1,6})")


class Site(NamedTuple):
    """A site: whether its CLASS is CORE, its size in microns, or 0 if it has none, and whether it has a SYMMETRY."""

    name: bytes
    is_core: bool
    width: Decimal
    height: Decimal
    has_symmetry: bool


def sites_of(text: bytes) -> Iterator[Site]:
    """Yields the sites of a LEF text in its order."""
    for name, words in _sections(text, b"SITE"):
        classes = [words[at + 1 : at + 2] for at, word in enumerate(words) if word == b"CLASS"]
        yield Site(name, classes[-1:] == [[b"CORE"]], *sizes_in(words)[-1], b"SYMMETRY" in words)


def classes_of_sites(text: bytes) -> Iterator[tuple[bytes, bytes]]:
    """Yields the sites of a LEF text in its order, each with the last word after CLASS in any case, or `b""`."""
    for name, words in _sections(text, b"SITE"):
        classes = [words[at + 1] for at, word in enumerate(words[:-1]) if word.upper() == b"CLASS"]
        yield name, classes[-1] if classes else b""


def sizes_of(text: bytes) -> Iterator[tuple[bytes, Decimal, Decimal]]:
    """Yields the macros of a LEF text in its order, with their widths and heights in microns."""
    for name, words in _sections(text, b"MACRO"):
        yield name, *sizes_in(words)[0]


def macros_of(text: bytes) -> Iterator[tuple[bytes, list[bytes]]]:
    """Yields the macros of a LEF text in its order, each with the words between its name and its END."""
    return _sections(text, b"MACRO")


def rails_of(text: bytes) -> Iterator[tuple[bytes, bool]]:
    """Yields the macros of a LEF text in its order; each with whether a POWER or GROUND pin of it has a RECT."""
    for name, words in _sections(text, b"MACRO"):
        is_rail = has_rect = is_known = False
        for at, word in enumerate(words):
            if word in (b"PIN", b"OBS"):
                is_rail = has_rect = False
            is_rail = is_rail or (word == b"USE" and words[at + 1 : at + 2] in ([b"POWER"], [b"GROUND"]))
            has_rect = has_rect or word == b"RECT"
            is_known = is_known or (is_rail and has_rect)
        yield name, is_known


def lines_of(text: bytes, keyword: bytes, name: bytes) -> list[int]:
    """Lists the lines of a LEF text on which a section with this keyword and name begins. Words in comments do not
    count.
    """
    words = keyword + rb"[ \t\r\n]+" + re.escape(name)
    start = re.compile(rb"^[^#\n]*?(?<![^ \t\r\n])" + words + rb"(?![^ \t\r\n])", re.M)
    keywords = (text.rindex(keyword, found.start(), found.end() - len(name)) for found in start.finditer(text))
    return [text.count(b"\n", 0, place) + 1 for place in keywords]


def pin_counts_of(text: bytes) -> Iterator[tuple[bytes, int]]:
    """Yields the macros of a LEF text in its order; each with the number of its pins, except for POWER and GROUND."""
    for name, words in _sections(text, b"MACRO"):
        supplies: dict[bytes, bool] = {}
        pin: bytes | None = None
        for at, word in enumerate(words[:-1]):
            if word == b"PIN" and pin is None:
                pin = words[at + 1]
                supplies.setdefault(pin, False)
            elif pin is not None and word == b"USE":
                supplies[pin] = words[at + 1] in (b"POWER", b"GROUND")
            elif pin is not None and word == b"END" and words[at + 1] == pin:
                pin = None
        yield name, sum(not is_supply for is_supply in supplies.values())


def _sections(text: bytes, keyword: bytes) -> Iterator[tuple[bytes, list[bytes]]]:
    """Yields the names and words of the sections with this keyword; skips all others."""
    words = words_in(text)
    for word in words:
        if word == keyword or word in _NAMED:
            name = next(words, b"")
            section = _section(words, name)
            if word == keyword:
                yield name, section
        elif word == b"PROPERTYDEFINITIONS":
            _section(words, word)
        elif word == b"BEGINEXT":
            next((each for each in words if each == b"ENDEXT"), None)


def sizes_in(words: list[bytes]) -> list[tuple[Decimal, Decimal]]:
    """Lists the SIZEs of a macro or a site, given its words; (0, 0) if it has none. A pin named SIZE has no BY."""
    found = []
    for at, word in enumerate(words):
        if word == b"SIZE" and words[at + 2 : at + 3] == [b"BY"] and len(words) > at + 3:
            found.append((length(words[at + 1]), length(words[at + 3])))
    return found or [(Decimal(0), Decimal(0))]


def _section(words: Iterator[bytes], name: bytes) -> list[bytes]:
    """Returns the words up to END and this name."""
    found: list[bytes] = []
    for word in words:
        if word == name and found[-1:] == [b"END"]:
            return found[:-1]
        found.append(word)
    return found


def length(word: bytes) -> Decimal:
    """Returns a length in microns, or 0 if the word is not a length."""
    return Decimal(word.decode()) if _LENGTH.fullmatch(word) else Decimal(0)
