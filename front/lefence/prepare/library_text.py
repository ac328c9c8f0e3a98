"""Changes that make a LEF file readable for the program. All other bytes stay.

Other tools read LEF words in any case, lengths with any number of digits, and files that were joined. The program reads
words in capitals, lengths with at most six decimals, and one END LIBRARY (docs/PROTOCOL.md, "LEF and DEF texts").
"""

from __future__ import annotations

import re
from collections.abc import Callable, Iterator
from decimal import Decimal
from itertools import pairwise
from typing import NamedTuple

from ..base.design import TOKENS, shown
from ..base.lef import length

# A byte order mark, which some editors write.
_MARK = b"\xef\xbb\xbf"
# Sections that end with END and their name, or with END and their keyword. They are skipped.
_NAMED = frozenset(b"LAYER VIA VIARULE NONDEFAULTRULE ARRAY".split())
_UNNAMED = frozenset(b"UNITS PROPERTYDEFINITIONS SPACING IRDROP NOISETABLE CORRECTIONTABLE".split())
# Statements with a word that has a meaning, and the words that have one.
_VALUES = {
    b"CLASS": frozenset(b"CORE PAD BLOCK COVER RING ENDCAP".split()),
    b"SYMMETRY": frozenset(b"X Y R90".split()),
    b"USE": frozenset(b"POWER GROUND SIGNAL ANALOG CLOCK".split()),
}
# A number as programs print it: with an exponent, or with any number of decimals.
_NUMBER = re.compile(rb"[+-]?(\d+\.?\d*|\.\d+)([eE][+-]?\d{1,3})?")
_RAILS = (b"POWER", b"GROUND")
_MILLIONTH = Decimal("0.000001")
# The kind of change of words that the program reads in capitals only.
LOWER_CASE = "words in lower case"

Point = tuple[Decimal, Decimal]


class Change(NamedTuple):
    """Bytes that replace those from start up to stop, and what is said of it."""

    start: int
    stop: int
    new: bytes
    kind: str
    text: str


class Token(NamedTuple):
    """A word or a quoted text, and where it starts and stops."""

    word: bytes
    start: int
    stop: int

    @property
    def capitals(self) -> bytes:
        return self.word.upper()


class _Pin:
    """What a pin has so far: its use, whether it has a rectangle, and its polygons with the ends of their corners."""

    def __init__(self) -> None:
        self.use = b""
        self.has_rect = False
        self.polygons: list[tuple[list[Point], int]] = []


class LibraryText:
    """A LEF text with the changes that it needs."""

    def __init__(self, text: bytes) -> None:
        self.text = text
        self.changes: list[Change] = []
        self._tokens = self._read()
        self._look_at_all()

    def result(self) -> bytes:
        """Returns the text with all changes."""
        pieces, at = [], 0
        for change in sorted(self.changes):
            pieces += [self.text[at : change.start], change.new]
            at = change.stop
        return b"".join([*pieces, self.text[at:]])

    def _read(self) -> Iterator[Token]:
        at = 0
        if self.text.startswith(_MARK):
            at = len(_MARK)
            self._change(0, at, b"", "byte order marks", "byte order mark removed")
        while found := TOKENS.match(self.text, at):
            at = found.end()
            yield Token(found[1], found.start(1), at)

    def _change(self, start: int, stop: int, new: bytes, kind: str, text: str) -> None:
        self.changes.append(Change(start, stop, new, kind, text))

    def _raise(self, token: Token) -> bytes:
        """Writes a word in capitals; returns it so."""
        if token.word != token.capitals:
            text = f"{shown(token.word)} written as {shown(token.capitals)}"
            self._change(token.start, token.stop, token.capitals, LOWER_CASE, text)
        return token.capitals

    def _look_at_all(self) -> None:
        """Reads the statements of the text up to its end."""
        ended: list[tuple[Token, Token]] = []
        last: Token | None = None
        for token in self._tokens:
            word, last = token.capitals, token
            if word == b"END":
                # (END LIBRARY; any other END is refused by the program)
                if (library := next(self._tokens, None)) and library.capitals == b"LIBRARY":
                    ended.append((token, library))
                    last = library
            elif word in (b"SITE", b"MACRO"):
                self._raise(token)
                self._look_at_section(self._look_at_site if word == b"SITE" else self._look_at_macro)
            elif word in _NAMED or word in _UNNAMED:
                self._raise(token)
                name = next(self._tokens, None) if word in _NAMED else token
                self._skip_section(name.word if name else b"", is_keyword=word in _UNNAMED)
            elif word == b"BEGINEXT":
                self._raise(token)
                next((each for each in self._tokens if each.capitals == b"ENDEXT" and self._raise(each)), None)
            else:
                self._skip()
        self._join(ended, is_last=not ended or ended[-1][1] == last)

    def _join(self, ended: list[tuple[Token, Token]], is_last: bool) -> None:
        """Removes each END LIBRARY after which text follows, and adds one at the end if the last is among them."""
        kind = "text after END LIBRARY"
        for end, library in ended[: len(ended) - is_last]:
            self._change(end.start, library.stop, b"", kind, "END LIBRARY removed, since text follows it")
        if ended and not is_last:
            self._change(len(self.text), len(self.text), b"\nEND LIBRARY\n", kind, "")
        elif ended:
            self._raise(ended[-1][0])
            self._raise(ended[-1][1])

    def _skip(self) -> list[Token]:
        """Returns the tokens of a statement up to its semicolon."""
        found = []
        for token in self._tokens:
            if token.word == b";":
                break
            found.append(token)
        return found

    def _skip_section(self, name: bytes, is_keyword: bool = True) -> None:
        """Skips a section that ends with END and this name, or with END and this keyword in any case."""
        last: Token | None = None
        for token in self._tokens:
            is_name = token.word == name or is_keyword and token.capitals == name.upper()
            if last and last.capitals == b"END" and is_name:
                self._raise(last)
                if is_keyword:
                    self._raise(token)
                return
            last = token

    def _look_at_section(self, look: Callable[[Token], None]) -> None:
        """Reads the statements of a section up to END and its name."""
        next(self._tokens, None)
        for token in self._tokens:
            if token.capitals == b"END":
                self._raise(token)
                next(self._tokens, None)
                return
            look(token)

    def _look_at_site(self, token: Token) -> None:
        self._look_at_statement(token, (b"CLASS", b"SYMMETRY", b"SIZE"))

    def _look_at_macro(self, token: Token) -> None:
        word = token.capitals
        if word == b"PIN":
            self._raise(token)
            self._look_at_pin()
        elif word in (b"OBS", b"DENSITY"):
            self._raise(token)
            self._look_at_shapes(None)
        elif word == b"TIMING":
            self._raise(token)
            self._skip_section(b"TIMING")
        else:
            self._look_at_statement(token, (b"CLASS", b"SYMMETRY", b"SIZE", b"ORIGIN"))

    def _look_at_statement(self, token: Token, known: tuple[bytes, ...]) -> list[Token]:
        """Reads a statement; raises its words and rounds its numbers if its keyword is one of these."""
        words = self._skip()
        if (keyword := token.capitals) not in known:
            return words
        self._raise(token)
        if keyword in _VALUES:
            for word in words if keyword == b"SYMMETRY" else words[:1]:
                if word.capitals in _VALUES[keyword]:
                    self._raise(word)
        else:
            self._look_at_numbers(words)
        return words

    def _look_at_numbers(self, words: list[Token]) -> None:
        for word in words:
            if word.capitals in (b"BY", b"MASK", b"ITERATE", b"DO"):
                self._raise(word)
            elif _NUMBER.fullmatch(word.word) and not _is_length(word.word):
                new = rounded(word.word)
                text = f"{shown(word.word)} written as {shown(new)}"
                self._change(word.start, word.stop, new, "numbers", text)

    def _look_at_pin(self) -> None:
        """Reads a pin. If it is a rail that is drawn by polygons alone, adds their rectangles."""
        name, pin = next(self._tokens, None), _Pin()
        for token in self._tokens:
            if token.capitals == b"END":
                self._raise(token)
                next(self._tokens, None)
                break
            if token.capitals == b"PORT":
                self._raise(token)
                self._look_at_shapes(pin)
            else:
                words = self._look_at_statement(token, (b"USE",))
                if token.capitals == b"USE" and words and not pin.use:
                    pin.use = words[0].capitals
        if pin.use in _RAILS and not pin.has_rect:
            self._add_rectangles(shown(name.word) if name else "", pin)

    def _look_at_shapes(self, pin: _Pin | None) -> None:
        """Reads the statements of a PORT, or of OBS or DENSITY, up to END."""
        for token in self._tokens:
            word = token.capitals
            if word == b"END":
                self._raise(token)
                return
            words = self._skip()
            if pin and word == b"RECT":
                pin.has_rect = True
                self._raise(token)
                self._look_at_numbers(words)
            elif pin and word == b"POLYGON" and (points := _points_of(words)):
                pin.polygons.append((points, words[-1].stop))

    def _add_rectangles(self, name: str, pin: _Pin) -> None:
        for points, stop in pin.polygons:
            end = TOKENS.match(self.text, stop)
            rectangles = rectangles_of(points)
            if end and rectangles:
                text = "".join(f" RECT {x1:f} {y1:f} {x2:f} {y2:f} ;" for x1, y1, x2, y2 in rectangles)
                at = end.end()
                what = f"RECT added to pin {name}, which has a POLYGON alone"
                self._change(at, at, text.encode(), "rails drawn by POLYGON", what)


def _is_length(word: bytes) -> bool:
    """Whether the program reads this number."""
    return length(word) != 0 or re.fullmatch(rb"[+-]?(0{1,7}(\.0{0,6})?|\.0{1,6})", word) is not None


def rounded(number: bytes) -> bytes:
    """Returns a number with at most six decimals and without an exponent."""
    value = Decimal(number.decode()).quantize(_MILLIONTH).normalize()
    return f"{abs(value) if value == 0 else value:f}".encode()


def _points_of(words: list[Token]) -> list[Point]:
    """Returns the corners of a POLYGON; none if a word among them is no number."""
    numbers = [word.word for word in words if word.word not in (b"(", b")")]
    if [word.upper() for word in numbers[:1]] == [b"MASK"]:
        numbers = numbers[2:]
    if len(numbers) % 2 or not all(map(_NUMBER.fullmatch, numbers)):
        return []
    values = [Decimal(rounded(number).decode()) for number in numbers]
    return list(zip(values[::2], values[1::2]))


def rectangles_of(points: list[Point]) -> list[tuple[Decimal, Decimal, Decimal, Decimal]]:
    """Cuts a polygon with edges along x and y into rectangles, one above the other; none if it has another edge."""
    edges = list(zip(points, [*points[1:], *points[:1]]))
    if any(x1 != x2 and y1 != y2 for (x1, y1), (x2, y2) in edges):
        return []
    found = []
    for low, high in pairwise(sorted({y for _, y in points})):
        sides = [(x, min(y1, y2), max(y1, y2)) for (x, y1), (other, y2) in edges if x == other]
        across = sorted(x for x, bottom, top in sides if bottom <= low and high <= top)
        found += [(left, low, right, high) for left, right in zip(across[::2], across[1::2])]
    return found
