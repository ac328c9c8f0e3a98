"""New placement clauses in a DEF file, in the form of the program's export (docs/CLI.md, "Files")."""

from __future__ import annotations

import re
from collections.abc import Iterator, Mapping
from decimal import Decimal
from itertools import islice
from typing import NamedTuple

from ..base.design import TOKENS, Entry, entries, statements
from ..base.wording import number


class Spot(NamedTuple):
    """The lower left corner of a cell's box, and its orientation."""

    x: int
    y: int
    orient: str


def with_spots(text: bytes, spots: Mapping[str, Spot | None]) -> bytes:
    """Returns the text with these movable components at new places, or unplaced. All other bytes stay."""
    pieces, at = [], 0
    for entry in entries(text, statements(text), b"COMPONENTS"):
        name = entry.name.decode("ascii", "replace")
        if name in spots:
            start, stop, separator = clause_of(entry)
            pieces += [text[at : entry.start + start], clause_text(spots[name]) + separator]
            at = entry.start + stop
    return b"".join([*pieces, text[at:]])


def clause_text(spot: Spot | None) -> bytes:
    """Returns the placement clause of a component at this place."""
    return f"+ PLACED ( {spot.x} {spot.y} ) {spot.orient}".encode() if spot else b"+ UNPLACED"


def clause_of(entry: Entry) -> tuple[int, int, bytes]:
    """Returns the start and end of a component's placement clause in its bytes, and what must follow a new one.

    Without a clause, the new one goes in front of the semicolon and needs a space.
    """
    tokens = islice(TOKENS.finditer(entry.text), 3, None)
    plus: re.Match[bytes] | None = None
    for token in tokens:
        if plus and token[1] in (b"PLACED", b"UNPLACED"):
            return plus.start(1), _end(token, tokens), b""
        plus = token if token[1] == b"+" else None
        last = token.start(1)
    return last, last, b" "


def _end(word: re.Match[bytes], tokens: Iterator[re.Match[bytes]]) -> int:
    """The end of a clause: after ( x y ) orient, which UNPLACED may lack."""
    opening = next(tokens)
    if opening[1] != b"(":
        return word.end()
    return [next(tokens) for _ in range(4)][-1].end()


def with_places_of(original: bytes, placed: bytes) -> tuple[bytes, list[str]]:
    """Returns the original text with the places that its movable components have in another text, and messages.

    Components that are FIXED or COVER in one of the texts, or are in one of them alone, stay as they are.
    """
    spots = {entry.name: _spot_of(entry) for entry in _movable(placed)}
    known, moved = set(), dict[str, Spot | None]()
    for entry in _movable(original):
        known.add(entry.name)
        if entry.name in spots and spots[entry.name] != _spot_of(entry):
            moved[entry.name.decode("ascii", "replace")] = spots[entry.name]
    lost, others = len(spots.keys() - known), len(known - spots.keys())
    messages = [f"{number(len(moved), 'component')} with a new place"]
    if lost:
        messages.append(f"{number(lost, 'component')} not movable in the original: without a new place there")
    if others:
        what = f"{number(others, 'movable component')} of the original not movable in the prepared file"
        messages.append(f"{what}: at the old place")
    return with_spots(original, moved), messages


def spots_in(text: bytes) -> dict[str, Spot | None]:
    """The places of the movable components of a text; None for those without one."""
    return {entry.name.decode("ascii", "replace"): _spot_of(entry) for entry in _movable(text)}


def _movable(text: bytes) -> Iterator[Entry]:
    """Yields the components of a text that are neither FIXED nor COVER."""
    for entry in entries(text, statements(text), b"COMPONENTS"):
        if not (entry.has(b"FIXED") or entry.has(b"COVER")):
            yield entry


def _spot_of(entry: Entry) -> Spot | None:
    """The place of a movable component, None if it is unplaced."""
    words = entry.words
    for at in range(2, len(words) - 6):
        if words[at : at + 3] == [b"+", b"PLACED", b"("]:
            x, y = (int(Decimal(word.decode())) for word in words[at + 3 : at + 5])
            return Spot(x, y, words[at + 6].decode())
    return None
