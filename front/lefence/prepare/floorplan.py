"""What a DEF text takes from the text of its floorplan: the die, rows, regions, groups, blockages and FIXED components.

The floorplan wins: its rows replace those of the design, and its regions, groups and FIXED components replace those of
the same name. Everything else of the design stays.
"""

from __future__ import annotations

import re
from collections.abc import Iterable

from ..base.design import TOKENS, Entry, shown, words_in
from ..base.faults import REFUSED, Fault
from ..base.wording import number
from .preparation import Preparation, Stages, entry_line, first_of

# Where a section belongs if the design does not have it: before the first of these.
_FOLLOWERS = {
    b"REGIONS": tuple(b"COMPONENTS PINS BLOCKAGES SPECIALNETS NETS GROUPS BEGINEXT END".split()),
    b"COMPONENTS": tuple(b"PINS PINPROPERTIES BLOCKAGES SLOTS FILLS SPECIALNETS NETS SCANCHAINS GROUPS END".split()),
    b"BLOCKAGES": tuple(b"SLOTS FILLS SPECIALNETS NETS SCANCHAINS GROUPS BEGINEXT END".split()),
    b"GROUPS": tuple(b"BEGINEXT END".split()),
}
# What an entry is called in messages.
_NAMES = {b"REGIONS": "region", b"GROUPS": "group"}
# The words of a placement clause.
_PLACEMENTS = (b"PLACED", b"UNPLACED", b"FIXED", b"COVER")


def take_floorplan(stages: Stages, text: bytes, name: str) -> None:
    """Takes the floorplan from its text, which messages call by this name. Raises a Fault if its database units differ
    from the design's.
    """
    floorplan, first = Preparation(text), stages.next()
    if next(floorplan.all_of(b"UNITS"), None) is None:
        raise Fault(REFUSED, f"the floorplan {name} has no UNITS DISTANCE MICRONS")
    if floorplan.units != first.units:
        units = f"{floorplan.units} database units per micron, the design has {first.units}"
        raise Fault(REFUSED, f"the floorplan {name} has {units}")
    _take_die(first, floorplan, name)
    _take_rows(first, floorplan, name)
    for keyword in (b"REGIONS", b"GROUPS"):
        _take_named(stages, floorplan, keyword, name)
    _take_blockages(stages.next(), floorplan, name)
    _take_components(stages, floorplan, name)


def _take_die(design: Preparation, floorplan: Preparation, name: str) -> None:
    """Adds the floorplan's DIEAREA if the design has none."""
    found = next(floorplan.all_of(b"DIEAREA"), None)
    if found is not None and next(design.all_of(b"DIEAREA"), None) is None:
        design.insert(next(design.all_of(b"UNITS")).stop, b"\n" + floorplan.statement_text(found))
        design.messages.append(f"{name}, line {floorplan.line_of(found)}: DIEAREA taken")


def _take_rows(design: Preparation, floorplan: Preparation, name: str) -> None:
    """Puts the floorplan's rows in place of the design's, if it has any."""
    rows, old = list(floorplan.all_of(b"ROW")), list(design.all_of(b"ROW"))
    if not rows:
        return
    text = b"".join(b"\n" + floorplan.statement_text(row) for row in rows)
    for row in old:
        design.remove(row.start, row.stop)
    design.insert(old[-1].stop if old else design.place_of_rows(), text)
    if old:
        design.messages.append(f"line {design.line_of(old[0])}: {number(len(old), 'row')} removed")
    design.messages.append(f"{name}, line {floorplan.line_of(rows[0])}: {number(len(rows), 'row')} taken")


def _take_named(stages: Stages, floorplan: Preparation, keyword: bytes, name: str) -> None:
    """Takes the entries of a section; they replace the design's entries of the same name."""
    design = stages.next()
    known = {entry.name: entry for entry in design.entries(keyword)}
    added = []
    for entry in floorplan.entries(keyword):
        what = f"{name}, line {entry_line(floorplan.text, entry)}: {_NAMES[keyword]} {shown(entry.name)}"
        old = known.get(entry.name)
        if old is None:
            added.append(b"\n" + _plain(entry))
            design.messages.append(f"{what} taken")
        elif old.words != entry.words:
            design.replace(old.start + _dash(old), old.start + len(old.text), _plain(entry))
            design.messages.append(f"{what} replaces the one of line {stages.entry_line(old)}")
    if added:
        design.add_entries(keyword, added, _FOLLOWERS[keyword])


def _take_blockages(design: Preparation, floorplan: Preparation, name: str) -> None:
    """Adds the floorplan's blockages that the design does not have."""
    known = {b" ".join(entry.words) for entry in design.entries(b"BLOCKAGES")}
    found = [entry for entry in floorplan.entries(b"BLOCKAGES") if b" ".join(entry.words) not in known]
    if found:
        design.add_entries(b"BLOCKAGES", [b"\n" + _plain(entry) for entry in found], _FOLLOWERS[b"BLOCKAGES"])
        line = entry_line(floorplan.text, found[0])
        design.messages.append(f"{name}, line {line}: {number(len(found), 'blockage')} taken")


def _take_components(stages: Stages, floorplan: Preparation, name: str) -> None:
    """Places the design's components where the floorplan fixes them, and adds the FIXED ones that it lacks."""
    design = stages.next()
    wanted = {
        entry.name: entry for entry in floorplan.entries(b"COMPONENTS") if entry.has(b"FIXED") or entry.has(b"COVER")
    }
    other_macros = []
    for old in design.entries(b"COMPONENTS"):
        entry = wanted.pop(old.name, None)
        if entry is None:
            continue
        if old.words[1:2] != entry.words[1:2]:
            other_macros.append(shown(old.name))
        if _fix(design, old, entry):
            line = entry_line(floorplan.text, entry)
            what = f"component {shown(old.name)} of line {stages.entry_line(old)} FIXED"
            design.messages.append(f"{name}, line {line}: {what}")
    if other_macros:
        what = f"of another macro in the floorplan: {first_of(other_macros)}"
        design.messages.append(f"{number(len(other_macros), 'component')} {what}; the design's macro is kept")
    _add_components(design, floorplan, wanted.values(), name)


def _add_components(design: Preparation, floorplan: Preparation, found: Iterable[Entry], name: str) -> None:
    added = []
    for entry in found:
        added.append(b"\n" + _plain(entry))
        line = entry_line(floorplan.text, entry)
        design.messages.append(f"{name}, line {line}: component {shown(entry.name)} taken")
    if added:
        design.add_entries(b"COMPONENTS", added, _FOLLOWERS[b"COMPONENTS"])


def _fix(design: Preparation, old: Entry, entry: Entry) -> bool:
    """Gives a component the placement clause of the floorplan's entry, and its HALO if it has none. Returns whether
    anything changes.
    """
    clause, before = _clause(entry, _PLACEMENTS), _clause(old, _PLACEMENTS)
    halo = b"" if old.has(b"HALO") else _text_of(entry, _clause(entry, (b"HALO",)))
    new = _text_of(entry, clause)
    if _text_of(old, before).split() == new.split() and not halo:
        return False
    text = new + (b" " + halo if halo else b"")
    if before is None:
        semicolon = old.start + len(old.text) - 1
        design.replace(semicolon, semicolon, text + b" ")
    else:
        design.replace(old.start + before[0], old.start + before[1], text)
    return True


def _clause(entry: Entry, words: tuple[bytes, ...]) -> tuple[int, int] | None:
    """The start and end of the first clause that begins with `+` and one of these words; None if there is none."""
    start: int | None = None
    last: re.Match[bytes] | None = None
    for token in TOKENS.finditer(entry.text):
        if start is not None and last and token[1] in (b"+", b";"):
            return start, last.end()
        if start is None and last and last[1] == b"+" and token[1] in words:
            start = last.start(1)
        last = token
    return None


def _text_of(entry: Entry, clause: tuple[int, int] | None) -> bytes:
    """The words of a clause, without comments."""
    return b" ".join(words_in(entry.text[clause[0] : clause[1]])) if clause else b""


def _dash(entry: Entry) -> int:
    """Where an entry's `-` is in its bytes."""
    found = TOKENS.match(entry.text)
    return found.start(1) if found else 0


def _plain(entry: Entry) -> bytes:
    """The bytes of an entry from its `-` on."""
    return entry.text[_dash(entry) :]
