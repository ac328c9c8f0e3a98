"""What the program skips in a DEF file without a message, although its author may have meant something by it.

The file loads with all of this (docs/PROTOCOL.md, "LEF and DEF texts" and "Loading"). Nothing here is a rule of the
program.
"""

from __future__ import annotations

import re
from collections import Counter, defaultdict
from collections.abc import Iterable, Iterator
from itertools import chain
from typing import NamedTuple

from ..base.description import Facts
from ..base.design import STAR, TOKENS, Design, Entry, pattern_of, section_parts, shown, words_in
from ..base.protocol import GROUND

# The most remarks of one kind listed one by one.
MOST_ALIKE = 5
# The words that DEF 5.8 allows after `+`, by section.
CLAUSES = {
    b"COMPONENTS": frozenset(
        b"EEQMASTER SOURCE FIXED COVER PLACED UNPLACED MASKSHIFT HALO ROUTEHALO WEIGHT REGION PROPERTY".split()
    ),
    b"REGIONS": frozenset(b"TYPE PROPERTY".split()),
    b"GROUPS": frozenset(b"REGION PROPERTY".split()),
    b"BLOCKAGES": frozenset(
        b"SLOTS FILLS PUSHDOWN EXCEPTPGNET COMPONENT SPACING DESIGNRULEWIDTH MASK SOFT PARTIAL".split()
    ),
}
_PLUS = re.compile(rb"\+[ \t\r\n]+([^ \t\r\n]+)")
_PLACEMENTS = (b"PLACED", b"UNPLACED", b"FIXED", b"COVER")
# The name of an entry, by section.
_CALLED = {b"COMPONENTS": "component", b"REGIONS": "region", b"GROUPS": "group", b"BLOCKAGES": "blockage"}


class Remark(NamedTuple):
    """A remark, its kind, and its place in the text, or None."""

    kind: str
    text: str
    place: int | None = None


def remarks_of(text: bytes, facts: Facts | None) -> list[Remark]:
    """Lists the remarks on a text; with the program's facts of the design, also those on its rows."""
    design = Design(text)
    of_rows = _of_rows(design, facts.site) if facts else ()
    return list(few_of_each(chain(_of_sections(design), _of_teams(design), of_rows)))


def few_of_each(remarks: Iterable[Remark]) -> Iterator[Remark]:
    """Yields the first remarks of each kind, and the number of the others."""
    kinds: defaultdict[str, list[Remark]] = defaultdict(list)
    counts: Counter[str] = Counter()
    for remark in remarks:
        counts[remark.kind] += 1
        if counts[remark.kind] <= MOST_ALIKE:
            kinds[remark.kind].append(remark)
    for kind, first in kinds.items():
        yield from first
        if counts[kind] > MOST_ALIKE:
            yield Remark(kind, f"and {counts[kind] - MOST_ALIKE} more: {kind}")


def _of_sections(design: Design) -> Iterator[Remark]:
    """Sections with a wrong count of entries, and words after `+` that DEF 5.8 does not have."""
    for statement in design.statements:
        if statement.keyword in CLAUSES:
            before, _, entries = section_parts(design.text, statement)
            count = 0
            for count, entry in enumerate(entries, 1):
                yield from _of_words(statement.keyword, entry)
            place = statement.start + len(before)
            announced = next(words_in(design.text[place : place + 20]), b"")
            if announced != b"%d" % count:
                text = f"{shown(statement.keyword)} {shown(announced)}, but there are {count}"
                yield Remark("wrong counts", text, place)


def _of_words(section: bytes, entry: Entry) -> Iterator[Remark]:
    known = CLAUSES[section]
    # (fast path for most entries; a comment or a quoted text may have a plus too)
    if known.issuperset(_PLUS.findall(entry.text)):
        return
    clauses = [word for plus, word in zip(entry.words, entry.words[1:]) if plus == b"+"]
    for word in clauses:
        if word not in known:
            text = f"+ {shown(word)} of {_CALLED[section]} {shown(entry.name)} is not in DEF 5.8 and is skipped"
            if section == b"COMPONENTS" and not any(clause in _PLACEMENTS for clause in clauses):
                text += ": it is unplaced"
            yield Remark(f"+ {shown(word)} in {shown(section)}", text, _place_of(entry))


def _of_teams(design: Design) -> Iterator[Remark]:
    """Names of groups that match no component, fences without cells, and bindings to a fence that have no effect."""
    patterns = _Patterns(design)
    cells: Counter[bytes] = Counter()
    fences = set(design.fences)
    for component in design.entries(b"COMPONENTS"):
        patterns.remove(component.name)
        team = design.team_of(component)
        if team is not None:
            cells[team] += 1
            region = component.value_after(b"REGION") if b"REGION" in component.text else None
            if region in fences and region != team:
                what = f"+ REGION {shown(region)} of component {shown(component.name)} has no effect"
                text = f"{what}, only a group binds to a fence: it is in team {shown(team)}"
                yield Remark("+ REGION of components", text, _place_of(component))
    yield from patterns.unmatched()
    untyped = {entry.name for entry in design.entries(b"REGIONS") if entry.value_after(b"TYPE") is None}
    for group in design.entries(b"GROUPS"):
        if (region := group.value_after(b"REGION")) is not None and region not in fences:
            what = f"group {shown(group.name)} is bound to {shown(region)}, which is not a fence"
            option = f"; --as-fence {shown(region)} makes it one" if region in untyped else ""
            text = f"{what}: its cells are in team {GROUND}{option}"
            yield Remark("groups without a fence", text, _place_of(group))
    for region_entry in design.entries(b"REGIONS"):
        if region_entry.name in fences and not cells[region_entry.name]:
            text = f"fence {shown(region_entry.name)} has no cells"
            yield Remark("fences without cells", text, _place_of(region_entry))


class _Patterns:
    """The names and patterns of the groups of fences, without those that matched a component."""

    def __init__(self, design: Design) -> None:
        self._names: defaultdict[bytes, list[Entry]] = defaultdict(list)
        # Patterns with a star, by the bytes in front of it.
        self._starred: defaultdict[bytes, list[tuple[re.Pattern[bytes], bytes, Entry]]] = defaultdict(list)
        for group in design.entries(b"GROUPS"):
            if design.fence_of(group) is not None:
                for word in _members(group):
                    first, *more = STAR.split(word)
                    if more:
                        self._starred[first].append((pattern_of(word), word, group))
                    else:
                        self._names[word].append(group)
        self._lengths = {len(first) for first in self._starred}

    def remove(self, name: bytes) -> None:
        """Removes what a component's name matches."""
        self._names.pop(name, None)
        for length in self._lengths if self._starred else ():
            first = name[:length]
            if first in self._starred:
                remaining = [each for each in self._starred[first] if not each[0].fullmatch(name)]
                if remaining:
                    self._starred[first] = remaining
                else:
                    del self._starred[first]

    def unmatched(self) -> Iterator[Remark]:
        """The remaining names and patterns, in the order of the text."""
        remaining = [(group, word) for word, groups in self._names.items() for group in groups]
        remaining += [(group, word) for pairs in self._starred.values() for _, word, group in pairs]
        for group, word in sorted(remaining, key=lambda pair: pair[0].start):
            yield Remark(
                "names of groups", f"{shown(word)} of group {shown(group.name)} matches no component", _place_of(group)
            )


def _members(group: Entry) -> Iterator[bytes]:
    """The names and patterns of a group."""
    for word in group.words[1:]:
        if word == b"+":
            return
        yield word


def _of_rows(design: Design, site: str) -> Iterator[Remark]:
    """Rows of other sites than the core site."""
    others: dict[str, list[int]] = {}
    for statement in design.statements:
        if statement.keyword == b"ROW":
            words = list(words_in(design.text[statement.start : statement.stop]))
            if len(words) > 2 and (name := shown(words[2])) != site:
                others.setdefault(name, []).append(statement.stop - 1)
    for name, places in others.items():
        rows = "1 row" if len(places) == 1 else f"{len(places)} rows"
        yield Remark("rows of other sites", f"{rows} of site {name} skipped: the core site is {site}", places[0])


def _place_of(entry: Entry) -> int:
    """The start of an entry, after white space and comments."""
    dash = TOKENS.match(entry.text)
    return entry.start + (dash.start(1) if dash else 0)


def line_of(text: bytes, place: int) -> int:
    """The line number of a place in a text."""
    return text.count(b"\n", 0, place) + 1
