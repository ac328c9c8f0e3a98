"""Changes of components, fences and groups that make a DEF file mean what its flow means: FIXED cells, halos, fences
without a type, patterns of several fences, and cells inside a fence that no group names."""

from __future__ import annotations

import re
from collections import defaultdict
from collections.abc import Iterable, Iterator, Mapping
from decimal import Decimal

from ..base.description import Box, Cell, Frame
from ..base.design import STAR, TOKENS, Design, Entry, pattern_of, section_parts, shown
from ..base.faults import REFUSED, Fault
from ..base.lef import sizes_of
from ..base.protocol import GROUND
from ..base.wording import number
from .preparation import Preparation, Section, first_of, placed_in, whole, word_of

# The places of a halo's distances (left, bottom, right and top of the macro) at the sides of a turned component.
_TURNED = {
    b"N": (0, 1, 2, 3),
    b"S": (2, 3, 0, 1),
    b"W": (3, 0, 1, 2),
    b"E": (1, 2, 3, 0),
    b"FN": (2, 1, 0, 3),
    b"FS": (0, 3, 2, 1),
    b"FW": (1, 0, 3, 2),
    b"FE": (3, 2, 1, 0),
}
_SIDEWAYS = (b"W", b"E", b"FW", b"FE")
# Sections that come after BLOCKAGES in DEF 5.8.
_AFTER_BLOCKAGES = tuple(b"SLOTS FILLS SPECIALNETS NETS SCANCHAINS GROUPS BEGINEXT END".split())


def _components(preparation: Preparation) -> Iterator[Entry]:
    for statement in preparation.all_of(b"COMPONENTS"):
        yield from section_parts(preparation.text, statement)[2]


def fix(preparation: Preparation, patterns: list[str]) -> None:
    """Makes the PLACED components FIXED whose name or macro matches a pattern."""
    are_wanted = [pattern_of(word_of(pattern).encode()).fullmatch for pattern in patterns]
    fixed, unplaced = 0, []
    for entry in _components(preparation):
        if any(is_wanted(word) for is_wanted in are_wanted for word in entry.words[:2]):
            if word := _placed_word(entry):
                preparation.replace(entry.start + word.start(1), entry.start + word.end(1), b"FIXED")
                fixed += 1
            elif not (entry.has(b"FIXED") or entry.has(b"COVER")):
                unplaced.append(shown(entry.name))
    preparation.messages.append(f"{number(fixed, 'component')} fixed ({' '.join(patterns)})")
    if unplaced:
        preparation.messages.append(f"{len(unplaced)} of them are unplaced and stay so: {first_of(unplaced)}")


def _placed_word(entry: Entry) -> re.Match[bytes] | None:
    """The word PLACED of a component's placement clause."""
    last = b""
    for token in TOKENS.finditer(entry.text):
        if last == b"+" and token[1] == b"PLACED":
            return token
        last = token[1]
    return None


def add_halos(preparation: Preparation, libraries: list[bytes]) -> None:
    """Adds a placement blockage over each FIXED component with a HALO and its surroundings; a soft one for HALO SOFT.
    A halo that has its blockage gets no other one.
    """
    entries, unknown = [], []
    for name, blockage in halos_in(preparation, libraries):
        if blockage is None:
            unknown.append(name)
        else:
            entries.append(b"\n- %b ;" % blockage)
    if entries:
        preparation.add_entries(b"BLOCKAGES", entries, _AFTER_BLOCKAGES)
    preparation.messages.append(f"{number(len(entries), 'placement blockage')} added for halos")
    if unknown:
        preparation.messages.append(f"without a size or a place, so without a halo: {first_of(unknown)}")


def halos_in(preparation: Preparation, libraries: list[bytes]) -> Iterator[tuple[str, bytes | None]]:
    """Yields the FIXED components with a HALO that has no placement blockage, each with the words of that blockage;
    None if the component has no size or no place.
    """
    found = [entry for entry in _components(preparation) if entry.has(b"HALO") and entry.has(b"FIXED")]
    if not found:
        return
    # (of two macros with one name the first counts)
    macros = [macro for text in libraries for macro in sizes_of(text)]
    sizes = {name: (width, height) for name, width, height in reversed(macros)}
    blockages = [section_parts(preparation.text, statement)[2] for statement in preparation.all_of(b"BLOCKAGES")]
    known = {b" ".join(entry.words) for entries in blockages for entry in entries}
    for entry in found:
        blockage = _blockage_of(entry, sizes.get(entry.words[1]), preparation.units)
        if blockage not in known:
            yield shown(entry.name), blockage


def _blockage_of(entry: Entry, size: tuple[Decimal, Decimal] | None, units: int) -> bytes | None:
    """The words of a placement blockage over a component and its halo, given its macro's size in microns."""
    found = placed_in(entry, b"FIXED")
    if size is None or found is None or found[2] not in _TURNED:
        return None
    is_soft, distances = _halo_of(entry)
    left, bottom, right, top = (distances[at] for at in _TURNED[found[2]])
    width, height = (whole(length * units, f"macro {shown(entry.words[1])}") for length in size)
    if found[2] in _SIDEWAYS:
        width, height = height, width
    corners = found[0] - left, found[1] - bottom, found[0] + width + right, found[1] + height + top
    return b"PLACEMENT %bRECT ( %d %d ) ( %d %d )" % (b"+ SOFT " if is_soft else b"", *corners)


def _halo_of(entry: Entry) -> tuple[bool, list[int]]:
    """Whether a component's halo is soft, and its four distances; 0 for one that is missing."""
    at = next(at for at in range(len(entry.words) - 1) if entry.words[at : at + 2] == [b"+", b"HALO"]) + 2
    is_soft = entry.words[at : at + 1] == [b"SOFT"]
    words = entry.words[at + is_soft : at + is_soft + 4]
    distances = [int(Decimal(word.decode())) if re.fullmatch(rb"\d{1,9}(\.0*)?", word) else 0 for word in words]
    return is_soft, (distances + [0] * 4)[:4]


def make_fences(preparation: Preparation, names: list[str]) -> None:
    """Makes FENCE regions of these regions, which have no TYPE."""
    wanted = {word_of(name).encode() for name in names}
    for statement in preparation.all_of(b"REGIONS"):
        for start, entry in Section(preparation.text, statement).entries():
            if entry.name in wanted:
                wanted.remove(entry.name)
                if (kind := entry.value_after(b"TYPE")) is not None:
                    raise Fault(REFUSED, f"region {shown(entry.name)} already has TYPE {shown(kind)}")
                semicolon = start + len(entry.text) - 1
                preparation.replace(semicolon, semicolon, b"+ TYPE FENCE ")
                preparation.messages.append(f"region {shown(entry.name)} is a fence now")
    if wanted:
        raise Fault(REFUSED, f"the DEF file has no region {first_of(sorted(map(shown, wanted)))}")


class _Claims:
    """The names and patterns by which the groups of fences claim components."""

    def __init__(self, design: Design) -> None:
        # The fence of each name; and of each pattern, by the bytes in front of its first star.
        self._names: dict[bytes, bytes] = {}
        self._starred: defaultdict[bytes, dict[bytes, tuple[re.Pattern[bytes], bytes]]] = defaultdict(dict)
        for group in design.entries(b"GROUPS"):
            if (fence := design.fence_of(group)) is not None:
                for word in members_of(group):
                    first, *more = STAR.split(word)
                    if more:
                        self._starred[first].setdefault(word, (pattern_of(word), fence))
                    else:
                        self._names.setdefault(word, fence)
        self._lengths = sorted({len(first) for first in self._starred})

    def of(self, name: bytes) -> list[tuple[bytes, bytes]]:
        """Lists the words that claim a component, each with its fence; the most exact one last."""
        found = [
            (word, fence)
            for length in self._lengths
            for word, (pattern, fence) in self._starred.get(name[:length], {}).items()
            if pattern.fullmatch(name)
        ]
        found.sort(key=lambda claim: len(claim[0]))
        return found + ([(name, self._names[name])] if name in self._names else [])


def split_patterns(preparation: Preparation) -> None:
    """Writes names in place of the patterns that claim components of another fence's longer pattern.

    The longest pattern that matches a component claims it. Raises a Fault if two fences have one of the same length.
    """
    design = Design(preparation.text)
    claims, names, losers = _Claims(design), defaultdict[bytes, list[bytes]](list), set[bytes]()
    for component in _components(preparation):
        found = claims.of(component.name) if not (component.has(b"FIXED") or component.has(b"COVER")) else []
        if not found:
            continue
        word, fence = found[-1]
        names[word].append(component.name)
        for other, second in found[:-1]:
            if second != fence:
                if len(other) == len(word):
                    what = f"patterns {shown(other)} and {shown(word)} of two fences claim component"
                    raise Fault(REFUSED, f"{what} {shown(component.name)}, and neither is longer")
                losers.add(other)
    for statement in preparation.all_of(b"GROUPS") if losers else ():
        for start, group in Section(preparation.text, statement).entries():
            if design.fence_of(group) is not None:
                _write_names(preparation, start, group, losers, names)
    what = "written as names, since longer ones of other fences claim some of theirs"
    preparation.messages.append(f"{number(len(losers), 'pattern')} {what}")


def _write_names(
    preparation: Preparation, start: int, group: Entry, losers: set[bytes], names: Mapping[bytes, list[bytes]]
) -> None:
    """Writes the names that these patterns of a group claim in place of the patterns."""
    for token in list(TOKENS.finditer(group.text))[2:-1]:
        if token[1] == b"+":
            return
        if token[1] in losers:
            preparation.replace(start + token.start(1), start + token.end(1), b"\n  ".join(names.get(token[1], [])))


def members_of(group: Entry) -> Iterator[bytes]:
    """Yields the names and patterns of a group."""
    for word in group.words[1:]:
        if word == b"+":
            return
        yield word


class FenceGround:
    """The fences of a frame, for finding the one that a box is inside of."""

    def __init__(self, frame: Frame) -> None:
        rects = [(rect, fence.name) for fence in frame.fences for rect in fence.rects]
        self._step = max(1, max((rect.right for rect, _ in rects), default=0) // 256 + 1)
        self._columns: defaultdict[int, list[tuple[Box, str]]] = defaultdict(list)
        for rect, name in rects:
            for column in range(rect.left // self._step, rect.right // self._step + 1):
                self._columns[column].append((rect, name))

    def fence_of(self, box: Box) -> str | None:
        """Returns the fence that all of a box is inside of, or None."""
        near: defaultdict[str, list[Box]] = defaultdict(list)
        for column in range(box.left // self._step, box.right // self._step + 1):
            for rect, name in self._columns.get(column, ()):
                if rect.left < box.right and box.left < rect.right and rect.bottom < box.top and box.bottom < rect.top:
                    near[name].append(rect)
        return next((name for name, rects in near.items() if _is_covered(box, rects)), None)


def _is_covered(box: Box, rects: list[Box]) -> bool:
    """Whether the rectangles cover a box together."""
    rest = [box]
    for rect in rects:
        rest = [part for piece in rest for part in _outside(piece, rect)]
    return not rest


def _outside(box: Box, rect: Box) -> Iterator[Box]:
    """Yields the parts of a box outside of a rectangle, at most four."""
    left, right = max(box.left, rect.left), min(box.right, rect.right)
    bottom, top = max(box.bottom, rect.bottom), min(box.top, rect.top)
    if left >= right or bottom >= top:
        yield box
        return
    sides = (
        Box(box.left, box.bottom, left, box.top),
        Box(right, box.bottom, box.right, box.top),
        Box(left, box.bottom, right, bottom),
        Box(left, top, right, box.top),
    )
    yield from (side for side in sides if side.width > 0 and side.height > 0)


def strangers_in(cells: Iterable[Cell], ground: FenceGround) -> Iterator[tuple[str, str]]:
    """Yields the cells of the ground team that are inside a fence, each with the fence.

    Such a cell breaks rule 6, or one of the rules before it.
    """
    for cell in cells:
        if cell.team == GROUND and cell.box is not None and cell.rule is not None and cell.rule <= 6:
            if (fence := ground.fence_of(cell.box)) is not None:
                yield cell.name, fence


def adopt(preparation: Preparation, patterns: list[str], strangers: Iterable[tuple[str, str]]) -> None:
    """Binds cells to the fences that they are inside of, if a pattern matches the fence's name."""
    are_wanted = [pattern_of(word_of(pattern).encode()).fullmatch for pattern in patterns]
    adopted: defaultdict[str, list[str]] = defaultdict(list)
    for name, fence in strangers:
        if any(is_wanted(fence.encode()) for is_wanted in are_wanted):
            adopted[fence].append(name)
    if adopted:
        preparation.add_groups(adopted, [])
    for fence, names in adopted.items():
        what = f"{number(len(names), 'cell')} inside fence {fence} now of its team"
        preparation.messages.append(f"{what}: {first_of(names)}")
    if not adopted:
        preparation.messages.append(f"no cell of team {GROUND} is inside a fence ({' '.join(patterns)})")

