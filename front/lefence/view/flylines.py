"""The nets of the cells on a page, for lines from a chosen cell to the cells that its nets lead to."""

from __future__ import annotations

from collections.abc import Iterable, Mapping
from pathlib import Path

from ..base.design import Design
from ..base.nets import Netlist

# The most pins of a net that is drawn, the most bytes of a DEF file whose nets are read, and the most pins on a page.
MOST_PINS = 100
MOST_BYTES = 30_000_000
MOST_ENDS = 200_000


def nets_of_page(
    design: Path, libraries: Iterable[Path], units: int, cells: Mapping[str, int]
) -> tuple[list[list[object]], str]:
    """Returns the nets of a page's cells, which are given with their numbers, and a note on nets that are left out.

    A net has its name, then for each point of its pins the point in database units and the number of the pin's cell,
    or -1.
    """
    if not cells or design.stat().st_size > MOST_BYTES:
        return [], "The nets are not read: the DEF file is too large." if cells else ""
    names = {name.encode(): number for name, number in cells.items()}
    parsed = Design(design.read_bytes())
    if not any(statement.keyword == b"NETS" for statement in parsed.statements):
        return [], ""
    netlist = Netlist(parsed, (path.read_bytes() for path in libraries), units, names)
    found: list[list[object]] = []
    ends = large = 0
    for net in netlist.nets:
        if len(net.pins) > MOST_PINS:
            large += 1
            continue
        words: list[object] = [net.name.decode("ascii", "backslashreplace")]
        for pin in net.pins:
            for point in netlist.points_or_middle(pin):
                words += [point[0] / 2, point[1] / 2, names.get(pin.component or b"", -1)]
        # (a net of one pin leads nowhere)
        if len(words) > 4:
            ends += len(words) // 3
            found.append(words)
        if ends > MOST_ENDS:
            return [], f"The nets are left out: they have more than {MOST_ENDS:,} pins."
    return found, f"Nets of more than {MOST_PINS} pins are left out: {large:,}." if large else ""
