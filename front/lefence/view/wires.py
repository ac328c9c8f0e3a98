"""The wire length of a design, as the program's `wirelength` prints it, before and after its cells moved.

For each net it is half the perimeter of the least box around its pins.
"""

from __future__ import annotations

from concurrent.futures import ThreadPoolExecutor
from typing import NamedTuple

from ..base.faults import Fault, reason_of
from ..base.program import Program


class Wires(NamedTuple):
    """The wire length of one placement, or of two of the same nets, in half database units; and the number of nets."""

    lengths: list[int]
    nets: int

    def microns(self, units: int) -> list[float]:
        """The lengths in microns."""
        return [length / (2 * units) for length in self.lengths]

    def text(self, units: int) -> str:
        """The lengths, and by how much the second differs, for example `9.635 -> 9.250 microns (-4.0 %)`."""
        change = f" ({self.lengths[1] / self.lengths[0] - 1:+.1%})" if len(self.lengths) > 1 and self.lengths[0] else ""
        return " -> ".join(f"{length:.3f}" for length in self.microns(units)) + f" microns{change}"


def wires_of(*placements: Program) -> Wires | None:
    """Measures the placements of a design, side by side. Returns None if no pin of a net counts. Raises a Fault if the
    program does.
    """
    with ThreadPoolExecutor(len(placements)) as pool:
        totals = [*pool.map(Program.wire_length, placements)]
    nets = max(total["nets"] for total in totals)
    has_pins = any(total["pins"] for total in totals)
    return Wires([total["doubled"] for total in totals], nets) if has_pins else None


def wires_or_note(*placements: Program) -> tuple[Wires | None, list[str]]:
    """Measures the placements of a design. If that fails, returns a note that says why."""
    try:
        return wires_of(*placements), []
    except Fault as fault:
        return None, [f"the wire length is not known: {reason_of(fault)}"]
