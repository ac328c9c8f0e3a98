"""Tables as text for a terminal."""

from __future__ import annotations

from collections.abc import Collection, Sequence


def columns(head: Sequence[str], rows: Sequence[Sequence[str]], texts: Collection[int]) -> list[str]:
    """Formats a head and rows in columns two spaces apart. The columns `texts` are aligned to the left, as texts are,
    all others to the right, as numbers are.
    """
    widths = [max(map(len, column)) for column in zip(head, *rows, strict=True)]
    return [
        "  ".join(
            cell.ljust(width) if at in texts else cell.rjust(width)
            for at, (cell, width) in enumerate(zip(row, widths, strict=True))
        ).rstrip()
        for row in [head, *rows]
    ]
