"""How tools write counts for people."""

from __future__ import annotations


def number(count: int, one: str, many: str | None = None) -> str:
    """Formats a count, for example `1 cell` and `12,000 cells`."""
    return f"{count:,} {one if count == 1 else many or one + 's'}"
