"""The unit of lengths in the shell: database units, or microns. Sessions of the shell use database units."""

from __future__ import annotations

import re
from dataclasses import dataclass
from decimal import Decimal

from ..client.verbs import Length, Place

_WHOLE = re.compile(r"-?[0-9]+", re.ASCII)
_DECIMAL = re.compile(r"-?([0-9]+(\.[0-9]*)?|\.[0-9]+)", re.ASCII)


@dataclass(frozen=True)
class LengthUnit:
    """The unit in which lengths are typed and shown: microns of so many database units, or database units."""

    per_micron: int | None = None

    @property
    def name(self) -> str:
        """The unit's name in heads of tables."""
        return "database units" if self.per_micron is None else "microns"

    def parsed(self, field: str) -> int:
        """Converts a typed length into database units. Raises ValueError if that is not a whole number of them."""
        if self.per_micron is None:
            if not _WHOLE.fullmatch(field):
                advice = "; `units microns` takes microns" if _DECIMAL.fullmatch(field) else ""
                raise ValueError(f"{field} is not a whole number of database units{advice}")
            return int(field)
        if not _DECIMAL.fullmatch(field):
            raise ValueError(f"{field} is not a number of microns")
        length = Decimal(field) * self.per_micron
        if length != length.to_integral_value():
            raise ValueError(f"{field} microns are not a whole number of database units, of which a micron has"
                             f" {self.per_micron}")
        return int(length)

    def text(self, length: Length) -> str:
        """Formats a length of so many database units."""
        if self.per_micron is None:
            return str(length)
        return f"{(Decimal(length) / self.per_micron).normalize():f}"

    def place_text(self, place: Place) -> str:
        """Formats a place as `400 0 N`, as it is typed."""
        return f"{self.text(place.x)} {self.text(place.y)} {place.orient}"

    def sentence(self, place: Place) -> str:
        """Formats a place for a sentence, as `(400, 0), N`."""
        return f"({self.text(place.x)}, {self.text(place.y)}), {place.orient}"

    def distance_text(self, one: Place, other: Place) -> str:
        """Formats how far apart two places are, along x and y together."""
        distance = distance_of(one, other)
        return f"{self.text(distance)} away" if distance else "turned"


def distance_of(one: Place, other: Place) -> int:
    """Returns |dx| + |dy| of two places in database units."""
    return abs(int(one.x) - int(other.x)) + abs(int(one.y) - int(other.y))
