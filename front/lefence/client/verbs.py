"""A request for each verb: its line, and what its reply means.

These are the methods of the sessions of `lefence.client` and `lefence.aio`, and of pipelines.

- Lengths are whole database units, or microns if the session has `microns` (the session's unit). Microns must be a
  whole number of database units, else ValueError.
- Names have only the bytes 33 to 126, else ValueError.
- If its disk is full, a hub refuses every change as `OutOfMemory`.

`lefence.client.refusals` has the refusals.
"""

from __future__ import annotations

import json
import re
from collections.abc import Callable
from dataclasses import dataclass
from decimal import Decimal, InvalidOperation
from typing import Generic, TypeVar

from ..base import design
from ..base.protocol import OPENACCESS, ProtocolError

T = TypeVar("T")
Length = int | float | Decimal

_NAME = re.compile(r"[!-~]+")
_OPENACCESS_OF = {orient: other for other, orient in reversed(OPENACCESS.items())}


@dataclass(frozen=True)
class Place:
    """A cell's place: the lower left corner of its box in the session's unit, and its orientation (N, S, FN, FS ..)."""

    x: Length
    y: Length
    orient: str


@dataclass(frozen=True)
class Legalized:
    """The team's revision after a legalize, and the cell's new place."""

    revision: int
    place: Place


@dataclass(frozen=True)
class Tidied:
    """The team's revision after a tidy, and the number of cells that moved."""

    revision: int
    moved: int


@dataclass(frozen=True)
class Violation:
    """A placed cell, the first rule that it breaks, and for rule 8 the first cell that it conflicts with."""

    cell: str
    rule: int
    other: str | None = None


@dataclass(frozen=True)
class Report:
    """A team's number of cells, of unplaced cells, and its violations in loading order."""

    cells: int
    unplaced: int
    violations: tuple[Violation, ...]

    @property
    def is_clean(self) -> bool:
        """Whether every cell has a place and breaks no rule."""
        return not self.unplaced and not self.violations


@dataclass(frozen=True)
class Request(Generic[T]):
    """A line without its line feed, and a function that reads its accepted reply: words after `ok`, and text."""

    line: bytes
    read: Callable[[list[str], bytes], T]


@dataclass(frozen=True)
class Scope:
    """An open session: its team and number.

    `per_micron` is None if lengths are database units. With `openaccess`, orientations are R0, MX and so on.
    """

    team: str
    number: int
    per_micron: int | None = None
    openaccess: bool = False

    def line(self, verb: str, *fields: str) -> bytes:
        return " ".join((verb, name(self.team), str(self.number), *fields)).encode()

    def dbu(self, length: Length) -> str:
        """Converts a caller's length into whole database units."""
        try:
            exact = Decimal(str(length)) * (self.per_micron or 1)
        except InvalidOperation:
            raise ValueError(f"{length!r} is not a length") from None
        if not exact.is_finite() or exact != exact.to_integral_value():
            raise ValueError(f"{length} is not a whole number of database units")
        return str(int(exact))

    def length(self, dbu: str) -> Length:
        """Converts a reply's length into the session's unit."""
        return int(dbu) if self.per_micron is None else int(dbu) / self.per_micron

    def orient(self, orient: str) -> str:
        """Converts a caller's orientation into DEF's."""
        if orient not in OPENACCESS:
            return name(orient)
        if not self.openaccess:
            raise ValueError(f"{orient} is not an orientation of DEF, which calls it {OPENACCESS[orient]}")
        return OPENACCESS[orient]

    def place(self, words: list[str]) -> Place:
        orient = _OPENACCESS_OF.get(words[2], words[2]) if self.openaccess else words[2]
        return Place(self.length(words[0]), self.length(words[1]), orient)


def name(word: str) -> str:
    """Returns the word. Raises ValueError if it cannot be a field of a line."""
    if not _NAME.fullmatch(word):
        raise ValueError(f"{word!r} cannot be a field of a line: it is empty or has other bytes than 33 to 126")
    return word


def read_reply(request: Request[T], words: list[str], text: bytes) -> T:
    """Reads an accepted reply, given its words after `ok`."""
    try:
        return request.read(words, text)
    except (ValueError, LookupError, TypeError) as error:
        raise ProtocolError(f"unexpected reply {words!r} to {request.line!r}: {error}") from error


def _revision(words: list[str], text: bytes) -> int:
    return int(words[0])


def _report(words: list[str], text: bytes) -> Report:
    report = json.loads(" ".join(words))
    violations = tuple(Violation(each["cell"], each["rule"], each.get("other")) for each in report["violations"])
    return Report(report["cells"], report["unplaced"], violations)


def open_session(team: str) -> Request[tuple[int, int]]:
    """Opens a session; its number and the team's revision. Refused by NoTeam, SessionsFull."""
    return Request(f"open {name(team)}".encode(), lambda words, text: (int(words[0]), int(words[1])))


def units() -> Request[int]:
    """Asks a hub for the database units per micron. All other servers refuse it by BadRequest."""
    return Request(b"units", _revision)


def close_session(scope: Scope) -> Request[None]:
    """Frees the session."""
    return Request(scope.line("close"), lambda words, text: None)


def units_in(text: bytes) -> int:
    """Returns the database units per micron of a team's DEF text."""
    units = design.units_in(text)
    if not units.isdigit() or not int(units):
        raise ProtocolError("the team's DEF text has no UNITS")
    return int(units)


def sync(scope: Scope) -> Request[int]:
    """Marks the team's present revision as seen, and returns it.

    Refused by NoSession.
    """
    return Request(scope.line("sync"), _revision)


def check(scope: Scope) -> Request[Report]:
    """Returns the team's report; changes nothing.

    Refused by NoSession, OutOfMemory.
    """
    return Request(scope.line("check"), _report)


def def_text(scope: Scope) -> Request[bytes]:
    """Returns the team's DEF text with its working places in database units; changes nothing.

    Refused by NoSession, OutOfMemory.
    """
    return Request(scope.line("def"), lambda words, text: text)


def where(scope: Scope, cell: str) -> Request[Place]:
    """Returns the cell's working place in the session's unit.

    Refused by NoSession, NoCell, Unplaced.
    """
    return Request(scope.line("where", name(cell)), lambda words, text: scope.place(words))


def find(scope: Scope, cell: str, x: Length, y: Length) -> Request[Place]:
    """Returns the cell's best place for the target (x, y), in the session's unit; changes nothing.

    Refused by NoSession, NoCell, NoPlace, OutOfMemory.
    """
    return Request(scope.line("find", name(cell), scope.dbu(x), scope.dbu(y)), lambda words, text: scope.place(words))


def place(scope: Scope, cell: str, x: Length, y: Length, orient: str) -> Request[int]:
    """Sets the cell's working place: its lower left corner in the session's unit, and N, S, FN or FS. Returns the
    revision.

    Refused by NoSession, Stale, RevisionsSpent, NoCell, Illegal, OutOfMemory.
    """
    return Request(scope.line("place", name(cell), scope.dbu(x), scope.dbu(y), scope.orient(orient)), _revision)


def legalize(scope: Scope, cell: str, x: Length, y: Length) -> Request[Legalized]:
    """Moves the cell to its best place for the target (x, y), in the session's unit.

    Refused by NoSession, Stale, RevisionsSpent, NoCell, NoPlace, OutOfMemory.
    """
    line = scope.line("legalize", name(cell), scope.dbu(x), scope.dbu(y))
    return Request(line, lambda words, text: Legalized(int(words[0]), scope.place(words[1:])))


def tidy(scope: Scope) -> Request[Tidied]:
    """Moves every cell that is unplaced or illegal to its best place, in loading order.

    Refused by NoSession, Stale, RevisionsSpent, OutOfMemory, and NoPlace of a cell without one: then no cell has moved.
    """
    return Request(scope.line("tidy"), lambda words, text: Tidied(int(words[0]), int(words[1])))


def unplace(scope: Scope, cell: str) -> Request[int]:
    """Unplaces the cell; returns the team's revision.

    Refused by NoSession, Stale, RevisionsSpent, NoCell, Unplaced, OutOfMemory.
    """
    return Request(scope.line("unplace", name(cell)), _revision)


def swap(scope: Scope, cell: str, other: str) -> Request[int]:
    """Exchanges the whole places of two cells; returns the team's revision.

    Refused by NoSession, Stale, RevisionsSpent, NoCell, Unplaced, Illegal, OutOfMemory.
    """
    return Request(scope.line("swap", name(cell), name(other)), _revision)


def undo(scope: Scope) -> Request[int]:
    """Restores the places before the newest kept change, unchecked; returns the team's revision.

    Refused by NoSession, Stale, RevisionsSpent, NothingToUndo.
    """
    return Request(scope.line("undo"), _revision)


def commit(scope: Scope) -> Request[int]:
    """Commits the working places; returns the team's revision.

    Refused by NoSession, Stale, RevisionsSpent, OutOfMemory, Unplaced and Illegal of the first cell that is not legal.
    """
    return Request(scope.line("commit"), _revision)


def revert(scope: Scope) -> Request[int]:
    """Restores the committed places, unchecked; returns the team's revision.

    Refused by NoSession, Stale, RevisionsSpent, OutOfMemory.
    """
    return Request(scope.line("revert"), _revision)


def wait(scope: Scope, revision: int) -> Request[int]:
    """On a query socket: waits until the team's revision is greater than this one; returns it.

    Later lines of the connection wait too. Refused by OutOfMemory when the hub ends, and BadRequest elsewhere.
    """
    return Request(f"wait {name(scope.team)} {int(revision)}".encode(), _revision)


def pad(scope: Scope, padding: int) -> Request[int]:
    """Sets the padding between the team's own cells along x, 0 to 16 core sites; returns the revision. No cell moves.

    Refused by NoSession, Stale, RevisionsSpent, and BadRequest above 16.
    """
    if not float(padding).is_integer():
        raise ValueError(f"{padding} is not a whole number of core sites")
    return Request(scope.line("pad", str(int(padding))), _revision)
