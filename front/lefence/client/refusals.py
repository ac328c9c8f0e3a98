"""The refusals of the program as exceptions, each with its number, name and fields.

A refused command changes nothing. docs/PROTOCOL.md says when each comes.
"""

from __future__ import annotations

from collections.abc import Sequence
from typing import ClassVar

from ..base.protocol import RULES

# The text for each rule. Rule 8 is about two cells.
_VIOLATIONS = {
    1: "{} is not 1 to 8 core sites high",
    2: "{} {be} on no core row, off its x grid or beyond its ends",
    3: "{} {lack} rows with alternating rails under its whole height",
    4: "{} may not have this orientation there",
    5: "{} {have} its bottom rail on the other rail of the row",
    6: "{} {leave} the team's ground",
    7: "{} {overlap} an obstacle: a FIXED component or a placement blockage",
    8: "{} {overlap} {}",
}
# The text of rule 8 if the team may have a padding.
_TOO_NEAR = "{} {overlap} {} or {then_be} too near to it"


def violation_text(
    rule: int, cell: str, other: str | None = None, is_there: bool = False, is_padded: bool = False
) -> str:
    """Describes the rule that a cell breaks or, if it is not there yet, would break; with a padding or without."""
    verbs = {verb: f"{verb}s" if is_there else f"would {verb}" for verb in ("lack", "leave", "overlap")}
    verbs |= {"be": "is", "have": "has"} if is_there else {"be": "would be", "have": "would have"}
    verbs["then_be"] = "is" if is_there else "be"
    words = _TOO_NEAR if rule == 8 and is_padded else _VIOLATIONS.get(rule, f"{{}} breaks rule {rule}")
    return words.format(cell, other or "another cell", **verbs)


class Refusal(Exception):
    """A reply `no NUMBER NAME ..`; `fields` are the words after the name."""

    number: ClassVar[int] = 0
    # The refusal in words, if these are always the same.
    text: ClassVar[str] = ""

    def __init__(self, fields: Sequence[str] = ()) -> None:
        self.fields = tuple(fields)
        super().__init__(f"{self.number} {self.name}: {self.words()}")

    def __reduce__(self) -> tuple[type[Refusal], tuple[tuple[str, ...]]]:
        return type(self), (self.fields,)

    @property
    def name(self) -> str:
        """The refusal's name in the protocol."""
        return type(self).__name__

    def words(self) -> str:
        """The refusal in words."""
        return self.text or " ".join(self.fields) or "refused"

    def _field(self, at: int) -> str:
        return self.fields[at] if at < len(self.fields) else ""

    def _number(self, at: int) -> int:
        return int(self._field(at)) if self._field(at).isdecimal() else 0


class BadRequest(Refusal):
    """1: the line is not a request, or a number is out of range."""

    number = 1
    text = "this is not a valid request"


class NoTeam(Refusal):
    """2: no team has this name, or the socket is another team's."""

    number = 2
    text = "no such team here"


class NoSession(Refusal):
    """3: no open session of the team has this number; another client may have closed it."""

    number = 3
    text = "the session is not open"


class Stale(Refusal):
    """4: the session has not seen the team's present revision; `sync` shows it."""

    number = 4

    @property
    def revision(self) -> int:
        """The team's present revision."""
        return self._number(0)

    def words(self) -> str:
        return f"another session has changed the team, now at revision {self.revision}: sync first"


class NoCell(Refusal):
    """5: the cell is not the team's own."""

    number = 5
    text = "the team has no such cell"


class Unplaced(Refusal):
    """6: a cell has no place."""

    number = 6

    @property
    def cell(self) -> str:
        """The cell without a place."""
        return self._field(0)

    def words(self) -> str:
        return f"{self.cell} has no place"


class Illegal(Refusal):
    """7: the place breaks a rule."""

    number = 7

    @property
    def rule(self) -> int:
        """The number of the first broken rule, 1 to 8."""
        return self._number(0)

    @property
    def rule_name(self) -> str:
        """The name of the rule, for example `Overlap`."""
        return RULES.get(self.rule, "")

    @property
    def cell(self) -> str:
        """The cell whose place breaks the rule."""
        return self._field(1)

    @property
    def other(self) -> str | None:
        """For rule 8, the first cell of the team that the place overlaps or is too near to; else None."""
        return self._field(2) or None

    def words(self, is_there: bool = False) -> str:
        """The refusal in words; `is_there` if the cell has this place already, as at a commit."""
        return violation_text(self.rule, self.cell, self.other, is_there, is_padded=True)


class NoPlace(Refusal):
    """8: a cell has no legal place outside soft blockages."""

    number = 8

    @property
    def cell(self) -> str:
        """The cell without a legal place."""
        return self._field(0)

    def words(self) -> str:
        return f"there is no legal place for {self.cell}"


class NothingToUndo(Refusal):
    """9: `undo` without a kept change."""

    number = 9
    text = "there is nothing to undo"


class SessionsFull(Refusal):
    """10: `open`, and the team has no free session."""

    number = 10
    text = "the team has no free session"


class RevisionsSpent(Refusal):
    """11: the team has reached the greatest revision."""

    number = 11
    text = "the team can make no more changes"


class OutOfMemory(Refusal):
    """12: out of memory; from a hub also: its disk is full. Nothing has changed; a later try may succeed."""

    number = 12
    text = "out of memory, or the hub's disk is full"


class NotExported(Refusal):
    """13, from a hub only: the file was not written; the fields are the reason."""

    number = 13

    def words(self) -> str:
        return f"the file was not written: {' '.join(self.fields) or 'the hub gives no reason'}"


class Frozen(Refusal):
    """14, from a hub only: a change, and the operator has frozen the team."""

    number = 14
    text = "the operator has frozen the team"


class QueriesOnly(Refusal):
    """15, from a hub only: the line is no query, and this is a team's query socket."""

    number = 15
    text = "this is a query socket: only the team's other socket takes changes"


_KINDS: dict[int, type[Refusal]] = {kind.number: kind for kind in Refusal.__subclasses__()}


def refusal_of(reply: bytes) -> Refusal | None:
    """Returns the refusal of a reply, or None if the reply is none."""
    if not reply.startswith(b"no "):
        # (skip decoding of long texts)
        return None
    words = reply.decode("ascii", "backslashreplace").split()
    if len(words) < 3 or words[0] != "no" or not words[1].isdecimal():
        return None
    kind = _KINDS.get(int(words[1]))
    return kind(words[3:]) if kind else Refusal(words[1:])
