"""What helps after a refusal: the nearest legal place, or the tool that moves other cells."""

from __future__ import annotations

import shlex
from collections.abc import Sequence
from pathlib import Path

from ..base.protocol import socket_name, team_of_query_socket
from ..client.blocking import Pending, Session
from ..client.refusals import Illegal, NoPlace, Refusal, Unplaced
from ..client.verbs import Place
from .lengths import LengthUnit

# Verbs that search a place.
_SEARCHES = ("tidy", "legalize", "find")


def repair_command(where: Sequence[str], team: str, names_team: bool) -> str:
    """Returns the command that repairs a team: at the socket or HOST:PORT where the shell is connected, or in the
    design that it was given. `names_team` if the socket is not the team's own.
    """
    first, *more = where
    if more:
        return shlex.join(["lefence-repair", *where, "--team", team, "--output"]) + " NEW.def"
    path = Path(first)
    if (other := team_of_query_socket(path.name)) is not None:
        # (a query socket takes no changes)
        first = str(path.with_name(socket_name(other)))
    words = ["--socket", first, *(["--team", team] if names_team else [])]
    return f"lefence-repair DEF LEF.. {shlex.join(words)}"


def hint_lines(verb: str, refusal: Refusal, repair: str) -> list[str]:
    """Returns the advice after a refusal that has one."""
    if verb not in _SEARCHES or not isinstance(refusal, NoPlace):
        return []
    blocked = "other cells may block the space"
    if verb == "tidy":
        blocked = f"nothing has moved; {blocked}: `check` lists those that break a rule, `unplace` removes one"
    return [blocked, f"this repairs the team, and also moves legal cells if it must: {repair}"]


def place_hint_lines(session: Session, cell: str, target: Place, unit: LengthUnit, repair: str) -> list[str]:
    """Returns the nearest legal place of a cell whose place was refused."""
    [nearest] = nearest_places(session, [(cell, target)])
    if nearest is None:
        return [f"no place of the team is legal for {cell} now; this also moves other cells: {repair}"]
    place = f"{unit.place_text(nearest)}, {unit.distance_text(target, nearest)}"
    return [f"the nearest legal place is {place}: `legalize {cell} {unit.text(target.x)} {unit.text(target.y)}`"]


def refusal_words(session: Session, verb: str, target: tuple[str, Place] | None, refusal: Refusal) -> str:
    """Returns a refusal in words; `target` is what a `place` wanted. At a commit, and if a cell is placed where it is,
    the cell breaks the rule now.
    """
    if not isinstance(refusal, Illegal):
        return refusal.words()
    if target is None:
        return refusal.words(is_there=verb == "commit")
    [place] = present_places(session, [target[0]])
    return refusal.words(is_there=place == target[1])


def present_places(session: Session, cells: Sequence[str]) -> list[Place | None]:
    """Returns the working places of cells; None for one without a place. Raises any other refusal."""
    with session.pipeline(raises=False) as pipeline:
        pending = [pipeline.where(cell) for cell in cells]
        return [_place_or_none(each, Unplaced) for each in pending]


def nearest_places(session: Session, targets: Sequence[tuple[str, Place]]) -> list[Place | None]:
    """Returns for each cell and its target the nearest legal place; None if there is none. Raises any other refusal."""
    with session.pipeline(raises=False) as pipeline:
        pending = [pipeline.find(cell, target.x, target.y) for cell, target in targets]
        return [_place_or_none(each, NoPlace) for each in pending]


def _place_or_none(pending: Pending[Place], expected: type[Refusal]) -> Place | None:
    """Returns a place of a reply, or None if it is refused as expected."""
    return None if isinstance(pending.refusal, expected) else pending.result()
