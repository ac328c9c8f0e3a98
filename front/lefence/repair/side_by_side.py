"""Runs of `lefence repair` or `lefence improve` side by side, each for some of the teams of a design.

Each run reads the whole design. What the program answers to a team's commands depends only on the frame and on that
team's cells and commands. So a team is repaired as in a single run, and its lines may stand before or after those of
any other team.
"""

from __future__ import annotations

import os
import tempfile
from collections.abc import Iterable, Sequence
from itertools import groupby
from pathlib import Path
from typing import Any, NamedTuple

from ..base.description import Description
from ..base.faults import FAILED, Fault, Parser
from ..base.program import Program, reports_of
from ..base.progress import Progress
from ..base.protocol import is_accepted
from ..view.team_area import areas_of

# The keys of the report of all teams that are sums of those of the teams, and those that are the greatest of them.
_SUMS = ("cells", "kept", "moved", "placed", "pushed", "total", "turned")
_GREATEST = ("largest", "least_largest")


class Parts(NamedTuple):
    """Teams that are divided into parts: all of them in the order of the design, and those of each part."""

    order: list[str]
    parts: list[list[str]]


def add_jobs(parser: Parser) -> None:
    """Adds the option for runs side by side."""

    def count(word: str) -> int:
        if (number := int(word)) < 0:
            raise ValueError
        return number

    parser.add_argument(
        "--jobs",
        metavar="N",
        type=count,
        default=1,
        help="work on the teams by at most N runs of the program at once; 0: one for each processor (default: 1)",
    )


def jobs_of(given: int) -> int:
    """Returns the most runs at once: the given number, or for 0 one for each processor that this process may use."""
    return given or len(os.sched_getaffinity(0))


def divided(program: Program, teams: Sequence[str], jobs: int) -> Parts | None:
    """Divides these teams of a design, or all teams if none is given, into at most `jobs` parts of about equal area.

    Returns None if one run is to do it all: there is one job or one team, or the design lacks a team, which the program
    then refuses.
    """
    if jobs < 2 or len({*teams}) == 1:
        return None
    with Description(program.path, program.texts[0], program.texts[1:]) as description:
        areas = areas_of(description.frame)
    order = [team for team in areas if not teams or team in teams]
    if len(order) < 2 or not areas.keys() >= {*teams}:
        return None
    parts: list[list[str]] = [[] for _ in range(min(jobs, len(order)))]
    sums = [0] * len(parts)
    for team in sorted(order, key=areas.__getitem__, reverse=True):
        number = sums.index(min(sums))
        parts[number].append(team)
        # (a team without ground counts too, so that no part stays empty)
        sums[number] += areas[team] + 1
    return Parts(order, [sorted(part, key=order.index) for part in parts])


def team_words(teams: Iterable[str]) -> list[str]:
    """Returns the options of the program that name these teams."""
    return [f"--team={team}" for team in teams]


def run_parts(
    program: Program, verb: str, options: Sequence[str], parts: Parts, folder: Path, progress: Progress
) -> tuple[list[list[dict[str, Any]]], dict[str, list[bytes]]]:
    """Runs `repair` or `improve` for each part side by side. Returns the reports, and the lines of each team, in the
    order of the design. Raises a Fault if a run fails.
    """
    files = [folder / f"lines{number}" for number in range(len(parts.parts))]
    commands = [
        program.move_words(verb, [*options, *team_words(part)], file)
        for part, file in zip(parts.parts, files, strict=True)
    ]
    reports = reports_of(commands, progress)
    lines: dict[str, list[bytes]] = {team: [] for team in parts.order}
    for path in files:
        with open(path, "rb") as file:
            for team, of_team in groupby(file, lambda line: line.split(None, 2)[1]):
                lines[team.decode()].extend(of_team)
        path.unlink()
    return reports, lines


def replay(program: Program, lines: Iterable[bytes], export: Path) -> None:
    """Has the program answer lines that it accepted in another run, and export. Raises a Fault if it refuses one now.
    """
    lines = [*lines]
    with tempfile.TemporaryFile() as replies:
        program.answer(lines, replies, export)
        replies.seek(0)
        if sum(map(is_accepted, replies)) != len(lines):
            raise Fault(FAILED, "the program refuses a line that it accepted before")


def repair_side_by_side(
    program: Program, options: Sequence[str], parts: Parts, lines: Path, export: Path, progress: Progress
) -> list[dict[str, Any]]:
    """Repairs the teams of each part by a run of its own. Returns the report of a single run, and writes its files.

    Of the keys of the last object, only those are there that are made of the teams' numbers, and `legal`. Raises a
    Fault if a run fails.
    """
    with tempfile.TemporaryDirectory(dir=lines.parent) as folder:
        reports, lines_of = run_parts(program, "repair", options, parts, Path(folder), progress)
    with open(lines, "wb") as file:
        for team in parts.order:
            file.writelines(lines_of[team])
    replay(program, (line for team in parts.order for line in lines_of[team]), export)
    found = {report["team"]: report for *teams, _ in reports for report in teams}
    teams = [found[team] for team in parts.order]
    return [*teams, _total_of(teams, program.with_design(export).is_legal())]


def _total_of(teams: list[dict[str, Any]], is_legal: bool) -> dict[str, Any]:
    """Returns the object of all teams, by the objects of the teams."""
    total: dict[str, Any] = {key: sum(team[key] for team in teams) for key in _SUMS}
    total |= {key: max(team[key] for team in teams) for key in _GREATEST}
    mean = total["total"] // total["moved"] if total["moved"] else 0
    return {**total, "left_cells": sum(len(team["left"]) for team in teams), "legal": is_legal, "mean": mean}
