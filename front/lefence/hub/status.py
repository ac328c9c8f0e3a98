"""The status of a hub as a line of JSON, and a client that reads it."""

from __future__ import annotations

import json
import os
from collections import Counter
from collections.abc import Iterator
from pathlib import Path
from typing import TYPE_CHECKING, Any

from ..base.design import shown
from ..base.faults import FAILED, Fault, printable
from ..client.blocking import connect
from .metrics import TeamMetrics, memory_of, percentile

if TYPE_CHECKING:
    from .hub import Hub
    from .shards import Shard

# The most teams named in a line of the log.
_MOST_TEAMS = 50
# Seconds to wait for a hub's reply.
_PATIENCE = 10


def status_text(hub: Hub) -> bytes:
    """Formats the status as one line of JSON without a line feed."""
    return json.dumps(_status(hub), separators=(",", ":")).encode()


def _status(hub: Hub) -> dict[str, Any]:
    metrics, journal, now = hub.metrics, hub.journal, hub.clock.date()
    return {
        "uptime_seconds": round(hub.clock.now() - metrics.started, 1),
        "clients": len(hub.pool.clients),
        "unread_bytes": hub.pool.unread_bytes(),
        "lines_total": metrics.lines,
        "diverged_teams": len(hub.operator.diverged),
        "restores_total": hub.shards.restores,
        "changes_total": journal.changes,
        "states_total": hub.checkpoints.count,
        "failed_state": _failed_state(hub),
        "journal_bytes": journal.end,
        "past_bytes": journal.archive.size(),
        "journal_age_seconds": round(now - (journal.last or now), 1),
        **{f"sync_seconds_p{part}": round(percentile(metrics.syncs, part / 100), 6) for part in (50, 99)},
        **{f"batch_lines_p{part}": percentile(metrics.batches, part / 100) for part in (50, 99)},
        "program_bytes": sum(memory_of(shard.replay.pid) for shard in hub.shards),
        "hub_bytes": memory_of(os.getpid()),
        "folder": _working_folder(),
        "texts": [{"path": printable(str(text.path)), "sha256": text.sum} for text in journal.header.texts],
        "slow_lines_total": hub.latency.slow_count,
        "slow_lines": hub.latency.slow_status(),
        "programs": [_program(shard) for shard in hub.shards],
        "teams": list(_teams(hub)),
    }


def _working_folder() -> str:
    """The folder in which relative paths of exports begin; empty if it was removed."""
    try:
        return printable(os.getcwd())
    except OSError:
        return ""


def _failed_state(hub: Hub) -> dict[str, Any] | None:
    """The last try to save a state, if it failed."""
    if hub.checkpoints.failure is None:
        return None
    at, reason = hub.checkpoints.failure
    return {"at": round(at, 1), "reason": printable(reason)}


def _program(shard: Shard) -> dict[str, Any]:
    """A program, with its teams if it does not serve all."""
    part = shard.part
    own = {"teams": [shown(team) for team in sorted(part.teams)], "cells": part.cells} if part else {}
    seconds = {f"batch_seconds_p{each}": round(percentile(shard.seconds, each / 100), 6) for each in (50, 99)}
    pid = shard.replay.pid
    return {"pid": pid, "bytes": memory_of(pid), "restores": shard.restores, **seconds, **own}


def _teams(hub: Hub) -> Iterator[dict[str, Any]]:
    clients, sessions = Counter(client.team for client in hub.pool.clients), _sessions(hub)
    for team in hub.teams:
        name = team.encode()
        counts = hub.metrics.teams.get(name, TeamMetrics())
        counted = {"clients": clients[name], "revision": counts.revision, "uncommitted": counts.uncommitted}
        counted["frozen"] = hub.operator.is_frozen(name)
        counted["diverged"] = name in hub.operator.diverged
        yield {"team": team, **counted, **hub.latency.status_of(name), "sessions": sessions.get(name, [])}


def _sessions(hub: Hub) -> dict[bytes, list[dict[str, Any]]]:
    """The sessions with clients, by team."""
    found: dict[bytes, list[dict[str, Any]]] = {}
    for (team, number), owner in sorted(hub.pool.owners.items(), key=lambda item: item[0]):
        if who := owner.client:
            session = {"number": number, "uid": who.uid, "pid": who.pid, "since": round(owner.since, 1)}
            found.setdefault(team, []).append(session)
    return found


def uncommitted_text(hub: Hub) -> str | None:
    """Describes the uncommitted changes that an export lacks; None if there are none."""
    counts = sorted((team.decode(), each.uncommitted) for team, each in hub.metrics.teams.items() if each.uncommitted)
    if not counts:
        return None
    more = f" and {len(counts) - _MOST_TEAMS} more teams" if len(counts) > _MOST_TEAMS else ""
    return "uncommitted changes: " + ", ".join(f"{count} of {team}" for team, count in counts[:_MOST_TEAMS]) + more


def read_status(folder: Path) -> dict[str, Any]:
    """Reads the status of the hub with its sockets in a folder. Raises a Fault if none listens there."""
    path = folder / "operator.sock"
    try:
        with connect(path, timeout=_PATIENCE) as connection:
            words = connection.ask_line(b"status")
    except OSError as error:
        raise Fault(FAILED, f"{path}: {error.strerror or error}") from None
    if not words.startswith(b"ok {"):
        raise Fault(FAILED, f"{path}: unexpected reply {words.decode(errors='backslashreplace').strip()}")
    found: dict[str, Any] = json.loads(words[3:])
    return found
