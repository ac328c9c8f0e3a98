"""The commands of the shell: their fields and what they do, for help and completion."""

from __future__ import annotations

from ..base.protocol import VERBS

# Commands of the shell itself, and `savepoint`, which a hub takes on each of its sockets for changes.
SHELL_COMMANDS = {
    "team": ("NAME", "opens a session of the team, or returns to its open one; the verbs then use it"),
    "teams": ("", "lists the teams that are known here: that of the socket, or all for the operator"),
    "cells": ("[PATTERN]", "lists the team's cells with macro and place; in PATTERN, * is any text and ? any one sign"),
    "near": ("CELL [N]", "lists the N cells of the team that are nearest to one, by their lower left corners (10)"),
    "units": ("[UNIT]", "has lengths in `microns` or in `database` units, or shows in which they are"),
    "history": ("[N]", "shows the last N lines of this shell with their replies (10)"),
    "savepoint": ("[TEAM] NAME", "names the team's places in the hub's journal, for `lefence-journal restore-team`"),
    "wait": ("REV", "waits until the team's revision is greater, and prints it; only on a query socket"),
    "raw": ("LINE", "sends a line of the protocol unchanged, and prints its reply"),
    "help": ("[COMMAND]", "shows what a command takes and does, or all commands"),
    "quit": ("", "ends"),
}
# Commands that only the operator's socket of a hub takes.
OPERATOR_COMMANDS = {
    "status": ("", "shows the hub's journal, teams, sessions and programs"),
    "freeze": ("TEAM", "has changes by the team's own clients refused; the operator can still change the team"),
    "thaw": ("TEAM", "has changes by the team's own clients accepted again"),
    "drop": ("PID", "ends the connections of a process to the teams' sockets; it may connect again"),
    "state": ("", "has the hub save a state now, if there are changes since the last one"),
    "export": ("PATH", "has the hub write the committed places of all teams to a file, and shows its full path"),
}
# Verbs of the protocol that `team` replaces.
HIDDEN = ("open",)
TEAM_VERBS = {name: (" ".join(verb.fields), verb.text) for name, verb in VERBS.items() if name not in HIDDEN}
COMMANDS = TEAM_VERBS | SHELL_COMMANDS | OPERATOR_COMMANDS
# The words that complete the fields of commands, by kind.
_FIELDS: dict[str, tuple[str, ...]] = {
    "team": ("TEAM",),
    "freeze": ("TEAM",),
    "thaw": ("TEAM",),
    "savepoint": ("TEAM",),
    "cells": ("CELL",),
    "near": ("CELL",),
    "units": ("UNIT",),
    "help": ("COMMAND",),
}


def field_kind(command: str, at: int) -> str:
    """Returns the kind of a command's field number `at`, as `CELL` or `TEAM`; empty if nothing completes it."""
    fields = VERBS[command].fields if command in TEAM_VERBS else _FIELDS.get(command, ())
    return fields[at] if at < len(fields) else ""


def help_lines(command: str) -> list[str]:
    """Returns what a command takes and does; of all commands if it is empty."""
    if not command:
        groups = {
            "The verbs of the team:": TEAM_VERBS,
            "Other commands:": SHELL_COMMANDS,
            "Only on the operator's socket of a hub:": OPERATOR_COMMANDS,
        }
        return [line for title, group in groups.items() for line in [title, *map(_summary, group.items())]]
    if command not in COMMANDS:
        return [f"no such command: {command}"]
    fields, text = COMMANDS[command]
    only = "; only on the operator's socket of a hub" if command in OPERATOR_COMMANDS else ""
    return [f"{command} {fields}".rstrip(), f"  {text}{only}"]


def _summary(row: tuple[str, tuple[str, str]]) -> str:
    name, (fields, text) = row
    return f"{f'{name} {fields}':<22} {text}"
