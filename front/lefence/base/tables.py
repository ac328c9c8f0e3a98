"""The verbs, refusals, rules and orientations of the program.

tools/verbs.py --write generates this file from the program's sources: edit those.
"""

from __future__ import annotations

# A verb of a team: its name, its fields after TEAM (and N), the words of its reply after `ok`, whether an accepted one
# changes later replies, whether it makes a revision of the team, and what it does.
VERBS: tuple[tuple[str, tuple[str, ...], tuple[str, ...], bool, bool, str], ...] = (
    ("open", (), ("N", "REV"), True, False, "takes the team's least free session slot"),
    ("close", (), (), True, False, "frees the slot"),
    ("sync", (), ("REV",), True, False, "the session has seen the present revision"),
    ("check", (), ("JSON",), False, False, "the team's report; changes nothing"),
    ("def", (), ("LENGTH",), False, False, "the team's DEF text, its cells at their working places; changes nothing"),
    ("where", ("CELL",), ("X", "Y", "O"), False, False, "the working place"),
    ("find", ("CELL", "X", "Y"), ("X", "Y", "O"), False, False, "the best place for the target; changes nothing"),
    ("place", ("CELL", "X", "Y", "O"), ("REV",), True, True,
     "sets the cell's working place, if the place breaks no rule"),
    ("legalize", ("CELL", "X", "Y"), ("REV", "X", "Y", "O"), True, True, "the cell goes to its best place"),
    ("tidy", (), ("REV", "MOVED"), True, True,
     "every cell that is unplaced or illegal goes to its best place, in loading order"),
    ("unplace", ("CELL",), ("REV",), True, True, "the cell becomes unplaced"),
    ("swap", ("CELL", "CELL"), ("REV",), True, True, "the two cells exchange their whole places"),
    ("undo", (), ("REV",), True, True,
     "restores the working places before the newest change in the undo list; tests no rule"),
    ("commit", (), ("REV",), True, True, "the working places become the committed ones"),
    ("revert", (), ("REV",), True, True, "the committed places become the working ones, unchecked"),
    ("pad", ("P",), ("REV",), True, True,
     "sets how far apart the team keeps its own cells along x, in core sites; no cell moves"),
)

# The names of the refusals by their number.
REFUSALS = {
    1: "BadRequest",
    2: "NoTeam",
    3: "NoSession",
    4: "Stale",
    5: "NoCell",
    6: "Unplaced",
    7: "Illegal",
    8: "NoPlace",
    9: "NothingToUndo",
    10: "SessionsFull",
    11: "RevisionsSpent",
    12: "OutOfMemory",
}

# The names of the rules of a place by their number.
RULES = {
    1: "Height",
    2: "Row",
    3: "Stand",
    4: "Orient",
    5: "Rail",
    6: "Fence",
    7: "Obstacle",
    8: "Overlap",
}

ORIENTS = ("N", "W", "S", "E", "FN", "FW", "FS", "FE")
