"""lefence-journal: checks, lists, verifies, exports, backs up and restores journals of a hub.

Modules in reading order:
- `main`: the tool.
- `restore_team`: brings one team back to an earlier moment.
- `saved_state`: the state at the end of a journal; lefence-carry uses it too.
"""
