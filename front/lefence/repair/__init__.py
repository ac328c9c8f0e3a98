"""lefence-repair: repairs a design by the program, here or through a hub, and says what it did.

Modules in reading order:
- `main`: the tool.
- `side_by_side`: runs of the program for parts of the teams at the same time.
- `run`: a repair by `lefence repair`, and its report in words.
- `remote`: repairs a team of a running hub.
"""
