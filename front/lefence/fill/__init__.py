"""lefence-fill: fills the free sites of rows with filler cells, or removes these.

Modules in reading order:
- `main`: the tool.
- `free_sites`: the free sites of each row.
"""
