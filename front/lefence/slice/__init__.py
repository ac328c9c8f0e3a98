"""lefence-slice: cuts the slice of one team out of a design, and puts places into DEF texts.

Modules in reading order:
- `main`: the tool.
- `splice`: reads the placement clauses of a DEF text, and replaces them.
"""
