"""lefence-carry: carries the places of a design over to the next netlist.

Modules:
- `main`: the tool.
"""
