"""lefence-check: counts each team's cells and the rules that they break, and lists the first violations.

Modules in reading order:
- `main`: the tool.
- `tally`: the counts of a design. lefence-repair and lefence-prepare end with them too.
- `nearest`: the nearest legal place of a violation, as the program finds it.
- `table`: counts and violations as text for a terminal, and as an object for scripts.
"""
