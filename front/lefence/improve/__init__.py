"""lefence-improve: makes the nets of a design shorter by the program, with several runs at once, and says what it did.

Modules in reading order:
- `main`: the tool.
- `keep`: puts the moves of runs together that did not see each other.
"""
