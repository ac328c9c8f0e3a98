"""lefence-prepare: makes the texts of flows ready for the program, and names what it would skip or refuse.

Modules in reading order:
- `main`: the tool.
- `preparation`, `cells`, `library_text`: the changes of a DEF text, of its components and groups, and of LEF texts.
- `floorplan`: what a DEF text takes from the text of its floorplan. `new_cells`: places near their nets for new cells.
- `text_check`: what `--look` prints. `skipped` names what the program skips, `pitfalls` what loads but means something
  else than the flow meant, and `refusal_hints` why a text is refused.
"""
