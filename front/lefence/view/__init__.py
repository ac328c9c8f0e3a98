"""The tools that show a design and compare two: lefence-picture, -report, -markers and -summary.

Modules in reading order:
- `scene`, `drawing`: what is drawn of a design, and the SVG text of it. `team_area`: the areas of teams.
- `picture`: lefence-picture.
- `displacement`, `displacement_text`, `wires`: how far the cells of a design have moved, and how long its nets are.
- `summary`: lefence-summary. `tcl_moves`: its commands for other tools.
- `report`, `report_moves`, `density`, `flylines`: lefence-report. `report.html` is its page, `report.js` the page's
  script, and `chip.js` the picture of a design, which other pages may use too.
- `markers`: lefence-markers, for KLayout.
"""
