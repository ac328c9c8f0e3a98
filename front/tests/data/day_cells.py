"""Prints the places of the cells in a DEF file: `klayout -zz -r day_cells.py`."""

import pya

options = pya.LoadLayoutOptions()
options.lefdef_config.lef_files = ["lef/day.lef"]
options.lefdef_config.read_lef_with_def = False
options.lefdef_config.instance_property_name = "name"
layout = pya.Layout()
layout.read("done.def", options)
# KLayout prints a transformation that only moves as its displacement.
places = (f"{cell.property('name')} {cell.dtrans}".replace(" r0", "") for cell in layout.top_cell().each_inst())
print(*places, sep="\n")
