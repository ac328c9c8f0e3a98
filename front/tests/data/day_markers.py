"""Prints the markers of a report database: `klayout -zz -r day_markers.py`."""

import pya

database = pya.ReportDatabase("")
database.load("day.lyrdb")
for item in database.each_item():
    print(database.category_by_id(item.category_id()).name(), *(value.to_s() for value in item.each_value()))
