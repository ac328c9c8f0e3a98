#!/usr/bin/env bash
# A day of two teams: from a DEF file of another tool to a fully legal one. Run it in an empty folder.
# The output of a command, on both streams, follows it after `#> `. front/tests/test_day.py runs the script and compares
# the output.
# Three steps need KLayout (`apt install klayout`).
front=$(cd -- "$(dirname -- "$0")/.." && pwd)
data=$front/examples
if [ -d "$front/bin" ]; then
  # in a checkout
  export PATH="$front/bin:$PATH:${front%/*}"
  data=$front/tests/data
fi
cp "$data"/day.* "$data"/day_*.py .

# The library comes compressed, with words in lower case. The design has no rows and no fences, but fillers and a halo.
gzip day.lef
lefence-prepare day.def day.lef.gz --look | fmt -sw 110
#> LEF file day.lef.gz, line 3: core written as CORE and 5 more like it would help: the program reads words
#> in capitals only; --lef-output FOLDER writes LEF files without this
#> 1 FIXED component has a HALO, which the program skips: ram; --halos adds placement blockages
#> no ROW; a run with --output adds rows, --floorplan FP.def takes those of another DEF file
#> it does not load: 3 Unexpected line 3; LEF file day.lef.gz, line 3: SITE core CLASS core ; SYMMETRY y ;
#> SIZE 0.2 BY 2.0 ; END core
teams=(--fence A 0 0 4 8 --group A 'ua/*' --fence B 8 0 12 8 --group B 'ub/*')
lefence-prepare day.def day.lef.gz --lef-output lef -o in.def --fillers FILL --halos "${teams[@]}"
#> lefence-prepare: LEF file day.lef.gz, line 3: core written as CORE, and 3 more like it
#> lefence-prepare: LEF file day.lef.gz, line 3: y written as Y
#> lefence-prepare: LEF file day.lef.gz, line 7: block written as BLOCK
#> lefence-prepare: 4 rows of site core added: 60 sites each, the first at 0 0 is N
#> lefence-prepare: the rows follow the 11 placed cells: 9 fit along x, 11 along y, 11 have their row's orientation
#> lefence-prepare: 2 fillers removed (FILL)
#> lefence-prepare: fence A added: 1 rectangle
#> lefence-prepare: fence B added: 1 rectangle
#> lefence-prepare: 1 placement blockage added for halos
#> lefence-prepare: team A has 4 cells
#> lefence-prepare: team B has 4 cells
#> lefence-prepare: it loads: 10 cells, 1 unplaced, 5 illegal (2 by rule 2 Row, 1 by rule 6 Fence, 2 by rule 8 Overlap)
#> lefence-prepare: team  cells  utilization  unplaced  illegal  by rule
#> lefence-prepare: A         4        12.5%         0        3  2 Row 1, 8 Overlap 2
#> lefence-prepare: B         4        12.5%         0        2  2 Row 1, 6 Fence 1
#> lefence-prepare: -         2         7.2%         1        0
#> lefence-prepare: all      10        10.9%         1        5  2 Row 2, 6 Fence 1, 8 Overlap 2

# Five cells break a rule. `klayout -nn day.lyt in.def -m day.lyrdb` shows them as markers; a script prints their
# contents.
lefence-markers in.def lef/day.lef --output day.lyrdb --technology day.lyt
#> lefence-markers: 5 of 10 cells break a rule; 1 without a place have no marker
klayout -zz -r day_markers.py
#> 8 Overlap text: 'ua/u1' text: A box: (0,0;0.4,2) text: 'ua/u2' box: (0.2,0;0.8,2)
#> 8 Overlap text: 'ua/u2' text: A box: (0.2,0;0.8,2) text: 'ua/u1' box: (0,0;0.4,2)
#> 2 Row text: 'ua/u4' text: A box: (2.15,4;2.55,6)
#> 2 Row text: 'ub/u2' text: B box: (9.65,0;10.25,2)
#> 6 Fence text: 'ub/u4' text: B box: (7.6,2;8,4)

# Both teams work at once, each over its own socket.
lefence-hub in.def lef/day.lef --sockets s --journal day.journal --export new.def 2> first.log &
while ! grep -qs ready first.log && kill -0 $!; do sleep 0.1; done; cat first.log
#> lefence-hub: ready: 3 teams, 0 changes restored

# A corrects its cells and commits.
lefence-shell s/A.sock <<'END'
raw open A
raw place A 0 ua/u2 200 0 N
raw place A 0 ua/u2 400 0 N
raw legalize A 0 ua/u4 2150 4000
raw commit A 0
END
#> ok 0 0
#> no 7 Illegal 8 ua/u2 ua/u1
#> ok 1
#> ok 2 2200 4000 N
#> ok 3

# B has corrected one cell when the hub is killed. After the next start, all acknowledged changes are there.
lefence-shell s/B.sock <<'END'
raw open B
raw legalize B 0 ub/u4 7600 2000
raw open A
END
#> ok 0 0
#> ok 1 8000 2000 S
#> no 2 NoTeam
kill -9 $!; wait $! 2> /dev/null
lefence-hub in.def lef/day.lef --sockets s --journal day.journal --export new.def 2> second.log &
while ! grep -qs ready second.log && kill -0 $!; do sleep 0.1; done; cat second.log
#> lefence-hub: ready: 3 teams, 8 changes restored

# B cannot commit yet, so at its end the hub exports only A's places.
lefence-shell s/B.sock <<'END'
raw open B
raw where B 0 ub/u4
raw commit B 0
END
#> ok 0 1
#> ok 8000 2000 S
#> no 7 Illegal 2 ub/u2
kill $!; wait $!; tail -n 1 second.log
#> lefence-hub: ended

# A repair does the rest; KLayout reads the result.
lefence-repair new.def lef/day.lef -o done.def
#> lefence-repair: team B: 2 moved, 0 turned, 0 newly placed, 2 unmoved, 0 unrepaired
#> lefence-repair: team B: displacement in microns: mean 0.225, largest 0.400 (at least 0.400 in any repair)
#> lefence-repair: team -: 0 moved, 0 turned, 1 newly placed, 1 unmoved, 0 unrepaired
#> lefence-repair: team all: 2 moved, 0 turned, 1 newly placed, 7 unmoved, 0 unrepaired
#> lefence-repair: team all: displacement in microns: mean 0.225, largest 0.400 (at least 0.400 in any repair)
#> lefence-repair: team  cells  utilization  unplaced  illegal  by rule
#> lefence-repair: A         4        12.5%         0        0
#> lefence-repair: B         4        12.5%         0        0
#> lefence-repair: -         2         7.2%         0        0
#> lefence-repair: all      10        10.9%         0        0
#> lefence-repair: every cell is legal
lefence check done.def lef/day.lef
#> {"cells":10,"unplaced":0,"violations":[]}
klayout -zz -r day_cells.py
#> ua/u1 0,0
#> ua/u2 0.4,0
#> ua/u3 m0 1,4
#> ua/u4 2.2,4
#> ub/u1 9,0
#> ub/u2 9.6,0
#> ub/u3 m0 10,8
#> ub/u4 m0 8,4
#> top 6,0
#> new 4,0
#> ram 5,4

# The next day brings the next netlist: ua/u2 has another size, ua/u5 is new, ub/u4 is gone. What both teams did in the
# hub is carried over, and a hub begins with it.
sed -e 's,^- ua/u2 BUF,- ua/u2 INV,' -e 's,^- ub/u4 .*,- ua/u5 BUF ;,' day.def > next.def
lefence-prepare next.def lef/day.lef -o next_in.def --fillers FILL --halos "${teams[@]}" 2> /dev/null
lefence-carry --journal day.journal --to next_in.def lef/day.lef -o next.state --report next.json
#> team  cells  kept  resized  new  from other team  gone  unplaced  illegal  illegal before
#> A         5     3        1    1                0     0         1        0               0
#> B         3     3        0    0                0     1         0        1               1
#> -         2     2        0    0                0     0         1        0               0
#> all      10     8        1    1                0     1         2        1               1
#> lefence-carry: sessions are closed, and undo entries are not carried over
tail -n 1 next.json | fmt -sw 110
#> {"team": "all", "cells": 10, "kept": 8, "resized": 1, "new": 1, "from_other_team": 0, "gone": 1,
#> "unplaced": 2, "illegal": 1, "illegal_before": 1}
lefence-hub next_in.def lef/day.lef --sockets s --journal next.journal --begin next.state --export next_new.def \
    2> next.log &
while ! grep -qs ready next.log && kill -0 $!; do sleep 0.1; done; cat next.log
#> lefence-hub: the journal begins with the state next.state
#> lefence-hub: ready: 3 teams, 0 changes restored

# Repairs go through the sockets to the running hub.
for team in A B -; do
  lefence-repair next_in.def lef/day.lef --socket "s/$team.sock" 2>&1 | tail -n 2
done
#> lefence-repair: team A: now at revision 5
#> lefence-repair: every cell of team A is legal
#> lefence-repair: team B: now at revision 3
#> lefence-repair: every cell of team B is legal
#> lefence-repair: team -: now at revision 2
#> lefence-repair: every cell of team - is legal
kill $!; wait $!; tail -n 1 next.log
#> lefence-hub: ended

# Fillers fill the rows, and the design is still fully legal.
lefence-fill next_new.def lef/day.lef --masters FILL -o filled.def
#> lefence-fill: team A: 68 fillers (68 FILL)
#> lefence-fill: team B: 72 fillers (72 FILL)
#> lefence-fill: team -: 48 fillers (48 FILL)
lefence check filled.def lef/day.lef
#> {"cells":198,"unplaced":0,"violations":[]}

# A picture ends the day. Without --snapshot, lefence-view shows the design in a browser, or that of a running hub.
lefence-view filled.def lef/day.lef --snapshot day.png 2> view.log; head -c 4 day.png | tail -c 3; echo
#> PNG
