# The verbs of the program: the fields after TEAM and N, the words of the reply after ok, and what the verb does.
# tools/verbs.py --write generates this file from the program's sources: edit those.

namespace eval lefence {
    variable VERBS {
        open {fields {} reply {N REV} does {takes the team's least free session slot}}
        close {fields {} reply {} does {frees the slot}}
        sync {fields {} reply {REV} does {the session has seen the present revision}}
        check {fields {} reply {JSON} does {the team's report; changes nothing}}
        def {fields {} reply {LENGTH} does {the team's DEF text, its cells at their working places; changes nothing}}
        where {fields {CELL} reply {X Y O} does {the working place}}
        find {fields {CELL X Y} reply {X Y O} does {the best place for the target; changes nothing}}
        place {fields {CELL X Y O} reply {REV} does {sets the cell's working place, if the place breaks no rule}}
        legalize {fields {CELL X Y} reply {REV X Y O} does {the cell goes to its best place}}
        tidy {fields {} reply {REV MOVED}
            does {every cell that is unplaced or illegal goes to its best place, in loading order}}
        unplace {fields {CELL} reply {REV} does {the cell becomes unplaced}}
        swap {fields {CELL CELL} reply {REV} does {the two cells exchange their whole places}}
        undo {fields {} reply {REV}
            does {restores the working places before the newest change in the undo list; tests no rule}}
        commit {fields {} reply {REV} does {the working places become the committed ones}}
        revert {fields {} reply {REV} does {the committed places become the working ones, unchecked}}
        pad {fields {P} reply {REV}
            does {sets how far apart the team keeps its own cells along x, in core sites; no cell moves}}
    }
}
