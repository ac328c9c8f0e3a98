package ifneeded lefence 0.1.0 [list source [file join $dir lefence.tcl]]
