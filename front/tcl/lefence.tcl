# The client library for Tcl 8.6 and later: a connection to a hub or to `lefence serve`, and a proc for each verb.
#
#     package require lefence
#     set connection [lefence::connect /run/lefence/A.sock]
#     set session [lefence::open $connection A -microns 1]
#     try {
#         lefence::place $session u2 0.6 0 N
#     } trap {LEFENCE Illegal} {message options} {
#         puts "$message; rule [lindex [dict get $options -errorcode] 3]"
#     }
#
# A refusal is an error whose code has LEFENCE, its name, its number and its fields. docs/PROTOCOL.md has the verbs.

package require Tcl 8.6-
package provide lefence 0.1.0

namespace eval lefence {
    # A command that connects to a Unix socket, which Tcl cannot do. The path is its last word. It is next to this folder
    # in a checkout, and two folders higher in an installation; elsewhere the search path has it.
    variable top [file dirname [file dirname [file normalize [info script]]]]
    variable client [apply {{top} {
        foreach folder [list $top [file dirname [file dirname $top]]] {
            set shell [file join $folder bin lefence-shell]
            if {[file executable $shell]} {
                return [list $shell --raw]
            }
        }
        return {lefence-shell --raw}
    }} $top]
    # The orientations of OpenAccess, each with that of DEF. Replies use the first spelling of each.
    variable ORIENTS {R0 N R90 W R180 S R270 E MY FN MXR90 FW MX FS MYR90 FE MX90 FW MY90 FE}
    # For each connection: the database units per micron, or 0 if unknown.
    # For each session: its connection, team and number, the database units per micron (0 if its lengths are database
    # units), how often a stale change is sent again, and whether its orientations are those of OpenAccess.
    variable connections
    variable sessions
    variable count 0
    array set connections {}
    array set sessions {}
}
source [file join [file dirname [info script]] tables.tcl]

# Connects to a Unix socket at a path, or to HOST:PORT.
proc lefence::connect {where} {
    variable client
    variable connections
    if {![file exists $where] && [regexp {^([^/]+):(\d{1,5})$} $where - host port]} {
        set connection [socket $host $port]
    } else {
        set connection [::open |[list {*}$client $where 2>@ stderr] r+]
    }
    fconfigure $connection -translation lf -encoding iso8859-1 -buffering line
    set connections($connection) 0
    try {
        set connections($connection) [lindex [Ask $connection units] 0]
    } trap {LEFENCE BadRequest} {} {
        # (lefence serve)
    } trap {LEFENCE ConnectionLost} {message} {
        disconnect $connection
        throw {LEFENCE ConnectionLost} "$where: $message"
    }
    return $connection
}

# Opens a session of a team. -microns 1: its lengths are microns; -openaccess 1: its orientations are R0, MX and so on;
# -retries N: a change that is refused as stale is synced and sent again, up to N times.
proc lefence::open {connection team args} {
    variable connections
    variable sessions
    variable count
    set options [dict merge {-microns 0 -retries 0 -openaccess 0} $args]
    if {[dict size $options] != 3} {
        throw {LEFENCE BadOption} "the options of a session are -microns, -retries and -openaccess: $args"
    }
    set number [lindex [Ask $connection "open [Name $team]"] 0]
    set session lefence[incr count]
    set sessions($session) [dict create connection $connection team $team number $number units 0]
    dict set sessions($session) retries [dict get $options -retries]
    dict set sessions($session) openaccess [dict get $options -openaccess]
    if {[dict get $options -microns]} {
        set units $connections($connection)
        if {!$units} {
            regexp -line {^UNITS DISTANCE MICRONS (\d+) ;$} [def $session] - units
        }
        dict set sessions($session) units $units
    }
    return $session
}

# Frees a session.
proc lefence::close {session} {
    variable sessions
    dict with sessions($session) {}
    unset sessions($session)
    Ask $connection "close $team $number"
    return
}

# Has a hub write the committed places of all teams to a file of its machine, on the operator's connection.
proc lefence::export {connection path} {
    Ask $connection "export [Name $path]"
    return
}

# Sends bye, waits for its reply and ends the connection.
proc lefence::bye {connection} {
    Ask $connection bye
    disconnect $connection
}

# Ends a connection; a hub then frees its sessions.
proc lefence::disconnect {connection} {
    variable connections
    variable sessions
    unset -nocomplain connections($connection)
    foreach session [array names sessions] {
        if {[dict get $sessions($session) connection] eq $connection} {
            unset sessions($session)
        }
    }
    catch {::close $connection}
    return
}

# Sends a line; returns the reply without its line feed, followed by the text of a `def`.
proc lefence::line {connection line} {
    if {[string first \n $line] >= 0} {
        throw {LEFENCE BadLine} "a line must not contain a line feed"
    }
    if {[catch {puts $connection $line; gets $connection reply} length] || $length < 0} {
        throw {LEFENCE ConnectionLost} "the connection is lost"
    }
    if {[lindex [split $line] 0] eq "def" && [regexp {^ok (\d+)$} $reply - length]} {
        append reply \n [read $connection $length]
    }
    return $reply
}

# Sends a line; returns the words after ok. A refusal is an error.
proc lefence::Ask {connection line} {
    set reply [line $connection $line]
    if {[regexp {^no (\d+) (\w+) ?(.*)$} $reply - number name rest]} {
        throw [list LEFENCE $name $number {*}[split $rest]] [string range $reply 3 end]
    }
    if {![regexp {^ok( |$)} $reply]} {
        throw {LEFENCE ProtocolError} "unexpected reply $reply to $line"
    }
    return [string range $reply 3 end]
}

# Returns the word if it can be a field of a line; else throws an error.
proc lefence::Name {word} {
    if {![regexp {^[!-~]+$} $word]} {
        throw {LEFENCE BadName} "$word cannot be a field of a line: it is empty or has other bytes than 33 to 126"
    }
    return $word
}

# Converts a caller's length into whole database units, exactly.
proc lefence::Whole {length units} {
    set form {^([-+]?)([0-9]*)(?:\.([0-9]*))?(?:[eE]([-+]?[0-9]{1,3}))?$}
    if {![regexp $form [string trim $length] - sign whole part power] || "$whole$part" eq ""} {
        throw {LEFENCE BadLength} "$length is not a length"
    }
    set digits [expr {[Decimal $whole$part] * ($units ? $units : 1)}]
    set shift [expr {[Decimal $power] - [string length $part]}]
    if {$shift >= 0} {
        set digits [expr {$digits * 10 ** $shift}]
    } elseif {$digits % 10 ** -$shift} {
        throw {LEFENCE BadLength} "$length is not a whole number of database units"
    } else {
        set digits [expr {$digits / 10 ** -$shift}]
    }
    return [expr {$sign eq "-" ? -$digits : $digits}]
}

# Reads digits with an optional sign as a decimal number: Tcl reads a leading 0 as octal.
proc lefence::Decimal {digits} {
    regexp {^([-+]?)0*([0-9]*)$} $digits - sign rest
    return [expr {$rest eq "" ? 0 : "$sign$rest"}]
}

# Converts a caller's orientation into DEF's.
proc lefence::Orient {orient openaccess} {
    variable ORIENTS
    if {![dict exists $ORIENTS $orient]} {
        return [Name $orient]
    }
    set meant [dict get $ORIENTS $orient]
    if {!$openaccess} {
        throw {LEFENCE BadOrient} "$orient is not an orientation of DEF, which calls it $meant: use -openaccess 1"
    }
    return $meant
}

# Sends a verb of a session with its fields; returns one word of the reply, or a list of several. For check it returns a
# dict, for def the text.
proc lefence::Verb {verb session args} {
    variable VERBS
    variable sessions
    if {![info exists sessions($session)]} {
        throw {LEFENCE NoSession} "$session is not an open session"
    }
    dict with sessions($session) {}
    set line "$verb $team $number"
    foreach field [dict get $VERBS $verb fields] value $args {
        switch $field {
            X - Y {append line " " [Whole $value $units]}
            O {append line " " [Orient $value $openaccess]}
            default {append line " " [Name $value]}
        }
    }
    for {set tries 0} {1} {incr tries} {
        try {
            set reply [Ask $connection $line]
            break
        } trap {LEFENCE Stale} {message options} {
            if {$tries >= $retries} {
                return -options $options $message
            }
            Ask $connection "sync $team $number"
        }
    }
    return [Result $reply [dict get $VERBS $verb reply] $units $openaccess]
}

# Converts the words after ok.
proc lefence::Result {reply kinds units openaccess} {
    variable ORIENTS
    switch -- $kinds {
        JSON {return [Report $reply]}
        LENGTH {return [string range $reply [string first \n $reply]+1 end]}
    }
    set result {}
    foreach kind $kinds word [split $reply] {
        if {$units && $kind in {X Y}} {
            set word [expr {$word / double($units)}]
        } elseif {$openaccess && $kind eq "O"} {
            set word [lindex $ORIENTS [lsearch -exact $ORIENTS $word]-1]
        }
        lappend result $word
    }
    if {[llength $kinds] == 1} {
        return [lindex $result 0]
    }
    return $result
}

# Converts a report into a dict with cells, unplaced, and violations: a list of dicts with cell, rule and, for rule 8,
# other.
proc lefence::Report {json} {
    regexp {"cells":(\d+),"unplaced":(\d+)} $json - cells unplaced
    set violations {}
    set name {"((?:[^"\\]|\\.)*)"}
    set form "\\{\"cell\":${name}(,\"other\":${name})?,\"rule\":(\\d+)\\}"
    foreach {- cell - other rule} [regexp -all -inline $form $json] {
        set violation [dict create cell [Plain $cell] rule $rule]
        if {$other ne ""} {
            dict set violation other [Plain $other]
        }
        lappend violations $violation
    }
    return [dict create cells $cells unplaced $unplaced violations $violations]
}

# Removes the backslashes of JSON from a name.
proc lefence::Plain {name} {
    return [regsub -all {\\(.)} $name {\1}]
}

# Defines the procs of the other verbs, each with the session and the fields of the protocol.
proc lefence::Define {verb fields} {
    set names [expr {$fields eq "CELL CELL" ? "cell other" : [string tolower $fields]}]
    set values [join [lmap name $names {set name \$$name}]]
    proc ::lefence::$verb [list session {*}$names] "Verb $verb \$session $values"
}
apply {{verbs} {
    dict for {verb known} $verbs {
        if {$verb ni {open close}} {
            lefence::Define $verb [dict get $known fields]
        }
    }
}} $lefence::VERBS
