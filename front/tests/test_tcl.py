"""The client library for Tcl, over a hub's socket and over TCP, where tclsh is installed."""

from __future__ import annotations

import os
import shutil
import subprocess
import sys
import unittest
from pathlib import Path

from support import CELLS, FRONT, PATIENCE, HubCase, page_blocks

import lefence
from lefence.base.protocol import OPENACCESS

TCLSH = shutil.which("tclsh")


@unittest.skipIf(TCLSH is None, "tclsh is not here; Debian has it as the package tcl")
class Tcl(HubCase):
    def run_tcl(
        self, script: str, *words: str | Path, expected: str = "", library: Path = FRONT / "tcl", search: str = ""
    ) -> list[str]:
        """Runs a script with the library of a folder; returns its output. Its standard error must be the expected one.

        `search` comes first in the search path.
        """
        path = self.folder / "script.tcl"
        path.write_text(script)
        done = subprocess.run(
            [str(TCLSH), path, *words],
            stdin=subprocess.DEVNULL,
            capture_output=True,
            text=True,
            timeout=PATIENCE,
            cwd=self.folder,
            env={**os.environ, "TCLLIBPATH": str(library), "PATH": f"{search}:{os.environ['PATH']}"},
        )
        self.assertEqual((done.returncode, done.stderr), (0, expected), done.stdout)
        return done.stdout.splitlines()

    def test_each_verb_has_a_proc_that_returns_its_result(self) -> None:
        self.start()
        output = self.run_tcl(
            """package require lefence
            set c [lefence::connect [lindex $argv 0]]
            set s [lefence::open $c f0]
            puts [lefence::place $s f0c1 400 0 N]
            puts [lefence::where $s f0c1]
            puts [lefence::find $s f0c2 400 0]
            puts [lefence::legalize $s f0c2 400 0]
            puts [lefence::swap $s f0c1 f0c2]
            puts [lefence::unplace $s f0c1]
            puts [lefence::undo $s]
            puts [lefence::tidy $s]
            puts [lefence::commit $s]
            puts [lefence::pad $s 2]
            set report [lefence::check $s]
            set rules [lsort -unique [lmap v [dict get $report violations] {dict get $v rule}]]
            puts [dict get $report cells],[dict get $report unplaced],$rules
            puts [lindex [dict get $report violations] 0]
            puts [lefence::revert $s]
            puts [lindex [split [lefence::def $s] \\n] end-1]
            puts [lefence::sync $s]
            lefence::close $s
            lefence::bye $c
            puts [list [array names lefence::sessions] [array names lefence::connections]]
            """,
            self.folder / "s/f0.sock",
        )
        head = ["1", "400 0 N", "0 0 N", "2 0 0 N", "3", "4", "5", f"6 {CELLS - 2}", "7", "8", f"{CELLS},0,8"]
        self.assertEqual(output[: len(head)], head)
        self.assertRegex(output[len(head)], r"^cell f0c\d rule 8 other f0c\d$")
        self.assertEqual(output[len(head) + 1 :], ["9", "END DESIGN", "9", "{} {}"])

    def test_refusals_are_error_codes(self) -> None:
        self.start()
        output = self.run_tcl(
            """package require lefence
            set c [lefence::connect [lindex $argv 0]]
            set s [lefence::open $c f0]
            lefence::place $s f0c1 400 0 N
            foreach line {
                {lefence::place $s f0c2 600 0 N} {lefence::where $s f0c2} {lefence::where $s nobody}
                {lefence::pad $s 17} {lefence::place $s "f0c1 0 0 N\\nbye" 0 0 N}
                {lefence::place $s f0c2 0.5 0 N} {lefence::where nothing f0c2}
                {lefence::export $c /tmp/x} {lefence::open $c f1} {lefence::connect /no/such.sock}
            } {
                catch $line message options
                puts [dict get $options -errorcode]
            }
            try {lefence::undo $s; lefence::undo $s} trap {LEFENCE NothingToUndo} {} {puts trapped}
            puts [catch {lefence::place $s f0c2 0 0}]
            puts [lsearch -all -inline -not [file channels] std*]
            puts $c
            """,
            self.folder / "s/f0.sock",
            expected="lefence-shell: /no/such.sock: No such file or directory\n",
        )
        codes = [
            "Illegal 7 8 f0c2 f0c1",
            "Unplaced 6 f0c2",
            "NoCell 5",
            "BadRequest 1",
            "BadName",
            "BadLength",
            "NoSession",
            "BadRequest 1",
        ]
        codes += ["NoTeam 2", "ConnectionLost"]
        self.assertEqual(output[:-2], [*(f"LEFENCE {code}" for code in codes), "trapped", "1"])
        # No channel stays open except that of the connection.
        self.assertEqual(output[-2], output[-1])

    def test_each_digit_of_a_length_counts(self) -> None:
        lengths = (
            "010 0",
            "007.25 1000",
            "-0.4 1000",
            "1e-3 1000",
            "9007199254740993 1",
            "0.0000000004 1000",
            "0x10 0",
            "abc 0",
            "NaN 0",
        )
        script = "package require lefence; foreach {length units} [lindex $argv 0] {\n"
        script += "catch {lefence::Whole $length $units} result options\n"
        script += "puts [expr {[dict exists $options -errorcode] ? [dict get $options -errorcode] : $result}]}"
        refused = ["LEFENCE BadLength"] * 4
        self.assertEqual(
            self.run_tcl(script, " ".join(lengths)), ["10", "7250", "-400", "1", "9007199254740993", *refused]
        )

    def test_microns_and_retries_on_request(self) -> None:
        self.start()
        script = """package require lefence
            set c [lefence::connect [lindex $argv 0]]
            set s [lefence::open $c f0 -microns 1 -retries 1]
            set other [lefence::open $c f0]
            lefence::place $other f0c1 0 0 N
            puts [lefence::place $s f0c2 0.6 2 FS]
            puts [list [lefence::where $s f0c2] [lefence::where $other f0c2] [lefence::legalize $s f0c3 1.5 0.3]]
            catch {lefence::place $other f0c1 0 0 N} message options
            puts [dict get $options -errorcode]
            """
        expected = ["2", "{0.6 2.0 FS} {600 2000 FS} {3 1.4 0.0 N}", "LEFENCE Stale 4 3"]
        self.assertEqual(self.run_tcl(script, self.folder / "s/f0.sock"), expected)
        with self.service(1) as port:
            self.assertEqual(self.run_tcl(script, f"localhost:{port}"), expected)

    def test_orientations_of_openaccess_on_request(self) -> None:
        self.start()
        output = self.run_tcl(
            """package require lefence
            set c [lefence::connect [lindex $argv 0]]
            set s [lefence::open $c f0 -openaccess 1]
            foreach {y orient} {0 R0 0 MY 2000 MX 2000 R180} {
                lefence::place $s f0c1 0 $y $orient
                puts [lefence::where $s f0c1]
            }
            puts [lindex [lefence::find $s f0c2 400 0] end]
            set plain [lefence::open $c f0]
            puts [lefence::where $plain f0c1]
            foreach line {{lefence::place $plain f0c1 0 0 R0} {lefence::open $c f0 -micron 1}} {
                catch $line message options
                puts [dict get $options -errorcode]
            }
            """,
            self.folder / "s/f0.sock",
        )
        places = ["0 0 R0", "0 0 MY", "0 2000 MX", "0 2000 R180"]
        self.assertEqual(output, [*places, "R0", "0 2000 S", "LEFENCE BadOrient", "LEFENCE BadOption"])

    def test_the_example_of_the_page_runs(self) -> None:
        self.start()
        [block] = page_blocks("CLIENTS.md", "tcl")
        code = block.replace("/run/lefence/A.sock", str(self.folder / "s/f0.sock"))
        output = self.run_tcl(code.replace("$connection A", "$connection f0").replace("session u", "session f0c"))
        self.assertEqual(output, ["f0c2 f0c1", "0.4 0.0 N", "2"])

    def test_an_installation_finds_its_shell(self) -> None:
        self.start()
        shell = f"#!/bin/sh\nexec '{sys.executable}' '{FRONT / 'bin/lefence-shell'}' \"$@\"\n"
        script = "package require lefence; set c [lefence::connect [lindex $argv 0]]; puts [lefence::line $c units]"
        # as of pip, of a Debian package, and of a folder apart from the tools
        for prefix, library, search in (
            ("pip", "share/lefence/tcl", ""),
            ("usr", "share/tcltk/lefence", ""),
            ("apart", "tcl", "usr/bin"),
        ):
            folder = self.folder / prefix
            shutil.copytree(FRONT / "tcl", folder / library)
            if not search:
                (folder / "bin").mkdir()
                (folder / "bin/lefence-shell").write_text(shell)
                (folder / "bin/lefence-shell").chmod(0o755)
            with self.subTest(prefix):
                found = str(self.folder / search) if search else ""
                output = self.run_tcl(script, self.folder / "s/f0.sock", library=folder / library, search=found)
                self.assertEqual(output, ["ok 1000"])

    def test_orientations_are_those_of_the_library_for_python(self) -> None:
        [output] = self.run_tcl("package require lefence; puts $lefence::ORIENTS")
        self.assertEqual(output.split(), [word for pair in OPENACCESS.items() for word in pair])

    def test_the_version_is_that_of_the_package(self) -> None:
        self.assertEqual(
            self.run_tcl("set verb mine; puts [package require lefence]; puts $verb"), [lefence.__version__, "mine"]
        )


if __name__ == "__main__":
    unittest.main()
