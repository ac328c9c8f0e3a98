"""The status of a hub for people: tables on a terminal, JSON for scripts, and --watch."""

from __future__ import annotations

import contextlib
import io
import json
import os
import pty
import pwd
import select
import sys
import time
import unittest
from typing import Any
from unittest import mock

from support import PATIENCE, FrontCase, HubCase, tool_words

from lefence.base.columns import columns
from lefence.hub import main as hub_tool
from lefence.hub.status import read_status
from lefence.hub.status_table import duration, seconds, size, status_lines
from lefence.hub.status_view import TURN, StatusView, json_text, requested_view

# A status with every part of it, and the time at which it is read.
NOW = 1_800_000_000.0
STATUS: dict[str, Any] = {
    "uptime_seconds": 11520.5,
    "clients": 3,
    "unread_bytes": 70000,
    "lines_total": 1234,
    "restores_total": 1,
    "changes_total": 340,
    "states_total": 2,
    "failed_state": {"at": NOW - 190, "reason": "no space \x1b is left"},
    "journal_bytes": 70012,
    "past_bytes": 1_230_000,
    "journal_age_seconds": 12.4,
    "sync_seconds_p50": 0.0004,
    "sync_seconds_p99": 0.0021,
    "hub_bytes": 30_000_000,
    "slow_lines_total": 3,
    "slow_lines": [
        {"at": NOW - 300, "team": "A", "verb": "tidy", "uid": 4294967290, "pid": 17, "seconds": 2.977, "work": 0.021}
    ],
    "programs": [
        {"pid": 41, "bytes": 12_400_000, "restores": 1, "batch_seconds_p99": 0.0021, "teams": ["A"], "cells": 225},
        {"pid": None, "bytes": 0, "restores": 0, "batch_seconds_p99": 0, "teams": ["-", "B"], "cells": 470},
    ],
    "teams": [
        {
            "team": team,
            "clients": clients,
            "revision": revision,
            "uncommitted": revision // 2,
            "frozen": team != "A",
            "diverged": team == "-",
            "lines_total": 10 * revision,
            "work_seconds_total": revision / 8,
            "line_seconds_p99": 0.0011,
            "sessions": [{"number": at, "uid": 4294967290, "pid": 17, "since": NOW - 65} for at in range(clients)],
        }
        for team, clients, revision in (("-", 0, 0), ("A", 2, 12), ("B", 1, 3))
    ],
}
TABLE = """\
hub: up 3 h 12 min; 3 clients; 1,234 lines; 70.0 KB of replies unread
journal: 340 changes; 70.0 KB, and 1.2 MB of earlier segments and states; last change 12 s ago
disk: a write takes 0.4 ms, 99 of 100 at most 2.1 ms
states: 2 saved since the start; the last try failed 3 min ago: no space \\x1b is left
slow lines: 3; the last 5 min ago: tidy of A by uid 4294967290 pid 17, 2.98 s, 21.0 ms in the program

team  cells  revision  uncommitted  frozen    clients  lines  work (s)  reply p99  sessions
-         -         0            0  diverged        0      0      0.00     1.1 ms  -
A       225        12            6  -               2    120      1.50     1.1 ms  0 uid 4294967290 pid 17 1 min, \
1 uid 4294967290 pid 17 1 min
B         -         3            1  frozen          1     30      0.38     1.1 ms  0 uid 4294967290 pid 17 1 min

process    pid   memory  restarts  work (s)  batch p99  cells  teams
program 1   41  12.4 MB         1      1.50     2.1 ms    225  A
program 2    -  0 bytes         0      0.38     0.0 ms    470  -, B
hub          -  30.0 MB         -         -          -      -  -
"""


class Tables(unittest.TestCase):
    def test_a_status_is_two_tables(self) -> None:
        self.assertEqual("".join(f"{line}\n" for line in status_lines(STATUS, NOW)), TABLE)

    def test_what_is_not_there_is_not_said(self) -> None:
        quiet: dict[str, Any] = STATUS | {"failed_state": None, "slow_lines_total": 0, "slow_lines": []}
        quiet["journal_age_seconds"] = 0
        quiet["programs"] = [{"pid": 1, "bytes": 2, "restores": 0, "batch_seconds_p99": 1.5}]
        lines = status_lines(quiet, NOW)
        self.assertEqual(lines[3:5], ["states: 2 saved since the start", "slow lines: 0"])
        self.assertNotIn("last change", lines[1])
        self.assertEqual(lines[-2].split(), "program 1 1 2 bytes 0 1.88 1.50 s - all".split())

    def test_numbers_for_people(self) -> None:
        times = {-3: "0 s", 59.9: "59 s", 60: "1 min", 3599: "59 min", 7500: "2 h 5 min", 349_200: "4 d 1 h"}
        self.assertEqual({each: duration(each) for each in times}, times)
        sizes = {1: "1 byte", 999: "999 bytes", 1000: "1.0 KB", 1e15: "1000.0 TB"}
        self.assertEqual({each: size(each) for each in sizes}, sizes)
        self.assertEqual([seconds(0.0004), seconds(2.976)], ["0.4 ms", "2.98 s"])
        self.assertEqual(columns(["a", "b"], [["x", "10"], ["yyy", "1"]], (0,)), ["a     b", "x    10", "yyy   1"])


class View(HubCase):
    def test_a_hub_shows_its_teams_sessions_and_frozen_teams(self) -> None:
        self.start("--programs", "2")
        self.talk("f0").ask("open f0", "place f0 0 f0c1 0 0 N")
        self.assertEqual(self.talk("operator").ask("freeze f1"), ["ok"])
        status = read_status(self.folder / "s")
        self.assertEqual((status["folder"], status["failed_state"]), (os.getcwd(), None))
        teams = {line.split()[0]: line.split() for line in status_lines(status, time.time()) if line}
        session = ["0", pwd.getpwuid(os.geteuid()).pw_name, "pid", str(os.getpid())]
        self.assertEqual((teams["f0"][2:6], teams["f0"][10:14]), (["1", "1", "-", "1"], session))
        self.assertEqual(teams["f1"][4], "frozen")
        # Without a terminal the status is a line of JSON, as it is with --json.
        done = self.tool("lefence-hub", "--status", self.folder / "s")
        self.assertEqual((done.returncode, {*json.loads(done.stdout)}), (0, {*status}))
        done = self.tool("lefence-hub", "--metrics", self.folder / "s")
        self.assertIn(b'lefence_team_frozen{team="f1"} 1\n', done.stdout)

    def test_a_terminal_gets_tables(self) -> None:
        self.start()
        pid, terminal = pty.fork()
        if pid == 0:
            os.execv(sys.executable, [*tool_words("lefence-hub"), "--status", str(self.folder / "s"), "--watch"])
        seen = b""
        last = time.monotonic() + PATIENCE
        while b"\nhub  " not in seen and time.monotonic() < last:
            if select.select([terminal], [], [], 0.5)[0]:
                seen += os.read(terminal, 4096)
        self.assertTrue(seen.startswith(b"\x1b[H\x1b[Jhub: up "), seen)
        self.assertIn(b"\nteam  cells  revision", seen)
        # Ctrl-C ends it.
        os.write(terminal, b"\x03")
        self.assertEqual(os.waitpid(pid, 0)[1], 0)
        os.close(terminal)

    def test_watch_goes_on_until_it_is_interrupted_or_the_hub_is_gone(self) -> None:
        self.start()
        pauses: list[float] = []

        def pause(count: float) -> None:
            pauses.append(count)
            if len(pauses) == 3:
                raise KeyboardInterrupt

        view = StatusView(self.folder / "s", json_text, is_repeated=True)
        with contextlib.redirect_stdout(io.StringIO()) as output:
            self.assertEqual(view.show(pause), 0)
        self.assertEqual((pauses, len([*map(json.loads, output.getvalue().splitlines())])), ([TURN] * 3, 3))
        self.assertEqual(self.hub.end(), 0)
        done = self.tool("lefence-hub", "--status", self.folder / "s", "--watch")
        self.assertEqual((done.returncode, done.stdout), (3, b""))


class Words(FrontCase):
    """The command line."""

    def requested(self, *words: str, is_terminal: bool) -> StatusView | None:
        with mock.patch("sys.stdout.isatty", return_value=is_terminal):
            return requested_view(hub_tool.parser(), [*words])

    def test_the_form_follows_the_terminal_and_the_options(self) -> None:
        for words, is_terminal, form, is_repeated, clears in (
            (("--status", "s"), False, "json_text", False, False),
            (("--status", "s"), True, "table_text", False, False),
            (("--json", "--status=s"), True, "json_text", False, False),
            (("--watch", "--status", "s"), True, "table_text", True, True),
            (("--status", "s", "--watch", "--json"), True, "json_text", True, False),
            (("--metrics", "s"), True, "prometheus", False, False),
        ):
            view = self.requested(*words, is_terminal=is_terminal)
            assert view is not None
            found = (str(view.folder), view.form.__name__, view.is_repeated, view.clears)
            self.assertEqual(found, ("s", form, is_repeated, clears), words)
        self.assertIsNone(self.requested("t.def", "t.lef", "--sockets", "s", "--journal", "j", is_terminal=True))

    def test_options_that_do_not_go_together_are_refused(self) -> None:
        for words, expected in (
            (("t.def", "--json"), "--json and --watch go with --status"),
            (("--metrics", "s", "--watch"), "--json and --watch go with --status"),
            (("--status", "s", "t.def"), "t.def does not go with them"),
            (("--status", "s", "--metrics", "s"), "not allowed with argument"),
            (("--status",), "expected one argument"),
        ):
            done = self.tool("lefence-hub", *words)
            self.assertEqual((done.returncode, done.stdout), (2, b""), done.stderr)
            self.assertTrue(done.stderr.startswith(b"usage: lefence-hub "), done.stderr)
            self.assertIn(expected, done.stderr.decode())


if __name__ == "__main__":
    unittest.main()
