"""lefence-view without a browser: who is answered, events, what a line of a change moves, and the command line."""

from __future__ import annotations

import http.client
import json
import socket
import struct
import subprocess
import threading
import unittest
from pathlib import Path
from typing import Any
from unittest import mock

from support import PATIENCE, PROGRAM, HubCase, tool_words, with_klayout

from lefence.base.lef import pin_counts_of
from lefence.live.cells import NOWHERE, Place
from lefence.live.changes import Effect, UndoList
from lefence.live.events import EventLog
from lefence.live.server import MOST_PAGES


class Changes(unittest.TestCase):
    def test_which_cells_a_line_moves(self) -> None:
        undo = UndoList()

        def effect(line: str, reply: str) -> Effect:
            return undo.effect_of(line, reply, lambda: ["x", "y"])

        self.assertEqual(effect("undo A 0", "ok 1"), Effect(is_unknown=True))
        self.assertEqual(effect("place A 0 a -5 6 FS", "ok 2"), Effect(places=[("a", Place(-5, 6, 6))]))
        self.assertEqual(effect("legalize A 0 b 1 2", "ok 3 4 5 N"), Effect(places=[("b", Place(4, 5, 0))]))
        self.assertEqual(effect("unplace A 0 c", "ok 4"), Effect(places=[("c", NOWHERE)]))
        self.assertEqual(effect("swap A 0 d e", "ok 5"), Effect(asked=["d", "e"]))
        self.assertEqual(effect("tidy A 0", "ok 6 0"), Effect())
        self.assertEqual(effect("pad A 0 2", "ok 7"), Effect())
        self.assertEqual(effect("commit A 0", "ok 8"), Effect("commit"))
        self.assertEqual(effect("revert A 0", "ok 9"), Effect("revert"))
        self.assertEqual(effect("tidy A 0", "ok 10 3"), Effect(is_unknown=True))
        # `undo` takes them back, the newest first
        undone: tuple[list[str] | None, ...] = (None, ["x", "y"], [], ["d", "e"], ["c"], ["b"], ["a"], None)
        for cells in undone:
            self.assertEqual(effect("undo A 0", "ok 11"), Effect(asked=cells, is_unknown=cells is None))

    def test_only_as_many_changes_are_kept_as_undo_takes_back(self) -> None:
        undo = UndoList()
        for at in range(70):
            undo.effect_of(f"unplace A 0 c{at}", f"ok {at}", list)
        effects = [undo.effect_of("undo A 0", "ok 1", list) for _ in range(65)]
        self.assertEqual([each.asked for each in effects], [[f"c{at}"] for at in range(69, 5, -1)] + [None])


class Events(unittest.TestCase):
    def test_a_page_gets_each_event_once_or_is_told_that_it_lacks_some(self) -> None:
        events = EventLog()
        for at in range(3):
            events.add({"at": at})
        self.assertEqual(events.wait(1, 0), [(2, b'{"at":1}'), (3, b'{"at":2}')])
        self.assertEqual(events.wait(3, 0), [])
        self.assertIsNone(events.wait(4, 0))
        with mock.patch("lefence.live.events._KEPT", 2):
            events.add({})
        self.assertIsNone(events.wait(1, 0))
        self.assertEqual(events.wait(2, 0), [(3, b'{"at":2}'), (4, b"{}")])

    def test_only_the_first_and_the_last_page_are_told(self) -> None:
        told: list[bool] = []
        events = EventLog(told.append)
        with events.looker():
            with events.looker():
                self.assertTrue(events.is_looked_at)
            self.assertEqual(told, [True])
        self.assertEqual(told, [True, False])

    def test_an_end_wakes_those_that_wait(self) -> None:
        events = EventLog()
        threading.Timer(0.05, events.end).start()
        with self.assertRaises(EOFError):
            events.wait(0, PATIENCE)


class Libraries(unittest.TestCase):
    def test_the_pins_of_macros(self) -> None:
        text = b"""MACRO A SIZE 1 BY 1 ; PIN a DIRECTION INPUT ; PORT LAYER m ; RECT 0 0 1 1 ; END END a
        PIN VDD USE POWER ; END VDD PIN b USE SIGNAL ; END b END A MACRO B SIZE 1 BY 1 ; END B
        PROPERTYDEFINITIONS MACRO PIN STRING ; END PROPERTYDEFINITIONS"""
        self.assertEqual(list(pin_counts_of(text)), [(b"A", 2), (b"B", 0)])


class Server(HubCase):
    """The HTTP server over a hub."""

    def view(self, *words: str | Path) -> str:
        """Starts lefence-view; returns the path of its page."""
        command = [*tool_words("lefence-view"), *map(str, words), "--program", PROGRAM]
        process = subprocess.Popen(command, stdout=subprocess.PIPE, stderr=subprocess.PIPE, cwd=self.folder, text=True)
        self.addCleanup(process.communicate, timeout=PATIENCE)
        self.addCleanup(process.terminate)
        assert process.stdout and process.stderr
        address = process.stdout.readline().strip()
        self.assertTrue(address, process.stderr and address)
        host, path = address.removeprefix("http://").split("/", 1)
        self.host = host
        return f"/{path}"

    def ask(self, method: str, path: str, body: Any = None, **headers: str) -> tuple[int, bytes, dict[str, str]]:
        """Sends a request; returns the status, the contents and the headers of the answer."""
        connection = http.client.HTTPConnection(self.host, timeout=PATIENCE)
        self.addCleanup(connection.close)
        sent = {name.replace("_", "-"): value for name, value in headers.items()}
        connection.request(method, path, None if body is None else json.dumps(body), sent)
        answer = connection.getresponse()
        return answer.status, answer.read(), dict(answer.getheaders())

    def test_only_the_page_itself_is_answered(self) -> None:
        self.start()
        page = self.view("s", "--edit", "f0")
        status, text, headers = self.ask("GET", page)
        self.assertEqual((status, b"<title>lefence</title>" in text), (200, True))
        policy = headers["Content-Security-Policy"]
        self.assertTrue(policy.startswith("default-src 'none'; script-src 'self'; "))
        self.assertNotIn("unsafe", policy)
        self.assertEqual((headers["X-Content-Type-Options"], headers["Cache-Control"]), ("nosniff", "no-store"))
        own, port = f"http://{self.host}", self.host.split(":")[1]
        for fields, expected in (
            ({"Origin": own}, 200),
            # (through `ssh -L` the port may be another)
            ({"Host": "localhost:1234", "Origin": "http://localhost:1234"}, 200),
            ({"Origin": "http://evil.example"}, 403),
            ({"Origin": "null"}, 403),
            ({"Origin": f"http://localhost:{port}"}, 403),
            ({"Host": f"evil.example:{port}"}, 403),
            ({"Host": f"127.0.0.1.evil.example:{port}"}, 403),
            ({"Sec-Fetch-Site": "cross-site"}, 403),
        ):
            self.assertEqual(self.ask("GET", page + "design", **fields)[0], expected, fields)
        wrong = ("/", "/x/design", page[:-2] + "/design", page + "../main.py", page + "..%2fmain.py", page + "x.js")
        for path in wrong:
            self.assertEqual(self.ask("GET", path)[0], 404, path)
        self.assertEqual(self.ask("GET", page[:-1])[0], 404)
        self.assertEqual(self.ask("PUT", page)[0], 501)
        # lines come from the page alone
        wanted = {"page": "p", "team": "f0", "line": "place f0c1 0 0 N", "revision": 0}
        kind = {"Content_Type": "application/json"}
        self.assertEqual(self.ask("POST", page + "work", wanted, **kind)[0], 403)
        self.assertEqual(self.ask("POST", page + "work", wanted, Origin="http://evil.example", **kind)[0], 403)
        self.assertEqual(self.ask("POST", page + "work", wanted, Origin=own, Content_Type="text/plain")[0], 403)
        self.assertEqual(self.ask("POST", page + "work", {"page": "p"}, Origin=own, **kind)[0], 400)
        self.assertEqual(self.ask("POST", page + "work", ["x" * 70_000], Origin=own, **kind)[0], 413)
        self.assertEqual(self.talk("f0").ask("open f0"), ["ok 0 0"])
        status, text, _ = self.ask("POST", page + "work", wanted, Origin=own, **kind)
        self.assertEqual((status, json.loads(text)["reply"]), (200, "ok 1"))
        lines = ("export /tmp/x", "open f1", "status", "close 0", "bye", "place f0c1 0 0 N\nunplace f0c1", "", "\0")
        for line in lines:
            status, text, _ = self.ask("POST", page + "work", {**wanted, "line": line}, Origin=own, **kind)
            answer = json.loads(text)
            self.assertTrue(answer["reply"].startswith("no ") or not answer["reply"], answer)
        # only this machine is served
        self.assertEqual(self.host.split(":")[0], "127.0.0.1")
        listening = Path("/proc/net/tcp").read_text()
        self.assertIn(f"0100007F:{int(port):04X} 00000000:0000 0A", listening)

    def test_the_table_of_cells(self) -> None:
        self.start()
        self.talk("f0").ask("open f0", "place f0 0 f0c1 400 0 N")
        page = self.view("s")
        data = self.ask("GET", page + "cells")[1]
        [length] = struct.unpack_from("<I", data)
        head = json.loads(data[4 : 4 + length])
        self.assertEqual((head["count"], (4 + length) % 8), (90, 0))
        # (the facts of the teams are of the same moment)
        self.assertEqual((len(head["facts"]), head["facts"][0]["revision"], head["recent"]), (9, 1, []))
        sizes = {name: size for name, _, size in head["parts"]}
        self.assertEqual((sizes["x"], sizes["orient"]), (360, 90))
        self.assertEqual(len(data), 4 + length + sum(-(-size // 8) * 8 for size in sizes.values()))
        self.assertEqual(struct.unpack_from("<i", data, 4 + length + 4), (400,))

    def test_pages_are_limited_and_cost_nothing_when_they_are_gone(self) -> None:
        self.start()
        page = self.view("s")
        streams = [http.client.HTTPConnection(self.host, timeout=PATIENCE) for _ in range(MOST_PAGES)]
        for stream in streams:
            self.addCleanup(stream.close)
            stream.request("GET", page + "events?since=0&page=x")
            self.assertEqual(stream.getresponse().status, 200)
        self.assertEqual(self.ask("GET", page + "events?since=0&page=x")[0], 503)
        self.assertEqual(self.ask("GET", page + "design")[0], 200)


class CommandLine(HubCase):
    def test_what_is_refused(self) -> None:
        self.start()
        for words, status, text in (
            (("t.def", "t.lef", "--edit", "f0"), 2, "--edit needs the folder of a hub's sockets"),
            (("t.def",), 2, "a design needs its LEF files"),
            (("s", "--edit", "Z"), 2, "--edit Z: no such team"),
            (("s", "--port", "70000"), 2, "0 to 65535"),
            (("s", "t.def"), 2, "at least one LEF file"),
            ((".",), 3, "name the DEF file and the LEF files of the hub"),
        ):
            done = self.tool("lefence-view", *words, "--program", PROGRAM)
            self.assertEqual((done.returncode, done.stdout), (status, b""), words)
            self.assertIn(text, done.stderr.decode(), words)

    def test_a_port_in_use(self) -> None:
        with socket.socket() as taken:
            taken.bind(("127.0.0.1", 0))
            taken.listen()
            port = taken.getsockname()[1]
            done = self.tool("lefence-view", "t.def", "t.lef", "--port", str(port), "--program", PROGRAM)
        self.assertEqual(done.returncode, 3)
        self.assertIn(f"cannot listen on port {port} of 127.0.0.1: Address already in use", done.stderr.decode())

    @with_klayout
    def test_a_snapshot_of_a_hub_and_of_files(self) -> None:
        self.start()
        self.talk("f0").ask("open f0", "place f0 0 f0c1 0 0 N", "commit f0 0")
        for where in (("s",), ("t.def", "t.lef")):
            words = [*tool_words("lefence-view"), *where, "--program", PROGRAM, "--snapshot", "x.png"]
            # (KLayout takes seconds to start, and far longer while proofs run)
            done = subprocess.run(words, capture_output=True, cwd=self.folder, timeout=10 * PATIENCE)
            self.assertEqual(done.returncode, 0, done.stderr)
            data = (self.folder / "x.png").read_bytes()
            self.assertTrue(data.startswith(b"\x89PNG"))
            width, height = struct.unpack(">II", data[16:24])
            self.assertGreater(min(width, height), 400)
            (self.folder / "x.png").unlink()


if __name__ == "__main__":
    unittest.main()
