"""What clients of `lefence serve` see: the address, the order of connections, and connections that break.

No contract knows the bytes of sockets.
"""

from __future__ import annotations

import contextlib
import select
import signal
import socket
import sys
import tempfile
import threading
import time
import unittest
from pathlib import Path

from program import DEF, DESIGN, PATIENCE, Client, Service, preloading, run

LISTENING = "listening\n"
# Lines that change nothing, for teams without a session, and a last line that ends the connection.
LINES = b"where B 0 b1\nopen Z\r\n\nhello\nbye\n"


def listened_on(port: int) -> list[str]:
    """The addresses of this machine on which a program listens at this port, as the kernel reports them."""
    found = []
    for table in ("tcp", "tcp6"):
        path = Path("/proc/net") / table
        for line in path.read_text().splitlines()[1:] if path.exists() else []:
            words = line.split()
            address, number = words[1].split(":")
            if int(number, 16) == port and words[3] == "0A":
                octets = bytes.fromhex(address)
                is_old = len(octets) == 4
                found.append(
                    socket.inet_ntoa(octets[::-1] if sys.byteorder == "little" else octets) if is_old else address
                )
    return found


class Listening(unittest.TestCase):
    """Where a service listens, and when it ends."""

    def test_listens_on_127_0_0_1_alone(self) -> None:
        with Service(1) as service:
            self.assertEqual(service.first, LISTENING)
            self.assertEqual(listened_on(service.port), ["127.0.0.1"])
            with self.assertRaises(ConnectionRefusedError):
                socket.create_connection(("127.0.0.2", service.port), timeout=PATIENCE)
            service.client().close()
            self.assertEqual(service.end(), (0, LISTENING, ""))

    def test_a_port_in_use_is_reported_and_its_service_goes_on(self) -> None:
        with Service(1) as service:
            words = ["serve", *DESIGN, "--port", str(service.port), "--connections", "1"]
            message = f"lefence: Bind\nlefence: port {service.port} of 127.0.0.1 is not available: it is in use\n"
            self.assertEqual(run(words), (3, "", message))
            with service.client() as client:
                self.assertEqual(client.ask("open A"), "ok 0 0")
            self.assertEqual(service.end(), (0, LISTENING, ""))

    def test_ends_after_a_number_of_connections_and_then_exports(self) -> None:
        with tempfile.TemporaryDirectory() as folder:
            target = Path(folder) / "new.def"
            with Service(3, [*DESIGN, "--export", str(target)]) as service:
                with service.client() as client:
                    for line in ("open A", "tidy A 0", "commit A 0"):
                        self.assertTrue(client.ask(line).startswith("ok"))
                service.client().close()
                with service.client() as client:
                    self.assertEqual(client.ask("bye"), "ok")
                    self.assertEqual(client.rest(), "")
                self.assertEqual(service.end(), (0, LISTENING, ""))
                with self.assertRaises(ConnectionRefusedError):
                    service.client()
            self.assertIn("- a1 INV + SOURCE DIST + PLACED ( 0 0 ) N ;\n", target.read_text())

    def test_a_client_for_whom_no_file_is_left_ends_the_service(self) -> None:
        # The standard streams and the port are four; a client takes one to read from, and one to write to.
        with Service(2, files=4) as service:
            self.assertEqual(service.end(), (3, LISTENING, "lefence: Accept\n"))
        with Service(2, files=5) as service, service.client():
            self.assertEqual(service.end(), (3, LISTENING, "lefence: Accept\n"))
        with Service(1, files=6) as service:
            with service.client() as client:
                self.assertEqual(client.ask("open A"), "ok 0 0")
            self.assertEqual(service.end(), (0, LISTENING, ""))

    def test_exports_nothing_before_the_last_connection_has_ended(self) -> None:
        with tempfile.TemporaryDirectory() as folder:
            target = Path(folder) / "new.def"
            with Service(2, [*DESIGN, "--export", str(target)]) as service:
                service.client().close()
                with service.client() as client:
                    self.assertEqual(client.ask("open A"), "ok 0 0")
                    self.assertEqual(list(Path(folder).iterdir()), [])
                self.assertEqual(service.end(), (0, LISTENING, ""))
            self.assertEqual(target.read_bytes(), DEF.read_bytes())


class InTurn(unittest.TestCase):
    """Connections one after the other."""

    def test_two_clients_get_the_replies_to_their_own_lines_in_turn(self) -> None:
        with Service(2) as service, service.client() as first:
            self.assertEqual(first.ask("open A"), "ok 0 0")
            with service.client() as second:
                second.send(b"open A\nwhere A 0 a1\n")
                self.assertEqual(first.ask("place A 0 a1 0 0 N"), "ok 1")
                self.assertEqual(select.select([second.socket], [], [], 0.2)[0], [])
                self.assertEqual(first.rest(), "")
                self.assertEqual(second.rest(), "ok 1 1\nok 0 0 N\n")
            self.assertEqual(service.end(), (0, LISTENING, ""))

    def test_sessions_places_and_commits_stay_between_connections(self) -> None:
        with Service(3) as service:
            with service.client() as client:
                self.assertEqual(client.ask_all(["open B", "place B 0 b1 6000 0 N"]), ["ok 0 0", "ok 1"])
            with service.client() as client:
                self.assertEqual(client.ask_all(["where B 0 b1", "commit B 0", "bye"]), ["ok 6000 0 N", "ok 2", "ok"])
            with service.client() as client:
                lines = ["unplace B 0 b1", "revert B 0", "where B 0 b1"]
                self.assertEqual(client.ask_all(lines), ["ok 3", "ok 4", "ok 6000 0 N"])
            self.assertEqual(service.end(), (0, LISTENING, ""))

    def test_no_line_after_a_bye_is_acted_on(self) -> None:
        with Service(2) as service:
            with service.client() as client:
                client.send(b"open A\nbye\nplace A 0 a1 0 0 N\n")
                self.assertEqual(client.rest(), "ok 0 0\nok\n")
            with service.client() as client:
                self.assertEqual(client.ask("where A 0 a1"), "no 6 Unplaced a1")
            self.assertEqual(service.end(), (0, LISTENING, ""))


class Cut(unittest.TestCase):
    """Connections that are cut, sent in pieces or reset: each ends alone."""

    def probe(self, service: Service) -> None:
        """The next client is served."""
        with service.client() as client:
            self.assertEqual(client.ask("open Z"), "no 2 NoTeam")

    def send_until_broken_off(self, client: Client, text: bytes) -> None:
        with contextlib.suppress(OSError):
            client.send(text)

    def test_input_that_ends_anywhere_is_answered_as_over_a_pipe(self) -> None:
        with Service(2 * len(LINES)) as service:
            for cut in range(len(LINES)):
                _, replies, _ = run(["replay", *DESIGN], LINES[:cut])
                with service.client() as client:
                    client.send(LINES[:cut])
                    self.assertEqual(client.rest(), replies, LINES[:cut])
                self.probe(service)
            self.assertEqual(service.end(), (0, LISTENING, ""))

    def test_input_byte_by_byte_is_answered_as_the_whole(self) -> None:
        _, replies, _ = run(["replay", *DESIGN], LINES)
        with Service(1) as service:
            with service.client() as client:
                for byte in LINES:
                    client.send(bytes([byte]))
                    time.sleep(0.002)
                self.assertEqual(client.rest(), replies)
            self.assertEqual(service.end(), (0, LISTENING, ""))

    def test_a_reset_anywhere_ends_that_connection_alone(self) -> None:
        with Service(2 * len(LINES)) as service:
            for cut in range(len(LINES)):
                client = service.client()
                client.send(LINES[:cut])
                client.reset()
                self.probe(service)
            self.assertEqual(service.end(), (0, LISTENING, ""))

    def test_half_a_line_before_a_reset_is_not_acted_on(self) -> None:
        with Service(3) as service:
            with service.client() as client:
                self.assertEqual(client.ask("open A"), "ok 0 0")
            client = service.client()
            self.assertEqual(client.ask("where A 0 a1"), "no 6 Unplaced a1")
            client.send(b"place A 0 a1 0 0 N")
            time.sleep(0.1)
            client.reset()
            with service.client() as client:
                self.assertEqual(client.ask("where A 0 a1"), "no 6 Unplaced a1")
            self.assertEqual(service.end(), (0, LISTENING, ""))

    def test_line_1_000_001_ends_its_connection_alone(self) -> None:
        with Service(2) as service:
            with service.client() as client:
                sender = threading.Thread(target=client.send, args=(b"\n" * 1_000_001,))
                sender.start()
                replies = client.replies.read()
                sender.join()
            self.assertTrue(replies == b"no 1 BadRequest\n" * 1_000_000, len(replies))
            self.probe(service)
            self.assertEqual(service.end(), (0, LISTENING, ""))

    def test_a_reset_with_replies_unread_ends_that_connection_alone(self) -> None:
        with Service(2) as service:
            client = service.client()
            client.send(b"where B 0 b1\n" * 5_000)
            client.reset()
            self.probe(service)
            self.assertEqual(service.end(), (0, LISTENING, ""))

    def test_replies_go_on_after_the_service_was_stopped_and_continued(self) -> None:
        # That interrupts a send that waits, if its time is limited. (The replies are larger than the system's own
        # buffers, so that the service has to wait.)
        count, (_, written, _) = 30_000, run(["replay", *DESIGN], "open A\ndef A 0\n")
        first, text = written[:7].encode(), written[7:].encode()
        self.assertEqual(first, b"ok 0 0\n")
        with Service(1) as service, service.client() as client:
            client.socket.setsockopt(socket.SOL_SOCKET, socket.SO_RCVBUF, 65_536)
            sender = threading.Thread(target=client.send, args=(b"open A\n" + b"def A 0\n" * count,))
            sender.start()
            for _ in range(5):
                time.sleep(0.5)
                service.process.send_signal(signal.SIGSTOP)
                time.sleep(0.05)
                service.process.send_signal(signal.SIGCONT)
            replies = client.replies.read(len(first) + count * len(text))
            sender.join()
            self.assertTrue(replies == first + text * count, len(replies))
            client.close()
            self.assertEqual(service.end(), (0, LISTENING, ""))

    def test_a_client_that_leaves_its_replies_unread_is_given_up(self) -> None:
        with tempfile.TemporaryDirectory() as folder:
            hastened = preloading("hasten.c", Path(folder))
            with Service(2, environment=hastened) as service, service.client() as silent, service.client() as next_one:
                self.assertEqual(silent.ask("open A"), "ok 0 0")
                silent.socket.setsockopt(socket.SOL_SOCKET, socket.SO_RCVBUF, 4_096)
                # More replies than the system's own buffers take, so that the server has to wait, here for a second.
                sender = threading.Thread(target=self.send_until_broken_off, args=(silent, b"def A 0\n" * 100_000))
                begin = time.monotonic()
                sender.start()
                next_one.send(b"open A\n")
                self.assertEqual(next_one.rest(), "ok 1 0\n")
                self.assertGreater(time.monotonic() - begin, 0.9)
                sender.join()
                self.assertEqual(service.end(), (0, LISTENING, ""))


if __name__ == "__main__":
    unittest.main()
