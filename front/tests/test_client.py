"""The client library over a hub's sockets and over `lefence serve`: results, exceptions, and lines in flight."""

from __future__ import annotations

import asyncio
import contextlib
import gc
import inspect
import io
import os
import pickle
import signal
import socket
import threading
import unittest
from collections.abc import Callable
from decimal import Decimal
from typing import assert_type, cast
from unittest import mock

from support import CELLS, PATIENCE, WIDTH, HubCase, page_blocks

import lefence
from lefence import Legalized, Pending, Place, Report, Tidied, Violation
from lefence.base.faults import Fault
from lefence.base.protocol import REFUSALS, VERBS
from lefence.client import verbs
from lefence.client.endpoint import connect_to
from lefence.client.refusals import refusal_of


class Verbs(HubCase):
    """Each verb with its fields."""

    def session(self, retries: int = 0, microns: bool = False) -> lefence.Session:
        connection = self.enterContext(lefence.connect(self.folder / "s/f0.sock", timeout=PATIENCE))
        return self.enterContext(connection.session("f0", retries=retries, microns=microns))

    def test_each_verb_returns_what_its_reply_says(self) -> None:
        self.start()
        session = self.session()
        self.assertEqual((session.number, session.first_revision, session.sync()), (0, 0, 0))
        self.assertEqual(session.place("f0c1", 400, 0, orient="N"), 1)
        self.assertEqual(session.where("f0c1"), Place(400, 0, "N"))
        self.assertEqual(session.find("f0c2", x=400, y=0), Place(0, 0, "N"))
        self.assertEqual(session.legalize("f0c2", 400, 0), Legalized(2, Place(0, 0, "N")))
        self.assertEqual(session.swap("f0c1", "f0c2"), 3)
        self.assertEqual(session.unplace("f0c1"), 4)
        self.assertEqual(session.undo(), 5)
        self.assertEqual(session.tidy(), Tidied(6, CELLS - 2))
        self.assertEqual(session.commit(), 7)
        self.assertEqual(session.pad(2), 8)
        report = session.check()
        self.assertEqual((report.cells, report.unplaced, report.is_clean), (CELLS, 0, False))
        self.assertIn(Violation("f0c1", 8, "f0c2"), report.violations)
        self.assertEqual(session.revert(), 9)
        self.assertEqual(session.def_text().splitlines()[-1], b"END DESIGN")
        self.assertEqual(session.where("f0c1"), Place(0, 0, "N"))

    def test_each_refusal_is_an_exception_with_what_it_names(self) -> None:
        self.start()
        session = self.session()
        session.place("f0c1", 0, 0, "N")
        for cell, rule, other in (("f0c2", 8, "f0c1"), ("f0c3", 8, "f0c1")):
            with self.assertRaises(lefence.Illegal) as caught:
                session.place(cell, 200, 0, "N")
            illegal = caught.exception
            self.assertEqual(
                (illegal.number, illegal.name, illegal.rule, illegal.rule_name), (7, "Illegal", rule, "Overlap")
            )
            self.assertEqual(
                (illegal.cell, illegal.other, illegal.words()),
                (cell, other, f"{cell} would overlap {other} or be too near to it"),
            )
        with self.assertRaises(lefence.Illegal) as caught:
            session.place("f0c2", 100, 0, "N")
        self.assertEqual((caught.exception.rule, caught.exception.other), (2, None))
        with self.assertRaises(lefence.Unplaced) as unplaced:
            session.where("f0c2")
        self.assertEqual(unplaced.exception.cell, "f0c2")
        calls: tuple[tuple[type[lefence.Refusal], Callable[[], object]], ...] = (
            (lefence.NoCell, lambda: session.where("f1c1")),
            (lefence.BadRequest, lambda: session.pad(17)),
            (lefence.BadRequest, lambda: session.find("f0c1", 1 << 40, 0)),
            (lefence.NoTeam, lambda: session.connection.session("f1").open()),
            (lefence.BadRequest, lambda: session.connection.export("/tmp/x")),
        )
        for error, call in calls:
            with self.assertRaises(error):
                call()
        self.assertEqual(session.undo(), 2)
        for refusal in (illegal, unplaced.exception):
            same = pickle.loads(pickle.dumps(refusal))
            self.assertEqual((type(same), same.fields, str(same)), (type(refusal), refusal.fields, str(refusal)))
        with self.assertRaises(lefence.NothingToUndo):
            session.undo()
        rest = [session.connection.session("f0").open() for _ in range(7)]
        with self.assertRaises(lefence.SessionsFull):
            session.connection.session("f0").open()
        rest[0].close()

    def test_every_refusal_of_the_protocol_has_a_class(self) -> None:
        for number, name in REFUSALS.items():
            refusal = refusal_of(f"no {number} {name} 8 a b".encode())
            assert refusal is not None
            self.assertEqual((refusal.number, refusal.name, type(refusal).__name__), (number, name, name))
            self.assertTrue(refusal.words() and type(refusal).__doc__)
        why = refusal_of(b"no 13 NotExported cannot write x\n")
        self.assertEqual(why and why.words(), "the file was not written: cannot write x")
        self.assertEqual([refusal_of(reply) for reply in (b"ok", b"", b"no", b"no x y")], [None] * 4)

    def test_every_verb_of_the_protocol_is_a_method_of_all_three(self) -> None:
        names = {"def": "def_text"}
        for kind in (lefence.Session, lefence.Pipeline, lefence.aio.Session):
            for verb in VERBS.keys() - {"open", "close"}:
                method = getattr(kind, names.get(verb, verb))
                self.assertTrue(method.__doc__)
                taken = list(inspect.signature(method).parameters)[1:]
                self.assertEqual(len(taken), len(VERBS[verb].fields))

    def test_methods_of_verbs_have_the_types_of_their_kind(self) -> None:
        self.start()
        session = self.session()
        assert_type(session.sync(), int)
        assert_type(session.find("f0c1", 400, y=0), Place)
        assert_type(lefence.Session.tidy(session), Tidied)
        with session.pipeline() as pipeline:
            assert_type(pipeline.check(), Pending[Report])
            assert_type(lefence.Pipeline.where(pipeline, "f0c1"), Pending[Place])

        async def ask() -> None:
            async with await lefence.aio.connect(self.folder / "s/f1.sock") as connection, connection.session(
                "f1"
            ) as session:
                assert_type(await session.legalize("f1c1", WIDTH, 0), Legalized)
                assert_type(await lefence.aio.Session.def_text(session), bytes)

        asyncio.run(ask())

    def test_microns_on_request_and_only_whole_database_units(self) -> None:
        self.start()
        session = self.session(microns=True)
        session.place("f0c1", 0.4, Decimal("2"), "FS")
        self.assertEqual(session.where("f0c1"), Place(0.4, 2.0, "FS"))
        self.assertEqual(session.connection.ask_line(b"where f0 0 f0c1"), b"ok 400 2000 FS\n")
        for length in (0.0001, float("nan"), float("inf"), cast(float, "x")):
            with self.assertRaises(ValueError):
                session.place("f0c1", length, 0, "N")
        given = self.enterContext(session.connection.session("f0", per_micron=1000))
        self.assertEqual(given.where("f0c1"), Place(0.4, 2.0, "FS"))
        with self.assertRaises(ValueError):
            self.enterContext(session.connection.session("f0")).place("f0c1", 0.5, 0, "N")

    def test_a_hub_gives_the_units_without_the_text_of_the_team(self) -> None:
        self.start()
        connection = self.enterContext(lefence.connect(self.folder / "s/f0.sock", timeout=PATIENCE))
        with mock.patch.object(connection, "send", side_effect=connection.send) as send:
            with connection.session("f0", microns=True) as session:
                self.assertEqual(session.place("f0c1", 0.4, 0, "N"), 1)
        self.assertEqual(
            [call.args[0] for call in send.call_args_list],
            [b"open f0", b"units", b"place f0 0 f0c1 400 0 N", b"close f0 0"],
        )
        with self.service(1) as port, lefence.connect("127.0.0.1", port) as connection, connection.session(
            "f0", microns=True
        ) as session:
            self.assertEqual(session.place("f0c1", 0.4, 0, "N"), 1)

    def test_the_cells_of_a_team_need_no_parser(self) -> None:
        self.start()
        session = self.session()
        session.place("f0c1", 400, 2000, "FS")
        cells = session.cells(self.lef)
        self.assertEqual([cell.name for cell in cells], [f"f0c{at}" for at in range(CELLS)])
        self.assertEqual(
            cells[:2],
            [
                lefence.Cell("f0c0", "BUF", None, 600, 2000),
                lefence.Cell("f0c1", "INV", Place(400, 2000, "FS"), 400, 2000),
            ],
        )
        self.assertEqual((cells[0].box, cells[1].box), (None, (400, 2000, 800, 4000)))
        self.assertEqual(session.cells()[1], lefence.Cell("f0c1", "INV", Place(400, 2000, "FS"), None, None))
        (self.folder / "x.lef").write_text("MACRO INV SIZE 1 BY 1 ; END INV")
        with self.assertRaises(lefence.ProtocolError):
            session.cells(self.folder / "x.lef")
        other = self.enterContext(session.connection.session("f0", microns=True, openaccess=True))
        self.assertEqual(other.cells(self.lef)[1], lefence.Cell("f0c1", "INV", Place(0.4, 2.0, "MX"), 0.4, 2.0))

    def test_orientations_of_openaccess_on_request(self) -> None:
        self.start()
        plain = self.session()
        with self.assertRaisesRegex(ValueError, "R0 is not an orientation of DEF, which calls it N"):
            plain.place("f0c1", 0, 0, "R0")
        with plain.connection.session("f0", openaccess=True) as session:
            for at, (y, orient, same) in enumerate(
                ((0, "R0", "N"), (0, "MY", "FN"), (2000, "MX", "FS"), (2000, "R180", "S"))
            ):
                self.assertEqual(session.place("f0c1", 0, y, orient), at + 1)
                self.assertEqual((session.where("f0c1").orient, plain.where("f0c1").orient), (orient, same))
            with self.assertRaises(lefence.Illegal):
                session.place("f0c1", 0, 0, "MX90")
            self.assertEqual(session.place("f0c1", 0, 0, "N"), 5)

    def test_the_example_of_the_page_runs(self) -> None:
        self.start()
        [block] = page_blocks("CLIENTS.md", "python")
        code = block.replace("/run/lefence/A.sock", str(self.folder / "s/f0.sock"))
        names: dict[str, object] = {"moves": [("f0c2", 200, 0), ("f0c2", 1200, 0)]}
        with contextlib.redirect_stdout(io.StringIO()) as printed:
            exec(code.replace('"A"', '"f0"').replace('"u', '"f0c'), names)
        self.assertEqual(printed.getvalue(), "Overlap f0c1\nPlace(x=1400, y=0, orient='N')\n()\n")
        refused = names["refused"]
        assert isinstance(refused, list)
        self.assertEqual([str(each) for each in refused], ["7 Illegal: f0c2 would overlap f0c1 or be too near to it"])

    def test_no_name_smuggles_another_line_in(self) -> None:
        self.start()
        session = self.session()
        for name in ("", "a b", "a\nbye", "\x00", "é", "a\r"):
            with self.assertRaises(ValueError):
                session.where(name)
        with self.assertRaises(ValueError):
            session.connection.ask_line(b"a\nb")
        self.assertEqual(session.sync(), 0)

    def test_stale_is_retried_on_request(self) -> None:
        self.start()
        first, again = self.session(), self.session(retries=2)
        first.place("f0c1", 0, 0, "N")
        self.assertEqual(again.place("f0c2", 2000, 0, "N"), 2)
        with self.assertRaises(lefence.Stale) as caught:
            first.place("f0c1", 400, 0, "N")
        self.assertEqual((caught.exception.revision, first.sync(), first.place("f0c1", 400, 0, "N")), (2, 2, 3))


class Flights(HubCase):
    """Many lines in flight."""

    def test_a_pipeline_gives_each_reply_to_its_own_request(self) -> None:
        self.start()
        with lefence.connect(self.folder / "s/f0.sock") as connection, connection.session("f0") as session:
            with session.pipeline(raises=False) as pipeline:
                flying = [pipeline.place("f0c1", 200 * at, 0, "N") for at in range(60)]
                # A plain request in between gets its own reply.
                self.assertEqual(session.where("f0c2") if flying[0].result() > 1 else flying[1].result(), 2)
                texts = [pipeline.def_text() for _ in range(40)]
            last = [at for at, each in enumerate(flying) if each.refusal is None][-1]
            self.assertEqual((flying[last].result(), session.where("f0c1").x), (last + 1, 200 * last))
            self.assertIsInstance(flying[-1].refusal, lefence.Illegal)
            self.assertTrue(all(text.result().endswith(b"END DESIGN\n") for text in texts))

    def test_a_pipeline_raises_the_first_refusal_that_nobody_has_read(self) -> None:
        self.start()
        with lefence.connect(self.folder / "s/f0.sock") as connection, connection.session("f0") as session:
            with self.assertRaises(lefence.NoCell), session.pipeline() as pipeline:
                self.assertIsInstance(pipeline.where("f0c1").refusal, lefence.Unplaced)
                pipeline.where("nobody")
                pipeline.undo()
            with self.assertRaises(ZeroDivisionError), session.pipeline() as pipeline:
                pipeline.where("nobody")
                raise ZeroDivisionError
            self.assertEqual(session.sync(), 0)

    def test_a_pipeline_sends_stale_requests_again_on_request(self) -> None:
        self.start()
        with lefence.connect(self.folder / "s/f0.sock") as connection, connection.session("f0") as other:
            with connection.session("f0", retries=1) as session, session.pipeline() as pipeline:
                other.place("f0c9", 7000, 6000, "FS")
                flying = [pipeline.place("f0c1", 200 * at, 0, "N") for at in range(10)]
                self.assertEqual(flying[3].result(), 5)
                flying.append(pipeline.place("f0c1", 2000, 0, "N"))
                # A query in between is sent once.
                place = pipeline.where("f0c1")
            self.assertEqual([each.result() for each in flying], list(range(2, 13)))
            self.assertEqual((place.result(), place.times_sent), (Place(2000, 0, "N"), 1))
            self.assertEqual([each.times_sent for each in flying], [2] * 10 + [1])
            with self.assertRaises(lefence.Stale), other.pipeline() as pipeline:
                pipeline.place("f0c1", 0, 0, "N")

    def test_neither_end_waits_for_the_other(self) -> None:
        self.start()
        with lefence.connect(self.folder / "s/f0.sock") as connection, connection.session("f0") as session:
            with session.pipeline() as pipeline:
                flying = [pipeline.check() for _ in range(3000)]
            self.assertEqual(flying[-1].result(), Report(CELLS, CELLS, ()))

    def test_concurrent_coroutines_are_in_flight_together(self) -> None:
        self.start()

        async def work() -> None:
            async with await lefence.aio.connect(self.folder / "s/f0.sock") as connection:
                async with connection.session("f0", microns=True) as session:
                    places = [session.place("f0c1", at / 5, 0, "N") for at in range(30)]
                    self.assertEqual(await asyncio.gather(*places), list(range(1, 31)))
                    texts = await asyncio.gather(*(session.def_text() for _ in range(30)))
                    self.assertTrue(all(text == texts[0] and text.endswith(b"END DESIGN\n") for text in texts))
                    with self.assertRaises(lefence.Unplaced):
                        await session.where("f0c2")
                    async with connection.session("f0", retries=1) as other:
                        self.assertEqual((await session.unplace("f0c1"), await other.tidy()), (31, Tidied(32, CELLS)))
                self.assertEqual(await connection.ask_line(b"sync f0 0"), b"no 3 NoSession\n")
                session = await connection.session("f0").open()
                self.assertEqual(
                    (session.number, [cell.macro for cell in await session.cells()][:2]), (0, ["BUF", "INV"])
                )
                await session.close()
                with self.assertRaises(lefence.NoSession):
                    await connection.ask(verbs.sync(verbs.Scope("f0", 0)))
                await connection.bye()
                with self.assertRaises(lefence.ConnectionLost):
                    await connection.ask_line(b"")

        asyncio.run(work())

    def test_a_lost_connection_is_reported(self) -> None:
        self.start()

        async def wait() -> None:
            connection = await lefence.aio.connect(self.folder / "s/f0.sock")
            session = await connection.session("f0").__aenter__()
            self.hub.kill()
            with self.assertRaises(lefence.ConnectionLost):
                await session.sync()
            with self.assertRaises(lefence.ConnectionLost):
                await session.sync()

        with lefence.connect(self.folder / "s/f1.sock") as connection:
            with self.assertRaises(lefence.ConnectionLost), connection.session("f1") as session:
                asyncio.run(wait())
                session.sync()
        for path in (str(self.folder / "s/f1.sock"), str(self.folder / "nowhere.sock")):
            with self.assertRaisesRegex(OSError, path):
                lefence.connect(path)
            with self.assertRaisesRegex(OSError, path):
                asyncio.run(lefence.aio.connect(path))
        with socket.socket() as free:
            free.bind(("127.0.0.1", 0))
            port = free.getsockname()[1]
            for host in ("127.0.0.1", "no.such.host.invalid"):
                with self.assertRaisesRegex(OSError, f"{host}:{port}"):
                    lefence.connect(host, port)

    def test_a_block_reports_a_lost_connection_once(self) -> None:
        self.start()
        caught = []

        async def work() -> None:
            async with await lefence.aio.connect(self.folder / "s/f0.sock") as connection, connection.session(
                "f0"
            ) as session:
                self.hub.kill()
                with self.assertRaises(lefence.ConnectionLost) as raised:
                    await session.sync()
                caught.append(raised.exception)

        with lefence.connect(self.folder / "s/f1.sock") as connection, connection.session("f1") as session:
            asyncio.run(work())
            with self.assertRaises(lefence.ConnectionLost) as raised:
                session.sync()
            caught.append(raised.exception)
        self.assertEqual(len(caught), 2)

    def test_a_late_reply_is_reported(self) -> None:
        self.start()
        connection = self.enterContext(lefence.connect(self.folder / "s/f1.sock", timeout=1))
        os.kill(self.hub.process.pid, signal.SIGSTOP)
        with self.assertRaises(TimeoutError):
            connection.ask_line(b"open f1")

        async def wait() -> None:
            async with await lefence.aio.connect(self.folder / "s/f1.sock", timeout=1) as connection:
                with self.assertRaises(TimeoutError):
                    await connection.ask_line(b"open f1")

        asyncio.run(wait())
        os.kill(self.hub.process.pid, signal.SIGCONT)


class Others(HubCase):
    """Over `lefence serve`, and with other ends than lefence."""

    def test_the_program_itself_is_served_over_tcp(self) -> None:
        with self.service(2) as port:
            with lefence.connect("127.0.0.1", port) as connection, connection.session("f0") as session:
                self.assertEqual(session.place("f0c1", 0, 0, "N"), 1)
                connection.ask(verbs.close_session(session.scope))
                with self.assertRaises(lefence.NoSession):
                    session.sync()
                with self.assertRaises(lefence.NoSession):
                    session.close()
                session.open()
                with self.assertRaisesRegex(ValueError, "already open"):
                    session.open()

            async def work() -> Place:
                async with await lefence.aio.connect("127.0.0.1", port) as connection:
                    async with connection.session("f0") as session:
                        return await session.where("f0c1")

            self.assertEqual(asyncio.run(work()), Place(0, 0, "N"))

    def test_an_end_with_another_protocol_is_reported(self) -> None:
        for reply in (b"hello\n", b"ok\n", b"ok x y\n", b"\xff\xfe\n", b"no\n"):
            near, far = socket.socketpair()
            with far, lefence.Connection(near, timeout=PATIENCE) as connection:
                far.sendall(reply)
                with self.assertRaises(lefence.ProtocolError):
                    connection.session("A").open()
        near, far = socket.socketpair()
        far.sendall(b"ok 0 0\nhello\nok abc\n")
        with far, lefence.Connection(near, timeout=PATIENCE) as connection, connection.session("A") as session:
            with self.assertRaisesRegex(lefence.ProtocolError, "hello"), session.pipeline() as pipeline:
                pipeline.place("u", 0, 0, "N")
            with self.assertRaisesRegex(lefence.ProtocolError, "abc"):
                session.def_text()

    def test_a_session_without_units_is_closed_again(self) -> None:
        near, far = socket.socketpair()
        received: list[bytes] = []

        def answer() -> None:
            with far, far.makefile("rb") as lines:
                for reply in (b"ok 3 0\n", b"hello\n", b"ok\n"):
                    received.append(lines.readline())
                    far.sendall(reply)

        answering = threading.Thread(target=answer)
        answering.start()
        with lefence.Connection(near, timeout=PATIENCE) as connection:
            with self.assertRaisesRegex(lefence.ProtocolError, "hello"):
                connection.session("A", microns=True).open()
        answering.join()
        self.assertEqual(received, [b"open A\n", b"units\n", b"close A 3\n"])

    async def aio_connection(self, end: socket.socket, timeout: float) -> lefence.aio.Connection:
        return lefence.aio.Connection(*await asyncio.open_connection(sock=end), timeout)

    async def received(self, end: socket.socket, count: int) -> bytes:
        """Waits for this number of bytes at an end that does not block."""
        found = b""
        while len(found) < count:
            piece = await asyncio.get_running_loop().sock_recv(end, count - len(found))
            self.assertTrue(piece, "the other end is closed")
            found += piece
        return found

    def test_asyncio_ends_all_pending_calls_if_the_end_is_broken(self) -> None:
        async def ask(reply: bytes, line: bytes, timeout: float, *errors: type[Exception]) -> None:
            near, far = socket.socketpair()
            with far:
                far.setblocking(False)
                async with asyncio.timeout(PATIENCE), await self.aio_connection(near, timeout) as connection:
                    calls = [asyncio.create_task(connection.ask_line(line)) for _ in range(200)]
                    await self.received(far, len(line) + 1)
                    far.sendall(reply)
                    results = await asyncio.gather(*calls, return_exceptions=True)
                    self.assertEqual([type(each) for each in results[:2]], [*errors])

        asyncio.run(ask(b"ok abc\n", b"def A 0", PATIENCE, lefence.ProtocolError, lefence.ConnectionLost))
        asyncio.run(ask(b"", b"x" * 4000, 0.2, TimeoutError, TimeoutError))

    def test_a_cancelled_call_leaves_no_session_open(self) -> None:
        output: list[object] = []

        async def cancel(is_late: bool) -> None:
            near, far = socket.socketpair()
            asyncio.get_running_loop().set_exception_handler(lambda loop, context: output.append(context))
            connection = await self.aio_connection(near, PATIENCE)
            with far:
                far.setblocking(False)
                opening = asyncio.create_task(connection.session("A", microns=True).__aenter__())
                self.assertEqual(await self.received(far, 7), b"open A\n")
                if is_late:
                    far.sendall(b"ok 3 0\n")
                    self.assertEqual(await self.received(far, 6), b"units\n")
                opening.cancel()
                self.assertEqual([type(each) for each in await asyncio.gather(opening, return_exceptions=True)], [
                    asyncio.CancelledError
                ])
                if not is_late:
                    far.sendall(b"ok 3 0\n")
                self.assertEqual(await self.received(far, 10), b"close A 3\n")
            with self.assertRaises(lefence.ConnectionLost):
                await connection.ask_line(b"")
            await connection.close()

        asyncio.run(cancel(False))
        asyncio.run(cancel(True))
        gc.collect()
        self.assertEqual(output, [])

    def test_the_last_replies_of_an_end_that_is_gone_are_read(self) -> None:
        near, far = socket.socketpair()
        with lefence.Connection(near, timeout=PATIENCE) as connection:
            sent = [connection.send(b"sync A 0") for _ in range(3)]
            connection.flush()
            self.assertEqual(far.recv(100), b"sync A 0\n" * 3)
            far.sendall(b"ok 1\nok 2\nok 3\n")
            far.close()
            connection.send(b"sync A 0")
            self.assertEqual([connection.wait(each) for each in sent], [b"ok 1\n", b"ok 2\n", b"ok 3\n"])

    def test_a_reply_in_slow_pieces_is_late(self) -> None:
        near, far = socket.socketpair()

        is_over = threading.Event()

        def drip() -> None:
            with far, contextlib.suppress(OSError):
                while not is_over.wait(0.1):
                    far.sendall(b"7")

        with lefence.Connection(near, timeout=0.5) as connection:
            dripping = threading.Thread(target=drip)
            dripping.start()
            self.addCleanup(dripping.join)
            self.addCleanup(is_over.set)
            with self.assertRaises(TimeoutError):
                connection.ask_line(b"sync A 0")

    def test_a_bad_number_is_refused_before_it_is_sent(self) -> None:
        for pad in (1.9, float("inf")):
            with self.assertRaises(ValueError):
                verbs.pad(verbs.Scope("A", 0), cast(int, pad))
        with socket.socket() as listener:
            listener.bind(("127.0.0.1", 0))
            listener.listen()
            port = listener.getsockname()[1] + 65536
            with self.assertRaisesRegex(ValueError, "is not a port"):
                lefence.connect("127.0.0.1", port)
            with self.assertRaisesRegex(ValueError, "is not a port"):
                asyncio.run(lefence.aio.connect("127.0.0.1", port))
            with self.assertRaisesRegex(Fault, "is not a port") as refused:
                connect_to("127.0.0.1:65536")
            self.assertEqual(refused.exception.status, 2)


if __name__ == "__main__":
    unittest.main()
