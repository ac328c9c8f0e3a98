"""Keeps a board up to date from the query sockets of a hub, in a thread of its own.

Each team is followed by itself: its cells are read once (`def`, `uncommitted`), then `wait` says that there is a
change, and `changes` says which. `check` follows, at most once a second and for a tenth of the time. While no page
looks, nothing more is read. If the hub is gone, the feed tries again until it is back.
"""

from __future__ import annotations

import asyncio
import json
import pwd
import re
import threading
from collections.abc import Iterator
from pathlib import Path
from typing import Any

from ..base.faults import reason_of
from ..base.protocol import ProtocolError, query_socket_name
from ..client import aio
from .board import Board, place_of, place_or_none
from .cells import CODES, NOWHERE, Place
from .changes import UndoList

# Seconds between two tries to connect, and between two checks of a team; and the part of the time that checks take.
_RETRY, _CHECKS, _PART = 0.5, 1.0, 0.1
# How often a team is read until no change comes in between.
_TRIES = 5
_CELL = re.compile(rb"^- (\S+) \S+ \+ (?:UNPLACED|PLACED \( (-?\d+) (-?\d+) \) (\w+)) ;$", re.M)


class HubFeed:
    """Follows all teams of a board whose query sockets are in a folder."""

    def __init__(self, board: Board, folder: Path) -> None:
        self._board = board
        self._teams = [TeamFeed(board, at, team, folder) for at, team in enumerate(board.frame.teams)]
        self._loop = asyncio.new_event_loop()
        self._thread = threading.Thread(target=self._run, daemon=True)
        # Set when each team was read, or could not be.
        self.is_read = threading.Event()

    def start(self) -> None:
        """Starts the thread."""
        def tell(is_looked: bool) -> None:
            self._loop.call_soon_threadsafe(self._look, is_looked)

        self._board.events.on_looked = tell
        self._thread.start()

    def _run(self) -> None:
        self._loop.run_until_complete(self._follow_all())

    async def _follow_all(self) -> None:
        tasks = [work for team in self._teams for work in (team.follow(), team.judge())]
        reading = asyncio.gather(*(team.is_read.wait() for team in self._teams))
        reading.add_done_callback(lambda _: self.is_read.set())
        await asyncio.gather(*tasks, reading)

    def _look(self, is_looked: bool) -> None:
        for team in self._teams:
            (team.is_looked_at.set if is_looked else team.is_looked_at.clear)()


class TeamFeed:
    """Follows a team."""

    def __init__(self, board: Board, at: int, team: str, folder: Path) -> None:
        self.is_read, self.is_looked_at = asyncio.Event(), asyncio.Event()
        self._board = board
        self._at = at
        self._team = team
        self._path = folder / query_socket_name(team)
        self._revision = 0
        self._undo = UndoList()
        # Set when the team must be checked.
        self._is_changed = asyncio.Event()

    async def follow(self) -> None:
        """Follows the team for ever."""
        while True:
            try:
                async with await aio.connect(self._path) as connection:
                    await self._read(connection)
                    await self._check(connection)
                    self.is_read.set()
                    while True:
                        await self.is_looked_at.wait()
                        await self._ask(connection, f"wait {self._team} {self._revision}")
                        await self.is_looked_at.wait()
                        await self._take_changes(connection)
            except LookupError:
                self._report("the hub has another design: start lefence-view again")
            except (OSError, ProtocolError, ValueError) as error:
                self._report(reason_of(error))
            self.is_read.set()
            await asyncio.sleep(_RETRY)

    def _report(self, trouble: str) -> None:
        self._board.set_team(self._at, self._board.facts[self._at].revision, trouble)

    async def judge(self) -> None:
        """Checks the team after changes, for ever."""
        while True:
            await self._is_changed.wait()
            await self.is_looked_at.wait()
            self._is_changed.clear()
            begin = asyncio.get_running_loop().time()
            try:
                async with await aio.connect(self._path) as connection:
                    await self._check(connection)
            except (OSError, ProtocolError, ValueError, LookupError):
                # (`follow` reports it, and reads the team again)
                pass
            taken = asyncio.get_running_loop().time() - begin
            await asyncio.sleep(max(_CHECKS, taken / _PART - taken))

    async def _ask(self, connection: aio.Connection, line: str) -> list[str]:
        """Sends a line; returns the first word after `ok`, and the rest. Raises ProtocolError for another reply."""
        reply = (await connection.ask_line(line.encode())).decode()
        if not reply.startswith("ok"):
            raise ProtocolError(f"{line} is answered {reply.strip()}")
        return reply[3:].strip().split(" ", 1)

    async def _check(self, connection: aio.Connection) -> None:
        text = " ".join(await self._ask(connection, f"check {self._team} 0"))
        report = await asyncio.to_thread(json.loads, text)
        await asyncio.to_thread(self._set_broken, report)

    def _set_broken(self, report: dict[str, Any]) -> None:
        numbers = self._board.table.numbers[self._at]
        verdicts = {}
        for each in report["violations"]:
            other = numbers[each["other"].encode()] if each.get("other") else None
            verdicts[numbers[each["cell"].encode()]] = each["rule"], other
        self._board.set_broken(self._at, verdicts)

    async def _read(self, connection: aio.Connection, change: dict[str, Any] | None = None) -> None:
        """Reads the team as a whole, until no change came in between. `change` is what made that necessary."""
        for _ in range(_TRIES):
            committed = await self._read_committed(connection)
            [start] = await self._ask(connection, f"sync {self._team} 0")
            text = await connection.ask_line(f"def {self._team} 0".encode())
            if not text.startswith(b"ok "):
                raise ProtocolError(f"def is answered {text.decode().strip()}")
            [revision] = await self._ask(connection, f"sync {self._team} 0")
            if start == revision and committed[0] in (None, start):
                break
        places = await asyncio.to_thread(lambda: list(self._places_in(text)))
        await asyncio.to_thread(self._board.move, self._at, places, change)
        if committed[0] is not None:
            await asyncio.to_thread(self._board.set_committed, self._at, committed[1])
        # (if the team has changed all the while, the changes after the first revision are read once more)
        self._revision, self._undo = int(start), UndoList()
        self._board.set_team(self._at, self._revision)

    async def _read_committed(self, connection: aio.Connection) -> tuple[str | None, dict[int, Place]]:
        """Reads the committed places of the cells that are elsewhere, and the revision. Without a revision they are not
        known: the hub does not tell them.
        """
        reply = (await connection.ask_line(f"uncommitted {self._team}".encode())).decode()
        if not reply.startswith("ok "):
            return None, {}
        revision, text = reply[3:].split(" ", 1)
        number_of = self._board.number_of
        return revision, {number_of(self._at, name): place_or_none(at) for name, at in json.loads(text).items()}

    def _places_in(self, text: bytes) -> Iterator[tuple[int, Place]]:
        """Yields the cells with another place in the team's DEF text. Raises LookupError if it has other cells."""
        numbers, table = self._board.table.ranges[self._at], self._board.table
        by_name, count = table.numbers[self._at], 0
        for number, found in zip(numbers, _CELL.finditer(text)):
            name, x, y, orient = found.groups()
            own = number if table.names[number] == name else by_name[name]
            place = Place(int(x), int(y), CODES[orient.decode()]) if x else NOWHERE
            count += 1
            if table.working[own] != place:
                yield own, place
        if count != len(numbers):
            raise LookupError("other cells")

    async def _take_changes(self, connection: aio.Connection) -> None:
        """Reads the changes since the known revision, and what they moved."""
        revision, text = await self._ask(connection, f"changes {self._team} {self._revision}")
        found = json.loads(text)
        self._is_changed.set()
        if found is None:
            return await self._read(connection)
        for change in found:
            change["user"] = user_of(change["uid"])
            if not await self._take(connection, change):
                return await self._list_changes(connection, change["revision"])
        self._revision = int(revision)

    async def _list_changes(self, connection: aio.Connection, known: int) -> None:
        """Lists the changes after a revision whose cells were read with the whole team."""
        _, text = await self._ask(connection, f"changes {self._team} {known}")
        for change in json.loads(text) or []:
            change["user"] = user_of(change["uid"])
            if change["revision"] <= self._revision:
                self._board.move(self._at, [], change)

    async def _take(self, connection: aio.Connection, change: dict[str, Any]) -> bool:
        """Shows a change. Returns False if the team was read as a whole for it."""
        board, at = self._board, self._at
        effect = self._undo.effect_of(change["line"], change["reply"], self._uncommitted)
        if effect.is_unknown:
            await self._read(connection, change)
            return False
        if effect.kind == "commit":
            board.commit(at, change)
        elif effect.kind == "revert":
            board.revert(at, change)
        else:
            places = effect.places or []
            asked = await asyncio.gather(*(self._where(connection, cell) for cell in effect.asked or []))
            board.move(at, [(board.number_of(at, cell), place) for cell, place in [*places, *asked]], change)
        return True

    def _uncommitted(self) -> list[str]:
        """The names of the cells that are not at their committed places."""
        names = self._board.table.names
        return [names[number].decode() for number in self._board.facts[self._at].uncommitted]

    async def _where(self, connection: aio.Connection, cell: str) -> tuple[str, Place]:
        """Asks where a cell is now. A later change of it, if there is one, comes next."""
        reply = (await connection.ask_line(f"where {self._team} 0 {cell}".encode())).decode().split()
        if reply[:2] == ["no", "6"]:
            return cell, NOWHERE
        if reply[:1] != ["ok"]:
            raise ProtocolError(f"where is answered {' '.join(reply)}")
        return cell, place_of(reply[1:])


def user_of(uid: int) -> str:
    """The name of a user, or the number."""
    try:
        return pwd.getpwuid(uid).pw_name
    except KeyError:
        return str(uid)
