"""The hub: merges the lines of all clients into one list, has it answered, and journals what was accepted.

The program's replies depend only on that list, and those to a team only on the team's own lines. So the order in which
clients are merged does not matter, and the journal is a complete backup. docs/HUB.md describes the guarantees.
"""

from __future__ import annotations

import asyncio
import os
from collections.abc import Callable
from dataclasses import dataclass, field
from enum import Enum, auto
from pathlib import Path

from ..base.clock import SYSTEM_CLOCK, Clock
from ..base.design import fences_in, shown, units_in
from ..base.faults import REFUSED, Fault, as_given, reason_of
from ..base.protocol import CHANGE_VERBS, GROUND, is_change, on_one_line
from ..journal.journal import MOST_REPLY, Journal
from ..journal.segments import Position
from .checkpoints import Checkpoints, TailLimits, restore_notes
from .client_pool import ClientPool
from .exporter import Exporter, SideProgram
from .connection import DEFERRED, NOT_DONE, Client, Deferred, Entry, Pending
from .journal_writer import JournalWriter, complete
from .latency import Latency
from .line_queue import ALONE, clients_of
from .log_limit import RateLimitedLog
from .metrics import Metrics
from .notify import notify_alive
from .operator import FROZEN, Operator, is_savepoint, team_of
from .query_sockets import Queries
from .recent_changes import RecentChanges
from .replay_process import ReplayProcess, described_teams
from .shards import Follower, Shard, ShardPool, run_all
from .slice_store import SliceTexts
from .status import status_text, uncommitted_text
from .uncommitted_places import UncommittedPlaces

# The part of a sync's time that the hub waits for more lines, and the most seconds.
_LINGER, _MOST_LINGER = 0.25, 0.002
# Seconds until closes that a full disk refused are tried again.
_RETRY = 1


class Phase(Enum):
    """What a hub does with the lines of its clients."""

    # It reads lines and answers them.
    SERVING = auto()
    # It reads no more lines, but answers those that it has read.
    STOPPING = auto()
    # No line waits and no export runs.
    ANSWERED = auto()
    # It answers no more lines: those that still wait, or become known after an export, are refused.
    OVER = auto()


# The phases that may follow each one. A hub that has no time to answer all lines is never ANSWERED.
_NEXT_PHASES = {
    Phase.SERVING: {Phase.STOPPING},
    Phase.STOPPING: {Phase.ANSWERED, Phase.OVER},
    Phase.ANSWERED: {Phase.OVER},
    Phase.OVER: set[Phase](),
}


@dataclass
class HubLimits:
    """Timeouts in seconds: unread replies, idle clients without a session, a silent program.

    `tail` limits the changes after the journal's last state; lines that take more than `slow` seconds are logged. There
    are at most `programs` programs.
    """

    patience: float = 60
    idle: float = 900
    deadline: float = 600
    tail: TailLimits = field(default_factory=TailLimits)
    slow: float = 1
    programs: int = 1


class Hub:
    """Each batch of a shard is executed, journaled and answered before the next one is collected.

    So between its batches the owner of each session is known, and its program has the state of the journal.
    """

    def __init__(
        self,
        replay: ReplayProcess,
        journal: Journal,
        limits: HubLimits,
        say: Callable[[str], None],
        clock: Clock = SYSTEM_CLOCK,
    ) -> None:
        """Makes a hub; `start` starts it. Its program has the same clock."""
        self.clock = clock
        self.replay = replay
        self.journal = journal
        self.writer = JournalWriter(journal, self._note_changes)
        self.shards = ShardPool(replay, self.writer, say, clock)
        self.patience = limits.patience
        self.limits = limits
        self.say = say
        self.log_limited = RateLimitedLog(say, clock)
        self.metrics = Metrics(clock)
        self.latency = Latency(limits.slow, self.log_limited, clock)
        self.pool = ClientPool(journal.header.slots, clock)
        self.side_program = SideProgram(replay, self.writer, clock, self._freeze_diverged)
        self.recent_changes = RecentChanges(self.metrics, clock)
        uncommitted = UncommittedPlaces(self.metrics, self.side_program, self.writer, clock)
        self.queries = Queries(self.pool, self.metrics, self.recent_changes, uncommitted)
        self.exporter = Exporter(replay, journal, self.side_program, say)
        self.checkpoints = Checkpoints(self.side_program, self.writer, limits.tail, self.log_limited, clock)
        self.operator = Operator(
            self.pool, self.writer, self.checkpoints, self.recent_changes, lambda: status_text(self)
        )
        self.unused_name, self.units = b"", b""
        self.teams: list[str] = []
        self.folder = Path(os.path.realpath(journal.path)).parent
        self._exports: set[asyncio.Task[None]] = set()
        self.phase = Phase.SERVING
        # Whether the disk was full when room for changes was needed last.
        self._is_full = False

    async def start(self, wanted: list[str]) -> list[str]:
        """Starts the program from the journal; returns the teams to serve: all, or the wanted ones."""
        fences, self.units = await asyncio.to_thread(fences_and_units, self.replay.program.texts[0])
        teams = [GROUND, *fences]
        self.unused_name = first_unused_name(teams)
        described = asyncio.create_task(described_teams(self.replay.program))
        try:
            await self._start_programs(teams)
            refuse_team_mismatch(teams, await described)
        finally:
            described.cancel()
            await asyncio.gather(described, return_exceptions=True)
        if missing := [team for team in wanted if team not in teams]:
            raise Fault(REFUSED, f"no team: {', '.join(missing)}")
        self.teams = list(dict.fromkeys(wanted)) or teams
        self.latency.serve(self.teams)
        self.operator.teams = frozenset(team.encode() for team in self.teams)
        return self.teams

    async def _start_programs(self, teams: list[str]) -> None:
        """Starts the programs of all teams from the journal's last state, each with its teams' changes after it."""
        if self.limits.programs > 1:
            try:
                slices = SliceTexts(self.journal, self.replay.program, teams)
                self.shards.divide(await slices.get(self.limits.programs))
            except (Fault, OSError) as fault:
                self.say(f"one program serves all teams: {reason_of(fault)}")
        await self.shards.start(Follower(self._restore_notes, self._note))
        self.checkpoints.loading = max(shard.loading for shard in self.shards)
        self.checkpoints.seconds = sum(shard.replaying for shard in self.shards)

    def _restore_notes(self, notes: list[bytes], is_own: Callable[[bytes], bool]) -> None:
        restore_notes(notes, self.pool, self.metrics, is_own)

    # Called by clients.

    def admit(self, client: Client) -> bool:
        """Adds a new client. Returns False if there are too many."""
        return self.pool.admit(client)

    def enqueue(self, client: Client) -> None:
        """Queues a client for its turn if it has a line that may be executed. A `status` is answered at once, unless a
        line of the same client is in front of it.
        """
        while client.is_ready() and client.next_is_status() and not self.shards.has_at_work(client):
            client.next_entry(self.phase is Phase.SERVING)
            client.reply(b"ok %b\n" % status_text(self))
            client.flush()
        if client.is_ready():
            shard = self.shards.of(client)
            shard.queue.add(client)
            shard.work.set()

    def remove(self, client: Client) -> None:
        """Removes a client that is gone, with its lines. The next batch closes its sessions."""
        self.shards.remove(client)
        self.pool.remove(client)
        self.unmark_slow(client)
        self.shards.check_orphans()

    def mark_slow(self, client: Client) -> None:
        """Marks a client that leaves many bytes unread."""
        self.pool.slow.add(client)

    def unmark_slow(self, client: Client) -> None:
        """Unmarks a client that has read or is gone."""
        self.pool.slow.discard(client)

    def has_space(self, client: Client, count: int) -> bool:
        """Whether a client's reply of this length may wait on the disk."""
        return self.pool.has_space(client, count, self.folder)

    # Batches.

    def next_batch(self, shard: Shard) -> list[Entry]:
        """Collects the next batch of a shard: closes of orphaned sessions, or what its queue takes."""
        if shard.has_orphans:
            shard.has_orphans = False
            if orphans := [session for session in self.pool.orphans() if shard.has_team(session[0])]:
                return [Entry(None, [b"close", team, b"%d" % number]) for team, number in orphans]
        batch = shard.queue.next_batch(self.phase is Phase.SERVING)
        for entry in batch:
            if entry.client and is_export(entry):
                entry.client.is_busy, entry.reply = True, DEFERRED
            elif is_savepoint(entry):
                entry.reply = DEFERRED
            elif reply := self.operator.reply_to(entry):
                entry.reply = reply
        return batch

    async def run(self) -> None:
        """Answers batch after batch. Returns when the hub is stopping, no line waits and no export runs."""
        self.checkpoints.begin(self.pool, self.metrics)
        await run_all(self._serve(shard) for shard in self.shards)

    async def _serve(self, shard: Shard) -> None:
        """Answers the batches of a shard."""
        while True:
            while batch := self.next_batch(shard):
                await self.answer(shard, batch)
                self.checkpoints.begin(self.pool, self.metrics)
                await asyncio.sleep(self._linger(batch))
            if self.phase is Phase.STOPPING and not self._exports and not self.shards.is_busy():
                # (no other shard has lines to answer either)
                self._enter(Phase.ANSWERED)
                self.shards.wake()
            if self.phase is Phase.ANSWERED:
                return
            await shard.work.wait()
            shard.work.clear()

    async def watch(self) -> None:
        """Looks each second for what has lasted too long. Raises a Fault if the journal is no longer in its place."""
        while True:
            await self.clock.sleep(1)
            notify_alive(bool(self.teams))
            self.end_overdue()
            await self.writer.run(self.journal.refuse_loss)

    def end_overdue(self) -> None:
        """Kills programs that are silent for too long, and drops clients that are idle for too long."""
        for replay in self._servers():
            if replay.seconds_silent() > self.limits.deadline:
                self.say(f"the program was silent for {self.limits.deadline:g} seconds and is killed")
                replay.send_kill()
        for client in self.pool.idle(self.limits.idle):
            self.log_limited("idle", f"{client.name}: dropped, idle without a session")
            client.disconnect()

    def _linger(self, batch: list[Entry]) -> float:
        """Seconds to wait for more lines, so that clients just answered share the next sync.

        It is a small part of a sync's time. Without it each of them would wait for two syncs.
        """
        return min(_MOST_LINGER, self.journal.seconds * _LINGER) if len(batch) > 1 else 0

    def kill_programs(self) -> None:
        """Kills the programs and the side program without waiting."""
        for replay in self._servers():
            replay.send_kill()

    def _servers(self) -> list[ReplayProcess]:
        """The programs and the side program."""
        side = self.side_program.replay
        return [*(shard.replay for shard in self.shards), *([side] if side else [])]

    async def stop(self, run: asyncio.Task[None], seconds: float) -> None:
        """Stops reading, has `run` answer what was read, and after these seconds refuses the rest."""
        self._enter(Phase.STOPPING)
        for client in self.pool.clients:
            client.transport.pause_reading()
        self.queries.end()
        self.shards.wake()
        if await self.clock.wait(run, seconds):
            run.result()
        else:
            self.say(f"not all lines were answered within {seconds:g} seconds; the rest is refused")
            run.cancel()
            await asyncio.gather(run, return_exceptions=True)
        self._enter(Phase.OVER)
        for client in list(self.pool.clients):
            self._refuse_waiting(client)

    def _enter(self, phase: Phase) -> None:
        """Enters the next phase."""
        assert phase in _NEXT_PHASES[self.phase], f"{self.phase.name} is not followed by {phase.name}"
        self.phase = phase

    def _refuse_waiting(self, client: Client) -> None:
        """Refuses the waiting lines of a client at the end."""
        entries = []
        while client.waiting and not (client.is_busy or client.is_ended):
            entries.append(client.next_entry(False))
        self._refuse(entries)

    def _refuse(self, entries: list[Entry]) -> None:
        """Refuses lines at the end that are not executed yet, and sends the replies of the others."""
        for entry in entries:
            if entry.client is None:
                continue
            match entry.reply:
                case Pending():
                    entry.client.reply(NOT_DONE)
                case Deferred():
                    # (whoever defers a reply also refuses the line)
                    pass
                case reply:
                    entry.client.reply(reply)
        for client in clients_of(entries):
            client.flush()

    async def answer(self, shard: Shard, batch: list[Entry]) -> None:
        """Executes and journals a batch of a shard, then sends the replies."""
        clients = clients_of(batch)
        shard.begin(batch, clients)
        try:
            sent, seconds = await self._execute(shard)
            finish = self._finish(shard, sent, seconds)
            # (without a change it does not wait, except for a savepoint or an export, and cannot be cancelled)
            await (complete(finish) if shard.reserved or batch[0].verb in ALONE else finish)
        finally:
            shard.end()
        for client in clients:
            if client.team is None:
                # (its next line may be for another shard)
                self.enqueue(client)

    async def _execute(self, shard: Shard) -> tuple[list[Entry], float]:
        """Executes the lines of a shard's batch that are not answered yet; returns them and the program's seconds."""
        batch = shard.batch
        try:
            await self._refuse_if_disk_full(shard)
            for entry in self.pool.over_quota(batch):
                # (the program refuses unknown teams)
                if entry.fields[1].decode() in self.teams:
                    entry.reply = b"no 10 SessionsFull\n"
            self.operator.refuse_frozen(batch)
            self.metrics.count(len(batch))
            sent = [entry for entry in batch if entry.is_pending]
            replies, seconds = await self.queries.execute(sent, shard.execute)
        except asyncio.CancelledError:
            # (no line of it is in the journal)
            self._refuse(batch)
            raise
        for entry, reply in zip(sent, replies):
            entry.reply = reply
        self._refuse_diverged(shard, sent)
        shard.queue.charge(batch, seconds)
        return sent, seconds

    def _refuse_diverged(self, shard: Shard, sent: list[Entry]) -> None:
        """Refuses the executed lines of teams whose replies do not fit the journal, and freezes these teams.

        Their program has executed what will not be in the journal, so it is killed and restored at its next line.
        """
        found = self.metrics.divergences((entry.fields, entry.reply_text) for entry in sent)
        for entry in sent if found else []:
            if team_of(entry) in found:
                entry.reply = FROZEN if entry.verb in CHANGE_VERBS else NOT_DONE
        for team, text in found.items():
            self._freeze_diverged(team, text)
        if found:
            shard.replay.send_kill()

    def _freeze_diverged(self, team: bytes, text: str) -> None:
        """Freezes a team whose replies do not fit the journal, and says why each time."""
        self.operator.diverged.add(team)
        self.say(f"team {shown(team)} is frozen, since its program and its journal differ: {text}")

    async def _finish(self, shard: Shard, sent: list[Entry], seconds: float) -> None:
        """Journals the accepted changes of the executed lines of a shard's batch, then sends its replies."""
        batch = shard.batch
        if changes := [entry for entry in sent if is_change(entry.fields, entry.reply_text)]:
            # If this process ends before here, nobody has got a reply to these changes.
            await self.writer.append(changes)
            self.checkpoints.add(seconds * len(changes) / len(sent))
        await self.operator.write_savepoints(batch)
        position = await self.writer.position() if is_export(batch[0]) else None
        for entry in batch:
            self._reply(entry, position)
        for client in shard.at_work:
            client.flush()
        self.latency.note(batch, seconds)
        self.queries.answer_waiting({change.fields[1] for change in changes})

    def _note_changes(self, entries: list[Entry]) -> None:
        """Records session owners and metrics by changes that are on the disk."""
        self.metrics.syncs.append(self.journal.seconds)
        self.recent_changes.note(entries)
        for entry in entries:
            self._note(entry.fields, entry.reply_text, entry.client)
            if entry.client and entry.client.is_ended:
                self.shards.check_orphans()

    def _note(self, fields: list[bytes], reply: bytes, client: Client | None = None) -> None:
        self.metrics.note(fields, reply)
        self.pool.note(fields, reply, client)

    async def _refuse_if_disk_full(self, shard: Shard) -> None:
        """Refuses changes as OutOfMemory, without executing them, if the journal cannot grow. Else it reserves bytes
        for them.
        """
        changes = [entry for entry in shard.batch if entry.is_pending and entry.verb in CHANGE_VERBS]
        if not changes:
            return
        count = sum(len(entry.line) + MOST_REPLY for entry in changes)
        is_full = not await self.writer.reserve(count)
        shard.reserved = 0 if is_full else count
        if is_full != self._is_full:
            self._is_full = is_full
            text = (
                "the disk is full: changes are refused" if is_full else "the disk has room again: changes are accepted"
            )
            self.log_limited(text, text)
        if is_full:
            for entry in changes:
                entry.reply = NOT_DONE
            self.clock.call_later(_RETRY, self.shards.check_orphans)

    def _reply(self, entry: Entry, position: Position | None) -> None:
        """Appends an entry's reply to its client, and handles its consequences. An export is of a position of the
        journal.
        """
        client = entry.client
        if client is None:
            return
        match entry.reply:
            case Pending():
                raise AssertionError(f"not executed: {entry.line!r}")
            case Deferred():
                if position and is_export(entry):
                    self._begin_export(client, os.fsdecode(entry.fields[1]), position)
            case reply:
                client.reply(reply)
        if entry.is_last:
            client.flush()
            client.disconnect()
            self.shards.check_orphans()

    def _begin_export(self, client: Client, path: str, position: Position) -> None:
        """Starts an export, whose reply comes when it is done."""
        if text := uncommitted_text(self):
            self.say(f"export {path}: {text}")
        task = asyncio.create_task(self._answer_export(client, path, position))
        self._exports.add(task)
        task.add_done_callback(self._export_done)

    async def _answer_export(self, client: Client, path: str, position: Position) -> None:
        """Exports the committed places as of the client's turn, and replies, while others are served."""
        reason = await self.exporter.write(path, position)
        client.reply(b"ok\n" if reason is None else b"no 13 NotExported %b\n" % on_one_line(as_given(reason)))
        client.flush()
        client.is_busy = False
        if self.phase is Phase.OVER:
            self._refuse_waiting(client)
        self.enqueue(client)

    def _export_done(self, task: asyncio.Task[None]) -> None:
        self._exports.discard(task)
        self.shards.wake()


def first_unused_name(teams: list[str]) -> bytes:
    """Returns the shortest name that is not a team."""
    signs = [chr(byte) for byte in range(33, 127)]
    names = (first + second for second in ("", *signs) for first in signs)
    return next(name for name in names if name not in teams).encode()


def fences_and_units(path: Path) -> tuple[list[str], bytes]:
    """Reads the fences and the database units of a DEF text. The text is not kept."""
    text = path.read_bytes()
    return fences_in(text), units_in(text)


def refuse_team_mismatch(found: list[str], reported: list[str]) -> None:
    """Raises a Fault if the teams found in the DEF text differ from those that the program reports."""
    if set(found) == set(reported):
        return
    ours, theirs = (set(found) - set(reported), set(reported) - set(found))
    only_found, only_reported = (", ".join(sorted(teams)) or "none" for teams in (ours, theirs))
    counts = f"the DEF text has {len(found)} teams, the program reports {len(reported)}"
    raise Fault(REFUSED, f"{counts}; only in the DEF text: {only_found}; only reported: {only_reported}")


def is_export(entry: Entry) -> bool:
    """Whether the line is the operator's `export PATH`."""
    return entry.verb == b"export" and len(entry.fields) == 2 and is_from_operator(entry)


def is_from_operator(entry: Entry) -> bool:
    """Whether the line came from the operator's socket."""
    return entry.client is not None and entry.client.team is None
