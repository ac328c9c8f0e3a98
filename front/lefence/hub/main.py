"""lefence-hub: serves many clients with one program, a socket for each team, and a journal."""

from __future__ import annotations

import argparse
import asyncio
import contextlib
import functools
import os
import re
import resource
import select
import shutil
import signal
import sys
import threading
import traceback
from collections.abc import Callable, Iterator
from pathlib import Path
from typing import Any

from ..base.faults import DONE, FAILED, REFUSED, Fault, Parser, as_given, log, run_tool
from ..base.input_files import use_plain_files
from ..base.program import Program, find_program, held_program
from ..base.protocol import MOST_SLOTS, query_socket_name, socket_name
from ..base.state_text import teams_in
from .acceptor import Acceptor
from .checkpoints import TailLimits, team_notes
from .client_pool import MOST_CLIENTS
from .hub import Hub, HubLimits
from .connection import Client
from .notify import notify
from .query_sockets import QueryClient
from .replay_process import ReplayProcess
from .shards import MOST_PROGRAMS, default_programs
from .session_slots import change_slots
from .sockets import MOST_PATH, bind_socket, claim_folder, groups_of, is_too_long
from .status import uncommitted_text
from .status_view import add_status_options, requested_view
from ..journal.frames import sum_of
from ..journal.journal import Journal, texts_in
from ..journal.owner import this_process
from ..journal.texts import remove_partial_texts, resolve_texts
from ..prepare.pitfalls import start_warning

TOOL = "lefence-hub"
# Seconds at the end for clients to read their replies, and the part of --grace in which waiting lines are answered.
_LAST = 5
_ANSWERS = 1 / 4


def say(text: str) -> None:
    """Prints a line on standard error, or drops it if nobody reads that and it is full: the hub must not wait."""
    poll = select.poll()
    poll.register(2, select.POLLOUT)
    if poll.poll(0):
        log(TOOL, text)


def listen(hub: Hub, folder: Path, groups: dict[str, int]) -> Acceptor:
    """Serves the operator's socket and two of each team."""
    acceptor = Acceptor(hub.clock, hub.log_limited)
    for team, path, make_client in sockets_of(hub, folder):
        mode, group = (0o600, None) if team is None else (0o660, groups.get(team))
        if team is not None and is_too_long(path):
            say(f"team {team} has no socket {path}: it is longer than {MOST_PATH} bytes; use a shorter --sockets")
            continue
        acceptor.listen(bind_socket(path, mode, team is not None, group), make_client)
    return acceptor


def sockets_of(hub: Hub, folder: Path) -> Iterator[tuple[str | None, Path, Callable[[], Client]]]:
    """Yields the sockets of a hub: the team or None, the path, and what makes a client of it."""
    yield None, folder / socket_name(None), functools.partial(Client, hub, None)
    for team in hub.teams:
        yield team, folder / socket_name(team), functools.partial(Client, hub, team.encode())
        client = functools.partial(QueryClient, hub, team.encode(), hub.queries)
        yield team, folder / query_socket_name(team), client


async def serve(hub: Hub, options: argparse.Namespace, stopped: asyncio.Event) -> None:
    """Starts and serves until a fault or a signal. Then it stops reading, but answers what was read."""
    groups = groups_of(options.group)
    stop, watch = asyncio.create_task(stopped.wait()), asyncio.create_task(hub.watch())
    start = asyncio.create_task(hub.start([*options.team]))
    tasks, is_ready = [stop, watch, start], False
    try:
        await asyncio.wait({start, stop, watch}, return_when=asyncio.FIRST_COMPLETED)
        if not start.done():
            start.cancel()
            await asyncio.gather(start, return_exceptions=True)
            return None if stop.done() else watch.result()
        teams = start.result()
        if missing := [team for team in groups if team not in teams]:
            raise Fault(REFUSED, f"no team: {', '.join(missing)}")
        files = resource.getrlimit(resource.RLIMIT_NOFILE)[0]
        if options.roll:
            return None
        hub.pool.most_clients = max(1, min(MOST_CLIENTS, (files - 64) // (2 * len(teams) + 1) - 1))
        # (the first batch closes orphaned sessions, which are changes too)
        ready = f"ready: {len(teams)} teams, {hub.journal.changes} changes restored"
        run = asyncio.create_task(hub.run())
        tasks.append(run)
        acceptor = listen(hub, options.sockets, groups)
        with warning_of(hub):
            say(ready)
            is_ready = True
            notify("READY=1", f"STATUS={ready}")
            await asyncio.wait({run, stop, watch}, return_when=asyncio.FIRST_COMPLETED)
        acceptor.close()
        if watch.done():
            watch.result()
        await hub.stop(run, options.grace * _ANSWERS)
    except Fault as fault:
        # (what is refused at a start is refused again, but a hub that served may be restarted)
        raise Fault(FAILED if is_ready else fault.status, str(fault)) from None
    finally:
        # (after a fault nothing more is acknowledged)
        for task in tasks:
            task.cancel()


@contextlib.contextmanager
def warning_of(hub: Hub) -> Iterator[None]:
    """Prints what may go wrong with the design, in a process of its own, which ends with the block at the latest."""
    program = hub.replay.program
    warning = start_warning(TOOL, program.path, program.texts[0], program.texts[1:])
    try:
        yield
    finally:
        warning.kill()
        warning.wait()


async def disconnect_all(hub: Hub) -> None:
    """Ends the connections when the clients have read their replies, or after some seconds."""
    for client in list(hub.pool.clients):
        client.disconnect()
    last = hub.clock.now() + _LAST
    while hub.pool.clients and hub.clock.now() < last:
        await asyncio.sleep(0.02)


def end_by_signals(hub: Hub, stopped: asyncio.Event, grace: float) -> None:
    """Sets the event at a signal. After `grace` seconds, or at a second signal other than SIGHUP, it ends this process
    at once.
    """

    def give_up() -> None:
        say(f"killed: not ended within {grace:g} seconds, or a second signal; no acknowledged change is lost")
        hub.kill_programs()
        os._exit(FAILED)

    def stop(number: int) -> None:
        if stopped.is_set():
            # (a terminal that is closed sends two SIGHUPs: the shell's and the system's)
            return None if number == signal.SIGHUP else give_up()
        notify("STOPPING=1")
        stopped.set()
        timer = threading.Timer(grace, give_up)
        timer.daemon = True
        timer.start()

    for number in (signal.SIGTERM, signal.SIGINT, signal.SIGHUP):
        # (`nohup` ignores SIGHUP)
        if number != signal.SIGHUP or signal.getsignal(number) != signal.SIG_IGN:
            asyncio.get_running_loop().add_signal_handler(number, stop, number)


def limit_loop_errors(hub: Hub) -> None:
    """Prints messages of the event loop, for example that no descriptor is left, at most once a minute."""

    def handle(loop: asyncio.AbstractEventLoop, context: dict[str, Any]) -> None:
        error = context.get("exception")
        text = (
            context["message"]
            if isinstance(error, OSError) or not error
            else "".join(traceback.format_exception(error))
        )
        hub.log_limited(str(context["message"]), f"{text}: {error}")

    asyncio.get_running_loop().set_exception_handler(handle)


def open_journal(options: argparse.Namespace, program: str) -> tuple[Journal, list[Path]]:
    """Opens the journal; returns it and its copies of the design's files."""
    changes_slots = options.roll and texts_in(options.journal) is not None
    texts, kept = resolve_texts(options.journal, [options.design, *options.library], say, options.kept_texts)
    slots = None if changes_slots else options.sessions
    journal = Journal(options.journal, texts, say, this_process(program), options.takeover, slots)
    journal.is_synced = not options.no_sync
    remove_partial_texts(options.journal)
    if options.begin is not None:
        begin_with(journal, options.begin)
    if journal.former and journal.former.program != journal.owner.program:
        which = f"{journal.former.program} of front {journal.former.front}"
        say(f"the journal was written with another program, {which}; if replies differ, run that one with --roll first")
    return journal, kept


def make_hub(options: argparse.Namespace, journal: Journal, program: Program) -> Hub:
    """Makes the hub of a journal and a program over its copies."""
    tail = TailLimits(options.tail_bytes, options.tail_seconds, options.keep, options.keep_segments)
    # (a state is made by one program)
    programs = 1 if options.roll else options.programs or default_programs()
    limits = HubLimits(options.patience, options.idle, options.deadline, tail, options.slow, programs)
    replay = ReplayProcess(program, [text.sum for text in journal.header.texts], memory=options.memory)
    hub = Hub(replay, journal, limits, say)
    hub.exporter.protected = [Path(as_given(str(path))) for path in (options.design, *options.library)]
    return hub


async def run(options: argparse.Namespace) -> None:
    """Runs the hub from its locks to its last export."""
    stopped = asyncio.Event()
    use_plain_files(options, "design", "library")
    program = held_program(find_program(options.program))
    claim_folder(options.sockets)
    journal, kept = open_journal(options, program)
    hub = make_hub(options, journal, Program(program, kept, journal.header.slots))
    end_by_signals(hub, stopped, options.grace)
    limit_loop_errors(hub)
    try:
        if options.export:
            hub.exporter.refuse(options.export)
        await serve(hub, options, stopped)
        await hub.shards.kill()
        await finish(hub, options)
    finally:
        await hub.shards.kill()
        journal.close()
    say("ended")


async def finish(hub: Hub, options: argparse.Namespace) -> None:
    """Makes the last state and the last export; then clients get their time to read."""
    journal = hub.journal
    if hub.teams:
        # (a start that was interrupted knows only some of the sessions)
        if text := uncommitted_text(hub):
            say(text)
        await hub.checkpoints.make_last(hub.pool, hub.metrics, options.roll)
    if options.roll and journal.tail_changes:
        raise Fault(FAILED, "--roll could not save a state")
    if options.roll and options.sessions not in (None, journal.header.slots):
        await change_slots(journal, hub.replay, options.sessions, team_notes(hub.pool, hub.metrics))
        say(f"each team has {options.sessions} session slots")
    reason = await hub.exporter.write(options.export, journal.position) if options.export else None
    await disconnect_all(hub)
    if reason is not None:
        raise Fault(FAILED, f"{options.export}: not exported")


def begin_with(journal: Journal, path: Path) -> None:
    """Has a new journal begin with a copy of a state text. The program checks it when it starts."""
    notes, count = [], 0
    with open(path, "rb") as file:
        for team, cells in teams_in(file):
            count = sum(cell.working != cell.committed for cell in cells)
            notes.append(b"team %b %d %d -" % (team.name, team.revision, count))
    journal.archive.make()
    copy = journal.archive.temporary_state(1)
    try:
        with open(path, "rb") as file, open(copy, "xb") as target:
            shutil.copyfileobj(file, target)
            target.flush()
            os.fsync(target.fileno())
        journal.begin_with(copy, copy.stat().st_size, sum_of(copy), notes)
    finally:
        copy.unlink(missing_ok=True)
    say(f"the journal begins with the state {path}")


def parser() -> Parser:
    made = Parser(
        TOOL,
        "Serves many clients at once on one design. Each team has a socket DIR/TEAM.sock, the operator has\n"
        "DIR/operator.sock. Accepted changes are in the journal before their replies are sent; the next start\n"
        "restores them. SIGTERM ends the hub. docs/HUB.md describes it.",
        f"{TOOL} chip.def tech.lef cells.lef --sockets /run/lefence --journal chip.journal --export new.def",
    )
    _add_files(made)
    _add_limits(made)
    made.add_argument("--roll", action="store_true", help="save a state of the journal and end, without serving")
    gone = "take over the journal of a hub of another host, which is certainly gone"
    made.add_argument("--takeover", action="store_true", help=gone)
    unsafe = "do not wait for the disk: a crash of the machine may lose changes"
    made.add_argument("--no-sync", action="store_true", help=unsafe)
    made.add_program()
    add_status_options(made)
    return made


def _add_files(made: Parser) -> None:
    """Adds the arguments for files and teams."""
    add = made.add_argument
    add("design", metavar="DEF", type=Path, help="the design")
    add("library", metavar="LEF", type=Path, nargs="+", help="its LEF files, in the program's order")
    add("--sockets", metavar="DIR", type=Path, required=True, help="the folder of the sockets; made if it is missing")
    add(
        "--journal",
        metavar="FILE",
        type=Path,
        required=True,
        help="the journal of accepted changes; made if it is missing",
    )
    add("--begin", metavar="FILE", type=Path, help="a state text with which a new journal begins (lefence-carry)")
    add("--export", metavar="FILE", help="export the committed places to FILE at the end")
    add(
        "--team",
        metavar="NAME",
        action="append",
        default=[],
        help="serve only this team; may be repeated (default: all teams)",
    )
    kept = "use the journal's copies of DEF and LEF files that have changed since"
    add("--kept-texts", action="store_true", help=kept)
    add("--keep-segments", action="store_true", help="keep the whole journal, also before the first kept state")
    add("--group", metavar="TEAM=GROUP", action="append", default=[], help="the group of a team's socket")


def _add_limits(made: Parser) -> None:
    """Adds the options for limits, in seconds, bytes and numbers."""

    def add(option: str, metavar: str, kind: Callable[[str], float], default: float | None, text: str) -> None:
        made.add_argument(option, metavar=metavar, type=kind, default=default, help=text)

    add("--patience", "S", second_count, 60.0, "seconds after which a client with unread replies is dropped (60)")
    add("--idle", "S", second_count, 900.0, "seconds after which an idle client without a session is dropped (900)")
    add("--deadline", "S", second_count, 600.0, "seconds of silence after which the program is restarted (600)")
    add("--slow", "S", second_count, 1.0, "seconds above which a line is logged as slow (1; 0: never)")
    add("--grace", "S", second_count, 240.0, "seconds after SIGTERM for everything, exports included (240)")
    add("--tail-seconds", "S", second_count, 2.0, "save a state when a start would replay for S seconds (2)")
    add("--tail-bytes", "B", byte_count, None, "also after B bytes of changes (0: only when asked)")
    add("--keep", "N", state_count, 2, "keep N states, and the journal from the first of them on (2; 0: all)")
    memory = "the memory of each program that serves teams, in bytes or as 500M or 4G (no limit)"
    add("--memory", "SIZE", memory_size, None, memory)
    programs = "at most N programs, 1 to 8, share the teams, each over a slice with its teams' cells"
    add("--programs", "N", program_count, None, f"{programs} (one for each processor)")
    slots = "session slots of each team, 1 to 64 (as in the journal; 8 in a new one); --roll changes them"
    add("--sessions", "N", slot_count, None, slots)


def state_count(word: str) -> int:
    """The value of --keep. One state is too few: a program may still read it while the next one is made."""
    number = int(word)
    if number < 0 or number == 1:
        raise argparse.ArgumentTypeError(f"{word}: 0, or 2 or more")
    return number


def program_count(word: str) -> int:
    """The value of --programs."""
    number = int(word)
    if not 1 <= number <= MOST_PROGRAMS:
        raise argparse.ArgumentTypeError(f"{word}: 1 to {MOST_PROGRAMS}")
    return number


def slot_count(word: str) -> int:
    """The value of --sessions."""
    number = int(word)
    if not 1 <= number <= MOST_SLOTS:
        raise argparse.ArgumentTypeError(f"{word}: 1 to {MOST_SLOTS}")
    return number


def byte_count(word: str) -> int:
    """A number of bytes."""
    number = int(word)
    if number < 0:
        raise argparse.ArgumentTypeError(f"{word}: 0 or more")
    return number


def memory_size(word: str) -> int:
    """The value of --memory."""
    found = re.fullmatch(r"([1-9]\d{0,15})([KMGT]?)", word)
    if not found:
        raise argparse.ArgumentTypeError(f"{word}: a number of bytes, also with K, M, G or T at its end")
    return int(found[1]) << 10 * " KMGT".index(found[2] or " ")


def second_count(word: str) -> float:
    """A number of seconds for which the system can wait."""
    number = float(word)
    if not 0 <= number <= threading.TIMEOUT_MAX:
        raise argparse.ArgumentTypeError(f"{word}: a number of seconds, 0 or more")
    return number


def main() -> int:
    made = parser()
    view = requested_view(made, sys.argv[1:])
    if view is not None:
        return run_tool(TOOL, view.show)
    options = made.parse_args()
    files = resource.getrlimit(resource.RLIMIT_NOFILE)[1]
    resource.setrlimit(resource.RLIMIT_NOFILE, (files, files))

    def work() -> int:
        asyncio.run(run(options))
        return DONE

    return run_tool(TOOL, work)
