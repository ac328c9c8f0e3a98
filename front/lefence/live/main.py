"""lefence-view: serves a page on which many people see one floorplan: of a running hub as it moves, or of files."""

from __future__ import annotations

import argparse
import json
import os
import threading
from pathlib import Path
from typing import Any

from .. import __version__
from ..base.description import Description, Frame
from ..base.faults import DONE, FAILED, USAGE, Fault, Parser, log, printable, run_tool
from ..base.input_files import use_plain_files
from ..base.program import find_program
from ..base.progress import Progress
from ..base.protocol import ProtocolError, socket_name
from ..base.state_text import UNPLACED as NO_PLACE
from ..base.state_text import teams_in
from ..client.blocking import connect
from .board import Board, place_of
from .cells import CODES, NOWHERE, CellTable, Place, Places
from .design import design_of, pins_in
from .feed import HubFeed
from .server import PageServer
from .snapshot import klayout_path, write_snapshot
from .work import Work

TOOL = "lefence-view"
# Seconds to wait for the operator's reply.
_PATIENCE = 10


def read_board(program: str, texts: list[Path]) -> Board:
    """Reads the frame and the cells of a design."""
    with Description(program, texts[0], texts[1:]) as description:
        cells = Progress(TOOL, "cells").over(description.cells())
        return Board(description.frame, CellTable(description.frame.teams, cells))


def texts_of_hub(folder: Path) -> list[Path]:
    """Asks a hub for the paths of its texts, the DEF file first. Only the operator may: else raises a Fault."""
    path = folder / socket_name(None)
    try:
        with connect(path, timeout=_PATIENCE) as connection:
            return [Path(text["path"]) for text in _status(connection.ask_line(b"status"))["texts"]]
    except (OSError, ProtocolError, ValueError, KeyError) as error:
        reason = error.strerror if isinstance(error, OSError) and error.strerror else error
        message = f"{path}: {reason}; name the DEF file and the LEF files of the hub after {folder}"
        raise Fault(FAILED, message) from None


def _status(reply: bytes) -> dict[str, Any]:
    found: dict[str, Any] = json.loads(reply.removeprefix(b"ok "))
    return found


def read_before(board: Board, program: str, path: Path, libraries: list[Path]) -> None:
    """Reads the places to compare with: the working places of a state text, or those of another DEF file."""
    table = board.table
    table.before = Places(len(table))
    numbers = dict(zip(board.frame.teams, table.numbers))
    with open(path, "rb") as file:
        if file.read(13) == b"lefence-state":
            file.seek(0)
            for team, cells in teams_in(file):
                own = numbers.get(team.name.decode(), {})
                for saved in cells:
                    if saved.name in own:
                        table.before[own[saved.name]] = _saved_place(saved.working)
            return
    with Description(program, path, libraries) as description:
        for cell in description.cells():
            number = numbers.get(cell.team, {}).get(cell.name.encode())
            if number is not None and cell.box is not None:
                table.before[number] = Place(cell.box.left, cell.box.bottom, CODES[cell.orient or "N"])


def _saved_place(word: bytes) -> Place:
    return NOWHERE if word == NO_PLACE else place_of(word.decode().split(","))


def editable_teams(folder: Path, frame: Frame, wanted: list[str]) -> list[str]:
    """Returns the teams that pages may change. Raises a Fault if one is unknown, or its socket is not this user's."""
    for team in wanted:
        path = folder / socket_name(team)
        if team not in frame.teams:
            raise Fault(USAGE, f"--edit {team}: no such team; there are {', '.join(frame.teams)}")
        if not os.access(path, os.W_OK):
            raise Fault(USAGE, f"--edit {team}: this user may not write to {path}")
    return wanted


def parser() -> Parser:
    made = Parser(
        TOOL,
        "Serves a page with a floorplan to a browser on this machine: of a running hub as it moves, or of files. The\n"
        "page shows the teams, what breaks a rule, what is not committed, and what happens now. It changes nothing,\n"
        "except for the teams of --edit, whose cells can be dragged to legal places. docs/LIVE.md describes it.",
        f"{TOOL} /run/lefence --edit A\n{TOOL} chip.def tech.lef cells.lef --snapshot chip.png",
    )
    add = made.add_argument
    add("where", metavar="DIR|DEF", type=Path, help="the folder of a hub's sockets, or a design")
    more = "of a design, its LEF files; of a hub whose operator is another user, its DEF file and LEF files"
    add("texts", metavar="LEF", type=Path, nargs="*", help=more)
    add("--port", metavar="P", type=port_number, default=0, help="listen on this port of 127.0.0.1 (any free one)")
    edit = "let the page work for these teams, whose sockets this user may write to"
    add("--edit", metavar="TEAM", nargs="+", action="extend", default=[], help=edit)
    add("--compare", metavar="FILE", type=Path, help="a state text or a DEF file, with whose places the page compares")
    add("--snapshot", metavar="FILE.png", type=Path, help="write a picture and end; it needs KLayout, and no browser")
    made.add_program()
    return made


def port_number(word: str) -> int:
    """The value of --port."""
    number = int(word)
    if not 0 <= number <= 65535:
        raise argparse.ArgumentTypeError(f"{word}: 0 to 65535")
    return number


def main() -> int:
    options = parser().parse_args()
    return run_tool(TOOL, lambda: run(options))


def run(options: argparse.Namespace) -> int:
    """Reads the design, follows the hub if there is one, and serves the page or writes a snapshot."""
    is_hub = options.where.is_dir()
    folder: Path = options.where
    klayout = klayout_path() if options.snapshot else ""
    if options.edit and not is_hub:
        raise Fault(USAGE, "--edit needs the folder of a hub's sockets")
    if not is_hub and not options.texts:
        raise Fault(USAGE, f"{folder}: a design needs its LEF files, and a hub is the folder of its sockets")
    options.texts = [*([] if is_hub else [folder]), *options.texts]
    use_plain_files(options, "texts", "compare")
    program = find_program(options.program)
    texts: list[Path] = options.texts or texts_of_hub(folder)
    if len(texts) < 2:
        raise Fault(USAGE, "a design has a DEF file and at least one LEF file")
    board = read_board(program, texts)
    if options.compare:
        read_before(board, program, options.compare, texts[1:])
    work = Work(folder, editable_teams(folder, board.frame, options.edit)) if is_hub else None
    if is_hub:
        feed = HubFeed(board, folder)
        feed.start()
        feed.is_read.wait()
    if options.snapshot:
        write_snapshot(board, options.snapshot, klayout)
        log(TOOL, f"{options.snapshot}: {options.snapshot.stat().st_size} bytes")
        return DONE
    return serve(options, board, texts, work)


def serve(options: argparse.Namespace, board: Board, texts: list[Path], work: Work | None) -> int:
    """Serves the page until a signal."""
    notes = {
        "version": __version__,
        "is_live": work is not None,
        "editable": work.editable if work else [],
        "compare": options.compare.name if options.compare else None,
    }
    source = str(options.where) if work else texts[0].name
    design = design_of(board.frame, board.table, pins_in(texts[1:]), source, notes)

    try:
        server = PageServer(options.port, board, design, work)
    except OSError as error:
        raise Fault(FAILED, f"cannot listen on port {options.port} of 127.0.0.1: {error.strerror}") from None
    log(TOOL, "open this address in a browser on this machine; whoever has it sees the page")
    print(printable(server.address), flush=True)
    thread = threading.Thread(target=server.serve_forever, daemon=True)
    thread.start()
    try:
        threading.Event().wait()
    finally:
        board.events.end()
        server.shutdown()
    return DONE
