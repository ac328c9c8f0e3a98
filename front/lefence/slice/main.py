"""lefence-slice: writes a DEF file with the frame and the cells of one team only.

On it the program answers that team's commands as on the whole design, byte for byte: its replies to a team depend only
on the frame and on that team's cells and commands.
"""

from __future__ import annotations

import os
import tempfile
from itertools import zip_longest
from pathlib import Path

from ..base.atomic_file import refuse_inputs, write_output
from ..base.description import Cell, Description
from ..base.design import Design, complete_design, shown
from ..base.faults import DONE, FAILED, REFUSED, USAGE, Fault, Parser, log, run_tool
from ..base.input_files import use_plain_files
from ..base.program import find_program
from ..base.protocol import GROUND
from ..base.slices import slices_of
from ..client.blocking import Session
from ..client.endpoint import connect_to, one_team
from ..client.refusals import Refusal
from .splice import Spot, with_spots

TOOL = "lefence-slice"


def slice_of(text: bytes, team: str) -> bytes:
    """Returns the slice of a DEF text. Raises a Fault if it has no such team."""
    return slice_of_design(Design(text), team)


def slice_of_design(design: Design, team: str) -> bytes:
    """Returns the slice of a design. Raises a Fault if it has no such team.

    The rows, regions, blockages, FIXED and COVER components and the small statements stay byte for byte.
    """
    name = os.fsencode(team)
    if team != GROUND and name not in design.fences:
        teams = ", ".join([*map(os.fsdecode, design.fences), GROUND])
        raise Fault(REFUSED, f"no team: {team}; the teams are {teams}")
    return b"".join(next(slices_of(design, [[name]])))


def current_slice(design: Path, session: Session) -> bytes:
    """Returns the slice of the session's team, with the cells at their present working places.

    Raises a Fault if the hub has other cells of the team than the design.
    """
    part = slice_of_design(complete_design(design, design.read_bytes()), session.team)
    cells = session.cells()
    if [cell.name for cell in cells] != [shown(name) for name in Design(part).cells_of(session.team.encode())]:
        raise Fault(REFUSED, f"{design} has other cells of team {session.team} than the hub's design")
    return with_spots(
        part, {cell.name: Spot(int(at.x), int(at.y), at.orient) if (at := cell.place) else None for cell in cells}
    )


def slice_of_hub(design: Path, socket: str, teams: list[str]) -> tuple[str, bytes]:
    """Returns a team of a running hub over a design and its slice, with the cells at their present working places."""
    endpoint = connect_to(socket)
    try:
        team = one_team(endpoint, teams)
        with endpoint.connection.session(team) as session:
            log(TOOL, f"team {team} is at revision {session.first_revision}")
            return team, current_slice(design, session)
    except (ConnectionError, Refusal) as error:
        raise Fault(REFUSED if isinstance(error, Refusal) else FAILED, f"{socket}: {error}") from None
    finally:
        endpoint.close()


def refuse_difference(
    program: str, whole: Path, part: bytes, libraries: list[Path], team: str, is_current: bool = False
) -> None:
    """Raises a Fault if the program reads another frame or other cells of the team in the slice than in the whole
    design. If the slice is current, its cells may have other places.
    """
    with tempfile.NamedTemporaryFile(suffix=".def") as file:
        file.write(part)
        file.flush()
        with Description(program, whole, libraries) as first, _described(program, Path(file.name), libraries) as second:
            if first.frame != second.frame:
                raise Fault(
                    REFUSED, "the program reads another frame in the slice than in the whole design; nothing is written"
                )
            own = [_comparable(cell, is_current) for cell in first.cells_of(team)]
            found = [_comparable(cell, is_current) for cell in second.cells()]
    if own != found:
        pair = next(pair for pair in zip_longest(own, found) if pair[0] != pair[1])
        counts = f"the program reads {len(own)} cells of team {team} in the whole design, but {len(found)} in the slice"
        names = " and ".join(
            f"{cell.name} {place}" for cell, place in zip(pair, ("in the whole design", "in the slice")) if cell
        )
        raise Fault(REFUSED, f"{counts}; the first difference is {names}; nothing is written")


def _described(program: str, part: Path, libraries: list[Path]) -> Description:
    try:
        return Description(program, part, libraries)
    except Fault as fault:
        raise Fault(fault.status, f"the program refuses the slice, which is not written: {fault}") from None


def _comparable(cell: Cell, is_current: bool) -> Cell:
    """The cell without the rule that it breaks, which cells of other teams may cause; of a current slice also without
    its place.
    """
    plain = cell._replace(rule=None, other=None)
    return plain._replace(box=None, orient=None) if is_current else plain


def parser() -> Parser:
    sliced = Parser(
        TOOL,
        "Writes a DEF file with the frame and one team's cells only. On it, the program answers that team's commands\n"
        "as on the whole design, byte for byte. With the LEF files, the program checks that the slice has the same\n"
        "frame and cells as the whole design; otherwise it is not written.",
        f"{TOOL} chip.def tech.lef cells.lef --team A --output A.def\n"
        "lefence replay A.def tech.lef cells.lef < session.txt",
    )
    sliced.add_argument("design", metavar="DEF", type=Path, help="the whole design")
    sliced.add_argument(
        "libraries",
        metavar="LEF",
        type=Path,
        nargs="*",
        default=[],
        help="its LEF files; without them the slice is not checked",
    )
    sliced.add_argument("--team", metavar="NAME", help="a FENCE region, or - for the ground outside all fences")
    sliced.add_argument(
        "--socket", metavar="SOCKET", help="take the cells' present places from this socket of a hub, or from HOST:PORT"
    )
    sliced.add_argument(
        "-o", "--output", metavar="FILE", type=Path, help="write the slice to FILE (default: standard output)"
    )
    sliced.add_program()
    return sliced


def main() -> int:
    options = parser().parse_args()

    def work() -> int:
        use_plain_files(options, "design", "libraries")
        if options.output is not None:
            refuse_inputs(options.output, [options.design, *options.libraries])
        teams = [options.team] if options.team is not None else []
        if options.socket:
            team, sliced = slice_of_hub(options.design, options.socket, teams)
        elif teams:
            team, sliced = options.team, slice_of_design(
                complete_design(options.design, options.design.read_bytes()), options.team
            )
        else:
            raise Fault(USAGE, "--team is needed, or --socket of a team")
        if options.libraries:
            program, is_current = find_program(options.program), bool(options.socket)
            refuse_difference(program, options.design, sliced, options.libraries, team, is_current)
        else:
            log(TOOL, "no LEF files are given: the slice is not checked with the program")
        write_output(options.output, sliced)
        log(TOOL, f"team {team}: {len(sliced)} of {options.design.stat().st_size} bytes")
        return DONE

    return run_tool(TOOL, work)
