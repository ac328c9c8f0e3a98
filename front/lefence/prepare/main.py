"""lefence-prepare: makes DEF and LEF files loadable, for example without rows or fences, and puts places back."""

from __future__ import annotations

import argparse
import functools
import json
import tempfile
from pathlib import Path

from ..base.atomic_file import atomic_file, output_file, refuse_inputs
from ..base.description import Box, Description
from ..base.design import Design, Entry, complete_design, refuse_no_design, shown
from ..base.faults import DONE, REFUSED, USAGE, Fault, Parser, as_given, log, run_tool, show_as
from ..base.input_files import use_plain_files
from ..base.lef import Site, sites_of
from ..base.nets import Netlist
from ..base.program import find_program
from ..base.progress import Progress
from ..base.wording import number
from ..check.table import team_object
from .floorplan import take_floorplan
from .library_text import LOWER_CASE, Change, LibraryText
from .new_cells import NearPlace, near_nets_text, places_near_nets
from .preparation import Preparation, PreparationOptions, Stages, whole_units
from .cells import FenceGround, add_halos, adopt, fix, make_fences, split_patterns, strangers_in
from .skipped import Remark, line_of
from ..slice.splice import Spot, clause_of, clause_text, with_places_of
from .text_check import NOT_LEGAL, CheckResult, check

TOOL = "lefence-prepare"
_BOX_WORDS = ("X1", "Y1", "X2", "Y2")


def prepare(stages: Stages, wanted: PreparationOptions, libraries: list[bytes], site: str | None) -> None:
    """Makes the requested changes, except for adopted and new cells. Rows are made if the text has none."""
    if wanted.floorplan is not None:
        take_floorplan(stages, wanted.floorplan, wanted.floorplan_name)
    first = stages.next()
    if wanted.dropped_sites:
        first.drop_rows(wanted.dropped_sites)
    dropped = {name.encode(errors="surrogateescape") for name in wanted.dropped_sites}
    sites = {each.name: each for each in _usable_sites(libraries) if each.name not in dropped}
    is_plain = site is None and wanted.core is None and not wanted.margin
    if wanted.replaces_rows and is_plain and first.high_rows(sites):
        first.split_rows(sites)
    elif wanted.replaces_rows or not first.has_rows:
        first.add_rows(_core_site(libraries, site), wanted)
    elif site is not None and wanted.core is None and not wanted.margin:
        first.keep_site(_core_site(libraries, site), {each.name for each in _usable_sites(libraries)})
    elif site is not None or wanted.core is not None or wanted.margin:
        raise Fault(USAGE, "the DEF file has rows; --rows replaces them")
    if wanted.fillers:
        first.remove_fillers(wanted.fillers)
    if wanted.fixed:
        fix(stages.next(), wanted.fixed)
    if wanted.regions:
        make_fences(stages.next(), wanted.regions)
    if wanted.fences:
        stages.next().add_fences(wanted.fences)
    if wanted.groups:
        stages.next().add_groups(wanted.groups, list(wanted.fences))
    if wanted.splits_patterns:
        split_patterns(stages.next())
    if wanted.adds_halos:
        add_halos(stages.next(), libraries)


def _usable_sites(libraries: list[bytes]) -> list[Site]:
    """Lists the sites with CLASS CORE and a size. Of two with one name the first counts."""
    sites: dict[bytes, Site] = {}
    for library in libraries:
        for site in sites_of(library):
            sites.setdefault(site.name, site)
    return [site for site in sites.values() if site.is_core and site.width > 0 and site.height > 0]


def _core_site(libraries: list[bytes], name: str | None) -> Site:
    """Returns the named site, or the first one with CLASS CORE and a size."""
    usable = _usable_sites(libraries)
    wanted = [site for site in usable if name is None or site.name == name.encode(errors="surrogateescape")]
    if not wanted:
        found = ", ".join(shown(site.name) for site in usable) or "none"
        what = "a site" if name is None else f"a site {name}"
        raise Fault(REFUSED, f"no LEF file has {what} with CLASS CORE and a SIZE; found: {found}")
    return wanted[0]


def wanted_of(options: argparse.Namespace, units: int) -> PreparationOptions:
    """The requested changes of the command line, in database units."""
    margin = whole_units(options.margin, units) if options.margin else 0
    fences: dict[str, list[Box]] = {}
    for name, *corners in options.fence:
        fences.setdefault(name, []).append(_box(corners, units))
    groups: dict[str, list[str]] = {}
    for name, *patterns in options.group:
        if not patterns:
            raise Fault(USAGE, f"--group {name} names no component")
        groups.setdefault(name, []).extend(patterns)
    core = _box(options.core, units) if options.core else None
    return PreparationOptions(
        replaces_rows=options.rows,
        margin=margin,
        core=core,
        dropped_sites=options.drop_rows,
        fillers=options.fillers,
        fixed=options.fix,
        regions=options.as_fence,
        fences=fences,
        groups=groups,
        splits_patterns=options.longest_pattern,
        adds_halos=options.halos,
        adopting=options.adopt,
        floorplan=None if options.floorplan is None else _floorplan_text(options.floorplan),
        floorplan_name=str(options.floorplan),
    )


def _floorplan_text(path: Path) -> bytes:
    """Reads the text of a floorplan. Raises a Fault if it is not a complete DEF text."""
    return complete_design(path, path.read_bytes()).text


def _box(corners: list[str], units: int) -> Box:
    box = Box(*(whole_units(corner, units) for corner in corners))
    if box.width <= 0 or box.height <= 0:
        raise Fault(
            USAGE, f"{' '.join(corners)} is not a rectangle: {' '.join(_BOX_WORDS)} are left, bottom, right and top"
        )
    return box


def parser() -> Parser:
    made = Parser(
        TOOL,
        "Makes DEF and LEF files of a flow loadable: adds rows if there are none, adds fences and groups, removes\n"
        "fillers, fixes cells, and writes LEF files in the words that the program reads. All other bytes stay. A DEF\n"
        "file is written if the program can load it. Lengths are microns.",
        f"{TOOL} chip.def tech.lef cells.lef --look\n"
        f"{TOOL} chip.def tech.lef cells.lef --output ready.def --lef-output lef --fillers 'FILL*' \\\n"
        "    --fence A 0 0 100 50 --group A 'u1/*' 'u2/*'\n"
        f"{TOOL} placed.def lef/tech.lef lef/cells.lef --back chip.def --output chip_placed.def",
    )
    made.add_design()
    _add_outputs(made)
    _add_rows(made)
    _add_components(made)
    made.add_program()
    return made


def _add_outputs(made: Parser) -> None:
    add = made.add_argument
    add("-o", "--output", metavar="FILE", type=Path, help="write the prepared DEF file to FILE")
    add("--lef-output", metavar="FOLDER", type=Path, help="write the LEF files to FOLDER as the program reads them")
    add("--verbose", action="store_true", help="print each change of the LEF files, not each kind of change")
    add(
        "--look",
        action="store_true",
        help="print what the program skips in the DEF file and what may go wrong, and write nothing",
    )
    add("--json", action="store_true", help="with --look: print one JSON object")
    add(
        "--back",
        metavar="ORIGINAL",
        type=Path,
        help="DEF was prepared from ORIGINAL and then placed: write ORIGINAL with the places of DEF",
    )
    add("--force", action="store_true", help="write the DEF file even if it does not load")


def _add_rows(made: Parser) -> None:
    add = made.add_argument
    add(
        "--floorplan",
        metavar="FP.def",
        type=Path,
        help="take the rows, regions, groups, blockages and FIXED components of this DEF file",
    )
    add(
        "--rows",
        action="store_true",
        help="write rows with several sites upwards (BY 2) as single rows; if there are none, or with --site, --core or"
        " --margin, replace all rows",
    )
    add(
        "--site",
        metavar="NAME",
        help="the site of the new rows (default: the first one with CLASS CORE); if the DEF file has rows of it, remove"
        " those of other core sites",
    )
    add("--core", metavar=_BOX_WORDS, nargs=4, help="make the rows in this rectangle (default: DIEAREA)")
    add("--margin", metavar="M", help="the distance of the rows from the sides of the core (0)")
    add("--drop-rows", metavar="SITE", action="append", default=[], help="remove the rows of this site")


def _add_components(made: Parser) -> None:
    add = made.add_argument
    add_many = functools.partial(add, action="append", default=[])
    add_many(
        "--fillers", metavar="PATTERN", help="remove components by name or macro, for example FILL*; may be repeated"
    )
    add_many("--fix", metavar="PATTERN", help="make PLACED components FIXED, by name or macro")
    add("--halos", action="store_true", help="add a placement blockage around each FIXED component with a HALO")
    add_many("--as-fence", metavar="NAME", help="make a region without TYPE a fence")
    add_many("--fence", metavar=("NAME", *_BOX_WORDS), nargs=5, help="add a fence; repeat its name for more rectangles")
    add_many("--group", metavar=("NAME", "PATTERN"), nargs="+", help="bind components to the fence of this name")
    add(
        "--longest-pattern",
        action="store_true",
        help="where groups of two fences name a component, the longer pattern binds it",
    )
    add_many(
        "--adopt", metavar="FENCE", help="bind the cells inside this fence that no group names; it may be a pattern"
    )
    add(
        "--place-new",
        action="store_true",
        help="place each movable cell without a place near its nets, where a repair then finds a legal place",
    )


def main() -> int:
    options = parser().parse_args()

    def work() -> int:
        use_plain_files(options, "design", "libraries", "back", "floorplan")
        if options.look:
            return list_skipped(find_program(options.program), options)
        if options.json:
            raise Fault(USAGE, "--json needs --look")
        if options.output is None and options.lef_output is None:
            raise Fault(USAGE, "--output FILE or --lef-output FOLDER is missing; only --look needs none")
        if options.output is not None:
            refuse_inputs(options.output, (options.design, *options.libraries, *filter(None, (options.floorplan,))))
        if options.back is not None:
            return put_back(options)
        if options.lef_output is not None:
            options.libraries = write_libraries(options.lef_output, options.libraries, options.verbose)
        return prepare_design(options) if options.output is not None else DONE

    return run_tool(TOOL, work)


def prepare_design(options: argparse.Namespace) -> int:
    """Makes and checks the prepared DEF file, and writes it; returns the exit status."""
    program = find_program(options.program)
    text = options.design.read_bytes()
    refuse_no_design(options.design, text)
    stages = Stages(text)
    wanted = wanted_of(options, stages.next().units)
    prepare(stages, wanted, [path.read_bytes() for path in options.libraries], options.site)
    if wanted.adopting:
        stage = stages.next()
        adopt(stage, wanted.adopting, strangers_of(program, stage.text, options.libraries))
    if options.place_new:
        place_new(stages, program, options.libraries)
    for line in stages.messages:
        log(TOOL, line)
    text = stages.result()
    status = _report(program, stages, text, options, wanted)
    if status in (DONE, NOT_LEGAL) or options.force:
        with output_file(options.output) as file:
            file.write(text)
    else:
        log(TOOL, "nothing is written; --force writes it anyway")
    return status


def strangers_of(program: str, text: bytes, libraries: list[Path]) -> list[tuple[str, str]]:
    """Lists the cells of the ground team that are inside a fence, each with the fence."""
    with tempfile.NamedTemporaryFile(suffix=".def") as file:
        file.write(text)
        file.flush()
        show_as(file.name, "the prepared DEF file")
        with Description(program, Path(file.name), libraries) as description:
            ground = FenceGround(description.frame)
            return list(strangers_in(Progress(TOOL, "cells").over(description.cells()), ground))


def place_new(stages: Stages, program: str, libraries: list[Path]) -> None:
    """Places each movable cell without a place near its nets, and lists where; does nothing if the text is refused."""
    stage = stages.next()
    with tempfile.NamedTemporaryFile(suffix=".def") as file:
        file.write(stage.text)
        file.flush()
        try:
            with Description(program, Path(file.name), libraries) as description:
                cells = [cell for cell in Progress(TOOL, "cells").over(description.cells()) if cell.box is None]
                frame = description.frame
        except Fault as fault:
            # (the check of the prepared text says why it does not load)
            if fault.status != REFUSED:
                raise
            return
    names = {cell.name.encode() for cell in cells}
    texts = (path.read_bytes() for path in libraries)
    netlist = Netlist(Design(stage.text), texts, frame.facts.units, names)
    found = {name.encode(): near for name, near in places_near_nets(netlist, frame, cells).items()}
    for entry in stage.entries(b"COMPONENTS"):
        if (near := found.get(entry.name)) is not None:
            _place_near(stages, stage, entry, near)
    stage.messages.append(near_nets_text(len(cells), len(found)))


def _place_near(stages: Stages, stage: Preparation, entry: Entry, near: NearPlace) -> None:
    """Places a component near its nets, in the last stage."""
    x, y, orient = near.place
    start, stop, separator = clause_of(entry)
    clause = clause_text(Spot(x, y, orient.decode()))
    stage.replace(entry.start + start, entry.start + stop, clause + separator)
    line = stages.entry_line(entry)
    where = f"placed at ( {x} {y} ) {orient.decode()}, near {number(near.nets, 'net')}"
    stage.messages.append(f"{f'line {line}: ' if line else ''}component {shown(entry.name)} {where}")


def write_libraries(folder: Path, libraries: list[Path], is_verbose: bool) -> list[Path]:
    """Writes each LEF file into a folder, in the form that the program reads. It prints the kinds of changes of each
    file, or each change. Returns the new paths.
    """
    targets = [folder / path.name for path in libraries]
    if len(set(targets)) < len(targets):
        raise Fault(USAGE, "two LEF files have one name, so they cannot be written to one folder")
    folder.mkdir(parents=True, exist_ok=True)
    for path, target in zip(libraries, targets):
        refuse_inputs(target, libraries)
        library = LibraryText(path.read_bytes())
        for line in library_lines(library, is_verbose):
            log(TOOL, f"LEF file {path}, {line}")
        with atomic_file(target) as file:
            file.write(library.result())
    return targets


def library_lines(library: LibraryText, is_verbose: bool) -> list[str]:
    """Lists the changes of a LEF file with their lines: each of them, or the first one of each kind, with their number.
    Equal changes of words are a kind of their own.
    """
    changes = [change for change in sorted(library.changes) if change.text]
    if is_verbose:
        return [f"line {line_of(library.text, change.start)}: {change.text}" for change in changes]
    kinds: dict[str, list[Change]] = {}
    for change in changes:
        kinds.setdefault(change.text if change.kind == LOWER_CASE else change.kind, []).append(change)
    lines = []
    for first, *others in kinds.values():
        more = f", and {len(others)} more like it" if others else ""
        lines.append(f"line {line_of(library.text, first.start)}: {first.text}{more}")
    return lines


def put_back(options: argparse.Namespace) -> int:
    """Writes the original DEF file with the places of the prepared one; returns the exit status."""
    if options.output is None:
        raise Fault(USAGE, "--back needs --output FILE")
    placed, original = options.design.read_bytes(), options.back.read_bytes()
    refuse_no_design(options.design, placed)
    refuse_no_design(options.back, original)
    text, messages = with_places_of(original, placed)
    for line in messages:
        log(TOOL, line)
    with output_file(options.output) as file:
        file.write(text)
    return DONE


def list_skipped(program: str, options: argparse.Namespace) -> int:
    """Prints what the program skips in the text as it is, and what may go wrong."""
    prepares = vars(options).keys() - {"design", "libraries", "look", "json", "verbose", "program", "force"}
    if any(getattr(options, name) for name in prepares):
        raise Fault(USAGE, "--look cannot be combined with options that prepare or write a DEF file")
    text = options.design.read_bytes()
    refuse_no_design(options.design, text)
    result = check(TOOL, program, text, options.libraries, str(options.design))
    remarks = [*result.remarks]
    if not Preparation(text).has_rows:
        rows = "no ROW; a run with --output adds rows, --floorplan FP.def takes those of another DEF file"
        remarks.append(Remark("no rows", rows))
    status = result.status or (NOT_LEGAL if remarks else DONE)
    if options.json:
        print(json.dumps(_object_of(options.design, text, result, remarks, status)))
        return status
    lines = [_located(options.design, text, remark.place, remark.text) for remark in remarks]
    lines += [*result.lines, *result.table()]
    print(as_given("\n".join(lines)).encode("utf-8", "backslashreplace").decode())
    return status


def _object_of(path: Path, text: bytes, result: CheckResult, remarks: list[Remark], status: int) -> dict[str, object]:
    """Returns what `--look` finds as a JSON object. Its keys are:

    - `design`: the path; `status`: the exit status; `loads`: whether the program loads the text;
    - `remarks`: objects with `kind`, `line` (of the DEF file, or null) and `text`;
    - `messages`: what the program makes of the text, in words;
    - `teams` and `all`: counts, as lefence-check has them; null if the text does not load.
    """
    tally = result.tally
    return {
        "design": as_given(str(path)),
        "status": status,
        "loads": tally is not None,
        "remarks": [
            {
                "kind": remark.kind,
                "line": None if remark.place is None else line_of(text, remark.place),
                "text": as_given(remark.text),
            }
            for remark in remarks
        ],
        "messages": [as_given(line) for line in result.lines],
        "teams": None if tally is None else [team_object(team) for team in tally.teams.values()],
        "all": None if tally is None else team_object(tally.all),
    }


def _located(path: Path, text: bytes, place: int | None, message: str) -> str:
    """Adds the line of a place to a message."""
    return message if place is None else f"{path}, line {line_of(text, place)}: {message}"


def _report(
    program: str, preparation: Stages, text: bytes, options: argparse.Namespace, wanted: PreparationOptions
) -> int:
    """Prints the check of the prepared DEF file, with lines of the original text; returns the exit status."""
    result = check(TOOL, program, text, options.libraries, "the prepared DEF file")
    for remark in result.remarks:
        place = None if remark.place is None else preparation.position_before(remark.place)
        log(TOOL, _located(options.design, preparation.text, place, remark.text))
    for name in wanted.groups:
        if count := result.cells_of(name):
            log(TOOL, f"team {name} has {count} cells")
    for line in (*result.lines, *result.table()):
        log(TOOL, line)
    return result.status
