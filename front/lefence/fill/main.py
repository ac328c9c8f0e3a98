"""lefence-fill: fills the free sites of the rows with filler cells, and removes them again."""

from __future__ import annotations

import argparse
import tempfile
from collections import Counter, defaultdict
from dataclasses import dataclass, field
from pathlib import Path

from ..base.atomic_file import output_file, refuse_inputs
from ..base.description import Box, Description, Frame
from ..base.design import TOKENS, refuse_no_design, shown
from ..base.faults import DONE, FAILED, REFUSED, USAGE, Fault, Parser, log, run_tool, show_as
from ..base.input_files import use_plain_files
from ..base.lef import sizes_of
from ..base.program import find_program
from ..base.progress import Progress
from ..base.protocol import GROUND
from ..base.wording import number
from .free_sites import FreeSites, FreeSpan
from ..prepare.preparation import Preparation, Section, whole, word_of
from ..prepare.cells import members_of

TOOL = "lefence-fill"
# The exit status if a gap remains, as of `lefence check` for a design that is not fully legal.
NOT_FILLED = 4
# The most components that the program loads.
_MOST_COMPONENTS = 4_000_000
# Sections that come after COMPONENTS in DEF 5.8.
_AFTER_COMPONENTS = tuple(b"PINS PINPROPERTIES BLOCKAGES SLOTS FILLS SPECIALNETS NETS SCANCHAINS GROUPS END".split())


class Masters:
    """The filler macros, widest first, by their number of sites; and how to fill a gap with them."""

    def __init__(self, widths: dict[str, int]) -> None:
        self.widths = dict(sorted(widths.items(), key=lambda item: (-item[1], item[0])))
        # For each number of sites: those that must remain free, and the master that comes first.
        self._best: list[tuple[int, str | None]] = [(0, None)]
        # From this number on the widest one comes first.
        widest = next(iter(self.widths.values()))
        self._large = 2 * widest * widest
        self._plans: dict[int, list[tuple[str, int]]] = {}

    def plan_of(self, sites: int) -> list[tuple[str, int]]:
        """Lists the masters that fill a gap, as `of_gap` does, each with its number of sites."""
        if (plan := self._plans.get(sites)) is None:
            plan = self._plans[sites] = [(name, self.widths[name]) for name in self.of_gap(sites)]
        return plan

    def of_gap(self, sites: int) -> list[str]:
        """Lists the masters that fill a gap with the fewest sites left, wider ones first where that makes no
        difference.
        """
        widest = next(iter(self.widths))
        names = [widest] * max(0, (sites - self._large) // self.widths[widest])
        sites -= len(names) * self.widths[widest]
        for count in range(len(self._best), sites + 1):
            found: tuple[int, str | None] = (count, None)
            for name, width in self.widths.items():
                if width <= count and self._best[count - width][0] < found[0]:
                    found = self._best[count - width][0], name
            self._best.append(found)
        while (master := self._best[sites][1]) is not None:
            names.append(master)
            sites -= self.widths[master]
        return names


@dataclass
class TeamFill:
    """The fillers of a team: their names, their number by masters, and the gaps and sites that remain free."""

    names: list[bytes] = field(default_factory=list)
    masters: Counter[str] = field(default_factory=Counter)
    gaps: int = 0
    sites: int = 0

    def in_words(self) -> str:
        """The counts."""
        masters = ", ".join(f"{count} {name}" for name, count in sorted(self.masters.items()))
        text = f"{number(len(self.names), 'filler')}{f' ({masters})' if masters else ''}"
        return text + (f"; {number(self.gaps, 'gap')} of {number(self.sites, 'site')} too small" if self.gaps else "")


def masters_of(names: list[str], libraries: list[bytes], frame: Frame) -> Masters:
    """Finds the masters in the LEF files. Raises a Fault if one is not one row high and whole sites wide."""
    facts, widths = frame.facts, {}
    # (of two macros with one name the first counts)
    macros = [macro for text in libraries for macro in sizes_of(text)]
    sizes = {name: (width, height) for name, width, height in reversed(macros)}
    for name in names:
        if (size := sizes.get(word_of(name).encode())) is None:
            raise Fault(REFUSED, f"no LEF file has a macro {name}")
        width, height = (whole(length * facts.units, f"macro {name}") for length in size)
        if height != facts.site_height or width <= 0 or width % facts.site_width:
            raise Fault(REFUSED, f"macro {name} is not one row high and a whole number of sites wide")
        widths[name] = width // facts.site_width
    return Masters(widths)


class Filling:
    """The fillers of a design."""

    def __init__(self, masters: Masters, prefix: str, taken: set[bytes], width: int) -> None:
        """Starts with no filler. `taken` are the names of components, `width` that of a site."""
        self.teams: defaultdict[str, TeamFill] = defaultdict(TeamFill)
        self.entries: list[bytes] = []
        self._masters = masters
        self._words = {name: name.encode() for name in masters.widths}
        self._prefix, self._taken = word_of(prefix).encode(), taken
        self._count = 0
        self._width = width

    def add(self, span: FreeSpan) -> None:
        """Fills a span."""
        team, x, width = self.teams[span.team], span.left, self._width
        end = b"%d ) %b ;" % (span.row.box.bottom, span.row.orient.encode())
        remaining = span.sites
        for master, sites in self._masters.plan_of(span.sites):
            name = self._next_name()
            self.entries.append(b"\n- %b %b + SOURCE DIST + PLACED ( %d %b" % (name, self._words[master], x, end))
            team.names.append(name)
            team.masters[master] += 1
            x += sites * width
            remaining -= sites
        if remaining:
            team.gaps += 1
            team.sites += remaining

    def _next_name(self) -> bytes:
        while True:
            self._count += 1
            if (name := b"%b%d" % (self._prefix, self._count)) not in self._taken:
                return name


def fill(options: argparse.Namespace) -> int:
    """Fills the design of the command line; returns the exit status."""
    program, text = find_program(options.program), options.design.read_bytes()
    refuse_no_design(options.design, text)
    names = [name for word in options.masters for name in word.split(",") if name]
    if not names:
        raise Fault(USAGE, "--masters names no macro")
    with Description(program, options.design, options.libraries) as description:
        frame = description.frame
        masters = masters_of(names, [path.read_bytes() for path in options.libraries], frame)
        if missing := [team for team in options.team if team not in frame.teams]:
            raise Fault(REFUSED, f"no team: {', '.join(missing)}")
        free = FreeSites(frame, options.off_soft)
        for cells in Progress(TOOL, "cells").over_lists(description.cell_lines()):
            for left_bottom, right_top, *_ in cells:
                if left_bottom:
                    free.take(Box(*map(int, left_bottom.split(b",")), *map(int, right_top.split(b","))))
        illegal = description.total.illegal
    preparation = Preparation(text)
    sections = [Section(text, statement) for statement in preparation.all_of(b"COMPONENTS")]
    taken = {component.name for section in sections for _, component in section.entries()}
    filling = Filling(masters, options.prefix, taken, frame.facts.site_width)
    for span in free.spans():
        if not options.team or span.team in options.team:
            filling.add(span)
    if len(taken) + len(filling.entries) > _MOST_COMPONENTS:
        raise Fault(REFUSED, f"{len(filling.entries)} fillers fit, and the program loads {_MOST_COMPONENTS} components")
    _add(preparation, filling)
    result = preparation.result()
    refuse_illegal(program, result, options.libraries, illegal)
    with output_file(options.output) as file:
        file.write(result)
    for name, team in filling.teams.items():
        log(TOOL, f"team {name}: {team.in_words()}")
    return NOT_FILLED if any(team.gaps for team in filling.teams.values()) else DONE


def _add(preparation: Preparation, filling: Filling) -> None:
    """Adds the fillers as components, and those of a fence to a group of it."""
    if filling.entries:
        preparation.add_entries(b"COMPONENTS", filling.entries, _AFTER_COMPONENTS)
    fences = {name: team for name, team in filling.teams.items() if name != GROUND and team.names}
    groups = {name: [each.decode() for each in team.names] for name, team in fences.items()}
    if groups:
        preparation.add_groups(groups, [])


def refuse_illegal(program: str, text: bytes, libraries: list[Path], illegal: int) -> None:
    """Has the program check the filled text. Raises a Fault if more cells break a rule than before."""
    with tempfile.NamedTemporaryFile(suffix=".def") as file:
        file.write(text)
        file.flush()
        show_as(file.name, "the filled DEF file")
        with Description(program, Path(file.name), libraries) as description:
            count, last = 0, (b"", b"")
            for cells in Progress(TOOL, "cells checked").over_lists(description.cell_lines()):
                if broken := [(cell[3], cell[5]) for cell in cells if cell[5]]:
                    count, last = count + len(broken), broken[-1]
    if count > illegal:
        raise Fault(FAILED, f"nothing is written: {shown(last[0])} would break rule {shown(last[1])}")


def remove(options: argparse.Namespace) -> int:
    """Removes fillers from the design of the command line; returns the exit status."""
    text, prefix = options.design.read_bytes(), word_of(options.prefix).encode()
    refuse_no_design(options.design, text)
    masters = {name.encode() for word in options.masters for name in word.split(",")}
    preparation = Preparation(text)
    removed = set[bytes]()
    for statement in preparation.all_of(b"COMPONENTS"):
        section, count = Section(text, statement), 0
        for start, entry in section.entries():
            if entry.name.startswith(prefix) and entry.words[1] in masters and entry.has(b"SOURCE"):
                removed.add(entry.name)
                preparation.remove(start, start + len(entry.text))
            else:
                count += 1
        preparation.replace(section.count, section.after_count, b"%d" % count)
    for statement in preparation.all_of(b"GROUPS"):
        _remove_from_groups(preparation, Section(text, statement), removed)
    with output_file(options.output) as file:
        file.write(preparation.result())
    log(TOOL, f"{number(len(removed), 'filler')} removed")
    return DONE


def _remove_from_groups(preparation: Preparation, section: Section, removed: set[bytes]) -> None:
    """Removes names from the groups of a section, and groups of no other names."""
    count = 0
    for start, group in section.entries():
        members = list(members_of(group))
        if members and removed.issuperset(members):
            preparation.remove(start, start + len(group.text))
            continue
        count += 1
        if removed.isdisjoint(members):
            continue
        tokens = list(TOKENS.finditer(group.text))[2 : 2 + len(members)]
        for token in tokens:
            if token[1] in removed:
                preparation.replace(start + token.start(), start + token.end(), b"")
    preparation.replace(section.count, section.after_count, b"%d" % count)


def parser() -> Parser:
    made = Parser(
        TOOL,
        "Fills the free sites of each team's rows with filler cells, widest first, in the row's orientation. Fillers\n"
        "in a fence join its group. The program checks the result before it is written. The status is 4 if a gap is\n"
        "too small for all masters.",
        f"{TOOL} chip.def tech.lef cells.lef --masters FILL8,FILL4,FILL1 --output filled.def\n"
        f"{TOOL} filled.def tech.lef cells.lef --masters FILL8,FILL4,FILL1 --remove --output chip.def",
    )
    made.add_design()
    add = made.add_argument
    add("-o", "--output", metavar="FILE", type=Path, required=True, help="write the DEF file to FILE")
    masters = "the filler macros, separated by commas; may be repeated"
    add("--masters", metavar="A,B,..", action="append", required=True, help=masters)
    add("--prefix", metavar="TEXT", default="FILLER_", help="the names of fillers are this and a number (FILLER_)")
    add("--team", metavar="NAME", action="append", default=[], help="fill only the rows of this team; may be repeated")
    add("--off-soft", action="store_true", help="leave soft blockages free")
    add("--remove", action="store_true", help="remove the fillers of these masters and this prefix instead")
    made.add_program()
    return made


def main() -> int:
    options = parser().parse_args()

    def work() -> int:
        use_plain_files(options, "design", "libraries")
        refuse_inputs(options.output, (options.design, *options.libraries))
        if options.remove and (options.team or options.off_soft):
            raise Fault(USAGE, "--remove cannot be combined with --team and --off-soft")
        return remove(options) if options.remove else fill(options)

    return run_tool(TOOL, work)
