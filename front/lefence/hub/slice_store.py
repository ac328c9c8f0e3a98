"""The slices of a hub's design, one for each of its programs. They are kept next to the journal.

`JOURNAL.slices` has each slice as `SHA256.def`. Its file `index` has the texts and the program that they were made
with, the teams of each, and its own checksum. It is written last, after the program has read the same frame and the
same cells in the slices as in the whole design. Nothing is lost with the folder: the next start cuts the slices again.
"""

from __future__ import annotations

import asyncio
import contextlib
import hashlib
import os
import re
import sys
from collections.abc import Iterator
from concurrent.futures import ThreadPoolExecutor
from contextlib import ExitStack
from pathlib import Path
from typing import BinaryIO, NamedTuple
from urllib.parse import quote_from_bytes, unquote_to_bytes

from ..base.async_run import start_run
from ..base.atomic_file import atomic_file, sync_folder
from ..base.description import Description, Frame, TeamCells
from ..base.design import Design, map_file, shown
from ..base.faults import DONE, FAILED, REFUSED, Fault, run_tool
from ..base.program import Program
from ..base.protocol import GROUND
from ..base.slices import slices_of
from ..base.state_text import part_of
from ..journal.frames import sum_of
from ..journal.journal import Journal
from ..journal.segments import State

_TITLE = b"lefence-slices 2\n"
_SLICE = re.compile(rb"slice ([0-9a-f]{64}) (\d+)((?: [!-~]+)+)\n")
# The last line of the index: the SHA-256 of the lines before it.
_SUM = re.compile(rb"sum ([0-9a-f]{64})\n\Z")


class Slice(NamedTuple):
    """A slice: its file and SHA-256, its teams, and the number of their cells."""

    path: Path
    sum: str
    teams: frozenset[bytes]
    cells: int

    def refuse_change(self) -> None:
        """Raises a Fault if the file is not as it was written."""
        with contextlib.suppress(OSError):
            if sum_of(self.path) == self.sum:
                return
        raise Fault(FAILED, f"{self.path} has changed: the next start cuts the slices again")

    def part_of_state(self, state: State) -> tuple[BinaryIO, State]:
        """Returns what a saved state has of its teams, and the file with it, which is in memory: a full disk refuses no
        start. Its path is valid while the file is open. Raises OSError if there is no memory.
        """
        file = os.fdopen(os.memfd_create("lefence-state"), "w+b")
        try:
            with open(state.path, "rb") as lines:
                file.writelines(part_of(lines, self.teams))
            file.flush()
            path = Path(f"/proc/{os.getpid()}/fd/{file.fileno()}")
            return file, State(path, path.stat().st_size, sum_of(path))
        except BaseException:
            file.close()
            raise


class SliceTexts:
    """The slices of a design for a number of programs."""

    def __init__(self, journal: Journal, program: Program, teams: list[str]) -> None:
        """Makes the slices of a journal's design, given the program over the copies of its texts and all its teams."""
        self.folder = slices_folder(journal.path)
        self._teams = sorted(team.encode() for team in teams)
        self._journal = journal
        self._program = program

    def _key(self, count: int) -> bytes:
        """The first lines of the index of slices for this design, this program and `count` programs."""
        texts = "".join(f"text {text.sum}\n" for text in self._journal.header.texts)
        return f"program {self._journal.owner.program}\nprograms {count}\n{texts}".encode()

    async def get(self, count: int) -> list[Slice]:
        """Returns the slices for `count` programs or fewer; cuts them if they are not kept or were changed.

        Raises a Fault if the program reads something else in them than in the design, or if they cannot be written.
        """
        key = self._key(count)
        kept = await asyncio.to_thread(self._kept, key)
        return await self._cut(key, count) if kept is None else kept

    def _kept(self, key: bytes) -> list[Slice] | None:
        """Returns the kept slices, if they fit and are intact. Removes what else is in the folder."""
        with contextlib.suppress(OSError):
            found = self._found(key)
            kept = {"index", *(each.path.name for each in found or [])}
            for path in self.folder.iterdir():
                if path.name not in kept:
                    path.unlink()
            if found is not None and all(sum_of(each.path) == each.sum for each in found):
                return found
        return None

    async def _cut(self, key: bytes, count: int) -> list[Slice]:
        """Cuts the slices in a process of its own, whose memory is freed."""
        package = str(Path(__file__).resolve().parents[2])
        code = f"import sys; sys.path.insert(0, {package!r}); from {__name__} import main; sys.exit(main())"
        words = [str(self.folder), str(count), key.decode(), self._program.path, *map(str, self._program.texts)]
        run = await start_run([sys.executable, "-c", code, *words])
        try:
            if await run.wait() != DONE:
                raise await run.fault("the slices were not cut")
        finally:
            await run.kill()
        found = self._found(key)
        if found is None:
            raise Fault(FAILED, f"{self.folder}: the slices are gone, or lack a team")
        return found

    def _found(self, key: bytes) -> list[Slice] | None:
        """Returns the slices that the index names, none if one program serves all teams. Returns None if the index does
        not fit or is damaged, or if a team is not in exactly one slice. Raises OSError.
        """
        found = slices_in(self.folder, key)
        is_complete = not found or sorted(team for each in found for team in each.teams) == self._teams
        return found if is_complete else None


def slices_folder(journal: Path) -> Path:
    """The folder with the slices of a journal's design."""
    return Path(os.path.realpath(journal) + ".slices")


def slices_in(folder: Path, key: bytes) -> list[Slice] | None:
    """Reads the index of a folder; returns the slices that it names, or None if it does not fit or is damaged.

    Raises OSError if it cannot be read.
    """
    text = (folder / "index").read_bytes()
    end = _SUM.search(text)
    if not end or _sum_line(text[: end.start()]) != end[0] or not text.startswith(_TITLE + key):
        return None
    found = []
    for total, cells, names in _SLICE.findall(text, len(_TITLE + key)):
        teams = frozenset(unquote_to_bytes(name) for name in names.split())
        found.append(Slice(folder / f"{total.decode()}.def", total.decode(), teams, int(cells)))
    return found


def divided(counts: dict[str, int], most: int) -> list[list[str]]:
    """Divides teams into groups, by their numbers of cells: the largest first, each to the group with the fewest cells.

    There are at most `most` groups, and no group without cells.
    """
    count = max(1, min(most, sum(cells > 0 for cells in counts.values())))
    groups: list[list[str]] = [[] for _ in range(count)]
    totals = [0] * count
    for team in sorted(counts, key=lambda team: -counts[team]):
        number = totals.index(min(totals))
        groups[number].append(team)
        totals[number] += counts[team]
    return groups


def cut_slices(folder: Path, key: bytes, count: int, program: str, texts: list[Path]) -> None:
    """Cuts the slices of a design for `count` programs or fewer, and writes them and their index.

    Raises a Fault, and writes no index, if the program reads another frame or other cells in them.
    """
    folder.mkdir(mode=0o700, exist_ok=True)
    (folder / "index").unlink(missing_ok=True)
    with ExitStack() as stack, Description(program, texts[0], texts[1:]) as whole:
        design = Design(map_file(texts[0], stack))
        cells = whole.cells_by_team()
        names = {shown(team): team for team in [*design.fences, GROUND.encode()]}
        if not names.keys() >= cells.keys():
            raise Fault(REFUSED, "the program reads other teams than are in the DEF text")
        counts = {team: cells[team].number if team in cells else 0 for team in names}
        groups = divided(counts, count)
        found: list[Slice] = []
        if len(groups) > 1:
            teams = [[names[team] for team in group] for group in groups]
            for group, pieces in zip(groups, slices_of(design, [*teams])):
                path, total = _write(folder / f"{len(found)}.partial", pieces)
                members = frozenset(names[team] for team in group)
                found.append(Slice(path, total, members, sum(counts[team] for team in group)))
    libraries = texts[1:]
    with ThreadPoolExecutor(len(found) or 1) as pool:
        for each in pool.map(lambda part: _difference(program, part, libraries, whole.frame, cells), found):
            if each is not None:
                raise Fault(REFUSED, each)
    _write_index(folder, key, found)


def _difference(
    program: str, part: Slice, libraries: list[Path], frame: Frame, cells: dict[str, TeamCells]
) -> str | None:
    """Describes how the program reads a slice otherwise than the whole design; None if it reads it the same."""
    with Description(program, part.path, libraries) as description:
        if description.frame != frame:
            return "the program reads another frame in a slice than in the whole design"
        found = description.cells_by_team()
    own = {team: cells[team] for team in map(shown, part.teams) if team in cells}
    if found == own:
        return None
    team = next(team for team in sorted({*own, *found}) if own.get(team) != found.get(team))
    return f"the program reads other cells of team {team} in a slice than in the whole design"


def _write(path: Path, pieces: Iterator[bytes]) -> tuple[Path, str]:
    """Writes a slice under the name of its SHA-256, on the disk; returns its path and its SHA-256."""
    total = hashlib.sha256()
    with open(path, "wb") as file:
        for piece in pieces:
            total.update(piece)
            file.write(piece)
        file.flush()
        os.fsync(file.fileno())
    path.chmod(0o400)
    return path.replace(path.with_name(f"{total.hexdigest()}.def")), total.hexdigest()


def _write_index(folder: Path, key: bytes, found: list[Slice]) -> None:
    sync_folder(folder)
    with atomic_file(folder / "index", 0o600) as file:
        text = _TITLE + key
        for each in found:
            names = b"".join(b" " + quote_from_bytes(team).encode() for team in sorted(each.teams))
            text += b"slice %b %d%b\n" % (each.sum.encode(), each.cells, names)
        file.write(text + _sum_line(text))


def _sum_line(text: bytes) -> bytes:
    """The last line of an index whose other lines are these."""
    return b"sum %b\n" % hashlib.sha256(text).hexdigest().encode()


def main() -> int:
    """Cuts the slices for which this process was started."""
    folder, count, key, program, *texts = sys.argv[1:]

    def work() -> int:
        cut_slices(Path(folder), key.encode(), int(count), program, [Path(text) for text in texts])
        return DONE

    return run_tool("lefence", work)
