"""The work folder of a farm: which teams have work to do, one team's work on its slice, and the collected design.

`WORK/farm.json` is the plan. Team number I, from 1, has the folder `WORK/I` with these files:
- `slice.def`, its part of the design;
- the `journal` of a hub over it, with copies of its design until the team is done, or the `lines` of a repair;
- `new.def` with its committed places;
- `log`;
- finally `done`, or `failed` with the reason.

Machines exchange only these files.
"""

from __future__ import annotations

import contextlib
import json
import os
import shutil
import signal
import subprocess
import sys
import tempfile
import time
from collections.abc import Iterator
from dataclasses import asdict, dataclass
from pathlib import Path
from types import FrameType
from typing import BinaryIO

from ..base.atomic_file import atomic_file, output_file
from ..base.design import Design, shown
from ..base.faults import DONE, FAILED, REFUSED, USAGE, Fault, log, reason_of
from ..base.program import Program
from ..base.progress import Progress
from ..base.protocol import GROUND, socket_name
from ..base.slices import slices_of
from ..client.blocking import connect
from ..journal.frames import sum_of
from ..journal.texts import texts_folder
from .merge import merge
from ..push.records import Record, is_recorded_reply, records_of

TOOL = "lefence-farm"
# The exit status if the design lacks the work of some team.
INCOMPLETE = 4
_MARK = b"# a slice of the text %b\n"
# Seconds between two checks whether a hub serves.
_POLL = 0.05
# The engine has limits of its own, so those of the hub are far away: for its end, and for a command before its first
# session.
_HUB_OPTIONS = ("--grace", "1e7", "--idle", "1e7", "--keep", "0")


@dataclass
class Plan:
    """The plan of a farm: the design's files, the SHA-256 of the DEF file and of each LEF file, the teams, and the
    command with its folder.

    Without a command, each team is repaired.
    """

    design: str
    libraries: list[str]
    sum: str
    library_sums: list[str]
    teams: list[str]
    command: list[str]
    folder: str
    program: str
    export: str
    is_merged: bool

    def save(self, work: Path) -> None:
        with atomic_file(work / "farm.json") as file:
            file.write(json.dumps(asdict(self), indent=1).encode())

    @staticmethod
    def load(work: Path) -> Plan:
        path = work / "farm.json"
        try:
            return Plan(**json.loads(path.read_bytes()))
        except (TypeError, ValueError):
            raise Fault(
                REFUSED, f"{path} is not a plan of this version of {TOOL}: use another folder, or remove {work}"
            ) from None

    def unfinished_numbers(self, work: Path) -> list[int]:
        """The numbers of the teams that are not done."""
        return [at for at in range(1, len(self.teams) + 1) if not (work / str(at) / "done").exists()]

    def refuse_changed_design(self) -> None:
        """Raises a Fault if the DEF file or a LEF file has changed since the slices were made."""
        paths, sums = [self.design, *self.libraries], [self.sum, *self.library_sums]
        for path, its_sum in zip(paths, sums, strict=True):
            if sum_of(Path(path)) != its_sum:
                raise Fault(REFUSED, f"{path} has changed since the slices were made")

    def is_of_design(self, other: Plan) -> bool:
        """Whether two plans are of one DEF text and the same LEF texts."""
        return (self.sum, self.library_sums) == (other.sum, other.library_sums)


def teams_of(design: Design) -> list[str]:
    """Lists the teams of a design: those of its fences, then the ground team."""
    return [*map(shown, design.fences), GROUND]


def begin(work: Path, plan: Plan, design: Design) -> None:
    """Makes a folder with a slice for each team. Raises a Fault if the folder is of another design."""
    if (work / "farm.json").exists() and not Plan.load(work).is_of_design(plan):
        raise Fault(REFUSED, f"{work} is of another design than {plan.design}: use another folder, or remove it")
    names = [os.fsencode(team) for team in plan.teams]
    missing = [at for at in range(1, len(names) + 1) if not (work / str(at) / "slice.def").exists()]
    for at, text in zip(missing, slices_of(design, [[names[at - 1]] for at in missing]), strict=True):
        (work / str(at)).mkdir(parents=True, exist_ok=True)
        with atomic_file(work / str(at) / "slice.def") as file:
            file.write(_MARK % plan.sum.encode())
            file.writelines(text)
    plan.save(work)


def run_team(work: Path, number: int) -> int:
    """Does the work of one team: the command with a hub over the slice, or a repair. Keeps the result in `done` or
    `failed`.
    """
    plan, folder = Plan.load(work), work / str(number)
    if not 1 <= number <= len(plan.teams):
        raise Fault(USAGE, f"{work} has no team number {number}: they are 1 to {len(plan.teams)}")
    if (folder / "done").exists():
        return DONE
    (folder / "failed").unlink(missing_ok=True)
    try:
        signal.signal(signal.SIGTERM, _end_by_signal)
        refuse_foreign_slice(folder, plan)
        (_run_command if plan.command else _repair)(plan, folder, plan.teams[number - 1])
    except (Fault, OSError) as fault:
        reason = reason_of(fault)
        (folder / "failed").write_text(f"{reason}\n", errors="backslashreplace")
        raise Fault(
            fault.status if isinstance(fault, Fault) else FAILED, f"team {plan.teams[number - 1]}: {reason}"
        ) from None
    with atomic_file(folder / "done") as file:
        file.write(b"done\n")
    _remove_texts(folder / "journal")
    return DONE


def _end_by_signal(number: int, frame: FrameType | None) -> None:
    raise Fault(FAILED, f"ended by signal {number}")


def refuse_foreign_slice(folder: Path, plan: Plan) -> None:
    """Raises a Fault if the slice is of another design than the plan."""
    mark = _MARK % plan.sum.encode()
    with open(folder / "slice.def", "rb") as file:
        if file.read(len(mark)) != mark:
            raise Fault(REFUSED, f"{folder / 'slice.def'} is a slice of another design")


def _repair(plan: Plan, folder: Path, team: str) -> None:
    """Repairs the team on its slice. Raises a Fault if a cell remains unrepaired."""
    program = Program(plan.program, [folder / "slice.def", *map(Path, plan.libraries)])
    total = program.repair(
        [f"--team={team}"], folder / "lines", folder / "new.def", Progress(TOOL, "the program repairs")
    )[-1]
    print(json.dumps(total), flush=True)
    if total["left_cells"]:
        raise Fault(INCOMPLETE, f"{total['left_cells']} cells remain unrepaired")


def _run_command(plan: Plan, folder: Path, team: str) -> None:
    """Runs the command with a hub over the slice. Raises a Fault if it fails.

    The command gets the team's socket as LEFENCE_SOCKET and its name as LEFENCE_TEAM. The engine runs a task on one
    machine at a time, so a hub of another machine that has not ended the journal is gone.
    """
    (folder / "lines").unlink(missing_ok=True)
    words = ["--team", team, "--journal", str(folder / "journal"), "--takeover", "--export", str(folder / "new.def")]
    with _hub(plan, folder / "slice.def", words, socket_name(team)) as socket:
        environment = {**os.environ, "LEFENCE_SOCKET": str(socket), "LEFENCE_TEAM": team, "LEFENCE_WORK": str(folder)}
        with subprocess.Popen(plan.command, cwd=plan.folder, env=environment, stdin=subprocess.DEVNULL) as command:
            try:
                status = command.wait()
            except BaseException:
                command.terminate()
                raise
    if status:
        raise Fault(status if 0 < status < 128 else FAILED, f"the command ended with {status}")


@contextlib.contextmanager
def _hub(plan: Plan, design: Path, words: list[str], name: str) -> Iterator[Path]:
    """Runs a hub over a design, with a local socket of this name. At the end of the block it exports and ends."""
    code = "import sys; from lefence.hub.main import main; sys.exit(main())"
    path = os.pathsep.join([str(Path(__file__).resolve().parents[2]), *filter(None, [os.environ.get("PYTHONPATH")])])
    with tempfile.TemporaryDirectory(prefix="lefence-farm") as folder:
        command = [
            sys.executable,
            "-c",
            code,
            str(design),
            *plan.libraries,
            "--program",
            plan.program,
            *_HUB_OPTIONS,
            "--sockets",
            folder,
            *words,
        ]
        with subprocess.Popen(command, env={**os.environ, "PYTHONPATH": path}, stdin=subprocess.DEVNULL) as hub:
            try:
                _wait_served(hub, Path(folder) / name)
                yield Path(folder) / name
            finally:
                hub.terminate()
                hub.wait()
    if hub.returncode:
        raise Fault(
            hub.returncode if hub.returncode in (1, 2, 3) else FAILED,
            f"the hub over {design} ended with {hub.returncode}",
        )


def _wait_served(hub: subprocess.Popen[bytes], socket: Path) -> None:
    """Waits until somebody listens at the socket. Raises a Fault if the hub ends before."""
    while hub.poll() is None:
        with contextlib.suppress(OSError):
            connect(socket).close()
            return
        time.sleep(_POLL)
    raise Fault(
        hub.returncode if hub.returncode in (1, 2, 3) else FAILED,
        f"the hub did not start: it ended with {hub.returncode}",
    )


def collect(work: Path) -> int:
    """Collects the work of all finished teams into one design, and lists the others."""
    plan = Plan.load(work)
    plan.refuse_changed_design()
    unfinished = set(plan.unfinished_numbers(work))
    done = [number for number in range(1, len(plan.teams) + 1) if number not in unfinished]
    for number in done:
        refuse_foreign_slice(work / str(number), plan)
    for number in sorted(unfinished):
        failure = work / str(number) / "failed"
        reason = failure.read_text().strip() if failure.exists() else "it did not end"
        log(TOOL, f"team {plan.teams[number - 1]} is missing: {reason}; see {work / str(number) / 'log'}")
    if plan.is_merged:
        _merge(work, plan, done)
    else:
        with output_file(Path(plan.export)) as file:
            _answer(work, plan, done, file)
    log(TOOL, f"{plan.export}: the work of {len(done)} of {len(plan.teams)} teams")
    return INCOMPLETE if unfinished else DONE


def _merge(work: Path, plan: Plan, done: list[int]) -> None:
    with output_file(Path(plan.export)) as file:
        count = merge(Path(plan.design), [work / str(number) / "new.def" for number in done], file)
    log(TOOL, f"merged {count} components of the teams' slices")


def _answer(work: Path, plan: Plan, done: list[int], output: BinaryIO) -> None:
    """Has the program answer the teams' lines on the whole design, and writes its export.

    Raises a Fault at the first reply that differs from the one on the slice.
    """
    program = Program(plan.program, [Path(plan.design), *map(Path, plan.libraries)])
    lines = (line + b"\n" for number in done for _, line, _ in _records_in(work / str(number)))
    with tempfile.TemporaryDirectory(prefix="whole", dir=work) as folder, tempfile.TemporaryFile() as replies:
        exported = Path(folder) / "new.def"
        program.answer(lines, replies, exported)
        replies.seek(0)
        for number in done:
            count = 0
            for count, line, recorded in _records_in(work / str(number)):
                reply = replies.readline()
                if not is_recorded_reply(reply, recorded):
                    answers = f"{shown(recorded).strip()!r}, and on the whole design {shown(reply).strip()!r}"
                    differs = f"line {count}, {shown(line)!r}, was answered {answers}"
                    raise Fault(REFUSED, f"team {plan.teams[number - 1]}: {differs}")
            log(TOOL, f"team {plan.teams[number - 1]}: {count} lines answered as on its slice")
        with open(exported, "rb") as file:
            shutil.copyfileobj(file, output)


def _records_in(folder: Path) -> Iterator[Record]:
    """The commands of a finished team, and their replies."""
    return records_of(folder / "lines" if (folder / "lines").exists() else folder / "journal")


def _remove_texts(journal: Path) -> None:
    """Removes a journal's copies of the design; no hub will continue it."""
    shutil.rmtree(texts_folder(journal), ignore_errors=True)
