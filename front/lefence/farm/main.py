"""lefence-farm: runs the teams of a design on a farm, by Slurm, by LSF, or as processes of this machine."""

from __future__ import annotations

import argparse
import os
import re
import shlex
import subprocess
import sys
from concurrent.futures import ThreadPoolExecutor
from contextlib import ExitStack
from pathlib import Path
from typing import NamedTuple

from ..base.atomic_file import refuse_inputs
from ..base.design import Design, complete_design, map_file
from ..base.faults import DONE, FAILED, USAGE, Fault, Parser, log, run_tool
from ..base.input_files import kept_file, use_plain_files
from ..base.program import find_program
from ..journal.frames import sum_of
from .runs import TOOL, Plan, begin, collect, run_team, teams_of

_PACKAGE = Path(__file__).resolve().parents[2]


class Farm(NamedTuple):
    """A farm: the work folder, and the words for the engine.

    `most` is the most teams that run at once (0: as many as the engine allows); `waits` is whether to wait for the
    engine's last job.
    """

    work: Path
    words: list[str]
    most: int
    waits: bool


def task_words(work: Path, *words: str) -> list[str]:
    """The command line for a part of the work, on any machine that has the folder."""
    code = f"import sys; sys.path.insert(0, {str(_PACKAGE)!r}); from lefence.farm.main import main; sys.exit(main())"
    return [sys.executable, "-B", "-c", code, str(work), *words]


def _script(farm: Farm, name: str, *words: str, variable: str = "") -> Path:
    """Writes a script for a part of the work. The team's number is in a variable of the engine."""
    path = farm.work / name
    number = f' "${variable}"' if variable else ""
    path.write_text(f"#!/bin/sh\nexec {shlex.join(task_words(farm.work, *words))}{number}\n")
    path.chmod(0o755)
    return path


def ranges_of(numbers: list[int]) -> str:
    """Formats increasing numbers as an engine takes them, for example `1-4,7`: a command line has a limited length."""
    runs: list[list[int]] = []
    for number in numbers:
        if runs and runs[-1][-1] == number - 1:
            runs[-1][1:] = [number]
        else:
            runs.append([number])
    return ",".join("-".join(map(str, run)) for run in runs)


def local(farm: Farm, numbers: list[int]) -> int:
    """Runs the teams as processes of this machine, then collects their work."""

    running: list[subprocess.Popen[bytes]] = []

    def run(number: int) -> int:
        words = task_words(farm.work, "--task", str(number))
        with open(farm.work / str(number) / "log", "ab") as log_file:
            task = subprocess.Popen(words, stdin=subprocess.DEVNULL, stdout=log_file, stderr=subprocess.STDOUT)
        running.append(task)
        return task.wait()

    with ThreadPoolExecutor(farm.most or os.cpu_count() or 1) as pool:
        teams = Plan.load(farm.work).teams
        try:
            for number, status in zip(numbers, pool.map(run, numbers)):
                log(TOOL, f"team {teams[number - 1]}: {'done' if status == DONE else f'ended with {status}'}")
        except SystemExit:
            # (a signal has ended this process, but not those of the teams)
            pool.shutdown(wait=False, cancel_futures=True)
            for task in running:
                task.terminate()
            raise
    return collect(farm.work)


def slurm(farm: Farm, numbers: list[int]) -> int:
    """Submits a job array with a task for each team to Slurm, and a job that collects their work."""
    array = ranges_of(numbers) + (f"%{farm.most}" if farm.most else "")
    task = _script(farm, "task.sh", "--task", variable="SLURM_ARRAY_TASK_ID")
    last = _script(farm, "collect.sh", "--collect")
    common = ["sbatch", "--parsable", *farm.words]
    waits = []
    if numbers:
        log_of = str(farm.work / "%a" / "log")
        job = _submitted(
            [*common, f"--array={array}", "--requeue", "--open-mode=append", f"--output={log_of}", str(task)], r"(\d+)"
        )
        waits = [f"--dependency=afterany:{job}"]
    waits += ["--wait"] * farm.waits
    return _submit_last(farm, numbers, [*common, *waits, f"--output={farm.work / 'collect.log'}", str(last)], r"(\d+)")


def lsf(farm: Farm, numbers: list[int]) -> int:
    """Submits the same jobs to LSF."""
    array = f"lefence[{ranges_of(numbers)}]" + (f"%{farm.most}" if farm.most else "")
    task = _script(farm, "task.sh", "--task", variable="LSB_JOBINDEX")
    last = _script(farm, "collect.sh", "--collect")
    waits = []
    if numbers:
        job = _submitted(
            ["bsub", *farm.words, "-J", array, "-r", "-o", str(farm.work / "%I" / "log"), str(task)], r"Job <(\d+)>"
        )
        waits = ["-w", f"ended({job})"]
    waits += ["-K"] * farm.waits
    return _submit_last(
        farm, numbers, ["bsub", *farm.words, *waits, "-o", str(farm.work / "collect.log"), str(last)], r"Job <(\d+)>"
    )


def _submitted(words: list[str], pattern: str) -> str:
    """Submits a job; returns its number. Raises a Fault if the engine refuses it."""
    try:
        done = subprocess.run(words, stdin=subprocess.DEVNULL, capture_output=True, text=True)
    except FileNotFoundError:
        raise Fault(USAGE, f"{words[0]} is not installed; choose another --engine") from None
    found = re.search(pattern, done.stdout)
    if done.returncode or not found:
        raise Fault(FAILED, f"{words[0]} ended with {done.returncode}: {(done.stderr or done.stdout).strip()}")
    return found[1]


def _submit_last(farm: Farm, numbers: list[int], words: list[str], pattern: str) -> int:
    """Submits the last job. If it is waited for, prints its output and returns its status."""
    log_file = farm.work / "collect.log"
    if not farm.waits:
        end = _submitted(words, pattern)
        log(TOOL, f"{len(numbers)} teams are submitted; job {end} collects their work and reports in {log_file}")
        return DONE
    log(TOOL, f"{len(numbers)} teams are submitted; waiting for the job that collects their work")
    log_file.unlink(missing_ok=True)
    status = subprocess.run(words, stdin=subprocess.DEVNULL, stdout=subprocess.DEVNULL).returncode
    if not log_file.exists():
        raise Fault(FAILED, f"{words[0]} ended with {status}, and {log_file} is missing")
    sys.stderr.write(log_file.read_text(errors="backslashreplace"))
    return status


ENGINES = {"local": local, "slurm": slurm, "lsf": lsf}


def parser() -> Parser:
    made = Parser(
        TOOL,
        "Runs the teams of a design on a farm, each on its slice with a hub of its own on any machine. The\n"
        "journals are in WORK, which all machines share. COMMAND gets its team's socket as LEFENCE_SOCKET and the\n"
        "team's name as LEFENCE_TEAM. Without `-- COMMAND` each team is repaired, as by `lefence repair`. At the\n"
        "end the work of all teams is merged into one design. A second run repeats only the teams that failed.",
        f"{TOOL} work chip.def tech.lef cells.lef --engine slurm --option=--mem=2G -- python3 place.py",
    )
    add = made.add_argument
    add("work", metavar="WORK", type=Path, help="the work folder, shared by all machines; made if it is missing")
    add("texts", metavar="DEF LEF..", type=Path, nargs="*", default=[], help="the design, and its LEF files in order")
    add("--engine", choices=ENGINES, default="local", help="what runs the teams: this machine (local), Slurm or LSF")
    add("--processes", metavar="N", type=int, default=0, help="run at most N teams at once (local: one per processor)")
    add("--option", metavar="WORD", action="append", default=[], help="an argument for sbatch or bsub; may be repeated")
    add("--wait", action="store_true", help="wait for the last job of an engine, and end with its status")
    add("--export", metavar="FILE", type=Path, help="the final design (default: WORK/new.def)")
    add("--merge", action="store_true", help="merge the teams' slices into the DEF file, in little memory")
    add("--task", metavar="I", type=int, help="do the work of team number I of WORK, and nothing else")
    add("--collect", action="store_true", help="merge the work of the finished teams of WORK into one design")
    made.add_program()
    made.usage = f"{TOOL} [OPTION ..] WORK [DEF LEF ..] [-- COMMAND]"
    return made


def plan_of(options: argparse.Namespace, command: list[str], design: Design) -> Plan:
    """Makes the plan of a command line, with absolute paths."""
    texts = [str(path.resolve()) for path in options.texts]
    export = str((options.export or options.work / "new.def").resolve())
    teams = teams_of(design)
    return Plan(
        design=texts[0],
        libraries=texts[1:],
        sum=sum_of(options.texts[0]),
        library_sums=[sum_of(path) for path in options.texts[1:]],
        teams=teams,
        command=command,
        folder=os.getcwd(),
        program=find_program(options.program),
        export=export,
        is_merged=options.merge,
    )


def main() -> int:
    words = sys.argv[1:]
    at = words.index("--") if "--" in words else len(words)
    options = parser().parse_args(words[:at])
    command = words[at + 1 :]

    def work() -> int:
        if (options.collect or options.task is not None) and not (options.work / "farm.json").exists():
            raise Fault(FAILED, f"{options.work} is not a work folder of {TOOL}")
        options.work = options.work.resolve()
        if options.task is not None:
            return run_team(options.work, options.task)
        if options.collect:
            return collect(options.work)
        if len(options.texts) < 2:
            raise Fault(USAGE, "WORK DEF LEF... are needed")
        if options.export:
            refuse_inputs(options.export, options.texts)
        use_plain_files(options, "texts")
        with ExitStack() as stack:
            design = complete_design(options.texts[0], map_file(options.texts[0], stack))
            options.work.mkdir(parents=True, exist_ok=True)
            options.texts = [kept_file(path, options.work) for path in options.texts]
            plan = plan_of(options, command, design)
            begin(options.work, plan, design)
            del design
        numbers = plan.unfinished_numbers(options.work)
        log(TOOL, f"{len(numbers)} of {len(plan.teams)} teams have work to do")
        return ENGINES[options.engine](
            Farm(options.work, options.option, max(0, options.processes), options.wait), numbers
        )

    return run_tool(TOOL, work)
