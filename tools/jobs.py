#!/usr/bin/env python3
"""Prints how many checks the kit should run in parallel: the default of RT_JOBS in ./test and ./lefence.

usage: tools/jobs.py

It is one check for each available processor, as far as free memory allows. The kit itself plans three times the memory
that our checks take. It would therefore delay the crates on which most others depend, and run small ones first.
"""

from __future__ import annotations

import os
from pathlib import Path

# The memory of one of our checks, in bytes: most take less, the largest 5.3 GB (docs/ARCHITECTURE.md, Testing).
CHECK = 3_200_000_000
GROUP = Path("/sys/fs/cgroup")


def number_in(file: Path, at: int = 0) -> int | None:
    """The number at position `at` in the file's first line; None if there is no such file or number."""
    try:
        return int(file.read_text(encoding="ascii").split("\n", 1)[0].split()[at])
    except (OSError, ValueError, IndexError):
        return None


def processors() -> int:
    """The number of processors that the process may use, limited by the quota of its control group."""
    found = len(os.sched_getaffinity(0))
    quota, period = number_in(GROUP / "cpu.max"), number_in(GROUP / "cpu.max", 1)
    return min(found, max(quota // period, 1)) if quota and period else found


def memory() -> int:
    """The free memory in bytes, limited by the control group."""
    rows = dict(line.split(":", 1) for line in Path("/proc/meminfo").read_text(encoding="ascii").splitlines())
    free = 1024 * int(rows["MemAvailable"].split()[0])
    limit, held = number_in(GROUP / "memory.max"), number_in(GROUP / "memory.current")
    return min(free, limit - held) if limit is not None and held is not None else free


def parallel_checks() -> int:
    """The number of checks to run in parallel."""
    return max(1, min(processors(), memory() // CHECK))


if __name__ == "__main__":
    print(parallel_checks())
