#!/usr/bin/env python3
"""Prints the folder in which ./test lets the provers put their temporary files.

usage: tools/temp_space.py

It is the folder in memory, if programs may run there and it has room for all files next to the checks themselves;
otherwise the usual one. Each check writes up to 400 MB of small files there. Proofs take another 6 GB of disk.
"""

from __future__ import annotations

import os
import subprocess
import tempfile
from pathlib import Path

from jobs import CHECK, memory, parallel_checks

IN_MEMORY = Path("/dev/shm")
# The most bytes that a check uses of it, with the folder that its must-fail edits share.
FILES = 1_000_000_000


def holds_programs(folder: Path) -> bool:
    """Whether programs may be run there."""
    try:
        with tempfile.TemporaryDirectory(dir=folder) as name:
            program = Path(name) / "program"
            program.write_text("#!/bin/sh\n", encoding="ascii")
            program.chmod(0o755)
            return subprocess.run([program], check=False).returncode == 0
    except OSError:
        return False


def has_room(folder: Path, checks: int) -> bool:
    """Whether the files of this number of checks fit into it, and into memory next to the checks."""
    try:
        found = os.statvfs(folder)
    except OSError:
        return False
    return found.f_bavail * found.f_frsize >= checks * FILES and memory() >= checks * (CHECK + FILES)


def temp_space() -> str:
    if has_room(IN_MEMORY, parallel_checks()) and holds_programs(IN_MEMORY):
        return str(IN_MEMORY)
    return tempfile.gettempdir()


if __name__ == "__main__":
    print(temp_space())
