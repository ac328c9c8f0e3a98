#!/usr/bin/env python3
"""Plants the wrong bodies that contracts allow, and checks that the named black-box test fails on each.

usage: tools/planted.py [--together] [NAME..]    those of tests/planted/NAME.edit, or all

A planted body gives up, or calls the system differently, where no clause can forbid it. An edit has a line `test:`, a
line `file:`, and pairs of lines `old:` and `new:`. The committed tree is tried on a copy. The program is built unproved
(`rt try`), first unchanged, and then with each edit. All the tests must pass on the unchanged program. A build takes
about two minutes. It prints a line for each edit. The last line is `N refused, M survived`, and the status is 0 if and
only if no edit survived.

With --together edits of different tests and lines are built together, which takes a few builds in all. An edit that
survives then certainly does; a test that fails may fail because of another edit of its build.
"""

from __future__ import annotations

import signal
import subprocess
import sys
import tempfile
from dataclasses import dataclass
from pathlib import Path

from unproved import build

TOP = Path(__file__).resolve().parent.parent
EDITS = "tests/planted"
# Where the tests expect the program.
PROGRAM = "crates/lefence/out/lefence"


@dataclass(frozen=True)
class Edit:
    """A wrong body: the test that must fail on it, the file, and the replacements in it."""

    name: str
    test: str
    file: str
    changes: tuple[tuple[str, str], ...]


def edit_of(path: Path) -> Edit:
    fields = [line.split(": ", 1) for line in path.read_text().splitlines()]
    (test,), (file,) = ([value for key, value in fields if key == wanted] for wanted in ("test", "file"))
    olds, news = ([value for key, value in fields if key == wanted] for wanted in ("old", "new"))
    return Edit(path.stem, test, file, tuple(zip(olds, news, strict=True)))


def plant(room: Path, edit: Edit) -> None:
    """Writes the wrong body into its file."""
    path = room / edit.file
    text = path.read_text()
    for old, new in edit.changes:
        if text.count(old) != 1:
            sys.exit(f"tools/planted.py: {edit.name}: this text is not exactly once in {edit.file}: {old}")
        text = text.replace(old, new)
    path.write_text(text)


def agree(one: Edit, other: Edit) -> bool:
    """Whether one program can have both: they have different tests, and change no line twice."""
    lines = {(one.file, old) for old, _ in one.changes} & {(other.file, old) for old, _ in other.changes}
    return one.test != other.test and not lines


def groups_of(edits: list[Edit], together: bool) -> list[list[Edit]]:
    """The edits of each build."""
    groups: list[list[Edit]] = []
    for edit in edits:
        room = [group for group in groups if together and all(agree(edit, other) for other in group)]
        if room:
            room[0].append(edit)
        else:
            groups.append([edit])
    return groups


def passes(room: Path, test: str) -> bool:
    ran = subprocess.run([sys.executable, "-B", "-m", "unittest", test], cwd=room / "tests", capture_output=True)
    return ran.returncode == 0


def survivors(room: Path, folder: Path, group: list[Edit]) -> int:
    """Builds the program with these edits, and takes them back. Returns the number of those whose tests pass."""
    before = {room / edit.file: (room / edit.file).read_text() for edit in group}
    for edit in group:
        plant(room, edit)
    build(room, folder, room / PROGRAM)
    survived = 0
    for edit in group:
        is_refused = not passes(room, edit.test)
        survived += not is_refused
        print(f"{edit.name}: {'refused' if is_refused else 'SURVIVED'} by {edit.test}", flush=True)
    for path, text in before.items():
        path.write_text(text)
    return survived


def main(words: list[str]) -> int:
    together = words[:1] == ["--together"]
    names = words[together:]
    if any(name.startswith("-") for name in names):
        print(__doc__, file=sys.stderr)
        return 2
    with tempfile.TemporaryDirectory(prefix="lefence-planted-") as name:
        room, folder = Path(name, "tree"), Path(name, "built")
        room.mkdir()
        folder.mkdir()
        packed = subprocess.run(["git", "-C", str(TOP), "archive", "HEAD"], check=True, capture_output=True).stdout
        subprocess.run(["tar", "-x", "-C", str(room)], check=True, input=packed)
        edits = [edit_of(path) for path in sorted((room / EDITS).glob("*.edit")) if not names or path.stem in names]
        build(room, folder, room / PROGRAM)
        for test in sorted({edit.test for edit in edits}):
            if not passes(room, test):
                sys.exit(f"tools/planted.py: fails on the program as it is: {test}")
        survived = sum(survivors(room, folder, group) for group in groups_of(edits, together))
    print(f"{len(edits) - survived} refused, {survived} survived")
    return 1 if survived else 0


if __name__ == "__main__":
    # (the copy is removed on a signal too)
    signal.signal(signal.SIGTERM, lambda number, _: sys.exit(128 + number))
    sys.exit(main(sys.argv[1:]))
