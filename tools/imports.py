#!/usr/bin/env python3
"""Looks up the names that proofs, definitions and clauses import from specs/ and proofs/ of the repository's crates.
The prover finds a missing one too, but only once it comes to that crate: after a merge this takes a second.

usage: tools/imports.py    (from the top) prints each name that its file does not declare, and each file that is not
                           there, after the file that imports it; status 1 if there are any
"""

from __future__ import annotations

import re
import sys
from collections.abc import Iterator
from functools import lru_cache
from pathlib import Path

# An import of names from a file of specs/ or proofs/ of a crate.
IMPORT = re.compile(r"\buse Rattle\.(\w+)\.(specs|proofs)\.([\w.+]+)\.\{([^}]*)\}")
# Files that the prover makes: the types and the contracts of the code, and the goals of a function.
MADE = re.compile(r"(?:declared|contracts)\b|.*\bGoals$")
WORDS = r"(?:(?:abbrev|unfoldable|private|instance|pub|record|data|ruleset|syntax)\s+)*"
# A declared name at the start of a line, a constructor or a field, and the names that a file passes on.
DECLARED = re.compile(rf"^\s*{WORDS}([^\s:({{]+)\s*[:({{]|(?:\||\bpub)\s+([^\s:({{]+)", re.M)
PASSED_ON = re.compile(r"^pub use [\w.+]+\.\{([^}]*)\}", re.M)
USE = re.compile(r"^(?:pub )?(?:ghost )?use .*$", re.M)


@lru_cache(maxsize=None)
def declared(path: Path) -> frozenset[str]:
    """The names that a file declares or passes on."""
    text = path.read_text(encoding="utf-8")
    names = {name for found in PASSED_ON.findall(text) for name in found.replace(" ", "").split(",")}
    return frozenset(names | {name for pair in DECLARED.findall(USE.sub("", text)) for name in pair if name})


def sources() -> Iterator[Path]:
    """The files that import names."""
    for folder in sorted(Path("crates").iterdir()):
        for part, ending in (("src", "rt"), ("specs", "antt"), ("proofs", "antt")):
            yield from sorted((folder / part).rglob(f"*.{ending}"))


def lacking(path: Path) -> Iterator[str]:
    """The imports of a file that lead nowhere."""
    for crate, part, module, names in IMPORT.findall(path.read_text(encoding="utf-8")):
        if not Path("crates", crate).is_dir() or MADE.match(module):
            continue
        file = Path("crates", crate, part, *module.split(".")).with_suffix(".antt")
        if not file.exists():
            yield f"{file} is not there"
            continue
        for name in names.split(","):
            wanted = name.split(" as ")[0].strip()
            if wanted and wanted not in declared(file):
                yield f"{wanted} is not in {file}"


def main(words: list[str]) -> int:
    if words:
        print(__doc__, file=sys.stderr)
        return 2
    files = list(sources())
    faults = [f"{path}: {text}" for path in files for text in lacking(path)]
    print("\n".join([*faults, f"the imports of {len(files)} files looked up, {len(faults) or 'none'} nowhere"]))
    return 1 if faults else 0


if __name__ == "__main__":
    sys.exit(main(sys.argv[1:]))
