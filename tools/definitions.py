#!/usr/bin/env python3
"""Prints each definition of the crates' specs/ with the comment above it, as Markdown, crate by crate and file by file.
The definitions that public clauses of any crate reach come first, and then those used only inside the crate.

usage: tools/definitions.py             (from the top) to standard output
       tools/definitions.py --unused    each definition and lemma of the files of specs/ and proofs/ that nothing names:
                                        its name is in no other file, and in its own file only in itself and in
                                        imports; status 1 if there is one
"""

from __future__ import annotations

import os
import re
import sys
from collections.abc import Iterator
from typing import NamedTuple

HEAD = """# Definitions

Each definition that contracts cite, with its meaning, file by file. The title line of a file names the section of the
LEF/DEF 5.8 Language Reference that it follows, if there is one. A name with a capital is a fact, one without is a
value. Definitions without a line of their own are cases of the one above or below them. The definitions that clauses of
public functions and types reach come first in each crate. Those that only private clauses use come next, under
'inside'.
"""
# The first line of a declaration with a keyword, and of any declaration: `abbrev pub NAME : ..`, or `NAME : ..` alone.
START = re.compile(r"(?:(?:abbrev|unfoldable|pub|record|data|ruleset|infix[lr]? +\d+) +)+(?!mod )([^\s:({]+)")
SIGNATURE = re.compile(r"([^\s:({]+) :(?:\s|$)")
# A line that imports names, of a .antt file or a .rt file.
IMPORT = re.compile(r"\s*(?:pub |ghost )?(?:use|mod) ")
WORD = re.compile(r"[^\s(){}\[\],;:.`]+")
# (a comment does not begin within a string)
TEXT = r'"(?:\\.|[^"\\\n])*"'
COMMENT = {".rt": re.compile(TEXT + r"|//.*"), ".antt": re.compile(TEXT + r"|--.*")}
CLAUSES = re.compile(r"^ *pub (?:const )?fn .*?\n *\{\n|^ *pub fn [^{]*\{\}|^ *pub fn .*?^\{\}", re.S | re.M)
TYPES = re.compile(r"ghost (?:\w+): \{.*?\n|ghost (?:Value|view) = \{.*?\n")


class Definition(NamedTuple):
    name: str
    # The comment above it.
    said: str
    text: str


class Module(NamedTuple):
    """A file of a crate's specs/: its name, its title, and its definitions in order."""

    name: str
    title: str
    definitions: list[Definition]


class Words(NamedTuple):
    """The words of a file: those of its imports, and those of each declaration; '' has all others."""

    imported: set[str]
    declared: dict[str, set[str]]


def text_of(path: str) -> str:
    with open(path, encoding="utf-8") as file:
        return file.read()


def crates() -> Iterator[str]:
    """The crates of crates.txt that have definitions."""
    for line in text_of("crates.txt").splitlines():
        line = line.split("#")[0].strip()
        if line:
            name = line.split(":")[0].split()[0]
            if os.path.isdir(f"crates/{name}/specs"):
                yield name


def files(folder: str, ending: str) -> Iterator[str]:
    """The paths of the files below a folder, without generated ones."""
    for path, folders, names in os.walk(folder):
        folders[:] = sorted(name for name in folders if name != "out")
        for name in sorted(names):
            if name.endswith(ending):
                yield os.path.join(path, name)


def order(crate: str) -> Iterator[str]:
    """The files of a crate's specs, in the order in which Lib.antt names them."""
    for line in text_of(f"crates/{crate}/specs/Lib.antt").splitlines():
        if line.startswith("pub mod "):
            yield line.split()[2]


def comment(lines: list[str], at: int) -> str:
    """The comment directly above a line, as one text."""
    words: list[str] = []
    while at > 0 and lines[at - 1].startswith("-- ") and not lines[at - 1].startswith("-- ----"):
        at -= 1
        words.insert(0, lines[at][3:].strip())
    return " ".join(words)


def module_of(crate: str, name: str) -> Module:
    """Reads a file of a crate's specs/. Consecutive cases are one definition."""
    lines = text_of(f"crates/{crate}/specs/{name}.antt").split("\n")
    end = next((at for at, line in enumerate(lines) if not line.startswith("--")), len(lines))
    title = " ".join(line[2:].strip() for line in lines[:end]).strip()
    starts: list[tuple[str, int]] = []
    for at, line in enumerate(lines):
        start = START.match(line)
        if start and at >= end and not (starts and starts[-1][0] == start[1]):
            starts.append((start[1], at))
    stops = [at for _, at in starts[1:]] + [len(lines)]
    found = [Definition(word, comment(lines, at), "\n".join(lines[at:stop])) for (word, at), stop in zip(starts, stops)]
    return Module(name, title, found)


def public_clauses(crate: str) -> str:
    """The text of the clauses of public functions, and of public types."""
    text: list[str] = []
    for path in files(f"crates/{crate}/src", ".rt"):
        whole = text_of(path)
        text += (found[0] for found in CLAUSES.finditer(whole))
        text += (found[0] for found in TYPES.finditer(whole))
    return "\n".join(text)


def reached(known: dict[str, list[Module]]) -> set[str]:
    """The names of the definitions that public clauses name, directly or through other definitions."""
    bodies: dict[str, str] = {}
    for modules in known.values():
        for module in modules:
            for definition in module.definitions:
                bodies[definition.name] = bodies.get(definition.name, "") + definition.text
    found: set[str] = set()
    sources = [crate for crate in os.listdir("crates") if os.path.isdir(f"crates/{crate}/src")]
    wanted = [word for crate in sources for word in WORD.findall(public_clauses(crate))]
    while wanted:
        word = wanted.pop()
        if word in bodies and word not in found:
            found.add(word)
            wanted += WORD.findall(bodies[word])
    return found


def print_table(module: Module, names: set[str], is_inside: bool) -> None:
    """Prints the definitions of a file that are in `names`, or with `is_inside` those that are not."""
    rows = [it for it in module.definitions if it.said and (it.name not in names) == is_inside]
    if rows:
        print(f"### {'inside, ' if is_inside else ''}`specs/{module.name}.antt`: {module.title}\n")
        print("| name | what it says |\n|---|---|")
        for row in rows:
            print(f"| `{row.name}` | {row.said.replace('|', chr(92) + '|')} |")
        print()


def print_definitions() -> None:
    known = {crate: [module_of(crate, name) for name in order(crate)] for crate in crates()}
    names = reached(known)
    print(HEAD)
    for crate, modules in known.items():
        print(f"\n## {crate}\n")
        for is_inside in (False, True):
            for module in modules:
                print_table(module, names, is_inside)


def words_of(path: str) -> Words:
    """The words of a file, without comments. Only a .antt file has declarations, at its margin or at that of a `module
    _ ..`."""
    ending = os.path.splitext(path)[1]
    found, current, margin = Words(set(), {}), "", 0
    for line in COMMENT[ending].sub('""', text_of(path)).splitlines():
        if IMPORT.match(line):
            found.imported.update(WORD.findall(line))
            continue
        bare = line.lstrip()
        if bare and ending == ".antt":
            margin = min(margin, len(line) - len(bare))
            start = START.match(line, margin) or SIGNATURE.match(line, margin)
            if start:
                current = start[1]
            elif line.startswith("module ", margin):
                current, margin = "", margin + 2
        found.declared.setdefault(current, set()).update(WORD.findall(line))
    return found


def spellings(name: str) -> set[str]:
    """The ways in which a name is written in the code: an operator such as ◌+◌ also without its places."""
    return {name, *(part for part in name.split("◌") if part)}


def is_unused(name: str, path: str, words: dict[str, Words], holders: dict[str, set[str]]) -> bool:
    """Whether nothing else names what the file declares. `holders` has the files in which each word is."""
    written = spellings(name)
    if any(holders.get(word, set()) - {path} for word in written):
        return False
    return not any(written & found for other, found in words[path].declared.items() if other != name)


def print_unused() -> int:
    """Prints the unused names, and the count of definitions and lemmas. Returns the status."""
    words = {path: words_of(path) for ending in COMMENT for path in files("crates", ending)}
    holders: dict[str, set[str]] = {}
    for path, found in words.items():
        for word in found.imported.union(*found.declared.values()):
            holders.setdefault(word, set()).add(path)
    count, unused = 0, 0
    for path in sorted(words):
        _, _, folder, *rest = path.split("/")
        if folder not in ("specs", "proofs") or len(rest) != 1 or rest == ["Lib.antt"]:
            continue
        for name in words[path].declared:
            count += name != ""
            if name and is_unused(name, path, words, holders):
                unused += 1
                print(path, name)
    print(f"{count} definitions and lemmas, {unused or 'none'} unused")
    return 1 if unused else 0


def main(words: list[str]) -> int:
    if words == ["--unused"]:
        return print_unused()
    if words:
        print(__doc__, file=sys.stderr)
        return 2
    print_definitions()
    return 0


if __name__ == "__main__":
    sys.exit(main(sys.argv[1:]))
