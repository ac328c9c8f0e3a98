"""The depth of a statement: the definitions of the crates' specs/ that it names, those that these name, and so on.

tools/theorem.py uses it to make the table of depth of docs/THEOREM.md, and to print the definitions of a row.
"""

from __future__ import annotations

import re
from collections.abc import Callable, Iterable, Iterator
from functools import cache
from pathlib import Path
from textwrap import wrap
from typing import NamedTuple

from definitions import module_of, order

# The import of a module under another name, or of some of its names, including `old as new`.
ALIAS = re.compile(r"(?:pub )?use Rattle\.(\S+) as (\w+)$", re.M)
NAMES = re.compile(r"(?:pub )?use Rattle\.(\S+?)\.\{(.*)\}$", re.M)
COMMENT = re.compile(r"--.*")
# A word, with the part in front of its dot if it has one; and the name of a field of a record.
WORD = re.compile(r"(?:([^\s(){}\[\],;:.`]*)\.)?([^\s(){}\[\],;:.`]+)")
FIELD = re.compile(r"^ +pub [^\s:]+ :", re.M)
DECLARED = "declared."
VARIANTS = ".TheVariants"


class Name(NamedTuple):
    """A definition: its crate, the file of specs/ that has it, and its name; or a type of the code, with its path as
    its file."""

    crate: str
    module: str
    name: str


class Module(NamedTuple):
    """A file of specs/: its definitions without comments, its imported names, and its names for other files."""

    texts: dict[str, str]
    brought: dict[str, Name]
    aliases: dict[str, tuple[str, str]]


class Depth(NamedTuple):
    """The depth of a statement: definitions, the types of this repository's code that they name, and the paths of the
    names of the kit's libraries and ported crates that they use."""

    definitions: set[Name]
    types: set[tuple[str, str]]
    borrowed: set[str]

    @property
    def lines(self) -> int:
        return sum(map(lines_of, self.definitions))


@cache
def is_own(crate: str) -> bool:
    """Whether this repository has the crate."""
    return Path("crates", crate).is_dir()


def place_of(path: str) -> tuple[str, str]:
    """The crate and the file of a path like `lf_floor_model.specs.Runs`; of a type of the code, or of its variants, the
    type's path. A path of another repository has no file: it is the crate."""
    crate, _, inside = path.partition(".specs.")
    if not is_own(crate):
        return path, ""
    return crate, inside.removesuffix(VARIANTS) if inside.startswith(DECLARED) else inside.partition(".")[0]


@cache
def module(crate: str, name: str) -> Module:
    """Reads the file of this name. Returns an empty one if this repository does not have it."""
    path = Path("crates", crate, "specs", f"{name}.antt")
    if not path.exists():
        return Module({}, {}, {})
    text = path.read_text(encoding="utf-8")
    brought: dict[str, Name] = {}
    for where, names in NAMES.findall(text):
        for word in names.split(", "):
            old, _, new = word.partition(" as ")
            brought[new or old] = Name(*place_of(where), old)
    aliases = {short: place_of(where) for where, short in ALIAS.findall(text)}
    texts = {it.name: FIELD.sub("", COMMENT.sub("", it.text)) for it in module_of(crate, name).definitions}
    return Module(texts, brought, aliases)


def named_in(name: Name) -> set[Name]:
    """The definitions and types that a definition names. A word after another dot is a field."""
    own = module(name.crate, name.module)
    found: set[Name] = set()
    for before, word in WORD.findall(own.texts[name.name]):
        if before in own.aliases:
            found.add(Name(*own.aliases[before], word))
            continue
        first = before or word
        if first in own.texts:
            found.add(Name(name.crate, name.module, first))
        elif first in own.brought:
            found.add(own.brought[first])
    return found


def depth_of(roots: list[Name]) -> Depth:
    """The definitions and types that these definitions depend on, including themselves."""
    found = Depth(set(), set(), set())
    wanted = [*roots]
    while wanted:
        name = wanted.pop()
        if name in found.definitions:
            continue
        found.definitions.add(name)
        for other in named_in(name):
            if other.name in module(other.crate, other.module).texts:
                wanted.append(other)
            elif not is_own(other.crate):
                found.borrowed.add(f"{other.crate.replace('.specs.', '.')}.{other.name}")
            elif other.module.startswith(DECLARED):
                found.types.add((other.crate, other.module))
    return found


def in_order(wanted: Iterable[str], uses: Callable[[str], Iterable[str]]) -> list[str]:
    """These names and those that they use, each after those that it uses."""
    done: dict[str, None] = {}

    def visit(name: str) -> None:
        for used in uses(name):
            if used not in done:
                visit(used)
        done[name] = None

    for name in wanted:
        if name not in done:
            visit(name)
    return list(done)


def crates_in_order(crates: set[str]) -> list[str]:
    """These crates, each after those of its libraries that are among them."""
    uses: dict[str, list[str]] = {}
    for line in Path("crates.txt").read_text(encoding="utf-8").splitlines():
        name, _, libraries = line.split("#")[0].partition(":")
        if name.strip():
            uses[name.split()[0]] = libraries.split()
    return [crate for crate in in_order(sorted(crates), lambda crate: uses.get(crate, [])) if crate in crates]


def files_in_order(crate: str) -> list[str]:
    """The files of a crate's specs/, each after those from which it imports."""
    files = list(order(crate))

    def imports(file: str) -> Iterator[str]:
        read = module(crate, file)
        for other, name in [*((it.crate, it.module) for it in read.brought.values()), *read.aliases.values()]:
            if other == crate and name in files:
                yield name

    return in_order(files, imports)


def text_of(depth: Depth) -> list[str]:
    """The definitions as one text, with their comments: crate by crate and file by file, each after those that it
    uses. In front are the types of the code and the borrowed names."""
    types = [f"{crate}.{path.removeprefix(DECLARED)}" for crate, path in depth.types]
    lines = ["-- Types of the code:", *(f"--   {path}" for path in sorted(types))]
    lines += ["-- Names of the kit and of ported crates:", *(f"--   {path}" for path in sorted(depth.borrowed))]
    for crate in crates_in_order({name.crate for name in depth.definitions}):
        for file in files_in_order(crate):
            read = module_of(crate, file)
            found = [it for it in read.definitions if Name(crate, file, it.name) in depth.definitions]
            if found:
                lines += ["", f"-- ---- crates/{crate}/specs/{file}.antt", *comment_of(read.title)]
            for it in found:
                lines += ["", *comment_of(it.said), *body_of(it.text)]
    return lines


def comment_of(said: str) -> list[str]:
    """The lines of a comment."""
    return wrap(said, 120, initial_indent="-- ", subsequent_indent="-- ")


def body_of(text: str) -> list[str]:
    """The lines of a definition, without those that belong to the next one: comments and empty lines at its end."""
    lines = text.split("\n")
    while lines and (not lines[-1].strip() or lines[-1].startswith("--")):
        lines.pop()
    return lines


def lines_of(name: Name) -> int:
    """The number of lines of the definition, without comments and empty lines."""
    text = COMMENT.sub(
        "", next(it.text for it in module_of(name.crate, name.module).definitions if it.name == name.name)
    )
    return sum(1 for line in text.split("\n") if line.strip())
