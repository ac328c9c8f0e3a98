"""The sub-packages of lefence: which of them each may import, and what users may import."""

from __future__ import annotations

import ast
import subprocess
import sys
import tomllib
import unittest
from collections.abc import Iterator
from pathlib import Path

from support import FRONT

import lefence

PACKAGE = FRONT / "lefence"
# The other sub-packages that each one may import.
ALLOWED: dict[str, set[str]] = {
    "base": set(),
    "client": {"base"},
    "journal": {"base"},
    "hub": {"base", "client", "journal", "prepare"},
    "view": {"base", "client"},
    "live": {"base", "client", "view"},
    "slice": {"base", "client"},
    "check": {"base", "view"},
    "prepare": {"base", "check", "slice"},
    "push": {"base", "client", "journal", "slice"},
    "repair": {"base", "check", "client", "prepare", "push", "slice", "view"},
    "improve": {"base", "repair", "view"},
    "journal_tool": {"base", "hub", "journal", "push", "slice"},
    "carry": {"base", "journal_tool", "prepare"},
    "fill": {"base", "prepare"},
    "farm": {"base", "client", "journal", "push"},
    "shell": {"base", "client", "hub"},
}


def imports_of(path: Path) -> Iterator[str]:
    """The dotted names of the modules of lefence that a module imports."""
    parents = [*path.relative_to(FRONT).parts[:-1]]
    for node in ast.walk(ast.parse(path.read_text(encoding="utf-8"))):
        if isinstance(node, ast.ImportFrom):
            start = parents[: len(parents) + 1 - node.level] if node.level else []
            module = ".".join([*start, *([node.module] if node.module else [])])
            yield from (f"{module}.{name.name}" for name in node.names)
        elif isinstance(node, ast.Import):
            yield from (name.name for name in node.names)


class Packages(unittest.TestCase):
    def test_every_module_is_in_a_known_sub_package(self) -> None:
        folders = {path.name for path in PACKAGE.iterdir() if path.is_dir() and path.name != "__pycache__"}
        self.assertEqual(folders, {*ALLOWED})
        self.assertEqual({path.name for path in PACKAGE.glob("*.py")}, {"__init__.py", "aio.py"})

    def test_each_sub_package_imports_only_what_it_may(self) -> None:
        for package, allowed in ALLOWED.items():
            for path in sorted((PACKAGE / package).glob("*.py")):
                names = (name.split(".") for name in imports_of(path))
                found = {name[1] for name in names if name[0] == "lefence" and name[1:] and name[1] in ALLOWED}
                self.assertLessEqual(found, {package, *allowed}, path)

    def test_each_sub_package_lists_its_modules(self) -> None:
        for package in ALLOWED:
            docstring = ast.get_docstring(ast.parse((PACKAGE / package / "__init__.py").read_text(encoding="utf-8")))
            for path in (PACKAGE / package).glob("[a-z]*.py"):
                self.assertIn(f"`{path.stem}`", docstring or "", package)

    def test_pip_installs_the_tcl_package_the_unit_and_the_examples(self) -> None:
        project = tomllib.loads((FRONT / "pyproject.toml").read_text(encoding="utf-8"))["tool"]["setuptools"]
        self.assertEqual({f"lefence.{name}" for name in ALLOWED} | {"lefence"}, {*project["packages"]})
        patterns = [pattern for group in project["data-files"].values() for pattern in group]
        found = {path for pattern in patterns for path in FRONT.glob(pattern)}
        wanted = {FRONT / "lefence-hub.service", *(FRONT / "tcl").iterdir(), *(FRONT / "examples").iterdir()}
        self.assertEqual(found, wanted)

    def test_the_client_library_needs_no_asyncio(self) -> None:
        code = (
            "import sys, lefence, lefence.client; sys.exit('asyncio' in sys.modules or 'lefence.hub' in sys.modules)"
        )
        done = subprocess.run([sys.executable, "-c", code], cwd=FRONT)
        self.assertEqual(done.returncode, 0)

    def test_users_import_what_they_did(self) -> None:
        for name in lefence.__all__:
            self.assertTrue(hasattr(lefence, name), name)
        self.assertEqual(
            (lefence.client.Connection, lefence.client.connect, lefence.client.aio.connect),
            (lefence.Connection, lefence.connect, lefence.aio.connect),
        )


if __name__ == "__main__":
    unittest.main()
