"""Runs a tool of this checkout without an installation, as listed in pyproject.toml. The other files here call it."""

from __future__ import annotations

import importlib
import sys
import tomllib
from pathlib import Path

FRONT = Path(__file__).resolve().parents[1]


def run(tool: str) -> None:
    """Runs the tool with this name, and ends with its status."""
    project = tomllib.loads((FRONT / "pyproject.toml").read_text(encoding="utf-8"))["project"]
    scripts: dict[str, str] = project["scripts"]
    module, _, function = scripts[tool].partition(":")
    sys.path.insert(0, str(FRONT))
    sys.exit(getattr(importlib.import_module(module), function)())
