"""Clients and tools for the lefence program. Of the repository's documents, docs/CLIENTS.md describes the library,
docs/TOOLS.md the tools, and docs/HUB.md the hub.

`connect` opens a connection, `lefence.aio.connect` one for asyncio. The exceptions are the refusals of
docs/PROTOCOL.md, `ConnectionLost` and `ProtocolError`.

Four sub-packages are libraries: `base`, which all others use; `client`, the client library; `journal`, the record of
changes; and `hub`, the server of many clients. Every other sub-package is a command-line tool, named after it. The tool
lefence-NAME is the function `main` of `lefence.NAME.main`, with two exceptions: `journal_tool` is lefence-journal, and
`view` has the four tools that show or compare designs.
"""

from __future__ import annotations

# (in front of the imports, which read it; pyproject.toml reads it too)
__version__ = "0.1.0"

import importlib
from types import ModuleType
from typing import TYPE_CHECKING

from .base.protocol import ProtocolError
from .client.blocking import Connection, Pending, Pipeline, Session, connect
from .client.cells import Cell
from .client.refusals import (
    BadRequest,
    Frozen,
    Illegal,
    NoCell,
    NoPlace,
    NoSession,
    NoTeam,
    NotExported,
    NothingToUndo,
    OutOfMemory,
    QueriesOnly,
    Refusal,
    RevisionsSpent,
    SessionsFull,
    Stale,
    Unplaced,
)
from .client.verbs import Legalized, Place, Report, Tidied, Violation
from .client.wire import ConnectionLost

if TYPE_CHECKING:
    from . import aio

__all__ = [
    "BadRequest",
    "Cell",
    "Connection",
    "ConnectionLost",
    "Frozen",
    "Illegal",
    "Legalized",
    "NoCell",
    "NoPlace",
    "NoSession",
    "NoTeam",
    "NotExported",
    "NothingToUndo",
    "OutOfMemory",
    "Pending",
    "Pipeline",
    "Place",
    "ProtocolError",
    "QueriesOnly",
    "Refusal",
    "Report",
    "RevisionsSpent",
    "Session",
    "SessionsFull",
    "Stale",
    "Tidied",
    "Unplaced",
    "Violation",
    "__version__",
    "aio",
    "connect",
]


def __getattr__(name: str) -> ModuleType:
    """Imports `lefence.aio` when it is first used: it imports asyncio, which most tools do not need."""
    if name == "aio":
        return importlib.import_module(".aio", __name__)
    raise AttributeError(f"module {__name__!r} has no attribute {name!r}")
