"""The client library: connections to a hub or to the program, sessions of a team, and a method for each verb.

Modules in reading order:
- `verbs`: a request for each verb, and what its reply means; `refusals`: the refusals as exceptions.
- `session`: what the sessions of both libraries share.
- `wire`: what their connections share: which bytes are sent, and which line each reply answers.
- `blocking`: connections, sessions and pipelines without asyncio; `aio`: the same for asyncio, without pipelines.
- `cells`: the cells of a team's DEF file.
- `endpoint`: connections of the tools, also to a program that the tool starts.

It imports `lefence.base` and must not import any other sub-package.
"""

from __future__ import annotations

from ..base.protocol import ProtocolError
from .blocking import Connection, Pending, Pipeline, Session, connect
from .cells import Cell
from .refusals import Refusal
from .verbs import Legalized, Place, Report, Tidied, Violation
from .wire import ConnectionLost

__all__ = [
    "Cell",
    "Connection",
    "ConnectionLost",
    "Legalized",
    "Pending",
    "Pipeline",
    "Place",
    "ProtocolError",
    "Refusal",
    "Report",
    "Session",
    "Tidied",
    "Violation",
    "connect",
]
