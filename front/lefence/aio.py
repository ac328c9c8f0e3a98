"""The client library for asyncio; `lefence.client.aio` has its sources."""

from __future__ import annotations

from .client.aio import Connection, Session, connect

__all__ = ["Connection", "Session", "connect"]
