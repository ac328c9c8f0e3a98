"""The HTTP server of the page. It listens on 127.0.0.1 alone, and answers only those who know the token.

A page of another origin can send requests here, but cannot know the token. Host and Origin are checked too, so that a
name which another page makes point here is refused. The page itself may load nothing from elsewhere.
"""

from __future__ import annotations

import contextlib
import hmac
import json
import re
import secrets
import sys
import threading
from http.server import BaseHTTPRequestHandler, ThreadingHTTPServer
from pathlib import Path
from typing import Any
from urllib.parse import parse_qs, urlsplit

from ..client.refusals import Refusal
from .board import Board
from .work import Refused, Work

_PAGE = Path(__file__).parent / "page"
_KINDS = {".html": "text/html", ".css": "text/css", ".js": "text/javascript", ".svg": "image/svg+xml"}
_HOST = re.compile(r"(127\.0\.0\.1|localhost)(:\d{1,5})?", re.I)
_POLICY = (
    "default-src 'none'; script-src 'self'; style-src 'self'; connect-src 'self'; img-src 'self' data:; "
    "base-uri 'none'; form-action 'none'; frame-ancestors 'none'"
)
_HEADERS = {
    "Content-Security-Policy": _POLICY,
    "X-Content-Type-Options": "nosniff",
    "Referrer-Policy": "no-referrer",
    "Cross-Origin-Opener-Policy": "same-origin",
    "Cross-Origin-Resource-Policy": "same-origin",
    "Cache-Control": "no-store",
}
# Seconds after which an idle connection is closed, and between two signs of life to a page.
_IDLE, _ALIVE = 60, 5.0
# The most pages at a time, and the most bytes of a request.
MOST_PAGES, _MOST_BYTES = 64, 1 << 16


class PageServer(ThreadingHTTPServer):
    """Serves the page of a board. Requests of a page are answered in threads."""

    daemon_threads = True
    # (a restart on the same port)
    allow_reuse_address = True

    def __init__(self, port: int, board: Board, design: dict[str, Any], work: Work | None) -> None:
        """Listens on a port, or any for 0. Raises OSError if it is in use."""
        super().__init__(("127.0.0.1", port), _Handler)
        self.token = secrets.token_urlsafe(24)
        self.board = board
        self.work = work
        self.design = design
        self.places = threading.BoundedSemaphore(MOST_PAGES)

    @property
    def address(self) -> str:
        """The address of the page, with its token."""
        return f"http://127.0.0.1:{self.server_port}/{self.token}/"

    def handle_error(self, request: Any, client_address: Any) -> None:
        """A browser that goes away is no error of the server."""
        if not isinstance(sys.exc_info()[1], OSError):
            super().handle_error(request, client_address)


class _Handler(BaseHTTPRequestHandler):
    server: PageServer
    protocol_version = "HTTP/1.1"
    server_version, sys_version = "lefence-view", ""
    timeout = _IDLE

    def log_message(self, format: str, *args: Any) -> None:
        """Nothing is logged: the address has the token."""

    def do_GET(self) -> None:
        path = self._path()
        if path is None:
            return
        name, query = path
        if name == "design":
            self._send_json(self.server.design)
        elif name == "cells":
            self._send(200, "application/octet-stream", self.server.board.packed())
        elif name == "events":
            self._send_events(query)
        else:
            file = _PAGE / (name or "index.html")
            if file.suffix not in _KINDS or file.parent != _PAGE or not file.is_file():
                return self._refuse(404, "there is no such page")
            self._send(200, _KINDS[file.suffix] + "; charset=utf-8", file.read_bytes())

    def do_POST(self) -> None:
        path = self._path()
        if path is None:
            return
        if path[0] != "work" or self.server.work is None:
            return self._refuse(404, "there is no such page")
        if self.headers.get("Origin") is None or self.headers.get_content_type() != "application/json":
            return self._refuse(403, "not from this page")
        length = self.headers.get("Content-Length", "")
        if not length.isdigit() or int(length) > _MOST_BYTES:
            return self._refuse(413, "too long")
        try:
            wanted = json.loads(self.rfile.read(int(length)))
            words = [str(wanted[key]) for key in ("page", "team", "line")]
            answer = self.server.work.send(words[0], words[1], words[2], int(wanted["revision"]))
        except Refused as refused:
            answer = {"line": str(wanted["line"]), "reply": "", "refusal": str(refused), "fields": ()}
        except OSError as error:
            answer = {"line": str(wanted["line"]), "reply": "", "refusal": f"the hub is gone: {error}", "fields": ()}
        except (ValueError, KeyError, TypeError, Refusal):
            return self._refuse(400, "not a request of this page")
        self._send_json(answer)

    def _path(self) -> tuple[str, dict[str, list[str]]] | None:
        """Returns the name after the token and the query, or refuses the request and returns None."""
        host, origin = self.headers.get("Host", ""), self.headers.get("Origin")
        if not _HOST.fullmatch(host) or origin not in (None, f"http://{host}"):
            self._refuse(403, "the request is not from this page")
            return None
        if self.headers.get("Sec-Fetch-Site", "none") not in ("none", "same-origin"):
            self._refuse(403, "the request is not from this page")
            return None
        parts = urlsplit(self.path)
        token, slash, name = parts.path.removeprefix("/").partition("/")
        if not hmac.compare_digest(token.encode(), self.server.token.encode()) or not slash:
            self._refuse(404, "there is no such page: use the whole address that lefence-view has printed")
            return None
        return name, parse_qs(parts.query)

    def _send_json(self, value: dict[str, Any]) -> None:
        self._send(200, "application/json", json.dumps(value, separators=(",", ":")).encode())

    def _refuse(self, status: int, text: str) -> None:
        self.close_connection = True
        self._send(status, "text/plain; charset=utf-8", f"{text}\n".encode())

    def _send(self, status: int, kind: str, data: bytes) -> None:
        self._begin(status, kind)
        self.send_header("Content-Length", str(len(data)))
        self.end_headers()
        self.wfile.write(data)

    def _begin(self, status: int, kind: str) -> None:
        self.send_response(status)
        self.send_header("Content-Type", kind)
        for name, value in _HEADERS.items():
            self.send_header(name, value)

    def _send_events(self, query: dict[str, list[str]]) -> None:
        """Sends the events after a number until the page is gone. Then its sessions are closed."""
        known = (query.get("since") or [""])[0]
        page = (query.get("page") or [""])[0]
        if not known.isdigit() or not self.server.places.acquire(blocking=False):
            return self._refuse(503, "too many pages are open")
        self.close_connection = True
        try:
            with self.server.board.events.looker(), contextlib.suppress(OSError, EOFError):
                self._begin(200, "text/event-stream")
                self.send_header("Connection", "close")
                self.end_headers()
                self._follow(int(known))
        finally:
            self.server.places.release()
            if self.server.work is not None:
                self.server.work.leave(page)

    def _follow(self, known: int) -> None:
        events = self.server.board.events
        while True:
            found = events.wait(known, _ALIVE)
            if found is None:
                known = events.sequence
                self.wfile.write(b'id: %d\ndata: {"kind":"again"}\n\n' % known)
            elif found:
                known = found[-1][0]
                self.wfile.write(b"".join(b"id: %d\ndata: %b\n\n" % line for line in found))
            else:
                self.wfile.write(b": alive\n\n")
            self.wfile.flush()
