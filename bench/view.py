#!/usr/bin/env python3
"""Prints how long the page of lefence-view takes over a large design: to open, to draw frames while it pans and zooms,
and to show a change; and the memory of the page and of the server.

usage: bench/view.py [CELLS] [--canvas]    (1,000,000 cells, with WebGL; the plain canvas with --canvas; needs Chromium)
"""

from __future__ import annotations

import resource
import sys
import tempfile
import threading
import time
from collections.abc import Iterator
from importlib import import_module
from pathlib import Path
from typing import Any

TOP = Path(__file__).resolve().parents[1]
sys.path[:0] = [str(TOP / "front/tests"), str(TOP / "front")]

# (mypy checks this folder by itself)
browsers = import_module("browser")
description, design, server = (
    import_module(f"lefence.{name}") for name in ("base.description", "live.design", "live.server")
)
board, table = import_module("lefence.live.board"), import_module("lefence.live.cells")

STEP, ROW, WIDE = 1000, 2000, 400
GL = ("--use-angle=swiftshader", "--enable-unsafe-swiftshader")
# Frames of a pan or a zoom.
FRAMES = 60
_FRAMES = """new Promise((done) => {
  const times = [];
  let last = performance.now();
  const step = () => {
    const begin = performance.now();
    %s;
    lefence.draw();
    times.push(performance.now() - begin);
    if (times.length < %d) requestAnimationFrame(step);
    else done([Math.max(...times), times.reduce((one, other) => one + other) / times.length]);
  };
  requestAnimationFrame(step);
})"""


def board_of(count: int) -> Any:
    """A board with this number of cells in a square."""
    side = max(1, int(count**0.5))
    box, facts = description.Box, description.Facts("large", 1000, "core", 200, ROW)
    boxes = [box(0, ROW * at, STEP * side, ROW * at + ROW) for at in range(count // side)]
    rows = [description.Row(f"r{at}", each, "N", side * 5) for at, each in enumerate(boxes)]
    frame = description.Frame(facts, rows, [], [], [])

    def cells() -> Iterator[Any]:
        for at in range(count):
            x, y = STEP * (at % side), ROW * (at // side)
            place = box(x, y, x + WIDE, y + ROW)
            yield description.Cell(f"block/instance_{at}", "-", "INV", WIDE, ROW, place, "N", None, None)

    return board.Board(frame, table.CellTable(frame.teams, cells()))


def until(browser: Any, code: str) -> float:
    """Waits until an expression of the page is true; returns the seconds."""
    begin = time.monotonic()
    while not browser.value(code):
        time.sleep(0.01)
    return time.monotonic() - begin


def measure(shown: Any, flags: tuple[str, ...], folder: Path) -> None:
    notes = {"is_live": True, "editable": [], "compare": None}
    parts = design.design_of(shown.frame, shown.table, {}, "bench", notes)
    served = server.PageServer(0, shown, parts, None)
    threading.Thread(target=served.serve_forever, daemon=True).start()
    with browsers.Browser(folder / "browser", *flags) as browser:
        begin = time.monotonic()
        browser.open(served.address)
        until(browser, "!!window.lefence")
        print(f"the page is there after {time.monotonic() - begin:.1f} s ({browser.value('lefence.drawn.painter')})")
        for what, at, step in (
            ("pan, all in sight", "lefence.fitAll()", "lefence.pan(3, 2)"),
            ("zoom, all in sight", "lefence.fitAll()", "lefence.zoom(1.02)"),
            ("pan, cells of a pixel", "lefence.fitAll(); lefence.view.scale = 0.0026", "lefence.pan(3, 2)"),
            ("pan, cells of 40 pixels", "lefence.fitAll(); lefence.view.scale = 0.1", "lefence.pan(3, 2)"),
        ):
            browser.value(f"{{ {at}; lefence.draw(); }}")
            most, mean = browser.value(_FRAMES % (step, FRAMES))
            cells = browser.value("lefence.drawn.cells")
            print(f"{what}: {mean:.1f} ms a frame on average, {most:.1f} ms at most, {cells:,} cells drawn one by one")
        begin = time.monotonic()
        shown.move(0, [(7, table.Place(7 * STEP + 200, 0, 0))])
        until(browser, f"lefence.state.now.x[7] === {7 * STEP + 200}")
        print(f"a change shows after {time.monotonic() - begin:.2f} s")
        heap = browser.ask("Runtime.getHeapUsage")
        bytes_used = heap["usedSize"] + heap.get("backingStorageSize", 0)
        print(f"memory of the page: {bytes_used / 2**20:.0f} MB; of the server: {memory():.0f} MB")
    shown.events.end()
    served.shutdown()


def memory() -> float:
    """The most memory of this process, in MB."""
    return resource.getrusage(resource.RUSAGE_SELF).ru_maxrss / 1024


def main() -> None:
    words = [word for word in sys.argv[1:] if not word.startswith("--")]
    flags = ("--disable-3d-apis",) if "--canvas" in sys.argv else GL
    begin = time.monotonic()
    shown = board_of(int(words[0].replace(",", "")) if words else 1_000_000)
    print(f"{len(shown.table):,} cells in {time.monotonic() - begin:.1f} s")
    with tempfile.TemporaryDirectory() as folder:
        measure(shown, flags, Path(folder))


if __name__ == "__main__":
    main()
