#!/usr/bin/env python3
"""Sends `where` and `place` over a pipe and over loopback, one by one and a hundred at a time, and prints commands per
second.

usage: bench/serve.py [CELLS] [COMMANDS] [RUNS]    (100000, 20000 and 5; from the top; the program crates/lefence is
                                                    proved and built first: rt run there)

The design is fully legal (`generate.py placed`), with a fence for each 2,000 cells. The commands concern the cells of
the first fence in turn. `place` flips a cell in place (N and FN, FS and S are exchanged). `lefence replay` answers over
the pipe, and `lefence serve` over loopback. `one` waits for each reply before the next command, so it includes the time
of this Python client. `hundred` sends a hundred commands and then reads their replies. The best of the runs is printed.
"""

from __future__ import annotations

import os
import socket
import subprocess
import sys
import tempfile
import time
from collections.abc import Callable
from typing import BinaryIO

from export import TURNED
from load import LEFENCE, need, write

# Sends all bytes of a text.
Send = Callable[[bytes], None]
# The lines of each verb.
Lines = dict[str, list[bytes]]


def commands(def_: str, count: int) -> Lines:
    """For each verb `count` commands to the cells of the first fence."""
    with open(def_) as text:
        entries = [line.split() for line in text if line.startswith("- ")]
    placed = {words[1]: words[-5:-1] for words in entries if "PLACED" in words}
    members = next(words[2:-4] for words in entries if words[-3:-1] == ["REGION", "f0"])
    where: list[bytes] = []
    place: list[bytes] = []
    for number in range(count):
        name = members[number % len(members)]
        x, y, _, orient = placed[name]
        if number // len(members) % 2 == 0:
            orient = TURNED[orient]
        where.append(f"where f0 0 {name}\n".encode())
        place.append(f"place f0 0 {name} {x} {y} {orient}\n".encode())
    return {"where": where, "place": place}


def rate_of(send: Send, replies: BinaryIO, lines: list[bytes], at_a_time: int) -> float:
    """Commands per second, for lines sent `at_a_time` at a time."""
    start = time.perf_counter()
    for number in range(0, len(lines), at_a_time):
        sent = lines[number:number + at_a_time]
        send(b"".join(sent))
        for _ in sent:
            reply = replies.readline()
            if not reply.startswith(b"ok"):
                sys.exit(f"refused: {reply.decode()}")
    return len(lines) / (time.perf_counter() - start)


def session(send: Send, replies: BinaryIO, lines: Lines) -> list[float]:
    """The figures of one session: for each verb one by one, and a hundred at a time."""
    send(b"open f0\n")
    replies.readline()
    return [rate_of(send, replies, lines[verb], at_a_time) for verb in ("where", "place") for at_a_time in (1, 100)]


def over_pipe(lef: str, def_: str, lines: Lines) -> list[float]:
    child = subprocess.Popen([LEFENCE, "replay", def_, lef], stdin=subprocess.PIPE, stdout=subprocess.PIPE, bufsize=0)
    assert child.stdin and child.stdout
    requests, replies = child.stdin, open(child.stdout.fileno(), "rb", closefd=False)

    def send(text: bytes) -> None:
        while text:
            text = text[requests.write(text):]

    figures = session(send, replies, lines)
    requests.close()
    child.wait()
    return figures


def over_loopback(lef: str, def_: str, lines: Lines) -> list[float]:
    with socket.socket() as free:
        free.bind(("127.0.0.1", 0))
        port = free.getsockname()[1]
    child = subprocess.Popen(
        [LEFENCE, "serve", def_, lef, "--port", str(port), "--connections", "1"], stdout=subprocess.PIPE
    )
    assert child.stdout
    if child.stdout.readline() != b"listening\n":
        sys.exit("serve: not listening")
    with socket.create_connection(("127.0.0.1", port)) as client:
        client.setsockopt(socket.IPPROTO_TCP, socket.TCP_NODELAY, 1)
        figures = session(client.sendall, client.makefile("rb"), lines)
    child.wait()
    return figures


def main() -> None:
    words = [int(word) for word in sys.argv[1:]]
    cells, count, runs = words + [100_000, 20_000, 5][len(words):]
    need(LEFENCE)
    columns = f"{'over':>9} {'where one':>10} {'where hundred':>14} {'place one':>10} {'place hundred':>14}"
    print(f"{columns}    commands per second")
    with tempfile.TemporaryDirectory() as folder:
        lef, def_ = (os.path.join(folder, name) for name in ("x.lef", "x.def"))
        write(lef, "lef", 200)
        write(def_, "placed", cells, max(1, cells // 2_000))
        lines = commands(def_, count)
        for name, ask in (("pipe", over_pipe), ("loopback", over_loopback)):
            found = [max(figures) for figures in zip(*(ask(lef, def_, lines) for _ in range(runs)))]
            print(f"{name:>9} {found[0]:10.0f} {found[1]:14.0f} {found[2]:10.0f} {found[3]:14.0f}", flush=True)


if __name__ == "__main__":
    main()
