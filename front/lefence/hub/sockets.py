"""The sockets of a hub: their folder, modes and groups."""

from __future__ import annotations

import grp
import os
import socket
import stat
from pathlib import Path

from ..base.faults import FAILED, REFUSED, USAGE, Fault
from ..journal.journal import lock

# The most bytes of a socket's path on this system.
MOST_PATH = 107


def claim_folder(path: Path) -> None:
    """Makes the folder of the sockets if needed, and locks it until this process ends.

    Raises a Fault if another user may write to it: he could replace the sockets by his own.
    """
    path.mkdir(mode=0o755, exist_ok=True)
    folder = os.open(path, os.O_RDONLY | os.O_DIRECTORY | os.O_CLOEXEC)
    info = os.fstat(folder)
    if info.st_mode & (stat.S_IWGRP | stat.S_IWOTH):
        raise Fault(
            REFUSED,
            f"{path}: others may write to this folder (mode {stat.S_IMODE(info.st_mode):o}); fix it with `chmod go-w`",
        )
    if info.st_uid not in (0, os.geteuid()):
        raise Fault(REFUSED, f"{path}: this folder belongs to another user (uid {info.st_uid})")
    lock(folder, path)


def groups_of(words: list[str]) -> dict[str, int]:
    """Parses `TEAM=GROUP` words into the group id of each team. Raises a Fault if there is no such group."""
    info = {}
    for word in words:
        team, sign, name = word.rpartition("=")
        try:
            info[team] = int(name) if name.isdecimal() else grp.getgrnam(name).gr_gid
        except KeyError:
            raise Fault(USAGE, f"{word}: no such group: {name}") from None
        if not (team and sign):
            raise Fault(USAGE, f"{word}: --group takes TEAM=GROUP")
    return info


def is_too_long(path: Path) -> bool:
    """Whether the system allows no socket with this path."""
    return len(os.fsencode(path)) > MOST_PATH


def bind_socket(path: Path, mode: int, keeps_mode: bool, group: int | None) -> socket.socket:
    """Makes a socket at the path, in that group, which does not listen yet.

    A dead socket of this user at the path passes on its group if none is given, and its mode if `keeps_mode`. Raises a
    Fault if the group cannot be set.
    """
    if is_too_long(path):
        raise Fault(FAILED, f"{path}: longer than {MOST_PATH} bytes; use a shorter --sockets")
    previous = _dead_socket(path)
    if previous:
        path.unlink()
    if previous and previous.st_uid == os.geteuid():
        group = previous.st_gid if group is None else group
        mode = previous.st_mode & 0o777 if keeps_mode else mode
    listener = socket.socket(socket.AF_UNIX)
    try:
        listener.bind(str(path))
        _set_group(path, group)
        path.chmod(mode)
    except OSError as error:
        listener.close()
        raise Fault(FAILED, f"{path}: {error.strerror or error}") from None
    except Fault:
        listener.close()
        raise
    return listener


def _set_group(path: Path, group: int | None) -> None:
    try:
        if group is not None and group != path.lstat().st_gid:
            os.chown(path, -1, group)
    except OSError as error:
        path.unlink()
        raise Fault(FAILED, f"{path}: cannot set group {group}: {error.strerror}; is this user a member?") from None


def _dead_socket(path: Path) -> os.stat_result | None:
    """The status of the path if it is a socket, not a link to one; else None."""
    try:
        info = path.lstat()
    except FileNotFoundError:
        return None
    return info if stat.S_ISSOCK(info.st_mode) else None
