"""A Slurm cluster of one machine for tests: controller, node and Munge, without systemd.

It needs Debian's slurm-wlm and munge, and root.
"""

from __future__ import annotations

import contextlib
import os
import pwd
import shutil
import socket
import subprocess
import tempfile
import time
from collections.abc import Iterator
from pathlib import Path

PATIENCE = 180
_CONFIGURATION = """ClusterName=lefence
SlurmctldHost={host}(127.0.0.1)
SlurmUser=root
SlurmdUser=root
AuthType=auth/munge
AuthInfo=socket={folder}/munge/socket
SlurmctldPort={ports[0]}
SlurmdPort={ports[1]}
StateSaveLocation={folder}/controller
SlurmdSpoolDir={folder}/node
SlurmctldPidFile={folder}/controller.pid
SlurmdPidFile={folder}/node.pid
ProctrackType=proctrack/linuxproc
TaskPlugin=task/none
SchedulerType=sched/backfill
SelectType=select/cons_tres
SelectTypeParameters=CR_Core_Memory
AccountingStorageType=accounting_storage/none
JobAcctGatherType=jobacct_gather/none
MpiDefault=none
JobRequeue=1
ReturnToService=2
SlurmdTimeout=300
SlurmctldTimeout=300
MessageTimeout=100
BatchStartTimeout=300
CommunicationParameters=NoCtldInAddrAny
NodeName={host} NodeAddr=127.0.0.1 NodeHostname={host} CPUs={processors} RealMemory={memory} State=UNKNOWN
PartitionName=batch Nodes={host} Default=YES MaxTime=INFINITE State=UP
"""


def lacking() -> str:
    """What is missing for a cluster; empty if it can be started."""
    if os.geteuid():
        return "a root user"
    return ", ".join(
        name for name in ("munged", "slurmctld", "slurmd", "sbatch", "sinfo") if shutil.which(name) is None
    )


def _free_ports() -> list[int]:
    with socket.socket() as first, socket.socket() as second:
        for end in (first, second):
            end.bind(("127.0.0.1", 0))
        return [end.getsockname()[1] for end in (first, second)]


@contextlib.contextmanager
def cluster() -> Iterator[dict[str, str]]:
    """Runs a cluster; yields the environment for commands of Slurm."""
    with tempfile.TemporaryDirectory(prefix="cluster") as name, contextlib.ExitStack() as started:
        folder = Path(name)
        folder.chmod(0o711)
        for part in ("controller", "node", "munge"):
            (folder / part).mkdir()
        started.callback(_end, _munge(folder / "munge"))
        host, memory = socket.gethostname(), os.sysconf("SC_PAGE_SIZE") * os.sysconf("SC_PHYS_PAGES") >> 20
        configuration = folder / "slurm.conf"
        values = {
            "folder": folder,
            "host": host,
            "ports": _free_ports(),
            "processors": os.cpu_count(),
            "memory": memory // 2,
        }
        configuration.write_text(_CONFIGURATION.format(**values))
        environment = {**os.environ, "SLURM_CONF": str(configuration)}
        for words in (["slurmctld", "-D", "-i"], ["slurmd", "-D", "-N", host]):
            with open(folder / f"{words[0]}.log", "wb") as log:
                daemon = subprocess.Popen(
                    [*words, "-f", configuration], stdin=subprocess.DEVNULL, stdout=log, stderr=log, env=environment
                )
            started.callback(_end, daemon)
        _wait_idle(environment, folder)
        yield environment


def _munge(folder: Path) -> subprocess.Popen[bytes]:
    """Starts Munge with its own key and user, and waits for its socket."""
    user = pwd.getpwnam("munge")
    (folder / "key").write_bytes(os.urandom(128))
    (folder / "key").chmod(0o400)
    for path in (folder, folder / "key"):
        os.chown(path, user.pw_uid, user.pw_gid)
    folder.chmod(0o755)
    names = {"key-file": "key", "socket": "socket", "pid-file": "pid", "log-file": "log", "seed-file": "seed"}
    words = ["munged", "--foreground", *(f"--{option}={folder / name}" for option, name in names.items())]
    quiet = subprocess.DEVNULL
    process = subprocess.Popen(
        words, user=user.pw_uid, group=user.pw_gid, extra_groups=[], stdin=quiet, stdout=quiet, stderr=quiet
    )
    last = time.monotonic() + PATIENCE
    while not (folder / "socket").exists() and process.poll() is None and time.monotonic() < last:
        time.sleep(0.05)
    return process


def _wait_idle(environment: dict[str, str], folder: Path) -> None:
    last = time.monotonic() + PATIENCE
    while time.monotonic() < last:
        done = subprocess.run(["sinfo", "-h", "-o", "%T"], capture_output=True, text=True, env=environment)
        if done.stdout.strip() == "idle":
            return
        time.sleep(0.2)
    logs = "\n".join(path.read_text(errors="replace")[-2000:] for path in folder.glob("*.log"))
    raise AssertionError(f"the cluster does not start: {done.stdout} {done.stderr}\n{logs}")


def _end(process: subprocess.Popen[bytes]) -> None:
    process.terminate()
    try:
        process.wait(PATIENCE)
    except subprocess.TimeoutExpired:
        process.kill()
        process.wait()
