"""Servers that tests start and end: a Slurm of one node, and others, each in a folder of its own."""

import contextlib
import os
import pathlib
import shutil
import socket
import subprocess
import time
from collections.abc import Callable, Iterator

import pytest

PATH = f"{os.environ['PATH']}:/usr/sbin"


def needs(*names: str, root: bool = False) -> pytest.MarkDecorator:
    missing = [name for name in names if not shutil.which(name, path=PATH)]
    return pytest.mark.skipif(bool(missing) or root and os.geteuid() != 0, reason=f"missing: {' '.join(missing) or 'root'}")


def until(is_done: Callable[[], object]) -> None:
    """Waits until something is so, as long as the test may take."""
    while not is_done():
        time.sleep(0.1)


def free_ports(count: int) -> list[int]:
    """Ports at which nothing listens."""
    with contextlib.ExitStack() as stack:
        sockets = [stack.enter_context(socket.create_server(("127.0.0.1", 0))) for _ in range(count)]
        return [it.getsockname()[1] for it in sockets]


@contextlib.contextmanager
def started(*words: str | pathlib.Path) -> Iterator[None]:
    """Something that runs meanwhile."""
    process = subprocess.Popen(words, env={**os.environ, "PATH": PATH}, stdout=subprocess.DEVNULL, stderr=subprocess.DEVNULL)
    try:
        yield
    finally:
        process.terminate()
        process.wait()


def configuration(folder: pathlib.Path, host: str) -> str:
    ports = free_ports(2)
    return f"""\
ClusterName=one
SlurmctldHost={host}(127.0.0.1)
SlurmUser=root
AuthType=auth/munge
AuthInfo=socket={folder}/socket/munge
CryptoType=crypto/munge
ProctrackType=proctrack/linuxproc
TaskPlugin=task/none
SelectType=select/cons_tres
SelectTypeParameters=CR_Core
SlurmctldPort={ports[0]}
SlurmdPort={ports[1]}
StateSaveLocation={folder}/state
SlurmdSpoolDir={folder}/spool
SlurmctldPidFile={folder}/slurmctld.pid
SlurmdPidFile={folder}/slurmd.pid
SlurmctldLogFile={folder}/slurmctld.log
SlurmdLogFile={folder}/slurmd.log
SchedulerParameters=batch_sched_delay=0,sched_interval=1
ReturnToService=2
NodeName={host} NodeAddr=127.0.0.1 CPUs={len(os.sched_getaffinity(0))} State=UNKNOWN
PartitionName=all Nodes={host} Default=YES MaxTime=INFINITE State=UP
"""


@contextlib.contextmanager
def slurm_in(folder: pathlib.Path) -> Iterator[None]:
    """A Slurm of one node, in a folder of its own."""
    host, munge = os.uname().nodename, folder / "munge"
    for name in ("state", "spool", "munge", "socket"):
        (folder / name).mkdir(parents=True)
    (munge / "key").write_bytes(os.urandom(1024))
    for file, mode in ((munge / "key", 0o400), (munge, 0o700), (folder / "socket", 0o755)):
        shutil.chown(file, "munge")
        file.chmod(mode)
    (folder / "slurm.conf").write_text(configuration(folder, host))
    files = {"key-file": "munge/key", "socket": "socket/munge", "pid-file": "munge/pid", "log-file": "munge/log", "seed-file": "munge/seed"}
    words = ["runuser", "-u", "munge", "--", "/usr/sbin/munged", "--foreground", *(f"--{name}={folder / file}" for name, file in files.items())]
    with contextlib.ExitStack() as stack:
        stack.enter_context(started(*words))
        until((folder / "socket/munge").is_socket)
        stack.enter_context(started("slurmctld", "-c", "-D"))
        until(lambda: said_by("scontrol", "ping"))
        stack.enter_context(started("slurmd", "-D", "-N", host))
        until(lambda: said_by("sinfo", "-h", "-o", "%T") == "idle")
        yield


def said_by(*words: str) -> str:
    """What a command says, if it ends well."""
    done = subprocess.run(words, capture_output=True, text=True, check=False)
    return done.stdout.strip() if done.returncode == 0 else ""
