"""A Dask cluster: one of this machine, one of whose workers is killed, and one that runs elsewhere."""

import os
import signal
import subprocess
import sys
import time

import pytest
from conftest import ENVIRONMENT, held, library, rows, started

pytest.importorskip("distributed", reason="python3-distributed is not installed")


def children(pid):
    """The processes that a process has started, and those that these have."""
    found = []
    for name in os.listdir("/proc"):
        try:
            with open(f"/proc/{name}/stat", encoding="utf-8", errors="replace") as file:
                parent = int(file.read().rpartition(")")[2].split()[1])
        except (OSError, ValueError, IndexError):
            continue
        if parent == pid:
            found += [int(name), *children(int(name))]
    return found


def workers(pid):
    """Those of them that are workers of Dask."""
    found = []
    for one in children(pid):
        try:
            with open(f"/proc/{one}/cmdline", "rb") as file:
                words = file.read()
        except OSError:
            continue
        if b"spawn_main" in words:
            found.append(one)
    return found


def count(database):
    try:
        return rows(database, "SELECT count(*) FROM file")[0][0]
    except Exception:
        return 0


def test_a_worker_of_two_is_killed(master, undisturbed, tmp_path):
    """Its files are read by another one."""
    database = tmp_path / "lib.db"
    scan = started("scan", "--db", database, "--quiet", "--workers", "2", master)
    until = time.monotonic() + 120
    while count(database) < 300 and scan.poll() is None and time.monotonic() < until:
        time.sleep(0.01)
    some = workers(scan.pid)
    assert some and scan.poll() is None
    os.kill(some[0], signal.SIGKILL)
    assert scan.wait(600) == 0
    assert held(database) == held(undisturbed)


def test_a_file_that_kills_each_worker(few, tmp_path, wrapped):
    """It is told in its row, and the others are read."""
    database = tmp_path / "lib.db"
    program = wrapped('case $name in */cube.sgy) kill -9 $PPID ;; esac')
    library("scan", "--db", database, "--workers", "2", few, SEGYWB=program, status=1)
    assert rows(database, "SELECT name, trouble FROM file WHERE state = 'failed'") == [("cube.sgy", "the worker that read it died")]
    assert rows(database, "SELECT count(*) FROM file WHERE state = 'read'") == [(11,)]


SCHEDULER = """
from distributed import LocalCluster
import sys
if __name__ == "__main__":
    with LocalCluster(n_workers=1, threads_per_worker=2, processes=False, dashboard_address=None, protocol="tcp") as cluster:
        print(cluster.scheduler_address, flush=True)
        sys.stdin.read()
"""


def test_a_cluster_that_runs(few, tmp_path):
    (tmp_path / "scheduler.py").write_text(SCHEDULER)
    words = [sys.executable, str(tmp_path / "scheduler.py")]
    with subprocess.Popen(words, env=ENVIRONMENT, stdin=subprocess.PIPE, stdout=subprocess.PIPE, stderr=subprocess.DEVNULL, text=True) as cluster:
        try:
            address = cluster.stdout.readline().strip()
            library("scan", "--db", tmp_path / "lib.db", "--dask", address, few)
        finally:
            cluster.stdin.close()
    library("scan", "--db", tmp_path / "alone.db", few)
    assert held(tmp_path / "lib.db") == held(tmp_path / "alone.db")


def test_without_dask(few, tmp_path):
    """The package is wanted for a cluster alone."""
    (tmp_path / "distributed.py").write_text("raise ImportError('no', name='distributed')\n")
    more = {"PYTHONPATH": f"{tmp_path}:{ENVIRONMENT['PYTHONPATH']}"}
    library("scan", "--db", tmp_path / "lib.db", few, **more)
    assert "there is no distributed (Debian: python3-distributed)" in library("scan", "--db", tmp_path / "lib.db", few, "--workers", "2", status=2, **more)
