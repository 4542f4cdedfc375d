#!/usr/bin/env python3
"""An inventory of the SEG-Y files below a folder, made by the workers of a Dask cluster: a row of CSV for each file.

    python3 dask_inventory.py FOLDER                            on four processes of this machine
    python3 dask_inventory.py FOLDER tcp://SCHEDULER:8786       on a cluster that runs; its workers need segywb and see FOLDER

A worker opens each file by itself: a ``Volume`` is not sent from process to process. A file that is refused has its reason in the last
column, and the others go on.
"""

import csv
import sys
from pathlib import Path

import dask.bag
from dask.distributed import Client, LocalCluster

import segywb

COLUMNS = ("file", "traces", "samples", "format", "problems", "refused")


def inventory(path):
    """The row of a file."""
    try:
        with segywb.open(path, opaque_samples=True, on_disk=True) as volume:
            info, found = volume.info, " ".join(one.code for one in volume.problems())
            return str(path), info.traces, info.samples, info.format, found, ""
    except (segywb.Error, OSError) as error:
        return str(path), "", "", "", "", str(error)


def found(folder):
    """The files below a folder, in the order of their names."""
    return sorted(path for path in Path(folder).rglob("*") if path.suffix.lower() in (".sgy", ".segy") and path.is_file())


def main(folder=".", scheduler=None):
    """Prints the rows. The processes of a cluster of this machine end with it."""
    sys.stdout.reconfigure(errors="surrogateescape", newline="")
    cluster = scheduler or LocalCluster(n_workers=4, threads_per_worker=1, dashboard_address=None)
    with Client(cluster) as client:
        rows = client.compute(dask.bag.from_sequence(found(folder), partition_size=8).map(inventory)).result()
    if scheduler is None:
        cluster.close()
    csv.writer(sys.stdout, lineterminator="\n").writerows([COLUMNS, *rows])


if __name__ == "__main__":  # each worker process loads this file, and must not begin once more
    main(*sys.argv[1:])
