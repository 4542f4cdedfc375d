"""Times the scans and the mends of segywb-library, and tells the memory of its master.

Beside the wall clock stand the seconds of processors, of all processes together: on a machine that others use they tell more.
"""

import contextlib
import io
import os
import random
import resource
import struct
import subprocess
import sys
import tempfile
import time
from pathlib import Path

from segywb.library import cli, progress, reading, scan, schema, talk, walk

SEED = 1
LINKS = 20_000
FOLDER = 1000
MENDED = 1000


def survey(path, inlines, crosslines, samples):
    """A small survey with coordinates."""
    binary = bytearray(400)
    for at, number in ((16, 4000), (20, samples), (24, 3), (302, 1)):
        binary[at:at + 2] = struct.pack(">H", number)
    binary[300] = 1
    traces = []
    for number in range(inlines * crosslines):
        inline, crossline = divmod(number, crosslines)
        header = bytearray(240)
        struct.pack_into(">ii", header, 0, number + 1, number + 1)
        struct.pack_into(">hHH", header, 70, -100, 0, 0)
        struct.pack_into(">HH", header, 114, samples, 4000)
        struct.pack_into(">iiii", header, 180, 45000000 + 2500 * crossline, 680000000 + 2500 * inline, inline, crossline)
        traces.append(bytes(header) + bytes(2 * samples))
    path.write_bytes((b"\xc3" + b"\x40" * 79) * 40 + bytes(binary) + b"".join(traces))


def library(folder, count):
    """So many small files, made by a seed; their bytes."""
    dice = random.Random(SEED)
    size = 0
    for number in range(count):
        below = folder / f"{number // FOLDER}"
        below.mkdir(exist_ok=True)
        survey(below / f"{number}.sgy", dice.randint(1, 6), dice.randint(2, 9), dice.randint(3, 40))
        size += (below / f"{number}.sgy").stat().st_size
    return size


def timed(call):
    """The seconds that a call takes."""
    start = time.perf_counter()
    call()
    return time.perf_counter() - start


class Spent:
    """How long a call took by the clock, and how long processors worked at it, those of its programs too, which have ended."""

    def __init__(self, call):
        before = os.times()
        self.seconds = timed(call)
        self.processors = sum(after - first for after, first in zip(os.times()[:4], before[:4]))

    def told(self, count):
        """It, for so many files."""
        return f", {self.seconds:.2f} s; {self.processors:.2f} s of processors, {1000 * self.processors / count:.3f} ms a file"


def run(*words):
    """A command, as its own process does it."""
    assert cli.main(list(map(str, words))) == 0


def told(what, number, unit, more=""):
    print(f"{what:70} {number:12,.1f} {unit}{more}", flush=True)


def small_files(room, count):
    """The rate of a scan, and of one when nothing has changed."""
    folder, database = room / "small", room / "small.db"
    folder.mkdir()
    size = library(folder, count)
    time.sleep(0.1)
    print(f"{count:,} files, {size:,} bytes, {len(os.sched_getaffinity(0))} processors, load {os.getloadavg()[0]:.1f}")
    scan = Spent(lambda: run("scan", "--db", database, "--quiet", folder))
    told("scan", count / scan.seconds, "files/s", f"{scan.told(count)}, {database.stat().st_size / count:.0f} bytes of database a file")
    again = min((Spent(lambda: run("scan", "--db", database, "--quiet", folder)) for _ in range(3)), key=lambda one: one.seconds)
    told("scan once more, nothing has changed", count / again.seconds, "files/s", again.told(count))
    mends(room, folder, database, min(count, MENDED))


def mends(room, folder, database, count):
    """The rates of a mend of some of these files, of a look at them all, and of the way back."""
    (room / "fix.txt").write_text("set 1 inline 7\n")
    words = ["--db", database, "--script", room / "fix.txt", "--where", f"id <= {count}", "--over", "--quiet"]
    for what, more in (
        ("a dry mend of them", ["mend", *words]), ("a mend of them", ["mend", *words, "--apply"]),
        ("a mend of them, which is done already", ["mend", *words, "--apply"]), ("verify", ["verify", "--db", database]),
        ("undo", ["undo", "--db", database, "--run", 1, "--apply"]),
    ):
        with contextlib.redirect_stdout(io.StringIO()):
            spent = Spent(lambda words=more: run(*words))
        told(f"{what}, {count:,} files" if what.startswith("a ") else what, count / spent.seconds, "files/s", spent.told(count))


def large_file(room, megabytes):
    """The rate of one large file, beside tools that read it alone. All but the first read it from the system's cache."""
    path = room / "large.sgy"
    survey(path, 1, 1, 1000)
    trace = path.read_bytes()[3600:]
    with path.open("ab") as file:
        for _ in range(megabytes * 1_000_000 // len(trace) // 100):
            file.write(trace * 100)
    size = path.stat().st_size
    os.sync()
    for words in (["dd", f"if={path}", "bs=4M", "iflag=direct", "status=none"], ["cat", str(path)], ["md5sum", str(path)], ["sha256sum", str(path)]):
        seconds = min(timed(lambda: subprocess.run(words, stdout=subprocess.DEVNULL, check=True)) for _ in range(2))
        told("the disk (dd iflag=direct)" if words[0] == "dd" else words[0], size / seconds / 1e6, "MB/s")
    scan = min((Spent(lambda: run("scan", "--db", room / "large.db", "--quiet", "--again", path)) for _ in range(2)), key=lambda one: one.seconds)
    told("scan of one file: its headers, three digests", size / scan.seconds / 1e6, "MB/s", scan.told(1))
    descriptor = os.open(path, os.O_RDONLY)
    seconds = timed(lambda: reading.digests.of(descriptor, size, (3600, size), float("inf")))
    os.close(descriptor)
    told("of these the three digests", size / seconds / 1e6, "MB/s")
    path.unlink()


class AtOnce:
    """In place of workers: the facts of one file stand for all, so that the master alone is measured."""

    def __init__(self, facts):
        self._facts = facts
        self._given = []
        self.back = []
        self.busy = False

    def idle(self):
        return not self._given

    def give(self, tasks):
        self._given = tasks
        self.busy = True

    def gather(self, timeout):
        del timeout
        some, self._given, self.busy = self._given, [], False
        found = []
        for task in some:
            columns = {**self._facts.columns, **walk.stamp(os.stat(task.path))._asdict(), "settled": 1}
            found.append(type(self._facts)(task, columns, "", self._facts.problems, self._facts.headers, self._facts.texts))
        return found

    def close(self):
        pass


def a_million(room, count):
    """The memory of the master while it writes so many rows, and while it compares them, each in a process of its own."""
    folder = room / "many"
    folder.mkdir()
    for number in range(count):
        if number % FOLDER == 0:
            (folder / f"{number // FOLDER}").mkdir()
        if number % LINKS == 0:
            first = folder / f"{number // FOLDER}" / "0.sgy"
            survey(first, 3, 4, 10)
        else:
            os.link(first, folder / f"{number // FOLDER}" / f"{number % FOLDER}.sgy")
    time.sleep(0.1)
    for what in ("all rows are new", "nothing has changed"):
        child = os.fork()
        if child == 0:
            master(room, folder, count, what)
            os._exit(0)
        assert os.waitpid(child, 0)[1] == 0
    print(f"database: {(room / 'many.db').stat().st_size / 1e6:,.0f} MB")


def master(room, folder, count, what):
    """A scan of the folder by the facts of one file."""
    first = next(iter(walk.Walk([os.fsencode(folder)], False, print)))
    facts = reading.read(first.task, 60)
    with contextlib.closing(schema.create(str(room / "many.db"))) as database:
        one = scan.Scan(database, AtOnce(facts), progress.Progress(None), False, set())
        found = walk.Walk([os.fsencode(folder)], False, one.unlisted)
        one.begin(found.folders, talk.found())

        def work():
            one.run(iter(found))
            one.sweep(found.folders, found.unlisted)
            one.end()

        spent = Spent(work)
        one.close()
    memory = resource.getrusage(resource.RUSAGE_SELF).ru_maxrss / 1000
    told(f"master, {count:,} rows, {what}: peak memory", memory, "MB", f", {count / spent.seconds:,.0f} rows/s{spent.told(count)}")


def main():
    """All of it, in a folder that goes away."""
    files, rows, megabytes = map(int, sys.argv[1:])
    with tempfile.TemporaryDirectory() as room:
        if files:
            small_files(Path(room), files)
        if megabytes:
            large_file(Path(room), megabytes)
        if rows:
            a_million(Path(room), rows)


main()
