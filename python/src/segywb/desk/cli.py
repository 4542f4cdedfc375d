"""The command ``segywb-desk``."""

from __future__ import annotations

import argparse
import asyncio
import secrets
import signal
import sys
import webbrowser
from typing import Any, List, Optional

GOODBYE_SECONDS = 10.0
SLOW_SECONDS = 1.0


def words(arguments: Optional[List[str]]) -> Any:
    """The command line."""
    parser = argparse.ArgumentParser(
        prog="segywb-desk", description="Shows a SEG-Y file in the browser, to this machine alone, and lets one repair it while looking."
    )
    parser.add_argument("file", metavar="FILE", help="the SEG-Y file; it is written over only where you save to it and say so")
    parser.add_argument("--out", metavar="OUT", help="the path that the Save box offers")
    parser.add_argument("--port", metavar="N", type=int, default=0, help="the port of the page on 127.0.0.1; without it a free one")
    parser.add_argument("--no-browser", action="store_true", help="print the address and open no browser")
    parser.add_argument("--fixed", action="store_true", help="each trace has the binary header's number of samples, as for segywb")
    parser.add_argument("--order", choices=("big", "little"), help="the order of bytes of a file that does not tell it, as for segywb")
    parser.add_argument("--samples", metavar="N", type=int, help="each trace has N samples, whatever the headers say, as for segywb")
    parser.add_argument("--format", metavar="CODE", type=int, help="the format of the samples, whatever the binary header says, as for segywb")
    parser.add_argument("--texts", metavar="N", type=int, help="N extended textual headers, whatever the binary header says, as for segywb")
    parser.add_argument("--tail", action="store_true", help="what is less than a trace behind the last one is kept as bytes of no trace, as for segywb")
    parser.add_argument("--on-disk", action="store_true", default=None, help="the bytes of FILE stay on disk, as for segywb; so they do without this word where FILE is larger than half the memory")
    parser.add_argument("--max-bytes", metavar="N", type=int, help="the largest file that is read or made, as for segywb")
    return parser.parse_args(arguments)


def lacking() -> Optional[str]:
    """What is not installed."""
    try:
        from . import server
    except ImportError as error:
        return f"{error.name} (Debian: python3-aiohttp, python3-numpy)"
    return None if server.plotly() else "plotly.js (Debian: python3-plotly)"


def main(arguments: Optional[List[str]] = None) -> int:
    """Runs the desk until it is interrupted."""
    told = words(arguments)
    missing = lacking()
    if missing:
        print(f"segywb-desk: there is no {missing}", file=sys.stderr)
        return 5
    try:
        open(told.file, "rb").close()
    except OSError as error:
        print(f"segywb-desk: cannot open {told.file}: {error.strerror}", file=sys.stderr)
        return 3
    signal.signal(signal.SIGINT, signal.SIG_DFL)  # while the file is opened there is nothing to tidy up
    try:
        return asyncio.run(serve(told))
    except OSError as error:
        print(f"segywb-desk: cannot listen on port {told.port}: {error.strerror}", file=sys.stderr)
        return 4


async def serve(told: Any) -> int:
    """Opens the file, then the page, and waits for the end."""
    from .desk import Desk
    from .server import Server

    desk = Desk(told.file, told.out, told.fixed, told.max_bytes, told.order, told.on_disk, told.samples, told.format, told.texts, told.tail)
    server = Server(desk, secrets.token_urlsafe(24))
    port = await server.start(told.port)
    try:
        await opened(server, told.file)
        return await shown(told, server, f"http://127.0.0.1:{port}/{server.guard.token}/")
    finally:
        await server.stop()


async def opened(server: Any, path: str) -> None:
    """Opens the file. Where that takes a while the terminal says so: there is no page yet."""
    task = asyncio.ensure_future(server.open())
    if not (await asyncio.wait({task}, timeout=SLOW_SECONDS))[0] and sys.stderr.isatty():
        print(f"segywb-desk: reading {sendable(path)} ..", file=sys.stderr, flush=True)
    await task


def sendable(text: str) -> str:
    """A text that a terminal takes, also where a path in it is no UTF-8."""
    return text.encode("utf-8", "replace").decode()


async def shown(told: Any, server: Any, address: str) -> int:
    """Shows the page of a file that is open, or of one that is not: there what opens it is offered, a reading or a recovery."""
    ended = asyncio.Event()
    for one in (signal.SIGINT, signal.SIGTERM):
        asyncio.get_running_loop().add_signal_handler(one, ended.set)
    status = say_why(server)
    if status != 0 and (not server.offers or told.no_browser):
        return status
    print(f"{address}\nThe address holds a key: whoever has it on this machine can use the desk. End it with Ctrl-C.", flush=True)
    if not told.no_browser:
        webbrowser.open(address)
    if status == 0:
        loading = asyncio.ensure_future(server.load())  # it is ended with the desk, also in the middle
    elif len(server.refused) == 1:  # no reading takes it: there is nothing to choose on the page
        await server.goodbye(GOODBYE_SECONDS)
        return status
    await ended.wait()
    return 3 if server.offers else 0


def say_why(server: Any) -> int:
    """Says on standard error why a file is not open, and gives the exit status; 0 where it is."""
    from ..errors import OptionRefused, ProgramNotFound, RepairCutOff

    error = server.broken
    if error is None:
        return 0
    if isinstance(error, RepairCutOff):
        print(f"segywb-desk: {sendable(server.status['why'])}", file=sys.stderr, flush=True)
        return 3
    for line in server.refused or [getattr(error, "stderr", "").strip() or str(error)]:
        print(f"segywb-desk: {sendable(line)}", file=sys.stderr, flush=True)
    return 2 if isinstance(error, OptionRefused) else 5 if isinstance(error, ProgramNotFound) else 3
