"""The page and its answers, on 127.0.0.1 alone. One thread works with the program; the server never waits for it."""

from __future__ import annotations

import asyncio
import importlib.util
import json
import threading
from concurrent.futures import ThreadPoolExecutor
from pathlib import Path
from typing import Any, Callable, Dict, List, Optional, Tuple, TypeVar, Union

from aiohttp import web

from ..errors import Error, FileChanged, LoadRefused, ProgramEnded, Refused, RepairCutOff
from . import fieldmaps, graphs, places, saving, sections, tables, views
from .desk import Desk, clean
from .faults import Kept
from .problems import Kept as KeptProblems
from .guard import HEADERS, Guard, Handler
from .refusals import Reading
from .words import words

STATIC = Path(__file__).resolve().parent / "static"
KINDS = {".html": "text/html", ".css": "text/css", ".js": "text/javascript", ".svg": "image/svg+xml"}
PLOTLY = "/usr/share/python3-plotly/plotly.js"
LONGEST_BODY = 40 << 20
LOOK_SECONDS = 0.1
ALIVE_SECONDS = 10.0
READING_SECONDS = 0.05  # a section is shown after so long, as far as it is read
# What reading a body raises: it is no JSON, is nested more deeply than Python reads, or names letters that nobody knows.
NOT_JSON = (ValueError, RecursionError, LookupError)

Query = Any
Answer = Dict[str, Any]
Made = TypeVar("Made")


def plotly() -> Optional[Path]:
    """The file plotly.js of the installed plotly."""
    found = importlib.util.find_spec("plotly")
    places = [Path(one) / "package_data" / "plotly.min.js" for one in (found.submodule_search_locations or [])] if found else []
    return next((one for one in [*places, Path(PLOTLY)] if one.is_file()), None)


def number(query: Query, name: str, default: Optional[int] = None) -> int:
    """A whole number of a query."""
    text = query.get(name)
    if text is None and default is not None:
        return default
    return int(str(text))


def window(query: Query) -> views.Window:
    """The size of a map, and whether both sides are wanted."""
    sides = (number(query, "wide", 500), number(query, "tall", 400))
    wide, tall = (max(40, min(one, 1600)) for one in sides)
    return views.Window((wide, tall), query.get("compare") == "1")


def box(query: Query) -> Tuple[int, int, int, int]:
    """A rectangle of cells."""
    inlines = sorted((number(query, "i0"), number(query, "i1")))
    crosslines = sorted((number(query, "x0"), number(query, "x1")))
    return inlines[0], inlines[1], crosslines[0], crosslines[1]


def read_of(path: str) -> Answer:
    """How far the program has read the file, by what the system tells of this process's children."""
    try:
        children = [one for task in Path("/proc/self/task").iterdir() for one in (task / "children").read_text().split()]
        done = max(int(Path(f"/proc/{one}/io").read_text().split()[1]) for one in children)
        size = Path(path).stat().st_size
        return {"bytes": min(done, size), "size": size}
    except (OSError, ValueError, IndexError):
        return {}


class Server:
    """The desk behind its address."""

    def __init__(self, desk: Desk, token: str) -> None:
        self.desk = desk
        self.guard = Guard(token)
        self._status: Answer = {"phase": "loading", "what": "the file", "done": 0, "of": 0, "turn": 1}
        self._turning = threading.Lock()
        self.broken: Optional[Exception] = None
        self._readings: List[Reading] = []
        self._loading: Optional[asyncio.Task[None]] = None
        self._worker = ThreadPoolExecutor(max_workers=1, thread_name_prefix="desk")
        self._at_work = 0
        self._faults = Kept()
        self._problems = KeptProblems()
        self._slices = views.Slices()
        self._maps = fieldmaps.FieldMaps()
        self._sections = sections.Sections(READING_SECONDS)
        self._runner: Optional[web.AppRunner] = None
        self._stopped = False
        self._heard = False

    @property
    def status(self) -> Answer:
        """The state of affairs. Its ``turn`` rises whenever it becomes another: it reaches a page by events and by answers, which may overtake
        one another, and the page leaves alone what is older than what it knows."""
        return self._status

    @status.setter
    def status(self, told: Answer) -> None:
        with self._turning:  # the desk's thread tells how far it has read
            turn = self._status["turn"]
            if {**told, "turn": turn} != self._status:
                self._status = {**told, "turn": turn + 1}

    # ---- routes

    def _asked(self) -> Dict[str, Callable[[Query], Answer]]:
        """What GET answers, by its name. Each works on the desk in its thread."""
        desk = self.desk
        return {
            "state": lambda q: views.state(desk),
            "fold": lambda q: views.fold(desk, window(q)),
            "slice": lambda q: self._slices.view(desk, number(q, "sample"), window(q), q.get("all") == "1"),
            "positions": lambda q: places.positions(desk, *window(q), q.get("all") == "1"),
            "histogram": lambda q: views.histogram(desk, window(q).compare),
            "problems": lambda q: views.problems(desk, self._problems),
            "faults": lambda q: views.faults(desk, self._answer()),
            "fault": lambda q: views.fault_window(desk, self._answer(), q["code"], number(q, "skip", 0)),
            "table": lambda q: views.table(desk, number(q, "first"), number(q, "size", 25), q["names"].split(), window(q).compare),
            "extremes": lambda q: views.extremes(desk),
            "text": lambda q: views.texts(desk, number(q, "block", 0), window(q).compare),
            "edits": lambda q: views.edits(desk),
            "cell": lambda q: views.cell(desk, box(q)),
            "select": lambda q: views.select(desk, box(q)),
            "field": lambda q: self._maps.view(desk, fieldmaps.asked(q), window(q)),
            "graph": lambda q: graphs.drawn(desk, q, number(q, "first", 1), number(q, "last", 0), window(q).pixels[0]),
            "choose": lambda q: graphs.choose(desk, graphs.parts_of(q), (number(q, "first", 1), number(q, "last", 0))),
            "place": lambda q: views.place(desk, number(q, "trace")),
            "spot": lambda q: places.spot(desk, number(q, "first"), number(q, "last")),
            "stands": lambda q: places.stands(desk, number(q, "trace")),
            "boxed": lambda q: {"version": desk.version, **self._sections.boxed(desk, sections.asked(q), sections.window_of(q))},
            "under": lambda q: dict(self._sections.under(desk, number(q, "trace"), number(q, "column"), q["names"].split())),
        }

    def _section(self, query: Query) -> bytes:
        """A section: the size of what is told of it, that, and the bytes of its pictures."""
        told, pictures = self._sections.view(self.desk, sections.asked(query), sections.window_of(query), sections.look_of(query))
        head = json.dumps(told).encode()
        return len(head).to_bytes(4, "big") + head + pictures

    def _told(self) -> Dict[str, Callable[[Query], Answer]]:
        """What POST does, by its name."""
        desk = self.desk
        return {
            "run": lambda q: desk.run(str(q["line"])),
            "script": lambda q: desk.run_script(str(q["script"])),
            "csv": lambda q: tables.asked(desk, q),
            "undo": lambda q: desk.undo(),
            "redo": lambda q: desk.redo(),
            "save": lambda q: saving.save(desk, str(q["path"]), q.get("replace") is True, saving.way(q.get("in_place"))),
        }

    def _answer(self) -> bytes:
        return self._faults.answer(self.desk.volume, self.desk.version)

    def application(self) -> web.Application:
        """The routes."""

        async def guarded(request: web.Request, handler: Handler) -> web.StreamResponse:
            return await self.guard.handle(request, handler)

        app = web.Application(middlewares=[web.middleware(guarded)], client_max_size=LONGEST_BODY)
        at = f"/{self.guard.token}"
        app.router.add_get(f"{at}/", self._page)
        app.router.add_get(f"{at}/plotly.js", self._plotly)
        app.router.add_get(f"{at}/words", self._words)
        app.router.add_get(f"{at}/events", self._events)
        app.router.add_get(f"{at}/edits.txt", self._script)
        app.router.add_post(f"{at}/restart", self._restart)
        app.router.add_post(f"{at}/read", self._read)
        app.router.add_post(f"{at}/recover", self._recover)
        app.router.add_get(f"{at}/picture/section", self._picture)
        for name, asked in self._asked().items():
            app.router.add_get(f"{at}/ask/{name}", self._asking(asked))
        for name, told in self._told().items():
            app.router.add_post(f"{at}/do/{name}", self._telling(told))
        app.router.add_get(at + r"/{name:[a-z]+\.(?:js|css|svg)}", self._page)
        return app

    # ---- files

    async def _page(self, request: web.Request) -> web.StreamResponse:
        path = STATIC / request.match_info.get("name", "index.html")
        if not path.is_file():
            raise web.HTTPNotFound
        return web.Response(body=path.read_bytes(), content_type=KINDS[path.suffix], charset="utf-8")

    async def _plotly(self, request: web.Request) -> web.StreamResponse:
        path = plotly()
        if path is None:
            raise web.HTTPNotFound
        return web.FileResponse(path, headers={**HEADERS, "Content-Type": "text/javascript; charset=utf-8", "Cache-Control": "private, max-age=3600"})

    async def _words(self, request: web.Request) -> web.StreamResponse:
        return web.json_response(words())

    async def _script(self, request: web.Request) -> web.StreamResponse:
        """The accepted edits, also of a program that has ended."""
        made = self.desk.volume.script
        return web.Response(body=made, content_type="text/plain", charset="utf-8", headers={"Content-Disposition": 'attachment; filename="edits.txt"'})

    # ---- the worker

    async def work(self, call: Callable[[], Made]) -> Made:
        """Does something in the desk's thread."""
        self._at_work += 1
        try:
            return await asyncio.get_running_loop().run_in_executor(self._worker, call)
        finally:
            self._at_work -= 1

    async def _answered(self, call: Callable[[], Union[Answer, bytes]]) -> web.StreamResponse:
        if self.status["phase"] != "ready":
            return web.json_response(self.status, status=503)
        try:
            made = await self.work(call)
            return web.Response(body=made, content_type="application/octet-stream") if isinstance(made, bytes) else web.json_response(made)
        except Refused as refusal:
            return web.json_response({"refused": clean(refusal.answer)}, status=409)
        except ProgramEnded as error:
            self._end(str(error))
            return web.json_response(self.status, status=503)
        except RepairCutOff as error:
            self._cut(error)
            return web.json_response(self.status, status=503)
        except FileChanged as error:
            self.status = {"phase": "changed", "why": clean(str(error))}
            return web.json_response(self.status, status=503)
        except (ValueError, KeyError, TypeError, IndexError, OverflowError, RecursionError, Error) as error:
            return web.json_response({"error": clean(str(error))}, status=400)

    async def _picture(self, request: web.Request) -> web.StreamResponse:
        return await self._answered(lambda: self._section(request.query))

    def _asking(self, call: Callable[[Query], Answer]) -> Handler:
        async def handler(request: web.Request) -> web.StreamResponse:
            return await self._answered(lambda: call(request.query))

        return handler

    def _telling(self, call: Callable[[Query], Answer]) -> Handler:
        async def handler(request: web.Request) -> web.StreamResponse:
            try:
                body = await request.json()
            except NOT_JSON:
                raise web.HTTPBadRequest from None
            return await self._answered(lambda: call(body))

        return handler

    def _end(self, why: str) -> None:
        self.status = {"phase": "ended", "why": clean(why)}

    def _cut(self, error: RepairCutOff) -> None:
        """The file holds a part of a repair: it is offered to put the old bytes back."""
        self.broken = error
        why = " ".join(line[len("segywb: "):] if line.startswith("segywb: ") else line for line in error.told.splitlines()) or str(error)
        self.status = {"phase": "cut", "why": clean(why), "file": clean(self.desk.path), "edits": self.desk.opened}

    async def _recover(self, request: web.Request) -> web.StreamResponse:
        """Puts the old bytes of a file back, of which a repair was cut off, and opens it."""
        if self.status["phase"] == "cut":
            before, self.status = self.status, {"phase": "loading", "what": "the journal", "done": 0, "of": 0}
            self._loading = asyncio.create_task(self._recovered(before))
        return web.json_response(self.status)

    async def _recovered(self, before: Answer) -> None:
        try:
            await asyncio.get_running_loop().run_in_executor(self._worker, self.desk.recover)
        except (Error, OSError) as error:
            self.status = {**before, "failed": clean(getattr(error, "stderr", "") or str(error))}
            return
        self.status = {"phase": "loading", "what": "the file", "done": 0, "of": 0}
        await self.load()

    async def _restart(self, request: web.Request) -> web.StreamResponse:
        """Starts a program that has ended anew, with the accepted edits."""
        if self.status["phase"] == "ended":
            self.status = {"phase": "ready", "version": self.desk.version}
            made = await self._answered(self.desk.restart)
            if made.status != 200:
                return made
        return web.json_response(self.told())

    # ---- what happens meanwhile

    def told(self) -> Answer:
        """The state of affairs for all tabs."""
        if self.status["phase"] == "loading" and not self.status["of"]:
            self.status = {**self.status, **read_of(self.desk.path)}
        if self.status["phase"] == "ready":
            # What is done in the desk's thread may end a program and start another (an edit that is taken back); where
            # one ends by itself meanwhile, the call tells it.
            if not self._at_work and not self.desk.alive:
                self._end("the program ended")
            else:
                self.status = {"phase": "ready", "version": self.desk.version, "grid": self.desk.gridded}
        return self.status

    async def _events(self, request: web.Request) -> web.StreamResponse:
        """A line for each change, until the page goes away."""
        response = web.StreamResponse(headers={**HEADERS, "Content-Type": "text/event-stream"})
        await response.prepare(request)
        clock = asyncio.get_running_loop().time
        last, at = "", 0.0
        try:
            while not self._stopped:
                now = json.dumps(self.told())
                if now != last or clock() - at > ALIVE_SECONDS:
                    await response.write(f"data: {now}\n\n".encode())
                    last, at = now, clock()
                    self._heard = self._heard or self.status["phase"] == "refused"
                await asyncio.sleep(LOOK_SECONDS)
        except (ConnectionError, asyncio.CancelledError):
            pass
        return response

    # ---- start and end

    async def start(self, port: int) -> int:
        """Listens, and gives the port."""
        self._runner = web.AppRunner(self.application(), access_log=None)
        await self._runner.setup()
        site = web.TCPSite(self._runner, "127.0.0.1", port, shutdown_timeout=1.0)
        await site.start()
        self.guard.port = int(self._runner.addresses[0][1])
        return self.guard.port

    async def open(self) -> None:
        """Opens the file. A refusal is told by the status."""
        await self._tried(self.desk.open)

    async def load(self) -> None:
        """Opens the file, where it is not open, and reads what the page shows first; the page shows how far it is."""

        def told(what: str, done: int, of: int) -> None:
            self.status = {"phase": "loading", "what": what, "done": done, "of": of}

        if await self._tried(lambda: self.desk.load(told)):
            self.status = {"phase": "ready", "version": self.desk.version}

    async def _tried(self, call: Callable[[], None]) -> bool:
        """Whether the file is accepted."""
        run = asyncio.get_running_loop().run_in_executor
        try:
            await run(self._worker, call)
            self.broken = None
            return True
        except LoadRefused as refusal:
            self.broken = refusal
            why, self._readings = await run(self._worker, self.desk.refused, refusal)
            offered = [{"words": one.words, "traces": one.traces, "samples": one.samples, "tail": one.tail} for one in self._readings]
            looked = await run(self._worker, self.desk.looked)
            self.status = {"phase": "refused", "why": clean(why), "file": clean(self.desk.path), "readings": offered, "look": looked}
        except RepairCutOff as error:
            self._cut(error)
        except (Error, OSError) as error:
            self.broken = error
            self._end(str(error))
        return False

    @property
    def offers(self) -> bool:
        """Whether the file is not open, and the page offers what opens it."""
        return self.status["phase"] in ("refused", "cut")

    @property
    def refused(self) -> List[str]:
        """What is said of a refused file: the refusal with its hint, and the readings that would take it."""
        return [str(self.status["why"]), *(one.told for one in self._readings)] if self.status["phase"] == "refused" else []

    async def _read(self, request: web.Request) -> web.StreamResponse:
        """Reads a refused file by one of the readings that would take it."""
        try:
            words = str((await request.json())["words"])
            reading = next(one for one in self._readings if one.words == words)
        except (*NOT_JSON, TypeError, StopIteration):
            raise web.HTTPBadRequest from None
        if self.status["phase"] == "refused":
            self.desk.read_as(reading)
            self.status = {"phase": "loading", "what": "the file", "done": 0, "of": 0}
            self._loading = asyncio.create_task(self.load())
        return web.json_response(self.status)

    async def goodbye(self, seconds: float) -> None:
        """Waits until a page was told that the file is refused, or for so long."""
        for _ in range(int(seconds / LOOK_SECONDS)):
            if self._heard:
                await asyncio.sleep(1.0)
                return
            await asyncio.sleep(LOOK_SECONDS)

    async def stop(self) -> None:
        """Ends all of it."""
        self._stopped = True
        if self._runner is not None:
            await self._runner.cleanup()
        self.desk.interrupt()
        self._worker.shutdown(wait=True)
        self.desk.close()
