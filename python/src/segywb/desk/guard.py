"""Who is answered: requests to this machine's own address, with the token in the path, from the page itself."""

from __future__ import annotations

import hmac
from typing import Awaitable, Callable, Optional

from aiohttp import web

Handler = Callable[[web.Request], Awaitable[web.StreamResponse]]

POLICY = (
    "default-src 'none'; script-src 'self'; style-src 'self' 'unsafe-inline'; img-src 'self' data: blob:; connect-src 'self'; "
    "base-uri 'none'; form-action 'none'; frame-ancestors 'none'"
)
HEADERS = {
    "Content-Security-Policy": POLICY,
    "X-Content-Type-Options": "nosniff",
    "X-Frame-Options": "DENY",
    "Referrer-Policy": "no-referrer",
    "Cache-Control": "no-store",
    "Cross-Origin-Opener-Policy": "same-origin",
    "Cross-Origin-Resource-Policy": "same-origin",
}


# A header that says who asks. Where it stands twice, two readers may each believe another one.
ONCE = ("Host", "Origin", "Sec-Fetch-Site", "Content-Type", "Content-Length")


class Guard:
    """Refuses what does not come from the page that was opened by its whole address."""

    def __init__(self, token: str) -> None:
        self.token = token
        self.port = 0

    def why_not(self, request: web.Request) -> Optional[str]:
        """Why a request is not answered, or nothing."""
        hosts = (f"127.0.0.1:{self.port}", f"localhost:{self.port}")
        if any(len(request.headers.getall(name, [])) > 1 for name in ONCE):
            return "header"
        if request.headers.getall("Host", []) not in ([hosts[0]], [hosts[1]]):
            return "host"
        origin = request.headers.get("Origin")
        if origin is not None and origin not in (f"http://{hosts[0]}", f"http://{hosts[1]}"):
            return "origin"
        if request.headers.get("Sec-Fetch-Site", "none") not in ("none", "same-origin"):
            return "origin"
        word = request.path.lstrip("*").partition("/")[2].partition("/")[0]
        if not hmac.compare_digest(word.encode("utf-8", "replace"), self.token.encode()):
            return "token"
        if request.method == "POST" and (origin is None or request.content_type != "application/json"):
            return "origin"
        return None

    async def handle(self, request: web.Request, handler: Handler) -> web.StreamResponse:
        """The middleware: a refusal tells nothing of what is here."""
        why = self.why_not(request)
        if why is not None:
            return web.Response(status=403, text=f"refused: {why}\n", headers=HEADERS)
        try:
            response = await handler(request)
        except web.HTTPException as error:
            return web.Response(status=error.status, text=f"{error.reason}\n", headers=HEADERS)
        if not response.prepared:
            for name, value in HEADERS.items():
                response.headers.setdefault(name, value)
        return response
