"""Who comes in: the headers of each answer, origins, and how many connections there are."""

import asyncio
import time
from typing import Any

from aiohttp import web

from config import Lab
from refusals import LabRefused

POLICY = (
    "default-src 'none'; script-src 'self'; style-src 'self'; img-src 'self'; connect-src 'self'; base-uri 'none'; form-action 'none'; "
    "frame-ancestors 'none'; require-trusted-types-for 'script'"
)
HEADERS = {
    "Content-Security-Policy": POLICY,
    "X-Content-Type-Options": "nosniff",
    "X-Frame-Options": "DENY",
    "Referrer-Policy": "no-referrer",
    "Cross-Origin-Opener-Policy": "same-origin",
    "Cross-Origin-Resource-Policy": "same-origin",
    "Permissions-Policy": "camera=(), microphone=(), geolocation=()",
    "X-Robots-Tag": "noindex",
    "Cache-Control": "no-store",
}
FULL = b"HTTP/1.1 503 Service Unavailable\r\nContent-Type: text/plain\r\nConnection: close\r\nContent-Length: %d\r\n\r\n%b"
# how long a new connection may take until its first request is there, in seconds
FIRST_REQUEST = 10.0


def refusal(request: web.Request, status: int, word: str, why: str) -> web.Response:
    """What is told of a refusal: an object to a page, and plain text to a person who has opened a link."""
    if request.method == "GET" and "text/html" in request.headers.get("Accept", ""):
        return web.Response(text=f"{word}: {why}\n", status=status)
    return web.json_response({"refused": word, "why": why}, status=status)


async def add_headers(_: web.Request, response: web.StreamResponse) -> None:
    for name, value in HEADERS.items():
        response.headers.setdefault(name, value)
    response.headers["Server"] = "lab"


def check_origin(lab: Lab, request: web.Request) -> None:
    """Refuses a request that another site's page has made, or that says nothing of its page."""
    if request.headers.get("Origin", "") not in lab.allowed_origins():
        why = "the request comes from no page of this lab; where it is reached by another name, that stands in 'origins' of lab.toml"
        raise LabRefused("OtherOrigin", why)


class Rate:
    """How often something may be done: so many times at once, and so many in a second behind that. Who is quicker waits."""

    def __init__(self, at_once: int, in_second: float) -> None:
        self.left, self.most, self.in_second, self.time = float(at_once), at_once, in_second, time.monotonic()

    async def wait(self) -> None:
        now = time.monotonic()
        self.left = min(self.left + (now - self.time) * self.in_second, self.most) - 1
        self.time = now
        if self.left < 0:
            await asyncio.sleep(-self.left / self.in_second)


class Refusing(asyncio.Protocol):
    """A connection beyond the most: it is told so, and closed."""

    def connection_made(self, transport: asyncio.BaseTransport) -> None:
        assert isinstance(transport, asyncio.Transport)
        why = b"TooManyConnections: the lab has as many connections as it may: try again in a moment\n"
        transport.write(FULL % (len(why), why))
        transport.close()


class Door:
    """Makes what answers a connection, for so many at a time."""

    def __init__(self, server: web.Server, most: int) -> None:
        self.server, self.most = server, most
        # connections that have asked nothing yet, and since when
        self.silent: dict[Any, float] = {}

    def __call__(self) -> asyncio.BaseProtocol:
        if len(self.server.connections) >= self.most:
            return Refusing()
        protocol = self.server()
        self.silent[protocol] = time.monotonic()
        return protocol

    def asks(self, protocol: Any) -> None:
        self.silent.pop(protocol, None)

    async def sweep(self) -> None:
        """Closes connections that ask nothing."""
        while True:
            await asyncio.sleep(2)
            for protocol, born in list(self.silent.items()):
                if time.monotonic() > born + FIRST_REQUEST:
                    del self.silent[protocol]
                    if protocol.transport is not None:
                        protocol.transport.close()
