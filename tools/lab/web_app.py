"""The service's routes. docs/LAB.md lists them, with the messages of the sockets."""

import asyncio
import contextlib
import json
import re
from pathlib import Path
from typing import Any, AsyncIterator, Awaitable, Callable, Iterator, Optional

from aiohttp import WSMsgType, web

import xterm
from archive import collect
from config import Lab
from drives import Drives
from guard import Door, Rate, add_headers, check_origin, refusal
from lecturer import LecturerSocket, do
from links import LECTURER, Links
from outgoing import JSON, Parts, attachment, object_of, pieces_of_files, send, send_bytes, send_json
from refusals import LabRefused
from replaying import life_told
from room import Room
from session import Session
from viewer import Viewer

from cpmhost.faults import CpmhostError, Refused, WrongLine

PAGES = Path(__file__).resolve().parent / "page"
KINDS = {".js": "text/javascript", ".css": "text/css", ".html": "text/html", ".svg": "image/svg+xml"}
# the longest message of a page, and the longest body of a request but for a file that is stored
MOST_MESSAGE, MOST_BODY = 64 << 10, 256 << 10
# a page's messages at once and in a second, how many may be refused, and how many requests of a link are under way
MESSAGES, MOST_REFUSALS, MOST_REQUESTS = (200, 100.0), 50, 4
PAGE_NAME = re.compile(r"[0-9a-f]{16}")
STATUSES = {"NoLink": 404, "OtherOrigin": 403, "WrongMessage": 400, "BadName": 400, "BadLabel": 400, "TooLong": 413}
Handler = Callable[[web.Request], Awaitable[web.StreamResponse]]


class Site:
    def __init__(self, lab: Lab, room: Room, links: Links) -> None:
        self.lab, self.room, self.links = lab, room, links
        self.students = {f"student:{it.name}": it for it in room.present()}
        self.statics = {path.name: (KINDS[path.suffix], path.read_bytes()) for path in PAGES.iterdir() if path.suffix in KINDS}
        self.statics["xterm.js"] = ("text/javascript", xterm.script())
        self.statics["xterm.css"] = ("text/css", xterm.style())
        self.drives = Drives(room)
        self.sockets: dict[str, int] = {}
        self.open_sockets: set[web.WebSocketResponse] = set()
        self.collecting = asyncio.Lock()
        self.door: Optional[Door] = None

    def app(self) -> web.Application:
        app = web.Application(middlewares=[self.guarded], client_max_size=MOST_BODY)
        app.on_response_prepare.append(add_headers)
        app.on_shutdown.append(self.close_sockets)
        for path, method, handler in self.routes():
            app.router.add_route(method, self.lab.prefix + path, handler)
        return app

    async def close_sockets(self, _: web.Application) -> None:
        await asyncio.gather(*(it.close(code=1001, message=b"the lab ends") for it in self.open_sockets), return_exceptions=True)

    def routes(self) -> list[tuple[str, str, Handler]]:
        student, lecturer = "/s/{secret}/", "/l/{secret}/"
        return [
            ("/static/{name}", "GET", self.static),
            (student, "GET", self.student_page),
            ("/s/{secret}", "GET", self.with_slash),
            ("/l/{secret}", "GET", self.with_slash),
            (f"{student}socket", "GET", self.student_socket),
            (f"{student}files", "GET", self.files),
            (f"{student}file", "GET", self.file),
            (f"{student}file", "POST", self.store),
            (f"{student}reset", "POST", self.reset),
            (f"{student}printout", "GET", self.printout),
            (lecturer, "GET", self.lecturer_page),
            (f"{lecturer}socket", "GET", self.lecturer_socket),
            (f"{lecturer}do", "POST", self.do),
            (f"{lecturer}savings", "GET", self.savings),
            (f"{lecturer}replay", "GET", self.replay),
            (f"{lecturer}archive.zip", "GET", self.archive),
        ]

    # ---- who comes in

    @web.middleware
    async def guarded(self, request: web.Request, handler: Handler) -> web.StreamResponse:
        if self.door is not None and request.protocol is not None:
            self.door.asks(request.protocol)
        if request.method not in ("GET", "POST"):
            return refusal(request, 405, "WrongMethod", "the lab has GET and POST alone")
        is_socket = request.headers.get("Upgrade", "").lower() == "websocket"
        try:
            if request.method == "POST" or is_socket:
                check_origin(self.lab, request)
            return await handler(request)
        except LabRefused as fault:
            return refusal(request, STATUSES.get(fault.word, 409), fault.word, fault.why)
        except Refused as fault:
            return refusal(request, 409, fault.word, fault.why)
        except WrongLine as fault:
            return refusal(request, 400, "WrongRequest", f"the host takes no such request ({fault})")
        except CpmhostError as fault:
            return refusal(request, 503, "HostGone", f"{fault}: try again in a moment")
        except web.HTTPRequestEntityTooLarge:
            return refusal(request, 413, "TooLong", "the request is longer than the lab takes")
        except web.HTTPException as fault:
            return refusal(request, fault.status, "NoPage" if fault.status == 404 else "WrongRequest", f"the lab has no such page ({fault.reason})")

    def student(self, request: web.Request) -> Session:
        found = self.students.get(self.links.owner(request.match_info["secret"]) or "")
        if found is None:
            raise LabRefused("NoLink", "this link leads to nobody of the class: ask for yours again")
        return found

    def lecturer(self, request: web.Request) -> None:
        if self.links.owner(request.match_info["secret"]) != LECTURER:
            raise LabRefused("NoLink", "this link leads to no lecturer of the class")

    @contextlib.contextmanager
    def counted(self, who: str, most: int) -> Iterator[bool]:
        """Counts the sockets of a link, and says whether there are no more than the most."""
        self.sockets[who] = self.sockets.get(who, 0) + 1
        try:
            yield self.sockets[who] <= most
        finally:
            self.sockets[who] -= 1

    @contextlib.asynccontextmanager
    async def socket(self, request: web.Request, who: str) -> AsyncIterator[tuple[web.WebSocketResponse, bool]]:
        """A socket of a link, and whether it is let in: a link has so many at a time."""
        socket = web.WebSocketResponse(max_msg_size=MOST_MESSAGE, heartbeat=20, compress=False)
        await socket.prepare(request)
        self.open_sockets.add(socket)
        try:
            with self.counted(who, self.lab.limits.windows) as is_let_in:
                if not is_let_in:
                    why = f"{self.lab.limits.windows} windows have this link open: close one, and load this one again"
                    await socket.send_json({"type": "refused", "refused": "TooManyWindows", "why": why, "is_last": True})
                    await socket.close(code=4001, message=b"TooManyWindows")
                yield socket, is_let_in
        finally:
            self.open_sockets.discard(socket)

    @contextlib.contextmanager
    def asking(self, session: Session) -> Iterator[None]:
        """Counts the requests of a link that take a host's time, until all of the answer is sent."""
        with self.counted(f"{session.id} asks", MOST_REQUESTS) as is_let_in:
            if not is_let_in:
                raise LabRefused("TooManyRequests", f"{MOST_REQUESTS} requests of this link are under way: wait for them")
            yield

    # ---- pages

    async def served(self, request: web.Request, name: str) -> web.StreamResponse:
        kind, body = self.statics[name]
        return await send_bytes(request, {"Content-Type": f"{kind}; charset=utf-8"}, body)

    async def static(self, request: web.Request) -> web.StreamResponse:
        name = request.match_info["name"]
        if name not in self.statics or name.endswith(".html"):
            raise web.HTTPNotFound()
        kind, body = self.statics[name]
        return await send_bytes(request, {"Content-Type": f"{kind}; charset=utf-8", "Cache-Control": "no-cache"}, body)

    async def student_page(self, request: web.Request) -> web.StreamResponse:
        self.student(request)
        return await self.served(request, "student.html")

    async def lecturer_page(self, request: web.Request) -> web.StreamResponse:
        self.lecturer(request)
        return await self.served(request, "lecturer.html")

    async def with_slash(self, request: web.Request) -> web.StreamResponse:
        """A link without its last slash leads to the one with it."""
        secret = request.match_info["secret"]
        if request.path == f"{self.lab.prefix}/l/{secret}":
            self.lecturer(request)
        else:
            self.student(request)
        return web.Response(status=308, headers={"Location": f"{secret}/"})

    # ---- a student

    async def student_socket(self, request: web.Request) -> web.WebSocketResponse:
        session = self.student(request)
        page = request.query.get("page", "")
        if not PAGE_NAME.fullmatch(page):
            raise LabRefused("WrongMessage", "a page has a name of 16 hexadecimal digits")
        async with self.socket(request, session.id) as (socket, is_let_in):
            if not is_let_in:
                return socket
            told = {"name": session.name, "lab": self.lab.name, "terminal": self.lab.terminal, "arrows": self.lab.arrows}
            await socket.send_json({"type": "hello", **told, "paste": self.lab.limits.paste, "wanted": session.wanted_of(page)})
            sending = asyncio.create_task(Viewer(socket, session, page).run())
            try:
                await self.listen(socket, session, page)
            finally:
                sending.cancel()
            return socket

    async def listen(self, socket: web.WebSocketResponse, session: Session, page: str) -> None:
        """Does what a student's page says, as long as it says what the lab knows."""
        rate, refusals = Rate(*MESSAGES), 0
        async for message in socket:
            await rate.wait()
            refused = self.hear(session, page, message.data if message.type == WSMsgType.TEXT else "")
            if refused:
                refusals += 1
                is_last = refusals >= MOST_REFUSALS
                await socket.send_json({**refused, "is_last": is_last})
                if is_last:
                    await socket.close(code=4002, message=b"TooManyRefusals")

    def hear(self, session: Session, page: str, data: str) -> Optional[dict[str, Any]]:
        """Does what a student's page says, or says why not."""
        refused_keys: dict[str, int] = {}
        try:
            match message_of(data):
                case {"type": "keys", "at": int(at), "keys": str(keys), **rest} if not rest and at >= 0:
                    refused_keys = {"at": at, "count": len(keys)}
                    session.type(page, at, keys)
                    self.room.wake(session)
                case {"type": "leave", "leave": bool(leave), **rest} if not rest:
                    self.room.give_leave(session, leave)
                case _:
                    raise LabRefused("WrongMessage", "the page says what the lab doesn't know: load it again")
        except LabRefused as fault:
            return {"type": "refused", "refused": fault.word, "why": fault.why, "wanted": session.wanted_of(page), **refused_keys}
        return None

    async def files(self, request: web.Request) -> web.StreamResponse:
        session = self.student(request)
        drive = request.query.get("drive", "A")
        with self.asking(session):
            return await send_json(request, {"drive": drive, "names": await self.drives.files(session, drive)})

    async def file(self, request: web.Request) -> web.StreamResponse:
        session = self.student(request)
        name = request.query.get("name", "")
        with self.asking(session):
            return await send_bytes(request, attachment(name), await self.drives.file(session, request.query.get("drive", "A"), name))

    async def store(self, request: web.Request) -> web.StreamResponse:
        session = self.student(request)
        name = request.query.get("name", "")
        with self.asking(session):
            await self.drives.store(session, request.query.get("drive", "A"), name, await request.read())
            return await send_json(request, {"stored": name})

    async def reset(self, request: web.Request) -> web.StreamResponse:
        session = self.student(request)
        with self.asking(session):
            await self.drives.reset(session)
            return await send_json(request, {"reset": session.name})

    async def printout(self, request: web.Request) -> web.StreamResponse:
        session = self.student(request)
        with self.asking(session):
            parts = await asyncio.to_thread(session.printed)
            if "save" in request.query:
                return await send(request, attachment("PRINTOUT.TXT"), pieces_of_files(parts), parts.length)
            return await send(request, JSON, object_of({"text": parts.last(MOST_BODY)}))

    # ---- the lecturer

    async def lecturer_socket(self, request: web.Request) -> web.WebSocketResponse:
        self.lecturer(request)
        async with self.socket(request, LECTURER) as (socket, is_let_in):
            if is_let_in:
                await LecturerSocket(socket, self.room).run()
        return socket

    async def do(self, request: web.Request) -> web.Response:
        self.lecturer(request)
        return web.json_response(await do(self.room, message_of(await request.read())))

    async def savings(self, request: web.Request) -> web.StreamResponse:
        self.lecturer(request)
        return await send_json(request, {"savings": self.room.savings})

    async def replay(self, request: web.Request) -> web.StreamResponse:
        """What a session showed in a life, and when."""
        self.lecturer(request)
        session = self.room.sessions.get(request.query.get("id", ""))
        number = request.query.get("life", "")
        if session is None or not re.fullmatch(r"[1-9][0-9]{0,5}", number or "1") or int(number or 1) > session.life.number:
            raise LabRefused("NoSession", "the class has no such session, or no such life of it")
        told = await asyncio.to_thread(life_told(session, int(number or session.life.number)))
        return await send(request, JSON, object_of(told))

    async def archive(self, request: web.Request) -> web.StreamResponse:
        self.lecturer(request)
        if self.collecting.locked():
            raise LabRefused("Collecting", "an archive is being made: wait for it")
        async with self.collecting:
            path = await collect(self.room)
            try:
                parts = Parts([(path, 0, path.stat().st_size)])
                return await send(request, attachment(f"{self.lab.name}.zip", "application/zip"), pieces_of_files(parts), parts.length)
            finally:
                path.unlink(missing_ok=True)


def message_of(data: str | bytes) -> dict[str, Any]:
    try:
        # (what is no UTF-8 is a ValueError too)
        found = json.loads(data)
    except (ValueError, RecursionError):
        found = None
    if not isinstance(found, dict):
        raise LabRefused("WrongMessage", "what came is no object of JSON: load the page again")
    return found
