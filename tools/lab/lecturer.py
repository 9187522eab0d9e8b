"""What the lecturer sees and does."""

import asyncio
import contextlib
import json
from typing import Any, Optional

from aiohttp import WSMsgType, web

from refusals import LabRefused
from room import Room
from session import Session
from viewer import Screen, Viewer

from cpmhost.faults import CpmhostError

# all screens are told so often, in seconds; each of them so much behind, and so much anew, or from where it was cleared last
SCREENS_EACH, SCREEN_FAR, SCREEN_ANEW = 0.25, 8 << 10, (6 << 10, 96 << 10)
MOST_LABEL = 60


class LecturerSocket:
    """A lecturer's page: all screens, and the one that she looks at over a shoulder."""

    def __init__(self, socket: web.WebSocketResponse, room: Room) -> None:
        self.socket, self.room = socket, room
        self.screens = {it.id: Screen(it, SCREEN_FAR, SCREEN_ANEW) for it in room.present()}
        self.versions: dict[str, int] = {}
        self.watched: Optional[Session] = None
        self.watching: Optional["asyncio.Task[None]"] = None

    async def run(self) -> None:
        lab = self.room.lab
        sessions = [{"id": it.id, "name": it.name} for it in self.room.present()]
        told = {"lab": lab.name, "terminal": lab.terminal, "arrows": lab.arrows, "leave": lab.leave}
        await self.socket.send_json({"type": "class", **told, "sessions": sessions})
        sending = asyncio.create_task(self.send())
        try:
            async for message in self.socket:
                if message.type == WSMsgType.TEXT and (refused := await self.hear(message.data)):
                    await self.socket.send_json(refused)
        finally:
            sending.cancel()
            await self.watch(None)

    async def send(self) -> None:
        with contextlib.suppress(ConnectionError):
            while not self.socket.closed:
                told = [it for session in self.room.present() if (it := self.news_of(session))]
                if told:
                    await self.socket.send_json({"type": "screens", "screens": told, "hosts": self.room.hosts_shown()})
                await asyncio.sleep(SCREENS_EACH)

    def news_of(self, session: Session) -> Optional[dict[str, Any]]:
        shown = self.screens[session.id].news()
        is_changed = self.versions.get(session.id) != session.version
        if not shown and not is_changed:
            return None
        self.versions[session.id] = session.version
        return {"id": session.id, **({"screen": shown} if shown else {}), "state": session.shown()}

    async def watch(self, session: Optional[Session]) -> None:
        if self.watching is not None:
            self.watching.cancel()
            self.watching = None
        for it, change in ((self.watched, -1), (session, 1)):
            if it is not None:
                it.lookers += change
                it.changed()
        self.watched = session
        if session is not None:
            self.watching = asyncio.create_task(Viewer(self.socket, session, more={"id": session.id}).run())

    async def hear(self, data: str) -> Optional[dict[str, Any]]:
        try:
            said = json.loads(data)
        except (ValueError, RecursionError):
            said = None
        try:
            match said:
                case {"type": "watch", "id": str(key), **rest} if not rest and (not key or key in self.room.sessions):
                    await self.watch(self.room.sessions[key] if key else None)
                case {"type": "keys", "id": str(key), "keys": str(keys), **rest} if not rest and key in self.room.sessions:
                    self.type(self.room.sessions[key], keys)
                case _:
                    raise LabRefused("WrongMessage", "the page says what the lab doesn't know: load it again")
        except LabRefused as fault:
            return {"type": "refused", "refused": fault.word, "why": fault.why}
        return None

    def type(self, session: Session, keys: str) -> None:
        """Types in a student's session, who has given leave."""
        if not session.seat.leave:
            raise LabRefused("NoLeave", f"{session.name} has given no leave: the student's page has a mark for that")
        session.type("lecturer", session.wanted_of("lecturer"), keys)
        self.room.wake(session)


def chosen(room: Room, ids: Any) -> list[Session]:
    """The sessions that a request is for."""
    if ids == "all":
        return room.present()
    if not isinstance(ids, list) or not ids or not all(isinstance(it, str) and it in room.sessions for it in ids):
        raise LabRefused("NoSession", "the class has no such session: choose one or all")
    return [room.sessions[it] for it in dict.fromkeys(ids)]


async def each(sessions: list[Session], work: Any) -> dict[str, Any]:
    """Does something with each session, and says whose was refused."""
    refused = {}
    for session in sessions:
        try:
            await work(session)
        except (LabRefused, CpmhostError) as fault:
            refused[session.name] = f"{type(fault).__name__}: {fault}" if isinstance(fault, CpmhostError) else str(fault)
    return {"done": len(sessions) - len(refused), "refused": refused}


async def do(room: Room, asked: dict[str, Any]) -> dict[str, Any]:
    """What the lecturer's page asks to be done: docs/LAB.md lists it."""
    match asked:
        case {"do": "stop" | "go" as what, "ids": ids, **rest} if not rest:
            return await each(chosen(room, ids), lambda it: room.stop(it, what == "stop"))
        case {"do": "save", "ids": ids, "label": str(label), **rest} if not rest:
            if len(label) > MOST_LABEL or not label.isprintable():
                raise LabRefused("BadLabel", f"the name of a saving has up to {MOST_LABEL} characters, and none that can't be seen: type it anew")
            return await each(chosen(room, ids), lambda it: room.save(it, label.strip() or "a saving"))
        case {"do": "back", "ids": ids, "saving": (str() | None) as saving, **rest} if not rest:
            return await each(chosen(room, ids), lambda it: room.set_back(it, saving))
        case {"do": "fork", "of": str(of), "ids": ids, **rest} if not rest and of in room.sessions:
            others = [it for it in chosen(room, ids) if it.id != of]
            fork = await room.fork(room.sessions[of])
            return await each(others, lambda it: room.become(it, fork))
        case {"do": "script", "ids": ids, "script": str(script), **rest} if not rest:
            sessions = chosen(room, ids)
            return {"done": room.broadcast(sessions, script), "refused": {it.name: it.why() for it in sessions if not it.may_run}}
    raise LabRefused("WrongMessage", "the page asks for what the lab doesn't know: load it again")
