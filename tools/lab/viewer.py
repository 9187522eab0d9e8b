"""What is sent to pages: each is as far as it has taken, and one that is late gets the last of a console anew. So a slow page holds nobody up."""

import asyncio
import time
from typing import Any, Optional

from aiohttp import web

from lives import FAR_ANEW, FAR_BEHIND, SHOWN_ANEW
from session import Session

# a page is told the state of its session so often at most, in seconds, and a text so often while a program prints
STATE_EACH, TEXT_EACH = 0.2, 0.012


def text(data: bytes) -> str:
    return data.decode("latin-1")


class Screen:
    """How far a page has taken a session's console."""

    def __init__(self, session: Session, far: int = FAR_BEHIND, anew: tuple[int, int] = (SHOWN_ANEW, FAR_ANEW)) -> None:
        self.session, self.far, self.anew = session, far, anew
        self.life, self.position = -1, 0

    def news(self) -> Optional[dict[str, Any]]:
        """What the page has not taken: text behind what it has, or the last of the console anew."""
        life = self.session.life
        behind = life.behind(self.position, self.far) if life.number == self.life else None
        if behind == b"":
            return None
        self.life, self.position = life.number, life.lengths.console
        if behind is None:
            return {"type": "anew", "life": life.number, "at": self.position, "text": text(self.session.last_shown(*self.anew))}
        return {"type": "shown", "at": self.position, "text": text(behind)}


class Viewer:
    """A page with one session: what it shows, and its state."""

    def __init__(self, socket: web.WebSocketResponse, session: Session, page: str = "", more: Optional[dict[str, Any]] = None) -> None:
        self.socket, self.session, self.page, self.more = socket, session, page, more or {}
        self.screen = Screen(session)
        self.news = asyncio.Event()
        self.version = self.typed = -1
        self.state_at = 0.0
        self.last_state: dict[str, Any] = {}

    async def run(self) -> None:
        self.session.listeners.add(self.news.set)
        try:
            self.news.set()
            while not self.socket.closed:
                await self.news.wait()
                self.news.clear()
                for message in self.messages():
                    await self.socket.send_json({**message, **self.more})
                if not self.session.waiting:
                    await asyncio.sleep(TEXT_EACH)
        except ConnectionError:
            pass
        finally:
            self.session.listeners.discard(self.news.set)

    def messages(self) -> list[dict[str, Any]]:
        found = []
        if shown := self.screen.news():
            found.append(shown)
        typed = self.session.seat.typed.get(self.page, 0)
        if self.page and typed != self.typed:
            self.typed = typed
            found.append({"type": "typed", "count": typed})
        if self.session.version != self.version:
            found += self.state()
        return found

    def state(self) -> list[dict[str, Any]]:
        """The state, if it has changed and was not told just now; else it is told a little later."""
        now, state = time.monotonic(), self.session.shown()
        is_urgent = state["is"] != self.last_state.get("is") or state["leave"] != self.last_state.get("leave")
        if not is_urgent and now < self.state_at + STATE_EACH:
            asyncio.get_running_loop().call_later(STATE_EACH, self.news.set)
            return []
        self.version, self.state_at, self.last_state = self.session.version, now, state
        return [{"type": "state", "state": state}]
