"""Who has the next turn on a host: sessions that got keys while they waited first, one turn each; behind each few of them one of those that work, in order.

A session that waits for a key is in no list, and costs nothing.
"""

import asyncio
import heapq
import itertools
import time
from collections import deque
from typing import Awaitable, Callable, Deque, Optional

from bridge import Bridge
from session import Session

# how long a turn takes, in seconds, and how many steps it has at least and at most
TURN, FEWEST, MOST = 0.002, 500, 1_000_000
# how many sessions with keys have a turn before one that works has its own: each of theirs is short, mostly
KEYS_FIRST = 4
# a session at its pace has a turn so often at most, in seconds
PACED = 0.02


class Scheduler:
    def __init__(self, bridge: Bridge, turn: Callable[[Session, int], Awaitable[int]]) -> None:
        self.bridge, self.turn = bridge, turn
        self.fresh: Deque[Session] = deque()
        self.working: Deque[Session] = deque()
        self.paced: list[tuple[float, int, Session]] = []
        self.numbers = itertools.count()
        self.news = asyncio.Event()
        # steps in a second, as turns have shown it
        self.speed = 20e6
        self.keys_first = KEYS_FIRST
        self.is_over = False

    def end(self) -> None:
        """Ends behind the turn that is under way: a turn whose reply nobody hears would be lost."""
        self.is_over = True
        self.news.set()

    def drop(self, session: Session) -> None:
        """Takes a session out that has moved to another host."""
        for queue in (self.fresh, self.working):
            if session in queue:
                queue.remove(session)
        self.paced = [it for it in self.paced if it[2] is not session]
        heapq.heapify(self.paced)
        session.is_queued = False

    def wake(self, session: Session) -> None:
        """The session may have something to do."""
        if not session.is_queued and session.has_work:
            session.is_queued = True
            (self.fresh if session.waiting_keys else self.working).append(session)
            self.news.set()

    async def next(self) -> Optional[Session]:
        while not self.is_over:
            now = time.monotonic()
            while self.paced and self.paced[0][0] <= now:
                self.working.append(heapq.heappop(self.paced)[2])
            queue = self.fresh if self.fresh and (self.keys_first or not self.working) else self.working
            if queue:
                self.keys_first = max(0, self.keys_first - 1) if queue is self.fresh else KEYS_FIRST
                session = queue.popleft()
                session.is_queued = False
                return session
            self.news.clear()
            try:
                await asyncio.wait_for(self.news.wait(), self.paced[0][0] - now if self.paced else None)
            except asyncio.TimeoutError:
                pass
        return None

    async def run(self) -> None:
        while session := await self.next():
            # (who has it alone wakes it afterwards)
            if session.alone.locked() or not session.has_work:
                continue
            async with session.alone:
                # (it may have moved meanwhile: who moved it wakes it there)
                if session.bridge is self.bridge:
                    await self.one(session)
                    self.again(session)

    async def one(self, session: Session) -> None:
        begun = time.monotonic()
        steps = min(self.steps_of_turn(), session.allowance(begun))
        if steps <= 0:
            return
        executed = await self.turn(session, steps)
        session.tokens -= executed
        if executed > FEWEST:
            self.speed += 0.1 * (executed / max(time.monotonic() - begun, 1e-6) - self.speed)

    def steps_of_turn(self) -> int:
        return int(min(max(self.speed * TURN, FEWEST), MOST))

    def again(self, session: Session) -> None:
        """Puts a session that has more to do where it has its next turn."""
        if session.is_queued or not session.has_work:
            return
        session.is_queued = True
        pace = session.lab.pace * 1000
        missing = min(self.steps_of_turn(), pace * PACED) - session.tokens
        if missing > 0:
            heapq.heappush(self.paced, (time.monotonic() + missing / pace, next(self.numbers), session))
        else:
            self.working.append(session)
        self.news.set()
