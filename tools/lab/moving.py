"""When a host moves to a new journal: a journal is done again step by step, so one that is long would keep a class waiting after a kill."""

import asyncio
import time
from typing import TYPE_CHECKING

from bridge import MOST_SESSIONS, Bridge

if TYPE_CHECKING:
    from room import Room

# a host takes no more sessions once its journal has the first number of bytes, and moves once that has the second one, but as many more as the third says than
# it began with
MOST_BEGUN, MOST_KEPT, LEAST_ADDED = 40 << 20, 64 << 20, 24 << 20
# or it moves once it has the steps of `redone`, not sooner than behind these seconds; with such a pause behind each session, in which keys that came meanwhile
# have their turns
LEAST_TIME, BETWEEN_MOVES = 2.0, 0.01
LOOK_EACH, WAIT_EACH = 0.25, 0.05


def has_room(bridge: Bridge) -> bool:
    """Whether a host takes one more session."""
    return len(bridge.slots) < MOST_SESSIONS and bridge.size() < MOST_BEGUN


def is_full(bridge: Bridge) -> bool:
    """Whether a journal has too many bytes. (What it began with is there again behind a move.)"""
    return bridge.size() > max(MOST_KEPT, bridge.begun_size + LEAST_ADDED)


async def until_room(room: "Room", bridge: Bridge) -> None:
    """Waits while a host with a full journal moves: so nobody fills it more quickly than it moves."""
    while bridge.number in room.bridges and is_full(bridge) and not room.is_over:
        await asyncio.sleep(WAIT_EACH)


async def watch(room: "Room") -> None:
    """Moves the sessions of a host whose journal would take long to be done again to a new one."""
    while True:
        await asyncio.sleep(LOOK_EACH)
        if room.log.is_long:
            await room.log.begin_beside(room.state())
        for bridge in list(room.bridges.values()):
            is_old = time.monotonic() > bridge.begun_at + LEAST_TIME
            if is_full(bridge) or bridge.steps > room.lab.limits.redone and is_old:
                await move(room, bridge)


async def move(room: "Room", old: Bridge) -> None:
    """Moves each session in its turn, while the others go on."""
    new = await room.new_host()
    for session in list(room.sessions.values()):
        if session.bridge is old:
            if not has_room(new):
                new.begun_size = new.size()
                new = await room.new_host()
            async with room.alone(session):
                async with old.saved(session.slot) as saving:
                    slot = await new.open_file(saving)
                before, session.bridge, session.slot = session.slot, new, slot
                room.schedulers[old.number].drop(session)
                room.keep(session)
                await old.close_slot(before)
            await asyncio.sleep(BETWEEN_MOVES)
    new.begun_size = new.size()
    room.schedulers[old.number].end()
    await room.tasks.pop(old.number)
    del room.bridges[old.number], room.schedulers[old.number]
    await old.close()
    await room.log.begin_beside(room.state())
    old.journal.unlink(missing_ok=True)
