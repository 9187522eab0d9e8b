"""A student's disks: files that are loaded and stored, and a reset."""

import shutil
from contextlib import contextmanager
from typing import Any, Iterator, Optional

from moving import until_room
from refusals import LabRefused
from room import Room
from session import Session

from cpmhost.faults import Refused, WrongLine

# the prompt of the system, where a session waits for a command
PROMPT = 0xE406
MOST_FILE = 170_000


def drive_of(session: Session, letter: str) -> int:
    drive = "ABCD".find(letter) if len(letter) == 1 else -1
    if not 0 <= drive < len(session.seat.machine.drives):
        raise LabRefused("NoDrive", f"the session has the drives A to {'ABCD'[len(session.seat.machine.drives) - 1]}")
    return drive


@contextmanager
def named(name: str) -> Iterator[None]:
    """Says of a name that no file of a disk has, what names are."""
    try:
        yield
    except (Refused, WrongLine) as fault:
        if isinstance(fault, Refused) and fault.word != "BadName":
            raise
        why = f"{name[:60]!r} is no name of a file on a disk: that has 1 to 8 characters, and up to 3 behind a point, as ESSAY.TXT"
        raise LabRefused("BadName", why) from fault


class Drives:
    """The drives of the class's sessions."""

    def __init__(self, room: Room) -> None:
        self.room = room

    async def files(self, session: Session, letter: str) -> list[str]:
        drive = drive_of(session, letter)
        async with session.bridge.copies(session.slot, drive + 1) as names:
            return str((await session.bridge.ask({"do": "files", "drive": names[drive]}))["text"]).splitlines()

    async def file(self, session: Session, letter: str, name: str) -> bytes:
        drive = drive_of(session, letter)
        async with session.bridge.copies(session.slot, drive + 1) as names:
            with named(name):
                reply = await session.bridge.ask({"do": "get", "drive": names[drive], "name": name})
            return str(reply["text"]).encode("latin-1")

    async def store(self, session: Session, letter: str, name: str, data: bytes) -> None:
        """Puts a file on a drive of a session that stands at its prompt: it begins there anew with the changed drive."""
        drive = drive_of(session, letter)
        if len(data) > MOST_FILE:
            raise LabRefused("TooLong", f"the file has {len(data):,} bytes, and {MOST_FILE:,} may be stored")
        await until_room(self.room, session.bridge)
        async with self.room.alone(session):
            look = await self.room.look(session)
            if not session.may_run or look["pc"] != PROMPT or not session.waiting or session.waiting_keys:
                raise LabRefused("NotAtPrompt", "a file is stored while the session waits at A>: end the program first")
            put = {"do": "put", "name": name, "text": data.decode("latin-1")}
            await self.begin_anew(session, f"the file {name} was stored", put, drive)

    async def reset(self, session: Session) -> None:
        """Begins anew at the prompt, with the drives as they stand: what the reset button of a machine does."""
        if session.seat.stopped or session.seat.over:
            raise LabRefused("NotRunning", session.why())
        await until_room(self.room, session.bridge)
        async with self.room.alone(session):
            await self.begin_anew(session, "a reset", None, 0)

    async def begin_anew(self, session: Session, how: str, put: Optional[dict[str, Any]], drive: int) -> None:
        """A new life with the drives of the one before, of which one gets a file if there is one. (It is had alone.)"""
        bridge, machine, scratch = session.bridge, session.seat.machine, self.room.folder.scratch
        self.check_bounds(session)
        images = [self.room.file_name("drive", "img") for _ in machine.drives]
        try:
            async with bridge.copies(session.slot, len(machine.drives)) as names:
                for copy, image in zip(names, images):
                    shutil.copyfile(scratch / copy, scratch / image)
            if put is not None:
                with named(put["name"]):
                    await bridge.ask({**put, "drive": images[drive]})
            reply = await bridge.ask({"do": "open", "cpu": machine.cpu, "quota": machine.quota, "drives": images})
            slot, base = bridge.claim(int(reply["slot"])), self.room.file_name("begun")
            try:
                kept = await bridge.save(slot, self.room.work(base))
            except BaseException:
                await bridge.close_slot(slot)
                raise
        finally:
            for image in images:
                (scratch / image).unlink(missing_ok=True)
        shown = session.last_shown()
        session.seat.kept += kept + len(shown)
        await self.room.renew(session, base, machine, shown, how, is_own=True, opened=slot)

    def check_bounds(self, session: Session) -> None:
        """Refuses a session that was begun anew often, or whose savings are large."""
        limits, seat = self.room.lab.limits, session.seat
        if seat.resets >= limits.resets:
            raise LabRefused("TooManyResets", f"the session was begun anew {seat.resets} times: ask your lecturer to set it back")
        if seat.kept >= limits.kept:
            why = f"what is kept of resets and stored files has {seat.kept:,} bytes, and it may have {limits.kept:,}: ask your lecturer to set the session back"
            raise LabRefused("TooMuchKept", why)
