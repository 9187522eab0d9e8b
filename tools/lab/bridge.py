"""A host: `cpmhost serve` with its journal, which is made again where it is lost."""

import asyncio
import itertools
import json
import mmap
import os
import re
import time
from contextlib import asynccontextmanager
from pathlib import Path
from typing import Any, AsyncIterator, Optional

from paths import Folder
from refusals import LabRefused
from savings import pack, unpack

from cpmhost import AsyncHost
from cpmhost.faults import HostGone, NoSuchSlot, Refused

# of the 64 slots of a host, those that sessions have; the others are for forks whose drives are read, and for sessions that move
MOST_SESSIONS = 58
TAG = re.compile(rb'"tag":([0-9]+)\}$')
WAIT_FOR_LOCK, MOST_REVIVALS = 5.0, 5


def cut_off(journal: Path, last_tag: int) -> None:
    """Cuts a journal off before its first request whose reply nobody has seen."""
    size = journal.stat().st_size
    if not size:
        return
    with open(journal, "r+b") as file, mmap.mmap(file.fileno(), 0, access=mmap.ACCESS_READ) as text:
        cut, end = size, text.rfind(b"\n") + 1
        while end > 0:
            begin = text.rfind(b"\n", 0, end - 1) + 1
            # (a saving is long and has no tag; so has a `close`)
            if end - begin < 1 << 20 and (tag := TAG.search(text[begin : end - 1])):
                if int(tag[1]) <= last_tag:
                    break
                cut = begin
            end = begin
    if cut < size:
        os.truncate(journal, cut)


class Bridge:
    """One host. Its requests are asked one after another, so that replies are stored in the order of its journal."""

    def __init__(self, folder: Folder, number: int, program: str, system: Optional[Path], last_tag: int = 0) -> None:
        self.folder, self.number, self.program, self.system = folder, number, program, system
        self.journal = folder.journals / f"host-{number}.journal"
        self.last_tag = last_tag
        self.next_tag = last_tag + 1
        self.host: Optional[AsyncHost] = None
        # the slots of sessions, and how many steps the journal takes to be done again
        self.slots: set[int] = set()
        self.highest = -1
        self.steps = 0
        # when it began here, and how many bytes its journal had once all of its sessions were there
        self.begun_at, self.begun_size = time.monotonic(), 0
        self.revivals = 0
        self.one_at_a_time = asyncio.Lock()
        # who has the files that drives are copied to, and the numbers of files that pass through
        self.copying = asyncio.Lock()
        self.passing = itertools.count()
        self.is_closed = False

    @property
    def pid(self) -> Optional[int]:
        return self.host.process.pid if self.host and self.host.process else None

    async def start(self) -> None:
        """Starts the host, which goes on with its journal where there is one. (A host that was left behind ends by itself, and has the journal until then.)"""
        until, wait = time.monotonic() + WAIT_FOR_LOCK, 0.02
        while True:
            known = self.journal.exists()
            how: dict[str, Any] = {"resume" if known else "journal": str(self.journal)}
            system = None if self.system is None else str(self.system)
            self.host = await AsyncHost(program=self.program, folder=str(self.folder.scratch), system=system, **how).start()
            try:
                await self.host.ask({"do": "look", "slot": 0})
                return
            except NoSuchSlot:
                return
            except HostGone:
                await self.host.close()
                if time.monotonic() > until:
                    raise LabRefused("HostGone", f"the host with {self.journal} doesn't begin: see above what it said, and start the lab again") from None
                await asyncio.sleep(wait)
                wait *= 2

    async def revive(self) -> None:
        """A host that was lost is made again, as it stood with its last reply."""
        assert self.host is not None
        self.revivals += 1
        if self.host.process is not None and self.host.process.returncode is None:
            self.host.process.kill()
        await self.host.close()
        cut_off(self.journal, self.last_tag)
        await self.start()
        await self.close_unclaimed()

    async def close_unclaimed(self) -> None:
        """Closes slots that nobody has: one whose opening was kept and not replied, or a fork that was being read."""
        assert self.host is not None
        for slot in range(self.highest + 9):
            if slot not in self.slots:
                try:
                    await self.host.ask({"do": "close", "slot": slot})
                    self.highest = max(self.highest, slot)
                except NoSuchSlot:
                    pass

    async def ask(self, request: dict[str, Any]) -> dict[str, Any]:
        """The reply to a request. If the host is lost meanwhile, it is made again and asked anew."""
        async with self.one_at_a_time:
            return await self.ask_alone(request)

    async def ask_alone(self, request: dict[str, Any]) -> dict[str, Any]:
        for _ in range(MOST_REVIVALS):
            assert self.host is not None
            tag, self.next_tag = self.next_tag, self.next_tag + 1
            try:
                reply = await self.host.ask({**request, "tag": tag})
            except HostGone:
                if self.is_closed:
                    raise
                await self.revive()
                continue
            except Refused:
                self.last_tag = tag
                raise
            self.last_tag = tag
            return reply
        raise LabRefused("HostGone", "the host ends at this request again and again: see what it said, and start the lab again")

    async def open_from(self, saving: Path) -> int:
        """Opens a session from a saving that is kept."""
        passing = self.folder.scratch / f"open-{self.number}-{next(self.passing)}.sav"
        try:
            await asyncio.to_thread(unpack, saving, passing)
            return await self.open_file(passing)
        finally:
            passing.unlink(missing_ok=True)

    async def open_file(self, passing: Path) -> int:
        """Opens a session from a saving in the scratch folder."""
        reply = await self.ask({"do": "open", "from": passing.name})
        return self.claim(int(reply["slot"]))

    @asynccontextmanager
    async def saved(self, slot: int) -> AsyncIterator[Path]:
        """A file of the scratch folder with a session as it stands. (The host writes to memory, so that nobody waits for a device.)"""
        passing = self.folder.scratch / f"save-{self.number}-{next(self.passing)}.sav"
        try:
            await self.ask({"do": "save", "slot": slot, "file": passing.name})
            yield passing
        finally:
            passing.unlink(missing_ok=True)

    async def save(self, slot: int, saving: Path) -> int:
        """Keeps a session as it stands, and says how many bytes that takes."""
        async with self.saved(slot) as passing:
            return await asyncio.to_thread(pack, passing, saving)

    def size(self) -> int:
        """How many bytes its journal has."""
        return self.journal.stat().st_size if self.journal.exists() else 0

    def claim(self, slot: int) -> int:
        self.slots.add(slot)
        self.highest = max(self.highest, slot)
        return slot

    async def close_slot(self, slot: int) -> None:
        self.slots.discard(slot)
        try:
            await self.ask({"do": "close", "slot": slot})
        except NoSuchSlot:
            pass

    @asynccontextmanager
    async def copies(self, slot: int, count: int) -> AsyncIterator[list[str]]:
        """Files of the scratch folder that have a session's drives as they stand, by a fork that is closed into them."""
        names = [f"copy-{self.number}-{letter}.img" for letter in "abcd"[:count]]
        async with self.copying:
            fork = int((await self.ask({"do": "fork", "slot": slot}))["slot"])
            self.highest = max(self.highest, fork)
            try:
                await self.ask({"do": "close", "slot": fork, "out": names})
            except Refused:
                await self.ask({"do": "close", "slot": fork})
                raise
            yield names

    async def close(self) -> None:
        self.is_closed = True
        if self.host is not None:
            async with self.one_at_a_time:
                await self.host.close()


def line_of(value: dict[str, Any]) -> bytes:
    return json.dumps(value, separators=(",", ":")).encode() + b"\n"
