"""The class: its sessions on their hosts, their turns, and what the lecturer does with them."""

import asyncio
import json
import sys
import time
from contextlib import asynccontextmanager
from dataclasses import dataclass
from pathlib import Path
from typing import Any, AsyncIterator, Iterable, Optional

from bridge import Bridge, cut_off
from config import Lab
from lives import Lengths, Life
from log import Log
from moving import has_room, until_room
from paths import Folder, slug
from refusals import LabRefused
from scheduler import Scheduler
from scripts import cues_of
from session import Machine, Seat, Session
from start import Beginning, key_of, make_beginning, system_drive

from cpmhost.faults import CpmhostError

LOOK_AGAIN, MOST_SAVINGS = 0.25, 200


@dataclass(frozen=True)
class Fork:
    """What other sessions become: a saving, what it is made of, and what its screen showed."""

    saving: str
    machine: Machine
    shown: bytes
    how: str


class Room:
    def __init__(self, lab: Lab, folder: Folder) -> None:
        self.lab, self.folder = lab, folder
        self.log = Log(folder)
        self.bridges: dict[int, Bridge] = {}
        self.schedulers: dict[int, Scheduler] = {}
        self.tasks: dict[int, "asyncio.Task[None]"] = {}
        self.sessions: dict[str, Session] = {}
        self.savings: list[dict[str, Any]] = []
        self.next_file = self.next_host = 1
        self.start: Beginning
        self.system: Optional[Path] = None
        self.begun = time.time()
        self.fault: "asyncio.Future[None]"
        self.is_over = False

    # ---- the morning

    async def open(self) -> None:
        """Opens the class anew, or goes on where it stood."""
        self.fault = asyncio.get_running_loop().create_future()
        self.system = system_drive(self.lab, self.folder)
        for left in (*self.folder.top.glob("archive-*.zip"), *self.folder.work.glob("*.new")):
            left.unlink()
        state = self.log.read()
        is_same = state and state["start"]["key"] == key_of(self.lab)
        self.start = Beginning.of(state["start"]) if is_same else await make_beginning(self.lab, self.folder, self.system)
        if state:
            await self.go_on(state)
        known = {it.name for it in self.sessions.values()}
        self.log.begin(self.state())
        for name in self.lab.students:
            if name not in known:
                await self.add(name)
        self.log.begin(self.state())
        for session in self.sessions.values():
            self.wake(session)

    async def go_on(self, state: dict[str, Any]) -> None:
        hosts, sessions = set(state["hosts"]), {it["number"]: it for it in state["sessions"]}
        tags = {int(number): int(tag) for number, tag in state["tags"]}
        self.savings, self.next_file = state["savings"], state["next_file"]
        for entry in state["behind"]:
            self.read_entry(entry, hosts, sessions, tags)
        self.next_host = max([*hosts, state["next_host"] - 1]) + 1
        wanted = {it["host"] for it in sessions.values()}
        await asyncio.gather(*(self.start_host(number, tags.get(number, 0), sessions) for number in sorted(wanted)))
        for it in sessions.values():
            await self.seat_again(it)
        for bridge in self.bridges.values():
            await bridge.close_unclaimed()
        for path in self.folder.journals.glob("host-*.journal"):
            if int(path.stem[5:]) not in self.bridges:
                path.unlink()

    def read_entry(self, entry: dict[str, Any], hosts: set[int], sessions: dict[int, dict[str, Any]], tags: dict[int, int]) -> None:
        """What a line of the log changes."""
        tags[entry["h"]] = entry["t"]
        hosts.add(entry["h"])
        if "session" in entry:
            sessions[entry["session"]["number"]] = entry["session"]
        if "saving" in entry:
            self.savings.append(entry["saving"])
        self.next_file = max(self.next_file, entry.get("f", 0))
        if "s" in entry:
            Session.change(sessions[entry["s"]], entry)

    async def start_host(self, number: int, last_tag: int, sessions: dict[int, dict[str, Any]]) -> None:
        bridge = Bridge(self.folder, number, self.lab.program, self.system, last_tag)
        if bridge.journal.exists():
            cut_off(bridge.journal, last_tag)
        begun = time.monotonic()
        await bridge.start()
        # (what took long to do again does so the next time too, unless it moves)
        bridge.steps = int((time.monotonic() - begun) * self.lab.limits.redone)
        for it in sessions.values():
            if it["host"] == number:
                bridge.claim(it["slot"])
        self.have(bridge)

    async def seat_again(self, state: dict[str, Any]) -> None:
        """A session that stood in a slot yesterday."""
        session = Session(self.lab, state["number"], state["name"], state["id"], self.folder.sessions / state["id"])
        session.life, session.seat = Life.of(session.folder, state["life"]), Seat.of(state["seat"])
        session.bridge, session.slot = self.bridges[state["host"]], state["slot"]
        self.sessions[session.id] = session
        typed = [it["c"] for it in session.life.entries() if it.get("keys")] if session.seat.script else []
        session.seen_from = typed[-1] if typed else session.life.lengths.console
        await self.look(session)
        if session.count < state["count"]:
            # (its journal has lost its end with the machine's power: what its life showed is further than it is now)
            saving, session.count = self.file_name("lost"), state["count"]
            await session.bridge.save(session.slot, self.work(saving))
            await self.renew(session, saving, session.seat.machine, session.last_shown(), "the machine lost its last seconds", is_own=True)
        session.seat.over = session.seat.over or (session.limit_reached() if session.seat.end == "Running" else "")

    # ---- hosts

    def have(self, bridge: Bridge) -> None:
        self.bridges[bridge.number] = bridge
        scheduler = self.schedulers[bridge.number] = Scheduler(bridge, self.turn)
        task = self.tasks[bridge.number] = asyncio.create_task(scheduler.run())
        task.add_done_callback(self.ended)

    def ended(self, task: "asyncio.Task[None]") -> None:
        """A scheduler that ends by a fault ends the service, which is started again."""
        if not task.cancelled() and not self.is_over and (fault := task.exception()) and not self.fault.done():
            self.fault.set_exception(fault)

    async def new_host(self) -> Bridge:
        bridge = Bridge(self.folder, self.next_host, self.lab.program, self.system)
        self.next_host += 1
        await bridge.start()
        self.have(bridge)
        return bridge

    async def host_with_room(self) -> Bridge:
        for bridge in self.bridges.values():
            if has_room(bridge):
                return bridge
        return await self.new_host()

    # ---- turns

    def wake(self, session: Session) -> None:
        session.cue()
        self.schedulers[session.bridge.number].wake(session)

    async def turn(self, session: Session, steps: int) -> int:
        """One turn of a session, whose reply is kept before anybody sees it."""
        keys, bridge = session.next_keys(), session.bridge
        try:
            reply = await bridge.ask({"do": "turn", "slot": session.slot, "keys": keys, "steps": steps})
        except CpmhostError as fault:
            if self.is_over:
                raise
            print(f"lab: {session.name}: {type(fault).__name__}: {fault}", file=sys.stderr, flush=True)
            session.seat.over = "host"
            session.changed()
            return 0
        executed, text, printed = int(reply["executed"]), reply["text"].encode("latin-1"), reply["list"].encode("latin-1")
        bridge.steps += executed
        accepted = int(reply["accepted"])
        if accepted or text or printed:
            session.life.typed(session.steps, time.time() - session.life.begun, keys[:accepted])
            session.life.append("console", text)
            session.life.append("list", printed)
        session.got(accepted)
        session.count += executed
        # (a device whose bytes filled the reply may have more)
        session.waiting = bool(reply["waiting"]) and max(len(text), len(printed)) < 8192 and reply["why"] != "Blocked"
        is_news = accepted or text or printed or reply["end"] != session.seat.end
        session.seat.end, session.seat.over = reply["end"], session.limit_reached() if reply["end"] == "Running" else ""
        if is_news or session.seat.over:
            self.keep_turn(session)
        session.cue()
        await self.look_at_times(session)
        session.changed()
        return executed

    async def look_at_times(self, session: Session) -> None:
        now = time.monotonic()
        if session.waiting or session.seat.end != "Running" or now > session.looked_at + LOOK_AGAIN:
            session.looked_at = now
            session.pages = int((await session.bridge.ask({"do": "look", "slot": session.slot}))["pages"])

    async def look(self, session: Session) -> dict[str, Any]:
        look = await session.bridge.ask({"do": "look", "slot": session.slot})
        session.count, session.pages, session.waiting, session.seat.end = look["count"], look["pages"], look["waiting"], look["end"]
        session.waiting = session.waiting and not look["console"] and not look["list"]
        return look

    def keep_turn(self, session: Session) -> None:
        self.log.add({"h": session.bridge.number, "t": session.bridge.last_tag, **session.entry()})

    def keep(self, session: Session, **more: Any) -> None:
        """Keeps all that is known of a session."""
        self.log.add({"h": session.bridge.number, "t": session.bridge.last_tag, "f": self.next_file, "session": session.state(), **more})

    def state(self) -> dict[str, Any]:
        tags = [[it.number, it.last_tag] for it in self.bridges.values()]
        own = {"hosts": list(self.bridges), "next_host": self.next_host, "next_file": self.next_file, "tags": tags, "savings": self.savings}
        own["start"] = self.start.state()
        return {**own, "sessions": [it.state() for it in self.sessions.values()]}

    # ---- what is done with a session

    @asynccontextmanager
    async def alone(self, session: Session) -> AsyncIterator[Session]:
        """Has a session between two turns."""
        try:
            async with session.alone:
                yield session
        finally:
            session.changed()
            self.wake(session)

    def work(self, name: str) -> Path:
        """A saving that is kept."""
        return self.folder.work / name

    def file_name(self, kind: str, end: str = "sav") -> str:
        name, self.next_file = f"{kind}-{self.next_file}.{end}", self.next_file + 1
        return name

    async def add(self, name: str) -> None:
        """A student's first session."""
        number = max((it.number for it in self.sessions.values()), default=0) + 1
        key = slug(name, number)
        session = Session(self.lab, number, name, key, self.folder.sessions / key)
        session.bridge = await self.host_with_room()
        session.slot = await session.bridge.open_from(self.work(self.start.saving))
        session.seat = Seat(self.start.machine, leave=self.lab.leave == "given")
        session.life = Life(session.folder, 1, self.start.saving, 0, "its start", time.time(), Lengths())
        session.life.begin_behind(self.work(f"{self.start.saving}.screen").read_bytes())
        session.life.base_count = (await self.look(session))["count"]
        self.sessions[session.id] = session
        self.keep(session)

    async def renew(
        self, session: Session, saving: str, machine: Machine, shown: bytes, how: str, is_own: bool = False, opened: Optional[int] = None
    ) -> None:
        """A new life of a session, which goes on from a saving, or in a slot that stands where the saving does. (It is had alone.)"""
        slot = await session.bridge.open_from(self.work(saving)) if opened is None else opened
        before, session.slot, steps = session.slot, slot, session.steps
        session.forget_keys()
        session.spend(is_own)
        look = await self.look(session)
        session.seat.machine, session.seat.over = machine, ""
        number = session.life.number + 1
        told = {"saving": session.life.base, "steps": steps, "how": session.life.how, "begun": int(session.life.begun)}
        (session.life.folder / "life.json").write_text(json.dumps(told, indent=1), encoding="utf-8")
        session.life.close()
        session.life = Life(session.folder, number, saving, look["count"], how, time.time(), Lengths())
        session.life.begin_behind(shown)
        session.seen_from = 0
        self.keep(session)
        await session.bridge.close_slot(before)

    async def save(self, session: Session, label: str) -> dict[str, Any]:
        """Saves a session under a label."""
        if len(self.savings) >= MOST_SAVINGS:
            raise LabRefused("TooManySavings", f"the class has {MOST_SAVINGS} savings: go on with these")
        async with self.alone(session):
            return await self.save_alone(session, label)

    async def save_alone(self, session: Session, label: str) -> dict[str, Any]:
        name = self.file_name("saving")
        await session.bridge.save(session.slot, self.work(name))
        self.work(f"{name}.screen").write_bytes(session.last_shown())
        saving = {"file": name, "label": label, "of": session.id, "name": session.name, "when": int(time.time()), "steps": session.steps}
        saving |= {"machine": session.seat.state()["machine"]}
        self.savings.append(saving)
        self.keep(session, saving=saving)
        return saving

    async def set_back(self, session: Session, file: Optional[str]) -> None:
        """Sets a session back to its start, or to a saving, which may be another student's."""
        if file is None:
            saving, machine, shown, how = self.start.saving, self.start.machine, self.work(f"{self.start.saving}.screen").read_bytes(), "its start"
        else:
            found = next((it for it in self.savings if it["file"] == file), None)
            if found is None:
                raise LabRefused("NoSaving", "the class has no such saving")
            saving, machine, how = found["file"], Machine.of(found["machine"]), f"the saving {found['label']!r} of {found['name']}"
            shown = self.work(f"{file}.screen").read_bytes()
        await until_room(self, session.bridge)
        async with self.alone(session):
            await self.renew(session, saving, machine, shown, how)

    async def fork(self, of: Session) -> Fork:
        """A session as it stands at this moment, for others to become."""
        name = self.file_name("fork")
        async with self.alone(of):
            await of.bridge.save(of.slot, self.work(name))
            return Fork(name, of.seat.machine, of.last_shown(), f"a fork of {of.name}")

    async def become(self, session: Session, fork: Fork) -> None:
        await until_room(self, session.bridge)
        async with self.alone(session):
            await self.renew(session, fork.saving, fork.machine, fork.shown, fork.how)

    async def stop(self, session: Session, stopped: bool) -> None:
        """Stops a session, or lets it go on; one that has used up what it may gets as much once more."""
        async with self.alone(session):
            session.seat.stopped = stopped
            if not stopped and session.seat.over:
                session.seat.over, session.seat.shares = "", session.seat.shares + 1
            self.keep(session)

    def broadcast(self, sessions: Iterable[Session], script: str) -> int:
        """Has a key script typed in sessions, and says in how many: those that run."""
        cues, count = cues_of(script), 0
        for session in sessions:
            if session.may_run:
                session.play([*cues])
                self.keep(session)
                self.wake(session)
                session.changed()
                count += 1
        return count

    def give_leave(self, session: Session, leave: bool) -> None:
        session.seat.leave = leave
        self.keep(session)
        session.changed()

    # ---- what is told of the class

    def present(self) -> list[Session]:
        """The sessions of the students that lab.toml names, in its order."""
        by_name = {it.name: it for it in self.sessions.values()}
        return [by_name[name] for name in self.lab.students if name in by_name]

    def hosts_shown(self) -> list[dict[str, Any]]:
        return [{"number": it.number, "sessions": len(it.slots), "revivals": it.revivals} for it in self.bridges.values()]

    # ---- the evening

    async def close(self) -> None:
        self.is_over = True
        for scheduler in self.schedulers.values():
            scheduler.end()
        await asyncio.gather(*self.tasks.values(), return_exceptions=True)
        if self.log.file >= 0 and self.folder.is_ours():
            self.log.begin(self.state())
        for bridge in self.bridges.values():
            bridge.is_closed = True
        await asyncio.gather(*(it.close() for it in self.bridges.values()))
