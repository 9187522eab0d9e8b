"""A student's session: where it is, what it may do, what waits to be typed, and who looks at it."""

import asyncio
import time
from collections import OrderedDict, deque
from dataclasses import asdict, dataclass, field
from pathlib import Path
from typing import TYPE_CHECKING, Any, Callable, Deque

from config import Lab
from lives import FAR_ANEW, SHOWN_ANEW, Life
from outgoing import Parts
from refusals import LabRefused
from scripts import Cue

if TYPE_CHECKING:
    from bridge import Bridge

MOST_PAGES_KNOWN = 64
# the longest burst of steps after a pause, in seconds of its pace
BURST = 0.1
ENDS = {
    "Halted": "The processor was halted, which ended the session.",
    "Illegal": "The program reached a byte that is no instruction of the {cpu}, which ended the session.",
    "Quota": "The program wrote to more memory than the session may, which is {memory} KiB, and that ended it.",
    "CountEnd": "The count of steps can't rise any more, which ended the session.",
    "Exited": "The program returned to the system, which ended the session.",
}
OVERS = {
    "steps": "It has done all of its {most:,} steps. Your lecturer can give it more.",
    "console": "It has printed all that it may, {console:,} bytes. Your lecturer can give it more.",
    "list": "It has sent all that it may to the printer, {list:,} bytes. Your lecturer can give it more.",
    "host": "Its host can't go on with it. Your lecturer can set it back.",
}


@dataclass(frozen=True)
class Machine:
    """What a session is made of."""

    cpu: str
    quota: int
    drives: tuple[int, ...]

    @staticmethod
    def of(state: dict[str, Any]) -> "Machine":
        return Machine(state["cpu"], state["quota"], tuple(state["drives"]))


@dataclass
class Typed:
    """Keys of a page that the session has not got yet; those of a script have no page."""

    page: str
    keys: str


@dataclass
class Seat:
    """What is kept of a session beside its life."""

    machine: Machine
    stopped: bool = False
    over: str = ""
    shares: int = 1
    # what it has used up in lives that the student began, and how many these are
    before_steps: int = 0
    before_console: int = 0
    before_list: int = 0
    resets: int = 0
    # how many bytes are kept of these
    kept: int = 0
    leave: bool = False
    end: str = "Running"
    script: list[Cue] = field(default_factory=list)
    script_begun: int = 0
    # how many keys of each page the session has got
    typed: "OrderedDict[str, int]" = field(default_factory=OrderedDict)

    def state(self) -> dict[str, Any]:
        return {**asdict(self), "script": [it.state() for it in self.script], "typed": list(self.typed.items())}

    @staticmethod
    def of(state: dict[str, Any]) -> "Seat":
        changed = {"machine": Machine.of(state["machine"]), "script": [Cue(*it) for it in state["script"]], "typed": OrderedDict(state["typed"])}
        return Seat(**{**state, **changed})


class Session:
    def __init__(self, lab: Lab, number: int, name: str, key: str, folder: Path) -> None:
        self.lab, self.number, self.name, self.id, self.folder = lab, number, name, key, folder
        self.life: Life
        self.seat: Seat
        self.bridge: "Bridge"
        self.slot = -1
        self.count = self.pages = 0
        self.waiting = False
        self.waiting_keys: Deque[Typed] = deque()
        self.pending = 0
        # a turn, or what must not be in one: a setting back, a fork, a look at its files
        self.alone = asyncio.Lock()
        self.is_queued = False
        self.tokens, self.paced_at = BURST * lab.pace * 1000, time.monotonic()
        self.looked_at = 0.0
        self.listeners: set[Callable[[], None]] = set()
        # the console since the last key of a script, for what it expects
        self.seen_from = 0
        self.version = 0
        # how many lecturers look over the shoulder
        self.lookers = 0

    # ---- what it may do

    @property
    def steps(self) -> int:
        """How many steps it has done in this life."""
        return self.count - self.life.base_count

    @property
    def spent(self) -> int:
        """How many steps it has done since the lecturer set it up."""
        return self.seat.before_steps + self.steps

    @property
    def most_steps(self) -> int:
        return self.lab.limits.steps * self.seat.shares

    @property
    def may_run(self) -> bool:
        return self.seat.end == "Running" and not self.seat.stopped and not self.seat.over

    @property
    def has_work(self) -> bool:
        return self.may_run and (not self.waiting or bool(self.waiting_keys))

    def allowance(self, now: float) -> int:
        """How many steps its pace leaves it now."""
        pace = self.lab.pace * 1000
        self.tokens = min(self.tokens + (now - self.paced_at) * pace, BURST * pace)
        self.paced_at = now
        if self.spent >= self.most_steps:
            self.seat.over = "steps"
        return int(min(self.tokens, self.most_steps - self.spent))

    def limit_reached(self) -> str:
        limits, lengths, seat = self.lab.limits, self.life.lengths, self.seat
        if self.spent >= self.most_steps:
            return "steps"
        if seat.before_console + lengths.console >= limits.console * seat.shares:
            return "console"
        return "list" if seat.before_list + lengths.list >= limits.list * seat.shares else ""

    def spend(self, is_own: bool) -> None:
        """Adds what this life has used up to what is counted, where the student begins the next one; the lecturer's begins to count anew."""
        seat, lengths = self.seat, self.life.lengths
        if is_own:
            seat.before_steps, seat.resets = self.spent, seat.resets + 1
            seat.before_console, seat.before_list = seat.before_console + lengths.console, seat.before_list + lengths.list
        else:
            seat.before_steps = seat.before_console = seat.before_list = seat.resets = seat.kept = 0
            seat.shares = 1

    # ---- keys

    def type(self, page: str, at: int, keys: str) -> None:
        """Keys of a page, of which the first is its key number `at`: those that came already are passed over."""
        wanted = self.wanted_of(page)
        if at > wanted:
            raise LabRefused("LostKeys", "keys before these have not come; the page sends them again once it is connected anew")
        new = keys[wanted - at :]
        if not new:
            return
        if any(it > "\x7f" for it in new):
            raise LabRefused("BadKey", "a key is a byte below 80h; no letter with an accent is one")
        if not self.may_run:
            raise LabRefused("NotRunning", self.why())
        if self.pending + len(new) > self.lab.limits.paste:
            raise LabRefused("TooManyKeys", f"{self.pending:,} keys wait, and {self.lab.limits.paste:,} may: type on once the program has read some")
        self.queue(Typed(page, new))

    def queue(self, typed: Typed) -> None:
        self.waiting_keys.append(typed)
        self.pending += len(typed.keys)

    def wanted_of(self, page: str) -> int:
        """The number of the next key of a page."""
        return self.seat.typed.get(page, 0) + sum(len(it.keys) for it in self.waiting_keys if it.page == page)

    def next_keys(self, most: int = 4096) -> str:
        keys = ""
        for it in self.waiting_keys:
            keys += it.keys
            if len(keys) >= most:
                break
        return keys[:most]

    def got(self, accepted: int) -> None:
        """Notes that the session has got so many keys."""
        self.pending -= accepted
        while accepted and self.waiting_keys:
            first = self.waiting_keys[0]
            part = min(accepted, len(first.keys))
            accepted, first.keys = accepted - part, first.keys[part:]
            if first.page:
                self.seat.typed[first.page] = self.seat.typed.get(first.page, 0) + part
                self.seat.typed.move_to_end(first.page)
            if not first.keys:
                self.waiting_keys.popleft()
                if not first.page and self.seat.script:
                    # (a line of a script is in it until its keys are typed, so that a service that is killed types them)
                    self.seat.script.pop(0)
        while len(self.seat.typed) > MOST_PAGES_KNOWN:
            self.seat.typed.popitem(last=False)

    def forget_keys(self) -> None:
        """Drops what waits to be typed: it was for another life. It counts as typed, so that no page sends it again."""
        self.seat.script = []
        self.got(self.pending)
        self.waiting_keys.clear()
        self.pending = 0

    def play(self, cues: list[Cue]) -> None:
        self.seat.script, self.seat.script_begun, self.seen_from = list(cues), self.steps, self.life.lengths.console

    def cue(self) -> bool:
        """Types the next keys of the script that is played, if they come now."""
        if not self.seat.script or self.waiting_keys or not self.may_run:
            return False
        first = self.seat.script[0]
        behind = self.life.behind(self.seen_from, len(self.life.recent))
        seen = bytes(self.life.recent) if behind is None else behind
        if not first.comes(self.steps - self.seat.script_begun, self.waiting, seen):
            return False
        self.queue(Typed("", first.keys))
        self.seen_from = self.life.lengths.console
        return True

    def last_shown(self, most: int = SHOWN_ANEW, far: int = FAR_ANEW) -> bytes:
        """The last of what it has shown, for a screen that begins with it."""
        return self.life.last(self.lab.terminal, most, far)

    def printed(self) -> Parts:
        """Where that stands which it has sent to the printer in all its lives: paper stays printed."""
        life = self.life
        before = [self.folder / str(number) / "list" for number in range(1, life.number)]
        return Parts([*((it, 0, it.stat().st_size) for it in before if it.exists()), (life.folder / "list", 0, life.lengths.list)])

    # ---- what is told of it

    def why(self) -> str:
        """Why it doesn't go on, in plain words; nothing where it does."""
        seat, limits = self.seat, self.lab.limits
        if seat.end != "Running":
            return ENDS.get(seat.end, "The session ended: {end}.").format(cpu=seat.machine.cpu.upper(), memory=seat.machine.quota // 4, end=seat.end)
        if seat.over:
            return OVERS[seat.over].format(most=self.most_steps, console=limits.console * seat.shares, list=limits.list * seat.shares)
        return "Your lecturer has stopped the session for now." if seat.stopped else ""

    def shown(self) -> dict[str, Any]:
        """What a page is told of it."""
        seat, lengths = self.seat, self.life.lengths
        what = "ended" if seat.end != "Running" else "over" if seat.over else "stopped" if seat.stopped else "waits" if self.waiting else "works"
        return {
            "is": what, "why": self.why(), "steps": self.spent, "most": self.most_steps, "pages": self.pages, "quota": seat.machine.quota,
            "cpu": seat.machine.cpu, "drives": len(seat.machine.drives), "leave": seat.leave,
            "console": seat.before_console + lengths.console, "list": seat.before_list + lengths.list,
            "life": self.life.number, "script": len(seat.script), "pending": self.pending, "looked": self.lookers > 0,
        }  # fmt: skip

    def entry(self) -> dict[str, Any]:
        """What is kept of it behind a turn: how far its files are true, how it ended, the keys of the page that typed last, what is left of a script."""
        lengths, seat = self.life.lengths, self.seat
        entry: dict[str, Any] = {"s": self.number, "n": self.count, "c": lengths.console, "l": lengths.list, "r": lengths.record, "e": seat.end, "o": seat.over}
        if seat.typed:
            page, count = next(reversed(seat.typed.items()))
            entry["p"] = {page: count}
        return {**entry, "x": len(seat.script)}

    @staticmethod
    def change(state: dict[str, Any], entry: dict[str, Any]) -> None:
        """Changes what is kept of a session by such an entry."""
        state["life"]["lengths"] = {"console": entry["c"], "list": entry["l"], "record": entry["r"]}
        state["count"], seat = entry["n"], state["seat"]
        seat["end"], seat["over"] = entry["e"], entry["o"]
        seat["typed"] = list({**{page: count for page, count in seat["typed"]}, **entry.get("p", {})}.items())
        seat["script"] = seat["script"][max(0, len(seat["script"]) - entry["x"]) :]

    def state(self) -> dict[str, Any]:
        """What is kept of it."""
        return {
            "number": self.number, "name": self.name, "id": self.id, "host": self.bridge.number, "slot": self.slot, "count": self.count,
            "life": self.life.state(), "seat": self.seat.state(),
        }  # fmt: skip

    def changed(self) -> None:
        self.version += 1
        for listener in list(self.listeners):
            listener()
