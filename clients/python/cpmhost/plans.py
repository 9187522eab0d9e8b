"""What is asked of a host, without a pipe: a plan yields requests, is sent their replies, and returns what it has found.

Each plan is here once. `host.py` and `aio.py` make a call of each, which asks the host line by line.
"""

import os
import re
import uuid
from typing import Any, Callable, Generator, Generic, List, Optional, Pattern, Sequence, Tuple, TypeVar, Union

from .faults import BadDrives, CpmhostError, Ended, LineTooLong, LiveDrive, Timeout, fault_of
from .wire import Bytes, Granted, Look, Reply, Request, Turn, bytes_of, line_of, open_request, reply_of, serve_words, text_of

T = TypeVar("T")
R = TypeVar("R")
W = TypeVar("W")
Plan = Generator[Request, Reply, T]
Wanted = Union[str, Pattern[str]]
Outcome = Union[Reply, CpmhostError]

# how many steps a turn has at most, and how many keys a session keeps, bytes a look at its memory has, requests a line has
MOST_STEPS, MOST_KEYS, MOST_PEEKED, MOST_REQUESTS = 1_000_000, 4096, 256, 1000


def lines_of(plan: Plan[T]) -> Generator[bytes, bytes, T]:
    """A plan as lines, which is sent the lines of their replies. What is refused, or has no line, is raised in the plan."""
    try:
        request = next(plan)
        while True:
            try:
                line = line_of(request)
            except CpmhostError as fault:
                request = plan.throw(fault)
                continue
            reply = reply_of((yield line))
            refused = fault_of(reply)
            request = plan.throw(refused) if refused else plan.send(reply)
    except StopIteration as end:
        return end.value  # type: ignore[no-any-return]


def asking(request: Request) -> Plan[Reply]:
    """The plan of one request."""
    return (yield request)


class Files(Generic[T]):
    """Drives by their names: images of the folder, or the letters of a session's drives."""

    def __init__(self, drive: Callable[[str], T]) -> None:
        self._drive = drive

    def __getitem__(self, name: str) -> T:
        return self._drive(name)


class State:
    """What has a host, which it asks."""

    def __init__(self, host: Any) -> None:
        self._host = host


class HostState(State, Generic[R, W]):
    """How a host is started, where it has its files, and its plans."""

    def __init__(
        self,
        folder: Optional[str] = None,
        system: Optional[str] = None,
        frames: Optional[int] = None,
        program: Optional[str] = None,
        streams: Optional[Tuple[R, W]] = None,
        journal: Optional[str] = None,
        resume: Optional[str] = None,
        compact: bool = False,
    ) -> None:
        super().__init__(self)
        self._words = serve_words(program, folder=folder, system=system, frames=frames, journal=journal, resume=resume, compact=compact)
        self._streams = streams
        # the drives of sessions are read in these files of the folder, which no other host has
        name = uuid.uuid4().hex
        self._copies = [f".session-{name}-{letter}.img" for letter in "abcd"]
        self._folder = None if folder is None else os.path.abspath(folder)
        self._begin()

    def _begin(self) -> None:
        """What is done at once."""

    def _remove_copies(self) -> None:
        """Removes these files, where it is known which folder that is."""
        for name in self._copies:
            if self._folder is not None and os.path.exists(os.path.join(self._folder, name)):
                os.remove(os.path.join(self._folder, name))

    def _many(self, requests: Sequence[Request]) -> Plan[List[Outcome]]:
        """The replies to many requests. One that is refused or wrong has its error at its place, which isn't raised."""
        try:
            if len(requests) <= MOST_REQUESTS:
                reply = (yield {"do": "many", "requests": list(requests)}) if requests else {"replies": []}
                return [fault_of(it) or it for it in reply["replies"]]
        except LineTooLong as fault:
            if len(requests) == 1:
                return [fault]
        middle = len(requests) // 2
        return (yield from self._many(requests[:middle])) + (yield from self._many(requests[middle:]))


class SessionState(State):
    """What is known of a session here, and its plans."""

    def __init__(self, host: Any, slot: int) -> None:
        super().__init__(host)
        self.slot = slot
        #: All that the console and the list device have shown since the session was opened.
        self.console = ""
        self.list = ""
        #: Before, in and behind what was expected last, as in pexpect.
        self.before = ""
        self.match: Union[None, str, "re.Match[str]"] = None
        self.after = ""
        self.waiting = False
        self.end = "Running"
        self.is_open = True
        # what no `expect` has passed yet is the rest of the console; keys for which there was no room are typed by later turns
        self._passed = 0
        self._untyped = ""

    def _asked(self, do: str, **fields: Any) -> Request:
        return {"do": do, "slot": self.slot, **fields}

    def _type(self, keys: Bytes) -> Plan[None]:
        """Presses keys. Those for which there is no room yet are pressed by the next turns."""
        untyped = self._untyped + text_of(keys)
        reply = yield self._asked("key", keys=untyped[:MOST_KEYS])
        self._untyped = untyped[reply["accepted"] :]

    def _turn(self, keys: Bytes = "", steps: int = 100_000) -> Plan[Turn]:
        """Presses keys, executes steps up to a wait, and takes what is shown, up to 8,192 bytes of each device."""
        untyped = self._untyped + text_of(keys)
        turn = Turn.of((yield self._asked("turn", keys=untyped[:MOST_KEYS], steps=steps)))
        self._untyped = untyped[turn.accepted :]
        self.console += turn.text
        self.list += turn.list
        self.waiting, self.end = turn.waiting, turn.end
        return turn

    def _seen(self, wanted: Sequence[Wanted]) -> Optional[int]:
        """Which of the wanted comes first, if one is there; what is before it, in it and behind it is kept then."""
        first = None
        for number, want in enumerate(wanted):
            # (a pattern sees what no `expect` has passed as the whole text)
            match = re.search(want if isinstance(want, re.Pattern) else re.escape(want), self.console[self._passed :])
            if match and (first is None or match.start() < first[1].start()):
                first = number, match
        if first is None:
            return None
        number, match = first
        self.before, self.after = match.string[: match.start()], match.group()
        self.match = match if isinstance(wanted[number], re.Pattern) else match.group()
        self._passed += match.end()
        return number

    def _expect(self, wanted: Union[Wanted, Sequence[Wanted]], steps: int = 10**6) -> Plan[int]:
        """Executes steps until a text or a pattern is shown, or one of a list, and returns its place in the list."""
        all_wanted = [wanted] if isinstance(wanted, (str, re.Pattern)) else list(wanted)
        left = steps
        while True:
            number = self._seen(all_wanted)
            if number is not None:
                return number
            self.before, self.match, self.after = self.console[self._passed :], None, ""
            if self.end != "Running":
                raise Ended(f"{self.end}, without {wanted!r}: {self.before[-200:]!r}")
            if left <= 0:
                raise Timeout(f"{steps} steps without {wanted!r}: {self.before[-200:]!r}")
            length = len(self.console)
            turn = yield from self._turn("", min(left, MOST_STEPS))
            left -= turn.executed
            if turn.why == "Waiting" and turn.executed == 0 and len(self.console) == length and not self._untyped:
                raise Timeout(f"it waits for a key, without {wanted!r}: {self.before[-200:]!r}")

    def _grant(self, steps: int, until: Optional[int] = None, to: Optional[str] = None) -> Plan[Granted]:
        """Executes steps, up to an address (`until`) or to a wait (`to="wait"`)."""
        goal: Request = {} if until is None else {"until": until}
        if to is not None:
            goal["to"] = to
        reply = yield self._asked("grant", steps=steps, **goal)
        return Granted(reply["executed"], reply["why"])

    def _take(self, most: int = 8192) -> Plan[str]:
        """Takes bytes that wait on the console."""
        text = str((yield self._asked("take", most=most))["text"])
        self.console += text
        return text

    def _take_list(self, most: int = 8192) -> Plan[str]:
        """Takes bytes that wait on the list device."""
        text = str((yield self._asked("list", most=most))["text"])
        self.list += text
        return text

    def _look(self) -> Plan[Look]:
        """What is seen of the session."""
        look = Look.of((yield self._asked("look")))
        self.waiting, self.end = look.waiting, look.end
        return look

    def _peek(self, address: int, length: int = 1) -> Plan[bytes]:
        """Bytes of the memory; behind FFFFh comes 0000h."""
        found = b""
        while len(found) < length:
            part = min(MOST_PEEKED, length - len(found))
            found += bytes_of((yield self._asked("peek", address=(address + len(found)) % 65536, length=part))["text"])
        return found

    def _fork(self, other: Callable[[Any, int], "AnySession"]) -> Plan["AnySession"]:
        """A session that is the same, and has shown the same."""
        fork = other(self._host, (yield self._asked("fork"))["slot"])
        for name in ("console", "list", "before", "match", "after", "waiting", "end", "_passed", "_untyped"):
            setattr(fork, name, getattr(self, name))
        return fork

    def _save(self, file: str) -> Plan[int]:
        """Writes the session's whole state as a file of the folder, and returns its length."""
        return int((yield self._asked("save", file=file))["bytes"])

    def _close(self, out: Sequence[str] = ()) -> Plan[Look]:
        """Closes the slot. The drives are written to these files of the folder, where some are named."""
        look = Look.of((yield self._asked("close", **({"out": list(out)} if out else {}))))
        self.is_open, self.waiting, self.end = False, look.waiting, look.end
        return look


AnySession = TypeVar("AnySession", bound=SessionState)


class DriveState(State):
    """An image in the folder that no session has, or the drive of a session as it stands now, and its plans."""

    def __init__(self, host: Any, drive: str, session: Optional[SessionState] = None) -> None:
        super().__init__(host)
        self.drive, self._session = drive, session

    def _read(self, do: str, **fields: str) -> Plan[str]:
        """What a request reads of the drive. That of a session is the one of a fork, which is closed into a file of the folder."""
        if self._session is None:
            return str((yield {"do": do, "drive": self.drive, **fields})["text"])
        place = "ABCD".find(self.drive.upper()) if len(self.drive) == 1 else -1
        if place < 0:
            raise BadDrives(f"a session has the drives A to D, and not {self.drive!r}")
        copies = self._host._copies[: place + 1]
        fork = (yield self._session._asked("fork"))["slot"]
        # (on one line, so that nobody else's copy comes between)
        requests = [{"do": "close", "slot": fork, "out": copies}, {"do": do, "drive": copies[-1], **fields}]
        closed, found = yield from self._host._many(requests)
        if isinstance(closed, CpmhostError):
            yield {"do": "close", "slot": fork}
            raise closed
        if isinstance(found, CpmhostError):
            raise found
        return str(found["text"])

    def _get(self, name: str) -> Plan[str]:
        """A file's bytes, as text."""
        return self._read("get", name=name)

    def _names(self) -> Plan[List[str]]:
        """The names of its files, in the order of the directory."""
        return (yield from self._read("files")).splitlines()

    def _written(self) -> str:
        """The file of the folder that is written to."""
        if self._session is not None:
            raise LiveDrive(f"drive {self.drive} is a session's: its programs write it, and a client can only read it")
        return self.drive

    def _put(self, name: str, data: Bytes) -> Plan[int]:
        """Writes a file, in the place of one of that name, and returns how many bytes it was given."""
        return int((yield {"do": "put", "drive": self._written(), "name": name, "text": text_of(data)})["bytes"])

    def _create(self, large: bool = False) -> Plan[None]:
        """Makes the image a blank one: that of a session which is closed at once."""
        out = [self._written()]
        slot = (yield open_request("8080", 16, ["blank-large" if large else "blank"], None))["slot"]
        try:
            yield {"do": "close", "slot": slot, "out": out}
        except CpmhostError:
            yield {"do": "close", "slot": slot}
            raise
