"""A host, its sessions and its files, driven line by line."""

import functools
import subprocess
from types import TracebackType
from typing import TYPE_CHECKING, BinaryIO, Callable, Iterator, Optional, Sequence, Type, TypeVar

from .faults import HostGone
from .plans import DriveState, Files, HostState, Plan, SessionState, State, asking, lines_of
from .wire import Bytes, Reply, Request, open_request

if TYPE_CHECKING:
    from typing import Concatenate, ParamSpec

    P = ParamSpec("P")
S = TypeVar("S", bound=State)
T = TypeVar("T")


def asked(plan: "Callable[Concatenate[S, P], Plan[T]]") -> "Callable[Concatenate[S, P], T]":
    """The call that asks what a plan asks, and returns what it has found."""

    @functools.wraps(plan)
    def call(self: S, /, *words: "P.args", **named: "P.kwargs") -> T:
        found: T = self._host.run(plan(self, *words, **named))
        return found

    call.__name__ = plan.__name__.strip("_")
    return call


class Session(SessionState):
    """A session in a slot. As a context manager it is closed at the end."""

    type = asked(SessionState._type)
    turn = asked(SessionState._turn)
    expect = asked(SessionState._expect)
    grant = asked(SessionState._grant)
    take = asked(SessionState._take)
    take_list = asked(SessionState._take_list)
    look = asked(SessionState._look)
    peek = asked(SessionState._peek)
    save = asked(SessionState._save)
    close = asked(SessionState._close)

    def fork(self) -> "Session":
        """Another session that is the same, and has shown the same."""
        fork: Session = self._host.run(self._fork(Session))
        return fork

    @property
    def files(self) -> "Files[Drive]":
        """Its drives as they stand now: `session.files["A"]["HELLO.TXT"]` is a file's bytes, as text."""
        return Files(lambda letter: Drive(self._host, letter, self))

    def __enter__(self) -> "Session":
        return self

    def __exit__(self, kind: Optional[Type[BaseException]], fault: Optional[BaseException], trace: Optional[TracebackType]) -> None:
        if self.is_open and not isinstance(fault, HostGone):
            self.close()


class Drive(DriveState):
    """An image in the folder that no session has, or the drive of a session. `drive["HELLO.TXT"]` is a file's bytes, as text."""

    get = asked(DriveState._get)
    put = asked(DriveState._put)
    names = asked(DriveState._names)

    def create(self, large: bool = False) -> "Drive":
        """Makes the image a blank one."""
        self._host.run(self._create(large))
        return self

    def __iter__(self) -> Iterator[str]:
        return iter(self.names())

    __getitem__ = get

    def __setitem__(self, name: str, data: Bytes) -> None:
        self.put(name, data)


class Host(HostState[BinaryIO, BinaryIO]):
    """A host: `cpmhost serve` in a process of its own, or whoever serves over two given streams, (replies, requests). One thread asks it at a time."""

    many = asked(HostState._many)

    def _begin(self) -> None:
        self.process: Optional["subprocess.Popen[bytes]"] = None
        # how many replies have yet to come: also those to a line whose reply nobody has waited for, as after ^C
        self._due = 0
        if self._streams is None:
            self.process = subprocess.Popen(self._words, stdin=subprocess.PIPE, stdout=subprocess.PIPE)
            assert self.process.stdin and self.process.stdout
            self._replies, self._requests = self.process.stdout, self.process.stdin
        else:
            self._replies, self._requests = self._streams

    def open(self, cpu: str = "8080", quota: int = 64, drives: Sequence[str] = ("blank",), from_file: Optional[str] = None) -> Session:
        """Opens a session: a new one, or one that goes on from a saving of the folder."""
        return Session(self, self.ask(open_request(cpu, quota, drives, from_file))["slot"])

    def session(self, slot: int) -> Session:
        """The session of a slot that is open already, as where the host goes on with a journal."""
        return Session(self, slot)

    @property
    def files(self) -> Files[Drive]:
        """The folder of the host: `host.files["work.img"]` is a drive."""
        return Files(lambda drive: Drive(self, drive))

    def send(self, line: bytes) -> bytes:
        """The line that a line is replied to with, both as bytes and with their newlines."""
        try:
            self._requests.write(line)
            self._requests.flush()
        except (BrokenPipeError, ValueError) as fault:
            raise HostGone("the host takes no more requests") from fault
        self._due += 1
        while self._due:
            reply = self._replies.readline()
            if not reply.endswith(b"\n"):
                raise HostGone("the host has ended without a reply")
            self._due -= 1
        return reply

    def ask(self, request: Request) -> Reply:
        """The reply to a request, as it stands on the wire. What refuses is raised."""
        return self.run(asking(request))

    def run(self, plan: "Plan[T]") -> T:
        lines = lines_of(plan)
        try:
            line = next(lines)
            while True:
                line = lines.send(self.send(line))
        except StopIteration as end:
            return end.value  # type: ignore[no-any-return]

    def close(self) -> int:
        """Ends the input, waits for the host's end, and returns its status. All sessions are closed then."""
        try:
            self._requests.close()
        except BrokenPipeError:
            pass
        if self.process is None:
            return 0
        self._replies.read()
        self._replies.close()
        status = self.process.wait()
        self._remove_copies()
        return status

    def __enter__(self) -> "Host":
        return self

    def __exit__(self, kind: Optional[Type[BaseException]], fault: Optional[BaseException], trace: Optional[TracebackType]) -> None:
        self.close()
