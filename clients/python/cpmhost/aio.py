"""The same by asyncio. Requests of several tasks are under way at a time, and their replies come in the order of the requests."""

import asyncio
import functools
from collections import deque
from types import TracebackType
from typing import TYPE_CHECKING, Any, Callable, Coroutine, Deque, Optional, Sequence, Type, TypeVar

from .faults import HostGone
from .plans import DriveState, Files, HostState, Plan, SessionState, State, asking, lines_of
from .wire import Reply, Request, open_request

if TYPE_CHECKING:
    from typing import Concatenate, ParamSpec

    P = ParamSpec("P")
S = TypeVar("S", bound=State)
T = TypeVar("T")
# a reply to `many` has this many bytes at most, and fewer than a thousand files as text
LONGEST_REPLY = 1 << 30


def awaited(plan: "Callable[Concatenate[S, P], Plan[T]]") -> "Callable[Concatenate[S, P], Coroutine[Any, Any, T]]":
    """The call that asks what a plan asks, and returns what it has found."""

    @functools.wraps(plan)
    async def call(self: S, /, *words: "P.args", **named: "P.kwargs") -> T:
        found: T = await self._host.run(plan(self, *words, **named))
        return found

    call.__name__ = plan.__name__.strip("_")
    return call


class AsyncSession(SessionState):
    """A session in a slot, as `Session`. One task drives it at a time."""

    type = awaited(SessionState._type)
    turn = awaited(SessionState._turn)
    expect = awaited(SessionState._expect)
    grant = awaited(SessionState._grant)
    take = awaited(SessionState._take)
    take_list = awaited(SessionState._take_list)
    look = awaited(SessionState._look)
    peek = awaited(SessionState._peek)
    save = awaited(SessionState._save)
    close = awaited(SessionState._close)

    async def fork(self) -> "AsyncSession":
        fork: AsyncSession = await self._host.run(self._fork(AsyncSession))
        return fork

    @property
    def files(self) -> "Files[AsyncDrive]":
        return Files(lambda letter: AsyncDrive(self._host, letter, self))

    async def __aenter__(self) -> "AsyncSession":
        return self

    async def __aexit__(self, kind: Optional[Type[BaseException]], fault: Optional[BaseException], trace: Optional[TracebackType]) -> None:
        if self.is_open and not isinstance(fault, HostGone):
            await self.close()


class AsyncDrive(DriveState):
    """An image in the folder that no session has, or the drive of a session, as `Drive`."""

    get = awaited(DriveState._get)
    put = awaited(DriveState._put)
    names = awaited(DriveState._names)

    async def create(self, large: bool = False) -> "AsyncDrive":
        await self._host.run(self._create(large))
        return self


class AsyncHost(HostState[asyncio.StreamReader, asyncio.StreamWriter]):
    """A host, as `Host`. It is started by `async with`, or by `start`."""

    many = awaited(HostState._many)

    def _begin(self) -> None:
        self.process: Optional[asyncio.subprocess.Process] = None
        self._asked: Deque["asyncio.Future[bytes]"] = deque()
        self._is_gone = False

    async def start(self) -> "AsyncHost":
        pipe = asyncio.subprocess.PIPE
        if self._streams is None:
            self.process = await asyncio.create_subprocess_exec(*self._words, stdin=pipe, stdout=pipe, limit=LONGEST_REPLY)
            assert self.process.stdin and self.process.stdout
            self._streams = self.process.stdout, self.process.stdin
        self._replies, self._requests = self._streams
        self._reading = asyncio.ensure_future(self._read())
        return self

    async def open(self, cpu: str = "8080", quota: int = 64, drives: Sequence[str] = ("blank",), from_file: Optional[str] = None) -> AsyncSession:
        return AsyncSession(self, (await self.ask(open_request(cpu, quota, drives, from_file)))["slot"])

    def session(self, slot: int) -> AsyncSession:
        return AsyncSession(self, slot)

    @property
    def files(self) -> Files[AsyncDrive]:
        return Files(lambda drive: AsyncDrive(self, drive))

    async def _read(self) -> None:
        """Gives each reply to who asked first."""
        try:
            while (line := await self._replies.readline()).endswith(b"\n"):
                asked = self._asked.popleft()
                if not asked.done():
                    asked.set_result(line)
        except (ConnectionError, IndexError):
            pass
        self._is_gone = True
        for asked in self._asked:
            if not asked.done():
                asked.set_result(b"")

    async def send(self, line: bytes) -> bytes:
        if self._is_gone:
            raise HostGone("the host takes no more requests")
        # (between these two nothing else runs, so the order of the lines is that of who asked)
        asked: "asyncio.Future[bytes]" = asyncio.get_running_loop().create_future()
        self._asked.append(asked)
        self._requests.write(line)
        try:
            await self._requests.drain()
        except ConnectionError as fault:
            raise HostGone("the host takes no more requests") from fault
        reply = await asked
        if not reply:
            raise HostGone("the host has ended without a reply")
        return reply

    async def ask(self, request: Request) -> Reply:
        return await self.run(asking(request))

    async def run(self, plan: "Plan[T]") -> T:
        lines = lines_of(plan)
        try:
            line = next(lines)
            while True:
                line = lines.send(await self.send(line))
        except StopIteration as end:
            return end.value  # type: ignore[no-any-return]

    async def close(self) -> int:
        self._requests.close()
        await self._reading
        if self.process is None:
            return 0
        status = await self.process.wait()
        self._remove_copies()
        return status

    async def __aenter__(self) -> "AsyncHost":
        return await self.start()

    async def __aexit__(self, kind: Optional[Type[BaseException]], fault: Optional[BaseException], trace: Optional[TracebackType]) -> None:
        await self.close()
