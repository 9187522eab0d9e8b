"""What disturbs a command: each says what is wrong after it."""

import os
import resource
import signal
from typing import NamedTuple

from disturbed.calls import GROUPING, PASSING, REMOVING, Call
from disturbed.runs import TRACE, error_wrong, killed_wrong, look, start, strace
from lib import LIBC, read


class Failing(NamedTuple):
    """A call fails, or also all of its kind that follow."""

    call: Call
    error: str
    goes_on: bool = False

    @property
    def injection(self):
        return f"inject={self.call.kind}:error={self.error}:when={self.call.number}{'+' * self.goes_on}"

    def wrongs(self, command, known):
        kind = self.call.kind
        # (so strace stops at these calls alone)
        ran = start(command, strace(command, [kind, "flock"], "-f", "--seccomp-bpf", "-e", self.injection))
        traced = read(TRACE)
        if b"(INJECTED)" not in traced:
            yield "there is no such call"
        if ran.status == 0 and traced.count(b"flock(") < known.locks:
            yield "it ends with status 0, and hasn't held what it has replaced"
        is_heard = kind != "write" or not (self.goes_on or self.call.file == 2)
        yield from error_wrong(command, known, ran, kind in REMOVING, is_heard, may_narrow=kind in GROUPING)

    def __str__(self):
        return f"strace -e {self.injection}"


class Killed(NamedTuple):
    """The program is killed where it begins a call."""

    call: Call

    @property
    def injection(self):
        return f"inject={self.call.kind}:signal=KILL:when={self.call.number}"

    def wrongs(self, command, known):
        ran = start(command, strace(command, [self.call.kind], "-e", self.injection))
        if ran.status != -signal.SIGKILL:
            yield f"it ends with {ran.status}"
        yield from killed_wrong(known, look())

    def __str__(self):
        return f"strace -e {self.injection}"


class Limited(NamedTuple):
    """No file may have more bytes; one that gets more ends the program by a signal, or the call fails."""

    limit: int
    ends: bool

    def wrongs(self, command, known):
        def limited():
            signal.signal(signal.SIGXFSZ, signal.SIG_DFL if self.ends else signal.SIG_IGN)
            resource.setrlimit(resource.RLIMIT_CORE, (0, 0))
            resource.setrlimit(resource.RLIMIT_FSIZE, (self.limit, self.limit))

        ran = start(command, before=limited)
        if self.ends and ran.status == -signal.SIGXFSZ:
            yield from killed_wrong(known, look())
        else:
            yield from error_wrong(command, known, ran)

    def __str__(self):
        return f"files of {self.limit} bytes at most{', else a signal' * self.ends}:"


class Odd(NamedTuple):
    """Standard streams are closed, or full."""

    closed: tuple
    full: tuple

    def wrongs(self, command, known):
        odd = command._replace(closed=tuple({*command.closed, *self.closed}))
        if 0 in self.closed:
            odd = odd._replace(given=None)
        with open("/dev/full", "wb") as full:
            ran = start(odd, streams=[(name, full) for number, name in ((1, "stdout"), (2, "stderr")) if number in self.full])
        is_shown = 1 not in self.closed + self.full
        yield from error_wrong(odd, known, ran, is_heard=2 not in self.full, is_shown=is_shown)
        if not is_shown and known.out and ran.status == 0 and 1 in self.full:
            yield "it ends with status 0, and nothing was printed"

    def __str__(self):
        return " ".join([*(f"{number}>&-" for number in self.closed), *(f"{number}>/dev/full" for number in self.full)])


class Device(NamedTuple):
    """The device has so many pages for what is new."""

    pages: int

    def wrongs(self, command, known):
        space = os.statvfs(".")
        resize((space.f_blocks - space.f_bfree + self.pages) * space.f_bsize)
        try:
            ran = start(command)
        finally:
            resize(ROOM)
        yield from error_wrong(command, known, ran)

    def __str__(self):
        return f"a device with {self.pages} free pages:"


# ---- a device for each worker

# its bytes
ROOM = 1 << 26
NEW_NAMESPACE = 0x20000
REMOUNT, PRIVATE = 32, 0x44000


def mount(*words):
    """Whether a device is mounted."""
    return LIBC.mount(*words) == 0


def resize(size):
    if not mount(b"faults", b".", None, REMOUNT, f"size={size}".encode()):
        raise RuntimeError("the device that gets full can't get another size")


def begin_worker(room):
    """Gives a worker a folder of its own, which is a device of its own where that can be."""
    os.umask(0o022)
    files = f"{room}/{os.getpid()}/files"
    os.makedirs(files)
    if LIBC.unshare(NEW_NAMESPACE) == 0 and mount(b"none", b"/", None, PRIVATE, None):
        mount(b"faults", files.encode(), b"tmpfs", 0, f"size={ROOM}".encode())
    os.chdir(files)


def has_device():
    return os.path.ismount(".")


# ---- all of them

CLOSED_OR_FULL = (((0,), ()), ((1,), ()), ((2,), ()), ((0, 1, 2), ()), ((), (1,)), ((), (2,)), ((), (1, 2)), ((1,), (2,)), ((2,), (1,)))


def disturbances(command, known, has_more):
    for call in known.calls:
        yield Killed(call)
        for error in call.errors:
            yield Failing(call, error)
            if has_more and error not in PASSING:
                yield Failing(call, error, True)
    if command.is_refused:
        return
    lengths = {len(data) for mode, data in known.new.values() if mode.startswith("mode")}
    for limit in sorted({0, 1, 128, 4096, *(length // 2 for length in lengths), *(max(length - 1, 0) for length in lengths)}):
        yield Limited(limit, False)
        yield Limited(limit, True)
    for closed, full in CLOSED_OR_FULL:
        if 0 not in closed or not command.given:
            yield Odd(closed, full)
    most = max(length // 4096 for length in lengths)
    for pages in sorted({*range(8), *range(8, most, max(most // 8, 1)), most, most + 1}):
        yield Device(pages)
