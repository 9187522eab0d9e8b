"""System calls of a command, and how each may fail."""

import collections
import re
from typing import NamedTuple

# the first call that is the program's own, and not the loader's, has this text
BEGIN = '"/dev/null"'
# a line of strace: a call, and its file if it begins with that
LINE = re.compile(r"(\w+)\((\d*)")
# the errors of each kind of call
ERRORS = {
    "openat": ("EACCES", "EIO", "ENOSPC", "EMFILE", "EINTR"),
    "read": ("EIO", "EINTR"),
    "write": ("ENOSPC", "EIO", "EINTR"),
    "fsync": ("EIO", "ENOSPC", "EINTR"),
    "rename": ("EACCES", "EIO", "ENOSPC"),
    "link": ("EPERM", "EIO", "ENOSPC", "EEXIST"),
    "unlink": ("EACCES", "EIO"),
    "statx": ("EACCES", "EIO"),
    "readlink": ("EACCES", "EIO"),
    "getcwd": ("EACCES", "ENOENT"),
    "flock": ("EAGAIN", "ENOLCK", "EINTR"),
    "fchmod": ("EPERM", "EIO"),
    "chown": ("EPERM", "EIO"),
    "fchown": ("EPERM", "EIO"),
    "getrandom": ("ENOSYS", "EINTR"),
    "close": ("EIO", "EINTR"),
    "mmap": ("ENOMEM",),
    "mremap": ("ENOMEM",),
    "munmap": ("ENOMEM",),
    "clock_nanosleep": ("EINTR",),
}
# those of a call that isn't among these
OTHER = ("EIO",)
# calls that can't fail
SURE = {"brk", "exit_group", "getpid"}
# a standard stream may be one that doesn't wait
LATER = "EAGAIN"
# what comes again and again would never end
PASSING = {"EAGAIN", "EINTR"}
REMOVING = {"unlink", "unlinkat"}
GROUPING = {"chown", "fchown"}


class Call(NamedTuple):
    """A system call of a command."""

    kind: str
    # its number among those of its kind
    number: int
    # the number of the open file that it begins with; none is -1
    file: int

    @property
    def is_on_stream(self):
        return self.kind in ("read", "write") and 0 <= self.file <= 2

    @property
    def errors(self):
        if self.kind in SURE:
            return ()
        return (*ERRORS.get(self.kind, OTHER), *[LATER] * self.is_on_stream)


def calls_of(trace):
    """The calls of a text of strace, from the program's first one on."""
    counts = collections.Counter()
    calls, is_own = [], False
    for line in trace.splitlines():
        found = LINE.match(line)
        if not found:
            continue
        kind, file = found.groups()
        counts[kind] += 1
        is_own = is_own or BEGIN in line
        if is_own:
            calls.append(Call(kind, counts[kind], int(file or -1)))
    return calls
