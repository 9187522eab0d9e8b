"""What goes wrong: a request that is refused, a line that is wrong or too long, a text that doesn't come, a host that has gone."""

from typing import Any, Dict, Optional, Type


class CpmhostError(Exception):
    """Whatever this package raises."""


class Refused(CpmhostError):
    """A request that the host refused. It has changed nothing. Each word of refusal has a class of its name."""

    def __init__(self, why: str = "") -> None:
        super().__init__(why)
        self.why = why

    @property
    def word(self) -> str:
        return type(self).__name__


# fmt: off
class NoSuchSlot(Refused): """No slot of that number is open."""
class NoSlot(Refused): """No slot is free."""
class NoFrames(Refused): """The quotas of all open slots exceed the frames."""
class BadQuota(Refused): """The quota is not 16 to 256 pages."""
class BadDrives(Refused): """The session has no drive, or more than 4; or it lacks that drive."""
class Damaged(Refused): """The bytes are no saving."""
class OtherSystem(Refused): """It was saved over another system drive."""
class OutOfMemory(Refused): """The host has no memory for it."""
class ReadOnly(Refused): """The file is read-only."""
class DirectoryFull(Refused): """The directory is full."""
class DiskFull(Refused): """The disk is full."""
class NoFile(Refused): """The disk has no such file."""
class Exists(Refused): """A file of that name is there."""
class BadName(Refused): """No file of a disk has such a name."""
class AbsentFile(Refused): """The folder has no such file."""
class BusyFile(Refused): """Another command holds the file."""
class DamagedDisk(Refused): """The file is no image of a sound disk."""
class FileFault(Refused): """The file can't be read or written."""
# fmt: on


class WrongLine(CpmhostError):
    """A line that is no request: what is wrong, and in which field or at which column."""

    def __init__(self, error: str, field: Optional[str] = None, at: Optional[int] = None) -> None:
        place = f": {field}" if field is not None else f" at {at}" if at is not None else ""
        super().__init__(error + place)
        self.error, self.field, self.at = error, field, at


class LineTooLong(CpmhostError):
    """A request whose line has more than 1 MiB. It wasn't sent."""


class BadText(CpmhostError, ValueError):
    """A text with a character that is no byte, or that no UTF-8 has. It wasn't sent."""


class LiveDrive(CpmhostError):
    """The drive of a session is only read."""


class HostGone(CpmhostError):
    """The host has ended, and replies no more."""


class NotSeen(CpmhostError):
    """The text that was expected hasn't come. `session.before` has what came."""


class Timeout(NotSeen):
    """The steps are used up, or the session waits for a key, so that no step would show more."""


class Ended(NotSeen):
    """The session has ended. `session.end` says how."""


REFUSALS: Dict[str, Type[Refused]] = {it.__name__: it for it in Refused.__subclasses__()}


def fault_of(reply: Dict[str, Any]) -> Optional[CpmhostError]:
    """What a reply raises, if it is one that refuses."""
    if "refused" in reply:
        word = reply["refused"]
        kind: Type[Refused] = REFUSALS.get(word) or type(word, (Refused,), {})
        return kind(reply.get("why", ""))
    if "error" in reply:
        return WrongLine(reply["error"], reply.get("field"), reply.get("at"))
    return None
