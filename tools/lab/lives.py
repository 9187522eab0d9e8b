"""A life of a session: what it shows and what was typed, from the saving that it began with on.

A session that is set back, or becomes a fork of another's, has a new life. The files of a life only grow, and what stands in the lab's log says how
far they are true: what a service wrote behind that before it was killed is cut off, since nobody has seen it.
"""

import json
import os
from dataclasses import asdict, dataclass
from pathlib import Path
from typing import Any, Iterator

# how much of a console is kept at hand, and how far a page may be behind before it gets the last of it anew: so much, or from where the screen was cleared
# last if that isn't farther back than FAR_ANEW
MOST_AT_HAND, FAR_BEHIND, SHOWN_ANEW, FAR_ANEW = 192 << 10, 64 << 10, 32 << 10, 256 << 10
# what clears the screen of a terminal
CLEARS = {
    "vt100": (b"\x1b[2J", b"\x1b[H\x1b[J", b"\x1bc"),
    "adm3a": (b"\x1a",),
    "kaypro": (b"\x1a",),
    "televideo": (b"\x1a", b"\x1b*", b"\x1b+", b"\x1b:", b"\x1b;"),
    "vt52": (b"\x1bH\x1bJ",),
    "dumb": (),
}


@dataclass
class Lengths:
    """How far the files of a life are true."""

    console: int = 0
    list: int = 0
    record: int = 0


class Life:
    def __init__(self, folder: Path, number: int, base: str, base_count: int, how: str, begun: float, lengths: Lengths) -> None:
        self.folder, self.number, self.base, self.base_count, self.how, self.begun = folder / str(number), number, base, base_count, how, begun
        self.folder.mkdir(parents=True, exist_ok=True)
        self.lengths = lengths
        self.files = {name: os.open(self.folder / name, os.O_RDWR | os.O_CREAT | os.O_APPEND, 0o600) for name in ("console", "list", "record")}
        for name, file in self.files.items():
            if os.fstat(file).st_size > getattr(lengths, name):
                os.ftruncate(file, getattr(lengths, name))
            setattr(lengths, name, os.fstat(file).st_size)
        # the last bytes of the console, which end where it ends
        self.recent = bytearray(self.read("console", max(0, lengths.console - MOST_AT_HAND // 2), lengths.console))
        self.prologue = self.text_of("prologue")

    def close(self) -> None:
        for file in self.files.values():
            os.close(file)

    def text_of(self, name: str) -> bytes:
        path = self.folder / name
        return path.read_bytes() if path.exists() else b""

    def begin_behind(self, shown: bytes) -> None:
        """What the screen showed when the life began."""
        (self.folder / "prologue").write_bytes(shown)
        self.prologue = shown

    def append(self, name: str, data: bytes) -> None:
        if data:
            file, length = self.files[name], getattr(self.lengths, name)
            while data:
                written = os.write(file, data)
                if name == "console":
                    self.recent += data[:written]
                length, data = length + written, data[written:]
            setattr(self.lengths, name, length)
            if len(self.recent) > MOST_AT_HAND:
                del self.recent[: len(self.recent) - MOST_AT_HAND // 2]

    def typed(self, count: int, seconds: float, keys: str) -> None:
        """Notes what was typed at a count, and how long the console was then."""
        entry: dict[str, Any] = {"n": count, "ms": int(seconds * 1000), "c": self.lengths.console}
        if keys:
            entry["keys"] = keys
        self.append("record", json.dumps(entry, separators=(",", ":")).encode() + b"\n")

    def read(self, name: str, begin: int, end: int) -> bytes:
        return os.pread(self.files[name], end - begin, begin)

    def whole(self, name: str) -> bytes:
        return self.read(name, 0, getattr(self.lengths, name))

    def entries(self) -> Iterator[dict[str, Any]]:
        for line in self.whole("record").splitlines():
            yield json.loads(line)

    def behind(self, position: int, far: int = FAR_BEHIND) -> bytes | None:
        """What the console has behind a position; nothing where that is too far back."""
        end = self.lengths.console
        missing = end - position
        if 0 <= missing <= min(far, len(self.recent)):
            return bytes(self.recent[len(self.recent) - missing :])
        return None

    def last(self, terminal: str, most: int = SHOWN_ANEW, far: int = FAR_ANEW) -> bytes:
        """The last of what was shown, from a place on where a terminal's screen may begin."""
        end = self.lengths.console
        part = bytes(self.recent) if len(self.recent) >= min(far, end) else self.read("console", max(0, end - far), end)
        if len(part) == end:
            part = self.prologue + part
        if len(part) <= most:
            return part
        part = part[-far:]
        cleared = max((part.rfind(it) for it in CLEARS[terminal]), default=-1)
        if cleared >= 0:
            return part[cleared:]
        # (from the next line on, so that no half of a sequence comes first)
        part = part[-most:]
        return part[part.find(b"\n") + 1 :]

    def state(self) -> dict[str, Any]:
        own = {name: getattr(self, name) for name in ("number", "base", "base_count", "how", "begun")}
        return {**own, "lengths": asdict(self.lengths)}

    @staticmethod
    def of(folder: Path, state: dict[str, Any]) -> "Life":
        kept: dict[str, Any] = {**state, "lengths": Lengths(**state["lengths"])}
        return Life(folder, **kept)
