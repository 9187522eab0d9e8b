"""What is kept of a class: a state that is whole or as it was, and a log of what came behind it, a line for each change that somebody may have seen.

A new state begins a new log. Until it is on the device, the state before is there, and both logs are read behind it.
"""

import asyncio
import json
import os
from pathlib import Path
from typing import Any, Iterator

from bridge import line_of
from paths import Folder, whole_file

VERSION, MOST_LINES = 1, 20_000


class Log:
    def __init__(self, folder: Folder) -> None:
        self.folder = folder.top
        self.state_path = folder.top / "state.json"
        self.number, self.lines, self.file = 0, 0, -1
        self.keeping = asyncio.Lock()

    def read(self) -> dict[str, Any]:
        """The state that was kept, or nothing at all where the class is new; `behind` are the lines that came after it."""
        if not self.state_path.exists():
            return {}
        state: dict[str, Any] = json.loads(self.state_path.read_bytes())
        logs = sorted(int(it.name[4:]) for it in self.folder.glob("log-*") if int(it.name[4:]) >= state["log"])
        self.number = max(logs, default=state["log"])
        return {**state, "behind": [entry for number in logs for entry in self.entries(self.path(number))]}

    @staticmethod
    def entries(path: Path) -> Iterator[dict[str, Any]]:
        """The whole lines of a log; a last one that was cut off is none."""
        if path.exists():
            for line in path.read_bytes().split(b"\n")[:-1]:
                yield json.loads(line)

    def path(self, number: int) -> Path:
        return self.folder / f"log-{number}"

    def begin(self, state: dict[str, Any]) -> None:
        """Keeps a whole state, and begins a new log behind it."""
        self.keep(*self.turn_over(state))

    async def begin_beside(self, state: dict[str, Any]) -> None:
        """The same, while the class goes on: the device may take its time."""
        async with self.keeping:
            await asyncio.to_thread(self.keep, *self.turn_over(state))

    def turn_over(self, state: dict[str, Any]) -> tuple[int, bytes]:
        """Begins a new log, and gives its number with the state that it stands behind."""
        before, self.number, self.lines = self.file, self.number + 1, 0
        self.file = os.open(self.path(self.number), os.O_WRONLY | os.O_CREAT | os.O_TRUNC | os.O_APPEND, 0o600)
        if before >= 0:
            os.close(before)
        return self.number, json.dumps({**state, "version": VERSION, "log": self.number}).encode()

    def keep(self, number: int, state: bytes) -> None:
        whole_file(self.state_path, state)
        for old in self.folder.glob("log-*"):
            if int(old.name[4:]) < number:
                old.unlink(missing_ok=True)

    def add(self, entry: dict[str, Any]) -> None:
        """Keeps a change. (Before the first log of a day begins, the state that it begins with has it.)"""
        line = line_of(entry) if self.file >= 0 else b""
        while line:
            line = line[os.write(self.file, line) :]
        self.lines += 1

    @property
    def is_long(self) -> bool:
        return self.lines > MOST_LINES
