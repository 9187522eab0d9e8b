"""What a session has shown in a life, and when, as the lecturer's page plays it again."""

import json
from dataclasses import replace
from pathlib import Path
from typing import Any, Callable, Optional

from lives import Lengths
from outgoing import Parts
from refusals import LabRefused
from session import Session

# how many bytes of a console and its record are played in a page
MOST_REPLAYED = 64 << 20


def life_told(session: Session, number: int) -> Callable[[], dict[str, Any]]:
    """What reads a life as it stands now, beside the event loop: a life's files only grow."""
    life = session.life
    lengths, steps = (replace(life.lengths), session.steps) if number == life.number else (None, None)
    own = {"name": session.name, "lives": life.number, "life": number}
    return lambda: {**own, "hows": hows(session.folder, life.number, life.how), **kept(session.folder / str(number), lengths, steps)}


def hows(folder: Path, last: int, how: str) -> list[str]:
    """How each life began."""
    return [*(str(told_of(folder / str(number)).get("how", "")) for number in range(1, last)), how]


def told_of(folder: Path) -> dict[str, Any]:
    path = folder / "life.json"
    found: dict[str, Any] = json.loads(path.read_bytes()) if path.exists() else {}
    return found


def kept(folder: Path, lengths: Optional[Lengths], steps: Optional[int]) -> dict[str, Any]:
    """The console, what stood before it, and for each turn [milliseconds, steps before it, length of the console before it, keys]."""
    console, record = ((folder / name).stat().st_size if lengths is None else getattr(lengths, name) for name in ("console", "record"))
    if console + record > MOST_REPLAYED:
        why = f"what it has shown and its record have {console + record:,} bytes, and {MOST_REPLAYED:,} are replayed: the archive has them"
        raise LabRefused("TooLong", why)
    with open(folder / "record", "rb") as file:
        lines = file.read(record).splitlines()
    times = [[it["ms"], it["n"], it["c"], it.get("keys", "")] for it in map(json.loads, lines)]
    prologue = folder / "prologue"
    before = Parts([(prologue, 0, prologue.stat().st_size)] if prologue.exists() else [])
    ended = told_of(folder).get("steps", times[-1][1] if times else 0) if steps is None else steps
    return {"console": Parts([(folder / "console", 0, console)]), "prologue": before, "times": times, "steps": ended}
