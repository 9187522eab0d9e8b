"""Key scripts (docs/MANUAL.md, section 7): what a broadcast types in a session, and what a record is written as."""

import re
from dataclasses import dataclass
from typing import Any, Iterable, Optional

from refusals import LabRefused

MOST_KEYS = 4096
LINE = re.compile(r'(?:(?P<count>[0-9]{1,20})|(?P<wait>wait)|expect "(?P<text>.+?)"(?= )) (?P<keys>.+)')


@dataclass
class Cue:
    """Keys, and when they come: from a count of steps on, or at a wait, where a text was seen since the last key if one is given."""

    keys: str
    count: Optional[int] = None
    text: str = ""

    def state(self) -> list[Any]:
        return [self.keys, self.count, self.text]

    def comes(self, count: int, waits: bool, seen: bytes) -> bool:
        if self.count is not None:
            return waits or count >= self.count
        return waits and (not self.text or self.text.encode("latin-1") in seen)


def keys_of(text: str, number: int) -> str:
    """The keys that a part of a line is written as."""
    found, at = [], 0
    while at < len(text):
        here, next_one = text[at], text[at + 1 : at + 2].upper()
        if not " " <= here <= "~":
            raise LabRefused("BadScript", f"line {number}: {here!r} is no key")
        if here == "^":
            if next_one == "?":
                found.append("\x7f")
            elif next_one == "~":
                found.append("^")
            elif next_one and "@" <= next_one <= "_":
                found.append(chr(ord(next_one) - 64))
            else:
                raise LabRefused("BadScript", f"line {number}: '^' stands before no control character; ^~ is the character itself")
        else:
            found.append(here)
        at += 2 if here == "^" else 1
    return "".join(found)


def cues_of(script: str) -> list[Cue]:
    cues: list[Cue] = []
    last = 0
    for number, line in enumerate(script.replace("\r\n", "\n").split("\n"), 1):
        if not line.strip(" ") or line.startswith("#"):
            continue
        match = LINE.fullmatch(line)
        if not match:
            raise LabRefused("BadScript", f"line {number} is no line of a key script: it begins with a count, wait or expect \"TEXT\", a space and keys")
        count = None if match["count"] is None else int(match["count"])
        if count is not None:
            if count < last:
                raise LabRefused("BadScript", f"line {number}: the count is less than the one before it")
            last = count
        cues.append(Cue(keys_of(match["keys"], number), count, keys_of(match["text"] or "", number)))
    if not cues:
        raise LabRefused("BadScript", "the script has no line with keys")
    if sum(len(it.keys) for it in cues) > MOST_KEYS:
        raise LabRefused("BadScript", f"the script has more than {MOST_KEYS} keys")
    return cues


def written(key: str) -> str:
    """A key as a script has it."""
    if key == "\x7f":
        return "^?"
    if key == "^":
        return "^~"
    return key if " " <= key <= "~" else "^" + chr(ord(key) + 64)


def script_of(entries: Iterable[dict[str, Any]]) -> str:
    """The key script of a record."""
    return "".join(f"{it['n']} {''.join(map(written, it['keys']))}\n" for it in entries if it.get("keys"))
