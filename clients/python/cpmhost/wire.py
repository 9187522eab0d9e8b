"""Lines, and what stands in them: what the plain and the asyncio client share with any other."""

import json
import os
from dataclasses import dataclass
from typing import Any, Dict, List, Optional, Sequence, Union

from .faults import BadText, LineTooLong

Request = Dict[str, Any]
Reply = Dict[str, Any]
Bytes = Union[str, bytes]

# how many bytes a line has at most
MOST_LINE = 1 << 20


def text_of(data: Bytes) -> str:
    """Bytes as the protocol has them: a text whose characters are U+0000 to U+00FF. A text stays what it is, if it is one."""
    if not isinstance(data, str):
        return data.decode("latin-1")
    for place, character in enumerate(data):
        if character > "\xff":
            raise BadText(f"{character!r} at {place} is no byte: text_of(text.encode(..)) has the bytes of another encoding")
    return data


def bytes_of(text: str) -> bytes:
    """The bytes of such a text."""
    return text_of(text).encode("latin-1")


def line_of(request: Request) -> bytes:
    """The shortest line of a request."""
    try:
        line = json.dumps(request, ensure_ascii=False, separators=(",", ":")).encode()
    except UnicodeEncodeError as fault:
        raise BadText(str(fault)) from fault
    if len(line) > MOST_LINE:
        how = "`cpmhost disk put` puts a file of any length" if request.get("do") == "put" else "less fits if it is asked for in parts"
        raise LineTooLong(f"the request {request.get('do')!r} has {len(line):,} bytes as a line, which has {MOST_LINE:,} at most: {how}")
    return line + b"\n"


def reply_of(line: bytes) -> Reply:
    reply = json.loads(line)
    if not isinstance(reply, dict):
        raise ValueError(f"no reply: {line[:80]!r}")
    return reply


def serve_words(program: Optional[str], **options: Union[None, bool, int, str]) -> List[str]:
    """The command that serves, with those options that have a value. The program is the one that the variable CPMHOST names, or else `cpmhost`."""
    words: List[str] = [program or os.environ.get("CPMHOST") or "cpmhost", "serve"]
    for option, value in options.items():
        if value is not None and value is not False:
            words += [f"--{option}"] if value is True else [f"--{option}", str(value)]
    return words


def open_request(cpu: str, quota: int, drives: Sequence[str], from_file: Optional[str]) -> Request:
    if from_file is not None:
        return {"do": "open", "from": from_file}
    return {"do": "open", "cpu": cpu, "quota": quota, "drives": list(drives)}


@dataclass(frozen=True)
class Look:
    """What is seen of a session. The Z80's alternate registers are `other_af` to `other_hl`."""

    af: int
    bc: int
    de: int
    hl: int
    ix: int
    iy: int
    sp: int
    pc: int
    i: int
    r: int
    iff1: bool
    iff2: bool
    other_af: int
    other_bc: int
    other_de: int
    other_hl: int
    count: int
    end: str
    pages: int
    waiting: bool
    keys: int
    console: int
    list: int

    @classmethod
    def of(cls, reply: Reply) -> "Look":
        named = {f"other_{name[:-1]}" if name.endswith("'") else name: value for name, value in reply.items()}
        return cls(**{name: named[name] for name in cls.__dataclass_fields__})


@dataclass(frozen=True)
class Granted:
    """How many steps were executed, and why no more: All, Stopped, Break, Blocked or Waiting."""

    executed: int
    why: str


@dataclass(frozen=True)
class Turn:
    """What a turn did."""

    accepted: int
    executed: int
    why: str
    text: str
    list: str
    waiting: bool
    end: str

    @classmethod
    def of(cls, reply: Reply) -> "Turn":
        return cls(**{name: reply[name] for name in cls.__dataclass_fields__})
