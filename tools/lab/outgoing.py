"""What goes out of the service: in pieces, each once the one before it was taken, so that nobody has much of it in memory."""

import asyncio
import json
import re
from contextlib import aclosing
from pathlib import Path
from typing import Any, AsyncGenerator, Optional
from urllib.parse import quote

from aiohttp import web

# how long a piece is, and how long a page may take for it, in seconds
PIECE, TAKEN_WITHIN = 64 << 10, 15.0
JSON = {"Content-Type": "application/json; charset=utf-8"}
# a part of a file: from where to where
Part = tuple[Path, int, int]


class Parts(list[Part]):
    """Parts of files, which an object of JSON has as a text."""

    @property
    def length(self) -> int:
        return sum(end - begin for _, begin, end in self)

    def last(self, most: int) -> "Parts":
        """The last bytes of them."""
        left, found = most, Parts()
        for path, begin, end in reversed(self):
            found.insert(0, (path, max(begin, end - left), end))
            left -= min(left, end - begin)
        return found


async def send(request: web.Request, headers: dict[str, str], pieces: AsyncGenerator[bytes, None], length: Optional[int] = None) -> web.StreamResponse:
    """Sends a body, and returns once the system has taken it all. Who takes none of it for long is cut off."""
    response = web.StreamResponse(headers=headers)
    response.content_length = length
    try:
        if request.transport is not None:
            # (so that each piece is waited for until nothing of it is left here)
            request.transport.set_write_buffer_limits(high=0)
        await response.prepare(request)
        async with aclosing(pieces) as those:
            async for piece in those:
                await asyncio.wait_for(write(request, response, piece), TAKEN_WITHIN)
        await asyncio.wait_for(response.write_eof(), TAKEN_WITHIN)
    except asyncio.TimeoutError:
        cut_off(request)
    except ConnectionError:
        pass
    return response


async def write(request: web.Request, response: web.StreamResponse, piece: bytes) -> None:
    await response.write(piece)
    await request.writer.drain()


def cut_off(request: web.Request) -> None:
    if isinstance(request.transport, asyncio.Transport):
        request.transport.abort()


async def pieces_of(data: bytes) -> AsyncGenerator[bytes, None]:
    for begin in range(0, len(data), PIECE):
        yield data[begin : begin + PIECE]


async def pieces_of_files(parts: Parts) -> AsyncGenerator[bytes, None]:
    """Parts of files, which are read beside the event loop."""
    for path, begin, end in parts:
        while begin < end and (piece := await asyncio.to_thread(read, path, begin, min(begin + PIECE, end))):
            yield piece
            begin += len(piece)


def read(path: Path, begin: int, end: int) -> bytes:
    with open(path, "rb") as file:
        file.seek(begin)
        return file.read(end - begin)


async def send_bytes(request: web.Request, headers: dict[str, str], data: bytes) -> web.StreamResponse:
    return await send(request, headers, pieces_of(data), len(data))


async def send_json(request: web.Request, value: Any) -> web.StreamResponse:
    return await send_bytes(request, JSON, json.dumps(value).encode())


async def object_of(members: dict[str, Any]) -> AsyncGenerator[bytes, None]:
    """An object of JSON, of which a member that is a list of parts of files is their text: it is never whole in memory."""
    before = b"{"
    for name, value in members.items():
        yield before + json.dumps(name).encode() + b": "
        before = b", "
        if isinstance(value, Parts):
            yield b'"'
            async for piece in pieces_of_files(value):
                yield json.dumps(piece.decode("latin-1")).encode()[1:-1]
            yield b'"'
        else:
            async for piece in pieces_of(await asyncio.to_thread(lambda value=value: json.dumps(value).encode())):
                yield piece
    yield b"}"


def attachment(name: str, kind: str = "application/octet-stream") -> dict[str, str]:
    """A name for what is downloaded: letters, digits and a few others; the whole name stands in the form that any character may have."""
    plain = re.sub(r"[^A-Za-z0-9._ -]", "_", name).strip(". ") or "FILE"
    return {"Content-Disposition": f"attachment; filename=\"{plain}\"; filename*=UTF-8''{quote(plain)}", "Content-Type": kind}
