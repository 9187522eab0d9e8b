"""The files that hold a disk's tracks with the numbers of their sectors: IMD, TD0, CopyQM and EDSK; and the commands of Debian's packages that read them.

An EDSK or DSK is read here. The others are made one by dskdump of libdsk, which keeps the tracks as they are: so nothing is guessed of how many
sectors there are, and how they are numbered. What is left is the bytes of the sectors, track by track, in the order of their numbers.
"""

import contextlib
import os
import resource
import shutil
import subprocess
import tempfile
from collections import Counter
from typing import NamedTuple

# the heads of these files, what they are, and dskdump's name of them
HEADS = (
    (b"IMD ", "IMD", "imd"),
    (b"TD\0", "TD0", "tele"),
    (b"td\0", "TD0", "tele"),
    (b"CQ\x14", "CopyQM", "copyqm"),
    (b"EXTENDED CPC DSK", "EDSK", None),
    (b"MV - CPC", "DSK", None),
)
PACKAGES = {"dskdump": "libdsk-utils", "fsck.cpm": "cpmtools"}
MOST = 64 * 1024 * 1024
SECONDS = 60
# the bits of a sector's two states that tell of bytes that were read with an error
ERRORS = 0x20, 0x20


class Unreadable(Exception):
    """Why a file can't be read."""


class Tracks(NamedTuple):
    """A disk: the bytes of its sectors, and how they were arranged."""

    image: bytes
    cylinders: int
    heads: int
    sectors: int
    sector: int
    # how many of the sectors were read with an error, and whether some tracks have other sectors than most
    errors: int
    is_mixed: bool

    def __str__(self):
        found = f"{self.cylinders} cylinders, {self.heads} {'side' if self.heads == 1 else 'sides'}, {self.sectors} sectors of {self.sector} bytes"
        found += ", other ones on some tracks" if self.is_mixed else ""
        return found + (f", {self.errors} of them with errors" if self.errors else "")


# ---- commands


def bounded():
    """Bounds a command that reads what anybody may have made."""
    resource.setrlimit(resource.RLIMIT_FSIZE, (MOST, MOST))
    resource.setrlimit(resource.RLIMIT_CPU, (SECONDS, SECONDS))
    resource.setrlimit(resource.RLIMIT_AS, (1 << 30, 1 << 30))
    resource.setrlimit(resource.RLIMIT_CORE, (0, 0))


def run_command(room, command, *words):
    """What a command of a package did in a folder, which has nothing of the user's own; its status and what it printed."""
    found = shutil.which(command)
    if not found:
        raise Unreadable(f"there is no {command} here, which reads it (Debian's package {PACKAGES[command]})")
    environment = {"PATH": os.environ.get("PATH", ""), "HOME": room, "LC_ALL": "C"}
    try:
        ran = subprocess.run(
            [found, *words], cwd=room, env=environment, stdin=subprocess.DEVNULL, capture_output=True, timeout=SECONDS, preexec_fn=bounded
        )
    except subprocess.TimeoutExpired:
        raise Unreadable(f"{command} takes more than {SECONDS} seconds for it")
    return ran.returncode, (ran.stdout + ran.stderr).decode("latin-1")


@contextlib.contextmanager
def room_with(image):
    """A folder with these bytes in its file `image`."""
    with tempfile.TemporaryDirectory(prefix="import-") as room:
        with open(f"{room}/image", "wb") as file:
            file.write(image)
        yield room


# ---- tracks


def kind_of(head):
    """What a file is by its first bytes, and dskdump's name of it; or nothing."""
    return next(((kind, driver) for it, kind, driver in HEADS if head.startswith(it)), None)


def tracks_of(data, driver):
    """The tracks of such a file."""
    if len(data) > MOST:
        raise Unreadable(f"it has {len(data):,} bytes, and {MOST:,} are the most")
    return arranged(tracks_of_edsk(bytes(data) if driver is None else dumped(data, driver)))


def dumped(data, driver):
    with room_with(data) as room:
        status, printed = run_command(room, "dskdump", "-itype", driver, "-otype", "edsk", "image", "edsk")
        if status or not os.path.exists(f"{room}/edsk"):
            raise Unreadable("dskdump of libdsk rejects it, so it is cut or damaged")
        with open(f"{room}/edsk", "rb") as file:
            return file.read()


def tracks_of_edsk(data):
    """Each track of an EDSK or a DSK that has sectors: its cylinder and side, the bytes of its sectors by their numbers, and how many have errors."""
    cylinders, heads = data[0x30:0x32] if len(data) >= 0x100 else (0, 0)
    if not cylinders or heads not in (1, 2):
        raise Unreadable("its head is cut, or has no cylinders")
    is_extended = data.startswith(b"E")
    at = 0x100
    for track in range(cylinders * heads):
        length = data[0x34 + track] * 256 if is_extended and 0x34 + track < 0x100 else int.from_bytes(data[0x32:0x34], "little")
        if length:
            block = data[at : at + length]
            yield track // heads, track % heads, *sectors_of(block, is_extended, f"track {track // heads} of side {track % heads}")
        at += length


def sectors_of(block, is_extended, where):
    """The bytes of a track's sectors by their numbers, and how many have errors."""
    if not block.startswith(b"Track-Info") or len(block) < 0x18:
        raise Unreadable(f"{where} is cut, or begins otherwise than a track")
    count, found, errors = block[0x15], {}, 0
    at = 0x100 * -(-(0x18 + 8 * count) // 0x100)
    for row in range(0x18, 0x18 + 8 * count, 8):
        _, _, number, code, *states = block[row : row + 6]
        size = 128 << min(code, 8)
        kept = int.from_bytes(block[row + 6 : row + 8], "little") if is_extended else size
        if number in found:
            raise Unreadable(f"{where} has two sectors of the number {number}")
        if kept < size or at + size > len(block):
            raise Unreadable(f"{where} has less of sector {number} than its {size} bytes")
        found[number] = block[at : at + size]
        errors += any(it & bit for it, bit in zip(states, ERRORS))
        at += kept
    return found, errors


def arranged(tracks):
    """The bytes of all tracks: side by side of each cylinder, the sectors of each in the order of their numbers. A track that has fewer bytes than most
    is filled up, as the definitions of formats want it."""
    found, errors = {}, 0
    for cylinder, head, sectors, wrong in tracks:
        if sectors:
            found[cylinder, head] = [sectors[it] for it in sorted(sectors)]
            errors += wrong
    if not found:
        raise Unreadable("it has no sectors")
    shapes = Counter((len(it), len(it[0])) for it in found.values())
    (sectors, sector), _ = max(shapes.items(), key=lambda it: (it[1], it[0]))
    room = sectors * sector
    cylinders, heads = (1 + max(it[at] for it in found) for at in (0, 1))
    image = bytearray(b"\xe5" * (cylinders * heads * room))
    for (cylinder, head), track in found.items():
        data = b"".join(track)
        if len(data) > room:
            raise Unreadable(f"track {cylinder} of side {head} has {len(data):,} bytes, and most have {room:,}")
        start = (cylinder * heads + head) * room
        image[start : start + len(data)] = data
    return Tracks(bytes(image), cylinders, heads, sectors, sector, errors, len(shapes) > 1 or len(found) < cylinders * heads)
