"""Savings as they are kept: compressed, each whole or not there. One that an older release has kept is as it was."""

import gzip
import os
import shutil
from pathlib import Path

# (blank disks are small at any level, and a class waits for none of it)
LEVEL, PIECE = 1, 1 << 20


def packed_path(saving: Path) -> Path:
    return saving.with_name(saving.name + ".gz")


def pack(given: Path, saving: Path) -> int:
    """Keeps a saving, and says how many bytes that takes."""
    path = packed_path(saving)
    new = path.with_name(path.name + ".new")
    with open(given, "rb") as source, open(new, "wb") as out:
        with gzip.GzipFile(filename="", mode="wb", compresslevel=LEVEL, fileobj=out, mtime=0) as zipped:
            shutil.copyfileobj(source, zipped, PIECE)
        out.flush()
        os.fsync(out.fileno())
    os.rename(new, path)
    return path.stat().st_size


def unpack(saving: Path, given: Path) -> None:
    """Writes a saving that is kept to a file."""
    path = packed_path(saving)
    if not path.exists():
        shutil.copyfile(saving, given)
        return
    with gzip.open(path, "rb") as source, open(given, "wb") as out:
        shutil.copyfileobj(source, out, PIECE)


def bytes_of(saving: Path) -> bytes:
    path = packed_path(saving)
    return gzip.decompress(path.read_bytes()) if path.exists() else saving.read_bytes()
