"""Where things are in the lab's folder, and who has it."""

import fcntl
import os
import re
import secrets
import shutil
import tempfile
import unicodedata
from pathlib import Path

from refusals import WrongConfiguration

# where a host's files are in memory, so that it waits for no device; and what says where the last service had them
IN_MEMORY, SCRATCH = Path("/dev/shm"), "scratch"


class Folder:
    """The folder of a lab. One service has it at a time."""

    def __init__(self, top: Path, waits: bool = False) -> None:
        self.top = top
        self.work = top / "work"
        self.journals = top / "journals"
        self.sessions = top / "sessions"
        try:
            for it in (top, self.work, self.journals, self.sessions):
                it.mkdir(mode=0o700, parents=True, exist_ok=True)
            self.held = os.open(top / "held", os.O_RDWR | os.O_CREAT, 0o600)
        except OSError as fault:
            raise WrongConfiguration(f"can't make the folder {top}: {fault}: give another by 'folder'") from fault
        try:
            fcntl.flock(self.held, fcntl.LOCK_EX | (0 if waits else fcntl.LOCK_NB))
        except BlockingIOError as fault:
            raise WrongConfiguration(f"{top} is held by another lab that runs: end that one, or give another 'folder'") from fault
        except OSError as fault:
            raise WrongConfiguration(f"can't lock {top}/held: {fault}: see to the device or the server that has it, or give another 'folder'") from fault
        self.token = secrets.token_hex(16).encode()
        os.ftruncate(self.held, 0)
        os.pwrite(self.held, self.token, 0)
        self.scratch = self.make_scratch()

    def is_ours(self) -> bool:
        """Whether no other service has taken the folder meanwhile, as one of another machine may where this one was cut off from it for long."""
        return (self.top / "held").read_bytes() == self.token

    def make_scratch(self) -> Path:
        """The folder of the hosts' requests, where savings and copies of drives pass through. What a service left that was killed is removed."""
        note = self.top / SCRATCH
        if note.exists():
            left = Path(note.read_text(encoding="utf-8"))
            if left.name.startswith("lab-") and left.is_dir() and not left.is_symlink() and left.stat().st_uid == os.getuid():
                shutil.rmtree(left, ignore_errors=True)
        beside = IN_MEMORY if os.access(IN_MEMORY, os.W_OK | os.X_OK) else self.top
        scratch = Path(tempfile.mkdtemp(prefix="lab-", dir=beside))
        note.write_text(str(scratch), encoding="utf-8")
        return scratch

    def close(self) -> None:
        shutil.rmtree(self.scratch, ignore_errors=True)
        if self.is_ours():
            (self.top / SCRATCH).unlink(missing_ok=True)
        os.close(self.held)


def slug(name: str, number: int) -> str:
    """A name that is safe in any file system and address: letters and digits of a student's name behind a number."""
    plain = unicodedata.normalize("NFKD", name).encode("ascii", "ignore").decode().lower()
    return f"{number:03}-{re.sub(r'[^a-z0-9]+', '-', plain).strip('-')[:30]}".rstrip("-")


def whole_file(path: Path, data: bytes) -> None:
    """A file with these bytes, which is whole or as it was."""
    new = path.with_name(path.name + ".new")
    with open(new, "wb") as out:
        out.write(data)
        out.flush()
        os.fsync(out.fileno())
    os.rename(new, path)
