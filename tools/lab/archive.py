"""One archive of a class: all drives, consoles, printouts and records, with digests, so that anybody can play a record again by cpmhost alone."""

import asyncio
import hashlib
import json
import tempfile
import time
import zipfile
from pathlib import Path
from typing import Any

from lives import Life
from room import Room
from savings import bytes_of
from scripts import script_of
from session import Session

README = """\
{name}, collected at {when} UTC.

Each student has a folder. In it are the drives as they stood (A.img ..), and a folder for each life of the session: 1 from its start on, another
one behind each setting back, fork, reset or stored file. A life has

    console     what the session showed
    list        what it sent to its printer
    keys        what was typed, as a key script: the count of steps of the life, and the keys
    times       the same with the milliseconds since the life began, and how long the console was
    life.json   the saving that it began with, and its steps

SHA256SUMS has the digest of each file: sha256sum -c SHA256SUMS

The same bytes once more, by cpmhost alone, with SAVING and STEPS of life.json{system}:

    cpmhost com --from savings/SAVING --replay STUDENT/1/keys --steps STEPS{option} --list again.list --quiet > again.console
"""


class Zip:
    """A zip file, and the digests of what is in it."""

    def __init__(self, path: Path) -> None:
        self.zip = zipfile.ZipFile(path, "w", zipfile.ZIP_DEFLATED, compresslevel=1)
        self.digests: dict[str, str] = {}

    def add(self, name: str, data: bytes) -> None:
        if name not in self.digests:
            self.digests[name] = hashlib.sha256(data).hexdigest()
            self.zip.writestr(name, data)

    def close(self) -> None:
        self.zip.writestr("SHA256SUMS", "".join(f"{digest}  {name}\n" for name, digest in self.digests.items()))
        self.zip.close()


def told_of(life: Life, steps: int) -> dict[str, Any]:
    return {"saving": life.base, "steps": steps, "how": life.how, "begun": int(life.begun)}


def add_life(out: Zip, work: Path, name: str, told: dict[str, Any], files: dict[str, bytes]) -> None:
    entries = [json.loads(line) for line in files["record"].splitlines()]
    out.add(f"savings/{told['saving']}", bytes_of(work / told["saving"]))
    out.add(f"{name}/console", files["console"])
    out.add(f"{name}/list", files["list"])
    out.add(f"{name}/keys", script_of(entries).encode())
    out.add(f"{name}/times", files["record"])
    out.add(f"{name}/life.json", json.dumps(told, indent=1).encode())


def add_session(out: Zip, work: Path, session: Session, images: list[bytes], told: dict[str, Any], files: dict[str, bytes], current: int) -> None:
    for letter, image in zip("ABCD", images):
        out.add(f"{session.id}/{letter}.img", image)
    for number in range(1, current):
        folder = session.folder / str(number)
        if (folder / "life.json").exists():
            past = {name: (folder / name).read_bytes() for name in ("console", "list", "record")}
            add_life(out, work, f"{session.id}/{number}", json.loads((folder / "life.json").read_bytes()), past)
    add_life(out, work, f"{session.id}/{current}", told, files)


async def collect(room: Room) -> Path:
    """Writes the archive to a file of the lab's folder. Each student's session stands still while its drives are copied."""
    with tempfile.NamedTemporaryFile(dir=room.folder.top, prefix="archive-", suffix=".zip", delete=False) as file:
        path = Path(file.name)
    out = Zip(path)
    try:
        for session in room.present():
            async with room.alone(session):
                async with session.bridge.copies(session.slot, len(session.seat.machine.drives)) as names:
                    images = [(room.folder.scratch / name).read_bytes() for name in names]
                told = {**told_of(session.life, session.steps), "student": session.name, "end": session.seat.end, "why": session.why()}
                files = {name: session.life.whole(name) for name in ("console", "list", "record")}
                current = session.life.number
            await asyncio.to_thread(add_session, out, room.folder.work, session, images, told, files, current)
        if room.system is not None:
            out.add("system.img", room.system.read_bytes())
        has_system = room.system is not None
        words = {"system": ", and the class's system drive" if has_system else "", "option": " --system system.img" if has_system else ""}
        out.add("README.txt", README.format(name=room.lab.name, when=time.strftime("%Y-%m-%d %H:%M", time.gmtime()), **words).encode())
        out.close()
    except BaseException:
        out.zip.close()
        path.unlink(missing_ok=True)
        raise
    return path
