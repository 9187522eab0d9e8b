"""What a session of the class starts from: the system drive, and the saving that all begin with."""

import hashlib
import re
import shutil
import subprocess
from dataclasses import asdict, dataclass
from pathlib import Path
from typing import Any, Optional

from config import BLANKS, Lab
from lives import FAR_ANEW
from paths import Folder, whole_file
from refusals import WrongConfiguration
from savings import pack
from session import Machine

from cpmhost import AsyncHost
from cpmhost.faults import HostGone, Refused


def digest(data: bytes) -> str:
    return hashlib.sha256(data).hexdigest()


@dataclass(frozen=True)
class Beginning:
    """The saving that a session begins with, what that is made of, and by what [start] it was made."""

    saving: str
    machine: Machine
    key: str

    def state(self) -> dict[str, Any]:
        return asdict(self)

    @staticmethod
    def of(state: dict[str, Any]) -> "Beginning":
        return Beginning(state["saving"], Machine.of(state["machine"]), state["key"])


def system_drive(lab: Lab, folder: Folder) -> Optional[Path]:
    """The system drive of the class: that of its first day."""
    kept, given = folder.top / "system.img", lab.start.system
    if given is None:
        if kept.exists():
            why = "the class began with a system drive, and [start] names none: name it by 'system'"
            raise WrongConfiguration(f"{why}, or give another 'folder' than {folder.top}")
        return None
    data = given.read_bytes()
    if not kept.exists():
        if (folder.top / "state.json").exists():
            why = "the class began without a system drive, and [start] names one: remove 'system'"
            raise WrongConfiguration(f"{why}, or give another 'folder' than {folder.top}")
        whole_file(kept, data)
    elif kept.read_bytes() != data:
        why = f"'system' is another image than the one that the class began with, which is {kept}"
        raise WrongConfiguration(f"{why}: name that one, or give another 'folder'")
    return kept


def key_of(lab: Lab) -> str:
    """What tells one [start] from another: a digest of what it says, and of its files."""
    start = lab.start
    files = [it for it in (start.saved, start.shown) if it is not None] + [Path(it) for it in start.drives if it not in BLANKS]
    named = []
    if start.configured is not None:
        files, named = start.configured.files(), [start.configured.session]
    return digest(repr([start.cpu, start.quota, start.drives, *named, *[digest(it.read_bytes()) for it in files]]).encode())


def given_start(lab: Lab, scratch: Path) -> tuple[bool, bytes]:
    """Writes the saved session that is given to the scratch folder, if one is; and what it has shown."""
    start = lab.start
    if start.configured is not None:
        saving, shown = start.configured.prepared(lab.program, scratch)
        (scratch / "start.sav").write_bytes(saving)
        return True, shown
    if start.saved is not None:
        shutil.copyfile(start.saved, scratch / "start.sav")
    return start.saved is not None, b"" if start.shown is None else start.shown.read_bytes()


async def make_beginning(lab: Lab, folder: Folder, system: Optional[Path]) -> Beginning:
    """Makes the saving that a session begins with, by a host of its own."""
    start, scratch = lab.start, folder.scratch
    is_saved, shown = given_start(lab, scratch)
    drives = [it if it in BLANKS else f"start-{letter}.img" for it, letter in zip(start.drives, "abcd")]
    for given, name in zip(start.drives, drives):
        if given not in BLANKS:
            shutil.copyfile(given, scratch / name)
    try:
        async with AsyncHost(program=lab.program, folder=str(scratch), system=None if system is None else str(system)) as host:
            session = await (host.open(from_file="start.sav") if is_saved else host.open(start.cpu, start.quota, drives))
            await session.save("start.sav")
    except Refused as fault:
        raise WrongConfiguration(f"[start] is refused as {fault.word}: {fault.why}: correct 'from', 'drives', 'quota' or 'system'") from fault
    except HostGone as fault:
        why = f"{lab.program} doesn't serve: {fault}; see what it said above"
        raise WrongConfiguration(f"{why}, and correct 'system' or the variable CPMHOST") from fault
    data = (scratch / "start.sav").read_bytes()
    saving = f"start-{digest(data)[:16]}.sav"
    pack(scratch / "start.sav", folder.work / saving)
    # (what a screen shows that begins with it)
    whole_file(folder.work / f"{saving}.screen", shown[-FAR_ANEW:])
    return Beginning(saving, machine_of(lab.program, scratch / "start.sav"), key_of(lab))


def machine_of(program: str, saving: Path) -> Machine:
    """What a saved session is made of, as `cpmhost saved` tells it."""
    told = subprocess.run([program, "saved", str(saving)], capture_output=True, text=True, errors="replace").stdout
    cpu = re.search(r"^(8080|Z80),", told, re.M)
    quota = re.search(r"^[0-9]+ of ([0-9]+) pages", told, re.M)
    drives = re.findall(r"^[A-D]: ([0-9]+) bytes", told, re.M)
    if not cpu or not quota:
        raise WrongConfiguration(f"{program} doesn't say what a saving is: {told[:200]!r}: name the program of this release by CPMHOST")
    return Machine(cpu[1].lower(), int(quota[1]), tuple(map(int, drives)))
