"""What the measurements of sessions share: the program of crate bench_machines, and a system drive with one program."""
import os
import shutil
import subprocess
import sys

BENCH = os.path.dirname(os.path.realpath(__file__))
TOP = os.path.dirname(BENCH)
sys.path.insert(0, f"{TOP}/tests")
from second_reading.disk import SMALL, Disk  # noqa: E402

CRATE = f"{TOP}/crates/bench_machines"
FIRST_BLOCK = 2


def build(to):
    """Copies the program of bench_machines to this path: the one that the variable BENCH_MACHINES names, or else what rt proves and builds, where that is to
    do. Whether it is there."""
    named = os.environ.get("BENCH_MACHINES")
    if named:
        shutil.copy2(named, to)
        return True
    if not shutil.which("rt"):
        return False
    ran = subprocess.run(["rt", "run", "--", "machine", "8080", "data/loop.com", "1000"], cwd=CRATE, stdin=subprocess.DEVNULL, capture_output=True)
    if ran.returncode:
        return False
    shutil.copy2(f"{CRATE}/out/bench_machines", to)
    return True


def system_drive(program, to, form=SMALL):
    """Writes a system drive of this format that is blank but for this program, as RUN.COM of user 0."""
    with open(program, "rb") as it:
        data = it.read()
    records = -(-len(data) // 128)
    blocks = -(-records // form.in_block)
    if records > 128:
        raise ValueError(f"{program} needs more than one extent")
    disk = Disk(bytearray([0xE5]) * form.size)
    numbers = form.map_of(range(FIRST_BLOCK, FIRST_BLOCK + blocks))
    disk.put_entry(0, bytes([0]) + b"RUN     COM" + bytes([0, 0, 0, records]) + numbers)
    padded = data.ljust(128 * records, b"\x1a")
    for number in range(records):
        disk.write(FIRST_BLOCK * form.in_block + number, padded[128 * number : 128 * number + 128])
    with open(to, "wb") as it:
        it.write(disk.image)
