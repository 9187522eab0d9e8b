"""Sessions that are written as rows of `calls`, each call with what the reading says of it."""

import re
import subprocess

from lib import TEST_ROWS, stop

from .bdos import Session
from .calls import come
from .disk import LARGE, P, Disk, Fault
from .rows import quoted, shown_bytes

SAID = re.compile(r"(\d+) rows of 1 files with (\d+) expectations, (\d+) failed")
BLANK = 128 * b"\xe5"


class Traced(Disk):
    """A disk that knows which records were read or written."""

    def __init__(self, image):
        super().__init__(image)
        self.before = Disk(bytes(image))
        self.touched = set()

    @property
    def directory(self):
        """How many records the directory has."""
        return self.format.entries // 4

    def read(self, record):
        self.touched.add(record)
        return super().read(record)

    def write(self, record, data):
        self.touched.add(record)
        super().write(record, data)

    def lines(self, name):
        """The entries that it had in use, and those records that the session came to. So a row has none that no call comes to: they are blank there."""
        yield f"image {name} {'blank-large' if self.format is LARGE else 'blank'}"
        for index in range(self.format.entries):
            entry = self.before.entry(index)
            if entry != BLANK[:32]:
                yield f"entry {name} {index} {shown_bytes(entry)}"
        for record in sorted(self.touched):
            data = self.before.read(record)
            if record >= self.directory and data != BLANK:
                yield f"record {name} {record} {shown_record(data)}"

    def left_lines(self, letter, records):
        """What these records must be at the end."""
        touched = set(self.touched)
        for record in records:
            is_there = record < self.directory or record in touched
            yield f"disk {letter} {record} = {shown_record(self.read(record) if is_there else BLANK)}"


class Written:
    """A session on copies of images, A and B, and of a system drive."""

    def __init__(self, name, images, system):
        self.name = name
        self.disks = {letter: Traced(bytearray(image)) for letter, image in zip("AB", images)}
        self.session = Session([disk.image for disk in self.disks.values()], bytearray(system))
        self.disks["P"] = Traced(bytearray(system))
        self.session.disks = {P if letter == "P" else "AB".index(letter): disk for letter, disk in self.disks.items()}
        self.lines = []

    def put(self, at, data):
        self.lines.append(f"store {at:04X} {shown_bytes(data)}")
        self.session.store(at, data)

    def call(self, function, de):
        """HL, or the fault, of a call."""
        come(self.session)
        try:
            result = self.session.call(function, de)
            shown = f"{result:04X}"
        except Fault as fault:
            result, shown = fault, quoted(fault.message)
        self.lines.append(f"bdos {function} {de:04X} = {shown}")
        return result

    def see(self, at, count):
        """The bytes of memory from an address on."""
        data = bytes(self.session.load(at, count))
        self.lines.append(f"peek {at:04X} {count} = {shown_bytes(data)}")
        return data

    def records(self, disk):
        """Those that are compared at the end."""
        return range(disk.format.records)

    def text(self):
        lines = [self.name]
        for letter, disk in self.disks.items():
            lines += disk.lines(letter.lower())
        own = [letter for letter in self.disks if letter != "P"]
        lines += [f"session {' '.join(own).lower()}", "system p", *self.lines]
        for letter in own:
            lines += self.disks[letter].left_lines(letter, self.records(self.disks[letter]))
        return "\n  ".join(lines) + "\n"


def shown_record(data):
    """The words for a record, of which the first two bytes may stand over and over."""
    if data == 64 * data[:2] and data[0] != data[1]:
        return f'64*"\\x{data[0]:02X}\\x{data[1]:02X}"'
    return shown_bytes(data)


def run(path, sessions):
    """Writes sessions as a file of rows and runs it. How many expectations there were, and how many rows failed, of which the program's words are printed."""
    with open(path, "w", encoding="ascii") as it:
        it.write(f"{len(sessions)} rows of calls\n")
        for session in sessions:
            it.write("\n" + session.text())
    ran = subprocess.run([TEST_ROWS, path], capture_output=True, text=True, check=False)
    lines = ran.stdout.splitlines()
    last = SAID.fullmatch(lines[-1]) if lines else None
    if ran.returncode not in (0, 1) or not last or int(last[1]) != len(sessions):
        stop(f"{TEST_ROWS} ended with status {ran.returncode}: {(ran.stdout + ran.stderr)[-2000:]}")
    print("".join(line + "\n" for line in lines[:-1]), end="")
    return int(last[2]), int(last[3])
