"""A machine at CP/M's prompt: the line that is typed, and the built-in commands. It runs no program; what it doesn't know is `Beyond`.

The editing of a line, the commands and their steps are those of docs/MANUAL.md and docs/DECISIONS.md. Files are those of bdos.py.
"""

import copy
import re

from .bdos import Session
from .disk import UNUSED, Fault, name_matches

MOST_KEYS, MOST_WAITING, STEP_OUTPUT = 4096, 8192, 4096
MOST_CHARACTERS = 127
PROMPT, STACK = 0xE406, 0xEBFE
NAME = r"[A-Z0-9]{1,8}(?:\.[A-Z0-9]{1,3})?"
PATTERN = r"[A-Z0-9?]{0,7}[A-Z0-9?*](?:\.[A-Z0-9?]{0,2}[A-Z0-9?*])?"


class Beyond(Exception):
    """What this reading doesn't know."""


def block_of(name):
    """A file control block of the name in a line; `*` stands for question marks up to the end of its part."""
    parts = (name + ".").split(".")[:2]
    filled = [part.split("*")[0].ljust(width, "?") if "*" in part else part.ljust(width) for part, width in zip(parts, (8, 3))]
    return bytearray(1) + bytearray("".join(filled).encode()) + bytearray(24)


class Prompt:
    """A session that nobody gave a program."""

    def __init__(self, cpu, quota, drives, system):
        self.cpu, self.quota = cpu, quota
        self.calls = Session([bytearray(it) for it in drives], system)
        self.keys, self.screen, self.printer = bytearray(), bytearray(), bytearray()
        self.column, self.list_echo = 0, False
        self.start, self.line = 0, bytearray()
        self.count = 0
        self.pages = set()
        # what the next step does
        self.part = self.prompt
        self.rest = ()

    def fork(self):
        other = copy.copy(self)
        other.calls = copy.deepcopy(self.calls)
        other.keys, other.screen, other.printer, other.line = (bytearray(it) for it in (self.keys, self.screen, self.printer, self.line))
        other.pages = set(self.pages)
        other.part = getattr(other, self.part.__name__)
        return other

    # ---- what is asked of it

    def press(self, keys):
        accepted = min(len(keys), MOST_KEYS - len(self.keys))
        self.keys += keys[:accepted]
        return accepted

    @staticmethod
    def taken(device, most):
        text = bytes(device[:most])
        del device[:most]
        return text

    @property
    def is_waiting(self):
        return self.part in (self.edit, self.answer) and not self.keys

    @property
    def has_room(self):
        return len(self.screen) <= STEP_OUTPUT and len(self.printer) <= STEP_OUTPUT

    def grant(self, steps, to_wait=False, until=None):
        """How many steps are executed, and why no more."""
        executed = 0
        while executed < steps:
            if to_wait and self.is_waiting:
                return executed, "Waiting"
            if executed and until == PROMPT and self.part == self.prompt:
                return executed, "Break"
            if not self.has_room:
                return executed, "Blocked"
            if self.is_waiting:
                self.count += steps - executed
                return steps, "All"
            self.part(*self.rest)
            self.count += 1
            executed += 1
        return executed, "All"

    def look(self):
        # (of the 8080's flags one bit is always set)
        flags = 2 if self.cpu == "8080" else 0
        pairs = ["af", "bc", "de", "hl", "ix", "iy", "i", "r", "af'", "bc'", "de'", "hl'"]
        seen = {**dict.fromkeys(pairs, 0), "af": flags, "sp": STACK, "pc": PROMPT, "iff1": False, "iff2": False, "end": "Running"}
        seen.update(keys=len(self.keys), console=len(self.screen), list=len(self.printer), waiting=self.is_waiting)
        return {**seen, "count": self.count, "pages": len(self.pages)}

    def peek(self, address, length):
        return bytes(self.calls.load(address, length))

    # ---- what a step does

    def goes_on(self, part, *rest):
        self.part, self.rest = part, rest

    def say(self, text):
        self.screen += text
        if self.list_echo:
            self.printer += text
        for byte in text:
            if byte == 8:
                self.column = max(0, self.column - 1)
            elif byte == 13:
                self.column = 0
            elif byte >= 0x20 and byte != 0x7F:
                self.column = min(255, self.column + 1)

    def below(self, text):
        self.say(b"\r\n" + text)

    def ends(self, text=None):
        if text is not None:
            self.below(text)
        self.goes_on(self.prompt)

    def store(self, at, byte):
        if self.calls.memory[at] != byte:
            self.calls.memory[at] = byte
            self.pages.add(at // 256)

    def prompt(self):
        byte = self.calls.memory[4]
        drive = byte % 16 if byte % 16 in self.calls.disks else 0
        self.calls.current, self.calls.user, self.calls.dma = drive, byte // 16, 0x80
        self.calls.disks[drive].use()
        self.below(bytes([65 + drive]) + b">")
        self.reads(self.edit)

    def reads(self, part):
        self.start, self.line = self.column, bytearray()
        self.goes_on(part)

    def file_call(self, function, buffer=bytes(128)):
        self.calls.buffer = bytearray(buffer)
        try:
            return self.calls.with_fcb(function)
        except Fault as fault:
            raise Beyond(fault.name) from fault

    # ---- a line

    def edit(self):
        self.edited(self.begin)

    def answer(self):
        self.edited(self.erase_all)

    def edited(self, behind):
        """A key goes into the line."""
        key = self.keys.pop(0)
        if key == 3 and not self.line:
            raise Beyond("a warm boot")
        if key == 5:
            self.say(b"\r\n")
        elif key in (8, 0x7F):
            echo = self.echoes()[-1:] or [b""]
            self.say(echo[0] if key == 0x7F else b"\b \b" * len(echo[0]))
            del self.line[-1:]
        elif key in (10, 13):
            self.say(b"\r")
            self.goes_on(behind)
        elif key == 16:
            self.list_echo = not self.list_echo
        elif key in (0x12, 0x15):
            self.say(b"#\r\n" + b" " * self.start)
            self.say(b"".join(self.echoes()) if key == 0x12 else b"")
            self.line = bytearray() if key == 0x15 else self.line
        elif key == 0x18:
            self.say(b"\b \b" * sum(map(len, self.echoes())))
            self.line = bytearray()
        else:
            self.put_in(key, behind)

    def put_in(self, key, behind):
        self.line.append(key)
        is_full = len(self.line) == MOST_CHARACTERS
        self.say(self.echoes()[-1] + b"\r" * is_full)
        if is_full:
            self.goes_on(behind)

    def echoes(self):
        """What each character of the line showed."""
        column, shown = self.start, []
        for byte in self.line:
            if byte == 9:
                text = b" " * (8 - column % 8)
            else:
                text = bytes([0x5E, byte ^ 0x40]) if byte < 0x20 or byte == 0x7F else bytes([byte])
            shown.append(text)
            column = min(255, column + len(text))
        return shown

    # ---- commands

    COMMANDS = (
        (r" *", "nothing"),
        (r" *([A-D]): *", "drive"),
        (r" *DIR *", "directory"),
        (rf" *DIR +({PATTERN}) *", "directory"),
        (rf" *ERA +({PATTERN}) *", "erase"),
        (rf" *REN +({NAME})=({NAME}) *", "rename"),
        (rf" *SAVE +([0-9]{{1,3}}) +({NAME}) *", "save_file"),
        (rf" *TYPE +({NAME}) *", "type_file"),
        (r" *USER +([0-9]{1,3}) *", "user"),
        (r" *(?!(?:DIR|ERA|REN|SAVE|TYPE|USER)\b)([A-Z0-9]+)(?: [ -~]*)?", "program"),
    )

    def begin(self):
        line = bytes(byte - 32 if 0x61 <= byte <= 0x7A else byte for byte in self.line).decode("latin-1")
        if self.keys[:1] == b"\x13":
            raise Beyond("^S")
        for pattern, name in self.COMMANDS:
            found = re.fullmatch(pattern, line)
            if found:
                return getattr(self, name)(*found.groups())
        raise Beyond("another line")

    def nothing(self):
        self.ends()

    def drive(self, letter):
        number = ord(letter) - 65
        if number not in self.calls.disks:
            raise Beyond("a drive that isn't there")
        self.store(4, self.calls.memory[4] & 0xF0 | number)
        self.ends()

    def user(self, number):
        if int(number) > 15:
            return self.ends(b"USER?")
        self.store(4, 16 * int(number) + self.calls.memory[4] % 16)
        return self.ends()

    def directory(self, name="*.*"):
        self.calls.fcb = block_of(name)
        self.list_next(0, 0)

    def list_next(self, index, column):
        """The next file of the listing. The `column` of its first is 0 with a message where there is none."""
        if index and self.keys[:1] == b"\x13":
            raise Beyond("^S")
        disk = self.calls.disks[self.calls.current]
        disk.use()
        for at in range(index, disk.format.entries):
            entry = disk.entry(at)
            is_it = entry[0] == self.calls.user and name_matches(self.calls.fcb[1:12], entry[1:12])
            if is_it and entry[12] < disk.format.extents and entry[14] == 0 and entry[10] < 128:
                name = bytes(byte % 128 for byte in entry[1:12])
                before = b" : " if column else b"\r\n" + bytes([65 + self.calls.current]) + b": "
                self.say(before + name[:8] + b" " + name[8:])
                return self.goes_on(self.list_next, at + 1, (column + 1) % 4)
        return self.ends(b"NO FILE" if index == 0 else None)

    def erase(self, name):
        self.calls.fcb = block_of(name)
        if self.calls.fcb[1:12] == b"?" * 11:
            self.below(b"ALL (Y/N)?")
            return self.reads(self.answer)
        return self.by_code(self.file_call(19))

    def by_code(self, code):
        self.ends(b"NO FILE" if code == 0xFF else None)

    def erase_all(self):
        if self.line[:1] not in (b"Y", b"y"):
            return self.ends()
        return self.by_code(self.file_call(19))

    def rename(self, new, old):
        disk = self.calls.disks[self.calls.current]
        taken = [disk.entry(index) for index in range(disk.format.entries)]
        if any(entry[0] == self.calls.user and name_matches(block_of(new)[1:12], entry[1:12]) for entry in taken if entry[0] != UNUSED):
            disk.use()
            return self.ends(b"FILE EXISTS")
        self.calls.fcb = block_of(old)
        self.calls.fcb[16:32] = block_of(new)[:16]
        return self.by_code(self.file_call(23))

    def save_file(self, pages, name):
        if int(pages) > 255:
            return self.ends(b"SAVE?")
        self.calls.fcb = block_of(name)
        self.file_call(19)
        if self.file_call(22) == 0xFF:
            return self.ends(b"NO SPACE")
        return self.save_next(0x100, 2 * int(pages), is_first=True)

    def save_next(self, at, left, is_first=False):
        if not is_first:
            if self.file_call(21, self.calls.load(at, 128)):
                return self.ends(b"NO SPACE")
            at, left = (at + 128) % 65536, left - 1
        return self.goes_on(self.save_next, at, left) if left else self.goes_on(self.close_file)

    def close_file(self):
        self.file_call(16)
        self.ends()

    def type_file(self, name):
        self.calls.fcb = block_of(name)
        if self.file_call(15) == 0xFF:
            return self.ends(b"NO FILE")
        self.below(b"")
        return self.goes_on(self.show_next)

    def show_next(self):
        if self.keys[:1] == b"\x13":
            raise Beyond("^S")
        if self.file_call(20):
            return self.ends()
        text, end, _ = bytes(self.calls.buffer).partition(b"\x1a")
        for byte in text:
            self.say(b" " * (8 - self.column % 8) if byte == 9 else bytes([byte]))
        return self.ends() if end else self.goes_on(self.show_next)

    def program(self, name):
        self.calls.fcb = block_of(f"{name[:8]}.COM")
        if self.file_call(15) != 0xFF:
            raise Beyond("a program")
        self.ends(name.encode() + b"?")
