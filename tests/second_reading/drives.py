"""Rows of `drives`: the functions on files over the drives of a session, a file control block and a buffer, without a memory."""

from .bdos import Session
from .disk import P, Fault
from .images import Images, blank
from .rows import Refused, Wrong, address_of, bytes_of, filled, number_of, some

FUNCTIONS = {
    "open": 15, "close": 16, "search-first": 17, "search-next": 18, "erase": 19, "read": 20, "write": 21, "make": 22, "rename": 23,
    "set-attributes": 30, "read-random": 33, "write-random": 34, "size": 35, "set-random": 36, "write-cleared": 40,
}
WRITES = {"write", "write-random", "write-cleared"}
FAULTS = {"Bad Sector": "BadSector", "Select": "Select", "File R/O": "FileReadOnly", "R/O": "ReadOnly"}
# where the manual's fields of a file control block are, and how long
FIELDS = {"dr": (0, 1), "name": (1, 11), "ex": (12, 1), "s1": (13, 1), "s2": (14, 1), "rc": (15, 1), "new-name": (17, 11), "cr": (32, 1), "r0": (33, 3)}
FIELDS.update({f"d{number}": (16 + number, 1) for number in range(16)})
FCB = 36
RECORD = 128


def runs(words):
    """Words, equal ones in a row once."""
    found = []
    for word in words:
        if found and found[-1][1] == word:
            found[-1][0] += 1
        else:
            found.append([1, word])
    return " ".join(word if count == 1 else f"{count}*{word}" for count, word in found)


class FileControlBlock:
    """A file control block with its verbs."""

    def __init__(self):
        self.bytes = bytearray(FCB)
        self.verbs = {"fcb": self.whole, "field": self.field}

    def whole(self, arguments):
        if not arguments:
            return bytes(self.bytes)
        self.bytes = bytearray(filled(arguments, FCB))
        return None

    def field(self, arguments):
        """The field and what is behind it become so; or what the field is."""
        name, *given = some(arguments, 1, len(arguments))
        if name.text not in FIELDS:
            raise Wrong(f"no field is called {name.text}", "Words")
        start, size = FIELDS[name.text]
        if not given:
            return bytes(self.bytes[start : start + size])
        self.put(start, bytes_of(given))
        return None

    def put(self, start, data):
        if start + len(data) > FCB:
            raise Wrong(f"these are {len(data)} bytes", "Bytes")
        self.bytes[start : start + len(data)] = data


class Here:
    """A session with its file control block and its buffer."""

    def __init__(self, images, system):
        self.session = Session(images, system)
        self.fcb = FileControlBlock()
        self.session.buffer = bytearray(RECORD)


class Drives:
    """The scene of a row."""

    def __init__(self):
        self.images = Images()
        self.lent = blank()
        self.here = Here([], self.lent)
        self.other = Here([], self.lent)
        self.verbs = {
            **self.images.verbs,
            "session": self.begin,
            "other-session": self.exchange,
            "end": self.end,
            "system": self.system,
            "fcb": lambda arguments: self.here.fcb.whole(arguments),
            "field": lambda arguments: self.here.fcb.field(arguments),
            "buffer": self.buffer,
            "repeat": self.repeat,
            "each-drive": self.each_drive,
            "select": self.select,
            "user": self.user,
            "protect": self.protect,
            "reset": lambda arguments: self.do(arguments, self.here.session.reset),
            "warm-boot": lambda arguments: self.do(arguments, self.here.session.warm_boot),
            "reset-drives": self.reset_drives,
            "current": lambda arguments: self.asked(arguments, str(self.here.session.current)),
            "login-vector": lambda arguments: self.asked(arguments, f"{self.here.session.answer(24, 0):04X}"),
            "read-only-vector": lambda arguments: self.asked(arguments, f"{self.here.session.answer(29, 0):04X}"),
            "allocation-vector": lambda arguments: self.asked(arguments, self.here.session.allocation_vector()),
            "drives-there": self.drives_there,
            "read-sector": self.read_sector,
            "write-sector": self.write_sector,
        }
        del self.verbs["records"]

    def knows(self, verb):
        return verb in self.verbs or verb in FUNCTIONS

    def act(self, line):
        if line.verb in FUNCTIONS:
            self.prepare(line.verb, line.arguments)
            return self.code(lambda: self.call(line.verb))
        return self.verbs[line.verb](line.arguments)

    # ---- sessions

    def begin(self, names):
        self.here = Here(self.images.copies(names), self.lent)

    def exchange(self, arguments):
        some(arguments, 0)
        self.here, self.other = self.other, self.here

    def end(self, names):
        disks = self.here.session.disks
        for drive, name in enumerate(names):
            if drive not in disks or drive == P:
                raise Wrong(f"there is no drive for {name.text}", "Absent")
            self.images.put(name, disks[drive].image)
        self.here.session.disks = {P: disks[P]}

    def system(self, arguments):
        (name,) = some(arguments, 1)
        self.lent = self.images.copy(name)
        for it in (self.here, self.other):
            it.session.lend(self.lent)

    # ---- functions on files

    def prepare(self, verb, arguments):
        """The new name of a file, or the record that is written."""
        if verb == "rename" and arguments:
            name = bytes_of(some(arguments, 1))
            if len(name) != 11:
                raise Wrong("a name has 11 characters", "Bytes")
            self.here.fcb.put(17, name)
        elif verb in WRITES and arguments:
            self.here.session.buffer = bytearray(filled(arguments, RECORD))
        else:
            some(arguments, 0)

    def call(self, verb):
        session, fcb = self.here.session, self.here.fcb
        session.fcb = bytearray(fcb.bytes)
        try:
            return session.with_fcb(FUNCTIONS[verb])
        finally:
            fcb.bytes = session.fcb

    @staticmethod
    def code(call):
        try:
            return f"{call() or 0:02X}"
        except Fault as fault:
            return Refused(FAULTS[fault.name])

    def repeat(self, arguments):
        times, verb, *rest = some(arguments, 2, len(arguments))
        if verb.text not in FUNCTIONS:
            raise Wrong(f"no function is called {verb.text}", "Unknown")
        self.prepare(verb.text, rest)
        return runs(self.code(lambda: self.call(verb.text)) for _ in range(number_of(times, 1_000_000)))

    def each_drive(self, arguments):
        (verb,) = some(arguments, 1)
        if verb.text not in FUNCTIONS:
            raise Wrong(f"no function is called {verb.text}", "Unknown")
        before, codes = bytes(self.here.fcb.bytes), []
        for drive in range(256):
            self.here.fcb.bytes = bytearray([drive]) + before[1:]
            codes.append(self.code(lambda: self.call(verb.text)))
        return runs(codes)

    # ---- drives

    def select(self, arguments):
        (drive,) = some(arguments, 1)
        return self.code(lambda: self.here.session.select(number_of(drive, 255)))

    def user(self, arguments):
        (user,) = some(arguments, 1)
        self.here.session.user = number_of(user, 255)

    def protect(self, arguments):
        some(arguments, 0)
        self.here.session.answer(28, 0)

    def reset_drives(self, arguments):
        (vector,) = some(arguments, 1)
        self.here.session.reset_drives(address_of(vector))

    @staticmethod
    def do(arguments, work):
        some(arguments, 0)
        work()

    @staticmethod
    def asked(arguments, answer):
        some(arguments, 0)
        return answer

    def drives_there(self, arguments):
        some(arguments, 0)
        return runs("yes" if drive in self.here.session.disks else "no" for drive in range(256))

    def buffer(self, arguments):
        (place,) = some(arguments, 1)
        return bytes([self.here.session.buffer[number_of(place, RECORD - 1)]])

    def read_sector(self, arguments):
        data = self.here.session.read_sector(*map(number_of, some(arguments, 3)))
        if data is None:
            return "no"
        self.here.session.buffer = bytearray(data)
        return "yes"

    def write_sector(self, arguments):
        drive, track, sector, *given = some(arguments, 3, len(arguments))
        where = map(number_of, (drive, track, sector))
        return "yes" if self.here.session.write_sector(*where, filled(given, RECORD)) else "no"
