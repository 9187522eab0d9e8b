"""Rows of `calls`: a session, step by step."""

from .bdos import Session
from .disk import Fault
from .images import Images, blank
from .memory import header_at
from .rows import NotPlayed, Refused, Wrong, address_of, bytes_of, digits_of, filled, number_of, quoted, some

# what a call by a row's line comes from, and its stack
BACK = 0x1234
STACK = 0xEBFC
# the other registers, and pairs of them
OTHER = 0x55
PAIR = 0x5555
DRIVES = "ABCD"
# what stands in a line of the language that is not played here: consoles, lines, command processors, and steps one by one
NOT_PLAYED = {
    "come", "fault", "commands", "type", "load", "tail", "register", "mode", "key", "next-key", "first-key", "pending", "column", "take",
    "list", "waits", "pages",
}
CONSOLE_FUNCTIONS = range(1, 12)
CONSOLE_BIOS = range(2, 6)


def come(session):
    """Comes to the system as a program does by CALL."""
    session.store(STACK, BACK.to_bytes(2, "little"))


class Calls:
    """The scene of a row."""

    def __init__(self):
        self.images = Images()
        self.session = None
        self.verbs = {
            **self.images.verbs,
            "session": self.begin,
            "system": self.system,
            "bdos": self.bdos,
            "call": self.come_to,
            "step": self.step,
            "returned": self.returned,
            "bios": self.bios,
            "list-echo": self.list_echo,
            "booted": self.booted,
            "store": self.store,
            "fcb": self.fcb,
            "buffer": self.buffer,
            "peek": self.bytes,
            "disk": self.disk,
            "directory": self.directory,
            "place": self.place,
            "drives": self.drives,
        }

    def knows(self, verb):
        return verb in self.verbs or verb in NOT_PLAYED

    def act(self, line):
        if line.verb in NOT_PLAYED:
            raise NotPlayed(line.verb)
        if line.verb not in self.images.verbs and line.verb != "session" and self.session is None:
            raise Wrong("there is no session", "Absent")
        return self.verbs[line.verb](line.arguments)

    # ---- what is done

    def begin(self, names):
        self.session = Session(self.images.copies(names), blank())
        self.sector = {"drive": 0, "track": 0, "sector": 1, "buffer": 0x80}
        self.is_booted = self.is_echoed = False
        self.coming = self.result = None

    def system(self, arguments):
        (name,) = some(arguments, 1)
        self.session.lend(self.images.copy(name))

    def store(self, arguments):
        at, *given = some(arguments, 1, len(arguments))
        self.session.store(address_of(at), bytes_of(given))

    def fcb(self, arguments):
        at, drive, *name = some(arguments, 3, len(arguments))
        name = bytes_of(name)
        if len(name) != 11:
            raise Wrong("a name has 11 characters", "Bytes")
        self.session.store(address_of(at), bytes([number_of(drive, 255)]) + name + bytes(24))

    def come(self):
        come(self.session)
        self.is_booted = False

    def bdos(self, arguments):
        """A function with its parameter: HL, or a refusal: the message of its fault."""
        function, parameter = some(arguments, 2)
        function, parameter = number_of(function, 255), address_of(parameter)
        if function in CONSOLE_FUNCTIONS:
            raise NotPlayed(f"bdos {function}")
        self.come()
        if function == 0:
            return Refused(self.boot())
        try:
            return f"{self.session.call(function, parameter):04X}"
        except Fault as fault:
            self.boot()
            return Refused(quoted(fault.message))

    def boot(self):
        self.session.warm_boot()
        self.is_booted, self.is_echoed = True, False
        return "Reboot"

    def come_to(self, arguments):
        """A function to which the next step belongs."""
        function, parameter = some(arguments, 2)
        self.come()
        self.coming, self.result = (number_of(function, 255), address_of(parameter)), None

    def step(self, arguments):
        some(arguments, 0)
        if self.coming is None or self.coming[0] in CONSOLE_FUNCTIONS:
            raise NotPlayed("step")
        (function, parameter), self.coming = self.coming, None
        if function == 0:
            return self.boot()
        try:
            self.result = self.session.call(function, parameter)
        except Fault as fault:
            raise NotPlayed("step into a fault") from fault
        return "Returned"

    def returned(self, arguments):
        some(arguments, 0)
        return Refused("not returned") if self.result is None else f"{self.result:04X}"

    def list_echo(self, arguments):
        """Whether the list device gets what the console shows, which a boot ends."""
        if not some(arguments, 0, 1):
            return "yes" if self.is_echoed else "no"
        if arguments[0].text not in ("yes", "no"):
            raise Wrong("yes or no is wanted", "Words")
        self.is_echoed = arguments[0].text == "yes"
        return None

    def buffer(self, arguments):
        if not some(arguments, 0, 1):
            return f"{self.session.dma:04X}"
        self.session.dma = address_of(arguments[0])
        return None

    # ---- the BIOS

    def bios(self, arguments):
        function, *words = some(arguments, 1, 3)
        function = number_of(function, 16)
        if function in CONSOLE_BIOS:
            raise NotPlayed(f"bios {function}")
        bc, de = ([address_of(word) for word in words] + [PAIR, PAIR])[:2]
        self.come()
        if function < 2:
            if function == 0:
                self.session.store(3, bytes(2))
            return self.boot()
        a, hl = self.sectors(function, bc, de)
        return f"{a:02X} {hl:04X}"

    def sectors(self, function, bc, de):
        """A and HL of a function that returns."""
        sector = self.sector
        if function == 7:
            return 0x1A, PAIR
        if function == 8:
            sector["track"] = 0
        elif function == 9:
            if bc % 256 in self.session.disks:
                sector["drive"] = bc % 256
            disk = self.session.disks.get(bc % 256)
            return OTHER, header_at(bc % 256, disk.format) if disk else 0
        elif function == 10:
            sector["track"] = bc
        elif function == 11:
            sector["sector"] = bc
        elif function == 12:
            sector["buffer"] = bc
        elif function == 13:
            return self.read_sector(), PAIR
        elif function == 14:
            return self.write_sector(), PAIR
        elif function == 15:
            return 0xFF, PAIR
        elif function == 16:
            table = self.session.load(de + bc, 1)[0]
            return OTHER, table if de else bc
        return OTHER, PAIR

    def read_sector(self):
        data = self.session.read_sector(self.sector["drive"], self.sector["track"], self.sector["sector"])
        if data is None:
            return 1
        self.session.store(self.sector["buffer"], data)
        return 0

    def write_sector(self):
        data = self.session.load(self.sector["buffer"], 128)
        return 0 if self.session.write_sector(self.sector["drive"], self.sector["track"], self.sector["sector"], data) else 1

    # ---- what is asked

    def booted(self, arguments):
        some(arguments, 0)
        return "yes" if self.is_booted else "no"

    def bytes(self, arguments):
        at, count = some(arguments, 2)
        return bytes(self.session.load(address_of(at), number_of(count, 256)))

    def drive_of(self, word):
        drive = DRIVES.find(word.text)
        if len(word.text) != 1 or drive not in self.session.disks:
            raise Wrong(f"there is no drive {word.text}", "Absent")
        return self.session.disks[drive]

    def disk(self, arguments):
        drive, number = some(arguments, 2)
        disk, number = self.drive_of(drive), number_of(number)
        if number >= disk.format.records:
            raise Wrong("there is no such record", "Absent")
        return disk.read(number)

    def directory(self, arguments):
        drive, number, place, count = some(arguments, 4)
        entry = self.drive_of(drive).entry(number_of(number, 255))
        place = number_of(place, 32)
        return bytes(entry[place : place + number_of(count, 32 - place)])

    def place(self, arguments):
        (what,) = some(arguments, 1)
        if what.text not in self.sector:
            raise Wrong("there is no such place", "Words")
        value = self.sector[what.text]
        return f"{value:04X}" if what.text == "buffer" else str(value)

    def drives(self, arguments):
        (what,) = some(arguments, 1)
        known = {
            "current": lambda: str(self.session.current),
            "user": lambda: str(self.session.user),
            "logged-in": lambda: f"{self.session.vector(lambda disk: disk.is_in):04X}",
        }
        if what.text not in known:
            raise Wrong("nothing of drives has this name", "Words")
        return known[what.text]()
