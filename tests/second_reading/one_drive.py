"""Rows of `one-drive`: the calls on the files of one drive, which is logged in by a line of its own."""

from .bdos import Session
from .disk import Disk, Fault, name_matches
from .drives import FAULTS, FileControlBlock
from .images import RECORD, Images, blank
from .rows import Refused, Wrong, bytes_of, filled, number_of, some

# how a call on a record went, by its code
WENT = ("Done", "NoRecord", "NoBlock", "CannotClose", "NoExtent", "NoEntryFree")
NONE = 0xFF


def name_of(word):
    name = bytes_of([word])
    if len(name) != 11:
        raise Wrong("a name has 11 characters", "Bytes")
    return name


def code(index):
    return "none" if index in (None, NONE) else f"{index % 4:02X}"


class OneDrive:
    """The scene of a row."""

    def __init__(self):
        self.images = Images()
        self.fcb = FileControlBlock()
        self.begin(blank(), False)
        self.calls = Session([], blank())
        self.calls.buffer = bytearray(RECORD)
        self.verbs = {
            **self.images.verbs,
            **self.fcb.verbs,
            "drive": self.drive,
            "keep": self.keep,
            "buffer": self.buffer,
            "log-in": self.log_in,
            "protect": self.protect,
            "user": self.user,
            "search": self.search,
            "size": self.size,
        }
        self.asked = {
            "is-logged-in": lambda: self.disk.is_in,
            "is-protected": lambda: self.disk.is_protected,
            "is-reserved": lambda block: is_reserved(self.disk, number_of(block)),
            "is-read-only": lambda entry: self.disk.entry(number_of(entry))[9] >= 128,
        }
        calls = self.calls
        self.on_entries = {
            "open": lambda: calls.open(calls.fcb[12] % 32, to_read=True),
            "close": calls.close,
            "make": lambda: calls.make(calls.fcb[12] % 32),
        }
        self.on_entries.update({"open-lent": self.on_entries["open"], "close-lent": calls.close})
        self.on_names = {"erase": calls.erase, "rename": calls.rename, "set-attributes": calls.set_attributes}
        self.on_records = {
            "read": lambda: calls.sequential(calls.read),
            "read-random": lambda: calls.random(calls.read),
            "write-random": lambda: calls.random(calls.write),
            "write-cleared": lambda: calls.random(calls.write_cleared),
        }
        self.on_records.update({f"{verb}-protected": self.on_records[verb] for verb in ("read", "read-random")})

    def knows(self, verb):
        return any(verb in verbs for verbs in (self.verbs, self.asked, self.on_entries, self.on_names, self.on_records))

    def act(self, line):
        verb, arguments = line.verb, line.arguments
        if verb in self.verbs:
            return self.verbs[verb](arguments)
        if verb in self.asked:
            return "yes" if self.asked[verb](*some(arguments, self.asked[verb].__code__.co_argcount)) else "no"
        if verb in self.on_names:
            return self.call_on_names(verb, arguments)
        if verb in self.on_entries:
            some(arguments, 0)
            return self.call(self.fcb.bytes, lambda: code(self.on_entries[verb]()))
        return self.call_on_records(verb, arguments)

    # ---- the drive

    def begin(self, image, is_protected):
        self.disk = Disk(image)
        self.disk.is_protected = is_protected

    def drive(self, arguments):
        name, *rest = some(arguments, 1, 2)
        if rest and rest[0].text != "protected":
            raise Wrong("protected is wanted, or nothing", "Words")
        self.begin(self.images.copy(name), bool(rest))

    def keep(self, arguments):
        (name,) = some(arguments, 1)
        self.images.put(name, bytearray(self.disk.image))

    def log_in(self, arguments):
        some(arguments, 0)
        self.disk.is_in = False
        self.disk.use()

    def protect(self, arguments):
        some(arguments, 0)
        self.disk.is_protected = True

    def user(self, arguments):
        (user,) = some(arguments, 1)
        self.calls.user = number_of(user, 255)

    def buffer(self, arguments):
        (place,) = some(arguments, 1)
        return bytes([self.calls.buffer[number_of(place, RECORD - 1)]])

    # ---- calls

    def call(self, fcb, work):
        """Does it over a file control block; its answer, or the fault."""
        calls = self.calls
        calls.disk, calls.form, calls.number, calls.fcb = self.disk, self.disk.format, 0, fcb
        try:
            return work()
        except Fault as fault:
            return Refused(FAULTS[fault.name])

    def must_be_protected(self, is_protected):
        """A condition of calls that write, and of those on a drive that is lent."""
        if self.disk.is_protected != is_protected:
            raise Wrong("the drive is protected" if self.disk.is_protected else "the drive is not protected", "Unready")

    def call_on_names(self, verb, arguments):
        self.must_be_protected(False)
        names = some(arguments, 2 if verb == "rename" else 1)
        fcb = bytearray(36)
        fcb[1:12] = name_of(names[0])
        fcb[17:28] = name_of(names[-1])
        return self.call(fcb, lambda: code(self.on_names[verb]()))

    def call_on_records(self, verb, arguments):
        """Sequential ones have no number; those that write have a record."""
        fcb, buffer, place = self.fcb.bytes, self.calls.buffer, bytes(self.fcb.bytes[33:36])
        is_write = verb.startswith("write")
        if is_write or verb.endswith("protected"):
            self.must_be_protected(not is_write)
        if "random" not in verb and not is_write:
            some(arguments, 0)
        else:
            number, *given = some(arguments, 1, len(arguments) if is_write else 1)
            fcb[33:36] = number_of(number).to_bytes(3, "little")
            if is_write:
                self.calls.buffer = bytearray(filled(given, RECORD))
        answer = self.call(fcb, lambda: WENT[self.on_records[verb]()])
        fcb[33:36] = place
        if is_write:
            self.calls.buffer = buffer
        if isinstance(answer, Refused):
            return Refused(f"Fault({answer})")
        return answer if answer == "Done" else Refused(answer)

    def size(self, arguments):
        fcb = bytearray(36)
        fcb[1:12] = name_of(*some(arguments, 1))
        found = self.call(fcb, self.calls.size)
        return "none" if found else str(int.from_bytes(fcb[33:36], "little"))

    def search(self, arguments):
        """The first entry of a name from one on, or of any."""
        name, start = some(arguments, 2)
        index = find(self.disk, self.calls.user, name, number_of(start))
        if index is None:
            return "none"
        self.calls.buffer = bytearray(self.disk.read(index // 4))
        return str(index)


def is_reserved(disk, block):
    """What is above the last block is reserved."""
    return block in disk.reserved or block > disk.format.dsm


def find(disk, user, name, start, group=None):
    """The first entry of a name from one on, of a group of extents if it is given; or of `every`."""
    pattern = None if not name.is_quoted and name.text == "every" else name_of(name)
    for index in range(start, disk.format.entries):
        entry = disk.entry(index)
        if pattern is None or (entry[0] == user and name_matches(pattern, entry[1:12]) and group in (None, disk.group(entry))):
            return index
    return None
