"""Rows of `directories` and of `images`: entries, reserved blocks, and the bytes of images."""

from .disk import FORMATS, LARGE, SMALL, UNUSED, Disk
from .drives import FileControlBlock, runs
from .images import ENTRY, Images
from .one_drive import find
from .rows import NotPlayed, Refused, Wrong, bytes_of, filled, number_of, some

DIRECTORY_BLOCKS = {0, 1}
NAMES = {"Ibm3740": SMALL, "Large": LARGE}


def format_of(word):
    if word.text not in NAMES:
        raise Wrong(f"no format is called {word.text}", "Words")
    return NAMES[word.text]


def format_name(form):
    return next(name for name, it in NAMES.items() if it is form)


def found(number, refusal):
    return Refused(refusal) if number is None else str(number)


def text_of(data):
    """Bytes as rows write a name."""
    return '"' + "".join(chr(byte) if 0x20 <= byte < 0x7F and byte not in b'"\\' else f"\\x{byte:02X}" for byte in data) + '"'


def fault_of(disk):
    """What is wrong with a directory, if anything: in the first entry that has a fault the first of a number that no file can have, a block that
    stands twice, and an entry that stands twice."""
    owners, files = {}, {}
    for index in range(disk.format.entries):
        entry = disk.entry(index)
        if entry[0] == UNUSED:
            continue
        numbers = [number for number in disk.format.numbers(entry) if number]
        for number in numbers:
            if number in DIRECTORY_BLOCKS or number > disk.format.dsm:
                return f"BadBlock {{ entry: {index}, block: {number} }}"
        for number in numbers:
            if number in owners:
                return f"TwiceBlock {{ entry: {index}, block: {number}, owner: {owners[number]} }}"
            owners[number] = index
        file = entry[0], bytes(byte % 128 for byte in entry[1:12]), disk.group(entry)
        if file in files:
            return f"TwiceEntry {{ entry: {index}, earlier: {files[file]} }}"
        files[file] = index
    return None


class Directories:
    """The scene of a row."""

    # the names of command lines, and what a file control block is to the program
    NOT_PLAYED = {"parse", "fcb-again"}

    def __init__(self):
        self.images = Images()
        self.fcb = FileControlBlock()
        self.form = SMALL
        self.reserved = set()
        self.verbs = {
            **self.images.verbs,
            **self.fcb.verbs,
            "put-entry": self.put_entry,
            "check": self.check,
            "look": self.look,
            "users": self.users,
            "find": self.find,
            "free-entry": self.free_entry,
            "log-in": self.log_in,
            "reserve-none": self.reserve_none,
            "is-reserved": self.is_reserved,
            "reserved-to": self.reserved_to,
            "take": self.take,
            "take-all": self.take_all,
            "give-back": self.give_back,
            "block": self.block,
        }

    def knows(self, verb):
        return verb in self.verbs or verb in self.NOT_PLAYED

    def act(self, line):
        if line.verb in self.NOT_PLAYED:
            raise NotPlayed(line.verb)
        return self.verbs[line.verb](line.arguments)

    def check(self, arguments):
        fault = fault_of(self.images.look(*some(arguments, 1)))
        return Refused(fault) if fault else "sound"

    # ---- entries

    def put_entry(self, arguments):
        name, number, *given = some(arguments, 2, len(arguments))
        self.images.get(name).put_entry(number_of(number, 255), filled(given, ENTRY))

    def look(self, arguments):
        name, number = some(arguments, 2)
        disk, index = self.images.look(name), number_of(number)
        if index >= disk.format.entries:
            raise Wrong(f"there is no entry {index}", "Unready")
        entry = disk.entry(index)
        blocks = disk.format.numbers(entry) + (16 - disk.format.places) * [0]
        fields = " ".join(f"{field} {entry[place]:02X}" for place, field in enumerate(("EX", "S1", "S2", "RC"), 12))
        return f"user {entry[0]:02X} {text_of(entry[1:12])} {fields} blocks {' '.join(map(str, blocks))}"

    def users(self, arguments):
        disk = self.images.look(*some(arguments, 1))
        return runs(f"{disk.entry(index)[0]:02X}" for index in range(disk.format.entries))

    def find(self, arguments):
        image, user, name, start, *group = some(arguments, 4, 5)
        group = number_of(group[0]) if group else None
        return found(find(self.images.look(image), number_of(user, 255), name, number_of(start), group), "NotFound")

    def free_entry(self, arguments):
        disk = self.images.look(*some(arguments, 1))
        free = (index for index in range(disk.format.entries) if disk.entry(index)[0] == UNUSED)
        return found(next(free, None), "NoEntryFree")

    # ---- blocks

    def log_in(self, arguments):
        disk = Disk(bytearray(self.images.look(*some(arguments, 1)).image))
        disk.use()
        self.form, self.reserved = disk.format, disk.reserved

    def reserve_none(self, arguments):
        self.form, self.reserved = format_of(*some(arguments, 1)), set()

    def is_taken(self, block):
        return block in self.reserved or block > self.form.dsm

    def is_reserved(self, arguments):
        return "yes" if self.is_taken(number_of(*some(arguments, 1))) else "no"

    def reserved_to(self, arguments):
        (last,) = some(arguments, 1)
        return runs("yes" if self.is_taken(block) else "no" for block in range(number_of(last) + 1))

    def lowest(self, last):
        block = next((block for block in range(last + 1) if not self.is_taken(block)), None)
        if block is not None:
            self.reserved.add(block)
        return block

    def take(self, arguments):
        return found(self.lowest(number_of(*some(arguments, 1))), "NoBlockFree")

    def take_all(self, arguments):
        first, last = map(number_of, some(arguments, 2))
        for block in range(first, last + 1):
            taken = self.lowest(last)
            if taken != block:
                return found(taken, "NoBlockFree")
        return "in order"

    def give_back(self, arguments):
        self.reserved.discard(number_of(*some(arguments, 1)))

    def block(self, arguments):
        """The block of the file control block's current record; 0 where its extents have no such record."""
        form, fcb = format_of(*some(arguments, 1)), self.fcb.bytes
        record = 128 * ((32 * (fcb[14] % 16) + fcb[12] % 32) % form.extents) + fcb[32]
        place = record // form.in_block
        number = form.numbers(fcb)[place] if place < form.places else 0
        return str(number) if number <= form.dsm else Refused("BlockAboveLast")


class ImageLines:
    """The scene of a row of images."""

    def __init__(self):
        self.images = Images()
        self.verbs = {**self.images.verbs, "from-bytes": self.from_bytes, "bytes": self.bytes, "format": self.format, "parameters": self.parameters}

    def knows(self, verb):
        return verb in self.verbs

    def act(self, line):
        return self.verbs[line.verb](line.arguments)

    def from_bytes(self, arguments):
        name, *given = some(arguments, 1, len(arguments))
        data = bytearray(bytes_of(given))
        if len(data) not in FORMATS:
            return Refused("WrongLength")
        self.images.put(name, data)
        return format_name(FORMATS[len(data)])

    def bytes(self, arguments):
        return bytes(self.images.look(*some(arguments, 1)).image)

    def format(self, arguments):
        return format_name(self.images.look(*some(arguments, 1)).format)

    def parameters(self, arguments):
        """The disk parameter block, which is in the low bytes first; AL0 and AL1 are shown in their order."""
        it = self.images.look(*some(arguments, 1)).format.block
        word = lambda at: int.from_bytes(it[at : at + 2], "little")
        first = f"SPT {word(0)} BSH {it[2]} BLM {it[3]} EXM {it[4]} DSM {word(5)} DRM {word(7)}"
        return f"{first} AL {it[9]:02X}{it[10]:02X} CKS {word(11)} OFF {word(13)}"
