"""Rows of `image-files`: files as wholes on an image, as `cpmhost disk` has them."""

import re

from .bdos import Session
from .directories import fault_of, text_of
from .disk import UNUSED, Disk
from .images import RECORD, Images, blank
from .one_drive import name_of
from .rows import Refused, Wrong, bytes_of, number_of, some

END = b"\x1a"
QUESTION = 0x3F


def plain(name):
    """A name without its attributes."""
    return bytes(byte % 128 for byte in name)


class FileOnImage:
    """An image with what the calls on the files of a drive do to it."""

    def __init__(self, image, user, name):
        self.calls = Session([], blank())
        self.disk = self.calls.disk = Disk(image)
        self.form = self.calls.form = self.disk.format
        self.calls.number, self.calls.user = 0, user
        self.disk.use()
        self.user, self.name = user, name

    def entries(self, name=None):
        """The entries of the file, or of this name."""
        wanted = plain(self.name if name is None else name)
        every = (self.disk.entry(index) for index in range(self.form.entries))
        return [entry for entry in every if entry[0] == self.user and plain(entry[1:12]) == wanted]

    def start(self, name=None):
        """A file control block of the name."""
        self.calls.fcb = bytearray(36)
        self.calls.fcb[1:12] = self.name if name is None else name

    # ---- what is refused

    def refusal(self, data=None):
        """Why nothing is done, if so: where there must be the file, or where it is put with these bytes."""
        own = self.entries()
        if fault := fault_of(self.disk):
            return Refused(fault)
        if data is None and not own:
            return Refused("NoFile")
        if any(entry[9] >= 128 for entry in own):
            return Refused("ReadOnly")
        return None if data is None else self.no_room(own, -(-len(data) // RECORD))

    def no_room(self, own, records):
        unused = sum(self.disk.entry(index)[0] == UNUSED for index in range(self.form.entries))
        if max(1, -(-records // (128 * self.form.extents))) > unused + len(own):
            return Refused("DirectoryFull")
        blocks = {number for entry in own for number in self.form.numbers(entry)} - {0}
        if -(-records // self.form.in_block) > self.form.dsm + 1 - len(self.disk.reserved - blocks):
            return Refused("DiskFull")
        return None

    # ---- what is done

    def put(self, data):
        self.start()
        self.calls.erase()
        self.start()
        self.calls.make(0)
        for start in range(0, len(data), RECORD):
            self.calls.buffer = bytearray(data[start : start + RECORD].ljust(RECORD, END))
            if self.calls.sequential(self.calls.write) != 0:
                raise Wrong("the file has no room", "Unready")
        self.calls.close()

    def remove(self):
        self.start()
        self.calls.erase()

    def rename(self, other):
        """Its attributes are those of its first entry."""
        first = self.entries()[0]
        self.start()
        self.calls.fcb[17:28] = bytes(byte | mark & 128 for byte, mark in zip(plain(other), first[1:12]))
        self.calls.rename()

    def read(self):
        """By OPEN FILE and READ SEQUENTIAL."""
        self.start()
        if self.calls.open(0, to_read=True) is None:
            return Refused("NoFile")
        data = b""
        while self.calls.sequential(self.calls.read) == 0:
            data += self.calls.buffer
        return data

    def get(self):
        """By its entries. What lies in no block is zeros, and behind the last block of an entry nothing."""
        data = bytearray()
        for entry in self.entries():
            start = self.disk.group(entry) * self.form.extents * 128
            numbers = self.form.numbers(entry)
            held = max((place + 1 for place, number in enumerate(numbers) if number), default=0) * self.form.in_block
            for record in range(min(128 * (entry[12] % self.form.extents) + entry[15], held)):
                number = numbers[record // self.form.in_block]
                there = self.disk.read(self.form.in_block * number + record % self.form.in_block) if number else bytes(RECORD)
                at = RECORD * (start + record)
                data.extend(bytes(max(0, at + RECORD - len(data))))
                data[at : at + RECORD] = there
        return bytes(data)


class ImageFiles:
    """The scene of a row."""

    def __init__(self):
        self.images = Images()
        self.verbs = {
            **self.images.verbs,
            "put": self.put,
            "remove": self.remove,
            "rename": self.rename,
            "get": lambda arguments: self.take(arguments, FileOnImage.get),
            "read": lambda arguments: self.take(arguments, FileOnImage.read),
            "list": self.list,
            "is-name": self.is_name,
            "to-text": lambda arguments: re.sub(rb"(?<!\r)\n", b"\r\n", bytes_of(arguments)),
            "from-text": lambda arguments: bytes_of(arguments).split(END)[0].replace(b"\r\n", b"\n"),
        }

    def knows(self, verb):
        return verb in self.verbs

    def act(self, line):
        return self.verbs[line.verb](line.arguments)

    def file(self, image, user, name):
        return FileOnImage(self.images.copy(image), number_of(user, 255), name_of(name))

    def keep(self, name, file):
        self.images.put(name, file.disk.image)

    def put(self, arguments):
        old, new, user, name, *given = some(arguments, 5, len(arguments))
        file, data = self.file(old, user, name), bytes_of(given)
        if refusal := file.refusal(data):
            return refusal
        file.put(data)
        return self.keep(new, file)

    def remove(self, arguments):
        old, new, user, name = some(arguments, 4)
        file = self.file(old, user, name)
        if refusal := file.refusal():
            return refusal
        file.remove()
        return self.keep(new, file)

    def rename(self, arguments):
        old, new, user, name, other = some(arguments, 5)
        file, other = self.file(old, user, name), name_of(other)
        if refusal := file.refusal():
            return refusal
        if plain(other) != plain(file.name) and file.entries(other):
            return Refused("Exists")
        file.rename(other)
        return self.keep(new, file)

    def take(self, arguments, how):
        file = self.file(*some(arguments, 3))
        if fault := fault_of(file.disk):
            return Refused(fault)
        return how(file) if file.entries() else Refused("NoFile")

    def list(self, arguments):
        """The files in the order of their first entries."""
        (image,) = some(arguments, 1)
        file = FileOnImage(self.images.copy(image), 0, bytes(11))
        if fault := fault_of(file.disk):
            return Refused(fault)
        files = {}
        for entry in (file.disk.entry(index) for index in range(file.form.entries)):
            if entry[0] != UNUSED:
                size = 128 * file.disk.extent(entry) + entry[15]
                first, most = files.get((entry[0], plain(entry[1:12])), (entry, 0))
                files[entry[0], plain(entry[1:12])] = first, max(most, size)
        lines = [f"{first[0]} {text_of(first[1:12])} {size}" for first, size in files.values()]
        return "\n".join([*lines, f"{file.form.dsm + 1 - len(file.disk.reserved)} blocks free"])

    def is_name(self, arguments):
        user, name = some(arguments, 2)
        return "yes" if number_of(user, 255) < 16 and QUESTION not in plain(name_of(name)) else "no"
