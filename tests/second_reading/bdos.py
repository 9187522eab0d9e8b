"""A slow reading of the BDOS function table on disks: functions 13 to 37 and 40.

One bytearray stands for the memory and one for each disk; there is no cache, and nothing is shared with the Rattle code.
"""

from .disk import ANY, OWN, P, UNUSED, Disk, Fault, extent_number, name_matches
from .memory import memory_at_opening, parameters_at, place_of

FCB_CALLS = {15, 16, 17, 18, 19, 20, 21, 22, 23, 30, 33, 34, 35, 36, 40}


class Session:
    """A session as the function table says it."""

    def __init__(self, images, system):
        self.disks = dict(enumerate(map(Disk, images[:OWN])))
        self.disks[P] = Disk(system)
        self.memory = memory_at_opening()
        self.current = self.user = 0
        self.dma = 0x80
        self.search = None

    def lend(self, system):
        """Another system drive. The marks of the one before stay with it."""
        before, self.disks[P] = self.disks[P], Disk(system)
        self.disks[P].is_in, self.disks[P].reserved = before.is_in, before.reserved

    # ---- sectors, as the BIOS has them

    def read_sector(self, drive, track, sector):
        """The bytes of a sector, or None where it isn't there."""
        disk = self.disks.get(drive)
        at = disk.sector_at(track, sector) if disk else None
        return None if at is None else bytes(disk.image[at : at + 128])

    def write_sector(self, drive, track, sector, data):
        """Whether it is written: the system drive never is."""
        disk = self.disks.get(drive)
        at = disk.sector_at(track, sector) if disk and drive != P else None
        if at is None:
            return False
        disk.image[at : at + 128] = data
        return True

    # ---- memory

    def load(self, at, count):
        return bytearray(self.memory[(at + place) % 65536] for place in range(count))

    def store(self, at, data):
        for place, byte in enumerate(data):
            self.memory[(at + place) % 65536] = byte

    # ---- a call

    def call(self, function, de):
        """What HL has of this call; or its fault, after which the session is booted."""
        try:
            return self.answer(function, de)
        except Fault:
            self.warm_boot()
            raise

    def warm_boot(self):
        self.store(0, b"\xc3\x03\xfa")
        self.store(5, b"\xc3\x06\xec")
        for disk in self.disks.values():
            disk.unmark()
        self.search = None
        self.dma = 0x80

    def answer(self, function, de):
        if function in FCB_CALLS:
            return self.file_call(function, de)
        e = de % 256
        if function == 12:
            return 0x0022
        if function == 13:
            self.reset()
        elif function == 14:
            self.select(e)
        elif function == 24:
            return self.vector(lambda disk: disk.is_in)
        elif function == 25:
            return self.current
        elif function == 26:
            self.dma = de
        elif function == 27:
            return self.allocation()
        elif function == 28:
            self.disks[self.current].is_protected = True
        elif function == 29:
            return self.vector(lambda disk: disk.is_protected) | 0x8000
        elif function == 31:
            return parameters_at(self.disks[self.current].format)
        elif function == 32:
            if e == 0xFF:
                return self.user
            self.user = e % 32
        elif function == 37:
            self.reset_drives(de)
        return 0

    def vector(self, is_marked):
        """A bit for each drive that is marked so."""
        return sum(1 << number for number, disk in self.disks.items() if is_marked(disk))

    def reset(self):
        for disk in self.disks.values():
            disk.unmark()
        self.current, self.dma = 0, 0x80
        self.disks[0].use()

    def select(self, drive):
        if drive not in self.disks:
            raise Fault("Select", drive)
        self.disks[drive].use()
        self.current = drive

    def reset_drives(self, vector):
        for number, disk in self.disks.items():
            if vector >> number & 1:
                disk.unmark()

    def allocation_vector(self):
        """A bit for each block of the current drive, the first the highest of its byte."""
        disk = self.disks[self.current]
        disk.use()
        bits = "".join("1" if block in disk.reserved else "0" for block in range(disk.format.dsm + 1))
        bits += "0" * (-len(bits) % 8)
        return bytes(int(bits[place : place + 8], 2) for place in range(0, len(bits), 8))

    def allocation(self):
        at = 0xFE00 + 64 * place_of(self.current)
        self.store(at, self.allocation_vector())
        return at

    # ---- files

    def file_call(self, function, de):
        before, self.fcb = self.load(de, 36), self.load(de, 36)
        self.buffer = self.load(self.dma, 128)
        try:
            return self.with_fcb(function)
        finally:
            # the record first, then those bytes of the FCB that changed; also where there was a fault
            self.store(self.dma, self.buffer)
            for place in range(36):
                if self.fcb[place] != before[place]:
                    self.memory[(de + place) % 65536] = self.fcb[place]

    def with_fcb(self, function):
        """A function on the file control block and the buffer."""
        if function == 18:
            return self.search_next()
        named = self.fcb[0]
        self.number = named - 1 if named else self.current
        if function == 17 and named == ANY:
            self.number = self.current
        if self.number not in self.disks:
            raise Fault("Select", self.number)
        self.disk = self.disks[self.number]
        self.form = self.disk.format
        self.disk.use()
        if function in {19, 21, 22, 23, 30, 34, 40} and self.is_read_only():
            raise Fault("R/O", self.number)
        if function in {21, 34, 40} and self.fcb[9] >= 128:
            raise Fault("File R/O", self.number)
        return {
            15: lambda: self.code(self.open(self.fcb[12] % 32, to_read=True)),
            16: lambda: self.code(self.close()),
            17: self.search_first,
            19: self.erase,
            20: lambda: self.sequential(self.read),
            21: lambda: self.sequential(self.write),
            22: lambda: self.code(self.make(self.fcb[12] % 32)),
            23: self.rename,
            30: self.set_attributes,
            33: lambda: self.random(self.read),
            34: lambda: self.random(self.write),
            35: self.size,
            36: self.set_random,
            40: lambda: self.random(self.write_cleared),
        }[function]()

    def is_read_only(self):
        return self.disk.is_protected or self.number == P

    @staticmethod
    def code(index):
        return 0xFF if index is None else index % 4

    def x(self):
        return extent_number(self.fcb[12], self.fcb[14])

    def named(self):
        """The indices of the entries of the FCB's name."""
        for index in range(self.form.entries):
            entry = self.disk.entry(index)
            if entry[0] == self.user and name_matches(self.fcb[1:12], entry[1:12]):
                yield index

    def find(self, x):
        """The first entry of the name that has extent x, or may have it."""
        for index in self.named():
            entry = self.disk.entry(index)
            if extent_number(entry[12], entry[14]) // self.form.extents == x // self.form.extents:
                return index
        return None

    def open(self, x, to_read):
        """An entry ends at the extent of its own number: those before it are full, those behind it are to be written yet."""
        index = self.find(x)
        if index is None:
            return None
        entry = self.disk.entry(index)
        last = extent_number(entry[12], entry[14])
        if to_read and last < x:
            return None
        self.fcb[1:32] = entry[1:32]
        self.fcb[12], self.fcb[14] = x % 32, x // 32
        if last != x:
            self.fcb[15] = 128 if x < last else 0
        return index

    def close(self):
        index = self.find(self.x())
        if index is None:
            return None
        ours = self.form.numbers(self.fcb)
        if any(number > self.form.dsm for number in ours):
            raise Fault("Bad Sector", self.number)
        entry = self.disk.entry(index)
        pairs = list(zip(ours, self.form.numbers(entry)))
        if any(a and b and a != b for a, b in pairs):
            return None
        merged = self.form.map_of([a or b for a, b in pairs])
        after = bytearray(entry)
        if self.x() >= extent_number(entry[12], entry[14]):
            after[12], after[14], after[15] = self.fcb[12], self.fcb[14], self.fcb[15]
        after[16:32] = merged
        if after != entry:
            if self.is_read_only():
                raise Fault("R/O", self.number)
            self.disk.put_entry(index, after)
        self.fcb[16:32] = merged
        return index

    def make(self, x):
        for index in range(self.form.entries):
            if self.disk.entry(index)[0] == UNUSED:
                self.fcb[12:16] = bytes([x % 32, 0, x // 32, 0])
                self.fcb[16:32] = bytes(16)
                self.disk.put_entry(index, bytes([self.user]) + self.fcb[1:32])
                return index
        return None

    def search_first(self):
        self.search = [self.number, bytes(self.fcb), 0]
        return self.search_on()

    def search_next(self):
        if self.search is None:
            return 0xFF
        self.disks[self.search[0]].use()
        return self.search_on()

    def search_on(self):
        number, fcb, place = self.search
        disk = self.disks[number]
        group = fcb[12] % 32 // disk.format.extents
        for index in range(place, disk.format.entries):
            entry = disk.entry(index)
            is_it = entry[0] == self.user and name_matches(fcb[1:12], entry[1:12])
            is_it = is_it and (fcb[12] == ANY or extent_number(entry[12], entry[14]) // disk.format.extents == group)
            if is_it or fcb[0] == ANY:
                self.search[2] = index + 1
                self.buffer = bytearray(disk.read(index // 4))
                return index % 4
        self.search[2] = disk.format.entries
        return 0xFF

    def changeable(self):
        found = list(self.named())
        if any(self.disk.entry(index)[9] >= 128 for index in found):
            raise Fault("File R/O", self.number)
        return found

    def erase(self):
        found = self.changeable()
        for index in found:
            entry = self.disk.entry(index)
            self.disk.reserved -= set(self.form.numbers(entry)) - {0, 1}
            entry[0] = UNUSED
            self.disk.put_entry(index, entry)
        return self.code(found[0] if found else None)

    def rename(self):
        found = self.changeable()
        for index in found:
            entry = self.disk.entry(index)
            entry[1:12] = self.fcb[17:28]
            self.disk.put_entry(index, entry)
        return self.code(found[0] if found else None)

    def set_attributes(self):
        found = list(self.named())
        for index in found:
            entry = self.disk.entry(index)
            for place in range(1, 12):
                entry[place] = entry[place] % 128 | self.fcb[place] & 128
            self.disk.put_entry(index, entry)
        return self.code(found[0] if found else None)

    # ---- records

    def next_extent(self, x, access):
        """Whether extent x is had; a write makes it where there is none."""
        if self.open(x, to_read=access == self.read) is not None:
            return True
        return access != self.read and self.make(x) is not None

    def sequential(self, access):
        if self.fcb[32] >= 128:
            x = self.x()
            if x == 511 or self.close() is None or not self.next_extent(x + 1, access):
                return 1
            self.fcb[32] = 0
        code = access()
        if code == 0:
            self.fcb[32] += 1
        return code

    def random(self, access):
        if self.fcb[35]:
            return 6
        number = self.fcb[33] + 256 * self.fcb[34]
        if number // 128 != self.x():
            if self.close() is None:
                return 3
            if not self.next_extent(number // 128, access):
                return 4 if access == self.read else 5
        self.fcb[32] = number % 128
        return access()

    def block(self):
        """Where in the map the current record's block is, and its number."""
        record = 128 * (self.x() % self.form.extents) + self.fcb[32]
        place = record // self.form.in_block
        number = self.form.numbers(self.fcb)[place]
        if number > self.form.dsm:
            raise Fault("Bad Sector", self.number)
        return place, number

    def in_block(self, number):
        return self.form.in_block * number + self.fcb[32] % self.form.in_block

    def read(self):
        if self.fcb[32] >= self.fcb[15]:
            return 1
        _, block = self.block()
        if block == 0:
            return 1
        self.buffer = bytearray(self.disk.read(self.in_block(block)))
        return 0

    def write(self, is_cleared=False):
        place, block = self.block()
        if block == 0:
            block = self.disk.lowest()
            if block is None:
                return 2
            self.disk.reserved.add(block)
            numbers = self.form.numbers(self.fcb)
            numbers[place] = block
            self.form.put_numbers(self.fcb, numbers)
            if is_cleared:
                for number in range(self.form.in_block):
                    self.disk.write(self.form.in_block * block + number, bytes(128))
        self.disk.write(self.in_block(block), self.buffer)
        self.fcb[15] = max(self.fcb[15], self.fcb[32] + 1)
        return 0

    def write_cleared(self):
        return self.write(is_cleared=True)

    def put_random(self, number):
        self.fcb[33:36] = number.to_bytes(3, "little")

    def size(self):
        entries = [self.disk.entry(index) for index in self.named()]
        sizes = [128 * extent_number(entry[12], entry[14]) + entry[15] for entry in entries]
        self.put_random(max(sizes, default=0))
        return 0 if sizes else 0xFF

    def set_random(self):
        self.put_random(128 * self.x() + self.fcb[32])
        return 0
