"""A disk as the slow reading of bdos.py sees it: its geometry, its directory entries and its marks."""

P = 15
OWN = 4  # the drives that a session has besides P, A to D
UNUSED = 0xE5
ANY = 0x3F


class Fault(Exception):
    """A fault of the disk system: its name and the number of the drive."""

    def __init__(self, name, drive):
        super().__init__(name, drive)
        self.name = name
        self.message = f"\r\nBdos Err On {chr(65 + drive % 16)}: {name}".encode()


class Format:
    """The geometry of a disk, by the fields of its parameter block."""

    def __init__(self, tracks, sectors, first, table, shift, extents, dsm, entries, cks, off):
        self.sectors = sectors  # records of a track, by their sectors in order
        self.first = first  # the number of a track's first sector
        self.size = 128 * tracks * len(sectors)
        self.tracks = tracks
        self.records = (tracks - off) * len(sectors)
        self.table = table  # where the sectors' table lies in memory, 0 for none
        self.in_block = 1 << shift  # records of a block
        self.extents = extents  # of 128 records, in an entry
        self.dsm = dsm
        self.entries = entries
        self.off = off
        self.width = 1 if dsm < 256 else 2  # bytes of a block's number
        self.places = 16 // self.width
        word = lambda number: number.to_bytes(2, "little")
        self.block = word(len(sectors)) + bytes([shift, self.in_block - 1, extents - 1]) + word(dsm) + word(entries - 1)
        self.block += b"\xc0\0" + word(cks) + word(off)

    def numbers(self, entry):
        """The block numbers of an entry or a file control block."""
        return [int.from_bytes(entry[at : at + self.width], "little") for at in range(16, 32, self.width)]

    def put_numbers(self, entry, numbers):
        entry[16:32] = self.map_of(numbers)

    def map_of(self, numbers):
        """The sixteen bytes of these block numbers."""
        return b"".join(number.to_bytes(self.width, "little") for number in numbers).ljust(16, b"\0")


SKEW = [1, 7, 13, 19, 25, 5, 11, 17, 23, 3, 9, 15, 21, 2, 8, 14, 20, 26, 6, 12, 18, 24, 4, 10, 16, 22]
# IBM 3740: 77 tracks of 26 sectors of 128 bytes, two tracks for the system, blocks of 8 records, 243 blocks.
SMALL = Format(77, SKEW, 1, 0xFC00, 3, extents=1, dsm=242, entries=64, cks=16, off=2)
# The large disk: 257 tracks of 64 sectors, one for the system, blocks of 32 records, 512 blocks, two extents to an entry.
LARGE = Format(257, list(range(64)), 0, 0, 5, extents=2, dsm=511, entries=256, cks=0, off=1)
FORMATS = {it.size: it for it in (SMALL, LARGE)}


def extent_number(ex, s2):
    return 32 * (s2 % 16) + ex % 32


class Disk:
    """A drive: its image, whose length says its format, and its marks. The reserved blocks are those of its last login."""

    def __init__(self, image):
        self.image = image
        self.format = FORMATS[len(image)]
        self.is_in = False
        self.is_protected = False
        self.reserved = set()

    def at(self, record):
        it = self.format
        return self.sector_at(it.off + record // len(it.sectors), it.sectors[record % len(it.sectors)])

    def sector_at(self, track, sector):
        """Where a sector lies in the image, if it is there."""
        it = self.format
        if track >= it.tracks or not 0 <= sector - it.first < len(it.sectors):
            return None
        return (len(it.sectors) * track + sector - it.first) * 128

    def read(self, record):
        return bytes(self.image[self.at(record) : self.at(record) + 128])

    def write(self, record, data):
        self.image[self.at(record) : self.at(record) + 128] = data

    def entry(self, index):
        return bytearray(self.read(index // 4)[32 * (index % 4) : 32 * (index % 4) + 32])

    @staticmethod
    def extent(entry):
        """The number of an entry's last extent."""
        return extent_number(entry[12], entry[14])

    def group(self, entry):
        """The number of its group of extents."""
        return self.extent(entry) // self.format.extents

    def put_entry(self, index, entry):
        start = self.at(index // 4) + 32 * (index % 4)
        self.image[start : start + 32] = entry

    def use(self):
        if self.is_in:
            return
        self.is_in = True
        self.reserved = {0, 1}
        for index in range(self.format.entries):
            entry = self.entry(index)
            if entry[0] != UNUSED:
                self.reserved |= {number for number in self.format.numbers(entry) if number <= self.format.dsm}

    def unmark(self):
        self.is_in = self.is_protected = False

    def lowest(self):
        free = [block for block in range(self.format.dsm + 1) if block not in self.reserved]
        return free[0] if free else None


def name_matches(pattern, name):
    return all(p % 128 == ANY or p % 128 == c % 128 for p, c in zip(pattern, name))
