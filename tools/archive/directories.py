"""What a directory of CP/M says, if an image has a certain format: its files, and what can't be so.

It is read here, and not by cpmcp, since that gives a file small letters whichever it has, so that two files may become one, and Debian's loses the last
track of a disk that has an odd number of them. The terms are those of cpm(5).
"""

import hashlib
from typing import Callable, NamedTuple

RECORD, EXTENT = 128, 16384
UNUSED, LABEL, STAMPS = 0xE5, 0x20, 0x21
# how many files are read, at most, to tell one reading from another, and the bytes of each
LOOKED_AT, LOOKED_INTO = 200, 65536
TEXTS = b"TXT DOC ASM MAC PAS BAS FOR COB C H SUB HLP PRN LST Z80 PLI INC LIB".split()
END = 0x1A


class File(NamedTuple):
    """A file that goes onto an image: its name has the bytes that it has on its disk, without attributes."""

    user: int
    name: bytes
    size: int
    read: Callable
    read_only: bool = False
    system: bool = False
    # what it is called where it comes from, if that isn't its user and its name
    path: bytes = b""
    # why it can't be read
    why: str = ""

    @property
    def shown(self):
        return self.path or b"%d:%s" % (self.user, self.name)


class Extent(NamedTuple):
    """An entry of a file."""

    user: int
    name: bytes
    # which of the file's entries it is, in their order
    group: int
    records: int
    blocks: tuple
    read_only: bool
    system: bool


def name_of(entry):
    """The name of an entry, with a dot before a type, and without attributes."""
    letters = bytes(it & 127 for it in entry[1:12])
    stem, kind = letters[:8].rstrip(b" "), letters[8:].rstrip(b" ")
    return stem + b"." + kind if kind else stem


def extent_of(form, entry):
    """The extent that an entry says."""
    number = (entry[12] & 31) + 32 * (entry[14] & 63)
    map_of = [int.from_bytes(entry[at : at + form.width], "little") for at in range(16, 32, form.width)]
    records = number % form.extents * (EXTENT // RECORD) + entry[15]
    return Extent(entry[0], name_of(entry), number // form.extents, records, tuple(map_of), entry[9] >= 128, entry[10] >= 128)


class Reading:
    """What the directory of an image says by a format."""

    def __init__(self, form, image):
        self.form, self.image = form, image
        # the entries of files, and how many there are
        self.extents, self.entries = {}, 0
        # the first thing that can't be, the entries that can't be, and why a file with such an entry isn't read
        self.fault, self.faulty, self.lost = None, 0, {}
        # entries whose blocks aren't as many as their records need, and those with odd names
        self.loose = self.odd = 0
        # the end of what the files have in the image, and the file that has a block
        self.end, self.owners = 0, {}
        self.read_entries()

    def read_entries(self):
        form = self.form
        blocks = range(-(-32 * form.entries // form.block))
        data = b"".join(form.read_block(self.image, it) for it in blocks)[: 32 * form.entries]
        if len(data) < 32 * form.entries:
            self.fault, self.faulty = "the image ends before its directory does", form.entries
            return
        for place in range(form.entries):
            entry = data[32 * place : 32 * place + 32]
            if entry[0] == UNUSED or self.is_no_file(entry):
                continue
            self.entries += 1
            if why := self.why_not(entry):
                self.fault = self.fault or f"entry {place} of its directory {why}"
                self.faulty += 1

    @property
    def is_loose(self):
        return 8 * self.loose > self.entries

    @property
    def is_odd(self):
        return 2 * self.odd > self.entries

    @property
    def is_odd_alone(self):
        """Whether nothing speaks against the format but odd names."""
        return bool(self.extents) and self.is_odd and not self.is_loose and not self.fault

    @property
    def unlikely(self):
        """Why the image isn't taken to have this format, where it may have another: what can't be, or what CP/M allows and seldom is."""
        if self.fault or not (self.is_loose or self.is_odd):
            return self.fault
        return f"{self.loose} of {self.entries} entries have other than their records' blocks, and {self.odd} odd names"

    @property
    def is_nearly_sound(self):
        """Whether most entries can be, so that the others are damaged."""
        return not (self.is_loose or self.is_odd) and 8 * self.faulty <= self.entries and len(self.extents) > len(self.lost)

    def is_no_file(self, entry):
        """Whether an entry is a label, time stamps, or a password of CP/M 3."""
        return entry[0] in (LABEL, STAMPS) or self.form.system == "3" and 16 <= entry[0] < 32

    def why_not(self, entry):
        """Adds an entry of a file; why it can't be one."""
        if entry[0] > 31:
            return f"has the status {entry[0]:02X}h"
        extent = extent_of(self.form, entry)
        file = extent.user, extent.name
        groups = self.extents.setdefault(file, {})
        if entry[12] > 31 or entry[15] > 128:
            why = "has an extent or a count of records that none can have"
        elif groups.setdefault(extent.group, extent) is not extent:
            why = "is of the same extent as another"
        else:
            why = self.why_not_blocks(file, extent)
        if why:
            self.lost.setdefault(file, f"an entry {why}")
        needed = -(-RECORD * extent.records // self.form.block)
        self.loose += any(extent.blocks[needed:]) or needed > len(extent.blocks) or bool(needed and not extent.blocks[needed - 1])
        self.odd += not extent.name or extent.name[:1] == b"." or any(not 0x21 <= it < 0x7F or 0x61 <= it <= 0x7A for it in extent.name)
        return why

    def why_not_blocks(self, file, extent):
        """Gives a file the blocks of an entry; why it can't have them."""
        form = self.form
        for block in filter(None, extent.blocks):
            if not form.directory <= block < form.blocks:
                return f"has block {block}, which no file can have"
            if block in self.owners:
                self.lost.setdefault(self.owners[block], f"an entry has block {block}, which stands there twice")
                return f"has block {block}, which stands there twice"
            self.owners[block] = file
            end = form.end_of(block)
            if end > len(self.image):
                return f"has block {block}, and the image ends before it does"
            self.end = max(self.end, end)
        return None

    # ---- its files

    @property
    def files(self):
        """The files, by users and by names."""
        return [self.file_of(*key) for key in sorted(self.extents)]

    def file_of(self, user, name):
        groups = self.extents[user, name]
        if not groups:
            return File(user, name, 0, bytes, why=self.lost[user, name])
        last, first = groups[max(groups)], groups[min(groups)]
        room = self.form.extents * EXTENT
        size = last.group * room + RECORD * last.records
        why = self.lost.get((user, name), "")
        return File(user, name, size, lambda most=None: self.data_of(groups, room, size, most), first.read_only, first.system, why=why)

    def data_of(self, groups, room, size, most):
        """The bytes of a file in whole records, or the first of them; what was never written is zeros."""
        size = size if most is None else min(size, most)
        data = bytearray(size)
        for extent in groups.values():
            for at, block in enumerate(extent.blocks[: -(-RECORD * extent.records // self.form.block)]):
                start = extent.group * room + at * self.form.block
                if block and start < size:
                    data[start : start + self.form.block] = self.form.read_block(self.image, block)
        return bytes(data[:size])

    # ---- what tells it from others

    def contents(self):
        """A digest of the files, and how many look as if they were read by another format than theirs."""
        digest, strange = hashlib.sha256(), 0
        for file in [it for it in self.files if not it.why][:LOOKED_AT]:
            data = file.read(LOOKED_INTO)
            digest.update(repr((file.user, file.name, file.size)).encode() + data)
            strange += looks_strange(file, data)
        return digest.digest(), strange


def looks_strange(file, data):
    """Whether bytes have a record that nobody wrote, or a text has its end in the middle."""
    records = [data[at : at + RECORD] for at in range(0, len(data), RECORD)]
    if any(it == bytes([UNUSED]) * RECORD for it in records):
        return True
    ended = [END in it for it in records[:-1]]
    return file.name.rpartition(b".")[2] in TEXTS and any(it and END not in after for it, after in zip(ended, records[1:]))
