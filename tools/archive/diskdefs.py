"""The formats of disks that cpmtools' file `diskdefs` defines, and the blocks of an image by such a format.

The terms are those of diskdefs(5). A sector's number here is that in the order in which CP/M counts them, from the directory on; `skew` tells which
one of the track this is in the image.
"""

import os
import re
from typing import NamedTuple

PLACES = "/etc/cpmtools/diskdefs", "/usr/local/share/diskdefs", "/usr/share/diskdefs"
# the formats of cpmhost's own images, so that these need no file of cpmtools
OWN = """
diskdef ibm-3740
  seclen 128
  tracks 77
  sectrk 26
  blocksize 1024
  maxdir 64
  skew 6
  boottrk 2
  os 2.2
end
diskdef cpmhost-large
  seclen 128
  tracks 257
  sectrk 64
  blocksize 4096
  maxdir 256
  skew 0
  boottrk 1
  os 2.2
end
"""
UNITS = {"": 1, "k": 1024, "m": 1024 * 1024}


class Format(NamedTuple):
    """A format: its name, its numbers, and where they stand in its definition."""

    name: str
    sector: int
    tracks: int
    sectors: int
    block: int
    entries: int
    # the blocks of the directory, and the sectors before it
    directory: int
    reserved: int
    # the bytes before the first track
    offset: int
    # the sector of a track in the image, for each in CP/M's order
    skew: tuple
    # how many extents of 16 KiB an entry has
    extents: int
    # the kind of CP/M, as 2.2 or 3
    system: str

    @property
    def length(self):
        """The bytes of a whole image."""
        return self.offset + self.tracks * self.sectors * self.sector

    @property
    def blocks(self):
        return (self.tracks * self.sectors - self.reserved) * self.sector // self.block

    @property
    def width(self):
        """The bytes of a block's number in an entry."""
        return 1 if self.blocks <= 256 else 2

    @property
    def has_skew(self):
        return self.skew != tuple(range(self.sectors))

    def places(self, number):
        """Where the sectors of a block lie in the image."""
        count = self.block // self.sector
        first = self.reserved + number * count
        for at in range(first, first + count):
            yield self.offset + (at - at % self.sectors + self.skew[at % self.sectors]) * self.sector

    def read_block(self, image, number):
        """A block of an image, or fewer bytes where the image ends before it does."""
        if self.has_skew:
            return b"".join(image[at : at + self.sector] for at in self.places(number))
        start = self.offset + self.reserved * self.sector + number * self.block
        return image[start : start + self.block]

    def end_of(self, number):
        """The byte behind a block's last one in the image."""
        return max(self.places(number)) + self.sector


# ---- the text of definitions


def skewed(sectors, skew):
    """The sectors of a track in the order that a skew gives them."""
    taken, at = {}, 0
    for _ in range(sectors):
        while at in taken:
            at = (at + 1) % sectors
        taken[at] = True
        at = (at + skew) % sectors
    return tuple(taken)


def bytes_of(words, track, sector):
    """The bytes that an offset means, as 11520, 256KB or 1000trk."""
    number, unit = re.fullmatch(r"(\d+)([a-z]?)[a-z]*", words.lower()).groups()
    return int(number) * {**UNITS, "t": track, "s": sector}[unit]


def format_of(fields):
    """The format of a definition's lines; a ValueError or KeyError where they make none."""
    wanted = ("seclen", "tracks", "sectrk", "blocksize", "maxdir")
    sector, tracks, sectors, block, entries = sizes = [int(fields[it]) for it in wanted]
    if min(sizes) < 1 or block % 1024 or block % sector or max(sectors, entries) > 65536 or max(block, sector) > 32768:
        raise ValueError
    reserved = int(fields.get("bootsec", int(fields["boottrk"]) * sectors))
    directory = int(fields.get("dirblks", -(-32 * entries // block)))
    step = int(fields.get("skew", 0))
    skew = tuple(range(sectors)) if step <= 1 else skewed(sectors, step)
    if "skewtab" in fields:
        skew = tuple(int(it) for it in fields["skewtab"].split(","))
    if sorted(skew) != list(range(sectors)) or not 0 <= reserved < tracks * sectors:
        raise ValueError
    offset = bytes_of(fields.get("offset", "0"), sectors * sector, sector)
    found = Format(fields["name"], sector, tracks, sectors, block, entries, directory, reserved, offset, skew, 0, fields.get("os", "2.2"))
    extents = int(fields.get("logicalextents", 0)) or max(1, 16 // found.width * block // 16384)
    if not 0 < directory < found.blocks or extents < 1 or 32 * entries > directory * block:
        raise ValueError
    return found._replace(extents=extents)


def formats_of(text):
    """The formats of a text of definitions. One that lacks a number, or has one that can't be, is none."""
    definitions = []
    for line in text.splitlines():
        words = re.split("[#;]", line)[0].split()
        if len(words) < 2:
            continue
        if words[0].lower() == "diskdef":
            definitions.append({"name": words[1]})
        elif definitions:
            definitions[-1].setdefault(words[0].lower(), words[1])
    for fields in definitions:
        try:
            yield format_of(fields)
        except (ValueError, KeyError, AttributeError):
            continue


def read_formats(name):
    """The formats of a file of definitions."""
    with open(name, encoding="utf-8", errors="replace") as file:
        return list(formats_of(file.read()))


def installed_formats():
    """The formats of cpmtools, or none where it isn't installed."""
    return next((read_formats(it) for it in PLACES if os.path.exists(it)), [])


# ---- what the commands of cpmtools are told of a format


def definition(name, form):
    """The definition of a format, under a name; libdsk's geometry of that name goes with it."""
    boot = f"  bootsec {form.reserved}\n" if form.reserved % form.sectors else ""
    skew = f"skewtab {','.join(map(str, form.skew))}" if form.has_skew else "skew 0"
    return f"""diskdef {name}
  seclen {form.sector}
  tracks {form.tracks}
  sectrk {form.sectors}
  blocksize {form.block}
  maxdir {form.entries}
  dirblks {form.directory}
  boottrk {form.reserved // form.sectors}
{boot}  {skew}
  offset {form.offset}
  logicalextents {form.extents}
  os {form.system}
  libdsk:format {name}
end
"""


def geometry(name, form):
    """The geometry of a format, for libdsk, by which Debian's cpmtools goes: without it, it makes two sides of an odd number of tracks."""
    return f"""[{name}]
description={name}
sides=alt
cylinders={form.tracks + -(-form.offset // (form.sectors * form.sector))}
heads=1
sectors={form.sectors}
secbase=1
secsize={form.sector}
datarate=DD
rwgap=42
fmtgap=82
recmode=MFM
"""
