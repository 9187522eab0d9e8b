"""Disks of other machines, for tests: their images are made by mkfs.cpm and cpmcp of cpmtools, and those with heads by dsktrans of libdsk. And zip files."""

import io
import os
import random
import subprocess
import zipfile
from typing import NamedTuple

from lib import Cpmtools, Item, read, stop, write

# what dsktrans is told of formats that it doesn't know: cylinders, sides, sectors, the first one's number, their bytes, and how they are recorded
GEOMETRIES = {
    "t3740": (77, 1, 26, 1, 128, "FM"),
    "tkaypro2": (40, 1, 10, 0, 512, "MFM"),
    "tkaypro4": (40, 2, 10, 0, 512, "MFM"),
    "tosborne": (40, 1, 5, 1, 1024, "MFM"),
}
GEOMETRY = """[{}]
description={}
sides=alt
cylinders={}
heads={}
sectors={}
secbase={}
secsize={}
datarate=DD
rwgap=42
fmtgap=82
recmode={}
"""


def item(user, name, size, marks=""):
    """A file of bytes of which no two records are the same."""
    return Item(user, name, random.Random(f"{user} {name} {size}").randbytes(size), "r" in marks, "s" in marks)


# on each disk, and on those that have room for them
FEW = [
    item(0, "EMPTY.TXT", 0),
    item(0, "ONE.TXT", 1, "r"),
    item(0, "PROG.COM", 8000),
    item(0, "WHOLE.BIN", 16384),
    item(3, "PROG.COM", 128, "s"),
    item(3, "NOTYPE", 129),
    item(15, "LONGNAME.BIN", 20000, "rs"),
]
MORE = [item(1, "ENTRY.BIN", 32769), item(7, "A.B", 100000)]
MANY = [item(2, f"FILE{number}.DAT", 1000 + 97 * number) for number in range(70)]
LARGE = [item(4, "HUGE.BIN", 1500000), item(5, "SECOND.BIN", 900000, "r")]


class Disk(NamedTuple):
    """A disk: cpmtools' name of its format, the bytes of its whole image, its files, and what it was made for."""

    name: str
    form: str
    length: int
    items: list
    # the type and the format by which dsktrans gives it a head; without them it is an image
    kind: str = ""
    geometry: str = ""


DISKS = [
    Disk("eight.img", "ibm-3740", 256256, FEW + MORE),
    Disk("eight.imd", "ibm-3740", 256256, FEW + MORE, "imd", "t3740"),
    Disk("eight.td0", "ibm-3740", 256256, FEW, "tele", "t3740"),
    Disk("eight.edsk", "ibm-3740", 256256, MORE, "edsk", "t3740"),
    Disk("eight.dsk", "ibm-3740", 256256, FEW, "dsk", "t3740"),
    Disk("eight.cqm", "ibm-3740", 256256, FEW, "copyqm", "t3740"),
    Disk("large.img", "cpmhost-large", 2105344, FEW + MORE + MANY),
    Disk("kaypro2.img", "kpii", 204800, FEW + MORE),
    Disk("kaypro2.imd", "kpii", 204800, FEW, "imd", "tkaypro2"),
    Disk("kaypro4.img", "kpiv", 409600, FEW + MORE),
    Disk("kaypro4.td0", "kpiv", 409600, FEW + MORE, "tele", "tkaypro4"),
    Disk("osborne.img", "osborne1", 204800, FEW),
    Disk("osborne.imd", "osborne1", 204800, FEW + MORE, "imd", "tosborne"),
    Disk("pcw.img", "pcw", 184320, FEW),
    Disk("pcw.dsk", "pcw", 184320, FEW, "dsk", "pcw180"),
    Disk("pcw720.img", "cf2dd", 737280, FEW + MORE),
    Disk("pcw720.edsk", "cf2dd", 737280, FEW + MORE, "edsk", "pcw720"),
    Disk("cpc.edsk", "cpcdata", 184320, FEW, "edsk", "cpcdata"),
    Disk("cpcsys.dsk", "cpcsys", 184320, FEW + MORE[:1], "dsk", "cpcsys"),
    Disk("ibm8dd.img", "zena", 512512, FEW + MORE + MANY[:30]),
    Disk("intel8dd.img", "mds-dd", 512512, FEW + MORE),
    # (cpmtools 2.23 ends by a signal on this one, and on the last, once an empty file is there)
    Disk("z80pack.img", "z80pack-hd", 4177920, FEW[1:] + MORE + MANY + LARGE),
    Disk("simh.dsk", "8megAltairSIMH", 8388608, FEW + MANY + LARGE),
    Disk("microbee.img", "microbee40", 409600, FEW + MORE),
    Disk("p2dos.img", "4mb-hd", 4194304, FEW[1:] + MANY),
]


def write_geometries(room):
    with open(f"{room}/.libdskrc", "w", encoding="ascii") as file:
        for name, numbers in GEOMETRIES.items():
            file.write(GEOMETRY.format(name, name, *numbers))


def imd(image, tracks, sectors, size, first=None):
    """An IMD of one side whose sectors stand in another order on each track, those of one byte packed; `first` is how the first track is, if not so."""
    data = bytearray(b"IMD 1.18: 01/01/1980 00:00:00\r\nby hand\r\n\x1a")
    for track in range(tracks):
        count, length = first if first and track == 0 else (sectors, size)
        numbers = random.Random(track).sample(range(1, count + 1), count)
        data += bytes((0 if length == 128 else 3, track, 0, count, (length // 128).bit_length() - 1, *numbers))
        for number in numbers:
            start = track * sectors * size + (number - 1) * length
            sector = image[start : start + length]
            data += bytes((2, sector[0])) if len(set(sector)) == 1 else b"\1" + sector
    return bytes(data)


def odd_names(room, form="ibm-3740", length=256256):
    """A disk of ten files, of which six have small letters, and four names that `disk put` refuses: on a small disk the first entries of its directory,
    which a cut disk of the Kaypro 4 would have too."""
    names = [f"A_{number}.COM" for number in range(4)] + [f"B{number}.COM" for number in range(6)]
    data = make(Disk("odd", form, length, [Item(0, it, b"\xe5" * 1024, False, False) for it in names]), room)
    os.remove("odd")
    for number in range(6):
        data = data.replace(b"B%d      COM" % number, b"b%d      com" % number)
    return data


def make(disk, room, is_whole=True):
    """Makes a disk in the current folder; as mkfs.cpm leaves it, without the end that no file has, unless it is to be whole."""
    tools = Cpmtools(None)
    if disk.form in ("ibm-3740", "cpmhost-large"):
        write("made", b"\xe5" * disk.length)
    else:
        if os.path.exists("made"):
            os.remove("made")
        tools.call("mkfs.cpm", disk.form, "made")
    for it in disk.items:
        tools.put(disk.form, "made", it)
    data = read("made")
    if is_whole:
        data += b"\xe5" * (disk.length - len(data))
    write(disk.name, data)
    if disk.kind:
        write("raw", data)
        words = "-itype", "raw", "-otype", disk.kind, "-format", disk.geometry
        ran = subprocess.run(["dsktrans", *words, "raw", disk.name], env={**os.environ, "HOME": room}, capture_output=True)
        if ran.returncode or b"Sector" not in ran.stdout + ran.stderr and not os.path.getsize(disk.name):
            stop(f"dsktrans makes no {disk.name}: {(ran.stdout + ran.stderr)[-200:]}")
    return data


# ---- disks that are damaged, or have odd names


def with_odd_names(data, others):
    """A Kaypro disk with the names and types `others` in place of names, and a file NOTYPE of user 20."""
    data = bytearray(data)
    places = {bytes(data[at + 1 : at + 9]).rstrip(): at for at in range(5120, 5120 + 2048, 32) if data[at] < 32}
    for old, new in others.items():
        data[places[old] + 1 : places[old] + 12] = new
    data[places[b"NOTYPE"]] = 20
    return data


def damaged(dice, data):
    """Bytes of which a few are others, mostly at the beginning; some are cut, and some have more."""
    data = bytearray(data)
    first = dice.choice((64, 512, 8192, 20000, len(data)))
    for _ in range(dice.randrange(1, 30)):
        data[dice.randrange(min(first, len(data)))] = dice.choice((0, 1, 0x20, 0x7F, 0x80, 0xE5, 0xFF, dice.randrange(256)))
    cut = dice.random()
    return data[: dice.randrange(len(data))] if cut < 0.2 else data + dice.randbytes(dice.randrange(4096)) if cut < 0.3 else data


# ---- zip files


def bomb():
    """A zip file of a member that unpacks to more than is taken."""
    out = io.BytesIO()
    with zipfile.ZipFile(out, "w", zipfile.ZIP_DEFLATED) as file:
        with file.open("bomb.txt", "w") as member:
            for _ in range(65):
                member.write(bytes(1 << 20))
        for number in range(20):
            file.writestr(f"small{number}.txt", b"x")
    return out.getvalue()


def nested():
    out = io.BytesIO()
    with zipfile.ZipFile(out, "w") as file:
        file.writestr("inner.zip", bomb()[:100])
    return out.getvalue()


# ---- files that are no disks


def write_wrong(disks, folder):
    """Writes files into a new folder that aren't taken, some of them disks that are cut; why each is left out, or None where a part of it is."""
    os.makedirs(f"{folder}/sub")
    made = {
        "empty.img": (b"", "empty"),
        "cut.imd": (read(f"{disks}/eight.imd")[:60000], "cut or damaged"),
        "cut.td0": (read(f"{disks}/eight.td0")[:50000], "cut or damaged"),
        "cut.edsk": (read(f"{disks}/eight.edsk")[:70000], "has less of sector"),
        "cut.img": (read(f"{disks}/kaypro2.img")[:40000], "no known format"),
        "cut.zip": (bomb()[:300], "cut or damaged"),
        "text.txt": (b"no image\n" * 1000, "no known format"),
        "dos.com": (b"MZ" + bytes(200), "MS-DOS"),
        "packed.gz": (b"\x1f\x8b\x08" + bytes(100), "unpack it"),
        "nested.zip": (nested(), None),
        "bomb.zip": (bomb(), None),
        "sub/noise.img": (random.Random(1).randbytes(204800), "of none fits"),
        "sub/tab\tand\nline\xff".encode("latin-1"): (b"x", "no known format"),
    }
    for name, (data, _) in made.items():
        write(os.path.join(os.fsencode(folder), os.fsencode(name)), data)
    os.symlink("/etc", f"{folder}/folder-link")
    os.symlink("empty.img", f"{folder}/link")
    os.mkfifo(f"{folder}/pipe")
    with open(f"{folder}/huge", "wb") as file:
        file.truncate(1 << 40)
    whys = {name: why for name, (_, why) in made.items()}
    return whys | {"folder-link": "a link", "link": "a link", "pipe": "no file", "huge": "aren't read"}
