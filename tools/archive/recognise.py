"""What a file of an archive is: an image, the tracks of a disk, a zip file or a program; and how that is known.

An image has no head, so its format is found by its length and its directory: of all formats that could have it, those are left by which each
entry of the directory can be one. The best of them has the fewest entries that look odd, and the fewest files that look as if they were read
by another format.
"""

import hashlib
import io
import zipfile
from typing import NamedTuple

from archive import Refusal, counted
from containers import MOST, Unreadable, kind_of, room_with, run_command, tracks_of
from diskdefs import OWN, definition, formats_of, geometry, installed_formats, read_formats
from directories import File, Reading

# these come before others that fit alike, as that of the Osborne before its like of another machine
FAMILIAR = "kpii", "kpiv", "osborne1", "pcw", "cf2dd", "cpcsys", "cpcdata", "zena", "mds-dd", "z80pack-hd", "z80pack-hdb", "8megAltairSIMH"
# how many members of a zip file are looked at
MOST_MEMBERS = 4096
# the last parts of names by which a file is said to be an image, so that one of an unknown length isn't taken for a file of a zip file
IMAGES = b"img ima image raw cpm dsk imd td0 edsk cqm hdk".split()
MOST_PROGRAM = 0xFF00
PACKED = (b"\x1f\x8b", "gzip"), (b"BZh", "bzip2"), (b"\xfd7zXZ", "xz"), (b"7z\xbc\xaf", "7z"), (b"Rar!", "rar"), (b"\x28\xb5\x2f\xfd", "zstd")


class Found(NamedTuple):
    """What a file was taken for: an image as it is, or files; or why it isn't taken."""

    source: bytes
    digest: str
    taken: str = ""
    known: str = ""
    image: bytes | None = None
    files: list | None = None
    why: str = ""


class Formats:
    """The formats that are looked for, in the order in which they are taken where two fit alike."""

    def __init__(self, files, preferred):
        self.native, given, installed = list(formats_of(OWN)), [it for name in files for it in read_formats(name)], installed_formats()
        self.are_installed = bool(given or installed)
        familiar = [it for name in FAMILIAR for it in installed if it.name == name]
        known = {}
        for it in (*self.native, *given, *familiar, *installed):
            known.setdefault(it.name, it)
        self.all = list(known.values())
        self.lengths = {it.length for it in self.all}
        lost = [it for it in preferred if it not in known]
        if lost:
            raise Refusal(f"there is no format {lost[0]} in the definitions of cpmtools")
        self.preferred = [known[it] for it in preferred]

    def candidates(self, image, tracks):
        """The formats of this length, also if some entries are damaged; and others, since an image may end early, or have tracks behind its last one."""
        size = len(image)
        same = [it for it in self.all if it.length == size]
        yield same, False
        yield same, True
        if tracks:
            yield [it for it in self.all if it.length != size and is_shaped(it, tracks)], False
        yield [it for it in self.all if it.length > size], False

    def readings(self, image, tracks):
        """The readings by which an image has files, the best one first; each with its rank, and what tells its contents."""
        for forms, is_damaged in self.candidates(image, tracks):
            read = [Reading(it, image) for it in forms]
            found = [(*self.ranked(it, tracks), order, it) for order, it in enumerate(read) if self.fits(it, is_damaged)]
            # (one of just this length with odd names isn't a longer one that was cut)
            if found or is_damaged and any(it.is_odd_alone for it in read):
                return sorted(found, key=lambda it: (it[0], it[2]))
        return []

    def fits(self, reading, is_damaged):
        """Whether an image has files by a reading. Odd names are taken where the format is told."""
        is_told = reading.form in self.preferred and reading.form.length == len(reading.image)
        is_sound = not reading.unlikely or is_told and reading.is_odd_alone
        return bool(reading.extents) and (reading.is_nearly_sound if is_damaged else is_sound)

    def ranked(self, reading, tracks):
        """The rank of a reading, which is less for a better one, and what tells its contents."""
        form, size = reading.form, len(reading.image)
        contents, strange = reading.contents()
        spare = size - reading.end if form.length > size else 0
        is_other = bool(tracks) and not is_shaped(form, tracks)
        return (form not in self.preferred, is_other, reading.faulty, reading.loose, reading.odd, strange, spare), contents


def is_shaped(form, tracks):
    return form.sector == tracks.sector and form.sectors in (tracks.sectors, tracks.sectors * tracks.heads)


# ---- images


def fsck(form, image):
    """What fsck.cpm says, in words that go on a sentence; nothing where it can't be asked."""
    if form.offset % form.sector or len(image) > MOST:
        return ""
    with room_with(image) as room:
        for name, text in (("diskdefs", definition("import", form)), (".libdskrc", geometry("import", form))):
            with open(f"{room}/{name}", "w", encoding="ascii") as file:
                file.write(text)
        try:
            status, printed = run_command(room, "fsck.cpm", "-T", "raw", "-f", "import", "-n", "image")
        except Unreadable:
            return ""
    # (dates aren't copied, and version 2.23 finds wrong ones where there are none)
    faults = [it for it in printed.splitlines() if it.startswith("Error") and " date " not in it]
    if faults or status < 0 or "Phase 2" not in printed:
        return f", and fsck.cpm finds {counted(len(faults), 'fault')}, first {faults[0]}" if faults else ", and fsck.cpm gives up"
    return ", and fsck.cpm finds no fault"


def is_instead(formats, best, native, fault):
    """Whether an image of the length of one of cpmhost's own has another format of this length: one that is told, or that alone can be."""
    if best.form == native or best.form.length != native.length:
        return False
    return best.form in formats.preferred or bool(fault) and not best.fault


def image_found(formats, source, digest, image, tracks=None, kind=""):
    """What an image is taken for, whose bytes stood there or were made of tracks."""
    like = sum(it.length == len(image) for it in formats.all)
    many = f", the length of {counted(like, 'format')}" if like else ""
    said = f"its head; {tracks}; " if tracks else f"{len(image):,} bytes{many}; "
    taken = f"{kind} of " if kind else ""
    native = next((it for it in formats.native if it.length == len(image) and (not tracks or is_shaped(it, tracks))), None)
    own = native and Reading(native, image)
    # (odd names alone say nothing, since any program can give them)
    fault = own and (own.fault or own.is_loose and own.unlikely)
    is_own = own and (native in formats.preferred or not fault and not formats.preferred)
    readings = [] if is_own else formats.readings(image, tracks)
    best = readings[0][3] if readings else None
    if own and not (best and is_instead(formats, best, native, fault)):
        known = f"but {fault}" if fault else f"its directory fits{fsck(native, image)}{f', with {own.odd} odd names of {own.entries}' * own.is_odd}"
        return Found(source, digest, taken + native.name, said + known, image=bytes(image))
    if not best:
        return nothing_found(formats, source, digest, image, said)
    damaged = f", but {best.faulty} of {best.entries} entries that can't be (first, {best.fault})" if best.fault else ""
    said += f"its directory fits{damaged}{fsck(best.form, image)}"
    said += "; it ends before its format does, behind all of its files" if best.form.length > len(image) else ""
    others = [it.form.name for rank, contents, _, it in readings if rank == readings[0][0] and contents != readings[0][1]]
    said += f"; --prefer {' or '.join(others)} would read other bytes, and fits as well" if others else ""
    return Found(source, digest, taken + best.form.name, said, files=best.files)


def nothing_found(formats, source, digest, image, said):
    """An image by which no format has files."""
    if len(image) <= MOST and not bytes(image).strip(b"\xe5"):
        return Found(source, digest, "a blank disk", f"{said}every byte is E5h", files=[])
    if not formats.are_installed:
        return Found(source, digest, why=f"{said}the formats of cpmtools aren't here (Debian's package cpmtools), and --diskdefs names none")
    read = [Reading(it, image) for it in formats.all if it.length == len(image)]
    if not read:
        return Found(source, digest, why=f"{said}no known format has this length, or a directory that is here")
    told = "; ".join(f"{it.form.name}: {it.unlikely or 'no files'}" for it in read[:3])
    odd = " or ".join(it.form.name for it in read if it.is_odd_alone)
    return Found(source, digest, why=f"{said}the directory of none fits ({told})" + (f"; --prefer {odd} takes it with its odd names" if odd else ""))


# ---- other files


def members_of(data):
    """The members of a zip file: their names, their bytes, and why one isn't taken."""
    left = MOST
    try:
        with zipfile.ZipFile(io.BytesIO(data)) as file:
            listed = [it for it in file.infolist() if not it.is_dir()]
            for it in listed[:MOST_MEMBERS]:
                member, why = member_of(file, it, left)
                left -= len(member)
                yield it.filename.encode("utf-8", "surrogateescape"), member, why
    except Exception as error:  # (of many kinds, by what is wrong)
        raise Unreadable(f"it is a zip file that is cut or damaged: {error or type(error).__name__}")
    if len(listed) > MOST_MEMBERS:
        raise Unreadable(f"it has {len(listed):,} members, and only the first {MOST_MEMBERS:,} were looked at")


def member_of(file, it, left):
    """The bytes of a member, of which no more are unpacked than are left to be, and why it isn't taken. (What is wrong with it, or too much, uses
    up what is left as well, so that many such members take no longer than one.)"""
    if it.external_attr >> 28 == 0o12:
        return b"", "it is a link"
    if it.compress_type not in (zipfile.ZIP_STORED, zipfile.ZIP_DEFLATED):
        return b"", "it is packed in another way than by deflate"
    data = bytearray()
    try:
        with file.open(it) as member:
            while len(data) <= left and (part := member.read(min(65536, left + 1 - len(data)))):
                data += part
    except Exception as error:  # (of many kinds, by what is wrong)
        return bytes(data[:left]), f"it can't be unpacked: {error or type(error).__name__}"
    return bytes(data[:left]), f"no more than {MOST:,} bytes of a zip file are unpacked" if len(data) > left else ""


def zip_found(formats, source, digest, data):
    """What the members of a zip file are: images each by itself, and all others as files."""
    files, is_empty = [], True
    try:
        for name, member, why in members_of(data):
            inner = source + b"/" + name
            if why:
                yield Found(inner, "", why=why)
            elif member[:4] == b"PK\3\4" or is_image(formats, name, member):
                yield from recognised(formats, inner, hashlib.sha256(member).hexdigest(), member, is_member=True)
            else:
                last = name.replace(b"\\", b"/").rpartition(b"/")[2]
                files.append(File(0, last, len(member), lambda member=member: member, path=name))
            is_empty = False
    except Unreadable as error:
        yield Found(source, digest, "a zip file", why=str(error))
        is_empty = False
    if files or is_empty:
        yield Found(source, digest, "a zip file", f"its head; {counted(len(files), 'file')} in it, other than images", files=files)


def is_image(formats, name, data):
    """Whether a member of a zip file is an image, and no file for one."""
    if kind_of(data[:16]) or name.lower().rpartition(b".")[2] in IMAGES:
        return True
    owns = [Reading(it, data) for it in formats.native if it.length == len(data)]
    if any(it.extents and not it.fault and not it.is_loose for it in owns):
        return True
    return len(data) in formats.lengths and bool(formats.readings(data, None))


def is_program(name, data):
    return name.lower().endswith(b".com") and len(data) <= MOST_PROGRAM


def recognised(formats, source, digest, data, is_member=False):
    """What a file is, by its name and its bytes; a zip file may be several things."""
    head = bytes(data[:16])
    kind = kind_of(head)
    packed = next((what for it, what in PACKED if head.startswith(it)), None)
    try:
        if not head:
            yield Found(source, digest, why="it is empty")
        elif kind:
            tracks = tracks_of(data, kind[1])
            yield image_found(formats, source, digest, tracks.image, tracks, kind[0])
        elif head[:4] in (b"PK\3\4", b"PK\5\6"):
            if is_member or len(data) > MOST:
                raise Unreadable("it is a zip file in a zip file" if is_member else f"it is a zip file of more than {MOST:,} bytes")
            yield from zip_found(formats, source, digest, data)
        elif is_program(source, data):
            if head[:2] == b"MZ":
                raise Unreadable("it begins as a program of MS-DOS")
            name, whole = source.rpartition(b"/")[2], bytes(data)
            file = File(0, name, len(whole), lambda: whole, path=name)
            yield Found(source, digest, "a program", f"its name, and {counted(len(whole), 'byte')}", files=[file])
        elif packed and len(data) not in formats.lengths:
            raise Unreadable(f"it is packed by {packed}: unpack it first")
        else:
            yield image_found(formats, source, digest, data)
    except Unreadable as error:
        yield Found(source, digest, kind[0] if kind else "", why=str(error))
