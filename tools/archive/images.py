"""The images of an import: they are made and filled by the program, in a folder that gets its name when all are there."""

import hashlib
import os
import re
import subprocess
from typing import NamedTuple

from archive import Refusal
from directories import EXTENT

# the bytes of a disk's blocks, how many are for files, its entries, and the bytes of each
SMALL = 1024, 241, 64, EXTENT
LARGE = 4096, 510, 256, 2 * EXTENT
# how many bytes of files go onto the images of one file
MOST = 64 * 1024 * 1024
MOST_STEM = 80
BLANK = b"\xe5" * 256256


class Row(NamedTuple):
    """A row of the table: what became of a file, or of a file on it."""

    source: bytes
    source_digest: str
    taken: str
    known: str
    # the file on it, as user:name
    file: bytes = b""
    image: str = ""
    became: bytes = b""
    bytes: int | None = None
    digest: str = ""
    why: str = ""


def fitting(disk, files):
    """How many of these files fit on a disk together, in their order."""
    block, blocks, entries, room = disk
    for count, file in enumerate(files):
        blocks -= -(-file.size // block)
        entries -= max(1, -(-file.size // room))
        if blocks < 0 or entries < 0:
            return count
    return len(files)


def packed(files):
    """The files of each image, and its disk: all on a small one or a large one, else as many on each large one as fit, in their order."""
    while files:
        is_small = fitting(SMALL, files) == len(files)
        count = len(files) if is_small else fitting(LARGE, files)
        yield SMALL if is_small else LARGE, files[:count]
        files = files[count:]


def marked(file):
    """The options of `disk put` for a file."""
    return ("--user", str(file.user), *["--read-only"] * file.read_only, *["--system"] * file.system)


class Images:
    """The images in a folder's subfolder `images`; `room` is a folder for what isn't kept."""

    def __init__(self, host, folder, room):
        self.host, self.folder, self.room = host, folder, room
        self.names = set()
        # what the program says of a name for a user, where it was tried
        self.tried = {}
        os.makedirs(f"{folder}/images")

    def name_for(self, source):
        """A name of letters, digits and `. _ -` for an image, which no other has, in capitals either."""
        stem, _, kind = source.rpartition(b".")
        stem = re.sub(r"[^A-Za-z0-9._-]", "_", (stem if stem and b"/" not in kind else source).decode("ascii", "replace").replace("/", "-"))
        stem = stem.lstrip("._-")[:MOST_STEM] or "image"
        number, name = 1, stem
        while name.lower() in self.names:
            number += 1
            name = f"{stem}-{number}"
        self.names.add(name.lower())
        return f"images/{name}.img"

    def run(self, *words):
        """Does a command of the program; what it refuses."""
        ran = subprocess.run([self.host, *words], cwd=self.room, stdin=subprocess.DEVNULL, capture_output=True)
        said = ran.stderr.decode(errors="backslashreplace").strip().removeprefix("cpmhost: ")
        return (said or f"status {ran.returncode}") if ran.returncode else None

    def must(self, *words):
        refused = self.run(*words)
        if refused:
            raise Refusal(f"cpmhost {words[0]} {words[1]} was refused: {refused}")

    # ---- an image as it is

    def keep(self, found):
        """Writes an image as it is."""
        name = self.name_for(found.source)
        with open(f"{self.folder}/{name}", "xb") as file:
            file.write(found.image)
            file.flush()
            os.fsync(file.fileno())
        digest = hashlib.sha256(found.image).hexdigest()
        yield Row(found.source, found.digest, found.taken, found.known, image=name, bytes=len(found.image), digest=digest)

    # ---- files

    def refused(self, file):
        """Why a file can't go onto an image by its name or its user."""
        key = file.name, file.user
        if b"\0" in file.name:
            return "its name has a byte 0"
        if key not in self.tried:
            for name, data in (("empty", b""), ("blank.img", BLANK)):
                with open(f"{self.room}/{name}", "wb") as out:
                    out.write(data)
            refused = self.run("disk", "put", "blank.img", b"empty=" + file.name, "--user", str(file.user))
            self.tried[key] = refused and f"disk put refuses it: {refused}"
        return self.tried[key]

    def sorted_out(self, files):
        """The files that go onto images, and why each other one doesn't, by their places among all."""
        taken, why, names, left = [], {}, set(), MOST
        for at, file in enumerate(files):
            name = file.user, file.name.upper()
            if file.why:
                why[at] = file.why
            elif not fitting(LARGE, [file]):
                why[at] = f"it has {file.size:,} bytes, and the large disk takes {LARGE[0] * LARGE[1]:,} at most"
            elif file.size > left:
                why[at] = f"no more than {MOST:,} bytes of files are taken of one file"
            elif refused := self.refused(file):
                why[at] = refused
            elif name in names:
                why[at] = "another file of this user has its name, in capitals"
            else:
                names.add(name)
                left -= file.size
                taken.append((at, file))
        return taken, why

    def would_fill(self, found):
        """What would become of files, without images."""
        taken, why = self.sorted_out(found.files)
        became = {at: b"%d:%s" % (file.user, file.name.upper()) for at, file in taken}
        for at, file in enumerate(found.files):
            yield Row(found.source, found.digest, found.taken, found.known, file.shown, "", became.get(at, b""), file.size, why=why.get(at, ""))

    def fill(self, found):
        """Makes images of files."""
        known = found.source, found.digest, found.taken, found.known
        taken, why = self.sorted_out(found.files)
        rows = {at: Row(*known, file=found.files[at].shown, bytes=found.files[at].size, why=it) for at, it in why.items()}
        places = iter([at for at, _ in taken])
        for disk, files in packed([file for _, file in taken]):
            name = self.name_for(found.source)
            for file, digest in zip(files, self.make(f"{self.folder}/{name}", disk, files)):
                became = b"%d:%s" % (file.user, file.name.upper())
                rows[next(places)] = Row(*known, file.shown, name, became, file.size, digest)
        yield from (rows[at] for at in sorted(rows))
        if not rows:
            yield Row(*known)

    def make(self, image, disk, files):
        """Makes an image of these files; their digests."""
        image, digests = os.path.abspath(image), []
        self.must("disk", "new", image, *["--large"] * (disk is LARGE))
        for number, file in enumerate(files):
            data = file.read()
            digests.append(hashlib.sha256(data).hexdigest())
            with open(f"{self.room}/{number}", "wb") as out:
                out.write(data)
        begun = 0
        while begun < len(files):
            # (files that follow one another and have the same marks are put by one command)
            end = begun
            while end < len(files) and marked(files[end]) == marked(files[begun]):
                end += 1
            self.must("disk", "put", image, *(b"%d=%s" % (it, files[it].name) for it in range(begun, end)), *marked(files[begun]))
            begun = end
        for number in range(len(files)):
            os.remove(f"{self.room}/{number}")
        return digests
