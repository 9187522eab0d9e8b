"""The commands that `tests/faults` disturbs: their words, and the files that are there before."""

from typing import NamedTuple

from lib import BLANK, did, folder, read, write


class Link(NamedTuple):
    """A symbolic link, in place of the bytes of a file."""

    to: str


class Command(NamedTuple):
    name: str
    words: tuple
    # what is there before: the bytes of each file, or a link
    files: dict
    given: bytes = b""
    is_refused: bool = False
    closed: tuple = ()
    # what strace has fail all the time: calls, each with its error
    without: tuple = ()

    @property
    def missing(self):
        return [call.split(":")[0] for call in self.without]


# it keeps what is typed, up to a dot, in files of the drives A and B
KEEP = b"""
        LXI  D,ONE
        CALL MAKE
        LXI  D,TWO
        CALL MAKE
NEXT:   MVI  C,1
        CALL 5
        STA  80H
        CPI  '.'
        JNZ  NEXT
        LXI  D,ONE
        CALL KEEP
        LXI  D,TWO
KEEP:   PUSH D
        MVI  C,21
        CALL 5
        POP  D
        MVI  C,16
        JMP  5
MAKE:   MVI  C,22
        JMP  5
ONE:    DB   1,'KEPT    TXT'
        DS   24
TWO:    DB   2,'KEPT    TXT'
        DS   24
"""
CONFIG = b"""frames = 64
quantum = 1000
system = "system.img"

[[session]]
name = "one"
cpu = "8080"
quota = 16
steps = 3000
drives = ["a.img", "b.img"]
keys = "one.keys"
console = "one.txt"
list = "one.lst"
out = ["a.img", "b.img"]

[[session]]
name = "two"
cpu = "z80"
quota = 16
steps = 3000
drives = ["c.img"]
keys = "two.keys"
console = "two.txt"
list = "two.lst"
out = ["c.img"]
"""
SOURCE = b" MVI C,2\n MVI E,'A'\n CALL 5\n RET\n"
TYPED = b"0 a\n0 b\n0 .\n"
# it prints P and Q
PRINTS = bytes.fromhex("0E051E50CD05000E051E51CD0500C9")


def made():
    """The program KEEP and a disk with two files, as the program makes them."""
    with folder():
        for name, data in (("keep.asm", KEEP), ("old.txt", b"old\n" * 500), ("note.txt", b"a note\n"), ("disk.img", BLANK)):
            write(name, data)
        did("asm", "keep.asm", "keep.com")
        did("disk", "put", "disk.img", "old.txt", "note.txt")
        return read("keep.com"), read("disk.img")


def commands():
    keep, disk = made()
    image = {"disk.img": disk}
    there = {"old.txt": b"what it held", "note.txt": b"and this"}
    source = {"a.asm": SOURCE, "a.com": b"the old program", "a.lst": b"the old listing"}
    disks = {"keep.com": keep, "a.img": BLANK, "b.img": disk, "typed.keys": TYPED}
    both = ("--disk", "a.img", "--disk", "b.img", "--out-disk", "a.img", "--out-disk", "b.img")
    record = {**disks, "record": b"0 old^M\n"}
    sessions = {name: BLANK for name in ("system.img", "a.img", "b.img", "c.img")}
    shown = {name: b"what it held" for name in ("one.txt", "one.lst", "two.txt", "two.lst", "keys/one.keys", "keys/two.keys")}
    run = {"run.toml": CONFIG, "one.keys": b"0 ^PSAVE 4 KEPT.COM^M\n0 B:^M\n0 SAVE 1 B.COM^M\n", "two.keys": b"0 ^PSAVE 2 TWO.COM^M\n", **sessions, **shown}
    keep_words = ("com", "keep.com", *both)
    return [
        Command("disk-put", ("disk", "put", "disk.img", "a.asm", "a.com=OLD.TXT"), {**image, **source}),
        Command("disk-remove", ("disk", "remove", "disk.img", "*.TXT"), image),
        Command("disk-rename", ("disk", "rename", "disk.img", "NEW.TXT=OLD.TXT"), image),
        Command("disk-get", ("disk", "get", "disk.img", "*.*", "--to", "room"), {**image, "room/other": b"other"}),
        Command("disk-get-force", ("disk", "get", "disk.img", "*.*", "--text", "--force"), {**image, **there}),
        Command("disk-new", ("disk", "new", "new.img"), there),
        Command("com-out", (*keep_words, "--keys", "typed.keys"), disks),
        Command("com-record", ("com", "keep.com", "--keys", "typed.keys", "--record", "record"), record),
        Command("com-list", ("com", "prints.com", "--disk", "b.img", "--out-disk", "a.img", "--list", "record"), {**record, "prints.com": PRINTS}),
        Command("com-typed", (*keep_words, "--keyboard", "--record", "record"), record, b"cd."),
        Command("com-no-key", ("com", "keep.com", "--keyboard", "--record", "record"), record),
        Command("run", ("run", "run.toml", "--record-all", "keys"), run),
        Command("run-typed", ("run", "run.toml", "--keyboard", "one", "--record", "record"), {**run, "record": b"0 old^M\n"}, b"SAVE 1 T.COM\rB:\rSAVE 1 B\r"),
        Command("asm", ("asm", "a.asm", "a.com"), source),
        Command("asm-list", ("asm", "a.asm", "link", "--list", "a.lst"), {**source, "link": Link("room/real"), "room/real": b"real"}),
        Command("asm-closed", ("asm", "a.asm", "new.com"), source, closed=(0, 1, 2)),
        Command("com-closed", ("com", "keep.com", "--keys", "typed.keys", "--record", "record"), record, closed=(1,)),
        Command("new-without-links", ("disk", "new", "new.img"), there, without=("link:error=EPERM",)),
        Command("put-without-locks", ("disk", "put", "disk.img", "a.asm"), {**image, **source}, without=("flock:error=ENOLCK",)),
        Command("asm-over-source", ("asm", "a.asm", "./a.asm"), source, is_refused=True),
        Command("asm-twice", ("asm", "a.asm", "a.com", "--list", "./a.com"), source, is_refused=True),
        Command("get-over-image", ("disk", "get", "disk.img", "OLD.TXT", "--to", "./disk.img", "--force"), image, is_refused=True),
        Command("get-there", ("disk", "get", "disk.img", "*.*"), {**image, **there}, is_refused=True),
        Command("new-there", ("disk", "new", "note.txt"), there, is_refused=True),
        Command("com-over-keys", (*keep_words, "--keys", "typed.keys", "--record", "./typed.keys"), disks, is_refused=True),
        Command("com-over-program", ("com", "keep.com", "--disk", "a.img", "--out-disk", "./keep.com"), disks, is_refused=True),
        Command("run-over-keys", ("run", "over.toml"), {**run, "over.toml": CONFIG.replace(b'"one.txt"', b'"./two.keys"')}, is_refused=True),
        Command("run-twice", ("run", "over.toml"), {**run, "over.toml": CONFIG.replace(b'"one.txt"', b'"./two.txt"')}, is_refused=True),
    ]
