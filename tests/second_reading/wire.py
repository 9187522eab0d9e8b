"""A reading of docs/PROTOCOL.md: a line as a request or its first fault, and what a host replies, with a folder of files or without one.

What a session does is told by `prompt.Prompt`, and what is on an image by `image_files.FileOnImage`. Where these don't know it, a member of the reply is
`ANY`, or the whole reply.
"""

import json
import re
from typing import NamedTuple, Optional

from .directories import fault_of
from .disk import FORMATS, LARGE, SMALL
from .image_files import FileOnImage, plain
from .prompt import Beyond, Prompt

ANY = object()
MOST_LINE, MOST_NUMBER, MOST_TAG = 1 << 20, (1 << 53) - 1, (1 << 64) - 1
MOST_DEPTH, MOST_REQUESTS, SLOTS = 127, 1000, 64
WHY = {
    "NoSuchSlot": "no slot of that number is open",
    "NoSlot": "no slot is free",
    "NoFrames": "the quotas of all open slots exceed the frames",
    "BadQuota": "the quota is not 16 to 256 pages",
    "BadDrives": "the session has no drive, or more than 4",
    "Damaged": "the bytes are no saving",
    "ReadOnly": "the file is read-only",
    "DirectoryFull": "the directory is full",
    "DiskFull": "the disk is full",
    "NoFile": "no such file",
    "BadName": "no file of a disk has such a name",
    "AbsentFile": "the folder has no such file",
    "DamagedDisk": "the file is no image of a sound disk",
    "FileFault": "the file can't be read or written",
}


class Fault(Exception):
    """What is wrong in a line: the members of its reply."""

    def __init__(self, error, **more):
        super().__init__(error)
        self.reply = {"error": error, **more}


class Refusal(Exception):
    def __init__(self, word):
        super().__init__(word)
        self.reply = {"refused": word, "why": WHY[word]}


# ---- JSON


class NoJson(ValueError):
    pass


def whole(text):
    """A whole number, or a float, as which JSON's -0 and whatever has more than 64 bits is read."""
    number = int(text) if len(text) < 40 else None
    return number if number is not None and text != "-0" and -(1 << 63) <= number < 1 << 64 else real(text)


def real(text):
    number = float(text)
    if abs(number) == float("inf"):
        raise NoJson(text)
    return number


def constant(text):
    raise NoJson(text)


# what may be half of a pair in a text, and is no character by itself
HALF = re.compile(rb"\\u[dD][89a-fA-F]")


def nests(value):
    """How deep a value nests, whose objects are lists of pairs."""
    if isinstance(value, tuple):
        return nests(value[1])
    return 1 + max(map(nests, value), default=0) if isinstance(value, list) else 0


def value_of(line):
    """The value of a line, which is bytes without its LF."""
    try:
        text = line.decode("utf-8")
        value = json.loads(text, parse_int=whole, parse_float=real, parse_constant=constant)
        is_deep = line.count(b"[") + line.count(b"{") > MOST_DEPTH
        if is_deep or HALF.search(line):
            # (all of it, also what a name that stands twice hides)
            pairs = json.loads(text, object_pairs_hook=list)
            json.dumps(pairs, ensure_ascii=False).encode("utf-8")
            if nests(pairs) > MOST_DEPTH:
                raise NoJson
    except (ValueError, RecursionError) as fault:
        raise NoJson from fault
    return value


# ---- fields

wrong = object()


def number(low, high):
    return lambda value: value if type(value) is int and low <= value <= high else wrong


def text(value, most=255):
    return value if isinstance(value, str) and 1 <= len(value.encode()) <= most else wrong


def octets(value):
    try:
        return value.encode("latin-1") if isinstance(value, str) else wrong
    except UnicodeEncodeError:
        return wrong


def file(value):
    return wrong if text(value) is wrong or "/" in value or "\0" in value or value in (".", "..") else value


def files(value):
    return value if isinstance(value, list) and len(value) <= 4 and all(file(it) is not wrong for it in value) else wrong


def one_of(*words):
    return lambda value: value if isinstance(value, str) and value in words else wrong


def some(value):
    return value if isinstance(value, list) and 1 <= len(value) <= MOST_REQUESTS else wrong


SLOT = ("slot", number(0, MOST_NUMBER))
STEPS = ("steps", number(0, MOST_NUMBER))
MOST = ("most", number(0, 8192))
KEYS = ("keys", octets)
# the fields of each request in their order; the second list has those that may be left out
REQUESTS = {
    "open": ([("cpu", one_of("8080", "z80")), ("quota", number(0, 65535)), ("drives", files)], []),
    "open from": ([("from", file)], []),
    "key": ([SLOT, KEYS], []),
    "grant": ([SLOT, STEPS], [("until", number(0, 65535)), ("to", one_of("wait"))]),
    "take": ([SLOT, MOST], []),
    "list": ([SLOT, MOST], []),
    "look": ([SLOT], []),
    "peek": ([SLOT, ("address", number(0, 65535)), ("length", number(1, 256))], []),
    "fork": ([SLOT], []),
    "save": ([SLOT, ("file", file)], []),
    "close": ([SLOT], [("out", files)]),
    "turn": ([SLOT, KEYS, STEPS], []),
    "put": ([("drive", file), ("name", text), ("text", octets)], []),
    "get": ([("drive", file), ("name", text)], []),
    "files": ([("drive", file)], []),
    "many": ([("requests", some)], []),
}


def is_tag(value):
    return type(value) is int and 0 <= value <= MOST_TAG or isinstance(value, str) and len(value.encode()) <= 256


def tag_of(value):
    """The tag as a member of the reply, if there is one."""
    return {"tag": value["tag"]} if isinstance(value, dict) and is_tag(value.get("tag")) else {}


def request_of(value, is_line):
    """The name and the fields of the request that a value is. Only a line may be `many`."""
    if not isinstance(value, dict) or "do" not in value:
        raise Fault("missing field", field="do")
    do = value["do"]
    if not isinstance(do, str) or do == "open from" or do not in REQUESTS or do == "many" and not is_line:
        raise Fault("wrong field", field="do")
    if do == "open" and "from" in value:
        do = "open from"
    needed, others = REQUESTS[do]
    unknown = set(value) - {"do", "tag"} - {name for name, _ in needed + others}
    if unknown:
        raise Fault("unknown field", field=min(unknown, key=str.encode))
    if "tag" in value and not is_tag(value["tag"]):
        raise Fault("wrong field", field="tag")
    if "until" in value and "to" in value:
        others = [("to", lambda _: wrong)]
    return do, fields_of(value, needed, others)


def fields_of(value, needed, others):
    fields = {}
    for name, read in needed + [it for it in others if it[0] in value]:
        if name not in value:
            raise Fault("missing field", field=name)
        fields[name] = read(value[name])
        if fields[name] is wrong:
            raise Fault("wrong field", field=name)
    return fields


# ---- files

# (a character of a name is one that is seen, and none of these)
CHARACTER = "".join(re.escape(chr(c)) for c in range(0x21, 0x7F) if chr(c) not in "<>.,;:=?*[]_")
NAME = re.compile(rf"([{CHARACTER}]{{1,8}})(?:\.([{CHARACTER}]{{0,3}}))?")
BLANK = {name: b"\xe5" * form.size for name, form in (("blank", SMALL), ("blank-large", LARGE))}


def field_of(name):
    """The eleven characters of a file's name. A small letter counts as the capital, and no other character has one."""
    found = NAME.fullmatch(name)
    if not found:
        raise Refusal("BadName")
    return (found[1].ljust(8) + (found[2] or "").ljust(3)).upper().encode()


def shown_name(field):
    """A name as it is listed."""
    text = plain(field).decode("latin-1")
    return f"{text[:8].rstrip()}.{text[8:].rstrip()}".rstrip(".")


class Saving(NamedTuple):
    """What a file holds that was saved: a session, where it is known."""

    quota: int
    sizes: list
    session: Optional[Prompt]


class Hidden(NamedTuple):
    """What a file holds that is an image of so many bytes, of which no more is known."""

    size: int


def size_of(image):
    return image.size if isinstance(image, Hidden) else len(image)


# ---- a host


class Host:
    """A host with a blank system drive, and its replies. It may have files by their names: bytes, savings and hidden images."""

    def __init__(self, frames=16384, files=None):
        self.frames, self.number, self.files = frames, 0, files
        #: Each open slot: its quota, the sizes of its drives, and its session, which is None once it did what isn't known.
        self.slots = {}

    def reply(self, line):
        """The reply to a line without its LF."""
        if len(line) > MOST_LINE:
            return {"error": "line too long"}
        try:
            value = value_of(line)
        except NoJson:
            return {"error": "no JSON", "at": ANY}
        return self.answer(value, is_line=True)

    def answer(self, value, is_line=False):
        tag = tag_of(value)
        try:
            do, fields = request_of(value, is_line)
            if do == "many":
                return {"replies": [self.answer(it) for it in fields["requests"]], **tag}
            reply = getattr(self, f"do_{do.replace(' ', '_')}")(**{f"{name}_": it for name, it in fields.items()})
            return reply if reply is ANY else {**reply, **tag}
        except (Fault, Refusal) as fault:
            return {**fault.reply, **tag}

    def slot(self, number):
        if number not in self.slots:
            raise Refusal("NoSuchSlot")
        return self.slots[number]

    def see_room(self, quota):
        if len(self.slots) == SLOTS:
            raise Refusal("NoSlot")
        if sum(slot[0] for slot in self.slots.values()) + quota > self.frames:
            raise Refusal("NoFrames")

    def opened(self, quota, sizes, session):
        """The reply to what opens a slot, for which there is room."""
        self.slots[self.number] = [quota, sizes, session]
        self.number += 1
        return {"slot": self.number - 1}

    def file(self, name):
        if name not in (self.files or ()):
            raise Refusal("AbsentFile")
        return self.files[name]

    def image(self, name):
        """The image in a file."""
        found = self.file(name)
        if isinstance(found, Saving) or size_of(found) not in FORMATS:
            raise Refusal("DamagedDisk")
        return found

    def written(self, files):
        if self.files is None:
            raise Refusal("FileFault")
        self.files.update(files)

    def known(self, number, ask, *unknown):
        """What a session replies; from what it doesn't know on, these members hold anything."""
        slot = self.slot(number)
        if slot[2] is not None:
            try:
                return ask(slot[2])
            except Beyond:
                slot[2] = None
        return dict.fromkeys(unknown, ANY)

    def do_open(self, cpu_, quota_, drives_):
        if not 16 <= quota_ <= 256:
            raise Refusal("BadQuota")
        if not drives_:
            raise Refusal("BadDrives")
        self.see_room(quota_)
        images = [BLANK.get(it) or self.image(it) for it in drives_]
        is_known = not any(isinstance(it, Hidden) for it in images)
        session = Prompt(cpu_, quota_, images, BLANK["blank"]) if is_known else None
        return self.opened(quota_, [size_of(it) for it in images], session)

    def do_open_from(self, from_):
        saving = self.file(from_)
        if not isinstance(saving, Saving):
            raise Refusal("Damaged")
        self.see_room(saving.quota)
        return self.opened(saving.quota, saving.sizes, saving.session and saving.session.fork())

    def do_key(self, slot_, keys_):
        return self.known(slot_, lambda it: {"accepted": it.press(keys_)}, "accepted")

    def do_grant(self, slot_, steps_, until_=None, to_=None):
        def ask(session):
            executed, why = session.grant(steps_, to_ is not None, until_)
            return {"executed": executed, "why": why}

        return self.known(slot_, ask, "executed", "why")

    def do_take(self, slot_, most_):
        return self.known(slot_, lambda it: {"text": it.taken(it.screen, most_).decode("latin-1")}, "text")

    def do_list(self, slot_, most_):
        return self.known(slot_, lambda it: {"text": it.taken(it.printer, most_).decode("latin-1")}, "text")

    def do_look(self, slot_):
        return self.known(slot_, Prompt.look, *LOOK)

    def do_peek(self, slot_, address_, length_):
        return self.known(slot_, lambda it: {"text": it.peek(address_, length_).decode("latin-1")}, "text")

    def do_fork(self, slot_):
        quota, sizes, session = self.slot(slot_)
        self.see_room(quota)
        return self.opened(quota, sizes, session and session.fork())

    def do_save(self, slot_, file_):
        quota, sizes, session = self.slot(slot_)
        self.written({file_: Saving(quota, sizes, session and session.fork())})
        return {"bytes": ANY}

    def do_close(self, slot_, out_=()):
        _, sizes, session = self.slot(slot_)
        if len(out_) > len(sizes) or len(set(out_)) < len(out_):
            raise Refusal("BadDrives")
        if out_:
            images = [bytes(session.calls.disks[place].image) if session else Hidden(size) for place, size in enumerate(sizes)]
            self.written(dict(zip(out_, images)))
        look = self.do_look(slot_)
        del self.slots[slot_]
        return look

    def do_turn(self, slot_, keys_, steps_):
        def ask(session):
            accepted = session.press(keys_)
            executed, why = session.grant(steps_, to_wait=True)
            shown, printed = session.taken(session.screen, 8192), session.taken(session.printer, 8192)
            seen = {"text": shown.decode("latin-1"), "list": printed.decode("latin-1"), "waiting": session.is_waiting, "end": "Running"}
            return {"accepted": accepted, "executed": executed, "why": why, **seen}

        return self.known(slot_, ask, "accepted", "executed", "why", "text", "list", "waiting", "end")

    def on_image(self, drive, field):
        """A file of user 0 on a sound image, or nothing where the image isn't known."""
        image = self.image(drive)
        if isinstance(image, Hidden):
            return None
        found = FileOnImage(bytearray(image), 0, field)
        if fault_of(found.disk):
            raise Refusal("DamagedDisk")
        return found

    def do_put(self, drive_, name_, text_):
        found = self.on_image(drive_, field_of(name_))
        if found is None:
            return ANY
        if refusal := found.refusal(text_):
            raise Refusal(str(refusal))
        found.put(text_)
        self.written({drive_: bytes(found.disk.image)})
        return {"bytes": len(text_)}

    def do_get(self, drive_, name_):
        found = self.on_image(drive_, field_of(name_))
        if found is None:
            return ANY
        if not found.entries():
            raise Refusal("NoFile")
        return {"text": found.get().decode("latin-1")}

    def do_files(self, drive_):
        found = self.on_image(drive_, bytes(11))
        if found is None:
            return ANY
        entries = map(found.disk.entry, range(found.form.entries))
        names = dict.fromkeys(plain(entry[1:12]) for entry in entries if entry[0] == 0)
        return {"text": "".join(f"{shown_name(name)}\n" for name in names)}


LOOK = tuple(Prompt("8080", 16, [BLANK["blank"]], BLANK["blank"]).look())


# ---- replies


def agrees(wanted, found):
    """Whether a reply is the wanted one."""
    if wanted is ANY:
        return found is not None
    if isinstance(wanted, dict):
        return isinstance(found, dict) and wanted.keys() == found.keys() and all(agrees(wanted[name], found[name]) for name in wanted)
    if isinstance(wanted, list):
        return isinstance(found, list) and len(wanted) == len(found) and all(map(agrees, wanted, found))
    return type(wanted) is type(found) and wanted == found


def line_of(value):
    """A reply as it stands on the wire."""
    return json.dumps(value, sort_keys=True, separators=(",", ":"), ensure_ascii=False)


def changes_nothing(reply):
    """Whether a reply says that nothing was changed."""
    return reply is not ANY and ("refused" in reply or "error" in reply)
