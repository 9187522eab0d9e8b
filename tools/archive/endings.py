"""What a session showed last, and how it ended in words: for people, who ask of a session that is Running whether it waits, prints or computes."""

import functools
import hashlib
import os
import re
from typing import NamedTuple

from archive import shown, written
from diskdefs import OWN, formats_of
from directories import Reading

FORMATS = {it.length: it for it in formats_of(OWN)}
COLUMNS, LINES, TAB = 80, 24, 8
# so many bytes of a console are read for its last lines, and to see whether it repeats itself
LAST, REPEATED, LONGEST_PERIOD = 8192, 4096, 1024
# fewer steps than this for a byte, on average, is printing all the time, if there are so many bytes
FEW_STEPS, MANY = 1000, 512
MOST_QUOTED = 60
PLAIN = re.compile(rb"[ -~]+")
TOKENS = re.compile(rb"[ -~]+|.", re.DOTALL)
PROMPT = re.compile(r"[A-P]>")
NUL, BEL, BS, HT, LF, CR, ESC, DEL = 0, 7, 8, 9, 10, 13, 27, 0x7F
# sequences that no words are quoted with: a place on the screen, by ESC = with a row of 24 and a column of 80, or by CSI; other ones of CSI; ESC and a
# character, which may be missing at the end
PLACE = rb"\x1b=[ -7][ -o]|\x1b\[[\d;]*[Hf]"
SEQUENCES = re.compile(rb"(" + PLACE + rb")|\x1b\[[0-?]*[ -/]*[@-~]|\x1b[ -~]?")
UNKNOWN = "\ufffd"
AT_PROMPT, AT_KEY = WAITS = "back at the prompt", "waits for a key"
ASKS = "computes, or asks for a key again and again"


class Ending(NamedTuple):
    """How a session ended: the kind, of which there are few, and in words."""

    kind: str
    told: str


# ---- what it showed


def visible(byte):
    """A byte that isn't obeyed, as it stands on a screen."""
    if byte in (CR, LF):
        return " "
    return chr(byte) if 0x20 <= byte < DEL else f"^{chr(byte ^ 64)}" if byte <= DEL else UNKNOWN


# (most consoles have no sequences, so that their lines are wanted twice)
@functools.lru_cache(maxsize=2)
def rows(data):
    """The lines of a console, as a terminal of 80 columns has them that obeys carriage return, line feed, backspace and tab, and nothing else; each with
    whether it goes on in the next one."""
    lines, line, at = [], [], 0
    for token in TOKENS.findall(data):
        byte = token[0]
        if byte == LF:
            lines.append((line, False))
            line = []
        elif byte == CR:
            at = 0
        elif byte == BS:
            at = max(0, at - 1)
        elif byte == HT:
            at = min(COLUMNS - 1, at // TAB * TAB + TAB)
        elif byte not in (NUL, BEL, DEL):
            words = token.decode("ascii") if PLAIN.match(token) else visible(byte)
            while words:
                if at == COLUMNS:
                    lines.append((line, True))
                    line, at = [], 0
                line += " " * (at - len(line))
                fitting, words = words[: COLUMNS - at], words[COLUMNS - at :]
                line[at : at + len(fitting)] = fitting
                at += len(fitting)
    return [*lines, (line, False)]


def screen(data):
    """The last lines of a console."""
    texts = ["".join(it).rstrip() for it, _ in rows(data)[-LINES:]]
    # (a session begins with an empty line)
    return texts[next((at for at, it in enumerate(texts) if it), len(texts)) :]


def last_bytes(path):
    """The bytes at the end of a console, and how many it has."""
    with open(path, "rb") as file:
        size = os.fstat(file.fileno()).st_size
        file.seek(max(0, size - LAST))
        return file.read(LAST), size


def repeats(data):
    """What a console shows again and again at its end, if it does."""
    end = data[-REPEATED:]
    for period in range(1, min(LONGEST_PERIOD, len(end) // 4) + 1):
        if len(end) >= MANY and end[period:] == end[:-period]:
            return end[:period]
    return None


# ---- how it ended


def quoted(text):
    """A text in quotes, of which a long one has its end."""
    text = shown(" ".join(text.split()))
    return f"'{text if len(text) <= MOST_QUOTED else '..' + text[2 - MOST_QUOTED :]}'"


def without_sequences(data):
    """Bytes of a console without the sequences that a terminal obeys. What follows one for another place is on another line."""
    return SEQUENCES.sub(lambda it: b"\r\n" if it[1] else b"", data)


def last_line(data):
    """The last line that isn't empty, as a whole: one that has more than 80 columns stands on several lines of a terminal."""
    found = whole = ""
    for line, goes_on in rows(without_sequences(data)):
        whole += "".join(line)
        if not goes_on:
            found, whole = whole if whole.strip() else found, ""
    return found


def whole_again(again):
    """What is shown again and again, in words; it begins with a sequence, if it has one, so that none is cut."""
    at = max(0, again.find(ESC))
    return "".join(map(visible, without_sequences(again[at:] + again[:at])))


def ending_of_running(count, size, data, waits, stops_idle, goes_on):
    """How a session ended whose end is Running."""
    line = last_line(data)
    said = f": {quoted(line)}" if line else ""
    if waits:
        at_prompt = PROMPT.fullmatch(line.strip())
        return Ending(AT_PROMPT, AT_PROMPT) if at_prompt else Ending(AT_KEY, f"{AT_KEY}{said}")
    again = repeats(data)
    if again or not goes_on and size >= MANY and count < FEW_STEPS * size:
        words = whole_again(again) if again else ""
        return Ending("prints without end", f"prints without end{f': {quoted(words)}' if words.strip() else ''}")
    if not stops_idle:
        return Ending("computes or waits", f"computes or waits for a key{said}")
    # (one that asks whether there is a key, and goes on where there is none, takes steps as any other)
    if not size:
        return Ending("computes or asks", f"{ASKS}: shows nothing{' more' * goes_on}")
    return Ending("computes or asks", f"{ASKS}: showed {size:,} bytes in {count:,} steps, last {quoted(line)}")


def ending_of(end, note, running):
    """How a session ended; `running` are the words for one whose end is Running."""
    if end == "Running":
        return ending_of_running(*running)
    if end == "Illegal":
        return Ending("illegal", f"came to what its processor doesn't have, {note.removeprefix('illegal ')}")
    if end == "Quota":
        return Ending("quota", "would have written more pages than its quota")
    return {"Halted": Ending("halted", "halted"), "CountEnd": Ending("count's end", "its count of steps can't rise any more")}.get(end, Ending(end.lower(), note))


# ---- what it wrote


def files_of(path):
    """The files of an image, by users and names: a digest of each. None where its directory can't be one."""
    with open(path, "rb") as file:
        image = file.read()
    reading = Reading(FORMATS[len(image)], image)
    if reading.fault:
        return None
    return {it.shown: hashlib.sha256(it.read()).digest() for it in reading.files}


def changes(before, after):
    """Each file that is new (+), changed (~) or removed (-) on an image."""
    if before is None or after is None:
        return ["?"]
    names = sorted({*before, *after})
    signs = (("+" if it not in before else "-" if it not in after else "~", it) for it in names if before.get(it) != after.get(it))
    return [sign + written(name).replace(" ", "\\x20") for sign, name in signs]


def told_of_files(files):
    """What was written and removed on all images, in words."""
    found = [it[0] for changed in files.values() for it in changed]
    wrote, removed = sum(it in "+~" for it in found), found.count("-")
    words = [f"{verb} {number:,} file{'s' * (number != 1)}" for verb, number in (("wrote", wrote), ("removed", removed)) if number]
    return ", ".join(words) or ("changed a disk" if files else "")
