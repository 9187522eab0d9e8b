"""Files of rows, as docs/ROWS.md describes them, and the scenes that play them."""

import re
from typing import NamedTuple, Optional

HEADER = re.compile(r"(\d+) (wrong )?rows of (\S+)")
TIMES = re.compile(r"(\d+)\*(.*)", re.DOTALL)
ESCAPE = re.compile(rb"\\(x([0-9A-Fa-f]{2})|.)", re.DOTALL)
ESCAPED = {b"r": b"\r", b"n": b"\n", b"t": b"\t", b"\\": b"\\"}
RISING = bytes(range(251))


class Wrong(Exception):
    """A line that is none of the language, or that can't be done, by the fault that docs/ROWS.md gives this name."""

    def __init__(self, what, fault=None):
        super().__init__(what)
        self.fault = fault
        self.number = 0  # that of the line, where it stands for one


class NotPlayed(Exception):
    """A line of the language that the reading doesn't play: its verb, with what tells it from those that it plays."""


class Refused(str):
    """What a line answers that is refused, in words."""


class Word(NamedTuple):
    text: str
    is_quoted: bool = False


class Line(NamedTuple):
    number: int
    times: int  # how often it is done
    verb: str
    arguments: list
    wanted: Optional[str]  # the words that must come
    text: Optional[str]  # what stands between marks
    is_text_wanted: bool

    @property
    def is_expectation(self):
        return self.wanted is not None or self.is_text_wanted

    @property
    def shown(self):
        return self.text if self.is_text_wanted else self.wanted


class Row(NamedTuple):
    number: int
    name: str
    lines: list
    fault: Optional[str] = None  # the fault that a wrong row names


class File(NamedTuple):
    path: str
    subject: str
    are_wrong: bool
    rows: list


# ---- reading


def words_of(text):
    """The words of a text, where what stands between quotes is one."""
    parts = text.split('"')
    if len(parts) % 2 == 0:
        raise Wrong("a quote has no end", "Quote")
    words = []
    for place, part in enumerate(parts):
        if place % 2:
            words.append(Word(part, True))
        else:
            words += map(Word, part.split())
    return words


def line_of(number, text):
    has_text = text.endswith(" <<")
    text = text[:-3] if has_text else text
    is_text_wanted = has_text and text.endswith(" =")
    done, wanted = (text[:-2], None) if is_text_wanted else (text, None)
    if not is_text_wanted and " = " in text:
        done, wanted = text.split(" = ", 1)
    words, times = words_of(done), 1
    first = TIMES.fullmatch(words[0].text) if words and not words[0].is_quoted else None
    if first and not first[2] and int(first[1]) > 0:
        words, times = words[1:], int(first[1])
    if not words or words[0].is_quoted:
        raise Wrong("a line begins with a word", "Unknown")
    return Line(number, times, words[0].text, words[1:], wanted, "" if has_text else None, is_text_wanted)


def read(path):
    """The rows of a file. A row whose lines can't be read has the exception in place of the line."""
    with open(path, encoding="utf-8", newline="") as it:
        lines = it.read().split("\n")
    if lines[-1]:
        raise Wrong(f"{path}: the last line has no end")
    header = HEADER.fullmatch(lines[0])
    if not header:
        raise Wrong(f"{path}:1: the first line is no 'N rows of SUBJECT'")
    file = File(path, header[3], bool(header[2]), [])
    rest = enumerate(lines[1:-1], 2)
    for number, text in rest:
        if not text or text.startswith("#"):
            continue
        if not text.startswith("  "):
            file.rows.append(Row(number, text, []))
        elif not file.rows:
            raise Wrong(f"{path}:{number}: a line stands before the first row")
        else:
            try:
                line = line_of(number, text)
            except Wrong as wrong:
                line = wrong
                line.number = number
            if text.endswith(" <<"):
                between = text_of(path, number, rest)
                line = line if isinstance(line, Wrong) else line._replace(text=between)
            file.rows[-1].lines.append(line)
    if len(file.rows) != int(header[1]):
        raise Wrong(f"{path}:1: there are {len(file.rows)} rows")
    return file._replace(rows=list(map(named, file.rows))) if file.are_wrong else file


def named(row):
    """A wrong row without its last line, where that names the fault of the row."""
    last = row.lines[-1] if row.lines else None
    if not isinstance(last, Line) or last.verb != "fails":
        return row
    return row._replace(lines=row.lines[:-1], fault=last.wanted)


def text_of(path, number, rest):
    """The text between the marks, each of its lines with its end."""
    text = ""
    for _, line in rest:
        if line == ">>":
            return text
        text += line + "\n"
    raise Wrong(f"{path}:{number}: the text behind this line has no end")


# ---- numbers and bytes


def number_of(word, most=0xFFFF):
    if word.is_quoted or not re.fullmatch("[0-9]+", word.text) or int(word.text) > most:
        raise Wrong(f"a decimal number of at most {most} is wanted: {word.text}", "Number")
    return int(word.text)


def digits_of(word, count):
    if word.is_quoted or not re.fullmatch(f"[0-9A-Fa-f]{{{count}}}", word.text):
        raise Wrong(f"{count} hexadecimal digits are wanted: {word.text}", "Digits")
    return int(word.text, 16)


def address_of(word):
    return digits_of(word, 4)


def escaped(match):
    if match[2]:
        return bytes([int(match[2], 16)])
    if match[1] not in ESCAPED:
        raise Wrong(f"no such escape: {match[0]!r}", "Bytes")
    return ESCAPED[match[1]]


def item_of(word, times):
    if word.is_quoted:
        return times * ESCAPE.sub(escaped, word.text.encode("utf-8"))
    if word.text == "rising":
        return (RISING * (times // len(RISING) + 1))[:times]
    if not re.fullmatch("[0-9A-Fa-f]{2}", word.text):
        raise Wrong(f"a byte has two hexadecimal digits: {word.text}", "Bytes")
    return times * bytes([digits_of(word, 2)])


def bytes_of(words):
    """The bytes that words stand for."""
    data, times = b"", None
    for word in words:
        found = None if word.is_quoted else TIMES.fullmatch(word.text)
        if found and times is not None:
            raise Wrong("a number is repeated", "Bytes")
        if found:
            times, word = int(found[1]), Word(found[2])
            if not word.text:
                continue
        data += item_of(word, 1 if times is None else times)
        times = None
    if times is not None:
        raise Wrong("nothing stands behind a number and an asterisk", "Bytes")
    return data


def filled(words, size):
    """Bytes that begin so, and else are zeros."""
    data = bytes_of(words)
    if len(data) > size:
        raise Wrong(f"these are {len(data)} bytes, for {size}", "Bytes")
    return data.ljust(size, b"\0")


def quoted(data):
    """A text between quotes, with escapes."""
    return '"' + "".join(quoted_byte(byte) for byte in data) + '"'


def quoted_byte(byte):
    known = {13: "\\r", 10: "\\n", 92: "\\\\"}
    if byte in known:
        return known[byte]
    return chr(byte) if 0x20 <= byte < 0x7F and byte != 0x22 else f"\\x{byte:02X}"


def shown_bytes(data):
    """The words for bytes, equal ones in a row once."""
    words, place = [], 0
    while place < len(data):
        end = place
        while end < len(data) and data[end] == data[place]:
            end += 1
        count = end - place
        words.append(f"{count}*{data[place]:02X}" if count > 3 else " ".join(count * [f"{data[place]:02X}"]))
        place = end
    return " ".join(words) if words else '""'


# ---- playing


def some(arguments, least, most=None):
    """The words behind a verb, which must be so many."""
    if not least <= len(arguments) <= (least if most is None else most):
        raise Wrong("the words behind the first one are not those of this line", "Words")
    return arguments


def agrees(answer, line):
    """Whether a line answers what it must. None is the answer of what is done, with nothing to compare."""
    if answer is None:
        return not line.is_expectation
    if not line.is_expectation:
        return not isinstance(answer, Refused)
    if isinstance(answer, (bytes, bytearray)):
        return answer == (line.text.encode("utf-8") if line.is_text_wanted else bytes_of(words_of(line.wanted)))
    return answer == (line.text[:-1] if line.is_text_wanted else line.wanted)


class Outcome(NamedTuple):
    """What came of a row: how many expectations agreed; the verb that isn't played, or None; what disagrees, or None, at which line and by which fault."""

    agreed: int
    not_played: Optional[str] = None
    wrong: Optional[str] = None
    number: int = 0
    fault: Optional[str] = None


AGREES = object()


def done_wrongly(scene, line):
    """Does a line, as often as it says, and gives the answer that isn't what it must be; or AGREES."""
    for _ in range(line.times):
        answer = scene.act(line)
        if not agrees(answer, line):
            return answer
    return AGREES


def play(scene, row):
    """Plays a row until a line isn't played, or disagrees. The lines behind one that isn't played must be of the language all the same."""
    agreed, number, not_played = 0, row.number, None
    try:
        for line in row.lines:
            number = line.number
            if isinstance(line, Wrong):
                raise line
            if not scene.knows(line.verb):
                raise Wrong(f"no line of these rows begins with {line.verb}", "Unknown")
            if not_played:
                continue
            try:
                answer = done_wrongly(scene, line)
            except NotPlayed as verb:
                not_played = str(verb)
                continue
            if answer is not AGREES:
                return Outcome(agreed, None, f"the reading says {told(answer)}, the row {line.shown}", number)
            agreed += line.is_expectation
    except Wrong as wrong:
        return Outcome(agreed, None, str(wrong), number, wrong.fault or "without a name")
    except (AttributeError, IndexError, KeyError, ValueError) as error:
        return Outcome(agreed, None, f"the reading breaks off: {error!r}", number, "of the reading")
    if not agreed and not not_played:
        return Outcome(0, None, "the row expects nothing", number, "NoExpectation")
    return Outcome(agreed, not_played)


def told(answer):
    if answer is None:
        return "nothing"
    if isinstance(answer, (bytes, bytearray)):
        return shown_bytes(answer)
    return f"refused: {answer}" if isinstance(answer, Refused) else answer
