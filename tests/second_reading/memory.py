"""The memory at a session's opening, with the tables of the disks."""

from .disk import LARGE, P, SKEW, SMALL

# the formats in the order of their tables in memory, which lie 16 bytes apart
TABLES = (SMALL, LARGE)


def memory_at_opening():
    memory = bytearray(65536)
    memory[0:3] = b"\xc3\x03\xfa"
    memory[5:8] = b"\xc3\x06\xec"
    for at in (0x5C, 0x6C):
        memory[at : at + 12] = b"\0" + 11 * b" "
    for number in range(17):
        memory[0xFA00 + 3 * number : 0xFA03 + 3 * number] = bytes([0xC3, number, 0xFB])
    memory[0xFC00:0xFC1A] = bytes(SKEW)
    for number, form in enumerate(TABLES):
        at = 0xFC20 + 16 * number
        memory[at : at + 15] = form.block
        for place in range(5):
            words = [form.table, 0, 0, 0, 0xFD00, at, 0xFF40 + 16 * place, 0xFE00 + 64 * place]
            header = b"".join(word.to_bytes(2, "little") for word in words)
            start = 0xFC40 + 32 * place + 16 * number
            memory[start : start + 16] = header
    return memory


def place_of(drive):
    """Where the tables of a drive lie among those of all: A to D, and P."""
    return 4 if drive == P else drive


def parameters_at(form):
    """Where the parameter block of a format lies."""
    return 0xFC20 + 16 * TABLES.index(form)


def header_at(drive, form):
    """Where the parameter header of a drive lies, by the format of its disk."""
    return 0xFC40 + 32 * place_of(drive) + 16 * TABLES.index(form)
