"""Random programs' outputs for each terminal: text, control characters, sequences with small and absurd numbers, sequences that are cut off, any bytes."""

ROWS, COLUMNS = 24, 80
ESC = b"\x1b"


def numbers(dice, most):
    """Numbers of a control sequence: mostly small ones, some odd."""

    def number():
        kind = dice.random()
        if kind < 0.1:
            return ""
        if kind < 0.15:
            return str(dice.choice([0, 1, 24, 25, 80, 81, 132, 255, 256, 999, 65536, 10**40 - 1]))
        if kind < 0.17:
            return "0" * dice.randrange(50) + str(dice.randrange(30))
        return str(dice.randrange(most))

    return ";".join(number() for _ in range(dice.choice([0, 1, 1, 1, 2, 2, 2, 3, 17])))


def place(dice):
    """The bytes of a row and a column, mostly on the screen."""
    if dice.random() < 0.1:
        return bytes([dice.randrange(256), dice.randrange(256)])
    return bytes([0x20 + dice.randrange(ROWS + 1), 0x20 + dice.randrange(COLUMNS + 1)])


def text(dice):
    """Some text, sometimes longer than a line."""
    count = dice.choice([1, 3, 10, 30, 30, 90])
    return bytes(dice.randrange(0x20, 0x7F) if dice.random() < 0.8 else 0x20 for _ in range(count))


def a3_sequence(dice):
    return ESC + b"=" + place(dice) if dice.random() < 0.8 else ESC + dice.randbytes(1)


def kaypro_sequence(dice):
    places = [b"=" + place(dice), b"=" + place(dice), b"*" + place(dice), b"L" + place(dice) * 2]
    return ESC + dice.choice([*places, b"B%d" % dice.randrange(9), b"C%d" % dice.randrange(9), b"E", b"R"])


def televideo_sequence(dice):
    return ESC + dice.choice(
        [b"=" + place(dice), b"=" + place(dice), b"-0" + place(dice), b"G" + dice.randbytes(1), b"(", b")", dice.choice(b"*+,:;".split()), b"1", b"2", b"3"]
        + [bytes([letter]) for letter in b"ERQWTtYyjqr"]
        + [b".1", b"DF", b"f" + text(dice) + b"\r"]
    )


def vt52_sequence(dice):
    return ESC + dice.choice([b"Y" + place(dice)] * 3 + [bytes([letter]) for letter in b"ABCDHIJKFGZ=>"])


def control(dice, finals, private=""):
    return ESC + f"[{private}{numbers(dice, 90)}{dice.choice(finals)}".encode()


def vt100_sequence(dice):
    kind = dice.random()
    if kind < 0.25:
        return ESC + b"[%d;%dH" % (dice.randrange(ROWS + 2), dice.randrange(COLUMNS + 2))
    if kind < 0.6:
        return control(dice, "ABCDHJKLMPfgm")
    if kind < 0.7:
        return ESC + b"[" + ";".join(str(dice.choice([0, 1, 4, 5, 7, 22, 24, 25, 27])) for _ in range(dice.randrange(4))).encode() + b"m"
    if kind < 0.75:
        return ESC + b"[%d;%dr" % (dice.randrange(ROWS), dice.randrange(ROWS + 3))
    if kind < 0.8:
        return ESC + b"[" + dice.choice([b"4", b"?6", b"?7", b"?6;7"]) + dice.choice([b"h", b"l"])
    if kind < 0.95:
        return ESC + dice.choice([b"D", b"E", b"M", b"H", b"7", b"8", b"(0", b"(B", b")0", b")B", b"\x0e", b"\x0f", b"#8", b"c"])
    return control(dice, "ABCcnqx@XShl", dice.choice(["", "?", ">", "="]))


SEQUENCES = {"adm3a": a3_sequence, "kaypro": kaypro_sequence, "televideo": televideo_sequence, "vt52": vt52_sequence, "vt100": vt100_sequence}


def output(dice, terminal):
    """What a random program shows."""
    parts = []
    for _ in range(dice.choice([1, 3, 10, 30, 100, 100])):
        kind = dice.random()
        if kind < 0.4:
            part = text(dice)
        elif kind < 0.55:
            part = dice.choice([b"\r\n", b"\r", b"\n", b"\n\n\n", b"\x08", b"\t", b"\x0b", b"\x0c"])
        elif kind < 0.6:
            part = bytes([dice.randrange(0x20)])
        elif kind < 0.63:
            part = dice.randbytes(dice.randrange(1, 6))
        else:
            part = SEQUENCES[terminal](dice)
            if dice.random() < 0.05:
                part = part[: dice.randrange(len(part))]
        parts.append(part)
    return b"".join(parts)
