"""A slow reading of what the ADM-3A, the Kaypro, the TeleVideo and the VT52 show, for tests/screens.

It is written from the tables of their manuals and from docs/DECISIONS.md. It shares no code with the program: a screen is a list of characters, and each
terminal a table of what its control characters and sequences do. Its writer had read the definitions of `cpm_screen`.
"""

PLAIN = frozenset()


class Screen:
    """A screen of one of these terminals."""

    def __init__(self, terminal, rows=24, columns=80):
        self.controls, self.escapes = TABLES[terminal]
        self.terminal, self.rows, self.columns = terminal, rows, columns
        self.row = self.column = 0
        self.look, self.remembered = PLAIN, (0, 0, PLAIN)
        self.inserts = False
        self.stops = set(range(0, 132, 8))
        self.waits = None
        self.clear()

    def blank(self):
        return [(" ", PLAIN)] * self.columns

    def show(self, data):
        """Shows bytes: `waits` is what the next one is given to, where a sequence has begun."""
        for byte in data:
            waits, self.waits = self.waits, None
            if waits:
                waits(self, byte)
            elif byte >= 0x20 and byte != 0x7F:
                self.put(chr(byte) if byte < 0x7F else "?")
            elif byte in self.controls:
                self.controls[byte](self)

    def put(self, character):
        line = self.cells[self.row]
        if self.inserts:
            line.insert(self.column, None)
            line.pop()
        line[self.column] = (character, self.look)
        if self.column + 1 < self.columns:
            self.column += 1
        elif self.terminal != "vt52":
            self.column = 0
            self.feed()

    # ---- what controls and sequences do

    def clear(self):
        self.cells = [self.blank() for _ in range(self.rows)]
        self.home()

    def home(self):
        self.row = self.column = 0

    def left(self):
        self.column = max(0, self.column - 1)

    def right(self):
        self.column = min(self.columns - 1, self.column + 1)

    def up(self):
        self.row = max(0, self.row - 1)

    def down(self):
        self.row = min(self.rows - 1, self.row + 1)

    def start(self):
        self.column = 0

    def feed(self):
        if self.row == self.rows - 1:
            self.cells = [*self.cells[1:], self.blank()]
        else:
            self.row += 1

    def feed_back(self):
        if self.row == 0:
            self.cells = [self.blank(), *self.cells[:-1]]
        else:
            self.row -= 1

    def next_line(self):
        self.start()
        self.feed()

    def tab(self):
        self.column = min([stop for stop in self.stops if stop > self.column] + [self.columns - 1])
        self.column = min(self.column, self.columns - 1)

    def fixed_tab(self):
        following = [stop for stop in range(0, self.columns, 8) if stop > self.column]
        self.column = following[0] if following else min(self.columns - 1, self.column + 1)

    def erase_line(self):
        self.cells[self.row][self.column :] = self.blank()[self.column :]

    def erase_page(self):
        self.erase_line()
        self.cells[self.row + 1 :] = [self.blank() for _ in self.cells[self.row + 1 :]]

    def insert_line(self):
        self.cells.insert(self.row, self.blank())
        self.cells.pop()

    def delete_line(self):
        self.cells.pop(self.row)
        self.cells.append(self.blank())

    def insert_character(self):
        self.cells[self.row].insert(self.column, (" ", PLAIN))
        self.cells[self.row].pop()

    def delete_character(self):
        self.cells[self.row].pop(self.column)
        self.cells[self.row].append((" ", PLAIN))

    def set_look(self, name, is_on):
        self.look = self.look | {name} if is_on else self.look - {name}

    def televideo_look(self, byte):
        self.look = frozenset(name for name, bit in (("blink", 2), ("reverse", 4), ("underline", 8)) if byte & bit)

    def kaypro_look(self, byte, is_on):
        name = {0x30: "reverse", 0x31: "bold", 0x32: "blink", 0x33: "underline"}.get(byte)
        if name:
            self.set_look(name, is_on)
        elif byte == 0x36 and is_on:
            self.remembered = self.row, self.column, self.look
        elif byte == 0x36:
            self.row, self.column, self.look = self.remembered

    # ---- sequences of more bytes

    def escape(self, byte):
        if byte == 0x1B and self.terminal == "vt52":
            self.waits = Screen.escape
        elif byte in self.escapes:
            self.escapes[byte](self)

    def begin(self):
        self.waits = Screen.escape

    def place_row(self, byte):
        def place_column(screen, column):
            if 0 <= byte - 0x20 < screen.rows:
                screen.row = byte - 0x20
            if 0 <= column - 0x20 < screen.columns:
                screen.column = column - 0x20
            elif screen.terminal == "vt52":
                screen.column = screen.columns - 1

        self.waits = place_column

    def next_is(self, what):
        self.waits = what

    def skip(self, count):
        """So many bytes show nothing."""
        if count:
            self.waits = lambda screen, _: screen.skip(count - 1)

    def skip_to(self, last):
        """Bytes show nothing up to one."""

        def skipped(screen, byte):
            if byte != last:
                screen.waits = skipped

        self.waits = skipped


def wants(what):
    """The next byte is for this."""
    return lambda screen: screen.next_is(what)


def skips(count):
    return lambda screen: screen.skip(count)


def by_letters(table):
    return {ord(letter): what for letters, what in table.items() for letter in letters}


MOVES = {0x08: Screen.left, 0x0A: Screen.feed, 0x0D: Screen.start, 0x1B: Screen.begin}
ADM3A = {**MOVES, 0x0B: Screen.up, 0x0C: Screen.right, 0x1A: Screen.clear, 0x1E: Screen.home}
PLACE = {"=": wants(Screen.place_row)}
TABLES = {
    "adm3a": (ADM3A, by_letters(PLACE)),
    "kaypro": (
        {**ADM3A, 0x17: Screen.erase_page, 0x18: Screen.erase_line},
        by_letters(
            {
                **PLACE,
                "E": Screen.insert_line,
                "R": Screen.delete_line,
                "B": wants(lambda screen, byte: screen.kaypro_look(byte, True)),
                "C": wants(lambda screen, byte: screen.kaypro_look(byte, False)),
                " *": skips(2),
                "DL": skips(4),
            }
        ),
    ),
    "televideo": (
        {**ADM3A, 0x09: Screen.tab, 0x16: Screen.down, 0x1F: Screen.next_line},
        by_letters(
            {
                **PLACE,
                "-": wants(lambda screen, _: screen.next_is(Screen.place_row)),
                "E": Screen.insert_line,
                "R": Screen.delete_line,
                "Q": Screen.insert_character,
                "W": Screen.delete_character,
                "Tt": Screen.erase_line,
                "Yy": Screen.erase_page,
                "*+,:;": Screen.clear,
                "j": Screen.feed_back,
                "1": lambda screen: screen.stops.add(screen.column),
                "2": lambda screen: screen.stops.discard(screen.column),
                "3": lambda screen: screen.stops.clear(),
                "G": wants(Screen.televideo_look),
                "(": lambda screen: screen.set_look("bold", False),
                ")": lambda screen: screen.set_look("bold", True),
                "q": lambda screen: setattr(screen, "inserts", True),
                "r": lambda screen: setattr(screen, "inserts", False),
                ".D": skips(1),
                "0": skips(2),
                "x": skips(3),
                "f": lambda screen: screen.skip_to(0x0D),
                "|": lambda screen: screen.skip_to(0x19),
            }
        ),
    ),
    "vt52": (
        {**MOVES, 0x09: Screen.fixed_tab},
        by_letters(
            {
                "Y": wants(Screen.place_row),
                "A": Screen.up,
                "B": Screen.down,
                "C": Screen.right,
                "D": Screen.left,
                "H": Screen.home,
                "I": Screen.feed_back,
                "J": Screen.erase_page,
                "K": Screen.erase_line,
            }
        ),
    ),
}


def screen_after(terminal, data):
    """The cells and the cursor after these bytes."""
    screen = Screen(terminal)
    screen.show(data)
    return screen.cells, (screen.row, screen.column)
