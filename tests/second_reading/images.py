"""Images by their names, as rows make them and look at them."""

from .disk import LARGE, SMALL, Disk
from .rows import NotPlayed, Refused, Wrong, filled, number_of, some

BLANKS = {"blank": SMALL, "blank-large": LARGE}
ENTRY = 32
RECORD = 128
MISSING = Refused("NoSuchSector")


def blank(form=SMALL):
    return bytearray(b"\xe5") * form.size


class Images:
    """The images of a row: its verbs, which scenes with disks have too."""

    def __init__(self):
        self.named = {}
        self.verbs = {"image": self.image, "entry": self.entry, "record": self.record, "records": self.records, "sector": self.sector}

    def get(self, word):
        if word.text not in self.named:
            raise Wrong(f"there is no image {word.text}", "Absent")
        return self.named[word.text]

    def copy(self, word):
        if word.text in BLANKS and word.text not in self.named:
            return blank(BLANKS[word.text])
        return bytearray(self.get(word).image)

    def copies(self, words):
        return [self.copy(word) for word in words]

    def put(self, word, image):
        self.named[word.text] = Disk(image)

    def look(self, word):
        """An image that is looked at alone."""
        return Disk(self.copy(word)) if word.text in BLANKS and word.text not in self.named else self.get(word)

    def image(self, arguments):
        name, other = some(arguments, 2)
        self.put(name, self.copy(other))

    def entry(self, arguments):
        name, number, *given = some(arguments, 2, len(arguments))
        disk, number = self.get(name), number_of(number)
        there(disk, number // 4)
        if not given:
            return bytes(disk.entry(number))
        return disk.put_entry(number, filled(given, ENTRY))

    def record(self, arguments):
        name, number, *given = some(arguments, 2, len(arguments))
        disk, number = self.get(name), number_of(number)
        if number >= disk.format.records:
            return MISSING
        if not given:
            return disk.read(number)
        return disk.write(number, filled(given, RECORD))

    def records(self, arguments):
        """So many records from this one on."""
        name, first, count, *given = some(arguments, 4, len(arguments))
        disk, first, count = self.get(name), number_of(first), number_of(count)
        there(disk, first + max(count, 1) - 1)
        for number in range(first, first + count):
            disk.write(number, filled(given, RECORD))

    def sector(self, arguments):
        name, track, sector, *given = some(arguments, 3, len(arguments))
        disk = self.get(name)
        at = disk.sector_at(number_of(track), number_of(sector))
        if at is None:
            return MISSING
        if not given:
            return bytes(disk.image[at : at + RECORD])
        disk.image[at : at + RECORD] = filled(given, RECORD)
        return None


def there(disk, record):
    if record >= disk.format.records:
        raise NotPlayed("record that isn't there")
