"""lab.toml: what is read of it, and what is refused. docs/LAB.md has a table of its entries."""

import os
import re
import shutil
import sys
import tomllib
from dataclasses import dataclass, fields
from pathlib import Path
from typing import Any, Mapping, Optional

from configured import Configured
from refusals import WrongConfiguration

TOP = Path(__file__).resolve().parents[2]
# (the client of the repository is what hosts are asked by)
sys.path.insert(0, str(TOP / "clients" / "python"))
TERMINALS = "vt100", "adm3a", "kaypro", "televideo", "vt52", "dumb"
BLANKS = "blank", "blank-large"
MOST_STUDENTS, MOST_NAME = 512, 60
LOOPBACK = "127.0.0.1", "::1", "localhost"
WILD = "0.0.0.0", "::"


@dataclass(frozen=True)
class Start:
    """What a session starts from: a saved session, one of a configuration, or drives and a processor."""

    configured: Optional[Configured]
    saved: Optional[Path]
    shown: Optional[Path]
    cpu: str
    quota: int
    drives: tuple[str, ...]
    system: Optional[Path]


@dataclass(frozen=True)
class Limits:
    """How much a session, a page and the service may take, each with its most."""

    steps: int = 10_000_000_000
    console: int = 16 << 20
    list: int = 4 << 20
    paste: int = 16384
    resets: int = 200
    kept: int = 64 << 20
    windows: int = 4
    connections: int = 1024
    redone: int = 40_000_000

    MOST = {
        "steps": 1 << 53, "console": 1 << 30, "list": 1 << 28, "paste": 1 << 16, "resets": 10_000, "kept": 1 << 40, "windows": 64, "connections": 65536,
        "redone": 1 << 40,
    }  # fmt: skip


@dataclass(frozen=True)
class Lab:
    """A class, as lab.toml has it."""

    name: str
    folder: Path
    address: str
    port: int
    origins: tuple[str, ...]
    prefix: str
    students: tuple[str, ...]
    terminal: str
    arrows: str
    pace: int
    leave: str
    start: Start
    limits: Limits
    program: str

    def address_of_pages(self) -> str:
        """How the pages are reached."""
        host = f"[{self.address}]" if ":" in self.address else self.address
        return (self.origins[0] if self.origins else f"http://{host}:{self.port}") + self.prefix

    def allowed_origins(self) -> frozenset[str]:
        """The origins of the service's own pages: where it is bound, and those of `origins`."""
        hosts = {"127.0.0.1", "localhost", "[::1]"} if self.address in LOOPBACK else set()
        if self.address not in WILD:
            hosts.add(f"[{self.address}]" if ":" in self.address else self.address)
        return frozenset(f"http://{host}:{self.port}" for host in hosts) | frozenset(self.origins)


class Table:
    """A table of lab.toml, of which each entry is taken once; what is left over at the end is unknown."""

    def __init__(self, table: Mapping[str, Any], where: str) -> None:
        self.left, self.where = dict(table), where
        self.known: list[str] = []

    def take(self, key: str, kind: type, usual: Any, wanted: str) -> Any:
        self.known.append(key)
        if key not in self.left:
            if usual is ...:
                raise WrongConfiguration(f"{self.where} has no entry '{key}': write {key} = {wanted}")
            return usual
        value = self.left.pop(key)
        # (True is an int to Python, and none to whoever writes it)
        if not isinstance(value, kind) or (isinstance(value, bool) and kind is not bool):
            raise WrongConfiguration(f"'{key}' of {self.where} is {value!r}: it must be {wanted}")
        return value

    def number(self, key: str, usual: Any, least: int, most: int) -> int:
        wanted = f"a whole number from {least} to {most}"
        value: int = self.take(key, int, usual, wanted)
        if not least <= value <= most:
            raise WrongConfiguration(f"'{key}' of {self.where} is {value}: it must be {wanted}")
        return value

    def word(self, key: str, usual: Any, words: tuple[str, ...]) -> str:
        wanted = " or ".join(f'"{word}"' for word in words)
        value: str = self.take(key, str, usual, wanted)
        if value not in words:
            raise WrongConfiguration(f"'{key}' of {self.where} is {value!r}: it must be {wanted}")
        return value

    def end(self) -> None:
        for key in self.left:
            raise WrongConfiguration(f"{self.where} has an entry '{key}', which is none: it may have {', '.join(self.known)}")


def is_name(text: str) -> bool:
    return 0 < len(text) <= MOST_NAME and text.isprintable() and text.strip() == text


def students_of(table: Table) -> tuple[str, ...]:
    given = table.take("students", (int, list), ..., '["Ada", "Ben"], or their number')  # type: ignore[arg-type]
    if isinstance(given, int):
        if not 1 <= given <= MOST_STUDENTS:
            raise WrongConfiguration(f"'students' is {given}: it must be names, or a number from 1 to {MOST_STUDENTS}")
        return tuple(f"Student {number}" for number in range(1, given + 1))
    for name in given:
        if not isinstance(name, str) or not is_name(name):
            raise WrongConfiguration(f"'students' has {name!r}: a name has 1 to {MOST_NAME} printable characters, and no space before or behind them")
    for name in given:
        if given.count(name) > 1:
            raise WrongConfiguration(f"'students' has {name!r} twice: give one of them another name, as {name + ' 2'!r}")
    if not 1 <= len(given) <= MOST_STUDENTS:
        raise WrongConfiguration(f"'students' has {len(given)} names: it must have 1 to {MOST_STUDENTS}")
    return tuple(given)


def file_named(name: str, entry: str, beside: Path) -> Path:
    path = beside / name
    if not path.is_file():
        raise WrongConfiguration(f"'{entry}' names {name!r}, and there is no such file beside lab.toml ({path}): correct the name, or make the file")
    return path


def configured_of(table: Table, beside: Path) -> Start:
    """A start from a session of a configuration."""
    named = table.take("configuration", str, ..., 'the name of a configuration, as "class.toml"')
    session = table.take("session", str, ..., 'the name of a session of that configuration, as "class"')
    folder = beside / table.take("files", str, ".", "the name of the folder from which the configuration's names of files are taken")
    for key in ("from", "shown", "cpu", "quota", "drives", "system"):
        if key in table.left:
            raise WrongConfiguration(f"[start] has 'configuration' and '{key}': a configuration's session has its own, so remove one of them")
    table.end()
    it = Configured(file_named(named, "configuration", beside), session, folder.resolve())
    it.files()
    return Start(it, None, None, "8080", 64, (), it.system())


def start_of(given: Mapping[str, Any], beside: Path) -> Start:
    table = Table(given, "the table [start]")
    if "configuration" in given:
        return configured_of(table, beside)
    saved = table.take("from", str, None, 'the name of a saved session, as "ready.sav"')
    system = table.take("system", str, None, "the name of an image")
    image = None if system is None else file_named(system, "system", beside)
    text = table.take("shown", str, None, "the name of a file with what the saved session has shown")
    if text is not None and saved is None:
        raise WrongConfiguration("[start] has 'shown' and no 'from': a new session has shown nothing, so remove it")
    shown = None if text is None else file_named(text, "shown", beside)
    if saved is not None:
        table.known += ["configuration", "cpu", "quota", "drives"]
        for key in ("cpu", "quota", "drives"):
            if key in table.left:
                raise WrongConfiguration(f"[start] has 'from' and '{key}': a saved session has its own, so remove one of them")
        table.end()
        return Start(None, file_named(saved, "from", beside), shown, "8080", 64, (), image)
    cpu = table.word("cpu", "8080", ("8080", "z80"))
    quota = table.number("quota", 64, 16, 256)
    drives = table.take("drives", list, ["blank"], 'a list of images, as ["work.img", "blank"]')
    if not 1 <= len(drives) <= 4 or not all(isinstance(it, str) for it in drives):
        raise WrongConfiguration(f"'drives' of [start] is {drives!r}: it must be a list of 1 to 4 names of images, \"blank\" or \"blank-large\"")
    table.end()
    return Start(None, None, None, cpu, quota, tuple(it if it in BLANKS else str(file_named(it, "drives", beside)) for it in drives), image)


def limits_of(given: Mapping[str, Any]) -> Limits:
    table = Table(given, "the table [limits]")
    limits = Limits(**{it.name: table.number(it.name, it.default, 1, Limits.MOST[it.name]) for it in fields(Limits)})
    table.end()
    return limits


def origins_of(table: Table, address: str) -> tuple[str, ...]:
    origins = table.take("origins", list, [], 'a list of origins, as ["https://lab.example.org"]')
    for it in origins:
        if not isinstance(it, str) or not re.fullmatch(r"https?://[a-z0-9.\-\[\]:]+", it):
            raise WrongConfiguration(f"'origins' has {it!r}: an origin is a scheme and a host in small letters, without a path, as \"https://lab.example.org\"")
    if address in WILD and not origins:
        raise WrongConfiguration(f"'address' is {address!r}, so 'origins' must say how pages are reached, as [\"https://lab.example.org\"]")
    return tuple(origins)


def prefix_of(table: Table) -> str:
    prefix = table.take("prefix", str, "", 'a text, as "/room1"')
    if not re.fullmatch(r"(/[a-z0-9-]{1,40})?", prefix):
        raise WrongConfiguration(f"'prefix' is {prefix!r}: it must be a slash with small letters, digits and hyphens behind it, as \"/room1\"")
    return str(prefix)


def program_of(given: Optional[str]) -> str:
    """The program that serves: the one of the variable CPMHOST, else the repository's."""
    named = given or os.environ.get("CPMHOST")
    for it in [named] if named else [str(TOP / "out" / "cpmhost"), str(TOP / "release" / "cpmhost"), "cpmhost"]:
        found = shutil.which(it)
        if found:
            return os.path.realpath(found)
    raise WrongConfiguration(f"there is no program {named or 'release/cpmhost'}: name it by the variable CPMHOST")


def lab_of(text: str, path: Path) -> Lab:
    """What lab.toml says; the files that it names lie beside it."""
    beside = path.resolve().parent
    try:
        whole = tomllib.loads(text)
    except tomllib.TOMLDecodeError as fault:
        raise WrongConfiguration(f"{path} is no TOML: {fault}") from fault
    table = Table(whole, str(path))
    name = table.take("name", str, path.stem, "a text")
    if not is_name(name):
        raise WrongConfiguration(f"'name' is {name!r}: it must have 1 to {MOST_NAME} printable characters")
    address = table.take("address", str, "127.0.0.1", "an address, as \"127.0.0.1\"")
    lab = Lab(
        name=name,
        folder=beside / table.take("folder", str, f"{path.stem}.lab", "the name of a folder"),
        address=address,
        port=table.number("port", 8080, 0, 65535),
        origins=origins_of(table, address),
        prefix=prefix_of(table),
        students=students_of(table),
        terminal=table.word("terminal", "vt100", TERMINALS),
        arrows=table.word("arrows", "own", ("own", "wordstar")),
        pace=table.number("pace", 500, 1, 1_000_000),
        leave=table.word("leave", "asked", ("asked", "given")),
        start=start_of(table.take("start", dict, {}, "a table"), beside),
        limits=limits_of(table.take("limits", dict, {}, "a table")),
        program=program_of(None),
    )
    table.end()
    return lab


def read_lab(path: Path) -> Lab:
    try:
        text = path.read_text(encoding="utf-8")
    except (OSError, UnicodeDecodeError) as fault:
        raise WrongConfiguration(f"can't read {path}: {fault}: give the name of a lab.toml") from fault
    return lab_of(text, path)
