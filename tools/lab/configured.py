"""A session of a configuration (docs/MANUAL.md, section 6), which a class starts from as it stands when it has done its steps."""

import json
import subprocess
import tomllib
from dataclasses import dataclass
from pathlib import Path
from typing import Any, Optional

from refusals import WrongConfiguration

# the files that a session of a configuration reads, and those that it would write: here it writes a saving and its console, elsewhere
READS, WRITES = ("drives", "from", "keys"), ("console", "list", "out", "save")


@dataclass(frozen=True)
class Configured:
    """A configuration, the name of a session in it, and the folder from which the names of its files are taken."""

    path: Path
    session: str
    folder: Path

    def tables(self) -> tuple[dict[str, Any], list[dict[str, Any]]]:
        """What stands before the sessions; and the session, behind the one that it is forked from if it is a fork."""
        try:
            whole = tomllib.loads(self.path.read_text(encoding="utf-8"))
        except (OSError, ValueError) as fault:
            raise WrongConfiguration(f"'configuration' names {self.path}, which can't be read: {fault}") from fault
        listed = whole.pop("session", [])
        sessions = [it for it in listed if isinstance(it, dict)] if isinstance(listed, list) else []
        own = self.named(sessions, self.session)
        if own is None:
            names = ", ".join(str(it.get("name")) for it in sessions)
            raise WrongConfiguration(f"'session' is {self.session!r}, and {self.path} has none of that name: it has {names or 'none at all'}")
        parent = self.named(sessions, own.get("fork"))
        return whole, [it for it in (parent, own) if it is not None]

    @staticmethod
    def named(sessions: list[dict[str, Any]], name: Any) -> Optional[dict[str, Any]]:
        return next((it for it in sessions if name is not None and it.get("name") == name), None)

    def file(self, name: Any) -> Path:
        path = self.folder / str(name)
        if not path.is_file():
            why = f"{self.path} names {str(name)!r}, and there is no such file from {self.folder} on"
            raise WrongConfiguration(f"{why}: make it, or say by 'files' of [start] from which folder on its names are taken")
        return path

    def system(self) -> Optional[Path]:
        """The image of its system drive."""
        name = self.tables()[0].get("system")
        return None if name is None else self.file(name)

    def files(self) -> list[Path]:
        """The files that decide what the session is: the configuration, and what is read for it."""
        named: list[Any] = []
        for table in self.tables()[1]:
            for key in READS:
                value = table.get(key, [])
                named += value if isinstance(value, list) else [value]
        return [self.path, *map(self.file, named)]

    def prepared(self, program: str, scratch: Path) -> tuple[bytes, bytes]:
        """Runs the session as the configuration says, and gives its saving and what it has shown."""
        head, sessions = self.tables()
        for number, table in enumerate(sessions):
            for key in WRITES:
                table.pop(key, None)
            table["console"] = str(scratch / f"configured-{number}.console")
        sessions[-1]["save"] = str(scratch / "configured.sav")
        text = lines_of(head) + "".join("[[session]]\n" + lines_of(it) for it in sessions)
        (scratch / "configured.toml").write_text(text, encoding="utf-8")
        told = subprocess.run([program, "run", str(scratch / "configured.toml")], cwd=self.folder, capture_output=True, text=True, errors="replace")
        if told.returncode:
            raise WrongConfiguration(f"the session {self.session!r} of {self.path} is refused: {told.stderr.strip()}")
        end = told.stdout.splitlines()[-1].split()[1]
        if end != "Running":
            why = f"the session {self.session!r} of {self.path} ends as {end}, so that nobody can go on with it"
            raise WrongConfiguration(f"{why}: give it less 'steps', or other 'keys'")
        return (scratch / "configured.sav").read_bytes(), Path(sessions[-1]["console"]).read_bytes()


def lines_of(table: dict[str, Any]) -> str:
    """The lines of a table of TOML, whose texts, numbers and lists are written as those of JSON are."""
    return "".join(f"{json.dumps(key)} = {json.dumps(value, ensure_ascii=False, default=str)}\n" for key, value in table.items())
