"""The links: a secret of 128 bits for each student and for the lecturer, kept in the lab's folder for its owner alone."""

import hmac
import json
import os
import secrets
from pathlib import Path
from typing import Iterable, Optional

from config import Lab
from refusals import WrongConfiguration

LECTURER = "lecturer"
FILE = "secrets.json"


class Links:
    """The secrets by name of who has them; a student's name stands behind `student:`."""

    def __init__(self, folder: Path, students: Iterable[str]) -> None:
        self.path = folder / FILE
        self.secrets = self.read()
        wanted = [LECTURER, *[f"student:{name}" for name in students]]
        missing = [who for who in wanted if who not in self.secrets]
        self.secrets.update({who: secrets.token_urlsafe(16) for who in missing})
        if missing:
            self.write()
        self.wanted = wanted

    def read(self) -> dict[str, str]:
        try:
            os.chmod(self.path, 0o600)
            found = json.loads(self.path.read_text(encoding="utf-8"))
        except FileNotFoundError:
            return {}
        except (OSError, ValueError) as fault:
            raise WrongConfiguration(f"{self.path} can't be read ({fault}): restore it, or remove it to have new links") from fault
        if not isinstance(found, dict) or not all(isinstance(it, str) and len(it) >= 22 for it in found.values()):
            raise WrongConfiguration(f"{self.path} has no links: restore it, or remove it to have new links")
        return found

    def write(self) -> None:
        new = self.path.with_suffix(".new")
        file = os.open(new, os.O_WRONLY | os.O_CREAT | os.O_TRUNC, 0o600)
        with open(file, "w", encoding="utf-8") as out:
            json.dump(self.secrets, out, indent=1)
            out.flush()
            os.fsync(out.fileno())
        os.rename(new, self.path)

    def owner(self, secret: str) -> Optional[str]:
        """Whose a secret is. All are compared, each in a time that doesn't depend on where they differ."""
        given, found = secret.encode("utf-8", "replace"), None
        for who in self.wanted:
            if hmac.compare_digest(self.secrets[who].encode(), given):
                found = who
        return found

    def path_of(self, who: str) -> str:
        return f"/{'l' if who == LECTURER else 's'}/{self.secrets[who]}/"


def table(lab: Lab, links: Links) -> str:
    """A line with the address, and the links."""
    address = lab.address_of_pages()
    rows = [("(lecturer)", links.path_of(LECTURER)), *[(name, links.path_of(f"student:{name}")) for name in lab.students]]
    width = max(len(name) for name, _ in rows)
    return "\n".join([f"{lab.name} is at {address}", "", *[f"{name:{width}}  {address}{path}" for name, path in rows], ""])
