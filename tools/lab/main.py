"""tools/lab/run lab.toml: reads the class, and serves it."""

import argparse
import sys
from pathlib import Path

from config import read_lab
from links import Links, table
from refusals import LabRefused, WrongConfiguration

# (the statuses of sysexits.h)
WRONG, REFUSED, DEVICE, LOST = 78, 69, 74, 75


def main() -> int:
    words = argparse.ArgumentParser(prog="tools/lab/run", description="Serves a class at its terminals: docs/LAB.md")
    words.add_argument("lab", help="the lab.toml of the class")
    words.add_argument("--links", action="store_true", help="print the links, and end")
    words.add_argument("--no-links", action="store_true", help="print the address alone, as where a log keeps what is printed")
    words.add_argument("--standby", action="store_true", help="wait until no other machine has the class, and go on with it then")
    given = words.parse_args()
    try:
        lab = read_lab(Path(given.lab))
        if given.links:
            lab.folder.mkdir(mode=0o700, parents=True, exist_ok=True)
            print(table(lab, Links(lab.folder, lab.students)))
            return 0
        # (what takes its time is imported once the class is right)
        import asyncio

        from service import serve

        asyncio.run(serve(lab, given.standby, not given.no_links))
    except WrongConfiguration as fault:
        print(f"lab: {fault}", file=sys.stderr)
        return WRONG
    except LabRefused as fault:
        print(f"lab: {fault}", file=sys.stderr)
        return LOST if fault.word == "LostClass" else REFUSED
    except OSError as fault:
        print(f"lab: DeviceFault: {fault}: nothing that was shown is lost; see to the device, and start the lab again", file=sys.stderr)
        return DEVICE
    return 0


if __name__ == "__main__":
    sys.exit(main())
