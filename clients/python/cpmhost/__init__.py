"""Sessions of CP/M 2.2, driven from a program over `cpmhost serve`.

    with Host(folder="disks") as host, host.open(drives=["work.img"]) as session:
        session.expect("A>")
        session.type("DIR\\r")
        session.expect("HELLO    TXT")

The protocol stands in docs/PROTOCOL.md. Bytes are texts whose characters are U+0000 to U+00FF: `text_of` and `bytes_of` go to and fro.
"""

from . import faults
from .aio import AsyncDrive, AsyncHost, AsyncSession
from .faults import *  # noqa: F401,F403
from .host import Drive, Host, Session
from .wire import Granted, Look, Turn, bytes_of, text_of

__all__ = ["AsyncDrive", "AsyncHost", "AsyncSession", "Drive", "Granted", "Host", "Look", "Session", "Turn", "bytes_of", "text_of"]
__all__ += [name for name, it in vars(faults).items() if isinstance(it, type) and issubclass(it, faults.CpmhostError)]
