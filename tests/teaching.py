"""What the tests of the lab share: what it needs, a class that runs, and pages as far as the service sees them."""

import asyncio
import atexit
import contextlib
import json
import os
import re
import shutil
import signal
import socket
import subprocess
import sys
import time

from lib import CPMHOST, ROOT, check, did, read, run, skip, until, write, wrong

try:
    import aiohttp
    import tomllib  # noqa: F401 (which tells Python 3.11)
except ImportError:
    aiohttp = None

RUN = f"{ROOT}/tools/lab/run"
OTHER_PYTHON = "/usr/bin/python3"
ENVIRONMENT = {**os.environ, "PYTHON": sys.executable, "CPMHOST": CPMHOST}
# how soon a class is back that was killed, and how soon a key is echoed beside a page that reads nothing, in seconds; later where the machine has more to do
# than it can
SLOWER = 1 if os.getloadavg()[0] <= 1.5 * (os.cpu_count() or 1) else 4
BACK_WITHIN, ECHO_WITHIN = 2.0 * SLOWER, 0.1 * SLOWER
LAB = """\
name = "Beginners"
students = ["Ada", "Ben", "<img src=x onerror=alert(1)>"]
port = 0
pace = 2000
{more}
[start]
system = "system.img"
drives = ["work.img", "blank"]
[limits]
paste = 8192
connections = 64
{limits}
"""


# ---- what it needs


def is_missing(*commands):
    """Says that nothing is tested, where something is missing. Where another Python has aiohttp, that one runs the script."""
    if aiohttp is None:
        if sys.executable != OTHER_PYTHON and subprocess.run([OTHER_PYTHON, "-c", "import tomllib, aiohttp"], capture_output=True).returncode == 0:
            os.execv(OTHER_PYTHON, [OTHER_PYTHON, *sys.argv])
        return skips("no Python 3.11 with aiohttp is here (python3-aiohttp)")
    if not os.path.exists("/usr/share/nodejs/xterm/lib/public/Terminal.js"):
        return skips("there is no xterm.js here (node-xterm)")
    for it in commands:
        if not shutil.which(it):
            return skips(f"there is no {it} here")
    if not until(lambda: run("serve", given=b"").status == 0):
        return skips(f"{CPMHOST} has no command serve")
    return False


def skips(why):
    skip("the lab", why)
    return True


# ---- a class that runs


def free_port():
    with socket.socket() as free:
        free.bind(("127.0.0.1", 0))
        return free.getsockname()[1]


class Class:
    """The service, and its links."""

    file = "lab.toml"

    def __init__(self, more="", limits="", start=None, lab=LAB):
        self.port = free_port()
        text = lab if start is None else lab.replace('drives = ["work.img", "blank"]', start)
        write("lab.toml", text.replace("port = 0", f"port = {self.port}").format(more=more, limits=limits).encode())
        self.start()

    @classmethod
    def at(cls, path, port):
        """The class of a file that is there."""
        of = cls.__new__(cls)
        of.file, of.port = path, port
        of.start()
        return of

    def start(self):
        self.hear(subprocess.Popen([RUN, self.file], stdout=subprocess.PIPE, stderr=open("told", "ab"), env=ENVIRONMENT))

    def hear(self, process):
        """Reads what a service prints that has begun."""
        self.process = process
        atexit.register(lambda: process.poll() is None and process.terminate())
        self.links = {}
        self.head, _ = self.process.stdout.readline().decode(), self.process.stdout.readline()
        while line := self.process.stdout.readline().decode().rstrip("\n"):
            name, address = line.rsplit("  ", 1)
            self.links[name.strip()] = address
        if not self.head:
            sys.exit(f"{self.process.wait()}: {read('told').decode()}")
        self.origin = re.search(r"https?://[^/\s]+", self.head)[0]

    def end(self):
        self.process.send_signal(signal.SIGTERM)
        status = self.process.wait(timeout=20)
        self.process.stdout.close()
        check(status == 143, f"the class ends with {status}")

    def pids(self, what):
        """The processes below the launcher of this class: its service ("main.py"), or its hosts ("serve")."""
        parents = {}
        for entry in filter(str.isdigit, os.listdir("/proc")):
            with contextlib.suppress(OSError):
                parents.setdefault(int(read(f"/proc/{entry}/stat").rsplit(b")", 1)[1].split()[1]), []).append((int(entry), read(f"/proc/{entry}/cmdline")))
        services = [(pid, words) for pid, words in parents.get(self.process.pid, []) if b"main.py" in words]
        below = [it for pid, _ in services for it in parents.get(pid, [])]
        return [pid for pid, words in (services if what == "main.py" else below) if what.encode() in words]

    @staticmethod
    def journals():
        return set(os.listdir("lab.lab/journals"))

    def kill(self, *whats):
        """Kills processes; those of a launcher that goes on start again."""
        pids = [pid for what in whats for pid in self.pids(what)]
        for pid in pids:
            os.kill(pid, signal.SIGKILL)
        return pids


class Page:
    """A student's page, as far as the service sees it."""

    def __init__(self, of, link, name="0" * 15 + "1", **more):
        self.of, self.link, self.name, self.more = of, link, name, more
        self.shown, self.typed, self.wanted, self.state, self.refused = "", 0, 0, {}, []
        self.sent = 0

    async def __aenter__(self):
        self.session = aiohttp.ClientSession()
        await self.connect()
        return self

    async def __aexit__(self, *_):
        self.reading.cancel()
        await self.socket.close()
        await self.session.close()

    async def connect(self):
        self.socket = await self.session.ws_connect(f"{self.link}socket?page={self.name}", headers={"Origin": self.of.origin}, max_msg_size=0)
        self.reading = asyncio.create_task(self.hear())

    async def again(self):
        """Connects again, as often as it takes; how long it took."""
        begun = time.monotonic()
        self.reading.cancel()
        while True:
            try:
                await self.connect()
                return time.monotonic() - begun
            except (aiohttp.ClientError, OSError):
                await asyncio.sleep(0.05)

    async def hear(self):
        async for message in self.socket:
            if message.type == aiohttp.WSMsgType.TEXT:
                self.take(json.loads(message.data))

    def take(self, told):
        match told["type"]:
            case "hello":
                self.told, self.wanted = told, told["wanted"]
            case "anew":
                self.shown = told["text"]
            case "shown":
                self.shown += told["text"]
            case "typed":
                self.typed = told["count"]
            case "state":
                self.state = told["state"]
            case "refused":
                self.refused.append(told["refused"])

    async def type(self, keys):
        await self.socket.send_json({"type": "keys", "at": self.sent, "keys": keys})
        self.sent += len(keys)

    async def sees(self, what, text=None, seconds=10):
        """It has been shown a text, or something holds of it."""
        holds = text if callable(text) else lambda: (text or what) in self.shown
        end = time.monotonic() + seconds
        while not holds() and time.monotonic() < end:
            await asyncio.sleep(0.005)
        if not holds():
            wrong(f"{what}: it isn't so: {self.shown[-150:]!r} {self.state.get('is')} {self.refused[-3:]}")

    async def does(self, line, seen):
        """Types a line behind what was shown, and sees what it shows."""
        begin = len(self.shown)
        await self.type(line)
        await self.sees(f"{line!r} shows {seen!r}", lambda: seen in self.shown[begin:])


class Lecturer(Page):
    def __init__(self, of):
        super().__init__(of, of.links["(lecturer)"])
        self.screens, self.states, self.sessions = {}, {}, []

    async def connect(self):
        self.socket = await self.session.ws_connect(f"{self.link}socket", headers={"Origin": self.of.origin}, max_msg_size=0)
        self.reading = asyncio.create_task(self.hear())

    def take(self, told):
        if told["type"] == "class":
            self.sessions = told["sessions"]
        elif told["type"] == "screens":
            for it in told["screens"]:
                self.states[it["id"]] = it["state"]
                if "screen" in it:
                    before = "" if it["screen"]["type"] == "anew" else self.screens.get(it["id"], "")
                    self.screens[it["id"]] = before + it["screen"]["text"]
        else:
            super().take(told)

    async def do(self, **what):
        async with self.session.post(f"{self.link}do", json=what, headers={"Origin": self.of.origin}) as reply:
            return reply.status, await reply.json()

    async def did(self, count, **what):
        status, told = await self.do(**what)
        check(status == 200 and told["done"] == count and not told["refused"], f"{what}: {status}, {told}")

    async def get(self, what):
        async with self.session.get(f"{self.link}{what}") as reply:
            return reply.status, await reply.read()

    def id(self, name):
        return next(it["id"] for it in self.sessions if it["name"] == name)


def assembled(name, text):
    """Makes a program of a source."""
    write(f"{name}.asm", text.encode())
    did("asm", f"{name}.asm", f"{name}.com")


def disk(name, *programs):
    """Makes an image with programs on it."""
    did("disk", "new", name)
    for it in programs:
        did("disk", "put", name, f"{it}.com")
