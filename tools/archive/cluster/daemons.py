"""A cluster for tests: munge, Slurm's controller and three of its nodes, as processes of one user on one machine."""

import ctypes
import getpass
import os
import shutil
import signal
import socket
import subprocess
import time

HERE = os.path.dirname(os.path.realpath(__file__))
NODES = "node1", "node2", "node3"
# each command that is needed, and Debian's package that has it
PACKAGES = {"munged": "munge", "slurmctld": "slurmctld", "slurmd": "slurmd", "sbatch": "slurm-client"}
PATH = f"{os.environ.get('PATH', '')}:/usr/sbin:/sbin"
SET_CHILD_SUBREAPER = 36
LIBC = ctypes.CDLL(None)


def missing():
    """The commands that aren't here, with their packages."""
    return [f"{name} (Debian's package {package})" for name, package in PACKAGES.items() if not shutil.which(name, path=PATH)]


def free_ports(many):
    """Ports of the loopback address that nobody has at this moment."""
    sockets = [socket.socket() for _ in range(many)]
    for it in sockets:
        it.bind(("127.0.0.1", 0))
    ports = [it.getsockname()[1] for it in sockets]
    for it in sockets:
        it.close()
    return ports


def parents():
    """Each process's parent."""
    found = {}
    for it in filter(str.isdecimal, os.listdir("/proc")):
        try:
            with open(f"/proc/{it}/stat", encoding="utf-8", errors="replace") as file:
                found[int(it)] = int(file.read().rpartition(")")[2].split()[1])
        except OSError:
            continue  # it has ended meanwhile
    return found


def below(process):
    """A process and all that descend from it, the oldest first."""
    known, found = parents(), [process]
    for it in found:
        found += [child for child, parent in known.items() if parent == it]
    return found


class Daemon:
    """A daemon under a process of its own, whose children all become that the daemon's own children leave behind: so what a node has started is known."""

    def __init__(self, words, environment, log):
        self.process = os.fork()
        if self.process == 0:
            LIBC.prctl(SET_CHILD_SUBREAPER, 1, 0, 0, 0)
            self.keep(words, environment, log)

    @staticmethod
    def keep(words, environment, log):
        """Starts the daemon, and waits for all children until none is left."""
        null, out = os.open(os.devnull, os.O_RDONLY), os.open(log, os.O_WRONLY | os.O_CREAT | os.O_APPEND, 0o644)
        for descriptor, standard in ((null, 0), (out, 1), (out, 2)):
            os.dup2(descriptor, standard)
        os.setsid()
        if os.fork() == 0:
            os.execvpe(words[0], words, environment)
        while True:
            try:
                os.wait()
            except ChildProcessError:
                os._exit(0)

    def is_there(self):
        if self.process is not None and os.waitpid(self.process, os.WNOHANG) != (0, 0):
            self.process = None
        return self.process is not None

    def signal(self, number):
        """Sends a signal to all of it, and to what is started meanwhile."""
        reached = []
        while reached != below(self.process):
            reached = below(self.process)
            for it in reached:
                send(it, number)

    def kill(self):
        """Ends all of it at once, as a machine that loses its power: first nothing of it moves any more, then nothing is left."""
        self.signal(signal.SIGSTOP)
        for it in below(self.process):
            send(it, signal.SIGKILL)
        os.waitpid(self.process, 0)
        self.process = None

    def end(self):
        """Asks it to end, and after ten seconds ends what hasn't."""
        if self.is_there():
            for it in below(self.process)[1:2]:
                send(it, signal.SIGTERM)
        until = time.monotonic() + 10
        while self.is_there() and time.monotonic() < until:
            time.sleep(0.1)
        if self.is_there():
            self.kill()


def send(process, number):
    try:
        os.kill(process, number)
    except ProcessLookupError:
        pass


class Cluster:
    """The daemons, whose files are all in one folder; used by `with`."""

    def __init__(self, room, processors=1):
        self.room = room
        # how many a node has
        self.processors = processors
        self.environment = {**os.environ, "PATH": PATH, "SLURM_CONF": f"{room}/slurm.conf"}
        self.daemons = {}

    def configure(self):
        """Writes the configuration, and munge's key."""
        host = socket.gethostname().partition(".")[0]
        values = {"ROOM": self.room, "HOST": host, "USER": getpass.getuser()}
        values |= zip(("CONTROLLER_PORT", "NODE1_PORT", "NODE2_PORT", "NODE3_PORT"), map(str, free_ports(4)))
        with open(f"{HERE}/slurm.conf", encoding="ascii") as file:
            config = file.read()
        for word, value in values.items():
            config = config.replace(f"@{word}@", value)
        config = config.replace(" CPUs=1\n", f" CPUs={self.processors}\n")
        with open(f"{self.room}/slurm.conf", "w", encoding="ascii") as file:
            file.write(config)
        with open(os.open(f"{self.room}/munge.key", os.O_WRONLY | os.O_CREAT, 0o600), "wb") as file:
            file.write(os.urandom(128))
        for name in ("state", *NODES):
            os.mkdir(f"{self.room}/{name}")
        os.chmod(self.room, 0o755)  # munged wants its socket's folder open to all

    def start(self, name, *words):
        self.daemons[name] = Daemon(words, self.environment, f"{self.room}/{name}.out")

    def __enter__(self):
        self.configure()
        files = [f"--{it}={self.room}/munge.{end}" for it, end in (("key-file", "key"), ("socket", "socket"), ("pid-file", "pid"), ("log-file", "log"), ("seed-file", "seed"))]
        try:
            self.start("munged", "munged", "--foreground", *files)
            self.wait("munged's socket", lambda: os.path.exists(f"{self.room}/munge.socket"))
            self.start("slurmctld", "slurmctld", "-D")
            for node in NODES:
                self.start(node, "slurmd", "-D", "-N", node)
            self.wait("three idle nodes", lambda: sorted(self.said("sinfo", "-h", "-N", "-o", "%N %t")) == [f"{it} idle" for it in NODES])
        except BaseException:
            self.__exit__()
            raise
        return self

    def __exit__(self, *_):
        for name in reversed([*self.daemons]):
            self.daemons.pop(name).end()

    def wait(self, what, holds, seconds=60):
        until = time.monotonic() + seconds
        while not holds():
            if time.monotonic() > until:
                raise TimeoutError(f"no {what} after {seconds} seconds; the daemons said:\n{self.last_lines()}")
            time.sleep(0.2)

    def last_lines(self):
        """The ends of the daemons' logs."""
        found = []
        for name in sorted(it for it in os.listdir(self.room) if it.endswith((".out", ".log"))):
            with open(f"{self.room}/{name}", encoding="utf-8", errors="replace") as file:
                found += [f"{name}: {line}" for line in file.read().splitlines()[-5:]]
        return "\n".join(found)

    def said(self, *words):
        """The lines that a command of Slurm prints."""
        return subprocess.run(words, env=self.environment, stdin=subprocess.DEVNULL, capture_output=True, text=True).stdout.splitlines()
