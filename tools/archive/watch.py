"""A queue: a folder into which configurations are moved, which workers take into an archive and run, each once.

A configuration of the queue is taken by a second name in the folder configs, which one worker alone can give it; then its name in the queue is taken away.
Whoever runs it holds a lock meanwhile, which its job has too: so it is free when the last process that was at it has ended, whatever ended that, and then
another worker does it. What has a result isn't run again. So nothing has to be remembered, and a worker can be killed at any moment.
"""

import contextlib
import fcntl
import os
import signal
import socket
import subprocess
import sys
import time

from archive import JOB_WORDS, NAME, environment, has_result, names, replace, shown

# how often the queue is looked at, and the whole archive where nothing came into it, since another worker may have been killed
SECONDS, LOOK_SECONDS = 0.5, 10
COUNTERS = {
    "results": "results that this worker has made",
    "refused": "those that are the refusal of a configuration",
    "stopped": "those that were stopped by the bound of seconds",
    "failures": "configurations that got no result, as for a file that isn't there",
    "seconds": "seconds that jobs of this worker took",
}


class Worker:
    """A worker of a queue. `number` tells its work from that of all others."""

    def __init__(self, folder, queue, metrics):
        self.folder, self.queue, self.metrics = folder, queue, metrics
        self.counters = dict.fromkeys(COUNTERS, 0)
        self.number, self.ends = 0, False
        # what can't be taken or run, and was told
        self.told = {}
        # when the archive was looked at, and how its folder of configurations was then
        self.looked = None
        os.makedirs(f"{folder}/run/locks", exist_ok=True)

    def tell(self, name, why):
        if self.told.get(name) != why:
            print(f"tools/archive/run: {shown(name)}: {why}", file=sys.stderr, flush=True)
        self.told[name] = why

    # ---- taking

    def waiting(self):
        """The names of the configurations in the queue. What begins with a dot is still being written."""
        for it in sorted(os.scandir(self.queue), key=lambda it: it.name):
            if it.name.startswith("."):
                continue
            if not it.name.endswith(".toml") or not NAME.fullmatch(it.name[: -len(".toml")]) or not it.is_file(follow_symlinks=False):
                self.tell(it.name, "a file NAME.toml is wanted, with a name of letters, digits and . _ -")
                continue
            yield it.name

    def take(self, name):
        """Takes a configuration into the archive, if no other worker does and none of its name is there."""
        here, there = f"{self.queue}/{name}", f"{self.folder}/configs/{name}"
        try:
            os.link(here, there)
        except FileExistsError:
            # (one that was taken by a worker that was killed then has both names)
            with contextlib.suppress(FileNotFoundError):
                if not os.path.samefile(here, there):
                    self.tell(name, "the archive has another configuration of this name; it stays in the queue")
                    return
        except FileNotFoundError:
            return  # another worker has taken it
        except OSError as error:
            self.tell(name, f"it can't be taken: {error.strerror}")
            return
        with contextlib.suppress(FileNotFoundError):
            os.remove(here)

    # ---- running

    @contextlib.contextmanager
    def locked(self, name):
        """Holds the lock of a configuration; whether it was free. What is started inherits it."""
        path = f"{self.folder}/run/locks/{name}"
        lock = os.open(path, os.O_RDWR | os.O_CREAT, 0o644)
        try:
            fcntl.flock(lock, fcntl.LOCK_EX | fcntl.LOCK_NB)
            os.set_inheritable(lock, True)
            yield True
            with contextlib.suppress(FileNotFoundError):
                os.remove(path)
        except BlockingIOError:
            yield False
        finally:
            os.close(lock)

    def run(self, name):
        """Runs a configuration, if nobody does."""
        if has_result(self.folder, name):
            return
        with self.locked(name) as is_free:
            if not is_free or has_result(self.folder, name):
                return
            self.number += 1
            attempt = {"ATTEMPT": f"{socket.gethostname()}.{os.getpid()}.{self.number}"}
            begun = time.monotonic()
            # (a signal that ends this worker doesn't end the job, whose result is then there)
            how = {"cwd": self.folder, "env": environment() | attempt, "stdin": subprocess.DEVNULL, "close_fds": False, "start_new_session": True}
            is_done = subprocess.run([*JOB_WORDS, ".", name], **how).returncode == 0
            self.count(name, is_done, time.monotonic() - begun)

    def count(self, name, is_done, seconds):
        self.counters["seconds"] += seconds
        if not is_done:
            self.counters["failures"] += 1
            self.told[name] = ""
            return
        self.counters["results"] += 1
        with open(f"{self.folder}/results/{name}/report", "rb") as file:
            status = file.read().rpartition(b"status ")[2].strip()
        self.counters["stopped"] += status == b"stopped"
        self.counters["refused"] += status not in (b"0", b"stopped")

    def write_metrics(self):
        """The counters in the form of Prometheus, in a file that is whole or as it was."""
        if not self.metrics:
            return
        label = f'{{worker="{shown(os.path.basename(self.metrics).partition(".")[0])}"}}'.replace("\\", "")
        queue = "cpmhost_archive_queue"
        lines = [f"# HELP {queue} configurations in the queue\n# TYPE {queue} gauge\n{queue}{label} {sum(1 for _ in self.waiting())}\n"]
        for name, value in self.counters.items():
            whole = f"cpmhost_archive_{name}_total"
            lines.append(f"# HELP {whole} {COUNTERS[name]}\n# TYPE {whole} counter\n{whole}{label} {value:.6g}\n")
        replace("".join(lines), self.metrics, is_synced=False)

    # ---- the work

    def go(self, until_empty):
        """Works the queue off: until it is empty and all is done, or until a signal says so."""
        for number in (signal.SIGHUP, signal.SIGINT, signal.SIGTERM):
            signal.signal(number, lambda *_: setattr(self, "ends", True))
        while not self.ends:
            for name in list(self.waiting()):
                self.take(name)
            self.write_metrics()
            done = 0
            for name in self.left():
                if self.ends:
                    break
                before = self.number
                self.run(name)
                done += self.number - before
                self.write_metrics()
            if not done:
                if until_empty:
                    break
                time.sleep(SECONDS)
        return 1 if self.counters["failures"] else 0

    def has_news(self):
        """Whether the archive is to be looked at once more."""
        now, changed = time.monotonic(), os.stat(f"{self.folder}/configs").st_mtime_ns
        if self.looked and self.looked[1] == changed and now - self.looked[0] < LOOK_SECONDS:
            return False
        self.looked = now, changed
        return True

    def left(self):
        """What has no result, but for what got none here."""
        if not self.has_news():
            return []
        listed = names(self.folder) if any(it.name.endswith(".toml") for it in os.scandir(f"{self.folder}/configs")) else []
        return [name for name in listed if name not in self.told and not has_result(self.folder, name)]
