"""What the tests share: the programs, the files of a test, what is found wrong, terminals, processes that are traced, cpmtools, code that is read.

A test makes its files in a folder of its own (`folder`), reports what is wrong (`wrong`, `check`), and ends with the status of `ended`.
It needs Python 3.9 or later.
"""

import contextlib
import ctypes
import fcntl
import os
import pty
import re
import signal
import subprocess
import sys
import tempfile
import termios
import threading
import time
import tty
from typing import NamedTuple

ROOT = os.path.dirname(os.path.dirname(os.path.realpath(__file__)))
NAME = os.path.relpath(os.path.realpath(sys.argv[0]), ROOT)
# how long a program may take
SECONDS = 120


def program(variable, usual):
    """The path of the program that a variable names, or of the one that is usually there."""
    return os.path.realpath(os.environ.get(variable, os.path.join(ROOT, usual)))


CPMHOST = program("CPMHOST", "release/cpmhost")
TEST_ROWS = program("TEST_ROWS", "release/test_rows")

# ---- what is wrong

faults = []


def wrong(what):
    faults.append(what)
    print(f"{NAME}: {what}", flush=True)


def check(holds, what):
    if not holds:
        wrong(what)


def skip(what, why):
    print(f"{NAME}: skipped: {what}, since {why}")


def stop(what):
    sys.exit(f"{NAME}: {what}")


def ended(what):
    """The status of a test, which says what it has shown where nothing is wrong."""
    if not faults:
        print(f"{NAME}: {what}")
    return 1 if faults else 0


# ---- files

# the image of a blank small disk
BLANK = b"\xe5" * 256256


def write(name, data):
    with open(name, "wb") as file:
        file.write(data)


def read(name):
    with open(name, "rb") as file:
        return file.read()


def text_of(name):
    """The text of a file of the repository. (One of the faulty files of rows is no text.)"""
    with open(os.path.join(ROOT, name), encoding="utf-8", errors="replace") as file:
        return file.read()


def files_beside():
    """The names of the files in this folder that the program makes beside those that it writes."""
    return [name for name in os.listdir(".") if name.startswith(".cpmhost-")]


def texts_beside():
    """What those files hold. One may go once it is listed, as that by which the program tries whether it can write: it is left out."""
    texts = []
    for name in files_beside():
        with contextlib.suppress(FileNotFoundError):
            texts.append(read(name))
    return texts


# where files are in memory, if the machine has such a place: what is flushed there takes no time
IN_MEMORY = "/dev/shm" if os.access("/dev/shm", os.W_OK | os.X_OK) else None


@contextlib.contextmanager
def folder(where=None):
    """A new folder for the files of a test, which works in it meanwhile; somewhere, or in the usual place."""
    before = os.getcwd()
    with tempfile.TemporaryDirectory(prefix=f"{os.path.basename(NAME)}-", dir=where) as room:
        os.chdir(room)
        try:
            yield room
        finally:
            os.chdir(before)


def until(holds):
    """Waits until something holds; what it gave last, so whether it held."""
    begun = time.monotonic()
    while not (last := holds()) and time.monotonic() < begun + SECONDS:
        time.sleep(0.01)
    return last


# ---- the program


class Ran(NamedTuple):
    out: bytes
    err: bytes
    status: int


def run_command(*words, given=b"", **how):
    """What a command did, with this on standard input; `how` is for subprocess.run."""
    done = subprocess.run(words, input=given, capture_output=True, timeout=SECONDS, **how)
    return Ran(done.stdout, done.stderr, done.returncode)


def run(*words, given=b"", before=None):
    """What the program did by these words, with this on standard input; `before` is called in the new process."""
    return run_command(CPMHOST, *words, given=given, preexec_fn=before)


def did(*words, given=b""):
    """What the program did, where it must succeed."""
    ran = run(*words, given=given)
    if ran.status:
        stop(f"{' '.join(words)} ended with status {ran.status}: {(ran.err + ran.out).decode(errors='replace')[-300:]}")
    return ran


def last_line(error):
    """The last line of a text, as the one on standard error that says how a program ended."""
    return error.decode().splitlines()[-1]


# ---- code that is read

# what is no code: comments, texts, and characters, which are one between two quotes
NO_CODE = re.compile(r"//[^\n]*|/\*.*?\*/|b?\"(?:\\.|[^\"\\])*\"|b?'(?:\\[^']+|[^'\\\n])'", re.DOTALL)


def without_texts(code):
    """The code with blanks for comments, texts and characters."""
    return NO_CODE.sub(lambda found: re.sub(r"[^\n]", " ", found.group()), code)


def after_braces(code, place):
    """The place after the braces that open here."""
    depth = 0
    for at in range(place, len(code)):
        depth += (code[at] == "{") - (code[at] == "}")
        if depth == 0:
            return at + 1
    raise ValueError("braces that nothing closes")


# ---- terminals


def has_terminals():
    try:
        for file in pty.openpty():
            os.close(file)
    except OSError:
        return False
    return True


def shown_at_terminal(stream, *words, given=b""):
    """What a terminal gets that is the standard output of the program alone ("stdout"), or its standard error ("stderr"), or "both"; and the status."""
    ours, theirs = pty.openpty()
    tty.setraw(theirs)
    streams = {name: theirs if stream in (name, "both") else subprocess.DEVNULL for name in ("stdout", "stderr")}
    process = subprocess.Popen([CPMHOST, *words], stdin=subprocess.PIPE, **streams)
    os.close(theirs)
    process.stdin.write(given)
    process.stdin.close()
    text = b""
    try:
        while part := os.read(ours, 65536):
            text += part
    except OSError:
        pass  # (the terminal's other end is closed)
    os.close(ours)
    return text, process.wait(timeout=SECONDS)


class Terminal:
    """A program at a pseudo-terminal, which gives each key as it is typed."""

    SIGNALS = "HUP", "INT", "QUIT", "USR1", "USR2", "PIPE", "ALRM", "TERM"

    def __init__(self, *words, program=CPMHOST, **how):
        self.program = program
        self.master, slave = pty.openpty()
        self.prepare(slave)

        def has_terminal():
            # a session of its own with this terminal, so that a window that is closed hangs it up; and signals as a shell gives them, which
            # who started this may ignore
            fcntl.ioctl(0, termios.TIOCSCTTY, 0)
            for name in (*self.SIGNALS, "TSTP"):
                signal.signal(getattr(signal, f"SIG{name}"), signal.SIG_DFL)

        streams = {"stdin": slave, "stdout": subprocess.PIPE, "stderr": subprocess.PIPE, **self.screen(slave)}
        self.process = subprocess.Popen([program, *words], start_new_session=True, preexec_fn=has_terminal, **streams, **how)
        os.close(slave)

    def prepare(self, slave):
        tty.setraw(slave)

    def screen(self, slave):
        """Which other streams are the terminal too."""
        return {}

    def type(self, keys):
        """Types keys, as fast as they are taken."""

        def work():
            rest = keys
            while rest:
                rest = rest[os.write(self.master, rest[:512]) :]

        thread = threading.Thread(target=work, daemon=True)
        thread.start()
        return thread

    def end(self):
        out, error = self.process.communicate(timeout=SECONDS)
        os.close(self.master)
        return Ran(out, error, self.process.returncode)

    def close(self):
        """Closes the window."""
        os.close(self.master)
        out, error = self.process.communicate(timeout=SECONDS)
        return Ran(out, error, self.process.returncode)


class Window(Terminal):
    """A program at a terminal as a shell leaves it."""

    def prepare(self, slave):
        self.before = termios.tcgetattr(slave)
        # (what the terminal is can be asked as long as one end is open)
        self.slave = os.dup(slave)

    def is_raw(self):
        return not termios.tcgetattr(self.slave)[3] & (termios.ICANON | termios.ECHO)

    def await_raw(self):
        return until(self.is_raw)

    def ends(self, what, status):
        """It ends so, and the terminal is as it was."""
        out, error = self.process.communicate(timeout=SECONDS)
        check(self.process.returncode == status, f"{what}: it ends with {self.process.returncode}, and not {status}: {error!r}")
        check(termios.tcgetattr(self.slave) == self.before, f"{what}: the terminal is left otherwise than it was")
        os.close(self.slave)
        os.close(self.master)
        return out, error


class Watched(Window):
    """A program at a terminal, of which is seen what it prints while it does."""

    def __init__(self, *words, **how):
        super().__init__(*words, **how)
        self.shown = bytearray()
        self.thread = threading.Thread(target=self.watch, daemon=True)
        self.thread.start()

    def watch(self):
        while part := os.read(self.process.stdout.fileno(), 65536):
            self.shown += part

    def types(self, keys):
        """Types keys once the terminal gives each."""
        self.await_raw()
        self.type(keys).join()

    def sees(self, what, holds):
        """It has printed a text that holds."""
        check(until(lambda: holds(self.shown) or self.process.poll() is not None) and holds(self.shown), f"{what}: it shows {bytes(self.shown[-60:])!r}")

    def ends(self, what, status):
        """It ends so, and the terminal is as it was; what it printed, and what it said."""
        self.thread.join(timeout=SECONDS)
        _, error = super().ends(what, status)
        return bytes(self.shown), error


class Screen(Window):
    """A program that also prints to its terminal."""

    def screen(self, slave):
        return {"stdout": slave}


# ---- a process that is traced (Linux on x86-64)

LIBC = ctypes.CDLL(None, use_errno=True)
LIBC.ptrace.restype = ctypes.c_long
LIBC.ptrace.argtypes = [ctypes.c_long, ctypes.c_long, ctypes.c_void_p, ctypes.c_void_p]
TRACEME, PEEK, POKE, CONT, GETREGS, SETREGS, SYSCALL, SETOPTIONS = 0, 1, 4, 7, 12, 13, 24, 0x4200
SYSGOOD, EXITKILL = 1, 0x100000
# places among the registers: the system call's number is the one that RAX had
RAX, CALL, RIP, RSP = 10, 15, 16, 19
# the status of a child that this machine lets nobody trace
UNTRACED = 77
WORD = (1 << 64) - 1


class Traced:
    """A process at its first instruction. It is a PermissionError where nobody may trace one."""

    def __init__(self, words, standard, environment):
        self.child = os.fork()
        if self.child == 0:
            for number, file in enumerate(standard):
                os.dup2(file.fileno(), number)
            if LIBC.ptrace(TRACEME, 0, None, None) != 0:
                os._exit(UNTRACED)
            os.execve(words[0], words, environment)
        self.wait()
        if os.WIFEXITED(self.status) and os.WEXITSTATUS(self.status) == UNTRACED:
            raise PermissionError
        LIBC.ptrace(SETOPTIONS, self.child, None, SYSGOOD | EXITKILL)

    def wait(self):
        _, self.status = os.waitpid(self.child, 0)

    def go_on(self, how=CONT):
        """Goes on to what stops it next, or to its end; by SYSCALL also to where it begins or ends a system call."""
        LIBC.ptrace(how, self.child, None, None)
        self.wait()

    def is_stopped(self):
        return os.WIFSTOPPED(self.status)

    def kill(self):
        os.kill(self.child, signal.SIGKILL)
        self.wait()

    def peek(self, address):
        return LIBC.ptrace(PEEK, self.child, address, None) & WORD

    def poke(self, address, word):
        LIBC.ptrace(POKE, self.child, address, word & WORD)

    def registers(self):
        registers = (ctypes.c_ulonglong * 27)()
        LIBC.ptrace(GETREGS, self.child, None, ctypes.cast(registers, ctypes.c_void_p))
        return registers

    def put_registers(self, registers):
        LIBC.ptrace(SETREGS, self.child, None, ctypes.cast(registers, ctypes.c_void_p))


# ---- cpmtools

RECORD = 128
# where its packages have the definitions of formats
DISKDEFS = "/etc/cpmtools/diskdefs", "/usr/local/share/diskdefs", "/usr/share/diskdefs"


class Item(NamedTuple):
    """A file on a disk."""

    user: int
    name: str
    data: bytes
    read_only: bool = False
    system: bool = False

    @property
    def listed(self):
        return self.user, self.name, self.read_only, self.system

    @property
    def filled(self):
        """Its bytes in whole records."""
        return self.data + b"\x1a" * (-len(self.data) % RECORD)


class Cpmtools:
    """The commands of cpmtools: those in a folder where it was built, or those that are installed. It works in the folder of a test."""

    def __init__(self, of):
        self.folder = of and os.path.realpath(of)
        known = [it for it in ([f"{self.folder}/diskdefs"] if of else DISKDEFS) if os.path.exists(it)]
        if not known:
            stop("there is no file diskdefs of cpmtools")
        # (it reads such a file of the folder that it works in, in place of its own)
        write("diskdefs", read(known[0]) + read(f"{ROOT}/docs/diskdefs"))

    def run(self, tool, form, *words):
        command = f"{self.folder}/{tool}" if self.folder else tool
        return subprocess.run([command, "-f", form, *words], capture_output=True)

    def call(self, tool, form, *words):
        done = self.run(tool, form, *words)
        if done.returncode:
            stop(f"{tool} -f {form} {' '.join(words)}: {done.returncode}: {(done.stderr + done.stdout).decode(errors='replace')[-300:]}")
        return done.stdout.decode("latin-1")

    def put(self, form, image, item):
        write("file", item.data)
        self.call("cpmcp", form, image, "file", f"{item.user}:{item.name}")
        for letter in "r" * item.read_only + "s" * item.system:
            self.call("cpmchattr", form, image, letter, f"{item.user}:{item.name}")

    def get(self, form, image, item, *options):
        if os.path.exists("taken"):
            os.remove("taken")
        self.call("cpmcp", form, *options, image, f"{item.user}:{item.name}", "taken")
        return read("taken")

    def names(self, form, image):
        """User, name and attributes of each file."""
        found = {}
        for option in ("-A", "-l"):
            user = 0
            for line in self.call("cpmls", form, option, image, "*").split("\n"):
                if re.fullmatch(r"[0-9]+:", line):
                    user = int(line[:-1])
                elif line.strip():
                    marks, *_, name = line.split()
                    found.setdefault((user, name.upper()), []).append(marks)
        return {(user, name, "w" not in mode, "s" in marks) for (user, name), (marks, mode) in found.items()}

    def check(self, form, image):
        """The last line of fsck.cpm, which must find no fault."""
        return self.call("fsck.cpm", form, "-n", image).splitlines()[-1]
