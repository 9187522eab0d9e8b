"""Runs of a command in the current folder, and what is wrong after one."""

import os
import re
import shutil
import subprocess
from typing import NamedTuple

from disturbed.calls import calls_of
from disturbed.commands import Link
from lib import CPMHOST, SECONDS, Ran, read, write

# the name of a file beside one that is to be replaced, and of one that is kept since it can't have its name, which begins with that
BESIDE = re.compile(r".*\.cpmhost-[0-9a-f]{16}")
# where strace writes the calls, beside the folder of the command
TRACE = "../trace"
# the group of the files that are there before, where this may give it them, and the permissions that they have in it
GROUP = 1234 if os.geteuid() == 0 else os.getegid()
OWN, NARROWED = f"mode 640, group {GROUP}", f"mode 600, group {os.getegid()}"


class Known(NamedTuple):
    """What a command does undisturbed: the files before and after, what it prints, and its calls."""

    old: dict
    new: dict
    out: bytes
    calls: list

    @property
    def written(self):
        """The files that it makes or changes."""
        return [name for name, what in self.new.items() if self.old.get(name) != what]

    @property
    def locks(self):
        return sum(call.kind == "flock" for call in self.calls)


def prepare(command):
    for entry in list(os.scandir(".")):
        if entry.is_dir(follow_symlinks=False):
            shutil.rmtree(entry.path)
        else:
            os.remove(entry.path)
    for name, data in command.files.items():
        if os.path.dirname(name):
            os.makedirs(os.path.dirname(name), exist_ok=True)
        if isinstance(data, Link):
            os.symlink(data.to, name)
        else:
            write(name, data)
            os.chown(name, -1, GROUP)
            os.chmod(name, 0o640)


def look():
    """Each file by its path, with its permissions, its group and its bytes; of a link where it leads."""
    found = {}
    for at, _, names in os.walk("."):
        for name in names:
            path = os.path.normpath(os.path.join(at, name))
            if os.path.islink(path):
                found[path] = "a link", os.readlink(path).encode()
            else:
                status = os.stat(path)
                found[path] = f"mode {status.st_mode & 0o7777:o}, group {status.st_gid}", read(path)
    return found


def strace(command, kinds, *words):
    """The words by which strace writes the calls of these kinds to a file, and has those fail that a command is without."""
    failing = [word for call in command.without for word in ("-e", f"inject={call}")]
    return ["strace", "-qq", "-o", TRACE, "-e", f"trace={','.join([*kinds, *command.missing])}", *failing, *words]


def start(command, tracer=(), before=None, streams=()):
    """What a command did, which a tracer may have. `before` is called in the new process, and streams are those that aren't pipes."""

    def begin():
        for number in command.closed:
            os.close(number)
        if before:
            before()

    if command.without and not tracer:
        tracer = strace(command, [])
    ran = subprocess.run(
        [*tracer, CPMHOST, *command.words],
        input=command.given,
        preexec_fn=begin if command.closed or before else None,
        timeout=SECONDS,
        **{"stdout": subprocess.PIPE, "stderr": subprocess.PIPE, **dict(streams)},
    )
    return Ran(ran.stdout or b"", ran.stderr or b"", ran.returncode)


def learn(command):
    """What a command does undisturbed."""
    prepare(command)
    old = look()
    ran = start(command)
    new = look()
    if (ran.status != 0) != command.is_refused or (command.is_refused and new != old) or beside(new):
        raise RuntimeError(f"{command.name} undisturbed ends with {ran.status}, {ran.err!r}, and leaves {sorted(new)}")
    prepare(command)
    start(command, strace(command, ["all"]))
    return Known(old, new, ran.out, [call for call in calls_of(read(TRACE).decode(errors="replace")) if call.kind not in command.missing])


# ---- what is wrong after it


def beside(found):
    return [name for name in found if BESIDE.fullmatch(os.path.basename(name))]


def files_wrong(known, found, may_narrow=False):
    """What is wrong with the files, but for those beside. Where a group can't be given, fewer may read them."""
    left = beside(found)
    for name, was in known.old.items():
        mode, data = found.get(name, ("nothing", b""))
        if data not in (was[1], known.new[name][1]):
            yield f"'{name}' is neither what it was nor what it would be: {mode}, {len(data)} bytes"
        elif mode != was[0] and not (may_narrow and (was[0], mode) == (OWN, NARROWED)):
            yield f"'{name}', of {was[0]}, is {mode} then"
    for name, (mode, data) in found.items():
        if name not in known.old and name not in left and (mode, data) != known.new.get(name):
            yield f"'{name}' is there, and not as it would be: {mode}, {len(data)} bytes"


def is_begun(known, data):
    """Whether bytes are the first ones of a file that would be written."""
    return any(mode.startswith("mode") and new.startswith(data) for mode, new in known.new.values())


def killed_wrong(known, found):
    """What is wrong with the files after a kill. All files of a command are made beside before the first has its name, and tried one by one before."""
    yield from files_wrong(known, found)
    left = beside(found)
    if len(left) > max(len(known.written), 1) or not all(is_begun(known, found[name][1]) for name in left):
        yield f"beside stay {[(name, len(found[name][1])) for name in left]}"


def left_wrong(known, found, ran, may_stay):
    """What is wrong with the files beside, which may stay where they couldn't be removed, or where that is told."""
    for name in beside(found):
        is_told = os.path.basename(name).encode() in ran.err
        if not (may_stay or is_told) or not is_begun(known, found[name][1]):
            yield f"'{name}' stays beside, {'told' if is_told else 'untold'}, with {len(found[name][1])} bytes"


def ended_wrong(known, found, ran, is_heard):
    """What is wrong with the status, and with the refusal where that can be heard."""
    left = beside(found)
    if ran.status == 0:
        if {name: data for name, (_, data) in found.items() if name not in left} != {name: data for name, (_, data) in known.new.items()}:
            yield "it ends with status 0, and not all that it would write is there"
    else:
        last = ran.err.decode(errors="replace").splitlines()[-1:]
        if not 1 <= ran.status <= 9 or (is_heard and not any(line.startswith(f"cpmhost: HO{ran.status} ") for line in last)):
            yield f"it ends with {ran.status}, {last}"


def error_wrong(command, known, ran, may_stay=False, is_heard=True, is_shown=True, may_narrow=False):
    """What is wrong after an error: files may stay beside, a refusal can be heard, what is printed is shown, and a group couldn't be given."""
    found = look()
    if command.is_refused and ran.status == 0:
        yield f"it isn't refused, and writes {[name for name, old in known.old.items() if found.get(name) != old]}"
        return
    is_heard = is_heard and 2 not in command.closed
    torn = list(files_wrong(known, found, may_narrow))
    yield from torn
    yield from left_wrong(known, found, ran, may_stay or not is_heard)
    if not torn:
        yield from ended_wrong(known, found, ran, is_heard)
    if is_shown and (not known.out.startswith(ran.out) or (ran.status == 0 and ran.out != known.out)):
        yield f"it ends with {ran.status} and prints {ran.out[-100:]!r}"
