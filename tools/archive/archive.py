"""What the scripts of tools/archive share: where the parts of an archive are, its configurations and their results.

An archive is a folder:

    configs/NAME.toml   the configurations; each is run in a folder two below the archive, so it names what it reads
                        ../../images/.. and ../../keys/.., and what it writes by plain names. What begins with a dot there, as
                        an editor's lock does, is no configuration; nor is what doesn't end so
    images/, keys/      what they read
    within              further folders that they may read, a line each, absolute or as they are from the archive; where it isn't there, none
    savings/NAME/       the savings of the result NAME that other configurations go on from, if tools/archive/more made some
    results/NAME/       what a configuration gave: the files that it names, and `report`, which is what the program printed,
                        with `status N` as its last line. A result is there whole or not at all
    work/               configurations that are being run, or were cut off
    run/                the list of all configurations, and the log of GNU parallel
"""

import contextlib
import hashlib
import os
import re
import subprocess
import sys
import unicodedata

HERE = os.path.dirname(os.path.realpath(__file__))
TOP = os.path.dirname(os.path.dirname(HERE))
JOB = f"{HERE}/job"
# the job by the Python that is running, since what `env` finds may be a script that looks for one; it needs no modules but Python's own
JOB_WORDS = sys.executable, "-I", "-S", JOB
# (names are words of commands, of logs and of manifests, so they have no characters that mean something there)
NAME = re.compile(r"[A-Za-z0-9][A-Za-z0-9._-]*")
# so many configurations are summed up together
PART = 10_000
# the categories of Unicode of characters that aren't shown: controls, formats (U+202E), surrogates, separators of lines and paragraphs
HIDDEN = "Cc", "Cf", "Cs", "Zl", "Zp"


class Refusal(Exception):
    """Why nothing is done."""


def program():
    """The program that CPMHOST names, or ./cpmhost; for that script, or the one that release/install makes of it, the program that it runs."""
    named = os.path.realpath(os.environ.get("CPMHOST", f"{TOP}/cpmhost"))
    try:
        with open(named, "rb") as file:
            is_script = file.read(2) == b"#!"
    except OSError as error:
        raise Refusal(f"can't read {named}: {error.strerror}")
    if not is_script:
        return named
    run = [f"{os.path.dirname(named)}/{it}" for it in ("out/cpmhost", "release/cpmhost", "../lib/cpmhost/cpmhost")]
    found = next(filter(os.path.isfile, run), None)
    if not found:
        raise Refusal(f"{named} has no program to run")
    return os.path.realpath(found)


def environment():
    return {**os.environ, "CPMHOST": program()}


def digest(*path):
    with open(os.path.join(*path), "rb") as file:
        return hashlib.file_digest(file, "sha256").hexdigest()


def text(*path):
    with open(os.path.join(*path), encoding="utf-8", errors="replace") as file:
        return file.read()


@contextlib.contextmanager
def replaced(*path, is_synced=True):
    """A file to be written, that is whole or as it was. One that isn't synced is so unless the machine goes down."""
    target = os.path.join(*path)
    with open(f"{target}.new", "w", encoding="utf-8", newline="") as file:
        yield file
        file.flush()
        if is_synced:
            os.fsync(file.fileno())
    os.replace(f"{target}.new", target)


def replace(data, *path, is_synced=True):
    """Writes a file that is whole or as it was."""
    with replaced(*path, is_synced=is_synced) as file:
        file.write(data)


def named(folder):
    """The name of each configuration, in any order."""
    try:
        with os.scandir(f"{folder}/configs") as found:
            yield from (it.name[: -len(".toml")] for it in found if it.name.endswith(".toml") and not it.name.startswith("."))
    except OSError as error:
        raise Refusal(f"{folder} is no archive: can't read its folder configs: {error.strerror}")


def names(folder):
    """The names of an archive's configurations, in their order."""
    listed = sorted(filter(NAME.fullmatch, named(folder)))
    if not listed:
        raise Refusal(f"{folder} has no configurations")
    return listed


def has_result(folder, name):
    return os.path.isdir(f"{folder}/results/{name}")


def further(folder):
    """The folders that the archive's file `within` names."""
    try:
        with open(f"{folder}/within", encoding="utf-8", errors="surrogateescape", newline="\n") as file:
            return [it for it in file.read().split("\n") if it]
    except FileNotFoundError:
        return []
    except OSError as error:
        raise Refusal(f"can't read {folder}/within: {error.strerror}")


def check_further(folder):
    """Refuses a folder of `within` that isn't there; and one by which a configuration would read what another has just written."""
    for it in further(folder):
        if not os.path.isdir(os.path.join(folder, it)):
            raise Refusal(f"{folder}/within names {written(it)}, which is no folder")
        path = os.path.realpath(os.path.join(folder, it))
        for part in ("work", "results"):
            own = os.path.realpath(f"{folder}/{part}")
            if os.path.commonpath([own, path]) in (own, path):
                raise Refusal(f"{folder}/within names {written(it)}, which has the folder {part} in it or lies in it")


def prepare(folder):
    """The folders and the list of names, which a run needs; the names."""
    listed = names(folder)
    check_further(folder)
    for part in ("work", "results", "run"):
        os.makedirs(f"{folder}/{part}", exist_ok=True)
    replace("".join(f"{name}\n" for name in listed), folder, "run", "list")
    return listed


def one_by_one(folder, listed):
    """Runs the configurations that have no result, one after another."""
    # (it inherits the lock of a run, where there is one)
    how = {"cwd": folder, "env": environment(), "stdin": subprocess.DEVNULL, "close_fds": False}
    for at in range(0, len(listed), 500):  # (a command has room for so many words)
        subprocess.run([*JOB_WORDS, ".", *listed[at : at + 500]], **how)


# ---- words


def counted(number, word):
    return f"{number:,} {word}{'s' * (number != 1)}"


def shown(words):
    """A text as a line of a terminal or a page has it: `?` for characters that control, or that turn what stands around them."""
    # (nearly all are printable, of which none is hidden)
    return words if words.isprintable() else "".join("?" if unicodedata.category(it) in HIDDEN else it for it in words)


def written(words):
    """A name or a text in one line, from which its bytes can be read back: a backslash begins a byte or a character that isn't shown."""
    text = words if isinstance(words, str) else words.decode("utf-8", "surrogateescape")
    parts = []
    for it in text:
        if "\udc80" <= it <= "\udcff":
            parts.append(f"\\x{ord(it) - 0xDC00:02x}")
        elif it == "\\":
            parts.append("\\\\")
        elif unicodedata.category(it) in HIDDEN:
            parts.append(f"\\x{ord(it):02x}" if ord(it) < 0x80 else f"\\U{ord(it):08x}")
        else:
            parts.append(it)
    return "".join(parts)


def refusals_end(work):
    """Does the work of a script, whose refusals end it with a line and status 1."""
    try:
        return work()
    except Refusal as refusal:
        sys.exit(f"{os.path.relpath(os.path.realpath(sys.argv[0]), TOP)}: {refusal}")
