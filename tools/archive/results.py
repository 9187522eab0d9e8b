"""What the configurations of an archive gave: a row for each session."""

import functools
import os
import re
import tomllib
from typing import NamedTuple

import endings
from archive import NAME, Refusal, digest, further, named, shown, text

REPORT = re.compile(r"(\S+) ([A-Z][A-Za-z]+) (\d+) (\d+)( waiting)?")
STOPS_IDLE = "# --stop-idle"
# the last line of a report of a configuration that took too long
STOPPED = "status stopped"


class Session(NamedTuple):
    """A row of the summary: a session, or a configuration that was refused."""

    configuration: str
    program: str
    processor: str
    end: str
    count: int | None
    bytes: int | None
    # the digest of the console, and of each image that isn't as it was, by its name
    console: str
    images: dict
    note: str
    # how it ended, of few kinds and in words, and the files that are new, changed or removed on each image
    kind: str
    told: str
    files: dict
    # its last lines, and the file that has its console; neither stands in the table
    screen: list = []
    console_file: str = ""


TABLE = Session._fields[: Session._fields.index("screen")]


def misnamed(folder):
    """The rows of configurations that are not run, since they have a name that none can have."""
    for name in sorted(it for it in named(folder) if not NAME.fullmatch(it)):
        yield from refused(shown(name), "a name of letters, digits and . _ - is wanted")


def plain(name):
    """The name of an output, which lies beside the report."""
    if not name or "/" in name or name.startswith(".") or name.lower() == "report":
        raise Refusal(f"the output '{shown(name)}' is no plain name")
    return name


@functools.lru_cache(maxsize=2)
def readable(folder):
    """The folders that each configuration may read, but for its own."""
    return [os.path.realpath(os.path.join(folder, it)) for it in ("images", "keys", "savings", *further(folder))]


def input_file(folder, result, name):
    """A file that a configuration names, which lies where a run may read."""
    found = os.path.realpath(os.path.normpath(os.path.join(result, name)))
    if not any(found.startswith(f"{it}/") for it in (*readable(folder), os.path.realpath(result))):
        raise Refusal(f"the file '{shown(name)}' is not in the folders that the archive's configurations may read")
    return found


def changed_images(folder, result, session, drives, known):
    """The digests of the images that aren't as they were, and the changes of their files."""
    found, files = {}, {}
    for name, drive in zip(session.get("out", []), drives):
        before = input_file(folder, result, drive)
        if before not in known:
            known[before] = digest(before)
        after = digest(result, plain(name))
        if after != known[before]:
            found[name] = after
            if (before, "files") not in known:
                known[before, "files"] = endings.files_of(before)
            files[name] = endings.changes(known[before, "files"], endings.files_of(f"{result}/{name}"))
    return found, files


def refused(name, note):
    return [Session(name, "", "", "Refused", None, None, "", {}, note, "refused", note, {})]


@functools.lru_cache(maxsize=2)
def config_of(folder, name):
    """The text of a configuration, which is read once for all of its sessions."""
    return text(folder, "configs", f"{name}.toml")


@functools.lru_cache(maxsize=2)
def of_archive(folder, name):
    """The sessions of a configuration."""
    return tomllib.loads(config_of(folder, name))["session"]


def stops_idle(folder, name):
    """Whether a configuration's sessions end where they wait for a key that doesn't come, as tools/archive/job reads it."""
    return config_of(folder, name).partition("\n")[0].rstrip() == STOPS_IDLE


def origin_of(folder, session, sessions, most=100):
    """The session that is opened of which a session is forked, or goes on from a saving of it, in this configuration or another one."""
    if "fork" in session:
        return origin_of(folder, {it["name"]: it for it in sessions}[session["fork"]], sessions, most - 1)
    if "from" not in session:
        return session
    parts = session["from"].split("/")
    if most == 0 or parts[:3] != ["..", "..", "savings"] or len(parts) != 5 or not NAME.fullmatch(parts[3]):
        raise Refusal(f"the saving '{shown(session['from'])}' is not in the archive's savings")
    others = of_archive(folder, parts[3])
    return origin_of(folder, next(it for it in others if it.get("save") == parts[4]), others, most - 1)


def sessions_of(folder, name, known):
    """The rows of a configuration that has its result. `known` keeps the digests of images that are read."""
    result = f"{folder}/results/{name}"
    lines = text(result, "report").splitlines()
    if lines[-1:] == [STOPPED]:
        return [refused(name, lines[-2])[0]._replace(end="Stopped", kind="stopped")]
    if lines[-1:] != ["status 0"]:
        return refused(name, lines[-2] if len(lines) > 1 else "")
    sessions = of_archive(folder, name)
    reports = [it for it in map(REPORT.fullmatch, lines) if it]
    if [it[1] for it in reports] != [it["name"] for it in sessions]:
        raise Refusal("the result isn't that of the configuration")
    return [session_of(folder, name, it, report, sessions, lines, known) for it, report in zip(sessions, reports)]


def session_of(folder, name, session, report, sessions, lines, known):
    """The row of a session, by its line of the report."""
    result = f"{folder}/results/{name}"
    origin = origin_of(folder, session, sessions)
    images, files = changed_images(folder, result, session, origin["drives"], known)
    path = f"{result}/{plain(session['console'])}"
    console, count, size = digest(path), int(report[3]), int(report[4])
    said = f"{session['name']} illegal at "
    note = next((it[len(session["name"]) + 1 :] for it in lines if it.startswith(said)), "")
    data = endings.last_bytes(path)[0]
    screen = endings.screen(data)
    running = count, size, data, bool(report[5]), stops_idle(folder, name), "from" in session
    ending = endings.ending_of(report[2], note, running)
    told = "; ".join(it for it in (ending.told, endings.told_of_files(files)) if it)
    row = name, session["name"], origin["cpu"], report[2], count, size, console, images, note, ending.kind, told, files
    return Session(*row, screen, session["console"])


def is_stopped(folder, name):
    """Whether the result of a configuration is that it took too long."""
    try:
        return text(folder, "results", name, "report").endswith(f"{STOPPED}\n")
    except OSError:
        return False


def rows_of(folder, name, known):
    """The rows of a configuration that has its result, and what is wrong with that, which is then the note of its only row."""
    try:
        return sessions_of(folder, name, known), None
    except Refusal as refusal:
        why = str(refusal)
    except (OSError, LookupError, TypeError, ValueError, StopIteration):
        # (it lacks a file; or the configuration is no TOML any more, or has other keys)
        why = "the result isn't that of the configuration"
    why += f": take the folder results/{name} away, and run the archive again"
    return refused(name, why), why
