"""The page of a configuration: what each of its sessions showed, to the last byte, what it wrote, and what was typed.

It has no script and needs no other file. What a console has is a text on it: a byte that controls is written as ^ and a letter, so that nothing is hidden.
"""

import html
import os
import re

from archive import Refusal, counted, text
from page import escape, part
from results import input_file, of_archive

# of a longer console its beginning and its end are shown
BEGINNING, END = 1 << 16, 3 << 16
MOST_TEXT = 1 << 16
CONTROLS = re.compile(r"[\x00-\x08\x0b-\x1f\x7f]+")
# (a page without a script may have none, whatever stands in it)
POLICY = "default-src 'none'; img-src data:; style-src 'unsafe-inline'; base-uri 'none'; form-action 'none'"


def visible(data):
    """Bytes of a console as HTML: its lines, with what isn't shown as ^G and the like, and �, a byte of more than seven bits."""
    words = data.decode("ascii", errors="replace").replace("\r\n", "\n")
    found, at = [], 0
    for it in CONTROLS.finditer(words):
        found += [escape_lines(words[at : it.start()]), f"<i>{escape(''.join(f'^{chr(ord(byte) ^ 64)}' for byte in it[0]))}</i>"]
        at = it.end()
    return "".join([*found, escape_lines(words[at:])])


def escape_lines(words):
    if words.replace("\n", "").isprintable():
        return html.escape(words)
    return "\n".join("\t".join(map(escape, line.split("\t"))) for line in words.split("\n"))


def console(path):
    """A console as HTML, or its beginning and its end."""
    size = os.path.getsize(path)
    with open(path, "rb") as file:
        if size <= BEGINNING + END:
            return visible(file.read())
        first = file.read(BEGINNING)
        file.seek(-END, os.SEEK_END)
        return f"{visible(first)}\n<b>.. {size - BEGINNING - END:,} bytes are left out here ..</b>\n{visible(file.read())}"


def cut_text(*path):
    """A text that a person wrote, which isn't shown beyond a bound; nothing where it isn't there, which its row says."""
    try:
        words = text(*path)
    except OSError:
        return ""
    return escape_lines(words[:MOST_TEXT]) + ("\n.." if len(words) > MOST_TEXT else "")


def files_of(row):
    for name in row.images:
        yield f"<h3>{escape(name)}</h3>\n<pre>{escape_lines(chr(10).join(row.files.get(name, [])))}</pre>\n"


def section(folder, row):
    """A session, whose name is its anchor."""
    facts = f"{row.processor}; {row.count:,} steps; {counted(row.bytes, 'byte')} shown" if row.count is not None else ""
    note = f"<p>{escape(row.note)}</p>" if row.note else ""
    shows = console(f"{folder}/results/{row.configuration}/{row.console_file}") if row.console_file else ""
    files = "".join(files_of(row))
    return f"""<section id="{escape(row.program)}">
<h2>{escape(row.program)} <b style="color:var(--{row.end})">{row.end}</b></h2>
<p>{escape(row.told)}</p>
<p>{escape(facts)}</p>
{note}<h3>Last lines</h3>
<pre class="screen">{escape_lines(chr(10).join(row.screen))}</pre>
<h3>Console</h3>
<pre>{shows}</pre>
{files and "<h3>Files that changed: + new, ~ changed, - removed</h3>"}{files}</section>
"""


def scripts_of(folder, name):
    """The names of the key scripts that a configuration's sessions have, each once, and their files. What none may read isn't shown."""
    try:
        named = dict.fromkeys(it["keys"] for it in of_archive(folder, name) if "keys" in it)
    except (OSError, LookupError, TypeError, ValueError):
        return  # (it is none, which its row says)
    for it in filter(lambda it: isinstance(it, str), named):
        try:
            path = input_file(folder, f"{folder}/results/{name}", it)
        except (Refusal, ValueError):
            continue
        if os.path.isfile(path):
            yield it, path


def typed(folder, name):
    """What was typed: the script, or each with its name."""
    found = list(scripts_of(folder, name))
    parts = (f"<h3>{escape(it)}</h3>\n" * (len(found) > 1) + f"<pre>{cut_text(path)}</pre>\n" for it, path in found)
    return f"<h2>Keys</h2>\n{''.join(parts)}" if found else ""


def program_page(folder, name, rows):
    """The page of a configuration, by its rows."""
    return f"""<!doctype html>
<html lang="en">
<head>
<meta charset="utf-8">
<meta http-equiv="Content-Security-Policy" content="{POLICY}">
<meta name="viewport" content="width=device-width, initial-scale=1">
<title>{escape(name)}</title>
<link rel="icon" href="data:,">
<style>
{part("program.css")}</style>
</head>
<body>
<p><a href="../summary.html">All of the archive</a></p>
<h1>{escape(name)}</h1>
{"".join(section(folder, row) for row in rows)}{typed(folder, name)}<h2>Configuration</h2>
<pre>{cut_text(folder, "configs", f"{name}.toml")}</pre>
<h2>Report</h2>
<pre>{cut_text(folder, "results", name, "report")}</pre>
</body>
</html>
"""
