"""The page of an archive: one file of HTML that needs no other, with a row and the last lines of each session, and a plot of their steps.

The rows stand in it as JSON, and page.js makes those that are seen. So 10,000 open at once, and no text of a session becomes a part of the page but as a text.
"""

import base64
import collections
import functools
import hashlib
import html
import json
import os

from archive import HERE, NAME, shown
from plot import ENDS, bar_of, histogram, swatch

# each column's title, whether it holds numbers, and its place in a row; what a narrow window shows of them is the first three
COLUMNS = (
    ("Configuration", False, 0),
    ("What it did", False, 3),
    ("Steps", True, 4),
    ("Bytes shown", True, 5),
    ("Program", False, 6),
    ("Processor", False, 7),
    ("Console", False, 8),
    ("Changed images", False, 9),
)
# the last lines of so many sessions stand together, and are read when one of them is seen
TOGETHER = 100


@functools.cache
def part(name):
    with open(os.path.join(HERE, name), encoding="utf-8") as file:
        return file.read()


def escape(words):
    """A text on the page, without characters that would change how others are shown."""
    return html.escape(shown(words))


def policy(script):
    """What the page may do, whatever stands in it: its own style and this script, and nothing from elsewhere."""
    mark = base64.b64encode(hashlib.sha256(script.encode()).digest()).decode()
    words = f"default-src 'none'; img-src data:; style-src 'unsafe-inline'; script-src 'sha256-{mark}'; base-uri 'none'; form-action 'none'"
    return f'<meta http-equiv="Content-Security-Policy" content="{words}">'


def data(value, attribute):
    """A value as JSON that no HTML ends."""
    words = json.dumps(value, ensure_ascii=False, separators=(",", ":")).replace("<", "\\u003c").replace("&", "\\u0026")
    return f'<script type="application/json" {attribute}>{words}</script>'


# ---- rows


def changed(row):
    """The images that aren't as they were, each with its digest and its files; those of a session that has many in part."""
    for name, digest in row.images.items():
        files = row.files.get(name, [])
        more = f" and {len(files) - 20:,} more" if len(files) > 20 else ""
        yield [shown(name), digest, " ".join(shown(it) for it in files[:20]) + more]


def row_of(row, has_pages):
    has_page = has_pages and bool(NAME.fullmatch(row.configuration))
    told = row.configuration, row.end, row.kind, shown(row.told), row.count, row.bytes, row.program, row.processor, row.console
    return [*told, list(changed(row)), int(has_page)]


def screen_of(row):
    return "\n".join(shown(line) for line in row.screen)


# ---- counts


class Counts:
    """How many sessions ended how, and the bars of their plot: of a part, or of several together."""

    def __init__(self, rows=()):
        self.rows, self.ends, self.kinds, self.bars = 0, collections.Counter(), collections.Counter(), collections.defaultdict(collections.Counter)
        for row in rows:
            self.rows += 1
            self.ends[row.end] += 1
            self.kinds[row.kind] += 1
            if row.count is not None:
                self.bars[bar_of(row.count)][row.end] += 1

    def add(self, other):
        self.rows += other.rows
        self.ends += other.ends
        self.kinds += other.kinds
        for bar, numbers in other.bars.items():
            self.bars[bar] += numbers

    def as_json(self):
        return {"rows": self.rows, "ends": self.ends, "kinds": self.kinds, "bars": self.bars}

    @classmethod
    def of_json(cls, value):
        it = cls()
        it.rows, it.ends, it.kinds = value["rows"], collections.Counter(value["ends"]), collections.Counter(value["kinds"])
        it.bars.update({int(bar): collections.Counter(numbers) for bar, numbers in value["bars"].items()})
        return it


# ---- parts of the page


def head():
    for number, (title, is_number, place) in enumerate(COLUMNS):
        kind = ' class="number"' if is_number else ""
        yield f'<th scope="col"{kind} data-place="{place}"><button type="button">{title}</button></th>'


def numbers_of(counter, group, total, tag):
    """How many sessions ended in each way, the most first; the pattern beside an end is that of the plot."""
    for word, many in sorted(counter.items(), key=lambda it: (-it[1], it[0])):
        mark = swatch(word) if word in ENDS else ""
        inside = f"{mark}<b>{many:,}</b>{escape(word)}<span>{100 * many / total:.1f}%</span>"
        button = f'<button type="button" aria-pressed="false" data-group="{group}" data-word="{escape(word)}">{inside}</button>'
        yield f"<li>{button if tag == 'button' else f'<div>{inside}</div>'}</li>"


def further(counts):
    """The kinds that say more than an end does."""
    return {kind: many for kind, many in counts.kinds.items() if kind not in {end.lower() for end in counts.ends}}


def plots(counts):
    """One for a wide window and one for a narrow one, whose texts are of the same size."""
    wide, narrow = histogram(counts.bars, 1100, 320, "wide"), histogram(counts.bars, 366, 280, "narrow")
    return f"<h2>Steps</h2>\n<figure>{wide}{narrow}</figure>" if wide else ""


def begun(title, told, counts, script, tag):
    """The page up to its plots."""
    return f"""<!doctype html>
<html lang="en">
<head>
<meta charset="utf-8">
{policy(script)}
<meta name="viewport" content="width=device-width, initial-scale=1">
<title>{escape(title)}</title>
<link rel="icon" href="data:,">
<style>
{part("page.css")}</style>
</head>
<body>
<h1>{escape(title)}</h1>
<p>{told}</p>
<ul class="ends" aria-label="Ends">{"".join(numbers_of(counts.ends, "end", counts.rows, tag))}</ul>
<ul class="ends" aria-label="What they did">{"".join(numbers_of(further(counts), "kind", counts.rows, tag))}</ul>
{plots(counts)}
"""


def page(title, rows, missing, counts, pages):
    """The page of these rows; `pages` is where the pages of their configurations are, if there are any."""
    told = f"{len({row.configuration for row in rows}):,} configurations with {len(rows):,} rows"
    told += f"; without a result yet: {missing:,}" if missing else ""
    script = part("page.js")
    screens = [[screen_of(row) for row in rows[at : at + TOGETHER]] for at in range(0, len(rows), TOGETHER)]
    return f"""{begun(title, f"{told}. A digest is the first 12 digits of SHA-256; summary.csv has all of it.", counts, script, "button")}<h2>Sessions</h2>
<div class="choices">
<label>Only rows with <input type="search" autocomplete="off"></label>
<label class="tick"><input type="checkbox" checked> their last 24 lines</label>
<output>{len(rows):,} shown</output>
</div>
<noscript><p>This page makes its rows by a script of its own; summary.csv has them too.</p></noscript>
<div class="table" tabindex="0" role="region" aria-label="Sessions" data-pages="{pages}">
<table>
<thead><tr>{"".join(head())}</tr></thead>
<tbody></tbody>
</table>
<div class="end"></div>
</div>
{data([row_of(row, pages != "") for row in rows], 'id="rows"')}
{chr(10).join(data(it, 'class="screens"') for it in screens)}
<script>{script}</script>
</body>
</html>
"""


def overview(title, parts, missing, counts):
    """The page of an archive whose rows stand on pages of their own, each with its file, its first and last configuration, and its counts."""
    rows = "".join(
        f'<tr><th scope="row"><a href="{file}">{escape(first)} .. {escape(last)}</a></th><td class="number">{it.rows:,}</td>'
        f"<td>{', '.join(f'{many:,} {escape(kind)}' for kind, many in it.kinds.most_common())}</td></tr>"
        for file, first, last, it in parts
    )
    told = f"{counts.rows:,} rows on {len(parts):,} pages" + (f"; without a result yet: {missing:,}" if missing else "")
    return f"""{begun(title, f"{told}. summary.csv has all of them.", counts, "", "div")}<h2>Sessions</h2>
<div class="table" tabindex="0" role="region" aria-label="Pages">
<table>
<thead><tr><th scope="col"><div>Configurations</div></th><th scope="col" class="number"><div>Rows</div></th><th scope="col"><div>What they did</div></th></tr></thead>
<tbody>
{rows}
</tbody>
</table>
</div>
</body>
</html>
"""
