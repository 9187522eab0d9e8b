"""xterm.js for a browser: the modules of Debian's package node-xterm, wrapped as one script.

(The package libjs-xterm has its style sheet, and a script that no browser can load: it asks for these modules.)
"""

import json
import os
import re
from pathlib import Path

from refusals import WrongConfiguration

MODULES = Path("/usr/share/nodejs/xterm/lib")
STYLES = Path("/usr/share/javascript/xterm/xterm.css"), Path("/usr/share/nodejs/xterm/lib/xterm.css")
FIRST = "public/Terminal.js"
REQUIRE = re.compile(r"require\(\"(\.[^\"]+)\"\)")
WRAPPED = """\
"use strict";
(() => {
    const modules = {%s};
    const made = {};
    const load = name => {
        if (!made[name]) {
            made[name] = {exports: {}};
            modules[name](made[name], made[name].exports, load);
        }
        return made[name].exports;
    };
    window.Terminal = load(%s).Terminal;
})();
"""


def missing() -> WrongConfiguration:
    return WrongConfiguration("xterm.js is not here: install the package node-xterm, which has libjs-xterm with it")


def modules_of(first: str) -> dict[str, str]:
    """The modules that one needs, each with what it requires by its place in the package."""
    found: dict[str, str] = {}
    wanted = [first]
    while wanted:
        name = wanted.pop()
        if name in found:
            continue
        folder = os.path.dirname(name)

        def place(match: re.Match[str], folder: str = folder) -> str:
            other = os.path.normpath(os.path.join(folder, match[1])) + ".js"
            wanted.append(other)
            return f"require({json.dumps(other)})"

        try:
            text = (MODULES / name).read_text(encoding="utf-8")
        except OSError as fault:
            raise missing() from fault
        text = re.sub(r"^//# sourceMappingURL=.*$", "", text, flags=re.M)
        found[name] = REQUIRE.sub(place, text)
    return found


def script() -> bytes:
    modules = modules_of(FIRST)
    wrapped = ",\n".join(f"{json.dumps(name)}: (module, exports, require) => {{\n{text}\n}}" for name, text in modules.items())
    return (WRAPPED % (wrapped, json.dumps(FIRST))).encode()


def style() -> bytes:
    for path in STYLES:
        if path.exists():
            return path.read_bytes()
    raise missing()
